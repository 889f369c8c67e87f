"""Runs examples/fleet, tables in several processes by Redis Streams, against the model: one table with a place for every key.

    python3 reference/run_redis.py [SEED]

It needs redis-server, and starts its own, on a free port of this machine and in a folder of its own. 4,000 aircraft send 100,000
messages over more than ten minutes of their own time, with late and damaged ones, some of another length, and silences. The merged
listing at ten moments must be the model's, byte by byte:

- with all parts in one process, without Redis;
- with 3 receivers, the dealer and 8 workers in processes of their own. Two workers, the dealer and two receivers are killed at random
  moments. For a while there is a second dealer, by mistake. Redis is killed and started again. After two questions the dealer is killed
  at once, and after one Redis is;
- at two of the moments with connections that break before a command or after it, and parts that die there, at every step by chance. A
  transaction may come late over an old connection, and a twin may work between WATCH and MULTI.

No table takes a message twice. Redis must have thrown away what everybody has read. Live lines that waited are lost, and counted. The
first difference is named, and the status is 1. No process is left. A crash of the machine is not tried: what a killed Redis wrote, the
system still has, with appendfsync or without.
"""

import ctypes
import signal
import socket
import subprocess
import sys
import time
from contextlib import suppress
from pathlib import Path
from random import Random
from tempfile import TemporaryDirectory

import messages
import survey
import traffic
from programs import ROOT
from refusals import Refused

FLEET = ROOT / "examples/fleet"
sys.path.insert(0, str(FLEET))
import fleet  # noqa: E402
from store import Away, Overtaken, Redis, packed  # noqa: E402

SHARDS, AIRCRAFT, MESSAGES, MOMENTS = 8, 4_000, 100_000, 10
SECOND, MINUTE = 1_000, 60_000
SPAN, SILENCE = 11 * MINUTE, 130 * SECOND  # the silence is longer than a track is held
LUMP = 400  # lines that a receiver is given at once
NAMES = "north", "south", "roof"
PATIENCE = 100  # seconds for anything to come


def due(what, found, expected):
    """Ends the test if something else was found."""
    if found != expected:
        pairs = enumerate(zip(found.splitlines(), expected.splitlines()))
        at = next((number for number, (one, other) in pairs if one != other), "the end")
        texts = [text.splitlines() for text in (found, expected)]
        lines = [f"{len(text)} lines" if at == "the end" else text[at] for text in texts]
        sys.exit(f"run_redis: {what}: line {at}: found {lines[0]}, and the model has {lines[1]}")


# The stream


def aircraft(chance, number):
    """The sender of an aircraft, and where it is."""
    head = chance.choice((traffic.TRANSPONDER,) * 8 + (traffic.NO_TRANSPONDER, traffic.OTHER, *traffic.GROUND, traffic.OF_STATION))
    place = chance.randrange(-(2**29), 2**29), chance.randrange(2**32)
    return head, number * 4_099 % 2**24, place


def heard(chance, head, address, place, i):
    """A message of it: a position more often than not."""
    if head == traffic.OF_STATION:
        return traffic.coarse(address, i, place, station=address % 16)
    if len(head) == 3 or chance.random() < 0.6:
        return traffic.airborne(head, address, i, place, altitude=traffic.altitude_code(chance.randrange(0, 40_000, 25)))
    other = chance.randrange(4)
    if other == 0:
        return traffic.identification(head, address, f"AC{address % 10_000}")
    if other == 1:
        return traffic.velocity(head, address, chance.randrange(-400, 400), chance.randrange(-400, 400))
    return traffic.no_position(head, address) if other == 2 else traffic.surface(head, address, i, place)


def calls(chance):
    """The messages with their times, in order: each aircraft comes and goes, and for more than two minutes nobody is heard."""
    found, each = [], MESSAGES // AIRCRAFT
    for number in range(AIRCRAFT):
        head, address, place = aircraft(chance, number + 1)
        starts = [chance.randrange(SPAN) for _ in range(4)]
        for count in range(each):
            at = starts[count * len(starts) // each] + chance.randrange(20 * SECOND)
            found.append((at + SILENCE * (at > SPAN // 2), heard(chance, head, address, place, chance.randrange(2))))
    return sorted(found)


def harmed(chance, string):
    """A message with a bit flipped, or of another length."""
    if chance.random() < 0.25:
        return chance.choice((string[:7], string[:-1], string + b"\0"))
    at = chance.randrange(112)
    return (int.from_bytes(string, "big") ^ 1 << at).to_bytes(14, "big")


def stream(chance):
    """.. and three of a hundred come late, and three are harmed."""
    found = [(at + (chance.randrange(1, 30 * SECOND) if chance.random() < 0.03 else 0), at, string) for at, string in calls(chance)]
    return [(at, harmed(chance, string) if chance.random() < 0.03 else string) for _, at, string in sorted(found)]


def lines_of(records):
    """Records as the lines of a receiver."""
    return b"".join(b"%d *%b;\n" % (at, string.hex().encode("ascii")) for at, string in records)


def moments_of(chance, records):
    """Ten numbers of messages after which there is a listing: just behind the silence too, and the last one."""
    first = next(number for number, (at, _) in enumerate(records) if at > SPAN // 2 + SILENCE)
    others = chance.sample([number for number in range(len(records) // 20, len(records)) if number != first + 1], MOMENTS - 2)
    return sorted([first + 1, len(records), *others])


def dealt(records):
    """How many messages the tables get, all together: those that are not late, and have a key."""
    clock, count = 0, 0
    for at, string in records:
        if len(string) == 14 and at >= clock:
            clock, count = at, count + has_key(string)
    return count


def has_key(string):
    """Whether a message is acceptable."""
    try:
        messages.decode(string)
        return True
    except Refused:
        return False


def expected(records, moments):
    """The model's listings: of all aircraft, and of those with a position, in turn; at the end of all once more."""
    held, found = survey.Held(None), []
    for number, (at, string) in enumerate(records, 1):
        if len(string) == 14:  # one of another length does not move the clock
            held.receive(string, at)
        if number in moments:
            found.append(held.listing(len(found) % 2 == 0))
    return [*found, held.listing(True)]


def taken_once(what, store, records):
    """That the tables took every message once: a table itself would not show a second time, which is late."""
    found = sum(int(store.state(f"fleet:worker:{shard}")[b"taken"]) for shard in range(SHARDS))
    due(f"{what}: messages taken", str(found), str(dealt(records)))


# One process


def in_one_process(records, moments, listings):
    """All parts without Redis, by their classes and by the command."""
    together, begun = fleet.Together(SHARDS, times=True), 0
    quiet(together.dealer)
    for number, (end, listing) in enumerate(zip(moments, listings)):
        together.take(lines_of(records[begun:end]))
        due(f"in one process, after message {end}", together.listing(number % 2 == 0).decode(), listing)
        begun = end
    words = [sys.executable, "-B", FLEET / "fleet.py", "--shards", "5", "--times"]
    done = subprocess.run(words, input=lines_of(records), capture_output=True, timeout=PATIENCE, check=False)
    due("the command without Redis", done.stdout.decode(), listings[-2])


# Processes


def free_port():
    """A port that nobody listens at."""
    with socket.socket() as one:
        one.bind(("127.0.0.1", 0))
        return one.getsockname()[1]


def dies_with_us():
    """A process ends if this one does, however that ends."""
    ctypes.CDLL(None).prctl(1, signal.SIGKILL)  # PR_SET_PDEATHSIG


class Processes:
    """The processes of a fleet by their names."""

    def __init__(self, folder, shards=SHARDS):
        self.folder, self.port, self.running, self.shards = Path(folder), free_port(), {}, shards
        self.fleet = [sys.executable, "-B", FLEET / "fleet.py", "--redis", f"127.0.0.1:{self.port}"]

    def start(self, name):
        """Starts one: redis, a dealer, or by number or name a worker or a receiver."""
        part, _, which = name.partition(" ")
        if part == "redis":
            self.begin(name, ["redis-server", FLEET / "redis.conf", "--port", str(self.port), "--dir", self.folder])
        else:
            words = {"dealer": ["--shards", str(self.shards), "deal"], "worker": ["work", which], "receiver": ["--times", "receive", which]}
            self.begin(name, [*self.fleet, *words[part]])

    def start_receiver(self, name, path, *words):
        """Starts a receiver whose lines are a file."""
        self.begin(f"receiver {name}", [*self.fleet, *words, "receive", name, path])

    def begin(self, name, words):
        """Starts a process, which says what it says to a file."""
        with open(self.folder / f"{name}.log", "ab") as log:
            self.running[name] = subprocess.Popen(words, stdin=subprocess.PIPE, stdout=log, stderr=log, preexec_fn=dies_with_us)

    def kill(self, name):
        """Kills one at once, and waits until it is gone."""
        process = self.running.pop(name)
        process.kill()
        process.wait()
        with suppress(OSError):
            process.stdin.close()

    def check(self):
        """Ends the test if one has ended by itself."""
        for name, process in self.running.items():
            if process.poll() not in (None, 0):
                sys.exit(f"run_redis: {name} ended with {process.returncode}:\n{self.said(name)}")

    def said(self, name):
        """What one has said, the last of it."""
        return (self.folder / f"{name}.log").read_text(encoding="utf-8", errors="replace")[-2000:]

    def __enter__(self):
        return self

    def __exit__(self, *_):
        for name in list(self.running):
            self.kill(name)


def patiently(processes, what, question):
    """What a question to Redis gives, as soon as it is something."""
    end = time.monotonic() + PATIENCE
    while time.monotonic() < end:
        try:
            found = question()
            if found is not None:
                return found
        except Away:
            pass
        time.sleep(0.002)
        processes.check()
    said = " ".join(processes.said(name)[-300:] for name in processes.running)
    return sys.exit(f"run_redis: {what} did not come in {PATIENCE} seconds: {said}")


class Run:
    """A run with processes: who is given lines, and what happens when."""

    def __init__(self, processes, chance):
        self.processes, self.chance = processes, chance
        self.store = Redis("127.0.0.1", processes.port)
        self.reader, self.given, self.killed = fleet.Reader(self.store), dict.fromkeys(NAMES, 0), 0
        self.asks, self.listings = [], {}

    def begin(self):
        """Starts all."""
        for name in ("redis", "dealer", *(f"worker {shard}" for shard in range(SHARDS)), *(f"receiver {name}" for name in NAMES)):
            self.processes.start(name)
        patiently(self.processes, "the dealer", lambda: self.store.state(fleet.DEALER) or None)

    def added(self, name):
        """How many bytes a receiver has added."""
        return int(self.store.state(f"fleet:receiver:{name}").get(b"last", 0))

    def give(self, lines):
        """Lines for a receiver, and waits until it has added them; nobody waits for the others."""
        name = self.chance.choice(NAMES)
        patiently(self.processes, f"receiver {name}", lambda: self.added(name) >= self.given[name] or None)
        self.given[name] += len(lines)
        pipe = self.processes.running[f"receiver {name}"].stdin
        pipe.write(lines)
        pipe.flush()
        patiently(self.processes, f"what receiver {name} adds", lambda: self.added(name) >= self.given[name] or None)

    def give_file(self, lines):
        """Lines of a file, by a receiver that is killed twice: each time it goes on from where it was."""
        path = self.processes.folder / "chart.lines"
        path.write_bytes(lines)
        for stop in (*sorted(self.chance.sample(range(len(lines)), 2)), len(lines)):
            self.processes.start_receiver("chart", path, "--times")
            patiently(self.processes, "what receiver chart adds", lambda: self.added("chart") >= stop or None)
            self.processes.kill("receiver chart")
            self.killed += stop < len(lines)

    def kill(self, name):
        """Kills a part in the midst of its work, and starts it again a little later."""
        time.sleep(self.chance.random() / 100)
        self.processes.kill(name)
        time.sleep(self.chance.random() / 10)
        self.processes.start(name)
        self.killed += 1

    def events(self, cuts, moments):
        """What happens before which lump: at three moments just after an ask."""
        asked, count = [cuts.index(moment) for moment in self.chance.sample(moments[1:-1], 3)], len(cuts)
        places = [*asked, *self.chance.sample([place for place in range(count // 20, count) if place not in asked], 11)]
        names = ["redis", *["dealer"] * 5, *["worker 2"] * 4, *["worker 5"] * 3, "receiver roof"]
        found = dict(zip(places, (lambda name=name: self.kill(name) for name in names)))
        free = [place for place in range(count) if place not in found]
        found[free[len(free) // 3]] = lambda: self.processes.start("dealer by mistake")
        found[free[len(free) // 2]] = lambda: self.processes.kill("dealer by mistake")
        return found

    def listing(self, ask):
        """The merged listing of an ask, when all have answered."""
        return patiently(self.processes, "a listing", lambda: self.reader.listing(ask, 0.1)).decode()

    def collect(self):
        """The listings that are there, before they expire."""
        for ask in self.asks:
            with suppress(Away):
                found = None if ask in self.listings else self.reader.listing(ask, 0)
                if found is not None:
                    self.listings[ask] = found.decode()

    def feed(self, records, moments):
        """Gives all records, those before the first moment by a file, and asks at each moment; the listings."""
        cuts = sorted({*range(moments[0], len(records), LUMP), *moments})
        events = self.events(cuts, moments)
        self.give_file(lines_of(records[: moments[0]]))
        for number, (end, more) in enumerate(zip(cuts, [*cuts[1:], None])):
            if end in moments:
                every = len(self.asks) % 2 == 0
                self.asks.append(patiently(self.processes, "an ask", lambda: self.reader.ask(every)))
            if number in events:
                events[number]()
            if more:
                self.give(lines_of(records[end:more]))
            self.collect()
        return [self.listings.get(ask) or self.listing(ask) for ask in self.asks]

    def is_trimmed(self):
        """Whether each stream has at most one entry, the last that was read."""
        return True if self.store.longest([fleet.HEARD, *map(fleet.shard_stream, range(SHARDS))]) <= 1 else None


def in_processes(processes, chance, records, moments, listings):
    """The whole in processes that are killed; what is said of it."""
    run, began = Run(processes, chance), time.monotonic()
    run.begin()
    for found, end, listing in zip(run.feed(records, moments), moments, listings[:-1], strict=True):
        due(f"with Redis, after message {end}", found, listing)
    took, answers = time.monotonic() - began, run.store.exchange([("KEYS", "fleet:answer:*")])
    done = subprocess.run([*processes.fleet, "--all", "read"], capture_output=True, timeout=PATIENCE, check=False)
    due("the command read", done.stdout.decode() + done.stderr.decode(), listings[-1])
    left = {*run.store.exchange([("KEYS", "fleet:answer:*")])[0]} - {*answers[0]}
    due("answers that the command read left", str(len(left)), "0")
    taken_once("with Redis", run.store, records)
    patiently(processes, "an end of the streams", run.is_trimmed)
    for name in ("worker 0", "worker 7", "receiver north"):
        patiently(processes, f"a word of {name} on Redis", lambda name=name: "is away" in processes.said(name) or None)
        patiently(processes, f"another word of {name}", lambda name=name: "is back" in processes.said(name) or None)
    return f"{run.killed} kills, {took:.0f} s"


# Connections that break


class Breaking(Redis):
    """A connection that breaks before every tenth exchange, and after every tenth, when Redis has done what was asked.

    Before three of ten transactions a twin does something, and every tenth comes only later, over its old connection.
    """

    def __init__(self, port, chance):
        super().__init__("127.0.0.1", port)
        self.chance, self.broken, self.late, self.meanwhile = chance, 0, [], None

    def exchange(self, commands):
        """The answers, unless it breaks."""
        fate, is_change = self.chance.random(), commands[0] == ("MULTI",)
        if is_change and self.meanwhile and self.chance.random() < 0.3:
            self.meanwhile()
        if is_change and self.chance.random() < 0.1:
            self.hold(commands)
        elif self.late and self.chance.random() < 0.1:
            self.deliver()
        replies = super().exchange(commands) if fate > 0.1 else None
        if fate < 0.2:
            self.broken += 1
            self.close()
            raise Away("broken")
        return replies

    def hold(self, commands):
        """Keeps a connection with what was to be sent over it."""
        self.late.append((self._socket, b"".join(map(packed, commands))))
        self._socket = None
        raise Away("held")

    def deliver(self):
        """What was held comes, and Redis does it or does not."""
        old, sent = self.late.pop()
        old.sendall(sent + packed(("PING",)))
        with old, old.makefile("rb") as file:
            while file.readline() != b"+PONG\r\n":
                pass


class Doubles:
    """Two of each part at work, by mistake. Now and then one dies, and there is another in its place."""

    def __init__(self, store, chance):
        self.store, self.chance, self.twins = store, chance, Redis("127.0.0.1", store.port)
        workers = [lambda store, shard=shard: fleet.Worker(store, shard) for shard in range(SHARDS)]
        makers = [lambda store: fleet.Dealer(store, SHARDS), *workers]
        self.parts = [[make, None] for make in makers for _ in range(2)]

    def run(self):
        """A step of each, in any order. One that fails dies, or reads its state again."""
        for slot in self.chance.sample(self.parts, len(self.parts)):
            self.store.meanwhile = lambda slot=slot: self.twin(slot[0])
            try:
                if slot[1] is None:
                    slot[1] = quiet(slot[0](self.store))
                    slot[1].load()
                slot[1].step(0)
            except (Away, Overtaken):
                slot[1] = None
        self.store.meanwhile = None

    def twin(self, make):
        """The same part over a good connection: it does its work before the other can."""
        part = quiet(make(self.twins))
        part.load()
        part.unsaved = fleet.UNSAVED  # a worker saves at once
        part.step(0)

    def add(self, lines):
        """Lines by a receiver that is new each time."""
        receiver = quiet(fleet.Receiver(self.store, "one", times=True))
        fleet.keep_trying(receiver.voice, receiver.load)
        receiver.add(lines)

    def listing(self, every):
        """The listing now; an ask whose answer is lost is asked again."""
        reader, ask = fleet.Reader(self.store), None
        while True:
            try:
                ask = ask or reader.ask(every)
                found = reader.listing(ask, 0)
                if found is not None:
                    return found.decode()
            except Away:
                pass
            self.run()


def quiet(part):
    """A part that says nothing."""
    part.voice.say = lambda text: None
    return part


def with_breaks(processes, chance, records, moments, listings):
    """The first two moments in this process by such connections; how many broke."""
    for name in [name for name in processes.running if name != "redis"]:
        processes.kill(name)
    Redis("127.0.0.1", processes.port).exchange([("FLUSHALL",), ("CONFIG", "SET", "appendfsync", "no")])  # Redis is not killed here
    fleet.RETRY, fleet.UNSAVED = 0, 300
    doubles, begun = Doubles(Breaking(processes.port, chance), chance), 0
    for number, (end, listing) in enumerate(zip(moments[:2], listings)):
        for at in range(begun, end, LUMP):
            doubles.add(lines_of(records[at : min(at + LUMP, end)]))
            doubles.run()
        due(f"by connections that break, after message {end}", doubles.listing(number % 2 == 0), listing)
        begun = end
    taken_once("by connections that break", Redis("127.0.0.1", processes.port), records[:begun])
    return doubles.store.broken


def with_limits(records):
    """If a worker does not read, the dealer waits, and then the receivers do; when it reads again all goes on."""
    together = fleet.Together(1, times=True)
    dealer, worker, receiver = quiet(together.dealer), together.workers[0], quiet(together.receiver)
    fleet.RETRY, fleet.STUCK, fleet.BEHIND = 0, 1, 2
    lumps, added = [lines_of(records[at : at + 10]) for at in range(0, 100, 10)], 0
    for _ in range(30):
        added += added < len(lumps) and receiver.is_added(lumps[added])
        dealer.step(0)
    due("lumps that were added before they waited", str(added), "4")  # two went to the worker, and two wait for the dealer
    for _ in range(30):
        worker.step(0)
        dealer.step(0)
        added += added < len(lumps) and receiver.is_added(lumps[added])
    due("lumps that were added", str(added), str(len(lumps)))
    held = survey.Held(None)
    for at, string in records[:100]:
        if len(string) == 14:
            held.receive(string, at)
    due("after they waited", together.listing(True).decode(), held.listing(True))


def with_late_transaction(processes):
    """A receiver dies while its transaction is on the way, which comes when the next one has looked: both lines are there."""
    store, held = Redis("127.0.0.1", processes.port), Breaking(processes.port, Random(1))
    store.exchange([("DEL", fleet.HEARD)])
    for is_file in (False, True):
        old, new = (quiet(fleet.Receiver(one, f"late {is_file}", file=is_file)) for one in (held, store))
        held.exchange = lambda commands: held.hold(commands) if commands[0] == ("MULTI",) else Redis.exchange(held, commands)
        try:
            old.is_added(b"01;\n")
        except Away:
            new.load()
        held.deliver()
        try:
            new.add(b"02;\n")
        except fleet.Moved:
            due("where a receiver of a file goes on", str(new.added), "4")
    values = b"".join(value for entry in store.read(fleet.HEARD, b"0", 0) for _, value in entry.pairs)
    due("lines after a late transaction", values.hex(), "010201")


def with_lost_lines(processes):
    """Live lines that waited are lost and counted; lines with a time are none without --times; a long line is none."""
    store = Redis("127.0.0.1", processes.port)
    store.exchange([("DEL", fleet.HEARD)])
    processes.begin("receiver live", [*processes.fleet, "receive", "live"])
    pipe, said = processes.running["receiver live"].stdin, lambda: processes.said("receiver live")

    def give(lines, count):
        pipe.write(lines)
        pipe.flush()
        patiently(processes, "live lines", lambda: store.longest([fleet.HEARD]) == count or None)

    give(b"01;\n18446744073709551615 02;\n" + b"0" * 3 * fleet.CHUNK, 1)
    give(b"\n03;\n", 2)
    store.exchange([("CONFIG", "SET", "maxmemory", 1)])  # Redis refuses
    pipe.write(b"04;\n")
    pipe.flush()
    patiently(processes, "a word of a refusal", lambda: "trying again" in said() or None)
    time.sleep(fleet.FRESH)
    pipe.write(b"05;\n")
    pipe.flush()
    patiently(processes, "a word of lost lines", lambda: "1 lines are lost" in said() or None)
    time.sleep(2 * fleet.FRESH)  # so that the other line is lost too
    store.exchange([("CONFIG", "SET", "maxmemory", 0)])
    give(b"06;\n", 3)
    values = [f"{field.decode()} {value.hex()}" for entry in store.read(fleet.HEARD, b"0", 0) for field, value in entry.pairs]
    due("live lines", ", ".join(values), "now 01, now 03, now 06")


def told_of_loss(processes):
    """A receiver says so if Redis has lost what it had taken, as it may with everysec, and goes on; one of a file goes back."""
    store, said = Redis("127.0.0.1", processes.port), []
    receiver = fleet.Receiver(store, "two")
    receiver.voice.say = said.append
    receiver.add(b"1 00;\n" * 9)
    store.exchange([("HSET", receiver.key, "last", 24)])
    receiver.add(b"1 00;\n")
    due("a loss", f"{receiver.added} {' '.join(said)[:23]}", "30 Redis has lost 30 bytes")
    receiver.file = True
    store.exchange([("HSET", receiver.key, "last", 12)])
    try:
        receiver.add(b"1 00;\n")
    except fleet.Moved:
        receiver.added += 1_000
    due("a loss of a file's", str(receiver.added), "1012")
    store.exchange([("HSET", receiver.key, "last", 1_000)])
    path = processes.folder / "short.lines"
    path.write_bytes(b"00;\n")
    done = subprocess.run([*processes.fleet, "receive", "two", path], capture_output=True, timeout=PATIENCE, check=False)
    due("another file", done.stderr.decode().rpartition(": ")[2].strip(), "another file needs another name")


def with_late_messages():
    """The dealer says how many messages are behind its clock."""
    together, said = fleet.Together(1, times=True), []
    together.dealer.voice.say = said.append
    together.take(b"9 %b;\n8 %b;\n7 %b;\n" % ((b"00" * 14,) * 3))
    due("late messages", " ".join(said)[:32], "2 messages were behind the clock")


def asked_again():
    """A reader asks again if its answers do not come, and leaves none."""
    together, asks = fleet.Together(1), []
    reader, ask, fleet.KEPT = quiet(together.reader), together.reader.ask, 0.2

    def ask_and_run(every):
        asks.append(ask(every))
        if len(asks) == 2:
            together.run()
        return asks[-1]

    reader.ask = ask_and_run
    due("a listing of nothing", fleet.read(reader, True).decode(), survey.Held(None).listing(True))
    due("asks, and answers left of the second", f"{len(asks)} {reader.store.longest([fleet.answer_stream(asks[1])])}", "2 0")


def told_of_settings(processes):
    """The dealer says so if Redis does not keep what it has taken: here appendfsync is another. A worker ends if there is no such shard."""
    store, said = Redis("127.0.0.1", processes.port), []
    store.exchange([("FLUSHALL",), ("CONFIG", "SET", "appendfsync", "no")])
    dealer, worker = fleet.Dealer(store, SHARDS), fleet.Worker(store, SHARDS)
    dealer.voice.say = said.append
    worker.load()  # before there is a dealer
    dealer.load()
    due("settings", " ".join(said)[:40], "Redis has appendfsync no, and not always")
    try:
        worker.step(0)
        said.append("goes on")
    except SystemExit:
        said.append("ends")
    due("a worker without a shard", said[-1], "ends")


def main():
    if len(sys.argv) > 2 or not all(word.isdecimal() for word in sys.argv[1:]):
        print(__doc__.strip(), file=sys.stderr)
        return 2
    signal.signal(signal.SIGTERM, lambda *_: sys.exit(143))
    chance = Random(int(sys.argv[1]) if len(sys.argv) == 2 else 15)
    records = stream(chance)
    moments = moments_of(chance, records)
    listings = expected(records, moments)
    tracks = [len(listing.splitlines()) - 1 for listing in listings]
    span = (records[-1][0] - records[0][0]) / MINUTE
    print(f"{len(records)} messages over {span:.1f} minutes, {MOMENTS} listings of {min(tracks)} to {max(tracks)} aircraft", flush=True)
    in_one_process(records, moments, listings)
    print("in one process: what one table would list", flush=True)
    with TemporaryDirectory() as folder, Processes(folder) as processes:
        print(f"in {SHARDS + len(NAMES) + 1} processes: the same; {in_processes(processes, chance, records, moments, listings)}")
        print(f"by connections that break: the same; {with_breaks(processes, chance, records, moments, listings)} breaks")
        with_late_transaction(processes)
        with_lost_lines(processes)
        told_of_loss(processes)
        told_of_settings(processes)
    with_late_messages()
    asked_again()
    with_limits(records)
    print("late transactions, lines that waited, losses, settings, late messages, limits: as they should be")
    return 0


if __name__ == "__main__":
    sys.exit(main())
