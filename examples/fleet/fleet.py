#!/usr/bin/env python3
"""A network of receivers whose tables live on several machines. Redis Streams carry the messages.

    fleet.py [--shards N] [--all] [--times] < LINES             all parts in this process, without Redis; prints the listing
    fleet.py --redis HOST:PORT [--times] receive NAME [LINES]   a receiver: adds its lines to the one stream, of a file from where it was
    fleet.py --redis HOST:PORT [--shards N] deal                the dealer: one for all
    fleet.py --redis HOST:PORT work SHARD                       a worker: one for each shard, 0 up to N - 1
    fleet.py --redis HOST:PORT [--all] read                     a reader: prints the listing of all tables at one moment of the stream

A line has a message in hex, bare or as receivers print it: *8D..; or @, twelve digits, 8D..; with --times each line begins with a time in
milliseconds, and without it none does. Anything else is no message.

Every part does the same again and again. It reads on from an id. Then it writes what comes of that in one transaction with the id, if its
state is still the one that it read. So a part that is killed loses nothing, and a transaction whose answer is lost is not made twice.
"""
from __future__ import annotations

import argparse
import math
import os
import re
import secrets
import sys
import threading
import time
from collections.abc import Callable, Iterator
from contextlib import suppress
from functools import reduce
from pathlib import Path
from queue import SimpleQueue
from typing import Protocol

sys.path.insert(0, str(Path(__file__).resolve().parent.parent.parent / "bindings/python"))
import addercoil
from addercoil import calls
from store import KEEPS, START, Away, Command, Memory, Overtaken, Redis, Store

HEARD, DEALER = "fleet:heard", "fleet:dealer"
PLACES = 1024
TICK = bytes(14)
NO_PLACE = 6
LATEST = 2**64 - 1
VERSION = calls.version()
CHUNK = 2**13  # bytes of lines that a receiver adds at once, at most
GATHER = 0.2  # seconds in which a receiver's lines gather if few come: a transaction of few messages costs as much as one of many
WAIT, RETRY = 1.0, 0.2  # seconds: for messages, and before Redis is tried again
UNSAVED, SAVE = 20_000, 1.0  # messages and seconds after which a worker saves its table
BEHIND, STUCK = 20_000, 1_000  # entries that the one stream may have, and a shard's, before others wait
KEPT = 120  # seconds that an answer is kept; after half of that a reader asks again
FRESH = 2.0  # seconds that a live line may wait: its time is that of its entry
AGAIN = 10.0  # seconds after which the same is said again
LINE = re.compile(rb"\s*(?:(\d{1,20})\s+)?(?:\*|@[0-9A-Fa-f]{12})?((?:[0-9A-Fa-f]{2})+);?\s*")
STAMP = re.compile(rb"\d{1,20}")
NOW = b"now"  # in the place of a time: that of the entry's id


def shard_stream(shard: int) -> str:
    """The stream of a shard."""
    return f"fleet:shard:{shard}"


def answer_stream(ask: bytes) -> str:
    """Where the workers answer an ask, by its id."""
    return f"fleet:answer:{ask.decode()}"


class Voice:
    """Says on standard error what happens, and the same again only after a while."""

    def __init__(self, name: str) -> None:
        self.name = name
        self.said: dict[str, float] = {}
        self.counts: dict[str, int] = {}
        self.is_away = False

    def is_due(self, text: str) -> bool:
        """Whether it was not said for a while. If so, it counts as said now."""
        now = time.monotonic()
        due = now - self.said.get(text, -math.inf) >= AGAIN
        if due:
            self.said[text] = now
        return due

    def say(self, text: str) -> None:
        """Says it."""
        if self.is_due(text):
            print(f"{self.name}: {text}", file=sys.stderr, flush=True)

    def tally(self, count: int, what: str) -> None:
        """Counts, and says how many there were since it was last said."""
        self.counts[what] = self.counts.get(what, 0) + count
        if self.counts[what] and self.is_due(what):
            self.say(f"{self.counts.pop(what)} {what}")

    def away(self, why: Away) -> None:
        """Says why Redis does not serve, and waits a little."""
        self.say(f"{why}; trying again")
        self.is_away = True
        time.sleep(RETRY)

    def serves(self) -> None:
        """Redis has answered. If it was away, that is said, and so is the next time that it goes away."""
        if self.is_away:
            self.said.clear()
            self.say("Redis is back")
        self.is_away = False


class Part(Protocol):
    """A part that goes on for ever."""

    voice: Voice

    def load(self) -> None: ...
    def step(self, wait: float) -> bool: ...


# Receivers


def pairs_of(lines: bytes, times: bool) -> list[bytes]:
    """The fields and values of an entry: for each message its time, and the message. What is no message is left out."""
    words: list[bytes] = []
    for line in lines.splitlines():
        found = LINE.fullmatch(line)
        if found and bool(found[1]) == times:
            words += found[1] or NOW, bytes.fromhex(found[2].decode())
    return words


class Moved(Exception):
    """A receiver is elsewhere in its file."""


class Receiver:
    """Adds the lines of a receiver. It keeps how many bytes of them it has added, and who did, in the transaction that adds them."""

    def __init__(self, store: Store, name: str, times: bool = False, file: bool = False) -> None:
        self.store, self.voice, self.key = store, Voice(f"receiver {name}"), f"fleet:receiver:{name}"
        self.times, self.file, self.token = times, file, secrets.token_hex(8).encode()
        self.added, self.begun = 0, False

    def load(self) -> None:
        """Where it was."""
        self.added = self.stored()[0]

    def stored(self) -> tuple[int, bytes]:
        """How many bytes were added, and by which process, as Redis has it."""
        state = self.store.state(self.key)
        return int(state.get(b"last", START)), state.get(b"by", b"")

    def add(self, lines: bytes, until: float = math.inf) -> bool:
        """Adds whole lines once, however often Redis goes away meanwhile. Whether it could, until a moment."""
        while time.monotonic() < until:
            try:
                if self.is_added(lines):
                    return True
            except Away as why:
                self.voice.away(why)
            except Overtaken:
                pass  # looks again at what was added
        return False

    def is_added(self, lines: bytes) -> bool:
        """Whether they are added now: by this attempt, or by one of this process whose answer was lost."""
        (found, by), end = self.stored(), self.added + len(lines)
        self.voice.serves()
        if found == end and by == self.token:
            self.added = end
            return True
        if found != self.added:
            self.move(found, by)
            return False
        if self.store.longest([HEARD]) > BEHIND:
            self.voice.say("the dealer is behind or away; waiting for it")
            time.sleep(RETRY)
            return False
        words = pairs_of(lines, self.times)
        entry: list[Command] = [("XADD", HEARD, "*", *words)] if words else []
        self.store.commit(self.key, str(self.added).encode(), [*entry, ("HSET", self.key, "last", end, "by", self.token)])
        self.added, self.begun = end, True
        return True

    def move(self, found: int, by: bytes) -> None:
        """Goes to where Redis has it. Before its first lines, the last transaction of the process before it may still have come."""
        if found > self.added and by != self.token and self.begun:
            raise SystemExit(f"fleet: there is another {self.voice.name}: each needs a name of its own")
        if found < self.added:
            self.voice.say(f"Redis has lost {self.added - found} bytes of lines that it had taken; it needs appendfsync always")
        self.added = found
        if self.file:
            raise Moved


# The dealer


class Deal:
    """What the dealer does with entries: it keeps the one clock, drops what is late, and gives each message to its shard."""

    def __init__(self, clock: int, shards: int) -> None:
        self.clock, self.late = clock, 0
        self.words: list[list[bytes]] = [[] for _ in range(shards)]  # of each shard's entry
        self._key = calls.words(1)

    def take(self, id: bytes, field: bytes, value: bytes) -> None:
        """A message with its time, or an ask."""
        if field == b"ask":
            self.ask(id, value)
            return
        stamp = id.split(b"-")[0] if field == NOW else field
        if not (len(value) == len(TICK) and STAMP.fullmatch(stamp)):
            return
        if self.clock <= int(stamp) <= LATEST:
            self.clock = int(stamp)  # a damaged message moves it too
            if calls.key(value, self._key) == 0:
                self.words[self._key[0] % len(self.words)] += stamp, value
        else:
            self.late += 1

    def ask(self, id: bytes, which: bytes) -> None:
        """Asks all workers at one moment of the stream. The clock goes with it: a tick before a table is read."""
        for words in self.words:
            words += b"ask", b"%d %b %b" % (self.clock, id, b"all" if which == b"all" else b"placed")

    def changes(self) -> list[Command]:
        """An entry for each shard that has got something."""
        return [("XADD", shard_stream(shard), "*", *words) for shard, words in enumerate(self.words) if words]


class Dealer:
    """Reads the one stream and deals it out. Its state: the clock, the last id that it read, and the number of shards."""

    def __init__(self, store: Store, shards: int) -> None:
        self.store, self.shards, self.voice = store, shards, Voice("dealer")
        self.clock, self.last, self.late = 0, START, 0

    def load(self) -> None:
        """Where it was; at the very first, the number of shards is set down."""
        state = self.store.state(DEALER)
        if not state:
            self.store.commit(DEALER, START, [("HSET", DEALER, "clock", 0, "last", "0-0", "shards", self.shards)])
            state = self.store.state(DEALER)
        if int(state[b"shards"]) != self.shards:
            raise SystemExit(f"fleet: this fleet has {state[b'shards'].decode()} shards: its aircraft cannot go to others while it runs")
        settings = self.store.settings()
        for name, value in KEEPS.items():
            found = settings.get(name, "unknown")
            if found != value:
                self.voice.say(f"Redis has {name} {found}, and not {value}: if its machine ends, what it had taken may be lost")
        self.clock, self.last = int(state[b"clock"]), state[b"last"]

    def step(self, wait: float) -> bool:
        """Deals out what has come. Whether anything had."""
        self.voice.tally(self.late, "messages were behind the clock, and are dropped; only one receiver may send times")
        self.late = 0
        if self.store.longest([shard_stream(shard) for shard in range(self.shards)]) > STUCK:
            self.voice.say("a worker is behind or away; waiting for it")
            time.sleep(RETRY)
            return True
        entries = self.store.read(HEARD, self.last, wait)
        if not entries:
            return False
        deal, last = Deal(self.clock, self.shards), entries[-1].id
        for entry in entries:
            for field, value in entry.pairs:
                deal.take(entry.id, field, value)
        saved = ("HSET", DEALER, "clock", deal.clock, "last", last)
        self.store.commit(DEALER, self.last, [*deal.changes(), saved, ("XTRIM", HEARD, "MINID", last)])
        self.clock, self.last, self.late = deal.clock, last, deal.late
        return True


# Workers


class Worker:
    """Keeps the table of a shard. Its state: the bytes of the table, the last id that it took, and how many messages it took."""

    def __init__(self, store: Store, shard: int) -> None:
        self.store, self.shard, self.voice = store, shard, Voice(f"worker {shard}")
        self.stream, self.key = shard_stream(shard), f"fleet:worker:{shard}"
        self.table = addercoil.Table(PLACES)
        self.last = self.saved = START  # the last id that the table has taken, and that it was saved with
        self.taken = 0
        self.begin()

    def begin(self) -> None:
        """Nothing is unsaved: no message, and no entry."""
        self.unsaved, self.entries, self.since = 0, 0, time.monotonic()

    def load(self) -> None:
        """Where it was: the table as it was saved, and the last id in it."""
        state = self.store.state(self.key)
        self.check_shard()
        version = state.get(b"version", b"%d" % VERSION)
        if int(version) != VERSION:
            said = f"the table of shard {self.shard} is of library {version.decode()}, and this is {VERSION}"
            raise SystemExit(f"fleet: {said}: begin with an empty Redis")
        self.table = addercoil.Table.from_bytes(state[b"table"]) if state else addercoil.Table(PLACES)
        self.last = self.saved = state.get(b"last", START)
        self.taken = int(state.get(b"taken", 0))
        self.begin()

    def check_shard(self) -> None:
        """Ends if the dealer has no such shard. A dealer that begins later is asked later."""
        shards = self.store.state(DEALER).get(b"shards")
        if shards is not None and self.shard >= int(shards):
            raise SystemExit(f"fleet: this fleet has {shards.decode()} shards, numbered from 0 on: there is no shard {self.shard}")

    def step(self, wait: float) -> bool:
        """Takes what has come. Whether anything had."""
        entries = self.store.read(self.stream, self.last, wait)
        if not entries and self.last == START:
            self.check_shard()
        answers: list[Command] = []
        for entry in entries:
            for field, value in entry.pairs:
                if field == b"ask":
                    answers += self.answer(*value.split())
                else:
                    self.receive(value, int(field))
                    self.taken += 1
            self.last = entry.id
        self.entries += len(entries)
        if answers or self.is_due():
            self.save(answers)
        return bool(entries)

    def is_due(self) -> bool:
        """Whether to save: after many messages, or before the dealer would wait for the end of this stream, or after a while."""
        late = time.monotonic() - self.since >= SAVE
        return self.unsaved >= UNSAVED or 2 * self.entries >= STUCK or (late and self.unsaved > 0)

    def receive(self, message: bytes, at: int) -> None:
        """A message for the table."""
        refusal = self.table.receive(message, at)
        self.unsaved += 1
        if refusal is not None and refusal.number == NO_PLACE:
            self.voice.say(f"all {PLACES} places are taken, and an aircraft is left out; this fleet needs more shards")

    def answer(self, clock: bytes, id: bytes, which: bytes) -> list[Command]:
        """The listing, after a tick at the dealer's clock."""
        self.receive(TICK, int(clock))
        stream, text = answer_stream(id), self.table.listing(all=which == b"all")
        return [("XADD", stream, "*", "shard", self.shard, "listing", text), ("EXPIRE", stream, KEPT)]

    def save(self, answers: list[Command]) -> None:
        """The table, the last id that it took, and the answers, at once; what was read before that is no longer needed."""
        saved = ("HSET", self.key, "last", self.last, "table", self.table.to_bytes(), "taken", self.taken, "version", VERSION)
        self.store.commit(self.key, self.saved, [saved, ("XTRIM", self.stream, "MINID", self.last), *answers])
        self.saved = self.last
        self.begin()


# The reader


class Reader:
    """Asks all workers at one moment, and merges their listings."""

    def __init__(self, store: Store) -> None:
        self.store, self.voice = store, Voice("reader")

    def ask(self, every: bool) -> bytes:
        """The id of an ask. If its answer is lost it is asked again: an ask that nobody reads does no harm."""
        return self.store.add(HEARD, "ask", "all" if every else "placed")

    def listing(self, ask: bytes, wait: float = WAIT) -> bytes | None:
        """The merged listing, if all shards have answered."""
        shards = int(self.store.state(DEALER).get(b"shards", 0))
        listings: dict[int, bytes] = {}
        after = START
        while not shards or len(listings) < shards:
            entries = self.store.read(answer_stream(ask), after, wait)
            if not entries:
                return None
            for entry in entries:
                words, after = dict(entry.pairs), entry.id
                listings[int(words[b"shard"])] = words[b"listing"]
        return reduce(addercoil.merge, (listings[shard] for shard in sorted(listings)))


# What runs them


def keep_trying(voice: Voice, work: Callable[[], object]) -> None:
    """Does a thing once Redis serves."""
    while True:
        try:
            work()
            return
        except Away as why:
            voice.away(why)
        except Overtaken:
            voice.say("another one does this too, or did it; reading the state again")


def steps(part: Part) -> None:
    """Goes on from the state until something stops it."""
    part.load()
    part.voice.serves()
    while True:
        part.step(WAIT)


def keep_going(part: Part) -> None:
    """Steps for ever. If Redis goes away, or another has done its work, a part says so, reads its state again and goes on."""
    keep_trying(part.voice, lambda: steps(part))


def chunks(source: int, inside: bool = False) -> Iterator[bytes]:
    """Whole lines as they come, and at the end what has no newline. A line that is too long, or begun before, comes as dashes."""
    rest = b""
    while more := os.read(source, CHUNK):
        if inside:
            tail, newline, more = more.partition(b"\n")
            yield b"-" * len(tail) + newline
            inside = not newline
        whole, newline, rest = (rest + more).rpartition(b"\n")
        if newline:
            yield whole + newline
        if len(rest) > CHUNK:
            yield b"-" * len(rest)
            rest, inside = b"", True
    if rest:
        yield rest


def gathered(source: int, inside: bool = False) -> Iterator[bytes]:
    """The same, and if few lines come they gather for a while."""
    for chunk in chunks(source, inside):
        yield chunk
        if len(chunk) < CHUNK // 2:
            time.sleep(GATHER)


def receive_file(receiver: Receiver, path: str) -> None:
    """Adds the lines of a file, from where the receiver of this name was."""
    with open(path, "rb") as file:
        while True:
            try:
                for chunk in gathered(file.fileno(), is_inside(receiver, file.fileno())):
                    receiver.add(chunk)
                return
            except Moved:
                pass  # begins again from there


def is_inside(receiver: Receiver, file: int) -> bool:
    """Goes to where a receiver was in its file. Whether that is within a line."""
    begin = receiver.added
    if begin > os.fstat(file).st_size:
        raise SystemExit(f"fleet: {receiver.voice.name} was at byte {begin}, and the file ends before: another file needs another name")
    if begin:
        receiver.voice.say(f"goes on at byte {begin}")
    os.lseek(file, begin, os.SEEK_SET)
    return begin > 0 and os.pread(file, 1, begin - 1) != b"\n"


def receive_live(receiver: Receiver, source: int) -> None:
    """Adds lines as they come. A thread reads them, so that none waits unseen in a pipe, and what has waited for long is lost."""
    waiting: SimpleQueue[tuple[float, bytes]] = SimpleQueue()

    def listen() -> None:
        for chunk in gathered(source):
            waiting.put((time.monotonic() + FRESH, chunk))
        waiting.put((0.0, b""))

    threading.Thread(target=listen, daemon=True).start()
    keep_trying(receiver.voice, receiver.load)
    chunk = b"\n"
    while chunk:
        until, chunk = waiting.get()
        lost = 0 if not chunk or receiver.add(chunk, until) else chunk.count(b"\n")
        if not chunk:
            receiver.voice.said.clear()  # the last count is said at once
        receiver.voice.tally(lost, f"lines are lost: they waited for more than {FRESH:.0f} seconds, and nobody knows their times")


def receive(receiver: Receiver, lines: str | None) -> None:
    """Adds the lines of a file, or what comes on standard input."""
    source = sys.stdin.fileno()
    if not lines and not receiver.times:
        receive_live(receiver, source)
        return
    keep_trying(receiver.voice, receiver.load)
    if lines:
        receive_file(receiver, lines)
    else:
        for chunk in gathered(source):
            receiver.add(chunk)


def read(reader: Reader, every: bool) -> bytes:
    """The listing of the fleet now. If the answers are not all there after a while, it asks again: the first ones may be gone."""
    while True:
        try:
            ask, end = reader.ask(every), time.monotonic() + KEPT / 2
            while time.monotonic() < end:
                found = reader.listing(ask)
                if found is not None:
                    with suppress(Away):
                        reader.store.forget(answer_stream(ask))
                    return found
                reader.voice.say("not all workers have answered yet; waiting for them")
        except Away as why:
            reader.voice.away(why)


class Together:
    """All parts in one process."""

    def __init__(self, shards: int, times: bool = False) -> None:
        store = Memory()
        self.receiver, self.dealer, self.reader = Receiver(store, "own", times), Dealer(store, shards), Reader(store)
        self.workers = [Worker(store, shard) for shard in range(shards)]
        self.dealer.load()

    def run(self) -> None:
        """All that is waiting goes its way."""
        while any([part.step(0) for part in (self.dealer, *self.workers)]):
            pass

    def take(self, lines: bytes) -> None:
        """Whole lines."""
        self.receiver.add(lines)
        self.run()

    def listing(self, every: bool) -> bytes:
        """The merged listing now."""
        ask = self.reader.ask(every)
        self.run()
        found = self.reader.listing(ask)
        assert found is not None
        return found


def parsed() -> argparse.Namespace:
    """The words of the command."""
    parser = argparse.ArgumentParser(prog="fleet.py", description="Tables on several machines, by Redis Streams; or all in one process.")
    parts = ["receive", "deal", "work", "read"]
    parser.add_argument("part", nargs="?", choices=parts, help="which part this is; none: all of them, without Redis")
    parser.add_argument("which", nargs="?", help="the name of a receiver, or the number of a worker's shard")
    parser.add_argument("lines", nargs="?", help="a file of a receiver's lines; none: standard input")
    parser.add_argument("--redis", metavar="HOST:PORT", help="where Redis is")
    parser.add_argument("--shards", type=int, default=8, help="how many workers there are")
    parser.add_argument("--times", action="store_true", help="a receiver's lines begin with times")
    parser.add_argument("--all", action="store_true", help="aircraft without a position too")
    words = parser.parse_args()
    if bool(words.part) != bool(words.redis):
        parser.error("a part needs --redis HOST:PORT, and --redis needs a part")
    if words.redis and not re.fullmatch(r".+:\d{1,5}", words.redis):
        parser.error("--redis is a host, a colon and a port")
    if (words.part in ("receive", "work")) != bool(words.which) or (words.lines and words.part != "receive"):
        parser.error("receive needs a NAME and may have a file, work needs a SHARD, and no other part has words")
    if words.shards < 1 or (words.part == "work" and not words.which.isdecimal()):
        parser.error("there is at least one shard, and shards are numbered from 0 on")
    return words


def main() -> None:
    """Runs a part, or all."""
    words = parsed()
    if words.part is None:
        together = Together(words.shards, words.times)
        for chunk in chunks(sys.stdin.fileno()):
            together.take(chunk)
        sys.stdout.buffer.write(together.listing(words.all))
        return
    host, _, port = words.redis.rpartition(":")
    store = Redis(host, int(port))
    if words.part == "receive":
        receive(Receiver(store, words.which, words.times, bool(words.lines)), words.lines)
    elif words.part == "read":
        sys.stdout.buffer.write(read(Reader(store), words.all))
    else:
        keep_going(Dealer(store, words.shards) if words.part == "deal" else Worker(store, int(words.which)))


if __name__ == "__main__":
    try:
        main()
        sys.stdout.flush()
    except KeyboardInterrupt:
        sys.exit(130)
    except OSError as why:
        os.dup2(os.open(os.devnull, os.O_WRONLY), sys.stdout.fileno())  # so that nothing is said at the end
        sys.exit(1 if isinstance(why, BrokenPipeError) else f"fleet: {why}")
