"""Opens the page for a first look, bindings/page/addercoil.html, in a browser from the disk, and compares what it shows with the model.

    python3 reference/run_page.py [FOLDER]

It needs Debian's chromium, and no node, kit or server. Files are dropped as a hand drops them. Each capture of samples/ must show its
listings. With the room that the page has at first it must show what the model has of one table with enough places. Degrees are held to
the model too, and numbers and words of what is refused. So are the orders by columns, lines of a receiver, damaged ones too, and a crowd
of aircraft. What is no capture is said. A large file must not stop the page, and a stop leaves what was read until then. The page loads
nothing but itself, and its policy refuses what tries. With a FOLDER it writes pictures there. The first difference is named, and the
status is 1.
"""

import base64
import re
import struct
import sys
from collections import Counter
from pathlib import Path
from random import Random
from tempfile import TemporaryDirectory

import captures
import messages
import survey
from browser import Browser, is_here
from degrees import to_degrees
from embedding import AT
from make_samples import STEP
from programs import ROOT
from refusals import Refused
from run_live import damaged_lines, lines_of
from vectors.message_vectors import sealed_message

sys.path.insert(0, str(ROOT / "tools"))
import write_page  # noqa: E402  what puts the page together

FOLDER = ROOT / "bindings/page"
PAGE = FOLDER / "addercoil.html"
SAMPLES = sorted((ROOT / "samples").glob("*.capture"))
ROOMS = {"1x256": 256, "1x1024": 1024, "16x1024": 16 * 1024}
ROOMY = "16x1024"
LONGEST = 63  # bytes of a line that can have a message
TICKS = 12_000  # of a counter in a millisecond
LAST = 2**64 - 1
HEX = rb"((?:[0-9A-Fa-f]{2})+);?"
FORMS = {"bare": rb"\*?" + HEX, "counted": rb"@([0-9A-Fa-f]{12})" + HEX, "timed": rb"([0-9]{1,20})[ \t]+" + HEX}
READ = """(() => {
    const text = (cell) => cell.querySelector(".said") ? "-" : cell.textContent;
    const table = (rows) => [...document.getElementById(rows).children].map((row) => [...row.children].map(text));
    const facts = Object.fromEntries([...document.querySelectorAll("#facts dd")].map((one) => [one.id, one.textContent]));
    const heads = [...document.querySelectorAll("#heads th")].map((head) => head.getAttribute("aria-sort"));
    const exact = [...document.querySelectorAll("#rows data")].map((one) => one.value);
    const status = document.getElementById("status");
    return { rows: table("rows"), reasons: table("reasons"), facts, heads, exact,
        status: status.textContent, wrong: status.classList.contains("wrong"),
        caption: document.getElementById("caption").textContent, more: !document.getElementById("more").hidden,
        result: !document.getElementById("result").hidden };
})()"""


def due(what, found, expected):
    """Ends the test if something else was found."""
    if found != expected:
        sys.exit(f"run_page: {what}: found\n{str(found)[:3000]}\nand expected\n{str(expected)[:3000]}")


# The model


def answer(held, string, time):
    """The number of a message, of one table with enough places."""
    if len(string) != 14:
        return 1
    if time < held.clock:
        return 2
    try:
        messages.decode(string)
    except Refused as refusal:
        held.receive(string, time)
        return refusal.number
    return 0 if held.receive(string, time) is not None else 12


def heard(records):
    """The model after records: what is held, and how many got each number."""
    held = survey.Held(ROOMS[ROOMY])
    return held, Counter(answer(held, string, time) for time, string in records)


def lines_held(held, every):
    """The lines of a listing, but for its first."""
    tracks = [(key, held.track(key)) for key in sorted(held.tracks)]
    return [captures.line(key, track) for key, track in tracks if track is not None and (every or track.position.known)]


def parted(line):
    """The time of a line, or None, and its bytes; or None if it has no message."""
    found = {name: re.fullmatch(form, line.strip()) for name, form in FORMS.items()}
    if len(line) > LONGEST or not any(found.values()):
        return None
    time = int(found["counted"][1], 16) // TICKS if found["counted"] else int(found["timed"][1]) if found["timed"] else None
    digits = (found["counted"] or found["timed"] or [None, None, found["bare"] and found["bare"][1]])[2]
    return None if time is not None and time > LAST else (time, bytes.fromhex(digits.decode("ascii")))


def records_in(given, step):
    """The records of lines, and how many lines have none. One without a time comes a step after the last such line."""
    records, without, following = [], 0, 0
    for line in lines_of(given):
        time, string = parted(line) or (None, None)
        if time is None:
            time, following = following, following + step
        if string is None or time > LAST:
            without += 1
        else:
            records.append((time, string))
    return records, without


# The page


class Page:
    """The page in a browser, as somebody uses it."""

    def __init__(self, browser):
        self.browser, self.page = browser, browser.evaluate
        browser.ask("Page.navigate", url=PAGE.as_uri())
        browser.wait('document.getElementById("status")?.textContent === "Nothing was read yet."')

    def done(self):
        """Waits until all is read, and gives what the page shows."""
        self.browser.wait('document.getElementById("status").textContent !== "waiting" && document.getElementById("progress").hidden')
        return self.page(READ)

    def waiting(self):
        self.page('document.getElementById("status").textContent = "waiting"')

    def drop(self, *paths):
        """Drops files, and gives what is shown."""
        self.waiting()
        self.page("scrollTo(0, 0)")
        self.browser.drop(*self.middle("zone"), *paths)
        return self.done()

    def choose(self, path):
        """Chooses a file by the button."""
        self.waiting()
        root = self.browser.ask("DOM.getDocument")["root"]["nodeId"]
        node = self.browser.ask("DOM.querySelector", nodeId=root, selector="#file")["nodeId"]
        self.browser.ask("DOM.setFileInputFiles", nodeId=node, files=[str(path)])
        return self.done()

    def click(self, name):
        self.page(f'document.getElementById("{name}").click()')

    def set(self, name, value):
        """Sets a choice, by which what was read is read again, and gives what is shown."""
        self.waiting()
        self.page(
            f'(() => {{ const one = document.getElementById("{name}"); one.value = "{value}"; one.dispatchEvent(new Event("change")); }})()'
        )
        return self.done()

    def show(self, raw, every):
        """Chooses units, and which aircraft."""
        self.click("raw" if raw else "degrees")
        self.page(f'document.getElementById("all").checked === {str(every).lower()} || document.getElementById("all").click()')
        return self.page(READ)

    def focused(self):
        return self.page("document.activeElement.textContent")

    def press_button(self, name):
        """Presses a button by the keyboard."""
        self.page(f'document.getElementById("{name}").focus()')
        self.browser.press("Enter", 13, "\r")

    def middle(self, name):
        """The middle of an element."""
        return self.page(
            f'(({{ x, y, width, height }}) => [x + width / 2, y + height / 2])(document.getElementById("{name}").getBoundingClientRect())'
        )


def lines_shown(shown):
    """The rows as the lines of a listing: kind, address, heard, latitude, longitude, altitude, step. Callsign, speed and direction go."""
    return [" ".join([*row[:2], *row[3:8]]) for row in shown["rows"]]


def plain(text):
    return int(text.replace(",", ""))


def same_counts(what, shown, counts):
    """The numbers, with the header's words."""
    words = re.findall(
        r'"(.*)"', re.search(r"NUMBER_WORDS.*?\{(.*?)\}", (ROOT / "include/addercoil.h").read_text(encoding="ascii"), flags=re.S)[1]
    )
    expected = [[str(number), words[number], count] for number, count in sorted(counts.items()) if number]
    due(f"{what}: what is refused", [[*row[:2], plain(row[2])] for row in shown["reasons"]], expected)
    facts = plain(shown["facts"]["taken"]), plain(shown["facts"]["refused"])
    due(f"{what}: how many", facts, (counts[0], sum(counts.values()) - counts[0]))


# Captures


def by_listing(page):
    """Each capture of samples/ with the room of the listing: both listings, line by line, and their first lines."""
    page.set("room", "1x256")
    for number, path in enumerate(SAMPLES):
        (page.choose if number % 2 else page.drop)(path)
        for every, ending in ((True, ".listing"), (False, ".positioned")):
            shown = page.show(True, every)
            first, *rest = path.with_suffix(ending).read_text(encoding="ascii").splitlines()
            due(f"{path.name}, {ending}", lines_shown(shown), rest)
            facts, count = shown["facts"], len(shown["rows"])
            facts = f"clock {facts['clock'].removesuffix(' ms')} tracks {count} bad-blocks {plain(facts['bad'])}"
            due(f"{path.name}, {ending}: its first line", facts, first)
    page.set("room", ROOMY)


def by_model(page):
    """Each capture with room for all, in degrees too, and what is refused; how many positions."""
    count = 0
    for path in SAMPLES:
        page.drop(path)
        held, counts = heard(survey.records_of(path.read_bytes()))
        shown = page.show(True, True)
        due(f"{path.name} with room", lines_shown(shown), lines_held(held, True))
        same_counts(path.name, shown, counts)
        count += in_degrees(path.name, page.show(False, False), held)
        due(f"{path.name}: a fault", shown["wrong"], False)
    return count


def in_degrees(what, shown, held):
    """Latitude and longitude are the exact doubles, shown with five decimals."""
    spots = [held.track(key).position for key in sorted(held.tracks) if held.track(key) is not None]
    exact = [
        struct.unpack(">d", pattern.to_bytes(8, "big"))[0]
        for one in spots
        if one.known
        for pattern in to_degrees(one.latitude, one.longitude)
    ]
    due(f"{what}: in degrees", [float(one) for one in shown["exact"]], exact)
    due(f"{what}: in degrees, rounded", [text for row in shown["rows"] for text in row[4:6]], [f"{one:.5f}" for one in exact])
    return len(exact) // 2


# By keys


def by_keys(page):
    """Tabs lead to the head of a column, Enter and Space sort by it, and arrows change the units. What is unknown comes last."""
    press = page.browser.press
    page.drop(ROOT / "samples/gliders.capture")
    page.show(True, True)
    page.drop(ROOT / "samples/airport.capture")
    page.page('document.getElementById("all").focus()')
    for _ in range(20):
        press("Tab", 9)
        if page.focused().startswith("Altitude"):
            break
    due("where tabs lead", page.focused().startswith("Altitude"), True)
    for key, code, text, sort in (("Enter", 13, "\r", "ascending"), (" ", 32, " ", "descending")):
        press(key, code, text)
        shown = page.page(READ)
        found = [row[6] for row in shown["rows"]]
        known = sorted((one for one in found if one != "-"), key=int, reverse=sort == "descending")
        due(f"the order by altitude, {sort}", found, known + ["-"] * (len(found) - len(known)))
        due("aria-sort", shown["heads"], [sort if at == 6 else None for at in range(10)])
        due("what was unknown", "-" in found, True)
        due("what is said of it", page.page('document.getElementById("sorted").textContent'), f"Sorted by altitude, {sort}.")
    page.page('document.getElementById("raw").focus()')
    press("ArrowLeft", 37)
    due(
        "degrees by a key",
        page.page('document.getElementById("degrees").checked && document.getElementById("rows").textContent.includes(".")'),
        True,
    )
    page.page('document.querySelector("#heads button").click()')


def figure(column, text):
    """What a column is sorted by: of an address its six digits, of a callsign its letters, and numbers."""
    return int(text[:6], 16) if column == 1 else text if column == 2 else float(text.replace("over", "inf"))


def every_column(page):
    """Each column sorts: its figures go up, then down, and the rows are the same."""
    page.drop(ROOT / "samples/busy-hour.capture")
    whole = sorted(map(tuple, page.show(True, True)["rows"]))
    for column in range(1, 10):
        for sort in ("ascending", "descending"):
            page.page(f'document.querySelectorAll("#heads button")[{column}].click()')
            rows = page.page(READ)["rows"]
            due(f"the rows by column {column}", sorted(map(tuple, rows)), whole)
            found = [row[column] for row in rows]
            due(f"what is unknown by column {column}, {sort}", "-" in found[: len(found) - found.count("-")], False)
            known = [figure(column, one) for one in found if one != "-"]
            due(f"the order by column {column}, {sort}", known, sorted(known, reverse=sort == "descending"))
    page.page('document.querySelector("#heads button").click()')


def velocity(aa, west, north):
    """Knots to the west and to the north, of a message over ground."""
    return sealed_message(17, 5, aa, 19, 1 << 48 | 1 << 42 | (west + 1) << 32 | (north + 1) << 21)


def at_the_ends(page, folder):
    """A direction that is nearly a whole turn is 0; a callsign of spaces is unknown, and comes last either way."""
    spaces, letters = int("100000" * 8, 2), int("000001" * 8, 2)
    strings = [velocity(1, 1, 400), velocity(2, 4, 400), velocity(3, 400, 0), sealed_message(17, 5, 4, 4, spaces)]
    (folder / "ends").write_bytes(captures.capture(list(enumerate([*strings, sealed_message(17, 5, 5, 4, letters)]))))
    page.drop(folder / "ends")
    rows = page.show(True, True)["rows"]
    due("directions", [row[9] for row in rows], ["0", "359", "270", "-", "-"])
    due("callsigns", [row[2] for row in rows], ["-"] * 4 + ["A" * 8])
    for sort in ("ascending", "descending"):
        page.page('document.querySelectorAll("#heads button")[2].click()')
        found = [row[2] for row in page.page(READ)["rows"]]
        due(f"callsigns, {sort}", found, ["A" * 8] + ["-"] * 4)
    page.page('document.querySelector("#heads button").click()')


# Lines


def strange_lines():
    """Lines with times of both sorts, that end in a carriage return, and with bytes of all sorts."""
    good = bytes.fromhex("8DABCDEF58378200010000300279")
    lines = [
        b"@%012X%s;" % (12_000 * 5_000, good.hex().encode()),
        b"6000 " + good.hex().encode() + b"\r",
        b"18446744073709551616 " + good.hex().encode(),
    ]
    lines += [
        b"18446744073709551615 00",
        b"caf\xe9",
        bytes(range(1, 10)) + bytes(range(11, 256)),
        b"\xef\xbb\xbf*" + good.hex().encode() + b";",
        b"",
        b"*8D;",
        b"*8;",
        b"8D" * 40,
    ]
    return b"\n".join([good.hex().upper().encode(), *lines, b"18446744073709551615 " + good.hex().encode()])


def every_line(page, folder):
    """The minute of samples/minute.hex with its step, and damaged lines with another: aircraft and counts."""
    sample = (ROOT / "samples/minute.hex").read_bytes()
    page.set("step", STEP)
    page.set("room", "1x256")
    page.drop(ROOT / "samples/minute.hex")
    due("minute.hex", lines_shown(page.show(True, True)), (ROOT / "samples/minute.listing").read_text(encoding="ascii").splitlines()[1:])
    page.set("room", ROOMY)
    cases = {"strange": strange_lines(), "damaged": sample + b"\n".join(line for line, _ in damaged_lines()), "pasted": sample[:2_000]}
    for step, (name, given) in zip((1, 400, 7), cases.items()):
        page.set("step", step)
        path = folder / name
        path.write_bytes(given)
        if name == "pasted":
            page.waiting()
            page.page(f'document.getElementById("pasted").value = {given.decode("ascii")!r}; document.getElementById("lines").click()')
            page.done()
        else:
            page.drop(path)
        records, without = records_in(given, step)
        held, counts = heard(records)
        shown = page.show(True, True)
        due(f"{name}: the lines", lines_shown(shown), lines_held(held, True))
        same_counts(name, shown, counts)
        due(
            f"{name}: lines without a message",
            (plain(shown["facts"]["without"]), plain(shown["facts"]["lines"])),
            (without, len(lines_of(given))),
        )
    a_wrong_step(page)
    a_dropped_line(page)
    page.set("step", 1)


def a_wrong_step(page):
    """A step that is no number is said for lines, and its field is opened. A capture needs none."""
    field = '[document.getElementById("times").open, document.getElementById("step").checkVisibility()]'
    page.page('document.getElementById("times").open = false')
    shown = page.set("step", "")
    due("a wrong step", ("milliseconds from line to line" in shown["status"], shown["wrong"], shown["result"]), (True, True, False))
    due("the field of a wrong step", page.page(field), [True, True])
    shown = page.drop(ROOT / "samples/airport.capture")
    due("a capture beside a wrong step", (shown["wrong"], shown["result"], bool(shown["rows"])), (False, True, True))


def a_dropped_line(page):
    """Text that is dropped on the field for lines goes into it, and the page reads nothing by itself."""
    page.page(
        '{ const field = document.getElementById("pasted"); field.value = ""; field.closest("details").open = true;'
        " field.scrollIntoView(); }"
    )
    page.waiting()
    line = "*8DABCDEF58378200010000300279;"
    data = {"items": [{"mimeType": "text/plain", "data": line}], "dragOperationsMask": 1}
    page.browser.drag(*page.middle("pasted"), data)
    due("text that is dropped", page.page('document.getElementById("pasted").value'), line)
    due("what is read by itself", page.page('document.getElementById("status").textContent'), "waiting")


# What nobody should drop


def garbage(page, folder):
    """What is no capture and has no lines: the page says what is wrong, and goes on."""
    chance = Random(71)
    cases = {
        "garbage": (chance.randbytes(5_000), "is no capture: none of its 10 blocks of 512 bytes is good"),
        "empty": (b"", "is empty"),
        "words.txt": (b"hello\n" * 200, "has no line with a message"),
        "wide.txt": ("*8DABCDEF58378200010000300279;\n" * 40).encode("utf-16"),
        "<img src=x onerror=alert(1)>": (b"\0" * 512, "is no capture"),
    }
    cases["wide.txt"] = cases["wide.txt"], "is no capture"
    for name, (given, said) in cases.items():
        (folder / name).write_bytes(given)
        shown = page.drop(folder / name)
        due(f"{name}: what is said", (shown["status"].startswith(f"{name} {said}"), shown["wrong"], shown["rows"]), (True, True, []))
    (folder / "inside").mkdir()
    due("a capture before it", page.drop(ROOT / "samples/airport.capture")["rows"] != [], True)
    shown = page.drop(folder / "inside")
    due("a folder", (shown["wrong"], "cannot be read" in shown["status"]), (True, True))
    due("aircraft of the file before", (shown["rows"], shown["result"]), ([], False))
    due("elements of a file's name", page.page('document.querySelectorAll("img").length'), 0)
    line = b"\n*8DABCDEF58378200010000300279;"
    (folder / "disguised").write_bytes(captures.capture([(int.from_bytes(line[:8], "big"), line[8:22]), (2**63, line[9:23])]))
    due("a capture that has a line in it", page.drop(folder / "disguised")["facts"].get("bad"), "0")
    good, first = SAMPLES[0].read_bytes(), SAMPLES[0].with_suffix(".positioned").read_text(encoding="ascii").splitlines()[1:]
    (folder / "cut").write_bytes(good + good[:100])
    shown = page.drop(folder / "cut", SAMPLES[1])
    due("a capture with a part of a block", (shown["facts"]["bad"], "the first of 2 files" in shown["status"]), ("1", True))
    due("a capture after all that", lines_shown(page.show(True, False)), first)
    return len(cases)


def a_crowd(page, folder):
    """3,000 aircraft: all are held, a part is shown until more is asked for. One table has room for 1,024, and the others get 6."""
    strings = [sealed_message(17, 5, aa, 4, 0) for aa in range(1, 3_001)]  # each says who it is
    (folder / "crowd").write_bytes(captures.capture(list(enumerate(strings))))
    page.drop(folder / "crowd")
    shown = page.show(True, True)
    due("a crowd", (shown["caption"], len(shown["rows"]), shown["more"], shown["reasons"]), ("3,000 aircraft", 1_000, True, []))
    for left in ("more", "table"):
        page.press_button("more")
        due("where the keyboard is", page.page("document.activeElement.id"), left)
    shown = page.page(READ)
    due("all of a crowd", ([row[1] for row in shown["rows"]], shown["more"]), ([f"{aa:06X}" for aa in range(1, 3_001)], False))
    shown = page.set("room", "1x1024")
    due("a crowd in one table", (shown["caption"], [(row[0], row[2]) for row in shown["reasons"]]), ("1,024 aircraft", [("6", "1,976")]))
    due("what is said of it", "had no place" in shown["status"], True)
    page.set("room", ROOMY)


def a_large_file(page, folder):
    """A file of 40 MB: the page says so, goes on in between, and can be told to stop."""
    sample = (ROOT / "samples/busy-hour.capture").read_bytes()
    whole = sample[: len(sample) // 512 * 512]
    (folder / "large").write_bytes(whole * (40 * 2**20 // len(whole)))
    page.drop(ROOT / "samples/airport.capture")
    page.page(
        """(() => { window.gap = 0; window.last = performance.now(); window.said = []; window.ticks = setInterval(() => {
        window.gap = Math.max(window.gap, performance.now() - window.last); window.last = performance.now();
        window.said.push(document.getElementById("status").textContent); }, 10); })()"""
    )
    shown = page.drop(folder / "large")
    gap, told = page.page('[window.gap, window.said.some((one) => one.startsWith("large has 40 MB"))]')
    due("a large file: its blocks", plain(shown["facts"]["blocks"]), (folder / "large").stat().st_size // 512)
    due(f"a large file: said, and the page stood still for {gap:.0f} ms", (told, gap < 2_000), (True, True))
    page.waiting()
    page.page('document.getElementById("room").dispatchEvent(new Event("change"))')
    page.browser.wait('!document.getElementById("stop").hidden')
    page.click("stop")
    shown = page.done()
    due(
        "a stop", ("Stopped" in shown["status"], plain(shown["facts"]["blocks"]) < (folder / "large").stat().st_size // 512), (True, True)
    )
    page.page("clearInterval(window.ticks)")
    return gap


def a_stop_in_lines(page, folder):
    """A stop in a file of lines, each a millisecond after the one before: the clock is that of the last line that was read."""
    good = bytes.fromhex("8DABCDEF58378200010000300279").hex()
    count = 500_000
    (folder / "many").write_text("".join(f"{number} {good}\n" for number in range(count)), encoding="ascii")
    page.waiting()
    page.browser.drop(*page.middle("zone"), folder / "many")
    page.browser.wait('!document.getElementById("stop").hidden && document.getElementById("progress").value > 0')
    page.press_button("stop")
    shown = page.done()
    lines = plain(shown["facts"]["lines"])
    due("a stop in lines", ("Stopped" in shown["status"], 0 < lines < count), (True, True))
    due("the clock after a stop", (shown["facts"]["clock"], shown["facts"]["without"]), (f"{lines - 1} ms", "0"))
    due("where the keyboard is after a stop", page.page("document.activeElement.id"), "status")


# The page itself

NAMED = {"button", "checkbox", "radio", "textbox", "combobox", "spinbutton", "region", "table", "progressbar"}
PAIRS = [
    ("text", "ground"),
    ("text", "panel"),
    ("soft", "ground"),
    ("soft", "panel"),
    ("wrong", "panel"),
    ("on-accent", "accent"),
    ("accent", "ground"),
]
HANDED = re.compile(
    r"innerHTML|outerHTML|insertAdjacentHTML|document\.write|\beval\(|new Function"
    r"|\bfetch\((?!source\))|XMLHttpRequest|WebSocket|sendBeacon"
)


def luminance(colour):
    parts = [int(colour[at : at + 2], 16) / 255 for at in (1, 3, 5)]
    red, green, blue = (part / 12.92 if part <= 0.03928 else ((part + 0.055) / 1.055) ** 2.4 for part in parts)
    return 0.2126 * red + 0.7152 * green + 0.0722 * blue


def contrasts():
    """Text stands out from its ground by 4.5 to 1 or more, in both schemes."""
    schemes = [
        dict(re.findall(r"--([\w-]+): (#[0-9a-f]{6})", part))
        for part in (FOLDER / "page.css").read_text(encoding="ascii").split("@media")
    ]
    due("two schemes", [len(scheme) for scheme in schemes], [8, 8])
    for scheme in schemes:
        for one, other in PAIRS:
            dark, light = sorted((luminance(scheme[one]), luminance(scheme[other])))
            due(f"the contrast of {one} and {other}", (light + 0.05) / (dark + 0.05) >= 4.5, True)


def for_everybody(page, folder):
    """What a screen reader is told has a name; a phone's width needs no scrolling sideways; text can be read."""
    page.page('document.querySelectorAll("details").forEach((one) => { one.open = true; })')
    for one in page.browser.ask("Accessibility.getFullAXTree")["nodes"]:
        if not one["ignored"] and one["role"]["value"] in NAMED and one["role"]["value"] != "table":
            due(f"the name of a {one['role']['value']}", bool(one["name"]["value"].strip()), True)
    contrasts()
    for width in (320, 360, 1280):
        for scheme in ("light", "dark"):
            page.browser.ask("Emulation.setDeviceMetricsOverride", width=width, height=800, deviceScaleFactor=1, mobile=width < 500)
            page.browser.ask("Emulation.setEmulatedMedia", features=[{"name": "prefers-color-scheme", "value": scheme}])
            due(
                f"the page at {width} is wider", page.page(f"document.documentElement.scrollWidth > {width}"), False
            )  # a phone's innerWidth would grow with it
            if folder and width > 320:
                (Path(folder) / f"page-{width}-{scheme}.png").write_bytes(base64.b64decode(page.browser.picture()))


def a_narrow_table(page):
    """The table of what is refused fits into its box at the width of a phone, with large counts too."""
    page.page('document.querySelectorAll("#reasons td:last-child").forEach((one) => { one.textContent = "99,999,999"; })')
    for width in (320, 360, 1280):
        page.browser.ask("Emulation.setDeviceMetricsOverride", width=width, height=800, deviceScaleFactor=1, mobile=width < 500)
        widths = '(({ scrollWidth, clientWidth }) => [scrollWidth, clientWidth])(document.querySelector("#refusals .scroll"))'
        inside, box = page.page(widths)
        due(f"the table of what is refused at {width}: {inside} in {box}", 0 < inside <= box, True)


def a_text_that_ends(text):
    """Is a text refused that would end the script or the style it is in?"""
    try:
        write_page.source(text)
    except SystemExit:
        return True
    return False


def by_itself(page):
    """No source sets markup or asks for anything; the page asked for itself alone, nothing failed, and its policy refuses what tries."""
    ends = [a_text_that_ends(text) for text in ("</script>", "a </SCRIPT", "</style", "<!-- a", "a < b; // a script --> b")]
    due("texts that end a script", ends, [True] * 4 + [False])
    for path in (FOLDER / "page.js", FOLDER / "reading.js", ROOT / "bindings/js/addercoil.js"):
        due(f"what {path.name} must not call", HANDED.findall(path.read_text(encoding="ascii")), [])
    events = page.browser.events
    due(
        "what was asked for",
        {one["params"]["request"]["url"] for one in events if one["method"] == "Network.requestWillBeSent"},
        {PAGE.as_uri()},
    )
    due("what failed", [one["params"] for one in events if one["method"] in ("Runtime.exceptionThrown", "Log.entryAdded")], [])
    for tried, directive in (
        ('fetch("http://127.0.0.1:9/")', "connect-src"),
        ('Object.assign(new Image(), { src: "http://127.0.0.1:9/" }).decode()', "img-src"),
        ('import("data:text/javascript,0")', "script-src-elem"),
    ):
        broken = page.page(
            'new Promise((resolve) => { const told = (event) => resolve(event.effectiveDirective);'
            f' document.addEventListener("securitypolicyviolation", told, {{ once: true }}); {tried}.catch(() => 0); }})'
        )
        due(f"the policy against {tried}", broken, directive)


def the_sample(page):
    """One click from the page as it is opened, in degrees, to the aircraft of samples/airport.capture."""
    page.waiting()
    page.click("sample")
    shown = page.done()
    held, counts = heard(survey.records_of((ROOT / "samples/airport.capture").read_bytes()))
    in_degrees("the sample", shown, held)
    same_counts("the sample", shown, counts)


def main():
    if not is_here():
        sys.exit("run_page: there is no chromium, package chromium")
    due("the header of the model", AT["BLOCK"], captures.BLOCK)
    with TemporaryDirectory() as folder, TemporaryDirectory(ignore_cleanup_errors=True) as own, Browser(own) as browser:
        page, folder = Page(browser), Path(folder)
        the_sample(page)
        by_listing(page)
        print(
            f"{len(SAMPLES)} captures dropped or chosen: both listings of each;"
            f" {by_model(page)} positions in degrees, and what is refused: as the model has it",
            flush=True,
        )
        by_keys(page)
        every_column(page)
        at_the_ends(page, folder)
        every_line(page, folder)
        print("sorted by keys; lines of a receiver, strange and damaged ones: the same", flush=True)
        print(f"{garbage(page, folder)} files that are no capture: each is said", flush=True)
        a_crowd(page, folder)
        print(
            f"3,000 aircraft; a file of 40 MB, in which the page stood still for at most {a_large_file(page, folder):.0f} ms", flush=True
        )
        a_stop_in_lines(page, folder)
        page.drop(ROOT / "samples/busy-hour.capture")
        for_everybody(page, sys.argv[1] if len(sys.argv) > 1 else None)
        a_narrow_table(page)
        by_itself(page)
    print("from the disk, without a server: it loads nothing but itself, at the width of a phone too")
    return 0


if __name__ == "__main__":
    sys.exit(main())
