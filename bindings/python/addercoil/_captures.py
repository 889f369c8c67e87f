"""Captures, logs and listings of others."""
from __future__ import annotations

import os
from collections.abc import Iterable, Iterator
from dataclasses import dataclass
from typing import IO, Any, NamedTuple, Union

from . import calls
from ._messages import Data, exact, octets_of
from ._names import BLOCK, FIELDS, HEAD, KINDS, LAYOUTS, MESSAGE, RECORD, TRACK
from ._spots import pair_of, units
from ._tables import Table, checked_key
from ._tracks import Track
from ._values import FIELD, LOG, Refusal, Refused

FIRST = 3  # where the records of a block begin, behind its count and its serial number
TIME = 8  # bytes of a time
File = Union[str, "os.PathLike[str]"]
POSITIONS = {LAYOUTS[name] for name in ("SURFACE", "AIRBORNE", "COARSE")}  # the layouts of position messages


class Record(NamedTuple):
    """A message, and when it was received, in milliseconds."""

    time: int
    message: bytes


class Capture(NamedTuple):
    """The records of a capture's good blocks, and how many blocks are bad."""

    records: list[Record]
    bad_blocks: int


@dataclass(frozen=True)
class Checked:
    """Whether another decoder's listing is right: true if it is. Else the first line at fault, or why the library refused."""

    line: int | None = None
    refusal: Refusal | None = None

    def __bool__(self) -> bool:
        return self.line is None and self.refusal is None

    def __str__(self) -> str:
        return str(self.refusal) if self.refusal else "yes" if self else f"line {self.line}"


def blocks_of(file: IO[bytes]) -> Iterator[bytes]:
    """The blocks of a capture; the last may be a part of one."""
    while block := file.read(BLOCK):
        yield block


class Reader:
    """Tells good blocks by the library: a table of one place is fed each."""

    def __init__(self) -> None:
        self.table = Table(places=1)

    def records(self, block: bytes) -> list[Record] | None:
        """The records of a good block; None of a bad one."""
        if not self.table.feed(block):
            return None
        starts = range(FIRST, FIRST + RECORD * block[0], RECORD)
        return [Record(int.from_bytes(block[at : at + TIME], "big"), block[at + TIME : at + RECORD]) for at in starts]


def opened(path: File) -> IO[bytes]:
    """A file by its path."""
    if not isinstance(path, (str, os.PathLike)):
        raise TypeError(f"a path is needed, and not {type(path).__name__}")
    return open(path, "rb")


def read_capture(path: File) -> Capture:
    """All records of a capture's good blocks, and the number of bad blocks."""
    reader, records = Reader(), []
    with opened(path) as file:
        for block in blocks_of(file):
            records += reader.records(block) or []
    return Capture(records, reader.table.bad_blocks)


# Positions as they come


class Positions:
    """Receives records, and tells the aircraft of each position that comes. `refused` counts the messages of each number that was refused."""

    def __init__(self, table: Table) -> None:
        self.table = table
        self.refused: dict[int, int] = {}
        self._fields = calls.words(FIELDS)

    def receive(self, record: tuple[int, Data]) -> Track | None:
        """The aircraft after a position message, if it has a position of this time; after any other message None."""
        if not isinstance(record, (tuple, list)) or len(record) != 2:
            raise TypeError("a record is a time and a message")
        time, message = record[0], octets_of(record[1])
        refusal = self.table.receive(message, time)
        if refusal is not None:
            self.refused[refusal.number] = self.refused.get(refusal.number, 0) + 1
            return None
        calls.decode(message, self._fields)
        layout, type_ = self._fields[HEAD["layout"]], self._fields[HEAD["typecode"]]
        if layout not in POSITIONS or (layout == LAYOUTS["AIRBORNE"] and type_ == 0):
            return None
        track = self.table._look_up(int(self._fields[HEAD["key"]]))
        return track if track is not None and track.position_time == time else None


# RULES 13 and 14


def log_of(log: bytes | Iterable[tuple[int, Any]]) -> bytes | Refusal:
    """The bytes of a log: as they are, or of records. A message that is not of 14 bytes makes no whole record, which is 14."""
    if isinstance(log, (bytes, bytearray, memoryview)):
        return exact(log)
    if isinstance(log, str):
        raise TypeError("a log is bytes or records, and not str")
    made = []
    for record in log:
        if not isinstance(record, (tuple, list)) or len(record) != 2:
            raise TypeError("a record is a time and a message")
        message = octets_of(record[1])
        try:
            made.append(calls.whole(record[0], "u64").to_bytes(TIME, "big") + message)
        except OverflowError:
            return FIELD
        if len(message) != MESSAGE:
            return LOG
    return b"".join(made)


def replay(
    log: bytes | Iterable[tuple[int, Any]],
    kind: str,
    address: int,
    flag: int = 0,
    station: int = 0,
    site: tuple[float, float] | None = None,
) -> Track | Refusal | None:
    """The track of one aircraft, worked out again from a log of at most 2,900 records; None if it is not held. RULES 13.

    A log is what a table received since its set-up: bytes, 22 for each record, or records. Kind C has no use for a site.
    """
    key, spot, whole = checked_key(kind, address, flag, station), units(*pair_of(site)) if site is not None else None, log_of(log)
    if isinstance(whole, Refusal):
        return whole
    row = calls.words(TRACK)
    if key is None or isinstance(spot, Refusal):
        number = calls.replay(whole, 0, 0, row)  # what is no kind is refused in its place, behind a log that is none
    elif kind == "C":
        number = calls.replay_coarse(whole, address, flag, station, row)
    elif spot is None:
        number = calls.replay(whole, KINDS[kind], address, row)
    else:
        number = calls.replay_at(whole, KINDS[kind], address, *spot, row)
    if number or key is None:
        return Refusal(number)
    return Track(key, row[:]) if row[0] else None


def contents(source: File | bytes) -> bytes:
    """What is handed over, or what stands in a file."""
    if isinstance(source, (bytes, bytearray, memoryview)):
        return exact(source)
    with opened(source) as file:
        return file.read()


def check(capture: File | bytes, listing: File | bytes) -> Checked:
    """Another decoder's listing of a capture, checked against ours: RULES 14. Each is the path of a file, or bytes."""
    out = calls.words(1)
    number = calls.check(contents(capture), contents(listing), out)
    if number:
        return Checked(refusal=Refusal(number))
    return Checked(line=int(out[0]) or None)


def merge(a: bytes, b: bytes) -> bytes:
    """The listings of two tables as one. It raises Refused, with 16, for a text that is no listing, or for two that cannot become one."""
    one, other = octets_in(a), octets_in(b)
    out, written = calls.octets(len(one) + len(other)), calls.words(1)
    number = calls.merge(one, other, out, written)
    if number:
        raise Refused(Refusal(number))
    return bytes(out)[: int(written[0])]


def octets_in(text: Any) -> bytes:
    """The bytes of a listing; a wrong type raises."""
    if not isinstance(text, (bytes, bytearray, memoryview)):
        raise TypeError(f"a listing is bytes, and not {type(text).__name__}")
    return exact(text)
