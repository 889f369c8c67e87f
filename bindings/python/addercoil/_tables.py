"""A table: the tracks of a receiver, in bytes that the library is lent."""
from __future__ import annotations

import threading
from collections.abc import Iterator
from types import TracebackType
from typing import Any

from . import calls
from ._messages import Data, exact, octets_of
from ._names import LINE, SITE, STAMPS, TRACK
from ._spots import degrees, pair_of, units
from ._tracks import Track, key_of
from ._values import FIELD, Refusal, Refused, refusal, signed


class Table:
    """Holds the aircraft of up to so many places, 1 to 1,024, each until it was last heard 125 seconds ago.

    With a site, the receiver's latitude and longitude in degrees, positions on the ground are read against it. A table that is closed
    raises ValueError. Other threads wait for each other.
    """

    def __init__(self, places: int = 256, site: tuple[float, float] | None = None) -> None:
        self._bytes: calls.Array | None = None
        self._lock = threading.RLock()
        self._stamps = calls.words(STAMPS)
        self._bad = 0
        spot = None if site is None else units(*pair_of(site))
        if isinstance(spot, Refusal):
            raise Refused(spot)
        try:
            made = calls.octets(calls.table_bytes(places))
        except OverflowError:
            made = calls.octets(0)
        number = calls.set_up(made) if spot is None else calls.set_up_at(made, *spot)
        if number:
            raise Refused(Refusal(number))
        self._bytes = made

    @classmethod
    def from_bytes(cls, saved: bytes) -> Table:
        """A table as `to_bytes` gave it, by the same version of the library. Bytes of a wrong length raise Refused; any others are read by the library's rules."""
        table, whole = cls(1), exact(saved)
        made = calls.octets(len(whole))
        made[:] = whole
        number = calls.clock(made, calls.words(1))
        if number:
            raise Refused(Refusal(number))
        table._bytes = made
        return table

    def to_bytes(self) -> bytes:
        """The bytes of the table, which another version of the library may read otherwise. The count of bad blocks is not in them."""
        with self._lock:
            if self._bytes is None:
                raise ValueError("the table is closed")
            if any(self._stamps):
                raise ValueError("a table that takes stamps has more to save than its bytes")
            return bytes(self._bytes)

    def _call(self, name: str, *given: Any) -> int:
        """A function of the library on this table."""
        with self._lock:
            if self._bytes is None:
                raise ValueError("the table is closed")
            number: int = getattr(calls, name)(self._bytes, *given)
            return number

    # What comes in

    def receive(self, message: Data, time: int) -> Refusal | None:
        """A message of 14 bytes, or 28 hex digits, at a time in milliseconds, which must not go back. None, or why it is refused."""
        try:
            return refusal(self._call("receive", octets_of(message), time))
        except OverflowError:
            return FIELD

    def receive_stamp(self, message: Data, stamp: int) -> Refusal | None:
        """The same with the stamp of a receiver whose millisecond counter has 32 bits. Use one way to receive with one table."""
        try:
            return refusal(self._call("receive_stamp", octets_of(message), stamp, self._stamps))
        except OverflowError:
            return FIELD

    def feed(self, block: bytes) -> bool:
        """The records of a block of a capture. Whether it is a good one; a bad one changes nothing and is counted."""
        if not isinstance(block, (bytes, bytearray, memoryview)):
            raise TypeError(f"a block is bytes, and not {type(block).__name__}")
        out, before = calls.words(1), self._bad
        self._call("feed_block", exact(block), before, out)
        self._bad = int(out[0])
        return self._bad == before

    # What is held

    @property
    def bad_blocks(self) -> int:
        """How many blocks of `feed` were bad."""
        return self._bad

    @property
    def clock(self) -> int:
        """The latest time, in milliseconds."""
        out = calls.words(1)
        self._call("clock", out)
        return int(out[0])

    @property
    def site(self) -> tuple[float, float] | None:
        """The site in degrees, rounded to the library's units."""
        out = calls.words(SITE)
        self._call("site", out)
        known, latitude, longitude = out[:]
        found = degrees(signed(latitude), longitude) if known else None
        return None if isinstance(found, Refusal) else found

    def __iter__(self) -> Iterator[Track]:
        """Every aircraft that is held, in the order of the listing."""
        key = self._next(0)
        while key:
            found = self._look_up(key)
            if found is not None:
                yield found
            key = self._next(key)

    def _next(self, key: int) -> int:
        """The smallest key above one that is held, or 0."""
        out = calls.words(1)
        self._call("next", key, out)
        return int(out[0])

    def _look_up(self, key: int) -> Track | None:
        """The aircraft of a key, if it is held."""
        row = calls.words(TRACK)
        self._call("look_up", key, row)
        return Track(key, row[:]) if row[0] else None

    def track(self, kind: str, address: int, flag: int = 0, station: int = 0) -> Track | Refusal | None:
        """An aircraft by its kind and address, of kind C by flag and station too; None if it is not held."""
        key = checked_key(kind, address, flag, station)
        return FIELD if key is None else self._look_up(key)

    def listing(self, all: bool = False) -> str:
        """The listing, as the program prints it: of the aircraft with a position, or of all."""
        line = calls.octets(LINE)
        self._call("header", self._bad, int(bool(all)), line)
        lines, key = [bytes(line)], self._next(0)
        while key:
            self._call("line", key, int(bool(all)), line)
            lines.append(bytes(line))
            key = self._next(key)
        return b"".join(one.rstrip(b"\0") for one in lines).decode("ascii")

    # Its end

    def close(self) -> None:
        """Lets the bytes go."""
        with self._lock:
            self._bytes = None

    @property
    def closed(self) -> bool:
        """Whether it is closed."""
        return self._bytes is None

    def __enter__(self) -> Table:
        return self

    def __exit__(self, kind: type[BaseException] | None, value: BaseException | None, trace: TracebackType | None) -> None:
        self.close()


def checked_key(kind: Any, address: Any, flag: Any, station: Any) -> int | None:
    """The key of an aircraft, None if there is none; a wrong type raises."""
    if not isinstance(kind, str):
        raise TypeError(f"a kind is one of I, O, T, M, N and C, and not {type(kind).__name__}")
    try:
        return key_of(kind, *(calls.whole(number, "u32") for number in (address, flag, station)))
    except OverflowError:
        return None
