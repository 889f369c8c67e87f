"""What is known of an aircraft, by name, from the entries of addercoil_look_up."""
from __future__ import annotations

import math
from collections.abc import Sequence

from . import calls
from ._names import DEGREES, INTEGRITY_NIC, INTEGRITY_NUC, KINDS
from ._names import TRACK_ENTRIES as AT
from ._values import Over, degrees_of, reading, signed, text_of

LETTERS = {number: letter for letter, number in KINDS.items()}
COARSE = 2**31  # the bit of a key of kind C
PARTS = 48  # of a knot, in a movement


def key_of(kind: str, address: int, flag: int = 0, station: int = 0) -> int | None:
    """The key of an aircraft, as ADDERCOIL_KEY_OF and ADDERCOIL_KEY_COARSE make it; None if there is none."""
    if not (kind in KINDS and 0 <= address < 2**24 and flag in (0, 1) and 0 <= station < 16):
        return None
    return COARSE | address << 5 | flag << 4 | station if kind == "C" else KINDS[kind] << 24 | address


class Track:
    """An aircraft that is held. Unknown is None, and so is a reserved code; what is above its code is an Over."""

    __slots__ = ("key", "entries")

    def __init__(self, key: int, entries: Sequence[int]) -> None:
        self.key = key
        self.entries = tuple(entries)  # all of ADDERCOIL_TRACK_.., by number

    def __repr__(self) -> str:
        return f"<Track {self.kind} {self.address:06X} heard {self.heard}>"

    def __eq__(self, other: object) -> bool:
        return isinstance(other, Track) and (self.key, self.entries) == (other.key, other.entries)

    def __hash__(self) -> int:
        return hash((self.key, self.entries))

    def _entry(self, name: str) -> int:
        return self.entries[AT[name]]

    def _reading(self, name: str) -> int | Over | None:
        return reading(self.entries, AT[f"{name}_is"])

    def _number(self, name: str) -> int | None:
        found = self._reading(name)
        return None if isinstance(found, Over) else found

    def _direction(self, name: str, status: str) -> float | None:
        """A direction in degrees, if its status says that it is valid."""
        found = self._number(name)
        return None if found is None or self._number(status) != 1 else degrees_of(found)

    # Who it is

    @property
    def kind(self) -> str:
        """I or O of what aircraft send; T, M, N or C of what a ground station sends."""
        return "C" if self.key >= COARSE else LETTERS[self.key >> 24]

    @property
    def address(self) -> int:
        """The 24 bits of the address."""
        return (self.key >> 5 if self.key >= COARSE else self.key) & 0xFFFFFF

    @property
    def flag(self) -> int | None:
        """Of kind C: which address it is."""
        return self.key >> 4 & 1 if self.key >= COARSE else None

    @property
    def station(self) -> int | None:
        """Of kind C: which station tells of it."""
        return self.key & 15 if self.key >= COARSE else None

    @property
    def heard(self) -> int:
        """The time of its last message, in milliseconds."""
        return self._entry("heard")

    @property
    def callsign(self) -> str | None:
        """Without the spaces behind it."""
        return text_of(self._entry("callsign")) if self._number("callsign") is not None else None

    @property
    def category(self) -> str | None:
        """A letter and a digit, as A3."""
        return f"{chr(self._entry('category_set'))}{self._entry('category')}" if self._number("category_set") is not None else None

    # Where it is

    def _degrees(self, at: int) -> float | None:
        if not self._entry("position_known"):
            return None
        made = calls.doubles(DEGREES)
        calls.degrees(signed(self._entry("latitude")), self._entry("longitude"), made)
        return float(made[at])

    @property
    def latitude(self) -> float | None:
        """In degrees, exactly; north is above zero."""
        return self._degrees(0)

    @property
    def longitude(self) -> float | None:
        """In degrees, exactly; from -180 up to below 180, east is above zero."""
        return self._degrees(1)

    @property
    def units(self) -> tuple[int, int] | None:
        """Latitude and longitude in the library's units, 2^-32 of a turn."""
        return (signed(self._entry("latitude")), self._entry("longitude")) if self._entry("position_known") else None

    @property
    def position_time(self) -> int | None:
        """When the position was heard."""
        return self._entry("position_time") if self._entry("position_known") else None

    @property
    def on_ground(self) -> bool | None:
        """Whether its last position message was a surface position."""
        found = self._number("on_ground")
        return None if found is None else found == 1

    @property
    def altitude(self) -> int | None:
        """By pressure, in feet."""
        return self._number("altitude")

    @property
    def altitude_step(self) -> int | None:
        """How coarse that is: 25 or 100 feet."""
        return self._number("altitude_step")

    @property
    def gnss_height(self) -> int | None:
        """In feet."""
        return self._number("gnss_height")

    @property
    def gnss_height_step(self) -> int | None:
        """How coarse that is: 25 or 100 feet."""
        return self._number("gnss_height_step")

    # How it moves over ground

    @property
    def speed(self) -> float | Over | None:
        """Over ground, in knots: the root of the two parts in the air, the movement on the surface, of kind C the lower edge of its step."""
        if self.kind == "C":
            return reading(self.entries, AT["speed_is"], lambda least: least)
        if self.on_ground:
            found = reading(self.entries, AT["movement_is"], lambda least: least / PARTS)
            return found if found is None or isinstance(found, Over) else found / PARTS
        east, north = self.east, self.north
        if east is None or north is None:
            return None
        return Over() if isinstance(east, Over) or isinstance(north, Over) else math.sqrt(east * east + north * north)

    @property
    def direction(self) -> float | None:
        """Over ground, in degrees from north, clockwise, from 0 to below 360; None if it stands still in the air."""
        if self.kind == "C":
            return self._direction("angle", "angle_status")
        if self.on_ground:
            return self._direction("surface_heading", "surface_status")
        east, north = self._number("east"), self._number("north")
        if east is None or north is None or east == north == 0:
            return None
        found = math.degrees(math.atan2(east, north))
        return found + 360 if found < 0 else found

    @property
    def east(self) -> int | Over | None:
        """The velocity over ground to the east, in knots; west is below zero."""
        return self._reading("east")

    @property
    def north(self) -> int | Over | None:
        """The velocity over ground to the north, in knots; south is below zero."""
        return self._reading("north")

    @property
    def rate(self) -> int | Over | None:
        """The vertical rate, in feet per minute; down is below zero."""
        return self._reading("rate")

    @property
    def rate_source(self) -> str | None:
        """Where that comes from: geometric or barometric."""
        found = self._number("rate_source")
        return None if found is None else ("geometric", "barometric")[found]

    # How it moves through air

    @property
    def airspeed(self) -> int | Over | None:
        """In knots."""
        return self._reading("airspeed")

    @property
    def airspeed_kind(self) -> str | None:
        """Which airspeed that is: indicated or true."""
        found = self._number("airspeed_kind")
        return None if found is None else ("indicated", "true")[found]

    @property
    def heading(self) -> float | None:
        """In degrees, of one that sends its airspeed, if it is valid."""
        return self._direction("heading", "heading_status")

    # How far its position can be trusted

    @property
    def version(self) -> int:
        """Of the standard: 0 to 2, or 3 to 7, which are reserved."""
        return self._entry("version")

    @property
    def nuc(self) -> int | None:
        """Navigation uncertainty category, of version 0."""
        return self._entry("integrity") if self._entry("integrity_is") == INTEGRITY_NUC else None

    @property
    def nic(self) -> int | None:
        """Navigation integrity category, of versions 1 and 2."""
        return self._entry("integrity") if self._entry("integrity_is") == INTEGRITY_NIC else None
