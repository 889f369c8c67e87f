"""What one message says: its fields, as they were sent, and what they mean."""
from __future__ import annotations

from collections.abc import Mapping
from typing import Union

from . import calls
from ._names import FIELDS, FIELDS_OF, HEAD, LAYOUTS, MESSAGE, READINGS_OF
from ._tracks import COARSE, LETTERS, PARTS
from ._values import Over, Refusal, Value, degrees_of, reading, text_of

Data = Union[bytes, bytearray, memoryview, str]
NAMES = {number: name for name, number in LAYOUTS.items()}


def octets_of(message: Data) -> bytes:
    """The bytes of a message, or of hex digits. What is no hex is empty, which the library refuses with 1 as any wrong length."""
    if isinstance(message, str):
        try:
            return bytes.fromhex(message)
        except ValueError:
            return b""
    if not isinstance(message, (bytes, bytearray, memoryview)):
        raise TypeError(f"a message is bytes or hex, and not {type(message).__name__}")
    return exact(message)


def exact(message: bytes | bytearray | memoryview) -> bytes:
    """The bytes in the memory of what holds bytes, whatever a class of the caller's says of them."""
    return memoryview(message).tobytes()


def value_of(layout: str, name: str, entries: list[int], at: int) -> Value:
    """What a reading means, by its layout and name."""
    knots = layout == "SURFACE" and name == "speed"
    found = reading(entries, at, (lambda least: least / PARTS if knots else least) if knots or layout == "COARSE" else None)
    if found is None or isinstance(found, Over):
        return found
    if name == "text":
        return text_of(entries[at + 1])
    if name == "set":
        return chr(found)
    if name in ("turn", "angle"):
        return degrees_of(found)
    return bool(found) if name == "gnss" else found / PARTS if knots else found


class Message:
    """A message that was decoded. `fields` are its codes, `readings` what they mean; message["altitude"] finds either."""

    __slots__ = ("entries", "layout", "df", "ca", "address", "key", "type", "fields", "readings")

    def __init__(self, entries: list[int]) -> None:
        self.entries = tuple(entries)  # all of them, as addercoil_decode gives them
        self.layout = NAMES[entries[HEAD["layout"]]]
        self.df, self.ca, self.address, self.key = (entries[HEAD[name]] for name in ("df", "ca", "aa", "key"))
        self.type = None if self.layout == "COARSE" else entries[HEAD["typecode"]]
        self.fields: Mapping[str, int] = {name: entries[at] for name, at in FIELDS_OF[self.layout].items()}
        self.readings: Mapping[str, Value] = {name: value_of(self.layout, name, entries, at) for name, at in READINGS_OF[self.layout].items()}

    @property
    def kind(self) -> str:
        """The kind of its aircraft: I, O, T, M, N or C."""
        return "C" if self.key >= COARSE else LETTERS[self.key >> 24]

    __iter__ = None  # else Python would ask for the items 0, 1 and so on

    def __getitem__(self, name: str) -> Value:
        return self.readings[name] if name in self.readings else self.fields[name]

    def __repr__(self) -> str:
        return f"<Message {self.kind} {self.address:06X} {self.layout} {dict(self.readings)}>"


def decode(message: Data) -> Message | Refusal:
    """What a message of 14 bytes, or 28 hex digits, says; or why it is refused."""
    entries = calls.words(FIELDS)
    number = calls.decode(octets_of(message), entries)
    return Refusal(number) if number else Message(list(entries))


def encode(message: Message) -> bytes | Refusal:
    """The 14 bytes of a message that was decoded."""
    if not isinstance(message, Message):
        raise TypeError(f"a message is needed, and not {type(message).__name__}")
    entries, made = calls.words(FIELDS), calls.octets(MESSAGE)
    entries[:] = message.entries
    number = calls.encode(entries, made)
    return Refusal(number) if number else bytes(made)
