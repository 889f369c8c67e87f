"""Every function of include/addercoil.h by its name, without addercoil_ before it and with the lengths filled in.

    row = addercoil.calls.words(addercoil.calls.TRACK)
    number = addercoil.calls.look_up(table, key, row)

An array that is read is bytes, or an array made here; one that is written is made by `octets`, `words` or `doubles`. A number that does
not fit its C type raises OverflowError: ctypes alone would cut it. What a function answers, and what it does, the header says.
"""
from __future__ import annotations

import ctypes
import operator
from collections.abc import Callable
from pathlib import Path
from typing import TYPE_CHECKING, Any, Protocol

from ._build import with_library
from ._names import FUNCTIONS, TRACK, VERSION

__all__ = [*FUNCTIONS, "TRACK", "doubles", "octets", "words"]

ELEMENTS: dict[str, Any] = {"u8": ctypes.c_uint8, "u64": ctypes.c_uint64, "f64": ctypes.c_double}
NUMBERS: dict[str, Any] = ELEMENTS | {"u32": ctypes.c_uint32, "i32": ctypes.c_int32}
RANGES = {"u8": (0, 2**8 - 1), "u32": (0, 2**32 - 1), "i32": (-(2**31), 2**31 - 1), "u64": (0, 2**64 - 1)}


class Array(Protocol):
    """An array of C: its elements, and how many there are."""

    def __len__(self) -> int: ...
    def __iter__(self) -> Any: ...
    def __getitem__(self, at: Any) -> Any: ...
    def __setitem__(self, at: Any, value: Any) -> None: ...


def octets(size: int) -> Array:
    """So many bytes, zeros."""
    return (ctypes.c_uint8 * size)()


def words(size: int) -> Array:
    """So many numbers of 64 bits, zeros."""
    return (ctypes.c_uint64 * size)()


def doubles(size: int) -> Array:
    """So many doubles, zeros."""
    return (ctypes.c_double * size)()


def whole(value: Any, kind: str) -> int:
    """A whole number that fits a type of C."""
    number = operator.index(value)
    least, most = RANGES[kind]
    if not least <= number <= most:
        raise OverflowError(f"{number} is not from {least} to {most}")
    return number


def real(value: Any) -> float:
    """A double; no text is read as one."""
    if not (hasattr(value, "__float__") or hasattr(value, "__index__")):
        raise TypeError(f"a number is needed, and not {type(value).__name__}")
    return float(value)


def lent(value: Any, kind: str, use: str) -> tuple[Any, int]:
    """An array as C takes it, and its count: that of its memory, whatever a class of the caller's says."""
    if use == "reads" and kind == "u8" and type(value) is bytes:
        return value, len(value)
    if not (isinstance(value, ctypes.Array) and value._type_ is ELEMENTS[kind]):
        raise TypeError(f"an array of {kind} is needed, and not {type(value).__name__}")
    return value, ctypes.sizeof(value) // ctypes.sizeof(ELEMENTS[kind])


def bound(library: ctypes.CDLL, name: str) -> Callable[..., int]:
    """A function of the library, with its C types."""
    answer, parameters = FUNCTIONS[name]
    function = getattr(library, f"addercoil_{name}")
    function.restype = NUMBERS[answer]
    function.argtypes = [one for _, kind, use in parameters for one in ([ctypes.c_void_p, ctypes.c_uint64] if use else [NUMBERS[kind]])]

    def call(*given: Any) -> int:
        if len(given) != len(parameters):
            raise TypeError(f"{name} takes {len(parameters)} arguments, and not {len(given)}")
        handed: list[Any] = []
        for value, (_, kind, use) in zip(given, parameters):
            if use:
                handed += lent(value, kind, use)
            else:
                handed.append(real(value) if kind == "f64" else whole(value, kind))
        return int(function(*handed))

    call.__name__ = call.__qualname__ = name
    call.__doc__ = f"addercoil_{name}({', '.join(parameter for parameter, _, _ in parameters)}): see include/addercoil.h."
    return call


def opened() -> ctypes.CDLL:
    """The library. PyDLL keeps the interpreter's lock while a call runs, so that no other thread writes what it was lent."""
    package = Path(__file__).resolve().parent
    library: ctypes.CDLL = with_library(package.parent, package, ctypes.PyDLL)
    found = library.addercoil_version()
    if found != VERSION:
        raise ImportError(f"the library is version {found}, and this package is for {VERSION}")
    return library


def bind() -> None:
    """Makes every function a name of this module."""
    library = opened()
    for name in FUNCTIONS:
        globals()[name] = bound(library, name)


if TYPE_CHECKING:

    def __getattr__(name: str) -> Callable[..., int]: ...


bind()
