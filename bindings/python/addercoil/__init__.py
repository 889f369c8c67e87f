"""Addercoil: a verified decoder of ADS-B messages, for scripts.

    import addercoil
    table = addercoil.Table(places=256, site=(52.31, 4.76))
    table.receive("8D4840D6202CC371C32CE0576098", time=1000)
    for track in table:
        print(track.kind, f"{track.address:06X}", track.callsign, track.altitude, track.speed, track.latitude, track.longitude)

The library behind it is proved. This package is a thin layer over it and is not: it is compared with the model in the project's tests.
A message is bytes or hex. What the library refuses comes back as a Refusal. Wrong types, closed tables and files that cannot be read
raise, and so do a table that cannot be made and two listings that cannot become one. Unknown is None; what is above its code is an Over,
which no arithmetic takes.
"""
from . import calls
from ._captures import Capture, Checked, Positions, Record, check, merge, read_capture, replay
from ._messages import Message, decode, encode
from ._names import VERSION
from ._spots import degrees, units
from ._tables import Table
from ._tracks import Track
from ._values import Over, Refusal, Refused

__version__ = f"{VERSION // 10_000}.{VERSION // 100 % 100}.{VERSION % 100}"
__all__ = [
    "Capture",
    "Checked",
    "Message",
    "Over",
    "Positions",
    "Record",
    "Refusal",
    "Refused",
    "Table",
    "Track",
    "calls",
    "check",
    "decode",
    "degrees",
    "encode",
    "merge",
    "read_capture",
    "replay",
    "units",
]
