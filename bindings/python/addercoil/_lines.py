"""The lines that the commands write: of csv, and of live."""
from __future__ import annotations

from ._tracks import Track
from ._values import Over

COLUMNS = "time", "kind", "address", "callsign", "latitude", "longitude", "altitude", "step", "speed", "direction", "nuc", "nic", "flag", "station"
NAMES = ",".join(COLUMNS)
TITLES = f"{'':13} {'callsign':8} {'latitude':>10} {'longitude':>11} {'feet':>13} {'knots':>5} {'age':>4}"


def figure(value: float | Over | None, form: str) -> str:
    """A number in a form; over as a word; nothing if it is unknown."""
    return "" if value is None else "over" if isinstance(value, Over) else format(value, form)


def csv_line(track: Track) -> str:
    """A position: its degrees as the shortest decimals that are read back as the same doubles."""
    columns = [str(track.heard), track.kind, f"{track.address:06X}", track.callsign or "", figure(track.latitude, ""), figure(track.longitude, "")]
    columns += [figure(track.altitude, ""), figure(track.altitude_step, ""), figure(track.speed, ".2f"), figure(track.direction, ".2f")]
    columns += [figure(value, "") for value in (track.nuc, track.nic, track.flag, track.station)]
    return ",".join(columns)


def live_line(track: Track, clock: int) -> str:
    """An aircraft for people to watch: callsign, degrees, altitude with its step, speed, and how many seconds ago it was heard."""
    sender = "" if track.flag is None else f" {track.flag} {track.station}"
    key = f"{track.kind} {track.address:06X}{sender}"
    altitude = "-" if track.altitude is None else f"{track.altitude} by {track.altitude_step}"
    places = [figure(value, ".5f") or "-" for value in (track.latitude, track.longitude)]
    age = max(clock - track.heard, 0) // 1000
    return f"{key:13} {track.callsign or '-':8} {places[0]:>10} {places[1]:>11} {altitude:>13} {figure(track.speed, '.0f') or '-':>5} {age:>4}"
