"""What carries the messages of a fleet: Redis Streams, or the memory of one process. Both have the same functions.

The protocol of Redis is written out here, in a few lines, and not taken from a package: a package may connect again and repeat a command
by itself. Here a connection that broke is an error, and whoever gets it reads its state again before it does anything.
"""
from __future__ import annotations

import socket
import time
from typing import Any, NamedTuple, Protocol, Union

Word = Union[bytes, str, int]
Command = tuple[Word, ...]
State = dict[bytes, bytes]
COUNT = 100  # entries that are read at once
SECONDS = 10.0  # without an answer; then the connection counts as broken
START = b"0"  # before the first id
KEEPS = {"appendonly": "yes", "appendfsync": "always"}  # the settings by which Redis keeps all that it has taken


class Entry(NamedTuple):
    """What stands in a stream under an id: pairs of a field and a value, in order. A field may come twice."""

    id: bytes
    pairs: list[tuple[bytes, bytes]]


class Away(Exception):
    """Redis cannot be reached, or does not serve now. What was sent last may have been done or not."""


class Overtaken(Exception):
    """The state is no longer the one that was read. Nothing was done."""


class Store(Protocol):
    """What a part of the fleet asks for."""

    def state(self, key: str) -> State: ...
    def read(self, stream: str, after: bytes, wait: float) -> list[Entry]: ...
    def longest(self, streams: list[str]) -> int: ...
    def add(self, stream: str, field: str, value: str) -> bytes: ...
    def commit(self, key: str, last: bytes, changes: list[Command]) -> None: ...
    def forget(self, key: str) -> None: ...
    def settings(self) -> dict[str, str]: ...


# Redis


class Fault(NamedTuple):
    """An answer of Redis that is an error."""

    text: str


def octets(word: Word) -> bytes:
    """A word of a command as it is sent."""
    return word if isinstance(word, bytes) else str(word).encode("utf-8", "surrogateescape")


def packed(command: Command) -> bytes:
    """A command as it is sent: how many words, then each with its length."""
    parts = [b"*%d\r\n" % len(command)]
    for word in map(octets, command):
        parts.append(b"$%d\r\n%b\r\n" % (len(word), word))
    return b"".join(parts)


class Redis:
    """A connection to Redis, which is made when it is needed."""

    def __init__(self, host: str, port: int) -> None:
        self.host, self.port = host, port
        self._socket: socket.socket | None = None
        self._file: Any = None

    def close(self) -> None:
        """Ends the connection. What it watched is forgotten with it."""
        if self._socket is not None:
            self._file.close()
            self._socket.close()
        self._socket = None

    def answers(self, commands: list[Command]) -> list[Any]:
        """Sends commands, and reads an answer to each, which may be a fault. Nothing is ever sent twice."""
        sent = b"".join(map(packed, commands))
        try:
            if self._socket is None:
                self._socket = socket.create_connection((self.host, self.port), SECONDS)
                self._file = self._socket.makefile("rb", 2**16)
                self._socket.setsockopt(socket.IPPROTO_TCP, socket.TCP_NODELAY, 1)
            self._socket.sendall(sent)
            return [self._reply() for _ in commands]
        except (OSError, ValueError) as why:
            self.close()
            raise Away(f"Redis at {self.host}:{self.port} is away: {why}") from why

    def exchange(self, commands: list[Command]) -> list[Any]:
        """The same without faults: one of them is as bad as no answer."""
        replies = self.answers(commands)
        for reply in replies:
            if isinstance(reply, Fault):
                self.close()
                raise Away(f"Redis at {self.host}:{self.port} answers: {reply.text}")
        return replies

    def _bytes(self, size: int) -> bytes:
        """So many bytes of an answer, and the end of a line."""
        found: bytes = self._file.read(size + 2)
        if len(found) != size + 2:
            raise ConnectionError("the connection ended")
        return found[:-2]

    def _reply(self) -> Any:
        """An answer: bytes, a number, a list, a fault, or None."""
        line: bytes = self._file.readline()
        if not line.endswith(b"\r\n"):
            raise ConnectionError("the connection ended")
        kind, rest = line[:1], line[1:-2]
        if kind == b"$":
            return None if rest == b"-1" else self._bytes(int(rest))
        if kind == b"*":
            return None if rest == b"-1" else [self._reply() for _ in range(int(rest))]
        if kind not in (b"-", b":", b"+"):
            raise ConnectionError("this is not an answer of Redis")
        return Fault(rest.decode(errors="replace")) if kind == b"-" else int(rest) if kind == b":" else rest

    def state(self, key: str) -> State:
        """The fields of a key; none if it is not there."""
        found = self.exchange([("HGETALL", key)])[0]
        return dict(zip(found[::2], found[1::2]))

    def read(self, stream: str, after: bytes, wait: float) -> list[Entry]:
        """What stands in a stream after an id. If nothing does, it waits so many seconds."""
        found = self.exchange([("XREAD", "COUNT", COUNT, "BLOCK", int(wait * 1000) or 1, "STREAMS", stream, after)])[0]
        return [Entry(id, list(zip(words[::2], words[1::2]))) for id, words in found[0][1]] if found else []

    def longest(self, streams: list[str]) -> int:
        """How many entries the longest of these streams has."""
        return max(self.exchange([("XLEN", stream) for stream in streams]))

    def add(self, stream: str, field: str, value: str) -> bytes:
        """Adds an entry by itself. If the answer is lost, nobody knows whether it was added."""
        found: bytes = self.exchange([("XADD", stream, "*", field, value)])[0]
        return found

    def commit(self, key: str, last: bytes, changes: list[Command]) -> None:
        """Makes all the changes or none: only if the field `last` of a key is what it was when the caller read it."""
        _, found = self.exchange([("WATCH", key), ("HGET", key, "last")])
        if (found or START) != last:
            self.exchange([("UNWATCH",)])
            raise Overtaken
        done = self.exchange([("MULTI",), *changes, ("EXEC",)])[-1]
        if done is None:
            raise Overtaken
        for reply in done:
            if isinstance(reply, Fault):
                why = "Another program uses the fleet's keys, or this Redis is older than 6.2."
                raise SystemExit(f"fleet: Redis made a part of a change and not all: {reply.text}. {why}")

    def forget(self, key: str) -> None:
        """Deletes a key."""
        self.exchange([("DEL", key)])

    def settings(self) -> dict[str, str]:
        """How Redis keeps what it has taken. A Redis that does not tell has no settings here."""
        found = self.answers([("CONFIG", "GET", "append*")])[0]
        words = [word.decode() for word in found] if isinstance(found, list) else []
        return dict(zip(words[::2], words[1::2]))


# Memory


def order(id: bytes) -> tuple[int, ...]:
    """An id as numbers, which its order goes by."""
    return tuple(map(int, id.split(b"-")))


class Memory:
    """The same in this process, for one machine. Nothing of it is kept."""

    def __init__(self) -> None:
        self.states: dict[str, State] = {}
        self.streams: dict[str, list[Entry]] = {}
        self._last = 0, 0

    def state(self, key: str) -> State:
        """The fields of a key; none if it is not there."""
        return dict(self.states.get(key, {}))

    def read(self, stream: str, after: bytes, wait: float) -> list[Entry]:
        """What stands in a stream after an id. There is nobody to wait for."""
        return [entry for entry in self.streams.get(stream, []) if order(entry.id) > order(after)][:COUNT]

    def longest(self, streams: list[str]) -> int:
        """How many entries the longest of these streams has."""
        return max(len(self.streams.get(stream, [])) for stream in streams)

    def add(self, stream: str, *words: Word) -> bytes:
        """Adds an entry. Its id begins with the time, and never goes back."""
        self._last = max(int(time.time() * 1000), self._last[0]), self._last[1] + 1
        id, plain = b"%d-%d" % self._last, list(map(octets, words))
        self.streams.setdefault(stream, []).append(Entry(id, list(zip(plain[::2], plain[1::2]))))
        return id

    def commit(self, key: str, last: bytes, changes: list[Command]) -> None:
        """Makes all the changes, if the field `last` of a key is what it was when the caller read it."""
        if self.state(key).get(b"last", START) != last:
            raise Overtaken
        for name, first, *words in changes:
            if name == "XADD":
                self.add(str(first), *words[1:])
            elif name == "HSET":
                plain = list(map(octets, words))
                self.states.setdefault(str(first), {}).update(zip(plain[::2], plain[1::2]))
            elif name == "XTRIM":
                kept = order(octets(words[-1]))
                self.streams[str(first)] = [entry for entry in self.streams[str(first)] if order(entry.id) >= kept]

    def forget(self, key: str) -> None:
        """Deletes a stream."""
        self.streams.pop(key, None)

    def settings(self) -> dict[str, str]:
        """Nothing is kept, and nobody expects it."""
        return KEEPS
