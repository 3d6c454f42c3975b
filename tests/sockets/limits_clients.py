"""Clients of tests/sockets/limits.py: what they ask ahead, what each has to be answered, and how much of what."""

from __future__ import annotations

import errno
import struct
import time
from collections import Counter
from collections.abc import Callable, Iterator
from contextlib import contextmanager

from client import IPC_CREAT, hello_request
from device_layout import Limits
from server import Client, check, frame, reply

USER, GROUP = 1000, 100
MODE = 0o600
MAKE = IPC_CREAT | MODE
# How many connections there are; most are of no process.
CONNECTIONS = 1100
# The most requests, and about how many bytes of them, that are sent before their replies are read.
AHEAD, AHEAD_BYTES = 4096, 1 << 18
# How many bytes a refusal has, and each other reply before its body.
HEAD = 10
# In a record, a time of this run.
NOW = None
# Requests by a descriptor or an attachment: a write of bytes at an offset, and a read of so many from it on.
Write = Callable[[int, int, bytes], bytes]
Read = Callable[[int, int, int], bytes]

# ---- what is sent


def word(number: int) -> bytes:
    return struct.pack(">I", number)


def text(number: int, start: int, length: int) -> bytes:
    """Bytes that tell whose they are and where each stands: these are those from a place on."""
    first = (number + start) % 251
    return (bytes(range(251)) * (length // 251 + 2))[first : first + length]


def share_of(everything: int, parts: int, number: int) -> int:
    """How much of it one of so many has, by its number from 1 on: an equal part, and the last one what is left."""
    part = everything // parts
    return part if number < parts else everything - part * (parts - 1)


# ---- clients


class Line:
    """A client's connection, with what is still to be sent, and what has to come for it. All its requests have its
    number as their serial."""

    def __init__(self, number: int) -> None:
        self.number = number
        self.client = Client()
        self.requests: list[bytes] = []
        self.replies: list[tuple[int, bytes, int]] = []

    def ask(self, request: bytes, error: int, body: bytes, times: int) -> None:
        self.requests.append(frame(self.number, request) * times)
        self.hear(request[0], error, body, times)

    def hear(self, opcode: int, error: int, body: bytes = b"", times: int = 1) -> None:
        self.replies.append((opcode, reply(self.number, error, body), times))

    def send(self) -> None:
        if self.requests:
            self.client.send_bytes(b"".join(self.requests))
            self.requests.clear()

    def settle(self) -> None:
        """What has come is what had to come, to the byte."""
        for opcode, wanted, times in self.replies:
            self.take(opcode, wanted[:HEAD])
            self.take(opcode, (wanted * times)[HEAD:])
        self.replies.clear()

    def take(self, opcode: int, wanted: bytes) -> None:
        """These bytes come next."""
        asked = f"client {self.number}, opcode {opcode:02x}"
        try:
            found = self.client.take(len(wanted))
        except (TimeoutError, ConnectionError) as fault:
            raise AssertionError(f"{asked}: {fault}, and {len(wanted)} bytes have to come") from None
        if found != wanted:
            at = next(at for at in range(len(wanted)) if found[at] != wanted[at])
            at -= at % HEAD
            here, there = (them[at : at + 8 * HEAD].hex() for them in (found, wanted))
            check(False, f"{asked}: {here} comes, and not {there}, {at} bytes on")


class Clients:
    """Clients of a server. Each asks when what others have asked is answered, unless that is put off."""

    def __init__(self) -> None:
        self.lines: dict[int, Line] = {}
        self.unsettled: dict[int, Line] = {}
        self.together = False
        # How many requests were answered as they must be, or wait as they must.
        self.asked = 0
        self.bytes_ahead = 0

    def connect(self, number: int) -> None:
        self.lines[number] = Line(number)

    def close(self) -> None:
        for line in self.lines.values():
            line.client.close()

    def line(self, number: int) -> Line:
        if not self.together and number not in self.unsettled:
            self.settle()
        return self.unsettled.setdefault(number, self.lines[number])

    def ask(self, number: int, request: bytes, error: int = 0, body: bytes = b"", times: int = 1) -> None:
        """A client asks so often, and is answered so each time."""
        for begun in range(0, times, AHEAD):
            some = min(times - begun, AHEAD)
            self.line(number).ask(request, error, body, some)
            self.bytes_ahead += some * len(request)
            if some == AHEAD or self.bytes_ahead > AHEAD_BYTES:
                self.settle()
        self.asked += times

    def wait(self, number: int, request: bytes) -> None:
        """A client asks what has to wait: no answer comes before that to what it asks next."""
        self.line(number).requests.append(frame(number, request))
        self.asked += 1

    def hear(self, number: int, opcode: int, error: int = 0) -> None:
        """Now its call that waited is answered."""
        self.line(number).hear(opcode, error)

    def settle(self) -> None:
        """All that was asked is answered."""
        for line in self.unsettled.values():
            line.send()
        for line in self.unsettled.values():
            line.settle()
        self.unsettled.clear()
        self.bytes_ahead = 0

    @contextmanager
    def at_once(self) -> Iterator[None]:
        """What clients ask meanwhile does not depend on what others ask."""
        self.settle()
        self.together = True
        yield
        self.together = False
        self.settle()

    def read(self, number: int, request: bytes, form: str) -> tuple[int, ...]:
        """The fields of a record that a client asks for."""
        self.settle()
        line, size = self.lines[number], struct.calcsize(form)
        line.client.send_bytes(frame(number, request))
        line.take(request[0], reply(number, 0, bytes(size))[:HEAD])
        self.asked += 1
        return struct.unpack(form, line.client.take(size))


# ---- what was made


class Most:
    """A server's clients, the limits, and what was made so far."""

    def __init__(self, limits: Limits) -> None:
        self.limits = limits
        self.begun = time.time() * 1000
        self.count: Counter[str] = Counter()
        self.clients = Clients()

    def ask(self, client: int, request: bytes, error: int = 0, body: bytes = b"", times: int = 1) -> None:
        self.clients.ask(client, request, error, body, times)

    def ask_for(self, client: int, request: bytes, wanted: int) -> None:
        """The answer is a number, as an identifier or a descriptor."""
        self.clients.ask(client, request, 0, word(wanted))

    def tells(self, request: bytes, form: str, *wanted: int | None) -> None:
        """The first client is told this record."""
        found = self.clients.read(1, request, form)
        now = time.time() * 1000
        for field, value in zip(found, wanted):
            is_so = self.begun - 1000 <= field <= now if value is NOW else field == value
            check(is_so, f"the record is {found}, and not {wanted}")

    def come(self, pids: int) -> None:
        """Clients connect and say HELLO: so many as the limit allows become processes, and the others do not."""
        self.clients = Clients()
        hello, processes = hello_request(USER, GROUP), self.limits.processes
        for client in range(1, CONNECTIONS + 1):
            self.clients.connect(client)
            if client <= processes:
                self.ask_for(client, hello, pids + client)
        with self.clients.at_once():
            for client in range(processes + 1, CONNECTIONS + 1):
                self.ask(client, hello, errno.ENFILE)
        self.count["connections"], self.count["processes"] = CONNECTIONS, processes

    def write_bytes(self, client: int, call: Write, fd: int, what: tuple[int, int]) -> None:
        """Writes the bytes of a segment, which are told by a number and a length, by calls of the most bytes."""
        (number, length), most = what, self.limits.segment_call
        for start in range(0, length, most):
            self.ask(client, call(fd, start, text(number, start, min(length - start, most))))

    def has_bytes(self, client: int, call: Read, fd: int, what: tuple[int, int]) -> None:
        """Reads them so. A call of one byte more is refused."""
        (number, length), most = what, self.limits.segment_call
        for start in range(0, length, most):
            size = min(length - start, most)
            self.ask(client, call(fd, start, size), 0, text(number, start, size))
        self.ask(client, call(fd, 0, most + 1), errno.EINVAL)
