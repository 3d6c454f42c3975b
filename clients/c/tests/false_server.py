"""A server that answers each request as a server would, but for one: to that it says anything."""

from __future__ import annotations

import errno
import os
import socket
import struct
import threading
from collections.abc import Callable
from typing import NamedTuple

HELLO, INTERRUPT, MSGGET, SEM_STAT, SHMAT, OPENS = 0x01, 0x02, 0x0A, 0x1D, 0x47, (0x28, 0x32, 0x3C)
KNOWN = b"/q", b"/s", b"/m"
KNOWN_SEGMENT = 1
AFTER = 0x69706341


class Fault(NamedTuple):
    """What is said of a request with a serial, whether the stream ends then, and the error of the call. Of one that
    is interrupted the serial is that of the call, and the next one that of the INTERRUPT."""

    name: str
    says: Callable[[int], bytes]
    ends: bool
    errno: int


def reply(serial: int, error: int = 0, body: bytes = b"") -> bytes:
    return struct.pack(">IIH", 6 + len(body), serial, error) + body


def eintr(serial: int) -> bytes:
    return reply(serial, errno.EINTR)


FAULTS = [
    Fault("the end", lambda serial: b"", True, errno.ECONNRESET),
    Fault("the end in a length", lambda serial: b"\0\0", True, errno.ECONNRESET),
    Fault("the end in a head", lambda serial: reply(serial)[:7], True, errno.ECONNRESET),
    Fault("the end in a body", lambda serial: reply(serial, 0, bytes(20))[:-3], True, errno.ECONNRESET),
    Fault("another serial", lambda serial: reply(serial + 1, 0, bytes(4)), False, errno.EPROTO),
    Fault("the serial before", lambda serial: reply(serial - 1, 0, bytes(4)), False, errno.EPROTO),
    Fault("a short length", lambda serial: struct.pack(">II", 5, serial) + b"\0", False, errno.EPROTO),
    Fault("no length", lambda serial: bytes(4), False, errno.EPROTO),
    Fault("a great length", lambda serial: struct.pack(">II", 2**32 - 1, serial), False, errno.EPROTO),
    Fault("a length one too great", lambda serial: struct.pack(">II", 65793, serial), False, errno.EPROTO),
    Fault("a body of three bytes", lambda serial: reply(serial, 0, b"abc"), False, errno.EPROTO),
    Fault("a body too long", lambda serial: reply(serial, 0, bytes(65785)), False, errno.EPROTO),
    Fault("a refusal with a body", lambda serial: reply(serial, errno.EAGAIN, b"body"), False, errno.EPROTO),
    Fault("no error's number", lambda serial: reply(serial, 40000), False, errno.EPROTO),
    Fault("EPROTO", lambda serial: reply(serial, errno.EPROTO), True, errno.EPROTO),
    Fault("EPROTO of no serial", lambda serial: reply(0, errno.EPROTO), True, errno.EPROTO),
    Fault("EIO", lambda serial: reply(0, errno.EIO), True, errno.EIO),
    Fault("a notification unasked", lambda serial: reply(0, 0, bytes(8)), False, errno.EPROTO),
]

# A part of a frame, and then nothing: the library waits for the rest, but not for ever.
TORN = [
    Fault("a torn length", lambda serial: b"\0\0", False, errno.EPROTO),
    Fault("a torn head", lambda serial: reply(serial)[:9], False, errno.EPROTO),
    Fault("a torn body", lambda serial: reply(serial, 0, bytes(20))[:-1], False, errno.EPROTO),
]

# What comes after an INTERRUPT in place of the two replies.
INTERRUPTED = [
    Fault("the end", lambda serial: b"", True, errno.ECONNRESET),
    Fault("the end in mid-frame", lambda serial: eintr(serial)[:7], True, errno.ECONNRESET),
    Fault("the end after EINTR", lambda serial: eintr(serial), True, errno.ECONNRESET),
    Fault("the end in the second", lambda serial: eintr(serial) + reply(serial + 1)[:5], True, errno.ECONNRESET),
    Fault("another serial", lambda serial: eintr(serial + 7), False, errno.EPROTO),
    Fault("the second first", lambda serial: reply(serial + 1) + eintr(serial), False, errno.EPROTO),
    Fault("another second", lambda serial: eintr(serial) + reply(serial + 2), False, errno.EPROTO),
    Fault("EINTR twice", lambda serial: eintr(serial) + eintr(serial), False, errno.EPROTO),
    Fault("a second refused", lambda serial: eintr(serial) + eintr(serial + 1), False, errno.EPROTO),
    Fault("a second with a body", lambda serial: eintr(serial) + reply(serial + 1, 0, b"a"), False, errno.EPROTO),
    Fault("EINTR with a body", lambda serial: reply(serial, 4, b"a") + reply(serial + 1), False, errno.EPROTO),
    Fault("EPROTO", lambda serial: reply(serial + 1, errno.EPROTO), True, errno.EPROTO),
    Fault("EIO", lambda serial: reply(0, errno.EIO), True, errno.EIO),
]
HALF_AFTER_INTERRUPT = [
    Fault("no second", lambda serial: eintr(serial), False, errno.EPROTO),
    Fault("a torn second", lambda serial: eintr(serial) + reply(serial + 1)[:9], False, errno.EPROTO),
]


class FalseServer:
    def __init__(self, fault: Fault, call: str, at: str) -> None:
        """The fault comes in answer to the first request that is no open; to a HELLO, if the call is `hello`; or to
        the INTERRUPT of a call that is `at` it."""
        self.path = os.path.abspath(f"false.{threading.get_ident()}")
        self.was_said = False
        self._fault = fault
        # It says how many semaphores a set has, three.
        self._has_a_set = call in ("getall", "setall")
        self._refuses_hello = call == "hello"
        self._waits = at == "interrupted"
        self._pid = 0
        self._closed = threading.Event()
        self._listening = socket.socket(socket.AF_UNIX, socket.SOCK_STREAM)
        self._listening.bind(self.path)
        self._listening.listen()

    def __enter__(self) -> FalseServer:
        threading.Thread(target=self._accept, daemon=True).start()
        return self

    def __exit__(self, *raised: object) -> None:
        # A close alone does not end an accept of another thread.
        self._listening.shutdown(socket.SHUT_RDWR)
        self._listening.close()
        os.remove(self.path)

    def is_closed(self) -> bool:
        """Whether the client has closed the connection over which the fault came."""
        return self._closed.wait(10)

    def _accept(self) -> None:
        while True:
            try:
                connection, _ = self._listening.accept()
            except OSError:
                return
            threading.Thread(target=self._serve, args=(connection,), daemon=True).start()

    def _serve(self, connection: socket.socket) -> None:
        waiting = 0
        with connection, connection.makefile("rb") as stream:
            while len(head := stream.read(9)) == 9:
                length, serial, opcode = struct.unpack(">IIB", head)
                fields = stream.read(length - 5)
                answer = self._answer(serial, opcode, fields)
                if answer is not None:
                    connection.sendall(answer)
                elif self._waits and opcode != INTERRUPT:
                    waiting = serial
                else:
                    self._say_fault(connection, stream, waiting or serial)
                    return

    def _say_fault(self, connection: socket.socket, stream: object, serial: int) -> None:
        self.was_said = True
        connection.sendall(self._fault.says(serial))
        if self._fault.ends:
            connection.shutdown(socket.SHUT_WR)
        # The client closes: nothing comes but the end.
        try:
            if stream.read(1) == b"":
                self._closed.set()
        except ConnectionResetError:
            self._closed.set()

    def _answer(self, serial: int, opcode: int, fields: bytes) -> bytes | None:
        """What a server answers, or None if this is the request for the fault."""
        if opcode == HELLO and not (self._refuses_hello and not self.was_said):
            self._pid += 1
            return reply(serial, 0, struct.pack(">I", self._pid))
        if opcode in OPENS and fields[-2:] in KNOWN:
            return reply(serial, 0, struct.pack(">I", OPENS.index(opcode)))
        if opcode == SHMAT and struct.unpack(">I", fields[:4])[0] == KNOWN_SEGMENT:
            return reply(serial, 0, struct.pack(">I", len(OPENS)))
        if opcode == SEM_STAT and self._has_a_set:
            return reply(serial, 0, bytes(40) + struct.pack(">I", 3))
        if opcode == MSGGET and struct.unpack(">I", fields[:4])[0] == AFTER:
            return reply(serial, 0, struct.pack(">I", 41))
        return None
