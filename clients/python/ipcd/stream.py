"""The frames of a connection: how requests are sent, and replies and notifications received."""

from __future__ import annotations

import errno
import os
import select
import socket
import struct
import time
from collections import deque
from typing import NoReturn

from .wire import LONGEST_REPLY, LONGEST_REQUEST, TOO_LONG, interrupt_request

__all__ = ["PATIENCE", "ProtocolError", "Reply", "ServerFault", "Stream"]

# The serial of a reply, its error number, which is 0 for success, and its body.
Reply = tuple[int, int, bytes]

# Seconds in which the rest of a frame comes that has begun, and the reply to an INTERRUPT.
PATIENCE = 30.0


class ProtocolError(ConnectionError):
    """What the server has sent is no frame of the protocol, or no answer to the call. The connection is closed."""


class ServerFault(ConnectionError):
    """The last frame of a connection: EPROTO for a request that is none, EIO if the disk of the server has failed.
    The connection is closed."""


class Stream:
    """A stream of frames in each direction, to a server and from it."""

    def __init__(self, path: str, timeout: float | None = None, patience: float = PATIENCE) -> None:
        """Connects to a socket. A call without a reply for `timeout` seconds is interrupted, and a
        server that does not answer for as long raises TimeoutError. What the server sends at once comes
        within `patience` seconds: the rest of a frame, or the reply to an interrupt."""
        self._socket = socket.socket(socket.AF_UNIX, socket.SOCK_STREAM)
        try:
            self._socket.connect(path)
        except BaseException:
            self._socket.close()
            raise
        self._socket.setblocking(False)
        self._file = file_of(self._socket.fileno())
        self._timeout = timeout
        self._patience = patience
        self._read = bytearray()
        self._serial = 0
        self._unanswered: set[int] = set()
        self._strange: set[int] = set()
        self._interrupts: set[int] = set()
        self._replies: deque[Reply] = deque()
        self._notifications: deque[tuple[int, int]] = deque()

    def close(self) -> None:
        """Ends the process. Replies that were not received are lost."""
        if not self.closed and file_of(self._socket.fileno()) != self._file:
            # The program has closed the descriptor itself, and maybe opened something else by its number.
            self._socket.detach()
        self._socket.close()

    @property
    def closed(self) -> bool:
        """Whether the connection is closed, by `close` or by what the server has sent."""
        return self._socket.fileno() < 0

    def fileno(self) -> int:
        """The socket's descriptor, to wait for several connections."""
        return self._socket.fileno()

    def interrupt(self) -> None:
        """Ends the call that waits, if one does: its reply is EINTR then. Nobody has to receive the
        reply to this itself."""
        self._interrupts.add(self.send(interrupt_request()))

    def call(self, request: bytes, timeout: float | None = None) -> bytes:
        """Sends a request, and answers the body of its reply. All earlier replies were received. After
        `timeout` seconds it is interrupted: the reply is EINTR then, or one that came first. Once the
        connection has ended it is closed, and that is a ConnectionError."""
        self._fits(request)
        try:
            serial = self.send(request)
            try:
                reply = self.receive(timeout)
            except TimeoutError:
                reply = self._interrupted()
        except ConnectionError:
            self.close()
            raise
        return self.answer(serial, reply)

    def _fits(self, request: bytes) -> None:
        """Refuses a request that is longer than any frame, as its call would refuse it."""
        if 8 + len(request) > LONGEST_REQUEST and request[0] in TOO_LONG:
            raise _refusal(TOO_LONG[request[0]])

    def answer(self, serial: int, reply: Reply) -> bytes:
        """The body of the reply to the request of a serial, which has been received: or what it was refused."""
        answered, error, body = reply
        if error == errno.EPROTO or answered == 0:
            self.close()
            raise ServerFault(error, os.strerror(error))
        if answered in self._strange:
            self._breaks("a reply to no request")
        if answered != serial:
            raise RuntimeError("a call, while an earlier reply is still to be received")
        if error:
            if body:
                self._breaks("a refusal that has a body")
            raise _refusal(error)
        return body

    def _interrupted(self) -> Reply:
        """Interrupts the call that waits, and answers its reply, which comes at once."""
        self.interrupt()
        try:
            return self.receive(self._patience if self._timeout is None else self._timeout)
        except TimeoutError:
            self.close()
            raise

    def send(self, request: bytes) -> int:
        """Sends a request, and answers its serial. Its reply is one of the next to be received."""
        serial = self._serial = self._serial % 0xFFFFFFFF + 1
        try:
            self._unanswered.add(serial)
            self._write(struct.pack(">II", 4 + len(request), serial) + request)
        except OSError:
            self._unanswered.discard(serial)
            raise
        except BaseException:
            # A signal's handler has raised something: nobody knows how much was sent.
            self.close()
            raise
        return serial

    def receive(self, timeout: float | None = None) -> Reply:
        """The next reply: its serial, its error number, which is 0 for success, and its body. Without
        one for `timeout` seconds it raises TimeoutError; it may still come."""
        end = self._end(timeout)
        while not self._replies:
            reply = self._frame(end)
            if reply is not None:
                return reply
        return self._replies.popleft()

    def notification(self, timeout: float | None = None) -> tuple[int, int]:
        """The next notification: the descriptor that registered, and its cookie. Without one for `timeout`
        seconds it raises TimeoutError. Replies that come meanwhile are kept for `receive`."""
        end = self._end(timeout)
        while not self._notifications:
            reply = self._frame(end)
            if reply is not None:
                self._replies.append(reply)
                if reply[0] == 0:
                    self.close()
                    raise ServerFault(reply[1], os.strerror(reply[1]))
        return self._notifications.popleft()

    def wait_for_bytes(self, other: int | None = None) -> bool:
        """Waits until bytes are there, or another descriptor can be read: whether it is the bytes. None is read."""
        self._is_open()
        if self._read or self._replies:
            return True
        ready = select.poll()
        ready.register(self._socket, select.POLLIN)
        if other is not None:
            ready.register(other, select.POLLIN)
        return self.fileno() in dict(ready.poll())

    def next_reply(self) -> Reply | None:
        """The reply that the bytes which have come are, or nothing, if they are a notification."""
        return self._replies.popleft() if self._replies else self._frame(self._end())

    def _is_settled(self) -> bool:
        """Whether no reply is still to come or to be received."""
        return self.closed or not (self._replies or self._unanswered - self._interrupts)

    def settle(self) -> list[Reply]:
        """Ends the call that waits, and answers all replies that nobody has received."""
        replies = list(self._replies)
        self._replies.clear()
        self.interrupt()
        end = time.monotonic() + self._patience
        while self._unanswered:
            reply = self._frame(end)
            if reply is not None:
                replies.append(reply)
            if reply is not None and reply[0] == 0:
                self.close()
                raise ServerFault(reply[1], os.strerror(reply[1]))
        return replies

    def has_ended(self) -> bool:
        """Whether the server has ended the connection, as far as the system knows now."""
        try:
            return self.closed or self._socket.recv(1, socket.MSG_PEEK) == b""
        except BlockingIOError:
            return False
        except OSError:
            return True

    def has_notification(self) -> bool:
        """Whether a notification has come and was not handed out."""
        return bool(self._notifications)

    def _breaks(self, what: str) -> NoReturn:
        """The server has sent this, which is against the protocol."""
        self.close()
        raise ProtocolError(errno.EPROTO, f"the server has sent {what}")

    def _frame(self, end: float | None) -> Reply | None:
        """The next frame, if it is a reply that somebody wants. A notification, which is a frame of serial 0
        and no error, is kept."""
        self._fill(1, end)
        rest = time.monotonic() + self._patience
        try:
            self._fill(4, rest)
            size = 4 + int.from_bytes(self._read[:4], "big")
            if not 10 <= size <= LONGEST_REPLY:
                self._breaks(f"a frame of {size} bytes")
            self._fill(size, rest)
        except TimeoutError:
            self._breaks("a frame without its end")
        serial, error = struct.unpack(">IH", self._read[4:10])
        body = bytes(self._read[10:size])
        del self._read[:size]
        if serial in self._unanswered:
            self._unanswered.remove(serial)
        elif serial:
            self._strange.add(serial)
        if serial in self._interrupts and error != errno.EPROTO:
            self._interrupts.remove(serial)
            if error or body:
                self._breaks("an answer to an interrupt that is none")
            return None
        if error or serial:
            return serial, error, body
        self._notifications.append(self._cookie(body))
        return None

    def _cookie(self, body: bytes) -> tuple[int, int]:
        """What a notification says."""
        if len(body) != 8:
            self._breaks("a notification of another size")
        descriptor, cookie = struct.unpack(">II", body)
        return descriptor, cookie

    def _write(self, data: bytes) -> None:
        """Writes all of this, and reads while the socket takes no more."""
        self._is_open()
        rest = memoryview(data)
        try:
            while rest:
                try:
                    rest = rest[self._socket.send(rest) :]
                except BlockingIOError:
                    if self._wait(select.POLLIN | select.POLLOUT, self._end()) & select.POLLIN:
                        self._read_more()
        except TimeoutError:
            # After a part of a frame nothing else can follow.
            if len(rest) < len(data):
                self.close()
            raise

    def _fill(self, size: int, end: float | None) -> None:
        """Reads until so many bytes are there."""
        while len(self._read) < size:
            self._is_open()
            self._wait(select.POLLIN, end)
            self._read_more()

    def _read_more(self) -> None:
        """Reads what has come."""
        data = self._socket.recv(65536)
        if not data:
            self.close()
            raise ConnectionResetError(errno.ECONNRESET, "the server has ended the connection")
        self._read += data

    def _is_open(self) -> None:
        if not self.closed and file_of(self._socket.fileno()) != self._file:
            self.close()
        if self.closed:
            raise ConnectionResetError(errno.ECONNRESET, "the connection is closed")

    def _end(self, timeout: float | None = None) -> float | None:
        """When a wait that begins now is over: after these seconds, or else those of the connection."""
        seconds = self._timeout if timeout is None else timeout
        return None if seconds is None else time.monotonic() + seconds

    def _wait(self, events: int, end: float | None) -> int:
        """Waits for one of these events of the socket, and answers those that have come."""
        ready = select.poll()
        ready.register(self._socket, events)
        for _, came in ready.poll(None if end is None else 1000 * max(0, end - time.monotonic())):
            return came
        raise TimeoutError("the server does not answer")


def file_of(descriptor: int) -> tuple[int, int] | None:
    """Which file a descriptor is of, if it is open."""
    try:
        found = os.fstat(descriptor)
    except OSError:
        return None
    return found.st_dev, found.st_ino


def _refusal(error: int) -> OSError:
    return OSError(error, os.strerror(error))
