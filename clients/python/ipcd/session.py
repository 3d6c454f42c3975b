"""The connections of this process, which the modules `sysv_ipc` and `posix_ipc` share.

A connection is one process of the server, and a process of the server has one call at a time. So there is
one connection at first, and one more when a thread calls while each of the others waits. All are kept to the
end of the process, and a child after a fork makes its own. The socket is that of IPCD_SOCKET, or else
/run/ipcd/socket. User and group are the effective ones of the moment: after they have changed, calls use another
connection, except those on an object that is open.
"""

from __future__ import annotations

import errno
import itertools
import os
import signal
import threading
import time
from collections.abc import Callable, Iterator
from contextlib import contextmanager, suppress
from typing import Optional

from .connection import PATIENCE, Connection
from .stream import Reply, file_of

__all__ = ["HELLO_SECONDS", "SOCKET", "ServerLost", "connect", "socket_path"]

SOCKET = "/run/ipcd/socket"

# How many seconds a HELLO is said again for while there are as many processes as the limit allows: one that has
# ended leaves by the end of the server's turn.
HELLO_SECONDS = 1.0

# What is done with the body of a reply that came although the call was broken off.
Keep = Callable[[Connection, bytes], None]

# How a descriptor is given up: by close(2), but by shmdt(2) if it is an attachment.
GiveUp = Callable[[Connection, int], None]

# Numbers of objects, which have a descriptor on each connection that they are used by. They are above every descriptor
# that the system gives: a system call on such a number is EBADF.
tokens = itertools.count(2**30)

# The bytes of a segment that one call reads or writes.
_PIECE = 8192


class ServerLost(ConnectionError):
    """There is no server, or the connection to it has ended: maybe the call was done, and maybe not. What was
    taken with SEM_UNDO is given back. The next call connects again."""


class Lane:
    """A connection, and the descriptors of its process, by the tokens of the objects that have opened them."""

    def __init__(self, waits: bool) -> None:
        self.user = (os.geteuid(), os.getegid())
        self.connection = connect()
        self.thread = threading.get_ident()
        self.busy, self.waits = True, waits
        self.descriptors: dict[int, int] = {}
        self.closing: list[tuple[GiveUp, int]] = []
        # The serial of a call that may wait, and what it was answered, until it has ended.
        self.serial = 0
        self.reply: Optional[Reply] = None

    def descriptor(self, token: int, open_again: Callable[[Connection], int]) -> int:
        """The descriptor of an object, which is opened if it is not open here."""
        if token not in self.descriptors:
            self.descriptors[token] = open_again(self.connection)
        return self.descriptors[token]

    def close_what_is_closed(self) -> None:
        """Closes the descriptors that their objects have given up."""
        while self.closing:
            give_up, descriptor = self.closing.pop()
            give_up(self.connection, descriptor)

    def wait(self, request: bytes) -> bytes:
        """Makes a call that may wait, and answers the body of its reply. If the handler of a signal runs
        meanwhile the call is interrupted, which is EINTR unless it was done before."""
        connection = self.connection
        connection._fits(request)
        with _masked():
            self.serial = connection.send(request)
        with _handlers() as told:
            while self.reply is None and connection.wait_for_bytes(told):
                with _masked():
                    self.reply = connection.next_reply()
        if self.reply is None:
            try:
                with _masked():
                    connection.interrupt()
                    self.reply = connection.receive(PATIENCE)
            except TimeoutError:
                raise ServerLost(errno.ETIMEDOUT, "the server does not answer") from None
        return connection.answer(self.serial, self.reply)

    def wait_until_done(self, request: bytes) -> None:
        """The same, of a call whose reply has no body."""
        if self.wait(request):
            self.connection._breaks("a body where none is")


_lanes: list[Lane] = []
# Who makes a connection now, and for which user. A HELLO may take a while, so it is made while others call.
_making: list[tuple[int, tuple[int, int]]] = []
_change = threading.Condition()
# A pipe, and the file that it is.
_pipe: tuple[int, int] = (-1, -1)
_pipe_file: Optional[tuple[int, int]] = None


@contextmanager
def use(waits: bool = False, keep: Optional[Keep] = None, token: Optional[int] = None) -> Iterator[Lane]:
    """A connection for one call, which may wait or not, on an object with a token or without one."""
    lane = _take(waits, token)
    try:
        lane.close_what_is_closed()
        yield lane
    except ConnectionError as lost:
        lane.connection.close()
        _drop_those_that_ended()
        raise ServerLost(lost.errno, f"the server is lost: {lost.strerror}") from lost
    except BaseException as raised:
        if not isinstance(raised, OSError) and lane.reply and lane.reply[1] == 0 and keep:
            keep(lane.connection, lane.reply[2])
        else:
            _settle(lane, keep)
        raise
    finally:
        lane.reply = None
        _give_back(lane)


def forget(token: int, give_up: GiveUp = Connection.mq_close) -> None:
    """Closes the descriptors of an object, on a connection whose call waits as soon as it has ended."""
    with _change:
        for lane in _lanes:
            if token in lane.descriptors:
                lane.closing.append((give_up, lane.descriptors.pop(token)))
        idle = [lane for lane in _lanes if lane.closing and not lane.busy]
        for lane in idle:
            lane.busy, lane.waits, lane.thread = True, False, threading.get_ident()
    for lane in idle:
        with suppress(OSError):
            lane.close_what_is_closed()
        _give_back(lane)


def pieces(first: int, end: int) -> Iterator[tuple[int, int]]:
    """The bytes of a segment from the first up to the end, by what one call reads or writes: where it begins and where
    it ends."""
    for at in range(first, end, _PIECE):
        yield at, min(at + _PIECE, end)


def _take(waits: bool, token: Optional[int]) -> Lane:
    """A connection of this user that nobody uses, or one on which the object is open. While one is used for a call
    that does not wait, or is made by another thread, that is waited for; if there is none, one more is made."""
    me, user = threading.get_ident(), (os.geteuid(), os.getegid())
    with _change:
        while True:
            fit = [lane for lane in _lanes if token in lane.descriptors]
            fit += [lane for lane in _lanes if lane.user == user and lane not in fit]
            for lane in fit:
                if not lane.busy:
                    lane.busy, lane.waits, lane.thread = True, waits, me
                    return lane
            is_made = any(maker != me and for_user == user for maker, for_user in _making)
            if not is_made and all(lane.waits or lane.thread == me for lane in fit):
                break
            _change.wait()
        making = (me, user)
        _making.append(making)
    made: Optional[Lane] = None
    try:
        made = Lane(waits)
        return made
    finally:
        with _change:
            if made is not None:
                _lanes.append(made)
            # In a child that a handler has made meanwhile it is not there any more.
            if making in _making:
                _making.remove(making)
            _change.notify_all()


def _give_back(lane: Lane) -> None:
    with _change:
        lane.busy = False
        if lane.connection.closed and lane in _lanes:
            _lanes.remove(lane)
        _change.notify_all()


def _settle(lane: Lane, keep: Optional[Keep]) -> None:
    """Ends the call of a connection, if something broke it off, and takes what came all the same."""
    if lane.connection._is_settled():
        return
    try:
        with _masked():
            replies = lane.connection.settle()
    except OSError:
        lane.connection.close()
        return
    for serial, error, body in replies:
        if serial == lane.serial and error == 0 and keep:
            keep(lane.connection, body)


def _drop_those_that_ended() -> None:
    """After a restart of the server no connection is left, and the program gets one `ServerLost`."""
    with _change:
        for lane in [lane for lane in _lanes if not lane.busy and lane.connection.has_ended()]:
            lane.connection.close()
            _lanes.remove(lane)


def socket_path() -> str:
    """Where the server is: an IPCD_SOCKET that is empty names none, as for the clients in C."""
    return os.environ.get("IPCD_SOCKET") or SOCKET


def connect() -> Connection:
    """A new connection, which is a process of the effective user and group."""
    path = socket_path()
    try:
        connection = Connection(path)
    except OSError as refusal:
        raise ServerLost(refusal.errno, f"no server at {path}: {refusal.strerror}") from refusal
    end = time.monotonic() + HELLO_SECONDS
    while True:
        try:
            connection.hello(os.geteuid(), os.getegid())
            return connection
        except BaseException as refusal:
            too_many = isinstance(refusal, OSError) and refusal.errno == errno.ENFILE
            if not too_many or time.monotonic() > end:
                connection.close()
                raise
        time.sleep(0.02)


@contextmanager
def _masked() -> Iterator[None]:
    """No handler of a signal runs within, so a reply that is read is kept too. In a program of several threads one
    may: the system gives the signal to another thread, and the handler runs in this."""
    if threading.current_thread() is not threading.main_thread():
        yield
        return
    before = signal.pthread_sigmask(signal.SIG_BLOCK, ())
    try:
        # This call itself runs a handler that is due, which may raise something.
        signal.pthread_sigmask(signal.SIG_BLOCK, signal.valid_signals())
        yield
    finally:
        signal.pthread_sigmask(signal.SIG_SETMASK, before)


@contextmanager
def _handlers() -> Iterator[Optional[int]]:
    """A descriptor that can be read once the handler of a signal has begun, since handlers run in this thread."""
    global _pipe, _pipe_file
    if threading.current_thread() is not threading.main_thread():
        yield None
        return
    if _pipe_file is None or [file_of(end) for end in _pipe] != 2 * [_pipe_file]:
        # There is none yet, or the program has closed it.
        _pipe = os.pipe2(os.O_CLOEXEC | os.O_NONBLOCK)
        _pipe_file = file_of(_pipe[0])
    reader, writer = _pipe
    _drain(reader)
    before = signal.set_wakeup_fd(writer, warn_on_full_buffer=False)
    try:
        yield reader
    finally:
        signal.set_wakeup_fd(before)
        told = _drain(reader)
        if before >= 0:
            with suppress(OSError):
                os.write(before, told)


def _drain(reader: int) -> bytes:
    with suppress(BlockingIOError):
        return os.read(reader, 4096)
    return b""


def _forget_all() -> None:
    """A child is a process of its own, and does not hold its parent's connections open."""
    global _change, _pipe_file
    for lane in _lanes:
        lane.connection.close()
    _lanes.clear()
    _making.clear()
    _change = threading.Condition()
    _pipe_file = None


os.register_at_fork(after_in_child=_forget_all)
