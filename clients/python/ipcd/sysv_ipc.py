"""The module `sysv_ipc`, on the objects of a server: message queues, semaphores and shared memory with the same names,
signatures, attributes and exceptions. A program moves by its import: `from ipcd import sysv_ipc`.

The package's page says what differs. The connection is that of `ipcd.session`.
"""

from __future__ import annotations

import errno
import operator
import os
import random
import struct
import warnings
from collections.abc import Callable, Iterator
from contextlib import contextmanager
from typing import Any, NoReturn, Optional, Union

from . import session
from .connection import Connection
from .wire import (
    IPC_CREAT,
    IPC_EXCL,
    IPC_NOWAIT,
    IPC_PRIVATE,
    SEM_UNDO,
    SHM_RDONLY,
    QueueStat,
    SemStat,
    ShmidStat,
    msgrcv_request,
    msgsnd_request,
    semop_request,
)

__all__ = [
    *("BusyError", "Error", "ExistentialError", "IPC_CREAT", "IPC_CREX", "IPC_EXCL", "IPC_PRIVATE"),
    *("InternalError", "KEY_MAX", "KEY_MIN", "MessageQueue", "NotAttachedError", "PAGE_SIZE", "PermissionsError"),
    *("SEMAPHORE_TIMEOUT_SUPPORTED", "SEMAPHORE_VALUE_MAX", "SHM_HUGETLB", "SHM_NORESERVE", "SHM_RDONLY"),
    *("SHM_REMAP", "SHM_RND", "Semaphore", "ServerLost", "SharedMemory", "VERSION", "attach", "ftok"),
    *("remove_message_queue", "remove_semaphore", "remove_shared_memory"),
]

# The version of the module whose names these are.
VERSION = __version__ = "1.0.0"

IPC_CREX = IPC_CREAT | IPC_EXCL
KEY_MIN, KEY_MAX = -(2**31), 2**31 - 1
PAGE_SIZE = os.sysconf("SC_PAGE_SIZE")
SEMAPHORE_TIMEOUT_SUPPORTED = True
SEMAPHORE_VALUE_MAX = 32767
SHM_RND, SHM_REMAP = 0o20000, 0o40000
SHM_HUGETLB, SHM_NORESERVE = 0o4000, 0o10000

# What msgsnd and msgrcv take as a type, and semop as a change: the module refuses more by this exception.
_INT_MAX, _SHORT_MAX = 2**31 - 1, 2**15 - 1

Buffer = Union[str, bytes, bytearray, memoryview]


class Error(Exception):
    """What all exceptions of this module are. By itself: a handler of a signal ran while a call waited."""


class InternalError(Error):
    """Something that should not be."""


class PermissionsError(Error):
    """The mode or the owner of an object does not allow the call."""


class ExistentialError(Error):
    """An object is not there, or is there though it should not."""


class BusyError(Error):
    """A call that should not wait, or no longer, would have to."""


class NotAttachedError(Error):
    """A segment is read, written or detached, and is not attached."""


class ServerLost(Error, session.ServerLost):
    """The server is not there, or was stopped in the midst of the call, see `ipcd.session`."""


def ftok(path: str, id: int, silence_warning: bool = False) -> int:
    """The key that ftok(3) makes of a file and a number, and -1 if there is no file."""
    if not silence_warning:
        warnings.warn("Use of ftok() is not recommended; see sysv_ipc documentation", Warning, stacklevel=2)
    try:
        found = os.stat(path)
    except OSError:
        return -1
    key = (id & 0xFF) << 24 | (found.st_dev & 0xFF) << 16 | found.st_ino & 0xFFFF
    return key - 2**32 if key > KEY_MAX else key


def remove_message_queue(id: int) -> None:
    """Removes a queue, IPC_RMID of msgctl(2)."""
    with _refusals(_QUEUE), session.use() as lane:
        lane.connection.msgctl_rmid(id)


def remove_semaphore(id: int) -> None:
    """Removes a semaphore, IPC_RMID of semctl(2)."""
    with _refusals(_SEMAPHORE), session.use() as lane:
        lane.connection.semctl_rmid(id)


def attach(id: int, address: Optional[int] = None, flags: int = 0) -> SharedMemory:
    """Attaches the segment of an identifier, as SharedMemory.attach does."""
    made = SharedMemory.__new__(SharedMemory)
    made._id = id
    made.attach(address, flags)
    made._key = made._stat().key
    return made


def remove_shared_memory(id: int) -> None:
    """Removes a segment, IPC_RMID of shmctl(2): it goes when nobody has it attached."""
    with _refusals(_SEGMENT), session.use() as lane:
        lane.connection.shmctl_rmid(id)


_SEMAPHORE: dict[int, type[Exception]] = {
    errno.EACCES: PermissionsError,
    errno.EAGAIN: BusyError,
    errno.EINTR: Error,
    errno.ENOMEM: MemoryError,
    errno.ERANGE: ValueError,
    **dict.fromkeys((errno.ENOENT, errno.EEXIST, errno.EINVAL, errno.EIDRM), ExistentialError),
}
_QUEUE: dict[int, type[Exception]] = {
    **_SEMAPHORE,
    errno.EPERM: PermissionsError,
    errno.ENOMSG: BusyError,
}
_SEND = {error: raised for error, raised in _QUEUE.items() if error != errno.EINVAL}
_SEGMENT: dict[int, type[Exception]] = {
    errno.ENOMEM: MemoryError,
    **dict.fromkeys((errno.EACCES, errno.EPERM), PermissionsError),
    **dict.fromkeys((errno.ENOENT, errno.EEXIST, errno.EINVAL), ExistentialError),
}
# A get and an attachment.
_ATTACH: dict[int, type[Exception]] = {**_SEGMENT, errno.EINVAL: ValueError}


@contextmanager
def _refusals(kinds: dict[int, type[Exception]]) -> Iterator[None]:
    """Raises the exception of this module that stands for the error of a call, or else an OSError."""
    try:
        yield
    except session.ServerLost as lost:
        raise ServerLost(*lost.args) from lost
    except OSError as refusal:
        if refusal.errno not in kinds:
            raise
        raise kinds[refusal.errno](refusal.strerror) from None


def _no_address() -> NoReturn:
    """The bytes of a segment are the server's, and not in the memory of a program."""
    raise OSError(errno.ENOSYS, "a segment of a server has no address: it is read and written by calls")


def _within(number: int, most: int, what: str) -> int:
    """A number that fits into its type in C."""
    number = operator.index(number)
    if number > most:
        raise OverflowError(f"{what} is greater than maximum")
    if number < -most - 1:
        raise OverflowError(f"{what} is less than minimum")
    return number


class _Attribute:
    """An attribute that is read from the server, and written there if it has a way to."""

    def __init__(self, doc: str, read: Callable[[Any], int], write: Optional[str] = None) -> None:
        self.__doc__, self._read, self._write = doc, read, write

    def __set_name__(self, owner: type, name: str) -> None:
        self._name = name

    def __get__(self, instance: Any, owner: Optional[type] = None) -> int:
        # Of the class it is the attribute itself, as of a property.
        return self if instance is None else self._read(instance)  # type: ignore[return-value]

    def __set__(self, instance: Any, value: int) -> None:
        if self._write is None:
            raise AttributeError(f"attribute {self._name!r} is not writable")
        if not isinstance(value, int):
            raise TypeError(f"attribute {self._name!r} must be an integer")
        getattr(instance, self._write)(**{self._name: value})


class _Object:
    """What queues, semaphores and segments have in common: a key, an identifier and an owner."""

    __slots__ = ("_id", "_key")
    _id: int
    _key: int

    key = _Attribute("The key. Read only.", lambda self: self._key)
    id = _Attribute("The identifier, which the server gave. Read only.", lambda self: self._id)
    uid = _Attribute("The owner.", lambda self: self._stat().uid, "_set")
    gid = _Attribute("The owner's group.", lambda self: self._stat().gid, "_set")
    mode = _Attribute("The mode.", lambda self: self._stat().mode, "_set")
    cuid = _Attribute("Who made it. Read only.", lambda self: self._stat().cuid)
    cgid = _Attribute("The group of who made it. Read only.", lambda self: self._stat().cgid)

    def __repr__(self) -> str:
        return f"sysv_ipc.{type(self).__name__}({self._key})"

    def __str__(self) -> str:
        return f"Key={self._key}, id={self._id}"

    def _find(self, key: Optional[int], flags: int, get: Callable[[Connection, int], int]) -> None:
        """Finds the object of a key, or makes it. Without a key it is one that nobody uses."""
        if flags & IPC_EXCL and not flags & IPC_CREAT:
            raise ValueError("IPC_EXCL must be combined with IPC_CREAT")
        if key is None and not flags & IPC_EXCL:
            raise ValueError("Key can only be None if IPC_EXCL is set")
        if key is not None and not isinstance(key, int):
            raise TypeError("Key must be an integer or None")
        if key is not None and not KEY_MIN <= key <= KEY_MAX:
            raise ValueError("The key must be between KEY_MIN and KEY_MAX")
        while True:
            self._key = random.randint(1, KEY_MAX) if key is None else key
            try:
                with session.use() as lane:
                    self._id = get(lane.connection, self._key)
                return
            except FileExistsError:
                if key is not None:
                    raise


class MessageQueue(_Object):
    """A message queue, see msgop(2) and msgctl(2)."""

    __slots__ = ("_kept", "_most")

    max_size = _Attribute("How many bytes the queue takes.", lambda self: self._stat().qbytes, "_set")
    current_messages = _Attribute("How many messages it has.", lambda self: self._stat().qnum)
    last_send_time = _Attribute("When one was sent last.", lambda self: self._stat().stime // 1000)
    last_receive_time = _Attribute("When one was received last.", lambda self: self._stat().rtime // 1000)
    last_change_time = _Attribute("When it was made or changed.", lambda self: self._stat().ctime // 1000)
    last_send_pid = _Attribute("The server's pid of who sent last.", lambda self: self._stat().lspid)
    last_receive_pid = _Attribute("The server's pid of who received last.", lambda self: self._stat().lrpid)

    def __init__(
        self, key: Optional[int], flags: int = 0, mode: int = 0o600, max_message_size: int = 2048
    ) -> None:
        if max_message_size < 0:
            raise ValueError("The message length must not be negative")
        self._most = max_message_size
        # Messages that came in the moment in which a signal's handler broke the call off, by an exception.
        self._kept: list[tuple[int, bytes]] = []
        with _refusals(_QUEUE):
            self._find(key, flags, lambda server, found: server.msgget(found, flags | mode & 0o777))

    def send(self, message: Buffer, block: bool = True, type: int = 1) -> None:
        """Appends a message, and waits while the queue is full, or is a BusyError if `block` is False."""
        mtype = _within(type, _INT_MAX, "signed integer")
        if mtype <= 0:
            raise ValueError("The type must be > 0")
        text = message.encode() if isinstance(message, str) else bytes(memoryview(message))
        if len(text) > self._most:
            raise ValueError(f"The message length exceeds queue's max_message_size ({self._most})")
        request = msgsnd_request(self._id, mtype, text, 0 if block else IPC_NOWAIT)
        with _refusals(_SEND), session.use(waits=block) as lane:
            lane.wait_until_done(request)

    def receive(self, block: bool = True, type: int = 0) -> tuple[bytes, int]:
        """Takes a message off: its text and its type. Without one it waits, or is a BusyError."""
        wanted = _within(type, _INT_MAX, "signed integer")
        for place, (mtype, text) in enumerate(self._kept):
            if wanted in (0, mtype) or mtype <= -wanted:
                del self._kept[place]
                return text, mtype
        size = min(self._most, _INT_MAX)
        request = msgrcv_request(self._id, size, wanted, 0 if block else IPC_NOWAIT)
        with _refusals(_QUEUE), session.use(block, self._keep) as lane:
            mtype, text = lane.connection._number_and_text(">q", lane.wait(request), size)
        return text, mtype

    def _keep(self, connection: Connection, body: bytes) -> None:
        self._kept.append((struct.unpack_from(">q", body)[0], body[8:]))

    def remove(self) -> None:
        """Removes the queue with its messages."""
        remove_message_queue(self._id)

    def _stat(self) -> QueueStat:
        with _refusals(_QUEUE), session.use() as lane:
            return lane.connection.msgctl_stat(self._id)

    def _set(self, **wanted: int) -> None:
        """Changes what is given, and leaves the rest as it is."""
        now = self._stat()
        new = {"uid": now.uid, "gid": now.gid, "mode": now.mode, "max_size": now.qbytes, **wanted}
        with _refusals(_QUEUE), session.use() as lane:
            lane.connection.msgctl_set(self._id, *(number & 0xFFFFFFFF for number in new.values()))


class Semaphore(_Object):
    """A set of one semaphore, see semop(2) and semctl(2)."""

    __slots__ = ("_block", "_undo")

    last_pid = _Attribute("The server's pid of who set it last.", lambda self: self._get("getpid"))
    waiting_for_nonzero = _Attribute("How many wait for more.", lambda self: self._get("getncnt"))
    waiting_for_zero = _Attribute("How many wait for 0.", lambda self: self._get("getzcnt"))
    value = _Attribute("The value.", lambda self: self._get("getval"), "_set_value")
    o_time = _Attribute("When it was acquired or released last.", lambda self: self._stat().otime // 1000)

    def __init__(
        self, key: Optional[int], flags: int = 0, mode: int = 0o600, initial_value: int = 0
    ) -> None:
        self._block, self._undo = True, False
        value = operator.index(initial_value)
        with _refusals(_SEMAPHORE):
            self._find(key, flags, lambda server, found: server.semget(found, 1, flags | mode & 0o777))
        if flags & IPC_CREAT:
            self._set_value(value)

    @property
    def block(self) -> bool:
        """Whether calls wait at all."""
        return self._block

    @block.setter
    def block(self, block: object) -> None:
        self._block = bool(block)

    @property
    def undo(self) -> bool:
        """Whether the server gives back what the process has taken when it ends (SEM_UNDO)."""
        return self._undo

    @undo.setter
    def undo(self, undo: object) -> None:
        self._undo = bool(undo)

    def acquire(self, timeout: Optional[float] = None, delta: int = 1) -> None:
        """Takes off the value. It waits until that can be done, `timeout` seconds at most: then it is BusyError."""
        change = -abs(_within(delta, _SHORT_MAX, "signed short integer"))
        if change == 0:
            raise ValueError("The delta must be non-zero")
        self._change(max(change, -_SHORT_MAX - 1), timeout)

    def release(self, delta: int = 1) -> None:
        """Adds to the value."""
        change = abs(_within(delta, _SHORT_MAX, "signed short integer"))
        if change == 0:
            raise ValueError("The delta must be non-zero")
        self._change(min(change, _SHORT_MAX))

    def Z(self, timeout: Optional[float] = None) -> None:  # noqa: N802
        """Waits until the value is 0, as acquire does until it is enough."""
        self._change(0, timeout)

    P, V = acquire, release

    def _change(self, change: int, timeout: Optional[float] = None) -> None:
        """One operation of semop(2). If it is broken off and was done all the same, it is taken back."""
        if timeout is not None and (not isinstance(timeout, (int, float)) or not timeout >= 0):
            raise TypeError("The timeout must be None or a non-negative number")
        flags = (0 if self._block and timeout != 0 else IPC_NOWAIT) | (SEM_UNDO if self._undo else 0)
        request = semop_request(self._id, [(0, change, flags)], timeout)

        def take_back(connection: Connection, body: bytes) -> None:
            if change < 0:
                connection.semop(self._id, [(0, min(-change, _SHORT_MAX), flags)])

        with _refusals(_SEMAPHORE), session.use(not flags & IPC_NOWAIT, take_back) as lane:
            lane.wait_until_done(request)

    def remove(self) -> None:
        """Removes the semaphore."""
        remove_semaphore(self._id)

    def __enter__(self) -> Semaphore:
        self.acquire()
        return self

    def __exit__(self, *raised: object) -> None:
        self.release()

    def _get(self, what: str) -> int:
        with _refusals(_SEMAPHORE), session.use() as lane:
            found: int = getattr(lane.connection, f"semctl_{what}")(self._id, 0)
            return found

    def _set_value(self, value: int) -> None:
        if not 0 <= value <= SEMAPHORE_VALUE_MAX:
            raise ValueError(f"The value must be between 0 and {SEMAPHORE_VALUE_MAX} (SEMAPHORE_VALUE_MAX)")
        with _refusals(_SEMAPHORE), session.use() as lane:
            lane.connection.semctl_setval(self._id, 0, value)

    def _stat(self) -> SemStat:
        with _refusals(_SEMAPHORE), session.use() as lane:
            return lane.connection.semctl_stat(self._id)

    def _set(self, **wanted: int) -> None:
        """Changes what is given, and leaves the rest as it is."""
        now = self._stat()
        new = {"uid": now.uid, "gid": now.gid, "mode": now.mode, **wanted}
        with _refusals(_SEMAPHORE), session.use() as lane:
            lane.connection.semctl_set(self._id, *(number & 0xFFFFFFFF for number in new.values()))


class SharedMemory(_Object):
    """A segment of shared memory, see shmop(2) and shmctl(2), which is read and written by calls: it has no address."""

    __slots__ = ("_flags", "_token")
    _token: Optional[int]

    size = _Attribute("How many bytes it has. Read only.", lambda self: self._stat().segsz)
    attached = _Attribute("Whether this object has it attached.", lambda self: self._token is not None)
    address = _Attribute("There is none: it is ENOSYS.", lambda self: _no_address())
    last_attach_time = _Attribute("When it was attached last.", lambda self: self._stat().atime // 1000)
    last_detach_time = _Attribute("When it was detached last.", lambda self: self._stat().dtime // 1000)
    last_change_time = _Attribute("When it was made or changed.", lambda self: self._stat().ctime // 1000)
    creator_pid = _Attribute("The server's pid of who made it.", lambda self: self._stat().cpid)
    last_pid = _Attribute("The server's pid of who attached or detached last.", lambda self: self._stat().lpid)
    number_attached = _Attribute("By how many attachments it is attached.", lambda self: self._stat().nattch)

    def __init__(
        self,
        key: Optional[int],
        flags: int = 0,
        mode: int = 0o600,
        size: int = 0,
        init_character: bytes = b" ",
    ) -> None:
        if not isinstance(init_character, (bytes, bytearray)) or len(init_character) != 1:
            raise TypeError("init_character must be a byte string of length 1")
        is_new = flags & IPC_CREX == IPC_CREX
        wanted = operator.index(size) or (PAGE_SIZE if is_new else 0)
        if not 0 <= wanted < 2**63:
            raise ValueError("The size is invalid")
        with _refusals(_ATTACH):
            self._find(key, flags, lambda server, found: server.shmget(found, wanted, flags | mode & 0o777))
        is_written = mode & 0o200 != 0
        self.attach(flags=0 if is_written else SHM_RDONLY)
        if is_new and is_written:
            self.write(wanted * bytes(init_character))

    def attach(self, address: Optional[int] = None, flags: int = 0) -> None:
        """Attaches it, to be read alone with SHM_RDONLY. An attachment that it has stays, and is no longer used. No
        address may be given."""
        if address is not None and not isinstance(address, int):
            raise TypeError("address must be an integer or None")
        if address is not None:
            _no_address()
        token, flags = next(session.tokens), flags & 0xFFFFFFFF
        with _refusals(_ATTACH), session.use() as lane:
            lane.descriptors[token] = lane.connection.shmat(self._id, flags)
        self._token, self._flags = token, flags

    def detach(self) -> None:
        """Gives its attachment up."""
        if self._token is None:
            raise NotAttachedError("The segment is not attached")
        session.forget(self._token, Connection.shmdt)
        self._token = None

    def read(self, byte_count: int = 0, offset: int = 0) -> bytes:
        """So many bytes from an offset on, fewer at the end, or all of them for 0. Of more than 8192 each 8192 are as
        they were at one moment."""
        with self._use() as (connection, attachment):
            size = connection.shmctl_stat(self._id).segsz
            if byte_count < 0:
                raise ValueError("The byte_count cannot be negative")
            if not 0 <= offset < size:
                raise ValueError("The offset must be less than the segment size")
            end = min(offset + byte_count, size) if byte_count else size
            return b"".join(
                connection.attached_read(attachment, at, to - at) for at, to in session.pieces(offset, end)
            )

    def write(self, s: Buffer, offset: int = 0) -> None:
        """Writes bytes at an offset, all within the segment. Each 8192 are written at once."""
        data = s.encode() if isinstance(s, str) else bytes(memoryview(s))
        with self._use() as (connection, attachment):
            if self._flags & SHM_RDONLY:
                raise OSError("Write attempt on read-only memory segment")
            if not 0 <= offset <= connection.shmctl_stat(self._id).segsz - len(data):
                raise ValueError("Attempt to write past end of memory segment")
            for at, to in session.pieces(0, len(data)):
                connection.attached_write(attachment, offset + at, data[at:to])

    def remove(self) -> None:
        """Removes the segment, which goes when nobody has it attached."""
        remove_shared_memory(self._id)

    @contextmanager
    def _use(self) -> Iterator[tuple[Connection, int]]:
        """A connection on which it is attached, and the attachment there."""
        if self._token is None:
            raise NotAttachedError("The segment is not attached")
        with _refusals(_SEGMENT), session.use(token=self._token) as lane:
            yield lane.connection, lane.descriptor(self._token, self._again)

    def _again(self, connection: Connection) -> int:
        """Attaches it on a further connection."""
        return connection.shmat(self._id, self._flags)

    def _stat(self) -> ShmidStat:
        with _refusals(_SEGMENT), session.use() as lane:
            return lane.connection.shmctl_stat(self._id)

    def _set(self, **wanted: int) -> None:
        """Changes what is given, and leaves the rest as it is."""
        now = self._stat()
        new = {"uid": now.uid, "gid": now.gid, "mode": now.mode, **wanted}
        with _refusals(_SEGMENT), session.use() as lane:
            lane.connection.shmctl_set(self._id, *(number & 0xFFFFFFFF for number in new.values()))
