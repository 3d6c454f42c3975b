"""The module `posix_ipc`, on the objects of a server: named semaphores, message queues and shared memory with the same
names, signatures, attributes and exceptions. A program moves by its import: `from ipcd import posix_ipc`.

The package's page says what differs. The connection is that of `ipcd.session`.
"""

from __future__ import annotations

import errno
import operator
import os
import random
import signal
import struct
import time
from collections.abc import Callable, Iterator
from contextlib import contextmanager
from typing import Any, ContextManager, Optional, Union

from . import session
from .connection import Connection
from .notifier import Notifier
from .wire import (
    O_CREAT,
    O_EXCL,
    O_RDONLY,
    O_RDWR,
    O_TRUNC,
    O_WRONLY,
    MqAttr,
    mq_receive_request,
    mq_send_request,
    sem_trywait_request,
    sem_wait_request,
)

__all__ = [
    *("BusyError", "Error", "ExistentialError", "MESSAGE_QUEUES_SUPPORTED", "MessageQueue", "O_CREAT", "O_CREX"),
    *("O_EXCL", "O_TRUNC", "PAGE_SIZE", "PermissionsError", "QUEUE_MESSAGES_MAX_DEFAULT"),
    *("QUEUE_MESSAGE_SIZE_MAX_DEFAULT", "QUEUE_PRIORITY_MAX", "SEMAPHORE_TIMEOUT_SUPPORTED"),
    *("SEMAPHORE_VALUE_MAX", "Semaphore", "ServerLost", "SharedMemory", "SignalError", "USER_SIGNAL_MAX"),
    *("USER_SIGNAL_MIN", "VERSION", "unlink_message_queue", "unlink_semaphore", "unlink_shared_memory"),
]

# The version of the module whose names these are.
VERSION = __version__ = "1.0.5"

O_CREX = O_CREAT | O_EXCL
PAGE_SIZE = os.sysconf("SC_PAGE_SIZE")
SEMAPHORE_TIMEOUT_SUPPORTED = True
SEMAPHORE_VALUE_MAX = 2**31 - 1
MESSAGE_QUEUES_SUPPORTED = True
QUEUE_MESSAGES_MAX_DEFAULT = 10
QUEUE_MESSAGE_SIZE_MAX_DEFAULT = 8192
QUEUE_PRIORITY_MAX = 32767
USER_SIGNAL_MIN, USER_SIGNAL_MAX = int(signal.SIGRTMIN), int(signal.SIGRTMAX)

# As many bytes as any message may have.
_ANY_SIZE = 2**31 - 1
_notifier = Notifier()


class Error(Exception):
    """What all exceptions of this module are."""


class SignalError(Error):
    """A handler of a signal ran while a call waited."""


class PermissionsError(Error):
    """The mode or the owner of an object does not allow the call."""


class ExistentialError(Error):
    """An object is not there, is there though it should not be, or is closed."""


class BusyError(Error):
    """A call that should not wait, or no longer, would have to; or a process is registered already."""


class ServerLost(Error, session.ServerLost):
    """The server is not there, or was stopped in the midst of the call, see `ipcd.session`."""


_OPEN: dict[int, type[Exception]] = {
    errno.EACCES: PermissionsError,
    errno.ENOENT: ExistentialError,
    errno.EEXIST: ExistentialError,
    errno.EINVAL: ValueError,
    errno.ENAMETOOLONG: ValueError,
    errno.ENOMEM: MemoryError,
}
_USE: dict[int, type[Exception]] = {
    **_OPEN,
    errno.EAGAIN: BusyError,
    errno.EBADF: ExistentialError,
    errno.EBUSY: BusyError,
    errno.EINTR: SignalError,
    errno.EINVAL: ExistentialError,
    errno.EMSGSIZE: ValueError,
    errno.ETIMEDOUT: BusyError,
}
# Of a segment EINVAL is a range, and not a descriptor.
_SEGMENT: dict[int, type[Exception]] = {**_USE, errno.EINVAL: ValueError}


@contextmanager
def _refusals(kinds: dict[int, type[Exception]]) -> Iterator[None]:
    """Raises the exception of this module that stands for the error of a call, or else an OSError."""
    try:
        yield
    except session.ServerLost as lost:
        raise ServerLost(*lost.args) from lost
    except OSError as refusal:
        if refusal.errno not in kinds:
            raise
        raise kinds[refusal.errno](refusal.strerror) from None


def unlink_semaphore(name: str) -> None:
    """Takes the name off a semaphore, see sem_unlink(3)."""
    with _refusals(_OPEN), session.use() as lane:
        lane.connection.sem_unlink(_slash(name))


def unlink_shared_memory(name: str) -> None:
    """Takes the name off a segment, see shm_unlink(3)."""
    with _refusals(_OPEN), session.use() as lane:
        lane.connection.shm_unlink(_slash(name))


def unlink_message_queue(name: str) -> None:
    """Takes the name off a queue, see mq_unlink(3)."""
    with _refusals(_OPEN), session.use() as lane:
        lane.connection.mq_unlink(name)


def _slash(name: str) -> str:
    """The C library takes names of semaphores and segments without their first slash too."""
    return "/" + name.lstrip("/")


def _umask() -> int:
    """The mask of the process, which the C library's calls apply."""
    with open("/proc/self/status") as status:
        for line in status:
            if line.startswith("Umask:"):
                return int(line.split()[1], 8)
    raise OSError(errno.ENOSYS, "the system does not tell the umask")


def _deadline(timeout: Optional[float]) -> Optional[float]:
    """When a wait is over. What is over already, 0, is a wait that is refused at once."""
    if timeout is None:
        return None
    if not isinstance(timeout, (int, float)) or not timeout >= 0:
        raise TypeError("The timeout must be None or a non-negative number")
    return time.time() + timeout if timeout else 0


class _Object:
    """What has a name, and a descriptor on each connection that it is used by."""

    _slashed = True

    def __init__(self, name: Optional[str], flags: int) -> None:
        if name is None and flags & O_CREX != O_CREX:
            raise ValueError("Name can only be None if O_EXCL and O_CREAT are set")
        if name is not None and not isinstance(name, str):
            raise TypeError("Name must be a string or None")
        self._token, self._closed = next(session.tokens), False
        while True:
            self._name = f"/posix_ipc_{random.randrange(2**40):010x}" if name is None else name
            try:
                with session.use() as lane:
                    lane.descriptors[self._token] = self._open(lane.connection, flags)
                return
            except FileExistsError:
                if name is not None:
                    raise

    def _open(self, connection: Connection, flags: int) -> int:
        raise NotImplementedError

    def _path(self) -> str:
        return _slash(self._name) if self._slashed else self._name

    def _again(self, connection: Connection) -> int:
        """Opens it by its name on a further connection."""
        return self._open(connection, 0)

    def _use(self, waits: bool = False, keep: Optional[session.Keep] = None) -> ContextManager[session.Lane]:
        return session.use(waits, keep, self._token)

    def _descriptor(self, lane: session.Lane) -> int:
        if self._closed:
            raise OSError(errno.EBADF, "the object is closed")
        return lane.descriptor(self._token, self._again)

    @property
    def name(self) -> str:
        """The name. Read only."""
        return self._name

    def _close(self) -> None:
        if self._closed:
            raise ExistentialError("the object is closed")
        self._closed = True
        session.forget(self._token)

    def __str__(self) -> str:
        return self._name

    def __repr__(self) -> str:
        return f'posix_ipc.{type(self).__name__}("{self._name}")'


class Semaphore(_Object):
    """A named semaphore, see sem_overview(7)."""

    def __init__(
        self, name: Optional[str], flags: int = 0, mode: int = 0o600, initial_value: int = 0
    ) -> None:
        if not 0 <= operator.index(initial_value) <= SEMAPHORE_VALUE_MAX:
            raise ValueError(f"The initial value must be between 0 and {SEMAPHORE_VALUE_MAX}")
        self._made = mode & ~_umask() & 0o777, initial_value
        with _refusals(_OPEN):
            super().__init__(name, flags)

    def _open(self, connection: Connection, flags: int) -> int:
        return connection.sem_open(self._path(), flags, *self._made)

    def acquire(self, timeout: Optional[float] = None) -> None:
        """Takes 1 off the value. At 0 it waits, `timeout` seconds at most: then it is BusyError."""
        end = _deadline(timeout)

        def take_back(connection: Connection, body: bytes) -> None:
            connection.sem_post(fd)

        with _refusals(_USE), self._use(end != 0, take_back) as lane:
            fd = self._descriptor(lane)
            lane.wait_until_done(sem_trywait_request(fd) if end == 0 else sem_wait_request(fd, end))

    def release(self) -> None:
        """Adds 1 to the value."""
        with _refusals(_USE), self._use() as lane:
            lane.connection.sem_post(self._descriptor(lane))

    @property
    def value(self) -> int:
        """The value. Read only."""
        with _refusals(_USE), self._use() as lane:
            return lane.connection.sem_getvalue(self._descriptor(lane))

    def close(self) -> None:
        """Gives the semaphore up. What was acquired stays acquired."""
        self._close()

    def unlink(self) -> None:
        """Takes its name off."""
        unlink_semaphore(self._name)

    def __enter__(self) -> Semaphore:
        self.acquire()
        return self

    def __exit__(self, *raised: object) -> None:
        self.release()


class MessageQueue(_Object):
    """A POSIX message queue, see mq_overview(7)."""

    _slashed = False

    def __init__(
        self,
        name: Optional[str],
        flags: int = 0,
        mode: int = 0o600,
        max_messages: int = QUEUE_MESSAGES_MAX_DEFAULT,
        max_message_size: int = QUEUE_MESSAGE_SIZE_MAX_DEFAULT,
        read: bool = True,
        write: bool = True,
    ) -> None:
        if not read and not write:
            raise ValueError("At least one of read and write must be True")
        self._access = O_RDWR if read and write else O_RDONLY if read else O_WRONLY
        self._made = mode & ~_umask() & 0o777, MqAttr(0, max_messages, max_message_size)
        self._block = True
        # Messages that came in the moment in which a signal's handler broke the call off, by an exception.
        self._kept: list[tuple[bytes, int]] = []
        with _refusals(_OPEN):
            super().__init__(name, flags)

    def _open(self, connection: Connection, flags: int) -> int:
        return connection.mq_open(self._path(), flags & O_CREX | self._access, *self._made)

    @property
    def mqd(self) -> int:
        """A number of this object, and of no file: poll and read of it are EBADF."""
        return self._token

    def fileno(self) -> int:
        """The same."""
        return self._token

    @property
    def block(self) -> bool:
        """Whether send and receive wait."""
        return self._block

    @block.setter
    def block(self, block: object) -> None:
        self._block = bool(block)

    def _until(self, timeout: Optional[float]) -> Optional[float]:
        return _deadline(timeout) if self._block else 0

    def send(self, message: Union[str, bytes], timeout: Optional[float] = None, priority: int = 0) -> None:
        """Appends a message. While the queue is full it waits, `timeout` seconds at most: then it is BusyError."""
        if not 0 <= operator.index(priority) <= QUEUE_PRIORITY_MAX:
            raise ValueError(f"The priority must be between 0 and {QUEUE_PRIORITY_MAX}")
        text = message.encode() if isinstance(message, str) else bytes(memoryview(message))
        end = self._until(timeout)
        with _refusals(_USE), self._use(waits=end != 0) as lane:
            lane.wait_until_done(mq_send_request(self._descriptor(lane), text, priority, end))

    def receive(self, timeout: Optional[float] = None) -> tuple[bytes, int]:
        """Takes the first message of the greatest priority: its text and its priority. It waits as send does."""
        if self._kept:
            return self._kept.pop(0)
        end = self._until(timeout)
        with _refusals(_USE), self._use(end != 0, self._keep) as lane:
            body = lane.wait(mq_receive_request(self._descriptor(lane), _ANY_SIZE, end))
            priority, text = lane.connection._number_and_text(">I", body, _ANY_SIZE)
        return text, priority

    def _keep(self, connection: Connection, body: bytes) -> None:
        if len(body) >= 4:
            self._kept.append((body[4:], struct.unpack_from(">I", body)[0]))

    def request_notification(
        self, notification: Union[int, tuple[Callable[[Any], object], Any], None] = None
    ) -> None:
        """Asks to be told once of a message that comes to the empty queue, by a signal or by a function that is called
        in a thread of its own; without either gives that up."""
        if notification is None:
            told: Optional[Callable[[], object]] = None
        elif isinstance(notification, int):
            number = notification

            def told() -> object:
                os.kill(os.getpid(), number)
                return None
        elif isinstance(notification, tuple) and len(notification) == 2 and callable(notification[0]):
            function, argument = notification

            def told() -> object:
                return function(argument)
        else:
            raise ValueError("The notification must be None, a signal, or a function and its argument")
        if self._closed:
            raise ExistentialError("the queue is closed")
        with _refusals(_USE):
            _notifier.register(self._token, self._again, told)

    def _attributes(self) -> MqAttr:
        with _refusals(_USE), self._use() as lane:
            return lane.connection.mq_getattr(self._descriptor(lane))

    @property
    def max_messages(self) -> int:
        """How many messages the queue takes. Read only."""
        return self._attributes().maxmsg

    @property
    def max_message_size(self) -> int:
        """How many bytes a message may have. Read only."""
        return self._attributes().msgsize

    @property
    def current_messages(self) -> int:
        """How many messages the queue has. Read only."""
        return self._attributes().curmsgs

    def close(self) -> None:
        """Gives the queue up, with its registration."""
        self._close()
        with _refusals(_USE):
            _notifier.forget(self._token)

    def unlink(self) -> None:
        """Takes its name off."""
        unlink_message_queue(self._name)


class SharedMemory(_Object):
    """A segment of shared memory, see shm_overview(7), which is read and written by calls: it has no mapping."""

    def __init__(
        self,
        name: Optional[str],
        flags: int = 0,
        mode: int = 0o600,
        size: int = 0,
        read_only: bool = False,
    ) -> None:
        if operator.index(size) < 0:
            raise ValueError("The size must not be negative")
        self._access = O_RDONLY if read_only else O_RDWR
        self._mode = mode & ~_umask() & 0o777
        with _refusals(_OPEN):
            super().__init__(name, flags)
        if size and not read_only:
            with _refusals(_SEGMENT), self._use() as lane:
                lane.connection.ftruncate(self._descriptor(lane), size)

    def _open(self, connection: Connection, flags: int) -> int:
        return connection.shm_open(self._path(), flags & (O_CREX | O_TRUNC) | self._access, self._mode)

    @property
    def fd(self) -> int:
        """A number of this object, and of no file: mmap, read and close of it are EBADF."""
        return self._token

    def fileno(self) -> int:
        """The same."""
        return self._token

    @property
    def size(self) -> int:
        """How many bytes it has. Read only."""
        with _refusals(_SEGMENT), self._use() as lane:
            return lane.connection.shm_stat(self._descriptor(lane)).length

    def pread(self, n: int, offset: int) -> bytes:
        """So many bytes from an offset on, fewer at the end, as os.pread of a file. Of more than 8192 each 8192 are
        as they were at one moment."""
        with _refusals(_SEGMENT), self._use() as lane:
            fd = self._descriptor(lane)
            end = min(offset + n, lane.connection.shm_stat(fd).length)
            return b"".join(lane.connection.shm_read(fd, at, to - at) for at, to in session.pieces(offset, end))

    def pwrite(self, data: bytes, offset: int) -> int:
        """Writes bytes at an offset, all within the segment, and answers how many. Each 8192 are written at once."""
        with _refusals(_SEGMENT), self._use() as lane:
            fd = self._descriptor(lane)
            if offset + len(data) > lane.connection.shm_stat(fd).length:
                raise ValueError("The bytes do not all stand within the segment")
            for at, to in session.pieces(0, len(data)):
                lane.connection.shm_write(fd, offset + at, data[at:to])
        return len(data)

    def close_fd(self) -> None:
        """Gives the segment up."""
        self._close()

    def unlink(self) -> None:
        """Takes its name off."""
        unlink_shared_memory(self._name)
