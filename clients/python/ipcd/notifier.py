"""The notifications of this process: a thread that reads them, on a connection of its own."""

from __future__ import annotations

import errno
import os
import queue
import select
import threading
from collections.abc import Callable
from contextlib import suppress
from typing import Optional

from . import session
from .connection import Connection
from .stream import file_of
from .wire import NOTIFY_FRAME, NOTIFY_NOT

__all__ = ["Notifier"]

Open = Callable[[Connection], int]
Told = Callable[[], object]

# Something that the thread does with its connection, and where it puts what came of it: nothing, or an exception.
Work = tuple[Callable[["Notifier"], None], "queue.Queue[Optional[BaseException]]"]


class Notifier:
    """Registers with queues. Its thread begins with the first registration, and ends with its connection."""

    def __init__(self) -> None:
        self._lock = threading.Lock()
        self._begin()
        os.register_at_fork(after_in_child=self._begin)

    def _begin(self) -> None:
        """There is no thread, as in a child after a fork."""
        connection = getattr(self, "connection", None)
        if connection is not None:
            connection.close()
        self._lock = threading.Lock()
        self.connection: Optional[Connection] = None
        self.opened: dict[int, int] = {}
        self.told: dict[int, Told] = {}
        self._works: queue.SimpleQueue[Work] = queue.SimpleQueue()

    def register(self, token: int, open_again: Open, told: Optional[Told]) -> None:
        """Registers with the queue of a token, or gives that up."""

        def work(notifier: Notifier) -> None:
            connection = notifier.connection
            if connection is None:
                return
            if token not in notifier.opened:
                notifier.opened[token] = open_again(connection)
            fd = notifier.opened[token]
            connection.mq_notify(fd, NOTIFY_NOT if told is None else NOTIFY_FRAME, fd)
            if told is not None:
                notifier.told[fd] = told

        if told is not None or token in self.opened:
            self._do(work)

    def forget(self, token: int) -> None:
        """Closes the descriptor of a token, and its registration goes with it."""

        def work(notifier: Notifier) -> None:
            fd = notifier.opened.pop(token, None)
            if fd is not None and notifier.connection is not None:
                notifier.connection.mq_close(fd)

        if token in self.opened:
            self._do(work)

    def _do(self, work: Callable[[Notifier], None]) -> None:
        """Has the thread do this, which is the only one to use its connection."""
        with self._lock:
            if self.connection is None:
                self.connection = session.connect()
                self._reader, self._writer = os.pipe2(os.O_CLOEXEC)
                self._files = [file_of(self._reader), file_of(self._writer)]
                threading.Thread(target=self._run, name="ipcd notifications", daemon=True).start()
            done: queue.Queue[Optional[BaseException]] = queue.Queue()
            self._works.put((work, done))
            os.write(self._writer, b".")
        refused = done.get()
        if refused is not None:
            raise refused

    def _run(self) -> None:
        connection = self.connection
        assert connection is not None
        ready = select.poll()
        ready.register(connection, select.POLLIN)
        ready.register(self._reader, select.POLLIN)
        try:
            while True:
                came = dict(ready.poll())
                if self._reader in came:
                    self._one(connection)
                if connection.fileno() in came or connection.has_notification():
                    self._tell(connection)
        except OSError:
            # The connection has ended, or the program has closed it.
            pass
        finally:
            self._end(connection)

    def _one(self, connection: Connection) -> None:
        """Does one work. If the connection ends meanwhile, whoever waits for the work gets a `ServerLost`."""
        os.read(self._reader, 1)
        work, done = self._works.get()
        try:
            work(self)
            done.put(None)
        except ConnectionError as lost:
            done.put(session.ServerLost(lost.errno, f"the server is lost: {lost.strerror}"))
            raise
        except Exception as refused:
            done.put(refused)

    def _tell(self, connection: Connection) -> None:
        """Tells of what has come."""
        with suppress(TimeoutError):
            while True:
                fd, _ = connection.notification(0)
                told = self.told.pop(fd, None)
                if told is not None:
                    threading.Thread(target=told, daemon=True).start()

    def _end(self, connection: Connection) -> None:
        """The connection has ended: nobody is registered, and the next registration makes a new one."""
        connection.close()
        with self._lock:
            self.connection = None
            self.opened.clear()
            self.told.clear()
            for end, file in zip((self._reader, self._writer), self._files):
                if file_of(end) == file:
                    os.close(end)
            while not self._works.empty():
                self._works.get()[1].put(session.ServerLost(errno.ECONNRESET, "the server is lost"))
