"""Work that is done at least once, and a lock that no crash leaves shut, made of the server's objects.

    with Connection("/run/ipcd/socket") as connection:
        connection.hello(os.getuid(), os.getgid())
        jobs = work.Jobs(connection, "/jobs", 7)
        jobs.put(b"sweep")

A worker, on a connection of its own, waits for a job. When the block is left without an exception the job is
done, and its place is free. With an exception, or if the worker or the server ends, the job comes back.

        with jobs.claim() as job:
            do(job.text)

A claim is a lease: a semaphore that is set with SEM_UNDO. The server itself takes the lease back when its holder ends;
no time is measured. After a restart of the server all leases are taken back, also those of workers that keep running.
So a job whose put has returned is done at least once, and may be done twice: it has to be idempotent.
"""

from __future__ import annotations

import errno
import struct
from collections.abc import Iterator
from contextlib import contextmanager
from typing import NamedTuple

from .connection import Connection
from .wire import IPC_CREAT, IPC_NOWAIT, O_CREAT, O_RDWR, SEM_UNDO, Operation

__all__ = ["Job", "Jobs", "Lock"]

# The lock of a set, and the semaphore that says whether the set was given its first values.
LOCK, MADE = 0, 1
# Of the set of a table: units for jobs that nobody has, units for free places, and then the leases, 1 if held.
READY, SPACE, LEASES = 2, 3, 4

TAKE: Operation = (LOCK, -1, SEM_UNDO)
GIVE: Operation = (LOCK, 1, SEM_UNDO)

# At the front of a place: the number of the job, which is 0 for none, and the length of its text.
HEAD = struct.Struct(">QI")
# At the front of the table: the number of the next job.
NUMBER = struct.Struct(">Q")
# The bytes that one call reads or writes.
PIECE = 8192


def make(connection: Connection, key: int, mode: int, values: dict[int, int], size: int) -> int:
    """The set of a key, with its first values. Making it and giving them are two events, and who makes it may
    end between them. So the values are given in one list, with a semaphore that says that they were: of all who
    call this one list is done, and the others are refused."""
    sems = connection.semget(key, size, IPC_CREAT | mode)
    first = [(number, value, IPC_NOWAIT) for number, value in values.items()]
    try:
        connection.semop(sems, [(MADE, 0, IPC_NOWAIT), (MADE, 1, IPC_NOWAIT), *first])
    except BlockingIOError:
        pass
    return sems


class Lock:
    """A lock of a key. It is free again when its holder ends, in whatever way."""

    def __init__(self, connection: Connection, key: int, mode: int = 0o600) -> None:
        self.connection = connection
        self.sems = make(connection, key, mode, {LOCK: 1}, 2)

    def acquire(self, timeout: float | None = None) -> None:
        """Waits for the lock, `timeout` seconds at most, if they are given: then it is a BlockingIOError."""
        self.connection.semop(self.sems, [TAKE], timeout)

    def release(self) -> None:
        """Frees the lock."""
        self.connection.semop(self.sems, [GIVE])

    def __enter__(self) -> Lock:
        self.acquire()
        return self

    def __exit__(self, *raised: object) -> None:
        # If the connection has ended the server has freed the lock.
        if not self.connection.closed:
            self.release()


class Job(NamedTuple):
    """A job that is claimed: its place, its number, which no other job of the table has, and its text."""

    place: int
    number: int
    text: bytes


class Jobs:
    """A table of jobs in a segment. All who use it name the same key, places and size."""

    def __init__(
        self,
        connection: Connection,
        name: str,
        key: int,
        places: int = 32,
        size: int = 244,
        mode: int = 0o600,
    ) -> None:
        """Each place has `size` bytes for a text, 8180 at most. A set has 64 semaphores under standard limits, so
        there are 60 places at most."""
        if not 0 <= size <= PIECE - HEAD.size:
            raise ValueError(f"a size is from 0 to {PIECE - HEAD.size}")
        self.connection, self.places, self.size = connection, places, size
        self.sems = make(connection, key, mode, {LOCK: 1, SPACE: places}, LEASES + places)
        self.table = connection.shm_open(name, O_CREAT | O_RDWR, mode)
        # The bytes that a segment gains are 0: no jobs. One that has its length keeps its bytes.
        connection.ftruncate(self.table, NUMBER.size + places * self._stride)

    @property
    def _stride(self) -> int:
        return HEAD.size + self.size

    def put(self, text: bytes) -> int:
        """Adds a job, and answers its number. It waits while no place is free. Once it has returned the job is done
        at least once; if it raises an exception, the job may be there and may be not."""
        if len(text) > self.size:
            raise OSError(errno.EMSGSIZE, f"a job has {self.size} bytes at most")
        while True:
            with self._claimed(SPACE) as (number, jobs):
                taken = {job.place for job in jobs}
                free = [place for place in range(self.places) if place not in taken]
                if not free:
                    # A unit too many, of who ended in the midst: it is dropped.
                    self._drop(SPACE)
                    continue
                self._write(0, NUMBER.pack(number + 1))
                # First the unit, then the job: there may be a unit too many, and never one too few.
                self._semop([(READY, 1, 0)])
                self._write(self._at(free[0]), HEAD.pack(number + 1, len(text)) + text)
                self._drop(SPACE)
                return number + 1

    @contextmanager
    def claim(self) -> Iterator[Job]:
        """The oldest job that nobody has. It waits for one. When the block is left it is done, or comes back."""
        job = self._claim()
        try:
            yield job
        except BaseException:
            if not self.connection.closed:
                self._semop([(LEASES + job.place, -1, SEM_UNDO), (READY, 1, SEM_UNDO)])
            raise
        self._done(job)

    def _claim(self) -> Job:
        while True:
            with self._claimed(READY) as (_, jobs):
                leases = self.connection.semctl_getall(self.sems)[LEASES:]
                free = [job for job in jobs if not leases[job.place]]
                if free:
                    job = min(free, key=lambda job: job.number)
                    self._semop([(LEASES + job.place, 1, SEM_UNDO)])
                    return job
                self._drop(READY)

    def _done(self, job: Job) -> None:
        """The job is done: its place is free, and neither its lease nor its unit comes back."""
        self._semop([TAKE])
        # First the unit, then the place, as in put.
        self._semop([(SPACE, 1, 0)])
        self._write(self._at(job.place), HEAD.pack(0, 0))
        self._semop([(READY, 1, SEM_UNDO), (READY, -1, 0), (LEASES + job.place, -1, SEM_UNDO), GIVE])

    @contextmanager
    def _claimed(self, unit: int) -> Iterator[tuple[int, list[Job]]]:
        """Waits for a unit, which comes back if its holder ends, and for the lock: the last number and the jobs."""
        self._semop([(unit, -1, SEM_UNDO), TAKE])
        try:
            yield self._read()
        finally:
            if not self.connection.closed:
                self._semop([GIVE])

    def _drop(self, unit: int) -> None:
        """A unit that this process has does not come back."""
        self._semop([(unit, 1, SEM_UNDO), (unit, -1, 0)])

    def _read(self) -> tuple[int, list[Job]]:
        end = NUMBER.size + self.places * self._stride
        pieces = (self.connection.shm_read(self.table, at, min(PIECE, end - at)) for at in range(0, end, PIECE))
        table = b"".join(pieces)
        jobs = []
        for place in range(self.places):
            at = self._at(place)
            number, length = HEAD.unpack_from(table, at)
            if number:
                jobs.append(Job(place, number, table[at + HEAD.size : at + HEAD.size + length]))
        return NUMBER.unpack_from(table)[0], jobs

    def _at(self, place: int) -> int:
        return NUMBER.size + place * self._stride

    def _write(self, at: int, data: bytes) -> None:
        self.connection.shm_write(self.table, at, data)

    def _semop(self, operations: list[Operation]) -> None:
        self.connection.semop(self.sems, operations)
