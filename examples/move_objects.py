"""Moves the objects of one server to another, as from a device of a version that a new program does not open.

    $ ipcd-old dump copy > listing
    $ PYTHONPATH=examples python3 examples/move_objects.py old-socket socket < listing

`listing` is what `dump` prints of a copy of the old server's device. Nobody else should be connected
to either server. Messages are taken from the old one as they are put to the new one, in their order:
so keep a copy of the old device, and if this ends with an error, start again with that copy and an
empty new device. Of a set, a named semaphore or a segment the values and bytes are read, and stay.

Each object is made by a process of the user and the group that have made the old one, and then gets
the owner, the mode and the qbytes of the old one. What no call can set is not moved: identifiers,
times, and the last pids.
"""

from __future__ import annotations

import re
import sys
import time
from collections.abc import Callable, Iterator
from errno import EAGAIN, ENFILE, ENOMSG

from client import *

LONGEST = 65536  # bytes of a message


def process(socket: str, uid: int = 0, gid: int = 0) -> Connection:
    """Says HELLO again while the server has not yet seen that others have gone."""
    connection = Connection(socket, timeout=60)
    for tried in range(100):
        try:
            connection.hello(uid, gid)
            break
        except OSError as error:
            if error.errno != ENFILE or tried == 99:
                raise
            time.sleep(0.1)
    return connection


def all_of(receive: Callable[[], tuple[int, bytes]], *ends: int) -> Iterator[tuple[int, bytes]]:
    """Messages, until a receive is refused by one of these errors: nothing is left."""
    while True:
        try:
            message = receive()
        except OSError as error:
            if error.errno in ends:
                return
            raise
        yield message


def name_of(shown: str) -> bytes:
    """A name as `dump` prints it."""
    return re.sub(rb"\\x(..)", lambda found: bytes.fromhex(found[1].decode()), shown.encode())


def pieces(length: int) -> Iterator[tuple[int, int]]:
    """What one call takes of a segment: of one of so few bytes the limits may be small."""
    piece = 8192 if length > 2048 else 64
    return ((at, min(piece, length - at)) for at in range(0, length, piece))


class Move:
    def __init__(self, old: str, new: str) -> None:
        self.new_socket = new
        self.old, self.new = process(old), process(new)

    def of(self, uid: int, gid: int) -> Connection:
        """A process of the new server, of this user and group."""
        return process(self.new_socket, uid, gid)

    def msg(self, number: int, key: int, mode: int, uid: int, gid: int, *_: object) -> None:
        stat = self.old.msgctl_stat(number)
        with self.of(stat.cuid, stat.cgid) as maker:
            queue = maker.msgget(key, IPC_CREAT | IPC_EXCL | mode)
        for mtype, text in all_of(lambda: self.old.msgrcv(number, LONGEST, msgflg=IPC_NOWAIT), ENOMSG):
            self.new.msgsnd(queue, mtype, text, IPC_NOWAIT)
        self.new.msgctl_set(queue, uid, gid, mode, stat.qbytes)

    def sem(self, number: int, key: int, mode: int, uid: int, gid: int, nsems: int) -> None:
        stat = self.old.semctl_stat(number)
        with self.of(stat.cuid, stat.cgid) as maker:
            semid = maker.semget(key, nsems, IPC_CREAT | IPC_EXCL | mode)
        self.new.semctl_setall(semid, self.old.semctl_getall(number))
        self.new.semctl_set(semid, uid, gid, mode)

    def pmq(self, mode: int, uid: int, gid: int, _: int, maxmsg: int, msgsize: int, name: bytes) -> None:
        taken = self.old.mq_open(name, O_RDONLY | O_NONBLOCK)
        with self.of(uid, gid) as owner:
            flags = O_CREAT | O_EXCL | O_WRONLY | O_NONBLOCK
            put = owner.mq_open(name, flags, mode, MqAttr(maxmsg=maxmsg, msgsize=msgsize))
            for priority, text in all_of(lambda: self.old.mq_receive(taken, msgsize), EAGAIN):
                owner.mq_send(put, text, priority)
        self.old.mq_close(taken)

    def psm(self, mode: int, uid: int, gid: int, value: int, name: bytes) -> None:
        with self.of(uid, gid) as owner:
            owner.sem_open(name, O_CREAT | O_EXCL, mode, value)

    def shm(self, mode: int, uid: int, gid: int, length: int, name: bytes) -> None:
        read = self.old.shm_open(name, O_RDONLY)
        with self.of(uid, gid) as owner:
            written = owner.shm_open(name, O_CREAT | O_EXCL | O_RDWR, mode)
            owner.ftruncate(written, length)
            for at, size in pieces(length):
                owner.shm_write(written, at, self.old.shm_read(read, at, size))
        self.old.shm_close(read)

    def seg(self, number: int, key: int, mode: int, uid: int, gid: int, length: int, _: int) -> None:
        stat = self.old.shmctl_stat(number)
        with self.of(stat.cuid, stat.cgid) as maker:
            shmid = maker.shmget(key, length, IPC_CREAT | IPC_EXCL | mode)
        read, written = self.old.shmat(number, SHM_RDONLY), self.new.shmat(shmid)
        for at, size in pieces(length):
            self.new.attached_write(written, at, self.old.attached_read(read, at, size))
        self.old.shmdt(read)
        self.new.shmdt(written)
        self.new.shmctl_set(shmid, uid, gid, mode)


def main(old: str, new: str) -> None:
    move = Move(old, new)
    count = 0
    for count, line in enumerate(sys.stdin, 1):
        kind, *fields = line.split()
        at = 2 if kind in ("msg", "sem", "seg") else 0  # the mode has octal digits, a name is the last
        numbers: list[object] = [int(it, 8 if place == at else 10) for place, it in enumerate(fields[:-1])]
        last = int(fields[-1]) if at else name_of(fields[-1])
        getattr(move, kind)(*numbers, last)
    print(f"{count} objects")


main(*sys.argv[1:])
