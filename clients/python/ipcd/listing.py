"""What `python3 -m ipcd` shows of a live server: a table of each kind of object, with the columns of ipcs(1).

The server has no call that lists objects. So queues, sets and System V segments are found by trying identifiers, and
what has a name is looked for by the names that are given.
"""

from __future__ import annotations

import errno
import pwd
import struct
from collections.abc import Callable, Iterable
from typing import Optional, TypeVar

from .connection import Connection
from .wire import (
    O_RDONLY,
    QUEUE_FORM,
    SET_FORM,
    SHM_DEST,
    SYSTEM_V_SEGMENT_FORM,
    QueueStat,
    SemStat,
    ShmidStat,
    msgctl_stat_request,
    semctl_getncnt_request,
    semctl_getpid_request,
    semctl_getval_request,
    semctl_getzcnt_request,
    semctl_stat_request,
    shmctl_stat_request,
)

__all__ = [
    *("NAMED", "QUEUES", "Row", "SEGMENTS", "SEMAPHORES", "SETS", "ask", "columns", "key", "named", "owner", "queue_row", "queues", "segment_row"),
    *("segments", "semaphore_rows", "set_row", "sets", "table", "waiters"),
]

QUEUES = ["key", "msqid", "owner", "perms", "used-bytes", "messages"]
SEGMENTS = ["key", "shmid", "owner", "perms", "bytes", "nattch", "status"]
SETS = ["key", "semid", "owner", "perms", "nsems"]
SEMAPHORES = ["semnum", "value", "ncount", "zcount", "pid"]
WIDTHS = {"used-bytes": 12, "messages": 12, "status": 12}

Row = list[str]
T = TypeVar("T", QueueStat, SemStat, ShmidStat)


def ask(connection: Connection, requests: Iterable[bytes]) -> list[Optional[bytes]]:
    """The bodies of the replies to requests of which none waits, which are sent ahead. What is not there, or is not
    any more, is left out of an answer by `b""`, and what may not be read by None."""
    serials = [connection.send(request) for request in requests]
    bodies: list[Optional[bytes]] = []
    for serial in serials:
        try:
            bodies.append(connection.answer(serial, connection.receive()))
        except OSError as refusal:
            if refusal.errno not in (errno.EINVAL, errno.EACCES):
                raise
            bodies.append(None if refusal.errno == errno.EACCES else b"")
    return bodies


def queues(connection: Connection, upto: int) -> dict[int, Optional[QueueStat]]:
    """The queues with identifiers from 1 on, and None for one that may not be read."""
    return _found(connection, upto, msgctl_stat_request, QUEUE_FORM, QueueStat._make)


def sets(connection: Connection, upto: int) -> dict[int, Optional[SemStat]]:
    """The semaphore sets with identifiers from 1 on, and None for one that may not be read."""
    return _found(connection, upto, semctl_stat_request, SET_FORM, SemStat._make)


def segments(connection: Connection, upto: int) -> dict[int, Optional[ShmidStat]]:
    """The System V segments with identifiers from 1 on, and None for one that may not be read."""
    return _found(connection, upto, shmctl_stat_request, SYSTEM_V_SEGMENT_FORM, ShmidStat._make)


def _found(
    connection: Connection,
    upto: int,
    request: Callable[[int], bytes],
    form: str,
    record: Callable[[Iterable[int]], T],
) -> dict[int, Optional[T]]:
    found: dict[int, Optional[T]] = {}
    bodies = ask(connection, (request(number) for number in range(1, upto + 1)))
    for number, body in enumerate(bodies, 1):
        if body is None:
            found[number] = None
        elif body:
            if len(body) != struct.calcsize(form):
                connection._breaks("a record of another size")
            found[number] = record(struct.unpack(form, body))
    return found


def waiters(connection: Connection, semid: int, nsems: int) -> tuple[int, int]:
    """How many calls wait for more, and for 0, at the semaphores of a set."""
    counts = []
    for request in (semctl_getncnt_request, semctl_getzcnt_request):
        bodies = ask(connection, (request(semid, number) for number in range(nsems)))
        counts.append(sum(int.from_bytes(body or b"", "big") for body in bodies))
    return counts[0], counts[1]


def semaphore_rows(connection: Connection, semid: int, nsems: int) -> list[Row]:
    """The semaphores of a set, as `ipcs -s -i` has them: the value, how many calls wait for more and for 0, and which
    process of the server has set it last."""
    rows = [[str(number)] for number in range(nsems)]
    for request in (semctl_getval_request, semctl_getncnt_request, semctl_getzcnt_request, semctl_getpid_request):
        bodies = ask(connection, (request(semid, number) for number in range(nsems)))
        for row, body in zip(rows, bodies):
            row.append(str(int.from_bytes(body, "big")) if body else "-")
    return rows


def owner(uid: int) -> str:
    try:
        return pwd.getpwuid(uid).pw_name
    except KeyError:
        return str(uid)


def key(number: int) -> str:
    return f"0x{number & 0xFFFFFFFF:08x}"


def columns(names: list[str], rows: list[Row]) -> str:
    """Rows below their names, as ipcs(1) prints them: columns of ten places at least, parted by one."""
    widths = [max([WIDTHS.get(name, 10), *(len(row[i]) for row in rows)]) for i, name in enumerate(names)]
    lines = [" ".join(word.ljust(width) for word, width in zip(row, widths)) for row in [names, *rows]]
    return "".join(line.rstrip() + "\n" for line in lines)


def table(title: str, names: list[str], rows: list[Row]) -> str:
    return f"------ {title} --------\n{columns(names, rows)}"


def queue_row(number: int, stat: Optional[QueueStat]) -> Row:
    if stat is None:
        return ["-", str(number), "-", "-", "-", "-"]
    return [key(stat.key), str(number), owner(stat.uid), f"{stat.mode:o}", str(stat.cbytes), str(stat.qnum)]


def segment_row(number: int, stat: Optional[ShmidStat]) -> Row:
    if stat is None:
        return ["-", str(number), "-", "-", "-", "-", "-"]
    words = [key(stat.key), str(number), owner(stat.uid), f"{stat.mode & 0o777:o}", str(stat.segsz), str(stat.nattch)]
    return [*words, "dest" if stat.mode & SHM_DEST else ""]


def set_row(number: int, stat: Optional[SemStat]) -> Row:
    if stat is None:
        return ["-", str(number), "-", "-", "-"]
    return [key(stat.key), str(number), owner(stat.uid), f"{stat.mode:o}", str(stat.nsems)]


def named(connection: Connection, kind: str, name: str) -> Row:
    """The row of an object that has a name. It is opened for that, and closed again."""
    opens: dict[str, Callable[[], int]] = {
        "mqueue": lambda: connection.mq_open(name, O_RDONLY),
        "semaphore": lambda: connection.sem_open(name, 0),
        "shmem": lambda: connection.shm_open(name, O_RDONLY),
    }
    try:
        descriptor = opens[kind]()
    except PermissionError:
        return [name, *(len(NAMED[kind][1]) - 1) * ["-"]]
    try:
        if kind == "semaphore":
            return [name, str(connection.sem_getvalue(descriptor))]
        if kind == "shmem":
            segment = connection.shm_stat(descriptor)
            return [name, owner(segment.uid), f"{segment.mode:o}", str(segment.length)]
        attr = connection.mq_getattr(descriptor)
        return [name, str(attr.curmsgs), str(attr.maxmsg), str(attr.msgsize)]
    finally:
        if not connection.closed:
            connection.mq_close(descriptor)


# Of each kind of what has a name: a title, and the columns.
NAMED: dict[str, tuple[str, list[str]]] = {
    "mqueue": ("POSIX Message Queues", ["name", "messages", "maxmsg", "msgsize"]),
    "semaphore": ("POSIX Semaphores", ["name", "value"]),
    "shmem": ("POSIX Shared Memory", ["name", "owner", "perms", "bytes"]),
}
