"""The frames of a connection: the numbers of the manual pages, the requests of all calls, and the records that
some are answered. docs/PROTOCOL.md says what each means."""

from __future__ import annotations

import errno
import os
import struct
from collections.abc import Sequence
from typing import NamedTuple, Union

# fmt: off
__all__ = [
    "ATTR_FORM", "IPC_CREAT", "IPC_EXCL", "IPC_NOWAIT", "IPC_PRIVATE", "LONGEST_REPLY", "LONGEST_REQUEST",
    "MSG_EXCEPT", "MSG_NOERROR", "MqAttr", "NOTIFY_FRAME", "NOTIFY_NOT", "NOTIFY_NULL", "O_CREAT", "O_EXCL",
    "O_NONBLOCK", "O_RDONLY", "O_RDWR", "O_TRUNC", "O_WRONLY", "Operation", "QUEUE_FORM", "QueueStat", "SEGMENT_FORM",
    "SEM_UNDO", "SET_FORM", "SHM_DEST", "SHM_RDONLY", "SYSTEM_V_SEGMENT_FORM", "SemStat", "ShmStat", "ShmidStat",
    "TOO_LONG", "attached_read_request", "attached_write_request", "close_request", "ftruncate_request",
    "hello_request", "interrupt_request", "mq_getattr_request", "mq_notify_request", "mq_open_request",
    "mq_receive_request", "mq_send_request", "mq_setattr_request", "mq_unlink_request", "msgctl_rmid_request",
    "msgctl_set_request", "msgctl_stat_request", "msgget_request", "msgrcv_request", "msgsnd_request",
    "sem_getvalue_request", "sem_open_request", "sem_post_request", "sem_trywait_request", "sem_unlink_request",
    "sem_wait_request", "semctl_getall_request", "semctl_getncnt_request", "semctl_getpid_request",
    "semctl_getval_request", "semctl_getzcnt_request", "semctl_rmid_request", "semctl_set_request",
    "semctl_setall_request", "semctl_setval_request", "semctl_stat_request", "semget_request", "semop_request",
    "shm_open_request", "shm_read_request", "shm_stat_request", "shm_unlink_request", "shm_write_request",
    "shmat_request", "shmctl_rmid_request", "shmctl_set_request", "shmctl_stat_request", "shmdt_request",
    "shmget_request",
]
# fmt: on

IPC_PRIVATE = 0
IPC_CREAT = 0o1000
IPC_EXCL = 0o2000
IPC_NOWAIT = 0o4000
MSG_NOERROR = 0o10000
MSG_EXCEPT = 0o20000
SEM_UNDO = 0o10000
SHM_RDONLY = 0o10000
# What the mode of a System V segment shows if it was removed while somebody had it attached.
SHM_DEST = 0o1000
O_RDONLY = 0
O_WRONLY = 1
O_RDWR = 2
O_CREAT = 0o100
O_EXCL = 0o200
O_TRUNC = 0o1000
O_NONBLOCK = 0o4000

# What a process asks of mq_notify(3): no longer to be told, not to be told, or to be told by a frame.
NOTIFY_NOT, NOTIFY_NULL, NOTIFY_FRAME = 0, 1, 2

# The most bytes of a frame, with those of its length: of a request, and of a reply under standard limits.
LONGEST_REQUEST = 65796
LONGEST_REPLY = 65554

# What a request is refused that no frame can carry, by its opcode, as the manual page of its call has it.
TOO_LONG = {
    0x0B: errno.EINVAL,
    0x15: errno.E2BIG,
    0x1C: errno.EINVAL,
    0x2A: errno.EMSGSIZE,
    0x40: errno.EINVAL,
    0x4D: errno.EINVAL,
    **dict.fromkeys((0x28, 0x29, 0x32, 0x33, 0x3C, 0x3D), errno.ENAMETOOLONG),
}

# A number of a semaphore, what is added to its value, or 0 to wait for 0, and maybe flags, as in semop(2).
Operation = Union[tuple[int, int], tuple[int, int, int]]


class MqAttr(NamedTuple):
    """What there is to know of a POSIX queue, see mq_getattr(3). Flags are 0 or O_NONBLOCK."""

    flags: int = 0
    maxmsg: int = 0
    msgsize: int = 0
    curmsgs: int = 0


# Requests: an opcode, and the fields of the call.


def hello_request(uid: int, gid: int) -> bytes:
    return struct.pack(">BII", 0x01, uid, gid)


def interrupt_request() -> bytes:
    return struct.pack(">B", 0x02)


def msgget_request(key: int, msgflg: int) -> bytes:
    return struct.pack(">BiI", 0x0A, key, msgflg)


def msgsnd_request(msqid: int, mtype: int, mtext: bytes, msgflg: int = 0) -> bytes:
    return struct.pack(">BIIq", 0x0B, msqid, msgflg, mtype) + mtext


def msgrcv_request(msqid: int, msgsz: int, msgtyp: int = 0, msgflg: int = 0) -> bytes:
    return struct.pack(">BIIIq", 0x0C, msqid, msgflg, msgsz, msgtyp)


def msgctl_stat_request(msqid: int) -> bytes:
    return struct.pack(">BI", 0x0D, msqid)


def msgctl_set_request(msqid: int, uid: int, gid: int, mode: int, qbytes: int) -> bytes:
    return struct.pack(">BIIIII", 0x0E, msqid, uid, gid, mode, qbytes)


def msgctl_rmid_request(msqid: int) -> bytes:
    return struct.pack(">BI", 0x0F, msqid)


def semget_request(key: int, nsems: int, semflg: int) -> bytes:
    return struct.pack(">BiiI", 0x14, key, nsems, semflg)


def semop_request(semid: int, sops: Sequence[Operation], timeout: float | None = None) -> bytes:
    """The timeout is in seconds."""
    operations = (struct.pack(">HhH", *sop, *(3 - len(sop)) * [0]) for sop in sops)
    return struct.pack(">BIQ", 0x15, semid, _milliseconds(timeout)) + b"".join(operations)


def semctl_getval_request(semid: int, semnum: int) -> bytes:
    return struct.pack(">BII", 0x16, semid, semnum)


def semctl_getpid_request(semid: int, semnum: int) -> bytes:
    return struct.pack(">BII", 0x17, semid, semnum)


def semctl_getncnt_request(semid: int, semnum: int) -> bytes:
    return struct.pack(">BII", 0x18, semid, semnum)


def semctl_getzcnt_request(semid: int, semnum: int) -> bytes:
    return struct.pack(">BII", 0x19, semid, semnum)


def semctl_setval_request(semid: int, semnum: int, value: int) -> bytes:
    return struct.pack(">BIIi", 0x1A, semid, semnum, value)


def semctl_getall_request(semid: int) -> bytes:
    return struct.pack(">BI", 0x1B, semid)


def semctl_setall_request(semid: int, values: Sequence[int]) -> bytes:
    return struct.pack(f">BI{len(values)}H", 0x1C, semid, *values)


def semctl_stat_request(semid: int) -> bytes:
    return struct.pack(">BI", 0x1D, semid)


def semctl_set_request(semid: int, uid: int, gid: int, mode: int) -> bytes:
    return struct.pack(">BIIII", 0x1E, semid, uid, gid, mode)


def semctl_rmid_request(semid: int) -> bytes:
    return struct.pack(">BI", 0x1F, semid)


def close_request(descriptor: int) -> bytes:
    return struct.pack(">BI", 0x03, descriptor)


def mq_open_request(name: str | bytes, oflag: int, mode: int = 0, attr: MqAttr | None = None) -> bytes:
    """Without attributes a new queue has the greatest of the server. Of those given maxmsg and msgsize count."""
    given = (0, 0, 0) if attr is None else (1, attr.maxmsg, attr.msgsize)
    return struct.pack(">BIIBii", 0x28, oflag, mode, *given) + os.fsencode(name)


def mq_unlink_request(name: str | bytes) -> bytes:
    return b"\x29" + os.fsencode(name)


def mq_send_request(mqdes: int, text: bytes, priority: int = 0, deadline: float | None = None) -> bytes:
    """The deadline is in seconds, as time.time() has them."""
    return struct.pack(">BIQI", 0x2A, mqdes, _milliseconds(deadline), priority) + text


def mq_receive_request(mqdes: int, size: int, deadline: float | None = None) -> bytes:
    """The deadline is in seconds, as time.time() has them."""
    return struct.pack(">BIQI", 0x2B, mqdes, _milliseconds(deadline), size)


def mq_notify_request(mqdes: int, kind: int, cookie: int = 0) -> bytes:
    return struct.pack(">BIII", 0x2C, mqdes, kind, cookie)


def mq_getattr_request(mqdes: int) -> bytes:
    return struct.pack(">BI", 0x2D, mqdes)


def mq_setattr_request(mqdes: int, flags: int) -> bytes:
    return struct.pack(">BII", 0x2E, mqdes, flags)


def sem_open_request(name: str | bytes, oflag: int, mode: int = 0, value: int = 0) -> bytes:
    return struct.pack(">BIII", 0x32, oflag, mode, value) + os.fsencode(name)


def sem_unlink_request(name: str | bytes) -> bytes:
    return b"\x33" + os.fsencode(name)


def sem_post_request(sem: int) -> bytes:
    return struct.pack(">BI", 0x34, sem)


def sem_wait_request(sem: int, deadline: float | None = None) -> bytes:
    """The deadline is in seconds, as time.time() has them."""
    return struct.pack(">BIQ", 0x35, sem, _milliseconds(deadline))


def sem_trywait_request(sem: int) -> bytes:
    return struct.pack(">BI", 0x36, sem)


def sem_getvalue_request(sem: int) -> bytes:
    return struct.pack(">BI", 0x37, sem)


def shm_open_request(name: str | bytes, oflag: int, mode: int = 0) -> bytes:
    return struct.pack(">BII", 0x3C, oflag, mode) + os.fsencode(name)


def shm_unlink_request(name: str | bytes) -> bytes:
    return b"\x3d" + os.fsencode(name)


def ftruncate_request(fd: int, length: int) -> bytes:
    return struct.pack(">BIQ", 0x3E, fd, length)


def shm_read_request(fd: int, offset: int, length: int) -> bytes:
    return struct.pack(">BIQI", 0x3F, fd, offset, length)


def shm_write_request(fd: int, offset: int, data: bytes) -> bytes:
    return struct.pack(">BIQ", 0x40, fd, offset) + data


def shm_stat_request(fd: int) -> bytes:
    return struct.pack(">BI", 0x41, fd)


def shmget_request(key: int, size: int, shmflg: int) -> bytes:
    return struct.pack(">BiQI", 0x46, key, size, shmflg)


def shmat_request(shmid: int, shmflg: int = 0) -> bytes:
    return struct.pack(">BII", 0x47, shmid, shmflg)


def shmdt_request(attachment: int) -> bytes:
    return struct.pack(">BI", 0x48, attachment)


def shmctl_stat_request(shmid: int) -> bytes:
    return struct.pack(">BI", 0x49, shmid)


def shmctl_set_request(shmid: int, uid: int, gid: int, mode: int) -> bytes:
    return struct.pack(">BIIII", 0x4A, shmid, uid, gid, mode)


def shmctl_rmid_request(shmid: int) -> bytes:
    return struct.pack(">BI", 0x4B, shmid)


def attached_read_request(attachment: int, offset: int, length: int) -> bytes:
    return struct.pack(">BIQI", 0x4C, attachment, offset, length)


def attached_write_request(attachment: int, offset: int, data: bytes) -> bytes:
    return struct.pack(">BIQ", 0x4D, attachment, offset) + data


def _milliseconds(seconds: float | None) -> int:
    """In a request a time is in milliseconds, and the greatest number is none."""
    return 2**64 - 1 if seconds is None else round(1000 * seconds)


def greeting(body: bytes) -> tuple[int, int | None] | None:
    """The pid and the version that the body of a reply to HELLO has, or nothing if it is too short for a pid. A server
    on a device of version 1 or 2 sends the pid alone, and a later one may send more than the version."""
    if len(body) < 4:
        return None
    version = int.from_bytes(body[4:8], "big") if len(body) >= 8 else None
    return int.from_bytes(body[:4], "big"), version


# How the records stand in a body.
QUEUE_FORM, SET_FORM, ATTR_FORM, SEGMENT_FORM = ">iIIIIIQQQIIIII", ">iIIIIIQQI", ">IIII", ">QIII"
SYSTEM_V_SEGMENT_FORM = ">iIIIIIQQQIIIQ"


class QueueStat(NamedTuple):
    """What IPC_STAT tells of a queue, see msgctl(2). Times are in milliseconds, and 0 is never."""

    key: int
    uid: int
    gid: int
    cuid: int
    cgid: int
    mode: int
    stime: int
    rtime: int
    ctime: int
    lspid: int
    lrpid: int
    qbytes: int
    qnum: int
    cbytes: int


class SemStat(NamedTuple):
    """What IPC_STAT tells of a semaphore set, see semctl(2). Times are in milliseconds, and 0 is never."""

    key: int
    uid: int
    gid: int
    cuid: int
    cgid: int
    mode: int
    otime: int
    ctime: int
    nsems: int


class ShmStat(NamedTuple):
    """What fstat(2) tells of a shared memory segment."""

    length: int
    uid: int
    gid: int
    mode: int


class ShmidStat(NamedTuple):
    """What IPC_STAT tells of a System V segment, see shmctl(2). Times are in milliseconds, and 0 is never. The mode has
    SHM_DEST too, and the key is 0, if it was removed and is still attached."""

    key: int
    uid: int
    gid: int
    cuid: int
    cgid: int
    mode: int
    atime: int
    dtime: int
    ctime: int
    cpid: int
    lpid: int
    nattch: int
    segsz: int
