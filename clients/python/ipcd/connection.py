"""A connection to a server: a method for each call, and how requests, replies and notifications pass.

A refused call raises OSError with the error number of the manual page: BlockingIOError for EAGAIN,
FileNotFoundError for ENOENT, PermissionError for EACCES and EPERM, and so on. If the connection ends
it is a ConnectionError.

Without IPC_NOWAIT msgsnd waits until the queue has room, and msgrcv until there is a message for it.
If the queue is removed meanwhile that is an OSError with EIDRM. After `timeout` seconds, if they are
given, the client interrupts its call, which raises InterruptedError then (EINTR).

    try:
        mtype, mtext = connection.msgrcv(queue, 64, timeout=2.5)
    except InterruptedError:
        print("no message yet")

A signal handler or another thread may interrupt the call that waits, by `interrupt`. After an
exception that broke a wait off, as KeyboardInterrupt does, the call still waits: `interrupt` ends it,
and `receive` gives its reply, which may be a message that came first.

Semaphore sets have semget(2), a method for each command of semctl(2), and semop(2), which performs a
list of operations whole or not at all, and waits until it can. This example makes a set of two semaphores,
gives them values, and subtracts 1 from each. `semctl_getall` answers [0, 4] then, and [1, 5] once the
connection has ended, in whatever way: SEM_UNDO gives back what a process has taken.

    gates = connection.semget(1234, 2, IPC_CREAT | 0o600)
    connection.semctl_setall(gates, [1, 5])
    connection.semop(gates, [(0, -1, SEM_UNDO), (1, -1, SEM_UNDO)])
    connection.semctl_getall(gates)

The server itself ends a list that waits after `timeout` seconds, as semtimedop(2) has it: that is a
BlockingIOError (EAGAIN).

POSIX message queues have names, and mq_open(3) answers a descriptor. `timeout` is in seconds: a send
to a full queue, or a receive from an empty one, that waits longer is a TimeoutError (ETIMEDOUT).

    jobs = connection.mq_open("/jobs", O_CREAT | O_RDWR, 0o600, MqAttr(maxmsg=4, msgsize=64))
    connection.mq_send(jobs, b"sweep", priority=5)
    priority, text = connection.mq_receive(jobs, 64, timeout=2.5)

A process may ask for one notification when a message comes to an empty queue. The notification may
come before the reply to a call, and is kept until `notification` returns it.

    connection.mq_notify(jobs, NOTIFY_FRAME, cookie=7)
    descriptor, cookie = connection.notification()

Named semaphores and shared memory segments have names too, and sem_open(3) and shm_open(3) answer a
descriptor. A wait at a value of 0 ends after a post; `timeout` is as that of a POSIX queue. A new
segment has no bytes until ftruncate(2) makes it longer; what it gains is 0.

    ready = connection.sem_open("/ready", O_CREAT, 0o600, value=0)
    table = connection.shm_open("/table", O_CREAT | O_RDWR, 0o600)
    connection.ftruncate(table, 4096)
    connection.shm_write(table, 8, b"row")
    connection.sem_post(ready)

Another client that has opened both waits, and reads what was written before the post.

    connection.sem_wait(ready, timeout=2.5)
    connection.shm_read(table, 8, 3)

System V segments have shmget(2), a method for each command of shmctl(2), and shmat and shmdt of shmop(2).
shmat answers a descriptor, the attachment, by which the bytes are read and written. A segment that is
removed goes with its last attachment; all of a connection go with it.

    segment = connection.shmget(1234, 4096, IPC_CREAT | 0o600)
    attachment = connection.shmat(segment)
    connection.attached_write(attachment, 8, b"row")
    connection.attached_read(attachment, 8, 3)
    connection.shmdt(attachment)

A client that need not wait for each reply sends some requests ahead, and then receives the replies,
which come in the same order if no call waits.

    for text in texts:
        connection.send(msgsnd_request(queue, 5, text, IPC_NOWAIT))
    for text in texts:
        serial, errno, body = connection.receive()

The server takes no more of the requests of a client whose replies nobody reads. So `send` reads while
it cannot write: it keeps the replies that come in the client's memory, until they are received. A
client that does neither this nor count the bytes of its replies may wait for ever.
"""

from __future__ import annotations

import struct
import time
from collections.abc import Sequence

from .stream import PATIENCE, ProtocolError, ServerFault, Stream
from .wire import *  # noqa: F403
from .wire import greeting

__all__ = ["PATIENCE", "Connection", "ProtocolError", "ServerFault"]


class Connection(Stream):
    """A connection to a server. It is a process once it has said hello, until it is closed."""

    # The version of the server's device, 3 or later, after hello. None: the server has told none, as on devices of
    # version 1 and 2.
    version: int | None = None

    def __enter__(self) -> Connection:
        return self

    def __exit__(self, *raised: object) -> None:
        self.close()

    def hello(self, uid: int, gid: int) -> int:
        """Makes the connection a process of this user and group, and answers its pid. `version` is what the server
        tells with it."""
        told = greeting(self.call(hello_request(uid, gid)))
        if told is None:
            self._breaks("a body of another size")
        pid, self.version = told
        return pid

    def msgget(self, key: int, msgflg: int) -> int:
        """The identifier of the queue with this key, see msgget(2)."""
        return self._number(msgget_request(key, msgflg))

    def msgsnd(
        self, msqid: int, mtype: int, mtext: bytes, msgflg: int = 0, timeout: float | None = None
    ) -> None:
        """Appends a message to the queue, see msgop(2)."""
        self._done(msgsnd_request(msqid, mtype, mtext, msgflg), timeout)

    def msgrcv(
        self, msqid: int, msgsz: int, msgtyp: int = 0, msgflg: int = 0, timeout: float | None = None
    ) -> tuple[int, bytes]:
        """Takes a message off the queue: its type and its text, see msgop(2)."""
        body = self.call(msgrcv_request(msqid, msgsz, msgtyp, msgflg), timeout)
        return self._number_and_text(">q", body, msgsz)

    def msgctl_stat(self, msqid: int) -> QueueStat:
        """What there is to know of a queue, IPC_STAT of msgctl(2)."""
        body = self.call(msgctl_stat_request(msqid))
        return QueueStat(*self._fields(QUEUE_FORM, body))

    def msgctl_set(self, msqid: int, uid: int, gid: int, mode: int, qbytes: int) -> None:
        """Gives a queue another owner, mode and number of bytes, IPC_SET of msgctl(2)."""
        self._done(msgctl_set_request(msqid, uid, gid, mode, qbytes))

    def msgctl_rmid(self, msqid: int) -> None:
        """Removes a queue with its messages, IPC_RMID of msgctl(2)."""
        self._done(msgctl_rmid_request(msqid))

    def semget(self, key: int, nsems: int, semflg: int) -> int:
        """The identifier of the semaphore set with this key, see semget(2)."""
        return self._number(semget_request(key, nsems, semflg))

    def semop(self, semid: int, sops: Sequence[Operation], timeout: float | None = None) -> None:
        """Performs operations on the semaphores of a set, all of them or none, see semop(2). It waits until
        it can, and `timeout` seconds at most, if they are given: then it is EAGAIN."""
        self._done(semop_request(semid, sops, timeout))

    def semctl_getval(self, semid: int, semnum: int) -> int:
        """The value of a semaphore, GETVAL of semctl(2)."""
        return self._number(semctl_getval_request(semid, semnum))

    def semctl_getpid(self, semid: int, semnum: int) -> int:
        """The process that last set a semaphore or named it in a list, and 0 if none has, GETPID of semctl(2)."""
        return self._number(semctl_getpid_request(semid, semnum))

    def semctl_getncnt(self, semid: int, semnum: int) -> int:
        """How many calls wait until a semaphore has a higher value, GETNCNT of semctl(2)."""
        return self._number(semctl_getncnt_request(semid, semnum))

    def semctl_getzcnt(self, semid: int, semnum: int) -> int:
        """How many calls wait until the value of a semaphore is 0, GETZCNT of semctl(2)."""
        return self._number(semctl_getzcnt_request(semid, semnum))

    def semctl_setval(self, semid: int, semnum: int, value: int) -> None:
        """Gives a semaphore a value, from 0 to 32767, SETVAL of semctl(2)."""
        self._done(semctl_setval_request(semid, semnum, value))

    def semctl_getall(self, semid: int) -> list[int]:
        """The values of all semaphores of a set, GETALL of semctl(2)."""
        body = self.call(semctl_getall_request(semid))
        return list(self._fields(f">{len(body) // 2}H", body))

    def semctl_setall(self, semid: int, values: Sequence[int]) -> None:
        """Gives each semaphore of a set its value, SETALL of semctl(2). There are as many as it has semaphores."""
        self._done(semctl_setall_request(semid, values))

    def semctl_stat(self, semid: int) -> SemStat:
        """What there is to know of a semaphore set, IPC_STAT of semctl(2)."""
        return SemStat(*self._fields(SET_FORM, self.call(semctl_stat_request(semid))))

    def semctl_set(self, semid: int, uid: int, gid: int, mode: int) -> None:
        """Gives a semaphore set another owner and mode, IPC_SET of semctl(2)."""
        self._done(semctl_set_request(semid, uid, gid, mode))

    def semctl_rmid(self, semid: int) -> None:
        """Removes a semaphore set, IPC_RMID of semctl(2). Calls that wait for it are EIDRM."""
        self._done(semctl_rmid_request(semid))

    def mq_open(self, name: str | bytes, oflag: int, mode: int = 0, attr: MqAttr | None = None) -> int:
        """A descriptor of the POSIX queue with this name, see mq_open(3)."""
        return self._number(mq_open_request(name, oflag, mode, attr))

    def mq_close(self, mqdes: int) -> None:
        """Closes a descriptor, see mq_close(3)."""
        self._done(close_request(mqdes))

    def mq_unlink(self, name: str | bytes) -> None:
        """Takes the name off a queue, which goes with its last descriptor, see mq_unlink(3)."""
        self._done(mq_unlink_request(name))

    def mq_send(self, mqdes: int, text: bytes, priority: int = 0, timeout: float | None = None) -> None:
        """Appends a message to the queue, see mq_send(3). It waits while the queue is full, `timeout` seconds at
        most, if they are given: then it is ETIMEDOUT."""
        self._done(mq_send_request(mqdes, text, priority, _deadline(timeout)))

    def mq_receive(self, mqdes: int, size: int, timeout: float | None = None) -> tuple[int, bytes]:
        """Takes the oldest message of the greatest priority off the queue: the priority and the text, see
        mq_receive(3). It waits while the queue is empty, as mq_send does while it is full."""
        body = self.call(mq_receive_request(mqdes, size, _deadline(timeout)))
        return self._number_and_text(">I", body, size)

    def mq_notify(self, mqdes: int, kind: int, cookie: int = 0) -> None:
        """Asks to be told of the next message that comes to the queue while it is empty, see mq_notify(3)."""
        self._done(mq_notify_request(mqdes, kind, cookie))

    def mq_getattr(self, mqdes: int) -> MqAttr:
        """What there is to know of a queue, see mq_getattr(3)."""
        return MqAttr(*self._fields(ATTR_FORM, self.call(mq_getattr_request(mqdes))))

    def mq_setattr(self, mqdes: int, flags: int) -> MqAttr:
        """Sets or clears O_NONBLOCK of a descriptor, see mq_setattr(3). Answers what was so before."""
        return MqAttr(*self._fields(ATTR_FORM, self.call(mq_setattr_request(mqdes, flags))))

    def sem_open(self, name: str | bytes, oflag: int, mode: int = 0, value: int = 0) -> int:
        """A descriptor of the semaphore with this name, see sem_open(3). One that is there keeps its mode and value."""
        return self._number(sem_open_request(name, oflag, mode, value))

    def sem_close(self, sem: int) -> None:
        """Closes a descriptor, see sem_close(3)."""
        self._done(close_request(sem))

    def sem_unlink(self, name: str | bytes) -> None:
        """Takes the name off a semaphore, which goes with its last descriptor, see sem_unlink(3)."""
        self._done(sem_unlink_request(name))

    def sem_post(self, sem: int) -> None:
        """Adds 1 to the value of a semaphore, see sem_post(3)."""
        self._done(sem_post_request(sem))

    def sem_wait(self, sem: int, timeout: float | None = None) -> None:
        """Takes 1 off the value of a semaphore, see sem_wait(3). It waits while the value is 0, `timeout` seconds at
        most, if they are given: then it is ETIMEDOUT."""
        self._done(sem_wait_request(sem, _deadline(timeout)))

    def sem_trywait(self, sem: int) -> None:
        """The same, but at a value of 0 it is EAGAIN."""
        self._done(sem_trywait_request(sem))

    def sem_getvalue(self, sem: int) -> int:
        """The value of a semaphore, see sem_getvalue(3)."""
        return self._number(sem_getvalue_request(sem))

    def shm_open(self, name: str | bytes, oflag: int, mode: int = 0) -> int:
        """A descriptor of the shared memory segment with this name, see shm_open(3)."""
        return self._number(shm_open_request(name, oflag, mode))

    def shm_close(self, fd: int) -> None:
        """Closes a descriptor, see close(2)."""
        self._done(close_request(fd))

    def shm_unlink(self, name: str | bytes) -> None:
        """Takes the name off a segment, which goes with its last descriptor, see shm_unlink(3)."""
        self._done(shm_unlink_request(name))

    def ftruncate(self, fd: int, length: int) -> None:
        """Cuts a segment to so many bytes, or adds bytes of 0 up to there, see ftruncate(2)."""
        self._done(ftruncate_request(fd, length))

    def shm_read(self, fd: int, offset: int, length: int) -> bytes:
        """So many bytes of a segment from an offset on, all of them within it. It is to a segment as pread(2) to a
        file, but EINVAL past the end."""
        return self._exactly(length, shm_read_request(fd, offset, length))

    def shm_write(self, fd: int, offset: int, data: bytes) -> None:
        """Puts these bytes into a segment at an offset, all of them within it, as pwrite(2) into a file. Past the end
        it is EINVAL, and nothing is written."""
        self._done(shm_write_request(fd, offset, data))

    def shm_stat(self, fd: int) -> ShmStat:
        """How long a segment is, its owner and its mode, see fstat(2)."""
        return ShmStat(*self._fields(SEGMENT_FORM, self.call(shm_stat_request(fd))))

    def shmget(self, key: int, size: int, shmflg: int) -> int:
        """The identifier of the System V segment with this key, see shmget(2)."""
        return self._number(shmget_request(key, size, shmflg))

    def shmat(self, shmid: int, shmflg: int = 0) -> int:
        """Attaches a System V segment, to be read alone with SHM_RDONLY: the descriptor that stands for the address
        of shmop(2)."""
        return self._number(shmat_request(shmid, shmflg))

    def shmdt(self, attachment: int) -> None:
        """Gives an attachment up, see shmop(2)."""
        self._done(shmdt_request(attachment))

    def shmctl_stat(self, shmid: int) -> ShmidStat:
        """What there is to know of a System V segment, IPC_STAT of shmctl(2)."""
        return ShmidStat(*self._fields(SYSTEM_V_SEGMENT_FORM, self.call(shmctl_stat_request(shmid))))

    def shmctl_set(self, shmid: int, uid: int, gid: int, mode: int) -> None:
        """Gives a System V segment another owner and mode, IPC_SET of shmctl(2)."""
        self._done(shmctl_set_request(shmid, uid, gid, mode))

    def shmctl_rmid(self, shmid: int) -> None:
        """Removes a System V segment, which goes with its last attachment, IPC_RMID of shmctl(2)."""
        self._done(shmctl_rmid_request(shmid))

    def attached_read(self, attachment: int, offset: int, length: int) -> bytes:
        """So many bytes of what is attached from an offset on, all of them within it, else EINVAL."""
        return self._exactly(length, attached_read_request(attachment, offset, length))

    def attached_write(self, attachment: int, offset: int, data: bytes) -> None:
        """Puts these bytes into what is attached at an offset, all of them within it, else EINVAL, and nothing is
        written."""
        self._done(attached_write_request(attachment, offset, data))

    def _exactly(self, length: int, request: bytes) -> bytes:
        """Makes a call that is answered so many bytes."""
        body = self.call(request)
        if len(body) != length:
            self._breaks("other bytes than were asked")
        return body

    def _done(self, request: bytes, timeout: float | None = None) -> None:
        """Makes a call whose reply has no body."""
        if self.call(request, timeout):
            self._breaks("a body where none is")

    def _number(self, request: bytes) -> int:
        """Makes a call that is answered one number."""
        return self._fields(">I", self.call(request))[0]

    def _fields(self, form: str, body: bytes) -> tuple[int, ...]:
        """The numbers of a body."""
        if len(body) != struct.calcsize(form):
            self._breaks("a body of another size")
        return struct.unpack(form, body)

    def _number_and_text(self, form: str, body: bytes, most: int) -> tuple[int, bytes]:
        """The number that a body begins with, and the rest of it, which has as many bytes at most."""
        size = struct.calcsize(form)
        if len(body) > size + most:
            self._breaks("a longer text than was asked")
        return self._fields(form, body[:size])[0], body[size:]


def _deadline(timeout: float | None) -> float | None:
    return None if timeout is None else time.time() + timeout
