"""A connection to a server for asyncio: each call of `ipcd.connection.Connection` as a coroutine.

    from ipcd import IPC_CREAT, aio

    async with await aio.Connection.connect("/run/ipcd/socket") as connection:
        await connection.hello(uid=1000, gid=100)
        queue = await connection.msgget(1234, IPC_CREAT | 0o600)
        await connection.msgsnd(queue, 5, b"hi")
        mtype, text = await asyncio.wait_for(connection.msgrcv(queue, 64), 2.5)

Names, arguments, results and exceptions are those of `ipcd.connection`, and so are `timeout` of semop, mq_send,
mq_receive and sem_wait, which the server keeps. msgsnd and msgrcv have none: cancel them, as asyncio.wait_for does.

Tasks may call at once. Requests are sent in the order in which the calls begin, without waiting for replies, so
asyncio.gather sends ahead. The server has one waiting call of a connection at a time: until it ends each other call is
EALREADY (OSError), so a task that waits has a connection of its own.

A cancelled call that waits is interrupted, and the cancellation continues once the server has answered. If the call
was done before, its result is not lost:

- a message of msgrcv or mq_receive is kept, and the next receive of the same queue by this connection gets it, if its
  type allows it;
- what sem_wait has subtracted is added again, and what a list of semop has done is undone by the opposite list, which
  does not wait;
- what msgsnd or mq_send has sent stays sent.
"""

from __future__ import annotations

import asyncio
import errno
import os
import struct
from collections import deque
from collections.abc import Awaitable, Callable, Sequence
from contextlib import suppress
from types import TracebackType
from typing import NoReturn

from .connection import _deadline
from .stream import PATIENCE, ProtocolError, ServerFault
from .wire import *  # noqa: F403
from .wire import LONGEST_REQUEST, TOO_LONG, greeting

__all__ = ["Connection"]

# What is done with the body of a reply to a call that was cancelled.
Late = Callable[[bytes], Awaitable[None]]


class Connection:
    """A connection to a server, which `connect` makes. It is a process once it has said hello, until it is closed."""

    # As that of `ipcd.connection.Connection`.
    version: int | None = None

    def __init__(self, reader: asyncio.StreamReader, writer: asyncio.StreamWriter, patience: float) -> None:
        self._reader, self._writer, self._patience = reader, writer, patience
        self._serial = 0
        self._replies: dict[int, asyncio.Future[bytes]] = {}
        self._ended: ConnectionError | None = None
        self._notifications: asyncio.Queue[tuple[int, int] | None] = asyncio.Queue()
        # Messages whose receives were cancelled, by the identifiers of queues and the descriptors of POSIX queues.
        self._messages: dict[int, deque[tuple[int, bytes]]] = {}
        self._posix_messages: dict[int, deque[tuple[int, bytes]]] = {}
        self._reading = asyncio.ensure_future(self._read())

    @classmethod
    async def connect(cls, path: str, patience: float = PATIENCE) -> Connection:
        """Connects to a socket. A cancelled call is answered within `patience` seconds, or the connection ends."""
        reader, writer = await asyncio.open_unix_connection(path)
        return cls(reader, writer, patience)

    async def __aenter__(self) -> Connection:
        return self

    async def __aexit__(
        self, kind: type[BaseException] | None, raised: BaseException | None, trace: TracebackType | None
    ) -> None:
        await self.close()

    async def close(self) -> None:
        """Ends the process. Replies that have not come are lost."""
        self._end(ConnectionResetError(errno.ECONNRESET, "the connection is closed"))
        await asyncio.wait([self._reading])

    @property
    def closed(self) -> bool:
        """Whether the connection is closed, by `close` or by what the server has sent."""
        return self._ended is not None

    async def notification(self) -> tuple[int, int]:
        """The next notification: the descriptor that registered, and its cookie."""
        told = await self._notifications.get()
        if told is None:
            self._notifications.put_nowait(None)
            raise self._how_it_ended()
        return told

    async def interrupt(self) -> None:
        """Ends the call that waits, if one does: it is EINTR, unless its reply came first."""
        await self._done(interrupt_request())

    async def call(self, request: bytes, waits: bool = False, late: Late | None = None) -> bytes:
        """Sends a request, and answers the body of its reply. If a call that may wait is cancelled, it is interrupted;
        what came first all the same goes to `late`."""
        reply = self._send(request)
        try:
            return await asyncio.shield(reply)
        except asyncio.CancelledError:
            if not reply.cancelled():
                await self._withdraw(reply, waits, late)
            raise

    def _send(self, request: bytes) -> asyncio.Future[bytes]:
        if 8 + len(request) > LONGEST_REQUEST:
            refusal = TOO_LONG[request[0]]
            raise OSError(refusal, os.strerror(refusal))
        if self._ended is not None:
            raise self._how_it_ended()
        serial = self._serial = self._serial % 0xFFFFFFFF + 1
        reply: asyncio.Future[bytes] = asyncio.get_running_loop().create_future()
        # A failure that nobody waits for is no news.
        reply.add_done_callback(lambda it: it.cancelled() or it.exception())
        self._replies[serial] = reply
        self._writer.write(struct.pack(">II", 4 + len(request), serial) + request)
        return reply

    async def _withdraw(self, reply: asyncio.Future[bytes], waits: bool, late: Late | None) -> None:
        """Waits for the end of a cancelled call, whatever else is cancelled meanwhile."""
        if waits and not reply.done():
            with suppress(ConnectionError):
                self._send(interrupt_request())
        settled = asyncio.ensure_future(self._settle(reply, late))
        while not settled.done():
            with suppress(asyncio.CancelledError):
                await asyncio.shield(settled)

    async def _settle(self, reply: asyncio.Future[bytes], late: Late | None) -> None:
        done, _ = await asyncio.wait([reply], timeout=self._patience)
        if not done:
            self._end(ConnectionResetError(errno.ETIMEDOUT, "the server does not answer"))
        elif reply.exception() is None and late is not None:
            # An object may be gone meanwhile, and so what was taken of it.
            with suppress(OSError):
                await late(reply.result())

    async def _read(self) -> None:
        """Takes frames until the connection ends."""
        try:
            while self._ended is None:
                size = int.from_bytes(await self._reader.readexactly(4), "big")
                if not 6 <= size <= LONGEST_REQUEST - 4:
                    self._breaks("a frame of another length")
                frame = await self._reader.readexactly(size)
                serial, error = struct.unpack(">IH", frame[:6])
                self._take(serial, error, frame[6:])
        except ConnectionError as ended:
            self._end(ended)
        except asyncio.IncompleteReadError:
            self._end(ConnectionResetError(errno.ECONNRESET, "the server has ended the connection"))

    def _take(self, serial: int, error: int, body: bytes) -> None:
        if error == errno.EPROTO or (serial == 0 and error):
            raise ServerFault(error, os.strerror(error))
        if serial == 0:
            if len(body) != 8:
                self._breaks("a notification of another size")
            descriptor, cookie = struct.unpack(">II", body)
            self._notifications.put_nowait((descriptor, cookie))
            return
        reply = self._replies.pop(serial, None)
        if reply is None:
            self._breaks("a reply to no request")
        elif error and body:
            self._replies[serial] = reply
            self._breaks("a refusal that has a body")
        elif error:
            reply.set_exception(OSError(error, os.strerror(error)))
        else:
            reply.set_result(body)

    def _breaks(self, what: str) -> NoReturn:
        """The server has sent this, which is against the protocol."""
        broken = ProtocolError(errno.EPROTO, f"the server has sent {what}")
        self._end(broken)
        raise broken

    def _how_it_ended(self) -> ConnectionError:
        """An exception of its own for each who asks."""
        ended = self._ended or ConnectionResetError(errno.ECONNRESET, "the connection is closed")
        return type(ended)(*ended.args)

    def _end(self, how: ConnectionError) -> None:
        if self._ended is not None:
            return
        self._ended = how
        self._writer.close()
        self._reading.cancel()
        self._notifications.put_nowait(None)
        for reply in self._replies.values():
            if not reply.done():
                reply.set_exception(self._how_it_ended())
        self._replies.clear()

    async def _done(self, request: bytes, waits: bool = False, late: Late | None = None) -> None:
        """Makes a call whose reply has no body."""
        if await self.call(request, waits, late):
            self._breaks("a body where none is")

    async def _number(self, request: bytes) -> int:
        """Makes a call that is answered one number."""
        return self._fields(">I", await self.call(request))[0]

    def _fields(self, form: str, body: bytes) -> tuple[int, ...]:
        if len(body) != struct.calcsize(form):
            self._breaks("a body of another size")
        return struct.unpack(form, body)

    def _message(self, form: str, body: bytes) -> tuple[int, bytes]:
        """The number that a body begins with, and the rest of it."""
        size = struct.calcsize(form)
        return self._fields(form, body[:size])[0], body[size:]

    async def _exactly(self, length: int, request: bytes) -> bytes:
        body = await self.call(request)
        if len(body) != length:
            self._breaks("other bytes than were asked")
        return body

    async def hello(self, uid: int, gid: int) -> int:
        """Makes the connection a process of this user and group: its pid. The server may tell its `version` with it."""
        told = greeting(await self.call(hello_request(uid, gid)))
        if told is None:
            self._breaks("a body of another size")
        pid, self.version = told
        return pid

    async def msgget(self, key: int, msgflg: int) -> int:
        """The identifier of the queue with this key, see msgget(2)."""
        return await self._number(msgget_request(key, msgflg))

    async def msgsnd(self, msqid: int, mtype: int, mtext: bytes, msgflg: int = 0) -> None:
        """Appends a message to a queue, see msgop(2). It waits while the queue is full."""
        await self._done(msgsnd_request(msqid, mtype, mtext, msgflg), not msgflg & IPC_NOWAIT)

    async def msgrcv(self, msqid: int, msgsz: int, msgtyp: int = 0, msgflg: int = 0) -> tuple[int, bytes]:
        """Takes a message off a queue: its type and its text, see msgop(2). It waits until there is one."""
        kept = self._kept(self._messages.get(msqid), msgsz, msgtyp, msgflg)
        if kept is not None:
            return kept

        async def keep(body: bytes) -> None:
            self._messages.setdefault(msqid, deque()).append(self._message(">q", body))

        body = await self.call(msgrcv_request(msqid, msgsz, msgtyp, msgflg), not msgflg & IPC_NOWAIT, keep)
        return self._message(">q", body)

    @staticmethod
    def _kept(
        messages: deque[tuple[int, bytes]] | None, msgsz: int, msgtyp: int, msgflg: int
    ) -> tuple[int, bytes] | None:
        """The first of these messages that the type allows, as a server would answer it."""
        for mtype, text in messages or ():
            if msgtyp > 0 and msgflg & MSG_EXCEPT:
                allows = mtype != msgtyp
            else:
                allows = msgtyp == 0 or mtype == msgtyp or (msgtyp < 0 and mtype <= -msgtyp)
            if allows:
                if len(text) > msgsz and not msgflg & MSG_NOERROR:
                    raise OSError(errno.E2BIG, os.strerror(errno.E2BIG))
                assert messages is not None
                messages.remove((mtype, text))
                return mtype, text[:msgsz]
        return None

    async def msgctl_stat(self, msqid: int) -> QueueStat:
        """What there is to know of a queue, IPC_STAT of msgctl(2)."""
        return QueueStat(*self._fields(QUEUE_FORM, await self.call(msgctl_stat_request(msqid))))

    async def msgctl_set(self, msqid: int, uid: int, gid: int, mode: int, qbytes: int) -> None:
        """Gives a queue another owner, mode and size, IPC_SET of msgctl(2)."""
        await self._done(msgctl_set_request(msqid, uid, gid, mode, qbytes))

    async def msgctl_rmid(self, msqid: int) -> None:
        """Removes a queue, IPC_RMID of msgctl(2). Calls that wait for it are EIDRM."""
        self._messages.pop(msqid, None)
        await self._done(msgctl_rmid_request(msqid))

    async def semget(self, key: int, nsems: int, semflg: int) -> int:
        """The identifier of the semaphore set with this key, see semget(2)."""
        return await self._number(semget_request(key, nsems, semflg))

    async def semop(self, semid: int, sops: Sequence[Operation], timeout: float | None = None) -> None:
        """Performs a list of operations as a whole, see semop(2). It waits until it can, `timeout` seconds at most, if
        they are given: then it is EAGAIN."""

        async def give_back(_: bytes) -> None:
            opposite = [(num, -op, (flags[0] if flags else 0) | IPC_NOWAIT) for num, op, *flags in reversed(sops) if op]
            if opposite:
                await self.call(semop_request(semid, opposite))

        await self._done(semop_request(semid, sops, timeout), True, give_back)

    async def semctl_getval(self, semid: int, semnum: int) -> int:
        """The value of a semaphore, GETVAL of semctl(2)."""
        return await self._number(semctl_getval_request(semid, semnum))

    async def semctl_getpid(self, semid: int, semnum: int) -> int:
        """The process that set a semaphore last, or 0, GETPID of semctl(2)."""
        return await self._number(semctl_getpid_request(semid, semnum))

    async def semctl_getncnt(self, semid: int, semnum: int) -> int:
        """How many calls wait for a greater value, GETNCNT of semctl(2)."""
        return await self._number(semctl_getncnt_request(semid, semnum))

    async def semctl_getzcnt(self, semid: int, semnum: int) -> int:
        """How many calls wait for 0, GETZCNT of semctl(2)."""
        return await self._number(semctl_getzcnt_request(semid, semnum))

    async def semctl_setval(self, semid: int, semnum: int, value: int) -> None:
        """Gives a semaphore a value, SETVAL of semctl(2)."""
        await self._done(semctl_setval_request(semid, semnum, value))

    async def semctl_getall(self, semid: int) -> list[int]:
        """The values of all semaphores of a set, GETALL of semctl(2)."""
        body = await self.call(semctl_getall_request(semid))
        return list(self._fields(f">{len(body) // 2}H", body))

    async def semctl_setall(self, semid: int, values: Sequence[int]) -> None:
        """Gives all semaphores of a set their values, SETALL of semctl(2)."""
        await self._done(semctl_setall_request(semid, values))

    async def semctl_stat(self, semid: int) -> SemStat:
        """What there is to know of a set, IPC_STAT of semctl(2)."""
        return SemStat(*self._fields(SET_FORM, await self.call(semctl_stat_request(semid))))

    async def semctl_set(self, semid: int, uid: int, gid: int, mode: int) -> None:
        """Gives a set another owner and mode, IPC_SET of semctl(2)."""
        await self._done(semctl_set_request(semid, uid, gid, mode))

    async def semctl_rmid(self, semid: int) -> None:
        """Removes a set, IPC_RMID of semctl(2). Calls that wait for it are EIDRM."""
        await self._done(semctl_rmid_request(semid))

    async def mq_open(self, name: str | bytes, oflag: int, mode: int = 0, attr: MqAttr | None = None) -> int:
        """A descriptor of the POSIX queue with this name, see mq_open(3)."""
        return await self._number(mq_open_request(name, oflag, mode, attr))

    async def mq_close(self, mqdes: int) -> None:
        """Closes a descriptor, see mq_close(3)."""
        self._posix_messages.pop(mqdes, None)
        await self._done(close_request(mqdes))

    async def mq_unlink(self, name: str | bytes) -> None:
        """Takes the name off a queue, see mq_unlink(3)."""
        await self._done(mq_unlink_request(name))

    async def mq_send(self, mqdes: int, text: bytes, priority: int = 0, timeout: float | None = None) -> None:
        """Appends a message to the queue, see mq_send(3). It waits while the queue is full, `timeout` seconds at
        most, if they are given: then it is ETIMEDOUT."""
        await self._done(mq_send_request(mqdes, text, priority, _deadline(timeout)), True)

    async def mq_receive(self, mqdes: int, size: int, timeout: float | None = None) -> tuple[int, bytes]:
        """Takes the oldest message of the greatest priority off the queue: the priority and the text, see
        mq_receive(3). It waits while the queue is empty, as mq_send does while it is full."""
        kept = self._posix_messages.get(mqdes)
        if kept:
            return kept.popleft()

        async def keep(body: bytes) -> None:
            self._posix_messages.setdefault(mqdes, deque()).append(self._message(">I", body))

        body = await self.call(mq_receive_request(mqdes, size, _deadline(timeout)), True, keep)
        return self._message(">I", body)

    async def mq_notify(self, mqdes: int, kind: int, cookie: int = 0) -> None:
        """Asks for a notification of the next message that comes to the queue while it is empty, see mq_notify(3)."""
        await self._done(mq_notify_request(mqdes, kind, cookie))

    async def mq_getattr(self, mqdes: int) -> MqAttr:
        """What there is to know of a queue, see mq_getattr(3)."""
        return MqAttr(*self._fields(ATTR_FORM, await self.call(mq_getattr_request(mqdes))))

    async def mq_setattr(self, mqdes: int, flags: int) -> MqAttr:
        """Sets or clears O_NONBLOCK of a descriptor, see mq_setattr(3). Answers what was so before."""
        return MqAttr(*self._fields(ATTR_FORM, await self.call(mq_setattr_request(mqdes, flags))))

    async def sem_open(self, name: str | bytes, oflag: int, mode: int = 0, value: int = 0) -> int:
        """A descriptor of the semaphore with this name, see sem_open(3)."""
        return await self._number(sem_open_request(name, oflag, mode, value))

    async def sem_close(self, sem: int) -> None:
        """Closes a descriptor, see sem_close(3)."""
        await self._done(close_request(sem))

    async def sem_unlink(self, name: str | bytes) -> None:
        """Takes the name off a semaphore, see sem_unlink(3)."""
        await self._done(sem_unlink_request(name))

    async def sem_post(self, sem: int) -> None:
        """Adds 1 to the value of a semaphore, see sem_post(3)."""
        await self._done(sem_post_request(sem))

    async def sem_wait(self, sem: int, timeout: float | None = None) -> None:
        """Takes 1 off the value of a semaphore, see sem_wait(3). It waits while the value is 0, `timeout` seconds at
        most, if they are given: then it is ETIMEDOUT."""

        async def give_back(_: bytes) -> None:
            await self.call(sem_post_request(sem))

        await self._done(sem_wait_request(sem, _deadline(timeout)), True, give_back)

    async def sem_trywait(self, sem: int) -> None:
        """The same, but at a value of 0 it is EAGAIN."""
        await self._done(sem_trywait_request(sem))

    async def sem_getvalue(self, sem: int) -> int:
        """The value of a semaphore, see sem_getvalue(3)."""
        return await self._number(sem_getvalue_request(sem))

    async def shm_open(self, name: str | bytes, oflag: int, mode: int = 0) -> int:
        """A descriptor of the shared memory segment with this name, see shm_open(3)."""
        return await self._number(shm_open_request(name, oflag, mode))

    async def shm_close(self, fd: int) -> None:
        """Closes a descriptor, see close(2)."""
        await self._done(close_request(fd))

    async def shm_unlink(self, name: str | bytes) -> None:
        """Takes the name off a segment, see shm_unlink(3)."""
        await self._done(shm_unlink_request(name))

    async def ftruncate(self, fd: int, length: int) -> None:
        """Cuts a segment to so many bytes, or adds bytes of 0 up to there, see ftruncate(2)."""
        await self._done(ftruncate_request(fd, length))

    async def shm_read(self, fd: int, offset: int, length: int) -> bytes:
        """So many bytes of a segment from an offset on, all of them within it, else EINVAL."""
        return await self._exactly(length, shm_read_request(fd, offset, length))

    async def shm_write(self, fd: int, offset: int, data: bytes) -> None:
        """Puts these bytes into a segment at an offset, all of them within it, else EINVAL, and nothing is written."""
        await self._done(shm_write_request(fd, offset, data))

    async def shm_stat(self, fd: int) -> ShmStat:
        """How long a segment is, its owner and its mode, see fstat(2)."""
        return ShmStat(*self._fields(SEGMENT_FORM, await self.call(shm_stat_request(fd))))

    async def shmget(self, key: int, size: int, shmflg: int) -> int:
        """The identifier of the System V segment with this key, see shmget(2)."""
        return await self._number(shmget_request(key, size, shmflg))

    async def shmat(self, shmid: int, shmflg: int = 0) -> int:
        """Attaches a System V segment: the descriptor that stands for the address of shmop(2)."""
        return await self._number(shmat_request(shmid, shmflg))

    async def shmdt(self, attachment: int) -> None:
        """Gives an attachment up, see shmop(2)."""
        await self._done(shmdt_request(attachment))

    async def shmctl_stat(self, shmid: int) -> ShmidStat:
        """What there is to know of a System V segment, IPC_STAT of shmctl(2)."""
        return ShmidStat(*self._fields(SYSTEM_V_SEGMENT_FORM, await self.call(shmctl_stat_request(shmid))))

    async def shmctl_set(self, shmid: int, uid: int, gid: int, mode: int) -> None:
        """Gives a System V segment another owner and mode, IPC_SET of shmctl(2)."""
        await self._done(shmctl_set_request(shmid, uid, gid, mode))

    async def shmctl_rmid(self, shmid: int) -> None:
        """Removes a System V segment, which goes with its last attachment, IPC_RMID of shmctl(2)."""
        await self._done(shmctl_rmid_request(shmid))

    async def attached_read(self, attachment: int, offset: int, length: int) -> bytes:
        """So many bytes of what is attached from an offset on, all of them within it, else EINVAL."""
        return await self._exactly(length, attached_read_request(attachment, offset, length))

    async def attached_write(self, attachment: int, offset: int, data: bytes) -> None:
        """Puts these bytes into what is attached at an offset, all of them within it, else EINVAL, and nothing is
        written."""
        await self._done(attached_write_request(attachment, offset, data))
