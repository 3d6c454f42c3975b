"""ipcd.aio on a server: calls of each family, waits that are woken and cancelled, requests sent ahead, and kills.

    python3 clients/python/tests/asynchronous.py PROGRAM

What is expected was computed from docs/PROTOCOL.md. It takes some seconds.
"""

from __future__ import annotations

import asyncio
import errno
import os
import signal
import time
from collections.abc import Awaitable, Callable
from typing import Any

import setting  # noqa: F401
from ipcd import IPC_CREAT, IPC_NOWAIT, NOTIFY_FRAME, O_CREAT, O_RDWR, SEM_UNDO, MqAttr
from ipcd.aio import Connection
from server import Server, check, in_a_folder, of_version_3, printed, run_tests, serving

SECONDS = 60


def equals(found: object, wanted: object) -> None:
    check(found == wanted, f"{found!r}, and not {wanted!r}")


async def connect(**words: float) -> Connection:
    connection = await Connection.connect("socket", **words)
    await connection.hello(1000, 100)
    return connection


async def refused(call: Awaitable[object], number: int) -> None:
    try:
        await asyncio.wait_for(call, SECONDS)
    except OSError as refusal:
        equals(refusal.errno, number)
        return
    raise AssertionError(f"it is done, and not {errno.errorcode[number]}")


async def waits(connection: Connection, call: Awaitable[object]) -> asyncio.Task[Any]:
    """A task whose call waits: another call of the connection is EALREADY."""
    task = asyncio.ensure_future(call)
    end = time.monotonic() + SECONDS
    while True:
        check(time.monotonic() < end and not task.done(), f"{task} does not wait")
        try:
            await connection.semctl_getval(1, 0)
        except OSError as refusal:
            if refusal.errno == errno.EALREADY:
                return task  # type: ignore[return-value]


async def cancelled(task: asyncio.Task[Any]) -> None:
    task.cancel()
    try:
        await asyncio.wait_for(task, SECONDS)
    except asyncio.CancelledError:
        return
    raise AssertionError("it is not cancelled")


def on_a_server(test: Callable[[], Awaitable[None]]) -> Callable[[], None]:
    def tried() -> None:
        printed("format", "--small", "device")
        with serving(limits="small"):
            asyncio.run(asyncio.wait_for(test(), SECONDS))

    tried.__name__ = test.__name__
    return tried


@on_a_server
async def each_family() -> None:
    async with await connect() as c:
        equals(c.version, None)
        queue = await c.msgget(1234, IPC_CREAT | 0o600)
        await c.msgsnd(queue, 5, b"hi")
        equals(await c.msgrcv(queue, 64), (5, b"hi"))
        await refused(c.msgrcv(queue, 64, 0, IPC_NOWAIT), errno.ENOMSG)
        gates = await c.semget(5, 2, IPC_CREAT | 0o600)
        await c.semctl_setall(gates, [1, 5])
        await c.semop(gates, [(0, -1, SEM_UNDO), (1, -2)])
        equals(await c.semctl_getall(gates), [0, 3])
        jobs = await c.mq_open("/jobs", O_CREAT | O_RDWR, 0o600, MqAttr(maxmsg=2, msgsize=64))
        await c.mq_notify(jobs, NOTIFY_FRAME, 7)
        await c.mq_send(jobs, b"sweep", priority=9)
        equals(await c.notification(), (jobs, 7))
        equals(await c.mq_receive(jobs, 64), (9, b"sweep"))
        ready = await c.sem_open("/ready", O_CREAT, 0o600, 0)
        await c.sem_post(ready)
        await c.sem_wait(ready)
        table = await c.shm_open("/table", O_CREAT | O_RDWR, 0o600)
        await c.ftruncate(table, 64)
        await c.shm_write(table, 8, b"row")
        equals(await c.shm_read(table, 7, 4), b"\0row")
        shared = await c.shmat(await c.shmget(9, 64, IPC_CREAT | 0o600))
        await c.attached_write(shared, 8, b"old")
        equals(await c.attached_read(shared, 8, 3), b"old")
        await refused(c.shm_stat(9), errno.EBADF)
        await refused(c.msgsnd(queue, 1, bytes(70000)), errno.EINVAL)
        # Requests are sent in the order in which the calls begin.
        await asyncio.gather(*(c.msgsnd(queue, kind, b"") for kind in range(1, 101)))
        received = await asyncio.gather(*(c.msgrcv(queue, 0) for _ in range(100)))
        equals([kind for kind, _ in received], list(range(1, 101)))


def on_version_3() -> None:
    """The server tells its version there, and the calls are as ever."""

    async def tried() -> None:
        async with await Connection.connect("socket") as c:
            equals(c.version, None)
            equals(await c.hello(1000, 100), 1)
            equals(c.version, 3)
            queue = await c.msgget(1234, IPC_CREAT | 0o600)
            await c.msgsnd(queue, 5, b"hi")
            equals(await c.msgrcv(queue, 64), (5, b"hi"))

    with of_version_3("--small"):
        asyncio.run(asyncio.wait_for(tried(), SECONDS))


@on_a_server
async def waits_and_timeouts() -> None:
    c, other = await connect(), await connect()
    queue = await c.msgget(1, IPC_CREAT | 0o600)
    gates = await c.semget(1, 1, IPC_CREAT | 0o600)
    jobs = await c.mq_open("/jobs", O_CREAT | O_RDWR, 0o600)
    task = await waits(c, c.msgrcv(queue, 64, 3))
    await other.msgsnd(queue, 3, b"go")
    equals(await task, (3, b"go"))
    task = await waits(c, c.msgrcv(queue, 64))
    await c.interrupt()
    await refused(task, errno.EINTR)
    begin = time.monotonic()
    await refused(c.mq_receive(jobs, 64, timeout=0.2), errno.ETIMEDOUT)
    await refused(c.semop(gates, [(0, -1)], timeout=0.2), errno.EAGAIN)
    check(time.monotonic() - begin >= 0.39, "two waits of 0.2 s are over early")
    begin = time.monotonic()
    try:
        await asyncio.wait_for(c.msgrcv(queue, 64), 0.2)
        check(False, "a message")
    except asyncio.TimeoutError:
        check(time.monotonic() - begin >= 0.2, "a wait of 0.2 s is over early")
    task = await waits(c, c.msgrcv(queue, 64))
    await other.msgctl_rmid(queue)
    await refused(task, errno.EIDRM)
    await c.close()
    await other.close()


@on_a_server
async def a_cancelled_call_is_withdrawn() -> None:
    """It waits no longer: it takes nothing that comes afterwards, and the connection calls on."""
    c, other = await connect(), await connect()
    queue = await c.msgget(1, IPC_CREAT | 0o600)
    gates = await c.semget(1, 1, IPC_CREAT | 0o600)
    ready = await c.sem_open("/ready", O_CREAT, 0o600, 0)
    jobs = await c.mq_open("/jobs", O_CREAT | O_RDWR, 0o600)
    of_other = await other.sem_open("/ready", 0)
    for call in (lambda: c.msgrcv(queue, 64), lambda: c.semop(gates, [(0, -1)]), lambda: c.sem_wait(ready),
                 lambda: c.mq_receive(jobs, 64)):  # fmt: skip
        await cancelled(await waits(c, call()))
        equals(await c.semctl_getncnt(gates, 0), 0)
    await other.msgsnd(queue, 4, b"later")
    await other.semctl_setval(gates, 0, 1)
    await other.sem_post(of_other)
    await c.mq_send(jobs, b"later")
    equals((await other.msgctl_stat(queue)).qnum, 1)
    equals((await other.semctl_getval(gates, 0), await other.sem_getvalue(of_other)), (1, 1))
    equals((await c.mq_getattr(jobs)).curmsgs, 1)
    await c.close()
    await other.close()


async def late(c: Connection, call: Awaitable[object], comes: Awaitable[object]) -> None:
    """Cancels a call after the server has answered it, and before its reply is read."""
    task = await waits(c, call)
    # While no other task runs the reply is not read, and it is there: `comes` is a call by another process.
    reading = c._reader
    reading._transport.pause_reading()  # type: ignore[attr-defined]
    await comes
    task.cancel()
    await asyncio.sleep(0)
    reading._transport.resume_reading()  # type: ignore[attr-defined]
    try:
        await asyncio.wait_for(task, SECONDS)
        check(False, "it is not cancelled")
    except asyncio.CancelledError:
        pass


@on_a_server
async def what_came_first_is_kept() -> None:
    """A message is for the next receive that allows it, what was subtracted is added again, what was sent stays."""
    c, other = await connect(), await connect()
    queue = await c.msgget(1, IPC_CREAT | 0o600)
    gates = await c.semget(1, 2, IPC_CREAT | 0o600)
    ready = await c.sem_open("/ready", O_CREAT, 0o600, 0)
    of_other = await other.sem_open("/ready", 0)
    jobs = await c.mq_open("/jobs", O_CREAT | O_RDWR, 0o600)
    jobs_of_other = await other.mq_open("/jobs", O_RDWR)
    await late(c, c.msgrcv(queue, 64), other.msgsnd(queue, 7, b"kept"))
    equals((await other.msgctl_stat(queue)).qnum, 0)
    await other.msgsnd(queue, 3, b"other")
    equals(await c.msgrcv(queue, 64, -5), (3, b"other"))
    await refused(c.msgrcv(queue, 1, 7), errno.E2BIG)
    equals(await c.msgrcv(queue, 64), (7, b"kept"))
    await refused(c.msgrcv(queue, 64, 0, IPC_NOWAIT), errno.ENOMSG)
    await late(c, c.mq_receive(jobs, 64), other.mq_send(jobs_of_other, b"kept too", 9))
    equals((await c.mq_getattr(jobs)).curmsgs, 0)
    equals(await c.mq_receive(jobs, 64), (9, b"kept too"))
    await late(c, c.sem_wait(ready), other.sem_post(of_other))
    equals(await other.sem_getvalue(of_other), 1)
    await late(c, c.semop(gates, [(1, 5), (0, -1, SEM_UNDO)]), other.semctl_setval(gates, 0, 3))
    equals(await other.semctl_getall(gates), [3, 0])
    while True:
        try:
            await c.msgsnd(queue, 1, bytes(64), IPC_NOWAIT)
        except BlockingIOError:
            break
    await late(c, c.msgsnd(queue, 2, bytes(64)), other.msgrcv(queue, 64))
    equals(await other.msgrcv(queue, 64, 2), (2, bytes(64)))
    await c.close()
    # Its adjustments are as if the list had never been.
    equals(await other.semctl_getall(gates), [3, 0])
    await other.close()


async def send_until_killed(server: Server, key: int, kill: int) -> int:
    """Sends ahead, and kills the server after so many replies: how many came."""
    c = await connect()
    queue = await c.msgget(key, IPC_CREAT | 0o600)
    sent = [asyncio.ensure_future(c.msgsnd(queue, kind, b"", IPC_NOWAIT)) for kind in range(1, 101)]
    await asyncio.wait_for(asyncio.gather(*sent[:kill]), SECONDS)
    server.stop(signal.SIGKILL)
    replies = await asyncio.gather(*sent, return_exceptions=True)
    lost = [it for it in replies if it is not None]
    check(all(isinstance(it, ConnectionError) for it in lost), f"{lost}")
    for call in (c.interrupt(), c.notification()):
        try:
            await call
            check(False, "a call is answered after the end")
        except ConnectionError:
            check(c.closed, "it is not closed")
    return len(replies) - len(lost)


async def receive_all(key: int) -> list[int]:
    async with await connect() as c:
        queue = await c.msgget(key, 0)
        found: list[int] = []
        while True:
            try:
                found.append((await c.msgrcv(queue, 64, 0, IPC_NOWAIT))[0])
            except OSError as none:
                equals(none.errno, errno.ENOMSG)
                await c.msgctl_rmid(queue)
                return found


def kills() -> None:
    """After each kill all that was answered is there, in its order, and at most what was sent."""
    printed("format", "--small", "device")
    for key, kill in enumerate((1, 7, 30, 60, 99), 1):
        answered = asyncio.run(send_until_killed(Server(limits="small"), key, kill))
        check(answered >= kill, f"{answered} were answered, and {kill} were seen")
        with serving(limits="small"):
            found = asyncio.run(receive_all(key))
        equals(found, list(range(1, len(found) + 1)))
        check(answered <= len(found) <= 100, f"{answered} were answered, and {len(found)} are there")


def a_server_that_stops() -> None:
    """A cancelled call of a server that does not answer ends with the connection, after `patience` seconds."""

    async def stopped(server: Server) -> None:
        c = await connect(patience=0.5)
        queue = await c.msgget(1, IPC_CREAT | 0o600)
        await c.semget(1, 1, IPC_CREAT | 0o600)
        task = await waits(c, c.msgrcv(queue, 64))
        server.stands_still()
        await cancelled(task)
        check(c.closed, "the connection is open")

    printed("format", "--small", "device")
    server = Server(limits="small")
    asyncio.run(asyncio.wait_for(stopped(server), SECONDS))
    server.stop(signal.SIGKILL)


TESTS = [each_family, on_version_3, waits_and_timeouts, a_cancelled_call_is_withdrawn, what_came_first_is_kept, kills,
         a_server_that_stops]  # fmt: skip

if __name__ == "__main__":
    with in_a_folder(300):
        run_tests("asynchronous", TESTS)
        os.remove("device")
