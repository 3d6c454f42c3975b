"""A server that answers wrongly, once after each call: the call ends in a named exception, the connection is closed,
and nothing hangs.

    python3 clients/python/tests/false_server.py
"""

from __future__ import annotations

import errno
import os
import signal
import socket
import struct
import tempfile
import threading
import time
from collections.abc import Callable
from typing import Optional

import setting  # noqa: F401
from ipcd import NOTIFY_FRAME, Connection, MqAttr, ProtocolError, ServerFault, posix_ipc, session, sysv_ipc

PATIENCE = 0.1

# The bytes that are sent in answer to a request of a serial, and whether the stream ends then.
Fault = tuple[Callable[[int], bytes], bool]


def reply(serial: int, error: int, body: bytes = b"") -> bytes:
    return struct.pack(">IIH", 6 + len(body), serial, error) + body


FAULTS: dict[str, tuple[Fault, type[BaseException], Optional[int]]] = {
    "the end": ((lambda serial: b"", True), ConnectionResetError, errno.ECONNRESET),
    "the end in a length": ((lambda serial: reply(serial, 0)[:3], True), ConnectionResetError, errno.ECONNRESET),
    "the end in mid-frame": ((lambda serial: reply(serial, 0)[:9], True), ConnectionResetError, errno.ECONNRESET),
    "a torn length": ((lambda serial: reply(serial, 0)[:1], False), ProtocolError, errno.EPROTO),
    "a torn frame": ((lambda serial: reply(serial, 0, b"abc")[:12], False), ProtocolError, errno.EPROTO),
    "a serial to come": ((lambda serial: reply(serial + 1, 0), False), ProtocolError, errno.EPROTO),
    "a serial of before": ((lambda serial: reply(1, 0), False), ProtocolError, errno.EPROTO),
    "a refusal of another": ((lambda serial: reply(77, errno.EACCES), False), ProtocolError, errno.EPROTO),
    "a refusal with a body": ((lambda serial: reply(serial, errno.EACCES, b"a"), False), ProtocolError, errno.EPROTO),
    "a body of no call": ((lambda serial: reply(serial, 0, b"abc"), False), ProtocolError, errno.EPROTO),
    "a length of 0": ((lambda serial: bytes(10), False), ProtocolError, errno.EPROTO),
    "a length of 5": ((lambda serial: b"\0\0\0\5" + bytes(20), False), ProtocolError, errno.EPROTO),
    "the greatest length": ((lambda serial: b"\xff" * 20, False), ProtocolError, errno.EPROTO),
    "no notification": ((lambda serial: reply(0, 0, b"abc"), False), ProtocolError, errno.EPROTO),
    "EPROTO": ((lambda serial: reply(serial, errno.EPROTO), True), ServerFault, errno.EPROTO),
    "EPROTO of the stream": ((lambda serial: reply(0, errno.EPROTO), True), ServerFault, errno.EPROTO),
    "EPROTO and no end": ((lambda serial: reply(0, errno.EPROTO), False), ServerFault, errno.EPROTO),
    "EIO": ((lambda serial: reply(0, errno.EIO), True), ServerFault, errno.EIO),
}

# What comes after an INTERRUPT, by the serials of the call and of the INTERRUPT, and whether the stream ends then.
INTERRUPTED: dict[str, tuple[Callable[[int, int], bytes], bool]] = {
    "the end": (lambda call, own: b"", True),
    "the end after EINTR": (lambda call, own: reply(call, errno.EINTR), True),
    "the end in the second": (lambda call, own: reply(call, errno.EINTR) + reply(own, 0)[:7], True),
    "a torn EINTR": (lambda call, own: reply(call, errno.EINTR)[:7], False),
    "a torn second": (lambda call, own: reply(call, errno.EINTR) + reply(own, 0)[:9], False),
    "EINTR of another": (lambda call, own: reply(call + 7, errno.EINTR), False),
    "EINTR twice": (lambda call, own: 2 * reply(call, errno.EINTR), False),
    "EINTR with a body": (lambda call, own: reply(call, errno.EINTR, b"a") + reply(own, 0), False),
    "a second refused": (lambda call, own: reply(call, errno.EINTR) + reply(own, errno.EACCES), False),
    "a second refused, first": (lambda call, own: reply(own, errno.EACCES) + reply(call, errno.EINTR), False),
    "a second with a body": (lambda call, own: reply(call, errno.EINTR) + reply(own, 0, b"a"), False),
    "EPROTO": (lambda call, own: reply(own, errno.EPROTO), True),
    "EIO": (lambda call, own: reply(0, errno.EIO), True),
}

CALLS: dict[str, Callable[[Connection], object]] = {
    "msgget": lambda c: c.msgget(1, 0),
    "msgsnd": lambda c: c.msgsnd(1, 1, b"a"),
    "msgrcv": lambda c: c.msgrcv(1, 64),
    "msgrcv in a time": lambda c: c.msgrcv(1, 64, timeout=5),
    "msgctl_stat": lambda c: c.msgctl_stat(1),
    "msgctl_set": lambda c: c.msgctl_set(1, 0, 0, 0, 0),
    "msgctl_rmid": lambda c: c.msgctl_rmid(1),
    "semget": lambda c: c.semget(1, 1, 0),
    "semop": lambda c: c.semop(1, [(0, -1)]),
    "semctl_getval": lambda c: c.semctl_getval(1, 0),
    "semctl_getpid": lambda c: c.semctl_getpid(1, 0),
    "semctl_getncnt": lambda c: c.semctl_getncnt(1, 0),
    "semctl_getzcnt": lambda c: c.semctl_getzcnt(1, 0),
    "semctl_setval": lambda c: c.semctl_setval(1, 0, 1),
    "semctl_getall": lambda c: c.semctl_getall(1),
    "semctl_setall": lambda c: c.semctl_setall(1, [1]),
    "semctl_stat": lambda c: c.semctl_stat(1),
    "semctl_set": lambda c: c.semctl_set(1, 0, 0, 0),
    "semctl_rmid": lambda c: c.semctl_rmid(1),
    "mq_open": lambda c: c.mq_open("/q", 0, 0, MqAttr(0, 1, 1)),
    "mq_close": lambda c: c.mq_close(0),
    "mq_unlink": lambda c: c.mq_unlink("/q"),
    "mq_send": lambda c: c.mq_send(0, b"a"),
    "mq_receive": lambda c: c.mq_receive(0, 64, 5),
    "mq_notify": lambda c: c.mq_notify(0, NOTIFY_FRAME),
    "mq_getattr": lambda c: c.mq_getattr(0),
    "mq_setattr": lambda c: c.mq_setattr(0, 0),
    "sem_open": lambda c: c.sem_open("/s", 0),
    "sem_close": lambda c: c.sem_close(0),
    "sem_unlink": lambda c: c.sem_unlink("/s"),
    "sem_post": lambda c: c.sem_post(0),
    "sem_wait": lambda c: c.sem_wait(0),
    "sem_trywait": lambda c: c.sem_trywait(0),
    "sem_getvalue": lambda c: c.sem_getvalue(0),
    "shm_open": lambda c: c.shm_open("/m", 0),
    "shm_close": lambda c: c.shm_close(0),
    "shm_unlink": lambda c: c.shm_unlink("/m"),
    "ftruncate": lambda c: c.ftruncate(0, 1),
    "shm_read": lambda c: c.shm_read(0, 0, 2),
    "shm_write": lambda c: c.shm_write(0, 0, b"a"),
    "shm_stat": lambda c: c.shm_stat(0),
    "shmget": lambda c: c.shmget(1, 1, 0),
    "shmat": lambda c: c.shmat(1),
    "shmdt": lambda c: c.shmdt(0),
    "shmctl_stat": lambda c: c.shmctl_stat(1),
    "shmctl_set": lambda c: c.shmctl_set(1, 0, 0, 0),
    "shmctl_rmid": lambda c: c.shmctl_rmid(1),
    "attached_read": lambda c: c.attached_read(0, 0, 2),
    "attached_write": lambda c: c.attached_write(0, 0, b"a"),
}

# Calls of the two modules on objects that the false server has let them open. Each is the first of its connection.
MODULE_CALLS: dict[str, Callable[[dict[str, object]], object]] = {
    "remove_message_queue": lambda things: sysv_ipc.remove_message_queue(1),
    "MessageQueue": lambda things: sysv_ipc.MessageQueue(1),
    "Semaphore": lambda things: sysv_ipc.Semaphore(1),
    "send": lambda things: things["queue"].send(b"a"),
    "receive": lambda things: things["queue"].receive(),
    "receive at once": lambda things: things["queue"].receive(False),
    "mode": lambda things: things["queue"].mode,
    "acquire": lambda things: things["sem"].acquire(),
    "release": lambda things: things["sem"].release(),
    "value": lambda things: things["sem"].value,
    "remove_shared_memory": lambda things: sysv_ipc.remove_shared_memory(1),
    "SharedMemory": lambda things: sysv_ipc.SharedMemory(1),
    "attach": lambda things: sysv_ipc.attach(1),
    "read": lambda things: things["memory"].read(),
    "write": lambda things: things["memory"].write(b"a"),
    "number_attached": lambda things: things["memory"].number_attached,
    "posix_ipc.Semaphore": lambda things: posix_ipc.Semaphore("/s"),
    "posix_ipc.MessageQueue": lambda things: posix_ipc.MessageQueue("/q"),
    "posix_ipc.SharedMemory": lambda things: posix_ipc.SharedMemory("/m"),
    "unlink_semaphore": lambda things: posix_ipc.unlink_semaphore("/s"),
    "named acquire": lambda things: things["named"].acquire(),
    "named release": lambda things: things["named"].release(),
}


class FalseServer:
    """It answers HELLO, and then each request by what `fault` says; without one as a call that is answered 1."""

    def __init__(self, path: str) -> None:
        self.fault: Optional[Fault] = None
        self.socket = socket.socket(socket.AF_UNIX)
        self.socket.bind(path)
        self.socket.listen()
        threading.Thread(target=self.accept, daemon=True).start()

    def accept(self) -> None:
        while True:
            client, _ = self.socket.accept()
            threading.Thread(target=self.serve, args=(client,), daemon=True).start()

    def serve(self, client: socket.socket) -> None:
        with client, client.makefile("rb") as requests:
            while True:
                head = requests.read(9)
                if len(head) < 9:
                    return
                size, serial, opcode = struct.unpack(">IIB", head)
                requests.read(size - 5)
                if self.fault is None or opcode == 0x01:
                    client.sendall(reply(serial, 0, struct.pack(">I", 1)))
                    continue
                answer, ends = self.fault
                client.sendall(answer(serial))
                if ends:
                    return


def check(holds: bool, text: str) -> None:
    if not holds:
        raise AssertionError(text)


def raises(call: Callable[[], object], kind: type[BaseException], text: str) -> BaseException:
    begun = time.monotonic()
    try:
        found = call()
    except Exception as raised:
        check(type(raised) is kind, f"{text}: {raised!r}, and not {kind.__name__}")
        check(time.monotonic() - begun < 5, f"{text}: it takes {time.monotonic() - begun:.1f} s")
        return raised
    raise AssertionError(f"{text}: {found!r} is answered")


def on_connections(server: FalseServer) -> int:
    count = 0
    for fault, (answer, kind, error) in FAULTS.items():
        for name, call in CALLS.items():
            text = f"{fault} after {name}"
            server.fault = answer
            with Connection("socket", patience=PATIENCE) as connection:
                connection.hello(1000, 100)
                raised = raises(lambda: call(connection), kind, text)
                check(raised.errno == error, f"{text}: {raised!r}")  # type: ignore[attr-defined]
                check(connection.closed, f"{text}: the connection is open")
                raises(lambda: call(connection), ConnectionResetError, f"{text}, again")
            count += 1
    return count


def opened(server: FalseServer) -> dict[str, object]:
    """Objects that the next call uses, on a connection that is well."""
    server.fault = None
    return {
        "queue": sysv_ipc.MessageQueue(1),
        "sem": sysv_ipc.Semaphore(1),
        "memory": sysv_ipc.SharedMemory(1),
        "named": posix_ipc.Semaphore("/s"),
    }


def on_modules(server: FalseServer) -> int:
    os.environ["IPCD_SOCKET"] = os.path.abspath("socket")
    count = 0
    for fault, (answer, _, error) in FAULTS.items():
        if fault.startswith("a torn"):
            # Their patience is half a minute.
            continue
        for name, call in MODULE_CALLS.items():
            things = opened(server)
            server.fault = answer
            module = posix_ipc if "posix" in name or "named" in name or "unlink" in name else sysv_ipc
            raised = raises(lambda: call(things), module.ServerLost, f"{fault} after {name}")
            check(isinstance(raised, (module.Error, session.ServerLost)), f"{raised!r} is no error of the module")
            check(raised.errno == error, f"{fault} after {name}: {raised!r}")  # type: ignore[attr-defined]
            count += 1
    return count


def no_server() -> None:
    """Both modules say so, and go on once there is one."""
    for path, error in (("nothing", errno.ENOENT), ("left", errno.ECONNREFUSED)):
        if path == "left":
            with socket.socket(socket.AF_UNIX) as left:
                left.bind(path)
        os.environ["IPCD_SOCKET"] = os.path.abspath(path)
        session._forget_all()
        for call, kind in (
            (lambda: sysv_ipc.MessageQueue(1), sysv_ipc.ServerLost),
            (lambda: posix_ipc.Semaphore("/s"), posix_ipc.ServerLost),
        ):
            raised = raises(call, kind, path)
            check(raised.errno == error, f"{path}: {raised!r}")  # type: ignore[attr-defined]


def says_after_an_interrupt(listener: socket.socket, says: Callable[[int, int], bytes], ends: bool) -> None:
    client, _ = listener.accept()
    waits = 0
    with client, client.makefile("rb") as requests:
        while head := requests.read(9):
            size, serial, opcode = struct.unpack(">IIB", head)
            requests.read(size - 5)
            if opcode == 0x0C:
                waits = serial
            elif opcode == 0x02:
                client.sendall(says(waits, serial))
                if ends:
                    return
            elif opcode == 0x01:
                client.sendall(reply(serial, 0, struct.pack(">I", 1)))


def on_interrupts() -> int:
    """The call that was interrupted says what is wrong, or was answered and the next one says it."""
    for number, (fault, (says, ends)) in enumerate(INTERRUPTED.items()):
        with socket.socket(socket.AF_UNIX) as listener:
            listener.bind(f"after.{number}")
            listener.listen()
            words = (listener, says, ends)
            threading.Thread(target=says_after_an_interrupt, args=words, daemon=True).start()
            with Connection(f"after.{number}", patience=10 * PATIENCE) as connection:
                connection.hello(1000, 100)
                try:
                    connection.msgrcv(1, 64, timeout=0.02)
                    raise AssertionError(f"{fault} is an answer")
                except (InterruptedError, ConnectionError):
                    pass
                if not connection.closed:
                    try:
                        connection.msgget(1, 0)
                        raise AssertionError(f"the call after {fault} is answered")
                    except ConnectionError:
                        pass
                check(connection.closed, f"the connection is open after {fault}")
    return len(INTERRUPTED)


def holds_back(listener: socket.socket) -> None:
    """A server that sends the reply to an INTERRUPT together with that to the request after it."""
    client, _ = listener.accept()
    held, waits = b"", 0
    with client, client.makefile("rb") as requests:
        while head := requests.read(9):
            size, serial, opcode = struct.unpack(">IIB", head)
            requests.read(size - 5)
            if opcode == 0x02:
                held = reply(serial, 0)
                client.sendall(reply(waits, errno.EINTR))
            elif opcode == 0x0C:
                waits = serial
            else:
                client.sendall(held + reply(serial, 0, b"" if opcode == 0x0B else struct.pack(">I", 1)))
                held = b""


def replies_that_come_together() -> None:
    """A call that waits has its reply, though another came with it and nothing more is to be read."""
    with socket.socket(socket.AF_UNIX) as listener:
        listener.bind("held")
        listener.listen()
        threading.Thread(target=holds_back, args=(listener,), daemon=True).start()
        os.environ["IPCD_SOCKET"] = os.path.abspath("held")
        session._forget_all()
        queue = sysv_ipc.MessageQueue(1)
        signal.signal(signal.SIGUSR1, lambda *_: None)
        threading.Timer(0.3, lambda: os.kill(os.getpid(), signal.SIGUSR1)).start()
        raises(queue.receive, sysv_ipc.Error, "an interrupted receive")
        check(queue.send(b"sent") is None, "a send is answered")
        session._forget_all()


def main() -> None:
    signal.alarm(60)
    with tempfile.TemporaryDirectory() as folder:
        os.chdir(folder)
        server = FalseServer("socket")
        begun = time.monotonic()
        count = on_connections(server) + on_interrupts() + on_modules(server)
        replies_that_come_together()
        no_server()
        print(f"false_server: {count} wrong answers, each a named exception, {time.monotonic() - begun:.1f} s")


if __name__ == "__main__":
    main()
