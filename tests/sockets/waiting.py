"""Calls that wait, on the built program as a server: who goes on, what ends a wait, and what waiting costs.

    python3 tests/sockets/waiting.py PROGRAM

What is expected was reckoned from docs/PROTOCOL.md and docs/OPERATIONS.md, and never taken from the program. Without a
C compiler it says so, and counts no commits. It takes ten seconds.
"""

from __future__ import annotations

import errno
import os
import signal
import struct
import subprocess
import sys
import threading
import time
from collections.abc import Callable, Iterator
from contextlib import contextmanager, suppress
from pathlib import Path

sys.dont_write_bytecode = True
sys.path.insert(0, str(Path(__file__).resolve().parents[1] / "lib"))

from device_layout import BODY, batch, request, tick  # noqa: E402
from server import (  # noqa: E402
    Client,
    Server,
    check,
    drain,
    frame,
    full_disk,
    in_a_folder,
    is_answered,
    listing,
    printed,
    process,
    reply,
    run_tests,
    serving,
    until,
    until_it_waits,
)
from client import (  # noqa: E402
    IPC_CREAT,
    IPC_NOWAIT,
    interrupt_request,
    msgctl_rmid_request,
    msgctl_set_request,
    msgrcv_request,
    msgsnd_request,
)
from watch import Call, build, calls, follows, turns_of, watched  # noqa: E402

Answer = tuple[int, int, bytes]


def message(mtype: int, text: bytes) -> bytes:
    """The body of a receive's reply."""
    return struct.pack(">q", mtype) + text


def has_messages(client: Client, queue: int, count: int) -> None:
    found = client.msgctl_stat(queue).qnum
    check(found == count, f"{found} messages are in the queue, and not {count}")


# ---- a client and its own call


def is_interrupted(call: Callable[[], object], seconds: float) -> None:
    """The call ends by EINTR, after so many seconds at least."""
    begun = time.monotonic()
    try:
        found = call()
    except InterruptedError:
        check(time.monotonic() - begun >= seconds, "it was interrupted too early")
        return
    check(False, f"{found} comes of a call that is interrupted")


@contextmanager
def again_and_again(what: Callable[[], object]) -> Iterator[None]:
    """A thread does this every tenth of a second meanwhile."""
    over = threading.Event()

    def goes_on() -> None:
        while not over.wait(0.1):
            what()

    thread = threading.Thread(target=goes_on)
    thread.start()
    try:
        yield
    finally:
        over.set()
        thread.join()


def signals() -> None:
    signal.pthread_kill(threading.main_thread().ident, signal.SIGUSR1)


def interrupts() -> None:
    """After a time, by a signal handler and by a thread. What came first is the reply, and no reply is left over."""
    printed("format", "device", "--small")
    with serving(limits="small"), process() as client, process() as other:
        queue = client.msgget(1, IPC_CREAT | 0o600)
        client.interrupt()
        is_interrupted(lambda: client.msgrcv(queue, 64, timeout=0.2), 0.2)
        has_messages(client, queue, 0)

        # Of a message that was there before the time was over the interrupt takes nothing.
        other.msgsnd(queue, 1, b"first")
        check(client.msgrcv(queue, 64, timeout=0) == (1, b"first"), "the message that came first is lost")
        has_messages(client, queue, 0)
        serial = client.send(msgrcv_request(queue, 64))
        other.msgsnd(queue, 2, b"second")
        client.interrupt()
        is_answered(client, serial, 0, message(2, b"second"))
        has_messages(client, queue, 0)

        client.msgctl_set(queue, 1000, 100, 0o600, 0)
        is_interrupted(lambda: client.msgsnd(queue, 3, b"third", timeout=0.2), 0.2)
        client.msgctl_set(queue, 1000, 100, 0o600, 128)
        has_messages(client, queue, 0)

        signal.signal(signal.SIGUSR1, lambda *_: client.interrupt())
        for interrupt in (signals, client.interrupt):
            with again_and_again(interrupt):
                is_interrupted(lambda: client.msgrcv(queue, 64), 0)
            has_messages(client, queue, 0)
        breaks_off(client, other, queue)


def breaks_off(client: Client, other: Client, queue: int) -> None:
    """A wait that was broken off by an exception: the call waits on, and has its reply in the end."""

    class BreaksOff(Exception):
        pass

    def handler(*_: object) -> None:
        raise BreaksOff

    signal.signal(signal.SIGUSR1, handler)
    for text in (b"", b"came first"):
        serial = client.send(msgrcv_request(queue, 64))
        threading.Timer(0.1, signals).start()
        with suppress(BreaksOff):
            client.receive()
        if text:
            other.msgsnd(queue, 4, text)
        client.interrupt()
        is_answered(client, serial, 0 if text else errno.EINTR, message(4, text) if text else b"")
        has_messages(client, queue, 0)
    signal.signal(signal.SIGUSR1, signal.SIG_DFL)


# ---- who goes on


def in_the_order_of_their_calls() -> None:
    """Twenty receives wait, and get twenty messages; then as many sends wait, and go on as room comes."""
    printed("format", "device")
    with serving(), process() as other:
        queue = other.msgget(1, IPC_CREAT | 0o600)
        clients = [process() for _ in range(20)]
        them = [clients[number * 7 % 20] for number in range(20)]
        serials = [until_it_waits(client, msgrcv_request(queue, 64)) for client in them]
        for number in range(20):
            other.msgsnd(queue, 1, b"%d" % number)
        for number, (client, serial) in enumerate(zip(them, serials)):
            is_answered(client, serial, 0, message(1, b"%d" % number))
        other.msgctl_set(queue, 1000, 100, 0o600, 3)
        other.msgsnd(queue, 1, b"now")
        for number, client in enumerate(them):
            serials[number] = until_it_waits(client, msgsnd_request(queue, 1, b"%d" % number))
        check(other.msgrcv(queue, 64) == (1, b"now"), "another message is the first")
        for number, (client, serial) in enumerate(zip(them, serials)):
            check(other.msgrcv(queue, 64) == (1, b"%d" % number), f"send {number} went on too late")
            is_answered(client, serial)
        has_messages(other, queue, 0)
        for client in clients:
            client.close()


def removed() -> None:
    """All who wait on the queue are EIDRM, and nobody else."""
    printed("format", "device")
    with serving(), process() as other, process() as elsewhere:
        queue, another = (other.msgget(key, IPC_CREAT | 0o600) for key in (1, 2))
        other.msgctl_set(queue, 1000, 100, 0o600, 0)
        clients = [process() for _ in range(20)]
        asked = [msgrcv_request(queue, 64), msgsnd_request(queue, 1, b"x")]
        serials = [until_it_waits(client, asked[number % 2]) for number, client in enumerate(clients)]
        waits = until_it_waits(elsewhere, msgrcv_request(another, 64))
        other.msgctl_rmid(queue)
        for client, serial in zip(clients, serials):
            is_answered(client, serial, errno.EIDRM)
            client.close()
        other.msgsnd(another, 1, b"elsewhere")
        is_answered(elsewhere, waits, 0, message(1, b"elsewhere"))


# ---- clients that go away

WORKER = """
import sys
from client import *
with Connection("socket") as server:
    server.hello(1000, 100)
    queue = server.msgget(1, 0)
    server.send(msgrcv_request(queue, 64))
    serial = server.send(msgctl_stat_request(queue))
    print(server.receive() == (serial, 114, b""), flush=True)
    server.receive()
"""


def is_killed() -> None:
    """A client in a program of its own is killed while it waits."""
    folder = Path(__file__).resolve().parents[2] / "examples"
    words = [sys.executable, "-c", WORKER]
    found = {**os.environ, "PYTHONPATH": str(folder)}
    with subprocess.Popen(words, stdout=subprocess.PIPE, text=True, env=found) as worker:
        check(worker.stdout.readline() == "True\n", "the worker does not wait")
        worker.kill()


def goes_away(way: str, queue: int) -> None:
    if way == "is killed":
        return is_killed()
    with process() as client:
        serial = until_it_waits(client, msgrcv_request(queue, 64))
        if way == "sends no more":
            client.send_no_more()
            client.is_ended()
        elif way == "breaks the stream":
            client.send_bytes(bytes(4))
            client.is_answered(reply(0, errno.EPROTO))
            client.is_ended()
        elif way == "halves a request":
            client.send_bytes(frame(9, interrupt_request())[:-1])
        elif way == "is interrupted":
            last = client.send(interrupt_request())
            is_answered(client, serial, errno.EINTR)
            is_answered(client, last)


WAYS = ("closes", "sends no more", "breaks the stream", "halves a request", "is interrupted", "is killed")


def a_client_takes_nothing_with_it() -> None:
    """One after another waits and goes away. The message that comes then is received by one who began to wait later.
    Nor is the text there of one that went away with its send."""
    printed("format", "device", "--small")
    with serving(limits="small"), process() as other:
        queue = other.msgget(1, IPC_CREAT | 0o600)
        for way in WAYS:
            goes_away(way, queue)
            # Whoever has gone before this HELLO is seen to have gone before the next request.
            with process() as late:
                serial = until_it_waits(late, msgrcv_request(queue, 64))
                text = way.encode()
                other.msgsnd(queue, 1, text)
                is_answered(late, serial, 0, message(1, text))
            has_messages(other, queue, 0)
        other.msgctl_set(queue, 1000, 100, 0o600, 0)
        with process() as sender:
            until_it_waits(sender, msgsnd_request(queue, 1, b"never"))
        with process():
            other.msgctl_set(queue, 1000, 100, 0o600, 128)
            has_messages(other, queue, 0)


# ---- a server that goes away


def killed_with_fifty_that_wait() -> tuple[int, int]:
    """Forty receives wait on the first queue, each for a type of its own, and ten sends on the other, which is full.
    Each connection ends without a frame."""
    server = Server()
    try:
        with process() as other:
            queue, full = (other.msgget(key, IPC_CREAT | 0o600) for key in (1, 2))
            other.msgctl_set(full, 1000, 100, 0o600, 4)
            other.msgsnd(full, 1, b"full")
            clients = [process() for _ in range(50)]
            for number, client in enumerate(clients, 1):
                text = b"%d" % number
                waits = msgrcv_request(queue, 64, number) if number <= 40 else msgsnd_request(full, 1, text)
                until_it_waits(client, waits)
            server.stop(signal.SIGKILL)
        for client in clients:
            client.is_ended()
            client.close()
    finally:
        server.process.kill()
    return queue, full


def the_server_is_killed_while_they_wait() -> None:
    """No call waits any more. What receives would have taken is there for others, and the sends were not done."""
    printed("format", "device")
    queue, full = killed_with_fifty_that_wait()
    kept = listing({queue: [], full: [b"full"]})
    check(printed("dump", "device") == kept, "something else is kept")
    with serving(), process() as other:
        for number in range(1, 41):
            other.msgsnd(queue, number, b"%d" % number)
        for number in range(40, 0, -1):
            check(other.msgrcv(queue, 64, number) == (number, b"%d" % number), f"text {number} is gone")
        check(drain(other, full) == [b"full"], "a text that waited was sent")


# ---- a disk that fails


def failing_device() -> None:
    """The EIO frame is the last of a client that waits, too, and no reply comes before it."""
    last = (0, errno.EIO, b"")
    printed("format", "device", "--small")
    server = Server(limits="small", prepare=full_disk)
    try:
        client, *waiting = (process() for _ in range(3))
        queue = client.msgget(1, IPC_CREAT | 0o600)
        for one in waiting:
            until_it_waits(one, msgrcv_request(queue, 64, 2))
        sent, answer = 0, (0, 0, b"")
        while answer != last:
            client.send(msgsnd_request(queue, 1, b"x", IPC_NOWAIT))
            answer = client.receive()
            sent += answer[1] == 0
        for one in waiting:
            check(one.receive() == last, "the last frame is another one")
        for one in (client, *waiting):
            one.is_ended()
            one.close()
        server.ends(1, "ipcd: device fault\n")
    finally:
        server.process.kill()
    check(printed("dump", "device") == listing({queue: sent * [b"x"]}), f"not {sent} are kept")


# ---- what a wait costs


def processor_seconds(server: Server) -> float:
    """To the nanosecond, if the system says so."""
    folder = Path(f"/proc/{server.process.pid}")
    with suppress(FileNotFoundError):
        return int((folder / "schedstat").read_text().split()[0]) / 1e9
    fields = (folder / "stat").read_text().rpartition(")")[2].split()
    return (int(fields[11]) + int(fields[12])) / os.sysconf("SC_CLK_TCK")


def spent_in_two_seconds(server: Server) -> float:
    until(server.is_idle, "the server is busy")
    before = processor_seconds(server)
    time.sleep(2)
    return processor_seconds(server) - before


def fifty_that_wait_cost_no_more_than_fifty_silent_ones() -> None:
    printed("format", "device")
    with serving() as server, process() as other:
        queues = [other.msgget(key, IPC_CREAT | 0o600) for key in range(1, 11)]
        clients = [process() for _ in range(50)]
        silent, before = spent_in_two_seconds(server), server.memory()
        for number, client in enumerate(clients):
            until_it_waits(client, msgrcv_request(queues[number % 10], 8192, 1 + number % 7))
        waiting, more = spent_in_two_seconds(server), server.memory() - before
        for client in clients:
            client.close()
    said = f"{1000 * silent:.1f} ms with silent clients, {1000 * waiting:.1f} ms with clients that wait"
    print(f"waiting: {said}, and {more} kB for their calls")
    # A processor's time may be told in hundredths of a second.
    check(waiting < 1.5 * silent + 0.02, said)
    check(more < 512, f"{more} kB for fifty receives")


def long_texts_that_wait() -> None:
    """Each takes its text, and some bytes more."""
    printed("format", "device")
    with serving() as server, process() as other:
        queue = other.msgget(1, IPC_CREAT | 0o600)
        other.msgctl_set(queue, 1000, 100, 0o600, 0)
        clients = [process() for _ in range(60)]
        before = server.memory()
        for client in clients:
            until_it_waits(client, msgsnd_request(queue, 1, 8192 * b"x"))
        more = server.memory() - before
        for client in clients:
            client.close()
    print(f"waiting: {more} kB for sixty texts of 8 kB")
    check(more < 60 * 32, f"{more} kB for sixty texts that wait")


# ---- commits


def turn_of(data: bytes) -> list[Call]:
    """The turn in which these bytes were read."""
    (turn,) = [turn for turn in turns_of(calls()) if any(call.name == "recv" and data in call.data for call in turn)]
    return turn


def is_one_commit(asked: bytes, pid: int, answers: list[bytes]) -> None:
    """The turn in which this request was read made its one event last, by one commit, and then sent these answers."""
    until(lambda: any(asked in call.data for turn in turns_of(calls()) for call in turn), "the turn has not ended")
    turn = turn_of(asked)
    follows(f"E<+BSHS>{{{len(answers)}}}", turn)
    sent = sorted(call.data for call in turn if call.name == "send")
    check(sent == sorted(answers), f"{sent} is sent, and not {answers}")
    (data,) = [call.data for call in turn if call.name == "pwrite" and call.sector >= BODY]
    moment = int.from_bytes(data[9:17], "big")
    wanted = batch(tick(moment), tick(moment), request(moment, pid, asked[4:]))
    check(data.startswith(wanted), f"the batch is {data[: len(wanted)].hex()}, and not {wanted.hex()}")


def one_event_is_one_commit() -> None:
    """A message that is handed over, a queue that gets room, and one that is removed: whoever waited is answered in the
    same turn, after the commit. A call that begins to wait is one commit, too, and has no reply."""
    printed("format", "device", "--small")
    with watched(), serving(limits="small"), process() as other:
        queue = other.msgget(1, IPC_CREAT | 0o600)
        clients = [process() for _ in range(3)]

        def asks(asked: bytes, answers: list[tuple[Client, Answer]], error: int = 0) -> None:
            other.call(asked)
            for client, answer in answers:
                is_answered(client, *answer)
            frames = [reply(other._serial, error), *(reply(*answer) for _, answer in answers)]
            is_one_commit(frame(other._serial, asked), 1, frames)

        serial = until_it_waits(clients[1], msgrcv_request(queue, 64))
        handed = (clients[1], (serial, 0, message(5, b"handed over")))
        asks(msgsnd_request(queue, 5, b"handed over"), [handed])

        asks(msgctl_set_request(queue, 1000, 100, 0o600, 0), [])
        texts = (b"one", b"two", b"three")
        serials = [until_it_waits(client, msgsnd_request(queue, 1, text)) for client, text in zip(clients, texts)]
        room = [(client, (serial, 0, b"")) for client, serial in zip(clients, serials)]
        asks(msgctl_set_request(queue, 1000, 100, 0o600, 128), room)
        check(drain(other, queue) == list(texts), "other texts were sent")

        serials = [until_it_waits(client, msgrcv_request(queue, 64, 9)) for client in clients]
        gone = [(client, (serial, errno.EIDRM, b"")) for client, serial in zip(clients, serials)]
        asks(msgctl_rmid_request(queue), gone)

        queue = other.msgget(2, IPC_CREAT | 0o600)
        asked = frame(7, msgrcv_request(queue, 64))
        clients[0].send_bytes(asked)
        is_one_commit(asked, 2, [])
        for client in clients:
            client.close()


TESTS = [
    interrupts,
    in_the_order_of_their_calls,
    removed,
    a_client_takes_nothing_with_it,
    the_server_is_killed_while_they_wait,
    failing_device,
    fifty_that_wait_cost_no_more_than_fifty_silent_ones,
    long_texts_that_wait,
]


def main() -> None:
    with in_a_folder(120):
        run_tests("waiting", [*TESTS, *([one_event_is_one_commit] if build("waiting") else [])])


if __name__ == "__main__":
    main()
