"""When the server ends what waits, and what it does while there is nothing to do.

    python3 tests/sockets/on_time.py PROGRAM

What is expected is in docs/PROTOCOL.md ("Time") and docs/OPERATIONS.md. Devices are in memory if there is a /dev/shm,
so that a sync takes no time. Calls of the system are watched by tests/lib/watch_calls.c, and the system's clock is
stepped by tests/sockets/step_clock.c; without a C compiler it says so, and tests neither. It takes half a minute.
"""

from __future__ import annotations

import errno
import fcntl
import multiprocessing
import os
import re
import resource
import select
import socket
import statistics
import struct
import subprocess
import sys
import tempfile
import termios
import threading
import time
from collections.abc import Callable, Iterator
from contextlib import contextmanager, suppress
from pathlib import Path

sys.dont_write_bytecode = True
sys.path.insert(0, str(Path(__file__).resolve().parents[1] / "lib"))

from server import (  # noqa: E402
    PROGRAM,
    TIMEOUT,
    Client,
    Server,
    check,
    in_a_folder,
    printed,
    process,
    run_tests,
    serving,
    until,
    until_it_waits,
)
from client import (  # noqa: E402
    IPC_CREAT,
    IPC_NOWAIT,
    O_CREAT,
    O_RDWR,
    Connection,
    MqAttr,
    hello_request,
    mq_receive_request,
    mq_send_request,
    msgrcv_request,
    msgsnd_request,
    sem_wait_request,
    semop_request,
    shm_read_request,
)
from watch import LOG, Call, build, calls, watched  # noqa: E402

TRIES = 3
# Milliseconds: for 95 of 100 deadlines, and for each, since another program may take the processor for a while.
SLACK, MOST = 5, 50
STEP = "step"
HOUR = 3600


def fresh() -> None:
    printed("format", "device", "--small")


def milliseconds(seconds: float) -> float:
    return 1000 * seconds


@contextmanager
def sleeps() -> Iterator[list[float]]:
    """By how many milliseconds short sleeps of this process end too late meanwhile: so late may other work make all."""
    late: list[float] = []
    over = threading.Event()

    def sleep() -> None:
        while not over.is_set():
            begun = time.monotonic()
            time.sleep(0.002)
            late.append(milliseconds(time.monotonic() - begun) - 2)

    thread = threading.Thread(target=sleep, daemon=True)
    thread.start()
    try:
        yield late
    finally:
        over.set()
        thread.join()


def spread(late: list[float]) -> tuple[float, float]:
    """Of 95 of 100, and of all."""
    late = sorted(late) or [0]
    return late[len(late) * 95 // 100], late[-1]


def told(name: str, late: list[float], others: list[float], more: float = 0) -> str:
    """Says how late these are. If that is too late the answer says so: later than sleeps were meanwhile, and so many
    milliseconds more given."""
    many, most = spread(late)
    of_sleeps = spread(others)
    found = f"late by {statistics.median(late):.2f} ms at the median, {many:.2f} at 95 of 100, {most:.2f} at most"
    found += f" (sleeps: {of_sleeps[0]:.2f} and {of_sleeps[1]:.2f})"
    print(f"on_time: {name}: {len(late)} deadlines, {found}", flush=True)
    is_late = many > SLACK + more + of_sleeps[0] or most > MOST + more + of_sleeps[1]
    return f"they are {found}" if is_late else ""


def tried(test: Callable[[], str]) -> None:
    """One of three tries has to be as it should."""
    for _ in range(TRIES):
        fault = test()
        if not fault:
            return
        print(f"on_time: once more, since {fault}", flush=True)
    check(False, fault)


# ---- deadlines


class Waits:
    """A client that can make each call that has a deadline, and has to wait in it."""

    def __init__(self) -> None:
        self.client = process()
        self.gates = self.client.semget(77, 1, IPC_CREAT | 0o600)
        self.empty = self.client.mq_open("/empty", O_CREAT | O_RDWR, 0o600, MqAttr(0, 1, 8, 0))
        self.full = self.client.mq_open("/full", O_CREAT | O_RDWR, 0o600, MqAttr(0, 1, 8, 0))
        with suppress(BlockingIOError, TimeoutError):
            self.client.mq_send(self.full, b"full", timeout=0)
        self.shut = self.client.sem_open("/shut", O_CREAT, 0o600, value=0)

    def requests(self, seconds: float, now: float) -> list[tuple[str, bytes, int]]:
        """The calls, which end after so many seconds, and their errors."""
        at = now + seconds
        return [
            ("semop", semop_request(self.gates, [(0, -1, 0)], max(seconds, 0)), errno.EAGAIN),
            ("mq_send", mq_send_request(self.full, b"more", 0, at), errno.ETIMEDOUT),
            ("mq_receive", mq_receive_request(self.empty, 8, at), errno.ETIMEDOUT),
            ("sem_wait", sem_wait_request(self.shut, at), errno.ETIMEDOUT),
        ]

    def late(self, kind: int, seconds: float) -> float:
        """By how many milliseconds a call of this kind ends too late, from its request on."""
        now = time.time()
        name, asked, error = self.requests(seconds, now)[kind]
        serial = self.client.send(asked)
        answer = self.client.receive()
        ended = time.time()
        check(answer == (serial, error, b""), f"{name} is answered {answer}")
        check(ended >= now + seconds - 0.0015, f"{name} ends {milliseconds(now + seconds - ended)} ms too early")
        return milliseconds(ended - now - seconds)


def on_an_idle_server() -> None:
    """200 deadlines, of each kind of call: they end within 5 ms and the syncs of a commit, which take no time here."""

    def once() -> str:
        fresh()
        with serving(limits="small"):
            waits = Waits()
            with sleeps() as others:
                late = [waits.late(number % 4, 0.005 + number % 7 * 0.004) for number in range(200)]
            waits.client.close()
        return told("idle", late, others, syncs())

    tried(once)


def syncs() -> float:
    """How long four syncs of a file take here, in milliseconds: a call that has to wait is two commits."""
    with open("synced", "wb", buffering=0) as file:
        begun = time.monotonic()
        for _ in range(4):
            file.write(bytes(512))
            os.fdatasync(file)
        return milliseconds(time.monotonic() - begun)


def over_at_once() -> None:
    """A call whose deadline is over when its request is read is answered in that turn: a try-lock."""

    def once() -> str:
        fresh()
        with serving(limits="small"):
            waits = Waits()
            with sleeps() as others:
                took = [waits.late(number % 4, 0) for number in range(100)]
                took += [waits.late(number % 3 + 1, -1) - 1000 for number in range(100)]
            waits.client.close()
        return told("over when they are read", took, others, syncs())

    tried(once)


def load(number: int, begun: object, over: object) -> None:
    """A client that sends and receives, four requests ahead, until it is told that it is over."""
    client = process()
    queue = client.msgget(100 + number, IPC_CREAT | 0o600)
    while not over.is_set():
        for _ in range(4):
            client.send(msgsnd_request(queue, 1, b"x" * 8, IPC_NOWAIT))
            client.send(msgrcv_request(queue, 8, 0, IPC_NOWAIT))
        for _ in range(8):
            client.receive()
        begun.set()
    client.close()


def beside_clients_at_full_rate() -> None:
    """200 deadlines beside four clients: each ends in the first turn that begins after it."""
    context = multiprocessing.get_context("fork")

    def once() -> str:
        printed("format", "device")
        over = context.Event()
        with serving():
            waits = Waits()
            begun = [context.Event() for _ in range(4)]
            workers = [context.Process(target=load, args=(n, begun[n], over), daemon=True) for n in range(4)]
            for worker in workers:
                worker.start()
            check(all(one.wait(TIMEOUT) for one in begun), "a client does not begin")
            with sleeps() as others:
                late = [waits.late(number % 4, 0.005 + number % 7 * 0.004) for number in range(200)]
            over.set()
            for worker in workers:
                worker.join(TIMEOUT)
            waits.client.close()
        return told("beside four clients", late, others, 20 + 2 * syncs())

    tried(once)


def times_of_records() -> None:
    """The time of a send is at most a millisecond older than the turn that has read it, also after a pause."""
    fresh()
    with serving(limits="small"), process() as client:
        queue = client.msgget(1, IPC_CREAT | 0o600)
        for _ in range(20):
            time.sleep(0.03)
            before = time.time_ns() // 10**6
            client.msgsnd(queue, 1, b"x")
            after = time.time_ns() // 10**6
            found = client.msgctl_stat(queue).stime
            check(before - 1 <= found <= after, f"a send between {before} and {after} is of {found}")
            client.msgrcv(queue, 8)


# ---- quiet


def quiet() -> None:
    """In ten seconds a server with silent clients, and with calls that wait, makes no call of the system. If a call has
    a deadline it looks at the clock once a second, and syncs nothing."""
    quiet_of = {}
    servers = []
    for name in ("silent", "deadline"):
        Path(name).mkdir(exist_ok=True)
    try:
        clients = []
        for name in ("silent", "deadline"):
            with watched(most=0):
                printed("format", f"{name}/device", "--small")
                server = subprocess_of(name)
            os.rename(LOG, f"{name}/{LOG}")
            servers.append(server)
            clients += clients_of(name)
        time.sleep(0.5)
        before = {name: calls_of(name) for name in ("silent", "deadline")}
        time.sleep(10)
        for name in ("silent", "deadline"):
            quiet_of[name] = calls_of(name)[len(before[name]) :]
        for client in clients:
            client.close()
    finally:
        for server in servers:
            server.kill()
            server.wait()
            server.stdout.close()
    found = quiet_of["silent"]
    check(not found, f"in ten seconds {len(found)} calls of the system are made: {found[:6]}")
    found = quiet_of["deadline"]
    check({call.name for call in found} <= {"epoll_wait"}, f"a server that waits for a deadline does more: {found[:6]}")
    check(6 <= len(found) <= 11, f"in ten seconds it looks at the clock {len(found)} times")
    print(f"on_time: in ten seconds no call of the system, and {len(found)} looks for a deadline", flush=True)


def subprocess_of(name: str) -> subprocess.Popen[str]:
    """A server of the device in this folder, which is ready."""
    server = subprocess.Popen(
        [PROGRAM, "serve", f"{name}/device", f"{name}/socket"], stdout=subprocess.PIPE, text=True
    )
    line = server.stdout.readline()
    check(line.startswith("serving "), f"{line!r} is printed")
    return server


def clients_of(name: str) -> list[Connection]:
    """A silent client, one in the midst of a request, and two whose calls wait."""
    them = [Connection(f"{name}/socket", TIMEOUT) for _ in range(4)]
    for client in them[1:]:
        client.hello(1000, 100)
    queue = them[1].msgget(1, IPC_CREAT | 0o600)
    gates = them[1].semget(1, 1, IPC_CREAT | 0o600)
    them[0]._write(b"\0\0")
    them[2].send(msgrcv_request(queue, 64))
    them[3].send(semop_request(gates, [(0, -1, 0)], 100 if name == "deadline" else None))
    return them


def calls_of(name: str) -> list[Call]:
    """The calls that its log has, but for the beginnings of waits."""
    here = os.getcwd()
    os.chdir(name)
    try:
        return [call for call in calls() if call.name != "epoll_enter"]
    finally:
        os.chdir(here)


# ---- what the system does not tell of again


def without_descriptors() -> None:
    """A server has 64 descriptors, and 70 clients come. Each time that one leaves, the next is taken at once."""
    printed("format", "device")

    def once() -> str:
        few = (64, 64)
        with serving(prepare=lambda: resource.setrlimit(resource.RLIMIT_NOFILE, few)) as server:
            clients = [Client() for _ in range(70)]
            for client in clients:
                client.send(hello_request(1000, 100))
            until(lambda: server.descriptors() == 64, "the server has not taken as many as it can")
            taken = next(number for number, client in enumerate(clients) if not ready(client, 0.3))
            for client in clients[:taken]:
                client.receive()
            took = []
            with sleeps() as others:
                for gone in range(8):
                    time.sleep(0.03)
                    begun = time.monotonic()
                    clients[gone].close()
                    clients[taken + gone].receive()
                    took.append(milliseconds(time.monotonic() - begun))
            for client in clients[8:]:
                client.close()
        print(f"on_time: the next of 70 clients is taken after {max(took):.2f} ms at most", flush=True)
        too_late = max(took) > MOST + syncs() + max(others)
        return f"the next client is taken after {max(took):.2f} ms" if too_late else ""

    tried(once)


def ready(client: Client, seconds: float = 0) -> bool:
    return bool(select.select([client], [], [], seconds)[0])


def a_client_that_reads_late() -> None:
    """It reads nothing until its socket is full and 64 KiB of replies wait; then it reads: all is there within 50 ms,
    and the server, which is otherwise idle, is not woken by its further reading once nothing waits for it."""
    printed("format", "device")

    def once() -> str:
        with watched(most=0), serving(), process() as client:
            table = client.shm_open("/table", O_CREAT | O_RDWR, 0o600)
            client.ftruncate(table, 8192)
            client._socket.settimeout(TIMEOUT)
            # Replies of 64 KiB more than a socket takes: the last of them are not made before there is room.
            count = (socket_takes(8202) + 65536) // 8202
            for _ in range(count):
                client._socket.sendall(framed(client, shm_read_request(table, 0, 8192)))
            time.sleep(0.3)
            seen = len(calls())
            left = count * (10 + 8192)
            begun = time.monotonic()
            while there(client) < left:
                left -= len(client._socket.recv(4096))
            took = milliseconds(time.monotonic() - begun)
            time.sleep(0.3)
            before = len(calls())
            while left:
                left -= len(client._socket.recv(min(left, 4096)))
                time.sleep(0.01)
            after = calls()[before:]
        check(before > seen, "the server is not told of the room")
        check(not after, f"the server is woken by a client for whom nothing waits: {after[:4]}")
        print(f"on_time: a client that reads late has {count * 8202} bytes after {took:.1f} ms", flush=True)
        return f"all is there after {took:.1f} ms" if took > MOST + 20 * syncs() else ""

    tried(once)


def socket_takes(size: int) -> int:
    """How many bytes a socket takes in writes of this size before one would block."""
    one, other = socket.socketpair()
    with one, other:
        one.setblocking(False)
        taken = 0
        with suppress(BlockingIOError):
            while True:
                taken += one.send(bytes(size))
        return taken


def there(client: Client) -> int:
    """How many bytes the client could read now."""
    return struct.unpack("=i", fcntl.ioctl(client.fileno(), termios.FIONREAD, bytes(4)))[0]


def framed(client: Client, request: bytes) -> bytes:
    client._serial += 1
    return struct.pack(">II", 4 + len(request), client._serial) + request


# ---- a clock that is stepped


def build_step() -> None:
    source = Path(__file__).resolve().parent / "step_clock.c"
    subprocess.run(["cc", "-shared", "-fPIC", "-o", "step_clock.so", str(source)], check=True)


def step(seconds: float) -> None:
    """The server's clock is so many seconds ahead from now on."""
    with open(STEP, "r+b" if Path(STEP).exists() else "wb") as file:
        file.write(struct.pack("=q", round(1000 * seconds)))


@contextmanager
def stepped(said: str = "") -> Iterator[Server]:
    """A server whose clock is stepped by `step`. What it says is this, as a regular expression."""
    os.environ.update(LD_PRELOAD=os.path.abspath("step_clock.so"), STEP_FILE=os.path.abspath(STEP))
    try:
        server = Server(limits="small")
    finally:
        del os.environ["LD_PRELOAD"], os.environ["STEP_FILE"]
    try:
        yield server
        server.process.terminate()
        errors = server.process.communicate(timeout=TIMEOUT)[1]
        check(re.fullmatch(said, errors) is not None, f"the server says {errors!r}")
        os.remove("socket")
    finally:
        server.process.kill()


def wakes(server: Server) -> int:
    """How many times it has waited."""
    text = Path(f"/proc/{server.process.pid}/status").read_text()
    return int(re.search(r"^voluntary_ctxt_switches:\s*(\d+)", text, re.MULTILINE).group(1))


def waiting(waits: Waits, kind: int, seconds: float, now: float) -> tuple[int, int]:
    """A call that has to wait, by the server's clock: its serial and its error."""
    name, asked, error = waits.requests(seconds, now)[kind]
    return waits.client.send(asked), error


def ends_within(client: Client, wanted: tuple[int, int], seconds: float) -> None:
    begun = time.monotonic()
    check(ready(client, seconds), f"a call has not ended after {seconds} s")
    answer = client.receive()
    check(answer[:2] == wanted, f"{answer} is answered after {time.monotonic() - begun:.2f} s, and not {wanted}")


def stepped_forward() -> None:
    """What that makes due is ended within a second: relative timeouts too early, absolute deadlines right."""
    fresh()
    step(0)
    with stepped():
        for kind in range(4):
            waits = Waits()
            call = waiting(waits, kind, HOUR, time.time() + kind * 2 * HOUR)
            check(not ready(waits.client, 0.2), "it does not wait")
            step((kind + 1) * 2 * HOUR)
            ends_within(waits.client, call, 2)
            waits.client.close()


def stepped_back() -> None:
    """The device's clock stands until the system's has come up to it. A relative timeout is late by as much, a deadline
    that the device's clock has passed is over at once, and the server sleeps meanwhile."""
    fresh()
    step(0)
    with stepped() as server:
        waits = Waits()
        step(-HOUR)
        late = waiting(waits, 0, 0.1, 0)
        check(not ready(waits.client, 0.2), "a relative timeout has ended")
        other = process()
        shut = other.sem_open("/shut", 0)
        for seconds in (0.1, HOUR / 2):
            serial = other.send(sem_wait_request(shut, time.time() - HOUR + seconds))
            ends_within(other, (serial, errno.ETIMEDOUT), 1)
        before = wakes(server)
        check(not ready(waits.client, 2), "a relative timeout has ended")
        found = wakes(server) - before
        check(found <= 6, f"a server whose clock stands waits {found} times in two seconds")
        # Once the system's clock has come up to it the rest is as it was.
        step(0)
        ends_within(waits.client, late, 2)
        other.close()
        waits.client.close()


def ahead_at_the_start() -> None:
    """It says so, and serves. Less than a second is not said."""
    fresh()
    step(HOUR)
    with stepped(), process() as client:
        client.msgget(1, IPC_CREAT | 0o600)
    step(HOUR - 0.5)
    with stepped():
        pass
    step(0)
    with stepped(r"ipcd: the device's clock is (35[89]\d{4}|3600000) ms ahead of the system's\n"):
        waits = Waits()
        shut = waits.client.sem_open("/shut", 0)
        serial = waits.client.send(sem_wait_request(shut, time.time() + HOUR / 2))
        ends_within(waits.client, (serial, errno.ETIMEDOUT), 1)
        late = waiting(waits, 0, 0.1, 0)
        check(not ready(waits.client, 0.5), "a relative timeout has ended")
        step(HOUR)
        ends_within(waits.client, late, 2)
        waits.client.close()


TESTS = [
    on_an_idle_server,
    over_at_once,
    beside_clients_at_full_rate,
    times_of_records,
    without_descriptors,
]
WATCHED = [quiet, a_client_that_reads_late]
STEPPED = [stepped_forward, stepped_back, ahead_at_the_start]


def main() -> None:
    memory = "/dev/shm"
    tempfile.tempdir = memory if os.access(memory, os.W_OK) else None
    with in_a_folder(200):
        tests = list(TESTS)
        if build("on_time"):
            build_step()
            tests += WATCHED + STEPPED
        run_tests("on_time", tests)


if __name__ == "__main__":
    main()
