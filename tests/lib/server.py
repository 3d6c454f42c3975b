"""A server that is tested, its device and its clients. All paths are in the working folder."""

from __future__ import annotations

import errno
import os
import random
import resource
import signal
import socket
import stat
import struct
import subprocess
import sys
import tempfile
import threading
import time
from collections.abc import Callable, Iterator
from contextlib import contextmanager
from pathlib import Path

sys.path.insert(0, str(Path(__file__).resolve().parents[2] / "examples"))

from client import IPC_NOWAIT, Connection, hello_request, msgctl_stat_request, msgrcv_request  # noqa: E402

PROGRAM = os.path.realpath(sys.argv[1])
SEED = int(sys.argv[2]) if len(sys.argv) > 2 else random.randrange(2**32)
SECTORS = {"standard": 252440, "small": 1366}
# The same of version 3, with a journal of 257 sectors.
SECTORS_OF_THREE = {"standard": 91426, "small": 322}
TIMEOUT = 20


def check(holds: bool, text: str) -> None:
    if not holds:
        raise AssertionError(text)


def until(condition: Callable[[], bool], text: str) -> None:
    """Waits until the condition holds."""
    end = time.monotonic() + TIMEOUT
    while not condition():
        check(time.monotonic() < end, text)
        time.sleep(0.01)


def hangs(*_: object) -> None:
    raise AssertionError("it hangs")


@contextmanager
def in_a_folder(seconds: int) -> Iterator[None]:
    """Works in a folder of its own, no longer than so many seconds."""
    signal.signal(signal.SIGALRM, hangs)
    signal.alarm(seconds)
    with tempfile.TemporaryDirectory() as folder:
        os.chdir(folder)
        yield


def run_tests(name: str, tests: list[Callable[[], None]]) -> None:
    """Runs the tests, one after another, and says how long they took up to then."""
    begin = time.monotonic()
    for test in tests:
        test()
        print(f"{name}: {test.__name__}, {time.monotonic() - begin:.1f} s", flush=True)
    print(f"{name}: {len(tests)} tests, each as it should be")


def run(*words: str) -> subprocess.CompletedProcess[str]:
    """Runs the program to its end."""
    return subprocess.run([PROGRAM, *words], capture_output=True, text=True, timeout=TIMEOUT)


def printed(*words: str) -> str:
    """What the program prints. It ends well."""
    ended = run(*words)
    check((ended.returncode, ended.stderr) == (0, ""), f"{words}: {ended}")
    return ended.stdout


class Server:
    """A server of a device, which is ready."""

    def __init__(
        self,
        *words: str,
        at: str = "socket",
        limits: str = "standard",
        sectors: int = 0,
        prepare: Callable[[], None] | None = None,
    ) -> None:
        """The device has as many sectors as one of version 2 with these limits, or so many: it is of version 3."""
        self.at = at
        self.sectors = sectors or SECTORS[limits]
        self.process = subprocess.Popen(
            [PROGRAM, "serve", "device", at, *words],
            stdout=subprocess.PIPE,
            stderr=subprocess.PIPE,
            text=True,
            preexec_fn=prepare,
        )
        version = "" if self.sectors == SECTORS[limits] else "version 3, "
        wanted = f"serving device, {self.sectors} sectors, on {at}, {version}{limits} limits\n"
        line = self.process.stdout.readline()
        if line != wanted:
            self.process.kill()
            check(False, f"{line!r} is printed, and not {wanted!r}: {self.process.communicate()}")

    def ends(self, status: int, said: str = "") -> None:
        """It ends with this status and these words. Its socket is left, and is removed here."""
        output, errors = self.process.communicate(timeout=TIMEOUT)
        ended = (self.process.returncode, output, errors)
        check(ended == (status, "", said), f"the server ends with {ended}")
        check(stat.S_ISSOCK(os.stat(self.at).st_mode), "the socket is not left")
        os.remove(self.at)

    def stop(self, number: signal.Signals = signal.SIGTERM) -> None:
        self.process.send_signal(number)
        self.ends(-number)

    def stands_still(self) -> None:
        """From now on it sees nothing of what its clients do, until it goes on or is killed."""
        self.process.send_signal(signal.SIGSTOP)
        os.waitid(os.P_PID, self.process.pid, os.WSTOPPED)

    @contextmanager
    def stopped(self) -> Iterator[None]:
        """It stands still meanwhile. What its clients do, it sees in one turn when it goes on."""
        self.stands_still()
        yield
        self.process.send_signal(signal.SIGCONT)

    def descriptors(self) -> int:
        return len(os.listdir(f"/proc/{self.process.pid}/fd"))

    def file_writes(self) -> int:
        counts = Path(f"/proc/{self.process.pid}/io").read_text()
        return int(counts.partition("syscw:")[2].split()[0])

    def is_idle(self) -> bool:
        """In half a second it writes nothing."""
        before = self.file_writes()
        time.sleep(0.5)
        return self.file_writes() == before

    def memory(self) -> int:
        """What it has in memory, in kB."""
        status = Path(f"/proc/{self.process.pid}/status").read_text()
        return int(status.partition("VmRSS:")[2].split()[0])


def full_disk() -> None:
    """There is no room after the journal, so the first save fails."""
    signal.signal(signal.SIGXFSZ, signal.SIG_IGN)
    resource.setrlimit(resource.RLIMIT_FSIZE, (260 * 512, 260 * 512))


@contextmanager
def serving(*words: str, **named: object) -> Iterator[Server]:
    """A server that is stopped at the end, and killed if something fails."""
    server = Server(*words, **named)
    try:
        yield server
        server.stop()
    finally:
        server.process.kill()


@contextmanager
def small() -> Iterator[Server]:
    """A server of a new device with small limits."""
    printed("format", "device", "--small")
    with serving(limits="small") as server:
        yield server


@contextmanager
def of_version_3(*words: str, **named: object) -> Iterator[Server]:
    """A server of a new device of version 3, which `ipcd format` makes with these words."""
    sectors = int(printed("format", "device", "--journal", "257", *words).split()[1])
    with serving(limits="small" if "--small" in words else "standard", sectors=sectors, **named) as server:
        yield server


@contextmanager
def killed(sectors: int = 0) -> Iterator[Server]:
    """A server with small limits that is killed at the end."""
    server = Server(limits="small", sectors=sectors)
    try:
        yield server
        server.stop(signal.SIGKILL)
    finally:
        server.process.kill()


class Client(Connection):
    """A connection that may also send bytes which are no request."""

    def __init__(self) -> None:
        super().__init__("socket", TIMEOUT)

    def hello(self, uid: int, gid: int) -> int:
        """Its pid, after which a server of a device of version 3 answers the version."""
        body = self.call(hello_request(uid, gid))
        check(len(body) == 4 or body[4:] == (3).to_bytes(4, "big"), f"{body.hex()} is answered to a HELLO")
        return int.from_bytes(body[:4], "big")

    def fileno(self) -> int:
        return self._socket.fileno()

    def send_bytes(self, data: bytes) -> None:
        self._write(data)

    def send_no_more(self) -> None:
        self._socket.shutdown(socket.SHUT_WR)

    def take(self, size: int) -> bytes:
        """The next so many bytes that come."""
        self._fill(size, self._end())
        data = bytes(self._read[:size])
        del self._read[:size]
        return data

    def is_answered(self, frames: bytes) -> None:
        """The next bytes that come are these frames."""
        read = self.take(len(frames))
        check(read == frames, f"{read.hex()} comes, and not {frames.hex()}")

    def is_ended(self) -> None:
        """The server has ended the connection, and sends no more."""
        try:
            self.take(1)
        except ConnectionResetError:
            return
        check(False, "more comes after the last frame")


def process() -> Client:
    """A client that is a process."""
    return as_user(1000, 100)


def as_user(uid: int, gid: int) -> Client:
    client = Client()
    client.hello(uid, gid)
    return client


def until_it_waits(client: Client, request: bytes) -> int:
    """A client sends a call, which waits then: the next request is EALREADY. The serial of the call."""
    serial = client.send(request)
    after = client.send(msgctl_stat_request(0))
    answer = client.receive()
    check(answer == (after, errno.EALREADY, b""), f"{answer} is answered while a call waits")
    return serial


def is_refused(call: Callable[[], object], wanted: int) -> None:
    try:
        found = call()
    except OSError as refusal:
        check(refusal.errno == wanted, f"{refusal}, and not {errno.errorcode[wanted]}")
        return
    check(False, f"{found} is answered, and not {errno.errorcode[wanted]}")


def until_done(call: Callable[[], object], before: int) -> None:
    """Makes a call again and again, until it is no longer refused so."""

    def is_done() -> bool:
        try:
            call()
        except OSError as refusal:
            check(refusal.errno == before, f"{refusal}, and not {errno.errorcode[before]}")
            return False
        return True

    until(is_done, f"{errno.errorcode[before]} for ever")


def is_answered(client: Client, serial: int, error: int = 0, body: bytes = b"") -> None:
    answer = client.receive()
    check(answer == (serial, error, body), f"{answer} is answered, and not {(serial, error, body)}")


class Worker(threading.Thread):
    """A client in a thread of its own. If it fails, so does the test."""

    def __init__(self, number: int, queue: int) -> None:
        super().__init__(daemon=True)
        self.number = number
        self.queue = queue
        self.rng = random.Random(f"{SEED} {number}")
        self.failure: Exception | None = None

    def run(self) -> None:
        try:
            self.work()
        except Exception as failure:
            self.failure = failure

    def work(self) -> None:
        raise NotImplementedError

    def look(self) -> None:
        if self.failure:
            raise self.failure

    def finish(self) -> None:
        self.join(2 * TIMEOUT)
        self.look()
        check(not self.is_alive(), f"client {self.number} hangs")


def frame(serial: int, request: bytes) -> bytes:
    return struct.pack(">II", 4 + len(request), serial) + request


def reply(serial: int, error: int, body: bytes = b"") -> bytes:
    return struct.pack(">IIH", 6 + len(body), serial, error) + body


def drain(client: Client, queue: int, mtype: int = 0) -> list[bytes]:
    """Takes all messages of a type off a queue, a hundred requests at a time."""
    texts: list[bytes] = []
    while True:
        for _ in range(100):
            client.send(msgrcv_request(queue, 8192, mtype, IPC_NOWAIT))
        replies = [client.receive() for _ in range(100)]
        texts += [body[8:] for _, error, body in replies if error == 0]
        refusals = {error for _, error, _ in replies if error}
        check(refusals <= {errno.ENOMSG}, f"receives are refused: {refusals}")
        if refusals:
            return texts


def listing(queues: dict[int, list[bytes]]) -> str:
    """What `dump` prints of queues with these texts. Their keys are their identifiers."""
    row = "msg {0:10} {0:11} 0600       1000        100 {1:10} {2:10}\n"
    return "".join(row.format(q, sum(map(len, texts)), len(texts)) for q, texts in queues.items())
