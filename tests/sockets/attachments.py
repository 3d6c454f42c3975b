"""System V segments on the built program as a server: each call by examples/client.py, what one client reads of what
another has written, who detaches how, and what is kept.

    python3 tests/sockets/attachments.py PROGRAM [SEED]

What is expected was reckoned from docs/PROTOCOL.md and the manual pages, and never taken from the program. It takes
some seconds.
"""

from __future__ import annotations

import errno
import os
import random
import signal
import subprocess
import sys
import threading
import time
from collections.abc import Callable
from pathlib import Path

sys.dont_write_bytecode = True
sys.path.insert(0, str(Path(__file__).resolve().parents[1] / "lib"))

from server import (  # noqa: E402
    SEED,
    Client,
    Server,
    as_user,
    check,
    in_a_folder,
    is_refused,
    killed,
    printed,
    process,
    run_tests,
    serving,
    small,
    until,
)
from client import (  # noqa: E402
    IPC_CREAT,
    IPC_EXCL,
    IPC_PRIVATE,
    O_CREAT,
    O_RDWR,
    SHM_DEST,
    SHM_RDONLY,
    Connection,
    ShmidStat,
    attached_write_request,
)

EXAMPLES = Path(__file__).resolve().parents[2] / "examples"
NEW = IPC_CREAT | 0o600
LARGEST = 1048576
PIECE = 8192

Refusals = list[tuple[int, Callable[[], object]]]


def are_refused(rows: Refusals) -> None:
    for wanted, call in rows:
        is_refused(call, wanted)


def equals(found: object, wanted: object) -> None:
    check(found == wanted, f"{found}, and not {wanted}")


def is_now(moment: int) -> None:
    check(abs(moment / 1000 - time.time()) < 10, f"{moment} is not now")


def is_gone(client: Client, shmid: int) -> bool:
    try:
        client.shmctl_stat(shmid)
    except OSError as refusal:
        return refusal.errno == errno.EINVAL
    return False


def listed(*segments: tuple[int, int, int, int]) -> None:
    """What `dump` prints: of each segment of uid 1000 and gid 100 its identifier, its key, its mode and its length."""
    wanted = ""
    for shmid, key, mode, length in segments:
        wanted += f"seg {shmid:10} {key:11} {mode:04o} {1000:10} {100:10} {length:10} {0:10}\n"
    equals(printed("dump", "device"), wanted)


def each_call() -> None:
    """Of all that may be wrong the first that is tested is answered."""
    with small(), process() as client, as_user(2000, 100) as group, as_user(0, 0) as root:
        equals(client.shmget(5, 100, IPC_CREAT | IPC_EXCL | 0o640), 1)
        equals(client.shmget(IPC_PRIVATE, 1024, 0o604), 2)
        stat = client.shmctl_stat(1)
        is_now(stat.ctime)
        equals(stat, ShmidStat(5, 1000, 100, 1000, 100, 0o640, 0, 0, stat.ctime, 1, 0, 0, 100))
        long = 65 * b"x"
        are_refused(
            [
                (errno.EEXIST, lambda: group.shmget(5, 101, IPC_CREAT | IPC_EXCL | 0o666)),
                (errno.EINVAL, lambda: group.shmget(5, 101, 0o666)),
                (errno.EACCES, lambda: group.shmget(5, 100, 0o666)),
                (errno.EINVAL, lambda: root.shmget(5, 101, 0)),
                (errno.ENOENT, lambda: client.shmget(6, 0, 0)),
                (errno.EINVAL, lambda: client.shmget(6, 0, NEW)),
                (errno.EINVAL, lambda: client.shmget(6, 1025, NEW)),
                (errno.ENOSPC, lambda: client.shmget(6, 1024, NEW)),
                (errno.EINVAL, lambda: root.shmat(3)),
                (errno.EACCES, lambda: group.shmat(1)),
                (errno.EINVAL, lambda: client.shmdt(0)),
                (errno.EBADF, lambda: client.attached_read(0, 0, 65)),
                (errno.EBADF, lambda: client.attached_write(0, 0, long)),
                (errno.EINVAL, lambda: group.shmctl_set(3, 0, 0, 0)),
                (errno.EPERM, lambda: group.shmctl_set(1, 0, 0, 0)),
                (errno.EINVAL, lambda: group.shmctl_rmid(0)),
                (errno.EPERM, lambda: group.shmctl_rmid(1)),
                (errno.EINVAL, lambda: group.shmctl_stat(3)),
            ]
        )
        equals((group.shmget(5, 0, 0o444), group.shmat(1, SHM_RDONLY), client.shmat(1)), (1, 0, 0))
        client.attached_write(0, 40, b"text")
        equals(group.attached_read(0, 39, 6), b"\0text\0")
        are_refused(
            [
                (errno.EBADF, lambda: group.attached_write(0, 0, long)),
                (errno.EINVAL, lambda: client.attached_write(0, 0, long)),
                (errno.EINVAL, lambda: client.attached_write(0, 99, b"ab")),
                (errno.EINVAL, lambda: client.attached_read(0, 0, 65)),
                (errno.EINVAL, lambda: client.attached_read(0, 37, 64)),
                (errno.EINVAL, lambda: client.attached_read(0, 2**64 - 1, 2)),
            ]
        )
        equals(client.attached_read(0, 36, 64), 4 * b"\0" + b"text" + bytes(56))
        equals(client.attached_read(0, 100, 0), b"")
        client.shmctl_set(1, 2000, 200, 0o7066)
        stat = root.shmctl_stat(1)
        is_now(stat.atime)
        equals(stat, ShmidStat(5, 2000, 200, 1000, 100, 0o66, stat.atime, 0, stat.ctime, 1, 1, 2, 100))
        # The owner's class gives nothing, but what is attached stays so.
        are_refused([(errno.EACCES, lambda: client.shmctl_stat(1)), (errno.EACCES, lambda: client.shmat(1))])
        equals(group.attached_read(0, 40, 4), b"text")


def among_descriptors() -> None:
    """Attachments have the lowest numbers that are free, among the other descriptors, and no other call takes them."""
    with small(), process() as client:
        client.shmget(1, 10, NEW)
        equals((client.sem_open("/s", O_CREAT, 0o600), client.shmat(1)), (0, 1))
        equals((client.shm_open("/m", O_CREAT | O_RDWR, 0o600), client.shmat(1, SHM_RDONLY)), (2, 3))
        are_refused(
            [
                (errno.EMFILE, lambda: client.shmat(1)),
                (errno.EINVAL, lambda: client.shmat(2)),
                (errno.EMFILE, lambda: client.sem_open("/s", 0)),
                (errno.EBADF, lambda: client.shm_close(1)),
                (errno.EBADF, lambda: client.shm_read(1, 0, 1)),
                (errno.EBADF, lambda: client.ftruncate(1, 0)),
                (errno.EBADF, lambda: client.mq_getattr(3)),
                (errno.EINVAL, lambda: client.sem_post(3)),
                (errno.EINVAL, lambda: client.shmdt(0)),
                (errno.EINVAL, lambda: client.shmdt(2)),
                (errno.EBADF, lambda: client.attached_read(2, 0, 0)),
                (errno.EBADF, lambda: client.attached_write(3, 0, b"")),
            ]
        )
        client.shmdt(1)
        client.sem_close(0)
        equals((client.shmat(1), client.shm_open("/m", O_RDWR)), (0, 1))
        is_refused(lambda: client.shmdt(1), errno.EINVAL)


def shared() -> None:
    """What one writes the others read, each 8192 bytes at one moment: a writer fills the segment with one byte after
    another, and no read finds two of them."""
    printed("format", "device")
    with serving(), process() as reader:
        shmid = reader.shmget(IPC_PRIVATE, LARGEST, NEW)
        attachment = reader.shmat(shmid, SHM_RDONLY)
        is_refused(lambda: reader.shmget(IPC_PRIVATE, 1, NEW), errno.ENOSPC)
        stops = threading.Event()

        def writes() -> None:
            with process() as writer:
                mine, byte = writer.shmat(shmid), 0
                while not stops.is_set():
                    byte = byte % 255 + 1
                    writer.attached_write(mine, LARGEST - PIECE, PIECE * bytes([byte]))

        writer = threading.Thread(target=writes, daemon=True)
        writer.start()
        seen: set[int] = set()
        end = time.monotonic() + 20
        while len(seen) < 20 and time.monotonic() < end:
            found = set(reader.attached_read(attachment, LARGEST - PIECE, PIECE))
            check(len(found) == 1, f"{found} are read at one moment")
            seen |= found
        stops.set()
        writer.join(20)
        check(len(seen) >= 20, f"{len(seen)} writes are seen")
        equals(reader.attached_read(attachment, 0, PIECE), bytes(PIECE))
        is_refused(lambda: reader.attached_read(attachment, 0, PIECE + 1), errno.EINVAL)
        reader.shmdt(attachment)
        # Once the writer has left, and its attachment with it, the bytes are free again.
        reader.shmctl_rmid(shmid)
        until(lambda: is_gone(reader, shmid), "a removed segment stays")
        numbers = [reader.shmget(IPC_PRIVATE, LARGEST // 32, NEW) for _ in range(32)]
        equals(numbers, list(range(2, 34)))
        is_refused(lambda: reader.shmget(IPC_PRIVATE, 1, NEW), errno.ENOSPC)


def removed() -> None:
    """A removed segment goes when its last attachment is given up: by shmdt, by a close of the connection, by a fault
    of the stream, or by a kill of the client."""
    with small(), process() as client:
        for number, ends in enumerate((detaches, closes, breaks, dies), 1):
            other, pid = client_that_ends(ends)
            shmid = client.shmget(7, 10, NEW)
            equals(shmid, number)
            attachment = client.shmat(shmid)
            other.shmat(shmid)
            other.shmat(shmid, SHM_RDONLY)
            client.attached_write(attachment, 0, b"kept")
            client.shmctl_rmid(shmid)
            is_refused(lambda: client.shmget(7, 0, 0), errno.ENOENT)
            stat = client.shmctl_stat(shmid)
            equals((stat.key, stat.mode, stat.nattch, stat.dtime), (0, SHM_DEST | 0o600, 3, 0))
            client.shmctl_rmid(shmid)
            client.shmctl_set(shmid, 1000, 100, 0o660)
            equals(client.attached_read(attachment, 0, 4), b"kept")
            ends(other)
            until(lambda: client.shmctl_stat(shmid).nattch == 1, "it is attached for ever")
            stat = client.shmctl_stat(shmid)
            is_now(stat.dtime)
            equals((stat.mode, stat.lpid), (SHM_DEST | 0o660, pid))
            client.shmdt(attachment)
            is_refused(lambda: client.shmctl_stat(shmid), errno.EINVAL)
            is_refused(lambda: client.shmat(shmid), errno.EINVAL)


class Other:
    """A client in a process of its own, which does what it is told."""

    CODE = """
from client import *
connection = Connection("socket")
print(connection.hello(1000, 100), flush=True)
while True:
    print(eval(input()), flush=True)
"""

    def __init__(self) -> None:
        where = {**os.environ, "PYTHONPATH": str(EXAMPLES), "PYTHONDONTWRITEBYTECODE": "1"}
        pipes = dict.fromkeys(("stdin", "stdout"), subprocess.PIPE)
        self.process = subprocess.Popen([sys.executable, "-c", self.CODE], text=True, env=where, **pipes)
        self.pid = int(self.process.stdout.readline())

    def does(self, text: str) -> str:
        self.process.stdin.write(text + "\n")
        self.process.stdin.flush()
        return self.process.stdout.readline().strip()

    def shmat(self, shmid: int, flags: int = 0) -> int:
        return int(self.does(f"connection.shmat({shmid}, {flags})"))

    def kill(self) -> None:
        self.process.send_signal(signal.SIGKILL)
        self.process.communicate()


def client_that_ends(ends: Callable[..., None]) -> tuple[Client | Other, int]:
    if ends is dies:
        other = Other()
        return other, other.pid
    client = Client()
    return client, client.hello(1000, 100)


def detaches(client: Client) -> None:
    client.shmdt(1)
    client.shmdt(0)


def closes(client: Client) -> None:
    client.close()


def breaks(client: Client) -> None:
    client.send_bytes(bytes(4))


def dies(other: Other) -> None:
    other.kill()


def kept() -> None:
    """A server that is killed gives all attachments up: those of the greatest pid last. What was removed is gone."""
    printed("format", "device", "--small")
    with killed() as server, process() as client, process() as two:
        equals((client.shmget(-5, 1000, NEW), client.shmget(6, 10, NEW)), (1, 2))
        for shmid in (1, 2):
            two.shmat(shmid)
            client.shmat(shmid)
        client.attached_write(0, 990, b"kept")
        client.shmctl_rmid(2)
        equals(client.shmctl_stat(1)[9:12], (1, 1, 2))
        before = int(1000 * time.time())
        # Both clients are there when it is killed.
        server.stands_still()
    with killed(), process() as client:
        stat = client.shmctl_stat(1)
        # dtime is the server's clock as it was.
        check(stat.atime <= stat.dtime <= before + 1000, f"{stat}, and it was killed at {before}")
        equals((stat.key, stat.mode, stat.cpid, stat.lpid, stat.nattch, stat.segsz), (-5, 0o600, 1, 2, 0, 1000))
        are_refused([(errno.EINVAL, lambda: client.shmctl_stat(2)), (errno.ENOENT, lambda: client.shmget(6, 0, 0))])
        equals(client.shmget(6, 5, NEW), 3)
        attachment = client.shmat(client.shmget(-5, 0, 0))
        equals(client.attached_read(attachment, 980, 20), bytes(10) + b"kept" + bytes(6))
        client.attached_write(attachment, 0, b"again")
    listed((1, -5, 0o600, 1000), (3, 6, 0o600, 5))
    with serving(limits="small"), process() as client:
        equals(client.attached_read(client.shmat(1, SHM_RDONLY), 0, 6), b"again\0")


def kept_in_order() -> None:
    """The server is killed while a client writes a number into one segment and then into another, again and again, 20
    requests ahead. Both are kept in this order, and all that were answered."""
    rng = random.Random(SEED)
    printed("format", "device", "--small")
    last = 0
    for turn in range(10):
        server = Server(limits="small")
        client = process()
        places = [client.shmat(client.shmget(key, 4, NEW)) for key in (1, 2)]
        first, then = (int.from_bytes(client.attached_read(place, 0, 4), "big") for place in places)
        ahead = first + then - last
        found = f"seed {SEED}, turn {turn}: {first} and {then} are kept, and {last} requests were answered"
        check(first - then in (0, 1) and 0 <= ahead <= 20, found)
        for place in places:
            client.attached_write(place, 0, bytes(4))
        last = hurries(server, client, places, rng.uniform(0.05, 0.2))


def hurries(server: Server, client: Client, places: list[int], seconds: float) -> int:
    """Writes until the server is killed, after so many seconds. How many requests were answered."""
    killer = threading.Timer(seconds, server.process.kill)
    killer.start()
    sent = answered = 0
    try:
        while True:
            while sent < answered + 20:
                number = (sent // 2 + 1).to_bytes(4, "big")
                client.send(attached_write_request(places[sent % 2], 0, number))
                sent += 1
            check(client.receive()[1] == 0, "a request is refused")
            answered += 1
    except (ConnectionResetError, BrokenPipeError):
        pass
    client.close()
    killer.join()
    server.process.wait()
    os.remove("socket")
    return answered


TESTS = [each_call, among_descriptors, shared, removed, kept, kept_in_order]


def main() -> None:
    with in_a_folder(120):
        run_tests("attachments", TESTS)


if __name__ == "__main__":
    main()
