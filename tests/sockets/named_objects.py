"""Named semaphores and shared memory segments, on the built program as a server: each call by examples/client.py, who
goes on after a post, what one client reads of what another has written, and what is kept.

    python3 tests/sockets/named_objects.py PROGRAM [SEED]

What is expected was reckoned from docs/PROTOCOL.md and the manual pages, and never taken from the program. It takes
some seconds.
"""

from __future__ import annotations

import errno
import os
import random
import sys
import threading
import time
from collections.abc import Callable
from pathlib import Path

sys.dont_write_bytecode = True
sys.path.insert(0, str(Path(__file__).resolve().parents[1] / "lib"))

from device_layout import shown  # noqa: E402
from server import (  # noqa: E402
    SEED,
    Client,
    Server,
    Worker,
    as_user,
    check,
    in_a_folder,
    is_answered,
    is_refused,
    killed,
    printed,
    process,
    run_tests,
    serving,
    small,
    until_done,
    until_it_waits,
)
from client import (  # noqa: E402
    O_CREAT,
    O_EXCL,
    O_RDONLY,
    O_RDWR,
    O_TRUNC,
    O_WRONLY,
    ShmStat,
    sem_post_request,
    sem_wait_request,
    shm_write_request,
)

NEW = O_CREAT | O_RDWR
MODE = 0o600
GREATEST = 2**31 - 1
PAIRS = 30
TURNS = 20

Refusals = list[tuple[int, Callable[[], object]]]


def are_refused(rows: Refusals) -> None:
    for wanted, call in rows:
        is_refused(call, wanted)


def has_value(client: Client, sem: int, wanted: int) -> None:
    found = client.sem_getvalue(sem)
    check(found == wanted, f"the value is {found}, and not {wanted}")


def has_bytes(client: Client, fd: int, offset: int, wanted: bytes) -> None:
    found = client.shm_read(fd, offset, len(wanted))
    check(found == wanted, f"{found} is read, and not {wanted}")


def listed(*objects: tuple[str, int, int, bytes]) -> None:
    """What `dump` prints: of each object of uid 1000 and gid 100 its kind, its mode, its value or length, its name."""
    wanted = ""
    for kind, mode, number, name in objects:
        wanted += f"{kind} {mode:04o} {1000:10} {100:10} {number:10} {shown(name)}\n"
    found = printed("dump", "device")
    check(found == wanted, f"{found} is listed, and not {wanted}")


# ---- semaphores


def each_call_on_semaphores() -> None:
    """Of all that may be wrong the first that is tested is answered. Each open has a descriptor of its own."""
    with small(), process() as client, as_user(2000, 100) as group, as_user(0, 0) as root:
        check(client.sem_open("/s", O_CREAT | O_EXCL, 0o7640, 2) == 0, "another descriptor")
        check(client.sem_open("/s", O_CREAT | 0x10000, 0o777, 2**32 - 1) == 1, "another descriptor")
        check(root.sem_open("/s", 0) == 0, "another descriptor")
        root.sem_post(0)
        client.sem_wait(1)
        client.sem_trywait(0)
        has_value(client, 1, 1)
        are_refused(
            [
                (errno.EINVAL, lambda: client.sem_open("s", O_CREAT)),
                (errno.ENAMETOOLONG, lambda: client.sem_open("/" + 251 * "s", O_CREAT)),
                (errno.EEXIST, lambda: group.sem_open("/s", O_CREAT | O_EXCL, MODE, 2**31)),
                # To read is not enough.
                (errno.EACCES, lambda: group.sem_open("/s", O_RDONLY)),
                (errno.EACCES, lambda: group.sem_unlink("/s")),
                (errno.ENOENT, lambda: client.sem_open("/t", O_RDWR, MODE, 2**31)),
                (errno.EINVAL, lambda: root.sem_open("/t", O_CREAT, MODE, 2**31)),
                (errno.ENOENT, lambda: root.sem_unlink("/t")),
                (errno.EINVAL, lambda: client.sem_post(2)),
                (errno.EINVAL, lambda: client.sem_wait(2)),
                (errno.EINVAL, lambda: client.sem_trywait(2)),
                (errno.EINVAL, lambda: client.sem_getvalue(2)),
                (errno.EBADF, lambda: client.sem_close(2)),
            ]
        )
        check(group.sem_open("/t", O_CREAT, 0, GREATEST) == 0, "another descriptor")
        are_refused(
            [
                (errno.EACCES, lambda: group.sem_open("/t", 0)),
                (errno.EOVERFLOW, lambda: group.sem_post(0)),
                (errno.EINVAL, lambda: client.sem_open("/u", O_CREAT, MODE, 2**31)),
                (errno.ENOSPC, lambda: client.sem_open("/u", O_CREAT, MODE, GREATEST)),
            ]
        )
        has_value(group, 0, GREATEST)
        # An unlinked one lives, and counts, until its last descriptor is closed, also by an exit.
        root.sem_unlink("/s")
        client.sem_close(0)
        client.sem_close(1)
        is_refused(lambda: client.sem_open("/s", O_CREAT, MODE, 5), errno.ENOSPC)
        has_value(root, 0, 1)
        root.close()
        until_done(lambda: client.sem_open("/s", O_CREAT, MODE, 5), errno.ENOSPC)
        has_value(client, 0, 5)


def waits_in_order() -> None:
    """A post lets the first go on who waits. What is interrupted, and who leaves, takes nothing."""
    with small(), process() as client, process() as two, process() as three, process() as four:
        for each in client, two, three, four:
            check(each.sem_open("/s", O_CREAT, MODE, 0) == 0, "another descriptor")
        waits = [(each, until_it_waits(each, sem_wait_request(0))) for each in (three, two, four)]
        is_refused(lambda: client.sem_trywait(0), errno.EAGAIN)
        for each, serial in waits:
            client.sem_post(0)
            is_answered(each, serial)
            # It is at 0 again, and those who came later wait still.
            has_value(each, 0, 0)
        serial = until_it_waits(two, sem_wait_request(0))
        two.interrupt()
        is_answered(two, serial, errno.EINTR)
        until_it_waits(three, sem_wait_request(0))
        three.close()
        serial = until_it_waits(four, sem_wait_request(0))
        until_done(lambda: process().close(), errno.ENFILE)
        # Its name may go while it is waited for.
        client.sem_unlink("/s")
        two.sem_post(0)
        is_answered(four, serial)
        two.sem_post(0)
        two.sem_post(0)
        client.sem_wait(0)
        has_value(two, 0, 1)


def deadlines() -> None:
    """ETIMEDOUT when a deadline has come, and not before. A call that need not wait does not look at it."""
    with small(), process() as client, process() as other:
        for each in client, other:
            each.sem_open("/s", O_CREAT, MODE, 0)
        begun = time.monotonic()
        is_refused(lambda: client.sem_wait(0, 0.3), errno.ETIMEDOUT)
        passed = time.monotonic() - begun
        check(0.29 <= passed < 5, f"it was over after {passed} seconds")
        is_answered(client, client.send(sem_wait_request(0, 0)), errno.ETIMEDOUT)
        other.sem_post(0)
        is_answered(client, client.send(sem_wait_request(0, 0)))
        serial = until_it_waits(client, sem_wait_request(0, time.time() + 10))
        other.sem_post(0)
        is_answered(client, serial)


# ---- segments


def each_call_on_segments() -> None:
    """Of all that may be wrong the first that is tested is answered. An open that is refused cuts nothing."""
    with small(), process() as client, as_user(2000, 100) as group, as_user(0, 0) as root:
        check(client.shm_open("/m", NEW | O_EXCL, 0o7640) == 0, "another descriptor")
        check(client.shm_stat(0) == ShmStat(0, 1000, 100, 0o640), "another record")
        client.ftruncate(0, 100)
        client.shm_write(0, 40, b"text")
        check(group.shm_open("/m", O_EXCL | O_RDONLY) == 0, "another descriptor")
        check(client.shm_open("/m", O_CREAT | O_RDONLY, 0o777) == 1, "another descriptor")
        long = 65 * b"x"
        are_refused(
            [
                (errno.EINVAL, lambda: client.shm_open("m", NEW)),
                (errno.ENAMETOOLONG, lambda: client.shm_open("/" + 255 * "m", O_CREAT | O_WRONLY)),
                *((errno.EINVAL, lambda access=access: client.shm_open("/m", O_TRUNC | access)) for access in (1, 3)),
                (errno.EEXIST, lambda: group.shm_open("/m", NEW | O_EXCL | O_TRUNC)),
                (errno.EACCES, lambda: group.shm_open("/m", O_RDWR)),
                (errno.EACCES, lambda: group.shm_open("/m", O_RDONLY | O_TRUNC)),
                (errno.EACCES, lambda: group.shm_unlink("/m")),
                (errno.ENOENT, lambda: group.shm_open("/n", O_RDWR | O_TRUNC)),
                (errno.ENOENT, lambda: group.shm_unlink("/n")),
                *((errno.EBADF, lambda fd=fd: client.ftruncate(fd, 2049)) for fd in (1, 2)),
                *((errno.EBADF, lambda fd=fd: client.shm_write(fd, 2**64 - 1, long)) for fd in (1, 2)),
                (errno.EBADF, lambda: client.shm_read(2, 0, 65)),
                (errno.EBADF, lambda: client.shm_stat(2)),
                (errno.EBADF, lambda: client.shm_close(2)),
                (errno.ENOSPC, lambda: client.ftruncate(0, 2049)),
                (errno.ENOSPC, lambda: client.ftruncate(0, 2**64 - 1)),
                (errno.EINVAL, lambda: client.shm_write(0, 0, long)),
                (errno.EINVAL, lambda: client.shm_read(0, 0, 65)),
                (errno.EINVAL, lambda: client.shm_write(0, 98, b"abc")),
                (errno.EINVAL, lambda: client.shm_read(0, 2**64 - 1, 2)),
            ]
        )
        check(group.shm_stat(0) == ShmStat(100, 1000, 100, 0o640), "another record")
        has_bytes(group, 0, 40, b"text")
        # Uid 0 may do all, and O_TRUNC cuts for all.
        check(root.shm_open("/m", O_RDWR | O_TRUNC) == 0, "another descriptor")
        check(client.shm_stat(1).length == 0, "it is not cut")
        root.ftruncate(0, 60)
        has_bytes(client, 0, 0, bytes(60))


def shared() -> None:
    """What one client writes another reads, in a segment of as many bytes as all may have together."""
    printed("format", "device")
    most = 1 << 20
    with serving(), process() as writer, process() as reader:
        check(writer.shm_open("/m", NEW, MODE) == 0, "another descriptor")
        check(reader.shm_open("/m", O_RDONLY) == 0, "another descriptor")
        writer.ftruncate(0, most)
        is_refused(lambda: writer.ftruncate(0, most + 1), errno.ENOSPC)
        rng = random.Random(SEED)
        model = bytearray(most)
        for _ in range(30):
            size = rng.choice((0, 1, 511, 8191, 8192))
            offset = rng.choice((0, most - size, rng.randrange(most - size + 1)))
            model[offset : offset + size] = data = rng.randbytes(size)
            writer.shm_write(0, offset, data)
            at = max(0, min(most - 8192, offset - rng.randrange(8192)))
            has_bytes(reader, 0, at, bytes(model[at : at + 8192]))
        is_refused(lambda: reader.shm_read(0, 0, 8193), errno.EINVAL)
        for offset in range(0, most, 8192):
            has_bytes(reader, 0, offset, bytes(model[offset : offset + 8192]))
        # What is unlinked takes its bytes until the last closes it.
        writer.shm_unlink("/m")
        check(writer.shm_open("/m", NEW, MODE) == 1, "another descriptor")
        is_refused(lambda: writer.ftruncate(1, 1), errno.ENOSPC)
        writer.shm_close(0)
        is_refused(lambda: writer.ftruncate(1, 1), errno.ENOSPC)
        has_bytes(reader, 0, most - 8192, bytes(model[-8192:]))
        reader.close()
        until_done(lambda: writer.ftruncate(1, most), errno.ENOSPC)
        has_bytes(writer, 1, 0, bytes(8192))


# ---- both


class Hander(Worker):
    """One of a pair. It waits at its semaphore, counts in their segment, and posts that of the other."""

    def __init__(self, number: int) -> None:
        super().__init__(number, number // 2)

    def work(self) -> None:
        pair, second = divmod(self.number, 2)
        with process() as client:
            sems = [client.sem_open(f"/{pair}-{one}", O_CREAT, MODE, 1 - one) for one in (0, 1)]
            count = client.shm_open(f"/{pair}", NEW, MODE)
            client.ftruncate(count, 4)
            for turn in range(TURNS):
                client.sem_wait(sems[second])
                number = 2 * turn + second
                has_bytes(client, count, 0, number.to_bytes(4, "big"))
                client.shm_write(count, 0, (number + 1).to_bytes(4, "big"))
                client.sem_post(sems[1 - second])


def handed_over() -> None:
    """Thirty pairs of clients, each of which takes turns."""
    printed("format", "device")
    with serving():
        workers = [Hander(number) for number in range(2 * PAIRS)]
        for worker in workers:
            worker.start()
        for worker in workers:
            worker.finish()
    sems = sorted((f"/{pair}-{one}".encode(), 1 - one) for pair in range(PAIRS) for one in (0, 1))
    names = sorted(f"/{pair}".encode() for pair in range(PAIRS))
    listed(*(("psm", MODE, value, name) for name, value in sems), *(("shm", MODE, 4, name) for name in names))
    with serving(), process() as client:
        for name in names:
            fd = client.shm_open(name, O_RDONLY)
            has_bytes(client, fd, 0, (2 * TURNS).to_bytes(4, "big"))
            client.shm_close(fd)


def kept() -> None:
    """A killed server leaves what has a name. What was unlinked, descriptors and calls that wait are gone."""
    every_byte = b"/" + bytes(byte for byte in range(1, 256) if byte != ord("/"))
    longest = every_byte[:251]
    printed("format", "device", "--small")
    with killed(), process() as client, process() as other:
        check([client.sem_open(name, O_CREAT, 0o604, 3) for name in ("/gone", longest)] == [0, 1], "other descriptors")
        check([client.shm_open(name, NEW, 0o640) for name in ("/gone", every_byte)] == [2, 3], "other descriptors")
        client.ftruncate(2, 1000)
        client.ftruncate(3, 1048)
        client.shm_write(3, 1000, 48 * b"\xa5")
        client.sem_wait(1)
        other.sem_open("/gone", 0)
        for _ in range(3):
            other.sem_wait(0)
        client.sem_unlink("/gone")
        client.shm_unlink("/gone")
        until_it_waits(other, sem_wait_request(0))
    listed(("psm", 0o604, 2, longest), ("shm", 0o640, 1048, every_byte))
    with killed(), process() as client:
        are_refused(
            [
                (errno.EINVAL, lambda: client.sem_getvalue(1)),
                (errno.EBADF, lambda: client.shm_stat(3)),
                (errno.ENOENT, lambda: client.sem_open("/gone", 0)),
                (errno.ENOENT, lambda: client.shm_open("/gone", 0)),
            ]
        )
        check(client.sem_open(longest, 0) == 0, "another descriptor")
        check(client.shm_open(every_byte, O_RDWR) == 1, "another descriptor")
        has_value(client, 0, 2)
        check(client.shm_stat(1) == ShmStat(1048, 1000, 100, 0o640), "another record")
        has_bytes(client, 1, 990, 10 * b"\0" + 48 * b"\xa5")
        # What the unlinked one had is free again.
        client.ftruncate(1, 2048)
        client.ftruncate(1, 1001)
        client.sem_post(0)
        check(client.sem_open("/gone", O_CREAT, MODE, 0) == 2, "another descriptor")
        check(client.shm_open("/gone", NEW, MODE) == 3, "another descriptor")
    rows = [("psm", 0o604, 3, longest), ("psm", MODE, 0, b"/gone")]
    listed(*rows, ("shm", 0o640, 1001, every_byte), ("shm", MODE, 0, b"/gone"))
    with serving(limits="small"), process() as client:
        client.shm_open(every_byte, O_RDONLY)
        has_bytes(client, 0, 999, b"\0\xa5")
        is_refused(lambda: client.shm_write(0, 0, b"x"), errno.EBADF)


def kept_in_order() -> None:
    """The server is killed while a client writes a number and posts, again and again, 20 requests ahead. As many posts
    are kept as writes, or one write more, and all that were answered."""
    rng = random.Random(SEED)
    printed("format", "device", "--small")
    last = 0
    for turn in range(10):
        server = Server(limits="small")
        client = process()
        sem = client.sem_open("/s", O_CREAT, MODE, 0)
        count = client.shm_open("/m", NEW, MODE)
        client.ftruncate(count, 4)
        posts = client.sem_getvalue(sem)
        number = int.from_bytes(client.shm_read(count, 0, 4), "big")
        found = f"seed {SEED}, turn {turn}: {number} is written, and there are {posts} posts"
        ahead = number + posts - last
        check(number - posts in (0, 1) and 0 <= ahead <= 20, f"{found}, and {last} requests were answered")
        client.ftruncate(count, 0)
        client.ftruncate(count, 4)
        for _ in range(posts):
            client.send(sem_wait_request(sem))
        check(all(client.receive()[1] == 0 for _ in range(posts)), "a post is lost")
        last = hurries(server, client, sem, count, rng.uniform(0.05, 0.2))


def hurries(server: Server, client: Client, sem: int, count: int, seconds: float) -> int:
    """Writes and posts until the server is killed, after so many seconds. How many requests were answered."""
    killer = threading.Timer(seconds, server.process.kill)
    killer.start()
    sent = answered = 0
    try:
        while True:
            while sent < answered + 20:
                number = (sent // 2 + 1).to_bytes(4, "big")
                client.send(sem_post_request(sem) if sent % 2 else shm_write_request(count, 0, number))
                sent += 1
            check(client.receive()[1] == 0, "a request is refused")
            answered += 1
    except (ConnectionResetError, BrokenPipeError):
        pass
    client.close()
    killer.join()
    server.process.wait()
    os.remove("socket")
    return answered


TESTS = [
    each_call_on_semaphores,
    waits_in_order,
    deadlines,
    each_call_on_segments,
    shared,
    handed_over,
    kept,
    kept_in_order,
]


def main() -> None:
    with in_a_folder(120):
        run_tests("named_objects", TESTS)


if __name__ == "__main__":
    main()
