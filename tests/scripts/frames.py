"""Frames that are cut off, and frames with a byte changed, of each call, in scripts on the built program.

    python3 tests/scripts/frames.py PROGRAM

What a client has sent of a frame that is not whole does nothing; and in which pieces bytes come makes no difference,
whatever bytes they are. Each run is on a new device in memory, so what it leaves is compared too, byte by byte. What is
expected was reckoned from docs/PROTOCOL.md, and never taken from the program. It takes some forty seconds of a
processor.
"""

from __future__ import annotations

import errno
import os
import re
import struct
import subprocess
import sys
from collections import Counter
from functools import cache
from multiprocessing import Pool
from pathlib import Path
from typing import NamedTuple

sys.dont_write_bytecode = True
ROOT = Path(__file__).resolve().parents[2]
sys.path.insert(0, str(ROOT / "tests" / "lib"))
sys.path.insert(0, str(ROOT / "examples"))

import device_layout as layout  # noqa: E402
from client import *  # noqa: E402, F403

PROGRAM = os.path.abspath(sys.argv[1])
TIMEOUT = 60
USER, GROUP = 1000, 100
MODE = 0o600
MAKE = IPC_CREAT | MODE
# The moment of all that is sent, in milliseconds and in seconds.
NOW, AT_ONCE = 5, 0.005
# The serial of the frame that is tried. Other requests of a client have the client's number.
TRIED = 7

# Small limits, but for a descriptor more: a process that has one of each kind can open another.
LIMITS = layout.SMALL._replace(descriptors=5)
DEVICE = bytes(layout.Device(LIMITS).image)
USED = DEVICE.rstrip(b"\0")


def check(holds: bool, text: str) -> None:
    if not holds:
        raise AssertionError(text)


# ---- requests and replies


def number(value: int) -> bytes:
    return value.to_bytes(4, "big")


def frame(serial: int, request: bytes) -> bytes:
    return number(4 + len(request)) + number(serial) + request


def reply(serial: int, error: int, body: bytes = b"") -> bytes:
    return number(6 + len(body)) + number(serial) + error.to_bytes(2, "big") + body


# The client of every request but HELLO; that of HELLO, which has said nothing before; the client that waits for a
# message of type 9, and the one that waits for semaphore 1. These two and the caller are processes.
CALLER, RECEIVER, TAKER, GUEST = 1, 2, 3, 4
# Clients that come after the end of the one that sent the frame.
LATER = (5, 6, 7)
# A client that sends what is no frame: its replies stand between what came before and what comes after.
MARK = 8
HELLO = hello_request(USER, GROUP)


class Case(NamedTuple):
    """A good request, and whether it waits."""

    request: bytes
    waits: bool = False

    @property
    def client(self) -> int:
        return GUEST if self.request == HELLO else CALLER


# Of each opcode. The one that waits for a message gets the first one sent, and the first list lets the one go on that
# waits for a semaphore.
CASES = [
    Case(HELLO),
    Case(interrupt_request()),
    Case(close_request(0)),
    Case(msgget_request(7, MAKE)),
    Case(msgget_request(8, MAKE)),
    Case(msgsnd_request(1, 9, b"xy", IPC_NOWAIT)),
    Case(msgsnd_request(1, 5, b"", IPC_NOWAIT)),
    Case(msgrcv_request(1, 64, 0, IPC_NOWAIT)),
    Case(msgrcv_request(1, 64, 8), True),
    Case(msgctl_stat_request(1)),
    Case(msgctl_set_request(1, USER, GROUP, 0o640, 100)),
    Case(msgctl_rmid_request(1)),
    Case(semget_request(9, 2, MAKE)),
    Case(semget_request(10, 1, MAKE)),
    Case(semop_request(1, [(0, 1, SEM_UNDO), (1, 1)])),
    Case(semop_request(1, [(0, 0)], AT_ONCE), True),
    Case(semctl_getval_request(1, 1)),
    Case(semctl_getpid_request(1, 1)),
    Case(semctl_getncnt_request(1, 1)),
    Case(semctl_getzcnt_request(1, 1)),
    Case(semctl_setval_request(1, 1, 3)),
    Case(semctl_getall_request(1)),
    Case(semctl_setall_request(1, [2, 4])),
    Case(semctl_stat_request(1)),
    Case(semctl_set_request(1, USER, GROUP, 0o640)),
    Case(semctl_rmid_request(1)),
    Case(mq_open_request("/q", O_RDWR)),
    Case(mq_open_request("/r", O_CREAT | O_RDWR, MODE, MqAttr(maxmsg=1, msgsize=8))),
    Case(mq_unlink_request("/q")),
    Case(mq_send_request(0, b"b", 3)),
    Case(mq_receive_request(0, 64, AT_ONCE)),
    Case(mq_notify_request(0, NOTIFY_FRAME, 7)),
    Case(mq_getattr_request(0)),
    Case(mq_setattr_request(0, O_NONBLOCK)),
    Case(sem_open_request("/t", O_CREAT, MODE, 1)),
    Case(sem_open_request("/s", 0)),
    Case(sem_unlink_request("/s")),
    Case(sem_post_request(1)),
    Case(sem_wait_request(1)),
    Case(sem_trywait_request(1)),
    Case(sem_getvalue_request(1)),
    Case(shm_open_request("/n", O_CREAT | O_RDWR, MODE)),
    Case(shm_open_request("/m", O_TRUNC | O_RDWR)),
    Case(shm_unlink_request("/m")),
    Case(ftruncate_request(2, 20)),
    Case(shm_read_request(2, 1, 3)),
    Case(shm_write_request(2, 2, b"yz")),
    Case(shm_stat_request(2)),
    Case(shmget_request(11, 4, 0)),
    Case(shmget_request(12, 8, MAKE)),
    Case(shmat_request(1)),
    Case(shmdt_request(3)),
    Case(shmctl_stat_request(1)),
    Case(shmctl_set_request(1, USER, GROUP, 0o640)),
    Case(shmctl_rmid_request(1)),
    Case(attached_read_request(3, 1, 3)),
    Case(attached_write_request(3, 2, b"yz")),
]

# What the caller asks before, each with the body of its answer: a queue with a message, a set with an adjustment; by
# descriptors 0, 1 and 2 a POSIX queue with a message, a named semaphore, and a segment; and by attachment 3 a System V
# segment.
READY = [
    (HELLO, number(1)),
    (msgget_request(7, MAKE), number(1)),
    (msgsnd_request(1, 5, b"hi"), b""),
    (semget_request(9, 2, MAKE), number(1)),
    (semop_request(1, [(0, 1, SEM_UNDO)]), b""),
    (mq_open_request("/q", O_CREAT | O_RDWR, MODE, MqAttr(maxmsg=2, msgsize=64)), number(0)),
    (mq_send_request(0, b"a", 1), b""),
    (sem_open_request("/s", O_CREAT, MODE, 1), number(1)),
    (shm_open_request("/m", O_CREAT | O_RDWR, MODE), number(2)),
    (ftruncate_request(2, 16), b""),
    (shm_write_request(2, 0, b"abcd"), b""),
    (shmget_request(11, 16, MAKE), number(1)),
    (shmat_request(1), number(3)),
    (attached_write_request(3, 0, b"abcd"), b""),
]

# ---- runs of scripts


def sends(client: int, data: bytes) -> str:
    return f"{NOW} data {client} {data.hex()}\n"


def comes(client: int, data: bytes) -> str:
    return f"{NOW} open {client}\n" + sends(client, data)


def sees(client: int, data: bytes) -> str:
    """The line of a frame that a client sees."""
    return f"{client} {data.hex()}\n"


# The caller has an object of each kind open, with something in it; two wait; and the guest says nothing.
FURNISHED = (
    comes(CALLER, b"".join(frame(CALLER, request) for request, _ in READY))
    + comes(RECEIVER, frame(RECEIVER, HELLO) + frame(RECEIVER, msgrcv_request(1, 64, 9)))
    + comes(TAKER, frame(TAKER, HELLO) + frame(TAKER, semop_request(1, [(1, -1)])))
    + f"{NOW} open {GUEST}\n"
)
IS_FURNISHED = (
    "".join(sees(CALLER, reply(CALLER, 0, body)) for _, body in READY)
    + sees(RECEIVER, reply(RECEIVER, 0, number(2)))
    + sees(TAKER, reply(TAKER, 0, number(3)))
)
MARKS = comes(MARK, bytes(4))
IS_MARKED = sees(MARK, reply(0, errno.EPROTO)) + f"{MARK} end\n"
ALL_COME = "".join(comes(later, frame(later, HELLO)) for later in LATER)


class Seen(NamedTuple):
    """What was seen of a server: what each client saw up to the end of the one that sent the frame, and after it; and
    what two saves left on the device, the root and the sectors of objects, up to the last byte that is not 0."""

    before: dict[int, list[str]]
    after: dict[int, list[str]]
    saved: bytes

    def answer(self, client: int) -> int | None:
        """The error of the client's first reply, if there is one."""
        first, *_ = self.before.get(client, [""])
        return int(first[16:20], 16) if first else None


def on_device(script: str) -> tuple[str, bytes]:
    """What a script prints that runs on a new device in memory to its end, and what it has saved there."""
    file = os.memfd_create("device")
    try:
        os.pwrite(file, USED, 0)
        os.truncate(file, len(DEVICE))
        words = [PROGRAM, "run", f"/proc/self/fd/{file}"]
        ended = subprocess.run(
            words, input=script, capture_output=True, text=True, timeout=TIMEOUT, pass_fds=(file,)
        )
        check((ended.returncode, ended.stderr) == (0, ""), f"{script}: {ended.returncode}, {ended.stderr!r}")
        root, objects = (layout.SECTOR * at for at in (layout.ROOT, layout.OBJECTS))
        saved = os.pread(file, layout.SECTOR, root) + os.pread(file, len(DEVICE), objects)
        check(len(saved) == layout.SECTOR + len(DEVICE) - objects, "the device has another size")
        return ended.stdout, saved.rstrip(b"\0")
    finally:
        os.close(file)


def by_client(printed: str) -> dict[int, list[str]]:
    """What each client sees, in its order."""
    seen: dict[int, list[str]] = {}
    for line in printed.splitlines():
        client, _, what = line.partition(" ")
        seen.setdefault(int(client), []).append(what)
    return seen


@cache
def see(client: int, data: bytes, size: int) -> Seen:
    """What is seen of a server that is sent bytes of a client in pieces of such a size, and then the client's end.
    Others say HELLO then. Both states are saved: the one before the end, and the one after it."""
    pieces = "".join(sends(client, data[at : at + size]) for at in range(0, len(data), size))
    script = f"{FURNISHED}{pieces}save\n{MARKS}{NOW} end {client}\nsave\n{ALL_COME}"
    printed, saved = on_device(script)
    check(printed.startswith(IS_FURNISHED), f"another server is furnished: {printed}")
    before, mark, after = printed[len(IS_FURNISHED) :].partition(IS_MARKED)
    check(mark == IS_MARKED, f"the mark is not answered: {printed}")
    return Seen(by_client(before), by_client(after), saved)


# ---- what is tried of a frame


def tried(client: int, data: bytes) -> int | None:
    """The error of the first reply to these bytes, if there is one. Byte by byte they do the same."""
    whole = see(client, data, len(data))
    check(see(client, data, 1) == whole, f"{data.hex()} of client {client} does something else byte by byte")
    return whole.answer(client)


def is_good(case: Case, good: bytes) -> None:
    """The frame as it is: it succeeds, or it waits."""
    answer, wanted = tried(case.client, good), None if case.waits else 0
    check(answer == wanted, f"{good.hex()} is answered {answer}, and not {wanted}")


def silent(client: int) -> Seen:
    """What is seen if nothing was sent: no client hears of it, and after the end of a process two of three who come are
    processes, the 4th and the 5th; after that of a guest, which is none, one is. Four are the limit."""
    pids = (4, 5) if client == CALLER else (4,)
    first = {later: [reply(later, 0, number(pid)).hex()] for later, pid in zip(LATER, pids)}
    rest = {later: [reply(later, errno.ENFILE).hex()] for later in LATER[len(pids) :]}
    return Seen({}, {**first, **rest}, see(client, b"", 1).saved)


def prefixes(case: Case, good: bytes, count: Counter[str]) -> None:
    """Each proper prefix and then the end: the server has said nothing, the process is gone, and others are served. The
    device is that of a client who sent nothing and ended."""
    wanted = silent(case.client)
    for length in range(len(good)):
        seen = see(case.client, good[:length], max(length, 1))
        check(seen == wanted, f"the first {length} bytes of {good.hex()} do something: {seen[:2]}")
        count["prefixes"] += 1


def changes(case: Case, good: bytes, count: Counter[str]) -> None:
    """The frame with each byte changed in three ways."""
    for place in range(len(good)):
        for value in (0x00, 0x7F, 0xFF):
            tried(case.client, good[:place] + bytes([value]) + good[place + 1 :])
            count["changes"] += 1


def try_case(case: Case) -> tuple[Counter[str], str]:
    """What was counted of a case, and what has failed."""
    count: Counter[str] = Counter()
    good = frame(TRIED, case.request)
    try:
        is_good(case, good)
        prefixes(case, good, count)
        changes(case, good, count)
    except (AssertionError, OSError, subprocess.SubprocessError) as fault:
        return count, str(fault)
    return count, ""


# ---- streams that break

GREETING = frame(1, HELLO)


def welcome(client: int, pid: int) -> str:
    return sees(client, reply(1, 0, number(pid)))


# A length that is too long in the midst of a piece: the process is gone, so that four others come. Fields that are too
# short. A serial of 0. And a process that ends while it waits for a message: it gets none, so the one that is sent then
# is in the queue.
BROKEN = [
    (
        comes(1, GREETING + number(65793) + number(2**32 - 1) + bytes(2))
        + "".join(comes(client, GREETING) for client in (2, 3, 4, 5)),
        welcome(1, 1)
        + sees(1, reply(0, errno.EPROTO))
        + "1 end\n"
        + "".join(welcome(client, client) for client in (2, 3, 4, 5)),
    ),
    (
        comes(1, GREETING) + sends(1, frame(3, b"\x03\x00")),
        welcome(1, 1) + sees(1, reply(3, errno.EPROTO)) + "1 end\n",
    ),
    (
        comes(1, GREETING) + sends(1, frame(0, interrupt_request())),
        welcome(1, 1) + sees(1, reply(0, errno.EPROTO)) + "1 end\n",
    ),
    (
        comes(1, GREETING)
        + comes(2, GREETING)
        + sends(1, frame(2, msgget_request(1234, MAKE)))
        + sends(2, frame(2, msgrcv_request(1, 64)))
        + f"{NOW} end 2\n"
        + sends(1, frame(3, msgsnd_request(1, 5, b"hi", IPC_NOWAIT)))
        + sends(1, frame(4, msgctl_stat_request(1))),
        welcome(1, 1)
        + welcome(2, 2)
        + sees(1, reply(2, 0, number(1)))
        + sees(1, reply(3, 0))
        + sees(
            1,
            reply(
                4,
                0,
                struct.pack(
                    QUEUE_FORM, 1234, USER, GROUP, USER, GROUP, MODE, NOW, 0, NOW, 1, 0, LIMITS.msgmnb, 1, 2
                ),
            ),
        ),
    ),
]


def broken_streams() -> None:
    for script, wanted in BROKEN:
        printed, _ = on_device(script)
        check(printed == wanted, f"{script} prints {printed}, and not {wanted}")


# ---- the work


def opcodes() -> set[int]:
    """Those of the table of requests in docs/PROTOCOL.md."""
    _, _, rest = (ROOT / "docs" / "PROTOCOL.md").read_text().partition("\n## Requests\n")
    table, _, _ = rest.partition("\n##")
    return {int(it, 16) for it in re.findall(r"(?m)^\| ([0-9a-f]{2}) \|", table)}


def main() -> None:
    count: Counter[str] = Counter()
    tried_opcodes = {case.request[0] for case in CASES}
    try:
        check(tried_opcodes == opcodes(), f"the opcodes {tried_opcodes ^ opcodes()} are not tried, or are no calls")
        broken_streams()
    except (AssertionError, OSError, subprocess.SubprocessError) as fault:
        sys.exit(f"frames: {fault}")
    with Pool(os.cpu_count()) as pool:
        for more, fault in pool.imap_unordered(try_case, CASES, 1):
            count += more
            if fault:
                pool.terminate()
                sys.exit(f"frames: {fault}")
    print(f"{len(CASES)} frames of {len(tried_opcodes)} opcodes, {count['prefixes']} prefixes, ", end="")
    print(f"{count['changes']} changed bytes, {len(BROKEN)} broken streams")


if __name__ == "__main__":
    main()
