"""Scripts whose streams are slow or fail, or whose disk fails, and how many writes and syncs their lines make.

    python3 tests/scripts/script_calls.py PROGRAM

The calls of the system are watched and answered by tests/lib/watch_calls.c; without a C compiler it says so, and tests
nothing. What is expected was reckoned from docs/PROTOCOL.md and docs/DEVICE.md. It takes some seconds.
"""

from __future__ import annotations

import errno
import re
import subprocess
import sys
from itertools import accumulate
from pathlib import Path
from typing import NamedTuple

sys.dont_write_bytecode = True
sys.path.insert(0, str(Path(__file__).resolve().parents[1] / "lib"))

from device_layout import BODY, OBJECTS, ROOT, SECTOR  # noqa: E402
from server import PROGRAM, TIMEOUT, check, frame, in_a_folder, printed, run_tests  # noqa: E402
from client import (  # noqa: E402
    IPC_CREAT,
    IPC_EXCL,
    IPC_NOWAIT,
    O_CREAT,
    O_NONBLOCK,
    O_RDONLY,
    O_RDWR,
    O_TRUNC,
    SEM_UNDO,
    close_request,
    ftruncate_request,
    mq_getattr_request,
    mq_notify_request,
    mq_open_request,
    mq_receive_request,
    mq_send_request,
    mq_setattr_request,
    mq_unlink_request,
    msgctl_rmid_request,
    msgctl_set_request,
    msgctl_stat_request,
    msgget_request,
    msgrcv_request,
    msgsnd_request,
    sem_getvalue_request,
    sem_open_request,
    sem_post_request,
    sem_trywait_request,
    semctl_getall_request,
    semctl_getncnt_request,
    semctl_getpid_request,
    semctl_getval_request,
    semctl_getzcnt_request,
    semctl_set_request,
    semctl_setval_request,
    semctl_stat_request,
    semget_request,
    semop_request,
    shm_open_request,
    shm_read_request,
    shm_stat_request,
    shm_write_request,
)
from watch import ALL, ENDS, Disk, build, calls, order, refused_once, watched  # noqa: E402

REPLAY = ("replay", "--small")
RUN = ("run", "device")
HELLO = "0000000d0000000101000003e800000064"
# A user 1000 of group 100 makes the queue of key 1234 with mode 0600, sends `hi` to it and receives it; a second
# receive finds nothing: ENOMSG is 42.
SCRIPT = f"""\
0 open 1
0 data 1 {HELLO}
0 data 1 0000000d000000020a000004d200000380
0 data 1 00000017000000030b000000010000080000000000000000056869
0 data 1 00000019000000040c0000000100000800000000400000000000000000
0 data 1 00000019000000050c0000000100000800000000400000000000000000
"""
OUTPUT = """\
1 0000000a00000001000000000001
1 0000000a00000002000000000001
1 00000006000000030000
1 0000001000000004000000000000000000056869
1 0000000600000005002a
"""
LISTING = "msg          1        1234 0600       1000        100          0          0\n"
INPUT_FAULT = (1, "ipcd: input fault\n")
OUTPUT_FAULT = (1, "ipcd: output fault\n")
DEVICE_FAULT = (1, "ipcd: device fault\n")
WELL = (0, "")
# The descriptors of standard input and output, of which each call moves one byte.
SLOW_INPUT, SLOW_OUTPUT = (0, 1), (1, 1)


def ends(name: str, wanted: tuple[int, str], output: str, script: str, *words: str) -> None:
    """Runs a script to its end: its status and what is said, and what it prints."""
    ended = subprocess.run([PROGRAM, *words], input=script, capture_output=True, text=True, timeout=TIMEOUT)
    found = (ended.returncode, ended.stderr)
    check(found == wanted, f"{name}: the end is {found}, and not {wanted}")
    check(ended.stdout == output, f"{name}: {ended.stdout!r} is printed, and not {output!r}")


def count(name: str, file: int) -> int:
    return sum((call.name, call.file) == (name, file) for call in calls())


def places(text: str) -> list[int]:
    """The first bytes, the last, and those about the end of each line."""
    lines = list(accumulate(len(line) for line in text.splitlines(keepends=True)))
    return sorted({0, 1, 2, *(end + add for end in lines for add in (-2, -1, 0)), len(text)})


# ---- streams


def slow_streams() -> None:
    """Each call gives or takes one byte, of a script and of a listing."""
    printed("format", "device", "--small")
    for words in (REPLAY, RUN):
        with watched(read=SLOW_INPUT, write=SLOW_OUTPUT):
            ends("a slow script", WELL, OUTPUT, SCRIPT, *words)
        found = (count("read", 0), count("write", 1))
        check(found == (len(SCRIPT) + 1, len(OUTPUT)), f"{found} reads and writes are made")
    with watched(write=SLOW_OUTPUT):
        ends("a slow listing", WELL, LISTING, "", "dump", "device")
    check(count("write", 1) == len(LISTING), "the listing is written in another way")


def reads_that_fail() -> None:
    """Nothing is read after one that fails, and nothing is done. After the last byte a read finds the end."""
    for error in (errno.EIO, errno.EINTR):
        for place in places(SCRIPT):
            name = f"read {place + 1} fails with {error}"
            with watched(f"read {place + 1} {error}", read=SLOW_INPUT):
                ends(name, INPUT_FAULT, "", SCRIPT, *REPLAY)
            found = (count("read", 0), count("write", 1))
            check(found == (place + 1, 0), f"{name}: {found} reads and writes are made")


def writes_that_fail() -> None:
    """Nothing is written after one that fails. What was written before is the beginning of it all."""
    for error in (errno.EIO, errno.EINTR):
        for place in places(OUTPUT)[:-1]:
            name = f"write {place + 1} fails with {error}"
            with watched(f"write {place + 1} {error}", write=SLOW_OUTPUT):
                ends(name, OUTPUT_FAULT, OUTPUT[:place], SCRIPT, *REPLAY)
            check(count("write", 1) == place + 1, f"{name}: {count('write', 1)} writes are made")
    with watched(write=(1, ENDS, ALL)):
        ends("a write that takes nothing", OUTPUT_FAULT, "", SCRIPT, *REPLAY)
    check(count("write", 1) == 1, "a write that took nothing is made again")
    printed("format", "device", "--small")
    with watched():
        ends("a listing", WELL, OUTPUT, SCRIPT, *RUN)
    for place in (0, 1, len(LISTING) - 1):
        with watched(f"write {place + 1} {errno.EIO}", write=SLOW_OUTPUT):
            ends(f"a listing, cut at {place}", OUTPUT_FAULT, LISTING[:place], "", "dump", "device")
        check(count("write", 1) == place + 1, f"a listing, cut at {place}: it goes on")


# ---- a disk that fails


def told(*connections: int, ended: tuple[int, ...] = ()) -> str:
    """EIO for each of these, and its end, if that was not printed before."""
    ends_of = {conn: "" if conn in ended else f"{conn} end\n" for conn in connections}
    return "".join(f"{conn} 00000006000000000005\n{end}" for conn, end in ends_of.items())


class Step(NamedTuple):
    """A line of a script, and what it prints; what is printed if the disk fails in its commit, and nothing if it makes
    none; and how many processes there were before it."""

    line: str
    written: str = ""
    last_words: str = ""
    processes: int = 0


LAST = 4294967295
# HELLO of the last connection, a length of 0 by 9, half a HELLO of 0, the end of the last, a tick, and the other half:
# six lines that make events.
STEPS = [
    Step(f"0 open {LAST}"),
    Step("0 open 9"),
    Step(f"0 data {LAST} {HELLO}", f"{LAST} 0000000a00000001000000000001\n", told(9, LAST)),
    Step("0 open 0"),
    Step("0 data 9 00000000", "9 00000006000000000047\n9 end\n", told(0, 9, LAST), 1),
    Step(f"0 data 0 {HELLO[:16]}", "", told(0, 9, LAST, ended=(9,)), 1),
    Step(f"0 end {LAST}", "", told(0, 9, ended=(9,)), 1),
    Step("5 tick", "", told(0, 9, ended=(9,)), 1),
    Step(f"5 data 0 {HELLO[16:]}", "0 0000000a00000001000000000002\n", told(0, 9, ended=(9,)), 1),
]
LINES = "".join(f"{step.line}\n" for step in STEPS)
COMMITS = [step for step in STEPS if step.last_words]

class Made(NamedTuple):
    """A version of devices: the words of its format; how many calls of each name an open makes, and those of a commit
    in order; what HELLO answers after the pid; and whether pids go on after a restart."""

    words: tuple[str, ...]
    opened: dict[str, int]
    commit: tuple[str, ...]
    greeting: str
    goes_on: bool

    def refusal(self, commits: int, at: int) -> str:
        """The call of a commit that is refused, after so many commits of a script on a new device."""
        name = self.commit[at]
        before = self.opened[name] + commits * self.commit.count(name) + self.commit[:at].count(name)
        return f"{name} {before + 1} {errno.EIO}"

    def answers(self, text: str) -> str:
        """What is printed on version 2, as this version prints it: a HELLO has serial 1."""
        size = 10 + len(self.greeting) // 2
        return re.sub("0000000a(000000010000[0-9a-f]{8})", rf"{size:08x}\g<1>{self.greeting}", text)

    def fresh(self) -> bytes:
        """A new device, with small limits."""
        printed("format", "device", *self.words)
        return Path("device").read_bytes()


TWO = Made(("--small",), {"pwrite": 2, "fdatasync": 3}, ("pwrite", "fdatasync", "pwrite", "fdatasync"), "", True)
THREE = Made(
    ("--small", "--journal", "257"), {"pwrite": 1, "fdatasync": 2}, ("pwrite", "fdatasync"), "00000003", False
)


def ending_after(commits: int) -> tuple[tuple[int, str], str, int]:
    """How a run ends in which so many commits pass, and no other: its end, all that it prints, and how many processes
    there were."""
    text = ""
    for step in STEPS:
        if step.last_words and commits == 0:
            return DEVICE_FAULT, text + step.last_words, step.processes
        text += step.written
        commits -= bool(step.last_words)
    return WELL, text, 2


def is_left(made: Made, fresh: bytes, processes: int, name: str) -> None:
    """What a failure of power leaves of the device opens. The next process is the one after so many, or the first."""
    disk = Disk(fresh)
    for call in calls():
        disk.does(call)
    Path("device").write_bytes(disk.lasting)
    welcome = f"1 0000000a000000010000{processes * made.goes_on + 1:08x}\n"
    ends(f"{name}, and after it", WELL, made.answers(welcome), f"0 open 1\n0 data 1 {HELLO}\n", *RUN)


def last_words(made: Made = TWO) -> None:
    """Each call of each commit is refused in turn. Nothing is written or synced after it, and of what was not synced
    nothing is left: no line lasts in whose commit the disk failed."""
    fresh = made.fresh()
    each = range(len(made.commit))
    rows = [(commits, made.refusal(commits, at)) for commits in range(len(COMMITS)) for at in each]
    for commits, refused in [*rows, (len(COMMITS), "")]:
        Path("device").write_bytes(fresh)
        end, text, processes = ending_after(commits)
        with watched(refused):
            ends(f"with {refused or 'nothing'} refused", end, made.answers(text), LINES, *RUN)
        if refused:
            refused_once(calls())
        is_left(made, fresh, processes, f"with {refused} refused")


# Long requests: their texts are too long, EINVAL, which is 22.
LONG = [frame(serial, msgsnd_request(1, 5, 32000 * b"\7")) for serial in range(2, 6)]
# What is refused, and how many of the four are answered before. A batch has at most 131072 bytes, so after three
# records of 32038 there is no room for the longest one, of 65809; the fourth is in a second batch. The HELLO is the
# first commit, which ends with the fourth write. The batch of three has 188 sectors, which are three writes, and its
# header is the eighth.
WITHIN = [(f"pwrite 5 {errno.EIO}", 0), (TWO.refusal(1, 3), 0)]
WITHIN += [(f"pwrite 9 {errno.EIO}", 3), (TWO.refusal(2, 3), 3), ("", 4)]
# On version 3 the HELLO ends with the second write; the batch of three has 194 sectors, which are four.
WITHIN_OF_THREE = [(f"pwrite {at} {errno.EIO}", 0) for at in (3, 4, 5, 6)] + [(THREE.refusal(1, 1), 0)]
WITHIN_OF_THREE += [(f"pwrite 7 {errno.EIO}", 3), (THREE.refusal(2, 1), 3), ("", 4)]


def a_disk_that_fails_within_a_line(made: Made = TWO, within: list[tuple[str, int]] = WITHIN) -> None:
    """Four long requests in a line are two commits."""
    fresh = made.fresh()
    script = f"0 open 1\n0 data 1 {HELLO}\n0 data 1 {b''.join(LONG).hex()}\n"
    for refused, answers in within:
        Path("device").write_bytes(fresh)
        text = made.answers("1 0000000a00000001000000000001\n")
        text += "".join(f"1 00000006{serial:08x}0016\n" for serial in range(2, 2 + answers))
        text += told(1) if refused else ""
        with watched(refused):
            ends(f"with {refused or 'nothing'} refused", DEVICE_FAULT if refused else WELL, text, script, *RUN)
        if refused:
            refused_once(calls())


# ---- much in a line


def a_thousand_requests_in_a_line() -> None:
    """A script reads replies as they come, so all of a line is taken, and each is answered."""
    gets = "".join(f"0000000d{serial:08x}0a000004d200000380" for serial in range(2, 1002))
    answers = "".join(f"1 0000000a{serial:08x}000000000001\n" for serial in range(2, 1002))
    text = "1 0000000a00000001000000000001\n" + answers
    ends("a thousand requests", WELL, text, f"0 open 1\n0 data 1 {HELLO}\n0 data 1 {gets}\n", *REPLAY)


# ---- what a crash leaves

# How many calls of the commit of a message pass; and whether the message is there if nothing is left that was not
# synced, and if all is: the batch is written first, and then the header that counts it.
LEFT = [(0, False, False), (1, False, False), (2, False, False), (3, False, True), (4, True, True)]
# On version 3 it is there once its one sector is.
LEFT_OF_THREE = [(0, False, False), (1, False, True), (2, True, True)]
# A second process comes, finds queue 1, makes another one, and receives.
NEXT = f"""\
0 open 1
0 data 1 {HELLO}
0 data 1 0000000d000000020a000004d200000380
0 data 1 0000000d000000030a0000000000000380
0 data 1 00000019000000040c0000000100000800000000400000000000000000
"""
FOUND = "1 0000000a0000000100000000000{}\n1 0000000a00000002000000000001\n1 0000000a00000003000000000002\n"


def a_crash_leaves_the_message_or_not(made: Made = TWO, left: list[tuple[int, bool, bool]] = LEFT) -> None:
    """The message is the third commit of a script: it is in the journal once the header is, or its tagged sector."""
    lines, answers = (text.splitlines(keepends=True) for text in (SCRIPT, made.answers(OUTPUT)))
    fresh = made.fresh()
    for passed, lost, kept in left:
        Path("device").write_bytes(fresh)
        done = passed == len(made.commit)
        text = "".join(answers[:3] if done else [*answers[:2], told(1)])
        name = f"after {passed} calls"
        with watched("" if done else made.refusal(2, passed)):
            ends(name, WELL if done else DEVICE_FAULT, text, "".join(lines[:4]), *RUN)
        disk = Disk(fresh)
        for call in calls():
            disk.does(call)
        for there, content in ((kept, Path("device").read_bytes()), (lost, disk.lasting)):
            Path("device").write_bytes(content)
            found = made.answers(FOUND.format(1 + made.goes_on))
            found += answers[3] if there else "1 0000000600000004002a\n"
            ends(f"{name}, opened again", WELL, found, NEXT, *RUN)


# ---- writes and syncs


def makes(name: str, script: str, wanted: str) -> None:
    """A script on a new device makes these writes and syncs, in this order."""
    printed("format", "device", "--small")
    with watched():
        printed_of(name, script)
    found = "".join(letter for letter in order(calls()) if letter not in "iPc")
    check(found == wanted, f"{name}: the calls are {found}, and not {wanted}")


def printed_of(name: str, script: str) -> str:
    ended = subprocess.run([PROGRAM, *RUN], input=script, capture_output=True, text=True, timeout=TIMEOUT)
    check((ended.returncode, ended.stderr) == WELL, f"{name}: {ended}")
    return ended.stdout


def writes_and_syncs() -> None:
    """An open makes two writes and three syncs, a commit two of each, a save two of each, and an `open` none. A journal
    has 256 sectors: what does not fit is saved, also by the 257th open."""
    makes("an open", "0 open 1\n", "SBSHS")
    names = [call.name for call in calls() if call.name in ("pread", "pwrite", "fdatasync")]
    check(names[0] == "fdatasync" and "pread" in names, f"an open begins with {names[0]}, and not with a sync")
    makes("four saves of nothing", 4 * "save\n", "SBSHS" + 4 * "OSRS")
    made = f"0 open 1\n0 data 1 {HELLO}\nsave\n0 end 1\n"
    makes("a save between commits", made, "SBSHS" + "BSHS" + "OSRS" + "BSHS")
    makes("256 ticks and two more", 258 * "0 tick\n", "SBSHS" + 255 * "BSHS" + "OSRS" + 2 * "BSHS")
    makes("300 opens", 299 * "stop\n", 256 * "SBSHS" + "SOSRS" + 43 * "SBSHS")


def sectors_saved() -> list[int]:
    """How many sectors each save has written."""
    written, saves = 0, []
    for call in calls():
        if call.name == "pwrite" and call.sector >= OBJECTS:
            written += call.size // SECTOR
        if call.name == "pwrite" and call.sector == ROOT:
            saves.append(written + call.size // SECTOR)
            written = 0
    return saves


def sectors_of_saves() -> None:
    """A save writes the first four objects, those that have changed, the table and the root: of a process and its new
    queue seven sectors, then six, and with a second queue seven. Each save syncs before the root and after it."""
    printed("format", "device", "--small")
    lines = SCRIPT.splitlines(keepends=True)[:4]
    lines += ["save\n", "save\n", "0 data 1 0000000d000000060a0000162e00000380\n", "save\n"]
    with watched():
        printed_of("three saves", "".join(lines))
    check(sectors_saved() == [7, 6, 7], f"{sectors_saved()} sectors are written")
    found = re.sub("O+", "O", "".join(letter for letter in order(calls()) if letter not in "iPc"))
    wanted = "SBSHS" + 3 * "BSHS" + 2 * "OSRS" + "BSHS" + "OSRS"
    check(found == wanted, f"three saves: the calls are {found}, and not {wanted}")


def asks(connection: int, *requests: bytes) -> str:
    return f"0 data {connection} " + b"".join(frame(1, asked) for asked in requests).hex() + "\n"


def comes(connection: int) -> str:
    return f"0 open {connection}\n0 data {connection} {HELLO}\n"


MODE = 0o600
# Lines of a script, and how many objects they change. Connection 1 has the descriptors 0 of the POSIX queue, 1 of the
# semaphore and 2 of the segment; connection 2 has none.
CHANGES = {
    "an object of each kind": (
        comes(1)
        + comes(2)
        + asks(1, msgget_request(1, IPC_CREAT | MODE), semget_request(1, 1, IPC_CREAT | MODE))
        + asks(1, mq_open_request("/q", O_CREAT | O_RDWR | O_NONBLOCK, MODE), sem_open_request("/s", O_CREAT, MODE))
        + asks(1, shm_open_request("/m", O_CREAT | O_RDWR, MODE), ftruncate_request(2, 8)),
        5,
    ),
    "nothing": ("", 0),
    "a tick": ("0 tick\n", 0),
    "what reads of System V": (
        asks(1, msgctl_stat_request(1), semctl_stat_request(1), semctl_getall_request(1))
        + asks(1, semctl_getval_request(1, 0), semctl_getpid_request(1, 0))
        + asks(1, semctl_getncnt_request(1, 0), semctl_getzcnt_request(1, 0)),
        0,
    ),
    "what reads of POSIX": (
        asks(1, mq_getattr_request(0), mq_setattr_request(0, O_NONBLOCK), sem_getvalue_request(1))
        + asks(1, shm_read_request(2, 0, 8), shm_stat_request(2)),
        0,
    ),
    "gets and opens of what is there": (
        asks(1, msgget_request(1, 0), semget_request(1, 0, 0))
        + asks(1, mq_open_request("/q", O_RDONLY), close_request(3))
        + asks(1, sem_open_request("/s", 0), close_request(3))
        + asks(1, shm_open_request("/m", O_RDONLY), close_request(3)),
        0,
    ),
    "refused calls": (
        asks(1, msgrcv_request(1, 8, 0, IPC_NOWAIT), msgget_request(1, IPC_CREAT | IPC_EXCL))
        + asks(1, semop_request(1, [(0, -1, IPC_NOWAIT)]), mq_receive_request(0, 64))
        + asks(1, sem_trywait_request(1), shm_write_request(2, 8, b"x")),
        0,
    ),
    "a call that waits": (asks(2, msgrcv_request(1, 8)), 0),
    "a send by which it goes on": (asks(1, msgsnd_request(1, 1, b"a")), 1),
    "two IPC_SETs to what is there": (
        asks(1, msgctl_set_request(1, 1000, 100, MODE, 128), semctl_set_request(1, 1000, 100, MODE)),
        2,
    ),
    "two SETVALs": (asks(1, semctl_setval_request(1, 0, 2), semctl_setval_request(1, 0, 1)), 1),
    "a list with SEM_UNDO": (asks(2, semop_request(1, [(0, 1, SEM_UNDO)])), 1),
    "a message that is sent": (asks(1, mq_send_request(0, b"a")), 1),
    "a message that is received": (asks(1, mq_receive_request(0, 64)), 1),
    "a registration": (
        asks(2, mq_open_request("/q", O_RDWR), mq_open_request("/q", O_RDWR), mq_notify_request(0, 1)),
        1,
    ),
    "a close of another descriptor": (asks(2, close_request(1)), 0),
    "a close of the one that is registered": (asks(2, close_request(0)), 1),
    "a registration again": (asks(2, mq_open_request("/q", O_RDWR), mq_notify_request(0, 1)), 1),
    "an exit, with an adjustment and a registration": ("0 end 2\n", 2),
    "an exit without": (comes(2) + "0 end 2\n", 0),
    "a post": (asks(1, sem_post_request(1)), 1),
    "a write": (asks(1, shm_write_request(2, 0, b"x")), 1),
    "a length": (asks(1, ftruncate_request(2, 4)), 1),
    "an open with O_TRUNC": (asks(1, shm_open_request("/m", O_RDWR | O_TRUNC), close_request(3)), 1),
    "an adjustment and a registration": (asks(1, semop_request(1, [(0, 1, SEM_UNDO)]), mq_notify_request(0, 1)), 2),
    "a restart": ("stop\n", 2),
    "a restart without": ("stop\n", 0),
    "a send, and a restart": (comes(1) + asks(1, msgsnd_request(1, 1, b"a")) + "stop\n", 1),
    "a queue more": (comes(1) + asks(1, msgget_request(2, IPC_CREAT | MODE)), 1),
    "a queue less": (asks(1, msgctl_rmid_request(2)), 0),
    "an unlink of what is open": (asks(1, mq_open_request("/q", O_RDWR), mq_unlink_request("/q")), 1),
    "its end": ("0 end 1\n", 0),
}
REFUSALS = [errno.ENOMSG, errno.EEXIST, errno.EAGAIN, errno.EAGAIN, errno.EAGAIN, errno.EINVAL]


def what_changes_an_object() -> None:
    """By the words of docs/DEVICE.md: beside six sectors, of the first four objects, of the table and of the root, a
    save writes one of each object that has changed since the save before."""
    printed("format", "device", "--small")
    with watched():
        output = printed_of("saves", "".join(lines + "save\n" for lines, _ in CHANGES.values()))
    refusals = [int(line.split()[1][16:20], 16) for line in output.splitlines()]
    check([one for one in refusals if one] == REFUSALS, f"other calls are refused: {refusals}")
    saves = sectors_saved()
    check(len(saves) == len(CHANGES), f"{len(saves)} saves are made")
    for found, (name, (_, changed)) in zip(saves, CHANGES.items()):
        check(found == 6 + changed, f"{name}: a save writes {found} sectors, and not {6 + changed}")


# The lengths of the texts in a line, the bytes of their batch, and its sectors. A batch has 4 bytes of its length, the
# tick of the line, 13, and 38 and the text for each.
BATCHES = [((2,), 57, 1), ((457,), 512, 1), ((458,), 513, 2), ((457, 474), 1024, 2), ((457, 475), 1025, 3)]
BATCHES += [((8427,), 8482, 17), ((8427, 8427, 8427), 25412, 50), ((65771,), 65826, 129)]
BATCHES += [((64184, 65771), 130048, 254)]


def batches() -> None:
    """A commit puts one out by one write, or by one for each 64 sectors, and the header by another, and syncs twice."""
    for lengths, size, sectors in BATCHES:
        sends = b"".join(frame(2, msgsnd_request(1, 5, length * b"\7")) for length in lengths)
        name = f"texts of {lengths} bytes"
        pieces = [min(64, sectors - at) for at in range(0, sectors, 64)]
        wanted = "SBSHS" + "BSHS" + len(pieces) * "B" + "SHS"
        makes(name, f"0 open 1\n0 data 1 {HELLO}\n0 data 1 {sends.hex()}\n", wanted)
        written = [call.data for call in calls() if call.name == "pwrite" and call.sector >= BODY]
        sizes = [len(data) // SECTOR for data in written]
        check(sizes == [1, 1, *pieces], f"{name}: {sizes} sectors are written")
        found = 4 + int.from_bytes(written[2][:4], "big")
        check(found == size, f"{name}: the batch has {found} bytes, and not {size}")


TESTS = [
    slow_streams,
    reads_that_fail,
    writes_that_fail,
    last_words,
    a_disk_that_fails_within_a_line,
    a_thousand_requests_in_a_line,
    a_crash_leaves_the_message_or_not,
    writes_and_syncs,
    sectors_of_saves,
    what_changes_an_object,
    batches,
]


def main() -> None:
    with in_a_folder(300):
        if build("script_calls"):
            run_tests("script_calls", TESTS)


if __name__ == "__main__":
    main()
