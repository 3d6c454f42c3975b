"""Random scripts of System V segments on the built program, beside a model of them in Python.

    python3 tests/scripts/segments.py PROGRAM [SEED]

The model was written from docs/PROTOCOL.md, apart from the definitions and the program: attachments, marks,
permissions, limits, exits and stops, under small limits and under others near them; and what `dump` lists at the end.
The seed, which is printed, makes the scripts. It takes some seconds.
"""

from __future__ import annotations

import errno
import os
import random
import struct
import subprocess
import sys
import tempfile
from pathlib import Path
from typing import NamedTuple, Optional

sys.path.insert(0, str(Path(__file__).resolve().parents[1] / "lib"))

from device_layout import (  # noqa: E402
    MARKED,
    SHM_RDONLY,
    SMALL,
    Device,
    Limits,
    SystemVSegment,
    attached_read,
    attached_write,
    gives,
    hello,
    put_into_file,
    shmat,
    shmctl_rmid,
    shmctl_set,
    shmctl_stat,
    shmdt,
    shmget,
)

PROGRAM = os.path.realpath(sys.argv[1])
SEED = int(sys.argv[2]) if len(sys.argv) > 2 else random.randrange(2**32)
SCRIPTS, ON_DEVICES, LINES = 140, 40, 80
IPC_CREAT, IPC_EXCL = 0o1000, 0o2000
LAST = 2**64 - 1
FLAGS = [0o1666, 0o1666, 0o1644, 0o1600, 0o3666, 0, 0o22, 0o444, 0o7]
SIZES = [*6 * [0], *6 * [1], *4 * [10], 64, 100, 1000, 2**32, LAST]
CREDS = [(1000, 100), (1000, 100), (2000, 100), (3000, 300), (0, 0)]

# Its connection, its serial, its error number and its body.
Reply = tuple[int, int, int, bytes]


class Refused(Exception):
    """A call that ends with this error number."""


class Attachment(NamedTuple):
    shmid: int
    reads_alone: bool


def refuse(number: int, is_so: bool) -> None:
    if is_so:
        raise Refused(number)


class Model:
    """The segments, and the processes with their descriptors: attachments, or None for one of a semaphore. A process
    has the connection of its number, and a connection one process at a time."""

    def __init__(self, limits: Limits) -> None:
        self.limits, self.clock = limits, 0
        self.next_pid = self.next_segment = 1
        self.creds: dict[int, tuple[int, int]] = {}
        self.connections: dict[int, int] = {}
        self.opened: dict[int, dict[int, Optional[Attachment]]] = {}
        self.segments: dict[int, SystemVSegment] = {}
        self.replies: list[Reply] = []

    def answer(self, pid: int, serial: int, number: int, body: bytes = b"") -> None:
        self.replies.append((self.connections[pid], serial, number, body))

    def at(self, moment: int) -> None:
        self.clock = max(self.clock, moment)

    # ---- what a process does

    def connect(self, connection: int, cred: tuple[int, int]) -> int:
        pid = self.next_pid
        self.next_pid += 1
        self.creds[pid], self.connections[pid], self.opened[pid] = cred, connection, {}
        self.answer(pid, 1, 0, struct.pack(">I", pid))
        return pid

    def call(self, pid: int, serial: int, name: str, arguments: tuple) -> None:
        """A call of this name, which is a method's."""
        try:
            body = getattr(self, name)(pid, *arguments)
        except Refused as refusal:
            self.answer(pid, serial, refusal.args[0])
        else:
            self.answer(pid, serial, 0, body)

    def leave(self, pid: int) -> None:
        for fd, one in sorted(self.opened[pid].items()):
            if one is not None:
                self.give_up(pid, fd)
        del self.creds[pid], self.connections[pid], self.opened[pid]

    def stop(self) -> None:
        for pid in sorted(self.opened):
            self.leave(pid)

    # ---- attachments

    def attachments(self, shmid: int) -> int:
        return len([0 for them in self.opened.values() for one in them.values() if one and one.shmid == shmid])

    def give_up(self, pid: int, fd: int) -> None:
        """The segment knows when and by whom. One that is marked goes with the last."""
        shmid = self.opened[pid].pop(fd).shmid
        one = self.segments[shmid]
        times = (one.times[0], self.clock, one.times[2])
        self.segments[shmid] = one._replace(times=times, pids=(one.pids[0], pid))
        self.sweep(shmid)

    def sweep(self, shmid: int) -> None:
        if self.segments[shmid].mode & MARKED and self.attachments(shmid) == 0:
            del self.segments[shmid]

    def attached(self, pid: int, fd: int, number: int) -> Attachment:
        """What the descriptor has attached; if it is none, or of something else, that is this error."""
        one = self.opened[pid].get(fd)
        refuse(number, one is None)
        return one

    def opens(self, pid: int, one: Optional[Attachment]) -> bytes:
        mine = self.opened[pid]
        refuse(errno.EMFILE, len(mine) == self.limits.descriptors)
        fd = next(number for number in range(len(mine) + 1) if number not in mine)
        mine[fd] = one
        return struct.pack(">I", fd)

    # ---- calls: each answers the body of its reply, or is refused

    def named(self, shmid: int) -> SystemVSegment:
        refuse(errno.EINVAL, shmid not in self.segments)
        return self.segments[shmid]

    def all_bytes(self) -> int:
        return sum(len(one.content) for one in self.segments.values())

    def get(self, pid: int, key: int, size: int, flags: int) -> bytes:
        used = [shmid for shmid, one in self.segments.items() if one.key == key and key]
        if used:
            one = self.segments[used[0]]
            refuse(errno.EEXIST, bool(flags & IPC_CREAT and flags & IPC_EXCL))
            refuse(errno.EINVAL, size > len(one.content))
            asked = 4 * bool(flags & 0o444) + 2 * bool(flags & 0o222)
            refuse(errno.EACCES, not gives(one, self.creds[pid], asked))
            return struct.pack(">I", used[0])
        refuse(errno.ENOENT, bool(key) and not flags & IPC_CREAT)
        refuse(errno.EINVAL, not 0 < size <= self.limits.shmmax)
        is_full = len(self.segments) == self.limits.shmmni or self.all_bytes() + size > self.limits.shmall
        refuse(errno.ENOSPC, is_full)
        shmid, cred = self.next_segment, self.creds[pid]
        self.next_segment += 1
        times, pids = (0, 0, self.clock), (pid, 0)
        self.segments[shmid] = SystemVSegment(key, bytes(size), cred, cred, flags & 0o777, times, pids)
        return struct.pack(">I", shmid)

    def at_segment(self, pid: int, shmid: int, flags: int) -> bytes:
        one, reads_alone = self.named(shmid), bool(flags & SHM_RDONLY)
        refuse(errno.EACCES, not gives(one, self.creds[pid], 4 if reads_alone else 6))
        body = self.opens(pid, Attachment(shmid, reads_alone))
        times = (self.clock, *one.times[1:])
        self.segments[shmid] = one._replace(times=times, pids=(one.pids[0], pid))
        return body

    def dt(self, pid: int, fd: int) -> bytes:
        self.attached(pid, fd, errno.EINVAL)
        self.give_up(pid, fd)
        return b""

    def stat(self, pid: int, shmid: int) -> bytes:
        one = self.named(shmid)
        refuse(errno.EACCES, not gives(one, self.creds[pid], 4))
        return one.record() + struct.pack(">IQ", self.attachments(shmid), len(one.content))

    def owned(self, pid: int, shmid: int) -> SystemVSegment:
        one = self.named(shmid)
        refuse(errno.EPERM, self.creds[pid][0] not in (0, one.owner[0], one.creator[0]))
        return one

    def set(self, pid: int, shmid: int, uid: int, gid: int, mode: int) -> bytes:
        one = self.owned(pid, shmid)
        mode = one.mode & MARKED | mode & 0o777
        self.segments[shmid] = one._replace(owner=(uid, gid), mode=mode, times=(*one.times[:2], self.clock))
        return b""

    def rmid(self, pid: int, shmid: int) -> bytes:
        one = self.owned(pid, shmid)
        self.segments[shmid] = one._replace(key=0, mode=one.mode | MARKED)
        self.sweep(shmid)
        return b""

    def part(self, shmid: int, offset: int, length: int) -> bytes:
        content = self.segments[shmid].content
        refuse(errno.EINVAL, length > self.limits.segment_call)
        refuse(errno.EINVAL, offset + length > len(content))
        return content[offset : offset + length]

    def read(self, pid: int, fd: int, offset: int, length: int) -> bytes:
        return self.part(self.attached(pid, fd, errno.EBADF).shmid, offset, length)

    def write(self, pid: int, fd: int, offset: int, data: bytes) -> bytes:
        shmid, reads_alone = self.attached(pid, fd, errno.EBADF)
        refuse(errno.EBADF, reads_alone)
        self.part(shmid, offset, len(data))
        one = self.segments[shmid]
        content = one.content[:offset] + data + one.content[offset + len(data) :]
        self.segments[shmid] = one._replace(content=content)
        return b""

    def close(self, pid: int, fd: int) -> bytes:
        mine = self.opened[pid]
        refuse(errno.EBADF, fd not in mine or mine[fd] is not None)
        del mine[fd]
        return b""

    def open_semaphore(self, pid: int) -> bytes:
        return self.opens(pid, None)

    def listed(self) -> str:
        """What `dump` prints after a stop."""
        lines = []
        for shmid, one in sorted(self.segments.items()):
            owner = f"{one.mode:04o} {one.owner[0]:10} {one.owner[1]:10}"
            lines.append(f"seg {shmid:10} {one.key:11} {owner} {len(one.content):10} {self.attachments(shmid):10}\n")
        return "".join(lines)


# ---- scripts

SPELLED = {
    "get": shmget,
    "at_segment": shmat,
    "dt": shmdt,
    "stat": shmctl_stat,
    "set": shmctl_set,
    "rmid": shmctl_rmid,
    "read": attached_read,
    "write": attached_write,
    "close": lambda serial, fd: struct.pack(">IBI", serial, 0x03, fd),
    "open_semaphore": lambda serial: struct.pack(">IBIII", serial, 0x32, 0o100, 0o666, 0) + b"/s",
}


class Writer:
    """Writes a random script, and what is to be printed."""

    def __init__(self, rng: random.Random, limits: Limits) -> None:
        self.rng, self.limits = rng, limits
        self.model = Model(limits)
        self.script: list[str] = []
        self.printed: list[str] = []
        self.moment = 0
        self.serial = 1
        # The processes of the connections.
        self.open: dict[int, int] = {}

    def line(self, text: str) -> None:
        """A line of the script, and what it prints."""
        self.script.append(text)
        for connection, serial, number, body in self.model.replies:
            frame = struct.pack(">IIH", 6 + len(body), serial, number) + body
            self.printed.append(f"{connection} {frame.hex()}")
        self.model.replies.clear()

    def data(self, connection: int, frame: bytes) -> str:
        return f"{self.moment} data {connection} {(len(frame).to_bytes(4, 'big') + frame).hex()}"

    def comes(self) -> None:
        connection = next(number for number in range(1, 9) if number not in self.open)
        cred = self.rng.choice(CREDS)
        self.line(f"{self.moment} open {connection}")
        self.model.at(self.moment)
        self.open[connection] = self.model.connect(connection, cred)
        self.line(self.data(connection, hello(1, *cred)))

    def leaves(self) -> None:
        connection = self.rng.choice(list(self.open))
        self.model.at(self.moment)
        self.model.leave(self.open.pop(connection))
        self.line(f"{self.moment} end {connection}")

    def stops(self) -> None:
        self.model.stop()
        self.open.clear()
        self.line("stop")

    def a_descriptor(self, pid: int) -> int:
        """Mostly one that is open."""
        mine = list(self.model.opened[pid])
        return self.rng.choice(mine) if mine and self.rng.random() < 0.9 else self.rng.randrange(5)

    def a_place(self, pid: int, fd: int) -> tuple[int, int]:
        """An offset and a length, mostly near the beginning or the end of what is attached."""
        rng, one = self.rng, self.model.opened[pid].get(fd)
        end = len(self.model.segments[one.shmid].content) if one else 10
        length = rng.choice([0, 1, 2, 3, 10, 63, 64, 65])
        offset = rng.choice([0, 0, 1, end // 2, end - length, end - length + 1, end - 1, end, end + 1, LAST, LAST - 2])
        return max(offset, 0), length

    def a_size(self) -> int:
        """Of a segment: also the greatest, and as much as there is room for, or a byte more."""
        room = self.limits.shmall - self.model.all_bytes()
        most = [self.limits.shmmax, room]
        return self.rng.choice([*SIZES, *2 * most, *[size + 1 for size in 2 * most]])

    def a_call(self, pid: int) -> tuple[str, tuple]:
        rng, model = self.rng, self.model
        shmid = rng.choice([*8 * list(model.segments), model.next_segment])
        fd = self.a_descriptor(pid)
        offset, length = self.a_place(pid, fd)
        owner = (rng.choice([1000, 2000]), rng.choice([100, 300]), rng.choice([0o666, 0o644, 0o600, 0o1777, 0o222]))
        get = (rng.choice([0, 7, 8, -8]), self.a_size(), rng.choice(FLAGS))
        flags = rng.choice([0, 0, 0, SHM_RDONLY, 0xEFFF, 2**32 - 1])
        if not any(model.opened[pid].values()) and rng.random() < 0.6:
            return "at_segment", (shmid, flags)
        return rng.choice(
            [
                *4 * [("get", get)],
                *5 * [("at_segment", (shmid, flags))],
                *3 * [("dt", (fd,))],
                *4 * [("stat", (shmid,))],
                ("set", (shmid, *owner)),
                ("rmid", (shmid,)),
                *4 * [("read", (fd, offset, length))],
                *6 * [("write", (fd, offset, rng.randbytes(length)))],
                *([("close", (fd,))] if rng.random() < 0.5 else []),
                *([("open_semaphore", ())] if rng.random() < 0.5 else []),
            ]
        )

    def asks(self, connection: int, name: str, arguments: tuple) -> None:
        self.serial += 1
        self.model.at(self.moment)
        self.model.call(self.open[connection], self.serial, name, arguments)
        self.line(self.data(connection, SPELLED[name](self.serial, *arguments)))

    def write(self) -> None:
        rng = self.rng
        for _ in range(LINES):
            self.moment = max(0, self.moment + rng.choice([0, 0, 0, 1, 2, 7, -1]))
            way = rng.random()
            if len(self.open) < 2 or (way < 0.1 and len(self.open) < self.limits.processes):
                self.comes()
            elif not self.model.segments:
                get = (rng.choice([0, 7]), min(rng.choice([1, 10, 64, 100]), self.limits.shmmax), 0o1666)
                self.asks(rng.choice(list(self.open)), "get", get)
            elif way < 0.14:
                self.leaves()
            elif way < 0.16:
                self.stops()
            elif way < 0.18:
                self.model.at(self.moment)
                self.line(f"{self.moment} tick")
            elif way < 0.20:
                self.line("save")
            else:
                connection = rng.choice(list(self.open))
                self.asks(connection, *self.a_call(self.open[connection]))


def runs(number: int, writer: Writer, *words: str) -> None:
    """The script prints what the model has."""
    script, wanted = ("".join(f"{line}\n" for line in lines) for lines in (writer.script, writer.printed))
    ended = subprocess.run([PROGRAM, *words], input=script, capture_output=True, text=True, timeout=60)
    if (ended.returncode, ended.stderr, ended.stdout) != (0, "", wanted):
        pairs = zip(wanted.splitlines() + [""], ended.stdout.splitlines() + [""])
        first = next((pair for pair in pairs if pair[0] != pair[1]), None)
        sys.exit(f"segments: seed {SEED}, script {number}: wanted and printed {first}, {ended.stderr!r}\n{script}")


def lists(number: int, writer: Writer, device: Path) -> None:
    """`dump` lists what the model has after a stop."""
    writer.model.stop()
    wanted = writer.model.listed()
    ended = subprocess.run([PROGRAM, "dump", device], capture_output=True, text=True, timeout=60)
    found = "".join(line for line in ended.stdout.splitlines(keepends=True) if not line.startswith("psm"))
    if (ended.returncode, ended.stderr, found) != (0, "", wanted):
        sys.exit(f"segments: seed {SEED}, script {number}: {ended} lists something else than {wanted!r}")


def some_limits(rng: random.Random) -> Limits:
    """Limits of segments that a script meets in another order, and of bytes together."""
    shmmax = rng.choice([1, 10, 10, 64, 1024])
    shmall = shmmax + rng.choice([0, 1, 2, 9, 10, 11, 100])
    most, piece = rng.choice([1, 3, 5, 5]), rng.choice([3, 64])
    return SMALL._replace(shmmni=most, shmmax=shmmax, shmall=shmall, segment_call=piece)


def main() -> None:
    for number in range(SCRIPTS):
        writer = Writer(random.Random(f"{SEED} {number}"), SMALL)
        writer.write()
        runs(number, writer, "replay", "--small")
    # No device is to outlast the machine, so they are in memory, if they can be.
    memory = "/dev/shm" if os.access("/dev/shm", os.W_OK) else None
    with tempfile.TemporaryDirectory(dir=memory) as folder:
        device = Path(folder, "device")
        for number in range(SCRIPTS, SCRIPTS + ON_DEVICES):
            rng = random.Random(f"{SEED} {number}")
            writer = Writer(rng, some_limits(rng))
            writer.write()
            put_into_file(device, Device(writer.limits).image)
            runs(number, writer, "run", str(device))
            lists(number, writer, device)
    print(f"segments: {SCRIPTS + ON_DEVICES} random scripts, seed {SEED}, each as the model has it")


if __name__ == "__main__":
    main()
