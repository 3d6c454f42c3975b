"""Random scripts of semaphore sets on the built program, beside a model of them in Python.

    python3 tests/scripts/sets.py PROGRAM [SEED]

The model was written from docs/PROTOCOL.md, apart from the definitions and the program: lists of operations,
adjustments, calls that wait and go on, deadlines, exits and stops, under small limits. The seed, which is printed,
makes the scripts. It takes some seconds.
"""

from __future__ import annotations

import errno
import os
import random
import struct
import subprocess
import sys
from pathlib import Path
from typing import NamedTuple

sys.path.insert(0, str(Path(__file__).resolve().parents[1] / "lib"))

from device_layout import (  # noqa: E402
    IPC_NOWAIT,
    NO_DEADLINE,
    SEM_UNDO,
    SMALL,
    Set,
    gives,
    hello,
    interrupt,
    semctl_getall,
    semctl_getncnt,
    semctl_getzcnt,
    semctl_rmid,
    semctl_set,
    semctl_setall,
    semctl_setval,
    semget,
    semop,
)

PROGRAM = os.path.realpath(sys.argv[1])
SEED = int(sys.argv[2]) if len(sys.argv) > 2 else random.randrange(2**32)
SCRIPTS, LINES = 200, 80
IPC_CREAT, IPC_EXCL = 0o1000, 0o2000
FLAGS = [0o1666, 0o1600, 0o3666, 0, 0o22]
MOST = 32767

Operation = tuple[int, int, int]
# Its connection, its serial, its error number and its body.
Reply = tuple[int, int, int, bytes]


class Refused(Exception):
    """A call that ends with this error number."""


class Blocked(Exception):
    """A call that has to wait."""


class Waiting(NamedTuple):
    pid: int
    serial: int
    deadline: int
    semid: int
    operations: tuple[Operation, ...]


def refuse(number: int, is_so: bool) -> None:
    if is_so:
        raise Refused(number)


def is_stopped(value: int, what: int) -> bool:
    """Whether an operation cannot proceed at this value."""
    return value != 0 if what == 0 else value + what < 0


class Model:
    """The sets, the processes with their adjustments, and the calls that wait. A process has the connection of its
    number, and a connection one process at a time."""

    def __init__(self) -> None:
        self.clock = 0
        self.next_pid = self.next_set = 1
        self.creds: dict[int, tuple[int, int]] = {}
        self.connections: dict[int, int] = {}
        self.sets: dict[int, Set] = {}
        self.undo: dict[int, dict[tuple[int, int], int]] = {}
        self.waits: list[Waiting] = []
        self.replies: list[Reply] = []

    def answer(self, pid: int, serial: int, number: int, body: bytes = b"") -> None:
        self.replies.append((self.connections[pid], serial, number, body))

    def at(self, moment: int) -> None:
        """Time passes: calls end whose deadline has come."""
        self.clock = max(self.clock, moment)
        for late in [one for one in self.waits if one.deadline <= self.clock]:
            self.waits.remove(late)
            self.answer(late.pid, late.serial, errno.EAGAIN)

    def settle(self) -> None:
        """The first call that can goes on, and then all are tried again."""
        for one in self.waits:
            try:
                number, body = 0, self.semop(one.pid, one.semid, one.operations, errno.EIDRM)
            except Refused as refusal:
                number, body = refusal.args[0], b""
            except Blocked:
                continue
            self.waits.remove(one)
            self.answer(one.pid, one.serial, number, body)
            self.settle()
            return

    # ---- what a process does

    def connect(self, connection: int, cred: tuple[int, int]) -> int | None:
        if len(self.creds) == SMALL.processes:
            self.replies.append((connection, 1, errno.ENFILE, b""))
            return None
        pid = self.next_pid
        self.next_pid += 1
        self.creds[pid], self.connections[pid], self.undo[pid] = cred, connection, {}
        self.answer(pid, 1, 0, struct.pack(">I", pid))
        return pid

    def call(self, pid: int, serial: int, name: str, arguments: tuple) -> None:
        """A call of this name: a method's, or an INTERRUPT."""
        mine = [one for one in self.waits if one.pid == pid]
        if name == "interrupt":
            for one in mine:
                self.waits.remove(one)
                self.answer(pid, one.serial, errno.EINTR)
            self.answer(pid, serial, 0)
            return
        if mine:
            self.answer(pid, serial, errno.EALREADY)
            return
        try:
            if name == "semop":
                timeout, semid, operations = arguments
                body = self.semop(pid, semid, operations, errno.EINVAL)
            else:
                body = getattr(self, name)(pid, *arguments)
        except Refused as refusal:
            self.answer(pid, serial, refusal.args[0])
        except Blocked:
            deadline = min(self.clock + timeout, NO_DEADLINE)
            if deadline <= self.clock and deadline != NO_DEADLINE:
                self.answer(pid, serial, errno.EAGAIN)
            else:
                self.waits.append(Waiting(pid, serial, deadline + (deadline == NO_DEADLINE), semid, operations))
        else:
            self.answer(pid, serial, 0, body)
            self.settle()

    def give_back(self, pid: int) -> None:
        for (semid, number), amount in sorted(self.undo.pop(pid).items()):
            value = self.sets[semid].semaphores[number][0]
            self.put(semid, number, min(max(value + amount, 0), MOST), pid)

    def leave(self, pid: int) -> None:
        self.waits = [one for one in self.waits if one.pid != pid]
        self.give_back(pid)
        del self.creds[pid], self.connections[pid]
        self.settle()

    def stop(self) -> None:
        self.waits.clear()
        for pid in sorted(self.undo):
            self.give_back(pid)
        self.creds.clear()
        self.connections.clear()

    # ---- calls: each answers the body of its reply, is refused, or has to wait

    def put(self, semid: int, number: int, value: int, pid: int) -> None:
        them = list(self.sets[semid].semaphores)
        them[number] = (value, pid)
        self.sets[semid] = self.sets[semid]._replace(semaphores=tuple(them))

    def clear(self, semid: int, numbers: range) -> None:
        for pid, them in self.undo.items():
            self.undo[pid] = {at: amount for at, amount in them.items() if at[0] != semid or at[1] not in numbers}

    def named(self, semid: int, gone: int = errno.EINVAL) -> Set:
        refuse(gone, semid not in self.sets)
        return self.sets[semid]

    def semaphore(self, pid: int, semid: int, number: int, bits: int) -> tuple[int, int]:
        one = self.named(semid)
        refuse(errno.EINVAL, number >= len(one.semaphores))
        refuse(errno.EACCES, not gives(one, self.creds[pid], bits))
        return one.semaphores[number]

    def semget(self, pid: int, key: int, count: int, flags: int) -> bytes:
        refuse(errno.EINVAL, not 0 <= count <= SMALL.semmsl)
        used = [semid for semid, one in self.sets.items() if one.key == key and key]
        if used:
            one = self.sets[used[0]]
            refuse(errno.EEXIST, bool(flags & IPC_CREAT and flags & IPC_EXCL))
            refuse(errno.EINVAL, count > len(one.semaphores))
            asked = 4 * bool(flags & 0o444) + 2 * bool(flags & 0o222)
            refuse(errno.EACCES, not gives(one, self.creds[pid], asked))
            return struct.pack(">I", used[0])
        refuse(errno.ENOENT, bool(key) and not flags & IPC_CREAT)
        refuse(errno.EINVAL, count == 0)
        there = sum(len(one.semaphores) for one in self.sets.values())
        refuse(errno.ENOSPC, len(self.sets) == SMALL.semmni or there + count > SMALL.semmns)
        semid = self.next_set
        self.next_set += 1
        cred = self.creds[pid]
        self.sets[semid] = Set(key, count * ((0, 0),), cred, cred, flags & 0o777, (0, self.clock))
        return struct.pack(">I", semid)

    def semop(self, pid: int, semid: int, operations: tuple[Operation, ...], gone: int) -> bytes:
        refuse(errno.EINVAL, not operations)
        one = self.named(semid, gone)
        refuse(errno.E2BIG, len(operations) > SMALL.semopm)
        refuse(errno.EFBIG, any(number >= len(one.semaphores) for number, _, _ in operations))
        wanted = {2 if what else 4 for _, what, _ in operations}
        refuse(errno.EACCES, not all(gives(one, self.creds[pid], bits) for bits in wanted))
        values = [value for value, _ in one.semaphores]
        held = dict(self.undo[pid])
        for number, what, flags in operations:
            if is_stopped(values[number], what):
                refuse(errno.EAGAIN, bool(flags & IPC_NOWAIT))
                raise Blocked
            values[number] += what
            refuse(errno.ERANGE, values[number] > MOST)
            if flags & SEM_UNDO:
                held[semid, number] = held.get((semid, number), 0) - what
                refuse(errno.ERANGE, abs(held[semid, number]) > MOST)
        for number, _, _ in operations:
            self.put(semid, number, values[number], pid)
        self.undo[pid] = {at: amount for at, amount in held.items() if amount}
        self.sets[semid] = self.sets[semid]._replace(times=(self.clock, one.times[1]))
        return b""

    def getval(self, pid: int, semid: int, number: int) -> bytes:
        return struct.pack(">I", self.semaphore(pid, semid, number, 4)[0])

    def getpid(self, pid: int, semid: int, number: int) -> bytes:
        return struct.pack(">I", self.semaphore(pid, semid, number, 4)[1])

    def stops_at(self, one: Waiting) -> Operation:
        """The operation of a list which cannot proceed now."""
        values = [value for value, _ in self.sets[one.semid].semaphores]
        for number, what, flags in one.operations:
            if is_stopped(values[number], what):
                return number, what, flags
            values[number] += what
        raise AssertionError("a list waits that could go on")

    def counted(self, semid: int, number: int, is_zero: bool) -> bytes:
        stops = [self.stops_at(one) for one in self.waits if one.semid == semid]
        return struct.pack(">I", len([0 for where, what, _ in stops if where == number and (what == 0) == is_zero]))

    def getncnt(self, pid: int, semid: int, number: int) -> bytes:
        self.semaphore(pid, semid, number, 4)
        return self.counted(semid, number, False)

    def getzcnt(self, pid: int, semid: int, number: int) -> bytes:
        self.semaphore(pid, semid, number, 4)
        return self.counted(semid, number, True)

    def setval(self, pid: int, semid: int, number: int, value: int) -> bytes:
        self.semaphore(pid, semid, number, 2)
        refuse(errno.ERANGE, not 0 <= value <= MOST)
        self.put(semid, number, value, pid)
        self.clear(semid, range(number, number + 1))
        return self.changed(semid)

    def changed(self, semid: int) -> bytes:
        one = self.sets[semid]
        self.sets[semid] = one._replace(times=(one.times[0], self.clock))
        return b""

    def getall(self, pid: int, semid: int) -> bytes:
        one = self.named(semid)
        refuse(errno.EACCES, not gives(one, self.creds[pid], 4))
        return b"".join(struct.pack(">H", value) for value, _ in one.semaphores)

    def setall(self, pid: int, semid: int, *values: int) -> bytes:
        one = self.named(semid)
        refuse(errno.EINVAL, len(values) != len(one.semaphores))
        refuse(errno.EACCES, not gives(one, self.creds[pid], 2))
        refuse(errno.ERANGE, max(values) > MOST)
        for number, value in enumerate(values):
            self.put(semid, number, value, pid)
        self.clear(semid, range(len(values)))
        return self.changed(semid)

    def stat(self, pid: int, semid: int) -> bytes:
        one = self.named(semid)
        refuse(errno.EACCES, not gives(one, self.creds[pid], 4))
        return one.data()[:44]

    def owned(self, pid: int, semid: int) -> Set:
        one = self.named(semid)
        refuse(errno.EPERM, self.creds[pid][0] not in (0, one.owner[0], one.creator[0]))
        return one

    def set(self, pid: int, semid: int, uid: int, gid: int, mode: int) -> bytes:
        self.sets[semid] = self.owned(pid, semid)._replace(owner=(uid, gid), mode=mode & 0o777)
        return self.changed(semid)

    def rmid(self, pid: int, semid: int) -> bytes:
        self.owned(pid, semid)
        self.clear(semid, range(SMALL.semmsl))
        del self.sets[semid]
        return b""


# ---- scripts


def spelled(serial: int, name: str, arguments: tuple) -> bytes:
    """The frame of a call, without its length."""
    if name == "semop":
        timeout, semid, operations = arguments
        return semop(serial, semid, *operations, timeout=timeout)
    opcodes = {"getval": 0x16, "getpid": 0x17, "stat": 0x1D}
    if name in opcodes:
        return struct.pack(f">IB{len(arguments)}I", serial, opcodes[name], *arguments)
    return {
        "interrupt": interrupt,
        "semget": semget,
        "getncnt": semctl_getncnt,
        "getzcnt": semctl_getzcnt,
        "setval": semctl_setval,
        "getall": semctl_getall,
        "setall": semctl_setall,
        "set": semctl_set,
        "rmid": semctl_rmid,
    }[name](serial, *arguments)


class Writer:
    """Writes a random script, and what is to be printed. Some scripts are of values at the end of their range, and in
    each as many calls wait as may be."""

    def __init__(self, rng: random.Random) -> None:
        self.rng = rng
        self.amounts = [-3, -2, -1, -1, -1, 0, 0, 1, 1, 2, 4, 32767, -32767, -32768]
        self.flags = [0, 0, 0, 0, SEM_UNDO, SEM_UNDO, SEM_UNDO, IPC_NOWAIT, IPC_NOWAIT | SEM_UNDO]
        if rng.random() < 0.25:
            self.amounts = [-1, 1, -2, 2, 0, 32767, 32767, 32766, -32767, -32767, -32766, -32768]
            self.flags = [0, IPC_NOWAIT, IPC_NOWAIT, IPC_NOWAIT | SEM_UNDO, IPC_NOWAIT | SEM_UNDO, SEM_UNDO]
        self.model = Model()
        self.script: list[str] = []
        self.printed: list[str] = []
        self.moment = 0
        self.serial = 1
        # The processes of the connections.
        self.open: dict[int, int] = {}

    def line(self, text: str) -> None:
        """A line of the script; what it makes visible is printed for each connection in rising number."""
        self.script.append(text)
        for connection, serial, number, body in sorted(self.model.replies, key=lambda reply: reply[0]):
            frame = struct.pack(">IIH", 6 + len(body), serial, number) + body
            self.printed.append(f"{connection} {frame.hex()}")
        self.model.replies.clear()

    def data(self, connection: int, frame: bytes) -> str:
        return f"{self.moment} data {connection} {(len(frame).to_bytes(4, 'big') + frame).hex()}"

    def comes(self) -> None:
        connection = next(number for number in range(1, 9) if number not in self.open)
        cred = self.rng.choice([(1000, 100), (1000, 100), (2000, 100), (3000, 300), (0, 0)])
        self.line(f"{self.moment} open {connection}")
        self.model.at(self.moment)
        self.open[connection] = self.model.connect(connection, cred)
        self.line(self.data(connection, hello(1, *cred)))

    def leaves(self) -> None:
        connection = self.rng.choice(list(self.open))
        self.model.at(self.moment)
        self.model.leave(self.open.pop(connection))
        # Nobody sees what the client would be told.
        self.model.replies = [reply for reply in self.model.replies if reply[0] != connection]
        self.line(f"{self.moment} end {connection}")

    def stops(self) -> None:
        self.model.stop()
        self.open.clear()
        self.line("stop")

    def operations(self) -> tuple[Operation, ...]:
        rng = self.rng
        many = rng.choice([1, 1, 1, 1, 2, 2, 2, 3, 4]) if rng.random() < 0.97 else rng.choice([0, 5])
        return tuple(
            (rng.choice([0, 0, 0, 0, 1, 1, 2, 3]), rng.choice(self.amounts), rng.choice(self.flags))
            for _ in range(many)
        )

    def asks(self) -> None:
        rng = self.rng
        # One that does not wait, if there is one; mostly.
        idle = [it for it, pid in self.open.items() if all(one.pid != pid for one in self.model.waits)]
        connection = rng.choice(idle if idle and rng.random() < 0.9 else list(self.open))
        semid = rng.choice([*8 * list(self.model.sets), self.model.next_set])
        number = rng.choice([0, 0, 0, 1, 1, 2, 3, 4])
        value = rng.choice([0, 1, 2, 3, 32766, 32767, 32768, -1])
        timeout = rng.choice([NO_DEADLINE, NO_DEADLINE, 0, 1, 5, 20, NO_DEADLINE - self.moment - 1])
        values = tuple(rng.choice([0, 1, 2, 32767, 32768]) for _ in range(rng.choice([1, 2, 2, 3, 4])))
        if semid in self.model.sets and rng.random() < 0.7:
            values = tuple(rng.choice([0, 1, 2, 5]) for _ in self.model.sets[semid].semaphores)
        name, arguments = rng.choice(
            [
                *14 * [("semop", (timeout, semid, self.operations()))],
                *2 * [("setval", (semid, number, value))],
                *2 * [("setall", (semid, *values))],
                *4 * [("getall", (semid,))],
                *2 * [("getncnt", (semid, number))],
                *2 * [("getzcnt", (semid, number))],
                ("getval", (semid, number)),
                *2 * [("getpid", (semid, number))],
                *2 * [("stat", (semid,))],
                ("set", (semid, rng.choice([1000, 2000]), 100, rng.choice([0o666, 0o644, 0o622, 0o1777]))),
                *([("rmid", (semid,))] if rng.random() < 0.3 else []),
                *2 * [("semget", (rng.choice([0, 7, 8]), rng.randrange(-1, 6), rng.choice(FLAGS)))],
                *2 * [("interrupt", ())],
            ]
        )
        self.serial += 1
        self.model.at(self.moment)
        self.model.call(self.open[connection], self.serial, name, arguments)
        self.line(self.data(connection, spelled(self.serial, name, arguments)))

    def write(self) -> None:
        rng = self.rng
        for _ in range(LINES):
            self.moment = max(0, self.moment + rng.choice([0, 0, 0, 1, 2, 7, -1]))
            way = rng.random()
            if len(self.open) < 2 or (way < 0.3 and len(self.open) < SMALL.processes):
                self.comes()
            elif not self.model.sets:
                self.makes()
            elif way < 0.09:
                self.leaves()
            elif way < 0.12:
                self.stops()
            elif way < 0.15:
                self.model.at(self.moment)
                self.line(f"{self.moment} tick")
            elif way < 0.16:
                self.line("save")
            else:
                self.asks()

    def makes(self) -> None:
        """A set for all users."""
        connection = self.rng.choice(list(self.open))
        arguments = (self.rng.choice([0, 7]), self.rng.randrange(1, 5), 0o1666)
        self.serial += 1
        self.model.at(self.moment)
        self.model.call(self.open[connection], self.serial, "semget", arguments)
        self.line(self.data(connection, semget(self.serial, *arguments)))


def main() -> None:
    for number in range(SCRIPTS):
        writer = Writer(random.Random(f"{SEED} {number}"))
        writer.write()
        script, wanted = ("".join(f"{line}\n" for line in lines) for lines in (writer.script, writer.printed))
        ended = subprocess.run([PROGRAM, "replay", "--small"], input=script, capture_output=True, text=True, timeout=60)
        found = ended.stdout
        if (ended.returncode, ended.stderr, found) != (0, "", wanted):
            pairs = zip(wanted.splitlines() + [""], found.splitlines() + [""])
            first = next((pair for pair in pairs if pair[0] != pair[1]), None)
            sys.exit(f"sets: seed {SEED}, script {number}: wanted and printed {first}, {ended.stderr!r}\n{script}")
    print(f"sets: {SCRIPTS} random scripts, seed {SEED}, each as the model has it")


if __name__ == "__main__":
    main()
