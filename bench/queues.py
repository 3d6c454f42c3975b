"""What `replay` costs on deep queues beside empty and small ones, in processor time, as ratios of one run.

    python3 bench/queues.py PROGRAM [GROUPS]

- A message of another type is sent to a queue that is full but for 64 places, and received: by its
  type, by a negative type, with MSG_EXCEPT. Beside it the same on an empty queue.
- A queue is filled and drained, in several orders. Beside it one that never holds more than 64. What
  the sends take is off.
- A POSIX queue is filled and drained, with messages of ten priorities, and of one.

How many messages there are is asked of the program: of its limits MSGMNB is also the most messages
of a queue. Bars are for 16384 at most, and what more costs is told beside.

Two scripts take turns, in so many groups: `whole`, and `first`, which has fewer pairs or no drains. A
row tells the difference, for a pair or a message: of all groups the middle half, its mean and its
range. Saves of the state are alike in both scripts, but for those that fall among the drains, of what
is left in the queue then. Each run is compared with the output that docs/PROTOCOL.md asks for. The
status is 1 if a bar is missed. It takes some minutes.
"""

from __future__ import annotations

import filecmp
import os
import random
import resource
import struct
import subprocess
import sys
import tempfile
from collections.abc import Callable
from pathlib import Path
from statistics import mean
from typing import NamedTuple

sys.path.insert(0, str(Path(__file__).resolve().parent.parent / "examples"))
sys.dont_write_bytecode = True

from client import (  # noqa: E402
    ATTR_FORM,
    IPC_CREAT,
    IPC_PRIVATE,
    MSG_EXCEPT,
    O_CREAT,
    O_RDWR,
    QUEUE_FORM,
    MqAttr,
    QueueStat,
    hello_request,
    mq_getattr_request,
    mq_open_request,
    mq_receive_request,
    mq_send_request,
    msgctl_rmid_request,
    msgctl_stat_request,
    msgget_request,
    msgrcv_request,
    msgsnd_request,
)

# The most messages that bars are for; how many a small queue holds, and a deep one lacks; and priorities.
MOST, FEW, PRIORITIES = 16384, 64, 10
# Requests in a line; lines between two saves, whose commits fill the journal nearly; and how often they come. How often
# a deep queue is drained.
TOGETHER, LINES, STRETCHES, ROUNDS = 100, 31, 10, 2
# The type of those that stand before, and a lower one.
COMMON, OTHER = 5, 3
SEED = 1

# ---- scripts


class Script:
    """A script of one connection, and the lines that it is to print."""

    def __init__(self) -> None:
        self.lines = ["0 open 1"]
        self.wanted: list[str] = []
        self.together: list[str] = []
        self.queues = 0
        self.ask(hello_request(1000, 100), struct.pack(">I", 1))

    def ask(self, request: bytes, body: bytes = b"") -> None:
        self.together.append((struct.pack(">II", 4 + len(request), 1) + request).hex())
        self.wanted.append("1 " + (struct.pack(">IIH", 6 + len(body), 1, 0) + body).hex())
        if len(self.together) == TOGETHER:
            self.end_line()

    def end_line(self) -> None:
        if self.together:
            self.lines.append("0 data 1 " + "".join(self.together))
            self.together = []

    def save(self) -> None:
        self.end_line()
        self.lines.append("save")

    def get(self) -> int:
        """A new queue. Identifiers count from 1."""
        self.queues += 1
        self.ask(msgget_request(IPC_PRIVATE, IPC_CREAT | 0o600), struct.pack(">I", self.queues))
        return self.queues

    def send(self, queue: int, mtype: int) -> None:
        self.ask(msgsnd_request(queue, mtype, b""))

    def receive(self, queue: int, asked: int, mtype: int, flags: int = 0) -> None:
        """A message of this type comes."""
        self.ask(msgrcv_request(queue, 0, asked, flags), struct.pack(">q", mtype))

    def open(self) -> int:
        """A POSIX queue with the greatest attributes, by the first descriptor."""
        self.ask(mq_open_request("/queue", O_CREAT | O_RDWR, 0o600), struct.pack(">I", 0))
        return 0


class Receive(NamedTuple):
    """How a message of the type OTHER is received, where those before it have the type COMMON."""

    what: str
    asked: int
    flags: int = 0


RECEIVES = [
    Receive("by its type", OTHER),
    Receive("by a negative type", -COMMON),
    Receive("with MSG_EXCEPT", COMMON, MSG_EXCEPT),
]


def pairs(before: int, how: Receive, many: int) -> Script:
    """So many sends and receives between two saves, on a queue that has as many other messages before."""
    script = Script()
    queue = script.get()
    for _ in range(before):
        script.send(queue, COMMON)
    script.save()
    for _ in range(STRETCHES):
        for _ in range(many):
            script.send(queue, OTHER)
            script.receive(queue, how.asked, OTHER, how.flags)
        script.save()
    return script


# The types of so many messages, in some order.
Order = Callable[[int], list[int]]


def one_type(many: int) -> list[int]:
    return many * [1]


def rising(many: int) -> list[int]:
    return list(range(1, 1 + many))


def falling(many: int) -> list[int]:
    return list(range(many, 0, -1))


def shuffled(many: int) -> list[int]:
    types = rising(many)
    random.Random(SEED).shuffle(types)
    return types


class Drain(NamedTuple):
    """In which order messages come, and in which they go: by their types, or by a negative type. And how many times as
    much as one of a small queue each may take."""

    what: str
    bar: float
    comes: Order
    goes: Order
    is_negative: bool = False


ONE_TYPE = Drain("of one type", 1.5, one_type, one_type)
DRAINS = [
    ONE_TYPE,
    Drain("of rising types, the first one first", 1.5, rising, rising),
    Drain("of falling types, the first one first", 1.5, falling, falling),
    Drain("of rising types, the last one first", 1.5, rising, falling),
    Drain("of rising types, in random order", 3, rising, shuffled),
    Drain("of types in random order, the first one first", 3, shuffled, shuffled),
    Drain("of types in random order, by a negative type", 3, shuffled, rising, is_negative=True),
]


def drains(drain: Drain, each: int, rounds: int, are_drained: bool) -> Script:
    """A new queue gets so many messages, is drained, and is removed; and so again."""
    script = Script()
    comes, goes = drain.comes(each), drain.goes(each)
    for _ in range(rounds):
        queue = script.get()
        for mtype in comes:
            script.send(queue, mtype)
        for mtype in goes if are_drained else []:
            script.receive(queue, -each if drain.is_negative else mtype, mtype)
        script.ask(msgctl_rmid_request(queue))
    script.save()
    return script


def posix_rounds(priorities: int, places: int, msgsize: int, rounds: int) -> Script:
    """A POSIX queue is filled and drained so often between two saves."""
    script = Script()
    queue = script.open()
    comes = [number % priorities for number in shuffled(places)]
    script.save()
    for _ in range(STRETCHES):
        for _ in range(rounds):
            for priority in comes:
                script.ask(mq_send_request(queue, b"", priority))
            for priority in sorted(comes, reverse=True):
                script.ask(mq_receive_request(queue, msgsize), struct.pack(">I", priority))
        script.save()
    return script


# ---- runs


def run(program: str, script: Path, output: Path) -> float:
    """Runs the program on a script, and answers how many microseconds of a processor it has taken."""
    before = resource.getrusage(resource.RUSAGE_CHILDREN)
    with script.open("rb") as lines, output.open("wb") as printed:
        subprocess.run([program, "replay"], check=True, stdin=lines, stdout=printed)
    after = resource.getrusage(resource.RUSAGE_CHILDREN)
    return 1e6 * (after.ru_utime + after.ru_stime - before.ru_utime - before.ru_stime)


class Limits(NamedTuple):
    """The places of a queue, and of a POSIX queue, which may have texts of so many bytes."""

    places: int
    posix_places: int
    msgsize: int


def limits_of(program: str) -> Limits:
    """What new queues have."""
    script = Script()
    script.ask(msgctl_stat_request(script.get()))
    script.ask(mq_getattr_request(script.open()))
    script.end_line()
    Path("script").write_text("\n".join(script.lines))
    run(program, Path("script"), Path("output"))
    frames = [bytes.fromhex(line.split()[1]) for line in Path("output").read_text().splitlines()]
    stat = QueueStat(*struct.unpack(QUEUE_FORM, frames[2][10:]))
    attr = MqAttr(*struct.unpack(ATTR_FORM, frames[4][10:]))
    return Limits(stat.qbytes, attr.maxmsg, attr.msgsize)


class Measure:
    """What one script takes more than another, in microseconds, shared among so many: a number of each group."""

    count = 0

    def __init__(self, first: Script, whole: Script, shares: int) -> None:
        Measure.count += 1
        self.scripts = [self.write(name, script) for name, script in (("first", first), ("whole", whole))]
        self.shares = shares
        self.each: list[float] = []

    def write(self, name: str, script: Script) -> Path:
        """The script's file; beside it stands what it is to print."""
        path = Path(f"{name}.{Measure.count}")
        script.end_line()
        path.write_text("".join(line + "\n" for line in script.lines))
        path.with_suffix(path.suffix + ".wanted").write_text("".join(line + "\n" for line in script.wanted))
        return path

    def take(self, program: str) -> None:
        less, more = (self.run(program, script) for script in self.scripts)
        self.each.append((more - less) / self.shares)

    def run(self, program: str, script: Path) -> float:
        taken = run(program, script, Path("output"))
        if not filecmp.cmp("output", script.with_suffix(script.suffix + ".wanted"), shallow=False):
            raise RuntimeError("the lines printed are not those that the script asks for")
        return taken

    def middle(self) -> list[float]:
        """The middle half of the numbers of all groups."""
        skipped = len(self.each) // 4
        return sorted(self.each)[skipped : len(self.each) - skipped]

    def cells(self) -> str:
        them = self.middle()
        return f"{mean(them):.2f} | {them[0]:.2f} to {them[-1]:.2f}"


class Row(NamedTuple):
    """What is measured, with how many messages, beside what, and how many times as much it may take. Without a bar it
    is only told."""

    what: str
    messages: int
    measure: Measure
    beside: Measure | None = None
    bar: float | None = None

    def ratio(self) -> float:
        return mean(self.measure.middle()) / mean(self.beside.middle()) if self.beside else 1.0

    def is_met(self) -> bool:
        return self.bar is None or self.ratio() <= self.bar

    def text(self) -> str:
        ratio = f"{self.ratio():.2f}" if self.beside else ""
        return f"| {self.what} | {self.messages} | {self.measure.cells()} | {ratio} | {self.bar or ''} |"


def pair_rows(places: int) -> list[Row]:
    """Pairs on an empty queue, and on full ones."""

    def measured(before: int, how: Receive) -> Measure:
        most = LINES * TOGETHER // 2
        few = TOGETHER // 2
        return Measure(pairs(before, how, few), pairs(before, how, most), STRETCHES * (most - few))

    empty = measured(0, RECEIVES[0])
    return [Row(RECEIVES[0].what, 0, empty)] + [
        Row(how.what, depth - FEW, measured(depth - FEW, how), empty, bar)
        for depth, bar in depths_of(places, 1.5)
        for how in RECEIVES
    ]


def drain_rows(places: int) -> list[Row]:
    """Drains of small queues, and of full ones."""

    def measured(drain: Drain, each: int) -> Measure:
        rounds = max(1, ROUNDS * MOST // each)
        first, whole = (drains(drain, each, rounds, are_drained) for are_drained in (False, True))
        return Measure(first, whole, each * rounds)

    small = measured(ONE_TYPE, FEW)
    return [Row(ONE_TYPE.what, FEW, small)] + [
        Row(drain.what, depth, measured(drain, depth), small, bar)
        for drain in DRAINS
        for depth, bar in depths_of(places, drain.bar)
    ]


def depths_of(places: int, bar: float) -> list[tuple[int, float | None]]:
    """How many messages a deep queue has, with the bar for so many."""
    return [(min(places, MOST), bar), *([(places, None)] if places > MOST else [])]


def posix_rows(limits: Limits) -> list[Row]:
    """One priority, and ten."""
    places = limits.posix_places
    most = LINES * TOGETHER // (2 * places)

    def measured(priorities: int) -> Measure:
        few, many = (posix_rounds(priorities, places, limits.msgsize, rounds) for rounds in (1, most))
        return Measure(few, many, STRETCHES * (most - 1) * places)

    one = measured(1)
    return [Row("of one priority", places, one), Row(f"of {PRIORITIES}", places, measured(PRIORITIES), one, 1.5)]


def print_rows(what: str, messages: str, beside: str, rows: list[Row]) -> None:
    print(f"| {what} | {messages} | microseconds | range | of {beside} | at most |")
    print("|---|---|---|---|---|---|")
    for row in rows:
        print(row.text())
    print(flush=True)


def main() -> int:
    program = os.path.realpath(sys.argv[1])
    groups = int(sys.argv[2]) if len(sys.argv) > 2 else 20
    with tempfile.TemporaryDirectory(prefix="ipcd-bench-") as folder:
        os.chdir(folder)
        limits = limits_of(program)
        tables = [
            ("a message sent and received", "messages before it", "an empty queue", pair_rows(limits.places)),
            ("a message drained", "messages of the queue", "a small queue", drain_rows(limits.places)),
            ("a message through a POSIX queue", "messages of the queue", "one priority", posix_rows(limits)),
        ]
        rows = [row for *_, them in tables for row in them]
        for _ in range(groups):
            for row in rows:
                row.measure.take(program)
        os.chdir("/")
    print(
        f"Microseconds of processor time on the standard device: of {groups} groups of runs the middle half, its mean"
        f" and its range. The machine's load after them is {os.getloadavg()[0]:.1f}.\n"
    )
    for table in tables:
        print_rows(*table)
    missed = [row for row in rows if not row.is_met()]
    print(f"{len(missed)} of {sum(row.bar is not None for row in rows)} bars are missed.")
    return 1 if missed else 0


if __name__ == "__main__":
    sys.exit(main())
