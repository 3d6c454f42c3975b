"""ipcd beside what else one would take for messages that outlive a crash: redis, beanstalkd, PostgreSQL and SQLite, as
far as they are installed, each set so that an answer outlives a power failure.

    python3 bench/peers.py PROGRAM [TURNS [SECONDS [PLOT]]]

A client sends a message of 64 bytes and receives it again, in turns, under a name of its own, with one operation in
flight or with 16. A send or a receive is an operation; with beanstalkd a receive is a reserve and a delete. In each
turn every load runs on each of them, right after bare commits of two writes and two syncs, so that all have the same
minutes of one disk. Each has a new server with new files for each load, in a new folder in the repository, which should
be on a real disk. Rates and ratios are medians over the turns, and latencies are of all operations of all turns, from
when a request is written until its answer is read.

The clients are in Python (bench/peer_clients.py), in as many processes as half of the processors, and are the same but
for the words of the protocol. A column tells how busy these processes are: where that is nearly 100 the row is what the
clients can do, and the server could do more. SQLite is no server: each of its clients is a process that calls it, with
one operation in flight, and one that finds it in use waits as SQLite does by itself.

It installs nothing, and says what it leaves out and why. The table goes to standard output, and a plot of it to the
file PLOT, which is out/peers.svg in the repository if it is not given. With 5 turns of 2 seconds, which are used if no
others are given, it takes a quarter of an hour.
"""

from __future__ import annotations

import multiprocessing
import os
import select
import shutil
import sqlite3
import sys
import time
from collections import Counter
from collections.abc import Callable
from multiprocessing.connection import Connection as Pipe
from multiprocessing.synchronize import Barrier
from pathlib import Path
from statistics import median
from typing import NamedTuple

sys.dont_write_bytecode = True

import plot  # noqa: E402
from peer_clients import PATIENCE, Connection, text_of  # noqa: E402
from peer_servers import Peer, peers  # noqa: E402
from served import BENCH, in_a_folder  # noqa: E402

CLIENTS = (1, 8, 32, 60)
AHEAD = (1, 16)
TURNS, SECONDS = 5, 2.0
# Seconds of a load that come first and are not counted.
WARM = 0.3
BARE_SECONDS = 0.5
BARE = "two writes and two syncs, done bare"
BARE_MEANING = "both writes are on the disk"
# Processes of clients. They are forked, so they begin at once.
PROCESSES = max(1, (os.cpu_count() or 2) // 2)
FORK = multiprocessing.get_context("fork")

SECTOR, SECTORS = 512, 260

# Microseconds, and how many operations have taken them.
Latencies = Counter[int]


class Taken(NamedTuple):
    """What a load took: operations a second, how long each took, and what its clients took of a processor."""

    rate: float
    latencies: Latencies
    # Of the time of the processes of clients, that in which they ran.
    busy: float

    def at(self, share: float) -> int:
        """Of the operations this share took no longer, in microseconds."""
        left = share * sum(self.latencies.values())
        for microseconds in sorted(self.latencies):
            left -= self.latencies[microseconds]
            if left <= 0:
                return microseconds
        return 0


class Span:
    """The time in which operations are counted."""

    def __init__(self, seconds: float) -> None:
        self.begin = time.monotonic() + WARM
        self.end = self.begin + seconds
        self.latencies: Latencies = Counter()

    def count(self, stamp: float, now: float, many: int = 1) -> None:
        if self.begin <= now <= self.end:
            self.latencies[round((now - stamp) * 1e6)] += many


# ---- clients


def drive(clients: list[Connection], ahead: int, span: Span) -> None:
    """Keeps so many operations in flight on each, until the time is over."""
    ready, by_file = select.poll(), {client.fileno(): client for client in clients}
    for client in clients:
        ready.register(client, select.POLLIN)
        client.ask(ahead, time.monotonic())
    now = time.monotonic()
    while now < span.end:
        answered = ready.poll(PATIENCE * 1000)
        if not answered:
            raise TimeoutError(f"no answer in {PATIENCE} seconds")
        for file, _ in answered:
            done, now = by_file[file].take(), time.monotonic()
            for stamp, many in done:
                span.count(stamp, now, many)
            if done:
                by_file[file].ask(sum(many for _, many in done), now)


def call(address: str, number: int, span: Span) -> None:
    """Sends and receives by calls of SQLite, until the time is over."""
    database = sqlite3.connect(address, timeout=PATIENCE, isolation_level=None)
    database.execute("PRAGMA synchronous = FULL")
    text = text_of(number).decode()
    send = "INSERT INTO messages (kind, text) VALUES (?, ?)", (number, text)
    first = "SELECT id FROM messages WHERE kind = ? ORDER BY id LIMIT 1"
    receive = f"DELETE FROM messages WHERE id = ({first}) RETURNING text", (number,)
    now = time.monotonic()
    while now < span.end:
        for statement, wanted in ((send, []), (receive, [(text,)])):
            stamp = time.monotonic()
            if database.execute(*statement).fetchall() != wanted:
                raise ValueError("another message is received")
            now = time.monotonic()
            span.count(stamp, now)


def work(peer: Peer, address: str, numbers: range, ahead: int, seconds: float, begin: Barrier, out: Pipe) -> None:
    """A process of clients with these numbers, which begins when all others do. It hands out what operations took, and
    what share of its time it ran."""
    clients = [peer.client(address, number) for number in numbers] if peer.client else []
    begin.wait(PATIENCE)
    span, ran = Span(seconds), time.process_time()
    if peer.client:
        drive(clients, ahead, span)
    else:
        call(address, numbers.start, span)
    out.send((span.latencies, (time.process_time() - ran) / (WARM + seconds)))
    for client in clients:
        client.close()


def loaded(peer: Peer, address: str, clients: int, ahead: int, seconds: float) -> Taken:
    """Runs a load on what is there."""
    processes = min(clients, PROCESSES) if peer.client else clients
    shares = [range(it * clients // processes, (it + 1) * clients // processes) for it in range(processes)]
    begin, workers = FORK.Barrier(processes), []
    for numbers in shares:
        mine, others = FORK.Pipe(duplex=False)
        words = (peer, address, numbers, ahead, seconds, begin, others)
        workers.append((mine, FORK.Process(target=work, args=words, daemon=True)))
        workers[-1][1].start()
        others.close()
    taken, busy = Counter(), 0.0
    for pipe, process in workers:
        try:
            latencies, share = pipe.recv()
        except EOFError:
            sys.exit(f"peers: clients of {peer.name} have failed")
        process.join()
        taken, busy = taken + latencies, busy + share
    return Taken(sum(taken.values()) / seconds, taken, busy / processes)


# ---- loads


class Load(NamedTuple):
    clients: int
    ahead: int


LOADS = [Load(clients, ahead) for ahead in AHEAD for clients in CLIENTS]


class Sample(NamedTuple):
    """What a load took, and what bare commits took right before."""

    taken: Taken
    bare: float


Samples = dict[tuple[str, Load], list[Sample]]
# What is drawn of a load, and whether its line is dashed.
Value = tuple[Callable[[Taken], float], bool]


def bare() -> Taken:
    """Commits of two writes and two syncs, of a sector each, done bare."""
    latencies: Latencies = Counter()
    file = os.open("bare", os.O_RDWR | os.O_CREAT, 0o600)
    if os.fstat(file).st_size == 0:
        os.write(file, bytes(SECTOR * SECTORS))
        os.fsync(file)
    sector, begin, commits = b"\7" * SECTOR, time.monotonic(), 0
    now = begin
    while now - begin < BARE_SECONDS:
        for place in (4 + commits % (SECTORS - 4), 3):
            os.pwrite(file, sector, place * SECTOR)
            os.fdatasync(file)
        commits, stamp, now = commits + 1, now, time.monotonic()
        latencies[round((now - stamp) * 1e6)] += 1
    os.close(file)
    return Taken(commits / (now - begin), latencies, 0.0)


def measure(them: list[Peer], turns: int, seconds: float) -> tuple[Samples, list[Taken]]:
    """What each load took on each, and what bare commits did."""
    samples: Samples = {}
    alone = []
    for turn in range(turns):
        print(f"turn {turn + 1} of {turns}", file=sys.stderr, flush=True)
        for load in LOADS:
            for peer in them:
                if load.ahead > 1 and not peer.client:
                    continue
                alone.append(bare())
                os.mkdir("files")
                with peer.serving("files") as address:
                    taken = loaded(peer, address, *load, seconds)
                shutil.rmtree("files")
                samples.setdefault((peer.name, load), []).append(Sample(taken, alone[-1].rate))
    return samples, alone


# ---- what is told


def merged(all_taken: list[Taken]) -> Taken:
    """The medians of the rates and of how busy clients were, and all latencies."""
    latencies = sum((taken.latencies for taken in all_taken), Counter())
    rate, busy = (median(values) for values in zip(*((taken.rate, taken.busy) for taken in all_taken)))
    return Taken(rate, latencies, busy)


def row(*words: object) -> str:
    return f"| {' | '.join(map(str, words))} |"


def print_table(them: list[Peer], samples: Samples, alone: list[Taken]) -> None:
    heads = ["", "clients", "in flight each", "operations a second", "of the bare rate", "median, µs"]
    heads += ["99th of 100, µs", "clients busy, %", "what an answer means"]
    print(row(*heads))
    print(row(*["---"] * len(heads)))
    taken = merged(alone)
    print(row(BARE, 1, 1, round(taken.rate), "1.00", taken.at(0.5), taken.at(0.99), "", BARE_MEANING))
    for load in LOADS:
        for peer in them:
            mine = samples.get((peer.name, load), [])
            if mine:
                taken = merged([sample.taken for sample in mine])
                ratio = f"{median(sample.taken.rate / sample.bare for sample in mine):.2f}"
                figures = (round(taken.rate), ratio, taken.at(0.5), taken.at(0.99), round(100 * taken.busy))
                print(row(peer.name, *load, *figures, peer.meaning))


def panel(title: str, them: list[Peer], samples: Samples, ahead: int, values: list[Value]) -> plot.Panel:
    """The lines of a panel: for each peer one of each value."""
    lines = []
    for peer in them:
        for value, dashed in values:
            points = []
            for number, clients in enumerate(CLIENTS):
                mine = samples.get((peer.name, Load(clients, ahead)), [])
                if mine:
                    points.append((number, value(merged([sample.taken for sample in mine]))))
            lines.append(plot.Line(peer.name, dashed, points))
    return plot.Panel(f"{title}, {ahead} in flight each", [str(it) for it in CLIENTS], lines)


def panels(them: list[Peer], samples: Samples, alone: list[Taken]) -> list[list[plot.Panel]]:
    """Rates above and latencies below, for each count of operations in flight. A line is that of bare commits."""
    rates = [(lambda taken: taken.rate, False)]
    latencies = [(lambda taken: taken.at(0.5), False), (lambda taken: taken.at(0.99), True)]
    taken = merged(alone)
    above = [panel("operations a second", them, samples, ahead, rates) for ahead in AHEAD]
    below = [panel("microseconds of an operation", them, samples, ahead, latencies) for ahead in AHEAD]
    for panels, value in ((above, taken.rate), (below, taken.at(0.5))):
        for it in panels:
            it.lines.append(plot.Line(BARE, False, [(number, value) for number in range(len(CLIENTS))]))
    return [above, below]


def machine() -> list[str]:
    """Where it is measured: the processor, the kernel, and the file system of the working folder."""
    lines = Path("/proc/cpuinfo").read_text().splitlines()
    model = next((line.partition(": ")[2] for line in lines if line.startswith("model name")), "unknown")
    here, mounts = Path.cwd(), []
    for line in Path("/proc/self/mounts").read_text().splitlines():
        device, place, kind, options = line.split()[:4]
        if here.is_relative_to(place):
            mounts.append((len(place), f"{kind} on {device}, {options}"))
    kernel = os.uname()
    return [
        f"processor: {model}, {os.cpu_count()} of them, load before {os.getloadavg()[0]:.1f}",
        f"kernel: {kernel.sysname} {kernel.release}",
        f"file system: {max(mounts)[1]}",
    ]


def print_head(all_peers: list[Peer], turns: int, seconds: float) -> list[Peer]:
    """Says where it is measured and what is left out, and answers what is not."""
    print(f"Medians of {turns} turns of {seconds:g} seconds, clients in {PROCESSES} processes of Python.\n")
    for line in machine():
        print(f"- {line}")
    them = []
    for peer in all_peers:
        reason = peer.missing()
        print(f"- left out: {peer.name}: {reason}" if reason else f"- {peer.name}: {peer.version()}")
        them += [] if reason else [peer]
    print(flush=True)
    return them


def main() -> None:
    program = os.path.realpath(sys.argv[1])
    turns = int(sys.argv[2]) if len(sys.argv) > 2 else TURNS
    seconds = float(sys.argv[3]) if len(sys.argv) > 3 else SECONDS
    to = Path(sys.argv[4]).absolute() if len(sys.argv) > 4 else BENCH.parent / "out" / "peers.svg"
    with in_a_folder():
        # A server of another user passes through.
        os.chmod(".", 0o755)
        where = machine()
        them = print_head(peers(program), turns, seconds)
        samples, alone = measure(them, turns, seconds)
    print_table(them, samples, alone)
    to.parent.mkdir(parents=True, exist_ok=True)
    notes = ["solid: medians; dashed: 99 of 100 operations take less", *where]
    legend = {**{peer.name: peer.meaning.replace("`", "") for peer in them}, BARE: BARE_MEANING}
    to.write_text(plot.svg(panels(them, samples, alone), legend, notes))
    print(f"\nThe plot is in {to}.")


if __name__ == "__main__":
    main()
