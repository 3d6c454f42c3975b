"""Sends and receives of 64-byte messages over the socket, each on the disk before its reply, beside
as many commits done bare: 512 bytes and a sync, twice for each. And locks that outlive their holder:
each client takes a semaphore and gives it back, with SEM_UNDO. And shared memory, and named semaphores.

    python3 bench/serve.py PROGRAM [TURNS]

In each turn every load (bench/serve_load.c) runs for a second on a server of its own, after bare
commits (bench/bare.c) for half a second. The last three loads are of this file: a client writes 8192
bytes into a segment and reads them again, each time at another offset, in a segment of as many bytes
and in one of 1 MiB; and 30 pairs of clients hand over to each other, by sem_post and sem_wait. These
clients are in Python, and are no faster than that. What is printed are medians over the turns, and a ratio is
always of numbers of one turn. The files are in a new folder in the repository, which should be on a
real disk. Processor time is the server's. Syncs are reckoned from its writes to files, by
/proc/PID/io: a commit makes two, with a sync after each; so does a save of few objects.

It needs a C compiler, and takes three minutes. The status is 1 if a bar is missed.
"""

from __future__ import annotations

import os
import select
import sys
import time
from pathlib import Path
from statistics import median
from typing import NamedTuple

sys.path.insert(0, str(Path(__file__).resolve().parent.parent / "examples"))
sys.dont_write_bytecode = True

from client import O_CREAT, O_RDWR, Connection, sem_post_request, sem_wait_request  # noqa: E402
from served import build, in_a_folder, load, processor_seconds, run, serving  # noqa: E402

# How many clients, how many requests each has in flight, and what they do.
Load = tuple[int, int, str]
LOADS: list[Load] = [
    *((clients, ahead, "messages") for clients in (1, 8, 32, 60) for ahead in (1, 16)),
    (60, 1, "locks"),
    (60, 16, "locks"),
    (1, 1, "8 KiB segment"),
    (1, 1, "1 MiB segment"),
    (60, 2, "hand-overs"),
]

SECONDS = 1.0
BARE_SECONDS = 0.5
# Bytes that one call writes, and that a segment has.
PIECE, MOST = 8192, 1 << 20


class Sample(NamedTuple):
    """What is a load's: replies, bare commits and syncs a second, and microseconds a reply."""

    replies: float
    bare: float
    microseconds: float
    syncs: float

    @property
    def ratio(self) -> float:
        return self.replies / self.bare


# One of each load.
Turn = dict[Load, Sample]


def bare_rate(commits: int) -> float:
    """Commits a second, done bare."""
    begin = time.monotonic()
    run("./bare", "bare_device", str(commits))
    return commits / (time.monotonic() - begin)


def file_writes(pid: int) -> int:
    return int(Path(f"/proc/{pid}/io").read_text().partition("syscw:")[2].split()[0])


def connected() -> Connection:
    connection = Connection("socket", timeout=10)
    connection.hello(1000, 100)
    return connection


def segment_load(size: int) -> tuple[int, float]:
    """Replies to writes and reads of a segment of so many bytes, and in how many seconds they came."""
    with connected() as client:
        segment = client.shm_open("/segment", O_CREAT | O_RDWR, 0o600)
        client.ftruncate(segment, size)
        begin, turns = time.monotonic(), 0
        while time.monotonic() - begin < SECONDS:
            # 37 pieces on, so that every place has its turn.
            offset = turns * 37 * PIECE % size
            data = (turns % 256).to_bytes(1, "big") * PIECE
            client.shm_write(segment, offset, data)
            if client.shm_read(segment, offset, PIECE) != data:
                raise RuntimeError("other bytes are read than were written")
            turns += 1
        return 2 * turns, time.monotonic() - begin


def hand_over_load(clients: int) -> tuple[int, float]:
    """Replies to posts and waits of so many clients, in pairs, and in how many seconds they came. Who has its turn
    posts for the other and waits for its next, by two requests at once."""
    them = [connected() for _ in range(clients)]
    by_file = {client._socket.fileno(): client for client in them}
    ready = select.poll()
    own = {}
    for number, client in enumerate(them):
        sems = [client.sem_open(f"/{number // 2}-{one}", O_CREAT, 0o600, 0) for one in (0, 1)]
        own[client] = (sems[number % 2], sems[1 - number % 2])
        ready.register(client._socket, select.POLLIN)
    begin, replies = time.monotonic(), 0
    waits = {client: client.send(sem_wait_request(own[client][0])) for client in them[1::2]}
    waits |= {client: go_on(client, *own[client]) for client in them[::2]}
    while time.monotonic() - begin < SECONDS:
        for file, _ in ready.poll(10000):
            client = by_file[file]
            replies += answers(client, waits, own)
    seconds = time.monotonic() - begin
    for client in them:
        client.close()
    return replies, seconds


def go_on(client: Connection, mine: int, others: int) -> int:
    """Lets the other go on, and waits. The serial of the wait."""
    client.send(sem_post_request(others))
    return client.send(sem_wait_request(mine))


def answers(client: Connection, waits: dict[Connection, int], own: dict[Connection, tuple[int, int]]) -> int:
    """Receives what has come to a client, and goes on after the reply to its wait. How many replies came."""
    count = 0
    while count == 0 or client._read:
        serial, error, _ = client.receive()
        if error:
            raise OSError(error, os.strerror(error))
        count += 1
        if serial == waits[client]:
            waits[client] = go_on(client, *own[client])
    return count


def replies_of(clients: int, ahead: int, what: str) -> tuple[int, float]:
    """Runs a load on the server that is there: how many replies came, and in how many seconds."""
    if what == "8 KiB segment":
        return segment_load(PIECE)
    if what == "1 MiB segment":
        return segment_load(MOST)
    if what == "hand-overs":
        return hand_over_load(clients)
    return load(clients, ahead, what, SECONDS)


def sample(program: str, what: Load, bare: float) -> Sample:
    """Runs a load on a new server."""
    with serving(program) as pid:
        spent, writes = processor_seconds(pid), file_writes(pid)
        replies, seconds = replies_of(*what)
        spent, writes = processor_seconds(pid) - spent, file_writes(pid) - writes
    return Sample(replies / seconds, bare, spent / replies * 1e6, writes / seconds)


def measure(program: str, turns: int) -> list[Turn]:
    taken = []
    bare = bare_rate(100)
    for _ in range(turns):
        turn = {}
        for what in LOADS:
            bare = bare_rate(max(1, int(bare * BARE_SECONDS)))
            turn[what] = sample(program, what, bare)
        taken.append(turn)
    return taken


def print_rows(turns: list[Turn]) -> None:
    print(
        "| | clients | in flight each | replies a second | bare commits a second | ratio | its range "
        "| microseconds of processor a reply | syncs a second |"
    )
    print("|---|---|---|---|---|---|---|---|---|")
    for what in LOADS:
        samples = [turn[what] for turn in turns]
        replies, bare, microseconds, syncs = map(median, zip(*samples))
        ratios = sorted(sample.ratio for sample in samples)
        print(
            f"| {what[2]} | {what[0]} | {what[1]} | {replies:.0f} | {bare:.0f} | {median(ratios):.2f} "
            f"| {ratios[0]:.2f} to {ratios[-1]:.2f} | {microseconds:.1f} | {syncs:.0f} |"
        )


def bars_are_met(turns: list[Turn]) -> bool:
    """Prints what is wanted of the medians, and what they are."""
    one, ahead, sixty, all_ahead = (
        [turn[*flight, "messages"] for turn in turns] for flight in ((1, 1), (1, 16), (60, 1), (60, 16))
    )
    gain = [many.replies / single.replies for many, single in zip(ahead, one)]
    spent = median(sample.microseconds for sample in sixty)
    at_least = [
        ("1 client, of the bare rate", [sample.ratio for sample in one], 0.75),
        ("1 client with 16 in flight, of the same with 1", gain, 10),
        ("60 clients, of the bare rate", [sample.ratio for sample in sixty], 10),
        ("60 clients with 16 in flight, of the bare rate", [s.ratio for s in all_ahead], 60),
    ]
    for what, values, bar in at_least:
        print(f"{what}: {median(values):.2f}, and at least {bar} is wanted")
    print(f"60 clients, microseconds of processor a reply: {spent:.1f}, and at most 8 is wanted")
    return spent <= 8 and all(median(values) >= bar for _, values, bar in at_least)


def main() -> int:
    program = os.path.realpath(sys.argv[1])
    turns = int(sys.argv[2]) if len(sys.argv) > 2 else 9
    print(f"Medians of {turns} turns. The machine's load before is {os.getloadavg()[0]:.1f}.\n")
    with in_a_folder():
        for source in ("bare.c", "serve_load.c"):
            build(source)
        for device in ("device", "bare_device"):
            run(program, "format", device)
        taken = measure(program, turns)
    print_rows(taken)
    print()
    return 0 if bars_are_met(taken) else 1


if __name__ == "__main__":
    sys.exit(main())
