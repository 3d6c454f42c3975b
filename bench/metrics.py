"""What it costs a server to write its figures, with `serve --metrics FILE`: replies a second and processor time a reply
beside those of one that writes none, of the messages of bench/serve.py.

    python3 bench/metrics.py PROGRAM [TURNS]

In each turn both serve each load for two seconds, one right after the other and the first of them in turns, so that
both have the same minutes of the machine. They do so in a new folder in the repository, which should be on a real disk,
and in one in memory, where syncs and renames take no time: so there all that a server takes is told, and no disk comes
between. What is printed are medians over the turns, and of the ratios, each of numbers of one turn, also the middle half.

It needs a C compiler, and takes six minutes. The status is 1 if a server that writes figures is more than 2 % slower: in
memory by the median of the ratios; on the disk, whose own rate changes by more than that from turn to turn, by three
quarters of them.
"""

from __future__ import annotations

import os
import sys
from pathlib import Path
from statistics import median, quantiles
from typing import NamedTuple

sys.dont_write_bytecode = True

from served import BENCH, build, in_a_folder, load, processor_seconds, run, serving  # noqa: E402

DISK, MEMORY = BENCH.parent, Path("/dev/shm")
# How many clients, and how many requests each has in flight.
LOADS = [(1, 1), (60, 1), (60, 16)]
SECONDS = 2.0
TURNS = 11
LEAST = 0.98
FIGURES = ("--metrics", "figures.prom")


class Sample(NamedTuple):
    """Replies a second, and microseconds of a processor a reply."""

    replies: float
    microseconds: float


# Of a server that writes no figures, and of one that does.
Pair = tuple[Sample, Sample]


def sample(program: str, clients: int, ahead: int, words: tuple[str, ...]) -> Sample:
    run(program, "format", "device")
    with serving(program, words=words) as pid:
        before = processor_seconds(pid)
        replies, seconds = load(clients, ahead, "messages", SECONDS)
        spent = processor_seconds(pid) - before
    return Sample(replies / seconds, spent / replies * 1e6)


def measure(program: str, where: Path, turns: int) -> dict[tuple[int, int], list[Pair]]:
    """What each load had in each turn."""
    told: dict[tuple[int, int], list[Pair]] = {it: [] for it in LOADS}
    with in_a_folder(where):
        build("serve_load.c")
        for turn in range(turns):
            for clients, ahead in LOADS:
                ways = [(), FIGURES] if turn % 2 else [FIGURES, ()]
                found = {words: sample(program, clients, ahead, words) for words in ways}
                told[clients, ahead].append((found[()], found[FIGURES]))
    return told


def tell(clients: int, ahead: int, pairs: list[Pair]) -> tuple[float, float]:
    """Prints a load. The median of the ratios, and what a quarter of them is above."""
    rates = [median(pair[way].replies for pair in pairs) for way in (0, 1)]
    spent = [median(pair[way].microseconds for pair in pairs) for way in (0, 1)]
    low, middle, high = quantiles((after.replies / before.replies for before, after in pairs), method="inclusive")
    print(
        f"{clients:2} clients, {ahead:2} in flight: {rates[0]:7.0f} and {rates[1]:7.0f} replies a second,"
        f" {middle:.3f} ({low:.3f} to {high:.3f}); {spent[0]:.2f} and {spent[1]:.2f} microseconds of a processor a reply",
        flush=True,
    )
    return middle, high


def main(program: str, turns: int) -> int:
    print(f"medians of {turns} turns: without figures, with them, and the ratio")
    status = 0
    for name, where in (("in memory", MEMORY), ("on the disk", DISK)):
        print(f"{name}:")
        for (clients, ahead), pairs in measure(program, where, turns).items():
            middle, high = tell(clients, ahead, pairs)
            status |= (middle if where == MEMORY else high) < LEAST
    return status


if __name__ == "__main__":
    sys.exit(main(os.path.realpath(sys.argv[1]), int(sys.argv[2]) if len(sys.argv) > 2 else TURNS))
