"""Replies a second of a program and of one before it, with 60 clients of 16 requests in flight each.

    python3 bench/rates.py PROGRAM BEFORE [TURNS]

In each turn a load (bench/serve_load.c) runs for half a second on a new server of each of the two, which
take turns in being the first. What is printed are medians over the turns, and a ratio is always of
numbers of one turn: of the rates, and of the processor's time that the server takes for a reply, which
a disk that others use changes less. The status is 1 if a bar is missed.
"""

from __future__ import annotations

import os
import sys
from collections.abc import Sequence
from statistics import median
from typing import NamedTuple

sys.dont_write_bytecode = True

from served import AHEAD, CLIENTS, LOADS, build, in_a_folder, load, processor_seconds, run, serving  # noqa: E402

SECONDS, TURNS = 0.5, 21
WANTED = {"messages": 1.4}


class Sample(NamedTuple):
    """Replies a second, and microseconds of the server's processor for each."""

    rate: float
    microseconds: float


def sample(program: str, what: str) -> Sample:
    run(program, "format", "device")
    with serving(program) as pid:
        spent = processor_seconds(pid)
        replies, seconds = load(CLIENTS, AHEAD, what, SECONDS)
        spent = processor_seconds(pid) - spent
    return Sample(replies / seconds, 1e6 * spent / replies)


def medians(after: Sequence[float], before: Sequence[float], digits: int) -> str:
    """Of both and of their ratios, and the range of these."""
    both = f"{median(after):.{digits}f}, and {median(before):.{digits}f} before"
    ratios = sorted(one / other for one, other in zip(after, before))
    return f"{both}; ratio {median(ratios):.2f}, {ratios[0]:.2f} to {ratios[-1]:.2f}"


def measure(programs: Sequence[str], what: str, turns: int) -> bool:
    """Prints what both do, and answers whether the bar is met."""
    samples: list[list[Sample]] = [[], []]
    for turn in range(turns):
        for which in (0, 1) if turn % 2 else (1, 0):
            samples[which].append(sample(programs[which], what))
    (rates, spent), (rates_before, spent_before) = (list(zip(*them)) for them in samples)
    print(f"{what}, replies a second: {medians(rates, rates_before, 0)}")
    print(f"{what}, microseconds of a processor for each: {medians(spent, spent_before, 2)}", flush=True)
    if what not in WANTED:
        return True
    print(f"At least {WANTED[what]} times as many replies a second are wanted.")
    return median(more / less for more, less in zip(rates, rates_before)) >= WANTED[what]


def main() -> int:
    programs = [os.path.realpath(word) for word in sys.argv[1:3]]
    turns = int(sys.argv[3]) if len(sys.argv) > 3 else TURNS
    print(f"{CLIENTS} clients with {AHEAD} requests in flight each. The load before is {os.getloadavg()[0]:.1f}.")
    with in_a_folder():
        build("serve_load.c")
        are_met = [measure(programs, what, turns) for what in LOADS]
    return 0 if all(are_met) else 1


if __name__ == "__main__":
    sys.exit(main())
