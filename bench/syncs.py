"""How many requests a sync puts on the disk, with 60 clients of 16 in flight each.

    python3 bench/syncs.py PROGRAM [REQUESTS]

Two loads follow each other (bench/serve_load.c), in which each client makes a hundred requests, and so
many more. What is told is the difference, so no client's start counts. The server's syncs are counted
by tests/lib/watch_calls.c. The status is 1 if a bar is missed.
"""

from __future__ import annotations

import os
import sys
from pathlib import Path

sys.dont_write_bytecode = True

from served import AHEAD, CLIENTS, LOADS, build, in_a_folder, load, run, serving  # noqa: E402

FEW, MORE = 100, 5000
WANTED = 100


def syncs() -> int:
    """So many were made since the server's start."""
    return sum(line.startswith(("fdatasync ", "fsync ")) for line in Path("log").read_text().splitlines())


def measure(program: str, what: str, more: int) -> float:
    """Prints replies and syncs, and answers their ratio."""
    run(program, "format", "device")
    counts = []
    with serving(program, "env", "WATCH_LOG=log", "LD_PRELOAD=./watch_calls"):
        for requests in (FEW, FEW + more):
            before = syncs()
            replies, _ = load(CLIENTS, AHEAD, what, requests=requests)
            counts.append((replies, syncs() - before))
    os.remove("log")
    replies, made = (long - short for short, long in zip(*counts))
    print(f"{what}: {replies} replies, {made} syncs, {replies / made:.1f} a sync, and at least {WANTED} is wanted")
    return replies / made


def main() -> int:
    program = os.path.realpath(sys.argv[1])
    more = int(sys.argv[2]) if len(sys.argv) > 2 else MORE
    print(f"{CLIENTS} clients with {AHEAD} requests in flight each:")
    with in_a_folder():
        build("serve_load.c")
        build("../tests/lib/watch_calls.c", "-shared", "-fPIC")
        ratios = [measure(program, what, more) for what in LOADS]
    return 0 if min(ratios) >= WANTED else 1


if __name__ == "__main__":
    sys.exit(main())
