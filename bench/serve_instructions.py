"""How many instructions a reply of a server takes, with 60 clients of 16 requests in flight each. No load
of the machine changes that much.

    python3 bench/serve_instructions.py PROGRAM [REQUESTS]

On a new server each client makes a hundred requests (bench/serve_load.c), and on another so many more.
valgrind counts the instructions of each run from its start to its end, and a line tells the difference
for a reply: so no start counts. It tells the same of servers on which sixty other clients have come and
gone, so that processes do not stand at the places that their numbers say. To compare two programs, run
it on each.

It needs a C compiler, and valgrind, which can run no program that was built with the address
sanitizer, and may not be able to read one with debug information: `strip -g` takes that off.
"""

from __future__ import annotations

import os
import sys
from pathlib import Path

sys.dont_write_bytecode = True

from served import AHEAD, CLIENTS, LOADS, build, in_a_folder, load, run, serving  # noqa: E402

FEW, MORE = 100, 3000
# Requests of each client that has come and gone.
BEFORE = 20
CALLGRIND = ("valgrind", "-q", "--tool=callgrind", "--trace-children=yes", "--callgrind-out-file=counts.%p")


def instructions(program: str, what: str, requests: int, before: int) -> int:
    """Of a server from its start to its end, with a load of so many requests of each client, and before it, if that is
    not 0, one of clients that have left."""
    run(program, "format", "device")
    with serving(program, *CALLGRIND):
        if before:
            load(CLIENTS, AHEAD, what, requests=before)
        load(CLIENTS, AHEAD, what, requests=requests)
    counted = 0
    for counts in Path().glob("counts.*"):
        counted += sum(int(line.split()[1]) for line in counts.read_text().splitlines() if line.startswith("totals:"))
        counts.unlink()
    return counted


def main() -> None:
    program = os.path.realpath(sys.argv[1])
    more = int(sys.argv[2]) if len(sys.argv) > 2 else MORE
    with in_a_folder():
        build("serve_load.c")
        for what in LOADS:
            for before, when in ((0, "first clients"), (BEFORE, "others were there before")):
                few, many = (instructions(program, what, requests, before) for requests in (FEW, FEW + more))
                print(f"{what}, {when}: {(many - few) / (more * CLIENTS):.0f} instructions a reply", flush=True)


if __name__ == "__main__":
    main()
