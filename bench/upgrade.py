"""What an upgrade of a full standard device costs, in processor time: at most 3 seconds are wanted.

    python3 bench/upgrade.py PROGRAM [TIMES]

The device is of version 1, written by tests/lib/device_layout.py, with as much as its limits allow: queues
full of messages of one byte, sets, an adjustment of each process at each semaphore, POSIX queues, named
semaphores, segments, and a full journal. `upgrade` grows its file to what version 2 needs, so it writes
all sectors that are new. The status is 1 if the median misses the bar. The files are in a new folder in
the repository, which should be on a real disk.
"""

from __future__ import annotations

import os
import resource
import subprocess
import sys
import tempfile
from pathlib import Path
from statistics import median

REPOSITORY = Path(__file__).resolve().parent.parent
sys.path.insert(0, str(REPOSITORY / "tests/lib"))
sys.dont_write_bytecode = True

from device_layout import (  # noqa: E402
    BODY_COUNT,
    ONE,
    STANDARD,
    STANDARD_OF_ONE,
    Adjustment,
    Device,
    NamedSem,
    Posix,
    Queue,
    Segment,
    Set,
    adjustments,
    batch,
    clock,
    need_of,
    processes,
    put_into_file,
    state,
    tick,
)

# The bar, and how many upgrades there are.
SECONDS, TIMES = 3.0, 5


def full_device() -> Device:
    """A device of version 1 with as much as its standard limits allow."""
    most = STANDARD_OF_ONE
    pids = range(1, most.processes + 1)
    queues = range(1, most.msgmni + 1)
    sets = range(1, most.semmni + 1)
    each = most.semmns // most.semmni
    messages = tuple((1 + place, b"m") for place in range(most.msgmnb))
    posix = tuple((place, bytes(most.posix_bytes)) for place in range(most.posix_messages))
    objects = state(
        clock(1, most.processes + 1, most.msgmni + 1, most.semmni + 1, *(65, 65, 65), version=ONE),
        processes(*((pid, 1000, 100) for pid in pids)),
        {number: Queue(number, messages, qbytes=most.msgmnb) for number in queues},
        {number: Set(number, each * ((1, 0),)) for number in sets},
        undo=adjustments(*(Adjustment(pid, one, place, 1) for pid in pids for one in sets for place in range(each))),
        posix={
            number: Posix(b"/%d" % number, posix, maxmsg=most.posix_messages, msgsize=most.posix_bytes)
            for number in range(1, most.posix_queues + 1)
        },
        named={number: NamedSem(b"/%d" % number, 1) for number in range(1, most.named + 1)},
        segments={
            number: Segment(b"/%d" % number, bytes(most.segment_bytes // most.segments))
            for number in range(1, most.segments + 1)
        },
    )
    device = Device(STANDARD_OF_ONE, version=ONE)
    device.save(2, objects)
    return device.journal(2, *BODY_COUNT * [batch(tick(1))])


def upgrade(program: str, image: bytes) -> float:
    """The processor's seconds of one upgrade."""
    put_into_file("device", image)
    need = need_of(STANDARD)
    before = resource.getrusage(resource.RUSAGE_CHILDREN)
    words = [program, "upgrade", "device", "--sectors", str(need)]
    told = subprocess.run(words, check=True, stdout=subprocess.PIPE, text=True).stdout
    after = resource.getrusage(resource.RUSAGE_CHILDREN)
    if told != f"upgraded {need} sectors\n":
        raise RuntimeError(told)
    return after.ru_utime + after.ru_stime - before.ru_utime - before.ru_stime


def main() -> int:
    program = os.path.abspath(sys.argv[1])
    times = int(sys.argv[2]) if len(sys.argv) > 2 else TIMES
    image = bytes(full_device().image)
    with tempfile.TemporaryDirectory(prefix="bench-", dir=REPOSITORY) as folder:
        os.chdir(folder)
        taken = sorted(upgrade(program, image) for _ in range(times))
        os.chdir(REPOSITORY)
    told = f"{median(taken):.2f} seconds of a processor ({taken[0]:.2f} to {taken[-1]:.2f})"
    print(f"upgrade of a full standard device: {told}, {SECONDS:.2f} at most")
    return int(median(taken) > SECONDS)


if __name__ == "__main__":
    sys.exit(main())
