"""What a call through the library costs beside the same frames sent by hand, and beside the kernel's queues.

    python3 clients/c/bench.py PROGRAM

Each number is the processor time of the client for a msgsnd and a msgrcv, the median of some turns that take one after
another by turns. It is an error if the library takes more than 1.15 times what frames by hand take. The server's device
is in memory, if there is a place: a disk that is slow takes no time of the client.
"""

from __future__ import annotations

import os
import statistics
import subprocess
import sys
import tempfile
from pathlib import Path

HERE = Path(__file__).resolve().parent
sys.path.insert(0, str(HERE.parents[1] / "tests/lib"))

from server import check, in_a_folder, printed, serving  # noqa: E402

PAIRS = str(HERE / "out/tests/pairs")
RUN = str(HERE / "out/ipcd-run")
TURNS, BAR = 21, 1.15
COUNTS = {16: 2000, 1024: 2000, 8192: 2000}


def cost(words: list[str], size: int, pairs: int) -> float:
    here = {**os.environ, "IPCD_SOCKET": os.path.abspath("socket")}
    ended = subprocess.run([*words, str(size), str(pairs)], env=here, capture_output=True, text=True, timeout=120)
    check((ended.returncode, ended.stderr) == (0, ""), f"{words}: {ended}")
    return float(ended.stdout)


def main() -> None:
    printed("format", "device")
    over = []
    print("bytes  by the library  by hand  ratio  the kernel's queue (microseconds of the client for a pair)")
    with serving():
        for size, pairs in COUNTS.items():
            library, hand = [], []
            for _ in range(TURNS):
                library.append(cost([RUN, PAIRS, "calls"], size, pairs))
                hand.append(cost([PAIRS, "frames"], size, pairs))
            kernel = statistics.median(cost([PAIRS, "calls"], size, 50 * pairs) for _ in range(3))
            ours, frames = statistics.median(library), statistics.median(hand)
            print(f"{size:5}  {ours:14.2f}  {frames:7.2f}  {ours / frames:5.2f}  {kernel:.2f}", flush=True)
            if ours > BAR * frames:
                over.append(size)
    check(not over, f"more than {BAR} times what frames by hand take, at {over} bytes")


if __name__ == "__main__":
    if os.access("/dev/shm", os.W_OK):
        tempfile.tempdir = "/dev/shm"
    with in_a_folder(580):
        main()
