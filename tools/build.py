"""Proves and builds the program and the crates that it stands on, and no other.

    python3 tools/build.py [PROGRAM]

One crate after the other, lowest first, each with as many jobs as there are processors and memory for: the crates
stand in a chain for most of the time, and rt works in one at a time if they stand on the same crate. tools/shares.txt
has about how long each takes, by which it is told how much is left. A crate that is proved, and of which nothing has
changed, takes a moment. What rt says of a crate is shown if it fails.
"""

from __future__ import annotations

import hashlib
import os
import shutil
import signal
import subprocess
import sys
import time
from pathlib import Path

ROOT = Path(__file__).resolve().parent.parent
# Bytes of memory that one job of a proof may need, and the most jobs that are of use.
JOB = 2 << 30
MOST_JOBS = 4
# How many times as long as with four jobs a proof takes with fewer.
SLOWER = {1: 2.3, 2: 1.4, 3: 1.15, 4: 1.0}
# What rt says in a proof that takes a while. Where it is not said the crate was there already.
PROVING = "so far: "


def rows(name: str) -> dict[str, list[str]]:
    """The words of each line of a file, by the word before its colon."""
    lines = (line.partition("#")[0].partition(":") for line in (ROOT / name).read_text().splitlines())
    return {first.strip(): rest.split() for first, colon, rest in lines if colon}


def closure(below: dict[str, list[str]], crate: str) -> set[str]:
    return {crate}.union(*(closure(below, other) for other in below[crate]))


def jobs_at_once() -> int:
    memory = Path("/proc/meminfo").read_text().partition("MemAvailable:")[2].split()[0]
    return max(1, min(len(os.sched_getaffinity(0)), int(memory) * 1024 // JOB, MOST_JOBS))


def minutes(seconds: float) -> str:
    whole = round(seconds / 60)
    return "less than a minute" if whole < 1 else "a minute" if whole == 1 else f"about {whole} minutes"


class Build:
    """What is done, and about how much is left."""

    def __init__(self, program: str) -> None:
        crates = rows("crates.txt")
        below = {name: [it for it in uses if it in crates] for name, uses in crates.items()}
        self.program = program
        # Lowest first.
        self.order = sorted(closure(below, program), key=lambda name: (len(closure(below, name)), name))
        shares = {name: int(share) for name, (share,) in rows("tools/shares.txt").items()}
        self.share = {name: shares.get(name, 60) for name in self.order}
        self.jobs = jobs_at_once()
        # Seconds that proofs took, and what their shares said.
        self.took = self.told = 0.0
        self.run: subprocess.Popen[bytes] | None = None

    def left(self, names: list[str]) -> str:
        """About how long these take still, by what the crates so far took."""
        pace = self.took / self.told if self.told else SLOWER[self.jobs]
        return minutes(pace * sum(self.share[name] for name in names))

    def rt(self, crate: str, *words: str) -> tuple[int, str]:
        """Runs rt on a crate, in a session of its own: it is stopped with all that it began."""
        self.run = subprocess.Popen(
            ["rt", *words],
            cwd=ROOT / "crates" / crate,
            stdin=subprocess.DEVNULL,
            stdout=subprocess.PIPE,
            stderr=subprocess.STDOUT,
            start_new_session=True,
        )
        said, _ = self.run.communicate()
        return self.run.returncode, said.decode(errors="replace")

    def stop(self) -> None:
        if self.run is not None and self.run.poll() is None:
            os.killpg(self.run.pid, signal.SIGTERM)
            self.run.wait()

    def prove(self) -> None:
        """Proves all crates, the program's too, and says how far it is."""
        print(
            f"proving and building {self.program} and the crates below it, with {self.jobs} jobs each:\n"
            f"{self.left(self.order)} if nothing is proved yet and nothing else runs. It may be stopped: crates\n"
            "that are proved stay proved, and the next run goes on after them.",
            flush=True,
        )
        for number, name in enumerate(self.order, 1):
            began = time.monotonic()
            status, said = self.rt(name, "check" if name == self.program else "lib", "--jobs", str(self.jobs))
            if status:
                sys.exit(f"{name}\n{said}")
            if PROVING in said:
                self.took += time.monotonic() - began
                self.told += self.share[name]
            rest = self.order[number:]
            line = f"{name}: {number} of {len(self.order)} crates"
            print(line + (f", {self.left(rest)} left" if rest else ""), flush=True)

    def make(self) -> None:
        """Builds the program, by a run of it that ends at once."""
        _, said = self.rt(self.program, "run", "--", *(["replay", "--small"] if self.program == "ipcd" else ["help"]))
        if not self.built().is_file():
            sys.exit(said)

    def built(self) -> Path:
        return ROOT / "crates" / self.program / "out" / self.program


def sources(crates: list[str]) -> str:
    """A checksum of all that the crates are made of, and of the toolchain's name."""
    whole = hashlib.sha256(subprocess.run(["rt", "version"], check=True, capture_output=True).stdout)
    parts = [ROOT / "crates" / name / part for name in crates for part in ("src", "specs", "proofs")]
    files = [file for part in parts for file in part.rglob("*") if file.is_file()]
    for file in [ROOT / "crates.txt", *sorted(files)]:
        whole.update(f"{file.relative_to(ROOT)} {file.stat().st_size} ".encode() + file.read_bytes())
    return whole.hexdigest()


def main() -> None:
    if shutil.which("rt") is None:
        sys.exit("there is no rt on the path: README.md says of which toolchain it is")
    build = Build(sys.argv[1] if len(sys.argv) > 1 else "ipcd")
    # What the program was made of last. To look at each crate takes rt half a minute.
    made = build.built().with_name("sources.sum")
    checksum = sources(build.order)
    try:
        if not build.built().is_file() or not made.is_file() or made.read_text() != checksum:
            build.prove()
            build.make()
            made.write_text(checksum)
    except KeyboardInterrupt:
        sys.exit("stopped")
    finally:
        build.stop()


if __name__ == "__main__":
    for number in (signal.SIGTERM, signal.SIGHUP):
        signal.signal(number, signal.default_int_handler)
    main()
