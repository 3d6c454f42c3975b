"""A server that is measured: its start and its end, what it has spent, and the loads of bench/serve_load.c."""

from __future__ import annotations

import os
import subprocess
import tempfile
import time
from collections.abc import Iterator
from contextlib import contextmanager
from pathlib import Path

BENCH = Path(__file__).resolve().parent

# Full pipes: so many clients with so many requests in flight each, which do these.
CLIENTS, AHEAD = 60, 16
LOADS = ("messages", "locks")
# A load of so many requests that is not over then has failed.
PATIENCE = 600


def run(*words: str) -> str:
    return subprocess.run(words, check=True, stdout=subprocess.PIPE, text=True).stdout


@contextmanager
def in_a_folder(where: Path = BENCH.parent) -> Iterator[None]:
    """Works in a new folder: of the repository, which should be on a real disk, or of another place."""
    with tempfile.TemporaryDirectory(prefix="bench-", dir=where) as folder:
        os.chdir(folder)
        try:
            yield
        finally:
            os.chdir(BENCH)


def build(source: str, *flags: str) -> None:
    """Builds a program, or a library, of the name that its source has."""
    path = BENCH / source
    run("cc", "-O2", *flags, "-o", path.stem, str(path))


@contextmanager
def serving(program: str, *before: str, words: tuple[str, ...] = ()) -> Iterator[int]:
    """A server of the device that is there, which is ready: its pid. Words before its command line run it, and others
    end it."""
    line = [*before, program, "serve", "device", "socket", *words]
    with subprocess.Popen(line, stdout=subprocess.PIPE) as server:
        try:
            server.stdout.readline()
            yield server.pid
        finally:
            server.terminate()
    os.remove("socket")


def processor_seconds(pid: int) -> float:
    """By the clock that clock_getcpuclockid(3) names so."""
    return time.clock_gettime(~pid << 3 | 2)


def load(
    clients: int, ahead: int, what: str, seconds: float = PATIENCE, requests: int | None = None
) -> tuple[int, float]:
    """So many clients with so many requests in flight each do this for so many seconds, or until each has had so many
    replies: how many replies came to all, and in how many seconds."""
    words = [str(word) for word in (clients, ahead, seconds, what, requests) if word is not None]
    replies, taken = run("./serve_load", "socket", *words).split()
    return int(replies), float(taken)
