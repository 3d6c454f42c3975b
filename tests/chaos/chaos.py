"""Random clients over all calls, while servers are killed, power fails, disks fail, memory is refused and clocks are
stepped; and a judge of what the clients saw, which knows nothing of the program.

    python3 tests/chaos/chaos.py PROGRAM [SEED|random [SECONDS [RUNS]]]

First the judge has to find each fault of histories that were made by hand (tests/chaos/known.py), and of three wrong
programs: one that replies before its commit, one whose syncs do nothing, and one that leaves out each third. Then it
judges so many runs of so many seconds, 1 of 20 if none are given, on a device of each kind. docs/CHAOS.md has what it
can see and what it cannot. The seed, which is printed, makes the calls and the faults; how they fall together is the
system's. Without a C compiler it says so, and tests nothing but the judge. It takes three minutes.
"""

from __future__ import annotations

import os
import random
import shutil
import subprocess
import sys
import tempfile
import time
from collections.abc import Iterator
from contextlib import contextmanager
from pathlib import Path
from typing import NamedTuple

sys.dont_write_bytecode = True
HERE = Path(__file__).resolve().parent
sys.path[:0] = [str(HERE), str(HERE.parents[1] / "examples")]

from checker import TooLarge, Wrong, judge  # noqa: E402
from client import Connection  # noqa: E402
from history import History  # noqa: E402
from known import find_known_faults  # noqa: E402
from lives import Auditor, Host, Plan, Refused, plan  # noqa: E402
from load import LEDGERS, THINGS  # noqa: E402

PROGRAM = os.path.realpath(sys.argv[1])
SEED = sys.argv[2] if sys.argv[2:3] not in ([], ["random"]) else str(random.randrange(2**32))
SECONDS = float(sys.argv[3]) if len(sys.argv) > 3 else 20
RUNS = int(sys.argv[4]) if len(sys.argv) > 4 else 1
# How devices are made: of version 2, of version 3, and of version 3 with a journal so short that it saves all the time.
DEVICES = {"2": [], "3": ["--journal", "257"], "3 of 24": ["--journal", "24"]}
SOURCES = {
    "power": HERE / "power.c",
    "step_clock": HERE.parent / "sockets" / "step_clock.c",
    "refuse_malloc": HERE.parent / "scripts" / "refuse_malloc.c",
}
# How lives end, how often power fails then, and at which calls they are stopped.
RIGHT = (["kill", "kill", "stop", "stop", "fail", "memory", "term"], 0.6, ["s", "s", "s", "w", "w", "r", "e", "wsre"])
WRONG = {"early": (["stop"], 0.0, ["e"]), "nosync": (["kill"], 1.0, ["s"]), "third": (["stop", "kill"], 1.0, ["s"])}
# How often a wrong program is tried before it counts as missed.
TRIES = 5


class Run(NamedTuple):
    """What a run was, and how it was judged."""

    seed: str
    device: str
    seconds: float
    host: Host
    replies: int
    unanswered: int
    states: int
    verdict: str


@contextmanager
def in_a_folder() -> Iterator[Path]:
    memory = "/dev/shm"
    with tempfile.TemporaryDirectory(dir=memory if os.access(memory, os.W_OK) else None) as folder:
        before = os.getcwd()
        os.chdir(folder)
        try:
            yield Path(folder)
        finally:
            os.chdir(before)


def build(folder: Path) -> dict[str, str]:
    """The libraries, by their names."""
    made = {name: str(folder / f"{name}.so") for name in SOURCES}
    for name, source in SOURCES.items():
        subprocess.run(["cc", "-shared", "-fPIC", "-o", made[name], str(source)], check=True)
    return made


def audit(host: Host, folder: Path) -> None:
    """A last server, without a fault, of which one client reads all."""
    host.kill_clients()
    quiet = Plan("kill", 0, 0, "", 0, False)
    if not host.begin(quiet):
        raise Refused("the last server does not serve")
    history = os.open(folder / "history.0", os.O_WRONLY | os.O_CREAT | os.O_APPEND, 0o600)
    auditor = Auditor(0, 0, host.seed, host.shared, history)
    with Connection(f"socket.{host.counts.lives}", 20) as connection:
        auditor.begin(connection, host.counts.lives)
        for thing in THINGS + LEDGERS:
            auditor.audit(connection, thing)
    os.close(history)
    host.end(quiet)
    host.is_fit()


def lives(host: Host, seconds: float, ends: tuple[list[str], float, list[str]]) -> None:
    """Lives, one after the other, for so many seconds."""
    end = time.monotonic() + seconds
    host.more_clients()
    while time.monotonic() < end:
        host.live(plan(host.rng, *ends))
        host.more_clients()


def run(libraries: dict[str, str], seed: str, device: str, seconds: float, wrong: str = "") -> Run:
    """One run, from a new device to the last read, and its judgement."""
    with in_a_folder() as folder:
        subprocess.run([PROGRAM, "format", "device", *DEVICES[device]], check=True, stdout=subprocess.DEVNULL)
        host = Host(PROGRAM, f"{seed} {device} {wrong}", libraries, wrong)
        states = 0
        try:
            try:
                lives(host, seconds, WRONG.get(wrong, RIGHT))
                audit(host, folder)
            finally:
                host.close()
            verdict = "as promised"
        except Refused as refusal:
            verdict = f"refused: {refusal}"
        history = History(folder, host.counts.killed)
        if verdict == "as promised":
            try:
                them = history.lives(host.counts.lives)
                states = judge(them, history.hellos, device[0] == "3", set(LEDGERS), host.counts.memory > 0)
            except Wrong as fault:
                verdict = f"wrong: {fault}"
            except TooLarge as fault:
                verdict = f"not judged: {fault}"
        return Run(seed, device, seconds, host, history.replies, history.unanswered, states, verdict)


def reached(it: Run) -> None:
    """A run in which little happened shows nothing."""
    counts = it.host.counts
    low = it.seconds / 20
    wanted = {"replies": (it.replies, 1000), "lives": (counts.lives, 8), "failures of power": (counts.powers, 3)}
    wanted |= {"clients killed": (counts.clients, 2), "sectors taken back": (counts.back, 1)}
    for name, (found, least) in wanted.items():
        if found < least * low:
            sys.exit(f"chaos: {name} are {found}, too few for {it.seconds:g} seconds")


def told(it: Run) -> str:
    counts = it.host.counts
    ends = f"{counts.lives} lives, {counts.stops} ended at a call, {counts.failures} by a failing call"
    power = f"power failed {counts.powers} times with {counts.unsynced} sectors unsynced, {counts.back} taken back"
    rest = f"{counts.clients} clients killed, {counts.steps} steps of the clock, {counts.memory} refused allocations"
    calls = f"{it.replies} replies, {it.unanswered} calls without one"
    head = f"seed {it.seed}, device {it.device}, {it.seconds:g} s"
    return f"{head}: {calls}; {ends}; {power}; {rest}; {it.states} states; "


def catch(libraries: dict[str, str]) -> None:
    """Each wrong program is found out."""
    for wrong in WRONG:
        for device in DEVICES:
            for turn in range(TRIES):
                it = run(libraries, f"{SEED}.{turn}", device, 4, wrong)
                if it.verdict.startswith(("wrong", "refused")):
                    break
            else:
                sys.exit(f"chaos: {wrong} of device {device} is not found out in {TRIES} runs: {told(it)}{it.verdict}")
            print(f"chaos: {wrong}, device {device}, is found out in run {turn + 1}: {it.verdict[:110]}", flush=True)


def is_right(libraries: dict[str, str], seed: str, device: str) -> bool:
    """Whether a run is as promised. One that has too many orders to be judged is no answer: another takes its place."""
    for again in ("", ".again", ".once more"):
        it = run(libraries, seed + again, device, SECONDS)
        print(f"chaos: {told(it)}{it.verdict}", flush=True)
        if not it.verdict.startswith("not judged"):
            reached(it)
            break
    return it.verdict == "as promised"


def main() -> None:
    print(f"chaos: seed {SEED}", flush=True)
    print(f"chaos: {find_known_faults()} histories made by hand are judged as they should be", flush=True)
    if shutil.which("cc") is None:
        print("chaos: there is no cc here, so nothing can be made to fail: left out")
        return
    wrong = 0
    with tempfile.TemporaryDirectory() as folder:
        libraries = build(Path(folder))
        catch(libraries)
        for number in range(RUNS):
            for device in DEVICES:
                wrong += not is_right(libraries, f"{SEED}.{number}", device)
    if wrong:
        sys.exit(f"chaos: {wrong} runs are not as promised")


if __name__ == "__main__":
    main()
