"""The programs with one of their allocations refused: the first, then the second, and so on, until a run meets none.

    python3 tests/scripts/refuse_each.py IPCD TRIALS REFUSALS

The script of tests/scripts/refused.txt in memory, by `TRIALS script`: a run says that there is no memory, with status
1, after the answers to some first lines; or one request is answered ENOMEM, and all else as in the script without that
request. Of that only the moment is left, as a tick. What a run is compared with is printed by another, of which nothing
is refused. `IPCD dump` and `list`, and `run` of no line, on the device that the script leaves: they do all, or say that
there is no memory, or that the device failed, where memory of the device itself was refused; and then it still opens.
`IPCD backup` of it is done, or refused, and then there is no copy, or one that is not formatted; `IPCD check` says how
it is, or that there is no memory, or that it cannot be read. `IPCD upgrade` of a device of version 1: it is done, or
refused, and then the file is as before. Each call of `REFUSALS`, `Store::upgrade` of that device among them: it is
refused, what it was made on is as before, and it is done when it is made again; those that take no memory are never
refused.

An exit, a tick, a reply, a commit or a save that met the refusal would end the script's run with another text than
`no memory`, or with EIO frames, or would leave out a frame. None may.

Without a C compiler it says so, and tests nothing. It takes less than a minute.
"""

from __future__ import annotations

import os
import re
import resource
import shutil
import subprocess
import sys
import tempfile
from collections.abc import Iterator
from functools import cache
from itertools import count
from pathlib import Path
from typing import NamedTuple

sys.dont_write_bytecode = True
sys.path.insert(0, str(Path(__file__).resolve().parents[1] / "lib"))

from device_layout import SMALL, Device, need_of, old_device  # noqa: E402

TESTS = Path(__file__).resolve().parent
IPCD, TRIALS, REFUSALS = (os.path.abspath(word) for word in sys.argv[1:4])

# A run takes milliseconds; one of so many seconds is a hang.
TIMEOUT = 20

# The limits of `TRIALS script`.
LIMITS = SMALL._replace(processes=16)

# The requests that may be answered ENOMEM: HELLO, msgget, msgsnd, semget, semop, mq_open, mq_send, sem_open, shm_open,
# ftruncate and shmget.
MAY_NEED = {0x01, 0x0A, 0x0B, 0x14, 0x15, 0x28, 0x2A, 0x32, 0x3C, 0x3E, 0x46}
ENOMEM = re.compile("([0-9]+) 00000006([0-9a-f]{8})000c")

# What the script leaves.
LISTED = """\
msg          1        1234 0600       1000        100          6          2
sem          1           7 0600       1000        100          2
sem          2           8 0600       1000        100          1
pmq 0600       1000        100          1          1         64 /q
psm 0600       1000        100 2147483647 /t
shm 0600       1000        100         10 /m
seg          2           6 0600       1000        100          3          0
"""

# Commands on that device, and what they print. Without a restart the process that has the segment attached is there.
DEVICE_COMMANDS = [("dump", LISTED), ("list", LISTED.removesuffix("0\n") + "1\n"), ("run", "")]

# What `check` says of it, with its status. Limits that are not the small ones are called standard.
CHECKED = {
    (0, f"fit to be served: version 2, {need_of(LIMITS)} sectors, standard limits, 7 objects\n"),
    (1, "no memory: there is too little for its objects\n"),
    (1, "device fault: it cannot be read, or is saved all the while\n"),
}


class Ran(NamedTuple):
    """A run: which allocation was to be refused, and whether it came to that."""

    call: int
    met: bool
    status: int
    printed: str
    said: str

    def check(self, holds: bool, text: str) -> None:
        if not holds:
            refused = f"allocation {self.call}" if self.call else "none"
            sys.exit(f"refuse_each: with {refused} refused: {text}\n{self.printed}{self.said}")

    def is_well(self) -> bool:
        return (self.status, self.said) == (0, "")

    def says(self, text: str) -> bool:
        return (self.status, self.said) == (1, f"{text}\n")


def run(call: int, script: str, *command: str) -> Ran:
    """Runs a command, of which one allocation is refused, or none if the number is 0."""
    mark = Path("mark")
    mark.unlink(missing_ok=True)
    wanted = {"LD_PRELOAD": "./refuse_malloc.so", "REFUSE_CALL": str(call), "REFUSE_MARK": str(mark)}
    ended = subprocess.run(
        command, input=script, env=os.environ | wanted, capture_output=True, encoding="latin-1", timeout=TIMEOUT
    )
    ran = Ran(call, mark.exists(), ended.returncode, ended.stdout, ended.stderr)
    ran.check(ran.status >= 0, f"{command} crashes, signal {-ran.status}")
    return ran


def refused(script: str, *command: str) -> Iterator[Ran]:
    """The runs of a command that meet a refusal. There is one, and after them a run that does all."""
    for call in count(1):
        ran = run(call, script, *command)
        if not ran.met:
            ran.check(ran.is_well(), f"{command} fails")
            ran.check(call > 1, f"{command} meets no refusal: is it linked dynamically?")
            return
        yield ran


@cache
def printed(*lines: str) -> list[str]:
    """What a script prints if nothing is refused."""
    ran = run(0, "".join(f"{line}\n" for line in lines), TRIALS, "script")
    ran.check(ran.is_well(), "a script fails")
    return ran.printed.splitlines()


# ---- the script


class Request(NamedTuple):
    """A request: the place of its line, its operation, the line without it, and the line up to it."""

    place: int
    operation: int
    without: str
    before: str


def frames(digits: str) -> list[str]:
    """The frames that these digits spell."""
    found = []
    while digits:
        end = 8 + 2 * int(digits[:8], 16)
        found.append(digits[:end])
        digits = digits[end:]
    return found


def line_of(moment: str, connection: str, them: list[str]) -> str:
    """The line of these frames. If there are none its moment comes all the same."""
    return f"{moment} data {connection} {''.join(them)}" if them else f"{moment} tick"


def requests(lines: list[str]) -> dict[tuple[str, str], Request]:
    """Each request of a script, by its connection and its serial."""
    found = {}
    for place, line in enumerate(lines):
        words = line.split()
        if "data" not in words:
            continue
        moment, _, connection, digits = words
        them = frames(digits)
        for at, frame in enumerate(them):
            without = line_of(moment, connection, them[:at] + them[at + 1 :])
            before = line_of(moment, connection, them[:at])
            found[connection, frame[8:16]] = Request(place, int(frame[16:18], 16), without, before)
    return found


def check_refused(ran: Ran, lines: list[str]) -> None:
    """One request of the script is answered ENOMEM, in its place, and all else is as without it."""
    answers = ran.printed.splitlines()
    places = [place for place, line in enumerate(answers) if ENOMEM.fullmatch(line)]
    ran.check(len(places) == 1, f"{len(places)} requests are answered ENOMEM")
    at = places[0]
    request = requests(lines).get(ENOMEM.fullmatch(answers[at]).groups())
    ran.check(request is not None, f"{answers[at]} answers no request")
    ran.check(request.operation in MAY_NEED, f"{answers[at]} answers a request that takes no memory")
    before, after = lines[: request.place], lines[request.place + 1 :]
    ran.check(at == len(printed(*before, request.before)), f"{answers[at]} comes in another place")
    wanted = printed(*before, request.without, *after)
    ran.check(answers[:at] + answers[at + 1 :] == wanted, f"not {answers[at]} alone is another answer")


def try_script(script: str, answers: str) -> str:
    """Each refusal of a run of the script."""
    ample = run(0, script, TRIALS, "script")
    ample.check(ample.is_well() and ample.printed == answers, "the script is answered otherwise")
    runs, one = 0, 0
    for ran in refused(script, TRIALS, "script"):
        runs += 1
        if ran.is_well():
            check_refused(ran, script.splitlines())
            one += 1
        else:
            ran.check(ran.says("trials: no memory"), "it ends otherwise")
            ran.check(answers.startswith(ran.printed), "the lines before are answered otherwise")
    return f"{runs} runs of the script, {one} of them with one request ENOMEM"


# ---- the device that it leaves


def left_by(script: str) -> bytes:
    """The device after the script."""
    device = Path("device")
    device.write_bytes(Device(LIMITS).image)
    ran = run(0, script, IPCD, "run", "device")
    ran.check(ran.is_well(), "the script fails on a device in a file")
    return device.read_bytes()


def try_device(image: bytes, command: str, wanted: str) -> str:
    """Each refusal of a command on a device. Afterwards the device opens as before."""
    device, runs = Path("device"), 0
    device.write_bytes(image)
    for ran in refused("", IPCD, command, "device"):
        runs += 1
        ran.check(
            ran.printed == wanted if ran.is_well() else ran.says("ipcd: no memory") or ran.says("ipcd: device fault"),
            f"`{command}` ends otherwise",
        )
        again = run(0, "", IPCD, "dump", "device")
        ran.check(again.is_well() and again.printed == LISTED, f"`{command}` leaves another device: {again}")
        device.write_bytes(image)
    return f"{runs} of `{command}`"


def try_backup(image: bytes) -> str:
    """Each refusal of a backup. It is done without that memory, or there is no copy that opens."""
    device, copy, runs = Path("device"), Path("copy"), 0
    device.write_bytes(image)
    for ran in refused("", IPCD, "backup", "device", "copy"):
        runs += 1
        again = run(0, "", IPCD, "list", "copy")
        if ran.is_well():
            ran.check(again.is_well() and again.printed == DEVICE_COMMANDS[1][1], f"another state is copied: {again}")
        else:
            ran.check(ran.says("ipcd: no memory") or ran.says("ipcd: device fault"), "a backup ends otherwise")
            wanted = "not formatted" if copy.exists() else "device fault"
            ran.check(again.says(f"ipcd: {wanted}"), f"a backup that is refused leaves a copy: {again}")
        copy.unlink(missing_ok=True)
        ran.check(device.read_bytes() == image, "a backup has changed the device")
    copy.unlink()
    return f"{runs} of `backup`"


def try_check(image: bytes) -> str:
    """Each refusal of a check."""
    Path("device").write_bytes(image)
    runs = 0
    for ran in refused("", IPCD, "check", "device"):
        runs += 1
        found = (ran.status, ran.printed) in CHECKED and ran.said == ""
        ran.check(found or ran.says("ipcd: no memory"), "a check ends otherwise")
    return f"{runs} of `check`"


def try_upgrade() -> str:
    """Each refusal of an upgrade. It comes before anything is written, or the upgrade is done without that memory."""
    device, image, runs = Path("device"), old_device(need_of(SMALL)), 0
    device.write_bytes(image)
    for ran in refused("", IPCD, "upgrade", "device", "--small"):
        runs += 1
        if ran.is_well():
            ran.check(run(0, "", IPCD, "dump", "device").is_well(), "a device that was upgraded does not open")
        else:
            ran.check(ran.says("ipcd: no memory") or ran.says("ipcd: device fault"), "an upgrade ends otherwise")
            ran.check(device.read_bytes() == image, "an upgrade that is refused has changed the device")
        device.write_bytes(image)
    return f"{runs} of `upgrade`"


# ---- each call by itself


def try_calls() -> str:
    """Each refusal of each call."""
    listing = run(0, "", REFUSALS)
    listing.check(listing.is_well(), "the calls are not listed")
    runs, lines = 0, listing.printed.splitlines()
    for line in lines:
        name, met = line.removesuffix(": takes no memory"), 0
        # A listing that is refused the room for all its rows at once takes it as they come.
        ends = {f"{name}: refused, then done\n"} | ({f"{name}: done\n"} if name == "Engine::list" else set())
        given = old_device().decode("latin-1") if name == "Store::upgrade" else ""
        for ran in refused(given, REFUSALS, name):
            runs += 1
            if ran.is_well():
                met += 1
                ran.check(ran.printed in ends, f"{name} ends otherwise")
            else:
                ran.check(ran.says("refusals: no memory") and not ran.printed, f"{name} ends otherwise")
        listing.check((met > 0) == (name == line), f"{name} meets {met} refusals")
    return f"{runs} of {len(lines)} calls"


def main() -> None:
    if shutil.which("cc") is None:
        print("refuse_each: there is no cc here, so no allocation is refused: left out")
        return
    # A crash is to leave no core file.
    resource.setrlimit(resource.RLIMIT_CORE, (0, 0))
    text = "".join(line for line in (TESTS / "refused.txt").open() if not line.startswith("#") and line != "\n")
    script, _, answers = text.partition("-\n")
    with tempfile.TemporaryDirectory() as folder:
        os.chdir(folder)
        subprocess.run(
            ["cc", "-shared", "-fPIC", "-o", "refuse_malloc.so", str(TESTS / "refuse_malloc.c")], check=True
        )
        tried = [try_script(script, answers)]
        image = left_by(script)
        tried += [try_device(image, command, wanted) for command, wanted in DEVICE_COMMANDS]
        tried += [try_backup(image), try_check(image), try_upgrade(), try_calls()]
    print(f"refuse_each: {', '.join(tried)}, each with one allocation refused")


if __name__ == "__main__":
    main()
