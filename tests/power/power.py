"""A server in a virtual machine whose power fails, on real file systems: what was answered is there at the next boot.

    KERNEL=FOLDER python3 tests/power/power.py PROGRAM [BOOTS [SEED]]

A client in the machine (tests/power/sender.c) sends numbered messages, takes the oldest of them, and says over a serial
line which calls were answered. At a random moment after an answer qemu is killed, and the machine boots again with the
disk that is left. Then `ipcd check` has to find the device fit, the server has to serve it, and each message whose send
was answered has to be there, once, unless it was taken. Disks are

  power  one whose cache forgets what was not flushed (tests/power/nbd.py): power fails for machine and disk
  none   a file that qemu writes past the host's cache: power fails for the machine alone
  back   a file that qemu writes into the host's cache, which stays: power fails for the machine alone

What is wrong is tried first, and has to be found out: file systems without barriers and a disk without flushes; and
two programs on each file system, one that replies before its commit and one whose syncs do nothing, which a library
(tests/chaos/power.c) makes of the right one. The same library with slow syncs alone changes nothing.

It needs qemu, busybox, mkfs of each file system, cpio, a C compiler and a kernel with modules below KERNEL, `/` if none
is given: without one of them it says so. The processor is emulated. 20 boots take some minutes.
"""

from __future__ import annotations

import os
import random
import shutil
import subprocess
import sys
import tempfile
import time
from pathlib import Path
from typing import NamedTuple

sys.dont_write_bytecode = True
sys.path.insert(0, str(Path(__file__).resolve().parent))

from machine import HERE, QEMU, Fails, Machine, kernel_of, pack  # noqa: E402
from nbd import Disk, Server  # noqa: E402

PROGRAM = Path(sys.argv[1]).resolve()
POWER = HERE.parent / "chaos" / "power.c"
BOOTS = int(sys.argv[2]) if len(sys.argv) > 2 else 20
SEED = sys.argv[3] if sys.argv[3:4] not in ([], ["random"]) else str(random.randrange(2**32))
NEEDED = [QEMU, "busybox", "cpio", "cc", "mkfs.ext4", "mkfs.xfs", "mkfs.btrfs", "ldd"]
MAKE = {"ext4": ["mkfs.ext4", "-q", "-F"], "xfs": ["mkfs.xfs", "-q", "-f"], "btrfs": ["mkfs.btrfs", "-q", "-f"]}
SIZE = 400 << 20
# How a device is formatted, and how many messages its queue keeps: of version 3, of version 2, and small ones. A small
# one of version 3 has so short a journal that it saves about once a boot.
FORMS = {
    "3": ("--journal 257", 64),
    "2": ("", 64),
    "3 small": ("--small --journal 8", 8),
    "2 small": ("--small", 8),
}
# The variables that make another program of the server, and how many seconds may pass between an answer and the kill. A
# sync of `slow`, and what `early` holds back, wait for half a second.
LIBRARY = "LD_PRELOAD=/power.so POWER_DEVICE=/mnt/device POWER_LOG=/run/undo"
PROGRAMS = {
    "right": ("", 0.1),
    "slow": (f"{LIBRARY} POWER_SLOW=500000", 0.6),
    "early": (f"{LIBRARY} POWER_WRONG=early POWER_SLOW=500000", 0),
    "nosync": (f"{LIBRARY} POWER_WRONG=nosync", 0),
}


class Kind(NamedTuple):
    """A file system with its options, a disk, the form of the device, and a program."""

    system: str
    options: str
    disk: str
    form: str
    program: str = "right"


# What is right, with its share of the boots. A disk that loses something shows more, and a small device boots sooner.
RIGHT = {Kind(system, "noatime", "power", "3 small"): 10 for system in MAKE}
RIGHT |= {Kind("xfs", "noatime", "power", "2 small"): 4, Kind("ext4", "noatime", "power", "3 small", "slow"): 4}
RIGHT |= {Kind(system, "noatime", disk, "3 small"): 2 for disk in ("none", "back") for system in MAKE}
RIGHT |= {Kind(system, "noatime", "power", "3"): 6 for system in MAKE}
RIGHT |= {Kind("ext4", "noatime", "power", "2"): 2}
LIES = [Kind(system, "noatime,nobarrier", "power", "3 small") for system in ("ext4", "btrfs")]
LIES += [Kind("xfs", "noatime", "lies", "3 small")]
WRONG = [Kind(system, "noatime", "power", "3 small", program) for program in ("early", "nosync") for system in MAKE]
# In so many boots a lie has to be found out, and a wrong program.
MOST_OF_LIES, MOST_OF_WRONG = 12, 4
# How many requests the sender sends before it reads an answer.
AHEAD = 4
# In so many seconds the sender is answered.
LONGEST = 60


class Base(NamedTuple):
    """What a machine boots from: a kernel, its first file system, and a file of its memory."""

    kernel: Path
    image: Path
    state: Path


class Lost(Fails):
    """What was answered is not there, or the device is not fit to be served."""


class Seen:
    """What the machines of one disk have said. Each boot sends the numbers that follow on its first one, and takes them
    in their order."""

    def __init__(self) -> None:
        self.sent = self.took = 1
        self.taking = 0
        self.answered = self.takes = 0
        self.found: list[int] = []
        self.boots = self.unflushed = self.lost = self.flushes = 0

    def hear(self, line: str) -> None:
        what, _, number = line.partition(" ")
        if what == "sent":
            self.is_next(number, self.sent)
            self.sent += 1
            self.answered += 1
        elif what == "took":
            self.is_next(number, self.took)
            self.took += 1
            self.taking -= 1
            self.takes += 1
        elif what == "taking":
            self.taking = AHEAD
        elif what == "found":
            self.found.append(int(number))
        elif what == "check:" and not line.startswith("check: fit to be served: "):
            raise Lost(line)
        elif what in ("end:", "sender"):
            raise Fails(line)

    def is_next(self, number: str, wanted: int) -> None:
        if int(number) != wanted:
            raise Fails(f"message {number} is answered, and {wanted} is the next")

    def is_drained(self) -> None:
        """The boot before has left all messages whose sends were answered, in their order, less those that were taken.
        It may have taken or sent those that it had asked for."""
        first = self.found[0] if self.found else self.sent
        end = first + len(self.found)
        ahead = 0 if self.taking else AHEAD - (self.sent - 1) % AHEAD
        text = f"sends up to {self.sent - 1} and takes up to {self.took - 1} were answered"
        text += f", and {self.found[:2]}..{self.found[-2:]} are there"
        if end > self.sent + ahead:
            raise Fails(f"more than can be: {text}")
        if end < self.sent or not self.took <= first <= self.took + self.taking or self.found != [*range(first, end)]:
            raise Lost(text)
        self.found.clear()

    def begins(self, first: int) -> None:
        self.sent = self.took = first
        self.taking = 0


def drive_of(kind: Kind) -> str:
    cache = "writeback" if kind.disk == "back" else "none"
    return f"cache={cache}," + ("file.driver=nbd,file.path=nbd" if kind.disk in ("power", "lies") else "file=disk")


def load(machine: Machine, kind: Kind, seen: Seen, rng: random.Random) -> None:
    """The client calls, up to a moment after one of its answers. A wrong program is killed at once."""
    wanted, pause = rng.randint(1, 12), rng.uniform(0, PROGRAMS[kind.program][1])
    if kind.program == "right" and rng.random() < 0.5:
        wanted, pause = 1, rng.choice([0.1, 0.5, 1.5]) * rng.uniform(0.5, 1.5)
    end = time.monotonic() + LONGEST
    while wanted and (line := machine.line(end)) is not None:
        seen.hear(line)
        wanted -= line.startswith(("sent ", "took "))
    if wanted:
        raise Fails("the client is not answered")
    time.sleep(pause)


def ask(machine: Machine, kind: Kind, seen: Seen) -> None:
    """What the machine finds is what the boot before has left."""
    form, most = FORMS[kind.form]
    first = (seen.boots + 1) * 1_000_000 + 1
    # The serial line may lose the first byte after such a begin.
    machine.say(f"  {kind.system} {kind.options} {first} {most} {int(time.time())} {form}")
    machine.say(PROGRAMS[kind.program][0])
    end = time.monotonic() + 120
    while (line := machine.line(end)) != "drained":
        if line is None:
            raise Fails("the machine is silent")
        seen.hear(line)
    seen.is_drained()
    seen.begins(first)


def one_boot(kind: Kind, base: Base, seen: Seen, rng: random.Random, is_last: bool) -> None:
    """The machine boots, and is asked what is there. The client calls, except the last time. Then it is killed."""
    disk = server = None
    if kind.disk in ("power", "lies"):
        disk = Disk(Path("disk"), kind.disk == "lies")
        server = Server(disk, "nbd")
        server.start()
    machine = Machine(base.kernel, base.image, drive_of(kind), base.state)
    try:
        ask(machine, kind, seen)
        if not is_last:
            load(machine, kind, seen, rng)
    finally:
        if server:
            server.off = True
        last = machine.kill()
        if disk:
            server.finish()
            unflushed, lost = disk.power_fails(rng)
            seen.unflushed += unflushed
            seen.lost += lost
            seen.flushes += disk.flushes
            disk.close()
            os.remove("nbd")
    if not is_last:
        for line in last:
            seen.hear(line)
        seen.boots += 1


def boots(kind: Kind, count: int, base: Base, rng: random.Random) -> tuple[Seen, str, bool]:
    """So many boots of a new disk, and one more that only asks, or up to the first fault: what was seen, the fault, and
    whether something is lost by it."""
    with open("disk", "wb") as file:
        file.truncate(SIZE)
    subprocess.run([*MAKE[kind.system], "disk"], check=True, stdout=subprocess.DEVNULL)
    seen = Seen()
    try:
        for number in range(count + 1):
            one_boot(kind, base, seen, rng, number == count)
    except Fails as fault:
        return seen, str(fault), isinstance(fault, Lost)
    finally:
        os.remove("disk")
    return seen, "", False


def told(kind: Kind, seen: Seen, verdict: str) -> str:
    name = f"{kind.system} {kind.options}, disk {kind.disk}, version {kind.form}, program {kind.program}"
    disk = f", {seen.flushes} flushes, {seen.unflushed} sectors unflushed, {seen.lost} lost"
    disk = disk if kind.disk in ("power", "lies") else ""
    calls = f"{seen.answered} sends and {seen.takes} takes answered"
    return f"power: {name}: {seen.boots} boots, {calls}{disk}; {verdict}"


def keep(base: Base) -> None:
    """A machine up to the point where it has not seen its disk."""
    with open("disk", "wb") as file:
        file.truncate(SIZE)
    machine = Machine(base.kernel, base.image, "cache=none,file=disk", None)
    try:
        machine.until("waiting", 180)
        machine.keep_memory(base.state)
    finally:
        machine.process.kill()
    os.remove("disk")


def find_out(base: Base) -> int:
    """How many of what is wrong were not found out. A wrong program has to lose something: that the machine fails in
    another way says nothing about the program."""
    missed = 0
    for place, kind in enumerate(LIES + WRONG):
        most = MOST_OF_LIES if kind in LIES else MOST_OF_WRONG
        seen, fault, is_lost = boots(kind, most, base, random.Random(f"{SEED} wrong {place}"))
        is_found = is_lost or kind in LIES and fault != ""
        print(told(kind, seen, f"{fault or 'nothing'}{'' if is_found else ', so it is not found out'}"), flush=True)
        missed += not is_found
    return missed


def try_right(base: Base) -> int:
    """How many file systems and disks were not as they should be."""
    wrong = share = 0
    total = sum(RIGHT.values())
    for place, (kind, its) in enumerate(RIGHT.items()):
        count = BOOTS * (share + its) // total - BOOTS * share // total
        share += its
        if count:
            seen, fault, _ = boots(kind, count, base, random.Random(f"{SEED} {place}"))
            print(told(kind, seen, fault or "as promised"), flush=True)
            wrong += bool(fault) or not seen.answered
    return wrong


def main() -> None:
    missing = [it for it in NEEDED if shutil.which(it, path=os.environ["PATH"] + ":/sbin:/usr/sbin") is None]
    found = kernel_of(Path(os.environ.get("KERNEL", "/")))
    if missing or not found:
        print(f"power: without {', '.join(missing) or 'a kernel with modules below KERNEL'} nothing boots: left out")
        return
    print(f"power: seed {SEED}, kernel {found[1].name}", flush=True)
    with tempfile.TemporaryDirectory(dir=os.environ.get("TMPDIR", "/var/tmp")) as folder:
        os.chdir(folder)
        sender = Path("sender").resolve()
        subprocess.run(["cc", "-static", "-O1", "-o", str(sender), str(HERE / "sender.c")], check=True)
        library = Path("power.so").resolve()
        subprocess.run(["cc", "-shared", "-fPIC", "-o", str(library), str(POWER)], check=True)
        base = Base(found[0], pack(Path(folder), PROGRAM, sender, library, found[1]), Path("state").resolve())
        keep(base)
        wrong = find_out(base) + try_right(base)
        os.chdir("/")
    if wrong:
        sys.exit(f"power: {wrong} are not as they should be")


if __name__ == "__main__":
    main()
