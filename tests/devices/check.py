"""What `ipcd check` says of a device: the words of `serve`, and why; and its status.

    python3 check.py PROGRAM [SEED]

What is said after the words of `serve` was reckoned from docs/ipcd.8 and docs/DEVICE.md, and never taken from the
program. Each file is given to `serve` too, which has to begin with the same words.
"""

from __future__ import annotations

import os
import re
import shutil
import signal
import subprocess
import sys
import threading
from collections.abc import Callable
from pathlib import Path

sys.dont_write_bytecode = True
sys.path.insert(0, str(Path(__file__).resolve().parents[1] / "lib"))

from server import PROGRAM, SECTORS, Server, check, in_a_folder, killed, printed, process, run, run_tests, small  # noqa: E402

from client import IPC_CREAT, IPC_PRIVATE, O_CREAT

NOBODY = 65534
MISSING = "device fault: No such file or directory (os error 2)\n"
DENIED = "device fault: Permission denied (os error 13)\n"
NOT_PLAIN = "device fault: it is no plain file\n"
ROUNDS = 20


def fit(objects: int, limits: str = "small", version: int = 2, sectors: int = 0) -> str:
    sectors = sectors or SECTORS[limits]
    return f"fit to be served: version {version}, {sectors} sectors, {limits} limits, {objects} objects\n"


def is_found(wanted: str, path: str = "device") -> None:
    """`check` says this, and its status is that of a start."""
    ended = run("check", path)
    status = 0 if wanted.startswith("fit ") else 1
    check((ended.returncode, ended.stdout, ended.stderr) == (status, wanted, ""), f"check {path}: {ended}")


def is_as_served(wanted: str, path: str = "device") -> None:
    """`check` says this and leaves the file as it is. `serve` begins with the same words."""
    before = bytes_of(path)
    is_found(wanted, path)
    check(bytes_of(path) == before, f"check has changed {path}")
    ended = run("serve", path, "never", "--turns", "0")
    words = wanted.partition(":")[0]
    if words == "fit to be served":
        check((ended.returncode, ended.stderr) == (0, ""), f"serve {path}: {ended}")
        os.remove("never")
    else:
        check((ended.returncode, ended.stdout, ended.stderr) == (1, "", f"ipcd: {words}\n"), f"serve {path}: {ended}")


def bytes_of(path: str) -> tuple[bytes, int] | None:
    return (Path(path).read_bytes(), os.stat(path).st_mtime_ns) if os.path.isfile(path) else None


def what_is_no_file() -> None:
    is_as_served(MISSING, "none")
    is_as_served(MISSING, "missing/none")
    is_as_served(MISSING, "")
    os.mkfifo("pipe")
    os.symlink("nowhere", "link")
    for path in (".", "pipe", "/dev/null"):
        is_as_served(NOT_PLAIN, path)
    is_as_served(MISSING, "link")
    Path("file").write_text("")
    is_as_served("device fault: Not a directory (os error 20)\n", "file/none")


def what_is_no_device() -> None:
    """A file that is no device, or is of another version."""
    printed("format", "device", "--small")
    whole = Path("device").read_bytes()
    for sectors, size in ((0, 0), (0, 511), (1, 512), (2, 1535)):
        for content in (bytes(size), whole[:size]):
            Path("other").write_bytes(content)
            is_as_served(f"not formatted: the file has {sectors} sectors, fewer than a device has\n", "other")
    for sectors, size in ((3, 1536), (1367, 700000)):
        Path("other").write_bytes(bytes(size))
        is_as_served(f"not formatted: the file has {sectors} sectors, and the first is no superblock\n", "other")
    for version in (0, 1, 7):
        Path("other").write_bytes(whole[:11] + bytes([version]) + whole[12:])
        is_as_served(f"version {version}: this program serves versions 2 and 3\n", "other")


def changed(name: str, sector: int, at: int = 0) -> None:
    """A copy of the device with nine wrong bytes in a sector."""
    shutil.copy("device", name)
    with open(name, "r+b") as file:
        file.seek(512 * sector + at)
        file.write(9 * b"\xff")


def what_is_damaged() -> None:
    """The sector that an open names, and what is wrong then."""
    printed("format", "device", "--small")
    with killed(), process() as client:
        client.msgget(IPC_PRIVATE, IPC_CREAT | 0o600)
    for sector, at, place in (
        (0, 20, "the superblock, or the file was cut"),
        (2, 0, "the root, or the bytes of an object"),
        (3, 0, "the header of the journal"),
        # The first batch of the journal is the restart of the server, with what came in its first turns.
        (4, 4, "a batch of the journal"),
        # The table of a new device, whose four objects stand in the sectors before.
        (264, 0, "the table of objects"),
    ):
        changed("damaged", sector, at)
        is_as_served(f"damaged sector {sector}: {place}\n", "damaged")
    changed("damaged", 260)
    is_as_served("damaged sector 2: the root, or the bytes of an object\n", "damaged")
    shutil.copy("device", "cut")
    os.truncate("cut", 1000 * 512)
    is_as_served("damaged sector 0: the superblock, or the file was cut\n", "cut")


def what_is_fit() -> None:
    """How many objects there are: those that `list` has a line for."""
    printed("format", "device")
    is_as_served(fit(0, "standard"))
    printed("format", "device", "--small")
    is_as_served(fit(0))
    with killed(), process() as client:
        client.msgget(IPC_PRIVATE, IPC_CREAT | 0o600)
        client.semget(IPC_PRIVATE, 2, IPC_CREAT | 0o600)
        client.sem_open("/one", O_CREAT, 0o600, 1)
        client.shmget(IPC_PRIVATE, 100, IPC_CREAT | 0o600)
    check(printed("list", "device").count("\n") == 4, "four objects are not listed")
    is_as_served(fit(4))
    with open("device", "ab") as file:
        file.write(bytes(5 * 512 + 7))
    is_as_served("fit to be served: version 2, 1371 sectors, small limits, 4 objects\n")


def what_is_fit_of_version_3() -> None:
    """Its version is named. Small and standard are the limits of its version, with any journal."""
    for words, limits, sectors in (
        (("--journal", "257"), "standard", 91426),
        (("--journal", "8"), "standard", 91177),
        (("--small", "--journal", "257"), "small", 322),
        (("--small", "--journal", "8"), "small", 73),
        (("--small", "--journal", "300", "--sectors", "500"), "small", 500),
    ):
        printed("format", "device", *words)
        is_as_served(fit(0, limits, 3, sectors))
        os.remove("device")
    printed("format", "device", "--small", "--journal", "257")
    with killed(322) as server, process() as client:
        client.msgget(IPC_PRIVATE, IPC_CREAT | 0o600)
        client.sem_open("/one", O_CREAT, 0o600, 1)
        held = f"it is in use by process {server.process.pid}" if lock_line(server.process.pid) else "it is in use"
        is_found(f"device fault: {held}\notherwise {fit(2, 'small', 3, 322)}")
    is_as_served(fit(2, "small", 3, 322))
    changed("damaged", 0, 20)
    is_as_served("damaged sector 0: the superblock, or the file was cut\n", "damaged")


def lock_line(pid: int) -> bool:
    """Whether the system's list of locks has the device under the numbers that stat(2) gives."""
    status = os.stat("device")
    place = f"{os.major(status.st_dev):02x}:{os.minor(status.st_dev):02x}:{status.st_ino}"
    try:
        lines = Path("/proc/locks").read_text().splitlines()
    except OSError:
        return False
    return any(line.split()[1:6] == ["FLOCK", "ADVISORY", "WRITE", str(pid), place] for line in lines)


def who_has_it() -> None:
    with small() as server:
        told = lock_line(server.process.pid)
        held = f"it is in use by process {server.process.pid}" if told else "it is in use"
        is_as_served(f"device fault: {held}\notherwise {fit(0)}")
        with process() as client:
            client.msgget(IPC_PRIVATE, IPC_CREAT | 0o600)
            is_found(f"device fault: {held}\notherwise {fit(1)}")
    is_as_served(fit(1))
    # Another program's lock keeps `serve` away too, also one that is shared.
    for how in ("--shared", "--exclusive"):
        with subprocess.Popen(["flock", how, "device", "cat"], stdin=subprocess.PIPE, stdout=subprocess.PIPE) as other:
            other.stdin.write(b"ready")
            other.stdin.flush()
            check(other.stdout.read(5) == b"ready", "flock(1) does not lock")
            held = f"it is in use by process {other.pid}" if told else "it is in use"
            is_as_served(f"device fault: {held}\notherwise {fit(1)}")
            other.stdin.close()
    is_as_served(fit(1))
    print(f"check: the list of locks {'names' if told else 'does not name'} the device")


def stands_in_nobodys_way() -> None:
    """A server can start at each moment of a check, if the list of locks names the device."""
    printed("format", "device", "--small")
    with killed() as server:
        if not lock_line(server.process.pid):
            return
    goes_on = True
    found = set()

    def checks() -> None:
        while goes_on:
            found.add(run("check", "device").stdout)

    checkers = [threading.Thread(target=checks, daemon=True) for _ in range(4)]
    for checker in checkers:
        checker.start()
    for _ in range(ROUNDS):
        with killed():
            pass
    goes_on = False
    for checker in checkers:
        checker.join()
    in_use = re.compile(rf"device fault: it is in use by process \d+\notherwise {fit(0)}")
    others = [said for said in found if said != fit(0) and not in_use.fullmatch(said)]
    check(not others, f"{others} is said of a device that is served meanwhile")


def as_nobody(call: Callable[[], None]) -> None:
    """Does this in a process that may read and write what everybody may."""
    child = os.fork()
    if child == 0:
        status = 1
        try:
            if os.getuid() == 0:
                os.setgroups([])
                os.setgid(NOBODY)
                os.setuid(NOBODY)
            call()
            status = 0
        except BaseException as failure:
            print(f"check: {failure!r}", flush=True)
        finally:
            os._exit(status)
    _, status = os.waitpid(child, 0)
    check(status == 0, "it is another one for who is not root")


def who_may() -> None:
    """A file that may not be read, and one that may only be read."""
    os.chmod(".", 0o755)
    printed("format", "device", "--small")
    os.chmod("device", 0o000)

    def reads() -> None:
        if os.getuid() == NOBODY and not os.access(PROGRAM, os.X_OK):
            print("check: another user may not run the program", flush=True)
            return
        is_found(DENIED)

    def looks() -> None:
        if os.getuid() != NOBODY or os.access(PROGRAM, os.X_OK):
            is_found(f"{DENIED}otherwise {fit(0)}")

    as_nobody(reads)
    os.chmod("device", 0o444)
    as_nobody(looks)
    os.chmod("device", 0o600)
    is_as_served(fit(0))


def closed() -> None:
    os.close(1)


def no_room() -> None:
    os.dup2(os.open("/dev/full", os.O_WRONLY), 1)


def who_hears_nothing() -> None:
    """The status is that of the output if that cannot be written."""
    printed("format", "device", "--small")
    for path in ("device", "none"):
        for spoil in (closed, no_room):
            ended = subprocess.run([PROGRAM, "check", path], preexec_fn=spoil, stderr=subprocess.PIPE)
            check((ended.returncode, ended.stderr) == (1, b"ipcd: output fault\n"), f"check {path}: {ended}")


TESTS = [
    what_is_no_file,
    what_is_no_device,
    what_is_damaged,
    what_is_fit,
    what_is_fit_of_version_3,
    who_has_it,
    who_may,
    who_hears_nothing,
    stands_in_nobodys_way,
]

if __name__ == "__main__":
    signal.signal(signal.SIGINT, signal.default_int_handler)
    with in_a_folder(600):
        run_tests("check", TESTS)
