"""Copies of a device with `ipcd backup`, in use or not: each opens to a state that there was meanwhile.

    python3 backups.py PROGRAM [SEED [BACKUPS]]
"""

from __future__ import annotations

import itertools
import os
import random
import resource
import signal
import stat
import subprocess
import sys
import time
from collections.abc import Callable, Iterator
from contextlib import contextmanager
from pathlib import Path

sys.dont_write_bytecode = True
sys.path.insert(0, str(Path(__file__).resolve().parents[1] / "lib"))

from looks import MOST, THREE, TWO, Made, Writer, seen, states  # noqa: E402
from pseudo_terminal import all_shown, open_terminal  # noqa: E402
from device_layout import JOURNAL, SMALL_OF_THREE, Device, Queue, batch, clock, leave, processes, state  # noqa: E402
from device_layout import superblock, tagged, three, tick  # noqa: E402
from server import PROGRAM, SECTORS, SECTORS_OF_THREE, SEED, TIMEOUT, Client, Server, check, in_a_folder  # noqa: E402
from server import killed, printed, process, run, run_tests, serving  # noqa: E402

from client import IPC_CREAT, IPC_NOWAIT, IPC_PRIVATE, O_CREAT

BACKUPS = int(sys.argv[3]) if len(sys.argv) > 3 else 10
KILLS = BACKUPS
# Said of a copy that was broken off, whose superblock comes last.
BROKEN_OFF = (1, "", "ipcd: not formatted\n")
# Said if the server saves all the while.
TOO_FAST = (1, "", "ipcd: device fault\n")


def copied(sectors: int) -> tuple[int, str, str]:
    return 0, f"copied {sectors} sectors\n", ""


def ended(*words: str, **named: object) -> tuple[int, str, str]:
    """How the program ends: its status, what it prints, and what it says."""
    one = subprocess.run([PROGRAM, *words], capture_output=True, text=True, **named)
    return one.returncode, one.stdout, one.stderr


def is_copied(sectors: int = SECTORS["standard"]) -> None:
    """A copy is made, as large as the device, for its owner alone."""
    end = time.monotonic() + TIMEOUT
    while True:
        answer = ended("backup", "device", "copy")
        # A machine that is busy with something else reads more slowly than the server saves. Then one tries again.
        if answer != TOO_FAST or os.path.exists("copy") or time.monotonic() > end:
            break
    check(answer == copied(sectors), f"a backup ends with {answer}")
    status = os.stat("copy")
    check(stat.S_IMODE(status.st_mode) == 0o600, f"a copy has mode {status.st_mode:o}")
    check(status.st_size == 512 * sectors, f"a copy has {status.st_size} bytes")


def is_refused(said: str, device: str = "device", copy: str = "copy") -> None:
    answer = ended("backup", device, copy)
    check(answer == (1, "", f"ipcd: {said}\n"), f"backup {device} {copy}: {answer}")


@contextmanager
def written(made: Made = TWO) -> Iterator[tuple[Server, Writer]]:
    """A server of a new device that saves again and again."""
    made.format()
    server = Server(sectors=made.sectors)
    try:
        writer = Writer()
        writer.start()
        while writer.answered < 3 * MOST:
            writer.look()
            time.sleep(0.01)
        yield server, writer
    finally:
        server.process.kill()
        server.process.wait()
        os.remove("socket")


def is_of(path: str, before: int, after: int) -> None:
    """The device opens to the state after a step from `before` to `after`."""
    found = seen(printed("list", path))
    wanted = [states(step) for step in range(before, after + 1)]
    check(found in wanted, f"{found} is copied, between steps {before} and {after}")
    # A restart changes nothing of these.
    check(seen(printed("dump", path)) == found, "`dump` finds another state")


def under_load(made: Made = TWO) -> None:
    """Backups beside a server that saves again and again."""
    with written(made) as (_, writer):
        root = made.epoch()
        for _ in range(BACKUPS):
            before = writer.answered
            is_copied(made.sectors)
            is_of("copy", before, writer.begun)
            os.remove("copy")
        saves = made.epoch() - root
        writer.goes_on = False
        writer.finish()
    check(saves > 0, "the server has not saved meanwhile")
    print(f"backups: {BACKUPS} backups beside {writer.answered} steps and {saves} saves")


def under_load_on_version_3() -> None:
    under_load(THREE)


def kills() -> None:
    """A backup is killed in the midst of its work: what it leaves is no device, or the whole copy."""
    rng = random.Random(SEED)
    broken = 0
    with written() as (_, writer):
        begin = time.monotonic()
        is_copied()
        most = time.monotonic() - begin
        for _ in range(KILLS):
            Path("copy").unlink(missing_ok=True)
            before = writer.answered
            with subprocess.Popen([PROGRAM, "backup", "device", "copy"], stdout=subprocess.PIPE, text=True) as backup:
                time.sleep(rng.uniform(0, most))
                backup.kill()
                said, _ = backup.communicate()
            if not os.path.exists("copy"):
                check(said == "", f"no copy is there after {said!r}")
                continue
            answer = ended("list", "copy")
            if answer == BROKEN_OFF and said == "":
                check(ended("dump", "copy") == BROKEN_OFF, "`dump` opens a copy that was broken off")
                is_refused("device fault")
                broken += 1
            else:
                is_of("copy", before, writer.begun)
        writer.look()
    Path("copy").unlink(missing_ok=True)
    print(f"backups: of {KILLS} that were killed {broken} have left a part of a copy")


def outlives_the_server() -> None:
    """The server is killed while its device is copied."""
    for _ in range(3):
        with written() as (server, writer):
            before = writer.answered
            with subprocess.Popen([PROGRAM, "backup", "device", "copy"], stdout=subprocess.PIPE, text=True) as backup:
                time.sleep(0.005)
                server.process.kill()
                said, _ = backup.communicate()
            check((backup.returncode, said) == copied(SECTORS["standard"])[:2], f"{said!r} is said of a backup")
            writer.goes_on = False
            writer.join()
        is_of("copy", before, writer.begun)
        os.remove("copy")


def is_a_device(sectors: int = SECTORS["small"], *words: str) -> None:
    """The copy is served as the device is. The device stays as it is, and so does what stands where a copy is to be."""
    printed("format", "device", "--small", *words)
    with killed(sectors) as server, process() as client:
        queue = client.msgget(7, IPC_CREAT | 0o600)
        client.msgsnd(queue, 5, b"kept", 0)
        client.shmat(client.shmget(IPC_PRIVATE, 100, IPC_CREAT | 0o600))
        client.sem_open("/value", O_CREAT, 0o600, 3)
        before, times = Path("device").read_bytes(), os.stat("device").st_mtime_ns
        is_copied(sectors)
        listed = printed("list", "device")
        check(listed.count("\n") == 3, f"{listed!r} is listed")
        check(printed("list", "copy") == listed, "another state is copied")
        taken = Path("copy").read_bytes()
        is_refused("device fault")
        check(Path("copy").read_bytes() == taken, "a second backup has changed the copy")
        check(Path("device").read_bytes() == before, "a backup has changed the device")
        check(os.stat("device").st_mtime_ns == times, "a backup has written the device")
        server.process.kill()
        server.process.wait()
    os.replace("copy", "device")
    with serving(limits="small", sectors=sectors), process() as client:
        check(client.msgget(7, 0) == queue, "the queue has another identifier")
        check(client.msgrcv(queue, 10, 0, IPC_NOWAIT) == (5, b"kept"), "another message is in the queue")


def is_a_device_of_version_3() -> None:
    is_a_device(SECTORS_OF_THREE["small"], "--journal", "257")


def keeps_version_and_journal() -> None:
    """A copy has the version, the limits, the journal and the state of its device, at epoch 1 and with an empty
    journal: to the byte what a format would make with these objects. A crash has torn a batch of the device."""
    for journal, sectors in ((8, 73), (8, 80), (300, 365)):
        version = three(journal)
        them = processes((1, 1000, 100), (2, 7, 8))
        queue = Queue(1234, ((5, b"hi"), (6, b"")), times=(9, 0, 3), pids=(1, 0))
        objects = state(clock(9, 3, 2), them, {1: queue}, version=version)
        device = Device(SMALL_OF_THREE, sectors, version).save(7, objects)
        device.journal(7, batch(tick(20)), batch(tick(21), leave(21, 2)))
        device.put(JOURNAL + 2, 0, tagged(7, 3, batch(*9 * [tick(22)], *40 * [tick(23)]))[1])
        after = state(clock(21, 3, 2), processes((1, 1000, 100)), {1: queue}, version=version)
        wanted = Device(SMALL_OF_THREE, sectors, version)
        wanted.image[:] = bytes(len(wanted.image))
        wanted.put(0, 0, superblock(SMALL_OF_THREE, sectors, version))
        wanted.save(1, after, itertools.count(version.objects))
        Path("device").write_bytes(device.image)
        is_copied(sectors)
        check(Path("copy").read_bytes() == bytes(wanted.image), f"another copy of a journal of {journal} sectors")
        check(Path("device").read_bytes() == bytes(device.image), "a backup has changed the device")
        fit = f"fit to be served: version 3, {sectors} sectors, small limits, 1 objects\n"
        check(printed("check", "copy") == fit == printed("check", "device"), "the copy is of another kind")
        os.remove("copy")


def finds_something() -> None:
    """Where anything stands, nothing is copied, and nothing is read."""
    printed("format", "device", "--small")
    os.mkdir("folder")
    os.mkfifo("pipe")
    os.symlink("nowhere", "link")
    Path("text").write_text("mine")
    for there in ("device", "folder", "pipe", "link", "text", "."):
        is_refused("device fault", copy=there)
        is_refused("device fault", "none", there)
    check(Path("text").read_text() == "mine", "a file is overwritten")
    check(os.readlink("link") == "nowhere" and not os.path.exists("nowhere"), "a link is followed")
    check(os.stat("device").st_size == 512 * SECTORS["small"], "the device is not what it was")
    is_refused("device fault", copy="missing/copy")
    is_refused("device fault", copy="")
    check(printed("dump", "device") == "", "the device is not what it was")


def finds_no_device() -> None:
    """Of what is no device no copy is made."""
    Path("zeros").write_bytes(bytes(700000))
    printed("format", "device", "--small")
    damaged = bytearray(Path("device").read_bytes())
    damaged[1024:1034] = 10 * b"\xff"
    Path("damaged").write_bytes(damaged)
    for name, said in (("none", "device fault"), (".", "device fault"), ("zeros", "not formatted")):
        is_refused(said, name)
    is_refused("damaged sector 2", "damaged")
    check(not os.path.exists("copy"), "a copy is made of what is no device")


def few_bytes() -> None:
    """The file may not grow to the size of the device."""
    signal.signal(signal.SIGXFSZ, signal.SIG_IGN)
    resource.setrlimit(resource.RLIMIT_FSIZE, (300 * 512, 300 * 512))


def no_room() -> None:
    os.dup2(os.open("/dev/full", os.O_WRONLY), 1)


def with_umask(mask: int) -> Callable[[], None]:
    def sets() -> None:
        os.umask(mask)

    return sets


def is_stopped() -> None:
    """A disk that is full, an output that is, and a umask that takes all."""
    printed("format", "device", "--small")
    answer = ended("backup", "device", "copy", preexec_fn=few_bytes)
    check(answer == (1, "", "ipcd: device fault\n"), f"on a full disk a backup ends with {answer}")
    check(ended("dump", "copy") == BROKEN_OFF, "a part of a copy is a device")
    is_refused("device fault")
    os.remove("copy")
    for mask in (0, 0o277, 0o777):
        answer = ended("backup", "device", "copy", preexec_fn=with_umask(mask))
        check(answer == copied(SECTORS["small"]), f"a backup ends with {answer}")
        mode = stat.S_IMODE(os.stat("copy").st_mode)
        check(mode == 0o600, f"a copy has mode {mode:o} under umask {mask:o}")
        os.remove("copy")
    status = subprocess.run([PROGRAM, "backup", "device", "copy"], preexec_fn=no_room, stderr=subprocess.PIPE)
    check((status.returncode, status.stderr) == (1, b"ipcd: output fault\n"), f"a full output: {status}")
    check(printed("dump", "copy") == "", "a copy of which nothing could be said is no device")
    os.remove("copy")


def tells() -> None:
    """A terminal sees how far the copy is: at each MiB, which are 2048 sectors, and at the end."""
    printed("format", "device", "--small", "--sectors", "5000")
    terminal, errors = open_terminal()
    answer = subprocess.run([PROGRAM, "backup", "device", "copy"], stdout=subprocess.PIPE, stderr=errors)
    os.close(errors)
    shown = all_shown(terminal)
    os.close(terminal)
    check((answer.returncode, answer.stdout) == (0, b"copied 5000 sectors\n"), f"a backup ends with {answer}")
    wanted = "".join(f"\ripcd: {number} of 5000 sectors" for number in (2048, 4096, 5000)) + "\n"
    check(shown == wanted.encode(), f"{shown!r} is shown")
    os.remove("copy")


TESTS = [
    is_a_device,
    is_a_device_of_version_3,
    keeps_version_and_journal,
    finds_something,
    finds_no_device,
    is_stopped,
    tells,
    outlives_the_server,
    kills,
    under_load,
    under_load_on_version_3,
]

if __name__ == "__main__":
    signal.signal(signal.SIGINT, signal.default_int_handler)
    with in_a_folder(900 + 30 * BACKUPS):
        run_tests("backups", TESTS)
