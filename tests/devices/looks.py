"""Looks at a device with `ipcd list`, which may be in use: each finds a state that there was meanwhile, and leaves the
file as it is.

    python3 looks.py PROGRAM [SEED [LOOKS]]
"""

from __future__ import annotations

import os
import re
import shutil
import signal
import stat
import subprocess
import sys
import threading
import time
from pathlib import Path
from typing import NamedTuple

sys.dont_write_bytecode = True
sys.path.insert(0, str(Path(__file__).resolve().parents[1] / "lib"))

from server import PROGRAM, SECTORS, SECTORS_OF_THREE, Client, Server, Worker, check, in_a_folder, killed  # noqa: E402
from server import printed, process, run, run_tests, serving, until  # noqa: E402

from client import IPC_CREAT, IPC_PRIVATE, O_CREAT, msgrcv_request, msgsnd_request, sem_post_request

LOOKS = int(sys.argv[3]) if len(sys.argv) > 3 else 200
SAVES = 10
# Eighteen of these fill a journal, so there is a save at every other round; and nine fill a queue.
TEXT = bytes(7000)
# What a queue holds at most, before it is drained.
MOST = 9


class Made(NamedTuple):
    """A version of devices: the words of its format, its sectors with standard limits, and the sector of its root."""

    words: tuple[str, ...]
    sectors: int
    root: int

    def format(self) -> None:
        printed("format", "device", *self.words)

    def epoch(self) -> int:
        """How many saves the device has seen, and one."""
        with open("device", "rb") as file:
            return int.from_bytes(os.pread(file.fileno(), 512, 512 * self.root)[:8], "big")


TWO = Made((), SECTORS["standard"], 2)
THREE = Made(("--journal", "257"), SECTORS_OF_THREE["standard"], 1)


def states(step: int) -> tuple[int, int]:
    """After so many steps: the value of the semaphore, and the messages of the queue.

    The semaphore is posted, and then a message sent. If the queue holds `MOST`, they are taken one by one."""
    turn = 3 * MOST
    rounds, rest = divmod(step, turn)
    posts = min((rest + 1) // 2, MOST)
    messages = min(rest // 2, MOST) - max(rest - 2 * MOST, 0)
    return rounds * MOST + posts, messages


class Writer(Worker):
    """Goes from step to step. How many it has begun, and how many were answered."""

    def __init__(self) -> None:
        super().__init__(0, 0)
        self.begun = 0
        self.answered = 0
        self.goes_on = True

    def take_steps(self, client: Client, requests: list[bytes]) -> None:
        """Sends all these, a step each, and waits for the answers."""
        self.begun += len(requests)
        serials = [client.send(request) for request in requests]
        for serial in serials:
            found, error, _ = client.receive()
            check((found, error) == (serial, 0), f"{error} is answered to a step")
            self.answered += 1

    def work(self) -> None:
        with process() as client:
            queue = client.msgget(IPC_PRIVATE, IPC_CREAT | 0o600)
            sem = client.sem_open("/steps", O_CREAT, 0o600, 0)
            while self.goes_on:
                self.take_steps(client, [sem_post_request(sem), msgsnd_request(queue, 1, TEXT)] * MOST)
                self.take_steps(client, [msgrcv_request(queue, len(TEXT), 0, 0)] * MOST)


def seen(text: str) -> tuple[int, int]:
    """The value of the semaphore and the messages of the queue, in what `list` prints."""
    value = re.search(r"^psm 0600 +1000 +100 +(\d+) /steps$", text, re.MULTILINE)
    queue = re.search(r"^msg +1 +0 0600 +1000 +100 +(\d+) +(\d+)$", text, re.MULTILINE)
    check(value is not None and queue is not None and text.count("\n") == 2, f"{text!r} is listed")
    messages = int(queue[2])
    check(int(queue[1]) == messages * len(TEXT), f"{text!r} is listed")
    return int(value[1]), messages


class Looker(threading.Thread):
    """Looks so many times at least, and until the device has seen so many saves. Each look has to find the state after
    a step that there may have been meanwhile."""

    def __init__(self, made: Made, writer: Writer, looks: int, saves: int) -> None:
        super().__init__(daemon=True)
        self.device = made
        self.writer = writer
        self.looks = looks
        self.saves = saves
        self.made = 0
        self.failure: BaseException | None = None

    def run(self) -> None:
        try:
            while self.made < self.looks or self.device.epoch() <= self.saves:
                before = self.writer.answered
                found = seen(printed("list", "device"))
                after = self.writer.begun
                check(
                    any(states(step) == found for step in range(before, after + 1)),
                    f"{found} is found, between steps {before} and {after}",
                )
                self.made += 1
        except BaseException as failure:
            self.failure = failure


def under_load(made: Made = TWO) -> None:
    """Four look at a server that saves again and again."""
    made.format()
    with serving(sectors=made.sectors):
        writer = Writer()
        writer.start()
        while writer.answered < 3 * MOST:
            writer.look()
            time.sleep(0.01)
        root = made.epoch()
        lookers = [Looker(made, writer, LOOKS // 4, root + SAVES) for _ in range(4)]
        for looker in lookers:
            looker.start()
        for looker in lookers:
            looker.join()
            if looker.failure:
                raise looker.failure
        saves = made.epoch() - root
        writer.goes_on = False
        writer.finish()
    looks = sum(looker.made for looker in lookers)
    print(f"looks: {looks} looks beside {writer.answered} steps and {saves} saves")


def under_load_on_version_3() -> None:
    under_load(THREE)


def kills_on_version_3() -> None:
    kills(THREE)


def kills(made: Made = TWO) -> None:
    """The server is killed in the midst of its work, and those who look."""
    made.format()
    for _ in range(10):
        server = Server(sectors=made.sectors)
        writer = Writer()
        writer.start()
        # Before its first step there may be no queue yet. A server that answers none fails here.
        until(lambda: writer.answered > 0 or writer.failure is not None, "no step of the writer is answered")
        writer.look()
        time.sleep(0.1)
        with subprocess.Popen([PROGRAM, "list", "device"], stdout=subprocess.DEVNULL) as look:
            time.sleep(0.002)
            look.kill()
        server.process.kill()
        server.process.wait()
        os.remove("socket")
        writer.goes_on = False
        writer.join()
        answered, begun = writer.answered, writer.begun
        found = seen(printed("list", "device"))
        wanted = [states(step) for step in range(answered, begun + 1)]
        check(found in wanted, f"{found} is left of {answered} to {begun} steps")
        # A restart changes nothing of these.
        check(seen(printed("dump", "device")) == found, "`dump` finds another state")
        made.format()


def leaves_all() -> None:
    """In use or not, the file stays as it is; and a look shows what is now, without a restart."""
    printed("format", "device", "--small")
    row = "seg {:10} {:11} 0600       1000        100 {:10} {:10}\n"
    with killed() as server, process() as client:
        segment = client.shmget(IPC_PRIVATE, 100, IPC_CREAT | 0o600)
        client.shmat(segment)
        client.msgget(IPC_PRIVATE, IPC_CREAT | 0o600)
        before = Path("device").read_bytes()
        listed = printed("list", "device")
        check(listed.endswith(row.format(1, 0, 100, 1)) and listed.count("\n") == 2, f"{listed!r} is listed")
        check(Path("device").read_bytes() == before, "a look has changed the file")
        is_refused("dump", "ipcd: device fault\n")
        server.process.kill()
        server.process.wait()
    times = os.stat("device").st_mtime_ns
    check(printed("list", "device") == listed, "a look after the server is another one")
    check(os.stat("device").st_mtime_ns == times, "a look has changed the file")
    # Whoever may read it may look.
    os.chmod("device", 0o444)
    check(printed("list", "device") == listed, "a file to be read is not listed")
    os.chmod("device", 0o600)
    check(printed("dump", "device").endswith(row.format(1, 0, 100, 0)), "a restart detaches")


def is_refused(command: str, said: str, path: str = "device") -> None:
    ended = run(command, path)
    check((ended.returncode, ended.stdout, ended.stderr) == (1, "", said), f"{command} {path}: {ended}")


def is_no_device() -> None:
    """What is no device is refused, as `dump` refuses it."""
    is_refused("list", "ipcd: device fault\n", "none")
    is_refused("list", "ipcd: device fault\n", ".")
    os.mkfifo("pipe")
    is_refused("list", "ipcd: device fault\n", "pipe")
    check(stat.S_ISFIFO(os.stat("pipe").st_mode), "the pipe is gone")
    for size in (0, 512, 1535, 1536, 700000):
        Path("zeros").write_bytes(bytes(size))
        is_refused("list", "ipcd: not formatted\n", "zeros")
        is_refused("dump", "ipcd: not formatted\n", "zeros")
    printed("format", "device", "--small")
    for sector in (0, 2, 3):
        shutil.copy("device", "damaged")
        with open("damaged", "r+b") as file:
            file.seek(512 * sector + (20 if sector == 0 else 0))
            file.write(b"\xff" * 9)
        is_refused("list", f"ipcd: damaged sector {sector}\n", "damaged")
        is_refused("dump", f"ipcd: damaged sector {sector}\n", "damaged")
    with open("damaged", "r+b") as file:
        file.write(Path("device").read_bytes()[:512])
        file.truncate(1000 * 512)
    is_refused("list", "ipcd: damaged sector 0\n", "damaged")


TESTS = [leaves_all, is_no_device, kills, under_load, kills_on_version_3, under_load_on_version_3]

if __name__ == "__main__":
    signal.signal(signal.SIGINT, signal.default_int_handler)
    with in_a_folder(300):
        run_tests("looks", TESTS)
