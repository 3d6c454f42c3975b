"""What docs/OPERATIONS.md tells of containers: a server as the first process of a PID namespace, and below an init.

    python3 tests/system/container.py PROGRAM

It needs unshare(1) and leave to make a namespace, else it says so and refuses nothing. A small init of this file stands in
for that of a container: it hands signals on to its child, and ends with it. It takes some seconds.
"""

from __future__ import annotations

import fcntl
import os
import signal
import subprocess
import sys
import time
from collections.abc import Iterator
from contextlib import contextmanager
from pathlib import Path

sys.dont_write_bytecode = True
sys.path.insert(0, str(Path(__file__).resolve().parents[1] / "lib"))

from server import PROGRAM, TIMEOUT, Connection, check, in_a_folder, printed, run_tests, until  # noqa: E402

from client import IPC_CREAT

UNSHARE = ["unshare", "--pid", "--fork", "--kill-child"]
SERVE = [PROGRAM, "serve", "device", "socket"]
INIT = """
import os, signal, sys
child = os.fork()
if child == 0:
    os.execv(sys.argv[1], sys.argv[1:])
for number in (signal.SIGTERM, signal.SIGINT):
    signal.signal(number, lambda number, _: os.kill(child, number))
status = os.waitpid(child, 0)[1]
sys.exit(128 + os.WTERMSIG(status) if os.WIFSIGNALED(status) else os.WEXITSTATUS(status))
"""


def is_free() -> bool:
    """No server has the device."""
    with open("device") as device:
        try:
            fcntl.flock(device, fcntl.LOCK_EX | fcntl.LOCK_NB)
        except BlockingIOError:
            return False
        return True


def may_unshare() -> bool:
    try:
        return subprocess.run([*UNSHARE, "true"], capture_output=True).returncode == 0
    except FileNotFoundError:
        return False


@contextmanager
def contained(*words: str) -> Iterator[tuple[subprocess.Popen[str], int]]:
    """A program in a PID namespace of its own, which serves, and the number of its first process out here."""
    process = subprocess.Popen([*UNSHARE, *words], stdout=subprocess.PIPE, stderr=subprocess.DEVNULL, text=True)
    try:
        check(process.stdout.readline().startswith("serving "), f"{words} does not serve")
        children = Path(f"/proc/{process.pid}/task/{process.pid}/children").read_text().split()
        check(len(children) == 1, f"{children} are children of unshare")
        yield process, int(children[0])
    finally:
        process.kill()
        process.wait()
        until(is_free, "a server still has the device")


def sends(text: bytes) -> None:
    with Connection("socket") as connection:
        connection.hello(1000, 100)
        connection.msgsnd(connection.msgget(7, IPC_CREAT | 0o600), 1, text)


def receives(text: bytes) -> None:
    with Connection("socket") as connection:
        connection.hello(1000, 100)
        found = connection.msgrcv(connection.msgget(7, 0), 64)
        check(found == (1, text), f"{found} is received")


def as_the_first_process() -> None:
    """SIGTERM and SIGINT from within do nothing to it, so what stops a container has to kill it. What was answered is
    there at the next start, for which the socket has to be removed."""
    printed("format", "device")
    # The system gives the first process no signal of its own namespace that it has no handler for; those from outside
    # too, but for SIGKILL and SIGSTOP.
    with contained(*SERVE) as (process, server):
        sends(b"kept")
        for number in (signal.SIGTERM, signal.SIGINT):
            os.kill(server, number)
        time.sleep(1)
        check(process.poll() is None, "it has ended by a signal")
        sends(b"kept too")
        os.kill(server, signal.SIGKILL)
        process.wait(TIMEOUT)
    ended = subprocess.run([*UNSHARE, *SERVE], capture_output=True, text=True, timeout=TIMEOUT)
    check((ended.returncode, ended.stderr) == (1, "ipcd: socket fault\n"), f"the socket is left: {ended}")
    line = ["sh", "-c", f'rm -f socket && exec "{PROGRAM}" serve device socket']
    with contained(*line):
        receives(b"kept")
        receives(b"kept too")
    os.remove("socket")


def below_an_init() -> None:
    """SIGTERM to the init ends the server at once, and with it the container."""
    printed("format", "device")
    with contained(sys.executable, "-c", INIT, *SERVE) as (process, init):
        sends(b"kept")
        os.kill(init, signal.SIGTERM)
        check(process.wait(TIMEOUT) == 128 + signal.SIGTERM, f"the init ends with {process.returncode}")
    os.remove("socket")
    with contained(sys.executable, "-c", INIT, *SERVE):
        until(lambda: os.path.exists("socket"), "there is no socket")
        receives(b"kept")
    os.remove("socket")


def main() -> None:
    if not may_unshare():
        print("container: no namespace may be made here, so none is tried")
        return
    run_tests("container", [as_the_first_process, below_an_init])


if __name__ == "__main__":
    with in_a_folder(60):
        main()
