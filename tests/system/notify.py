"""How `contrib/ipcd-notify` tells systemd that the server is ready, and that else the server is as without it.

    python3 tests/system/notify.py PROGRAM

The socket that systemd would read is bound here. Where it matters what comes when, cat(1) stands in for the
server, and prints what it is given. It takes some seconds.
"""

from __future__ import annotations

import os
import select
import signal
import socket
import subprocess
import sys
from collections.abc import Callable, Iterator
from contextlib import contextmanager
from pathlib import Path

sys.dont_write_bytecode = True
sys.path.insert(0, str(Path(__file__).resolve().parents[1] / "lib"))

from server import PROGRAM, TIMEOUT, Client, check, in_a_folder, printed, run_tests, until  # noqa: E402

WRAPPER = Path(__file__).resolve().parents[2] / "contrib" / "ipcd-notify"
SERVE = [PROGRAM, "serve", "device", "socket"]
LINE = "serving device, 1366 sectors, on socket, small limits\n"
PATH = "notified"
# What is said in that time would be too early.
MOMENT = 0.3


class Systemd:
    """The socket at which systemd is told, at a path or, if its name begins with @, an abstract one."""

    def __init__(self, name: str = PATH) -> None:
        self.name = name
        self.socket = socket.socket(socket.AF_UNIX, socket.SOCK_DGRAM)
        self.socket.bind("\0" + name[1:] if name.startswith("@") else name)

    def __enter__(self) -> Systemd:
        return self

    def __exit__(self, *_: object) -> None:
        self.socket.close()
        Path(self.name).unlink(missing_ok=True)

    def is_told(self) -> list[str]:
        """The assignments of the next message."""
        self.socket.settimeout(TIMEOUT)
        return self.socket.recv(4096).decode().splitlines()

    def hears_nothing(self, seconds: float = MOMENT) -> None:
        ready, _, _ = select.select([self.socket], [], [], seconds)
        check(not ready, f"systemd is told {ready and self.socket.recv(4096)}")


def started(words: list[str], notified: str | None = PATH, **named: object) -> subprocess.Popen[str]:
    """The wrapper with these words, which is told of this socket."""
    there = {name: text for name, text in os.environ.items() if name != "NOTIFY_SOCKET"}
    there |= {} if notified is None else {"NOTIFY_SOCKET": notified}
    pipes = {"stdout": subprocess.PIPE, "stderr": subprocess.PIPE}
    return subprocess.Popen([WRAPPER, *words], text=True, env=there, **{**pipes, **named})


@contextmanager
def running(words: list[str], notified: str | None = PATH, **named: object) -> Iterator[subprocess.Popen[str]]:
    """The same, killed at the end if something fails."""
    process = started(words, notified, **named)
    try:
        yield process
    finally:
        process.kill()
        process.wait()


def ends(process: subprocess.Popen[str], status: int, printed: str = "", said: str = "") -> None:
    """It ends with this status, after this on standard output and this on standard error, and leaves nobody who has
    them open."""
    output, errors = process.communicate(timeout=TIMEOUT)
    ended = (process.returncode, output, errors)
    check(ended == (status, printed, said), f"{ended}, and not {(status, printed, said)}")


def is_served(process: subprocess.Popen[str]) -> None:
    """A client is answered, and the process that was started is the server: its end by a signal is the server's."""
    with Client() as client:
        client.hello(1000, 100)
    there = os.path.realpath(f"/proc/{process.pid}/exe")
    check(there == PROGRAM, f"the main process is {there}")
    process.terminate()
    ends(process, -signal.SIGTERM)
    os.remove("socket")


def is_ready(notified: str) -> None:
    """Once systemd is told, the line is there and a client is answered."""
    with Systemd(notified) as systemd, running(SERVE, notified) as process:
        told = systemd.is_told()
        check(told == ["READY=1", f"STATUS={LINE.rstrip()}"], f"{told} is told")
        ready, _, _ = select.select([process.stdout], [], [], 0)
        check(bool(ready), "the line is not there when systemd is told")
        check(process.stdout.readline() == LINE, "another line is printed")
        is_served(process)
        systemd.hears_nothing()


def at_a_path() -> None:
    is_ready(PATH)


def at_an_abstract_socket() -> None:
    is_ready(f"@ipcd-notify-{os.getpid()}")


def not_before_the_line() -> None:
    """Systemd is told when the whole line is there, once, and all that is printed comes through, also what comes
    later."""
    with Systemd() as systemd, running(["cat"], stdin=subprocess.PIPE, bufsize=0) as process:
        for text in ("begins\n", "not serving yet\n", "serving", " "):
            process.stdin.write(text)
            systemd.hears_nothing()
        process.stdin.write("all\n")
        told = systemd.is_told()
        check(told == ["READY=1", "STATUS=serving all"], f"{told} is told")
        process.stdin.write("serving more\n")
        ends(process, 0, "begins\nnot serving yet\nserving all\nserving more\n")
        systemd.hears_nothing()


def ends_before_the_line() -> None:
    """Systemd is not told, and the end is the server's own."""
    with Systemd() as systemd:
        for words, status, said in (
            ([PROGRAM, "serve", "missing", "socket"], 1, "ipcd: device fault\n"),
            (["sh", "-c", "printf serving; exit 3"], 3, ""),
            (["sh", "-c", "kill -KILL $$"], -signal.SIGKILL, ""),
            (["sh", "-c", "echo no; exit 0"], 0, ""),
        ):
            process = started(words)
            ends(process, status, {3: "serving", 0: "no\n"}.get(status, ""), said)
        systemd.hears_nothing()
    check(not os.path.lexists("socket"), "a socket is left")


def nobody_waits() -> None:
    """Without NOTIFY_SOCKET the server is run, and nothing else."""
    for notified in (None, ""):
        with running(SERVE, notified) as process:
            check(process.stdout.readline() == LINE, "another line is printed")
            children = Path(f"/proc/{process.pid}/task/{process.pid}/children")
            check(not children.exists() or children.read_text() == "", "there is a child")
            is_served(process)


def nobody_is_there() -> None:
    """Without a socket at that name, or with a name that is none, the server serves, and a line says so."""
    for notified in ("missing", "x" * 200):
        with running(SERVE, notified) as process:
            check(process.stdout.readline() == LINE, "another line is printed")
            line = process.stderr.readline()
            check(line.startswith("ipcd-notify: NOTIFY_SOCKET: "), f"{line!r} is said")
            is_served(process)


def output_that_cannot_be_written() -> None:
    """The server serves, and systemd is told: where the output leads to a full file, or nobody reads it."""
    unread, end = os.pipe()
    os.close(unread)
    with open("/dev/full", "w") as full, open(end, "w") as broken:
        for output in (full, broken):
            with Systemd() as systemd, running(SERVE, stdout=output) as process:
                check(systemd.is_told()[0] == "READY=1", "systemd is not told")
                with Client() as client:
                    client.hello(1000, 100)
                process.terminate()
                check(process.wait(TIMEOUT) == -signal.SIGTERM, "it ends otherwise")
            os.remove("socket")


def no_standard_output() -> None:
    """As without the wrapper: the server says so."""
    with Systemd() as systemd:
        process = started(SERVE, stdout=None, preexec_fn=lambda: os.close(1))
        errors = process.communicate(timeout=TIMEOUT)[1]
        check((process.returncode, errors) == (1, "ipcd: output fault\n"), f"{process.returncode}, {errors!r}")
        systemd.hears_nothing()
    os.remove("socket")


def words_of_its_own() -> None:
    with Systemd() as systemd:
        Path("text").write_text("no program\n")
        ends(started([]), 2, said="ipcd-notify: usage: ipcd-notify PROGRAM WORD...\n")
        ends(started(["./none", "x"]), 127, said="ipcd-notify: ./none: No such file or directory\n")
        ends(started(["./text"]), 126, said="ipcd-notify: ./text: Permission denied\n")
        systemd.hears_nothing()


def nothing_is_inherited() -> None:
    """The server has the signals and the files that it has if a shell starts it."""
    for words in (["grep", "^Sig[BIC]", "/proc/self/status"], ["ls", "/proc/self/fd"]):
        alone = subprocess.run(words, capture_output=True, text=True, timeout=TIMEOUT).stdout
        with Systemd() as systemd:
            ends(started(words), 0, alone)
            systemd.hears_nothing(0)


def watchers_end() -> None:
    """The one who watches ends with the server, also if that is killed."""
    with Systemd() as systemd, running(SERVE) as process:
        systemd.is_told()
        watcher = children_of(process.pid)
        check(len(watcher) == 1, f"{watcher} are its children")
        process.kill()
        process.wait(TIMEOUT)
        until(lambda: has_ended(watcher[0]), "the watcher goes on")
    os.remove("socket")


def children_of(pid: int) -> list[int]:
    found = []
    for name in filter(str.isdigit, os.listdir("/proc")):
        try:
            parent = Path(f"/proc/{name}/stat").read_text().rpartition(")")[2].split()[1]
        except (FileNotFoundError, ProcessLookupError):
            continue
        if int(parent) == pid:
            found.append(int(name))
    return found


def has_ended(pid: int) -> bool:
    """It is gone, or waits only for the one who takes its status."""
    try:
        return Path(f"/proc/{pid}/stat").read_text().rpartition(")")[2].split()[0] == "Z"
    except (FileNotFoundError, ProcessLookupError):
        return True


TESTS: list[Callable[[], None]] = [
    at_a_path,
    at_an_abstract_socket,
    not_before_the_line,
    ends_before_the_line,
    nobody_waits,
    nobody_is_there,
    output_that_cannot_be_written,
    no_standard_output,
    words_of_its_own,
    nothing_is_inherited,
    watchers_end,
]


def main() -> None:
    with in_a_folder(120):
        printed("format", "device", "--small")
        run_tests("notify", TESTS)


if __name__ == "__main__":
    main()
