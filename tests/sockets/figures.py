"""The figures of a server that `ipcd serve --metrics FILE` writes where an operator looks: at the start, when clients have
taken all descriptors, of each queue, and of the numbers that are left.

    python3 tests/sockets/figures.py PROGRAM

It takes some seconds. What the figures are is in docs/OPERATIONS.md; metrics.py tests the others.
"""

from __future__ import annotations

import errno
import os
import resource
import signal
import socket
import sys
import time
from pathlib import Path

sys.dont_write_bytecode = True
sys.path.insert(0, str(Path(__file__).resolve().parents[1] / "lib"))

from metrics import figures, is_there, until_told  # noqa: E402
from server import check, in_a_folder, is_refused, printed, process, run_tests, serving, until  # noqa: E402

from client import IPC_CREAT, IPC_NOWAIT, IPC_PRIVATE

# The greatest number of a process, and of an identifier.
GREATEST = 2147483647
# So many descriptors, and more silent clients than that.
DESCRIPTORS, SILENT = 40, 60


def the_clock_is_right_at_the_start() -> None:
    """Before anybody has connected: on a device that was just made, and on one that was at rest."""
    printed("format", "device")
    for _ in range(2):
        with serving("--metrics", "figures.prom"):
            until(is_there, "nothing is written")
            late = time.time() - figures()["ipcd_clock_seconds", ""]
            # The alert of docs/OPERATIONS.md begins at 180 seconds. The writing takes a moment.
            check(-1 <= late < 30, f"the clock is {late:.0f} seconds late")
        os.remove("figures.prom")
        time.sleep(1)


def few_descriptors() -> None:
    resource.setrlimit(resource.RLIMIT_NOFILE, (DESCRIPTORS, DESCRIPTORS))


def go_on_at_the_limit_of_descriptors() -> None:
    """Silent clients take all descriptors that there are. The file is written all the same."""
    printed("format", "device")
    with serving("--metrics", "figures.prom", prepare=few_descriptors) as server:
        until(is_there, "nothing is written")
        clients = []
        for _ in range(SILENT):
            client = socket.socket(socket.AF_UNIX, socket.SOCK_STREAM)
            client.setblocking(False)
            if client.connect_ex("socket") == 0:
                clients.append(client)
        until(lambda: server.descriptors() >= DESCRIPTORS - 1, "there are descriptors left")
        # The last ones that were taken are told, and so is what one of them does then.
        until(lambda: figures()["ipcd_connections", ""] >= DESCRIPTORS - 12, "the connections are not told")
        before = figures()["ipcd_turns_total", ""]
        until(lambda: figures()["ipcd_turns_total", ""] > before, "the figures stand still")
        check(figures()["ipcd_metrics_failures_total", ""] == 0, "a file could not be written")
        check(server.descriptors() >= DESCRIPTORS - 1, "there are descriptors left")
        for client in clients:
            client.close()


def each_queue_is_told() -> None:
    """What it holds, and when a message came and went last."""
    printed("format", "device")
    with serving("--metrics", "figures.prom"), process() as client:
        begin = time.time()
        full, read, empty = (client.msgget(IPC_PRIVATE, IPC_CREAT | 0o600) for _ in range(3))
        for text in (b"one", b"three"):
            client.msgsnd(full, 1, text)
        client.msgsnd(read, 1, b"x")
        client.msgrcv(read, 64)
        is_refused(lambda: client.msgrcv(read, 64, 0, IPC_NOWAIT), errno.ENOMSG)
        counts = {
            ("ipcd_queue_messages", str(full)): 2,
            ("ipcd_queue_messages", str(read)): 0,
            ("ipcd_queue_messages", str(empty)): 0,
            ("ipcd_queue_bytes", str(full)): 8,
            ("ipcd_queue_bytes", str(read)): 0,
            ("ipcd_queue_last_receive_seconds", str(full)): 0,
            ("ipcd_queue_last_send_seconds", str(empty)): 0,
            ("ipcd_queue_last_receive_seconds", str(empty)): 0,
            ("ipcd_refusals_total", "ENOMSG"): 1,
        }
        found = until_told(counts)
        times = [found["ipcd_queue_last_send_seconds", str(queue)] for queue in (full, read)]
        times.append(found["ipcd_queue_last_receive_seconds", str(read)])
        check(all(begin - 1 <= at <= time.time() + 1 for at in times), f"{times} are when messages came and went")
        client.msgctl_rmid(full)
        until(lambda: ("ipcd_queue_messages", str(full)) not in figures(), "a queue that is gone is told")


def the_numbers_that_are_left() -> None:
    """Of processes, and of the identifiers of each kind: each that is given is one less, also after it is gone."""
    printed("format", "device")
    with serving("--metrics", "figures.prom"), process() as client:
        with process():
            pass
        for _ in range(3):
            client.msgctl_rmid(client.msgget(IPC_PRIVATE, IPC_CREAT | 0o600))
        client.semget(IPC_PRIVATE, 1, IPC_CREAT | 0o600)
        until_told(
            {
                ("ipcd_numbers_left", "process"): GREATEST - 2,
                ("ipcd_numbers_left", "msg"): GREATEST - 3,
                ("ipcd_numbers_left", "sem"): GREATEST - 1,
                ("ipcd_numbers_left", "seg"): GREATEST,
            }
        )


TESTS = [
    the_clock_is_right_at_the_start,
    go_on_at_the_limit_of_descriptors,
    each_queue_is_told,
    the_numbers_that_are_left,
]

if __name__ == "__main__":
    signal.signal(signal.SIGINT, signal.default_int_handler)
    with in_a_folder(120):
        run_tests("figures", TESTS)
