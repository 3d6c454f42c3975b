"""The built program as a server of a device of version 3: what HELLO answers, which pids there are after a restart,
what is kept, the figures of the journal, saves of a short one, and how many syncs an operation costs.

    python3 tests/sockets/version_three.py PROGRAM

The syncs are counted by tests/lib/watch_calls.c; without a C compiler it says so, and counts none. What is expected was
reckoned from docs/PROTOCOL.md, docs/DEVICE.md and docs/OPERATIONS.md. It takes some seconds.
"""

from __future__ import annotations

import errno
import re
import signal
import sys
from pathlib import Path

sys.dont_write_bytecode = True
sys.path.insert(0, str(Path(__file__).resolve().parents[1] / "lib"))

from device_layout import THREE, read  # noqa: E402
from server import SECTORS_OF_THREE, Client, Server, as_user, check, frame, in_a_folder, printed, process  # noqa: E402
from server import is_refused, run_tests, serving, until  # noqa: E402
from watch import build, calls, watched  # noqa: E402

from client import IPC_CREAT, IPC_NOWAIT, hello_request

SMALL = SECTORS_OF_THREE["small"]
OPERATIONS = 100
HELLO = frame(1, hello_request(1000, 100))


def fresh(*words: str) -> None:
    printed("format", "device", "--small", *words)


def welcome(pid: int) -> bytes:
    """The reply to HELLO: the pid, and the version."""
    return bytes.fromhex("0000000e 00000001 0000") + pid.to_bytes(4, "big") + (3).to_bytes(4, "big")


def what_hello_answers() -> None:
    """On version 3 the pid and the version, on version 2 the pid alone; a refused HELLO has no body."""
    fresh("--journal", "257")
    with serving(limits="small", sectors=SMALL):
        clients = [Client() for _ in range(4)]
        for pid, client in enumerate(clients, 1):
            client.send_bytes(HELLO)
            client.is_answered(welcome(pid))
        with Client() as fifth:
            fifth.send_bytes(HELLO)
            fifth.is_answered(bytes.fromhex("00000006 00000001 0017"))
        # A second HELLO is a fault of the stream, as on version 2.
        clients[0].send_bytes(HELLO)
        clients[0].is_answered(bytes.fromhex("00000006 00000001 0047"))
        for client in clients:
            client.close()
    fresh()
    with serving(limits="small"), Client() as client:
        client.send_bytes(HELLO)
        client.is_answered(bytes.fromhex("0000000a 00000001 0000 00000001"))


def pids_begin_again() -> None:
    """After a kill the next pid is 1. Objects are as they were, and a process that is gone is another one."""
    fresh("--journal", "8")
    for life in range(4):
        server = Server(limits="small", sectors=73)
        for pid in (1, 2, 3):
            with Client() as client:
                until_process(client, pid)
                queue = client.msgget(7, IPC_CREAT | 0o600)
                check(queue == 1, f"queue {queue} is answered in life {life}")
                if pid == 2:
                    client.msgsnd(queue, 5, b"life %d" % life, 0)
        server.stop(signal.SIGKILL)
    with serving(limits="small", sectors=73), process() as client:
        texts = [client.msgrcv(1, 64, 0, IPC_NOWAIT)[1] for _ in range(4)]
        check(texts == [b"life 0", b"life 1", b"life 2", b"life 3"], f"{texts} are kept")
        is_refused(lambda: client.msgrcv(1, 64, 0, IPC_NOWAIT), errno.ENOMSG)


def until_process(client: Client, pid: int) -> None:
    found = client.hello(1000, 100)
    check(found == pid, f"process {found} is answered, and not {pid}")


def figure(name: str) -> float:
    found = re.search(rf"^{name} ([0-9.]+)$", Path("figures").read_text(), re.MULTILINE)
    check(found is not None, f"there is no figure {name}")
    return float(found[1])


def figures_of_the_journal() -> None:
    """The journal has the sectors that the format was given, and those that batches take are used."""
    for journal, sectors in ((257, 322), (8, 73)):
        fresh("--journal", str(journal))
        with serving("--metrics", "figures", limits="small", sectors=sectors), process() as client:
            queue = client.msgget(7, IPC_CREAT | 0o600)
            until(lambda: figure("ipcd_processes") == 1, "the figures do not come")
            check(figure("ipcd_journal_sectors") == journal, "the journal has another length")
            until(lambda: figure('ipcd_objects{kind="msg"}'.replace("{", r"\{")) == 1, "the queue is not counted")
            # The restart, the HELLO and the msgget at least, each of one sector.
            batches = read(Path("device").read_bytes(), THREE).batches
            wanted = sum(THREE.sectors_of(4 + sum(4 + len(record) for record in them)) for them in batches)
            found = figure("ipcd_journal_used_sectors")
            check(found == wanted >= 3, f"{found} sectors are used, and not {wanted}")
            check(queue == 1, f"queue {queue} is answered")
        Path("figures").unlink()


def syncs_of(sectors: int, *words: str) -> int:
    """How many syncs a server makes for so many operations of one client that waits for each answer."""
    fresh(*words)
    with watched():
        server = Server(limits="small", sectors=sectors)
    try:
        with process() as client:
            queue = client.msgget(7, IPC_CREAT | 0o600)
            before = sum(call.name == "fdatasync" for call in calls())
            for at in range(OPERATIONS // 2):
                client.msgsnd(queue, 5, b"%d" % at, 0)
                client.msgrcv(queue, 64, 0, IPC_NOWAIT)
            count = sum(call.name == "fdatasync" for call in calls()) - before
        server.stop()
    finally:
        server.process.kill()
    return count


def one_sync_an_operation() -> None:
    """One on version 3, and two on version 2."""
    if not build("version_three"):
        return
    found = syncs_of(SMALL, "--journal", "257")
    check(OPERATIONS <= found <= 1.02 * OPERATIONS, f"{OPERATIONS} operations make {found} syncs on version 3")
    found = syncs_of(0)
    check(2 * OPERATIONS <= found <= 2.04 * OPERATIONS, f"{OPERATIONS} operations make {found} syncs on version 2")


def a_short_journal() -> None:
    """With a journal of 8 sectors each eighth commit or so saves the state, and nothing is lost."""
    fresh("--journal", "8")
    server = Server(limits="small", sectors=73)
    with as_user(0, 0) as client:
        sems = client.semget(9, 4, IPC_CREAT | 0o600)
        for value in range(1, 60):
            client.semctl_setval(sems, value % 4, value)
        server.stop(signal.SIGKILL)
    with open("device", "rb") as file:
        epoch = int.from_bytes(file.read()[512:520], "big")
    check(epoch > 5, f"the device is at epoch {epoch}")
    with serving(limits="small", sectors=73), as_user(0, 0) as client:
        found = list(client.semctl_getall(sems))
        check(found == [56, 57, 58, 59], f"the values are {found}")


TESTS = [what_hello_answers, pids_begin_again, figures_of_the_journal, a_short_journal, one_sync_an_operation]


def main() -> None:
    with in_a_folder(300):
        run_tests("version_three", TESTS)


if __name__ == "__main__":
    main()
