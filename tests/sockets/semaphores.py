"""Semaphore sets, on the built program as a server: each call by examples/client.py, and what is kept of a set.

    python3 tests/sockets/semaphores.py PROGRAM [SEED]

What is expected was reckoned from docs/PROTOCOL.md, and never taken from the program. The seed, which is printed if the
server is killed at a wrong moment, says when it is killed. It takes some seconds.
"""

from __future__ import annotations

import errno
import os
import random
import signal
import subprocess
import sys
import threading
import time
from collections.abc import Callable
from pathlib import Path

sys.dont_write_bytecode = True
sys.path.insert(0, str(Path(__file__).resolve().parents[1] / "lib"))

from server import (  # noqa: E402
    SEED,
    Client,
    Server,
    Worker,
    as_user,
    check,
    frame,
    in_a_folder,
    is_refused,
    printed,
    process,
    reply,
    run_tests,
    serving,
    until,
    until_it_waits,
)
from client import (  # noqa: E402
    IPC_CREAT,
    IPC_EXCL,
    IPC_NOWAIT,
    IPC_PRIVATE,
    SEM_UNDO,
    SemStat,
    semctl_setall_request,
    semop_request,
)

MODE = 0o600

EXAMPLES = Path(__file__).resolve().parents[2] / "examples"
# What each client of examples/lock.sh does first, on a connection that it has as `server`.
MAKES_THE_LOCK = (EXAMPLES / "lock.sh").read_text().partition("from client import *\n")[2].partition('$1"\n')[0]
TAKES_IT = """\
    server.semop(lock, [(0, -1, SEM_UNDO | IPC_NOWAIT)])
    assert server.semctl_getall(lock) == [0, 1]
"""
# Such a client kills itself before its request of this number, or after it was sent.
IS_KILLED = """
import os, signal, sys
import client
from client import *

sent, number = client.Connection.send, 0

def send(self, request):
    global number
    number += 1
    if sys.argv[1:] == [str(number), "before"]:
        os.kill(os.getpid(), signal.SIGKILL)
    serial = sent(self, request)
    if sys.argv[1:] == [str(number), "after"]:
        os.kill(os.getpid(), signal.SIGKILL)
    return serial

client.Connection.send = send
"""


def has(client: Client, semid: int, values: list[int], pids: list[int]) -> None:
    """The set has these values, one by one and all together, and these processes have set them."""
    found = client.semctl_getall(semid)
    check(found == values, f"set {semid} has {found}, and not {values}")
    found = [client.semctl_getval(semid, number) for number in range(len(values))]
    check(found == values, f"the semaphores of set {semid} have {found}, and not {values}")
    found = [client.semctl_getpid(semid, number) for number in range(len(pids))]
    check(found == pids, f"{found} have set them, and not {pids}")


# ---- each call


def each_call() -> None:
    """The times are those of the system's clock, of the turn in which a call came."""
    printed("format", "device", "--small")
    with serving(limits="small"), process() as client, process() as other:
        begun = int(time.time() * 1000)
        semid = client.semget(-7, 3, IPC_CREAT | 0o640)
        has(client, semid, [0, 0, 0], [0, 0, 0])
        made = client.semctl_stat(semid)
        check(made == SemStat(-7, 1000, 100, 1000, 100, 0o640, 0, made.ctime, 3), f"{made} is a new set")
        check(begun - 1000 <= made.ctime <= time.time() * 1000, f"it was made at {made.ctime}")
        time.sleep(0.2)
        client.semctl_setall(semid, [32767, 0, 5])
        other.semctl_setval(semid, 1, 9)
        has(client, semid, [32767, 9, 5], [1, 2, 1])
        time.sleep(0.2)
        client.semctl_set(semid, 2000, 200, 0o1606)
        stat = client.semctl_stat(semid)
        check(stat == SemStat(-7, 2000, 200, 1000, 100, 0o606, 0, stat.ctime, 3), f"{stat} is told after IPC_SET")
        check(made.ctime + 300 <= stat.ctime <= time.time() * 1000, f"it was changed at {stat.ctime}")
        for asked, flags in ((0, 0), (3, 0o600), (1, IPC_CREAT), (3, IPC_EXCL)):
            check(other.semget(-7, asked, flags) == semid, "the key names another set")
        client.semctl_rmid(semid)
        is_refused(lambda: client.semctl_stat(semid), errno.EINVAL)
        check(client.semget(-7, 1, IPC_CREAT | MODE) == semid + 1, "an identifier comes again")


def refusals() -> None:
    """Of all that may be wrong the first that is tested is answered, and nothing changes."""
    printed("format", "device", "--small")
    with serving(limits="small"), process() as client, as_user(2000, 200) as other:
        semid = client.semget(7, 2, IPC_CREAT | MODE)
        client.semctl_setall(semid, [1, 2])
        before = client.semctl_stat(semid)
        rows: list[tuple[int, Callable[[], object]]] = [
            (errno.EINVAL, lambda: client.semget(7, -1, IPC_CREAT | IPC_EXCL)),
            (errno.EINVAL, lambda: client.semget(8, 5, 0)),
            (errno.EEXIST, lambda: other.semget(7, 3, IPC_CREAT | IPC_EXCL)),
            (errno.EINVAL, lambda: other.semget(7, 3, 0o600)),
            (errno.EACCES, lambda: other.semget(7, 2, 0o600)),
            (errno.ENOENT, lambda: client.semget(8, 0, 0)),
            (errno.EINVAL, lambda: client.semget(IPC_PRIVATE, 0, MODE)),
            (errno.EINVAL, lambda: other.semctl_getval(semid, 2)),
            (errno.EACCES, lambda: other.semctl_getval(semid, 1)),
            (errno.EACCES, lambda: other.semctl_getpid(semid, 1)),
            (errno.EINVAL, lambda: other.semctl_setval(semid, 2, -1)),
            (errno.EACCES, lambda: other.semctl_setval(semid, 1, -1)),
            (errno.ERANGE, lambda: client.semctl_setval(semid, 1, 32768)),
            (errno.EINVAL, lambda: other.semctl_setall(semid, [32768])),
            (errno.EACCES, lambda: other.semctl_setall(semid, [32768, 0])),
            (errno.ERANGE, lambda: client.semctl_setall(semid, [0, 32768])),
            (errno.EACCES, lambda: other.semctl_getall(semid)),
            (errno.EACCES, lambda: other.semctl_stat(semid)),
            (errno.EPERM, lambda: other.semctl_set(semid, 2000, 200, 0o666)),
            (errno.EPERM, lambda: other.semctl_rmid(semid)),
            (errno.EINVAL, lambda: client.semctl_getall(semid + 1)),
            (errno.EINVAL, lambda: client.semctl_rmid(0)),
        ]
        for wanted, call in rows:
            is_refused(call, wanted)
        has(client, semid, [1, 2], [1, 1])
        check(client.semctl_stat(semid) == before, "a call that is refused has changed the set")
        with as_user(0, 0) as root:
            root.semctl_setval(semid, 0, 9)
            check(root.semget(7, 2, 0o777) == semid, "root is refused")
        client.semget(IPC_PRIVATE, 4, MODE)
        is_refused(lambda: client.semget(IPC_PRIVATE, 1, MODE), errno.ENOSPC)


def lists() -> None:
    """A list of operations is performed whole or not at all."""
    printed("format", "device", "--small")
    with serving(limits="small"), process() as client, process() as other, as_user(2000, 200) as third:
        semid = client.semget(7, 3, IPC_CREAT | MODE)
        begun = int(time.time() * 1000)
        client.semop(semid, [(0, 5), (1, 0), (0, -2)])
        has(client, semid, [3, 0, 0], [1, 1, 0])
        stat = client.semctl_stat(semid)
        check(begun - 1000 <= stat.otime <= time.time() * 1000, f"the last list was performed at {stat.otime}")
        rows: list[tuple[int, Client, list[tuple[int, ...]]]] = [
            (errno.EINVAL, client, []),
            (errno.E2BIG, client, 5 * [(0, 1)]),
            (errno.EFBIG, third, [(0, 1), (3, 0)]),
            (errno.EACCES, third, [(0, 0)]),
            (errno.EAGAIN, client, [(2, 7), (1, -1, IPC_NOWAIT)]),
            (errno.EAGAIN, client, [(0, 0, IPC_NOWAIT), (0, 32767)]),
            (errno.ERANGE, client, [(2, 7), (0, 32765)]),
            (errno.EAGAIN, client, [(0, -32768, IPC_NOWAIT)]),
        ]
        for wanted, caller, operations in rows:
            is_refused(lambda: caller.semop(semid, operations), wanted)
        is_refused(lambda: other.semop(semid + 1, [(0, 1)]), errno.EINVAL)
        has(client, semid, [3, 0, 0], [1, 1, 0])
        check(client.semctl_stat(semid) == stat, "a list that is refused has changed the set")


def lists_that_wait() -> None:
    """Three lists wait, and one operation lets two of them go on, the later one first."""
    printed("format", "device", "--small")
    with serving(limits="small"), process() as client, process() as two, process() as three, process() as four:
        semid = client.semget(7, 2, IPC_CREAT | MODE)
        for waiting, operations in (two, [(0, -3)]), (three, [(1, -1)]), (four, [(0, -1), (1, 1)]):
            until_it_waits(waiting, semop_request(semid, operations))
        counts = [(client.semctl_getncnt(semid, number), client.semctl_getzcnt(semid, number)) for number in (0, 1)]
        check(counts == [(2, 0), (1, 0)], f"{counts} wait")
        client.semop(semid, [(0, 1)])
        for answered in three, four:
            check(answered.receive()[1] == 0, "a list does not go on")
        has(client, semid, [0, 0], [4, 3])
        check(client.semctl_getncnt(semid, 0) == 1, "the list that still waits is not counted")
        client.semctl_rmid(semid)
        check(two.receive()[1] == errno.EIDRM, "a list waits for a set that is removed")


def a_time_is_over() -> None:
    """EAGAIN after the timeout of semtimedop(2), and not before."""
    printed("format", "device", "--small")
    with serving(limits="small"), process() as client, process() as other:
        semid = client.semget(7, 1, IPC_CREAT | MODE)
        is_refused(lambda: client.semop(semid, [(0, -1)], timeout=0), errno.EAGAIN)
        begun = time.monotonic()
        is_refused(lambda: client.semop(semid, [(0, -1)], timeout=0.3), errno.EAGAIN)
        passed = time.monotonic() - begun
        check(0.29 <= passed < 5, f"it was over after {passed} seconds")
        sent = until_it_waits(client, semop_request(semid, [(0, -1)], timeout=10))
        other.semop(semid, [(0, 1)])
        check(client.receive()[:2] == (sent, 0), "a list does not go on before its time")


def taken_back() -> None:
    """What a process has taken with SEM_UNDO is given back when its connection ends, in whatever way."""
    printed("format", "device", "--small")
    with serving(limits="small"), process() as client:
        semid = client.semget(7, 2, IPC_CREAT | MODE)
        client.semctl_setall(semid, [1, 5])
        with process() as holder:
            holder.semop(semid, [(0, -1, SEM_UNDO), (1, 3, SEM_UNDO), (1, -2)])
            has(client, semid, [0, 6], [2, 2])
        until(lambda: client.semctl_getall(semid) == [1, 3], "nothing is taken back")
        with process() as holder:
            holder.semop(semid, [(0, -1, SEM_UNDO)])
            holder.send_bytes(frame(0, b""))
            holder.is_answered(reply(0, errno.EPROTO))
            until(lambda: client.semctl_getall(semid) == [1, 3], "a fault of the stream takes nothing back")
        with process() as holder:
            holder.semop(semid, [(0, -1, SEM_UNDO), (1, 1, SEM_UNDO)])
            client.semctl_setval(semid, 0, 7)
        until(lambda: client.semctl_getall(semid) == [7, 3], "a value that is set is changed, or another is not")
        has(client, semid, [7, 3], [1, 4])


def half_a_value() -> None:
    """EPROTO is the last frame, and no value is set."""
    with serving(limits="small"), process() as client:
        semid = client.semget(7, 0, 0)
        wanted = client.semctl_getall(semid)
        with process() as other:
            other.send_bytes(frame(9, semctl_setall_request(semid, [5, 6]) + b"\0"))
            other.is_answered(reply(9, errno.EPROTO))
            other.is_ended()
        check(client.semctl_getall(semid) == wanted, "half a value has an effect")


# ---- many clients


class Setter(Worker):
    """Has a semaphore of a set of its own, whose value it counts up."""

    def work(self) -> None:
        with Client() as client:
            pid = client.hello(1000, 100)
            for value in range(1, 51):
                client.semctl_setval(self.queue, self.number, value)
                check(client.semctl_getval(self.queue, self.number) == value, "another value is there")
                check(client.semctl_getpid(self.queue, self.number) == pid, "another process has set it")


def many_at_once() -> None:
    """Each of forty clients sees its own value, whatever the others set."""
    printed("format", "device")
    with serving(), process() as client:
        semid = client.semget(1, 40, IPC_CREAT | MODE)
        workers = [Setter(number, semid) for number in range(40)]
        for worker in workers:
            worker.start()
        for worker in workers:
            worker.finish()
        check(client.semctl_getall(semid) == 40 * [50], "a value is lost")
        pids = {client.semctl_getpid(semid, number) for number in range(40)}
        check(len(pids) == 40 and 0 not in pids, f"{pids} have set the values")


class Holder(Worker):
    """Takes a lock some times. Each second time it ends its connection in place of giving the lock back."""

    holders = 0
    turns = 0

    def work(self) -> None:
        for turn in range(10):
            with Client() as client:
                client.hello(1000, 100)
                client.semop(self.queue, [(0, -1, SEM_UNDO)])
                Holder.holders += 1
                check(Holder.holders == 1, "two hold the lock")
                time.sleep(0.001)
                Holder.turns += 1
                Holder.holders -= 1
                if turn % 2:
                    client.semop(self.queue, [(0, 1, SEM_UNDO)])


def one_at_a_time() -> None:
    """Twenty clients share a lock. Nobody holds it together with another, and none of them waits for ever."""
    printed("format", "device")
    with serving(), process() as client:
        semid = client.semget(1, 1, IPC_CREAT | MODE)
        client.semctl_setval(semid, 0, 1)
        workers = [Holder(number, semid) for number in range(20)]
        for worker in workers:
            worker.start()
        for worker in workers:
            worker.finish()
        check(Holder.turns == 200, f"{Holder.turns} have held the lock")
        until(lambda: client.semctl_getall(semid) == [1], "the lock is not free")


# ---- a server that goes away

LISTED = """\
sem          1           1 0600       1000        100         64
sem          3           0 0640       1000        100          2
"""


def kept() -> None:
    """Values, owners and times are there after a kill, and identifiers go on."""
    printed("format", "device")
    server = Server()
    try:
        with process() as client:
            first, gone = client.semget(1, 64, IPC_CREAT | MODE), client.semget(2, 1, IPC_CREAT | MODE)
            private = client.semget(IPC_PRIVATE, 2, 0o640)
            client.semctl_rmid(gone)
            client.semctl_setall(first, [*range(64)])
            client.semctl_setval(private, 1, 32767)
            before = [client.semctl_stat(semid) for semid in (first, private)]
            server.stop(signal.SIGKILL)
    finally:
        server.process.kill()
    check(printed("dump", "device") == LISTED, "other sets are kept")
    with serving(), process() as client:
        check(client.semget(1, 64, 0) == first, "the key names another set")
        has(client, first, [*range(64)], 64 * [1])
        has(client, private, [0, 32767], [0, 1])
        check([client.semctl_stat(semid) for semid in (first, private)] == before, "another record is kept")
        is_refused(lambda: client.semctl_getall(gone), errno.EINVAL)
        check(client.semget(2, 1, IPC_CREAT | MODE) == private + 1, "an identifier comes again")


def ask_until_killed(server: Server, seconds: float, client: Client, request: Callable[[int], bytes], last: int) -> int:
    """Kills the server after so long, while a client sends the requests of the numbers after the last, 20 ahead of
    the answers. Gives the number of the one that was answered last."""
    killer = threading.Timer(seconds, server.process.kill)
    killer.start()
    sent = last
    try:
        while True:
            while sent < last + 20:
                sent += 1
                client.send(request(sent))
            check(client.receive()[1] == 0, f"request {last + 1} is refused")
            last += 1
    except (ConnectionResetError, BrokenPipeError):
        pass
    client.close()
    killer.join()
    server.process.wait()
    os.remove("socket")
    return last


def whole_or_not_at_all() -> None:
    """The server is killed while a client sets all 64 values to 1, then to 2, and so on, 20 requests ahead. What was
    answered last is there, or a later one, and never a part of one."""
    rng = random.Random(SEED)
    printed("format", "device")
    last = 0
    for turn in range(10):
        server = Server()
        client = process()
        semid = client.semget(1, 64, IPC_CREAT | MODE)
        found = client.semctl_getall(semid)
        check(len(set(found)) == 1, f"seed {SEED}, turn {turn}: parts of two calls are there: {found}")
        # Values begin anew after 32767.
        ahead = (found[0] - last) % 32768
        check(ahead <= 20, f"seed {SEED}, turn {turn}: {found[0]} is kept, and {last} was answered")
        last = ask_until_killed(
            server,
            rng.uniform(0.05, 0.3),
            client,
            lambda number: semctl_setall_request(semid, 64 * [number % 32768]),
            last + ahead,
        )


def taken_back_after_a_kill() -> None:
    """The server is killed while two hold semaphores and one waits. It gives back what they had, and nobody waits."""
    printed("format", "device")
    server = Server()
    try:
        with process() as client, process() as second, process() as third:
            semid = client.semget(1, 3, IPC_CREAT | MODE)
            client.semctl_setall(semid, [2, 0, 9])
            client.semop(semid, [(0, -1, SEM_UNDO), (1, 4, SEM_UNDO), (2, -9)])
            second.semop(semid, [(0, -1, SEM_UNDO), (1, -3, SEM_UNDO)])
            has(client, semid, [0, 1, 0], [2, 2, 1])
            until_it_waits(third, semop_request(semid, [(2, 5, SEM_UNDO), (0, -1, SEM_UNDO)]))
            server.stop(signal.SIGKILL)
    finally:
        server.process.kill()
    with serving(), process() as client:
        # Of the first 1 is added to 0, and 4 are taken off 1, which has only 1. Of the second 1 and 3 are added.
        has(client, semid, [2, 3, 0], [2, 2, 1])
        client.semop(semid, [(0, -2)])
        has(client, semid, [0, 3, 0], [4, 2, 1])


def moved_whole() -> None:
    """The server is killed while a client moves units from one semaphore to the other, 20 requests ahead. None is lost,
    and as many are moved as were answered, or some more."""
    rng = random.Random(SEED)
    printed("format", "device")
    with serving(), process() as client:
        semid = client.semget(1, 2, IPC_CREAT | MODE)
    for turn in range(10):
        server = Server()
        client = process()
        client.semctl_setall(semid, [32767, 0])
        moves = semop_request(semid, [(0, -1), (1, 1)])
        moved = ask_until_killed(server, rng.uniform(0.05, 0.2), client, lambda number: moves, 0)
        with serving(), process() as client:
            found = client.semctl_getall(semid)
        check(sum(found) == 32767, f"seed {SEED}, turn {turn}: {found} are not all units")
        check(0 <= found[1] - moved <= 20, f"seed {SEED}, turn {turn}: {found[1]} are moved, and {moved} were answered")


# ---- a lock that nobody leaves shut


def lines_end(lines: str, status: int, *words: str) -> None:
    """A client of these lines ends so, killed at that moment if there is one."""
    environment = {**os.environ, "PYTHONPATH": str(EXAMPLES), "PYTHONDONTWRITEBYTECODE": "1"}
    ended = subprocess.run(
        [sys.executable, "-c", IS_KILLED + lines, *words], env=environment, capture_output=True, text=True, timeout=20
    )
    check(ended.returncode == status, f"{words}: a client that ends with {status}: {ended}")


def never_left_shut() -> None:
    """Who makes the lock of examples/lock.sh is killed before and after each of its requests, and then the server is
    stopped or killed. The next client takes the lock, which had the value 1, and with its end it is free again."""
    moments = [(str(number), when) for number in (1, 2, 3) for when in ("before", "after")] + [("4", "before")]
    for words in moments:
        for number in (signal.SIGTERM, signal.SIGKILL):
            printed("format", "device", "--small")
            server = Server(limits="small")
            try:
                lines_end(MAKES_THE_LOCK + TAKES_IT, -signal.SIGKILL, *words)
                server.stop(number)
            finally:
                server.process.kill()
            with serving(limits="small"):
                lines_end(MAKES_THE_LOCK + TAKES_IT, 0)
                lines_end(MAKES_THE_LOCK + TAKES_IT, 0)


TESTS = [
    each_call,
    refusals,
    lists,
    lists_that_wait,
    a_time_is_over,
    taken_back,
    half_a_value,
    many_at_once,
    one_at_a_time,
    kept,
    taken_back_after_a_kill,
    whole_or_not_at_all,
    moved_whole,
    never_left_shut,
]


def main() -> None:
    with in_a_folder(120):
        run_tests("semaphores", TESTS)


if __name__ == "__main__":
    main()
