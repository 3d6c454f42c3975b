"""No job of ipcd.work is lost with a worker that is killed, nor with the server, on the built program as a server.

    python3 clients/python/tests/work_trial.py PROGRAM [SEED [short]]

Workers do jobs, each by a line in a file of its own; meanwhile workers and the server are killed at random, and
started again. In the end each job whose put returned was done: 1500 jobs, over 15 kills of the server and 30 of
workers. `short` is a fifth of that. Before it, a lock whose maker ends between its making and its first value.
"""

from __future__ import annotations

import os
import random
import signal
import subprocess
import sys
import threading
import time
from collections.abc import Callable
from pathlib import Path

import setting
from ipcd import IPC_CREAT, IPC_NOWAIT, Connection, work
from server import SEED, Server, check, in_a_folder, is_refused, printed, run_tests, serving, until

SHARE = 5 if sys.argv[3:4] == ["short"] else 1
JOBS, SERVER_KILLS, WORKER_KILLS = 1500 // SHARE, 15 // SHARE, 30 // SHARE
WORKERS = 4

WORKER = """
import os, sys, time
sys.dont_write_bytecode = True
sys.path.insert(0, sys.argv[1])
from ipcd import Connection, work

done = os.open(sys.argv[2], os.O_WRONLY | os.O_CREAT | os.O_APPEND)
while True:
    try:
        with Connection("socket") as connection:
            connection.hello(1000, 100)
            jobs = work.Jobs(connection, "/jobs", 7, places=16, size=20)
            while True:
                with jobs.claim() as job:
                    os.write(done, job.text + b"\\n")
    except (ConnectionError, FileNotFoundError):
        time.sleep(0.02)
"""


def connected() -> Connection:
    """A process, as soon as there is a server."""
    while True:
        try:
            connection = Connection("socket", 20)
            connection.hello(1000, 100)
            return connection
        except (ConnectionError, FileNotFoundError):
            time.sleep(0.02)


def put_all(wanted: list[bytes]) -> None:
    """Puts each job until its put returns: one whose reply was lost is put once more."""
    left = wanted[::-1]
    while left:
        try:
            with connected() as connection:
                jobs = work.Jobs(connection, "/jobs", 7, places=16, size=20)
                while left:
                    jobs.put(left[-1])
                    left.pop()
        except ConnectionError:
            # The server has ended.
            pass


class Trial:
    """The server and the workers, which are killed and started again."""

    def __init__(self) -> None:
        self.rng = random.Random(SEED)
        self.server = Server()
        self.started = 0
        self.workers = [self.worker() for _ in range(WORKERS)]

    def worker(self) -> subprocess.Popen[bytes]:
        self.started += 1
        words = [sys.executable, "-c", WORKER, str(setting.PACKAGE), f"done.{self.started}"]
        return subprocess.Popen(words)

    def kill_worker(self) -> None:
        number = self.rng.randrange(WORKERS)
        check(self.workers[number].poll() is None, "a worker has ended by itself")
        self.workers[number].kill()
        self.workers[number].wait()
        self.workers[number] = self.worker()

    def kill_server(self) -> None:
        self.server.stop(signal.SIGKILL)
        self.server = Server()

    def end(self) -> None:
        for worker in self.workers:
            worker.kill()
            worker.wait()

    def done(self) -> list[bytes]:
        return [line for path in Path().glob("done.*") for line in path.read_bytes().splitlines()]


def until_there(condition: Callable[[], bool], text: str) -> None:
    """Waits until the condition holds, longer than `until`: a disk may be slow, and many jobs are to be done."""
    end = time.monotonic() + 90
    while not condition():
        check(time.monotonic() < end, text)
        time.sleep(0.01)


def no_job_is_lost() -> None:
    printed("format", "device")
    wanted = [b"job %d" % number for number in range(JOBS)]
    trial = Trial()
    try:
        putter = threading.Thread(target=put_all, args=(wanted,), daemon=True)
        putter.start()
        kills = [trial.kill_server] * SERVER_KILLS + [trial.kill_worker] * WORKER_KILLS
        trial.rng.shuffle(kills)
        for number, kill in enumerate(kills):
            # The kills are spread over the jobs, so that each is in the midst of the work.
            share = JOBS * number // (len(kills) + 1)
            until_there(lambda share=share: len(trial.done()) >= share, f"fewer than {share} jobs")  # type: ignore
            time.sleep(trial.rng.uniform(0, 0.02))
            kill()
        until_there(lambda: not putter.is_alive(), "puts hang")
        until_there(lambda: set(trial.done()) >= set(wanted), f"jobs are lost: {set(wanted) - set(trial.done())}")
        is_empty(trial)
        again = len(trial.done()) - JOBS
        print(f"work_trial: {JOBS} jobs, {len(kills)} kills, {again} jobs done once more, seed {SEED}")
        check(set(trial.done()) == set(wanted), "a job is done that nobody has put")
    finally:
        trial.end()
        trial.server.process.kill()
        if trial.server.process.returncode is None:
            trial.server.ends(-signal.SIGKILL)


def is_empty(trial: Trial) -> None:
    """In the end all places are free, and a worker waits for each unit: nothing stays shut."""
    connection = connected()
    jobs = work.Jobs(connection, "/jobs", 7, places=16, size=20)

    def rests() -> bool:
        lock, _, ready, space, *leases = connection.semctl_getall(jobs.sems)
        return (lock, ready, leases) == (1, 0, 16 * [0]) and space >= 16

    until(rests, "what a worker has taken does not come back")
    for _ in range(16):
        jobs.put(b"job 0")
    until(rests, "jobs of a table that was full are left")
    connection.close()


def a_lock_that_was_not_given_its_first_value() -> None:
    """Who makes the set ends before its first value. The next one gives it, once."""
    printed("format", "device")
    with serving():
        with connected() as connection:
            connection.semget(9, 2, IPC_CREAT | 0o600)
        with connected() as first, connected() as second:
            lock = work.Lock(first, 9)
            with lock:
                other = work.Lock(second, 9)
                check(first.semctl_getall(lock.sems) == [0, 1], "the lock is given another value")
                is_refused(lambda: other.acquire(0.1), 11)
            other.acquire(1)
            check(first.semctl_getall(lock.sems) == [0, 1], "the lock is not taken")
        with connected() as third:
            work.Lock(third, 9).acquire(1)


def a_lock_and_kills_of_the_server() -> None:
    """The server is killed at any moment of the making: afterwards the lock opens, and one holds it at a time."""
    rng = random.Random(SEED)
    for key in range(20, 24):
        server = Server()
        with connected() as connection:
            threading.Timer(rng.uniform(0, 0.02), server.process.kill).start()
            try:
                while True:
                    with work.Lock(connection, key):
                        pass
            except ConnectionError:
                pass
        server.ends(-signal.SIGKILL)
        with serving(), connected() as first, connected() as second:
            with work.Lock(first, key) as lock:
                is_refused(lambda: work.Lock(second, key).acquire(0.05), 11)
            check(first.semctl_getval(lock.sems, 0) == 1, "the lock is not free")


def a_job_comes_back() -> None:
    """An exception in the block gives the job back, and the oldest comes first; what is too long is refused."""
    with serving(), connected() as connection, connected() as other:
        jobs, others = (work.Jobs(c, "/small", 11, places=3, size=4) for c in (connection, other))
        is_refused(lambda: jobs.put(b"12345"), 90)
        numbers = [jobs.put(text) for text in (b"a", b"b", b"")]
        check(numbers == [1, 2, 3], f"{numbers} are the numbers")
        try:
            with jobs.claim() as job:
                raise KeyError(job.text)
        except KeyError as raised:
            check(raised.args == (b"a",), f"{raised}")
        with jobs.claim() as job, others.claim() as second:
            check((job.text, second.text) == (b"a", b"b"), f"{job} and {second} are claimed")
            values = connection.semctl_getall(jobs.sems)
            check(values == [1, 1, 1, 0, 1, 1, 0], f"{values} while two are claimed")
        with others.claim() as job:
            check(job.text == b"", f"{job} is claimed")
        values = connection.semctl_getall(jobs.sems)
        check(values == [1, 1, 0, 3, 0, 0, 0], f"{values} in the end")
        is_refused(lambda: connection.semop(jobs.sems, [(work.READY, -1, IPC_NOWAIT)]), 11)
        # Nothing of a job that is done comes back at the end of who put it and did it.
        connection.close()
        time.sleep(0.3)
        values = other.semctl_getall(others.sems)
        check(values == [1, 1, 0, 3, 0, 0, 0], f"{values} after its end")


def main() -> None:
    tests: list[Callable[[], None]] = [a_lock_that_was_not_given_its_first_value, a_lock_and_kills_of_the_server]
    run_tests("work_trial", [*tests, a_job_comes_back, no_job_is_lost])


if __name__ == "__main__":
    os.environ["PYTHONDONTWRITEBYTECODE"] = "1"
    with in_a_folder(600):
        main()
