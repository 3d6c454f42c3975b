"""What calls that wait cost others: 58 clients wait on an object, and calls on it let none of them go on.

    python3 bench/waiters.py PROGRAM [TURNS]

- One client more makes such calls, sixteen ahead. What the server has spent of a processor on them,
  less the same while nobody waits, is shared among the calls and those that wait: medians over the turns.
- Two clients send such calls ahead at full rate, and another makes one call at a time, on a queue of
  its own: how long such a call takes, while nobody waits, and while 58 do.

The files are in a new folder in the repository, which should be on a real disk. The status is 1 if a
bar is missed. It takes two minutes.
"""

from __future__ import annotations

import errno
import os
import select
import struct
import sys
import time
from collections.abc import Iterator, Sequence
from contextlib import contextmanager
from multiprocessing import Event, Process
from multiprocessing.synchronize import Event as EventType
from pathlib import Path
from statistics import median
from typing import NamedTuple

sys.path.insert(0, str(Path(__file__).resolve().parent.parent / "examples"))
sys.dont_write_bytecode = True

from client import (  # noqa: E402
    IPC_CREAT,
    IPC_NOWAIT,
    Connection,
    msgctl_stat_request,
    msgrcv_request,
    msgsnd_request,
    semop_request,
)
from served import in_a_folder, processor_seconds, run, serving  # noqa: E402

WAITING, SENDERS, AHEAD, TURNS = 58, 2, 16, 5
# The bars: microseconds of a processor for one that waits, and milliseconds of another's call, at the median.
MICROSECONDS, MILLISECONDS = 0.2, 20
# Seconds in which calls are made sixteen ahead, and one at a time; of these there are some at least.
SECONDS, SINGLE_SECONDS, SINGLE_CALLS = 0.5, 5.0, 5
# Operations of a list that waits, on as many semaphores: all of this value but the last, which is 0 and stops it.
OPERATIONS, VALUE = 32, 1000
# How many messages a queue lacks, their type, and another one.
FREE, COMMON, ABSENT = 384, 1, 99


class Call(NamedTuple):
    """A request, and the body of its reply."""

    request: bytes
    body: bytes = b""


class Scene(NamedTuple):
    """What clients wait for in turn, and the calls that another makes in turn."""

    what: str
    calls_what: str
    waits: Sequence[bytes]
    calls: Sequence[Call]


class Caller(Connection):
    """A client that sends requests ahead, all of serial 1, and tests each byte of their replies."""

    def __init__(self) -> None:
        super().__init__("socket")
        self.hello(1000, 100)

    def exchange(self, requests: bytes, replies: bytes) -> None:
        self._write(requests)
        self._fill(len(replies), None)
        if self._read != replies:
            raise RuntimeError(f"{self._read.hex()} comes, and not {replies.hex()}")
        self._read.clear()

    def send_ahead(self, requests: bytes, replies: bytes) -> Iterator[int]:
        """Sends these requests again and again, as many as its socket takes: how many bytes of replies have come."""
        ready = select.poll()
        ready.register(self._socket, select.POLLIN | select.POLLOUT)
        sent = seen = 0
        wanted = replies + replies
        while True:
            for _, events in ready.poll():
                if events & select.POLLOUT:
                    sent = (sent + self._socket.send(memoryview(requests)[sent:])) % len(requests)
                if events & ~select.POLLOUT:
                    data = self._socket.recv(len(replies))
                    if not data or data != wanted[seen : seen + len(data)]:
                        raise RuntimeError(f"{data.hex()} comes")
                    seen = (seen + len(data)) % len(replies)
                    yield len(data)


def frames(calls: Sequence[Call], many: int) -> tuple[bytes, bytes]:
    """So many calls in turn: their requests and their replies."""
    them = [calls[number % len(calls)] for number in range(many)]
    requests = (struct.pack(">II", 4 + len(call.request), 1) + call.request for call in them)
    replies = (struct.pack(">IIH", 6 + len(call.body), 1, 0) + call.body for call in them)
    return b"".join(requests), b"".join(replies)


def on_queue(queue: int) -> list[Call]:
    return [
        Call(msgsnd_request(queue, COMMON, b"", IPC_NOWAIT)),
        Call(msgrcv_request(queue, 0, COMMON, IPC_NOWAIT), struct.pack(">q", COMMON)),
    ]


def on_semaphore(gates: int, number: int) -> list[Call]:
    return [Call(semop_request(gates, [(number, what, IPC_NOWAIT)])) for what in (1, -1)]


def scenes() -> list[Scene]:
    """Makes a set and a queue, which is full nearly, and answers what is done with them."""
    with Caller() as client:
        gates = client.semget(1, OPERATIONS + 1, IPC_CREAT | 0o600)
        client.semctl_setall(gates, [*(OPERATIONS - 1) * [VALUE], 0, VALUE])
        queue = client.msgget(1, IPC_CREAT | 0o600)
        many = client.msgctl_stat(queue).qbytes - FREE
        send, _ = on_queue(queue)
        client.exchange(*frames([send], many))
    blocked = semop_request(gates, [(number, -1) for number in range(OPERATIONS)])
    absent = msgrcv_request(queue, 0, ABSENT)
    lists = f"lists of {OPERATIONS} operations"
    receives = f"receives of a type that none of {many} messages has"
    first, other, through = on_semaphore(gates, 0), on_semaphore(gates, OPERATIONS), on_queue(queue)
    return [
        Scene(lists, "on the semaphore of their first operation", [blocked], first),
        Scene(lists, "on a semaphore that they do not name", [blocked], other),
        Scene(receives, "sends and receives", [absent], through),
        Scene("half of them each", "on that semaphore, and sends and receives", [blocked, absent], [*first, *through]),
    ]


@contextmanager
def waiting(clients: list[Caller], waits: Sequence[bytes]) -> Iterator[None]:
    """These clients wait meanwhile, each until it is interrupted."""
    for number, client in enumerate(clients):
        client.send(waits[number % len(waits)])
        client.send(msgctl_stat_request(0))
    for client in clients:
        if client.receive()[1] != errno.EALREADY:
            raise RuntimeError("a call does not wait")
    yield
    for client in clients:
        if [error for _, error, _ in client.settle()] != [errno.EINTR]:
            raise RuntimeError("a call has gone on")


def spent(pid: int, caller: Caller, calls: Sequence[Call]) -> float:
    """Microseconds of the server's processor for a call."""
    requests, replies = frames(calls, AHEAD)
    caller.exchange(requests, replies)
    count, begin, before = 0, time.monotonic(), processor_seconds(pid)
    while time.monotonic() - begin < SECONDS:
        caller.exchange(requests, replies)
        count += AHEAD
    return 1e6 * (processor_seconds(pid) - before) / count


def send_ahead(calls: Sequence[Call], is_at_work: EventType) -> None:
    """Makes these calls in a process of its own, and tells when some are answered."""
    for _ in Caller().send_ahead(*frames(calls, 1000 * len(calls))):
        is_at_work.set()


@contextmanager
def sending_ahead(calls: Sequence[Call]) -> Iterator[None]:
    """Clients make these calls meanwhile, at full rate."""
    events = [Event() for _ in range(SENDERS)]
    senders = [Process(target=send_ahead, args=(calls, event), daemon=True) for event in events]
    for sender in senders:
        sender.start()
    for event in events:
        event.wait()
    time.sleep(SECONDS)
    yield
    for sender in senders:
        if not sender.is_alive():
            raise RuntimeError("a client that sends ahead has failed")
        sender.terminate()
        sender.join()


def single_calls(caller: Caller, queue: int) -> list[float]:
    """Milliseconds of each of some single calls."""
    own = [frames([call], 1) for call in on_queue(queue)]
    taken: list[float] = []
    begin = time.monotonic()
    while time.monotonic() - begin < SINGLE_SECONDS or len(taken) < SINGLE_CALLS:
        before = time.monotonic()
        caller.exchange(*own[len(taken) % 2])
        taken.append(1000 * (time.monotonic() - before))
    return taken


class Result(NamedTuple):
    """Of a scene: microseconds a call of each turn, and milliseconds of single calls; while nobody waits, and while
    the clients do."""

    scene: Scene
    alone: list[float]
    beside: list[float]
    single_alone: list[float]
    single_beside: list[float]

    def each(self) -> float:
        """Microseconds for a call and for one that waits."""
        return median((more - less) / WAITING for less, more in zip(self.alone, self.beside))

    def is_met(self) -> bool:
        return self.each() <= MICROSECONDS and median(self.single_beside) <= MILLISECONDS

    def row(self) -> str:
        cells = [self.scene.what, self.scene.calls_what, f"{median(self.alone):.2f}", f"{median(self.beside):.2f}"]
        cells.append(f"{self.each():.3f}")
        for them in (self.single_alone, self.single_beside):
            cells += [f"{median(them):.2f}", f"{max(them):.2f}"]
        return "| " + " | ".join(cells) + " |"


def measure(pid: int, scene: Scene, clients: list[Caller], turns: int) -> Result:
    *those, caller = clients
    queue = caller.msgget(2, IPC_CREAT | 0o600)
    result = Result(scene, [], [], [], [])
    for _ in range(turns):
        result.alone.append(spent(pid, caller, scene.calls))
        with waiting(those, scene.waits):
            result.beside.append(spent(pid, caller, scene.calls))
    with sending_ahead(scene.calls):
        result.single_alone.extend(single_calls(caller, queue))
    with waiting(those, scene.waits), sending_ahead(scene.calls):
        result.single_beside.extend(single_calls(caller, queue))
    return result


def measured(program: str, turns: int) -> Iterator[Result]:
    run(program, "format", "device")
    with serving(program) as pid:
        them = scenes()
        clients = [Caller() for _ in range(WAITING + 1)]
        for scene in them:
            yield measure(pid, scene, clients, turns)


def main() -> int:
    program = os.path.realpath(sys.argv[1])
    turns = int(sys.argv[2]) if len(sys.argv) > 2 else TURNS
    print(
        f"Medians of {turns} turns: microseconds of the server's processor for a call, while nobody waits and while"
        f" {WAITING} clients do; and beside {SENDERS} that send ahead, milliseconds of another's single call, with the"
        f" longest. The machine's load before is {os.getloadavg()[0]:.1f}.\n"
    )
    print(
        f"| {WAITING} wait, by | the calls, | none waits | {WAITING} wait | each that waits | none waits, ms | longest"
        f" | {WAITING} wait, ms | longest |"
    )
    print("|---|---|---|---|---|---|---|---|---|")
    results = []
    with in_a_folder():
        for result in measured(program, turns):
            print(result.row(), flush=True)
            results.append(result)
    print(
        f"\nAt most {MICROSECONDS} microseconds are wanted for each that waits, and {MILLISECONDS} milliseconds at the"
        f" median: {sum(not result.is_met() for result in results)} of {len(results)} rows miss that."
    )
    return 0 if all(result.is_met() for result in results) else 1


if __name__ == "__main__":
    sys.exit(main())
