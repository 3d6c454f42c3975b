"""Sixty clients of the built program as a server, of which up to fifty wait: each message is received once, or is left.

    python3 tests/sockets/waiting_load.py PROGRAM [SEED]

Clients leave and come again, and so does the server. What is expected was reckoned from docs/PROTOCOL.md, and never
taken from the program. The seed, which is printed, gives what clients do and when the server is killed. It takes some
ten seconds.
"""

from __future__ import annotations

import errno
import random
import select
import signal
import sys
import threading
import time
from collections import Counter
from collections.abc import Callable
from contextlib import suppress
from pathlib import Path
from typing import NamedTuple

sys.dont_write_bytecode = True
sys.path.insert(0, str(Path(__file__).resolve().parents[1] / "lib"))

from server import (  # noqa: E402
    SEED,
    Client,
    Server,
    Worker,
    check,
    drain,
    in_a_folder,
    listing,
    printed,
    process,
    run_tests,
    serving,
    until,
)
from client import IPC_CREAT, hello_request, msgctl_stat_request, msgrcv_request  # noqa: E402

# ---- the clients


class Target(NamedTuple):
    """Where a text goes: to one of those who receive this type from this queue."""

    queue: int
    mtype: int


class Comer(Worker):
    """A client that comes again whenever it has gone, or the server has."""

    over = threading.Event()

    def work(self) -> None:
        while not self.over.is_set():
            with suppress(FileNotFoundError, ConnectionError):
                with Client() as client:
                    client.send(hello_request(1000, 100))
                    # Those who went just before may count still.
                    if client.receive()[1] == 0:
                        self.go_on(client)
            time.sleep(0.005)

    def go_on(self, client: Client) -> None:
        """Works until it is to go, or all is over."""
        raise NotImplementedError


class Receiver(Comer):
    """Receives the texts of its target. Of `unsure` calls it does not know whether they have taken one."""

    def __init__(self, number: int, target: Target, is_killed: bool) -> None:
        super().__init__(number, target.queue)
        self.target = target
        self.is_killed = is_killed
        self.received: list[bytes] = []
        self.unsure = 0

    def go_on(self, client: Client) -> None:
        while not self.over.is_set():
            self.unsure += 1
            way = self.rng.random()
            if way < 0.8:
                self.waits(client)
            elif way < 0.9 or not self.is_killed:
                return self.leaves(client)
            else:
                return self.closes(client)

    def waits(self, client: Client) -> None:
        """For a while, and then it interrupts itself."""
        try:
            _, text = client.msgrcv(*self.target_of(64), timeout=self.rng.uniform(0, 0.3))
            self.received.append(text)
        except InterruptedError:
            pass
        self.unsure -= 1

    def target_of(self, size: int) -> tuple[int, int, int]:
        return self.target.queue, size, self.target.mtype

    def takes(self, error: int, body: bytes) -> None:
        """This is the reply to its call."""
        check(error == 0, f"a receive is answered {error}")
        self.received.append(body[8:])
        self.unsure -= 1

    def leaves(self, client: Client) -> None:
        """It sends no more, and reads to the end: so it knows whether its call was answered, if the server was not
        killed just then."""
        client.send(msgrcv_request(*self.target_of(64)))
        time.sleep(self.rng.uniform(0, 0.02))
        client.send_no_more()
        try:
            _, error, body = client.receive()
            self.takes(error, body)
        except ConnectionError:
            self.unsure -= not self.is_killed

    def closes(self, client: Client) -> None:
        """It waits, reads what has come meanwhile, and is gone. What the server does before it sees that is unknown."""
        client.send(msgrcv_request(*self.target_of(64)))
        client.send(msgctl_stat_request(0))
        _, error, body = client.receive()
        if error == errno.EALREADY:
            time.sleep(self.rng.uniform(0, 0.02))
            if not select.select([client], [], [], 0)[0]:
                return
            _, error, body = client.receive()
        self.takes(error, body)


class Sender(Comer):
    """Sends texts to targets to which no other sends. If a queue is full it waits for a while."""

    def __init__(self, number: int, targets: list[Target]) -> None:
        super().__init__(number, targets[0].queue)
        self.count = 0
        self.sent: dict[Target, list[bytes]] = {target: [] for target in targets}
        self.unsure: dict[Target, list[bytes]] = {target: [] for target in targets}

    def go_on(self, client: Client) -> None:
        while not self.over.is_set():
            target = self.rng.choice(list(self.sent))
            self.count += 1
            text = b"%d %d" % (self.number, self.count)
            self.unsure[target].append(text)
            with suppress(InterruptedError):
                client.msgsnd(*target, text, timeout=self.rng.uniform(0, 0.3))
                self.sent[target].append(text)
            self.unsure[target].pop()
            time.sleep(self.rng.uniform(0, 0.005))


def clients_of(queues: list[int], are_killed: bool) -> tuple[list[Receiver], list[Sender]]:
    """Fifty receivers: thirty that have a target each, and four times five that share one; and ten senders."""
    targets = [Target(queues[number % 10], 1 + number) for number in range(34)]
    of_each = targets[:30] + 5 * targets[30:]
    receivers = [Receiver(number, target, are_killed) for number, target in enumerate(of_each)]
    return receivers, [Sender(100 + number, targets[number::10]) for number in range(10)]


# ---- what became of the texts


def in_order(texts: list[bytes]) -> bool:
    numbers = [int(text.split()[1]) for text in texts]
    return numbers == sorted(numbers)


def lost(target: Target, sender: Sender, receivers: list[Receiver], left: list[bytes]) -> int:
    """Each text whose send was answered was received once or is left, but for those that went to receives of which
    nothing is known. How many these are."""
    sent = sender.sent[target]
    found = Counter(left)
    found.update(text for receiver in receivers for text in receiver.received)
    check(set(found.values()) <= {1}, f"{target}: a text comes twice")
    check(set(found) <= {*sent, *sender.unsure[target]}, f"{target}: a text comes that was not sent")
    missing = set(sent) - set(found)
    unsure = sum(receiver.unsure for receiver in receivers)
    check(len(missing) <= unsure, f"{target}: {missing} are lost, and of {unsure} receives nothing is known")
    if len(receivers) == 1:
        check(in_order(receivers[0].received + left), f"{target}: {receivers[0].received} are received")
    return len(missing)


def what_is_left(queues: list[int], targets: list[Target]) -> dict[Target, list[bytes]]:
    """It is what `dump` lists."""
    dumped = printed("dump", "device")
    with serving(), process() as client:
        left = {target: drain(client, *target) for target in targets}
    texts: dict[int, list[bytes]] = {queue: [] for queue in queues}
    for target, them in left.items():
        texts[target.queue] += them
    check(dumped == listing(texts), f"{dumped} is listed, and {texts} is there")
    return left


def accounts(name: str, queues: list[int], receivers: list[Receiver], senders: list[Sender]) -> None:
    by_target = {target: sender for sender in senders for target in sender.sent}
    left = what_is_left(queues, list(by_target))
    sent = missing = 0
    for target, sender in by_target.items():
        of = [receiver for receiver in receivers if receiver.target == target]
        missing += lost(target, sender, of, left[target])
        sent += len(sender.sent[target])
    kept = sum(map(len, left.values()))
    print(f"waiting_load: {name}: {sent} texts, {kept} are left, and {missing} went to clients that were killed")


# ---- the work


def make_queues() -> list[int]:
    """Ten queues, each with room for some twenty texts."""
    with process() as client:
        queues = [client.msgget(key, IPC_CREAT | 0o600) for key in range(1, 11)]
        for queue in queues:
            client.msgctl_set(queue, 1000, 100, 0o600, 150)
    return queues


def work(name: str, are_killed: bool, meanwhile: Callable[[Server, Callable[[], int]], Server]) -> None:
    """Sixty clients work while something is done to the server. Then all texts are accounted for."""
    printed("format", "device")
    server = Server()
    try:
        queues = make_queues()
        receivers, senders = clients_of(queues, are_killed)
        workers: list[Worker] = [*receivers, *senders]

        def received() -> int:
            for worker in workers:
                worker.look()
            return sum(len(receiver.received) for receiver in receivers)

        Comer.over.clear()
        for worker in workers:
            worker.start()
        server = meanwhile(server, received)
        Comer.over.set()
        for worker in workers:
            worker.finish()
        server.stop()
    finally:
        Comer.over.set()
        server.process.kill()
    accounts(name, queues, receivers, senders)


def clients_come_and_go() -> None:
    """Whoever goes knows what its call came to. So nothing is lost."""

    def meanwhile(server: Server, received: Callable[[], int]) -> Server:
        until(lambda: received() > 1000, "clients receive nothing")
        return server

    work("clients that leave", False, meanwhile)


def clients_and_the_server_are_killed() -> None:
    """The server at eight moments. At most a text for each receive that had no reply is lost, and none comes twice."""
    rng = random.Random(SEED)

    def meanwhile(server: Server, received: Callable[[], int]) -> Server:
        for _ in range(8):
            enough = received() + 100
            until(lambda: received() > enough, "clients receive nothing")
            time.sleep(rng.uniform(0, 0.1))
            server.stop(signal.SIGKILL)
            server = Server()
        return server

    work("clients and a server that are killed", True, meanwhile)


def main() -> None:
    print(f"waiting_load: seed {SEED}", flush=True)
    with in_a_folder(180):
        run_tests("waiting_load", [clients_come_and_go, clients_and_the_server_are_killed])


if __name__ == "__main__":
    main()
