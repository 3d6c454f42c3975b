"""As much of everything as the limits allow, on the built program as a server: with memory to spare, no call is refused
for want of it.

    python3 tests/sockets/limits.py PROGRAM

No clause can say that memory is there, and a call that gives up for want of it meets each clause. So as much as the
limits allow is made, used, saved, listed, found again by another server, and used again: under standard limits and
under small ones. One more is refused, which shows that the limit was met. What is expected was reckoned from
docs/PROTOCOL.md, and never taken from the program. The device is in memory. It takes half a minute.
"""

from __future__ import annotations

import errno
import os
import resource
import struct
import sys
from collections import Counter
from collections.abc import Callable, Iterator
from contextlib import contextmanager
from pathlib import Path

sys.dont_write_bytecode = True
sys.path.insert(0, str(Path(__file__).resolve().parents[1] / "lib"))

from server import Server, check, in_a_folder, printed, run_tests  # noqa: E402
from client import *  # noqa: E402, F403
from device_layout import ROOT, SECTOR, SMALL, STANDARD, Limits  # noqa: E402
from limits_clients import CONNECTIONS, Most, text, word  # noqa: E402
from limits_posix import Posix  # noqa: E402
from limits_system_v import SystemV  # noqa: E402

# The value that lets one list go on that waits for it.
GOES_ON = 32000
# The first POSIX queue and the first named semaphore, by descriptors of those who made no object.
QUEUE_FD, SEMAPHORE_FD = 0, 1
# The opcodes of msgsnd, semop and mq_send.
SEND, CHANGE, POSIX_SEND = 0x0B, 0x15, 0x2A


class Everything(SystemV, Posix):
    """All objects, and calls that wait for them."""

    def waited(self) -> int:
        """The message queue that has calls waiting: one with the longest texts, if there is one."""
        return min(self.limits.msgmni, 2)

    def makers(self) -> int:
        """How many clients have made objects with names; all others have opened the same ones."""
        return -(-self.named_objects() // self.limits.descriptors)

    def waiting(self, client: int) -> bytes:
        """The call by which a client waits: for room in a queue, a value, room in a POSIX queue, or a named
        semaphore. The list has the most operations: the first has to wait, and the others add to the same semaphore."""
        queue, makers = self.waited(), self.makers()
        send = msgsnd_request(queue, queue, text(queue, 0, self.text_size(queue)))
        change = semop_request(1, [(0, -GOES_ON), *(self.limits.semopm - 1) * [(0, 1)]])
        if client <= makers or self.limits.descriptors <= SEMAPHORE_FD:
            return change if client % 2 else send
        post = mq_send_request(QUEUE_FD, text(1, 0, self.limits.posix_bytes), 1)
        return (change, post, sem_wait_request(SEMAPHORE_FD), send)[(client - makers) % 4]

    def wait_all(self) -> None:
        """Each process has a call that waits, and no other."""
        for client in range(1, self.limits.processes + 1):
            self.clients.wait(client, self.waiting(client))
            self.ask(client, msgctl_stat_request(1), errno.EALREADY)
            self.count["waited"] += 1

    def go_on(self) -> None:
        """The clients that have made objects are interrupted, and let the others go on."""
        for client in range(1, self.limits.processes + 1):
            opcode = self.waiting(client)[0]
            if client <= self.makers():
                self.clients.hear(client, opcode, errno.EINTR)
                self.ask(client, interrupt_request())
            else:
                self.let_go_on(opcode)
                self.clients.hear(client, opcode)
                self.count["went on"] += 1

    def let_go_on(self, opcode: int) -> None:
        """Lets the first one go on that waits so. What it waited for is as it was before: as full, or as low."""
        queue, longest = self.waited(), self.limits.posix_bytes
        size = self.text_size(queue)
        if opcode == SEND:
            message = struct.pack(">q", queue) + text(queue, 0, size)
            self.ask(1, msgrcv_request(queue, size, 0, IPC_NOWAIT), 0, message)
        elif opcode == CHANGE:
            self.ask(1, semctl_setval_request(1, 0, GOES_ON))
        elif opcode == POSIX_SEND:
            self.ask(1, mq_receive_request(QUEUE_FD, longest), 0, word(1) + text(1, 0, longest))
        else:
            client, fd = self.owner(self.limits.posix_queues)
            self.ask(client, sem_post_request(fd))

    def fill(self, epoch: Callable[[], int]) -> None:
        """Comes to each limit: at the end every process has a call that waits. Then all is saved."""
        self.come(0)
        self.make_queues()
        self.make_sets()
        self.make_shared()
        self.make_posix_queues()
        self.make_semaphores()
        self.make_segments()
        self.open_all(self.named_objects())
        self.remove_last()
        self.wait_all()
        self.go_on()
        self.adjust()
        self.wait_all()
        self.is_saved(epoch)

    def is_saved(self, epoch: Callable[[], int]) -> None:
        """Calls that do nothing, since others wait, fill the journal: then the state is saved, with all that is in it.
        They are not counted."""
        self.clients.settle()
        asked, before = self.clients.asked, epoch()
        while epoch() == before:
            with self.clients.at_once():
                for client in range(1, self.limits.processes + 1):
                    self.ask(client, msgctl_stat_request(1), errno.EALREADY, times=64)
        self.clients.asked = asked

    def find(self, listed: int) -> None:
        """Finds what was made, uses it again, and opens as many descriptors again. After an end of one object there is
        room for one."""
        # One segment was removed, and has gone with its process.
        keyed = self.count["queues"] + self.count["sets"] + self.count["shared"] - 1
        wanted = keyed + self.named_objects()
        check(listed == wanted, f"a listing has {listed} lines, and not {wanted}")
        self.come(self.limits.processes)
        self.find_queues()
        self.find_sets()
        self.find_shared()
        self.find_posix_queues()
        self.find_semaphores()
        self.find_segments()
        self.open_all(0)
        self.clients.settle()


# ---- the work


@contextmanager
def in_memory() -> Iterator[Callable[[], int]]:
    """The device is a file in memory meanwhile. It tells the epoch that is saved on it."""
    file = os.memfd_create("device")
    os.symlink(f"/proc/{os.getpid()}/fd/{file}", "device")
    try:
        yield lambda: int.from_bytes(os.pread(file, 8, SECTOR * ROOT), "big")
    finally:
        os.remove("device")
        os.close(file)


@contextmanager
def served(most: Most, limits: str) -> Iterator[None]:
    """A server for these clients, which goes with them."""
    server = Server(limits=limits)
    try:
        yield
        server.stop()
    finally:
        most.clients.close()
        server.process.kill()


def told(count: Counter[str], lines: int, asked: int) -> str:
    of = {key.replace(" ", "_"): value for key, value in count.items()}
    return (
        "{connections} connections, {processes} processes, {descriptors} descriptors, {waited} calls waited and "
        "{went_on} went on\n{queues} queues of {messages} messages, {sets} sets of {semaphores} semaphores, "
        "{adjustments} adjustments\n{shared} System V segments of {shared_bytes} bytes\n"
        "{posix_queues} POSIX queues of {posix_messages} messages, {named} named semaphores, "
        "{segments} segments of {bytes} bytes\n{lines} objects saved, listed and found again, {asked} requests"
    ).format(lines=lines, asked=asked, **of)


def at_limits(limits: Limits, words: str, *format_words: str) -> None:
    """Makes as much as the limits allow, and finds it again after an end of the server."""
    with in_memory() as epoch:
        printed("format", "device", *format_words)
        most = Everything(limits)
        with served(most, words):
            most.fill(epoch)
        asked, lines = most.clients.asked, printed("dump", "device").count("\n")
        with served(most, words):
            most.find(lines)
    is_all(most.count, limits)
    print(told(most.count, lines, asked + most.clients.asked))


def is_all(count: Counter[str], limits: Limits) -> None:
    """What was made is as much as the limits allow."""
    longest = limits.msgmni // 2
    wanted = {
        "queues": limits.msgmni,
        "messages": (limits.msgmni - longest) * limits.msgmnb + longest * (limits.msgmnb // limits.msgmax),
        "sets": limits.semmni,
        "semaphores": limits.semmns,
        "adjustments": limits.processes * limits.semmns,
        "shared": limits.shmmni,
        "shared bytes": limits.shmall,
        "posix queues": limits.posix_queues,
        "posix messages": limits.posix_queues * limits.posix_messages,
        "named": limits.named,
        "segments": limits.segments,
        "bytes": limits.segment_bytes,
        "processes": limits.processes,
        "descriptors": limits.processes * limits.descriptors,
        "waited": 2 * limits.processes,
    }
    for what, number in wanted.items():
        check(count[what] == number, f"{count[what]} {what}, and not {number}")


def small_limits() -> None:
    at_limits(SMALL, "small", "--small")


def standard_limits() -> None:
    at_limits(STANDARD, "standard")


def main() -> None:
    _, most = resource.getrlimit(resource.RLIMIT_NOFILE)
    check(most > CONNECTIONS + 20, f"{CONNECTIONS} connections need more than {most} descriptors (ulimit -Hn)")
    resource.setrlimit(resource.RLIMIT_NOFILE, (most, most))
    with in_a_folder(600):
        run_tests("limits", [small_limits, standard_limits])


if __name__ == "__main__":
    main()
