"""The upgrade of a device of version 1 to 2, and of that to 3, stopped at each call on its disk, and with each call
failing once.

    python3 tests/devices/upgraded.py TRIALS N

The device is the one that is kept as bytes (`old_device` of device_layout.py). `TRIALS upgraded N` and
`TRIALS upgraded-3 N` upgrade it, and send two clients' requests to it, and to each device that a stop or a fault
leaves. What these have to be answered is made here, from the parts that upgrade.py has and from docs/PROTOCOL.md; the
program compares it.
"""

from __future__ import annotations

import struct
import subprocess
import sys
from pathlib import Path

sys.dont_write_bytecode = True
sys.path.insert(0, str(Path(__file__).resolve().parents[1] / "lib"))

from device_layout import NO_DEADLINE, old_device  # noqa: E402
from device_runs import PROGRAM, errored, recorded, sends  # noqa: E402
from upgrade import EMPTY, NEW_FULL, NEW_JOBS, NEW_QUEUE, NEW_SET, SEGMENT, SEM, Queue, Set  # noqa: E402

HELLO, CLOSE, MSGGET, MSGSND, MSGRCV, MSG_STAT, MSG_RMID = 0x01, 0x03, 0x0A, 0x0B, 0x0C, 0x0D, 0x0F
SEMGET, GETPID, GETNCNT, GETALL, SEM_STAT, SEM_RMID = 0x14, 0x17, 0x18, 0x1B, 0x1D, 0x1F
MQ_OPEN, MQ_RECEIVE, MQ_NOTIFY, MQ_GETATTR = 0x28, 0x2B, 0x2C, 0x2D
SEM_OPEN, SEM_GETVALUE = 0x32, 0x37
SHM_OPEN, READ, FSTAT = 0x3C, 0x3F, 0x41

EAGAIN, ENOSPC, ENOMSG = 11, 28, 42
O_RDWR, O_CREAT, O_NONBLOCK, IPC_NOWAIT, MAKE = 2, 0x40, 0x800, 0x800, 0x380

# Before the clock of the device, which stays at 80 by it.
MOMENT, CLOCK = 5, 80


def words(*numbers: int) -> bytes:
    return struct.pack(f">{len(numbers)}I", *numbers)


class Client:
    """What a client asks, and what it has to be answered, by the version to which the device was upgraded."""

    def __init__(self, number: int, version: int) -> None:
        self.number = number
        # A restart leaves the next pid of version 2 as it was; in version 3 it is 1 again.
        self.pid = number + (24 if version == 2 else 0)
        self.version = version
        self.frames: list[bytes] = []
        self.answers: list[str] = []

    def comes(self, *owner: int) -> None:
        """A HELLO of this user and group. On version 3 it answers the version, too."""
        self.asks(HELLO, words(*owner), words(self.pid) if self.version == 2 else words(self.pid, self.version))

    def asks(self, opcode: int, fields: bytes, body: bytes = b"", error: int = 0) -> None:
        serial = len(self.frames) + 1
        self.frames.append(struct.pack(">IB", serial, opcode) + fields)
        one = errored(self.number, serial, error) if error else recorded(self.number, serial, body)
        self.answers.append(one)


def queues(client: Client) -> None:
    """Both queues as they were, the messages in their order, and that the next one is number 4."""
    client.asks(MSG_STAT, words(1), status_of(NEW_QUEUE))
    client.asks(MSG_STAT, words(3), status_of(EMPTY))
    client.asks(MSGGET, struct.pack(">iI", NEW_QUEUE.key, 0), words(1))
    for mtype, text in NEW_QUEUE.messages:
        client.asks(MSGRCV, struct.pack(">IIIq", 1, IPC_NOWAIT, 64, 0), struct.pack(">q", mtype) + text)
    client.asks(MSGRCV, struct.pack(">IIIq", 1, IPC_NOWAIT, 64, 0), error=ENOMSG)
    client.asks(MSGSND, struct.pack(">IIq", 1, IPC_NOWAIT, 1) + b"new")
    times, pids = (CLOCK, CLOCK, NEW_QUEUE.times[2]), (client.pid, client.pid)
    changed = NEW_QUEUE._replace(messages=((1, b"new"),), times=times, pids=pids)
    client.asks(MSG_STAT, words(1), status_of(changed))
    client.asks(MSGGET, words(0, MAKE), error=ENOSPC)
    client.asks(MSG_RMID, words(3))
    client.asks(MSGGET, words(0, MAKE), words(4))


def status_of(queue: Queue) -> bytes:
    """The record of a queue: as it is saved, up to how many messages it has, and then their bytes."""
    return queue.data()[:64] + words(queue.held())


def sets(client: Client) -> None:
    """What was noted of the processes is added, no list waits, and the next set is number 6."""
    for number, one in ((2, NEW_FULL), (5, NEW_SET)):
        client.asks(SEM_STAT, words(number), record_of(one))
        client.asks(GETALL, words(number), b"".join(struct.pack(">H", value) for value, _ in one.semaphores))
        for at, (_, pid) in enumerate(one.semaphores):
            client.asks(GETPID, words(number, at), words(pid))
    client.asks(GETNCNT, words(5, 1), words(0))
    client.asks(SEMGET, struct.pack(">iiI", NEW_SET.key, 3, 0), words(5))
    client.asks(SEM_RMID, words(2))
    client.asks(SEMGET, words(0, 1, MAKE), words(6))


def record_of(one: Set) -> bytes:
    """The record of a set: as it is saved, up to how many semaphores it has."""
    return one.data()[:44]


def posix_queues(client: Client) -> None:
    """The queue with a name has its messages, and nobody is registered; the one without is gone, so there is room."""
    client.asks(MQ_OPEN, words(O_RDWR | O_NONBLOCK, 0) + bytes(9) + NEW_JOBS.name, words(0))
    client.asks(MQ_GETATTR, words(0), words(O_NONBLOCK, NEW_JOBS.maxmsg, NEW_JOBS.msgsize, len(NEW_JOBS.messages)))
    for priority, text in sorted(NEW_JOBS.messages, reverse=True):
        client.asks(MQ_RECEIVE, struct.pack(">IQI", 0, NO_DEADLINE, 64), words(priority) + text)
    client.asks(MQ_RECEIVE, struct.pack(">IQI", 0, NO_DEADLINE, 64), error=EAGAIN)
    client.asks(MQ_NOTIFY, words(0, 2, 7))
    client.asks(MQ_OPEN, words(O_RDWR | O_CREAT, 0o600) + bytes(9) + b"/a", words(1))
    client.asks(MQ_OPEN, words(O_RDWR | O_CREAT, 0o600) + bytes(9) + b"/b", error=ENOSPC)
    client.asks(CLOSE, words(1))


def segments(client: Client) -> None:
    """The same of segments, and each byte of the one with a name."""
    client.asks(SHM_OPEN, words(O_RDWR, 0) + SEGMENT.name, words(1))
    client.asks(FSTAT, words(1), struct.pack(">QIII", len(SEGMENT.content), *SEGMENT.owner, SEGMENT.mode))
    for at in range(0, len(SEGMENT.content), 64):
        client.asks(READ, struct.pack(">IQI", 1, at, 64), SEGMENT.content[at : at + 64])
    client.asks(SHM_OPEN, words(O_RDWR | O_CREAT, 0o600) + b"/c", words(2))
    client.asks(SHM_OPEN, words(O_RDWR | O_CREAT, 0o600) + b"/d", error=ENOSPC)


def semaphores(client: Client) -> None:
    """The same of named semaphores."""
    client.asks(SEM_OPEN, words(0, 0, 0) + SEM.name, words(0))
    client.asks(SEM_GETVALUE, words(0), words(SEM.value))
    client.asks(SEM_OPEN, words(O_CREAT, 0o600, 0) + b"/e", words(1))
    client.asks(SEM_OPEN, words(O_CREAT, 0o600, 0) + b"/f", error=ENOSPC)


def trial(version: int) -> bytes:
    """The lines of the clients, what has to be printed, and the device. The second one owns the semaphore."""
    one, other = Client(1, version), Client(2, version)
    one.comes(1000, 100)
    for asks in (queues, sets, posix_queues, segments):
        asks(one)
    other.comes(*SEM.owner)
    semaphores(other)
    script = [line for client in (one, other) for line in lines_of(client)]
    lines = (*script, "-", *one.answers, *other.answers, "-")
    return "".join(f"{line}\n" for line in lines).encode() + old_device()


def lines_of(client: Client) -> tuple[str, str]:
    return (f"{MOMENT} open {client.number}", sends(MOMENT, client.number, *client.frames))


def main() -> None:
    # The upgrade to version 3 writes zeros to each sector of the journal, so its stops leave twenty times as many
    # devices.
    for word, version, fewer in (("upgraded", 2, 1), ("upgraded-3", 3, 10)):
        words = [PROGRAM, word, str(fewer * int(sys.argv[2]))]
        status = subprocess.run(words, input=trial(version), timeout=1200).returncode
        if status:
            sys.exit(status)


if __name__ == "__main__":
    main()
