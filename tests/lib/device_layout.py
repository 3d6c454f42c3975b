"""A device of ipcd: its bytes are written and read here as docs/DEVICE.md has them.

`Device` writes one from its parts, with the objects and their table in any sectors. `read` is a
checker of devices: it goes through one as an open does, and gives what stands there, or raises the
first fault, with its sector. Both were made from that page alone. What a version of devices has of
its own is an argument.
"""

from __future__ import annotations

import struct
from collections import Counter
from collections.abc import Iterable
from pathlib import Path
from typing import NamedTuple

SECTOR = 512
# The first sectors of the journal, of its body and of the objects, as versions 1 and 2 have them; version 3 has no
# header, and its objects begin after a journal of any length (`Version.objects`).
JOURNAL, BODY, OBJECTS = 3, 4, 260
BODY_COUNT = 256
# How many bytes of a batch are in a tagged sector of the journal, after its tag.
TAGGED_BYTES = 496
# How many bytes of the table are in a sector of it, and how many numbers.
TABLE_BYTES, TABLE_NUMBERS = 508, 127
LAST_NUMBER = 2147483647
LAST_EPOCH = 2**64 - 1
QUEUE_KIND = 4294967296
SET_KIND = 2 * QUEUE_KIND
POSIX_KIND = 3 * QUEUE_KIND
NAMED_KIND = 4 * QUEUE_KIND
SEGMENT_KIND = 5 * QUEUE_KIND
SYSTEM_V_SEGMENT_KIND = 6 * QUEUE_KIND
NONE = bytes(4)
NO_DEADLINE = 2**64 - 1
IPC_NOWAIT, MSG_NOERROR, MSG_EXCEPT = 0x800, 0x1000, 0x2000
O_NONBLOCK = 0x800
SEM_VALUE_MAX = 2147483647
SEM_UNDO = 0x1000
SHM_RDONLY = 0x1000
# The bit of a System V segment's mode that tells that it was removed while somebody had it attached.
MARKED = 0o1000
# A user and a group.
Cred = tuple[int, int]

# ---- limits, versions and sizes


class Limits(NamedTuple):
    """In the order in which they stand in a superblock. One of version 1 has none of System V segments: they are 0. The
    last three are of version 3 alone."""

    processes: int
    msgmni: int
    msgmax: int
    msgmnb: int
    semmni: int
    semmsl: int
    semmns: int
    semopm: int
    posix_queues: int
    posix_messages: int
    posix_bytes: int
    named: int
    segments: int
    segment_bytes: int
    segment_call: int
    descriptors: int
    shmmni: int = 0
    shmmax: int = 0
    shmall: int = 0
    msgqlen: int = 0
    semume: int = 0
    queue_bytes: int = 0


SMALL_OF_ONE = Limits(4, 2, 64, 128, 2, 4, 8, 4, 2, 2, 64, 2, 2, 2048, 64, 4)
STANDARD_OF_ONE = Limits(64, 32, 8192, 16384, 32, 64, 512, 32, 32, 10, 8192, 64, 32, 1048576, 8192, 32)
SMALL = Limits(4, 2, 64, 128, 2, 4, 8, 4, 2, 2, 64, 2, 2, 2048, 64, 4, 2, 1024, 2048)
STANDARD = Limits(
    64, 64, 65536, 65536, 32, 64, 512, 32, 32, 10, 8192, 64, 32, 1048576, 8192, 32, 32, 1048576, 1048576
)
SMALL_OF_THREE = SMALL._replace(msgqlen=8, semume=4, queue_bytes=288)
STANDARD_OF_THREE = STANDARD._replace(msgqlen=4096, semume=512, queue_bytes=2624000)


class Version(NamedTuple):
    """What devices of a version have of their own."""

    number: int
    # The root's sector.
    root: int
    # How many limits there are, how many kinds of objects, and the greatest limits.
    limits: int
    kinds: int
    greatest: Limits
    # The most bytes of a request's frame without its length, and of a batch with it.
    request: int
    batch: int
    # How many sectors the journal has, and whether they are tagged: then it has no header, and queues have marks.
    journal: int = 257
    tagged: bool = False

    @property
    def objects(self) -> int:
        """The first sector of the object area."""
        return JOURNAL + self.journal

    @property
    def places(self) -> int:
        """How many numbers a superblock has after its limits: the two words of features of version 3."""
        return 2 if self.tagged else 0

    def sectors_of(self, length: int) -> int:
        """How many sectors a batch of so many bytes takes."""
        return -(-length // (TAGGED_BYTES if self.tagged else SECTOR))


ONE = Version(1, 1, 16, 5, STANDARD_OF_ONE, 8448, 32768)
# The one that the program makes if no journal is asked for.
TWO = Version(2, 2, 19, 6, STANDARD, 65792, 131072)
ROOT = TWO.root
# The one of devices with a journal of 257 tagged sectors, and how many it may have.
THREE = Version(3, 1, 22, 6, STANDARD_OF_THREE, 65792, 131072, 257, True)
SHORTEST_JOURNAL, LONGEST_JOURNAL = 8, 65535


def three(journal: int) -> Version:
    """The one of devices with a journal of so many sectors."""
    return THREE._replace(journal=journal)


def sectors_of(length: int) -> int:
    return -(-length // SECTOR)


def table_sectors(length: int) -> int:
    """How many sectors a table of so many bytes takes."""
    return -(-length // TABLE_BYTES)


def bounded_sectors(of: Limits, version: Version) -> int:
    """How many sectors those parts of a state take that version 3 bounds by limits of its own."""
    if version.tagged:
        waits = max(25, 21 + of.msgmax, 21 + of.posix_bytes, 17 + 6 * of.semopm)
        return (
            sectors_of(4 + of.processes * (16 + waits))
            + sectors_of(4 + 12 * of.processes * of.semume)
            + of.msgmni * sectors_of(72 + 36 * of.msgqlen + of.msgmnb)
            + of.posix_queues
            + sectors_of(299 * of.posix_queues + of.queue_bytes)
        )
    return (
        sectors_of(4 + of.processes * (16 + version.request))
        + sectors_of(4 + 12 * of.processes * of.semmns)
        + of.msgmni * sectors_of(64 + 13 * of.msgmnb)
        + of.posix_queues * sectors_of(299 + of.posix_messages * (8 + of.posix_bytes))
    )


def area_of(limits: Limits, version: Version = TWO) -> int:
    """How many sectors a state takes."""
    of = limits
    total = (
        sectors_of(12 + 4 * version.kinds)
        + sectors_of(4 + of.processes * (16 + 16 * of.descriptors))
        + bounded_sectors(of, version)
        + of.semmni * sectors_of(44 + 6 * of.semmsl)
        + of.named * sectors_of(271)
        + 2 * of.segments
        + sectors_of(of.segment_bytes)
        + 2 * of.shmmni
        + sectors_of(of.shmall)
    )
    entries = 4 + of.msgmni + of.semmni + of.posix_queues + of.named + of.segments + of.shmmni
    return total + table_sectors(4 + 16 * entries + 4 * total)


def need_of(limits: Limits, version: Version = TWO) -> int:
    return version.objects + 2 * area_of(limits, version)


# ---- the parts of a device, as bytes


def superblock(limits: Limits, sectors: int, version: Version = TWO) -> bytes:
    objects = version.objects
    places = (sectors, JOURNAL, version.journal, objects, max(sectors - objects, 0), version.root)
    numbers = (version.number, *places, *limits[: version.limits], *version.places * [0])
    return b"IPCSTORE" + struct.pack(f">{len(numbers)}I", *numbers)


def root(epoch: int, first: int, length: int) -> bytes:
    """Of a table that begins in this sector and has so many bytes."""
    return struct.pack(">QII", epoch, first, length)


def header(epoch: int, used: int) -> bytes:
    return struct.pack(">QI", epoch, used)


def tag(epoch: int, number: int, index: int, count: int) -> bytes:
    """What a sector of the journal of version 3 begins with."""
    return struct.pack(">QIHH", epoch, number, index, count)


def tagged(epoch: int, number: int, data: bytes) -> list[bytes]:
    """The sectors of a batch of version 3, which is the one of this number at this epoch."""
    pieces = [data[at : at + TAGGED_BYTES] for at in range(0, len(data), TAGGED_BYTES)]
    parts = [tag(epoch, number, at, len(pieces)) + piece for at, piece in enumerate(pieces)]
    return [part.ljust(SECTOR, b"\0") for part in parts]


class Placed(NamedTuple):
    """An object in the table: its number, how many bytes it has, and its sectors in their order."""

    number: int
    length: int
    sectors: tuple[int, ...]


def table(*placed: Placed) -> bytes:
    parts = [struct.pack(f">QQ{len(one.sectors)}I", one.number, one.length, *one.sectors) for one in placed]
    return struct.pack(">I", len(placed)) + b"".join(parts)


def chained(data: bytes, sectors: Iterable[int]) -> dict[int, bytes]:
    """The bytes of a table as they stand in these sectors."""
    chain = list(sectors)
    parts = [data[at : at + TABLE_BYTES] for at in range(0, len(data), TABLE_BYTES)]
    return {at: struct.pack(">I", then) + part for at, then, part in zip(chain, [*chain[1:], 0], parts)}


def record(kind: int, moment: int, rest: bytes = b"") -> bytes:
    return struct.pack(">IBQ", 9 + len(rest), kind, moment) + rest


def connect(moment: int, serial: int, uid: int, gid: int) -> bytes:
    return record(1, moment, struct.pack(">III", serial, uid, gid))


def request(moment: int, pid: int, frame: bytes) -> bytes:
    return record(2, moment, struct.pack(">I", pid) + frame)


def interrupted(moment: int, pid: int, serial: int) -> bytes:
    return record(3, moment, struct.pack(">II", pid, serial))


def tick(moment: int) -> bytes:
    return record(4, moment)


def leave(moment: int, pid: int) -> bytes:
    return record(5, moment, struct.pack(">I", pid))


RESTART = record(6, 0)


def batch(*records: bytes) -> bytes:
    data = b"".join(records)
    return struct.pack(">I", len(data)) + data


# ---- frames of requests, without their length


def hello(serial: int, uid: int = 1000, gid: int = 100) -> bytes:
    return struct.pack(">IBII", serial, 0x01, uid, gid)


def interrupt(serial: int) -> bytes:
    return struct.pack(">IB", serial, 0x02)


def msgget(serial: int, key: int, flags: int = 0x380) -> bytes:
    return struct.pack(">IBiI", serial, 0x0A, key, flags)


def msgsnd(
    serial: int, queue: int, mtype: int, text: bytes, flags: int = IPC_NOWAIT
) -> bytes:
    return struct.pack(">IBIIq", serial, 0x0B, queue, flags, mtype) + text


def msgrcv(
    serial: int, queue: int, size: int = 64, mtype: int = 0, flags: int = IPC_NOWAIT
) -> bytes:
    return struct.pack(">IBIIIq", serial, 0x0C, queue, flags, size, mtype)


def semget(serial: int, key: int, nsems: int, flags: int = 0x380) -> bytes:
    return struct.pack(">IBiiI", serial, 0x14, key, nsems, flags)


def semop(serial: int, semid: int, *operations: tuple[int, int, int], timeout: int = NO_DEADLINE) -> bytes:
    them = b"".join(struct.pack(">HhH", *one) for one in operations)
    return struct.pack(">IBIQ", serial, 0x15, semid, timeout) + them


def semctl_getncnt(serial: int, semid: int, number: int) -> bytes:
    return struct.pack(">IBII", serial, 0x18, semid, number)


def semctl_getzcnt(serial: int, semid: int, number: int) -> bytes:
    return struct.pack(">IBII", serial, 0x19, semid, number)


def semctl_setval(serial: int, semid: int, number: int, value: int) -> bytes:
    return struct.pack(">IBIIi", serial, 0x1A, semid, number, value)


def semctl_getall(serial: int, semid: int) -> bytes:
    return struct.pack(">IBI", serial, 0x1B, semid)


def semctl_setall(serial: int, semid: int, *values: int) -> bytes:
    return struct.pack(f">IBI{len(values)}H", serial, 0x1C, semid, *values)


def semctl_set(serial: int, semid: int, uid: int, gid: int, mode: int) -> bytes:
    return struct.pack(">IBIIII", serial, 0x1E, semid, uid, gid, mode)


def semctl_rmid(serial: int, semid: int) -> bytes:
    return struct.pack(">IBI", serial, 0x1F, semid)


def shmget(serial: int, key: int, size: int, flags: int = 0x380) -> bytes:
    return struct.pack(">IBiQI", serial, 0x46, key, size, flags)


def shmat(serial: int, shmid: int, flags: int = 0) -> bytes:
    return struct.pack(">IBII", serial, 0x47, shmid, flags)


def shmdt(serial: int, attachment: int) -> bytes:
    return struct.pack(">IBI", serial, 0x48, attachment)


def shmctl_stat(serial: int, shmid: int) -> bytes:
    return struct.pack(">IBI", serial, 0x49, shmid)


def shmctl_set(serial: int, shmid: int, uid: int, gid: int, mode: int) -> bytes:
    return struct.pack(">IBIIII", serial, 0x4A, shmid, uid, gid, mode)


def shmctl_rmid(serial: int, shmid: int) -> bytes:
    return struct.pack(">IBI", serial, 0x4B, shmid)


def attached_read(serial: int, attachment: int, offset: int, length: int) -> bytes:
    return struct.pack(">IBIQI", serial, 0x4C, attachment, offset, length)


def attached_write(serial: int, attachment: int, offset: int, data: bytes) -> bytes:
    return struct.pack(">IBIQ", serial, 0x4D, attachment, offset) + data


# ---- objects of a state


def clock(moment: int, next_pid: int, next_queue: int, *others: int, version: Version = TWO) -> bytes:
    """The others are the next numbers of sets, POSIX queues, named semaphores, segments, and System V segments, which
    are 1 at first."""
    rest = (*others, *(version.kinds - 1 - len(others)) * [1])
    return struct.pack(f">Q{1 + version.kinds}I", moment, next_pid, next_queue, *rest)


class Open(NamedTuple):
    """A descriptor: its number, the object on which it is open, its flags, and the object's kind: 3 for a POSIX queue,
    4 for a named semaphore, 5 for a segment, 6 for a System V segment, of which it is an attachment."""

    fd: int
    number: int
    flags: int = 2
    kind: int = 3


def processes(*them: tuple[int, int, int], opened: dict[int, tuple[Open, ...]] | None = None) -> bytes:
    """Of each its pid, uid and gid; and by pid what each has open."""
    parts = [struct.pack(">I", len(them))]
    for pid, uid, gid in them:
        descriptors = (opened or {}).get(pid, ())
        parts.append(struct.pack(">IIII", pid, uid, gid, len(descriptors)))
        parts += [struct.pack(">IIII", one.fd, one.kind, one.number, one.flags) for one in descriptors]
    return b"".join(parts)


class Waiting(NamedTuple):
    """A call that waits: of which process, and its frame without the length."""

    pid: int
    frame: bytes
    deadline: int = NO_DEADLINE


def waits(*calls: Waiting) -> bytes:
    parts = [struct.pack(">IQI", one.pid, one.deadline, len(one.frame)) + one.frame for one in calls]
    return struct.pack(">I", len(calls)) + b"".join(parts)


class Adjustment(NamedTuple):
    """What is added to the value of a semaphore when its process exits."""

    pid: int
    semid: int
    number: int
    amount: int


def adjustments(*them: Adjustment) -> bytes:
    return struct.pack(">I", len(them)) + b"".join(struct.pack(">IIHh", *one) for one in them)


# The marks of a message that was never taken: how often it was, by which token, by whom and when.
UNTAKEN = struct.pack(">IQIQ", 0, 0, 0, 0)


class Queue(NamedTuple):
    key: int
    messages: tuple[tuple[int, bytes], ...] = ()
    owner: Cred = (1000, 100)
    creator: Cred = (1000, 100)
    mode: int = 0o600
    times: tuple[int, int, int] = (0, 0, 0)
    pids: tuple[int, int] = (0, 0)
    qbytes: int = 128

    def held(self) -> int:
        """How many bytes of text."""
        return sum(len(text) for _, text in self.messages)

    def is_full_for(self, text: bytes, msgqlen: int = 0) -> bool:
        """With a limit of messages, as version 3 has one: also if it has so many."""
        is_long = msgqlen != 0 and len(self.messages) + 1 > msgqlen
        return is_long or max(self.held() + len(text), len(self.messages) + 1) > self.qbytes

    def has_one_for(self, wanted: int, flags: int) -> bool:
        """Whether it has a message that a receive of this type may take."""
        types = [mtype for mtype, _ in self.messages]
        if wanted < 0:
            return any(mtype <= -wanted for mtype in types)
        if wanted > 0 and flags & MSG_EXCEPT:
            return any(mtype != wanted for mtype in types)
        return wanted in types or (wanted == 0 and types != [])

    def data(self, version: Version = TWO) -> bytes:
        """On version 3 with the next token, 1, and with the marks of each message, which nobody has taken."""
        marks, token = (UNTAKEN, struct.pack(">Q", 1)) if version.tagged else (b"", b"")
        them = ((struct.pack(">q", mtype), struct.pack(">I", len(text)) + text) for mtype, text in self.messages)
        parts = [head + marks + rest for head, rest in them]
        return (
            struct.pack(">iIIIII", self.key, *self.owner, *self.creator, self.mode)
            + struct.pack(">QQQ", *self.times)
            + struct.pack(">IIII", *self.pids, self.qbytes, len(self.messages))
            + token
            + b"".join(parts)
        )


class Set(NamedTuple):
    """A semaphore set: of each semaphore its value and its sempid."""

    key: int
    semaphores: tuple[tuple[int, int], ...] = ((0, 0),)
    owner: Cred = (1000, 100)
    creator: Cred = (1000, 100)
    mode: int = 0o600
    times: tuple[int, int] = (0, 0)

    def data(self) -> bytes:
        return (
            struct.pack(">iIIIII", self.key, *self.owner, *self.creator, self.mode)
            + struct.pack(">QQI", *self.times, len(self.semaphores))
            + b"".join(struct.pack(">HI", *semaphore) for semaphore in self.semaphores)
        )


class Posix(NamedTuple):
    """A POSIX queue: of each message its priority and its text; and who is registered: 0, 1 for a null registration or
    2, its pid, its descriptor and its cookie."""

    name: bytes
    messages: tuple[tuple[int, bytes], ...] = ()
    owner: Cred = (1000, 100)
    mode: int = 0o600
    maxmsg: int = 2
    msgsize: int = 64
    registration: tuple[int, int, int, int] = (0, 0, 0, 0)

    def data(self) -> bytes:
        numbers = (*self.owner, self.mode, self.maxmsg, self.msgsize, *self.registration)
        parts = [struct.pack(">II", priority, len(text)) + text for priority, text in self.messages]
        return struct.pack(">11I", *numbers, len(self.messages), len(self.name)) + self.name + b"".join(parts)


class NamedSem(NamedTuple):
    """A named semaphore."""

    name: bytes
    value: int = 0
    owner: Cred = (1000, 100)
    mode: int = 0o600

    def data(self) -> bytes:
        return struct.pack(">5I", *self.owner, self.mode, self.value, len(self.name)) + self.name


class Segment(NamedTuple):
    """A shared memory segment."""

    name: bytes
    content: bytes = b""
    owner: Cred = (1000, 100)
    mode: int = 0o600

    def data(self) -> bytes:
        numbers = struct.pack(">4IQ", *self.owner, self.mode, len(self.name), len(self.content))
        return numbers + self.name + self.content


class SystemVSegment(NamedTuple):
    """A System V shared memory segment: its times are atime, dtime and ctime, its pids cpid and lpid. If it was removed
    the mode has MARKED."""

    key: int
    content: bytes
    owner: Cred = (1000, 100)
    creator: Cred = (1000, 100)
    mode: int = 0o600
    times: tuple[int, int, int] = (0, 0, 0)
    pids: tuple[int, int] = (0, 0)

    def record(self) -> bytes:
        """What its object begins with, and its record too."""
        return (
            struct.pack(">iIIIII", self.key, *self.owner, *self.creator, self.mode)
            + struct.pack(">QQQ", *self.times)
            + struct.pack(">II", *self.pids)
        )

    def data(self) -> bytes:
        return self.record() + struct.pack(">Q", len(self.content)) + self.content


def shown(name: bytes) -> str:
    """The name of an object, as `dump` prints it."""
    return "".join(chr(byte) if 0x21 <= byte <= 0x7E and byte != 0x5C else f"\\x{byte:02x}" for byte in name)


def gives(one: Queue | Set | SystemVSegment, cred: Cred, bits: int) -> bool:
    """Whether it gives this permission: 4 to read, 2 to write."""
    uid, gid = cred
    if uid in (one.owner[0], one.creator[0]):
        shift = 6
    else:
        shift = 3 if gid in (one.owner[1], one.creator[1]) else 0
    return uid == 0 or one.mode >> shift & bits == bits


def state(
    the_clock: bytes,
    the_processes: bytes,
    queues: dict[int, Queue],
    sets: dict[int, Set] | None = None,
    calls: bytes = NONE,
    undo: bytes = NONE,
    posix: dict[int, Posix] | None = None,
    named: dict[int, NamedSem] | None = None,
    segments: dict[int, Segment] | None = None,
    system_v: dict[int, SystemVSegment] | None = None,
    version: Version = TWO,
) -> list[tuple[int, bytes]]:
    parts = [(0, the_clock), (1, the_processes), (2, calls), (3, undo)]
    parts += [(QUEUE_KIND + number, queue.data(version)) for number, queue in queues.items()]
    parts += [(SET_KIND + number, one.data()) for number, one in (sets or {}).items()]
    kinds = ((POSIX_KIND, posix), (NAMED_KIND, named), (SEGMENT_KIND, segments), (SYSTEM_V_SEGMENT_KIND, system_v))
    for first, them in kinds:
        parts += [(first + number, one.data()) for number, one in (them or {}).items()]
    return parts


def start(version: Version = TWO) -> list[tuple[int, bytes]]:
    """The state in which there is nothing."""
    return state(clock(0, 1, 1, version=version), processes(), {})


START = start()

# A device of version 1 under small limits, of as many sectors as these need, with something of each kind. Process 20 is
# registered with a POSIX queue; another one, a semaphore and a segment are unlinked, and are there while somebody has
# them open; two calls wait. In its journal a message comes for one that waits, a process raises a semaphore, another is
# interrupted, and process 20 leaves. `tests/devices/upgrade.py` has its parts.
OLD_DEVICE = Path(__file__).resolve().parent / "old_device.hex"


def old_device(sectors: int = 0) -> bytes:
    """This device, as it is kept: the number of each sector that is not all zeros, and its bytes up to the zeros at its
    end. A file of more sectors has zeros after them."""
    image = bytearray(SECTOR * (sectors or need_of(SMALL_OF_ONE, ONE)))
    for line in OLD_DEVICE.read_text().splitlines():
        number, digits = line.split()
        data, at = bytes.fromhex(digits), SECTOR * int(number)
        image[at : at + len(data)] = data
    return bytes(image)


# ---- a whole device


class Device:
    """A new device, of as many sectors as its limits need; and what is put there."""

    def __init__(self, limits: Limits = SMALL, sectors: int = 0, version: Version = TWO) -> None:
        # Without limits that the version has not.
        self.limits, self.version = Limits(*limits[: version.limits]), version
        self.image = bytearray(SECTOR * (sectors or need_of(self.limits, version)))
        # The objects of the last save, and the sectors of its table.
        self.placed: list[Placed] = []
        self.chain: list[int] = []
        self.put(0, 0, superblock(limits, len(self.image) // SECTOR, version))
        self.save(1, start(version))
        self.journal(1)

    def put(self, sector: int, offset: int, data: bytes) -> Device:
        at = SECTOR * sector + offset
        self.image[at : at + len(data)] = data
        return self

    def fill(self, sector: int, data: bytes) -> Device:
        """A whole sector: these bytes, and zeros."""
        return self.put(sector, 0, data.ljust(SECTOR, b"\0"))

    def free(self) -> list[int]:
        """The sectors of the object area that the last save has not used, the lowest first."""
        used = {*self.chain, *(sector for one in self.placed for sector in one.sectors)}
        return [sector for sector in range(self.version.objects, len(self.image) // SECTOR) if sector not in used]

    def save(
        self,
        epoch: int,
        objects: list[tuple[int, bytes]],
        places: Iterable[int] | None = None,
        unchanged: tuple[int, ...] = (),
    ) -> Device:
        """Takes free sectors for one object after another, and then for the table; or these, if they are given. The
        objects of these numbers stay where they are."""
        places = iter(self.free() if places is None else places)
        before, self.placed = {one.number: one for one in self.placed}, []
        for number, data in objects:
            if number in unchanged:
                self.placed.append(before[number])
                continue
            mine = tuple(next(places) for _ in range(sectors_of(len(data))))
            for at, sector in enumerate(mine):
                self.fill(sector, data[SECTOR * at : SECTOR * (at + 1)])
            self.placed.append(Placed(number, len(data), mine))
        return self.point(epoch, table(*self.placed), places)

    def point(self, epoch: int, data: bytes, places: Iterable[int]) -> Device:
        """The root, and these bytes as its table in the first of these sectors."""
        places = iter(places)
        self.chain = [next(places) for _ in range(table_sectors(len(data)))]
        for sector, part in chained(data, self.chain).items():
            self.fill(sector, part)
        return self.put(self.version.root, 0, root(epoch, self.chain[0], len(data)))

    def journal(self, epoch: int, *batches: bytes) -> Device:
        """Batches one after another from the first sector of the journal, or of its body, on."""
        if self.version.tagged:
            return self.tag(epoch, 1, JOURNAL, *batches)
        used = 0
        for data in batches:
            self.put(BODY + used, 0, data)
            used += sectors_of(len(data))
        return self.put(JOURNAL, 0, header(epoch, used))

    def tag(self, epoch: int, number: int, sector: int, *batches: bytes) -> Device:
        """Batches of version 3 one after another from this sector on, the first of them of this number."""
        for more, data in enumerate(batches):
            for part in tagged(epoch, number + more, data):
                self.put(sector, 0, part)
                sector += 1
        return self

    def copy(self) -> Device:
        other = Device.__new__(Device)
        other.limits, other.version = self.limits, self.version
        other.image, other.placed, other.chain = self.image[:], self.placed, self.chain
        return other


def put_into_file(path: str | Path, image: bytes) -> None:
    """A device as a file. Zeros become holes, so that a large one is soon written, and soon synced by who opens it."""
    piece = 65536
    zeros = bytes(piece)
    with open(path, "wb") as file:
        file.truncate(len(image))
        for at in range(0, len(image), piece):
            here = image[at : at + piece]
            if here != zeros[: len(here)]:
                file.seek(at)
                file.write(here)


# ---- the checker


class Fault(Exception):
    """What an open says of a device."""


class Unsound(Exception):
    """Objects that stand for no state."""


class Content(NamedTuple):
    version: Version
    limits: Limits
    epoch: int
    chain: list[int]
    placed: list[Placed]
    objects: list[tuple[int, bytes]]
    batches: list[list[bytes]]


def demand(holds: bool, sector: int) -> None:
    if not holds:
        raise Fault(f"damaged sector {sector}")


def demand_sound(holds: bool) -> None:
    if not holds:
        raise Unsound


def named_version(image: bytes) -> Version:
    """The one that the program would open a device as: version 3 if its superblock says so, and else version 2."""
    return THREE if bytes(image[8:12]) == struct.pack(">I", 3) else TWO


def read_superblock(image: bytes, version: Version) -> tuple[int, Limits, Version]:
    """How many sectors it names, which may be fewer than the device has, its limits, and the version with the journal
    that it names."""
    if image[:8] != b"IPCSTORE":
        raise Fault("not formatted")
    (found,) = struct.unpack(">I", image[8:12])
    end = 36 + 4 * version.limits
    # A feature that a reader has to know.
    if found != version.number or (version.tagged and any(image[end : end + 4])):
        raise Fault(f"version {found}")
    (sectors,) = struct.unpack(">I", image[12:16])
    if version.tagged:
        (journal,) = struct.unpack(">I", image[20:24])
        demand(SHORTEST_JOURNAL <= journal <= LONGEST_JOURNAL, 0)
        version = version._replace(journal=journal)
    limits = Limits(*struct.unpack(f">{version.limits}I", image[36:end]))
    demand(image[:end] == superblock(limits, sectors, version)[:end] and sectors <= len(image) // SECTOR, 0)
    demand(all(0 < here <= most for here, most in zip(limits[: version.limits], version.greatest)), 0)
    demand(limits.msgmax <= limits.msgmnb and limits.semmsl <= limits.semmns and limits.shmmax <= limits.shmall, 0)
    demand(sectors >= need_of(limits, version), 0)
    return sectors, limits, version


class Heap:
    """The objects of a device, and where they stand."""

    def __init__(self, image: bytes, version: Version) -> None:
        self.image, self.root, self.first = image, version.root, version.objects
        self.epoch, first, self.length = struct.unpack(">QII", self.at(self.root)[:16])
        most = TABLE_BYTES * (len(image) // SECTOR - self.first)
        demand(self.epoch > 0 and 4 <= self.length <= most and self.is_inside(first), self.root)
        self.chain = self.read_chain(first)
        data = b"".join(self.at(sector)[4:] for sector in self.chain)
        # What is left over of the last number is none.
        count = self.length // 4
        self.numbers: tuple[int, ...] = struct.unpack(f">{count}I", data[: 4 * count])
        self.placed = self.read_placed()

    def at(self, sector: int) -> bytes:
        return bytes(self.image[SECTOR * sector : SECTOR * (sector + 1)])

    def is_inside(self, sector: int) -> bool:
        return self.first <= sector < len(self.image) // SECTOR

    def read_chain(self, first: int) -> list[int]:
        chain = {first: None}
        while True:
            last = next(reversed(chain))
            (then,) = struct.unpack(">I", self.at(last)[:4])
            if len(chain) == table_sectors(self.length):
                demand(then == 0, last)
                return list(chain)
            demand(self.is_inside(then) and then not in chain, last)
            chain[then] = None

    def holder(self, place: int) -> int:
        """The sector of the table with the number at this place; past the end, with the last one."""
        return self.chain[min(place, len(self.numbers) - 1) // TABLE_NUMBERS]

    def read_placed(self) -> list[Placed]:
        placed: list[Placed] = []
        used, place, before = set(self.chain), 1, -1
        for _ in range(self.numbers[0]):
            here, begin = self.numbers[place : place + 4], self.holder(place)
            demand(len(here) == 4, begin)
            number, length = here[0] << 32 | here[1], here[2] << 32 | here[3]
            first, place = place + 4, place + 4 + sectors_of(length)
            demand(place <= len(self.numbers) and number > before, begin)
            sectors = self.numbers[first:place]
            for at, sector in enumerate(sectors, first):
                demand(self.is_inside(sector), self.holder(at))
                demand(sector not in used, begin)
                used.add(sector)
            placed.append(Placed(number, length, sectors))
            before = number
        demand(4 * place == self.length and all(one.length for one in placed), self.root)
        return placed

    def objects(self) -> list[tuple[int, bytes]]:
        return [
            (one.number, b"".join(self.at(sector) for sector in one.sectors)[: one.length]) for one in self.placed
        ]


def read_clock(data: bytes, version: Version = TWO) -> tuple[int, int, list[int]]:
    """The clock, the next pid, and the next number of each kind of objects."""
    demand_sound(len(data) == 12 + 4 * version.kinds)
    moment, next_pid, *numbers = struct.unpack(f">Q{1 + version.kinds}I", data)
    demand_sound(all(0 < number <= LAST_NUMBER + 1 for number in (next_pid, *numbers)))
    return moment, next_pid, numbers


class Process(NamedTuple):
    cred: Cred
    opened: dict[int, Open]


def read_processes(data: bytes, limits: Limits, next_pid: int) -> dict[int, Process]:
    """The processes by pid, with what they have open."""
    (count,) = struct.unpack(">I", data[:4].ljust(4, b"\0"))
    demand_sound(count <= limits.processes)
    at, before = 4, 0
    them = {}
    for _ in range(count):
        demand_sound(at + 16 <= len(data))
        pid, uid, gid, descriptors = struct.unpack(">IIII", data[at : at + 16])
        demand_sound(before < pid < next_pid and at + 16 + 16 * descriptors <= len(data))
        at, before, last = at + 16, pid, -1
        opened = {}
        for fd, kind, number, flags in struct.iter_unpack(">IIII", data[at : at + 16 * descriptors]):
            # A queue is open to read, to write or both, a segment with a name to read or both.
            accesses = {3: (0, 1, 2), 4: (0, 1, 2, 3), 5: (0, 2), 6: (0, 1, 2, 3)}.get(kind, ())
            demand_sound(last < fd < limits.descriptors and flags & 3 in accesses)
            opened[fd] = Open(fd, number, flags, kind)
            last = fd
        at += 16 * descriptors
        them[pid] = Process((uid, gid), opened)
    demand_sound(at == len(data))
    return them


def read_waits(data: bytes, limits: Limits, moment: int, version: Version) -> dict[int, bytes]:
    """The frames of the calls that wait, by pid. Those of message queues have no deadline; no other's has come."""
    demand_sound(len(data) >= 4)
    (count,) = struct.unpack(">I", data[:4])
    demand_sound(count <= limits.processes)
    at = 4
    them: dict[int, bytes] = {}
    for _ in range(count):
        demand_sound(at + 16 <= len(data))
        pid, deadline, length = struct.unpack(">IQI", data[at : at + 16])
        frame = data[at + 16 : at + 16 + length]
        demand_sound(len(frame) == length and is_request(frame, version))
        demand_sound(frame[4] in (0x0B, 0x0C, 0x15, 0x2A, 0x2B, 0x35) and pid not in them)
        demand_sound(deadline == NO_DEADLINE or (frame[4] >= 0x15 and moment < deadline))
        them[pid] = frame
        at += 16 + length
    demand_sound(at == len(data))
    return them


def read_queue(data: bytes, limits: Limits, version: Version) -> Queue:
    demand_sound(len(data) >= 64)
    key, uid, gid, cuid, cgid, mode, *times = struct.unpack(">iIIIIIQQQ", data[:48])
    *pids, qbytes, count = struct.unpack(">IIII", data[48:64])
    demand_sound(mode < 0o1000 and max(qbytes, count) <= limits.msgmnb)
    at, messages, marks = 64, [], b""
    if version.tagged:
        # Nobody takes a message yet.
        demand_sound(count <= limits.msgqlen and data[64:72] == struct.pack(">Q", 1))
        at, marks = 72, UNTAKEN
    head = 12 + len(marks)
    for _ in range(count):
        demand_sound(at + head <= len(data) and data[at + 8 : at + 8 + len(marks)] == marks)
        (mtype,) = struct.unpack(">q", data[at : at + 8])
        (length,) = struct.unpack(">I", data[at + head - 4 : at + head])
        text = data[at + head : at + head + length]
        demand_sound(mtype > 0 and len(text) == length <= limits.msgmax)
        messages.append((mtype, text))
        at += head + length
    queue = Queue(key, tuple(messages), (uid, gid), (cuid, cgid), mode, tuple(times), tuple(pids), qbytes)
    demand_sound(at == len(data) and queue.held() <= limits.msgmnb)
    return queue


def read_set(data: bytes, limits: Limits) -> Set:
    demand_sound(len(data) >= 44)
    key, uid, gid, cuid, cgid, mode, *times, count = struct.unpack(">iIIIIIQQI", data[:44])
    demand_sound(mode < 0o1000 and 0 < count <= limits.semmsl and len(data) == 44 + 6 * count)
    semaphores = tuple(struct.iter_unpack(">HI", data[44:]))
    demand_sound(max(value for value, _ in semaphores) <= 32767)
    return Set(key, semaphores, (uid, gid), (cuid, cgid), mode, tuple(times))


def is_name(name: bytes, most: int = 255) -> bool:
    """Whether an object may have it, or it has none."""
    return not name or (name[:1] == b"/" and 1 < len(name) <= most and b"/" not in name[1:] and 0 not in name)


def read_posix(data: bytes, limits: Limits) -> Posix:
    demand_sound(len(data) >= 44)
    uid, gid, mode, maxmsg, msgsize, *registration, count, named = struct.unpack(">11I", data[:44])
    name, at, messages = data[44 : 44 + named], 44 + named, []
    demand_sound(mode < 0o1000 and 0 < maxmsg <= limits.posix_messages and 0 < msgsize <= limits.posix_bytes)
    demand_sound(count <= maxmsg and len(name) == named and is_name(name))
    demand_sound(registration[0] <= 2 and (registration[0] or registration == [0, 0, 0, 0]))
    for _ in range(count):
        demand_sound(at + 8 <= len(data))
        priority, length = struct.unpack(">II", data[at : at + 8])
        text = data[at + 8 : at + 8 + length]
        demand_sound(priority < 32768 and len(text) == length <= msgsize)
        messages.append((priority, text))
        at += 8 + length
    demand_sound(at == len(data))
    return Posix(name, tuple(messages), (uid, gid), mode, maxmsg, msgsize, tuple(registration))


def read_named(data: bytes) -> NamedSem:
    demand_sound(len(data) >= 20)
    uid, gid, mode, value, named = struct.unpack(">5I", data[:20])
    name = data[20:]
    demand_sound(mode < 0o1000 and value <= SEM_VALUE_MAX and len(name) == named and is_name(name, 251))
    return NamedSem(name, value, (uid, gid), mode)


def read_segment(data: bytes) -> Segment:
    demand_sound(len(data) >= 24)
    uid, gid, mode, named, length = struct.unpack(">4IQ", data[:24])
    name, content = data[24 : 24 + named], data[24 + named :]
    demand_sound(mode < 0o1000 and len(name) == named and len(content) == length and is_name(name))
    return Segment(name, content, (uid, gid), mode)


def read_system_v(data: bytes, limits: Limits) -> SystemVSegment:
    demand_sound(len(data) >= 64)
    key, uid, gid, cuid, cgid, mode, *times = struct.unpack(">iIIIIIQQQ", data[:48])
    *pids, length = struct.unpack(">IIQ", data[48:64])
    content = data[64:]
    demand_sound(mode < 2 * MARKED and 0 < length <= limits.shmmax and len(content) == length)
    demand_sound(mode < MARKED or key == 0)
    return SystemVSegment(key, content, (uid, gid), (cuid, cgid), mode, tuple(times), tuple(pids))


# What may be open, by its kind and number.
Opened = dict[tuple[int, int], Posix | NamedSem | Segment | SystemVSegment]


def are_opened(them: dict[int, Process], objects: Opened) -> bool:
    """What is open is there, what has no name, or was removed, is open, and who is registered has it open by that
    descriptor."""
    opened = {(one.kind, one.number) for process in them.values() for one in process.opened.values()}
    for place, one in objects.items():
        kind, pid, fd, _ = one.registration if isinstance(one, Posix) else (0, 0, 0, 0)
        mine = them[pid].opened.get(fd) if kind and pid in them else None
        if kind and (mine is None or (mine.kind, mine.number) != place):
            return False
    return opened <= set(objects) and all(stays(one) or place in opened for place, one in objects.items())


def stays(one: Posix | NamedSem | Segment | SystemVSegment) -> bool:
    """Whether it stays if nobody has it open."""
    return one.mode < MARKED if isinstance(one, SystemVSegment) else one.name != b""


def read_adjustments(data: bytes, pids: set[int], sets: dict[int, Set]) -> dict[tuple[int, int, int], int]:
    """They rise by pid, set and number; each is of a process, at a semaphore that is there, and not 0."""
    (count,) = struct.unpack(">I", data[:4].ljust(4, b"\0"))
    demand_sound(len(data) == 4 + 12 * count)
    before = (0, 0, -1)
    them = {}
    for pid, semid, number, amount in struct.iter_unpack(">IIHh", data[4:]):
        demand_sound(before < (pid, semid, number) and amount not in (0, -32768))
        demand_sound(pid in pids and semid in sets and number < len(sets[semid].semaphores))
        before = (pid, semid, number)
        them[before] = amount
    return them


class State(NamedTuple):
    """What calls that wait are tried on."""

    them: dict[int, Process]
    objects: Opened
    queues: dict[int, Queue]
    sets: dict[int, Set]
    adjustments: dict[tuple[int, int, int], int]
    limits: Limits

    def has_to_wait(self, pid: int, frame: bytes) -> bool:
        """Whether a call, tried now, would neither be done nor refused."""
        if pid not in self.them:
            return False
        if frame[4] == 0x15:
            return self.stops_list(pid, frame)
        return self.stops_message(pid, frame) if frame[4] < 0x15 else self.stops_posix(pid, frame)

    def stops_posix(self, pid: int, frame: bytes) -> bool:
        opcode, fd = struct.unpack(">BI", frame[4:9])
        mine = self.them[pid].opened.get(fd)
        if mine is None or mine.kind != (4 if opcode == 0x35 else 3):
            return False
        one = self.objects[mine.kind, mine.number]
        if opcode == 0x35:
            return one.value == 0
        (number,), text, access = struct.unpack(">I", frame[17:21]), frame[21:], mine.flags & 3
        if mine.flags & O_NONBLOCK:
            return False
        if opcode == 0x2A:
            is_right = number < 32768 and access != 0 and len(text) <= one.msgsize
            return is_right and len(one.messages) == one.maxmsg
        return access != 1 and number >= one.msgsize and not one.messages

    def stops_message(self, pid: int, frame: bytes) -> bool:
        opcode, number, flags = struct.unpack(">BII", frame[4:13])
        cred, queue = self.them[pid].cred, self.queues.get(number)
        if queue is None or flags & IPC_NOWAIT:
            return False
        if opcode == 0x0B:
            (mtype,), text = struct.unpack(">q", frame[13:21]), frame[21:]
            is_right = mtype > 0 and len(text) <= self.limits.msgmax
            return is_right and gives(queue, cred, 2) and queue.is_full_for(text, self.limits.msgqlen)
        size, mtype = struct.unpack(">Iq", frame[13:25])
        return size <= 2147483647 and gives(queue, cred, 4) and not queue.has_one_for(mtype, flags)

    def stops_list(self, pid: int, frame: bytes) -> bool:
        (semid,), operations = struct.unpack(">I", frame[5:9]), list(struct.iter_unpack(">HhH", frame[17:]))
        one = self.sets.get(semid)
        if one is None or not 0 < len(operations) <= self.limits.semopm:
            return False
        if not all(number < len(one.semaphores) for number, _, _ in operations):
            return False
        if not all(gives(one, self.them[pid].cred, 2 if what else 4) for _, what, _ in operations):
            return False
        values = [value for value, _ in one.semaphores]
        held = [self.adjustments.get((pid, semid, number), 0) for number in range(len(values))]
        for number, what, flags in operations:
            is_stopped = values[number] != 0 if what == 0 else values[number] + what < 0
            if is_stopped:
                return not flags & IPC_NOWAIT
            values[number] += what
            if flags & SEM_UNDO:
                held[number] -= what
            if values[number] > 32767 or abs(held[number]) > 32767:
                return False
        return False


def sort_kinds(objects: list[tuple[int, bytes]], next_numbers: list[int]) -> list[dict[int, bytes]]:
    """The objects of each of six kinds by their numbers, each below the next one."""
    kinds: list[dict[int, bytes]] = [{} for _ in range(6)]
    for number, data in objects:
        kind, number = divmod(number, QUEUE_KIND)
        demand_sound(0 < kind <= len(next_numbers) and 0 < number < next_numbers[kind - 1])
        kinds[kind - 1][number] = data
    return kinds


def read_state(objects: list[tuple[int, bytes]], limits: Limits, version: Version) -> tuple[int, set[int]]:
    """The next pid, and the processes that are connected."""
    demand_sound([number for number, _ in objects[:4]] == [0, 1, 2, 3])
    moment, next_pid, next_numbers = read_clock(objects[0][1], version)
    them = read_processes(objects[1][1], limits, next_pid)
    calls = read_waits(objects[2][1], limits, moment, version)
    kinds = sort_kinds(objects[4:], next_numbers)
    most = (limits.msgmni, limits.semmni, limits.posix_queues, limits.named, limits.segments, limits.shmmni)
    demand_sound(all(len(kind) <= here for kind, here in zip(kinds, most)))
    queues = {number: read_queue(data, limits, version) for number, data in kinds[0].items()}
    sets = {number: read_set(data, limits) for number, data in kinds[1].items()}
    opened: Opened = {(3, number): read_posix(data, limits) for number, data in kinds[2].items()}
    opened |= {(4, number): read_named(data) for number, data in kinds[3].items()}
    opened |= {(5, number): read_segment(data) for number, data in kinds[4].items()}
    names = [(kind, one.name) for (kind, _), one in opened.items() if one.name]
    demand_sound(len(names) == len(set(names)))
    total = sum(len(one.content) for one in opened.values() if isinstance(one, Segment))
    demand_sound(total <= limits.segment_bytes)
    system_v = {number: read_system_v(data, limits) for number, data in kinds[5].items()}
    demand_sound(sum(len(one.content) for one in system_v.values()) <= limits.shmall)
    opened |= {(6, number): one for number, one in system_v.items()}
    demand_sound(are_opened(them, opened))
    for kind in (queues, sets, system_v):
        keys = [one.key for one in kind.values() if one.key]
        demand_sound(len(keys) == len(set(keys)))
    demand_sound(sum(len(one.semaphores) for one in sets.values()) <= limits.semmns)
    adjustments = read_adjustments(objects[3][1], set(them), sets)
    if version.tagged:
        counts = Counter(pid for pid, _, _ in adjustments)
        demand_sound(all(count <= limits.semume for count in counts.values()))
        queues_of_posix = (one for one in opened.values() if isinstance(one, Posix))
        demand_sound(sum(one.maxmsg * (8 + one.msgsize) for one in queues_of_posix) <= limits.queue_bytes)
    found = State(them, opened, queues, sets, adjustments, limits)
    demand_sound(all(found.has_to_wait(pid, frame) for pid, frame in calls.items()))
    return next_pid, set(them)


def is_request(frame: bytes, version: Version) -> bool:
    """A frame without its length, of which the server can read a request."""
    if len(frame) < 5 or not any(frame[:4]):
        return False
    fields, longest = len(frame) - 5, version.request - 5
    sizes = {0x01: (8, 8), 0x02: (0, 0), 0x0A: (8, 8), 0x0B: (16, longest), 0x0C: (20, 20)}
    sizes |= {0x0D: (4, 4), 0x0E: (20, 20), 0x0F: (4, 4)}
    sizes |= {0x14: (12, 12), 0x15: (12, longest), 0x16: (8, 8), 0x17: (8, 8), 0x18: (8, 8), 0x19: (8, 8)}
    sizes |= {0x1A: (12, 12), 0x1B: (4, 4), 0x1C: (4, longest), 0x1D: (4, 4), 0x1E: (16, 16), 0x1F: (4, 4)}
    sizes |= {0x03: (4, 4), 0x28: (17, longest), 0x29: (0, longest), 0x2A: (16, longest), 0x2B: (16, 16)}
    sizes |= {0x2C: (12, 12), 0x2D: (4, 4), 0x2E: (8, 8)}
    sizes |= {0x32: (12, longest), 0x33: (0, longest), 0x34: (4, 4), 0x35: (12, 12), 0x36: (4, 4), 0x37: (4, 4)}
    sizes |= {0x3C: (8, longest), 0x3D: (0, longest), 0x3E: (12, 12), 0x3F: (16, 16), 0x40: (12, longest), 0x41: (4, 4)}
    sizes |= {0x46: (16, 16), 0x47: (8, 8), 0x48: (4, 4), 0x49: (4, 4), 0x4A: (16, 16), 0x4B: (4, 4)}
    sizes |= {0x4C: (16, 16), 0x4D: (12, longest)}
    least, most = sizes.get(frame[4], (1, 0))
    # A SETALL has whole values, and a semop whole operations.
    unit = {0x15: 6, 0x1C: 2}.get(frame[4], 1)
    return least <= fields <= most and (fields - least) % unit == 0


def is_record(kind: int, moment: int, rest: bytes, version: Version) -> bool:
    if kind == 2:
        return is_request(rest[4:], version)
    if kind == 6 and moment:
        return False
    return len(rest) == {1: 12, 3: 8, 4: 0, 5: 4, 6: 0}.get(kind)


def read_batch(data: bytes, sector: int, version: Version) -> list[bytes]:
    """The records of a batch, from its kind on."""
    at, records = 0, []
    while at < len(data):
        demand(at + 13 <= len(data), sector)
        length, kind, moment = struct.unpack(">IBQ", data[at : at + 13])
        here = data[at + 4 : at + 4 + length]
        demand(len(here) == length >= 9 and is_record(kind, moment, here[9:], version), sector)
        records.append(here)
        at += 4 + length
    return records


class Connected:
    """Which processes are connected, event by event."""

    def __init__(self, next_pid: int, pids: set[int], most: int, version: Version = TWO) -> None:
        self.next_pid, self.pids, self.most, self.version = next_pid, pids, most, version

    def takes(self, here: bytes) -> bool:
        kind, rest = here[0], here[9:]
        if kind == 6:
            self.pids.clear()
            # On version 3 pids begin with 1 in each life.
            self.next_pid = 1 if self.version.number == 3 else self.next_pid
        if kind == 1 and len(self.pids) < self.most and self.next_pid <= LAST_NUMBER:
            self.pids.add(self.next_pid)
            self.next_pid += 1
        if kind in (2, 3, 5):
            (pid,) = struct.unpack(">I", rest[:4])
            if pid not in self.pids:
                return False
            if kind == 5:
                self.pids.discard(pid)
        return True


def read_tags(image: bytes, at: int, end: int, epoch: int, number: int) -> int:
    """How many sectors the batch of this number has that stands here; none if not all of them are its own."""
    (count,) = struct.unpack(">H", image[SECTOR * at + 14 :][:2])
    if count == 0 or at + count > end:
        return 0
    wanted = (tag(epoch, number, index, count) for index in range(count))
    return count if all(image[SECTOR * (at + k) :][:16] == one for k, one in enumerate(wanted)) else 0


def read_tagged(image: bytes, epoch: int, connected: Connected, version: Version) -> list[list[bytes]]:
    """The journal of version 3: the longest run of batches that are whole, and then no sector of a later epoch."""
    at, end, batches = JOURNAL, version.objects, []
    while at < end and (count := read_tags(image, at, end, epoch, len(batches) + 1)):
        data = b"".join(bytes(image[SECTOR * (at + k) + 16 :][:TAGGED_BYTES]) for k in range(count))
        length = 4 + struct.unpack(">I", data[:4])[0]
        demand(length <= version.batch and version.sectors_of(length) == count, at)
        records = read_batch(data[4:length], at, version)
        demand(all(connected.takes(here) for here in records), at)
        batches.append(records)
        at += count
    if at < end:
        (later,) = struct.unpack(">Q", image[SECTOR * at :][:8])
        demand(later <= epoch, at)
    demand(at < end or epoch < LAST_EPOCH, version.root)
    return batches


def read_journal(image: bytes, epoch: int, connected: Connected, version: Version) -> list[list[bytes]]:
    if version.tagged:
        return read_tagged(image, epoch, connected, version)
    journal_epoch, used = struct.unpack(">QI", image[SECTOR * JOURNAL :][:12])
    if journal_epoch < epoch:
        return []
    demand(journal_epoch == epoch and used <= BODY_COUNT, JOURNAL)
    at, end, batches = BODY, BODY + used, []
    while at < end:
        (length,) = struct.unpack(">I", image[SECTOR * at :][:4])
        demand(length + 4 <= min(version.batch, SECTOR * (end - at)), at)
        records = read_batch(bytes(image[SECTOR * at + 4 :][:length]), at, version)
        demand(all(connected.takes(here) for here in records), at)
        batches.append(records)
        at += sectors_of(length + 4)
    demand(used < BODY_COUNT or epoch < LAST_EPOCH, version.root)
    return batches


def read(image: bytes, version: Version = TWO) -> Content:
    image = memoryview(image)
    if len(image) < 3 * SECTOR:
        raise Fault("not formatted")
    sectors, limits, version = read_superblock(image, version)
    # What comes after the sectors that the superblock names is no part of the device.
    image = image[: SECTOR * sectors]
    heap = Heap(image, version)
    objects = heap.objects()
    try:
        next_pid, pids = read_state(objects, limits, version)
    except Unsound:
        raise Fault(f"damaged sector {version.root}") from None
    connected = Connected(next_pid, pids, limits.processes, version)
    batches = read_journal(image, heap.epoch, connected, version)
    return Content(version, limits, heap.epoch, heap.chain, heap.placed, objects, batches)
