"""Devices of which one byte is wrong: an open names the sector of the fault and leaves the file as it was, or it finds
what the changed bytes stand for.

    python3 tests/devices/damaged.py PROGRAM N < SCRIPTS

It changes each N-th byte that an open reads to three other values: of a device that the script before a line `-`
leaves; of the journal of one on which the lines after that have then run; and of one with limits of its own and many
objects, whose table has three sectors. What each has to be is said by the checker of device_layout.py. What a journal
makes of a state is found on the device without it, by clients who do what stands there. Eight new devices have a part
that is wrong.
"""

from __future__ import annotations

import os
import struct
import subprocess
import sys
import tempfile
from collections import Counter
from functools import partial
from multiprocessing import Pool
from pathlib import Path
from typing import Iterator, NamedTuple

sys.dont_write_bytecode = True
sys.path.insert(0, str(Path(__file__).resolve().parents[1] / "lib"))

from device_layout import (  # noqa: E402
    BODY,
    JOURNAL,
    LAST_NUMBER,
    MARKED,
    NAMED_KIND,
    OBJECTS,
    POSIX_KIND,
    ROOT,
    SECTOR,
    SET_KIND,
    SMALL,
    STANDARD,
    SYSTEM_V_SEGMENT_KIND,
    TABLE_BYTES,
    Connected,
    Content,
    Device,
    Fault,
    Queue,
    Set,
    clock,
    interrupt,
    processes,
    read,
    read_clock,
    read_processes,
    state,
)
from device_runs import Check, check, ipcd, is_image, refuses, restarted, sector  # noqa: E402

Objects = list[tuple[int, bytes]]

# ---- new devices

# What is wrong in words; the sector, the place in it and the bytes of each change; and what is said.
ROWS: tuple[tuple[str, tuple[tuple[int, int, bytes], ...], str], ...] = (
    ("the first byte", ((0, 0, b"i"),), "not formatted"),
    ("version 7", ((0, 8, b"\0\0\0\7"),), "version 7"),
    ("1367 sectors", ((0, 12, b"\0\0\5\x57"),), "damaged sector 0"),
    ("a root of zeros", ((ROOT, 0, bytes(16)),), f"damaged sector {ROOT}"),
    ("a journal of epoch 2", ((JOURNAL, 7, b"\2"),), "damaged sector 3"),
    ("257 used sectors", ((JOURNAL, 8, b"\0\0\1\1"),), "damaged sector 3"),
    ("a batch of more bytes than there are", ((JOURNAL, 11, b"\1"), (BODY, 0, 4 * b"\xff")), "damaged sector 4"),
    ("an object in sector 5", ((264, 24, b"\0\0\0\5"),), "damaged sector 264"),
)


def rows() -> Iterator[Check]:
    for name, changes, fault in ROWS:
        device = Device()
        for at, offset, data in changes:
            device.put(at, offset, data)
        yield partial(refuses, device.image, fault, f"a new device with {name}")


# ---- good devices


def of_tables() -> bytes:
    """32 message queues and 32 semaphore sets, in use by a process. Their keys differ in two bytes."""
    queues = {number: Queue(257 * number + 256) for number in range(1, 33)}
    sets = {number: Set(257 * number + 256) for number in range(1, 33)}
    limits = SMALL._replace(msgmni=32, semmni=32, semmns=32)
    device = Device(limits).save(2, state(clock(5, 2, 33, 33), processes((1, 0, 100)), queues, sets))
    check(len(device.chain) == 3, "a table of three sectors")
    return bytes(device.image)


def after(image: bytes, script: str) -> bytes:
    ended = ipcd(image, "run", script)
    check(ended[:2] == (0, ""), f"a script ends with {ended[:2]}")
    return ended.image


def devices(scripts: str) -> Iterator[tuple[bytes, tuple[str, ...]]]:
    """Each with the kinds of sectors of which bytes are changed."""
    first, _, second = scripts.partition("\n-\n")
    used = after(Device().image, f"{first}\n")
    yield used, KINDS
    yield after(after(used, "save\n"), second), ("superblock", "root", "journal")
    yield of_tables(), KINDS


# ---- what an open reads

KINDS = ("superblock", "root", "journal", "table", "object")


class Part(NamedTuple):
    """How many bytes from its first on an open reads of a sector of this kind."""

    kind: str
    sector: int
    length: int


def in_sectors(kind: str, length: int, sectors: list[int] | range | tuple[int, ...]) -> Iterator[Part]:
    """The parts of so many bytes in these sectors."""
    for at, one in enumerate(sectors):
        yield Part(kind, one, min(SECTOR, length - SECTOR * at))


def parts_of(image: bytes) -> Iterator[Part]:
    content, at = read(image), BODY
    yield from (Part("superblock", 0, 112), Part("root", ROOT, 16), Part("journal", JOURNAL, 12))
    for records in content.batches:
        length = 4 + sum(4 + len(one) for one in records)
        sectors = range(at, at - -length // SECTOR)
        yield from in_sectors("journal", length, sectors)
        at = sectors.stop
    (length,) = struct.unpack(">I", sector(image, ROOT)[12:16])
    for at, one in enumerate(content.chain):
        yield Part("table", one, 4 + min(TABLE_BYTES, length - TABLE_BYTES * at))
    for placed in content.placed:
        yield from in_sectors("object", placed.length, placed.sectors)


# ---- what an open makes of it


def restart(objects: Objects) -> Objects:
    """What a restart leaves of a state in which each object has a name or a key, but System V segments that were
    removed: the adjustments are added, attachments given up, and the processes, their calls that wait and their
    registrations go, and those segments."""
    them = {number: bytearray(data) for number, data in objects}
    for pid, process in read_processes(bytes(them[1]), STANDARD, LAST_NUMBER + 1).items():
        for one in process.opened.values():
            if one.kind == 6:
                segment = them[SYSTEM_V_SEGMENT_KIND + one.number]
                segment[32:40], segment[52:56] = them[0][:8], struct.pack(">I", pid)
    for pid, semid, number, amount in struct.iter_unpack(">IIHh", them[3][4:]):
        one, at = them[SET_KIND + semid], 44 + 6 * number
        (value,) = struct.unpack(">H", one[at : at + 2])
        one[at : at + 6] = struct.pack(">HI", min(max(value + amount, 0), 32767), pid)
    for number in (1, 2, 3):
        them[number] = bytearray(4)
    for number, data in them.items():
        if POSIX_KIND <= number < NAMED_KIND:
            data[20:36] = bytes(16)
    gone = [number for number, data in them.items() if number >= SYSTEM_V_SEGMENT_KIND and data[22] & MARKED >> 8]
    return [(number, bytes(data)) for number, data in them.items() if number not in gone]


def script_of(content: Content) -> Iterator[str]:
    """The lines by which clients do what stands in a journal, after the restart that it begins with."""
    connected = Connected(read_clock(content.objects[0][1])[1], set(), content.limits.processes)
    clients: dict[int, int] = {}
    for count, here in enumerate(one for records in content.batches for one in records):
        kind, (moment,), rest = here[0], struct.unpack(">Q", here[1:9]), here[9:]
        check(connected.takes(here), "a record of a process that is not connected")
        if kind == 1:
            frame = rest[:4] + b"\1" + rest[4:]
            clients[connected.next_pid - 1] = count
            yield f"{moment} open {count}"
            yield f"{moment} data {count} {len(frame):08x}{frame.hex()}"
        elif kind in (2, 3, 5):
            client = clients[int.from_bytes(rest[:4], "big")]
            frame = interrupt(int.from_bytes(rest[4:], "big")) if kind == 3 else rest[4:]
            yield f"{moment} end {client}" if kind == 5 else f"{moment} data {client} {len(frame):08x}{frame.hex()}"
        elif kind == 4:
            yield f"{moment} tick"
        else:
            check(count == 0, "a restart in mid of a journal")


# What journals make of states; most changes leave both as they were.
REPLAYED: dict[tuple, Objects] = {}


def found_on(image: bytes, content: Content) -> Objects:
    """The objects that are saved after an open."""
    if not content.batches:
        return restart(content.objects)
    key = (content.limits, tuple(content.objects), tuple(map(tuple, content.batches)))
    if key not in REPLAYED:
        emptied = bytearray(image)
        emptied[SECTOR * JOURNAL + 8 : SECTOR * JOURNAL + 12] = bytes(4)
        lines = "".join(f"{line}\n" for line in script_of(content))
        REPLAYED[key] = read(after(emptied, f"{lines}stop\nsave\n")).objects
    return REPLAYED[key]


def is_opened(image: bytes, name: str) -> None:
    """The program opens it and saves what is found: the restart is written into the journal, then the objects into free
    sectors, and the root."""
    content = read(image)
    ended = ipcd(image, "run", "save\n")
    check(ended[:3] == (0, "", ""), f"{name}: {ended[:3]}, though it opens")
    saved = read(ended.image)
    check(saved.epoch == content.epoch + 1, f"{name}: it is saved at epoch {saved.epoch}")
    check(saved.objects == found_on(image, content), f"{name}: what is found is not what stands there")
    wanted, used = bytearray(restarted(image)), {*content.chain, *(at for one in content.placed for at in one.sectors)}
    for at in [ROOT, *range(OBJECTS, len(image) // SECTOR)]:
        if at not in used:
            wanted[SECTOR * at : SECTOR * (at + 1)] = sector(ended.image, at)
    is_image(ended.image, bytes(wanted), name)


def is_refused(image: bytes, at: int, offset: int, bits: int) -> bool:
    """Turns bits of a byte over: whether that is refused. The program does what the checker says."""
    changed, name = bytearray(image), f"sector {at}, byte {offset}, bits {bits:02x}"
    changed[SECTOR * at + offset] ^= bits
    try:
        read(changed)
    except Fault as fault:
        ended = ipcd(changed, "run", "save\n")
        wanted = (1, f"ipcd: {fault}\n", "")
        check(ended[:3] == wanted, f"{name}: {ended[:3]}, and not {wanted}")
        is_image(ended.image, bytes(changed), name)
        return True
    is_opened(bytes(changed), name)
    return False


# ---- the changes


class Task(NamedTuple):
    """Changes of bytes of a device's sector: which bytes that are read, and which that are not."""

    image: bytes
    kind: str
    sector: int
    read: range
    unread: tuple[int, ...]


def tasks(scripts: str, every: int) -> Iterator[Task]:
    for image, kinds in devices(scripts):
        parts = {part.sector: part for part in parts_of(image)}
        for at in range(len(image) // SECTOR):
            part = parts.get(at, Part("", at, 0))
            there = range(0, part.length if part.kind in kinds else 0, every)
            unread = [offset for offset in {part.length, SECTOR - 1} if part.length <= offset < SECTOR]
            yield Task(image, part.kind, at, there, tuple(unread if at % every == 0 else ()))


def done(task: Task) -> tuple[Counter[str], str]:
    """What was counted of a task, and what has failed."""
    count: Counter[str] = Counter()
    try:
        for offset in task.read:
            for bits in (0x01, 0x80, 0xFF):
                count["changes"] += 1
                count[task.kind] += is_refused(task.image, task.sector, offset, bits)
        for offset in task.unread:
            count["unread"] += 1
            refused = is_refused(task.image, task.sector, offset, 0xFF)
            check(not refused, f"sector {task.sector}, byte {offset}: it is refused for what is not read")
    except (AssertionError, OSError, Fault, subprocess.SubprocessError) as fault:
        return count, str(fault)
    return count, ""


def to_own_folder() -> None:
    os.chdir(tempfile.mkdtemp(dir="."))


def main() -> None:
    scripts, every = sys.stdin.read(), int(sys.argv[2])
    total: Counter[str] = Counter()
    try:
        for row in rows():
            row()
        todo = list(tasks(scripts, every))
    except (AssertionError, OSError, subprocess.SubprocessError) as fault:
        sys.exit(f"damaged: {fault}")
    with Pool(os.cpu_count(), to_own_folder) as pool:
        for count, fault in pool.imap(done, todo, 4):
            total += count
            if fault:
                pool.terminate()
                sys.exit(f"damaged: {fault}")
    refused = ", ".join(f"{total[kind]} in {kind}s" for kind in KINDS)
    print(f"{len(ROWS)} new devices were refused")
    print(f"{total['changes']} changes of bytes: refused {refused}; ", end="")
    print(f"{total['changes'] - sum(total[kind] for kind in KINDS)} were read")
    print(f"{total['unread']} changes of bytes that are not read left the same")


if __name__ == "__main__":
    with tempfile.TemporaryDirectory() as folder:
        os.chdir(folder)
        main()
