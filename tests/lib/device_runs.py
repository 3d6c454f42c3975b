"""Runs of the program on a device in a file, and devices of which each byte is spelled by hand."""

from __future__ import annotations

import itertools
import os
import subprocess
import sys
from pathlib import Path
from typing import Callable, NamedTuple

from device_layout import (
    BODY,
    JOURNAL,
    RESTART,
    ROOT,
    SECTOR,
    Device,
    Fault,
    NamedSem,
    Posix,
    Queue,
    Segment,
    Set,
    SystemVSegment,
    Version,
    batch,
    header,
    named_version,
    put_into_file,
    read,
    shown,
    tagged,
)

PROGRAM = os.path.abspath(sys.argv[1])
NUMBERS = itertools.count(1)

Check = Callable[[], None]


def check(holds: bool, text: str) -> None:
    if not holds:
        raise AssertionError(text)


# ---- runs of the program


class Ended(NamedTuple):
    status: int
    said: str
    printed: str
    image: bytes


def ipcd(image: bytes, command: str, script: str = "", *words: str) -> Ended:
    """Runs a command on a file that holds these bytes at first."""
    path = Path(f"device{next(NUMBERS)}")
    put_into_file(path, image)
    line = [PROGRAM, command, str(path), *words]
    ended = subprocess.run(line, input=script, capture_output=True, text=True, timeout=120)
    after = path.read_bytes()
    path.unlink()
    return Ended(ended.returncode, ended.stderr, ended.stdout, after)


def sector(image: bytes, at: int) -> bytes:
    return bytes(image[SECTOR * at : SECTOR * (at + 1)])


def is_image(found: bytes, wanted: bytes, name: str) -> None:
    check(len(found) == len(wanted), f"{name}: {len(found)} bytes, and not {len(wanted)}")
    for at in range(len(wanted) // SECTOR if found != wanted else 0):
        here, there = sector(found, at), sector(wanted, at)
        text = f"{name}: sector {at} is {here.hex()}, and not {there.hex()}"
        check(here == there, text.replace("00" * 64, "00.."))


def refuses(image: bytes, fault: str, name: str, *commands: str) -> None:
    """The checker and the program name this fault, and the file stays as it was."""
    found = fault_of(image)
    check(found == fault, f"{name}: the checker says {found!r}, and not {fault!r}")
    for command in commands or ("dump",):
        ended = ipcd(image, command)
        wanted = (1, f"ipcd: {fault}\n", "")
        check(ended[:3] == wanted, f"{name}: {ended[:3]}, and not {wanted}")
        is_image(ended.image, bytes(image), name)


def fault_of(image: bytes, version: Version | None = None) -> str:
    """What the checker says of a device, read as this version or as the one that it names; nothing if it opens."""
    try:
        read(image, version or named_version(image))
    except Fault as fault:
        return str(fault)
    return ""


def restarted(image: bytes) -> bytes:
    """A device after an open, if its journal has a sector for the restart."""
    content = read(image, named_version(image))
    version, batches = content.version, content.batches
    used = sum(version.sectors_of(4 + sum(4 + len(one) for one in them)) for them in batches)
    after = bytearray(image)
    if version.tagged:
        parts = cleared(image, JOURNAL + used, version.objects, content.epoch)
        parts[JOURNAL + used] = tagged(content.epoch, len(batches) + 1, batch(RESTART))[0]
    else:
        parts = {BODY + used: batch(RESTART), JOURNAL: header(content.epoch, used + 1)}
    for at, data in parts.items():
        after[SECTOR * at : SECTOR * (at + 1)] = data.ljust(SECTOR, b"\0")
    return bytes(after)


def cleared(image: bytes, first: int, end: int, epoch: int) -> dict[int, bytes]:
    """The sectors of these that an open fills with zeros: those of this epoch, or of a later one."""
    epochs = {at: int.from_bytes(image[SECTOR * at : SECTOR * at + 8], "big") for at in range(first, end)}
    return {at: b"" for at, found in epochs.items() if found >= epoch}


def opens(image: bytes, listed: str, name: str) -> None:
    """The program lists this, and writes the restart alone."""
    check(fault_of(image) == "", f"{name}: the checker says {fault_of(image)!r}")
    ended = ipcd(image, "dump")
    check(ended[:3] == (0, "", listed), f"{name}: {ended[:3]}, and not {listed!r}")
    is_image(ended.image, restarted(image), name)


def runs(device: Device, script: list[str], printed: list[str], wanted: Device, name: str) -> None:
    """The script prints these lines, and leaves this device."""
    ended = ipcd(device.image, "run", "".join(f"{line}\n" for line in script))
    lines = "".join(f"{line}\n" for line in printed)
    check(ended[:3] == (0, "", lines), f"{name}: {ended[:3]}, and not {lines!r}")
    is_image(ended.image, bytes(wanted.image), name)
    at_end = f"damaged sector {device.version.root}"
    check(fault_of(ended.image) in ("", at_end), f"{name}: it would not open")


def stops_at(device: Device, script: list[str], printed: list[str], wanted: Device) -> None:
    """The script ends with a device fault, and leaves this device."""
    ended = ipcd(device.image, "run", "".join(f"{line}\n" for line in script))
    lines = "".join(f"{line}\n" for line in printed)
    text = (1, "ipcd: device fault\n", lines)
    check(ended[:3] == text, f"{ended[:3]}, and not {text}")
    is_image(ended.image, bytes(wanted.image), "after a device fault")


def row(number: int, queue: Queue) -> str:
    """The line of a queue in a listing."""
    total = sum(len(text) for _, text in queue.messages)
    owner = f"{queue.mode:04o} {queue.owner[0]:10} {queue.owner[1]:10}"
    return f"msg {number:10} {queue.key:11} {owner} {total:10} {len(queue.messages):10}\n"


def row_of_set(number: int, one: Set) -> str:
    """The line of a semaphore set in a listing."""
    owner = f"{one.mode:04o} {one.owner[0]:10} {one.owner[1]:10}"
    return f"sem {number:10} {one.key:11} {owner} {len(one.semaphores):10}\n"


def row_of_posix(posix: Posix) -> str:
    """The line of a POSIX queue in a listing."""
    owner = f"{posix.mode:04o} {posix.owner[0]:10} {posix.owner[1]:10}"
    counts = f"{len(posix.messages):10} {posix.maxmsg:10} {posix.msgsize:10}"
    return f"pmq {owner} {counts} {shown(posix.name)}\n"


def row_of_named(one: NamedSem | Segment) -> str:
    """The line of a named semaphore or of a segment in a listing."""
    kind, number = ("psm", one.value) if isinstance(one, NamedSem) else ("shm", len(one.content))
    return f"{kind} {one.mode:04o} {one.owner[0]:10} {one.owner[1]:10} {number:10} {shown(one.name)}\n"


def row_of_system_v(number: int, one: SystemVSegment) -> str:
    """The line of a System V segment in a listing. Nobody has it attached after an open."""
    owner = f"{one.mode:04o} {one.owner[0]:10} {one.owner[1]:10}"
    return f"seg {number:10} {one.key:11} {owner} {len(one.content):10} {0:10}\n"


def sends(moment: int, connection: int, *frames: bytes) -> str:
    """The line of a script in which a client sends these requests."""
    data = b"".join(len(frame).to_bytes(4, "big") + frame for frame in frames)
    return f"{moment} data {connection} {data.hex()}"


def numbered(connection: int, serial: int, number: int) -> str:
    """The reply that names a pid or an identifier."""
    return f"{connection} 0000000a{serial:08x}0000{number:08x}"


def errored(connection: int, serial: int, error: int) -> str:
    """A reply without a body: 0 is success."""
    return f"{connection} 00000006{serial:08x}{error:04x}"


def recorded(connection: int, serial: int, body: bytes) -> str:
    """A reply with these bytes as its body."""
    return f"{connection} {6 + len(body):08x}{serial:08x}0000{body.hex()}"


def received(connection: int, serial: int, mtype: int, text: bytes) -> str:
    return f"{connection} {14 + len(text):08x}{serial:08x}0000{mtype:016x}{text.hex()}"


# ---- bytes that are spelled by hand

# The superblock of 1366 sectors with small limits, and of 252440 with standard ones.
SMALL_SUPERBLOCK = bytes.fromhex(
    "49504353544f5245 00000002 00000556 00000003 00000101 00000104 00000452 00000002"
    "00000004 00000002 00000040 00000080 00000002 00000004 00000008 00000004"
    "00000002 00000002 00000040 00000002 00000002 00000800 00000040 00000004"
    "00000002 00000400 00000800"
)
STANDARD_SUPERBLOCK = bytes.fromhex(
    "49504353544f5245 00000002 0003da18 00000003 00000101 00000104 0003d914 00000002"
    "00000040 00000040 00010000 00010000 00000020 00000040 00000200 00000020"
    "00000020 0000000a 00002000 00000040 00000020 00100000 00002000 00000020"
    "00000020 00100000 00100000"
)
NEW_ROOT = bytes.fromhex("0000000000000001 00000108 00000054")
NEW_HEADER = bytes.fromhex("0000000000000001 00000000")
# The four objects of a new device, and their table.
NEW_SECTORS = {
    260: bytes.fromhex("0000000000000000 00000001 00000001 00000001 00000001 00000001 00000001 00000001"),
    261: bytes.fromhex("00000000"),
    262: bytes.fromhex("00000000"),
    263: bytes.fromhex("00000000"),
    264: bytes.fromhex(
        "00000000 00000004"
        "0000000000000000 0000000000000024 00000104"
        "0000000000000001 0000000000000004 00000105"
        "0000000000000002 0000000000000004 00000106"
        "0000000000000003 0000000000000004 00000107"
    ),
}
# The superblocks of version 1, of 448 and 45830 sectors, and what else its devices have of their own.
OLD_SMALL_SUPERBLOCK = bytes.fromhex(
    "49504353544f5245 00000001 000001c0 00000003 00000101 00000104 000000bc 00000001"
    "00000004 00000002 00000040 00000080 00000002 00000004 00000008 00000004"
    "00000002 00000002 00000040 00000002 00000002 00000800 00000040 00000004"
)
OLD_STANDARD_SUPERBLOCK = bytes.fromhex(
    "49504353544f5245 00000001 0000b306 00000003 00000101 00000104 0000b202 00000001"
    "00000040 00000020 00002000 00004000 00000020 00000040 00000200 00000020"
    "00000020 0000000a 00002000 00000040 00000020 00100000 00002000 00000020"
)
OLD_CLOCK = bytes.fromhex("0000000000000000 00000001 00000001 00000001 00000001 00000001 00000001")
OLD_TABLE = bytes.fromhex(
    "00000000 00000004"
    "0000000000000000 0000000000000020 00000104"
    "0000000000000001 0000000000000004 00000105"
    "0000000000000002 0000000000000004 00000106"
    "0000000000000003 0000000000000004 00000107"
)
# Process 1, its queue 1 made at moment 3, and a message that was sent at moment 9.
SAVED_ROOT = bytes.fromhex("0000000000000002 0000010e 00000068")
SAVED_SECTORS = {
    265: bytes.fromhex("0000000000000009 00000002 00000002 00000001 00000001 00000001 00000001 00000001"),
    266: bytes.fromhex("00000001 00000001 000003e8 00000064 00000000"),
    267: bytes.fromhex("00000000"),
    268: bytes.fromhex("00000000"),
    269: bytes.fromhex(
        "000004d2 000003e8 00000064 000003e8 00000064 00000180"
        "0000000000000009 0000000000000000 0000000000000003"
        "00000001 00000000 00000080 00000001 0000000000000005 00000002 6869"
    ),
    270: bytes.fromhex(
        "00000000 00000005"
        "0000000000000000 0000000000000024 00000109"
        "0000000000000001 0000000000000014 0000010a"
        "0000000000000002 0000000000000004 0000010b"
        "0000000000000003 0000000000000004 0000010c"
        "0000000100000001 000000000000004e 0000010d"
    ),
}
# A record of each kind.
HELLO_RECORD = bytes.fromhex("00000015 01 0000000000000007 00000001 000003e8 00000064")
SEND_RECORD = bytes.fromhex(
    "00000024 02 0102030405060708 00000001 00000003 0b 00000001 00000800 0000000000000005 6869"
)
INTERRUPT_RECORD = bytes.fromhex("00000011 03 0000000000000102 00000003 00000007")
TICK_RECORD = bytes.fromhex("00000009 04 0000000000000102")
EXIT_RECORD = bytes.fromhex("0000000d 05 0000000000000009 00000003")
RESTART_RECORD = bytes.fromhex("00000009 06 0000000000000000")
LATE = 0x0102030405060708

# Four batches: a restart; a HELLO with a msgget; a send that is refused, with a tick; a tick and an
# exit.
GOOD_HEADER = bytes.fromhex("0000000000000001 00000005")
GOOD_BATCHES = {
    4: bytes.fromhex("0000000d 00000009 06 0000000000000000"),
    5: bytes.fromhex(
        "00000037 00000015 01 0000000000000000 00000001 000003e8 00000064"
        "0000001a 02 0000000000000000 00000001 00000004 0a 000004d2 00000380"
    ),
    6: bytes.fromhex(
        "00000227 00000216 02 0000000000000000 00000001 00000004 0b 00000001 00000800"
        "0000000000000005" + 500 * "07" + "00000009 04 0000000000000000"
    ),
    8: bytes.fromhex("0000001e 00000009 04 0000000000000000 0000000d 05 0000000000000000 00000001"),
}
GOOD_QUEUE = Queue(1234)
GOOD_LISTED = "msg          1        1234 0600       1000        100          0          0\n"
SAVED_QUEUE = Queue(1234, ((5, b"hi"),), times=(9, 0, 3), pids=(1, 0))
SAVED_LISTED = "msg          1        1234 0600       1000        100          2          1\n"


def good() -> Device:
    device = Device().put(JOURNAL, 0, GOOD_HEADER)
    for at, data in GOOD_BATCHES.items():
        device.put(at, 0, data)
    return device


def saved() -> Device:
    """Epoch 2 in the sectors from 265 on, over the good device's journal of epoch 1."""
    device = good().put(ROOT, 0, SAVED_ROOT)
    for at, data in SAVED_SECTORS.items():
        device.fill(at, data)
    return device
