"""Devices of version 3: their superblock, their size and their journal of tagged sectors. Which open, what an open
leaves of a torn batch, and what a format, a commit and a save write."""

from __future__ import annotations

import itertools
import struct
from functools import partial
from typing import Iterator

from device_layout import (
    JOURNAL,
    LAST_EPOCH,
    NONE,
    RESTART,
    SECTOR,
    SMALL,
    SMALL_OF_THREE,
    STANDARD_OF_THREE,
    TAGGED_BYTES,
    THREE,
    Device,
    Limits,
    Queue,
    area_of,
    batch,
    clock,
    connect,
    hello,
    leave,
    msgget,
    msgrcv,
    msgsnd,
    need_of,
    processes,
    request,
    root,
    start,
    state,
    superblock,
    tag,
    tagged,
    three,
    tick,
)
from device_runs import (
    NEW_ROOT,
    NEW_SECTORS,
    Check,
    cleared,
    check,
    errored,
    fault_of,
    ipcd,
    is_image,
    numbered,
    opens,
    received,
    recorded,
    refuses,
    row,
    runs,
    sector,
    sends,
    stops_at,
)

# ---- bytes that are spelled by hand

# The superblock of 322 sectors with small limits and a journal of 257, and of 91426 with standard ones.
SMALL_SUPERBLOCK = bytes.fromhex(
    "49504353544f5245 00000003 00000142 00000003 00000101 00000104 0000003e 00000001"
    "00000004 00000002 00000040 00000080 00000002 00000004 00000008 00000004"
    "00000002 00000002 00000040 00000002 00000002 00000800 00000040 00000004"
    "00000002 00000400 00000800 00000008 00000004 00000120 00000000 00000000"
)
STANDARD_SUPERBLOCK = bytes.fromhex(
    "49504353544f5245 00000003 00016522 00000003 00000101 00000104 0001641e 00000001"
    "00000040 00000040 00010000 00010000 00000020 00000040 00000200 00000020"
    "00000020 0000000a 00002000 00000040 00000020 00100000 00002000 00000020"
    "00000020 00100000 00100000 00001000 00000200 00280a00 00000000 00000000"
)
# The restart that the first open of a device commits, the first batch at epoch 1.
FIRST_RESTART = bytes.fromhex("0000000000000001 00000001 0000 0001 0000000d 00000009 06 0000000000000000")
# HELLO of process 1, its queue 1 of key 1234 at the same moment, and `hi` of type 5 sent to it: batches 2, 3 and 4.
SENT = bytes.fromhex(
    "0000000000000001 00000004 0000 0001 00000035 00000009 04 0000000000000000"
    "00000024 02 0000000000000000 00000001 00000003 0b 00000001 00000800 0000000000000005 6869"
)


def new(journal: int = 257, limits: Limits = SMALL_OF_THREE, sectors: int = 0) -> Device:
    """A new device with a journal of so many sectors."""
    return Device(limits, sectors, three(journal))


def welcomed(connection: int, serial: int, pid: int) -> str:
    """The reply to HELLO: the pid and the version."""
    return recorded(connection, serial, struct.pack(">II", pid, 3))


def spelled() -> None:
    """The writer's bytes are those that are spelled by hand, and sizes those of the page."""
    wanted = bytearray(322 * SECTOR)
    for at, data in {0: SMALL_SUPERBLOCK, 1: NEW_ROOT, **NEW_SECTORS}.items():
        wanted[SECTOR * at : SECTOR * at + len(data)] = data
    is_image(new().image, bytes(wanted), "a device of version 3")
    check(superblock(STANDARD_OF_THREE, 91426, THREE) == STANDARD_SUPERBLOCK, "the standard superblock")
    check(tagged(1, 1, batch(RESTART)) == [FIRST_RESTART.ljust(SECTOR, b"\0")], "a tagged restart")
    for limits, journal, sizes in (
        (SMALL_OF_THREE, 257, (31, 322)),
        (SMALL_OF_THREE, 8, (31, 73)),
        (STANDARD_OF_THREE, 257, (45583, 91426)),
        (STANDARD_OF_THREE, 8, (45583, 91177)),
    ):
        found = (area_of(limits, three(journal)), need_of(limits, three(journal)))
        check(found == sizes, f"a journal of {journal} sectors: sizes {found}, and not {sizes}")
    lengths = {1: 1, 496: 1, 497: 2, 992: 2, 993: 3, 131072: 265}
    check({it: THREE.sectors_of(it) for it in lengths} == lengths, "sectors of batches")


# ---- formats


def format_of(before: bytes, journal: int, limits: Limits, sectors: int, *words: str) -> bytes:
    """What a format leaves of a file. It prints how many sectors the device has."""
    ended = ipcd(before, "format", "", "--journal", str(journal), *words)
    wanted = (0, "", f"formatted {sectors} sectors\n")
    check(ended[:3] == wanted, f"a format with {words}: {ended[:3]}, and not {wanted}")
    image = bytearray(before[: SECTOR * sectors].ljust(SECTOR * sectors, b"\0"))
    made = new(journal, limits, sectors).image
    first = JOURNAL + journal
    for at in (0, 1, *range(JOURNAL, first + 5)):
        image[SECTOR * at : SECTOR * (at + 1)] = sector(made, at)
    is_image(ended.image, bytes(image), f"a format with a journal of {journal} sectors and {words}")
    return ended.image


def formatted(journal: int, limits: Limits, sectors: int, *words: str) -> None:
    """A format of a file that is not zeros writes zeros to the journal, and leaves what it need not write."""
    image = format_of(sectors * SECTOR * b"\xee", journal, limits, sectors, *words)
    opens(image, "", f"{sectors} sectors")


def not_formatted(journal: int, need: int, sectors: int, *words: str) -> None:
    before = 700 * b"\xee"
    ended = ipcd(before, "format", "", "--journal", str(journal), "--sectors", str(sectors), *words)
    wanted = (1, f"ipcd: too small, {need} sectors needed\n", "", before)
    check(ended == wanted, f"a format of {sectors} sectors: {ended}")


def refused_words(*words: str) -> None:
    """A command line that is refused leaves a device as it was."""
    device = used()
    ended = ipcd(device.image, "format", "", *words)
    check((ended.status, ended.printed) == (2, ""), f"format {words}: {ended[:3]}")
    check(ended.said.startswith("error: ") and "--journal" in ended.said, f"format {words}: {ended.said!r} is said")
    is_image(ended.image, bytes(device.image), f"format {words}")


FIRST_QUEUE = ["0 open 1", sends(0, 1, hello(1)), sends(0, 1, msgget(2, 1234)), sends(0, 1, msgsnd(3, 1, 5, b"hi"))]
FIRST_REPLIES = [welcomed(1, 1, 1), numbered(1, 2, 1), errored(1, 3, 0)]
FIRST_BATCHES = [
    batch(RESTART),
    batch(tick(0), connect(0, 1, 1000, 100)),
    batch(tick(0), request(0, 1, msgget(2, 1234))),
    batch(tick(0), request(0, 1, msgsnd(3, 1, 5, b"hi"))),
]
HELD = Queue(1234, ((5, b"hi"),), pids=(1, 0))


def used(journal: int = 257) -> Device:
    """A device with a queue of one message, of which nothing is saved."""
    return new(journal).journal(1, *FIRST_BATCHES)


def a_first_script() -> None:
    """Each line of a script is a batch. That of a message is in one sector, to the byte."""
    wanted = used()
    check(sector(wanted.image, 6) == SENT.ljust(SECTOR, b"\0"), "the batch of a message")
    check(len(FIRST_BATCHES[3]) == 57, "it has 57 bytes")
    runs(new(), FIRST_QUEUE, FIRST_REPLIES, wanted, "a first script on version 3")
    opens(wanted.image, row(1, HELD), "what a first script leaves")


def formatted_twice(before: Device, journal: int, sectors: int, *words: str) -> None:
    """A device that was in use and is formatted again holds nothing, whatever its journal had."""
    if before.version.number == 3:
        opens(before.image, row(1, HELD), "a device in use")
    image = format_of(bytes(before.image), journal, SMALL_OF_THREE, sectors, "--small", *words)
    after = ipcd(image, "list")
    check(after[:3] == (0, "", ""), f"a device that was formatted twice: {after[:3]}")
    opens(image, "", "a device that was formatted twice")


def from_three_to_two() -> None:
    """A device of version 3 in use that is formatted without a journal is of version 2, and holds nothing."""
    ended = ipcd(used().image, "format", "", "--small")
    check(ended[:3] == (0, "", "formatted 1366 sectors\n"), f"a format to version 2: {ended[:3]}")
    made = Device(SMALL)
    for at in (0, 2, JOURNAL, *range(260, 265)):
        check(sector(ended.image, at) == sector(made.image, at), f"sector {at} of version 2 is another one")
    opens(ended.image, "", "a device of version 2 that was of version 3")


def formats() -> Iterator[Check]:
    yield partial(formatted, 257, SMALL_OF_THREE, 322, "--small")
    yield partial(formatted, 8, SMALL_OF_THREE, 73, "--small")
    yield partial(formatted, 9, SMALL_OF_THREE, 100, "--small", "--sectors", "100")
    yield partial(formatted, 65535, SMALL_OF_THREE, 65600, "--small")
    yield partial(formatted, 257, STANDARD_OF_THREE, 91426)
    for journal, need, sectors, words in (
        (257, 322, 321, ("--small",)),
        (8, 73, 72, ("--small",)),
        (8, 73, 0, ("--small",)),
        (257, 91426, 91425, ()),
    ):
        yield partial(not_formatted, journal, need, sectors, *words)
    for journal in ("7", "0", "65536", "4294967296", "x", ""):
        yield partial(refused_words, "--small", "--journal", journal)
    yield partial(refused_words, "--small", "--journal", "8", "--journal", "8")
    yield partial(refused_words, "--small", "--journal")
    yield a_first_script
    yield partial(formatted_twice, used(), 257, 322)
    yield partial(formatted_twice, used(), 8, 322, "--sectors", "322")
    yield partial(formatted_twice, used(8), 257, 322)
    # What version 2 has in its header and body is no batch of version 3.
    yield partial(formatted_twice, Device().journal(1, *FIRST_BATCHES), 257, 322)
    yield from_three_to_two


# ---- the superblock

# A place in the superblock, four other bytes there, and the fault.
SUPERBLOCKS: tuple[tuple[int, int, str], ...] = (
    (8, 0, "version 0"),
    (8, 1, "version 1"),
    (8, 4, "version 4"),
    (8, 0x03000000, "version 50331648"),
    (12, 321, "damaged sector 0"),
    (12, 323, "damaged sector 0"),
    (16, 4, "damaged sector 0"),  # the journal's first sector
    (20, 7, "damaged sector 0"),  # how many it has
    (20, 0, "damaged sector 0"),
    (20, 256, "damaged sector 0"),
    (20, 258, "damaged sector 0"),
    (20, 65536, "damaged sector 0"),
    (20, 2**32 - 1, "damaged sector 0"),
    (24, 259, "damaged sector 0"),  # the object area
    (24, 261, "damaged sector 0"),
    (28, 61, "damaged sector 0"),
    (28, 63, "damaged sector 0"),
    (32, 2, "damaged sector 0"),  # the root of version 2
    (32, 0, "damaged sector 0"),
    (36, 0, "damaged sector 0"),  # processes
    (44, 129, "damaged sector 0"),  # MSGMAX above MSGMNB
    (112, 0, "damaged sector 0"),  # msgqlen
    (112, 4097, "damaged sector 0"),
    (116, 0, "damaged sector 0"),  # semume
    (116, 513, "damaged sector 0"),
    (120, 0, "damaged sector 0"),  # queue-bytes
    (120, 2624001, "damaged sector 0"),
    (124, 1, "version 3"),  # the features that a reader has to know
    (124, 2**31, "version 3"),
    (124, 0x00010000, "version 3"),
)


def changed(at: int, number: int) -> bytes:
    return bytes(new().put(0, at, struct.pack(">I", number)).image)


def superblocks() -> Iterator[Check]:
    for at, number, fault in SUPERBLOCKS:
        yield partial(refuses, changed(at, number), fault, f"{number} at {at}", "dump", "list")
    # A feature comes before what is damaged, and after what is no device.
    both = new().put(0, 124, struct.pack(">I", 1)).put(0, 32, NONE)
    yield partial(refuses, bytes(both.image), "version 3", "a feature, and a wrong root")
    yield partial(refuses, bytes(both.put(0, 0, b"J").image), "not formatted", "a feature, and no device")
    # All is as it would be with a journal of 7, of 65536: sectors that a disk has, and those that it has not.
    seven = Device(SMALL_OF_THREE, 322, three(7))
    yield partial(refuses, bytes(seven.image), "damaged sector 0", "a journal of 7 sectors")
    long = Device(SMALL_OF_THREE, 65536 + 65, three(65536))
    yield partial(refuses, bytes(long.image), "damaged sector 0", "a journal of 65536 sectors")
    # What a reader may ignore, and what nobody reads.
    for name, data in {
        "another feature": struct.pack(">I", 1),
        "many other features": 4 * b"\xff",
        "the end of the sector": NONE + 380 * b"\xee",
    }.items():
        yield partial(opens, bytes(used().put(0, 128, data).image), row(1, HELD), name)
    yield partial(refuses, bytes(new().image[:-SECTOR]), "damaged sector 0", "a device that was cut")
    yield partial(opens, bytes(used().image) + 3 * SECTOR * b"\xee", row(1, HELD), "a device that has grown")
    yield partial(refuses, bytes(new().image[: 2 * SECTOR]), "not formatted", "two sectors of a device")
    # Limits between small and standard ones, and as many sectors as they need; then one less.
    given = SMALL_OF_THREE._replace(msgqlen=9, semume=5, queue_bytes=2624000)
    yield partial(opens, bytes(new(8, given).image), "", "other limits")
    less = new(8, given, need_of(given, three(8)) - 1)
    yield partial(refuses, bytes(less.image), "damaged sector 0", "fewer sectors than limits need")
    # The two versions do not pass for each other.
    yield partial(refuses, changed(8, 2), "damaged sector 0", "version 3 that says 2")
    old = Device().put(0, 8, struct.pack(">I", 3))
    yield partial(refuses, bytes(old.image), "damaged sector 0", "version 2 that says 3")
    yield partial(opens, bytes(new(65535).image), "", "the longest journal")
    yield partial(opens, bytes(new(8).image), "", "the shortest journal")
    yield no_upgrade


def no_upgrade() -> None:
    """`upgrade` refuses version 3, and leaves the file as it was."""
    for words in ((), ("--small",)):
        ended = ipcd(used().image, "upgrade", "", *words)
        check(ended[:3] == (1, "ipcd: version 3\n", ""), f"upgrade {words}: {ended[:3]}")
        is_image(ended.image, bytes(used().image), f"upgrade {words}")


# ---- the journal: what is a batch, and what is none

QUEUE = Queue(1234)
# One batch in which process 1 comes and makes a queue, which a listing shows.
MADE = batch(connect(0, 1, 1000, 100), request(0, 1, msgget(4, 1234)))
MADE_LISTED = row(1, QUEUE)


def runs_of() -> Iterator[tuple[str, Device, str]]:
    """Devices that open, by what their journal is and what is listed then."""
    for length in (496, 497, 992, 993, 1488, 4000):
        data = exact(length)
        yield f"a batch of {length} bytes", new().journal(1, batch(RESTART), data), MADE_LISTED
        full = new().journal(1, batch(RESTART), data)
        end = 16 + (length - 1) % TAGGED_BYTES + 1
        last = JOURNAL + THREE.sectors_of(length)
        full.put(last, end, (SECTOR - end) * b"\xee")
        yield f"a batch of {length} bytes, and others after its end", full, MADE_LISTED
    three_sectors = exact(1488)
    # A field of the tag in each sector of a batch of three that is not as it has to be.
    for at, (offset, number, name) in itertools.product(
        range(3),
        (
            (0, struct.pack(">Q", 0), "an older epoch"),
            (8, struct.pack(">I", 1), "an earlier batch"),
            (8, struct.pack(">I", 3), "a later batch"),
            (8, struct.pack(">I", 0), "no batch"),
            (12, struct.pack(">H", 3), "another index"),
            (14, struct.pack(">H", 2), "a lower count"),
            (14, struct.pack(">H", 4), "a higher count"),
            (14, struct.pack(">H", 0), "no count"),
        ),
    ):
        torn = new().journal(1, batch(RESTART), three_sectors).put(JOURNAL + 1 + at, offset, number)
        yield f"{name} in sector {at} of three", torn, ""
    first = new().journal(1, batch(RESTART)).put(JOURNAL, 8, struct.pack(">I", 2))
    yield "a journal that begins with batch 2", first.tag(1, 3, JOURNAL + 1, MADE), ""
    # Of a batch that would pass the end of the journal no sector counts, also if all that are there say so.
    last = new(8).journal(1, *7 * [batch(RESTART)])
    last.put(JOURNAL + 7, 0, tagged(1, 8, exact(900))[0])
    yield "a batch past the end of the journal", last, ""
    yield "a batch that ends with the journal", new(8).journal(1, *6 * [batch(RESTART)], exact(900)), None
    # What comes after the end of the run is no batch, also one that would be.
    gap = new().journal(1, batch(RESTART)).tag(1, 3, JOURNAL + 1, MADE).tag(1, 2, JOURNAL + 2, MADE)
    yield "batch 3 before batch 2", gap, ""
    older = new().save(2, start(THREE)).journal(1, batch(RESTART), MADE)
    yield "a journal of an earlier epoch", older, ""
    begun = new().save(2, start(THREE)).journal(1, *9 * [batch(RESTART)]).journal(2, batch(RESTART), MADE)
    yield "a journal that has begun again", begun, MADE_LISTED
    empty = new().put(JOURNAL, 0, 257 * SECTOR * b"\0")
    yield "a journal of zeros", empty, ""
    yield "a batch without records", new().journal(1, batch(RESTART), batch(), MADE), MADE_LISTED


def exact(length: int) -> bytes:
    """A batch of so many bytes, at least 110, in which process 1 comes, sends texts that are refused, and makes a
    queue."""
    fixed = [connect(0, 1, 1000, 100), request(0, 1, msgget(4, 1234))]
    empty = len(request(0, 1, msgsnd(5, 9, 5, b"")))
    left = length - 4 - sum(map(len, fixed))
    sends_made = -(-left // (empty + 60000))
    texts = left - sends_made * empty
    lengths = [texts // sends_made + (1 if at < texts % sends_made else 0) for at in range(sends_made)]
    data = batch(fixed[0], *(request(0, 1, msgsnd(5, 9, 5, here * b"\7")) for here in lengths), fixed[1])
    check(len(data) == length, f"a batch of {length} bytes has {len(data)}")
    return data


# The length of the records, the sectors of the batch, and whether it is one.
COUNTS = [(492, 1, True), (493, 1, False), (2**32 - 1, 1, False), (492, 2, False), (493, 2, True), (988, 2, True)]
COUNTS += [(989, 2, False), (116, 2, False), (0, 2, False), (131068, 265, True), (131069, 265, False)]
COUNTS += [(131436, 265, False), (130940, 264, True), (130941, 265, True)]


def damaged() -> Iterator[tuple[str, Device, int]]:
    """Devices whose journal is wrong, and the sector that names it."""
    for length, count, is_one in COUNTS:
        if not is_one:
            yield f"records of {length} bytes in {count} sectors", counts_of(length, count), JOURNAL + 1
    whole = exact(1488)
    # The kind of the record after the HELLO, and that of the last one, whose sector is the third.
    for name, at in (("first", 4 + 25 + 4), ("third", 1488 - 26)):
        wrong = bytearray(whole)
        wrong[at] = 9
        device = new().journal(1, batch(RESTART), bytes(wrong))
        yield f"a record of another kind in the {name} sector", device, JOURNAL + 1
    stranger = batch(tick(0), leave(0, 7))
    yield "an exit of nobody", new().journal(1, batch(RESTART), MADE, stranger), JOURNAL + 2
    after = batch(request(0, 1, msgget(4, 1234)))
    yield "a request after a restart", new().journal(1, MADE, batch(RESTART), after), JOURNAL + 2
    yield "half a record", new().journal(1, batch(RESTART), batch(tick(0)[:-1])), JOURNAL + 1
    # A sector of a later epoch directly after the run.
    for at in (0, 1, 2):
        device = new().journal(1, *at * [batch(RESTART)]).put(JOURNAL + at, 0, tag(2, 1, 0, 1))
        yield f"a later epoch after {at} batches", device, JOURNAL + at
    device = new().journal(1, batch(RESTART)).put(JOURNAL + 1, 0, tag(LAST_EPOCH, 0, 0, 0))
    yield "the last epoch after the run", device, JOURNAL + 1
    last = new(8).journal(1, *7 * [batch(RESTART)]).put(JOURNAL + 7, 0, tag(2, 8, 0, 1))
    yield "a later epoch in the last sector", last, JOURNAL + 7
    # The first fault is named.
    both = new().journal(1, batch(RESTART), stranger).put(JOURNAL + 2, 0, tag(2, 1, 0, 1))
    yield "a wrong batch, and a later epoch after it", both, JOURNAL + 1
    yield "two wrong batches", new().journal(1, stranger, batch(tick(0)[:-1])), JOURNAL


def counts_of(length: int, count: int) -> Device:
    data = struct.pack(">I", length) + bytes(TAGGED_BYTES * count - 4)
    return new(300).journal(1, batch(RESTART), data)


def later_epochs() -> Iterator[tuple[str, Device]]:
    """What an open does not read, and clears: sectors of the epoch or of a later one which are not directly after the
    run, and one directly after it that is of this epoch and no batch."""
    yield "this epoch, and another batch", used().put(7, 0, tag(1, 9, 0, 1) + 300 * b"\xee")
    yield "this epoch, and a later sector", used().put(7, 0, tag(1, 5, 1, 3))
    yield "a later epoch further on", used().put(8, 0, tag(2, 1, 0, 1) + 496 * b"\xee")
    yield "this epoch in the last sector", used().put(259, 0, tag(1, 1, 0, 1))
    yield "later epochs all over", used().put(8, 0, 252 * (tag(LAST_EPOCH, 7, 7, 7) + 496 * b"\xee"))


def after_the_restart() -> None:
    """Directly after the restart a sector of a later epoch is damage. One of this epoch that is of batch 9 is none: an
    open clears it, and its own restart comes there, with zeros after it."""
    device = new().journal(1, batch(RESTART))
    later = device.copy().put(4, 0, tag(2, 9, 0, 1))
    refuses(bytes(later.image), "damaged sector 4", "epoch 2 after the restart", "dump", "list", "run")
    other = device.copy().put(4, 0, tag(1, 9, 0, 1) + TAGGED_BYTES * b"\xee")
    looked = ipcd(other.image, "list")
    check(looked[:3] == (0, "", ""), f"batch 9 after the restart: {looked[:3]} is listed")
    is_image(looked.image, bytes(other.image), "batch 9 after the restart: a look")
    runs(other, [], [], device.copy().journal(1, batch(RESTART), batch(RESTART)), "batch 9 after the restart")


def stays(name: str, device: Device, at: int) -> None:
    """An open leaves a sector of the journal that is of an earlier epoch."""
    before = sector(device.image, at)
    check(any(before), f"{name}: there is nothing in sector {at}")
    opens(device.image, "", name)
    ended = ipcd(device.image, "dump")
    check(sector(ended.image, at) == before, f"{name}: sector {at} has changed")


def is_cleared(name: str, device: Device) -> None:
    """`opens` compares all sectors; here one at least is zeros that was not, and `list` has left the file alone."""
    looked = ipcd(device.image, "list")
    check(looked[:3] == (0, "", row(1, HELD)), f"{name}: {looked[:3]} is listed")
    is_image(looked.image, bytes(device.image), f"{name}: a look")
    wanted = cleared(device.image, JOURNAL + 4, device.version.objects, 1)
    check(len(wanted) > 0, f"{name}: nothing is to be cleared")
    opens(device.image, row(1, HELD), name)


def opens_as(name: str, device: Device, listed: str | None) -> None:
    """The program lists this. A full journal is saved by its open, so there what a look lists is compared alone."""
    if listed is not None:
        opens(device.image, listed, name)
        return
    check(fault_of(device.image) == "", f"{name}: the checker says {fault_of(device.image)!r}")
    looked = ipcd(device.image, "list")
    check(looked[:3] == (0, "", MADE_LISTED), f"{name}: {looked[:3]} is listed")
    runs(device, [], [], device.copy().save(2, state(clock(0, 1, 2), processes(), {1: QUEUE}, version=THREE)), name)


def journals() -> Iterator[Check]:
    for name, device, listed in runs_of():
        yield partial(opens_as, name, device, listed)
    for length, count, is_one in COUNTS:
        if is_one:
            device = new(300).journal(1, batch(RESTART), exact(length + 4))
            check(THREE.sectors_of(length + 4) == count, f"{length} in {count} sectors")
            yield partial(opens, device.image, MADE_LISTED, f"records of {length} bytes in {count} sectors")
    for name, device, at in damaged():
        yield partial(refuses, bytes(device.image), f"damaged sector {at}", name, "dump", "list", "run")
    for name, device in later_epochs():
        yield partial(is_cleared, name, device)
    yield after_the_restart
    older = new().save(2, start(THREE)).journal(1, *3 * [batch(RESTART)])
    yield partial(stays, "sectors of an earlier epoch", older, JOURNAL + 2)


# ---- batches that a crash has torn


def torn(length: int, kept: tuple[int, ...]) -> None:
    """A crash in the commit of a batch leaves any of its sectors. Unless all are new the batch is not there, an open
    clears what is left of it, and a second batch, torn in the same way, is not there either."""
    data = exact(length)
    parts = tagged(1, 2, data)
    name = f"a batch of {len(parts)} sectors of which {kept} are new"
    device = new().journal(1, batch(RESTART))
    for at in kept:
        device.put(JOURNAL + 1 + at, 0, parts[at])
    is_whole = len(kept) == len(parts)
    listed = MADE_LISTED if is_whole else ""
    looked = ipcd(device.image, "list")
    check(looked[:3] == (0, "", listed), f"{name}: {looked[:3]} is listed")
    is_image(looked.image, bytes(device.image), f"{name}: a look")
    opens(device.image, listed, name)
    if is_whole:
        return
    # The restart is batch 2, in the place of the first sector; nothing is left of the other ones.
    ended = ipcd(device.image, "run")
    check(ended[:3] == (0, "", ""), f"{name}: {ended[:3]}")
    wanted = new().journal(1, batch(RESTART), batch(RESTART))
    is_image(ended.image, bytes(wanted.image), f"{name}, opened")
    again = tagged(1, 3, data)
    for at in kept:
        wanted.put(JOURNAL + 2 + at, 0, again[at])
    opens(wanted.image, "", f"{name}, twice")
    third = ipcd(wanted.image, "dump")
    rest = bytes(new().journal(1, *3 * [batch(RESTART)]).image)
    is_image(third.image, rest, f"{name}, twice and opened")


def over_a_torn_one(kept: int) -> None:
    """A batch of two sectors whose second alone was written, opened; then another one of two of which one was. What the
    first has left does not complete the second."""
    first, second = tagged(1, 2, exact(900)), tagged(1, 3, exact(901))
    device = new().journal(1, batch(RESTART)).put(JOURNAL + 2, 0, first[1])
    opens(device.image, "", "the second sector of two")
    image = bytearray(ipcd(device.image, "run").image)
    check(sector(image, JOURNAL + 2) == bytes(SECTOR), "the second sector is not cleared")
    at = JOURNAL + 2 + kept
    image[SECTOR * at : SECTOR * (at + 1)] = second[kept]
    opens(image, "", f"sector {kept} of a second batch of two")


def tears() -> Iterator[Check]:
    for length in (497, 1488):
        count = THREE.sectors_of(length)
        for more in range(count + 1):
            for kept in itertools.combinations(range(count), more):
                yield partial(torn, length, kept)
    yield from (partial(over_a_torn_one, kept) for kept in (0, 1))


# ---- what commits and saves write


def commit_of(length: int, sectors: int) -> None:
    """A script whose line makes a batch of so many bytes: it takes so many sectors."""
    send = msgsnd(2, 1, 1, (length - 55) * b"\7")
    data = batch(tick(0), request(0, 1, send))
    check((len(data), len(tagged(1, 3, data))) == (length, sectors), f"a batch of {length} bytes")
    wanted = new().journal(1, batch(RESTART), batch(tick(0), connect(0, 1, 1000, 100)), data, batch(tick(1)))
    script = ["0 open 1", sends(0, 1, hello(1)), sends(0, 1, send), "1 tick"]
    runs(new(), script, [welcomed(1, 1, 1), errored(1, 2, 22)], wanted, f"a commit of {length} bytes")
    opens(wanted.image, "", f"a commit of {length} bytes, opened")


NEXT = state(clock(0, 2, 1, version=THREE), processes((1, 1000, 100)), {}, version=THREE)


def short_journal(used_before: int, length: int, fits: bool) -> None:
    """A journal of 8 sectors of which so many are used, and then a batch of so many bytes: it is appended, or the state
    is saved, after which the next batch is the first again."""
    send = msgsnd(2, 1, 1, (length - 55) * b"\7")
    data = batch(tick(0), request(0, 1, send))
    first = [batch(RESTART), batch(tick(0), connect(0, 1, 1000, 100)), *(used_before - 2) * [batch(tick(0))]]
    wanted = new(8).journal(1, *first)
    ticks = (used_before - 2) * ["0 tick"]
    script = ["0 open 1", sends(0, 1, hello(1)), *ticks, sends(0, 1, send)]
    if fits:
        wanted.tag(1, used_before + 1, JOURNAL + used_before, data)
    else:
        wanted.save(2, NEXT)
        check(sector(wanted.image, 1)[:16] == root(2, 20, 84), "the table of the second save")
        script.append("0 tick")
        wanted.journal(2, batch(tick(0)))
    printed = [welcomed(1, 1, 1), errored(1, 2, 22)]
    runs(new(8), script, printed, wanted, f"{length} bytes after {used_before} sectors of 8")


def many_ticks(journal: int, ticks: int) -> None:
    """The restart and all ticks but one fill a journal, the next one is saved, and others begin a new one."""
    them = [batch(tick(moment)) for moment in range(ticks)]
    wanted = new(journal).journal(1, batch(RESTART), *them[: journal - 1])
    wanted.save(2, state(clock(journal - 1, 1, 1), processes(), {}, version=THREE)).journal(2, *them[journal:])
    runs(new(journal), [f"{moment} tick" for moment in range(ticks)], [], wanted, f"{ticks} ticks")
    opens(wanted.image, "", f"{ticks} ticks, opened")


def many_opens(opens_made: int) -> None:
    """Each open takes a sector of a journal of 8, and one that finds none left saves."""
    wanted, epoch, used_before = new(8), 1, 0
    for _ in range(opens_made):
        if used_before == 8:
            epoch, used_before = epoch + 1, 0
            wanted.save(epoch, start(THREE))
        else:
            wanted.tag(epoch, used_before + 1, JOURNAL + used_before, batch(RESTART))
            used_before += 1
    runs(new(8), (opens_made - 1) * ["stop"], [], wanted, f"{opens_made} opens of a journal of 8 sectors")


def saves() -> None:
    """A save writes the objects and their table into free sectors, and the root into sector 1. The journal's sectors
    stay, of an epoch before, and the next batch is number 1 at the new one."""
    wanted = used()
    objects = state(clock(0, 2, 2), processes((1, 1000, 100)), {1: HELD}, version=THREE)
    wanted.save(2, objects)
    check(sector(wanted.image, 1)[:16] == root(2, 270, 104), "the table is in sector 270")
    check(sector(wanted.image, 2) == bytes(SECTOR), "nothing is in sector 2")
    runs(new(), [*FIRST_QUEUE, "save"], FIRST_REPLIES, wanted, "a save")
    script = ["9 open 1", sends(9, 1, hello(1), msgrcv(4, 1)), "save"]
    after = wanted.copy()
    asked = (connect(9, 1, 1000, 100), request(9, 1, msgrcv(4, 1)))
    after.journal(2, batch(RESTART), batch(tick(9), *asked))
    emptied = Queue(1234, times=(0, 9, 0), pids=(1, 1))
    after.save(3, state(clock(9, 2, 2), processes((1, 1000, 100)), {1: emptied}, version=THREE))
    printed = [welcomed(1, 1, 1), received(1, 4, 5, b"hi")]
    runs(wanted, script, printed, after, "a second save, in a second life")
    opens(after.image, row(1, emptied), "a device that was saved twice")


def longest_batch() -> None:
    """A request as long as there may be takes 133 sectors with its tick. Into a journal of 8 it never fits."""
    text = bytes(number % 251 for number in range(65771))
    script = ["0 open 1", sends(0, 1, hello(1)), sends(0, 1, msgsnd(2, 1, 1, text))]
    data = batch(tick(0), request(0, 1, msgsnd(2, 1, 1, text)))
    check(len(tagged(1, 3, data)) == 133, "133 sectors")
    first = [batch(RESTART), batch(tick(0), connect(0, 1, 1000, 100))]
    printed = [welcomed(1, 1, 1), errored(1, 2, 22)]
    runs(new(), script, printed, new().journal(1, *first, data), "the longest text")
    runs(new(8), script, printed, new(8).journal(1, *first).save(2, NEXT), "the longest text in a short journal")


def commits() -> Iterator[Check]:
    yield from (partial(commit_of, *it) for it in ((496, 1), (497, 2), (992, 2), (993, 3)))
    # 7 used and one of two sectors; 6 used and the same, and of three; 2 used and as much as there is, and more.
    for used_before, length, fits in (
        (7, 496, True),
        (7, 497, False),
        (6, 992, True),
        (6, 993, False),
        (2, 6 * 496, True),
        (2, 6 * 496 + 1, False),
        (2, 8 * 496, False),
        (2, 8 * 496 + 1, False),
    ):
        yield partial(short_journal, used_before, length, fits)
    yield partial(many_ticks, 8, 11)
    yield partial(many_ticks, 257, 300)
    yield from (partial(many_opens, opens_made) for opens_made in (1, 8, 9, 10, 20))
    yield saves
    yield longest_batch


# ---- the last epoch


def at_epoch(epoch: int, used_before: int) -> Device:
    """A device with a journal of 8 sectors at this epoch, of which so many are used."""
    device = new(8).put(1, 0, root(epoch, 15, 84))
    return device.journal(epoch, *used_before * [batch(tick(0))])


def last_epoch() -> None:
    """At the last epoch the journal is filled, and then the device stops for good."""
    device = at_epoch(LAST_EPOCH, 6)
    wanted = device.copy().tag(LAST_EPOCH, 7, JOURNAL + 6, batch(RESTART), batch(tick(0)))
    stops_at(device, ["0 tick", "0 tick"], [], wanted)
    refuses(wanted.image, "damaged sector 1", "the end of the last epoch", "dump", "run")
    device = at_epoch(LAST_EPOCH - 1, 8)
    runs(device, [], [], device.copy().save(LAST_EPOCH, start(THREE)), "the last epoch but one")


def last_tail() -> None:
    """The tail is cleared at the last epoch too."""
    device = at_epoch(LAST_EPOCH, 2).put(JOURNAL + 5, 0, tag(LAST_EPOCH, 9, 0, 1))
    opens(device.image, "", "a tail at the last epoch")


# ---- all of it


def tagged_devices() -> Iterator[Check]:
    yield spelled
    yield from formats()
    yield from superblocks()
    yield from journals()
    yield from tears()
    yield from commits()
    yield last_epoch
    yield last_tail
