"""How many writes and syncs the program makes on a device of version 3, in which order, and what is left if one of them
fails: of a format, of an open that clears what a torn batch has left, of commits and saves; and which sectors of the
journal a look reads.

    python3 tests/scripts/tagged_calls.py PROGRAM

The calls of the system are watched and refused by tests/lib/watch_calls.c; without a C compiler it says so, and tests
nothing. What is expected was reckoned from docs/DEVICE.md (Version 3). It takes some seconds.
"""

from __future__ import annotations

import errno
import re
import sys
from functools import partial, update_wrapper
from pathlib import Path

sys.dont_write_bytecode = True
sys.path.insert(0, str(Path(__file__).resolve().parents[1] / "lib"))

from device_layout import (  # noqa: E402
    JOURNAL,
    RESTART,
    SECTOR,
    SMALL_OF_THREE,
    TAGGED_BYTES,
    THREE as LAYOUT,
    Device,
    batch,
    connect,
    msgget,
    msgsnd,
    read,
    request,
    tag,
    tagged,
    three,
    tick,
)
from server import check, frame, in_a_folder, printed, run, run_tests  # noqa: E402
from script_calls import (  # noqa: E402
    DEVICE_FAULT,
    HELLO,
    LEFT_OF_THREE,
    RUN,
    THREE,
    WELL,
    WITHIN_OF_THREE,
    a_crash_leaves_the_message_or_not,
    a_disk_that_fails_within_a_line,
    ends,
    last_words,
    printed_of,
)
from client import msgsnd_request  # noqa: E402
from watch import Call, Disk, build, calls, refused_once, watched  # noqa: E402

WRITES = ("pwrite", "fdatasync")
OPEN, COMMIT, SAVE = "SJS", "JS", "OSRS"


def new(journal: int = 257) -> Device:
    return Device(SMALL_OF_THREE, 0, three(journal))


def letter(call: Call, journal: int) -> str:
    """Of a write the part of the device: 0 the superblock, R the root, J the journal, O objects. S is a sync."""
    if call.name == "fdatasync":
        return "S"
    places = {0: "0", LAYOUT.root: "R", 2: "?"}
    return places.get(call.sector, "J" if call.sector < JOURNAL + journal else "O")


def order(journal: int = 257) -> str:
    """A letter for each write and sync that has succeeded."""
    return "".join(letter(call, journal) for call in calls() if call.name in WRITES and call.result >= 0)


def makes(name: str, script: str, wanted: str, journal: int = 257) -> None:
    """A script on a new device makes these writes and syncs, in this order."""
    printed("format", "device", "--small", "--journal", str(journal))
    with watched():
        printed_of(name, script)
    check(order(journal) == wanted, f"{name}: the calls are {order(journal)}, and not {wanted}")


def written() -> list[tuple[int, int]]:
    """Of each write into the journal its first sector and how many it has."""
    writes = (call for call in calls() if call.name == "pwrite" and letter(call, 257) == "J")
    return [(call.sector, call.size // SECTOR) for call in writes]


# ---- opens, commits and saves


def writes_and_syncs() -> None:
    """An open makes one write and two syncs, a commit one of each, a save two of each, and an `open` none."""
    makes("an open", "0 open 1\n", OPEN)
    names = [call.name for call in calls() if call.name in ("pread", *WRITES)]
    check(names[0] == "fdatasync" and "pread" in names, f"an open begins with {names[0]}, and not with a sync")
    makes("a HELLO and three ticks", f"0 open 1\n0 data 1 {HELLO}\n" + 3 * "0 tick\n", OPEN + 4 * COMMIT)
    makes("four saves of nothing", 4 * "save\n", OPEN + 4 * SAVE)
    made = f"0 open 1\n0 data 1 {HELLO}\nsave\n0 end 1\n"
    makes("a save between commits", made, OPEN + COMMIT + SAVE + COMMIT)
    makes("257 ticks and two more", 259 * "0 tick\n", OPEN + 256 * COMMIT + SAVE + 2 * COMMIT)
    makes("ten opens of a journal of 8", 9 * "stop\n", 8 * OPEN + "S" + SAVE + OPEN, 8)


# The lengths of the texts in a line, the bytes of their batch, and its sectors. A batch has 4 bytes of its length, the
# tick of the line, 13, and 38 and the text for each.
BATCHES = [((2,), 57, 1), ((441,), 496, 1), ((442,), 497, 2), ((441, 458), 992, 2), ((441, 459), 993, 3)]
BATCHES += [((65771,), 65826, 133)]


def batches() -> None:
    """A commit writes the sectors of its batch, up to 64 of them by one call, and syncs once."""
    for lengths, size, sectors in BATCHES:
        sends = b"".join(frame(2, msgsnd_request(1, 5, length * b"\7")) for length in lengths)
        name = f"texts of {lengths} bytes"
        pieces = [min(64, sectors - at) for at in range(0, sectors, 64)]
        wanted = OPEN + COMMIT + len(pieces) * "J" + "S"
        makes(name, f"0 open 1\n0 data 1 {HELLO}\n0 data 1 {sends.hex()}\n", wanted)
        sizes = [count for _, count in written()]
        check(sizes == [1, 1, *pieces], f"{name}: {sizes} sectors are written")
        image = Path("device").read_bytes()
        found = read(image, LAYOUT).batches[2]
        length = 4 + sum(4 + len(record) for record in found)
        check(length == size, f"{name}: the batch has {length} bytes, and not {size}")


# A HELLO, msgget with key 1234, and a send of `hi` of type 5 to that queue, each in a line of its own: batches 2, 3 and
# 4, after that of the restart.
MESSAGE = f"""\
0 open 1
0 data 1 {HELLO}
0 data 1 0000000d000000020a000004d200000380
0 data 1 00000017000000030b000000010000080000000000000000056869
"""
# The sector of the send: epoch 1, batch 4, index 0, count 1, and then 57 bytes: the length of the records, a tick and
# the call, each with its length.
SENT = bytes.fromhex(
    "0000000000000001 00000004 0000 0001 00000035 00000009 04 0000000000000000"
    "00000024 02 0000000000000000 00000001 00000003 0b 00000001 00000800 0000000000000005 6869"
)


def a_message() -> None:
    """A send of two bytes is one write of one sector, which is spelled by hand, and one sync."""
    check(len(SENT) == 16 + 57, f"the batch has {len(SENT) - 16} bytes")
    makes("a message", MESSAGE, OPEN + 3 * COMMIT)
    last = [call for call in calls() if call.name in WRITES][-2:]
    check([call.name for call in last] == [*WRITES], f"a message ends with {last}")
    write = last[0]
    check((write.sector, write.size) == (JOURNAL + 3, SECTOR), f"sector {write.sector}, {write.size} bytes")
    check(write.data == SENT.ljust(SECTOR, b"\0"), f"the sector is {write.data.hex()}")


# ---- a look


def read_in_order() -> list[int]:
    """The sectors that were read. A program that takes no lock reads each until two reads agree: here the first two."""
    sectors = [call.sector for call in calls() if call.name == "pread"]
    check(sectors[::2] == sectors[1::2], f"not each of these is read twice: {sectors}")
    return sectors[::2]


def a_look_in_order() -> None:
    """`list` reads each sector of the journal once, in rising order, up to the first after the batches, and none after
    that: the superblock and the root before them, and once more at the end. It writes nothing."""
    batches = [batch(RESTART), three_sectors(), batch(tick(0))]
    # After five sectors of batches: none; the first two sectors of a batch of three; a sector of an earlier epoch.
    for name, tail, ends_at in (
        ("nothing after the batches", [], 5),
        ("a torn batch after them", tagged(1, 4, three_sectors())[:2], 7),
        ("the last sector of a torn batch after them", [bytes(SECTOR), tagged(1, 4, three_sectors())[1]], 5),
    ):
        device = new().journal(1, *batches)
        for at, data in enumerate(tail):
            device.put(JOURNAL + 5 + at, 0, data)
        before = bytes(device.image)
        Path("device").write_bytes(before)
        with watched():
            listed = printed("list", "device")
        check(listed == QUEUE, f"{name}: {listed!r} is listed")
        found = read_in_order()
        journal = [at for at in found if JOURNAL <= at < LAYOUT.objects]
        check(journal == list(range(JOURNAL, JOURNAL + ends_at + 1)), f"{name}: {journal} are read of the journal")
        first, last = found.index(journal[0]), found.index(journal[-1])
        check(found[first : last + 1] == journal, f"{name}: others are read between those of the journal: {found}")
        check({0, LAYOUT.root} <= set(found[:first]), f"{name}: {found[:first]} are read before the journal")
        check({0, LAYOUT.root} <= set(found[last:]), f"{name}: {found[last:]} are read after the journal")
        names = {call.name for call in calls()}
        check(not names & {*WRITES, "fsync", "ftruncate"}, f"{name}: a look makes the calls {names}")
        check(Path("device").read_bytes() == before, f"{name}: a look has changed the file")


# ---- an open after a stop that has torn a batch

QUEUE = "msg          1        1234 0600       1000        100          0          0\n"
MADE = (connect(0, 1, 1000, 100), request(0, 1, msgget(4, 1234)))


def three_sectors() -> bytes:
    """A batch of three sectors that makes a queue."""
    length = 3 * TAGGED_BYTES - 4 - sum(map(len, MADE)) - len(request(0, 1, msgsnd(5, 9, 5, b"")))
    data = batch(MADE[0], request(0, 1, msgsnd(5, 9, 5, length * b"\7")), MADE[1])
    check(len(data) == 3 * TAGGED_BYTES, "the batch does not fill three sectors")
    return data


def torn(*kept: int) -> bytes:
    """A device on which a restart is the first batch, and of these sectors of a second one of three are new."""
    device = new().journal(1, batch(RESTART))
    parts = tagged(1, 2, three_sectors())
    for at in kept:
        device.put(JOURNAL + 1 + at, 0, parts[at])
    return bytes(device.image)


# The sectors that are new, and the writes that clear them: neighbours by one.
TORN = [((0, 2), [(4, 1), (6, 1)]), ((0, 1), [(4, 2)]), ((1, 2), [(5, 2)]), ((0,), [(4, 1)]), ((1,), [(5, 1)])]
TORN += [((2,), [(6, 1)]), ((), [])]


def opens_after_a_torn_batch() -> None:
    """An open writes zeros over what is left of a torn batch, and syncs, before its restart comes there. If nothing is
    left it makes neither."""
    for kept, zeros in TORN:
        Path("device").write_bytes(torn(*kept))
        with watched():
            printed_of(f"{kept} are new", "")
        wanted = "S" + len(zeros) * "J" + ("S" if zeros else "") + COMMIT
        check(order() == wanted, f"{kept} are new: the calls are {order()}, and not {wanted}")
        check(written() == [*zeros, (4, 1)], f"{kept} are new: {written()} is written")
        data = [call.data for call in calls() if call.name == "pwrite"]
        check(all(not any(it) for it in data[:-1]), f"{kept} are new: not zeros are written")
        wanted_image = bytes(new().journal(1, batch(RESTART), batch(RESTART)).image)
        check(Path("device").read_bytes() == wanted_image, f"{kept} are new: more is left than two restarts")


def another_batch_after_the_restart() -> None:
    """Directly after the restart's sector one of the same epoch that is of batch 9 is no batch, and no damage. An open
    writes zeros over it, and syncs, before its own restart comes there."""
    device = new().journal(1, batch(RESTART)).put(JOURNAL + 1, 0, tag(1, 9, 0, 1) + TAGGED_BYTES * b"\xee")
    Path("device").write_bytes(bytes(device.image))
    with watched():
        printed_of("batch 9 after the restart", "")
    check(order() == "SJS" + COMMIT, f"batch 9 after the restart: the calls are {order()}")
    data = [(call.sector, call.data) for call in calls() if call.name == "pwrite"]
    restart = tagged(1, 2, batch(RESTART))[0].ljust(SECTOR, b"\0")
    check(data == [(4, bytes(SECTOR)), (4, restart)], f"batch 9 after the restart: {data} is written")


def clearing_that_fails() -> None:
    """Each call of an open that clears is refused: nothing is written or synced after it, and what is left, with and
    without what was not synced, opens to the same."""
    fresh = torn(0, 2)
    # The syncs are that of the open, of the zeros and of the restart; the writes two of zeros, and the restart.
    for refused in (f"{name} {at} {errno.EIO}" for name in WRITES for at in (1, 2, 3)):
        Path("device").write_bytes(fresh)
        with watched(refused):
            ends(f"with {refused} refused", DEVICE_FAULT, "", "", *RUN)
        refused_once(calls())
        disk = Disk(fresh)
        for call in calls():
            disk.does(call)
        for content in (Path("device").read_bytes(), bytes(disk.lasting)):
            Path("device").write_bytes(content)
            check(printed("list", "device") == "", f"with {refused} refused: something is listed")
            ends(f"with {refused} refused, opened again", WELL, "", "", *RUN)
            # The restarts: the first, that of the open which failed, if it is there, and that of the next.
            count = sectors_of_epoch(Path("device").read_bytes())
            check(count in (2, 3), f"with {refused} refused: {count} sectors are of the epoch")


def sectors_of_epoch(image: bytes) -> int:
    """How many sectors of the journal name epoch 1."""
    return sum(image[SECTOR * at :][:8] == (1).to_bytes(8, "big") for at in range(JOURNAL, LAYOUT.objects))


# ---- a format


def in_use() -> bytes:
    """A device with a queue in its journal."""
    return bytes(new().journal(1, batch(RESTART), batch(tick(0), *MADE)).image)


FORMAT = ("format", "device", "--small", "--journal", "257")


def format_in_order() -> None:
    """The superblock goes first and comes last. Between the first sync and the second come zeros over the journal, the
    objects and the root; 265 sectors and the root are written so."""
    Path("device").write_bytes(in_use())
    with watched():
        printed(*FORMAT)
    found = re.sub("[JO]+", "J", order())
    check(found == "0SJRS0S", f"a format makes these calls: {found}")
    pieces = [(call.sector, call.size // SECTOR) for call in calls() if call.name == "pwrite"]
    sectors = [at + k for at, count in pieces for k in range(count)]
    check(sectors == [0, *range(3, 265), 1, 0], f"a format writes the sectors {sectors}")
    image = Path("device").read_bytes()
    check(image == bytes(new().image), "a device in use that was formatted is no new one")


def format_that_fails() -> None:
    """Each call of a format of a device in use is refused. What is left, with and without what was not synced, is that
    device, none, or a new one: no superblock stands beside a journal that is not its own."""
    Path("device").write_bytes(in_use())
    with watched():
        printed(*FORMAT)
    made = [call.name for call in calls() if call.name in WRITES]
    seen = set()
    for at, name in enumerate(made):
        refused = f"{name} {made[: at + 1].count(name)} {errno.EIO}"
        Path("device").write_bytes(in_use())
        with watched(refused):
            ended = run(*FORMAT)
        check((ended.returncode, ended.stderr) == DEVICE_FAULT, f"a format with {refused} refused: {ended}")
        refused_once(calls())
        disk = Disk(in_use())
        for call in calls():
            disk.does(call)
        for content in (Path("device").read_bytes(), bytes(disk.lasting)):
            Path("device").write_bytes(content)
            found = run("list", "device")
            left = (found.returncode, found.stdout, found.stderr)
            check(left in ((0, QUEUE, ""), (0, "", ""), (1, "", "ipcd: not formatted\n")), f"{refused}: {left}")
            # A device that opens is the old one up to the first sync, and the new one from the last write on.
            if left[0] == 0:
                check((left[1] == QUEUE) == (at < 2), f"with {refused} refused: {left}")
            seen.add(left)
    check(len(seen) == 3, f"of the old device, none and a new one only {seen} were seen")


# ---- failures of commits, as version 2 has them


def named(name: str, test: partial[None]) -> partial[None]:
    """A test of script_calls.py, with what version 3 has of its own."""
    update_wrapper(test, test.func)
    test.__name__ = name
    return test


TESTS = [
    writes_and_syncs,
    batches,
    a_message,
    a_look_in_order,
    opens_after_a_torn_batch,
    another_batch_after_the_restart,
    clearing_that_fails,
    format_in_order,
    format_that_fails,
    named("last_words", partial(last_words, THREE)),
    named("a_disk_that_fails_within_a_line", partial(a_disk_that_fails_within_a_line, THREE, WITHIN_OF_THREE)),
    named("a_crash_leaves_the_message_or_not", partial(a_crash_leaves_the_message_or_not, THREE, LEFT_OF_THREE)),
]


def main() -> None:
    with in_a_folder(300):
        if build("tagged_calls"):
            run_tests("tagged_calls", TESTS)


if __name__ == "__main__":
    main()
