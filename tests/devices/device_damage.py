"""Devices with a byte or a part that is wrong: which are refused, with which words.

Where no fault stands beside a wrong byte, it is what the checker of device_layout.py says.
"""

from __future__ import annotations

import itertools
import random
import struct
from functools import partial
from typing import Iterator

from device_calls import Objects, holding
from device_layout import (
    BODY,
    JOURNAL,
    LAST_NUMBER,
    NONE,
    QUEUE_KIND,
    RESTART,
    SECTOR,
    SEGMENT_KIND,
    SEM_UNDO,
    SET_KIND,
    SMALL,
    START,
    Device,
    Limits,
    Placed,
    Queue,
    Segment,
    Set,
    Waiting,
    attached_read,
    attached_write,
    batch,
    clock,
    connect,
    header,
    hello,
    interrupt,
    interrupted,
    leave,
    msgget,
    msgrcv,
    msgsnd,
    need_of,
    processes,
    record,
    request,
    sectors_of,
    semctl_getncnt,
    semctl_getzcnt,
    semctl_rmid,
    semctl_set,
    semctl_setall,
    semctl_setval,
    semget,
    semop,
    shmat,
    shmctl_rmid,
    shmctl_set,
    shmctl_stat,
    shmdt,
    shmget,
    state,
    superblock,
    table,
    tick,
    waits,
)
from device_runs import (
    EXIT_RECORD,
    GOOD_LISTED,
    HELLO_RECORD,
    INTERRUPT_RECORD,
    RESTART_RECORD,
    SAVED_LISTED,
    SAVED_QUEUE,
    SEND_RECORD,
    TICK_RECORD,
    Check,
    check,
    good,
    numbered,
    opens,
    received,
    refuses,
    row,
    row_of_named,
    row_of_set,
    runs,
    sends,
)

# ---- the superblock

# A place in the superblock, other bytes there, and the fault.
SUPERBLOCKS: tuple[tuple[int, str, str], ...] = (
    (0, "69", "not formatted"),
    (7, "00", "not formatted"),
    (11, "00", "version 0"),
    (11, "01", "version 1"),
    (11, "07", "version 7"),
    (8, "01", "version 16777218"),
    (15, "57", "damaged sector 0"),  # 1367 sectors
    (15, "55", "damaged sector 0"),  # 1365
    (19, "02", "damaged sector 0"),  # the journal one sector earlier
    (23, "00", "damaged sector 0"),  # the journal one sector shorter
    (27, "05", "damaged sector 0"),  # the object area one sector later
    (31, "51", "damaged sector 0"),  # the object area one sector shorter
    (35, "01", "damaged sector 0"),  # the root in the sector that is not used
    (39, "00", "damaged sector 0"),  # no process
    (39, "41", "damaged sector 0"),  # more processes than the standard
    (47, "81", "damaged sector 0"),  # a message longer than a queue
    (59, "09", "damaged sector 0"),  # a set larger than all sets
    (75, "0b", "damaged sector 0"),  # more POSIX messages than the standard
    (94, "21", "damaged sector 0"),  # more bytes for a call than the standard
    (99, "21", "damaged sector 0"),  # more descriptors than the standard
    (103, "21", "damaged sector 0"),  # more System V segments than the standard
    (106, "0801", "damaged sector 0"),  # a System V segment larger than all
    (109, "10", "damaged sector 0"),  # more bytes of System V segments than the standard
    (39, "05", "damaged sector 0"),  # more processes than there is room for
    (43, "03", "damaged sector 0"),  # more queues than there is room for
    (103, "03", "damaged sector 0"),  # more System V segments than there is room for
)


def superblocks() -> Iterator[Check]:
    """Wrong bytes of a superblock after which 400 bytes are not zeros."""
    base = good().put(0, 112, 400 * b"\xee")
    yield partial(opens, base.image, GOOD_LISTED, "a superblock without zeros")
    for offset, bytes_there, fault in SUPERBLOCKS:
        image = base.copy().put(0, offset, bytes.fromhex(bytes_there)).image
        yield partial(refuses, image, fault, f"superblock {offset} {bytes_there}")
    for offset, byte in itertools.product(range(12, 112, 4), (b"\0", b"\xff")):
        image = base.copy().put(0, offset, 4 * byte).image
        yield partial(refuses, image, "damaged sector 0", f"superblock {offset} {byte.hex()}")


def sizes() -> Iterator[Check]:
    """Devices that were cut or have grown, and limits for which a device is too small."""
    image = bytes(good().image)
    faults = {0: "not formatted", 2: "not formatted"}
    faults |= dict.fromkeys((3, 4, 260, 448, 1365), "damaged sector 0")
    for sectors, fault in faults.items():
        yield partial(refuses, image[: SECTOR * sectors], fault, f"{sectors} sectors")
    for sectors in (259, 448, 1365):
        small = bytearray(image[: SECTOR * sectors])
        small[:112] = superblock(SMALL, sectors)
        yield partial(refuses, small, "damaged sector 0", f"{sectors} sectors, as they are named")
    yield from grown()
    odd = Limits(3, 2, 7, 9, 2, 1, 9, 1, 2, 3, 5, 6, 7, 9, 9, 2, 3, 5, 700)
    for limits in (SMALL, Limits(*19 * [1]), odd):
        need = need_of(limits)
        yield partial(opens, Device(limits).image, "", f"{limits}")
        yield partial(opens, Device(limits, need + 1).image, "", f"{limits}, a sector more")
        few = Device(limits, need - 1).image
        yield partial(refuses, few, "damaged sector 0", f"{limits}, a sector less")
    zeros = bytes(SECTOR * 1366)
    yield partial(refuses, zeros, "not formatted", "zeros", "dump", "run")


def grown() -> Iterator[Check]:
    """Devices with more sectors than their superblock names. What comes after those is no part of the device, so
    nothing may stand there."""
    image = bytes(good().image)
    for sectors, byte in ((1367, b"\0"), (1367, b"\xee"), (3000, b"\xee")):
        more = image.ljust(SECTOR * sectors, byte)
        yield partial(opens, more, GOOD_LISTED, f"{sectors} sectors, of which 1366 are named")
    few = bytearray(image)
    few[:112] = superblock(SMALL, 1365)
    yield partial(refuses, few, "damaged sector 0", "1366 sectors, of which 1365 are named")
    for at, offset, named in ((2, 8, 2), (264, 24, 264)):
        # The table, or an object, in the first sector after those.
        device = good().put(at, offset, bytes.fromhex("00000556"))
        more = bytes(device.image) + device.image[SECTOR * 264 : SECTOR * 265]
        yield partial(refuses, more, f"damaged sector {named}", f"sector {at} names one that is not named")


# ---- wrong bytes of the root, the objects, the header and the batches

# Of the good device: a sector, a place in it, other bytes there, and the sector that is named.
DAMAGES: tuple[tuple[int, int, str, int], ...] = (
    # The root: epoch 0, a table before the object area, after its end, far out, or in sector 0, and one of three bytes,
    # of none, and of more than the object area has.
    (2, 7, "00", 2),
    (2, 8, "00000103", 2),
    (2, 8, "00000556", 2),
    (2, 8, "ffffffff", 2),
    (2, 8, "00000000", 2),
    (2, 15, "03", 2),
    (2, 15, "00", 2),
    (2, 12, "000892b9", 2),
    (2, 12, "ffffffff", 2),
    # As many bytes as the area has, and one more than a sector has: the table's sector names no other. Bytes that are
    # left over: up to the end of the sector, four, three, one. Bytes that are missing: one, all but the count.
    (2, 12, "000892b8", 264),
    (2, 12, "000001fd", 264),
    (2, 12, "000001fc", 2),
    (2, 15, "58", 2),
    (2, 15, "57", 2),
    (2, 15, "55", 2),
    (2, 15, "53", 264),
    (2, 15, "50", 264),
    (2, 15, "04", 264),
    # A table in an object's sector and in a free one, where zeros are: no object is counted, and bytes are left over;
    # or they are not, and no object stands for no state.
    (2, 8, "00000105", 2),
    (2, 8, "0000012c", 2),
    (2, 8, "0000012c00000004", 2),
    # The last sector of the table names another: outside, free, and itself.
    (264, 3, "01", 264),
    (264, 2, "0109", 264),
    (264, 2, "0108", 264),
    # The objects: one fewer, one more, as many as can be counted; a number that comes twice, two above the next one.
    (264, 7, "03", 2),
    (264, 7, "05", 264),
    (264, 4, "ffffffff", 264),
    (264, 35, "00", 264),
    (264, 15, "01", 264),
    (264, 28, "80", 264),
    # A length of 548 takes another sector, which is the next number, 0; that of the last object another one, too. A
    # length of more sectors than there are numbers. One of 0, of the last and of the first.
    (264, 22, "02", 264),
    (264, 82, "02", 264),
    (264, 16, "ff", 264),
    (264, 83, "00", 2),
    (264, 23, "00", 264),
    # A sector outside: before the area, at its end, far out, 0, and of the journal; of the last object, too.
    (264, 24, "00000103", 264),
    (264, 24, "00000556", 264),
    (264, 24, "ffffffff", 264),
    (264, 24, "00000000", 264),
    (264, 24, "00000005", 264),
    (264, 84, "00000556", 264),
    # One that is used twice: by an object and one that comes later, by one and the one before, by the table.
    (264, 27, "05", 264),
    (264, 47, "04", 264),
    (264, 87, "04", 264),
    (264, 27, "08", 264),
    # They stand for no state: a clock of 35 bytes, of 37, of 32 as version 1 has it, of all 512; the next pid is 0, a
    # process that is not there, and another number for the adjustments.
    (264, 23, "23", 2),
    (264, 23, "25", 2),
    (264, 23, "20", 2),
    (264, 22, "0200", 2),
    (260, 11, "00", 2),
    (261, 3, "01", 2),
    (264, 75, "04", 2),
    # The header: a later epoch, and more sectors than there are.
    (3, 7, "02", 3),
    (3, 0, "80", 3),
    (3, 8, "00000101", 3),
    (3, 8, "ffffffff", 3),
    # It counts one sector of the two of a batch.
    (3, 11, "03", 6),
    # The lengths of the batches: past what is used, into the zeros, one byte too few or too many.
    (4, 0, "ffffffff", 4),
    (6, 0, "000005fd", 6),
    (8, 0, "000001fd", 8),
    (8, 0, "000001fc", 8),
    (4, 3, "0c", 4),
    (4, 3, "0e", 4),
    (5, 3, "36", 5),
    (6, 3, "26", 6),
    (8, 3, "1f", 8),
    # The kinds and lengths of records.
    (5, 8, "00", 5),
    (5, 8, "03", 5),
    (5, 8, "04", 5),
    (7, 34, "07", 6),
    (5, 7, "14", 5),
    (5, 7, "16", 5),
    (7, 33, "0a", 6),
    (8, 20, "0c", 8),
    (8, 17, "ffffffff", 8),
    # A restart that has a moment.
    (4, 16, "01", 4),
    # A request without a serial, with an opcode that none has, and with another size than msgget's.
    (5, 49, "00", 5),
    (5, 50, "ff", 5),
    (5, 50, "0c", 5),
    # Processes that are not connected: in a request, in an exit, and after a restart in place of
    # the tick.
    (5, 45, "02", 5),
    (5, 45, "00", 5),
    (6, 20, "02", 6),
    (8, 33, "02", 8),
    (8, 8, "06", 8),
)

# A sector of the good device, a place in it, other bytes there with which it opens, and whether the
# queue is there then: a later epoch of the objects; an earlier one of the journal, whatever it
# counts; a count without the last batch, or with a batch of no records; a batch emptied; bytes
# that mean nothing; and an object in another sector, in which the same bytes are.
FREE: tuple[tuple[int, int, str, bool], ...] = (
    (2, 7, "02", False),
    (2, 0, "ffffffffffffffff", False),
    (3, 7, "00", False),
    (3, 7, "00ffffffff", False),
    (3, 11, "00", False),
    (3, 11, "04", True),
    (3, 11, "06", True),
    (4, 3, "00", True),
    (0, 112, "01", True),
    (0, 511, "01", True),
    (1, 0, "01", True),
    (1, 0, "0000000000000009ffffffff", True),
    (3, 12, "01", True),
    (4, 17, "01", True),
    (7, 43, "01", True),
    (8, 34, "01", True),
    (9, 0, "01", True),
    (2, 16, "01", True),
    (260, 36, "01", True),
    (261, 4, "01", True),
    (264, 88, "01", True),
    (265, 0, "01", True),
    (1365, 511, "01", True),
    (264, 47, "09", True),
)

# A sector, a place in it, and what is said if this byte is wrong, and those of the rows before.
ORDER: tuple[tuple[int, int, str], ...] = (
    (8, 8, "damaged sector 8"),
    (5, 8, "damaged sector 5"),
    (3, 0, "damaged sector 3"),
    (260, 8, "damaged sector 2"),
    (264, 24, "damaged sector 264"),
    (2, 8, "damaged sector 2"),
    (0, 99, "damaged sector 0"),
    (0, 8, "version 4278190082"),
    (0, 0, "not formatted"),
)


def damages() -> Iterator[Check]:
    yield partial(opens, good().image, GOOD_LISTED, "the good device")
    for at, offset, bytes_there, named in DAMAGES:
        image = good().put(at, offset, bytes.fromhex(bytes_there)).image
        name = f"sector {at}, {offset}: {bytes_there}"
        yield partial(refuses, image, f"damaged sector {named}", name)


def order() -> Iterator[Check]:
    """The first fault decides: each byte is wrong, from the last to the first."""
    device = good()
    for at, offset, fault in ORDER:
        device.put(at, offset, b"\xff")
        name = f"sector {at}, {offset}, and others"
        yield partial(refuses, device.copy().image, fault, name, "dump", "run")


def free_bytes() -> Iterator[Check]:
    for at, offset, bytes_there, has_queue in FREE:
        image = good().put(at, offset, bytes.fromhex(bytes_there)).image
        listed = GOOD_LISTED if has_queue else ""
        yield partial(opens, image, listed, f"sector {at}, {offset}: {bytes_there}")


# ---- objects that stand for no state

def objects_with(
    number: int = 9,
    at: int = 0,
    byte: int = 0,
    queue: int = QUEUE_KIND + 1,
    last: int = SET_KIND + 1,
) -> Objects:
    """Process 1, its queue and its semaphore set, with a byte of an object changed, and these numbers."""
    objects = state(clock(9, 2, 2, 2), processes((1, 1000, 100)), {1: SAVED_QUEUE}, {1: SAVED_SET})
    changed = []
    for index, (name, data) in enumerate(objects):
        if index == number:
            data = data[:at] + bytes([byte]) + data[at + 1 :]
        changed.append(({4: queue, 5: last}.get(index, name), data))
    return changed


# Two semaphores: 2, which process 1 changed last, and 0, which nobody has changed.
SAVED_SET = Set(99, ((2, 1), (0, 0)), times=(8, 7))

# The object, the byte in it, and its value.
NO_STATE: tuple[tuple[int, int, int], ...] = (
    (0, 11, 1),  # the next pid is that of the process
    (0, 15, 1),  # the next identifier is that of the queue
    (0, 19, 1),  # the next identifier is that of the set
    (0, 23, 0),  # the next POSIX queue is 0
    (0, 27, 0),  # the next named semaphore is 0
    (0, 31, 0),  # the next segment is 0
    (0, 35, 0),  # the next System V segment is 0
    (1, 3, 2),  # one process more than there are
    (1, 7, 2),  # a process with the next pid
    (1, 19, 1),  # a descriptor
    (2, 3, 1),  # one call more than waits
    (3, 3, 1),  # an adjustment
    (4, 22, 3),  # a mode of ten bits
    (4, 58, 1),  # more bytes than a queue may have
    (4, 63, 2),  # one message more than there are
    (4, 63, 0),  # one message less
    (4, 71, 0),  # a message of type 0
    (4, 75, 1),  # a byte left over
    (4, 75, 3),  # a text past the end
    (5, 22, 3),  # a mode of ten bits
    (5, 43, 1),  # one semaphore less than there are
    (5, 43, 3),  # one semaphore more
    (5, 43, 0),  # no semaphore
    (5, 44, 0x80),  # a value of 32770
)


def unsound() -> Iterator[tuple[str, Objects]]:
    """States that break a rule, each once."""
    at_nine = clock(9, 9, 9)
    for name, pids in {
        "two processes of one pid": (1, 1),
        "pids that fall": (2, 1),
        "pid 0": (0,),
        "five processes": (1, 2, 3, 4, 5),
    }.items():
        yield name, state(at_nine, processes(*((pid, 0, 0) for pid in pids)), {})
    for name, queues in {
        "two queues of one key": {1: Queue(5), 2: Queue(5)},
        "three queues": {1: Queue(0), 2: Queue(0), 3: Queue(0)},
        "queue 0": {0: Queue(5)},
        "a type below 0": {1: Queue(5, ((-1, b""),))},
        "a text of 65 bytes": {1: Queue(5, ((1, bytes(65)),))},
        "129 bytes": {1: Queue(5, ((1, bytes(64)), (1, bytes(64)), (1, b"a")))},
        "129 messages": {1: Queue(5, 129 * ((1, b""),))},
        "129 bytes for qbytes": {1: Queue(5, qbytes=129)},
        "ten bits of mode": {1: Queue(5, mode=0o1000)},
    }.items():
        yield name, state(at_nine, processes(), queues)
    for name, sets in {
        "two sets of one key": {1: Set(5), 2: Set(5)},
        "three sets": {1: Set(0), 2: Set(0), 3: Set(0)},
        "set 0": {0: Set(5)},
        "a set of no semaphore": {1: Set(5, ())},
        "a set of five semaphores": {1: Set(5, 5 * ((0, 0),))},
        "a value of 32768": {1: Set(5, ((0, 0), (32768, 0)))},
        "a set with ten bits of mode": {1: Set(5, mode=0o1000)},
    }.items():
        yield name, state(clock(9, 9, 9, 9), processes(), {}, sets)
    for one_set in (0, LAST_NUMBER + 2):
        yield f"next set {one_set}", state(clock(0, 1, 1, one_set), processes(), {})
    for pid, queue in ((0, 1), (LAST_NUMBER + 2, 1), (1, 0), (1, LAST_NUMBER + 2)):
        yield f"next numbers {pid} and {queue}", state(clock(0, pid, queue), processes(), {})
    for index, data in ((0, clock(0, 1, 1) + NONE), (1, NONE + b"\0"), (2, b"\0"), (3, bytes(5))):
        others = START[:index], START[index + 1 :]
        yield f"{len(data)} bytes of object {index}", [*others[0], (index, data), *others[1]]
    for index in range(4):
        yield f"no object {index}", START[:index] + START[index + 1 :]
    yield "an object more", [*START, (4, NONE)]
    yield "an object of a later kind", [*START, (7 * QUEUE_KIND + 1, NONE)]
    yield "no object", []


def no_states() -> Iterator[Check]:
    listed = SAVED_LISTED + row_of_set(1, SAVED_SET)
    yield partial(opens, holding(objects_with()).image, listed, "objects as they are")
    for row_of in NO_STATE:
        image = holding(objects_with(*row_of)).image
        yield partial(refuses, image, "damaged sector 2", f"object, byte and value {row_of}")
    for queue in (4, QUEUE_KIND + 2, SET_KIND):
        image = holding(objects_with(queue=queue)).image
        yield partial(refuses, image, "damaged sector 2", f"number {queue} of a queue")
    for last in (QUEUE_KIND + 2, SET_KIND, SET_KIND + 2, 3 * QUEUE_KIND + 1):
        image = holding(objects_with(last=last)).image
        yield partial(refuses, image, "damaged sector 2", f"number {last} of a set")
    for name, objects in unsound():
        yield partial(refuses, holding(objects).image, "damaged sector 2", name)


# ---- tables of several sectors, and objects in any order

# Forty objects of four sectors each have a table of 321 numbers, in these three sectors. Object k, from 0 on, has the
# number k + 1. Its eight numbers begin at place 8 * k + 1: two of its number, two of its length, and its sectors. The
# second sector of the table begins with number 127, the third with 254: so object 15, whose numbers are 121 to 128, and
# object 31, whose are 249 to 256, stand in two.
CHAIN = (400, 270, 350)
FORTY = [(number, 1537 * bytes([number])) for number in range(1, 41)]

# A sector of the table, the next one that it names then, and the sector that is named.
CHAINS: tuple[tuple[int, int, int], ...] = (
    (400, 259, 400),  # outside
    (400, 1366, 400),
    (400, 0, 400),
    (400, 2**32 - 1, 400),
    (400, 400, 400),  # itself
    (270, 400, 270),  # one before
    (270, 270, 270),
    (270, 0, 270),
    (350, 400, 350),  # the last one names one: before, free, outside
    (350, 1365, 350),
    (350, 1, 350),
    (400, 350, 350),  # the second one is left out, so the last one comes too early
    (400, 260, 260),  # an object's, which names one outside by its bytes
)

# A place in the table, the number there then, and the sector that is named.
NUMBERS_OF_TABLE: tuple[tuple[int, int, int], ...] = (
    (0, 39, 2),  # one object fewer: eight numbers are left over
    (0, 41, 350),  # one more, and none left
    (0, 2**32 - 1, 350),
    (1, 1, 400),  # the first number is 2^32 and 1, so the second does not rise
    (122, 15, 400),  # a number as the one before; the object begins in the first sector
    (130, 16, 270),  # in the second
    (258, 32, 350),  # in the third
    (123, 1, 400),  # more sectors than are left
    (124, 2049, 270),  # five sectors: the fifth is the next number's first half, 0, at place 129
    (252, 2049, 350),  # at place 257
    (316, 2049, 350),  # a fifth sector of the last object: none is left
    (316, 1536, 2),  # three: one number is left over
    (125, 259, 400),  # a sector outside, held by the first sector
    (127, 1366, 270),  # by the second
    (128, 5, 270),
    (254, 2**32 - 1, 350),  # by the third
    (253, 0, 270),
    (320, 0, 350),
)


def table_number(device: Device, place: int, number: int) -> Device:
    """The device with another number at a place of its table."""
    return device.put(CHAIN[place // 127], 4 + 4 * (place % 127), number.to_bytes(4, "big"))


def forty() -> Device:
    """The forty objects in sectors from 260 on, but for those of the table."""
    device = Device()
    places = [sector for sector in range(260, 448) if sector not in CHAIN]
    return device.save(2, FORTY, [*places[:160], *CHAIN])


def tables() -> Iterator[Check]:
    """What is wrong with a table of three sectors, and with its objects. Without a fault they stand for no state."""
    base = forty()
    sectors = [sector for one in base.placed for sector in one.sectors]
    yield partial(refuses, base.image, "damaged sector 2", "forty objects")
    for at, then, named in CHAINS:
        image = base.copy().put(at, 0, then.to_bytes(4, "big")).image
        yield partial(refuses, image, f"damaged sector {named}", f"sector {at} of the table names {then}")
    for place, number, named in NUMBERS_OF_TABLE:
        image = table_number(base.copy(), place, number).image
        yield partial(refuses, image, f"damaged sector {named}", f"number {place} of the table is {number}")
    # A sector twice: where the object begins that has it last, in whichever sector it is named.
    for place, sector, named in (
        (127, sectors[0], 400),  # another object's
        (128, sectors[60], 400),  # its own
        (127, 350, 400),  # the table's
        (254, 400, 270),
        (255, sectors[124], 270),
        (127, sectors[159], 350),  # the last object's
        (128, sectors[64], 270),  # the next object's, which begins in the second sector
    ):
        image = table_number(base.copy(), place, sector).image
        yield partial(refuses, image, f"damaged sector {named}", f"sector {sector} is at place {place}, too")
    yield from first_of_two(base, sectors)
    yield from odd_tables()


def first_of_two(base: Device, sectors: list[int]) -> Iterator[Check]:
    """Of two faults the one that comes first: the chain's, then an object's number and length, then its sectors."""
    for (one, number), (two, other), named in (
        ((125, sectors[0]), (127, 5), 400),  # twice, and then outside
        ((127, 5), (128, sectors[0]), 270),  # outside, and then twice
        ((122, 15), (127, 5), 400),  # a number that does not rise, and a sector outside
        ((123, 1), (127, 5), 400),  # too long, and a sector outside
        ((127, 5), (130, 16), 270),  # a sector of one object, and the number of the next one
        ((0, 39), (320, 5), 2),  # the last object is not counted
        ((0, 41), (130, 16), 270),
    ):
        image = table_number(table_number(base.copy(), one, number), two, other).image
        yield partial(refuses, image, f"damaged sector {named}", f"numbers {one} and {two} are {number} and {other}")
    image = table_number(base.copy(), 2, 0).put(350, 0, b"\1").image
    yield partial(refuses, image, "damaged sector 350", "the chain's fault, and an object's")


def odd_tables() -> Iterator[Check]:
    """Tables of which a sector has nothing to read, and objects of no bytes."""
    device = Device()
    one, two, three = 300, 301, 302
    # Fourteen objects of five sectors have 127 numbers, which are 508 bytes.
    fourteen = [Placed(number, 2500, tuple(range(5 * number + 305, 5 * number + 310))) for number in range(1, 15)]
    full = table(*fourteen)
    check(len(full) == 508, "a table of 508 bytes")
    for name, data, named in (
        ("508 bytes", full, 2),
        ("508 bytes, one object more", b"\0\0\0\x0f" + full[4:], one),
        ("509 bytes", full + b"\0", 2),
        ("509 bytes, one object more", b"\0\0\0\x0f" + full[4:] + b"\0", one),
        ("512 bytes", full + bytes(4), 2),
        ("512 bytes, one object more", b"\0\0\0\x0f" + full[4:] + bytes(4), two),
        ("1017 bytes of zeros", bytes(1017), 2),
        ("an object of no bytes", table(Placed(7, 0, ())), 2),
        ("an object of no bytes, and a number that does not rise", table(Placed(7, 0, ()), Placed(7, 1, (400,))), one),
        ("an object of no bytes, and a sector outside", table(Placed(7, 0, ()), Placed(8, 1, (2,))), one),
        ("the last number there is", table(Placed(2**64 - 1, 1, (400,))), 2),
        ("more bytes than there are", struct.pack(">IQQ", 1, 7, 2**64 - 1), one),
    ):
        image = device.copy().point(2, data, (one, two, three)).image
        yield partial(refuses, image, f"damaged sector {named}", f"a table of {name}")


def scattered() -> Iterator[Check]:
    """Objects of several sectors in no order, in the first and the last sectors that there are, with a table of two; a
    script finds all of their bytes, and saves them into the free sectors that are lowest."""
    texts = tuple((1 + number % 7, bytes([number])) for number in range(128))
    queues = {1: Queue(1, texts, pids=(1, 0)), 2: Queue(2, texts[::-1], pids=(1, 0))}
    segments = {1: Segment(b"/s", bytes(number % 256 for number in range(2048)))}
    waiting = [Waiting(pid, msgrcv(pid, 1, 64, 9, 0)) for pid in range(1, 5)]
    them = processes(*((pid, 1000, 100) for pid in range(1, 5)))
    objects = state(clock(0, 5, 3, 1, 1, 1, 2), them, queues, {}, waits(*waiting), segments=segments)
    listed = row(1, queues[1]) + row(2, queues[2]) + row_of_named(segments[1])
    for seed in range(4):
        device = Device()
        places = device.free()
        random.Random(seed).shuffle(places)
        places.remove(1365)
        device.save(2, objects, [1365, 260 + seed, *(place for place in places if place != 260 + seed)])
        yield partial(opens, device.image, listed, f"objects in no order, {seed}")
        yield partial(reads_all, device, queues, segments, f"objects in no order, {seed}")


def reads_all(device: Device, queues: dict[int, Queue], segments: dict[int, Segment], name: str) -> None:
    """All messages are received, 64 in a line, and then the state is saved."""
    frames = [msgrcv(2 + at, number, 64) for number in queues for at in range(128)]
    lines = [frames[first : first + 64] for first in range(0, 256, 64)]
    script = ["0 open 1", sends(0, 1, hello(1)), *(sends(0, 1, *line) for line in lines), "save"]
    printed = [numbered(1, 1, 5)]
    for queue in queues.values():
        printed += [received(1, 2 + at, *message) for at, message in enumerate(queue.messages)]
    batches = [batch(RESTART), batch(tick(0), connect(0, 1, 1000, 100))]
    batches += [batch(tick(0), *(request(0, 5, frame) for frame in line)) for line in lines]
    wanted = device.copy()
    used = 0
    for data in batches:
        wanted.put(BODY + used, 0, data)
        used += sectors_of(len(data))
    wanted.put(JOURNAL, 0, header(2, used))
    after = {number: queue._replace(messages=(), pids=(1, 5)) for number, queue in queues.items()}
    them = processes((5, 1000, 100))
    objects = state(clock(0, 6, 3, 1, 1, 1, 2), them, after, segments=segments)
    wanted.save(3, objects, unchanged=(SEGMENT_KIND + 1,))
    runs(device, script, printed, wanted, name)


# ---- records

# What a journal begins with: processes 1 to 3, and queue 1.
BEGINNING = batch(*3 * [connect(0, 1, 1000, 100)], request(0, 1, msgget(2, 1234)))
KINDS = {
    "a HELLO": HELLO_RECORD,
    "a send": SEND_RECORD,
    "an INTERRUPT": INTERRUPT_RECORD,
    "a tick": TICK_RECORD,
    "an exit": EXIT_RECORD,
    "a restart": RESTART_RECORD,
}


def with_record(*records: bytes) -> bytes:
    return Device().journal(1, BEGINNING, batch(*records)).image


def no_record(record_there: bytes, name: str) -> Check:
    """Bytes after a tick that are no record: their batch begins in sector 5."""
    return partial(refuses, with_record(tick(0), record_there), "damaged sector 5", name)


def record_cuts() -> Iterator[Check]:
    """Each kind is read, whatever follows, and at no length below its own."""
    for name, here in KINDS.items():
        listed = SAVED_LISTED if here == SEND_RECORD else GOOD_LISTED
        yield partial(opens, with_record(here), listed, name)
        yield partial(opens, with_record(here, tick(9)), listed, f"{name} with a tick")
        for cut in range(1, len(here)):
            yield no_record(here[:cut], f"{cut} bytes of {name}")
        for length in (0, len(here) - 5, len(here) - 3, 0xFF):
            # A send may have any length: one byte less leaves a byte over.
            yield no_record(bytes([0, 0, 0, length]) + here[4:], f"length {length} of {name}")


def other_records() -> Iterator[Check]:
    for kind in (0, 3, 7, 255):
        yield no_record(record(kind, 0), f"kind {kind}")
        yield no_record(record(kind, 0, b"\0\0\0\3"), f"kind {kind} with a pid")
    yield no_record(bytes(4), "a record of no bytes")
    yield no_record(bytes.fromhex("0000000104"), "a record of a kind alone")
    for moment in (5, 1 << 56):
        yield no_record(record(6, moment), f"a restart at moment {moment}")
    yield from requests()


def requests() -> Iterator[Check]:
    """A request of a record is one that the server reads of a connection; HELLO and INTERRUPT are, too."""
    frames = {
        "HELLO": hello(9),
        "INTERRUPT": interrupt(9),
        "msgget": msgget(9, 1000, 100),
        "a send of no bytes": msgsnd(9, 1, 1, b""),
        "a receive": msgrcv(9, 1),
        "semget": semget(9, 1000, 1, 0o600),
        "semop": semop(9, 1, (0, -1, 0), (1, 1, SEM_UNDO)),
        "semop of no operation": semop(9, 1),
        "GETNCNT": semctl_getncnt(9, 1, 0),
        "GETZCNT": semctl_getzcnt(9, 1, 0),
        "SETVAL": semctl_setval(9, 1, 0, 1),
        "SETALL": semctl_setall(9, 1, 1, 2),
        "SETALL of no value": semctl_setall(9, 1),
        "IPC_SET of a set": semctl_set(9, 1, 0, 0, 0),
        "IPC_RMID of a set": semctl_rmid(9, 1),
        "shmget": shmget(9, 1000, 8, 0o600),
        "shmat": shmat(9, 1),
        "shmdt": shmdt(9, 0),
        "IPC_STAT of a System V segment": shmctl_stat(9, 1),
        "IPC_SET of a System V segment": shmctl_set(9, 1, 0, 0, 0),
        "IPC_RMID of a System V segment": shmctl_rmid(9, 1),
        "a read of what is attached": attached_read(9, 0, 0, 1),
        "a write of no bytes": attached_write(9, 0, 0, b""),
    }
    for name, frame in frames.items():
        count = 1 if name == "a send of no bytes" else 0
        listed = row(1, Queue(1234, count * ((1, b""),)))
        yield partial(opens, with_record(request(7, 2, frame)), listed, f"{name}, a request")
        yield no_record(request(7, 2, bytes(4) + frame[4:]), f"{name} with serial 0")
        for opcode in (0x20, 0x4E):
            wrong = frame[:4] + bytes([opcode]) + frame[5:]
            yield no_record(request(7, 2, wrong), f"{name}, opcode {opcode:#x}")
        yield no_record(request(7, 2, frame[:-1]), f"{name}, a byte too short")
        if "of no bytes" not in name:
            yield no_record(request(7, 2, frame + b"\0"), f"{name}, a byte too long")
    yield no_record(request(7, 2, b""), "a pid alone")


def longest() -> Iterator[Check]:
    """A record has 65809 bytes at most, and a batch 131072: all sectors of the body."""
    lengths = (64197, 65221, 65771, 65772)
    sent = {length: request(0, 1, msgsnd(1, 1, 1, length * b"\7")) for length in lengths}
    check(len(sent[65771]) == 65809, "the longest record")
    yield partial(opens, with_record(sent[65771]), GOOD_LISTED, "a record of 65809 bytes")
    yield no_record(sent[65772], "a record of 65810 bytes")
    data = batch(sent[65771], sent[64197])
    check(len(data) == 130048, "a batch of 254 sectors")
    yield partial(opens, Device().journal(1, BEGINNING, data).image, GOOD_LISTED, "a batch of 130048 bytes")
    data = batch(sent[65771], sent[65221])
    check(len(data) == 131072, "a batch of 256 sectors")
    device = holding(state(clock(0, 2, 2), processes((1, 1000, 100)), {1: Queue(1234)})).journal(1, data)
    # All sectors are used, so the open saves.
    wanted = device.copy().save(2, state(clock(0, 2, 2), processes(), {1: Queue(1234)}), unchanged=(QUEUE_KIND + 1,))
    yield partial(runs, device, [], [], wanted, "a batch of 131072 bytes")
    image = device.copy().put(BODY, 0, (131069).to_bytes(4, "big")).image
    yield partial(refuses, image, "damaged sector 4", "a batch of 131073 bytes")
    image = Device().journal(1, BEGINNING, data[: SECTOR * 255]).image
    yield partial(refuses, image, "damaged sector 5", "a batch of 131072 bytes from the second sector on")


def connections() -> Iterator[Check]:
    """Who is connected when a request or an exit comes."""
    came = connect(0, 1, 1000, 100)
    four = processes(*((pid, 0, 0) for pid in (2, 3, 5, 7)))
    tests = {
        "a process of the objects": (four, 9, [leave(0, 3)], True),
        "one that is not of the objects": (four, 9, [leave(0, 4)], False),
        "one that was": (four, 9, [leave(0, 3), leave(0, 3)], False),
        "an INTERRUPT": (four, 9, [interrupted(0, 3, 1), leave(0, 3)], True),
        "an INTERRUPT of none": (four, 9, [leave(0, 3), interrupted(0, 3, 1)], False),
        "a fifth process": (four, 9, [came, leave(0, 9)], False),
        "a fourth after an exit": (four, 9, [leave(0, 3), came, leave(0, 9)], True),
        "no number twice": (four, 9, [leave(0, 7), came, leave(0, 7)], False),
        "one before a restart": (four, 9, [RESTART, leave(0, 7)], False),
        "one after a restart": (four, 9, [RESTART, came, leave(0, 9)], True),
        "the last pid": (NONE, LAST_NUMBER, [came, leave(0, LAST_NUMBER)], True),
        "none after the last": (NONE, LAST_NUMBER + 1, [came, leave(0, LAST_NUMBER + 1)], False),
    }
    for name, (them, next_pid, records, is_so) in tests.items():
        image = holding(state(clock(0, next_pid, 1), them, {})).journal(1, batch(*records)).image
        if is_so:
            yield partial(opens, image, "", name)
        else:
            yield partial(refuses, image, "damaged sector 4", name)
