"""What stands on a device, byte by byte, and which devices open.

    python3 tests/devices/device.py PROGRAM

Devices are written by device_layout.py, and the program opens them. Those that hold a state show
it. Of those that hold none (device_damage.py) the program names the fault, and leaves the file as it
was; `tests/devices/damaged.py` has each byte wrong once. What the program writes itself is compared with what
docs/DEVICE.md says, the whole file. What is expected was reckoned from that page, and never taken
from the program. It takes some seconds.
"""

from __future__ import annotations

import itertools
import os
import subprocess
import sys
import tempfile
from concurrent.futures import ThreadPoolExecutor
from functools import partial
from pathlib import Path
from threading import Lock
from typing import Generator, Iterator

sys.dont_write_bytecode = True
sys.path.insert(0, str(Path(__file__).resolve().parents[1] / "lib"))

from device_bounds import bounded_devices  # noqa: E402
from device_calls import (  # noqa: E402
    FULL,
    SENDING,
    TAKING,
    as_many_calls_as_may_be,
    calls,
    holding,
    with_calls,
)
from device_damage import (  # noqa: E402
    connections,
    damages,
    free_bytes,
    longest,
    no_states,
    order,
    other_records,
    record_cuts,
    scattered,
    sizes,
    superblocks,
    tables,
)
from device_layout import (  # noqa: E402
    BODY,
    BODY_COUNT,
    JOURNAL,
    LAST_EPOCH,
    LAST_NUMBER,
    ONE,
    QUEUE_KIND,
    RESTART,
    ROOT,
    SECTOR,
    SMALL,
    SMALL_OF_ONE,
    STANDARD,
    STANDARD_OF_ONE,
    START,
    Device,
    Limits,
    Queue,
    Set,
    Waiting,
    area_of,
    batch,
    clock,
    connect,
    header,
    hello,
    interrupt,
    interrupted,
    leave,
    msgget,
    msgrcv,
    msgsnd,
    need_of,
    processes,
    read,
    request,
    root,
    semctl_getall,
    semctl_rmid,
    semctl_set,
    semctl_setall,
    semctl_setval,
    semget,
    state,
    superblock,
    tick,
    waits,
)
from device_named import named  # noqa: E402
from device_posix import posix  # noqa: E402
from device_runs import (  # noqa: E402
    EXIT_RECORD,
    GOOD_BATCHES,
    GOOD_LISTED,
    GOOD_QUEUE,
    HELLO_RECORD,
    INTERRUPT_RECORD,
    LATE,
    NEW_HEADER,
    NEW_ROOT,
    NEW_SECTORS,
    NUMBERS,
    OLD_CLOCK,
    OLD_SMALL_SUPERBLOCK,
    OLD_STANDARD_SUPERBLOCK,
    OLD_TABLE,
    PROGRAM,
    RESTART_RECORD,
    SAVED_QUEUE,
    SAVED_ROOT,
    SAVED_SECTORS,
    SEND_RECORD,
    SMALL_SUPERBLOCK,
    STANDARD_SUPERBLOCK,
    TICK_RECORD,
    Check,
    check,
    errored,
    fault_of,
    good,
    ipcd,
    is_image,
    numbered,
    opens,
    received,
    recorded,
    refuses,
    row,
    row_of_set,
    runs,
    saved,
    sector,
    sends,
    stops_at,
)
from device_system_v import system_v  # noqa: E402
from device_tagged import tagged_devices  # noqa: E402
from device_undo import undo  # noqa: E402

# ---- the writer


def spelled() -> None:
    """The writer's bytes are those that are spelled by hand, and sizes those of the page."""
    one = state(clock(9, 2, 2), processes((1, 1000, 100)), {1: SAVED_QUEUE})
    requests = (request(0, 1, msgget(4, 1234)), request(0, 1, msgsnd(4, 1, 5, 500 * b"\7")))
    pairs = (
        (superblock(SMALL, 1366), SMALL_SUPERBLOCK),
        (superblock(STANDARD, 252440), STANDARD_SUPERBLOCK),
        (sector(Device().image, 1), bytes(SECTOR)),
        (sector(Device().image, 2), NEW_ROOT.ljust(SECTOR, b"\0")),
        (sector(Device().image, 3), NEW_HEADER.ljust(SECTOR, b"\0")),
        *((sector(Device().image, at), data.ljust(SECTOR, b"\0")) for at, data in NEW_SECTORS.items()),
        (bytes(good().save(2, one).image), bytes(saved().image)),
        (connect(7, 1, 1000, 100), HELLO_RECORD),
        (request(LATE, 1, msgsnd(3, 1, 5, b"hi")), SEND_RECORD),
        (interrupted(258, 3, 7), INTERRUPT_RECORD),
        (tick(258), TICK_RECORD),
        (leave(9, 3), EXIT_RECORD),
        (RESTART, RESTART_RECORD),
        (batch(RESTART), GOOD_BATCHES[4]),
        (batch(connect(0, 1, 1000, 100), requests[0]), GOOD_BATCHES[5]),
        (batch(requests[1], tick(0)), GOOD_BATCHES[6]),
        (batch(tick(0), leave(0, 1)), GOOD_BATCHES[8]),
    )
    for number, (found, wanted) in enumerate(pairs):
        check(found == wanted, f"the writer's bytes {number}: {found.hex()}")
    check((area_of(SMALL), need_of(SMALL)) == (553, 1366), "small sizes")
    check((area_of(STANDARD), need_of(STANDARD)) == (126090, 252440), "standard sizes")


# ---- devices of version 1

LONG_QUEUE = Queue(1234, 2 * ((5, 8192 * b"x"),), qbytes=16384)


def old(limits: Limits = SMALL_OF_ONE) -> Device:
    return Device(limits, version=ONE)


def spelled_old() -> None:
    """A new device of version 1 is the one that is spelled by hand, and sizes are those that version 1 had."""
    parts = {0: OLD_SMALL_SUPERBLOCK, 1: NEW_ROOT, 3: NEW_HEADER, **NEW_SECTORS, 260: OLD_CLOCK, 264: OLD_TABLE}
    wanted = bytearray(448 * SECTOR)
    for at, data in parts.items():
        wanted[SECTOR * at : SECTOR * at + len(data)] = data
    is_image(old().image, wanted, "a device of version 1")
    check(superblock(STANDARD_OF_ONE, 45830, ONE) == OLD_STANDARD_SUPERBLOCK, "the superblock of version 1")
    for limits, sizes in (SMALL_OF_ONE, (94, 448)), (STANDARD_OF_ONE, (22785, 45830)):
        check((area_of(limits, ONE), need_of(limits, ONE)) == sizes, f"sizes of version 1: {limits}")


def old_ones() -> Iterator[Check]:
    """The program opens none of version 1, whatever stands on it, and leaves its file as it was. The checker of version
    1 reads what the writer has written, and refuses version 2."""
    yield spelled_old
    objects = state(clock(9, 2, 2, version=ONE), processes((1, 1000, 100)), {1: SAVED_QUEUE})
    saved_one = old().save(2, objects).journal(2, batch(request(9, 1, msgsnd(4, 1, 5, b"more"))))
    objects[4] = (QUEUE_KIND + 1, LONG_QUEUE.data())
    for name, device in {
        "a new device": old(),
        "a device with a queue": saved_one,
        "a standard device": old(STANDARD_OF_ONE).save(2, objects),
    }.items():
        yield partial(refuses, device.image, "version 1", f"{name} of version 1", "dump", "run")
        yield partial(is_read_as_one, device, name)
    grown = bytes(saved_one.image).ljust(1366 * SECTOR, b"\0")
    yield partial(refuses, grown, "version 1", "a device of version 1 that has grown")


def is_read_as_one(device: Device, name: str) -> None:
    found = read(device.image, ONE)
    check((found.placed, found.limits) == (device.placed, device.limits), f"{name} is read as another one")
    check(fault_of(Device().image, ONE) == "version 2", "a device of version 2 is read as one of version 1")


# ---- formats


def formatted(limits: Limits, sectors: int, *words: str) -> None:
    """A format of a file that is not zeros leaves its bytes, but for eight sectors."""
    before = sectors * SECTOR * b"\xee"
    ended = ipcd(before, "format", "", *words)
    wanted = (0, "", f"formatted {sectors} sectors\n")
    check(ended[:3] == wanted, f"{ended[:3]}, and not {wanted}")
    named = SMALL_SUPERBLOCK if limits == SMALL else STANDARD_SUPERBLOCK
    if sectors != need_of(limits):
        named = superblock(limits, sectors)
    parts = {0: named, 2: NEW_ROOT, 3: NEW_HEADER, **NEW_SECTORS}
    image = bytearray(before)
    for at, data in parts.items():
        image[SECTOR * at : SECTOR * (at + 1)] = data.ljust(SECTOR, b"\0")
    is_image(ended.image, bytes(image), f"a format of {sectors} sectors")
    opens(ended.image, "", f"{sectors} sectors")


def not_formatted(need: int, sectors: int, *words: str) -> None:
    before = 700 * b"\xee"
    ended = ipcd(before, "format", "", "--sectors", str(sectors), *words)
    wanted = (1, f"ipcd: too small, {need} sectors needed\n", "", before)
    check(ended == wanted, f"a format of {sectors} sectors: {ended}")


def formats() -> Iterator[Check]:
    yield partial(formatted, SMALL, 1366, "--small")
    yield partial(formatted, SMALL, 1500, "--small", "--sectors", "1500")
    yield partial(formatted, STANDARD, 252440)
    for sectors in (0, 448, 1365):
        yield partial(not_formatted, 1366, sectors, "--small")
    for sectors in (45830, 252439):
        yield partial(not_formatted, 252440, sectors)


def largest() -> None:
    """A device of 4194304 sectors, most of them a hole; and a file of 4294967295 whose superblock names these. An open
    takes memory for each sector that the superblock names, so of a device of so many none is opened."""
    path, sectors = f"device{next(NUMBERS)}", 2**22
    parts = {0: superblock(STANDARD, sectors), 2: NEW_ROOT, 3: NEW_HEADER, **NEW_SECTORS}
    with open(path, "xb") as file:
        file.truncate(SECTOR * sectors)
        for at, data in parts.items():
            file.seek(SECTOR * at)
            file.write(data)
    for length in (2**22, 2**32 - 1):
        with open(path, "r+b") as file:
            try:
                file.truncate(SECTOR * length)
            except OSError:
                # A file system without files of two TiB.
                break
        ended = subprocess.run([PROGRAM, "dump", path], capture_output=True, timeout=120)
        check((ended.returncode, ended.stdout, ended.stderr) == (0, b"", b""), f"{length} sectors: {ended}")
    os.unlink(path)


# ---- devices that hold something


def held() -> Device:
    """Epoch 7, with two queues and a process, and a journal of two batches."""
    three = ((3, b"three"), (1, b""), (3, b"more"))
    queues = {
        2: Queue(-2, three, (7, 8), (9, 10), 0o777, (4, 5, 6), (11, 12), 99),
        5: Queue(0, (), (2**32 - 1, 2**31), mode=0o222),
    }
    objects = state(clock(50, 21, 6), processes((20, 2000, 200)), queues)
    first = batch(request(60, 20, msgrcv(1, 2)), tick(70))
    sent = request(80, 20, msgsnd(2, 5, 2, b"two"))
    second = batch(sent, connect(80, 1, 3, 4), leave(90, 20))
    return Device().save(7, objects).journal(7, first, second)


HELD_LISTED = (
    "msg          2          -2 0777          7          8          4          2\n"
    "msg          5           0 0222 4294967295 2147483648          3          1\n"
)


def shows() -> None:
    """A device that was written here is listed, a script goes on from it, and a save keeps it."""
    opens(held().image, HELD_LISTED, "a device that was written by hand")
    frames = (hello(1), msgget(2, -2, 0), msgrcv(3, 2), msgsnd(4, 5, 9, b"nine"), msgrcv(5, 2, 3))
    script = ["100 open 1", sends(100, 1, *frames), "save"]
    printed = [numbered(1, 1, 22), numbered(1, 2, 2), received(1, 3, 1, b"")]
    printed += [errored(1, 4, 0), errored(1, 5, 7)]

    asked = [request(100, 22, frame) for frame in frames[1:]]
    line = batch(tick(100), connect(100, 1, 1000, 100), *asked)
    nine = ((2, b"two"), (9, b"nine"))
    queues = {
        2: Queue(-2, ((3, b"more"),), (7, 8), (9, 10), 0o777, (4, 100, 6), (11, 22), 99),
        5: Queue(0, nine, (2**32 - 1, 2**31), mode=0o222, times=(100, 0, 0), pids=(22, 0)),
    }
    objects = state(clock(100, 23, 6), processes((22, 1000, 100)), queues)
    wanted = held().put(BODY + 2, 0, batch(RESTART)).put(BODY + 3, 0, line)
    wanted.put(JOURNAL, 0, header(7, 4)).save(8, objects)
    runs(held(), script, printed, wanted, "a script on a device that was written by hand")
    opens(wanted.image, row(2, queues[2]) + row(5, queues[5]), "what it has saved")


def keeps_owners() -> None:
    """A queue is of the user and group that its maker had in the objects."""
    objects = state(clock(0, 4, 1), processes((3, 5, 6)), {})
    device = holding(objects).journal(1, batch(request(0, 3, msgget(1, 9))))
    opens(device.image, row(1, Queue(9, owner=(5, 6))), "a queue of a process of the objects")


def no_more_pids() -> None:
    last = state(clock(0, LAST_NUMBER, LAST_NUMBER, LAST_NUMBER), processes(), {})
    frames = [msgget(2, 0), msgget(3, 0), semget(5, 0, 1), semget(6, 0, 1)]
    script = ["0 open 1", sends(0, 1, hello(1), *frames)]
    script += ["0 open 2", sends(0, 2, hello(4))]
    printed = [numbered(1, 1, LAST_NUMBER), numbered(1, 2, LAST_NUMBER), errored(1, 3, 28)]
    printed += [numbered(1, 5, LAST_NUMBER), errored(1, 6, 28), errored(2, 4, 23)]
    first = batch(tick(0), connect(0, 1, 1000, 100), *(request(0, LAST_NUMBER, frame) for frame in frames))
    second = batch(tick(0), connect(0, 4, 1000, 100))
    wanted = holding(last).journal(1, batch(RESTART), first, second)
    runs(holding(last), script, printed, wanted, "the last pid and identifiers")


def sets() -> None:
    """Semaphore sets that were written here, and a journal that leads on from them; a script, and a save of both. Of
    the set that is removed nothing is saved, and its identifier is not given again."""
    mine, other = Set(-2, ((3, 11), (0, 0)), (7, 8), (2000, 10), 0o777, (4, 5)), Set(0, ((32767, 9),), mode=0o222)
    objects = state(clock(50, 21, 1, 6), processes((20, 2000, 200)), {}, {2: mine, 5: other})
    asked = [request(60, 20, semctl_setval(1, 2, 1, 9)), request(61, 20, semctl_setall(2, 5, 1))]
    # A third set, and the removal of one that is another user's: both are refused.
    asked += [request(62, 20, semget(3, 77, 1)), request(63, 20, semctl_rmid(4, 5))]
    device = Device().save(7, objects).journal(7, batch(*asked))
    mine = mine._replace(semaphores=((3, 11), (9, 20)), times=(4, 60))
    other = other._replace(semaphores=((1, 20),), times=(0, 61))
    opens(device.image, row_of_set(2, mine) + row_of_set(5, other), "sets that were written by hand")

    frames = [semctl_rmid(2, 5), semget(3, 77, 4), semctl_setall(4, 6, 1, 2, 3, 32767)]
    frames += [semctl_set(5, 2, 7, 2**32 - 1, 0o1604), semctl_getall(6, 2)]
    script = ["100 open 1", sends(100, 1, hello(1, 0, 0), *frames), "save"]
    printed = [numbered(1, 1, 21), errored(1, 2, 0), numbered(1, 3, 6), errored(1, 4, 0), errored(1, 5, 0)]
    printed.append(recorded(1, 6, b"\0\3\0\x09"))
    line = batch(tick(100), connect(100, 1, 0, 0), *(request(100, 21, frame) for frame in frames))
    mine = mine._replace(owner=(7, 2**32 - 1), mode=0o604, times=(4, 100))
    four = Set(77, ((1, 21), (2, 21), (3, 21), (32767, 21)), (0, 0), (0, 0), times=(0, 100))
    objects = state(clock(100, 22, 1, 7), processes((21, 0, 0)), {}, {2: mine, 6: four})
    wanted = device.copy().put(BODY + 1, 0, batch(RESTART)).put(BODY + 2, 0, line)
    wanted.put(JOURNAL, 0, header(7, 3)).save(8, objects)
    runs(device, script, printed, wanted, "a script on sets that were written by hand")
    opens(wanted.image, row_of_set(2, mine) + row_of_set(6, four), "what it has saved")


# ---- what the program writes


def events() -> None:
    """Each line of a script is a batch: a tick, and its events. A `stop` is a restart."""
    script = ["0 open 1", "0 open 2", "0 open 3"]
    script += [sends(7, number, hello(number)) for number in (1, 2, 3)]
    script += ["9 end 3", "258 tick", "stop", "258 open 5", sends(LATE, 5, hello(1, 0, 2**32 - 1))]
    script += [sends(LATE, 5, msgget(2, 1234), msgsnd(3, 1, 5, b"hi")), sends(LATE, 5, interrupt(7))]
    script += [f"{2**64 - 1} tick"]
    printed = [numbered(number, number, number) for number in (1, 2, 3)]
    printed += [numbered(5, 1, 4), numbered(5, 2, 1), errored(5, 3, 0), errored(5, 7, 0)]
    batches = [batch(RESTART)]
    batches += [batch(tick(7), connect(7, number, 1000, 100)) for number in (1, 2, 3)]
    batches += [batch(tick(9), EXIT_RECORD), batch(TICK_RECORD), batch(RESTART_RECORD)]
    batches += [batch(tick(LATE), connect(LATE, 1, 0, 2**32 - 1))]
    asked = (request(LATE, 4, msgget(2, 1234)), request(LATE, 4, msgsnd(3, 1, 5, b"hi")))
    batches += [batch(tick(LATE), *asked), batch(tick(LATE), interrupted(LATE, 4, 7))]
    batches += [batch(tick(2**64 - 1))]
    check(batches[1][4 + 13 :] == HELLO_RECORD, "the record of a HELLO")
    check(asked[1][:13] + asked[1][17:] == SEND_RECORD[:13] + SEND_RECORD[17:], "that of a send")
    runs(Device(), script, printed, Device().journal(1, *batches), "an event of each kind")


def long_text() -> None:
    """A text as long as a request may have: its record takes 129 sectors, though it is refused."""
    text = bytes(number % 251 for number in range(65771))
    script = ["0 open 1", sends(0, 1, hello(1)), sends(0, 1, msgsnd(2, 1, 1, text))]
    first = batch(tick(0), connect(0, 1, 1000, 100))
    second = batch(tick(0), request(0, 1, msgsnd(2, 1, 1, text)))
    wanted = Device().journal(1, batch(RESTART), first, second)
    check(wanted.image[SECTOR * JOURNAL :][:12] == header(1, 131), "131 sectors")
    runs(Device(), script, [numbered(1, 1, 1), errored(1, 2, 22)], wanted, "the longest text")


# What a save of process 1 with its queue begins with, and what is printed.
FIRST_QUEUE = ["0 open 1", sends(0, 1, hello(1)), sends(3, 1, msgget(4, 1234))]
FIRST_REPLIES = [numbered(1, 1, 1), numbered(1, 4, 1)]


def first_queue(*more: bytes) -> list[bytes]:
    """The batches of these lines, after the open."""
    first = batch(tick(0), connect(0, 1, 1000, 100))
    return [batch(RESTART), first, batch(tick(3), request(3, 1, msgget(4, 1234))), *more]


def save() -> None:
    """A save writes the objects and their table into free sectors, and the root. Then the journal begins anew."""
    script = [*FIRST_QUEUE, sends(9, 1, msgsnd(4, 1, 5, b"hi")), "save"]
    printed = [*FIRST_REPLIES, errored(1, 4, 0)]
    sent = batch(tick(9), request(9, 1, msgsnd(4, 1, 5, b"hi")))
    wanted = Device().journal(1, *first_queue(sent))
    objects = state(clock(9, 2, 2), processes((1, 1000, 100)), {1: SAVED_QUEUE})
    wanted.save(2, objects)
    for at, data in {ROOT: SAVED_ROOT, **SAVED_SECTORS}.items():
        check(sector(wanted.image, at) == data.ljust(SECTOR, b"\0"), f"sector {at} after a save")
    runs(Device(), script, printed, wanted, "a save")

    script = ["9 open 1", sends(9, 1, hello(1), msgrcv(4, 1)), "9 end 1", "save", "10 tick"]
    after = wanted.copy()
    asked = (connect(9, 1, 1000, 100), request(9, 2, msgrcv(4, 1)))
    after.put(BODY, 0, batch(RESTART).ljust(SECTOR, b"\0"))
    after.put(BODY + 1, 0, batch(tick(9), *asked).ljust(SECTOR, b"\0"))
    after.put(BODY + 2, 0, batch(tick(9), leave(9, 2)).ljust(SECTOR, b"\0"))
    queue = Queue(1234, times=(9, 9, 3), pids=(1, 2))
    after.save(3, state(clock(9, 3, 2), processes(), {1: queue}))
    after.put(BODY, 0, batch(tick(10)).ljust(SECTOR, b"\0")).put(JOURNAL, 0, header(3, 1))
    runs(wanted, script, [numbered(1, 1, 2), received(1, 4, 5, b"hi")], after, "a second save")
    opens(after.image, GOOD_LISTED, "a device that was saved twice")


def save_of_nothing() -> None:
    """Each of four saves takes the sectors that the one before has freed: epoch 5 is where epoch 1 was."""
    wanted = Device().journal(1, batch(RESTART)).save(4, START).save(5, START)
    check(wanted.image[SECTOR * ROOT :][:16] == root(5, 264, 84), "the table is in sector 264 again")
    runs(Device(), 4 * ["save"], [], wanted, "four saves of nothing")


def save_of_much() -> None:
    """Texts and queues as long as standard limits have them: an object of 600 bytes, and one that fills its queue."""
    limits = SMALL._replace(msgmax=STANDARD.msgmax, msgmnb=STANDARD.msgmnb)
    text = bytes(number % 251 for number in range(524))
    sent = (msgsnd(6, 2, 1, 65536 * b"x"), msgsnd(7, 2, 1, b""), msgsnd(8, 2, 1, b"z"))
    frames = (msgget(5, 0), *sent)
    frames = (msgsnd(4, 1, 5, text), *frames)
    script = [*FIRST_QUEUE, *(sends(9, 1, frame) for frame in frames), "save", "save"]
    printed = [*FIRST_REPLIES, errored(1, 4, 0), numbered(1, 5, 2)]
    printed += [errored(1, 6, 0), errored(1, 7, 0), errored(1, 8, 11)]
    asked = [request(9, 1, frame) for frame in frames]
    one = Queue(1234, ((5, text),), times=(9, 0, 3), pids=(1, 0), qbytes=65536)
    full = ((1, 65536 * b"x"), (1, b""))
    two = Queue(0, full, times=(9, 0, 9), pids=(1, 0), qbytes=65536)
    check(len(one.data()) == 600, "an object of 600 bytes")
    objects = state(clock(9, 2, 3), processes((1, 1000, 100)), {1: one, 2: two})
    new = Device(limits)
    wanted = new.copy().journal(1, *first_queue(*(batch(tick(9), one) for one in asked)))
    wanted.save(2, objects).save(3, objects, unchanged=(QUEUE_KIND + 1, QUEUE_KIND + 2))
    # 135 sectors of objects and two of their table from 265 to 401; then the queues stay, from 269 to 399.
    check(wanted.image[SECTOR * ROOT :][:16] == root(3, 264, 640), "the table begins in sector 264")
    runs(new, script, printed, wanted, "saves of long texts")
    opens(wanted.image, row(1, one) + row(2, two), "what they have saved")


def full(*batches: bytes, used: int = BODY_COUNT, epoch: int = 1) -> Device:
    """A device whose journal has these batches of a sector, and then ticks."""
    ticks = (used - len(batches)) * [batch(tick(0))]
    return Device().journal(1, *batches, *ticks).put(JOURNAL, 0, header(epoch, used))


def last_commit(length: int, fits: bool) -> None:
    """A commit on 255 used sectors appends one of 512 bytes, and saves one of 513."""
    send = msgsnd(2, 1, 1, (length - 55) * b"\7")
    script = ["0 open 1", sends(0, 1, hello(1)), sends(0, 1, send)] + ([] if fits else ["0 tick"])
    data = batch(tick(0), request(0, 1, send))
    check(len(data) == length, f"a batch of {length} bytes")
    wanted = full(used=253).put(BODY + 253, 0, batch(RESTART))
    wanted.put(BODY + 254, 0, batch(tick(0), connect(0, 1, 1000, 100)))
    if fits:
        wanted.put(BODY + 255, 0, data).put(JOURNAL, 0, header(1, 256))
    else:
        objects = state(clock(0, 2, 1), processes((1, 1000, 100)), {})
        wanted.save(2, objects).put(JOURNAL, 0, header(2, 1))
        wanted.put(BODY, 0, batch(tick(0)).ljust(SECTOR, b"\0"))
        check(sector(wanted.image, ROOT)[:16] == root(2, 269, 84), "a table of 84 bytes")
    printed = [numbered(1, 1, 1), errored(1, 2, 22)]
    runs(full(used=253), script, printed, wanted, f"a last commit of {length} bytes")


def many_ticks() -> None:
    """The restart and 255 ticks fill the journal, the next one is saved, and 44 begin a new one."""
    ticks = [batch(tick(moment)) for moment in range(300)]
    wanted = Device().journal(1, batch(RESTART), *ticks[:255]).journal(2, *ticks[256:])
    wanted.save(2, state(clock(255, 1, 1), processes(), {}))
    runs(Device(), [f"{moment} tick" for moment in range(300)], [], wanted, "300 ticks")
    after = wanted.copy().put(BODY + 44, 0, batch(RESTART)).put(JOURNAL, 0, header(2, 45))
    after.save(3, state(clock(299, 1, 1), processes(), {}))
    runs(wanted, ["save"], [], after, "a save after 300 ticks")


def many_opens(opens_made: int) -> None:
    """Each open takes a sector of the journal, and the one after 256 saves."""
    wanted = Device().journal(1, *min(opens_made, 256) * [batch(RESTART)])
    if opens_made > 256:
        wanted.save(2, START)
    if opens_made > 257:
        wanted.put(JOURNAL, 0, header(2, opens_made - 257))
    name = f"{opens_made} opens"
    runs(Device(), (opens_made - 1) * ["stop"], [], wanted, name)


def open_that_saves() -> None:
    """An open on a full journal saves what the restart leaves: no process, and the queue."""
    asked = (request(3, 1, msgget(2, 1234)), request(9, 1, msgsnd(3, 1, 5, b"hi")))
    device = full(batch(connect(0, 1, 1000, 100), *asked))
    wanted = device.copy().save(2, state(clock(9, 2, 2), processes(), {1: SAVED_QUEUE}))
    runs(device, [], [], wanted, "an open that saves")


def open_with_calls() -> None:
    """No call waits after an open, and the queue is as it was."""
    device = holding(with_calls(waits(SENDING, TAKING)))
    wanted = device.copy().journal(1, batch(RESTART))
    wanted.save(2, state(clock(9, 5, 2), processes(), {1: FULL}), unchanged=(QUEUE_KIND + 1,))
    runs(device, ["save"], [], wanted, "an open with calls that wait")


def journal_with_calls() -> None:
    """The events of the journal lead on from calls that wait. Process 5 takes a message, so the send goes on that waits
    first, and then a receive. Process 3 is interrupted, waits again, and leaves."""
    them = (SENDING, Waiting(3, msgrcv(5, 1, 64, 6, 0)), TAKING)
    device = holding(with_calls(waits(*them), FULL, (1, 2, 3)))
    first = batch(tick(20), connect(20, 1, 1000, 100), request(20, 5, msgrcv(2, 1, 64, 5)))
    second = batch(interrupted(30, 3, 6), request(31, 3, msgrcv(7, 1, 64, 8, 0)), leave(32, 3))
    sent = [request(33, 5, msgsnd(3, 1, 8, b"a")), request(40, 1, msgsnd(9, 1, 6, b"b"))]
    third = batch(*sent, request(41, 2, msgsnd(9, 1, 6, b"too many")))
    device.journal(1, first, second, third)
    queue = Queue(1234, ((8, b"a"), (6, b"b")), times=(40, 20, 0), pids=(1, 1), qbytes=2)
    opens(device.image, row(1, queue), "a journal with calls that wait")
    wanted = device.copy().journal(1, first, second, third, batch(RESTART))
    wanted.save(2, state(clock(41, 6, 2), processes(), {1: queue}))
    runs(device, ["save"], [], wanted, "a journal with calls that wait, and a save")


def save_with_calls() -> None:
    """Calls are saved in the order in which they came, and their requests are in the journal like all others: those
    refused meanwhile, an INTERRUPT, and that a client has gone."""
    waiting = [Waiting(3, msgrcv(5, 1, 64, 7, 0)), Waiting(1, msgsnd(6, 1, 9, b"six", 0))]
    waiting.append(Waiting(2, msgrcv(7, 1, 64, 8, 0)))
    script = ["0 open 1", "0 open 2", "0 open 3", "0 open 4"]
    script += [sends(0, number, hello(number)) for number in (1, 2, 3, 4)]
    script += [sends(1, 1, msgget(2, 1234)), sends(2, 1, msgsnd(3, 1, 5, 64 * b"x"), msgsnd(4, 1, 5, 64 * b"y"))]
    script += [sends(3, one.pid, one.frame) for one in waiting]
    script += [sends(4, 4, msgrcv(8, 1, 64, 7, 0)), sends(4, 3, msgget(9, 5)), sends(5, 2, interrupt(10))]
    script += ["6 end 4", "save", sends(7, 2, msgrcv(11, 1, 64, 9, 0)), "save"]
    printed = [numbered(number, number, number) for number in (1, 2, 3, 4)]
    printed += [numbered(1, 2, 1), errored(1, 3, 0), errored(1, 4, 0)]
    printed += [errored(3, 9, 114), errored(2, 7, 4), errored(2, 10, 0)]

    asked = (request(2, 1, msgsnd(3, 1, 5, 64 * b"x")), request(2, 1, msgsnd(4, 1, 5, 64 * b"y")))
    batches = [batch(RESTART)]
    batches += [batch(tick(0), connect(0, number, 1000, 100)) for number in (1, 2, 3, 4)]
    batches += [batch(tick(1), request(1, 1, msgget(2, 1234))), batch(tick(2), *asked)]
    batches += [batch(tick(3), request(3, one.pid, one.frame)) for one in waiting]
    batches += [batch(tick(4), request(4, 4, msgrcv(8, 1, 64, 7, 0))), batch(tick(4), request(4, 3, msgget(9, 5)))]
    batches += [batch(tick(5), interrupted(5, 2, 10)), batch(tick(6), leave(6, 4))]
    queue = Queue(1234, ((5, 64 * b"x"), (5, 64 * b"y")), times=(2, 0, 1), pids=(1, 0))
    three = processes(*((pid, 1000, 100) for pid in (1, 2, 3)))
    wanted = Device().journal(1, *batches)
    wanted.save(2, state(clock(6, 5, 2), three, {1: queue}, {}, waits(*waiting[:2])))
    last = Waiting(2, msgrcv(11, 1, 64, 9, 0))
    wanted.put(BODY, 0, batch(tick(7), request(7, 2, last.frame)).ljust(SECTOR, b"\0"))
    wanted.put(JOURNAL, 0, header(2, 1))
    objects = state(clock(7, 5, 2), three, {1: queue}, {}, waits(*waiting[:2], last))
    wanted.save(3, objects, unchanged=(QUEUE_KIND + 1,))
    runs(Device(), script, printed, wanted, "saves while calls wait")
    opens(wanted.image, row(1, queue), "calls that were saved")


def journal_of_all() -> None:
    """All sectors of the body count: those after the batches are batches without records."""
    device = good().put(JOURNAL, 8, b"\0\0\1\0")
    objects = state(clock(0, 2, 2), processes(), {1: GOOD_QUEUE})
    wanted = device.copy().save(2, objects)
    check(sector(wanted.image, ROOT)[:16] == root(2, 270, 104), "a table of 104 bytes")
    runs(device, [], [], wanted, "a journal that counts all its sectors")
    image = device.put(259, 3, b"\1").image
    refuses(image, "damaged sector 259", "a byte in the last sector of the body")


# ---- the last epoch


def at_epoch(epoch: int, used: int) -> Device:
    return full(used=used, epoch=epoch).put(ROOT, 0, root(epoch, 264, 84))


def last_save() -> None:
    """A save at the last epoch is a device fault, and writes nothing."""
    device = at_epoch(LAST_EPOCH, 0)
    script = ["0 open 1", sends(0, 1, hello(1)), "save", "0 tick"]
    printed = [numbered(1, 1, 1), errored(1, 0, 5), "1 end"]
    wanted = device.copy().put(BODY, 0, batch(RESTART))
    wanted.put(BODY + 1, 0, batch(tick(0), connect(0, 1, 1000, 100)))
    wanted.put(JOURNAL, 0, header(LAST_EPOCH, 2))
    stops_at(device, script, printed, wanted)
    opens(wanted.image, "", "a device after the save that was refused")


def last_sector() -> None:
    """At the last epoch the journal is filled, and then the device stops for good."""
    device = at_epoch(LAST_EPOCH, 254)
    wanted = device.copy().put(BODY + 254, 0, batch(RESTART)).put(BODY + 255, 0, batch(tick(0)))
    wanted.put(JOURNAL, 0, header(LAST_EPOCH, 256))
    stops_at(device, ["0 tick", "0 tick"], [], wanted)
    refuses(wanted.image, "damaged sector 2", "the end of the last epoch", "dump", "run")


def last_turn() -> None:
    """An open saves at the last epoch but one; at the last one a journal of that one is empty."""
    device = at_epoch(LAST_EPOCH - 1, 256)
    runs(device, [], [], device.copy().save(LAST_EPOCH, START), "the last epoch but one")
    device = at_epoch(LAST_EPOCH - 1, 256).save(LAST_EPOCH, START)
    wanted = device.copy().put(BODY, 0, batch(RESTART).ljust(SECTOR, b"\0"))
    runs(device, [], [], wanted.put(JOURNAL, 0, header(LAST_EPOCH, 1)), "the last epoch")


# ---- all of it


def checks() -> Generator[Check, None, None]:
    yield spelled
    # The longest first.
    yield save_of_much
    yield largest
    yield as_many_calls_as_may_be
    yield from formats()
    yield from old_ones()
    yield from (shows, keeps_owners, no_more_pids, sets, events, long_text, save, save_of_nothing)
    yield partial(last_commit, 512, True)
    yield partial(last_commit, 513, False)
    yield many_ticks
    yield from (partial(many_opens, opens_made) for opens_made in (1, 256, 257, 300))
    yield from (open_that_saves, open_with_calls, journal_with_calls, save_with_calls, journal_of_all)
    yield from (last_save, last_sector, last_turn)
    yield from superblocks()
    yield from sizes()
    yield from damages()
    yield from tables()
    yield from order()
    yield from free_bytes()
    yield from no_states()
    yield from calls()
    yield from undo()
    yield from posix()
    yield from named()
    yield from system_v()
    yield from tagged_devices()
    yield from bounded_devices()
    yield from scattered()
    yield from record_cuts()
    yield from other_records()
    yield from longest()
    yield from connections()


def work(waiting: Generator[Check, None, None], turn: Lock) -> int:
    """Makes checks until none is left, or one has failed. How many it has made."""
    for made in itertools.count():
        with turn:
            one = next(waiting, None)
        if one is None:
            return made
        try:
            one()
        except BaseException:
            with turn:
                waiting.close()
            raise


def main() -> None:
    waiting, turn = checks(), Lock()
    workers = 2 * (os.cpu_count() or 1)
    with ThreadPoolExecutor(workers) as pool:
        made = [pool.submit(work, waiting, turn) for _ in range(workers)]
    try:
        total = sum(one.result() for one in made)
    except (AssertionError, OSError, subprocess.SubprocessError) as fault:
        sys.exit(f"device: {fault}")
    print(f"device: {total} checks, {next(NUMBERS) - 1} runs of the program")


if __name__ == "__main__":
    with tempfile.TemporaryDirectory() as folder:
        os.chdir(folder)
        main()
