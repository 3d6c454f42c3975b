"""Devices of version 1, and what `ipcd upgrade` makes of them.

    python3 tests/devices/upgrade.py PROGRAM

The devices are written by device_layout.py, one of them is kept as bytes in old_device.hex, and none comes from a
program. The whole file is compared after each upgrade and each refusal, with what docs/DEVICE.md says of it; in which
free sectors the new objects stand is the program's choice, so it is taken from the table. It takes some seconds.
"""

from __future__ import annotations

import fcntl
import os
import struct
import subprocess
import sys
from pathlib import Path

sys.dont_write_bytecode = True
sys.path.insert(0, str(Path(__file__).resolve().parents[1] / "lib"))

from device_layout import (  # noqa: E402
    BODY,
    BODY_COUNT,
    JOURNAL,
    LAST_EPOCH,
    ONE,
    RESTART,
    SECTOR,
    SEM_UNDO,
    SMALL,
    SMALL_OF_ONE,
    STANDARD,
    STANDARD_OF_ONE,
    TWO,
    Adjustment,
    Device,
    Limits,
    NamedSem,
    Open,
    Placed,
    Posix,
    Queue,
    Segment,
    Set,
    Waiting,
    adjustments,
    batch,
    chained,
    clock,
    connect,
    header,
    hello,
    interrupted,
    leave,
    msgget,
    msgrcv,
    msgsnd,
    need_of,
    old_device,
    processes,
    read,
    request,
    root,
    semget,
    semop,
    state,
    superblock,
    table,
    tick,
    waits,
)
from device_runs import (  # noqa: E402
    PROGRAM,
    errored,
    fault_of,
    ipcd,
    is_image,
    numbered,
    opens,
    received,
    row,
    row_of_named,
    row_of_posix,
    row_of_set,
    runs,
    sector,
    sends,
)
from server import check, in_a_folder, run, run_tests  # noqa: E402

Objects = list[tuple[int, bytes]]

OLD_NEED, NEED = need_of(SMALL_OF_ONE, ONE), need_of(SMALL)
GROWS = ("--small", "--sectors", str(NEED))


def old(limits: Limits = SMALL_OF_ONE) -> Device:
    return Device(limits, version=ONE)


# ---- a device with something of each kind

THEM = ((20, 1000, 100), (21, 2000, 200), (23, 0, 0))
OPENED = {
    20: (Open(0, 2, 0x802), Open(1, 1, 0, 4), Open(3, 8, 2, 5)),
    21: (Open(0, 4), Open(2, 3, 0, 4)),
}
QUEUE = Queue(1234, ((5, b"hi"), (3, 60 * b"x")), (7, 8), (1000, 100), 0o640, (9, 8, 7), (20, 21), 100)
EMPTY = Queue(0)
FULL = Set(77, ((32767, 4),), times=(3, 2))
SET = Set(-5, ((1, 20), (2, 0), (0, 0)), (7, 2**32 - 1), (1000, 100), 0o666, (6, 5))
JOBS = Posix(b"/jobs", ((0, b"low"), (9, b"")), maxmsg=2, msgsize=8, registration=(2, 20, 0, 77))
SEM = NamedSem(b"/s", 3, (2000, 200), 0o644)
SEGMENT = Segment(b"/m", bytes(range(256)) * 3, mode=0o660)
UNDO = (Adjustment(20, 5, 0, -2), Adjustment(20, 5, 1, 3), Adjustment(21, 5, 0, 1), Adjustment(23, 2, 0, -32767))
CALLS = (Waiting(23, msgrcv(5, 1, 64, 7, 0)), Waiting(21, semop(6, 5, (1, -3, 0))))

# Process 24 sends what 23 waits for, and raises a semaphore; 21 is interrupted, and 20 leaves.
EVENTS = (
    batch(tick(60), connect(60, 1, 1000, 100), request(60, 24, msgsnd(2, 1, 7, b"seven"))),
    batch(request(70, 24, semop(3, 5, (0, 4, SEM_UNDO))), request(71, 24, msgget(4, 99))),
    batch(interrupted(72, 21, 7), tick(75), leave(80, 20)),
)


def held() -> Device:
    objects = state(
        clock(50, 24, 4, 6, 5, 4, 9, version=ONE),
        processes(*THEM, opened=OPENED),
        {1: QUEUE, 3: EMPTY},
        {2: FULL, 5: SET},
        waits(*CALLS),
        adjustments(*UNDO),
        {2: JOBS, 4: Posix(b"", ((1, b"gone"),))},
        {1: SEM, 3: NamedSem(b"")},
        {2: SEGMENT, 8: Segment(b"", b"gone")},
    )
    return old().save(7, objects).journal(7, *EVENTS)


# The restart adds what was noted of the set: 1 + 4 - 2 (20) + 1 (21) - 4 (24), and 2 + 3; and 32767 - 32767.
NEW_QUEUE = QUEUE._replace(times=(60, 60, 7), pids=(24, 23))
NEW_FULL = FULL._replace(semaphores=((0, 23),))
NEW_SET = SET._replace(semaphores=((0, 24), (5, 20), (0, 0)), times=(70, 5))
NEW_JOBS = JOBS._replace(registration=(0, 0, 0, 0))
NEW = state(
    clock(80, 25, 4, 6, 5, 4, 9),
    processes(),
    {1: NEW_QUEUE, 3: EMPTY},
    {2: NEW_FULL, 5: NEW_SET},
    posix={2: NEW_JOBS},
    named={1: SEM},
    segments={2: SEGMENT},
)
LISTED = (
    row(1, NEW_QUEUE)
    + row(3, EMPTY)
    + row_of_set(2, NEW_FULL)
    + row_of_set(5, NEW_SET)
    + row_of_posix(NEW_JOBS)
    + row_of_named(SEM)
    + row_of_named(SEGMENT)
)


# ---- what an upgrade leaves


def used(placed: list[Placed], chain: list[int]) -> set[int]:
    return {*chain, *(at for one in placed for at in one.sectors)}


def written(before: bytes, after: bytes, objects: Objects, limits: Limits, epoch: int) -> bytes:
    """The file before, with these objects and their table in the sectors where they are found, the root and the
    superblock."""
    found, image = read(after), bytearray(before)
    numbers = [one.number for one in found.placed]
    check(numbers == [number for number, _ in objects], f"the objects are {numbers}")
    parts = {0: superblock(limits, len(after) // SECTOR), TWO.root: b""}
    for one, (_, data) in zip(found.placed, objects):
        check(one.length == len(data), f"object {one.number} has {one.length} bytes")
        parts |= {at: data[SECTOR * place :][:SECTOR] for place, at in enumerate(one.sectors)}
    lines = table(*found.placed)
    parts |= chained(lines, found.chain)
    parts[TWO.root] = root(epoch, found.chain[0], len(lines))
    for at, data in parts.items():
        image[SECTOR * at : SECTOR * (at + 1)] = data.ljust(SECTOR, b"\0")
    return bytes(image)


def is_upgraded(
    image: bytes,
    objects: Objects,
    listed: str,
    name: str,
    *words: str,
    limits: Limits = SMALL,
    sectors: int = NEED,
) -> bytes:
    """An upgrade leaves these objects, writes over none of the old ones, and leaves all else as it was: the journal is
    of an earlier epoch, so it is empty. A second upgrade is refused. The file after the first."""
    old_content = read(image, ONE)
    ended = ipcd(image, "upgrade", "", *words)
    wanted = (0, "", f"upgraded {sectors} sectors\n")
    check(ended[:3] == wanted, f"{name}: {ended[:3]}, and not {wanted}")
    check(fault_of(ended.image) == "", f"{name}: the checker says {fault_of(ended.image)!r}")
    content = read(ended.image)
    found = (content.limits, content.epoch, content.batches)
    check(found == (limits, old_content.epoch + 1, []), f"{name}: {found}")
    gone = [at for at in used(old_content.placed, old_content.chain) if sector(ended.image, at) != sector(image, at)]
    check(gone == [], f"{name}: the sectors {gone} are written over")
    grown = bytes(image).ljust(SECTOR * sectors, b"\0")
    is_image(ended.image, written(grown, ended.image, objects, limits, content.epoch), name)
    opens(ended.image, listed, name)
    is_refused(ended.image, "version 2", f"{name}, once more", *words)
    return ended.image


def is_refused(image: bytes, said: str, name: str, *words: str, sectors: int = 0) -> None:
    """The file may have grown by zeros."""
    ended = ipcd(image, "upgrade", "", *words)
    wanted = (1, f"ipcd: {said}\n", "")
    check(ended[:3] == wanted, f"{name}: {ended[:3]}, and not {wanted}")
    is_image(ended.image, bytes(image).ljust(SECTOR * sectors, b"\0"), name)


def is_damaged(device: Device, where: int, name: str) -> None:
    """The checker of version 1 and the upgrade name this sector, though the file has grown."""
    said, found = f"damaged sector {where}", fault_of(bytes(device.image).ljust(SECTOR * NEED, b"\0"), ONE)
    check(found == said, f"{name}: the checker says {found!r}, and not {said!r}")
    is_refused(device.image, said, name, *GROWS, sectors=NEED)


# ---- upgrades


def a_device_that_is_kept_as_bytes() -> None:
    image = old_device()
    is_image(bytes(held().image), image, "what the writer makes")
    check(fault_of(image, ONE) == "", f"the checker says {fault_of(image, ONE)!r}")
    is_upgraded(image, NEW, LISTED, "a device with something of each kind", *GROWS)


def what_can_be_done_with_it() -> None:
    """Identifiers, keys and numbers go on, and the journal begins anew."""
    device = Device()
    device.image = bytearray(is_upgraded(old_device(), NEW, LISTED, "a device that goes on", *GROWS))
    content = read(device.image)
    device.placed, device.chain = content.placed, content.chain
    frames = (msgget(2, 1234, 0), msgget(3, 0), semget(4, 77, 1, 0), msgrcv(5, 1))
    script = ["90 open 1", sends(90, 1, hello(1), *frames)]
    answers = [numbered(1, 1, 25), numbered(1, 2, 1), errored(1, 3, 28), numbered(1, 4, 2)]
    answers.append(received(1, 5, 5, b"hi"))
    line = batch(tick(90), connect(90, 1, 1000, 100), *(request(90, 25, frame) for frame in frames))
    wanted = device.copy().fill(BODY, batch(RESTART)).fill(BODY + 1, line).put(JOURNAL, 0, header(8, 2))
    runs(device, script, answers, wanted, "a script after an upgrade")


def new_devices() -> None:
    """In a file of as many sectors as are needed and more, and in one that has them already."""
    nothing = state(clock(0, 1, 1), processes(), {})
    is_upgraded(old().image, nothing, "", "a new device", *GROWS)
    is_upgraded(old().image, nothing, "", "a larger one", "--small", "--sectors", "1500", sectors=1500)
    long = bytes(old().image).ljust(SECTOR * 2000, b"\xee")
    is_upgraded(long, nothing, "", "a file of 2000 sectors", "--small", sectors=2000)
    is_upgraded(long, nothing, "", "a number below those of the file", *GROWS, sectors=2000)


def lengths() -> None:
    """Bytes after the last whole sector stay if the file does not grow, and are cut off if it does."""
    nothing = state(clock(0, 1, 1), processes(), {})
    more = 511 * b"\xee"
    grown = bytes(old().image).ljust(SECTOR * NEED, b"\0")
    ended = ipcd(grown + more, "upgrade", "", "--small")
    check((ended.printed, ended.image[SECTOR * NEED :]) == (f"upgraded {NEED} sectors\n", more), "bytes after the end")
    is_image(ended.image, written(grown, ended.image[: SECTOR * NEED], nothing, SMALL, 2) + more, "bytes after the end")
    ended = ipcd(bytes(old().image) + more, "upgrade", "", *GROWS)
    check(ended[:3] == (0, "", f"upgraded {NEED} sectors\n"), f"bytes that are cut off: {ended[:3]}")
    is_image(ended.image, written(grown, ended.image, nothing, SMALL, 2), "bytes that are cut off")


def scattered_objects() -> None:
    """Old objects at the end of their area, and a journal that is full: an open would have to save."""
    device = old()
    places = range(OLD_NEED - 1, 259, -1)
    objects = state(clock(9, 2, 2, version=ONE), processes((1, 1000, 100)), {1: QUEUE})
    device.save(3, objects, places).journal(3, *BODY_COUNT * [batch(tick(9))])
    wanted = state(clock(9, 2, 2), processes(), {1: QUEUE})
    is_upgraded(device.image, wanted, row(1, QUEUE), "a full journal", *GROWS)
    device = old().save(LAST_EPOCH - 1, objects)
    is_upgraded(device.image, wanted, row(1, QUEUE), "the last epoch but one", *GROWS)
    # A journal of an earlier epoch is not read.
    device.save(5, objects).put(JOURNAL, 0, header(4, 9999))
    is_upgraded(device.image, wanted, row(1, QUEUE), "a journal of an earlier epoch", *GROWS)


def other_limits() -> None:
    """A device keeps what it has under limits that are all greater. Those of the device were its own."""
    limits = SMALL_OF_ONE._replace(msgmnb=100, msgmax=50, semmsl=3, descriptors=3)
    is_upgraded(old(limits).image, state(clock(0, 1, 1), processes(), {}), "", "lower limits", *GROWS)


def a_semaphore_is_undone() -> None:
    """Two processes have changed a semaphore with SEM_UNDO, and a third waits for it. What they have done goes with the
    upgrade, as with any restart."""
    lines = [[connect(0, number, 1000, 100)] for number in (1, 2, 3)]
    lines += [[request(0, 1, semget(2, 9, 1))], [request(0, 1, semop(3, 1, (0, 5, SEM_UNDO)))]]
    lines += [[request(0, 2, semop(2, 1, (0, -3, SEM_UNDO)))], [request(0, 3, semop(2, 1, (0, -3, 0)))]]
    device = old().journal(1, batch(RESTART), *(batch(tick(0), *line) for line in lines))
    is_refused(device.image, "too small, 1366 sectors needed", "a small device", "--small")
    one = Set(9, ((3, 2),))
    objects = state(clock(0, 4, 1, 2), processes(), {}, {1: one})
    image = is_upgraded(device.image, objects, row_of_set(1, one), "a small device", *GROWS)
    getval = struct.pack(">IBII", 2, 0x16, 1, 0)
    ended = ipcd(image, "run", f"0 open 1\n{sends(0, 1, hello(1), getval)}\n")
    wanted = (0, "", f"{numbered(1, 1, 4)}\n{numbered(1, 2, 3)}\n")
    check(ended[:3] == wanted, f"after the upgrade: {ended[:3]}")


def a_queue_grows() -> None:
    """A queue that was made under version 1 keeps its qbytes, which may be set higher. A new one has the new ones."""
    queue = Queue(1234, qbytes=16384)
    device = old(STANDARD_OF_ONE)
    device.save(2, state(clock(0, 2, 2, version=ONE), processes(), {1: queue}))
    objects, sectors = state(clock(0, 2, 2), processes(), {1: queue}), need_of(STANDARD)
    words = ("--sectors", str(sectors))
    image = is_upgraded(
        device.image, objects, row(1, queue), "a standard device", *words, limits=STANDARD, sectors=sectors
    )
    is_refused(device.image, "bad limits 0", "small limits", "--small")
    change = struct.pack(">IBIIIII", 3, 0x0E, 1, 1000, 100, 0o600, 65536)
    frames = [msgsnd(2, 1, 1, 16385 * b"x"), change, msgsnd(4, 1, 1, 65536 * b"x"), msgget(5, 0)]
    frames.append(msgsnd(6, 2, 1, 65537 * b"x"))
    script = "".join(f"{line}\n" for line in ("0 open 1", *(sends(0, 1, frame) for frame in (hello(1), *frames))))
    printed = [numbered(1, 1, 2), errored(1, 2, 11), errored(1, 3, 0), errored(1, 4, 0), numbered(1, 5, 2)]
    printed.append(errored(1, 6, 22))
    ended = ipcd(image, "run", script)
    check(ended[:3] == (0, "", "".join(f"{line}\n" for line in printed)), f"after the upgrade: {ended[:3]}")


# ---- refusals


MORE_PROCESSES = SMALL_OF_ONE._replace(processes=5)


def with_root(epoch: int) -> Device:
    """A new device of this epoch."""
    device = old()
    return device.put(ONE.root, 0, struct.pack(">Q", epoch)).put(JOURNAL, 0, struct.pack(">Q", epoch))


def no_devices() -> None:
    """What is no device of version 1 that is whole, from the first test on: each has the later faults too."""
    bad = old().put(ONE.root, 0, bytes(16))
    for length in (0, 511, 1535):
        is_refused(bad.image[:length], "not formatted", f"a file of {length} bytes", "--small")
    is_refused(bytes(SECTOR * 3), "not formatted", "three sectors of zeros", *GROWS, sectors=NEED)
    broken = bad.copy().put(0, 12, b"\0\0\7\0")
    is_refused(broken.copy().put(0, 7, b"e").image, "not formatted", "another first word", *GROWS, sectors=NEED)
    for version in (0, 2, 3, 7, 2**32 - 1):
        other = broken.copy().put(0, 8, struct.pack(">I", version))
        is_refused(other.image, f"version {version}", f"version {version}", *GROWS, sectors=NEED)
    is_refused(Device().image, "version 2", "a device of today", "--small")
    is_refused(bad.image[: SECTOR * 3], "damaged sector 0", "a device that is cut", "--small")


def damaged_superblocks() -> None:
    """Each number of the superblock is another than version 1 has there: too many sectors or too few, another place, a
    limit of 0 or above the greatest; or it names fewer sectors than its limits need."""
    places = [(12, 447), (12, NEED + 1), (16, 4), (20, 256), (24, 261), (28, 189), (32, 2)]
    numbers = [(36 + 4 * at, 0) for at in range(16)]
    numbers += [(36 + 4 * at, most + 1) for at, most in enumerate(STANDARD_OF_ONE[:16])]
    # A message longer than a queue, and a set larger than all.
    numbers += [(44, 129), (56, 9)]
    for at, number in (*places, *numbers):
        device = old().put(0, at, struct.pack(">I", number))
        is_damaged(device, 0, f"{number} at {at} of the superblock")
    # Fewer sectors than the device's own limits need.
    for named in (superblock(SMALL_OF_ONE, OLD_NEED - 1, ONE), superblock(MORE_PROCESSES, OLD_NEED, ONE)):
        is_damaged(old().put(0, 0, named), 0, f"a superblock {named.hex()}")


def limits_that_are_greater() -> None:
    """The first limit of which the device has more is named, before the room and what stands there are looked at."""
    for at, field in enumerate(Limits._fields[:16]):
        limits = SMALL_OF_ONE._replace(**{field: SMALL[at] + 1})
        image = old(limits).put(ONE.root, 0, bytes(16)).image
        is_refused(image, f"bad limits {at}", f"a device of a greater {field}", "--small")
    two = old(SMALL_OF_ONE._replace(descriptors=5, semmns=9))
    is_refused(two.image, "bad limits 6", "two limits", "--small", "--sectors", "1500", sectors=1500)


def too_small() -> None:
    """Before what stands there is looked at, and after the file has grown."""
    image = old().put(ONE.root, 0, bytes(16)).image
    said = f"too small, {NEED} sectors needed"
    is_refused(image, said, "a damaged root", "--small")
    for sectors in (0, 7, OLD_NEED, OLD_NEED + 1, NEED - 1):
        words = ("--small", "--sectors", str(sectors))
        is_refused(image, said, f"{sectors} sectors", *words, sectors=max(sectors, OLD_NEED))
    is_refused(image, f"too small, {need_of(STANDARD)} sectors needed", "standard limits")


def damages() -> None:
    """What an open of version 1 would name, and its sector: the root is sector 1."""
    later = old().put(JOURNAL, 0, header(2, 0))
    past = old()
    past.placed[0] = Placed(0, 32, (OLD_NEED,))
    past.point(1, table(*past.placed), [264])
    inside = old()
    inside.placed[0] = Placed(0, 32, (5,))
    inside.point(1, table(*inside.placed), [264])
    no_state = old().save(2, state(clock(0, 1, 0, version=ONE), processes(), {}))
    for name, device, where in (
        ("a root of zeros", old().put(ONE.root, 0, bytes(16)), 1),
        ("an object past those that the superblock names", past, 264),
        ("an object in the journal", inside, 264),
        ("objects of version 2", old().save(2, state(clock(0, 1, 1), processes(), {})), 1),
        ("no state", no_state, 1),
        ("a later epoch of the journal", later, 3),
        ("257 used sectors", old().put(JOURNAL, 0, header(1, 257)), 3),
        ("no state, and a later epoch of the journal", no_state.copy().put(JOURNAL, 0, header(9, 0)), 1),
        ("a batch that is too long", old().put(JOURNAL, 0, header(1, 1)).put(BODY, 0, 4 * b"\xff"), 4),
        ("a second batch of nobody", old().journal(1, batch(RESTART), batch(leave(0, 1))), 5),
        ("the last epoch, and a full journal", with_root(LAST_EPOCH).put(JOURNAL, 8, header(0, BODY_COUNT)[8:]), 1),
    ):
        is_damaged(device, where, name)
    # An open of such a device would have to save only if its journal were full.
    is_refused(with_root(LAST_EPOCH).image, "damaged sector 1", "the last epoch", *GROWS, sectors=NEED)


def files_that_are_no_device() -> None:
    """A device fault, and nothing is made; one in use does not grow."""
    fault = (1, "", "ipcd: device fault\n")
    os.mkdir("folder")
    for path in ("nothing", "folder", "/dev/null", "nowhere/device"):
        for words in (("--small",), GROWS):
            ended = run("upgrade", path, *words)
            check((ended.returncode, ended.stdout, ended.stderr) == fault, f"{path}: {ended}")
    check(not os.path.lexists("nothing"), "a file is made")
    for content in (old_device(), 100 * b"\xee"):
        Path("device").write_bytes(content)
        with open("device", "r+b") as file:
            fcntl.flock(file, fcntl.LOCK_EX | fcntl.LOCK_NB)
            for words in (("--small",), GROWS):
                ended = run("upgrade", "device", *words)
                check((ended.returncode, ended.stdout, ended.stderr) == fault, f"a file in use: {ended}")
        check(Path("device").read_bytes() == content, "a file in use has changed")


def an_output_that_is_full() -> None:
    """The upgrade is done all the same."""
    Path("device").write_bytes(old_device())
    with open("/dev/full", "wb") as full:
        words = [PROGRAM, "upgrade", "device", *GROWS]
        ended = subprocess.run(words, stdout=full, stderr=subprocess.PIPE, timeout=20)
    check((ended.returncode, ended.stderr) == (1, b"ipcd: output fault\n"), f"a full output: {ended}")
    opens(Path("device").read_bytes(), LISTED, "a full output")


TESTS = [
    a_device_that_is_kept_as_bytes,
    what_can_be_done_with_it,
    new_devices,
    lengths,
    scattered_objects,
    other_limits,
    a_semaphore_is_undone,
    a_queue_grows,
    no_devices,
    damaged_superblocks,
    limits_that_are_greater,
    too_small,
    damages,
    files_that_are_no_device,
    an_output_that_is_full,
]


def main() -> None:
    with in_a_folder(300):
        run_tests("upgrade", TESTS)


if __name__ == "__main__":
    main()
