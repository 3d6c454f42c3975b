"""Devices with named semaphores and shared memory segments (sem_overview(7), shm_overview(7)): what a listing and a
restart make of them, what a save keeps, and what stands for no state."""

from __future__ import annotations

import random
import struct
from functools import partial
from typing import Iterator

from device_layout import (
    BODY,
    JOURNAL,
    LAST_NUMBER,
    NAMED_KIND,
    NONE,
    RESTART,
    SEGMENT_KIND,
    SMALL,
    STANDARD,
    Device,
    NamedSem,
    Open,
    Segment,
    Waiting,
    batch,
    clock,
    connect,
    header,
    hello,
    leave,
    processes,
    state,
    tick,
    waits,
)
from device_runs import Check, numbered, opens, refuses, row_of_named, runs, sends

Objects = list[tuple[int, bytes]]

# Process 20 has both semaphores open, and the segment /s twice; 21 the unlinked semaphore, for which it waits, and the
# unlinked segment. Flags of a semaphore mean nothing.
FDS = {
    20: (Open(0, 2, 0, 4), Open(1, 4, 3, 4), Open(2, 1, 2, 5), Open(3, 1, 0, 5)),
    21: (Open(1, 4, 0, 4), Open(2, 7, 0, 5)),
}
SEMS = {2: NamedSem(b"/s", 2147483647, (7, 8), 0o640), 4: NamedSem(b"", 0, (0, 2**32 - 1), 0)}
SEGMENTS = {1: Segment(b"/s", bytes(range(1, 256)), (1, 2), 0o777), 7: Segment(b"", 1793 * b"\7")}


def sem_wait(fd: int) -> bytes:
    return struct.pack(">IBIQ", 9, 0x35, fd, 2**64 - 1)


def objects_of(
    sems: dict[int, NamedSem],
    segments: dict[int, Segment],
    opened: dict[int, tuple[Open, ...]] | None = None,
    numbers: tuple[int, int] = (5, 8),
    calls: bytes = NONE,
) -> Objects:
    them = processes((20, 1000, 100), (21, 2000, 200), opened=opened or {})
    return state(clock(50, 30, 1, 1, 1, *numbers), them, {}, {}, calls, NONE, {}, sems, segments)


def after(name: str, events: list[bytes], calls: bytes) -> None:
    """After these events and a restart, what has a name is left as it was. A save keeps it by its number."""
    device = Device().save(7, objects_of(SEMS, SEGMENTS, FDS, calls=calls))
    device.journal(7, *([batch(*events)] if events else []))
    sems, segments = {2: SEMS[2]}, {1: SEGMENTS[1]}
    listed = row_of_named(SEMS[2]) + row_of_named(SEGMENTS[1])
    opens(device.image, listed, name)
    script = ["100 open 1", sends(100, 1, hello(1)), "save"]
    used = 1 if events else 0
    wanted = device.copy().put(BODY + used, 0, batch(RESTART))
    wanted.put(BODY + used + 1, 0, batch(tick(100), connect(100, 1, 1000, 100)))
    numbers = clock(100, 31, 1, 1, 1, 5, 8)
    objects = state(numbers, processes((30, 1000, 100)), {}, {}, NONE, NONE, {}, sems, segments)
    wanted.put(JOURNAL, 0, header(7, used + 2))
    wanted.save(8, objects, unchanged=(NAMED_KIND + 2, SEGMENT_KIND + 1))
    runs(device, script, [numbered(1, 1, 30)], wanted, name)
    opens(wanted.image, listed, f"{name}, saved")


def restarts() -> Iterator[Check]:
    """Nobody waits then, and what has no name is gone; its number is not given again."""
    calls = waits(Waiting(21, sem_wait(1)))
    yield partial(after, "a restart", [], NONE)
    yield partial(after, "a restart while a call waits", [], calls)
    yield partial(after, "a call that waits until later", [], waits(Waiting(21, sem_wait(1), 51)))
    yield partial(after, "two exits, and then a restart", [leave(60, 20), leave(61, 21)], calls)
    yield names_in_order
    yield partial(opens, largest().image, row_of_named(ONE_OF_ALL), "a segment of all bytes")


def names_in_order() -> None:
    """They are listed by the bytes of their names, semaphores first."""
    names = (b"/b", b"/B", b"/" + 250 * b"a", b"/\xff", b"/ab", b"/a")
    sems = {number: NamedSem(name, number) for number, name in enumerate(names, 1)}
    segments = {number: Segment(name, number * b"x") for number, name in enumerate((*names, b"/" + 254 * b"a"), 1)}
    in_order = [one for them in (sems, segments) for one in sorted(them.values(), key=lambda one: one.name)]
    text = "".join(map(row_of_named, in_order))
    device = Device(SMALL._replace(named=len(sems), segments=len(segments)))
    opens(device.save(7, objects_of(sems, segments, numbers=(9, 9))).image, text, "names")


ONE_OF_ALL = Segment(b"/all", STANDARD.segment_bytes * b"\xa5")


def largest() -> Device:
    """2049 sectors of the segment and 17 of the table, in no order."""
    device = Device(SMALL._replace(segment_bytes=STANDARD.segment_bytes))
    places = device.free()
    random.Random(1).shuffle(places)
    return device.save(7, objects_of({}, {1: ONE_OF_ALL}), places)


def no_states() -> Iterator[Check]:
    """Semaphores, segments and descriptors that break a rule, each once."""
    sem, segment = SEMS[2], SEGMENTS[1]
    for name, wrong in {"no slash": b"s", "a slash alone": b"/", "two slashes": b"/a/b", "a byte 0": b"/a\0"}.items():
        yield no_state(f"a semaphore with {name}", objects_of({2: sem._replace(name=wrong)}, {}))
        yield no_state(f"a segment with {name}", objects_of({}, {1: segment._replace(name=wrong)}))
    yield no_state("a semaphore's name of 252 bytes", objects_of({2: NamedSem(b"/" + 251 * b"a")}, {}))
    yield no_state("a segment's name of 256 bytes", objects_of({}, {1: Segment(b"/" + 255 * b"a")}))
    yield no_state("ten bits of mode, a semaphore", objects_of({2: sem._replace(mode=0o1000)}, {}))
    yield no_state("ten bits of mode, a segment", objects_of({}, {1: segment._replace(mode=0o1000)}))
    yield no_state("a value of 2147483648", objects_of({2: sem._replace(value=2147483648)}, {}))
    for length in (2049, 1024):
        more = {1: Segment(b"/a", length * b"x"), 2: Segment(b"/b", 1025 * b"x")}
        yield no_state(f"segments of {length} and 1025 bytes", objects_of({}, more))
    names = (b"/a", b"/b", b"/c")
    yield no_state("three semaphores", objects_of({n: NamedSem(name) for n, name in enumerate(names, 1)}, {}))
    yield no_state("three segments", objects_of({}, {n: Segment(name) for n, name in enumerate(names, 1)}))
    yield no_state("two semaphores of one name", objects_of({1: sem, 2: sem}, {}))
    yield no_state("two segments of one name", objects_of({}, {1: Segment(b"/s"), 2: Segment(b"/s")}))
    yield no_state("a semaphore that nobody can reach", objects_of({4: SEMS[4]}, {}))
    yield no_state("a segment that nobody can reach", objects_of({}, {7: SEGMENTS[7]}))
    for number in (0, 5):
        yield no_state(f"semaphore {number}", objects_of({number: sem}, {}))
    for number in (0, 8):
        yield no_state(f"segment {number}", objects_of({}, {number: segment}))
    for number in (0, LAST_NUMBER + 2):
        yield no_state(f"next semaphore {number}", objects_of({}, {}, numbers=(number, 1)))
        yield no_state(f"next segment {number}", objects_of({}, {}, numbers=(1, number)))
    for name, mine in {
        "a semaphore that is not there": Open(0, 3, 0, 4),
        "a segment that is not there": Open(0, 2, 0, 5),
        "a semaphore as a queue": Open(0, 2, 0, 3),
        "a System V segment that is not there": Open(0, 2, 0, 6),
        "an object of kind 7": Open(0, 2, 0, 7),
        "a segment to write": Open(0, 1, 1, 5),
        "a segment with an access of 3": Open(0, 1, 3, 5),
    }.items():
        yield no_state(f"a descriptor of {name}", objects_of({2: sem}, {1: segment}, {20: (mine,)}))
    opened = {20: FDS[20], 21: FDS[21]}
    for name, call in {
        "for a semaphore above 0": Waiting(20, sem_wait(0)),
        "for a segment": Waiting(21, sem_wait(2)),
        "for no descriptor": Waiting(21, sem_wait(0)),
        "whose deadline has come": Waiting(21, sem_wait(1), 50),
    }.items():
        yield no_state(f"a call that waits {name}", objects_of(SEMS, SEGMENTS, opened, calls=waits(call)))
    yield from cut_short()


def cut_short() -> Iterator[Check]:
    """Objects with bytes too many or too few."""
    objects, sem, segment = objects_of({}, {}), SEMS[2].data(), SEGMENTS[1].data()
    for name, wrong in {
        "a byte less": sem[:-1],
        "a byte more": sem + b"\0",
        "19 bytes": sem[:19],
        "a longer name": sem[:19] + b"\3" + sem[20:],
    }.items():
        yield no_state(f"a semaphore with {name}", [*objects, (NAMED_KIND + 2, wrong)])
    for name, wrong in {
        "a byte less": segment[:-1],
        "a byte more": segment + b"\0",
        "23 bytes": segment[:23],
        "a longer name": segment[:15] + b"\3" + segment[16:],
        "a length of 2^56 and more": segment[:16] + b"\1" + segment[17:],
    }.items():
        yield no_state(f"a segment with {name}", [*objects, (SEGMENT_KIND + 1, wrong)])


def no_state(name: str, objects: Objects) -> Check:
    return partial(refuses, Device().save(7, objects).image, "damaged sector 2", name)


def named() -> Iterator[Check]:
    yield from restarts()
    yield from no_states()
