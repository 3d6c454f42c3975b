"""Devices with System V segments (shmget(2)): what a restart, calls and a save make of them, and what stands for no
state.
"""

from __future__ import annotations

from functools import partial
from typing import Iterator

from device_layout import (
    BODY,
    JOURNAL,
    LAST_NUMBER,
    MARKED,
    RESTART,
    SHM_RDONLY,
    SMALL,
    STANDARD,
    SYSTEM_V_SEGMENT_KIND,
    Device,
    Open,
    Queue,
    Set,
    SystemVSegment,
    attached_read,
    attached_write,
    batch,
    clock,
    connect,
    header,
    hello,
    leave,
    msgget,
    processes,
    request,
    semget,
    shmat,
    shmctl_rmid,
    shmctl_set,
    shmctl_stat,
    shmdt,
    shmget,
    state,
    tick,
)
from device_runs import (
    Check,
    errored,
    numbered,
    opens,
    recorded,
    refuses,
    row,
    row_of_set,
    row_of_system_v,
    runs,
    sends,
)

Objects = list[tuple[int, bytes]]

ONE = SystemVSegment(-2, bytes(range(256)) * 4, (7, 8), (9, 2**32 - 1), 0o640, (4, 5, 2**64 - 1), (20, 2**32 - 1))
OTHER = SystemVSegment(9, b"\7", mode=0)
# It was removed while somebody had it attached.
GONE = SystemVSegment(0, 900 * b"\7", (1, 2), (3, 4), MARKED | 0o604, (1, 0, 1), (9, 9))
# Who has segments 2 and 7 attached. Flags are not tested.
FDS = {
    20: (Open(0, 2, SHM_RDONLY, 6), Open(2, 7, 0, 6), Open(3, 2, 0, 6)),
    21: (Open(1, 2, 0, 6), Open(3, 7, 2**32 - 1, 6)),
}


def objects_of(
    segments: dict[int, SystemVSegment],
    next_number: int = 8,
    opened: dict[int, tuple[Open, ...]] | None = None,
) -> Objects:
    numbers = clock(50, 30, 1, 1, 1, 1, 1, next_number)
    return state(numbers, processes((20, 1000, 100), (21, 2000, 200), opened=opened), {}, system_v=segments)


def kept() -> None:
    """After a restart they are what they were, and a save leaves them in their sectors. A queue and a set of their keys
    are others."""
    segments = {2: ONE, 7: OTHER}
    device = Device().save(7, objects_of(segments))
    listed = row_of_system_v(2, ONE) + row_of_system_v(7, OTHER)
    opens(device.image, listed, "System V segments")
    frames = [msgget(2, -2), semget(3, 9, 1)]
    script = ["100 open 1", sends(100, 1, hello(1), *frames), "save"]
    line = batch(tick(100), connect(100, 1, 1000, 100), *(request(100, 30, frame) for frame in frames))
    wanted = device.copy().journal(7, batch(RESTART), line)
    queue, one = Queue(-2, times=(0, 0, 100)), Set(9, times=(0, 100))
    numbers = clock(100, 31, 2, 2, 1, 1, 1, 8)
    objects = state(numbers, processes((30, 1000, 100)), {1: queue}, {1: one}, system_v=segments)
    wanted.save(8, objects, unchanged=(SYSTEM_V_SEGMENT_KIND + 2, SYSTEM_V_SEGMENT_KIND + 7))
    runs(device, script, [numbered(1, 1, 30), numbered(1, 2, 1), numbered(1, 3, 1)], wanted, "System V segments")
    opens(wanted.image, row(1, queue) + row_of_set(1, one) + listed, "System V segments, saved")


def after(name: str, events: list[bytes], dtime: int, lpid: int) -> None:
    """After these events and a restart, of which the last to detach was this process at this moment, a segment that was
    removed is gone, and the other is written anew by a save."""
    device = Device().save(7, objects_of({2: ONE, 7: GONE}, opened=FDS))
    device.journal(7, *([batch(*events)] if events else []))
    left = {2: ONE._replace(times=(ONE.times[0], dtime, ONE.times[2]), pids=(ONE.pids[0], lpid))}
    listed = row_of_system_v(2, left[2])
    opens(device.image, listed, name)
    used = 1 if events else 0
    wanted = device.copy().put(BODY + used, 0, batch(RESTART))
    wanted.put(BODY + used + 1, 0, batch(tick(100), connect(100, 1, 1000, 100)))
    wanted.put(JOURNAL, 0, header(7, used + 2))
    numbers = clock(100, 31, 1, 1, 1, 1, 1, 8)
    wanted.save(8, state(numbers, processes((30, 1000, 100)), {}, system_v=left))
    runs(device, ["100 open 1", sends(100, 1, hello(1)), "save"], [numbered(1, 1, 30)], wanted, name)
    opens(wanted.image, listed, f"{name}, saved")


def restarts() -> Iterator[Check]:
    """Each attachment is given up, at the clock, by rising pid."""
    yield partial(after, "a restart while segments are attached", [], 50, 21)
    yield partial(after, "an exit of the first, and then a restart", [leave(60, 20)], 60, 21)
    yield partial(after, "an exit of the second, and then a restart", [leave(60, 21)], 60, 20)
    yield partial(after, "two exits, and then a restart", [leave(60, 21), leave(70, 20)], 70, 20)
    detaches = [request(60, 21, shmdt(1, 1)), request(65, 20, shmdt(1, 0)), leave(67, 21)]
    yield partial(after, "detachments, and then a restart", detaches, 67, 20)


# What a client asks at moment 5, and what is answered; and later calls, none of which changes a segment.
CALLS = (
    (shmget(2, 9, 10), numbered(1, 2, 1)),
    (shmget(3, -9, 600), numbered(1, 3, 2)),
    (shmat(4, 1, 0xFFFFFFFF), numbered(1, 4, 0)),
    (shmat(5, 2, 0xFFFFEFFF), numbered(1, 5, 1)),
    (attached_write(6, 1, 598, b"ab"), errored(1, 6, 0)),
    (shmctl_rmid(7, 1), errored(1, 7, 0)),
)
LATER = (
    (attached_read(8, 1, 597, 3), recorded(1, 8, b"\0ab")),
    (attached_write(9, 0, 0, b"a"), errored(1, 9, 9)),
    (shmdt(10, 2), errored(1, 10, 22)),
    (shmget(11, -9, 600, 0), numbered(1, 11, 2)),
    (shmctl_set(12, 3, 1, 1, 0), errored(1, 12, 22)),
)
# It may change segment 2, though it leaves it as it was.
ZERO = attached_write(14, 1, 0, b"\0")
MADE = {
    1: SystemVSegment(0, bytes(10), mode=MARKED | 0o600, times=(5, 0, 5), pids=(1, 1)),
    2: SystemVSegment(-9, bytes(598) + b"ab", times=(5, 0, 5), pids=(1, 1)),
}


def saved() -> None:
    """What calls leave of segments is saved, with who has them attached, and of the flags SHM_RDONLY alone. A save
    leaves a segment in its sectors that no call may have changed, and writes one anew to which a byte was written."""
    device = Device()
    attached = {1: (Open(0, 1, SHM_RDONLY, 6), Open(1, 2, 0, 6))}
    them = processes((1, 1000, 100), opened=attached)
    record = MADE[2].record() + bytes.fromhex("00000001 0000000000000258")
    later = [*LATER, (shmctl_stat(13, 2), recorded(1, 13, record))]
    script = ["5 open 1", sends(5, 1, hello(1), *(frame for frame, _ in CALLS)), "save"]
    script += [sends(9, 1, *(frame for frame, _ in later)), "save", sends(9, 1, ZERO), "save"]
    printed = [numbered(1, 1, 1), *(line for _, line in CALLS), *(line for _, line in later), errored(1, 14, 0)]
    first = batch(tick(5), connect(5, 1, 1000, 100), *(request(5, 1, frame) for frame, _ in CALLS))
    wanted = device.copy().journal(1, batch(RESTART), first)
    wanted.save(2, state(clock(5, 2, 1, 1, 1, 1, 1, 3), them, {}, system_v=MADE))
    wanted.journal(2, batch(tick(9), *(request(9, 1, frame) for frame, _ in later)))
    both = (SYSTEM_V_SEGMENT_KIND + 1, SYSTEM_V_SEGMENT_KIND + 2)
    objects = state(clock(9, 2, 1, 1, 1, 1, 1, 3), them, {}, system_v=MADE)
    wanted.save(3, objects, unchanged=both)
    wanted.fill(BODY, b"").journal(3, batch(tick(9), request(9, 1, ZERO)))
    wanted.save(4, objects, unchanged=both[:1])
    runs(device, script, printed, wanted, "calls on System V segments")
    opens(wanted.image, row_of_system_v(2, MADE[2]), "calls on System V segments, saved")


def all_bytes() -> None:
    """The bytes of all segments together, which small limits do not meet: also of one that was removed, while it is
    attached."""
    device = Device(SMALL._replace(shmmni=3))
    calls = (
        (shmget(2, 1, 1024), numbered(1, 2, 1)),
        (shmget(3, 2, 1024), numbered(1, 3, 2)),
        (shmget(4, 3, 1), errored(1, 4, 28)),
        (shmat(5, 1), numbered(1, 5, 0)),
        (shmctl_rmid(6, 1), errored(1, 6, 0)),
        (shmget(7, 3, 1), errored(1, 7, 28)),
        (shmdt(8, 0), errored(1, 8, 0)),
        (shmget(9, 3, 1), numbered(1, 9, 3)),
    )
    frames = [frame for frame, _ in calls]
    script = ["0 open 1", sends(0, 1, hello(1), *frames)]
    line = batch(tick(0), connect(0, 1, 1000, 100), *(request(0, 1, frame) for frame in frames))
    wanted = device.copy().journal(1, batch(RESTART), line)
    printed = [numbered(1, 1, 1), *(answer for _, answer in calls)]
    runs(device, script, printed, wanted, "all bytes of System V segments")
    left = {2: SystemVSegment(2, bytes(1024)), 3: SystemVSegment(3, b"\0")}
    listed = "".join(row_of_system_v(number, one) for number, one in left.items())
    opens(wanted.image, listed, "all bytes of System V segments, kept")


def largest() -> None:
    """One of as many bytes as standard limits have, and one byte more."""
    limits = SMALL._replace(shmmax=STANDARD.shmmax, shmall=STANDARD.shmall)
    one = SystemVSegment(0, STANDARD.shmmax * b"\xa5")
    opens(Device(limits).save(7, objects_of({1: one})).image, row_of_system_v(1, one), "the largest System V segment")
    more = one._replace(content=one.content + b"\xa5")
    refuses(Device(limits).save(7, objects_of({1: more})).image, "damaged sector 2", "one byte more")


def no_states() -> Iterator[Check]:
    """System V segments that break a rule, each once."""
    for name, one in {
        "no bytes": ONE._replace(content=b""),
        "1025 bytes": ONE._replace(content=bytes(1025)),
        "eleven bits of mode": ONE._replace(mode=0o2000),
        "a mark and a key": ONE._replace(mode=MARKED),
    }.items():
        yield no_state(f"a System V segment of {name}", objects_of({2: one}, opened={20: FDS[20][:1]}))
    yield no_state("a System V segment that was removed and is not attached", objects_of({7: GONE}))
    another = objects_of({2: ONE, 7: GONE}, opened={20: FDS[20][:1]})
    yield no_state("a System V segment that was removed, and another one is attached", another)
    for name, mine in {
        "a System V segment that is not there": Open(0, 3, 0, 6),
        "a System V segment as one with a name": Open(0, 2, 0, 5),
        "a number that is too great": Open(4, 2, 0, 6),
    }.items():
        yield no_state(f"a descriptor of {name}", objects_of({2: ONE}, opened={20: (mine,)}))
    without_key = ONE._replace(key=0)
    two = {1: without_key, 2: without_key}
    listed = row_of_system_v(1, without_key) + row_of_system_v(2, without_key)
    yield partial(opens, Device().save(7, objects_of(two)).image, listed, "two System V segments without a key")
    yield no_state("three System V segments", objects_of(two | {3: OTHER}))
    yield no_state("two System V segments of one key", objects_of({1: OTHER, 2: OTHER}))
    limits = SMALL._replace(shmall=2047)
    image = Device(limits).save(7, objects_of(two)).image
    yield partial(refuses, image, "damaged sector 2", "System V segments of 2048 bytes, and not 2047")
    for number in (0, 8):
        yield no_state(f"System V segment {number}", objects_of({number: ONE}))
    for number in (0, LAST_NUMBER + 2):
        yield no_state(f"next System V segment {number}", objects_of({}, number))
    objects, data = objects_of({}), ONE.data()
    for name, wrong in {
        "a byte less": data[:-1],
        "a byte more": data + b"\0",
        "63 bytes": OTHER.data()[:63],
        "no bytes, but one is counted": OTHER.data()[:64],
        "a length of 2^56 and more": data[:56] + b"\1" + data[57:],
    }.items():
        yield no_state(f"a System V segment with {name}", [*objects, (SYSTEM_V_SEGMENT_KIND + 2, wrong)])


def no_state(name: str, objects: Objects) -> Check:
    return partial(refuses, Device().save(7, objects).image, "damaged sector 2", name)


def system_v() -> Iterator[Check]:
    yield kept
    yield from restarts()
    yield saved
    yield all_bytes
    yield largest
    yield from no_states()
