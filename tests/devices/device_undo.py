"""Devices with adjustments (semop(2)): what an exit and a restart add, what is cleared, what stands for no state."""

from __future__ import annotations

import struct
from functools import partial
from typing import Iterator

from device_layout import (
    BODY,
    JOURNAL,
    NONE,
    RESTART,
    SMALL,
    Adjustment,
    Device,
    Set,
    adjustments,
    batch,
    clock,
    connect,
    header,
    hello,
    leave,
    processes,
    request,
    semctl_getall,
    semctl_rmid,
    semctl_setall,
    semctl_setval,
    state,
    tick,
)
from device_runs import Check, numbered, opens, recorded, refuses, row_of_set, runs, sends

Objects = list[tuple[int, bytes]]

# Two sets, of two processes' adjustments.
TWO = Set(0, ((3, 11), (0, 0)), times=(4, 5))
ONE = Set(0, ((32765, 9),), times=(6, 7))
THEM = (
    Adjustment(20, 2, 0, -5),
    Adjustment(20, 2, 1, 7),
    Adjustment(20, 5, 0, 3),
    Adjustment(21, 2, 0, 4),
)


def with_adjustments(undo: bytes, pids: tuple[int, ...] = (20, 21), two: Set = TWO) -> Objects:
    them = processes(*((pid, 1000, 100) for pid in pids))
    return state(clock(50, 30, 1, 6), them, {}, {2: two, 5: ONE}, NONE, undo)


def after(name: str, events: list[bytes], two: Set | None, one: Set) -> None:
    """The sets after these events and a restart: what a script finds, and what a save then keeps of them."""
    device = Device().save(7, with_adjustments(adjustments(*THEM)))
    device.journal(7, *([batch(*events)] if events else []))
    there = {} if two is None else {2: two}
    listed = "".join(row_of_set(number, found) for number, found in {**there, 5: one}.items())
    opens(device.image, listed, name)
    frames = [semctl_getall(2, 5)] + ([semctl_getall(3, 2)] if two else [])
    values = [struct.pack(">H", one.semaphores[0][0])]
    values += [b"".join(struct.pack(">H", value) for value, _ in two.semaphores)] if two else []
    script = ["100 open 1", sends(100, 1, hello(1, 0, 0), *frames), "save"]
    printed = [numbered(1, 1, 30), *(recorded(1, 2 + at, data) for at, data in enumerate(values))]
    line = batch(tick(100), connect(100, 1, 0, 0), *(request(100, 30, frame) for frame in frames))
    used = 1 if events else 0
    wanted = device.copy().put(BODY + used, 0, batch(RESTART)).put(BODY + used + 1, 0, line)
    objects = state(clock(100, 31, 1, 6), processes((30, 0, 0)), {}, {**there, 5: one})
    runs(device, script, printed, wanted.put(JOURNAL, 0, header(7, used + 2)).save(8, objects), name)


def restarts() -> Iterator[Check]:
    """Each adjustment is added, the value stays from 0 to 32767, and the semaphore is of the process that has left; no
    time is noted. What was cleared is not added."""
    full = ONE._replace(semaphores=((32767, 20),))
    yield partial(after, "a restart", [], TWO._replace(semaphores=((4, 21), (7, 20))), full)
    yield partial(
        after,
        "an exit, and then a restart",
        [leave(60, 21)],
        TWO._replace(semaphores=((2, 20), (7, 20))),
        full,
    )
    yield partial(
        after,
        "a SETVAL",
        [request(60, 21, semctl_setval(1, 2, 0, 9))],
        TWO._replace(semaphores=((9, 21), (7, 20)), times=(4, 60)),
        full,
    )
    yield partial(
        after,
        "a SETALL",
        [request(60, 21, semctl_setall(1, 2, 9, 8))],
        TWO._replace(semaphores=((9, 21), (8, 21)), times=(4, 60)),
        full,
    )
    yield partial(after, "an IPC_RMID", [request(60, 21, semctl_rmid(1, 2))], None, full)
    yield partial(
        after,
        "an exit, and a SETALL of another set",
        [leave(60, 20), request(61, 21, semctl_setall(1, 5, 1))],
        TWO._replace(semaphores=((4, 21), (7, 20))),
        ONE._replace(semaphores=((1, 21),), times=(6, 61)),
    )


def no_states() -> Iterator[Check]:
    """Adjustments that are none, or not in their order."""
    first, second, *others = THEM
    for name, them in {
        "an adjustment of 0": (first._replace(amount=0), second),
        "an adjustment of -32768": (first, second._replace(amount=-32768)),
        "adjustments of a process that is not there": (*THEM, Adjustment(22, 2, 0, 1)),
        "adjustments of process 0": (Adjustment(0, 2, 0, 1), *THEM),
        "an adjustment of a set that is not there": (first, Adjustment(20, 3, 0, 1), *others),
        "an adjustment of a semaphore that is not there": (first, Adjustment(20, 2, 2, 1), *others),
        "two adjustments at one semaphore": (first, first._replace(amount=1), *others),
        "numbers that do not rise": (second, first, *others),
        "sets that do not rise": (others[0], first, second),
        "pids that do not rise": (others[1], first),
    }.items():
        objects = with_adjustments(adjustments(*them))
        yield partial(refuses, Device().save(7, objects).image, "damaged sector 2", name)
    data = adjustments(*THEM)
    for name, wrong in {
        "a byte less than four adjustments": data[:-1],
        "a byte more than four adjustments": data + b"\0",
        "a count of three": b"\0\0\0\3" + data[4:],
        "a count of five": b"\0\0\0\5" + data[4:],
        "three bytes": data[:3],
    }.items():
        yield partial(refuses, Device().save(7, with_adjustments(wrong)).image, "damaged sector 2", name)
    gone = with_adjustments(adjustments(*THEM), (21,))
    yield partial(refuses, Device().save(7, gone).image, "damaged sector 2", "one who has left")


def as_many_as_may_be() -> None:
    """Each of 64 processes has an adjustment at each of 512 semaphores, of 8 sets."""
    pids, semids = range(1, 65), range(1, 9)
    them = [Adjustment(pid, semid, number, 1) for pid in pids for semid in semids for number in range(64)]
    sets = {semid: Set(0, 64 * ((0, 0),)) for semid in semids}
    objects = state(clock(9, 65, 1, 9), processes(*((pid, 0, 0) for pid in pids)), {}, sets, NONE, adjustments(*them))
    limits = SMALL._replace(processes=64, semmni=8, semmsl=64, semmns=512)
    device = Device(limits).save(1, objects)
    after = {semid: Set(0, 64 * ((64, 64),)) for semid in semids}
    opens(device.image, "".join(row_of_set(semid, one) for semid, one in after.items()), "32768 adjustments")
    script = ["0 open 1", sends(0, 1, hello(1, 0, 0), semctl_getall(2, 8))]
    line = batch(tick(0), connect(0, 1, 0, 0), request(0, 65, semctl_getall(2, 8)))
    wanted = device.copy().put(BODY, 0, batch(RESTART)).put(BODY + 1, 0, line).put(JOURNAL, 0, header(1, 2))
    printed = [numbered(1, 1, 65), recorded(1, 2, 64 * b"\0\x40")]
    runs(device, script, printed, wanted, "32768 adjustments")


def undo() -> Iterator[Check]:
    yield as_many_as_may_be
    yield from restarts()
    yield from no_states()
