"""Devices of version 3: message queues with marks, and what its three limits more refuse (msgqlen, semume and
queue-bytes); and what HELLO answers there, and which pids there are after a restart."""

from __future__ import annotations

import struct
from functools import partial
from typing import Iterator

from device_layout import (
    JOURNAL,
    NONE,
    QUEUE_KIND,
    RESTART,
    SEM_UNDO,
    SMALL,
    SMALL_OF_THREE,
    THREE,
    Adjustment,
    Device,
    Limits,
    Posix,
    Queue,
    Set,
    Version,
    Waiting,
    adjustments,
    batch,
    clock,
    connect,
    hello,
    msgget,
    msgrcv,
    msgsnd,
    processes,
    request,
    semctl_getall,
    semget,
    semop,
    state,
    three,
    tick,
    waits,
)
from device_runs import (
    Check,
    check,
    errored,
    ipcd,
    numbered,
    opens,
    received,
    recorded,
    refuses,
    row,
    row_of_posix,
    runs,
    sends,
)
from device_tagged import new, welcomed

# The numbers of errno(3) that are answered here.
EAGAIN, ENOSPC = 11, 28

# ---- queues with marks

# A queue of key 1234 and its message `hi` of type 5, sent at moment 9, as version 3 has it.
SPELLED = bytes.fromhex(
    "000004d2 000003e8 00000064 000003e8 00000064 00000180"
    "0000000000000009 0000000000000000 0000000000000003"
    "00000001 00000000 00000080 00000001 0000000000000001"
    "0000000000000005 00000000 0000000000000000 00000000 0000000000000000 00000002 6869"
)
SENT = Queue(1234, ((5, b"hi"),), times=(9, 0, 3), pids=(1, 0))
Objects = list[tuple[int, bytes]]


def of_one(queue: bytes) -> Objects:
    """A state with process 1 and this object as queue 1."""
    return [*state(clock(9, 2, 2), processes((1, 1000, 100)), {}, version=THREE), (QUEUE_KIND + 1, queue)]


def spelled() -> None:
    check(SENT.data(THREE) == SPELLED, f"the writer's queue: {SENT.data(THREE).hex()}")
    check(len(SPELLED) == 110, "it has 110 bytes")


def goes_on() -> None:
    """A device with a queue that was spelled by hand is listed, a script goes on from it, and a save keeps it."""
    device = new().save(7, of_one(SPELLED))
    opens(device.image, row(1, SENT), "a queue that was spelled by hand")
    script = ["10 open 1", sends(10, 1, hello(1), msgsnd(2, 1, 6, b""), msgrcv(3, 1, 64, 5)), "save"]
    printed = [welcomed(1, 1, 1), errored(1, 2, 0), received(1, 3, 5, b"hi")]
    asked = (request(10, 1, msgsnd(2, 1, 6, b"")), request(10, 1, msgrcv(3, 1, 64, 5)))
    wanted = device.copy().journal(7, batch(RESTART), batch(tick(10), connect(10, 1, 1000, 100), *asked))
    after = Queue(1234, ((6, b""),), times=(10, 10, 3), pids=(1, 1))
    wanted.save(8, state(clock(10, 2, 2), processes((1, 1000, 100)), {1: after}, version=THREE))
    runs(device, script, printed, wanted, "a script on a queue that was spelled by hand")
    opens(wanted.image, row(1, after), "what it has saved")


def replaced(offset: int, data: bytes) -> bytes:
    return SPELLED[:offset] + data + SPELLED[offset + len(data) :]


def no_states() -> Iterator[Check]:
    """Objects of version 3 that stand for no state. The root is in sector 1."""
    head = 72
    for name, queue in {
        "a next token of 0": replaced(64, struct.pack(">Q", 0)),
        "a token that was given": replaced(64, struct.pack(">Q", 2)),
        "a message that was taken before": replaced(head + 8, struct.pack(">I", 1)),
        "a message with a token": replaced(head + 12, struct.pack(">Q", 1)),
        "a message that process 1 has": replaced(head + 20, struct.pack(">I", 1)),
        "a message with a moment": replaced(head + 24, struct.pack(">Q", 1)),
        "a queue as version 2 has it": SENT.data(),
        "a queue without its last byte": SPELLED[:-1],
        "a queue with a byte after its end": SPELLED + b"\0",
        "a text that is longer": replaced(head + 32, struct.pack(">I", 3)),
        "nine messages": Queue(1234, 9 * ((5, b""),)).data(THREE),
    }.items():
        device = new().save(7, of_one(queue))
        yield partial(refuses, bytes(device.image), "damaged sector 1", name, "dump", "list", "run")
    old = Device().save(7, [*state(clock(9, 2, 2), processes(), {}), (QUEUE_KIND + 1, SPELLED)])
    yield partial(refuses, bytes(old.image), "damaged sector 2", "a queue of version 3 on version 2", "dump")
    # The root itself, and the first four objects.
    yield partial(refuses, bytes(new().put(1, 0, bytes(8)).image), "damaged sector 1", "an epoch of 0", "dump")
    yield partial(refuses, bytes(new().put(260, 12, NONE).image), "damaged sector 1", "a next number of 0", "dump")
    yield partial(refuses, bytes(new().put(264, 4, b"\xff").image), "damaged sector 264", "a table's length", "dump")
    short = new(8).put(15, 4, b"\xff")
    yield partial(refuses, bytes(short.image), "damaged sector 15", "the table after a short journal", "dump")


def bounds() -> Iterator[Check]:
    """As much as the limits allow is a state, and one more is none. Version 2 has no such limit."""
    for messages, fits in ((8, True), (9, False)):
        queue = Queue(1234, messages * ((5, b""),))
        name = f"{messages} messages"
        yield partial(is_a_state, name, fits, {1: queue}, row(1, queue))
    two = {1: Set(0, 4 * ((1, 1),)), 2: Set(0, 4 * ((1, 1),))}
    for most, fits in ((4, True), (5, False)):
        them = [Adjustment(1, 1 + at // 4, at % 4, -1) for at in range(most)]
        them += [Adjustment(2, 1, at, -1) for at in range(4)]
        yield partial(is_sound, f"{most} adjustments of one process", fits, two, adjustments(*them))
    for limit, fits in ((288, True), (287, False)):
        yield partial(has_bytes, limit, fits)


def is_a_state(name: str, fits: bool, queues: dict[int, Queue], listed: str) -> None:
    objects = state(clock(9, 2, 2), processes(), queues, version=THREE)
    judged(name, new().save(7, objects), fits, listed)
    old = Device().save(7, state(clock(9, 2, 2), processes(), queues))
    opens(old.image, listed, f"{name} on version 2")


def is_sound(name: str, fits: bool, sets: dict[int, Set], undo: bytes) -> None:
    them = processes((1, 1000, 100), (2, 1000, 100))
    for device, holds in (
        (new().save(7, state(clock(9, 3, 1, 3), them, {}, sets, NONE, undo, version=THREE)), fits),
        (Device().save(7, state(clock(9, 3, 1, 3), them, {}, sets, NONE, undo)), True),
    ):
        listed = "".join(f"sem {at:10} {0:11} 0600       1000        100 {4:10}\n" for at in sets)
        judged(f"{name} on version {device.version.number}", device, holds, listed)


def judged(name: str, device: Device, fits: bool, listed: str) -> None:
    if fits:
        opens(device.image, listed, name)
    else:
        refuses(bytes(device.image), "damaged sector 1", name, "dump", "list")


def has_bytes(limit: int, fits: bool) -> None:
    """Two queues of two messages of 64 bytes are 288 bytes."""
    limits = SMALL_OF_THREE._replace(queue_bytes=limit)
    them = {1: Posix(b"/a"), 2: Posix(b"/b")}
    objects = state(clock(9, 2, 1, 1, 3), processes(), {}, posix=them, version=THREE)
    listed = "".join(row_of_posix(one) for one in them.values())
    judged(f"288 bytes of {limit}", new(257, limits).save(7, objects), fits, listed)


# ---- what the limits refuse


def prints(name: str, script: list[str], printed: list[str], device: Device) -> None:
    """The script prints this."""
    ended = ipcd(device.image, "run", "".join(f"{line}\n" for line in script))
    lines = "".join(f"{line}\n" for line in printed)
    check(ended[:3] == (0, "", lines), f"{name}: {ended[:3]}, and not {lines!r}")


def greeted(version: Version, connection: int, serial: int, pid: int) -> str:
    return welcomed(connection, serial, pid) if version.number == 3 else numbered(connection, serial, pid)


OF_THREE, OF_TWO = (SMALL_OF_THREE, THREE), (SMALL, Device().version)


def messages_of_a_queue(limits: Limits, version: Version) -> None:
    """A queue that has eight messages is full on version 3: a ninth is EAGAIN with IPC_NOWAIT, and else waits until one
    is received. On version 2 it is sent."""
    texts = [msgsnd(serial, 1, 5, b"") for serial in range(3, 11)]
    script = ["0 open 1", "0 open 2", sends(0, 1, hello(1), msgget(2, 1234), *texts)]
    script += [sends(0, 1, msgsnd(11, 1, 5, b"")), sends(0, 2, hello(1)), sends(1, 2, msgsnd(2, 1, 6, b"z", 0))]
    script += [sends(2, 1, msgrcv(12, 1, 64, 5)), sends(3, 1, msgrcv(13, 1, 64, 6))]
    is_three = version.number == 3
    printed = [greeted(version, 1, 1, 1), numbered(1, 2, 1)]
    printed += [errored(1, serial, 0) for serial in range(3, 11)]
    printed += [errored(1, 11, EAGAIN if is_three else 0), greeted(version, 2, 1, 2)]
    printed += [] if is_three else [errored(2, 2, 0)]
    # The receive makes room, so the send that waits is done by the same event.
    printed.append(received(1, 12, 5, b""))
    printed += [errored(2, 2, 0)] if is_three else []
    printed.append(received(1, 13, 6, b"z"))
    device = Device(limits, 0, version)
    prints(f"nine messages on version {version.number}", script, printed, device)


def waits_for_room() -> None:
    """A send that waits for one of eight messages is kept, as any call that waits, and is a state to open."""
    full = Queue(1234, 8 * ((5, b""),))
    calls = waits(Waiting(1, msgsnd(2, 1, 6, b"z", 0)))
    objects = state(clock(9, 2, 2), processes((1, 1000, 100)), {1: full}, {}, calls, version=THREE)
    opens(new().save(7, objects).image, row(1, full), "a send that waits for one message less")
    # With seven messages it would not wait, so this is no state; nor is it one on version 2, where eight are not full.
    seven = Queue(1234, 7 * ((5, b""),))
    objects = state(clock(9, 2, 2), processes((1, 1000, 100)), {1: seven}, {}, calls, version=THREE)
    refuses(bytes(new().save(7, objects).image), "damaged sector 1", "a send that would not wait")
    objects = state(clock(9, 2, 2), processes((1, 1000, 100)), {1: full}, {}, calls)
    refuses(bytes(Device().save(7, objects).image), "damaged sector 2", "a send that would not wait on version 2")


def values(connection: int, serial: int, *them: int) -> str:
    return recorded(connection, serial, struct.pack(f">{len(them)}H", *them))


UP, DOWN = (1, SEM_UNDO), (-1, SEM_UNDO)


def adjustments_of_a_process(limits: Limits, version: Version) -> None:
    """A list that would leave its process with five adjustments is ENOSPC on version 3, and nothing is done. What
    counts is the number after the list, of this process alone. On version 2 it is done."""
    refusal = ENOSPC if version.number == 3 else 0
    more = 0 if version.number == 3 else 1
    steps = [
        # Three at the first set and one at the second are as many as there may be.
        (1, semop(4, 1, (0, *UP), (1, *UP), (2, *UP)), errored(1, 4, 0)),
        (1, semop(5, 2, (0, *UP)), errored(1, 5, 0)),
        (1, semop(6, 2, (1, *UP)), errored(1, 6, refusal)),
        (1, semctl_getall(7, 2), values(1, 7, 1, more, 0, 0)),
        # Without SEM_UNDO, and at a semaphore that has one, there is no other.
        (1, semop(8, 2, (2, 1, 0)), errored(1, 8, 0)),
        (1, semop(9, 1, (0, *UP)), errored(1, 9, 0)),
        # One that becomes 0 makes room within the list, also after the one that takes it.
        (1, semop(10, 2, (3, *UP), (0, *DOWN)), errored(1, 10, 0)),
        (1, semctl_getall(11, 2), values(1, 11, 0, more, 1, 1)),
        # Five within one list.
        (2, semop(12, 1, (0, *UP), (1, *UP), (2, *UP), (3, *UP)), errored(2, 12, 0)),
        (2, semop(13, 2, (0, *UP)), errored(2, 13, refusal)),
        (2, semop(14, 1, (0, *DOWN), (1, *DOWN)), errored(2, 14, 0)),
        (2, semop(15, 2, (0, *UP), (1, *UP)), errored(2, 15, 0)),
    ]
    script = ["0 open 1", "0 open 2", sends(0, 1, hello(1), semget(2, 1, 4), semget(3, 2, 4)), sends(0, 2, hello(1))]
    printed = [greeted(version, 1, 1, 1), numbered(1, 2, 1), numbered(1, 3, 2), greeted(version, 2, 1, 2)]
    for connection, frame, answer in steps:
        script.append(sends(0, connection, frame))
        printed.append(answer)
    device = Device(limits, 0, version)
    prints(f"adjustments on version {version.number}", script, printed, device)


def a_list_that_waits(limits: Limits, version: Version) -> None:
    """A list that waits, and would leave its process with one adjustment too many once it can be done, ends with
    ENOSPC, and the value stays. On version 2 it is done."""
    script = ["0 open 1", "0 open 2", sends(0, 1, hello(1), semget(2, 1, 4), semget(3, 2, 4)), sends(0, 2, hello(1))]
    script += [sends(0, 1, semop(4, 1, (0, *UP), (1, *UP), (2, *UP), (3, *UP))), sends(1, 1, semop(5, 2, (1, *DOWN)))]
    script += [sends(2, 2, semop(6, 2, (1, 1, 0))), sends(3, 2, semctl_getall(7, 2))]
    printed = [greeted(version, 1, 1, 1), numbered(1, 2, 1), numbered(1, 3, 2), greeted(version, 2, 1, 2)]
    printed.append(errored(1, 4, 0))
    is_three = version.number == 3
    # Both frames are of one event; connection 1 is printed first.
    printed += [errored(1, 5, ENOSPC if is_three else 0), errored(2, 6, 0)]
    printed.append(values(2, 7, 0, 1 if is_three else 0, 0, 0))
    prints(f"a list that waits on version {version.number}", script, printed, Device(limits, 0, version))


def refusals_first() -> None:
    """ENOSPC comes after the list's own refusals, and a list that cannot proceed is EAGAIN or waits."""
    script = ["0 open 1", sends(0, 1, hello(1), semget(2, 1, 4), semget(3, 2, 4))]
    script += [sends(0, 1, semop(4, 1, (0, *UP), (1, *UP), (2, *UP), (3, *UP)))]
    script += [sends(0, 1, semop(5, 2, (0, *UP), (1, -1, SEM_UNDO | 0x800)))]
    script += [sends(0, 1, semop(6, 2, (0, 32767, SEM_UNDO), (0, 1, SEM_UNDO)))]
    script += [sends(0, 1, semop(7, 2, (4, *UP))), sends(0, 1, semop(8, 2, (0, *UP)))]
    printed = [welcomed(1, 1, 1), numbered(1, 2, 1), numbered(1, 3, 2), errored(1, 4, 0), errored(1, 5, EAGAIN)]
    printed += [errored(1, 6, 34), errored(1, 7, 27), errored(1, 8, ENOSPC)]
    prints("refusals before ENOSPC", script, printed, new())


def mq_open(serial: int, name: bytes, maxmsg: int, msgsize: int) -> bytes:
    """With O_CREAT and O_RDWR."""
    return struct.pack(">IBIIBii", serial, 0x28, 0x42, 0o600, 1, maxmsg, msgsize) + name


def mq_unlink(serial: int, name: bytes) -> bytes:
    return struct.pack(">IB", serial, 0x29) + name


def close(serial: int, fd: int) -> bytes:
    return struct.pack(">IBI", serial, 0x03, fd)


def bytes_of_queues(limit: int, version: Version) -> None:
    """Two queues of two messages of 64 bytes are 288 bytes. With a byte less the second is ENOSPC, and a smaller one is
    made. On version 2 both are."""
    is_less = version.number == 3 and limit < 288
    refusal = errored(1, 3, ENOSPC) if is_less else numbered(1, 3, 1)
    script = ["0 open 1", sends(0, 1, hello(1), mq_open(2, b"/a", 2, 64), mq_open(3, b"/b", 2, 64))]
    printed = [greeted(version, 1, 1, 1), numbered(1, 2, 0), refusal]
    if is_less:
        # An open of what is there takes none. 144 and 72 are fewer, and so are 144 and 142.
        frames = [mq_open(4, b"/a", 2, 64), mq_open(5, b"/b", 1, 64), mq_unlink(6, b"/b"), close(7, 2)]
        frames += [mq_open(8, b"/b", 2, 63), mq_unlink(9, b"/b"), mq_open(10, b"/c", 1, 64)]
        script.append(sends(0, 1, *frames))
        printed += [numbered(1, 4, 1), numbered(1, 5, 2), errored(1, 6, 0), errored(1, 7, 0), numbered(1, 8, 2)]
        # Two queues are as many as there may be, also if one is unlinked and open.
        printed += [errored(1, 9, 0), errored(1, 10, ENOSPC)]
    limits = (SMALL_OF_THREE if version.number == 3 else SMALL)._replace(queue_bytes=limit)
    prints(f"bytes of {limit} on version {version.number}", script, printed, Device(limits, 0, version))


def unlinked_counts() -> None:
    """The bytes of an unlinked queue count while it is open, and no longer."""
    limits = SMALL_OF_THREE._replace(posix_queues=3, queue_bytes=200)
    frames = [mq_open(2, b"/a", 2, 64), mq_unlink(3, b"/a"), mq_open(4, b"/b", 1, 64), mq_open(5, b"/b", 1, 48)]
    frames += [close(6, 1), mq_unlink(7, b"/b"), close(8, 0), mq_open(9, b"/b", 2, 64), mq_open(10, b"/c", 1, 49)]
    script = ["0 open 1", sends(0, 1, hello(1), *frames)]
    printed = [welcomed(1, 1, 1), numbered(1, 2, 0), errored(1, 3, 0), errored(1, 4, ENOSPC), numbered(1, 5, 1)]
    printed += [errored(1, 6, 0), errored(1, 7, 0), errored(1, 8, 0), numbered(1, 9, 0), errored(1, 10, ENOSPC)]
    prints("an unlinked queue", script, printed, new(257, limits))


# ---- HELLO and pids


def pids() -> None:
    """HELLO answers the pid and the version. A restart sets the next pid to 1, and each next one is one more."""
    script = ["0 open 1", "0 open 2", "0 open 3", *(sends(0, it, hello(1)) for it in (1, 2, 3))]
    script += ["stop", "1 open 1", "1 open 2", *(sends(1, it, hello(2)) for it in (1, 2)), "1 end 2", "1 open 2"]
    script += [sends(1, 2, hello(3)), "save"]
    printed = [welcomed(it, 1, it) for it in (1, 2, 3)] + [welcomed(1, 2, 1), welcomed(2, 2, 2), welcomed(2, 3, 3)]
    check(welcomed(1, 1, 1) == "1 0000000e0000000100000000000100000003", "the bytes of a reply")
    ended = ipcd(new().image, "run", "".join(f"{line}\n" for line in script))
    check(ended[:3] == (0, "", "".join(f"{line}\n" for line in printed)), f"pids: {ended[:3]}")
    # In the next life too, after what a save keeps.
    again = ipcd(ended.image, "run", f"2 open 1\n{sends(2, 1, hello(9))}\n")
    check(again[:3] == (0, "", f"{welcomed(1, 9, 1)}\n"), f"pids after a save: {again[:3]}")


def saved_pid() -> None:
    """A save after a restart keeps the next pid, 1."""
    device = new().save(7, state(clock(9, 2147483648, 1), processes((2147483647, 1000, 100)), {}, version=THREE))
    wanted = device.copy().journal(7, batch(RESTART))
    wanted.save(8, state(clock(9, 1, 1), processes(), {}, version=THREE))
    runs(device, ["save"], [], wanted, "a save after a restart")
    # Without pids that are left each HELLO is ENFILE; after a restart there are all of them.
    script = ["9 open 1", sends(9, 1, hello(1))]
    printed = [welcomed(1, 1, 1)]
    after = device.copy().journal(7, batch(RESTART), batch(tick(9), connect(9, 1, 1000, 100)))
    runs(device, script, printed, after, "a HELLO after the last pid, in the next life")


def journal_of_pids() -> None:
    """A restart within the journal sets the next pid to 1 for those who come after it."""
    made = batch(tick(5), connect(5, 1, 7, 8), request(5, 1, msgget(2, 9)))
    device = new().journal(1, batch(RESTART), batch(connect(0, 1, 1000, 100)), batch(RESTART), made)
    queue = Queue(9, owner=(7, 8), creator=(7, 8), times=(0, 0, 5))
    opens(device.image, row(1, queue), "a process after a restart of the journal")
    wrong = batch(tick(5), connect(5, 1, 7, 8), request(5, 2, msgget(2, 9)))
    device = new().journal(1, batch(RESTART), batch(connect(0, 1, 1000, 100)), batch(RESTART), wrong)
    refuses(bytes(device.image), f"damaged sector {JOURNAL + 3}", "the pid of version 2 after a restart", "dump")


# ---- all of it


def bounded_devices() -> Iterator[Check]:
    yield from (spelled, goes_on)
    yield from no_states()
    yield from bounds()
    yield waits_for_room
    for limits, version in (OF_THREE, OF_TWO):
        yield partial(messages_of_a_queue, limits, version)
        yield partial(adjustments_of_a_process, limits, version)
        yield partial(a_list_that_waits, limits, version)
    yield partial(adjustments_of_a_process, SMALL_OF_THREE, three(8))
    yield refusals_first
    for limit, version in ((288, THREE), (287, THREE), (0, OF_TWO[1])):
        yield partial(bytes_of_queues, limit, version)
    yield unlinked_counts
    yield from (pids, saved_pid, journal_of_pids)
