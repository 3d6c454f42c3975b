"""Devices with POSIX queues and descriptors (mq_overview(7)): what a listing and a restart make of them, what a save
keeps, and what stands for no state."""

from __future__ import annotations

from functools import partial
from typing import Iterator

from device_layout import (
    BODY,
    JOURNAL,
    LAST_NUMBER,
    NONE,
    POSIX_KIND,
    RESTART,
    SMALL,
    Device,
    Open,
    Posix,
    Queue,
    Set,
    batch,
    clock,
    connect,
    header,
    hello,
    leave,
    msgget,
    processes,
    request,
    semget,
    state,
    tick,
)
from device_runs import Check, numbered, opens, refuses, row, row_of_posix, row_of_set, runs, sends

Objects = list[tuple[int, bytes]]

# Process 20 has /q open twice, and is registered with it by the second descriptor; both have the unlinked queue 4 open,
# which has one message of each priority there may be at the edge.
FDS = {20: (Open(0, 4, 0x802), Open(1, 2, 0), Open(3, 2, 1)), 21: (Open(2, 4, 2),)}
NAMED = Posix(b"/q", ((0, b"zero"), (32767, b"")), (7, 8), 0o640, 2, 4, (2, 20, 3, 2**32 - 1))
UNLINKED = Posix(b"", ((5, 64 * b"\7"),), (2**32 - 1, 2**31), 0o777, 1, 64)


def objects_of(
    posix: dict[int, Posix],
    opened: dict[int, tuple[Open, ...]] | None = None,
    next_posix: int = 6,
) -> Objects:
    them = processes((20, 1000, 100), (21, 2000, 200), opened=opened or {})
    return state(clock(50, 30, 1, 1, next_posix), them, {}, {}, NONE, NONE, posix)


def after(name: str, posix: dict[int, Posix], events: list[bytes], left: dict[int, Posix]) -> None:
    """What these events and a restart leave: a listing has it by the bytes of the names, a save keeps it by number."""
    device = Device().save(7, objects_of(posix, FDS))
    device.journal(7, *([batch(*events)] if events else []))
    in_order = sorted(left.values(), key=lambda one: one.name)
    opens(device.image, "".join(map(row_of_posix, in_order)), name)
    frames = [msgget(2, 9), semget(3, 8, 1)]
    script = ["100 open 1", sends(100, 1, hello(1), *frames), "save"]
    printed = [numbered(1, 1, 30), numbered(1, 2, 1), numbered(1, 3, 1)]
    line = batch(tick(100), connect(100, 1, 1000, 100), *(request(100, 30, frame) for frame in frames))
    used = 1 if events else 0
    wanted = device.copy().put(BODY + used, 0, batch(RESTART)).put(BODY + used + 1, 0, line)
    queue, one = Queue(9, times=(0, 0, 100), qbytes=device.limits.msgmnb), Set(8, times=(0, 100))
    objects = state(clock(100, 31, 2, 2, 6), processes((30, 1000, 100)), {1: queue}, {1: one}, posix=left)
    # A queue has changed if somebody was registered with it.
    same = tuple(POSIX_KIND + number for number in left if posix[number].registration[0] == 0)
    wanted.put(JOURNAL, 0, header(7, used + 2)).save(8, objects, unchanged=same)
    runs(device, script, printed, wanted, name)
    opens(wanted.image, row(1, queue) + row_of_set(1, one) + "".join(map(row_of_posix, in_order)), f"{name}, saved")


# A name with each byte but 0 and slash that there may be in one of 255.
EVERY = b"/" + bytes(byte for byte in range(1, 256) if byte != 0x2F)
# Names that share all but their ends, and one that is another's beginning.
NAMES = (b"/b", b"/B", b"/" + 253 * b"a" + b"z", b"/" + 253 * b"a" + b"y", EVERY, b"/\xff", b"/ab", b"/a", b"/\\x41")


def restarts() -> Iterator[Check]:
    """Nobody is registered then, and a queue without a name is gone; its number is not given again."""
    free = NAMED._replace(registration=(0, 0, 0, 0))
    both = {2: NAMED, 4: UNLINKED}
    yield partial(after, "a restart", both, [], {2: free})
    yield partial(after, "two exits, and then a restart", both, [leave(60, 20), leave(61, 21)], {2: free})
    null = {2: NAMED._replace(registration=(1, 20, 1, 0)), 4: UNLINKED}
    yield partial(after, "a null registration", null, [], {2: free})
    other = {2: NAMED, 4: UNLINKED._replace(name=b"/Q")}
    yield partial(after, "two names", other, [], {2: free, 4: other[4]})
    many = {number: Posix(name, maxmsg=10, msgsize=8192) for number, name in enumerate(NAMES, 1) if number != 6}
    many |= {2: many[2]._replace(messages=10 * ((9, 8192 * b"m"),), mode=0)}
    yield partial(names_in_order, many)


def names_in_order(many: dict[int, Posix]) -> None:
    """They are listed by the bytes of their names, each byte that is no graph of ASCII, and a backslash, as `\\x`."""
    opened = {20: tuple(Open(fd, number) for fd, number in enumerate(many))}
    objects = objects_of(many, opened, 40)
    in_order = sorted(many.values(), key=lambda one: one.name)
    text = "".join(map(row_of_posix, in_order))
    assert "\\x01" in text and "\\x5c" in text and "\\xff" in text and "~" in text
    limits = SMALL._replace(posix_queues=8, posix_messages=10, posix_bytes=8192, descriptors=8)
    opens(Device(limits).save(7, objects).image, text, "names")


def no_states() -> Iterator[Check]:
    """POSIX queues and descriptors that break a rule, each once."""
    fds = {20: (Open(0, 2, 2), Open(3, 2, 1)), 21: ()}
    for name, one in {
        "no slash": NAMED._replace(name=b"q"),
        "a slash alone": NAMED._replace(name=b"/"),
        "two slashes": NAMED._replace(name=b"/a/b"),
        "a byte 0": NAMED._replace(name=b"/a\0"),
        "a name of 256 bytes": NAMED._replace(name=b"/" + 255 * b"a"),
        "ten bits of mode": NAMED._replace(mode=0o1000),
        "no maxmsg": NAMED._replace(maxmsg=0, messages=()),
        "a maxmsg of 3": NAMED._replace(maxmsg=3),
        "no msgsize": NAMED._replace(msgsize=0, messages=()),
        "a msgsize of 65": NAMED._replace(msgsize=65),
        "three messages": NAMED._replace(messages=3 * ((1, b""),)),
        "a priority of 32768": NAMED._replace(messages=((32768, b""),)),
        "a text of 5 bytes": NAMED._replace(messages=((1, b"abcde"),)),
        "a registration of kind 3": NAMED._replace(registration=(3, 20, 3, 0)),
        "a registration by nobody": NAMED._replace(registration=(2, 22, 3, 0)),
        "a registration by another process": NAMED._replace(registration=(2, 21, 3, 0)),
        "a registration by no descriptor": NAMED._replace(registration=(2, 20, 1, 0)),
        "no registration with a pid": NAMED._replace(registration=(0, 20, 0, 0)),
        "no registration with a descriptor": NAMED._replace(registration=(0, 0, 3, 0)),
        "no registration with a cookie": NAMED._replace(registration=(0, 0, 0, 9)),
    }.items():
        yield no_state(name, objects_of({2: one}, fds))
    for name, mine in {
        "a queue that is not there": (Open(0, 3), Open(3, 2)),
        "queue 0": (Open(0, 0), Open(3, 2)),
        "kind 1": (Open(0, 2, kind=1), Open(3, 2)),
        "kind 4": (Open(0, 2, kind=4), Open(3, 2)),
        "an access of 3": (Open(0, 2, 3), Open(3, 2)),
        "an access of 3 and more": (Open(0, 2, 0x803), Open(3, 2)),
        "one number twice": (Open(3, 2), Open(3, 2)),
        "numbers that fall": (Open(3, 2), Open(0, 2)),
        "number 4": (Open(3, 2), Open(4, 2)),
    }.items():
        yield no_state(f"a descriptor of {name}", objects_of({2: NAMED}, {20: mine}))
    yield no_state("a queue that nobody can reach", objects_of({4: UNLINKED}))
    yield no_state("two queues of one name", objects_of({2: NAMED, 3: Posix(b"/q")}, FDS | {21: ()}))
    free = NAMED._replace(registration=(0, 0, 0, 0))
    yield no_state("three queues", objects_of({1: Posix(b"/a"), 2: free, 3: Posix(b"/b")}))
    yield no_state("POSIX queue 0", objects_of({0: free}))
    yield no_state("the next POSIX queue", objects_of({6: free}))
    for number in (0, LAST_NUMBER + 2):
        yield no_state(f"next POSIX queue {number}", objects_of({}, {}, number))
    yield from cut_short(free)


def cut_short(free: Posix) -> Iterator[Check]:
    """Objects with bytes too many or too few, and counts that are wrong."""
    data = free.data()
    for name, wrong in {
        "a byte less": data[:-1],
        "a byte more": data + b"\0",
        "no name": data[:44],
        "43 bytes": data[:43],
        "a longer name": data[:43] + b"\3" + data[44:],
        "a shorter name": data[:43] + b"\1" + data[44:],
        "one message less": data[:39] + b"\1" + data[40:],
        "a longer text": data[:-13] + b"\xff" + data[-12:],
    }.items():
        objects = objects_of({})
        yield no_state(f"a POSIX queue with {name}", [*objects, (POSIX_KIND + 2, wrong)])
    objects = objects_of({2: free}, {20: (Open(0, 2),)})
    for name, wrong in {
        "a byte less": objects[1][1][:-1],
        "a byte more": objects[1][1] + b"\0",
        "one descriptor more": objects[1][1][:19] + b"\2" + objects[1][1][20:],
        "no descriptor": objects[1][1][:19] + b"\0" + objects[1][1][20:],
    }.items():
        yield no_state(f"processes with {name}", [objects[0], (1, wrong), *objects[2:]])


def no_state(name: str, objects: Objects) -> Check:
    return partial(refuses, Device().save(7, objects).image, "damaged sector 2", name)


def posix() -> Iterator[Check]:
    yield from restarts()
    yield from no_states()
