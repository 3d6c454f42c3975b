"""Devices with calls that wait: which of them open, and which stand for no state.

Of a state each call that waits is of a process that is there, and would still have to wait if it were tried.
"""

from __future__ import annotations

from functools import partial
from typing import Iterator

from device_layout import (
    IPC_NOWAIT,
    MSG_EXCEPT,
    MSG_NOERROR,
    NO_DEADLINE,
    SEM_UNDO,
    SMALL,
    STANDARD,
    Adjustment,
    Device,
    Queue,
    Set,
    Waiting,
    adjustments,
    clock,
    hello,
    interrupt,
    msgget,
    msgrcv,
    msgsnd,
    processes,
    semctl_setall,
    semget,
    semop,
    state,
    waits,
)
from device_runs import Check, opens, refuses, row, row_of_set

Objects = list[tuple[int, bytes]]


def holding(objects: Objects) -> Device:
    return Device().save(1, objects)


# A queue that is full, and a send and a receive that wait for it, in the order in which they came. The one would go
# on if the other did.
FULL = Queue(1234, ((5, b"hi"),), qbytes=2)
SENDING = Waiting(2, msgsnd(7, 1, 7, b"hi", 0))
TAKING = Waiting(1, msgrcv(8, 1, 64, 7, 0))


def with_calls(calls: bytes, queue: Queue = FULL, pids: tuple[int, ...] = (1, 2, 3, 4)) -> Objects:
    """Processes of user 1000, but process 4, which is of user 0; and these calls that wait."""
    them = processes(*((pid, 0 if pid == 4 else 1000, 100) for pid in pids))
    return state(clock(9, 5, 2), them, {1: queue}, {}, calls)


def send(mtype: int, text: bytes, flags: int = 0, queue: int = 1) -> Waiting:
    return Waiting(1, msgsnd(8, queue, mtype, text, flags))


def receive(mtype: int, flags: int = 0, size: int = 64, queue: int = 1) -> Waiting:
    return Waiting(1, msgrcv(8, queue, size, mtype, flags))


# Calls, each of which has to wait for this queue; and which could go on, or would be refused, and so make no state.
TWO = Queue(1234, ((5, b"hi"), (9, b"")), qbytes=3)
NONE_FIT = Queue(1234, qbytes=0)
MANY = Queue(1234, 3 * ((5, b""),), qbytes=2)
HAVE_TO_WAIT: tuple[tuple[str, Waiting, Queue], ...] = (
    ("a send of a byte", send(1, b"x"), FULL),
    ("a send of the longest text", send(2**63 - 1, 64 * b"x"), FULL),
    ("a send of no byte", send(1, b""), NONE_FIT),
    ("a send of no byte, a message too many", send(1, b""), Queue(1234, ((5, b""),), qbytes=1)),
    ("a send to more than it may hold", send(1, b""), MANY),
    ("a send of a byte too many", send(1, b"xx"), TWO),
    ("a receive of another type", receive(6), TWO),
    ("a receive of a lower type", receive(-4), TWO),
    ("a receive of a lower type but one", receive(-4, MSG_EXCEPT), TWO),
    ("a receive of a type but one", receive(5, MSG_EXCEPT), FULL),
    ("a receive of nothing", receive(0, MSG_NOERROR, 0), NONE_FIT),
    ("a receive of any size", receive(0, 0, 2147483647), NONE_FIT),
    ("flags that mean nothing", receive(0, 0xFFFFF7FF), NONE_FIT),
    ("a send with leave to write", send(1, b"x"), FULL._replace(mode=0o200)),
    ("a receive with leave to read", receive(7), FULL._replace(mode=0o400)),
    ("a maker's send", send(1, b"x"), FULL._replace(owner=(5, 5), mode=0o200)),
    ("a receive of the group", receive(7), FULL._replace(owner=(5, 100), creator=(5, 5), mode=0o040)),
    ("a send of the others", send(1, b"x"), FULL._replace(owner=(5, 5), creator=(5, 5), mode=0o002)),
)
COULD_GO_ON: tuple[tuple[str, Waiting, Queue], ...] = (
    ("a send that has room", send(1, b"x"), FULL._replace(qbytes=3)),
    ("a send of no byte that has room", send(1, b""), FULL),
    ("a receive of any type", receive(0), FULL),
    ("a receive of the type", receive(5), FULL),
    ("a receive of the lowest type", receive(-5), TWO),
    ("a receive of any lower type", receive(-(2**63)), TWO),
    ("a receive of a type but one that finds another", receive(5, MSG_EXCEPT), TWO),
    ("a receive of any type, without one", receive(0, MSG_EXCEPT), FULL),
    ("a receive of the last message", receive(9), TWO),
    ("a receive that is too small", receive(5, 0, 1), FULL),
    ("a receive that cuts", receive(5, MSG_NOERROR, 1), FULL),
    ("a send that does not wait", send(1, b"x", IPC_NOWAIT), FULL),
    ("a receive that does not wait", receive(7, IPC_NOWAIT), FULL),
    ("a send to no queue", send(1, b"x", queue=2), FULL),
    ("a receive from no queue", receive(7, queue=0), FULL),
    ("a send of type 0", send(0, b"x"), FULL),
    ("a send of a type below 0", send(-1, b"x"), FULL),
    ("a send of a text that is too long", send(1, 65 * b"x"), FULL),
    ("a receive of a size that is too large", receive(7, 0, 2147483648), FULL),
    ("a send without leave to write", send(1, b"x"), FULL._replace(mode=0o577)),
    ("a receive without leave to read", receive(7), FULL._replace(mode=0o377)),
    ("an owner's send, with leave for the group", send(1, b"x"), FULL._replace(mode=0o020)),
    ("a send of the group", send(1, b"x"), FULL._replace(owner=(5, 100), creator=(5, 5), mode=0o606)),
    ("a receive of the others", receive(7), FULL._replace(owner=(5, 5), creator=(5, 5), mode=0o660)),
)


# Lists of operations on set 1, of two semaphores, by process 1, whose adjustment at the first is 32767: lists that have
# to wait, and lists that could go on or would be refused, or are too late. The clock is 9.
GATES = Set(77, ((3, 0), (0, 0)))
UNDO = adjustments(Adjustment(1, 1, 0, 32767))


def a_list(*operations: tuple[int, int, int], deadline: int = NO_DEADLINE, semid: int = 1) -> Waiting:
    return Waiting(1, semop(8, semid, *operations, timeout=5), deadline)


LISTS_WAIT: tuple[tuple[str, Waiting, Set], ...] = (
    ("an operation that takes too much", a_list((0, -4, 0)), GATES),
    ("one that waits for 0", a_list((0, 0, 0)), GATES),
    ("the lowest", a_list((0, -32768, SEM_UNDO)), GATES),
    ("the second of two", a_list((0, -3, 0), (0, -1, SEM_UNDO)), GATES),
    ("the last of four", a_list((0, -1, 0), (0, 32765, 0), (0, -32767, 0), (1, -1, 0)), GATES),
    ("the first, and the next is refused", a_list((1, -1, 0), (0, 32767, 0)), GATES),
    ("the first, and the next does not wait", a_list((1, -1, 0), (0, -9, IPC_NOWAIT)), GATES),
    ("flags that mean nothing", a_list((1, -1, 0xE7FF)), GATES),
    ("with a deadline", a_list((0, -4, 0), deadline=10), GATES),
    ("with the last deadline", a_list((0, -4, 0), deadline=2**64 - 2), GATES),
    ("one that waits for 0, with leave to read", a_list((0, 0, 0)), GATES._replace(mode=0o400)),
    ("one that takes, with leave to write", a_list((0, -4, 0)), GATES._replace(mode=0o200)),
)
LISTS_GO_ON: tuple[tuple[str, Waiting, Set], ...] = (
    ("an operation that can be done", a_list((0, -3, 0)), GATES),
    ("one that finds 0", a_list((1, 0, 0)), GATES),
    ("four that can be done", a_list((0, -3, 0), (0, 0, 0), (0, 9, 0), (0, -9, 0)), GATES),
    ("one that does not wait", a_list((0, -4, IPC_NOWAIT)), GATES),
    ("the first does not wait", a_list((0, -4, IPC_NOWAIT), (1, -1, 0)), GATES),
    ("a value above the greatest", a_list((0, 32765, 0), (1, -1, 0)), GATES),
    ("an adjustment above the greatest", a_list((0, -1, SEM_UNDO), (1, -1, 0)), GATES),
    ("no operation", a_list(), GATES),
    ("five operations", a_list(*5 * [(1, -1, 0)]), GATES),
    ("a semaphore that is not there", a_list((1, -1, 0), (2, -1, 0)), GATES),
    ("a set that is not there", a_list((1, -1, 0), semid=2), GATES),
    ("one that waits for 0, without leave to read", a_list((0, 0, 0)), GATES._replace(mode=0o377)),
    ("one that takes, without leave to write", a_list((0, -4, 0)), GATES._replace(mode=0o577)),
    ("a later one without leave", a_list((0, -4, 0), (1, 0, 0)), GATES._replace(mode=0o200)),
    ("a deadline that has come", a_list((0, -4, 0), deadline=9), GATES),
    ("a deadline of 0", a_list((0, -4, 0), deadline=0), GATES),
)


def with_lists(calls: bytes, one: Set) -> Objects:
    them = processes(*((pid, 1000, 100) for pid in (1, 2)))
    return state(clock(9, 3, 1, 2), them, {}, {1: one}, calls, UNDO)


def lists() -> Iterator[Check]:
    """A list alone, and before and after another that has to wait, if that has leave to write."""
    other = Waiting(2, semop(8, 1, (1, -32767, 0)))
    for name, one, gates in LISTS_WAIT + LISTS_GO_ON:
        for them in [(one,), (other, one), (one, other)] if gates.mode == 0o600 else [(one,)]:
            image = holding(with_lists(waits(*them), gates)).image
            if (name, one, gates) in LISTS_WAIT:
                yield partial(opens, image, row_of_set(1, gates), f"{name} waits")
            else:
                yield partial(refuses, image, "damaged sector 2", name)


def unsound_calls() -> Iterator[tuple[str, Objects]]:
    """Calls that may not wait, each after one that may."""
    for name, one in {
        "two calls of one process": Waiting(2, TAKING.frame),
        "a call of process 0": Waiting(0, TAKING.frame),
        "a call of no process": Waiting(5, TAKING.frame),
        "a call with a deadline": Waiting(1, TAKING.frame, 10),
        "a call with the last deadline": Waiting(1, TAKING.frame, 2**64 - 2),
        "a msgget that waits": Waiting(1, msgget(8, 1000)),
        "a semget that waits": Waiting(1, semget(8, 1000, 1)),
        "a SETALL that waits": Waiting(1, semctl_setall(8, 1, 1, 2)),
        "a HELLO that waits": Waiting(1, hello(8)),
        "an INTERRUPT that waits": Waiting(1, interrupt(8)),
        "a call with serial 0": Waiting(1, msgrcv(0, 1, 64, 7, 0)),
        "a call without a frame": Waiting(1, b""),
        "a frame a byte too short": Waiting(1, TAKING.frame[:-1]),
        "a frame a byte too long": Waiting(1, TAKING.frame + b"\0"),
        "a frame of 65793 bytes": Waiting(1, msgsnd(8, 1, 1, 65772 * b"\7", 0)),
    }.items():
        yield name, with_calls(waits(SENDING, one))
    yield "a call of one who has left", with_calls(waits(SENDING, TAKING), FULL, (2, 3, 4))
    more = [Waiting(pid, TAKING.frame) for pid in (1, 2, 3, 4, 5)]
    yield "five calls", with_calls(waits(*more))
    data = waits(SENDING, TAKING)
    yield "a byte less than two calls", with_calls(data[:-1])
    yield "a byte more than two calls", with_calls(data + b"\0")
    for at, byte in ((3, 1), (3, 3), (19, 22), (19, 24), (58, 26)):
        yield f"byte {at} of two calls is {byte}", with_calls(
            data[:at] + bytes([byte]) + data[at + 1 :]
        )
    waiting = Waiting(4, msgrcv(7, 1, 64, 77, 0))
    for name, one, queue in COULD_GO_ON:
        yield name, with_calls(waits(waiting, one), queue)
        yield f"{name}, first", with_calls(waits(one, waiting), queue)


# Of the two calls, the first and the last of some bytes, and whether there is a state if one of them is turned over.
TURNED_CALLS: tuple[tuple[int, int, bool], ...] = (
    (0, 3, False),  # how many there are
    (4, 7, False),  # the pid of the send
    (8, 15, False),  # its deadline
    (16, 19, False),  # its length
    (20, 23, True),  # its serial
    (24, 24, False),  # its opcode
    (25, 28, False),  # the queue
    (29, 30, True),  # the flags
    (31, 31, False),  # with IPC_NOWAIT among them
    (32, 32, True),
    (33, 33, False),  # the type: below 0
    (34, 40, True),
    (41, 42, True),  # the text
    (43, 46, False),  # the pid of the receive
    (47, 54, False),  # its deadline
    (55, 58, False),  # its length
    (59, 62, True),  # its serial
    (63, 63, False),  # its opcode
    (64, 67, False),  # the queue
    (68, 69, True),  # the flags
    (70, 70, False),  # with IPC_NOWAIT among them
    (71, 71, True),
    (72, 72, False),  # the size: above the largest
    (73, 75, True),
    (76, 76, False),  # the type: far below 0, so that it takes any
    (77, 83, True),
)


def turned_calls() -> Iterator[Check]:
    data = waits(SENDING, TAKING)
    for first, last, is_state in TURNED_CALLS:
        for at in range(first, last + 1):
            byte = bytes([data[at] ^ 0xFF])
            image = holding(with_calls(data[:at] + byte + data[at + 1 :])).image
            name = f"byte {at} of two calls turned over"
            if is_state:
                yield partial(opens, image, row(1, FULL), name)
            else:
                yield partial(refuses, image, "damaged sector 2", name)


def calls() -> Iterator[Check]:
    """Calls that wait, up to one of each process; no open goes on with one."""
    long = Waiting(3, msgsnd(9, 1, 1, 64 * b"\7", 0))
    for name, them in {
        "a send": (SENDING,),
        "a receive": (TAKING,),
        "both": (SENDING, TAKING),
        "four calls": (SENDING, TAKING, long, Waiting(4, TAKING.frame)),
    }.items():
        yield partial(opens, holding(with_calls(waits(*them))).image, row(1, FULL), f"{name} waits")
    for name, one, queue in HAVE_TO_WAIT:
        image = holding(with_calls(waits(one), queue)).image
        yield partial(opens, image, row(1, queue), f"{name} waits")
    closed = FULL._replace(mode=0)
    for one in (SENDING, TAKING):
        image = holding(with_calls(waits(one._replace(pid=4)), closed)).image
        yield partial(opens, image, row(1, closed), "a call of user 0 waits")
    for name, objects in unsound_calls():
        yield partial(refuses, holding(objects).image, "damaged sector 2", name)
    yield from turned_calls()
    yield from lists()


def as_many_calls_as_may_be() -> None:
    """64 calls, as many as standard limits have, each of the longest text."""
    limits = SMALL._replace(processes=STANDARD.processes, msgmax=STANDARD.msgmax, msgmnb=STANDARD.msgmnb)
    them = [Waiting(pid, msgsnd(pid, 1, 1, 65536 * b"x", 0)) for pid in range(1, 65)]
    queue = Queue(1234, qbytes=65535)
    objects = state(clock(9, 65, 2), processes(*((pid, 1000, 100) for pid in range(1, 65))), {1: queue})
    objects[2] = (2, waits(*them))
    image = Device(limits).save(1, objects).image
    opens(image, row(1, queue), "64 calls")
    them.append(Waiting(65, them[0].frame))
    objects[2] = (2, waits(*them))
    refuses(Device(limits).save(1, objects).image, "damaged sector 2", "65 calls")
