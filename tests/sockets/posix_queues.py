"""POSIX message queues, on the built program as a server: each call by examples/client.py, who is told of a message,
and what is kept of a queue.

    python3 tests/sockets/posix_queues.py PROGRAM

What is expected was reckoned from docs/PROTOCOL.md and the manual pages, and never taken from the program. It takes
some seconds.
"""

from __future__ import annotations

import errno
import struct
import sys
import time
from collections.abc import Callable
from pathlib import Path

sys.dont_write_bytecode = True
sys.path.insert(0, str(Path(__file__).resolve().parents[1] / "lib"))

from device_layout import shown  # noqa: E402
from server import (  # noqa: E402
    Client,
    as_user,
    check,
    in_a_folder,
    is_answered,
    is_refused,
    killed,
    printed,
    process,
    reply,
    run_tests,
    serving,
    small,
    until_done,
    until_it_waits,
)
from client import (  # noqa: E402
    NOTIFY_FRAME,
    NOTIFY_NOT,
    NOTIFY_NULL,
    O_CREAT,
    O_EXCL,
    O_NONBLOCK,
    O_RDONLY,
    O_RDWR,
    O_WRONLY,
    MqAttr,
    mq_receive_request,
    mq_send_request,
    msgctl_stat_request,
)

NEW = O_CREAT | O_RDWR
MODE = 0o600
ONE = MqAttr(maxmsg=1, msgsize=64)
TWO = MqAttr(maxmsg=2, msgsize=64)

Refusals = list[tuple[int, Callable[[], object]]]


def message(priority: int, text: bytes) -> bytes:
    """The body of a receive's reply."""
    return struct.pack(">I", priority) + text


def is_received(client: Client, mqdes: int, priority: int, text: bytes) -> None:
    found = client.mq_receive(mqdes, 64)
    check(found == (priority, text), f"{found} is received, and not {(priority, text)}")


def has(client: Client, mqdes: int, count: int) -> None:
    found = client.mq_getattr(mqdes).curmsgs
    check(found == count, f"{found} messages are in the queue, and not {count}")


def is_told(client: Client, *wanted: tuple[int, int]) -> None:
    """The client has had these notifications, and no other: what was sent before comes before the reply to a call."""
    is_answered(client, client.send(msgctl_stat_request(0)), errno.EINVAL)
    found = [client.notification() for _ in range(len(client._notifications))]
    check(found == [*wanted], f"{found} is told, and not {wanted}")


def listed(*queues: tuple[int, MqAttr, bytes, int]) -> None:
    """What `dump` prints: of each queue of uid 1000 and gid 100 its messages, its limits, its name and its mode."""
    wanted = ""
    for count, attr, name, mode in queues:
        numbers = " ".join(f"{number:10}" for number in (1000, 100, count, attr.maxmsg, attr.msgsize))
        wanted += f"pmq {mode:04o} {numbers} {shown(name)}\n"
    found = printed("dump", "device")
    check(found == wanted, f"{found} is listed, and not {wanted}")


# ---- opening and closing


def opens() -> None:
    """Of all that may be wrong the first that is tested is answered. What a queue has is what its maker asked for."""
    with small(), process() as client, as_user(2000, 100) as group, as_user(0, 0) as root:
        check(client.mq_open("/q", NEW | O_EXCL, 0o7640, MqAttr(maxmsg=1, msgsize=9)) == 0, "another descriptor")
        check(client.mq_getattr(0) == MqAttr(0, 1, 9, 0), "other attributes")
        # A queue that is there keeps them, and O_EXCL alone means nothing. The group may read.
        check(group.mq_open("/q", O_CREAT | 0x10000, 0o777, MqAttr(maxmsg=-1)) == 0, "another descriptor")
        check(group.mq_open("/q", O_EXCL | O_NONBLOCK) == 1, "another descriptor")
        found = [group.mq_getattr(mqdes) for mqdes in (0, 1)]
        check(found == [MqAttr(flags, 1, 9, 0) for flags in (0, O_NONBLOCK)], "other attributes")
        root.mq_open("/q", O_RDWR)
        pairs = [(0, 1), (1, 0), (-1, 1), (1, -(2**31)), (3, 64), (2, 65)]
        rows: Refusals = [
            (errno.EINVAL, lambda: client.mq_open("q", 3)),
            (errno.EINVAL, lambda: client.mq_open("/q", O_CREAT | 3)),
            (errno.EEXIST, lambda: group.mq_open("/q", O_CREAT | O_EXCL | O_WRONLY)),
            (errno.EACCES, lambda: group.mq_open("/q", O_WRONLY)),
            (errno.EACCES, lambda: group.mq_open("/q", O_CREAT | O_RDWR)),
            (errno.ENOENT, lambda: client.mq_open("/r", O_RDWR, attr=MqAttr())),
            *((errno.EINVAL, lambda pair=pair: root.mq_open("/r", NEW, MODE, MqAttr(0, *pair))) for pair in pairs),
            (errno.EACCES, lambda: group.mq_unlink("/q")),
            (errno.ENOENT, lambda: group.mq_unlink("/r")),
            (errno.EBADF, lambda: client.mq_close(1)),
            (errno.EBADF, lambda: client.mq_close(2**32 - 1)),
        ]
        for wanted, call in rows:
            is_refused(call, wanted)
        # A new queue asks no permission, and without attributes has the greatest.
        check(group.mq_open("/r", NEW, 0) == 2, "another descriptor")
        check(group.mq_getattr(2) == MqAttr(0, 2, 64, 0), "other attributes")
        is_refused(lambda: group.mq_open("/r", O_RDONLY), errno.EACCES)
        is_refused(lambda: client.mq_open("/s", NEW, MODE, MqAttr()), errno.EINVAL)
        is_refused(lambda: client.mq_open("/s", NEW, MODE), errno.ENOSPC)
        root.mq_unlink("/r")
    listed((0, MqAttr(0, 1, 9), b"/q", 0o640))


def descriptors() -> None:
    """The lowest unused number, and no more than the limit. Each has flags of its own, and each process its own."""
    with small(), process() as client, process() as other:
        check([client.mq_open("/q", NEW, MODE) for _ in range(4)] == [0, 1, 2, 3], "other descriptors")
        is_refused(lambda: client.mq_open("/q", O_CREAT | O_EXCL), errno.EMFILE)
        is_refused(lambda: client.mq_open("/r", O_RDWR), errno.EMFILE)
        for wanted, name, flags in (errno.ENOENT, "/", O_RDWR), (errno.EINVAL, "/r", 3):
            is_refused(lambda: client.mq_open(name, flags), wanted)
        check(other.mq_open("/q", O_RDONLY) == 0, "another descriptor")
        client.mq_close(2)
        client.mq_close(0)
        is_refused(lambda: client.mq_close(0), errno.EBADF)
        for before, after in (0, O_NONBLOCK), (O_NONBLOCK, O_NONBLOCK):
            check(client.mq_setattr(1, after) == MqAttr(before, 2, 64, 0), "other flags before")
        check(client.mq_getattr(3) == TWO, "the flag of another descriptor is set")
        check([client.mq_open("/q", O_RDWR) for _ in range(2)] == [0, 2], "other descriptors")
        check(client.mq_getattr(0) == TWO, "a descriptor comes again with its flags")
        check(client.mq_setattr(1, 0) == MqAttr(O_NONBLOCK, 2, 64, 0), "other flags before")
        check(client.mq_getattr(1) == TWO, "the flag is not cleared")
        client.mq_send(2, b"", 0)
        is_received(other, 0, 0, b"")
    printed("format", "device")
    with serving(), process() as client:
        check([client.mq_open("/q", NEW, MODE) for _ in range(32)] == [*range(32)], "other descriptors")
        is_refused(lambda: client.mq_open("/q", O_RDWR), errno.EMFILE)
        check(client.mq_getattr(31) == MqAttr(0, 10, 8192, 0), "other attributes")
        client.mq_send(31, 8192 * b"x", 32767)
        check(client.mq_receive(0, 2**32 - 1) == (32767, 8192 * b"x"), "another message")


def unlinked() -> None:
    """A queue that was unlinked lives until its last descriptor is closed, also by an exit, and counts until then."""
    with small(), process() as client, process() as other:
        client.mq_open("/a", NEW, MODE, ONE)
        client.mq_open("/b", NEW, MODE)
        check(other.mq_open("/a", O_RDWR) == 0, "another descriptor")
        client.mq_send(0, b"old", 1)
        other.mq_unlink("/a")
        is_refused(lambda: client.mq_open("/a", O_RDWR), errno.ENOENT)
        is_refused(lambda: client.mq_open("/a", NEW, MODE), errno.ENOSPC)
        client.mq_close(0)
        is_refused(lambda: client.mq_open("/a", NEW, MODE), errno.ENOSPC)
        # Of the two that have no descriptor one still has its name, and messages.
        client.mq_send(1, b"kept", 2)
        client.mq_close(1)
        is_received(other, 0, 1, b"old")
        other.mq_close(0)
        check(client.mq_open("/a", NEW, MODE) == 0, "another descriptor")
        check(client.mq_getattr(0) == TWO, "the old queue is opened")
        check(client.mq_open("/b", O_RDONLY) == 1, "another descriptor")
        is_received(client, 1, 2, b"kept")
        # Now the name is made anew while the old queue is there, and an exit drops that.
        client.mq_unlink("/b")
        client.mq_close(1)
        other.mq_open("/a", O_RDWR)
        client.mq_unlink("/a")
        check(client.mq_open("/a", NEW, MODE, ONE) == 1, "another descriptor")
        client.mq_send(1, b"new")
        client.mq_send(0, b"old")
        check([client.mq_getattr(mqdes).maxmsg for mqdes in (0, 1)] == [2, 1], "one queue in place of two")
        is_received(other, 0, 0, b"old")
        client.mq_close(0)
        is_refused(lambda: client.mq_open("/c", NEW, MODE), errno.ENOSPC)
        other.close()
        until_done(lambda: client.mq_open("/c", NEW, MODE), errno.ENOSPC)
        is_received(client, 1, 0, b"new")


# ---- messages


def refusals() -> None:
    """Of all that may be wrong with a send, a receive and the rest the first that is tested is answered."""
    with small(), process() as client:
        both, reader, writer = (client.mq_open("/q", flags, MODE, ONE) for flags in (NEW, O_RDONLY, O_WRONLY))
        long = 65 * b"x"
        rows: Refusals = [
            (errno.EINVAL, lambda: client.mq_send(9, long, 32768)),
            (errno.EBADF, lambda: client.mq_send(3, long)),
            (errno.EBADF, lambda: client.mq_send(reader, long)),
            (errno.EMSGSIZE, lambda: client.mq_send(both, long)),
            (errno.EBADF, lambda: client.mq_receive(3, 0)),
            (errno.EBADF, lambda: client.mq_receive(writer, 63)),
            (errno.EMSGSIZE, lambda: client.mq_receive(both, 63)),
            (errno.EINVAL, lambda: client.mq_notify(9, 3)),
            *((errno.EBADF, lambda kind=kind: client.mq_notify(3, kind)) for kind in (0, 1, 2)),
            (errno.EBADF, lambda: client.mq_getattr(3)),
            (errno.EBADF, lambda: client.mq_setattr(3, O_RDWR)),
            *((errno.EINVAL, lambda flags=flags: client.mq_setattr(both, flags)) for flags in (1, 2, 0x840, 2**31)),
        ]
        for wanted, call in rows:
            is_refused(call, wanted)
        # They come before what a full queue answers, and an empty one.
        client.mq_send(writer, 64 * b"x", 32767)
        is_refused(lambda: client.mq_send(both, long), errno.EMSGSIZE)
        check(client.mq_receive(reader, 65) == (32767, 64 * b"x"), "another message")
        is_refused(lambda: client.mq_receive(reader, 63), errno.EMSGSIZE)
        client.mq_setattr(reader, O_NONBLOCK)
        is_refused(lambda: client.mq_send(reader, b""), errno.EBADF)
        is_refused(lambda: client.mq_receive(reader, 64), errno.EAGAIN)


def priorities() -> None:
    """The oldest of the greatest priority, whatever comes meanwhile."""
    printed("format", "device")
    with serving(), process() as client:
        mqdes = client.mq_open("/q", NEW, MODE, MqAttr(maxmsg=10, msgsize=64))
        sent = [(3, b"a"), (0, b"b"), (32767, b"c"), (3, b"d"), (32767, b"e"), (1, b"f"), (0, b""), (3, b"a")]
        for priority, text in sent:
            client.mq_send(mqdes, text, priority)
        is_received(client, mqdes, 32767, b"c")
        client.mq_send(mqdes, b"h", 32767)
        client.mq_send(mqdes, b"i", 2)
        wanted = [(32767, b"e"), (32767, b"h"), (3, b"a"), (3, b"d"), (3, b"a"), (2, b"i")]
        wanted += [(1, b"f"), (0, b"b"), (0, b"")]
        for priority, text in wanted:
            is_received(client, mqdes, priority, text)
        has(client, mqdes, 0)


def they_wait() -> None:
    """Receives and sends go on in the order in which they came, and may be interrupted. O_NONBLOCK does not wait."""
    with small(), process() as client, process() as two, process() as three, process() as four:
        for each in client, two, three, four:
            check(each.mq_open("/q", NEW, MODE, ONE) == 0, "another descriptor")
        receives = [(each, until_it_waits(each, mq_receive_request(0, 64))) for each in (two, three)]
        for (each, serial), text in zip(receives, (b"first", b"second")):
            client.mq_send(0, text, 7)
            is_answered(each, serial, 0, message(7, text))
        client.mq_send(0, b"third", 1)
        sends = [(each, until_it_waits(each, mq_send_request(0, b"more", p))) for each, p in ((two, 1), (three, 9))]
        has(client, 0, 1)
        is_received(client, 0, 1, b"third")
        is_answered(*sends[0])
        is_received(client, 0, 1, b"more")
        is_answered(*sends[1])
        is_received(client, 0, 9, b"more")
        serial = until_it_waits(two, mq_receive_request(0, 64))
        two.interrupt()
        is_answered(two, serial, errno.EINTR)
        client.mq_send(0, b"left")
        serial = until_it_waits(two, mq_send_request(0, b"not sent"))
        two.interrupt()
        is_answered(two, serial, errno.EINTR)
        serial = until_it_waits(three, mq_send_request(0, b"of one that leaves"))
        three.close()
        client.mq_setattr(0, O_NONBLOCK)
        is_refused(lambda: client.mq_send(0, b""), errno.EAGAIN)
        until_done(lambda: process().close(), errno.ENFILE)
        is_received(client, 0, 0, b"left")
        is_refused(lambda: client.mq_receive(0, 64), errno.EAGAIN)
        serial = until_it_waits(four, mq_receive_request(0, 64))
        client.mq_send(0, b"handed over", 2)
        is_answered(four, serial, 0, message(2, b"handed over"))


def deadlines() -> None:
    """ETIMEDOUT when a deadline has come, and not before. A call that need not wait does not look at it."""
    with small(), process() as client, process() as other:
        for each in client, other:
            each.mq_open("/q", NEW, MODE, ONE)
        for full in False, True:
            call = (lambda t: client.mq_send(0, b"x", timeout=t)) if full else (lambda t: client.mq_receive(0, 64, t))
            begun = time.monotonic()
            is_refused(lambda: call(0.3), errno.ETIMEDOUT)
            passed = time.monotonic() - begun
            check(0.29 <= passed < 5, f"it was over after {passed} seconds")
            request = mq_send_request(0, b"x", 3, 0) if full else mq_receive_request(0, 64, 0)
            is_answered(client, client.send(request), errno.ETIMEDOUT)
            client.mq_setattr(0, O_NONBLOCK)
            is_refused(lambda: call(10), errno.EAGAIN)
            client.mq_setattr(0, 0)
            if not full:
                is_answered(client, client.send(mq_send_request(0, b"late", 3, 0)))
        is_answered(client, client.send(mq_receive_request(0, 64, 0)), 0, message(3, b"late"))
        serial = until_it_waits(client, mq_receive_request(0, 64, time.time() + 10))
        other.mq_send(0, b"in time")
        is_answered(client, serial, 0, message(0, b"in time"))


# ---- notifications


def told_once() -> None:
    """A message that comes to an empty queue tells who is registered, once; one that comes to another does not."""
    with small(), process() as client, process() as other:
        for each in client, other:
            each.mq_open("/q", NEW, MODE)
        client.mq_notify(0, NOTIFY_FRAME, 7)
        for each in client, other:
            for kind in NOTIFY_NULL, NOTIFY_FRAME:
                is_refused(lambda: each.mq_notify(0, kind, 8), errno.EBUSY)
        other.mq_notify(0, NOTIFY_NOT)
        other.mq_send(0, b"first")
        check(client.notification() == (0, 7), "another notification")
        other.mq_send(0, b"second")
        client.mq_notify(0, NOTIFY_FRAME, 2**32 - 1)
        is_received(other, 0, 0, b"first")
        other.mq_send(0, b"third")
        is_received(other, 0, 0, b"second")
        is_received(other, 0, 0, b"third")
        is_told(client)
        other.mq_send(0, b"fourth")
        is_told(client, (0, 2**32 - 1))
        is_received(client, 0, 0, b"fourth")
        other.mq_send(0, b"fifth")
        is_told(client)


def who_is_told() -> None:
    """Nobody while a call waits to receive; whoever registered, by whichever descriptor; nobody by a null one."""
    with small(), process() as client, process() as other:
        check([client.mq_open("/q", flags, MODE, ONE) for flags in (NEW, O_WRONLY)] == [0, 1], "other descriptors")
        other.mq_open("/q", O_RDWR)
        client.mq_notify(1, NOTIFY_FRAME, 5)
        serial = until_it_waits(other, mq_receive_request(0, 64))
        client.mq_send(0, b"handed over")
        is_answered(other, serial, 0, message(0, b"handed over"))
        is_told(client)
        is_refused(lambda: other.mq_notify(0, NOTIFY_FRAME), errno.EBUSY)
        # It is still there, and tells of its own message after the reply to the send.
        serial = client.send(mq_send_request(0, b"own"))
        client.is_answered(reply(serial, 0) + reply(0, 0, struct.pack(">II", 1, 5)))
        # A send that had waited comes to an empty queue, too.
        client.mq_notify(0, NOTIFY_FRAME, 6)
        waits = until_it_waits(other, mq_send_request(0, b"waited"))
        is_told(client)
        serial = client.send(mq_receive_request(0, 64))
        client.is_answered(reply(serial, 0, message(0, b"own")) + reply(0, 0, struct.pack(">II", 0, 6)))
        is_answered(other, waits)
        is_received(client, 0, 0, b"waited")
        # A null registration goes with a message that it tells nobody of.
        client.mq_notify(0, NOTIFY_NULL, 9)
        is_refused(lambda: other.mq_notify(0, NOTIFY_NULL), errno.EBUSY)
        other.mq_send(0, b"untold")
        is_told(client)
        other.mq_notify(0, NOTIFY_FRAME, 1)
        is_received(client, 0, 0, b"untold")
        client.mq_send(0, b"told")
        is_told(other, (0, 1))


def given_up() -> None:
    """A registration goes by a kind of 0 through any descriptor, by a close of its own, and by an exit."""
    with small(), process() as client, process() as other:
        check([client.mq_open("/q", flags, MODE) for flags in (NEW, O_RDONLY)] == [0, 1], "other descriptors")
        other.mq_open("/q", O_RDWR)
        client.mq_notify(0, NOTIFY_FRAME, 1)
        client.mq_notify(1, NOTIFY_NOT)
        client.mq_notify(1, NOTIFY_NOT)
        client.mq_notify(0, NOTIFY_FRAME, 2)
        client.mq_close(1)
        is_refused(lambda: other.mq_notify(0, NOTIFY_FRAME), errno.EBUSY)
        client.mq_open("/q", O_RDONLY)
        client.mq_close(0)
        other.mq_notify(0, NOTIFY_NULL)
        # A new descriptor of the same number does not bring it back.
        client.mq_open("/q", O_RDWR)
        other.mq_notify(0, NOTIFY_NOT)
        other.mq_send(0, b"untold")
        is_told(client)
        is_received(other, 0, 0, b"untold")
        with process() as third:
            third.mq_open("/q", O_RDONLY)
            third.mq_notify(0, NOTIFY_FRAME)
            is_refused(lambda: client.mq_notify(0, NOTIFY_FRAME, 3), errno.EBUSY)
        until_done(lambda: client.mq_notify(0, NOTIFY_FRAME, 3), errno.EBUSY)
        other.mq_send(0, b"told")
        is_told(client, (0, 3))


# ---- a server that goes away


def kept() -> None:
    """A killed server leaves queues with a name and their messages. Others, descriptors and registrations are gone."""
    every_byte = b"/" + bytes(byte for byte in range(1, 256) if byte != ord("/"))
    printed("format", "device", "--small")
    with killed(), process() as client, process() as other:
        check(client.mq_open("/gone", NEW, MODE) == 0, "another descriptor")
        client.mq_send(0, b"gone")
        client.mq_unlink("/gone")
        check(client.mq_open(every_byte, NEW, 0o604, TWO) == 1, "another descriptor")
        client.mq_notify(1, NOTIFY_FRAME, 1)
        client.mq_notify(0, NOTIFY_FRAME, 2)
        client.mq_send(1, b"", 4)
        client.mq_send(1, b"greater", 5)
        is_told(client, (1, 1))
        client.mq_notify(1, NOTIFY_FRAME, 3)
        other.mq_open(every_byte, O_WRONLY)
        until_it_waits(other, mq_send_request(0, b"not sent", 6))
    listed((2, TWO, every_byte, 0o604))
    with killed(), process() as client:
        check(client.mq_open(every_byte, O_RDWR) == 0, "another descriptor")
        is_refused(lambda: client.mq_getattr(1), errno.EBADF)
        client.mq_notify(0, NOTIFY_FRAME, 4)
        is_received(client, 0, 5, b"greater")
        is_received(client, 0, 4, b"")
        check(client.mq_getattr(0) == TWO, "another queue is kept")
        is_told(client)
        client.mq_open("/gone", NEW, MODE, ONE)
        client.mq_send(1, 64 * b"y", 1)
        client.mq_unlink(every_byte)
    listed((1, ONE, b"/gone", MODE))
    with serving(limits="small"), process() as client:
        is_refused(lambda: client.mq_open(every_byte, O_RDWR), errno.ENOENT)
        client.mq_open("/gone", O_RDWR)
        is_received(client, 0, 1, 64 * b"y")


TESTS = [
    opens,
    descriptors,
    unlinked,
    refusals,
    priorities,
    they_wait,
    deadlines,
    told_once,
    who_is_told,
    given_up,
    kept,
]


def main() -> None:
    with in_a_folder(120):
        run_tests("posix_queues", TESTS)


if __name__ == "__main__":
    main()
