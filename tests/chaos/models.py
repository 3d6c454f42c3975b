"""What docs/PROTOCOL.md says of one object, as functions over plain values.

A thing is what one key or one name stands for, over all objects that it names one after the other. `run` is a call on
it: the errno, the value that is answered, and the state after it; or None, if the call has to wait. `after` are the
states that a call may leave, whose answer is known or not. `restart` is a state after a crash.

These were written apart from the program, its definitions and the models of tests/scripts.
"""

from __future__ import annotations

import errno
from typing import NamedTuple

IPC_CREAT, IPC_EXCL, IPC_NOWAIT, SEM_UNDO = 0o1000, 0o2000, 0o4000, 0o10000
MSG_NOERROR, MSG_EXCEPT = 0o10000, 0o20000
O_CREAT, O_EXCL, O_TRUNC, O_NONBLOCK = 0o100, 0o200, 0o1000, 0o4000
MSGMNB, SEMVMX, SEM_VALUE_MAX = 65536, 32767, 2**31 - 1
# A number that the call has to answer, and one that was answered to nobody.
NEW, UNKNOWN = "new", -1
# The calls that may be answered ENOMEM, by their names here.
MAY_NEED = {"get", "snd", "op", "open", "send", "truncate"}


class Op(NamedTuple):
    """A call. Its result is an errno and a value, or None if no reply was seen; then it has no end either."""

    connection: str
    pid: int
    number: int
    thing: str
    call: str
    args: tuple
    begin: int
    end: int | None = None
    result: tuple | None = None


Answer = tuple[int, object, object]


class Model:
    """What is alike for all kinds. A state is a value that can be hashed."""

    start: object = None

    def __init__(self, refuses_memory: bool = False) -> None:
        self.refuses_memory = refuses_memory

    def run(self, state, op: Op) -> Answer | None:
        return getattr(self, "call_" + op.call)(state, op, *op.args)

    def waits_end(self, op: Op) -> set[int]:
        """The errors by which a call ends that had to wait until then, and leaves all as it is."""
        return {errno.EINTR}

    def bound(self, state, number: int):
        """A state in which a new number is this one, or None if it cannot be."""
        raise NotImplementedError

    def after(self, state, op: Op) -> list:
        found = self.run(state, op)
        if op.result is None:
            return self.after_unseen(state, found)
        error, value = op.result
        if error == errno.ENOMEM:
            return [state] if self.refuses_memory and op.call in MAY_NEED else []
        if found is None:
            return [state] if error in self.waits_end(op) else []
        if found[0] != error:
            # A call that waited is told that its object is gone by another number than one that comes afterwards.
            waited = error == errno.EIDRM and found[0] == errno.EINVAL and self.may_wait(op)
            return [state] if waited else []
        if found[1] == NEW:
            changed = self.bound(found[2], value)
            return [] if changed is None else [changed]
        return [found[2]] if error or found[1] == value else []

    def after_unseen(self, state, found: Answer | None) -> list:
        if found is None:
            return []
        changed = self.bound(found[2], UNKNOWN) if found[1] == NEW else found[2]
        return [changed, state] if self.refuses_memory and changed != state else [changed]

    def may_wait(self, op: Op) -> bool:
        return False

    def exit(self, state, connection: str, pid: int):
        """A process has left."""
        return state

    def restart(self, state):
        return state


def refused(state, number: int) -> Answer:
    return number, None, state


# ---- objects with keys: a state begins with the identifier, or None, and the last one that was known


class Keyed(Model):
    def bound(self, state, number: int):
        if number == UNKNOWN:
            return (UNKNOWN, *state[1:])
        return (number, number, *state[2:]) if number > state[1] else None

    def get(self, state, flags: int, new) -> Answer:
        """msgget, semget, shmget. `new` is the state with a new object."""
        if state[0] is None:
            return (0, NEW, new) if flags & IPC_CREAT else refused(state, errno.ENOENT)
        if flags & IPC_CREAT and flags & IPC_EXCL:
            return refused(state, errno.EEXIST)
        return (0, NEW if state[0] == UNKNOWN else state[0], state)


class Queue(Keyed):
    """identifier, last, messages (type, text), qbytes, lspid, lrpid"""

    start = (None, 0, (), 0, 0, 0)

    def may_wait(self, op: Op) -> bool:
        return op.call in ("snd", "rcv")

    def call_get(self, state, op: Op, flags: int) -> Answer:
        return self.get(state, flags, (None, state[1], (), MSGMNB, 0, 0))

    def call_snd(self, state, op: Op, ident: int, flags: int, mtype: int, text: str) -> Answer | None:
        number, last, messages, qbytes, spid, rpid = state
        if ident != number:
            return refused(state, errno.EINVAL)
        if sum(len(it) for _, it in messages) + len(text) > qbytes or len(messages) + 1 > qbytes:
            return refused(state, errno.EAGAIN) if flags & IPC_NOWAIT else None
        return 0, None, (number, last, (*messages, (mtype, text)), qbytes, op.pid, rpid)

    def chosen(self, messages, mtype: int, flags: int) -> int | None:
        """Which message a type selects."""
        types = [it for it, _ in messages]
        if mtype < 0:
            lowest = min(types, default=1 - mtype)
            return types.index(lowest) if lowest <= -mtype else None
        for place, it in enumerate(types):
            if mtype == 0 or (it != mtype if flags & MSG_EXCEPT else it == mtype):
                return place
        return None

    def call_rcv(self, state, op: Op, ident: int, flags: int, size: int, mtype: int) -> Answer | None:
        number, last, messages, qbytes, spid, rpid = state
        if ident != number:
            return refused(state, errno.EINVAL)
        place = self.chosen(messages, mtype, flags)
        if place is None:
            return refused(state, errno.ENOMSG) if flags & IPC_NOWAIT else None
        found, text = messages[place]
        if len(text) > size and not flags & MSG_NOERROR:
            return refused(state, errno.E2BIG)
        rest = messages[:place] + messages[place + 1 :]
        return 0, (found, text[:size]), (number, last, rest, qbytes, spid, op.pid)

    def call_stat(self, state, op: Op, ident: int) -> Answer:
        if ident != state[0]:
            return refused(state, errno.EINVAL)
        _, _, messages, qbytes, spid, rpid = state
        return 0, (len(messages), sum(len(it) for _, it in messages), qbytes, spid, rpid), state

    def call_set(self, state, op: Op, ident: int, qbytes: int) -> Answer:
        if ident != state[0]:
            return refused(state, errno.EINVAL)
        return 0, None, (*state[:3], qbytes, *state[4:])

    def call_rmid(self, state, op: Op, ident: int) -> Answer:
        if ident != state[0]:
            return refused(state, errno.EINVAL)
        return 0, None, (None, state[1], (), 0, 0, 0)


class Set(Keyed):
    """identifier, last, values, pids of who has set them, adjustments: of each pid pairs of a number and an amount"""

    SIZE = 3
    start = (None, 0, (), (), ())

    def may_wait(self, op: Op) -> bool:
        return op.call == "op"

    def waits_end(self, op: Op) -> set[int]:
        return {errno.EINTR} if op.args[2] is None else {errno.EINTR, errno.EAGAIN}

    def call_get(self, state, op: Op, flags: int) -> Answer:
        return self.get(state, flags, (None, state[1], (0,) * self.SIZE, (0,) * self.SIZE, ()))

    def call_op(self, state, op: Op, ident: int, operations: tuple, timeout: int | None) -> Answer | None:
        number, last, values, pids, adjustments = state
        if ident != number:
            return refused(state, errno.EINVAL)
        new, by, mine = list(values), list(pids), dict(dict(adjustments).get(op.pid, ()))
        for at, amount, flags in operations:
            if (new[at] != 0) if amount == 0 else (new[at] + amount < 0):
                return refused(state, errno.EAGAIN) if flags & IPC_NOWAIT or timeout == 0 else None
            new[at] += amount
            by[at] = op.pid
            if new[at] > SEMVMX:
                return refused(state, errno.ERANGE)
            if flags & SEM_UNDO and amount:
                mine[at] = mine.get(at, 0) - amount
                if not -SEMVMX <= mine[at] <= SEMVMX:
                    return refused(state, errno.ERANGE)
        kept = dict(adjustments) | {op.pid: tuple(sorted((at, amount) for at, amount in mine.items() if amount))}
        adjustments = tuple(sorted((pid, them) for pid, them in kept.items() if them))
        return 0, None, (number, last, tuple(new), tuple(by), adjustments)

    def call_getall(self, state, op: Op, ident: int) -> Answer:
        return refused(state, errno.EINVAL) if ident != state[0] else (0, state[2], state)

    def call_getval(self, state, op: Op, ident: int, at: int) -> Answer:
        return refused(state, errno.EINVAL) if ident != state[0] else (0, state[2][at], state)

    def call_getpid(self, state, op: Op, ident: int, at: int) -> Answer:
        return refused(state, errno.EINVAL) if ident != state[0] else (0, state[3][at], state)

    def changed(self, state, pid: int, changes: dict[int, int]):
        """The state after SETVAL or SETALL, which clear the adjustments of all processes there."""
        number, last, values, pids, adjustments = state
        values = tuple(changes.get(at, value) for at, value in enumerate(values))
        pids = tuple(pid if at in changes else it for at, it in enumerate(pids))
        kept = ((who, tuple(it for it in them if it[0] not in changes)) for who, them in adjustments)
        return number, last, values, pids, tuple(it for it in kept if it[1])

    def call_setval(self, state, op: Op, ident: int, at: int, value: int) -> Answer:
        if ident != state[0]:
            return refused(state, errno.EINVAL)
        return 0, None, self.changed(state, op.pid, {at: value})

    def call_setall(self, state, op: Op, ident: int, values: tuple) -> Answer:
        if ident != state[0]:
            return refused(state, errno.EINVAL)
        return 0, None, self.changed(state, op.pid, dict(enumerate(values)))

    def call_rmid(self, state, op: Op, ident: int) -> Answer:
        return refused(state, errno.EINVAL) if ident != state[0] else (0, None, (None, state[1], (), (), ()))

    def exit(self, state, connection: str, pid: int):
        number, last, values, pids, adjustments = state
        mine = dict(adjustments).get(pid)
        if not mine:
            return state
        new, by = list(values), list(pids)
        for at, amount in mine:
            new[at] = min(max(new[at] + amount, 0), SEMVMX)
            by[at] = pid
        return number, last, tuple(new), tuple(by), tuple(it for it in adjustments if it[0] != pid)

    def restart(self, state):
        for pid, _ in state[4]:
            state = self.exit(state, "", pid)
        return state


class SystemSegment(Keyed):
    """identifier, last, segments (identifier, bytes, whether removed), attachments ((connection, number), segment)"""

    SIZE = 64
    start = (None, 0, (), ())

    def bound(self, state, number: int):
        found = super().bound(state, number)
        if found is None or found[0] is None:
            return found
        segments = tuple((number if it[0] in (None, UNKNOWN) else it[0], *it[1:]) for it in found[2])
        return (*found[:2], segments, found[3])

    def part(self, state, ident):
        return next((it for it in state[2] if it[0] == ident), None)

    def call_get(self, state, op: Op, flags: int) -> Answer:
        new = (*state[2], (None, "\0" * self.SIZE, False))
        return self.get(state, flags, (None, state[1], new, state[3]))

    def call_at(self, state, op: Op, ident: int) -> Answer:
        if self.part(state, ident) is None:
            return refused(state, errno.EINVAL)
        place = op.result[1] if op.result and not op.result[0] else f"unseen {op.number}"
        made = tuple(sorted((*state[3], ((op.connection, str(place)), ident))))
        return 0, op.result[1] if op.result else None, (*state[:3], made)

    def swept(self, state):
        held = {ident for _, ident in state[3]}
        return (*state[:2], tuple(it for it in state[2] if not it[2] or it[0] in held), state[3])

    def held(self, state, op: Op, place: int):
        return dict(state[3]).get((op.connection, str(place)))

    def call_dt(self, state, op: Op, place: int) -> Answer:
        if self.held(state, op, place) is None:
            return refused(state, errno.EINVAL)
        rest = tuple(it for it in state[3] if it[0] != (op.connection, str(place)))
        return 0, None, self.swept((*state[:3], rest))

    def call_read(self, state, op: Op, place: int, offset: int, length: int) -> Answer:
        part = self.part(state, self.held(state, op, place))
        if part is None:
            return refused(state, errno.EBADF)
        if offset + length > self.SIZE:
            return refused(state, errno.EINVAL)
        return 0, part[1][offset : offset + length], state

    def call_write(self, state, op: Op, place: int, offset: int, text: str) -> Answer:
        part = self.part(state, self.held(state, op, place))
        if part is None:
            return refused(state, errno.EBADF)
        if offset + len(text) > self.SIZE:
            return refused(state, errno.EINVAL)
        new = part[1][:offset] + text + part[1][offset + len(text) :]
        return 0, None, (*state[:2], tuple((it[0], new, it[2]) if it is part else it for it in state[2]), state[3])

    def call_stat(self, state, op: Op, ident: int) -> Answer:
        part = self.part(state, ident)
        if part is None:
            return refused(state, errno.EINVAL)
        return 0, (sum(it == ident for _, it in state[3]), len(part[1]), part[2]), state

    def call_rmid(self, state, op: Op, ident: int) -> Answer:
        part = self.part(state, ident)
        if part is None:
            return refused(state, errno.EINVAL)
        marked = tuple((it[0], it[1], True) if it is part else it for it in state[2])
        number = None if ident == state[0] else state[0]
        return 0, None, self.swept((number, state[1], marked, state[3]))

    def exit(self, state, connection: str, pid: int):
        rest = tuple(it for it in state[3] if it[0][0] != connection)
        return state if rest == state[3] else self.swept((*state[:3], rest))

    def restart(self, state):
        return self.swept((*state[:3], ()))


# ---- what has a name: which object it names, how many there were, objects (number, content), and descriptors, each
# with its object and whether it does not wait


class Named(Model):
    start = (None, 0, (), ())
    closed = errno.EBADF

    def empty(self, *given) -> object:
        raise NotImplementedError

    def opened(self, content, flags: int):
        return content

    def call_open(self, state, op: Op, flags: int, *given) -> Answer:
        name, count, objects, descriptors = state
        if name is None:
            if not flags & O_CREAT:
                return refused(state, errno.ENOENT)
            name, count, objects = count, count + 1, (*objects, (count, self.empty(*given)))
        elif flags & O_CREAT and flags & O_EXCL:
            return refused(state, errno.EEXIST)
        objects = tuple((it[0], self.opened(it[1], flags)) if it[0] == name else it for it in objects)
        place = op.result[1] if op.result and not op.result[0] else f"unseen {op.number}"
        entry = ((op.connection, str(place)), name, bool(flags & O_NONBLOCK))
        return 0, op.result[1] if op.result else None, (name, count, objects, tuple(sorted((*descriptors, entry))))

    def swept(self, state):
        held = {it[1] for it in state[3]} | {state[0]}
        return (*state[:2], tuple(it for it in state[2] if it[0] in held), state[3])

    def call_close(self, state, op: Op, place: int) -> Answer:
        rest = tuple(it for it in state[3] if it[0] != (op.connection, str(place)))
        return refused(state, errno.EBADF) if rest == state[3] else (0, None, self.swept((*state[:3], rest)))

    def call_unlink(self, state, op: Op) -> Answer:
        return refused(state, errno.ENOENT) if state[0] is None else (0, None, self.swept((None, *state[1:])))

    def restart(self, state):
        """Only what has the name is left. Which number it has among those that it named makes no difference."""
        name, _, objects, _ = state
        return self.start if name is None else (0, 1, ((0, dict(objects)[name]),), ())

    def on(self, state, op: Op, place: int, does) -> Answer | None:
        """A call on the content of an open object: `does` gives the errno, the value and the content after it."""
        entry = next((it for it in state[3] if it[0] == (op.connection, str(place))), None)
        if entry is None:
            return refused(state, self.closed)
        content = dict(state[2])[entry[1]]
        found = does(content, entry[2])
        if found is None or found[2] == content:
            return found and (found[0], found[1], state)
        objects = tuple((it[0], found[2]) if it[0] == entry[1] else it for it in state[2])
        return found[0], found[1], (*state[:2], objects, state[3])


class PosixQueue(Named):
    """A content is maxmsg and the messages (priority, text), the oldest first."""

    def empty(self, maxmsg: int):
        return maxmsg, ()

    def waits_end(self, op: Op) -> set[int]:
        return {errno.EINTR, errno.ETIMEDOUT}

    def call_send(self, state, op: Op, place: int, priority: int, text: str, over: bool) -> Answer | None:
        def does(content, nonblock):
            maxmsg, messages = content
            if len(messages) < maxmsg:
                return 0, None, (maxmsg, (*messages, (priority, text)))
            return (errno.EAGAIN, None, content) if nonblock else (errno.ETIMEDOUT, None, content) if over else None

        return self.on(state, op, place, does)

    def call_recv(self, state, op: Op, place: int, over: bool) -> Answer | None:
        def does(content, nonblock):
            maxmsg, messages = content
            if messages:
                at = max(range(len(messages)), key=lambda it: (messages[it][0], -it))
                return 0, messages[at], (maxmsg, messages[:at] + messages[at + 1 :])
            return (errno.EAGAIN, None, content) if nonblock else (errno.ETIMEDOUT, None, content) if over else None

        return self.on(state, op, place, does)

    def call_attr(self, state, op: Op, place: int) -> Answer | None:
        return self.on(state, op, place, lambda content, _: (0, (content[0], len(content[1])), content))


class NamedSemaphore(Named):
    """A content is the value."""

    closed = errno.EINVAL

    def empty(self, value: int):
        return value

    def waits_end(self, op: Op) -> set[int]:
        return {errno.EINTR, errno.ETIMEDOUT}

    def call_post(self, state, op: Op, place: int) -> Answer | None:
        def does(value, _):
            return (errno.EOVERFLOW, None, value) if value == SEM_VALUE_MAX else (0, None, value + 1)

        return self.on(state, op, place, does)

    def call_wait(self, state, op: Op, place: int, over: bool) -> Answer | None:
        def does(value, _):
            return (0, None, value - 1) if value else (errno.ETIMEDOUT, None, value) if over else None

        return self.on(state, op, place, does)

    def call_trywait(self, state, op: Op, place: int) -> Answer | None:
        return self.on(state, op, place, lambda it, _: (0, None, it - 1) if it else (errno.EAGAIN, None, it))

    def call_value(self, state, op: Op, place: int) -> Answer | None:
        return self.on(state, op, place, lambda value, _: (0, value, value))


class Segment(Named):
    """A content is the bytes."""

    def empty(self):
        return ""

    def opened(self, content, flags: int):
        return "" if flags & O_TRUNC else content

    def call_truncate(self, state, op: Op, place: int, length: int) -> Answer | None:
        return self.on(state, op, place, lambda it, _: (0, None, it[:length] + "\0" * (length - len(it))))

    def call_read(self, state, op: Op, place: int, offset: int, length: int) -> Answer | None:
        def does(content, _):
            if offset + length > len(content):
                return errno.EINVAL, None, content
            return 0, content[offset : offset + length], content

        return self.on(state, op, place, does)

    def call_write(self, state, op: Op, place: int, offset: int, text: str) -> Answer | None:
        def does(content, _):
            if offset + len(text) > len(content):
                return errno.EINVAL, None, content
            return 0, None, content[:offset] + text + content[offset + len(text) :]

        return self.on(state, op, place, does)

    def call_stat(self, state, op: Op, place: int) -> Answer | None:
        return self.on(state, op, place, lambda content, _: (0, len(content), content))


KINDS = {"msg": Queue, "sem": Set, "seg": SystemSegment, "pmq": PosixQueue, "psm": NamedSemaphore, "shm": Segment}
