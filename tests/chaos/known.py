"""Histories that were made by hand, each right or wrong by docs/PROTOCOL.md: the judge has to tell which."""

from __future__ import annotations

import errno
from typing import NamedTuple

from checker import Exit, Life, Wrong, judge
from models import IPC_CREAT, IPC_NOWAIT, O_CREAT, SEM_UNDO, Op

# A call of a client: connection, thing, call, arguments, when it began and ended, and its errno and value.
# Without an end it was answered nothing.
Row = tuple
MADE = ("a", "msg:1", "get", (IPC_CREAT,), 1, 2, 0, 1)
SET = ("a", "sem:1", "get", (IPC_CREAT,), 1, 2, 0, 1)
NAMED = ("a", "pmq:/q", "open", (O_CREAT | 2, 5), 1, 2, 0, 0)
SEGMENT = ("a", "shm:/s", "open", (O_CREAT | 2,), 1, 2, 0, 0)
LONGER = ("a", "shm:/s", "truncate", (0, 8), 3, 4, 0, None)


def sent(who: str, text: str, begin: int, *answer) -> Row:
    return who, "msg:1", "snd", (1, IPC_NOWAIT, 1, text), begin, *answer


def taken(who: str, text: str, begin: int, end: int) -> Row:
    return who, "msg:1", "rcv", (1, IPC_NOWAIT, 64, 0), begin, end, 0, (1, text)


def none_there(who: str, begin: int, end: int) -> Row:
    return who, "msg:1", "rcv", (1, IPC_NOWAIT, 64, 0), begin, end, errno.ENOMSG, None


def operated(who: str, amount: int, flags: int, begin: int, end: int, error: int = 0) -> Row:
    return who, "sem:1", "op", (1, ((0, amount, flags),), None), begin, end, error, None


def value(who: str, found: int, begin: int, end: int) -> Row:
    return who, "sem:1", "getval", (1, 0), begin, end, 0, found


def written(who: str, text: str, begin: int, *answer) -> Row:
    return who, "shm:/s", "write", (0, 0, text), begin, *answer


def read(who: str, text: str, begin: int, end: int) -> Row:
    return who, "shm:/s", "read", (0, 0, 8), begin, end, 0, text


def opened(who: str, begin: int, end: int, number: int = 0, error: int = 0) -> Row:
    return who, "shm:/s", "open", (2,), begin, end, error, None if error else number


class Case(NamedTuple):
    """Lives, each some rows; who leaves, in which life and when; and whether it is right."""

    is_right: bool
    what: str
    lives: list[list[Row]]
    exits: list[tuple[int, str, int]] = []


PENDING_A, PENDING_B = sent("b", "1", 5), sent("b", "2", 6)

QUEUES = [
    Case(
        True,
        "messages in their order",
        [
            [
                MADE,
                sent("a", "x", 3, 4, 0, None),
                sent("a", "y", 5, 6, 0, None),
                taken("b", "x", 7, 8),
                taken("b", "y", 9, 10),
            ],
        ],
    ),
    Case(
        False,
        "messages out of order",
        [
            [
                MADE,
                sent("a", "x", 3, 4, 0, None),
                sent("a", "y", 5, 6, 0, None),
                taken("b", "y", 7, 8),
                taken("b", "x", 9, 10),
            ],
        ],
    ),
    Case(
        True,
        "sends at one time, in any order",
        [
            [
                MADE,
                sent("a", "x", 3, 6, 0, None),
                sent("b", "y", 4, 5, 0, None),
                taken("b", "x", 7, 8),
                taken("b", "y", 9, 10),
            ],
        ],
    ),
    Case(
        False,
        "a message twice",
        [[MADE, sent("a", "x", 3, 4, 0, None), taken("b", "x", 5, 6), taken("c", "x", 5, 7)]],
    ),
    Case(False, "a message that nobody sent", [[MADE, taken("b", "x", 5, 6)]]),
    Case(
        False,
        "a message received before it was sent",
        [[MADE, taken("b", "x", 3, 4), sent("a", "x", 5, 6, 0, None)]],
    ),
    Case(False, "a queue that says it is empty", [[MADE, sent("a", "x", 3, 4, 0, None), none_there("b", 5, 6)]]),
    Case(
        True,
        "a queue that was empty at some moment of the call",
        [[MADE, sent("a", "x", 3, 6, 0, None), none_there("b", 4, 5)]],
    ),
    Case(
        False,
        "an acknowledged message is lost in a crash",
        [[MADE, sent("a", "x", 3, 4, 0, None)], [none_there("c", 11, 12)]],
    ),
    Case(True, "an unacknowledged one is lost in a crash", [[MADE, sent("b", "x", 3)], [none_there("c", 11, 12)]]),
    Case(True, "an unacknowledged one outlives a crash", [[MADE, sent("b", "x", 3)], [taken("c", "x", 11, 12)]]),
    Case(
        False,
        "a message comes back after a crash",
        [[MADE, sent("a", "x", 3, 4, 0, None), taken("b", "x", 5, 6)], [taken("c", "x", 11, 12)]],
    ),
    Case(
        False,
        "of one connection the second is kept and the first is not",
        [[MADE, PENDING_A, PENDING_B], [taken("c", "2", 11, 12), none_there("c", 13, 14)]],
    ),
    Case(
        True,
        "of one connection the first is kept and the second is not",
        [[MADE, PENDING_A, PENDING_B], [taken("c", "1", 11, 12), none_there("c", 13, 14)]],
    ),
    Case(
        False,
        "a send into the next life",
        [[MADE, sent("b", "x", 3)], [none_there("c", 11, 12), taken("c", "x", 13, 14)]],
    ),
    Case(
        False,
        "an identifier comes again",
        [[MADE, ("a", "msg:1", "rmid", (1,), 3, 4, 0, None), ("a", "msg:1", "get", (IPC_CREAT,), 5, 6, 0, 1)]],
    ),
    Case(
        False,
        "a removed queue is there after a crash",
        [[MADE, ("a", "msg:1", "rmid", (1,), 3, 4, 0, None)], [("c", "msg:1", "get", (0,), 11, 12, 0, 1)]],
    ),
    Case(False, "an identifier of two keys", [[MADE, ("a", "msg:2", "get", (IPC_CREAT,), 3, 4, 0, 1)]]),
    Case(
        False,
        "a greater priority comes later",
        [
            [
                NAMED,
                ("a", "pmq:/q", "send", (0, 1, "x", True), 3, 4, 0, None),
                ("a", "pmq:/q", "send", (0, 2, "y", True), 5, 6, 0, None),
                ("a", "pmq:/q", "recv", (0, True), 7, 8, 0, (1, "x")),
            ],
        ],
    ),
    Case(
        False,
        "a deadline though a message was there",
        [
            [
                NAMED,
                ("a", "pmq:/q", "send", (0, 1, "x", True), 3, 4, 0, None),
                ("a", "pmq:/q", "recv", (0, False), 5, 6, errno.ETIMEDOUT, None),
            ],
        ],
    ),
    Case(
        False,
        "more messages than maxmsg",
        [
            [
                ("a", "pmq:/q", "open", (O_CREAT | 2, 1), 1, 2, 0, 0),
                ("a", "pmq:/q", "send", (0, 1, "x", True), 3, 4, 0, None),
                ("a", "pmq:/q", "send", (0, 1, "y", True), 5, 6, 0, None),
            ],
        ],
    ),
    Case(
        False,
        "a queue without a name after a crash",
        [[NAMED, ("a", "pmq:/q", "unlink", (), 3, 4, 0, None)], [("c", "pmq:/q", "open", (2, 1), 11, 12, 0, 0)]],
    ),
    Case(False, "not the lowest descriptor", [[("a", "pmq:/q", "open", (O_CREAT | 2, 5), 1, 2, 0, 1)]]),
]

SETS = [
    Case(
        True,
        "what a process took is given back in a crash",
        [[SET, operated("a", 2, 0, 3, 4), operated("b", -1, SEM_UNDO, 5, 6)], [value("c", 2, 11, 12)]],
    ),
    Case(
        False,
        "what a process took is not given back in a crash",
        [[SET, operated("a", 2, 0, 3, 4), operated("b", -1, SEM_UNDO, 5, 6)], [value("c", 1, 11, 12)]],
    ),
    Case(
        False,
        "what a process took without SEM_UNDO is given back",
        [[SET, operated("a", 2, 0, 3, 4), operated("b", -1, 0, 5, 6)], [value("c", 2, 11, 12)]],
    ),
    Case(
        True,
        "a killed process has not left yet",
        [[SET, operated("a", 2, 0, 3, 4), operated("b", -1, SEM_UNDO, 5, 6), value("a", 1, 8, 9)]],
        [(1, "b", 7)],
    ),
    Case(
        True,
        "a killed process has left",
        [[SET, operated("a", 2, 0, 3, 4), operated("b", -1, SEM_UNDO, 5, 6), value("a", 2, 8, 9)]],
        [(1, "b", 7)],
    ),
    Case(
        False,
        "a process leaves twice",
        [
            [SET, operated("a", 2, 0, 3, 4), operated("b", -1, SEM_UNDO, 5, 6), value("a", 2, 8, 9)],
            [value("c", 3, 11, 12)],
        ],
        [(1, "b", 7)],
    ),
    Case(
        False,
        "a process leaves before it ends",
        [[SET, operated("a", 2, 0, 3, 4), operated("b", -1, SEM_UNDO, 5, 6), value("a", 2, 7, 8)]],
        [(1, "b", 9)],
    ),
    Case(False, "a value below 0", [[SET, operated("a", -1, IPC_NOWAIT, 3, 4)]]),
    Case(
        False,
        "a lock that two have",
        [[SET, operated("a", 1, 0, 3, 4), operated("b", -1, 0, 5, 9), operated("c", -1, 0, 6, 8)]],
    ),
    Case(
        False,
        "EAGAIN though it could proceed",
        [[SET, operated("a", 1, 0, 3, 4), operated("a", -1, IPC_NOWAIT, 5, 6, errno.EAGAIN)]],
    ),
    Case(False, "an acknowledged post is lost in a crash", [[SET, operated("a", 1, 0, 3, 4)], [value("c", 0, 11, 12)]]),
]

SEGMENTS = [
    Case(
        False,
        "a read of what was written over",
        [
            [
                SEGMENT,
                LONGER,
                written("a", "11111111", 5, 6, 0, None),
                written("a", "22222222", 7, 8, 0, None),
                opened("b", 1, 2),
                read("b", "11111111", 9, 10),
            ],
        ],
    ),
    Case(
        False,
        "what one has read goes back for another",
        [
            [
                SEGMENT,
                LONGER,
                opened("b", 5, 6),
                written("a", "11111111", 7),
                read("b", "11111111", 8, 9),
                read("b", "\0" * 8, 10, 11),
            ],
        ],
    ),
    Case(
        False,
        "what one has read is lost in a crash",
        [
            [SEGMENT, LONGER, opened("b", 5, 6), written("a", "11111111", 7), read("b", "11111111", 8, 9)],
            [opened("c", 11, 12), read("c", "\0" * 8, 13, 14)],
        ],
    ),
    Case(
        True,
        "what nobody has read is lost in a crash",
        [[SEGMENT, LONGER, written("a", "11111111", 7)], [opened("c", 11, 12), read("c", "\0" * 8, 13, 14)]],
    ),
    Case(
        False,
        "half of a write outlives a crash",
        [[SEGMENT, LONGER, written("a", "11111111", 7)], [opened("c", 11, 12), read("c", "1111" + "\0" * 4, 13, 14)]],
    ),
    Case(False, "a segment that was made is gone", [[SEGMENT, LONGER], [opened("c", 11, 12, error=errno.ENOENT)]]),
]


def told(thing: str, *rows: Row) -> list[Row]:
    return [(who, thing, *rest) for who, _, *rest in rows]


# Of one connection, to two ledgers by turns.
LEDGER_MADE = [*told("msg:100", MADE), ("a", "msg:101", "get", (IPC_CREAT,), 3, 4, 0, 2)]


def ledger(thing: str, ident: int, text: str, begin: int, *answer) -> Row:
    return "b", thing, "snd", (ident, IPC_NOWAIT, 1, text), begin, *answer


def emptied(thing: str, ident: int, begin: int, *texts: str) -> list[Row]:
    call = (ident, IPC_NOWAIT, 64, 0)
    return [("c", thing, "rcv", call, at, at + 1, 0, (1, text)) for at, text in zip(range(begin, 99, 2), texts)]


BOTH = [*LEDGER_MADE, ledger("msg:100", 1, "1", 5), ledger("msg:101", 2, "2", 6)]
WHOLE = [
    Case(True, "of two ledgers the first text", [BOTH, emptied("msg:100", 1, 11, "1")]),
    Case(False, "of two ledgers the second text alone", [BOTH, emptied("msg:101", 2, 11, "2")]),
    Case(
        False,
        "a ledger without an acknowledged text",
        [[*LEDGER_MADE, ledger("msg:100", 1, "1", 5, 6, 0, None)], emptied("msg:101", 2, 11)],
    ),
    Case(False, "a ledger with a text twice", [BOTH, emptied("msg:100", 1, 11, "1", "1")]),
    Case(
        False,
        "a ledger out of order",
        [
            [*LEDGER_MADE, ledger("msg:100", 1, "1", 5, 6, 0, None), ledger("msg:100", 1, "2", 7, 8, 0, None)],
            emptied("msg:100", 1, 11, "2", "1"),
        ],
    ),
]

# HELLOs: life, begin, end, pid; and whether pids begin again with each life.
PIDS = [
    (True, [(1, 1, 2, 1), (1, 3, 4, 2), (2, 5, 6, 3)], False),
    (True, [(1, 1, 2, 1), (2, 5, 6, 1)], True),
    (False, [(1, 1, 2, 1), (2, 5, 6, 1)], False),
    (False, [(1, 1, 2, 1), (1, 3, 4, 1)], True),
    (False, [(1, 1, 2, 2), (1, 3, 4, 1)], True),
]


def judged(lives: list[Life], hellos: list, comes_again: bool) -> bool:
    try:
        judge(lives, hellos, comes_again, {"msg:100", "msg:101"})
    except Wrong:
        return False
    return True


def built(case: Case) -> list[Life]:
    """The pid of a connection is the place of its letter."""
    lives = []
    for number, rows in enumerate(case.lives, 1):
        ops = []
        for place, (who, thing, call, args, begin, *answer) in enumerate(rows):
            end, result = (answer[0], tuple(answer[1:])) if answer else (None, None)
            ops.append(Op(who, ord(who) - 96, place, thing, call, args, begin, end, result))
        exits = [Exit(who, ord(who) - 96, begin) for life, who, begin in case.exits if life == number]
        lives.append(Life(number, ops, exits))
    return lives


def find_known_faults() -> int:
    """How many histories there are. Each is judged as it should be."""
    cases = QUEUES + SETS + SEGMENTS + WHOLE
    for case in cases:
        if judged(built(case), [], True) != case.is_right:
            raise AssertionError(f"'{case.what}' is {'' if case.is_right else 'not '}right, and judged otherwise")
    for is_right, hellos, comes_again in PIDS:
        if judged([], hellos, comes_again) != is_right:
            raise AssertionError(f"{hellos} are judged otherwise than they should be")
    return len(cases) + len(PIDS)
