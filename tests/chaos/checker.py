"""Whether what clients saw of a server is what docs/PROTOCOL.md and docs/PROMISES.md allow. It knows nothing of the
program: it reads calls with the times at which they began and were answered, and the lives of the server.

Of each thing (tests/chaos/models.py) it searches for an order of the calls in which each answer is right: a call takes
effect at one moment between its begin and its end (linearizability, as by Wing and Gong, with the sets of states of
Lowe). A call without a reply may have taken effect in its life, or not at all. The calls of one connection take effect
in their order. A process that leaves takes effect at one moment after its end. A crash ends a life: what was answered
stays, of the rest some first calls of each connection may, and then all processes leave.

A thing is judged apart from the others: if each has such an order, all together have one. What that does not show is
judged of all things together: `whole` has these rules.
"""

from __future__ import annotations

from collections import defaultdict
from typing import NamedTuple

from models import KINDS, Model, Op

# A life, when it began and ended, and the pid that it answered.
Hello = tuple[int, int, int, int]

# So many sets of states are too many to be searched.
MOST = 200_000


class Wrong(Exception):
    """The history is none that the rules allow."""


class TooLarge(Exception):
    """The history has too many orders to be judged."""


class Exit(NamedTuple):
    """A process that leaves: not before this moment."""

    connection: str
    pid: int
    begin: int


class Life(NamedTuple):
    """What was called in a life of the server."""

    number: int
    ops: list[Op]
    exits: list[Exit]


class Search:
    """The states that a thing may have in a life. A configuration is a state and which of the open calls have taken
    effect; a call is open from its begin to its end."""

    def __init__(self, model: Model, life: Life, starts: set) -> None:
        self.model = model
        self.life = life
        self.configurations = {(state, frozenset()) for state in starts}
        self.open: dict[tuple, Op] = {}
        self.exits: dict[str, Exit] = {}

    def run(self) -> set:
        """The states that a restart after this life may find."""
        events: list[tuple[int, int, object]] = []
        for op in self.life.ops:
            events.append((op.begin, 1, op))
            if op.result is not None:
                events.append((op.end, 2, op))
        events += [(it.begin, 0, it) for it in self.life.exits]
        for _, kind, it in sorted(events, key=lambda event: event[:2]):
            if kind == 0:
                self.exits[it.connection] = it
            elif kind == 1:
                self.open[it.connection, it.number] = it
            else:
                self.ends(it)
        return {self.model.restart(state) for state, _ in self.reached(self.configurations, None)}

    def ends(self, op: Op) -> None:
        """Only those are left in which this call has taken effect."""
        key = op.connection, op.number
        reached = self.reached(self.configurations, key)
        left = {(state, done - {key}) for state, done in reached if key in done}
        if not left:
            self.fail(op)
        self.configurations = left
        del self.open[key]

    def reached(self, start: set, until: tuple | None) -> set:
        """All configurations that open calls may lead to, or those in which one call has taken effect first."""
        seen = set(start)
        work = list(start)
        while work:
            state, done = work.pop()
            if until in done:
                continue
            for after in self.steps(state, done):
                if after not in seen:
                    seen.add(after)
                    work.append(after)
            if len(seen) > MOST:
                raise TooLarge(f"{len(seen)} states in life {self.life.number}, with {list(self.open.values())}")
        return seen

    def steps(self, state, done: frozenset):
        """What one more open call, or an exit, makes of a configuration."""
        first: set[str] = set()
        for key, op in self.open.items():
            if key in done or op.connection in first:
                continue
            first.add(op.connection)
            if (op.connection, -1) in done:
                continue
            for after in self.model.after(state, op):
                # A call without a reply that changes nothing matters only to those after it.
                if op.result is not None or after != state or self.has_next(op):
                    yield after, done | {key}
        for name, it in self.exits.items():
            if (name, -1) not in done:
                after = self.model.exit(state, name, it.pid)
                if after != state:
                    yield after, done | {(name, -1)}

    def has_next(self, op: Op) -> bool:
        return any(name == op.connection and number > op.number for name, number in self.open)

    def fail(self, op: Op) -> None:
        some = [state for state, _ in list(self.configurations)[:3]]
        others = [it for it in self.open.values() if it != op]
        raise Wrong(
            f"{op.thing}, life {self.life.number}: {op} was answered so in none of {len(self.configurations)} states, "
            f"as {some}; open beside it are {others[:6]}"
        )


def judge_thing(thing: str, lives: list[Life], refuses_memory: bool) -> int:
    """Judges the calls on one thing over all lives, and answers the most states there were between two lives."""
    model = KINDS[thing.partition(":")[0]](refuses_memory)
    states = {model.start}
    most = 1
    for life in lives:
        states = Search(model, life, states).run()
        most = max(most, len(states))
    return most


def split(lives: list[Life]) -> dict[str, list[Life]]:
    """The lives of each thing by itself."""
    found: dict[str, list[Life]] = {}
    things = sorted({op.thing for life in lives for op in life.ops})
    for thing in things:
        found[thing] = []
        for life in lives:
            ops = [op for op in life.ops if op.thing == thing]
            there = {op.connection for op in ops}
            found[thing].append(Life(life.number, ops, [it for it in life.exits if it.connection in there]))
    return found


# ---- what is judged of all things together


def ledgers(lives: list[Life], names: set[str]) -> None:
    """Queues to which each connection sends numbered texts by turns, and which are emptied at the end. Each text that
    was acknowledged is there, none twice and none invented; of each connection's texts, over all ledgers, the first
    ones are there; and a text that was acknowledged before another was sent to the same queue comes before it."""
    sent = [op for life in lives for op in life.ops if op.thing in names and op.call == "snd"]
    received = [op for life in lives for op in life.ops if op.thing in names and op.call == "rcv"]
    taken = [op for op in received if op.result and not op.result[0]]
    found = {op.result[1][1]: place for place, op in enumerate(sorted(taken, key=lambda it: it.begin))}
    if len(found) != len(taken):
        raise Wrong("ledgers: a text was received twice")
    texts = {op.args[3]: op for op in sent}
    for text in found:
        if text not in texts:
            raise Wrong(f"ledgers: {text!r} was received and never sent")
    stops: dict[str, str] = {}
    for op in sorted(sent, key=lambda it: (it.connection, it.number)):
        text, is_there = op.args[3], op.args[3] in found
        if op.result and not op.result[0] and not is_there:
            raise Wrong(f"ledgers: {text!r} was acknowledged and is lost: {op}")
        if op.result and op.result[0] and is_there:
            raise Wrong(f"ledgers: {text!r} was refused and is there: {op}")
        if is_there and op.connection in stops:
            raise Wrong(f"ledgers: {text!r} is there and {stops[op.connection]!r}, sent before it, is not")
        if not is_there and not op.result:
            stops.setdefault(op.connection, text)
    in_order(sent, found, texts)


def in_order(sent: list[Op], found: dict[str, int], texts: dict[str, Op]) -> None:
    """What was acknowledged before another began stands before it in the same queue."""
    for thing in {op.thing for op in sent}:
        latest_begin = 0
        queue = sorted((place, texts[text]) for text, place in found.items() if texts[text].thing == thing)
        for _, op in queue:
            if op.end is not None and op.end < latest_begin:
                raise Wrong(f"ledgers: {op} comes after one that was sent later")
            latest_begin = max(latest_begin, op.begin)


def descriptors(lives: list[Life]) -> None:
    """A call that opens answers the lowest number that its process has not open."""
    held: dict[str, set[int]] = defaultdict(set)
    for op in sorted((op for life in lives for op in life.ops), key=lambda it: (it.connection, it.number)):
        if op.result is None or op.result[0]:
            continue
        mine = held[op.connection]
        if op.call in ("open", "at"):
            lowest = next(it for it in range(len(mine) + 1) if it not in mine)
            if op.result[1] != lowest:
                raise Wrong(f"descriptors: {op} was answered {op.result[1]}, and {lowest} was free")
            mine.add(lowest)
        if op.call in ("close", "dt"):
            mine.discard(op.args[0])


def identifiers(lives: list[Life]) -> None:
    """No identifier of a kind names the objects of two keys, and one that was answered before a key was first asked for
    by a call that answers another is lower, if both are new."""
    owner: dict[tuple[str, int], str] = {}
    for life in lives:
        for op in life.ops:
            if op.call == "get" and op.result and not op.result[0]:
                kind = op.thing.partition(":")[0]
                if owner.setdefault((kind, op.result[1]), op.thing) != op.thing:
                    raise Wrong(f"identifiers: {op.result[1]} is of {op.thing} and of {owner[kind, op.result[1]]}")


def pids(hellos: list[Hello], comes_again: bool) -> None:
    """No pid comes twice in a life, nor in two lives, unless pids begin again with each. One that was answered before
    another was asked for is lower."""
    seen: set[tuple[int, int]] = set()
    latest = defaultdict(list)
    for life, begin, end, pid in sorted(hellos, key=lambda it: it[1]):
        place = life if comes_again else 0
        if (place, pid) in seen:
            raise Wrong(f"pids: {pid} comes twice")
        seen.add((place, pid))
        if any(other_end < begin and other > pid for other_end, other in latest[place]):
            raise Wrong(f"pids: {pid} of life {life} comes after a higher one")
        latest[place].append((end, pid))


def whole(lives: list[Life], hellos: list[Hello], comes_again: bool, ledger_names: set[str]) -> None:
    ledgers(lives, ledger_names)
    descriptors(lives)
    identifiers(lives)
    pids(hellos, comes_again)


def judge(
    lives: list[Life],
    hellos: list[Hello],
    comes_again: bool,
    ledger_names: set[str],
    refuses_memory: bool = False,
) -> int:
    """Judges a history: it is Wrong, or the answer is the most states that one thing may have had between two lives."""
    whole(lives, hellos, comes_again, ledger_names)
    most = 1
    for thing, its in split(lives).items():
        if thing not in ledger_names:
            most = max(most, judge_thing(thing, its, refuses_memory))
    return most
