"""What the clients have written down, as calls for tests/chaos/checker.py."""

from __future__ import annotations

import json
from collections import defaultdict
from pathlib import Path

from checker import Exit, Life
from models import Op


def frozen(value):
    """Lists are tuples, so that a state can be hashed."""
    return tuple(frozen(it) for it in value) if isinstance(value, list) else value


class History:
    """The calls of all clients, by lives, and the HELLOs: life, begin, end, pid."""

    def __init__(self, folder: Path, killed: list[tuple[int, int]]) -> None:
        self.ops: dict[int, list[Op]] = defaultdict(list)
        self.exits: dict[int, list[Exit]] = defaultdict(list)
        self.hellos: list[tuple[int, int, int, int]] = []
        self.replies = self.unanswered = 0
        gone = dict(killed)
        for file in sorted(folder.glob("history.*")):
            number = int(file.name.partition(".")[2])
            self.read(file, gone.get(number))

    def read(self, file: Path, killed: int | None) -> None:
        # Of each call without a reply its place among those of its life.
        begun: dict[int, int] = {}
        name, life, pid, asked = "", 0, 0, 0
        for line in file.read_text().splitlines(keepends=True):
            if not line.endswith("\n"):
                break
            what, *rest = json.loads(line)
            if what == "c":
                self.unanswered += len(begun)
                begun.clear()
                name, life, asked = rest
                pid = 0
            elif what == "h":
                pid = rest[3]
                self.hellos.append((life, asked, rest[2], pid))
            elif what == "b":
                _, count, thing, call, args, begin = rest
                begun[count] = len(self.ops[life])
                self.ops[life].append(Op(name, pid, count, thing, call, frozen(args), begin))
            elif what == "e":
                _, count, end, error, value = rest
                place = begun.pop(count)
                self.ops[life][place] = self.ops[life][place]._replace(end=end, result=(error, frozen(value)))
                self.replies += 1
            else:
                self.exits[life].append(Exit(name, pid, rest[2]))
        self.unanswered += len(begun)
        if killed is not None and pid:
            self.exits[life].append(Exit(name, pid, killed))

    def lives(self, count: int) -> list[Life]:
        return [Life(it, self.ops[it], self.exits[it]) for it in range(1, count + 1)]
