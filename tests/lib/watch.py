"""Runs of the program with its calls of the system written down, by tests/lib/watch_calls.c. All paths are in the
working folder."""

from __future__ import annotations

import errno
import os
import re
import shutil
import subprocess
from collections.abc import Iterator
from contextlib import contextmanager
from pathlib import Path
from typing import NamedTuple

from device_layout import BODY, JOURNAL, OBJECTS, ROOT, SECTOR, read
from server import check

SOURCE = Path(__file__).resolve().parent / "watch_calls.c"
LIBRARY = "watch_calls.so"
LOG = "log"

# Answers to calls: one that moves all that it can, one that a signal has cut short, one that would block, and the end
# of what comes in; and the answers that are of each connection.
ALL = 65536
CUT = -errno.EINTR
BLOCKS = -errno.EAGAIN
ENDS = 0
EACH = -1


class Call(NamedTuple):
    """A call that has ended. Its result is less the error number if it was refused."""

    name: str
    file: int
    size: int
    place: int
    result: int
    data: bytes

    @property
    def sector(self) -> int:
        return self.place // SECTOR


def build(of: str) -> bool:
    """Builds the library. False, and a word, if there is no compiler."""
    if shutil.which("cc") is None:
        print(f"{of}: there is no cc here, so no call of the system is watched: left out")
        return False
    subprocess.run(["cc", "-shared", "-fPIC", "-o", LIBRARY, str(SOURCE)], check=True)
    return True


@contextmanager
def watched(
    fail: str = "", text: str = "", place: int = 0, most: int = 65536, **answers: tuple[int, ...]
) -> Iterator[None]:
    """Programs that are started meanwhile are watched, and meet this failure. Calls of `recv`, `send`, `read` or
    `write` are answered by these numbers: the first says whose calls, and the others are of one call each."""
    Path(LOG).unlink(missing_ok=True)
    wanted = {"WATCH_LOG": os.path.abspath(LOG), "WATCH_BYTES": str(most)}
    wanted |= {"WATCH_FAIL": fail} if fail else {}
    wanted |= {"WATCH_TEXT": text} if text else {}
    wanted |= {"WATCH_PLACE": str(place)} if place else {}
    wanted |= {f"WATCH_{name.upper()}": " ".join(map(str, them)) for name, them in answers.items()}
    wanted |= {"LD_PRELOAD": os.path.abspath(LIBRARY)}
    os.environ.update(wanted)
    try:
        yield
    finally:
        for name in wanted:
            del os.environ[name]


def calls() -> list[Call]:
    """What the log has, up to its last whole line."""
    found = []
    for line in Path(LOG).read_text().splitlines(keepends=True):
        if line.endswith("\n"):
            name, file, size, place, result, data = line.split()
            data = b"" if data == "-" else bytes.fromhex(data)
            found.append(Call(name, int(file), int(size), int(place), int(result), data))
    return found


def turns_of(them: list[Call]) -> list[list[Call]]:
    """The calls of each turn that has ended, from its own wait on. Before it the server may have waited for something
    to do."""
    turns: list[list[Call]] = []
    turn: list[Call] = []
    for call in them:
        if call.name == "epoll_enter":
            turns += [turn] if len(turn) > 1 else []
            turn = []
        elif call.name == "epoll_wait":
            turn = [call]
        elif turn:
            turn.append(call)
    return turns


def whole_turns(them: list[Call]) -> list[Call]:
    """The calls up to the end of the last turn that has ended."""
    ends = max(at for at, call in enumerate(them) if call.name == "epoll_enter")
    while them[ends - 1].name in ("epoll_enter", "epoll_wait"):
        ends -= 1
    return them[:ends]


LETTERS = {"fdatasync": "S", "fsync": "F", "ftruncate": "T", "epoll_wait": "E", "recv": "<"}
LETTERS |= {"epoll_enter": "", "send": ">", "accept4": "a", "close": "c", "write": "P", "pread": "r", "read": "i"}


def letter(call: Call) -> str:
    """Of a write the part of a device of version 2: 0 the superblock, R the root, H the journal's header, B its body, O
    objects, and ? the root of version 3. Of a call that was refused, but for those of sockets, x."""
    if call.result < 0 and call.name not in ("recv", "send", "accept4", "epoll_wait"):
        return "x"
    if call.name != "pwrite":
        return LETTERS[call.name]
    if call.sector >= OBJECTS:
        return "O"
    return "B" if call.sector >= BODY else {0: "0", ROOT: "R", JOURNAL: "H"}.get(call.sector, "?")


def order(them: list[Call]) -> str:
    """A letter for each, but for reads of the device that succeed."""
    return "".join(letter(call) for call in them).replace("r", "")


COMMIT = "(?:B+SHS|O+SRS)"
TURN = f"E+[a<]*(?:{COMMIT}<*)*{COMMIT}>*(?:c+(?:{COMMIT}>*)?)?"
OPEN = f"S{COMMIT}P"


def follows(pattern: str, them: list[Call]) -> None:
    """All of these calls are in this order."""
    found = order(them)
    if not re.fullmatch(pattern, found):
        raise AssertionError(f"the calls are {found}, and not {pattern}")


def refused_once(them: list[Call]) -> None:
    """One call was refused, and after it nothing is written or synced."""
    left = order(them).partition("x")[2]
    check("x" in order(them), "no call was refused")
    check(not set(left) & set("x0RHBOSFT?"), f"after the refused call come {left}")


class Disk:
    """What of the bytes of a device in a file a sync has made last."""

    def __init__(self, image: bytes) -> None:
        self.lasting = bytearray(image)
        self.waiting: list[Call] = []

    def does(self, call: Call) -> None:
        if call.name == "pwrite" and call.result > 0:
            check(len(call.data) == call.result, "the log has not all bytes")
            self.waiting.append(call)
        if call.name == "fdatasync" and call.result == 0:
            for write in self.waiting:
                self.lasting[write.place : write.place + write.result] = write.data
            self.waiting.clear()

    def keeps(self, text: bytes) -> bool:
        """Whether an open after a failure of power would find it."""
        content = read(bytes(self.lasting))
        parts = [data for _, data in content.objects]
        parts += [record for records in content.batches for record in records]
        return any(text in part for part in parts)
