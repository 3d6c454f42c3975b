"""Makes docs/vectors.json: requests and replies of the protocol, in words and in bytes, for the tests of clients.

    python3 tools/vectors.py [FILE]

It needs neither a server nor a client. Each byte is computed from docs/PROTOCOL.md: opcodes, fields and their types
are read from the table of requests, error numbers and flags from their tables. A record is described there by a
sentence, so its layout is in this file beside that sentence, and the script fails if the document has the sentence no
longer. What is answered, in words, was computed by hand from the document; tools/vector_rows.py has it.

`python3 tools/vectors.py --script SESSION` prints a session as a script of `ipcd replay --small`, or of `ipcd run` on a
small device of version 3, if that is its name.
"""

from __future__ import annotations

import json
import re
import sys
from collections.abc import Iterator
from functools import cache
from pathlib import Path
from typing import NamedTuple
from urllib.parse import unquote_to_bytes

sys.dont_write_bytecode = True
sys.path.insert(0, str(Path(__file__).resolve().parent))

from vector_rows import SESSIONS  # noqa: E402

ROOT = Path(__file__).resolve().parents[1]
FILE = ROOT / "docs/vectors.json"
PROTOCOL = (ROOT / "docs/PROTOCOL.md").read_text()

# The calls of the table of requests, by their opcodes, as the words of a vector name them.
NAMES = {
    "01": "hello", "02": "interrupt", "03": "close",
    "0a": "msgget", "0b": "msgsnd", "0c": "msgrcv", "0d": "msgctl_stat", "0e": "msgctl_set", "0f": "msgctl_rmid",
    "14": "semget", "15": "semop", "16": "semctl_getval", "17": "semctl_getpid", "18": "semctl_getncnt",
    "19": "semctl_getzcnt", "1a": "semctl_setval", "1b": "semctl_getall", "1c": "semctl_setall", "1d": "semctl_stat",
    "1e": "semctl_set", "1f": "semctl_rmid",
    "28": "mq_open", "29": "mq_unlink", "2a": "mq_send", "2b": "mq_receive", "2c": "mq_notify", "2d": "mq_getattr",
    "2e": "mq_setattr",
    "32": "sem_open", "33": "sem_unlink", "34": "sem_post", "35": "sem_wait", "36": "sem_trywait",
    "37": "sem_getvalue",
    "3c": "shm_open", "3d": "shm_unlink", "3e": "ftruncate", "3f": "shm_read", "40": "shm_write", "41": "shm_stat",
    "46": "shmget", "47": "shmat", "48": "shmdt", "49": "shmctl_stat", "4a": "shmctl_set", "4b": "shmctl_rmid",
    "4c": "attached_read", "4d": "attached_write",
}  # fmt: skip

# Of a record or a frame the sentences of the document that describe it, and the layout which they mean.
OWNERS = "uid u32, gid u32, cuid u32, cgid u32, mode u32"
LAYOUTS = {
    "the record of a queue": (
        ["IPC_STAT of a queue answers 68 bytes: key i32; uid, gid of the owner, and of the creator; mode, u32 each; "
         "stime, rtime, ctime u64 each; lspid, lrpid, qbytes, messages, bytes u32 each."],
        f"key i32, {OWNERS}, stime u64, rtime u64, ctime u64, lspid u32, lrpid u32, qbytes u32, qnum u32, "
        "cbytes u32", 68),
    "the record of a set": (
        ["IPC_STAT of a set answers 44 bytes: key i32; uid, gid of the owner, and of the creator; mode, u32 each; "
         "otime, ctime u64 each; how many semaphores, u32."],
        f"key i32, {OWNERS}, otime u64, ctime u64, nsems u32", 44),
    "the record of a System V segment": (
        ["IPC_STAT of a System V segment answers 68 bytes, in this order:", "| 4 | key i32 |",
         "| 20 | uid, gid of the owner; uid, gid of the creator; mode, u32 each |",
         "| 24 | atime, dtime, ctime u64 each, in milliseconds:", "| 8 | cpid, lpid, u32 each:",
         "| 4 | how many attachments it has, of all processes together, u32 |", "| 8 | how many bytes it has, u64 |"],
        f"key i32, {OWNERS}, atime u64, dtime u64, ctime u64, cpid u32, lpid u32, nattch u32, segsz u64", 68),
    "the attributes of a queue": (
        ["mq_getattr and mq_setattr answer 16 bytes, u32 each: flags, `maxmsg`, `msgsize`, and how many messages are "
         "in the queue."],
        "flags u32, maxmsg u32, msgsize u32, curmsgs u32", 16),
    "the record of a segment": (
        ["fstat of a segment of shm_open answers 20 bytes: how many bytes it has, u64; uid and gid of its owner, "
         "and its mode, u32 each."],
        "length u64, uid u32, gid u32, mode u32", 20),
    "a notification": (
        ["| 4 | length of what follows, 14 |", "| 4 | 0, in place of a serial |", "| 2 | 0, in place of an error |",
         "| 4 | the descriptor that registered |", "| 4 | the cookie |"],
        "fd u32, cookie u32", 8),
}  # fmt: skip
LAYOUTS["the attributes as they were before"] = LAYOUTS["the attributes of a queue"]
# HELLO's body: the pid alone, and from version 3 of the device on its version after it. The row of the table begins
# with the pid.
HELLO_BODY = "pid u32, version u32"
HEADS = [
    "All numbers are big-endian; signed numbers are in two's complement.",
    "| 4 | length of what follows, 5 to 65792 |",
    "| 4 | serial, not 0;",
    "| 1 | opcode |",
    "| 4 | length of what follows |\n| 4 | serial of the request; 0 for a fault that has none,",
    "| 2 | error number of errno(3) on Linux, 0 for success |",
]
# What `none` is of a time.
NO_TIME = "18446744073709551615 is no deadline."


class Field(NamedTuple):
    """A field and its type: `u32` and the like, `bytes` for the rest of a body, or a list of records to its end."""

    name: str
    type: str
    each: tuple[Field, ...] = ()


def fail(text: str) -> None:
    sys.exit(f"vectors: {text}")


def has(*sentences: str) -> None:
    for sentence in sentences:
        if sentence not in PROTOCOL:
            fail(f"docs/PROTOCOL.md does not say: {sentence}")


def fields(text: str) -> tuple[Field, ...]:
    """The fields of a cell of the table of requests."""
    text = re.sub(r"\[([^]]*)\]\([^)]*\)", r"\1", text).strip()
    layout = LAYOUTS.get(text.replace("POSIX ", ""))
    if layout:
        has(*layout[0])
        found = fields(layout[1])
        if sum(size_of(it.type) for it in found) != layout[2]:
            fail(f"{text} has another size than its layout")
        return found
    text, each = re.subn(r"(operations): (num u16, op i16, flags u16) each$", r"\1", text)
    operation = (Field("num", "u16"), Field("op", "i16"), Field("flags", "u16")) if each else ()
    text = text.replace("values, u16 each", "values")
    return tuple(field(it, operation) for it in text.split(", ") if it)


def field(words: str, operation: tuple[Field, ...]) -> Field:
    if words == "operations":
        return Field(words, "list", operation)
    if words == "values":
        return Field(words, "list", (Field("value", "u16"),))
    if words in ("text", "name", "the bytes"):
        return Field(words.removeprefix("the "), "bytes")
    found = re.fullmatch(r"(\w+) ([ui](?:8|16|32|64))", words)
    if not found:
        fail(f"what field is this? {words}")
    return Field(found[1], found[2])


@cache
def calls() -> dict[str, tuple[int, tuple[Field, ...], tuple[Field, ...]]]:
    """Of each name the opcode, the fields of the request, and those of the reply, by the table of requests."""
    rows = re.findall(r"(?m)^\| ([0-9a-f]{2}) \|[^|\n]*\|([^|\n]*)\|([^|\n]*)\|[^|\n]*\|$", PROTOCOL)
    opcodes = [row[0] for row in rows]
    if opcodes != list(NAMES):
        fail(f"the table of requests has other opcodes: {set(opcodes) ^ set(NAMES)}")
    return {NAMES[it]: (int(it, 16), fields(asked), body_of(NAMES[it], answer)) for it, asked, answer in rows}


def body_of(call: str, text: str) -> tuple[Field, ...]:
    """The fields of a reply's body, by its cell of the table of requests."""
    if call != "hello":
        return fields(text)
    if not text.strip().startswith(HELLO_BODY.split(",")[0]):
        fail(f"HELLO's body does not begin with the pid: {text}")
    has("On a device of version 3 the body has 8 bytes: the pid, and then the version, 3, u32.")
    return fields(HELLO_BODY)


@cache
def errors() -> dict[str, int]:
    """The error numbers, by the tables in which a row of numbers stands below a row of names."""
    found: dict[str, int] = {}
    for names, numbers in re.findall(r"(?m)^(\| E[A-Z0-9 |]*)\n\|[-|]*\n(\| [0-9][0-9 |]*)$", PROTOCOL):
        found |= zip(names.strip("| ").split(" | "), map(int, numbers.strip("| ").split(" | ")))
    return found


@cache
def flags() -> dict[str, int]:
    """The flags, by the table that has each with its bits."""
    part = PROTOCOL.partition("### Flags")[2].partition("###")[0]
    return {name: int(bits, 0) for name, bits in re.findall(r"\b([A-Z]+_[A-Z]+) (0x[0-9a-f]+|[0-9])\b", part)}


def size_of(kind: str) -> int:
    return int(kind[1:]) // 8


def number(text: str) -> int:
    """A number in words: decimal, octal after a 0, and flags by name, joined by `|`; `none` is no time."""
    if text == "none":
        has(NO_TIME, "A timeout of 18446744073709551615 is none")
        return 2**64 - 1
    total = 0
    for part in text.split("|"):
        if part[0].isupper():
            total |= flags()[part]
        else:
            total |= int(part, 8 if len(part) > 1 and part[0] == "0" else 10)
    return total


def encoded(kinds: tuple[Field, ...], words: list[str]) -> bytes:
    """The bytes of fields that are given in words, each by its name, in their order."""
    if [it.partition("=")[0] for it in words] != [it.name for it in kinds]:
        fail(f"{words} are not the fields {[it.name for it in kinds]}")
    data = b""
    for kind, word in zip(kinds, words):
        text = word.partition("=")[2]
        if kind.type == "bytes":
            data += unquote_to_bytes(text)
        elif kind.type == "list":
            for one in text.split(",") if text else []:
                data += b"".join(integer(it.type, part) for it, part in zip(kind.each, one.split(":"), strict=True))
        else:
            data += integer(kind.type, text)
    return data


def integer(kind: str, text: str) -> bytes:
    return number(text).to_bytes(size_of(kind), "big", signed=kind[0] == "i")


def request_frame(serial: int, words: list[str]) -> bytes:
    has(*HEADS)
    opcode, asked, _ = calls()[words[0]]
    body = serial.to_bytes(4, "big") + bytes([opcode]) + encoded(asked, words[1:])
    return len(body).to_bytes(4, "big") + body


def reply_frame(serial: int, call: str, words: list[str]) -> bytes:
    """The reply to a call, or a notification: an error by its name, `ok` for no body, or the fields of the body."""
    error, body = 0, b""
    if words[0] in errors():
        error = errors()[words[0]]
    elif words[0] == "notification":
        body = encoded(fields("a notification"), words[1:])
    else:
        kinds = calls()[call][2]
        body = encoded(kinds[: len(words)] if call == "hello" else kinds, [] if words == ["ok"] else words)
    rest = serial.to_bytes(4, "big") + error.to_bytes(2, "big") + body
    return len(rest).to_bytes(4, "big") + rest


class Row(NamedTuple):
    """A row of a session: a moment, a connection, and in words what it sends and what comes for it."""

    session: str
    moment: int
    connection: int
    request: str
    bytes: str
    reply: str
    reply_bytes: str
    # Which row's request brings the reply, counted from 0 over all rows: this one's, if no other is named. -1 if no
    # session makes a server send it.
    by: int


def rows(session: str, lines: list[str], first: int) -> Iterator[Row]:
    """The rows of a session, the first of which has this number. Requests of a connection are numbered from 1."""
    moment, serials = 0, dict.fromkeys(range(1, 20), 0)
    for line in lines:
        if line.startswith("@"):
            moment = int(line[1:])
            continue
        found = re.fullmatch(r"([0-9]+) (.*?) ?-> (.*?)(?: after ([+-][0-9]+)| (never))?", line)
        if not found:
            fail(f"what row is this? {line}")
        connection, request, reply = int(found[1]), found[2], found[3]
        call, serial, sent = request.split(" ")[0], 0, b""
        if call == "frame":
            # Bytes that no client sends, in hexadecimal digits, after their words in brackets; the serial of a fault
            # that has one is 00000063.
            request, digits = re.fullmatch(r"(frame \(.*\)) ([0-9a-f ]+)", request).groups()
            sent = bytes.fromhex(digits)
            serial = 0x63 if "00000063" in digits else 0
        elif request:
            serials[connection] += 1
            serial = serials[connection]
            sent = request_frame(serial, request.split(" "))
        if reply == "EIO" or reply.startswith("notification"):
            serial = 0
        answer = reply_frame(serial, call, reply.split(" "))
        by = -1 if found[5] else first + int(found[4] or 0)
        yield Row(session, moment, connection, request, sent.hex(), reply, answer.hex(), by)
        first += 1


def vectors() -> list[Row]:
    made: list[Row] = []
    for session, lines in SESSIONS.items():
        made += rows(session, lines, len(made))
    return made


def text() -> str:
    """The file: a row on a line, and no string with a quote or a backslash, so that a few lines of code read it."""
    lines = [json.dumps(it._asdict()) for it in vectors()]
    if any("\\" in it for it in lines):
        fail("a string has what JSON escapes")
    return "[\n" + ",\n".join(lines) + "\n]\n"


def script(session: str) -> str:
    """A session as a script of `ipcd replay --small`, or of `ipcd run`."""
    lines, opened = [], set()
    for row in vectors():
        if row.session != session or row.by < 0:
            continue
        if row.connection not in opened:
            opened.add(row.connection)
            lines.append(f"{row.moment} open {row.connection}")
        if row.bytes:
            lines.append(f"{row.moment} data {row.connection} {row.bytes}")
    return "".join(f"{it}\n" for it in lines)


def main() -> None:
    if sys.argv[1:2] == ["--script"]:
        sys.stdout.write(script(sys.argv[2]))
        return
    Path(sys.argv[1] if len(sys.argv) > 1 else FILE).write_text(text())


if __name__ == "__main__":
    main()
