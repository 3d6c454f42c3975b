"""The connections of this package on docs/vectors.json, the plain one and that of asyncio: each method sends the bytes
of its request, and reads its reply. A false server at a socket compares and answers.

    python3 clients/python/tests/vectors.py PROGRAM

No program is run. Numbers and texts of the words are read here, and never by tools/vectors.py.
"""

from __future__ import annotations

import asyncio
import errno
import json
import os
import socket
import sys
import threading
from collections.abc import Callable
from types import SimpleNamespace
from typing import Any, Optional
from urllib.parse import unquote_to_bytes

import setting
import ipcd
from ipcd import MqAttr, aio, connection
from server import check, in_a_folder

FILE = setting.PACKAGE.parent.parent / "docs/vectors.json"
FEWEST, SECONDS = 150, 20
Row = dict[str, str]
TEXTS = ("text", "bytes", "name")


class Words:
    """The words of a request or a reply, by the names of the fields."""

    def __init__(self, text: str) -> None:
        self._words = dict(word.split("=", 1) for word in text.split(" ") if "=" in word)

    def __getattr__(self, name: str) -> Any:
        text = self._words[name]
        if name in TEXTS:
            return unquote_to_bytes(text)
        if name in ("deadline", "timeout"):
            return None if text == "none" else number(text) / 1000
        if name in ("values", "operations"):
            numbers = [tuple(number(part) for part in it.split(":")) for it in text.split(",") if it]
            return numbers if name == "operations" else [it[0] for it in numbers]
        return number(text)

    def all(self) -> list[Any]:
        return [getattr(self, name) for name in self._words]


def number(text: str) -> int:
    total = 0
    for part in text.split("|"):
        if part[0].isalpha():
            total |= getattr(ipcd, part)
        else:
            total |= int(part, 8 if len(part) > 1 and part[0] == "0" else 10)
    return total


def attributes(w: Words) -> Optional[MqAttr]:
    return MqAttr(maxmsg=w.maxmsg, msgsize=w.msgsize) if w.attr else None


# Of each call how its method is called: with the words of the request. The others have the fields as arguments, in
# their order. A deadline is a timeout from the moment 0, as the clock of this test has it.
CALLS: dict[str, Callable[[Any, Words], Any]] = {
    "close": lambda c, w: c.mq_close(w.fd),
    "msgsnd": lambda c, w: c.msgsnd(w.id, w.type, w.text, w.flags),
    "msgrcv": lambda c, w: c.msgrcv(w.id, w.size, w.type, w.flags),
    "semop": lambda c, w: c.semop(w.id, w.operations, w.timeout),
    "mq_open": lambda c, w: c.mq_open(w.name, w.flags, w.mode, attributes(w)),
    "mq_send": lambda c, w: c.mq_send(w.fd, w.text, w.priority, w.deadline),
    "mq_receive": lambda c, w: c.mq_receive(w.fd, w.size, w.deadline),
    "sem_open": lambda c, w: c.sem_open(w.name, w.flags, w.mode, w.value),
    "shm_open": lambda c, w: c.shm_open(w.name, w.flags, w.mode),
}


def begin(of: Any, row: Row) -> Any:
    """Makes the call of a row, or another one, where a client sends no such request."""
    name = row["request"].split(" ")[0]
    if name == "frame":
        return of.msgget(1, 0)
    words = Words(row["request"])
    return CALLS[name](of, words) if name in CALLS else getattr(of, name)(*words.all())


def told(of: Any, row: Row, answer: Any) -> Any:
    """What a call answers, and after HELLO the version, if the server has told one."""
    return (answer, of.version) if row["request"].startswith("hello ") and of.version is not None else answer


def flat(value: Any) -> list[Any]:
    """What a call answers, as the list of its fields."""
    return [] if value is None else list(value) if isinstance(value, tuple) else [value]


class FalseServer:
    def __init__(self) -> None:
        self._listening = socket.socket(socket.AF_UNIX, socket.SOCK_STREAM)
        self._listening.bind("socket")
        self._listening.listen()
        self.row: Row = {}
        self.wrong = ""
        threading.Thread(target=self._accept, daemon=True).start()

    def _accept(self) -> None:
        while True:
            client, _ = self._listening.accept()
            with client, client.makefile("rb") as stream:
                wanted, reply = (bytes.fromhex(self.row[it]) for it in ("bytes", "reply_bytes"))
                if self.row["request"]:
                    head = stream.read(4)
                    rest = stream.read(int.from_bytes(head, "big"))
                    is_frame = self.row["request"].startswith("frame ")
                    if not is_frame and head + rest[4:] != wanted[:4] + wanted[8:]:
                        self.wrong = f"it sends {(head + rest).hex()}, and not {wanted.hex()}"
                    if any(reply[4:8]):
                        reply = reply[:4] + rest[:4] + reply[8:]
                client.sendall(reply)
                stream.read(1)


def plain(row: Row) -> Any:
    with ipcd.Connection("socket", timeout=SECONDS) as of:
        if row["request"] == "":
            return of.notification()
        if row["request"] != "interrupt":
            return told(of, row, begin(of, row))
        # Its reply is for nobody: it is read by whoever reads next.
        of.interrupt()
        while of._interrupts:
            reply = of.next_reply()
            if reply is not None:
                of.answer(reply[0], reply)
        return None


async def asynchronous(row: Row) -> Any:
    async with await aio.Connection.connect("socket") as of:
        answer = await asyncio.wait_for(of.notification() if row["request"] == "" else begin(of, row), SECONDS)
        return told(of, row, answer)


# What no server sends: the client ends the connection. Each is the answer to a msgget of serial 1.
STRANGE = [
    *("0000000a0000000200000000000001", "000000090000000100000000ff", "0000000b00000001000000000001ff"),
    *("0000000a0000000100110000000b", "00000005000000010000", "00010101000000010000", "000000070000000000000000"),
]


async def strange_replies() -> None:
    """ipcd.aio on these; tests/false_server.py tries the plain connection."""

    async def answer(reader: asyncio.StreamReader, writer: asyncio.StreamWriter) -> None:
        await reader.readexactly(17)
        writer.write(bytes.fromhex(digits))
        await reader.read()
        writer.close()

    server = await asyncio.start_unix_server(answer, "strange")
    for digits in STRANGE:
        async with await aio.Connection.connect("strange") as of:
            for call in (of.msgget(1, 0), of.interrupt()):
                try:
                    await asyncio.wait_for(call, SECONDS)
                    check(False, f"{digits} is a reply")
                except ipcd.ProtocolError:
                    check(of.closed, f"{digits}: the connection is open")
    server.close()


# The bodies of replies to HELLO, and what each says; one without a pid is none. Nobody knows yet what comes after the
# version.
GREETINGS = {
    **{"": "", "000007": "", "00000007": "pid=7", "0000000700": "pid=7", "00000007000000": "pid=7"},
    **{"0000000700000003": "pid=7 version=3", "00000007000000040a0b0c0d0e": "pid=7 version=4"},
}


def greetings(server: FalseServer, call: Callable[[Row], Any]) -> None:
    for body, words in GREETINGS.items():
        reply = f"{6 + len(body) // 2:08x}000000010000{body}"
        sent = "0000000d0000000101000003e800000064"
        server.row = {"request": "hello uid=1000 gid=100", "bytes": sent, "reply": words, "reply_bytes": reply}
        if words:
            tried(server.row, call)
            continue
        try:
            check(False, f"{reply}: {call(server.row)} is answered")
        except ipcd.ProtocolError:
            continue


def tried(row: Row, call: Callable[[Row], Any]) -> None:
    try:
        found = flat(call(row))
    except OSError as refusal:
        check(errno.errorcode[refusal.errno or 0] == row["reply"], f"{row}: {refusal!r}")
        is_last = row["reply"] in ("EPROTO", "EIO")
        check(isinstance(refusal, ipcd.ServerFault) == is_last, f"{row}: {refusal!r}")
        return
    wanted = Words(row["reply"]).all()
    check("=" in row["reply"] or row["reply"] == "ok", f"{row}: {found}, and no refusal")
    check(found == wanted, f"{row}: {found}, and not {wanted}")


def main() -> None:
    rows = json.loads(FILE.read_text())
    check(len(rows) >= FEWEST, f"{len(rows)} rows are few")
    connection.time = SimpleNamespace(time=lambda: 0)  # type: ignore[assignment]
    server = FalseServer()
    for call in (plain, lambda row: asyncio.run(asynchronous(row))):
        for row in rows:
            server.row = row
            tried(row, call)
            check(server.wrong == "", f"{row}: {server.wrong}")
        greetings(server, call)
    asyncio.run(strange_replies())
    print(f"vectors: {len(rows)} rows, by the plain connection and by that of asyncio")


if __name__ == "__main__":
    with in_a_folder(600):
        main()
        os.remove("socket")
        sys.stdout.flush()
