"""The library for C on docs/vectors.json: each row is a call of out/tests/vectors, over a false server that compares
the request's bytes and answers the row's.

    python3 clients/c/tests/vectors.py

Left out is what the interface cannot say: HELLO, INTERRUPT, mq_notify and what is no request. A HELLO begins each
connection, and is compared too; it is answered as the rows of HELLO are, in turn. It takes some seconds.
"""

from __future__ import annotations

import errno
import json
import os
import socket
import struct
import subprocess
import sys
import tempfile
import threading
from pathlib import Path

sys.dont_write_bytecode = True

HERE = Path(__file__).resolve().parent
ROOT = HERE.parents[2]
PROGRAM = str(HERE.parent / "out/tests/vectors")
sys.path.insert(0, str(ROOT / "tools"))

import vectors  # noqa: E402

FEWEST = 200
LEFT_OUT = ("hello", "interrupt", "mq_notify", "frame", "")
OPENS = {0x28: b"/q", 0x32: b"/s", 0x3C: b"/m"}
SHMAT, SEM_STAT, FSTAT = 0x47, 0x1D, 0x41
Row = dict[str, str]


def check(holds: bool, text: str) -> None:
    if not holds:
        raise AssertionError(text)


def reply(serial: int, body: bytes) -> bytes:
    return struct.pack(">IIH", 6 + len(body), serial, 0) + body


class FalseServer:
    """Compares the request of a row, and what comes before it."""

    def __init__(self, path: str) -> None:
        self.row: Row = {}
        self.greeting = b""
        self.was_asked = False
        self.wrong = ""
        self._listening = socket.socket(socket.AF_UNIX, socket.SOCK_STREAM)
        self._listening.bind(path)
        self._listening.listen()
        threading.Thread(target=self._accept, daemon=True).start()

    def _accept(self) -> None:
        while True:
            connection, _ = self._listening.accept()
            with connection, connection.makefile("rb") as stream:
                hello = stream.read(17)
                wanted = vectors.request_frame(1, ["hello", f"uid={os.geteuid()}", f"gid={os.getegid()}"])
                if hello != wanted:
                    self.wrong = f"HELLO is {hello.hex()}, and not {wanted.hex()}"
                connection.sendall(self.greeting)
                while len(head := stream.read(9)) == 9:
                    length, serial, opcode = struct.unpack(">IIB", head)
                    connection.sendall(self._answer(serial, opcode, head + stream.read(length - 5)))

    def _answer(self, serial: int, opcode: int, frame: bytes) -> bytes:
        wanted = bytes.fromhex(self.row["bytes"])
        body = frame[9:]
        is_open = opcode in OPENS and body.endswith(OPENS[opcode]) and opcode != wanted[8]
        if is_open or (opcode == SHMAT and opcode != wanted[8]):
            return reply(serial, wanted[9:13])
        if opcode == SEM_STAT and opcode != wanted[8]:
            # As many semaphores as the row has values.
            values = max(len(wanted) - 13, 2 * self.row["reply"].count(",") + 2) // 2
            return reply(serial, bytes(40) + struct.pack(">I", values))
        if opcode == FSTAT and opcode != wanted[8]:
            # A read that is EINVAL is not one past the end: the segment is long.
            return reply(serial, struct.pack(">QIII", 2**62, 0, 0, 0))
        self.was_asked = True
        if frame[:4] + frame[8:] != wanted[:4] + wanted[8:]:
            self.wrong = f"the request is {frame.hex()}, and not {wanted.hex()}"
        answer = bytes.fromhex(self.row["reply_bytes"])
        return answer[:4] + serial.to_bytes(4, "big") + answer[8:]


def said(words: str) -> str:
    """A reply with numbers in decimal and texts in hexadecimal digits."""
    if words in vectors.errors():
        return str(getattr(errno, words))
    found = []
    for word in words.split(" "):
        name, _, value = word.partition("=")
        if name in ("text", "bytes"):
            found.append(f"{name}={vectors.unquote_to_bytes(value).hex()}")
        elif value and name != "values":
            found.append(f"{name}={vectors.number(value) if value[0] != '-' else value}")
        else:
            found.append(word)
    return " ".join(found)


def is_sayable(row: Row) -> bool:
    """Attributes below 0 are 0 on the wire, a semaphore's name gets its slash, and a handle is closed here whatever the
    server answers."""
    request = row["request"]
    if request.split(" ")[0] in LEFT_OUT or "msgsize=-1" in request or request == "sem_unlink name=":
        return False
    return not (request.startswith(("close", "shmdt")) and row["reply"] != "ok")


def main() -> None:
    every = json.loads(vectors.FILE.read_text())
    rows = [row for row in every if is_sayable(row)]
    greetings = [row for row in every if row["request"].startswith("hello ") and row["reply"].startswith("pid=")]
    # What comes after the pid: nothing, or the version; and of a later server what nobody knows yet.
    after = sorted({row["reply_bytes"][28:] for row in greetings} | {"0000000401"})
    check(after == ["", "00000003", "0000000401"], f"{after} are after the pid")
    asked = 0
    with tempfile.TemporaryDirectory() as folder:
        path = os.path.join(folder, "socket")
        server = FalseServer(path)
        for number, row in enumerate(rows):
            server.row, server.was_asked, server.wrong = row, False, ""
            # No pid of a vector: the library shows what it is at the system.
            server.greeting = reply(1, struct.pack(">I", 99) + bytes.fromhex(after[number % len(after)]))
            words = [PROGRAM, *row["request"].split(" ")]
            ended = subprocess.run(words, capture_output=True, text=True, env={**os.environ, "IPCD_SOCKET": path})
            check((ended.returncode, ended.stderr) == (0, ""), f"{row}: {ended}")
            check(server.wrong == "", f"{row['request']}: {server.wrong}")
            wanted = said(row["reply"])
            if "open" in words[1] or words[1] == "shmat":
                wanted = wanted if wanted.isdigit() else "opened"
            check(ended.stdout.strip() == wanted, f"{row['request']}: {ended.stdout.strip()}, and not {wanted}")
            # What is refused without a request is refused so by the server too.
            check(server.was_asked or row["reply"] in vectors.errors(), f"{row['request']}: nothing is asked")
            asked += server.was_asked
    check(asked >= FEWEST, f"{asked} requests are few")
    print(f"clients in C: {len(rows)} vectors, {asked} of them asked of a server")


if __name__ == "__main__":
    main()
