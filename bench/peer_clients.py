"""Clients of the servers that bench/peers.py measures, each in that server's own words. A client sends a message of 64
bytes and receives it again, in turns, under a name of its own, with so many operations in flight on one connection.
Every byte of every reply is compared."""

from __future__ import annotations

import socket
import struct
import sys
from collections import deque
from pathlib import Path

sys.path.insert(0, str(Path(__file__).resolve().parent.parent / "examples"))
sys.dont_write_bytecode = True

from client import IPC_CREAT, IPC_NOWAIT, hello_request, msgget_request, msgrcv_request, msgsnd_request  # noqa: E402

TEXT = 64
PIECE = 8192
# Seconds: a server that says nothing for so long has failed.
PATIENCE = 20
QUEUES = 30

# When operations were begun, and how many of that moment are done.
Done = list[tuple[float, int]]
# A request, and the reply that is wanted.
Exchange = tuple[bytes, bytes]


def text_of(number: int) -> bytes:
    """What this client sends."""
    return bytes([ord("a") + number % 26]) * TEXT


class Connection:
    """A connection to a server's socket. What is asked and taken is of the classes below."""

    def __init__(self, address: str, number: int) -> None:
        self.number = number
        self.text = text_of(number)
        self.socket = socket.socket(socket.AF_UNIX)
        self.socket.settimeout(PATIENCE)
        self.socket.connect(address)

    def fileno(self) -> int:
        return self.socket.fileno()

    def close(self) -> None:
        self.socket.close()

    def read(self, size: int) -> bytes:
        """The next so many bytes."""
        data = b""
        while len(data) < size:
            data += self.more(size - len(data))
        return data

    def more(self, most: int = PIECE) -> bytes:
        data = self.socket.recv(most)
        if not data:
            raise ConnectionError(f"{type(self).__name__}: the server has ended a connection")
        return data

    def wanted(self, data: bytes, reply: bytes) -> None:
        if data != reply:
            raise ValueError(f"{type(self).__name__}: {data!r} comes, and not {reply!r}")

    def ask(self, count: int, now: float) -> None:
        """Begins so many operations more, at this moment."""
        raise NotImplementedError

    def take(self) -> Done:
        """Reads what has come, and answers what is done with it."""
        raise NotImplementedError


class Alternating(Connection):
    """A client whose two requests and their replies are the same bytes each time."""

    def __init__(self, address: str, number: int) -> None:
        super().__init__(address, number)
        (send, sent), (receive, received) = self.exchanges()
        self.send, self.sent = len(send), len(sent)
        self.requests, self.request_pair = (send + receive) * 64, len(send + receive)
        self.reply_pair = len(sent + received)
        self.replies = (sent + received) * (PIECE // self.reply_pair + 2)
        self.begun: deque[tuple[float, int]] = deque()
        self.asked = self.got = 0

    def exchanges(self) -> tuple[Exchange, Exchange]:
        """Makes what is needed, and answers how a message is sent and how it is received."""
        raise NotImplementedError

    def place(self, count: int) -> int:
        """How many bytes so many requests have, of which the first sends."""
        return count // 2 * self.request_pair + count % 2 * self.send

    def ask(self, count: int, now: float) -> None:
        first = self.asked % 2
        self.socket.sendall(self.requests[self.place(first) : self.place(first + count)])
        self.asked += count
        self.begun.append((now, count))

    def done(self) -> int:
        """How many replies are there whole."""
        return self.got // self.reply_pair * 2 + (self.got % self.reply_pair >= self.sent)

    def take(self) -> Done:
        data = self.more()
        at = self.got % self.reply_pair
        self.wanted(data, self.replies[at : at + len(data)])
        before = self.done()
        self.got += len(data)
        return self.first(self.done() - before)

    def first(self, count: int) -> Done:
        """The first so many of those that were begun."""
        done = []
        while count:
            stamp, many = self.begun.popleft()
            if many > count:
                self.begun.appendleft((stamp, many - count))
            done.append((stamp, min(many, count)))
            count -= min(many, count)
        return done


class Ipcd(Alternating):
    """msgsnd and msgrcv, 30 queues for all clients, and a type of its own for each."""

    def exchanges(self) -> tuple[Exchange, Exchange]:
        self.call(hello_request(1000, 100))
        queue = struct.unpack(">I", self.call(msgget_request(1 + self.number % QUEUES, IPC_CREAT | 0o600)))[0]
        mtype = 1 + self.number
        send = msgsnd_request(queue, mtype, self.text, IPC_NOWAIT)
        receive = msgrcv_request(queue, TEXT, mtype, IPC_NOWAIT)
        body = struct.pack(">q", mtype) + self.text
        return (self.frame(send), self.reply(b"")), (self.frame(receive), self.reply(body))

    def frame(self, request: bytes) -> bytes:
        """Serials need not differ, and here they are all 1."""
        return struct.pack(">II", 4 + len(request), 1) + request

    def reply(self, body: bytes) -> bytes:
        return struct.pack(">IIH", 6 + len(body), 1, 0) + body

    def call(self, request: bytes) -> bytes:
        self.socket.sendall(self.frame(request))
        body = self.read(struct.unpack(">I", self.read(4))[0])
        self.wanted(body[:6], struct.pack(">IH", 1, 0))
        return body[6:]


class Redis(Alternating):
    """RPUSH and LPOP on a list of its own, which has at most one element whenever a reply is there."""

    def exchanges(self) -> tuple[Exchange, Exchange]:
        key = b"list %d" % self.number
        push = self.command(b"RPUSH", key, self.text), b":1\r\n"
        return push, (self.command(b"LPOP", key), self.bulk(self.text))

    def bulk(self, text: bytes) -> bytes:
        return b"$%d\r\n%b\r\n" % (len(text), text)

    def command(self, *words: bytes) -> bytes:
        return b"*%d\r\n" % len(words) + b"".join(map(self.bulk, words))


class Postgres(Alternating):
    """An INSERT, and a DELETE of the earliest row of its own, each prepared and each a transaction."""

    TABLE = (
        "CREATE TABLE messages (id bigserial PRIMARY KEY, kind integer NOT NULL, text text NOT NULL);"
        "CREATE INDEX ON messages (kind, id)"
    )
    SEND = "INSERT INTO messages (kind, text) VALUES ($1, $2)"
    RECEIVE = (
        "DELETE FROM messages WHERE id = (SELECT id FROM messages WHERE kind = $1 ORDER BY id LIMIT 1"
        " FOR UPDATE SKIP LOCKED) RETURNING text"
    )

    def exchanges(self) -> tuple[Exchange, Exchange]:
        self.log_in()
        for name, text in (("send", self.SEND), ("receive", self.RECEIVE)):
            self.socket.sendall(self.message(b"P", f"{name}\0{text}\0".encode() + bytes(2)) + self.message(b"S"))
            self.until_ready()
        kind = b"%d" % self.number
        bound, ready = self.message(b"2"), self.message(b"Z", b"I")
        row = self.message(b"D", struct.pack(">HI", 1, TEXT) + self.text)
        sent = bound + self.message(b"C", b"INSERT 0 1\0") + ready
        received = bound + row + self.message(b"C", b"DELETE 1\0") + ready
        return (self.execute(b"send", kind, self.text), sent), (self.execute(b"receive", kind), received)

    def log_in(self) -> None:
        words = b"user\0bench\0database\0postgres\0\0"
        self.socket.sendall(struct.pack(">II", 8 + len(words), 196608) + words)
        self.until_ready()

    def message(self, kind: bytes, body: bytes = b"") -> bytes:
        return kind + struct.pack(">I", 4 + len(body)) + body

    def execute(self, name: bytes, *parameters: bytes) -> bytes:
        values = b"".join(struct.pack(">I", len(it)) + it for it in parameters)
        bind = b"\0" + name + bytes(3) + struct.pack(">H", len(parameters)) + values + bytes(2)
        return self.message(b"B", bind) + self.message(b"E", bytes(5)) + self.message(b"S")

    def until_ready(self) -> None:
        """Reads up to the server's word that it is ready for the next."""
        kind = b""
        while kind != b"Z":
            kind, size = struct.unpack(">cI", self.read(5))
            body = self.read(size - 4)
            if kind == b"E":
                raise ConnectionError(body.replace(b"\0", b" ").decode())


class TableMaker(Postgres):
    """Makes the table, and does no more."""

    def exchanges(self) -> tuple[Exchange, Exchange]:
        self.log_in()
        self.socket.sendall(self.message(b"Q", f"DROP TABLE IF EXISTS messages;{self.TABLE}\0".encode()))
        self.until_ready()
        return (b"-", b"-"), (b"-", b"-")


class Beanstalk(Connection):
    """put, and reserve with delete, in a tube of its own. A message is received once its delete is answered."""

    def __init__(self, address: str, number: int) -> None:
        super().__init__(address, number)
        self.socket.sendall(b"use %d\r\nwatch %d\r\nignore default\r\n" % (number, number))
        wanted = b"USING %d\r\nWATCHING 2\r\nWATCHING 1\r\n" % number
        self.wanted(self.read(len(wanted)), wanted)
        self.put = b"put 0 0 600 %d\r\n%b\r\n" % (TEXT, self.text)
        self.unread = b""
        # The first word of each reply that is to come, and when its operation was begun.
        self.begun: deque[tuple[bytes, float]] = deque()
        self.asked = 0

    def ask(self, count: int, now: float) -> None:
        requests = []
        for _ in range(count):
            sends = self.asked % 2 == 0
            requests.append(self.put if sends else b"reserve\r\n")
            self.begun.append((b"INSERTED" if sends else b"RESERVED", now))
            self.asked += 1
        self.socket.sendall(b"".join(requests))

    def take(self) -> Done:
        self.unread += self.more()
        done, deletes = [], []
        while reply := self.reply():
            word, stamp = self.begun.popleft()
            self.wanted(reply[0], word)
            if word == b"RESERVED":
                deletes.append(b"delete %b\r\n" % reply[1])
                self.begun.append((b"DELETED", stamp))
            else:
                done.append((stamp, 1))
        if deletes:
            self.socket.sendall(b"".join(deletes))
        return done

    def reply(self) -> list[bytes]:
        """The words of the next reply, if it is there whole."""
        line, end, rest = self.unread.partition(b"\r\n")
        words = line.split()
        if end and words[0] == b"RESERVED":
            if len(rest) < TEXT + 2:
                return []
            self.wanted(rest[: TEXT + 2], self.text + b"\r\n")
            rest = rest[TEXT + 2 :]
        if not end:
            return []
        self.unread = rest
        return words
