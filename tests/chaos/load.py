"""A client that makes random calls, and writes down each before it sends it and each reply after it has read it. It
runs in a process of its own, which may be killed at any moment: what it has written by then is its history."""

from __future__ import annotations

import errno
import json
import mmap
import os
import random
import struct
import time
from collections.abc import Callable
from pathlib import Path

import models
import client as calls
from client import Connection, MqAttr

# What is used by all clients: two of most kinds. The ledgers only grow, until the end of a run.
THINGS = ["msg:1", "msg:2", "sem:3", "sem:4", "seg:5", "seg:6"]
THINGS += ["pmq:/a", "pmq:/b", "psm:/c", "psm:/d", "shm:/e", "shm:/f"]
LEDGERS = ["msg:100", "msg:101"]
SETTLED = 0.1
# Each thing has so many users: the orders that the judge has to try grow with those who call at one time.
SLOTS, USERS = 8, (0, 3, 5)
CREATE, CREATE_RDWR = models.IPC_CREAT | 0o600, models.O_CREAT | 2
OPENING = {"get", "open", "at"}


def now() -> int:
    return time.monotonic_ns()


class Shared:
    """The number of the life of which the clients use the socket, or 0. It is in memory of all processes."""

    def __init__(self) -> None:
        self.place = mmap.mmap(-1, 8)

    def put(self, number: int) -> None:
        self.place[:8] = struct.pack("=q", number)

    def get(self) -> int:
        return struct.unpack("=q", self.place[:8])[0]


def text_of(data: bytes) -> str:
    return data.decode("latin-1")


def past(over: bool, seconds: float) -> float:
    return 0.001 if over else time.time() + seconds


def request_of(thing: str, call: str, a: tuple) -> bytes:
    """The request of a call as it is written down. A deadline is 20 ms from now, or over."""
    kind, _, name = thing.partition(":")
    return globals()["request_" + kind](name, call, a)


def request_msg(name: str, call: str, a: tuple) -> bytes:
    return {
        "get": lambda: calls.msgget_request(int(name), *a),
        "snd": lambda: calls.msgsnd_request(a[0], a[2], a[3].encode("latin-1"), a[1]),
        "rcv": lambda: calls.msgrcv_request(a[0], a[2], a[3], a[1]),
        "stat": lambda: calls.msgctl_stat_request(*a),
        "set": lambda: calls.msgctl_set_request(a[0], 1000, 100, 0o600, a[1]),
        "rmid": lambda: calls.msgctl_rmid_request(*a),
    }[call]()


def request_sem(name: str, call: str, a: tuple) -> bytes:
    return {
        "get": lambda: calls.semget_request(int(name), models.Set.SIZE, *a),
        "op": lambda: calls.semop_request(a[0], a[1], None if a[2] is None else a[2] / 1000),
        "getall": lambda: calls.semctl_getall_request(*a),
        "getval": lambda: calls.semctl_getval_request(*a),
        "getpid": lambda: calls.semctl_getpid_request(*a),
        "setval": lambda: calls.semctl_setval_request(*a),
        "setall": lambda: calls.semctl_setall_request(*a),
        "rmid": lambda: calls.semctl_rmid_request(*a),
    }[call]()


def request_seg(name: str, call: str, a: tuple) -> bytes:
    return {
        "get": lambda: calls.shmget_request(int(name), models.SystemSegment.SIZE, *a),
        "at": lambda: calls.shmat_request(*a),
        "dt": lambda: calls.shmdt_request(*a),
        "read": lambda: calls.attached_read_request(*a),
        "write": lambda: calls.attached_write_request(a[0], a[1], a[2].encode("latin-1")),
        "stat": lambda: calls.shmctl_stat_request(*a),
        "rmid": lambda: calls.shmctl_rmid_request(*a),
    }[call]()


def request_pmq(name: str, call: str, a: tuple) -> bytes:
    return {
        "open": lambda: calls.mq_open_request(name, a[0], 0o600, MqAttr(0, a[1], 64)),
        "send": lambda: calls.mq_send_request(a[0], a[2].encode("latin-1"), a[1], past(a[3], 0.02)),
        "recv": lambda: calls.mq_receive_request(a[0], 64, past(a[1], 0.02)),
        "attr": lambda: calls.mq_getattr_request(*a),
        "close": lambda: calls.close_request(*a),
        "unlink": lambda: calls.mq_unlink_request(name),
    }[call]()


def request_psm(name: str, call: str, a: tuple) -> bytes:
    return {
        "open": lambda: calls.sem_open_request(name, a[0], 0o600, a[1]),
        "post": lambda: calls.sem_post_request(*a),
        "wait": lambda: calls.sem_wait_request(a[0], past(a[1], 0.02)),
        "trywait": lambda: calls.sem_trywait_request(*a),
        "value": lambda: calls.sem_getvalue_request(*a),
        "close": lambda: calls.close_request(*a),
        "unlink": lambda: calls.sem_unlink_request(name),
    }[call]()


def request_shm(name: str, call: str, a: tuple) -> bytes:
    return {
        "open": lambda: calls.shm_open_request(name, a[0], 0o600),
        "truncate": lambda: calls.ftruncate_request(*a),
        "read": lambda: calls.shm_read_request(*a),
        "write": lambda: calls.shm_write_request(a[0], a[1], a[2].encode("latin-1")),
        "stat": lambda: calls.shm_stat_request(*a),
        "close": lambda: calls.close_request(*a),
        "unlink": lambda: calls.shm_unlink_request(name),
    }[call]()


def value_of(thing: str, call: str, body: bytes):
    """What a reply's body says, as docs/PROTOCOL.md has it."""
    kind = thing.partition(":")[0]
    if call in OPENING or call in ("getval", "getpid", "value"):
        return int.from_bytes(body, "big")
    if (kind, call) == ("msg", "rcv"):
        return struct.unpack(">q", body[:8])[0], text_of(body[8:])
    if (kind, call) == ("msg", "stat"):
        record = struct.unpack(">iIIIIIQQQIIIII", body)
        return record[12], record[13], record[11], record[9], record[10]
    if (kind, call) == ("seg", "stat"):
        record = struct.unpack(">iIIIIIQQQIIIQ", body)
        return record[11], record[12], bool(record[5] & 512)
    if call == "getall":
        return struct.unpack(f">{len(body) // 2}H", body)
    if call == "recv":
        return int.from_bytes(body[:4], "big"), text_of(body[4:])
    if call == "attr":
        record = struct.unpack(">IIII", body)
        return record[1], record[3]
    if (kind, call) == ("shm", "stat"):
        return int.from_bytes(body[:8], "big")
    if call == "read":
        return text_of(body)
    return None if body == b"" else body.hex()


class Client:
    """One client, over as many connections as lives and closes make of it."""

    def __init__(self, number: int, slot: int, seed: str, shared: Shared, history: int) -> None:
        self.number = number
        self.things = [it for place, it in enumerate(THINGS) if (slot - place) % SLOTS in USERS]
        self.rng = random.Random(f"{seed} client {number}")
        self.shared = shared
        self.history = history
        self.count = 0
        self.connections = 0
        self.ledger = 0

    def note(self, *what: object) -> None:
        os.write(self.history, (json.dumps(what) + "\n").encode())

    def run(self) -> None:
        """Uses one life after the other."""
        while True:
            life = self.shared.get()
            if not life:
                time.sleep(0.002)
                continue
            try:
                self.use(life)
            except (ConnectionError, FileNotFoundError):
                time.sleep(0.003)

    def use(self, life: int) -> None:
        """A connection, until it ends, or the client ends it."""
        with Connection(f"socket.{life}", 20) as connection:
            self.begin(connection, life)
            for _ in range(self.rng.choice([5, 50, 500])):
                self.turn(connection)
            self.note("x", self.name, life, now())

    def begin(self, connection: Connection, life: int) -> None:
        """A HELLO. Numbers of calls rise over all connections of a client."""
        self.connections += 1
        self.name = f"{self.number}.{self.connections}"
        self.note("c", self.name, life, now())
        try:
            pid = connection.hello(1000, 100)
        except OSError as refusal:
            if refusal.errno != errno.ENOMEM:
                raise
            raise ConnectionError("no memory for a HELLO") from refusal
        self.note("h", self.name, life, now(), pid)
        self.ids: dict[str, list[int]] = {}
        self.held: dict[str, list[int]] = {}

    # ---- which calls

    def turn(self, connection: Connection) -> None:
        """Some calls that do not wait, sent ahead, or one that may."""
        kind = self.rng.random()
        if kind < 0.04:
            self.ahead(connection, self.rng.randint(2, 6), self.to_ledger)
        elif kind < 0.93:
            self.ahead(connection, self.rng.choice([1, 1, 2, 3]), lambda: self.choose(False))
        else:
            self.alone(connection, *self.choose(True))

    def to_ledger(self) -> tuple:
        self.ledger += 1
        thing = LEDGERS[self.ledger % 2]
        return (thing, "get", (CREATE,)) if thing not in self.ids else self.text_for(thing)

    def text_for(self, thing: str) -> tuple:
        text = f"{self.number}:{self.ledger}" + self.rng.choice([0, 0, 0, 150]) * "."
        return thing, "snd", (self.ids[thing][-1], models.IPC_NOWAIT, 1, text)

    def unique(self, size: int = 0) -> str:
        text = f"{self.number}.{self.count}.{self.rng.randrange(100)}"
        return text[:size].ljust(size, "_") if size else text

    def choose(self, may_wait: bool) -> tuple:
        """A call on one of its things: half of them on the one that all its users prefer in this moment."""
        preferred = THINGS[int(time.monotonic() / 0.1) % len(THINGS)]
        thing = preferred if preferred in self.things and self.rng.random() < 0.5 else self.rng.choice(self.things)
        kind = thing.partition(":")[0]
        if kind in ("msg", "sem", "seg") and (thing not in self.ids or self.rng.random() < 0.02):
            flags = self.rng.choice([CREATE, CREATE, CREATE, CREATE | models.IPC_EXCL, 0])
            return thing, "get", (flags,)
        if kind in ("pmq", "psm", "shm") and (not self.held.get(thing) or self.rng.random() < 0.02):
            return thing, "open", self.opening(thing, kind)
        return getattr(self, "of_" + kind)(thing, may_wait)

    def opening(self, thing: str, kind: str) -> tuple:
        flags = self.rng.choice([CREATE_RDWR, CREATE_RDWR, CREATE_RDWR | models.O_EXCL, 2])
        if kind == "pmq":
            return flags | self.rng.choice([0, models.O_NONBLOCK]), self.rng.randint(1, 5)
        if kind == "psm":
            return flags, self.rng.randint(0, 2)
        return (flags | self.rng.choice([0, 0, 0, models.O_TRUNC]),)

    def of_msg(self, thing: str, may_wait: bool) -> tuple:
        ident, rng = self.ids[thing][-1], self.rng
        flags = 0 if may_wait else models.IPC_NOWAIT
        choice = rng.random()
        if choice < 0.42:
            return thing, "snd", (ident, flags, rng.randint(1, 3), self.unique())
        if choice < 0.84:
            mtype = rng.choice([0, 0, 1, 2, 3, -2])
            flags |= rng.choice([0, models.MSG_NOERROR])
            flags |= models.MSG_EXCEPT if mtype > 0 and rng.random() < 0.3 else 0
            return thing, "rcv", (ident, flags, rng.choice([64, 64, 64, 5]), mtype)
        if choice < 0.92:
            return thing, "stat", (ident,)
        return (thing, "set", (ident, rng.choice([60, 100, 200]))) if choice < 0.985 else (thing, "rmid", (ident,))

    def of_sem(self, thing: str, may_wait: bool) -> tuple:
        ident, rng = self.ids[thing][-1], self.rng
        choice = rng.random()
        if choice < 0.6:
            flags = (models.SEM_UNDO if rng.random() < 0.5 else 0) | (0 if may_wait else models.IPC_NOWAIT)
            amounts = rng.choices([-2, -1, 0, 1, 2], [1, 2, 1, 2, 1], k=rng.choice([1, 1, 2, 3]))
            operations = tuple((rng.randrange(3), amount, flags) for amount in amounts)
            return thing, "op", (ident, operations, rng.choice([0, 5, 20, None]) if may_wait else None)
        if choice < 0.8:
            return thing, "getall", (ident,)
        if choice < 0.95:
            return thing, rng.choice(["getval", "getpid"]), (ident, rng.randrange(3))
        if choice < 0.97:
            return thing, "setval", (ident, rng.randrange(3), rng.choice([0, 1, 5, 32766]))
        return (thing, "setall", (ident, (1, 2, 3))) if choice < 0.99 else (thing, "rmid", (ident,))

    def of_seg(self, thing: str, may_wait: bool) -> tuple:
        ident, rng, held = self.ids[thing][-1], self.rng, self.held.get(thing, [])
        choice = rng.random()
        if not held or (choice < 0.04 and len(held) < 3):
            return thing, "at", (ident,)
        place = held[-1]
        if choice < 0.4:
            return thing, "write", (place, 8 * rng.randrange(9), self.unique(rng.choice([8, 16])))
        if choice < 0.85:
            return thing, "read", (place, 8 * rng.randrange(8), rng.choice([8, 16, 64]))
        if choice < 0.95:
            return thing, "stat", (ident,)
        return (thing, "rmid", (ident,)) if choice < 0.96 else (thing, "dt", (held.pop(0),))

    def of_pmq(self, thing: str, may_wait: bool) -> tuple:
        rng, held = self.rng, self.held[thing]
        choice = rng.random()
        if choice < 0.45:
            return thing, "send", (held[-1], rng.randrange(3), self.unique(), not may_wait)
        if choice < 0.88:
            return thing, "recv", (held[-1], not may_wait)
        return (thing, "attr", (held[-1],)) if choice < 0.97 else self.ends(thing)

    def of_psm(self, thing: str, may_wait: bool) -> tuple:
        rng, held = self.rng, self.held[thing]
        choice = rng.random()
        if choice < 0.4:
            return thing, "post", (held[-1],)
        if choice < 0.75:
            return (thing, "wait", (held[-1], False)) if may_wait else (thing, "trywait", (held[-1],))
        return (thing, "value", (held[-1],)) if choice < 0.97 else self.ends(thing)

    def of_shm(self, thing: str, may_wait: bool) -> tuple:
        rng, held = self.rng, self.held[thing]
        choice = rng.random()
        if choice < 0.1:
            return thing, "truncate", (held[-1], 8 * rng.randrange(9))
        if choice < 0.45:
            return thing, "write", (held[-1], 8 * rng.randrange(8), self.unique(rng.choice([8, 16])))
        if choice < 0.85:
            return thing, "read", (held[-1], 8 * rng.randrange(8), rng.choice([0, 8, 16]))
        return (thing, "stat", (held[-1],)) if choice < 0.96 else self.ends(thing)

    def ends(self, thing: str) -> tuple:
        return (thing, "unlink", ()) if self.rng.random() < 0.4 else (thing, "close", (self.held[thing].pop(0),))

    # ---- how they are made

    def send(self, connection: Connection, thing: str, call: str, args: tuple) -> tuple:
        self.count += 1
        self.note("b", self.name, self.count, thing, call, args, now())
        return connection.send(request_of(thing, call, args)), self.count, thing, call, args

    def learn(self, sent: tuple, answer: tuple[int, int, bytes]) -> None:
        """A reply is written down, and what it tells is used from then on."""
        serial, count, thing, call, args = sent
        if answer[0] != serial:
            raise ConnectionError("the disk of the server has failed")
        error, body = answer[1:]
        value = value_of(thing, call, body) if error == 0 else None
        self.note("e", self.name, count, now(), error, value)
        if call in OPENING and error == 0:
            (self.ids if call == "get" else self.held).setdefault(thing, []).append(value)
        if error in (errno.EINVAL, errno.EIDRM):
            self.ids.pop(thing, None)

    def ahead(self, connection: Connection, count: int, choose: Callable[[], tuple]) -> None:
        """So many calls, but none after one that answers a number or closes one."""
        sent: list[tuple] = []
        while len(sent) < count and not (sent and sent[-1][3] in (*OPENING, "close", "dt")):
            sent.append(self.send(connection, *choose()))
        for one in sent:
            self.learn(one, connection.receive())

    def alone(self, connection: Connection, thing: str, call: str, args: tuple) -> None:
        """A call that may wait. If it has no answer in 0.1 seconds, or sooner, it is interrupted."""
        sent = self.send(connection, thing, call, args)
        try:
            answer = connection.receive(self.rng.choice([0.005, 0.01, 0.03, SETTLED]))
        except TimeoutError:
            connection.interrupt()
            answer = connection.receive()
        self.learn(sent, answer)


def start(number: int, slot: int, seed: str, shared: Shared, folder: Path) -> int:
    """A client in a process of its own: its pid in the system."""
    pid = os.fork()
    if pid:
        return pid
    status = 1
    try:
        history = os.open(folder / f"history.{number}", os.O_WRONLY | os.O_CREAT | os.O_APPEND, 0o600)
        Client(number, slot, seed, shared, history).run()
    except BaseException as fault:
        (folder / f"fault.{number}").write_text(repr(fault))
    finally:
        os._exit(status)
