"""What a turn of the server reads, makes last and writes, over sockets that give and take bytes as they are told to.

    python3 tests/sockets/sockets.py PROGRAM

Reads and writes of sockets are watched and answered by tests/lib/watch_calls.c; without a C compiler it says so, and
tests nothing. What is expected was reckoned from docs/PROTOCOL.md, docs/DEVICE.md and the steps of a turn in
docs/ARCHITECTURE.md: 16 reads of a client, of 4096 bytes at most; then it is answered, by at most 16 writes; then those
who are gone are parted with, and the others are answered once more. It takes ten seconds.
"""

from __future__ import annotations

import errno
import itertools
import struct
import sys
from collections.abc import Iterator
from contextlib import contextmanager
from pathlib import Path
from typing import NamedTuple

sys.dont_write_bytecode = True
sys.path.insert(0, str(Path(__file__).resolve().parents[1] / "lib"))

from device_layout import BODY, JOURNAL, RESTART, SECTOR, batch, header, request, tick  # noqa: E402
from server import (  # noqa: E402
    Client,
    Server,
    check,
    frame,
    in_a_folder,
    printed,
    process,
    reply,
    run_tests,
    serving,
    until,
)
from client import (  # noqa: E402
    IPC_CREAT,
    IPC_NOWAIT,
    hello_request,
    msgget_request,
    msgrcv_request,
    msgsnd_request,
)
from watch import (  # noqa: E402
    ALL,
    BLOCKS,
    CUT,
    EACH,
    ENDS,
    TURN,
    Call,
    build,
    calls,
    follows,
    order,
    turns_of,
    watched,
)

LONGEST = 100  # milliseconds of a wait
MANY = ("--turns", str(2**32 - 1))
RESET, PIPE = -errno.ECONNRESET, -errno.EPIPE
HELLO = frame(1, hello_request(1000, 100))
GET = frame(2, msgget_request(1234, IPC_CREAT | 0o600))
SEND = frame(3, msgsnd_request(1, 5, b"hi", IPC_NOWAIT))
RECEIVE = frame(4, msgrcv_request(1, 64, 0, IPC_NOWAIT))
RECEIVE_AGAIN = frame(5, msgrcv_request(1, 64, 0, IPC_NOWAIT))
GOT, SENT = reply(2, 0, struct.pack(">I", 1)), reply(3, 0)
RECEIVED, NOTHING = reply(4, 0, struct.pack(">q", 5) + b"hi"), reply(5, errno.ENOMSG)
# A length of 0, what it is answered, and the last frame if the disk has failed.
SHORT, BROKEN, FAILED = bytes(4), reply(0, errno.EPROTO), reply(0, errno.EIO)


def welcome(pid: int) -> bytes:
    return reply(1, 0, struct.pack(">I", pid))


@contextmanager
def fresh(**answers: tuple[int, ...]) -> Iterator[Server]:
    """A server of a new device with small limits, whose calls are watched, and answered so. It makes turns also while
    there is nothing to do."""
    printed("format", "device", "--small")
    with watched(**answers), serving(*MANY, limits="small") as server:
        yield server


@contextmanager
def fresh_turns(turns: int) -> Iterator[Server]:
    """The same of a server that makes so many turns. Who uses it sees it end."""
    printed("format", "device", "--small")
    with watched():
        server = Server("--turns", str(turns), limits="small")
    try:
        yield server
    finally:
        server.process.kill()


@contextmanager
def failing(fail: str, **answers: tuple[int, ...]) -> Iterator[Server]:
    """The same of a server that meets this failure after it has read `fault`, and ends by it. After the refused call
    it reads, writes and syncs nothing."""
    printed("format", "device", "--small")
    with watched(fail, text="fault", **answers):
        server = Server(*MANY, limits="small")
    try:
        yield server
        server.ends(1, "ipcd: device fault\n")
        left = order(calls()).partition("x")[2]
        check(bool(left) and not set(left) & set("x0RHBOSFTEa<"), f"after the refused call come {left!r}")
    finally:
        server.process.kill()


def descriptor(number: int, them: list[Call]) -> int:
    """That of the connection of this number. Connections count from 1."""
    return [call.result for call in them if call.name == "accept4" and call.result >= 0][number - 1]


def of(name: str, file: int, them: list[Call]) -> list[Call]:
    return [call for call in them if (call.name, call.file) == (name, file)]


def results(name: str, file: int, them: list[Call]) -> list[int]:
    return [call.result for call in of(name, file, them)]


def sent_to(file: int, them: list[Call]) -> bytes:
    return b"".join(call.data for call in of("send", file, them))


def turn_of(data: bytes) -> list[Call]:
    """The turn in which these bytes were read. It has ended."""
    until(lambda: any(data in call.data for turn in turns_of(calls()) for call in turn), "no turn has read it")
    (turn,) = [it for it in turns_of(calls()) if any(call.name == "recv" and data in call.data for call in it)]
    return turn


# ---- requests

TALK = [(HELLO, welcome(1)), (GET, GOT), (SEND, SENT), (RECEIVE, RECEIVED), (RECEIVE_AGAIN, NOTHING)]


def each_request_is_answered_in_its_turn() -> None:
    """One after another: what has read the request has sent the reply, after one commit."""
    with fresh(), Client() as client:
        for asked, answer in TALK:
            client.send_bytes(asked)
            client.is_answered(answer)
            turn = turn_of(asked)
            follows("Ea*<+BSHS>", turn)
            check(sent_to(descriptor(1, calls()), turn) == answer, "a turn sends something else")


def all_requests_are_answered_in_one_turn() -> None:
    """They come with the connection, and the server makes no more than eight turns."""
    asked, answers = (b"".join(it) for it in zip(*TALK))
    with fresh_turns(8) as server:
        with server.stopped():
            client = Client()
            client.send_bytes(asked)
        client.is_answered(answers)
        server.ends(0)
        client.is_ended()
    turn = turn_of(asked)
    follows("Ea+<<BSHS>", turn)
    check(sent_to(descriptor(1, calls()), turn) == answers, "they are not sent in the turn that has read them")


def a_hundred_requests_are_answered_in_one_turn() -> None:
    """They come in one piece, and are one batch."""
    asked = [frame(number, msgget_request(1234, IPC_CREAT | 0o600)) for number in range(2, 102)]
    answers = [reply(number, 0, struct.pack(">I", 1)) for number in range(2, 102)]
    with fresh(), process() as client:
        client.send_bytes(b"".join(asked))
        client.is_answered(b"".join(answers))
        turn = turn_of(b"".join(asked))
    follows("E<<BSHS>", turn)
    (data,) = [call.data for call in turn if call.name == "pwrite" and call.sector >= BODY]
    moment = int.from_bytes(data[9:17], "big")
    wanted = batch(tick(moment), tick(moment), *(request(moment, 1, one[4:]) for one in asked))
    check(data.startswith(wanted), "the batch is another one")


# Requests whose records fill a batch so far that a feed may just begin; a call that has to wait, and the next one. The
# texts are too long, but these are events like others. With the first of them a failure may begin.
FILLING = [
    frame(number, msgsnd_request(1, 5, text.ljust(8088))) for number, text in enumerate([b"fault", *7 * [b""]], 2)
]
WAITS, AFTER = frame(3, msgrcv_request(1, 64, 0)), frame(4, msgrcv_request(1, 64, 0))


def a_feed_releases_if_the_batch_is_full() -> None:
    """After a call that has to wait the batch has no room for a record of the greatest length, and the connection has
    no frame. So all that waits is committed, and the rest of the piece is taken. What came before is one commit, and
    what comes after it another."""
    with fresh() as server, process() as first, process() as second:
        fill(server, first, second)
        first.is_answered(b"".join(reply(number, errno.EINVAL) for number in range(2, 10)))
        second.is_answered(reply(4, errno.EALREADY))
        turn = turn_of(WAITS + AFTER)
    follows("E<+BBSHS<BSHS>+", turn)
    *pieces, rest = [call.data for call in turn if call.name == "pwrite" and call.sector >= BODY]
    full = b"".join(pieces)
    moment = int.from_bytes(full[9:17], "big")
    ends = list(itertools.accumulate(len(one) for one in FILLING))
    records = [tick(moment)]
    for begin in range(0, ends[-1], 4096):
        whole = (one for one, end in zip(FILLING, ends) if begin < end <= begin + 4096)
        records += [tick(moment), *(request(moment, 1, one[4:]) for one in whole)]
    last = request(moment, 2, WAITS[4:])
    wanted = batch(*records, tick(moment), last)
    check(full.startswith(wanted), "the first batch is another one")
    room = 131072 - len(wanted)
    check(room < 65809 <= room + len(last), f"the first batch has room for {room} bytes more")
    check(rest.startswith(batch(request(moment, 2, AFTER[4:]))), "the second batch is another one")


def a_release_within_a_feed_that_fails() -> None:
    """The first write of the same commit is refused. Each connection has an EIO frame as its last."""
    with failing(f"pwrite 1 {errno.EIO}") as server:
        first, second, other = process(), process(), Client()
        fill(server, first, second)
        for one in (first, second, other):
            one.is_answered(FAILED)
            one.is_ended()
    turn = "E" + order(calls()).rpartition("E")[2]
    check(turn.partition("x")[0] == "E" + 17 * "<", f"the turn is {turn}")


def fill(server: Server, first: Client, second: Client) -> None:
    """In one turn the batch is filled by the first client, and the second has a call that waits and one more."""
    second.send_bytes(GET)
    second.is_answered(GOT)
    with server.stopped():
        first.send_bytes(b"".join(FILLING))
        second.send_bytes(WAITS + AFTER)


# ---- clients that come and go


def a_client_that_closes_makes_room() -> None:
    """Four processes are the most under small limits. Those who are there are read before those who are gone are
    parted with: so a fifth client is refused in the turn that sees the first one gone, and is welcome in the next. That
    is two turns at most after the one that the close falls into: the signal cuts the wait of one short."""
    with fresh() as server:
        clients = [process() for _ in range(4)]
        last = Client()
        last.send_bytes(HELLO)
        last.is_answered(reply(1, errno.ENFILE))
        with server.stopped():
            seen = len(turns_of(calls()))
            clients[0].close()
            last.send_bytes(HELLO)
        last.is_answered(reply(1, errno.ENFILE))
        last.send_bytes(HELLO)
        last.is_answered(welcome(5))
        turn, before = turn_of_close(descriptor(1, calls()))
    check(before <= seen + 2, f"the client is gone {before - seen} turns later")
    check(sent_to(descriptor(5, calls()), turn) == reply(1, errno.ENFILE), "the refusal is of another turn")


def turn_of_close(file: int) -> tuple[list[Call], int]:
    """The turn that has read the end of a connection, which the same turn closes, and how many were before it."""

    def found() -> list[tuple[list[Call], int]]:
        turns = zip(turns_of(calls()), itertools.count())
        return [(turn, number) for turn, number in turns if 0 in results("recv", file, turn)]

    until(lambda: bool(found()), "no turn has read the end")
    ((turn, number),) = found()
    check(len(of("close", file, turn)) == 1, "the connection is kept")
    return turn, number


def more_connections_wait_for_the_next_turn() -> None:
    """A turn takes 64 new ones."""
    with fresh() as server:
        with server.stopped():
            clients = [Client() for _ in range(65)]
            for client in clients:
                client.send_bytes(HELLO)
        for number, client in enumerate(clients, 1):
            client.is_answered(welcome(number) if number <= 4 else reply(1, errno.ENFILE))
        last = descriptor(65, calls())
        until(lambda: any(of("send", last, turn) for turn in turns_of(calls())), "the last turn has not ended")
    turns = [turn for turn in turns_of(calls()) if any(call.name == "send" for call in turn)]
    accepted = [sum(call.name == "accept4" and call.result >= 0 for call in turn) for turn in turns]
    answered = [sum(call.name == "send" for call in turn) for turn in turns]
    check((accepted, answered) == ([64, 1], [64, 1]), f"turns accept {accepted} and answer {answered}")
    check(turns[1][0].size == 0, "the server waits while a connection does")


# ---- what a turn makes last


def all_clients_of_a_turn_share_a_batch() -> None:
    """Its 172 bytes are the tick of the turn, and a tick and the message of each client, by the number of its
    connection. Each of 20 turns is one batch of a sector, after that of the restart."""
    turns = 20
    with fresh_turns(turns) as server:
        with server.stopped():
            clients = [Client() for _ in range(3)]
            for client in clients:
                client.send_bytes(HELLO)
            clients[0].send_bytes(GET)
        for client, answer in zip(clients, (welcome(1) + GOT, welcome(2), welcome(3))):
            client.is_answered(answer)
        with server.stopped():
            for client in clients:
                client.send_bytes(SEND)
        for client in clients:
            client.is_answered(SENT)
        server.ends(0)
        for client in clients:
            client.is_ended()
    image = Path("device").read_bytes()
    check(image[SECTOR * JOURNAL :][:12] == header(1, 1 + turns), "a turn is not one sector of the journal")
    sectors = [image[SECTOR * at : SECTOR * (at + 1)] for at in range(BODY, BODY + 1 + turns)]
    check(sectors[0].startswith(batch(RESTART)), "the first batch is not the restart")
    (shared,) = [sector for sector in sectors if SEND[4:] in sector]
    moment = int.from_bytes(shared[9:17], "big")
    sends = [(tick(moment), request(moment, pid, SEND[4:])) for pid in (1, 2, 3)]
    wanted = batch(tick(moment), *itertools.chain(*sends))
    check(len(wanted) == 176 and shared == wanted.ljust(SECTOR, b"\0"), f"the batch is {shared.hex()}")
    follows("E<{6}BSHS>>>", turn_of(SEND))


# ---- a disk that fails


def a_disk_that_fails_ends_all() -> None:
    """Each client is told. What the requests of the turn come to is lost, EPROTO too, and what came besides is not
    read: a socket that is closed over such bytes resets its other side."""
    with failing(f"pwrite 1 {errno.EIO}", recv=(2, len(HELLO), BLOCKS)) as server:
        client = process()
        with server.stopped():
            other = Client()
            other.send_bytes(HELLO + GET)
        other.is_answered(welcome(2))
        with server.stopped():
            client.send_bytes(frame(9, msgsnd_request(1, 1, b"fault")))
            broken = Client()
            broken.send_bytes(SHORT)
        for one in (client, other, broken):
            one.is_answered(FAILED)
            one.is_ended()
    came = [it for it in results("recv", descriptor(2, calls()), calls()) if it > 0]
    check(came == [len(HELLO)], f"{came} bytes were read")
    check(printed("dump", "device") == "", "the request that was lost is there")


# The calls of the commit of the turn after that in which `fault` was read.
NEXT_COMMIT = [("pwrite", 3), ("fdatasync", 3), ("pwrite", 4), ("fdatasync", 4)]


def what_was_released_before_a_failure_stays() -> None:
    """One client has been sent 3 bytes of its welcome, and one 3 bytes of EPROTO. Their sockets take the rest once the
    next commit has failed, and EIO comes after it."""
    hello = frame(1, hello_request(int.from_bytes(b"faul", "big"), int.from_bytes(b"t...", "big")))
    for name, number in NEXT_COMMIT:
        with failing(f"{name} {number} {errno.EIO}", send=(EACH, 3, BLOCKS, BLOCKS, ALL)) as server:
            with server.stopped():
                clients = [Client(), Client()]
                for client, asked in zip(clients, (hello, SHORT)):
                    client.send_bytes(asked)
            for client, before in zip(clients, (welcome(1), BROKEN)):
                client.is_answered(before + FAILED)
                client.is_ended()
        them = calls()
        fault = next(at for at, call in enumerate(them) if order([call]) == "x")
        found = [sent_to(descriptor(number, them), them[:fault]) for number in (1, 2)]
        check(found == [welcome(1)[:3], BROKEN[:3]], f"{found} is sent before the fault")


def sends_of(size: int, count: int, text: bytes = b"x") -> list[bytes]:
    """Requests of so many bytes. Their texts are too long, but they are events like others."""
    return [frame(number, msgsnd_request(1, 5, text.ljust(size - 25, b"x"))) for number in range(1, count + 1)]


def a_release_within_a_turn_that_fails() -> None:
    """A client has sent so much that 16 reads of it leave no room for a record of the greatest length. The commit that
    makes room for the next client is refused while that one is read, and it is the last that is read."""
    with failing(f"pwrite 1 {errno.EIO}") as server:
        client, others = process(), [process(), Client()]
        with server.stopped():
            client.send_bytes(b"".join(sends_of(8192, 9, b"fault")))
            others[0].send_bytes(GET)
        for one in (client, *others):
            one.is_answered(FAILED)
            one.is_ended()
    turn = "E" + order(calls()).rpartition("E")[2]
    check(turn.partition("x")[0].count("<") == 17, f"the turn is {turn}")
    check(printed("dump", "device") == "", "a request that was lost is there")


# ---- one client by a script, beside another

BUSY, IDLE, GONE = "busy", "idle", "gone"


class Row(NamedTuple):
    """What a client sends with its connection and how its socket answers; what it is sent; and after each turn how many
    bytes of that it was sent, and how it stands: it may have something for the server already, the next turn may wait
    for it, or its connection was closed."""

    name: str
    sent: bytes
    reads: tuple[int, ...]
    writes: tuple[int, ...]
    answer: bytes
    turns: list[tuple[int, str]]


# The replies have 14 bytes each, and EPROTO has 10.
ROWS = [
    Row(
        "one byte a read: the 17th byte comes in the next turn",
        HELLO, (1,), (ALL,), welcome(2), [(0, BUSY), (14, IDLE)],
    ),
    Row("a read that is interrupted", HELLO, (5, CUT, ALL), (ALL,), welcome(2), [(14, IDLE)]),
    Row(
        "a read that is interrupted is one of the 16",
        HELLO, (2, CUT, 1), (ALL,), welcome(2), [(0, BUSY), (14, IDLE)],
    ),
    Row(
        "a read that would block is the last of its turn",
        HELLO, (5, BLOCKS, ALL), (ALL,), welcome(2), [(0, IDLE), (14, IDLE)],
    ),
    Row("one byte a write", HELLO + GET + GET, (ALL,), (1,), welcome(2) + GOT + GOT, [(32, BUSY), (42, IDLE)]),
    Row(
        "a write that is interrupted is one of the 16",
        HELLO + GET + GET, (ALL,), (1, CUT, 1), welcome(2) + GOT + GOT, [(31, BUSY), (42, IDLE)],
    ),
    Row(
        "a write that would block goes on with the next byte",
        HELLO, (ALL,), (3, BLOCKS, BLOCKS, ALL), welcome(2), [(3, IDLE), (14, IDLE)],
    ),
    Row(
        "requests before the end of the input are answered",
        HELLO + GET, (34, ENDS), (ALL,), welcome(2) + GOT, [(28, GONE)],
    ),
    Row(
        "what cannot be written at the end of the input is dropped",
        HELLO + GET, (34, ENDS), (3, BLOCKS), welcome(2) + GOT, [(3, GONE)],
    ),
    Row("a read that fails", HELLO + GET, (17, RESET), (ALL,), welcome(2), [(14, GONE)]),
    Row("a write that fails", HELLO, (ALL,), (3, PIPE), welcome(2), [(3, GONE)]),
    Row("EPROTO is the last frame", HELLO + SHORT + GET, (ALL,), (ALL,), welcome(2) + BROKEN, [(24, GONE)]),
    Row(
        "a connection that was ended is kept until its last frame is written",
        SHORT + HELLO, (4, BLOCKS, ALL), (3, BLOCKS, BLOCKS, 3, BLOCKS, BLOCKS, ALL), BROKEN,
        [(3, IDLE), (6, IDLE), (10, GONE)],
    ),
    Row(
        "a connection that was ended, and whose socket fails then",
        SHORT, (ALL,), (3, BLOCKS, BLOCKS, PIPE), BROKEN, [(3, IDLE), (3, GONE)],
    ),
]


def turns_from(number: int) -> list[list[Call]]:
    """The turns that have ended, from that on which has taken the connection of this number."""
    turns = turns_of(calls())
    counts = itertools.accumulate(sum(call.name == "accept4" and call.result >= 0 for call in it) for it in turns)
    return [turn for turn, count in zip(turns, counts) if count >= number]


def stands(file: int, turns: list[list[Call]]) -> list[tuple[int, str]]:
    """After each turn but the last, up to the one that closes the connection, how many bytes the client was sent, and
    how it stands."""
    found: list[tuple[int, str]] = []
    sent = 0
    for turn, after in zip(turns, turns[1:]):
        sent += len(sent_to(file, turn))
        if of("close", file, turn):
            return [*found, (sent, GONE)]
        check(after[0].size in (0, LONGEST), f"{after[0]} is the wait")
        found.append((sent, IDLE if after[0].size else BUSY))
    return found


def goes_by(row: Row) -> None:
    """The other client is served whatever this one does, and has the only connection that is left if it is gone."""
    with fresh(recv=(2, *row.reads), send=(2, *row.writes)) as server, process() as other:
        with server.stopped():
            client = Client()
            client.send_bytes(row.sent)
        until(lambda: len(turns_from(2)) > len(row.turns), "the server makes no turns")
        check(other.msgget(1234, IPC_CREAT | 0o600) == 1, f"{row.name}: the other client is not served")
        sent, last = row.turns[-1]
        client.is_answered(row.answer[:sent])
        if last == GONE:
            client.is_ended()
        file = descriptor(2, calls())
        found = stands(file, turns_from(2))[: len(row.turns)]
        check(found == row.turns, f"{row.name}: the turns are {found}, and not {row.turns}")
        check(bool(of("close", file, calls())) == (last == GONE), f"{row.name}: its socket is open, or is not")
        refusals = {answer for answer in (*row.reads, *row.writes) if answer < 0}
        answered = {call.result for call in calls() if call.file == file}
        check(refusals <= answered, f"{row.name}: not each of {refusals} was answered")


def sockets_that_answer_by_a_script() -> None:
    for row in ROWS:
        goes_by(row)


def a_client_is_read_once_it_is_woken() -> None:
    """Once a read has said that it would block there is no other, until the system tells that more has come: it does so
    once of what came with the connection."""
    with fresh(recv=(1, len(HELLO), BLOCKS, BLOCKS, ALL)) as server:
        with server.stopped():
            client = Client()
            client.send_bytes(HELLO + GET[:-1])
        until(lambda: len(turns_from(1)) > 6, "the server makes no turns")
        file = descriptor(1, calls())
        reads = [results("recv", file, turn) for turn in turns_from(1)]
        check(reads[:7] == [[17, BLOCKS], [BLOCKS], [], [], [], [], []], f"the reads of the turns are {reads}")
        client.send_bytes(GET[-1:])
        client.is_answered(welcome(1) + GOT)
    check(results("recv", file, calls())[3:] == [len(GET), BLOCKS], "the rest is read in another way")


# ---- much at a time


def a_client_that_reads_nothing_is_not_read() -> None:
    """The first read gives HELLO, 239 requests and a piece: 3360 bytes of replies, and all is taken. In the second one
    no request is taken once more than 4096 bytes of replies wait. Nothing more is read, nor waited for, in five turns.
    Then the client reads, and finds each reply once."""
    numbers = range(2, 1002)
    asked = b"".join(frame(number, msgget_request(1234, IPC_CREAT | 0o600)) for number in numbers)
    answers = b"".join(reply(number, 0, struct.pack(">I", 1)) for number in numbers)
    with fresh(send=(1, *(10 * [BLOCKS]), ALL)) as server:
        with server.stopped():
            client = Client()
            client.send_bytes(HELLO + asked)
        until(lambda: BLOCKS in [call.result for call in calls() if call.name == "send"], "no reply waits")
        client.is_answered(welcome(1) + answers)
        file = descriptor(1, calls())
        until(lambda: results("recv", file, calls())[-1] == BLOCKS, "not all is read")
        turns = turns_from(1)
        # The next frame is of the next request, so that no other one has come.
        client.send_bytes(SEND)
        client.is_answered(SENT)
    reads = [sum(results("recv", file, turn)) for turn in turns[:5]]
    check(reads == [8192, 0, 0, 0, 0], f"{reads} bytes are read")
    check(all(results("send", file, turn) == [BLOCKS, BLOCKS] for turn in turns[:5]), "the sends are others")
    waits = [turn[0].size for turn in turns[1:6]]
    check(waits == 5 * [LONGEST], f"a wait takes {waits} ms, though the client does not read")
    # Each turn brings some 4096 bytes of replies.
    most = max(len(sent_to(file, turn)) for turn in turns)
    check(most <= 2 * (4096 + 14), f"a turn has sent {most} bytes")


def what_is_left_after_16_reads_waits() -> None:
    """16 reads of 1000 bytes are HELLO, one request of 8192 bytes and a piece of the second. The next turn waits for
    nothing, and takes the other 8593 bytes."""
    asked = [HELLO, *sends_of(8192, 3)]
    answers = [welcome(1), *(reply(number, errno.EINVAL) for number in range(1, 4))]
    with fresh(recv=(1, *(16 * [1000]), ALL)) as server:
        turns, file = turns_on(server, asked, answers, 3)
    reads = [results("recv", file, turn) for turn in turns]
    check(reads == [16 * [1000], [4096, 4096, 401, BLOCKS], []], f"the reads of the turns are {reads}")
    sent = [sent_to(file, turn) for turn in turns]
    check(sent == [b"".join(answers[:2]), b"".join(answers[2:]), b""], "a turn sends other replies")
    check([turn[0].size for turn in turns[1:]] == [0, LONGEST], "the waits are others")
    for turn in turns:
        follows(TURN, turn)


def a_turn_takes_of_a_client_what_fits_into_a_batch() -> None:
    """Of 500 requests of 157 bytes 383 are read with HELLO in 15 reads. With HELLO's 25 bytes, 170 for each of them, 13
    for the tick of the turn and of each read, and 4 of the length, the batch has 65347 bytes then, and a record of the
    greatest length, 65809, has no room any more. So the rest of the piece, 1292 bytes, is fed in the next
    turn, which waits for nothing, and takes the others. Each turn makes one commit."""
    asked = [HELLO, *sends_of(157, 500)]
    answers = [welcome(1), *(reply(number, errno.EINVAL) for number in range(1, 501))]
    with fresh() as server:
        turns, file = turns_on(server, asked, answers, 3)
    reads = [results("recv", file, turn) for turn in turns]
    check(reads == [15 * [4096], [*(4 * [4096]), 693, BLOCKS], []], f"the reads of the turns are {reads}")
    sent = [sent_to(file, turn) for turn in turns]
    wanted = [b"".join(them) for them in (answers[:384], answers[384:], [])]
    check(sent == wanted, "a turn sends other replies")
    check([turn[0].size for turn in turns[1:]] == [0, LONGEST], "the waits are others")
    for turn, numbers, size in zip(turns, (range(1, 384), range(384, 501)), (65347, 19985)):
        follows(TURN, turn)
        data = b"".join(call.data for call in turn if call.name == "pwrite" and call.sector >= BODY)
        found = 4 + int.from_bytes(data[:4], "big")
        check(found == size, f"a batch has {found} bytes")
        there = [number for number in range(1, 501) if asked[number][4:] in data]
        check(there == list(numbers), f"a batch has the requests {there}")


def turns_on(
    server: Server, asked: list[bytes], answers: list[bytes], count: int
) -> tuple[list[list[Call]], int]:
    """So many turns from that on which takes a client who has sent all this, and the client's descriptor. The first
    turn, which commits the tick of the start, has ended before."""
    until(lambda: bool(turns_of(calls())), "the server makes no turn at its start")
    with server.stopped():
        client = Client()
        client.send_bytes(b"".join(asked))
    client.is_answered(b"".join(answers))
    until(lambda: len(turns_from(1)) > count, "the server makes no turns")
    return turns_from(1)[:count], descriptor(1, calls())


TESTS = [
    each_request_is_answered_in_its_turn,
    all_requests_are_answered_in_one_turn,
    a_hundred_requests_are_answered_in_one_turn,
    a_feed_releases_if_the_batch_is_full,
    a_client_that_closes_makes_room,
    more_connections_wait_for_the_next_turn,
    all_clients_of_a_turn_share_a_batch,
    a_disk_that_fails_ends_all,
    what_was_released_before_a_failure_stays,
    a_release_within_a_turn_that_fails,
    a_release_within_a_feed_that_fails,
    sockets_that_answer_by_a_script,
    a_client_is_read_once_it_is_woken,
    a_client_that_reads_nothing_is_not_read,
    what_is_left_after_16_reads_waits,
    a_turn_takes_of_a_client_what_fits_into_a_batch,
]


def main() -> None:
    with in_a_folder(300):
        if build("sockets"):
            run_tests("sockets", TESTS)


if __name__ == "__main__":
    main()
