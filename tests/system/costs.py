"""What the program's work costs in calls of the system, and what no reply tells.

    python3 tests/system/costs.py PROGRAM

Calls are counted by tests/lib/watch_calls.c; without a C compiler it says so, and counts none. What is
expected is in docs/OPERATIONS.md and docs/DEVICE.md. It takes ten seconds, and more beside other work.
"""

from __future__ import annotations

import errno
import math
import os
import re
import resource
import signal
import struct
import subprocess
import sys
import time
from collections.abc import Callable
from itertools import count
from pathlib import Path
from typing import NamedTuple

sys.dont_write_bytecode = True
sys.path.insert(0, str(Path(__file__).resolve().parents[1] / "lib"))

from device_layout import (  # noqa: E402
    BODY,
    OBJECTS,
    ONE,
    QUEUE_KIND,
    RESTART,
    ROOT,
    SECTOR,
    STANDARD,
    STANDARD_OF_ONE,
    TWO,
    Device,
    Heap,
    NamedSem,
    Posix,
    Queue,
    Segment,
    Set,
    batch,
    clock,
    connect,
    need_of,
    processes,
    put_into_file,
    read,
    request,
    sectors_of,
    state,
    tick,
)
from server import (  # noqa: E402
    PROGRAM,
    TIMEOUT,
    Client,
    Server,
    check,
    frame,
    in_a_folder,
    printed,
    process,
    reply,
    run_tests,
    serving,
    until,
    until_it_waits,
)
from client import (  # noqa: E402
    IPC_CREAT,
    IPC_NOWAIT,
    O_CREAT,
    O_RDWR,
    SEM_UNDO,
    ftruncate_request,
    hello_request,
    mq_getattr_request,
    mq_notify_request,
    mq_open_request,
    mq_send_request,
    msgctl_set_request,
    msgctl_stat_request,
    msgget_request,
    msgrcv_request,
    msgsnd_request,
    sem_getvalue_request,
    sem_open_request,
    sem_post_request,
    semctl_set_request,
    semctl_stat_request,
    semget_request,
    semop_request,
    shm_open_request,
    shm_read_request,
    shm_write_request,
)
from watch import OPEN, TURN, Call, build, calls, follows, order, turns_of, watched, whole_turns  # noqa: E402

LONGEST, REST = 100, 60000  # milliseconds: a wait of a turn, and the longest wait before one
PIECE = 64  # sectors


# ---- turns


def turns_that_are_idle() -> None:
    """Of a server that is to make so many turns each waits for 100 ms, and makes two writes and two syncs."""
    printed("format", "device", "--small")
    with watched():
        Server("--turns", "5", limits="small").ends(0)
    for turn in turns_of(calls()):
        follows("EBSHS", turn)
        check((turn[0].size, turn[0].result) == (LONGEST, 0), f"{turn[0]} is the wait")
        check(turn[1].size + turn[3].size == 1024, "a tick takes more than two sectors")


def waits_if_nothing_is_left(them: list[Call]) -> None:
    """Before a turn a server waits if the last read of each client has said that nothing is there, or the client does
    not read; else it does not. A wait that a signal cuts short is followed by another. The turn itself waits for
    nothing."""
    more: dict[int, bool] = {}
    full: set[int] = set()
    accepted = 0
    has_waited = False
    for call in them:
        if call.name == "accept4" and call.result >= 0:
            more[call.result] = True
            accepted += 1
        elif call.name == "recv":
            more[call.file] = call.result > 0
        elif call.name == "send":
            (full.add if call.result == -errno.EAGAIN else full.discard)(call.file)
        elif call.name == "close":
            more.pop(call.file, None)
            full.discard(call.file)
        elif call.name == "epoll_wait":
            busy = accepted == 64 or any(it and file not in full for file, it in more.items())
            wanted = 0 if busy or has_waited else REST
            check(max(0, wanted - TIMEOUT * 1000) <= call.size <= wanted, f"a wait of {call.size} ms, and not {wanted}")
            accepted = 0
        if call.name != "epoll_enter":
            has_waited = call.name == "epoll_wait" and call.result > 0


def waits() -> None:
    """While a client has more there is none: after requests of 82 kB, of which a turn takes 16 reads of 4096 bytes, and
    after 100 connections, of which it takes 64. There is one while a client has sent and does not read."""
    printed("format", "device")
    with watched(most=0), serving() as server, process() as client:
        queue = client.msgget(1, IPC_CREAT | 0o600)
        send = frame(7, msgsnd_request(queue, 1, b"x" * 8192, IPC_NOWAIT))
        server.process.send_signal(signal.SIGSTOP)
        os.waitid(os.P_PID, server.process.pid, os.WSTOPPED)
        client.send_bytes(10 * send)
        many = [Client() for _ in range(100)]
        server.process.send_signal(signal.SIGCONT)
        # A queue has room for eight of them.
        client.is_answered(8 * reply(7, 0) + 2 * reply(7, errno.EAGAIN))
        many[-1].hello(1, 1)
        pair = frame(7, msgrcv_request(queue, 8192)) + send
        client._socket.setblocking(False)
        sent = seen = 0

        def takes_no_more() -> bool:
            """In a hundredth of a second the server has done nothing."""
            nonlocal sent, seen
            before, seen = seen, len(calls())
            try:
                while True:
                    sent += client._socket.send((100 * pair)[sent % len(pair) :])
            except BlockingIOError:
                return before == seen

        until(takes_no_more, "the server spins for one that does not read")
    them = calls()
    waits_if_nothing_is_left(them)
    reads = [sum(call.name == "recv" and call.result == 4096 for call in turn) for turn in turns_of(them)]
    check(max(reads) == 16, f"the most reads in a turn are {max(reads)}")
    accepts = [sum(call.name == "accept4" and call.result >= 0 for call in turn) for turn in turns_of(them)]
    check(max(accepts) == 64, f"the most connections in a turn are {max(accepts)}")


def clients_beyond_the_hundredth() -> None:
    """Each of 200 connections is read."""
    printed("format", "device")
    with serving():
        clients = [Client() for _ in range(200)]
        for client in clients:
            client.send_bytes(frame(1, hello_request(1, 1))[:-1])
        for number, client in enumerate(clients):
            client.send_bytes(frame(1, hello_request(1, 1))[-1:])
            wanted = 0 if number < 64 else errno.ENFILE
            answer = client.receive()
            check(answer[:2] == (1, wanted), f"client {number} is answered {answer}")
        for client in clients:
            client.close()


# ---- commits


def commits() -> None:
    """One makes two writes and two syncs, if its batch has at most 64 sectors, and reads nothing. The batch of a short
    request is the tick of its turn, its client's, and itself: 68 bytes and the text, so that 444 bytes of text take
    one sector, and 445 two. A long one has a tick more for each further read of 4096 bytes."""
    printed("format", "device")
    texts = [b"x" * length for length in (0, 444, 445, 8192)]
    with watched(), serving(), process() as client:
        queue = client.msgget(1, IPC_CREAT | 0o600)
        frames = []
        for text in texts:
            asked = msgsnd_request(queue, 1, text)
            client.call(asked)
            frames.append(frame(client._serial, asked)[4:])
    them = calls()
    follows(f"{OPEN}(?:{TURN})*", whole_turns(them))
    served = them[[call.name for call in them].index("write") :]
    check(all(call.name != "pread" for call in served), "a server reads its device")
    batches = [call.data for call in served if call.name == "pwrite" and call.sector >= BODY]
    for text, asked in zip(texts, frames):
        (data,) = [data for data in batches if asked in data]
        moment = int.from_bytes(data[9:17], "big")
        ticks = data.count(tick(moment), 0, 1000)
        check(ticks == 2 or len(text) == 8192, f"{ticks} ticks come before a request of {len(text)} bytes")
        wanted = batch(*ticks * [tick(moment)], request(moment, 1, asked))
        check(len(wanted) == 4 + 13 * ticks + 38 + len(text), "a batch has another length")
        check(data.startswith(wanted), f"the batch of {len(text)} bytes has other bytes")
        check(len(data) == SECTOR * sectors_of(len(wanted)), f"{len(data)} bytes are written of {len(wanted)}")


# ---- states at their bounds

EMPTY = ((1, b""),)
BYTES = ((1, b"x"),)
LONG = tuple((1, bytes([65 + number]) * 8192) for number in (0, 1))
# As much as 32 queues of 16384 bytes may hold: of texts of 8192 bytes two, of none or a byte 16384.
BOUNDS = {number: LONG if number < 12 else 16384 * (EMPTY if number < 23 else BYTES) for number in range(1, 33)}


def set_queue(number: int) -> bytes:
    """IPC_SET, which leaves a queue of these devices as it was but for the time."""
    return msgctl_set_request(number, 1000, 100, 0o600, 16384)


def device_of(queues: dict[int, Queue], segments: dict[int, Segment]) -> Device:
    """They take the first sectors of the object area, then comes their table, and those after it are free."""
    numbers = clock(9, 2, len(queues) + 1, 1, 1, 1, len(segments) + 1)
    objects = state(numbers, processes(), queues, segments=segments)
    return Device(STANDARD).save(1, objects, count(OBJECTS))


def full_device(messages: dict[int, tuple[tuple[int, bytes], ...]], changes: bool = True) -> Device:
    """A device that has these queues and a full journal, so that its open saves. The journal changes each queue, or
    none."""
    device = device_of({number: Queue(number, them, qbytes=16384) for number, them in messages.items()}, {})
    sets = [request(9, 2, struct.pack(">I", 1) + set_queue(number)) for number in messages]
    first = batch(connect(9, 1, 1000, 100), *sets) if changes else batch(RESTART)
    return device.journal(1, first, *(256 - sectors_of(len(first))) * [batch(RESTART)])


def taken_of(device: Device) -> int:
    """How many sectors the objects and their table take."""
    return device.chain[-1] + 1 - OBJECTS


def rows_of(messages: dict[int, tuple[tuple[int, bytes], ...]]) -> str:
    row = "msg {0:10} {0:11} 0600       1000        100 {1:10} {2:10}\n"
    return "".join(row.format(q, sum(len(text) for _, text in it), len(it)) for q, it in messages.items())


def saves_in_pieces(writes: list[Call], *runs: tuple[int, int]) -> None:
    """These writes are a save's, into these runs, each a first sector and how many neighbours: 64 sectors in each write
    but the last of a run."""
    wanted = [(first + at, SECTOR * min(PIECE, many - at)) for first, many in runs for at in range(0, many, PIECE)]
    found = [(call.sector, call.result) for call in writes]
    check(found == wanted, f"a save into {runs} writes {found[:3]}.. {len(found)}, not {len(wanted)}")


def first_save(them: list[Call]) -> list[Call]:
    """The writes of the first save."""
    writes = [call for call in them if call.name == "pwrite"]
    roots = [at for at, call in enumerate(writes) if call.sector == ROOT]
    check(roots != [], "nothing was saved")
    return [call for call in writes[: roots[0]] if call.sector >= OBJECTS]


def open_and_save(them: list[Call], device: Device, written: int) -> None:
    """An open reads each sector that counts once, and makes a save of so many sectors in as few writes as may be."""
    reads = [call for call in them if call.name == "pread"]
    places = sorted(place for call in reads for place in range(call.sector, call.sector + call.result // SECTOR))
    taken = taken_of(device)
    wanted = [0, ROOT, 3, *range(BODY, BODY + 256), *range(OBJECTS, OBJECTS + taken)]
    check(places == wanted, f"an open reads {len(places)} sectors, and not {len(wanted)} once each")
    saves_in_pieces(first_save(them), (OBJECTS + taken, written))


def queues_at_their_bounds() -> None:
    """They are opened, saved, listed and served, and nothing is refused for memory. An open writes those that the
    journal has changed, the four objects of each state, and the table."""
    for changes in True, False:
        device = full_device(BOUNDS, changes)
        taken, table = taken_of(device), len(device.chain)
        put_into_file("device", device.image)
        with watched(most=0):
            check(printed("dump", "device") == rows_of(BOUNDS), "the device lists something else")
        them = calls()
        follows("SO+SRS[Pc]*", them)
        open_and_save(them, device, taken if changes else 4 + table)
    put_into_file("device", device.image)
    with watched(most=0), serving(), process() as client:
        # Each queue changes by this, in 240 sectors of the journal: a receive and a short text have one each, a text of
        # 8192 bytes has 17.
        for number, messages in BOUNDS.items():
            check(client.msgrcv(number, 8192) == messages[0], f"queue {number} has another first message")
            client.msgsnd(number, *messages[0])
        # Meanwhile a save comes, since each of these has one too.
        for number in BOUNDS:
            client.send(msgsnd_request(number, 1, b"x", IPC_NOWAIT))
            check(client.receive()[1] == errno.EAGAIN, f"queue {number} is not full")
    after = calls()
    served = after[[call.name for call in after].index("write") :]
    # All is written: where the open has freed sectors, and after those that it has taken.
    behind = OBJECTS + taken + 4 + table
    freed = ((OBJECTS, 4), (OBJECTS + taken - table, table))
    saves_in_pieces(first_save(served), *freed, (behind, taken - 4 - table))
    check(printed("dump", "device") == rows_of(BOUNDS), "the queues hold something else")


def cost_of_a_save(each: int) -> float:
    """Of 32 queues of so many messages: the calls are as they should be. Answers the least seconds of the processor
    for an open and a save, of three."""
    device = full_device({number: each * EMPTY for number in range(1, 33)})
    put_into_file("device", device.image)
    with watched(most=0):
        printed("dump", "device")
    open_and_save(calls(), device, taken_of(device))
    least = float("inf")
    for _ in range(3):
        put_into_file("device", device.image)
        before = resource.getrusage(resource.RUSAGE_CHILDREN)
        printed("dump", "device")
        after = resource.getrusage(resource.RUSAGE_CHILDREN)
        least = min(least, after.ru_utime + after.ru_stime - before.ru_utime - before.ru_stime)
    return least


def saves_grow_with_the_messages() -> None:
    """Eight times the messages are about eight times the work. Were it their square it would be 64 times."""
    few, many = cost_of_a_save(2048), cost_of_a_save(16384)
    # A processor's time may be told in hundredths of a second.
    check(many < 24 * few + 0.1, f"2048 messages a queue take {few:.3f} s, and 16384 take {many:.3f} s")


# ---- saves and opens by what there is

# So many times the processor's time of a byte of full queues may one of another kind take, and so many times its own
# time what has eight times the rows. The second is more where eight times the messages take more than eight times as
# long, and is not asked of what takes no more a byte than they: what fits into a processor's cache is faster.
A_BYTE, EIGHT_TIMES = 4, 10
# Two runs of one script differ by so many seconds of the processor beside other work, however small what they save is:
# each makes a standard device in memory, 129 MB, which takes a tenth of a second and more.
SPREAD = 0.05
# Seconds of a save of the most adjustments that there may be.
ADJUSTMENTS = 0.005
ROUNDS = 20


def asks(connection: int, *requests: bytes) -> str:
    return f"0 data {connection} " + b"".join(frame(1, asked) for asked in requests).hex()


def connected(many: int) -> list[str]:
    """Processes, each by the connection of its pid."""
    return [
        line for number in range(1, many + 1) for line in (f"0 open {number}", asks(number, hello_request(1000, 100)))
    ]


def messages(parts: int) -> list[str]:
    """Two queues, of 16384 messages of a byte if all parts are there."""
    make = asks(1, *2 * [msgget_request(0, IPC_CREAT | 0o600)])
    return [*connected(1), make, *(asks(1, *2048 * parts * [msgsnd_request(number, 1, b"x")]) for number in (1, 2))]


def sets(many: int, semaphores: int) -> str:
    return asks(1, *many * [semget_request(0, semaphores, IPC_CREAT | 0o600)])


def undone(number: int, first: int) -> bytes:
    return semop_request(number, [(semaphore, 1, SEM_UNDO) for semaphore in range(first, first + 32)])


def adjustments(processes: int, of: int) -> list[str]:
    """Each process has one at each of 64 semaphores of so many sets."""
    lists = [undone(number, first) for number in range(1, of + 1) for first in (0, 32)]
    return [*connected(processes), sets(of, 64), *(asks(number, *lists) for number in range(1, processes + 1))]


def adjustments_of_processes(parts: int) -> list[str]:
    return adjustments(8 * parts, 8)


def adjustments_at_semaphores(parts: int) -> list[str]:
    return adjustments(64, parts)


def descriptors(parts: int) -> list[str]:
    """Processes that have as many as they may."""
    opens = 32 * [sem_open_request("/gate", O_CREAT, 0o600)]
    return [*connected(8 * parts), *(asks(number, *opens) for number in range(1, 8 * parts + 1))]


def calls_that_wait(parts: int) -> list[str]:
    """Each to send 8192 bytes to a queue that is full."""
    send = msgsnd_request(1, 1, 8192 * b"x")
    fill = asks(1, msgget_request(0, IPC_CREAT | 0o600), *8 * [send])
    return [*connected(8 * parts), fill, *(asks(number, send) for number in range(1, 8 * parts + 1))]


def semaphore_sets(parts: int) -> list[str]:
    return [*connected(1), sets(4 * parts, 16)]


def posix_queues(parts: int) -> list[str]:
    """Ten messages of 8192 bytes in each."""
    makes = [mq_open_request(f"/{number}", O_CREAT | O_RDWR, 0o600) for number in range(4 * parts)]
    return [*connected(1), *(asks(1, make, *10 * [mq_send_request(fd, 8192 * b"x")]) for fd, make in enumerate(makes))]


def named_semaphores(parts: int) -> list[str]:
    """Each process has 32 descriptors at most."""
    makes = [sem_open_request(f"/{number:0249}", O_CREAT, 0o600) for number in range(8 * parts)]
    return [*connected(-(-parts // 4)), *(asks(1 + number // 32, make) for number, make in enumerate(makes))]


def segments(parts: int) -> list[str]:
    makes = [shm_open_request(f"/{number}", O_CREAT | O_RDWR, 0o600) for number in range(4 * parts)]
    return [*connected(1), *(asks(1, make, ftruncate_request(fd, 32768)) for fd, make in enumerate(makes))]


def by_number(many: int, *requests: Callable[[int], bytes]) -> list[str]:
    """These requests for each of so many identifiers."""
    return [asks(1, *(ask(number) for number in range(1, many + 1) for ask in requests))]


def by_descriptor(many: int, *requests: Callable[[int], bytes]) -> list[str]:
    """The same for descriptors, of which each process has 32."""
    return [
        asks(1 + first // 32, *(ask(fd) for fd in range(min(32, many - first)) for ask in requests))
        for first in range(0, many, 32)
    ]


def set_set(number: int) -> bytes:
    return semctl_set_request(number, 1000, 100, 0o600)


def register(fd: int) -> bytes:
    return mq_notify_request(fd, 1)


def give_up(fd: int) -> bytes:
    return mq_notify_request(fd, 0)


def write_a_byte(fd: int) -> bytes:
    return shm_write_request(fd, 0, b"y")


def read_a_byte(fd: int) -> bytes:
    return shm_read_request(fd, 0, 1)


Lines = Callable[[int], list[str]]


def no_lines(parts: int) -> list[str]:
    return []


class Kind(NamedTuple):
    """How many saves, or opens, of all of it are timed. Lines that change each object, and such that only look at it:
    of what every save writes there are none."""

    many: int
    changes: Lines = no_lines
    looks: Lines = no_lines


KINDS: dict[Lines, Kind] = {
    messages: Kind(32, lambda parts: by_number(2, set_queue), lambda parts: by_number(2, msgctl_stat_request)),
    adjustments_of_processes: Kind(16),
    adjustments_at_semaphores: Kind(16),
    descriptors: Kind(100),
    calls_that_wait: Kind(50),
    semaphore_sets: Kind(
        200, lambda parts: by_number(4 * parts, set_set), lambda parts: by_number(4 * parts, semctl_stat_request)
    ),
    posix_queues: Kind(
        16,
        lambda parts: by_descriptor(4 * parts, register, give_up),
        lambda parts: by_descriptor(4 * parts, mq_getattr_request, mq_getattr_request),
    ),
    named_semaphores: Kind(
        200,
        lambda parts: by_descriptor(8 * parts, sem_post_request),
        lambda parts: by_descriptor(8 * parts, sem_getvalue_request),
    ),
    segments: Kind(
        40,
        lambda parts: by_descriptor(4 * parts, write_a_byte),
        lambda parts: by_descriptor(4 * parts, read_a_byte),
    ),
}


def run_script(lines: list[str], *words: str) -> tuple[float, str]:
    """Runs the program on a script. Answers the seconds of the processor, and what it prints."""
    script = "".join(line + "\n" for line in lines)
    before = resource.getrusage(resource.RUSAGE_CHILDREN)
    ended = subprocess.run([PROGRAM, *words], input=script, capture_output=True, text=True, timeout=TIMEOUT)
    after = resource.getrusage(resource.RUSAGE_CHILDREN)
    check((ended.returncode, ended.stderr) == (0, ""), ended.stderr)
    return after.ru_utime + after.ru_stime - before.ru_utime - before.ru_stime, ended.stdout


def lengths_of(lines: list[str]) -> tuple[int, int]:
    """How many bytes a save has of what a script makes: of the four objects of each state, and of the others. No
    request of it is refused."""
    printed("format", "device")
    _, output = run_script(lines, "run", "device")
    answers = [line.split()[1] for line in output.splitlines()]
    check(all(answer[16:20] == "0000" for answer in answers), f"a script is answered {answers[:3]}..")
    placed = Heap(memoryview(Path("device").read_bytes()), TWO).placed
    return sum(one.length for one in placed[:4]), sum(one.length for one in placed[4:])


class Times:
    """The least seconds of the processor for a script that ends with a save, and for it and so many saves or opens. If
    there are lines that change each object, they come before each of these saves; and lines that only look at it come
    before as many, which write what is written always."""

    def __init__(self, lines: list[str], many: int, changes: list[str], looks: list[str]) -> None:
        self.lines = [*lines, "save"]
        always, others = lengths_of([*self.lines, *changes, *looks])
        self.bytes = {"save": others if changes else always, "stop": always + others}
        # Each open takes a sector of the journal, which has 256.
        self.many = {"save": many, "stop": min(many, 200)}
        self.more = {"": [], "save": many * [*changes, "save"], "stop": self.many["stop"] * ["stop"]}
        if looks:
            self.more["look"] = many * [*looks, "save"]
        self.least = dict.fromkeys(self.more, math.inf)

    def measure(self) -> None:
        for what, lines in self.more.items():
            taken, _ = run_script([*self.lines, *lines], "replay")
            self.least[what] = min(self.least[what], taken)

    def looked(self, what: str) -> bool:
        return what == "save" and "look" in self.more

    def of(self, what: str) -> float:
        return (self.least[what] - self.least["look" if self.looked(what) else ""]) / self.many[what]

    def beside(self, nothing: Times, what: str) -> tuple[float, int]:
        """The seconds of it that one of nothing does not take, and the bytes."""
        if self.looked(what):
            return self.of(what), self.bytes[what]
        return self.of(what) - nothing.of(what), self.bytes[what] - nothing.bytes[what]


def too_dear(nothing: Times, each: dict[str, tuple[Times, Times]]) -> list[str]:
    """What takes more than it may, of kinds with an eighth of what they may have, and with all of it."""
    found = []
    for what in "save", "stop":
        word = "save" if what == "save" else "open"

        def a_byte(times: Times) -> float:
            seconds, size = times.beside(nothing, what)
            return seconds / size

        an_eighth, full = each["messages"]
        full_queues = a_byte(full)
        growth = EIGHT_TIMES * max(1, full.of(what) / an_eighth.of(what) / 8)
        for kind, (few, most) in each.items():
            spread = SPREAD / most.many[what]
            seconds, size = most.beside(nothing, what)
            is_dear = seconds - spread > A_BYTE * full_queues * size
            grows = most.of(what) - spread > growth * max(few.of(what), 0)
            if is_dear or (grows and a_byte(most) > full_queues):
                both = f"{1000 * most.of(what):.3f} ms, and of an eighth {1000 * few.of(what):.3f} ms"
                bytes_of_both = f"{1e9 * a_byte(most):.2f} ns a byte, and of full queues {1e9 * full_queues:.2f}"
                found.append(f"{kind}: {word} takes {both}; {bytes_of_both}")
    taken = each["adjustments_of_processes"][1].of("save")
    if taken > ADJUSTMENTS:
        found.append(f"a save of 32768 adjustments takes {1000 * taken:.1f} ms")
    return found


def times_of(lines: Lines, kind: Kind, parts: int) -> Times:
    return Times(lines(parts), kind.many * 8 // parts, kind.changes(parts), kind.looks(parts))


def saves_and_opens_by_what_there_is() -> None:
    """What one takes grows as the bytes do that it writes or reads, whatever kind is at its bounds. Seconds are the
    least of some rounds: no more than it takes until nothing is too dear."""
    nothing = Times([], 400, [], [])
    each = {lines.__name__: (times_of(lines, kind, 1), times_of(lines, kind, 8)) for lines, kind in KINDS.items()}
    for _ in range(ROUNDS):
        for times in (nothing, *(one for both in each.values() for one in both)):
            times.measure()
        found = too_dear(nothing, each)
        if not found:
            return
    check(False, "; ".join(found))


# ---- a save beside what has not changed

SEND = [asks(1, msgsnd_request(1, 1, b"hi")), "save"]
SAVES = 100


def device_beside(much: bool) -> Device:
    """A queue without messages; and 31 of eight messages of 2000 bytes and a segment of 1 MiB."""
    full = Queue(0, 8 * ((1, 2000 * b"x"),), qbytes=16384)
    queues = {number: full if number > 1 else full._replace(messages=()) for number in range(1, 33 if much else 2)}
    return device_of(queues, {1: Segment(b"/full", STANDARD.segment_bytes * b"\xa5")} if much else {})


def sectors_beside_much() -> None:
    """After a send of two bytes a save writes the four objects of each state and the queue, a sector of each, the
    table, and the root. The table has of each object 16 bytes, and four for each of its sectors: of 5 objects in 5
    sectors it takes one; with 31 queues in 32 sectors each and a segment in 2049, of 3046 sectors in all, it has 12780
    bytes and takes 26. So there it is 16 KiB that is written; 64 are allowed."""
    for much, table in (False, 1), (True, 26):
        put_into_file("device", device_beside(much).image)
        with watched(most=0):
            run_script([*connected(1), *SEND], "run", "device")
        them = calls()
        found = re.sub("[iPc]", "", order(them))
        check(re.fullmatch("SBSHS(BSHS){2}O+SRS", found) is not None, f"the calls are {found}")
        root = next(call for call in them if call.sector == ROOT and call.name == "pwrite")
        written = sum(call.result for call in [*first_save(them), root])
        check(written == SECTOR * (5 + table + 1), f"a save writes {written} bytes, with {table} sectors of the table")


class SaveTimes:
    """The least seconds of the processor for a script, and for it and so many sends of two bytes, each with a save."""

    def __init__(self, device: Device) -> None:
        self.image = bytes(device.image)
        self.least = {0: math.inf, SAVES: math.inf}

    def measure(self) -> float:
        """Of a send and a save."""
        for many in self.least:
            put_into_file("device", self.image)
            taken, _ = run_script([*connected(1), *many * SEND], "run", "device")
            self.least[many] = min(self.least[many], taken)
        return (self.least[SAVES] - self.least[0]) / SAVES


def saves_beside_much() -> None:
    """One takes at most twice the processor's time of one beside nothing, and a millisecond."""
    nothing, much = (SaveTimes(device_beside(there)) for there in (False, True))
    for _ in range(ROUNDS):
        few, many = nothing.measure(), much.measure()
        if many <= 2 * few + 0.001:
            return
    check(False, f"a save beside much takes {1000 * many:.3f} ms, and beside nothing {1000 * few:.3f} ms")


# ---- moments


# ---- an upgrade

# In seconds of a processor, with the zeros that the file gets.
MOST_OF_AN_UPGRADE = 3.0


def full_old_device() -> Device:
    """A standard device of version 1 with as many objects of each kind, messages, semaphores and bytes as there may be.
    Its journal changes each queue."""
    queues = {number: Queue(number, 16384 * BYTES, qbytes=16384) for number in range(1, 33)}
    sets = {number: Set(0, 16 * ((1, 0),)) for number in range(1, 33)}
    posix = {at: Posix(b"/%d" % at, 10 * ((0, 8192 * b"x"),), maxmsg=10, msgsize=8192) for at in range(1, 33)}
    named = {number: NamedSem(b"/%d" % number) for number in range(1, 65)}
    segments = {number: Segment(b"/%d" % number, 32768 * b"x") for number in range(1, 33)}
    numbers = clock(9, 2, 33, 33, 33, 65, 33, version=ONE)
    objects = state(numbers, processes(), queues, sets, posix=posix, named=named, segments=segments)
    asked = [request(9, 2, struct.pack(">I", 1) + set_queue(number)) for number in queues]
    device = Device(STANDARD_OF_ONE, version=ONE).save(1, objects, count(OBJECTS))
    return device.journal(1, batch(connect(9, 1, 1000, 100), *asked))


def an_upgrade_of_much() -> None:
    put_into_file("device", full_old_device().image)
    sectors = need_of(STANDARD)
    before = resource.getrusage(resource.RUSAGE_CHILDREN)
    said = printed("upgrade", "device", "--sectors", str(sectors))
    after = resource.getrusage(resource.RUSAGE_CHILDREN)
    took = after.ru_utime + after.ru_stime - before.ru_utime - before.ru_stime
    check(said == f"upgraded {sectors} sectors\n", f"{said!r} is printed")
    check(len(printed("dump", "device").splitlines()) == 192, "other objects are listed")
    check(took <= MOST_OF_AN_UPGRADE, f"an upgrade takes {took:.2f} s of a processor, and not {MOST_OF_AN_UPGRADE}")


def milliseconds() -> int:
    return time.time_ns() // 10**6


def moments() -> None:
    """They are milliseconds of the system's clock: in the journal, and in the objects that are saved after a stop."""
    printed("format", "device", "--small")
    bounds = []
    with serving(limits="small"), process() as client:
        queues = [client.msgget(key, IPC_CREAT | 0o600) for key in (1, 2)]
        for queue in queues:
            before = milliseconds()
            # The turn after this reply begins after `before`.
            client.msgget(1, 0)
            client.msgsnd(queue, 1, b"x")
            bounds.append((before, milliseconds()))
            time.sleep(1)
    content = read(Path("device").read_bytes())
    records = [record for records in content.batches for record in records]
    sent = [int.from_bytes(record[1:9], "big") for record in records if record[0] == 2 and record[17] == 0x0B]
    script = subprocess.run(
        [PROGRAM, "run", "device"], input="save\n", capture_output=True, text=True, timeout=TIMEOUT
    )
    check((script.returncode, script.stderr) == (0, ""), f"{script}")
    objects = dict(read(Path("device").read_bytes()).objects)
    saved = [int.from_bytes(objects[QUEUE_KIND + queue][24:32], "big") for queue in queues]
    check(len(sent) == 2, f"{len(sent)} sends are in the journal")
    for found in (sent, saved):
        for moment, (first, last) in zip(found, bounds):
            check(first <= moment <= last, f"{moment} is not from {first} to {last}")


TESTS = [
    moments,
    clients_beyond_the_hundredth,
    saves_and_opens_by_what_there_is,
    saves_beside_much,
    an_upgrade_of_much,
]
WATCHED = [
    turns_that_are_idle,
    waits,
    commits,
    queues_at_their_bounds,
    saves_grow_with_the_messages,
    sectors_beside_much,
]


def main() -> None:
    with in_a_folder(300):
        run_tests("costs", [*TESTS, *(WATCHED if build("costs") else [])])


if __name__ == "__main__":
    main()
