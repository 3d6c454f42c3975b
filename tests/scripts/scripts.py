"""Scripts on the built program: what it prints and says, its exit status, and what lasts.

    python3 tests/scripts/scripts.py PROGRAM

The rows of tests/scripts/rows.txt, the bytes of a client cut in every way, connection numbers that are used
again, each fault of a script, long scripts under standard limits, and device files that a script
has left. What is expected was reckoned from docs/PROTOCOL.md, and never taken from the program. It
takes some seconds.
"""

from __future__ import annotations

import os
import resource
import signal
import socket
import struct
import subprocess
import sys
import tempfile
from collections.abc import Callable, Iterator
from concurrent.futures import ThreadPoolExecutor
from contextlib import suppress
from functools import partial
from itertools import accumulate
from pathlib import Path
from typing import NamedTuple

PROGRAM = os.path.abspath(sys.argv[1])
ROWS = Path(__file__).resolve().with_name("rows.txt")
TIMEOUT = 300
SMALL = ("replay", "--small")


def check(holds: bool, text: str) -> None:
    if not holds:
        sys.exit(f"scripts: {text}")


class Run(NamedTuple):
    """A run of the program: its name here, its script, and all that is to come of it."""

    name: str
    script: str
    output: str
    words: tuple[str, ...] = SMALL
    status: int = 0
    said: str = ""

    def compare(self, status: int, output: bytes, errors: bytes) -> None:
        said = f"ipcd: {self.said}\n".encode() if self.said else b""
        check(errors == said, f"{self.name}: {errors!r} is said, and not {said!r}")
        check(status == self.status, f"{self.name}: status {status}, not {self.status}")
        wanted = self.output.encode()
        check(output == wanted, f"{self.name}: {output[:2000]!r} is printed, not {wanted[:2000]!r}")

    def passes(self, **streams: object) -> None:
        """Runs it. Its script comes on a pipe and its output is taken, if no stream is given."""
        if "stdin" not in streams:
            streams["input"] = self.script.encode()
        streams = {"stdout": subprocess.PIPE, **streams}
        ended = subprocess.run(
            [PROGRAM, *self.words], stderr=subprocess.PIPE, timeout=TIMEOUT, **streams
        )
        self.compare(ended.returncode, ended.stdout or b"", ended.stderr)


# ---- rows


def rows() -> list[Run]:
    """The rows of the file, in the form that its head tells."""
    _, *texts = ROWS.read_text().split("\n= ")
    found = []
    for text in texts:
        name, _, rest = text.partition("\n")
        script, _, output = rest.partition("\n-\n")
        found.append(Run(name, script + "\n", output.rstrip("\n") + "\n"))
    return found


def passes_slowly(run: Run) -> None:
    """Each read gives one byte of the script: a socket keeps apart what it was sent in packets."""
    ours, theirs = socket.socketpair(socket.AF_UNIX, socket.SOCK_SEQPACKET)
    ours.settimeout(TIMEOUT)
    pipe = subprocess.PIPE
    with ours:
        with theirs:
            words = [PROGRAM, *run.words]
            process = subprocess.Popen(words, stdin=theirs, stdout=pipe, stderr=pipe)
        # A program that has ended early says why.
        with suppress(BrokenPipeError):
            for byte in run.script.encode():
                ours.send(bytes([byte]))
            ours.shutdown(socket.SHUT_WR)
        output, errors = process.communicate(timeout=TIMEOUT)
    run.compare(process.returncode, output, errors)


# ---- streams of a client


class Call(NamedTuple):
    """The digits that connection 1 sends, and the lines that answer them."""

    sent: str
    answer: str


EPROTO = "1 00000006000000000047\n1 end\n"
# A user 1000 of group 100; the queue of key 1234, made if there is none; `hi` of type 5; the first
# message of any type, of at most 64 bytes; and the same once the queue is empty: ENOMSG is 42.
HELLO = Call("0000000d0000000101000003e800000064", "1 0000000a00000001000000000001\n")
GET = Call("0000000d000000020a000004d200000380", "1 0000000a00000002000000000001\n")
SEND = Call("00000017000000030b000000010000080000000000000000056869", "1 00000006000000030000\n")
RECEIVE = Call(
    "00000019000000040c0000000100000800000000400000000000000000",
    "1 0000001000000004000000000000000000056869\n",
)
RECEIVE_AGAIN = Call(
    "00000019000000050c0000000100000800000000400000000000000000", "1 0000000600000005002a\n"
)
# The same, which waits while the queue is empty; an INTERRUPT, which answers it EINTR, 4, and then itself; what a
# request is answered meanwhile, EALREADY, 114; and an INTERRUPT that finds no call.
WAITING = Call("00000019000000060c0000000100000000000000400000000000000000", "")
INTERRUPT = Call("000000050000000702", "1 00000006000000060004\n1 00000006000000070000\n")
ALREADY = Call("00000009000000080d00000001", "1 00000006000000080072\n")
QUIET = Call("000000050000000902", "1 00000006000000090000\n")
# A set of key 1234 with two semaphores; the values 3 and 32767 for them, which are read back; one value too few for
# them, which is EINVAL, 22; the value of the second, and who has set it.
SEMGET = Call("000000110000000214000004d20000000200000380", "1 0000000a00000002000000000001\n")
SETALL = Call("0000000d000000031c0000000100037fff", "1 00000006000000030000\n")
GETALL = Call("00000009000000041b00000001", "1 0000000a00000004000000037fff\n")
SETALL_FEW = Call("0000000b000000051c000000010003", "1 00000006000000050016\n")
GETVAL = Call("0000000d00000006160000000100000001", "1 0000000a00000006000000007fff\n")
GETPID = Call("0000000d00000007170000000100000001", "1 0000000a00000007000000000001\n")
# Three bytes for values, which are no whole values.
SETALL_HALF = Call("0000000c000000081c00000001000102", "1 00000006000000080047\n1 end\n")
# A length of 0, one of 65793, which is one above the greatest, and an unknown opcode under serial 9.
SHORT = Call("00000000", EPROTO)
LONG = Call("00010101", EPROTO)
UNKNOWN = Call("0000000500000009ff", "1 00000006000000090047\n1 end\n")

STREAMS = {
    "HELLO": [HELLO],
    "a first queue": [HELLO, GET, SEND, RECEIVE, RECEIVE_AGAIN],
    "a call that waits": [HELLO, GET, WAITING, ALREADY, INTERRUPT, QUIET],
    "a fault while a call waits": [HELLO, GET, WAITING, SHORT],
    "a set": [HELLO, SEMGET, SETALL, GETALL, SETALL_FEW, GETVAL, GETPID],
    "half a value for a set": [HELLO, SEMGET, SETALL_HALF],
    "a length of 0 before HELLO": [SHORT],
    "a length of 0": [HELLO, SHORT],
    "a length above the greatest before HELLO": [LONG],
    "a length above the greatest": [HELLO, LONG],
    "an unknown opcode before HELLO": [UNKNOWN],
    "an unknown opcode": [HELLO, UNKNOWN],
    "what comes after a fault is dropped": [HELLO, SHORT, Call(GET.sent, "")],
    "HELLO after a fault is dropped": [HELLO, SHORT, Call(HELLO.sent, ""), Call(GET.sent, "")],
}


def sends(*pieces: str) -> str:
    """Connection 1 is opened, and sends these digits, a line for each piece."""
    return "0 open 1\n" + "".join(f"0 data 1 {piece}\n" for piece in pieces)


def equal_pieces(digits: str, count: int) -> list[str]:
    """The digits in pieces of so many bytes."""
    return [digits[place : place + 2 * count] for place in range(0, len(digits), 2 * count)]


def cuts(name: str, calls: list[Call]) -> Iterator[Run]:
    """A stream in every two pieces, and in equal ones. None has 128 bytes: that is one piece."""
    digits = "".join(call.sent for call in calls)
    output = "".join(call.answer for call in calls)
    for cut in range(2, len(digits), 2):
        yield Run(f"{name}, cut at {cut // 2}", sends(digits[:cut], digits[cut:]), output)
    for count in (1, 2, 3, 5, 8, 128):
        yield Run(f"{name}, by {count}", sends(*equal_pieces(digits, count)), output)


def beginnings(name: str, calls: list[Call]) -> Iterator[Run]:
    """The first bytes of a stream in one piece: a call is answered if its last byte is there."""
    digits = "".join(call.sent for call in calls)
    lasts = list(accumulate(len(call.sent) for call in calls))
    for end in range(2, len(digits) + 2, 2):
        output = "".join(call.answer for last, call in zip(lasts, calls) if last <= end)
        yield Run(f"{name}, {end // 2} bytes", sends(digits[:end]), output)


def marked(name: str, calls: list[Call]) -> Run:
    """A stream byte by byte. After each byte connection 2 comes, breaks off and goes, which marks
    the place in the output: each answer comes with the last byte of its call."""
    script, output = "0 open 1\n", ""
    for call in calls:
        for byte in equal_pieces(call.sent, 1):
            script += f"0 data 1 {byte}\n0 open 2\n0 data 2 {SHORT.sent}\n0 end 2\n"
        mark = "2 00000006000000000047\n2 end\n"
        output += mark * (len(call.sent) // 2 - 1) + call.answer + mark
    return Run(f"{name}, marked", script, output)


def welcome(pid: int, conn: int = 1) -> str:
    return f"{conn} 0000000a000000010000{pid:08x}\n"


def a_number_used_again() -> Run:
    """Six processes have connection 1, one after another. Each second one leaves by a fault, and
    what it sends then is dropped; the others leave with a reply just read."""
    script, output = "", ""
    for pid in range(1, 7):
        last, dropped = (SHORT, [HELLO.sent]) if pid % 2 == 0 else (GET, [])
        script += sends(HELLO.sent, last.sent, *dropped) + "0 end 1\n"
        output += welcome(pid) + last.answer
    return Run("a number that is used again", script, output)


# ---- faults

FAULTS = [
    ("0 open 1\n0 open 1\n", "line 2: connection in use"),
    ("0 end 1\n", "line 1: no such connection"),
    ("0 data 1 00\n", "line 1: no such connection"),
    ("\n", "line 1: bad line"),
    ("0 tick\n\n", "line 2: bad line"),
    ("0 open 1\n0 data 1 000\n", "line 2: bad line"),
    ("0 open 1\n0 data 1 \n", "line 2: bad line"),
    ("0 open 1\n0 data 1\n", "line 2: bad line"),
    ("0 open 1\n0 data 1 0g\n", "line 2: bad line"),
    ("18446744073709551616 tick\n", "line 1: bad line"),
    ("0 open 4294967296\n", "line 1: bad line"),
    ("+1 tick\n", "line 1: bad line"),
    ("1 tick \n", "line 1: bad line"),
    ("1  tick\n", "line 1: bad line"),
    ("tick\n", "line 1: bad line"),
    ("1 tick\r\n", "line 1: bad line"),
    ("1 save\n", "line 1: bad line"),
    (" save\n", "line 1: bad line"),
    ("save \n", "line 1: bad line"),
    ("0 save\n", "line 1: bad line"),
    ("Save\n", "line 1: bad line"),
    ("saves\n", "line 1: bad line"),
    ("stop 1\n", "line 1: bad line"),
    ("1 stop\n", "line 1: bad line"),
    ("0 open 1\nstop\n0 end 1\n", "line 3: no such connection"),
    ("0 open 1\nsave\n0 open 1\n", "line 3: connection in use"),
]


def faults() -> Iterator[Run]:
    """Nothing is printed but what the lines before have."""
    for script, text in FAULTS:
        yield Run(repr(script), script, "", status=2, said=text)
    script = "0 open 1\n0 data 1 00000000\n0 open 1\n0 data 1 00\n"
    in_use = "line 3: connection in use"
    yield Run("lines before a fault", script, EPROTO, status=2, said=in_use)


# ---- standard limits


def frame(body: bytes) -> str:
    return (struct.pack(">I", len(body)) + body).hex()


def msgsnd(serial: int, text: bytes) -> str:
    """A msgsnd to queue 1 with type 5."""
    return frame(struct.pack(">IBIIq", serial, 0x0B, 1, 0, 5) + text)


def msgrcv(serial: int, size: int) -> str:
    """A msgrcv of the first message of queue 1."""
    return frame(struct.pack(">IBIIIq", serial, 0x0C, 1, 0, size, 0))


def msgctl_set(serial: int, qbytes: int) -> str:
    """Queue 1 may hold so many bytes; all else of it stays."""
    return frame(struct.pack(">IBIIIII", serial, 0x0E, 1, 1000, 100, 0o600, qbytes))


def msgget(serial: int, key: int) -> str:
    """The queue of this key, made if there is none."""
    return frame(struct.pack(">IBiI", serial, 0x0A, key, 0o1600))


def msgctl_rmid(serial: int, queue: int) -> str:
    return frame(struct.pack(">IBI", serial, 0x0F, queue))


def semget(serial: int, key: int, nsems: int) -> str:
    """A set of so many semaphores, made if there is none of this key."""
    return frame(struct.pack(">IBiiI", serial, 0x14, key, nsems, 0o1600))


def semctl_setall(serial: int, semid: int, values: list[int]) -> str:
    return frame(struct.pack(f">IBI{len(values)}H", serial, 0x1C, semid, *values))


def semctl_getall(serial: int, semid: int) -> str:
    return frame(struct.pack(">IBI", serial, 0x1B, semid))


def semctl_set(serial: int, semid: int, uid: int, gid: int, mode: int) -> str:
    return frame(struct.pack(">IBIIII", serial, 0x1E, semid, uid, gid, mode))


def semctl_rmid(serial: int, semid: int) -> str:
    return frame(struct.pack(">IBI", serial, 0x1F, semid))


def replied(serial: int, error: int, body: bytes = b"", conn: int = 1) -> str:
    return f"{conn} {frame(struct.pack('>IH', serial, error) + body)}\n"


def received(serial: int, text: bytes, conn: int = 1) -> str:
    return replied(serial, 0, struct.pack(">q", 5) + text, conn)


def long_messages() -> Iterator[Run]:
    """Texts that go through all values of a byte. One byte above the longest is EINVAL, 22."""
    for length, size in ((4097, 4097), (65535, 65536), (65536, 65536)):
        text = bytes(place % 256 for place in range(length))
        script = sends(HELLO.sent, GET.sent, msgsnd(3, text), msgrcv(4, size))
        output = HELLO.answer + GET.answer + replied(3, 0) + received(4, text)
        yield Run(f"a text of {length} bytes", script, output, ("replay",))
    text = bytes(place % 256 for place in range(65537))
    script = sends(HELLO.sent, GET.sent, msgsnd(3, text))
    output = HELLO.answer + GET.answer + replied(3, 22)
    yield Run("a text of 65537 bytes", script, output, ("replay",))


def numbered(serial: int, number: int) -> str:
    return replied(serial, 0, struct.pack(">I", number))


def as_many_queues_as_there_may_be() -> Run:
    """64 of them, and none more: ENOSPC, 28, until one is removed."""
    asked = [msgget(serial, 0) for serial in range(1, 66)]
    output = "".join(numbered(serial, serial) for serial in range(1, 65)) + replied(65, 28)
    asked += [msgctl_rmid(66, 9), msgget(67, 7), msgget(68, 8)]
    output += replied(66, 0) + numbered(67, 65) + replied(68, 28)
    return Run("64 queues", sends(HELLO.sent, *asked), HELLO.answer + output, ("replay",))


def as_many_semaphores_as_there_may_be() -> Run:
    """A set has 64 semaphores at most, and all sets 512: 8 such sets. One semaphore more is ENOSPC, 28, until a set is
    removed; then there may be 64 more, in sets of any sizes. A set of 65 is EINVAL, 22, before all else."""
    asked = [semget(serial, serial, 64) for serial in range(1, 9)]
    output = HELLO.answer + "".join(numbered(serial, serial) for serial in range(1, 9))
    asked += [semget(9, 9, 1), semget(10, 0, 1), semget(11, 9, 65), semget(12, 8, 65), semget(13, 8, 64)]
    output += replied(9, 28) + replied(10, 28) + replied(11, 22) + replied(12, 22) + numbered(13, 8)
    asked += [semctl_rmid(14, 3), semget(15, 9, 1), semget(16, 10, 64), semget(17, 10, 63), semget(18, 11, 1)]
    output += replied(14, 0) + numbered(15, 9) + replied(16, 28) + numbered(17, 10) + replied(18, 28)
    asked += [semctl_rmid(19, 9), semget(20, 11, 2), semget(21, 11, 1), semget(22, 3, 0)]
    output += replied(19, 0) + replied(20, 28) + numbered(21, 11) + replied(22, 22)
    return Run("512 semaphores", sends(HELLO.sent, *asked), output, ("replay",))


def as_many_sets_as_there_may_be() -> Run:
    """32 sets of one semaphore, and none more: ENOSPC, 28."""
    asked = [semget(serial, 0, 1) for serial in range(1, 34)]
    output = "".join(numbered(serial, serial) for serial in range(1, 33)) + replied(33, 28)
    asked += [semctl_rmid(34, 32), semget(35, 0, 64), semget(36, 0, 1)]
    output += replied(34, 0) + numbered(35, 33) + replied(36, 28)
    return Run("32 sets", sends(HELLO.sent, *asked), HELLO.answer + output, ("replay",))


def a_set_of_64() -> Run:
    """Values that go through both bytes, all of them over a save and a stop. One of them is above 32767: ERANGE, 34."""
    values = [number * 520 + 7 for number in range(64)]
    body = struct.pack(">64H", *values)
    wrong = [*values[:-1], 32768]
    asked = [semget(2, -5, 64), semctl_setall(3, 1, values), semctl_setall(4, 1, wrong), semctl_getall(5, 1)]
    output = HELLO.answer + numbered(2, 1) + replied(3, 0) + replied(4, 34) + replied(5, 0, body)
    script = sends(HELLO.sent, *asked) + "save\nstop\n"
    script += sends(HELLO.sent, semctl_getall(6, 1), semctl_setall(7, 1, values[1:]))
    output += welcome(2) + replied(6, 0, body) + replied(7, 22)
    return Run("a set of 64", script, output, ("replay",))


def more_connections_than_processes() -> Run:
    """After 64 processes a HELLO is ENFILE, 23, until one ends. Then it gets the next number."""
    script = "".join(f"0 open {conn}\n0 data {conn} {HELLO.sent}\n" for conn in range(1, 71))
    output = "".join(welcome(conn, conn) for conn in range(1, 65))
    output += "".join(f"{conn} 00000006000000010017\n" for conn in range(65, 71))
    script += "0 end 9\n0 data 65 0000000d0000000201000003e800000064\n"
    output += "65 0000000a00000002000000000041\n"
    return Run("more connections than processes", script, output, ("replay",))


# 63 that wait, and connection 64, which has made the queue; and in which order their calls come.
COME = "".join(f"0 open {conn}\n0 data {conn} {HELLO.sent}\n" for conn in range(1, 65))
COME += f"0 data 64 {GET.sent}\n"
WELCOMED = "".join(welcome(conn, conn) for conn in range(1, 65)) + GET.answer.replace("1 ", "64 ", 1)
ORDER = [conn * 5 % 64 for conn in range(1, 64)]


def as_many_receives_as_may_wait() -> Run:
    """The queue is removed, and each is EIDRM, 43, under its serial."""
    script = COME + "".join(f"0 data {conn} {msgrcv(100 + conn, 65536)}\n" for conn in ORDER)
    script += "0 tick\nsave\n0 data 64 00000009000000030f00000001\n"
    output = WELCOMED + "".join(replied(100 + conn, 43, conn=conn) for conn in range(1, 64))
    return Run("63 receives wait", script, output + replied(3, 0, conn=64), ("replay",))


def as_many_sends_as_may_wait() -> Run:
    """Each of the longest text. The queue may hold none of them, and then one: each receive lets the next one go on,
    in the order in which they came."""
    texts = {conn: bytes([conn]) * 65536 for conn in ORDER}
    script = f"{COME}0 data 64 {msgctl_set(3, 0)}\n"
    script += "".join(f"0 data {conn} {msgsnd(4, texts[conn])}\n" for conn in ORDER)
    script += f"save\n0 data 64 {msgctl_set(5, 65536)}\n"
    output = WELCOMED + replied(3, 0, conn=64)
    output += replied(4, 0, conn=ORDER[0]) + replied(5, 0, conn=64)
    for conn, then in zip(ORDER, [*ORDER[1:], 0]):
        script += f"0 data 64 {msgrcv(6, 65536)}\n"
        output += replied(4, 0, conn=then) if then else ""
        output += received(6, texts[conn], 64)
    return Run("63 sends wait", script, output, ("replay",))


def a_long_script() -> Run:
    """1203 good lines, and a bad one. A thousand of them only open connections."""
    script, output = sends(HELLO.sent, GET.sent), HELLO.answer + GET.answer
    for number in range(100):
        text = struct.pack(">I", number)
        script += "".join(f"0 open {10 * number + digit + 2}\n" for digit in range(10))
        script += f"0 data 1 {msgsnd(3, text)}\n0 data 1 {msgrcv(4, 4)}\n"
        output += replied(3, 0) + received(4, text)
    script += "0 open  1002\n0 data 1 00000000\n"
    return Run("a long script", script, output, ("replay",), 2, "line 1204: bad line")


# ---- devices in files

SECTORS = 1366
SENT = HELLO.answer + GET.answer + SEND.answer
SENDS = sends(HELLO.sent, GET.sent, SEND.sent)
KEY_2 = Call("0000000d000000040afffffffe00000206", "1 0000000a00000004000000000002\n")
LISTING = """\
msg          1        1234 0600       1000        100          2          1
msg          2          -2 0006       1000        100          0          0
"""


def new_device(name: str) -> None:
    output = f"formatted {SECTORS} sectors\n"
    Run(f"{name}: the device", "", output, ("format", "--small", name)).passes()


def next_process(name: str, pid: int) -> None:
    """The next run on a device has this process."""
    Run(f"{name}: the next process", sends(HELLO.sent), welcome(pid), ("run", name)).passes()


def no_longer_files() -> None:
    """No file of a program that begins so gets longer than a device is. The system says so."""
    signal.signal(signal.SIGXFSZ, signal.SIG_IGN)
    resource.setrlimit(resource.RLIMIT_FSIZE, (512 * SECTORS, 512 * SECTORS))


def a_listing() -> None:
    """All of it; and in a file that has room for a hundred bytes more, these."""
    new_device("listing")
    script = f"{SENDS}0 data 1 {KEY_2.sent}\n"
    Run("two keys", script, SENT + KEY_2.answer, ("run", "listing")).passes()
    Run("a listing", "", LISTING, ("dump", "listing")).passes()
    with open("listed", "w+b") as file:
        file.seek(512 * SECTORS - 100)
        cut = Run("a listing that is cut", "", "", ("dump", "listing"), 1, "output fault")
        cut.passes(stdout=file, preexec_fn=no_longer_files)
        file.seek(512 * SECTORS - 100)
        read = file.read()
        check(read == LISTING.encode()[:100], f"{cut.name}: {read!r} is written")


SETS_LISTED = """\
msg          1        1234 0600       1000        100          0          0
sem          1        1234 0600       1000        100          2
sem          3          -2 0046       2000 4294967295          1
"""


def sets_in_a_listing() -> None:
    """After the queues, by rising identifier. The next run goes on with the identifiers."""
    new_device("sets")
    asked = [semget(3, 1234, 2), semget(4, 7, 4), semctl_rmid(5, 2), semget(6, -2, 1)]
    asked.append(semctl_set(7, 3, 2000, 4294967295, 0o7046))
    output = numbered(3, 1) + numbered(4, 2) + replied(5, 0) + numbered(6, 3) + replied(7, 0)
    script = sends(HELLO.sent, GET.sent, *asked)
    Run("two sets", script, HELLO.answer + GET.answer + output, ("run", "sets")).passes()
    Run("a listing of sets", "", SETS_LISTED, ("dump", "sets")).passes()
    script = sends(HELLO.sent, semctl_rmid(2, 3), semget(3, 7, 1))
    Run("a set more", script, welcome(2) + replied(2, 0) + numbered(3, 4), ("run", "sets")).passes()
    first, second, _ = SETS_LISTED.splitlines(keepends=True)
    third = "sem          4           7 0600       1000        100          1\n"
    Run("another listing of sets", "", first + second + third, ("dump", "sets")).passes()


def a_full_journal() -> None:
    """A journal has 256 sectors, and each of these lines but `open` takes one at least."""
    script, output = "", ""
    for pid in range(1, 101):
        script += sends(HELLO.sent) + "0 end 1\n0 tick\n"
        output += welcome(pid)
    new_device("journal")
    Run("a full journal", script, output, ("run", "journal")).passes()
    next_process("journal", 101)


ONE_MESSAGE, _ = LISTING.splitlines(keepends=True)
NO_MESSAGE = "msg          1        1234 0600       1000        100          0          0\n"


def a_full_journal_while_a_call_waits() -> None:
    """The lines fill the journal more than twice, so the call is saved. Then it is answered; or the run is over, and
    after a restart nothing waits."""
    come = sends(HELLO.sent, GET.sent, WAITING.sent) + f"0 open 2\n0 data 2 {HELLO.sent}\n"
    come += 600 * "0 tick\n"
    welcomed = HELLO.answer + GET.answer + welcome(2, 2)
    new_device("waiting")
    script = come + f"0 data 2 {SEND.sent}\n"
    output = welcomed + received(6, b"hi") + replied(3, 0, conn=2)
    Run("a call that was saved", script, output, ("run", "waiting")).passes()
    Run("what it has taken", "", NO_MESSAGE, ("dump", "waiting")).passes()
    new_device("waiting")
    Run("a call at the end of a run", come, welcomed, ("run", "waiting")).passes()
    script = sends(HELLO.sent, GET.sent, SEND.sent)
    output = welcome(3) + GET.answer + SEND.answer
    Run("a message in the next run", script, output, ("run", "waiting")).passes()
    Run("it stays", "", ONE_MESSAGE, ("dump", "waiting")).passes()


# How a script goes on after a message was sent, and what is said.
ENDINGS = [
    ("", ""),
    ("0 end 1\n", ""),
    ("0 save\n", "line 5: bad line"),
    ("0 open 1\n", "line 5: connection in use"),
    ("0 end 2\n", "line 5: no such connection"),
]


def a_message_lasts(last: str, text: str) -> None:
    """A new process, the second one, gets the queue and receives: the message, and then none."""
    name = f"message, then {last.strip() or 'nothing'}"
    new_device(name)
    Run(name, SENDS + last, SENT, ("run", name), 2 if text else 0, text).passes()
    get = "0000000d000000020a000004d200000000"
    script = sends(HELLO.sent, get, RECEIVE.sent, RECEIVE_AGAIN.sent)
    output = welcome(2) + GET.answer + RECEIVE.answer + RECEIVE_AGAIN.answer
    Run(f"{name}, received", script, output, ("run", name)).passes()


def streams_that_fail() -> None:
    """Of a script that is not read nothing is done. What a line does lasts before it is written:
    the process of a HELLO is there, though its answer could not be written."""
    new_device("streams")
    words = ("run", "streams")
    folder = os.open(".", os.O_RDONLY)
    Run("a folder", "", "", words, 1, "input fault").passes(stdin=folder)
    os.close(folder)
    next_process("streams", 1)
    # A script has at most 16777216 bytes.
    Run("too long", SENDS.ljust(16777217, "\n"), "", words, 2, "script too long").passes()
    next_process("streams", 2)
    if Path("/dev/full").is_char_device():
        with open("/dev/full", "wb") as full:
            Run("a full output", SENDS, "", words, 1, "output fault").passes(stdout=full)
        next_process("streams", 4)


def main() -> None:
    # It limits a process that is just made, which is safe only while there are no other threads.
    a_listing()
    all_rows = rows()
    all_cuts = [run for stream in STREAMS.items() for run in cuts(*stream)]
    all_cuts += beginnings("a first queue", STREAMS["a first queue"])
    # The longest come first.
    others = [as_many_sends_as_may_wait(), as_many_receives_as_may_wait(), a_long_script()]
    others += [more_connections_than_processes(), *long_messages(), *faults()]
    others += [as_many_queues_as_there_may_be(), as_many_semaphores_as_there_may_be()]
    others += [as_many_sets_as_there_may_be(), a_set_of_64()]
    others += [marked(*stream) for stream in STREAMS.items()] + [a_number_used_again()]
    devices: list[Callable[[], None]] = [streams_that_fail, a_full_journal, sets_in_a_listing]
    devices.append(a_full_journal_while_a_call_waits)
    devices += [partial(a_message_lasts, *ending) for ending in ENDINGS]
    jobs = [run.passes for run in others] + devices
    jobs += [partial(passes_slowly, row) for row in all_rows]
    jobs += [run.passes for run in [*all_rows, *all_cuts]]
    with ThreadPoolExecutor(os.cpu_count()) as pool:
        # What fails in another thread fails here.
        for _ in pool.map(lambda job: job(), jobs):
            pass
    counts = f"{len(all_rows)} rows, {len(all_cuts)} cuts, {len(others)} other scripts"
    print(f"scripts: {counts}, {len(devices) + 1} devices")


if __name__ == "__main__":
    with tempfile.TemporaryDirectory() as folder:
        os.chdir(folder)
        main()
