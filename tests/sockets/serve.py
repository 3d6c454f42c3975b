"""The built program as a server, run from end to end over its socket.

    python3 tests/sockets/serve.py PROGRAM [SEED]

What is expected was reckoned from docs/PROTOCOL.md, and never taken from the program. The seed,
which is printed, gives what clients ask for and when the server is killed. It takes half a minute.
"""

from __future__ import annotations

import errno
import os
import random
import resource
import select
import signal
import socket
import struct
import subprocess
import sys
import threading
import time
from collections import Counter, defaultdict
from pathlib import Path
from statistics import median

sys.dont_write_bytecode = True
sys.path.insert(0, str(Path(__file__).resolve().parents[1] / "lib"))

from device_layout import LAST_EPOCH, RESTART, ROOT, Device, batch, root  # noqa: E402
from server import (  # noqa: E402
    PROGRAM,
    SEED,
    TIMEOUT,
    Client,
    Server,
    Worker,
    check,
    drain,
    frame,
    full_disk,
    in_a_folder,
    listing,
    printed,
    process,
    reply,
    run,
    run_tests,
    serving,
    until,
)
from client import (  # noqa: E402
    IPC_CREAT,
    IPC_NOWAIT,
    Connection,
    hello_request,
    msgget_request,
    msgrcv_request,
    msgsnd_request,
)

HELLO = hello_request(1000, 100)

# ---- command lines


def refused(status: int, said: str, *words: str) -> None:
    """The program serves nothing, says this, and leaves no socket."""
    ended = run(*words)
    check((ended.returncode, ended.stdout) == (status, ""), f"{words}: {ended}")
    check(said in ended.stderr, f"{words}: {ended.stderr!r}, and not {said!r}")
    check(status == 2 or ended.stderr == said + "\n", f"{words}: {ended.stderr!r} says more")
    check(not os.path.lexists("socket"), f"{words}: a socket is left")


def command_lines() -> None:
    printed("format", "device")
    refused(2, "Usage: ", "serve")
    refused(2, "Usage: ", "serve", "device")
    refused(2, "Usage: ", "serve", "device", "socket", "more")
    for turns in ("x", "-1", "4294967296", ""):
        refused(2, "error: ", "serve", "device", "socket", "--turns", turns)
    refused(1, "ipcd: device fault", "serve", "missing", "socket")
    check(not os.path.exists("missing"), "a device is made")
    os.mkdir("folder")
    refused(1, "ipcd: device fault", "serve", "folder", "socket")
    Path("empty").touch()
    refused(1, "ipcd: not formatted", "serve", "empty", "socket")
    printed("format", "changed", "--small")
    device = Path("changed").read_bytes()
    for place, bit, said in ((11, 4, "version 6"), (11, 1, "damaged sector 0"), (12, 1, "damaged sector 0")):
        changed = device[:place] + bytes([device[place] ^ bit]) + device[place + 1 :]
        Path("changed").write_bytes(changed)
        refused(1, f"ipcd: {said}", "serve", "changed", "socket")
        check(Path("changed").read_bytes() == changed, "a device that is refused is written to")
    refused(1, "ipcd: socket fault", "serve", "device", "")
    refused(1, "ipcd: socket fault", "serve", "device", "missing/socket")
    refused(1, "ipcd: socket fault", "serve", "device", "folder")
    Path("file").write_text("kept")
    refused(1, "ipcd: socket fault", "serve", "device", "file")
    check(Path("file").read_text() == "kept", "a file is touched")
    refused(1, "ipcd: socket fault", "serve", "device", "s" * 108)
    check(not any(name.startswith("sss") for name in os.listdir()), "a long name is cut")
    if os.getuid() != 0:
        os.chmod("folder", 0o555)
        refused(1, "ipcd: socket fault", "serve", "device", "folder/socket")


def device_in_use() -> None:
    with serving(at="other"):
        for words in (["serve", "device", "socket"], ["dump", "device"], ["format", "device"]):
            refused(1, "ipcd: device fault", *words)
        with Connection("other", TIMEOUT) as client:
            client.hello(1000, 100)


def no_standard_output() -> None:
    """The line cannot be printed, and does not get into the device, the first file that is open."""
    ended = subprocess.run(
        [PROGRAM, "serve", "device", "socket"],
        stderr=subprocess.PIPE,
        text=True,
        timeout=TIMEOUT,
        preexec_fn=lambda: os.close(1),
    )
    check((ended.returncode, ended.stderr) == (1, "ipcd: output fault\n"), f"{ended}")
    os.remove("socket")
    check(printed("dump", "device") == "", "it is another device")


def an_interrupted_wait() -> None:
    with serving() as server, process() as client:
        for _ in range(5):
            server.process.send_signal(signal.SIGSTOP)
            time.sleep(0.02)
            server.process.send_signal(signal.SIGCONT)
            time.sleep(0.05)
        client.msgget(1, IPC_CREAT | 0o600)


def turns() -> None:
    for at, number in (("socket", 0), ("socket", 1), ("s" * 107, 3)):
        Server("--turns", str(number), at=at).ends(0)


def a_socket_that_was_left() -> None:
    server = Server("--turns", "1")
    server.process.wait(TIMEOUT)
    with socket.socket(socket.AF_UNIX) as client:
        check(client.connect_ex("socket") == errno.ECONNREFUSED, "somebody serves")
    ended = run("serve", "device", "socket")
    check((ended.returncode, ended.stderr) == (1, "ipcd: socket fault\n"), f"{ended}")
    server.ends(0)


# ---- one connection


def exchange(pid: int) -> list[tuple[bytes, bytes]]:
    """The exchange of docs/PROTOCOL.md: requests and their replies."""
    rows = [
        ("0000000d 00000001 01 000003e8 00000064", f"0000000a 00000001 0000 {pid:08x}"),
        ("0000000d 00000002 0a 000004d2 00000380", "0000000a 00000002 0000 00000001"),
        (
            "00000017 00000003 0b 00000001 00000800 0000000000000005 6869",
            "00000006 00000003 0000",
        ),
        (
            "00000019 00000004 0c 00000001 00000800 00000040 0000000000000000",
            "00000010 00000004 0000 0000000000000005 6869",
        ),
    ]
    return [(bytes.fromhex(request), bytes.fromhex(answer)) for request, answer in rows]


def exchanges() -> None:
    """Request by request, byte by byte, and as one piece, after which the client sends no more."""
    printed("format", "device", "--small")
    with serving(limits="small"):
        with Client() as client:
            for request, answer in exchange(1):
                client.send_bytes(request)
                client.is_answered(answer)
        with Client() as client:
            for request, answer in exchange(2):
                for byte in request:
                    client.send_bytes(bytes([byte]))
            client.is_answered(b"".join(answer for _, answer in exchange(2)))
        with Client() as client:
            client.send_bytes(b"".join(request for request, _ in exchange(3)))
            client.send_no_more()
            client.is_answered(b"".join(answer for _, answer in exchange(3)))
            client.is_ended()


def unfinished_requests() -> None:
    """Clients stop in the midst of a request: one goes on, and one leaves. Others are served."""
    printed("format", "device")
    with serving(), process() as slow, process() as gone, process() as other:
        queue = other.msgget(1, IPC_CREAT | 0o600)
        request = frame(9, msgsnd_request(queue, 1, b"slow"))
        slow.send_bytes(request[:-1])
        gone.send_bytes(frame(9, msgsnd_request(queue, 1, b"gone"))[:-1])
        time.sleep(0.3)
        other.msgsnd(queue, 1, b"other")
        other.interrupt()
        slow.send_bytes(request[-1:])
        slow.is_answered(reply(9, 0))
        gone.close()
        time.sleep(0.3)
        check(drain(other, queue) == [b"other", b"slow"], "half a request has an effect")


def faults_of_the_stream() -> None:
    """EPROTO is the last frame. What was sent before the fault is done, and nothing after it."""
    rows = [
        ("00000004", 0),
        ("00010101", 0),
        ("00000005 00000000 0a", 0),
        ("00000005 00000006 02", 6),
        ("00000005 00000007 ff", 7),
        ("0000000d 00000008 0a 000004d2 00000380", 8),
        ("0000000c 00000009 01 000003e8 000000", 9),
        ("0000000d 00000001 01 000003e8 00000064 00000005 0000000a 0a", 10),
        ("0000000d 00000001 01 000003e8 00000064 0000000d 0000000b 01 000003e8 00000064", 11),
        ("0000000d 00000001 01 000003e8 00000064 00000006 0000000c 02 00", 12),
    ]
    rng = random.Random(SEED)
    garbage = [rng.randbytes(rng.randint(3, 20000)) for _ in range(50)]
    with serving() as server, process() as other:
        queue = other.msgget(1, IPC_CREAT | 0o600)
        before = server.descriptors()
        for sent, serial in rows:
            with Client() as client:
                client.send_bytes(bytes.fromhex(sent))
                if serial > 9:
                    check(client.receive()[:2] == (1, 0), "HELLO is refused")
                client.is_answered(reply(serial, errno.EPROTO))
                client.is_ended()
        for sent in garbage:
            with Client() as client:
                # a length that is too large, whatever follows
                client.send_bytes(b"\1" + sent)
                client.is_answered(reply(0, errno.EPROTO))
                client.is_ended()
        with process() as client:
            early, late = (frame(5, msgsnd_request(queue, 1, text)) for text in (b"early", b"late"))
            client.send_bytes(early + bytes(4) + late)
            client.is_answered(reply(5, 0) + reply(0, errno.EPROTO))
            client.is_ended()
        check(drain(other, queue) == [b"early"], "other messages than those before the fault")
        until(lambda: server.descriptors() == before, "connections stay open")


# ---- requests that are sent ahead

LONG = b"x" * 8192


def sends_ahead(pairs: int) -> None:
    """Pairs of a send and a receive of 8192 bytes, of which no reply is received before the last."""
    with process() as client:
        queue = client.msgget(pairs, IPC_CREAT | 0o600)
        for _ in range(pairs):
            client.send(msgsnd_request(queue, 1, LONG))
            client.send(msgrcv_request(queue, len(LONG)))
        for number in range(2, 2 + pairs):
            check(client.receive() == (2 * number - 1, 0, b""), f"send {number} is refused")
            answer = (2 * number, 0, struct.pack(">q", 1) + LONG)
            check(client.receive() == answer, f"receive {number} has another reply")


def counts_bytes(client: Client, requests: list[tuple[bytes, int]]) -> int:
    """Sends requests, each with the most bytes of its reply, and reads nothing while it writes. Before a
    request the replies that may be unread have 4096 bytes at most. Answers how many were unread."""
    unread: list[int] = []
    most = 0
    client._socket.settimeout(TIMEOUT)
    for request, longest in requests:
        while sum(unread) > 4096:
            client.receive()
            del unread[0]
        client._socket.sendall(frame(7, request))
        unread.append(longest)
        most = max(most, len(unread))
    client._socket.setblocking(False)
    for _ in unread:
        client.receive()
    return most


def requests_ahead() -> None:
    """The example's client may send any number ahead. One that does not read meanwhile may send if the
    replies which it has not read are 4096 bytes at most, whatever room its socket has."""
    with serving():
        for pairs in (1, 31, 200):
            sends_ahead(pairs)
        with process() as client:
            client._socket.setsockopt(socket.SOL_SOCKET, socket.SO_SNDBUF, 1)
            queue = client.msgget(1234, IPC_CREAT | 0o600)
            # A full queue's EAGAIN has as many bytes as a success.
            sends = [(msgsnd_request(queue, 1, LONG, IPC_NOWAIT), 10)] * 2000
            most = counts_bytes(client, sends)
            check(most == 410, f"{most} replies of 10 bytes were unread, and not 410")
            drain(client, queue)
            pairs = [(msgsnd_request(queue, 1, LONG), 10), (msgrcv_request(queue, 8192), 8210)] * 300
            most = counts_bytes(client, pairs)
            check(most == 2, f"{most} replies were unread, and not 2")


# ---- many connections


def as_many_processes_as_may_be() -> None:
    with serving(), Client() as client:
        processes = [process() for _ in range(64)]

        def becomes_process() -> bool:
            client.send(HELLO)
            error = client.receive()[1]
            check(error in (0, errno.ENFILE), f"HELLO is answered {error}")
            return error == 0

        check(not becomes_process() and not becomes_process(), "a process too many")
        processes.pop().close()
        until(becomes_process, "no place gets free")
        for other in processes:
            other.close()


def more_clients_than_descriptors() -> None:
    """Those for whom the server has no descriptor wait until others have left."""
    few = (30, 30)
    with serving(prepare=lambda: resource.setrlimit(resource.RLIMIT_NOFILE, few)):
        waiting = [Client() for _ in range(60)]
        for client in waiting:
            client.send(HELLO)
        while waiting:
            answered, _, _ = select.select(waiting, [], [], TIMEOUT)
            check(bool(answered), f"{len(waiting)} clients wait, though others have left")
            for client in answered:
                check(client.receive()[1] == 0, "HELLO is refused")
                client.close()
                waiting.remove(client)


def many_connections() -> None:
    """What 10,000 short connections and 1,000 silent ones take of memory, the next ones take again.

    How much that is depends on how many of them are there at a time, and it stays. So of some rounds the median
    one leaves no 600 kB more: a hundredth of the short ones would take twice that. All together leave no eight
    megabytes."""
    with serving() as server, process() as other:
        queue = other.msgget(1, IPC_CREAT | 0o600)
        quiet = server.descriptors()

        def come_and_go() -> float:
            begun = time.monotonic()
            silent = [Client() for _ in range(1000)]
            until(lambda: server.descriptors() == quiet + 1000, "not all of them are there")
            took = time.monotonic() - begun
            other.msgsnd(queue, 1, b"served")
            check(drain(other, queue) == [b"served"], "another client is not served")
            for client in silent:
                client.close()
            until(lambda: server.descriptors() == quiet, "connections stay open")
            return took

        def short_and_silent() -> float:
            for number in range(10000):
                with socket.socket(socket.AF_UNIX) as short:
                    short.connect("socket")
                    if number % 2:
                        short.sendall(frame(1, HELLO))
            return come_and_go()

        took = [come_and_go()]
        memory = [server.memory()]
        for _ in range(6):
            took.append(short_and_silent())
            memory.append(server.memory())
        # A turn takes 64 of them. Were there a wait of 100 ms after each, this would take 1.5 seconds.
        check(min(took) < 1.4, "the server waits while clients do")
        # The first round may have more at a time than the silent ones before it.
        more = [after - before for before, after in zip(memory[1:], memory[2:])]
        check(median(more) < 600, f"{more} kB more are in memory after each round")
        check(memory[-1] - memory[0] < 8192, f"{memory} kB are in memory")


# ---- messages under load


class Sender(Worker):
    """Sends 200 messages, and after each takes one of some type, if there is one. Client 0 closes
    its socket in the midst of a request."""

    def __init__(self, number: int, queue: int) -> None:
        super().__init__(number, queue)
        self.sent: list[bytes] = []
        self.received: list[tuple[int, bytes]] = []

    def work(self) -> None:
        with process() as client:
            for number in range(200):
                text = b"%d %d" % (self.number, number)
                if (self.number, number) == (0, 100):
                    client.send_bytes(frame(9, msgsnd_request(self.queue, 1, text))[:-1])
                    return
                client.msgsnd(self.queue, self.rng.randint(1, 3), text)
                self.sent.append(text)
                try:
                    mtype = self.rng.choice([0, 1, 2, 3, -2])
                    self.received.append(client.msgrcv(self.queue, 64, mtype, IPC_NOWAIT))
                except OSError as refusal:
                    check(refusal.errno == errno.ENOMSG, f"msgrcv is refused: {refusal}")


class Deaf:
    """A client that sends all that it can, and reads nothing until the others are done."""

    def __init__(self, client: Client, queue: int) -> None:
        self.client = client
        self.queue = queue
        self.texts = [b"%d" % number for number in range(1000)]
        # Each request has a serial of its own, so that each reply is told from the others.
        self.frames = [frame(serial, msgsnd_request(queue, 1, text)) for serial, text in enumerate(self.texts, 1)]
        self.frames += [frame(serial, msgget_request(queue, 0)) for serial in range(1001, 101001)]
        self.unsent = b"".join(self.frames)

    def send(self) -> None:
        """Sends until the server has taken nothing for a while."""
        while select.select([], [self.client], [], 0.5)[1]:
            check(self.unsent != b"", "the server takes requests without end")
            self.unsent = self.unsent[os.write(self.client.fileno(), self.unsent[:65536]) :]

    def read(self) -> None:
        """Reads the reply to each request that was sent whole. Each is there once, and in order."""
        sent = sum(map(len, self.frames)) - len(self.unsent)
        for serial, request in enumerate(self.frames, 1):
            sent -= len(request)
            if sent < 0:
                return
            body = b"" if serial <= len(self.texts) else struct.pack(">I", self.queue)
            self.client.is_answered(reply(serial, 0, body))


def in_order(texts: list[bytes]) -> bool:
    """What each client has sent comes in the order in which it was sent."""
    numbers = defaultdict(list)
    for text in texts:
        client, number = text.split()
        numbers[client].append(int(number))
    return all(sent == sorted(sent) for sent in numbers.values())


def left_over(senders: list[Sender]) -> dict[int, list[bytes]]:
    """What was sent to each queue, and not received. Nothing was received twice."""
    left: dict[int, Counter[bytes]] = defaultdict(Counter)
    for sender in senders:
        left[sender.queue].update(sender.sent)
    for sender in senders:
        left[sender.queue].subtract(text for _, text in sender.received)
        for mtype in (1, 2, 3):
            texts = [text for of, text in sender.received if of == mtype]
            check(in_order(texts), f"client {sender.number} receives {texts} of type {mtype}")
    counts = {count for texts in left.values() for count in texts.values()}
    check(counts <= {0, 1}, "a message was received twice, or never sent")
    return {queue: list(texts.elements()) for queue, texts in sorted(left.items())}


def sixty_clients() -> None:
    """Each message whose send was answered is received once, then or after a restart."""
    printed("format", "device")
    with serving() as server, process() as client, process() as silent:
        queues = [client.msgget(key, IPC_CREAT | 0o600) for key in range(1, 22)]
        deaf = Deaf(silent, queues.pop())
        deaf.send()
        until(server.is_idle, "a client that reads nothing keeps the server busy")
        senders = [Sender(number, queues[number % 20]) for number in range(59)]
        for sender in senders:
            sender.start()
        for sender in senders:
            sender.finish()
        deaf.read()
    left = left_over(senders)
    left[deaf.queue] = deaf.texts
    check(printed("dump", "device") == listing(left), "other messages are kept than those left")
    with serving(), process() as client:
        for queue, texts in left.items():
            drained = drain(client, queue)
            check(sorted(drained) == sorted(texts), f"queue {queue} gives {drained}, not {texts}")
            check(queue == deaf.queue or in_order(drained), f"queue {queue} gives {drained}")
    check(printed("dump", "device") == listing(dict.fromkeys(left, [])), "messages come twice")


# ---- crashes


class Survivor(Worker):
    """A client that goes on over crashes of the server. Its messages have a type of their own, so
    its requests and their replies tell what its queue may hold. Of the requests without a reply at
    a crash some first ones were done, and the others not. A request is the text to send, or None to
    receive."""

    over = threading.Event()

    def __init__(self, number: int, queue: int) -> None:
        super().__init__(number, queue)
        self.mtype = number + 1
        self.ahead = number % 4 + 1
        self.possible: set[tuple[bytes, ...]] = {()}
        self.sent = 0
        self.replies = 0
        self.unanswered = 0

    def work(self) -> None:
        while not self.over.is_set():
            pending: list[tuple[int, bytes | None]] = []
            try:
                with process() as client:
                    self.go_on(client, pending)
            except (FileNotFoundError, ConnectionError):
                self.lose(pending)
                time.sleep(0.01)

    def go_on(self, client: Client, pending: list[tuple[int, bytes | None]]) -> None:
        """Sends requests ahead and takes their replies, until the load is over."""
        serial = 1
        while pending or not self.over.is_set():
            while len(pending) < self.ahead and not self.over.is_set():
                serial += 1
                pending.append((serial, self.choose()))
                client.send(self.spelled(pending[-1][1]))
            self.learn(pending[0], client.receive())
            del pending[0]

    def choose(self) -> bytes | None:
        """To receive, if it is not known what the queue holds, or the more, the more it holds."""
        if len(self.possible) > 1 or self.rng.random() < len(min(self.possible)) / 20:
            return None
        self.sent += 1
        return b"%d %d" % (self.number, self.sent)

    def spelled(self, request: bytes | None) -> bytes:
        if request is None:
            return msgrcv_request(self.queue, 64, self.mtype, IPC_NOWAIT)
        return msgsnd_request(self.queue, self.mtype, request, IPC_NOWAIT)

    def done(self, held: tuple[bytes, ...], request: bytes | None) -> tuple:
        """What the queue holds after a request, and its error number and body."""
        if request is not None:
            return (*held, request), 0, b""
        if not held:
            return held, errno.ENOMSG, b""
        return held[1:], 0, struct.pack(">q", self.mtype) + held[0]

    def learn(self, asked: tuple[int, bytes | None], answer: tuple[int, int, bytes]) -> None:
        """Only what would have given this reply is possible now."""
        serial, request = asked
        after = (self.done(held, request) for held in self.possible)
        possible = {held for held, *rest in after if (serial, *rest) == answer}
        check(bool(possible), f"{asked} is answered {answer}, of {self.possible}")
        self.possible = possible
        self.replies += 1

    def lose(self, pending: list[tuple[int, bytes | None]]) -> None:
        """No reply to these came, and none will."""
        self.unanswered += len(pending)
        last = self.possible
        for _, request in pending:
            last = {self.done(held, request)[0] for held in last}
            self.possible = self.possible | last


def replies(survivors: list[Survivor]) -> int:
    for survivor in survivors:
        survivor.look()
    return sum(survivor.replies for survivor in survivors)


def crashes() -> None:
    """The server is killed at 20 moments. What was answered stays so, and nothing comes twice."""
    rng = random.Random(SEED)
    printed("format", "device")
    with serving(), process() as client:
        queues = [client.msgget(key, IPC_CREAT | 0o600) for key in range(1, 31)]
    survivors = [Survivor(number, queues[number % 30]) for number in range(60)]
    server = Server()
    try:
        for survivor in survivors:
            survivor.start()
        for _ in range(20):
            enough = replies(survivors) + 60
            until(lambda: replies(survivors) > enough, "clients are not answered")
            time.sleep(rng.uniform(0, 0.2))
            server.stop(signal.SIGKILL)
            server = Server()
        Survivor.over.set()
        for survivor in survivors:
            survivor.finish()
        with process() as client:
            for survivor in survivors:
                texts = drain(client, survivor.queue, survivor.mtype)
                check(tuple(texts) in survivor.possible, f"{texts}, of {survivor.possible}")
        server.stop()
    finally:
        server.process.kill()
    check(printed("dump", "device") == listing(dict.fromkeys(queues, [])), "messages are left over")
    unanswered = sum(survivor.unanswered for survivor in survivors)
    print(f"serve: {replies(survivors)} replies, {unanswered} requests without one")


# ---- a disk that fails


def failing_device() -> None:
    """Each connection has an EIO frame as its last, and what was answered before is kept."""
    failure = (0, errno.EIO, b"")
    printed("format", "device", "--small")
    server = Server(limits="small", prepare=full_disk)
    try:
        silent = [Client(), process()]
        client = process()
        queue = client.msgget(1, IPC_CREAT | 0o600)
        sent = 0
        while True:
            serial = client.send(msgsnd_request(queue, 1, b"x", IPC_NOWAIT))
            answer = client.receive()
            if answer == failure:
                break
            # 128 messages are as many as a queue may hold
            error = 0 if sent < 128 else errno.EAGAIN
            check(answer == (serial, error, b""), f"{answer}, with {sent} messages sent")
            sent = min(sent + 1, 128)
        for other in silent:
            check(other.receive() == failure, "the last frame is another one")
        for other in (client, *silent):
            other.is_ended()
            other.close()
        server.ends(1, "ipcd: device fault\n")
    finally:
        server.process.kill()
    check(printed("dump", "device") == listing({queue: [b"x"] * sent}), f"not {sent} are kept")


def the_last_epoch() -> None:
    """Its journal gets full, and a save would need another epoch: each client is told EIO as its last, and the server
    ends. The device does not open any more."""
    device = Device().put(ROOT, 0, root(LAST_EPOCH, 264, 84))
    Path("device").write_bytes(device.journal(LAST_EPOCH, *200 * [batch(RESTART)]).image)
    server = Server(limits="small")
    try:
        clients = [process(), process(), Client()]
        last, answers = (0, errno.EIO, b""), []
        while len(answers) < 100 and last not in answers:
            serial = clients[0].send(msgget_request(1, 0))
            answers.append(clients[0].receive())
            check(answers[-1] in ((serial, errno.ENOENT, b""), last), f"{answers[-1]} is answered")
        for client in clients[1:]:
            check(client.receive() == last, "the last frame is another one")
        for client in clients:
            client.is_ended()
            client.close()
        server.ends(1, "ipcd: device fault\n")
    finally:
        server.process.kill()
    ended = run("dump", "device")
    check((ended.returncode, ended.stderr) == (1, "ipcd: damaged sector 2\n"), f"{ended}")


TESTS = [
    command_lines,
    device_in_use,
    no_standard_output,
    an_interrupted_wait,
    turns,
    a_socket_that_was_left,
    exchanges,
    unfinished_requests,
    faults_of_the_stream,
    requests_ahead,
    as_many_processes_as_may_be,
    more_clients_than_descriptors,
    many_connections,
    sixty_clients,
    crashes,
    failing_device,
    the_last_epoch,
]


def main() -> None:
    _, most = resource.getrlimit(resource.RLIMIT_NOFILE)
    resource.setrlimit(resource.RLIMIT_NOFILE, (most, most))
    print(f"serve: seed {SEED}", flush=True)
    with in_a_folder(180):
        run_tests("serve", TESTS)


if __name__ == "__main__":
    main()
