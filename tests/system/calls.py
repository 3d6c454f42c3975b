"""In which order the program writes, syncs and answers, and what becomes of a call that is refused.

    python3 tests/system/calls.py PROGRAM

Without a C compiler it says so, and tests nothing. The orders are those of docs/DEVICE.md, and what
clients are told is in docs/PROTOCOL.md. It takes some seconds.
"""

from __future__ import annotations

import errno
import os
import struct
import sys
from pathlib import Path

sys.dont_write_bytecode = True
sys.path[:0] = [str(Path(__file__).resolve().parents[1] / it) for it in ("devices", "lib")]

from device_layout import (  # noqa: E402
    OBJECTS,
    RESTART,
    SECTOR,
    SMALL,
    Device,
    Queue,
    batch,
    clock,
    need_of,
    old_device,
    processes,
    put_into_file,
    state,
)
from server import (  # noqa: E402
    Client,
    Server,
    check,
    in_a_folder,
    listing,
    printed,
    process,
    run,
    run_tests,
    serving,
    until,
)
from client import IPC_CREAT, hello_request, msgrcv_request, msgsnd_request  # noqa: E402
from upgrade import LISTED  # noqa: E402
from watch import OPEN, TURN, Call, Disk, build, calls, follows, order, refused_once, watched, whole_turns  # noqa: E402

FAULT = "ipcd: device fault\n"
LAST = (0, errno.EIO, b"")
SIZE = SECTOR * need_of(SMALL)


# ---- a format


def fills(them: list[Call], first: int) -> int:
    """How many writes fill the file from this place on, one after another, with zeros."""
    at, count = first, 0
    while at < SIZE:
        call = them[count]
        end = min(at - at % 4096 + 4096, SIZE)
        wanted = ("pwrite", end - at, at, end - at, bytes(end - at))
        found = (call.name, *call[2:])
        check(found == wanted, f"at {at} of the file is called {call[:5]}")
        at, count = end, count + 1
    return count


MAKES = "F0SHORS0Sc*Pc*"


def formats() -> None:
    """A new file, a shorter one and a longer one get their length, and are synced with it. The line comes last."""
    for before, first in ((None, 0), (bytes(1000), 1000), (bytes(4096), 4096), (bytes(SIZE), SIZE)):
        Path("device").unlink(missing_ok=True)
        if before is not None:
            Path("device").write_bytes(before)
        with watched():
            printed("format", "device", "--small")
        them = calls()
        follows(MAKES, them[fills(them, first) :])
    Path("device").write_bytes(b"x" * (SIZE + 5000))
    with watched():
        printed("format", "device", "--small")
    them = calls()
    follows("T" + MAKES, them)
    check(them[0].place == SIZE, f"the file is cut to {them[0].place}")


def formats_refused() -> None:
    """Each call of a format in turn. It says so, and a sync that was refused is not tried again."""
    zeros = -(-SIZE // 4096)
    rows = [("pwrite", number, errno.ENOSPC) for number in (1, 2, *range(zeros, zeros + 6))]
    rows += [("fsync", 1, errno.EIO), *(("fdatasync", number, errno.EIO) for number in (1, 2, 3))]
    for name, number, error in rows:
        Path("device").unlink(missing_ok=True)
        with watched(f"{name} {number} {error}"):
            ended = run("format", "device", "--small")
        found = (ended.returncode, ended.stdout, ended.stderr)
        check(found == (1, "", FAULT), f"with {name} {number} refused: {ended}")
        refused_once(calls())
    Path("device").write_bytes(bytes(SIZE + 1))
    with watched(f"ftruncate 1 {errno.EIO}"):
        check(run("format", "device", "--small").stderr == FAULT, "a file that is not cut is formatted")
    refused_once(calls())
    printed("format", "device", "--small")
    check(printed("dump", "device") == "", "it is no new device")


# ---- an open


def kept_device(full: bool) -> tuple[bytes, str]:
    """A device that has a queue with a message, and what `dump` prints of it. With a full journal an open saves."""
    texts = ((5, b"kept"),)
    objects = state(clock(9, 2, 2), processes((1, 1000, 100)), {1: Queue(1, texts)})
    device = Device().save(1, objects, range(OBJECTS, OBJECTS + 6))
    device.journal(1, *(256 if full else 2) * [batch(RESTART)])
    return bytes(device.image), listing({1: [b"kept"]})


def opens_refused() -> None:
    """Each call of an open in turn; of one that saves, some of its reads. What was there is there at the next."""
    for full in (False, True):
        image, wanted = kept_device(full)
        Path("device").write_bytes(image)
        with watched():
            check(printed("dump", "device") == wanted, "the device keeps something else")
        follows("SOSRS[Pc]*" if full else "SBSHS[Pc]*", calls())
        reads = sum(call.name == "pread" for call in calls())
        rows = [("pread", number) for number in ((1, 3) if full else range(1, 1 + reads))]
        rows += [("fdatasync", 1), ("pwrite", 1), ("fdatasync", 2), ("pwrite", 2), ("fdatasync", 3)]
        for name, number in rows:
            Path("device").write_bytes(image)
            with watched(f"{name} {number} {errno.EIO}"):
                ended = run("serve", "device", "socket")
            found = (ended.returncode, ended.stdout, ended.stderr)
            check(found == (1, "", FAULT), f"with {name} {number} refused: {ended}")
            check(not os.path.lexists("socket"), "a socket is left")
            refused_once(calls())
            check(printed("dump", "device") == wanted, f"after {name} {number}: something else is kept")


# ---- an upgrade

# The first sync makes last what is read. The new objects and their table come before the root that names them, and all
# of them before the superblock.
UPGRADES = "SO+SRS0S[Pc]*"


def upgrades() -> None:
    """A file that grows is cut to its whole sectors first, and synced once it has all."""
    Path("device").write_bytes(old_device(need_of(SMALL)))
    with watched():
        printed("upgrade", "device", "--small")
    follows(UPGRADES, calls())
    Path("device").write_bytes(old_device() + b"x")
    with watched():
        printed("upgrade", "device", "--small", "--sectors", str(need_of(SMALL)))
    them = calls()
    follows("TO+F" + UPGRADES, them)
    check(them[0].place == len(old_device()), f"the file is cut to {them[0].place}")


def growth_refused() -> None:
    """A file that cannot grow before an upgrade has its whole sectors again, and is synced no more."""
    image = old_device()
    zeros = -(-(SIZE - len(image)) // 4096)
    rows = [("ftruncate", 1, errno.EIO), ("fsync", 1, errno.EIO)]
    rows += [("pwrite", number, errno.ENOSPC) for number in (1, 2, zeros - 1, zeros)]
    for name, number, error in rows:
        Path("device").write_bytes(image + b"x")
        with watched(f"{name} {number} {error}"):
            ended = run("upgrade", "device", "--small", "--sectors", str(need_of(SMALL)))
        found = (ended.returncode, ended.stdout, ended.stderr)
        check(found == (1, "", FAULT), f"with {name} {number} refused: {ended}")
        check("S" not in order(calls()), f"with {name} {number} refused: it goes on")
        check(Path("device").read_bytes() == image, f"with {name} {number} refused: the file is another one")


def upgrades_refused() -> None:
    """Each call of an upgrade in turn. What was there is there after another upgrade, unless the first has come to its
    end but for the last sync."""
    image = old_device(need_of(SMALL))
    Path("device").write_bytes(image)
    with watched():
        printed("upgrade", "device", "--small")
    names = [call.name for call in calls()]
    rows = [(name, number) for name in ("pread", "pwrite", "fdatasync") for number in range(1, 1 + names.count(name))]
    for name, number in rows:
        Path("device").write_bytes(image)
        with watched(f"{name} {number} {errno.EIO}"):
            ended = run("upgrade", "device", "--small")
        found = (ended.returncode, ended.stdout, ended.stderr)
        check(found == (1, "", FAULT), f"with {name} {number} refused: {ended}")
        refused_once(calls())
        is_done = (name, number) == ("fdatasync", names.count("fdatasync"))
        again = run("upgrade", "device", "--small")
        wanted = "ipcd: version 2\n" if is_done else ""
        check(again.stderr == wanted, f"after {name} {number}: {again}")
        check(printed("dump", "device") == LISTED, f"after {name} {number}: something else is kept")


# ---- replies


def text_of(serial: int) -> bytes:
    return b"<%06d>" % serial


def serials(frames: bytes) -> list[int]:
    """Of the replies that are successes without a body: those to sends."""
    found, at = [], 0
    while at < len(frames):
        length, serial, error = struct.unpack(">IIH", frames[at : at + 10])
        if (length, error) == (6, 0):
            found.append(serial)
        at += 4 + length
    return found


def replies_wait_for_both_syncs() -> None:
    """Sends and receives, one to eight ahead, over a save: all calls are in order, and a reply to a send
    goes out once an open after a failure of power would find the text."""
    printed("format", "device", "--small")
    image = Path("device").read_bytes()
    with watched(), serving(limits="small"), process() as client:
        queue = client.msgget(1, IPC_CREAT | 0o600)
        sent = 0
        for turn in range(150):
            ahead = 1 + turn % 8
            for _ in range(ahead):
                text = text_of(client._serial + 1)
                check(client.send(msgsnd_request(queue, 1, text)) == client._serial, "serials do not count")
            check(all(client.receive()[1] == 0 for _ in range(ahead)), "a send is refused")
            sent += ahead
            for _ in range(ahead):
                client.send(msgrcv_request(queue, 64))
            check(all(client.receive()[1] == 0 for _ in range(ahead)), "a receive is refused")
    # The last turn may be broken off.
    them = whole_turns(calls())
    follows(f"{OPEN}(?:{TURN})*", them)
    check("R" in order(them), "no save was made")
    disk, answered = Disk(image), 0
    for call in them:
        disk.does(call)
        if call.name == "send":
            for serial in serials(call.data[: call.result]):
                check(disk.keeps(text_of(serial)), f"the reply to {serial} comes before its text lasts")
                answered += 1
    check(answered == sent, f"{answered} replies to sends are in the log, and not {sent}")


def a_write_of_half() -> None:
    """The system takes half of a batch. The rest is written before the sync."""
    printed("format", "device")
    text = "half" * 2000
    with watched("pwrite 1 0", text="halfhalf"), serving(), process() as client:
        queue = client.msgget(1, IPC_CREAT | 0o600)
        client.msgsnd(queue, 1, text.encode())
        until(lambda: "BBSHS>" in order(calls()), "the calls of the commit are others")
    with serving(), process() as client:
        check(client.msgrcv(queue, 8192) == (1, text.encode()), "half of a text is lost")


# ---- a disk that fails


def all_are_told(clients: list[Client]) -> None:
    """Each has the EIO frame as its last."""
    for client in clients:
        check(client.receive() == LAST, "the last frame is another one")
        client.is_ended()
        client.close()


def ends_with_fault(server: Server, clients: list[Client]) -> None:
    all_are_told(clients)
    server.ends(1, FAULT)
    them = calls()
    refused_once(them)
    told = [call.data for call in them if call.name == "send" and call.data[4:10] == bytes(4) + b"\0\5"]
    check(len(told) == len(clients), f"{len(told)} frames of EIO are sent")


COMMITS = [
    ("pwrite", 1, errno.ENOSPC),
    ("pwrite", 1, errno.EIO),
    ("fdatasync", 1, errno.EIO),
    ("pwrite", 2, errno.ENOSPC),
    ("pwrite", 2, errno.EIO),
    ("fdatasync", 2, errno.EIO),
]


def keeps_one_of(wanted: list[str], fresh: bytes, name: str) -> None:
    """The device, which was these bytes before the server, lists one of these. So does what of it the syncs that are
    done have made last: after a failure of power no more may be there."""
    disk = Disk(fresh)
    for call in calls():
        disk.does(call)
    for lost in ("", ", and the power lost"):
        if lost:
            put_into_file("device", disk.lasting)
        found = printed("dump", "device")
        check(found in wanted, f"with {name} refused{lost}: {found!r} is kept")


def failing_commits() -> None:
    """Each call of a commit in turn. What was answered is there at the next start, and what was not may be."""
    for name, number, error in COMMITS:
        printed("format", "device", "--small")
        fresh = Path("device").read_bytes()
        with watched(f"{name} {number} {error}", text="fault"):
            server = Server(limits="small")
        try:
            clients = [process(), Client(), process()]
            queue = clients[0].msgget(1, IPC_CREAT | 0o600)
            texts = [b"first", b"second"]
            for text in texts:
                clients[0].msgsnd(queue, 1, text)
            clients[0].send(msgsnd_request(queue, 1, b"fault"))
            ends_with_fault(server, clients)
        finally:
            server.process.kill()
        wanted = [listing({queue: texts}), listing({queue: [*texts, b"fault"]})]
        keeps_one_of(wanted, fresh, f"{name} {number}")


def failing_ticks() -> None:
    """A turn in which no request is whole: only the tick is put on the disk."""
    for name, number, error in COMMITS:
        printed("format", "device", "--small")
        with watched(f"{name} {number} {error}", text="fault"):
            server = Server(limits="small")
        try:
            clients = [process(), Client()]
            queue = clients[0].msgget(1, IPC_CREAT | 0o600)
            clients[0].send_bytes(struct.pack(">II", 100, 9) + msgsnd_request(queue, 1, b"fault"))
            ends_with_fault(server, clients)
        finally:
            server.process.kill()
        check(printed("dump", "device") == listing({queue: []}), "something else is kept")


# The call that is refused, and what of the save comes before it.
SAVES = [
    ("pwrite", 1, errno.ENOSPC, ""),
    ("pwrite", 2, errno.EIO, "O"),
    ("pwrite", 4, errno.ENOSPC, "OOO"),
    ("fdatasync", 1, errno.EIO, "OOOO"),
    ("pwrite", 5, errno.ENOSPC, "OOOOS"),
    ("fdatasync", 2, errno.EIO, "OOOOSR"),
]


def failing_saves() -> None:
    """Each call of a save in turn. Texts of 8192 bytes fill the journal with 15 commits, and the objects of 12 to 15 of
    them in eight queues are 206 to 255 sectors with their table: four writes of 64 at most, a sync, the root, and a
    sync."""
    printed("format", "fresh")
    fresh = Path("fresh").read_bytes()
    for name, number, error, done in SAVES:
        put_into_file("device", fresh)
        with watched(f"{name} {number} {error}", place=OBJECTS * SECTOR):
            server = Server()
        try:
            clients = [process(), Client(), process()]
            queues = [clients[0].msgget(key, IPC_CREAT | 0o600) for key in range(1, 9)]
            sent: dict[int, list[bytes]] = {queue: [] for queue in queues}
            for queue in 2 * queues:
                text = bytes([65 + queue]) * 8192
                serial = clients[0].send(msgsnd_request(queue, 1, text))
                answer = clients[0].receive()
                if answer == LAST:
                    break
                check(answer == (serial, 0, b""), f"{answer[:2]} is the reply")
                sent[queue].append(text)
            check(answer == LAST, "no save has failed")
            clients[0].is_ended()
            clients.pop(0).close()
            all_are_told(clients)
            server.ends(1, FAULT)
        finally:
            server.process.kill()
        them = calls()
        refused_once(them)
        before = order(them).partition("x")[0]
        check(before.endswith(done) and before.count("O") == done.count("O"), f"before it come {before}")
        wanted = [listing(sent), listing(sent | {queue: [*sent[queue], text]})]
        keeps_one_of(wanted, fresh, f"{name} {number}")


# ---- sockets that fail


def failing_waits() -> None:
    """A wait that is interrupted is made again in the next turn. After one that is refused the server ends."""
    for error, status, said in ((errno.EINTR, 0, ""), (errno.EINVAL, 1, "ipcd: socket fault\n")):
        printed("format", "device", "--small")
        with watched(f"epoll_wait 2 {error}"):
            Server("--turns", "4", limits="small").ends(status, said)
        waits = order(calls()).count("E")
        check(waits == (2 if status else 4), f"after the errno {error} there are {waits} waits")


def failing_sends() -> None:
    """A reply that the system does not take is sent again, if it was interrupted or there was no room. Else the client
    is parted with. Others are served."""
    for error in (errno.EINTR, errno.EAGAIN, errno.ECONNRESET):
        printed("format", "device", "--small")
        with watched(f"send 1 {error}"), serving(limits="small"), Client() as client:
            client.send(hello_request(1000, 100))
            if error == errno.ECONNRESET:
                client.is_ended()
            else:
                check(client.receive() == (1, 0, struct.pack(">I", 1)), "the reply is another one")
            with process() as other:
                other.msgget(1, IPC_CREAT | 0o600)
        check(any(call.name == "send" and call.result == -error for call in calls()), "no send was refused")


TESTS = [
    formats,
    formats_refused,
    opens_refused,
    upgrades,
    growth_refused,
    upgrades_refused,
    replies_wait_for_both_syncs,
    a_write_of_half,
    failing_commits,
    failing_ticks,
    failing_saves,
    failing_waits,
    failing_sends,
]


def main() -> None:
    with in_a_folder(300):
        if build("calls"):
            run_tests("calls", TESTS)


if __name__ == "__main__":
    main()
