"""What docs/OPERATIONS.md and docs/PROTOCOL.md tell operators, on the built program.

    python3 tests/system/operations.py PROGRAM

The commands of the backup and of the upgrade are those of the page, with other paths and without
another owner. It takes some seconds.
"""

from __future__ import annotations

import contextlib
import errno
import os
import re
import resource
import shutil
import signal
import socket
import stat
import subprocess
import sys
import threading
import time
from pathlib import Path

sys.dont_write_bytecode = True
sys.path.insert(0, str(Path(__file__).resolve().parents[1] / "lib"))

from device_layout import (  # noqa: E402
    ONE,
    SMALL_OF_ONE,
    STANDARD_OF_ONE,
    Device,
    Queue,
    clock,
    processes,
    put_into_file,
    state,
)
from server import (  # noqa: E402
    PROGRAM,
    TIMEOUT,
    Client,
    Server,
    as_user,
    check,
    in_a_folder,
    listing,
    printed,
    process,
    run,
    run_tests,
    serving,
    until,
)
from client import (  # noqa: E402
    IPC_CREAT,
    O_CREAT,
    O_RDONLY,
    O_RDWR,
    SHM_RDONLY,
    MqAttr,
    hello_request,
)

PAGE = Path(__file__).resolve().parents[2] / "docs" / "OPERATIONS.md"
MOVE = Path(__file__).resolve().parents[2] / "examples" / "move_objects.py"
TEXTS = [b"first", b"second"]


def send_texts() -> int:
    """A queue with these messages, and its identifier, which is its key. No more is answered."""
    with process() as client:
        queue = client.msgget(1, IPC_CREAT | 0o600)
        for text in TEXTS:
            client.msgsnd(queue, 1, text)
    return queue


# ---- backup


def commands() -> list[str]:
    """The command that makes a backup, and the one that restores it."""
    lines = [it.strip() for it in PAGE.read_text().splitlines() if it.startswith("    (flock ")]
    check(len(lines) == 2, f"{lines} are the page's commands")
    for old, new in (
        ("-o ipcd -g ipcd ", ""),
        ("/var/lib/ipcd/device", "device"),
        ("/var/backups/ipcd", "copy"),
    ):
        lines = [line.replace(old, new) for line in lines]
    return lines


def shell(line: str) -> int:
    """The status of a shell's command, under a umask that takes nothing."""
    words = ["sh", "-c", line]
    return subprocess.run(words, stderr=subprocess.DEVNULL, umask=0, timeout=TIMEOUT).returncode


def backups() -> None:
    if shutil.which("flock") is None:
        print("operations: flock is not here, so no backup was made")
        return
    save, restore = commands()
    printed("format", "device", "--small")
    with serving(limits="small"):
        queue = send_texts()
        for line in (save, restore):
            check(shell(line) != 0, f"{line} goes through though a server has the device")
        check(not os.path.exists("copy"), "a copy is made of a device that is in use")
    check(shell(save) == 0, "no copy is made")
    check(stat.S_IMODE(os.stat("copy").st_mode) == 0o600, "others may read the copy")
    kept = Path("copy").read_bytes()
    check(kept == Path("device").read_bytes(), "the copy is another one")
    check(shell(save.replace("9< device", "9< devise")) != 0, "a mistyped path is no fault")
    check(sorted(os.listdir()) == ["copy", "device"], f"{os.listdir()} is there")
    check(Path("copy").read_bytes() == kept, "the copy that was there is gone")
    wanted = listing({queue: TEXTS})
    check(printed("dump", "copy") == wanted, "the copy has other queues")
    check(Path("copy").read_bytes() != kept, "a dump writes nothing")
    printed("format", "device", "--small")
    check(shell(restore) == 0, "the copy is not restored")
    check(printed("dump", "device") == wanted, "the device has other queues")
    os.remove("copy")


def each_night() -> None:
    """The page's command makes a copy beside a server, and another one in its place."""
    lines = [it.strip() for it in PAGE.read_text().splitlines() if it.startswith("    cd /var/backups ")]
    check(len(lines) == 1, f"{lines} are the page's commands")
    line = lines[0].replace("/var/backups", ".").replace("/var/lib/ipcd/device", "device")
    line = line.replace("ipcd backup", f"'{PROGRAM}' backup")
    printed("format", "device", "--small")
    with serving(limits="small"):
        for texts in ([], TEXTS):
            queue = send_texts() if texts else 0
            check(shell(line) == 0, "no copy is made")
            (copy,) = (name for name in os.listdir() if re.fullmatch("ipcd-[1-7]", name))
            check(printed("list", copy) == (listing({queue: texts}) if texts else ""), "the copy has other queues")
    os.remove(copy)


# ---- a device of an earlier version


def an_earlier_version() -> None:
    """It is named, and the file is left as it was."""
    first = Device(SMALL_OF_ONE, version=ONE).image
    for version, device in enumerate((first[:8] + bytes(4) + first[12:], first)):
        Path("device").write_bytes(device)
        for words in (("dump", "device"), ("run", "device"), ("serve", "device", "socket")):
            ended = run(*words)
            found = (ended.returncode, ended.stdout, ended.stderr)
            check(found == (1, "", f"ipcd: version {version}\n"), f"{words}: {ended}")
            check(Path("device").read_bytes() == device, f"{words}: the device has changed")


def an_upgrade() -> None:
    """The page's command makes a standard device of version 1 one that a server takes, with its messages. It is refused
    while the server has it."""
    lines = [line for line in PAGE.read_text().splitlines() if " -- ipcd upgrade " in line]
    check(len(lines) == 1, f"{lines} are the page's commands")
    words = lines[0].partition(" -- ipcd ")[2].replace("/var/lib/ipcd/device", "device").split()
    queue = Queue(1, tuple((1, text) for text in TEXTS), qbytes=16384)
    old = Device(STANDARD_OF_ONE, version=ONE)
    old.save(2, state(clock(9, 2, 2, version=ONE), processes((1, 1000, 100)), {1: queue}))
    put_into_file("device", old.image)
    check(printed(*words) == "upgraded 252440 sectors\n", "the device is not upgraded")
    with serving():
        with process() as client:
            texts = [client.msgrcv(client.msgget(1, 0), 64) for _ in TEXTS]
        check(texts == [(1, text) for text in TEXTS], f"its messages are {texts}")
        check(run(*words).stderr == "ipcd: device fault\n", "a device in use is taken")
    check(run(*words).stderr == "ipcd: version 2\n", "a second upgrade is something else")
    os.remove("device")


def make_one_of_each() -> None:
    """An object of each kind; the queue has another owner than maker."""
    with process() as client:
        queue = client.msgget(7, IPC_CREAT | 0o640)
        for number, text in enumerate((b"first", b"", b"third"), 1):
            client.msgsnd(queue, number, text)
        client.msgctl_set(queue, 3000, 300, 0o600, 100)
        client.semctl_setall(client.semget(8, 3, IPC_CREAT | 0o600), [1, 0, 32767])
        jobs = client.mq_open("/q \\", O_CREAT | O_RDWR, 0, MqAttr(maxmsg=2, msgsize=9))
        client.mq_send(jobs, b"low", 1)
        client.mq_send(jobs, b"high", 32767)
        client.sem_open("/s", O_CREAT, 0o640, value=3)
        segment = client.shm_open("/m", O_CREAT | O_RDWR, 0o600)
        client.ftruncate(segment, 1000)
        client.shm_write(segment, 936, bytes(range(64)))
        shmid = client.shmget(9, 1000, IPC_CREAT | 0o600)
        client.attached_write(client.shmat(shmid), 936, bytes(range(64)))
        client.shmctl_set(shmid, 3000, 300, 0o604)


def has_one_of_each() -> None:
    """The first is of user 0, who may do all; no queue is left full or empty by who looks."""
    with as_user(0, 0) as client:
        stat = client.msgctl_stat(client.msgget(7, 0))
        check((*stat[:6], stat.qbytes) == (7, 3000, 300, 1000, 100, 0o600, 100), f"the queue is {stat}")
        texts = [client.msgrcv(1, 64) for _ in range(3)]
        check(texts == [(1, b"first"), (2, b""), (3, b"third")], f"its messages are {texts}")
        check(client.semctl_getall(client.semget(8, 0, 0)) == [1, 0, 32767], "the values are others")
        jobs = client.mq_open("/q \\", O_RDONLY)
        texts = [client.mq_receive(jobs, 9) for _ in range(2)]
        check(texts == [(32767, b"high"), (1, b"low")], f"the messages by priority are {texts}")
        check(client.sem_getvalue(client.sem_open("/s", 0)) == 3, "the value is another one")
        segment = client.shm_open("/m", O_RDONLY)
        check(client.shm_read(segment, 936, 64) == bytes(range(64)), "the segment has other bytes")
        check(not any(client.shm_read(segment, 64 * at, 64)[0] for at in range(14)), "the segment has other bytes")
        segment = client.shmctl_stat(client.shmget(9, 1000, 0))
        check(segment[:6] == (9, 3000, 300, 1000, 100, 0o604) and segment.segsz == 1000, f"the segment is {segment}")
        attachment = client.shmat(1, SHM_RDONLY)
        check(client.attached_read(attachment, 936, 64) == bytes(range(64)), "the segment has other bytes")
        check(not any(client.attached_read(attachment, 0, 64)), "the segment has other bytes")


def objects_that_move() -> None:
    """From one server to another, by the example."""
    printed("format", "device", "--small")
    with serving(limits="small"):
        make_one_of_each()
    shutil.copy("device", "copy")
    listed = printed("dump", "copy")
    check(len(listed.splitlines()) == 6, f"{listed} is listed")
    os.mkdir("new")
    with serving(limits="small"):
        os.chdir("new")
        printed("format", "device", "--small")
        with serving(limits="small"):
            words = [sys.executable, str(MOVE), "../socket", "socket"]
            ended = subprocess.run(words, input=listed, capture_output=True, text=True, timeout=TIMEOUT)
            check((ended.returncode, ended.stdout, ended.stderr) == (0, "6 objects\n", ""), f"{ended}")
        check(printed("dump", "device") == listed, "something else is listed")
        with serving(limits="small"):
            has_one_of_each()
        os.chdir("..")
    left = [line.split()[-1] for line in printed("dump", "device").splitlines() if line.startswith("msg")]
    check(left == ["0"], "the messages are on both servers")
    shutil.rmtree("new")
    os.remove("copy")


# ---- a device file that goes away


def names_of_open_files(server: Server) -> list[str]:
    """Of those that it has open all the while: it may close one of a client that has gone."""
    names = []
    for file in Path(f"/proc/{server.process.pid}/fd").iterdir():
        with contextlib.suppress(FileNotFoundError):
            names.append(os.readlink(file))
    return names


def removed_and_replaced() -> None:
    """The server goes on with the file that it has opened."""
    for replaced in (False, True):
        printed("format", "device", "--small")
        with serving(limits="small") as server:
            if replaced:
                printed("format", "other", "--small")
                os.replace("other", "device")
            else:
                os.remove("device")
            send_texts()
            gone = f"{os.getcwd()}/device (deleted)"
            check(gone in names_of_open_files(server), f"{names_of_open_files(server)} are open")
        check(os.path.exists("device") == replaced, "the device is there again")
        if replaced:
            check(printed("dump", "device") == "", "the other device has queues")


def cut() -> None:
    """So it does if the file is cut. The next open finds no superblock, or one of more sectors."""
    for length, said in ((0, "not formatted"), (4 * 512, "damaged sector 0")):
        printed("format", "device", "--small")
        with serving(limits="small"):
            send_texts()
            os.truncate("device", length)
            send_texts()
        ended = run("dump", "device")
        check((ended.returncode, ended.stderr) == (1, f"ipcd: {said}\n"), f"{length}: {ended}")


def a_limit_of_files() -> None:
    """A write behind it ends the program by a signal. The first one comes with the first client."""
    limit = (5 * 512, 5 * 512)
    printed("format", "device", "--small")
    server = Server(limits="small", prepare=lambda: resource.setrlimit(resource.RLIMIT_FSIZE, limit))
    try:
        with Client():
            server.ends(-signal.SIGXFSZ)
    finally:
        server.process.kill()
    os.remove("device")
    limited = subprocess.run(
        ["sh", "-c", 'ulimit -f 4; exec "$0" format device --small', PROGRAM],
        capture_output=True,
        timeout=TIMEOUT,
    )
    ended = (limited.returncode, limited.stdout, limited.stderr)
    check(ended == (-signal.SIGXFSZ, b"", b""), f"{limited}")


# ---- clients


def without_a_server() -> None:
    """There is no socket, and then one that a server has left."""
    for wanted in (errno.ENOENT, errno.ECONNREFUSED):
        with socket.socket(socket.AF_UNIX) as client:
            check(client.connect_ex("socket") == wanted, f"connect is not {wanted}")
        if wanted == errno.ENOENT:
            printed("format", "device")
            Server("--turns", "1").process.wait(TIMEOUT)
    os.remove("socket")


def right_after_a_close() -> None:
    """HELLO is ENFILE, or it is not, and then it is welcome. Pids go on after a restart."""
    printed("format", "device", "--small")
    pids = []
    for _ in range(2):
        with serving(limits="small"), Client() as client:
            others = [process() for _ in range(4)]

            def is_welcome() -> bool:
                client.send(hello_request(1000, 100))
                _, error, body = client.receive()
                check(error in (0, errno.ENFILE), f"HELLO is answered {error}")
                pids.append(int.from_bytes(body, "big") if error == 0 else 0)
                return error == 0

            check(not is_welcome(), "a process too many")
            others.pop().close()
            until(is_welcome, "no place gets free")
            for other in others:
                other.close()
    check([pid for pid in pids if pid] == [5, 10], f"{pids} are the pids")


def clients_that_come_and_go() -> None:
    """However many connect and close, a new client is answered."""
    printed("format", "device")
    over = threading.Event()

    def comes_and_goes() -> None:
        while not over.is_set():
            with socket.socket(socket.AF_UNIX) as short:
                short.connect("socket")

    with serving():
        threads = [threading.Thread(target=comes_and_goes, daemon=True) for _ in range(8)]
        for thread in threads:
            thread.start()
        try:
            end = time.monotonic() + 1
            while time.monotonic() < end:
                process().close()
        finally:
            over.set()
            for thread in threads:
                thread.join()


TESTS = [
    backups,
    each_night,
    an_earlier_version,
    an_upgrade,
    objects_that_move,
    removed_and_replaced,
    cut,
    a_limit_of_files,
    without_a_server,
    right_after_a_close,
    clients_that_come_and_go,
]


def main() -> None:
    with in_a_folder(120):
        run_tests("operations", TESTS)


if __name__ == "__main__":
    main()
