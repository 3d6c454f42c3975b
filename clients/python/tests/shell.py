"""`python3 -m ipcd`, on the built program as a server: what each command prints, says and leaves.

    python3 clients/python/tests/shell.py PROGRAM
"""

from __future__ import annotations

import os
import re
import shutil
import subprocess
import sys
import time
from typing import Optional

import setting
from ipcd import IPC_CREAT, O_CREAT, O_RDWR, Connection, QueueStat, ShmidStat, semop_request, top
from ipcd import __version__ as ipcd_version
from ipcd.__main__ import main as main_of_shell
from server import PROGRAM, check, in_a_folder, of_version_3, printed, run_tests, serving, until

ROOT = os.geteuid() == 0
ME = os.popen("id -un").read().strip()


def start(*words: str) -> subprocess.Popen[str]:
    environment = {**os.environ, "IPCD_SOCKET": "socket", "PYTHONPATH": str(setting.PACKAGE)}
    pipes = dict.fromkeys(("stdin", "stdout", "stderr"), subprocess.PIPE)
    command = [sys.executable, "-m", "ipcd", *words]
    return subprocess.Popen(command, text=True, env=environment, **pipes)  # type: ignore[call-overload]


def says(words: str, wanted: str, status: int = 0, said: str = "", given: Optional[str] = None) -> str:
    """What a command prints is this, if each `*` is any word."""
    process = start(*words.split())
    output, errors = process.communicate(given, timeout=20)
    pattern = re.escape(wanted).replace(r"\*", r"\S+")
    check(re.fullmatch(pattern, output) is not None, f"{words} prints {output!r}, and not {wanted!r}")
    check((process.returncode, errors) == (status, said), f"{words}: {process.returncode}, {errors!r}")
    return output


def messages() -> None:
    printed("format", "device")
    with serving():
        says("send -Q 0x4d2 --create -p 0640 --type 5 hi", "")
        says("send -Q 1234", "", given="from standard input")
        says("send -Q 0x4d2 --timeout 1 last", "")
        says("receive -Q 1234 --type 5", "hi")
        says("receive -q 1", "from standard input")
        says("receive -q 1 --nowait", "last")
        says("receive -q 1 --nowait", "", 1, "ipcd: receive: No message of desired type\n")
        says("receive -q 1 --timeout 0.1", "", 1, "ipcd: receive: Interrupted system call\n")
        says("receive -q 2", "", 1, "ipcd: receive: no message queue has the identifier 2\n")
        says("receive -Q 0x99", "", 1, "ipcd: receive: no message queue has the key 0x00000099\n")
        says("receive", "", 2, "ipcd: receive: no object is named: see --help\n")
        says("send --posix-mqueue /jobs --create -p 0600 --priority 3 sweep", "")
        says("send --posix-mqueue /jobs --priority 7 wash", "")
        says("receive --posix-mqueue /jobs", "wash")
        says("receive --posix-mqueue /jobs --timeout 1", "sweep")
        says("receive --posix-mqueue /jobs --nowait", "", 1, "ipcd: receive: Connection timed out\n")
        says("send --posix-mqueue /no text", "", 1, "ipcd: send: No such file or directory\n")


def on_version_3() -> None:
    """The shell, and a connection, which the server tells its version. After a restart pids begin anew."""
    with of_version_3("--small") as first, Connection("socket") as connection:
        check(connection.version is None, f"version {connection.version} before HELLO")
        check((connection.hello(os.geteuid(), os.getegid()), connection.version) == (1, 3), f"{connection.version}")
        queue = connection.msgget(7, IPC_CREAT | 0o600)
        connection.msgsnd(queue, 5, b"sweep")
        check(connection.msgrcv(queue, 64) == (5, b"sweep"), "another message comes")
        says("send -Q 7 hi", "")
        row = f"0x00000007 1          {ME:10} 600        2            1\n"
        says("ls -q --upto 1", EMPTY.partition("\n\n")[0] + f"\n{row}\nidentifiers 1 to 1 were tried\n")
        says("receive -Q 7", "hi")
    with serving(limits="small", sectors=first.sectors), Connection("socket") as connection:
        check((connection.hello(0, 0), connection.version) == (1, 3), f"{connection.version} after a restart")
    printed("format", "device")
    with serving(), Connection("socket") as connection:
        check((connection.hello(0, 0), connection.version) == (1, None), f"{connection.version} on version 2")


def lists() -> None:
    printed("format", "device")
    with serving(), Connection("socket") as connection:
        connection.hello(os.geteuid(), os.getegid())
        queue = connection.msgget(0x4D2, IPC_CREAT | 0o640)
        connection.msgsnd(queue, 1, b"hello")
        gates = connection.semget(-5, 3, IPC_CREAT | 0o600)
        connection.shmget(0x4D2, 100, IPC_CREAT | 0o640)
        for _ in range(2):
            connection.shmat(connection.shmget(7, 4096, IPC_CREAT | 0o600))
        connection.mq_send(connection.mq_open("/jobs", O_CREAT | O_RDWR, 0o600), b"sweep")
        connection.sem_open("/ready", O_CREAT, 0o600, 4)
        connection.ftruncate(connection.shm_open("/table", O_CREAT | O_RDWR, 0o640), 100)
        says("rm -m 2", "")
        queues = f"""------ Message Queues --------
key        msqid      owner      perms      used-bytes   messages
0x000004d2 1          {ME:10} 640        5            1
"""
        segments = f"""------ Shared Memory Segments --------
key        shmid      owner      perms      bytes      nattch     status
0x000004d2 1          {ME:10} 640        100        0
0x00000000 2          {ME:10} 600        4096       2          dest
"""
        sets = f"""------ Semaphore Arrays --------
key        semid      owner      perms      nsems
0xfffffffb 1          {ME:10} 600        3
"""
        names = f"""
------ POSIX Message Queues --------
name       messages     maxmsg     msgsize
/jobs      1            10         8192

------ POSIX Semaphores --------
name       value
/ready     4

------ POSIX Shared Memory --------
name       owner      perms      bytes
/table     {ME:10} 640        100
"""
        tried = "\nidentifiers 1 to {} were tried\n"
        says("ls", queues + "\n" + segments + "\n" + sets + tried.format(1024))
        says("ls -m --upto 2", segments + tried.format(2))
        says("ls -q -s --upto 2", queues + "\n" + sets + tried.format(2))
        says("ls -q --upto 3", queues + tried.format(3))
        says("ls -s --upto 70", sets + tried.format(70))
        given = "--posix-mqueue /jobs --posix-semaphore /ready --posix-shmem /table"
        says(f"ls -s --upto 1 {given}", sets + names + tried.format(1))
        missing = "ipcd: ls: /no: No such file or directory\n"
        says("ls -q --upto 1 --posix-shmem /no", queues + tried.format(1), 1, missing)
        as_ipcs_prints(queues + segments + sets)
        stats(gates)
        # The one that was removed goes with its last attachment.
        for attachment in (0, 1):
            connection.shmdt(attachment)
        removals()


def as_ipcs_prints(ours: str) -> None:
    """The titles and the columns are those of ipcs(1)."""
    if not shutil.which("ipcs"):
        print("shell: there is no ipcs, so nothing is compared with it")
        return
    for option, title in (("-q", "Message Queues"), ("-m", "Shared Memory Segments"), ("-s", "Semaphore Arrays")):
        lines = subprocess.run(["ipcs", option], capture_output=True, text=True).stdout.strip().splitlines()
        wanted = [line.rstrip() for line in lines[:2]]
        check("\n".join(wanted) in ours, f"{wanted} is what ipcs has of {title}")


def stats(gates: int) -> None:
    found = start("stat", "-q", "1").communicate(timeout=20)[0]
    fields = dict(line.split("=", 1) for line in found.splitlines())
    check(list(fields) == list(QueueStat._fields), f"{fields} are the fields")
    wanted = {"key": "0x000004d2", "mode": "640", "qnum": "1", "cbytes": "5", "rtime": "never", "qbytes": "65536"}
    check({name: fields[name] for name in wanted} == wanted, f"{fields}")
    sent = time.mktime(time.strptime(fields["stime"], "%Y-%m-%d %H:%M:%S"))
    check(abs(sent - time.time()) < 60, f"{fields['stime']} is when a message was sent")
    output = start("stat", "-S", "-5").communicate(timeout=20)[0]
    check("nsems=3\n" in output and "otime=never\n" in output, f"{output!r} is said of set {gates}")
    semaphores_of_a_set(gates)
    found = start("stat", "-m", "2").communicate(timeout=20)[0]
    fields = dict(line.split("=", 1) for line in found.splitlines())
    check(list(fields) == list(ShmidStat._fields), f"{fields} are the fields")
    wanted = {"key": "0x00000000", "mode": "1600", "segsz": "4096", "nattch": "2", "dtime": "never"}
    check({name: fields[name] for name in wanted} == wanted, f"{fields}")
    output = start("stat", "-M", "1234").communicate(timeout=20)[0]
    check("segsz=100\n" in output and "atime=never\n" in output, f"{output!r} is said of the segment of key 1234")
    says("stat --posix-semaphore /ready", "name=/ready\nvalue=4\n")


def semaphores_of_a_set(gates: int) -> None:
    """Each has its value, who waits for it, and who has set it last, as `ipcs -s -i` shows them."""
    with Connection("socket") as setter, Connection("socket") as taker, Connection("socket") as third:
        me = setter.hello(os.geteuid(), os.getegid())
        setter.semctl_setall(gates, [0, 3, 32767])
        setter.semop(gates, [(1, -1)])
        for waiter, operation in ((taker, (0, -1)), (third, (1, 0))):
            waiter.hello(os.geteuid(), os.getegid())
            waiter.send(semop_request(gates, [operation]))
        until(lambda: setter.semctl_getncnt(gates, 0) + setter.semctl_getzcnt(gates, 1) == 2, "nobody waits")
        lines = start("stat", "-s", str(gates)).communicate(timeout=20)[0].splitlines()
        table = [line.split() for line in lines[lines.index("") + 1 :]]
        header = ["semnum", "value", "ncount", "zcount", "pid"]
        rows = [["0", "0", "1", "0", str(me)], ["1", "2", "0", "1", str(me)], ["2", "32767", "0", "0", str(me)]]
        check(table == [header, *rows], f"{lines} is said of the semaphores")


def empties() -> None:
    """The lines of docs/OPERATIONS.md that empty a queue, of either kind."""
    printed("format", "device")
    with serving(), Connection("socket") as connection:
        connection.hello(os.geteuid(), os.getegid())
        queue = connection.msgget(7, IPC_CREAT | 0o600)
        jobs = connection.mq_open("/jobs", O_CREAT | O_RDWR, 0o600)
        for number in range(3):
            connection.msgsnd(queue, 1, b"%d" % number)
            connection.mq_send(jobs, b"%d" % number)
        here = {**os.environ, "IPCD_SOCKET": "socket", "PYTHONPATH": str(setting.PACKAGE)}
        for option, said in (("-q 1", "No message of desired type"), ("--posix-mqueue /jobs", "Connection timed out")):
            line = f"while {sys.executable} -m ipcd receive {option} --nowait > /dev/null; do :; done"
            ended = subprocess.run(["sh", "-c", line], capture_output=True, text=True, env=here, timeout=20)
            check(ended.stderr == f"ipcd: receive: {said}\n", f"{line}: {ended}")
        check(connection.msgctl_stat(queue).qnum == connection.mq_getattr(jobs).curmsgs == 0, "a message is left")


def of_what_is_not_there() -> None:
    """What is asked of no object says which one that would be."""
    printed("format", "device")
    with serving():
        for option, kind in (("q", "message queue"), ("m", "segment"), ("s", "semaphore set")):
            for command in ("stat", "rm"):
                says(f"{command} -{option} 7", "", 1, f"ipcd: {command}: no {kind} has the identifier 7\n")
                key = f"ipcd: {command}: no {kind} has the key 0x0000000a\n"
                says(f"{command} -{option.upper()} 10", "", 1, key)
        for option, kind in (("mqueue", "POSIX queue"), ("shmem", "segment"), ("semaphore", "named semaphore")):
            says(f"stat --posix-{option} /no", "", 1, f"ipcd: stat: no {kind} has the name /no\n")
            says(f"rm --posix-{option} /no", "", 1, "ipcd: rm: /no: No such file or directory\n")


def a_full_server() -> None:
    """ENFILE is of the server's processes, not of the system's files."""
    printed("format", "device")
    with serving():
        clients = [Connection("socket") for _ in range(64)]
        for client in clients:
            client.hello(1000, 100)
        process = start("ls")
        said = process.communicate(timeout=20)[1]
        wanted = "ipcd: ls: the server has as many processes as it takes, which is 64 by standard limits"
        check(process.returncode == 1 and said.startswith(wanted), f"{said!r}")
        for client in clients:
            client.close()


def which_version_and_which_server() -> None:
    """It tells its version, and an IPCD_SOCKET that is empty is none."""
    says("--version", f"ipcd {ipcd_version}\n")
    environment = {**os.environ, "IPCD_SOCKET": "", "PYTHONPATH": str(setting.PACKAGE)}
    helped = subprocess.run([sys.executable, "-m", "ipcd", "--help"], capture_output=True, text=True, env=environment)
    check("default: /run/ipcd/socket" in helped.stdout, f"{helped.stdout}")


def removals() -> None:
    refused = (
        "ipcd: rm: no message queue has the identifier 9\nipcd: rm: no segment has the identifier 3\n"
        "ipcd: rm: /no: No such file or directory\n"
    )
    says("rm -q 9 -Q 1234 -m 3 -M 1234 -S -5 --posix-mqueue /jobs --posix-shmem /no", "", 1, refused)
    says("rm --posix-semaphore /ready --posix-shmem /table", "")
    check("0x" not in says("ls --upto 5", EMPTY), "something is left")
    says("rm", "", 2, "ipcd: rm: no object is named: see --help\n")


EMPTY = """------ Message Queues --------
key        msqid      owner      perms      used-bytes   messages

------ Shared Memory Segments --------
key        shmid      owner      perms      bytes      nattch     status

------ Semaphore Arrays --------
key        semid      owner      perms      nsems

identifiers 1 to 5 were tried
"""


def what_may_not_be_read() -> None:
    """It is a row, and nobody but its owner sees more."""
    if not ROOT:
        print("shell: this user is not root, so no other user is tried")
        return
    printed("format", "device")
    with serving(), Connection("socket") as connection:
        connection.hello(0, 0)
        connection.msgget(7, IPC_CREAT | 0o600)
        connection.semget(7, 1, IPC_CREAT | 0o600)
        connection.shmget(7, 1, IPC_CREAT | 0o600)
        connection.sem_open("/theirs", O_CREAT, 0o600, 1)
        os.chmod("socket", 0o777)
        os.chmod(".", 0o755)
        output = as_another("--socket", "socket", "ls", "--upto", "5", "--posix-semaphore", "/theirs")
        rows = [line.split() for line in output.splitlines() if "-" in line.split()]
        theirs = [["-", "1", *4 * "-"], ["-", "1", *5 * "-"], ["-", "1", *3 * "-"], ["/theirs", "-"]]
        check(rows == theirs, f"{output!r}")


def as_another(*words: str) -> str:
    """What a command prints for another user, who may not be able to start this Python."""
    with open("printed", "w+") as output:
        child = os.fork()
        if child == 0:
            os.setgroups([])
            os.setgid(12345)
            os.setuid(12345)
            os.dup2(output.fileno(), 1)
            status = main_of_shell(list(words))
            sys.stdout.flush()
            os._exit(status)
        check(os.waitpid(child, 0)[1] == 0, f"{words} is refused")
        output.seek(0)
        return output.read()


def pages_of_top() -> None:
    """Rates are what must have been at least, and waiters are those of GETNCNT."""
    printed("format", "device")
    with serving(), Connection("socket") as connection, Connection("socket") as waiter:
        connection.hello(1000, 100)
        waiter.hello(1000, 100)
        queue = connection.msgget(7, IPC_CREAT | 0o600)
        gates = connection.semget(7, 2, IPC_CREAT | 0o600)
        process = start("top", "--upto", "4", "-d", "1", "-n", "2")
        until(lambda: "identifiers" in process.stdout.readline(), "there is no first page")
        for number in range(5):
            connection.msgsnd(queue, 1, b"%d" % number)
        connection.msgrcv(queue, 64)
        waiter.send(b"\x15" + gates.to_bytes(4, "big") + 8 * b"\xff" + bytes([0, 1, 255, 255, 0, 0]))
        until(lambda: connection.semctl_getncnt(gates, 1) == 1, "nobody waits")
        output, errors = process.communicate(timeout=20)
        rows = [line.split() for line in output.splitlines() if line.startswith("0x")]
        check(errors == "" and len(rows) == 2, f"{output!r}, {errors!r}")
        came, went = map(float, rows[0][5:])
        check(rows[0][:5] == ["0x00000007", "1", *rows[0][2:3], "4", "4"], f"{rows}")
        # A second, or more beside other work.
        check(0 < came <= 5 and abs(came - 5 * went) < 0.5, f"{came} and {went} messages a second")
        check(rows[1][3:] == ["2", "1", "0"], f"{rows[1]} is the set's row")
    before = QueueStat(*range(6), 10, 20, 0, 0, 0, 100, 3, 0)
    for changes, wanted in (
        ({}, (0, 0)),
        ({"qnum": 5, "stime": 11}, (2, 0)),
        ({"qnum": 3, "stime": 11}, (1, 1)),
        ({"qnum": 1, "rtime": 21}, (0, 2)),
        ({"qnum": 1, "stime": 11, "rtime": 21}, (1, 3)),
    ):
        found = top.moved(before, before._replace(**changes))
        check(found == wanted, f"{changes}: {found}, and not {wanted}")


def without_a_server() -> None:
    says("ls", "", 1, "ipcd: ls: No such file or directory\n")
    with open("list.sh", "w") as program:
        program.write("#!/bin/sh\necho $1 of $2\nexit 3\n")
    os.chmod("list.sh", 0o755)
    says("ls --device device --program ./list.sh", "list of device\n", 3)
    says("ls --device device --program ./none", "", 1, "ipcd: ./none: No such file or directory\n")
    wanted = "msg          1        1234 0600          0          0          2          1\n"
    printed("format", "device")
    with serving(), Connection("socket") as connection:
        connection.hello(0, 0)
        connection.msgsnd(connection.msgget(1234, IPC_CREAT | 0o600), 1, b"hi")
    says(f"ls --device device --program {PROGRAM}", wanted)
    check(says(f"ls --device none --program {PROGRAM}", "", 1, "ipcd: device fault\n") == "", "a device that is none")


def main() -> None:
    tests = [messages, on_version_3, empties, lists, of_what_is_not_there, a_full_server, what_may_not_be_read]
    run_tests("shell", [*tests, pages_of_top, without_a_server, which_version_and_which_server])


if __name__ == "__main__":
    os.environ["PYTHONDONTWRITEBYTECODE"] = "1"
    with in_a_folder(600):
        main()
