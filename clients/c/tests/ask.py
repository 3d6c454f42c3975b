"""ipcd-ask against a server: each call in words, refusals, wrong words, standard input, and a kill of the server.

    python3 clients/c/tests/ask.py PROGRAM

The program stands in clients/c/out, where `make` puts it. What is expected was computed from ipcd-ask(1) and
docs/PROTOCOL.md. It takes some seconds.
"""

from __future__ import annotations

import os
import re
import signal
import subprocess
import sys
import time
from pathlib import Path

HERE = Path(__file__).resolve().parent
ASK = str(HERE.parent / "out/ipcd-ask")
sys.path.insert(0, str(HERE.parents[2] / "tests/lib"))

from server import Server, check, in_a_folder, of_version_3, printed, run_tests, serving  # noqa: E402

UID, GID = os.geteuid(), os.getegid()
OWNER = f"uid={UID} gid={GID} cuid={UID} cgid={GID}"
# A request, and what the whole line of its reply has to match.
Row = tuple[str, str]

MESSAGES: list[Row] = [
    ("msgget 1234 IPC_CREAT|IPC_EXCL|0600", "1"),
    ("msgget 0x4d2", "1"),
    ("msgsnd 1 5 hi", "0"),
    ('msgsnd $ 6 "two words" IPC_NOWAIT', "0"),
    (r'msgsnd 1 7 "\x00\t\n\"\\"', "0"),
    ('msgsnd 1 8 ""', "0"),
    ("msgctl 1 IPC_STAT", rf"key=0x000004d2 {OWNER} mode=0600 msg_cbytes=16 msg_qnum=4 msg_qbytes=65536 .*"),
    ("msgrcv 1 64", "5 hi"),
    ("msgrcv 1 64 -6 IPC_NOWAIT", '6 "two words"'),
    ("msgrcv 1 64 0", r'7 "\\x00\\x09\\x0a\\"\\\\"'),
    ("msgrcv 1 64 8", '8 ""'),
    ("msgsnd 1 1 longer", "0"),
    ("msgrcv 1 4 0 MSG_NOERROR", "1 long"),
    (f"msgctl 1 IPC_SET {UID} {GID} 0640 1000", "0"),
    ("msgctl 1 IPC_STAT", rf"key=0x000004d2 {OWNER} mode=0640 msg_cbytes=0 msg_qnum=0 msg_qbytes=1000 .*"),
    ("msgctl 1 IPC_RMID", "0"),
]
SETS: list[Row] = [
    ("semget 1234 2 IPC_CREAT|0600", "1"),
    ("semctl 1 0 SETALL 3 5", "0"),
    ("semctl 1 0 GETALL", "3 5"),
    ("semop 1 0,-1 1,2,IPC_NOWAIT", "0"),
    ("semctl 1 0 GETVAL", "2"),
    ("semctl 1 1 GETVAL", "7"),
    ("semop 1 0,-2,SEM_UNDO|IPC_NOWAIT", "0"),
    ("semtimedop 1 0.5 0,0", "0"),
    ("semctl 1 1 SETVAL 9", "0"),
    ("semctl 1 0 GETALL", "0 9"),
    ("semctl 1 0 GETPID", "[1-9][0-9]*"),
    ("semctl 1 0 GETNCNT", "0"),
    ("semctl 1 0 GETZCNT", "0"),
    (f"semctl 1 0 IPC_SET {UID} {GID} 0640", "0"),
    ("semctl 1 0 IPC_STAT", rf"key=0x000004d2 {OWNER} mode=0640 sem_nsems=2 sem_otime=[0-9]+ sem_ctime=[0-9]+"),
]
POSIX: list[Row] = [
    ("mq_open /q O_CREAT|O_RDWR 0600 4 64", "2147483584"),
    ("mq_send $ low", "0"),
    ("mq_timedsend $ high 9 0.5", "0"),
    ("mq_getattr $", "mq_flags=0 mq_maxmsg=4 mq_msgsize=64 mq_curmsgs=2"),
    ("mq_receive $", "9 high"),
    ("mq_timedreceive $ 0.5", "0 low"),
    ("mq_setattr $ O_NONBLOCK", "mq_flags=0 mq_maxmsg=4 mq_msgsize=64 mq_curmsgs=0"),
    ("mq_getattr $", "mq_flags=O_NONBLOCK mq_maxmsg=4 mq_msgsize=64 mq_curmsgs=0"),
    ("mq_close $", "0"),
    ("mq_unlink /q", "0"),
    ("sem_open /s O_CREAT 0600 2", "1"),
    ("sem_wait $", "0"),
    ("sem_trywait $", "0"),
    ("sem_getvalue $", "0"),
    ("sem_post $", "0"),
    ("sem_timedwait 1 0.5", "0"),
    ("sem_close 1", "0"),
    ("sem_unlink /s", "0"),
]
SEGMENTS: list[Row] = [
    ("shm_open /m O_CREAT|O_RDWR 0600", "2147483584"),
    ("ftruncate $ 100", "0"),
    ("pwrite $ row 8", "3"),
    ("pread $ 3 8", "row"),
    ("pread $ 64 98", r'"\\x00\\x00"'),
    ("fstat $", f"st_size=100 st_uid={UID} st_gid={GID} st_mode=0600"),
    ("close $", "0"),
    ("shm_unlink /m", "0"),
    ("shmget 1234 4096 IPC_CREAT|0600", "1"),
    ("shmattach 1", "[0-9]+"),
    ("shmwrite $ old 8", "3"),
    ("shmread $ 3 8", "old"),
    ("shmctl 1 IPC_STAT", rf"key=0x000004d2 {OWNER} mode=0600 shm_segsz=4096 .* shm_nattch=1 .*"),
    ("shmdetach $", "0"),
    (f"shmctl 1 IPC_SET {UID} {GID} 0640", "0"),
    ("shmctl 1 IPC_STAT", rf"key=0x000004d2 {OWNER} mode=0640 shm_segsz=4096 .* shm_nattch=0 .*"),
    ("shmctl 1 IPC_RMID", "0"),
]
REFUSALS: list[Row] = [
    ("msgget 99", "ENOENT"),
    ("msgget 7 IPC_CREAT|IPC_EXCL", "EEXIST"),
    ("msgrcv 77 64", "EINVAL"),
    ("msgrcv 1 64 0 IPC_NOWAIT", "ENOMSG"),
    ("msgsnd 1 0 text", "EINVAL"),
    ("semop 1 0,-1,IPC_NOWAIT", "EAGAIN"),
    ("semtimedop 1 0.01 0,-1", "EAGAIN"),
    ("semctl 1 0 SETALL 1 2", "EINVAL"),
    ("semctl 1 0 SETVAL 32768", "ERANGE"),
    ("mq_open /none O_RDONLY", "ENOENT"),
    ("mq_receive 2147483584", "EBADF"),
    ("sem_open /none", "ENOENT"),
    ("sem_wait 1", "EINVAL"),
    ("shmread 2147483584 1 0", "EBADF"),
    ("pread 2147483584 9000 0", "EINVAL"),
]
# What is wrong of each is on standard error after the name of the call.
WRONG: list[Row] = [
    ("msgsend 1 5 hi", "msgsend: is no call: see ipcd-ask(1)"),
    ("msgget", "msgget: has other words: see ipcd-ask(1)"),
    ("msgget 1 0 0", "msgget: has other words: see ipcd-ask(1)"),
    ("msgget 1 IPC_CREATE", "msgget: IPC_CREATE"),
    ("msgget 4294967296", "msgget: 4294967296"),
    ("msgget 08", "msgget: 08"),
    ("msgget 1|", "msgget: 1|"),
    ("msgsnd $ 5 hi", "msgsnd: $"),
    ("msgctl 1 IPC_SET 0 0 0600", "msgctl: has other words: see ipcd-ask(1)"),
    ("semop 1", "semop: has other words: see ipcd-ask(1)"),
    ("semop 1 0", "semop: has other words: see ipcd-ask(1)"),
    ("semop 1 0,1,0,0", "semop: has other words: see ipcd-ask(1)"),
    ("semtimedop 1 -1 0,1", "semtimedop: -1"),
    ("semctl 1 0 SETVAL", "semctl: has other words: see ipcd-ask(1)"),
    ("mq_open /q O_CREAT 0600 4", "mq_open: has other words: see ipcd-ask(1)"),
    (r'mq_unlink "/q\x00"', "mq_unlink: /q"),
    ('msgsnd 1 5 "hi', 'msgsnd 1 5 "hi: is no request: see ipcd-ask(1)'),
    (r'msgsnd 1 5 "\q"', r'msgsnd 1 5 "\q": is no request: see ipcd-ask(1)'),
    (r'msgsnd 1 5 "\x4"', r'msgsnd 1 5 "\x4": is no request: see ipcd-ask(1)'),
]


def ask(*requests: str, given: str | bytes | None = None, at: str = "socket") -> subprocess.CompletedProcess[str]:
    text = given.encode() if isinstance(given, str) else given or b""
    ended = subprocess.run([ASK, at, *requests], input=text, capture_output=True, timeout=60)
    return subprocess.CompletedProcess(ended.args, ended.returncode, ended.stdout.decode(), ended.stderr.decode())


def answers(*requests: str, given: str | None = None) -> list[str]:
    ended = ask(*requests, given=given)
    check((ended.returncode, ended.stderr) == (0, ""), f"{ended}")
    return ended.stdout.splitlines()


def device() -> None:
    Path("device").unlink(missing_ok=True)
    printed("format", "device")


def each_call() -> None:
    """By arguments, and again from standard input, each kind on a fresh device."""
    for rows in (MESSAGES, SETS, POSIX, SEGMENTS):
        for by_input in (False, True):
            device()
            with serving():
                requests = [request for request, _ in rows]
                replies = answers(given="\n".join(requests)) if by_input else answers(*requests)
            check(len(replies) == len(rows), f"{len(replies)} replies to {len(rows)} requests: {replies}")
            for (request, wanted), reply in zip(rows, replies):
                check(re.fullmatch(wanted, reply) is not None, f"{request}: {reply}, and not {wanted}")


def removes_a_set() -> None:
    """A process that ends adds its adjustments, and a set that is removed is no more."""
    device()
    with serving():
        answers("semget 1234 2 IPC_CREAT|0600", "semop 1 0,4,SEM_UNDO 1,1")
        check(answers("semctl 1 0 GETALL", "semctl 1 0 IPC_RMID") == ["0 1", "0"], "the adjustment is not added")
        check(ask("semget 1234 0").stderr == "ipcd-ask: semget: ENOENT\n", "the set is there")


def refusals() -> None:
    """One ends the requests in arguments, with the error's name. From standard input the next line follows."""
    device()
    with serving():
        answers("msgget 7 IPC_CREAT|0600", "semget 7 1 IPC_CREAT|0600")
        for request, error in REFUSALS:
            name = request.split()[0]
            ended = ask(request, "msgget 7")
            found = (ended.returncode, ended.stdout, ended.stderr)
            check(found == (1, "", f"ipcd-ask: {name}: {error}\n"), f"{request}: {found}")
        ended = ask(given="msgget 99\n\n# a remark\nmsgget 7\n")
        found = (ended.returncode, ended.stdout, ended.stderr)
        check(found == (1, "1\n", "ipcd-ask: msgget: ENOENT\n"), f"{found}")
        ended = ask(given="msgget 7\nmsgget 99\nmsgsnd $ 5 hi\n")
        check((ended.returncode, ended.stdout) == (2, "1\n"), f"$ after a refusal: {ended}")
        check("msg_qnum=0 " in answers("msgctl 1 IPC_STAT")[0], "a message is sent to an object of before")


def wrong_words() -> None:
    """A request that is none is not sent, and ends the run."""
    device()
    with serving():
        for request, wanted in WRONG:
            for ended in (ask(request, "msgget 1 IPC_CREAT"), ask(given=f"{request}\nmsgget 1 IPC_CREAT\n")):
                found = (ended.returncode, ended.stdout, ended.stderr)
                check(found == (2, "", f"ipcd-ask: {wanted}\n"), f"{request}: {found}")
        ended = ask(given=b"msgget 1 \0IPC_CREAT\n")
        check((ended.returncode, ended.stderr) == (2, "ipcd-ask: a line: has a byte 0\n"), f"{ended}")
        check(ask("msgget 1").stderr == "ipcd-ask: msgget: ENOENT\n", "a request after a wrong one is done")
        full = subprocess.run(["sh", "-c", '"$1" socket "msgget 1 IPC_CREAT" > /dev/full', "sh", ASK],
                              capture_output=True, text=True)  # fmt: skip
        check(full.returncode == 2 and "standard output" in full.stderr, f"{full}")
    usage = "usage: ipcd-ask SOCKET [REQUEST]...\n"
    for words, wanted in (([], (2, "", usage)), (["--help"], (0, usage, "")), (["--version"], (2, "", usage))):
        ended = subprocess.run([ASK, *words], capture_output=True, text=True)
        check((ended.returncode, ended.stdout, ended.stderr) == wanted, f"{words}: {ended}")


def large_texts() -> None:
    """The largest message goes there and back; one byte more is refused."""
    device()
    with serving():
        text = "x" * 65536
        replies = answers(given=f"msgget 5 IPC_CREAT|0600\nmsgsnd $ 3 {text}\nmsgrcv $ 65536\n")
        check(replies == ["1", "0", f"3 {text}"], "the largest message")
        check(ask(given=f"msgsnd 1 3 {text}x\n").stderr == "ipcd-ask: msgsnd: EINVAL\n", "a larger message")


def on_version_3() -> None:
    """The server tells more at HELLO there, and the calls are as ever."""
    with of_version_3("--small"):
        check(answers("msgget 1234 IPC_CREAT|0600", "msgsnd $ 5 hi", "msgrcv 1 64") == ["1", "0", "5 hi"], "version 3")
    device()


def outlives_a_kill() -> None:
    """What was answered is there after a kill. A request that waits ends with the connection."""
    check(ask("msgget 1", at="none").stderr == "ipcd-ask: none: ECONNREFUSED\n", "without a server")
    device()
    server = Server()
    check(answers("msgget 1234 IPC_CREAT|0600", "msgsnd $ 5 hi") == ["1", "0"], "before the kill")
    with subprocess.Popen([ASK, "socket"], stdin=-1, stdout=-1, stderr=-1, text=True) as waits:
        waits.stdin.write("msgget 99 IPC_CREAT|0600\n")
        waits.stdin.flush()
        check(waits.stdout.readline() == "2\n", "a reply comes before the next line is read")
        waits.stdin.write("msgrcv $ 64\n")
        waits.stdin.close()
        time.sleep(0.3)
        server.stop(signal.SIGKILL)
        said = waits.stderr.read()
        check((waits.wait(60), said) == (1, "ipcd-ask: msgrcv: ECONNRESET\n"), f"{said}")
    with serving():
        check(answers("msgget 1234", "msgrcv $ 64") == ["1", "5 hi"], "after the kill")


TESTS = [each_call, removes_a_set, refusals, wrong_words, large_texts, on_version_3, outlives_a_kill]

if __name__ == "__main__":
    with in_a_folder(120):
        run_tests("ipcd-ask", TESTS)
