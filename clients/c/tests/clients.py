"""The clients in C against a server: what each test program finds, restarts, a server that says anything, and ipcd-run.

    python3 clients/c/tests/clients.py PROGRAM [TEST]...

The programs stand in clients/c/out, where `make` puts them. It needs no network and takes some tens of seconds.
"""

from __future__ import annotations

import os
import random
import re
import shutil
import signal
import socket
import stat
import subprocess
import sys
import threading
import time
from collections.abc import Iterator
from concurrent.futures import ThreadPoolExecutor
from contextlib import contextmanager, suppress
from pathlib import Path

HERE = Path(__file__).resolve().parent
OUT = HERE.parent / "out"
WANTED = sys.argv[2:]
del sys.argv[2:]
sys.path.insert(0, str(HERE.parents[2] / "tests/lib"))
sys.path.insert(0, str(HERE))

from false_server import FAULTS, HALF_AFTER_INTERRUPT, INTERRUPTED, TORN, Fault, FalseServer  # noqa: E402
from losing_server import LosingServer  # noqa: E402
from server import PROGRAM, Connection, Server, check, in_a_folder, printed, run_tests, serving, until  # noqa: E402

SECONDS = 100
STAY, STAYS = (f"{word} the kernel's, and {other} no crash of the machine"
               for word, other in (("stay", "outlive"), ("stays", "outlives")))
RUN = str(OUT / "ipcd-run")
CALLS = ["messages", "semaphore_sets", "posix_queues", "named_semaphores", "handlers"]
# The tests of the library's own names, those that wait for the longest first.
LIBRARY = ["handlers", *CALLS[:-1], "segments", "attachments"]
PROCESSES = """
    forks outlives threads many_threads crowd many_files users are_killed closes differs
    one_too_many cancelled
""".split()
UNLINKED = """
    counts forks forks_before child_unlinks others_have_it waits_meanwhile threads handlers many
    waits_in_a_thread queue_threads queue_ends queue_keeps queue_forks queue_child_unlinks
    queue_others queue_waits_meanwhile queue_races queue_closes_meanwhile queue_forks_in_handler
    queue_notifies
""".split()
NOT_ON_KERNEL = {"closes", "differs", "one_too_many"}
EACH_THAT_WAITS = """
    msgsnd msgrcv semop semtimedop mq_send mq_receive mq_timedsend mq_timedreceive sem_wait
    sem_timedwait sem_clockwait
""".split()
EACH_CALL = """
    msgget msgctl_stat msgctl_set msgctl_rmid semget getval getpid getncnt getzcnt setval getall
    setall semctl_stat semctl_set semctl_rmid mq_open mq_unlink mq_getattr mq_setattr mq_notify
    mq_close sem_open sem_unlink sem_trywait sem_post sem_getvalue sem_close shm_open shm_unlink
    ftruncate pread pwrite fstat close shmget shmctl_stat shmctl_set shmctl_rmid shmattach shmdetach
    shmread shmwrite shmat
""".split() + EACH_THAT_WAITS


def ends_well(*words: str, **environment: str) -> None:
    ended = subprocess.run(
        words,
        env={**os.environ, "IPCD_SOCKET": os.path.abspath("socket"), **environment},
        stdin=subprocess.DEVNULL,
        capture_output=True,
        text=True,
        timeout=SECONDS,
    )
    check((ended.returncode, ended.stderr) == (0, ""), f"{words}: {ended}")


def by_anybody() -> None:
    """The server's socket may be written by all, as the tests of users need it."""
    os.umask(0)


def device() -> None:
    for name in ("device", "socket"):
        if os.path.exists(name):
            os.remove(name)
    shutil.rmtree("socket.pids", ignore_errors=True)
    printed("format", "device")


def all_end_well(lines: list[list[str]], **environment: str) -> None:
    """Runs programs side by side. They have objects of their own, and most of their time they wait."""
    with ThreadPoolExecutor(4) as pool:
        for done in [pool.submit(ends_well, *words, **environment) for words in lines]:
            done.result()


def kernel_agrees() -> None:
    """What the tests want is what the kernel and the C library do."""
    all_end_well([[str(OUT / "tests" / name)] for name in [*reversed(CALLS), "attachments", "polls"]], ON_KERNEL="1")
    for name in PROCESSES:
        if name not in NOT_ON_KERNEL and (name != "users" or os.geteuid() == 0):
            ends_well(str(OUT / "tests" / "processes"), name, ON_KERNEL="1")


def library_calls() -> None:
    device()
    with serving(prepare=by_anybody):
        all_end_well([[str(OUT / "tests" / f"library_{name}")] for name in LIBRARY])


def memcheck() -> None:
    """Nothing is read that was not written, nothing is written that is not there, and nothing is left."""
    if shutil.which("valgrind") is None:
        print("clients: valgrind is not here, so its memcheck was not run")
        return
    device()
    words = ["valgrind", "-q", "--error-exitcode=9", "--leak-check=full", "--show-leak-kinds=definite",
             "--log-file=memcheck.%p", f"--suppressions={HERE / 'memcheck.supp'}"]  # fmt: skip
    programs = [[*words, str(OUT / "tests" / f"library_{name}")] for name in LIBRARY]
    with serving(prepare=by_anybody):
        all_end_well([*programs, [*words, str(OUT / "tests" / "library_restart"), "killed"]], NO_BAD_ADDRESSES="1")
    program = [*words, str(OUT / "tests" / "each_call")]
    all_are_errors([(program, EACH_CALL[i % len(EACH_CALL)], "answered", it) for i, it in enumerate(FAULTS[::2])])


def sanitized() -> None:
    """ThreadSanitizer reports nothing of threads that call at once, AddressSanitizer nothing of each call."""
    device()
    threads = [["thread_races"], *(["thread_processes", name] for name in ("threads", "many_threads", "not_cancelled"))]
    # The C library itself starts the thread of a function that is notified, and ThreadSanitizer does not know it. It
    # takes memory for a fork, which it reports in a handler.
    others = {"queue_notifies", "queue_forks_in_handler"}
    threads += [["thread_unlinked", name] for name in UNLINKED if name not in others]
    addresses = [["address_races"], *([f"address_{name}"] for name in CALLS if name != "handlers")]
    addresses += [["address_unlinked", name] for name in UNLINKED]
    with serving(prepare=by_anybody):
        for kind, programs in (("ThreadSanitizer", threads), ("AddressSanitizer", addresses)):
            if (OUT / "tests" / programs[0][0]).stat().st_size == 0:
                print(f"clients: the compiler has no {kind}, so it was not run")
                continue
            first = str(OUT / "tests" / programs[0][0])
            begun = subprocess.run(first, capture_output=True, text=True, env={**os.environ, "IPCD_SOCKET": "none"})
            if "unexpected memory mapping" in begun.stderr:
                print(f"clients: this system's memory is not for {kind}, so it was not run")
                continue
            for words in programs:
                ends_well(str(OUT / "tests" / words[0]), *words[1:], NO_BAD_ADDRESSES="1")


def looks_inside() -> None:
    """A call ends where it began, and pages may be longer."""
    device()
    with serving(prepare=by_anybody):
        ends_well(str(OUT / "tests" / "inside"))
        ends_well(str(OUT / "tests" / "library_races"))


def redirected_calls() -> None:
    device()
    with serving(prepare=by_anybody):
        all_end_well([[RUN, str(OUT / "tests" / name)] for name in [*reversed(CALLS), "polls"]])
        # Segments of System V stay the kernel's, and that is said.
        says_so(str(OUT / "tests" / "attachments"), call="shmget")
        with Connection("socket") as connection:
            connection.hello(0, 0)
            check(connection.shmget(0, 1, 0o600) == 1, "segments of System V are not the kernel's")


def on_version_3() -> None:
    """The calls of the library and the redirected ones on a device of version 3, whose server tells more at HELLO."""
    device()
    sectors = int(printed("format", "device", "--journal", "257").split()[1])
    with serving(sectors=sectors, prepare=by_anybody):
        names = [name for name in CALLS if name != "handlers"]
        all_end_well([[str(OUT / "tests" / f"library_{name}")] for name in [*names, "attachments"]])
        all_end_well([[RUN, str(OUT / "tests" / name)] for name in names])


def loads() -> None:
    """Calls of a library that a program loads, however it loads it, and calls that it finds by name."""
    program, folder = str(OUT / "tests" / "loads"), str(OUT / "tests" / "loaded")
    ends_well(program, "make", folder)
    ends_well(program, "remove")
    runs = [RUN, *(f"{name}/ipcd-run" for name in ("gcc", "clang") if os.path.exists(name))]
    for run in runs:
        device()
        with serving(prepare=by_anybody):
            ends_well(run, program, "make", folder)
            with Connection("socket") as connection:
                connection.hello(0, 0)
                keys = [0x69706370 + i for i in range(5)]
                there = [connection.msgget(key, 0) for key in keys]
                check(sorted(there) == [1, 2, 3, 4, 5], f"by {run}: {there}")
            kernels = Path("/proc/sysvipc/msg").read_text()
            check(not any(str(key) in kernels for key in keys), kernels)
            ends_well(run, program, "names", *names_of(Path(run).parent / "libipcd-preload.so"))
    with serving(prepare=by_anybody):
        says(RUN, program, "apart", folder, line=f"calls of a namespace that dlmopen makes {STAY}")
    ends_well(program, "remove")


def says(run: str, *words: str, line: str, **environment: str) -> None:
    """A program ends well, and there is one line on standard error."""
    here = {**with_socket(), **environment}
    ended = subprocess.run([run, *words], capture_output=True, text=True, timeout=SECONDS, env=here)
    wanted = f"ipcd-run: {os.path.basename(words[0])}: {line}\n"
    check((ended.returncode, ended.stderr) == (0, wanted), f"{words}: {ended}")


def lists() -> None:
    """A program that walks the objects by their indexes is told that it sees none, once."""
    device()
    with serving(prepare=by_anybody):
        shows_none = "no call lists the objects of a server (MSG_STAT, SEM_STAT), so it sees none of them"
        says(RUN, str(OUT / "tests" / "waits"), "lists", line=shows_none)


def check_counts() -> None:
    """With --check it is said how many calls came to the server, of a program and of those that it starts."""
    program, folder = str(OUT / "tests" / "loads"), str(OUT / "tests" / "loaded")
    both = f"{program} make {folder} && {program} remove && exit 3"
    device()
    with serving(prepare=by_anybody):
        counts([program, "make", folder], "5 calls", 0)
        counts(["sh", "-c", both], "15 calls", 3)
        counts([program, "names"], "no call", 0)
        counts(["sh", "-c", "kill -9 $$"], "no call", 128 + signal.SIGKILL)
        # Of a program that is not redirected none comes.
        counts(["env", "-u", "LD_PRELOAD", program, "make", folder], "no call", 0)
        ends_well(program, "remove")
        is_passed_on()
    counts([str(OUT / "tests" / "processes"), "absent"], "no call", 0)


def counts(words: list[str], came: str, status: int) -> None:
    ended = subprocess.run([RUN, "--check", *words], capture_output=True, text=True, timeout=SECONDS, env=with_socket())
    wanted = f"ipcd-run: {words[0]}: {came} came to the server\n"
    check((ended.returncode, ended.stderr) == (status, wanted), f"{words}: {ended}")


def is_passed_on() -> None:
    """A signal to ipcd-run alone is one to its program."""
    line = "trap 'echo heard; exit 4' TERM; echo ready; while :; do sleep 0.1; done"
    pipes = dict.fromkeys(("stdout", "stderr"), subprocess.PIPE)
    program = subprocess.Popen([RUN, "--check", "sh", "-c", line], text=True, **pipes)
    try:
        check(program.stdout.readline() == "ready\n", "it does not begin")
        program.terminate()
        output, said = program.communicate(timeout=SECONDS)
        check((program.returncode, output) == (4, "heard\n"), f"{program.returncode}, {output}, {said}")
    finally:
        program.kill()


def with_socket() -> dict[str, str]:
    return {**os.environ, "IPCD_SOCKET": os.path.abspath("socket")}


def says_so(*words: str, call: str) -> None:
    """A program that asks for shared memory ends well, and one line says whose that is."""
    says(RUN, *words, line=f"shared memory ({call}) {STAYS}")


def shared_memory() -> None:
    """It stays the kernel's, which is said once and nowhere but on standard error, or it is refused."""
    program = str(OUT / "tests" / "waits")
    says_so(program, "memory", call="shm_open")
    ends_well(RUN, program, "other_errors")
    check(Path("own").read_text() == "own\n", "a line is in a file of the program")
    ends_well(RUN, "--strict", program, "strict")
    ends_well(RUN, "--strict", "sh", "-c", f"exec {program} strict")


@contextmanager
def waiting_program(*words: str) -> Iterator[subprocess.Popen[str]]:
    """A program whose calls wait for a server, up to half a minute."""
    here = {**os.environ, "IPCD_SOCKET": os.path.abspath("socket")}
    line = [RUN, "--wait", "30", str(OUT / "tests" / "waits"), *words]
    pipes = dict.fromkeys(("stdin", "stdout", "stderr"), subprocess.PIPE)
    program = subprocess.Popen(line, text=True, env=here, **pipes)
    try:
        yield program
        output, said = program.communicate("\n", timeout=SECONDS)
        check((program.returncode, output, said) == (0, "", ""), f"{words}: {program.returncode}, {said}")
    finally:
        program.kill()
        program.wait()


def waits_for_a_server() -> None:
    """With --wait a call goes on when a server comes, but for one that has lost a lock by its end."""
    device()
    with waiting_program("begins_before"):
        time.sleep(0.5)
        server = Server()
    with waiting_program("goes_on") as program:
        check(program.stdout.readline() == "kill it while I wait\n", "it does not come so far")
        until_one_waits(program)
        server.stop(signal.SIGKILL)
        time.sleep(0.3)
        server = Server()
        with Connection("socket") as connection:
            connection.hello(os.geteuid(), os.getegid())
            connection.msgsnd(connection.msgget(8, 0), 1, b"again")
            for _ in range(2):
                check(program.stdout.readline() == "kill it now\n", "it does not come so far")
                server.stop(signal.SIGKILL)
                server = Server()
                program.stdin.write("\n")
                program.stdin.flush()
    with waiting_program("lost_lock") as program:
        check(program.stdout.readline() == "kill it now\n", "it does not come so far")
        server.stop(signal.SIGKILL)
        server = Server()
    server.stop()
    ends_well(RUN, "--wait=0.5", str(OUT / "tests" / "waits"), "gives_up")
    for words in ("--wait", "--wait=", "--wait=x", "--wait=-1", "--wait=1e9"):
        ended = subprocess.run([RUN, words, "true"], capture_output=True, text=True, timeout=20)
        check(ended.returncode == 125 and ended.stdout == "", f"{words}: {ended}")


def takes_once() -> None:
    """With --wait a semop that takes is done once, whether its connection ends before it has come or after that."""
    program = str(OUT / "tests" / "waits")
    ends_well(program, "takes_once")
    ends_well(program, "takes_one_of_many")
    device()
    with serving():
        for is_done, word, lost in ((True, "takes_once", 8), (False, "takes_once", 8), (False, "takes_one_of_many", 3)):
            with LosingServer(is_done) as losing:
                ends_well(RUN, "--socket", losing.path, "--wait", "30", program, word)
                check(losing.lost == lost, f"{word}: {losing.lost} were lost, and not {lost}")


def waits_for_its_turn() -> None:
    """With --wait and a device of version 3 a semop that was lost is not held to be done because another process, which
    has the same number after a restart, has done one."""
    device()
    sectors = int(printed("format", "device", "--journal", "257").split()[1])
    server = Server(sectors=sectors)
    with waiting_program("its_turn") as program:
        check(program.stdout.readline() == "take it\n", "it does not come so far")
        with Connection("socket") as connection:
            connection.hello(0, 0)
            connection.semop(connection.semget(77, 1, 0), [(0, -1, 0)])
        program.stdin.write("\n")
        program.stdin.flush()
        until_one_waits(program)
        program.send_signal(signal.SIGSTOP)
        server.stop(signal.SIGKILL)
        server = Server(sectors=sectors)
        with Connection("socket") as connection:
            check(connection.hello(0, 0) == 1, "it is not the first process")
            semaphores = connection.semget(77, 1, 0)
            connection.semctl_setval(semaphores, 0, 1)
            connection.semop(semaphores, [(0, -1, 0)])
            program.send_signal(signal.SIGCONT)
            until(lambda: connection.semctl_getncnt(semaphores, 0) == 1, "it does not wait")
            check(connection.semctl_getval(semaphores, 0) == 0, "the semaphore has changed")
            connection.semop(semaphores, [(0, 1, 0)])
            check(program.stdout.readline() == "taken\n", "it does not take it")
            check(connection.semctl_getval(semaphores, 0) == 0, "it has not taken it")
    server.stop()


def processes() -> None:
    device()
    with serving(prepare=by_anybody):
        for name in PROCESSES:
            if name == "users" and os.geteuid() != 0:
                print("clients: users are not tried, since this is not uid 0")
                continue
            ends_well(RUN, str(OUT / "tests" / "processes"), name)


def unlinked() -> None:
    """What is unlinked and still used, on the C library's and the kernel's objects, redirected, and by the library."""
    program, library = str(OUT / "tests" / "unlinked"), str(OUT / "tests" / "library_unlinked")
    for word in UNLINKED:
        ends_well(program, word, ON_KERNEL="1")
    device()
    with serving(prepare=by_anybody):
        for words in ([RUN, program], [library]):
            for word in UNLINKED:
                ends_well(*words, word)
            until(lambda: os.listdir("socket.pids") == [], "an entry is left")
            ends_well(*words, "many_queues")
    for words in ([RUN, program], [library]):
        check(around_restarts([*words, "outlives_the_server"]) == 1, "it does not ask")


def cannot_be_told() -> None:
    """Without the folder in which processes tell what they have open, what is unlinked stays the server's."""
    device()
    Path("socket.pids").write_text("")
    with serving(prepare=by_anybody):
        for word in ("counts", "others_have_it", "waits_meanwhile", "queue_threads", "queue_ends", "queue_keeps"):
            ends_well(str(OUT / "tests" / "library_unlinked"), word)
    os.remove("socket.pids")


def drops_uid_0() -> None:
    """A daemon that drops uid 0 keeps its calls if its later user is in the socket's group; else they are EACCES."""
    if os.geteuid() != 0:
        print("clients: a daemon that drops uid 0 is not tried, since this is not uid 0")
        return
    device()
    with serving(prepare=by_group):
        os.chown("socket", 0, 4242)
        os.mkdir("socket.pids")
        os.chmod("socket.pids", 0o1777)
        check(stat.S_IMODE(os.stat("socket").st_mode) == 0o770, "the socket is not for its group alone")
        ends_well(RUN, str(OUT / "tests" / "processes"), "drops")


def by_group() -> None:
    """As the unit has it."""
    os.umask(0o007)


def without_a_server() -> None:
    """No socket, and one that is left by a server that was killed."""
    device()
    ends_well(RUN, str(OUT / "tests" / "processes"), "absent")
    server = Server()
    server.process.kill()
    server.process.communicate()
    ends_well(RUN, str(OUT / "tests" / "processes"), "absent")


def restarts() -> None:
    """The server is killed before each call and in each that waits: it is told once, and then the call is done."""
    program = str(OUT / "tests" / "restart")
    library = str(OUT / "tests" / "library_restart")
    for words, count in (([RUN, program], 50), ([library, "segments"], 7), ([library, "attachments"], 9)):
        asked = around_restarts(words)
        check(asked == count, f"{words}: {asked} restarts were asked, and not {count}")


def around_restarts(words: list[str]) -> int:
    """Runs a program that asks for restarts: how many it has asked for."""
    device()
    server = Server()
    program = subprocess.Popen(
        words,
        env={**os.environ, "IPCD_SOCKET": os.path.abspath("socket")},
        stdin=subprocess.PIPE,
        stdout=subprocess.PIPE,
        stderr=subprocess.PIPE,
        text=True,
    )
    asked = 0
    try:
        for word in program.stdout:
            check(word in ("now\n", "soon\n"), f"{word!r} is asked")
            asked += 1
            if word == "soon\n":
                until_one_waits(program)
            server.stop(signal.SIGKILL)
            server = Server()
            program.stdin.write("again\n")
            program.stdin.flush()
        said = program.stderr.read()
        check((program.wait(SECONDS), said) == (0, ""), f"after {asked} restarts: {said}")
        return asked
    finally:
        program.kill()
        server.process.kill()


def polls_over_a_restart() -> None:
    """The server is killed while a program waits for nothing: a wait ends, and the next call hears why, or waits."""
    program = str(OUT / "tests" / "polls")
    for words in ([RUN, program, "restart"], [RUN, "--wait", "30", program, "restart"]):
        check(around_restarts(words) == 1, "it does not ask")


def killed_in_each_call() -> None:
    """No process of a client is left at the server: 64 others find room."""
    device()
    with serving(prepare=by_anybody):
        ends_well(RUN, str(OUT / "tests" / "restart"), "killed")
        connections = [Connection("socket") for _ in range(64)]
        silent = list(connections)
        until(lambda: all_say_hello(silent), "processes are left")
        for connection in connections:
            connection.close()


def all_say_hello(silent: list[Connection]) -> bool:
    """Whether there is room for the processes of all these connections. Those that have had it are taken off."""
    try:
        while silent:
            silent[-1].hello(0, 0)
            silent.pop()
    except OSError:
        return False
    return True


def until_one_waits(program: subprocess.Popen[str]) -> None:
    """The call was sent, for its thread sleeps in a read of the socket; and the server has had some turns."""
    place = Path(f"/proc/{program.pid}/wchan")
    end = time.monotonic() + 5
    while "unix_stream" not in place.read_text() and time.monotonic() < end:
        time.sleep(0.01)
    time.sleep(0.1)


def is_answered_an_error(program: list[str], call: str, at: str, fault: Fault) -> None:
    with FalseServer(fault, call, at) as false:
        ended = subprocess.run(
            [*program, call, at],
            env={**os.environ, "IPCD_SOCKET": false.path},
            capture_output=True,
            text=True,
            timeout=SECONDS,
        )
        what = f"{call}, {at}, of {fault.name}: {ended}"
        check((ended.returncode, ended.stderr) == (0, ""), what)
        check(int(ended.stdout) == fault.errno, what)
        check(false.was_said and false.is_closed(), f"{what}: the connection is not closed")


def all_are_errors(each: list[tuple[list[str], str, str, Fault]]) -> None:
    with ThreadPoolExecutor(8) as pool:
        for done in [pool.submit(is_answered_an_error, *one) for one in each]:
            done.result()


def false_servers() -> None:
    """Whatever comes ends in an error and a closed connection, never in a crash, a hang or an answer."""
    plain, hasty = [str(OUT / "tests" / "each_call")], [str(OUT / "tests" / "hasty_each_call")]
    each = [(plain, name, "answered", fault) for name in EACH_CALL for fault in FAULTS]
    # What follows the pid may be of any length.
    each += [(plain, "hello", "answered", fault) for fault in FAULTS if fault.name != "a body too long"]
    each += [(hasty, name, "answered", fault) for name in ["hello", *EACH_CALL] for fault in TORN]
    each += [(plain, name, "interrupted", fault) for name in EACH_THAT_WAITS for fault in INTERRUPTED]
    each += [(hasty, name, "interrupted", fault) for name in EACH_THAT_WAITS for fault in HALF_AFTER_INTERRUPT]
    all_are_errors(each)
    print(f"clients: {len(each)} answers of a false server, each an error of its call")


def refuses_programs() -> None:
    """Programs whose calls the kernel would answer without a word are named, and not run."""
    static = OUT / "tests" / "static"
    shutil.copy("/bin/true", "set_uid")
    os.chmod("set_uid", 0o4755)
    head = bytearray(Path("/bin/true").read_bytes())
    head[4] = 1
    Path("narrow").write_bytes(head)
    Path("script").write_text(f"#!{os.path.abspath('set_uid')}\n")
    Path("plain").write_text("no program\n")
    for name in ("narrow", "script", "plain"):
        os.chmod(name, 0o755)
    wanted = {
        str(static): "a static program is not redirected",
        "./set_uid": "a set-uid or set-gid program is not redirected",
        "./narrow": "a program of 32 bits is not redirected",
        "./script": "a set-uid or set-gid program is not redirected",
        "./plain": "Exec format error",
    }
    for name, why in wanted.items():
        ended = subprocess.run([RUN, name], capture_output=True, text=True, timeout=20)
        check((ended.returncode, ended.stderr) == (126, f"ipcd-run: {name}: {why}\n"), f"{name}: {ended}")
    for words, status in ((["no-such-program"], 127), ([], 125), (["--what"], 125), (["--socket"], 125)):
        ended = subprocess.run([RUN, *words], capture_output=True, text=True, timeout=20)
        check(ended.returncode == status and ended.stdout == "", f"{words}: {ended}")
    ended = subprocess.run([RUN, "sh", "-c", "exit 3"], capture_output=True, text=True, timeout=20)
    check(ended.returncode == 3, f"sh: {ended}")
    line = [RUN, "--socket", "here", "sh", "-c", "echo $IPCD_SOCKET"]
    ended = subprocess.run(line, capture_output=True, text=True, timeout=20)
    check(ended.stdout == f"{os.getcwd()}/here\n", f"sh: {ended}")


def names_of(library: Path) -> set[str]:
    listed = subprocess.run(["nm", "-D", "--defined-only", library], capture_output=True, text=True)
    found = [line.split()[1:3] for line in listed.stdout.splitlines()]
    return {name.partition("@")[0] for kind, name in found if kind != "A"}


# What the C library has of these calls, and the library that is preloaded leaves to it.
LEFT = {"sem_init", "sem_destroy", "__shm_get_name"}


def exports() -> None:
    """The library that is preloaded has each name by which the C library has these calls, the other each with the
    prefix, and both no more. They need the C library alone."""
    preload, library = OUT / "libipcd-preload.so", OUT / "libipcd.so.0"
    heard = """
        close closefrom close_range dup dup2 dup3 setuid seteuid setreuid setresuid setgid setegid
        setregid setresgid sigaction siginterrupt signal bsd_signal ssignal sigset dlopen dlmopen dlsym
        pthread_cancel msync munmap poll __poll_chk ppoll __ppoll_chk select pselect epoll_ctl epoll_wait
        epoll_pwait epoll_pwait2 read __read_chk fcntl fcntl64 mmap mmap64 ftruncate ftruncate64
        posix_fallocate posix_fallocate64 fstat fstat64
    """.split()
    calls = names_of(preload) - set(heard)
    check(len(calls) == 34 and names_of(preload) >= set(heard), f"{names_of(preload)}")
    own = {name for it in c_library(preload) for name in names_of(it)}
    kinds = r"_*(msg(get|snd|rcv|ctl)|sem(get|op|timedop|ctl)|shm(get|at|dt|ctl)|mq_|sem_|shm_)"
    wanted = {name for name in own if re.match(kinds, name)}
    check(calls == wanted - LEFT, f"{calls ^ wanted ^ LEFT}")
    names = names_of(library)
    prefixed = {name for name in calls if name != "__mq_open_2"}
    others = "version connect disconnect use shm_open shm_unlink ftruncate pread pwrite fstat close".split()
    others += "shmattach shmdetach shmread shmwrite".split()
    check(names == {f"ipcd_{name}" for name in [*prefixed, *others]}, f"{names}")
    listed = subprocess.run(["nm", "-D", "--defined-only", library], capture_output=True, text=True).stdout
    check(all(f"{name}@@IPCD_0\n" in listed for name in names), f"a name has no version: {listed}")
    words = ["nm", "-D", "--undefined-only", OUT / "tests" / "posix_queues"]
    asked = subprocess.run(words, capture_output=True, text=True).stdout
    check("__mq_open_2" in asked, f"the test of POSIX queues is not fortified: {asked}")
    table = (HERE.parents[2] / "docs/COMPATIBILITY.md").read_text()
    page = (HERE.parent / "libipcd.3").read_text()
    for name in [*prefixed, *heard, *(LEFT - {"__shm_get_name"})]:
        # What a fortified program calls, and another one with offsets of 64 bits, is the same call.
        name = name.removeprefix("__").removesuffix("_chk").removesuffix("64")
        check(re.search(rf"\b{name}\b", table) is not None, f"COMPATIBILITY.md has no {name}")
    check(all(name in page for name in names), "libipcd(3) does not have each name")
    for file, soname in ((preload, "libipcd-preload.so"), (library, "libipcd.so.0")):
        said = subprocess.run(["readelf", "-d", file], capture_output=True, text=True).stdout
        check(f"soname: [{soname}]" in said, f"{file}: {said}")
        needed = re.findall(r"NEEDED.*\[(.*)\]", said)
        check(all(re.match(r"(libc|libpthread|libdl|librt|ld-linux.*)\.so", name) for name in needed), f"{needed}")


def c_library(file: Path) -> list[Path]:
    """The files of the C library with which a library is loaded."""
    said = subprocess.run(["ldd", file], capture_output=True, text=True).stdout
    found = re.findall(r"(?:libc|libpthread|librt)\.so\S* => (\S+)", said)
    check(found != [], f"{file}: {said}")
    return [Path(name) for name in found]


def installs() -> None:
    """What is installed runs and compiles from there, and its pages are rendered without a warning."""
    top = Path("top").resolve()
    apart = {name: text for name, text in os.environ.items() if not name.startswith(("MAKE", "MFLAGS"))}
    words = ["make", "-s", "-C", str(HERE.parent), "install", f"DESTDIR={top}", "PREFIX=/usr"]
    ended = subprocess.run(words, capture_output=True, text=True, env=apart)
    check((ended.returncode, ended.stderr) == (0, ""), f"{ended}")
    device()
    with serving(prepare=by_anybody):
        ends_well(str(top / "usr/bin/ipcd-run"), str(OUT / "tests" / "messages"))
        compiles_there(top)
    renders(top)


def makes(out: str, *words: str) -> str:
    """Builds the library elsewhere, by other words of a packager, and answers what the compiler has said."""
    apart = {name: text for name, text in os.environ.items() if not name.startswith(("MAKE", "MFLAGS"))}
    line = ["make", "-s", "-C", str(HERE.parent), f"OUT={os.path.abspath(out)}", *words]
    ended = subprocess.run(line, capture_output=True, text=True, env=apart)
    check(ended.returncode == 0, f"{words}: {ended}")
    return ended.stdout + ended.stderr


def built_otherwise() -> None:
    """By another compiler, by the letter of the standard, and with what a packager gives."""
    compilers = [it for it in ("gcc", "clang") if shutil.which(it)]
    for name in compilers:
        said = makes(name, f"CC={name}", "CFLAGS=-O1 -pedantic", "CPPFLAGS=-DPATIENCE=12321", "LDFLAGS=-Wl,-z,now")
        check(said == "", f"{name} says {said}")
        listed = subprocess.run(["readelf", "-d", f"{name}/libipcd.so.0"], capture_output=True, text=True).stdout
        check("NOW" in listed, f"{name}: LDFLAGS are not heard: {listed}")
    print(f"clients: built by {' and '.join(compilers)}")
    top = Path("packaged").resolve()
    makes(compilers[0] if compilers else "cc", "install", f"DESTDIR={top}", "PREFIX=/usr", "LIBDIR=/usr/lib64")
    there = {str(it.relative_to(top)) for it in (top / "usr/lib64").rglob("*") if it.is_file()}
    wanted = {"libipcd.so", "libipcd.so.0", "libipcd.a", "pkgconfig/ipcd.pc"}
    check(there == {f"usr/lib64/{name}" for name in wanted}, f"{there}")
    file = (top / "usr/lib64/pkgconfig/ipcd.pc").read_text()
    check("\nlibdir=/usr/lib64\n" in file and "Version: 0.1.0\n" in file, file)
    ended = subprocess.run([top / "usr/bin/ipcd-run", "true"], capture_output=True, text=True)
    check((ended.returncode, ended.stderr) == (0, ""), f"{ended}")


def headers() -> None:
    """ipcd.h compiles alone, in C and in C++, and each file refuses a system whose long has 32 bits."""
    compiler, warnings = os.environ.get("CC", "cc"), ["-Wall", "-Wextra", "-Werror", "-pedantic", "-fsyntax-only"]
    forms = [["-x", "c", f"-std={it}", "-D_DEFAULT_SOURCE"] for it in ("c99", "c11", "gnu11")]
    forms.append(["-x", "c", "-std=c11", "-D_XOPEN_SOURCE=700"])
    if shutil.which("c++"):
        forms += [["-x", "c++", f"-std={it}"] for it in ("c++98", "c++17")]
    else:
        print("clients: there is no C++ compiler, so ipcd.h was not tried in C++")
    for form in forms:
        line = ["c++" if "c++" in form else compiler, *form, *warnings, str(HERE.parent / "ipcd.h")]
        ended = subprocess.run(line, capture_output=True, text=True)
        check((ended.returncode, ended.stderr) == (0, ""), f"{line}: {ended.stderr}")
    os.makedirs("gnu", exist_ok=True)
    Path("gnu/stubs-32.h").write_text("")
    where = subprocess.run([compiler, "-print-multiarch"], capture_output=True, text=True).stdout.strip()
    line = [compiler, "-m32", "-fsyntax-only", "-I.", "-idirafter", f"/usr/include/{where}"]
    ended = subprocess.run([*line, str(HERE.parent / "messages.c")], capture_output=True, text=True)
    check(ended.returncode != 0, "messages.c compiles for 32 bits")
    if "a long has 64 bits" not in ended.stderr:
        print("clients: this compiler has no 32 bits, so the refusal of them was not seen")


def static_library() -> None:
    """It has no names but its own, so a program may have any other, and says its version."""
    listed = subprocess.run(["nm", "-g", "--defined-only", OUT / "libipcd.a"], capture_output=True, text=True).stdout
    names = {words[2] for words in map(str.split, listed.splitlines()) if len(words) == 3}
    check(names == names_of(OUT / "libipcd.so.0"), f"{names}")
    Path("clashes.c").write_text("""
        #include <errno.h>
        #include <string.h>
        #include <ipcd.h>
        int begin(void), end(void), take(void), release(void), find(void), wake(void), changes;
        int begin(void) { return 1; }
        int end(void) { return 2; }
        int take(void) { return 3; }
        int release(void) { return 4; }
        int find(void) { return 5; }
        int wake(void) { return 6; }
        int main(void)
        {
            int sum = begin() + end() + take() + release() + find() + wake() + changes;
            if (sum != 21 || strcmp(ipcd_version(), IPCD_VERSION) != 0 || strcmp(IPCD_VERSION, "0.1.0") != 0)
                return 1;
            return ipcd_msgget(1, 0) == -1 && errno == ENOENT ? 0 : 2;
        }
    """)
    flags = ["-Wall", "-Wextra", "-Werror", "-pthread", f"-I{HERE.parent}"]
    line = [os.environ.get("CC", "cc"), *flags, "clashes.c", "-o", "clashes", str(OUT / "libipcd.a")]
    ended = subprocess.run(line, capture_output=True, text=True)
    check((ended.returncode, ended.stderr) == (0, ""), ended.stderr)
    device()
    with serving(prepare=by_anybody):
        ends_well("./clashes")


def compiles_there(top: Path) -> None:
    """A program finds header and library by pkg-config, if that is here."""
    Path("asks.c").write_text("""
        #include <ipcd.h>
        #include <errno.h>
        int main(void) { return ipcd_msgget(1, 0) == -1 && errno == ENOENT ? 0 : 1; }
    """)
    flags = [f"-I{top}/usr/include", f"-L{top}/usr/lib", "-lipcd"]
    if shutil.which("pkg-config") is None:
        print("clients: pkg-config is not here, so its file was not read")
    else:
        where = {**os.environ, "PKG_CONFIG_PATH": f"{top}/usr/lib/pkgconfig", "PKG_CONFIG_SYSROOT_DIR": str(top)}
        said = subprocess.run(["pkg-config", "--cflags", "--libs", "ipcd"], capture_output=True, text=True, env=where)
        check(said.returncode == 0 and "-lipcd" in said.stdout, f"{said}")
        flags = said.stdout.split()
        # The folders of the system are left out, as they are for any package that is in them.
        flags += [f"-I{top}/usr/include", f"-L{top}/usr/lib"]
    subprocess.run([os.environ.get("CC", "cc"), "-Wall", "-Werror", "asks.c", "-o", "asks", *flags], check=True)
    ends_well("./asks", LD_LIBRARY_PATH=f"{top}/usr/lib")


def renders(top: Path) -> None:
    if shutil.which("man") is None or not subprocess.run(["man", "--version"], capture_output=True, text=True).stdout:
        print("clients: man is not here, so its pages were not rendered")
        return
    here = {**os.environ, "LC_ALL": "C.UTF-8", "MANWIDTH": "100", "PAGER": "cat", "MANPAGER": "cat"}
    for name, words in (("man1/ipcd-run.1", "SOCKET.pids"), ("man3/libipcd.3", "ECONNRESET")):
        line = ["man", "--warnings", "-l", str(top / "usr/share/man" / name)]
        ended = subprocess.run(line, capture_output=True, text=True, env=here)
        check((ended.returncode, ended.stderr) == (0, "") and words in ended.stdout, f"{name}: {ended}")


# What stands between `.EX` and `.EE` in a section EXAMPLES, and how roff writes some characters there.
EXAMPLE = re.compile(r"^\.EX\n(.*?)^\.EE$", re.M | re.S)
ROFF = {r"\-": "-", r"\(aq": "'", r"\&": "", r"\e": "\\"}


def examples(page: Path) -> list[str]:
    """The examples of a manual page, as a terminal shows them."""
    found = EXAMPLE.findall(page.read_text().partition(".SH EXAMPLES")[2].partition("\n.SH ")[0])
    return [re.sub(r"\\(?:-|\(aq|&|e)", lambda it: ROFF[it[0]], text) for text in found]


def manual_pages() -> None:
    """Each example of a manual page is run as it stands: one in C is compiled, one of a shell prints what is shown."""
    count = 0
    os.makedirs("path", exist_ok=True)
    shutil.copy(PROGRAM, "path/ipcd")
    for page in sorted([*HERE.parent.glob("*.[1-8]"), *(HERE.parents[2] / "docs").glob("*.[1-8]")]):
        for name in ("device", "copy", "socket"):
            Path(name).unlink(missing_ok=True)
        servers: list[Server] = []
        try:
            for text in examples(page):
                count += 1
                if text.startswith("$ "):
                    shell_shows(page, text, servers)
                else:
                    compiles_and_runs(page, text)
        finally:
            for server in servers:
                server.process.kill()
                server.process.communicate()
    check(count >= 4, f"{count} examples are few")
    print(f"clients: {count} examples of manual pages")


def compiles_and_runs(page: Path, text: str) -> None:
    """A program, or a part of one below the includes of the page's synopsis."""
    if "int main(" not in text:
        synopsis = page.read_text().partition(".SH SYNOPSIS")[2].partition("\n.SH ")[0]
        includes = "\n".join(["#include <errno.h>", *re.findall(r"#include <[^>]*>", synopsis)])
        text = f"{includes}\nint main(void)\n{{\n{text}return errno;\n}}\n"
    Path("example.c").write_text(text)
    flags = ["-Wall", "-Wextra", "-Werror", f"-I{HERE.parent}", f"-L{OUT}", f"-Wl,-rpath,{OUT}"]
    compiler = os.environ.get("CC", "cc")
    made = subprocess.run([compiler, *flags, "example.c", "-o", "example", "-lipcd"], capture_output=True, text=True)
    check(made.returncode == 0, f"{page.name}: an example does not compile: {made.stderr}")
    device()
    with serving(prepare=by_anybody):
        ends_well("./example")


def shell_shows(page: Path, text: str, servers: list[Server]) -> None:
    """The lines of a shell. One by ipcd-run has a server, which is killed after it; one that serves is one."""
    if "IPC::Msg" in text and subprocess.run(["perl", "-MIPC::Msg", "-e", "1"], stderr=subprocess.DEVNULL).returncode:
        print(f"clients: perl is not here with IPC::Msg, so an example of {page.name} was not run")
        return
    here = {**os.environ, "IPCD_SOCKET": os.path.abspath("socket")}
    make_objects(text)
    here["PATH"] = f"{os.getcwd()}/path:{OUT}:{os.environ['PATH']}"
    for line, printed_there in re.findall(r"^\$ (.*)\n((?:(?!\$ ).*\n)*)", text, re.M):
        if line.startswith("ipcd serve "):
            servers.append(Server())
            check(line.split()[2:4] == ["device", "socket"], f"{page.name}: {line} is another server")
            shown = "serving device, 252440 sectors, on socket, standard limits\n"
            check(printed_there == shown, f"{page.name}: {line}: {printed_there!r}, and not {shown!r}")
            continue
        if line.startswith("ipcd-run ") and not os.path.exists("device"):
            printed("format", "device")
        server = Server() if line.startswith("ipcd-run ") else None
        ended = subprocess.run(["sh", "-c", line], capture_output=True, text=True, env=here, timeout=SECONDS)
        if server is not None:
            server.stop(signal.SIGKILL)
        check((ended.returncode, ended.stderr) == (0, ""), f"{page.name}: {line}: {ended}")
        check(ended.stdout == printed_there, f"{page.name}: {line}: {ended.stdout!r}, and not {printed_there!r}")


def make_objects(text: str) -> None:
    """As many objects as an example tells of, if it does."""
    told = re.search(r"(\d+) objects", text)
    if told is None or not os.path.exists("socket"):
        return
    with Connection("socket") as connection:
        connection.hello(0, 0)
        for number in range(int(told[1])):
            connection.msgget(100 + number, 0o1600)


def pids() -> None:
    """Whom GETPID and msg_lspid name: living processes whose entries their own users have made, and else nobody."""
    device()
    program = [RUN, str(OUT / "tests" / "pids")]
    with serving(prepare=by_anybody):
        with named(program) as (process, said):
            check(said == process.pid, f"{said} is the process, and not {process.pid}")
            entry, text = only_entry()
            check(stat.S_IMODE(os.stat("socket.pids").st_mode) == 0o1777, "the folder's mode")
            for other in (f"{process.pid} 1", f"{process.pid}", "x", f"999999999 {text.split()[1]}", "0 0", "-1 5"):
                replaces(entry, other)
                check(asks(process) == int(entry.name), f"{other} counts")
            replaces(entry, text)
            check(asks(process) == process.pid, "the entry does not count any more")
            if os.geteuid() == 0:
                # Somebody else says so, who is not the process.
                os.lchown(entry, 65534, 65534)
                check(asks(process) == int(entry.name), "the entry of another counts")
                os.lchown(entry, 0, 0)
        check(os.listdir("socket.pids") == [], "an entry is left")
        # Of one that has ended the server's number is said, also if its entry is left.
        with named(program) as (process, _):
            process.kill()
            process.wait()
            check(only_entry()[1].startswith(f"{process.pid} "), "the entry is of another")
        with named(program, "last") as (process, said):
            check(said not in (process.pid, 0) and said < 100, f"{said} is said of one that was killed")
        # Without the folder there are no names.
        shutil.rmtree("socket.pids")
        Path("socket.pids").write_text("")
        with named(program) as (process, said):
            check(said < 100, f"{said} is said without a folder")
        os.remove("socket.pids")


def pids_of_lives() -> None:
    """On a device of version 3 the first process of each life of the server has the same number. What an earlier life's
    has told of itself counts for no other, and keeps none from telling."""
    device()
    sectors = int(printed("format", "device", "--journal", "257").split()[1])
    program, library = [RUN, str(OUT / "tests" / "pids")], str(OUT / "tests" / "library_pids")
    os.mkdir("socket.pids")
    os.chmod("socket.pids", 0o1777)
    first = ["as=65534"] if os.geteuid() == 0 else []
    second = ["as=65533"] if os.geteuid() == 0 else []
    server = Server(sectors=sectors, prepare=by_anybody)
    try:
        with named(program, *first) as (process, said):
            check(said == process.pid, f"{said} is the process, and not {process.pid}")
            server.stop(signal.SIGKILL)
            server = Server(sectors=sectors, prepare=by_anybody)
            with Connection("socket") as connection:
                check(connection.hello(0, 0) == 1, "it is not the first process")
                connection.msgsnd(connection.msgget(0x69706371, 0), 1, b"y")
                with named(program, "last") as (_, said):
                    check(said == 1, f"{said} is said of one that has told nothing")
            server.stop(signal.SIGKILL)
            server = Server(sectors=sectors, prepare=by_anybody)
            with named(program, *second) as (other, said):
                check(said == other.pid, f"{said} is the process, and not {other.pid}")
                check(process.poll() is None, "the first of them is not alive")
        server.stop(signal.SIGKILL)
        server = Server(sectors=sectors, prepare=by_anybody)
        with named([library, "two"]) as (process, _):
            server.stop(signal.SIGKILL)
            server = Server(sectors=sectors, prepare=by_anybody)
            with Connection("socket") as connection:
                connection.hello(0, 0)
                check(asks(process) == 2, "it does not come so far")
                with named(program, "last") as (_, said):
                    check(said == process.pid, f"{said} is the process, and not {process.pid}")
            process.stdin.write("\n")
            process.stdin.flush()
            check(process.wait(SECONDS) == 0, f"it ends with {process.returncode}")
        # Who ends first in a life removes what earlier ones have left.
        server.stop(signal.SIGKILL)
        server = Server(sectors=sectors, prepare=by_anybody)
        with named(program, "last"):
            pass
        check(os.listdir("socket.pids") == [], f"there is left {os.listdir('socket.pids')}")
        server.stop()
    finally:
        server.process.kill()


@contextmanager
def named(words: list[str], *more: str) -> Iterator[tuple[subprocess.Popen[str], int]]:
    """A program that has sent a message, and the number that it says of who has sent last."""
    here = {**os.environ, "IPCD_SOCKET": os.path.abspath("socket")}
    pipes = dict.fromkeys(("stdin", "stdout"), subprocess.PIPE)
    process = subprocess.Popen([*words, *more], text=True, env=here, **pipes)
    try:
        yield process, int(process.stdout.readline())
        if process.poll() is None:
            process.stdin.close()
            check(process.wait(SECONDS) == 0, f"{words} ends with {process.returncode}")
    finally:
        process.kill()
        process.wait()


def asks(process: subprocess.Popen[str]) -> int:
    process.stdin.write("again\n")
    process.stdin.flush()
    return int(process.stdout.readline())


def only_entry() -> tuple[Path, str]:
    entries = list(Path("socket.pids").iterdir())
    check(len(entries) == 1, f"{entries}")
    return entries[0], os.readlink(entries[0])


def replaces(entry: Path, text: str) -> None:
    entry.unlink()
    entry.symlink_to(text)


class Dribble:
    """A socket that hands on what comes in small pieces, in each direction, to the server's."""

    def __init__(self) -> None:
        self._listening = socket.socket(socket.AF_UNIX, socket.SOCK_STREAM)
        self._listening.bind("dribble")
        self._listening.listen(64)
        os.chmod("dribble", 0o777)
        threading.Thread(target=self._accept, daemon=True).start()

    def _accept(self) -> None:
        count = 0
        while True:
            client, _ = self._listening.accept()
            server = socket.socket(socket.AF_UNIX, socket.SOCK_STREAM)
            server.connect("socket")
            threading.Thread(target=self._hand_on, args=(client, server), daemon=True).start()
            threading.Thread(target=self._answer, args=(server, client, count), daemon=True).start()
            count += 1

    def _answer(self, server: socket.socket, client: socket.socket, count: int) -> None:
        self._hand_on(server, client)

    def _hand_on(self, source: socket.socket, sink: socket.socket) -> None:
        sizes = random.Random(1)
        with suppress(OSError):
            while data := source.recv(sizes.choice((1, 2, 5, 11, 20, 27, 2000))):
                sink.sendall(data)
                # Else the next ones come before this one is read.
                time.sleep(0.0005)
        for end in (source, sink):
            with suppress(OSError):
                end.shutdown(socket.SHUT_RDWR)


class LateNews(Dribble):
    """The same, and all that comes from the server on a connection that is not the first comes late."""

    def _answer(self, server: socket.socket, client: socket.socket, count: int) -> None:
        with suppress(OSError):
            while data := server.recv(65536):
                time.sleep(0.01 if count > 0 else 0)
                client.sendall(data)
        client.close()


def notifies_before_it_answers() -> None:
    """mq_send waits for the notification of its own process, however late that comes over its connection."""
    for words in ([RUN, str(OUT / "tests/posix_queues")], [str(OUT / "tests/library_posix_queues")]):
        device()
        with serving(prepare=by_anybody):
            LateNews()
            ends_well(*words, IPCD_SOCKET=os.path.abspath("dribble"))
        os.remove("dribble")


def pieces() -> None:
    """Frames come in pieces, of some bytes or parts of a body, and answers are the same."""
    device()
    with serving(prepare=by_anybody):
        Dribble()
        for name in ("messages", "semaphore_sets", "named_semaphores", "segments", "attachments"):
            ends_well(str(OUT / "tests" / f"library_{name}"), IPCD_SOCKET=os.path.abspath("dribble"))


TESTS = [exports, headers, built_otherwise, static_library, refuses_programs, installs, kernel_agrees, library_calls,
         on_version_3, notifies_before_it_answers,
         pieces, memcheck, sanitized, looks_inside, redirected_calls, loads, lists, check_counts, shared_memory,
         waits_for_a_server, takes_once, waits_for_its_turn, processes, drops_uid_0, unlinked, cannot_be_told,
         pids, pids_of_lives, manual_pages, without_a_server, restarts, polls_over_a_restart,
         killed_in_each_call, false_servers]  # fmt: skip

if __name__ == "__main__":
    with in_a_folder(600):
        os.chmod(".", stat.S_IRWXU | 0o055)
        run_tests("clients in C", [test for test in TESTS if not WANTED or test.__name__ in WANTED])
