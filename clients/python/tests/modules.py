"""The modules sysv_ipc and posix_ipc of this package, on the built program as a server.

    python3 clients/python/tests/modules.py PROGRAM

Where the kernel's sysv_ipc is installed, each line of sysv_transcript.py has to be the same on both. What
posix_ipc answers is that of the manual pages.
"""

from __future__ import annotations

import inspect
import os
import random
import re
import resource
import signal
import stat
import subprocess
import sys
import threading
import time
from collections.abc import Callable, Iterator
from contextlib import contextmanager, suppress
from pathlib import Path
from types import FrameType
from typing import Optional

import setting
from ipcd import Connection, posix_ipc, session, sysv_ipc
from server import Server, check, in_a_folder, of_version_3, printed, run_tests, until

TRANSCRIPT = str(Path(__file__).resolve().parent / "sysv_transcript.py")
# Of the kernel's module these are its author's.
NOT_OURS = {"__author__", "__copyright__", "__license__"}
# What depends on the machine, of which nothing was written down.
OF_MACHINE = re.compile("ftok ->|PAGE_SIZE ->")
RACES = 200


@contextmanager
def served() -> Iterator[Server]:
    """A server with standard limits, whose socket everybody may write, and no connection to an earlier one."""
    if not os.path.exists("device"):
        printed("format", "device")
    server = Server()
    try:
        os.chmod("socket", 0o777)
        session._forget_all()
        yield server
        session._forget_all()
        if server.process.returncode is None:
            server.stop()
    finally:
        server.process.kill()


def raises(call: Callable[[], object], kind: type[BaseException]) -> BaseException:
    try:
        found = call()
    except Exception as raised:
        check(type(raised) is kind, f"{raised!r}, and not {kind.__name__}")
        return raised
    raise AssertionError(f"{found!r} is answered, and not {kind.__name__}")


def equals(found: object, wanted: object) -> None:
    check(found == wanted, f"{found!r}, and not {wanted!r}")


def in_a_child(work: Callable[[], object]) -> None:
    """Does this after a fork. A child that fails ends with status 1."""
    child = os.fork()
    if child == 0:
        try:
            work()
            os._exit(0)
        except BaseException as raised:
            print(f"the child: {raised!r}", file=sys.stderr, flush=True)
            os._exit(1)
    equals(os.waitpid(child, 0)[1], 0)


def kernels() -> list[str]:
    """An interpreter that has the kernel's module, if there is one."""
    for python in (sys.executable, "/usr/bin/python3"):
        if os.path.exists(python) and not subprocess.run([python, "-c", "import sysv_ipc"], stderr=-3).returncode:
            return [python]
    return []


def the_kernels_sysv_ipc() -> None:
    """Names and behaviour are those of the kernel's module, or else behaviour is what was written down of it."""
    found = kernels()
    if found:
        names_are_there(found)
        kernel = transcript([*found, TRANSCRIPT, "kernel"])
        check(len(kernel) > 150, f"{len(kernel)} lines are few")
    elif os.geteuid() == 0:
        print("modules: sysv_ipc is not installed: ours is compared with what it answered when that was written down")
        kernel = Path(TRANSCRIPT).with_suffix(".txt").read_text().splitlines()[1:]
    else:
        print("modules: sysv_ipc is not installed, and uid 0's answers were written down, so nothing is compared")
        return
    with served():
        ours = transcript([sys.executable, TRANSCRIPT, "ipcd"])
    if not found:
        ours = [written_down(line) for line in ours if not OF_MACHINE.match(line)]
    for theirs, line in zip(kernel, ours):
        check(theirs == line, f"{line!r}, and the kernel's is {theirs!r}")
    equals(len(ours), len(kernel))


def written_down(line: str) -> str:
    """A line as the file has it, in which texts that are long are short."""
    return re.sub(r"x{20,}", lambda found: f"<{len(found[0])} x>", line)


def names_are_there(found: list[str]) -> None:
    code = "import sysv_ipc as m; print(*dir(m), *(f'{c}.{n}' for c in dir(m) if c[0].isupper()"
    code += " and isinstance(getattr(m, c), type) for n in dir(getattr(m, c)) if n[0] != '_'))"
    names = subprocess.run([*found, "-c", code], capture_output=True, text=True, check=True).stdout.split()
    check(len(names) > 100, f"{names} are few")
    for name in set(names) - NOT_OURS:
        thing: object = sysv_ipc
        # What every exception has is Python's.
        if name.startswith("__") or "Error." in name:
            continue
        for part in name.split("."):
            check(part in dir(thing), f"there is no {name}")
            thing = inspect.getattr_static(thing, part)


def transcript(words: list[str]) -> list[str]:
    ended = subprocess.run(words, capture_output=True, text=True, timeout=60)
    check(ended.returncode == 0, f"{words}: {ended}")
    return ended.stdout.splitlines()


def signatures() -> None:
    """Parameters, their order and their defaults are those that the modules' pages have."""
    wanted = {
        sysv_ipc.Semaphore: "key, flags=0, mode=384, initial_value=0",
        sysv_ipc.Semaphore.acquire: "self, timeout=None, delta=1",
        sysv_ipc.Semaphore.release: "self, delta=1",
        sysv_ipc.Semaphore.Z: "self, timeout=None",
        sysv_ipc.MessageQueue: "key, flags=0, mode=384, max_message_size=2048",
        sysv_ipc.MessageQueue.send: "self, message, block=True, type=1",
        sysv_ipc.MessageQueue.receive: "self, block=True, type=0",
        sysv_ipc.SharedMemory: "key, flags=0, mode=384, size=0, init_character=b' '",
        sysv_ipc.SharedMemory.attach: "self, address=None, flags=0",
        sysv_ipc.SharedMemory.read: "self, byte_count=0, offset=0",
        sysv_ipc.SharedMemory.write: "self, s, offset=0",
        sysv_ipc.attach: "id, address=None, flags=0",
        sysv_ipc.ftok: "path, id, silence_warning=False",
        posix_ipc.Semaphore: "name, flags=0, mode=384, initial_value=0",
        posix_ipc.Semaphore.acquire: "self, timeout=None",
        posix_ipc.MessageQueue: (
            "name, flags=0, mode=384, max_messages=10, max_message_size=8192, read=True, write=True"
        ),
        posix_ipc.MessageQueue.send: "self, message, timeout=None, priority=0",
        posix_ipc.MessageQueue.receive: "self, timeout=None",
        posix_ipc.MessageQueue.request_notification: "self, notification=None",
        posix_ipc.SharedMemory: "name, flags=0, mode=384, size=0, read_only=False",
    }
    for thing, parameters in wanted.items():
        found = inspect.signature(thing).parameters.values()
        equals(", ".join(str(p.replace(annotation=p.empty)) for p in found), parameters)


def a_key_that_is_none() -> None:
    raises(lambda: sysv_ipc.MessageQueue(2**40), ValueError)


def attachments() -> None:
    """Of a segment, by as many calls as its bytes need. There is no address, and nothing that needs one."""
    with served():
        memory = sysv_ipc.SharedMemory(None, sysv_ipc.IPC_CREX, size=20000)
        data = random.Random(1).randbytes(20000)
        memory.write(data)
        equals(memory.read(), data)
        equals((memory.read(9000, 10000), memory.read(2, 19999)), (data[10000:19000], data[19999:]))
        calls = (lambda: memory.address, lambda: memory.attach(4096), lambda: sysv_ipc.attach(memory.id, 0))
        for call in calls:
            equals(raises(call, OSError).errno, 38)  # type: ignore[attr-defined]
        raises(lambda: memoryview(memory), TypeError)  # type: ignore[arg-type]
        equals((memory.number_attached, sysv_ipc.attach(memory.id).key), (1, memory.key))
        # Each takes a descriptor, of which a process has 32, until it is detached.
        more = [sysv_ipc.attach(memory.id) for _ in range(30)]
        equals(raises(lambda: sysv_ipc.attach(memory.id), OSError).errno, 24)  # type: ignore[attr-defined]
        for one in (*more, memory):
            one.detach()
        equals((memory.number_attached, len(session._lanes[0].descriptors)), (1, 1))
        for size in (2**63, 2**70):
            raises(lambda size=size: sysv_ipc.SharedMemory(None, sysv_ipc.IPC_CREX, size=size), ValueError)


def attachments_of_others() -> None:
    """Who uses a segment by a further connection attaches it there: a thread while another one waits, and a child."""
    with served() as server:
        memory = sysv_ipc.SharedMemory(5, sysv_ipc.IPC_CREX, size=10)
        gone = sysv_ipc.SharedMemory(6, sysv_ipc.IPC_CREX, size=10)
        queue = sysv_ipc.MessageQueue(None, sysv_ipc.IPC_CREX)
        thread = threading.Thread(target=queue.receive)
        thread.start()
        time.sleep(0.2)
        memory.write(b"both")
        equals((memory.number_attached, memory.read(4)), (2, b"both"))
        queue.send(b"x")
        thread.join(10)
        memory.detach()
        until(lambda: memory.number_attached == 0, "it is attached for ever")
        memory.attach()

        def child() -> None:
            equals((memory.read(4), memory.number_attached), (b"both", 2))
            memory.write(b"child")

        in_a_child(child)
        until(lambda: memory.number_attached == 1, "a child's attachment is left")
        gone.remove()
        server.stop(signal.SIGKILL)
        raises(memory.read, sysv_ipc.ServerLost)
    with served():
        # It is attached anew, and what was removed is gone.
        equals((memory.read(5), memory.number_attached), (b"child", 1))
        raises(gone.read, sysv_ipc.ExistentialError)
        raises(lambda: gone.size, sysv_ipc.ExistentialError)


def named_semaphores() -> None:
    with served():
        sem = posix_ipc.Semaphore("/sem", posix_ipc.O_CREX, 0o666, 1)
        equals((sem.name, sem.value, str(sem), repr(sem)), ("/sem", 1, "/sem", 'posix_ipc.Semaphore("/sem")'))
        equals(posix_ipc.Semaphore("sem").value, 1)
        with sem as inside:
            equals((inside is sem, sem.value), (True, 0))
            raises(lambda: sem.acquire(0), posix_ipc.BusyError)
            raises(lambda: sem.acquire(0.1), posix_ipc.BusyError)
            raises(lambda: sem.acquire(-1), TypeError)
        equals(sem.value, 1)
        raises(lambda: posix_ipc.Semaphore("/sem", posix_ipc.O_CREX), posix_ipc.ExistentialError)
        raises(lambda: posix_ipc.Semaphore("/none"), posix_ipc.ExistentialError)
        raises(lambda: posix_ipc.Semaphore("/a/b", posix_ipc.O_CREAT), ValueError)
        raises(lambda: posix_ipc.Semaphore("/" + 252 * "x", posix_ipc.O_CREAT), ValueError)
        raises(lambda: posix_ipc.Semaphore(None), ValueError)
        raises(lambda: posix_ipc.Semaphore("/new", posix_ipc.O_CREX, 0o600, -1), ValueError)
        check(sem.name != posix_ipc.Semaphore(None, posix_ipc.O_CREX).name, "two have a name")
        sem.unlink()
        raises(sem.unlink, posix_ipc.ExistentialError)
        equals(sem.value, 1)
        sem.close()
        for call in (sem.close, sem.acquire, sem.release, lambda: sem.value):
            raises(call, posix_ipc.ExistentialError)


def posix_queues() -> None:
    with served():
        queue = posix_ipc.MessageQueue("/queue", posix_ipc.O_CREX, 0o600, 3, 64)
        equals((queue.max_messages, queue.max_message_size, queue.current_messages, queue.block), (3, 64, 0, True))
        for text, priority in (("first", 1), (b"second", 7), (b"third", 1)):
            queue.send(text, priority=priority)
        raises(lambda: queue.send("more", 0), posix_ipc.BusyError)
        raises(lambda: queue.send("more", timeout=0.1), posix_ipc.BusyError)
        raises(lambda: queue.send(65 * "x"), ValueError)
        raises(lambda: queue.send("x", priority=-1), ValueError)
        raises(lambda: queue.send("x", priority=32768), ValueError)
        equals([queue.receive() for _ in range(3)], [(b"second", 7), (b"first", 1), (b"third", 1)])
        queue.block = False
        raises(queue.receive, posix_ipc.BusyError)
        reader = posix_ipc.MessageQueue("/queue", read=True, write=False)
        raises(lambda: reader.send("x"), posix_ipc.ExistentialError)
        raises(lambda: posix_ipc.MessageQueue("queue"), ValueError)
        raises(lambda: posix_ipc.MessageQueue("/queue", read=False, write=False), ValueError)
        raises(lambda: posix_ipc.MessageQueue("/no"), posix_ipc.ExistentialError)
        raises(lambda: posix_ipc.MessageQueue("/no", posix_ipc.O_CREX, max_messages=11), ValueError)
        raises(lambda: os.read(queue.mqd, 1), OSError)
        posix_ipc.unlink_message_queue("/queue")
        queue.close()
        raises(queue.close, posix_ipc.ExistentialError)


def shared_memory() -> None:
    with served():
        memory = posix_ipc.SharedMemory("/memory", posix_ipc.O_CREX, size=20000)
        data = random.Random(1).randbytes(20000)
        equals((memory.size, memory.pread(3, 19998), memory.pwrite(data, 0)), (20000, bytes(2), 20000))
        other = posix_ipc.SharedMemory("memory", read_only=True)
        equals(other.pread(30000, 0), data)
        raises(lambda: other.pwrite(b"a", 0), posix_ipc.ExistentialError)
        raises(lambda: memory.pwrite(b"abc", 19998), ValueError)
        # No file has this number: a program that wants to map it is told so.
        equals(raises(lambda: os.fstat(memory.fd), OSError).errno, 9)  # type: ignore[attr-defined]
        memory.close_fd()
        raises(lambda: memory.size, posix_ipc.ExistentialError)
        other.unlink()
        raises(lambda: posix_ipc.SharedMemory("/memory"), posix_ipc.ExistentialError)


def notifications() -> None:
    told: list[object] = []
    with served() as server:
        queue = posix_ipc.MessageQueue("/told", posix_ipc.O_CREAT)
        queue.request_notification((told.append, "function"))
        raises(lambda: queue.request_notification(signal.SIGUSR1), posix_ipc.BusyError)
        queue.send("a")
        until(lambda: told == ["function"], "nobody is told")
        queue.send("b")
        equals([queue.receive()[0] for _ in range(2)], [b"a", b"b"])
        signal.signal(signal.SIGUSR1, lambda number, _: told.append(number))
        queue.request_notification(signal.SIGUSR1)
        queue.send("c")
        until(lambda: told == ["function", signal.SIGUSR1], "no signal comes")
        queue.receive()
        queue.request_notification(signal.SIGUSR1)
        queue.request_notification(None)
        queue.send("d")
        raises(lambda: queue.request_notification("x"), ValueError)
        time.sleep(0.2)
        equals(told, ["function", signal.SIGUSR1])
        queue.close()
        kept = posix_ipc.MessageQueue("/told again", posix_ipc.O_CREAT)
        kept.request_notification((told.append, "never"))
        server.stop(signal.SIGKILL)
        until(lambda: posix_ipc._notifier.connection is None, "the end of the server is not seen")
    with served():
        kept.request_notification((told.append, "again"))
        kept.send("e")
        until(lambda: told[2:] == ["again"], "nobody is told after a restart")


def two_threads_of_which_one_waits() -> None:
    """The other thread's calls go on, by a connection more, and what it sends ends the wait."""
    with served():
        queue = sysv_ipc.MessageQueue(None, sysv_ipc.IPC_CREX)
        jobs = posix_ipc.MessageQueue("/jobs", posix_ipc.O_CREX)
        for receive, send in ((queue.receive, queue.send), (jobs.receive, jobs.send)):
            found: list[object] = []
            thread = threading.Thread(target=lambda receive=receive: found.append(receive()[0]))
            thread.start()
            time.sleep(0.2)
            equals((queue.current_messages, jobs.current_messages, found), (0, 0, []))
            equals(len(session._lanes), 2)
            send(b"job")
            thread.join(10)
            equals(found, [b"job"])
        jobs.close()
        equals([lane.descriptors for lane in session._lanes], [{}, {}])


def a_fork() -> None:
    """A child has a connection of its own, and at its end its own adjustments alone are added."""
    with served():
        sem = sysv_ipc.Semaphore(None, sysv_ipc.IPC_CREX, initial_value=5)
        named = posix_ipc.Semaphore("/forked", posix_ipc.O_CREX, initial_value=5)
        sem.undo = True
        sem.acquire()

        def child() -> None:
            sem.acquire()
            named.acquire()
            equals((sem.value, named.value), (3, 4))

        in_a_child(child)
        until(lambda: sem.value == 4, "what the child has taken is not given back")
        equals(named.value, 4)
        session._forget_all()
        until(lambda: sem.value == 5, "what the parent has taken is not given back")


def a_restart() -> None:
    """The first call says so once. What has a name is opened again, and what has none is gone."""
    with served() as server:
        queue = sysv_ipc.MessageQueue(77, sysv_ipc.IPC_CREAT)
        jobs = posix_ipc.MessageQueue("/kept", posix_ipc.O_CREX)
        gone = posix_ipc.Semaphore("/gone", posix_ipc.O_CREX)
        gone.unlink()
        queue.send("kept")
        jobs.send("kept too")
        server.stop(signal.SIGKILL)
        lost = raises(queue.receive, sysv_ipc.ServerLost)
        check(isinstance(lost, (sysv_ipc.Error, ConnectionError)), f"{lost!r}")
        raises(queue.receive, sysv_ipc.ServerLost)
    with served():
        equals((queue.receive(), jobs.receive()), ((b"kept", 1), (b"kept too", 0)))
        raises(lambda: gone.value, posix_ipc.ExistentialError)


def the_server_is_killed_in_each_wait() -> None:
    """It is said, and the same objects are there when the server is. What a call that waits would send is not sent."""
    with served():
        queue, full = (sysv_ipc.MessageQueue(None, sysv_ipc.IPC_CREX) for _ in range(2))
        sem = sysv_ipc.Semaphore(None, sysv_ipc.IPC_CREX)
        up = sysv_ipc.Semaphore(None, sysv_ipc.IPC_CREX, initial_value=1)
        named = posix_ipc.Semaphore("/killed", posix_ipc.O_CREX)
        jobs = posix_ipc.MessageQueue("/killed", posix_ipc.O_CREX)
        stuffed = posix_ipc.MessageQueue("/stuffed", posix_ipc.O_CREX, max_messages=1)
        stuffed.send("x")
        full.max_size = 8 * 2048
        for _ in range(8):
            full.send(2048 * "x")
    waits: list[tuple[Callable[[], object], type[Exception]]] = [
        *((call, sysv_ipc.ServerLost) for call in (queue.receive, lambda: full.send("x"), sem.acquire, up.Z)),
        *((call, posix_ipc.ServerLost) for call in (named.acquire, jobs.receive, lambda: stuffed.send("y"))),
    ]
    for call, lost in waits:
        with served() as server:
            threading.Timer(0.3, server.process.kill).start()
            raises(call, lost)
            server.ends(-signal.SIGKILL)
    with served():
        equals((queue.current_messages, full.current_messages, sem.value, up.value), (0, 8, 0, 1))
        equals((named.value, jobs.current_messages, stuffed.current_messages), (0, 0, 1))


def on_version_3() -> None:
    with of_version_3():
        session._forget_all()
        queue = sysv_ipc.MessageQueue(7, sysv_ipc.IPC_CREX)
        queue.send("hi", type=5)
        equals((queue.receive(), queue.last_send_pid), ((b"hi", 5), 1))
        with posix_ipc.Semaphore("/s", posix_ipc.O_CREX, initial_value=1) as sem:
            equals(sem.value, 0)
        session._forget_all()
    os.remove("device")


def more_than_the_limit() -> None:
    """The 65th process is ENFILE, and a place that becomes free is taken."""
    with served():
        held = [Connection("socket") for _ in range(64)]
        for connection in held:
            connection.hello(1000, 100)
        for call in (lambda: sysv_ipc.MessageQueue(1, sysv_ipc.IPC_CREAT), lambda: posix_ipc.Semaphore("/x")):
            equals(raises(call, OSError).errno, 23)  # type: ignore[attr-defined]
        threading.Timer(0.3, held[0].close).start()
        sysv_ipc.MessageQueue(1, sysv_ipc.IPC_CREAT).remove()
        for connection in held:
            connection.close()


def others_call_while_one_connects() -> None:
    """A HELLO that is refused again and again holds up nobody whose connection is there."""
    with served():
        before, session.HELLO_SECONDS = session.HELLO_SECONDS, 5.0
        queue = sysv_ipc.MessageQueue(None, sysv_ipc.IPC_CREX)
        order: list[str] = []

        def receives() -> None:
            queue.receive()
            order.append("received")

        def is_refused() -> None:
            equals(raises(lambda: sysv_ipc.MessageQueue(queue.key), OSError).errno, 23)  # type: ignore[attr-defined]
            order.append("refused")

        threads = [threading.Thread(target=receives), threading.Thread(target=is_refused)]
        # All other places are taken, by a server that answers them; one of those who hold them sends.
        held = [Connection("socket") for _ in range(63)]
        for connection in held:
            connection.hello(os.geteuid(), os.getegid())
        threads[0].start()
        until(lambda: len(session._lanes) == 1 and session._lanes[0].waits, "nobody waits")
        threads[1].start()
        until(lambda: len(session._making) == 1, "nobody connects")
        held[0].msgsnd(queue.id, 1, b"x")
        for thread in threads:
            thread.join(20)
        session.HELLO_SECONDS = before
        for connection in held:
            connection.close()
        equals(order, ["received", "refused"])


def an_empty_variable() -> None:
    """An IPCD_SOCKET that is empty names no socket, as for the clients in C."""
    before = os.environ["IPCD_SOCKET"]
    try:
        os.environ["IPCD_SOCKET"] = ""
        equals(session.socket_path(), "/run/ipcd/socket")
        del os.environ["IPCD_SOCKET"]
        equals(session.socket_path(), "/run/ipcd/socket")
        os.environ["IPCD_SOCKET"] = "here"
        equals(session.socket_path(), "here")
    finally:
        os.environ["IPCD_SOCKET"] = before


def sixty_processes() -> None:
    """Children that are there at once hand a message on, each to the next."""
    with served():
        queue = sysv_ipc.MessageQueue(None, sysv_ipc.IPC_CREX)
        ready = sysv_ipc.Semaphore(None, sysv_ipc.IPC_CREX)
        children = []
        for number in range(1, 61):
            child = os.fork()
            if child == 0:
                ready.release()
                text, _ = queue.receive(type=number)
                queue.send(text + b".", type=number + 1)
                os._exit(0)
            children.append(child)
        ready.acquire(30, delta=60)
        queue.send(b"", type=1)
        equals(queue.receive(type=61), (60 * b".", 61))
        equals([os.waitpid(child, 0)[1] for child in children], 60 * [0])


def descriptors_that_the_program_closes() -> None:
    """The next call says that the server is lost, and nothing is written to a file that has the number since."""

    def child() -> None:
        queue = sysv_ipc.MessageQueue(None, sysv_ipc.IPC_CREX)
        raises(lambda: queue.receive(False), sysv_ipc.BusyError)
        signal.signal(signal.SIGALRM, lambda *_: None)
        os.closerange(3, 1024)
        files = [os.open(f"file{number}", os.O_RDWR | os.O_CREAT) for number in range(20)]
        raises(lambda: queue.receive(False), sysv_ipc.ServerLost)
        signal.setitimer(signal.ITIMER_REAL, 0.2)
        raises(queue.receive, sysv_ipc.Error)
        queue.send("sent")
        equals(queue.receive(), (b"sent", 1))
        equals([os.fstat(file).st_size for file in files], 20 * [0])

    with served():
        in_a_child(child)


def with_a_thousand_descriptors() -> None:
    """The number of a descriptor may be high, and if there is no other it is said that there is no server."""

    def child() -> None:
        resource.setrlimit(resource.RLIMIT_NOFILE, (1100, 1100))
        held = [os.dup(0) for _ in range(1050)]
        check(max(held) > 1024, "the descriptors are low")
        queue = sysv_ipc.MessageQueue(None, sysv_ipc.IPC_CREX)
        queue.send("sent")
        equals(queue.receive(), (b"sent", 1))
        session._forget_all()
        with suppress(OSError):
            while True:
                held.append(os.dup(0))
        equals(raises(lambda: queue.send("x"), sysv_ipc.ServerLost).errno, 24)  # type: ignore[attr-defined]

    with served():
        in_a_child(child)


def interrupted_again_and_again() -> None:
    """Signals come all the time. A call that has to wait is interrupted, and one that need not is done, also right
    after one that was interrupted, however their replies come together."""
    stop = threading.Event()

    def signals() -> None:
        while not stop.wait(0.002):
            os.kill(os.getpid(), signal.SIGUSR1)

    before = signal.signal(signal.SIGUSR1, lambda *_: None)
    with served():
        queue = sysv_ipc.MessageQueue(None, sysv_ipc.IPC_CREX)
        thread = threading.Thread(target=signals, daemon=True)
        thread.start()
        for number in range(RACES):
            raises(queue.receive, sysv_ipc.Error)
            queue.send(str(number))
            equals(queue.receive(), (b"%d" % number, 1))
        stop.set()
        thread.join()
    signal.signal(signal.SIGUSR1, before)


def a_handler_with_and_without_restart() -> None:
    """It ends a wait in both cases, as the kernel's msgrcv is ended."""
    with served():
        queue = sysv_ipc.MessageQueue(None, sysv_ipc.IPC_CREX)
        named = posix_ipc.Semaphore("/handled", posix_ipc.O_CREX)
        told: list[int] = []
        before = signal.signal(signal.SIGUSR1, lambda number, _: told.append(number))
        for ends in (True, False):
            signal.siginterrupt(signal.SIGUSR1, ends)
            for call, kind in ((queue.receive, sysv_ipc.Error), (named.acquire, posix_ipc.SignalError)):
                threading.Timer(0.1, os.kill, (os.getpid(), signal.SIGUSR1)).start()
                raises(call, kind)
        equals(told, 4 * [signal.SIGUSR1])
        queue.send("x")
        named.release()
        equals((queue.receive(), named.acquire()), ((b"x", 1), None))
        signal.signal(signal.SIGUSR1, before)


class Broken(Exception):
    pass


def broken_off() -> None:
    """A handler that raises something ends a wait, and neither a message nor a unit is lost, whenever it comes."""

    def handler(number: int, frame: Optional[FrameType]) -> None:
        while frame and frame.f_code is not session.Lane.wait.__code__:
            frame = frame.f_back
        if frame:
            raise Broken

    with served():
        queue = sysv_ipc.MessageQueue(None, sysv_ipc.IPC_CREX)
        sem = sysv_ipc.Semaphore(None, sysv_ipc.IPC_CREX)
        named = posix_ipc.Semaphore("/broken", posix_ipc.O_CREX)
        received = breaks(handler, lambda: queue.receive()[0], lambda other, n: other.msgsnd(queue.id, 1, b"%d" % n))
        while queue.current_messages or queue._kept:
            received.append(queue.receive(False)[0])
        equals(sorted(received), sorted(b"%d" % number for number in range(RACES)))
        acquired = breaks(handler, sem.acquire, lambda other, n: other.semop(sem.id, [(0, 1)]))
        equals(len(acquired) + sem.value, RACES)
        with Connection("socket") as poster:
            poster.hello(0, 0)
            fd = poster.sem_open("/broken", 0)
            acquired = breaks(handler, named.acquire, lambda other, n: poster.sem_post(fd))
        equals(len(acquired) + named.value, RACES)


def feeds(feed: Callable[[Connection, int], object], other: Connection, number: int, pause: float) -> None:
    time.sleep(pause)
    feed(other, number)


def start_without_signals(thread: threading.Thread) -> None:
    """A thread has the mask of who starts it. One that took a signal would break off what is masked in another."""
    before = signal.pthread_sigmask(signal.SIG_BLOCK, signal.valid_signals())
    thread.start()
    signal.pthread_sigmask(signal.SIG_SETMASK, before)


def breaks(
    handler: Callable[..., object], call: Callable[[], object], feed: Callable[[Connection, int], object]
) -> list[object]:
    """Another client lets a call go on, and at about the same time a signal breaks it off: what is answered.

    The handler raises something within the wait alone: after it Python may drop what a call has answered."""
    rng = random.Random(1)
    answers: list[object] = []
    before = signal.signal(signal.SIGALRM, handler)
    waited = 0.0
    with Connection("socket") as other:
        other.hello(0, 0)
        for number in range(RACES):
            thread = threading.Thread(target=feeds, args=(feed, other, number, rng.uniform(0.0, 0.004)))
            start_without_signals(thread)
            begun = time.monotonic()
            try:
                signal.setitimer(signal.ITIMER_REAL, rng.uniform(0.0005, 0.005))
                answers.append(call())
                signal.setitimer(signal.ITIMER_REAL, 0)
            except Broken:
                pass
            waited = max(waited, time.monotonic() - begun)
            thread.join()
    signal.signal(signal.SIGALRM, before)
    # The timer was that of the whole test.
    signal.alarm(100)
    check(waited < 29, "a call that is broken off waits for a reply that does not come")
    check(0 < len(answers) < RACES, f"{len(answers)} of {RACES} calls are done, so there is no race")
    return answers


def a_mode_and_a_umask() -> None:
    """The umask applies to what has a name, and not to what has a key."""
    before = os.umask(0o027)
    with served():
        posix_ipc.SharedMemory("/masked", posix_ipc.O_CREX, 0o666)
        with Connection("socket") as connection:
            connection.hello(0, 0)
            equals(stat.S_IMODE(connection.shm_stat(connection.shm_open("/masked", 0)).mode), 0o640)
        equals(sysv_ipc.MessageQueue(None, sysv_ipc.IPC_CREX, 0o666).mode, 0o666)
    os.umask(before)


def users() -> None:
    """Another user is refused what the mode does not give, from the moment in which the program is that user. What is
    open stays open."""
    if os.geteuid() != 0:
        print("modules: this user is not root, so no other user is tried")
        return

    def as_another() -> None:
        os.setegid(12345)
        os.seteuid(12345)
        try:
            raises(lambda: queue.send("x"), sysv_ipc.PermissionsError)
            raises(lambda: sysv_ipc.MessageQueue(88), sysv_ipc.PermissionsError)
            raises(queue.remove, sysv_ipc.PermissionsError)
            raises(lambda: posix_ipc.Semaphore("/roots"), posix_ipc.PermissionsError)
            raises(lambda: posix_ipc.MessageQueue("/roots"), posix_ipc.PermissionsError)
            raises(lambda: posix_ipc.SharedMemory("/roots"), posix_ipc.PermissionsError)
            raises(named.unlink, posix_ipc.PermissionsError)
            raises(attached.attach, sysv_ipc.PermissionsError)
            raises(lambda: attached.mode, sysv_ipc.PermissionsError)
            named.release()
            jobs.send("open")
            equals((memory.pread(2, 0), attached.read(2)), (bytes(2), b"  "))
            own = sysv_ipc.MessageQueue(None, sysv_ipc.IPC_CREX)
            equals((own.uid, own.gid), (12345, 12345))
            own.remove()
        finally:
            os.seteuid(0)
            os.setegid(0)

    with served():
        queue = sysv_ipc.MessageQueue(88, sysv_ipc.IPC_CREX, 0o600)
        named = posix_ipc.Semaphore("/roots", posix_ipc.O_CREX)
        jobs = posix_ipc.MessageQueue("/roots", posix_ipc.O_CREX)
        memory = posix_ipc.SharedMemory("/roots", posix_ipc.O_CREX, size=10)
        attached = sysv_ipc.SharedMemory(88, sysv_ipc.IPC_CREX, size=10)
        as_another()
        queue.send("root's")
        equals((queue.receive()[0], named.value, jobs.receive()[0]), (b"root's", 1, b"open"))
        for thing in (queue.remove, named.unlink, jobs.unlink, memory.unlink, attached.remove):
            thing()


def killed_in_each_call() -> None:
    """A process is killed in the midst of each call: what it had taken by undo is back, and no process is left."""
    with served():
        queue = sysv_ipc.MessageQueue(None, sysv_ipc.IPC_CREX)
        sem = sysv_ipc.Semaphore(None, sysv_ipc.IPC_CREX, initial_value=1)
        gate = sysv_ipc.Semaphore(None, sysv_ipc.IPC_CREX)
        named = posix_ipc.Semaphore("/killed in", posix_ipc.O_CREX)
        jobs = posix_ipc.MessageQueue("/killed in", posix_ipc.O_CREX, max_messages=1)
        memory = posix_ipc.SharedMemory("/killed in", posix_ipc.O_CREX, size=10000)
        attached = sysv_ipc.SharedMemory(None, sysv_ipc.IPC_CREX, size=10000)
        sem.undo = True
        calls: list[Callable[[], object]] = [
            *(lambda: (queue.send("x"), queue.receive()), lambda: queue.mode, queue.receive, lambda: queue.send("x")),
            *(lambda: (sem.acquire(), sem.release()), sem.acquire, gate.acquire, lambda: gate.value, gate.Z),
            *(named.acquire, lambda: (named.release(), named.acquire()), lambda: named.value),
            *(jobs.receive, lambda: jobs.send("x"), lambda: jobs.current_messages),
            *(lambda: memory.pwrite(9000 * b"x", 0), lambda: memory.pread(9000, 0), lambda: memory.size),
            *(lambda: attached.write(9000 * b"x"), attached.read, lambda: attached.mode),
            *(lambda: (attached.attach(), attached.detach()), lambda: sysv_ipc.SharedMemory(None, 0o3000).remove()),
            *(lambda: posix_ipc.Semaphore("/killed in").close(), lambda: sysv_ipc.MessageQueue(None, 0o3000).remove()),
        ]
        rng = random.Random(2)
        for call in calls:
            child = os.fork()
            if child == 0:
                while True:
                    call()
            time.sleep(rng.uniform(0.005, 0.03))
            os.kill(child, signal.SIGKILL)
            equals(os.waitpid(child, 0)[1], signal.SIGKILL)
        until(lambda: sem.value == 1, "what was taken does not come back")
        equals((gate.waiting_for_nonzero, gate.waiting_for_zero, attached.number_attached), (0, 0, 1))
        held: list[Connection] = []
        until(lambda: has_room(held, 63), "a process is left")
        for connection in held:
            connection.close()


def has_room(held: list[Connection], count: int) -> bool:
    """Whether so many connections are processes at once."""
    try:
        while len(held) < count:
            connection = Connection("socket")
            connection.hello(0, 0)
            held.append(connection)
    except OSError:
        connection.close()
    return len(held) == count


def main() -> None:
    os.environ["IPCD_SOCKET"] = os.path.join(os.getcwd(), "socket")
    os.chmod(".", 0o755)
    tests = [the_kernels_sysv_ipc, signatures, a_key_that_is_none, named_semaphores, posix_queues, shared_memory]
    tests += [attachments, attachments_of_others]
    tests += [notifications, two_threads_of_which_one_waits, a_fork, a_restart, on_version_3, more_than_the_limit]
    tests += [interrupted_again_and_again, sixty_processes, descriptors_that_the_program_closes]
    tests += [with_a_thousand_descriptors, others_call_while_one_connects, an_empty_variable]
    tests += [users, killed_in_each_call, a_handler_with_and_without_restart]
    run_tests("modules", [*tests, the_server_is_killed_in_each_wait, broken_off, a_mode_and_a_umask])


if __name__ == "__main__":
    with in_a_folder(600):
        main()
