"""What a program sees of the module sysv_ipc, a line for each call: of the kernel's, or of this package's.

    python3 clients/python/tests/sysv_transcript.py kernel|ipcd

Each line is what a call answers, or the exception that it raises. Both have to print the same.
"""

from __future__ import annotations

import os
import signal
import sys
import time
from collections.abc import Callable
from pathlib import Path
from typing import Any

if sys.argv[1] == "kernel":
    import sysv_ipc  # type: ignore[import]
else:
    sys.path.insert(0, str(Path(__file__).resolve().parent.parent))
    from ipcd import sysv_ipc

NEW = sysv_ipc.IPC_CREX
CONSTANTS = [
    *("IPC_CREAT", "IPC_CREX", "IPC_EXCL", "IPC_PRIVATE", "PAGE_SIZE", "SEMAPHORE_TIMEOUT_SUPPORTED", "VERSION"),
    *("SEMAPHORE_VALUE_MAX", "SHM_HUGETLB", "SHM_NORESERVE", "SHM_RDONLY", "SHM_REMAP", "SHM_RND"),
]
KEY = 0x1DCD0000 + os.getpid() % 4096


def shows(label: str, call: Callable[[], object]) -> None:
    """Prints what a call answers or raises: of this module by its name alone, or else with the error number."""
    try:
        print(label, "->", repr(call()))
    except Exception as raised:
        kind = type(raised)
        bases = [base.__name__ for base in kind.__mro__[1:-1]] if kind.__module__.endswith("sysv_ipc") else ""
        print(label, "!!", kind.__name__, bases, getattr(raised, "errno", None))


def sets(thing: Any, name: str, value: object) -> Callable[[], object]:
    def call() -> object:
        setattr(thing, name, value)
        return getattr(thing, name)

    return call


def fills(queue: Any) -> None:
    """How much a new queue takes depends on the machine."""
    queue.max_size = 16384
    while True:
        queue.send(b"x" * 2000, block=False)


def queues() -> None:
    queue = sysv_ipc.MessageQueue(KEY, NEW, 0o640)
    shows("repr", lambda: (repr(queue) == f"sysv_ipc.MessageQueue({KEY})", str(queue) == f"Key={KEY}, id={queue.id}"))
    shows("fresh", lambda: (oct(queue.mode), queue.current_messages, queue.key == KEY))
    shows("times", lambda: (queue.last_send_time, queue.last_receive_time, queue.last_send_pid, queue.last_receive_pid))
    shows("changed", lambda: abs(queue.last_change_time - time.time()) < 5)
    shows("owner", lambda: (queue.uid, queue.gid, queue.cuid, queue.cgid) == 2 * (os.geteuid(), os.getegid()))
    for text in ("hello", b"x\0y", bytearray(b"a"), memoryview(b"mv"), b"", "é"):
        shows(f"send {text!r:.12}", lambda text=text: queue.send(text, type=3))
    shows("send by name", lambda: queue.send(message=b"n", block=True, type=2))
    shows("receive below", lambda: queue.receive(type=-5))
    shows("receive of a type", lambda: queue.receive(False, 3))
    shows("receive by name", lambda: queue.receive(block=False, type=0))
    shows("times after", lambda: [abs(t - time.time()) < 5 for t in (queue.last_send_time, queue.last_receive_time)])
    shows("drain", lambda: [queue.receive(False) for _ in range(4)])
    shows("none", lambda: queue.receive(block=False))
    shows("none of a type", lambda: queue.receive(False, 7))
    for mtype in (0, -1, 2**31, 2**70, "x"):
        shows(f"send type {mtype}", lambda mtype=mtype: queue.send(b"a", type=mtype))
    shows("receive type", lambda: queue.receive(False, 2**31))
    shows("too long", lambda: queue.send(b"x" * 2049))
    shows("longest", lambda: (queue.send(b"x" * 2048), queue.receive()))
    shows("fill", lambda: fills(queue))
    shows("held", lambda: (queue.current_messages, queue.max_size))
    for name, value in (("mode", 0o644), ("max_size", 100), ("cuid", 1), ("key", 1), ("id", 1), ("foo", 1)):
        shows(f"set {name}", sets(queue, name, value))
    shows("set mode to text", sets(queue, "mode", "x"))
    shows("exists", lambda: sysv_ipc.MessageQueue(KEY, NEW))
    shows("opens", lambda: sysv_ipc.MessageQueue(KEY).id == queue.id)
    short = sysv_ipc.MessageQueue(KEY, 0, max_message_size=3)
    shows("cut is no choice", short.receive)
    shows("send over its most", lambda: short.send(b"abcd"))
    shows("remove", queue.remove)
    shows("remove again", queue.remove)
    for name in ("mode", "current_messages", "uid"):
        shows(f"{name} of a queue that is gone", lambda name=name: getattr(queue, name))
    shows("send to it", lambda: queue.send(b"x"))
    shows("receive from it", queue.receive)
    shows("no function", lambda: sysv_ipc.remove_message_queue(2**30))


def makes() -> None:
    for cls in (sysv_ipc.MessageQueue, sysv_ipc.Semaphore, sysv_ipc.SharedMemory):
        for arguments in ((KEY,), (None,), ("a",), (), (KEY, sysv_ipc.IPC_EXCL), (KEY, "x"), (-5,)):
            shows(f"{cls.__name__}{len(arguments)} {arguments[1:]}", lambda a=arguments, c=cls: c(*a))
        shows("by name", lambda c=cls: c(key=None, flags=NEW, mode=0o600).remove())
        shows("private", lambda c=cls: (lambda made: (made.key, made.remove()))(c(sysv_ipc.IPC_PRIVATE, NEW)))
        shows("subclass", lambda c=cls: type("Mine", (c,), {})(None, NEW).remove())
    shows("most", lambda: sysv_ipc.MessageQueue(None, NEW, 0o600, 1).remove())
    shows("most below 0", lambda: sysv_ipc.MessageQueue(None, NEW, max_message_size=-1))
    for value in (-1, 32768, "x"):
        shows(f"first value {value}", lambda value=value: sysv_ipc.Semaphore(KEY, NEW, initial_value=value))
        shows("which is left", lambda: sysv_ipc.Semaphore(KEY).remove())


def semaphores() -> None:
    sem = sysv_ipc.Semaphore(KEY, NEW, 0o640, 2)
    shows("fresh", lambda: (oct(sem.mode), sem.value, sem.undo, sem.block, sem.o_time, sem.last_pid > 0))
    shows("waiting", lambda: (sem.waiting_for_nonzero, sem.waiting_for_zero))
    takes = [(None, 1), (0, 1), (0, 1), (0.1, 1), (-1, 1), ("x", 1), (0, 0), (0, -1), (0, 40000), (0, 1.5)]
    for timeout, delta in takes:
        shows(f"acquire {timeout} {delta}", lambda t=timeout, d=delta: sem.acquire(t, d))
    for delta in (0, -1, 1, 3, 40000, None, -40000):
        shows(f"release {delta}", lambda d=delta: (sem.release(d), sem.value))
    shows("by name", lambda: (sem.V(delta=2), sem.P(timeout=None, delta=1), sem.acquire(delta=1)))
    shows("unknown name", lambda: sem.acquire(foo=1))
    for timeout in (0, 0.1, -1):
        shows(f"Z {timeout}", lambda t=timeout: sem.Z(timeout=t))
    shows("o_time", lambda: abs(sem.o_time - time.time()) < 5)
    for value in (0, -1, 32768, "x", True, 32767):
        shows(f"value {value}", sets(sem, "value", value))
    shows("over", sem.release)
    for name, value in (("block", False), ("undo", 1), ("block", "x"), ("cuid", 1), ("o_time", 4), ("mode", 0o644)):
        shows(f"set {name}", sets(sem, name, value))
    shows("back", lambda: (sets(sem, "value", 0)(), sets(sem, "undo", 0)(), sem.Z()))
    sem.block = False
    for call in (sem.acquire, lambda: sem.acquire(5), lambda: (sem.release(), sem.Z())):
        shows("without a wait", call)
    with sem as inside:
        shows("with", lambda: (inside is sem, sem.value))
    shows("after", lambda: sem.value)
    shows("opens", lambda: sysv_ipc.Semaphore(KEY, 0, initial_value=5).value)
    shows("opens and gives", lambda: sysv_ipc.Semaphore(KEY, sysv_ipc.IPC_CREAT, initial_value=7).value)
    shows("exists", lambda: sysv_ipc.Semaphore(KEY, NEW))
    shows("remove", sem.remove)
    reads = [lambda: sem.value, sets(sem, "value", 1), lambda: sem.uid]
    for call in (sem.remove, sem.acquire, sem.release, sem.Z, *reads):
        shows("when it is gone", call)
    shows("mode", sets(sem, "mode", 1))
    shows("what it knows", lambda: (sem.key == KEY, sem.undo, sem.block))
    shows("no function", lambda: sysv_ipc.remove_semaphore(2**30))


def writes(memory: Any) -> None:
    for text in ("text", b"x\0y", bytearray(b"a"), memoryview(b"mv"), b"", "é", 20 * b"y"):
        shows(f"write {text!r:.12}", lambda text=text: memory.write(text))
    for text, offset in ((b"", 20), (b"", 21), (b"x", 20), (b"xy", 19), (b"z", 19), (b"a", -1), (21 * b"a", 0), (5, 0)):
        shows(f"write {text!r:.12} at {offset}", lambda text=text, offset=offset: memory.write(text, offset))
    shows("write by name", lambda: memory.write(s=b"abc", offset=5))
    for count, offset in ((4, 4), (0, 15), (100, 15), (0, 19), (1, 20), (1, 21), (1, -1), (-1, 0), ("x", 0)):
        shows(f"read {count} at {offset}", lambda count=count, offset=offset: memory.read(count, offset))
    shows("read by name", lambda: memory.read(byte_count=3, offset=5))


def attachments(memory: Any) -> None:
    shows("attach again", lambda: (memory.attach(), memory.number_attached))
    shows("detach", lambda: (memory.detach(), memory.number_attached, memory.attached))
    shows("detached", lambda: abs(memory.last_detach_time - time.time()) < 5)
    for call in (memory.detach, memory.read, lambda: memory.write(b"a")):
        shows("not attached", call)
    shows("attach to read", lambda: (memory.attach(flags=sysv_ipc.SHM_RDONLY), memory.attached, memory.read(2)))
    shows("write to it", lambda: memory.write(b"a"))
    shows("attach at text", lambda: memory.attach("x"))
    shows("attach by name", lambda: (memory.attach(address=None, flags=0), memory.write(b"b")))
    shows("by identifier", lambda: (sysv_ipc.attach(memory.id).read(2), sysv_ipc.attach(id=memory.id).id == memory.id))
    shows("by identifier, to read", lambda: sysv_ipc.attach(memory.id, None, sysv_ipc.SHM_RDONLY).write(b"a"))
    shows("by no identifier", lambda: sysv_ipc.attach(2**30))
    shows("attachments", lambda: memory.number_attached)


def segments() -> None:
    memory = sysv_ipc.SharedMemory(KEY, NEW, 0o640, 20)
    named = f"sysv_ipc.SharedMemory({KEY})", f"Key={KEY}, id={memory.id}"
    shows("repr", lambda: (repr(memory) == named[0], str(memory) == named[1]))
    shows("fresh", lambda: (oct(memory.mode), memory.size, memory.number_attached, memory.attached, memory.read()))
    shows("times", lambda: [abs(t - time.time()) < 5 for t in (memory.last_attach_time, memory.last_change_time)])
    shows("never", lambda: memory.last_detach_time)
    shows("who", lambda: (memory.creator_pid == memory.last_pid, memory.last_pid > 0))
    shows("owner", lambda: (memory.uid, memory.gid, memory.cuid, memory.cgid) == 2 * (os.geteuid(), os.getegid()))
    writes(memory)
    attachments(memory)
    for name, value in (("mode", 0o644), ("mode", "x"), ("cuid", 1), ("key", 1), ("id", 1), ("size", 1), ("foo", 1)):
        shows(f"set {name}", sets(memory, name, value))
    for name in ("attached", "number_attached", "creator_pid", "last_pid", "last_attach_time"):
        shows(f"set {name}", sets(memory, name, 1))
    opens = [{"size": 20}, {"size": 5}, {"size": 21}, {"size": -5}, {"flags": NEW}, {"flags": sysv_ipc.IPC_CREAT}]
    for words in opens:
        shows(f"open {words}", lambda words=words: sysv_ipc.SharedMemory(KEY, **words).size)
    shows("remove", memory.remove)
    shows("removed", lambda: (memory.read(2), memory.size, oct(memory.mode), memory.key == KEY))
    shows("remove again", memory.remove)
    shows("open it", lambda: sysv_ipc.SharedMemory(KEY))
    shows("attach it", lambda: sysv_ipc.attach(memory.id).read(2))
    shows("no function", lambda: sysv_ipc.remove_shared_memory(2**30))
    new_segments()


def new_segments() -> None:
    for words in ({}, {"size": 10}, {"init_character": b"q"}, {"mode": 0o400}, {"size": -1}):
        shows(f"new {words}", lambda words=words: of_new(sysv_ipc.SharedMemory(None, NEW, **words)))
    for character in ("q", b"qq", b"", 5):
        words = {"init_character": character}
        shows(f"new of {character}", lambda words=words: sysv_ipc.SharedMemory(None, NEW, **words))
    shows("new by IPC_CREAT", lambda: sysv_ipc.SharedMemory(KEY, sysv_ipc.IPC_CREAT))
    shows("with a size", lambda: of_new(sysv_ipc.SharedMemory(KEY, sysv_ipc.IPC_CREAT, size=10)))
    shows("to read", lambda: sysv_ipc.SharedMemory(KEY, NEW, 0o400, 10).write(b"a"))
    shows("which is left", lambda: of_new(sysv_ipc.SharedMemory(KEY, 0, 0)))
    gone = sysv_ipc.SharedMemory(None, NEW)
    shows("goes", lambda: (gone.remove(), gone.detach()))
    for name in ("size", "mode", "number_attached"):
        shows(f"{name} of a segment that is gone", lambda name=name: getattr(gone, name))
    for call in (gone.attach, gone.read, gone.detach, gone.remove, sets(gone, "mode", 1)):
        shows("when it is gone", call)


def of_new(memory: Any) -> object:
    """What is in it. It is removed."""
    found = memory.size == sysv_ipc.PAGE_SIZE or memory.size, set(memory.read())
    memory.remove()
    memory.detach()
    return found


def in_a_moment(handler: Callable[..., object]) -> None:
    signal.signal(signal.SIGALRM, handler)
    signal.setitimer(signal.ITIMER_REAL, 0.2)


def signals() -> None:
    sem, queue = sysv_ipc.Semaphore(None, NEW), sysv_ipc.MessageQueue(None, NEW)
    full = sysv_ipc.MessageQueue(None, NEW)
    shows("fill", lambda: fills(full))
    told: list[int] = []
    calls = [sem.acquire, lambda: sem.acquire(3), queue.receive, lambda: full.send(b"x" * 2000)]
    for call in (*calls, lambda: (setattr(sem, "value", 1), sem.Z())):
        in_a_moment(lambda number, _: told.append(number))
        shows("a handler", call)
    shows("they ran", lambda: told)
    for number, thing in enumerate((sem, queue, full)):
        shows(f"no call is left {number}", thing.remove)


def users() -> None:
    """Another user, whom the mode gives nothing, and one whom it lets read."""
    sem, queue = sysv_ipc.Semaphore(KEY, NEW, 0o600, 1), sysv_ipc.MessageQueue(KEY, NEW, 0o600)
    free = sysv_ipc.MessageQueue(KEY + 1, NEW, 0o644)
    memory, shared = sysv_ipc.SharedMemory(KEY, NEW, 0o600), sysv_ipc.SharedMemory(KEY + 1, NEW, 0o644)
    sys.stdout.flush()
    child = os.fork()
    if child == 0:
        os.setgroups([])
        os.setgid(12345)
        os.setuid(12345)
        for cls in (sysv_ipc.Semaphore, sysv_ipc.MessageQueue):
            shows("open", lambda c=cls: c(KEY))
        theirs, texts = sysv_ipc.Semaphore(KEY, 0, 0), sysv_ipc.MessageQueue(KEY, 0, 0)
        shows("acquire", lambda: theirs.acquire(0))
        for name in ("value", "uid", "mode"):
            shows(f"set {name}", sets(theirs, name, 1))
        for call in (theirs.release, theirs.remove, lambda: theirs.value, lambda: texts.send(b"x"), texts.receive):
            shows("theirs", call)
        for name in ("uid", "max_size"):
            shows(f"set {name}", sets(texts, name, 1))
        for call in (texts.remove, lambda: texts.mode, lambda: sysv_ipc.remove_semaphore(theirs.id)):
            shows("texts", call)
        shows("free", lambda: sysv_ipc.MessageQueue(KEY + 1, 0, 0o444).mode)
        shows("free set", sets(sysv_ipc.MessageQueue(KEY + 1, 0, 0), "mode", 0o600))
        for mode in (0o600, 0):
            shows("segment", lambda mode=mode: sysv_ipc.SharedMemory(KEY, 0, mode))
        reads = [memory.read, lambda: memory.write(b"a"), lambda: memory.mode, lambda: sysv_ipc.attach(memory.id)]
        for call in (*reads, memory.remove, lambda: sysv_ipc.remove_shared_memory(memory.id), sets(memory, "mode", 1)):
            shows("theirs", call)
        shows("shared", lambda: sysv_ipc.SharedMemory(KEY + 1))
        shows("shared, to read", lambda: sysv_ipc.SharedMemory(KEY + 1, 0, 0o444).read(3))
        shows("attach it", lambda: sysv_ipc.attach(shared.id))
        shows("attach it to read", lambda: sysv_ipc.attach(shared.id, flags=sysv_ipc.SHM_RDONLY).read(2))
        sys.stdout.flush()
        os._exit(0)
    shows("the child", lambda: os.waitpid(child, 0)[1])
    for thing in (sem, queue, free, memory, shared):
        shows("remove", thing.remove)


def others() -> None:
    for number in (5, 300):
        shows("ftok", lambda: sysv_ipc.ftok("/etc", number, silence_warning=True))
    shows("ftok of nothing", lambda: sysv_ipc.ftok("/nothing", 5, True))
    for name in CONSTANTS:
        shows(name, lambda name=name: getattr(sysv_ipc, name))


def main() -> None:
    for part in (queues, makes, semaphores, segments, signals, users, others):
        if part is not users or os.geteuid() == 0:
            print(f"# {part.__name__}")
            part()


if __name__ == "__main__":
    signal.alarm(30)
    main()
