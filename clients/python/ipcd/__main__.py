"""A shell for people over a live server: `python3 -m ipcd --help`. Its words are those of ipcs(1), ipcmk(1) and
ipcrm(1) where they fit."""

from __future__ import annotations

import argparse
import errno
import os
import subprocess
import sys
import time
from pathlib import Path
from typing import Callable, Optional, TypeVar

from . import __version__, listing, session
from .connection import Connection
from .top import top
from .wire import IPC_CREAT, IPC_NOWAIT, MSG_NOERROR, O_CREAT, O_RDONLY, O_WRONLY

KINDS = ("mqueue", "semaphore", "shmem")
SYSTEM_V = ("queue", "shmem", "semaphore")
LETTERS = {"queue": "q", "shmem": "m", "semaphore": "s"}
T = TypeVar("T")
# What an object of System V is called.
CALLED = {"queue": "message queue", "shmem": "segment", "semaphore": "semaphore set"}
CALLED_BY_NAME = {"mqueue": "POSIX queue", "shmem": "segment", "semaphore": "named semaphore"}

__all__ = ["main"]


class Missing(Exception):
    """No object has the key, the identifier or the name that is given."""


def number(text: str) -> int:
    """A number as a key is written: decimal, or hexadecimal after 0x, octal after 0."""
    return int(text, 8) if text[:1] == "0" and text.isdigit() else int(text, 0)


def parser() -> argparse.ArgumentParser:
    own = Path(sys.argv[0]).name
    prog = own if own == "ipcdctl" else "python3 -m ipcd"
    words = argparse.ArgumentParser(prog=prog, description="Shows and changes the objects of a running server.")
    words.add_argument("--version", action="version", version=f"ipcd {__version__}")
    words.add_argument("--socket", default=session.socket_path(), help="default: %(default)s")
    commands = words.add_subparsers(dest="command", required=True)

    ls = commands.add_parser("ls", help="lists queues, segments and semaphore sets, and objects whose names are given")
    ls.add_argument("-q", "--queues", action="store_true", help="message queues alone")
    ls.add_argument("-m", "--shmems", action="store_true", help="System V segments alone")
    ls.add_argument("-s", "--semaphores", action="store_true", help="semaphore sets alone")
    named(ls, KINDS, many=True)
    ls.add_argument("--device", help="lists a device, in use or not, with `ipcd list`")
    ls.add_argument("--program", default="ipcd", help="the program that --device runs, default: %(default)s")
    watch = commands.add_parser("top", help="lists them repeatedly, with waiting calls and rates")
    watch.add_argument("-d", "--delay", type=float, default=1.0, help="seconds between two pages")
    watch.add_argument("-n", "--iterations", type=int, help="how many pages")
    for command in (ls, watch):
        upto = {"default": 1024, "metavar": "N", "help": "tries identifiers 1 to N, default: %(default)s"}
        command.add_argument("--upto", type=int, **upto)  # type: ignore[arg-type]

    stat = commands.add_parser("stat", help="shows one object, and each semaphore of a set")
    objects(stat, KINDS, SYSTEM_V, many=False)
    send = commands.add_parser("send", help="sends a text to a queue")
    receive = commands.add_parser("receive", help="removes a message from a queue and prints its text")
    for command in (send, receive):
        objects(command, KINDS[:1], SYSTEM_V[:1], many=False)
        command.add_argument("--nowait", action="store_true", help="fail at once instead of waiting")
        command.add_argument("--timeout", type=float, metavar="SECONDS", help="wait at most so long")
    send.add_argument("--type", type=int, default=1, help="type of a System V message, default: %(default)s")
    receive.add_argument("--type", type=int, default=0, help="type of a System V message, default: the first message")
    send.add_argument("--create", action="store_true", help="makes the queue if there is none")
    mode = "mode of a new queue, octal, default: 644"
    send.add_argument("-p", "--mode", type=lambda text: int(text, 8), default=0o644, help=mode)
    send.add_argument("--priority", type=int, default=0, help="priority of a POSIX message, default: %(default)s")
    send.add_argument("text", nargs="?", help="the text; without it, standard input is sent")
    objects(commands.add_parser("rm", help="removes objects"), KINDS, SYSTEM_V, many=True)
    return words


def objects(
    command: argparse.ArgumentParser, kinds: tuple[str, ...], system_v: tuple[str, ...], many: bool
) -> None:
    """The options that name objects, those of ipcrm(1)."""
    add = {"action": "append", "default": []} if many else {}
    for kind in system_v:
        letter = LETTERS[kind]
        command.add_argument(f"-{letter}", f"--{kind}-id", type=number, **add)  # type: ignore[arg-type]
        command.add_argument(f"-{letter.upper()}", f"--{kind}-key", type=number, **add)  # type: ignore[arg-type]
    named(command, kinds, many)


def named(command: argparse.ArgumentParser, kinds: tuple[str, ...], many: bool) -> None:
    for kind in kinds:
        add = {"action": "append", "default": []} if many else {}
        command.add_argument(f"--posix-{kind}", metavar="NAME", **add)  # type: ignore[arg-type]


def ls(connection: Connection, given: argparse.Namespace) -> int:
    every = not (given.queues or given.shmems or given.semaphores)
    tables = []
    if given.queues or every:
        rows = [listing.queue_row(*found) for found in listing.queues(connection, given.upto).items()]
        tables.append(listing.table("Message Queues", listing.QUEUES, rows))
    if given.shmems or every:
        rows = [listing.segment_row(*found) for found in listing.segments(connection, given.upto).items()]
        tables.append(listing.table("Shared Memory Segments", listing.SEGMENTS, rows))
    if given.semaphores or every:
        rows = [listing.set_row(*found) for found in listing.sets(connection, given.upto).items()]
        tables.append(listing.table("Semaphore Arrays", listing.SETS, rows))
    missing = []
    for kind in KINDS:
        rows = []
        for name in getattr(given, f"posix_{kind}"):
            try:
                rows.append(listing.named(connection, kind, name))
            except FileNotFoundError:
                missing.append(name)
        if rows:
            tables.append(listing.table(*listing.NAMED[kind], rows))
    print("\n".join(tables) + f"\nidentifiers 1 to {given.upto} were tried")
    for name in missing:
        print(f"ipcd: ls: {name}: {os.strerror(errno.ENOENT)}", file=sys.stderr)
    return 1 if missing else 0


def watch(connection: Connection, given: argparse.Namespace) -> int:
    top(connection, given.upto, given.delay, given.iterations)
    return 0


def stat(connection: Connection, given: argparse.Namespace) -> int:
    named_kind = next((kind for kind in KINDS if getattr(given, f"posix_{kind}") is not None), None)
    if named_kind is None:
        print(system_v_stat(connection, given), end="")
        return 0
    wanted = getattr(given, f"posix_{named_kind}")
    try:
        row = listing.named(connection, named_kind, wanted)
    except FileNotFoundError:
        raise Missing(f"no {CALLED_BY_NAME[named_kind]} has the name {wanted}") from None
    for name, text in zip(listing.NAMED[named_kind][1], row):
        print(f"{name}={text}")
    return 0


def system_v_stat(connection: Connection, given: argparse.Namespace) -> str:
    """What IPC_STAT tells of an object, and of a set its semaphores too."""
    record: tuple[int, ...]
    semaphores = ""
    if given.queue_id is not None or given.queue_key is not None:
        record = found("queue", queue_of(connection, given), connection.msgctl_stat)
    elif given.shmem_id is not None or given.shmem_key is not None:
        record = found("shmem", segment_of(connection, given), connection.shmctl_stat)
    else:
        number = set_of(connection, given)
        record = of_set = found("semaphore", number, connection.semctl_stat)
        rows = listing.semaphore_rows(connection, number, of_set.nsems)
        semaphores = "\n" + listing.columns(listing.SEMAPHORES, rows)
    fields = record._asdict().items()  # type: ignore[attr-defined]
    return "".join(f"{name}={shown(name, value)}\n" for name, value in fields) + semaphores


def found(kind: str, number: int, call: Callable[[int], T]) -> T:
    """What a call answers of an object with an identifier."""
    try:
        return call(number)
    except OSError as refusal:
        if refusal.errno == errno.EINVAL:
            raise Missing(f"no {CALLED[kind]} has the identifier {number}") from None
        raise


def of_key(kind: str, key: int, call: Callable[[int], int]) -> int:
    """The identifier of an object with a key."""
    try:
        return call(key)
    except FileNotFoundError:
        raise Missing(f"no {CALLED[kind]} has the key {listing.key(key)}") from None


def shown(name: str, value: int) -> str:
    if name.endswith("time"):
        return time.strftime("%Y-%m-%d %H:%M:%S", time.localtime(value / 1000)) if value else "never"
    return {"key": listing.key(value), "mode": f"{value:o}"}.get(name, str(value))


def queue_of(connection: Connection, given: argparse.Namespace, flags: int = 0) -> int:
    """The identifier of the queue that is named."""
    if given.queue_key is not None:
        return of_key("queue", given.queue_key, lambda key: connection.msgget(key, flags))
    return need(given.queue_id)


def segment_of(connection: Connection, given: argparse.Namespace) -> int:
    if given.shmem_key is not None:
        return of_key("shmem", given.shmem_key, lambda key: connection.shmget(key, 0, 0))
    return need(given.shmem_id)


def set_of(connection: Connection, given: argparse.Namespace) -> int:
    if given.semaphore_key is not None:
        return of_key("semaphore", given.semaphore_key, lambda key: connection.semget(key, 0, 0))
    return need(given.semaphore_id)


def need(found: Optional[int]) -> int:
    if found is None:
        raise ValueError("no object is named: see --help")
    return found


def send(connection: Connection, given: argparse.Namespace) -> int:
    text = sys.stdin.buffer.read() if given.text is None else os.fsencode(given.text)
    if given.posix_mqueue is not None:
        flags = O_WRONLY | (O_CREAT if given.create else 0)
        queue = connection.mq_open(given.posix_mqueue, flags, given.mode)
        connection.mq_send(queue, text, given.priority, limit(given))
    else:
        queue = queue_of(connection, given, IPC_CREAT | given.mode if given.create else 0)
        connection.msgsnd(queue, given.type, text, IPC_NOWAIT if given.nowait else 0, given.timeout)
    return 0


def receive(connection: Connection, given: argparse.Namespace) -> int:
    if given.posix_mqueue is not None:
        queue = connection.mq_open(given.posix_mqueue, O_RDONLY)
        _, text = connection.mq_receive(queue, connection.mq_getattr(queue).msgsize, limit(given))
    else:
        flags = (IPC_NOWAIT if given.nowait else 0) & ~MSG_NOERROR
        queue = queue_of(connection, given)
        _, text = found("queue", queue, lambda it: connection.msgrcv(it, 2**31 - 1, given.type, flags, given.timeout))
    sys.stdout.buffer.write(text)
    if sys.stdout.isatty():
        print()
    return 0


def limit(given: argparse.Namespace) -> Optional[float]:
    """How long a call on a POSIX queue waits. A deadline that is over already is no wait."""
    return -1.0 if given.nowait else given.timeout


def rm(connection: Connection, given: argparse.Namespace) -> int:
    """Removes each, and continues after one that is refused, as ipcrm(1) does."""
    each: dict[str, tuple[Callable[[int], None], Callable[[int], int]]] = {
        "queue": (connection.msgctl_rmid, lambda key: connection.msgget(key, 0)),
        "shmem": (connection.shmctl_rmid, lambda key: connection.shmget(key, 0, 0)),
        "semaphore": (connection.semctl_rmid, lambda key: connection.semget(key, 0, 0)),
    }
    removes: list[tuple[list[object], Callable[..., None]]] = []
    for kind, (rmid, get) in each.items():
        by_id, by_key = getattr(given, f"{kind}_id"), getattr(given, f"{kind}_key")
        removes.append((by_id, lambda number, kind=kind, rmid=rmid: found(kind, number, rmid)))
        removes.append((by_key, lambda key, kind=kind, rmid=rmid, get=get: rmid(of_key(kind, key, get))))
    removes += [
        (given.posix_mqueue, connection.mq_unlink),
        (given.posix_semaphore, connection.sem_unlink),
        (given.posix_shmem, connection.shm_unlink),
    ]
    need(next((0 for named, _ in removes if named), None))
    status = 0
    for named_objects, remove in removes:
        for thing in named_objects:
            try:
                remove(thing)
            except ConnectionError:
                raise
            except Missing as missing:
                print(f"ipcd: rm: {missing}", file=sys.stderr)
                status = 1
            except OSError as refusal:
                print(f"ipcd: rm: {thing}: {refusal.strerror}", file=sys.stderr)
                status = 1
    return status


def of_device(given: argparse.Namespace) -> int:
    """What the program lists of a device, by its command `list`, or `dump` if it has no such."""
    try:
        helped = subprocess.run([given.program, "--help"], capture_output=True, text=True)
        words = [line.split()[0] for line in helped.stdout.splitlines() if line.strip()]
        command = "dump" if "dump" in words and "list" not in words else "list"
        return subprocess.run([given.program, command, given.device]).returncode
    except OSError as refusal:
        print(f"ipcd: {given.program}: {refusal.strerror}", file=sys.stderr)
        return 1


def reason(refusal: OSError) -> str:
    """What a refusal is called. ENFILE is of the server here, not of the system, of which its text tells."""
    if refusal.errno == errno.ENFILE:
        return "the server has as many processes as it takes, which is 64 by standard limits: a client has to end first"
    return refusal.strerror or str(refusal)


def main(words: Optional[list[str]] = None) -> int:
    given = parser().parse_args(words)
    if given.command == "ls" and given.device is not None:
        return of_device(given)
    commands = {"ls": ls, "top": watch, "stat": stat, "send": send, "receive": receive, "rm": rm}
    try:
        with Connection(given.socket) as connection:
            connection.hello(os.geteuid(), os.getegid())
            return commands[given.command](connection, given)
    except KeyboardInterrupt:
        return 130
    except BrokenPipeError as refusal:
        # Who reads the output has ended, or the server has.
        sys.stderr.write(f"ipcd: {given.command}: {refusal.strerror}\n")
    except OSError as refusal:
        print(f"ipcd: {given.command}: {reason(refusal)}", file=sys.stderr)
    except Missing as missing:
        print(f"ipcd: {given.command}: {missing}", file=sys.stderr)
    except ValueError as refusal:
        print(f"ipcd: {given.command}: {refusal}", file=sys.stderr)
        return 2
    return 1


if __name__ == "__main__":
    sys.exit(main())
