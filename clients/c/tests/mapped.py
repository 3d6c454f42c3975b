"""Segments that programs map, of System V and of shm_open(3): as the kernel has them, over crashes of programs, server
and machine.

    python3 clients/c/tests/mapped.py PROGRAM [TEST]...
"""

from __future__ import annotations

import os
import random
import shutil
import signal
import subprocess
import sys
import time
from collections.abc import Iterator
from contextlib import contextmanager, suppress
from pathlib import Path

from clients import OUT, RUN, SECONDS, WANTED, all_end_well, by_anybody, device, ends_well, says, with_socket
from losing_server import LosingServer, writes
from server import Connection, Server, check, in_a_folder, printed, run_tests, serving, until

KEY, SIZE, PAGE = 0x69706352, 10000, 4096
PARTS = "shared address rounded holes replaces inherited read_only threads children handlers".split()
MAPPED, LIBRARY = [RUN, "--segments", str(OUT / "tests/mapped")], [str(OUT / "tests/library_mapped")]
# The same parts, as far as they can be, with segments of shm_open(3).
NAMED = [RUN, "--segments", str(OUT / "tests/mapped_named")]
NAMED_PARTS = "read_only threads children handlers".split()
EACH, ALL, REDIRECTED = (MAPPED, LIBRARY), (MAPPED, LIBRARY, NAMED), (MAPPED, NAMED)
# One process opens a segment and sends its descriptor to another program, which writes.
TAKES = """
import mmap, os, socket, sys
there = socket.socket(fileno=int(sys.argv[1]))
_, (fd,), _, _ = socket.recv_fds(there, 1, 1)
memory = mmap.mmap(fd, 10000)
memory[:5] = b"given"
os._exit(0)
"""
GIVES = f"""
import _posixshmem, os, socket, subprocess, sys
here, there = socket.socketpair()
fd = _posixshmem.shm_open("/ipcd_named", os.O_RDWR)
words = [sys.executable, "-c", {TAKES!r}, str(there.fileno())]
other = subprocess.Popen(words, pass_fds=[there.fileno()])
socket.send_fds(here, [b"s"], [fd])
print("given" if other.wait() == 0 else "it ends badly")
"""
# Where the programs write their text.
PLACE = SIZE - 100


def as_the_kernel() -> None:
    """Each part does the same with the kernel's segments, with a server's, and by the library's names."""
    for part in [*PARTS, "unmapped"]:
        ends_well(str(OUT / "tests/mapped"), part)
    all_end_well([[str(OUT / "tests/attachments")]], ON_KERNEL="1")
    device()
    with serving(prepare=by_anybody):
        for part in [*PARTS, "most"]:
            for words in EACH:
                ends_well(*words, part)
        ends_well(*MAPPED, "unmapped")
        ends_well(*LIBRARY, "connection")
        ends_well(RUN, "--segments", str(OUT / "tests/attachments"))
        check(os.listdir("socket.pids") == [], f"there is left {os.listdir('socket.pids')}")


def named_as_the_kernel() -> None:
    """Segments of shm_open do the same."""
    program, parts = str(OUT / "tests/named"), str(OUT / "tests/mapped_named")
    ends_well(program, ON_KERNEL="1")
    for part in NAMED_PARTS:
        ends_well(parts, part)
    device()
    with serving(prepare=by_anybody):
        ends_well(RUN, "--segments", program, "most")
        if os.geteuid() == 0:
            ends_well(program, "users", ON_KERNEL="1")
            ends_well(RUN, "--segments", program, "users")
        else:
            print("mapped: users are not tried, since this is not uid 0")
        for part in NAMED_PARTS:
            ends_well(*NAMED, part)
        check(os.listdir("socket.pids") == [], f"there is left {os.listdir('socket.pids')}")
        # Nothing of it is the kernel's.
        ends_well(*NAMED, "exit", "kept")
        check(not os.path.exists("/dev/shm/ipcd_mapped"), "it is the kernel's")


def sanitized() -> None:
    """ThreadSanitizer and AddressSanitizer report nothing of mappings."""
    device()
    for_address = ["connection", *(it for it in PARTS if it != "read_only")]
    with serving(prepare=by_anybody):
        for kind, parts in (("thread", ["shared", "threads", "handlers"]), ("address", for_address)):
            program = OUT / f"tests/{kind}_mapped"
            said = subprocess.run([program], capture_output=True, text=True).stderr if program.stat().st_size else ""
            if program.stat().st_size == 0 or "unexpected memory mapping" in said:
                print(f"mapped: there is no sanitizer of {kind} here, so it was not run")
                continue
            for part in parts:
                # A forked child has its parent's thread in mind, and would say that it does not find it.
                forks = part in ("holes", "replaces", "inherited", "children")
                ends_well(str(program), part, ASAN_OPTIONS="detect_leaks=0" if forks else "")


def at_server(offset: int, length: int) -> bytes:
    """What the server has of the segment."""
    with Connection("socket") as connection:
        connection.hello(0, 0)
        with suppress(FileNotFoundError):
            return connection.shm_read(connection.shm_open("/ipcd_mapped", os.O_RDONLY), offset, length)
        return connection.attached_read(connection.shmat(connection.shmget(KEY, 0, 0)), offset, length)


def has(text: str) -> bool:
    return at_server(PLACE, len(text) + 1) == text.encode() + b"\0"


@contextmanager
def program(*words: str, errors: int | None = None, socket: str | None = None) -> Iterator[subprocess.Popen[str]]:
    pipes = {"stdin": subprocess.PIPE, "stdout": subprocess.PIPE, "stderr": errors}
    there = with_socket() if socket is None else {**os.environ, "IPCD_SOCKET": socket}
    it = subprocess.Popen(words, text=True, env=there, **pipes)
    try:
        yield it
    finally:
        it.kill()
        it.communicate()


def dies(words: list[str], word: str, text: str) -> None:
    it = subprocess.run([*words, word, text], env=with_socket(), timeout=SECONDS)
    check(it.returncode == -signal.SIGKILL, "it does not die")


def needs_the_folder() -> None:
    """Where no file can be made, nothing is attached."""
    if os.geteuid() != 0:
        print("mapped: the folder is not tried, since this is not uid 0")
        return
    device()
    os.mkdir("socket.pids", 0o755)
    with serving(prepare=by_anybody):
        for words in (*EACH, [RUN, "--segments", str(OUT / "tests/named")]):
            ends_well(*words, "no_folder")


def is_written_back() -> None:
    """At exit, at shmdt, at msync and munmap, and soon if a program only goes on."""
    for words in ALL:
        device()
        with serving(prepare=by_anybody):
            ends_well(*words, "exit", "at exit")
            check(has("at exit"), "it is not there after exit")
            for word, text in (("detach", "detached"), ("stay", "stays")):
                with program(*words, word, text) as it:
                    check(it.stdout.readline() == "written\n", "it does not come so far")
                    if word == "stay":
                        until(lambda text=text: has(text), "it is not written while the program stays")
                    check(has(text), f"it is not there after {word}")
            for word in ("sync", "unmap") if words in REDIRECTED else ():
                dies(words, word, word)
                check(has(word), f"it is not there after {word}")


class Servers:
    """Servers of one device, one after another, of which the last is killed at the end."""

    def __enter__(self) -> Servers:
        self._server = Server()
        return self

    def __exit__(self, *raised: object) -> None:
        self._server.process.kill()
        self._server.process.communicate()
        if os.path.exists("socket"):
            os.remove("socket")

    def stop(self) -> None:
        self._server.stop(signal.SIGKILL)

    def restart(self) -> None:
        self.stop()
        self._server = Server()


def outlives_a_machine() -> None:
    """After a crash of the machine nothing is mapped, and the bytes are the server's."""
    for words in ALL:
        device()
        with Servers():
            ends_well(*words, "exit", "kept")
        shutil.rmtree("socket.pids")
        with serving(prepare=by_anybody):
            ends_well(*words, "find", "kept")


def what_a_killed_program_wrote() -> None:
    """It is there for whoever attaches the segment next, as on the kernel, and is written back then."""
    for words in REDIRECTED:
        device()
        with serving(prepare=by_anybody):
            for word in ("leave", "exec"):
                ends_well(*words, word, word)
                ends_well(*words, "find", word)
            dies(words, "die", "killed")
            # Who has it read-only does not write. A descriptor of shm_open is one to write, here.
            ends_well(*words, "find", "killed")
            check(words == NAMED or not has("killed"), "it is written by one who has only read it")
            with program(*words, "stay", "killed"):
                until(lambda: has("killed"), "nobody writes what was left")


def requests_are_seen() -> None:
    """What a client has written by requests, or another device has, is there for the first that attaches."""
    device()
    with serving(prepare=by_anybody):
        ends_well(*MAPPED, "exit", "mapped")
        with Connection("socket") as connection:
            connection.hello(0, 0)
            attachment = connection.shmat(connection.shmget(KEY, 0, 0))
            connection.attached_write(attachment, PLACE, b"asked\0\0")
        ends_well(*MAPPED, "find", "asked")
        # What a killed program has left of the same piece counts for more.
        dies(MAPPED, "die", "killed")
        with Connection("socket") as connection:
            connection.hello(0, 0)
            attachment = connection.shmat(connection.shmget(KEY, 0, 0))
            connection.attached_write(attachment, PLACE - 100, b"asked")
        ends_well(*MAPPED, "find", "killed")
        ends_well(*MAPPED, "exit", "of this device")
        # A file of another length is of another segment that had this number.
        files = list(Path("socket.pids").glob("m*"))
        check(len(files) == 1, f"there are {files}")
        os.truncate(files[0], 100)
        ends_well(*MAPPED, "find", "of this device")
    os.remove("device")
    printed("format", "device")
    with serving(prepare=by_anybody):
        ends_well(*MAPPED, "find", "")


def requests_into_named_segments() -> None:
    """The same of segments of shm_open(3): what is written by requests, what is cut by them, and another device."""
    device()
    with serving(prepare=by_anybody):
        ends_well(*NAMED, "exit", "mapped")
        with Connection("socket") as connection:
            connection.hello(0, 0)
            segment = connection.shm_open("/ipcd_mapped", os.O_RDWR)
            connection.shm_write(segment, PLACE, b"asked\0\0")
        ends_well(*NAMED, "find", "asked")
        dies(NAMED, "die", "killed")
        with Connection("socket") as connection:
            connection.hello(0, 0)
            segment = connection.shm_open("/ipcd_mapped", os.O_RDWR)
            connection.shm_write(segment, PLACE - 100, b"asked")
        ends_well(*NAMED, "find", "killed")
        with Connection("socket") as connection:
            connection.hello(0, 0)
            segment = connection.shm_open("/ipcd_mapped", os.O_RDWR)
            for length in (PLACE, SIZE):
                connection.ftruncate(segment, length)
        ends_well(*NAMED, "find", "")
        ends_well(*NAMED, "exit", "of this device")
        # A segment that is new is not that of before, by whomever that was removed.
        with Connection("socket") as connection:
            connection.hello(0, 0)
            connection.shm_unlink("/ipcd_mapped")
        ends_well(*NAMED, "find", "")
        with program(*NAMED, "stay", "of the first") as it, Connection("socket") as connection:
            check(it.stdout.readline() == "written\n", "it does not come so far")
            connection.hello(0, 0)
            connection.shm_unlink("/ipcd_mapped")
            ends_well(*NAMED, "find", "")
        ends_well(*NAMED, "exit", "of this device")
    os.remove("device")
    printed("format", "device")
    with serving(prepare=by_anybody):
        ends_well(*NAMED, "find", "")


def named_at_server(offset: int, length: int) -> bytes:
    with Connection("socket") as connection:
        connection.hello(0, 0)
        return connection.shm_read(connection.shm_open("/ipcd_named", os.O_RDONLY), offset, length)


def cuts_are_known() -> None:
    """What was cut away is the server's no more, also if the same bytes are written again."""
    device()
    with serving(prepare=by_anybody):
        ends_well(RUN, "--segments", str(OUT / "tests/named"), "written_again")
        check(named_at_server(0, 200) == named_at_server(SIZE - 200, 200) == b"x" * 200, "a byte is not there")


def named_differs() -> None:
    """Of a file that became longer by a write the segment has as many bytes as before, after a crash of the machine."""
    device()
    with Servers():
        ends_well(RUN, "--segments", str(OUT / "tests/named"), "differs")
    shutil.rmtree("socket.pids")
    with serving(prepare=by_anybody):
        check(named_at_server(0, 5) == b"kept\0", "what was mapped is not there")
        with Connection("socket") as connection:
            connection.hello(0, 0)
            length = connection.shm_stat(connection.shm_open("/ipcd_named", os.O_RDONLY)).length
            check(length == SIZE, f"it has {length} bytes")
        descriptor_is_given()


def descriptor_is_given() -> None:
    """A process that has got a descriptor from another one maps the same bytes. Who has opened it writes them back."""
    words = [RUN, "--segments", sys.executable, "-c", GIVES]
    ended = subprocess.run(words, env=with_socket(), capture_output=True, text=True, timeout=SECONDS)
    check((ended.returncode, ended.stdout, ended.stderr) == (0, "given\n", ""), f"{ended}")
    check(named_at_server(0, 5) == b"given", "it is not written back")


def a_name_is_anothers() -> None:
    """After a restart nothing is written into the new segment of a name by who has the one of before."""
    device()
    with Servers() as servers, program(RUN, "--segments", str(OUT / "tests/named"), "restart") as it:
        check(it.stdout.readline() == "kill it now\n", "it does not come so far")
        check(named_at_server(0, 4) == b"new\0", "the new one is not there")
        servers.restart()
        it.stdin.write("\n")
        it.stdin.flush()
        check(it.wait(SECONDS) == 0, "it does not end well")
        check(named_at_server(0, 4) == b"new\0", "it was written into by who has another")


def a_lock_comes_after_its_bytes() -> None:
    """Whoever takes a lock after a crash finds all that was written before it was given."""
    chance = random.Random(5)
    for words in ALL * 2:
        device()
        with Servers() as servers, program(*words, "counts_on", errors=subprocess.DEVNULL) as it:
            said = it.stdout.readline()
            time.sleep(chance.random() * 0.2)
            servers.stop()
            it.kill()
            said += it.stdout.read()
        last = int(said.split()[-1])
        shutil.rmtree("socket.pids")
        with serving(prepare=by_anybody):
            numbers = [int.from_bytes(at_server(page * PAGE, 4), "little") for page in range(3)]
        check(all(last <= number <= last + 1 for number in numbers), f"{last} was said, and there are {numbers}")


def goes_on_over_restarts() -> None:
    """A program that waits for the server finds all that it has counted, whatever was killed."""
    for words in REDIRECTED:
        device()
        counts_on_over_restarts(words)


def counts_on_over_restarts(words: list[str]) -> None:
    with Servers() as servers, program(RUN, "--wait", "30", *words[1:], "counts_on") as it:
        began = restarted = time.monotonic()

        def next_number() -> int:
            line = it.stdout.readline()
            if line == "":
                since = [round(time.monotonic() - moment) for moment in (began, restarted)]
                check(False, f"the program ends with {it.wait(SECONDS)}, {since} s after its begin and a restart")
            return int(line)

        for _ in range(5):
            before = next_number()
            servers.restart()
            restarted = time.monotonic()
        while next_number() < before + 20:
            pass
        it.kill()
        last = max(map(int, it.stdout.read().split()), default=before + 20)
        numbers = [int.from_bytes(at_server(page * PAGE, 4), "little") for page in range(3)]
        check(all(last <= number <= last + 2 for number in numbers), f"{last} was said, and there are {numbers}")


def hears_of_a_restart_once() -> None:
    """The end of the connection by which bytes go is no error of a call."""
    for words in ALL:
        device()
        with Servers() as servers, program(*words, "hears_once") as it:
            check(it.stdout.readline() == "kill it now\n", "it does not come so far")
            servers.restart()
            it.stdin.write("\n")
            it.stdin.flush()
            check(it.stdout.readline() == "released\n", "it does not come so far")
            check(at_server(0, 4) == (7).to_bytes(4, "little"), "what was written is not there")
            it.stdin.write("\n")
            it.stdin.flush()
            check(it.wait(SECONDS) == 0, "it does not end well")


def is_removed_meanwhile() -> None:
    """After a restart of the server a segment that was removed while attached is gone; its bytes are the program's."""
    for words in ALL:
        device()
        with Servers() as servers, program(*words, "outlives") as it:
            check(it.stdout.readline() == "kill it now\n", "it does not come so far")
            servers.restart()
            it.stdin.write("\n")
            it.stdin.flush()
            check(it.wait(SECONDS) == 0, "it does not end well")


def answers_are_lost() -> None:
    """A write of which nobody knows whether it was done fails the call that needs it, and is made again, also if what
    was there before was written back; and so it is, if the program is killed then."""

    def server_has(byte: bytes) -> bool:
        return at_server(0, 1) == byte

    for words, is_killed in [(words, is_killed) for words in ALL for is_killed in (False, True)]:
        device()
        with serving(prepare=by_anybody), LosingServer(True, writes) as losing:
            with program(*words, "changes_back", socket=losing.path) as it:
                check(it.stdout.readline() == "changed\n", "it does not come so far")
                until(lambda: losing.lost > 0 and server_has(b"x"), "nothing is lost")
                it.stdin.write("\n")
                it.stdin.flush()
                check(it.stdout.readline() == "changed back\n", "it does not come so far")
                if is_killed:
                    it.kill()
                    it.wait(SECONDS)
                    losing.loses = False
                    # The files are of that socket.
                    with program(*words, "stay", "", socket=losing.path) as other:
                        check(other.stdout.readline() == "written\n", "it does not come so far")
                        until(lambda: server_has(b"\0"), "what was written back is not at the server")
                    continue
                losing.loses = False
                it.stdin.write("\n")
                it.stdin.flush()
                check(it.stdout.readline() == "released\n", "it does not come so far")
                check(server_has(b"\0"), "what was written back is not at the server")
                it.stdin.write("\n")
                it.stdin.flush()
                check(it.wait(SECONDS) == 0, "it does not end well")


def of_the_kernel() -> None:
    """Without --segments they stay the kernel's, and with --strict too much is refused no more."""
    device()
    with serving(prepare=by_anybody):
        line = "shared memory (shmget) stays the kernel's, and outlives no crash of the machine"
        says(RUN, str(OUT / "tests/mapped"), "shared", line=line)
        ends_well(RUN, "--segments", "--strict", str(OUT / "tests/named"))
        ends_well(RUN, "--segments", "--strict", str(OUT / "tests/mapped"), "shared")


TESTS = [as_the_kernel, named_as_the_kernel, sanitized, needs_the_folder, is_written_back, outlives_a_machine,
         what_a_killed_program_wrote, requests_are_seen, requests_into_named_segments, cuts_are_known, named_differs,
         a_name_is_anothers, a_lock_comes_after_its_bytes, goes_on_over_restarts, hears_of_a_restart_once,
         is_removed_meanwhile, answers_are_lost, of_the_kernel]  # fmt: skip

if __name__ == "__main__":
    with in_a_folder(600):
        os.chmod(".", 0o755)
        run_tests("mapped segments", [test for test in TESTS if not WANTED or test.__name__ in WANTED])
