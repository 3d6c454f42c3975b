"""Command lines of the built program: the words that it refuses, and what it takes from others.

    python3 tests/scripts/words.py PROGRAM

tests/scripts/runs.sh and tests/sockets/serve.py have the command lines that are not here. What is expected was
reckoned from docs/PROTOCOL.md and docs/DEVICE.md, and never taken from the program. It takes two
seconds, and most of that time for a server that makes twelve idle turns.
"""

from __future__ import annotations

import os
import re
import resource
import signal
import stat
import struct
import subprocess
import sys
import tempfile
from pathlib import Path

sys.dont_write_bytecode = True
sys.path[:0] = [str(Path(__file__).resolve().parents[1] / name) for name in ("lib", "system")]

from documents import replaced_words  # noqa: E402
from pseudo_terminal import all_shown, open_terminal  # noqa: E402

PROGRAM = os.path.abspath(sys.argv[1])
GREATEST = "4294967295"
HELLO = b"0 open 1\n0 data 1 0000000d0000000101000003e800000064\n"

# The words that are refused, each line for one reason.
REFUSED = [
    ("run", "queues", "--small"),
    ("dump",),
    ("list",),
    ("dump", "queues", "more"),
    ("list", "queues", "more"),
    ("backup",),
    ("backup", "queues"),
    ("backup", "queues", "copy", "more"),
    ("check",),
    ("check", "queues", "more"),
    ("serve", "queues", "socket", "--metrics"),
    ("format",),
    ("format", "queues", "--sectors"),
    ("format", "queues", "--sectors", "-1"),
    ("format", "missing/queues", "--sectors", "4294967296"),
    ("format", "queues", "--journal"),
    ("format", "queues", "--journal", "7"),
    ("format", "queues", "--journal", "65536"),
    ("format", "queues", "--journal", "many", "--small"),
    ("format", "queues", "--journal", "8", "--journal", "8"),
    ("upgrade", "queues", "--journal", "8"),
    ("backup", "queues", "copy", "--journal", "8"),
    ("replay", "--journal", "8"),
    ("upgrade",),
    ("upgrade", "queues", "more"),
    ("upgrade", "queues", "--sectors", "many"),
]

HELPED = ["run", "dump", "list", "backup", "check", "serve", "upgrade"]

# Words that print something and do nothing else.
TOLD = [("--help",), ("--version",), ("help",), ("serve", "--help"), ("help", "format")]

# What a umask may take from a new file: nothing, as is usual, and of the owner too.
UMASKS = [0, 0o022, 0o277, 0o777]

# Words that are taken, and what is said of what they ask for. There is no folder `missing`.
FAILS = [
    (("format", "queues", "--sectors", "0"), "too small, 252440 sectors needed"),
    (("format", "queues", "--sectors", "0", "--small"), "too small, 1366 sectors needed"),
    (("format", "--small", "--sectors=1365", "queues"), "too small, 1366 sectors needed"),
    (("format", "queues", "--sectors", "0", "--journal", "257"), "too small, 91426 sectors needed"),
    (("format", "queues", "--sectors", "0", "--journal", "65535"), "too small, 156704 sectors needed"),
    (("format", "--journal=8", "--small", "--sectors=72", "queues"), "too small, 73 sectors needed"),
    (("format", "missing/queues", "--sectors", GREATEST), "device fault"),
    (("format", "missing/queues", "--journal", "8"), "device fault"),
    (("upgrade", "--sectors", GREATEST, "missing/queues", "--small"), "device fault"),
    (("backup", "missing/queues", "copy"), "device fault"),
    (("serve", "missing/queues", "socket", "--turns", GREATEST), "device fault"),
    (("serve", "--metrics", "figures", "missing/queues", "socket"), "device fault"),
]


def check(holds: bool, text: str) -> None:
    if not holds:
        sys.exit(f"words: {text}")


def run(*words: str, script: bytes = b"", **named: object) -> tuple[int, bytes, bytes]:
    """How the program ends: its status, what it prints, and what it says."""
    named = {"stderr": subprocess.PIPE, **named}
    ended = subprocess.run(
        [PROGRAM, *words], input=script, stdout=subprocess.PIPE, timeout=60, **named
    )
    return ended.returncode, ended.stdout, ended.stderr or b""


def ends(wanted: tuple[int, bytes, bytes], *words: str, **named: object) -> None:
    ended = run(*words, **named)
    check(ended == wanted, f"{words}: {ended}, and not {wanted}")


def refusals() -> None:
    for words in REFUSED:
        status, output, errors = run(*words)
        check((status, output) == (2, b""), f"{words}: status {status}, {output!r} is printed")
        check(errors.startswith(b"error: "), f"{words}: {errors!r} is said")
        check(errors.endswith(b"try '--help'.\n"), f"{words}: {errors!r} is said")


def helps() -> None:
    """Each command has its usage, in words of docs/STYLE.md."""
    of_all = run("--help")[1].decode()
    for command in HELPED:
        status, output, errors = run(command, "--help")
        check((status, errors) == (0, b""), f"{command} --help: status {status}, {errors!r}")
        usage = f"\nUsage: ipcd {command} "
        check(usage in output.decode(), f"{command} --help: {output!r} is printed")
        found = replaced_words().findall(of_all + output.decode())
        check(found == [], f"{command} --help has words that docs/STYLE.md replaces: {found}")


def version() -> None:
    """The version is that of the program, and then those of the devices which it makes without a journal and with one."""
    printed = run("--version")[1].decode()
    ends((0, b"formatted 1366 sectors\n", b""), "format", "queues", "--small")
    (number,) = struct.unpack_from(">I", Path("queues").read_bytes(), 8)
    ends((0, b"formatted 73 sectors\n", b""), "format", "queues", "--small", "--journal=8")
    (tagged,) = struct.unpack_from(">I", Path("queues").read_bytes(), 8)
    os.remove("queues")
    wanted = rf"ipcd \d+\.\d+\.\d+, devices of versions {number} and {tagged}\n"
    check(re.fullmatch(wanted, printed) is not None, f"--version: {printed!r} is printed")


def closed() -> None:
    os.close(1)


def no_room() -> None:
    os.dup2(os.open("/dev/full", os.O_WRONLY), 1)


def nobody_reads() -> None:
    reader, writer = os.pipe()
    os.close(reader)
    os.dup2(writer, 1)


def outputs() -> None:
    """An output that is full, closed, or a pipe that nobody reads."""
    for words in TOLD:
        for spoil in (no_room, closed, nobody_reads):
            status, _, errors = run(*words, preexec_fn=spoil)
            check((status, errors) == (1, b"ipcd: output fault\n"), f"{words}: {status}, {errors!r}")
    # The status of other words stands if what is wrong with them cannot be said.
    with open("/dev/full", "wb") as full:
        ends((2, b"", b""), "run", stderr=full)


def modes() -> None:
    """A new device is its owner's alone, whatever the umask. A file that is there keeps its mode."""
    said = b"formatted 1366 sectors\n"
    for umask in UMASKS:
        ends((0, said, b""), "format", "queues", "--small", umask=umask)
        mode = stat.S_IMODE(os.stat("queues").st_mode)
        check(mode == 0o600, f"with umask {umask:03o} the mode is {mode:03o}")
        for kept in (0o644, 0o660, 0o600):
            os.chmod("queues", kept)
            ends((0, said, b""), "format", "queues", "--small", umask=umask)
            mode = stat.S_IMODE(os.stat("queues").st_mode)
            check(mode == kept, f"a mode of {kept:03o} is then {mode:03o}")
        os.remove("queues")


def failures() -> None:
    for words, said in FAILS:
        ends((1, b"", f"ipcd: {said}\n".encode()), *words)
    check(os.listdir() == [], f"files are made: {os.listdir()}")


def files_of_one_mib() -> None:
    """No file of a program that begins so gets longer. The system says so."""
    signal.signal(signal.SIGXFSZ, signal.SIG_IGN)
    resource.setrlimit(resource.RLIMIT_FSIZE, (1 << 20, 1 << 20))


def the_greatest_number() -> None:
    """A terminal shows which number was taken, once there is a MiB of the device, 2048 sectors."""
    terminal, errors = open_terminal()
    words = ("format", "queues", f"--sectors={GREATEST}")
    ends((1, b"", b""), *words, stderr=errors, preexec_fn=files_of_one_mib)
    os.close(errors)
    shown = all_shown(terminal)
    wanted = f"\ripcd: 2048 of {GREATEST} sectors\nipcd: device fault\n".encode()
    check(shown == wanted, f"{shown!r} is shown, and not {wanted!r}")
    os.remove("queues")


def names_with_spaces() -> None:
    words = ("format", "--sectors", "1366", "a b", "--small")
    ends((0, b"formatted 1366 sectors\n", b""), *words)
    check(os.path.getsize("a b") == 1366 * 512, "the file has not 1366 sectors")
    ends((0, b"1 0000000a00000001000000000001\n", b""), "run", "a b", script=HELLO)
    ends((0, b"", b""), "dump", "a b")
    ends((0, b"", b""), "list", "a b")
    check(os.listdir() == ["a b"], f"other files are made: {os.listdir()}")


def used_sectors(device: str) -> int:
    """How many sectors of the journal's body are used, as its header says, which is sector 3."""
    return struct.unpack_from(">I", Path(device).read_bytes(), 3 * 512 + 8)[0]


def twelve_turns() -> None:
    """An idle turn ticks, and each tick takes a sector of the journal. So does the open."""
    before = used_sectors("a b")
    said = b"serving a b, 1366 sectors, on c d, small limits\n"
    ends((0, said, b""), "serve", "--turns=12", "a b", "c d")
    more = used_sectors("a b") - before
    check(more == 13, f"{more} sectors more are used, and not 13")
    check(stat.S_ISSOCK(os.stat("c d").st_mode), "the socket is another one")


def main() -> None:
    tests = (
        refusals,
        helps,
        version,
        outputs,
        modes,
        failures,
        the_greatest_number,
        names_with_spaces,
        twelve_turns,
    )
    for test in tests:
        test()
    # The last seven: the version and a device, one with a terminal, three for a file of two words, and
    # one with turns.
    count = len(REFUSED) + len(HELPED) + len(FAILS) + 3 * len(TOLD) + 1 + 4 * len(UMASKS) + 7
    print(f"words: {count} command lines")


if __name__ == "__main__":
    with tempfile.TemporaryDirectory() as folder:
        os.chdir(folder)
        main()
