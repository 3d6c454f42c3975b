"""The file that a device is kept in: which files are taken, what becomes of their length and their bytes, and who has
one at a time.

    python3 tests/devices/files.py PROGRAM

What is expected was reckoned from docs/DEVICE.md (A disk in a file) and docs/PROTOCOL.md, and never taken from the
program. It takes a few seconds.
"""

from __future__ import annotations

import fcntl
import os
import sys
from pathlib import Path

sys.dont_write_bytecode = True
sys.path[:0] = [str(Path(__file__).resolve().parents[1] / it) for it in ("lib", "scripts")]

from device_layout import JOURNAL, ROOT, SECTOR, SMALL, superblock  # noqa: E402
from device_runs import GOOD_LISTED, NEW_HEADER, NEW_ROOT, NEW_SECTORS, good, is_image  # noqa: E402
from scripts import Run, rows  # noqa: E402
from server import check, in_a_folder, printed, run, run_tests  # noqa: E402

FAULT = (1, "", "ipcd: device fault\n")
OLD = b"\xee"
COMMANDS = [("format", "--small"), ("run",), ("dump",), ("serve", "socket"), ("upgrade", "--small")]


def is_refused(name: str, path: str) -> None:
    """Each command on this file is a device fault."""
    for command, *words in COMMANDS:
        ended = run(command, path, *words)
        found = (ended.returncode, ended.stdout, ended.stderr)
        check(found == FAULT, f"{name}: {command} ends with {found}")
        check(not os.path.lexists("socket"), f"{name}: a socket is left")


# ---- lengths

# The length of a file that is there, and the sectors that it is to have then.
LENGTHS = [(0, 1366), (700, 1366), (700, 2000), (4096, 1367), (131072, 1374), (699391, 1366), (699392, 1366)]
LENGTHS += [(699393, 1366), (699392, 1367), (800000, 1366), (800000, 1562), (800000, 1563)]


def a_file_gets_its_length() -> None:
    """What was there stays, but for the sectors that a format writes, and the rest is zeros."""
    for length, sectors in LENGTHS:
        before = length * OLD
        Path("device").write_bytes(before)
        said = printed("format", "device", "--small", "--sectors", str(sectors))
        check(said == f"formatted {sectors} sectors\n", f"{said!r} is printed")
        wanted = bytearray(before[: SECTOR * sectors].ljust(SECTOR * sectors, b"\0"))
        parts = {0: superblock(SMALL, sectors), ROOT: NEW_ROOT, JOURNAL: NEW_HEADER, **NEW_SECTORS}
        for at, data in parts.items():
            wanted[SECTOR * at : SECTOR * (at + 1)] = data.ljust(SECTOR, b"\0")
        is_image(Path("device").read_bytes(), bytes(wanted), f"{sectors} sectors in a file of {length} bytes")


def whole_sectors_count() -> None:
    """Bytes after the last whole sector are none of the device's, and stay as they are."""
    device = bytes(good().image)
    for more in (1, 511):
        Path("device").write_bytes(device + more * OLD)
        check(printed("dump", "device") == GOOD_LISTED, f"with {more} bytes more the listing is another one")
        check(Path("device").read_bytes()[len(device) :] == more * OLD, "the bytes behind the device have changed")
    for length, said in ((1535, "not formatted"), (1536, "damaged sector 0"), (len(device) - 1, "damaged sector 0")):
        Path("device").write_bytes(device[:length])
        ended = run("dump", "device")
        found = (ended.returncode, ended.stdout, ended.stderr)
        check(found == (1, "", f"ipcd: {said}\n"), f"a device of {length} bytes: {found}")
        check(Path("device").read_bytes() == device[:length], f"a device of {length} bytes has changed")


# ---- which files


def what_is_no_plain_file() -> None:
    os.mkdir("folder")
    os.mkfifo("fifo")
    for path in ("folder", "fifo", "/dev/null"):
        is_refused(path, path)
    for command, *words in COMMANDS[1:]:
        ended = run(command, "nothing", *words)
        check((ended.returncode, ended.stdout, ended.stderr) == FAULT, f"nothing: {ended}")
    check(not os.path.lexists("nothing"), "a file is made")
    check(os.listdir("folder") == [], "something is in the folder")


def one_user_at_a_time() -> None:
    """Who comes second changes nothing, also of a file that is no device. Once the lock is given back it is opened."""
    for content in (bytes(good().image), 2560 * OLD):
        Path("device").write_bytes(content)
        with open("device", "r+b") as file:
            fcntl.flock(file, fcntl.LOCK_EX | fcntl.LOCK_NB)
            is_refused("a file in use", "device")
            check(file.read() == content, "a file in use has changed")
        check(Path("device").read_bytes() == content, "a file has changed after its use")
    Path("device").write_bytes(bytes(good().image))
    check(printed("dump", "device") == GOOD_LISTED, "a device that is free again is not listed")


# ---- what it keeps


def a_file_is_as_a_disk_in_memory() -> None:
    """Each row that is stopped, and so read again, prints on a file what it prints in memory. The file opens again."""
    printed("format", "fresh", "--small")
    fresh = Path("fresh").read_bytes()
    stopped = [row for row in rows() if "\nstop\n" in row.script]
    check(len(stopped) > 9, f"{len(stopped)} rows are stopped")
    for row in stopped:
        Path("device").write_bytes(fresh)
        Run(f"{row.name}, on a file", row.script, row.output, ("run", "device")).passes()
        printed("dump", "device")


TESTS = [
    a_file_gets_its_length,
    whole_sectors_count,
    what_is_no_plain_file,
    one_user_at_a_time,
    a_file_is_as_a_disk_in_memory,
]


def main() -> None:
    with in_a_folder(120):
        run_tests("files", TESTS)


if __name__ == "__main__":
    main()
