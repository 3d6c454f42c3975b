"""What `ipcd format` shows on a terminal while it makes a device, and `ipcd upgrade` while the file grows.

    python3 tests/scripts/terminal.py PROGRAM

Devices are made and upgraded with standard error on a pseudo terminal, and one on a pipe. What is expected was
reckoned from docs/DEVICE.md, and never taken from the program. It takes a moment.
"""

from __future__ import annotations

import os
import subprocess
import sys
import tempfile
from pathlib import Path

sys.dont_write_bytecode = True
sys.path.insert(0, str(Path(__file__).resolve().parents[1] / "lib"))

from device_layout import old_device  # noqa: E402
from pseudo_terminal import all_shown, open_terminal  # noqa: E402

PROGRAM = os.path.abspath(sys.argv[1])


def check(holds: bool, text: str) -> None:
    if not holds:
        sys.exit(f"terminal: {text}")


def makes(sectors: int, errors: int) -> bytes:
    """Makes a device of so many sectors under small limits, and gives what a pipe was told."""
    words = [PROGRAM, "format", "device", "--small", "--sectors", str(sectors)]
    ended = subprocess.run(words, stdout=subprocess.PIPE, stderr=errors, timeout=60)
    said = f"formatted {sectors} sectors\n".encode()
    check((ended.returncode, ended.stdout) == (0, said), f"{sectors} sectors: {ended}")
    check(os.path.getsize("device") == 512 * sectors, f"{sectors} sectors: another size")
    return ended.stderr or b""


def progress(sectors: int, *reached: int) -> bytes:
    """One line, which each number writes anew."""
    numbers = [f"\ripcd: {number} of {sectors} sectors" for number in reached]
    return "".join([*numbers, "\n"]).encode()


# The length of a file that is there, or none, how many sectors it is to have, and the numbers that are shown. A MiB has
# 2048 sectors, and 3000000 bytes are 2 MiB and some more. The last three files get no zeros.
TOLD: list[tuple[int | None, int, tuple[int, ...]]] = [
    (None, 1366, (1366,)),
    (None, 5000, (2048, 4096, 5000)),
    (0, 4096, (2048, 4096)),
    (3000000, 10000, (6144, 8192, 10000)),
    (1048576, 3000, (3000,)),
    (700, 2049, (2048, 2049)),
    (699392, 3000, (2048, 3000)),
    (2097152, 4096, ()),
    (3000000, 4096, ()),
    (2560000, 1366, ()),
]


def tells(length: int | None, sectors: int, told: tuple[int, ...]) -> None:
    """A format of a file of so many bytes shows these numbers on a terminal."""
    if length is None:
        Path("device").unlink(missing_ok=True)
    else:
        Path("device").write_bytes(length * b"\1")
    terminal, errors = open_terminal()
    makes(sectors, errors)
    os.close(errors)
    shown, wanted = all_shown(terminal), progress(sectors, *told) if told else b""
    os.close(terminal)
    check(shown == wanted, f"{sectors} sectors of {length} bytes: {shown!r} is shown, and not {wanted!r}")


# Of how many sectors a file is that has a device of version 1, how many are asked for, and the numbers that are shown.
GROWN: list[tuple[int, int, tuple[int, ...]]] = [
    (448, 5000, (2048, 4096, 5000)),
    (2000, 2049, (2048, 2049)),
    (2000, 1366, ()),
]


def tells_of_upgrade(before: int, sectors: int, told: tuple[int, ...]) -> None:
    Path("device").write_bytes(old_device(before))
    terminal, errors = open_terminal()
    words = [PROGRAM, "upgrade", "device", "--small", "--sectors", str(sectors)]
    ended = subprocess.run(words, stdout=subprocess.PIPE, stderr=errors, timeout=60)
    os.close(errors)
    shown, wanted = all_shown(terminal), progress(sectors, *told) if told else b""
    os.close(terminal)
    said = f"upgraded {max(before, sectors)} sectors\n".encode()
    check((ended.returncode, ended.stdout) == (0, said), f"an upgrade of {sectors} sectors: {ended}")
    check(shown == wanted, f"an upgrade of {sectors} sectors: {shown!r} is shown, and not {wanted!r}")


def main() -> None:
    for row in TOLD:
        tells(*row)
    for grown in GROWN:
        tells_of_upgrade(*grown)

    # A terminal that takes nothing.
    terminal, errors = open_terminal()
    refusing = os.open(os.ttyname(errors), os.O_RDONLY | os.O_NOCTTY)
    makes(9000, refusing)

    # No terminal.
    os.unlink("device")
    check(makes(5000, subprocess.PIPE) == b"", "a pipe is told how far a device is")
    print(f"terminal: {len(TOLD) + len(GROWN) + 2} devices")


if __name__ == "__main__":
    with tempfile.TemporaryDirectory() as folder:
        os.chdir(folder)
        main()
