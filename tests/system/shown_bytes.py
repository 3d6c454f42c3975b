"""The bytes that docs/PROTOCOL.md and docs/DEVICE.md show, which are those of ipcd-protocol(7) and ipcd-device(5): each
exchange is one with the built program as a server, and each sector and record is on a device that it has written.

    python3 tests/system/shown_bytes.py PROGRAM

The pages are read as they stand: a block that none of these tests takes is a failure. It takes a second.
"""

from __future__ import annotations

import re
import subprocess
import sys
from pathlib import Path
from typing import NamedTuple

sys.dont_write_bytecode = True
sys.path.insert(0, str(Path(__file__).resolve().parents[1] / "lib"))

from device_layout import SECTOR  # noqa: E402
from server import PROGRAM, Client, check, in_a_folder, printed, run_tests, serving  # noqa: E402

DOCS = Path(__file__).resolve().parents[2] / "docs"
# A line of an exchange: the number of the client, or nothing if there is one; who sends; and the bytes of a frame.
LINE = re.compile(r"(\d?)([<>]) ([0-9a-f ]+)")
BYTES = re.compile(r"[0-9a-f ]+")
# A new device with small limits has this superblock, and with `--journal 257` the other one.
SMALL = {"a device of 1366 sectors": ["--small"], "a device of 322 sectors": ["--small", "--journal", "257"]}
# What a script of one client does before it sends `hi` at moment 7: HELLO, and a queue of key 1234.
BEFORE = "0 open 1\n0 data 1 0000000d0000000101000003e800000064\n0 data 1 0000000d000000020a000004d200000380\n"


class Block(NamedTuple):
    """Lines that are indented, and the paragraph before them."""

    page: str
    about: str
    lines: list[str]

    def data(self) -> bytes:
        check(all(BYTES.fullmatch(line) for line in self.lines), f"{self.page}: {self.lines} are no bytes")
        return bytes.fromhex("".join(self.lines))


def blocks(page: str) -> list[Block]:
    found: list[Block] = []
    about, inside = "", False
    for line in (DOCS / page).read_text().splitlines():
        if not line.startswith("    "):
            about, inside = line or about, False
        elif inside:
            found[-1].lines.append(line[4:])
        else:
            found.append(Block(page, about, [line[4:]]))
            inside = True
    return found


def exchange(clients: list[Client], lines: list[str]) -> None:
    """Sends and reads the frames in their order."""
    for line in lines:
        parts = LINE.fullmatch(line)
        check(parts is not None, f"{line!r} is no line of an exchange")
        client, data = clients[int(parts[1] or 1) - 1], bytes.fromhex(parts[3])
        if parts[2] == ">":
            client.send_bytes(data)
        else:
            client.is_answered(data)


def exchanges() -> None:
    """Those of one client follow one another over one connection, from its HELLO on. The one of two clients is between
    processes that know queue 1, which is empty."""
    found = blocks("PROTOCOL.md")
    of_one = [line for block in found if block.lines[0].startswith("> ") for line in block.lines]
    of_two = [block.lines for block in found if block.lines[0].startswith("2> ")]
    check(sum(map(len, of_two)) + len(of_one) == sum(len(block.lines) for block in found), f"{found} are other blocks")
    check(all("<" in block.lines[-1][:2] for block in found), "an exchange ends with a request")
    check((len(of_two), of_one[0][:13]) == (1, "> 0000000d 00"), f"{of_two}, {of_one[:1]} are not what is shown")
    printed("format", "device")
    with serving(), Client() as client:
        exchange([client], of_one)
    printed("format", "device")
    with serving(), Client() as first, Client() as second:
        for number, client in enumerate((first, second), 1):
            hello = ["> 0000000d 00000001 01 000003e8 00000064", f"< 0000000a 00000001 0000 {number:08x}"]
            queue = ["> 0000000d 00000002 0a 000004d2 00000380", "< 0000000a 00000002 0000 00000001"]
            exchange([client], hello + queue)
        exchange([first, second], of_two[0])


def superblock(block: Block) -> None:
    (words,) = [words for text, words in SMALL.items() if text in block.about]
    printed("format", "device", *words)
    found, wanted = Path("device").read_bytes()[:SECTOR], block.data().ljust(SECTOR, b"\0")
    check(found == wanted, f"{found.hex()} is the superblock of {words}")


def records(block: Block) -> None:
    """A tick at moment 258 and a message at moment 7 are in the journal of a device on which a script was run."""
    request = "00000017 00000003 0b 00000001 00000800 0000000000000005 6869".replace(" ", "")
    Path("device").unlink(missing_ok=True)
    printed("format", "device", "--small")
    words = [PROGRAM, "run", "device"]
    script = f"{BEFORE}7 data 1 {request}\n258 tick\n"
    ended = subprocess.run(words, input=script, capture_output=True, text=True, timeout=20)
    check((ended.returncode, ended.stderr) == (0, ""), f"{ended}")
    journal = Path("device").read_bytes()[4 * SECTOR : 260 * SECTOR]
    for line in block.lines:
        check(bytes.fromhex(line) in journal, f"{line} is not in the journal")
    check(len(block.data()) == 0x35, f"{block.lines} have {len(block.data())} bytes")


def sector_of_the_journal(block: Block) -> None:
    Path("device").unlink(missing_ok=True)
    printed("format", "device", "--small", "--journal", "257")
    printed("dump", "device")
    found = Path("device").read_bytes()[3 * SECTOR : 4 * SECTOR]
    check(found == block.data().ljust(SECTOR, b"\0"), f"{found.hex()} is sector 3")


def bytes_of_devices() -> None:
    found = blocks("DEVICE.md")
    kinds = {"the superblock of": superblock, "a tick at moment 258": records}
    kinds["sector 3 of a new"] = sector_of_the_journal
    for block in found:
        tests = [test for text, test in kinds.items() if text in block.about]
        check(len(tests) == 1, f"{block} is another block")
        tests[0](block)
    check(len(found) == 4, f"{len(found)} blocks are shown")


def main() -> None:
    run_tests("shown_bytes", [exchanges, bytes_of_devices])


if __name__ == "__main__":
    with in_a_folder(120):
        main()
