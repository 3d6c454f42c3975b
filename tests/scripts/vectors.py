"""docs/vectors.json: whether it is what tools/vectors.py computes from docs/PROTOCOL.md today, whether it has each call
and each error of the document, and whether the program answers each session with these bytes.

    python3 tests/scripts/vectors.py PROGRAM

It takes a second.
"""

from __future__ import annotations

import json
import os
import subprocess
import sys
import tempfile
from pathlib import Path

sys.dont_write_bytecode = True

ROOT = Path(__file__).resolve().parents[2]
PROGRAM = os.path.abspath(sys.argv[1])
sys.path.insert(0, str(ROOT / "tools"))

import vectors  # noqa: E402
from vector_rows import VERSION_3  # noqa: E402

# The rows that a server answers at the least, and the errors that no session makes it send.
FEWEST, NEVER = 150, {"EIO", "ENOMEM"}


def check(holds: bool, text: str) -> None:
    if not holds:
        sys.exit(f"vectors: {text}")


def covered(rows: list[dict[str, str]]) -> None:
    """Each call is answered and refused, but for INTERRUPT, which no error refuses; each error is there."""
    named = {row["reply"] for row in rows}
    check(set(vectors.errors()) <= named, f"no row has {set(vectors.errors()) - named}")
    for call in vectors.calls():
        replies = [row["reply"] for row in rows if row["request"].split(" ")[0] == call]
        refused = [it for it in replies if it in vectors.errors() and it not in NEVER]
        check(len(refused) < len(replies), f"no row has {call} answered")
        check(bool(refused) or call == "interrupt", f"no row has {call} refused")


def answers(name: str) -> str:
    """What `ipcd replay` answers a session with, or `ipcd run` on a device of version 3."""
    with tempfile.TemporaryDirectory() as folder:
        words = ["replay", "--small"]
        if name == VERSION_3:
            device = os.path.join(folder, "device")
            ran("format", "--small", "--journal", "257", device)
            words = ["run", device]
        return ran(*words, script=vectors.script(name))


def ran(*words: str, script: str = "") -> str:
    """What the program prints. It ends well."""
    ended = subprocess.run([PROGRAM, *words], input=script, capture_output=True, text=True)
    check((ended.returncode, ended.stderr) == (0, ""), f"{words}: {ended}")
    return ended.stdout


def session(name: str, rows: list[dict[str, str]]) -> int:
    """What the program answers a session with: after each request its replies, those of a connection in the order in
    which the document has them, and the end of a connection after a fault."""
    wanted: list[str] = []
    for number, row in enumerate(rows):
        if row["session"] != name:
            continue
        mine = [it for it in rows if it["by"] == number]
        # A call that INTERRUPT ends is answered before it; every other that a request lets proceed, after it.
        mine.sort(key=lambda it: (it["connection"], it["reply"] != "EINTR", it is not row))
        for it in mine:
            wanted.append(f"{it['connection']} {it['reply_bytes']}")
            if it["reply"] == "EPROTO":
                wanted.append(f"{it['connection']} end")
    found = answers(name).splitlines()
    for at, (one, other) in enumerate(zip(found, wanted)):
        check(one == other, f"{name}: reply {at + 1} is {one}, and not {other}")
    check(len(found) == len(wanted), f"{name}: {len(found)} replies, and not {len(wanted)}")
    return len(found)


def main() -> None:
    check(vectors.FILE.read_text() == vectors.text(), "docs/vectors.json is not of today: python3 tools/vectors.py")
    rows = json.loads(vectors.FILE.read_text())
    covered(rows)
    count = sum(session(name, rows) for name in vectors.SESSIONS)
    check(count >= FEWEST, f"{count} replies are few")
    print(f"vectors: {len(rows)} rows; the program answers {count} lines with these bytes")


if __name__ == "__main__":
    main()
