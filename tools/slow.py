"""Where the proofs spent their time: the slowest functions, after `make program` or a check of a crate.

    python3 tools/slow.py [CRATE ..]

A check leaves a file for each module of each function in crates/NAME/out/incremental. The time between one file and the
next is about what the next one took; with several jobs two overlap, so it is a rough map. A function of a few lines that
takes over 20 seconds (BAR) is worth a look: a large value is let go in place on one of its ways out, or a proof goes by
cases which could be a law.
"""

from __future__ import annotations

import re
import sys
from collections import Counter
from pathlib import Path

ROOT = Path(__file__).resolve().parent.parent
BAR = 20
# Rows that are shown of a crate, and the seconds that a row has at least.
ROWS = 8
LEAST = 3
# What stands at the end of a module's name, after the function's.
PART = re.compile(r"\.(decls|Proof|Statement|Key|Lts|Goals|Given|Body|oantt)\b.*$")


def function_of(crate: str, file: Path) -> str:
    """The function, type or file of definitions to which a module belongs."""
    name = file.name.removeprefix(f"Rattle-{crate}").lstrip(".-").removesuffix(".oantt")
    for front in ("proofs.", "specs.contracts.", "specs."):
        name = name.removeprefix(front)
    return PART.sub("", name)


def times(crate: str) -> tuple[float, Counter[str]]:
    """The seconds from the first file to the last, and those of each function."""
    folder = ROOT / "crates" / crate / "out" / "incremental"
    files = sorted((file.stat().st_mtime, file) for file in folder.rglob("*.oantt"))
    spent: Counter[str] = Counter()
    for (before, _), (after, file) in zip(files, files[1:]):
        spent[function_of(crate, file)] += after - before
    return (files[-1][0] - files[0][0] if files else 0.0), spent


def main() -> None:
    names = sys.argv[1:] or sorted(path.parent.name for path in ROOT.glob("crates/*/out"))
    over = []
    for crate in names:
        whole, spent = times(crate)
        if not whole:
            continue
        print(f"{crate}: {whole:.0f} s")
        for name, seconds in spent.most_common(ROWS):
            if seconds >= LEAST:
                print(f"  {seconds:5.0f} s  {name}")
        over += [(seconds, crate, name) for name, seconds in spent.items() if seconds > BAR]
    print(f"over {BAR} s: " + (", ".join(f"{crate} {name} {s:.0f}" for s, crate, name in sorted(over)[::-1]) or "none"))


if __name__ == "__main__":
    main()
