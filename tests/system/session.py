"""The sessions of README.md and of examples/client.py, as they stand there, and what they leave.

    python3 tests/system/session.py PROGRAM

Each page is typed line by line into one shell, and into the Pythons that it starts, once what the line before it prints
is there. README.md's shell stands in what a clone has after `make run`: the program in crates/ipcd/out, the examples and
the clients' sources. Every line of a page that looks like a command has to be typed: a block that is not is a failure.
Each page is done twice in one folder, which it leaves as it was. Without a C compiler or perl's IPC::Msg the blocks that
need one are left out, and that is said. It takes some seconds.
"""

from __future__ import annotations

import os
import re
import shutil
import signal
import subprocess
import sys
import tempfile
from collections.abc import Callable
from pathlib import Path

PROGRAM = os.path.realpath(sys.argv[1])
ROOT = Path(__file__).resolve().parents[2]

# A line that is typed, and what is printed then.
Step = tuple[str, list[str]]

# What looks like a line that somebody types, wherever it stands.
TYPED = re.compile(r"\s*(\$|>>>|\.\.\.)( |$)")

# What a block may need besides the program and Python, by a word of it, and what says whether it is there.
NEEDS = {
    "make ": ["sh", "-c", "command -v make && command -v cc"],
    "IPC::Msg": ["perl", "-MIPC::Msg", "-e", "1"],
}


def check(holds: bool, text: str) -> None:
    if not holds:
        raise AssertionError(text)


def blocks(text: str) -> list[list[Step]]:
    """The blocks that are indented by four places and begin with a command: the lines that are typed, and what is
    printed after each."""
    found: list[list[Step]] = []
    inside = False
    for line in text.splitlines():
        mark, _, typed = line[4:].partition(" ")
        if not line.startswith("    "):
            inside = inside and not line
        elif not inside and mark == "$":
            found.append([(typed, [])])
            inside = True
        elif inside and mark in ("$", ">>>", "..."):
            found[-1].append((typed, []))
        elif inside:
            found[-1][-1][1].append(line[4:])
    return found


def commands(page: str) -> list[Step]:
    """What is typed of a page, in its order. That is every line that looks typed."""
    text = (ROOT / page).read_text()
    found = blocks(text)
    typed = sum(map(len, found))
    looks = [line for line in text.splitlines() if TYPED.match(line)]
    check(typed == len(looks) > 0, f"{page}: {len(looks)} lines look typed, and {typed} stand in blocks: {looks}")
    return [step for block in found if has_what_it_needs(page, block) for step in block]


def has_what_it_needs(page: str, block: list[Step]) -> bool:
    for word, probe in NEEDS.items():
        if not any(word in typed for typed, _ in block):
            continue
        try:
            there = subprocess.run(probe, capture_output=True).returncode == 0
        except FileNotFoundError:
            there = False
        if not there:
            print(f"session: {page}: {block[0][0]!r} and what follows it is left out, since `{' '.join(probe)}` fails")
            return False
    return True


def do(page: str, steps: list[Step], path: str, words: tuple[str, ...] = ("bash",)) -> None:
    """Types the lines into a shell that these words start."""
    shell = subprocess.Popen(
        words,
        stdin=subprocess.PIPE,
        stdout=subprocess.PIPE,
        stderr=subprocess.DEVNULL,
        text=True,
        start_new_session=True,
        env={**os.environ, "PATH": path},
    )
    try:
        for typed, printed in steps:
            in_time(f"{page}: {typed}")
            # Without a terminal Python has to be told that somebody types, and it may read ahead of the
            # line that ends it.
            line = re.sub(r"\bpython3$", "python3 -i; echo Python has ended", typed)
            shell.stdin.write(line + "\n")
            shell.stdin.flush()
            for wanted in [*printed, "Python has ended"] if typed == "exit()" else printed:
                line = shell.stdout.readline().rstrip("\n")
                check(line == wanted, f"{page}: {typed}: {line!r} is printed, and not {wanted!r}")
        more, _ = shell.communicate(timeout=20)
        check(more == "", f"{page}: {more!r} is printed at the end")
        check(not is_there(shell.pid), f"{page}: a process is left")
    finally:
        if is_there(shell.pid):
            os.killpg(shell.pid, signal.SIGKILL)


def is_there(group: int) -> bool:
    """Whether a process of this session goes on."""
    try:
        os.killpg(group, 0)
    except ProcessLookupError:
        return False
    return True


def as_a_clone() -> None:
    """What README.md's commands find: a clone in which the program alone is built."""
    os.makedirs("crates/ipcd/out")
    os.symlink(PROGRAM, "crates/ipcd/out/ipcd")
    for part in ("examples", "clients"):
        shutil.copytree(ROOT / part, part, ignore=shutil.ignore_patterns("out", "__pycache__"))


def beside_client_py() -> None:
    """A folder that is that of examples/client.py, in which it is alone."""
    os.symlink(ROOT / "examples/client.py", "client.py")


def in_time(text: str) -> None:
    """What comes now may take a minute, which is long also on a slow machine."""

    def hangs(*_: object) -> None:
        raise AssertionError(f"{text}: what it is to print does not come")

    signal.signal(signal.SIGALRM, hangs)
    signal.alarm(60)


def main() -> None:
    os.environ["PYTHONDONTWRITEBYTECODE"] = "1"
    for variable in ("IPCD_SOCKET", "PYTHONPATH", "MAKEFLAGS", "MAKELEVEL"):
        os.environ.pop(variable, None)
    count = 0
    # README.md has to say itself where the program is.
    system = os.environ["PATH"]
    os.mkdir("bin")
    os.symlink(PROGRAM, "bin/ipcd")
    pages: list[tuple[str, Callable[[], None], str]] = [
        ("README.md", as_a_clone, system),
        ("examples/client.py", beside_client_py, f"{os.getcwd()}/bin:{system}"),
    ]
    for page, prepare, path in pages:
        steps = commands(page)
        os.mkdir("folder")
        os.chdir("folder")
        prepare()
        before = sorted(os.listdir())
        for _ in range(2):
            do(page, steps, path)
            check(sorted(os.listdir()) == before, f"{page}: {os.listdir()} is left")
            count += len(steps)
        os.chdir("..")
        shutil.rmtree("folder")
    print(f"session: {count} lines, and nothing is left")


if __name__ == "__main__":
    with tempfile.TemporaryDirectory() as folder:
        os.chdir(folder)
        main()
