"""That what is packed follows from the commit and what is built alone: two copies of the tree, in other folders, on
other days, by other users where this is root's, with another umask, time zone, language and home folder, build the
clients in C and make a tarball, packages and an image of the same bytes.

    python3 tests/system/reproducible.py PROGRAM

The program itself is built once, and is in both copies: this says of it only that it names no folder of whoever built
it, and `make verify` compares it with one that was built elsewhere. The other day is that of tests/sockets/step_clock.c.
It needs git, make and a C compiler; without git or a compiler it says so, and refuses nothing; packages are left out
without dpkg-deb. It takes some ten seconds.
"""

from __future__ import annotations

import hashlib
import os
import shutil
import struct
import subprocess
import sys
import tempfile
from concurrent.futures import ThreadPoolExecutor
from pathlib import Path
from typing import NamedTuple

sys.dont_write_bytecode = True

from install import PROGRAM, ROOT  # noqa: E402

BUILT = "crates/ipcd/out/ipcd"
NOBODY = 65534
# How many seconds the clock of the second copy is ahead: 40 days and some hours.
AHEAD = 40 * 86400 + 12345


class Place(NamedTuple):
    """A copy of the tree, and how its user has set up the system."""

    folder: str
    umask: int
    settings: dict[str, str]


PLACES = [
    Place("one", 0o022, {"TZ": "UTC", "LC_ALL": "C", "HOME": "/"}),
    Place("another/folder of a longer name", 0o077, {"TZ": "Asia/Tokyo", "LC_ALL": "C.UTF-8", "HOME": "/nonexistent"}),
]


def check(holds: bool, text: str) -> None:
    if not holds:
        sys.exit(f"reproducible: {text}")


def copied(place: Place, user: int) -> None:
    """The tree without what is built, except the program; all files have the time of the copy."""
    tree = Path(place.folder, "tree")
    shutil.copytree(ROOT, tree, ignore=shutil.ignore_patterns("out", "__pycache__"), copy_function=shutil.copy)
    (tree / BUILT).parent.mkdir(parents=True)
    shutil.copy(PROGRAM, tree / BUILT)
    for it in (Path(place.folder), *Path(place.folder).rglob("*")):
        os.chown(it, user, user, follow_symlinks=False)


def run(place: Place, user: int, *words: str) -> None:
    """Runs a program in the copy, apart from the make that runs this."""
    apart = {name: text for name, text in os.environ.items() if not name.startswith(("MAKE", "MFLAGS"))}
    apart.pop("SOURCE_DATE_EPOCH", None)
    apart["PATH"] += ":/usr/local/sbin:/usr/sbin:/sbin"
    to = {} if user == os.geteuid() else {"user": user, "group": user, "extra_groups": []}
    ended = subprocess.run(words, cwd=Path(place.folder, "tree"), env=apart | place.settings, umask=place.umask,
                           capture_output=True, text=True, timeout=300, **to)  # fmt: skip
    check((ended.returncode, ended.stderr) == (0, ""), f"{words} in {place.folder}: {ended}")


def made(place: Place, user: int, targets: list[str]) -> dict[str, str]:
    """The sums of all that is packed in the copy, by their names."""
    copied(place, user)
    run(place, user, "make", "-s", "-j2", "-C", "clients/c")
    for target in targets:
        run(place, user, "make", "-s", target)
    out = Path(place.folder, "tree/out")
    return {it.name: hashlib.sha256(it.read_bytes()).hexdigest() for it in sorted(out.iterdir())}


def program_names_no_folder() -> None:
    data = Path(PROGRAM).read_bytes()
    named = [name for name in (str(ROOT), tempfile.gettempdir() + "/", "/home/", "/root/") if name.encode() in data]
    check(named == [], f"the program names {named}")


def step_clock(place: Place) -> None:
    """From now on what runs in this copy sees a clock that is ahead, with all that it starts."""
    subprocess.run(["cc", "-shared", "-fPIC", "-o", "step_clock.so", ROOT / "tests/sockets/step_clock.c"], check=True)
    Path("ahead").write_bytes(struct.pack("=q", 1000 * AHEAD))
    place.settings.update(LD_PRELOAD=os.path.abspath("step_clock.so"), STEP_FILE=os.path.abspath("ahead"))


def clocks_differ(users: list[int]) -> None:
    seen = []
    for place, user in zip(PLACES, users, strict=True):
        run(place, user, "python3", "-c", "import time; open('../now', 'w').write(str(time.time()))")
        seen.append(float(Path(place.folder, "now").read_text()))
    check(abs(seen[1] - seen[0] - AHEAD) < 3600, f"{seen} are the times of the two copies")


def has_git() -> bool:
    return subprocess.run(["git", "-C", ROOT, "rev-parse", "HEAD"], capture_output=True).returncode == 0


def main() -> None:
    if not has_git() or shutil.which(os.environ.get("CC", "cc")) is None:
        print("reproducible: there is no tree of git's or no C compiler, so nothing was packed")
        return
    program_names_no_folder()
    targets = ["dist", "image", *(["deb"] if shutil.which("dpkg-deb") else [])]
    users = [os.geteuid(), NOBODY if os.geteuid() == 0 else os.geteuid()]
    step_clock(PLACES[1])
    with ThreadPoolExecutor(2) as pool:
        first, second = pool.map(made, PLACES, users, [targets, targets])
    clocks_differ(users)
    wanted = 7 if "deb" in targets else 2
    check(len(first) == wanted, f"{list(first)} are made, and {wanted} are wanted")
    for name in first | second:
        check(first.get(name) == second.get(name), f"{name} has other bytes from another folder")
    by = ", by another user" if users[0] != users[1] else ""
    print(f"reproducible: {', '.join(first)}: the same from another folder, on another day{by}")


if __name__ == "__main__":
    with tempfile.TemporaryDirectory() as folder:
        os.chdir(folder)
        os.chmod(".", 0o755)
        for place in PLACES:
            os.makedirs(place.folder)
        main()
