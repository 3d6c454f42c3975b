"""Packs what is built, in a tarball whose bytes follow from the commit and from what is built.

    python3 tools/dist.py PROGRAM FOLDER [GATE]

FOLDER gets ipcd-VERSION.tar.gz, where VERSION is the program's and the commit, with `-dirty` if the tree has changes
that are in no commit. In it is what `make install` puts below PREFIX, and in share/doc/ipcd the documents, the examples
and the clients in Python, Go, Rust, Node and Java. MANIFEST says what that is: the commit, the toolchain's logic, the
last line of the file GATE, in which is what the gate printed, and a sum of each file. If the clients in C are built,
`try` at the top runs a first session from where the tarball is unpacked. It builds nothing, and needs make and git.
"""

from __future__ import annotations

import gzip
import hashlib
import io
import os
import shutil
import subprocess
import sys
import tarfile
import tempfile
from pathlib import Path
from typing import NamedTuple, NoReturn

ROOT = Path(__file__).resolve().parent.parent
PREFIX = "/usr/local"
# Files of the repository that are there to be read, or to be run as they are. They keep their places, and so do links.
PYTHON = ["clients/python/README.md", "clients/python/pyproject.toml", "clients/python/build_backend.py"]
PYTHON += ["clients/python/ipcd"]
PAGES = ["README.md", "CHANGELOG.md", "CONTRIBUTING.md", "docs/*.md", "docs/pictures", "bench/LOG.md", "examples"]
PAGES += ["contrib/alerts.yml", "contrib/grafana.json"]
PAGES += PYTHON
# With their tests, and the vectors that these read.
PAGES += ["clients/go", "clients/rust", "clients/node", "clients/java", "docs/vectors.json"]
DOC = "share/doc/ipcd"
CLIENTS = "bin/ipcd-run"
# Stands at the top, if what it asks with is packed.
TRY, ASK = "contrib/try", "bin/ipcd-ask"
CHECK = "sha256sum --check --strict --quiet MANIFEST"


def fail(text: str) -> NoReturn:
    print(f"{Path(sys.argv[0]).stem}: {text}", file=sys.stderr)
    sys.exit(1)


def said(*words: str) -> str:
    """What a program prints, which has to end well."""
    try:
        ended = subprocess.run(words, cwd=ROOT, capture_output=True, text=True)
    except FileNotFoundError:
        fail(f"there is no {words[0]}")
    if ended.returncode:
        fail(f"{' '.join(words)}: {(ended.stderr or ended.stdout).strip().partition(chr(10))[0]}")
    return ended.stdout.strip()


class Commit(NamedTuple):
    """Where the tree stands: the commit, its name for people, and the second in which it was made."""

    full: str
    short: str
    second: int

    @property
    def text(self) -> str:
        return f"{self.full}, and changes that are in no commit" if self.short.endswith("-dirty") else self.full


def commit() -> Commit:
    full, second = said("git", "log", "-1", "--format=%H %ct").split()
    return Commit(full, said("git", "describe", "--always", "--dirty"), int(second))


def second_of(of: Commit) -> int:
    """The time of what is packed: that of the commit, or the one that SOURCE_DATE_EPOCH names, as packagers have it."""
    return int(os.environ.get("SOURCE_DATE_EPOCH") or of.second)


def logic() -> str:
    """The logic that README.md names, which has to be that of the toolchain if this is here."""
    named = (ROOT / "README.md").read_text().partition("logic `")[2].partition("`")[0]
    if not named:
        fail("README.md names no logic")
    if shutil.which("rt") is not None:
        here = said("rt", "version").split()
        if named not in here:
            fail(f"README.md names logic {named}, and `rt version` prints {' '.join(here)}")
    return named


def gate(file: str | None) -> str:
    """The last line that the gate has printed."""
    if file is None:
        return "none was given, so nothing here says that it has passed"
    try:
        lines = [line for line in Path(file).read_text(errors="replace").splitlines() if line.strip()]
    except OSError as fault:
        fail(f"the gate's lines: {file}: {fault.strerror}")
    if not lines:
        fail(f"the gate's lines: {file} has none")
    return "".join(filter(str.isprintable, lines[-1]))


def tracked(pattern: str) -> list[str]:
    """The files of the repository under this name, and none that a run has left beside them."""
    return said("git", "ls-files", "--", pattern).splitlines()


def apart() -> dict[str, str]:
    """The environment for a make that is apart from the one that runs this."""
    return {name: text for name, text in os.environ.items() if not name.startswith(("MAKE", "MFLAGS", "GNUMAKE"))}


def put_files(program: str, top: Path) -> None:
    """Puts there what is installed and what is there to be read."""
    with tempfile.TemporaryDirectory() as folder:
        words = [f"DESTDIR={folder}", f"PREFIX={PREFIX}", f"BUILT={program}"]
        line = ["make", "-s", "-C", ROOT, "install", *words]
        ended = subprocess.run(line, capture_output=True, text=True, env=apart())
        if ended.returncode:
            fail(f"make install: {ended.stderr.strip()}")
        shutil.copytree(folder + PREFIX, top, symlinks=True)
    if (top / ASK).exists():
        shutil.copy(ROOT / TRY, top / "try")
        (top / "try").chmod(0o755)
    for name in (it for pattern in PAGES for it in tracked(pattern)):
        to = top / DOC / name
        to.parent.mkdir(parents=True, exist_ok=True)
        shutil.copy(ROOT / name, to, follow_symlinks=False)


def manifest(top: Path, release: str, of: Commit, gate_line: str) -> bytes:
    """What stands before the sums is a comment for those who check them."""
    clients = "" if (top / CLIENTS).exists() else "# The clients in C were not built, and are not here.\n"
    names = sorted(it.relative_to(top).as_posix() for it in top.rglob("*") if not it.is_dir())
    sums = (f"{hashlib.sha256((top / name).read_bytes()).hexdigest()}  {name}\n" for name in names)
    head = (
        f"# {release}\n"
        f"# commit: {of.text}\n"
        f"# toolchain: logic {logic()}\n"
        f"# the gate's last line: {gate_line}\n"
        f"{clients}"
        f"# To check the files, in the folder of this one: {CHECK}\n"
        f"# To install them: all but this file and try below {PREFIX}.\n"
    )
    return (head + "".join(sums)).encode()


def pack(top: Path, name: str, second: int) -> bytes:
    """A tarball of the folder, under this name. Nothing of it depends on who made the files, and when."""

    def plain(it: tarfile.TarInfo) -> tarfile.TarInfo:
        it.uid, it.gid, it.uname, it.gname, it.mtime = 0, 0, "root", "root", second
        it.mode = 0o777 if it.issym() else 0o755 if it.isdir() or it.mode & 0o100 else 0o644
        return it

    packed = io.BytesIO()
    with gzip.GzipFile(filename="", mode="wb", fileobj=packed, mtime=second) as stream:
        with tarfile.open(fileobj=stream, mode="w", format=tarfile.USTAR_FORMAT) as tar:
            tar.add(top, name, filter=plain)
    return packed.getvalue()


def main() -> None:
    program, folder, *rest = sys.argv[1:]
    if not os.access(program, os.X_OK):
        fail(f"there is no {program}: 'make program' comes first")
    of, gate_line = commit(), gate(rest[0] if rest and rest[0] else None)
    release = said(os.path.abspath(program), "--version")
    name = f"ipcd-{release.split()[1].rstrip(',')}-{of.short}"
    with tempfile.TemporaryDirectory() as temporary:
        top = Path(temporary) / name
        put_files(os.path.abspath(program), top)
        (top / "MANIFEST").write_bytes(manifest(top, release, of, gate_line))
        data = pack(top, name, second_of(of))
    out = Path(folder) / f"{name}.tar.gz"
    out.parent.mkdir(parents=True, exist_ok=True)
    out.write_bytes(data)
    print(f"{out}: {len(data)} bytes, sha256 {hashlib.sha256(data).hexdigest()}")


if __name__ == "__main__":
    main()
