"""What `make dist` packs, and that it packs the same bytes again.

    python3 tests/system/dist.py PROGRAM

It makes tarballs in a temporary folder, of the tree as it is, unpacks one and checks it as its MANIFEST says. It needs
make, tar and git: in a tree that is none of git's it says so, and refuses nothing. It takes some seconds.
"""

from __future__ import annotations

import os
import re
import subprocess
import sys
import tarfile
import tempfile
from pathlib import Path

sys.dont_write_bytecode = True

from install import FILES, PROGRAM, ROOT  # noqa: E402

DOC = "share/doc/ipcd"
CHECK = ["sha256sum", "--check", "--strict", "--quiet", "MANIFEST"]
NO_GATE = "none was given, so nothing here says that it has passed"


def check(holds: bool, text: str) -> None:
    if not holds:
        sys.exit(f"dist: {text}")


def run(*words: str | Path, at: Path | None = None, umask: int = 0o022) -> subprocess.CompletedProcess[str]:
    """Runs a program apart from the make that runs this."""
    apart = {name: text for name, text in os.environ.items() if not name.startswith(("MAKE", "MFLAGS"))}
    return subprocess.run(words, cwd=at, capture_output=True, text=True, env=apart, timeout=120, umask=umask)


def git(*words: str) -> str:
    return run("git", "-C", ROOT, *words).stdout.strip()


def dist(folder: str, *words: str, umask: int = 0o022) -> subprocess.CompletedProcess[str]:
    return run("make", "-s", "-C", ROOT, "dist", f"DIST={os.path.abspath(folder)}", *words, umask=umask)


def refused() -> None:
    """Without a program, or without the gate's lines that are named, a line says so and nothing is packed."""
    Path("empty").touch()
    wrong = "dist: there is no missing: 'make program' comes first\n"
    lines = [f"dist: the gate's lines: {os.getcwd()}/{name}" for name in ("missing", "empty")]
    for words, said in (
        (["BUILT=missing"], wrong),
        ([f"BUILT={PROGRAM}", f"GATE={os.getcwd()}/missing"], f"{lines[0]}: No such file or directory\n"),
        ([f"BUILT={PROGRAM}", f"GATE={os.getcwd()}/empty"], f"{lines[1]} has none\n"),
    ):
        ended = dist("none", *words)
        check(ended.returncode == 2 and ended.stderr.startswith(said), f"{words}: {ended}")
        check(not os.path.exists("none"), f"{words}: something is packed")


def packed(folder: str, *words: str, umask: int = 0o022) -> Path:
    """The tarball that is made in a new folder. Its name has the version that the manual page has."""
    ended = dist(folder, f"BUILT={PROGRAM}", *words, umask=umask)
    check((ended.returncode, ended.stderr) == (0, ""), f"{ended}")
    version = re.search(r'"ipcd ([0-9.]+)"', (ROOT / "docs/ipcd.8").read_text())[1]
    wanted = [f"ipcd-{version}-{git('describe', '--always', '--dirty')}.tar.gz"]
    check(os.listdir(folder) == wanted, f"{os.listdir(folder)} is made, and not {wanted}")
    return Path(folder, wanted[0])


def entries(tarball: Path) -> None:
    """Names are in order, and owners, times and modes are not those of the one who packs."""
    second = int(git("show", "-s", "--format=%ct", "HEAD"))
    with tarfile.open(tarball) as tar:
        them = tar.getmembers()
    names = [it.name.split("/") for it in them]
    check(names == sorted(names), "names are out of order")
    for it in them:
        mode = 0o777 if it.issym() else 0o755 if it.isdir() or it.mode & 0o111 else 0o644
        found = (it.uid, it.gid, it.uname, it.gname, it.mtime, it.mode)
        check(found == (0, 0, "root", "root", second, mode), f"{it.name}: {found}")


def unpacked(tarball: Path) -> Path:
    """The one folder in it."""
    Path("unpacked").mkdir()
    ended = run("tar", "-xzf", tarball.absolute(), "-C", "unpacked")
    check((ended.returncode, ended.stderr) == (0, ""), f"{ended}")
    top = tarball.name.removesuffix(".tar.gz")
    check(os.listdir("unpacked") == [top], f"{os.listdir('unpacked')} is in it")
    return Path("unpacked", top)


def sums(top: Path) -> None:
    """MANIFEST has each file, and a file that is changed is found by the command that stands in it."""
    lines = (top / "MANIFEST").read_text().splitlines()
    listed = {line.split("  ", 1)[1] for line in lines if not line.startswith("#")}
    there = {str(it.relative_to(top)) for it in top.rglob("*") if not it.is_dir()}
    check(there == {"MANIFEST", *listed}, f"{there ^ listed} differs")
    check(any(line.endswith(f": {' '.join(CHECK)}") for line in lines), "the command is not in MANIFEST")
    ended = run(*CHECK, at=top)
    check((ended.returncode, ended.stdout, ended.stderr) == (0, "", ""), f"{ended}")
    page = top / "share/man/man8/ipcd.8"
    text = page.read_bytes()
    page.write_bytes(text[:-1])
    check(run(*CHECK, at=top).returncode == 1, "a file that is changed is not found")
    page.write_bytes(text)


def manifest(top: Path, gate: str) -> None:
    lines = (top / "MANIFEST").read_text().splitlines()
    logic = re.search("logic `([0-9a-f]+)`", (ROOT / "README.md").read_text())[1]
    dirty = ", and changes that are in no commit" if git("status", "--porcelain", "-uno") else ""
    for line in (
        f"# commit: {git('rev-parse', 'HEAD')}{dirty}",
        f"# toolchain: logic {logic}",
        f"# the gate's last line: {gate}",
    ):
        check(line in lines, f"MANIFEST does not have: {line}")


def files(top: Path) -> None:
    """What is installed is there, and the documents, with all that README.md and OPERATIONS.md lead to."""
    for name, mode in FILES.items():
        check((top / name).stat().st_mode & 0o777 == mode, f"the mode of {name}")
    for name in ("README.md", "docs/OPERATIONS.md"):
        page = top / DOC / name
        for link in re.findall(r"\]\(([^)#]+)", page.read_text()):
            check((page.parent / link).exists(), f"{name} leads to {link}, which is not there")


def programs(top: Path) -> None:
    """The program is the one that was built, and the clients in Python can be used where they lie."""
    check((top / "bin/ipcd").read_bytes() == Path(PROGRAM).read_bytes(), "it is another program")
    for word, start in (("--version", "ipcd "), ("--help", "")):
        ended = run("bin/ipcd", word, at=top)
        check(ended.returncode == 0 and ended.stdout.startswith(start), f"{word}: {ended}")
    begin = "import sys; sys.dont_write_bytecode = True; "
    for folder, names in (("clients/python", "ipcd.sysv_ipc, ipcd.work"), ("examples", "client")):
        ended = run(sys.executable, "-c", f"{begin}import {names}", at=top / DOC / folder)
        check(ended.returncode == 0, f"{folder}: {ended}")


def tried(top: Path) -> str:
    """`try` shows a message that survives a kill and leaves no file; one that is changed is refused. Says what was done."""
    if not (top / "bin/ipcd-ask").exists():
        check(not (top / "try").exists(), "there is a `try` with nothing to ask with")
        return "the clients in C are not built, so `try` was not run"
    Path("temporary").mkdir()
    here = {**os.environ, "TMPDIR": os.path.abspath("temporary")}
    ended = subprocess.run([(top / "try").absolute()], cwd="/", capture_output=True, text=True, env=here, timeout=60)
    check((ended.returncode, ended.stderr) == (0, ""), f"try: {ended}")
    check(os.listdir("temporary") == [], f"try leaves {os.listdir('temporary')}")
    lines = ended.stdout.splitlines()
    serving = "serving device, 1366 sectors, on socket, small limits"
    check((lines[0], lines.count(serving)) == ("the files are those of MANIFEST", 2), f"{lines}")
    told = lines[lines.index("the server is killed") :]
    wanted = ["the server is killed", serving, "ipcd-ask socket 'msgget 1234' 'msgrcv $ 64'", "1", '5 "still here"']
    check(told[:5] == wanted and len(told) == 6, f"{told}")
    with (top / "bin/ipcd-run").open("ab") as changed:
        changed.write(b"x")
    ended = subprocess.run([top / "try"], capture_output=True, text=True, env=here, timeout=60)
    said = "try: these files are not those of MANIFEST\n"
    check(ended.returncode == 1 and ended.stderr.endswith(said), f"a changed file: {ended}")
    return "`try` shows a message that survives a kill"


def main() -> None:
    if not git("rev-parse", "HEAD"):
        print("dist: this is no tree of git's, so nothing was packed")
        return
    refused()
    tarball = packed("first")
    again = packed("again", umask=0o077)
    check(tarball.read_bytes() == again.read_bytes(), "other bytes are packed the second time")
    entries(tarball)
    top = unpacked(tarball)
    sums(top)
    manifest(top, NO_GATE)
    files(top)
    programs(top)
    shown = tried(top)
    Path("gate").write_text("a line before\nthe gate: all is \x1b[1mwell\n\n")
    with tarfile.open(packed("gated", f"GATE={os.getcwd()}/gate")) as tar:
        tar.extract(f"{top.name}/MANIFEST", "gated")
    manifest(Path("gated", top.name), "the gate: all is [1mwell")
    print(f"dist: a tarball, twice the same, whose sums, manifest, files and programs are as they should be; {shown}")


if __name__ == "__main__":
    with tempfile.TemporaryDirectory() as folder:
        os.chdir(folder)
        main()
