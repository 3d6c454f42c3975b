"""What `make install` puts where, and the manual page.

    python3 tests/system/install.py PROGRAM

It installs into a temporary folder, with the prefix of a distribution's packager and with the usual
one. It needs make, man to render the page, and systemd-analyze to judge the unit: without one of these
two it says so and refuses nothing. It takes a moment.
"""

from __future__ import annotations

import os
import re
import shutil
import stat
import subprocess
import sys
import tempfile
from pathlib import Path

PROGRAM = os.path.abspath(sys.argv[1])
ROOT = Path(__file__).resolve().parents[2]
PAGE = "share/man/man8/ipcd.8"
UNIT = "lib/systemd/system/ipcd.service"
NOTIFY = "libexec/ipcd/ipcd-notify"
FILES = {
    "bin/ipcd": 0o755,
    PAGE: 0o644,
    "share/man/man7/ipcd-protocol.7": 0o644,
    "share/man/man5/ipcd-device.5": 0o644,
    UNIT: 0o644,
    NOTIFY: 0o755,
    "lib/sysusers.d/ipcd.conf": 0o644,
    "lib/tmpfiles.d/ipcd.conf": 0o644,
}
CLIENTS = {
    "bin/ipcd-run": 0o755,
    "bin/ipcd-ask": 0o755,
    "include/ipcd.h": 0o644,
    "lib/libipcd.a": 0o644,
    "lib/libipcd.so": 0o644,
    "lib/libipcd.so.0": 0o644,
    "lib/ipcd/libipcd-preload.so": 0o644,
    "lib/pkgconfig/ipcd.pc": 0o644,
    "share/man/man1/ipcd-run.1": 0o644,
    "share/man/man1/ipcd-ask.1": 0o644,
    "share/man/man3/libipcd.3": 0o644,
}
# They are installed if they are built.
if (ROOT / "clients/c/out/ipcd-run").exists():
    FILES |= CLIENTS


def check(holds: bool, text: str) -> None:
    if not holds:
        sys.exit(f"install: {text}")


def make(*words: str, status: int = 0) -> None:
    """Runs make apart from the one that runs this."""
    apart = {name: text for name, text in os.environ.items() if not name.startswith(("MAKE", "MFLAGS"))}
    line = ["make", "-C", str(ROOT), "install", *words]
    ended = subprocess.run(line, capture_output=True, text=True, env=apart, timeout=60, umask=0o077)
    check(ended.returncode == status, f"{words}: {ended}")


def installed(prefix: str) -> Path:
    """Installs below this prefix in a new folder, whatever the umask, and gives the prefix's folder."""
    folder = Path(tempfile.mkdtemp(dir="."))
    make(f"DESTDIR={folder.resolve()}", f"PREFIX={prefix}", f"BUILT={PROGRAM}")
    top = folder / prefix.lstrip("/")
    found = {str(it.relative_to(top)): it for it in folder.rglob("*") if it.is_file()}
    check(set(found) == set(FILES), f"{prefix}: {sorted(found)} is there")
    for name, mode in FILES.items():
        check(stat.S_IMODE(found[name].stat().st_mode) == mode, f"{prefix}: the mode of {name}")
    return top


def program(top: Path) -> str:
    """The name and the version of the program that is installed."""
    ended = subprocess.run([top / "bin/ipcd", "--version"], capture_output=True, text=True, timeout=60)
    check(ended.returncode == 0 and ended.stdout.startswith("ipcd "), f"the program: {ended}")
    return ended.stdout.partition(",")[0]


def unit(top: Path, prefix: str) -> None:
    """The unit starts the program that is installed, by what is installed with it, and else it is the one that
    OPERATIONS.md shows."""
    text = (top / UNIT).read_text()
    start = f"ExecStart={prefix}/{NOTIFY} {prefix}/bin/ipcd serve /var/lib/ipcd/device /run/ipcd/socket\n"
    check(start in text, f"{prefix}: {text!r}")
    shown = "".join(f"    {line}" if line.strip() else line for line in text.splitlines(True))
    pages = (ROOT / "docs/OPERATIONS.md").read_text().replace("/usr/local/", f"{prefix}/")
    check(shown in pages, f"{prefix}: OPERATIONS.md shows another unit")


def hardened(top: Path) -> str:
    """The unit is let do little, by the reckoning of systemd, and makes the folder of the clients' pids before the
    server begins."""
    text = (top / UNIT).read_text()
    folder = "ExecStartPre=/bin/mkdir -p -m 01777 /run/ipcd/socket.pids\n"
    check(folder in text.partition("ExecStart=")[0], f"the folder of pids is not made: {text!r}")
    words = ["systemd-analyze", "security", "--offline=true"]
    here = {**os.environ, "LC_ALL": "C"}
    try:
        ended = subprocess.run([*words, top / UNIT], capture_output=True, text=True, env=here, timeout=60)
    except FileNotFoundError:
        return "systemd-analyze is not here, so the unit was not judged"
    level = re.search(r"Overall exposure level for ipcd.service: ([0-9.]+)", ended.stdout)
    if level is None:
        return f"systemd-analyze of this version judges no file, so the unit was not judged: {ended.stderr.strip()[:80]}"
    check(float(level[1]) <= 2.0, f"the exposure of the unit is {level[1]}, and 2.0 is the most")
    return f"the exposure of the unit is {level[1]}"


def notify(top: Path) -> None:
    """What the unit starts the program by is installed as one that can be run."""
    ended = subprocess.run([top / NOTIFY, top / "bin/ipcd", "--version"], capture_output=True, text=True, timeout=60)
    check(ended.returncode == 0 and ended.stdout.startswith("ipcd "), f"the program by {NOTIFY}: {ended}")


def man(*words: str) -> subprocess.CompletedProcess[str]:
    here = {**os.environ, "LC_ALL": "C.UTF-8", "MANWIDTH": "100", "PAGER": "cat", "MANPAGER": "cat"}
    return subprocess.run(["man", *words], capture_output=True, text=True, env=here, timeout=60)


def page(top: Path, name: str) -> str:
    """Renders the page, and gives what was done. Some systems have a man that renders nothing."""
    if shutil.which("man") is None or not man("--version").stdout.startswith("man "):
        return "man is not here, so its page was not rendered"
    ended = man("--warnings", "-l", str(top / PAGE))
    check((ended.returncode, ended.stderr) == (0, ""), f"the page: {ended.returncode}, {ended.stderr}")
    words = [name, "System V and POSIX IPC objects", "--turns N", "damaged sector N", "too small, N sectors"]
    for word in words:
        check(word in ended.stdout, f"the page does not have: {word}")
    return "its page is rendered without a warning"


def main() -> None:
    make(f"DESTDIR={os.getcwd()}/none", "BUILT=missing", status=2)
    check(os.listdir() == [], "something is installed without a program")
    for prefix in ("/usr", "/usr/local"):
        top = installed(prefix)
        name = program(top)
        unit(top, prefix)
        judged = hardened(top)
        notify(top)
    print(f"install: the program, its page, its unit and what this starts it by, twice; {judged}; {page(top, name)}")


if __name__ == "__main__":
    with tempfile.TemporaryDirectory() as folder:
        os.chdir(folder)
        main()
