"""Makes Debian packages of what is built, whose bytes follow from the commit and from what is built.

    python3 tools/deb.py PROGRAM FOLDER

FOLDER gets ipcd, libipcd0, libipcd-dev, ipcd-run and python3-ipcd; without the clients in C, which `make clients`
builds, only the first and the last. They have what `make install` puts below /usr, the libraries in the folder of the
architecture. The version is the program's, with the second and the name of the commit: no version is released yet. It
builds nothing, and needs make, git, dpkg-deb and strip. MAINTAINER names who answers for the packages.
"""

from __future__ import annotations

import gzip
import hashlib
import os
import re
import shutil
import subprocess
import sys
import tempfile
from email.utils import formatdate
from pathlib import Path
from time import gmtime, strftime
from typing import NamedTuple

sys.dont_write_bytecode = True
sys.path.insert(0, str(Path(__file__).resolve().parent))

from dist import ROOT, Commit, apart, commit, said, second_of, tracked  # noqa: E402
from dist import fail as dist_fail  # noqa: E402

# The domain is reserved for examples: no address is chosen yet.
MAINTAINER = os.environ.get("MAINTAINER", "The authors of ipcd <authors@example.org>")
DIST_PACKAGES = "usr/lib/python3/dist-packages"
COPYRIGHT = """\
ipcd: System V and POSIX IPC objects that outlive crashes.

No licence is chosen yet, so nobody may pass on copies before the authors choose one.
"""
COMMAND = """\
#!/usr/bin/python3
import sys

from ipcd.__main__ import main

sys.exit(main())
"""


class Package(NamedTuple):
    """A package: the files of the installation that it has, by patterns, and its fields."""

    name: str
    section: str
    patterns: list[str]
    depends: str
    short: str
    long: str


def packages(triplet: str) -> list[Package]:
    lib = f"usr/lib/{triplet}"
    return [
        Package("ipcd", "admin",
                ["usr/bin/ipcd", "usr/libexec/**/*", "usr/lib/systemd/**/*", "usr/lib/sysusers.d/*",
                 "usr/lib/tmpfiles.d/*", "usr/share/man/man[578]/*", "usr/share/doc/ipcd/**/*"],
                "python3", "server of System V and POSIX IPC objects that outlive crashes",
                "Message queues, semaphores and shared memory segments over a Unix socket.\n"
                " What a client was answered is durable."),
        Package("libipcd0", "libs", [f"{lib}/libipcd.so.0"],
                "", "client library of ipcd",
                "The calls of System V and POSIX IPC, with the prefix ipcd_, on a server\n of ipcd."),
        Package("libipcd-dev", "libdevel",
                ["usr/include/*", f"{lib}/libipcd.a", f"{lib}/libipcd.so", f"{lib}/pkgconfig/*",
                 "usr/share/man/man3/*"],
                "libipcd0 (= {version}), libc6-dev", "client library of ipcd, for development",
                "The header, the static library and the file of pkg-config."),
        Package("ipcd-run", "utils",
                ["usr/bin/ipcd-run", "usr/bin/ipcd-ask", "usr/lib/ipcd/*", "usr/share/man/man1/*"],
                "", "run programs on a server of ipcd, and ask it in words",
                "ipcd-run redirects the System V and POSIX IPC calls of an unchanged program;\n"
                " ipcd-ask makes single calls in words."),
        Package("python3-ipcd", "python", [f"{DIST_PACKAGES}/**/*", "usr/bin/ipcdctl"],
                "python3 (>= 3.9)", "client of ipcd in Python",
                "The calls as methods, modules in the place of sysv_ipc and posix_ipc, and the\n"
                " command ipcdctl."),
    ]  # fmt: skip


# What the packages do besides their files. Users and folders of an image are made when it starts.
POSTINST = """\
#!/bin/sh
set -e
if [ "$1" = configure ] && [ -z "$DPKG_ROOT" ]; then
	if command -v systemd-sysusers >/dev/null; then
		systemd-sysusers ipcd.conf
	elif ! getent passwd ipcd >/dev/null; then
		useradd --system --user-group --no-create-home --home-dir /var/lib/ipcd --shell /usr/sbin/nologin ipcd
	fi
	if command -v systemd-tmpfiles >/dev/null; then
		systemd-tmpfiles --create ipcd.conf
	else
		install -d -o ipcd -g ipcd -m 0700 /var/lib/ipcd
	fi
	if [ -d /run/systemd/system ]; then systemctl daemon-reload; fi
fi
"""
PRERM = """\
#!/bin/sh
set -e
if [ "$1" = remove ] && [ -z "$DPKG_ROOT" ] && [ -d /run/systemd/system ]; then
	systemctl disable --now ipcd.service
fi
"""
# Devices stay: whoever wants them gone removes them.
POSTRM = """\
#!/bin/sh
set -e
if [ "$1" = purge ] && [ -d "$DPKG_ROOT/var/lib/ipcd" ]; then
	rmdir --ignore-fail-on-non-empty "$DPKG_ROOT/var/lib/ipcd"
fi
if [ -z "$DPKG_ROOT" ] && [ -d /run/systemd/system ]; then systemctl daemon-reload; fi
"""
PYTHON_PRERM = f"""\
#!/bin/sh
set -e
rm -rf "$DPKG_ROOT/{DIST_PACKAGES}/ipcd/__pycache__"
"""
SCRIPTS = {
    "ipcd": {"postinst": POSTINST, "prerm": PRERM, "postrm": POSTRM},
    "python3-ipcd": {"prerm": PYTHON_PRERM},
}


def write(file: Path, text: str | bytes, mode: int = 0o644) -> None:
    file.parent.mkdir(parents=True, exist_ok=True)
    file.write_bytes(text.encode() if isinstance(text, str) else text)
    file.chmod(mode)


def version_of(program: str, of: Commit) -> str:
    base = said(program, "--version").split()[1].rstrip(",")
    name = re.sub(r"[^0-9a-z]", "", of.short.replace("-dirty", "dirty"))
    return f"{base}~git{strftime('%Y%m%d%H%M%S', gmtime(of.second))}.{name}"


def install(program: str, top: Path, triplet: str) -> None:
    """All files of all packages, where they are installed."""
    words = [f"DESTDIR={top}", "PREFIX=/usr", f"LIBDIR=/usr/lib/{triplet}", f"BUILT={program}"]
    ended = subprocess.run(["make", "-s", "-C", ROOT, "install", *words], capture_output=True, text=True, env=apart())
    if ended.returncode:
        dist_fail(f"make install: {ended.stderr.strip()}")
    for name in tracked("clients/python/ipcd"):
        file = ROOT / name
        write(top / DIST_PACKAGES / Path(name).relative_to("clients/python"), file.read_bytes())
    write(top / "usr/bin/ipcdctl", COMMAND, 0o755)
    for name in ("alerts.yml", "grafana.json"):
        if (ROOT / "contrib" / name).exists():
            write(top / "usr/share/doc/ipcd/examples" / name, (ROOT / "contrib" / name).read_bytes())
    for page in sorted((top / "usr/share/man").rglob("*.[1-8]")):
        write(page.with_name(f"{page.name}.gz"), gzip.compress(page.read_bytes(), 9, mtime=0))
        page.unlink()
    # The program stays as it was built, so that its sum can be compared. Of the others no debugger's part is packed.
    for name in ("usr/bin/ipcd-run", "usr/bin/ipcd-ask", "usr/lib/**/*.so*", "usr/lib/**/*.a"):
        for file in top.glob(name):
            if not file.is_symlink():
                how = "--strip-debug" if file.suffix == ".a" else "--strip-unneeded"
                said("strip", how, "--enable-deterministic-archives", str(file))
                file.chmod(0o755 if "bin" in file.parts else 0o644)


def c_library(root: Path) -> str:
    """The least version of the C library that the programs of a package name."""
    versions = [0]
    for file in root.rglob("*"):
        if file.is_file() and not file.is_symlink() and file.suffix != ".a":
            data = file.read_bytes()
            if data.startswith(b"\x7fELF"):
                versions += [int(it) for it in re.findall(rb"GLIBC_2\.(\d+)\b", data)]
    return f"libc6 (>= 2.{max(versions)})" if max(versions) else ""


def documents(root: Path, package: Package, version: str, of: Commit) -> None:
    doc = root / "usr/share/doc" / package.name
    changes = (
        f"ipcd ({version}) UNRELEASED; urgency=medium\n\n  * Commit {of.short}.\n\n"
        f" -- {MAINTAINER}  {formatdate(second_of(of))}\n"
    )
    write(doc / "copyright", COPYRIGHT)
    if package.name == "ipcd":
        # The tag of lintian that the unstripped program has.
        override = "# The program is packed as it was built and checked.\nipcd: unstripped-binary-or-object\n"
        write(root / "usr/share/lintian/overrides/ipcd", override)
    write(doc / "changelog.gz", gzip.compress(changes.encode(), 9, mtime=0))


def architecture(package: Package) -> str:
    return "all" if package.name == "python3-ipcd" else said("dpkg", "--print-architecture")


def control(root: Path, package: Package, version: str) -> None:
    """What dpkg reads of a package."""
    folder = root / "DEBIAN"
    depends = [it for it in (package.depends.format(version=version), c_library(root)) if it]
    files = sorted(it for it in root.rglob("*") if it.is_file() and not it.is_symlink())
    size = sum((it.stat().st_size + 1023) // 1024 for it in files)
    fields = {
        "Package": package.name, "Source": "ipcd", "Version": version, "Section": package.section,
        "Priority": "optional",
        "Architecture": architecture(package),
        "Multi-Arch": "same" if package.name in ("libipcd0", "libipcd-dev") else "",
        "Maintainer": MAINTAINER, "Installed-Size": str(size), "Depends": ", ".join(depends),
        "Description": f"{package.short}\n {package.long}",
    }  # fmt: skip
    write(folder / "control", "".join(f"{name}: {text}\n" for name, text in fields.items() if text))
    sums = (f"{hashlib.md5(it.read_bytes()).hexdigest()}  {it.relative_to(root)}\n" for it in files)
    write(folder / "md5sums", "".join(sums))
    for name, text in SCRIPTS.get(package.name, {}).items():
        write(folder / name, text, 0o755)
    if package.name == "libipcd0":
        write(folder / "shlibs", "libipcd 0 libipcd0\n")
        write(folder / "triggers", "activate-noawait ldconfig\n")


def settle(root: Path, second: int) -> None:
    """Modes and times are not those of the one who packs."""
    for it in [root, *root.rglob("*")]:
        if not it.is_symlink():
            it.chmod(0o755 if it.is_dir() or it.stat().st_mode & 0o100 else 0o644)
        os.utime(it, (second, second), follow_symlinks=False)


def pack(package: Package, top: Path, folder: Path, version: str, of: Commit) -> None:
    with tempfile.TemporaryDirectory() as temporary:
        root = Path(temporary) / package.name
        files = sorted({it for pattern in package.patterns for it in top.glob(pattern) if not it.is_dir()})
        if not files:
            print(f"deb: {package.name} is not packed: the clients in C are not built")
            return
        for file in files:
            to = root / file.relative_to(top)
            to.parent.mkdir(parents=True, exist_ok=True)
            shutil.copy2(file, to, follow_symlinks=False)
        documents(root, package, version, of)
        control(root, package, version)
        settle(root, second_of(of))
        out = folder / f"{package.name}_{version}_{architecture(package)}.deb"
        env = {**os.environ, "SOURCE_DATE_EPOCH": str(second_of(of))}
        words = ["dpkg-deb", "--root-owner-group", "-Zxz", "--threads-max=1", "--build", str(root), str(out)]
        ended = subprocess.run(words, capture_output=True, text=True, env=env)
        if ended.returncode:
            dist_fail(f"dpkg-deb: {ended.stderr.strip()}")
    print(f"{out}: {out.stat().st_size} bytes, sha256 {hashlib.sha256(out.read_bytes()).hexdigest()}")


def main() -> None:
    program, folder = sys.argv[1:]
    if not os.access(program, os.X_OK):
        dist_fail(f"there is no {program}: 'make program' comes first")
    if shutil.which("dpkg-deb") is None:
        dist_fail("there is no dpkg-deb")
    of, out = commit(), Path(folder).resolve()
    triplet = f"{os.uname().machine}-linux-gnu"
    version = version_of(os.path.abspath(program), of)
    out.mkdir(parents=True, exist_ok=True)
    with tempfile.TemporaryDirectory() as temporary:
        top = Path(temporary)
        install(os.path.abspath(program), top, triplet)
        for package in packages(triplet):
            pack(package, top, out, version, of)


if __name__ == "__main__":
    main()
