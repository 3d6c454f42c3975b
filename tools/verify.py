"""Says whether a program is the one that is built here, by its sum.

    python3 tools/verify.py PROGRAM FILE

PROGRAM is what the gate has built. FILE is a program, a tarball of `make dist`, a package of `make deb` or an image of
`make image`. The status is 0 if both are the same, 1 if they differ, and 2 if one of them cannot be read. A package
needs dpkg-deb.
"""

from __future__ import annotations

import hashlib
import io
import subprocess
import sys
import tarfile
from pathlib import Path


def fail(text: str) -> None:
    print(f"verify: {text}", file=sys.stderr)
    sys.exit(2)


def packed(archive: bytes) -> bytes:
    """The program in a tarball."""
    with tarfile.open(fileobj=io.BytesIO(archive)) as tar:
        for entry in tar:
            if entry.isfile() and entry.name.endswith("/bin/ipcd"):
                return tar.extractfile(entry).read()
    raise ValueError("has no bin/ipcd")


def in_image(archive: bytes) -> bytes:
    """The program in a layer of an image: it is in none of the other blobs, which are no tarballs."""
    with tarfile.open(fileobj=io.BytesIO(archive)) as tar:
        for entry in tar:
            if entry.isfile() and entry.name.startswith("blobs/"):
                try:
                    return packed(tar.extractfile(entry).read())
                except (tarfile.TarError, ValueError):
                    continue
    raise ValueError("has no layer with bin/ipcd")


def program(file: str) -> bytes:
    data = Path(file).read_bytes()
    if data[257:262] == b"ustar":
        return in_image(data)
    if data.startswith(b"!<arch>"):
        return packed(subprocess.run(["dpkg-deb", "--fsys-tarfile", file], check=True, capture_output=True).stdout)
    return packed(data) if data.startswith(b"\x1f\x8b") else data


def main() -> None:
    built, file = sys.argv[1:]
    if not file:
        fail("which file? make verify FILE=..")
    sums = []
    for name in (built, file):
        try:
            sums.append(hashlib.sha256(program(name)).hexdigest())
        except (OSError, ValueError, tarfile.TarError, subprocess.CalledProcessError) as fault:
            fail(f"{name}: {fault.strerror if isinstance(fault, OSError) else fault}")
    if sums[0] != sums[1]:
        print(f"{file}: its program has sha256 {sums[1]}, and the one that is built here has {sums[0]}")
        sys.exit(1)
    print(f"{file}: its program is the one that is built here, sha256 {sums[0]}")


if __name__ == "__main__":
    main()
