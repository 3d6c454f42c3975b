"""Makes an image of containers of what is built, whose bytes follow from the commit and from what is built.

    python3 tools/image.py PROGRAM FOLDER

FOLDER gets ipcd-VERSION-image.tar: an OCI image layout (image-spec 1.0) as one file, which skopeo names
`oci-archive:FILE`. Its one layer has the program, the libraries that this names, with the copyright of the C library,
`ipcd-contain` as the first process, and two folders for volumes. There is no shell, and no package manager. It needs
git, ldd and a C compiler for contrib/ipcd-contain.c; no daemon, and no network. docs/OPERATIONS.md says how it is run.
"""

from __future__ import annotations

import hashlib
import io
import json
import os
import re
import subprocess
import sys
import tarfile
import tempfile
from pathlib import Path
from time import gmtime, strftime
from typing import NamedTuple

sys.dont_write_bytecode = True
sys.path.insert(0, str(Path(__file__).resolve().parent))

from dist import ROOT, Commit, commit, fail, said, second_of  # noqa: E402

# A user that no distribution gives to a service.
USER, GROUP = 65532, 65532
PASSWD = f"root:x:0:0::/:/usr/sbin/nologin\nipcd:x:{USER}:{GROUP}::/:/usr/sbin/nologin\n"
GROUPS = f"root:x:0:\nipcd:x:{GROUP}:\n"
BIN, CONTAIN = "usr/bin/ipcd", "usr/libexec/ipcd/ipcd-contain"
STATE, RUN = "var/lib/ipcd", "run/ipcd"
COPYRIGHT = "usr/share/doc/libc6/copyright"
ARCHITECTURES = {"x86_64": "amd64", "aarch64": "arm64"}
MEDIA = "application/vnd.oci.image"


class Entry(NamedTuple):
    """A file of a tarball, or a folder, if it has no bytes."""

    data: bytes | None
    mode: int = 0o644
    user: int = 0
    group: int = 0


def contain(folder: str) -> bytes:
    """The first process, compiled: its bytes do not name the folder in which it was."""
    out = os.path.join(folder, "ipcd-contain")
    words = [os.environ.get("CC", "cc"), "-std=c11", "-O2", "-Wall", "-Wextra", "-Werror", "-s"]
    words += ["-Wl,--build-id=none", "-o", out, "contrib/ipcd-contain.c"]
    try:
        ended = subprocess.run(words, cwd=ROOT, capture_output=True, text=True)
    except FileNotFoundError:
        fail(f"there is no {words[0]}")
    if ended.returncode:
        fail(ended.stderr.strip())
    return Path(out).read_bytes()


def libraries(*programs: str) -> set[str]:
    """The paths by which programs name what the system loads with them, and not what whoever packs has preloaded."""
    found = set()
    for program in programs:
        text = said("env", "-u", "LD_PRELOAD", "-u", "LD_LIBRARY_PATH", "ldd", program)
        if "not found" in text:
            fail(f"{program}: {text}")
        found |= set(re.findall(r"(?m)(?:=> |^\s*)(/\S+) \(0x", text))
    return found


def files(program: str) -> dict[str, Entry]:
    with tempfile.TemporaryDirectory() as folder:
        first = contain(folder)
        named = libraries(program, os.path.join(folder, "ipcd-contain"))
    them = {
        BIN: Entry(Path(program).read_bytes(), 0o755),
        CONTAIN: Entry(first, 0o755),
        STATE: Entry(None, 0o700, USER, GROUP),
        RUN: Entry(None, 0o755, USER, GROUP),
        "etc/passwd": Entry(PASSWD.encode()),
        "etc/group": Entry(GROUPS.encode()),
        # Where a container engine mounts the system's own.
        **{name: Entry(None, 0o555) for name in ("dev", "proc", "sys")},
    }
    them |= {name.lstrip("/"): Entry(Path(name).read_bytes(), 0o755) for name in named}
    if Path("/", COPYRIGHT).exists():
        them[COPYRIGHT] = Entry(Path("/", COPYRIGHT).read_bytes())
    folders = {str(above) for name in them for above in Path(name).parents if str(above) != "."}
    return {name: Entry(None, 0o755) for name in folders} | them


def packed(entries: dict[str, Entry], second: int) -> bytes:
    """A tarball of these, by their names. It is not compressed: how is another thing with each version of zlib."""
    data = io.BytesIO()
    with tarfile.open(fileobj=data, mode="w", format=tarfile.USTAR_FORMAT) as tar:
        for name, entry in sorted(entries.items()):
            info = tarfile.TarInfo(name)
            info.mode, info.uid, info.gid, info.mtime = entry.mode, entry.user, entry.group, second
            if entry.data is None:
                info.type = tarfile.DIRTYPE
                tar.addfile(info)
            else:
                info.size = len(entry.data)
                tar.addfile(info, io.BytesIO(entry.data))
    return data.getvalue()


class Layout:
    """The files of a layout, of which a blob has its sum as its name."""

    def __init__(self) -> None:
        self.entries = {"oci-layout": Entry(b'{"imageLayoutVersion": "1.0.0"}')}

    def blob(self, kind: str, data: bytes) -> dict[str, object]:
        """Adds a blob, and answers its descriptor."""
        digest = hashlib.sha256(data).hexdigest()
        self.entries |= {"blobs": Entry(None, 0o755), "blobs/sha256": Entry(None, 0o755)}
        self.entries[f"blobs/sha256/{digest}"] = Entry(data)
        return {"mediaType": f"{MEDIA}.{kind}", "digest": f"sha256:{digest}", "size": len(data)}

    def document(self, kind: str, content: object) -> dict[str, object]:
        return self.blob(kind, json.dumps(content, sort_keys=True).encode())


def configuration(diff: str, created: str) -> dict[str, object]:
    """How a container is run. OCI has no field for a health check: this one is Docker's."""
    first, program, device = f"/{CONTAIN}", f"/{BIN}", f"/{STATE}/device"
    health = {"Test": ["CMD", first, "--health", program, device], "Interval": 30 * 10**9, "Timeout": 10 * 10**9}
    return {
        "created": created,
        "architecture": ARCHITECTURES.get(os.uname().machine, os.uname().machine),
        "os": "linux",
        "config": {
            "User": f"{USER}:{GROUP}",
            "Entrypoint": [first, program],
            "Cmd": ["serve", device, f"/{RUN}/socket"],
            "Volumes": {f"/{STATE}": {}, f"/{RUN}": {}},
            "WorkingDir": "/",
            "StopSignal": "SIGTERM",
            "Healthcheck": health,
        },
        "rootfs": {"type": "layers", "diff_ids": [diff]},
        "history": [{"created": created, "created_by": "make image"}],
    }


def layout(program: str, of: Commit, version: str) -> dict[str, Entry]:
    made, second = Layout(), second_of(of)
    created = strftime("%Y-%m-%dT%H:%M:%SZ", gmtime(second))
    layer = made.blob("layer.v1.tar", packed(files(program), second))
    config = made.document("config.v1+json", configuration(str(layer["digest"]), created))
    prefix = "org.opencontainers.image"
    notes = {"title": "ipcd", "version": version, "revision": of.full, "created": created}
    manifest = made.document("manifest.v1+json", {
        "schemaVersion": 2, "mediaType": f"{MEDIA}.manifest.v1+json", "config": config, "layers": [layer],
        "annotations": {f"{prefix}.{name}": text for name, text in notes.items()},
    })  # fmt: skip
    manifest["annotations"] = {f"{prefix}.ref.name": version}
    index = {"schemaVersion": 2, "mediaType": f"{MEDIA}.index.v1+json", "manifests": [manifest]}
    made.entries["index.json"] = Entry(json.dumps(index, sort_keys=True).encode())
    return made.entries


def main() -> None:
    program, folder = os.path.abspath(sys.argv[1]), Path(sys.argv[2])
    if not os.access(program, os.X_OK):
        fail(f"there is no {sys.argv[1]}: 'make program' comes first")
    of = commit()
    version = f"{said(program, '--version').split()[1].rstrip(',')}-{of.short}"
    data = packed(layout(program, of, version), second_of(of))
    out = folder / f"ipcd-{version}-image.tar"
    out.parent.mkdir(parents=True, exist_ok=True)
    out.write_bytes(data)
    print(f"{out}: {len(data)} bytes, sha256 {hashlib.sha256(data).hexdigest()}")


if __name__ == "__main__":
    main()
