"""What `make image` makes: the same bytes again, what is in it and who owns that, what skopeo and umoci read of it, and
a message that survives a killed container, by runc and by bwrap; and `make verify` of it.

    python3 tests/system/image.py PROGRAM

It works in a temporary folder. It needs git and a C compiler: without one of these it says so, and refuses nothing. It
says which of skopeo, umoci, runc and bwrap are not here. The numbers and paths that it expects are those of
docs/OPERATIONS.md. It takes some seconds.
"""

from __future__ import annotations

import hashlib
import json
import os
import shutil
import signal
import stat
import subprocess
import sys
import tarfile
import tempfile
from collections.abc import Callable, Iterator
from contextlib import contextmanager
from pathlib import Path

sys.dont_write_bytecode = True
sys.path.insert(0, str(Path(__file__).resolve().parents[1] / "lib"))

from install import PROGRAM, ROOT  # noqa: E402
from server import Connection  # noqa: E402

from client import IPC_CREAT, IPC_NOWAIT  # noqa: E402

SECOND, CREATED, USER = "1700000000", "2023-11-14T22:13:20Z", 65532
FIRST = "/usr/libexec/ipcd/ipcd-contain"
START = [FIRST, "/usr/bin/ipcd"]
SERVE = ["serve", "/var/lib/ipcd/device", "/run/ipcd/socket"]
HEALTH = [FIRST, "--health", "/usr/bin/ipcd", "/var/lib/ipcd/device"]
SERVING = "serving /var/lib/ipcd/device, 1366 sectors, on /run/ipcd/socket, small limits\n"
SECONDS = 60


def check(holds: bool, text: str) -> None:
    if not holds:
        sys.exit(f"image: {text}")


def run(*words: str | Path, umask: int = 0o022, **more: str) -> subprocess.CompletedProcess[str]:
    """Runs a program apart from the make that runs this."""
    apart = {name: text for name, text in os.environ.items() if not name.startswith(("MAKE", "MFLAGS"))}
    apart["PATH"] += ":/usr/local/sbin:/usr/sbin:/sbin"
    return subprocess.run(words, capture_output=True, text=True, env=apart | more, timeout=SECONDS, umask=umask)


def ends_well(*words: str | Path, **more: str) -> str:
    ended = run(*words, **more)
    check(ended.returncode == 0, f"{words}: {ended}")
    return ended.stdout


def make(*words: str, umask: int = 0o022, **more: str) -> subprocess.CompletedProcess[str]:
    return run("make", "-s", "-C", ROOT, f"BUILT={PROGRAM}", *words, umask=umask, **more)


def packed(folder: str, umask: int = 0o022) -> Path:
    ended = make("image", f"IMAGE={os.path.abspath(folder)}", umask=umask, SOURCE_DATE_EPOCH=SECOND)
    check((ended.returncode, ended.stderr) == (0, ""), f"{ended}")
    (made,) = Path(folder).resolve().iterdir()
    check(made.name.startswith("ipcd-") and made.name.endswith("-image.tar"), made.name)
    return made


def laid_out(image: Path) -> dict[str, dict[str, object]]:
    """The layout, unpacked into the folder `layout`: each blob has its sum as its name, and each descriptor its size.
    Answers the index, the manifest and the configuration."""
    with tarfile.open(image) as tar:
        check(all(it.mtime == int(SECOND) and it.uid == it.gid == 0 for it in tar), "owners and times")
        tar.extractall("layout")
    blobs = Path("layout/blobs/sha256")
    for blob in blobs.iterdir():
        check(hashlib.sha256(blob.read_bytes()).hexdigest() == blob.name, f"the sum of {blob.name}")
    check(json.loads(Path("layout/oci-layout").read_text()) == {"imageLayoutVersion": "1.0.0"}, "its version")

    def read(descriptor: dict[str, object]) -> bytes:
        data = (blobs / str(descriptor["digest"]).removeprefix("sha256:")).read_bytes()
        check(len(data) == descriptor["size"], f"the size of {descriptor}")
        return data

    index = json.loads(Path("layout/index.json").read_text())
    (first,) = index["manifests"]
    manifest = json.loads(read(first))
    config = json.loads(read(manifest["config"]))
    (layer,) = manifest["layers"]
    check(config["rootfs"]["diff_ids"] == [layer["digest"]], "the layer that the configuration names")
    Path("layer.tar").write_bytes(read(layer))
    return {"index": index, "manifest": manifest, "config": config}


def configured(config: dict[str, object]) -> None:
    """How a container is run: as docs/OPERATIONS.md has it."""
    check(config["created"] == CREATED, f"it is made at {config['created']}")
    of = config["config"]
    check(isinstance(of, dict), f"{config}")
    found = (of["User"], of["Entrypoint"], of["Cmd"], sorted(of["Volumes"]), of["Healthcheck"]["Test"])
    wanted = (f"{USER}:{USER}", START, SERVE, ["/run/ipcd", "/var/lib/ipcd"], ["CMD", *HEALTH])
    check(found == wanted, f"{found}, and not {wanted}")


def layered() -> None:
    """The program is the one that was built; the volumes are of the service's user, all else is of root; there is no
    shell, and nobody but root may write."""
    with tarfile.open("layer.tar") as tar:
        them = {it.name: it for it in tar}
        check(list(them) == sorted(them), "names are out of order")
        check(tar.extractfile("usr/bin/ipcd").read() == Path(PROGRAM).read_bytes(), "it is another program")
    for name, it in them.items():
        owner = USER if name in ("var/lib/ipcd", "run/ipcd") else 0
        check((it.uid, it.gid, it.mtime) == (owner, owner, int(SECOND)), f"{name}: {it.uid}, {it.gid}, {it.mtime}")
        check(it.mode & (stat.S_IWGRP | stat.S_IWOTH | stat.S_ISUID | stat.S_ISGID) == 0, f"{name}: {it.mode:o}")
        check(it.isdir() or it.isfile(), f"{name} is something else")
    programs = {name for name, it in them.items() if it.isfile() and it.mode & 0o111 and ".so" not in name}
    check(programs == {"usr/bin/ipcd", FIRST[1:]}, f"{programs} are programs in it")


def read_by_others(image: Path, tag: str) -> list[str]:
    """skopeo reads the file, and copies it; umoci unpacks what it has copied into the folder `bundle`."""
    done = []
    if shutil.which("skopeo") is not None:
        told = json.loads(ends_well("skopeo", "inspect", "--config", f"oci-archive:{image}"))
        check(told["config"]["User"] == f"{USER}:{USER}", f"skopeo reads {told}")
        ends_well("skopeo", "copy", "-q", "--insecure-policy", f"oci-archive:{image}", f"oci:copied:{tag}")
        done.append("skopeo reads it")
    if shutil.which("umoci") is not None:
        rootless = [] if os.geteuid() == 0 else ["--rootless"]
        source = "copied" if done else "layout"
        ends_well("umoci", "unpack", *rootless, "--image", f"{source}:{tag}", "bundle")
        unpacked = Path("bundle/rootfs/usr/bin/ipcd").read_bytes()
        check(unpacked == Path(PROGRAM).read_bytes(), "umoci has another program")
        done.append("umoci unpacks it")
    return done


Starter = Callable[[list[str]], list[str]]


@contextmanager
def contained(start: Starter, words: list[str] = SERVE) -> Iterator[subprocess.Popen[str]]:
    """A container that serves."""
    process = subprocess.Popen(start([*START, *words]), stdout=subprocess.PIPE, stderr=subprocess.DEVNULL, text=True)
    try:
        line = process.stdout.readline()
        check(line == SERVING, f"the container prints {line!r}")
        yield process
    finally:
        process.kill()
        process.wait()


def connected() -> Connection:
    connection = Connection("run/socket", timeout=20)
    connection.hello(1000, 100)
    return connection


def is_healthy(health: list[str], wanted: bool) -> None:
    ended = run(*health)
    check((ended.returncode == 0) == wanted, f"its health: {ended}")
    check(not wanted or "fit to be served: version 2" in ended.stdout, f"its health: {ended}")


def used(
    start: Starter, first: Callable[[int], int], end: Callable[[int], None], health: Callable[[], list[str]]
) -> None:
    """A message survives a kill; the socket that is left does not hinder; SIGTERM ends the container; and the health is
    that of a server which has the device."""
    for folder in ("state", "run"):
        shutil.rmtree(folder, ignore_errors=True)
        os.mkdir(folder)
        os.chmod(folder, 0o777)
    said = ends_well(*start([*START, "format", "--small", "/var/lib/ipcd/device"]))
    check(said == "formatted 1366 sectors\n", said)
    with contained(start) as process:
        # Only root may enter the namespaces of a container that bwrap has made.
        if os.geteuid() == 0:
            is_healthy(health(), True)
        with connected() as connection:
            connection.msgsnd(connection.msgget(1234, IPC_CREAT | 0o600), 5, b"kept")
        os.kill(first(process.pid), signal.SIGKILL)
        process.wait(SECONDS)
    end(0)
    check(stat.S_ISSOCK(os.stat("run/socket").st_mode), "a killed server leaves no socket")
    with contained(start) as process:
        with connected() as connection:
            found = connection.msgrcv(connection.msgget(1234, 0), 64, 0, IPC_NOWAIT)
            check(found == (5, b"kept"), f"{found} is received")
        os.kill(first(process.pid), signal.SIGTERM)
        status = process.wait(SECONDS)
        check(status == 128 + signal.SIGTERM, f"SIGTERM ends it with {status}")
    end(0)
    check(run(*start(HEALTH)).returncode == 1, "a device that nobody serves is healthy")
    end(0)
    # Of one that no server may write `check` says so, and that it is fit otherwise.
    os.chmod("state/device", 0o400)
    ended = run(*start(HEALTH))
    parts = [ended.stdout.startswith("device fault: Permission denied"), "\notherwise fit to be served" in ended.stdout]
    check((ended.returncode, parts) == (1, [True, True]), f"a device that may not be written: {ended}")
    os.chmod("state/device", 0o600)
    end(0)
    refused = run(*start([*START, "serve", "/var/lib/ipcd/missing", "/run/ipcd/socket"]))
    check((refused.returncode, refused.stderr) == (1, "ipcd: device fault\n"), f"its status: {refused}")


def by_bwrap(root: Path) -> None:
    """As a user without rights: the service's user is the one who runs this."""
    unshared = ["--unshare-user", "--uid", str(USER), "--gid", str(USER), "--unshare-pid", "--as-pid-1"]
    unshared += ["--unshare-net"]
    mounts = ["--ro-bind", str(root), "/", "--bind", "state", "/var/lib/ipcd", "--bind", "run", "/run/ipcd"]
    bwrap = ["bwrap", *unshared, "--die-with-parent", *mounts, "--proc", "/proc", "--dev", "/dev"]
    process = 0

    def first(number: int) -> int:
        nonlocal process
        children = Path(f"/proc/{number}/task/{number}/children").read_text().split()
        check(len(children) == 1, f"{children} are children of bwrap")
        process = int(children[0])
        return process

    def health() -> list[str]:
        """In the container's namespaces, since what a lock's owner is called is another thing in each."""
        (bwrap_itself,) = Path("/proc/self/task", str(os.getpid()), "children").read_text().split()
        enter = ["nsenter", "--user", "--mount", "--pid", "--preserve-credentials"]
        return [*enter, "--root", "--wd", "--target", str(first(int(bwrap_itself))), *HEALTH]

    used(lambda words: [*bwrap, *words], first, lambda _: None, health)


def by_runc() -> None:
    """As a user of its own, from the bundle that umoci has unpacked, with the device and the socket on two mounts."""
    name = f"ipcd-{os.getpid()}"
    runc = ["runc", "--root", os.path.abspath("runc")]
    bundle = json.loads(Path("bundle/config.json").read_text())
    for folder, to in (("state", "/var/lib/ipcd"), ("run", "/run/ipcd")):
        source = os.path.abspath(folder)
        bundle["mounts"].append({"destination": to, "type": "bind", "source": source, "options": ["bind", "rw"]})
    bundle["root"]["readonly"] = True
    bundle["process"]["terminal"] = False
    bundle["process"]["user"] = {"uid": USER, "gid": USER}

    def start(words: list[str]) -> list[str]:
        bundle["process"]["args"] = words
        Path("bundle/config.json").write_text(json.dumps(bundle))
        return [*runc, "run", "--bundle", "bundle", name]

    def first(_: int) -> int:
        return int(json.loads(ends_well(*runc, "state", name))["pid"])

    def end(_: int) -> None:
        run(*runc, "delete", "--force", name)

    try:
        used(start, first, end, lambda: [*runc, "exec", "--user", f"{USER}:{USER}", name, *HEALTH])
    finally:
        end(0)


def may_unshare() -> bool:
    words = ["bwrap", "--unshare-user", "--unshare-pid", "--ro-bind", "/", "/", "true"]
    return shutil.which("bwrap") is not None and run(*words).returncode == 0


def may_run() -> bool:
    """Whether runc may run a container here: of root, with the folders of control groups."""
    if os.geteuid() != 0 or shutil.which("runc") is None or not os.path.exists("bundle"):
        return False
    shutil.copytree("bundle", "trial", symlinks=True)
    config = json.loads(Path("trial/config.json").read_text())
    config["process"] |= {"terminal": False, "args": ["/usr/bin/ipcd", "--version"]}
    Path("trial/config.json").write_text(json.dumps(config))
    words = ["runc", "--root", os.path.abspath("runc"), "run", "--bundle", "trial", f"trial-{os.getpid()}"]
    return run(*words).returncode == 0


def verifies(image: Path) -> None:
    """The program in it is the one that is built; of another one that is said."""
    ended = make("verify", f"FILE={image}")
    check(ended.returncode == 0 and ": its program is the one that is built here" in ended.stdout, f"{ended}")
    Path("other").write_bytes(Path(PROGRAM).read_bytes() + b"x")
    os.chmod("other", 0o755)
    ended = make(f"BUILT={os.path.abspath('other')}", "verify", f"FILE={image}")
    check(ended.returncode == 2 and ", and the one that is built here has " in ended.stdout, f"{ended}")


def main() -> None:
    if run("git", "-C", ROOT, "rev-parse", "HEAD").returncode:
        print("image: this is no tree of git's, so nothing was packed")
        return
    if shutil.which(os.environ.get("CC", "cc")) is None:
        print("image: there is no C compiler, so no image was made")
        return
    ended = make("image", f"IMAGE={os.getcwd()}/none", "BUILT=missing")
    missing = "image: there is no missing: 'make program' comes first"
    check(ended.returncode == 2 and missing in ended.stderr, f"{ended}")
    image = packed("first")
    check(image.read_bytes() == packed("again", umask=0o077).read_bytes(), "other bytes are packed the second time")
    parts = laid_out(image)
    configured(parts["config"])
    layered()
    (first,) = parts["index"]["manifests"]  # type: ignore[misc]
    done = read_by_others(image, first["annotations"]["org.opencontainers.image.ref.name"])
    root = Path("root").resolve()
    with tarfile.open("layer.tar") as tar:
        for entry in tar:
            entry.uid, entry.gid = os.geteuid(), os.getegid()
        tar.extractall(root, numeric_owner=True)
    if may_unshare():
        by_bwrap(root)
        left_out = "" if os.geteuid() == 0 else ", and only root may ask for its health there"
        done.append(f"bwrap runs it{left_out}")
    if may_run():
        by_runc()
        done.append("runc runs it")
    verifies(image)
    others = [it for it in ("skopeo", "umoci", "bwrap", "runc") if not any(say.startswith(it) for say in done)]
    left = f"; {', '.join(others)} cannot be run here" if others else ""
    print(f"image: twice the same, of one user, without a shell; {', '.join(done) or 'nothing was run'}{left}")


if __name__ == "__main__":
    with tempfile.TemporaryDirectory() as folder:
        os.chdir(folder)
        os.chmod(".", 0o755)
        main()
