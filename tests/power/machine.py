"""A virtual machine with one disk: what it boots from, and its lives. Each begins from the memory of a machine that had
not seen its disk yet, so that a boot takes a moment also where a processor is emulated."""

from __future__ import annotations

import json
import os
import re
import select
import shutil
import socket
import subprocess
import time
from pathlib import Path

HERE = Path(__file__).resolve().parent
QEMU = "qemu-system-x86_64"
LOADED = ["virtio_pci", "virtio_ring", "crc32c_generic", "crc32c-intel", "xfs", "btrfs"]
LOADED += ["blake2b_generic", "xxhash_generic", "sha256_generic"]
LAST = ["virtio_blk"]
DEPENDS = re.compile(rb"depends=([\w,-]*)\0")


class Fails(Exception):
    """The machine did what it should not."""


def kernel_of(root: Path) -> tuple[Path, Path] | None:
    """A kernel below a folder, the newest, and its modules."""
    for kernel in sorted(root.glob("boot/vmlinuz-*"), reverse=True):
        modules = root / "lib/modules" / kernel.name.removeprefix("vmlinuz-")
        if modules.is_dir():
            return kernel, modules
    return None


def with_depends(names: list[str], modules: dict[str, Path]) -> list[str]:
    """These modules and those that they need, each after what it needs. What the kernel has built in is no module."""
    found: list[str] = []

    def add(name: str) -> None:
        name = name.replace("-", "_")
        if name in found or name not in modules:
            return
        needs = DEPENDS.search(modules[name].read_bytes())
        for other in needs[1].decode().split(",") if needs else []:
            add(other)
        found.append(name)

    for name in names:
        add(name)
    return found


def libraries_of(program: Path) -> list[Path]:
    """What the program is linked with."""
    ended = subprocess.run(["ldd", str(program)], capture_output=True, text=True)
    return [Path(it) for it in re.findall(r"(/\S+) \(0x", ended.stdout)]


def pack(folder: Path, program: Path, sender: Path, library: Path, modules: Path) -> Path:
    """The first file system of the machine, in memory."""
    root = folder / "root"
    for name in ("bin", "dev", "proc", "sys", "run", "mnt", "modules"):
        (root / name).mkdir(parents=True)
    shutil.copy(shutil.which("busybox"), root / "bin/busybox")
    shutil.copy(program, root / "bin/ipcd")
    shutil.copy(sender, root / "bin/sender")
    shutil.copy(library, root / "power.so")
    shutil.copy(HERE / "init.sh", root / "init")
    os.chmod(root / "init", 0o755)
    for library in libraries_of(program):
        to = root / str(library).lstrip("/")
        to.parent.mkdir(parents=True, exist_ok=True)
        shutil.copy(library, to)
    there = {it.stem.replace("-", "_"): it for it in modules.rglob("*.ko")}
    first = with_depends(LOADED, there)
    for file, needed in (("first", first), ("last", [it for it in with_depends(LAST, there) if it not in first])):
        for name in needed:
            shutil.copy(there[name], root / "modules" / name)
        (root / "modules" / file).write_text("".join(f"{it}\n" for it in needed))
    image = folder / "first.cpio"
    listed = subprocess.run(["find", "."], cwd=root, capture_output=True, check=True).stdout
    with open(image, "wb") as file:
        subprocess.run(["cpio", "-o", "-H", "newc", "--quiet"], cwd=root, input=listed, stdout=file, check=True)
    return image


class Machine:
    """A machine that runs. Its lines come over a serial line."""

    def __init__(self, kernel: Path, image: Path, drive: str, state: Path | None) -> None:
        words = [QEMU, "-accel", "tcg", "-m", "512", "-nodefaults", "-display", "none", "-no-reboot"]
        words += ["-serial", "stdio"]
        words += ["-kernel", str(kernel), "-initrd", str(image), "-append", "console=ttyS0 quiet panic=-1"]
        words += ["-drive", f"id=disk,if=none,format=raw,{drive}", "-device", "virtio-blk-pci,drive=disk"]
        words += ["-qmp", "unix:qmp,server=on,wait=off"]
        words += ["-incoming", f"exec:cat {state}"] if state else []
        self.process = subprocess.Popen(words, stdin=subprocess.PIPE, stdout=subprocess.PIPE, stderr=subprocess.STDOUT)
        self.rest = b""

    def say(self, line: str) -> None:
        self.process.stdin.write(line.encode() + b"\n")
        self.process.stdin.flush()

    def line(self, end: float) -> str | None:
        """Its next line, or nothing at this moment of time.monotonic, or at the end of the machine."""
        while b"\n" not in self.rest:
            left = end - time.monotonic()
            if left <= 0 or not select.select([self.process.stdout], [], [], left)[0]:
                return None
            data = os.read(self.process.stdout.fileno(), 65536)
            if not data:
                return None
            self.rest += data
        line, _, self.rest = self.rest.partition(b"\n")
        return line.decode(errors="replace").strip("\r")

    def until(self, wanted: str, seconds: float) -> list[str]:
        """The lines up to this one."""
        lines = []
        end = time.monotonic() + seconds
        while (line := self.line(end)) is not None:
            lines.append(line)
            if line == wanted:
                return lines
            if line.startswith("end:"):
                break
        raise Fails(f"the machine does not say {wanted!r}: {lines[-5:]}")

    def kill(self) -> list[str]:
        """Ends it at once. The lines that it had sent before."""
        self.process.kill()
        self.process.wait()
        lines = []
        while (line := self.line(time.monotonic() + 5)) is not None:
            lines.append(line)
        self.process.stdin.close()
        self.process.stdout.close()
        return lines

    def keep_memory(self, state: Path) -> None:
        """Writes the memory of the machine into a file, and ends it."""
        with socket.socket(socket.AF_UNIX) as monitor:
            monitor.connect("qmp")
            words = monitor.makefile("rw")
            self.ask(words, "qmp_capabilities")
            self.ask(words, "migrate", uri=f"exec:cat > {state}")
            end = time.monotonic() + 120
            while (found := self.ask(words, "query-migrate").get("status")) != "completed":
                if found == "failed" or time.monotonic() > end:
                    raise Fails(f"the memory of the machine is not kept: {found}")
                time.sleep(0.2)
        self.kill()

    @staticmethod
    def ask(words, name: str, **arguments: str) -> dict:
        words.write(json.dumps({"execute": name, "arguments": arguments}) + "\n")
        words.flush()
        while True:
            found = json.loads(words.readline())
            if "error" in found:
                raise Fails(f"{name}: {found['error']}")
            if "return" in found:
                return found["return"]
