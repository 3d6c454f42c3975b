"""The package as pip installs it: what that leaves in the sources, the command `ipcdctl`, and which names are public.

    python3 clients/python/tests/packaged.py PROGRAM

pip needs no network for it, but setuptools has to be here: without it this says so.
"""

from __future__ import annotations

import importlib
import os
import shutil
import subprocess
import sys
from pathlib import Path
from types import ModuleType

import setting
import ipcd
from ipcd import Connection
from server import check, in_a_folder, printed, run_tests, serving

MODULES = ["__main__", "aio", "connection", "listing", "notifier", "posix_ipc", "session", "stream", "sysv_ipc", "top"]
MODULES += ["wire"]
# What a connection has beside the calls: how it begins and ends, and how frames pass.
OF_STREAM = {
    *("answer", "call", "close", "closed", "fileno", "has_ended", "has_notification", "interrupt", "next_reply"),
    *("notification", "receive", "send", "settle", "wait_for_bytes", "hello", "version"),
}
CALLS = ("attached_", "ftruncate", "mq_", "msg", "sem", "shm")


def tree() -> set[str]:
    return {str(it.relative_to(setting.PACKAGE)) for it in setting.PACKAGE.rglob("*") if "__pycache__" not in it.parts}


def has_tools(python: str) -> bool:
    """Whether a Python has what builds a package."""
    line = [python, "-c", "import setuptools, wheel, pip"]
    return os.path.exists(python) and subprocess.run(line, capture_output=True).returncode == 0


def nothing_is_left() -> None:
    """`pip install` leaves the sources as they were, and the command works where it is installed."""
    python = next(filter(has_tools, (sys.executable, "/usr/bin/python3")), None)
    if python is None:
        print("packaged: pip, setuptools or wheel is not here, so nothing was installed")
        return
    words = [python, "-m", "pip", "install", "-q", "--no-build-isolation", "--no-deps", "--no-index"]
    sources = Path("sources")
    shutil.copytree(setting.PACKAGE, sources, ignore=shutil.ignore_patterns("__pycache__", "build", "*.egg-info"))
    before = sorted(str(it) for it in sources.rglob("*"))
    # The version of pip that is on a machine may warn of a later one, or of uid 0.
    ended = subprocess.run([*words, "--target", "installed", "./sources"], capture_output=True, text=True)
    check(ended.returncode == 0, f"{ended}")
    after = sorted(str(it) for it in sources.rglob("*") if "__pycache__" not in it.parts)
    check(after == before, f"{set(after) ^ set(before)} is left")
    printed("format", "device")
    with serving():
        here = {**os.environ, "PYTHONPATH": os.path.abspath("installed"), "IPCD_SOCKET": "socket"}
        for line, wanted in (
            (["--version"], f"ipcd {ipcd.__version__}\n"),
            (["send", "-Q", "7", "--create", "hi"], ""),
            (["receive", "-Q", "7"], "hi"),
        ):
            ended = subprocess.run(["installed/bin/ipcdctl", *line], capture_output=True, text=True, env=here)
            check((ended.returncode, ended.stdout, ended.stderr) == (0, wanted, ""), f"{line}: {ended}")
        ended = subprocess.run(["installed/bin/ipcdctl", "--help"], capture_output=True, text=True, env=here)
        check(ended.stdout.startswith("usage: ipcdctl "), f"{ended}")


def names_are_meant() -> None:
    """Each public name of a module is one that it defines, or one of the package that it hands on; and a connection has
    the calls, and what docs/PROTOCOL.md tells of frames, in public."""
    for module in [ipcd, *(importlib.import_module(f"ipcd.{name}") for name in [*MODULES, "work"])]:
        check(hasattr(module, "__all__"), f"{module.__name__} has no __all__")
        for name in module.__all__:
            thing = getattr(module, name)
            of = getattr(thing, "__module__", "ipcd")
            check(not isinstance(thing, ModuleType), f"{module.__name__}.{name} is a module")
            check(of.startswith("ipcd") or of in ("builtins", "typing"), f"{module.__name__}.{name} is of {of}")
        check(len(set(module.__all__)) == len(module.__all__), f"a name stands twice in {module.__name__}")
    requests = [name for name in vars(importlib.import_module("ipcd.wire")) if name.endswith("_request")]
    check(set(requests) <= set(ipcd.__all__), f"{set(requests) - set(ipcd.__all__)} is not public")
    public = {name for name in dir(Connection) if not name.startswith("_")}
    others = {name for name in public - OF_STREAM if not name.startswith(CALLS)}
    check(others == set() and OF_STREAM <= public, f"{others}, {OF_STREAM - public}")


def main() -> None:
    run_tests("packaged", [nothing_is_left, names_are_meant])


if __name__ == "__main__":
    os.environ["PYTHONDONTWRITEBYTECODE"] = "1"
    with in_a_folder(600):
        main()
