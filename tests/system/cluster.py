"""The resource agent for Pacemaker, contrib/ocf/ipcd: its actions, as a manager of a cluster calls them.

    python3 tests/system/cluster.py PROGRAM

It needs uid 0, since the agent runs the server as another user; else it says so. It uses the functions of the Open
Cluster Framework if they are here, and those of tests/lib/ocf-shellfuncs too. ocf-tester has its say where it is here.
It takes some seconds.
"""

from __future__ import annotations

import os
import shutil
import signal
import subprocess
import sys
import xml.etree.ElementTree as tree
from pathlib import Path

sys.dont_write_bytecode = True
sys.path.insert(0, str(Path(__file__).resolve().parents[1] / "lib"))

from server import PROGRAM, TIMEOUT, Connection, check, in_a_folder, run_tests, until  # noqa: E402

from client import IPC_CREAT

ROOT = Path(__file__).resolve().parents[2]
AGENT = ROOT / "contrib" / "ocf" / "ipcd"
INSTALLED = Path("/usr/lib/ocf/lib/heartbeat")
# Numbers of the framework.
SUCCESS, GENERIC, UNIMPLEMENTED, NOT_INSTALLED, CONFIGURED, NOT_RUNNING = 0, 1, 3, 5, 6, 7
USER = "nobody"

functions = ROOT / "tests" / "lib"


def own() -> dict[str, str]:
    """The parameters of the agent here: the program is a copy that the other user reaches."""
    here = os.getcwd()
    return {
        "binary": f"{here}/ipcd",
        "device": f"{here}/device",
        "socket": f"{here}/run/socket",
        "user": USER,
        "pidfile": f"{here}/pid",
        "log": f"{here}/log",
    }


def act(action: str, wanted: int, interval: str = "10000", **others: str) -> str:
    """The agent does this and ends with this number: what it says."""
    parameters = {f"OCF_RESKEY_{name}": text for name, text in (own() | others).items()}
    environment = os.environ | parameters | {
        "OCF_ROOT": "/usr/lib/ocf",
        "OCF_FUNCTIONS_DIR": str(functions),
        "OCF_RESOURCE_INSTANCE": "test",
        "OCF_RESKEY_CRM_meta_interval": interval,
        "HA_RSCTMP": os.getcwd(),
    }
    ended = subprocess.run([AGENT, action], env=environment, capture_output=True, text=True, timeout=TIMEOUT)
    check(ended.returncode == wanted, f"{action}: {ended}, and not {wanted}")
    return ended.stdout + ended.stderr


def server() -> int:
    return int(Path("pid").read_text())


def has_ended(pid: int) -> bool:
    try:
        return not os.readlink(f"/proc/{pid}/exe").endswith("/ipcd")
    except OSError:
        return True


def names_the_device(process: Path) -> bool:
    try:
        return own()["device"] in (process / "cmdline").read_text()
    except OSError:
        return False


def new_device() -> None:
    subprocess.run(["./ipcd", "format", "device", "--small"], check=True, stdout=subprocess.DEVNULL, timeout=TIMEOUT)
    shutil.chown("device", USER)


def describes_itself() -> None:
    """Each action and each parameter is named, with a text."""
    said = tree.fromstring(act("meta-data", SUCCESS).partition("?>")[2])
    check(said.get("name") == "ipcd", f"it is {said.get('name')}")
    actions = {it.get("name") for it in said.iter("action")}
    check(actions == {"start", "stop", "monitor", "meta-data", "validate-all"}, f"{actions}")
    check(all(it.get("timeout") for it in said.iter("action")), "an action has no timeout")
    parameters = {it.get("name") for it in said.iter("parameter")}
    check(parameters == set(own()) | {"umask"}, f"{parameters}")
    texts = [it.text for name in ("longdesc", "shortdesc") for it in said.iter(name)]
    check(len(texts) == 2 * (len(parameters) + 1) and all(texts), "a text is missing")
    act("promote", UNIMPLEMENTED)


def before_there_is_a_device() -> None:
    """A probe on a machine that has not mounted the volume finds the resource stopped, and a start is refused."""
    act("monitor", NOT_RUNNING, interval="0")
    act("stop", SUCCESS)
    act("validate-all", NOT_INSTALLED)
    check("there is no device" in act("start", NOT_INSTALLED), "it gives another reason")


def keeps_a_message_over_a_crash() -> None:
    """Start, a second start, a monitor, a crash, and a start after it, which removes the socket that was left."""
    new_device()
    act("validate-all", SUCCESS)
    act("start", SUCCESS)
    first = server()
    act("start", SUCCESS)
    check(server() == first, "a second start has started another server")
    act("monitor", SUCCESS)
    with Connection("run/socket", timeout=TIMEOUT) as client:
        client.hello(0, 0)
        queue = client.msgget(7, IPC_CREAT | 0o600)
        client.msgsnd(queue, 5, b"kept")
    os.kill(first, signal.SIGKILL)
    until(lambda: has_ended(first), "the server has not ended")
    act("monitor", NOT_RUNNING)
    check(os.path.exists("run/socket"), "the crash has left no socket")
    act("start", SUCCESS)
    with Connection("run/socket", timeout=TIMEOUT) as client:
        client.hello(0, 0)
        check(client.msgrcv(client.msgget(7, 0), 64) == (5, b"kept"), "the message is another one")
    owner = os.stat("run/socket")
    check(owner.st_uid != 0 and owner.st_mode & 0o777 == 0o770, f"the socket is {owner}")
    second = server()
    act("stop", SUCCESS)
    check(has_ended(second) and not os.path.exists("run/socket"), "something is left after a stop")
    act("stop", SUCCESS)
    act("monitor", NOT_RUNNING)


def stops_what_does_not_end() -> None:
    """A server that stands still takes no SIGTERM, and is killed."""
    act("start", SUCCESS)
    pid = server()
    os.kill(pid, signal.SIGSTOP)
    act("stop", SUCCESS)
    check(has_ended(pid), "it runs")
    left = [it for it in Path("/proc").glob("[0-9]*") if names_the_device(it)]
    check(not left, f"these processes are left: {left}")


def sees_a_socket_that_is_gone() -> None:
    """A server whom no client can reach is a fault, which a start mends."""
    act("start", SUCCESS)
    first = server()
    os.remove("run/socket")
    check("nobody accepts" in act("monitor", GENERIC), "it gives another reason")
    act("start", SUCCESS)
    act("monitor", SUCCESS)
    check(server() != first and has_ended(first), "the first server runs")
    act("stop", SUCCESS)


def leaves_another_process_alone() -> None:
    """The pid of the file may be another program's by now."""
    with subprocess.Popen(["sleep", "60"]) as other:
        Path("pid").write_text(f"{other.pid}\n")
        act("monitor", NOT_RUNNING)
        act("stop", SUCCESS)
        check(other.poll() is None, "another process was stopped")
        other.kill()


def refuses() -> None:
    """A device that another server has, one that is none, an unknown user, and a path that is too long."""
    act("start", SUCCESS)
    here = os.getcwd()
    second = {"pidfile": f"{here}/pid.2", "socket": f"{here}/run.2/socket", "log": f"{here}/log.2"}
    check("ipcd: device fault" in act("start", GENERIC, **second), "it gives another reason")
    act("monitor", NOT_RUNNING, **second)
    act("monitor", SUCCESS)
    act("stop", SUCCESS, **second)
    act("monitor", SUCCESS)
    act("stop", SUCCESS)
    Path("zeros").write_bytes(bytes(699392))
    shutil.chown("zeros", USER)
    check("ipcd: not formatted" in act("start", GENERIC, device=f"{here}/zeros"), "it gives another reason")
    act("start", NOT_INSTALLED, user="nobody-of-this-name")
    act("start", NOT_INSTALLED, binary=f"{here}/missing")
    act("start", CONFIGURED, socket="/" + 107 * "s")


def by_the_framework() -> None:
    """The same with the installed functions, and what their own tester says."""
    global functions
    if not (INSTALLED / "ocf-shellfuncs").exists():
        print("cluster: resource-agents is not installed, so its own functions and ocf-tester are left out")
        return
    functions = INSTALLED
    describes_itself()
    keeps_a_message_over_a_crash()
    refuses()
    if shutil.which("ocf-tester") is None:
        print("cluster: there is no ocf-tester, so it is left out")
        return
    words = [word for name, text in own().items() for word in ("-o", f"{name}={text}")]
    ended = subprocess.run(["ocf-tester", "-n", "test", *words, AGENT], capture_output=True, text=True, timeout=120)
    check(ended.returncode == 0 and "passed all tests" in ended.stdout, f"{ended}")


def main() -> None:
    if os.getuid() != 0 or shutil.which("setpriv") is None:
        print("cluster: it needs uid 0 and setpriv, so the agent for Pacemaker is not tested")
        return
    with in_a_folder(240):
        os.chmod(".", 0o755)
        shutil.copy(PROGRAM, "ipcd")
        try:
            run_tests(
                "cluster",
                [describes_itself, before_there_is_a_device, keeps_a_message_over_a_crash, stops_what_does_not_end,
                 sees_a_socket_that_is_gone, leaves_another_process_alone, refuses, by_the_framework],
            )  # fmt: skip
        finally:
            for pid in [int(it.read_text() or 0) for it in (Path("pid"), Path("pid.2")) if it.exists()]:
                if not has_ended(pid):
                    os.kill(pid, signal.SIGKILL)


if __name__ == "__main__":
    main()
