"""A device on two hosts: the one that serves is cut off or killed while clients call, and the other takes over.

    python3 tests/mirror/mirror.py PROGRAM [ROUNDS [SEED]]

The hosts are two network namespaces with a cable between them. Each has a copy of the device. On the near one
qemu-storage-daemon writes both, as contrib/mirror has it, and ipcd serves the file that it offers by FUSE. In each
round the near host fails at a random moment: it is killed, or the cable is cut, or the far copy ends before. Then
contrib/mirror/ipcd-takeover runs on the far one, and the clients go to the server there. The near copy is made again
from the far one before the next round. The calls and the judge are those of tests/chaos: what was answered on one host
is there on the other, and nothing twice. Of six rounds three start the far server by contrib/ocf/ipcd, the agent of
Pacemaker, as another user. A fifth as many rounds, at least three, are on a device of version 2.

Two that are wrong have to be found out first: a mirror that answers when one copy has a write (a vote threshold of 1),
and a program that replies before its commit (tests/chaos/power.c makes it of the right one). It needs uid 0, ip and
nsenter, FUSE and qemu-storage-daemon; without one of them it says so, and without cc or runuser what it leaves out. It
takes some seven seconds a round.
"""

from __future__ import annotations

import os
import random
import shutil
import signal
import subprocess
import sys
import tempfile
import time
from contextlib import suppress
from pathlib import Path
from typing import NamedTuple

sys.dont_write_bytecode = True
HERE = Path(__file__).resolve().parent
sys.path[:0] = [str(HERE.parent / "chaos"), str(HERE.parents[1] / "examples")]

from checker import TooLarge, Wrong, judge  # noqa: E402
from client import Connection  # noqa: E402
from history import History  # noqa: E402
from lives import Auditor, Host, Refused  # noqa: E402
from load import LEDGERS, THINGS  # noqa: E402

PROGRAM = os.path.realpath(sys.argv[1])
ROUNDS = int(sys.argv[2]) if len(sys.argv) > 2 else 6
SEED = sys.argv[3] if sys.argv[3:4] not in ([], ["random"]) else str(random.randrange(2**32))
ROOT = HERE.parents[1]
TAKEOVER = ROOT / "contrib" / "mirror" / "ipcd-takeover"
AGENT = ROOT / "contrib" / "ocf" / "ipcd"
NEEDED = ["ip", "nsenter", "qemu-storage-daemon", "umount"]
NEAR, FAR, ADDRESS = f"ipcd-near-{os.getpid()}", f"ipcd-far-{os.getpid()}", "10.77.0."
FAILURES = ["killed", "cut", "far copy ends"]
TRIES = 3
FORMS = {2: [], 3: ["--journal", "257"]}
# How many microseconds pass between the replies and the writes of a program that is early.
SLOW = "5000"
# Who runs the server that the agent starts.
USER = "nobody"


class Kind(NamedTuple):
    """What is tried: a device of this version, a mirror that answers when so many copies have a write, a program with
    this wrong (a name of tests/chaos/power.c), and how the near host fails, by turns."""

    version: int
    threshold: int = 2
    wrong: str = ""
    failures: list[str] = FAILURES


# What has to be found out.
WRONG = [Kind(3, threshold=1, failures=FAILURES[2:]), Kind(3, wrong="early", failures=FAILURES[1::-1])]


def run(*words: str) -> None:
    subprocess.run(words, check=True, capture_output=True, text=True)


def namespaces() -> None:
    """The two hosts, and a cable."""
    for name in (NEAR, FAR):
        run("ip", "netns", "add", name)
    run("ip", "-n", NEAR, "link", "add", "cable", "type", "veth", "peer", "name", "cable", "netns", FAR)
    for number, name in ((1, NEAR), (2, FAR)):
        run("ip", "-n", name, "addr", "add", f"{ADDRESS}{number}/24", "dev", "cable")
        run("ip", "-n", name, "link", "set", "cable", "up")


def on(name: str, *words: str) -> subprocess.Popen[bytes]:
    return subprocess.Popen(["nsenter", f"--net=/run/netns/{name}", *words], stderr=subprocess.DEVNULL)


def until(condition, what: str, seconds: float = 20) -> None:
    end = time.monotonic() + seconds
    while not condition():
        if time.monotonic() > end:
            raise Refused(what)
        time.sleep(0.01)


def can_connect() -> bool:
    words = ["nsenter", f"--net=/run/netns/{NEAR}", "bash", "-c", f"exec 3<>/dev/tcp/{ADDRESS}2/10809"]
    return subprocess.run(words, capture_output=True).returncode == 0


def with_program() -> dict[str, str]:
    """The environment in which `ipcd` is the program."""
    return {**os.environ, "PATH": f"{Path(PROGRAM).parent}:{os.environ['PATH']}"}


class Pair(Host):
    """Both hosts, and the clients. The folder has the copies, `near` and `far`, and the file by FUSE, `device`."""

    def __init__(self, seed: str, kind: Kind) -> None:
        super().__init__(PROGRAM, seed, {}, kind.wrong)
        self.kind = kind
        self.daemons: dict[str, subprocess.Popen[bytes]] = {}
        self.took: list[float] = []
        self.by_agent = 0

    def mirror(self) -> None:
        """Both daemons, as the units of contrib/mirror start them."""
        words = ["qemu-storage-daemon", "--blockdev", "driver=file,node-name=copy,filename=far"]
        words += ["--nbd-server", f"addr.type=inet,addr.host={ADDRESS}2,addr.port=10809"]
        words += ["--export", "type=nbd,id=copy,node-name=copy,name=ipcd,writable=on"]
        self.daemons["far"] = on(FAR, *words)
        until(can_connect, "the far copy is not served")
        both = f"driver=quorum,node-name=both,vote-threshold={self.kind.threshold},children.0=near,children.1=far"
        far = f"driver=nbd,node-name=far,server.type=inet,server.host={ADDRESS}2,server.port=10809,export=ipcd"
        Path("device").touch()
        words = ["qemu-storage-daemon", "--blockdev", "driver=file,node-name=near,filename=near"]
        words += ["--blockdev", far, "--blockdev", both]
        words += ["--export", "type=fuse,id=device,node-name=both,mountpoint=device,writable=on"]
        self.daemons["near"] = on(NEAR, *words)
        until(lambda: Path("device").stat().st_size > 0, "no file is there by FUSE")

    def serve(self, device: str) -> None:
        """A server on the near host."""
        self.counts.lives += 1
        words = [PROGRAM, "serve", device, f"socket.{self.counts.lives}"]
        wrong = {"LD_PRELOAD": str(Path("power.so").resolve()), "POWER_DEVICE": "device", "POWER_LOG": "undo"}
        wrong |= {"POWER_WRONG": self.wrong, "POWER_SLOW": SLOW}
        given = os.environ | wrong if self.wrong and device == "device" else None
        with open("said", "w") as said:
            self.process = subprocess.Popen(words, stdout=subprocess.PIPE, stderr=said, text=True, env=given)
        if not self.process.stdout.readline().startswith("serving "):
            raise Refused(f"{device} is not served")
        self.shared.put(self.counts.lives)

    def fails(self) -> str:
        """The near host fails in the midst of calls, in each way in turn."""
        how = self.kind.failures[len(self.took) % len(self.kind.failures)]
        time.sleep(self.rng.uniform(0.5, 2.5))
        if how == "cut":
            run("ip", "-n", NEAR, "link", "set", "cable", "down")
        if how == "far copy ends":
            self.daemons["far"].kill()
        if how != "killed":
            time.sleep(self.rng.uniform(0.2, 1.5))
        if how == "far copy ends" and self.kind.threshold == 2:
            until(lambda: self.process.poll() is not None, "the server continues without the far copy")
            if (self.process.returncode, Path("said").read_text()) != (1, "ipcd: device fault\n"):
                raise Refused(f"without the far copy the server ends with {self.process.returncode}")
        return how

    def words(self) -> list[str]:
        """The takeover, with commands for what a manager of two hosts does: FENCE, STOP and START."""
        near, far = (self.daemons[it].pid for it in ("near", "far"))
        server = self.process.pid if self.process.poll() is None else ""
        fence = f"ip -n {NEAR} link set cable down && kill -9 {near} {server}"
        stop = f"kill {far} 2>&-; while kill -0 {far} 2>&-; do sleep 0.01; done"
        serve = f"setsid ipcd serve far socket.{self.counts.lives} > served 2>&1 & echo $! > pid"
        start = f"{serve}; until grep -q ^serving served; do sleep 0.01; done"
        # Each failure comes with both starts.
        if len(self.took) // len(FAILURES) % 2 and shutil.which("runuser"):
            self.by_agent += 1
            start = f"{AGENT} start"
        return ["timeout", "30", "sh", str(TAKEOVER), "far", fence, stop, start]

    def environment_of_far(self) -> dict[str, str]:
        """The environment in which `ipcd` is the program, and the agent has its parameters."""
        here = os.getcwd()
        given = {"binary": f"{here}/ipcd", "device": f"{here}/far", "socket": f"{here}/socket.{self.counts.lives}"}
        given |= {"user": USER, "pidfile": f"{here}/pid", "log": f"{here}/served"}
        found = with_program() | {f"OCF_RESKEY_{name}": text for name, text in given.items()}
        found |= {"OCF_ROOT": "/usr/lib/ocf", "OCF_FUNCTIONS_DIR": str(ROOT / "tests" / "lib")}
        return found | {"OCF_RESOURCE_INSTANCE": "test", "HA_RSCTMP": here}

    def take_over(self) -> None:
        """The script runs on the far host."""
        self.counts.lives += 1
        Path("served").unlink(missing_ok=True)
        begun = time.monotonic()
        far = subprocess.Popen(
            self.words(), env=self.environment_of_far(), stdout=subprocess.PIPE, stderr=subprocess.PIPE, text=True
        )
        # Who has ended is there until somebody waits for it.
        for process in (self.daemons["far"], self.daemons["near"], self.process):
            process.wait()
        # Up to here the clients call.
        self.shared.put(0)
        output, errors = far.communicate()
        self.took.append(time.monotonic() - begun)
        self.process.stdout.close()
        subprocess.run(["umount", "-l", "device"], capture_output=True)
        if far.returncode or not output.startswith("fit to be served: "):
            raise Refused(f"the takeover ends with {far.returncode}: {output!r} {errors!r}")
        self.shared.put(self.counts.lives)

    def stop_far(self) -> None:
        """The server of the far host is killed."""
        os.kill(int(Path("pid").read_text()), signal.SIGKILL)
        self.shared.put(0)
        time.sleep(0.1)

    def one_round(self) -> str:
        """Near, a failure, far; and then both copies are alike again."""
        run("ip", "-n", NEAR, "link", "set", "cable", "up")
        self.mirror()
        self.serve("device")
        self.more_clients()
        how = self.fails()
        self.take_over()
        time.sleep(self.rng.uniform(0.3, 1.0))
        self.stop_far()
        shutil.copyfile("far", "near")
        return how

    def audit(self, folder: Path) -> None:
        self.kill_clients()
        self.serve("far")
        history = os.open(folder / "history.0", os.O_WRONLY | os.O_CREAT | os.O_APPEND, 0o600)
        auditor = Auditor(0, 0, self.seed, self.shared, history)
        with Connection(f"socket.{self.counts.lives}", 20) as connection:
            auditor.begin(connection, self.counts.lives)
            for thing in THINGS + LEDGERS:
                auditor.audit(connection, thing)
        os.close(history)

    def off(self) -> None:
        """Nothing of it runs any more."""
        self.close()
        for process in self.daemons.values():
            process.kill()
            process.wait()
        with suppress(OSError, ValueError):
            os.kill(int(Path("pid").read_text()), signal.SIGKILL)
        subprocess.run(["umount", "-l", "device"], capture_output=True)


def refuses() -> None:
    """A takeover ends before its START if the fence or the stop fails, or the copy is not fit to be served."""
    with tempfile.TemporaryDirectory() as folder:
        os.chdir(folder)
        subprocess.run([PROGRAM, "format", "copy", "--small"], check=True, stdout=subprocess.DEVNULL)
        Path("empty").touch()
        for given in ("copy false true", "copy true false", "empty true true", "none true true"):
            words = ["sh", str(TAKEOVER), *given.split(), "touch started"]
            ended = subprocess.run(words, env=with_program(), capture_output=True)
            if ended.returncode != 1 or Path("started").exists():
                sys.exit(f"mirror: a takeover with {given} ends with {ended}")
        os.chdir("/")


def make_files(kind: Kind) -> None:
    """Two copies that are alike, and what the agent's user needs: it has the far one, and reaches the program."""
    subprocess.run([PROGRAM, "format", "near", *FORMS[kind.version]], check=True, stdout=subprocess.DEVNULL)
    shutil.copyfile("near", "far")
    shutil.copy(PROGRAM, "ipcd")
    os.chmod(".", 0o1777)
    shutil.chown("far", USER)
    if kind.wrong:
        library = ROOT / "tests" / "chaos" / "power.c"
        subprocess.run(["cc", "-shared", "-fPIC", "-o", "power.so", str(library)], check=True)


def lives(pair: Pair, rounds: int, hows: list[str]) -> str:
    """So many rounds, and the last read: why they did not come to their end."""
    try:
        for _ in range(rounds):
            hows.append(pair.one_round())
        pair.audit(Path.cwd())
    except Refused as refusal:
        return f"refused: {refusal}"
    finally:
        pair.off()
    return ""


def judged(pair: Pair, history: History) -> str:
    try:
        judge(history.lives(pair.counts.lives), history.hellos, pair.kind.version == 3, set(LEDGERS))
    except Wrong:
        return "wrong"
    except TooLarge as fault:
        return f"not judged: {fault}"
    return "as promised"


def tried(seed: str, kind: Kind, rounds: int) -> str:
    """So many rounds, and what the judge says of them."""
    with tempfile.TemporaryDirectory(dir="/var/tmp") as folder:
        os.chdir(folder)
        make_files(kind)
        pair = Pair(f"{seed} {kind.version} {kind.threshold} {kind.wrong}", kind)
        hows: list[str] = []
        verdict = lives(pair, rounds, hows)
        history = History(Path(folder), pair.counts.killed)
        os.chdir("/")
    verdict = verdict or judged(pair, history)
    counts = ", ".join(f"{hows.count(it)} {it}" for it in FAILURES)
    took = f"takeovers take {min(pair.took):.2f} to {max(pair.took):.2f} s" if pair.took else "no takeover"
    took += f", {pair.by_agent} of them by the agent" if pair.by_agent else ""
    head = f"mirror: version {kind.version}, threshold {kind.threshold}{kind.wrong and ', ' + kind.wrong}"
    print(f"{head}, {len(hows)} rounds ({counts}), {history.replies} replies, {took}; {verdict}", flush=True)
    if kind not in WRONG and history.replies < 20 * rounds:
        sys.exit("mirror: too few replies to show anything")
    return verdict


def find_wrong_ones() -> None:
    for kind in WRONG:
        if kind.wrong and shutil.which("cc") is None:
            print(f"mirror: there is no cc here, so the program {kind.wrong} is left out")
        elif not any(tried(f"{SEED} {it}", kind, 2) == "wrong" for it in range(TRIES)):
            sys.exit(f"mirror: {kind.wrong or 'a mirror that answers for one copy'} is not found out")


def main() -> None:
    missing = [it for it in NEEDED if shutil.which(it) is None]
    missing += [] if os.access("/dev/fuse", os.W_OK) else ["FUSE"]
    missing += [] if os.getuid() == 0 else ["uid 0"]
    if missing:
        print(f"mirror: without {', '.join(missing)} there are no two hosts: left out")
        return
    if shutil.which("runuser") is None:
        print("mirror: there is no runuser here, so no server is started by the agent of Pacemaker")
    print(f"mirror: seed {SEED}", flush=True)
    refuses()
    try:
        namespaces()
        find_wrong_ones()
        for version, rounds in ((3, ROUNDS), (2, max(3, ROUNDS // 5))):
            verdict = tried(SEED, Kind(version), rounds)
            if verdict != "as promised":
                sys.exit(f"mirror: not as promised: {verdict}")
    finally:
        for name in (NEAR, FAR):
            subprocess.run(["ip", "netns", "del", name], capture_output=True)


if __name__ == "__main__":
    main()
