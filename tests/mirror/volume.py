"""A device on a volume of GlusterFS that three hosts keep: the host that serves fails, and another takes over.

    python3 tests/mirror/volume.py PROGRAM [ROUNDS [SEED]]

The hosts are network namespaces with a switch between them. Each has a copy of the volume (replica 3), and the near and
the far one have mounted it. In each round the near host is killed or its cable is cut; before some, the third host ends
for a while and comes back. Then contrib/mirror/ipcd-takeover runs on the far one. Calls and judge are those of
tests/chaos, as in mirror.py. The lock of the device is the volume's: while the near host has it, no other can serve, so
each takeover waits until the volume has given up what a dead host held.

A program that replies before its commit has to be found out first. It needs uid 0, ip, nsenter, unshare, FUSE and
glusterd; without one of them it says so, and without cc it leaves the wrong program out.
"""

from __future__ import annotations

import os
import shutil
import signal
import subprocess
import sys
import tempfile
import time
from contextlib import suppress
from pathlib import Path

sys.dont_write_bytecode = True
sys.path.insert(0, str(Path(__file__).resolve().parent))

import mirror  # noqa: E402
from mirror import FORMS, PROGRAM, ROUNDS, SEED, Kind, Pair, Refused, judged, lives, run, until  # noqa: E402

NEEDED = ["ip", "nsenter", "unshare", "umount", "glusterd", "gluster", "glusterfs"]
SWITCH, ADDRESS = f"ipcd-switch-{os.getpid()}", "10.78.0."
NEAR, FAR, THIRD = 1, 2, 3
FAILURES = ["killed", "cut", "third away"]
# After so many seconds without an answer a host counts as gone, and what it has locked is free.
GONE = 4
OPTIONS = {"network.ping-timeout": GONE, "server.tcp-user-timeout": GONE, "client.tcp-user-timeout": GONE}


def name(host: int) -> str:
    return f"ipcd-volume-{host}-{os.getpid()}"


def namespaces() -> None:
    """Three hosts at a switch."""
    run("ip", "netns", "add", SWITCH)
    run("ip", "-n", SWITCH, "link", "add", "name", "switch", "type", "bridge")
    run("ip", "-n", SWITCH, "link", "set", "switch", "up")
    for host in (NEAR, FAR, THIRD):
        run("ip", "netns", "add", name(host))
        words = ["link", "add", "cable", "type", "veth", "peer", "name", f"port{host}", "netns", SWITCH]
        run("ip", "-n", name(host), *words)
        run("ip", "-n", SWITCH, "link", "set", f"port{host}", "master", "switch", "up")
        run("ip", "-n", name(host), "addr", "add", f"{ADDRESS}{host}/24", "dev", "cable")
        for device in ("lo", "cable"):
            run("ip", "-n", name(host), "link", "set", device, "up")


def pids_of(host: int) -> list[int]:
    return [int(it) for it in subprocess.check_output(["ip", "netns", "pids", name(host)], text=True).split()]


class Volume(Pair):
    """The hosts and the clients. `device` is the file as the near host sees it, `far` as the far one does."""

    def __init__(self, seed: str, kind: Kind) -> None:
        super().__init__(seed, kind)
        self.managers: dict[int, subprocess.Popen[bytes]] = {}

    # ---- hosts

    def start_host(self, host: int) -> None:
        """Its manager, which starts what it keeps of the volume."""
        here = Path.cwd() / f"host{host}"
        for part in ("lib", "log", "copy"):
            (here / part).mkdir(parents=True, exist_ok=True)
        own = f"mount --bind {here}/lib /var/lib/glusterd && mount --bind {here}/log /var/log/glusterfs"
        own += " && mount -t tmpfs run /run && mkdir /run/gluster && exec glusterd -N"
        words = ["nsenter", f"--net=/run/netns/{name(host)}", "unshare", "-m", "--propagation", "private"]
        self.managers[host] = subprocess.Popen([*words, "sh", "-c", own], stderr=subprocess.DEVNULL)

    def kill_host(self, host: int) -> None:
        while pids := pids_of(host):
            for pid in pids:
                with suppress(ProcessLookupError):
                    os.kill(pid, signal.SIGKILL)
            if host in self.managers:
                self.managers.pop(host).wait()
            time.sleep(0.01)

    def ask(self, host: int, *words: str) -> str:
        """A command of the manager: what it prints, or nothing if it fails."""
        inside = ["nsenter", "-t", str(self.managers[host].pid), "-m", "-n", "gluster", "--mode=script", *words]
        ended = subprocess.run(inside, capture_output=True, text=True)
        return ended.stdout if ended.returncode == 0 else ""

    def has(self, host: int) -> None:
        """The host has mounted the volume."""
        Path(f"mount{host}").mkdir(exist_ok=True)
        words = ["nsenter", f"--net=/run/netns/{name(host)}", "glusterfs", f"--volfile-server={ADDRESS}{host}"]
        words += ["--volfile-id=ipcd", f"--log-file={Path.cwd()}/host{host}/log/mount.log", f"mount{host}"]
        until(lambda: subprocess.run(words, capture_output=True).returncode == 0, "the volume is not mounted")

    def is_whole(self) -> bool:
        """Whether each copy is there and has all that the others have."""
        told = self.ask(FAR, "volume", "heal", "ipcd", "info")
        return told.count("Status: Connected") == 3 and told.count("Number of entries: 0") == 3

    def make(self) -> None:
        for host in (NEAR, FAR, THIRD):
            self.start_host(host)
        for host in (FAR, THIRD):
            until(lambda it=host: self.ask(NEAR, "peer", "probe", f"{ADDRESS}{it}"), "a host is no peer")
        until(lambda: self.ask(NEAR, "peer", "status").count("Peer in Cluster (Connected)") == 2, "there are no peers")
        copies = [f"{ADDRESS}{host}:{Path.cwd()}/host{host}/copy" for host in (NEAR, FAR, THIRD)]
        words = ["volume", "create", "ipcd", "replica", "3", *copies, "force"]
        until(lambda: self.ask(NEAR, *words), "there is no volume")
        for option, seconds in OPTIONS.items():
            self.ask(NEAR, "volume", "set", "ipcd", option, str(seconds))
        until(lambda: self.ask(NEAR, "volume", "start", "ipcd"), "the volume does not start")
        until(self.is_whole, "the copies are not there", 60)
        for host in (NEAR, FAR):
            self.has(host)
        Path("device").symlink_to("mount1/device")
        Path("far").symlink_to("mount2/device")
        subprocess.run([PROGRAM, "format", "device", *FORMS[self.kind.version]], check=True, stdout=subprocess.DEVNULL)

    # ---- rounds

    def is_locked(self) -> None:
        """While the near host serves, the far one cannot."""
        ended = subprocess.run([PROGRAM, "serve", "far", "no.socket"], capture_output=True, text=True, timeout=30)
        if (ended.returncode, ended.stderr) != (1, "ipcd: device fault\n"):
            raise Refused(f"beside the near server the far one ends with {ended.returncode}: {ended.stderr!r}")

    def fails(self) -> str:
        how = self.kind.failures[len(self.took) % len(self.kind.failures)]
        time.sleep(self.rng.uniform(0.5, 2.5))
        if how == "third away":
            self.kill_host(THIRD)
            time.sleep(self.rng.uniform(0.5, 2.0) + GONE)
            self.start_host(THIRD)
            until(self.is_whole, "the third copy is not made whole", 60)
        if how == "cut":
            run("ip", "-n", SWITCH, "link", "set", "port1", "down")
            time.sleep(self.rng.uniform(0.2, 1.5))
        elif self.process.poll() is not None:
            raise Refused("the near server has ended")
        return how

    def words(self) -> list[str]:
        """The takeover. A start is tried again while the volume holds the lock of the dead host."""
        server = self.process.pid if self.process.poll() is None else ""
        # One may end by itself between the list and the kill.
        fence = f"ip -n {SWITCH} link set port1 down && kill -9 {server} 2>&-; p='ip netns pids {name(NEAR)}'"
        fence += '; while [ -n "$($p)" ]; do kill -9 $($p) 2>&-; sleep 0.01; done'
        serve = f"setsid ipcd serve far socket.{self.counts.lives} > served 2>&1 & echo $! > pid"
        once = f"{serve}; until grep -q . served; do sleep 0.01; done"
        start = f"while {once}; ! grep -q ^serving served; do rm -f socket.{self.counts.lives}; sleep 0.2; done"
        return ["timeout", "90", "sh", str(mirror.TAKEOVER), "far", fence, "true", start]

    def take_over(self) -> None:
        self.counts.lives += 1
        Path("served").unlink(missing_ok=True)
        begun = time.monotonic()
        pipe = subprocess.PIPE
        far = subprocess.Popen(self.words(), env=mirror.with_program(), stdout=pipe, stderr=pipe, text=True)
        self.process.wait()
        # Up to here the clients call.
        self.shared.put(0)
        output, errors = far.communicate()
        self.took.append(time.monotonic() - begun)
        self.process.stdout.close()
        self.kill_host(NEAR)
        subprocess.run(["umount", "-l", "mount1"], capture_output=True)
        if far.returncode or not output.startswith("fit to be served: "):
            raise Refused(f"the takeover ends with {far.returncode}: {output!r} {errors!r}")
        self.shared.put(self.counts.lives)

    def one_round(self) -> str:
        self.serve("device")
        self.is_locked()
        self.more_clients()
        how = self.fails()
        self.take_over()
        time.sleep(self.rng.uniform(0.3, 1.0))
        self.stop_far()
        run("ip", "-n", SWITCH, "link", "set", "port1", "up")
        self.start_host(NEAR)
        until(self.is_whole, "the near copy is not made whole", 90)
        self.has(NEAR)
        return how

    def off(self) -> None:
        super().off()
        for host in (NEAR, FAR, THIRD):
            self.kill_host(host)
            subprocess.run(["umount", "-l", f"mount{host}"], capture_output=True)


def tried(seed: str, kind: Kind, rounds: int) -> str:
    """So many rounds, and what the judge says of them."""
    with tempfile.TemporaryDirectory(dir="/var/tmp") as folder:
        os.chdir(folder)
        if kind.wrong:
            library = mirror.ROOT / "tests" / "chaos" / "power.c"
            subprocess.run(["cc", "-shared", "-fPIC", "-o", "power.so", str(library)], check=True)
        volume = Volume(f"{seed} volume {kind.wrong}", kind)
        hows: list[str] = []
        try:
            volume.make()
        except BaseException:
            volume.off()
            raise
        verdict = lives(volume, rounds, hows)
        history = mirror.History(Path(folder), volume.counts.killed)
        os.chdir("/")
    verdict = verdict or judged(volume, history)
    counts = ", ".join(f"{hows.count(it)} {it}" for it in FAILURES)
    took = f"takeovers take {min(volume.took):.2f} to {max(volume.took):.2f} s" if volume.took else "no takeover"
    head = f"volume: version {kind.version}{kind.wrong and ', ' + kind.wrong}"
    print(f"{head}, {len(hows)} rounds ({counts}), {history.replies} replies, {took}; {verdict}", flush=True)
    if not kind.wrong and history.replies < 20 * rounds:
        sys.exit("volume: too few replies to show anything")
    return verdict


def main() -> None:
    missing = [it for it in NEEDED if shutil.which(it) is None]
    missing += [] if os.access("/dev/fuse", os.W_OK) else ["FUSE"]
    missing += [] if os.getuid() == 0 else ["uid 0"]
    if missing:
        print(f"volume: without {', '.join(missing)} there is no volume of GlusterFS: left out")
        return
    print(f"volume: seed {SEED}", flush=True)
    try:
        namespaces()
        early = Kind(3, wrong="early", failures=FAILURES[:1])
        if shutil.which("cc") is None:
            print("volume: there is no cc here, so the program early is left out")
        elif not any(tried(f"{SEED} {it}", early, 2) == "wrong" for it in range(mirror.TRIES)):
            sys.exit("volume: early is not found out")
        verdict = tried(SEED, Kind(3, failures=FAILURES), ROUNDS)
        if verdict != "as promised":
            sys.exit(f"volume: not as promised: {verdict}")
    finally:
        for it in (name(NEAR), name(FAR), name(THIRD), SWITCH):
            subprocess.run(["ip", "netns", "del", it], capture_output=True)


if __name__ == "__main__":
    main()
