"""Lives of a server with clients, and how they end: kills, failures of power, of the disk and of memory."""

from __future__ import annotations

import os
import random
import signal
import struct
import subprocess
import time
from dataclasses import dataclass, field
from pathlib import Path
from typing import NamedTuple

from disk import power_fails
from load import SLOTS, Client, Shared, now, start

STEP, REFUSED, LOG = "step", "refused", "undo"


class Refused(Exception):
    """The server did not serve its device, or said what it should not."""


class Plan(NamedTuple):
    """How a life ends: after so many seconds at the latest; by a kill, at one of these calls, by a call that fails, or
    maybe by memory that is refused; how many microseconds a sync takes more; and whether the power fails then."""

    how: str
    seconds: float
    at: int
    calls: str
    slow: int
    power: bool


@dataclass
class Counts:
    lives: int = 0
    kills: int = 0
    stops: int = 0
    failures: int = 0
    memory: int = 0
    powers: int = 0
    unsynced: int = 0
    back: int = 0
    clients: int = 0
    steps: int = 0
    killed: list[tuple[int, int]] = field(default_factory=list)


def plan(rng: random.Random, hows: list[str], powers: float, calls: list[str]) -> Plan:
    """How the next life ends. Power fails most often at a sync, where there is most to take back."""
    power = rng.random() < powers
    how = rng.choice([*hows, *(["stop"] * len(hows) if power and "stop" in hows else [])])
    at = int(10 ** (rng.uniform(2, 4) if how == "memory" else rng.uniform(0, 2)))
    seconds = rng.choice([0.1, 0.2, 0.4, 1.0]) * rng.uniform(0.5, 1.5)
    return Plan(how, seconds + (how == "stop") * 0.5, at, rng.choice(calls), rng.choice([0, 300, 1000, 3000]), power)


class Host:
    """A machine with a device, a server and clients, in the working folder."""

    def __init__(self, program: str, seed: str, libraries: dict[str, str], wrong: str = "") -> None:
        self.program = program
        self.seed = seed
        self.rng = random.Random(f"{seed} host")
        self.libraries = libraries
        self.wrong = wrong
        self.shared = Shared()
        self.counts = Counts()
        # Of each client by its number its slot and its pid.
        self.clients: dict[int, tuple[int, int]] = {}
        self.made = 0
        self.ahead = 0
        self.process: subprocess.Popen[str] | None = None

    # ---- clients

    def more_clients(self) -> None:
        for slot in set(range(SLOTS)) - {slot for slot, _ in self.clients.values()}:
            self.made += 1
            self.clients[self.made] = slot, start(self.made, slot, self.seed, self.shared, Path.cwd())

    def kill_client(self, number: int) -> None:
        self.counts.killed.append((number, now()))
        _, pid = self.clients.pop(number)
        os.kill(pid, signal.SIGKILL)
        _, status = os.waitpid(pid, 0)
        if not os.WIFSIGNALED(status):
            raise Refused(f"client {number} failed: {Path(f'fault.{number}').read_text()}")

    def kill_clients(self) -> None:
        for number in list(self.clients):
            self.kill_client(number)

    # ---- the server

    def environment(self, how: Plan) -> dict[str, str]:
        found = {"POWER_DEVICE": "device", "POWER_LOG": LOG, "STEP_FILE": STEP}
        preloads = [self.libraries["power"], self.libraries["step_clock"]]
        found |= {"POWER_WRONG": self.wrong} if self.wrong else {}
        found |= {"POWER_STOP": f"{how.at} {how.calls}"} if how.how == "stop" else {}
        found |= {"POWER_SLOW": str(how.slow)} if how.slow else {}
        error = self.rng.choice([5, 28])
        found |= {"POWER_FAIL": f"{how.at} {error}"} if how.how == "fail" else {}
        if how.how == "memory":
            preloads.append(self.libraries["refuse_malloc"])
            found |= {"REFUSE_CALL": str(how.at), "REFUSE_MARK": REFUSED}
        return {**os.environ, **found, "LD_PRELOAD": " ".join(preloads)}

    def begin(self, how: Plan) -> bool:
        """Starts the server. False if it ended before it served, as the plan had it."""
        self.counts.lives += 1
        words = [self.program, "serve", "device", f"socket.{self.counts.lives}"]
        with open("said", "w") as said:
            self.process = subprocess.Popen(
                words, stdout=subprocess.PIPE, stderr=said, text=True, env=self.environment(how)
            )
        if self.process.stdout.readline().startswith("serving "):
            self.shared.put(self.counts.lives)
            return True
        self.process.wait()
        self.count(how)
        self.explain(how)
        return False

    def explain(self, how: Plan) -> None:
        """A server that ended by itself did so as the plan had it."""
        status, said = self.process.returncode, Path("said").read_text().strip()
        expected = {"stop": [(-signal.SIGKILL, "")], "fail": [(1, "ipcd: device fault")]}
        # Where memory of the device itself is refused, the device has failed.
        expected["memory"] = [(1, "ipcd: no memory"), (1, "ipcd: device fault")]
        clock = [line for line in said.splitlines() if "the device's clock is" in line]
        rest = "\n".join(line for line in said.splitlines() if line not in clock)
        if (status, rest) not in expected.get(how.how, []):
            raise Refused(f"life {self.counts.lives}, {how}: the server ended with status {status} and {said!r}")

    def step(self) -> None:
        """The clock of the server is stepped, by up to half a minute."""
        self.ahead += self.rng.randint(-30_000, 30_000)
        Path(STEP).write_bytes(struct.pack("=q", self.ahead)) if not Path(STEP).exists() else None
        with open(STEP, "r+b") as file:
            file.write(struct.pack("=q", self.ahead))
        self.counts.steps += 1

    def live(self, how: Plan) -> None:
        """A life: the clients call, some are killed, and then the server ends as the plan has it."""
        if self.begin(how):
            end = time.monotonic() + how.seconds
            while time.monotonic() < end and self.process.poll() is None:
                if self.rng.random() < 0.1:
                    self.kill_client(self.rng.choice(list(self.clients)))
                    self.counts.clients += 1
                    self.more_clients()
                if self.rng.random() < 0.03:
                    self.step()
                time.sleep(self.rng.uniform(0, 0.1))
            self.count(how)
            self.end(how)
        if how.power:
            self.fail_power()

    def end(self, how: Plan) -> None:
        self.process.send_signal(signal.SIGTERM if how.how == "term" else signal.SIGKILL)
        self.process.wait()
        self.shared.put(0)
        self.process.stdout.close()
        if self.process.returncode not in (-signal.SIGKILL, -signal.SIGTERM):
            self.explain(how)
        os.remove(f"socket.{self.counts.lives}")
        if Path(REFUSED).exists():
            self.counts.memory += 1
            os.remove(REFUSED)

    def count(self, how: Plan) -> None:
        """How the life ends: by itself, if it has ended already."""
        status = self.process.poll()
        self.counts.kills += status is None
        self.counts.stops += status == -signal.SIGKILL
        self.counts.failures += status == 1 and how.how == "fail"

    def fail_power(self) -> None:
        unsynced, back = power_fails(Path("device"), Path(LOG), self.rng)
        self.counts.powers += 1
        self.counts.unsynced += unsynced
        self.counts.back += back
        self.is_fit()

    def is_fit(self) -> None:
        ended = subprocess.run([self.program, "check", "device"], capture_output=True, text=True, timeout=60)
        if ended.returncode or not ended.stdout.startswith("fit to be served: "):
            raise Refused(f"after life {self.counts.lives} check prints {ended.stdout!r} {ended.stderr!r}")

    def close(self) -> None:
        """Nothing of it runs any more."""
        self.shared.put(0)
        for _, pid in self.clients.values():
            os.kill(pid, signal.SIGKILL)
            os.waitpid(pid, 0)
        self.clients.clear()
        if self.process and self.process.poll() is None:
            self.process.kill()
            self.process.wait()


class Auditor(Client):
    """The last client: it alone reads all that there is."""

    def ask(self, connection, thing: str, call: str, *args: object) -> bool:
        """Makes a call. Whether it was not refused."""
        sent = self.send(connection, thing, call, args)
        answer = connection.receive()
        self.learn(sent, answer)
        return answer[1] == 0

    def audit(self, connection, thing: str) -> None:
        kind = thing.partition(":")[0]
        call, flags = ("get", 0) if kind in ("msg", "sem", "seg") else ("open", 2 | 0o4000)
        extra = {"pmq": (1,), "psm": (0,)}.get(kind, ())
        if not self.ask(connection, thing, call, flags, *extra):
            return
        number = (self.ids if call == "get" else self.held)[thing][-1]
        getattr(self, "audit_" + kind)(connection, thing, number)

    def audit_msg(self, connection, thing: str, number: int) -> None:
        self.ask(connection, thing, "stat", number)
        while self.ask(connection, thing, "rcv", number, 0o4000, 400, 0):
            pass

    def audit_sem(self, connection, thing: str, number: int) -> None:
        self.ask(connection, thing, "getall", number)
        for at in range(3):
            self.ask(connection, thing, "getpid", number, at)

    def audit_seg(self, connection, thing: str, number: int) -> None:
        self.ask(connection, thing, "stat", number)
        self.ask(connection, thing, "at", number)
        self.ask(connection, thing, "read", self.held[thing][-1], 0, 64)

    def audit_pmq(self, connection, thing: str, number: int) -> None:
        self.ask(connection, thing, "attr", number)
        while self.ask(connection, thing, "recv", number, True):
            pass

    def audit_psm(self, connection, thing: str, number: int) -> None:
        self.ask(connection, thing, "value", number)

    def audit_shm(self, connection, thing: str, number: int) -> None:
        self.ask(connection, thing, "stat", number)
        for offset in range(0, 64, 8):
            self.ask(connection, thing, "read", number, offset, 8)
