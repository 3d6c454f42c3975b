"""The figures that `ipcd serve --metrics FILE` writes: each is what the clients have counted, or what the device has.

    python3 metrics.py PROGRAM [SEED]
"""

from __future__ import annotations

import errno
import json
import os
import re
import shutil
import signal
import stat
import subprocess
import sys
import time
from collections import Counter
from collections.abc import Callable
from inspect import Parameter, signature
from pathlib import Path

sys.dont_write_bytecode = True
sys.path[:0] = [str(Path(__file__).resolve().parents[1] / name) for name in ("lib", "system")]

from documents import replaced_words  # noqa: E402
from server import TIMEOUT, Client, Worker, check, in_a_folder, is_refused, printed, process, run_tests, serving, until  # noqa: E402

from client import IPC_CREAT, IPC_NOWAIT, IPC_PRIVATE, O_CREAT, O_RDWR, msgrcv_request, msgsnd_request
from ipcd import wire

Figures = dict[tuple[str, str], float]

NAME = r"[a-zA-Z_:][a-zA-Z0-9_:]*"
HELP = re.compile(rf"# HELP ({NAME}) (\S.*)")
TYPE = re.compile(rf"# TYPE ({NAME}) (counter|gauge|summary)")
VALUE = re.compile(rf'({NAME})(?:\{{([a-zA-Z_][a-zA-Z0-9_]*)="([^"\\\n]*)"\}})? ([0-9]+(?:\.[0-9]+)?)')
# The requests, by their names.
REQUESTS = {name.removesuffix("_request"): call for name, call in vars(wire).items() if name.endswith("_request")}


def made(call: Callable[..., bytes]) -> bytes:
    """A request with fields of no object: some number, some bytes, or nothing in a list."""
    some = {"int": 7, "bytes": b"/x", "str | bytes": "/x"}
    fields = [field for field in signature(call).parameters.values() if field.default is Parameter.empty]
    return call(*[some.get(str(field.annotation), []) for field in fields])


NAMES = {made(call)[0]: name for name, call in REQUESTS.items()}


def parsed(text: str) -> Figures:
    """The values of a text, by name and label. Each line is as the format has it: a metric's help, its type, and its
    values together; none comes twice."""
    found: Figures = {}
    types: dict[str, str] = {}
    check(text.endswith("\n"), "the last line has no end")
    lines = iter(text.splitlines())
    family = ""
    for line in lines:
        if line.startswith("# HELP"):
            told = HELP.fullmatch(line)
            check(told is not None, f"{line!r} is no help")
            check(replaced_words().search(line) is None, f"{line!r} has a word that docs/STYLE.md replaces")
            family = told[1]
            kind = TYPE.fullmatch(next(lines, ""))
            check(kind is not None and kind[1] == family and family not in types, f"{line!r} is followed by no type")
            types[family] = kind[2]
            continue
        value = VALUE.fullmatch(line)
        check(value is not None, f"{line!r} is no value")
        name, label, said, number = value.groups()
        parts = [family + "_sum", family + "_count"] if types[family] == "summary" else [family]
        check(name in parts, f"{line!r} stands below {family}")
        check(name.endswith("_total") == (types[family] == "counter"), f"{name} is a {types[family]}")
        check((name, said or "") not in found, f"{line!r} comes twice")
        found[name, said or ""] = float(number)
    return found


def figures() -> Figures:
    return parsed(Path("figures.prom").read_text())


def is_there() -> bool:
    return os.path.exists("figures.prom")


def until_told(counts: dict[tuple[str, str], int]) -> Figures:
    """Waits until the figures are those that were counted."""
    end = time.monotonic() + TIMEOUT
    while True:
        found = figures() if is_there() else {}
        wrong = {what: (found.get(what), count) for what, count in counts.items() if found.get(what) != count}
        if not wrong:
            return found
        check(time.monotonic() < end, f"told, and counted: {wrong}")
        time.sleep(0.05)


class Counting(Client):
    """Counts what it sends, and what it receives."""

    def __init__(self, counts: Counter[tuple[str, str]]) -> None:
        self.counts = counts
        super().__init__()

    def _write(self, data: bytes) -> None:
        self.counts["ipcd_received_bytes_total", ""] += len(data)
        self.counts["ipcd_events_total", NAMES[data[8]]] += 1
        super()._write(data)

    def _frame(self, end: float | None) -> tuple[int, int, bytes] | None:
        reply = super()._frame(end)
        if reply is not None:
            _, error, _ = reply
            if error:
                self.counts["ipcd_refusals_total", errno.errorcode[error]] += 1
        return reply

    def _fill(self, size: int, end: float | None) -> None:
        before = len(self._read)
        super()._fill(size, end)
        self.counts["ipcd_sent_bytes_total", ""] += len(self._read) - before


def uses_objects(client: Counting) -> None:
    """Makes an object of each kind and uses it, and is refused now and then."""
    client.hello(1000, 100)
    queue = client.msgget(IPC_PRIVATE, IPC_CREAT | 0o600)
    for length in (3, 0, 4096):
        client.msgsnd(queue, 5, bytes(length))
    client.msgrcv(queue, 64, 0)
    is_refused(lambda: client.msgrcv(queue, 64, 9, IPC_NOWAIT), errno.ENOMSG)
    is_refused(lambda: client.msgget(77, 0), errno.ENOENT)
    is_refused(lambda: client.msgctl_rmid(99), errno.EINVAL)
    gates = client.semget(IPC_PRIVATE, 5, IPC_CREAT | 0o600)
    client.semctl_setall(gates, [1, 2, 3, 4, 5])
    is_refused(lambda: client.semop(gates, [(0, -9, IPC_NOWAIT)]), errno.EAGAIN)
    jobs = client.mq_open("/jobs", O_CREAT | O_RDWR, 0o600)
    client.mq_send(jobs, b"sweep", 7)
    client.mq_send(jobs, b"mop", 1)
    client.sem_post(client.sem_open("/ready", O_CREAT, 0o600, 2))
    client.ftruncate(client.shm_open("/table", O_CREAT | O_RDWR, 0o600), 5000)
    client.shmat(client.shmget(IPC_PRIVATE, 4000, IPC_CREAT | 0o600))


WANTED = {
    ("ipcd_objects", "msg"): 1,
    ("ipcd_objects", "sem"): 1,
    ("ipcd_objects", "pmq"): 1,
    ("ipcd_objects", "psm"): 1,
    ("ipcd_objects", "shm"): 1,
    ("ipcd_objects", "seg"): 1,
    ("ipcd_objects_limit", "msg"): 64,
    ("ipcd_objects_limit", "sem"): 32,
    ("ipcd_objects_limit", "pmq"): 32,
    ("ipcd_objects_limit", "psm"): 64,
    ("ipcd_objects_limit", "shm"): 32,
    ("ipcd_objects_limit", "seg"): 32,
    ("ipcd_messages", "msg"): 2,
    ("ipcd_messages", "pmq"): 2,
    ("ipcd_semaphores", ""): 5,
    ("ipcd_semaphores_limit", ""): 512,
    ("ipcd_bytes", "msg"): 4096,
    ("ipcd_bytes", "pmq"): 8,
    ("ipcd_bytes", "shm"): 5000,
    ("ipcd_bytes", "seg"): 4000,
    ("ipcd_bytes_limit", "msg"): 64 * 65536,
    ("ipcd_bytes_limit", "pmq"): 32 * 10 * 8192,
    ("ipcd_bytes_limit", "shm"): 1048576,
    ("ipcd_bytes_limit", "seg"): 1048576,
    ("ipcd_connections", ""): 2,
    ("ipcd_processes", ""): 1,
    ("ipcd_processes_limit", ""): 64,
    ("ipcd_waiting_calls", ""): 1,
    ("ipcd_journal_sectors", ""): 257,
    ("ipcd_metrics_failures_total", ""): 0,
}


def counts_what_was_done() -> None:
    """Events, refusals and bytes are those that the clients counted; objects are those that they made."""
    printed("format", "device")
    began = time.time()
    counts: Counter[tuple[str, str]] = Counter()
    with serving("--metrics", "figures.prom"):
        with Counting(counts) as gone:
            gone.hello(1000, 100)
            gone.interrupt()
            gone.settle()
        counts["ipcd_events_total", "exit"] += 1
        silent = Client()
        client = Counting(counts)
        uses_objects(client)
        queue = client.msgget(IPC_PRIVATE, IPC_CREAT | 0o600)
        client.msgctl_rmid(queue)
        client.send(msgrcv_request(1, 64, 42))
        counted = dict(counts)
        found = until_told(counted)
        wanted = {name: value for name, value in found.items() if name in WANTED}
        check(wanted == WANTED, f"{wanted} are told")
        others = {what for name, what in found if name == "ipcd_events_total"} - {what for _, what in counted}
        check(others == {"tick"}, f"{others} have come too")
        refused = {what for name, what in found if name == "ipcd_refusals_total"}
        check(refused == {"ENOMSG", "ENOENT", "EINVAL", "EAGAIN"}, f"{refused} were refused")
        tells_of_the_device(found, began)
        client.close()
        silent.close()


def number_at(place: int, size: int) -> int:
    """A number of the device."""
    with open("device", "rb") as file:
        return int.from_bytes(os.pread(file.fileno(), size, place), "big")


def tells_of_the_device(found: Figures, began: float) -> None:
    used = number_at(3 * 512 + 8, 4)
    check(found["ipcd_journal_used_sectors", ""] == used > 0, f"{used} sectors are used")
    commits, saves = found["ipcd_commits_total", ""], found["ipcd_saves_total", ""]
    check(saves == 0 < commits, f"{saves} saves of {commits} commits")
    syncs = found["ipcd_sync_seconds_count", ""]
    # Each commit makes two, and the opening one of its own.
    check(syncs == 2 * commits + 1, f"{syncs} syncs and {commits} commits")
    total, longest = found["ipcd_sync_seconds_sum", ""], found["ipcd_longest_sync_seconds", ""]
    check(0 < longest <= total <= syncs * longest, f"{total} and {longest} seconds of {syncs} syncs")
    check(began - 1 <= found["ipcd_start_time_seconds", ""] <= time.time(), "the server began at another time")
    check(began - 1 <= found["ipcd_clock_seconds", ""] <= time.time() + 1, "the clock tells another time")
    version = printed("--version").split()[1].rstrip(",")
    check(found["ipcd_build_info", version] == 1, f"the version is not {version}")


def saves_are_told() -> None:
    printed("format", "device")
    with serving("--metrics", "figures.prom"), process() as client:
        queue = client.msgget(IPC_PRIVATE, IPC_CREAT | 0o600)
        for _ in range(60):
            client.msgsnd(queue, 1, bytes(7000))
            client.msgrcv(queue, 7000, 0)
        found = until_told({("ipcd_events_total", "msgrcv"): 60})
        # A root is of the epoch after its save; the first is that of a new device.
        check(found["ipcd_saves_total", ""] == number_at(2 * 512, 8) - 1 > 0, "other saves were made")
        check(found["ipcd_saves_total", ""] < found["ipcd_commits_total", ""], "each commit was a save")


def is_written_and_left() -> None:
    """The file is written once more after a change, and not again; everyone may read it. A text that was left half
    written does not stand in the way."""
    printed("format", "device")
    Path("figures.prom.new").write_text("left")
    old = os.umask(0o077)
    with serving("--metrics", "figures.prom") as server:
        os.umask(old)
        with process() as client:
            client.msgget(IPC_PRIVATE, IPC_CREAT | 0o600)
            until(lambda: is_there() and figures().get(("ipcd_events_total", "msgget")) == 1, "a call is not told")
        until(lambda: figures()["ipcd_processes", ""] == 0, "the exit is not told")
        check(stat.S_IMODE(os.stat("figures.prom").st_mode) == 0o644, "others may not read the file")
        check(not os.path.exists("figures.prom.new"), "the file beside is left")
        before = os.stat("figures.prom")
        until(server.is_idle, "the server never rests")
        time.sleep(2.5)
        after = os.stat("figures.prom")
        check((before.st_ino, before.st_mtime_ns) == (after.st_ino, after.st_mtime_ns), "it is written again and again")


def is_whole_under_load() -> None:
    """Whoever reads the file finds all of it. It is written once a second at most."""
    printed("format", "device")

    class Sender(Worker):
        def work(self) -> None:
            with process() as client:
                queue = client.msgget(IPC_PRIVATE, IPC_CREAT | 0o600)
                while not done:
                    for request in [msgsnd_request(queue, 1, b"x" * 50), msgrcv_request(queue, 50, 0)] * 20:
                        client.send(request)
                    for _ in range(40):
                        client.receive()

    done: list[bool] = []
    with serving("--metrics", "figures.prom"):
        sender = Sender(0, 0)
        sender.start()
        until(is_there, "nothing is written")
        begin = time.monotonic()
        written: set[int] = set()
        told: list[float] = []
        while time.monotonic() < begin + 4:
            with open("figures.prom", "rb") as file:
                written.add(os.fstat(file.fileno()).st_mtime_ns)
                found = parsed(file.read().decode())
            check(max(kind for name, kind in found if name == "ipcd_bytes_limit") == "shm", "the end is missing")
            told.append(found.get(("ipcd_events_total", "msgsnd"), 0))
            sender.look()
        done.append(True)
        sender.finish()
        seconds = time.monotonic() - begin
    check(told == sorted(told) and told[0] < told[-1], "the sends do not grow")
    check(2 <= len(written) <= seconds + 2, f"it was written {len(written)} times in {seconds:.1f} s")


def cannot_be_written() -> None:
    """A file that cannot be written disturbs nobody. The server tries again."""
    printed("format", "device")
    with serving("--metrics", "folder/figures.prom") as server, process() as client:
        queue = client.msgget(IPC_PRIVATE, IPC_CREAT | 0o600)
        for _ in range(3):
            client.msgsnd(queue, 1, b"x")
            time.sleep(1.2)
        check(server.process.poll() is None, "the server has ended")
        os.mkdir("folder")
        until(lambda: os.path.exists("folder/figures.prom"), "the file is not tried again")
        os.rename("folder/figures.prom", "figures.prom")
        check(figures()["ipcd_metrics_failures_total", ""] >= 2, "the failures are not told")
        check(figures()["ipcd_events_total", "msgsnd"] == 3, "the sends are not told")


def finds_no_room() -> None:
    """A full folder: the file that stands there stays as it is."""
    printed("format", "device")
    os.mkdir("full")
    mounted = subprocess.run(["mount", "-t", "tmpfs", "-o", "size=4k", "none", "full"], capture_output=True)
    if mounted.returncode:
        print("metrics: no file system may be mounted here, so none is full")
        return
    try:
        Path("full/figures.prom").write_text("old\n")
        with serving("--metrics", "full/figures.prom") as server, process() as client:
            queue = client.msgget(IPC_PRIVATE, IPC_CREAT | 0o600)
            for _ in range(3):
                client.msgsnd(queue, 1, b"x")
                time.sleep(0.7)
            check(server.process.poll() is None, "the server has ended")
            check(Path("full/figures.prom").read_text() == "old\n", "the file is broken")
    finally:
        subprocess.run(["umount", "full"], check=True)


def passes_its_tool() -> None:
    """Prometheus' own tool takes the text, if it is installed."""
    tool = shutil.which("promtool")
    if tool is None:
        print("metrics: promtool is not installed, so it is not asked")
        return
    printed("format", "device")
    with serving("--metrics", "figures.prom"), process() as client:
        is_refused(lambda: client.msgget(77, 0), errno.ENOENT)
        until(lambda: is_there() and figures().get(("ipcd_events_total", "msgget")) == 1, "a call is not told")
        with open("figures.prom") as text:
            asked = subprocess.run([tool, "check", "metrics"], stdin=text, capture_output=True, text=True)
    check((asked.returncode, asked.stdout, asked.stderr) == (0, "", ""), f"promtool says {asked}")


ROOT = Path(__file__).resolve().parents[2]
# A figure in an expression of Prometheus.
FIGURE = re.compile(r"\bipcd_[a-z_]+")
ALERT = re.compile(r"^ +- alert: (\w+)\n +expr: (.*)$", re.M)


def alerts() -> dict[str, str]:
    """The expressions of contrib/alerts.yml, by the names of their alerts."""
    text = (ROOT / "contrib/alerts.yml").read_text()
    found = dict(ALERT.findall(text))
    check(len(found) == text.count("expr:") == text.count("alert:") > 0, f"{found} are not all alerts")
    return found


def expressions_of_the_dashboard() -> list[str]:
    panels = json.loads((ROOT / "contrib/grafana.json").read_text())["panels"]
    check(len({panel["title"] for panel in panels}) == len(panels), "two panels have one title")
    return [target["expr"] for panel in panels for target in panel["targets"]]


def alerts_and_dashboard_are_of_what_is_written() -> None:
    """They name no figure that the server does not write, and labels that it has; the dashboard shows each that there
    is. OPERATIONS.md's alerts are there, and Prometheus' own tool takes the file, if it is installed."""
    printed("format", "device")
    with serving("--metrics", "figures.prom"), process() as client:
        uses_objects_once(client)
        until(lambda: is_there() and figures().get(("ipcd_refusals_total", "ENOENT")) == 1, "a refusal is not told")
        text = Path("figures.prom").read_text()
    written = {name for name, _ in parsed(text)}
    labels = set(re.findall(r"\{([a-z]+)=", text)) | {"instance"}
    shown = expressions_of_the_dashboard()
    for expression in [*alerts().values(), *shown]:
        names = set(FIGURE.findall(expression))
        check(names != set() and names <= written, f"{expression!r} names {names - written}")
        by = re.findall(r"by \((\w+)\)", expression) + re.findall(r"\{(\w+)=~", expression)
        check(set(by) <= labels, f"{expression!r} is by {by}")
    left = written - {name for expression in shown for name in FIGURE.findall(expression)} - {"ipcd_build_info"}
    check(left == set(), f"the dashboard does not show {left}")
    page = (ROOT / "docs/OPERATIONS.md").read_text()
    told = [line.strip() for line in page.splitlines() if re.match(r"    .*ipcd_.* > [0-9.]+$", line)]
    check(len(told) >= 3 and set(told) <= set(alerts().values()), f"{told} are alerts of OPERATIONS.md")
    tool = shutil.which("promtool")
    if tool is None:
        print("metrics: promtool is not installed, so it is not asked of the alerts")
        return
    asked = subprocess.run([tool, "check", "rules", ROOT / "contrib/alerts.yml"], capture_output=True, text=True)
    check(asked.returncode == 0 and f"{len(alerts())} rules found" in asked.stdout, f"promtool says {asked}")


def uses_objects_once(client: Client) -> None:
    client.msgsnd(client.msgget(IPC_PRIVATE, IPC_CREAT | 0o600), 1, b"x")
    is_refused(lambda: client.msgget(77, 0), errno.ENOENT)


def each_request_is_told() -> None:
    """Each request of the protocol has its name in the text."""
    check(len(REQUESTS) == len(NAMES) == 48, f"there are {len(REQUESTS)} requests")
    printed("format", "device")
    counts: Counter[tuple[str, str]] = Counter()
    with serving("--metrics", "figures.prom"):
        with Counting(counts) as client:
            client.hello(1000, 100)
            for name, call in REQUESTS.items():
                if name != "hello":
                    client.send(made(call))
                    client.receive()
            until_told(counts)
        check({what for name, what in counts if name == "ipcd_events_total"} == set(REQUESTS), "not all were sent")


TESTS = [
    counts_what_was_done,
    each_request_is_told,
    saves_are_told,
    is_written_and_left,
    is_whole_under_load,
    cannot_be_written,
    finds_no_room,
    passes_its_tool,
    alerts_and_dashboard_are_of_what_is_written,
]

if __name__ == "__main__":
    signal.signal(signal.SIGINT, signal.default_int_handler)
    with in_a_folder(200):
        run_tests("metrics", TESTS)
