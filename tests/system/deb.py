"""What `make deb` packs: installed into a folder, used there, and purged; README.md's first session on the packages, in
less than a minute; that the same bytes are packed again; and `make verify` of a program, a tarball and a package.

    python3 tests/system/deb.py PROGRAM

It works in a temporary folder. It needs git and dpkg: without one of these it says so, and refuses nothing. Without
the clients in C it says what was left out. Where lintian is, that judges the packages too, which takes a minute more.
Where debootstrap is, and this is root, it makes a new system of Debian, in which apt installs the packages and nothing
else; where systemd-nspawn is, that system is booted too, and the unit runs under systemd. That takes two minutes more,
and a network. Otherwise maintainer scripts run, but not what they ask of systemd.
"""

from __future__ import annotations

import os
import shutil
import signal
import subprocess
import sys
import tempfile
import time
from pathlib import Path

sys.dont_write_bytecode = True

import session as readme  # noqa: E402
from install import PROGRAM, ROOT  # noqa: E402

CLIENTS = (ROOT / "clients/c/out/ipcd-ask").exists()
NAMES = ["ipcd", "ipcd-run", "libipcd-dev", "libipcd0", "python3-ipcd"] if CLIENTS else ["ipcd", "python3-ipcd"]
LIBRARY = f"usr/lib/{os.uname().machine}-linux-gnu"
SECOND = "1700000000"
SERVING = "serving device, 1366 sectors, on socket, small limits\n"
MIRROR = os.environ.get("MIRROR", "http://deb.debian.org/debian")
# How long README.md's session may take on what the packages have.
SESSION_SECONDS = 60
# What root does under systemd, on the device of `service`, which has a queue: the unit is started, its server is killed,
# and systemd starts another one.
BOOTED = """\
systemctl enable --now ipcd.service 2> /root/said; echo "start $?"
systemctl show -p StatusText --value ipcd.service
ipcd-ask /run/ipcd/socket 'msgget 7' 'msgsnd $ 5 kept'
systemctl kill -s KILL --kill-whom=main ipcd.service
until [ "$(systemctl show -p NRestarts --value ipcd.service)" = 1 ] && systemctl is-active -q ipcd.service; do
	sleep 0.1
done
ipcd-ask /run/ipcd/socket 'msgget 7' 'msgrcv $ 64'
systemctl disable --now ipcd.service 2> /root/said; echo "stop $?"
"""
# The unit that runs it and ends the system.
TRIAL = """\
[Unit]
SuccessAction=poweroff-force
FailureAction=poweroff-force
[Service]
Type=oneshot
ExecStart=/bin/sh -c 'sh /root/booted.sh > /root/booted 2>&1'
TimeoutStartSec=120
"""
ON_DEVICE = "serving /var/lib/ipcd/device, 252440 sectors, on /run/ipcd/socket, standard limits"


def check(holds: bool, text: str) -> None:
    if not holds:
        sys.exit(f"deb: {text}")


def run(
    *words: str | Path, umask: int = 0o022, seconds: int = 120, **more: str
) -> subprocess.CompletedProcess[str]:
    """Runs a program apart from the make that runs this."""
    apart = {name: text for name, text in os.environ.items() if not name.startswith(("MAKE", "MFLAGS"))}
    apart["PATH"] += ":/usr/local/sbin:/usr/sbin:/sbin"
    return subprocess.run(words, capture_output=True, text=True, env=apart | more, timeout=seconds, umask=umask)


def ends_well(*words: str | Path, **more: str) -> str:
    ended = run(*words, **more)
    check(ended.returncode == 0, f"{words}: {ended}")
    return ended.stdout


def make(*words: str, umask: int = 0o022, **more: str) -> subprocess.CompletedProcess[str]:
    return run("make", "-s", "-C", ROOT, f"BUILT={PROGRAM}", *words, umask=umask, **more)


def packed(folder: str, umask: int = 0o022) -> list[Path]:
    """The packages that are made in a new folder, in the order of their names."""
    ended = make("deb", f"DEBS={os.path.abspath(folder)}", umask=umask, SOURCE_DATE_EPOCH=SECOND)
    check((ended.returncode, ended.stderr) == (0, ""), f"{ended}")
    made = sorted(Path(folder).resolve().iterdir(), key=lambda it: it.name.partition("_"))
    check([it.name.partition("_")[0] for it in made] == sorted(NAMES), f"{made}")
    return made


def same_again(debs: list[Path]) -> None:
    for one, other in zip(debs, packed("again", umask=0o077), strict=True):
        check(one.name == other.name and one.read_bytes() == other.read_bytes(), f"{one.name} differs")


def judge(debs: list[Path]) -> subprocess.Popen[str] | None:
    """Starts lintian, if it is here."""
    if shutil.which("lintian") is None:
        return None
    pipes = dict.fromkeys(("stdout", "stderr"), subprocess.PIPE)
    return subprocess.Popen(["lintian", "--fail-on", "error", *debs], text=True, **pipes)


def judged(judge: subprocess.Popen[str] | None) -> str:
    """lintian has no error."""
    if judge is None:
        return "lintian is not here, so they were not judged"
    said, faults = judge.communicate(timeout=600)
    errors = [line for line in said.splitlines() if line.startswith("E:")]
    check((judge.returncode, errors) == (0, []), f"lintian: {judge.returncode}, {errors}, {faults}")
    return "lintian has no error"


def dpkg(root: Path, *words: str | Path) -> None:
    """dpkg in a folder that stands for the system, with its own files in another. What the packages depend on is in
    neither."""
    force = ["--force-unsafe-io", "--force-not-root", "--force-script-chrootless", "--force-depends"]
    folders = [f"--instdir={root}", f"--admindir={DATABASE}"]
    ends_well("dpkg", *folders, *force, "--log=/dev/null", *words)


def files(root: Path) -> set[str]:
    return {str(it.relative_to(root)) for it in root.rglob("*")}


def system() -> Path:
    root = Path("root").resolve()
    root.mkdir()
    for name in ("info", "updates", "triggers"):
        (DATABASE / name).mkdir(parents=True)
    (DATABASE / "status").touch()
    return root


def served(root: Path) -> subprocess.Popen[str]:
    """A server of the installed program, which is ready."""
    server = subprocess.Popen([root / "usr/bin/ipcd", "serve", "device", "socket"], stdout=subprocess.PIPE, text=True)
    line = server.stdout.readline()
    if line != SERVING:
        server.kill()
        check(False, f"the server prints {line!r}")
    return server


def killed(server: subprocess.Popen[str]) -> None:
    server.kill()
    server.communicate()
    os.remove("socket")


def session(root: Path) -> None:
    """A message that is sent by ipcd-ask survives a kill. Python and a program in C find it."""
    ends_well(root / "usr/bin/ipcd", "format", "--small", "device")
    server = served(root)
    try:
        python = {"PYTHONPATH": str(root / "usr/lib/python3/dist-packages")}
        control = [sys.executable, root / "usr/bin/ipcdctl", "--socket", "socket"]
        ends_well(*control, "send", "-Q", "1234", "--create", "--type", "5", "first", **python)
        if CLIENTS:
            said = ends_well(root / "usr/bin/ipcd-ask", "socket", "msgget 1234", 'msgsnd $ 6 "second one"')
            check(said == "1\n0\n", said)
            ends_well(root / "usr/bin/ipcd-run", "--socket", "socket", "true")
        killed(server)
        server = served(root)
        check(ends_well(*control, "receive", "-Q", "1234", **python) == "first", "the message of ipcdctl is not there")
        if CLIENTS:
            said = ends_well(root / "usr/bin/ipcd-ask", "socket", "msgget 1234", "msgrcv $ 64")
            check(said == '1\n6 "second one"\n', said)
            develops(root)
    finally:
        killed(server)


def develops(root: Path) -> None:
    """A program in C is compiled by what libipcd-dev has, and runs on the library of libipcd0."""
    compiler = os.environ.get("CC", "cc")
    if shutil.which(compiler) is None:
        return
    Path("asks.c").write_text("""
        #include <ipcd.h>
        int main(void) { return ipcd_msgget(1234, 0) == 1 ? 0 : 1; }
    """)
    ends_well(compiler, f"-I{root}/usr/include", "asks.c", "-o", "asks", f"-L{root / LIBRARY}", "-lipcd")
    ends_well("./asks", LD_LIBRARY_PATH=str(root / LIBRARY), IPCD_SOCKET=os.path.abspath("socket"))


def installed(debs: list[Path]) -> None:
    """All packages are installed, used and purged: nothing is left, except a device in the folder of the service."""
    root = system()
    before = files(root)
    dpkg(root, "--install", *debs)
    here = files(root)
    unit = (root / "usr/lib/systemd/system/ipcd.service").read_text()
    check("/usr/bin/ipcd serve " in unit and "/usr/local/" not in unit, f"the unit: {unit}")
    for name in NAMES:
        text = (root / "usr/share/doc" / name / "copyright").read_text()
        check("No licence is chosen yet" in text, f"{name}: {text}")
    for name in ("usr/share/man/man8/ipcd.8.gz", "usr/lib/sysusers.d/ipcd.conf", "usr/lib/tmpfiles.d/ipcd.conf",
                 "usr/share/doc/ipcd/examples/alerts.yml"):  # fmt: skip
        check(name in here, f"{name} is not installed")
    session(root)
    if CLIENTS:
        on_packages(root)
    dpkg(root, "--purge", *NAMES)
    check(files(root) == before, f"a purge leaves {files(root) - before}")
    dpkg(root, "--install", debs[0])
    device = root / "var/lib/ipcd/device"
    device.parent.mkdir(parents=True)
    device.touch()
    dpkg(root, "--purge", "ipcd")
    left = files(root) - before
    check(left == {"var", "var/lib", "var/lib/ipcd", "var/lib/ipcd/device"}, f"beside a device a purge leaves {left}")


def first_session(path: str, words: tuple[str, ...], blocks: int) -> float:
    """README.md's session as it is typed where the packages are installed: without its first two lines, and so many
    blocks of it. Answers how long it took."""
    steps = [step for block in readme.blocks((ROOT / "README.md").read_text()) for step in block]
    begins = [at for at, (typed, _) in enumerate(steps) if typed == "ipcd format device"]
    check(begins == [2] and steps[0][0].startswith("PATH=") and steps[1][0].startswith("make "), f"{steps[:3]}")
    second = next(at for at, (typed, _) in enumerate(steps) if typed.startswith("export "))
    steps = steps[2:] if blocks == 2 else [*steps[2:second], steps[-1]]
    begin = time.monotonic()
    readme.do("README.md", steps, path, words)
    signal.alarm(0)
    took = time.monotonic() - begin
    check(took < SESSION_SECONDS, f"README.md's session takes {took:.0f} s on the packages")
    return took


def has_perl() -> bool:
    try:
        return subprocess.run(readme.NEEDS["IPC::Msg"], capture_output=True).returncode == 0
    except FileNotFoundError:
        return False


def on_packages(root: Path) -> None:
    """README.md's session, with nothing of the repository on the path; it leaves no file."""
    os.mkdir("session")
    os.chdir("session")
    os.environ.pop("IPCD_SOCKET", None)
    first_session(f"{root / 'usr/bin'}:{os.environ['PATH']}", ("bash",), 2 if has_perl() else 1)
    check(os.listdir() == [], f"README.md's session leaves {os.listdir()}")
    os.chdir("..")


def codename() -> str:
    """The release of Debian that this is, or nothing."""
    fields = dict(line.split("=", 1) for line in Path("/etc/os-release").read_text().splitlines() if "=" in line)
    return fields.get("VERSION_CODENAME", "") if fields.get("ID") == "debian" else ""


def service() -> str:
    """What a shell does as docs/OPERATIONS.md has it after an installation, and then in the place of systemd: it makes
    the folder of the socket and starts the server as the user of the unit, and a client of root asks it."""
    lines = (ROOT / "docs/OPERATIONS.md").read_text().splitlines()
    first = next(at for at, line in enumerate(lines) if line.startswith("    apt install "))
    steps = [line.strip() for line in lines[first + 1 : first + 4]]
    check([line.split()[0] for line in steps] == ["ipcd", "chown", "sync"], f"{steps} follow the installation")
    check(lines[first + 4].strip().startswith("systemctl enable "), f"{lines[first + 4]} is not the end of it")
    start = "/usr/libexec/ipcd/ipcd-notify /usr/bin/ipcd serve /var/lib/ipcd/device /run/ipcd/socket"
    steps += [
        "stat -c '%U:%G %a' /var/lib/ipcd/device",
        "install -d -o ipcd -g ipcd -m 0750 /run/ipcd",
        ": > /root/served",
        f"runuser -u ipcd -- {start} > /root/served &",
        "until grep -q '^serving ' /root/served; do sleep 0.1; done",
        "ipcd-ask /run/ipcd/socket 'msgget 7 IPC_CREAT|0600'",
    ]
    return "set -e\n" + "\n".join(steps)


def boots() -> bool:
    return shutil.which("systemd-nspawn") is not None


def under_systemd(root: Path) -> str:
    """Boots the system with the packages, and says what was done: a message survives a killed server of the unit."""
    if not boots():
        return "systemd-nspawn is not here, so the unit was not run"
    (root / "root/booted.sh").write_text(BOOTED)
    units = root / "etc/systemd/system"
    (units / "trial.service").write_text(TRIAL)
    (units / "multi-user.target.wants").mkdir(exist_ok=True)
    (units / "multi-user.target.wants/trial.service").symlink_to("../trial.service")
    words = ["--quiet", "--boot", "--register=no", "--keep-unit", "--private-network", f"--machine=ipcd-{os.getpid()}"]
    try:
        ended = run("systemd-nspawn", *words, "-D", root, seconds=300).stderr.strip()
    except subprocess.TimeoutExpired:
        ended = "it takes more than 5 minutes"
    result = root / "root/booted"
    if not result.exists():
        return f"systemd-nspawn has booted no system ({ended[-100:]!r}), so the unit was not run"
    wanted = ["start 0", ON_DEVICE, "1", "0", "1", "5 kept", "stop 0"]
    check(result.read_text().splitlines() == wanted, f"under systemd: {result.read_text()}")
    return "the unit runs under systemd"


def in_a_system(debs: list[Path]) -> str:
    """A new system of Debian, in which apt installs the packages with what they depend on: README.md's session runs
    there, so does the service, and a purge leaves nothing except the device. Says what was done."""
    here = os.geteuid() == 0 and shutil.which("debootstrap") and shutil.which("unshare") and codename() and CLIENTS
    if not here:
        return "debootstrap or what it needs is not here, so no new system was made"
    root = Path("system").resolve()
    try:
        more = ["--include=systemd,systemd-sysv,dbus"] if boots() else []
        made = run("debootstrap", "--variant=minbase", *more, codename(), root, MIRROR, seconds=1200)
        why = "" if made.returncode == 0 else f"{made.stdout.strip().splitlines()[-1:]}"
    except subprocess.TimeoutExpired:
        why = "it takes more than 20 minutes"
    if why:
        return f"debootstrap has made no system ({why}), so apt installed nothing"
    enter = ("unshare", "--mount", "--pid", "--fork", "--kill-child", f"--mount-proc={root}/proc", "chroot", str(root))
    apart = {"DEBIAN_FRONTEND": "noninteractive", "LC_ALL": "C", "HOME": "/root"}
    apart["PATH"] = "/usr/sbin:/usr/bin:/sbin:/bin"
    for deb in debs:
        shutil.copy(deb, root / "root")
    install = ["apt-get", "install", "-y", "--no-install-recommends", *(f"/root/{deb.name}" for deb in debs)]
    ended = run(*enter, *install, seconds=1800, **apart)
    if ended.returncode and "to fetch" in ended.stderr:
        return "apt has fetched nothing from the network, so it installed nothing"
    check(ended.returncode == 0, f"apt: {ended}")
    check((root / "usr/bin/ipcd-ask").exists(), "apt has not installed ipcd-ask")
    took = first_session(apart["PATH"], (*enter, "sh", "-c", "cd /root && exec bash"), 1)
    ended = run(*enter, "sh", "-c", service(), **apart)
    check((ended.returncode, ended.stderr) == (0, ""), f"the service: {ended}")
    check(ended.stdout.splitlines()[1:] == ["ipcd:ipcd 600", "1"], f"the service: {ended.stdout}")
    for words in (["ipcdctl", "--version"], ["python3", "-c", "import ipcd.sysv_ipc, ipcd.aio"], ["dpkg", "--audit"]):
        ended = run(*enter, *words, **apart)
        check((ended.returncode, ended.stderr) == (0, ""), f"{words}: {ended}")
    booted = under_systemd(root)
    ended = run(*enter, "apt-get", "purge", "-y", *NAMES, seconds=600, **apart)
    check(ended.returncode == 0, f"apt: {ended}")
    # The packages themselves lie in the first folder; the second is in memory, and systemd removes what it made there.
    # In the others apt and dpkg keep what they know of packages.
    others = ("root/", "run/", "var/log/", "var/cache/", "var/lib/dpkg/", "var/lib/apt/")
    left = [it for it in files(root) if "ipcd" in Path(it).name and not it.startswith(others)]
    check(left == ["var/lib/ipcd"], f"a purge by apt leaves {left}")
    check((root / "var/lib/ipcd/device").stat().st_size > 0, "a purge takes the device")
    session_runs = f"README.md's session takes {took:.1f} s"
    return f"apt installs and purges them in a new system, where the server serves, {booted}, and {session_runs}"


def verifies(deb: Path) -> None:
    """The program, its tarball and its package are what is built; one byte more is not."""
    check(make("dist", f"DIST={os.path.abspath('dist')}").returncode == 0, "no tarball is made")
    for file in (Path(PROGRAM), deb, *Path("dist").resolve().iterdir()):
        ended = make("verify", f"FILE={file}")
        check(ended.returncode == 0 and ": its program is the one that is built here" in ended.stdout, f"{ended}")
    Path("other").write_bytes(Path(PROGRAM).read_bytes() + b"x")
    for file, said in (("other", ", and the one that is built here has "), ("missing", "No such file or directory")):
        ended = make("verify", f"FILE={os.path.abspath(file)}")
        check(ended.returncode == 2 and said in ended.stdout + ended.stderr, f"{ended}")


def main() -> None:
    if run("git", "-C", ROOT, "rev-parse", "HEAD").returncode:
        print("deb: this is no tree of git's, so nothing was packed")
        return
    if shutil.which("dpkg-deb") is None or shutil.which("dpkg") is None:
        print("deb: dpkg is not here, so no package was made and none was installed")
        return
    begin = time.monotonic()
    ended = make("deb", f"DEBS={os.getcwd()}/none", "BUILT=missing")
    check(ended.returncode == 2 and "deb: there is no missing: 'make program' comes first" in ended.stderr, f"{ended}")
    debs = packed("first")
    lintian = judge(debs)
    same_again(debs)
    installed(debs)
    verifies(debs[0])
    system = in_a_system(debs)
    without = "" if CLIENTS else "; the clients in C are not built, so their packages were not made"
    without = f"{judged(lintian)}; {system}{without}; {time.monotonic() - begin:.0f} s"
    print(f"deb: {len(debs)} packages, twice the same, installed, used and purged; {without}")


if __name__ == "__main__":
    # The database of dpkg is not kept, so it is in memory where there is a folder for that.
    memory = "/dev/shm" if os.access("/dev/shm", os.W_OK) else None
    with tempfile.TemporaryDirectory() as folder, tempfile.TemporaryDirectory(dir=memory) as database:
        DATABASE = Path(database)
        os.chdir(folder)
        main()
