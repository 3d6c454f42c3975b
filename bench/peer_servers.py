"""The servers that bench/peers.py measures: how each is started so that what it has answered outlives a power failure,
and what its answer means then. Nothing is installed, and no server that runs is touched: each has its files and its
socket in the working folder."""

from __future__ import annotations

import os
import pwd
import shutil
import signal
import sqlite3
import subprocess
import time
from collections.abc import Iterator
from contextlib import contextmanager
from pathlib import Path

from peer_clients import PATIENCE, Beanstalk, Connection, Ipcd, Postgres, Redis, TableMaker

LOG = "log"


def version(*words: str | Path) -> str:
    return subprocess.run(words, capture_output=True, text=True).stdout.strip()


@contextmanager
def running(words: list[str | Path], end: signal.Signals = signal.SIGTERM, **named: object) -> Iterator[None]:
    """A program that is ended by this signal."""
    with open(LOG, "ab") as log, subprocess.Popen(words, stdout=log, stderr=log, **named) as server:
        try:
            yield
        finally:
            server.send_signal(end)
            try:
                server.wait(PATIENCE)
            except subprocess.TimeoutExpired:
                server.kill()


def until_answered(client: type[Connection], address: str) -> None:
    """Waits until a client can begin."""
    end = time.monotonic() + PATIENCE
    while True:
        try:
            client(address, 0).close()
            return
        except OSError:
            if time.monotonic() > end:
                raise
        time.sleep(0.02)


class Peer:
    """What is measured. `missing` says why it is left out, if it is."""

    name: str
    meaning: str
    # None for what is no server, but a library.
    client: type[Connection] | None

    def missing(self) -> str:
        return ""

    def version(self) -> str:
        raise NotImplementedError

    @contextmanager
    def serving(self, folder: str) -> Iterator[str]:
        """It is there, in a new folder of this name, at the address that is answered."""
        raise NotImplementedError
        yield


class IpcdPeer(Peer):
    name = "ipcd"
    meaning = "a send and a receive are on the disk, by two syncs"
    client = Ipcd
    options: tuple[str, ...] = ()

    def __init__(self, program: str) -> None:
        self.program = program

    def version(self) -> str:
        return version(self.program, "--version")

    @contextmanager
    def serving(self, folder: str) -> Iterator[str]:
        device, address = f"{folder}/device", f"{folder}/socket"
        subprocess.run([self.program, "format", device, *self.options], check=True, stdout=subprocess.DEVNULL)
        with running([self.program, "serve", device, address]):
            until_answered(self.client, address)
            yield address


class IpcdOfThree(IpcdPeer):
    """On a device of version 3, with a journal as long as `--large` has it."""

    name = "ipcd, version 3"
    meaning = "a send and a receive are on the disk, by one sync"
    options = ("--journal", "8192")


class RedisPeer(Peer):
    name = "redis"
    meaning = "an RPUSH and an LPOP are on the disk, by one sync (`appendfsync always`)"
    client = Redis
    SETTINGS = {"port": "0", "appendonly": "yes", "appendfsync": "always", "save": ""}

    def missing(self) -> str:
        return "" if shutil.which("redis-server") else "there is no redis-server (Debian: redis-server)"

    def version(self) -> str:
        return " ".join(version("redis-server", "--version").split()[:3])

    @contextmanager
    def serving(self, folder: str) -> Iterator[str]:
        address = f"{folder}/socket"
        # It works in its folder, so its socket has no path.
        settings = {**self.SETTINGS, "dir": os.path.abspath(folder), "unixsocket": "socket"}
        with running(["redis-server", *(word for key, value in settings.items() for word in (f"--{key}", value))]):
            until_answered(self.client, address)
            yield address


class BeanstalkPeer(Peer):
    name = "beanstalkd"
    meaning = "a put and a delete are on the disk, by one sync (`-f 0`); a reserve is not, and ends with a crash"
    client = Beanstalk

    def missing(self) -> str:
        return "" if shutil.which("beanstalkd") else "there is no beanstalkd (Debian: beanstalkd)"

    def version(self) -> str:
        return version("beanstalkd", "-v")

    @contextmanager
    def serving(self, folder: str) -> Iterator[str]:
        address = f"{folder}/socket"
        with running(["beanstalkd", "-l", f"unix:{address}", "-b", folder, "-f", "0"]):
            until_answered(self.client, address)
            yield address


class PostgresPeer(Peer):
    name = "PostgreSQL"
    meaning = "the transaction of an INSERT or a DELETE is on the disk, by one sync (`synchronous_commit` on)"
    client = Postgres
    USER = "postgres"

    def __init__(self) -> None:
        folders = sorted(Path("/usr/lib/postgresql").glob("*/bin"), key=lambda it: float(it.parent.name))
        self.programs = folders[-1] if folders else None
        # It does not run as root.
        self.as_user: dict[str, object] = {}
        if os.geteuid() == 0 and self.has_user():
            self.as_user = {"user": self.USER, "group": pwd.getpwnam(self.USER).pw_gid, "extra_groups": []}

    def has_user(self) -> bool:
        return any(it.pw_name == self.USER for it in pwd.getpwall())

    def missing(self) -> str:
        if self.programs is None:
            return "there is no PostgreSQL in /usr/lib/postgresql (Debian: postgresql)"
        if os.geteuid() == 0 and not self.as_user:
            return f"it does not run as root, and there is no user {self.USER}"
        return ""

    def version(self) -> str:
        return version(self.programs / "postgres", "--version")

    @contextmanager
    def serving(self, folder: str) -> Iterator[str]:
        if self.as_user:
            shutil.chown(folder, self.USER, self.as_user["group"])
        make = [self.programs / "initdb", "--pgdata", ".", "--username", "bench", "--auth", "trust", "--no-locale"]
        subprocess.run([*make, "--encoding", "UTF8"], cwd=folder, check=True, capture_output=True, **self.as_user)
        words = [self.programs / "postgres", "-D", ".", "-k", ".", "-c", "listen_addresses="]
        address = f"{folder}/.s.PGSQL.5432"
        with running(words, signal.SIGINT, cwd=folder, **self.as_user):
            until_answered(TableMaker, address)
            yield address


class SqlitePeer(Peer):
    name = "SQLite"
    meaning = "the transaction of an INSERT or a DELETE is on the disk, by one sync (WAL, `synchronous` FULL)"
    client = None
    TABLE = (
        "CREATE TABLE messages (id INTEGER PRIMARY KEY, kind INTEGER NOT NULL, text TEXT NOT NULL);"
        "CREATE INDEX kinds ON messages (kind, id);"
    )

    def missing(self) -> str:
        return "" if sqlite3.sqlite_version_info >= (3, 35) else "its RETURNING came with version 3.35"

    def version(self) -> str:
        return f"SQLite {sqlite3.sqlite_version}"

    @contextmanager
    def serving(self, folder: str) -> Iterator[str]:
        address = f"{folder}/database"
        database = sqlite3.connect(address)
        database.execute("PRAGMA journal_mode = WAL")
        database.executescript(self.TABLE)
        database.close()
        yield address


def peers(program: str) -> list[Peer]:
    return [IpcdPeer(program), IpcdOfThree(program), RedisPeer(), BeanstalkPeer(), PostgresPeer(), SqlitePeer()]
