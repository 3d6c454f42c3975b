"""A disk with a cache that forgets: an NBD server of one file for one client, on a Unix socket. A write stays in memory
until the client flushes, or is written through if the client wants that (FUA). When the power fails, some of the
sectors that were not flushed are lost, each whole. A disk that lies does nothing at a flush.

It speaks the fixed newstyle protocol as its public description has it, as far as qemu uses that.
"""

from __future__ import annotations

import os
import random
import socket
import struct
import threading
import time
from pathlib import Path

SECTOR = 512
OPTION, REPLY, REQUEST, ANSWER = 0x49484156454F5054, 0x3E889045565A9, 0x25609513, 0x67446698
EXPORT_NAME, ABORT, INFO, GO = 1, 2, 6, 7
READ, WRITE, DISCONNECT, FLUSH = 0, 1, 2, 3
ACK, REP_INFO, UNSUPPORTED = 1, 3, 0x80000001
# The server has flags, and takes flushes and FUA.
FLAGS = 1 | 4 | 8
EINVAL = 22
# How many seconds a flush takes: the power may fail meanwhile.
SLOW = 0.03


class Gone(Exception):
    """The client has ended the connection."""


class Disk:
    """The file, and of each sector what was written to it since the last flush, the oldest first."""

    def __init__(self, path: Path, lies: bool) -> None:
        self.lies = lies
        self.file = os.open(path, os.O_RDWR)
        self.size = os.fstat(self.file).st_size
        self.cached: dict[int, list[bytes]] = {}
        self.flushes = 0

    def read(self, place: int, size: int) -> bytes:
        data = bytearray(os.pread(self.file, size, place))
        for sector in range(place // SECTOR, (place + size) // SECTOR):
            if sector in self.cached:
                at = sector * SECTOR - place
                data[at : at + SECTOR] = self.cached[sector][-1]
        return bytes(data)

    def write(self, place: int, data: bytes, through: bool) -> None:
        through = through and not self.lies
        if through:
            os.pwrite(self.file, data, place)
        for at in range(0, len(data), SECTOR):
            sector = (place + at) // SECTOR
            if through:
                self.cached.pop(sector, None)
            else:
                self.cached.setdefault(sector, []).append(data[at : at + SECTOR])

    def flush(self) -> None:
        self.flushes += 1
        if self.lies:
            return
        for sector, them in self.cached.items():
            os.pwrite(self.file, them[-1], sector * SECTOR)
        self.cached.clear()

    def power_fails(self, rng: random.Random) -> tuple[int, int]:
        """How many sectors were not flushed, and how many of them are not as they were written last. What is kept is
        all, nothing, or of each sector by a coin something that was written to it."""
        kept = rng.choice([0.0, 0.1, 0.5, 0.5, 0.9, 1.0])
        lost = 0
        for sector, them in self.cached.items():
            if rng.random() >= kept:
                lost += 1
                continue
            data = rng.choice(them)
            lost += data is not them[-1]
            os.pwrite(self.file, data, sector * SECTOR)
        found = len(self.cached), lost
        self.cached.clear()
        return found

    def close(self) -> None:
        os.close(self.file)


class Server(threading.Thread):
    """Serves one client, until it ends or the power is off."""

    def __init__(self, disk: Disk, path: str) -> None:
        super().__init__(daemon=True)
        self.disk = disk
        self.listener = socket.socket(socket.AF_UNIX)
        self.listener.bind(path)
        self.listener.listen()
        self.client: socket.socket | None = None
        self.failure: Exception | None = None
        self.off = False

    def run(self) -> None:
        try:
            self.client, _ = self.listener.accept()
            self.greet()
            while not self.off and self.serve():
                pass
        except (Gone, ConnectionError):
            pass
        except Exception as failure:
            self.failure = failure

    def finish(self) -> None:
        """After the client has ended."""
        self.join(20)
        if self.is_alive() or self.failure:
            raise AssertionError(f"the disk failed: {self.failure}")
        self.listener.close()
        self.client.close()

    def take(self, size: int) -> bytes:
        data = b""
        while len(data) < size:
            more = self.client.recv(size - len(data))
            if not more:
                raise Gone
            data += more
        return data

    def greet(self) -> None:
        self.client.sendall(b"NBDMAGIC" + struct.pack(">QH", OPTION, 3))
        self.take(4)
        while True:
            _, option, size = struct.unpack(">QII", self.take(16))
            self.take(size)
            if option == EXPORT_NAME:
                self.client.sendall(struct.pack(">QH", self.disk.size, FLAGS))
                return
            if option == GO or option == INFO:
                self.reply(option, REP_INFO, struct.pack(">HQH", 0, self.disk.size, FLAGS))
            self.reply(option, ACK if option in (GO, INFO, ABORT) else UNSUPPORTED)
            if option == GO:
                return
            if option == ABORT:
                raise Gone

    def reply(self, option: int, kind: int, data: bytes = b"") -> None:
        self.client.sendall(struct.pack(">QIII", REPLY, option, kind, len(data)) + data)

    def serve(self) -> bool:
        magic, flags, kind, handle, place, size = struct.unpack(">IHHQQI", self.take(28))
        if magic != REQUEST:
            raise AssertionError(f"{magic:x} is no request")
        data, error = b"", 0
        if kind == READ:
            data = self.disk.read(place, size)
        elif kind == WRITE:
            self.disk.write(place, self.take(size), bool(flags & 1))
        elif kind == FLUSH:
            time.sleep(SLOW)
            if self.off:
                return False
            self.disk.flush()
        elif kind == DISCONNECT:
            return False
        else:
            error = EINVAL
        self.client.sendall(struct.pack(">IIQ", ANSWER, error, handle) + data)
        return True
