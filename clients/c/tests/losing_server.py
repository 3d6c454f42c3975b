"""A server whose connections end in the midst of some calls: before they have come, or after they were done."""

from __future__ import annotations

import os
import socket
import struct
import threading
from collections.abc import Callable
from contextlib import suppress

SEMOP, SHM_WRITE, ATTACHED_WRITE = 0x15, 0x40, 0x4D
# Of the fields, up to the first operation: the set, the limit of time, and the number of the semaphore.
BEFORE_CHANGE = 14


def takes(opcode: int, fields: bytes) -> bool:
    return opcode == SEMOP and struct.unpack_from(">h", fields, BEFORE_CHANGE)[0] < 0


def writes(opcode: int, fields: bytes) -> bool:
    """Into a segment that is mapped."""
    return opcode in (SHM_WRITE, ATTACHED_WRITE)


class LosingServer:
    """It hands on what comes for the server at `socket`, and its answers. It loses each answer to one of some calls, by
    default a semop that takes; or, if that is not to be done, each second of them, of which the first is then made
    again."""

    def __init__(self, is_done: bool, of: Callable[[int, bytes], bool] = takes) -> None:
        self.path = os.path.abspath("losing")
        self.lost = 0
        self.loses = True
        self._is_done = is_done
        self._of = of
        self._came = 0
        self._listening = socket.socket(socket.AF_UNIX, socket.SOCK_STREAM)
        self._listening.bind(self.path)
        self._listening.listen()

    def __enter__(self) -> LosingServer:
        threading.Thread(target=self._accept, daemon=True).start()
        return self

    def __exit__(self, *raised: object) -> None:
        # A close alone does not end an accept of another thread.
        self._listening.shutdown(socket.SHUT_RDWR)
        self._listening.close()
        os.remove(self.path)

    def _accept(self) -> None:
        with suppress(OSError):
            while True:
                client, _ = self._listening.accept()
                threading.Thread(target=self._serve, args=(client,), daemon=True).start()

    def _is_lost(self, opcode: int, fields: bytes) -> bool:
        if not self.loses or not self._of(opcode, fields):
            return False
        self._came += 1
        is_lost = self._is_done or self._came % 2 == 1
        self.lost += is_lost
        return is_lost

    def _serve(self, client: socket.socket) -> None:
        server = socket.socket(socket.AF_UNIX, socket.SOCK_STREAM)
        server.connect("socket")
        # The program may be killed meanwhile.
        with suppress(OSError), client, server, client.makefile("rb") as requests, server.makefile("rb") as replies:
            while len(head := requests.read(9)) == 9:
                length, _, opcode = struct.unpack(">IIB", head)
                fields = requests.read(length - 5)
                is_lost = self._is_lost(opcode, fields)
                if is_lost and not self._is_done:
                    return
                server.sendall(head + fields)
                size = replies.read(4)
                reply = replies.read(struct.unpack(">I", size)[0])
                if is_lost:
                    return
                client.sendall(size + reply)
