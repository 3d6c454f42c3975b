"""Prints in words what a script asks and what the server answers, with the bytes below.

    ipcd replay < SCRIPT | python3 examples/frames.py SCRIPT

Words and fields are those of docs/PROTOCOL.md. A request stands where its reply comes, with that reply, and a crash
where the script has one. A request without a reply stands at the end. It needs Python's standard library alone.
"""

from __future__ import annotations

import errno
import json
import struct
import sys
from collections.abc import Iterator
from typing import NamedTuple

# Of each opcode the call, the fields of the request, and those of the reply. A field is a name and how it stands: by
# the letters of struct, `o` for a number of bits, `t` for a time, and at the end `*` for a text, `+` for bytes. A body
# may end before a field whose name has a `?`.
CALLS = {
    0x01: ("HELLO", "uid:I gid:I", "process:I version?:I"),
    0x02: ("INTERRUPT", "", ""),
    0x03: ("close", "descriptor:I", ""),
    0x0A: ("msgget", "key:i flags:o", "queue:I"),
    0x0B: ("msgsnd", "queue:I flags:o type:q text:*", ""),
    0x0C: ("msgrcv", "queue:I flags:o size:I type:q", "type:q text:*"),
    0x0D: ("msgctl IPC_STAT", "queue:I", "record:+"),
    0x0E: ("msgctl IPC_SET", "queue:I uid:I gid:I mode:o qbytes:I", ""),
    0x0F: ("msgctl IPC_RMID", "queue:I", ""),
    0x14: ("semget", "key:i semaphores:i flags:o", "set:I"),
    0x15: ("semop", "set:I timeout:t operations:+", ""),
    0x16: ("semctl GETVAL", "set:I number:I", "value:I"),
    0x17: ("semctl GETPID", "set:I number:I", "process:I"),
    0x18: ("semctl GETNCNT", "set:I number:I", "count:I"),
    0x19: ("semctl GETZCNT", "set:I number:I", "count:I"),
    0x1A: ("semctl SETVAL", "set:I number:I value:i", ""),
    0x1B: ("semctl GETALL", "set:I", "values:+"),
    0x1C: ("semctl SETALL", "set:I values:+", ""),
    0x1D: ("semctl IPC_STAT", "set:I", "record:+"),
    0x1E: ("semctl IPC_SET", "set:I uid:I gid:I mode:o", ""),
    0x1F: ("semctl IPC_RMID", "set:I", ""),
    0x28: ("mq_open", "flags:o mode:o attributes:B maxmsg:i msgsize:i name:*", "descriptor:I"),
    0x29: ("mq_unlink", "name:*", ""),
    0x2A: ("mq_send", "descriptor:I deadline:t priority:I text:*", ""),
    0x2B: ("mq_receive", "descriptor:I deadline:t size:I", "priority:I text:*"),
    0x2C: ("mq_notify", "descriptor:I kind:I cookie:I", ""),
    0x2D: ("mq_getattr", "descriptor:I", "flags:o maxmsg:I msgsize:I messages:I"),
    0x2E: ("mq_setattr", "descriptor:I flags:o", "flags:o maxmsg:I msgsize:I messages:I"),
    0x32: ("sem_open", "flags:o mode:o value:I name:*", "descriptor:I"),
    0x33: ("sem_unlink", "name:*", ""),
    0x34: ("sem_post", "descriptor:I", ""),
    0x35: ("sem_wait", "descriptor:I deadline:t", ""),
    0x36: ("sem_trywait", "descriptor:I", ""),
    0x37: ("sem_getvalue", "descriptor:I", "value:I"),
    0x3C: ("shm_open", "flags:o mode:o name:*", "descriptor:I"),
    0x3D: ("shm_unlink", "name:*", ""),
    0x3E: ("ftruncate", "descriptor:I length:Q", ""),
    0x3F: ("read", "descriptor:I offset:Q length:I", "bytes:*"),
    0x40: ("write", "descriptor:I offset:Q bytes:*", ""),
    0x41: ("fstat", "descriptor:I", "length:Q uid:I gid:I mode:o"),
    0x46: ("shmget", "key:i size:Q flags:o", "segment:I"),
    0x47: ("shmat", "segment:I flags:o", "attachment:I"),
    0x48: ("shmdt", "attachment:I", ""),
    0x49: ("shmctl IPC_STAT", "segment:I", "record:+"),
    0x4A: ("shmctl IPC_SET", "segment:I uid:I gid:I mode:o", ""),
    0x4B: ("shmctl IPC_RMID", "segment:I", ""),
    0x4C: ("read of what is attached", "attachment:I offset:Q length:I", "bytes:*"),
    0x4D: ("write of what is attached", "attachment:I offset:Q bytes:*", ""),
}
NOTIFICATION = "descriptor:I cookie:I"
NO_TIME = 2**64 - 1


class Frame(NamedTuple):
    """A request with its opcode, or a reply with its error number."""

    serial: int
    head: int
    body: bytes
    digits: str


def frames(data: bytes, size_of_head: int) -> Iterator[Frame]:
    """The frames of bytes, of which the last may be cut off."""
    while len(data) >= 4:
        end = 4 + int.from_bytes(data[:4], "big")
        start = 8 + size_of_head
        head = int.from_bytes(data[8:start], "big")
        yield Frame(int.from_bytes(data[4:8], "big"), head, data[start:end], data[:end].hex())
        data = data[end:]


def shown(name: str, form: str, value: int) -> str:
    if form == "t":
        return f"{name} none" if value == NO_TIME else f"{name} {value} ms"
    return f"{name} {value:#05o}".replace("0o", "0") if form == "o" else f"{name} {value}"


def fields(forms: str, body: bytes) -> str:
    """The fields of a body in words. Flags that are 0 mean nothing, and are left out."""
    told = []
    for word in forms.split():
        name, form = word.split(":")
        if name.endswith("?") and not body:
            break
        name = name.rstrip("?")
        if form in "*+":
            told.append(f"{name} {body.hex()}" if form == "+" else json.dumps(body.decode("latin-1")))
            continue
        code = ">" + {"o": "I", "t": "Q"}.get(form, form)
        size = struct.calcsize(code)
        if len(body) < size:
            return f"a body of {len(body)} bytes more, {body.hex()}"
        (value,) = struct.unpack(code, body[:size])
        body = body[size:]
        if name != "flags" or value:
            told.append(shown(name, form, value))
    return ", ".join(told)


def request_in_words(request: Frame) -> str:
    name, forms, _ = CALLS.get(request.head, (f"opcode {request.head:02x}", "body:+", ""))
    return f"{name} {fields(forms, request.body)}".rstrip()


def reply_in_words(reply: Frame, forms: str) -> str:
    if reply.head:
        return errno.errorcode.get(reply.head, f"error {reply.head}")
    return fields(forms, reply.body) or "done"


class Telling:
    """What was asked and is not answered yet, by connection and serial, and the replies that are not told yet."""

    def __init__(self, replies: list[tuple[str, str]], has_many: bool) -> None:
        self.asked: dict[tuple[str, int], list[Frame]] = {}
        self.replies = replies
        self.has_many = has_many

    def whose(self, connection: str) -> str:
        return f"{connection}: " if self.has_many else ""

    def tell(self, connection: str, digits: str) -> None:
        """Tells one line of what the program has printed, with what was asked."""
        if digits == "end":
            print(f"{self.whose(connection)}the server ends the connection")
            return
        for reply in frames(bytes.fromhex(digits), 2):
            waiting = self.asked.get((connection, reply.serial))
            if reply.serial == 0:
                words = reply_in_words(reply, NOTIFICATION)
                print(f"{self.whose(connection)}notification: {words}\n    -> {reply.digits}")
            elif waiting:
                request = waiting.pop(0)
                words = reply_in_words(reply, CALLS.get(request.head, ("", "", "body:+"))[2])
                told = f"{self.whose(connection)}{request_in_words(request)} -> {words}"
                print(f"{told}\n    {request.digits} -> {reply.digits}")

    def tell_what_came(self) -> None:
        """Tells the replies to what was asked until now: each that comes next, and is of such a request."""
        while self.replies:
            connection, digits = self.replies[0]
            serial = 0 if digits == "end" else int(digits[8:16], 16)
            if serial and not self.asked.get((connection, serial)):
                return
            self.replies.pop(0)
            self.tell(connection, digits)

    def ask(self, line: str) -> None:
        words = line.split()
        if words == ["stop"]:
            self.tell_what_waits()
            print("-- crash --")
        elif len(words) == 4 and words[1] == "data":
            for request in frames(bytes.fromhex(words[3]), 1):
                self.asked.setdefault((words[2], request.serial), []).append(request)

    def tell_what_waits(self) -> None:
        for (connection, _), requests in self.asked.items():
            for request in requests:
                print(f"{self.whose(connection)}{request_in_words(request)} -> no reply\n    {request.digits}")
        self.asked.clear()


def main() -> None:
    with open(sys.argv[1]) as script:
        lines = script.readlines()
    replies = [line.split() for line in sys.stdin]
    connections = {line.split()[2] for line in lines if line.split()[1:2] == ["open"]}
    telling = Telling([(words[0], words[1]) for words in replies], len(connections) > 1)
    for line in lines:
        telling.ask(line)
        telling.tell_what_came()
    telling.tell_what_waits()


if __name__ == "__main__":
    main()
