"""A segment of Qt's QSharedMemory, with its lock, in four processes. Qt makes keys from files."""

import os
import sys

from PyQt5.QtCore import QSharedMemory

KEY, ROUNDS = "ipcd of peers", 10


def bytes_of(shared):
    data = shared.data() if shared.isAttached() else None
    data.setsize(shared.size())
    return data


def count(shared, rounds):
    for _ in range(rounds):
        assert shared.lock(), shared.errorString()
        data = bytes_of(shared)
        data[0:4] = (int.from_bytes(bytes(data[0:4]), "little") + 1).to_bytes(4, "little")
        assert shared.unlock(), shared.errorString()


shared = QSharedMemory(KEY)
print("create", shared.create(10000), "size", shared.size() >= 10000, "twice", QSharedMemory(KEY).create(10000))
sys.stdout.flush()
children = []
for _ in range(3):
    child = os.fork()
    if child == 0:
        own = QSharedMemory(KEY)
        assert own.attach(), own.errorString()
        count(own, ROUNDS)
        own.detach()
        os._exit(0)
    children.append(child)
count(shared, ROUNDS)
print("children", [os.waitpid(child, 0)[1] for child in children])
print("counted", int.from_bytes(bytes(bytes_of(shared)[0:4]), "little"))
print("detach", shared.detach(), "there", QSharedMemory(KEY).attach())
