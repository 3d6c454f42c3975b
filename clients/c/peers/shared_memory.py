"""multiprocessing.shared_memory: bytes that two processes map, the length and mode of a segment, and what is left."""

import os
from multiprocessing import Process
from multiprocessing.shared_memory import ShareableList, SharedMemory

NAME = "ipcd_peer"


def write_back(name: str) -> None:
    there = SharedMemory(name=name)
    there.buf[:5] = bytes(reversed(there.buf[:5]))
    there.close()


def refused(name: str, create: bool) -> str:
    try:
        SharedMemory(name=name, create=create, size=10)
    except OSError as error:
        return type(error).__name__
    return "it is made"


def main() -> None:
    first = SharedMemory(name=NAME, create=True, size=10000)
    status = os.fstat(first._fd)
    print("length", first.size, status.st_size, "mode", oct(status.st_mode), "owner", status.st_uid == os.geteuid())
    print("twice", refused(NAME, create=True))
    first.buf[:5] = b"abcde"
    first.buf[9999] = 7
    for _ in range(3):
        child = Process(target=write_back, args=(NAME,))
        child.start()
        child.join()
        print("a child", child.exitcode, bytes(first.buf[:5]))
    second = SharedMemory(name=NAME)
    print("again", second.size, second.buf[9999])
    second.close()
    numbers = ShareableList([1, "two", 3.5, None], name=NAME + "_list")
    others = ShareableList(name=NAME + "_list")
    others[0] = 10
    print("a list", list(numbers))
    others.shm.close()
    numbers.shm.close()
    numbers.shm.unlink()
    first.unlink()
    print("unlinked", first.buf[9999], refused(NAME, create=False))
    many = [SharedMemory(create=True, size=1000) for _ in range(20)]
    for i, it in enumerate(many):
        it.buf[0] = i
    print("many", [it.buf[0] for it in many])
    for it in (first, *many):
        it.close()
    for it in many:
        it.unlink()


main()
