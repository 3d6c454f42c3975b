"""OSSP mm, by its library: a pool of shared memory, of which processes take pieces under its lock."""

import ctypes
import os
from ctypes import c_char_p, c_int, c_size_t, c_void_p

mm = ctypes.CDLL("libmm.so.14")
READ, WRITE = 0, 1
for name, result, arguments in (
    ("create", c_void_p, [c_size_t, c_char_p]),
    ("malloc", c_void_p, [c_void_p, c_size_t]),
    ("free", None, [c_void_p, c_void_p]),
    ("sizeof", c_size_t, [c_void_p, c_void_p]),
    ("available", c_size_t, [c_void_p]),
    ("lock", c_int, [c_void_p, c_int]),
    ("unlock", c_int, [c_void_p]),
    ("destroy", None, [c_void_p]),
):
    call = getattr(mm, f"mm_{name}")
    call.restype, call.argtypes = result, arguments


def count(pool: int, numbers: ctypes.Array, times: int) -> None:
    for _ in range(times):
        mm.mm_lock(pool, WRITE)
        numbers[0] += 1
        mm.mm_unlock(pool)


def main() -> None:
    pool = mm.mm_create(65536, b"mm_lock")
    print("a pool", pool is not None)
    before = mm.mm_available(pool)
    address = mm.mm_malloc(pool, 1000)
    numbers = (ctypes.c_uint * 250).from_address(address)
    print("a piece", mm.mm_sizeof(pool, address) >= 1000, mm.mm_available(pool) < before)
    numbers[0], numbers[249] = 0, 249
    children = []
    for _ in range(3):
        child = os.fork()
        if child == 0:
            count(pool, numbers, 20)
            os._exit(0)
        children.append(child)
    count(pool, numbers, 20)
    print("children", [os.waitpid(child, 0)[1] for child in children], "counted", numbers[0], numbers[249])
    mm.mm_free(pool, address)
    mm.mm_destroy(pool)


main()
