"""What calls answer that a program finds by their names in the C library, as ctypes does."""

import ctypes
import os

KEY, CREATE, EXCLUSIVE, REMOVE, GETVAL, SETVAL, NOWAIT = 0x69706364, 0o1000, 0o2000, 0, 12, 16, 0o4000


class Message(ctypes.Structure):
    _fields_ = [("type", ctypes.c_long), ("text", ctypes.c_char * 16)]


def told(what, number):
    print(what, number, os.strerror(ctypes.get_errno()) if number == -1 else "")


def tries(library):
    queue = library.msgget(KEY, CREATE | EXCLUSIVE | 0o600)
    told("msgget", queue >= 0)
    told("msgget", library.msgget(KEY, CREATE | EXCLUSIVE | 0o600))
    told("msgsnd", library.msgsnd(queue, ctypes.byref(Message(7, b"by name")), 7, 0))
    taken = Message()
    told("msgrcv", library.msgrcv(queue, ctypes.byref(taken), 16, ctypes.c_long(0), NOWAIT))
    print(taken.type, taken.text)
    told("msgrcv", library.msgrcv(queue, ctypes.byref(taken), 16, ctypes.c_long(0), NOWAIT))
    told("msgctl", library.msgctl(queue, REMOVE, None))
    told("msgctl", library.msgctl(queue, REMOVE, None))
    semaphores = library.semget(KEY, 2, CREATE | EXCLUSIVE | 0o600)
    told("semget", semaphores >= 0)
    told("semctl", library.semctl(semaphores, 1, SETVAL, 3))
    told("semctl", library.semctl(semaphores, 1, GETVAL))
    told("semctl", library.semctl(semaphores, 0, REMOVE))
    library.sem_open.restype = ctypes.c_void_p
    library.sem_trywait.argtypes = library.sem_close.argtypes = [ctypes.c_void_p]
    named = library.sem_open(b"/ipcd_by_name", os.O_CREAT, 0o600, 1)
    told("sem_open", named != 0)
    for _ in range(2):
        told("sem_trywait", library.sem_trywait(named))
    told("sem_close", library.sem_close(named))
    told("sem_unlink", library.sem_unlink(b"/ipcd_by_name"))
    told("sem_unlink", library.sem_unlink(b"/ipcd_by_name"))


tries(ctypes.CDLL("libc.so.6", use_errno=True))
