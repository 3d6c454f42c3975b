"""The module svipc: semaphores, a queue of arrays, and slots of shared memory, between a process and its child."""

import os
import sys

# Not this file.
sys.path = [it for it in sys.path if it != os.path.dirname(os.path.abspath(__file__))]

import numpy  # noqa: E402
import svipc  # noqa: E402

SEMAPHORES, QUEUE, SLOTS = 0x69706371, 0x69706372, 0x69706373
# Elements before that one are not what was sent, on the kernel either: the module has freed their memory.
FIRST = 4


def child() -> None:
    taken = svipc.sem_take(SEMAPHORES, 0)
    numbers = svipc.msq_rcv(QUEUE, 3)
    svipc.shm_write(SLOTS, "answer", numbers * 2 + taken)
    svipc.msq_snd(QUEUE, 4, numbers + 1)
    svipc.sem_give(SEMAPHORES, 1)


def main() -> None:
    print("made", svipc.sem_init(SEMAPHORES, nums=2), svipc.msq_init(QUEUE), svipc.shm_init(SLOTS, slots=3))
    print("not given", svipc.sem_take(SEMAPHORES, 1, wait=0))
    print("in vain", svipc.sem_take(SEMAPHORES, 1, wait=0.2))
    it = os.fork()
    if it == 0:
        child()
        os._exit(0)
    print("sent", svipc.msq_snd(QUEUE, 3, numpy.arange(20, 28)), svipc.sem_give(SEMAPHORES, 0))
    print("taken", svipc.sem_take(SEMAPHORES, 1), "of the child", svipc.msq_rcv(QUEUE, 4)[FIRST:])
    print("read", svipc.shm_read(SLOTS, "answer")[FIRST:], os.waitpid(it, 0)[1])
    print("removed", svipc.shm_cleanup(SLOTS), svipc.msq_cleanup(QUEUE), svipc.sem_cleanup(SEMAPHORES))


main()
