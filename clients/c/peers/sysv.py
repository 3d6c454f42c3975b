"""What the module sysv_ipc answers: message queues and semaphores, each method and attribute."""

import os
import time

import sysv_ipc as ipc

KEY = 0x69706361


def told(what, call):
    try:
        print(what, call())
    except (ipc.Error, ValueError, OSError) as error:
        print(what, type(error).__name__, error)


def recent(moment):
    return abs(moment - time.time()) < 5


def clear(kind):
    """Removes what a run before this has left."""
    try:
        kind(KEY).remove()
    except ipc.ExistentialError:
        pass


clear(ipc.MessageQueue)
clear(ipc.Semaphore)
queue = ipc.MessageQueue(KEY, ipc.IPC_CREX, 0o600, 2048)
told("again", lambda: ipc.MessageQueue(KEY, ipc.IPC_CREX))
told("same", lambda: ipc.MessageQueue(KEY).id == queue.id)
for number in (4, 2, 9):
    told("send", lambda: queue.send(b"text %d" % number, block=False, type=number))
told("counts", lambda: (queue.current_messages, queue.key == KEY, queue.mode))
told("new qbytes", lambda: queue.max_size)
told("users", lambda: (queue.uid == os.geteuid(), queue.cuid == os.geteuid(), queue.gid == os.getegid()))
told("pids", lambda: (queue.last_send_pid == os.getpid(), queue.last_receive_pid))
told("times", lambda: (recent(queue.last_send_time), queue.last_receive_time, recent(queue.last_change_time)))
told("receive", lambda: queue.receive(block=False, type=-5))
told("receive", lambda: queue.receive(block=False))
told("receive", lambda: queue.receive(block=False, type=7))
told("receive", lambda: queue.receive())
told("receive", lambda: queue.receive(block=False))
told("pids", lambda: queue.last_receive_pid == os.getpid())
queue.max_size = 100
queue.mode = 0o640
told("set", lambda: (queue.max_size, queue.mode))
told("full", lambda: [queue.send(b"x" * 60, block=False) for _ in range(2)])
told("remove", queue.remove)
told("gone", queue.remove)
told("none", lambda: ipc.MessageQueue(KEY))

semaphore = ipc.Semaphore(KEY, ipc.IPC_CREX, 0o600, 2)
told("value", lambda: (semaphore.value, semaphore.id == ipc.Semaphore(KEY).id, semaphore.block))
told("acquire", lambda: (semaphore.acquire(), semaphore.P(), semaphore.value))
semaphore.block = False
told("acquire", semaphore.acquire)
semaphore.block = True
told("timeout", lambda: semaphore.acquire(timeout=0.2))
told("release", lambda: (semaphore.release(), semaphore.V(delta=2), semaphore.value))
told("delta", lambda: (semaphore.acquire(delta=3), semaphore.value, semaphore.Z()))
told("pid", lambda: semaphore.last_pid == os.getpid())
told("waiters", lambda: (semaphore.waiting_for_nonzero, semaphore.waiting_for_zero))
told("times", lambda: recent(semaphore.o_time))
semaphore.undo = True
before = semaphore.value
child = os.fork()
if child == 0:
    semaphore.release()
    os._exit(0)
os.waitpid(child, 0)
# On a server that is done a moment after the end.
for _ in range(3000):
    if semaphore.value == before:
        break
    time.sleep(0.01)
told("undone", lambda: semaphore.value)
semaphore.value = 32767
told("great", lambda: (semaphore.value, semaphore.release()))
semaphore.mode = 0o640
told("mode", lambda: semaphore.mode)
with ipc.Semaphore(KEY):
    told("with", lambda: semaphore.value)
told("remove", semaphore.remove)
told("none", lambda: ipc.Semaphore(KEY))
