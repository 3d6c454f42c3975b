"""A client of ipcd, made of Python's standard library alone. A first session, in the folder of this
file, makes an object of each kind, and finds them after the server was killed:

    $ ipcd format device
    formatted 252440 sectors
    $ ipcd serve device socket &
    serving device, 252440 sectors, on socket, standard limits
    $ python3
    >>> from client import *
    >>> with Connection("socket") as connection:
    ...     connection.hello(uid=1000, gid=100)
    ...     queue = connection.msgget(1234, IPC_CREAT | 0o600)
    ...     connection.msgsnd(queue, 5, b"hi")
    ...     gates = connection.semget(1234, 2, IPC_CREAT | 0o600)
    ...     connection.semctl_setall(gates, [1, 5])
    ...     jobs = connection.mq_open("/jobs", O_CREAT | O_RDWR, 0o600)
    ...     connection.mq_send(jobs, b"sweep", priority=7)
    ...     ready = connection.sem_open("/ready", O_CREAT, 0o600, value=2)
    ...     table = connection.shm_open("/table", O_CREAT | O_RDWR, 0o600)
    ...     connection.ftruncate(table, 4096)
    ...     connection.shm_write(table, 8, b"row")
    ...     shared = connection.shmat(connection.shmget(1234, 4096, IPC_CREAT | 0o600))
    ...     connection.attached_write(shared, 8, b"old")
    ...
    1
    >>> exit()
    $ kill -9 $!; wait $!; rm socket
    $ ipcd dump device
    msg          1        1234 0600       1000        100          2          1
    sem          1        1234 0600       1000        100          2
    pmq 0600       1000        100          1         10       8192 /jobs
    psm 0600       1000        100          2 /ready
    shm 0600       1000        100       4096 /table
    seg          1        1234 0600       1000        100       4096          0
    $ ipcd serve device socket &
    serving device, 252440 sectors, on socket, standard limits
    $ python3
    >>> from client import *
    >>> with Connection("socket") as connection:
    ...     connection.hello(uid=1000, gid=100)
    ...     connection.msgrcv(connection.msgget(1234, 0), 64)
    ...     connection.semctl_getall(connection.semget(1234, 0, 0))
    ...     connection.mq_receive(connection.mq_open("/jobs", O_RDONLY), 8192)
    ...     connection.sem_getvalue(connection.sem_open("/ready", 0))
    ...     connection.shm_read(connection.shm_open("/table", O_RDONLY), 8, 3)
    ...     connection.attached_read(connection.shmat(connection.shmget(1234, 0, 0)), 8, 3)
    ...
    2
    (5, b'hi')
    [1, 5]
    (7, b'sweep')
    2
    b'row'
    b'old'
    >>> exit()
    $ kill $!; wait $!; rm device socket

The package `ipcd` in clients/python has what is used here, and its page tells more. This file finds the
package by itself, so that an example needs no installation.
"""

from __future__ import annotations

import sys
from pathlib import Path

sys.path.insert(0, str(Path(__file__).resolve().parent.parent / "clients" / "python"))

from ipcd.connection import *  # noqa: E402, F403
from ipcd.wire import *  # noqa: E402, F403
