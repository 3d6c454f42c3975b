"""Clients of ipcd, a server of System V and POSIX IPC objects that outlive crashes.

`Connection` has a method for each call. `ipcd.sysv_ipc` and `ipcd.posix_ipc` are what the modules of these
names are on the kernel's objects, `ipcd.work` does work at least once, and `python3 -m ipcd` is for people.
"""

from __future__ import annotations

from . import wire
from .connection import Connection, ProtocolError, ServerFault
from .wire import *  # noqa: F403

__all__ = ["Connection", "ProtocolError", "ServerFault"]
__all__ += wire.__all__

__version__ = "0.1.0"
