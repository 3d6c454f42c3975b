"""`python3 -m ipcd top`: the objects of a live server again and again, with rates.

The server tells how many messages a queue has and when one was sent and received last, and keeps no count of all.
So the rates are what must have been at least: of the messages that came and went between two looks only the
difference, and one more each way if a time has changed, is seen.
"""

from __future__ import annotations

import sys
import time
from typing import Optional

from . import listing
from .connection import Connection
from .wire import QueueStat

__all__ = ["look", "moved", "top"]

QUEUES = ["key", "msqid", "owner", "messages", "used-bytes", "in/s>=", "out/s>="]
SETS = ["key", "semid", "owner", "nsems", "wait-more", "wait-zero"]


def moved(before: Optional[QueueStat], now: QueueStat) -> tuple[int, int]:
    """How many messages came into a queue and went out of it at least, between two looks."""
    if before is None:
        return now.qnum, 0
    more = now.qnum - before.qnum
    came, went = now.stime != before.stime, now.rtime != before.rtime
    out = max(int(went), int(came) - more, -more)
    return out + more, out


def look(
    connection: Connection, upto: int, before: dict[int, Optional[QueueStat]], seconds: Optional[float]
) -> tuple[str, dict[int, Optional[QueueStat]]]:
    """A page, and what was found of queues. Without seconds it is the first look, which has no rates."""
    found = listing.queues(connection, upto)
    rows = []
    for number, stat in found.items():
        if stat is None:
            rows.append(["-", str(number), *5 * ["-"]])
            continue
        rates = ["-", "-"]
        if seconds is not None:
            rates = [f"{count / seconds:.1f}" for count in moved(before.get(number), stat)]
        words = [listing.key(stat.key), str(number), listing.owner(stat.uid), str(stat.qnum), str(stat.cbytes)]
        rows.append(words + rates)
    page = listing.table("Message Queues", QUEUES, rows) + "\n"
    return page + listing.table("Semaphore Arrays", SETS, set_rows(connection, upto)), found


def set_rows(connection: Connection, upto: int) -> list[listing.Row]:
    rows = []
    for number, stat in listing.sets(connection, upto).items():
        if stat is None:
            rows.append(["-", str(number), *4 * ["-"]])
            continue
        waiting = map(str, listing.waiters(connection, number, stat.nsems))
        rows.append([listing.key(stat.key), str(number), listing.owner(stat.uid), str(stat.nsems), *waiting])
    return rows


def top(connection: Connection, upto: int, every: float, times: Optional[int]) -> None:
    """Looks until it is interrupted, or so many times. A terminal is cleared before each page."""
    before: dict[int, Optional[QueueStat]] = {}
    last: Optional[float] = None
    count = 0
    while times is None or count < times:
        if count:
            time.sleep(every)
        now = time.monotonic()
        page, before = look(connection, upto, before, None if last is None else now - last)
        last = now
        clear = "\x1b[H\x1b[2J" if sys.stdout.isatty() else ""
        print(f"{clear}{page}\nidentifiers 1 to {upto} were tried, every {every:g} s", flush=True)
        count += 1
