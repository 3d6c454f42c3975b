"""A failure of power for a device in a file: of the sectors that were written and not synced some are taken back, each
whole. tests/chaos/power.c writes down what they were."""

from __future__ import annotations

import os
import random
import struct
from pathlib import Path

SECTOR = 512


def unsynced(log: bytes) -> dict[int, list[bytes]]:
    """Of each sector that was written since the last sync what it was before each write, the oldest first."""
    found: dict[int, list[bytes]] = {}
    place = 0
    while place + 16 <= len(log):
        at, size = struct.unpack_from("=QQ", log, place)
        old = log[place + 16 : place + 16 + size]
        # A record that was cut off is of a write that had not begun.
        if len(old) < size:
            break
        if at % SECTOR or size % SECTOR:
            raise AssertionError(f"a write of {size} bytes at {at} is none of whole sectors")
        for part in range(0, size, SECTOR):
            found.setdefault((at + part) // SECTOR, []).append(old[part : part + SECTOR])
        place += 16 + size
    return found


def taken_back(sectors: dict[int, list[bytes]], rng: random.Random) -> dict[int, bytes]:
    """Which of these are taken back, and to what: all, none, one, all but one, those from some place on, or each by a
    coin. A sector that was written several times may be as it was before any of these writes."""
    numbers = sorted(sectors)
    some = {
        "all": numbers,
        "none": [],
        "one": rng.sample(numbers, min(1, len(numbers))),
        "all but one": rng.sample(numbers, max(0, len(numbers) - 1)),
        "last ones": numbers[rng.randrange(len(numbers) + 1) :],
        "each": [it for it in numbers if rng.random() < 0.5],
    }[rng.choice(["all", "all", "one", "all but one", "last ones", "each", "each", "none"])]
    return {it: rng.choice([sectors[it][0], rng.choice(sectors[it])]) for it in some}


def power_fails(device: Path, log: Path, rng: random.Random) -> tuple[int, int]:
    """How many sectors were not synced, and how many of these were taken back. What is left is what the disk has."""
    there = log.read_bytes() if log.exists() else b""
    sectors = unsynced(there)
    back = taken_back(sectors, rng)
    with open(device, "r+b") as file:
        for number, data in back.items():
            file.seek(number * SECTOR)
            file.write(data)
    os.truncate(log, 0) if log.exists() else None
    return len(sectors), len(back)
