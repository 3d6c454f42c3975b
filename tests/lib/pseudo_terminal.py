"""A pseudo terminal for standard error of the built program. tests/scripts/terminal.py and tests/scripts/words.py use
it."""

from __future__ import annotations

import os
import pty
import tty


def open_terminal() -> tuple[int, int]:
    """A terminal, and the end of it that a program writes to. A line's end is one byte there, not two."""
    terminal, errors = pty.openpty()
    tty.setraw(errors)
    return terminal, errors


def all_shown(terminal: int) -> bytes:
    """All that a terminal shows, whose other end is closed. The system hands it over in pieces."""
    shown = b""
    while True:
        try:
            shown += os.read(terminal, 4096)
        except OSError:
            return shown
