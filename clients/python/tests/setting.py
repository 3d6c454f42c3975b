"""What the tests of this package stand on: the package itself, and the servers of the repository's tests."""

from __future__ import annotations

import sys
from pathlib import Path

PACKAGE = Path(__file__).resolve().parent.parent
sys.dont_write_bytecode = True
sys.path[:0] = [str(PACKAGE), str(PACKAGE.parent.parent / "tests/lib")]
