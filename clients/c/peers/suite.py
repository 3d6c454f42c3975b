"""Runs suites of unittest that are installed, as `python3 suite.py MODULE..`, and prints one line of each test: its name
and how it has ended. What the tests themselves print goes to /dev/null, since it differs from run to run."""

import os
import sys
import unittest


class Endings(unittest.TestResult):
    """How each test has ended, by its name."""

    def __init__(self) -> None:
        super().__init__()
        self.of: dict[str, str] = {}

    def startTest(self, test: unittest.TestCase) -> None:
        super().startTest(test)
        self.of[test.id()] = "ok"

    def addSkip(self, test: unittest.TestCase, reason: str) -> None:
        super().addSkip(test, reason)
        self.of[test.id()] = "skipped"

    # What has no test of its own is one too: a module that could not begin, or a name that is not there.
    def addFailure(self, test: unittest.TestCase, err: object) -> None:
        self.of[test.id()] = "failed"

    addError = addFailure

    def addSubTest(self, test: unittest.TestCase, _: unittest.TestCase, err: object) -> None:
        if err is not None:
            self.of[test.id()] = "failed"


def main() -> None:
    endings = Endings()
    answer = os.fdopen(os.dup(1), "w")
    silent = os.open(os.devnull, os.O_RDWR)
    os.dup2(silent, 1)
    os.dup2(silent, 2)
    for name in sys.argv[1:]:
        unittest.defaultTestLoader.loadTestsFromName(name).run(endings)
    for name, ending in sorted(endings.of.items()):
        print(f"{name}: {ending}", file=answer)
    passed = list(endings.of.values()).count("ok")
    print(f"{len(endings.of)} tests, {passed} ok", file=answer, flush=True)
    sys.exit(0 if passed > 0 else 1)


if __name__ == "__main__":
    main()
