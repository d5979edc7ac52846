"""Runs all tests, or those whose names hold one of the words that are given. The last line is 'N passed, M failed', and how many were
skipped.
"""

from __future__ import annotations

import importlib.util
import sys
import time
import unittest
from pathlib import Path

WITHOUT_NUMPY = "test_shell"


class Result(unittest.TestResult):
    """Tells each test in a line, and counts."""

    def __init__(self) -> None:
        super().__init__()
        self.passed = 0

    def startTest(self, test: unittest.TestCase) -> None:
        super().startTest(test)
        self.began = time.monotonic()

    def tell(self, word: str, test: unittest.TestCase, further: str = "") -> None:
        """Prints the line of a test."""
        print(f"{word} {test.id()} ({time.monotonic() - self.began:.1f} s){further}", flush=True)

    def addSuccess(self, test: unittest.TestCase) -> None:
        super().addSuccess(test)
        self.passed += 1
        self.tell("passed", test)

    def addSkip(self, test: unittest.TestCase, reason: str) -> None:
        super().addSkip(test, reason)
        self.tell("skipped", test, f": {reason}")

    def addFailure(self, test: unittest.TestCase, err) -> None:
        super().addFailure(test, err)
        self.tell("FAILED", test, f"\n{self.failures[-1][1]}")

    def addError(self, test: unittest.TestCase, err) -> None:
        super().addError(test, err)
        self.began = getattr(self, "began", time.monotonic())
        self.tell("FAILED", test, f"\n{self.errors[-1][1]}")

    def addSubTest(self, test: unittest.TestCase, subtest: unittest.TestCase, err) -> None:
        super().addSubTest(test, subtest, err)
        if err is not None:
            self.tell("FAILED", subtest, f"\n{(self.failures + self.errors)[-1][1]}")


def chosen(suite: unittest.TestSuite, words: list[str]) -> unittest.TestSuite:
    """The tests whose names hold one of the words; all, where there are no words."""
    found = unittest.TestSuite()
    for test in suite:
        if isinstance(test, unittest.TestSuite):
            found.addTest(chosen(test, words))
        elif not words or any(word in test.id() for word in words):
            found.addTest(test)
    return found


def unreadable(here: Path) -> list[str]:
    """The files of tests that can't even be read, for want of numpy; each is told."""
    if importlib.util.find_spec("numpy"):
        return []
    names = sorted(path.stem for path in here.glob("test_*.py") if path.stem != WITHOUT_NUMPY)
    for name in names:
        print(f"skipped all of tests.{name}: numpy is not installed for {sys.executable}, nor for another Python 3.10 or later here")
    return names


def main() -> int:
    """Runs the tests, and answers the exit status."""
    here = Path(__file__).resolve().parent
    left_out = unreadable(here)
    names = f"{WITHOUT_NUMPY}.py" if left_out else "test_*.py"
    suite = chosen(unittest.defaultTestLoader.discover(str(here), names, str(here.parent)), sys.argv[1:])
    result = Result()
    suite.run(result)
    failed, skipped = len(result.failures) + len(result.errors), len(result.skipped) + len(left_out)
    print(f"{result.passed} passed, {failed} failed" + (f", {skipped} skipped" if skipped else ""))
    return 1 if failed or not (result.passed or skipped) else 0


sys.exit(main())
