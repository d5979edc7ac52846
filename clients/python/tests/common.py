"""What the tests share: the program, folders for the while, and arrays whose elements all differ."""

from __future__ import annotations

import importlib.util
import os
import tempfile
import unittest
from pathlib import Path

import numpy

import bmmc
from bmmc.program import CHECKOUT

try:
    PROGRAM = bmmc.find_program()
except bmmc.MissingProgram as error:
    if os.environ.get("BMMC"):
        raise
    PROGRAM, WHY_NONE = None, str(error)
else:
    WHY_NONE = ""

needs_program = unittest.skipUnless(PROGRAM, WHY_NONE)
FORMATS = CHECKOUT / "docs" / "FORMATS.md"
PACKAGE = CHECKOUT / "clients" / "python"


def needs_package(name: str):
    """Skips a test where a package is not installed."""
    return unittest.skipUnless(importlib.util.find_spec(name), f"the package {name} is not installed")


class FolderTest(unittest.TestCase):
    """A test with a folder of its own, `self.folder`."""

    def setUp(self) -> None:
        made = tempfile.TemporaryDirectory(prefix="bmmc-test-")
        self.addCleanup(made.cleanup)
        self.folder = Path(made.name).resolve()

    def folders(self, count: int) -> list[Path]:
        """New folders for disks."""
        made = [self.folder / f"disk{k}" for k in range(count)]
        for folder in made:
            folder.mkdir()
        return made

    def saved(self, array: numpy.ndarray, name: str = "in.npy") -> Path:
        """The `.npy` file of an array."""
        numpy.save(self.folder / name, array)
        return self.folder / name

    def assert_raises(self, kind: type, *words: str):
        """Asserts that an error of this kind comes, with each of these words in its text."""
        test = self

        class Asserted:
            def __enter__(self) -> "Asserted":
                return self

            def __exit__(self, found, error, trace) -> bool:
                test.assertIsNotNone(found, f"{kind.__name__} did not come")
                if not issubclass(found, kind):
                    return False
                self.error = error
                for word in words:
                    test.assertIn(word, str(error))
                return True

        return Asserted()


def random_map(n: int, seed: int) -> bmmc.Map:
    """A map of n address bits, each matrix and each complement as likely as another."""
    random = numpy.random.default_rng(seed)
    while True:
        try:
            return bmmc.rows(random.integers(0, 1 << n, n).tolist(), int(random.integers(0, 1 << n)))
        except bmmc.MapError:
            continue


def numbered(*sides: int, dtype: str = "<u4") -> numpy.ndarray:
    """An array of these sides whose elements are their places in C order."""
    return numpy.arange(int(numpy.prod(sides)), dtype=dtype).reshape(sides)
