"""The table of statuses is that of docs/FORMATS.md, and errors carry it."""

from __future__ import annotations

import re
import unittest

import bmmc
from bmmc.statuses import STATUSES

from .common import FORMATS, FolderTest, PROGRAM, needs_program


class Table(unittest.TestCase):
    def test_it_is_that_of_the_formats(self) -> None:
        rows = re.findall(r"^\| (\d+) \| (.*?) \| (.*?) \|(.*)\|$", FORMATS.read_text(encoding="utf-8"), re.MULTILINE)
        documented = {int(code): (words.strip("`"), cause, advice.strip()) for code, words, cause, advice in rows}
        self.assertGreater(len(documented), 20)
        self.assertEqual(documented, {code: (status.words, status.cause, status.advice) for code, status in STATUSES.items()})


@needs_program
class Errors(FolderTest):
    def test_an_error_says_status_cause_and_advice(self) -> None:
        with self.assert_raises(bmmc.StatusError, "status 3", STATUSES[3].cause, STATUSES[3].advice) as caught:
            PROGRAM.call(["run", "job.toml"], self.folder)
        self.assertEqual((caught.error.status, caught.error.words), (3, "job fault"))
        self.assertEqual((caught.error.cause, caught.error.advice), (STATUSES[3].cause, STATUSES[3].advice))

    def test_numbers_that_a_status_carries_are_told(self) -> None:
        text = "[shape]\nn = 4\nb = 3\nd = 1\nm = 3\nwidth = 1\n[map]\nkind = 'gray'\n"
        (self.folder / "job.toml").write_text(text, encoding="utf-8")
        with self.assert_raises(bmmc.StatusError, "job shape rule 3", "status 6") as caught:
            PROGRAM.call(["plan", "job.toml"], self.folder)
        self.assertEqual((caught.error.status, caught.error.numbers), (6, (3,)))


class Filled(unittest.TestCase):
    def test_a_cause_has_the_numbers_of_the_case(self) -> None:
        for words, status, numbers, cause in (
            ("input short 12", 9, (12,), "the input ended after 12 bytes"),
            ("not done 1 of 2", 18, (1, 2), "so many of its passes are done"),
            ("not affine 7 1 18", 23, (7, 1, 18), "number 7 of the list is 1, where the map of its unit addresses has 18"),
            ("job map singular 9", 7, (9,), STATUSES[7].cause),
            ("input long", 10, (), STATUSES[10].cause),
            ("", 26, (), STATUSES[26].cause),
        ):
            error = bmmc.StatusError("load", status, words)
            self.assertEqual((error.numbers, error.cause), (numbers, cause))
            self.assertIn(cause, str(error))
