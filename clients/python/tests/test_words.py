"""`python3 -m bmmc`, as a newcomer uses it."""

from __future__ import annotations

import os
import subprocess
import sys

import numpy

from .common import PACKAGE, PROGRAM, FolderTest, needs_package, needs_program, numbered


class WordsTest(FolderTest):
    """A test that calls `python3 -m bmmc` in its folder."""

    def call(self, *words: str) -> subprocess.CompletedProcess:
        environment = {**os.environ, "PYTHONPATH": str(PACKAGE), "COLUMNS": "200"}
        if PROGRAM:
            environment["BMMC"] = str(PROGRAM.path)
        return subprocess.run([sys.executable, "-m", "bmmc", *words], cwd=self.folder, env=environment, capture_output=True, text=True)

    def done(self, *words: str) -> str:
        """The output of words that are done."""
        ended = self.call(*words)
        self.assertEqual(ended.returncode, 0, ended.stderr)
        return ended.stdout

    def result(self, name: str = "out.npy") -> numpy.ndarray:
        """The array of a result."""
        return numpy.load(self.folder / name)


class Help(WordsTest):
    def test_help_tells_each_command_and_an_example(self) -> None:
        text = self.done("--help")
        self.assertIn("python3 -m bmmc permute in.npy out.npy --axes 2,0,1", text)
        for command in ("permute", "walsh", "plan", "draw", "detect", "resume", "clean"):
            self.assertIn(f"    {command} ", text)
            self.assertIn("usage: python3 -m bmmc " + command, self.done(command, "--help"))

    def test_wrong_words_are_told(self) -> None:
        for words, text in {
            ("permute", "in.npy", "out.npy"): "one of the arguments --axes",
            ("permute", "in.npy", "out.npy", "--axes", "a,b"): "'a,b' is no list of whole numbers",
            ("permute", "in.npy", "out.npy", "--tiles", "4"): "'4' is not two numbers, as 64x64",
            ("permute", "in.npy", "out.npy", "--morton", "--memory", "much"): "'much' is no number of bytes",
            ("permute", "in", "out", "--morton", "--width", "0"): "'0' is no number of bytes of a record",
            ("permute", "in", "out", "--axes", "1,0", "--width", "3", "--sides", "4,4"): "not allowed with argument",
            ("plan", "in.npy", "--morton", "--speed", "0"): "'0' is no speed",
            ("walsh", "in", "out", "--width", "8"): "unrecognized arguments: --width 8",
            (): "COMMAND",
        }.items():
            ended = self.call(*words)
            self.assertEqual(ended.returncode, 2)
            self.assertIn(text, ended.stderr)


@needs_program
class Runs(WordsTest):
    def test_permute_by_axes(self) -> None:
        array = numbered(4, 16, 8)
        self.saved(array)
        self.done("permute", "in.npy", "out.npy", "--axes", "2,0,1", "--memory", "1K", "--block", "64")
        self.assertTrue(numpy.array_equal(self.result(), array.transpose(2, 0, 1)))

    def test_each_map_has_its_option(self) -> None:
        array = numbered(8, 8)
        flat, tiled = array.ravel(), array.reshape(2, 4, 4, 2).transpose(0, 2, 1, 3)
        x = numpy.arange(64)
        self.saved(array)
        for words, wanted in {
            ("--tiles", "4x2"): tiled,
            ("--kind", "reversal"): flat[::-1].reshape(8, 8),
            ("--kind", "gray", "--inverse"): flat[x ^ x >> 1].reshape(8, 8),
            ("--transpose", "2"): flat.reshape(4, 16).T.reshape(8, 8),
            ("--rotation", "2"): flat.reshape(16, 4).T.reshape(8, 8),
            ("--bits", "1,0,2,3,4,5"): flat.reshape(16, 2, 2).transpose(0, 2, 1).reshape(8, 8),
            ("--rows", "1,2,4,8,16,32", "--complement", "63"): flat[::-1].reshape(8, 8),
            ("--morton",): array.reshape(2, 2, 2, 2, 2, 2).transpose(0, 3, 1, 4, 2, 5).ravel(),
        }.items():
            with self.subTest(words):
                self.done("permute", "in.npy", "out.npy", *words, "--memory", "64", "--block", "8")
                self.assertTrue(numpy.array_equal(self.result(), wanted))
        self.saved(tiled)
        self.done("permute", "in.npy", "out.npy", "--untiles")
        self.assertTrue(numpy.array_equal(self.result(), array))

    def test_a_raw_file_has_sides_and_a_width_by_options(self) -> None:
        array = numpy.arange(8 * 16 * 3, dtype="u1").reshape(8, 16, 3)
        (self.folder / "in").write_bytes(array.tobytes())
        self.done("permute", "in", "out", "--axes", "1,0", "--sides", "8,16")
        self.assertEqual((self.folder / "out").read_bytes(), array.transpose(1, 0, 2).tobytes())
        self.done("permute", "in", "out", "--kind", "reversal", "--width", "3")
        self.assertEqual((self.folder / "out").read_bytes(), array.reshape(-1, 3)[::-1].tobytes())
        self.saved(array)
        for words, text in {
            ("permute", "in", "out", "--kind", "gray", "--width", "5"): "384 bytes of",
            ("permute", "in.npy", "out", "--kind", "gray", "--width", "3"): "`--width` and `--sides` are for raw files",
            ("permute", "in.npy", "out", "--axes", "1,0", "--sides", "8,16"): "`--width` and `--sides` are for raw files",
            ("plan", "in", "--walsh", "--complement", "3"): "it takes no `--inverse`, `--complement`",
            ("plan", "in", "--axes", "1,0"): "an array of 2 axes is wanted, and this one has 1: for a raw file, name them by --sides",
        }.items():
            ended = self.call(*words)
            self.assertEqual(ended.returncode, 2)
            self.assertIn(text, ended.stderr)

    def test_walsh_and_disks_and_progress(self) -> None:
        self.saved(numpy.array([1, 2, 3, 4]))
        self.folders(2)
        self.done("walsh", "in.npy", "out.npy", "--disk", "disk0", "--disk", "disk1", "--memory", "16", "--checkpoint", "1")
        self.assertEqual(self.result().tolist(), [10, -2, -4, 0])

    @needs_package("tqdm")
    def test_a_bar_is_shown_where_it_is_asked_for(self) -> None:
        self.saved(numbered(64))
        ended = self.call("permute", "in.npy", "out.npy", "--kind", "gray", "--progress")
        self.assertEqual(ended.returncode, 0)
        self.assertIn("100%", ended.stderr)

    def test_plan_tells_the_cost(self) -> None:
        self.saved(numbered(16, dtype="u1"))
        words = ("--kind", "bit-reversal", "--memory", "8", "--block", "2", "--disks", "2")
        text = self.done("plan", "in.npy", *words, "--speed", "1")
        self.assertEqual(text.splitlines()[:3], ["shape n=4 b=1 d=1 m=3 width=1", "passes 2", "transfers 16, at most 24"])
        self.assertIn("seconds 0.0 at 1 MB/s", text)

    def test_draw_writes_pictures(self) -> None:
        self.saved(numbered(16, dtype="u1"))
        words = ("--kind", "bit-reversal", "--memory", "8", "--block", "2", "--disks", "2")
        self.done("draw", "in.npy", "plan.svg", *words)
        self.done("draw", "in.npy", "pass.svg", *words, "--pass", "2")
        self.assertIn("transfers 16", (self.folder / "plan.svg").read_text(encoding="utf-8"))
        self.assertIn("pass 2 of 2", (self.folder / "pass.svg").read_text(encoding="utf-8"))

    def test_detect_prints_a_job_text_that_the_program_takes(self) -> None:
        addresses = numpy.array([1, 3, 0, 2])
        self.saved(addresses, "list.npy")
        addresses.astype("<u8").tofile(self.folder / "list")
        text = "[shape]\nn = 2\nb = 1\nd = 0\nm = 2\nwidth = 8\n\n[map]\nkind = \"rows\"\nrows = [2, 1]\ncomplement = 1\n"
        self.assertEqual(self.done("detect", "list.npy"), text)
        self.assertEqual(self.done("detect", "list"), text)
        self.assertIn("m = 1\n", self.done("detect", "list", "--memory", "16"))
        (self.folder / "found.toml").write_text(text, encoding="utf-8")
        self.saved(numbered(4, dtype="<u8"))
        with open(self.folder / "list", "rb") as file:
            self.assertEqual(PROGRAM.call(["new", "found.toml"], self.folder), "")
            PROGRAM.call(["load", "found.toml"], self.folder, stdin=file)
        PROGRAM.call(["run", "found.toml"], self.folder)
        with open(self.folder / "moved", "wb") as file:
            PROGRAM.call(["dump", "found.toml"], self.folder, stdout=file)
        self.assertEqual(numpy.fromfile(self.folder / "moved", "<u8").tolist(), [0, 1, 2, 3], "each address moved to itself")

    def test_detect_ends_with_the_status_of_a_list_that_has_no_map(self) -> None:
        for addresses, status, words in (
            ([0, 1, 2, 9], 22, "bmmc detect: out of range 3 9 (status 22). Cause: number 3 of the list is 9, which is no address."),
            ([0, 1, 3, 3], 23, "bmmc detect: not affine 3 3 2 (status 23)."),
            ([2, 2, 3, 3], 24, "bmmc detect: not a permutation 1 (status 24)."),
            ([0, 1, 2], 2, "bmmc: a list of addresses has 2^n numbers"),
        ):
            self.saved(numpy.array(addresses), "list.npy")
            ended = self.call("detect", "list.npy")
            self.assertEqual((ended.returncode, ended.stdout), (status, ""))
            self.assertTrue(ended.stderr.startswith(words), ended.stderr)
            self.assertEqual(ended.stderr.count("\n"), 1)

    def test_errors_name_what_the_shell_has(self) -> None:
        self.saved(numbered(256))
        wrapper = self.folder / "wrapper"
        wrapper.write_text(f'#!/bin/sh\n[ "$1" != run ] || exit 11\nexec {PROGRAM.path} "$@"\n', encoding="utf-8")
        wrapper.chmod(0o755)
        words = ("permute", "in.npy", "out.npy", "--kind", "gray", "--work", "a place")
        place = str(self.folder / "a place")
        for further, text in (
            (("--memory", "128", "--program", str(wrapper)), f"give the same words again, or go on by `python3 -m bmmc resume '{place}'`."),
            (("--memory", "256"), f"give it up by `python3 -m bmmc clean '{place}'`, or name another folder by `--work`"),
            (("--program", "/nowhere"), "give the path of `bmmc` by `--program` or in the variable BMMC"),
        ):
            ended = self.call(*words, *further)
            self.assertNotEqual(ended.returncode, 0)
            self.assertIn(text, ended.stderr)
            self.assertNotIn("resume(", ended.stderr)
            self.assertNotIn("program=", ended.stderr)
        self.done("resume", "a place")
        self.assertFalse((self.folder / "a place").exists())

    def test_errors_have_a_line_and_a_status(self) -> None:
        self.saved(numbered(8, 12))
        for words, status, text in (
            (("permute", "in.npy", "out.npy", "--axes", "1,0"), 2, "bmmc: side 12 of axis 1 is no power of two: pad it to 16"),
            (("permute", "none.npy", "out.npy", "--axes", "1,0"), 2, "bmmc: there is no file"),
            (("resume", "none"), 2, "bmmc: there is no work folder none"),
            (("clean", "none"), 2, "bmmc: there is no work folder none"),
            (("plan", "in.npy", "--axes", "1,0", "--program", "/nowhere"), 2, "bmmc: side 12"),
        ):
            ended = self.call(*words)
            self.assertEqual(ended.returncode, status)
            self.assertTrue(ended.stderr.startswith(text), ended.stderr)

    def test_a_run_that_was_refused_by_the_program_goes_on_by_resume(self) -> None:
        self.saved(numbered(256))
        failing = self.folder / "failing"
        failing.write_text(f'#!/bin/sh\n[ "$1" != dump ] || exec {PROGRAM.path} dump none\nexec {PROGRAM.path} "$@"\n', encoding="utf-8")
        failing.chmod(0o755)
        ended = self.call("permute", "in.npy", "out.npy", "--kind", "reversal", "--memory", "128", "--program", str(failing))
        self.assertEqual(ended.returncode, 3)
        self.assertIn("job fault (status 3)", ended.stderr)
        self.assertEqual(self.done("resume", "out.npy.work").strip(), str(self.folder / "out.npy"))
        self.assertEqual(self.result().tolist(), list(range(256))[::-1])

    def test_an_interrupt_says_what_is_kept(self) -> None:
        self.saved(numbered(256))
        wrapper = self.folder / "wrapper"
        for command, words, text in (
            ("run", ("permute", "in.npy", "out.npy", "--kind", "gray"), f"go on by `python3 -m bmmc resume {self.folder}/out.npy.work`"),
            ("load", ("detect", "in.npy"), "bmmc: stopped, and nothing is kept"),
        ):
            interrupts = f"[ $1 != {command} ] || {{ sleep 1; kill -INT $PPID; exec sleep 60; }}"
            wrapper.write_text(f'#!/bin/sh\n{interrupts}\nexec {PROGRAM.path} "$@"\n', encoding="utf-8")
            wrapper.chmod(0o755)
            ended = self.call(*words, "--program", str(wrapper))
            self.assertEqual(ended.returncode, 130)
            self.assertIn(text, ended.stderr)
        self.done("resume", "out.npy.work")
        self.assertEqual(sorted(os.listdir(self.folder)), ["in.npy", "out.npy", "wrapper"])

    def test_clean_gives_a_run_up(self) -> None:
        self.saved(numbered(256))
        failing = self.folder / "failing"
        failing.write_text(f'#!/bin/sh\n[ "$1" != run ] || exit 11\nexec {PROGRAM.path} "$@"\n', encoding="utf-8")
        failing.chmod(0o755)
        ended = self.call("permute", "in.npy", "out.npy", "--kind", "reversal", "--memory", "128", "--program", str(failing))
        self.assertEqual(ended.returncode, 11)
        self.done("clean", "out.npy.work")
        self.assertEqual(sorted(os.listdir(self.folder)), ["failing", "in.npy"])
