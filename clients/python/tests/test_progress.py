"""Progress: what is told, how often, and that nothing is written for it."""

from __future__ import annotations

import os
import select
import subprocess
import sys
import time
import unittest.mock

import numpy

import bmmc
from bmmc.progress import Meter, moved_by

from .common import FolderTest, needs_package, needs_program, numbered


class Counted(FolderTest):
    def test_bytes_are_those_of_the_systems_count(self) -> None:
        code = "import sys; b = bytes(1 << 20); f = open('/dev/null', 'wb', 0)\nfor _ in range(8): f.write(b)\nprint(flush=True)\ninput()"
        child = subprocess.Popen([sys.executable, "-c", code], stdin=subprocess.PIPE, stdout=subprocess.PIPE)
        child.stdout.readline()
        moved = moved_by(child.pid)
        child.communicate(b"\n")
        self.assertTrue(8 << 20 <= moved < 16 << 20, moved)

    def test_a_process_that_has_ended_moved_nothing(self) -> None:
        self.assertEqual(moved_by(2**22 + 1), 0)


RESTING = """
import sys, time
for _ in range(8):
    open("/dev/null", "wb", 0).write(bytes(1 << 20))
print(flush=True)
input()
time.sleep(1.4)
print(file=sys.stderr)
"""


class Followed(FolderTest):
    """A program that has moved 8 MiB, rests for more than a second and ends, of which 16 MiB were foretold."""

    def setUp(self) -> None:
        super().setUp()
        self.told: list[tuple[float, bmmc.Progress]] = []
        meter = Meter(lambda progress: self.told.append((time.monotonic(), progress)), self.folder, 40 << 20, 3)
        child = subprocess.Popen([sys.executable, "-c", RESTING], stdin=subprocess.PIPE, stdout=subprocess.PIPE, stderr=subprocess.PIPE)
        child.stdout.readline()
        child.stdin.write(b"\n")
        child.stdin.flush()
        self.began = time.monotonic()
        meter.follow("run", 10 << 20, 16 << 20)(child)
        self.ended = time.monotonic()
        child.communicate()

    def test_it_is_told_twice_a_second_and_at_its_end(self) -> None:
        times = [self.began, *(at for at, _ in self.told)]
        self.assertTrue(2 <= len(self.told) <= (self.ended - self.began) / 0.49 + 1, self.told)
        for at, later in list(zip(times, times[1:]))[:-1]:
            self.assertGreater(later - at, 0.49)

    def test_what_it_moved_is_counted_and_the_time_left_follows(self) -> None:
        moved = [progress.moved for _, progress in self.told]
        for count in moved[:-1]:
            self.assertTrue(18 << 20 <= count < 20 << 20, moved)
        self.assertEqual(moved[-1], 26 << 20)
        at, last = self.told[-1]
        self.assertAlmostEqual(last.seconds, (at - self.began) * 14 / 16, delta=0.2)


@needs_program
class Told(FolderTest):
    def setUp(self) -> None:
        super().setUp()
        self.told: list[tuple[bmmc.Progress, list[str]]] = []

    def run_and_listen(self, array: numpy.ndarray, **words) -> list[bmmc.Progress]:
        """What is told of a run; `self.told` has beside it what was in the work folder then."""
        work = self.folder / "work"

        def listen(progress: bmmc.Progress) -> None:
            self.told.append((progress, sorted(os.listdir(work))))

        bmmc.permute(self.saved(array), self.folder / "out.npy", bmmc.bit_reversal(21), work=work, progress=listen, **words)
        return [progress for progress, _ in self.told]

    def test_a_run_is_told_from_its_source_to_its_result(self) -> None:
        progress = self.run_and_listen(numbered(1 << 21, dtype="<u8"), memory="256K", block="16K", checkpoint=1)
        moved, passes, total = [entry.moved for entry in progress], progress[0].passes, progress[0].total
        self.assertEqual(total, (passes + 2) * 2 * (16 << 20))
        self.assertEqual(moved, sorted(moved))
        self.assertEqual(moved[-1], total)
        self.assertEqual(list(dict.fromkeys(entry.command for entry in progress)), ["load", "run", "dump"])
        self.assertEqual((progress[-1].done, progress[-1].seconds), (passes, 0))
        for entry in progress:
            if entry.command == "run":
                self.assertTrue((1 + entry.done) * (32 << 20) <= entry.moved + (1 << 20), entry)

    def test_nothing_is_written_to_the_work_folder_for_it(self) -> None:
        self.run_and_listen(numbered(1 << 21, dtype="<u8"), memory="2M")
        for _, names in self.told:
            self.assertEqual(names, ["bmmc-disk-00", "bmmc-run.json", "bmmc-run.toml", "bmmc-slate"])

    def test_a_run_moves_as_many_bytes_as_were_foretold(self) -> None:
        counts: dict[str, int] = {}

        def count(process: subprocess.Popen) -> bool:
            spoken, _, _ = select.select([process.stderr], [], [], 10)
            counts[process.args[1]] = moved_by(process.pid)
            process.wait()
            return bool(spoken)

        with unittest.mock.patch("bmmc.progress.ended", side_effect=count):
            progress = self.run_and_listen(numbered(1 << 21, dtype="<u8"), memory="2M", checkpoint=4)
        for command, passes in (("load", 1), ("run", progress[0].passes), ("dump", 1)):
            if counts[command]:
                self.assertAlmostEqual(counts[command], passes * (32 << 20), delta=1 << 20)


@needs_program
class Bars(FolderTest):
    def test_a_bar_without_tqdm_is_refused_with_its_name(self) -> None:
        source = self.saved(numbered(64))
        with unittest.mock.patch.dict(sys.modules, {"tqdm": None}):
            with self.assert_raises(bmmc.MissingPackage, "progress bars need the package tqdm", "python3-tqdm"):
                bmmc.permute(source, self.folder / "out.npy", bmmc.gray(6), progress=True)
        self.assertEqual(os.listdir(self.folder), ["in.npy"])

    @needs_package("tqdm")
    def test_a_bar_shows_the_bytes_and_what_is_at_work(self) -> None:
        source = self.saved(numbered(1 << 16))
        with unittest.mock.patch("sys.stderr") as shown:
            bmmc.permute(source, self.folder / "out.npy", bmmc.gray(16), memory="64K", progress=True)
        text = "".join(call.args[0] for call in shown.write.call_args_list)
        self.assertIn("100%", text)
        self.assertIn("B/s", text)
