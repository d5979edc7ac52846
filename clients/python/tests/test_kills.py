"""Runs that are killed go on: at ten places with all their processes, and each process alone."""

from __future__ import annotations

import os
import signal
import subprocess
import sys
import time
from pathlib import Path
from typing import Callable

import numpy

import bmmc
from bmmc.slate import Slate, gates_of
from bmmc.work import STATE

from .common import PACKAGE, PROGRAM, FolderTest, needs_program, numbered

SIDES, ORDER = (64, 128, 256), (2, 0, 1)
MEBIBYTES = 16
PATIENCE = 120


class Watched:
    """A run in processes of its own, as what it does shows in files."""

    def __init__(self, test: FolderTest, disks: list[Path]) -> None:
        self.folder, self.disks = test.folder, disks
        self.work = test.folder / "work"
        words = ["permute", "in.npy", "out.npy", "--axes", "2,0,1", "--memory", "1M", "--block", "16K", "--checkpoint", "3"]
        words += ["--work", "work", *(word for disk in disks for word in ("--disk", str(disk)))]
        environment = {**os.environ, "PYTHONPATH": str(PACKAGE), "BMMC": str(PROGRAM.path)}
        self.process = subprocess.Popen(
            [sys.executable, "-m", "bmmc", *words], cwd=self.folder, env=environment, start_new_session=True, stderr=subprocess.PIPE
        )

    def wait_for(self, place: Callable[["Watched"], bool]) -> bool:
        """Waits until the run is at a place; whether it still runs then."""
        until = time.monotonic() + PATIENCE
        while not place(self):
            if self.process.poll() is not None or time.monotonic() > until:
                return False
            time.sleep(0.001)
        return self.process.poll() is None

    def kill(self) -> None:
        """Ends all processes of the run by SIGKILL."""
        os.killpg(self.process.pid, signal.SIGKILL)
        self.process.communicate()

    def stage(self) -> str:
        """The stage that the work folder notes."""
        try:
            return (self.work / STATE).read_text(encoding="utf-8")
        except OSError:
            return ""

    def written(self) -> int:
        """Bytes of the disks that the system has given room to."""
        return sum(file.stat().st_blocks * 512 for disk in self.disks for file in disk.iterdir())

    def gate(self, page: int) -> bool:
        """Whether this page of the control file is an open gate."""
        try:
            return Slate(self.work).is_open(page)
        except OSError:
            return False

    def done(self) -> tuple[int, int]:
        """The passes that are done, and the loads of the next one."""
        gates = gates_of(self.work) if self.work.is_dir() else None
        return (gates.done, gates.part) if gates else (0, 0)

    def result(self) -> int:
        """Bytes of the unfinished result that the system has given room to."""
        return sum(file.stat().st_blocks * 512 for file in self.folder.glob(".out.npy*"))


PLACES: dict[str, Callable[[Watched], bool]] = {
    "the order is noted": lambda run: "begun" in run.stage(),
    "the disks are being made": lambda run: (run.work / "bmmc-slate").exists(),
    "the disks are linked": lambda run: "made" in run.stage(),
    "the load began": lambda run: run.written() > 1 << 20,
    "half is loaded": lambda run: run.written() > MEBIBYTES << 19,
    "all is loaded": lambda run: run.gate(1),
    "the job is open": lambda run: run.gate(3),
    "pass 1 has progress": lambda run: run.done() >= (0, 3),
    "pass 1 is half done": lambda run: run.done() >= (0, 9),
    "pass 1 is done": lambda run: run.done() >= (1, 0),
    "pass 2 is half done": lambda run: run.done() >= (1, 9),
    "the result is being written": lambda run: run.result() > 1 << 20,
}


@needs_program
class Killed(FolderTest):
    def setUp(self) -> None:
        super().setUp()
        self.array = numbered(*SIDES, dtype="<u8")
        self.source, self.disks = self.saved(self.array), self.folders(3)
        self.result = self.folder / "out.npy"

    def again(self, **further) -> Path:
        """Calls permute with the words that a watched run has."""
        words = {"memory": "1M", "block": "16K", "checkpoint": 3, "work": self.folder / "work", "disks": self.disks, **further}
        return bmmc.permute(self.source, self.result, bmmc.axes(SIDES, ORDER), **words)

    def assert_whole(self) -> None:
        """Asserts that the result is right, and that nothing but it is left."""
        self.assertTrue(numpy.array_equal(numpy.load(self.result, mmap_mode="r"), self.array.transpose(ORDER)))
        self.assertEqual(sorted(os.listdir(self.folder)), ["disk0", "disk1", "disk2", "in.npy", "out.npy"])
        self.assertEqual([os.listdir(disk) for disk in self.disks], [[], [], []])
        self.assertTrue(numpy.array_equal(numpy.load(self.source, mmap_mode="r"), self.array))

    def test_a_run_goes_on_after_a_kill_at_each_place(self) -> None:
        killed = 0
        for place, reached in PLACES.items():
            with self.subTest(place):
                run = Watched(self, self.disks)
                killed += run.wait_for(reached)
                run.kill()
                self.assertFalse(self.result.exists() and not self.complete(), "a result that is not whole has the name")
                self.again()
                self.assert_whole()
                self.result.unlink()
        self.assertGreaterEqual(killed, 10, "places at which the run still ran")

    def complete(self) -> bool:
        """Whether the result has its whole length."""
        return self.result.stat().st_size > MEBIBYTES << 20

    def test_one_run_goes_on_after_kill_upon_kill(self) -> None:
        for part in range(3, 13, 3):
            run = Watched(self, self.disks)
            run.wait_for(lambda run, part=part: run.done() >= (0, part))
            run.kill()
        before = gates_of(self.folder / "work")
        self.assertGreaterEqual((before.done, before.part), (0, 9))
        bmmc.resume(self.folder / "work")
        self.assert_whole()

    def test_a_program_that_is_killed_alone_is_told(self) -> None:
        wrapper = self.folder / "disk0" / "bmmc"
        wrapper.write_text(f'#!/bin/sh\n[ "$1" != run ] || kill -KILL $$\nexec {PROGRAM.path} "$@"\n', encoding="utf-8")
        wrapper.chmod(0o755)
        with self.assert_raises(bmmc.Killed, "bmmc run was ended by signal 9", "call again", "resume("):
            self.again(program=wrapper)
        wrapper.unlink()
        self.again()
        self.assert_whole()

    def test_a_program_that_outlives_its_python_keeps_others_out(self) -> None:
        run = Watched(self, self.disks)
        self.assertTrue(run.wait_for(PLACES["pass 1 has progress"]))
        run.process.kill()
        run.process.wait()
        try:
            self.again()
        except bmmc.WorkError as error:
            self.assertIn("a run is at work in", str(error))
        self.finish_when_free()
        self.assert_whole()

    def finish_when_free(self) -> None:
        """Goes on with the run as soon as the program that was left alone has ended."""
        until = time.monotonic() + PATIENCE
        while not self.result.exists() and time.monotonic() < until:
            try:
                self.again()
            except bmmc.WorkError:
                time.sleep(0.5)

    def test_a_folder_with_another_job_is_refused(self) -> None:
        run = Watched(self, self.disks)
        run.wait_for(PLACES["the job is open"])
        run.kill()
        work, before = self.folder / "work", gates_of(self.folder / "work")
        for further, word in (
            ({"memory": "2M"}, "shape (memory, disks, block)"),
            ({"checkpoint": None}, "map or checkpoint"),
            ({"disks": self.disks[:2] + [self.folder]}, "disks"),
        ):
            with self.assert_raises(bmmc.WorkError, "holds another run, which differs in its", word, "resume(", "clean("):
                self.again(**further)
        self.assertEqual(gates_of(work), before)
        bmmc.clean(work)
        self.assertFalse(work.exists())
        self.assertEqual([os.listdir(disk) for disk in self.disks], [[], [], []])
