"""Wrong input, full devices and missing programs, each with its message; no state is lost by any of them."""

from __future__ import annotations

import os
import unittest.mock
from dataclasses import replace
from pathlib import Path
from types import SimpleNamespace

import numpy

import bmmc
from bmmc.work import STATE

from .common import PROGRAM, FolderTest, needs_program, numbered


@needs_program
class WrongInput(FolderTest):
    def test_what_can_not_be_read_or_written_is_told_before_anything_is_made(self) -> None:
        array, axes = numbered(8, 8), bmmc.axes((8, 8), (1, 0))
        source, out = self.saved(array), self.folder / "out.npy"
        (self.folder / "text.npy").write_text("no array", encoding="utf-8")
        strided = numpy.load(source, mmap_mode="r")[:, ::2]
        for words, call in {
            "there is no file": lambda: bmmc.permute(self.folder / "none.npy", out, axes),
            "is no `.npy` file": lambda: bmmc.permute(self.folder / "text.npy", out, axes),
            "this array is in memory": lambda: bmmc.permute(array, out, axes),
            "not in one piece": lambda: bmmc.permute(strided, out, bmmc.axes((8, 4), (1, 0))),
            "is the source: nothing is permuted in place": lambda: bmmc.permute(source, source, axes),
            "there is no folder": lambda: bmmc.permute(source, self.folder / "none" / "out.npy", axes),
            "is no plain file": lambda: bmmc.permute(source, self.folder, axes),
            "there is no folder /nowhere for a disk": lambda: bmmc.permute(source, out, axes, disks=["/nowhere"]),
            "the map is for an array of 4 by 16, and the source is an array of 8 by 8": lambda: bmmc.permute(
                source, out, bmmc.axes((4, 16), (1, 0))
            ),
            "are not 2^9 records of one length": lambda: bmmc.permute(source, out, bmmc.gray(9)),
            "memory of 1K is more than the 256 of all records": lambda: bmmc.permute(source, out, axes, memory="1K"),
        }.items():
            with self.subTest(words), self.assert_raises(bmmc.BmmcError, words):
                call()
        self.assertEqual(sorted(os.listdir(self.folder)), ["in.npy", "text.npy"])

    def test_sides_that_are_no_powers_of_two_are_told(self) -> None:
        with self.assert_raises(bmmc.MapError, "side 12 of axis 1 is no power of two: pad it to 16"):
            bmmc.permute(self.saved(numbered(8, 12)), self.folder / "out.npy", bmmc.axes((8, 12), (1, 0)))

    def test_a_source_that_is_written_meanwhile_is_told_and_read_anew(self) -> None:
        array = numbered(256)
        source, out = self.saved(array), self.folder / "out.npy"

        def write(progress: bmmc.Progress) -> None:
            if progress.command == "load":
                self.saved(array + 1)

        with self.assert_raises(bmmc.SourceError, "was written after the run began: call again with the same arguments"):
            bmmc.permute(source, out, bmmc.reversal(8), memory=128, progress=write)
        self.assertFalse(out.exists())
        bmmc.permute(source, out, bmmc.reversal(8), memory=128)
        self.assertEqual(numpy.load(out).tolist(), (array + 1)[::-1].tolist())

    def test_an_older_result_stays_until_the_new_one_is_whole(self) -> None:
        source, out = self.saved(numbered(256)), self.saved(numbered(3), "out.npy")
        older = out.read_bytes()

        def stop(progress: bmmc.Progress) -> None:
            if progress.command == "run":
                raise KeyboardInterrupt

        with self.assertRaises(KeyboardInterrupt):
            bmmc.permute(source, out, bmmc.reversal(8), memory=128, progress=stop)
        self.assertEqual(out.read_bytes(), older)
        bmmc.resume(self.folder / "out.npy.work")
        self.assertEqual(numpy.load(out).tolist(), list(range(256))[::-1])


@needs_program
class WrongFolders(FolderTest):
    def test_folders_that_hold_no_run_are_told(self) -> None:
        source, out = self.saved(numbered(64)), self.folder / "out.npy"
        foreign, empty = self.folder / "foreign", self.folder / "empty"
        for folder in (foreign, empty):
            folder.mkdir()
        (foreign / "job.toml").write_text(bmmc.Job(bmmc.Shape(6, 2, 0, 4, 4), bmmc.gray(6)).text(), encoding="utf-8")
        PROGRAM.call(["new", "job.toml"], foreign)
        before = sorted(os.listdir(foreign))
        for words, call in {
            "holds disks, or a job text, that no run of this package made": lambda: bmmc.permute(source, out, bmmc.gray(6), work=foreign),
            "holds no run to go on with": lambda: bmmc.resume(empty),
            "holds no run to give up": lambda: bmmc.clean(empty),
            "there is no work folder": lambda: bmmc.resume(self.folder / "none"),
            "can't be made": lambda: bmmc.permute(source, out, bmmc.gray(6), work=self.folder / "none" / "none"),
        }.items():
            with self.subTest(words), self.assert_raises(bmmc.WorkError, words):
                call()
        self.assertEqual(sorted(os.listdir(foreign)), before)

    def test_files_of_others_in_a_work_folder_stay(self) -> None:
        source, out = self.saved(numbered(64)), self.folder / "out.npy"
        for name in ("job.toml", "state.json", "notes"):
            (self.folder / name).write_text(name, encoding="utf-8")
        bmmc.permute(source, out, bmmc.gray(6), work=self.folder)
        self.assertEqual(sorted(os.listdir(self.folder)), ["in.npy", "job.toml", "notes", "out.npy", "state.json"])
        self.assertEqual((self.folder / "job.toml").read_text(encoding="utf-8"), "job.toml")
        for name in ("bmmc-run.json", "bmmc-run.toml"):
            (self.folder / name).write_text("[]", encoding="utf-8")
            with self.assert_raises(bmmc.WorkError, "give another work folder"):
                bmmc.permute(source, out, bmmc.gray(6), work=self.folder)
            self.assertEqual((self.folder / name).read_text(encoding="utf-8"), "[]")
            (self.folder / name).unlink()

    def test_another_order_is_told_by_what_differs(self) -> None:
        source, work = self.saved(numbered(16, 16)), self.folder / "work"
        call = {"src": source, "dst": self.folder / "out.npy", "map": bmmc.axes((16, 16), (1, 0)), "memory": 128, "work": work}

        def stop(progress: bmmc.Progress) -> None:
            raise KeyboardInterrupt

        with self.assertRaises(KeyboardInterrupt):
            bmmc.permute(**call, progress=stop)
        for further, words in (
            ({"map": bmmc.gray(8)}, "differs in its map or checkpoint:"),
            ({"map": replace(call["map"], result=(256,))}, "differs in its sides of the result:"),
            ({"dst": self.folder / "other.npy"}, "differs in its destination:"),
            ({"src": self.saved(numbered(16, 16), "same.npy")}, "differs in its source:"),
            ({"memory": 256}, "differs in its shape (memory, disks, block):"),
        ):
            with self.assert_raises(bmmc.WorkError, words):
                bmmc.permute(**{**call, **further})
        self.saved(numbered(16, 16))
        with self.assert_raises(bmmc.WorkError, "differs in its source's bytes (it was written since):"):
            bmmc.permute(**call)
        bmmc.clean(work)

    def test_disks_that_were_lost_are_told_and_the_state_stays(self) -> None:
        source, out, work = self.saved(numbered(256)), self.folder / "out.npy", self.folder / "work"

        def stop(progress: bmmc.Progress) -> None:
            if progress.command == "run":
                raise KeyboardInterrupt

        with self.assertRaises(KeyboardInterrupt):
            bmmc.permute(source, out, bmmc.reversal(8), memory=128, work=work, progress=stop)
        (work / "bmmc-disk-00").unlink()
        for call in (lambda: bmmc.resume(work), lambda: bmmc.permute(source, out, bmmc.reversal(8), memory=128, work=work)):
            with self.assert_raises(bmmc.StatusError, "wrong dims (status 13)", "stays in", f"`bmmc.resume({str(work)!r})`"):
                call()
        self.assertTrue((work / STATE).exists())
        bmmc.clean(work)
        self.assertFalse(work.exists())


class MissingProgram(FolderTest):
    def test_a_program_that_is_not_there_is_told_with_what_to_do(self) -> None:
        source = self.saved(numbered(64))
        with self.assert_raises(bmmc.MissingProgram, "/nowhere/bmmc is no program that can be started"):
            bmmc.permute(source, self.folder / "out.npy", bmmc.gray(6), program="/nowhere/bmmc")
        with unittest.mock.patch.dict(os.environ, {"BMMC": "/nowhere/else"}):
            with self.assert_raises(bmmc.MissingProgram, "/nowhere/else"):
                bmmc.plan(bmmc.Job(bmmc.Shape(4, 1, 1, 3, 1), bmmc.gray(4)))
        with unittest.mock.patch.dict(os.environ, {"PATH": str(self.folder)}), unittest.mock.patch("bmmc.program.CHECKOUT", self.folder):
            os.environ.pop("BMMC", None)
            with self.assert_raises(bmmc.MissingProgram, "was not found", "./bmmc install PREFIX", "BMMC"):
                bmmc.find_program()
        self.assertEqual(os.listdir(self.folder), ["in.npy"])

    def test_the_program_is_found_by_argument_then_variable_then_checkout_then_path(self) -> None:
        for name in ("argument", "variable", "path", "checkout/crates/bmmc/out"):
            (self.folder / name).mkdir(parents=True)
            program = self.folder / name / "bmmc"
            program.write_text("#!/bin/sh\n", encoding="utf-8")
            program.chmod(0o755)
        found = {"BMMC": str(self.folder / "variable" / "bmmc"), "PATH": str(self.folder / "path")}
        with unittest.mock.patch.dict(os.environ, found), unittest.mock.patch("bmmc.program.CHECKOUT", self.folder / "checkout"):
            self.assertEqual(bmmc.find_program(self.folder / "argument" / "bmmc").path, self.folder / "argument" / "bmmc")
            self.assertEqual(bmmc.find_program().path, self.folder / "variable" / "bmmc")
            del os.environ["BMMC"]
            self.assertEqual(bmmc.find_program().path, self.folder / "checkout/crates/bmmc/out/bmmc")
            (self.folder / "checkout/crates/bmmc/out/bmmc").unlink()
            self.assertEqual(bmmc.find_program().path, self.folder / "path" / "bmmc")


@needs_program
class FullDevice(FolderTest):
    """The command that the file `full` names can write no file beyond 512 KiB: such a write fails as one on a full device does."""

    def setUp(self) -> None:
        super().setUp()
        self.full, self.limited = self.folder / "full", self.folder / "limited"
        limit = f"if [ \"$1\" = \"$(cat '{self.full}' 2>/dev/null)\" ]; then trap '' XFSZ; ulimit -f 1024; fi"
        self.limited.write_text(f"#!/bin/sh\n{limit}\nexec '{PROGRAM.path}' \"$@\"\n", encoding="utf-8")
        self.limited.chmod(0o755)

    def test_want_of_room_is_told_before_anything_is_loaded(self) -> None:
        array, small = numbered(1 << 18, dtype="<u8"), SimpleNamespace(f_bavail=3, f_frsize=1 << 20)
        disks = self.folders(1)
        with unittest.mock.patch("bmmc.work.os.statvfs", lambda place: small):
            with self.assert_raises(bmmc.RoomError, "need 6M", "3M are free", "make room, or name folders on other devices by `disks=`"):
                bmmc.permute(self.saved(array), self.folder / "out.npy", bmmc.reversal(18), memory="64K", disks=disks)
        self.assertEqual(os.listdir(disks[0]), [])
        bmmc.permute(self.folder / "in.npy", self.folder / "out.npy", bmmc.reversal(18), memory="64K", disks=disks)
        self.assertTrue(numpy.array_equal(numpy.load(self.folder / "out.npy"), array[::-1]))

    def test_a_disk_that_fills_is_told_and_the_run_goes_on_when_there_is_room(self) -> None:
        array, disks = numbered(1 << 18, dtype="<u8"), self.folders(1)

        def call() -> None:
            words = {"memory": "64K", "disks": disks, "work": self.folder / "work", "program": self.limited}
            bmmc.permute(self.saved_once(array), self.folder / "out.npy", bmmc.reversal(18), **words)

        self.full.write_text("load", encoding="utf-8")
        with self.assert_raises(bmmc.StatusError, "rack fault (status 11)", "look at the disks (full", "call again") as caught:
            call()
        self.assertEqual(caught.error.status, 11)
        self.assertFalse((self.folder / "out.npy").exists())
        self.full.unlink()
        call()
        self.assertEqual(os.listdir(disks[0]), [])
        self.assertTrue(numpy.array_equal(numpy.load(self.folder / "out.npy"), array[::-1]))

    def test_a_full_device_for_the_result_is_told_and_the_run_goes_on(self) -> None:
        array = numbered(1 << 18, dtype="<u8")

        def call() -> None:
            words = {"memory": "64K", "work": self.folder / "work", "program": self.limited}
            bmmc.permute(self.saved_once(array), self.folder / "out.raw", bmmc.reversal(18), **words)

        self.full.write_text("dump", encoding="utf-8")
        with self.assert_raises(bmmc.StatusError, "output fault (status 21)", "What is done so far stays in"):
            call()
        self.assertFalse((self.folder / "out.raw").exists())
        self.full.unlink()
        call()
        self.assertEqual((self.folder / "out.raw").read_bytes(), array[::-1].tobytes())

    def saved_once(self, array: numpy.ndarray) -> Path:
        """The file of an array, written at the first call alone."""
        path = self.folder / "in.npy"
        return path if path.exists() else self.saved(array)
