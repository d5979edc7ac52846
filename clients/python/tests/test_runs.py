"""Runs over raw files, `.npy` files and memmaps: what comes out, and what is left behind."""

from __future__ import annotations

import os

import numpy

import bmmc

from .common import FolderTest, needs_program, numbered


@needs_program
class Permuted(FolderTest):
    def test_an_npy_file_gets_its_new_sides_and_order(self) -> None:
        array = numbered(4, 16, 8, dtype="<f4")
        out = bmmc.permute(self.saved(array), self.folder / "out.npy", bmmc.axes(array.shape, (2, 0, 1)), memory=512, block=64)
        self.assertEqual(out, self.folder / "out.npy")
        result = numpy.load(out, mmap_mode="r")
        self.assertEqual((result.shape, result.dtype, result.flags.c_contiguous), ((8, 4, 16), array.dtype, True))
        self.assertTrue(numpy.array_equal(result, array.transpose(2, 0, 1)))

    def test_nothing_but_the_result_is_left(self) -> None:
        disks = self.folders(3)
        source = self.saved(numbered(64))
        before = source.read_bytes()
        bmmc.permute(source, self.folder / "out.npy", bmmc.gray(6), memory=64, block=8, disks=disks)
        self.assertEqual(sorted(os.listdir(self.folder)), ["disk0", "disk1", "disk2", "in.npy", "out.npy"])
        self.assertEqual([os.listdir(disk) for disk in disks], [[], [], []])
        self.assertEqual(source.read_bytes(), before)
        bmmc.permute(source, self.folder / "out.npy", bmmc.gray(6), work=disks[0])
        self.assertEqual(os.listdir(disks[0]), [], "a folder that was there stays")

    def test_a_raw_file_has_its_length_by_the_map(self) -> None:
        array = numpy.arange(3 << 8, dtype="u1").reshape(256, 3)
        (self.folder / "in").write_bytes(array.tobytes())
        bmmc.permute(self.folder / "in", self.folder / "out", bmmc.reversal(8), memory=96, block=12)
        self.assertEqual((self.folder / "out").read_bytes(), array[::-1].tobytes())
        bmmc.permute(self.folder / "in", self.folder / "out.npy", bmmc.axes((16, 16), (1, 0)), memory=96, block=12)
        self.assertTrue(numpy.array_equal(numpy.load(self.folder / "out.npy"), array.reshape(16, 16, 3).transpose(1, 0, 2)))

    def test_last_axes_may_be_within_a_record(self) -> None:
        image = numpy.arange(16 * 32 * 3, dtype="<u2").reshape(16, 32, 3)
        out = bmmc.permute(self.saved(image), self.folder / "out.npy", bmmc.axes((16, 32), (1, 0)), memory=384, block=48)
        self.assertTrue(numpy.array_equal(numpy.load(out), image.transpose(1, 0, 2)))

    def test_an_array_in_fortran_order_comes_out_in_c_order(self) -> None:
        array = numpy.asfortranarray(numbered(4, 8, 16))
        for map, wanted in (
            (bmmc.axes(array.shape, (1, 2, 0)), array.transpose(1, 2, 0)),
            (bmmc.reversal(9), array.ravel()[::-1].reshape(array.shape)),
        ):
            out = bmmc.permute(self.saved(array), self.folder / "out.npy", map, memory=256, block=16)
            result = numpy.load(out)
            self.assertTrue(result.flags.c_contiguous and numpy.array_equal(result, wanted))

    def test_records_may_have_fields(self) -> None:
        array = numpy.zeros(64, dtype=[("place", "<u4"), ("name", "S3")])
        array["place"] = numpy.arange(64)
        out = bmmc.permute(self.saved(array), self.folder / "out.npy", bmmc.bit_reversal(6), memory=112, block=14)
        result = numpy.load(out)
        self.assertEqual(result.dtype, array.dtype)
        self.assertEqual(result["place"].tolist(), [int(format(x, "06b")[::-1], 2) for x in range(64)])

    def test_a_memmap_may_be_a_part_of_a_file_or_transposed(self) -> None:
        array = numbered(8, 16, 4)
        mapped = numpy.load(self.saved(array), mmap_mode="r")
        parts = {(2, 1, 0): mapped, (1, 0, 2): mapped[4:], (2, 0, 1): mapped[:2], (1, 2, 0): mapped.T, (1, 0): mapped[3]}
        for order, part in parts.items():
            with self.subTest(sides=part.shape, order=order):
                out = bmmc.permute(part, self.folder / "out.npy", bmmc.axes(part.shape, order), memory=64, block=16)
                self.assertTrue(numpy.array_equal(numpy.load(out), part.transpose(order)))

    def test_a_memmap_of_a_raw_file_has_its_type(self) -> None:
        numbered(32, 8, dtype="<i8").tofile(self.folder / "raw")
        mapped = numpy.memmap(self.folder / "raw", dtype="<i8", mode="r", offset=64 * 8, shape=(16, 8))
        out = bmmc.permute(mapped, self.folder / "out.npy", bmmc.axes((16, 8), (1, 0)), memory=256, block=32)
        self.assertTrue(numpy.array_equal(numpy.load(out), mapped.T))

    def test_64_mib_by_axes_over_three_disks(self) -> None:
        array = numbered(128, 256, 256, dtype="<f8")
        source, disks = self.saved(array), self.folders(3)
        seen: list[bmmc.Progress] = []
        out = bmmc.permute(
            source, self.folder / "out.npy", bmmc.axes(array.shape, (2, 0, 1)), memory="4M", disks=disks, checkpoint=4, progress=seen.append
        )
        self.assertTrue(numpy.array_equal(numpy.load(out, mmap_mode="r"), array.transpose(2, 0, 1)))
        self.assertEqual((seen[-1].command, seen[-1].moved, seen[-1].done), ("dump", seen[-1].total, seen[-1].passes))


@needs_program
class Placed(FolderTest):
    def test_each_folder_holds_its_disks_as_links_say(self) -> None:
        disks, source = self.folders(3), self.saved(numbered(256))
        places: set[tuple[str, str]] = set()

        def look(progress: bmmc.Progress) -> None:
            work = self.folder / "out.npy.work"
            places.update((path.name, str(path.resolve().parent)) for path in work.iterdir() if path.is_symlink())

        bmmc.permute(source, self.folder / "out.npy", bmmc.gray(8), memory=128, block=16, disks=disks, progress=look)
        wanted = {(f"bmmc-disk-{k:02}", str(disks[k % 3])) for k in range(4)}
        self.assertEqual(places, wanted)


@needs_program
class Transformed(FolderTest):
    def test_the_transform_is_that_of_the_matrix_of_signs(self) -> None:
        values = numpy.random.default_rng(1).integers(-1000, 1000, 256)
        signs = numpy.array([[1 - 2 * (bin(k & x).count("1") % 2) for x in range(256)] for k in range(256)])
        out = bmmc.walsh(self.saved(values.reshape(16, 16)), self.folder / "out.npy", memory=128, block=16)
        result = numpy.load(out)
        self.assertEqual((result.shape, result.dtype), ((16, 16), values.dtype))
        self.assertEqual(result.ravel().tolist(), (signs @ values).tolist())

    def test_twice_over_it_gives_each_number_n_times(self) -> None:
        values = numpy.random.default_rng(3).integers(0, 1 << 64, 1 << 20, dtype=numpy.uint64)
        once, twice = self.folder / "once.npy", self.folder / "twice.npy"
        bmmc.walsh(self.saved(values), once, memory="1M", disks=self.folders(2), checkpoint=2)
        bmmc.walsh(once, twice, memory="512K")
        self.assertEqual(int(numpy.load(once)[0]), sum(values.tolist()) % 2**64)
        self.assertTrue(numpy.array_equal(numpy.load(twice), values << numpy.uint64(20)))

    def test_fortran_order_stays(self) -> None:
        values = numpy.random.default_rng(2).integers(0, 1000, (8, 4))
        plain = numpy.load(bmmc.walsh(self.saved(values), self.folder / "out.npy", memory=64, block=16))
        turned = numpy.load(bmmc.walsh(self.saved(numpy.asfortranarray(values)), self.folder / "out.npy", memory=64, block=16))
        self.assertTrue(turned.flags.f_contiguous and numpy.array_equal(plain, turned))

    def test_numbers_of_other_widths_are_refused(self) -> None:
        with self.assert_raises(bmmc.SourceError, "integers of 8 bytes", "float64"):
            bmmc.walsh(self.saved(numbered(16, dtype="f8")), self.folder / "out.npy")


@needs_program
class Planned(FolderTest):
    def test_a_plan_is_the_programs_own(self) -> None:
        costs = bmmc.plan(bmmc.Job(bmmc.Shape(4, 1, 1, 3, 1), bmmc.bit_reversal(4)))
        self.assertEqual((costs.passes, costs.transfers, costs.bound), (2, 16, 24))
        self.assertEqual(costs.steps, (bmmc.Step(butterflies=0, lower=1, high=1, passes=2, at_most=3),))
        self.assertEqual((costs.bytes, costs.around_bytes), (64, 64))
        self.assertEqual(costs.seconds(128e-6), 1.0)

    def test_a_plan_of_a_transform_has_a_step_a_round(self) -> None:
        costs = bmmc.plan(bmmc.Job(bmmc.Shape(2, 0, 0, 1, 8), bmmc.WALSH))
        self.assertEqual(costs.steps, (bmmc.Step(1, 0, 1, 2, 2),) * 2)
        self.assertEqual((costs.passes, costs.transfers, costs.bound), (4, 32, 32))
