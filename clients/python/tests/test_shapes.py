"""Shapes for arrays and files, and the sentence where there is none."""

from __future__ import annotations

import unittest

import numpy

import bmmc

from .common import FolderTest, numbered


class Chosen(FolderTest):
    def test_an_array_has_its_elements_for_records(self) -> None:
        array = numpy.zeros((1024, 2048), dtype="f8")
        self.assertEqual(bmmc.shape_for(array, "1M"), bmmc.Shape(n=21, b=13, d=0, m=17, width=8))
        self.assertEqual(bmmc.shape_for(array, 1 << 20, disks=4), bmmc.Shape(n=21, b=13, d=2, m=17, width=8))

    def test_a_file_has_the_shape_of_its_array(self) -> None:
        array = numbered(64, 128, dtype="<u2")
        self.assertEqual(bmmc.shape_for(self.saved(array), "4K", block=256), bmmc.shape_for(array, "4K", block=256))

    def test_a_raw_file_has_records_of_the_width_that_is_given(self) -> None:
        (self.folder / "raw").write_bytes(bytes(3 << 12))
        self.assertEqual(bmmc.shape_for(self.folder / "raw", 3 << 8, block=12, width=3), bmmc.Shape(n=12, b=2, d=0, m=8, width=3))
        with self.assert_raises(bmmc.ShapeError, "12288 bytes are no power of two of records of 1 bytes"):
            bmmc.shape_for(self.folder / "raw")

    def test_a_pixel_may_be_a_record(self) -> None:
        self.assertEqual(bmmc.shape_for(numpy.zeros((64, 64, 3), dtype="u1"), "3K", width=3).width, 3)

    def test_disks_are_the_least_power_of_two_that_is_no_less(self) -> None:
        array = numbered(1 << 16)
        self.assertEqual([bmmc.shape_for(array, disks=disks).disks for disks in (1, 2, 3, 5, 64)], [1, 2, 4, 8, 64])

    def test_blocks_are_smaller_where_there_is_no_room(self) -> None:
        array = numbered(1 << 16)
        self.assertEqual(bmmc.shape_for(array, "64K", disks=4), bmmc.Shape(n=16, b=12, d=2, m=14, width=4))
        self.assertEqual(bmmc.shape_for(numbered(2)), bmmc.Shape(n=1, b=0, d=0, m=1, width=4))

    def test_memory_that_is_left_out_is_at_most_the_file(self) -> None:
        self.assertEqual(bmmc.shape_for(numbered(1 << 10)).m, 10)
        self.assertEqual(bmmc.shape_for(numpy.broadcast_to(numpy.zeros(1, dtype="f8"), (1 << 30,))).m, 25)

    def test_no_more_than_a_gigabyte_is_used(self) -> None:
        self.assertEqual(bmmc.shape_for(numpy.broadcast_to(numpy.zeros(1, dtype="f8"), (1 << 30,)), "4G").m, 27)


class Refused(unittest.TestCase):
    def test_a_sentence_says_why_none_fits(self) -> None:
        square = numpy.zeros((64, 64), dtype="f8")
        for words, find in {
            "side 100 of axis 1 is no power of two: pad it to 128": lambda: bmmc.shape_for(numpy.zeros((64, 100))),
            "a record of 5000 bytes is too wide: it may have 1 to 4096": lambda: bmmc.shape_for(numpy.zeros(8, dtype="V5000")),
            "memory of 1M is more than the 32K of all records": lambda: bmmc.shape_for(square, "1M"),
            "holds no two records of 8 bytes": lambda: bmmc.shape_for(square, 8),
            "a single record is nothing to permute": lambda: bmmc.shape_for(numpy.zeros(1)),
            "can't hold a block of each of 8 disks": lambda: bmmc.shape_for(square, 32, disks=5),
            "there can be 1 to 64 disks, and not 65": lambda: bmmc.shape_for(square, disks=65),
            "an array without records": lambda: bmmc.shape_for(numpy.zeros((4, 0))),
        }.items():
            with self.subTest(words), self.assertRaises(bmmc.ShapeError) as caught:
                find()
            self.assertIn(words, str(caught.exception))

    def test_sizes_are_whole_numbers_of_bytes(self) -> None:
        for size in ("64 megabytes", "-1", "1.5M", 0):
            with self.subTest(size), self.assertRaises(ValueError) as caught:
                bmmc.shape_for(numbered(16), size)
            self.assertIn("is no number of bytes", str(caught.exception))

    def test_numbers_that_break_a_rule_are_no_shape(self) -> None:
        for numbers, rule in {
            (53, 1, 1, 3, 1): "n has to be",
            (8, 1, 7, 8, 1): "d has to be",
            (4, 3, 0, 3, 1): "b has to be below m",
            (4, 2, 2, 3, 1): "b + d",
            (4, 1, 1, 5, 1): "m has to be at most n",
            (4, 1, 1, 3, 5000): "width",
            (40, 1, 1, 30, 8): "2^30",
            (52, 1, 0, 3, 4096): "2^(63 + d)",
        }.items():
            with self.subTest(numbers), self.assertRaises(bmmc.ShapeError) as caught:
                bmmc.Shape(*numbers)
            self.assertIn(rule, str(caught.exception))

    def test_a_job_has_one_number_of_address_bits(self) -> None:
        shape = bmmc.Shape(4, 1, 1, 3, 1)
        for error, make in {
            bmmc.MapError: lambda: bmmc.Job(shape, bmmc.gray(5)),
            bmmc.ShapeError: lambda: bmmc.Job(shape, bmmc.WALSH),
        }.items():
            with self.assertRaises(error):
                make()
