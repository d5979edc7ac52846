"""Detection: the map of a list comes back, and a list that has none is told with its place."""

from __future__ import annotations

import os
import tracemalloc
import unittest.mock
from types import SimpleNamespace
from typing import Optional

import numpy

import bmmc
from bmmc.detection import detected_text

from .common import FolderTest, needs_program, random_map
from .test_maps import FORMULAS

ARRAYS = {
    "axes": bmmc.axes((4, 2, 16), (2, 0, 1)),
    "tiles": bmmc.tiles(16, 8, 4, 2),
    "untiles": bmmc.untiles(16, 8, 4, 2),
    "morton": bmmc.morton(3, 2),
}


def addresses_of(map: bmmc.Map) -> numpy.ndarray:
    """The list that a map is."""
    return map.image(numpy.arange(1 << map.n))


def refusal(listed: numpy.ndarray) -> Optional[tuple[int, tuple[int, ...]]]:
    """The status and the numbers by which a list has to be refused; None where it is a map's. It goes by the definition alone."""
    numbers = [int(number) for number in listed]
    count = len(numbers)
    for x, y in enumerate(numbers):
        if y >= count:
            return 22, (x, y)
    wanted = [numbers[0]]
    for x in range(1, count):
        low = x & -x
        wanted.append(wanted[x ^ low] ^ numbers[low] ^ numbers[0])
    for x, (y, want) in enumerate(zip(numbers, wanted)):
        if y != want:
            return 23, (x, y, want)
    sent = [x for x in range(1, count) if wanted[x] == wanted[0]]
    return (24, (sent[0],)) if sent else None


class DetectTest(FolderTest):
    """A test whose temporary files are in a folder of its own, which has to be empty at the end."""

    def setUp(self) -> None:
        super().setUp()
        temporary = self.folder / "temporary"
        temporary.mkdir()
        patch = unittest.mock.patch("tempfile.tempdir", str(temporary))
        patch.start()
        self.addCleanup(patch.stop)
        self.addCleanup(lambda: self.assertEqual(os.listdir(temporary), []))

    def assert_refused(self, listed: numpy.ndarray) -> int:
        """Asserts that a list is refused as its definition wants it, and answers the status."""
        status, numbers = refusal(listed)
        with self.assert_raises(bmmc.StatusError, f"(status {status})", *map(str, numbers)) as caught:
            bmmc.detect(listed)
        self.assertEqual((caught.error.status, caught.error.numbers), (status, numbers))
        return status


@needs_program
class Detected(DetectTest):
    def test_each_kind_of_map_comes_back(self) -> None:
        kinds = {**{name: map for name, (map, _) in FORMULAS.items()}, **ARRAYS, "one bit": bmmc.identity(1, 1)}
        for name, map in kinds.items():
            with self.subTest(name):
                self.assertEqual(bmmc.detect(addresses_of(map)), map)

    def test_random_maps_come_back(self) -> None:
        for n in range(1, 15):
            map = random_map(n, n)
            with self.subTest(n=n, rows=map.rows, complement=map.complement):
                self.assertEqual(bmmc.detect(addresses_of(map), memory=16 << n // 2), map)

    def test_a_large_list_is_detected_and_its_map_permutes(self) -> None:
        map = random_map(20, 20)
        addresses, records = addresses_of(map), numpy.random.default_rng(5).integers(0, 1 << 32, 1 << 20, dtype=numpy.uint32)
        found = bmmc.detect(self.saved(addresses, "list.npy"), memory="1M")
        self.assertEqual(found, map)
        out = bmmc.permute(self.saved(records), self.folder / "out.npy", found, memory="256K", disks=self.folders(2))
        moved = numpy.empty_like(records)
        moved[addresses] = records
        self.assertTrue(numpy.array_equal(numpy.load(out), moved))

    def test_a_list_may_have_any_form(self) -> None:
        map = bmmc.gray(6, 5)
        addresses = addresses_of(map)
        addresses.astype("<u8").tofile(self.folder / "raw")
        forms = {
            "a list": addresses.tolist(),
            "a tuple": tuple(addresses.tolist()),
            "bytes": addresses.astype("u1"),
            "signed": addresses.astype("<i2"),
            "the highest byte first": addresses.astype(">u4"),
            "every third": numpy.repeat(addresses, 3)[::3],
            "an .npy file": self.saved(addresses.astype(">i8"), "list.npy"),
            "an .npy file by text": str(self.saved(addresses, "again.npy")),
            "a raw file": self.folder / "raw",
            "a memmap": numpy.memmap(self.folder / "raw", "<u8", "r"),
        }
        for name, given in forms.items():
            with self.subTest(name):
                self.assertEqual(bmmc.detect(given), map)
        self.assertEqual(bmmc.detect(range(64)), bmmc.identity(6))
        self.assertEqual(bmmc.detect(range(63, -1, -1)), bmmc.reversal(6))

    def test_the_job_text_names_the_shape_by_the_memory(self) -> None:
        text = detected_text(addresses_of(bmmc.gray(8, 3)), memory=256)
        rows = ", ".join(str(row) for row in bmmc.gray(8).rows)
        wanted = f'[shape]\nn = 8\nb = 4\nd = 0\nm = 5\nwidth = 8\n\n[map]\nkind = "rows"\nrows = [{rows}]\ncomplement = 3\n'
        self.assertEqual(text, wanted)

    def test_a_list_on_the_disk_takes_little_memory(self) -> None:
        addresses = self.saved(addresses_of(bmmc.gray(21)), "list.npy")
        tracemalloc.start()
        self.addCleanup(tracemalloc.stop)
        self.assertEqual(bmmc.detect(addresses, memory="1M"), bmmc.gray(21))
        self.assertLess(tracemalloc.get_traced_memory()[1], 6 << 20, "bytes, where the list has 16 MiB")


@needs_program
class Refused(DetectTest):
    def test_worked_lists_are_refused_with_their_place(self) -> None:
        for addresses, status, words, cause in (
            ([0, 1, 2, 4], 22, "out of range 3 4", "number 3 of the list is 4, which is no address"),
            ([0, 1, 2, 2], 23, "not affine 3 2 3", "number 3 of the list is 2, where the map of its unit addresses has 3"),
            ([1, 1, 1, 1], 24, "not a permutation 1", "the map of the list sends 1, other than 0, where it sends 0"),
            ([0, 3, 3, 0], 24, "not a permutation 3", "the list is no permutation"),
            ([0, 1, 2, 2**64 - 1], 22, f"out of range 3 {2**64 - 1}", "mend the list"),
        ):
            with self.assert_raises(bmmc.StatusError, f"bmmc detect: {words} (status {status})", cause):
                bmmc.detect(numpy.array(addresses, dtype=numpy.uint64))

    def test_one_number_that_is_changed_is_found(self) -> None:
        addresses, random = addresses_of(random_map(9, 9)), numpy.random.default_rng(9)
        for x in [0, 1, 256, 511, *random.integers(0, 512, 8).tolist()]:
            changed = addresses.copy()
            changed[x] ^= numpy.uint64(random.integers(1, 512))
            with self.subTest(x=x, y=int(changed[x])):
                self.assertEqual(self.assert_refused(changed), 23)

    def test_a_singular_list_is_told_by_its_least_kernel_vector(self) -> None:
        columns = numpy.array([5, 130, 7, 64, 5 ^ 130 ^ 64, 9, 255, 1], dtype=numpy.uint64)
        x = numpy.arange(256, dtype=numpy.uint64)
        addresses = numpy.full(256, 77, dtype=numpy.uint64)
        for j, column in enumerate(columns):
            addresses ^= (x >> numpy.uint64(j) & numpy.uint64(1)) * column
        self.assertEqual(self.assert_refused(addresses), 24)
        self.assertEqual(refusal(addresses), (24, (27,)))

    def test_a_number_that_is_no_address_comes_before_all_else(self) -> None:
        for x, y in ((255, 256), (0, 1 << 63), (128, 300)):
            addresses = addresses_of(bmmc.gray(8))
            addresses[3], addresses[x] = 0, y
            self.assertEqual(self.assert_refused(addresses), 22)

    def test_two_records_with_one_address_are_refused(self) -> None:
        addresses = addresses_of(bmmc.bit_reversal(8))
        addresses[77] = addresses[78]
        self.assertEqual(self.assert_refused(addresses), 23)

    def test_a_large_list_with_one_number_changed_is_refused(self) -> None:
        map = random_map(20, 21)
        addresses, x = addresses_of(map), (1 << 20) - 3
        addresses[x] ^= numpy.uint64(1)
        with self.assert_raises(bmmc.StatusError) as caught:
            bmmc.detect(addresses, memory="1M")
        self.assertEqual((caught.error.status, caught.error.numbers), (23, (x, map.image(x) ^ 1, map.image(x))))


class NoList(DetectTest):
    """What is refused before any program is run: the program here notes that it was called."""

    def setUp(self) -> None:
        super().setUp()
        self.program = self.folder / "bmmc"
        self.program.write_text(f"#!/bin/sh\necho \"$@\" >>'{self.folder / 'called'}'\nexit 11\n", encoding="utf-8")
        self.program.chmod(0o755)

    def refused(self, kind: type, words: str, given, **further) -> None:
        """Asserts that a list is refused by one sentence with these words, and that no program was run."""
        with self.subTest(words), self.assert_raises(kind, words) as caught:
            bmmc.detect(given, program=self.program, **further)
        self.assertNotIn("\n", str(caught.error))
        self.assertFalse((self.folder / "called").exists())

    def test_a_length_or_a_kind_that_no_list_has(self) -> None:
        for words, given in {
            "has 2^n numbers for some n of at least 1, and this one has 12": range(12),
            "and this one has 1": [0],
            "and this one has 0": [],
            "an array of one axis, and this one has 2": [[0, 1], [2, 3]],
            "an array of one axis, and this one has 0": 7,
            "whole numbers from 0 to 2^64 - 1, and the elements of this one are float64": [0.0, 1.0],
            "the elements of this one are object": [0, 1, 2, 2**64],
            "the elements of this one are bool": [False, True],
            "the elements of this one are <U1": ["0", "1"],
            "this is no list of addresses": [[0, 1], [2]],
            "number 1 of the list is -1, and an address is at least 0": [0, -1, -2, 3],
        }.items():
            self.refused(bmmc.MapError, words, given)
        negative = numpy.arange(1 << 19)
        negative[300000] = -5
        self.refused(bmmc.MapError, "number 300000 of the list is -5", negative)

    def test_files_that_hold_no_list(self) -> None:
        (self.folder / "raw").write_bytes(bytes(12))
        (self.folder / "empty").touch()
        (self.folder / "empty.npy").touch()
        numpy.savez(self.folder / "several.npz", numpy.arange(4), numpy.arange(4))
        (self.folder / "several.npz").rename(self.folder / "several.npy")
        for words, given in {
            "there is no file": self.folder / "none.npy",
            f"there is no file {self.folder} to read": self.folder,
            "the 12 bytes of": self.folder / "raw",
            "the 0 bytes of": self.folder / "empty",
            "empty.npy is no `.npy` file of plain numbers or records": self.folder / "empty.npy",
            "several.npy is no `.npy` file of plain numbers or records": str(self.folder / "several.npy"),
        }.items():
            self.refused(bmmc.SourceError, words, given)

    def test_memory_that_is_too_much_or_too_little(self) -> None:
        for words, memory in {"memory of 1K is more than the 32 of all records": "1K", "holds no two records of 8 bytes": 8}.items():
            self.refused(bmmc.ShapeError, words, range(4), memory=memory)

    def test_want_of_room_for_temporary_files(self) -> None:
        with unittest.mock.patch("bmmc.work.os.statvfs", lambda place: SimpleNamespace(f_bavail=1, f_frsize=1 << 10)):
            self.refused(bmmc.RoomError, "the list needs 2K", range(256))
            self.refused(bmmc.RoomError, "let `TMPDIR` name a folder on another device", range(256))

    def test_a_program_that_is_not_there(self) -> None:
        with self.assert_raises(bmmc.MissingProgram, "/nowhere/bmmc is no program"):
            bmmc.detect(range(4), program="/nowhere/bmmc")

    def test_a_program_that_fails(self) -> None:
        with self.assert_raises(bmmc.StatusError, "bmmc new: rack fault (status 11)"):
            bmmc.detect(range(4), program=self.program)
        self.assertEqual((self.folder / "called").read_text(encoding="utf-8"), "new job.toml\n")

    def test_a_text_without_a_map(self) -> None:
        self.program.write_text("#!/bin/sh\n[ $1 = load ] && cat >/dev/null\necho nothing\n", encoding="utf-8")
        with self.assert_raises(bmmc.SourceError, "wrote no map of kind rows: 'nothing\\n'"):
            bmmc.detect(range(4), program=self.program)

    def test_a_program_that_ends_before_it_has_read_the_list(self) -> None:
        self.program.write_text("#!/bin/sh\n[ $1 = new ] || exit 11\n", encoding="utf-8")
        with self.assert_raises(bmmc.StatusError, "bmmc load: rack fault (status 11)"):
            bmmc.detect(numpy.arange(1 << 18), program=self.program)
