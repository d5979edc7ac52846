"""Each map against numpy's own transpose and reshape, or a direct formula, by itself and through the program."""

from __future__ import annotations

import itertools
import unittest

import numpy

import bmmc

from .common import FolderTest, needs_program, numbered

N = 8
ALL = range(1 << N)


def bit_reversed(x: int) -> int:
    return int(format(x, f"0{N}b")[::-1], 2)


def gray_decoded(x: int) -> int:
    total = 0
    while x:
        total ^= x
        x >>= 1
    return total


def rotated(x: int, by: int) -> int:
    return (x >> by | x << N - by) & (1 << N) - 1


def by_matrix(entries: numpy.ndarray, x: int) -> int:
    column = numpy.array([x >> j & 1 for j in range(N)])
    return sum(int(bit) << i for i, bit in enumerate(entries.astype(int) @ column % 2))


def spread(coordinates: tuple[int, ...], bits: int) -> int:
    """The place in Morton order of a record with these coordinates."""
    dims = len(coordinates)
    return sum((value >> i & 1) << i * dims + dims - 1 - axis for axis, value in enumerate(coordinates) for i in range(bits))


UPPER = numpy.triu(numpy.ones((N, N), dtype=bool))
ORDER = [5, 0, 7, 2, 1, 6, 3, 4]
FORMULAS = {
    "identity": (bmmc.identity(N), lambda x: x),
    "reversal": (bmmc.reversal(N), lambda x: 2**N - 1 - x),
    "bit-reversal": (bmmc.bit_reversal(N), bit_reversed),
    "transpose": (bmmc.transpose(N, 3), lambda x: x % 32 * 8 + x // 32),
    "gray": (bmmc.gray(N), lambda x: x ^ x >> 1),
    "inverse-gray": (bmmc.inverse_gray(N), gray_decoded),
    "rotation": (bmmc.rotation(N, 3), lambda x: rotated(x, 3)),
    "bits": (bmmc.bits(ORDER), lambda x: sum((x >> bit & 1) << i for i, bit in enumerate(ORDER))),
    "rows": (bmmc.rows([3 << i if i < N - 1 else 1 << i for i in range(N)]), lambda x: x ^ x >> 1),
    "matrix": (bmmc.matrix(UPPER), lambda x: by_matrix(UPPER, x)),
    "complement": (bmmc.bit_reversal(N, 77), lambda x: bit_reversed(x) ^ 77),
    "reversal and complement": (bmmc.reversal(N, 77), lambda x: 2**N - 1 - x ^ 77),
    "composition": (bmmc.compose(bmmc.gray(N, 9), bmmc.reversal(N)), lambda x: (255 - x) ^ (255 - x) >> 1 ^ 9),
    "inverse": (bmmc.inverse(bmmc.compose(bmmc.gray(N), bmmc.identity(N, 77))), lambda x: gray_decoded(x) ^ 77),
}


class Formulas(unittest.TestCase):
    def test_each_map_has_its_formula(self) -> None:
        for name, (map, formula) in FORMULAS.items():
            with self.subTest(name):
                self.assertEqual([bmmc.image(map, x) for x in ALL], [formula(x) for x in ALL])

    def test_images_of_arrays_are_those_of_numbers(self) -> None:
        for name, (map, formula) in FORMULAS.items():
            with self.subTest(name):
                found = bmmc.image(map, numpy.arange(256).reshape(16, 16))
                self.assertEqual(found.shape, (16, 16))
                self.assertEqual(found.ravel().tolist(), [formula(x) for x in ALL])

    def test_axes_are_numpys_transpose(self) -> None:
        for sides in ((16,), (4, 8), (8, 1, 2), (2, 4, 8, 2), (2, 2, 2, 2, 4)):
            array = numbered(*sides)
            for order in itertools.permutations(range(len(sides))):
                map = bmmc.axes(sides, order)
                self.assertEqual(map.result, array.transpose(order).shape)
                self.assertTrue((moved(map, array) == array.transpose(order)).all(), (sides, order))

    def test_tiles_are_numpys_reshape(self) -> None:
        array = numbered(16, 32)
        cut = array.reshape(4, 4, 4, 8).transpose(0, 2, 1, 3)
        self.assertTrue((moved(bmmc.tiles(16, 32, 4, 8), array) == cut).all())
        self.assertTrue((moved(bmmc.untiles(16, 32, 4, 8), cut.copy()) == array).all())

    def test_morton_order_interleaves_coordinates(self) -> None:
        for bits, dims in ((4, 1), (3, 2), (2, 3), (1, 4)):
            map, sides = bmmc.morton(bits, dims), (1 << bits,) * dims
            for x, coordinates in enumerate(numpy.ndindex(sides)):
                self.assertEqual(bmmc.image(map, x), spread(coordinates, bits))

    def test_an_inverse_undoes(self) -> None:
        for name, (map, _) in FORMULAS.items():
            self.assertEqual(bmmc.compose(bmmc.inverse(map), map), bmmc.identity(N), name)
            self.assertEqual(bmmc.compose(map, bmmc.inverse(map)), bmmc.identity(N), name)

    def test_a_matrix_may_be_booleans_rows_or_lists(self) -> None:
        listed = UPPER.astype(int).tolist()
        self.assertEqual(bmmc.matrix(UPPER), bmmc.matrix(listed))
        self.assertEqual(bmmc.matrix(UPPER), bmmc.rows([sum(1 << j for j in range(i, N)) for i in range(N)]))


class Refusals(FolderTest):
    def test_what_makes_no_map_is_refused_with_its_reason(self) -> None:
        for words, make in {
            "it sends 3 to 0": lambda: bmmc.rows([3, 3, 4, 8]),
            "side 3 of axis 1 is no power of two: pad it to 4": lambda: bmmc.axes((4, 3), (1, 0)),
            "name each of the axes 0 to 1 once": lambda: bmmc.axes((4, 4), (0, 0)),
            "each of the bits 0 to 2 once": lambda: bmmc.bits([0, 1, 1]),
            "not square": lambda: bmmc.matrix(numpy.ones((2, 3), dtype=bool)),
            "0 and 1 alone": lambda: bmmc.matrix([[1, 2], [0, 1]]),
            "don't divide": lambda: bmmc.tiles(8, 8, 16, 2),
            "no power of two": lambda: bmmc.tiles(9, 9, 3, 3),
            "no side of 2^5": lambda: bmmc.transpose(4, 5),
            "no address of 4 bits": lambda: bmmc.gray(4, 16),
            "1 to 52 address bits": lambda: bmmc.identity(53),
            "can't follow": lambda: bmmc.compose(bmmc.gray(3), bmmc.gray(4)),
            "no address of 3 bits": lambda: bmmc.image(bmmc.gray(3), 8),
            "no addresses of 3 bits": lambda: bmmc.image(bmmc.gray(3), numpy.array([1, 8])),
        }.items():
            with self.subTest(words), self.assert_raises(bmmc.MapError, words):
                make()


def moved(map: bmmc.Map, array: numpy.ndarray) -> numpy.ndarray:
    """What a map does to an array, by its images."""
    result = numpy.empty(array.size, dtype=array.dtype)
    result[bmmc.image(map, numpy.arange(array.size))] = array.ravel()
    return result.reshape(map.result or array.shape)


@needs_program
class ThroughTheProgram(FolderTest):
    def carried(self, map: bmmc.Map, array: numpy.ndarray) -> numpy.ndarray:
        """What the program does to an array, in loads of 16 records on two disks."""
        width = array.itemsize
        disks = [folder for folder in (self.folder / "left", self.folder / "right")]
        for folder in disks:
            folder.mkdir(exist_ok=True)
        out = bmmc.permute(self.saved(array), self.folder / "out.npy", map, memory=16 * width, block=2 * width, disks=disks)
        return numpy.load(out)

    def test_each_map_has_its_formula(self) -> None:
        array = numbered(256)
        for name, (map, formula) in FORMULAS.items():
            with self.subTest(name):
                result = self.carried(map, array)
                self.assertEqual([int(result[formula(x)]) for x in ALL], list(ALL))

    def test_axes_are_numpys_transpose(self) -> None:
        for sides, order in (((4, 8), (1, 0)), ((8, 1, 16), (2, 0, 1)), ((2, 4, 8, 4), (3, 1, 0, 2)), ((2, 2, 4, 2, 8), (4, 0, 3, 1, 2))):
            with self.subTest(sides=sides, order=order):
                array = numbered(*sides)
                self.assertTrue(numpy.array_equal(self.carried(bmmc.axes(sides, order), array), array.transpose(order)))

    def test_tiles_are_numpys_reshape(self) -> None:
        array = numbered(16, 32)
        cut = array.reshape(4, 4, 4, 8).transpose(0, 2, 1, 3)
        self.assertTrue(numpy.array_equal(self.carried(bmmc.tiles(16, 32, 4, 8), array), cut))
        self.assertTrue(numpy.array_equal(self.carried(bmmc.untiles(16, 32, 4, 8), cut), array))

    def test_morton_order_interleaves_coordinates(self) -> None:
        array = numbered(8, 8, 8)
        result = self.carried(bmmc.morton(3, 3), array)
        self.assertEqual(result.shape, (512,))
        for coordinates in numpy.ndindex(array.shape):
            self.assertEqual(result[spread(coordinates, 3)], array[coordinates])
