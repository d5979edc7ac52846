"""Maps of addresses: the record at x goes to A x XOR c, where A is a nonsingular bit matrix.

An array's records are numbered in C order: the last axis varies fastest, and so has the lowest bits of an address.
"""

from __future__ import annotations

import operator
from dataclasses import dataclass, field, replace
from functools import cached_property
from typing import Iterable, Optional, Sequence, TypeVar, Union

import numpy

from .bit_rows import Rows, applied, inverted, least_kernel_vector, product, transposed, unit_rows
from .errors import MapError
from .sizes import is_power_of_two, log2_above, log2_below

MOST_BITS = 52
Sides = tuple[int, ...]
Addresses = TypeVar("Addresses", int, numpy.ndarray)


@dataclass(frozen=True)
class Map:
    """The map of n-bit addresses that sends x to A x XOR `complement`. Bit j of `rows[i]` is the entry of A in row i, column j.

    `sides` and `result` are the sides of the array before and after, None where the map knows of no array. `words` are the lines of
    the table `map` of a job text. They take no part in a comparison of maps.
    """

    rows: Rows
    complement: int = 0
    words: str = field(default="", compare=False, repr=False)
    sides: Optional[Sides] = field(default=None, compare=False)
    result: Optional[Sides] = field(default=None, compare=False)

    def __post_init__(self) -> None:
        if not 1 <= self.n <= MOST_BITS:
            raise MapError(f"a map has 1 to {MOST_BITS} address bits, and not {self.n}")
        for i, row in enumerate(self.rows):
            if not 0 <= row < 1 << self.n:
                raise MapError(f"row {i} is {row}, which is no row of {self.n} bits")
        if not 0 <= self.complement < 1 << self.n:
            raise MapError(f"the complement {self.complement} is no address of {self.n} bits")
        least = least_kernel_vector(self.columns)
        if least is not None:
            raise MapError(f"the matrix is singular, so that records would collide: it sends {least} to 0, as it does 0")
        if not self.words:
            object.__setattr__(self, "words", explicit_words(self.rows, self.complement))

    @property
    def n(self) -> int:
        """The bits of an address."""
        return len(self.rows)

    @cached_property
    def columns(self) -> Rows:
        """Bit i of column j is the entry of A in row i, column j."""
        return transposed(self.rows, self.n)

    def image(self, x: Addresses) -> Addresses:
        """The address, or the array of addresses, to which x goes."""
        if isinstance(x, numpy.ndarray):
            return images(self, x)
        if not 0 <= x < 1 << self.n:
            raise MapError(f"{x} is no address of {self.n} bits")
        return applied(self.columns, operator.index(x)) ^ self.complement


def images(map: Map, addresses: numpy.ndarray) -> numpy.ndarray:
    """The addresses to which an array of addresses goes, as an array of uint64 of the same shape."""
    if addresses.dtype.kind not in "iu" or (addresses.size and not 0 <= int(addresses.min()) <= int(addresses.max()) < 1 << map.n):
        raise MapError(f"the array holds numbers that are no addresses of {map.n} bits")
    x = addresses.astype(numpy.uint64)
    moved = numpy.full(x.shape, map.complement, dtype=numpy.uint64)
    for j, column in enumerate(map.columns):
        moved ^= (x >> numpy.uint64(j) & numpy.uint64(1)) * numpy.uint64(column)
    return moved


def explicit_words(rows: Rows, complement: int) -> str:
    """The lines of a map that is given by its matrix: a list of bits where it only moves bits, else rows."""
    if all(is_power_of_two(row) for row in rows):
        words = f'kind = "bits"\nbits = {[log2_below(row) for row in rows]}'
    else:
        words = f'kind = "rows"\nrows = {list(rows)}'
    return words + complement_words(complement)


def complement_words(complement: int) -> str:
    """The line of a complement, or nothing where it is 0."""
    return f"\ncomplement = {complement}" if complement else ""


def named(kind: str, rows: Iterable[int], complement: int, further: str = "") -> Map:
    """A map whose job text names its kind."""
    return Map(tuple(rows), complement, f'kind = "{kind}"' + further + complement_words(complement))


def identity(n: int, complement: int = 0) -> Map:
    """x goes to x XOR complement."""
    return named("identity", unit_rows(n), complement)


def reversal(n: int, complement: int = 0) -> Map:
    """x goes to (2^n - 1 - x) XOR complement: the last record comes first."""
    words = 'kind = "reversal"' + complement_words(complement)
    return Map(unit_rows(n), (1 << n) - 1 ^ complement, words)


def bit_reversal(n: int, complement: int = 0) -> Map:
    """Target bit i is source bit n-1-i."""
    return named("bit-reversal", reversed(unit_rows(n)), complement)


def transpose(n: int, p: int, complement: int = 0) -> Map:
    """The transposition of a matrix of 2^p rows and 2^(n-p) columns, row by row."""
    if not 0 <= p <= n:
        raise MapError(f"a matrix of 2^{n} records has no side of 2^{p}")
    return named("transpose", rotated(n, n - p), complement, f"\np = {p}")


def rotation(n: int, by: int, complement: int = 0) -> Map:
    """Target bit i is source bit (i + by) mod n."""
    if not 0 <= by <= 255:
        raise MapError(f"a rotation goes by 0 to 255 bits, and not by {by}")
    return named("rotation", rotated(n, by), complement, f"\nby = {by}")


def rotated(n: int, by: int) -> Rows:
    """The rows of a rotation."""
    return tuple(1 << (i + by) % n for i in range(n))


def gray(n: int, complement: int = 0) -> Map:
    """x goes to x XOR (x >> 1): the binary number of a place becomes its Gray code."""
    return named("gray", ((3 << i) & (1 << n) - 1 for i in range(n)), complement)


def inverse_gray(n: int, complement: int = 0) -> Map:
    """The way back from Gray code: target bit i is the XOR of source bits i to n-1."""
    return named("inverse-gray", ((1 << n) - (1 << i) for i in range(n)), complement)


def bits(order: Sequence[int], complement: int = 0) -> Map:
    """Target bit i is source bit `order[i]`. Bit 0 is the lowest."""
    places = [operator.index(bit) for bit in order]
    if sorted(places) != list(range(len(places))):
        raise MapError(f"{places} does not name each of the bits 0 to {len(places) - 1} once")
    return by_bits(places, complement)


def by_bits(order: Iterable[int], complement: int = 0) -> Map:
    """The same for an order that is known to name each bit once."""
    return Map(tuple(1 << bit for bit in order), complement)


def rows(numbers: Iterable[int], complement: int = 0) -> Map:
    """The map of a matrix that is given by its rows, the lowest first: bit j of row i is the entry in column j."""
    listed = tuple(operator.index(row) for row in numbers)
    return Map(listed, complement, f'kind = "rows"\nrows = {list(listed)}' + complement_words(complement))


def matrix(entries: Union[numpy.ndarray, Sequence[Sequence[int]]], complement: int = 0) -> Map:
    """The map of a square matrix of booleans, or of zeros and ones. Row 0 and column 0 belong to the lowest bit."""
    table = numpy.asarray(entries)
    if table.ndim != 2 or table.shape[0] != table.shape[1]:
        raise MapError(f"a matrix of {' by '.join(str(side) for side in table.shape)} entries is not square")
    if not numpy.isin(table, (0, 1)).all():
        raise MapError("a bit matrix has the entries 0 and 1 alone")
    return rows((sum(1 << j for j, entry in enumerate(row) if entry) for row in table.tolist()), complement)


def axes(sides: Sequence[int], order: Sequence[int]) -> Map:
    """What `numpy.transpose(array, order)` does to an array of these sides, each a power of two."""
    widths = side_bits(sides)
    places = [operator.index(axis) for axis in order]
    if sorted(places) != list(range(len(widths))):
        raise MapError(f"the order {places} does not name each of the axes 0 to {len(widths) - 1} once")
    firsts = [sum(widths[axis + 1:]) for axis in range(len(widths))]
    moved = by_bits(firsts[axis] + i for axis in reversed(places) for i in range(widths[axis]))
    return replace(moved, sides=tuple(sides), result=tuple(sides[axis] for axis in places))


def tiles(rows: int, cols: int, tile_rows: int, tile_cols: int) -> Map:
    """A matrix in rows becomes a matrix of tiles, each in one piece and in rows. `untiles` is the way back."""
    if any(side % tile for side, tile in ((rows, tile_rows), (cols, tile_cols)) if tile > 0):
        raise MapError(f"tiles of {tile_rows} by {tile_cols} don't divide a matrix of {rows} by {cols}")
    side_bits((tile_rows, tile_cols))
    cut = axes((rows // tile_rows, tile_rows, cols // tile_cols, tile_cols), (0, 2, 1, 3))
    return replace(cut, sides=(rows, cols))


def untiles(rows: int, cols: int, tile_rows: int, tile_cols: int) -> Map:
    """The way back of `tiles`: a matrix of tiles becomes one in rows."""
    return inverse(tiles(rows, cols, tile_rows, tile_cols))


def morton(bits: int, dims: int) -> Map:
    """An array of `dims` axes of 2^bits records each becomes a list in Morton order (Z-order).

    Bit i of the coordinate on the last axis becomes bit i * dims, that of the axis before it the bit above, and so on.
    """
    if bits < 1 or dims < 1:
        raise MapError(f"there is no array of {dims} axes of 2^{bits} records to put in order")
    moved = by_bits(axis * bits + i for i in range(bits) for axis in range(dims))
    return replace(moved, sides=(1 << bits,) * dims, result=(1 << bits * dims,))


def compose(f: Map, g: Map) -> Map:
    """The map that does g, and then f."""
    if f.n != g.n:
        raise MapError(f"a map of {f.n} address bits can't follow one of {g.n}")
    both = Map(product(f.rows, g.rows), applied(f.columns, g.complement) ^ f.complement)
    return replace(both, sides=g.sides or f.sides, result=f.result or g.result)


def inverse(f: Map) -> Map:
    """The map that brings each record back to where it was before f."""
    back = inverted(f.rows)
    return Map(back, applied(transposed(back, f.n), f.complement), sides=f.result, result=f.sides)


def image(f: Map, x: Addresses) -> Addresses:
    """The address to which f sends the record at x; of an array of addresses, the array of their images."""
    return f.image(x)


def side_bits(sides: Sequence[int]) -> list[int]:
    """The logarithms of the sides of an array."""
    for axis, side in enumerate(sides):
        if not is_power_of_two(operator.index(side)):
            raise MapError(f"side {side} of axis {axis} is no power of two: {padded(side)}")
    return [log2_below(side) for side in sides]


def padded(side: int) -> str:
    """What to do about a side that is no power of two."""
    return f"pad it to {1 << log2_above(side)}" if side > 0 else "an array without records has no map"
