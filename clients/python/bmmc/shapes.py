"""Shapes: how many records there are, how wide, and how they lie on disks and in memory."""

from __future__ import annotations

from dataclasses import dataclass
from typing import Optional, Union

import numpy

from .errors import ShapeError
from .maps import MOST_BITS, padded
from .program import FilePath
from .sizes import Size, bytes_of, is_power_of_two, log2_above, log2_below, size_text
from .sources import source_of

MOST_WIDTH = 4096
MOST_LOAD = 1 << 30
MOST_DISKS_LOG = 6
USUAL_MEMORY = "256M"


@dataclass(frozen=True)
class Shape:
    """2^n records of `width` bytes, in blocks of 2^b records on 2^d disks, with 2^m records in memory at a time."""

    n: int
    b: int
    d: int
    m: int
    width: int

    def __post_init__(self) -> None:
        rules = (
            (0 <= self.n <= MOST_BITS, f"n has to be 0 to {MOST_BITS}"),
            (0 <= self.d <= MOST_DISKS_LOG, f"d has to be 0 to {MOST_DISKS_LOG}"),
            (0 <= self.b < self.m, "b has to be below m"),
            (self.b + self.d <= self.m, "b + d has to be at most m"),
            (self.m <= self.n, "m has to be at most n"),
            (1 <= self.width <= MOST_WIDTH, f"width has to be 1 to {MOST_WIDTH}"),
            (self.width << self.m <= MOST_LOAD, "2^m * width has to be at most 2^30"),
            (3 * self.width << self.n <= 1 << 63 + self.d, "3 * 2^n * width has to be at most 2^(63 + d)"),
        )
        for kept, rule in rules:
            if not kept:
                raise ShapeError(f"n={self.n} b={self.b} d={self.d} m={self.m} width={self.width} is no shape: {rule}")

    @property
    def bytes(self) -> int:
        """Bytes of all records."""
        return self.width << self.n

    @property
    def loads(self) -> int:
        """Loads of memory that the records make."""
        return 1 << self.n - self.m

    @property
    def pass_bytes(self) -> int:
        """Bytes that one pass moves: it reads each record once and writes it once."""
        return 2 * self.bytes

    @property
    def disks(self) -> int:
        """The number of disks."""
        return 1 << self.d


def shape_for(
    source: Union[FilePath, numpy.ndarray],
    memory: Optional[Size] = None,
    disks: int = 1,
    block: Size = "64K",
    width: Optional[int] = None,
) -> Shape:
    """The shape with which to permute an array, an `.npy` file or a raw file.

    memory: bytes of records in memory at a time, of which at most 1G are used; one row of blocks and little else come on top. Left
    out it is 256M, or all records where they are less.
    disks: how many disks there are; the shape has the least power of two that is no less.
    block: bytes that a block has at least, where memory and disks leave room for it; else blocks are as large as they can be.
    width: bytes of a record. Left out it is an element of the array; of a raw file, 1.

    It raises ShapeError, which says in a sentence why no shape fits.
    """
    total, element, sides = measured(source)
    if width in (None, element):
        for axis, side in enumerate(sides):
            if not is_power_of_two(side):
                raise ShapeError(f"side {side} of axis {axis} is no power of two: {padded(side)}, or give the width of a larger record")
    return shape_of(total, element if width is None else width, memory, disks, block)


def shape_of(total: int, width: int, memory: Optional[Size], disks: int, block: Size) -> Shape:
    """The shape for that many bytes in all, and of a record; all else is as for `shape_for`."""
    if not 1 <= width <= MOST_WIDTH:
        raise ShapeError(f"a record of {width} bytes is too wide: it may have 1 to {MOST_WIDTH}")
    n = address_bits(total, width)
    d = disk_bits(disks)
    m = load_bits(total, width, memory)
    if m < d:
        raise ShapeError(f"memory for {1 << m} records can't hold a block of each of {1 << d} disks: give more memory, or fewer disks")
    return Shape(n, max(0, min(log2_above(-(-bytes_of(block) // width)), m - 1, m - d)), d, m, width)


def measured(source: Union[FilePath, numpy.ndarray]) -> tuple[int, int, tuple[int, ...]]:
    """The bytes of a source's records, of one of its elements, and the sides of its array; of a raw file there are none."""
    if isinstance(source, numpy.ndarray):
        return source.nbytes, source.itemsize, source.shape
    found = source_of(source)
    return found.length, found.dtype.itemsize if found.dtype else 1, found.sides or ()


def address_bits(total: int, width: int) -> int:
    """n for that many bytes in records of that width."""
    records = total // width
    if total % width or not is_power_of_two(records):
        raise ShapeError(f"{total} bytes are no power of two of records of {width} bytes: pad them, or give another width")
    if records == 1:
        raise ShapeError("a single record is nothing to permute")
    return log2_below(records)


def disk_bits(disks: int) -> int:
    """d for a number of disks."""
    if not 1 <= disks <= 1 << MOST_DISKS_LOG:
        raise ShapeError(f"there can be 1 to {1 << MOST_DISKS_LOG} disks, and not {disks}")
    return log2_above(disks)


def load_bits(total: int, width: int, memory: Optional[Size]) -> int:
    """m for that many bytes of records and of memory."""
    given = min(bytes_of(USUAL_MEMORY), total) if memory is None else bytes_of(memory)
    if given > total:
        raise ShapeError(
            f"memory of {size_text(given)} is more than the {size_text(total)} of all records: give at most that, or leave it out"
        )
    if given < 2 * width:
        raise ShapeError(f"memory of {size_text(given)} holds no two records of {width} bytes: give more")
    return log2_below(min(given, MOST_LOAD) // width)
