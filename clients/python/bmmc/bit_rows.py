"""Bit matrices as tuples of rows: bit j of row i is the entry in column j."""

from __future__ import annotations

from typing import Iterable, Optional

Rows = tuple[int, ...]


def unit_rows(n: int) -> Rows:
    """The matrix that changes nothing."""
    return tuple(1 << i for i in range(n))


def transposed(matrix: Iterable[int], count: int) -> Rows:
    """Rows for columns: `count` is the number of columns of the matrix."""
    rows = tuple(matrix)
    return tuple(sum((row >> j & 1) << i for i, row in enumerate(rows)) for j in range(count))


def applied(columns: Iterable[int], x: int) -> int:
    """The sum of those columns whose bit is set in x."""
    total = 0
    for j, column in enumerate(columns):
        if x >> j & 1:
            total ^= column
    return total


def product(left: Rows, right: Rows) -> Rows:
    """The rows of the product, which applies `right` first."""
    return tuple(applied(right, row) for row in left)


def least_kernel_vector(columns: Iterable[int]) -> Optional[int]:
    """The least vector but 0 that the matrix of these columns sends to 0; None where there is none."""
    reduced: list[tuple[int, int]] = []
    for j, column in enumerate(columns):
        made_of = 1 << j
        for value, parts in reduced:
            if column ^ value < column:
                column, made_of = column ^ value, made_of ^ parts
        if column == 0:
            return made_of
        reduced = sorted(reduced + [(column, made_of)], reverse=True)
    return None


def inverted(rows: Rows) -> Rows:
    """The rows of the inverse of a nonsingular matrix."""
    n = len(rows)
    work = [row | 1 << n + i for i, row in enumerate(rows)]
    for j in range(n):
        at = next(i for i in range(j, n) if work[i] >> j & 1)
        work[j], work[at] = work[at], work[j]
        for i in range(n):
            if i != j and work[i] >> j & 1:
                work[i] ^= work[j]
    return tuple(row >> n for row in work)
