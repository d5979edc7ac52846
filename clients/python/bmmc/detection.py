"""The map that a list of addresses is."""

from __future__ import annotations

import os
import re
import tempfile
from pathlib import Path
from typing import Iterator, Optional, Sequence, Union

import numpy

from .errors import MapError, SourceError
from .jobs import Job
from .maps import Map, identity, rows
from .program import FilePath, Program, find_program
from .shapes import Shape, shape_of
from .sizes import Size, is_power_of_two
from .sources import PIECE, existing, mapped, piped
from .work import want_free

JOB = "job.toml"
WIDTH = 8
"""Bytes of a number of the list, as the program takes it."""
Addresses = Union[FilePath, numpy.ndarray, Sequence[int]]


def detect(addresses: Addresses, memory: Optional[Size] = None, program: Optional[FilePath] = None) -> Map:
    """The map that sends each x to `addresses[x]`.

    addresses: 2^n whole numbers, as an array of one axis, a sequence, the path of an `.npy` file, or that of a raw file of numbers of 8
    bytes, the lowest first. A file, or a numpy memmap, may be larger than memory.
    memory: bytes of numbers in memory at a time, as `shape_for` takes them.
    program: the file of the program, where it is not found by itself.

    The numbers are written to a folder among the system's temporary files (`TMPDIR` names the place), where 8 * 2^n bytes have to be free.
    It is removed in the end, also after an error.

    It raises MapError where this is no list of 2^n whole numbers of at least 0, and StatusError, whose `numbers` tell the place, where it
    is one that no map has: status 22, number X is Y, which is no address; 23, number X is Y, where the map of the unit addresses has
    WANT; 24, X is the least but 0 that goes where 0 goes.
    """
    return map_of(detected_text(addresses, memory, program))


def detected_text(addresses: Addresses, memory: Optional[Size] = None, program: Optional[FilePath] = None) -> str:
    """The same map as the job text that the program writes."""
    numbers = list_of(addresses)
    shape, found = shape_of(WIDTH * len(numbers), WIDTH, memory, 1, "64K"), find_program(program)
    with tempfile.TemporaryDirectory(prefix="bmmc-") as folder:
        return text_from(found, shape, numbers, Path(folder))


def text_from(program: Program, shape: Shape, numbers: numpy.ndarray, folder: Path) -> str:
    """What the program writes of a list that it is given in an empty folder."""
    want_free(folder, shape.bytes, "the list needs", "make room, or let `TMPDIR` name a folder on another device")
    (folder / JOB).write_text(Job(shape, identity(shape.n)).text(), encoding="utf-8")
    program.call(["new", JOB], folder)
    with piped(piece.astype("<u8").tobytes() for piece in pieces_of(numbers)) as stdin:
        program.call(["load", JOB], folder, stdin=stdin)
    return program.call(["detect", JOB], folder)


def list_of(addresses: Addresses) -> numpy.ndarray:
    """The numbers of a list of addresses. It raises MapError where it is none by its length or its kind."""
    numbers = numbers_of(addresses)
    if numbers.ndim != 1:
        raise MapError(f"a list of addresses is an array of one axis, and this one has {numbers.ndim}")
    if len(numbers) < 2 or not is_power_of_two(len(numbers)):
        raise MapError(f"a list of addresses has 2^n numbers for some n of at least 1, and this one has {len(numbers)}")
    if numbers.dtype.kind not in "iu":
        raise MapError(f"a list of addresses has whole numbers from 0 to 2^64 - 1, and the elements of this one are {numbers.dtype}")
    want_none_below_0(numbers)
    return numbers


def numbers_of(addresses: Addresses) -> numpy.ndarray:
    """An array of what was given; a file is left on the disk."""
    if isinstance(addresses, (str, os.PathLike)):
        return mapped(addresses) if os.fspath(addresses).endswith(".npy") else mapped_numbers(addresses)
    try:
        return numpy.asarray(addresses)
    except (ValueError, TypeError) as error:
        raise MapError(f"this is no list of addresses: {error}") from error


def mapped_numbers(path: FilePath) -> numpy.memmap:
    """The numbers of a raw file, which is left on the disk."""
    length = os.path.getsize(existing(path))
    if length == 0 or length % WIDTH:
        raise SourceError(f"the {length} bytes of {path} are no list of numbers of {WIDTH} bytes")
    return numpy.memmap(path, "<u8", "r")


def want_none_below_0(numbers: numpy.ndarray) -> None:
    """Raises MapError at the first number that is below 0."""
    first = 0
    for piece in pieces_of(numbers) if numbers.dtype.kind == "i" else ():
        if piece.min() < 0:
            at = int(numpy.argmax(piece < 0))
            raise MapError(f"number {first + at} of the list is {piece[at]}, and an address is at least 0")
        first += len(piece)


def pieces_of(numbers: numpy.ndarray) -> Iterator[numpy.ndarray]:
    """The numbers, so many at a time that they take little memory."""
    count = PIECE // WIDTH
    return (numbers[first : first + count] for first in range(0, len(numbers), count))


def map_of(text: str) -> Map:
    """The map of the job text that `detect` writes, of kind `rows`."""
    listed = re.search(r"^rows = \[([\d, ]+)\]$", text, re.MULTILINE)
    complement = re.search(r"^complement = (\d+)$", text, re.MULTILINE)
    if not listed or not complement:
        raise SourceError(f"`detect` wrote no map of kind rows: {text!r}")
    return rows([int(row) for row in listed[1].split(",")], int(complement[1]))
