"""What a run reads: a raw file, an `.npy` file or a numpy memmap. None of them is ever written."""

from __future__ import annotations

import ast
import os
import threading
from contextlib import contextmanager, suppress
from dataclasses import dataclass
from typing import IO, Iterable, Iterator, Optional, Union

import numpy

from .errors import SourceError
from .maps import Sides
from .program import FilePath

PIECE = 1 << 20


@dataclass(frozen=True)
class Source:
    """A stretch of a file, and the array that it holds; a raw file has no element type and no sides.

    offset, length: bytes. element: the numpy type as numpy's files spell it. fortran: whether the first axis varies fastest.
    """

    path: str
    offset: int
    length: int
    element: Optional[str] = None
    sides: Optional[Sides] = None
    fortran: bool = False

    @property
    def dtype(self) -> Optional[numpy.dtype]:
        """The numpy type of an element."""
        return None if self.element is None else dtype_of(self.element)

    def stamp(self) -> tuple[int, int]:
        """What changes when the file is written: its length and the time of its last change, in nanoseconds."""
        state = os.stat(self.path)
        return state.st_size, state.st_mtime_ns

    @contextmanager
    def opened(self) -> Iterator[IO[bytes]]:
        """Standard input for a program that is to read just this stretch."""
        with open(self.path, "rb", buffering=0) as file:
            file.seek(self.offset)
            if self.offset + self.length == os.fstat(file.fileno()).st_size:
                yield file
            else:
                with piped(stretch_of(file, self.length)) as reader:
                    yield reader


@contextmanager
def piped(pieces: Iterable[bytes]) -> Iterator[IO[bytes]]:
    """The reading end of a pipe, through which these pieces come one after another."""
    reading, writing = os.pipe()
    feeder = threading.Thread(target=feed, args=(pieces, writing))
    feeder.start()
    try:
        with open(reading, "rb", buffering=0) as reader:
            yield reader
    finally:
        feeder.join()


def feed(pieces: Iterable[bytes], writing: int) -> None:
    """Hands pieces on, or as many bytes of them as the reader takes."""
    with open(writing, "wb", buffering=0) as pipe, suppress(BrokenPipeError):
        for piece in pieces:
            rest = memoryview(piece)
            while rest:
                rest = rest[pipe.write(rest) :]


def stretch_of(file: IO[bytes], length: int) -> Iterator[bytes]:
    """The next bytes of a file: that many, or as many as it has."""
    while length and (piece := file.read(min(PIECE, length))):
        length -= len(piece)
        yield piece


def source_of(given: Union[FilePath, numpy.memmap]) -> Source:
    """The source that a path or a memmap names."""
    if isinstance(given, numpy.ndarray):
        return source_of_array(given)
    path = os.path.abspath(given)
    if path.endswith(".npy"):
        return source_of_array(mapped(path))
    return Source(path, 0, os.path.getsize(existing(path)))


def existing(path: FilePath) -> FilePath:
    """A path, where there is a file to read. It raises SourceError where there is none."""
    if not os.path.isfile(path):
        raise SourceError(f"there is no file {os.fspath(path)} to read")
    return path


def mapped(path: FilePath) -> numpy.memmap:
    """The array of an `.npy` file, which is left on the disk."""
    existing(path)
    try:
        return numpy.lib.format.open_memmap(path, "r")
    except ValueError as error:
        raise SourceError(f"{path} is no `.npy` file of plain numbers or records: {error}") from error


def source_of_array(array: numpy.ndarray) -> Source:
    """The file behind a memmap, which may be a part of it in one piece."""
    whole = array
    while isinstance(whole.base, numpy.ndarray):
        whole = whole.base
    if not isinstance(whole, numpy.memmap) or whole.filename is None:
        raise SourceError(
            "this array is in memory, where `numpy.transpose` and indexing serve; the engine reads files: give a path, or a numpy memmap"
        )
    if not (array.flags.c_contiguous or array.flags.f_contiguous):
        raise SourceError("this view of a memmap is not in one piece: give the whole of it")
    offset = whole.offset + address_of(array) - address_of(whole)
    path = os.path.abspath(whole.filename)
    return Source(path, offset, array.nbytes, spelled(array.dtype), array.shape, not array.flags.c_contiguous)


def address_of(array: numpy.ndarray) -> int:
    """Where an array begins in memory."""
    return array.__array_interface__["data"][0]


def spelled(dtype: numpy.dtype) -> str:
    """A numpy type as text."""
    return repr(numpy.lib.format.dtype_to_descr(dtype))


def dtype_of(element: str) -> numpy.dtype:
    """The numpy type that a text spells."""
    return numpy.lib.format.descr_to_dtype(ast.literal_eval(element))
