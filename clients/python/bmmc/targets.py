"""Where a run writes: a file that appears under its name when it is whole and synced."""

from __future__ import annotations

import math
import os
from contextlib import contextmanager, suppress
from dataclasses import dataclass
from pathlib import Path
from typing import IO, Iterator, Optional

import numpy

from .errors import SourceError
from .maps import Map, Sides
from .program import FilePath
from .sources import Source, dtype_of, spelled
from .spelling import again


@dataclass(frozen=True)
class Target:
    """A file of that many bytes of records. It is an `.npy` file where `element` and `sides` are there, else a raw one."""

    path: str
    length: int
    element: Optional[str] = None
    sides: Optional[Sides] = None
    fortran: bool = False

    def unfinished(self, token: str) -> Path:
        """The name beside the file under which it is written."""
        folder, name = os.path.split(self.path)
        return Path(folder, f".{name}.bmmc-{token}")

    @contextmanager
    def written(self, token: str) -> Iterator[IO[bytes]]:
        """The file, opened where its records begin. It gets its name at the end; where something fails it is removed instead."""
        unfinished = self.unfinished(token)
        try:
            offset = self.begin(unfinished)
            with open(unfinished, "r+b", buffering=0) as file:
                file.seek(offset)
                yield file
                if file.tell() != offset + self.length:
                    raise SourceError(f"{file.tell() - offset} bytes of {self.length} came out: {again()}")
                os.fsync(file.fileno())
            os.replace(unfinished, self.path)
        except BaseException:
            with suppress(FileNotFoundError):
                unfinished.unlink()
            raise
        sync_folder(unfinished.parent)

    def begin(self, unfinished: Path) -> int:
        """Makes the file, and answers the bytes that its header has."""
        if self.element is None:
            unfinished.write_bytes(b"")
            return 0
        made = numpy.lib.format.open_memmap(unfinished, "w+", dtype_of(self.element), self.sides, self.fortran)
        return made.offset


def sync_folder(folder: FilePath) -> None:
    """Makes the names in a folder durable."""
    opened = os.open(folder, os.O_RDONLY | os.O_DIRECTORY)
    try:
        os.fsync(opened)
    finally:
        os.close(opened)


def target_path(given: FilePath, source: Source) -> str:
    """The path of a destination. It raises SourceError where nothing can be written there."""
    path = os.path.realpath(given)
    folder = os.path.dirname(path)
    if not os.path.isdir(folder):
        raise SourceError(f"there is no folder {folder} to write into")
    if os.path.exists(path):
        if not os.path.isfile(path):
            raise SourceError(f"{path} is there and is no plain file")
        if os.path.samefile(path, source.path):
            raise SourceError(f"{path} is the source: nothing is permuted in place, so give the result another name")
    return path


def permuted_target(given: FilePath, source: Source, map: Map) -> Target:
    """The destination of a permutation: an `.npy` file has the sides that the map leaves, in C order."""
    path = target_path(given, source)
    lead, rest = split_sides(source, map)
    if not path.endswith(".npy"):
        return Target(path, source.length)
    sides = (map.result or lead) + rest
    if source.element is not None:
        return Target(path, source.length, source.element, sides)
    width = source.length >> map.n
    return Target(path, source.length, spelled(numpy.dtype("u1")), sides + ((width,) if width > 1 else ()))


def transformed_target(given: FilePath, source: Source) -> Target:
    """The destination of a transform: an `.npy` file has the sides and the order of the source."""
    path = target_path(given, source)
    if not path.endswith(".npy"):
        return Target(path, source.length)
    element = source.element or spelled(numpy.dtype("<u8"))
    return Target(path, source.length, element, source.sides or (source.length // 8,), source.fortran)


def split_sides(source: Source, map: Map) -> tuple[Sides, Sides]:
    """The first axes of a source, along which the records of a map lie, and the last ones, which are within a record."""
    records = 1 << map.n
    if source.sides is None:
        return (records,), ()
    for count in range(len(source.sides) + 1):
        lead, rest = source.sides[:count], source.sides[count:]
        if math.prod(lead) == records and (map.sides in (None, lead) or lead == (records,)):
            return lead, rest
    wanted = f"an array of {sides_text(map.sides)}" if map.sides else f"{records} records"
    raise SourceError(f"the map is for {wanted}, and the source is an array of {sides_text(source.sides)}")


def sides_text(sides: Sides) -> str:
    """Sides as they are spoken: `4 by 8`."""
    return " by ".join(str(side) for side in sides) or "no axes"
