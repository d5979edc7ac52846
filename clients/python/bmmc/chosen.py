"""The map and the job that the options of a command name."""

from __future__ import annotations

from argparse import Namespace
from typing import Callable, Optional

from . import maps
from .errors import SourceError
from .jobs import Job
from .maps import Map, Sides
from .runs import permutation, transform
from .sources import Source, source_of

PLAIN_KINDS: dict[str, Callable[[int], Map]] = {
    "identity": maps.identity,
    "reversal": maps.reversal,
    "bit-reversal": maps.bit_reversal,
    "gray": maps.gray,
    "inverse-gray": maps.inverse_gray,
}


def job_of(options: Namespace) -> Job:
    """The job of a command that moves nothing."""
    source = source_of(options.source)
    if options.walsh:
        if options.inverse or options.complement or options.width or options.sides:
            raise SourceError("the transform is of numbers of 8 bytes: it takes no `--inverse`, `--complement`, `--width` or `--sides`")
        return transform(source, options.memory, options.disks, options.block)
    return permutation(source, map_of(options, source), options.memory, options.disks, options.block)


def map_of(options: Namespace, source: Source) -> Map:
    """The map that the options name, for the array of a source."""
    sides = sides_of(options, source)
    found = array_map(options, sides) or list_map(options, sides)
    if options.inverse:
        found = maps.inverse(found)
    return maps.compose(maps.identity(found.n, options.complement), found) if options.complement else found


def sides_of(options: Namespace, source: Source) -> Sides:
    """The sides of the array whose records are meant."""
    if source.sides is not None:
        if options.width or options.sides:
            raise SourceError("`--width` and `--sides` are for raw files: an `.npy` file has its own")
        return source.sides
    if options.sides:
        return tuple(options.sides)
    records, over = divmod(source.length, options.width or 1)
    if over:
        raise SourceError(f"the {source.length} bytes of {source.path} are no records of {options.width} bytes")
    return (records,)


def array_map(options: Namespace, sides: Sides) -> Optional[Map]:
    """A map of an array with axes; None where the options name another one."""
    if options.axes is not None:
        return maps.axes(axes_of(sides, max(options.axes) + 1), options.axes)
    if options.tiles is not None:
        return maps.tiles(*axes_of(sides, 2), *options.tiles)
    if options.untiles:
        down, across, tile_rows, tile_cols = axes_of(sides, 4)
        return maps.untiles(down * tile_rows, across * tile_cols, tile_rows, tile_cols)
    if options.morton:
        widths = maps.side_bits(sides)
        if len(set(widths)) != 1:
            raise SourceError(f"Morton order is of an array of equal sides, and these are {sides}")
        return maps.morton(widths[0], len(widths))
    return None


def axes_of(sides: Sides, count: int) -> Sides:
    """The first sides of an array that has so many, or more, which are then within a record."""
    if len(sides) < count:
        raise SourceError(f"an array of {count} axes is wanted, and this one has {len(sides)}: for a raw file, name them by --sides")
    return sides[:count]


def list_map(options: Namespace, sides: Sides) -> Map:
    """A map of the whole list of records."""
    if options.bits is not None:
        return maps.bits(options.bits)
    if options.rows is not None:
        return maps.rows(options.rows)
    n = sum(maps.side_bits(sides))
    if options.transpose is not None:
        return maps.transpose(n, options.transpose)
    if options.rotation is not None:
        return maps.rotation(n, options.rotation)
    return PLAIN_KINDS[options.kind](n)
