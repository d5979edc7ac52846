"""Runs over files: from a source through a work folder to a destination, and on after a stop."""

from __future__ import annotations

import os
from contextlib import contextmanager
from pathlib import Path
from typing import Iterator, Optional, Sequence, Union

import numpy

from .errors import Killed, SourceError, StatusError, WorkError
from .jobs import WALSH, Job
from .maps import Map, axes, compose
from .plans import plan_of
from .program import FilePath, Program, find_program
from .progress import Meter, Report, report_for
from .shapes import shape_of
from .sizes import Size
from .slate import gates_of
from .sources import Source, source_of
from .spelling import again, call_on
from .targets import Target, permuted_target, split_sides, transformed_target
from .work import BEGUN, DELIVERED, JOB, Order, Work, held

NOT_LOADED, NO_JOB = 15, 19


def permute(
    src: Union[FilePath, numpy.memmap],
    dst: FilePath,
    map: Map,
    memory: Optional[Size] = None,
    disks: Optional[Sequence[FilePath]] = None,
    checkpoint: Optional[int] = None,
    work: Optional[FilePath] = None,
    progress: Union[bool, Report] = False,
    block: Size = "64K",
    program: Optional[FilePath] = None,
) -> Path:
    """Writes the records of `src` to `dst` in their new order: the record at x is at the image of x. It answers the path of `dst`.

    src: an `.npy` file, a numpy memmap, or a raw file; a raw file's records have its length by 2^n, where the map has n bits.
    dst: the path of the result. An `.npy` file gets a header with its new sides. It appears when it is whole and synced.
    memory, block: bytes, as `shape_for` takes them. disks: folders, best on a device each; disk k lies in folder k modulo their number,
    and there are as many disks as the least power of two that is no less. Left out, there is one disk, in the work folder.
    checkpoint: loads of memory after which progress within a pass is made durable.
    work: the folder of the disks and of what is done; left out it is `dst` with `.work` added. Called again after a stop, permute goes
    on with the run that it holds. What the run made in it goes when the result is there, and never after an error.
    progress: True for a bar of tqdm, or a function that is given a Progress at most twice a second.
    program: the file of the program, where it is not found by itself.
    """
    source = source_of(src)
    job = permutation(source, map, memory, len(disks or [""]), block, checkpoint)
    return carried(source, permuted_target(dst, source, map), job, disks, work, progress, program)


def walsh(
    src: Union[FilePath, numpy.memmap],
    dst: FilePath,
    memory: Optional[Size] = None,
    disks: Optional[Sequence[FilePath]] = None,
    checkpoint: Optional[int] = None,
    work: Optional[FilePath] = None,
    progress: Union[bool, Report] = False,
    block: Size = "64K",
    program: Optional[FilePath] = None,
) -> Path:
    """Writes the Walsh-Hadamard transform of `src`, integers of 8 bytes from the lowest, to `dst`, modulo 2^64 and in natural order.

    All else is as for `permute`.
    """
    source = source_of(src)
    job = transform(source, memory, len(disks or [""]), block, checkpoint)
    return carried(source, transformed_target(dst, source), job, disks, work, progress, program)


def permutation(source: Source, map: Map, memory: Optional[Size], disks: int, block: Size, checkpoint: Optional[int] = None) -> Job:
    """The job that sends the records of a source where a map wants them. It raises an error where the map is not for that source."""
    width, over = divmod(source.length, 1 << map.n)
    if over or not width:
        raise SourceError(f"the {source.length} bytes of {source.path} are not 2^{map.n} records of one length")
    split_sides(source, map)
    return Job(shape_of(source.length, width, memory, disks, block), in_file_order(source, map), checkpoint)


def transform(source: Source, memory: Optional[Size], disks: int, block: Size, checkpoint: Optional[int] = None) -> Job:
    """The job of the transform of a source."""
    dtype = source.dtype
    if dtype is not None and (dtype.kind not in "iu" or dtype.itemsize != 8 or not dtype.isnative):
        raise SourceError(f"the transform is of integers of 8 bytes, and the array has elements of {dtype}")
    return Job(shape_of(source.length, 8, memory, disks, block), WALSH, checkpoint)


def in_file_order(source: Source, map: Map) -> Map:
    """The map from places in the file, where an array in Fortran order has its first axis fastest, to places of the result."""
    if not source.fortran or source.sides is None:
        return map
    if source.length >> map.n != source.dtype.itemsize:
        raise SourceError("an array in Fortran order has no records of more than one element: store it in C order first")
    count = len(source.sides)
    return compose(map, axes(source.sides[::-1], range(count)[::-1]))


def carried(
    source: Source,
    target: Target,
    job: Job,
    disks: Optional[Sequence[FilePath]],
    work: Optional[FilePath],
    progress: Union[bool, Report],
    program: Optional[FilePath],
) -> Path:
    """Does a job from a source to a destination."""
    report, found = report_for(progress), find_program(program)
    folders = tuple(os.path.abspath(folder) for folder in disks or ())
    for folder in folders:
        if not os.path.isdir(folder):
            raise WorkError(f"there is no folder {folder} for a disk")
    order = Order(job.text(), job.shape, source, source.stamp(), target, folders)
    folder = Path(work or target.path + ".work")
    own = not folder.exists()
    try:
        folder.mkdir(exist_ok=True)
    except OSError as error:
        raise WorkError(f"the work folder {folder} can't be made: {error.strerror}") from error
    with held(folder) as place:
        place.begin(order, own)
        return go_on(place, found, report)


def resume(work: FilePath, progress: Union[bool, Report] = False, program: Optional[FilePath] = None) -> Path:
    """Goes on with the run of a work folder to its end, and answers the path of the result."""
    report, found = report_for(progress), find_program(program)
    with held(work) as place:
        if place.state is None:
            raise WorkError(f"{work} holds no run to go on with")
        return go_on(place, found, report)


def clean(work: FilePath) -> None:
    """Gives up the run of a work folder: removes its disks and all that it made but a result. Sources stay as they are."""
    with held(work) as place:
        if place.state is None:
            raise WorkError(f"{work} holds no run to give up")
        place.reach(BEGUN)
        place.remove()


def go_on(work: Work, program: Program, report: Optional[Report]) -> Path:
    """Does what is still to be done."""
    target = work.state.order.target
    if work.state.stage != DELIVERED:
        with told_where(work):
            Steps(work, program, report).run()
        work.reach(DELIVERED)
    work.remove()
    return Path(target.path)


@contextmanager
def told_where(work: Work) -> Iterator[None]:
    """Lets an error of the program say what stays in the work folder."""
    try:
        yield
    except (StatusError, Killed) as error:
        error.further = f"What is done so far stays in {work.folder}: {again()}, or go on by {call_on('resume', work.folder)}."
        raise


class Steps:
    """The commands of a run."""

    def __init__(self, work: Work, program: Program, report: Optional[Report]) -> None:
        self.work, self.program = work, program
        self.order = work.state.order
        self.pass_bytes = self.order.shape.pass_bytes
        (work.folder / JOB).write_text(self.order.job, encoding="utf-8")
        self.passes = plan_of(program, work.folder / JOB, self.pass_bytes).passes
        self.meter = Meter(report, work.folder, (self.passes + 2) * self.pass_bytes, self.passes)

    def run(self) -> None:
        """Makes the disks, loads them, does the passes and writes the result, each where it is still to be done."""
        if self.work.state.stage == BEGUN:
            self.work.make_disks(self.program, 1 + min(self.passes, 2))
        try:
            if not self.is_loaded():
                self.load()
            self.call("run", self.pass_bytes + self.bytes_done(), self.passes * self.pass_bytes - self.bytes_done())
            self.dump()
        finally:
            self.meter.close()

    def is_loaded(self) -> bool:
        """Whether the disks hold the whole source."""
        try:
            self.program.call(["status", JOB], self.work.folder, lent=[self.work.lock])
        except StatusError as error:
            if error.status not in (NOT_LOADED, NO_JOB):
                raise
            return error.status == NO_JOB
        return True

    def load(self) -> None:
        """Fills the disks from the source."""
        self.want_unchanged()
        with self.order.source.opened() as stdin:
            self.call("load", 0, self.pass_bytes, stdin=stdin)
        self.want_unchanged()

    def want_unchanged(self) -> None:
        """Raises SourceError where the source was written after the run began. Then nothing is kept of what was read of it."""
        if self.order.source.stamp() != self.order.stamp:
            self.work.reach(BEGUN)
            raise SourceError(f"{self.order.source.path} was written after the run began: {again()}, and it is read anew")

    def bytes_done(self) -> int:
        """The bytes that were moved in passes and need not be moved again."""
        gates, loads = gates_of(self.work.folder), self.order.shape.loads
        return (gates.done * loads + gates.part) * (self.pass_bytes // loads) if gates else 0

    def dump(self) -> None:
        """Writes the result."""
        with self.order.target.written(self.work.state.token) as stdout:
            self.call("dump", (self.passes + 1) * self.pass_bytes, self.pass_bytes, stdout=stdout)

    def call(self, word: str, before: int, most: int, **streams: object) -> None:
        """Runs a command on the disks, which moves `most` bytes where `before` were moved already."""
        watch = self.meter.follow(word, before, most)
        self.program.call([word, JOB], self.work.folder, watch=watch, lent=[self.work.lock], **streams)
