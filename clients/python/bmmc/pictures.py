"""Pictures of what a job does: its matrix and its cost, and where a pass sends the records of a small example."""

from __future__ import annotations

import tempfile
from dataclasses import replace
from pathlib import Path
from typing import Optional, Sequence

from .drawing import Box, Drawing, Line, Words
from .errors import ShapeError
from .jobs import Job
from .maps import Map, rotation
from .plans import Plan, Step, plan
from .program import FilePath, find_program
from .shapes import Shape
from .slate import Pass, Slate

MARGIN, LINE = 24, 20
GRID, SOFT, ONE = "#d9d9d9", "#f3f3f3", "#1a1a1a"
LOWER, HIGH, BOTH, CUT, BAR = "#cfe3f5", "#fbe3c0", "#cfe0b4", "#c0392b", "#4e9fd1"
LOADS = ("#9fcdec", "#f8cf94", "#a6dcbc", "#e3b8d3", "#c9c2ee", "#f2b8a6", "#d3dd98", "#c2c9cf")
MOST_BLOCKS, MOST_LOADS, MOST_RECORDS = 256, 16, 1 << 20
NAMED_RECORDS = 4
"""Records of a block up to which a picture names each of them, and not the block."""


def draw_plan(job: Job, program: Optional[FilePath] = None) -> Drawing:
    """The matrix with the lines of b, b + d and m, the two ranks that decide the cost, and the transfers beside their bound.

    Row 0 and column 0 are at the upper left; c is the column beside. Of a transform it shows the rotation that ends each round.
    """
    costs = plan(job, program)
    panels = list(zip(maps_of(job), costs.steps))
    cell = max(8, min(22, 400 // job.shape.n))
    side = cell * job.shape.n
    height = max(side, 5 * LINE) + 3 * LINE
    drawing = Drawing(2 * MARGIN + 40 + side + 3 * cell + 380, 2 * MARGIN + 2 * LINE + height * len(panels) + 4 * LINE)
    drawing.add(Words(MARGIN, MARGIN + LINE, shape_words(job.shape), 15))
    top = MARGIN + 3 * LINE
    for number, (map, step) in enumerate(panels):
        left = MARGIN + 40
        draw_matrix(drawing, job.shape, map, left, top, cell)
        round_of = f"round {number + 1} of {len(panels)}" if not isinstance(job.map, Map) else ""
        draw_ranks(drawing, step, round_of, left + side + 3 * cell, top)
        top += height
    draw_costs(drawing, costs, MARGIN, top)
    return drawing


def bits_text(count: int) -> str:
    """So many bits, in words."""
    return f"{count} bit" + ("s" if count != 1 else "")


def shape_words(shape: Shape) -> str:
    """A shape in a line."""
    return f"n={shape.n} b={shape.b} d={shape.d} m={shape.m} width={shape.width}"


def maps_of(job: Job) -> list[Map]:
    """The map of a permutation, or the rotations that end the rounds of a transform."""
    if isinstance(job.map, Map):
        return [job.map]
    n, m = job.shape.n, job.shape.m
    return [rotation(n, min(m, n - done)) for done in range(0, n, m)]


def draw_matrix(drawing: Drawing, shape: Shape, map: Map, left: float, top: float, cell: float) -> None:
    """A matrix and its complement, with the lines of a shape."""
    n, side = map.n, cell * map.n
    drawing.add(Box(left, top, side, side, SOFT))
    drawing.add(Box(left, top + cell * shape.m, cell * shape.m, cell * (n - shape.m), HIGH))
    drawing.add(Box(left, top + cell * shape.b, cell * shape.b, cell * (n - shape.b), LOWER))
    drawing.add(Box(left, top + cell * shape.m, cell * shape.b, cell * (n - shape.m), BOTH))
    for i, row in enumerate(map.rows):
        for j in range(n):
            drawing.add(Box(left + cell * j, top + cell * i, cell, cell, "none", GRID))
            if row >> j & 1:
                drawing.add(Box(left + cell * j + 2, top + cell * i + 2, cell - 4, cell - 4, ONE))
        drawing.add(Box(left + side + cell, top + cell * i, cell, cell, ONE if map.complement >> i & 1 else SOFT, GRID))
    for name, at in cuts(shape):
        here = cell * at
        drawing.add(Line(left - 6, top + here, left + side, top + here, CUT), Line(left + here, top - 6, left + here, top + side, CUT))
        drawing.add(Words(left - 9, top + here + 4, name, 11, "end", CUT), Words(left + here, top - 10, name, 11, "middle", CUT))
    drawing.add(Words(left + side / 2, top + side + LINE, "A", 13, "middle"))
    drawing.add(Words(left + side + 1.5 * cell, top + side + LINE, "c", 13, "middle"))


def cuts(shape: Shape) -> list[tuple[str, int]]:
    """The lines of a shape by their names; those at one place are one line."""
    named: dict[int, list[str]] = {}
    for name, at in (("b", shape.b), ("b+d", shape.b + shape.d), ("m", shape.m)):
        if shape.d or name != "b+d":
            named.setdefault(at, []).append(name)
    return [("=".join(names), at) for at, names in named.items()]


def draw_ranks(drawing: Drawing, step: Step, round_of: str, left: float, top: float) -> None:
    """The ranks and passes of one map."""
    lines = [
        (LOWER, f"lower rank {step.lower}: rows from b, columns below b"),
        (HIGH, f"high rank {step.high}: rows from m, columns below m"),
        (BOTH, "in both"),
        ("none", f"passes {step.passes}, at most {step.at_most}"),
    ]
    if round_of:
        lines.insert(0, ("none", f"{round_of}: butterflies on {bits_text(step.butterflies)}, then this rotation"))
    for number, (colour, text) in enumerate(lines):
        y = top + LINE * (number + 1)
        drawing.add(Box(left, y - 11, 14, 14, colour), Words(left + 22, y, text))


def draw_costs(drawing: Drawing, costs: Plan, left: float, top: float) -> None:
    """The transfers of all passes beside their bound."""
    room = drawing.width - 2 * MARGIN - 220
    for number, (text, count, colour) in enumerate(
        ((f"transfers {costs.transfers}", costs.transfers, BAR), (f"bound {costs.bound}", costs.bound, GRID))
    ):
        y = top + LINE * (number + 1)
        drawing.add(Words(left, y, text), Box(left + 210, y - 12, room * count / max(costs.bound, 1), 14, colour))
    drawing.add(Words(left, top, f"passes {costs.passes}"))


def draw_pass(job: Job, number: int = 1, program: Optional[FilePath] = None) -> Drawing:
    """Where a pass sends the records of a small example: for each load the rows that it reads, and the blocks that it writes.

    The program does the job on zeros in a folder for the while, and what is drawn is the pass as its control file has it. Blocks of up
    to 4 records name the records by their addresses before this pass; others are named by their block.
    """
    shape = job.shape
    if shape.n - shape.b > 8 or shape.loads > MOST_LOADS or 1 << shape.n > MOST_RECORDS:
        raise ShapeError(
            f"a picture of a pass has room for {MOST_BLOCKS} blocks in {MOST_LOADS} loads, and not for {1 << shape.n - shape.b} in "
            f"{shape.loads}: take a smaller example"
        )
    passes = passes_of(job, program)
    if not 1 <= number <= len(passes):
        raise ShapeError(f"the job has the passes 1 to {len(passes)}, and no pass {number}")
    return drawn_pass(shape, passes[number - 1], number, len(passes))


def passes_of(job: Job, program: Optional[FilePath] = None) -> list[Pass]:
    """The passes that the program makes of a small job. It does the job on zeros in a folder for the while."""
    found = find_program(program)
    small = replace(job, shape=replace(job.shape, width=1)) if isinstance(job.map, Map) else job
    with tempfile.TemporaryDirectory(prefix="bmmc-") as name:
        folder = Path(name)
        (folder / "job.toml").write_text(small.text(), encoding="utf-8")
        (folder / "zeros").write_bytes(bytes(small.shape.bytes))
        found.call(["new", "job.toml"], folder)
        with open(folder / "zeros", "rb") as zeros:
            found.call(["load", "job.toml"], folder, stdin=zeros)
        found.call(["run", "job.toml"], folder)
        return Slate(folder).passes()


def drawn_pass(shape: Shape, one: Pass, number: int, count: int) -> Drawing:
    """The picture of a pass, a line of two areas for each load."""
    cell = 24 * min(1 << shape.b, NAMED_RECORDS) + 8 if 1 << shape.b <= NAMED_RECORDS else 48
    area = cell * shape.disks
    rows = 1 << shape.n - shape.b - shape.d
    height = rows * LINE + 3 * LINE
    gap = 140
    drawing = Drawing(max(2 * MARGIN + 2 * area + gap, 560), 2 * MARGIN + 3 * LINE + height * shape.loads)
    butterflies = f", butterflies on {bits_text(one.low)} first" if one.low else ""
    drawing.add(Words(MARGIN, MARGIN + LINE, f"pass {number} of {count}{butterflies}. {shape_words(shape)}", 15))
    origins = sorted(range(1 << shape.n), key=one.map.image)
    for load in range(shape.loads):
        top = MARGIN + 3 * LINE + height * load
        moved = 1 << shape.m - shape.b - shape.d
        read = f"load {load}: reads rows {moved * load} to {moved * (load + 1) - 1}"
        drawing.add(Words(MARGIN, top, f"{read} at the left, writes {moved * shape.disks} blocks at the right"))
        draw_area(drawing, shape, MARGIN, top + LINE, cell, load, range(1 << shape.n), read=True)
        draw_area(drawing, shape, MARGIN + area + gap, top + LINE, cell, load, origins, read=False)
        draw_arrow(drawing, MARGIN + area + 30, MARGIN + area + gap - 30, top + LINE + rows * LINE / 2)
    return drawing


def draw_arrow(drawing: Drawing, start: float, end: float, y: float) -> None:
    """An arrow to the right, for the map of a pass."""
    drawing.add(Line(start, y, end, y), Line(end - 7, y - 5, end, y), Line(end - 7, y + 5, end, y))
    drawing.add(Words((start + end) / 2, y - 8, "Ax + c", 12, "middle"))


def draw_area(
    drawing: Drawing, shape: Shape, left: float, top: float, cell: float, load: int, origins: Sequence[int], read: bool
) -> None:
    """The blocks of an area, those of a load in its colour; of a target area, also those that earlier loads have filled.

    `origins` has for each address the place from which its record comes.
    """
    for disk in range(shape.disks):
        drawing.add(Words(left + cell * (disk + 0.5), top - 3, f"disk {disk}", 10, "middle"))
    for block in range(1 << shape.n - shape.b):
        x, y = left + cell * (block % shape.disks), top + LINE * (block // shape.disks)
        here = [origins[(block << shape.b) + i] for i in range(1 << shape.b)]
        filled_by = here[0] >> shape.m
        shown = filled_by == load or (not read and filled_by < load)
        text = " ".join(str(record) for record in here) if len(here) <= NAMED_RECORDS else f"block {block}"
        drawing.add(Box(x, y, cell, LINE, LOADS[filled_by % len(LOADS)] if filled_by == load else SOFT, GRID))
        if read or shown:
            drawing.add(Words(x + cell / 2, y + 14, text, 10, "middle"))
