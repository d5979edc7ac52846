"""Permutes records that are too many for memory: 'this array, these axes' becomes a job of the program `bmmc`.

    import numpy, bmmc
    array = numpy.load("in.npy", mmap_mode="r")
    bmmc.permute(array, "out.npy", bmmc.axes(array.shape, (2, 0, 1)))

Maps of addresses: identity, reversal, bit_reversal, transpose, gray, inverse_gray, rotation, bits, rows, matrix; of arrays: axes,
tiles, untiles, morton; of maps: compose, inverse, image. Sizes: shape_for. Costs: Job, plan. Runs over files: permute, walsh, resume,
clean. Detection: detect. Pictures: draw_plan, draw_pass. Errors: BmmcError and those below it.
"""

from .detection import detect
from .drawing import Drawing
from .errors import (
    BmmcError,
    Killed,
    MapError,
    MissingPackage,
    MissingProgram,
    RoomError,
    ShapeError,
    SourceError,
    StatusError,
    WorkError,
)
from .jobs import WALSH, Job
from .maps import (
    Map,
    axes,
    bit_reversal,
    bits,
    compose,
    gray,
    identity,
    image,
    inverse,
    inverse_gray,
    matrix,
    morton,
    reversal,
    rotation,
    rows,
    tiles,
    transpose,
    untiles,
)
from .pictures import draw_pass, draw_plan
from .plans import Plan, Step, plan
from .program import find_program
from .progress import Progress
from .runs import clean, permute, resume, walsh
from .shapes import Shape, shape_for

__all__ = [
    "BmmcError",
    "Drawing",
    "Job",
    "Killed",
    "Map",
    "MapError",
    "MissingPackage",
    "MissingProgram",
    "Plan",
    "Progress",
    "RoomError",
    "Shape",
    "ShapeError",
    "SourceError",
    "StatusError",
    "Step",
    "WALSH",
    "WorkError",
    "axes",
    "bit_reversal",
    "bits",
    "clean",
    "compose",
    "detect",
    "draw_pass",
    "draw_plan",
    "find_program",
    "gray",
    "identity",
    "image",
    "inverse",
    "inverse_gray",
    "matrix",
    "morton",
    "permute",
    "plan",
    "resume",
    "reversal",
    "rotation",
    "rows",
    "shape_for",
    "tiles",
    "transpose",
    "untiles",
    "walsh",
]
