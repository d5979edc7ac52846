"""Jobs: what is to be done with the records of a shape."""

from __future__ import annotations

from dataclasses import dataclass
from typing import Optional, Union

from .errors import MapError, ShapeError
from .maps import Map
from .shapes import Shape

WALSH = "walsh"
"""In the place of a map: the Walsh-Hadamard transform of numbers of 8 bytes, modulo 2^64."""


@dataclass(frozen=True)
class Job:
    """A shape, and the map (or WALSH) that its records go through. Progress within a pass is made durable after each `checkpoint`
    loads, or not at all where it is None.
    """

    shape: Shape
    map: Union[Map, str]
    checkpoint: Optional[int] = None

    def __post_init__(self) -> None:
        if isinstance(self.map, Map):
            if self.map.n != self.shape.n:
                raise MapError(f"the map is for 2^{self.map.n} records, and the shape has 2^{self.shape.n}")
        elif self.map != WALSH:
            raise MapError(f"{self.map!r} is no map, and not WALSH")
        elif self.shape.width != 8:
            raise ShapeError(f"the transform is of numbers of 8 bytes, and these records have {self.shape.width}")
        if self.checkpoint is not None and self.checkpoint < 1:
            raise ShapeError(f"progress can be kept after each 1 or more loads, and not after each {self.checkpoint}")

    def text(self) -> str:
        """The job text."""
        shape = self.shape
        words = self.map.words if isinstance(self.map, Map) else f'kind = "{WALSH}"'
        run = "" if self.checkpoint is None else f"\n[run]\ncheckpoint = {self.checkpoint}\n"
        numbers = f"n = {shape.n}\nb = {shape.b}\nd = {shape.d}\nm = {shape.m}\nwidth = {shape.width}\n"
        return f"[shape]\n{numbers}\n[map]\n{words}\n{run}"
