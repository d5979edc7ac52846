"""Drawings of boxes, lines and words, as SVG with nothing installed, or as PNG by matplotlib."""

from __future__ import annotations

import os
from dataclasses import dataclass, field
from html import escape
from typing import Union

from .errors import SourceError
from .program import FilePath
from .progress import package

INK = "#1a1a1a"
FONT = "sans-serif"
POINTS = 72
SHARPNESS = 144
"""Dots of a PNG to an inch, where a drawing has 72 units to an inch."""


@dataclass(frozen=True)
class Box:
    """A rectangle from its upper left corner. A colour `none` is not drawn."""

    x: float
    y: float
    width: float
    height: float
    fill: str = "none"
    edge: str = "none"

    def svg(self) -> str:
        """The element of an SVG file."""
        place = f'x="{self.x:g}" y="{self.y:g}" width="{self.width:g}" height="{self.height:g}"'
        return f'<rect {place} fill="{self.fill}" stroke="{self.edge}"/>'

    def paint(self, axes) -> None:
        """Draws it on axes of matplotlib."""
        from matplotlib.patches import Rectangle

        axes.add_patch(Rectangle((self.x, self.y), self.width, self.height, facecolor=self.fill, edgecolor=self.edge, linewidth=1))


@dataclass(frozen=True)
class Line:
    """A straight line."""

    x: float
    y: float
    to_x: float
    to_y: float
    colour: str = INK

    def svg(self) -> str:
        """The element of an SVG file."""
        return f'<line x1="{self.x:g}" y1="{self.y:g}" x2="{self.to_x:g}" y2="{self.to_y:g}" stroke="{self.colour}" stroke-width="1.5"/>'

    def paint(self, axes) -> None:
        """Draws it on axes of matplotlib."""
        axes.plot([self.x, self.to_x], [self.y, self.to_y], color=self.colour, linewidth=1.5)


@dataclass(frozen=True)
class Words:
    """A line of text; `anchor` is the end of it that is at x: start, middle or end. y is its base line."""

    x: float
    y: float
    text: str
    size: float = 12
    anchor: str = "start"
    colour: str = INK

    def svg(self) -> str:
        """The element of an SVG file."""
        place = f'x="{self.x:g}" y="{self.y:g}" font-size="{self.size:g}" text-anchor="{self.anchor}"'
        return f'<text {place} fill="{self.colour}">{escape(self.text)}</text>'

    def paint(self, axes) -> None:
        """Draws it on axes of matplotlib."""
        side = {"start": "left", "middle": "center", "end": "right"}[self.anchor]
        axes.text(self.x, self.y, self.text, fontsize=self.size, color=self.colour, ha=side, va="baseline", family=FONT)


Part = Union[Box, Line, Words]


@dataclass
class Drawing:
    """Parts on white, the later over the earlier. A notebook shows it inline."""

    width: float
    height: float
    parts: list[Part] = field(default_factory=list)

    def add(self, *parts: Part) -> None:
        """Puts parts over what is there."""
        self.parts.extend(parts)

    def svg(self) -> str:
        """The text of an SVG file."""
        size = f'width="{self.width:g}" height="{self.height:g}" viewBox="0 0 {self.width:g} {self.height:g}"'
        ground = Box(0, 0, self.width, self.height, "white").svg()
        inner = "\n".join([ground, *(part.svg() for part in self.parts)])
        return f'<svg xmlns="http://www.w3.org/2000/svg" {size} font-family="{FONT}">\n{inner}\n</svg>\n'

    def _repr_svg_(self) -> str:
        """What a notebook shows."""
        return self.svg()

    def save(self, path: FilePath) -> None:
        """Writes the drawing to a file whose name ends in `.svg` or, by matplotlib, in `.png`."""
        name = os.fspath(path)
        if name.endswith(".svg"):
            with open(path, "w", encoding="utf-8") as file:
                file.write(self.svg())
        elif name.endswith(".png"):
            self.save_png(path)
        else:
            raise SourceError(f"{name} is no name of a picture: let it end in .svg or .png")

    def save_png(self, path: FilePath) -> None:
        """Writes the drawing as PNG. It raises MissingPackage where matplotlib is not installed."""
        package("matplotlib", "PNG pictures")
        from matplotlib.backends.backend_agg import FigureCanvasAgg
        from matplotlib.figure import Figure

        figure = Figure((self.width / POINTS, self.height / POINTS), dpi=SHARPNESS, facecolor="white")
        FigureCanvasAgg(figure)
        axes = figure.add_axes((0, 0, 1, 1))
        axes.axis("off")
        for part in self.parts:
            part.paint(axes)
        axes.set_xlim(0, self.width)
        axes.set_ylim(self.height, 0)
        figure.savefig(path, format="png", dpi=SHARPNESS)
