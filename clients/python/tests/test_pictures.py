"""Pictures: they are there, and the numbers in them are the right ones."""

from __future__ import annotations

import os
import re
import sys
import unittest.mock
from xml.etree import ElementTree

import bmmc
from bmmc.drawing import Box
from bmmc.pictures import HIGH, LOWER, ONE, maps_of, passes_of

from .common import FolderTest, needs_package, needs_program

SMALL = bmmc.Job(bmmc.Shape(4, 1, 1, 3, 1), bmmc.bit_reversal(4))
SPACE = "{http://www.w3.org/2000/svg}"


def words_of(drawing: bmmc.Drawing) -> list[str]:
    """The texts of a drawing, as its SVG has them."""
    return [element.text for element in ElementTree.fromstring(drawing.svg()).iter(SPACE + "text")]


def boxes_of(drawing: bmmc.Drawing, colour: str) -> list[dict]:
    """The rectangles of a drawing with this colour."""
    return [element.attrib for element in ElementTree.fromstring(drawing.svg()).iter(SPACE + "rect") if element.get("fill") == colour]


def ones(map: bmmc.Map, at: int) -> int:
    """The ones in rows from there on of the columns below: of a map that only moves bits, their rank."""
    return sum(row < 1 << at for row in map.rows[at:])


@needs_program
class Plans(FolderTest):
    def test_a_plan_shows_ranks_passes_and_transfers_beside_the_bound(self) -> None:
        words = words_of(bmmc.draw_plan(SMALL))
        for text in (
            "n=4 b=1 d=1 m=3 width=1",
            "lower rank 1: rows from b, columns below b",
            "high rank 1: rows from m, columns below m",
            "passes 2, at most 3",
            "passes 2",
            "transfers 16",
            "bound 24",
        ):
            self.assertIn(text, words)
        self.assertEqual([words.count(name) for name in ("b", "b+d", "m")], [2, 2, 2])

    def test_a_plan_shows_the_ones_of_the_matrix(self) -> None:
        drawing = bmmc.draw_plan(bmmc.Job(SMALL.shape, bmmc.bit_reversal(4, 5)))
        ones = [(float(box["x"]), float(box["y"])) for box in boxes_of(drawing, ONE) if box["width"] == "18"]
        self.assertEqual(len(ones), 4)
        self.assertEqual(sorted(ones), sorted(ones, key=lambda place: -place[1]))
        self.assertEqual(len(boxes_of(drawing, ONE)) - len(ones), 2, "the ones of the complement")

    def test_bars_have_the_lengths_of_their_numbers(self) -> None:
        drawing = bmmc.draw_plan(SMALL)
        lengths = [box.width for box in drawing.parts if isinstance(box, Box) and box.height == 14]
        self.assertAlmostEqual(lengths[-2] / lengths[-1], 16 / 24, places=3)

    def test_lines_at_one_place_are_one(self) -> None:
        words = words_of(bmmc.draw_plan(bmmc.Job(bmmc.Shape(6, 2, 1, 3, 1), bmmc.gray(6))))
        self.assertEqual((words.count("b+d=m"), words.count("m")), (2, 0))

    def test_a_transform_shows_its_rounds(self) -> None:
        words = words_of(bmmc.draw_plan(bmmc.Job(bmmc.Shape(2, 0, 0, 1, 8), bmmc.WALSH)))
        for text in ("round 1 of 2: butterflies on 1 bit, then this rotation", "passes 4", "transfers 32", "bound 32"):
            self.assertIn(text, words)

    def test_the_rotations_that_are_drawn_have_the_ranks_of_the_plan(self) -> None:
        for shape in (bmmc.Shape(12, 2, 1, 5, 8), bmmc.Shape(9, 0, 0, 3, 8), bmmc.Shape(7, 3, 1, 7, 8)):
            job = bmmc.Job(shape, bmmc.WALSH)
            ranks = [(ones(map, shape.b), ones(map, shape.m)) for map in maps_of(job)]
            self.assertEqual(ranks, [(step.lower, step.high) for step in bmmc.plan(job).steps])

    def test_a_notebook_gets_the_svg(self) -> None:
        drawing = bmmc.draw_plan(SMALL)
        self.assertEqual(drawing._repr_svg_(), drawing.svg())
        self.assertTrue(boxes_of(drawing, LOWER) and boxes_of(drawing, HIGH))


@needs_program
class Passes(FolderTest):
    def test_the_passes_of_a_job_do_its_map(self) -> None:
        for shape, map in (
            (SMALL.shape, SMALL.map),
            (bmmc.Shape(8, 1, 2, 4, 3), bmmc.transpose(8, 3, 9)),
            (bmmc.Shape(6, 0, 0, 2, 1), bmmc.bit_reversal(6)),
        ):
            passes = passes_of(bmmc.Job(shape, map))
            done = bmmc.identity(map.n)
            for one in passes:
                done = bmmc.compose(one.map, done)
            self.assertEqual(done, map)
            self.assertEqual(len(passes), bmmc.plan(bmmc.Job(shape, map)).passes)

    def test_a_flip_is_drawn_as_the_readme_has_it(self) -> None:
        words = words_of(bmmc.draw_pass(bmmc.Job(SMALL.shape, bmmc.identity(4, 15))))
        self.assertTrue(words[0].startswith("pass 1 of 1"))
        pairs = [word for word in words if re.fullmatch(r"\d+ \d+", word)]
        source = [f"{x} {x + 1}" for x in range(0, 16, 2)]
        self.assertEqual(pairs[:8], source)
        self.assertEqual(pairs[8:12], ["7 6", "5 4", "3 2", "1 0"], "the blocks of load 0, in the upper half")
        self.assertEqual(pairs[12:20], source)
        self.assertEqual(pairs[20:], [f"{x + 1} {x}" for x in range(14, -1, -2)])

    def test_each_block_is_filled_by_one_load(self) -> None:
        job = bmmc.Job(bmmc.Shape(6, 1, 1, 4, 1), bmmc.bit_reversal(6))
        for number, one in enumerate(passes_of(job), 1):
            loads: dict[int, set[int]] = {}
            for x in range(64):
                loads.setdefault(one.map.image(x) >> 1, set()).add(x >> 4)
            self.assertEqual({len(found) for found in loads.values()}, {1}, f"pass {number}")
            self.assertIn(f"pass {number} of", words_of(bmmc.draw_pass(job, number))[0])

    def test_what_can_not_be_drawn_is_told(self) -> None:
        with self.assert_raises(bmmc.ShapeError, "has room for 256 blocks in 16 loads, and not for 1024 in 64"):
            bmmc.draw_pass(bmmc.Job(bmmc.Shape(12, 2, 0, 6, 1), bmmc.gray(12)))
        with self.assert_raises(bmmc.ShapeError, "the passes 1 to 2, and no pass 3"):
            bmmc.draw_pass(SMALL, 3)


@needs_program
class Files(FolderTest):
    def test_an_svg_file_needs_no_package(self) -> None:
        with unittest.mock.patch.dict(sys.modules, {"matplotlib": None}):
            bmmc.draw_plan(SMALL).save(self.folder / "plan.svg")
            bmmc.draw_pass(SMALL, 2).save(self.folder / "pass.svg")
        for name in ("plan.svg", "pass.svg"):
            self.assertEqual(ElementTree.parse(self.folder / name).getroot().tag, SPACE + "svg")

    @needs_package("matplotlib")
    def test_a_png_file_has_the_drawings_size(self) -> None:
        drawing = bmmc.draw_plan(SMALL)
        drawing.save(self.folder / "plan.png")
        head = (self.folder / "plan.png").read_bytes()[:24]
        self.assertEqual(head[:8], b"\x89PNG\r\n\x1a\n")
        self.assertAlmostEqual(int.from_bytes(head[16:20], "big"), 2 * drawing.width, delta=1)
        self.assertAlmostEqual(int.from_bytes(head[20:24], "big"), 2 * drawing.height, delta=1)

    def test_a_png_without_matplotlib_is_refused_with_its_name(self) -> None:
        with unittest.mock.patch.dict(sys.modules, {"matplotlib": None}):
            with self.assert_raises(bmmc.MissingPackage, "PNG pictures need the package matplotlib"):
                bmmc.draw_plan(SMALL).save(self.folder / "plan.png")
        with self.assert_raises(bmmc.SourceError, "let it end in .svg or .png"):
            bmmc.draw_plan(SMALL).save(self.folder / "plan.gif")
        self.assertEqual(os.listdir(self.folder), [])
