"""The job texts of `examples/` and the lines of this package's README, as the program does them."""

from __future__ import annotations

import hashlib
import os
import re
import subprocess
from pathlib import Path

import numpy

import bmmc
from bmmc.detection import map_of

from .common import CHECKOUT, PACKAGE, PROGRAM, FolderTest, needs_program, numbered

EXAMPLES = CHECKOUT / "examples"
MOVED = {
    "identity": lambda x: x,
    "reversal": lambda x: 15 - x,
    "bit-reversal": lambda x: int(f"{x:04b}"[::-1], 2),
    "checkpoint": lambda x: int(f"{x:04b}"[::-1], 2),
    "transpose": lambda x: x % 4 * 4 + x // 4,
    "gray": lambda x: x ^ x >> 1,
    "inverse-gray": lambda x: x ^ x >> 1 ^ x >> 2 ^ x >> 3,
    "rotation": lambda x: x >> 1 | x % 2 << 3,
    "bits": lambda x: (x >> 2 & 1) | (x & 1) << 1 | (x >> 3 & 1) << 2 | (x >> 1 & 1) << 3,
    "rows": lambda x: (x & 7 | ((x >> 1 ^ x >> 3) & 1) << 3) ^ 5,
}


@needs_program
class Examples(FolderTest):
    def program(self, words: list[str], given: bytes = b"") -> bytes:
        """What the program writes in this test's folder."""
        ended = subprocess.run([PROGRAM.path, *words], cwd=self.folder, input=given, capture_output=True)
        self.assertEqual((ended.returncode, ended.stderr), (0, b"bmmc: done\n"), words)
        return ended.stdout

    def carried(self, name: str, given: bytes) -> bytes:
        """What comes of records by the job text of this name, in a folder of its own."""
        made = self.folder / name
        made.mkdir()
        ended = subprocess.run([PROGRAM.path, "carry", EXAMPLES / f"{name}.toml"], cwd=made, input=given, capture_output=True)
        self.assertEqual((ended.returncode, ended.stderr), (0, b"bmmc: done\n"), name)
        return ended.stdout

    def test_each_job_text_has_a_plan(self) -> None:
        names = {path.stem for path in EXAMPLES.glob("*.toml")}
        self.assertEqual(names, {*MOVED, "walsh", "list", "drill", "sums"})
        for name in names - {"sums"}:
            self.assertIn(b"shape n=4 b=1 d=1 m=3", self.program(["plan", str(EXAMPLES / f"{name}.toml")]))

    def test_sixteen_bytes_move_as_each_map_says(self) -> None:
        given = (EXAMPLES / "sixteen-bytes").read_bytes()
        self.assertEqual(given, bytes(range(16)))
        for name, moved in MOVED.items():
            with self.subTest(name):
                out = self.carried(name, given)
                self.assertEqual([out[moved(x)] for x in range(16)], list(range(16)))

    def test_the_transform(self) -> None:
        values = [3, 1, 4, 1, 5, 9, 2, 6, 5, 3, 5, 8, 9, 7, 9, 3]
        out = numpy.frombuffer(self.carried("walsh", numpy.array(values, "<u8").tobytes()), "<i8").tolist()
        self.assertEqual(out, [sum(value * (-1) ** bin(k & x).count("1") for x, value in enumerate(values)) for k in range(16)])

    def test_the_sums_over_subsets(self) -> None:
        ended = subprocess.run(
            [PROGRAM.path, "kind", EXAMPLES / "sums.toml"], cwd=self.folder, input=numpy.ones(16, "<u8").tobytes(), capture_output=True
        )
        self.assertEqual((ended.returncode, ended.stderr), (0, b"bmmc: done\n"))
        self.assertEqual(numpy.frombuffer(ended.stdout, "<u8").tolist(), [2 ** bin(k).count("1") for k in range(16)])

    def test_the_list_is_detected(self) -> None:
        job = str(EXAMPLES / "list.toml")
        self.program(["new", job])
        self.program(["load", job], b"".join((x ^ x >> 1).to_bytes(8, "little") for x in range(16)))
        self.assertEqual(map_of(self.program(["detect", job]).decode()), bmmc.gray(4))

    def test_the_drill_tells_the_digest_of_what_came_out(self) -> None:
        records = [x * 0x9E3779B97F4A7C15 % 256 for x in range(16)]
        moved = bytes(records[MOVED["bit-reversal"](x)] for x in range(16))
        lines = self.program(["drill", str(EXAMPLES / "drill.toml")]).decode().splitlines()
        self.assertEqual(lines[0], "passes 2")
        self.assertEqual(lines[1], "restarts 1")
        self.assertEqual(lines[-1], f"sha256 {hashlib.sha256(moved).hexdigest()}")
        self.assertEqual(os.listdir(self.folder), [])


@needs_program
class Readme(FolderTest):
    def setUp(self) -> None:
        super().setUp()
        self.addCleanup(os.chdir, os.getcwd())
        os.chdir(self.folder)
        self.array = numbered(64, 128, 128)
        self.saved(self.array)

    def test_its_lines_of_python_do_what_it_says(self) -> None:
        text = Path(PACKAGE, "README.md").read_text(encoding="utf-8")
        axes, costs, detection = re.findall(r"^```python\n(.*?)^```$", text, re.MULTILINE | re.DOTALL)
        names: dict = {}
        exec(axes, names)
        self.assertTrue(numpy.array_equal(numpy.load("out.npy"), self.array.transpose(2, 0, 1)))
        exec(costs, names)
        self.assertEqual(names["costs"].bytes, names["costs"].passes * 2 * self.array.nbytes)
        exec(detection, names)
        self.assertEqual(names["found"], bmmc.gray(20))
        self.assertTrue(numpy.array_equal(numpy.load("out.npy").ravel()[names["addresses"]], self.array.ravel()))
        self.assertEqual(sorted(os.listdir(self.folder)), ["in.npy", "out.npy"])
