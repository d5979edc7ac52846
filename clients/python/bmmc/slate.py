"""What the control file says of a run: a file of 516 pages of 512 bytes, which is only read here."""

from __future__ import annotations

import os
import struct
from dataclasses import dataclass
from pathlib import Path
from typing import Optional

from .bit_rows import transposed
from .maps import Map

PAGE = 512
OPEN_GATE = b"BMMCOPEN".ljust(PAGE, b"\0")
JOB_BODY, JOB_GATE = 2, 3
FIRST_PASS_BODY, FIRST_PASS_GATE = 4, 5
SLOTS = ((512, 513), (514, 515))
WITH_CHECKPOINTS = 2


@dataclass(frozen=True)
class Gates:
    """An open job: how many passes it has, how many are done, and how many loads of the next one."""

    passes: int
    done: int
    part: int


@dataclass(frozen=True)
class Pass:
    """Butterflies on the lowest `low` bits, and then a map."""

    low: int
    map: Map


class Slate:
    """The control file of a folder, as it stands at this moment."""

    def __init__(self, folder: Path) -> None:
        with open(folder / "bmmc-slate", "rb") as file:
            self.bytes = file.read()

    def page(self, number: int) -> bytes:
        """The bytes of a page."""
        return self.bytes[PAGE * number : PAGE * (number + 1)]

    def is_open(self, gate: int) -> bool:
        """Whether this page is an open gate."""
        return self.page(gate) == OPEN_GATE

    def gates(self) -> Optional[Gates]:
        """The progress of the open job; None where no job is open."""
        if not self.is_open(JOB_GATE):
            return None
        version, _, n, passes = struct.unpack_from("<HBBH", self.page(JOB_BODY), 8)
        done = 0
        while done < passes and self.is_open(FIRST_PASS_GATE + 2 * done):
            done += 1
        parts = [self.part(body, done) for body, gate in SLOTS if version == WITH_CHECKPOINTS and self.is_open(gate)]
        return Gates(passes, done, max(parts, default=0))

    def part(self, body: int, done: int) -> int:
        """The loads that the slot with this body counts for the pass after those that are done."""
        number, loads = struct.unpack_from("<H4xQ", self.page(body), 10)
        return loads if number == done + 1 else 0

    def passes(self) -> list[Pass]:
        """The passes of the open job."""
        gates = self.gates()
        return [self.one_pass(FIRST_PASS_BODY + 2 * k) for k in range(gates.passes)] if gates else []

    def one_pass(self, body: int) -> Pass:
        """The pass whose body is this page."""
        low, n, complement = struct.unpack_from("<BB2x2xQ", self.page(body), 10)
        columns = struct.unpack_from(f"<{n}Q", self.page(body), 24)
        return Pass(low, Map(transposed(columns, n), complement))


def gates_of(folder: os.PathLike) -> Optional[Gates]:
    """The progress of the job that is open on the disks of a folder; None where there are no disks, or no job is open."""
    try:
        return Slate(Path(folder)).gates()
    except FileNotFoundError:
        return None
