"""What a job costs, as the program tells before anything is moved."""

from __future__ import annotations

import tempfile
from dataclasses import dataclass
from pathlib import Path
from typing import Optional

from .jobs import Job
from .program import FilePath, Program, find_program


@dataclass(frozen=True)
class Step:
    """A map of a plan: one for a permutation, one a round for a transform.

    butterflies: the address bits on which pairs are summed first. lower, high: the ranks of the map's matrix in rows from b on of the
    columns below b, and in rows from m on of the columns below m. passes, at_most: the passes that it takes, and their bound.
    """

    butterflies: int
    lower: int
    high: int
    passes: int
    at_most: int


@dataclass(frozen=True)
class Plan:
    """passes: over all records. transfers: parallel transfers, each of one block of each disk at most. bound: what transfers can't
    exceed. bytes: what the passes read and write; loading the disks and taking the result out moves `around_bytes` more.
    """

    steps: tuple[Step, ...]
    passes: int
    transfers: int
    bound: int
    bytes: int
    around_bytes: int

    def seconds(self, speed: float) -> float:
        """Seconds from source to destination at a speed of that many MB (10^6 bytes), read or written, a second."""
        return (self.bytes + self.around_bytes) / (speed * 1e6)


def plan(job: Job, program: Optional[FilePath] = None) -> Plan:
    """The passes and transfers of a job, by the program's own word. Nothing is moved."""
    with tempfile.TemporaryDirectory(prefix="bmmc-") as folder:
        Path(folder, "job.toml").write_text(job.text(), encoding="utf-8")
        return plan_of(find_program(program), Path(folder, "job.toml"), job.shape.pass_bytes)


def plan_of(program: Program, job: Path, pass_bytes: int) -> Plan:
    """The plan of a job text, one pass of which moves that many bytes."""
    steps, numbers = [], {}
    for line in program.call(["plan", job.name], job.parent).splitlines():
        word, *rest = line.split()
        if word == "step":
            steps.append(Step(*(int(number) for number in rest[2::2])))
        elif len(rest) == 1 and rest[0].isdigit():
            numbers[word] = int(rest[0])
    passes = numbers["passes"]
    return Plan(tuple(steps), passes, numbers["moves"], numbers["bound"], passes * pass_bytes, 2 * pass_bytes)
