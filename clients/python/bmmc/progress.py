"""How far a program is: the bytes that it moved by the system's own counts, and the passes by the control file's gates."""

from __future__ import annotations

import select
import subprocess
import sys
import time
from dataclasses import dataclass
from pathlib import Path
from types import ModuleType
from typing import Any, Callable, Optional, Union

from .errors import MissingPackage
from .program import LEAST_POLL, wait
from .slate import gates_of


@dataclass(frozen=True)
class Progress:
    """What a run moved so far, as `progress=` is told at most twice a second, and at the end of each command.

    command: the program's word that is at work: `load`, `run` or `dump`.
    moved, total: bytes read and written, and to be read and written, from the source to the destination.
    done, passes: passes whose gate is open, and all passes.
    seconds: the time left at the speed so far; None where nothing has been moved yet.
    """

    command: str
    moved: int
    total: int
    done: int
    passes: int
    seconds: Optional[float]


Report = Callable[[Progress], None]


def report_for(progress: Union[bool, Report]) -> Optional[Report]:
    """What is to be told of progress: nothing, a bar of tqdm where `progress` is True, or the function that was given."""
    if progress is True:
        return Bar(package("tqdm", "progress bars"))
    return progress or None


def package(name: str, what: str) -> ModuleType:
    """A package that is installed for this alone. It raises MissingPackage where it is not there."""
    try:
        return __import__(name)
    except ImportError as error:
        raise MissingPackage(
            f"{what} need the package {name}: install it by `pip install {name}` or `apt-get install python3-{name}`"
        ) from error


class Bar:
    """A bar of tqdm on standard error."""

    def __init__(self, tqdm: ModuleType) -> None:
        self.tqdm = tqdm
        self.bar: Any = None

    def __call__(self, progress: Progress) -> None:
        if self.bar is None:
            shown = {"unit": "B", "unit_scale": True, "mininterval": LEAST_POLL, "file": sys.stderr}
            self.bar = self.tqdm.tqdm(total=progress.total, initial=progress.moved, **shown)
        self.bar.set_description_str(stage(progress), refresh=False)
        self.bar.update(max(0, progress.moved - self.bar.n))

    def close(self) -> None:
        """Ends the line of the bar."""
        if self.bar is not None:
            self.bar.close()


def stage(progress: Progress) -> str:
    """What is at work, in words."""
    if progress.command != "run":
        return progress.command
    return f"pass {min(progress.done + 1, progress.passes)} of {progress.passes}"


class Meter:
    """Follows the commands of one run."""

    def __init__(self, report: Optional[Report], folder: Path, total: int, passes: int) -> None:
        self.report, self.folder, self.total, self.passes = report, folder, total, passes
        self.began: Optional[float] = None
        self.first = 0

    def follow(self, command: str, before: int, most: int) -> Callable[[subprocess.Popen], None]:
        """What watches a command that moves `most` bytes, where `before` bytes of the run were moved when it began."""

        def watch(process: subprocess.Popen) -> None:
            """Tells of a process until it has ended."""
            if self.began is None:
                self.began, self.first = time.monotonic(), before
            moved = 0
            while not ended(process):
                moved = max(moved, moved_by(process.pid))
                self.tell(command, before + min(moved, most))
            if process.returncode == 0:
                self.tell(command, before + most)

        return watch if self.report else wait

    def close(self) -> None:
        """Ends what shows the progress."""
        if isinstance(self.report, Bar):
            self.report.close()

    def tell(self, command: str, moved: int) -> None:
        """Hands on what is known now."""
        here, seconds = moved - self.first, time.monotonic() - self.began
        left = seconds * (self.total - moved) / here if here else None
        gates = gates_of(self.folder)
        self.report(Progress(command, moved, self.total, gates.done if gates else 0, self.passes, left))


def ended(process: subprocess.Popen) -> bool:
    """Whether a program has ended, after half a second at most: its standard error says its last line then, or is closed."""
    spoken, _, _ = select.select([process.stderr], [], [], LEAST_POLL)
    if spoken:
        process.wait()
    return bool(spoken)


def moved_by(process: int) -> int:
    """Bytes that a process has read and written so far; 0 where it has ended."""
    try:
        with open(f"/proc/{process}/io", encoding="ascii") as lines:
            counts = dict(line.split(": ") for line in lines)
        return int(counts["rchar"]) + int(counts["wchar"])
    except (OSError, KeyError):
        return 0
