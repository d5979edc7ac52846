"""The program `bmmc`: where it is, and how it is called."""

from __future__ import annotations

import os
import shutil
import subprocess
from dataclasses import dataclass
from pathlib import Path
from typing import IO, Callable, Optional, Sequence, Union

from .errors import Killed, MissingProgram, StatusError
from .spelling import option

FilePath = Union[str, os.PathLike]
Watch = Callable[[subprocess.Popen], None]
CHECKOUT = Path(os.path.normpath(Path(__file__).resolve().parent / ".." / ".." / ".."))
LEAST_POLL = 0.5
"""Seconds between two looks at a program that works."""


def find_program(program: Optional[FilePath] = None) -> "Program":
    """The program that is named; or else by the variable BMMC, in the checkout that this package lies in, or in PATH.

    It raises MissingProgram where there is none.
    """
    named = program or os.environ.get("BMMC")
    if named:
        found = shutil.which(os.path.abspath(named))
        if not found:
            raise MissingProgram(
                f"{named} is no program that can be started: give the path of `bmmc` by {option('program')} or in the variable BMMC"
            )
        return Program(Path(found))
    built = shutil.which(CHECKOUT / "crates" / "bmmc" / "out" / "bmmc") or shutil.which("bmmc")
    if not built:
        raise MissingProgram(
            "the program `bmmc` was not found: build it by `./bmmc plan examples/gray.toml` in its repository, put it into PATH by "
            f"`./bmmc install PREFIX`, or name its file by {option('program')} or in the variable BMMC"
        )
    return Program(Path(built).resolve())


def wait(process: subprocess.Popen) -> None:
    """Waits until a program ends."""
    process.wait()


@dataclass(frozen=True)
class Program:
    """The file of the program."""

    path: Path

    def call(
        self,
        words: Sequence[str],
        folder: FilePath,
        stdin: Union[IO[bytes], int] = subprocess.DEVNULL,
        stdout: Union[IO[bytes], int] = subprocess.PIPE,
        watch: Watch = wait,
        lent: Sequence[int] = (),
    ) -> str:
        """Runs a command in a folder, and answers its text on standard output. It raises StatusError where the program refuses.

        `watch` is given the running program, and ends when it has ended. The file descriptors `lent` stay open in the program.
        """
        process = self.start(words, folder, stdin, stdout, lent)
        try:
            watch(process)
        except BaseException:
            process.kill()
            raise
        finally:
            out, err = process.communicate()
        if process.returncode < 0:
            raise Killed(words[0], -process.returncode)
        if process.returncode:
            raise StatusError(words[0], process.returncode, said(err))
        return (out or b"").decode()

    def start(
        self, words: Sequence[str], folder: FilePath, stdin: Union[IO[bytes], int], stdout: Union[IO[bytes], int], lent: Sequence[int]
    ) -> subprocess.Popen:
        """Starts a command in a folder."""
        try:
            return subprocess.Popen(
                [self.path, *words], cwd=folder, stdin=stdin, stdout=stdout, stderr=subprocess.PIPE, pass_fds=tuple(lent)
            )
        except OSError as error:
            raise MissingProgram(f"{self.path} can't be started: {error.strerror}") from error


def said(err: bytes) -> str:
    """What the program's line on standard error says after its name."""
    lines = err.decode(errors="replace").splitlines()
    return lines[-1].removeprefix("bmmc: ") if lines else ""
