"""How an error names a call or an option: as Python has it, or in the words of the shell where those were given."""

from __future__ import annotations

import shlex
from contextlib import contextmanager
from contextvars import ContextVar
from typing import Iterator, Optional

SHELL = "python3 -m bmmc"
from_shell: ContextVar[bool] = ContextVar("from_shell", default=False)


@contextmanager
def in_shell() -> Iterator[None]:
    """Lets errors speak in the words of the shell."""
    before = from_shell.set(True)
    try:
        yield
    finally:
        from_shell.reset(before)


def call_on(name: str, work: object) -> str:
    """A call that takes a work folder: `resume` or `clean`."""
    return f"`{SHELL} {name} {shlex.quote(str(work))}`" if from_shell.get() else f"`bmmc.{name}({str(work)!r})`"


def option(name: str, word: Optional[str] = None) -> str:
    """An argument, whose word in the shell is another one where it is given."""
    return f"`--{word or name}`" if from_shell.get() else f"`{name}=`"


def again() -> str:
    """What to do when a call is to be made once more."""
    return "give the same words again" if from_shell.get() else "call again with the same arguments"
