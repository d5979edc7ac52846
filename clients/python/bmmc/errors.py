"""What can go wrong, each kind as a class of its own."""

from __future__ import annotations

import re

from .statuses import STATUSES


class BmmcError(Exception):
    """Any error of this package."""


class MapError(BmmcError, ValueError):
    """A list, a matrix or sides that make no map of addresses."""


class ShapeError(BmmcError, ValueError):
    """Sizes for which there is no shape."""


class SourceError(BmmcError, ValueError):
    """A source, or a destination, that a run can't work with."""


class WorkError(BmmcError):
    """A work folder that can't be used for this run."""


class RoomError(BmmcError, OSError):
    """A device without enough free bytes."""


class MissingProgram(BmmcError, FileNotFoundError):
    """The program `bmmc` was not found, or can't be started."""


class MissingPackage(BmmcError, ImportError):
    """A package that was asked for is not installed."""


class Killed(BmmcError):
    """The program was ended by a signal. `signal` is its number."""

    def __init__(self, command: str, signal: int, further: str = "") -> None:
        self.command, self.signal, self.further = command, signal, further
        super().__init__(command, signal, further)

    def __str__(self) -> str:
        return joined(f"bmmc {self.command} was ended by signal {self.signal}.", self.further)


class StatusError(BmmcError):
    """The program refused. `status` is its number, `words` what it said, `numbers` the numbers in these words, `cause` why, `advice` what
    to do.
    """

    def __init__(self, command: str, status: int, words: str, further: str = "") -> None:
        self.command, self.status, self.further = command, status, further
        known = STATUSES.get(status)
        self.words = words or (known.words if known else "")
        self.numbers = tuple(int(word) for word in self.words.split() if word.isdigit())
        self.cause = filled(known.cause, known.words, self.words) if known else "a status that this package does not know"
        self.advice = known.advice if known else ""
        super().__init__(command, status, words, further)

    def __str__(self) -> str:
        advice = f"What to do: {self.advice}." if self.advice else ""
        return joined(f"bmmc {self.command}: {self.words} (status {self.status}). Cause: {self.cause}.", advice, self.further)


def filled(text: str, form: str, words: str) -> str:
    """A text about words of a form, with what these say in the place of the form's words in capitals."""
    names, said = form.split(), words.split()
    given = {name: word for name, word in zip(names, said) if name.isupper()} if len(names) == len(said) else {}
    return re.sub(r"\b[A-Z]+\b", lambda name: given.get(name[0], name[0]), text)


def joined(*sentences: str) -> str:
    """These sentences as one text, without the empty ones."""
    return " ".join(sentence for sentence in sentences if sentence)
