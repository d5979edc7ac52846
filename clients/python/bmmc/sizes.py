"""Numbers of bytes, as people write them."""

from __future__ import annotations

import operator
import re
from typing import Union

Size = Union[int, str]
UNITS = {"": 0, "K": 10, "M": 20, "G": 30, "T": 40}


def bytes_of(size: Size) -> int:
    """The bytes that a size means: a whole number, or text as `64K`, `256M`, `1G`, where K is 1024."""
    if not isinstance(size, str):
        number = operator.index(size)
    else:
        found = re.fullmatch(r"(\d+)([KMGT]?)(i?B)?", size.strip(), re.IGNORECASE)
        if not found:
            raise ValueError(f"{size!r} is no number of bytes: write it as 65536, 64K, 256M or 1G")
        number = int(found[1]) << UNITS[found[2].upper()]
    if number < 1:
        raise ValueError(f"{size!r} is no number of bytes: it has to be at least 1")
    return number


def size_text(number: int) -> str:
    """A number of bytes in the largest unit that divides it, or else with one decimal: `64M`, `1.5G`, `100`."""
    for unit in ("T", "G", "M", "K"):
        whole = 1 << UNITS[unit]
        if number >= whole:
            return f"{number // whole}{unit}" if number % whole == 0 else f"{number / whole:.1f}{unit}"
    return str(number)


def is_power_of_two(number: int) -> bool:
    """Whether a number is 1, 2, 4, 8 and so on."""
    return number > 0 and number & (number - 1) == 0


def log2_below(number: int) -> int:
    """The greatest k with 2^k at most `number`, which is at least 1."""
    return number.bit_length() - 1


def log2_above(number: int) -> int:
    """The least k with 2^k at least `number`, which is at least 1."""
    return (number - 1).bit_length()
