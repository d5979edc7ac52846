"""The words and options of `python3 -m bmmc`."""

from __future__ import annotations

from argparse import ArgumentParser, ArgumentTypeError, RawDescriptionHelpFormatter, _MutuallyExclusiveGroup

from .chosen import PLAIN_KINDS
from .sizes import bytes_of
from .spelling import SHELL

ABOUT = f"""Permutes the records of a file that is too large for memory.

  {SHELL} permute in.npy out.npy --axes 2,0,1               what numpy.transpose(array, (2, 0, 1)) does
  {SHELL} permute in.npy out.npy --axes 2,0,1 --memory 1G   with more in memory at a time
  {SHELL} plan in.npy --axes 2,0,1 --memory 1G --speed 200  what that will cost; nothing is moved
  {SHELL} resume out.npy.work                               goes on with a run that was stopped

Each side of an array has to be a power of two. A result appears when it is whole; until then all work is in the folder OUT.work.
`{SHELL} COMMAND --help` tells the options of a command.
"""
END = """The exit status is 0 where the command is done, that of the program bmmc where it refused (docs/FORMATS.md has them), 2 for words
and files that can't be used, and 128 and the number of a signal that ended the program or this.
"""


def parser() -> ArgumentParser:
    """All words and options."""
    top = ArgumentParser(SHELL, description=ABOUT, epilog=END, formatter_class=RawDescriptionHelpFormatter)
    commands = top.add_subparsers(metavar="COMMAND", dest="command", required=True)
    for name, about, add in (
        ("permute", "write the records of IN to OUT in a new order", add_permute),
        ("walsh", "write the Walsh-Hadamard transform of IN, integers of 8 bytes, to OUT", add_walsh),
        ("plan", "tell the passes, transfers and seconds of a job; nothing is moved", add_plan),
        ("draw", "draw a job's matrix and cost, or one pass of a small example", add_draw),
        ("detect", "tell the map that a list of addresses is, as a job text, or why it is none", add_detect),
        ("resume", "go on with the run of a work folder", add_resume),
        ("clean", "give up the run of a work folder, and remove its disks", add_work),
    ):
        add(commands.add_parser(name, help=about, description=about[0].upper() + about[1:] + "."))
    return top


def add_permute(command: ArgumentParser) -> None:
    """The options of `permute`."""
    add_files(command)
    add_map(command)
    add_sizes(command)
    add_raw(command)
    add_run(command)


def add_walsh(command: ArgumentParser) -> None:
    """The options of `walsh`."""
    add_files(command)
    add_sizes(command)
    add_run(command)


def add_plan(command: ArgumentParser) -> None:
    """The options of `plan`."""
    add_job(command)
    command.add_argument("--speed", type=speed, metavar="MB", help="tell the seconds at that many MB (10^6 bytes) a second")


def add_draw(command: ArgumentParser) -> None:
    """The options of `draw`."""
    add_job(command)
    command.add_argument("picture", metavar="PICTURE", help="the file to write: NAME.svg, or NAME.png, which needs the package matplotlib")
    command.add_argument("--pass", dest="number", type=int, metavar="K", help="draw pass K of a small example, load by load")


def add_job(command: ArgumentParser) -> None:
    """What names a job that is only looked at."""
    command.add_argument("source", metavar="IN", help="the file that would be permuted, .npy or raw")
    add_map(command).add_argument("--walsh", action="store_true", help="the Walsh-Hadamard transform in the place of a map")
    add_sizes(command)
    add_raw(command)
    command.add_argument("--disks", type=int, default=1, metavar="D", help="the number of disks (1)")


def add_detect(command: ArgumentParser) -> None:
    """The options of `detect`."""
    command.add_argument(
        "source",
        metavar="LIST",
        help="2^n whole numbers below 2^n, the address to which each record goes: an .npy file, or a raw file of numbers of 8 bytes, the "
        "lowest first. For each number 8 bytes have to be free in the folder for temporary files, which TMPDIR names",
    )
    add_memory(command)
    add_program(command)


def add_resume(command: ArgumentParser) -> None:
    """The options of `resume`."""
    add_work(command)
    add_progress(command)
    add_program(command)


def add_work(command: ArgumentParser) -> None:
    """The work folder of a run that is there."""
    command.add_argument("work", metavar="WORK", help="the work folder: OUT.work, if no other was named")


def add_files(command: ArgumentParser) -> None:
    """Where a run reads and writes."""
    command.add_argument("source", metavar="IN", help="an .npy file, or a raw file; it is never written")
    command.add_argument("result", metavar="OUT", help="the result, .npy or raw; an older file is replaced when the new one is whole")


def add_map(command: ArgumentParser) -> _MutuallyExclusiveGroup:
    """The ways to name a map, of which one has to be taken."""
    group = command.add_argument_group("the map: one of these")
    one = group.add_mutually_exclusive_group(required=True)
    one.add_argument("--axes", type=numbers, metavar="LIST", help="the axes in their new order, as numpy.transpose takes them: 2,0,1")
    one.add_argument("--tiles", type=two_numbers, metavar="RxC", help="a matrix becomes tiles of R by C, each in one piece")
    one.add_argument("--untiles", action="store_true", help="the way back: an array of 4 axes, as --tiles leaves it, becomes a matrix")
    one.add_argument("--morton", action="store_true", help="an array of equal sides becomes a list in Morton order (Z-order)")
    one.add_argument("--kind", choices=PLAIN_KINDS, help="a map of the whole list of records by its name")
    one.add_argument("--transpose", type=int, metavar="P", help="the list as a matrix of 2^P rows is transposed")
    one.add_argument("--rotation", type=int, metavar="BY", help="address bit i becomes what bit i + BY was")
    one.add_argument("--bits", type=numbers, metavar="LIST", help="address bit i becomes what bit LIST[i] was, the lowest first")
    one.add_argument("--rows", type=numbers, metavar="LIST", help="the rows of a bit matrix as numbers, the lowest first")
    group.add_argument("--inverse", action="store_true", help="the way back of that map")
    group.add_argument("--complement", type=int, default=0, metavar="C", help="and then XOR of each address with C")
    return one


def add_sizes(command: ArgumentParser) -> None:
    """Sizes of memory and blocks."""
    add_memory(command)
    command.add_argument("--block", type=size, default="64K", metavar="SIZE", help="what a block has at least, where there is room (64K)")
    add_program(command)


def add_memory(command: ArgumentParser) -> None:
    """The size of memory."""
    command.add_argument("--memory", type=size, metavar="SIZE", help="records in memory at a time, as 1G; left out, 256M or the whole file")


def add_raw(command: ArgumentParser) -> None:
    """What a raw file does not tell by itself, of which one thing is enough."""
    one = command.add_mutually_exclusive_group()
    one.add_argument("--width", type=width, metavar="BYTES", help="of a raw file: the bytes of a record (1)")
    one.add_argument("--sides", type=numbers, metavar="LIST", help="of a raw file: the sides of the array of its records: 1024,1024")


def add_run(command: ArgumentParser) -> None:
    """How a run is made."""
    command.add_argument(
        "--disk", dest="disks", action="append", metavar="FOLDER", help="a folder for disks, best on a device of its own; several times"
    )
    command.add_argument("--checkpoint", type=int, metavar="Q", help="make progress within a pass durable after each Q loads of memory")
    command.add_argument("--work", metavar="FOLDER", help="the folder of disks and progress; left out, OUT.work")
    add_progress(command)


def add_progress(command: ArgumentParser) -> None:
    """Whether a bar is shown."""
    command.add_argument("--progress", action="store_true", help="show a bar, which needs the package tqdm")


def add_program(command: ArgumentParser) -> None:
    """Which program is called."""
    command.add_argument("--program", metavar="FILE", help="the program bmmc, where it is not found by itself")


def numbers(text: str) -> list[int]:
    """Whole numbers with commas, or x, between them."""
    try:
        return [int(part) for part in text.replace("x", ",").split(",")]
    except ValueError:
        raise ArgumentTypeError(f"{text!r} is no list of whole numbers with commas between them, as 2,0,1") from None


def two_numbers(text: str) -> list[int]:
    """Two whole numbers."""
    if len(found := numbers(text)) != 2:
        raise ArgumentTypeError(f"{text!r} is not two numbers, as 64x64")
    return found


def speed(text: str) -> float:
    """A number above 0."""
    try:
        found = float(text)
    except ValueError:
        found = 0
    if not 0 < found < float("inf"):
        raise ArgumentTypeError(f"{text!r} is no speed: write it as 200 or 0.5")
    return found


def width(text: str) -> int:
    """The bytes of a record."""
    if not text.isdecimal() or int(text) < 1:
        raise ArgumentTypeError(f"{text!r} is no number of bytes of a record: write it as 3")
    return int(text)


def size(text: str) -> int:
    """A number of bytes."""
    try:
        return bytes_of(text)
    except ValueError as error:
        raise ArgumentTypeError(str(error)) from None
