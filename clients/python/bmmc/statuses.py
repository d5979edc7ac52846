"""The statuses with which the program ends, as docs/FORMATS.md has them."""

from __future__ import annotations

from dataclasses import dataclass


@dataclass(frozen=True)
class Status:
    """The words of a status on standard error, its cause, and what to do next. A word in capitals is a number that it carries."""

    words: str
    cause: str
    advice: str


STATUSES: dict[int, Status] = {
    0: Status(
        "done",
        "the command was carried out whole",
        "",
    ),
    1: Status(
        "out of memory",
        "memory was refused; refused for the words or for the paths of the disks, it writes no line. No row, page or sync call "
        "was made, and what stands is as it was, but that `carry` and `flip` may have made the disks",
        "give it more, or take a smaller m; after `carry` go on with `load`",
    ),
    2: Status(
        "usage",
        "the words are no command",
        "give the words of one; a number has no sign and no leading zero",
    ),
    3: Status(
        "job fault",
        "the job file could not be opened, or a read of it failed",
        "look at its name and rights; a folder is no job",
    ),
    4: Status(
        "job text",
        "it is longer than 65536 bytes, or no TOML document",
        "mend the text",
    ),
    5: Status(
        "job field NAME",
        "this field is faulty, and none before it in the order above",
        "mend the field",
    ),
    6: Status(
        "job shape rule R",
        "the numbers break this rule of a shape, and none before it. 1: n at most 52. 2: d at most 6. 3: b below m. 4: b + d at "
        "most m. 5: m at most n. 6: width 1 to 4096. 7: 2^m * width at most 2^30. 8, for `drill` alone: N * width at most 2^26. "
        "9: 3 * 2^n * width at most 2^(63 + d)",
        "choose other numbers: docs/USING.md tells how",
    ),
    7: Status(
        "job map FAULT",
        "the map has this fault, and none before it: `width`, `side P`, `length GOT`, `range I`, `twice I J`, `wide I`, `singular "
        "X`, `complement C`",
        "mend the map; of a singular matrix X is the least vector that it sends to 0. `detect` wants records of 8 bytes",
    ),
    8: Status(
        "input fault",
        "a read of standard input failed; one that does not wait for bytes counts as such",
        "look at what feeds it; `load` again",
    ),
    9: Status(
        "input short GOT",
        "the input ended after GOT bytes",
        "give N * width bytes; `load` again",
    ),
    10: Status(
        "input long",
        "a byte came after N * width",
        "give N * width bytes; `load` again",
    ),
    11: Status(
        "rack fault",
        "a disk or the control file failed, or another program has the disks",
        "look at the disks (full, rights, cables; a file system without file locks can't hold `bmmc-slate`), wait for the other "
        "program, then give the same command again: `run` goes on from the progress that is durable. After `carry` ask `status`: "
        "`no disks` and `wrong dims` as these rows say, after `not loaded` `load`, else `run` and `dump`",
    ),
    12: Status(
        "no disks",
        "no disks stand in the folder",
        "`new` or `carry` first, or the right folder",
    ),
    13: Status(
        "wrong dims",
        "other disks stand: another number of them or other lengths, one that is missing, a folder or a device in a file's place, "
        "or files that a `new` or `carry` left that was stopped while it made them",
        "the job with which they were made; else remove `bmmc-slate` and `bmmc-disk-*` and begin anew",
    ),
    14: Status(
        "disks exist",
        "something stands already, or a name is taken, also by a link that leads nowhere",
        "use it, or remove these files",
    ),
    15: Status(
        "not loaded",
        "no input is loaded, or a `load` did not end",
        "`load`",
    ),
    16: Status(
        "other shape",
        "the input was loaded under another shape",
        "the job with which it was loaded, or `load` anew",
    ),
    17: Status(
        "other job",
        "another job is open on the disks",
        "finish it with its own text, or `drop` it: then nothing of its progress is left",
    ),
    18: Status(
        "not done DONE of ALL",
        "so many of its passes are done",
        "`run`",
    ),
    19: Status(
        "no job",
        "no job is open",
        "`run`",
    ),
    20: Status(
        "bad page PAGE",
        "this page of the control file is damaged. It never comes of a stop",
        "pages 2 and above: `drop`, then `run` anew from the input, which is whole. Page 0: `load` anew",
    ),
    21: Status(
        "output fault",
        "a write to standard output failed; what it got before is the beginning of the output",
        "look at what takes it; `dump` again. A `run` that ends so has finished its job",
    ),
    22: Status(
        "out of range X Y",
        "number X of the list is Y, which is no address",
        "mend the list",
    ),
    23: Status(
        "not affine X Y WANT",
        "number X of the list is Y, where the map of its unit addresses has WANT",
        "the list is no permutation of this class",
    ),
    24: Status(
        "not a permutation X",
        "the map of the list sends X, other than 0, where it sends 0",
        "the list is no permutation",
    ),
    25: Status(
        "batch shape BAY",
        "the shape of this job is the first that differs from the first job's",
        "give jobs of one shape",
    ),
    26: Status(
        "none",
        "standard input, output or error is closed, or a word is no UTF-8 text",
        "open all three; nothing was done",
    ),
}
