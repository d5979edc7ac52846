#!/usr/bin/env python3
"""Measures placing, butterflies, kernels and passes in memory beside plain Rust loops.

    python3 bench/speed.py [ROUNDS]

builds crates/bm_speed by `rt run` and bench/loops.rs by `rustc -O`, and runs both in turn so many
times (3 where no number is given). The least processor time of each move goes as tables to
bench/results/speed.md, and some rows of them are printed: those of the table of
docs/PERFORMANCE.md, and four of other kernels. It ends with status 1 where the two programs do not
print the same checksums.
"""

import contextlib
import os
import subprocess
import sys

TOP = os.path.dirname(os.path.dirname(os.path.abspath(__file__)))
OURS = os.path.join(TOP, "crates", "bm_speed", "out", "bm_speed")
LOOPS = os.path.join(TOP, "bench", "out", "loops")
RESULTS = os.path.join(TOP, "bench", "results", "speed.md")

# Each buffer gets fresh memory in both programs: memory that was used before is faster.
MEMORY = {"MALLOC_MMAP_THRESHOLD_": "1048576"}

# The forms of Rust that bm_speed has not, and the moves of bm_speed that move the same bytes.
OTHER_FORMS = {"by-twos": "butterflies", "by-ones": "butterflies", "pass-stepped": "pass"}

# The forms of Rust beside each move of bm_speed.
RUST_FORMS = {
    "copy": ("copy",),
    "two-step": ("stepped", "two-step"),
    "butterflies": ("butterflies", "by-twos", "by-ones"),
    "sums": ("sums",),
    "differences": ("differences",),
    "even-sums": ("even-sums",),
    "pass": ("pass", "pass-stepped"),
}

# The rows that are printed: moves, and the MiB of a load. docs/PERFORMANCE.md has all but those of
# sums and differences.
ROWS = [
    ("copy", "identity", 1, 64),
    ("two-step", "gray", 1, 64),
    ("two-step", "bit-reversal", 8, 64),
    ("two-step", "random", 8, 64),
    ("two-step", "leading-identity", 8, 64),
    ("two-step", "32-streams", 1, 64),
    ("two-step", "32-streams", 8, 64),
    ("two-step", "256-streams", 8, 64),
    ("two-step", "morton", 8, 64),
    ("butterflies", "identity", 8, 64),
    ("sums", "identity", 8, 64),
    ("differences", "identity", 8, 64),
    ("even-sums", "identity", 8, 64),
    ("even-sums", "gray", 8, 64),
    ("pass", "identity", 64, 16),
    ("pass", "bit-reversal", 8, 16),
]


def build():
    """Proves and builds the one program, and compiles the other."""
    crate = os.path.join(TOP, "crates", "bm_speed")
    quiet = {"stdin": subprocess.DEVNULL, "capture_output": True}
    subprocess.run(["rt", "run"], cwd=crate, check=True, **quiet)
    os.makedirs(os.path.dirname(LOOPS), exist_ok=True)
    source = os.path.join(TOP, "bench", "loops.rs")
    subprocess.run(["rustc", "-O", "--edition", "2021", "-o", LOOPS, source], check=True)


def moves_of(program):
    """What a program printed: for each move its checksum and its nanoseconds.

    A move is an act, a map, the bytes of a record, and the KiB of a load and of a row.
    """
    call = {"check": True, "capture_output": True, "text": True, "env": {**os.environ, **MEMORY}}
    moves = {}
    for line in subprocess.run([program, "measure"], **call).stdout.splitlines():
        act, name, width, load, row, checksum, nanoseconds = line.split()
        moves[act, name, int(width), int(load), int(row)] = (checksum, int(nanoseconds))
    return moves


def check_sums(ours, theirs):
    """Ends the program where a move of the loops has not the checksum of bm_speed's."""
    for (act, *rest), (checksum, _) in theirs.items():
        if ours[OTHER_FORMS.get(act, act), *rest][0] != checksum:
            sys.exit(f"checksums differ: {act} {rest}")


def least_times(rounds):
    """The least nanoseconds of each move by each program, which take turns in going first."""
    best = {OURS: {}, LOOPS: {}}
    for number in range(rounds):
        order = (OURS, LOOPS) if number % 2 == 0 else (LOOPS, OURS)
        found = {program: moves_of(program) for program in order}
        check_sums(found[OURS], found[LOOPS])
        for program, moves in found.items():
            for move, (_, nanoseconds) in moves.items():
                best[program][move] = min(nanoseconds, best[program].get(move, nanoseconds))
    return best


def print_table(columns, rows):
    print()
    print("| " + " | ".join(columns) + " |")
    print("|" + "---|" * len(columns))
    for row in rows:
        print("| " + " | ".join(row) + " |")


def speed(load, nanoseconds):
    """Millions of bytes a second."""
    return f"{load * 1024 * 1000 / nanoseconds:.0f}"


def part(others, ours):
    """Our speed by that of others, whose nanoseconds these are."""
    return f"{others / ours:.2f}"


def placing_rows(best, load, row):
    """Each placing of loads and rows of these sizes, in one step and in two."""
    ours, loops = best[OURS], best[LOOPS]
    for act, *sizes in ours:
        if act == "stepped" and sizes[2:] == [load, row]:
            stepped, two_step = ours["stepped", *sizes], ours["two-step", *sizes]
            rust_stepped, rust_two_step = loops["stepped", *sizes], loops["two-step", *sizes]
            times = (stepped, two_step, rust_stepped, rust_two_step)
            yield [
                sizes[0],
                str(sizes[1]),
                *(speed(load, time) for time in times),
                part(min(rust_stepped, rust_two_step), two_step),
                part(stepped, two_step),
            ]


def print_placings(best):
    """A table for each size of a load and of a row."""
    for act, _, _, load, row in list(best[OURS]):
        if act != "copy":
            continue
        copies = [speed(load, best[program]["copy", "identity", 1, load, row]) for program in best]
        print()
        print(f"Loads of {load >> 10} MiB in rows of {row} KiB. A copy: {' and '.join(copies)} MB/s.")
        columns = "map,width,stepped,two-step,Rust stepped,Rust two-step,part of Rust's,part of stepped"
        print_table(columns.split(","), placing_rows(best, load, row))


def other_rows(best, act):
    """The moves of an act, beside its forms in Rust."""
    for move, ours in best[OURS].items():
        if move[0] == act:
            _, name, width, load, _ = move
            others = [best[LOOPS][form, *move[1:]] for form in RUST_FORMS[act]]
            speeds = [speed(load, time) for time in (ours, *others)]
            yield [name, str(width), str(load >> 10), *speeds, part(min(others), ours)]


def print_results(best):
    """All tables."""
    print("# Placing, butterflies, kernels and passes in memory")
    print()
    print("Written by `python3 bench/speed.py`. MB/s are millions of bytes of records a second.")
    print_placings(best)
    columns = "map,width,MiB,butterflies,Rust by blocks,Rust by two bits,Rust by one bit,part of Rust's"
    print_table(columns.split(","), other_rows(best, "butterflies"))
    for kernel in ("sums", "differences", "even-sums"):
        columns = f"map,width,MiB,{kernel},Rust,part of Rust's"
        print_table(columns.split(","), other_rows(best, kernel))
    columns = "map,width,MiB,pass,Rust in two steps,Rust stepped,part of Rust's"
    print_table(columns.split(","), other_rows(best, "pass"))


def chosen_rows(best):
    """The rows that are printed."""
    for act, name, width, mib in ROWS:
        for move, ours in best[OURS].items():
            if move[:4] == (act, name, width, mib << 10):
                others = min(best[LOOPS][form, *move[1:]] for form in RUST_FORMS[act])
                load = mib << 10
                parts = (speed(load, ours), speed(load, others), part(others, ours))
                yield [act, name, str(width), str(mib), *parts]


def main():
    build()
    best = least_times(int(sys.argv[1]) if len(sys.argv) > 1 else 3)
    os.makedirs(os.path.dirname(RESULTS), exist_ok=True)
    with open(RESULTS, "w", encoding="utf-8") as results:
        with contextlib.redirect_stdout(results):
            print_results(best)
    print_table("move,map,width,MiB,MB/s,Rust,part".split(","), chosen_rows(best))


if __name__ == "__main__":
    main()
