"""Times whole runs over real files: load, run and dump over 1, 4 and 64 disks, beside a copy that is synced.

python3 bench/files.py [--megabytes 256] [--folder FOLDER] [--program PROGRAM]

It makes an input of numbers of 8 bytes in a new folder below FOLDER (the current one, if none is named), and for each map and number of
disks makes the disks there, loads, runs and dumps. It prints the seconds of each, the ratio of the run to its passes times a copy with
fsync, and the most resident memory of the run. `warm` is what comes first; for `cold` the files' pages are dropped from the system's
memory before each command, by the advice that they are not needed. The dumped records are compared with a direct computation at 1000
places. Nothing else should run on the machine, and differences within a tenth say nothing.
"""
import argparse
import os
import random
import shutil
import subprocess
import sys
import tempfile
import time

BLOCK_BYTES = 1 << 16
LOAD_BYTES = 1 << 24
WIDTH = 8


def log2(number):
    return number.bit_length() - 1


def maps(n):
    """Each map by its name: the lines of its job text, and the address that a record goes to."""
    half = n // 2
    low = (1 << n - half) - 1
    return {
        "identity": ('kind = "identity"', lambda x: x),
        "gray": ('kind = "gray"', lambda x: x ^ x >> 1),
        "transpose": (f'kind = "transpose"\np = {half}', lambda x: (x & low) << half | x >> n - half),
        "bit-reversal": ('kind = "bit-reversal"', lambda x: int(format(x, f"0{n}b")[::-1], 2)),
    }


def job_text(n, disks, lines):
    block, load = log2(BLOCK_BYTES // WIDTH), log2(LOAD_BYTES // WIDTH)
    numbers = f"n = {n}\nb = {block}\nd = {log2(disks)}\nm = {max(load, block + log2(disks))}\nwidth = {WIDTH}"
    return f"[shape]\n{numbers}\n[map]\n{lines}\n"


def forget(folder):
    """Tells the system that it need not keep the files' pages in memory."""
    os.sync()
    for name in os.listdir(folder):
        file = os.open(os.path.join(folder, name), os.O_RDONLY)
        os.posix_fadvise(file, 0, 0, os.POSIX_FADV_DONTNEED)
        os.close(file)


def resident(process):
    """The most memory that a process has had resident so far, in MiB; 0 where it has ended."""
    try:
        with open(f"/proc/{process}/status", encoding="utf-8") as lines:
            return max([int(line.split()[1]) / 1024 for line in lines if line.startswith("VmHWM")], default=0)
    except OSError:
        return 0


def timed(words, folder, cold, source=None, target=None):
    """Seconds, most resident MiB and output of a command. It ends this script where the command fails."""
    if cold:
        forget(folder)
    streams = {"stdin": open(source, "rb") if source else subprocess.DEVNULL,
               "stdout": open(target, "wb") if target else subprocess.PIPE, "stderr": subprocess.PIPE}
    at = time.monotonic()
    child = subprocess.Popen(words, cwd=folder, **streams)
    most = 0
    while child.poll() is None:
        most = max(most, resident(child.pid))
        time.sleep(0.005)
    seconds = time.monotonic() - at
    out, err = child.communicate()
    if child.returncode:
        sys.exit(f"{' '.join(words)}: {err.decode()}")
    return seconds, most, out


def copied(folder, cold):
    """Seconds of a copy of the input that is synced."""
    if cold:
        forget(folder)
    at = time.monotonic()
    target = os.path.join(folder, "copy")
    with open(os.path.join(folder, "input"), "rb") as source, open(target, "wb") as file:
        shutil.copyfileobj(source, file, 1 << 20)
        file.flush()
        os.fsync(file.fileno())
    seconds = time.monotonic() - at
    os.remove(target)
    return seconds


def make_input(path, records):
    with open(path, "wb") as file:
        for first in range(0, records, 1 << 16):
            file.write(b"".join(x.to_bytes(WIDTH, "little") for x in range(first, first + (1 << 16))))


def check(path, image, records):
    """Compares the dumped numbers with their places."""
    with open(path, "rb") as file:
        for x in random.sample(range(records), 1000):
            file.seek(WIDTH * image(x))
            if int.from_bytes(file.read(WIDTH), "little") != x:
                sys.exit(f"record {x} is not at {image(x)}")


def measure(program, folder, n, disks, name, cold):
    lines, image = maps(n)[name]
    with open(os.path.join(folder, "job.toml"), "w", encoding="utf-8") as file:
        file.write(job_text(n, disks, lines))
    command = lambda word, **streams: timed([program, word, "job.toml"], folder, cold, **streams)
    command("new")
    load, _, _ = command("load", source=os.path.join(folder, "input"))
    run, memory, report = command("run")
    output = os.path.join(folder, "output")
    dump, _, _ = command("dump", target=output)
    check(output, image, 1 << n)
    os.remove(output)
    passes = int(report.split()[1])
    copy = copied(folder, cold)
    for file in os.listdir(folder):
        if file.startswith("bmmc-"):
            os.remove(os.path.join(folder, file))
    print(f"{'cold' if cold else 'warm'} {disks:2} disks {name:13} passes {passes} load {load:.2f} run {run:.2f} dump {dump:.2f} "
          f"copy {copy:.2f} run/(passes*copy) {run / (passes * copy):.2f} resident {memory:.1f} MiB", flush=True)


def main():
    here = os.path.dirname(os.path.realpath(__file__))
    words = argparse.ArgumentParser(description=__doc__.split("\n")[0])
    words.add_argument("--megabytes", type=int, default=256)
    words.add_argument("--folder", default=".")
    words.add_argument("--program", default=os.path.join(here, "..", "crates", "bmmc", "out", "bmmc"))
    given = words.parse_args()
    n = log2(given.megabytes << 20) - log2(WIDTH)
    with tempfile.TemporaryDirectory(dir=given.folder) as folder:
        make_input(os.path.join(folder, "input"), 1 << n)
        for cold in (False, True):
            for disks in (1, 4, 64):
                for name in maps(n):
                    measure(os.path.realpath(given.program), folder, n, disks, name, cold)


main()
