"""`python3 -m bmmc`: the package by words of the shell."""

from __future__ import annotations

import os
import sys
from argparse import Namespace
from typing import Callable, Optional, Sequence

from .chosen import job_of, map_of
from .detection import detected_text
from .errors import BmmcError, Killed, StatusError
from .options import parser
from .pictures import draw_pass, draw_plan
from .plans import plan
from .runs import clean, permute, resume, walsh
from .sizes import size_text
from .sources import source_of
from .spelling import again, call_on, in_shell

FAILED, SIGNALLED, INTERRUPTED = 2, 128, 130


def main(words: Optional[Sequence[str]] = None) -> int:
    """Does what the words say, and answers the exit status: 0, the program's own, 2, or that of a signal."""
    options = parser().parse_args(words)
    with in_shell():
        try:
            COMMANDS[options.command](options)
        except StatusError as error:
            return failed(error, error.status)
        except Killed as error:
            return failed(error, SIGNALLED + error.signal)
        except (BmmcError, OSError) as error:
            return failed(error, FAILED)
        except KeyboardInterrupt:
            return failed(stopped(options), INTERRUPTED)
    return 0


def stopped(options: Namespace) -> str:
    """What there is to say of a command that was interrupted."""
    if options.command == "clean":
        return f"stopped: {again()}"
    work = getattr(options, "work", None)
    if work is None and "result" in options:
        work = os.path.realpath(options.result) + ".work"
    if work is None or not os.path.isdir(work):
        return "stopped, and nothing is kept"
    return f"stopped. What is done so far stays in {work}: {again()}, or go on by {call_on('resume', work)}"


def failed(error: object, status: int) -> int:
    """Says what went wrong, and answers the status."""
    text = str(error)
    print(text if text.startswith("bmmc ") else f"bmmc: {text}", file=sys.stderr)
    return status


def do_permute(options: Namespace) -> None:
    """Permutes a file."""
    permute(options.source, options.result, map_of(options, source_of(options.source)), **run_options(options))


def do_walsh(options: Namespace) -> None:
    """Transforms a file."""
    walsh(options.source, options.result, **run_options(options))


def run_options(options: Namespace) -> dict:
    """What `permute` and `walsh` are given alike."""
    names = ("memory", "disks", "checkpoint", "work", "progress", "block", "program")
    return {name: getattr(options, name) for name in names}


def do_plan(options: Namespace) -> None:
    """Tells what a job costs."""
    job = job_of(options)
    costs, shape = plan(job, options.program), job.shape
    print(f"shape n={shape.n} b={shape.b} d={shape.d} m={shape.m} width={shape.width}")
    print(f"passes {costs.passes}")
    print(f"transfers {costs.transfers}, at most {costs.bound}")
    print(f"moves {size_text(costs.bytes)} in the passes, and {size_text(costs.around_bytes)} from the source and to the result")
    if options.speed:
        print(f"seconds {costs.seconds(options.speed):.1f} at {options.speed:g} MB/s")


def do_draw(options: Namespace) -> None:
    """Draws a job or a pass."""
    job = job_of(options)
    picture = draw_plan(job, options.program) if options.number is None else draw_pass(job, options.number, options.program)
    picture.save(options.picture)


def do_detect(options: Namespace) -> None:
    """Tells a map, as the job text that the program writes."""
    print(detected_text(options.source, options.memory, options.program), end="")


def do_resume(options: Namespace) -> None:
    """Goes on with a run."""
    print(resume(options.work, options.progress, options.program))


def do_clean(options: Namespace) -> None:
    """Gives a run up."""
    clean(options.work)


COMMANDS: dict[str, Callable[[Namespace], None]] = {
    "permute": do_permute,
    "walsh": do_walsh,
    "plan": do_plan,
    "draw": do_draw,
    "detect": do_detect,
    "resume": do_resume,
    "clean": do_clean,
}

if __name__ == "__main__":
    sys.exit(main())
