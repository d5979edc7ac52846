"""The work folder of a run: what was asked for, the disks, and how far it is. It stays until the result is whole."""

from __future__ import annotations

import fcntl
import json
import os
import secrets
import time
from contextlib import contextmanager, suppress
from dataclasses import asdict, dataclass, replace
from pathlib import Path
from typing import Iterator, Optional

from .errors import RoomError, WorkError
from .program import LEAST_POLL, FilePath, Program
from .shapes import Shape
from .sizes import size_text
from .sources import Source
from .spelling import again, call_on, option
from .targets import Target, sync_folder

STATE, JOB, SLATE = "bmmc-run.json", "bmmc-run.toml", "bmmc-slate"
FORMAT = 1
BEGUN, MADE, DELIVERED = "begun", "made", "delivered"
PATIENCE = 5
"""Seconds for which a folder that is held by another run is waited for."""


@dataclass(frozen=True)
class Order:
    """What a run was asked for: the job text, the shape that it names, the source with its stamp, the destination, and the folders in
    which the disks lie, of which there are none where they lie in the work folder.
    """

    job: str
    shape: Shape
    source: Source
    stamp: tuple[int, int]
    target: Target
    disks: tuple[str, ...]

    def differences(self, other: "Order") -> list[str]:
        """In what another order differs from this one."""
        names = {"source": "source", "disks": "disks", "shape": "shape (memory, disks, block)"}
        found = [word for name, word in names.items() if getattr(self, name) != getattr(other, name)]
        if self.target.path != other.target.path:
            found.append("destination")
        if self.job != other.job and self.shape == other.shape:
            found.append("map or checkpoint")
        elif self.target != other.target and not found:
            found.append("sides of the result")
        if self.stamp != other.stamp and self.source == other.source:
            found.append("source's bytes (it was written since)")
        return found


@dataclass(frozen=True)
class State:
    """An order, how far it is, the word that is in the names of files which lie elsewhere, and whether the folder was made for it."""

    order: Order
    token: str
    stage: str
    own: bool


class Work:
    """A work folder that is held by this process, and by the programs that it lends `lock` to."""

    def __init__(self, folder: Path, lock: int) -> None:
        self.folder, self.lock = folder, lock
        self.state: Optional[State] = self.read()

    def read(self) -> Optional[State]:
        """The state that the folder keeps; None where it keeps none."""
        try:
            kept = json.loads((self.folder / STATE).read_text(encoding="utf-8"))
        except FileNotFoundError:
            return None
        except ValueError:
            kept = None
        if not isinstance(kept, dict) or kept.get("format") != FORMAT:
            raise WorkError(f"{self.folder / STATE} was not written by this version of the package: give another work folder")
        order = kept["order"]
        return State(
            Order(
                order["job"],
                Shape(**order["shape"]),
                Source(**with_sides(order["source"])),
                tuple(order["stamp"]),
                Target(**with_sides(order["target"])),
                tuple(order["disks"]),
            ),
            kept["token"],
            kept["stage"],
            kept["own"],
        )

    def keep(self, state: State) -> None:
        """Makes a state durable in the place of the one before."""
        fresh = self.folder / f".{STATE}"
        with open(fresh, "w", encoding="utf-8") as file:
            json.dump({"format": FORMAT, **asdict(state)}, file, indent=1)
            file.flush()
            os.fsync(file.fileno())
        os.replace(fresh, self.folder / STATE)
        sync_folder(self.folder)
        self.state = state

    def reach(self, stage: str) -> None:
        """Notes that the run came so far."""
        self.keep(replace(self.state, stage=stage))

    def begin(self, order: Order, own: bool) -> None:
        """Takes an order, or finds that it is the one that the folder has already. `own` is whether the folder was made for it.

        It raises WorkError where there is another one that has its disks already.
        """
        if self.state is None:
            if any(is_disk_name(name) or name == JOB for name in os.listdir(self.folder)):
                raise WorkError(f"{self.folder} holds disks, or a job text, that no run of this package made: give another work folder")
            self.keep(State(order, secrets.token_hex(4), BEGUN, own))
        elif self.has_nothing_for(order):
            fresh = State(order, secrets.token_hex(4), BEGUN, self.state.own)
            self.remove_files()
            self.keep(fresh)
        elif differences := self.state.order.differences(order):
            raise WorkError(
                f"{self.folder} holds another run, which differs in its {', '.join(differences)}: finish it by "
                f"{call_on('resume', self.folder)}, give it up by {call_on('clean', self.folder)}, or name another folder by "
                f"{option('work')}"
            )

    def has_nothing_for(self, order: Order) -> bool:
        """Whether no work is lost, nor an earlier result of this very order, where the folder is used for it anew."""
        if self.state.stage == DELIVERED:
            return self.state.order != order or not os.path.exists(order.target.path)
        return self.state.stage == BEGUN

    def make_disks(self, program: Program, areas: int) -> None:
        """Makes the disks, each as a link into its folder where folders were given. It begins anew where it was stopped."""
        self.remove_disks()
        (self.folder / JOB).write_text(self.state.order.job, encoding="utf-8")
        self.want_room(areas)
        program.call(["new", JOB], self.folder, lent=[self.lock])
        for name, path in self.linked():
            size = (self.folder / name).stat().st_size
            with open(path, "xb") as file:
                file.truncate(size)
                os.fsync(file.fileno())
            (self.folder / name).unlink()
            (self.folder / name).symlink_to(path)
        for folder in (*self.state.order.disks, self.folder):
            sync_folder(folder)
        self.reach(MADE)

    def linked(self) -> list[tuple[str, Path]]:
        """The name of each disk that lies elsewhere, and where it lies: disk k in folder k modulo their number."""
        folders, count = self.state.order.disks, self.state.order.shape.disks
        if not folders:
            return []
        return [
            (f"bmmc-disk-{k:02}", Path(folders[k % len(folders)], f"bmmc-{self.state.token}-disk-{k:02}")) for k in range(count)
        ]

    def want_room(self, areas: int) -> None:
        """Raises RoomError where a device has less room than it will hold of the result, and of the disks with that many areas."""
        order = self.state.order
        places = [path.parent for _, path in self.linked()] or [self.folder]
        wanted = [(place, areas * order.shape.bytes // len(places)) for place in places]
        wanted.append((Path(order.target.path).parent, order.target.length))
        for device in {os.stat(place).st_dev for place, _ in wanted}:
            here = [(place, size) for place, size in wanted if os.stat(place).st_dev == device]
            advice = f"make room, or name folders on other devices by {option('disks', 'disk')}"
            want_free(here[0][0], sum(size for _, size in here), "the disks and the result need", advice)

    def remove_disks(self) -> None:
        """Removes the disks and the control file."""
        for _, path in self.linked():
            with suppress(FileNotFoundError):
                path.unlink()
        for name in os.listdir(self.folder):
            if is_disk_name(name):
                (self.folder / name).unlink()

    def remove_files(self) -> None:
        """Removes all that the run made but its result."""
        self.remove_disks()
        with suppress(FileNotFoundError):
            self.state.order.target.unfinished(self.state.token).unlink()
        for name in (JOB, f".{STATE}", STATE):
            with suppress(FileNotFoundError):
                (self.folder / name).unlink()
        self.state = None

    def remove(self) -> None:
        """Removes what the run made, and the folder, where it was made for the run and nothing else is in it."""
        own = self.state.own
        self.remove_files()
        if own:
            with suppress(OSError):
                self.folder.rmdir()


def want_free(place: Path, size: int, need: str, advice: str) -> None:
    """Raises RoomError where the device of a folder has less free bytes than what is told in words as a need, and advises."""
    state = os.statvfs(place)
    free = state.f_bavail * state.f_frsize
    if free < size:
        raise RoomError(f"{need} {size_text(size)} on the device of {place}, and {size_text(free)} are free: {advice}")


def with_sides(kept: dict) -> dict:
    """The fields of a source or a target, with sides that can be compared."""
    return {**kept, "sides": None if kept["sides"] is None else tuple(kept["sides"])}


def is_disk_name(name: str) -> bool:
    """Whether the program may take a file of this name for a disk or the control file."""
    return name == SLATE or name.startswith("bmmc-disk-")


@contextmanager
def held(folder: FilePath) -> Iterator[Work]:
    """A work folder, held by this process alone. It raises WorkError where another run is at work in it."""
    try:
        lock = os.open(folder, os.O_RDONLY | os.O_DIRECTORY)
    except OSError as error:
        raise WorkError(f"there is no work folder {folder}") from error
    try:
        lock_or_refuse(folder, lock)
        yield Work(Path(folder).resolve(), lock)
    finally:
        os.close(lock)


def lock_or_refuse(folder: FilePath, lock: int) -> None:
    """Locks an open folder. A program that outlives its Python keeps the lock that it was lent, and one that is killed may take a while
    to end.
    """
    until = time.monotonic() + PATIENCE
    while True:
        try:
            return fcntl.flock(lock, fcntl.LOCK_EX | fcntl.LOCK_NB)
        except BlockingIOError as error:
            if time.monotonic() > until:
                raise WorkError(f"a run is at work in {folder}: wait for it, or end it, and then {again()}") from error
        time.sleep(LEAST_POLL)
