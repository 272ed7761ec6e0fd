"""Where the histories of a run go."""

from __future__ import annotations

import itertools
import os
import re
from typing import BinaryIO, Callable, Optional, Union

from . import History
from .values import U64, number

# What takes the history of each epoch, one after the other: together they are one legal history. If it raises an exception,
# the run halts with that, and nothing is lost: `Runtime.run` goes on with the same history.
Sink = Callable[[History], None]

Path = Union[str, "os.PathLike[str]"]

# How many digits the numbers in the names of files have, so that the names sort.
DIGITS = 6


class HistoryFile:
    """A file that has the histories of a run as text, a line an event, as `pt_audit` reads it. `path` is its name, and `paths` has
    the names of all files so far, in order."""

    def __init__(self, path: Path):
        """Makes the file, or empties it."""
        # (a number would be a file that is open, and closed then)
        self._open(os.fspath(path), "wb")
        self._most: Optional[int] = None

    def _open(self, path: str, mode: str) -> None:
        """Goes over to this file. What fails changes nothing."""
        with open(path, mode):
            pass
        self.path = path
        # where the next history begins, or None before the first one that goes on behind what is there
        self._end: Optional[int] = 0
        self.paths = [*getattr(self, "paths", ()), path]

    @classmethod
    def append(cls, path: Path) -> HistoryFile:
        """Goes on behind the epochs that the file has of the same run, or makes the file: for a run that halted and goes on
        (`Runtime.with_archive`). What was written of an epoch and not finished is overwritten.

        The first history is refused by a ValueError, and so the run halts, if the file has no earlier epoch of its run: another
        run has another history, and another file.
        """
        made = cls.__new__(cls)
        made._open(os.fspath(path), "ab")
        made._end = made._most = None
        return made

    @classmethod
    def rotating(cls, path: Path, most: int) -> HistoryFile:
        """Writes files of whole epochs: once one has so many bytes, the next epoch begins the next file.

        Their names sort: `PATH.000001.000001` has the number of the run and that of its file. A run that is started later, also
        by another program, has the next number. So no file of an earlier run is written to.
        """
        most, base = number("most", most, 1, U64), os.fsdecode(path)
        made = cls.__new__(cls)
        made._most, run = most, last_run(base) + 1
        while True:
            try:
                made._open(name_of(base, run, 1), "xb")
                return made
            except FileExistsError:  # another program was faster
                run += 1

    def __repr__(self) -> str:
        return f"HistoryFile({self.path!r})"

    def __call__(self, history: History) -> None:
        """Writes a history at the end. (what an earlier call left unfinished is overwritten)"""
        if self._most is not None and self._end is not None and self._end >= self._most:
            base, run, place = parts_of(self.path)
            self._open(name_of(base, run, place + 1), "xb")
        with open(self.path, "r+b") as file:
            end = self._end if self._end is not None else end_before(file, history, self.path)
            file.truncate(end)
            file.seek(end)
            lines = history.lines()
            while some := "\n".join(itertools.islice(lines, 1000)):
                file.write(f"{some}\n".encode())
            file.flush()
            self._end = file.tell()


def name_of(base: str, run: int, place: int) -> str:
    """The name of a file of a run."""
    return f"{base}.{run:0{DIGITS}}.{place:0{DIGITS}}"


def parts_of(path: str) -> tuple[str, int, int]:
    """What such a name is made of."""
    base, run, place = path.rsplit(".", 2)
    return base, int(run), int(place)


def last_run(base: str) -> int:
    """The greatest number of a run that has files with this name, or 0."""
    folder, name = os.path.split(base)
    form = re.compile(re.escape(name) + rf"\.(\d{{{DIGITS},}})\.\d{{{DIGITS},}}")
    found = map(form.fullmatch, os.listdir(folder or "."))
    return max((int(match[1]) for match in found if match), default=0)


def end_before(file: BinaryIO, history: History, path: str) -> int:
    """Where the lines end that are before all of this history. (the stamps of a file rise, and so do those of epochs)"""
    first = next(iter(history), None)
    best = high = file.seek(0, os.SEEK_END)
    if first is None or high == 0:
        return high
    low = 0
    while low < high:
        at = (low + high) // 2
        begin, line = line_behind(file, at)
        if line.endswith(b"\n") and stamp_of(line, path) < first.stamp:
            low = begin + len(line)
        else:
            best, high = min(best, begin), at
    if best == 0:
        raise ValueError(f"{path} has no earlier epoch of this run: HistoryFile(path) empties it, and another run has another file")
    return best


def line_behind(file: BinaryIO, at: int) -> tuple[int, bytes]:
    """The first line that begins here or behind, and where it begins."""
    file.seek(max(0, at - 1))
    if at:
        file.readline()
    return file.tell(), file.readline()


def stamp_of(line: bytes, path: str) -> int:
    stamp, mark, _ = line.partition(b"@")
    if not mark or not stamp.isdigit():
        raise ValueError(f"{path} is no history: a line is {line[:80]!r}")
    return int(stamp)
