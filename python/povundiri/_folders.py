"""Folders of recordings, in which others may record and fold meanwhile."""

from __future__ import annotations

import dataclasses
import errno
import os
import re
import stat
from array import array
from collections.abc import Collection
from typing import NamedTuple, Optional

from ._faults import Busy, Fault, NoRecording, TooMany, fault_at
from ._files import read_file
from ._images import ID, Path, image_in, in_file_order
from ._looks import look
from ._readings import LeftOut, Reading
from ._sums import Sum
from ._totals import Totals, totals_of

MARK, TOTALS = "recording", "totals"
# The files of a folder that have no counts beside those of its segments and its totals.
OWN = frozenset([MARK, TOTALS, "totals.new", "fold.lock"])
# Names for later, of which nothing is read.
HISTORY = frozenset(["history", "history.new", "history.lock", "history.damaged"])
SEGMENT_NAME = re.compile(r"([0-9]{10,18})\.(seg|damaged)")
# A segment and a mark that have not got their names.
UNNAMED = re.compile(r"spare-[1-9][0-9]{0,17}-[0-9a-f]{16}|recording-[0-9a-f]{16}")
# A mark: how many bytes it has, and its first two words. The third is the folder's id.
MARK_BYTES, MARK_COOKIE, MARK_FORM = 4096, 0x6B72614D, 1
# The bytes from which an id is read: a word of zeros, and the words of a header up to it.
FRONT = 8 * (1 + ID + 1)
# How often a reading begins.
MOST_TIMES = 16
# Looks are kept as long as their files have at most this many bytes together.
MOST_KEPT = 2**26


class Listed(NamedTuple):
    """A segment of a listing: its number, its file, and how many bytes that had then."""

    number: int
    path: str
    length: int


def number_in(name: str, ending: str = "seg") -> Optional[int]:
    """The number of the segment whose file has this name, or of a file with another ending; None if it has none."""
    found = SEGMENT_NAME.fullmatch(name)
    number = int(found[1]) if found else 0
    return number if number > 0 and name == f"{number:010}.{ending}" else None


def was_recorded(names: Collection[str]) -> bool:
    """Whether a folder without a mark is a recording's, by the names of all that is in it: some file has what was
    recorded, and each has a name that a recording's folder has."""
    recorded = {name for name in names if name == TOTALS or number_in(name) or number_in(name, "damaged")}
    others = {name for name in names if name not in OWN | HISTORY and not UNNAMED.fullmatch(name)}
    return bool(recorded) and others <= recorded


def is_mark(path: str) -> bool:
    """Whether the file `recording` at a path marks a recording's folder; if it may not be read, by its length."""
    status = os.lstat(path)
    if not stat.S_ISREG(status.st_mode) or status.st_size not in (0, MARK_BYTES):
        return False
    try:
        with open(path, "rb") as file:
            data = file.read(MARK_BYTES)
    except PermissionError:
        return True
    if len(data) != status.st_size or not any(data):
        return len(data) == status.st_size
    words = in_file_order(array("Q", data))
    return words[0] == MARK_COOKIE and words[1] == MARK_FORM and words[2] != 0


def is_recording(folder: str) -> bool:
    """Whether a folder is a recording's: by its mark, or, if that is missing, by the names of all that is in it."""
    try:
        return is_mark(os.path.join(folder, MARK))
    except FileNotFoundError:
        return was_recorded(os.listdir(folder))


def listed_in(folder: str) -> tuple[list[Listed], tuple[str, ...]]:
    """The segments in a folder by their numbers, and the paths of all else there that is not the folder's own."""
    segments: list[Listed] = []
    others: list[str] = []
    for name in sorted(os.listdir(folder)):
        number, path = number_in(name), os.path.join(folder, name)
        status = status_of(path)
        if number is not None and (status is None or stat.S_ISREG(status.st_mode)):
            segments.append(Listed(number, path, 0 if status is None else status.st_size))
        elif name not in OWN:
            others.append(path)
    return sorted(segments), tuple(others)


def status_of(path: str) -> Optional[os.stat_result]:
    """What is at a path, links not followed; None if it is gone by now."""
    try:
        return os.lstat(path)
    except OSError:
        return None


def totals_in(folder: str) -> Totals:
    """What the totals of a folder say. If there are none, nothing was folded yet."""
    path = os.path.join(folder, TOTALS)
    status = status_of(path)
    if status is not None and not stat.S_ISREG(status.st_mode):
        raise OSError(errno.EINVAL, "no regular file", path)
    try:
        with fault_at(path), open(path, "rb") as file:
            totals = totals_of(file.read())
    except FileNotFoundError:
        return Totals(Reading(()))
    return totals._replace(reading=dataclasses.replace(totals.reading, added=(path,)))


def id_at(path: str) -> Optional[int]:
    """The id of the segment in a file; None if the file is too short to have one."""
    with open(path, "rb") as file:
        front = file.read(FRONT)
    words = image_in(in_file_order(array("Q", front))) if len(front) == FRONT else array("Q")
    return words[ID] if len(words) > ID else None


class Looks:
    """Looks at segments that are kept. If the folder has to be read again, they have what had been counted before."""

    def __init__(self) -> None:
        self.readings: dict[tuple[int, Optional[int]], Reading] = {}
        self.length = 0

    def keep(self, segment: Listed, reading: Reading) -> bool:
        """Keeps a look if there is room. Returns whether it is kept."""
        if reading.segment is None or self.length + segment.length > MOST_KEPT:
            return False
        self.length += segment.length
        self.readings[segment.number, reading.segment.id] = reading
        return True


class Round:
    """A reading of a folder that is being made. Little is done in it: a fold may end at any moment, and then it was in
    vain. So looks are kept, and added up after the totals were read again."""

    def __init__(self, totals: Totals, looks: Looks) -> None:
        self.totals, self.looks = totals, looks
        self.sum = Sum()
        self.sum.add(totals.reading, lambda number: number)
        # Looks that have to be added.
        self.looked: list[tuple[Listed, Reading]] = []
        # Segments of which there is no look, or whose look does not fit.
        self.others: list[Listed] = []

    def take(self, segment: Listed) -> None:
        """Takes up a segment of the listing. `FileNotFoundError` if its file is gone."""
        try:
            reading = self.look_at(segment)
        except FileNotFoundError:
            raise
        except (Fault, OSError):
            self.others.append(segment)
        else:
            if reading is not None:
                self.put(segment, reading)

    def look_at(self, segment: Listed) -> Optional[Reading]:
        """A look at a segment, maybe an earlier one; None if the totals have it."""
        named = (segment.number, id_at(segment.path))
        if named in self.totals.segments:
            return None
        return self.looks.readings.get(named) or look(segment.path)

    def put(self, segment: Listed, reading: Reading) -> None:
        """Puts a look where it is added up at the end, or adds it if there are too many of these."""
        named = (segment.number, reading.segment and reading.segment.id)
        if named in self.looks.readings or self.looks.keep(segment, reading):
            self.looked.append((segment, reading))
        else:
            self.add(segment, reading)

    def add(self, segment: Listed, reading: Reading) -> None:
        try:
            self.sum.add_image(reading, segment.number)
        except TooMany:
            self.others.append(segment)

    def end(self) -> tuple[Reading, list[str]]:
        """What totals and looks have together, and the files of the segments that are not in it."""
        for segment, reading in self.looked:
            self.add(segment, reading)
        return self.sum.reading, [segment.path for segment in sorted(self.others)]


def read_round(folder: str, looks: Looks) -> Optional[Reading]:
    """What a folder has; None if a fold ended meanwhile, or a segment that was listed is gone."""
    totals = totals_in(folder)
    segments, passed_over = listed_in(folder)
    this = Round(totals, looks)
    try:
        for segment in segments:
            this.take(segment)
    except FileNotFoundError:
        return None
    if totals_in(folder).serial != totals.serial:
        return None
    reading, others = this.end()
    return dataclasses.replace(with_others(reading, others), passed_over=passed_over)


def with_others(reading: Reading, paths: list[str]) -> Reading:
    """A reading of a folder, and after it what else can be read of segments at which nobody can look, such as those of
    version 1. The others are left out."""
    whole = Sum()
    whole.add_behind(reading)
    left_out: list[LeftOut] = []
    for path in paths:
        try:
            with fault_at(path):
                whole.add_behind(read_file(path))
        except (Fault, OSError) as error:
            left_out.append(LeftOut(path, error))
    return dataclasses.replace(whole.reading, left_out=tuple(left_out))


def read_recording(path: Path) -> Reading:
    """Returns what was counted in the folder of a recording: in all its segments, also those that were folded. Others
    may record and fold there meanwhile. Each segment that had been begun is counted once.

    It is the sum of the folder's totals and of a look at each segment that they do not name. A segment at which nobody
    can look is read as a file, or left out; `left_out` has it then, and why. `passed_over` has the other files there.

    `NoRecording` if the folder is none of a recording; `BadTotals` if its totals are none; `TooMany` if its totals or
    numbers are too great; `Busy` if a fold ended in each of sixteen readings; `OSError`.
    """
    folder = os.fspath(path)
    with fault_at(folder):
        if not is_recording(folder):
            raise NoRecording
        looks = Looks()
        for _ in range(MOST_TIMES):
            reading = read_round(folder, looks)
            if reading is not None:
                return reading
        raise Busy
