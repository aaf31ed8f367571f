"""Why something cannot be read."""

from __future__ import annotations

import contextlib
from collections.abc import Iterator
from typing import Optional


class Fault(Exception):
    """Why something is not read: the base of all faults of this package.

    `fault` is the fault as `persist_report` writes it, such as `Image BadCookie`, and `path` the file or the folder
    that has it, or None if there was no path. The text of the exception has both.
    """

    fault = "Fault"
    path: Optional[str] = None

    def __str__(self) -> str:
        return self.fault if self.path is None else f'{self.fault}: "{self.path}"'


class BadImage(Fault):
    """The bytes are no image. `name` says what is wrong, the first of these that is:

    - `TooLong`: more than 8,388,608 bytes, or of a mapped file 8,388,688; `NotWords`: no multiple of eight bytes;
    - `TooShort`: fewer words than a header has; `BadCookie`: they do not begin as an image;
    - `BadVersion`: neither version 1 nor 2; `BadPage`: no valid size of a page;
    - `BadSize`: not as many words as the header says, or no whole pages; also if a file is cut while it is looked at;
    - `NotReady`: the segment was never made ready; `Deleted`: it was deleted;
    - `BadFree`: the free pointer is outside of the words; `BadQueue`: the list of records has no valid start.
    """

    def __init__(self, name: str) -> None:
        super().__init__(name)
        self.name = name
        self.fault = name if name in ("TooLong", "NotWords") else f"Image {name}"


class BadTotals(Fault):
    """The text is no totals. `line` is the number of the line that is wrong, from 1: the first that does not continue
    those before it; or, if each does, that of the first name that is out of order, or whose keys are not those of its
    spec, or whose units pass 64 bits. A text that was cut off lacks its last line."""

    def __init__(self, line: int) -> None:
        super().__init__(line)
        self.line = line
        self.fault = f"BadTotals {line}"


class OldVersion(Fault):
    """The segment is of version 1, at which nobody can look. `read_image` reads its image once it is not in use."""

    fault = "Adopt OldVersion"


class Changed(Fault):
    """Between the three copies of a look another segment took the place of the one in the file. Look again."""

    fault = "Changed"


class TooMany(Fault):
    """A total does not fit: units, marks, redundant counts and images have 64 bits, and sums 128. Or totals are added
    in which the number of a histogram's first image is 2^62 or more."""

    fault = "TooMany"


class Busy(Fault):
    """A folder was read sixteen times, and each time a fold ended meanwhile. Read it again."""

    fault = "Busy"


class NoRecording(Fault):
    """The folder is no recording's: it has no file `recording`. Read the files in it one by one, and add them up."""

    fault = "NoRecording"


@contextlib.contextmanager
def fault_at(path: str) -> Iterator[None]:
    """Names the path of a fault that has none yet."""
    try:
        yield
    except Fault as fault:
        fault.path = fault.path or path
        raise
