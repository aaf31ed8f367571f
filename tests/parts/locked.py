"""The lock of OUT: no command replaces a file that another process has locked, and each has the lock of OUT from before
it reads anything until the new file has OUT's name. What came to OUT meanwhile is not replaced either. Inputs are not
locked.

A lock that the test holds is like that of another process: it belongs to what was opened, and the program opens files
itself.
"""

from __future__ import annotations

import argparse
import contextlib
import fcntl
import os
import pathlib
import stat
import subprocess
import tempfile
import threading
import time
from collections.abc import Iterator, Mapping, Sequence
from typing import BinaryIO

from support.program import (
    EXAMPLE, MOST_SECONDS, SCRIPT, Answer, Case, Path, Word, answer, difference, explained, fault,
)

PROGRAM = "persist_report"
BUSY, WRITE_FAULT = fault("Busy", 4), fault("Write", 4)
STOOD = b"what a service counts"
HOLDS = (fcntl.LOCK_EX, fcntl.LOCK_SH)
# What a command makes before it reads anything.
NEW = ".persist_report-"
# How often a race is tried that a busy machine may lose.
TRIES = 10


@contextlib.contextmanager
def locked(path: Path, how: int = fcntl.LOCK_EX) -> Iterator[BinaryIO]:
    """While a file is locked."""
    with open(path, "rb") as file:
        fcntl.flock(file, how)
        yield file


def is_locked(path: pathlib.Path) -> bool:
    """Whether somebody else has the lock of a file."""
    with open(path, "rb") as file:
        try:
            fcntl.flock(file, fcntl.LOCK_EX | fcntl.LOCK_NB)
        except BlockingIOError:
            return True
    return False


def commands(base: pathlib.Path, out: Path) -> Iterator[tuple[str, list[Word]]]:
    """The commands that write a file, each with its words; `base` is an image that may be continued."""
    yield "run", [SCRIPT, out]
    yield "resume", [base, SCRIPT, out]
    yield "merge", [EXAMPLE, EXAMPLE, out]
    yield "extract", [EXAMPLE, out]


def renewed(folder: pathlib.Path) -> pathlib.Path:
    """OUT as it is before a command, in a folder with nothing else."""
    out = folder / "out"
    for path in folder.iterdir():
        path.unlink()
    out.write_bytes(STOOD)
    return out


def touched(folder: pathlib.Path, wanted: Mapping[str, bytes]) -> str | None:
    """What is wrong if other files are in a folder than were wanted, or None."""
    left = {path.name: path.read_bytes() for path in folder.iterdir() if not path.is_fifo()}
    return (
        None
        if left == wanted
        else f"these files stand there: {sorted(left)}, of {sorted(map(len, left.values()))} bytes"
    )


def wrong_while_locked(
    program: pathlib.Path, folder: pathlib.Path, words: Sequence[Word], wanted: Answer
) -> str | None:
    """What is wrong if OUT is locked, and then if it is not, or None."""
    out = renewed(folder)
    before = out.stat().st_ino
    for how in HOLDS:
        with locked(out, how):
            began = time.monotonic()
            wrong = difference(BUSY, answer(program, words))
            took = time.monotonic() - began
            lines = explained("Busy", 4, [f'"{out}"'])
            wrong = (
                wrong or difference(lines, answer(program, [*words, "--explain"])) or touched(folder, {"out": STOOD})
            )
        if wrong is None and (took < 0.1 or out.stat().st_ino != before):
            wrong = f"it ended after {took} seconds" if took < 0.1 else "OUT is another file"
        if wrong is not None:
            return wrong
    if wanted.status != 0:
        return f"status {wanted.status} with {wanted.error!r} where nothing is locked"
    return difference(wanted, answer(program, words)) or (
        None if out.read_bytes() not in (b"", STOOD) else "OUT is not new"
    )


def wrong_behind_link(program: pathlib.Path, folder: pathlib.Path) -> str | None:
    """A link to a locked file, and an open file of one, are locked too."""
    out, link = renewed(folder), folder / "link"
    link.symlink_to("out")
    with locked(out), open(out, "ab") as stream:
        came = answer(program, ["run", SCRIPT, link])
        other = answer(program, ["merge", EXAMPLE, EXAMPLE, "/dev/stdout"], stdout=stream)
    wrong = difference(BUSY, came) or difference(BUSY, other)
    return (
        wrong or (None if link.is_symlink() else "the link is gone") or touched(folder, {"out": STOOD, "link": STOOD})
    )


def wrong_for_a_moment(program: pathlib.Path, folder: pathlib.Path) -> str | None:
    """A process that has a file locked for 50 ms keeps no command from it; tried again if a busy machine makes that
    longer."""
    for _ in range(TRIES):
        out = renewed(folder)
        looks = open(out, "rb")
        fcntl.flock(looks, fcntl.LOCK_EX)
        timer = threading.Timer(0.05, looks.close)
        timer.start()
        came = answer(program, ["run", SCRIPT, out])
        timer.join()
        if came != BUSY:
            return difference(Answer(output=came.output), came) or (
                None if out.read_bytes() != STOOD else "OUT is not new"
            )
    return f"{TRIES} times it was Busy"


def wrong_of_inputs(program: pathlib.Path, out: pathlib.Path) -> str | None:
    """A command reads what is locked."""
    image = out.with_name("image")
    image.write_bytes(EXAMPLE.read_bytes())
    readers: dict[str, list[Word]] = {
        "report": [image], "show": [image], "export": [image], "extract": [image, out], "merge": [image, image, out],
    }
    with locked(image):
        for name, words in readers.items():
            came = answer(program, [name, *words])
            if came.status != 0:
                return f"{name}: status {came.status} with {came.error!r}"
    return None


class Waiting:
    """A command whose script comes through a pipe, as far as it gets before the script comes: it has opened OUT, and
    made its new file."""

    def __init__(self, program: pathlib.Path, folder: pathlib.Path) -> None:
        self.folder = folder
        pipe = folder / "script"
        os.mkfifo(pipe)
        self.command = subprocess.Popen(
            [program, "run", pipe, folder / "out"], stdout=subprocess.PIPE, stderr=subprocess.PIPE
        )
        self.script = open(pipe, "wb")
        end = time.monotonic() + MOST_SECONDS
        while not any(path.name.startswith(NEW) for path in folder.iterdir()) and time.monotonic() < end:
            time.sleep(0.001)

    def answer(self) -> Answer:
        """What it returns once the script has come."""
        self.script.write(SCRIPT.read_bytes())
        self.script.close()
        output, error = self.command.communicate(timeout=MOST_SECONDS)
        return Answer(output, error, self.command.returncode)


def wrong_meanwhile(program: pathlib.Path, folder: pathlib.Path) -> str | None:
    """The lock of OUT is held until the new file has its name."""
    out = renewed(folder)
    waiting = Waiting(program, folder)
    held, before = is_locked(out), out.read_bytes()
    came = waiting.answer()
    if not held or before != STOOD:
        return (
            "OUT was not locked while the script was waited for"
            if not held
            else "OUT was written before the script came"
        )
    wrong = difference(Answer(output=came.output), came)
    return wrong or (
        "OUT is not new" if out.read_bytes() == STOOD else "OUT is locked still" if is_locked(out) else None
    )


def wrong_newcomer(program: pathlib.Path, folder: pathlib.Path) -> str | None:
    """If there was no OUT, a file that comes there meanwhile is not replaced."""
    out = renewed(folder)
    out.unlink()
    waiting = Waiting(program, folder)
    out.write_bytes(STOOD)
    came = waiting.answer()
    return difference(Answer(came.output, WRITE_FAULT.error, 4), came) or touched(folder, {"out": STOOD})


def has_open(process: int, path: pathlib.Path) -> bool:
    """Whether a process has a file open."""
    try:
        return any(
            os.path.samefile(link.path, path)
            for link in os.scandir(f"/proc/{process}/fd")
            if stat.S_ISREG(os.stat(link.path).st_mode)
        )
    except OSError:
        return False


def wrong_other_file(program: pathlib.Path, folder: pathlib.Path) -> str | None:
    """While the lock is tried, another file takes OUT's name, which is locked too, and the old one is free: the new one
    stays."""
    for _ in range(TRIES):
        out = renewed(folder)
        other = folder / "other"
        other.write_bytes(STOOD * 2)
        with locked(other):
            with locked(out):
                command = subprocess.Popen(
                    [program, "run", SCRIPT, out], stdout=subprocess.PIPE, stderr=subprocess.PIPE
                )
                while command.poll() is None and not has_open(command.pid, out):
                    pass
                os.rename(other, out)
            output, error = command.communicate(timeout=MOST_SECONDS)
        wrong = difference(BUSY, Answer(output, error, command.returncode)) or touched(folder, {"out": STOOD * 2})
        if wrong is not None:
            return wrong
    return None


def cases(program: pathlib.Path, _options: argparse.Namespace) -> Iterator[Case]:
    with tempfile.TemporaryDirectory() as scratch:
        base = pathlib.Path(scratch).resolve() / "base"
        answer(program, ["run", SCRIPT, base])
        for place, (name, words) in enumerate(commands(base, "out")):
            folder = pathlib.Path(scratch).resolve() / str(place)
            folder.mkdir()
            words = [name, *words[:-1], folder / "out"]
            wanted = answer(program, words)
            yield f"{name}, OUT is locked", wrong_while_locked(program, folder, words, wanted)
        tries = (wrong_behind_link, wrong_for_a_moment, wrong_meanwhile, wrong_newcomer, wrong_other_file)
        for check in tries:
            folder = pathlib.Path(scratch).resolve() / check.__name__
            folder.mkdir()
            yield check.__name__, check(program, folder)
        yield "inputs are locked", wrong_of_inputs(program, pathlib.Path(scratch).resolve() / "out")
