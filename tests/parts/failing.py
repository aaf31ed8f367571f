"""Each read, write, sync, lock, renaming, opening, allocation and start of a thread fails in turn: the right fault, no
output if none was begun, and OUT and its folder unchanged. And the program is killed at each call that makes a file:
OUT is the old file or the whole new one.

For this the program is traced (tracer.py).
"""

from __future__ import annotations

import argparse
import errno
import os
import pathlib
import shutil
import signal
import tempfile
from collections.abc import Callable, Iterable, Iterator, Sequence
from typing import Any, Optional

from support import tracer
from support.program import EXAMPLE, Answer, Case, Path, Word, answer, difference, fault, untried

PROGRAM = "persist_report"
# The bytes of files by their names.
Files = dict[str, bytes]
READ_FAULT, WRITE_FAULT, BUSY = fault("Read", 4), fault("Write", 4), fault("Busy", 4)
NO_MEMORY, NO_THREAD = fault("NoMemory", 5), fault("NoThread", 5)
# What comes if the program is not even loaded.
NOT_LOADED = (127, -signal.SIGSEGV)
# What is in OUT before a command; None if there is no OUT.
STOOD = b"what stood there before"
BEFORE: tuple[bytes | None, ...] = (STOOD, None)
# Of three workers the second alone makes blocks, and each histogram is one worker's: so any run writes the same image.
SCRIPT = b"""\
segment,256,64,7
hist,A,boolean
hist,B,boolean
hist,C,boolean
hist,S,sparse
add,A,1,2
add,S,-5,1
add,B,0,1
delta,A
add,C,1,70000
delta,B
add,A,1,1
add,S,7,70000
"""
# The same of the run that continues with that image.
MORE = b"""\
segment,256,64,7
hist,A,boolean
hist,C,boolean
hist,D,boolean
hist,S,sparse
add,A,1,2
add,S,-5,1
add,D,0,1
delta,A
add,C,0,70000
delta,D
add,A,1,1
add,S,9,1
"""


class Command:
    """A command line with its files, and what it returns if nothing fails. OUT has a folder of its own."""

    def __init__(
        self,
        program: pathlib.Path,
        name: str,
        words: Sequence[Word],
        inputs: Iterable[Path] = (),
        out: pathlib.Path | None = None,
    ) -> None:
        self.program = program
        self.name = name
        self.words = words
        self.inputs = tuple(str(path) for path in inputs)
        self.out = out
        self.prepare(None)
        self.right = answer(program, words)
        self.made = self.left()

    def prepare(self, stood: bytes | None) -> None:
        """Makes OUT's folder, with OUT as it is before the command and nothing else."""
        if self.out:
            shutil.rmtree(self.out.parent, ignore_errors=True)
            self.out.parent.mkdir()
            for name, data in folder_of(stood).items():
                (self.out.parent / name).write_bytes(data)

    def left(self) -> Files:
        """What is in OUT's folder: the bytes of each file by its name."""
        return {path.name: path.read_bytes() for path in self.out.parent.iterdir()} if self.out else {}

    def failing(self, made: tracer.Fault, stood: bytes | None = STOOD) -> tuple[Answer, Files]:
        """What it returns if calls fail, and what is then in OUT's folder."""
        self.prepare(stood)
        settings = {"env": {**os.environ, **tracer.EACH_BY_ITSELF}}
        return tracer.answer(self.program, self.words, made, **settings), self.left()

    def each(self, stood: bytes | None = STOOD, **which: Any) -> Iterator[tuple[int, Answer, Files]]:
        """The place of each call that is meant, the answer if it fails, and what is then in OUT's folder."""
        place = 0
        while True:
            made = tracer.Fault(at=place, **which)
            came, left = self.failing(made, stood)
            if made.met <= place:
                return
            yield place, came, left
            place += 1

    def untouched(self, wanted: Answer, came: Answer, left: Files, stood: bytes | None = STOOD) -> str | None:
        """What is wrong if a fault was wanted, and OUT's folder unchanged; or None."""
        right = folder_of(stood) if self.out else {}
        return difference(wanted, came) or (None if left == right else f"{told(left)} stand in OUT's folder")

    def is_done(self, came: Answer, left: Files) -> bool:
        return (came, left) == (self.right, self.made)


# Says what is wrong with a command, or None.
Check = Callable[[Command], Optional[str]]
# The command that prints no report.
MERGE = "merge"


def folder_of(stood: bytes | None) -> Files:
    return {} if stood is None else {"out": stood}


def told(left: Files) -> list[str] | str:
    return [f"{len(data)} bytes as {name}" for name, data in left.items()] or "no files"


def wrong_where(
    command: Command, wanted: Answer, what: str, before: Iterable[bytes | None] = (STOOD,), **fault: Any
) -> str | None:
    """What is wrong if each such call fails in turn, and a fault is wanted and OUT unchanged; or None."""
    for stood in before:
        tried = 0
        for place, came, left in command.each(stood, **fault):
            tried += 1
            wrong = command.untouched(wanted, came, left, stood)
            if wrong is not None:
                return f"{what} {place}: {wrong}"
        if not tried:
            return f"no {what} was seen"
    return None


def wrong_where_some(command: Command, faults: Sequence[Answer], what: str, **fault: Any) -> str | None:
    """What is wrong if each such call fails in turn, and what is wanted is one of these faults with OUT unchanged, or
    the right answer; or None. The last of the faults has to come."""
    for stood in BEFORE:
        tried = 0
        for place, came, left in command.each(stood, **fault):
            if came.status in NOT_LOADED and not tried:
                continue
            wanted = next((one for one in faults if one == came), faults[-1])
            wrong = None if command.is_done(came, left) else command.untouched(wanted, came, left, stood)
            if wrong is not None:
                return f"{what} {place}: {wrong}"
            tried += came == faults[-1]
        if not tried:
            return f"the fault of no {what} came"
    return None


def wrong_alone(command: Command) -> str | None:
    """If nothing fails it succeeds, with a report, and it makes an image, or what of these it is to make."""
    came, is_made = command.right, "out" in command.made
    is_right = (came.error, came.status) == (b"", 0) and is_made == (command.out is not None)
    return None if is_right and bool(came.output) == (command.words[0] != MERGE) else f"{came}, {told(command.made)}"


def wrong_reads(command: Command) -> str | None:
    return wrong_where(command, READ_FAULT, "read", numbers=(tracer.READ,), files=command.inputs)


def wrong_image_writes(command: Command) -> str | None:
    assert command.out is not None
    files = (str(command.out.parent),)
    return wrong_where(command, WRITE_FAULT, "write of the image", BEFORE, numbers=(tracer.WRITE,), files=files)


def wrong_syncs(command: Command) -> str | None:
    return wrong_where(command, WRITE_FAULT, "sync", BEFORE, numbers=(tracer.SYNC,))


def wrong_locks(command: Command) -> str | None:
    """The lock of OUT is taken if there is an OUT, and tried again if another process has it. A new file that cannot be
    locked is written all the same, and if a run that tidies up has its lock, another one is made."""
    refused = tracer.Fault((tracer.LOCK,), at=0, error=errno.ENOLCK)
    wrong = command.untouched(WRITE_FAULT, *command.failing(refused)) or (
        None if refused.met == 1 else "more was locked after a refusal"
    )
    for error in (errno.ENOLCK, errno.EWOULDBLOCK):
        second = tracer.Fault((tracer.LOCK,), at=1, error=error)
        is_done = command.is_done(*command.failing(second))
        wrong = wrong or (None if is_done and second.met > 1 else f"{errno.errorcode[error]} for the new file")
    never = tracer.Fault((tracer.LOCK,), at=0, lasting=True, error=errno.EWOULDBLOCK)
    wrong = (
        wrong
        or command.untouched(BUSY, *command.failing(never))
        or (None if never.met > 1 else "the lock was not tried again")
    )
    for error, stood in ((errno.EWOULDBLOCK, STOOD), (errno.EINTR, STOOD), (errno.ENOLCK, None)):
        once = tracer.Fault((tracer.LOCK,), at=0, error=error)
        wrong = wrong or (
            None
            if command.is_done(*command.failing(once, stood))
            else f"{errno.errorcode[error]} once is not the right answer"
        )
    return wrong


def wrong_modes(command: Command) -> str | None:
    return wrong_where(command, WRITE_FAULT, "change of permissions", numbers=(tracer.CHANGE_MODE,))


def wrong_renames(command: Command) -> str | None:
    """The renaming comes after all else, so the report is whole."""
    wanted = Answer(command.right.output, WRITE_FAULT.error, WRITE_FAULT.status)
    return wrong_where(command, wanted, "renaming", BEFORE, numbers=tracer.RENAMES)


def wrong_openings(command: Command) -> str | None:
    return wrong_where_some(
        command, (READ_FAULT, WRITE_FAULT), "opening", numbers=(tracer.OPEN_AT,), error=errno.EACCES
    )


def wrong_random_bytes(command: Command) -> str | None:
    """Without them the new file has no name."""
    return wrong_where_some(command, (WRITE_FAULT,), "call for random bytes", numbers=(tracer.RANDOM,))


def wrong_clashes(command: Command) -> str | None:
    """If the new file's name is taken, another is tried."""
    for stood in BEFORE:
        refused, taken = (fatal_openings(command, stood, error) for error in (errno.EACCES, errno.EEXIST))
        if taken != refused[:-1]:
            return (
                f"the openings {refused} may not be refused, wanted that the last one finds another name, came {taken}"
            )
    return wrong_where_some(command, (READ_FAULT, WRITE_FAULT), "clash", numbers=(tracer.OPEN_AT,), error=errno.EEXIST)


def fatal_openings(command: Command, stood: bytes | None, error: int) -> list[int]:
    """The openings after whose error comes `Write`: that of OUT, and then that of the new file."""
    tried = command.each(stood, numbers=(tracer.OPEN_AT,), error=error)
    return [place for place, came, _ in tried if came == WRITE_FAULT]


def wrong_kill(command: Command, came: Answer, left: Files, stood: bytes | None) -> str | None:
    """What is wrong after the program was killed, or None. The new file may be beside OUT, which is unchanged."""
    if came.status != -signal.SIGKILL:
        return f"wanted a kill, came the status {came.status}"
    if left == command.made:
        return None if came.output == command.right.output else "OUT is new before the report"
    new = {name: data for name, data in left.items() if name != "out"}
    if left.get("out") != stood or len(new) > 1:
        return f"{told(left)} stand in OUT's folder"
    return None


def wrong_kills(command: Command) -> str | None:
    """The program is killed at each call by which it makes a file, and at its end."""
    numbers = (
        tracer.OPEN_AT, tracer.WRITE, tracer.SYNC, tracer.CHANGE_MODE, *tracer.RENAMES, tracer.CLOSE, tracer.EXIT,
    )
    for stood in BEFORE:
        outs = set()
        for place, came, left in command.each(stood, numbers=numbers, kills=True):
            wrong = wrong_kill(command, came, left, stood)
            if wrong is not None:
                return f"killed at call {place}: {wrong}"
            outs.add(left.get("out"))
        if outs != {stood, command.made["out"]}:
            return "wanted the old OUT after some kills and the new one after others"
    return None


def wrong_report_writes(command: Command) -> str | None:
    tried = 0
    for place, came, left in command.each(numbers=(tracer.WRITE,), files=(tracer.OUTPUT,)):
        tried += 1
        begun = len(came.output) < len(command.right.output) and command.right.output.startswith(came.output)
        wrong = command.untouched(Answer(came.output, WRITE_FAULT.error, WRITE_FAULT.status), came, left)
        if wrong is None and not begun:
            wrong = f"came {came.output!r}, which is no beginning of the report"
        if wrong is not None:
            return f"write {place} of the report: {wrong}"
    return None if tried else "no write was seen"


def wrong_growths(command: Command) -> str | None:
    """Each allocation and all after it are refused."""
    tried = 0
    for place, came, left in command.each(numbers=tracer.GROWTHS, lasting=True, error=errno.ENOMEM):
        if came.status in NOT_LOADED and not tried:
            continue
        wanted = NO_THREAD if came == NO_THREAD else NO_MEMORY
        wrong = None if command.is_done(came, left) else command.untouched(wanted, came, left)
        if wrong is not None:
            return f"allocation {place}: {wrong}"
        tried += came == NO_MEMORY
    return None if tried else "NoMemory never came"


def wrong_threads(command: Command) -> str | None:
    return wrong_where(command, NO_THREAD, "thread", numbers=(tracer.CLONE, tracer.CLONE_3), error=errno.EAGAIN)


def wrong_pieces(command: Command) -> str | None:
    """Each read and write moves one byte."""
    files = (*command.inputs, *([str(command.out.parent)] if command.out else []), tracer.OUTPUT)
    came, left = command.failing(tracer.Fault((tracer.READ, tracer.WRITE), files, most=1))
    return difference(command.right, came) or (None if left == command.made else "another image was written")


def commands(program: pathlib.Path, folder: pathlib.Path) -> Iterator[Command]:
    """The commands that are tried."""
    script, more, base, dead, out = (folder / name for name in ("script", "more", "base", "dead", "outs/out"))
    script.write_bytes(SCRIPT)
    more.write_bytes(MORE)
    answer(program, ["run", script, base])
    dead.write_bytes(EXAMPLE.read_bytes())
    yield Command(program, "report", ["report", EXAMPLE], [EXAMPLE])
    for workers in ("1", "3"):
        yield Command(program, f"run by {workers}", ["run", script, out, "--workers", workers], [script], out)
    for workers in ("1", "3"):
        yield Command(
            program, f"resume by {workers}", ["resume", base, more, out, "--workers", workers], [base, more], out
        )
    yield Command(program, MERGE, [MERGE, EXAMPLE, dead, out], [EXAMPLE, dead], out)


def checks(command: Command) -> Iterator[Check]:
    """The checks of a command."""
    yield wrong_alone
    yield wrong_reads
    yield wrong_growths
    yield wrong_pieces
    if command.out:
        yield from (wrong_locks, wrong_image_writes, wrong_syncs, wrong_modes, wrong_renames)
        yield from (wrong_openings, wrong_random_bytes, wrong_clashes, wrong_kills)
    if command.words[0] != MERGE:
        yield wrong_report_writes
    if command.words[0] in ("run", "resume"):
        yield wrong_threads


def cases(program: pathlib.Path, options: argparse.Namespace) -> Iterator[Case]:
    if not tracer.can_trace():
        yield untried(tracer.NOT_ALLOWED, options)
        return
    with tempfile.TemporaryDirectory() as scratch:
        for command in commands(program, pathlib.Path(scratch).resolve()):
            for check in checks(command):
                yield f"{command.name}: {check.__name__}", check(command)
