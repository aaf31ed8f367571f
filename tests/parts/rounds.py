"""Texts that are written again and again (`--every`), while what they are of cannot be read for some rounds.

The program is traced: where it waits for the next round, a step of the test changes files or limits, and no wait takes
time. What is wanted is written by hand: the text of each round that could be read, each fault once on the error stream,
one sentence when there is none any more, and the status of the last round. On a terminal the rounds take seconds.
"""

from __future__ import annotations

import argparse
import contextlib
import dataclasses
import fcntl
import os
import pathlib
import pty
import re
import resource
import shutil
import subprocess
import tempfile
import typing
from collections.abc import Callable, Iterator, Sequence

from support import layout, plain_look, plain_show, tracer
from support.program import ROOT, Answer, Case, Word, answer, content, difference, untried

PROGRAM = "persist_report"
SLEEPS = (35, 230)
TIME = rb"\d{4}-\d\d-\d\dT\d\d:\d\d:\d\dZ\n"
OVER = "no fault any more"
NO_IMAGE = bytes(1000)
# What is no kind of histograms.
NO_KIND = 5
# The rounds on a terminal.
ROUNDS = 6
# The words of a segment whose bytes are no part of memory that a program has already.
LARGE = 1 << 17
# The files that the program may have open where it is to open no other: its three streams.
STREAMS = 3

# What is done before a round, with the process that waits for it.
Step = Callable[[int], typing.Any]


def nothing(process: int) -> None:
    """What changes nothing."""


@dataclasses.dataclass
class Stepped(tracer.Fault):
    """Does the next step where the program waits for a round. No wait takes time, and no call fails."""

    steps: Sequence[Step] = ()
    done: int = 0

    def is_meant(self, thread: int, call: tracer.Call) -> bool:
        if call.number not in SLEEPS:
            return False
        if self.done < len(self.steps):
            self.steps[self.done](thread)
        self.done += 1
        return True


def in_rounds(program: pathlib.Path, words: Sequence[Word], steps: Sequence[Step]) -> tuple[Answer, int]:
    """What the program returns of as many rounds as there are steps, and one before them; how many it waited for."""
    change = Stepped(SLEEPS, at=0, lasting=True, error=0, steps=steps)
    again = ["--live", "--every", "60", "--count", str(len(steps) + 1)]
    return tracer.answer(program, [*words, *again], change), change.done


def told(*faults: str) -> bytes:
    """The lines of faults on the error stream."""
    return "".join(f"persist_report: {fault}\n" for fault in faults).encode()


def wrong_rounds(
    program: pathlib.Path,
    words: Sequence[Word],
    steps: Sequence[Step],
    texts: Sequence[bytes],
    error: bytes,
    status: int,
    mark: bytes = b"",
) -> str | None:
    """What is wrong with rounds, or None. They have to write these texts, below lines of the time but for the first."""
    came, done = in_rounds(program, words, steps)
    form = (mark + TIME).join(re.escape(text) for text in texts)
    if not re.fullmatch(form, came.output):
        return f"it wrote {came.output!r}"
    if done != len(steps):
        return f"it waited for {done} rounds: {came}"
    return difference(Answer(error=error, status=status), dataclasses.replace(came, output=b""))


def to_limit(kind: int, most: int) -> Step:
    """Limits the process that waits."""
    return lambda process: resource.prlimit(process, kind, (most, resource.prlimit(process, kind)[1]))


def look_of(image: pathlib.Path) -> bytes:
    return layout.data_of(plain_look.look_of(*[layout.words_of(image.read_bytes())] * 3))


def one_file(program: pathlib.Path, folder: pathlib.Path, closed: pathlib.Path) -> Iterator[Case]:
    """A file that is gone for two rounds, or for good; faults that follow one another; and a limit on open files."""
    file, away = folder / "file", folder / "away"
    shutil.copy(closed, file)
    first = answer(program, ["show"], look_of(closed)).output
    second = plain_show.text_of(look_of(closed), since=look_of(closed))

    def remove(process: int) -> None:
        file.rename(away)

    def put_back(process: int) -> None:
        away.rename(file)

    def damage(process: int) -> None:
        file.write_bytes(NO_IMAGE)

    def mend(process: int) -> None:
        shutil.copy(closed, file)

    def unlink(process: int) -> None:
        file.unlink()

    show: list[Word] = ["show", file]
    yield "a file that comes back", wrong_rounds(
        program, show, [remove, nothing, put_back, nothing], [first, second, second], told("Read", OVER), 0
    )
    yield "a file that is gone for good", wrong_rounds(
        program, show, [nothing, remove, nothing], [first, second], told("Read"), 4
    )
    yield "a file that comes later", wrong_rounds(program, show, [nothing, put_back], [first], told("Read", OVER), 0)
    yield "other faults", wrong_rounds(
        program, show, [damage, nothing, unlink, mend, damage], [first, second],
        told("Image BadCookie", "Read", OVER, "Image BadCookie"), 3,
    )  # fmt: skip
    mend(0)
    limit = resource.getrlimit(resource.RLIMIT_NOFILE)[0]
    yield "no more open files", wrong_rounds(
        program, show, [to_limit(resource.RLIMIT_NOFILE, STREAMS), nothing, to_limit(resource.RLIMIT_NOFILE, limit)],
        [first, second], told("Read", OVER), 0,
    )  # fmt: skip
    metrics = answer(program, ["export"], look_of(closed)).output
    yield "an export", wrong_rounds(
        program, ["export", file], [remove, put_back], [metrics, metrics], told("Read", OVER), 0, b"# "
    )


def too_little_memory(program: pathlib.Path, folder: pathlib.Path, closed: pathlib.Path) -> Iterator[Case]:
    """A file for which there is too little memory for two rounds."""
    file, large, script = folder / "growing", folder / "large", folder / "large.csv"
    script.write_text(f"segment,{LARGE},1024,7\nhist,one,boolean\nadd,one,1,3\n")
    assert answer(program, ["run", script, large]).status == 0
    shutil.copy(closed, file)
    metrics = [answer(program, ["export"], look_of(image)).output for image in (closed, large)]
    free = resource.getrlimit(resource.RLIMIT_AS)[0]

    def grow(process: int) -> None:
        shutil.copy(large, file)
        pages = int(pathlib.Path(f"/proc/{process}/statm").read_text().split()[0])
        to_limit(resource.RLIMIT_AS, pages * resource.getpagesize())(process)

    yield "too little memory", wrong_rounds(
        program, ["export", file], [grow, nothing, to_limit(resource.RLIMIT_AS, free)], metrics,
        told("NoMemory", OVER), 0, b"# ",
    )  # fmt: skip


def after_the_text(program: pathlib.Path, folder: pathlib.Path, closed: pathlib.Path) -> Iterator[Case]:
    """Faults that come after the text of each round."""
    file, script = folder / "named", folder / "script"
    script.write_text("segment,1024,64,7\nhist,old,boolean\nadd,old,1,3\n")
    assert answer(program, ["run", script, file]).status == 0
    older = file.read_bytes()
    script.write_text("segment,1024,64,7\nhist,old,boolean\nhist,new,boolean\nadd,old,1,3\nadd,new,1,2\n")
    assert answer(program, ["run", script, file]).status == 0
    newer = file.read_bytes()
    file.write_bytes(older)
    empty = answer(program, ["show", file, "new"]).output
    shown = plain_show.text_of(newer, since=older, names=["new"])
    again = plain_show.text_of(newer, since=newer, names=["new"])
    yield "a name that comes later", wrong_rounds(
        program, ["show", file, "new"], [nothing, lambda process: file.write_bytes(newer), nothing],
        [empty, empty, shown, again], told("NoHistogram new", OVER), 0,
    )  # fmt: skip
    words = list(layout.words_of(closed.read_bytes()))
    record = next(at for at in range(len(words)) if words[at + 1 : at + 3] == [layout.BLOCK_COOKIE, layout.HISTOGRAM])
    words[record + layout.BLOCK_HEADER] = NO_KIND
    file.write_bytes(layout.data_of(words))
    text = answer(program, ["export", file, "--live", "--whole"])
    assert text.status == 3 and text.output, str(text)
    yield "a damaged image", wrong_rounds(
        program, ["export", file, "--whole"], [nothing, nothing], [text.output] * 3, text.error, 3, b"# "
    )


def several(program: pathlib.Path, folder: pathlib.Path, closed: pathlib.Path) -> Iterator[Case]:
    """Inputs that a sum leaves out, and a folder that is gone."""
    one, other, inputs, away = folder / "one", folder / "other", folder / "inputs", folder / "elsewhere"
    inputs.mkdir()
    for path in (one, other, inputs / "image"):
        shutil.copy(closed, path)
    both = answer(program, ["export", "--live", one, other]).output
    single = answer(program, ["export", "--live", inputs]).output
    left = [f'{fault}: "{path}"' for fault, path in (("Image BadCookie", other), ("Read", one))]

    def damage(process: int) -> None:
        other.write_bytes(NO_IMAGE)

    def mend(process: int) -> None:
        shutil.copy(closed, other)

    def remove(process: int) -> None:
        one.unlink()

    came = answer(program, ["export", "--live", one, folder / "none"])
    assert came.status == 3, str(came)
    yield "an input that is left out", wrong_rounds(
        program, ["export", one, other], [damage, nothing, mend], [both, came.output, came.output, both],
        told(left[0], OVER), 0, b"# ",
    )  # fmt: skip
    none = answer(program, ["export", "--live", folder / "none", folder / "none"]).output
    yield "inputs that are left out", wrong_rounds(
        program, ["export", one, other], [damage, remove, nothing], [both, came.output, none, none], told(*left), 3,
        b"# ",
    )  # fmt: skip
    yield "a folder that comes back", wrong_rounds(
        program, ["export", inputs],
        [lambda process: inputs.rename(away), nothing, lambda process: away.rename(inputs)],
        [single, single], told("Read", OVER), 0, b"# ",
    )  # fmt: skip


def outputs(program: pathlib.Path, folder: pathlib.Path, closed: pathlib.Path) -> Iterator[Case]:
    """OUT has the last text meanwhile; and a fault of OUT ends it."""
    file, place = folder / "source", folder / "place"
    out = place / "metrics"
    place.mkdir()
    shutil.copy(closed, file)
    metrics = answer(program, ["export"], look_of(closed)).output
    seen: list[bytes | None] = []

    def look(process: int) -> None:
        seen.append(content(out))

    def remove(process: int) -> None:
        look(process)
        file.unlink()

    def mend(process: int) -> None:
        look(process)
        shutil.copy(closed, file)

    words: list[Word] = ["export", file, "--to", out]
    wrong = wrong_rounds(program, words, [remove, mend, look], [b""], told("Read", OVER), 0)
    yield "OUT meanwhile", wrong or (None if seen == [metrics] * 3 else "OUT has another text")

    def lock(process: int) -> None:
        locked.append(os.open(out, os.O_RDWR))
        fcntl.flock(locked[0], fcntl.LOCK_EX)

    locked: list[int] = []
    came, _ = in_rounds(program, words, [lock, nothing, nothing])
    os.close(locked[0])
    yield "OUT is locked", difference(Answer(error=told("Busy"), status=4), came)
    came, done = in_rounds(program, words, [lambda process: shutil.rmtree(place), nothing, nothing])
    wrong = difference(Answer(error=told("Write"), status=4), came)
    yield "OUT cannot be made", wrong or (None if done == 1 else f"it waited for {done} rounds")


def on_a_terminal(program: pathlib.Path, folder: pathlib.Path, closed: pathlib.Path) -> Iterator[Case]:
    """On a terminal the last text stays with the sentence below it, and a text with a fault has it on each screen."""
    file, away = folder / "screen", folder / "hidden"
    shutil.copy(closed, file)
    clear = b"\x1b[H\x1b[2J"
    first = answer(program, ["show"], look_of(closed)).output
    second = plain_show.text_of(look_of(closed), since=look_of(closed))
    mine, its = pty.openpty()
    written = b""
    words: list[Word] = [program, "show", file, "--live", "--every", "1", "--count", str(ROUNDS)]
    with subprocess.Popen(words, stdin=subprocess.DEVNULL, stdout=its, stderr=its) as running:
        os.close(its)
        with contextlib.suppress(OSError):
            while piece := os.read(mine, 65_536):
                written += piece
                if file.exists() and b"Read" not in written and written.endswith(b"\r\n"):
                    file.rename(away)
                elif b"Read" in written and away.exists():
                    away.rename(file)
        running.wait()
    os.close(mine)
    screens = written.replace(b"\r\n", b"\n").split(clear)
    meanwhile = [screen for screen in screens if b"Read" in screen]
    right = screens[0] == b"" and screens[1].startswith(first) and screens[-1] == second and len(meanwhile) == 1
    right = right and re.fullmatch(rb"[^\0]*persist_report: Read\n(  .*\n)*", meanwhile[0]) is not None
    yield "a file that is gone, on a terminal", None if right else f"it came {screens!r}"


def cases(program: pathlib.Path, options: argparse.Namespace) -> Iterator[Case]:
    closed = ROOT / "examples" / "crash.img"
    with tempfile.TemporaryDirectory() as name:
        folder = pathlib.Path(name).resolve()
        yield from on_a_terminal(program, folder, closed)
        if not tracer.can_trace():
            yield untried(tracer.NOT_ALLOWED, options)
            return
        yield from one_file(program, folder, closed)
        yield from too_little_memory(program, folder, closed)
        yield from after_the_text(program, folder, closed)
        yield from several(program, folder, closed)
        yield from outputs(program, folder, closed)
