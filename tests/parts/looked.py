"""Four threads of a C++ program make names and record into a mapped file, and the program looks at it while they do.

Each look is read without a bad record or a stop. Each bucket has at least the units of calls that had ended before the
look, at most those of calls that had begun when it was done, and no fewer than in the look before. Now and then a look
is adopted, and the report of what is continued from it is the same. In the end the process is killed amid a look, and
the next run continues in the file. The same from inside: the program looks at its own segment, in a file and in the
heap.
"""

from __future__ import annotations

import argparse
import collections
import pathlib
import random
import re
import subprocess
from collections.abc import Iterator

from support import bounds, native
from support.program import Answer, Case, Word, answer

PROGRAM = "persist_report"
# Looks at one run of the program, runs in one file, and how many looks go by until one is adopted.
LOOKS_A_RUN, RUNS_A_FILE, ADOPTED_EACH = 100, 2, 10
# How many looks go by until one is at the memory of the process.
IN_MEMORY_EACH = 7
# A run that looks at its own segment takes LOOKS / INSIDE looks, by the LOOKS of the command line.
INSIDE = 4
VERSION = 2
ID = 7


def rows_of(report: bytes) -> list[bytes]:
    """The lines of a report but for those of the segment."""
    return [line for line in report.splitlines() if not line.startswith(b"!")]


class Watched(bounds.Runs):
    """Runs in one file, at which the program looks."""

    def __init__(
        self, recording: pathlib.Path, program: pathlib.Path, folder: pathlib.Path, chance: random.Random
    ) -> None:
        super().__init__(recording, program, chance, VERSION)
        self.met: collections.Counter[str] = collections.Counter()
        self.file, self.tally, self.look, self.script, self.out = (
            folder / name for name in ("file", "tally", "look", "script", "out")
        )
        self.file.unlink(missing_ok=True)
        size, page = self.shape
        self.script.write_text(f"segment,{size},{page},{ID}\n")
        # Units that were there when the run began, and units in the last look.
        self.last: bounds.Units = collections.Counter()
        self.is_made = False
        self.process: int | None = None

    def adopted(self, report: bytes) -> str | None:
        """What is wrong with a segment that continues from the look, or None."""
        came = answer(self.program, ["resume", self.look, self.script, self.out])
        if came.status != 0 or rows_of(came.output) != rows_of(report):
            return f"continued: {came}"
        self.met["adopted"] += 1
        return None

    def place(self, number: int) -> list[Word]:
        """FILE of a look: the mapped file, or now and then the memory of the process, and where the file is in it."""
        if number % IN_MEMORY_EACH == 0 and self.is_made and self.process is not None:
            maps = pathlib.Path(f"/proc/{self.process}/maps").read_text()
            mapped = re.search(rf"^([0-9a-f]+)-.* {re.escape(str(self.file))}$", maps, re.MULTILINE)
            if mapped is not None:
                self.met["in memory"] += 1
                return [f"/proc/{self.process}/mem", "--at", str(int(mapped[1], 16))]
        return [self.file]

    def wrong(self, number: int) -> str | None:
        """What is wrong with a look, or None. There is none until the segment is made."""
        ended = self.tally.read_bytes()
        found = answer(self.program, ["look", *self.place(number), self.look])
        begun = self.tally.read_bytes()
        if found.status != 0 and not self.is_made and not any(ended):
            self.met["before it was made"] += 1
            return None
        if found != Answer():
            return f"look: {found}"
        report = answer(self.program, ["report", self.look])
        if report.status != 0:
            return f"report: {report}"
        self.is_made = True
        units, faults = bounds.units_of(report.output)
        wrong = bounds.wrong_between(units, faults, self.before, ended, begun, self.version)
        fallen = [cell for cell in self.last if units[cell] < self.last[cell]]
        self.met["amid a call"] += bounds.numbers(begun)[0] != bounds.numbers(ended)[1]
        self.met["full"] += b"!flag,full\n" in report.output
        self.last = units
        if wrong is None and fallen:
            wrong = f"{fallen[0]} has fewer units than in the look before"
        return self.adopted(report.output) if wrong is None and number % ADOPTED_EACH == 0 else wrong

    def run(self, looks: int) -> str | None:
        """What is wrong with one of the looks at a run, which is killed after them, or None."""
        words = self.words("file", self.file, self.tally)
        with subprocess.Popen(words, stdout=subprocess.PIPE, stderr=subprocess.PIPE) as running:
            assert running.stderr is not None
            self.process = running.pid
            try:
                wrong = next((wrong for wrong in map(self.wrong, range(1, looks + 1)) if wrong is not None), None)
            finally:
                self.process = None
                running.kill()
            said = running.stderr.read().decode()
        self.met["units"] += sum(self.last.values())
        return f"it said {said}" if said else wrong or self.wrong_behind()

    def wrong_behind(self) -> str | None:
        """What is wrong with a look at what the killed program left, or None; the next run continues with that."""
        wrong = self.wrong(1)
        self.before = self.last
        return wrong


def looked_often(
    recording: pathlib.Path, folder: pathlib.Path, program: pathlib.Path, options: argparse.Namespace
) -> Iterator[Case]:
    met: collections.Counter[str] = collections.Counter()
    left, number = options.looks, 0
    while left > 0:
        watched = Watched(recording, program, folder, random.Random(f"{options.seed} looked {number}"))
        for _ in range(RUNS_A_FILE):
            looks = min(left, LOOKS_A_RUN)
            left -= looks
            if looks > 0:
                yield f"file {number} of seed {options.seed}, {watched.shape[0]} words", watched.run(looks)
        met += watched.met
        number += 1
    print(
        f"looked: {options.looks} looks, {met['amid a call']} amid a call, {met['full']} at a full segment, "
        f"{met['before it was made']} before it was made, {met['in memory']} in memory; {met['adopted']} adopted; "
        f"{met['units']} units",
        flush=True,
    )
    if options.looks >= 1000:
        kinds = ("amid a call", "full", "in memory")
        yield "each kind of look", None if all(met[kind] for kind in kinds) else f"seen were {dict(met)}"


def looked_inside(
    recording: pathlib.Path, folder: pathlib.Path, program: pathlib.Path, options: argparse.Namespace
) -> Iterator[Case]:
    """The program looks at its own segment, by the handle and by the file, and compares what it finds itself."""
    looks, amid = options.looks // INSIDE, 0
    for place in ("file", "heap"):
        runs = bounds.Runs(recording, program, random.Random(f"{options.seed} looked {place}"), VERSION)
        file, tally = folder / f"inside_{place}", folder / "tally"
        for number in range(RUNS_A_FILE):
            came = answer(recording, [*runs.words(place, file, tally), str(looks)][1:])
            begins, _, found = came.output.partition(b"\n")
            right = came.status == 0 and not came.error and begins == b"begins" and found.strip().isdigit()
            amid += int(found) if right else 0
            yield f"from inside, {place}, run {number}, {runs.shape[0]} words", None if right else str(came)
    print(f"looked: {2 * RUNS_A_FILE * looks} looks from inside, {amid} amid a call", flush=True)
    if options.looks >= 1000:
        yield "looks from inside, amid a call", None if amid else "none"


def all_looks(
    recording: pathlib.Path, folder: pathlib.Path, program: pathlib.Path, options: argparse.Namespace
) -> Iterator[Case]:
    yield from looked_often(recording, folder, program, options)
    yield from looked_inside(recording, folder, program, options)


def cases(program: pathlib.Path, options: argparse.Namespace) -> Iterator[Case]:
    return native.cases_of("killed.cpp", lambda recording, folder: all_looks(recording, folder, program, options))
