"""Four threads of a C++ program record into a mapped file until it is killed, at a random moment.

`extract` and `report` then show no bad record and no stop, and each bucket has at most what was begun and at least what
had ended. An image of version 2 is adopted by the next run in the same file, which continues recording and is killed
again, twenty times over.
"""

from __future__ import annotations

import argparse
import collections
import pathlib
import random
import subprocess
from collections.abc import Iterator

from support import bounds, native
from support.program import Case, answer

PROGRAM = "persist_report"
CHAIN = 20


class Chain(bounds.Runs):
    """Runs in one file, each of which is killed."""

    def __init__(
        self, killed: pathlib.Path, program: pathlib.Path, folder: pathlib.Path, chance: random.Random, version: int
    ) -> None:
        super().__init__(killed, program, chance, version)
        self.is_made = False
        self.met: collections.Counter[str] = collections.Counter()
        self.file, self.tally, self.image = (folder / name for name in ("file", "tally", "image"))
        self.file.unlink(missing_ok=True)

    def kill(self) -> str:
        """Runs it and kills it: what it said on its error stream, or nothing."""
        words = self.words("file", self.file, self.tally)
        with subprocess.Popen(words, stdout=subprocess.PIPE, stderr=subprocess.PIPE) as running:
            assert running.stdout is not None and running.stderr is not None
            try:
                running.stdout.read(7)
                self.live()
            finally:
                running.kill()
            return running.stderr.read().decode()

    def wrong(self) -> str | None:
        """What is wrong with what the killed program left, or None."""
        data = self.tally.read_bytes()
        found = answer(self.program, ["extract", self.file, self.image])
        is_none = found.status == 3 or not self.file.exists()
        if is_none and not self.is_made and not any(data):
            self.met["nothing was made"] += 1
            return None
        if (found.output, found.error, found.status) != (b"", b"8\n", 0):
            return f"extract: {found}"
        report = answer(self.program, ["report", self.image])
        if report.status != 0:
            return f"report: {report}"
        self.is_made = True
        units, faults = bounds.units_of(report.output)
        wrong = bounds.wrong_of(units, faults, self.before, data, self.version)
        self.count(units, data, report.output)
        self.before = units
        return wrong

    def count(self, units: bounds.Units, data: bytes, report: bytes) -> None:
        begun, ended = bounds.numbers(data)
        self.met["in the midst of a call"] += begun != ended
        self.met["full"] += b"!flag,full\n" in report
        self.met["units"] += sum(units.values()) - sum(self.before.values())

    def run(self, kills: int) -> str | None:
        """What is wrong after one of a number of kills, or None."""
        for number in range(kills):
            said = self.kill()
            wrong = f"it said {said}" if said else self.wrong()
            if wrong is not None:
                return f"kill {number + 1} of {kills}, {self.shape[0]} words: {wrong}"
        return None


def chains(kills: int) -> Iterator[tuple[int, int]]:
    """The version of each chain and how often its program is killed: of version 1 once, five such after each twenty of
    version 2."""
    while kills > 0:
        for version, length in ((2, CHAIN), *(((1, 1),) * 5)):
            length = min(length, kills)
            kills -= length
            if length > 0:
                yield version, length


def killed_often(
    killed: pathlib.Path, folder: pathlib.Path, program: pathlib.Path, options: argparse.Namespace
) -> Iterator[Case]:
    met: collections.Counter[str] = collections.Counter()
    for number, (version, length) in enumerate(chains(options.kills)):
        chain = Chain(killed, program, folder, random.Random(f"{options.seed} kill {number}"), version)
        yield f"chain {number} of seed {options.seed}, version {version}, {length} kills", chain.run(length)
        met += chain.met
    print(
        f"kills: {options.kills}, of which {met['in the midst of a call']} in the midst of a call, {met['full']} in a "
        f"full segment and {met['nothing was made']} before it was made; {met['units']} units",
        flush=True,
    )
    if options.kills >= 200:
        yield "each kind of kill", None if met["in the midst of a call"] and met["full"] else f"seen were {dict(met)}"


def cases(program: pathlib.Path, options: argparse.Namespace) -> Iterator[Case]:
    return native.cases_of("killed.cpp", lambda killed, folder: killed_often(killed, folder, program, options))
