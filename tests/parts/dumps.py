"""Four threads of a C++ program record into a segment in the heap. It is stopped at random moments, and its memory is
read out.

`extract` finds the segment in that, `report` shows no bad record and no stop, and each bucket has at most what was
begun and at least what had ended. The image of the last stop is adopted by the next run, which continues in its own
heap.

The memory has other segments too: what the segment was made of, and the image that was adopted. These have what was
there before.
"""

from __future__ import annotations

import argparse
import pathlib
import random
import subprocess
import time
from collections.abc import Iterator
from typing import Optional

from support import bounds, memory_dump, native
from support.program import Case, answer, fault, untried

PROGRAM = "persist_report"
CHAINS = 8
RUNS = 5
STOPS = 2
MOST_SECONDS = 300
# What `extract` prints after the last segment.
NO_SEGMENT = fault("NoSegment", 3)

# What is wrong with what a memory has, and nothing more; or None, and the units and the image of what was found there.
Left = tuple[Optional[str], Optional[bounds.Units], Optional[bytes]]


class Chain(bounds.Runs):
    """Runs, each of which continues with the image that was found in the memory of the one before."""

    def __init__(
        self, killed: pathlib.Path, program: pathlib.Path, folder: pathlib.Path, chance: random.Random, version: int
    ) -> None:
        super().__init__(killed, program, chance, version)
        self.image, self.tally, self.dump, self.found = (folder / name for name in ("image", "tally", "dump", "found"))
        self.image.unlink(missing_ok=True)

    def readings(self) -> Iterator[tuple[bounds.Units, list[str], bytes]]:
        """What is read of each segment that is found in the memory, and its image."""
        nth = 1
        while True:
            found = answer(self.program, ["extract", self.dump, self.found, "--nth", str(nth)])
            if found == NO_SEGMENT:
                return
            if found.status != 0:
                raise ChildProcessError(f"extract: {found}")
            report = answer(self.program, ["report", self.found])
            if report.status == 0:
                yield *bounds.units_of(report.output), self.found.read_bytes()
            nth += 1

    def wrong(self) -> Left:
        """What is wrong with what the memory has; or None, and then the units and the image of what was found there."""
        data = self.tally.read_bytes()
        wrong = "no segment stands in the memory"
        for units, faults, image in self.readings():
            this = bounds.wrong_of(units, faults, self.before, data, self.version)
            if this is None:
                return None, units, image
            wrong = f"{wrong}; of one: {this}"
        return wrong, None, None

    def await_first(self, running: memory_dump.Process) -> None:
        """Waits until the process has begun to count."""
        ends = time.monotonic() + MOST_SECONDS
        while not any(self.tally.read_bytes()):
            if running.poll() is not None or time.monotonic() > ends:
                raise ChildProcessError(f"it began to count nothing; its status is {running.returncode}")
            time.sleep(0.001)

    def stops(self, running: memory_dump.Process) -> Left:
        """Stops a process several times: what is wrong after one of them; or None, and then what the last one left."""
        self.await_first(running)
        for _ in range(STOPS):
            self.live()
            memory_dump.stop(running)
            memory_dump.write(running, self.dump)
            wrong, units, image = self.wrong()
            if wrong is not None:
                return wrong, None, None
            memory_dump.go_on(running)
        return None, units, image

    def run(self) -> str | None:
        """What is wrong with one run, or None."""
        words = self.words("heap", self.image, self.tally)
        with subprocess.Popen(words, stdout=subprocess.PIPE) as running:
            assert running.stdout is not None
            try:
                running.stdout.read(7)
                wrong, units, image = self.stops(running)
            except ChildProcessError as why:
                wrong, units, image = str(why), None, None
            finally:
                running.kill()
        if wrong is None and self.version == 2:
            assert units is not None and image is not None
            self.before = units
            self.image.write_bytes(image)
        return wrong


def stopped(
    killed: pathlib.Path, folder: pathlib.Path, program: pathlib.Path, options: argparse.Namespace
) -> Iterator[Case]:
    for number in range(CHAINS):
        version = 1 if number % 4 == 3 else 2
        chain = Chain(killed, program, folder, random.Random(f"{options.seed} dump {number}"), version)
        for run in range(RUNS):
            name = f"chain {number} of seed {options.seed}, version {version}, run {run}, {chain.shape[0]} words"
            yield name, chain.run()


def cases(program: pathlib.Path, options: argparse.Namespace) -> Iterator[Case]:
    if not memory_dump.can_read():
        return iter([untried(memory_dump.NOT_ALLOWED, options)])
    return native.cases_of("killed.cpp", lambda killed, folder: stopped(killed, folder, program, options))
