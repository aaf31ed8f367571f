"""Builds programs that record bursts of samples, and runs them by turns. Each takes FORM SHARING THREADS BURSTS
(record.cpp) and prints picoseconds."""

from __future__ import annotations

import argparse
import os
import pathlib
import statistics
import subprocess
import time
from collections.abc import Sequence
from typing import NamedTuple, Union

HERE = pathlib.Path(__file__).resolve().parent
RUNS = [(form, sharing, threads) for form in ("packed", "mounted")
        for sharing, threads in (("shared", 1), ("shared", 2), ("shared", 4), ("own", 4))]
MOST_THREADS = max(threads for _, _, threads in RUNS)

Path = Union[str, pathlib.Path]
# The first words of a command line.
Words = list[Path]


def compiled(folder: Path, name: str, *words: str) -> Words:
    """The program of a source in this folder, compiled into `folder`."""
    program = pathlib.Path(folder) / name
    subprocess.run(["c++", "-std=c++17", "-O2", "-pthread", "-o", program, HERE / f"{name}.cpp", *words], check=True)
    return [program]


def nanoseconds(program: Words, run: Sequence[object], bursts: int, processor: int | None = None) -> float:
    """The nanoseconds per sample in one turn, on any processors or on one."""
    place = [] if processor is None else ["taskset", "--cpu-list", str(processor)]
    words = [*place, *program, *map(str, run), str(bursts)]
    return int(subprocess.run(words, check=True, capture_output=True, text=True).stdout.splitlines()[-1]) / 1000


class Figures(NamedTuple):
    """What programs took: the nanoseconds per sample of each, turn by turn."""

    turns: list[list[float]]

    def least(self) -> list[float]:
        """The least of each program."""
        return [min(times) for times in zip(*self.turns)]

    def ratio(self, one: int, other: int) -> float:
        """How many times as long as the other program the first takes: the middle of the ratios of all turns."""
        return statistics.median(turn[one] / turn[other] for turn in self.turns)

    def difference(self, one: int, other: int) -> float:
        """How many nanoseconds longer than the other program the first takes: the middle of the differences."""
        return statistics.median(turn[one] - turn[other] for turn in self.turns)


def by_turns(
    programs: Sequence[Words], run: Sequence[object], options: argparse.Namespace, threads: int, seconds: float = 0
) -> Figures:
    """What the programs take, each once a turn. If others use the machine too, a processor can be a third slower than
    the next, for seconds: so programs are compared within a turn, which takes less. A single thread has `turns` turns
    on each processor, and several threads have four times `turns`; more, if these take less than `seconds`."""
    own: list[int | None] = [*sorted(os.sched_getaffinity(0))]
    processors = own if threads == 1 else [None] * 4
    turns: list[list[float]] = []
    end = time.perf_counter() + seconds
    while len(turns) < len(processors) * options.turns or time.perf_counter() < end:
        processor = processors[len(turns) % len(processors)]
        turns.append([nanoseconds(program, run, options.bursts, processor) for program in programs])
    return Figures(turns)
