"""Threads that record beside one another: the report is what a plain tally of their samples and batches says, and all
deltas of a histogram, the last among them, add up to it.

The program prints the samples and batches that were accepted, what each delta and snapshot was answered, what threads
read of the whole segment meanwhile and saw in looks at it, and the report of the image. It is built with checks and
without any proof (laid.py). Its threads are those of the system: two that share a cursor both have to be given records
in some round.
"""

from __future__ import annotations

import argparse
import collections
import pathlib
import tempfile
from collections.abc import Callable, Iterable, Iterator, Sequence
from typing import NamedTuple

from support import laid, plain_tally, tries
from support.program import Answer, Case

PROGRAM = None
# The program in Rattle (tests/rattle) that records.
RECORDED = "recorded"
THREADS = (2, 3, 4, 8, 16)
ROUNDS = 200
RECORDS = 1_000
# An answer of `rt try` has less than 1 MiB. A round has some 7 KB for each thread, and one of a shared cursor 16 KB.
MOST_THREADS_TOGETHER = 96
MOST_WALKS = 40
# The lines of a run, each of which has to come in some round.
LINES = {"thread", "sample", "batch", "delta", "snapshot", "read", "look", "histogram", "report"}
# Keys or values with their units; a name, a value and its count; a name, what is added to the sum, and items.
Pairs = list[tuple[int, int]]
Sample = tuple[str, int, int]
Batch = tuple[str, int, Pairs]

SPECS: dict[str, plain_tally.Spec] = {
    "boolean": ("boolean",), "custom": ("custom", 10, 100, 1000), "linear": ("linear", 1, 100, 20),
    "sparse": ("sparse",),
}


class Read:
    """What a thread read of the whole segment, or saw in a look at it, and after how many of its own samples and
    batches: what was wrong, and of each histogram its name, its redundant count and its units."""

    def __init__(self, samples: int, batches: int) -> None:
        self.samples = samples
        self.batches = batches
        self.faults: list[str] = []
        self.found: list[tuple[str, int, Pairs]] = []


class Thread:
    """What a round printed of one thread: its samples and batches, what it read, and its looks."""

    def __init__(self) -> None:
        self.samples: list[Sample] = []
        self.batches: list[Batch] = []
        self.reads: list[Read] = []
        self.looks: list[Read] = []


class Round:
    """What one round printed."""

    def __init__(self, lines: Sequence[str]) -> None:
        self.samples: list[Sample] = []
        self.batches: list[Batch] = []
        self.deltas: dict[str, list[tuple[int, Pairs]]] = collections.defaultdict(list)
        self.snapshots: dict[str, list[tuple[int, Pairs]]] = collections.defaultdict(list)
        self.threads: list[Thread] = []
        self.last = Read(0, 0)
        self.report: list[str] = []
        kinds: dict[str, Callable[..., None]] = {
            "sample": self.sample, "batch": self.batch, "delta": self.delta, "snapshot": self.snapshot,
            "thread": self.thread, "read": self.read, "look": self.look, "fault": self.fault,
            "histogram": self.histogram,
        }
        for place, line in enumerate(lines):
            kind, *fields = line.split(",")
            if kind == "report":
                self.report = [*lines[place + 1:]]
                break
            kinds[kind](*fields)

    def thread(self) -> None:
        self.threads.append(Thread())

    def sample(self, name: str, value: str, count: str) -> None:
        self.samples.append((name, int(value), int(count)))
        self.threads[-1].samples.append(self.samples[-1])

    def batch(self, name: str, total: str, *items: str) -> None:
        self.batches.append((name, int(total), pairs(items)))
        self.threads[-1].batches.append(self.batches[-1])

    def read(self, samples: str, batches: str) -> None:
        self.last = Read(int(samples), int(batches))
        self.threads[-1].reads.append(self.last)

    def look(self, samples: str, batches: str) -> None:
        self.last = Read(int(samples), int(batches))
        self.threads[-1].looks.append(self.last)

    def fault(self, fault: str) -> None:
        self.last.faults.append(fault)

    def histogram(self, name: str, total: str, redundant: str, *units: str) -> None:
        self.last.found.append((name, int(redundant), pairs(units)))

    def delta(self, name: str, total: str, *units: str) -> None:
        self.deltas[name].append((int(total), pairs(units)))

    def snapshot(self, name: str, total: str, redundant: str, *units: str) -> None:
        self.snapshots[name].append((int(redundant), pairs(units)))


def pairs(fields: Iterable[str]) -> Pairs:
    """Keys or values with their units, in the order in which they were printed."""
    numbers = [int(field) for field in fields]
    if len(numbers) % 2:
        raise ValueError(f"no pairs: {numbers}")
    return list(zip(numbers[::2], numbers[1::2]))


def tally(samples: Iterable[Sample], batches: Iterable[Batch]) -> dict[str, plain_tally.Histogram]:
    """What they add up to: a sample adds its value as often as it has units, a batch its sum.

    All four histograms were made, even if nothing was recorded into them.
    """
    histograms = {name: plain_tally.Histogram.of(spec) for name, spec in SPECS.items()}
    for name, value, count in samples:
        histograms[name].add(value, count)
    for name, total, items in batches:
        for value, count in items:
            histograms[name].take({histograms[name].key(value): count}, 0)
        histograms[name].take({}, total)
    return histograms


def wrong_deltas(name: str, deltas: Sequence[tuple[int, Pairs]], tallied: plain_tally.Histogram) -> str | None:
    taken: collections.Counter[int] = collections.Counter()
    for _, units in deltas:
        keys = [low for low, _ in units]
        if keys != sorted(set(keys)) or not all(count > 0 for _, count in units):
            return f"a delta of {name} has {units}"
        taken.update(dict(units))
    if taken != tallied.counts or sum(amount for amount, _ in deltas) != tallied.sum:
        return f"the deltas of {name} take {taken}, and the samples are {tallied.counts}"
    return None


def wrong_snapshots(name: str, snapshots: Iterable[tuple[int, Pairs]], tallied: plain_tally.Histogram) -> str | None:
    for redundant, units in snapshots:
        keys = [low for low, _ in units]
        if keys != sorted(set(keys)) or (name != "sparse" and keys != tallied.boundaries[:-1]):
            return f"a snapshot of {name} has the keys {keys}"
        if redundant > sum(tallied.counts.values()) or any(count > tallied.counts[low] for low, count in units):
            return f"a snapshot of {name} saw {units}, and the samples are {tallied.counts}"
    return None


def wrong_reads(
    thread: Thread, reads: Iterable[Read], histograms: dict[str, plain_tally.Histogram], counts_rise: bool
) -> str | None:
    """What is wrong with what a thread read, or None: no fault, each histogram is there once, and each bucket has at
    most the units of all threads, at least those of its own samples and batches before, and no less than it read
    before. In a segment of version 1 units may be on their way from one word to another, so the last two need not
    hold."""
    before: dict[str, collections.Counter[int]] = {name: collections.Counter() for name in SPECS}
    for read in reads:
        if read.faults or sorted(name for name, _, _ in read.found) != sorted(SPECS):
            return f"a thread read {[name for name, _, _ in read.found]}, with the faults {read.faults}"
        accepted = tally(thread.samples[:read.samples], thread.batches[:read.batches])
        for name, redundant, units in read.found:
            wrong = wrong_snapshots(name, [(redundant, units)], histograms[name])
            own, now = accepted[name].counts, collections.Counter(dict(units))
            if wrong is None and counts_rise and (own - now or before[name] - now):
                wrong = f"a thread read {now} of {name}, had counted {own} and read {before[name]} before"
            if wrong is not None:
                return wrong
            before[name] = now
    return None


def wrong_looks(thread: Thread, histograms: dict[str, plain_tally.Histogram], version: int) -> str | None:
    """What is wrong with the looks of a thread, or None: what may be wrong with what it read; and there is none at a
    segment of version 1."""
    if version == 2:
        return wrong_reads(thread, thread.looks, histograms, True)
    came = [look.faults for look in thread.looks if look.faults != ["OldVersion"] or look.found]
    return f"looks at a segment of version 1 have the faults {came}" if came else None


def wrong_thread(thread: Thread, histograms: dict[str, plain_tally.Histogram], version: int) -> str | None:
    """What is wrong with what a thread saw of the whole segment, or None."""
    wrong = wrong_reads(thread, thread.reads, histograms, version == 2)
    return wrong or wrong_looks(thread, histograms, version)


def wrong_round(lines: Sequence[str], version: int, threads: int) -> str | None:
    """What is wrong with a round of threads in a segment of a version, or None. Each of them has recorded something."""
    done = Round(lines)
    busy = sum(bool(thread.samples and thread.batches) for thread in done.threads)
    if len(done.threads) != threads or busy != threads:
        return f"of {threads} threads came {len(done.threads)}, and {busy} had samples and batches accepted"
    histograms = tally(done.samples, done.batches)
    wanted = plain_tally.report(histograms).decode().splitlines()
    if done.report != wanted:
        return f"the report is {done.report}, and the samples and batches are {wanted}"
    for name, tallied in histograms.items():
        wrong = wrong_deltas(name, done.deltas[name], tallied)
        wrong = wrong or wrong_snapshots(name, done.snapshots[name], tallied)
        if wrong is not None:
            return wrong
    return next(filter(None, (wrong_thread(thread, histograms, version) for thread in done.threads)), None)


class Rounds(NamedTuple):
    """Rounds that are checked together: of how many threads, from which seed on and how many. With a limit, the indexes
    of each recorder have at most that many entries."""

    threads: int
    seed: int
    number: int = ROUNDS
    limit: int | None = None

    def commands(self) -> list[list[str]]:
        """The words that run them, as many of them together as one answer holds."""
        most = max(1, MOST_THREADS_TOGETHER // self.threads)
        end = [] if self.limit is None else [self.limit]
        lots = [(first, min(most, self.number - first)) for first in range(0, self.number, most)]
        return [["record", *map(str, (self.threads, self.seed, *lot, *end))] for lot in lots]


def walks() -> list[list[str]]:
    """The words that run the rounds of a shared cursor."""
    lots = [(first, min(MOST_WALKS, ROUNDS - first)) for first in range(0, ROUNDS, MOST_WALKS)]
    return [["walk", *map(str, (2, RECORDS, *lot))] for lot in lots]


def rounds(came: Iterable[Answer]) -> tuple[list[list[str]], str | None]:
    """The lines of each round, of which the first says its number, or what came in place of them."""
    every: list[list[str]] = []
    for one in came:
        if one.status != 0 or one.error:
            return [], f"status {one.status}, {one.error[-500:]!r}"
        lines = one.output.decode().splitlines()
        starts = [place for place, line in enumerate(lines) if line.startswith("round,")]
        every += [lines[start:end] for start, end in zip(starts, [*starts[1:], len(lines)])]
    return every, None


def wrong_heads(every: Sequence[Sequence[str]], wanted: Sequence[str]) -> str | None:
    """What is wrong with the first lines of rounds, or None."""
    if len(every) != len(wanted):
        return f"{len(every)} rounds came of {len(wanted)}"
    pairs = ((lines[0], head) for lines, head in zip(every, wanted))
    return next((f"a round began with {came}, wanted {head}" for came, head in pairs if came != head), None)


def wrong_rounds(asked: Rounds, came: Iterable[Answer]) -> str | None:
    """What is wrong with rounds, or None. The version follows the number of the round."""
    every, wrong = rounds(came)
    wrong = wrong or wrong_heads(every, [f"round,{place},{1 + place % 2}" for place in range(asked.number)])
    if wrong is not None:
        return wrong
    never = LINES - {line.split(",")[0] for lines in every for line in lines}
    if never:
        return f"no round has the lines {sorted(never)}"
    checked = (wrong_round(lines[1:], 1 + place % 2, asked.threads) for place, lines in enumerate(every))
    return next(filter(None, checked), None)


def wrong_walks(came: Iterable[Answer]) -> str | None:
    """What is wrong with rounds of two threads that share a cursor, or None: they are given each record once between
    them, each in the order of the list."""
    every, wrong = rounds(came)
    wrong = wrong or wrong_heads(every, [f"round,{place}" for place in range(ROUNDS)])
    if wrong is not None:
        return wrong
    by_both = 0
    for _, *lines in every:
        given = [tuple(map(int, line.split(",")[1:])) for line in lines]
        by_both += {thread for thread, _ in given} == {0, 1}
        for thread in (0, 1):
            own = [reference for one, reference in given if one == thread]
            if own != sorted(own):
                return f"thread {thread} was given {own}"
        # Boolean histograms with names of up to eight bytes take 16 words each.
        if sorted(reference for _, reference in given) != [16 + 16 * i for i in range(RECORDS)]:
            return f"given were {given}"
    return "in no round both threads were given records" if by_both == 0 else None


def answered(lots: Sequence[Sequence[Sequence[str]]]) -> list[list[Answer]]:
    """What the program answers to each lot of command lines."""
    every = [words for lot in lots for words in lot]
    with laid.repository([RECORDED]) as root, tempfile.TemporaryDirectory() as folder:
        came = iter(tries.answers_side_by_side(RECORDED, every, pathlib.Path(folder).resolve(), root))
        return [[next(came) for _ in lot] for lot in lots]


def cases(_program: None, options: argparse.Namespace) -> Iterator[Case]:
    asked = [Rounds(threads, options.seed) for threads in THREADS]
    *came, walked = answered([*(one.commands() for one in asked), walks()])
    for one, answers in zip(asked, came):
        yield f"{one.threads} threads, {ROUNDS} rounds", wrong_rounds(one, answers)
    yield f"a shared cursor, {ROUNDS} rounds", wrong_walks(walked)
