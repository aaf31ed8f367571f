"""Valid scripts that are generated from a seed: all kinds of histograms, in segments with room to spare for up to 16
workers."""

from __future__ import annotations

import concurrent.futures
import pathlib
import random
import string
import tempfile
from collections.abc import Callable, Collection, Iterable, Iterator
from typing import Any

from support.lanes import processors
from support.layout import GREATEST, LEAST, MOST_UNITS, PAGES
from support.plain_tally import Histogram, Spec
from support.program import Case

MOST_WORKERS = 16
SIGNS = "".join(sign for sign in map(chr, range(0x21, 0x7F)) if sign not in ',"')
NAMES = ["A", "B", "AA", "a", "Z~", "12345678", "123456789", "total", "hist", "\\", "'", "#x", "-1", "a!"]
COUNTS = [1, 1, 1, 2, 3, 65_534, 65_535, 65_536, 70_000]
VALUES = [LEAST, LEAST + 1, -3, -1, 0, 1, 2, 3, 5, 10, GREATEST - 2, GREATEST - 1, GREATEST]

# A sample, (NAME, VALUE, COUNT), or a delta, (NAME,).
ScriptCall = tuple[Any, ...]


class Script:
    """A script: the shape and the id of its segment, its histograms, and its calls.

    A call is a sample, (NAME, VALUE, COUNT), or a delta, (NAME,).
    """

    def __init__(
        self, size: int, page: int, segment_id: int, hists: list[tuple[str, Spec]], calls: list[ScriptCall]
    ) -> None:
        self.size = size
        self.page = page
        self.id = segment_id
        self.hists = hists
        self.calls = calls

    def records(self) -> Iterator[tuple[Any, ...]]:
        """The fields of its records, in order."""
        yield "segment", self.size, self.page, self.id
        for name, spec in self.hists:
            yield "hist", name, *spec
        for name, *sample in self.calls:
            yield ("add", name, *sample) if sample else ("delta", name)

    def histograms(self) -> dict[str, Histogram]:
        """What its samples add up to, by name."""
        return self.tally(self.calls)

    def remainders(self) -> dict[str, Histogram]:
        """What its samples after the last delta of their histogram add up to, by name."""
        last = {call[0]: place for place, call in enumerate(self.calls) if len(call) == 1}
        return self.tally(call for place, call in enumerate(self.calls) if place > last.get(call[0], -1))

    def tally(self, calls: Iterable[ScriptCall]) -> dict[str, Histogram]:
        histograms: dict[str, Histogram] = {}
        for name, spec in self.hists:
            histograms.setdefault(name, Histogram.of(spec))
        for name, *sample in calls:
            if sample:
                histograms[name].add(*sample)
        return histograms


def name_of(chance: random.Random) -> str:
    if chance.random() < 0.7:
        return chance.choice(NAMES)
    length = chance.choice([1, 2, 7, 8, 9, 16, 17, 127, 128])
    return chance.choice(string.ascii_letters) + "".join(chance.choices(SIGNS, k=length - 1))


def custom_of(chance: random.Random) -> Spec:
    others = chance.choice([0, 2, 9, 9, 39, 998])
    values = [chance.choice([0, 1, 3, 7, 100, GREATEST - 1, chance.randrange(GREATEST)]) for _ in range(others)]
    return ("custom", chance.randrange(1, GREATEST), *values)


def linear_of(chance: random.Random) -> Spec:
    least = chance.choice([1, 1, 2, 10, chance.randrange(1, 1_000_000)])
    most = least + chance.choice([1, 2, 9, 99, 1_000, chance.randrange(1, 1_000_000_000)])
    buckets = chance.choice([3, 4, 5, 10, 30, 50, 1_000])
    return "linear", least, most, max(3, min(buckets, most - least + 2))


def spec_of(chance: random.Random) -> Spec:
    kind = chance.choice(["linear", "boolean", "custom", "sparse", "sparse"])
    makers = {"linear": linear_of, "custom": custom_of}
    return makers[kind](chance) if kind in makers else (kind,)


def value_of(chance: random.Random, histogram: Histogram) -> int:
    """A value: one of the ends, one beside a boundary, or any."""
    kind = chance.randrange(3)
    if kind == 0 or (kind == 1 and not histogram.boundaries):
        return chance.choice(VALUES)
    if kind == 1:
        return min(chance.choice(histogram.boundaries) + chance.choice([-1, 0, 1]), GREATEST)
    return chance.randrange(LEAST, GREATEST + 1)


def calls_of(chance: random.Random, histograms: dict[str, Histogram], most: int) -> list[ScriptCall]:
    """Samples and deltas whose counts take no more than `most` units."""
    calls: list[ScriptCall] = []
    for _ in range(chance.choice([0, 1, 2, 5, 17, 40, 80])):
        name = chance.choice(list(histograms))
        if chance.random() < 0.15:
            calls.append((name,))
            continue
        count = min(chance.choice([*COUNTS, chance.randrange(1, 100_000), most if chance.random() < 0.05 else 1]), most)
        if count:
            most -= count
            calls.append((name, value_of(chance, histograms[name]), count))
    return calls


def blocks_of(histograms: dict[str, Histogram], calls: list[ScriptCall]) -> Iterator[int]:
    """The words of the blocks that a segment may need: if several workers make the same block at once, each makes one,
    and one of these is used."""
    for name, one in histograms.items():
        own = len(one.boundaries) - 2 if one.kind == "custom" else 0
        yield 16 + -(-len(name) // 8) + own
        if one.kind == "sparse":
            yield from (
                8 for _ in range(MOST_WORKERS * len({call[1] for call in calls if call[0] == name and call[1:]}))
            )
        else:
            yield from (4 + 2 * (len(one.boundaries) - 1) for _ in range(MOST_WORKERS))


def shape_of(chance: random.Random, histograms: dict[str, Histogram], calls: list[ScriptCall]) -> tuple[int, int]:
    """A shape with room to spare: a page holds four of the largest blocks, and there are pages for twice of all."""
    blocks = [16, *blocks_of(histograms, calls)]
    least = min(page for page in PAGES if page >= min(4 * max(blocks), PAGES[-1]))
    page = chance.choice([least, min(2 * least, PAGES[-1])])
    return page * (2 + 2 * sum(blocks) // page), page


def script_of(chance: random.Random, most: int = MOST_UNITS) -> Script:
    """A valid script whose samples take no more than `most` units."""
    hists = [(name_of(chance), spec_of(chance)) for _ in range(chance.choice([1, 1, 2, 3, 5]))]
    first: dict[str, Spec] = {}
    for name, spec in hists:
        first.setdefault(name, spec)
    hists = [(name, first[name]) for name, _ in hists]
    histograms = {name: Histogram.of(spec) for name, spec in first.items()}
    calls = calls_of(chance, histograms, most)
    segment_id = chance.choice([0, 7, 2**64 - 1, chance.randrange(2**64)])
    size, page = shape_of(chance, histograms, calls)
    return Script(size, page, segment_id, hists, calls)


def field(chance: random.Random, value: Any) -> str:
    """A field as a script may write it: in quotes, or a number with zeros before it, or as it is."""
    text = str(value)
    if isinstance(value, int) and chance.random() < 0.1:
        text = "-" * (value < 0) + chance.choice(["0", "000"]) + str(abs(value))
    return f'"{text}"' if chance.random() < 0.1 else text


def text_of(chance: random.Random, script: Script) -> bytes:
    """The bytes of a script, whose lines end in one of the valid ways and may have empty lines between them."""
    end = chance.choice(["\n", "\n", "\r\n", "\r"])
    lines = [",".join(field(chance, value) for value in record) + end for record in script.records()]
    lines = [line + end * chance.choice([0, 0, 0, 0, 1]) for line in lines]
    mark = b"\xef\xbb\xbf" if chance.random() < 0.05 else b""
    text = "".join(lines)
    return mark + (text.rstrip(end) if chance.random() < 0.3 else text).encode()


def tried(
    seeds: Collection[str], wrong_of: Callable[[str, pathlib.Path], str | None]
) -> Iterator[Case]:
    """Each seed with what is wrong with it, or None: tried side by side, in one folder that is gone after the last."""
    with tempfile.TemporaryDirectory() as scratch, concurrent.futures.ThreadPoolExecutor(processors()) as pool:
        folder = pathlib.Path(scratch)
        yield from zip(seeds, pool.map(lambda seed: wrong_of(seed, folder), seeds))
