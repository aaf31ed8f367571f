"""Why an image may not be adopted, and what it has used: a plain slow calculation, written apart from the program.

It follows the text of the format one sentence at a time. It reads by the plain reader, and shares nothing with the
program.
"""

from __future__ import annotations

import collections
import struct
from collections.abc import Iterable, Iterator

from support.layout import HISTOGRAM, MOST_UNITS, NAME, QUEUE, SAMPLE, SPARSE, TOP, VERSION_FROZEN
from support.plain_reader import (
    ImageFault,
    ReadHistogram,
    Seen,
    Words,
    check_header,
    name_of,
    read_records,
    walk,
)

AMOUNT_OF_UNIT = 2**31
MOST_CURSORS = 8

# What makes an image damaged, in no order: any of these does.
LISTED = """
a list that stops; a bad record; two records overlap; a record and counts overlap; counts overlap
a word after the free pointer; too little room after the free pointer; a tail that is not on the list
a later sample with a count; a later sample with a mark; a name that is not padded
counts that are not in use; marks that are not in use; a mark of the packed bucket on its counts
"""
DAMAGES = [damage.strip() for damage in LISTED.replace("\n", ";").split(";") if damage.strip()]


class Read:
    """What the words of an image with a valid header read as."""

    def __init__(self, words: Words) -> None:
        nothing: Seen = collections.Counter()
        self.words = words
        self.references, self.stopped = walk(words, nothing)
        self.histograms, self.bad = read_records(words, self.references, nothing)

    def of_type(self, number: int) -> list[int]:
        return [at for at in self.references if self.words[at + 2] == number]

    def counts(self) -> list[int]:
        """The blocks that records of histograms name as counts, as often as they are named."""
        return [self.words[at + 8] for at in self.of_type(HISTOGRAM) if self.words[at + 8]]


def shares_a_word(words: Words, some: Iterable[int], others: Iterable[int]) -> bool:
    """Whether a block of the ones and a block of the others have a word in common, these being other blocks."""
    taken = {word for at in others for word in range(at, at + words[at])}
    return any(word in taken for at in some for word in range(at, at + words[at]))


def overlaps_itself(words: Words, blocks: Iterable[int]) -> bool:
    taken = [word for at in blocks for word in range(at, at + words[at])]
    return len(taken) != len(set(taken))


def damages_of_blocks(read: Read) -> Iterator[str]:
    words, counts = read.words, read.counts()
    if overlaps_itself(words, read.references):
        yield "two records overlap"
    if shares_a_word(words, counts, read.references):
        yield "a record and counts overlap"
    if overlaps_itself(words, counts):
        yield "counts overlap"


def damages_of_ends(read: Read) -> Iterator[str]:
    words = read.words
    page, free, tail = words[3], words[7], words[8]
    if any(words[free:]):
        yield "a word after the free pointer"
    if 1 <= -free % page <= 4:
        yield "too little room after the free pointer"
    if tail not in (QUEUE, *read.references):
        yield "a tail that is not on the list"


def damages_of_samples(read: Read) -> Iterator[str]:
    words = read.words
    met: set[tuple[int, int]] = set()
    for at in read.of_type(SAMPLE):
        key = words[at + 4], words[at + 5]
        if key in met:
            if words[at + 6]:
                yield "a later sample with a count"
            if words[at + 7]:
                yield "a later sample with a mark"
        met.add(key)


def damages_of_record(words: Words, at: int) -> Iterator[str]:
    """Those of the record of a histogram."""
    name = name_of(words, at, collections.Counter())
    padded = struct.pack(f"<{-(-len(name) // 8)}Q", *words[at + NAME : at + NAME + -(-len(name) // 8)])
    if any(padded[len(name):]):
        yield "a name that is not padded"
    kind, n, counts, single = words[at + 4], words[at + 7], words[at + 8], words[at + 9]
    if kind == SPARSE or counts == 0:
        return
    first_mark = counts + 4 + n
    if single < TOP and any(words[counts + 4 : first_mark]):
        yield "counts that are not in use"
    if single < TOP and any(words[first_mark : first_mark + n]):
        yield "marks that are not in use"
    if single not in (0, TOP) and words[first_mark + single % TOP // 2**32]:
        yield "a mark of the packed bucket on its counts"


def damages_of(read: Read) -> list[str]:
    """All that makes an image damaged. Where its reading has a fault, nothing else is looked at."""
    found = ["a list that stops"] * (read.stopped is not None) + ["a bad record"] * bool(read.bad)
    if found:
        return found
    found += [*damages_of_blocks(read), *damages_of_ends(read), *damages_of_samples(read)]
    for at in read.of_type(HISTOGRAM):
        found += damages_of_record(read.words, at)
    return found


def used_by(histogram: ReadHistogram) -> int:
    """The units that a histogram has used."""
    units = sum(count for _, count in histogram["buckets"].values())
    amounts = histogram["sum"], histogram["sum mark"], histogram["sum"] - histogram["sum mark"]
    return max(units, histogram["redundant"], *(-(-abs(amount) // AMOUNT_OF_UNIT) for amount in amounts))


def used_of(read: Read) -> int:
    return sum(used_by(histogram) for histogram in read.histograms.values())


def fault_of(words: Words, cursors: int, seen: collections.Counter[str | None]) -> str | None:
    """The fault by which words may not be adopted, or None. `seen` counts the faults, and what made images damaged."""
    fault, damages = found_in(words, cursors)
    seen[fault] += 1
    seen.update(damages)
    return fault


def found_in(words: Words, cursors: int) -> tuple[str | None, list[str]]:
    try:
        check_header(words, collections.Counter())
    except ImageFault as fault:
        return str(fault), []
    if words[1] != VERSION_FROZEN:
        return "OldVersion", []
    if words[6] & 1:
        return "Corrupt", []
    read = Read(words)
    damages = damages_of(read)
    if damages:
        return "Damaged", damages
    if used_of(read) > MOST_UNITS:
        return "NoUnits", []
    return ("BadCursors" if cursors > MOST_CURSORS else None), []
