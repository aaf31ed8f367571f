"""Worked examples of images: what is stored in the words of one, or where its bytes are cut, and the answer that then
has to come."""

from __future__ import annotations

import argparse
import pathlib
from collections.abc import Iterable, Iterator, Mapping

from support.layout import (
    BLOCK_COOKIE, FLAGS, FREE, FROZEN, NOTHING_PACKED, STATE, TAIL, TOP, VERSION, Words, data_of, with_words, words_of,
)
from support.program import EXAMPLE, Answer, Case, answer, difference, fault

PROGRAM = "persist_report"
# More words of the header; and those of a record at 16, with its counts at 32.
COOKIE, SIZE, PAGE, QUEUE_COOKIE, QUEUE_NEXT = 0, 2, 3, 13, 15
KIND, BUCKETS, COUNTS_REFERENCE, SINGLE, SINGLE_MARK, SUM, SUM_MARK, REDUNDANT, NAME_LENGTH, NAME = (
    20, 23, 24, 25, 26, 27, 28, 29, 30, 31,
)
COUNTS = 36

# A new segment.
BLANK = list(Words(128, 64).words)
# It has the boolean histogram A without samples.
FRESH = {
    FREE: 32, TAIL: 16, QUEUE_NEXT: 16, 16: 16, 17: BLOCK_COOKIE, 18: 1, 19: 12, KIND: 2, 21: 1, 22: 2, BUCKETS: 3,
    NAME_LENGTH: 1, NAME: 65,
}
# It has the sparse histogram S with two samples -5, by the block at 32, and one sample 7, by the block at 40.
SPARSE = {
    **FRESH, FREE: 48, TAIL: 40, 19: 32, KIND: 4, 21: 0, 22: 0, BUCKETS: 0, SUM: -3, REDUNDANT: 3, NAME: 83,
    32: 8, 33: BLOCK_COOKIE, 34: 3, 35: 40, 36: 16, 37: -5, 38: 2,
    40: 8, 41: BLOCK_COOKIE, 42: 3, 43: 12, 44: 16, 45: 7, 46: 1,
}
# It has the boolean histograms A and B with one block of counts for both.
SHARED_COUNTS = {
    **FRESH, FREE: 58, TAIL: 32, 19: 32, COUNTS_REFERENCE: 48, SINGLE: NOTHING_PACKED,
    32: 16, 33: BLOCK_COOKIE, 34: 1, 35: 12, 36: 2, 37: 1, 38: 2, 39: 3, 40: 48, 41: NOTHING_PACKED, 46: 1, 47: 66,
    48: 10, 49: BLOCK_COOKIE, 50: 2, 52: 1,
}

# The example has the boolean histogram A with the samples 1, 1 and 0; the record is at 16, its counts at 32.
VERSION_2 = {
    "two units frozen, one counted": (
        {VERSION: 2, SINGLE: FROZEN + 2**32 + 2, COUNTS: 1, COUNTS + 1: 0},
        Answer(b"A,boolean,0,1,1\nA,boolean,1,2,2\nA,total,3,2\n"),
    ),
    "stopped after the freezing": (
        {VERSION: 2, SINGLE: FROZEN + 2**32 + 2, COUNTS: 0, COUNTS + 1: 0, SUM: 2, REDUNDANT: 2},
        Answer(b"A,boolean,1,2,2\nA,total,2,2\n"),
    ),
    "frozen while it was empty": (
        {VERSION: 2, SINGLE: FROZEN, COUNTS: 0, COUNTS + 1: 70_000, SUM: 70_000, REDUNDANT: 70_000},
        Answer(b"A,boolean,1,2,70000\nA,total,70000,70000\n"),
    ),
    "frozen at the greatest number of units": (
        {VERSION: 2, SINGLE: FROZEN + 2**32 + 65_535, COUNTS: 0, COUNTS + 1: 1, SUM: 65_536, REDUNDANT: 65_536},
        Answer(b"A,boolean,1,2,65536\nA,total,65536,65536\n"),
    ),
    "one unit of the first bucket frozen": (
        {VERSION: 2, SINGLE: FROZEN + 1, COUNTS: 0, COUNTS + 1: 0, SUM: 0, REDUNDANT: 1},
        Answer(b"A,boolean,0,1,1\nA,total,1,0\n"),
    ),
    "frozen without counts": (
        {VERSION: 2, SINGLE: FROZEN + 1, COUNTS_REFERENCE: 0},
        Answer(b"!bad,16,BadSingle\n"),
    ),
}

# Two units were taken off the single word, and not added to the counts yet.
IN_TRANSIT = {SINGLE: TOP + 1, COUNTS: 0, COUNTS + 1: 0, SUM: 2, REDUNDANT: 2}

# What is stored in the words of the example, each alone, and the fault of its record.
BAD_RECORDS = [
    ({KIND: 5}, "BadKind"),
    ({NAME_LENGTH: 0}, "BadName"),
    ({NAME_LENGTH: 65}, "BadName"),
    ({NAME_LENGTH: 129}, "BadName"),
    ({NAME: 33}, "BadName"),
    ({BUCKETS: 4}, "BadSpec"),
    ({COUNTS_REFERENCE: 13}, "BadCounts"),
    ({COUNTS_REFERENCE: 16}, "BadCounts"),
    ({COUNTS: 2**32}, "BadCounts"),
    ({SINGLE: TOP + 3}, "BadSingle"),
    ({SINGLE: 65_536}, "BadSingle"),
    ({SINGLE: NOTHING_PACKED, SINGLE_MARK: 1}, "BadMark"),
    ({SINGLE_MARK: 65_536}, "BadMark"),
    ({COUNTS + 3: 2}, "BadMark"),
    ({SUM: 2**63 - 1}, "BadSum"),
]

# What is stored in the words of a new segment, and the fault of its header.
BAD_HEADERS = [
    ({COOKIE: 0}, "BadCookie"),
    ({VERSION: 3}, "BadVersion"),
    ({PAGE: 60}, "BadPage"),
    ({SIZE: 64}, "BadSize"),
    ({STATE: 0}, "NotReady"),
    ({STATE: 2}, "Deleted"),
    ({FREE: 15}, "BadFree"),
    ({FREE: 129}, "BadFree"),
    ({QUEUE_COOKIE: 0}, "BadQueue"),
]

# What is stored in the words of a segment that has A without samples, and the report.
LISTS: list[tuple[dict[int, int], bytes]] = [
    ({}, b"A,total,0,0\n"),
    ({TAIL: 12}, b"A,total,0,0\n"),
    ({19: 16}, b"A,total,0,0\n!stopped,Loop\n"),
    ({QUEUE_NEXT: 13}, b"!stopped,BadRef\n"),
    ({QUEUE_NEXT: 32}, b"!stopped,BadRef\n"),
    ({17: 0}, b"!stopped,BadBlock\n"),
    ({FLAGS: 1}, b"A,total,0,0\n!flag,corrupt\n"),
]

# What is stored in the first sample of S, each alone.
BAD_SAMPLES = [{38: 2**32}, {37: 2**31}, {39: 3}, {36: 40}]


def stored_in(words: Iterable[int], *changes: Mapping[int, int]) -> bytes:
    """The bytes of words in which other words are stored."""
    return with_words(data_of(words), *changes)


def example() -> Iterable[int]:
    return words_of(EXAMPLE.read_bytes())


def told(stored: Mapping[int, int]) -> str:
    return " ".join(f"[{at}] = {word}" for at, word in stored.items()) or "as it is"


def images() -> Iterator[tuple[str, bytes, Answer]]:
    """The images that are changed, each with its name and what has to be answered."""
    for name, (stored, wanted) in VERSION_2.items():
        yield name, stored_in(example(), stored), wanted
    yield "two units in transit", stored_in(example(), IN_TRANSIT), Answer(b"A,total,0,2\n!redundant,A,2\n")
    for stored, wrong in BAD_RECORDS:
        yield f"record {told(stored)}", stored_in(example(), stored), Answer(f"!bad,16,{wrong}\n".encode())
    for stored, wrong in BAD_HEADERS:
        yield f"header {told(stored)}", stored_in(BLANK, stored), fault(f"Image {wrong}", 3)
    for stored, report in LISTS:
        yield f"list {told(stored)}", stored_in(BLANK, FRESH, stored), Answer(report)
    yield "sparse", stored_in(BLANK, SPARSE), Answer(b"S,sparse,-5,-4,2\nS,sparse,7,8,1\nS,total,3,-3\n")
    for stored in BAD_SAMPLES:
        report = b"S,sparse,7,8,1\nS,total,1,-3\n!redundant,S,3\n!bad,32,BadSample\n"
        yield f"sample {told(stored)}", stored_in(BLANK, SPARSE, stored), Answer(report)
    report = b"A,boolean,0,1,1\nA,total,1,0\nB,boolean,0,1,1\nB,total,1,0\n!redundant,A,0\n!redundant,B,0\n"
    yield "one block of counts for two", stored_in(BLANK, SHARED_COUNTS), Answer(report)
    yield "a header alone", stored_in(BLANK[:16]), fault("Image BadSize", 3)


def cuts() -> Iterator[tuple[str, bytes, Answer]]:
    """The example cut at each length, and what has to be answered."""
    data = EXAMPLE.read_bytes()
    for length in range(len(data)):
        wrong = "NotWords" if length % 8 else "Image TooShort" if length < 128 else "Image BadSize"
        yield f"cut at {length}", data[:length], fault(wrong, 3)


def cases(program: pathlib.Path, _options: argparse.Namespace) -> Iterator[Case]:
    for name, data, wanted in (*images(), *cuts()):
        yield name, difference(wanted, answer(program, ["report"], data))
