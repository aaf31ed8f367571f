"""Worked looks at a segment of 64 words with a linear histogram at 16, its counts at 32 and a sample at 42, by hand.

Word i of copy k is 1000 k + i if nothing else is said, so each word of a look shows from which copy it comes.
"""

from __future__ import annotations

from collections.abc import Iterator, Mapping

from support.layout import FREE, FROZEN, SEGMENT_COOKIE

SIZE = 64
# Words that have other values, by their indices.
Others = Mapping[int, int]
NONE: Others = {}

HEADER = {0: SEGMENT_COOKIE, 1: 2, 2: SIZE, 3: SIZE, 4: 7, 5: 1, 7: 50, 8: 16, 12: 4, 13: 1, 15: 16}
ONE = {7: 32, 8: 12, 15: 12}
TWO = {19: 42, 24: 32, 25: FROZEN, 45: 12}
THREE = {18: 1, 19: 42, 23: 3, 24: 32, 25: FROZEN, 34: 2, 44: 3, 45: 50}

# What a look has of the histogram's fields, counts and marks, and of the sample, if both are on the list.
FIELDS = {26: 1026, 27: 2027, 28: 1028, 29: 1029}
COUNTS = {36: 2036, 37: 2037, 38: 2038}
NO_COUNTS = {36: 0, 37: 0, 38: 0}
MARKS = {39: 1039, 40: 1040, 41: 1041}
SAMPLE = {8: 42, 45: 12, 48: 2048, 49: 1049}
ENDED = {19: 12}

# The words of the second and of the third copy that differ from the above, and those of the look that differ from the
# third copy.
LOOKS: dict[str, tuple[Others, Others, Others]] = {
    "at rest": ({}, {}, {**FIELDS, **COUNTS, **MARKS, **SAMPLE}),
    "counts that came into use between the loads of their reference and of the single word": (
        {24: 0}, {}, {**FIELDS, **COUNTS, **MARKS, **SAMPLE},
    ),
    "counts that were not in use when the single word was loaded": (
        {25: 7}, {}, {25: 7, **FIELDS, **NO_COUNTS, **MARKS, **SAMPLE},
    ),
    "a sample that was linked after the load of the next before it": (
        {19: 12}, {}, {**FIELDS, **COUNTS, **MARKS, **ENDED},
    ),
    "a next that was not stored yet": ({19: 0}, {}, {**FIELDS, **COUNTS, **MARKS, **ENDED}),
    "no record yet": ({15: 12}, {}, {8: 12, 15: 12}),
    # The first record has its first next, and the tail comes after as many records as fit.
    "a circle": ({45: 16}, {}, {**FIELDS, **COUNTS, **MARKS, **SAMPLE, 8: 16, 45: 16}),
    "too many buckets": ({}, {23: 1001}, SAMPLE),
    "counts in the header": ({24: 15}, {}, SAMPLE),
    "counts and a sample that pass the free pointer": ({}, {7: 41}, {8: 16, **ENDED}),
    # The first of the two records decides.
    "one block of counts for two records": (
        {50: 32, 51: 7},
        {7: 58, 44: 1, 49: 2},
        {**FIELDS, **COUNTS, **MARKS, 8: 42, 45: 12, 50: 32, 51: 7, 52: 1052, 53: 2053, 54: 1054, 55: 1055},
    ),
}


def with_others(words: list[int], others: Others) -> list[int]:
    return [others.get(place, word) for place, word in enumerate(words)]


def copy(number: int, *others: Others) -> list[int]:
    """The words of a copy, with others."""
    words = with_others([0] * 16 + [1000 * number + place for place in range(16, SIZE)], HEADER)
    for more in others:
        words = with_others(words, more)
    return words


def copies(second: Others = NONE, third: Others = NONE) -> list[list[int]]:
    """The three copies, with others in the second and in the third."""
    return [copy(1, ONE), copy(2, TWO, second), copy(3, THREE, third)]


def looks() -> Iterator[tuple[str, list[list[int]], list[int]]]:
    """The looks: a name, the three copies, and the words of the look."""
    for name, (second, third, others) in LOOKS.items():
        taken = copies(second, third)
        front = taken[2][: taken[2][FREE]]
        yield name, taken, with_others(front + [0] * (SIZE - len(front)), others)


def faults() -> Iterator[tuple[str, int, list[int], str]]:
    """Copies that give no look beside the other two: a name, the place of the copy, its words, and the fault."""
    for place, words in enumerate(copies()):
        yield f"copy {place + 1} without its last word", place, words[:-1], "Image BadSize"
    yield "a free pointer in the header", 2, copy(3, THREE, {FREE: 15}), "Image BadFree"
    yield "version 1", 2, copy(3, THREE, {1: 1}), "Adopt OldVersion"
