"""The look at a running segment in plain Python: three copies of its words, taken one after the other, put together.

It says for each word from which copy it comes, as the README of `segment_looks` does, and shares nothing with the
program.
"""

from __future__ import annotations

from collections.abc import Sequence

from support.layout import (
    BLOCK_HEADER, BLOCK_LEAST, FIRST, FREE, HISTOGRAM, HIST_BUCKETS, HIST_COUNTS, LEAST_HISTOGRAM, LEAST_SAMPLE,
    MOST_BUCKETS, NEXT, QUEUE, REDUNDANT, SAMPLE, SAMPLE_COUNT, SAMPLE_MARK, SINGLE, SINGLE_MARK, SUM, SUM_MARK,
    TAIL, TOP, TYPE, WORD,
)

# The words of a copy.
Copy = Sequence[int]


def followed(two: Copy, free: int) -> list[int]:
    """The records that the nexts of the second copy give: at each the least block lies below the free pointer."""
    records: list[int] = []
    at = two[QUEUE + NEXT]
    while len(records) < (len(two) - FIRST) // BLOCK_LEAST and FIRST <= at <= free - BLOCK_LEAST:
        records.append(at)
        at = two[at + NEXT]
    return records


def of_histogram(one: Copy, two: Copy, three: Copy, at: int) -> dict[int, int]:
    """The words of a histogram's record that are not those of the third copy, and those of its counts."""
    free, buckets = three[FREE], three[at + HIST_BUCKETS] if at + LEAST_HISTOGRAM <= three[FREE] else WORD
    if buckets > MOST_BUCKETS:
        return {}
    is_frozen, counts = two[at + SINGLE] >= TOP, two[at + HIST_COUNTS]
    if is_frozen and counts == 0:
        counts = three[at + HIST_COUNTS]
    first = counts + BLOCK_HEADER
    if counts != 0 and (counts < FIRST or first + 2 * buckets > free):
        return {}
    words = {at + word: two[at + word] for word in (SINGLE, SUM)}
    words.update({at + word: one[at + word] for word in (SINGLE_MARK, SUM_MARK, REDUNDANT)})
    words[at + HIST_COUNTS] = counts
    for place in range(first, first + buckets) if counts else ():
        words.setdefault(place, two[place] if is_frozen else 0)
    for place in range(first + buckets, first + 2 * buckets) if counts else ():
        words.setdefault(place, one[place])
    return words


def of_record(one: Copy, two: Copy, three: Copy, at: int) -> dict[int, int]:
    """The words of a record that are not those of the third copy, but for its next."""
    if three[at + TYPE] == HISTOGRAM:
        return of_histogram(one, two, three, at)
    if three[at + TYPE] == SAMPLE and at + LEAST_SAMPLE <= three[FREE]:
        return {at + SAMPLE_COUNT: two[at + SAMPLE_COUNT], at + SAMPLE_MARK: one[at + SAMPLE_MARK]}
    return {}


def look_of(one: Copy, two: Copy, three: Copy) -> list[int]:
    """The words of the look at copies of one length, of which the third has a valid header of version 2."""
    free = three[FREE]
    records = followed(two, free)
    ends = [*records, QUEUE]
    known = {QUEUE + NEXT: ends[0], TAIL: records[-1] if records else QUEUE}
    for at, following in zip(records, ends[1:]):
        known.setdefault(at + NEXT, following)
        for place, word in of_record(one, two, three, at).items():
            known.setdefault(place, word)
    return [known.get(place, word if place < free else 0) for place, word in enumerate(three)]
