"""Looks at segments that are in use: three copies of their words, put together."""

from __future__ import annotations

import mmap
import os
from array import array
from collections.abc import Iterator
from typing import BinaryIO

from ._faults import BadImage, Changed, OldVersion, fault_at
from ._images import (
    BUCKETS, COUNT, COUNTS, FREE, HEADER, ID, IN_USE, LEAST_BLOCK, LEAST_HISTOGRAM, LEAST_SAMPLE, MAPPED_FRONT, MARK,
    MOST_MAPPED_BYTES, NEXT, PAYLOAD, QUEUE, REDUNDANT, SINGLE, SINGLE_MARK, SUM, SUM_MARK, TAIL, TYPE, TYPE_HISTOGRAM,
    TYPE_SAMPLE, VERSION, Path, check_length, header_fault, image_in, in_file_order, reading_of,
)
from ._readings import MOST_BUCKETS, Reading


def look(path: Path) -> Reading:
    """Returns what the segment in a file has in which a program counts, by three copies of its words that are taken one
    after the other and put together. The program is not disturbed. The reading has all that had been counted before,
    and nothing that was not begun by its end.

    That rests on two things: each word of a copy is one that the segment had at some moment, and each copy is complete
    before the next one begins. Python promises neither, since it has no atomic loads. They hold in CPython on x86-64,
    where the items of a memoryview of a mapped file, cast to `Q`, are loaded one after the other, each by one aligned
    move of 8 bytes. On another machine or interpreter a look may lack counts, or have some too many. If somebody cuts
    the file while a copy is taken, the system ends this process (SIGBUS); recordings never cut a segment in use.

    `BadImage` if there is no segment, or, with `BadSize`, if the length of the file changes; `OldVersion`, `Changed`;
    `OSError`.
    """
    name = os.fspath(path)
    with fault_at(name), open(name, "rb") as file:
        one, two, three = copies_of(file)
        return reading_of(composed(one, two, three), name)


def copies_of(file: BinaryIO) -> Iterator[array[int]]:
    """Yields three copies of the image in a file, each taken when it is asked for."""
    length = os.fstat(file.fileno()).st_size
    # It is read once before: where a device fails, that is an OSError here, and would be a signal later.
    check_length(file.read(MOST_MAPPED_BYTES)[: len(MAPPED_FRONT)], length)
    if length == 0:
        raise BadImage("TooShort")
    with mmap.mmap(file.fileno(), length, access=mmap.ACCESS_READ) as mapped, memoryview(mapped) as view:
        with view.cast("Q") as words:
            for _ in range(3):
                if os.fstat(file.fileno()).st_size != length:
                    raise BadImage("BadSize")
                yield image_in(in_file_order(array("Q", words.tolist())))


def composed(one: array[int], two: array[int], three: array[int]) -> array[int]:
    """The words of the look that three copies give.

    Marks, sum marks and redundant counts are those of the first copy; nexts, counts references, single words, counts
    and sums those of the second; all others those of the third. So no mark is above its total, and each record that is
    followed is whole. From the free pointer on there are zeros.
    """
    fault = header_fault(three)
    if fault is not None or not len(one) == len(two) == len(three):
        raise BadImage(fault or "BadSize")
    if three[VERSION] != 2:
        raise OldVersion
    if not one[: ID + 1] == two[: ID + 1] == three[: ID + 1]:
        raise Changed
    free = three[FREE]
    words = three[:free] + array("Q", bytes(8 * (len(three) - free)))
    records = list(followed(two, free))
    words[TAIL] = records[-1] if records else QUEUE
    following = QUEUE
    # From the last record to the first: where those of a forged segment overlap, the first one decides.
    for at in reversed(records):
        put_record(words, one, two, three, at)
        words[at + NEXT], following = following, at
    words[QUEUE + NEXT] = following
    return words


def followed(two: array[int], free: int) -> Iterator[int]:
    """Yields the records that the nexts of the second copy give, up to the first next at which no block can be; in a
    forged loop as many as there can be blocks."""
    at = two[QUEUE + NEXT]
    for _ in range((len(two) - HEADER) // LEAST_BLOCK):
        if not HEADER <= at <= free - LEAST_BLOCK:
            return
        yield at
        at = two[at + NEXT]


def put_record(words: array[int], one: array[int], two: array[int], three: array[int], at: int) -> None:
    """Puts what a record has of the first two copies on the words of a look."""
    room = three[FREE] - at
    if three[at + TYPE] == TYPE_HISTOGRAM and room >= LEAST_HISTOGRAM:
        put_histogram(words, one, two, three, at)
    elif three[at + TYPE] == TYPE_SAMPLE and room >= LEAST_SAMPLE:
        words[at + COUNT], words[at + MARK] = two[at + COUNT], one[at + MARK]


def put_histogram(words: array[int], one: array[int], two: array[int], three: array[int], at: int) -> None:
    """The same of a histogram's record, unless its counts cannot be where it says."""
    n, is_in_use = three[at + BUCKETS], two[at + SINGLE] >= IN_USE
    # The counts may have come into use after their reference was loaded.
    reference = two[at + COUNTS] or (three[at + COUNTS] if is_in_use else 0)
    if n > MOST_BUCKETS or (reference and not HEADER <= reference <= three[FREE] - PAYLOAD - 2 * n):
        return
    if reference:
        first, behind, end = (reference + PAYLOAD + place for place in (0, n, 2 * n))
        words[first:behind] = two[first:behind] if is_in_use else array("Q", bytes(8 * n))
        words[behind:end] = one[behind:end]
    words[at + COUNTS], words[at + SINGLE], words[at + SUM] = reference, two[at + SINGLE], two[at + SUM]
    words[at + SINGLE_MARK], words[at + SUM_MARK] = one[at + SINGLE_MARK], one[at + SUM_MARK]
    words[at + REDUNDANT] = one[at + REDUNDANT]
