"""How many words blocks take, claimed one after the other in an order: a plain model of what an allocation does, and
the worst of all orders. It is written after docs/FORMAT.md and shares nothing with the program.
"""

from __future__ import annotations

import itertools
from collections.abc import Iterable, Sequence

from support.layout import BLOCK_HEADER, BLOCK_LEAST, FIRST, MOST_WORDS, NAME


def record_words(name: str, spec: Sequence[str]) -> int:
    """The words of a histogram's record."""
    values = {int(value) for value in spec[1:]} - {0} if spec[0] == "custom" else set()
    return NAME + -(-len(name) // 8) + len(values)


def counts_words(spec: Sequence[str]) -> int | None:
    """The words of its block of counts, or None of a sparse one."""
    if spec[0] == "sparse":
        return None
    if spec[0] == "custom":
        buckets = len({int(value) for value in spec[1:]} - {0}) + 1
    else:
        buckets = int(spec[3]) if spec[0] == "linear" else 3
    return BLOCK_HEADER + 2 * buckets


def end_of(order: Iterable[int], page: int) -> int:
    """The free pointer after blocks of these words, in a segment of ample size."""
    free = FIRST
    for block in order:
        room = page - free % page
        if block > room:
            free, room = free + room, page
        free += room if room - block < BLOCK_LEAST else block
    return free


def worst_pages(blocks: Sequence[int], page: int) -> int:
    """The most pages that any order of blocks needs."""
    return max(-(-end_of(order, page) // page) for order in set(itertools.permutations(blocks)))


def bound(blocks: Sequence[int], page: int) -> int | None:
    """The pages of the formula in docs/COOKBOOK.md; None if no segment can have that many."""
    fewest = MOST_WORDS
    for most in {*blocks, page}:
        load = FIRST + sum(block + max(0, block - most) for block in blocks)
        fewest = min(fewest, 1 if load <= page else 2 + (load - page - 1) // (page + 1 - most))
    return fewest if fewest * page <= MOST_WORDS else None
