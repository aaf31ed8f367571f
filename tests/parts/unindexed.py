"""The rounds of threads of another part (threads.py), while the indexes of each recorder have a limit: each round
returns what it always does.

An index that is full stops at its place, and searches walk on from there. The limits are every small number of entries,
none among them, so that an index stops at each of the first records that its recorder visits, and some larger ones, at
which one index is full and another is not.
"""

from __future__ import annotations

import argparse
import random
from collections.abc import Iterator

from parts import threads
from support.program import Case

PROGRAM = None

# The rounds of a run: one of each version.
ROUNDS = 2
# Every limit below SMALL is tried with each number of threads, and OTHERS more below LARGEST. A recorder visits 4
# histograms, and up to some hundred samples.
SMALL = 10
OTHERS = 6
LARGEST = 120


def limits(seed: int, number: int) -> list[int]:
    """The limits that are tried with a number of threads."""
    chance = random.Random(f"unindexed-{seed}-{number}")
    return [*range(SMALL), *(chance.randrange(SMALL, LARGEST) for _ in range(OTHERS))]


def cases(_program: None, options: argparse.Namespace) -> Iterator[Case]:
    asked = [
        threads.Rounds(number, options.seed + place * ROUNDS, ROUNDS, limit)
        for number in threads.THREADS
        for place, limit in enumerate(limits(options.seed, number))
    ]
    for one, came in zip(asked, threads.answered([one.commands() for one in asked])):
        name = f"{one.threads} threads, rounds of the seed {one.seed}, {one.limit} entries"
        yield name, threads.wrong_rounds(one, came)
