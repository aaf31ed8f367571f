"""Worked examples of the stepped world, as schedules of two actors: each is stopped at every event, in both versions.
What the format gives of their ends is beside them: words, and answers of calls."""

from __future__ import annotations

import dataclasses
import pathlib
import struct
from collections.abc import Iterator, Mapping, Sequence
from typing import Any

from support.layout import FROZEN, TOP, WORD
from support.program import EXAMPLE, ROOT
from support.seeded_schedules import Schedule

Record = tuple[Any, ...]
ALL = 10**6
STORED = ROOT / "examples" / "pack_before_disabling.csv"
# The histograms are boolean, but for the sparse `S`.
MADE: list[Record] = [("hist", 0, "A", "boolean"), ("step", 0, ALL)]
TWO_SAMPLES: list[Record] = [
    *MADE, ("add", 0, "A", 1, 1), ("step", 0, ALL), ("add", 0, "A", 1, 1), ("step", 0, ALL),
]
KNOWN: list[Record] = [("hist", 1, "A", "boolean"), ("step", 1, ALL)]


def ended(*records: Record) -> list[Record]:
    """Calls of actor 0, each of which ends before the next begins."""
    return [part for record in records for part in (record, ("step", 0, ALL))]


def stored(path: pathlib.Path) -> list[Record]:
    """The records of a stored schedule, after the first."""
    lines = path.read_text().splitlines()[1:]
    return [tuple(int(field) if field.isdigit() else field for field in line.split(",")) for line in lines]


# The records of three histograms fill a segment of 64 words.
THREE_RECORDS = ended(*(("hist", 0, name, "boolean") for name in "ABC"))
SMALL = 64

EXAMPLES = {
    "two samples, packed": TWO_SAMPLES,
    "packed, then mounted": [*TWO_SAMPLES, *ended(("add", 0, "A", 0, 1), ("snapshot", 0, "A"))],
    "as much as is packed": [*MADE, *ended(("add", 0, "A", 1, 65_535))],
    "one more than is packed": [*MADE, *ended(("add", 0, "A", 1, 65_535), ("add", 0, "A", 1, 1))],
    "more than is packed": [*MADE, *ended(("add", 0, "A", 1, 70_000))],
    "deltas and marks": [
        *TWO_SAMPLES,
        *ended(("delta", 0, "A"), ("add", 0, "A", 0, 1), ("delta", 0, "A"), ("delta", 0, "A"), ("snapshot", 0, "A")),
    ],
    # The one taker has loaded the packed word when the other takes all.
    "two takers of a packed word": [
        *TWO_SAMPLES, *KNOWN, ("delta", 1, "A"), ("step", 1, 1),
        *ended(("add", 0, "A", 0, 1), ("add", 0, "A", 1, 1), ("delta", 0, "A")), ("step", 1, ALL),
    ],
    # Both find no `A`. Actor 0 claims its block first, and actor 1 publishes first. Then both know the same.
    "race for a name": [
        ("hist", 0, "A", "boolean"), ("step", 0, 1), ("hist", 1, "A", "boolean"), ("step", 1, 1), ("step", 0, 3),
        ("step", 1, ALL), ("step", 0, ALL), ("hist", 0, "A", "boolean"), ("hist", 1, "A", "boolean"),
    ],
    # Both find no sample of the value. Actor 0 claims its block first, and actor 1 publishes first.
    "race for a value": [
        ("hist", 0, "S", "sparse"), ("step", 0, ALL), ("hist", 1, "S", "sparse"), ("step", 1, ALL),
        ("add", 0, "S", -5, 2), ("step", 0, 1), ("add", 1, "S", -5, 1), ("step", 1, 1), ("step", 0, 3),
        ("step", 1, ALL), ("step", 0, ALL),
    ],
    "sparse marks": [
        ("hist", 0, "S", "sparse"), ("step", 0, ALL),
        *ended(("add", 0, "S", -5, 2), ("add", 0, "S", 7, 1), ("delta", 0, "S"), ("delta", 0, "S")),
    ],
    # Both have loaded the count of bucket 0 when one of them takes it, and then that of the packed bucket.
    "two takers of a count of 1": [
        *TWO_SAMPLES, *KNOWN, *ended(("add", 0, "A", 0, 1)), ("delta", 0, "A"), ("step", 0, 3), ("delta", 1, "A"),
        ("step", 1, 3), ("step", 0, 2), ("step", 1, 2), ("step", 0, ALL), ("step", 1, ALL),
    ],
    # Both have loaded the count of 2 of bucket 1, and raised the mark of the packed bucket, when one of them takes it.
    "two takers of one count": [
        *MADE, *KNOWN, *ended(("add", 0, "A", 0, 1), ("add", 0, "A", 1, 2)), ("delta", 0, "A"), ("step", 0, 5),
        ("delta", 1, "A"), ("step", 1, 5), ("step", 0, ALL), ("step", 1, ALL),
    ],
    # Actor 1 has loaded the packed word, and is to disable it, when actor 0 packs another unit. So its exchange fails,
    # and is tried again.
    "a pack before a disabling": stored(STORED),
    # Another actor may find what is on the list and pack, and may not claim.
    "the corrupt flag": [
        *MADE, *ended(("set_corrupt", 0)), ("hist", 1, "A", "boolean"), ("step", 1, ALL),
        ("hist", 1, "B", "boolean"), ("step", 1, ALL), ("add", 1, "A", 1, 1), ("step", 1, ALL),
        ("add", 1, "A", 0, 1), ("step", 1, ALL), ("hist", 1, "A", "sparse"),
    ],
    # A sample that needs counts is refused, and then another one is packed.
    "a full segment": [
        *THREE_RECORDS,
        *ended(("add", 0, "A", 1, 1), ("add", 0, "A", 0, 1), ("add", 0, "A", 1, 1), ("hist", 0, "D", "boolean")),
    ],
    # Its third item needs counts.
    "a batch in a full segment": [*THREE_RECORDS, *ended(("batch", 0, "A", 3, 1, 2, 1, 1, 0, 4, 1, 1))],
}
SIZES = {"a full segment": SMALL, "a batch in a full segment": SMALL}


def packed(bucket: int, units: int) -> int:
    return bucket * 2**32 + units


# The words of version 1 that the two samples and the third have.
THREE_SAMPLES = dict(enumerate(struct.unpack("<128Q", EXAMPLE.read_bytes())))
MINUS_3, MINUS_5, MINUS_15 = WORD - 3, WORD - 5, WORD - 15

# Words at the end of some schedules, by their indices: those that are the same in both versions, and those of one
# version.
WORDS = {
    "two samples, packed": {7: 32, 24: 0, 25: packed(1, 2), 27: 2, 29: 2},
    "packed, then mounted": {7: 42, 24: 32, 26: 0, 27: 2, 28: 0, 29: 3, 36: 1, 38: 0},
    "as much as is packed": {7: 32, 24: 0, 25: packed(1, 65_535), 27: 65_535},
    "one more than is packed": {7: 42, 24: 32, 27: 65_536, 36: 0, 38: 0},
    "more than is packed": {7: 42, 24: 32, 27: 70_000, 36: 0, 37: 70_000, 38: 0},
    "deltas and marks": {26: 2, 27: 2, 28: 2, 29: 3, 36: 1, 38: 0, 39: 1, 40: 0, 41: 0},
    "two takers of a packed word": {26: 3, 27: 3, 28: 3, 36: 1, 39: 1, 40: 0},
    "race for a name": {7: 48, 15: 32, 19: 12, 35: 16},
    "race for a value": {7: 48, 27: MINUS_15, 38: 0, 46: 3},
    "a pack before a disabling": {24: 32, 29: 3, 36: 1},
    "sparse marks": {
        7: 48, 27: MINUS_3, 28: MINUS_3, 36: 16, 37: MINUS_5, 38: 2, 39: 2, 44: 16, 45: 7, 46: 1, 47: 1,
    },
    "two takers of a count of 1": {26: 2, 27: 2, 28: 2, 29: 3, 36: 1, 39: 1, 40: 0, 41: 0},
    "two takers of one count": {26: 1, 27: 2, 28: 2, 37: 2, 39: 0, 40: 2, 41: 0},
    "the corrupt flag": {6: 1, 7: 32, 24: 0, 25: packed(1, 1)},
    "a full segment": {6: 2, 7: 64, 8: 48, 24: 0, 25: packed(1, 2), 27: 2, 29: 2},
    "a batch in a full segment": {6: 2, 7: 64, 24: 0, 25: packed(1, 3), 26: 0, 27: 0, 28: 0, 29: 3},
}
WORDS_OF_VERSION: dict[int, dict[str, Mapping[int, int]]] = {
    1: {
        "packed, then mounted": THREE_SAMPLES,
        "one more than is packed": {25: TOP + 1, 37: 65_536},
        "more than is packed": {25: TOP + 65_535},
        "deltas and marks": {25: TOP + 1, 37: 2},
        "two takers of a packed word": {37: 3},
        "two takers of a count of 1": {25: TOP + 1, 37: 2},
        "two takers of one count": {36: 1},
    },
    2: {
        "packed, then mounted": {25: FROZEN + packed(1, 2), 37: 0},
        "one more than is packed": {25: FROZEN + packed(1, 65_535), 37: 1},
        "more than is packed": {25: FROZEN},
        "deltas and marks": {25: FROZEN + packed(1, 2), 37: 0},
        "two takers of a packed word": {37: 1},
        "two takers of a count of 1": {25: FROZEN + packed(1, 2), 37: 0},
        "two takers of one count": {36: 0},
    },
}

# The last answers of some, each after its actor, in their order.
ANSWERS = {
    "packed, then mounted": ["0,snapshot,2,3,0,1,1,2,2,0"],
    "deltas and marks": ["0,delta,2,1,2", "0,added", "0,delta,0,0,1", "0,delta,0", "0,snapshot,2,3,0,1,1,2,2,0"],
    "two takers of a packed word": ["0,delta,3,0,1,1,3", "1,delta,0"],
    "race for a name": ["1,hist,32", "0,hist,32", "0,hist,32", "1,hist,32"],
    "race for a value": ["1,added", "0,added"],
    "sparse marks": ["0,delta,-3,-5,2,7,1", "0,delta,0"],
    "two takers of a count of 1": ["0,delta,2,0,1,1,2", "1,delta,0"],
    "two takers of one count": ["0,delta,2,0,1,1,2", "1,delta,0"],
    "the corrupt flag": [
        "0,flagged", "1,hist,16", "1,refused,Corrupt", "1,added", "1,refused,Corrupt", "1,refused,OtherSpec",
    ],
    "a full segment": [
        "0,hist,16", "0,hist,32", "0,hist,48", "0,added", "0,refused,Full", "0,added", "0,refused,Full",
    ],
    "a batch in a full segment": ["0,batch_refused,2,Full"],
}


@dataclasses.dataclass
class Example:
    """An example in one version, the words that are known of its end, and the last answers."""

    name: str
    schedule: Schedule
    words: Mapping[int, int]
    answers: Sequence[str]


def examples() -> Iterator[Example]:
    """The examples, in both versions."""
    for name, records in EXAMPLES.items():
        for version in (1, 2):
            schedule = Schedule(SIZES.get(name, 128), 64, 7, 2, version)
            schedule.records.extend(records)
            words = {**WORDS.get(name, {}), **WORDS_OF_VERSION[version].get(name, {})}
            yield Example(f"{name}, version {version}", schedule, words, ANSWERS.get(name, []))
