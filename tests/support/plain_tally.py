"""A plain tally of samples, written apart from the program: ranges, clamping, buckets, sums, and the report of them.

A spec is a tuple as a script writes it: ("linear", MIN, MAX, BUCKETS), ("boolean",), ("custom", V, ..) or ("sparse",).
"""

from __future__ import annotations

import bisect
import collections
from collections.abc import Mapping
from typing import Any, TypeVar

from support.plain_reader import GREATEST, linear_boundaries

MOST_VALUE = GREATEST - 1
Spec = tuple[Any, ...]
One = TypeVar("One", bound="Histogram")


def boundaries_of(spec: Spec) -> list[int]:
    """The boundaries of a valid spec, or none of a sparse one."""
    kind, *numbers = spec
    if kind == "linear":
        return linear_boundaries(*numbers) or []
    if kind == "boolean":
        return linear_boundaries(1, 2, 3) or []
    if kind == "custom":
        return sorted({0, *numbers, GREATEST})
    return []


class Histogram:
    """What one histogram's samples add up to: the units of each key, and the sum of all samples."""

    def __init__(self, kind: str, boundaries: list[int]) -> None:
        self.kind = kind
        self.boundaries = boundaries
        self.counts: collections.Counter[int] = collections.Counter()
        self.sum = 0

    @classmethod
    def of(cls: type[One], spec: Spec) -> One:
        return cls(spec[0], boundaries_of(spec))

    def clamped(self, value: int) -> int:
        return value if self.kind == "sparse" else min(max(value, 0), MOST_VALUE)

    def key(self, value: int) -> int:
        """The low end of the bucket that holds a value; of a sparse histogram the value."""
        if self.kind == "sparse":
            return value
        return self.boundaries[bisect.bisect_right(self.boundaries, self.clamped(value)) - 1]

    def high(self, key: int) -> int:
        """What comes after a bucket: the least value of the next one."""
        if self.kind == "sparse":
            return key + 1
        return self.boundaries[bisect.bisect_right(self.boundaries, key)]

    def add(self, value: int, count: int) -> None:
        self.counts[self.key(value)] += count
        self.sum += self.clamped(value) * count

    def take(self, counts: Mapping[int, int], amount: int) -> None:
        """Adds units by their keys, and an amount to the sum."""
        self.counts.update(counts)
        self.sum += amount


def report(histograms: Mapping[str, Histogram]) -> bytes:
    """The text of the report of histograms by their names, which are ASCII."""
    lines = []
    for name in sorted(histograms):
        one = histograms[name]
        for key in sorted(key for key, count in one.counts.items() if count):
            lines.append(f"{name},{one.kind},{key},{one.high(key)},{one.counts[key]}\n")
        lines.append(f"{name},total,{sum(one.counts.values())},{one.sum}\n")
    return "".join(lines).encode()
