"""Sums of readings."""

from __future__ import annotations

import dataclasses
import operator
from array import array
from collections.abc import Iterable, Sequence
from typing import Callable, Tuple

from ._faults import TooMany
from ._readings import KINDS, Histogram, Reading

# A histogram's place in totals: its name, the number of its kind, and the numbers of its spec.
Key = Tuple[bytes, int, Tuple[int, ...]]

# What is added after other images has only numbers of images below this.
NUMBER_LIMIT = 2**62
NOTES = ("images", "full", "corrupt", "stopped", "bad")
LISTS = ("damage", "added", "left_out", "passed_over")


def key_of(one: Histogram) -> Key:
    return one.name.encode(), KINDS.index(one.spec.kind), one.spec.numbers


def of_64_bits(numbers: Iterable[int]) -> array[int]:
    """Numbers that have to fit 64 bits."""
    try:
        return array("Q", numbers)
    except OverflowError:
        raise TooMany from None


def renumbered(one: Histogram, number: int) -> Histogram:
    """A histogram whose first image has another number."""
    of_64_bits([number])
    sums = (one.sum, one.sum_mark)
    return Histogram(one.name, one.spec, one.units, sums, one.redundant, one.images, number, lambda: one.layout)


def aligned(keys: Sequence[int], one: Histogram) -> list[Sequence[int]]:
    """The units and the marks of a sparse histogram, for each of these values."""
    own, *cells = one.layout
    return [[have.get(key, 0) for key in keys] for have in (dict(zip(own, cell)) for cell in cells)]


def both(one: Histogram, other: Histogram) -> Histogram:
    """What two histograms of one name and spec have together."""
    keys, *cells = one.layout
    _, *other_cells = other.layout
    if one.spec.kind == "sparse":
        keys = sorted({*keys, *other.layout[0]})
        cells, other_cells = aligned(keys, one), aligned(keys, other)
    units, marks = (of_64_bits(map(operator.add, *pair)) for pair in zip(cells, other_cells))
    counts = (one.units + other.units, one.redundant + other.redundant, one.images + other.images)
    of_64_bits(counts)
    sums = (one.sum + other.sum, one.sum_mark + other.sum_mark)
    if not all(-(2**127) <= number < 2**127 for number in sums):
        raise TooMany
    first = min(one.first_image, other.first_image)
    return Histogram(one.name, one.spec, counts[0], sums, counts[1], counts[2], first, lambda: (keys, units, marks))


class Sum:
    """A sum of readings that grows."""

    def __init__(self) -> None:
        self.parts: dict[Key, Histogram] = {}
        self.whole = Reading(())

    @property
    def reading(self) -> Reading:
        """What the readings have together that were added."""
        return dataclasses.replace(self.whole, all_histograms=tuple(self.parts[key] for key in sorted(self.parts)))

    def add(self, more: Reading, number_of: Callable[[int], int]) -> None:
        """Adds a reading, of whose histograms the first images get other numbers. If it does not fit, the sum is
        unchanged."""
        changed: dict[Key, Histogram] = {}
        for one in more.all_histograms:
            key, part = key_of(one), renumbered(one, number_of(one.first_image))
            changed[key] = both(self.parts[key], part) if key in self.parts else part
        notes = {name: getattr(self.whole, name) + getattr(more, name) for name in NOTES}
        of_64_bits(notes.values())
        lists = {name: getattr(self.whole, name) + getattr(more, name) for name in LISTS}
        self.whole = dataclasses.replace(self.whole, **notes, **lists)
        self.parts.update(changed)

    def add_image(self, more: Reading, number: int) -> None:
        """Adds the reading of one image, which has a number."""
        self.add(more, lambda _: number)

    def add_behind(self, more: Reading) -> None:
        """Adds a reading whose images come after those that are there."""
        if any(one.first_image >= NUMBER_LIMIT for one in more.all_histograms):
            raise TooMany
        self.add(more, lambda number: number + self.whole.images)


def sum_of(readings: Iterable[Reading]) -> Reading:
    """Returns what readings have together, as `persist_report report` adds up its files: histograms of one name and
    spec become one. The images are numbered in the order of the readings. `TooMany` if a total does not fit."""
    whole = Sum()
    for one in readings:
        whole.add_behind(one)
    return whole.reading
