"""Totals: a sum as a text."""

from __future__ import annotations

import dataclasses
import os
import re
from typing import NamedTuple, Optional

from ._faults import BadTotals, fault_at
from ._images import Path
from ._readings import Histogram, Reading, Spec
from ._sums import key_of, sum_of

TOTALS_FRONT = b"totals,1\n"

# The fields of a line: a name that a segment can have, a number, one with a sign, and the lines of these.
NAME = rb"((?!!)[!#-+\--~]{1,128})"
NUMBER, SIGNED = rb"(0|[1-9][0-9]{0,19})", rb"(0|-?[1-9][0-9]{0,38})"
IMAGES_LINE = re.compile(b",".join([b"images", *5 * [NUMBER]]))
KIND = rb"(linear|boolean|custom|sparse)([,0-9]*)"
HISTOGRAM_LINE = re.compile(b",".join([b"hist", NAME, NUMBER, NUMBER, SIGNED, SIGNED, NUMBER, KIND]))
SPEC_NUMBERS = re.compile(rb"(?:,(?:0|[1-9][0-9]{0,9}))*")
KEY_LINE = re.compile(b",".join([b"key", SIGNED, NUMBER, NUMBER]))
SEGMENT_LINE = re.compile(b",".join([b"of", NUMBER, NUMBER]))
FOLD_LINE = re.compile(b"fold," + NUMBER)
END_LINE = re.compile(b"end," + NUMBER)
# How many numbers the spec of a kind has.
NUMBERS = {"linear": range(3, 4), "boolean": range(1), "custom": range(2**32), "sparse": range(1)}

OF_32_BITS, OF_64_BITS = range(2**32), range(2**64)
SIGNED_32, SIGNED_128 = range(-(2**31), 2**31), range(-(2**127), 2**127)


class Totals(NamedTuple):
    """What a text of totals says: the sum; the segments that its fold added or that were there before, each by number
    and id; and the serial of that fold, 0 if none wrote it."""

    reading: Reading
    segments: frozenset[tuple[int, int]] = frozenset()
    serial: int = 0


class Lines:
    """The lines of totals, which are taken one after the other."""

    def __init__(self, text: bytes) -> None:
        self.lines = text.split(b"\n")
        # The number of the line that was taken last, from 1.
        self.number = 0

    def take(self, pattern: re.Pattern[bytes]) -> Optional[tuple[bytes, ...]]:
        """The fields of the next line, which is taken if it has this pattern."""
        found = pattern.fullmatch(self.lines[self.number]) if self.number < len(self.lines) else None
        if found is None:
            return None
        self.number += 1
        return found.groups()

    def need(self, pattern: re.Pattern[bytes]) -> tuple[bytes, ...]:
        """The fields of the next line, which has to have this pattern."""
        fields = self.take(pattern)
        if fields is None:
            raise BadTotals(self.number + 1)
        return fields

    def number_in(self, field: bytes, wanted: range = OF_64_BITS) -> int:
        """The number in a field of the line that was taken last."""
        number = int(field)
        if number not in wanted:
            raise BadTotals(self.number)
        return number

    def many(self, *fields: bytes) -> list[int]:
        return [self.number_in(field) for field in fields]

    def take_many(self, pattern: re.Pattern[bytes]) -> Optional[list[int]]:
        """The numbers of 64 bits of the next line, which is taken if it has this pattern."""
        fields = self.take(pattern)
        return None if fields is None else self.many(*fields)


def spec_in(lines: Lines, kind: str, rest: bytes) -> Spec:
    """The spec on the line that was taken last. A segment can have it or not."""
    if SPEC_NUMBERS.fullmatch(rest) is None or rest.count(b",") not in NUMBERS[kind]:
        raise BadTotals(lines.number)
    return Spec(kind, tuple(lines.number_in(field, OF_32_BITS) for field in rest.split(b",")[1:]))


def histogram_in(lines: Lines, fields: tuple[bytes, ...]) -> tuple[Histogram, bool]:
    """The histogram on the line that was taken last, with its keys on the lines after it; and whether they are those of
    its spec."""
    name, images, first, total, mark, redundant, kind, rest = fields
    sums = lines.number_in(total, SIGNED_128), lines.number_in(mark, SIGNED_128)
    counts = lines.many(redundant, images, first)
    spec = spec_in(lines, kind.decode(), rest)
    keys: list[int] = []
    units: list[int] = []
    marks: list[int] = []
    while (key := lines.take(KEY_LINE)) is not None:
        keys.append(lines.number_in(key[0], SIGNED_32))
        units.append(lines.number_in(key[1]))
        marks.append(lines.number_in(key[2]))
    shown = name.decode()
    found = Histogram(shown, spec, sum(units), sums, counts[0], counts[1], counts[2], lambda: (keys, units, marks))
    return found, are_whole(spec, keys) and found.units in OF_64_BITS


def are_whole(spec: Spec, keys: list[int]) -> bool:
    """Whether a segment can have a spec, and these are its keys."""
    if spec.kind == "sparse":
        return all(one < other for one, other in zip(keys, keys[1:]))
    return spec.is_valid and tuple(keys) == spec.ranges[:-1]


def histograms_in(lines: Lines) -> tuple[list[Histogram], Optional[int]]:
    """The histograms on the next lines, and the number of the line of the first that cannot come after those before it,
    or None."""
    found: list[Histogram] = []
    wrong: Optional[int] = None
    while (fields := lines.take(HISTOGRAM_LINE)) is not None:
        line = lines.number
        one, is_whole = histogram_in(lines, fields)
        is_above = not found or key_of(found[-1]) < key_of(one)
        if wrong is None and not (is_above and is_whole):
            wrong = line
        found.append(one)
    return found, wrong


def totals_of(text: bytes) -> Totals:
    """What the text of totals says. `BadTotals`."""
    lines = Lines(text)
    lines.need(re.compile(TOTALS_FRONT.rstrip()))
    images, full, corrupt, stopped, bad = lines.many(*lines.need(IMAGES_LINE))
    found, wrong = histograms_in(lines)
    segments: set[tuple[int, int]] = set()
    while (segment := lines.take_many(SEGMENT_LINE)) is not None:
        segments.add((segment[0], segment[1]))
    fold = lines.take_many(FOLD_LINE)
    if lines.many(*lines.need(END_LINE)) != [len(found)]:
        raise BadTotals(lines.number)
    if lines.lines[lines.number :] != [b""]:
        raise BadTotals(lines.number + 1)
    if wrong is not None:
        raise BadTotals(wrong)
    reading = Reading(tuple(found), images, full, corrupt, stopped, bad)
    return Totals(reading, frozenset(segments), fold[0] if fold else 0)


def decode_totals(text: bytes) -> Reading:
    """Returns the sum that the text of totals says, as of a file of `report --totals`. `BadTotals` if it is none;
    `TooMany` if the number of a first image is 2^62 or more."""
    return sum_of([totals_of(text).reading])


def read_totals(path: Path) -> Reading:
    """Returns the sum that totals in a file say. `BadTotals` if they are none; `TooMany` as of `decode_totals`;
    `OSError`. The totals of a recording's folder are only a part of it: `read_recording` has all."""
    name = os.fspath(path)
    with fault_at(name), open(name, "rb") as file:
        return dataclasses.replace(decode_totals(file.read()), added=(name,))
