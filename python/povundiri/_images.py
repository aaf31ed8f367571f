"""Images of segments: their words, the checks of headers and records, and what they say."""

from __future__ import annotations

import functools
import operator
import os
import re
import sys
from array import array
from collections.abc import Iterator, Mapping
from typing import BinaryIO, Callable, NamedTuple, Optional, Union

from ._faults import BadImage, fault_at
from ._readings import BOOLEAN, MOST_BUCKETS, SPARSE, Damage, Histogram, Layout, Reading, Segment, Spec

Path = Union[str, "os.PathLike[str]"]

MOST_WORDS, MOST_PAGE = 1_048_576, 65_536
MOST_BYTES = 8 * MOST_WORDS
# A mapped file has a word before the image, and up to nine after it.
MOST_MAPPED_BYTES = MOST_BYTES + 80
COOKIE, BLOCK_COOKIE = 0x408305DC, 0xC8799269
IMAGE_FRONT = COOKIE.to_bytes(8, "little")
MAPPED_FRONT = bytes(8) + IMAGE_FRONT

# The words of a header, of which there are `HEADER`. At `QUEUE` is the block from which the list of records starts.
VERSION, SIZE, PAGE, ID, STATE, FLAGS, FREE, TAIL, QUEUE, HEADER = 1, 2, 3, 4, 5, 6, 7, 8, 12, 16
# The words of a block; where its payload begins, and how many words it has at least.
TYPE, NEXT, PAYLOAD, LEAST_BLOCK = 2, 3, 4, 5
TYPE_HISTOGRAM, TYPE_COUNTS, TYPE_SAMPLE = 1, 2, 3
# The words of a histogram's record, and how many it has at least.
KIND, BUCKETS, COUNTS, SINGLE, SINGLE_MARK, SUM, SUM_MARK, REDUNDANT, LENGTH, NAME = 4, 7, 8, 9, 10, 11, 12, 13, 14, 15
LEAST_HISTOGRAM = 16
KIND_LINEAR, KIND_CUSTOM, KIND_SPARSE = 1, 3, 4
# The words of a sample's record, and how many it has at least.
OWNER, VALUE, COUNT, MARK, LEAST_SAMPLE = 4, 5, 6, 7, 8

# A single word has this bit once the counts are in use.
IN_USE = 2**63
# The most packed units. In a single word of version 1 the same number stands for no bucket.
MOST_PACKED = 65_535
MOST_UNITS = 2**32 - 1
MOST_SUM = 2**31 * MOST_UNITS
MOST_NAME = 128
# From 0x21 to 0x7E without comma and quotation mark, and first no exclamation mark.
VALID_NAME = re.compile(rb"(?!!)[!#-+\--~]+")


class BadRecord(Exception):
    """A record has the fault that is named."""


def require(holds: bool, fault: str) -> None:
    if not holds:
        raise BadRecord(fault)


def signed(word: int) -> int:
    return word - 2**64 if word >= 2**63 else word


# ---- Words


def in_file_order(words: array[int]) -> array[int]:
    """These words, changed from the order of bytes of this machine to that of a file, or back."""
    if sys.byteorder == "big":
        words.byteswap()
    return words


def check_length(front: bytes, length: int) -> None:
    """Checks how many bytes a file with an image has, which begins with these."""
    if length > (MOST_MAPPED_BYTES if front.startswith(MAPPED_FRONT) else MOST_BYTES):
        raise BadImage("TooLong")
    if length % 8:
        raise BadImage("NotWords")


def image_in(words: array[int]) -> array[int]:
    """The words of the image among those of a file. A mapped file has it from its second word on."""
    if len(words) < 2 or words[0] != 0 or words[1] != COOKIE:
        return words
    return words[1 : 1 + words[1 + SIZE]] if len(words) > 1 + SIZE else words[:0]


def header_fault(words: array[int]) -> Optional[str]:
    """The first fault of an image's header, or None."""
    if len(words) < HEADER:
        return "TooShort"
    size, page, state = words[SIZE], words[PAGE], words[STATE]
    is_page = page % 16 == 0 and 64 <= page <= MOST_PAGE
    checks = (
        ("BadCookie", words[0] == COOKIE),
        ("BadVersion", words[VERSION] in (1, 2)),
        ("BadPage", is_page),
        ("BadSize", is_page and size == len(words) <= MOST_WORDS and size % page == 0),
        ("NotReady", state in (1, 2)),
        ("Deleted", state == 1),
        ("BadFree", HEADER <= words[FREE] <= size),
        ("BadQueue", words[QUEUE : QUEUE + NEXT].tolist() == [4, 1, 0]),
    )
    return next((name for name, holds in checks if not holds), None)


# ---- Records


class Packed(NamedTuple):
    """What a single word says: the bucket whose units are or were packed, or None, and how many of its units the word
    has that the counts do not have."""

    bucket: Optional[int]
    units: int


class Records:
    """The records of an image whose header has no fault, and what they say."""

    def __init__(self, words: array[int]) -> None:
        self.words = words
        self.version, self.page, self.free = words[VERSION], words[PAGE], words[FREE]
        self.by_name: dict[bytes, Histogram] = {}
        # Of each sparse histogram that was read, by the reference of its record: the units and the mark of each value.
        self.values: dict[int, dict[int, tuple[int, int]]] = {}
        # Bad records with their faults, in the order of the list; and why the list stops.
        self.bad: list[tuple[int, str]] = []
        self.stop: Optional[str] = None

    def read(self) -> None:
        """Reads them in the order of the list. Where one has a fault, the others are not affected."""
        readers = {TYPE_HISTOGRAM: self.read_histogram, TYPE_SAMPLE: self.read_sample}
        for at in self.listed():
            reader = readers.get(self.words[at + TYPE])
            try:
                if reader is not None:
                    reader(at)
            except BadRecord as bad:
                self.bad.append((at, str(bad)))

    def listed(self) -> Iterator[int]:
        """Yields the references on the list, to its end or its stop."""
        visited: set[int] = set()
        at = self.words[QUEUE + NEXT]
        while at != QUEUE:
            self.stop = self.block_fault(at) or ("Loop" if at in visited else None)
            if self.stop is not None:
                return
            visited.add(at)
            yield at
            at = self.words[at + NEXT]

    def block_fault(self, reference: int) -> Optional[str]:
        """Why a reference leads to no block, or None."""
        if reference < HEADER or reference + LEAST_BLOCK > self.free:
            return "BadRef"
        size, cookie = self.words[reference], self.words[reference + 1]
        if cookie != BLOCK_COOKIE or size < LEAST_BLOCK or reference + size > self.free:
            return "BadBlock"
        return "BadBlock" if reference // self.page != (reference + size - 1) // self.page else None

    def read_histogram(self, at: int) -> None:
        words = self.words
        require(words[at] >= LEAST_HISTOGRAM and 1 <= words[at + KIND] <= KIND_SPARSE, "BadKind")
        name, behind = self.name(at)
        spec = self.spec(at, behind)
        values: dict[int, tuple[int, int]] = {}
        lay_out: Callable[[], Layout] = functools.partial(layout_of_values, values)
        units = 0
        if spec is SPARSE:
            require(not any(words[at + COUNTS : at + SUM]), "BadCounts")
        else:
            units, lay_out = self.counted(at, words[at + BUCKETS], spec)
        sums = signed(words[at + SUM]), signed(words[at + SUM_MARK])
        require(max(abs(sums[0]), abs(sums[1]), abs(sums[0] - sums[1])) <= MOST_SUM, "BadSum")
        if name not in self.by_name:
            self.by_name[name] = Histogram(name.decode(), spec, units, sums, words[at + REDUNDANT], 1, 0, lay_out)
            if spec is SPARSE:
                self.values[at] = values

    def read_sample(self, at: int) -> None:
        require(self.words[at] >= LEAST_SAMPLE, "BadSample")
        owner, value, count, mark = self.words[at + OWNER : at + LEAST_SAMPLE]
        require(-(2**31) <= signed(value) < 2**31 and mark <= count <= MOST_UNITS, "BadSample")
        require(owner in self.values, "BadSample")
        self.values[owner].setdefault(signed(value), (count, mark))

    def name(self, at: int) -> tuple[bytes, int]:
        """The name of a histogram, and the index of the word after it."""
        length = self.words[at + LENGTH]
        words = -(-length // 8)
        require(1 <= length <= MOST_NAME and NAME + words <= self.words[at], "BadName")
        name = in_file_order(self.words[at + NAME : at + NAME + words]).tobytes()[:length]
        require(VALID_NAME.fullmatch(name) is not None, "BadName")
        return name, at + NAME + words

    def spec(self, at: int, behind: int) -> Spec:
        """The spec of a histogram; the boundaries of a custom one begin behind the name."""
        kind, low, high, n = self.words[at + KIND : at + COUNTS]
        if kind == KIND_SPARSE:
            require(low == high == n == 0, "BadSpec")
            return SPARSE
        if kind == KIND_LINEAR:
            spec = Spec("linear", (low, high, n))
            require(spec.is_valid, "BadSpec")
        elif kind == KIND_CUSTOM:
            require(2 <= n <= MOST_BUCKETS and behind + n - 1 <= at + self.words[at], "BadSpec")
            spec = Spec("custom", tuple(self.words[behind : behind + n - 1]))
            require(spec.is_valid and (low, high) == (spec.numbers[0], spec.numbers[-1]), "BadSpec")
        else:
            spec = BOOLEAN
            require((low, high, n) == (1, 2, 3), "BadSpec")
        require(PAYLOAD + 2 * n <= self.page, "BadSpec")
        return spec

    def counted(self, at: int, n: int, spec: Spec) -> tuple[int, Callable[[], Layout]]:
        """The units of all n buckets of a histogram, and what lays the buckets out, after the checks of its counts, of
        its single word and of its marks."""
        reference, single, single_mark = self.words[at + COUNTS : at + SUM]
        require(reference == 0 or self.has_counts(reference, n), "BadCounts")
        totals = counts_at(self.words, reference, n) if reference else array("Q")
        require(max(totals, default=0) <= MOST_UNITS, "BadCounts")
        packed = self.packed(single, n)
        if packed is not None and packed.bucket is not None and totals:
            totals[packed.bucket] += packed.units
            require(totals[packed.bucket] <= MOST_UNITS, "BadCounts")
        if packed is None or (single >= IN_USE and reference == 0):
            raise BadRecord("BadSingle")
        self.check_single_mark(single_mark, totals, packed)
        self.check_marks(reference, totals, packed)
        units = sum(totals) if totals else packed.units
        return units, functools.partial(layout_of_buckets, self.words, reference, n, packed, single_mark, spec)

    def has_counts(self, reference: int, n: int) -> bool:
        """Whether a block of counts and marks of n buckets is at a reference."""
        if self.block_fault(reference) is not None:
            return False
        return self.words[reference + TYPE] == TYPE_COUNTS and self.words[reference] >= PAYLOAD + 2 * n

    def packed(self, single: int, n: int) -> Optional[Packed]:
        """What the single word of n buckets says; None if it has no valid form."""
        rest = single % IN_USE
        if single >= IN_USE and self.version == 1:
            # The units moved to the counts, and the word has only the bucket.
            bucket = None if rest == MOST_PACKED else rest
            return Packed(bucket, 0) if bucket is None or bucket < n else None
        if rest == 0:
            return Packed(None, 0)
        bucket, units = divmod(rest, 2**32)
        return Packed(bucket, units) if bucket < n and 1 <= units <= MOST_PACKED else None

    def check_single_mark(self, single_mark: int, totals: array[int], packed: Packed) -> None:
        if packed.bucket is None:
            most = 0
        else:
            most = totals[packed.bucket] if totals else packed.units
            # In version 1 the units may be on their way from the single word to the counts.
            most = max(most, MOST_PACKED) if self.version == 1 else most
        require(single_mark <= most, "BadMark")

    def check_marks(self, reference: int, totals: array[int], packed: Packed) -> None:
        if reference:
            marks = marks_at(self.words, reference, len(totals))
            if packed.bucket is not None:
                marks[packed.bucket] = 0
            require(not any(map(operator.gt, marks, totals)), "BadMark")


# ---- Buckets


def counts_at(words: array[int], reference: int, n: int) -> array[int]:
    """The counts of n buckets in their block."""
    return words[reference + PAYLOAD : reference + PAYLOAD + n]


def marks_at(words: array[int], reference: int, n: int) -> array[int]:
    """The marks of n buckets in the block of their counts."""
    return words[reference + PAYLOAD + n : reference + PAYLOAD + 2 * n]


def layout_of_buckets(
    words: array[int], reference: int, n: int, packed: Packed, single_mark: int, spec: Spec
) -> Layout:
    """The buckets of a record: the block has the counts and the marks, but for what the record has of one bucket."""
    counts = counts_at(words, reference, n) if reference else array("Q", bytes(8 * n))
    marks = marks_at(words, reference, n) if reference else array("Q", bytes(8 * n))
    if packed.bucket is not None:
        counts[packed.bucket] += packed.units
        marks[packed.bucket] = single_mark
    return spec.ranges[:-1], counts, marks


def layout_of_values(values: Mapping[int, tuple[int, int]]) -> Layout:
    """The values of a sparse histogram."""
    keys = sorted(values)
    return keys, [values[key][0] for key in keys], [values[key][1] for key in keys]


# ---- Readings


def units_used_by(one: Histogram) -> int:
    """How many units of its segment a histogram has used."""
    sums = (one.sum, one.sum_mark, one.sum - one.sum_mark)
    return max(one.units, one.redundant, *(-(-abs(number) // 2**31) for number in sums))


def reading_of(words: array[int], path: Optional[str]) -> Reading:
    """What the words of an image say."""
    fault = header_fault(words)
    if fault is not None:
        raise BadImage(fault)
    records = Records(words)
    records.read()
    for at, values in records.values.items():
        records.by_name[records.name(at)[0]].units = sum(count for count, _ in values.values())
    found = tuple(records.by_name[name] for name in sorted(records.by_name))
    used = sum(one.units if words[VERSION] == 1 else units_used_by(one) for one in found)
    damage = [Damage(path, at, why) for at, why in records.bad]
    damage += [Damage(path, None, records.stop)] if records.stop else []
    return Reading(
        found, images=1, full=words[FLAGS] >> 1 & 1, corrupt=words[FLAGS] & 1, stopped=int(records.stop is not None),
        bad=len(records.bad), damage=tuple(damage), added=() if path is None else (path,),
        segment=Segment(words[VERSION], words[ID], words[SIZE], words[PAGE], words[FREE], used),
    )


def decode_image(data: bytes) -> Reading:
    """Returns what the bytes of an image or of a mapped file say. `BadImage` if they are neither."""
    check_length(data[:16], len(data))
    return reading_of(image_in(in_file_order(array("Q", data))), None)


def read_image(path: Path) -> Reading:
    """Returns what the image in a file says, a closed one or the mapped file of a program that has ended. While a
    program counts in it, take a `look`. `BadImage` if it is no image; `OSError`."""
    name = os.fspath(path)
    with fault_at(name), open(name, "rb") as file:
        return image_from(file, b"", name)


def image_from(file: BinaryIO, front: bytes, path: str) -> Reading:
    """What an image says of which these first bytes were read."""
    data = front + file.read(MOST_MAPPED_BYTES + 1 - len(front))
    check_length(data[:16], len(data))
    return reading_of(image_in(in_file_order(array("Q", data))), path)
