"""Families of images that grow, each with the report that it has to give.

A family is a function of a number of words; it gives an `Image`. VALID has those that a segment can become, FORGED
those that somebody made to keep a reader busy.
"""

from __future__ import annotations

import dataclasses
import pathlib
import random
import sys
from collections.abc import Callable, Iterable, Iterator, Mapping

sys.path.insert(0, str(pathlib.Path(__file__).resolve().parents[1] / "tests"))
from support import layout
from support.layout import (
    BLOCK_COOKIE,
    BOOLEAN,
    COUNTS,
    CUSTOM,
    FIRST,
    FROZEN,
    GREATEST,
    HISTOGRAM,
    LINEAR,
    MOST_BUCKETS,
    NOTHING_PACKED,
    PURGED,
    QUEUE,
    SAMPLE,
    SPARSE,
)


@dataclasses.dataclass
class Image:
    """The bytes of an image, the pieces of its report, how many buckets its reading has, and what it holds."""

    data: bytes
    report: Callable[[], Iterable[bytes]]
    listed: int
    holds: str


class Segment(layout.Words):
    """The words of a segment, claimed from the front, and its list."""

    def __init__(self, size: int) -> None:
        super().__init__(size, min(layout.PAGE, size))

    def first_block(self, size: int, tag: int) -> int:
        """A block that fits."""
        at = self.block(size, tag)
        assert at is not None, "no room for a block"
        return at

    def publish_all(self, references: Iterable[int], is_scattered: bool) -> list[int]:
        """Publishes blocks as they come, or shuffled; returns them in the order of the list."""
        listed = list(references)
        if is_scattered:
            random.Random(7).shuffle(listed)
        for at in listed:
            self.publish(at)
        return listed


def adoptable(data: bytes) -> bytes:
    """The bytes of a valid image as one of version 2, which may be adopted: there a single word that was disabled
    before anything was packed has another form."""
    words = layout.words_of(data)
    words[1] = 2
    for at, word in enumerate(words):
        if word == NOTHING_PACKED:
            words[at] = FROZEN
    return layout.data_of(words)


def names_of(count: int, length: int = 8) -> list[str]:
    """Distinct names of at most eight bytes, or of just `length` if that is more, in no order."""
    numbers = random.Random(1).sample(range(16**7), count)
    return [f"h{number:x}".ljust(length if length > 8 else 0, "x") for number in numbers]


def words_of(name: str) -> list[int]:
    data = name.encode()
    return [int.from_bytes(data[i : i + 8], "little") for i in range(0, len(data), 8)]


def linear_boundaries(least: int, most: int, n: int) -> list[int]:
    inner = [(2 * (least * (n - 1 - i) + most * (i - 1)) + (n - 2)) // (2 * (n - 2)) for i in range(1, n)]
    return [0, *inner, GREATEST]


def in_order(by_name: Mapping[str, str]) -> Callable[[], Iterator[bytes]]:
    """The pieces of a report, from the text of each name."""
    return lambda: (by_name[name].encode() for name in sorted(by_name))


def boolean_histograms(size: int, names: Iterable[str], is_scattered: bool = False) -> Image:
    """As many boolean histograms as fit, each with a packed bucket."""
    segment = Segment(size)
    by_name, references = {}, []
    for i, name in enumerate(names):
        name_words = words_of(name)
        at = segment.block(15 + len(name_words), HISTOGRAM)
        if at is None:
            break
        bucket, units = i % 3, 1 + i % 60_000
        single = bucket * 2**32 + units
        segment.store(at + 4, BOOLEAN, 1, 2, 3, 0, single, 0, bucket * units, 0, units, len(name), *name_words)
        references.append(at)
        low, high = bucket, [1, 2, GREATEST][bucket]
        by_name[name] = f"{name},boolean,{low},{high},{units}\n{name},total,{units},{bucket * units}\n"
    segment.publish_all(references, is_scattered)
    return Image(segment.bytes(), in_order(by_name), 3 * len(by_name), f"{len(by_name):,} histograms")


def boolean(size: int) -> Image:
    """Boolean histograms of 16 words, each with a packed bucket, with unsorted names."""
    return boolean_histograms(size, names_of(size // 16))


def alike_names(count: int) -> list[str]:
    """Distinct names that differ in the last eight of their 128 bytes alone."""
    return [f"{'n' * 120}{number:08}" for number in random.Random(9).sample(range(10**8), count)]


def alike(size: int) -> Image:
    """Boolean histograms of 31 words, whose names differ in the last eight of their 128 bytes alone."""
    return boolean_histograms(size, alike_names(size // 31))


def sparse_samples(size: int, is_scattered: bool) -> Image:
    """One sparse histogram and as many samples as fit, with unsorted values."""
    segment = Segment(size)
    chance = random.Random(2)
    record = segment.first_block(16, HISTOGRAM)
    segment.publish(record)
    references, lines, units, total = [], [], 0, 0
    for value in chance.sample(range(-(2**31), 2**31), size // 8):
        at = segment.block(8, SAMPLE)
        if at is None:
            break
        count = chance.randrange(1, 32_768)
        segment.store(at + 4, record, value % 2**64, count, 0)
        references.append(at)
        lines.append((value, f"S,sparse,{value},{value + 1},{count}\n"))
        units += count
        total += value * count
    segment.publish_all(references, is_scattered)
    segment.store(record + 4, SPARSE, 0, 0, 0, 0, 0, 0, total % 2**64, 0, units, 1, ord("S"))
    text = "".join(line for _, line in sorted(lines)) + f"S,total,{units},{total}\n"
    return Image(segment.bytes(), lambda: [text.encode()], 0, f"{len(lines):,} samples")


def sparse(size: int) -> Image:
    """One sparse histogram and as many samples as fit, with unsorted values."""
    return sparse_samples(size, is_scattered=False)


def linear_histograms(
    size: int, spec: tuple[int, int, int], names: Iterable[str], most_count: int, seed: int = 3
) -> Image:
    """As many linear histograms as fit, at most one for each name, with all counts used."""
    n = spec[2]
    boundaries = linear_boundaries(*spec)
    segment = Segment(size)
    chance = random.Random(seed)
    by_name = {}
    for name in names:
        name_words = words_of(name)
        at = segment.block(15 + len(name_words), HISTOGRAM)
        counts_at = segment.block(4 + 2 * n, COUNTS) if at is not None else None
        if at is None or counts_at is None:
            break
        counts = [chance.randrange(1, most_count) for _ in range(n)]
        units = sum(counts)
        total = sum(low * count for low, count in zip(boundaries, counts))
        record = [LINEAR, *spec, counts_at, NOTHING_PACKED, 0, total, 0, units, len(name), *name_words]
        segment.store(at + 4, *record)
        segment.store(counts_at + 4, *counts)
        segment.publish(at)
        lines = [f"{name},linear,{boundaries[i]},{boundaries[i + 1]},{count}\n" for i, count in enumerate(counts)]
        by_name[name] = "".join(lines) + f"{name},total,{units},{total}\n"
    return Image(segment.bytes(), in_order(by_name), n * len(by_name), f"{len(by_name):,} histograms")


def linear(size: int) -> Image:
    """Linear histograms of 30 buckets, each with its own block of counts, all of them used."""
    return linear_histograms(size, (1, 10_000, 30), names_of(size // 60), 16_000)


def largest(size: int) -> Image:
    """Linear histograms of 1,000 buckets with names of 128 bytes and all counts used: the longest of these reports."""
    names = names_of(size // (2 * MOST_BUCKETS), 128)
    return linear_histograms(size, (1_000_000_000, GREATEST - 1, MOST_BUCKETS), names, 10_000)


def distinct_limits(count: int) -> list[int]:
    """Distinct maxima of linear specs whose four bytes are a valid name, in no order."""
    valid = [byte for byte in range(0x23, 0x7F) if byte != ord(",")]
    numbers = random.Random(4).sample(range(len(valid) ** 4), count)
    side = len(valid)
    places = [side**3, side**2, side, 1]
    return [int.from_bytes(bytes(valid[number // place % side] for place in places), "little") for number in numbers]


def overlapping_records(size: int, last_mark: int) -> tuple[bytes, list[str], list[int]]:
    """Records of 16 words that begin every nine words, each with 1,000 buckets, all with one block of counts.

    The single word of each is the size of the next, 16 packed units of bucket 0; its single mark is the next one's
    cookie, which the count of bucket 0 allows; its sum is the next one's type, its sum mark the next one's next and
    its redundant count the next one's kind; the length of its name is the next one's minimum, 4; and its name is
    the next one's maximum. Returns the bytes, the names and the references.
    """
    stride, overlap = 9, 16
    segment = Segment(size)
    counts_at = segment.first_block(4 + 2 * MOST_BUCKETS, COUNTS)
    segment.words[counts_at + 4] = BLOCK_COOKIE
    segment.words[counts_at + 4 + 2 * MOST_BUCKETS - 1] = last_mark
    limits = distinct_limits(size // stride)
    names: list[str] = []
    references: list[int] = []
    while segment.free < size:
        fitting = (segment.room() - overlap) // stride + 1
        for _ in range(fitting):
            at = segment.free
            most, following = limits[len(names) : len(names) + 2]
            segment.store(at, overlap, BLOCK_COOKIE, HISTOGRAM, QUEUE, LINEAR, 4, most, MOST_BUCKETS, counts_at)
            segment.store(at + 9, overlap, BLOCK_COOKIE, HISTOGRAM, 0, LINEAR, 4, following)
            segment.publish(at)
            segment.free += stride
            names.append(following.to_bytes(4, "little").decode())
            references.append(at)
        segment.free = min(size, segment.free + segment.room())
    return segment.bytes(), names, references


def shared(size: int) -> Image:
    """Records of 16 words that begin every nine words, each with 1,000 buckets, all with one block of counts."""
    data, names, _ = overlapping_records(size, 0)
    units = BLOCK_COOKIE + 16
    by_name = {name: f"{name},linear,0,4,{units}\n{name},total,{units},1\n" for name in names}
    redundant = "".join(f"!redundant,{name},{LINEAR}\n" for name in sorted(names)).encode()
    return Image(
        data, lambda: [*in_order(by_name)(), redundant], MOST_BUCKETS * len(names), f"{len(names):,} histograms"
    )


def refused(size: int) -> Image:
    """Records as those of `shared`, each bad because of the mark of its last bucket, which is checked last."""
    data, _, references = overlapping_records(size, 1)
    report = lambda: ["".join(f"!bad,{at},BadMark\n" for at in references).encode()]
    return Image(data, report, 0, f"{len(references):,} bad records")


def lines(size: int) -> Image:
    """Linear histograms of 1,000 buckets with names of 128 bytes, and one block of counts, all of them used."""
    spec = (1_000_000_000, GREATEST - 1, MOST_BUCKETS)
    boundaries = linear_boundaries(*spec)
    count = 4_000_000_000
    units = count * MOST_BUCKETS
    segment = Segment(size)
    counts_at = segment.first_block(4 + 2 * MOST_BUCKETS, COUNTS)
    segment.store(counts_at + 4, *[count] * MOST_BUCKETS)
    taken = []
    for name in names_of(size // 31, 128):
        at = segment.block(31, HISTOGRAM)
        if at is None:
            break
        record = [LINEAR, *spec, counts_at, NOTHING_PACKED, 0, 0, 0, units, len(name), *words_of(name)]
        segment.store(at + 4, *record)
        segment.publish(at)
        taken.append(name)
    text = "".join(f"@,linear,{boundaries[i]},{boundaries[i + 1]},{count}\n" for i in range(MOST_BUCKETS))
    text += f"@,total,{units},0\n"
    report = lambda: (text.replace("@", name).encode() for name in sorted(taken))
    return Image(segment.bytes(), report, MOST_BUCKETS * len(taken), f"{len(taken):,} histograms")


def custom(size: int) -> Image:
    """Custom histograms of 999 ranges, each with a packed bucket; every other one has its last range out of order."""
    segment = Segment(size)
    chance = random.Random(6)
    by_name, bad = {}, []
    for i, name in enumerate(names_of(size // 1000 + 1)):
        at = segment.block(15 + 1 + MOST_BUCKETS - 1, HISTOGRAM)
        if at is None:
            break
        ranges = sorted(chance.sample(range(1, GREATEST), MOST_BUCKETS - 1))
        single = 2**32 + 1
        head = [CUSTOM, ranges[0], ranges[-1], MOST_BUCKETS, 0, single, 0, 0, 0, 1, len(name), *words_of(name)]
        if i % 2 == 1:
            ranges[-1] = ranges[-2]
            bad.append(f"!bad,{at},BadSpec\n")
        else:
            by_name[name] = f"{name},custom,{ranges[0]},{ranges[1]},1\n{name},total,1,0\n"
        segment.store(at + 4, *head, *ranges)
        segment.publish(at)
    report = lambda: [*in_order(by_name)(), "".join(bad).encode()]
    return Image(segment.bytes(), report, MOST_BUCKETS * len(by_name), f"{len(by_name) + len(bad):,} records")


def overlapping_blocks(size: int, tag: int) -> tuple[bytes, list[int]]:
    """Blocks of five words that begin every four words, on one list that goes through them in no order."""
    segment = Segment(size)
    references: list[int] = []
    for page in range(0, size, segment.page):
        first = max(page, FIRST)
        references += range(first, page + segment.page - 4, 4)
    for at in references:
        segment.store(at, 5, BLOCK_COOKIE, tag)
    listed = segment.publish_all(references, is_scattered=True)
    for at in range(segment.page, size + 1, segment.page):
        if segment.words[at - 4] == 0:
            segment.words[at - 4] = 5
    segment.free = size
    return segment.bytes(), listed


def scattered(size: int) -> Image:
    """A list as long as fits, of blocks of another type, so that each step of a walk has to wait for memory."""
    data, references = overlapping_blocks(size, PURGED)
    return Image(data, lambda: [], 0, f"{len(references):,} blocks")


def scattered_faults(size: int) -> Image:
    """The same of histogram records that are all too small."""
    data, references = overlapping_blocks(size, HISTOGRAM)
    report = lambda: ["".join(f"!bad,{at},BadKind\n" for at in references).encode()]
    return Image(data, report, 0, f"{len(references):,} bad records")


def scattered_samples(size: int) -> Image:
    """The samples of `sparse`, on a list that goes through them in no order."""
    return sparse_samples(size, is_scattered=True)


def scattered_alike(size: int) -> Image:
    """The histograms of `alike`, on a list that goes through them in no order."""
    return boolean_histograms(size, alike_names(size // 31), is_scattered=True)


def samples(size: int) -> Image:
    """Samples that begin every five words, so that the size of each is the value of the one before it.

    The cookie of each is the count of the one before it, and its type the mark. There are not as many sizes as
    blocks, so most values come again and again, in no order.
    """
    stride, smallest = 5, 8
    segment = Segment(size)
    chance = random.Random(8)
    record = segment.first_block(16, HISTOGRAM)
    segment.publish(record)
    values, number = set(), 0
    while segment.free < size:
        fitting = (segment.room() - smallest) // stride + 1
        for _ in range(fitting):
            at = segment.free
            following = at + stride
            rest = segment.page - following % segment.page
            value = chance.randrange(smallest, rest + 1) if rest >= smallest else 1
            segment.store(
                at, segment.words[at] or smallest, BLOCK_COOKIE, SAMPLE, QUEUE, record, value, BLOCK_COOKIE, SAMPLE
            )
            segment.publish(at)
            segment.free += stride
            values.add(value)
            number += 1
        segment.free = min(size, segment.free + segment.room())
    units = len(values) * BLOCK_COOKIE
    segment.store(record + 4, SPARSE, 0, 0, 0, 0, 0, 0, 0, 0, units, 1, ord("S"))
    text = "".join(f"S,sparse,{value},{value + 1},{BLOCK_COOKIE}\n" for value in sorted(values))
    text += f"S,total,{units},0\n"
    return Image(segment.bytes(), lambda: [text.encode()], 0, f"{number:,} samples")


MIB = 131_072
VALID = {
    "boolean": boolean,
    "alike": alike,
    "sparse": sparse,
    "linear": linear,
    "largest": largest,
}
FORGED = {
    "shared": shared,
    "refused": refused,
    "custom": custom,
    "scattered": scattered,
    "scattered_faults": scattered_faults,
    "scattered_samples": scattered_samples,
    "scattered_alike": scattered_alike,
    "samples": samples,
}
FAMILIES: dict[str, tuple[Callable[[int], Image], list[int]]] = {
    name: (make, [MIB, 8 * MIB]) for name, make in {**VALID, **FORGED}.items()
}
FAMILIES["lines"] = (lines, [MIB // 8, MIB])
