#!/usr/bin/env python3
"""A plain slow reader of images, written apart from the program, to compare its answers with.

It follows the text of the format one sentence at a time and shares nothing with the program. Beside the answer it
counts which of the format's rules came into play, so that a test can say what it has tried.

    plain_reader.py report [FILE]

prints the report of the image, or its fault on the error stream; without FILE it reads standard input.
"""

from __future__ import annotations

import collections
import pathlib
import struct
import sys
from collections.abc import Iterable, Sequence
from typing import Any

sys.path.insert(0, str(pathlib.Path(__file__).resolve().parents[1]))
from support.layout import (
    BLOCK_COOKIE, GREATEST, MOST_BYTES, MOST_PACKED, MOST_SUM, MOST_UNITS, MOST_WORDS, NAME, NO_BUCKET, QUEUE,
    SEGMENT_COOKIE, TOP,
)

# A mapped file has a word before the image, and up to nine after it.
MOST_MAPPED_BYTES = MOST_BYTES + 80
MAPPED_FRONT = struct.pack("<2Q", 0, SEGMENT_COOKIE)
KINDS = {1: "linear", 2: "boolean", 3: "custom", 4: "sparse"}

LISTED = """
TooLong; NotWords
TooShort; BadCookie; BadVersion; BadPage; BadSize, other than the words; BadSize, no whole pages; NotReady; Deleted
BadFree; BadQueue
a list that ends; Loop; stopped, BadRef below the first block; stopped, BadRef past the free pointer
stopped, BadBlock of another cookie; stopped, BadBlock too small; stopped, BadBlock past the free pointer
stopped, BadBlock in two pages
linear; boolean; custom; sparse; a type that is passed over
a later record of a name; a valid record after a faulty one
BadKind of a small block; BadKind of no kind
BadName by its length; BadName past the block; BadName by a byte; BadName by its first byte
BadSpec of a linear; BadSpec of a boolean; BadSpec of a custom's number of buckets; BadSpec past the block
BadSpec of ranges out of order; BadSpec of a range past the limit; BadSpec of a custom's ends; BadSpec of a sparse
BadSpec past the page
BadCounts, BadRef below the first block; BadCounts, BadRef past the free pointer; BadCounts, BadBlock of another cookie
BadCounts, BadBlock too small; BadCounts, BadBlock past the free pointer; BadCounts, BadBlock in two pages
BadCounts of another type; BadCounts of a block too small for them; BadCounts of a count; BadCounts with packed units
BadCounts with frozen units; BadCounts of a sparse
BadSingle of a packed word of no form; BadSingle of a packed word of no bucket
BadSingle of a disabled word of no form; BadSingle of a disabled word of no bucket
BadSingle of a disabled word without counts
BadSingle of a frozen word of no form; BadSingle of a frozen word of no bucket
BadSingle of a frozen word without counts
BadMark where nothing was packed; BadMark of the packed bucket in version 1; BadMark of the packed bucket in version 2
BadMark of another bucket
BadSum of the sum; BadSum of the mark; BadSum of the difference
single word empty; single word packed; single word disabled after packing; single word disabled without packing
single word frozen after packing; single word frozen without packing
counts beside an empty single word; counts beside packed units; units on their way
a mark of the packed bucket in version 1; a mark of the packed bucket in version 2
a mark on the counts that is not looked at in version 1; a mark on the counts that is not looked at in version 2
a mark of another bucket; a block of counts named twice; a name of 128 bytes; a name with padding that is not zero
a sample; a sample without units; a later sample of a value; the least value; the greatest value
BadSample of a small block; BadSample of no value; BadSample of a count; BadSample of a mark
BadSample of no histogram that was read; BadSample of a histogram that is not sparse
flag corrupt; flag full; a redundant count that differs
"""
RULES = [rule.strip() for rule in LISTED.replace("\n", ";").split(";") if rule.strip()]


# The words of an image; how often each rule came into play; what a histogram reads as, by its parts.
Words = Sequence[int]
Seen = collections.Counter[str]
ReadHistogram = dict[str, Any]


class ImageFault(Exception):
    """Why there is no report of an image; its text is what the program prints after its name."""


class Bad(Exception):
    """The fault of a block or a record, and the rule by which it has it."""

    def __init__(self, fault: str, rule: str) -> None:
        super().__init__(fault)
        self.fault = fault
        self.rule = rule


def require(holds: bool, fault: str, reason: str = "") -> None:
    if not holds:
        raise Bad(fault, f"{fault} {reason}".strip())


def require_image(holds: bool, fault: str, rule: str, seen: Seen) -> None:
    if not holds:
        seen[rule] += 1
        raise ImageFault(fault)


def signed(word: int) -> int:
    return word - 2**64 if word >= TOP else word


def words_of(data: bytes, seen: Seen) -> tuple[int, ...]:
    """The words of an image. Those of a mapped file begin at its second word, as many as the header there says."""
    is_mapped = data[:16] == MAPPED_FRONT
    require_image(len(data) <= (MOST_MAPPED_BYTES if is_mapped else MOST_BYTES), "TooLong", "TooLong", seen)
    require_image(len(data) % 8 == 0, "NotWords", "NotWords", seen)
    words = struct.unpack(f"<{len(data) // 8}Q", data)
    return words[1 : 1 + min(words[3], len(words))] if is_mapped and len(words) > 3 else words[is_mapped * len(words) :]


def check_header(words: Words, seen: Seen) -> None:
    def wanted(holds: bool, fault: str, reason: str = "") -> None:
        require_image(holds, f"Image {fault}", fault + reason, seen)

    wanted(len(words) >= 16, "TooShort")
    wanted(words[0] == SEGMENT_COOKIE, "BadCookie")
    wanted(words[1] in (1, 2), "BadVersion")
    size, page, state, free = words[2], words[3], words[5], words[7]
    wanted(page % 16 == 0 and 64 <= page <= 65_536, "BadPage")
    wanted(size == len(words) and size <= MOST_WORDS, "BadSize", ", other than the words")
    wanted(size % page == 0, "BadSize", ", no whole pages")
    wanted(state in (1, 2), "NotReady")
    wanted(state == 1, "Deleted")
    wanted(16 <= free <= size, "BadFree")
    wanted(words[12:15] == (4, 1, 0), "BadQueue")


def check_block(words: Words, reference: int) -> None:
    page, free = words[3], words[7]
    require(reference >= 16, "BadRef", "below the first block")
    require(reference + 5 <= free, "BadRef", "past the free pointer")
    size, cookie = words[reference], words[reference + 1]
    require(cookie == BLOCK_COOKIE, "BadBlock", "of another cookie")
    require(size >= 5, "BadBlock", "too small")
    require(reference + size <= free, "BadBlock", "past the free pointer")
    require(reference // page == (reference + size - 1) // page, "BadBlock", "in two pages")


def walk(words: Words, seen: Seen) -> tuple[list[int], str | None]:
    """The references on the list in their order, and the fault that stops it, or None."""
    met: dict[int, bool] = {}
    following = words[QUEUE + 3]
    while following != QUEUE:
        try:
            check_block(words, following)
        except Bad as bad:
            seen[f"stopped, {bad.rule}"] += 1
            return list(met), bad.fault
        if following in met:
            seen["Loop"] += 1
            return list(met), "Loop"
        met[following] = True
        following = words[following + 3]
    seen["a list that ends"] += 1
    return list(met), None


def name_of(words: Words, at: int, seen: Seen) -> bytes:
    length = words[at + 14]
    require(1 <= length <= 128, "BadName", "by its length")
    taken = -(-length // 8)
    require(15 + taken <= words[at], "BadName", "past the block")
    whole = struct.pack(f"<{taken}Q", *words[at + NAME : at + NAME + taken])
    name = whole[:length]
    require(all(0x21 <= byte <= 0x7E and byte not in b',"' for byte in name), "BadName", "by a byte")
    require(name[:1] != b"!", "BadName", "by its first byte")
    seen["a name of 128 bytes"] += length == 128
    seen["a name with padding that is not zero"] += any(whole[length:])
    return name


def linear_boundaries(least: int, most: int, n: int) -> list[int] | None:
    """The boundaries of a linear spec, or None if it is invalid."""
    if least == 0 or most <= least or most > GREATEST - 1 or n < 3 or n > 1000 or n > most - least + 2:
        return None
    inner = [(2 * (least * (n - 1 - i) + most * (i - 1)) + (n - 2)) // (2 * (n - 2)) for i in range(1, n)]
    return [0, *inner, GREATEST]


def custom_boundaries(words: Words, at: int, name: bytes) -> list[int]:
    least, most, n = words[at + 5 : at + 8]
    require(2 <= n <= 1000, "BadSpec", "of a custom's number of buckets")
    first = at + NAME + -(-len(name) // 8)
    require(first + n - 1 <= at + words[at], "BadSpec", "past the block")
    boundaries = [0, *words[first : first + n - 1]]
    require(all(low < high for low, high in zip(boundaries, boundaries[1:])), "BadSpec", "of ranges out of order")
    require(boundaries[-1] < GREATEST, "BadSpec", "of a range past the limit")
    require((least, most) == (boundaries[1], boundaries[-1]), "BadSpec", "of a custom's ends")
    return [*boundaries, GREATEST]


def boundaries_of(words: Words, at: int, name: bytes) -> list[int]:
    """The boundaries of the record's ranges; none of a sparse one."""
    kind, spec = words[at + 4], words[at + 5 : at + 8]
    if kind == 4:
        require(spec == (0, 0, 0), "BadSpec", "of a sparse")
        return []
    if kind == 3:
        boundaries = custom_boundaries(words, at, name)
    else:
        linear = linear_boundaries(*spec)
        require(kind == 2 or linear is not None, "BadSpec", "of a linear")
        require(kind == 1 or spec == (1, 2, 3), "BadSpec", "of a boolean")
        boundaries = linear or []
    require(4 + 2 * spec[2] <= words[3], "BadSpec", "past the page")
    return boundaries


def check_counts_block(words: Words, counts: int, n: int) -> None:
    try:
        check_block(words, counts)
    except Bad as bad:
        raise Bad("BadCounts", f"BadCounts, {bad.rule}") from None
    require(words[counts + 2] == 2, "BadCounts", "of another type")
    require(words[counts] >= 4 + 2 * n, "BadCounts", "of a block too small for them")


def kept_in(words: Words, at: int, n: int) -> tuple[int, int] | None:
    """The bucket and the units that the single word keeps beside the counts, or None if it keeps none.

    A packed word keeps them, and in version 2 a frozen one too.
    """
    version, single = words[1], words[at + 9]
    bucket, units = divmod(single % TOP if version == 2 else single, 2**32)
    return (bucket, units) if bucket < n and 1 <= units <= MOST_PACKED else None


def totals_of(words: Words, at: int, n: int) -> list[int]:
    """The totals of the buckets, after the checks of the counts."""
    counts = words[at + 8]
    totals = [0] * n
    if counts != 0:
        check_counts_block(words, counts, n)
        totals = list(words[counts + 4 : counts + 4 + n])
    require(all(total <= MOST_UNITS for total in totals), "BadCounts", "of a count")
    kept = kept_in(words, at, n)
    if kept is not None:
        bucket, units = kept
        totals[bucket] += units
        require(
            totals[bucket] <= MOST_UNITS, "BadCounts",
            "with packed units" if words[at + 9] < TOP else "with frozen units",
        )
    return totals


def packed_bucket(single: int, n: int, word: str) -> int:
    """The bucket of a single word that is packed, or that was when it was frozen."""
    bucket, units = divmod(single, 2**32)
    require(1 <= units <= MOST_PACKED, "BadSingle", f"of a {word} word of no form")
    require(bucket < n, "BadSingle", f"of a {word} word of no bucket")
    return bucket


def disabled_bucket(single: int, n: int) -> int | None:
    """The bucket of a single word that is disabled, as in version 1; None if nothing was packed."""
    bucket = single - TOP
    if bucket == NO_BUCKET:
        return None
    require(bucket < NO_BUCKET, "BadSingle", "of a disabled word of no form")
    require(bucket < n, "BadSingle", "of a disabled word of no bucket")
    return bucket


def frozen_bucket(single: int, n: int) -> int | None:
    """The bucket of a single word that is frozen, as in version 2; None if nothing was packed."""
    return None if single == TOP else packed_bucket(single - TOP, n, "frozen")


def named_bucket(words: Words, at: int, n: int, seen: Seen) -> int | None:
    """The bucket that is or was packed, or None, after the checks of the single word."""
    version, counts, single = words[1], words[at + 8], words[at + 9]
    if single == 0:
        seen["single word empty"] += 1
        seen["counts beside an empty single word"] += counts != 0
        return None
    if single < TOP:
        packed = packed_bucket(single, n, "packed")
        seen["single word packed"] += 1
        seen["counts beside packed units"] += counts != 0 and any(words[counts + 4 : counts + 4 + n])
        return packed
    word, bucket = ("disabled", disabled_bucket(single, n)) if version == 1 else ("frozen", frozen_bucket(single, n))
    require(counts != 0, "BadSingle", f"of a {word} word without counts")
    seen[f"single word {word} {'without' if bucket is None else 'after'} packing"] += 1
    return bucket


def most_single_mark(version: int, total: int) -> int:
    """The greatest valid mark of the packed bucket. In version 1 its units may be on their way to the counts."""
    return max(total, MOST_PACKED) if version == 1 else total


def check_marks(words: Words, at: int, totals: Sequence[int], named: int | None, seen: Seen) -> None:
    version, counts, single_mark = words[1], words[at + 8], words[at + 10]
    require(named is not None or single_mark == 0, "BadMark", "where nothing was packed")
    if named is not None:
        most = most_single_mark(version, totals[named])
        require(single_mark <= most, "BadMark", f"of the packed bucket in version {version}")
        seen["units on their way"] += single_mark > totals[named]
        seen[f"a mark of the packed bucket in version {version}"] += single_mark > 0
    if counts != 0:
        first = counts + 4 + len(totals)
        for bucket, total in enumerate(totals):
            mark = words[first + bucket]
            if bucket == named:
                seen[f"a mark on the counts that is not looked at in version {version}"] += mark > total
            else:
                require(mark <= total, "BadMark", "of another bucket")
                seen["a mark of another bucket"] += mark > 0


def marks_of(words: Words, at: int, n: int, named: int | None) -> list[int]:
    """The marks of the buckets: that of the packed bucket is in the record, the others come after the counts."""
    counts = words[at + 8]
    marks = list(words[counts + 4 + n : counts + 4 + 2 * n]) if counts else [0] * n
    if named is not None:
        marks[named] = words[at + 10]
    return marks


def check_sum(words: Words, at: int) -> None:
    total, mark = signed(words[at + 11]), signed(words[at + 12])
    require(abs(total) <= MOST_SUM, "BadSum", "of the sum")
    require(abs(mark) <= MOST_SUM, "BadSum", "of the mark")
    require(abs(total - mark) <= MOST_SUM, "BadSum", "of the difference")


def read_histogram(words: Words, at: int, seen: Seen) -> ReadHistogram:
    """What a histogram's record says; raises its first fault."""
    kind = words[at + 4]
    require(words[at] >= 16, "BadKind", "of a small block")
    require(kind in KINDS, "BadKind", "of no kind")
    name = name_of(words, at, seen)
    boundaries = boundaries_of(words, at, name)
    if kind == 4:
        require(words[at + 8 : at + 11] == (0, 0, 0), "BadCounts", "of a sparse")
        buckets, marks = {}, {}
    else:
        totals = totals_of(words, at, len(boundaries) - 1)
        named = named_bucket(words, at, len(totals), seen)
        check_marks(words, at, totals, named, seen)
        buckets = {low: (high, total) for low, high, total in zip(boundaries, boundaries[1:], totals)}
        marks = dict(zip(boundaries, marks_of(words, at, len(totals), named)))
    check_sum(words, at)
    return {
        "name": name,
        "kind": kind,
        "spec": (*words[at + 4 : at + 8], *boundaries),
        "boundaries": boundaries,
        "buckets": buckets,
        "marks": marks,
        "sum": signed(words[at + 11]),
        "sum mark": signed(words[at + 12]),
        "redundant": words[at + 13],
    }


def read_sample(words: Words, at: int, read_at: dict[int, ReadHistogram], seen: Seen) -> None:
    """Adds a sample to its histogram; raises its fault. `read_at` has the histograms that were read, by reference."""
    require(words[at] >= 8, "BadSample", "of a small block")
    owner, value, count, mark = words[at + 4], signed(words[at + 5]), words[at + 6], words[at + 7]
    require(-(2**31) <= value < 2**31, "BadSample", "of no value")
    require(count <= MOST_UNITS, "BadSample", "of a count")
    require(mark <= count, "BadSample", "of a mark")
    require(owner in read_at, "BadSample", "of no histogram that was read")
    histogram = read_at[owner]
    require(histogram["kind"] == 4, "BadSample", "of a histogram that is not sparse")
    if value in histogram["buckets"]:
        seen["a later sample of a value"] += 1
        return
    histogram["buckets"][value] = (value + 1, count)
    histogram["marks"][value] = mark
    seen["a sample"] += 1
    seen["a sample without units"] += count == 0
    seen["the least value"] += value == -(2**31)
    seen["the greatest value"] += value == 2**31 - 1


def read_records(
    words: Words, references: Iterable[int], seen: Seen
) -> tuple[dict[bytes, ReadHistogram], list[tuple[int, str]]]:
    """The histograms by their names, and the bad records with their faults in the order of the list."""
    by_name: dict[bytes, ReadHistogram] = {}
    read_at: dict[int, ReadHistogram] = {}
    bad_records: list[tuple[int, str]] = []
    bad_names: set[bytes] = set()
    counts_named: set[int] = set()
    for at in references:
        try:
            if words[at + 2] == 1:
                found = read_histogram(words, at, seen)
                if found["name"] in by_name:
                    seen["a later record of a name"] += 1
                else:
                    by_name[found["name"]] = read_at[at] = found
                    seen[KINDS[found["kind"]]] += 1
                    seen["a valid record after a faulty one"] += found["name"] in bad_names
                seen["a block of counts named twice"] += words[at + 8] in counts_named
                counts_named.update(words[at + 8 : at + 9] if words[at + 8] else ())
            elif words[at + 2] == 3:
                read_sample(words, at, read_at, seen)
            else:
                seen["a type that is passed over"] += 1
        except Bad as bad:
            seen[bad.rule] += 1
            bad_records.append((at, bad.fault))
            bad_names.update(valid_name(words, at))
    return by_name, bad_records


def valid_name(words: Words, at: int) -> list[bytes]:
    """The name of a record in a list, which is empty if the record has none."""
    try:
        return [name_of(words, at, collections.Counter())] if words[at + 2] == 1 and words[at] >= 16 else []
    except Bad:
        return []


def reading_of(
    data: bytes, seen: Seen
) -> tuple[dict[bytes, ReadHistogram], list[tuple[int, str]], str | None, int]:
    """What an image reads as: its histograms by their names, its bad records, why its list stops or None, and its word
    of flags; raises its fault if there is none."""
    words = words_of(data, seen)
    check_header(words, seen)
    references, stopped = walk(words, seen)
    by_name, bad_records = read_records(words, references, seen)
    return by_name, bad_records, stopped, words[6]


def report_of(data: bytes, seen: Seen) -> bytes:
    """The bytes of the report of an image; raises its fault if there is none."""
    by_name, bad_records, stopped, flags = reading_of(data, seen)
    lines, redundant = [], []
    for name in sorted(by_name):
        histogram = by_name[name]
        shown = name.decode()
        units = 0
        for low in sorted(histogram["buckets"]):
            high, count = histogram["buckets"][low]
            units += count
            if count != 0:
                lines.append(f"{shown},{KINDS[histogram['kind']]},{low},{high},{count}")
        lines.append(f"{shown},total,{units},{histogram['sum']}")
        if histogram["redundant"] != units:
            redundant.append(f"!redundant,{shown},{histogram['redundant']}")
    for bit, flag in ((1, "corrupt"), (2, "full")):
        if flags & bit:
            lines.append(f"!flag,{flag}")
            seen[f"flag {flag}"] += 1
    seen["a redundant count that differs"] += len(redundant)
    lines += redundant
    lines += [f"!bad,{at},{fault}" for at, fault in bad_records]
    lines += [f"!stopped,{stopped}"] if stopped else []
    return "".join(line + "\n" for line in lines).encode()


def answer(data: bytes, seen: Seen | None = None) -> tuple[bytes, bytes, int]:
    """What a program writes to its two streams, and its status. `seen` counts how often each rule came into play."""
    try:
        return report_of(data, collections.Counter() if seen is None else seen), b"", 0
    except ImageFault as fault:
        return b"", f"persist_report: {fault}\n".encode(), 3


def main(arguments: Sequence[str]) -> int:
    if arguments[:1] != ["report"] or len(arguments) > 2:
        print(__doc__, file=sys.stderr)
        return 2
    with open(arguments[1], "rb") if arguments[1:] else sys.stdin.buffer as file:
        output, error, status = answer(file.read())
    sys.stdout.buffer.write(output)
    sys.stderr.buffer.write(error)
    return status


if __name__ == "__main__":
    sys.exit(main(sys.argv[1:]))
