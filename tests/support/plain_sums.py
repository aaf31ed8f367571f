"""A plain sum of images and totals, over the plain reader of images; it shares nothing with the program.

The inputs are bytes, in their order. Each image that can be read has the number of those before it; those of a totals
follow in the same way.
"""

from __future__ import annotations

import collections
import contextlib
import dataclasses
import re
from collections.abc import Callable, Iterable, Iterator, Sequence
from typing import Any, TypeVar
from unittest import mock

from support import plain_reader
from support.layout import BOOLEAN, COOKIE_BYTES, CUSTOM, GREATEST, LEAST, LINEAR, SPARSE

T = TypeVar("T")

TOTALS = b"totals,1\n"
# The bytes that stand for an earlier sum where the plain reader reads a sum.
EARLIER = b"earlier"
MOST = 2**64 - 1

# An input that is added after others has only numbers of images below this.
NUMBER_LIMIT = 2**62
# The numbers that records have of the kinds.
NUMBERS = {word: number for number, word in plain_reader.KINDS.items()}
# The kind and the numbers after it, by which specs are ordered.
Spec = tuple[int, ...]


class Wrong(Exception):
    """Why an input is left out, as its line has it."""


class Less(Exception):
    """Why a sum is not after another, as the line of the fault has it."""


@dataclasses.dataclass
class Part:
    """What the histograms of one name and spec have: units and marks by key, and the rest."""

    units: dict[int, int]
    marks: dict[int, int]
    amounts: int
    taken: int
    redundant: int
    images: int
    least: int


@dataclasses.dataclass
class Sum:
    """A sum: its parts by name and spec, and how many images there are, are full, corrupt, stop, and are bad."""

    parts: dict[tuple[bytes, Spec], Part] = dataclasses.field(default_factory=dict)
    images: int = 0
    full: int = 0
    corrupt: int = 0
    stopped: int = 0
    bad: int = 0


# ---- what an input has


def spec_of(histogram: plain_reader.ReadHistogram) -> Spec:
    kind, least, most, buckets = histogram["spec"][:4]
    boundaries = histogram["boundaries"]
    behind = {LINEAR: (least, most, buckets), BOOLEAN: (), CUSTOM: tuple(boundaries[1:-1]), SPARSE: ()}
    return (kind, *behind[kind])


def of_image(data: bytes) -> Sum:
    by_name, bad_records, stopped, flags = plain_reader.reading_of(data, collections.Counter())
    whole = Sum(images=1, full=flags >> 1 & 1, corrupt=flags & 1)
    whole.stopped, whole.bad = int(stopped is not None), len(bad_records)
    for name, read in by_name.items():
        units = {low: count for low, (_, count) in read["buckets"].items()}
        marks = {low: read["marks"][low] for low in units}
        whole.parts[name, spec_of(read)] = Part(units, marks, read["sum"], read["sum mark"], read["redundant"], 1, 0)
    return whole


def has_its_keys(spec: Spec, keys: list[int]) -> bool:
    """Whether a spec is valid, and these are the least values of its buckets; a sparse one may have any keys."""
    kind, *numbers = spec
    if kind == LINEAR:
        boundaries = plain_reader.linear_boundaries(*numbers)
        return boundaries is not None and keys == boundaries[:-1]
    if kind == CUSTOM:
        valid = 0 < len(numbers) < 1000 and numbers == sorted({*numbers} - {0}) and numbers[-1] <= GREATEST - 1
        return valid and keys == [0, *numbers]
    return kind == SPARSE or keys == [0, 1, 2]


def number(text: str, least: int, most: int) -> int:
    """The number of a field, which has one spelling."""
    if not re.fullmatch("0|-?[1-9][0-9]*", text) or not least <= int(text) <= most:
        raise ValueError
    return int(text)


def many(texts: Iterable[str]) -> list[int]:
    return [number(text, 0, MOST) for text in texts]


class Lines:
    """The lines of totals, each as its fields, and the place of the one that is read now."""

    def __init__(self, data: bytes) -> None:
        self.all = [line.split(",") for line in data.decode("latin-1").split("\n")]
        self.at = 0

    def begins(self, *words: str) -> bool:
        """Whether this line begins with one of these words."""
        return self.all[self.at][0] in words

    def fields(self) -> list[str]:
        """The fields of this line, without the word with which it begins."""
        return self.all[self.at][1:]


def read_counts(lines: Lines) -> list[int]:
    """Reads the first two lines; the counts that these say of all images."""
    assert lines.all[0] == ["totals", "1"]
    lines.at = 1
    counts = many(lines.fields())
    if not lines.begins("images") or len(counts) != 5:
        raise ValueError
    lines.at = 2
    return counts


def is_name(name: bytes) -> bool:
    """Whether a histogram in a segment can have this name."""
    are_lawful = all(0x21 <= byte <= 0x7E and byte not in b',"' for byte in name)
    return 1 <= len(name) <= 128 and are_lawful and name[0] != 0x21


def part_of(fields: Sequence[str]) -> tuple[tuple[bytes, Spec], Part]:
    """The name and the spec that the line of a histogram says, and what it has beside its keys."""
    name, images, least, amounts, taken, redundant, kind, *behind = fields
    if not is_name(name.encode("latin-1")):
        raise ValueError
    spec = (NUMBERS[kind], *(number(text, 0, 2**32 - 1) for text in behind))
    if len(behind) != {LINEAR: 3, BOOLEAN: 0, CUSTOM: len(behind), SPARSE: 0}[spec[0]]:
        raise ValueError
    sums = [number(text, -(2**127), 2**127 - 1) for text in (amounts, taken)]
    return (name.encode("latin-1"), spec), Part({}, {}, *sums, *many([redundant, images, least]))


def read_keys(lines: Lines, part: Part) -> list[int]:
    """Reads the lines of keys into a part; the keys in the order of the lines."""
    keys = []
    while lines.begins("key"):
        value, units, marks = lines.fields()
        keys.append(number(value, LEAST, GREATEST))
        part.units[keys[-1]], part.marks[keys[-1]] = many([units, marks])
        lines.at += 1
    return keys


def read_histograms(lines: Lines, whole: Sum) -> tuple[int, int]:
    """Reads the lines of histograms and keys into a sum: how many histograms there are, and the number of the line of
    the first whose name is not above the one before, or whose keys or units cannot be; or 0."""
    count, wrong = 0, 0
    while lines.begins("hist"):
        here, part = part_of(lines.fields())
        lines.at += 1
        line = lines.at
        keys = read_keys(lines, part)
        is_above = not whole.parts or here > max(whole.parts)
        has_its = keys == sorted(set(keys)) and has_its_keys(here[1], keys)
        if not is_above or not has_its or sum(part.units.values()) > MOST:
            wrong = wrong or line
        whole.parts[here] = part
        count += 1
    return count, wrong


def read_end(lines: Lines, count: int) -> None:
    """Reads what follows this many histograms: the lines of folds, and the end."""
    while lines.begins("of", "fold"):
        many(lines.fields())
        lines.at += 1
    if lines.all[lines.at] != ["end", str(count)]:
        raise ValueError
    lines.at += 1
    if lines.all[lines.at :] != [[""]]:
        raise ValueError


def of_totals(data: bytes) -> Sum:
    """What the lines of totals say; raises the number of the line that is wrong, as a fault. If each line has the right
    form, that is the line of the first name that is not above the one before, or whose keys or units cannot be."""
    lines = Lines(data)
    try:
        whole = Sum({}, *read_counts(lines))
        count, wrong = read_histograms(lines, whole)
        read_end(lines, count)
    except (ValueError, IndexError, KeyError):
        raise Wrong(f"BadTotals {lines.at + 1}") from None
    if wrong:
        raise Wrong(f"BadTotals {wrong}")
    return whole


def of_input(data: bytes) -> Sum:
    """What an input has; raises why it is left out."""
    if data.startswith(TOTALS):
        return of_totals(data)
    try:
        return of_image(data)
    except plain_reader.ImageFault as fault:
        raise Wrong(str(fault)) from None


def is_taken(data: bytes) -> bool:
    """Whether a file of a folder is an input."""
    return data.startswith((TOTALS, COOKIE_BYTES, bytes(8) + COOKIE_BYTES))


# ---- sums


def both(one: Part, other: Part, behind: int) -> Part:
    return Part(
        {key: one.units.get(key, 0) + other.units.get(key, 0) for key in {**one.units, **other.units}},
        {key: one.marks.get(key, 0) + other.marks.get(key, 0) for key in {**one.units, **other.units}},
        one.amounts + other.amounts,
        one.taken + other.taken,
        one.redundant + other.redundant,
        one.images + other.images,
        min(one.least, other.least + behind),
    )


def fits(part: Part) -> bool:
    counts = [sum(part.units.values()), *part.marks.values(), part.redundant, part.images, part.least]
    return max(counts) <= MOST and max(abs(part.amounts), abs(part.taken)) < 2**127


def added(one: Sum, other: Sum) -> Sum:
    """The sum of both, one after the other; raises a fault if a total does not fit."""
    parts = dict(one.parts)
    for key, part in other.parts.items():
        if part.least >= NUMBER_LIMIT or part.least + one.images > MOST:
            raise Wrong("TooMany")
        none = Part({}, {}, 0, 0, 0, 0, part.least + one.images)
        parts[key] = both(parts.get(key, none), part, one.images)
        if not fits(parts[key]):
            raise Wrong("TooMany")
    counts = [getattr(one, name) + getattr(other, name) for name in ("images", "full", "corrupt", "stopped", "bad")]
    if max(counts) > MOST:
        raise Wrong("TooMany")
    return Sum(parts, *counts)


def sum_of(inputs: Iterable[tuple[T, bytes]]) -> tuple[Sum, list[tuple[T, str]]]:
    """The sum of inputs that have names, and which are left out, with the reasons."""
    whole, left = Sum(), []
    for name, data in inputs:
        try:
            whole = added(whole, of_input(data))
        except Wrong as wrong:
            left.append((name, str(wrong)))
    return whole, left


def shown(name: bytes) -> str:
    """A name as the line of a fault has it: of a long one the first 64 bytes."""
    return name.decode() if len(name) <= 64 else f"{name[:64].decode()}..."


def less(name: bytes, part: Part, before: Part) -> Part:
    """What a part has more than an earlier one; raises that it fell."""
    units = {key: part.units.get(key, 0) - before.units.get(key, 0) for key in {**part.units, **before.units}}
    marks = {key: part.marks.get(key, 0) - before.marks.get(key, 0) for key in units}
    redundant = part.redundant - before.redundant
    if min([*units.values(), *marks.values(), redundant]) < 0:
        raise Less(f"Fell {shown(name)}")
    return dataclasses.replace(
        part,
        units={key: units[key] for key in part.units},
        marks={key: marks[key] for key in part.units},
        amounts=part.amounts - before.amounts,
        taken=part.taken - before.taken,
        redundant=redundant,
    )


def since(now: Sum, old: Sum) -> Sum:
    """What came since an earlier sum; raises the first that fell, or that has another spec."""
    none, parts = Part({}, {}, 0, 0, 0, 0, 0), {}
    for name, spec in sorted({**now.parts, **old.parts}):
        before = old.parts.get((name, spec), none)
        if (name, spec) in now.parts:
            parts[name, spec] = less(name, now.parts[name, spec], before)
        elif any(other == name for other, _ in now.parts):
            raise Less(f"OtherSpec {shown(name)}")
        elif any([*before.units.values(), *before.marks.values(), before.amounts, before.taken, before.redundant]):
            raise Less(f"Fell {shown(name)}")
    return dataclasses.replace(now, parts=parts)


# ---- texts


def totals_text(whole: Sum) -> bytes:
    lines: list[Sequence[Any]] = [["totals", 1]]
    lines.append(["images", whole.images, whole.full, whole.corrupt, whole.stopped, whole.bad])
    for (name, spec), part in sorted(whole.parts.items()):
        front = [part.images, part.least, part.amounts, part.taken, part.redundant]
        lines.append(["hist", name.decode(), *front, plain_reader.KINDS[spec[0]], *spec[1:]])
        lines += [["key", key, part.units[key], part.marks[key]] for key in sorted(part.units)]
    lines.append(["end", len(whole.parts)])
    return "".join(",".join(map(str, line)) + "\n" for line in lines).encode()


def shown_of(whole: Sum) -> dict[bytes, tuple[Spec, Part]]:
    """Of each name the part that is shown: that of the first image that has the name."""
    shown: dict[bytes, tuple[Spec, Part]] = {}
    for (name, spec), part in sorted(whole.parts.items()):
        if name not in shown or part.least < shown[name][1].least:
            shown[name] = (spec, part)
    return shown


def reading_of(whole: Sum) -> tuple[dict[bytes, plain_reader.ReadHistogram], list[tuple[int, str]], None, int]:
    """The sum as a reading: with what each name has that is shown, and with the flags that some image has."""
    by_name: dict[bytes, plain_reader.ReadHistogram] = {}
    for name, (spec, part) in shown_of(whole).items():
        lows = sorted(part.units)
        if spec[0] == SPARSE:
            highs = [low + 1 for low in lows]
        else:
            highs = [*lows[1:], GREATEST]
        by_name[name] = {
            "name": name,
            "kind": spec[0],
            "spec": spec,
            "buckets": {low: (high, part.units[low]) for low, high in zip(lows, highs)},
            "marks": part.marks,
            "sum": part.amounts,
            "sum mark": part.taken,
            "redundant": part.redundant,
        }
    return by_name, [], None, int(whole.corrupt > 0) + 2 * int(whole.full > 0)


@contextlib.contextmanager
def read_as(whole: Sum, earlier: Sum | None = None) -> Iterator[None]:
    """While the plain reader reads any bytes as this sum, or those of EARLIER as an earlier one."""
    def read(data: bytes, *_rest: object) -> object:
        return reading_of(earlier if earlier and data == EARLIER else whole)

    with mock.patch.object(plain_reader, "reading_of", side_effect=read):
        yield


def text_by(whole: Sum, writer: Callable[..., bytes], **options: Any) -> bytes:
    """The text of a sum by a plain writer of the text of an image."""
    with read_as(whole):
        return writer(b"", **options)


def text_since(whole: Sum, earlier: Sum | None, writer: Callable[..., bytes], **options: Any) -> bytes:
    """The same, with what came since an earlier sum if there is one."""
    with read_as(whole, earlier):
        return writer(b"", since=None if earlier is None else EARLIER, **options)


def overview_of(whole: Sum, left: int) -> Iterator[str]:
    """The lines of the overview of a sum for people, of which `left` inputs were left out. Beside its images,
    histograms and units, it has those that are not 0."""
    shown = shown_of(whole)
    kinds = [plain_reader.KINDS[spec[0]] for spec, _ in shown.values()]
    counts = {
        "left out": left,
        "full": whole.full,
        "corrupt": whole.corrupt,
        "stopped": whole.stopped,
        "bad records": whole.bad,
        "other specs": len(whole.parts) - len(shown),
    }
    units = sum(sum(part.units.values()) for _, part in shown.values())
    yield f"images       {whole.images:,}"
    yield from (f"{label:13}{count:,}" for label, count in counts.items() if count)
    yield "histograms   " + ", ".join(
        f"{kinds.count(kind):,} {kind}" for kind in ("linear", "boolean", "custom", "sparse")
    )
    yield f"units        {min(units, MOST):,}"


def ending_of(whole: Sum, left: int) -> Iterator[str]:
    """The lines after the report of a sum: of how many images it is, what it does not show, what was left out."""
    shown = shown_of(whole)
    others = [
        (name, part) for (name, spec), part in sorted(whole.parts.items()) if shown[name][0] != spec
    ]
    if whole.images > 1 or left or others:
        yield f"!images,{whole.images}"
        for name, part in others:
            yield f"!other,{name.decode()},{part.images},{min(sum(part.units.values()), MOST)}"
        if left:
            yield f"!left,{left}"


def report_of(whole: Sum, left: int) -> bytes:
    with read_as(whole):
        report = plain_reader.report_of(b"", collections.Counter())
    return report + "".join(f"{line}\n" for line in ending_of(whole, left)).encode()
