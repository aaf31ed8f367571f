"""A plain renderer of what `export` has to write, over the plain reader of images; it shares nothing with the program.

It gives the samples first, and then their text, so that a parser of the format can be asked whether it reads the same
ones.
"""

from __future__ import annotations

import collections
import re
from collections.abc import Collection, Iterator, Mapping
from typing import Any, NamedTuple

from support import plain_reader

# A name without the prefix, labels, and a whole number.
Sample = tuple[str, dict[str, str], int]
Families = dict[str, list[Sample]]
PREFIX = "povundiri"
FAMILIES = {
    "units": ("histogram", "Units of a histogram up to the greatest value of each bucket."),
    "sparse_total": ("counter", "Units of each value of a sparse histogram."),
    "bad_records": ("gauge", "Records that could not be read, and one more where their list stops early."),
    "segment_flag": ("gauge", "Whether a flag of the segment is set."),
}
ESCAPES = {"\\": "\\\\", '"': '\\"', "\n": "\\n"}


KEY = re.compile(r"[a-zA-Z_][a-zA-Z0-9_]*", re.ASCII)
# The keys that a name cannot have.
KEPT = {"le", "name", "value", "kind", "histogram"}
NO_LABELS: Mapping[str, str] = {}


def is_own(key: str, value: str, taken: Collection[str]) -> bool:
    """Whether a label may come from a name, if lines have labels of these keys."""
    return (
        KEY.fullmatch(key) is not None
        and "__" not in key
        and key not in KEPT
        and key not in taken
        and value != ""
    )


def split(name: str, taken: Collection[str]) -> tuple[str, dict[str, str]]:
    """What the lines of a histogram name it, and the labels that its name gives it."""
    base, _, behind = name.partition("{")
    if base == "" or not behind.endswith("}"):
        return name, {}
    labels = [part.partition("=") for part in behind[:-1].split(";")]
    keys = [key for key, _, _ in labels]
    if not all(is_own(key, value, taken) for key, _, value in labels) or keys != sorted(set(keys)):
        return name, {}
    return base, {key: value for key, _, value in labels}


def labels_of(name: str, line_labels: Mapping[str, str]) -> dict[str, str]:
    """The labels of a histogram: what it is named, those of its name, and those of all lines."""
    base, own = split(name, line_labels)
    return {"histogram": base, **own, **line_labels}


def histogram_samples(labels: dict[str, str], histogram: dict[str, Any]) -> Iterator[Sample]:
    """A histogram that has ranges: the units up to each bucket's greatest value."""
    units = 0
    for low in sorted(histogram["buckets"]):
        high, count = histogram["buckets"][low]
        units += count
        yield "units_bucket", {**labels, "le": str(high - 1)}, units
    yield "units_bucket", {**labels, "le": "+Inf"}, units
    yield "units_sum", labels, histogram["sum"]
    yield "units_count", labels, units


def families_of(data: bytes, line_labels: Mapping[str, str] = NO_LABELS) -> Families:
    """The samples of each family, each a name without the prefix, labels and a whole number; raises the image's
    fault."""
    by_name, bad_records, stopped, flags = plain_reader.reading_of(data, collections.Counter())
    families: Families = {family: [] for family in FAMILIES}
    for name in sorted(by_name):
        histogram, labels = by_name[name], labels_of(name.decode(), line_labels)
        if plain_reader.KINDS[histogram["kind"]] != "sparse":
            families["units"] += histogram_samples(labels, histogram)
        else:
            for value in sorted(histogram["buckets"]):
                units = histogram["buckets"][value][1]
                families["sparse_total"].append(("sparse_total", {**labels, "value": str(value)}, units))
    families["bad_records"].append(("bad_records", {**line_labels}, len(bad_records) + (stopped is not None)))
    for bit, flag in ((1, "corrupt"), (2, "full")):
        families["segment_flag"].append(("segment_flag", {"flag": flag, **line_labels}, int(flags & bit != 0)))
    return families


def line_of(prefix: str, sample: Sample) -> str:
    name, labels, value = sample
    escaped = {label: "".join(ESCAPES.get(letter, letter) for letter in text) for label, text in labels.items()}
    inside = ",".join(f'{label}="{text}"' for label, text in escaped.items())
    return f"{prefix}_{name}{{{inside}}} {value}\n" if labels else f"{prefix}_{name} {value}\n"


def text_of(families: Families, prefix: str = PREFIX) -> bytes:
    lines: list[str] = []
    for family, samples in families.items():
        kind, meaning = FAMILIES[family]
        lines += [f"# HELP {prefix}_{family} {meaning}\n", f"# TYPE {prefix}_{family} {kind}\n"]
        lines += [line_of(prefix, sample) for sample in samples]
    return "".join(lines).encode()


def answer(
    data: bytes, prefix: str = PREFIX, line_labels: Mapping[str, str] = NO_LABELS
) -> tuple[bytes, bytes, int]:
    """What a program writes to its two streams, and its status."""
    try:
        return text_of(families_of(data, line_labels), prefix), b"", 0
    except plain_reader.ImageFault as fault:
        return b"", f"persist_report: {fault}\n".encode(), 3


# ---- a family for each histogram

# What a family for a histogram is: its type, its meaning and the sample of a number.
UNITS, VALUES = FAMILIES["units"], ("untyped", "Units of each value of a sparse histogram.")
SUMS = ("untyped", "Sum of the values of a sparse histogram, which may fall.")
ENDS = ("_bucket", "_sum", "_count")
OF_SEGMENT = ("bad_records", "segment_flag")


class Clash(Exception):
    """Two names that cannot be families side by side."""


class Member(NamedTuple):
    """A histogram of a family: its name, the family, its own labels, its kind, and what was read of it."""

    name: str
    family: str
    own: dict[str, str]
    kind: str
    histogram: dict[str, Any]


def member_of(name: str, histogram: dict[str, Any], taken: Collection[str]) -> Member:
    """A histogram as a member of its family, if lines have labels of these keys."""
    base, own = split(name, taken)
    family = re.sub("[^a-zA-Z0-9_]", "_", base)
    return Member(name, family, own, plain_reader.KINDS[histogram["kind"]], histogram)


def clash(one: Member, other: Member) -> bool:
    """Whether two histograms cannot be families side by side."""
    if one.family == other.family:
        return one.kind != other.kind or one.own == other.own
    ends = {f"{family}{end}" for family in (one.family, other.family) for end in ENDS}
    return one.family in ends or other.family in ends


def first_clash(members: list[Member]) -> tuple[str, str] | None:
    """The first histogram that clashes with a family of the segment or a later one, and with which."""
    for i, one in enumerate(members):
        if one.family in OF_SEGMENT:
            return one.name, one.family
        for other in members[i + 1 :]:
            if clash(one, other):
                return one.name, other.name
    return None


def named_lines(prefix: str, members: list[Member], line_labels: Mapping[str, str]) -> Iterator[str]:
    """The lines of the histograms of one family."""
    name = members[0].family
    units: list[Sample] = []
    values: list[Sample] = []
    sums: list[Sample] = []
    for member in members:
        labels = {**member.own, **line_labels}
        if member.kind != "sparse":
            of_one = histogram_samples(labels, member.histogram)
            units += [(sample.replace("units", name, 1), of_it, value) for sample, of_it, value in of_one]
        else:
            buckets = member.histogram["buckets"]
            values += [(name, {**labels, "value": str(value)}, buckets[value][1]) for value in sorted(buckets)]
            sums.append((f"{name}_sum", labels, member.histogram["sum"]))
    if members[0].kind != "sparse":
        families = [(name, UNITS, units)]
    else:
        families = [(name, VALUES, values), (f"{name}_sum", SUMS, sums)]
    for family, (kind, meaning), samples in families:
        yield f"# HELP {prefix}_{family} {meaning}\n# TYPE {prefix}_{family} {kind}\n"
        yield from (line_of(prefix, sample) for sample in samples)


def named_text(data: bytes, prefix: str = PREFIX, line_labels: Mapping[str, str] = NO_LABELS) -> bytes:
    """The text with a family for each histogram; raises the image's fault, or the clash."""
    by_name = plain_reader.reading_of(data, collections.Counter())[0]
    members = [member_of(name.decode(), by_name[name], line_labels) for name in sorted(by_name)]
    names = first_clash(members)
    if names is not None:
        raise Clash(*names)
    families: dict[str, list[Member]] = {}
    for member in members:
        families.setdefault(member.family, []).append(member)
    lines = [line for of_one in families.values() for line in named_lines(prefix, of_one, line_labels)]
    of_segment = families_of(data, line_labels)
    rest = {family: of_segment[family] for family in OF_SEGMENT}
    return "".join(lines).encode() + text_of(rest, prefix)


def named_answer(
    data: bytes, prefix: str = PREFIX, line_labels: Mapping[str, str] = NO_LABELS
) -> tuple[bytes, bytes, int]:
    """What a program writes to its two streams with a family for each histogram, and its status."""
    try:
        return named_text(data, prefix, line_labels), b"", 0
    except plain_reader.ImageFault as fault:
        return b"", f"persist_report: {fault}\n".encode(), 3
    except Clash as names:
        return b"", f"persist_report: Clash {names.args[0]} {names.args[1]}\n".encode(), 3
