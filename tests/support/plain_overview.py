"""A plain renderer of what `info` and `show --list` have to write, over the plain reader of images; it shares nothing
with the program."""

from __future__ import annotations

import collections
from collections.abc import Callable, Collection, Iterator
from typing import Any

from support import plain_adoption, plain_reader, plain_show
from support.layout import MOST_UNITS

MOST_COUNTED = 2**64 - 1
# What the columns of a list have at their heads.
HEADS = ["name", "kind", "units", "mean", "50%", "99%", "greatest"]
# Of a line, its first columns are aligned at the left.
LEFT = 2


def units_of(histogram: plain_reader.ReadHistogram) -> int:
    return sum(units for _, units in histogram["buckets"].values())


def info_lines(data: bytes, is_human: bool) -> Iterator[str]:
    """The lines of `info`; raises the image's fault."""
    words = plain_reader.words_of(data, collections.Counter())
    by_name, bad_records, stopped, flags = plain_reader.reading_of(data, collections.Counter())
    version, size, page, number, free = words[1], words[2], words[3], words[4], words[7]
    used_by = plain_adoption.used_by if version == 2 else units_of
    used = min(sum(map(used_by, by_name.values())), MOST_COUNTED)
    kinds = [plain_reader.KINDS[histogram["kind"]] for histogram in by_name.values()]

    def write(value: int) -> str:
        return plain_show.number(value, is_human)

    set_flags = [word for bit, word in ((1, "corrupt"), (2, "full")) if flags & bit]
    lines = {
        "version": write(version),
        "id": str(number),
        "size": f"{write(size)} words, {write(8 * size)} bytes",
        "page": f"{write(page)} words",
        "used": f"{write(free)} words",
        "free": f"{write(size - free)} words",
        "units used": write(used),
        "units left": write(max(0, MOST_UNITS - used)),
        "histograms": ", ".join(
            f"{write(kinds.count(kind))} {kind}" for kind in ("linear", "boolean", "custom", "sparse")
        ),
        "flags": ", ".join(set_flags) or "none",
        "bad records": write(len(bad_records)),
        "list": "whole" if stopped is None else f"stopped: {stopped}",
    }
    yield from (f"{label:13}{text}" for label, text in lines.items())


def list_rows(
    data: bytes, names: Collection[str], part: str | None, is_human: bool, is_by_units: bool = False
) -> Iterator[list[str]]:
    """The cells of each line of a list, without its heads: by name, or by units, the most first."""
    by_name = plain_reader.reading_of(data, collections.Counter())[0]
    shown = plain_show.shown_of(by_name, names, part)
    for name in sorted(shown, key=lambda name: (-units_of(by_name[name]), name)) if is_by_units else shown:
        histogram = by_name[name]
        kind = plain_reader.KINDS[histogram["kind"]]
        rows = [(low, high, units) for low, (high, units) in sorted(histogram["buckets"].items())]
        total = units_of(histogram)
        quantiles = [plain_show.quantile_of(rows, total, share, kind) for share in (500, 990, 1000)]
        mean = plain_show.mean_of(histogram["sum"], total, is_human)
        yield [name.decode(), kind, plain_show.number(total, is_human), mean, *quantiles]


def list_lines(
    data: bytes,
    names: Collection[str] = (),
    part: str | None = None,
    width: int = plain_show.WIDTH,
    is_human: bool = False,
    is_by_units: bool = False,
) -> Iterator[str]:
    """The lines of a list and the sentences after it; raises the image's fault."""
    by_name, bad_records, stopped, flags = plain_reader.reading_of(data, collections.Counter())
    rows = list(list_rows(data, names, part, is_human, is_by_units))
    table = [HEADS, *rows] if rows else []
    wide = [max(map(len, column)) for column in zip(*table)]
    for cells in table:
        room = max(4, width - sum(wide[1:]) - 2 * len(wide[1:]))
        first = min(wide[0], room)
        if len(cells[0]) > first:
            yield cells[0]
        name = "" if len(cells[0]) > first else cells[0]
        sides = ["<"] * (LEFT - 1) + [">"] * (len(HEADS) - LEFT)
        others = [f"{cell:{side}{columns}}" for cell, side, columns in zip(cells[1:], sides, wide[1:])]
        yield "  ".join([name.ljust(first), *others])
    yield from plain_show.ending_of(plain_show.shown_of(by_name, names, part), bad_records, stopped, flags)


def answer(lines: Callable[..., Iterator[str]], data: bytes, **options: Any) -> tuple[bytes, bytes, int]:
    """What a program that writes these lines writes to its two streams, and its status: a name that no histogram has is
    a fault after them."""
    try:
        text = "".join(f"{line}\n" for line in lines(data, **options)).encode()
        missing = plain_show.missing_of(data, options.get("names", ()))
    except plain_reader.ImageFault as fault:
        return b"", f"persist_report: {fault}\n".encode(), 3
    return (text, b"", 0) if missing is None else (text, f"persist_report: NoHistogram {missing}\n".encode(), 3)
