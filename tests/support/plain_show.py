"""A plain renderer of what `show` has to write, over the plain reader of images; it shares nothing with the program."""

from __future__ import annotations

import collections
import fractions
import math
from collections.abc import Collection, Iterable, Iterator, Sequence
from typing import Any, Optional

from support import plain_reader

# The least value of a bucket, what comes after it, and its units.
Row = tuple[int, int, int]
WIDTH = 80
LAST = 2147483647
MOST_VALUES = 20


def tenths(value: int) -> str:
    """A number of tenths with a point before the last digit."""
    return f"{value // 10}.{value % 10}"


def percent(part: int, whole: int) -> str:
    """To the nearest tenth, halves upward; only nothing is 0.0%, and only all is 100.0%."""
    share = math.floor(fractions.Fraction(part * 1000, whole) + fractions.Fraction(1, 2)) if whole else 0
    if share == 0 and part > 0:
        return "<0.1%"
    if share == 1000 and part < whole:
        return ">99.9%"
    return tenths(share) + "%"


def number(value: int, is_human: bool) -> str:
    """A number, with a comma between thousands if it is for people."""
    return f"{value:,}" if is_human else str(value)


def mean_of(total: int, units: int, is_human: bool) -> str:
    """Cut toward 0, with three digits that count, and never fewer than the whole part has."""
    if units == 0:
        return "none"
    if total == 0:
        return "0"
    size = fractions.Fraction(abs(total), units)
    digits = 0
    while size * 10**digits < 100:
        digits += 1
    cut = str(math.floor(size * 10**digits)).rjust(digits + 1, "0")
    point = len(cut) - digits
    whole = number(int(cut[:point]), is_human)
    return ("-" if total < 0 else "") + whole + ("." + cut[point:] if digits else "")


def bar_of(units: int, most: int, width: int, is_ascii: bool) -> str:
    """A bar in exactly `width` cells, rounded up to a whole sign or to an eighth of a block."""
    if units == 0:
        return " " * width
    if is_ascii:
        return ("#" * math.ceil(fractions.Fraction(units * width, most))).ljust(width)
    whole, part = divmod(math.ceil(fractions.Fraction(units * width * 8, most)), 8)
    return ("\u2588" * whole + ("", *"\u258f\u258e\u258d\u258c\u258b\u258a\u2589")[part]).ljust(width)


def height_of(units: int, is_log: bool) -> int:
    """What a bar shows: the units, or their logarithm, by straight lines between the powers of two."""
    if not is_log or units == 0:
        return units
    halvings = units.bit_length() - 1
    return math.floor(256 * (halvings + fractions.Fraction(units, 2**halvings)))


def values_of(kind: str, low: int, high: int) -> str:
    """The values of a bucket, or the one of a sparse histogram."""
    if kind == "sparse":
        return str(low)
    if kind == "boolean" and low < 2:
        return ("false", "true")[low]
    return f">= {low}" if high == LAST else f"[{low}, {high})"


def quantile_of(rows: Iterable[Row], total: int, thousandths: int, kind: str) -> str:
    """The values of the first row up to which there are at least `thousandths` thousandths of the units."""
    up_to = 0
    for low, high, units in rows:
        up_to += units
        if total > 0 and fractions.Fraction(up_to, total) >= fractions.Fraction(thousandths, 1000):
            return values_of(kind, low, high)
    return "none"


def ranks_of(rows: Sequence[Row], total: int, kind: str) -> Iterator[str]:
    """The quantiles, and the first and the last row that have units; a boolean histogram has neither line."""
    if kind != "boolean":
        quantiles = [("50%", 500), ("90%", 900), ("99%", 990), ("99.9%", 999)]
        yield "  " + ", ".join(f"{word}: {quantile_of(rows, total, share, kind)}" for word, share in quantiles)
        recorded = [values_of(kind, low, high) for low, high, units in rows if units] or ["none"]
        yield f"  least: {recorded[0]}, greatest: {recorded[-1]}"


def left_out_of(rows: Iterable[Row], kind: str, shows_all: bool) -> set[int]:
    """The values of a sparse histogram that have no line: those after the 20 with the most units, the lower first among
    equals."""
    if shows_all or kind != "sparse":
        return set()
    return {low for low, _, _ in sorted(rows, key=lambda row: (-row[2], row[0]))[MOST_VALUES:]}


def has_line(kind: str, row: Row) -> bool:
    """Whether a row has a line of its own: if it has units, or is false or true."""
    return row[2] > 0 or (kind == "boolean" and row[0] < 2)


# What each row has more than before, by its least value; None if this is not shown.
Came = Optional[dict[int, int]]


def came_of(histogram: plain_reader.ReadHistogram, before: plain_reader.ReadHistogram | None) -> dict[int, int]:
    """What came to each row since an earlier histogram, by its least value: all of it, if that has another spec or
    there is none."""
    had = before["buckets"] if before is not None and before["spec"] == histogram["spec"] else {}
    return {low: max(0, units - had.get(low, (0, 0))[1]) for low, (_, units) in histogram["buckets"].items()}


def sign_of(came: int, is_human: bool) -> str:
    return f"+{number(came, is_human)}" if came else ""


def rows_text(
    rows: Collection[Row], left_out: set[int], total: int, kind: str, width: int, is_ascii: bool, is_log: bool,
    is_human: bool, came: Came,
) -> Iterator[str]:
    """The heads and a line for each row that has one; the others are gaps, of which a boolean histogram has none."""
    most, up_to, was_empty = max((units for _, _, units in rows), default=0), 0, False
    names = [values_of(kind, row[0], row[1]) for row in rows if row[0] not in left_out and has_line(kind, row)]
    wide, digits = max(map(len, ["values", *names])), max(len("units"), len(number(most, is_human)))
    signs = {low: sign_of(one, is_human) for low, one in (came or {}).items() if low not in left_out}
    told = 0 if came is None else 1 + max(map(len, ["new", *signs.values()]))
    cells = max(0, width - told - len(f"  {'':{wide}}  {'':{digits}}  100.0%  100.0%"))
    if rows:
        head = "new".rjust(told) if told else ""
        yield f"  {'values'.rjust(wide)} {' ' * cells} {'units'.rjust(digits)}{head} percent   up to"
    for low, high, units in rows:
        up_to += units
        if low in left_out:
            continue
        if has_line(kind, (low, high, units)):
            bar = bar_of(height_of(units, is_log), height_of(most, is_log), cells, is_ascii)
            line = f"  {values_of(kind, low, high).rjust(wide)} {bar}"
            line += f" {number(units, is_human):>{digits}}{signs.get(low, '').rjust(told)}"
            yield f"{line}{percent(units, total):>8}{percent(up_to, total):>8}"
        elif not was_empty and kind != "boolean":
            yield "  " + "...".rjust(wide)
        was_empty = units == 0


def counted(count: int, word: str, is_human: bool) -> str:
    return number(count, is_human) + f" {word}" + ("" if count == 1 else "s")


def histogram_text(
    name: str, histogram: plain_reader.ReadHistogram, width: int, is_ascii: bool, shows_all: bool, is_log: bool,
    is_human: bool, explains: bool, is_live: bool, came: Came,
) -> Iterator[str]:
    kind = plain_reader.KINDS[histogram["kind"]]
    rows: list[Row] = [(low, high, units) for low, (high, units) in sorted(histogram["buckets"].items())]
    total = sum(units for _, _, units in rows)
    yield name
    if is_live and histogram["redundant"] != total:
        yield "  counted meanwhile"
    in_all = sign_of(sum(came.values()), is_human) if came is not None else ""
    units = number(total, is_human) + (f" {in_all}" if in_all else "")
    numbers = f"units {units}, sum {number(histogram['sum'], is_human)}"
    yield f"  {kind}, {numbers}, mean {mean_of(histogram['sum'], total, is_human)}"
    yield from ranks_of(rows, total, kind)
    if any(histogram["marks"].values()) or histogram["sum mark"]:
        left = sum(max(0, units - histogram["marks"][low]) for low, _, units in rows)
        rest = histogram["sum"] - histogram["sum mark"]
        yield f"  not yet taken by deltas: units {number(left, is_human)}, sum {number(rest, is_human)}"
    left_out = left_out_of(rows, kind, shows_all)
    yield from rows_text(rows, left_out, total, kind, width, is_ascii, is_log, is_human, came)
    if left_out:
        together = sum(units for low, _, units in rows if low in left_out)
        values, others = counted(len(left_out), "more value", is_human), counted(together, "unit", is_human)
        yield f"  {values}, with {others} in all (--all shows them)"
    if explains and histogram["redundant"] != total:
        yield f"  counted once more: {number(histogram['redundant'], is_human)}"
    yield ""


def shown_of(by_name: Iterable[bytes], names: Collection[str], part: str | None) -> list[bytes]:
    """The names of the histograms that are shown, in their order."""
    return [
        name
        for name in sorted(by_name)
        if (not names or name.decode() in names) and (part is None or part in name.decode())
    ]


def bars_of(
    data: bytes, names: Collection[str] = (), part: str | None = None, shows_all: bool = False
) -> Iterator[tuple[int, int]]:
    """The units of each row that has a bar, in the order of the text, and the most units of a row of its histogram."""
    by_name = plain_reader.reading_of(data, collections.Counter())[0]
    for name in shown_of(by_name, names, part):
        buckets = by_name[name]["buckets"]
        rows: list[Row] = [(low, high, units) for low, (high, units) in sorted(buckets.items())]
        kind = plain_reader.KINDS[by_name[name]["kind"]]
        left_out = left_out_of(rows, kind, shows_all)
        most = max((units for _, _, units in rows), default=0)
        yield from ((row[2], most) for row in rows if has_line(kind, row) and row[0] not in left_out)


def text_of(
    data: bytes,
    names: Collection[str] = (),
    part: str | None = None,
    width: int = WIDTH,
    is_ascii: bool = False,
    shows_all: bool = False,
    is_log: bool = False,
    is_human: bool = False,
    explains: bool = False,
    is_live: bool = False,
    since: bytes | None = None,
) -> bytes:
    """The whole text, with what came since an earlier image if there is one; raises the image's fault."""
    by_name, bad_records, stopped, flags = plain_reader.reading_of(data, collections.Counter())
    earlier = None if since is None else plain_reader.reading_of(since, collections.Counter())[0]
    lines: list[str] = []
    shown = shown_of(by_name, names, part)
    for name in shown:
        came = None if earlier is None else came_of(by_name[name], earlier.get(name))
        lines += histogram_text(
            name.decode(), by_name[name], width, is_ascii, shows_all, is_log, is_human, explains, is_live, came
        )
    lines += ending_of(shown, bad_records, stopped, flags)
    return "".join(f"{line}\n" for line in lines).encode()


def ending_of(
    shown: Collection[bytes], bad_records: Iterable[tuple[int, str]], stopped: str | None, flags: int
) -> Iterator[str]:
    """The sentences after these histograms."""
    if not shown:
        yield "No histogram is shown."
    if flags & 1:
        yield "The segment is marked as corrupt."
    if flags & 2:
        yield "The segment was full: an allocation did not fit."
    yield from (f"The record at word {reference} cannot be read: {fault}." for reference, fault in bad_records)
    if stopped is not None:
        yield f"The list of records stops before its end: {stopped}."


def missing_of(data: bytes, names: Iterable[str]) -> str | None:
    """The first of these names that no histogram has; raises the image's fault."""
    by_name = plain_reader.reading_of(data, collections.Counter())[0]
    return next((name for name in names if name.encode() not in by_name), None)


def answer(data: bytes, **options: Any) -> tuple[bytes, bytes, int]:
    """What a program writes to its two streams, and its status: a name that no histogram has is a fault after the
    text."""
    try:
        text, missing = text_of(data, **options), missing_of(data, options.get("names", ()))
    except plain_reader.ImageFault as fault:
        return b"", f"persist_report: {fault}\n".encode(), 3
    return (text, b"", 0) if missing is None else (text, f"persist_report: NoHistogram {missing}\n".encode(), 3)
