"""What `report --rows` has to write, and with which fault `--whole` has to end, over the plain reader of images; it
shares nothing with the program."""

from __future__ import annotations

import collections
import csv
import io

from support import plain_reader

COLUMNS = ["name", "kind", "low", "high", "count"]
# What a program writes to its two streams, and its status.
Wanted = tuple[bytes, bytes, int]


def rows_of(data: bytes) -> bytes:
    """The table of an image: the columns, and a line for each bucket that has units; raises the image's fault."""
    by_name = plain_reader.reading_of(data, collections.Counter())[0]
    text = io.StringIO()
    writer = csv.writer(text, lineterminator="\n")
    writer.writerow(COLUMNS)
    for name, histogram in sorted(by_name.items()):
        for low, (high, units) in sorted(histogram["buckets"].items()):
            if units > 0:
                writer.writerow([name.decode(), plain_reader.KINDS[histogram["kind"]], low, high, units])
    return text.getvalue().encode()


def rows(data: bytes) -> Wanted:
    try:
        return rows_of(data), b"", 0
    except plain_reader.ImageFault as fault:
        return b"", f"persist_report: {fault}\n".encode(), 3


def damage_of(data: bytes) -> str | None:
    """The first bad record, or if none is bad why the list of records stops early; raises the image's fault."""
    _, bad_records, stopped, _ = plain_reader.reading_of(data, collections.Counter())
    if bad_records:
        reference, fault = bad_records[0]
        return f"Bad {reference} {fault}"
    return None if stopped is None else f"Stopped {stopped}"


def whole(data: bytes, without: Wanted) -> Wanted:
    """What comes with `--whole`, if this comes without it and is no fault: the same text, and then the fault."""
    output, error, status = without
    if status != 0:
        return without
    damage = damage_of(data)
    return (output, error, status) if damage is None else (output, f"persist_report: {damage}\n".encode(), 3)
