"""The package of Python, `python/povundiri`: loaded as it is or with an edit, and the texts of the program made of what
it reads.

A text has nothing but what is in the package's readings: what the program writes is compared with it.
"""

from __future__ import annotations

import importlib.util
import pathlib
import re
import shutil
import sys
from collections.abc import Iterable, Iterator
from typing import Any

from support import plain_show
from support.layout import MOST_UNITS
from support.program import ROOT

PACKAGE = ROOT / "python" / "povundiri"
MOST_COUNTED = 2**64 - 1
KINDS = ("linear", "boolean", "custom", "sparse")
QUANTILES = ("0.5", "0.9", "0.99", "0.999")
# In the text for people, the lines of a histogram's numbers and quantiles.
SHOWN = re.compile(
    rb"^  (?:linear|boolean|custom|sparse), units .*$|^  50%: .*$|^  least: .*$|^  not yet taken by deltas: .*$", re.M
)
# A module of Python that was loaded: of a package with an edit nobody knows the types.
Package = Any


def loaded(name: str, folder: pathlib.Path) -> Package:
    """The package in a folder, as a module of this name."""
    spec = importlib.util.spec_from_file_location(
        name, folder / "__init__.py", submodule_search_locations=[str(folder)]
    )
    assert spec is not None and spec.loader is not None
    module = importlib.util.module_from_spec(spec)
    sys.modules[name] = module
    spec.loader.exec_module(module)
    return module


def edited(name: str, folder: pathlib.Path, file: str, old: str, new: str) -> Package:
    """A copy of the package in a folder that is made, in which one line of a file has other words."""
    shutil.copytree(PACKAGE, folder, ignore=shutil.ignore_patterns("__pycache__"))
    text = (folder / file).read_text()
    if text.count(old) != 1:
        raise ValueError(f"{file} has {old!r} {text.count(old)} times")
    (folder / file).write_text(text.replace(old, new))
    return loaded(name, folder)


def lines_of(lines: Iterable[Iterable[object]]) -> bytes:
    return "".join(",".join(map(str, line)) + "\n" for line in lines).encode("utf-8", "surrogateescape")


# ---- texts


def rows_of(reading: Package) -> bytes:
    """What `report --rows` writes."""
    return lines_of([("name", "kind", "low", "high", "count"), *reading.rows()])


def histogram_lines(reading: Package) -> Iterator[Iterable[object]]:
    for name, one in reading.histograms.items():
        yield from ((name, one.spec.kind, low, high, units) for low, high, units, _ in one.buckets if units)
        yield name, "total", one.units, one.sum


def report_of(reading: Package) -> bytes:
    """What `report` writes of one image or of a sum."""
    lines = [*histogram_lines(reading)]
    lines += [("!flag", flag) for flag in ("corrupt", "full") if getattr(reading, flag)]
    for name, one in reading.histograms.items():
        if one.redundant != one.units:
            lines.append(("!redundant", name, one.redundant))
    if reading.segment is not None:
        bad = [("!bad", reference, fault) for _, reference, fault in reading.damage if reference is not None]
        return lines_of([*lines, *bad, *(("!stopped", fault) for _, at, fault in reading.damage if at is None)])
    if reading.images > 1 or reading.left_out or reading.other_specs:
        lines.append(("!images", reading.images))
        lines += [("!other", one.name, one.images, min(one.units, MOST_COUNTED)) for one in reading.other_specs]
        lines += [("!left", len(reading.left_out))] if reading.left_out else []
    return lines_of(lines)


def totals_of(reading: Package) -> bytes:
    """What `report --totals` writes."""
    lines: list[Iterable[object]] = [("totals", 1)]
    lines.append(("images", reading.images, reading.full, reading.corrupt, reading.stopped, reading.bad))
    for one in reading.all_histograms:
        front = (one.images, one.first_image, one.sum, one.sum_mark, one.redundant)
        lines.append(("hist", one.name, *front, one.spec.kind, *one.spec.numbers))
        lines += [("key", low, units, mark) for low, _, units, mark in one.buckets]
    return lines_of([*lines, ("end", len(reading.all_histograms))])


def info_of(reading: Package) -> bytes:
    """What `info` writes."""
    segment, used = reading.segment, min(reading.segment.units_used, MOST_COUNTED)
    kinds = [one.spec.kind for one in reading.histograms.values()]
    stops = [fault for _, reference, fault in reading.damage if reference is None]
    lines = {
        "version": segment.version,
        "id": segment.id,
        "size": f"{segment.size} words, {8 * segment.size} bytes",
        "page": f"{segment.page} words",
        "used": f"{segment.free} words",
        "free": f"{segment.size - segment.free} words",
        "units used": used,
        "units left": max(0, MOST_UNITS - used),
        "histograms": ", ".join(f"{kinds.count(kind)} {kind}" for kind in KINDS),
        "flags": ", ".join(flag for flag in ("corrupt", "full") if getattr(reading, flag)) or "none",
        "bad records": reading.bad,
        "list": f"stopped: {stops[0]}" if stops else "whole",
    }
    return "".join(f"{label:13}{text}\n" for label, text in lines.items()).encode()


def values_of(one: Package, bucket: Package) -> str:
    """The values of a bucket, or that there is none."""
    return "none" if bucket is None else plain_show.values_of(one.spec.kind, bucket.low, bucket.high)


def shown_lines(one: Package) -> Iterator[str]:
    """What `show` writes of the numbers of a histogram."""
    mean = plain_show.mean_of(one.sum, one.units, False)
    yield f"  {one.spec.kind}, units {one.units}, sum {one.sum}, mean {mean}"
    if one.spec.kind != "boolean":
        quantiles = (f"{100 * float(share):g}%: {values_of(one, one.quantile(share))}" for share in QUANTILES)
        yield "  " + ", ".join(quantiles)
        filled = [bucket for bucket in one.buckets if bucket.units] or [None]
        yield f"  least: {values_of(one, filled[0])}, greatest: {values_of(one, one.quantile(1))}"
    if one.sum_mark or any(bucket.mark for bucket in one.buckets):
        left = sum(max(0, bucket.units - bucket.mark) for bucket in one.buckets)
        yield f"  not yet taken by deltas: units {left}, sum {one.sum - one.sum_mark}"


def shown_of(reading: Package) -> list[str]:
    """The lines of `show` that have numbers and quantiles."""
    return [line for one in reading.histograms.values() for line in shown_lines(one)]


def left_lines(reading: Package) -> bytes:
    """The lines of files that are left out."""
    return "".join(f'persist_report: {left.fault}: "{left.path}"\n' for left in reading.left_out).encode()
