"""Lets 'rt lib' use the libraries that the gate has proved: 'rt ci' leaves each in out/ of its crate without the mark
that says what it was made of, and without marks 'rt lib' proves all of them once more, one by one.

    marks.py note FILE     before the gate: writes down the sum of what each library is made of
    marks.py keep FILE     after it has passed: marks each library of which that sum is the same

The sums and marks are those of `rt` on the PATH. 'rt ci' begins with empty folders out/, so what is there was made in
between.
"""

from __future__ import annotations

import functools
import json
import os
import pathlib
import shutil
import sys
from collections.abc import Mapping

sys.dont_write_bytecode = True
sys.path.insert(0, os.path.dirname(os.path.realpath(shutil.which("rt") or "rt")))
import rtlib  # type: ignore[import]

CRATES = pathlib.Path(__file__).resolve().parents[2] / "crates"
rtlib.Crate.stamp = functools.cache(rtlib.Crate.stamp)


def sums() -> dict[str, str]:
    """The sum of what each crate is made of, by its name."""
    return {crate.name: crate.stamp() for crate in rtlib.crates_below(str(CRATES))}


def keep(noted: Mapping[str, str]) -> None:
    """Marks the libraries whose sums are still as they were noted."""
    for crate in rtlib.crates_below(str(CRATES)):
        if pathlib.Path(crate.rlib, "format").is_file() and noted.get(crate.name) == crate.stamp():
            pathlib.Path(crate.folder, "out", "rlib", "stamp").write_text(crate.stamp(), encoding="utf-8")


def main(verb: str, file: str) -> None:
    path = pathlib.Path(file)
    if verb == "note":
        path.write_text(json.dumps(sums()), encoding="utf-8")
    else:
        keep(json.loads(path.read_text(encoding="utf-8")))


if __name__ == "__main__":
    main(*sys.argv[1:])
