"""Images with known answers: cases/reading/NNN.img, with the answer in NNN.out, NNN.err and NNN.status beside it."""

from __future__ import annotations

import argparse
import pathlib
from collections.abc import Iterator

from support.program import ROOT, Answer, Case, answer, difference

PROGRAM = "persist_report"
FOLDER = ROOT / "tests" / "cases" / "reading"


def wanted_of(image: pathlib.Path) -> Answer:
    status = int(image.with_suffix(".status").read_text())
    return Answer(image.with_suffix(".out").read_bytes(), image.with_suffix(".err").read_bytes(), status)


def cases(program: pathlib.Path, _options: argparse.Namespace) -> Iterator[Case]:
    """Each image, as a file and on standard input."""
    for image in sorted(FOLDER.glob("*.img")):
        wanted = wanted_of(image)
        yield f"{image.name} as a file", difference(wanted, answer(program, ["report", image]))
        yield f"{image.name} on standard input", difference(wanted, answer(program, ["report"], image.read_bytes()))
