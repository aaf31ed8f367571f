"""Command lines with known answers: in the folders cases/program/NNN and cases/resume/NNN the words (`cmd`) and the
files that they name, and beside them what the program has to print, its status, and what it has to write into OUT
(`OUT.expected`).

There is no OUT before the command, and none after a fault: the `OUT.expected` of a fault is empty, which says that
nothing is written. The answers are those of an independent implementation.
"""

from __future__ import annotations

import argparse
import pathlib
import tempfile
from collections.abc import Collection, Iterator

from support.program import ROOT, Answer, Case, answer, content, difference

PROGRAM = "persist_report"
FOLDERS = (ROOT / "tests" / "cases" / "program", ROOT / "tests" / "cases" / "resume")


def known() -> Iterator[tuple[pathlib.Path, list[str]]]:
    """The folder of each case, and its words; first those of `report`, `run` and `merge`, and then those of
    `resume`."""
    for folder in FOLDERS:
        for case in sorted(folder.iterdir()):
            yield case, (case / "cmd").read_text().split()


def wanted_of(case: pathlib.Path) -> Answer:
    status = int((case / "status").read_text())
    return Answer((case / "stdout").read_bytes(), (case / "stderr").read_bytes(), status)


def image_of(case: pathlib.Path, status: int) -> bytes | None:
    """What has to be in OUT after the command; None if there has to be no OUT."""
    written = (case / "OUT.expected").read_bytes()
    return written if written or status == 0 else None


def wrong_of(program: pathlib.Path, case: pathlib.Path, words: Collection[str], out: pathlib.Path) -> str | None:
    """What is wrong with the answer to a case, or None."""
    out.unlink(missing_ok=True)
    wanted = wanted_of(case)
    came = answer(program, [out if word == "OUT" else word for word in words], cwd=case)
    wrong = difference(wanted, came)
    if wrong is None and "OUT" in words and content(out) != image_of(case, wanted.status):
        wrong = "other bytes than wanted were written into OUT"
    return wrong


def cases(program: pathlib.Path, _options: argparse.Namespace) -> Iterator[Case]:
    with tempfile.TemporaryDirectory() as scratch:
        out = pathlib.Path(scratch).resolve() / "out"
        for case, words in known():
            yield f"{case.name}, {' '.join(words)}", wrong_of(program, case, words, out)
