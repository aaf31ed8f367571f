"""Runs a program so that one of its allocations is refused, and reports all of them (Linux, with a shared C library).

`refuse.c` is loaded before the program: each allocation goes by way of its `malloc` and `realloc`, also one for which
the C library asks the system for nothing.
"""

from __future__ import annotations

import dataclasses
import os
import pathlib
from collections.abc import Iterable

from support import native
from support.program import Answer, Path, Word, answer

SOURCE = pathlib.Path(__file__).with_name("refuse.c")
TRY = "try "


@dataclasses.dataclass
class Asked:
    """An allocation: the line that named its call, how many such lines came before that, and the bytes that were asked
    for."""

    call: str
    place: int
    size: int


class Refuser:
    """`refuse.c` built in a folder."""

    def __init__(self, folder: Path) -> None:
        self.library = pathlib.Path(folder) / "refuse.so"
        self.log = pathlib.Path(folder) / "allocations"
        native.run(
            [*native.compiler(".c"), "-std=gnu11", *native.STRICT, "-fPIC", "-shared", "-o", self.library, SOURCE]
        )

    def answer(
        self, program: Path, words: Iterable[Word], refused: int | None = None, lasting: bool = False
    ) -> tuple[Answer, list[Asked]]:
        """What the program returns if the allocation with the number `refused`, from 0, is refused, or none; and all
        allocations of the calls that it named. With `lasting`, those after it of the same call are refused too."""
        settings = {**os.environ, "LD_PRELOAD": str(self.library), "REFUSE_LOG": str(self.log)}
        if refused is not None:
            settings["REFUSE_AT"] = str(refused)
        if lasting:
            settings["REFUSE_LASTING"] = "1"
        self.log.unlink(missing_ok=True)
        came = answer(program, words, env=settings)
        calls = [line[len(TRY):] for line in came.output.decode(errors="replace").splitlines() if line.startswith(TRY)]
        asked = (line.split() for line in self.log.read_text().splitlines())
        return came, [Asked(calls[int(place)], int(place), int(size)) for place, size in asked]
