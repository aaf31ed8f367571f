"""The faults of a command that reads an image and writes a text: those of `report`."""

from __future__ import annotations

from collections.abc import Iterator, Sequence

from support.layout import MOST_BYTES
from support.program import EXAMPLE, Case, Path, Word, answer, difference, fault


def cases(program: Path, words: Sequence[Word]) -> Iterator[Case]:
    """The faults of the command that these words ask for: of the file, the bytes and the device."""
    yield "a missing file", difference(fault("Read", 4), answer(program, [*words, "missing.img"]))
    yield "too many bytes", difference(fault("TooLong", 3), answer(program, words, bytes(MOST_BYTES + 1)))
    yield "no words", difference(fault("NotWords", 3), answer(program, [*words, "-"], EXAMPLE.read_bytes()[:-1]))
    with open("/dev/full", "wb") as full:
        yield "a full device", difference(fault("Write", 4), answer(program, [*words, EXAMPLE], stdout=full))
