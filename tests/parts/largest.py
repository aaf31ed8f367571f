"""Images of the greatest size that are full: of samples, of names, and of the smallest blocks, each with its report;
one that is written; and the longest scripts.

A program that searches a list from its front, for each sample or each name, does not end in time.
"""

from __future__ import annotations

import argparse
import pathlib
import random
import tempfile
from collections.abc import Iterator

from support import layout
from support.layout import BOOLEAN, FIRST, GREATEST, HISTOGRAM, LEAST, PAGE, PURGED, SAMPLE, SPARSE
from support.program import Answer, Case, answer, difference, fault

PROGRAM = "persist_report"
SIZE = layout.MOST_WORDS
SAMPLES = 60_000
MOST_SCRIPT = 16_777_216


def samples(chance: random.Random) -> tuple[bytes, bytes]:
    """One sparse histogram and its samples: first each value once, in no order, and then each once more."""
    values = [LEAST, GREATEST, -1, 0, 1, *chance.sample(range(2, GREATEST), SAMPLES // 2 - 5)]
    chance.shuffle(values)
    counts = {value: chance.choice([0, 1, 7, chance.randrange(65_536)]) for value in values}
    again = chance.sample(values, len(values))
    units = sum(counts.values())
    total = sum(value * count for value, count in counts.items())
    record = (FIRST, 16, HISTOGRAM, [SPARSE, 0, 0, 0, 0, 0, 0, total % 2**64, 0, units, 1, ord("S")])
    listed = [(value, counts[value]) for value in values] + [(value, 9) for value in again]
    blocks = [(32 + 8 * i, 8, SAMPLE, [FIRST, value % 2**64, count, 0]) for i, (value, count) in enumerate(listed)]
    lines = [f"S,sparse,{value},{value + 1},{count}\n" for value, count in sorted(counts.items()) if count]
    lines.append(f"S,total,{units},{total}\n")
    return layout.image_of(SIZE, 1, [record, *blocks]), "".join(lines).encode()


def names(chance: random.Random) -> tuple[bytes, bytes]:
    """As many boolean histograms as fit, each with one unit, with random names, on a list in no order."""
    references = range(FIRST, SIZE, 16)
    taken = [f"h{number:07x}" for number in chance.sample(range(16**7), len(references))]
    words = [int.from_bytes(name.encode(), "little") for name in taken]
    blocks = [(at, 16, HISTOGRAM, [BOOLEAN, 1, 2, 3, 0, 1, 0, 0, 0, 1, 8, word]) for at, word in zip(references, words)]
    chance.shuffle(blocks)
    report = "".join(f"{name},boolean,0,1,1\n{name},total,1,0\n" for name in sorted(taken))
    return layout.image_of(SIZE, 1, blocks), report.encode()


def smallest(_chance: random.Random) -> tuple[bytes, bytes]:
    """As many blocks of five words as fit, of a type that is passed over, on a list from the last to the first."""
    references = [at for page in range(0, SIZE, PAGE) for at in range(max(page, FIRST), page + PAGE - 4, 5)]
    return layout.image_of(SIZE, 1, [(at, 5, PURGED, []) for at in reversed(references)]), b""


IMAGES = [samples, names, smallest]


def written(program: pathlib.Path, folder: pathlib.Path) -> Iterator[Case]:
    """An image of the greatest size without histograms."""
    script, out = folder / "script", folder / "out"
    script.write_bytes(b"segment,%d,%d,7\n" % (SIZE, PAGE))
    wrong = difference(Answer(), answer(program, ["run", script, out]))
    if wrong is None and out.read_bytes() != layout.Words(SIZE, PAGE, 2).bytes():
        wrong = "other words were written"
    yield "an image that is written", wrong


def scripts(program: pathlib.Path, folder: pathlib.Path) -> Iterator[Case]:
    """A script of the greatest length, and one that is a byte longer."""
    head, record = b"segment,128,64,7\nhist,A,boolean\n", b"add,A,1,1\n"
    count, rest = divmod(MOST_SCRIPT - len(head), len(record))
    text = head + count * record + rest * b"\n"
    script, out = folder / "script", folder / "out"
    script.write_bytes(text)
    wanted = Answer(f"A,boolean,1,2,{count}\nA,total,{count},{count}\n".encode())
    for workers in (1, 4):
        came = answer(program, ["run", script, out, "--workers", str(workers)])
        yield f"the longest script, {workers} workers", difference(wanted, came)
    script.write_bytes(text + b"\n")
    image = out.read_bytes()
    wrong = difference(fault("TooLong", 3), answer(program, ["run", script, out]))
    yield "a byte more", wrong or (None if out.read_bytes() == image else "OUT is not as it was")


def cases(program: pathlib.Path, _options: argparse.Namespace) -> Iterator[Case]:
    for make in IMAGES:
        image, report = make(random.Random(5))
        yield make.__name__, difference(Answer(report), answer(program, ["report"], image))
    with tempfile.TemporaryDirectory() as scratch:
        folder = pathlib.Path(scratch)
        yield from written(program, folder)
        yield from scripts(program, folder)
