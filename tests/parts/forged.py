"""Forged images, as forge.py makes them, beside a plain reader of the same format, plain_reader.py."""

from __future__ import annotations

import argparse
import collections
import pathlib
import random
from collections.abc import Iterator

from support import forge, plain_reader
from support.program import Answer, Case, answer, difference

PROGRAM = "persist_report"
ENOUGH_IMAGES = 1000


def cases(program: pathlib.Path, options: argparse.Namespace) -> Iterator[Case]:
    """Each image on standard input; and, if there were enough of them, whether each rule of the format came into play.

    The same seed gives the same images. One whose answer differs is kept in the current folder.
    """
    seen: plain_reader.Seen = collections.Counter()
    for number in range(options.images):
        data = forge.image_of(random.Random(f"{options.seed} {number}"))
        wrong = difference(Answer(*plain_reader.answer(data, seen)), answer(program, ["report"], data))
        if wrong is not None:
            kept = pathlib.Path(f"forged-{options.seed}-{number}.img").resolve()
            kept.write_bytes(data)
            wrong += f"; the image is kept as {kept}"
        yield f"image {number} of seed {options.seed}", wrong
    never = [rule for rule in plain_reader.RULES if not seen[rule]]
    if options.images >= ENOUGH_IMAGES:
        yield "rules in play", f"wanted each, came none of: {'; '.join(never)}" if never else None
