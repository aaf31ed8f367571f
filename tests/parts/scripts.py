"""Scripts that are generated from a seed, run with 1, 2, 3 and 16 workers: each gives the report that a plain tally of
the samples has, and an image that reads as that report too."""

from __future__ import annotations

import argparse
import collections
import pathlib
import random
import struct
from collections.abc import Iterator

from support import plain_reader, plain_tally, seeded
from support.program import Answer, Case, answer, difference

PROGRAM = "persist_report"
WORKERS = (1, 2, 3, 16)
WRITTEN_VERSION = 2


def wrong_image(script: seeded.Script, image: bytes, wanted: bytes) -> str | None:
    """What is wrong with the image of a script, or None."""
    head = struct.unpack("<5Q", image[:40])[1:]
    right = (WRITTEN_VERSION, script.size, script.page, script.id)
    if head != right:
        return f"wanted version, size, page and id {right}, came {head}"
    read = plain_reader.report_of(image, collections.Counter())
    return None if read == wanted else f"the image reads as {read[:500]!r}, wanted {wanted[:500]!r}"


def wrong_of(program: pathlib.Path, seed: str, folder: pathlib.Path) -> str | None:
    """What is wrong with the answers to the script of a seed, or None."""
    chance = random.Random(seed)
    script = seeded.script_of(chance)
    wanted = plain_tally.report(script.histograms())
    text, image = folder / f"{seed}.csv", folder / f"{seed}.img"
    text.write_bytes(seeded.text_of(chance, script))
    looked_at = chance.choice(WORKERS)
    for workers in WORKERS:
        came = answer(program, ["run", text, image, "--workers", str(workers)])
        wrong = difference(Answer(wanted), came)
        if wrong is None and workers == looked_at:
            wrong = wrong_image(script, image.read_bytes(), wanted)
        if wrong is not None:
            return f"with {workers} workers: {wrong}\n{text.read_bytes().decode()}"
    text.unlink()
    image.unlink()
    return None


def seeds(options: argparse.Namespace) -> list[str]:
    return [f"{options.seed}-{number}" for number in range(options.scripts)]


def cases(program: pathlib.Path, options: argparse.Namespace) -> Iterator[Case]:
    tried = seeded.tried(seeds(options), lambda seed, folder: wrong_of(program, seed, folder))
    yield from ((f"script {seed}", wrong) for seed, wrong in tried)
