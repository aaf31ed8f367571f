"""Merges of two images that scripts made: the new image has what both had above their marks, by a plain calculation.

The images come from one worker or from many. With one worker the marks are known from the script too: a delta takes all
before it.
"""

from __future__ import annotations

import argparse
import collections
import pathlib
import random
from collections.abc import Iterator
from typing import Any

from parts import scripts
from support import layout, plain_reader, plain_tally, seeded
from support.program import Answer, Case, answer, content, difference, fault

PROGRAM = "persist_report"
NOTHING = Answer()
KINDS = plain_reader.KINDS


class Stopped(Exception):
    """Why a merge stops; the text is that of its fault."""


def read(image: bytes) -> dict[bytes, plain_reader.ReadHistogram]:
    """The histograms of a valid image by their names, in the order of its list."""
    words = plain_reader.words_of(image, collections.Counter())
    references, stopped = plain_reader.walk(words, collections.Counter())
    histograms, bad = plain_reader.read_records(words, references, collections.Counter())
    assert not stopped and not bad
    return histograms


def remainder(histogram: plain_reader.ReadHistogram) -> tuple[dict[int, int], int]:
    """What a histogram's totals have above its marks, by key, and its sum above the sum mark."""
    above = {key: total - histogram["marks"][key] for key, (_, total) in histogram["buckets"].items()}
    return {key: count for key, count in above.items() if count > 0}, histogram["sum"] - histogram["sum mark"]


class Merged:
    """A new segment into which images are merged."""

    def __init__(self) -> None:
        self.histograms: dict[str, plain_tally.Histogram] = {}
        self.specs: dict[str, Any] = {}

    def take(self, image: bytes) -> None:
        """Adds what an image has above its marks; it stops at a histogram that has another spec in the new segment."""
        for name, histogram in read(image).items():
            shown = name.decode()
            if self.specs.setdefault(shown, histogram["spec"]) != histogram["spec"]:
                raise Stopped(f"Merge {shown} OtherSpec")
            new = plain_tally.Histogram(KINDS[histogram["kind"]], histogram["boundaries"])
            self.histograms.setdefault(shown, new).take(*remainder(histogram))


def wanted_of(base: bytes, dead: bytes) -> tuple[Answer, bytes | None]:
    """The answer of a merge, and the report of the image that it writes, or None."""
    merged = Merged()
    try:
        merged.take(base)
        merged.take(dead)
    except Stopped as stopped:
        return fault(str(stopped), 3), None
    return NOTHING, plain_tally.report(merged.histograms)


def pair_of(chance: random.Random) -> tuple[seeded.Script, seeded.Script]:
    """Two scripts of one shape with room to spare; mostly names that both have are of one spec."""
    base, dead = (seeded.script_of(chance, layout.MOST_UNITS // 2) for _ in range(2))
    if chance.random() < 0.7:
        specs = dict(reversed(base.hists))
        dead.hists = [(name, specs.get(name, spec)) for name, spec in dead.hists]
    both = {f"base {name}": one for name, one in base.histograms().items()}
    both |= {f"dead {name}": one for name, one in dead.histograms().items()}
    calls = [(f"base {call[0]}", *call[1:]) for call in base.calls] + [
        (f"dead {call[0]}", *call[1:]) for call in dead.calls
    ]
    base.size, base.page = dead.size, dead.page = seeded.shape_of(chance, both, calls)
    return base, dead


def wrong_remainder(script: seeded.Script, image: bytes) -> str | None:
    """What is wrong with the marks of an image that one worker made, or None."""
    wanted = {name: (dict(one.counts), one.sum) for name, one in script.remainders().items()}
    found = {name.decode(): remainder(one) for name, one in read(image).items()}
    return None if found == wanted else f"wanted the remainders {wanted}, came {found}"


def image_of(
    program: pathlib.Path, chance: random.Random, script: seeded.Script, path: pathlib.Path
) -> tuple[bytes, str | None]:
    """Runs a script with some number of workers; the image, and what is wrong with it or None."""
    workers = chance.choice(scripts.WORKERS)
    text = path.with_suffix(".csv")
    text.write_bytes(seeded.text_of(chance, script))
    came = answer(program, ["run", text, path, "--workers", str(workers)])
    wrong = difference(Answer(plain_tally.report(script.histograms())), came)
    image = path.read_bytes()
    return image, wrong or (wrong_remainder(script, image) if workers == 1 else None)


def wrong_of(program: pathlib.Path, seed: str, folder: pathlib.Path) -> str | None:
    """What is wrong with the merge of the two scripts of a seed, or None."""
    chance = random.Random(seed)
    scripts_of_both = pair_of(chance)
    paths = [folder / f"{seed}.{role}" for role in ("base", "dead", "out")]
    images = []
    for script, path in zip(scripts_of_both, paths):
        image, wrong = image_of(program, chance, script, path)
        if wrong is not None:
            return wrong
        images.append(image)
    wanted, report = wanted_of(*images)
    wrong = difference(wanted, answer(program, ["merge", *paths]))
    made = content(paths[-1])
    if wrong is not None or report is None:
        return wrong or (None if made is None else f"came {len(made)} bytes of an image beside the fault")
    if made is None:
        return "no image was written"
    wrong = scripts.wrong_image(scripts_of_both[0], made, report)
    return wrong or difference(Answer(report), answer(program, ["report", paths[-1]]))


def cases(program: pathlib.Path, options: argparse.Namespace) -> Iterator[Case]:
    seeds = [f"merge-{options.seed}-{number}" for number in range(options.merges)]
    yield from seeded.tried(seeds, lambda seed, folder: wrong_of(program, seed, folder))
