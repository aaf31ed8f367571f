"""Chains of scripts that are generated from a seed: the first is run, and each other one continues with the image
before, with 1 and with 3 workers. Each gives the report that a plain tally of all samples so far has, and an image that
reads as that report too.

Where one worker has recorded all, the marks are known by the scripts: a delta takes all before it, also what earlier
ones recorded. A script that gives a name another spec, or that takes more units than are left, is refused. The next one
continues without it.
"""

from __future__ import annotations

import argparse
import pathlib
import random
from collections.abc import Iterable, Iterator, Sequence

from parts import merges, scripts
from support import layout, plain_tally, seeded
from support.program import Answer, Case, Word, answer, difference, fault

PROGRAM = "persist_report"
WORKERS = (1, 3)
LENGTH = 3


def units_of(calls: Iterable[seeded.ScriptCall]) -> int:
    return sum(sample[1] for _, *sample in calls if sample)


def with_too_much(chance: random.Random, script: seeded.Script, before: seeded.Script) -> None:
    """Has a script take one more unit than its segment has left by then, in its last record."""
    left = layout.MOST_UNITS - units_of(before.calls) - units_of(script.calls)
    name = chance.choice(script.hists)[0]
    if left == layout.MOST_UNITS:
        # (one record cannot say more units than a segment has)
        script.calls.append((name, 1, 1))
        left -= 1
    script.calls.append((name, 1, left + 1))


def chain_of(chance: random.Random) -> list[seeded.Script]:
    """Scripts of one segment with room to spare. A name that more than one of them has is mostly of one spec."""
    chain: list[seeded.Script] = []
    specs: dict[str, plain_tally.Spec] = {}
    histograms: dict[str, plain_tally.Histogram] = {}
    calls: list[seeded.ScriptCall] = []
    for number in range(LENGTH):
        script = seeded.script_of(chance, layout.MOST_UNITS // LENGTH)
        if chance.random() < 0.9:
            script.hists = [(name, specs.get(name, spec)) for name, spec in script.hists]
        for name, spec in script.hists:
            specs.setdefault(name, spec)
        histograms |= {f"{number} {name}": one for name, one in script.histograms().items()}
        calls += [(f"{number} {call[0]}", *call[1:]) for call in script.calls]
        chain.append(script)
    size, page = seeded.shape_of(chance, histograms, calls)
    for script in chain:
        script.size, script.page, script.id = min(size, 2**20 // page * page), page, chain[0].id
    return chain


def refusal_of(script: seeded.Script, before: seeded.Script) -> str | None:
    """Why a script is refused that continues after others, as the text of the fault; or None."""
    taken = units_of(before.calls)
    for number, (_, *sample) in enumerate(script.calls, 2 + len(script.hists)):
        taken += sample[1] if sample else 0
        if taken > layout.MOST_UNITS:
            return f"Refused {number} NoUnits"
    specs = {name: (spec[0], plain_tally.boundaries_of(spec)) for name, spec in reversed(before.hists)}
    for number, (name, spec) in enumerate(script.hists, 2):
        own = spec[0], plain_tally.boundaries_of(spec)
        if specs.setdefault(name, own) != own:
            return f"Refused {number} OtherSpec"
    return None


def both_of(before: seeded.Script, script: seeded.Script) -> seeded.Script:
    """What both scripts record, one after the other."""
    return seeded.Script(script.size, script.page, script.id, before.hists + script.hists, before.calls + script.calls)


def wrong_step(program: pathlib.Path, words: Sequence[Word], wanted: Answer, out: pathlib.Path) -> str | None:
    """What is wrong with an answer, or None; a fault makes no OUT."""
    wrong = difference(wanted, answer(program, [*words[:-2], out, *words[-2:]]))
    return wrong or ("OUT was made" if wanted.status and out.exists() else None)


def wrong_of(program: pathlib.Path, seed: str, folder: pathlib.Path) -> str | None:
    """What is wrong with the answers to the chain of a seed, or None."""
    chance = random.Random(seed)
    chain = chain_of(chance)
    before, alone = seeded.Script(0, 0, 0, [], []), True
    base: pathlib.Path | None = None
    for number, script in enumerate(chain):
        if number and chance.random() < 0.1:
            with_too_much(chance, script, before)
        text = folder / f"{seed}-{number}.csv"
        text.write_bytes(seeded.text_of(chance, script))
        both, why = both_of(before, script), refusal_of(script, before)
        report = plain_tally.report(both.histograms())
        outs = {workers: folder / f"{seed}-{number}-{workers}.img" for workers in WORKERS}
        for workers, out in outs.items():
            words: list[Word] = ["run", text] if base is None else ["resume", base, text]
            wanted = Answer(report) if why is None else fault(why, 3)
            wrong = wrong_step(program, [*words, "--workers", str(workers)], wanted, out)
            if wrong is not None:
                return f"script {number} with {workers} workers: {wrong}\n{text.read_bytes().decode()}"
        if why is None:
            workers = chance.choice(WORKERS)
            before, base, alone = both, outs[workers], alone and workers == 1
            wrong = scripts.wrong_image(both, base.read_bytes(), report)
            wrong = wrong or (merges.wrong_remainder(both, base.read_bytes()) if alone else None)
            if wrong is not None:
                return f"script {number} with {workers} workers: {wrong}\n{text.read_bytes().decode()}"
    return None


def seeds(options: argparse.Namespace) -> list[str]:
    return [f"resume-{options.seed}-{number}" for number in range(options.resumes)]


def cases(program: pathlib.Path, options: argparse.Namespace) -> Iterator[Case]:
    yield from seeded.tried(seeds(options), lambda seed, folder: wrong_of(program, seed, folder))
