"""The compiled library beside the stepped world.

Recorders of one segment, each in a child of its own, do their calls by turns: tests/c/lockstep.c stops a child before
each of its instructions that touches the segment, and has one of them do one such instruction at a time. `stepped` says
what the same calls do in the same turns. Each change of a word has to come, in the same order, with each answer, and
the words have to be the same at the end; so have those that a call loads, if it does not walk along the list
(lockstep_plans.py).

The schedules are the worked ones in both versions, and twice --schedules that are made from a seed. Of those each kind
of answer and of a refusal, and each exchange that may fail, has to come. Plans that want what is wrong are refused.
"""

from __future__ import annotations

import argparse
import collections
import concurrent.futures
import copy
import dataclasses
import os
import pathlib
from collections.abc import Iterator
from typing import Any

from parts.schedules import replayed
from support import lockstep_plans, lockstep_schedules, native, tracer, worked_schedules
from support.lockstep_plans import Plan
from support.program import Answer, Case, answer, untried

PROGRAM = "stepped"
SOURCE = "lockstep.c"
# Of at least this many schedules, each of these comes.
ENOUGH = 200
COMES = (
    "hist", "added", "delta", "snapshot", "flagged", "refused BadName", "refused BadSpec", "refused TooLarge",
    "refused OtherSpec", "refused ZeroCount", "refused Full", "refused Corrupt", "batch_refused ZeroCount",
    "batch_refused NoUnits", "batch_refused Full", "batch_refused Corrupt",
    "late at free", "late at tail", "late at next", "late at counts", "late at single",
)
# A worked example in which two actors have turns, and which plans that want what is wrong are made of.
RACE = "a pack before a disabling, version 2"


@dataclasses.dataclass
class Pair:
    """The children and `stepped`, and a folder for what they are given."""

    children: pathlib.Path
    stepped: pathlib.Path
    folder: pathlib.Path

    def replay(self, name: str, text: str) -> Answer:
        return replayed(self.stepped, self.folder / f"{name}.csv", text)

    def wrong(self, name: str, plan: Plan) -> str | None:
        """What is wrong with what the children do, or None."""
        path = self.folder / f"{name}.plan"
        path.write_text(plan.text())
        wrong = lockstep_plans.wrong(plan, answer(self.children, [path]))
        return wrong and f"{wrong}\n{plan.text()}"

    def worked(self, example: worked_schedules.Example) -> tuple[str, Plan]:
        """A name for a worked example, and its plan."""
        name = example.name.replace(" ", "_")
        output = self.replay(name, example.schedule.text()).output
        return name, Plan(example.schedule, output, is_exact=True)

    def wrong_worked(self, example: worked_schedules.Example) -> str | None:
        return self.wrong(*self.worked(example))

    def wrong_seeded(self, seed: str) -> tuple[str | None, collections.Counter[str]]:
        """What is wrong with the schedule of a seed, or None, and what came into play."""
        plan = lockstep_schedules.plan_of(seed, lambda text: self.replay(seed, text))
        return self.wrong(seed, plan), plan.met


def planted(plan: Plan) -> Iterator[tuple[str, Plan]]:
    """Plans that want what is wrong, each with what that is."""

    def of(**changed: Any) -> Plan:
        other = copy.copy(plan)
        vars(other).update(changed)
        return other

    def turned(lines: list[Any], place: int) -> list[Any]:
        return [*lines[:place], lines[place + 1], lines[place], *lines[place + 2 :]]

    shown, turns = plan.shown, plan.turns
    place = next(place for place, line in enumerate(shown) if line[0] == "step")
    *change, new = shown[place]
    yield "another change", of(shown=[*shown[:place], (*change, f"{int(new) + 1}"), *shown[place + 1 :]])
    yield "two changes in another order", of(shown=turned(shown, place))
    yield "a change less", of(shown=[*shown[:place], *shown[place + 1 :]])
    yield "another answer", of(shown=[*shown[:-1], (*shown[-1], "0")])
    yield "an answer less", of(shown=shown[:-1])
    place = next(at for at, turn in enumerate(turns) if turn.startswith("quiet,"))
    actor = turns[place].split(",")[1]
    yield "a turn less", of(turns=[*turns[:place], *turns[place + 1 :]])
    yield "a turn that goes further", of(turns=[*turns[:place], f"change,{actor}", *turns[place + 1 :]])
    calls = plan.ended[0]
    place = next(at for at, call in enumerate(calls) if call.events)
    fewer = dataclasses.replace(calls[place], events=(calls[place].events or [])[1:])
    yield "a load less", of(ended={0: [*calls[:place], fewer, *calls[place + 1 :]]})
    yield "another word at the end", of(words=[*plan.words[:-1], 1])


def compared(pair: Pair, options: argparse.Namespace) -> Iterator[Case]:
    examples = list(worked_schedules.examples())
    with concurrent.futures.ThreadPoolExecutor(os.cpu_count()) as pool:
        yield from zip((example.name for example in examples), pool.map(pair.wrong_worked, examples))
        _, race = pair.worked(next(example for example in examples if example.name == RACE))
        for what, plan in planted(race):
            yield f"planted: {what}", None if pair.wrong("planted", plan) else "it was not refused"
        seeds = [f"{options.seed}-{number}" for number in range(2 * options.schedules)]
        met: collections.Counter[str] = collections.Counter()
        for seed, (wrong, came) in zip(seeds, pool.map(pair.wrong_seeded, seeds)):
            met += came
            yield f"schedule {seed}", wrong
    print(f"lockstep: {met['changes']} changes; {dict(sorted(met.items()))}", flush=True)
    missing = [what for what in COMES if not met[what]]
    if len(seeds) >= ENOUGH:
        yield "what came", f"there was no {missing}" if missing else None


def cases(program: pathlib.Path, options: argparse.Namespace) -> Iterator[Case]:
    if not tracer.can_trace():
        yield untried(tracer.NOT_ALLOWED, options)
        return
    yield from native.cases_of(SOURCE, lambda built, folder: compared(Pair(built, program, folder), options))
