"""Each growth of memory is refused in turn, and memory is there again after it.

Of the calls of the libraries that C does not have, which `trials` makes, each allocation is refused (allocations.py):
the call reports it. When it is made again, it returns what it always does, and so do all calls after it. If an index of
names or of samples cannot grow, a merge does what it always does. Calls that take no memory ask for none. The calls of
a segment are tried in the same way by tests/c/refused_memory.c.

The commands and `stepped` report `NoMemory`, with no output but what `stepped` had written before, and OUT unchanged.
Of them each growth is refused for which the C library asks the system (tracer.py).
"""

from __future__ import annotations

import argparse
import collections
import errno
import pathlib
import re
import tempfile
from collections.abc import Callable, Iterator, Sequence
from typing import Any, Optional

from parts import failing
from support import allocations, native, tracer
from support.layout import MOST_UNITS
from support.program import ROOT, Answer, Case, answer, built, difference, untried

PROGRAM = "trials"
# Says what is wrong with the answer of a command and with what is then in OUT's folder, or None.
WrongAnswer = Callable[[failing.Command, Answer, failing.Files], Optional[str]]
GROWTH: dict[str, Any] = {"numbers": tracer.GROWTHS, "growth": True, "error": errno.ENOMEM}
SCHEDULE = ROOT / "examples" / "pack_before_disabling.csv"
# A world that continues with an image, in which an actor finds a histogram and adds to it.
IMAGE = ROOT / "examples" / "crash.img"
ADOPTED = f"""adopt,{IMAGE},1
hist,0,cache.hit,boolean
step,0,1000
add,0,cache.hit,1,1
step,0,1000
"""
# What `stepped` is asked to show.
SHOWN: list[list[str]] = [[], ["--report"], ["--image"]]
STEPPED_OUT_OF_MEMORY = b"stepped: NoMemory\n"

# The calls that `trials` makes, those that take memory and those that take none.
BEGINS = tuple(f"begin {kind}" for kind in ("Hist", "Add", "Batch", "Snapshot", "Delta"))
TAKING = ("blank", "ranges", "tally", "fresh_records", "world", *BEGINS, "run_schedule", "read", "report", "merge")
TAKING_NONE = ("begin SetCorrupt", "step", "knows")
# How each says that memory was refused.
NO_MEMORY = "NoMemory"
OTHER_WORDS = {"tally": "memory allocation failed"}

# What calls ask for (docs/PERFORMANCE.md): `fresh_records` 8 bytes for each record that fits in the segment.
SIZE = 1024
FITTING = (SIZE - 16) // 5
FRESH = [8 * FITTING] * 2
# `merge` for all histograms 88 bytes each, then for each of them twice its name and 8 bytes for each of its keys, and
# then again for all 32 bytes each, before the `hist` of each.
MERGED = {"custom": 4, "sparse": 9, "boolean": 3, "A": 3, "B": 3, "C": 3, "D": 3, "a_name_that_is_longer": 3}


def wrong_list(asked: Sequence[allocations.Asked], lines: Sequence[str]) -> str | None:
    """What is wrong with the calls that a run makes in which nothing is refused, or None."""
    made = {line[len("try "):] for line in lines if line.startswith("try ")}
    if made != {*TAKING, *TAKING_NONE}:
        return f"the calls {sorted(made ^ {*TAKING, *TAKING_NONE})} are made or wanted, and not both"
    takers = {one.call for one in asked}
    if takers != {*TAKING}:
        return f"the calls {sorted(takers ^ {*TAKING})} take memory or are to take some, and not both"
    refused = [line for line in lines if line.startswith("refused ")]
    return f"came {refused} where nothing was refused" if refused else None


def wrong_sizes(asked: Sequence[allocations.Asked]) -> str | None:
    """What is wrong with what calls ask for, or None."""
    names = [size for name, keys in MERGED.items() for size in (len(name), len(name), 8 * keys)]
    of_merge = [88 * len(MERGED), *names, 32 * len(MERGED)]
    fresh = [one.size for one in asked if one.call == "fresh_records"]
    merged = [one.size for one in asked if one.call == "merge"][:len(of_merge)]
    for name, came, right in [("fresh_records", fresh, FRESH), ("merge", merged, of_merge)]:
        if came != right:
            return f"{name} asks for {came} bytes, wanted {right}"
    return None


def refused_line(name: str) -> str:
    return f"refused {name} {OTHER_WORDS.get(name, NO_MEMORY)}"


def with_line(lines: Sequence[str], place: int, line: str) -> list[str]:
    """The lines of a run, with one line more after the line `try` of this place."""
    tries = [at for at, one in enumerate(lines) if one.startswith("try ")]
    return [*lines[:tries[place] + 1], line, *lines[tries[place] + 1:]]


def wrong_refusal(lines: list[str], one: allocations.Asked, came: Answer) -> str | None:
    """What is wrong with a run in which an allocation of a call was refused, or None."""
    if one.call == "merge":
        return wrong_merge(lines, came)
    right = with_line(lines, one.place, refused_line(one.call))
    return difference(Answer("".join(f"{line}\n" for line in right).encode()), came)


def merges_of(lines: list[str]) -> tuple[list[str], list[list[str]], list[str]]:
    """The lines before the merges of a run, those of each merge, and those after them."""
    tries = [at for at, line in enumerate(lines) if line.startswith("try ")] + [len(lines)]
    merges = [(start, end) for start, end in zip(tries, tries[1:]) if lines[start] == "try merge"]
    return lines[:merges[0][0]], [lines[start + 1:end] for start, end in merges], lines[merges[-1][1]:]


def added_by(line: str) -> tuple[str, str]:
    """The name of the histogram that a line says was added to, and the units."""
    found = re.fullmatch(r"added (\[.*\]) (\d+)", line)
    assert found is not None, line
    return found[1], found[2]


def stopped_merge(whole: Sequence[str], reached: int) -> list[str]:
    """The lines of a merge that was refused when it had reached a number of histograms, if `whole` are the lines of a
    merge that was done: what it added before stays, and nothing is added of the histogram where it stopped."""
    added = [added_by(line) for line in whole if line.startswith("added ")]
    if not reached:
        return [refused_line("merge"), f"{MOST_UNITS} units"]
    before, (name, _) = added[:reached - 1], added[reached - 1]
    stayed = {bytes(map(int, one[1:-1].split(", "))).decode() for one, _ in before}
    return [
        *(f"added {one} {units}" for one, units in before),
        f"added {name} 0",
        f"stopped {name} 0 {NO_MEMORY}",
        f"{MOST_UNITS - sum(int(units) for _, units in before)} units",
        *(line for line in whole if line.split(",")[0] in stayed),
    ]


def wrong_merge(lines: list[str], came: Answer) -> str | None:
    """What is wrong with a run in which a merge was refused and made once more, or None."""
    before, (whole,), after = merges_of(lines)
    came_before, merges, came_after = merges_of(came.output.decode().splitlines())
    if came.status != 0 or (came_before, came_after) != (before, after) or len(merges) != 2 or merges[1] != whole:
        return f"status {came.status}, {came.error[:200]!r}, or other lines before or after the merge that was refused"
    reached = sum(line.startswith("added ") for line in merges[0])
    right = stopped_merge(whole, reached)
    return None if merges[0] == right else f"wanted {right}, came {merges[0]}"


def wrong_allocation(
    program: pathlib.Path, refuser: allocations.Refuser, plain: Answer, place: int, one: allocations.Asked
) -> str | None:
    """What is wrong if an allocation of a call is refused, or None. A call may do with another one in its place; then
    that is refused too. A merge may do without the growth of an index."""
    came, asked = refuser.answer(program, ["growths"], place)
    if came == plain and any(other.place == one.place for other in asked[place + 1:]):
        came, _ = refuser.answer(program, ["growths"], place, lasting=True)
    if came == plain and one.call == "merge":
        return None
    return wrong_refusal(plain.output.decode().splitlines(), one, came)


def library_cases(
    program: pathlib.Path, refuser: allocations.Refuser, refused: collections.Counter[str]
) -> Iterator[Case]:
    """Each allocation of the calls of the libraries is refused; `refused` counts those of each call."""
    plain = answer(program, ["growths"])
    seen, asked = refuser.answer(program, ["growths"])
    yield "a run", difference(Answer(plain.output), plain) or difference(plain, seen)
    yield "the calls", wrong_list(asked, plain.output.decode().splitlines())
    yield "what calls ask for", wrong_sizes(asked)
    for place, one in enumerate(asked):
        wrong = wrong_allocation(program, refuser, plain, place, one)
        refused[one.call] += 1
        yield f"allocation {place}, {one.size} bytes of {one.call}", wrong


def wrong_command(command: failing.Command, wrong_answer: WrongAnswer) -> tuple[str | None, int]:
    """What is wrong if each growth of a command is refused in turn, or None; and how many were."""
    tried = 0
    for place, came, left in command.each(**GROWTH):
        if came.status in failing.NOT_LOADED and not tried:
            continue
        wrong = None if command.is_done(came, left) else wrong_answer(command, came, left)
        if wrong is not None:
            return f"growth {place}: {wrong}", tried
        tried += came.status == failing.NO_MEMORY.status
    return (None if tried else "NoMemory never came"), tried


def wrong_of_command(command: failing.Command, came: Answer, left: failing.Files) -> str | None:
    return command.untouched(failing.NO_THREAD if came == failing.NO_THREAD else failing.NO_MEMORY, came, left)


def wrong_of_stepped(command: failing.Command, came: Answer, _: failing.Files) -> str | None:
    """What is wrong with the answer of `stepped`, or None: it may have written what was done before."""
    if not command.right.output.startswith(came.output) or ("--image" in command.words and came.output):
        return f"came {came.output[:200]!r}"
    return difference(Answer(came.output, STEPPED_OUT_OF_MEMORY, 5), came)


def commands(
    program: pathlib.Path, stepped: pathlib.Path, folder: pathlib.Path
) -> Iterator[tuple[failing.Command, WrongAnswer]]:
    """The commands that are tried, each with the function that says what is wrong with its answer."""
    for command in failing.commands(program, folder):
        yield command, wrong_of_command
    adopted = folder / "adopted.csv"
    adopted.write_text(ADOPTED)
    for name, schedule in (("stepped", SCHEDULE), ("stepped, of an image", adopted)):
        for words in SHOWN:
            yield failing.Command(stepped, " ".join([name, *words]), [schedule, *words]), wrong_of_stepped


def command_cases(refused: collections.Counter[str]) -> Iterator[Case]:
    """Each growth of the commands is refused; `refused` counts those of each."""
    with tempfile.TemporaryDirectory() as scratch:
        for command, wrong_answer in commands(
            built(failing.PROGRAM), built("stepped"), pathlib.Path(scratch).resolve()
        ):
            name = f"the command {command.name}"
            wrong, refused[name] = wrong_command(command, wrong_answer)
            yield name, wrong


def told(refused: collections.Counter[str]) -> str:
    return ", ".join(f"{count} of {name}" for name, count in refused.items())


def cases(program: pathlib.Path, options: argparse.Namespace) -> Iterator[Case]:
    for name in (failing.PROGRAM, "stepped"):
        if not built(name).is_file():
            yield name, f"{built(name)}: no such program; 'rt run' in crates/{name} builds it"
            return
    refused: collections.Counter[str] = collections.Counter()
    with tempfile.TemporaryDirectory() as folder:
        try:
            refuser = allocations.Refuser(folder)
        except native.Failed as why:
            yield "refuse.c", str(why)
            return
        yield from library_cases(program, refuser, refused)
    if tracer.can_trace():
        yield from command_cases(refused)
    else:
        yield untried(tracer.NOT_ALLOWED, options)
    print(f"growths: refused {told(refused)}")
