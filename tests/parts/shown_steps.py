"""The pictures that `stepped --show` makes of schedules, beside a plain picture maker.

Each known schedule of cases/schedules is shown whole: its lines are known, and the plain picture is made of them, with
plain calls that say what is loaded and which exchanges fail. The two stored schedules are shown whole and stopped at
every event. README.md shows a part of the race for a name as the program draws it. What exchanges that fail wanted and
found is also known by hand, of one at each place where there can be one; and so are all loads of one call of each kind.
"""

from __future__ import annotations

import argparse
import concurrent.futures
import pathlib
import tempfile
from collections.abc import Iterator, Sequence

from support import plain_steps, readme
from support.lanes import processors
from support.program import ROOT, Answer, Case, answer, difference

PROGRAM = "stepped"
FOLDER = ROOT / "tests" / "cases" / "schedules"
EXAMPLES = ROOT / "examples"
RACE = EXAMPLES / "race_for_a_name.csv"
STORED = [RACE, EXAMPLES / "pack_before_disabling.csv"]
FULL = "/dev/full"
SPARSE = "world,128,64,7,1,2\nhist,0,S,sparse\nstep,0,100\nadd,0,S,-5,2\nstep,0,100\ndelta,0,S\nstep,0,100\n"
# What the picture of that has to say, by the layout of a sample's record.
SAID = ["S.sample(-5).mark 0 -> 2", "S.sample(-5).count 0 -> 2", "S.redundant 0 -> 2", "free 16 -> 32", "tail 12 -> 16"]
MOUNTED = "world,128,64,7,1,2\n" + "".join(
    f"{call}\nstep,0,100\n" for call in ("hist,0,A,boolean", "add,0,A,0,1", "add,0,A,1,3", "delta,0,A")
)
COUNTED = [
    '@16.name "" -> "A"', "A.single empty -> (bucket 0, 1 unit)", "A.counts 0 -> 32",
    "A.single (bucket 0, 1 unit) -> frozen (bucket 0, 1 unit)", "A.count[1] 0 -> 3", "A.mark[1] 0 -> 3",
    "A.single_mark 0 -> 1", "answer: histogram at 16", "answer: added",
    "answer: took a sum of 3, 1 unit at 0, 3 units at 1",
]

# Exchanges that fail, in the order of their events.
LATE = {
    "free pointer": (
        "world,128,64,7,2,2\nhist,0,A,boolean\nhist,1,B,boolean\nstep,0,3\nstep,1,3\nstep,0,1000\nstep,1,1000\n",
        ["free 16 -> 32", "free: wanted 16, found 32", "free 32 -> 48"],
    ),
    "list": (
        "world,128,64,7,2,2\nhist,0,A,boolean\nstep,0,16\nhist,1,B,boolean\nstep,1,1000\nstep,0,1000\n",
        [
            "queue.next 12 -> 16",
            "queue.next: wanted 12, found 16",
            "tail 12 -> 16",
            "A.next 12 -> 32",
            "tail 16 -> 32",
            "tail: wanted 12, found 32",
        ],
    ),
    "counts": (
        "world,128,64,7,2,2\nhist,0,A,boolean\nstep,0,100\nhist,1,A,boolean\nstep,1,100\nadd,0,A,0,1\nstep,0,100\n"
        "add,0,A,1,1\nadd,1,A,1,1\nstep,0,8\nstep,1,8\nstep,0,1\nstep,1,100\nstep,0,100\n",
        [
            "A.single empty -> (bucket 0, 1 unit)", "free 32 -> 42", "free 42 -> 52", "A.counts 0 -> 32",
            "A.counts: wanted 0, found 32", "@42.type 2 -> 0",
        ],
    ),
    "single word": (
        "world,128,64,7,2,2\nhist,0,A,boolean\nstep,0,100\nhist,1,A,boolean\nstep,1,100\n"
        "add,0,A,1,1\nadd,1,A,1,1\nstep,0,1\nstep,1,1\nstep,0,100\nstep,1,100\n",
        [
            "A.single empty -> (bucket 1, 1 unit)", "A.single: wanted empty, found (bucket 1, 1 unit)",
            "A.single (bucket 1, 1 unit) -> (bucket 1, 2 units)",
        ],
    ),
}


# All loads, in the order of their events.
MADE = ["queue.next: loaded 12", "flags: loaded 0", "free: loaded 16", "tail: loaded 12", "queue.next: loaded 16"]
LOADS = {
    "buckets": (
        MOUNTED + "snapshot,0,A\nstep,0,100\n",
        [
            *MADE, "A.type: loaded 1", "A.name_length: loaded 1", 'A.name: loaded "A"', "A.kind: loaded 2",
            "A.min: loaded 1", "A.max: loaded 2", "A.buckets: loaded 3",
            "A.single: loaded empty",
            "A.single: loaded (bucket 0, 1 unit)", "A.counts: loaded 0", "flags: loaded 0", "free: loaded 32",
            "A.single: loaded (bucket 0, 1 unit)",
            "A.single: loaded frozen (bucket 0, 1 unit)", "A.counts: loaded 32", "A.count[0]: loaded 0",
            "A.count[1]: loaded 3", "A.count[2]: loaded 0", "A.sum: loaded 3",
            "A.single: loaded frozen (bucket 0, 1 unit)", "A.counts: loaded 32", "A.count[0]: loaded 0",
            "A.count[1]: loaded 3", "A.count[2]: loaded 0", "A.sum: loaded 3", "A.redundant: loaded 4",
        ],
    ),
    "sparse": (
        SPARSE,
        [
            *MADE, "S.type: loaded 1", "S.name_length: loaded 1", 'S.name: loaded "S"', "S.kind: loaded 4",
            "S.min: loaded 0", "S.max: loaded 0", "S.buckets: loaded 0",
            "S.next: loaded 12", "flags: loaded 0", "free: loaded 32", "tail: loaded 16",
            "S.next: loaded 32", "S.sample(-5).type: loaded 3", "S.sample(-5).histogram: loaded 16",
            "S.sample(-5).value: loaded -5",
            "S.next: loaded 32", "S.sample(-5).type: loaded 3", "S.sample(-5).histogram: loaded 16",
            "S.sample(-5).value: loaded -5", "S.sample(-5).count: loaded 2", "S.sample(-5).next: loaded 12",
            "S.sum: loaded -10",
        ],
    ),
}


def wrong_known(program: pathlib.Path, case: pathlib.Path) -> str | None:
    """What is wrong with the picture of a known schedule, or None."""
    lines, fault = case.with_suffix(".out").read_text(), case.with_suffix(".err").read_bytes()
    status = int(case.with_suffix(".status").read_text())
    picture = plain_steps.picture(case.read_text(encoding="latin-1"), lines) if lines else ""
    return difference(Answer(picture.encode("latin-1"), fault, status), answer(program, [case, "--show"]))


def wrong_stop(program: pathlib.Path, schedule: pathlib.Path, lines: str, events: int) -> str | None:
    """What is wrong with the picture of a schedule that stops after a number of events, or None."""
    wanted = Answer(plain_steps.picture(schedule.read_text(), lines, events).encode())
    wrong = difference(wanted, answer(program, [schedule, "--show", "--stop", str(events)]))
    return wrong and f"after {events} events: {wrong}"


def wrong_stored(program: pathlib.Path, pool: concurrent.futures.Executor, schedule: pathlib.Path) -> str | None:
    lines = answer(program, [schedule]).output.decode()
    if not lines:
        return "it has no lines"
    events = range(lines.count(",step") + 1)
    return next(filter(None, pool.map(lambda event: wrong_stop(program, schedule, lines, event), events)), None)


def wrong_words(program: pathlib.Path, path: pathlib.Path, text: str, said: Sequence[str]) -> str | None:
    """Which of the rows that are known are missing in a picture, or None."""
    path.write_text(text)
    came = answer(program, [path, "--show"])
    rows = {line.split("\t")[1].strip() for line in came.output.decode().splitlines()}
    missing = [row for row in said if row not in rows]
    return f"{missing} is missing in {came}" if missing else None


def wrong_late(program: pathlib.Path, path: pathlib.Path, text: str, said: Sequence[str]) -> str | None:
    """Which of these rows are missing in a picture, or in another order there, or None. Every exchange that fails is
    one of them."""
    path.write_text(text)
    came = answer(program, [path, "--show"])
    rows = [line.split("\t")[1].strip() for line in came.output.decode().splitlines()]
    kept = [row for row in rows if row in said]
    late = [row for row in rows if ": wanted " in row and row not in said]
    return None if kept == said and not late else f"{kept} came in place of {said}, with {late}"


def wrong_loads(program: pathlib.Path, path: pathlib.Path, text: str, said: Sequence[str]) -> str | None:
    """Which loads a picture shows in place of these, or None."""
    path.write_text(text)
    came = answer(program, [path, "--show"])
    rows = [line.split("\t")[1].strip() for line in came.output.decode().splitlines()]
    loads = [row for row in rows if ": loaded " in row]
    return None if loads == said else f"{loads} came in place of {said}"


def wrong_readme(program: pathlib.Path) -> str | None:
    """What of the picture in README.md is not in the picture of the race, or None."""
    shown = readme.block(readme.RACE)[1:]
    rows = answer(program, [RACE, "--show"]).output.decode().expandtabs(8).splitlines()
    at = 0
    for line in shown:
        if line not in rows[at:]:
            return f"no row, or not after the one before: {line}"
        at = rows.index(line, at) + 1
    return None if shown else "it has no row below the command"


def wrong_device(program: pathlib.Path) -> str | None:
    with open(FULL, "wb") as stream:
        return difference(Answer(error=b"stepped: Write\n", status=4), answer(program, [RACE, "--show"], stdout=stream))


def cases(program: pathlib.Path, options: argparse.Namespace) -> Iterator[Case]:
    with tempfile.TemporaryDirectory() as scratch, concurrent.futures.ThreadPoolExecutor(processors()) as pool:
        known = sorted(FOLDER.glob("*.csv"))
        yield from zip(
            (f"known {case.stem}" for case in known), pool.map(lambda case: wrong_known(program, case), known)
        )
        for schedule in STORED:
            yield f"stops of {schedule.stem}", wrong_stored(program, pool, schedule)
        folder = pathlib.Path(scratch)
        yield "words of a sample", wrong_words(program, folder / "sparse.csv", SPARSE, SAID)
        yield "words of counts", wrong_words(program, folder / "counts.csv", MOUNTED, COUNTED)
        for name, (text, said) in LATE.items():
            yield f"late: {name}", wrong_late(program, folder / "late.csv", text, said)
        for name, (text, said) in LOADS.items():
            yield f"loads: {name}", wrong_loads(program, folder / "loads.csv", text, said)
    yield "README.md", wrong_readme(program)
    yield "a full device", wrong_device(program)
    for other in ("--report", "--image"):
        came = answer(program, [RACE, "--show", other])
        yield f"with {other}", None if came.status == 2 and came.error and not came.output else f"came {came}"
