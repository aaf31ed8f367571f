"""The tests in Rattle (tests/rattle) are in the layout of `rt fmt`, and each is run by `rt try --test`, and passes.

They are laid out beside copies of the crates (laid.py), and built without any proof. A test that is not run, for
instance because it lacks its attribute or no line names its module, fails. So does a worked example whose test is gone:
`examples.txt` names the test of each.

Then each allocation of reading words, and of the commands that record, is refused: the program `refused` of
tests/rattle makes each call twice. The first is refused and has written nothing, and the second does what it always
does. `rt try --fail-alloc` refuses the allocation of one number, so each process first makes as many others as it takes
for the next one of the call to have that number.
"""

from __future__ import annotations

import argparse
import concurrent.futures
import dataclasses
import pathlib
import tempfile
from collections.abc import Iterator, Sequence

from support import laid, tries
from support.lanes import processors
from support.program import Answer, Case

PROGRAM = None
EXAMPLES = laid.FOLDER / "examples.txt"

REFUSED = "refused"
# The number of the allocation that is refused; a process makes fewer before its first call.
NUMBER = 2000
NO_MEMORY, NO_THREAD, DONE, SPENT = "NoMemory", "NoThread", "done", "spent"
THREE = b"A,boolean,0,1,1\nA,boolean,1,2,2\nA,total,3,2\n"
SIX = b"A,boolean,0,1,2\nA,boolean,1,2,4\nA,total,6,4\n"


@dataclasses.dataclass(frozen=True)
class Wrote:
    """What a call read and wrote: words, bytes of an image, the report of that image, and a report."""

    words: int = 0
    image: int = 0
    of_image: bytes = b""
    report: bytes = b""


NOTHING = Wrote()


@dataclasses.dataclass(frozen=True)
class Call:
    """A call of `refused`: in how many processes it is tried, what it does if nothing is refused, and how it may say
    that something was."""

    processes: int
    right: Wrote
    says: Sequence[str] = (NO_MEMORY,)


# A thread that could not be started may have been refused memory.
CALLS = {
    "read": Call(24, Wrote(words=128)),
    "run": Call(105, Wrote(image=1024, of_image=THREE, report=THREE), (NO_MEMORY, NO_THREAD)),
    "run_by_two": Call(120, Wrote(image=1024, of_image=THREE, report=THREE), (NO_MEMORY, NO_THREAD)),
    "merge": Call(100, Wrote(image=1024, of_image=SIX)),
    "resume": Call(130, Wrote(image=1024, of_image=SIX, report=SIX), (NO_MEMORY, NO_THREAD)),
}


def unlisted(names: list[str]) -> str | None:
    """The folders of tests that have no line in the list, or None."""
    others = [path.name for path in sorted(laid.FOLDER.iterdir()) if path.is_dir() and path.name not in names]
    return f"{laid.OURS} has no line of {', '.join(others)}" if others else None


def examples() -> dict[str, str]:
    """What each worked example is, by the test that runs it."""
    lines = (line.strip() for line in EXAMPLES.read_text().splitlines())
    parts = (line.partition(": ") for line in lines if line and not line.startswith("#"))
    return {test: what for test, _, what in parts}


def example_cases(passed: set[str]) -> Iterator[Case]:
    """Whether each worked example was run by a test that passed; each that was is printed."""
    for test, what in examples().items():
        if test in passed:
            print(f"rattle: example: {what}")
        yield what, None if test in passed else f"{test} is gone, was not run, or did not pass"


def numbers(text: str) -> bytes:
    """The bytes of a list of numbers."""
    return bytes(int(number) for number in text[1:-1].split(", ") if number)


def made_by(line: str) -> tuple[str, Wrote]:
    """Why a call was refused, or `done`, and what it read and wrote, by its line."""
    said, words, image, of_image, report = line.split(";")
    return said, Wrote(int(words), int(image), numbers(of_image), numbers(report))


def answers(commands: Sequence[list[str]]) -> list[Answer]:
    """What each of these processes of `refused` answers, in each of which the allocation of one number is refused."""
    cases = [tries.Case(f"{place:05}", words, b"", tries.NOT_KNOWN) for place, words in enumerate(commands)]
    with laid.repository([REFUSED]) as root, tempfile.TemporaryDirectory() as scratch:
        folder = pathlib.Path(scratch).resolve() / "cases"
        tries.store(cases, folder)
        came = tries.run(REFUSED, ["--fail-alloc", str(NUMBER), "--cases", str(folder)], root=root)
    lines, shown = tries.parsed(came)
    if len(lines) < len(cases):
        raise ValueError(f"{len(lines)} of {len(cases)} processes of {REFUSED} were run: {tries.end_of(came)}")
    found = [(shown.get(name, b""), *lines[name]) for name in (case.name.encode() for case in cases)]
    return [
        Answer(output, told, int(status) if ended == b"ended" else -1) for output, told, ended, status, _ in found
    ]


def wrong_pair(call: Call, made: Sequence[tuple[str, Wrote]]) -> str | None:
    """What is wrong with two calls, one after the other, of which one may have been refused, or None."""
    if len(made) != 2:
        return f"came {made}"
    for said, wrote in made:
        if said != DONE and said not in call.says:
            return f"it says {said}"
        if wrote != (call.right if said == DONE else NOTHING):
            return f"{said}, and then came {wrote}"
    return None if DONE in (made[0][0], made[1][0]) else "both were refused"


def wrong_call(call: Call, found: Sequence[Answer]) -> tuple[str | None, int]:
    """What is wrong with the processes of a call, each of which refuses a later allocation than the one before it, or
    None; and in how many the first call was refused. All of its allocations are tried once a second call is refused."""
    refused = 0
    for place, came in enumerate(found):
        lines = came.output.decode().splitlines()
        if came.status != 0 or not lines:
            return f"process {place}: status {came.status}, {came.error[-300:]!r}", refused
        if lines[0].startswith(SPENT):
            continue
        made = [made_by(line) for line in lines]
        wrong = wrong_pair(call, made)
        if wrong is not None:
            return f"process {place}: {wrong}", refused
        if made[1][0] != DONE:
            return None if refused else "no first call was refused", refused
        refused += made[0][0] != DONE
    return "it takes more processes to refuse all of its allocations", refused


def refused_cases() -> Iterator[Case]:
    """Each allocation of each call is refused."""
    commands = [[name, str(NUMBER - 1 - at)] for name, call in CALLS.items() for at in range(call.processes)]
    came = iter(answers(commands))
    counts = []
    for name, call in CALLS.items():
        wrong, refused = wrong_call(call, [next(came) for _ in range(call.processes)])
        counts.append(f"{refused} of {name}")
        yield f"each allocation of {name} is refused", wrong
    print(f"rattle: refused {', '.join(counts)}")


def cases(_program: None, _options: argparse.Namespace) -> Iterator[Case]:
    names = laid.crates()
    yield "each folder has its line", unlisted(names)
    passed: set[str] = set()
    with laid.repository(names) as root, concurrent.futures.ThreadPoolExecutor(processors()) as pool:
        for found in pool.map(lambda name: list(laid.run_tests(root, name)), names):
            passed.update(name.replace(", ", "::") for name, wrong in found if wrong is None)
            yield from found
    yield from example_cases(passed)
    yield from refused_cases()
    tests = [test for name in names if not laid.is_program(name) for test in laid.tests_of(name)]
    print(f"rattle: {len(tests)} tests in Rattle")
