"""Programs that are run by `rt try`, which builds them without any proof, and how their answers differ from what was
wanted."""

from __future__ import annotations

import concurrent.futures
import dataclasses
import pathlib
import re
import subprocess
from collections.abc import Collection, Iterable, Iterator, Sequence

from support.lanes import processors
from support.program import ROOT, Answer, content, difference

# The line of a case: how it ended, its status if it did, and whether it wrote what was wanted. Before it comes what the
# case reported.
LINE = re.compile(rb"(.*?)^case=(\S+) run=(\S+)(?: status=(\S+))?(.*?)$\n", re.MULTILINE | re.DOTALL)
# What a case wrote for which there is no file with the output that is wanted.
SHOWN = re.compile(rb"^== (\S+)$\n", re.MULTILINE)

# How much is shown of how an output differs.
MOST_SIGNS = 500
# For an answer with an error there is no file with the output that is wanted, so it is shown.
NOT_KNOWN = Answer(error=b"not known")
# How long one case may take: a machine may have much else to do.
MOST_SECONDS = 600


@dataclasses.dataclass
class Case:
    """A command line with its standard input, and what has to come: the answer, and the bytes of the files that it
    writes, None of one that it must not make."""

    name: str
    words: list[str]
    data: bytes
    wanted: Answer
    written: dict[pathlib.Path, bytes | None] = dataclasses.field(default_factory=dict)


def run(
    crate: str, words: Iterable[str], data: bytes = b"", root: pathlib.Path = ROOT
) -> subprocess.CompletedProcess[bytes]:
    """What `rt try` says in the folder of a crate of a repository."""
    return subprocess.run(["rt", "try", *words], cwd=root / "crates" / crate, input=data, capture_output=True)


def end_of(came: subprocess.CompletedProcess[bytes]) -> str:
    """The end of what a run of `rt try` said."""
    return f"status {came.returncode}\n" + (came.stdout[-1000:] + came.stderr[-2000:]).decode(errors="replace").rstrip()


def store(cases: Iterable[Case], folder: pathlib.Path) -> None:
    """Writes a folder of cases as `rt try` reads it: NAME is the standard input, NAME.args the words, NAME.stdout the
    output.

    For a case that ends with a fault there is no NAME.stdout: only then `rt try` shows what the case reports.
    """
    folder.mkdir()
    for case in cases:
        (folder / case.name).write_bytes(case.data)
        (folder / f"{case.name}.args").write_text("".join(f"{word}\n" for word in case.words))
        if not case.wanted.error:
            (folder / f"{case.name}.stdout").write_bytes(case.wanted.output)


def wrong_of(case: Case, line: tuple[bytes, ...] | None, shown: bytes) -> str | None:
    """What is wrong with a case by its line and what it wrote, or None."""
    if line is None:
        return "it was not run"
    told, ended, status, rest = line
    text = told.decode(errors="replace").rstrip()
    if ended != b"ended":
        return f"run={ended.decode()}{rest.decode()}\n{text}"
    if case.wanted.error:
        wrong = difference(case.wanted, Answer(shown, told, int(status)))
    elif int(status) != case.wanted.status:
        wrong = f"wanted status {case.wanted.status}, came {int(status)}\n{text}"
    elif b"output=expected" not in rest.split():
        wrong = text.split("\n")[-1][:MOST_SIGNS]
    else:
        wrong = None
    for path, data in case.written.items():
        if wrong is None and content(path) != data:
            wrong = f"other bytes than wanted were written into {path.name}"
    return wrong


def parsed(came: subprocess.CompletedProcess[bytes]) -> tuple[dict[bytes, tuple[bytes, ...]], dict[bytes, bytes]]:
    """The line of each case that was run, by its name, and what it wrote if that is shown."""
    lines = {name: (told, *found) for told, name, *found in LINE.findall(came.stderr)}
    _, *parts = SHOWN.split(came.stdout)
    return lines, dict(zip(parts[::2], parts[1::2]))


def answers(
    crate: str, commands: Sequence[Sequence[str]], folder: pathlib.Path, root: pathlib.Path = ROOT
) -> list[Answer]:
    """Builds the program of a crate once and runs it with each of these words: what it answered, in their order.

    `rt try` gives no answer past 1 MiB. The status is that of the program, or -1 if it did not end.
    """
    names = [f"{place:05}" for place in range(len(commands))]
    store((Case(name, list(words), b"", NOT_KNOWN) for name, words in zip(names, commands)), folder)
    came = run(crate, ["--seconds", str(MOST_SECONDS), "--cases", str(folder)], root=root)
    lines, shown = parsed(came)
    missing = [name for name in names if name.encode() not in lines]
    if missing:
        raise ValueError(f"the cases {missing} of {crate} were not run: {end_of(came)}")
    found = [(shown.get(name, b""), *lines[name]) for name in map(str.encode, names)]
    return [
        Answer(output, told, int(status)) if ended == b"ended" else Answer(output, told + b"run=" + ended + rest, -1)
        for output, told, ended, status, rest in found
    ]


def answers_side_by_side(
    crate: str, commands: Sequence[Sequence[str]], folder: pathlib.Path, root: pathlib.Path = ROOT
) -> list[Answer]:
    """The same by as many runs of `rt try` side by side as there are processors, each of which builds the program."""
    lanes = min(processors(), len(commands))
    with concurrent.futures.ThreadPoolExecutor(lanes) as pool:
        lots = [
            pool.submit(answers, crate, commands[lane::lanes], folder / str(lane), root) for lane in range(lanes)
        ]
        found = [iter(lot.result()) for lot in lots]
    return [next(found[place % lanes]) for place in range(len(commands))]


def replay(crate: str, cases: Collection[Case], folder: pathlib.Path) -> Iterator[tuple[str, str | None]]:
    """Builds the program of a crate once and runs it on each case: the name of each, and what is wrong with it, or
    None."""
    store(cases, folder / "cases")
    came = run(crate, ["--cases", str(folder / "cases")])
    lines, shown = parsed(came)
    if not lines:
        yield "build", end_of(came)
        return
    for case in cases:
        name = case.name.encode()
        yield case.name, wrong_of(case, lines.get(name), shown.get(name, b""))
