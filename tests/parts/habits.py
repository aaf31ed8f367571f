"""What people do with any program: `-` as a name, a reader that ends early, no terminal to explain a fault on, and no
file at all."""

from __future__ import annotations

import argparse
import errno
import os
import pathlib
import pty
import subprocess
import tempfile
from collections.abc import Iterator, Sequence

from parts import explained as explaining
from support.program import (
    EXAMPLE, ROOT, SCRIPT, Answer, Case, Word, answer, built, content, difference, explained, fault,
)

PROGRAM = "persist_report"
STEPPED = "stepped"
VARIABLE = "PERSIST_REPORT_EXPLAIN"
REPORT = Answer(b"A,boolean,0,1,1\nA,boolean,1,2,2\nA,total,3,2\n")
RESUMED = Answer(b"A,boolean,0,1,2\nA,boolean,1,2,4\nA,total,6,4\n")
MERGED = b"A,boolean,0,1,2\nA,boolean,1,2,4\nA,total,6,4\n"
MISSING = f"{os.strerror(errno.ENOENT)} (os error {errno.ENOENT})"
FULL = f"{os.strerror(errno.ENOSPC)} (os error {errno.ENOSPC})"
# What ends the input of a terminal.
END_OF_INPUT = b"\x04"
STOOD = b"what stood there before"


def asked_to_explain(program: pathlib.Path) -> Iterator[Case]:
    """The environment asks for the lines, or `--explain` before the command."""
    missing: list[Word] = ["report", "/missing"]
    short, lines = fault("Read", 4), explained("Read", 4, [f'"/missing": {MISSING}'])
    for value, wanted in (("1", lines), ("yes", lines), ("0", short), ("", short), (None, short)):
        setting = {name: text for name, text in os.environ.items() if name != VARIABLE}
        setting |= {} if value is None else {VARIABLE: value}
        yield f"{VARIABLE} is {value!r}", difference(wanted, answer(program, missing, env=setting))
    before: list[list[Word]] = [["--explain", *missing], ["--explain", *missing, "--explain"]]
    for words in before:
        yield f"{words}", difference(lines, answer(program, words))
    came = answer(program, ["--explain", "report", EXAMPLE])
    yield "--explain before a command that succeeds", difference(REPORT, came)
    mistakes: list[list[Word]] = [["--explain"], ["--explain", "--explain", *missing]]
    for words in mistakes:
        came = answer(program, words)
        is_right = (came.output, came.status) == (b"", 2) and came.error.startswith(b"error: ")
        yield f"{words}", None if is_right else f"wanted a usage fault, came {came}"
    said = answer(program, ["--help"]).output
    yield "--help names the variable", None if f"{VARIABLE}=1".encode() in said else f"came {said!r}"


def closed_pipes(program: pathlib.Path, folder: pathlib.Path) -> Iterator[Case]:
    """If nobody reads standard output any more, no line follows that of the fault, in whatever way it was asked for."""
    out = folder / "closed"
    commands: dict[str, list[Word]] = {
        "report": ["report", EXAMPLE],
        "show": ["show", EXAMPLE],
        "export": ["export", EXAMPLE],
        "run": ["run", SCRIPT, out],
        "merge": ["merge", EXAMPLE, EXAMPLE, "-"],
    }
    wanted, setting = fault("Write", 4), {**os.environ, VARIABLE: "1"}
    for name, words in commands.items():
        reading, writing = os.pipe()
        os.close(reading)
        wrong = difference(wanted, answer(program, [*words, "--explain"], stdout=writing, cwd=folder))
        yield f"{name} into a closed pipe", wrong or ("OUT was made" if out.exists() else None)
        wrong = difference(wanted, answer(program, words, stdout=writing, cwd=folder, env=setting))
        yield f"{name} into a closed pipe, by the environment", wrong
        wrong = difference(wanted, explaining.on_terminal(program, words, stdout=writing, cwd=folder))
        yield f"{name} into a closed pipe, on a terminal", wrong
        os.close(writing)
    with open("/dev/full", "wb") as full:
        lines = explained("Write", 4, [f"standard output: {FULL}"])
        for name in ("report", "merge"):
            came = answer(program, [*commands[name], "--explain"], stdout=full, cwd=folder)
            yield f"{name} into a full device", difference(lines, came)


def inputs_by_dash(program: pathlib.Path, folder: pathlib.Path) -> Iterator[Case]:
    """`-` is standard input as one input."""
    base, out = folder / "base", folder / "out"
    answer(program, ["run", SCRIPT, base])
    script, image, example = SCRIPT.read_bytes(), base.read_bytes(), EXAMPLE.read_bytes()
    inputs: dict[str, tuple[list[Word], bytes, Answer, bytes]] = {
        "report -": (["report", "-"], example, REPORT, b""),
        "run - OUT": (["run", "-", out], script, REPORT, REPORT.output),
        "resume - SCRIPT OUT": (["resume", "-", SCRIPT, out], image, RESUMED, RESUMED.output),
        "resume BASE - OUT": (["resume", base, "-", out], script, RESUMED, RESUMED.output),
        "merge - DEAD OUT": (["merge", "-", EXAMPLE, out], example, Answer(), MERGED),
        "merge BASE - OUT": (["merge", EXAMPLE, "-", out], example, Answer(), MERGED),
        "extract - OUT": (["extract", "-", out], bytes(8) + example, Answer(error=b"8\n"), REPORT.output),
    }
    for name, (words, data, wanted, report) in inputs.items():
        out.unlink(missing_ok=True)
        wrong = difference(wanted, answer(program, words, data, cwd=folder))
        if wrong is None and report:
            wrong = difference(Answer(report), answer(program, ["report", out]))
        yield name, wrong
        short = b"\x00" * 7
        came = answer(program, [*words, "--explain"], short, cwd=folder)
        is_told = came.status == 3 and (b"standard input" in came.error or words[0] == "extract")
        yield f"{name} of bytes that are none", None if is_told else f"came {came}"


def outputs_by_dash(program: pathlib.Path, folder: pathlib.Path) -> Iterator[Case]:
    """`-` is standard output as OUT."""
    out, example = folder / "out", EXAMPLE.read_bytes()
    answer(program, ["merge", EXAMPLE, EXAMPLE, out])
    outputs: dict[str, tuple[list[Word], Answer]] = {
        "merge BASE DEAD -": (["merge", EXAMPLE, EXAMPLE, "-"], Answer(out.read_bytes())),
        "merge - DEAD -": (["merge", "-", EXAMPLE, "-"], Answer(out.read_bytes())),
        "extract FILE -": (["extract", EXAMPLE, "-"], Answer(example, b"0\n")),
        "extract - -": (["extract", "-", "-"], Answer(example, b"0\n")),
    }
    for name, (words, wanted) in outputs.items():
        yield name, difference(wanted, answer(program, words, example, cwd=folder))
    yield "a fault before the output is begun", difference(
        fault("NoSegment", 3), answer(program, ["extract", "-", "-"], b"nothing", cwd=folder)
    )
    appended = folder / "appended"
    appended.write_bytes(STOOD)
    with open(appended, "ab") as stream:
        wrong = difference(Answer(), answer(program, ["merge", EXAMPLE, EXAMPLE, "-"], stdout=stream, cwd=folder))
    yield "merge into the end of a file", wrong or (
        None if content(appended) == STOOD + out.read_bytes() else "it was not written where standard output stood"
    )


def named_dash(program: pathlib.Path, folder: pathlib.Path) -> Iterator[Case]:
    """Files of the name `-`."""
    room = folder / "named"
    room.mkdir()
    (room / "-").write_bytes(EXAMPLE.read_bytes())
    yield "report ./-", difference(REPORT, answer(program, ["report", "./-"], b"", cwd=room))
    yield "run SCRIPT ./-", difference(REPORT, answer(program, ["run", SCRIPT, "./-"], cwd=room))
    yield "report ./- again", difference(REPORT, answer(program, ["report", "./-"], cwd=room))
    left = sorted(path.name for path in room.iterdir())
    yield "nothing else was made", None if left == ["-"] else f"{left}"


def twice(program: pathlib.Path, folder: pathlib.Path) -> Iterator[Case]:
    """Standard input as two inputs, and an image and a report on standard output, are usage faults."""
    room = folder / "twice"
    room.mkdir()
    mistakes: list[list[Word]] = [
        ["merge", "-", "-", "out"], ["merge", "-", "-", "-"], ["resume", "-", "-", "out"], ["run", SCRIPT, "-"],
        ["run", "-", "-"], ["resume", EXAMPLE, SCRIPT, "-"], ["resume", "-", "-", "-"],
    ]
    for words in mistakes:
        came = answer(program, words, EXAMPLE.read_bytes(), cwd=room)
        is_told = came.error.startswith(b"error: ") and came.error.endswith(b"\nFor more information, try '--help'.\n")
        is_right = (came.output, is_told, came.status) == (b"", True, 2) and not any(room.iterdir())
        yield f"{[str(word) for word in words]}", None if is_right else f"wanted a usage fault and no file, came {came}"


def typed(program: pathlib.Path, words: Sequence[Word]) -> Answer:
    """The answer if standard input is a terminal, at which the input is ended at once."""
    mine, its = pty.openpty()
    running = subprocess.Popen([program, *words], stdin=its, stdout=subprocess.PIPE, stderr=subprocess.PIPE)
    os.close(its)
    os.write(mine, END_OF_INPUT)
    output, error = running.communicate(timeout=60)
    os.close(mine)
    return Answer(output, error, running.returncode)


def without_file(program: pathlib.Path) -> Iterator[Case]:
    """A command without FILE says that it reads standard input, if that is a terminal; and only then."""
    short = fault("Image TooShort", 3)
    said = b"persist_report: reads the image from standard input, since no FILE is named (Ctrl-C ends it)\n"
    for command in ("report", "show", "export"):
        yield f"{command} alone", difference(Answer(b"", said + short.error, 3), typed(program, [command]))
        yield f"{command} -", difference(short, typed(program, [command, "-"]))
        yield f"{command} of a pipe", difference(short, answer(program, [command], b""))
    yield "report FILE", difference(REPORT, typed(program, ["report", EXAMPLE]))


def of_stepped(text: str, status: int, lines: Sequence[str]) -> Answer:
    """The answer of `stepped` that reports a fault, then these lines, and then what it means and what to do."""
    wanted = explained(text, status, lines)
    return Answer(error=wanted.error.replace(b"persist_report: ", b"stepped: ", 1), status=status)


def stepped_schedules(folder: pathlib.Path) -> Iterator[tuple[list[Word], Answer]]:
    """Command lines of `stepped` with a fault, each with its answer if that is explained."""
    bad, image, schedule = folder / "bad.csv", folder / "short.img", folder / "adopts.csv"
    bad.write_bytes(b"world,128,64,7,1,2\n\n\nstop,0\n")
    image.write_bytes(EXAMPLE.read_bytes()[:-1])
    yield [folder / "missing.csv"], of_stepped("Read", 4, [f'"{folder / "missing.csv"}": {MISSING}'])
    yield [bad], of_stepped("BadLine 2", 3, [f'"{bad}", line 4'])
    for name, text, line in (
        ("gone.img", "Read", f'"{folder / "gone.img"}": {MISSING}'), ("short.img", "NotWords", f'"{image}"'),
    ):
        path = schedule.with_name(f"{name}.csv")
        path.write_text(f"adopt,{folder / name},1\n")
        yield [path], of_stepped(text, 4 if text == "Read" else 3, [line])


def stepped_faults(folder: pathlib.Path) -> Iterator[Case]:
    """`stepped` explains its faults as `persist_report` does, and follows the same variable."""
    program = built(STEPPED)
    example = ROOT / "examples" / "race_for_a_name.csv"
    for words, wanted in stepped_schedules(folder):
        name = f"{STEPPED} {[str(word) for word in words]}"
        line = Answer(error=wanted.error.splitlines(True)[0], status=wanted.status)
        setting = {key: text for key, text in os.environ.items() if key != VARIABLE}
        yield name, difference(line, answer(program, words, env=setting))
        yield f"{name} --explain", difference(wanted, answer(program, [*words, "--explain"], env=setting))
        yield f"{name} by the environment", difference(wanted, answer(program, words, env={**setting, VARIABLE: "1"}))
        yield f"{name} on a terminal", difference(wanted, explaining.on_terminal(program, words))
    reading, writing = os.pipe()
    os.close(reading)
    closed = Answer(error=b"stepped: Write\n", status=4)
    yield f"{STEPPED} into a closed pipe", difference(closed, answer(program, [example, "--explain"], stdout=writing))
    os.close(writing)
    with open("/dev/full", "wb") as full:
        lines = of_stepped("Write", 4, [f"standard output: {FULL}"])
        for word in ("--show", "--report", "--image"):
            came = answer(program, [example, word, "--explain"], stdout=full)
            yield f"{STEPPED} {word} into a full device", difference(lines, came)
    said = answer(program, ["--help"]).output
    yield f"{STEPPED} --help names the variable", None if f"{VARIABLE}=1".encode() in said else f"came {said!r}"


def cases(program: pathlib.Path, _options: argparse.Namespace) -> Iterator[Case]:
    with tempfile.TemporaryDirectory() as scratch:
        folder = pathlib.Path(scratch).resolve()
        yield from asked_to_explain(program)
        for part in (closed_pipes, inputs_by_dash, outputs_by_dash, named_dash, twice):
            yield from part(program, folder)
        yield from without_file(program)
        yield from stepped_faults(folder)
