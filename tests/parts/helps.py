"""The help of both programs, short and long: no line is wider than a terminal, `-h` fits one screen, `--help` has all
that `-h` has, and what that leaves out is known, and the examples work in an empty folder, one after the other."""

from __future__ import annotations

import argparse
import os
import pathlib
import re
import subprocess
import tempfile
from collections.abc import Iterator, Sequence

from support.program import Case, answer, built, difference

PROGRAM = "persist_report"
STEPPED = "stepped"
MOST_COLUMNS = 80
MOST_LINES = 25
SECONDS = 120
# Commands that have been there from the start.
COMMANDS = ["report", "export", "show", "run", "resume", "merge", "look", "extract", "explain"]
# What `--help` says, however its lines are broken: of the program, of its commands, and of `stepped`.
SENTENCES: dict[tuple[str, ...], list[str]] = {
    (): ["Show, convert, merge and continue the histograms of a Povundiri segment"],
    ("report",): [
        "Print the histograms of an image, or of the sum of several, as CSV",
        "to make one image of two, use `merge`",
        "Explain errors: file, line, reason and what to do (on by default in a terminal)",
    ],
    ("show",): ["Write one self-contained HTML page (not with --width, --ascii or --log)"],
    ("merge",): [
        "Add two images into a new one; counts that a delta has already taken are left out",
        "To see what images have together, use `report` or `show` of all of them",
        "Image whose counts are added to BASE",
    ],
    ("extract",): [
        "Find a segment in any file, such as a mapped file or a core dump, and write its image to OUT; "
        "prints its offset",
    ],
    ("resume",): [
        "Continue from image BASE: run a script and write the new image to OUT and its report to standard output",
    ],
    (STEPPED,): [
        "Replay a schedule of calls on a segment, one atomic step at a time",
        "Print the report of the segment at the end, or where --stop ended",
    ],
}
# Options that `-h` of a command leaves out.
OF_SUMS = ["--files-from", "--minus", "--workers", "--strict"]
ONLY_LONG: dict[tuple[str, ...], list[str]] = {
    ("report",): ["--at", *OF_SUMS],
    ("show",): ["--also", "--at", *OF_SUMS],
    ("export",): ["--at", *OF_SUMS],
    ("info",): ["--at"],
}
# What `-h` says.
SHORT_SENTENCES: dict[tuple[str, ...], list[str]] = {
    ("report",): ["Images, totals or folders [default: standard input]"],
    ("info",): ["Image file [default: standard input]"],
}


def asked(program: pathlib.Path, words: Sequence[str]) -> str:
    """The help that these words ask for, which is all that comes."""
    came = answer(program, words)
    assert (came.error, came.status) == (b"", 0), f"{program.name} {' '.join(words)}: {came}"
    return came.output.decode()


def commands_in(text: str) -> list[str]:
    """The commands that a help lists, but `help`."""
    listed = text.split("\nCommands:\n", 1)[1].split("\n\n", 1)[0]
    return [name for name in re.findall(r"^  (\w+) ", listed, re.MULTILINE) if name != "help"]


def options_in(text: str) -> list[str]:
    """The options that a help lists, in its order."""
    return re.findall(r"^(?:  -\w, |      )(--[\w-]+)(?: .*)?$", text, re.MULTILINE)


def examples_in(text: str) -> list[str]:
    """The commands of the examples, each with the lines that continue it."""
    found = re.search(r"^Examples?:\n((?:  .*\n)+)", text, re.MULTILINE)
    lines = found[1].replace("\\\n", " ") if found else ""
    return [line.strip() for line in lines.splitlines()]


def wrong_shape(text: str, most_lines: int | None) -> str | None:
    """The first line that is too wide, or how many there are too many, or None."""
    lines = text.splitlines()
    wide = [line for line in lines if len(line) > MOST_COLUMNS]
    if wide:
        return f"{len(wide[0])} columns: {wide[0]!r}"
    return f"{len(lines)} lines" if most_lines is not None and len(lines) > most_lines else None


def wrong_texts(short: str, long: str, words: Sequence[str]) -> str | None:
    """What is wrong with the short and the long help of a command, or None."""
    only_long = [option for option in options_in(long) if option not in options_in(short)]
    if [*options_in(short), *only_long] != sorted(options_in(long), key=only_long.__contains__):
        return f"the options of -h are {options_in(short)}, those of --help {options_in(long)}"
    if only_long != ONLY_LONG.get(tuple(words), []):
        return f"-h leaves out {only_long}"
    options = [option for option in options_in(short) if option != "--version"]
    if "--explain" in options and options[-2:] != ["--explain", "--help"] and words:
        return f"--explain and --help are not last: {options_in(short)}"
    for sentences, text in ((SENTENCES, long), (SHORT_SENTENCES, short)):
        for sentence in sentences.get(tuple(words), []):
            if sentence not in " ".join(text.split()):
                return f"it does not say {sentence!r}"
    return None if examples_in(long) else "there is no example"


def helps(program: pathlib.Path, commands: Sequence[str], names: Sequence[str]) -> Iterator[Case]:
    """The short and the long help of a command; `names` are the words for it in the tables."""
    short, long = (asked(program, [*commands, word]) for word in ("-h", "--help"))
    title = " ".join((program.name, *commands))
    yield f"{title} -h", wrong_shape(short, MOST_LINES)
    yield f"{title} --help", wrong_shape(long, None)
    yield f"{title}: both", wrong_texts(short, long, names)


def wrong_example(command: str, folder: pathlib.Path, programs: pathlib.Path) -> str | None:
    """What is wrong with an example that is run in a folder, or None. Only `extract` writes to the error stream."""
    setting = {**os.environ, "PATH": f"{programs}:{os.environ['PATH']}"}
    came = subprocess.run(["bash", "-c", command], cwd=folder, env=setting, capture_output=True, timeout=SECONDS)
    said = b"0\n" if " extract " in command else b""
    return None if (came.returncode, came.stderr) == (0, said) else f"{came}"


def examples(programs: pathlib.Path, texts: Sequence[str]) -> Iterator[Case]:
    """The examples of some helps in an empty folder, in their order."""
    with tempfile.TemporaryDirectory() as room:
        for command in [command for text in texts for command in examples_in(text)]:
            yield f"the example {command}", wrong_example(command, pathlib.Path(room), programs)


def cases(program: pathlib.Path, _options: argparse.Namespace) -> Iterator[Case]:
    with tempfile.TemporaryDirectory() as scratch:
        programs = pathlib.Path(scratch)
        for name, path in ((PROGRAM, program), (STEPPED, built(STEPPED))):
            (programs / name).symlink_to(path.resolve())
        reporting, stepping = programs / PROGRAM, programs / STEPPED
        commands = commands_in(asked(reporting, ["-h"]))
        missing = [name for name in COMMANDS if name not in commands]
        yield "the commands", f"missing are {missing}" if missing else None
        yield from helps(reporting, [], [])
        for name in commands:
            yield from helps(reporting, [name], [name])
            long = answer(reporting, [name, "--help"])
            yield f"help {name}", difference(long, answer(reporting, ["help", name]))
        yield from helps(stepping, [], [STEPPED])
        yield "help", difference(answer(reporting, ["--help"]), answer(reporting, ["help"]))
        own = asked(reporting, ["--help"])
        yield from examples(programs, [own, *(asked(reporting, [name, "--help"]) for name in commands)])
        yield from examples(programs, [asked(stepping, ["--help"])])
