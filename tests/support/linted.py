"""What ruff, flake8 and mypy find in the Python of tests/, bench/, c/, packaging/, python/ and examples/, by the
settings of pyproject.toml, and the lines that are longer than these allow. A tool that is not installed is left out,
and a line says so."""

from __future__ import annotations

import re
import shutil
import subprocess
from collections.abc import Iterator

from support.made import ROOT
from support.program import Case

SETTINGS = (ROOT / "pyproject.toml").read_text()
LIMIT = int(re.findall(r"^line-length = (\d+)$", SETTINGS, re.MULTILINE)[0])
IGNORED = re.findall(r"\w+", re.findall(r"^ignore = \[(.*)\]$", SETTINGS, re.MULTILINE)[0])

FIRST_LINE = "#!/usr/bin/env python3\n"
PROGRAMS = [path for path in sorted((ROOT / "bench").iterdir()) if path.suffix == "" and path.is_file()]
SCRIPTS = [f"bench/{path.name}" for path in PROGRAMS if path.read_text().startswith(FIRST_LINE)]
PACKAGING = [str(path.relative_to(ROOT)) for path in sorted((ROOT / "packaging").glob("**/*.py"))]
COMPARING = ["tests/by_hand/same_program", "tests/by_hand/finds_differences"]
RUN_BY_HAND = [
    *("tests/run", "tests/quick", "tests/edits", *COMPARING, "c/prove.py", "tests/by_hand/packages"),
    *PACKAGING,
    *SCRIPTS,
]
# The package for users, and what uses it.
PACKAGE = ["python/povundiri", "examples/python/slow.py"]
MODULES = [str(path.relative_to(ROOT)) for path in sorted((ROOT / "bench").glob("*.py"))]
MYPY = ["mypy", "--no-incremental", "--cache-dir", "/dev/null"]
COMMANDS = [
    ["ruff", "check", "--no-cache", "tests", "bench", *PACKAGE, *RUN_BY_HAND],
    # E203 refuses the space before a colon in `words[at : at + 8]`.
    [
        *("flake8", "--isolated", f"--max-line-length={LIMIT}", f"--extend-ignore={','.join([*IGNORED, 'E203'])}"),
        *("tests", "bench", *PACKAGE, *RUN_BY_HAND),
    ],
    # Each by itself: there is a script `run` in both.
    [
        *(*MYPY, "tests/support", "tests/parts", "tests/by_hand", "tests/run", "tests/quick", "tests/edits"),
        *(*COMPARING, "c/prove.py"),
    ],
    [*MYPY, "tests/by_hand/packages"],
    [*MYPY, *MODULES, *SCRIPTS],
    [*MYPY, *PACKAGING],
    [*MYPY, "--strict", *PACKAGE],
]
MOST_SECONDS = 300
MOST_SHOWN = 3000


def long_lines() -> str | None:
    """The lines that are longer than the limit, or None."""
    places = ("tests", "bench", "python", "examples")
    modules = [path for folder in places for path in sorted((ROOT / folder).glob("**/*.py"))]
    found = []
    for path in [*modules, *(ROOT / name for name in RUN_BY_HAND)]:
        for number, line in enumerate(path.read_text().splitlines(), 1):
            if len(line) > LIMIT:
                found.append(f"{path.relative_to(ROOT)}:{number}: {len(line)} signs, and {LIMIT} is the limit")
    return "\n".join(found)[:MOST_SHOWN] or None


def cases() -> Iterator[Case]:
    yield "the limit of lines", long_lines()
    for words in COMMANDS:
        if shutil.which(words[0]) is None:
            print(f"left out: {words[0]} is not installed", flush=True)
            continue
        done = subprocess.run(words, cwd=ROOT, capture_output=True, text=True, timeout=MOST_SECONDS)
        yield f"{words[0]} of {words[-1]}", None if done.returncode == 0 else (done.stdout + done.stderr)[-MOST_SHOWN:]
