"""The tests in Rattle, laid out in a repository of their own beside copies of the crates that they call.

`tests/rattle/NAME/src` has the sources of each, with the suffix `.txt`, by which the gate does not take them for a
crate's: they are not proved. `tests/rattle/libraries.txt` has a line for each, as crates.txt has one for each crate; a
second file of that name would be taken for the list of another repository. `rt try` builds them with checks, and stops
at a bad index, a sum that wraps or a bad access.
"""

from __future__ import annotations

import contextlib
import pathlib
import re
import shutil
import subprocess
import tempfile
from collections.abc import Iterable, Iterator, Mapping

from support import tries
from support.program import ROOT, Case

FOLDER = ROOT / "tests" / "rattle"
LIST, OURS = "crates.txt", "libraries.txt"
SUFFIX = ".txt"
# A test is a function that is passed the runtime, but for `main`.
TEST = re.compile(r"^(?:#\[test\]\n)?fn (?!main\b)(\w+)\(rt: HostRuntime\)|^#\[test\]\nfn (\w+)", re.MULTILINE)
PASSED = re.compile(rb"^test (\S+) \.\.\. ok$", re.MULTILINE)


def lines_of(path: pathlib.Path) -> dict[str, str]:
    """The line of each crate of a list."""
    lines = (line.split("#")[0].strip() for line in path.read_text().splitlines())
    return {re.split(r"[ :]", line)[0]: line for line in lines if line}


def needed(lines: Mapping[str, str], names: Iterable[str]) -> list[str]:
    """These crates and those below them, of the ones that have a line."""
    found, ahead = [], list(names)
    while ahead:
        name = ahead.pop()
        if name in lines and name not in found:
            found.append(name)
            ahead += lines[name].partition(":")[2].split()
    return found


def crates() -> list[str]:
    """The crates of tests."""
    return list(lines_of(FOLDER / OURS))


def is_program(name: str) -> bool:
    """Whether a crate of tests is a program, which has no tests: parts of tests/run run it."""
    return (FOLDER / name / "src" / f"main.rt{SUFFIX}").is_file()


def sources(name: str) -> dict[pathlib.Path, str]:
    """The text of each file of a crate of tests, by its path in the crate."""
    folder = FOLDER / name
    found = {path.relative_to(folder): path.read_text() for path in sorted(folder.glob(f"**/*{SUFFIX}"))}
    return {path.with_suffix(""): text for path, text in found.items()}


def lay_out_sources(folder: pathlib.Path, name: str) -> None:
    """Writes the files of a crate of tests."""
    for path, text in sources(name).items():
        (folder / path).parent.mkdir(parents=True, exist_ok=True)
        (folder / path).write_text(text)


def lay_out(repository: pathlib.Path, names: Iterable[str]) -> None:
    """Makes a repository of crates of tests and of copies of the crates below them, each with its sources alone."""
    ours = lines_of(ROOT / LIST)
    lines = {**ours, **lines_of(FOLDER / OURS)}
    every = needed(lines, names)
    for name in every:
        if name in ours:
            shutil.copytree(ROOT / "crates" / name / "src", repository / "crates" / name / "src")
        else:
            lay_out_sources(repository / "crates" / name, name)
    (repository / LIST).write_text("".join(f"{lines[name]}\n" for name in every))
    shutil.copy(ROOT / "HANDLES", repository)


@contextlib.contextmanager
def repository(names: Iterable[str]) -> Iterator[pathlib.Path]:
    """A repository of crates of tests, which is removed afterwards."""
    with tempfile.TemporaryDirectory() as folder:
        root = pathlib.Path(folder).resolve()
        lay_out(root, names)
        yield root


def unformatted(root: pathlib.Path, name: str) -> str | None:
    """Which files of a crate of tests are not in the layout that `rt fmt` gives, or None. It changes the copies."""
    folder = root / "crates" / name
    came = subprocess.run(["rt", "fmt"], cwd=folder, capture_output=True, text=True)
    if came.returncode != 0:
        return f"rt fmt: status {came.returncode}\n{(came.stdout + came.stderr)[-1000:]}"
    others = [str(path) for path, text in sources(name).items() if (folder / path).read_text() != text]
    return f"not as rt fmt lays it out: {', '.join(others)}" if others else None


def tests_of(name: str) -> list[str]:
    """The tests of a crate, by their modules and names."""
    found = []
    for path, text in sources(name).items():
        modules = [*path.parts[1:-1], path.stem]
        found += ["::".join([*modules, first or second]) for first, second in TEST.findall(text)]
    return found


def run_tests(root: pathlib.Path, name: str) -> Iterator[Case]:
    """What is wrong with the layout of a crate of tests, and with each of its tests: all have to be run, and pass."""
    yield f"{name}, as rt fmt lays it out", unformatted(root, name)
    if is_program(name):
        return
    came = tries.run(name, ["--test"], root=root)
    passed = {test.decode() for test in PASSED.findall(came.stdout)}
    wanted = tests_of(name)
    is_clean = came.returncode == 0 and passed == set(wanted) and wanted
    yield f"{name}, the run of {len(wanted)} tests", None if is_clean else tries.end_of(came)
    for test in wanted if b"test result: " in came.stdout else []:
        yield f"{name}, {test}", None if test in passed else "it did not pass, or was not run"
