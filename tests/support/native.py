"""C and C++ programs: the library as `make -C c` builds it, installed for one run, and what is compiled against it by
pkg-config."""

from __future__ import annotations

import os
import pathlib
import shlex
import shutil
import subprocess
import tempfile
from collections.abc import Callable, Iterable, Iterator, Mapping
from typing import Any

from support.program import ROOT, Case, Path, Word

LIBRARY = ROOT / "c"
PROGRAMS = ROOT / "tests" / "c"
COMPILERS = {".c": ("CC", "cc", "-std=c99"), ".cpp": ("CXX", "c++", "-std=c++17")}
STRICT = ["-O1", "-g", "-Wall", "-Wextra", "-Wpedantic", "-Werror", "-pthread"]
SANITIZED = ["-fsanitize=address,undefined", "-fno-sanitize-recover=all"]
MOST_SECONDS = 300
# `make` has the proved part built first, if that is not there.
MOST_SECONDS_TO_BUILD = 7200


class Failed(Exception):
    """What was not there, or what a tool said that failed."""


def run(words: Iterable[Word], seconds: int = MOST_SECONDS, **settings: Any) -> str:
    """What a tool prints; it has to end well."""
    line = [str(word) for word in words]
    try:
        done = subprocess.run(line, capture_output=True, text=True, timeout=seconds, **settings)
    except FileNotFoundError:
        raise Failed(f"there is no {line[0]}, which this part needs") from None
    except subprocess.TimeoutExpired:
        raise Failed(f"{line[0]}: no end within {seconds} seconds") from None
    if done.returncode != 0:
        raise Failed(f"{line[0]}: status {done.returncode}, {(done.stderr or done.stdout)[-1500:]}")
    return done.stdout


def compiler(suffix: str) -> list[str]:
    """The words with which sources of this kind are compiled."""
    variable, usual, standard = COMPILERS[suffix]
    words = shlex.split(os.environ.get(variable, usual))
    if shutil.which(words[0]) is None:
        raise Failed(f"there is no {words[0]}: this part needs a compiler of C and of C++")
    return [*words, standard]


def groups(said: str) -> Iterator[Case]:
    """The name of each group of checks that a program reports, and what failed in it or None. What the program leaves
    out is printed."""
    failed: list[str] = []
    for line in said.splitlines():
        name, _, how = line.rpartition(": ")
        if line.startswith("left out: "):
            print(line, flush=True)
        elif how == "passed":
            yield name, None
        elif how == "failed":
            yield name, "; ".join(failed)
            failed = []
        else:
            failed.append(line)


def checks_of(title: str, words: Iterable[Path], setting: Mapping[str, str]) -> Iterator[Case]:
    """The cases of a program that checks something: each group of its checks, and its end, before which one was run."""
    try:
        done = subprocess.run([*words], capture_output=True, text=True, timeout=MOST_SECONDS, env=setting)
    except subprocess.TimeoutExpired as why:
        yield title, str(why)
        return
    checked = [*groups(done.stdout)]
    yield from ((f"{title}, {group}", wrong) for group, wrong in checked)
    wrong = None if done.returncode == 0 else f"status {done.returncode}: {done.stderr[-1500:]}"
    yield f"{title}, its end", wrong or (None if checked else "no group of checks was run")


class Installed:
    """The library, built and installed in a folder."""

    def __init__(self, folder: Path) -> None:
        for suffix in COMPILERS:
            compiler(suffix)
        self.folder = pathlib.Path(folder)
        self.prefix = self.folder / "prefix"
        self.objects: dict[pathlib.Path, pathlib.Path] = {}
        run(["make", "-s", "-C", LIBRARY, "install", f"PREFIX={self.prefix}"], seconds=MOST_SECONDS_TO_BUILD)

    def words(self, what: str) -> list[str]:
        """What pkg-config answers for the archives."""
        path = str(self.prefix / "lib" / "pkgconfig")
        return shlex.split(run(["pkg-config", what, "povundiri-static"], env={**os.environ, "PKG_CONFIG_PATH": path}))

    def sanitized(self, suffix: str) -> list[pathlib.Path]:
        """What is in `c/` for a program in this language, compiled under the sanitizers: it is linked in place of the
        library's own."""
        kept = [".c"] if suffix == ".c" else [*COMPILERS]
        for source in sorted(path for path in LIBRARY.iterdir() if path.suffix in kept):
            if source not in self.objects:
                self.objects[source] = self.folder / f"{source.stem}_sanitized.o"
                run(
                    [
                        *compiler(source.suffix), *STRICT, *SANITIZED, *self.words("--cflags"), "-c", "-o",
                        self.objects[source], source,
                    ]
                )
        return [built for source, built in self.objects.items() if source.suffix in kept]

    def program(self, source: pathlib.Path, *flags: Word) -> pathlib.Path:
        """A program, compiled and linked; `flags` are more words for the compiler."""
        built = (
            self.folder
            / f"{source.stem}{source.suffix.replace('.', '_')}{'_sanitized' if SANITIZED[0] in flags else ''}"
        )
        objects = self.sanitized(source.suffix) if SANITIZED[0] in flags else []
        run(
            [
                *compiler(source.suffix), *STRICT, *flags, *self.words("--cflags"), "-o", built, source, *objects,
                *self.words("--libs"),
            ]
        )
        return built

    def with_layers(
        self,
        source: pathlib.Path,
        layers: Iterable[str],
        compiler_words: Iterable[str],
        flags: Iterable[str],
        replaced: Iterable[str] = (),
    ) -> pathlib.Path:
        """A program of `tests/c` with these sources of `c/` compiled for it: by these words and flags, and with the
        calls to the system that are in `replaced` going to the program's own `test_` functions. The proved part is that
        of the library."""
        built = self.folder / f"{source.stem}_with_layers"
        words = [*compiler_words, *STRICT, *flags, *self.words("--cflags")]
        parts: list[pathlib.Path] = []
        for name in layers:
            parts.append(self.folder / f"{source.stem}_{name}.o")
            run([*words, *(f"-D{call}=test_{call}" for call in replaced), "-c", "-o", parts[-1], LIBRARY / name])
        run([*words, "-o", built, source, *parts, *self.words("--libs")])
        return built


def cases_of(source: str, test: Callable[[pathlib.Path, pathlib.Path], Iterable[Case]]) -> Iterator[Case]:
    """The cases of a test that is given a program of `tests/c` and a folder to work in; or that there is no such
    program, and why."""
    with tempfile.TemporaryDirectory() as scratch:
        folder = pathlib.Path(scratch)
        try:
            program = Installed(folder).program(PROGRAMS / source)
        except Failed as why:
            yield source, str(why)
            return
        yield from test(program, folder)
