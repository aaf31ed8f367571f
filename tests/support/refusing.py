"""What has to be refused when it is compiled: each line of a source with the mark `// refused: ` at its end, and after
that the words, with `; ` between them, which the compiler has to say. Each is tried alone, as an error and with the
warnings that a careful user has; and without all of them the source compiles. Both gcc and clang are asked; for one
that is not there, a line says what was left out."""

from __future__ import annotations

import pathlib
import shutil
import subprocess
from collections.abc import Iterator

from support import native
from support.program import Case

SOURCE = native.PROGRAMS / "refused_times.cpp"
COMPILERS = ("g++", "clang++")
MARK = "// refused: "
SETTING = {"LC_ALL": "C", "PATH": "/usr/bin:/bin"}
MOST_SECONDS = 120
# With fewer the source was not read as it should be.
LEAST_LINES = 30


def marked(lines: list[str]) -> dict[int, list[str]]:
    """Of each line with a mark, by its number, the words that a compiler has to say of it."""
    return {at: line.split(MARK)[1].split("; ") for at, line in enumerate(lines) if MARK in line}


class Compiler:
    """A compiler, which has compiled the headers that the source includes."""

    def __init__(self, name: str, folder: pathlib.Path, lines: list[str]) -> None:
        self.words = [name, "-std=c++17", "-Wall", "-Wextra", "-Werror", "-Wno-unused-variable", f"-I{native.LIBRARY}"]
        self.source, self.headers = folder / "refused.cpp", folder / "headers.hpp"
        self.headers.write_text("".join(f"{line}\n" for line in lines if line.startswith("#include")))
        compiled = self.headers.with_suffix(".hpp.gch" if name == "g++" else ".hpp.pch")
        native.run([*self.words, "-x", "c++-header", self.headers, "-o", compiled], env=SETTING)

    def said_of(self, lines: list[str]) -> tuple[int, str]:
        """Its status for these lines, and what it says."""
        self.source.write_text("".join(f"{line.split(MARK)[0]}\n" for line in lines))
        words = [*self.words, "-include", str(self.headers), "-fsyntax-only", str(self.source)]
        done = subprocess.run(words, env=SETTING, capture_output=True, text=True, timeout=MOST_SECONDS)
        return done.returncode, done.stderr


def wrong_line(compiler: Compiler, lines: list[str], at: int, words: list[str]) -> str | None:
    """What is wrong with how a compiler refuses this line alone of those that it has to refuse, or None."""
    others = marked(lines)
    status, said = compiler.said_of([line for place, line in enumerate(lines) if place == at or place not in others])
    missing = [word for word in words if word not in said]
    return f"status {status}, missing {missing}: {said[-1500:]}" if status == 0 or missing else None


def cases(folder: pathlib.Path) -> Iterator[Case]:
    lines = SOURCE.read_text().splitlines()
    refused = marked(lines)
    yield f"lines of {SOURCE.name}", None if len(refused) >= LEAST_LINES else f"only {len(refused)}"
    for name in COMPILERS:
        if shutil.which(name) is None:
            print(f"left out: what {name} refuses of {SOURCE.name}, since there is no {name}", flush=True)
            continue
        compiler = Compiler(name, folder, lines)
        status, said = compiler.said_of([line for line in lines if MARK not in line])
        yield f"{name} takes {SOURCE.name} without what is refused", None if status == 0 else said[-1500:]
        for at, words in refused.items():
            yield f"{name} refuses {lines[at].split(MARK)[0].strip()}", wrong_line(compiler, lines, at, words)
