"""How the headers and sources of `c/` compile: without a warning by each compiler that is there and in each standard;
in one program of files with exceptions and without; and under the thread sanitizer.
"""

from __future__ import annotations

import pathlib
import re
import shutil
import subprocess
from collections.abc import Iterator

from support import native
from support.program import Case, Word

WARNINGS = [
    "-Wall", "-Wextra", "-Wpedantic", "-Wconversion", "-Wshadow", "-Werror", "-fsyntax-only", f"-I{native.LIBRARY}",
]
CPP_WARNINGS = ["-Wold-style-cast", "-Wzero-as-null-pointer-constant"]
C_HEADERS = (
    *("povundiri.h", "povundiri_file.h", "povundiri_folder.h", "povundiri_merge.h", "povundiri_recording.h"),
    "povundiri_shared.h",
)
CPP_HEADERS = (
    *C_HEADERS, "povundiri_status.hpp", "povundiri_time.hpp", "povundiri_values.hpp", "povundiri_images.hpp",
    "povundiri.hpp", "povundiri_names.hpp", "povundiri_metric.hpp", "povundiri_family.hpp", "povundiri_recording.hpp",
    "povundiri_shared.hpp",
)
MOST_SECONDS = 300


def languages() -> Iterator[tuple[str, list[str], str]]:
    """The compilers that are there, with the words for each language and standard, and the suffix of its sources."""
    for c, cpp in (("gcc", "g++"), ("clang", "clang++")):
        if shutil.which(c) is not None:
            yield from ((c, [f"-std={standard}"], ".c") for standard in ("c99", "c11", "c17", "c2x"))
        if shutil.which(cpp) is not None:
            for standard in ("c++17", "c++20", "c++2b"):
                yield cpp, [f"-std={standard}", *CPP_WARNINGS], ".cpp"
                yield cpp, [f"-std={standard}", "-fno-exceptions", *CPP_WARNINGS], ".cpp"


def warnings(folder: pathlib.Path) -> Iterator[Case]:
    """The headers, and the sources."""
    seen = set()
    for compiler, words, suffix in languages():
        source = folder / f"headers{suffix}"
        source.write_text("".join(f"#include <{name}>\n" for name in (C_HEADERS if suffix == ".c" else CPP_HEADERS)))
        sources = [source, *(path for path in native.LIBRARY.iterdir() if path.suffix == suffix)]
        seen.add(suffix)
        title = " ".join(["no warning of", compiler, *(word for word in words if not word.startswith("-W"))])
        try:
            native.run([compiler, *words, *WARNINGS, *sources])
            yield title, None
        except native.Failed as why:
            yield title, str(why)
    yield "a compiler for each language", None if seen == {".c", ".cpp"} else f"only for {seen}"


def alone(folder: pathlib.Path) -> Iterator[Case]:
    """Each header, with no other before it."""
    for suffix, headers in ((".c", C_HEADERS), (".cpp", CPP_HEADERS)):
        source = folder / f"alone{suffix}"
        for name in headers:
            source.write_text(f"#include <{name}>\n")
            native.run([*native.compiler(suffix), *WARNINGS, source])
            yield f"{name} alone, in a {suffix}", None


# What a compiler refuses, by the warning or the words with which it does.
MISTAKES = (
    (".c", "povundiri_add(&recorder, 0, 1, 1);", "unused"),
    (".c", "povundiri_join(&segment, &recorder);", "unused"),
    (".cpp", "recorder.try_add(hist, 1);", "nodiscard"),
    (".cpp", "segment.try_recorder(recorder);", "nodiscard"),
    (".cpp", "povundiri::Recorder moved(std::move(segment));", "Segment"),
    (".cpp", "segment = std::move(recorder);", "Recorder"),
    (".cpp", "povundiri::Segment copied(segment);", "deleted"),
    (".cpp", "recorder.add(hist, 1.5);", "double"),
    (".cpp", "povundiri::Recorder copied(recorder);", "deleted"),
)
PROGRAMS = {
    ".c": "#include <povundiri.h>\nint main(void) {\n"
    "    struct povundiri_handle segment = {0}, recorder = {0};\n    %s\n"
    "    return segment.held || recorder.held;\n}\n",
    ".cpp": "#include <povundiri.hpp>\nint main() {\n"
    "    povundiri::Segment segment;\n    povundiri::Recorder recorder;\n    povundiri::Hist hist;\n    %s\n"
    "    return segment || recorder || recorder.add(hist, 1);\n}\n",
}


def mistakes(folder: pathlib.Path) -> Iterator[Case]:
    """What is easily done wrong does not compile, or with a warning; and the program without it does."""
    for suffix, statement, word in (*((suffix, "", "") for suffix in PROGRAMS), *MISTAKES):
        source = folder / f"mistake{suffix}"
        source.write_text(PROGRAMS[suffix] % statement)
        words = [
            *native.compiler(suffix), "-Wall", "-Wextra", "-Werror", f"-I{native.LIBRARY}", "-c", "-o", "/dev/null",
            source,
        ]
        done = subprocess.run([str(word) for word in words], capture_output=True, text=True, timeout=MOST_SECONDS)
        is_right = done.returncode == 0 if statement == "" else done.returncode != 0 and word in done.stderr
        wrong = None if is_right else f"status {done.returncode}: {done.stderr[-1000:]}"
        yield f"refused: {statement or f'nothing ({suffix})'}", wrong


# What runs under the thread sanitizer, with which words, and whether that has to find a race, as in a handle that is
# handed on by relaxed steps.
SANITIZED_RUNS: tuple[tuple[str, list[str], bool], ...] = (
    ("recorders.cpp", [], False),
    ("handed.c", [], False),
    ("handed.c", ["relaxed"], True),
)


def own_lines(source: pathlib.Path, *flags: str) -> list[str]:
    """What the preprocessor leaves of the library's headers."""
    text = native.run([*native.compiler(".cpp"), *flags, f"-I{native.LIBRARY}", "-E", source])
    kept, is_own = [], False
    for line in text.splitlines():
        marker = re.match(r'# \d+ "(.*)"', line)
        if marker is not None:
            is_own = marker[1].startswith(str(native.LIBRARY))
        elif is_own and line.strip():
            kept.append(line)
    return kept


def one_definition(folder: pathlib.Path) -> Iterator[Case]:
    """A file with exceptions and one without see the same definitions."""
    source = folder / "definitions.cpp"
    source.write_text("#include <povundiri.hpp>\n#include <povundiri_recording.hpp>\n")
    thrown, plain = own_lines(source), own_lines(source, "-fno-exceptions")
    found = all(any(name in line for line in thrown) for name in ("class Recorder", "class Recording", "class BadName"))
    yield "the same definitions with exceptions and without", None if found and thrown == plain else "they differ"


def compiled(folder: pathlib.Path, source: pathlib.Path, *flags: str) -> pathlib.Path:
    """An object of a source, with the headers of the library."""
    built = folder / f"{source.stem}.o"
    native.run(
        [*native.compiler(source.suffix), *native.STRICT, *flags, f"-I{native.LIBRARY}", "-c", "-o", built, source]
    )
    return built


def said_by(program: pathlib.Path, *words: Word) -> tuple[int, str]:
    """The status of a program and what it printed."""
    done = subprocess.run([program, *words], capture_output=True, text=True, timeout=MOST_SECONDS)
    return done.returncode, done.stdout + done.stderr


def mixed(installed: native.Installed, folder: pathlib.Path) -> Iterator[Case]:
    """Files with exceptions and without in one program; what throws then throws, or ends the program if
    povundiri_raise.cpp is built without exceptions."""
    plain = compiled(folder, native.PROGRAMS / "mixed_plain.cpp", "-fno-exceptions")
    status, said = said_by(installed.program(native.PROGRAMS / "mixed.cpp", plain))
    passed = [how for _, how in native.groups(said)] == [None, None]
    yield "files with exceptions and without", None if status == 0 and passed else f"status {status}: {said}"
    raising = compiled(folder, native.LIBRARY / "povundiri_raise.cpp", "-fno-exceptions")
    status, said = said_by(installed.program(native.PROGRAMS / "mixed.cpp", plain, raising), "aborts")
    wanted = (-6, "povundiri: recorder, lease 1048576: EmptyHandle\n")
    yield "povundiri_raise.cpp without exceptions", None if (status, said) == wanted else f"status {status}: {said}"


def thread_sanitized(folder: pathlib.Path) -> Iterator[Case]:
    """What is in `c/` alone, with a stand-in for the proved functions: the sanitizer cannot see into those."""
    flags = ["-fsanitize=thread", "-DSTAND_IN"]
    names = ("povundiri.c", "povundiri_file.c", "povundiri_look.c", "povundiri_merge.c", "povundiri_raise.cpp")
    sources = [native.LIBRARY / name for name in names]
    objects = [compiled(folder, source, *flags) for source in (*sources, native.PROGRAMS / "stand_in.cpp")]
    for name, words, is_race in SANITIZED_RUNS:
        program = folder / f"{name}_threads"
        if not program.exists():
            own = compiled(folder, native.PROGRAMS / name, *flags)
            native.run([*native.compiler(".cpp"), *flags, "-pthread", "-o", program, *objects, own])
        status, said = said_by(program, *words, folder)
        is_right = status != 0 and "data race" in said if is_race else status == 0 and ": passed\n" in said
        title = " ".join([name, *words, "under the thread sanitizer"])
        yield title, None if is_right else f"status {status}: {said[-3000:]}"


def cases(installed: native.Installed, folder: pathlib.Path) -> Iterator[Case]:
    yield from warnings(folder)
    yield from mistakes(folder)
    tests = (
        lambda: alone(folder), lambda: one_definition(folder), lambda: mixed(installed, folder),
        lambda: thread_sanitized(folder),
    )
    for test in tests:
        try:
            yield from test()
        except native.Failed as why:
            yield "compiling", str(why)
