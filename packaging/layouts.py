#!/usr/bin/env python3
"""Says how the structs and enums of the public headers are laid out, and what their constants are: what a program that
was compiled with them takes for granted.

    layouts.py HEADER..            as text; $CC compiles and runs the program that finds it out

packaging/layouts.txt has it of what was released or is to be, and a part of tests/run compares them. A struct whose
first member is its own size may grow at its end; else only new structs, enums and constants come.
"""

from __future__ import annotations

import os
import pathlib
import re
import shlex
import subprocess
import sys
import tempfile
from collections.abc import Iterable, Iterator, Sequence

sys.dont_write_bytecode = True
sys.path.insert(0, str(pathlib.Path(__file__).resolve().parent))
import symbols

STRUCT = re.compile(r"^struct (\w+) \{\n(.*?)^\};", re.MULTILINE | re.DOTALL)
ENUM = re.compile(r"^enum (\w+) \{\n(.*?)^\};", re.MULTILINE | re.DOTALL)
CONSTANT = re.compile(r"^#define (POVUNDIRI_(?!VERSION)\w+) \d+$", re.MULTILINE)
UNNAMED = re.compile(r"^enum \{(.*?)\};", re.MULTILINE | re.DOTALL)
POINTER_TO_FUNCTION = re.compile(r"\(\*(\w+)\)\(")
SECONDS = 60


def members(body: str) -> Iterator[str]:
    """The names of what a struct has."""
    for declared in filter(str.strip, body.split(";")):
        if found := POINTER_TO_FUNCTION.search(declared):
            yield found[1]
            continue
        yield from re.findall(r"(\w+)\s*(?:\[[^\]]*\])?\s*(?:,|$)", declared.strip())


def prints(text: str) -> Iterator[str]:
    """The lines of a program that print what a header has."""
    for name, body in STRUCT.findall(text):
        yield f'printf("struct {name}: %zu bytes\\n", sizeof(struct {name}));'
        for member in members(body):
            size = f"sizeof(((struct {name} *)0)->{member})"
            yield f'printf("    {member}: at %zu, %zu\\n", offsetof(struct {name}, {member}), {size});'
    for name, body in ENUM.findall(text):
        yield f'printf("enum {name}: %zu bytes\\n", sizeof(enum {name}));'
        for constant in re.findall(r"^\s*(\w+) =", body, re.MULTILINE):
            yield f'printf("    {constant}: %lld\\n", (long long){constant});'
    for body in UNNAMED.findall(text):
        yield 'printf("enum: without a name\\n");'
        for constant in re.findall(r"\b(POVUNDIRI_\w+) =", body):
            yield f'printf("    {constant}: %lld\\n", (long long){constant});'
    for constant in CONSTANT.findall(text):
        yield f'printf("{constant}: %lld\\n", (long long){constant});'


def program(headers: Iterable[pathlib.Path]) -> str:
    """The program that prints what all of these have."""
    lines = ["#include <stddef.h>", "#include <stdio.h>"]
    lines += [f'#include "{header.resolve()}"' for header in headers]
    lines += ["int main(void) {", *(line for it in headers for line in prints(symbols.public(it.read_text())))]
    return "\n".join([*lines, "return 0;", "}", ""])


def layouts(headers: Sequence[pathlib.Path]) -> str:
    """How what these headers have is laid out."""
    with tempfile.TemporaryDirectory() as room:
        source, built = pathlib.Path(room) / "layouts.c", pathlib.Path(room) / "layouts"
        source.write_text(program(headers))
        compiler = shlex.split(os.environ.get("CC", "cc"))
        subprocess.run([*compiler, "-std=c99", "-o", built, source], check=True, timeout=SECONDS)
        return subprocess.run([built], stdout=subprocess.PIPE, text=True, check=True, timeout=SECONDS).stdout


def main(words: Sequence[str]) -> int:
    if not words:
        print((__doc__ or "").rstrip(), file=sys.stderr)
        return 2
    print(layouts([pathlib.Path(word) for word in words]), end="")
    return 0


if __name__ == "__main__":
    sys.exit(main(sys.argv[1:]))
