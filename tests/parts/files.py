"""Segments in files: what is opened as one and what is refused, who has it, what children have of it, and what becomes
of a file that is damaged or spent.

The programs are in `tests/c`. They are compiled with `c/povundiri_file.c`, so that the address sanitizer and the
undefined-behaviour sanitizer see into it, and the thread sanitizer for threads that open files at once. In some of them
the calls to the system come to the program, which lets each of them fail, or is killed there. Then libFuzzer opens
files of any bytes for a minute, if clang has it.
"""

from __future__ import annotations

import argparse
import os
import pathlib
import shutil
import subprocess
import tempfile
from collections.abc import Iterable, Iterator

from support import native
from support.program import Case, Path

PROGRAM = None
MOST_SECONDS = 300
FUZZ_SECONDS = 60
LAYERS = ("povundiri.c", "povundiri_file.c")
INTERRUPTED = ("flock", "pread", "openat", "posix_fallocate", "ftruncate")
STOPPED = (
    *INTERRUPTED, "fstat", "fstatat", "mmap", "madvise", "munmap", "close", "renameat2", "link", "unlink", "malloc",
    "calloc",
)
THREAD_SANITIZER = ["-fsanitize=thread"]
# A source, how it is watched, and the calls to the system that come to it.
CHECKS: tuple[tuple[str, list[str], tuple[str, ...]], ...] = (
    ("mapped_file.c", native.SANITIZED, ()),
    ("file_locks.c", native.SANITIZED, INTERRUPTED),
    ("file_forks.c", native.SANITIZED, ()),
    ("file_policies.c", native.SANITIZED, STOPPED),
    ("file_threads.c", THREAD_SANITIZER, ()),
)
FUZZER = ["clang", "-std=c99"]
FUZZER_FLAGS = ["-fsanitize=fuzzer,address,undefined", "-fno-sanitize-recover=all"]
FUZZER_WORDS = ["-max_len=1024", "-len_control=0"]
# Files that are opened some thousand times are put here, if there is such a folder.
MEMORY = "/dev/shm"


def checked(
    installed: native.Installed, name: str, flags: Iterable[str], replaced: Iterable[str]
) -> Iterator[Case]:
    """The cases of one program."""
    try:
        program = installed.with_layers(native.PROGRAMS / name, LAYERS, native.compiler(".c"), flags, replaced)
    except native.Failed as why:
        yield name, str(why)
        return
    settings = {**os.environ, "ASAN_OPTIONS": "detect_leaks=1", "TSAN_OPTIONS": "halt_on_error=1"}
    with tempfile.TemporaryDirectory() as folder:
        yield from native.checks_of(name, [program, folder], settings)


def has_fuzzer(folder: pathlib.Path) -> bool:
    """Whether clang is there, with its runtime for fuzzing."""
    if shutil.which(FUZZER[0]) is None:
        return False
    source = folder / "nothing.c"
    source.write_text(
        "int LLVMFuzzerTestOneInput(const unsigned char *data, unsigned long size) { return data == 0 && size == 1; }\n"
    )
    words = [*FUZZER, *FUZZER_FLAGS, "-o", folder / "nothing", source]
    return subprocess.run([str(word) for word in words], capture_output=True).returncode == 0


def fuzzed(installed: native.Installed, options: argparse.Namespace) -> str | None:
    """What the fuzzer found, or None."""
    program = installed.with_layers(native.PROGRAMS / "fuzz_file.c", LAYERS, FUZZER, FUZZER_FLAGS)
    with tempfile.TemporaryDirectory(dir=MEMORY if os.access(MEMORY, os.W_OK) else None) as folder:
        words: list[Path] = [
            program, f"-max_total_time={FUZZ_SECONDS}", *FUZZER_WORDS, f"-seed={options.seed}",
            f"-artifact_prefix={folder}/",
        ]
        settings = {**os.environ, "FUZZ_FOLDER": folder}
        done = subprocess.run(words, capture_output=True, text=True, timeout=MOST_SECONDS, env=settings, cwd=folder)
    return None if done.returncode == 0 else f"status {done.returncode}: {done.stderr[-3000:]}"


def cases(program: None, options: argparse.Namespace) -> Iterator[Case]:
    with tempfile.TemporaryDirectory() as scratch:
        folder = pathlib.Path(scratch)
        try:
            installed = native.Installed(folder)
        except native.Failed as why:
            yield "the library", str(why)
            return
        for name, flags, replaced in CHECKS:
            yield from checked(installed, name, flags, replaced)
        if not has_fuzzer(folder):
            print("left out: fuzz_file.c: there is no clang with its runtime for fuzzing (libclang-rt)", flush=True)
            return
        try:
            yield "fuzz_file.c", fuzzed(installed, options)
        except (native.Failed, subprocess.TimeoutExpired) as why:
            yield "fuzz_file.c", str(why)
