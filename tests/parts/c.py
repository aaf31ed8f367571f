"""The interface for C and C++: every call of the headers, and each of its statuses, under the sanitizers; forks, and
threads that come and go; the texts of known images beside plain renderers; the examples, whatever they find; and the
programs that the pages show.

The programs are in `tests/c`. Each prints a line for each group of its checks.
"""

from __future__ import annotations

import argparse
import collections
import contextlib
import functools
import os
import pathlib
import re
import signal
import subprocess
import tempfile
import threading
import time
from collections.abc import Callable, Iterator, Mapping, Sequence
from typing import Any, Optional

from parts import known
from support import (
    compiling,
    native,
    plain_export,
    plain_reader,
    plain_show,
    printed,
    readme,
    refusing,
    services,
    timed,
)
from support.program import ROOT, Answer, Case, Path, answer, difference

PROGRAM = "persist_report"
NO_EXCEPTIONS = "-fno-exceptions"
# Says what is wrong, or None.
Test = Callable[[], Optional[str]]
# A source, more flags, and whether it is given a folder to work in.
CHECKS: tuple[tuple[str, list[str], bool], ...] = (
    ("every_call.c", [], False),
    ("every_call_images.c", [], False),
    ("every_call_merges.c", [], False),
    ("every_call_followers.c", [], False),
    ("every_call.cpp", [], False),
    ("every_call.cpp", [NO_EXCEPTIONS], False),
    ("refused_memory.c", [], False),
    ("limited_indexes.c", [], False),
    ("crossing.cpp", [], False),
    ("crossing_lends.c", [], False),
    ("handed.c", [], False),
    ("recorders.cpp", [], True),
    ("recorders.cpp", [NO_EXCEPTIONS], True),
    ("forked.cpp", [], True),
    ("opened.cpp", [], True),
    ("times.cpp", [], False),
    ("times.cpp", [NO_EXCEPTIONS], False),
)


# One in this many of the known images has its texts compared.
STRIDE = 8
PREFIX = "my_1"
WIDTH = 61
EXAMPLES = ROOT / "examples"
PAGES = ("README.md", "docs/C.md")
# What examples/c/record.c and each program of C.md record when they are run twice: where each bucket begins and the
# last one ends, and the units of each.
ENDS = (0, 1, 126, 251, 376, 501, 625, 750, 875, 1000)
UNITS = (2, 250, 250, 250, 250, 248, 250, 250, 250)
RECORDED = (
    "".join(f"latency,linear,{low},{high},{units}\n" for low, high, units in zip(ENDS, ENDS[1:], UNITS))
    + "latency,total,2000,999000\n"
)
# What the program of README.md exports when it is run twice (tests/support/timed.py has what it records).
METRICS = f'\npovundiri_units_count{{histogram="request_us",route="/cart"}} {2 * timed.UNITS}\n'.encode()
# How long a command that goes on until it is ended is given for its second text.
MOST_SECONDS = 300


def checked(
    installed: native.Installed, name: str, flags: Sequence[str], folder: pathlib.Path | None
) -> Iterator[Case]:
    """The cases of one program."""
    title = " ".join([name, *flags])
    try:
        program = installed.program(native.PROGRAMS / name, *native.SANITIZED, *flags)
    except native.Failed as why:
        yield title, str(why)
        return
    words = [program] if folder is None else [program, folder]
    yield from native.checks_of(title, words, {"ASAN_OPTIONS": "detect_leaks=1"})


def exported(installed: native.Installed) -> Iterator[Case]:
    """Each function that the headers declare is in the archive, by its name."""
    text = "".join((native.LIBRARY / name).read_text() for name in compiling.C_HEADERS)
    declared = set(re.findall(r"^(?:inline )?[a-z][\w ]*[ *](povundiri_\w+)\(", text, re.MULTILINE))
    defined = set(
        re.findall(
            r" T (povundiri_\w+)$", native.run(["nm", "-g", installed.prefix / "lib" / "libpovundiri.a"]), re.MULTILINE
        )
    )
    wrong = None if declared and declared <= defined else f"missing are {sorted(declared - defined)}"
    yield "each function is in the archive", wrong


def text_of_statuses(program: pathlib.Path) -> Iterator[Case]:
    """Each status has a name that no other has, and `persist_report` explains it: of two words the last."""
    header, names = ((native.LIBRARY / name).read_text() for name in ("povundiri.h", "povundiri.c"))
    listed = dict(re.findall(r"^    \{(POVUNDIRI_\w+), \"([\w ]+)\"\},$", names, re.MULTILINE))
    statuses = re.findall(r"^    (POVUNDIRI_\w+) = \d+", header.split("enum povundiri_status")[1], re.MULTILINE)
    wrong = None if statuses and statuses == [*listed] else f"they differ: {sorted(set(statuses) ^ set(listed))}"
    yield "each status has a name", wrong
    classes = re.findall(
        r"^    \w+ = (POVUNDIRI_\w+),?", (native.LIBRARY / "povundiri_status.hpp").read_text(), re.MULTILINE
    )
    wrong = None if classes == statuses else f"they differ: {sorted(set(statuses) ^ set(classes))}"
    yield "each status is one of povundiri::Status", wrong
    shared = sorted(name for name in listed.values() if [*listed.values()].count(name) > 1)
    yield "no two statuses have one name", f"shared are {shared}" if shared else None
    names_of_all = sorted(set(listed.values()) | {"BadUnit", "Forked"})
    unknown = [name for name in names_of_all if answer(program, ["explain", name]).status != 0]
    yield "each name is explained", f"not explained are {unknown}" if unknown else None


def texts(installed: native.Installed) -> Iterator[Case]:
    """Known images: their reports by the known answers, the metrics and the texts for people by plain renderers."""
    try:
        program = installed.program(native.PROGRAMS / "texts.c", *native.SANITIZED)
    except native.Failed as why:
        yield "texts.c", str(why)
        return
    for image in sorted(known.FOLDER.glob("*.img"))[::STRIDE]:
        data = image.read_bytes()
        if len(data) % 8 != 0:
            continue
        yield f"{image.name}, its report", difference(known.wanted_of(image), answer(program, ["report", image]))
        metrics, text = ["export", str(image)], ["show", str(image)]
        for what, words, wanted in [
            ("metrics", metrics, plain_export.answer(data)),
            ("metrics with a prefix", [*metrics, PREFIX], plain_export.answer(data, PREFIX)),
            ("text", text, plain_show.answer(data)),
            ("text in a width", [*text, str(WIDTH)], plain_show.answer(data, width=WIDTH)),
        ]:
            yield f"{image.name}, its {what}", difference(Answer(*wanted), answer(program, words))


def is_summed(data: bytes) -> bool:
    """Whether an image has a report without a fault, a flag or a redundant count of its own: that of its sum is the
    same then."""
    output, error, _ = plain_reader.answer(data)
    return not error and b"\n!" not in b"\n" + output


def plain_sum(images: Sequence[bytes]) -> bytes:
    """The report of the sum of such images, in their order, by a plain reader: a histogram of each name has all units
    of its name and spec, and is that of the first image that has the name."""
    sums: dict[bytes, dict[tuple[int, ...], list[Any]]] = {}
    for data in images:
        for name, histogram in plain_reader.reading_of(data, collections.Counter())[0].items():
            specs = sums.setdefault(name, {})
            kind, buckets, total, count = specs.setdefault(tuple(histogram["spec"]), [histogram["kind"], {}, 0, 0])
            for low, (high, units) in histogram["buckets"].items():
                buckets[low] = (high, buckets.get(low, (high, 0))[1] + units)
            specs[tuple(histogram["spec"])] = [kind, buckets, total + histogram["sum"], count + 1]
    lines, others = [], []
    for name in sorted(sums):
        first = next(iter(sums[name]))
        kind, buckets, total, _ = sums[name].pop(first)
        units = {low: (high, count) for low, (high, count) in sorted(buckets.items()) if count}
        shown = name.decode()
        lines += [f"{shown},{plain_reader.KINDS[kind]},{low},{high},{count}" for low, (high, count) in units.items()]
        lines.append(f"{shown},total,{sum(count for _, count in units.values())},{total}")
        others += [
            f"!other,{shown},{images_of},{sum(count for _, count in buckets.values())}"
            for _, (_, buckets, _, images_of) in sorted(sums[name].items())
        ]
    ending = [f"!images,{len(images)}"] if len(images) > 1 else []
    return "".join(f"{line}\n" for line in [*lines, *ending, *others]).encode()


def sums(installed: native.Installed) -> Iterator[Case]:
    """Sums of known images: of one its report, of several the plain sum."""
    try:
        program = installed.program(native.PROGRAMS / "texts.c", *native.SANITIZED)
    except native.Failed as why:
        yield "texts.c", str(why)
        return
    valid = [path for path in sorted(known.FOLDER.glob("*.img")) if is_summed(path.read_bytes())]
    for image in valid:
        yield f"{image.name}, its sum", difference(known.wanted_of(image), answer(program, ["sum", image]))
    for first in range(0, len(valid) - 3, 3):
        files = [valid[first], *valid[first + 1 : first + 3], valid[first]]
        wanted = plain_sum([path.read_bytes() for path in files])
        yield f"{files[0].name} and others, their sum", difference(Answer(wanted), answer(program, ["sum", *files]))
    faulty = next(path for path in sorted(known.FOLDER.glob("*.img")) if plain_reader.answer(path.read_bytes())[1])
    yield "a sum with a fault", difference(known.wanted_of(faulty), answer(program, ["sum", valid[0], faulty]))


def report_in(program: Path, file: pathlib.Path) -> Answer:
    """The report of the segment at byte 8 of a file, or what was said in its place."""
    image = file.with_suffix(".img")
    found = answer(program, ["extract", file, image])
    return answer(program, ["report", image]) if found == Answer(error=b"8\n") else found


def segment_in(home: pathlib.Path) -> pathlib.Path:
    """The segment that a program left in this folder: that of a recording, if it has one, or `latency.seg`."""
    recorded = home / "metrics" / "0000000001.seg"
    return recorded if recorded.exists() else home / "latency.seg"


def wrong_recorded(page: str, came: Answer, seconds: float) -> str | None:
    """What is wrong with the report of what a program of a page has recorded, which ran twice, so long together; or
    None. README.md has real times."""
    if page != "README.md" or came.status != 0 or came.error:
        return difference(Answer(RECORDED.encode()), came)
    return timed.wrong(came.output.decode(), 2, seconds)


def recorded_twice(
    installed: native.Installed, program: pathlib.Path, source: pathlib.Path, home: pathlib.Path, page: str
) -> str | None:
    """A program that records samples into latency.seg, or into the folder metrics, run twice: the second time it
    continues with what is there."""
    built = installed.program(source)
    home.mkdir()
    start = time.monotonic()
    for _ in range(2):
        came = answer(built, ["latency.seg"], cwd=home)
        if came.error or came.status != 0:
            return f"status {came.status}: {came.error[-1500:]!r}"
    seconds = time.monotonic() - start
    return wrong_recorded(page, report_in(program, segment_in(home)), seconds)


def shown_programs(folder: pathlib.Path) -> Iterator[tuple[str, pathlib.Path]]:
    """The programs that the pages show, as files: blocks that begin with an include."""
    for page in PAGES:
        blocks = re.findall(r"(?:^(?: {4}.*)?\n)+", (ROOT / page).read_text(), re.MULTILINE)
        blocks = [block for block in blocks if block.lstrip("\n").startswith("    #include")]
        for number, block in enumerate(blocks):
            kind = ".cpp" if ".hpp>" in block else ".c"
            source = folder / f"{pathlib.Path(page).stem}_{number}{kind}"
            source.write_text("".join(f"{line[4:]}\n" for line in block.strip("\n").splitlines()))
            yield f"program {number + 1} of {page}", source


def examples(installed: native.Installed, program: pathlib.Path, folder: pathlib.Path) -> Iterator[tuple[str, Test]]:
    """The example in C, and what the pages show."""
    record = EXAMPLES / "c" / "record.c"
    yield "record.c", lambda: recorded_twice(installed, program, record, folder / "record", "docs/C.md")
    shown = dict(shown_programs(folder))
    without = [page for page in PAGES if not any(name.endswith(f" of {page}") for name in shown)]
    yield "programs of pages", lambda: f"there is none on {without}" if without else None
    same = any(record.read_text().endswith(source.read_text()) for source in shown.values())
    yield "record.c is shown", lambda: None if same else "no page shows it as it stands"
    for name, source in shown.items():
        page = name.rpartition(" of ")[2]
        yield name, functools.partial(recorded_twice, installed, program, source, source.with_suffix(""), page)
    yield "which wrong times are found (tests/support/timed.py)", timed.let_through
    yield "the commands of README.md", lambda: wrong_after_program(program, folder / "readme")


def wrong_after_program(program: pathlib.Path, home: pathlib.Path) -> str | None:
    """What is wrong with the commands that README.md has after its program, or None: they are run as they are, in a
    folder that looks like the repository, and install the library in its ~/.local, and the program is run twice."""
    home.mkdir()
    for name in ("c", "crates", "examples"):
        (home / name).symlink_to(ROOT / name)
    setting = {**os.environ, "HOME": str(home), "PATH": os.pathsep.join([str(program.parent), os.environ["PATH"]])}
    commands = [*readme.block(readme.INSTALLED), *readme.block(readme.RELEASE)[1:], "./latency"]
    start = time.monotonic()
    native.run(["bash", "-e", "-c", "\n".join(commands)], cwd=home, env=setting)
    recorded = answer(program, ["report", segment_in(home)])
    if wrong := wrong_recorded("README.md", recorded, time.monotonic() - start):
        return wrong
    exports, *commands = readme.block(readme.SERVICE)
    for command in commands:
        line = f"{exports}\n{command}"
        wrong = wrong_until_ended(line, home, setting) if "--every" in command else wrong_at_once(line, home, setting)
        if wrong is not None:
            return f"{command}: {wrong}"
    if METRICS not in (home / "metrics.prom").read_bytes():
        return f"metrics.prom has no line {METRICS.strip().decode()}"
    return difference(recorded, answer(program, ["report", home / "metrics"]))


def wrong_at_once(line: str, home: pathlib.Path, setting: Mapping[str, str]) -> str | None:
    """What is wrong with a command that ends by itself and says no fault, or None."""
    came = answer("bash", ["-c", line], cwd=home, env=setting)
    return None if came.status == 0 and not came.error else f"status {came.status}: {came.error[-1500:]!r}"


def wrong_until_ended(line: str, home: pathlib.Path, setting: Mapping[str, str]) -> str | None:
    """What is wrong with a command that shows the histogram again and again until it is ended, or None."""
    with subprocess.Popen(
        ["bash", "-c", line], cwd=home, env=setting, stdout=subprocess.PIPE, text=True, start_new_session=True
    ) as process:
        assert process.stdout is not None
        timer = threading.Timer(MOST_SECONDS, os.killpg, (process.pid, signal.SIGKILL))
        timer.start()
        texts = 0
        while texts < 2 and (shown := process.stdout.readline()):
            texts += shown.startswith("request_us")
        timer.cancel()
        with contextlib.suppress(ProcessLookupError):
            os.killpg(process.pid, signal.SIGTERM)
    return None if texts == 2 else f"{texts} texts, and then status {process.returncode}"


def wrong_of(test: Test) -> str | None:
    try:
        return test()
    except native.Failed as why:
        return str(why)


def cases(program: pathlib.Path, options: argparse.Namespace) -> Iterator[Case]:
    with tempfile.TemporaryDirectory() as scratch:
        folder = pathlib.Path(scratch)
        try:
            installed = native.Installed(folder)
        except native.Failed as why:
            yield "the library", str(why)
            return
        yield from exported(installed)
        yield from text_of_statuses(program)
        for number, (name, flags, works) in enumerate(CHECKS):
            own = folder / f"works_{number}"
            own.mkdir()
            yield from checked(installed, name, flags, own if works else None)
        yield from texts(installed)
        yield from sums(installed)
        for name, test in examples(installed, program, folder):
            yield name, wrong_of(test)
        yield from services.cases(installed, program, folder)
        yield from compiling.cases(installed, folder)
        yield from refusing.cases(folder)
        yield from printed.cases(folder)
