"""`examples/cpp/service.cpp`, run in folders as a release, a fault or a disk left them. Whatever it finds, it answers
requests until it is told to end, and says what it could not record.
"""

from __future__ import annotations

import os
import pathlib
import re
import signal
import struct
import subprocess
import time
from collections.abc import Iterator
from typing import Any

from support import native
from support.layout import FREE, MOST_UNITS
from support.program import ROOT, Answer, Case, Path, answer

SOURCE = ROOT / "examples" / "cpp" / "service.cpp"
MOST_SECONDS = 120
ENOUGH = 200
# As service.cpp has them. Each has a segment of its own, where there are as many processors.
THREADS = 4
# What its histograms are for, with those of which it knows none.
ROUTES = ("/", "/cart", "/item", "_other")
COUNT = r'^povundiri_units_count\{histogram="latency_us",route="[^}]*\} (\d+)$'
LOOKS = 300
# Different texts of its metrics that are waited for, with one before the first.
TEXTS = 4
# Where the free pointer is in a file, whose image begins at byte 8.
FREE_AT = 8 * (1 + FREE)
FIRST = "0000000001.seg"


def requests_of(report: Answer) -> int:
    """How many requests a report has."""
    totals = re.findall(rb"^latency_us\{route=[^,]*\},total,(\d+),", report.output, re.MULTILINE)
    return sum(map(int, totals))


class Service:
    """The service, and the folders of one run of the tests."""

    def __init__(self, installed: native.Installed, program: Path, folder: pathlib.Path) -> None:
        self.installed = installed
        self.folder = folder / "services"
        self.folder.mkdir()
        self.program = installed.program(SOURCE)
        self.sums = installed.program(native.PROGRAMS / "folder.c")
        self.reader = program

    def recorded(self, folder: pathlib.Path) -> int:
        return requests_of(answer(self.sums, ["report", folder]))

    def wait_for(self, running: subprocess.Popen[str], folder: pathlib.Path, before: int) -> None:
        """Returns once it has recorded more requests than there were before, or ends, or takes too long."""
        ends = time.monotonic() + MOST_SECONDS
        while running.poll() is None and self.recorded(folder) <= before and time.monotonic() < ends:
            time.sleep(0.05)

    def killed(self, folder: pathlib.Path, before: int) -> str:
        """What it prints until it is killed, once it has recorded more requests than there were before."""
        with subprocess.Popen([self.program, folder], stdout=subprocess.PIPE, text=True) as running:
            try:
                self.wait_for(running, folder, before)
            finally:
                running.kill()
            return running.communicate()[0]

    def looked(self, folder: pathlib.Path) -> int:
        """How many requests looks at its segments have; `Failed` if there is no look, or it is not read whole."""
        look, found = str(folder.with_suffix(".img")), 0
        for segment in sorted(folder.glob("*.seg")):
            for words in (["look", str(segment), look], ["report", "--whole", look]):
                came = answer(self.reader, words)
                if (came.error, came.status) != (b"", 0):
                    raise native.Failed(f"{words[0]}: {came}")
            found += requests_of(came)
        return found

    def ended(self, folder: pathlib.Path, **settings: Any) -> tuple[str, str]:
        """What it says to its two streams when it is told to end, once it has answered some hundred requests."""
        streams: dict[str, Any] = {"stdout": subprocess.PIPE, "stderr": subprocess.PIPE, "text": True}
        with subprocess.Popen([self.program, folder], **streams, **settings) as running:
            time.sleep(1)
            running.send_signal(signal.SIGTERM)
            said, errors = running.communicate(timeout=MOST_SECONDS)
        if running.returncode != 0:
            raise native.Failed(f"status {running.returncode}: {said} {errors}")
        return said, errors

    def made(self, name: str, source: str) -> pathlib.Path:
        """A folder whose segment a C++ program of these statements left, with `segment` in it."""
        folder, program = self.folder / name, self.folder / f"{name}.cpp"
        program.write_text(
            "#include <povundiri.hpp>\n"
            "int main(int, char** words) {\n"
            "    auto shape = povundiri::shape(65536, 4096, 7);\n"
            "    auto opened = povundiri::Segment::open(words[1], shape, povundiri::Policy::AdoptOrFail);\n"
            "    povundiri::Recorder recorder = opened.segment.recorder();\n"
            f"    {source}\n"
            "}\n"
        )
        folder.mkdir()
        (folder / "recording").touch()
        native.run([self.installed.program(program), folder / FIRST])
        return folder


def counts(said: str) -> tuple[int, int] | None:
    """How many requests were answered and how many of them not recorded, as the service says at its end; None if it
    does not."""
    found = re.search(r"^served: (\d+), not recorded: (\d+)$", said, re.MULTILINE)
    return None if found is None else (int(found[1]), int(found[2]))


def goes_on(segments: list[str]) -> bool:
    """Whether others were begun beside the first segment: at most one for each thread."""
    return segments[0] == FIRST and 1 < len(segments) <= 1 + THREADS


def is_killed_thrice(service: Service) -> str | None:
    """It continues with what the one before had left, and says so."""
    folder, before = service.folder / "killed", 0
    for turn in range(3):
        said = service.killed(folder, before)
        # Each of its threads may have had a segment of its own: it names the one that the first of them continues.
        wanted = rf"segment [1-{THREADS}]: continued\n" if turn else r"segment 1: begun\n"
        if re.fullmatch(wanted, said) is None:
            return f"after {before} requests it said {said!r}"
        left = service.recorded(folder)
        if left <= before:
            return f"after {before} requests came {left}"
        before = left
    return None


def is_looked_at(service: Service) -> str | None:
    """While it runs, each look at its segment is read whole, and has no fewer requests than the one before; the last
    one has no more than it had answered when it ended."""
    folder, before = service.folder / "looked", 0
    with subprocess.Popen([service.program, folder], stdout=subprocess.PIPE, text=True) as running:
        try:
            service.wait_for(running, folder, 0)
            for _ in range(LOOKS):
                found = service.looked(folder)
                if found < before:
                    return f"after a look with {before} requests came one with {found}"
                before = found
        finally:
            running.send_signal(signal.SIGTERM)
            said = running.communicate(timeout=MOST_SECONDS)[0]
    served, _ = counts(said) or (0, 0)
    return None if ENOUGH <= before <= served else f"the last look had {before} requests: {said!r}"


def publishes(service: Service) -> str | None:
    """While it runs it writes its metrics, with no fewer requests than the ones before, and no more than it had
    answered when it ended."""
    folder, metrics = service.folder / "publishes", service.folder / "publishes.prom"
    found = [0]
    words = [str(word) for word in (service.program, folder, metrics)]
    with subprocess.Popen(words, stdout=subprocess.PIPE, stderr=subprocess.PIPE, text=True) as running:
        ends = time.monotonic() + MOST_SECONDS
        while len(found) < TEXTS and running.poll() is None and time.monotonic() < ends:
            time.sleep(0.05)
            text = metrics.read_text() if metrics.exists() else ""
            counts_there = re.findall(COUNT, text, re.MULTILINE)
            if counts_there and sum(map(int, counts_there)) != found[-1]:
                found.append(sum(map(int, counts_there)))
        running.send_signal(signal.SIGTERM)
        said, errors = running.communicate(timeout=MOST_SECONDS)
    served, _ = counts(said) or (0, 0)
    wrong = errors or len(found) < TEXTS or found != sorted(found) or found[-1] > served
    return f"{found} {said!r} {errors!r}" if wrong else None


def ends_well(service: Service) -> str | None:
    """Told to end, it has recorded all that it answered."""
    folder = service.folder / "ends"
    said, errors = service.ended(folder)
    served, missed = counts(said) or (0, 0)
    wrong = errors or served < ENOUGH or missed != 0 or service.recorded(folder) != served
    return f"{said} {errors} {service.recorded(folder)}" if wrong else None


def has_another_spec(service: Service) -> str | None:
    """A release before had other buckets: it records into the next segment."""
    names = ", ".join(f'"latency_us{{route={route}}}"' for route in ROUTES)
    add = "recorder.add_or_throw(recorder.linear(name, 1, 500, 10), 17);"
    folder = service.made("spec", f"for (const char* name : {{{names}}}) {add}")
    said, errors = service.ended(folder)
    served, missed = counts(said) or (0, 0)
    segments = sorted(path.name for path in folder.glob("*.seg"))
    # A text shows the buckets of the older segment.
    wrong = errors or served < ENOUGH or missed != 0 or service.recorded(folder) != len(ROUTES)
    return f"{said} {errors} {segments}" if wrong or not goes_on(segments) else None


def has_few_units(service: Service) -> str | None:
    """It records to the last unit, and then into the next segment."""
    left = 100
    folder = service.made("units", f'recorder.add_or_throw(recorder.boolean("other"), 1, {MOST_UNITS - left}u);')
    said, errors = service.ended(folder)
    served, missed = counts(said) or (0, 0)
    segments = sorted(path.name for path in folder.glob("*.seg"))
    wrong = errors or served < ENOUGH or missed != 0 or service.recorded(folder) != served
    return f"{said} {errors} {segments}" if wrong or not goes_on(segments) else None


def is_damaged(service: Service) -> str | None:
    """A damaged segment is set aside as it is, and a new one is begun."""
    folder = service.made("damaged", 'recorder.add_or_throw(recorder.boolean("other"), 1);')
    with open(folder / FIRST, "r+b") as stream:
        stream.seek(FREE_AT)
        stream.write(struct.pack("<Q", 15))
    was = (folder / FIRST).read_bytes()
    said, errors = service.ended(folder)
    served, missed = counts(said) or (0, 0)
    aside = re.search(r"^set aside as (.*): BadFree\nsegment 2: begun$", said, re.MULTILINE)
    wrong = (
        errors
        or aside is None
        or pathlib.Path(aside[1]).read_bytes() != was
        or missed != 0
        or service.recorded(folder) != served
    )
    return f"{said} {errors}" if wrong or served < ENOUGH else None


def has_a_full_disk(service: Service) -> str | None:
    """Without room for a segment it answers, and says that nothing is recorded."""
    shim = service.folder / "full_disk.so"
    native.run([*native.compiler(".c"), "-shared", "-fPIC", "-o", shim, native.PROGRAMS / "full_disk.c"])
    folder = service.folder / "full"
    said, errors = service.ended(folder, env={**os.environ, "LD_PRELOAD": str(shim)})
    served, missed = counts(said) or (0, 0)
    wrong = served < ENOUGH or missed != served or "No space left on device: recorded later" not in errors
    if wrong:
        return f"{said} {errors}"
    # With room again, it begins.
    said, errors = service.ended(folder)
    served, missed = counts(said) or (0, -1)
    is_right = not errors and served >= ENOUGH and missed == 0 and service.recorded(folder) == served
    return None if is_right else f"after the full disk: {said} {errors}"


TESTS = (
    ("killed three times", is_killed_thrice),
    ("looked at", is_looked_at),
    ("its metrics", publishes),
    ("told to end", ends_well),
    ("another spec of a release before", has_another_spec),
    ("to the last unit", has_few_units),
    ("a damaged segment", is_damaged),
    ("a full disk", has_a_full_disk),
)


def cases(installed: native.Installed, program: Path, folder: pathlib.Path) -> Iterator[Case]:
    """Each test of the service, and what was wrong in it or None."""
    try:
        service = Service(installed, program, folder)
    except native.Failed as why:
        yield "service.cpp", str(why)
        return
    for name, test in TESTS:
        try:
            yield f"service.cpp, {name}", test(service)
        except native.Failed as why:
            yield f"service.cpp, {name}", str(why)
