"""Threads of a C++ program record into a folder, where they spend the units of a segment in some ten milliseconds, or
fill small segments, which grow. The program is killed at a random moment and starts again in the same folder.

The sum of the folder has of each histogram at least what had ended, and at most what was begun, over all that ran
there: one after the other, two at once, or one that starts while another ends; with folds and without; and no reader
beside them sees a number fall. A fold, and the beginning of segments, are killed at each of their calls to the system.
What children counted is added to a recording by followers and by merges: each unit once, whatever becomes of the
segments, or missed where it is given up.
"""

from __future__ import annotations

import argparse
import collections
import contextlib
import os
import pathlib
import random
import re
import shutil
import struct
import subprocess
import tempfile
import time
from collections.abc import Iterator, Sequence

from support import compiling, native
from support.program import Answer, Case, Path, Word, answer

PROGRAM = None
NAMES = (b"scale", b"boolean", b"linear", b"sparse", b"custom")
# Bytes of a segment, and the least nanoseconds between two.
SIZES = ((16_384, 1_000_000), (32_768, 1), (65_536, 1_000_000))
SMALL = (8_192, 1_000_000)
# How many present segments a program may have: each run has one of these.
SHARDS = (1, 2, 4, 16)
# How a program is linked whose calls to the system come to stopped.c first.
STOPPED = (
    "openat", "close", "flock", "fsync", "ftruncate", "linkat", "mmap", "posix_fallocate", "pread", "renameat",
    "unlinkat", "write",
)
# A program that begins segments makes this many of these calls within some milliseconds.
BEGINNINGS = 100
OF_CHILDREN = (
    "clock_gettime", "posix_fallocate", "unlinkat", "malloc", "calloc", "realloc", "posix_memalign",
    "povundiri_proved_follower_merge",
)
# The programs that check something, and which calls to the system or to the heap each of them intercepts.
CHECKED = {
    "recorded_times": (), "recorded_names": (), "recorded_families": ("malloc",), "recorded_options": (),
    "recorded": ("clock_gettime", "posix_fallocate"),
    "recorded_folders": ("openat", "flock", "linkat", "renameat2", "pread"),
    "recorded_mark": ("openat", "write", "fsync", "linkat", "renameat", "fchmodat", "unlinkat", "mmap"),
    "recorded_removed": (), "recorded_children": OF_CHILDREN, "recorded_refusals": OF_CHILDREN, "recorded_users": (),
    "recorded_room": ("posix_fallocate",), "recorded_values": ("posix_fallocate",),
    "silence": ("readdir", "pread", "malloc", "calloc", "realloc", "posix_memalign"),
    "recorded_shards": ("posix_fallocate", "clock_gettime"),
    "recorded_each_shard": ("openat", "linkat", "renameat2", "malloc", "calloc", "realloc", "posix_memalign"),
}
THREADS = "-fsanitize=thread"
# The programs of which the groups with threads are run under the thread sanitizer.
THREADED = ("recorded", "recorded_refusals", "recorded_families", "recorded_shards", "recorded_each_shard")
# The reasons for what is missed, in the order of the library; what a run may miss that nothing disturbs.
REASONS = (
    "too_large", "other_spec", "no_space", "rolling", "forked", "ended", "no_memory", "removed", "child", "values",
)
MAY_MISS = ("too_large", "rolling")
# The most units that may be missed as `rolling`, of those that were counted; seen were at most 0.0002.
MOST_ROLLING = 0.05
MOST_SECONDS = 300
# In this time a program makes BEGINNINGS calls, also on a busy machine.
ENOUGH_SECONDS = 60

Counts = collections.Counter[bytes]


def told(tally: pathlib.Path) -> tuple[Counts, Counts]:
    """The units of each histogram that were begun, and those that have ended, by a tally."""
    begun: Counts = collections.Counter()
    ended: Counts = collections.Counter()
    data = tally.read_bytes() if tally.exists() else b""
    for at, (one, other) in enumerate(struct.iter_unpack("<2Q", data)):
        begun[NAMES[at % len(NAMES)]] += one
        ended[NAMES[at % len(NAMES)]] += other
    return begun, ended


def units_of(report: bytes) -> Counts:
    """The units of each histogram in a report."""
    return collections.Counter({name: int(units) for name, units in re.findall(rb"^(\w+),total,(\d+),", report, re.M)})


class Folder:
    """A folder, and the tallies of all programs that ran there."""

    def __init__(
        self, recording: pathlib.Path, reader: pathlib.Path, home: pathlib.Path, chance: random.Random
    ) -> None:
        self.recording, self.reader, self.home, self.chance = recording, reader, home, chance
        self.folder = home / "metrics"
        self.tallies: list[pathlib.Path] = []
        self.met: collections.Counter[str] = collections.Counter()

    def words(self, number: int, size: Sequence[int], seconds: int, mode: str, shards: int | None = None) -> list[str]:
        tally = self.home / f"tally_{number}"
        if tally not in self.tallies:
            self.tallies.append(tally)
        seed, drawn = self.chance.randrange(2**31), self.chance.choice(SHARDS)
        words = (self.recording, self.folder, tally, seed, *size, shards or drawn, seconds, mode)
        return [str(word) for word in words]

    @contextlib.contextmanager
    def running(self, number: int, size: Sequence[int], mode: str = "-") -> Iterator[subprocess.Popen[bytes]]:
        """A run, which has begun to record, and is killed in the end; `Failed` if it ended by itself."""
        words = self.words(number, size, 0, mode)
        with subprocess.Popen(words, stdout=subprocess.PIPE, stderr=subprocess.PIPE) as running:
            assert running.stdout is not None and running.stderr is not None
            try:
                running.stdout.read(7)
                yield running
                ended = running.poll()
            finally:
                running.kill()
            if ended is not None:
                raise native.Failed(f"it ended with {ended}: {running.stderr.read().decode()}")

    def report(self) -> Answer:
        return answer(self.reader, ["report", self.folder])

    def counts(self) -> tuple[Counts, Counts]:
        """What was begun and what has ended, in all runs together."""
        begun, ended = zip(*map(told, self.tallies))
        return sum(begun, collections.Counter()), sum(ended, collections.Counter())

    def wrong(self) -> str | None:
        """What is wrong with the sum of the folder, or None. Nothing runs there."""
        came = self.report()
        if came.status != 0:
            return f"report: {came}"
        lines = re.findall(rb"^!(?!images|flag|redundant).*$", came.output, re.M)
        if lines:
            return f"report: {lines[:3]}"
        units, (begun, ended) = units_of(came.output), self.counts()
        for name in NAMES:
            if not ended[name] <= units[name] <= begun[name]:
                bounds = f"{ended[name]} had ended, {begun[name]} were begun"
                return f"{name.decode()}: {bounds}, and {units[name]} are there"
        self.met["units"] = sum(units.values())
        self.met["segments"] = max([self.met["segments"], *self.numbers()])
        return None

    def numbers(self) -> list[int]:
        return [int(path.stem) for path in self.folder.glob("*.seg")]

    def folded(self) -> str | None:
        """Folds, and says what is wrong, or None."""
        came = answer(self.reader, ["fold", self.folder])
        return f"fold: {came}" if came.status != 0 else self.wrong()


def killed(runs: Folder, kills: int, mode: str) -> str | None:
    """What is wrong after one of a number of kills, or None."""
    for number in range(kills):
        with runs.running(0, runs.chance.choice(SIZES), mode):
            time.sleep(runs.chance.random() ** 3 * 0.2)
        wrong = runs.wrong()
        begun, ended = runs.counts()
        runs.met["amid a call"] += begun != ended
        if wrong is None and mode == "-" and number % 10 == 9:
            wrong = runs.folded()
        if wrong is not None:
            return f"kill {number + 1} of {kills}: {wrong}"
    met = runs.met
    amid = f"{kills} kills, of which {met['amid a call']} amid a call"
    print(f"mode {mode}: {amid}; {met['units']} units, {met['segments']} segments", flush=True)
    # A program that starts in another size of segments begins one: so do two of three.
    has_enough = met["segments"] > kills // 3 and met["units"] > 0 and (met["amid a call"] > 0 or kills < 30)
    return None if has_enough else f"only {met}"


def seen(runs: Folder, before: Counts) -> Counts | str:
    """What a reader finds while others record; or what is wrong, for instance that a number falls."""
    ended = runs.counts()[1]
    came = runs.report()
    if came.status == 3 and came.error == b"Busy\n":
        return before
    if came.status != 0:
        return f"report: {came}"
    units, begun = units_of(came.output), runs.counts()[0]
    for name in NAMES:
        if not max(before[name], ended[name]) <= units[name] <= begun[name]:
            return (
                f"{name.decode()}: {before[name]} were there, {ended[name]} had ended, {begun[name]} were begun, and "
                f"{units[name]} are there"
            )
    return units


def beside(runs: Folder, pairs: int) -> str | None:
    """Two at once in one folder, the second of which starts while the first runs and ends after it, and a reader."""
    units: Counts = collections.Counter()
    for number in range(pairs):
        with runs.running(2 * number, SIZES[0]):
            with runs.running(2 * number + 1, SIZES[0], "f"):
                for _ in range(5):
                    found = seen(runs, units)
                    if isinstance(found, str):
                        return f"pair {number + 1}: {found}"
                    units = found
            time.sleep(0.02)
        wrong = runs.wrong()
        if wrong is not None:
            return f"pair {number + 1}: {wrong}"
    return None if sum(units.values()) > 0 else "the reader found nothing"


def overlapping(runs: Folder, restarts: int) -> str | None:
    """Each run starts while the one before still records, which is killed then."""
    with contextlib.ExitStack() as last:
        last.enter_context(runs.running(0, SIZES[1]))
        for number in range(1, restarts + 1):
            with contextlib.ExitStack() as both:
                both.enter_context(runs.running(number, SIZES[1], "f"))
                time.sleep(0.01)
                last.close()
                last.push(both.pop_all())
    return runs.wrong()


def to_its_end(runs: Folder, mode: str, shards: int) -> str | None:
    """A run that is not killed: what it counted is there to the unit, and nothing was missed but what is said."""
    program, *words = runs.words(0, SMALL if "o" in mode else SIZES[0], 1, mode, shards)
    came = answer(program, words)
    if came.status != 0 or came.error:
        return f"{came}"
    missed = dict(zip(REASONS, map(int, came.output.split(b"missed")[1].split())))
    wrong = {reason: units for reason, units in missed.items() if units and reason not in MAY_MISS}
    if wrong or (missed["too_large"] > 0) != ("o" in mode):
        return f"missed are {missed}"
    if "r" in mode and b", read 0, " in came.output:
        return "no report was read meanwhile"
    begun, ended = runs.counts()
    if missed["rolling"] > MOST_ROLLING * sum(ended.values()):
        return f"missed are {missed}, of {ended}"
    return runs.wrong() if begun == ended and +ended else f"begun are {begun}, and ended {ended}"


def stopped(words: Sequence[Path], at: int, **settings: str) -> int:
    """The status of a program that is killed before the call of this number."""
    environment = {**os.environ, "STOP_AT": str(at), **settings}
    return subprocess.run([*words], env=environment, capture_output=True, timeout=MOST_SECONDS).returncode


def calls_of(runs: Folder, copy: pathlib.Path) -> int:
    """How many calls a fold of the folder makes, by a fold of a copy."""
    shutil.copytree(runs.folder, copy)
    words: list[Path] = [runs.reader, "fold", copy]
    told = subprocess.run(words, env={**os.environ, "STOP_TELLS": ""}, capture_output=True, timeout=MOST_SECONDS)
    shutil.rmtree(copy)
    found = re.fullmatch(rb"(\d+) calls\n", told.stderr)
    if told.returncode != 0 or found is None:
        raise native.Failed(f"fold: {told}")
    return int(found[1])


def fold_killed(runs: Folder, copy: pathlib.Path, at: int, units: Counts) -> str | None:
    """What is wrong after a fold of a copy that is killed before a call, or None. A later one ends it."""
    shutil.copytree(runs.folder, copy)
    status = stopped([runs.reader, "fold", copy], at)
    if status != -9:
        return f"status {status}"
    for which in ("it", "a later fold"):
        if units_of(answer(runs.reader, ["report", copy]).output) != units:
            return f"after {which} the sum is another one"
        if answer(runs.reader, ["fold", copy]).status != 0:
            return "no later fold is done"
    left = [path.name for path in copy.glob("*.seg")]
    shutil.rmtree(copy)
    return f"still there are {left}" if left else None


def folds_killed(runs: Folder) -> str | None:
    """A fold is killed before each of its calls to the system: the sum is what it was, and a later fold ends it. What
    it folds are segments, and the totals of an earlier fold that was killed before it had removed all that it added."""
    copy = runs.home / "copy"
    for _ in range(2):
        while len(runs.numbers()) < 6:
            with runs.running(0, SIZES[0]):
                time.sleep(0.05)
        calls = calls_of(runs, copy)
        units = units_of(runs.report().output)
        if not calls > 40 < sum(units.values()):
            return f"{calls} calls, and {units}"
        for at in range(1, calls + 1):
            wrong = fold_killed(runs, copy, at, units)
            if wrong is not None:
                return f"killed before call {at} of {calls}: {wrong}"
        print(f"folds: killed before each of {calls} calls", flush=True)
        # The last calls close what is locked. Before them come those that remove: some of these are not made.
        if stopped([runs.reader, "fold", runs.folder], calls - len(runs.numbers()) - 3) != -9 or not runs.numbers():
            return "an earlier fold was not killed amid what it removes"
    return runs.wrong()


def beginnings_killed(runs: Folder, mode: str, **settings: str) -> str | None:
    """The program is killed before each of the calls to the system with which it starts and begins segments. It leaves
    spares only if the settings say that the system has no files without a name. A start removes the old, and old marks
    that have not got their name."""
    for at in range(1, BEGINNINGS):
        status = stopped(runs.words(0, runs.chance.choice(SIZES), ENOUGH_SECONDS, mode), at, **settings)
        if status != -9:
            return f"status {status} where it is killed before call {at}"
        is_marked = (runs.folder / "recording").exists()
        wrong = runs.wrong() if is_marked else None
        if wrong is None and is_marked and at % 20 == 0:
            wrong = runs.folded()
        if wrong is not None:
            return f"killed before call {at}: {wrong}"
    spares, marks = ([*runs.folder.glob(name)] for name in ("spare-*", "recording-*"))
    if bool(spares) != bool(settings):
        return f"spares are left: {spares}"
    for path in (*spares, *marks):
        os.utime(path, (0, 0))
    with runs.running(0, SIZES[0], mode):
        time.sleep(0.05)
    left = [*runs.folder.glob("*-*")]
    return f"still left are {left}" if left else runs.wrong()


def wrapped(calls: Sequence[str]) -> list[str]:
    """How a program is linked that intercepts these calls to the system."""
    return [f"-Wl,--wrap={call}" for call in calls]


class Programs:
    """The programs of this part, in a folder."""

    def __init__(self, folder: pathlib.Path) -> None:
        self.folder = folder
        self.installed = native.Installed(folder)
        calls = compiling.compiled(folder, native.PROGRAMS / "stopped.c")
        words: list[Word] = [*wrapped(STOPPED), calls]
        self.recording = self.installed.program(native.PROGRAMS / "recording.cpp", *words)
        self.reader = self.installed.program(native.PROGRAMS / "folder.c", *words)

    def checked(self, title: str, program: pathlib.Path, *words: str) -> Iterator[Case]:
        """The groups of checks of a program."""
        home = self.folder / title.replace(" ", "_")
        home.mkdir()
        settings = {**os.environ, "ASAN_OPTIONS": "detect_leaks=1", "TSAN_OPTIONS": "halt_on_error=1"}
        yield from native.checks_of(title, [program, home, *words], settings)

    def for_threads(self) -> Iterator[tuple[str, pathlib.Path]]:
        """The checks, and what is in `c/`, under the thread sanitizer. It does not see into the proved part."""
        home = self.folder / "for_threads"
        home.mkdir()
        sources = [path for path in native.LIBRARY.iterdir() if path.suffix in native.COMPILERS]
        objects = [compiling.compiled(home, source, THREADS, "-O1") for source in sources]
        for name in THREADED:
            own = compiling.compiled(home, native.PROGRAMS / f"{name}.cpp", THREADS, "-O1")
            words = [*native.compiler(".cpp"), THREADS, "-pthread", *wrapped(CHECKED[name])]
            native.run([*words, "-o", home / name, own, *objects, *self.installed.words("--libs")])
            yield name, home / name

    def collected(self) -> Iterator[Case]:
        """What prometheus-cpp writes of a recording, if prometheus-cpp is installed."""
        package = "prometheus-cpp-core"
        try:
            cflags, libs = (native.run(["pkg-config", words, package]).split() for words in ("--cflags", "--libs"))
        except native.Failed:
            print(f"left out: collected.cpp: pkg-config finds no {package}", flush=True)
            return
        home = self.folder / "collected"
        home.mkdir()
        built = compiling.compiled(home, native.PROGRAMS / "collected.cpp", *cflags)
        program = home / "collected"
        native.run([*native.compiler(".cpp"), "-pthread", "-o", program, built, *self.installed.words("--libs"), *libs])
        yield from native.checks_of("collected", [program, home], {**os.environ})

    def all_checked(self) -> Iterator[Case]:
        for name, calls in CHECKED.items():
            source, words = native.PROGRAMS / f"{name}.cpp", wrapped(calls)
            yield from self.checked(name, self.installed.program(source, *words, *native.SANITIZED))
            yield from self.checked(f"{name}, no exceptions", self.installed.program(source, *words, "-fno-exceptions"))
        for name, program in self.for_threads():
            yield from self.checked(f"{name}, threads", program, "threads")
        yield from self.collected()


def cases(program: None, options: argparse.Namespace) -> Iterator[Case]:
    chance = random.Random(options.seed)
    with tempfile.TemporaryDirectory() as scratch:
        folder = pathlib.Path(scratch)
        # Another user passes through it, to a folder that is not writable.
        folder.chmod(0o711)
        try:
            programs = Programs(folder)
            yield from programs.all_checked()
        except native.Failed as why:
            yield "the library", str(why)
            return

        def runs(name: str) -> Folder:
            home = folder / name
            home.mkdir()
            return Folder(programs.recording, programs.reader, home, chance)

        kills = options.kills // 2
        for mode in ("-", "f", "rf", "fg"):
            yield f"killed, mode {mode}", killed(runs(f"killed_{mode}"), kills, mode)
        yield "two at once", beside(runs("beside"), 10)
        yield "restarts that overlap", overlapping(runs("overlapping"), 20)
        for shards in SHARDS:
            for mode in ("-", "r", "f", "rfi", "o", "g", "rfg"):
                name = f"to its end, mode {mode}, shards {shards}"
                yield name, to_its_end(runs(f"end_{mode}_{shards}"), mode, shards)
        yield "folds that are killed", folds_killed(runs("folds"))
        for mode in ("-", "g"):
            yield f"killed as it begins a segment, mode {mode}", beginnings_killed(runs(f"beginnings_{mode}"), mode)
        named = beginnings_killed(runs("beginnings_named"), "-", NO_UNNAMED="")
        yield "killed as it begins a segment, named spares", named
