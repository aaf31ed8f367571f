"""Tries the edits of crates/NAME/wrong/ as the toolchain's script `rt` tries those of must-fail/: by its own
`must_fail`, each over what the checks of those before it proved. They begin with a copy of what `rt check` kept in
out/incremental of the crate, so the crate is not proved once more for them."""

from __future__ import annotations

import concurrent.futures
import functools
import os
import pathlib
import re
import shutil
import tempfile
import threading
from collections.abc import Iterable, Sequence
from typing import Any, NamedTuple

from support import edits, lanes, refusals, sources, toolchain
from support.made import ROOT

ONE_JOB = ["--jobs", "1"]
KEPT = pathlib.Path("out") / "incremental"
# The last line of a check of some functions, where not all of them are proved.
NOT_ALL = re.compile(r"^only=(\d+) proved=(?!\1$)\d+\n\Z", re.MULTILINE)


class Outcome(NamedTuple):
    """What came of an edit: whether the prover refused it, and the open goal of a contract that did, or None."""

    edit: str
    is_refused: bool
    tried: edits.Tried | None


def say(text: str) -> None:
    print(text, flush=True)


class Kit:
    """The script, with what its last check of each crate said."""

    def __init__(self) -> None:
        self.script = toolchain.script()
        self.said: dict[str, str] = {}
        # The one function that the checks of this thread are of, if they are.
        self.alone = threading.local()
        self.checked = self.script.checked
        self.script.checked = self.record
        # Its first call has to be on the main thread.
        self.script.rtlib.guarded()

    def record(self, crate: Any, texts: Any, flags: Any, *kept: Any) -> Any:
        function = getattr(self.alone, "function", None)
        if function is None:
            ran = self.checked(crate, texts, flags, *kept)
        else:
            ran = self.checked(crate, texts, [*flags, "--only", function], None)
            ran.stdout = NOT_ALL.sub("logic=not-proved\n", ran.stdout)
        self.said[crate.name] = ran.stdout
        return ran

    def tried_alone(self, crate: Any, edit: pathlib.Path, function: str, jobs: int) -> Outcome:
        """Tries an edit by a check of this function alone and those that it calls, from nothing. The last line of such
        a check counts functions, so `must_fail` is given that of a check that refuses the crate."""
        self.alone.function = function
        try:
            return self.tried(crate, edit, None, ["--jobs", str(jobs)])
        finally:
            self.alone.function = None

    def is_proved(self, crate: Any, kept: str) -> bool:
        """Whether the crate itself is proved over what is kept in a folder."""
        return not self.checked(crate, {}, ONE_JOB, kept).returncode

    def tried(
        self, crate: Any, edit: pathlib.Path, kept: str | None, flags: Sequence[str] = ONE_JOB
    ) -> Outcome:
        """Tries an edit, over what is kept in a folder or from nothing, and says what came of it."""
        is_refused, text = self.script.must_fail(crate, str(edit), [*flags], kept)
        goal = refusals.refused_by(self.said[crate.name]) if is_refused else None
        if goal is not None and goal.is_of_contract():
            say(f"{crate.name}/{edit.name}: refused by {goal.function} {goal.name}")
            return Outcome(edit.name, True, edits.Tried(edits.sum_of(edit), *goal))
        if is_refused:
            why = f"{goal.function} {goal.name} is open" if goal else "no open goal was found"
            text = f"{crate.name}/{edit.name}: REFUSED FOR NO CONTRACT, since {why}: {text}"
        say(text)
        return Outcome(edit.name, is_refused, None)


def proved(crate: Any) -> str | None:
    """Proves a crate over what is kept in its folder, and keeps more there; what the check said if it is not proved."""
    with tempfile.TemporaryFile("w+", errors="replace") as crate.out:
        os.makedirs(f"{crate.folder}/out", exist_ok=True)
        status = crate.check(ONE_JOB)
        crate.out.seek(0)
        return crate.out.read() if status else None


def built(library: Any) -> str | None:
    """Builds a library, if it has changed; what the check said if it is not proved."""
    with tempfile.TemporaryFile("w+", errors="replace") as library.out:
        status = library.build_rlib(ONE_JOB, anew=False)
        library.out.seek(0)
        return library.out.read() if status else None


def over_copy(kit: Kit, crate: Any, chosen: Sequence[pathlib.Path]) -> tuple[list[Outcome], bool]:
    """What came of each edit over a copy of what is kept, and whether the crate itself is proved over that copy."""
    with tempfile.TemporaryDirectory(prefix="edits-") as room:
        kept = str(pathlib.Path(room) / "kept")
        shutil.copytree(pathlib.Path(crate.folder) / KEPT, kept)
        outcomes = [kit.tried(crate, edit, kept) for edit in chosen]
        return outcomes, kit.is_proved(crate, kept)


def tried(kit: Kit, crate: Any, chosen: Sequence[pathlib.Path]) -> list[Outcome] | str:
    """What came of each edit, or what is wrong with the crate. What was not refused is tried again, from nothing."""
    is_kept = crate.has_kept()
    outcomes, is_sound = over_copy(kit, crate, chosen) if is_kept else ([], False)
    if not is_sound:
        why = "what is kept of it is not whole" if is_kept else "nothing is kept of it"
        say(f"{crate.name}: {why}, so it is proved first")
        if (wrong := proved(crate)) is not None:
            return wrong
        outcomes, is_sound = over_copy(kit, crate, chosen)
    return [one if is_sound and one.is_refused else kit.tried(crate, edit, None) for edit, one in zip(chosen, outcomes)]


def tried_apart(kit: Kit, crate: Any, chosen: Sequence[pathlib.Path]) -> list[Outcome] | str:
    """What came of each edit by a check of one function: the one that refused it the last time, or that it changes."""
    record = edits.recorded(crate.name).edits
    outcomes = []
    for edit in chosen:
        was = record.get(edit.name)
        function = was.function if was else edits.function_of(crate.name, edit)
        outcomes.append(kit.tried_alone(crate, edit, function, 1))
    return outcomes


class Work(NamedTuple):
    """A crate, its sum, which of its edits are to be tried, and whether each by a check of one function alone."""

    crate: Any
    sum: str
    chosen: list[pathlib.Path]
    is_apart: bool


def work_of(names: Iterable[str], only_changed: bool, is_apart: bool) -> list[Work]:
    """What is to be done for these crates, the longest first."""
    known = {crate.name: crate for crate in toolchain.crates(str(ROOT / "crates"))}
    found = []
    for name in names:
        now = sources.sum_of(name)
        chosen = edits.changed(name, now) if only_changed else edits.edits_of(name)
        found.append(Work(known[name], now, chosen, is_apart))
    return sorted(found, key=lambda work: -len(work.chosen) * int(work.crate.count(rb"\n")))


class Libraries:
    """The libraries below some crates, built side by side, each after those that it stands on."""

    def __init__(self, pool: concurrent.futures.Executor, crates: Sequence[Any]) -> None:
        self.built: dict[str, concurrent.futures.Future[str | None]] = {}
        wanted = {library.name: library for crate in crates for library in crate.below()}
        # One that waits for others comes after them, so that some task always goes on.
        for library in sorted(wanted.values(), key=lambda one: len(one.below())):
            self.built[library.name] = pool.submit(self.build, library)

    def build(self, library: Any) -> str | None:
        """What is wrong with a library, or None once it is built."""
        if (wrong := self.wrong_below(library)) is not None or library.is_built():
            return wrong
        say(f"{library.name}: it has changed, so it is proved first")
        return built(library)

    def wrong_below(self, crate: Any) -> str | None:
        """What is wrong with a library below a crate, once all are built, or None."""
        found = (self.built[library.name].result() for library in crate.below())
        return next((wrong for wrong in found if wrong is not None), None)


def came_of(kit: Kit, libraries: Libraries, work: Work) -> list[Outcome] | str:
    """What came of the edits that are to be tried, or what is wrong with their crate or one below it."""
    if not work.chosen:
        return []
    if (wrong := libraries.wrong_below(work.crate)) is not None:
        return wrong
    return (tried_apart if work.is_apart else tried)(kit, work.crate, work.chosen)


def done(kit: Kit, libraries: Libraries, work: Work) -> tuple[int, int]:
    """Tries the edits of a crate, and writes down what refused each; how many were refused, and how many not."""
    name, came = work.crate.name, came_of(kit, libraries, work)
    if isinstance(came, str):
        say(f"{came}{name}: NOT PROVED, so no edit of it was tried")
        return 0, len(work.chosen)
    edits.write(name, edits.Record(work.sum, {**untouched(work), **{one.edit: one.tried for one in came if one.tried}}))
    return sum(one.tried is not None for one in came), sum(one.tried is None for one in came)


def untouched(work: Work) -> dict[str, edits.Tried]:
    """What stands of the edits that are there and are not tried this time."""
    record, name = edits.recorded(work.crate.name), work.crate.name
    names = {edit.name for edit in edits.edits_of(name)} - {edit.name for edit in work.chosen}
    return {edit: one for edit, one in record.edits.items() if edit in names and record.sum == work.sum}


def run(names: Sequence[str], only_changed: bool, is_apart: bool = False) -> int:
    """Tries the edits of these crates; the status."""
    kit = Kit()
    rtlib = kit.script.rtlib
    rtlib.Crate.stamp = functools.cache(rtlib.Crate.stamp)
    listed = work_of(names, only_changed, is_apart)
    crates = [work.crate for work in listed if work.chosen]
    if not crates:
        say("nothing has changed since each edit was tried")
    held = rtlib.lock([*crates, *(library for crate in crates for library in crate.below())])
    with concurrent.futures.ThreadPoolExecutor(lanes.lanes()) as pool:
        libraries = Libraries(pool, crates)
        ended = [pool.submit(done, kit, libraries, work) for work in listed]
        refused, failed = (sum(numbers) for numbers in zip(*(one.result() for one in ended)))
    for one in held:
        os.close(one)
    say(f"{refused} passed, {failed} failed")
    return 1 if failed else 0
