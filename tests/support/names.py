#!/usr/bin/env python3
"""Checks that a capitalised name of specs/ is defined in one file, so that it means one thing wherever a clause has it.

    tests/support/names.py

Some names are defined in two files or more, each for a reason. LEFT has these, with the files and the reason. If
another name is, or one of these in other files than those, it says so, and the status is 1.
"""

from __future__ import annotations

import collections
import pathlib
import re
import sys
from collections.abc import Mapping

sys.path.insert(0, str(pathlib.Path(__file__).resolve().parents[1]))
from support.made import ROOT

# Where each name is defined: the files, as crate/module.
Defined = Mapping[str, set[str]]

# The reason, the files as crate/module, and the names.
LEFT: list[tuple[str, str, str]] = [
    (
        "the same of each family of events, which Event puts together",
        "segment_machine/Allocating segment_machine/Counting segment_machine/Cursors segment_machine/Event "
        "segment_machine/Packing segment_machine/Publishing segment_machine/Taking segment_machine/Walking",
        "Ready Learned",
    ),
    (
        "one step, of an allocation, of a shared cursor, of a publish and of the machine",
        "alloc_core/Alloc list_core/Cursor list_core/Publish segment_machine/State",
        "IsStep",
    ),
    (
        "why words are not adopted, and what is damaged in an image that is added up",
        "image_adoption/Damage sum_commands/Inputs",
        "IsDamageOf",
    ),
    (
        "a state of the whole machine, and of a segment and its allocations alone",
        "alloc_core/Laws segment_machine/State",
        "State",
    ),
    (
        "the same of a cursor and of a publish, by their stages",
        "list_core/Cursor list_core/Publish",
        "IsReach IsStrayBy",
    ),
    (
        "one promise, of cursors by themselves and of those of the machine",
        "list_core/Cursor segment_promises/Lists",
        "CursorsGiveFronts",
    ),
    (
        "where the actor stands, at the stage of each call and each part of one",
        "hist_core/Add hist_core/DeltaCall hist_core/Hist hist_core/NewRecord hist_core/SampleSearch"
        " hist_core/SnapshotCall",
        "StandsAtStage",
    ),
    (
        "how each call, and each part of one, begins",
        "hist_core/Add hist_core/DeltaCall hist_core/NewRecord hist_core/SampleSearch hist_core/SnapshotCall",
        "IsStarted",
    ),
    (
        "the same of each call that works on counts, by its stages",
        "hist_core/Add hist_core/DeltaCall hist_core/SnapshotCall",
        "IsAtStage IsBehindSingle OpensWith",
    ),
    (
        "the same of the two calls that allocate, by their stages",
        "hist_core/Add hist_core/NewRecord",
        "IsAllocated IsAllocating",
    ),
    (
        "the same of the two searches that make a record, by their stages",
        "hist_core/Hist hist_core/SampleSearch",
        "IsMade",
    ),
    (
        "the same of the two searches, by their outcomes",
        "live_segment/Add/SampleSearch live_segment/Hist/Search",
        "FoundEnd",
    ),
    (
        "the same, of a stepped actor's histograms and of a live recorder's",
        "hist_core/ActorRun live_segment/Hist/Answer",
        "IsKnownAt NoneHasName",
    ),
    (
        "the same, of stepped calls and of live ones",
        "hist_core/Mounted live_segment/Snapshot/Counts",
        "StandsAt",
    ),
    (
        "the same, of stepped calls and of live ones",
        "hist_core/SnapshotCall live_segment/List/Values",
        "HasListed HasTotal",
    ),
    (
        "the same, of stepped calls and of live ones",
        "hist_core/WorldState live_segment/Hist/Answer",
        "MayBeAsked",
    ),
    (
        "what a recorder had seen and is owed: by its state, and by those before and after a call",
        "live_segment/Delta/Owed segment_promises/Deltas",
        "HadCount HadPacked HadSample IsEnough IsWhole",
    ),
    (
        "the same, of a recorder that borrows its segment and of one that owns it",
        "live_segment/Holders owned_recorder/Holders",
        "IsRecorderOf RecordsInto",
    ),
    (
        "the same, of the command line of each program",
        "report_requests/Mistakes stepped/Failure",
        "IsMistake",
    ),
    (
        "the same, of what each program reports",
        "persist_report/Unmet stepped/Failure",
        "UsageIsMistake",
    ),
    (
        "that a histogram has a name: one that a recorder knows, and one in totals",
        "live_segment/RecorderState sum_texts/Lines",
        "IsNamed",
    ),
    (
        "what a round says of itself, and a block that an actor has in hand",
        "report_streams/Telling segment_invariant/Seen",
        "HasOwn",
    ),
    (
        "that a recorder did what a script says, and that a folder has what was recorded",
        "persist_commands/Recording recording_folders/Belonging",
        "HasRecorded",
    ),
    (
        "that a sample has units, and that files of a kind may have some",
        "live_segment/List/SampleRecords recording_folders/Belonging",
        "HasUnits",
    ),
    (
        "the mark of a recording's folder, and where that of a bucket is",
        "recording_folders/Mark segment_machine/Note",
        "IsMarkOf",
    ),
    (
        "that a failure was said, and that the report of a follower has a histogram",
        "report_streams/Failure segment_merge/Follow",
        "IsReported",
    ),
]

# The head of a definition at the top of a file. A line `pub mod` names a file, and defines nothing.
HEAD = re.compile(
    r"^(?:(?:pub|abbrev|unfoldable|plain|opaque|record|data|module) )*([A-Z][\w']*)(?= .*(?::|\bwhere\b))", re.MULTILINE
)
ONE_MORE = [
    "abbrev pub {} : Type 0",
    "pub record {} : Type 0 where",
    "pub data {} (n : ℕ) : Type 0 where",
    "{} : ℕ → Type 0",
]


def files() -> dict[str, str]:
    """The text of each spec file, by the crate and the module."""
    return {module_of(path): path.read_text() for path in sorted((ROOT / "crates").glob("*/specs/**/*.antt"))}


def module_of(path: pathlib.Path) -> str:
    """The crate and the module of a spec file."""
    crate, _, *module = path.relative_to(ROOT / "crates").with_suffix("").parts
    return "/".join([crate, *module])


def defined(texts: Mapping[str, str]) -> Defined:
    """Where each capitalised name is defined."""
    found = collections.defaultdict(set)
    for module, text in texts.items():
        for name in HEAD.findall(text):
            found[name].add(module)
    return found


def difference(found: Defined | None = None) -> str | None:
    """Which names more than one file defines that LEFT does not have so, and which it has that are not defined so; or
    None."""
    found = defined(files()) if found is None else found
    left = {name: set(modules.split()) for _, modules, names in LEFT for name in names.split()}
    came = [
        f"{name} is defined by {' '.join(sorted(modules))}"
        for name, modules in sorted(found.items())
        if len(modules) > 1 and left.get(name) != modules
    ]
    came += [
        f"LEFT has {name}, which is defined by {' '.join(sorted(found.get(name, {'none'})))}"
        for name, modules in sorted(left.items())
        if found.get(name) != modules
    ]
    return "\n".join(came) or None


def let_through() -> str | None:
    """How many wrong trees are not refused, or None: in each, one name is defined by one more file, in each form that a
    definition may have; or a name of LEFT is not defined any more by one of its files."""
    texts = files()
    found = defined(texts)
    names = [name for _, _, names in LEFT for name in names.split()]
    single = sorted(name for name, modules in found.items() if len(modules) == 1)
    wrong: list[Defined] = []
    for name in names + single[:: max(1, len(single) // 40)]:
        other = next(module for module in texts if module not in found[name])
        for form in ONE_MORE:
            more = defined({other: f"{texts[other]}\n{form.format(name)}\n"})[name]
            wrong.append({**found, name: found[name] | more})
    for name in names:
        for module in sorted(found[name]):
            fewer = defined({module: re.sub(rf"\b{name}\b", f"{name}Else", texts[module])})
            wrong.append({**found, name: found[name] - {module} | fewer.get(name, set())})
    came = [tree for tree in wrong if not difference(tree)]
    return f"{len(came)} of {len(wrong)} wrong trees are let through" if came else None


def main() -> int:
    for reason, modules, names in LEFT:
        print(f"{names}: {reason} ({modules})")
    count = sum(len(names.split()) for _, _, names in LEFT)
    wrong = difference() or let_through()
    print(wrong or f"{count} names are defined by more than one file, each for a reason")
    return 1 if wrong else 0


if __name__ == "__main__":
    sys.exit(main())
