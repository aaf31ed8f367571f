#!/usr/bin/env python3
"""Makes docs/FAULTS.md from the tables of faults in crates/fault_texts/src, with statuses and names in C.

    tests/support/faults.py [--write]

With --write it writes the file. Without, it says what differs in the file that is there, and the status is 1 if
anything does.
"""

from __future__ import annotations

import pathlib
import re
import sys
from collections.abc import Collection, Iterator

sys.path.insert(0, str(pathlib.Path(__file__).resolve().parents[1]))
from support import made
from support.made import ROOT

DOCUMENT = ROOT / "docs" / "FAULTS.md"
TABLES = ROOT / "crates" / "fault_texts" / "src"
TABLE, TEXT_TABLE, WORLD_TABLE, C_TABLE = (
    TABLES / name for name in ("table.rt", "text_table.rt", "world_table.rt", "c_table.rt")
)
STATUSES = ROOT / "crates" / "report_streams" / "src" / "failure.rt"
HEADER, NAMES, CLASSES = (ROOT / "c" / name for name in ("povundiri.h", "povundiri.c", "povundiri_status.hpp"))
SOURCES = f"the tables of fault_texts, {STATUSES.name} and {NAMES.name}"
HEAD = """\
# The faults

What each fault means, and what to do: what `persist_report explain NAME` prints. NAME may be in any case, and may be
the constant of a status in C, such as `POVUNDIRI_REFUSED_NO_UNITS`. This page is made from the tables in
`crates/fault_texts/src`, the statuses in `crates/report_streams/src/failure.rt`, and the names in `c/povundiri.c`: do
not edit it, but these, and then run `tests/support/faults.py --write`.

The line of a fault is its name. Some have more on it: `Image FAULT`, `Adopt FAULT`, `BadLine NUMBER`, `Refused NUMBER
WHY` and `Merge NAME WHY`, where WHY is `BadName`, `BadSpec` and what is wrong with the spec, `TooLarge`, `ZeroCount`,
`NoUnits`, `Corrupt`, `Full` or `OtherSpec`, as in `Refused 2 BadSpec TooFew`. NUMBER is that of a record of the script.
`Clash NAME OTHER` has two names of histograms, or of one and a family.
After the text of an image come `NoHistogram NAME`, and with `--whole` `Bad REFERENCE FAULT` and `Stopped FAULT`;
REFERENCE is the index of the record's first word. `stepped` writes `World NUMBER FAULT`.

'Status' is that of the program. A fault of status 0 is only a line of a report, and one without a status only programs
of your own can see. 'In C' has the statuses of `povundiri.h`, without `POVUNDIRI_`.
"""
WORLD_HEAD = """
## The faults of a schedule

`stepped` writes them after `World` and the number of a record; its other faults are above.
"""
C_HEAD = """
## Statuses that only programs in C and C++ see

'Name' is what `povundiri_status_text` returns.
"""
COLUMNS = "| {} | Status | In C | What it means | What to do |\n|---|---|---|---|---|\n"
ENTRY = re.compile(r'^    \(\n        "(.*)",\n        "(.*)",\n        "(.*)",\n    \),$', re.MULTILINE)
BRANCH = re.compile(r"^ +((?:CliFault|Failure)::.*) => (\d),$", re.MULTILINE)
IN_C = re.compile(r"^    POVUNDIRI_(\w+) = \d+,?(.*)$", re.MULTILINE)
IN_NAMES = re.compile(r'^    \{POVUNDIRI_(\w+), "([\w ]+)"\},$', re.MULTILINE)
IN_CLASSES = re.compile(r"^    (\w+) = \d+,", re.MULTILINE)
# The line with which a fault of a crate is shown; its first word is the name.
SHOWN = re.compile(r'#\[error\(\s*"(\w+)')
# The first word of that line, and the variant or the type that is shown so.
NAMED = re.compile(r'#\[error\(\s*"(\w+)[^"]*"[^\]]*\)\]\s+(?:pub struct )?(\w+)')
NEVER = "never returned"
# What programs never print: they print `Read` or `Write` for it.
INNER = {"Device"}
# What is shown without such a line.
OTHERS = {"NotWhole", "NoSuchStatus"}
# What a fault means begins so if it is a line of a report, and has the other one if only a program of one's own can see
# it.
OF_REPORTS = "In a report: "
OF_PROGRAMS = "Only programs that "
REFUSED = 3


def texts_of(table: pathlib.Path) -> list[tuple[str, str, str]]:
    """The name of each fault of a table, what it means and what to do, in its order."""
    return ENTRY.findall(table.read_text())


def texts() -> list[tuple[str, str, str]]:
    """Those of `persist_report`'s tables."""
    return [*texts_of(TABLE), *texts_of(TEXT_TABLE)]


def all_texts() -> list[tuple[str, str, str]]:
    """Those of all tables, as `persist_report explain` prints them."""
    return [text for table in (TABLE, TEXT_TABLE, WORLD_TABLE, C_TABLE) for text in texts_of(table)]


def statuses() -> dict[str, str]:
    """The status of each fault that is a line by itself."""
    return {
        name: status for names, status in BRANCH.findall(STATUSES.read_text()) for name in re.findall(r"::(\w+)", names)
    }


def constants() -> list[str]:
    """Each status of the header that calls return, without `POVUNDIRI_`."""
    enum = HEADER.read_text().split("enum povundiri_status", 1)[1].split("};", 1)[0]
    return [name for name, comment in IN_C.findall(enum) if NEVER not in comment]


def fault_names() -> dict[str, str]:
    """The fault that each status of the header is explained as: the last word of its name."""
    returned = set(constants())
    return {name: text.split()[-1] for name, text in IN_NAMES.findall(NAMES.read_text()) if name in returned}


def status_of(name: str, meaning: str) -> str:
    """The status with which the program ends, as the document shows it."""
    if OF_PROGRAMS in meaning:
        return ""
    return "0" if meaning.startswith(OF_REPORTS) else statuses().get(name, str(REFUSED))


def rows_of(table: pathlib.Path, left_out: Collection[str]) -> Iterator[str]:
    """The lines of a table; the statuses of C of these names are in another one."""
    for name, meaning, remedy in texts_of(table):
        named = [] if name in left_out else [f"`{other}`" for other, own in fault_names().items() if own == name]
        is_plain = table in (TABLE, TEXT_TABLE)
        status = status_of(name, meaning) if is_plain else "" if table == C_TABLE else str(REFUSED)
        yield f"| `{name}` | {status} | {', '.join(named)} | {meaning} | {remedy} |\n"


def document() -> str:
    of_c = {name for name, _, _ in texts_of(C_TABLE)}
    none: set[str] = set()
    parts = (
        (HEAD, "Fault", [TABLE, TEXT_TABLE], of_c),
        (WORLD_HEAD, "Fault", [WORLD_TABLE], of_c),
        (C_HEAD, "Name", [C_TABLE], none),
    )
    return "".join(
        f"{head}\n{COLUMNS.format(title)}{''.join(row for table in tables for row in rows_of(table, left_out))}"
        for head, title, tables, left_out in parts
    )


def printed() -> dict[str, str]:
    """Each fault that a crate has, a status of C, or one of C++ alone, and where it is."""
    found = {}
    for path in sorted((ROOT / "crates").glob("*/src/**/*.rt")):
        for name in SHOWN.findall(path.read_text()):
            found[name] = str(path.relative_to(ROOT))
    found |= {name: f"c/{NAMES.name}" for name in fault_names().values()}
    found |= {name: f"c/{CLASSES.name}" for name in IN_CLASSES.findall(CLASSES.read_text())}
    return {name: place for name, place in found.items() if name not in INNER}


def misnamed() -> str | None:
    """The faults of the crates that are not shown by their own names, or None."""
    wrong = []
    for path in sorted((ROOT / "crates").glob("*/src/**/*.rt")):
        text = path.read_text()
        named = NAMED.findall(text)
        place = path.relative_to(ROOT)
        wrong += [f"{own} of {place} is shown as {shown}" for shown, own in named if shown != own]
        if len(named) != len(SHOWN.findall(text)):
            wrong.append(f"{place} has a fault in another form")
    return "\n".join(wrong) or None


def unexplained() -> str | None:
    """The faults of the crates and the statuses of the header that no table explains, and what a table explains that
    nothing shows; or None."""
    explained = {name for name, _, _ in all_texts()}
    unnamed = [f"POVUNDIRI_{name} of c/{HEADER.name}" for name in constants() if name not in fault_names()]
    missing = [f"{name} of {place}" for name, place in printed().items() if name not in explained]
    stale = sorted(explained - OTHERS - set(printed()))
    if stale:
        return f"nothing shows {', '.join(stale)}"
    return f"without an entry are {', '.join([*unnamed, *missing])}" if unnamed or missing else None


def difference() -> str | None:
    """Where the document differs from its sources, or None."""
    return made.difference({DOCUMENT: document()}, SOURCES)


if __name__ == "__main__":
    sys.exit(made.run(sys.argv[1:], __doc__, {DOCUMENT: document()}, SOURCES))
