"""The version stands in the file VERSION, and everything else that states it states the same: in the repository, and in
what is installed."""

from __future__ import annotations

import pathlib
import re
import subprocess
from collections.abc import Iterator, Mapping

from support.made import ROOT

FILE = "VERSION"
SEMANTIC = re.compile(r"(\d+)\.(\d+)\.(\d+)\n")
# Where else it stands: a pattern with a group for it, which each file has once.
STATED = {
    "CHANGELOG.md": r"\A(?:(?!## ).*\n)*## (\S+?)(?:,|$)",
    "README.md": r"povundiri-(\S+)-x86_64-linux\.tar\.gz",
    "packaging/debian/changelog": r"\Apovundiri \((.*)\) ",
    "crates/report_requests/src/command.rt": r'^ +\.version\("(.*)"\)$',
    "crates/stepped/src/request.rt": r'^ +\.version\("(.*)"\)$',
    "python/pyproject.toml": r'^version = "(.*)"$',
    "c/povundiri.h": r'^#define POVUNDIRI_VERSION_TEXT "(.*)"$',
}
# Where it stands in what is installed.
PACKAGES = ("povundiri", "povundiri-static")
INSTALLED = {
    **{f"lib/pkgconfig/{name}.pc": r"^Version: (.*)$" for name in PACKAGES},
    "lib/cmake/povundiri/povundiriConfigVersion.cmake": r'^set\(PACKAGE_VERSION "(.*)"\)$',
    "include/povundiri.h": STATED["c/povundiri.h"],
    "share/povundiri/BUILD": r"^povundiri (.*)$",
    "share/man/man3/povundiri.3": r'^\.TH .* "povundiri (.*?)"',
}
OTHER = "99.1.0"
MOST_SECONDS = 60
# Its three numbers, each by itself.
HEADER = "c/povundiri.h"
NUMBERS = ("MAJOR", "MINOR", "PATCH")


def version() -> str:
    """What the file says."""
    return (ROOT / FILE).read_text().strip()


def texts() -> dict[str, str]:
    """The texts of the files that state it."""
    return {name: (ROOT / name).read_text() for name in (FILE, *STATED, HEADER)}


def wrong_statements(pages: Mapping[str, str], patterns: Mapping[str, str], wanted: str) -> Iterator[str]:
    """Which of these files state another version than is wanted, or none, or more than one."""
    for name, pattern in patterns.items():
        if (found := re.findall(pattern, pages[name], re.MULTILINE)) != [wanted]:
            yield f"{name} states {found}, and {FILE} {wanted}"


def wrong_in(pages: Mapping[str, str]) -> Iterator[str]:
    """Which of these files state another version than the file does, or none, or more than one."""
    numbers = SEMANTIC.fullmatch(pages[FILE])
    if numbers is None:
        yield f"{FILE} is no line with a version such as 1.2.3"
        return
    yield from wrong_statements(pages, STATED, pages[FILE].strip())
    for name, number in zip(NUMBERS, numbers.groups()):
        if (found := re.findall(rf"^#define POVUNDIRI_VERSION_{name} (.*)$", pages[HEADER], re.MULTILINE)) != [number]:
            yield f"{HEADER} has {found} as POVUNDIRI_VERSION_{name}, and {FILE} {number}"


def difference() -> str | None:
    """Where another version stands than in the file, or None."""
    return "\n".join(wrong_in(texts())) or None


def let_through() -> str | None:
    """Which changes are let through that have to be found, or None: of each statement another version and none, of the
    file another one and what is none."""
    pages, came = texts(), []
    changes = [(FILE, r"^(.*)$"), *STATED.items()]
    changes += [(HEADER, rf"^#define POVUNDIRI_VERSION_{name} (\d+)$") for name in NUMBERS]
    for name, pattern in changes:
        found = re.search(pattern, pages[name], re.MULTILINE)
        assert found is not None, f"{name} has no {pattern}"
        for another in (OTHER, "99", ""):
            changed = pages[name][: found.start(1)] + another + pages[name][found.end(1) :]
            if not list(wrong_in({**pages, name: changed})):
                came.append(f"{name}: {found[1]} as {another!r}")
    return "\n".join(came) or None


def wrong_installed(stage: pathlib.Path) -> str | None:
    """Where another version stands than in the file, of what is laid out in a stage; or None. Files that state another
    one are found."""
    wanted, pages = version(), {name: (stage / name).read_text() for name in INSTALLED}
    wrong = list(wrong_statements(pages, INSTALLED, wanted))
    library = (stage / "lib" / "libpovundiri.so.1").resolve().name
    if library != f"libpovundiri.so.{wanted}":
        wrong.append(f"the shared library is {library}")
    for program in sorted((stage / "bin").iterdir()):
        words = [str(program), "--version"]
        said = subprocess.run(words, capture_output=True, text=True, timeout=MOST_SECONDS).stdout
        if said != f"{program.name} {wanted}\n":
            wrong.append(f"{program.name} says {said!r}")
    others = {name: text.replace(wanted, OTHER) for name, text in pages.items()}
    if len(list(wrong_statements(others, INSTALLED, wanted))) != len(INSTALLED):
        wrong.append("another version is let through")
    return "\n".join(wrong) or None
