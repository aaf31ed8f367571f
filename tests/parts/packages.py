"""What is installed, and how: laid out twice from one archive, it is the same bytes; its symbols are those of the
headers and of the list; in an empty folder, with next to nothing in the environment, no kit and no network, it is
installed, the programs of the pages and those of packaging/consumers are compiled and run over it, and when it is
removed nothing is left. Of what fails in between the status is not 0, and the same again ends it. No release is made of
what no gate has passed, and one is used as README.md says (tests/support/releases.py).
"""

from __future__ import annotations

import argparse
import pathlib
import re
import shutil
import subprocess
import tempfile
import time
from collections.abc import Iterable, Iterator, Sequence
from concurrent.futures import ThreadPoolExecutor
from itertools import chain

from parts import c
from support import debugged, manuals, native, packaged, releases, versions
from support.packaged import BARE_PATH, PACKAGING, PROGRAMS
from support.program import ROOT, Case, Word, answer, built

PROGRAM = "persist_report"
INSTALLER = PACKAGING / "install.sh"
LIST = "share/povundiri/FILES"
# What packaging/check.sh has to have passed, with each compiler and with CMake.
BY_COMPILER = ("{c}-povundiri", "{cpp}-povundiri", "{c}-povundiri-static", "{cpp}-povundiri-static", "own-{c}.so")
BY_CMAKE = ("cmake-c_povundiri", "cmake-c_static", "cmake-cpp_povundiri", "cmake-cpp_static", "cmake-version")
ALWAYS = ("read.py", "persist_report")
# One in this many of the steps of an installation is refused.
STRIDE = 11
MOST_SECONDS = 300
# Some twenty programs are compiled.
MOST_SECONDS_OF_CHECKS = 1800


def until_wrong(cases_of_it: Iterable[Case]) -> list[Case]:
    """These cases up to the first that is wrong; a tool that fails is one."""
    found: list[Case] = []
    try:
        for name, wrong in cases_of_it:
            found.append((name, wrong))
            if wrong is not None:
                break
    except native.Failed as why:
        found.append((f"what comes after '{found[-1][0] if found else 'nothing'}'", str(why)))
    return found


def side_by_side(*groups: Iterable[Case]) -> Iterator[Case]:
    """The cases of groups that have nothing in common, two groups at a time."""
    with ThreadPoolExecutor(2) as pool:
        for found in pool.map(until_wrong, groups):
            yield from found


def with_paths(stage: pathlib.Path, paths: Sequence[str]) -> str | None:
    """Which files have one of these paths in them, or None."""
    files = [path for path in stage.rglob("*") if path.is_file()]
    found = [str(path.relative_to(stage)) for path in files if any(it.encode() in path.read_bytes() for it in paths)]
    return ", ".join(found) or None


def wrong_build(stage: pathlib.Path) -> str | None:
    """What is wrong with what the files say that they were built of, or None."""
    text = (stage / "share" / "povundiri" / "BUILD").read_bytes()
    for path in packaged.binaries(stage):
        if packaged.section(path) != text:
            return f"{path.name} says {packaged.section(path)[:200]!r}"
    lines = dict(line.split(" ", 1) for line in text.decode().splitlines())
    if "passed, 0 failed" in lines["gate"]:
        return None if text == (PACKAGING / "out" / "BUILD").read_bytes() else "it says of the gate what no gate said"
    if lines["gate"] != "not passed":
        return f"it says of the gate {lines['gate']!r}"
    # The sum as anybody can make it, by the line that packaging/built.py has in its head.
    found = re.search(r"^    (find crates .*)$", (PACKAGING / "built.py").read_text(), re.MULTILINE)
    assert found is not None
    command = found[1].replace("\\\\", "\\") + " | sha256sum"
    wanted = native.run(["bash", "-c", command], cwd=ROOT).split()[0]
    return None if lines["sources"] == wanted else f"the sum of the sources is {lines['sources']}, and not {wanted}"


def contents(stage: pathlib.Path, again: pathlib.Path) -> Iterator[Case]:
    """What is in the files of a stage, of which there are two."""
    yield "laid out twice", packaged.differing(packaged.sums(stage), packaged.sums(again))
    (again / "lib" / "libpovundiri.a").write_bytes(b"")
    found = packaged.differing(packaged.sums(stage), packaged.sums(again))
    yield "that another file is found", None if found == "lib/libpovundiri.a" else f"{found}"
    yield "no file has a path of the build", with_paths(stage, [str(ROOT), str(stage.parent)])
    yield "what they were built of", wrong_build(stage)
    yield "each says the version of VERSION", versions.wrong_installed(stage)
    for path in packaged.binaries(stage):
        newest = packaged.newest_glibc(path)
        wrong = None if newest <= packaged.NEWEST_GLIBC else f"it needs glibc {newest}"
        yield f"{path.name} needs no newer glibc", wrong
        needed = packaged.needed(path)
        yield f"{path.name} needs libc alone", None if needed == ["libc.so.6"] else f"it needs {needed}"


def wrong_flags(library: pathlib.Path) -> str | None:
    """What is wrong with how the shared library is to be loaded, or None."""
    dynamic = native.run(["readelf", "-dW", library])
    if f"Library soname: [{packaged.SONAME}]" not in dynamic:
        return "it has another name"
    if "NODELETE" not in dynamic or "TEXTREL" in dynamic or "SYMBOLIC" in dynamic:
        return f"it is loaded otherwise: {dynamic}"
    wanted = native.run(["nm", "-D", "--undefined-only", "--with-symbol-versions", library])
    foreign = [line for line in wanted.splitlines() if " U " in line and "@GLIBC_" not in line]
    return f"it wants {foreign}" if foreign or " U " not in wanted else None


def wrong_symbols(library: pathlib.Path, folder: pathlib.Path) -> str | None:
    """What is wrong between the headers, the list and the symbols that the library has, or None."""
    declared = packaged.declared(folder) | packaged.objects_declared() | {packaged.NODE}
    wanted = {f"{name}@{packaged.NODE}" for name in declared}
    found, listed = packaged.exported(library), set(packaged.listed())
    lines = [f"the library lacks {name}" for name in sorted(wanted - found)]
    lines += [f"no header has {name}, which the library has" for name in sorted(found - wanted)]
    lines += [f"the list (packaging/symbols.py --since) lacks {name}" for name in sorted(found - listed)]
    lines += [f"{name} of the list is gone" for name in sorted(listed - found)]
    return "\n".join(lines) or None


def wrong_layouts(folder: pathlib.Path) -> str | None:
    """What is wrong between the headers and the list of their layouts, or None: by the script that makes it, and by
    what a compiler writes down for debuggers."""
    listed = packaged.LAYOUTS.read_text()
    now = native.run(["python3", PACKAGING / "layouts.py", *packaged.headers()])
    if now != listed:
        lines = sorted(set(now.splitlines()) ^ set(listed.splitlines()))
        return f"packaging/layouts.txt, which `make -C c lists` makes anew, differs in {lines}"
    facts = debugged.facts(packaged.headers(), folder)
    changed = listed.replace("    at: at 8, 8", "    at: at 16, 8", 1)
    changed = changed.replace("POVUNDIRI_SHORT: 7", "POVUNDIRI_SHORT: 9")
    found = debugged.difference(facts, changed, packaged.internal_structs()) or ""
    if found.count("\n") != 1 or "povundiri_handle.at" not in found or "POVUNDIRI_SHORT" not in found:
        return f"of two wrong lines it finds {found!r}"
    return debugged.difference(facts, listed, packaged.internal_structs())


def wrong_objects(folder: pathlib.Path) -> str | None:
    """Whether an object is another one where it is compiled in another folder, or None."""
    objects = []
    for name in ("one", "another"):
        home = folder / name / "c"
        shutil.copytree(ROOT / "c", home, ignore=shutil.ignore_patterns("out"))
        for other in ("packaging", "crates", "VERSION"):
            (home.parent / other).symlink_to(ROOT / other)
        native.run(["make", "-s", "-C", home, "out/povundiri_look.o"], env=packaged.bare(home))
        objects.append((home / "out" / "povundiri_look.o").read_bytes())
    return None if objects[0] == objects[1] and b"DW_AT" not in objects[0] else "it is another one"


def interface(stage: pathlib.Path, folder: pathlib.Path) -> Iterator[Case]:
    """What programs find in the library."""
    library = stage / "lib" / packaged.SONAME
    yield "how the shared library is loaded", wrong_flags(library)
    yield "its symbols", wrong_symbols(library, folder)
    yield "layouts and constants", wrong_layouts(folder)
    yield "an object in another folder", wrong_objects(folder)


def installer(*words: Word) -> subprocess.CompletedProcess[str]:
    """What packaging/install.sh makes of these words."""
    line: list[Word] = ["sh", INSTALLER, *words]
    return subprocess.run(line, env={"PATH": BARE_PATH}, capture_output=True, text=True, timeout=MOST_SECONDS)


def install(stage: pathlib.Path, prefix: pathlib.Path) -> subprocess.CompletedProcess[str]:
    return installer("--from", stage, prefix)


def uninstall(prefix: pathlib.Path) -> subprocess.CompletedProcess[str]:
    return installer("--uninstall", prefix)


def left_in(folder: pathlib.Path) -> str | None:
    """What is left in a folder, or None."""
    return ", ".join(str(path.relative_to(folder)) for path in sorted(folder.rglob("*"))) or None


def wrong_install(stage: pathlib.Path, folder: pathlib.Path, programs: str) -> str | None:
    """What is wrong with an installation by make, below DESTDIR and a PREFIX with a space, and with its removal."""
    words = [f"DESTDIR={folder / 'root'}", "PREFIX=/opt/a place"]
    prefix = folder / "root" / "opt" / "a place"
    packaged.made(["install", *words], folder, PROGRAMS=programs)
    own = set(packaged.sums(stage))
    if set(packaged.sums(prefix)) != own:
        return f"it installs {sorted(set(packaged.sums(prefix)) ^ own)}"
    packaged.made(["uninstall", *words], folder)
    return left_in(prefix)


def wrong_upgrade(stage: pathlib.Path, prefix: pathlib.Path) -> str | None:
    """What is wrong if an earlier version is there, of which a file is gone, and files of others."""
    earlier = prefix.with_name("earlier")
    shutil.copytree(stage, earlier, symlinks=True)
    (earlier / "lib" / "libpovundiri.so.0.8.0").write_text("")
    (earlier / "lib" / "gone").mkdir()
    (earlier / "lib" / "gone" / "it").write_text("")
    (earlier / LIST).write_text((stage / LIST).read_text() + "lib/libpovundiri.so.0.8.0\nlib/gone/it\n")
    others = {"lib/other.a": "1", "share/povundiri/mine": "2"}
    install(earlier, prefix)
    for name, text in others.items():
        (prefix / name).write_text(text)
    came = install(stage, prefix)
    if came.returncode != 0 or set(packaged.sums(prefix)) != {*packaged.sums(stage), *others}:
        return f"status {came.returncode}: {came.stderr}{left_in(prefix)}"
    gone = uninstall(prefix)
    found = set(packaged.sums(prefix))
    return None if gone.returncode == 0 and found == set(others) else f"status {gone.returncode}: {left_in(prefix)}"


# Takes the place of a command: the call of this number fails, of all that go through here.
REFUSING = """#!/bin/sh
echo >> "$COUNTED"
if [ "$(wc -l < "$COUNTED")" -eq "$REFUSED" ]; then exit 1; fi
exec /usr/bin/%s "$@"
"""
CHANGING = ("install", "ln", "mkdir", "mv", "sort")


def refused_install(stage: pathlib.Path, prefix: pathlib.Path, number: int, room: pathlib.Path) -> tuple[int, int]:
    """The status of an installation of which this step is refused, and how many steps it made."""
    counted = room / "counted"
    counted.write_text("")
    setting = {"PATH": f"{room}:{BARE_PATH}", "COUNTED": str(counted), "REFUSED": str(number)}
    words: list[Word] = ["sh", INSTALLER, "--from", stage, prefix]
    done = subprocess.run(words, env=setting, capture_output=True, timeout=MOST_SECONDS)
    return done.returncode, counted.read_text().count("\n")


def wrong_refused(stage: pathlib.Path, folder: pathlib.Path) -> str | None:
    """What is wrong where a step of an installation fails, or None: its status is not 0, and done again it is whole, or
    removed nothing is left."""
    room = folder / "refusing"
    room.mkdir()
    for name in CHANGING:
        (room / name).write_text(REFUSING % name)
        (room / name).chmod(0o755)
    whole, number = packaged.sums(stage), 1
    while True:
        prefix = folder / f"prefix_{number}"
        status, steps = refused_install(stage, prefix, number, room)
        if steps < number:
            return None if status == 0 and number > STRIDE else f"{steps} steps, and status {status}"
        if status == 0:
            return f"step {number} was refused, and the status is 0"
        if number % (2 * STRIDE) == 1 and (install(stage, prefix).returncode or packaged.sums(prefix) != whole):
            return f"step {number} was refused, and done again it is not whole"
        if (prefix / LIST).exists() and (uninstall(prefix).returncode or left_in(prefix)):
            return f"step {number} was refused, and {left_in(prefix)} is left"
        number += STRIDE


def wrong_lists(stage: pathlib.Path, folder: pathlib.Path) -> str | None:
    """What is wrong with lists that are none, or None: nothing outside the prefix is removed, and nothing installed."""
    outside = folder / "outside"
    for number, line in enumerate(("../outside", f"{outside}", "lib/../../outside", "a b", "", "-x")):
        outside.write_text("")
        prefix = folder / f"forged_{number}"
        (prefix / "share" / "povundiri").mkdir(parents=True)
        (prefix / LIST).write_text(f"lib/mine\n{line}\n")
        for came in (uninstall(prefix), install(stage, prefix)):
            if came.returncode == 0 or not outside.exists() or [*packaged.sums(prefix)] != [LIST]:
                return f"{line!r}: status {came.returncode}, {left_in(prefix)}"
    came = uninstall(folder / "nowhere")
    return None if came.returncode == 1 and "there is no list" in came.stderr else f"{came}"


def wrong_folder(folder: pathlib.Path) -> str | None:
    """What is wrong with laying out in a folder of somebody else's files, or None: they stay."""
    other = folder / "documents"
    (other / "share" / "povundiri").mkdir(parents=True)
    (other / "share" / "povundiri" / "letter").write_text("")
    for out in (str(other), ""):
        words = ["make", "-s", "-C", str(ROOT / "c"), "stage", f"OUT={out}"]
        done = subprocess.run(words, env=packaged.bare(folder), capture_output=True, timeout=MOST_SECONDS)
        if done.returncode == 0 or left_in(other) != "share, share/povundiri, share/povundiri/letter":
            return f"{out!r}: status {done.returncode}, {left_in(other)}"
    return None


def installs(stage: pathlib.Path, folder: pathlib.Path, programs: str) -> Iterator[Case]:
    yield "by make, below DESTDIR, and removed", wrong_install(stage, folder, programs)
    yield "over an earlier version, beside files of others", wrong_upgrade(stage, folder / "upgraded")
    yield "each of some steps is refused", wrong_refused(stage, folder)
    yield "lists that are none", wrong_lists(stage, folder)
    yield "laid out over files of others", wrong_folder(folder)


def wanted_checks() -> list[str]:
    """What packaging/check.sh has to pass here."""
    compilers = [("gcc", "g++"), *([("clang", "clang++")] if shutil.which("clang", path=BARE_PATH) else [])]
    names = [name.format(c=one, cpp=two) for one, two in compilers for name in BY_COMPILER]
    return [*names, *(BY_CMAKE if shutil.which("cmake", path=BARE_PATH) else ()), *ALWAYS]


def wrong_checks(prefix: pathlib.Path, home: pathlib.Path) -> str | None:
    """What is wrong with what packaging/check.sh passes over an installed library, or None. What it leaves out is
    printed."""
    words: list[Word] = [*packaged.without_network(), "sh", PACKAGING / "check.sh", prefix]
    said = native.run(words, seconds=MOST_SECONDS_OF_CHECKS, env=packaged.bare(home)).splitlines()
    for line in said:
        if line.startswith("left out: "):
            print(line, flush=True)
    passed = [line.removeprefix("passed: ") for line in said if line.startswith("passed: ")]
    right = sorted(passed) == sorted(wanted_checks()) and said[-1] == f"{len(passed)} passed"
    return None if right else f"passed were {passed}"


def wrong_page(prefix: pathlib.Path, source: pathlib.Path, kind: str, page: str) -> str | None:
    """What is wrong with a program of a page that is compiled by a package of pkg-config and run twice, or None."""
    home = source.parent / f"{source.stem}_{kind}"
    home.mkdir()
    setting = packaged.bare(home, PKG_CONFIG_PATH=str(prefix / "lib" / "pkgconfig"))
    compiler = "cc -std=c99" if source.suffix == ".c" else "c++ -std=c++17"
    line = f"{compiler} {source} $(pkg-config --cflags --libs {kind}) -o program"
    native.run([*packaged.without_network(), "bash", "-ec", line], env=setting, cwd=home)
    if kind == "povundiri":
        setting["LD_LIBRARY_PATH"] = str(prefix / "lib")
    start = time.monotonic()
    for _ in range(2):
        came = answer(home / "program", ["latency.seg"], cwd=home, env=setting)
        if came.error or came.status != 0:
            return f"status {came.status}: {came.error[-1500:]!r}"
    seconds = time.monotonic() - start
    return c.wrong_recorded(page, c.report_in(prefix / "bin" / PROGRAM, c.segment_in(home)), seconds)


def pages(prefix: pathlib.Path, folder: pathlib.Path) -> Iterator[Case]:
    """The programs that README.md and C.md show, by both packages."""
    folder.mkdir()
    works = [(name, source, kind) for name, source in c.shown_programs(folder) for kind in versions.PACKAGES]
    yield "the pages show programs", None if len(works) >= 2 * len(c.PAGES) else f"only {works}"

    for name, source, kind in works:
        yield f"{name}, by {kind}", wrong_page(prefix, source, kind, name.rpartition(" of ")[2])


def used(stage: pathlib.Path, folder: pathlib.Path) -> Iterator[Case]:
    """What users write, over a library that is installed in an empty folder."""
    prefix = folder / "home" / ".local"
    prefix.parent.mkdir()
    came = install(stage, prefix)
    yield "installed", None if came.returncode == 0 and not came.stderr else f"status {came.returncode}: {came.stderr}"
    yield "what packaging/check.sh passes", wrong_checks(prefix, prefix.parent)
    yield from pages(prefix, folder / "pages")
    gone = uninstall(prefix)
    yield "removed, nothing is left", f"status {gone.returncode}" if gone.returncode else left_in(prefix)


def programs_with(program: pathlib.Path) -> str:
    """The programs that are installed, this one among them."""
    return " ".join(str(program if name == PROGRAM else built(name)) for name in PROGRAMS)


def cases(program: pathlib.Path, _options: argparse.Namespace) -> Iterator[Case]:
    missing = list(packaged.tools_missing())
    yield "the tools that are needed", f"there is no {', '.join(missing)}" if missing else None
    if (kit := shutil.which("rt", path=BARE_PATH)) is not None:
        print(f"left out: that no kit is asked, since there is {kit}", flush=True)
    if not packaged.without_network():
        print("left out: networks are not kept away, since unshare is refused here", flush=True)
    with tempfile.TemporaryDirectory() as scratch:
        folder = pathlib.Path(scratch)
        try:
            stage = packaged.staged(folder / "stage", programs_with(program))
            again = packaged.staged(folder / "again" / "elsewhere", programs_with(program))
        except native.Failed as why:
            yield "laid out", str(why)
            return
        looked_at = chain(
            contents(stage, again), interface(stage, folder), manuals.cases(stage, packaged.declared(folder)),
            installs(stage, folder, programs_with(program)),
        )
        made = releases.cases(folder / "releases", program, built("stepped"))
        yield from side_by_side(used(stage, folder), looked_at, made)
