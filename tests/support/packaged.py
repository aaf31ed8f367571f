"""What is installed: laid out from what `make -C c` has built, and what stands in its files."""

from __future__ import annotations

import contextlib
import functools
import hashlib
import os
import pathlib
import re
import shutil
import subprocess
from collections.abc import Iterable, Iterator, Mapping

from support import native
from support.program import ROOT, Path, Word

PACKAGING = ROOT / "packaging"
SYMBOLS = PACKAGING / "debian" / "libpovundiri1.symbols"
LAYOUTS = PACKAGING / "layouts.txt"
SONAME, NODE = "libpovundiri.so.1", "POVUNDIRI_1"
PROGRAMS = ("persist_report", "stepped")
# In which section a program or a shared library says what it was built of.
SECTION = ".povundiri_built"
# The newest glibc that anything needs.
NEWEST_GLIBC = (2, 34)
# The folders of commands of every system.
BARE_PATH = "/usr/bin:/bin"
TOOLS = ("gcc", "g++", "make", "pkg-config", "objcopy", "readelf", "nm", "strip")
MOST_SECONDS = 300


def bare(home: pathlib.Path, **more: str) -> dict[str, str]:
    """An environment with next to nothing in it."""
    return {"HOME": str(home), "PATH": BARE_PATH, "LC_ALL": "C", "TMPDIR": os.environ.get("TMPDIR", "/tmp"), **more}


@functools.cache
def without_network() -> list[str]:
    """The words before a command that keep every network from it, where the system lets one; else none."""
    for words in (["unshare", "-n"], ["unshare", "-rn"]):
        with contextlib.suppress(OSError):
            if subprocess.run([*words, "true"], capture_output=True, timeout=MOST_SECONDS).returncode == 0:
                return words
    return []


def made(words: Iterable[Word], home: pathlib.Path, **more: str) -> str:
    """What `make -C c` prints of these words, without a kit and without a network."""
    return native.run([*without_network(), "make", "-s", "-C", ROOT / "c", *words], env=bare(home, **more))


def staged(folder: pathlib.Path, programs: str) -> pathlib.Path:
    """What is installed, with these programs, in a new folder."""
    made(["stage", f"OUT={folder}"], folder.parent, PROGRAMS=programs, ALL_PROGRAMS="1")
    return folder


def complaint(tool: str, *words: Word) -> str | None:
    """What a tool complains of, or None; that it is not there is printed."""
    if shutil.which(tool) is None:
        print(f"left out: {tool} is not installed", flush=True)
        return None
    setting = {**os.environ, "LC_ALL": "C.UTF-8"}
    line = [tool, *words]
    done = subprocess.run(line, capture_output=True, text=True, timeout=MOST_SECONDS, env=setting)
    return done.stderr or (f"status {done.returncode}" if done.returncode else None)


def sums(folder: pathlib.Path) -> dict[str, str]:
    """The sum of each file below a folder, with its mode, or where a link leads."""
    found = {}
    for path in sorted(folder.rglob("*")):
        if path.is_symlink():
            found[str(path.relative_to(folder))] = f"leads to {os.readlink(path)}"
        elif path.is_file():
            mode = path.stat().st_mode & 0o7777
            found[str(path.relative_to(folder))] = f"{mode:o} {hashlib.sha256(path.read_bytes()).hexdigest()}"
    return found


def differing(one: Mapping[str, str], two: Mapping[str, str]) -> str | None:
    """Which files are not the same, or None if all are; there have to be some."""
    names = sorted(name for name in {*one, *two} if one.get(name) != two.get(name))
    return ", ".join(names) or (None if one else "there is no file")


def binaries(stage: pathlib.Path) -> list[pathlib.Path]:
    """The shared library and the programs of a stage."""
    return [stage / "lib" / SONAME, *sorted((stage / "bin").glob("*"))]


def section(path: pathlib.Path) -> bytes:
    """What a file says that it was built of."""
    lines = native.run(["readelf", "-SW", path])
    found = re.search(rf" {re.escape(SECTION)} +\S+ +[0-9a-f]+ ([0-9a-f]+) ([0-9a-f]+) ", lines)
    if found is None:
        return b""
    offset, size = (int(number, 16) for number in found.groups())
    return path.read_bytes()[offset : offset + size]


def needed(path: Path) -> list[str]:
    """The shared objects that a file needs."""
    return re.findall(r"\(NEEDED\)\s+Shared library: \[(.*)\]", native.run(["readelf", "-dW", path]))


def newest_glibc(path: Path) -> tuple[int, ...]:
    """The newest version of glibc that a file needs a symbol of."""
    found = re.findall(r"\bGLIBC_(\d+(?:\.\d+)*)\b", native.run(["readelf", "-VW", path]))
    return max(tuple(map(int, version.split("."))) for version in found)


def exported(path: Path) -> set[str]:
    """The symbols of a shared library, each with its version, as in Debian's list."""
    lines = native.run(["nm", "-D", "--defined-only", "--with-symbol-versions", path]).splitlines()
    names = {line.split()[-1].replace("@@", "@") for line in lines}
    return {name if "@" in name else f"{name}@{name}" for name in names}


def listed() -> dict[str, str]:
    """The symbols of the list, each with the version since which it is there."""
    return dict(re.findall(r"^ (\S+) (\S+)$", SYMBOLS.read_text(), re.MULTILINE))


# A declaration as gcc writes it down, with the file and the line where it stands.
DECLARED = re.compile(r"^/\* (?:\S*/)?(\w+\.h):(\d+):\w+ \*/ .*?\b(povundiri_\w+) \(", re.MULTILINE)
ALONE = re.compile(r"^/\* -+ For \w+\.c alone -+ \*/$", re.MULTILINE)


def headers() -> list[pathlib.Path]:
    """The headers for C that are installed."""
    words = native.run(["make", "-s", "-C", ROOT / "c", "headers"]).split()
    return [ROOT / "c" / word for word in words if word.endswith(".h")]


def first_internal_line(header: pathlib.Path) -> float:
    """The line of a header from which on it speaks to other files of the library."""
    text = header.read_text()
    found = ALONE.search(text)
    return text.count("\n", 0, found.start()) + 1 if found else float("inf")


def internal_structs() -> list[str]:
    """The structs that headers have for other files of the library."""
    texts = [ALONE.split(header.read_text(), maxsplit=1)[1:] for header in headers()]
    return [name for rest in texts for name in re.findall(r"^struct (\w+) \{$", "".join(rest), re.MULTILINE)]


def declared(folder: pathlib.Path) -> set[str]:
    """The functions that gcc finds declared in these headers, but for those that are for other files of the library."""
    source, list_ = folder / "declared.c", folder / "declared.txt"
    limits = {header.name: first_internal_line(header) for header in headers()}
    source.write_text("".join(f"#include <{name}>\n" for name in limits))
    native.run(["gcc", "-std=c99", f"-I{ROOT / 'c'}", "-aux-info", list_, "-c", "-o", "/dev/null", source])
    found = DECLARED.findall(list_.read_text())
    return {name for header, line, name in found if header in limits and int(line) < limits[header]}


def objects_declared() -> set[str]:
    """The objects that these headers declare."""
    text = "".join(header.read_text() for header in headers())
    return set(re.findall(r"^extern (?!\"C\")[^();]*\b(povundiri_\w+);", text, re.MULTILINE))


def tools_missing() -> Iterator[str]:
    """Which tools are not there that this cannot do without."""
    yield from (name for name in TOOLS if shutil.which(name) is None)
