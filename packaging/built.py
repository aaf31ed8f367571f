#!/usr/bin/env python3
"""Says what this tree was built of, as it stands in share/povundiri/BUILD and in programs and the shared library.

    built.py begin              as the gate begins: what it is about to prove
    built.py end 'N passed, M failed'
                                as it ends: writes packaging/out/BUILD, if nothing failed and the tree is what it was
    built.py show               prints that file, if it is of this tree and of what is built in it; else what is known,
                                and 'gate not passed'
    built.py check              says why no release may be made of this tree; the status is 1 then

BUILD has a line each for: the version; the commit; the kit; the sum of the sources; what the gate said; the sum of the
archive and of each program, as the gate left them; and the licence. The sum of the sources is that of

    find crates -name out -prune -o \\( -name '*.rt' -o -name '*.antt' \\) -print | LC_ALL=C sort | xargs sha256sum
"""

from __future__ import annotations

import contextlib
import hashlib
import pathlib
import re
import subprocess
import sys
from collections.abc import Mapping, Sequence

ROOT = pathlib.Path(__file__).resolve().parent.parent
OUT = ROOT / "packaging" / "out"
BUILD, BEGUN = OUT / "BUILD", OUT / "BUILD.begun"
MADE = [
    "crates/povundiri_c/out/libpovundiri_c.a",
    "crates/persist_report/out/persist_report",
    "crates/stepped/out/stepped",
]
PASSED = re.compile(r"[1-9]\d* passed, 0 failed")
NOT_PASSED = "not passed"
CHANGED, UNKNOWN = "with changes", "unknown"
LICENCE = "none has been chosen by the owner, neither of this nor of the kit's library in it"
SECONDS = 60


def said(*words: str) -> str | None:
    """What a command prints, or None if it fails or is not there."""
    with contextlib.suppress(OSError, subprocess.SubprocessError):
        done = subprocess.run(words, cwd=ROOT, capture_output=True, text=True, timeout=SECONDS, check=True)
        return done.stdout.rstrip("\n")
    return None


def sum_of(path: pathlib.Path) -> str:
    """The SHA-256 of a file, or that it is not there."""
    return hashlib.sha256(path.read_bytes()).hexdigest() if path.is_file() else "none"


def sources() -> str:
    """The sum of all that is proved, and of its proofs."""
    crates = ROOT / "crates"
    found = [path for kind in ("rt", "antt") for path in crates.rglob(f"*.{kind}")]
    names = sorted(path.relative_to(ROOT) for path in found if "out" not in path.relative_to(crates).parts[:-1])
    lines = sorted(str(name).encode() for name in names)
    text = b"".join(sum_of(ROOT / name.decode()).encode() + b"  " + name + b"\n" for name in lines)
    return hashlib.sha256(text).hexdigest()


def commit() -> str:
    """The commit of the tree, and whether something in it is changed or new; or that there is no such thing."""
    top, head = said("git", "rev-parse", "--show-toplevel"), said("git", "rev-parse", "HEAD")
    changes = said("git", "--no-optional-locks", "status", "--porcelain")
    if top is None or head is None or changes is None or pathlib.Path(top).resolve() != ROOT:
        return UNKNOWN
    return f"{head} {CHANGED}" if changes else head


def known(gate: str) -> dict[str, str]:
    """What is known of the tree, by the first word of its line."""
    return {
        "povundiri": (ROOT / "VERSION").read_text().strip(),
        "commit": commit(),
        "kit": said("rt", "version") or UNKNOWN,
        "sources": sources(),
        "gate": gate,
        **{pathlib.Path(name).name: sum_of(ROOT / name) for name in MADE},
        "licence": LICENCE,
    }


def text_of(lines: Mapping[str, str]) -> str:
    return "".join(f"{key} {value}\n" for key, value in lines.items())


def lines_of(path: pathlib.Path) -> dict[str, str]:
    """The lines of a file, which may not be there."""
    with contextlib.suppress(OSError, UnicodeDecodeError):
        found = [line.partition(" ") for line in path.read_text(encoding="utf-8").splitlines()]
        return {key: value for key, _, value in found}
    return {}


def begin() -> None:
    """What was said of an earlier tree is of no use from here on."""
    OUT.mkdir(parents=True, exist_ok=True)
    BUILD.unlink(missing_ok=True)
    BEGUN.write_text(f"commit {commit()}\nsources {sources()}\n", encoding="utf-8")


def end(gate: str) -> None:
    begun, now = lines_of(BEGUN), known(gate)
    BEGUN.unlink(missing_ok=True)
    BUILD.unlink(missing_ok=True)
    if PASSED.fullmatch(gate) and begun == {key: now[key] for key in ("commit", "sources")}:
        new = BUILD.with_suffix(".new")
        new.write_text(text_of(now), encoding="utf-8")
        new.replace(BUILD)


def why_not(build: Mapping[str, str], now: Mapping[str, str]) -> str | None:
    """Why what the gate left is no word for this tree as it is now, or None."""
    if not build:
        return "there is no packaging/out/BUILD: the gate (.ci/run) has not passed here"
    if not PASSED.fullmatch(build.get("gate", "")):
        return f"packaging/out/BUILD says of the gate: {build.get('gate')!r}"
    if UNKNOWN in now["commit"] or CHANGED in now["commit"]:
        return f"the tree is no commit as it stands: {now['commit']}"
    # A kit that is on the PATH no longer has built it all the same.
    wrong = [key for key in now if key not in ("gate", "kit") and build.get(key) != now[key]]
    lines = [f"{key}: the gate has passed with {build.get(key)!r}, and this is {now[key]!r}" for key in wrong]
    lines += [f"{key}: it is not built" for key, value in now.items() if value == "none"]
    return "\n".join(lines) or None


def show() -> str:
    build, now = lines_of(BUILD), known(NOT_PASSED)
    return text_of(now if why_not(build, now) else build)


def main(words: Sequence[str]) -> int:
    if words == ["begin"]:
        begin()
    elif len(words) == 2 and words[0] == "end":
        end(words[1])
    elif words == ["show"]:
        print(show(), end="")
    elif words == ["check"]:
        wrong = why_not(lines_of(BUILD), known(NOT_PASSED))
        if wrong is not None:
            print(f"built.py: {wrong}", file=sys.stderr)
            return 1
    else:
        print((__doc__ or "").rstrip(), file=sys.stderr)
        return 2
    return 0


if __name__ == "__main__":
    sys.exit(main(sys.argv[1:]))
