"""A release: that none is made of what no gate has passed, and that one is used as README.md says. It is made in a
clone of the repository, with what is built here, and with a word of the gate that the test has written."""

from __future__ import annotations

import os
import pathlib
import re
import shutil
import subprocess
import time
from collections.abc import Callable, Iterator

from support import native, packaged, readme, timed
from support.program import ROOT, Case, Word, answer

GATE = "7 passed, 0 failed"
PROVED = "crates/povundiri_c/out/libpovundiri_c.a"
# What `make -C c` has made, in the order in which it makes it.
MADE = ("*.o", "*.a", "*.map", "*.so*")
MUST_HAVE = {"install.sh", "BUILD", "SHA256SUMS", "built/bin/persist_report", "built/lib/libpovundiri.so.1"}
MOST_SECONDS = 300
# What stands in the place of what .ci/run runs.
STAND_INS = {
    "tests/support/kits.py": "print('kit: one')",
    "tests/support/marks.py": "",
    "bench/gate.py": "print('3 passed, 0 failed')",
    "tests/run": "import sys; print('4 passed, %s failed'); sys.exit(%s)",
}
BUILT = {
    "as it is": "import sys; open('called', 'a').write(' '.join(sys.argv[1:]) + '\\n')",
    "that fails": "import sys; print('noise'); print('noise', file=sys.stderr); sys.exit(3)",
    "that is not there": None,
}


def is_clone() -> bool:
    """Whether the repository is one that can be cloned."""
    words = ["git", "-C", str(ROOT), "rev-parse", "--show-toplevel"]
    done = subprocess.run(words, capture_output=True, text=True, timeout=MOST_SECONDS)
    return done.returncode == 0 and pathlib.Path(done.stdout.strip()).resolve() == ROOT


class Clone:
    """A clone of the repository, in which everything is built."""

    def __init__(self, folder: pathlib.Path, program: pathlib.Path, others: pathlib.Path) -> None:
        self.root, self.home = folder / "clone", folder
        native.run(["git", "clone", "-q", "--shared", ROOT, self.root])
        for key in ("user.name", "user.email"):
            self.git("config", key, "test@example.org")
        for source, name in (
            (ROOT / PROVED, PROVED),
            (program, "crates/persist_report/out/persist_report"), (others, "crates/stepped/out/stepped"),
        ):
            self.put(source, name)
        for pattern in MADE:
            for path in sorted((ROOT / "c" / "out").glob(pattern)):
                self.put(path, f"c/out/{path.name}")

    def put(self, source: pathlib.Path, name: str) -> None:
        """A copy that is newer than all before it."""
        target = self.root / name
        target.parent.mkdir(parents=True, exist_ok=True)
        shutil.copy(source, target)
        os.utime(target)

    def git(self, *words: str) -> None:
        native.run(["git", "-C", self.root, *words])

    def built(self, *words: str) -> None:
        """A call of packaging/built.py."""
        native.run(["python3", self.root / "packaging" / "built.py", *words], env=packaged.bare(self.home))

    def passed(self) -> None:
        """As if the gate had passed."""
        self.built("begin")
        self.built("end", GATE)

    def dist(self) -> subprocess.CompletedProcess[str]:
        """What `make -C packaging dist` says."""
        words = [*packaged.without_network(), "make", "-s", "-C", str(self.root / "packaging"), "dist"]
        setting = packaged.bare(self.home)
        return subprocess.run(words, env=setting, capture_output=True, text=True, timeout=MOST_SECONDS)

    def releases(self) -> list[pathlib.Path]:
        return sorted((self.root / "packaging" / "out").glob("*.tar.gz"))


def unpassed(clone: Clone) -> Iterator[tuple[str, Callable[[], None]]]:
    """What the gate leaves if it has not passed, or if the tree was another one at its end."""
    yield "no gate has passed", lambda: None

    def failed() -> None:
        clone.built("begin")
        clone.built("end", "7 passed, 1 failed")

    def moved() -> None:
        clone.built("begin")
        clone.git("commit", "-q", "--allow-empty", "-m", "another")
        clone.built("end", GATE)

    def none_passed() -> None:
        clone.built("begin")
        clone.built("end", "0 passed, 0 failed")

    yield "the gate has failed", failed
    yield "nothing was run", none_passed
    yield "a commit came while the gate ran", moved


def spoilt(clone: Clone) -> Iterator[tuple[str, Callable[[], None], Callable[[], None]]]:
    """What may be changed after the gate has passed, and how it is put back."""
    page, new = clone.root / "README.md", clone.root / "new.txt"
    text = page.read_bytes()
    yield "a file is changed", lambda: changed(page, text + b"\n"), lambda: changed(page, text)
    yield "a file is new", lambda: void(new.write_text("")), new.unlink
    for name in (PROVED, "crates/stepped/out/stepped"):
        path = clone.root / name
        data = path.read_bytes()
        yield f"{path.name} is another one", lambda: changed(path, data + b"\0"), lambda: changed(path, data)
    yield (
        "another commit", lambda: clone.git("commit", "-q", "--allow-empty", "-m", "another"),
        lambda: clone.git("reset", "-q", "--hard", "HEAD~1"),
    )


def void(_: object) -> None:
    """For what returns something."""


def changed(path: pathlib.Path, data: bytes) -> None:
    """Other bytes, with the times of the old ones: make does not see it."""
    times = path.stat()
    path.write_bytes(data)
    os.utime(path, ns=(times.st_atime_ns, times.st_mtime_ns))


def refused(clone: Clone) -> str | None:
    """What is wrong with how a release is refused, or None."""
    came = clone.dist()
    right = came.returncode != 0 and "built.py: " in came.stderr and not clone.releases()
    return None if right else f"status {came.returncode}: {came.stderr[-500:]}"


def refusals(clone: Clone) -> Iterator[Case]:
    for name, leave in unpassed(clone):
        leave()
        yield f"no release: {name}", refused(clone)
    clone.passed()
    for name, spoil, restore in spoilt(clone):
        spoil()
        yield f"no release: {name}", refused(clone)
        restore()


def installer(unpacked: pathlib.Path, home: pathlib.Path, *words: Word) -> subprocess.CompletedProcess[bytes]:
    """What the script of a release makes of these words."""
    line: list[Word] = ["sh", unpacked / "install.sh", *words]
    return subprocess.run(line, env=packaged.bare(home), capture_output=True, timeout=MOST_SECONDS)


def wrong_use(release: pathlib.Path, home: pathlib.Path) -> str | None:
    """What is wrong with the lines of README.md, in the home of a user who has the release and nothing else."""
    home.mkdir()
    shutil.copy(release, home)
    setting = packaged.bare(home)
    lines = readme.block(readme.RELEASE)
    start = time.monotonic()
    said = native.run([*packaged.without_network(), "bash", "-ec", "\n".join(lines)], cwd=home, env=setting)
    seconds = time.monotonic() - start
    unpacked = next(path for path in home.iterdir() if path.is_dir() and path.name.startswith("povundiri-"))
    shown = said.splitlines()
    if "request_us" not in said or not any(re.match(r" *\[\d[\d,]*, \d[\d,]*\) ", line) for line in shown):
        return f"it shows {said[-1000:]}"
    program = home / ".local" / "bin" / "persist_report"
    recorded = answer(program, ["report", unpacked / "metrics"], cwd=home, env=setting)
    if recorded.status != 0:
        return f"report: {recorded}"
    if wrong := timed.wrong(recorded.output.decode(), 1, seconds):
        return wrong
    came = installer(unpacked, home, "--uninstall", home / ".local")
    left = sorted((home / ".local").rglob("*"))
    return None if came.returncode == 0 and not left else f"status {came.returncode}, left are {left}"


def wrong_damage(release: pathlib.Path, home: pathlib.Path) -> str | None:
    """What is wrong with how a release is installed of which a file is changed or missing, or None: it is not."""
    home.mkdir()
    native.run(["tar", "xf", release, "-C", home])
    unpacked = next(home.iterdir())
    for name in ("built/lib/libpovundiri.a", "built/bin/stepped", "built/share/povundiri/FILES"):
        path = unpacked / name
        data = path.read_bytes()
        for damaged in (data[:-1] + b"?", None):
            path.unlink()
            if damaged is not None:
                path.write_bytes(damaged)
            came = installer(unpacked, home, home / "prefix")
            if came.returncode == 0 or (home / "prefix").exists():
                return f"{name}: status {came.returncode}"
            path.write_bytes(data)
    return None


def wrong_content(release: pathlib.Path) -> str | None:
    """What is wrong with what a release has, or None: all files of the commit, what is built, and sums of all of it."""
    listed = native.run(["tar", "tf", release]).splitlines()
    names = {name.split("/", 1)[1] for name in listed if not name.endswith("/")}
    committed = set(native.run(["git", "-C", ROOT, "ls-files"]).splitlines())
    missing = (committed | MUST_HAVE) - names
    sums = native.run(["tar", "xOf", release, f"{release.name.split('-x86_64')[0]}/SHA256SUMS"]).splitlines()
    links = {name for name in names if re.fullmatch(r"built/lib/libpovundiri\.so(\.1)?", name)}
    unsummed = names - {line.split("  ./", 1)[1] for line in sums} - links - {"SHA256SUMS"}
    return f"missing are {sorted(missing)}, without a sum {sorted(unsummed)}" if missing or unsummed else None


def releases(clone: Clone) -> Iterator[Case]:
    came = clone.dist()
    found = clone.releases()
    yield "a release", None if came.returncode == 0 and len(found) == 1 else f"status {came.returncode}: {came.stderr}"
    native.run(["sha256sum", "-c", f"{found[0].name}.sha256"], cwd=found[0].parent)
    yield "what it has", wrong_content(found[0])
    yield "README.md's first way in", wrong_use(found[0], clone.home / "user")
    yield "a release that is damaged", wrong_damage(found[0], clone.home / "damaged")


def wrong_gate(folder: pathlib.Path, built: str | None, failed: int) -> str | None:
    """What is wrong with the last line and the status of .ci/run, over stand-ins for what it runs, or None."""
    for name, text in {**STAND_INS, "packaging/built.py": built}.items():
        path = folder / name
        path.parent.mkdir(parents=True, exist_ok=True)
        if text is not None:
            path.write_text(f"#!/usr/bin/env python3\n{text.replace('%s', str(failed))}\n")
            path.chmod(0o755)
    (folder / ".ci").mkdir()
    shutil.copy(ROOT / ".ci" / "run", folder / ".ci")
    words: list[Word] = ["bash", folder / ".ci" / "run"]
    done = subprocess.run(words, capture_output=True, text=True, timeout=MOST_SECONDS, stdin=subprocess.DEVNULL)
    said = done.stdout.splitlines()
    is_quiet = "noise" not in done.stdout + done.stderr
    if not is_quiet or done.returncode != failed or said[-1] != f"7 passed, {failed} failed":
        return f"status {done.returncode}: {done.stdout[-500:]}{done.stderr[-500:]}"
    called = folder / "called"
    wanted = f"begin\nend 7 passed, {failed} failed\n"
    return None if built is None or "called" not in built or called.read_text() == wanted else called.read_text()


def gates(folder: pathlib.Path) -> Iterator[Case]:
    for name, built in BUILT.items():
        for failed in (0, 1):
            room = folder / f"gate_{name.replace(' ', '_')}_{failed}"
            room.mkdir()
            yield f".ci/run with a built.py {name}, {failed} failed", wrong_gate(room, built, failed)


def cases(folder: pathlib.Path, program: pathlib.Path, stepped: pathlib.Path) -> Iterator[Case]:
    folder.mkdir(exist_ok=True)
    yield from gates(folder)
    if not is_clone():
        print("left out: releases, since this is no clone", flush=True)
        return
    clone = Clone(folder, program, stepped)
    yield from refusals(clone)
    yield from releases(clone)
