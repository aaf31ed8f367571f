"""Roots of their own, in which packages and releases are tried: over a folder that nothing is written to, without a
network, and with a list of the files that are left at the end. It takes root, overlayfs and unshare."""

from __future__ import annotations

import contextlib
import dataclasses
import os
import pathlib
import shutil
import tempfile
from collections.abc import Iterator, Mapping

from support import native, packaged
from support.program import ROOT, Word

MOST_SECONDS = 3600
SBIN = "/usr/sbin:/usr/bin:/sbin:/bin"
# What a user of a release has: Debian's smallest system, and these.
SUITE, WITH, MIRROR = "bookworm", "g++,pkg-config", "http://deb.debian.org/debian"
# What dpkg and the loader keep for themselves.
KEPT = ("var/lib/dpkg/", "var/log/", "var/cache/", "etc/ld.so.cache")
# $1 is what lies below, $2 a room for the new root, $3 what is given to it, $4 the folders that are empty in it, with
# colons between them, and $5 the script. Its other words are the script's.
ENTERED = r"""
set -e
root=$2/root
mount -t tmpfs tmpfs "$2" && mkdir "$2/up" "$2/work" "$root"
mount -t overlay overlay -o "lowerdir=$1,upperdir=$2/up,workdir=$2/work" "$root"
mount -t tmpfs -o mode=1777 tmpfs "$root/tmp" && mount --rbind /dev "$root/dev" && mount -t proc proc "$root/proc"
IFS=:
for folder in $4; do [ ! -d "$root$folder" ] || mount -t tmpfs tmpfs "$root$folder"; done
unset IFS
cp -R "$3" "$root/tmp/given"
chroot "$root" bash -ec "$5" bash "${@:6}"
find "$2/up" \( -type f -o -type l \) -printf '/left: %P\n'
find "$root/tmp" -mindepth 1 -not -path "$root/tmp/given*" -printf '/left: tmp/%P\n'
"""


@dataclasses.dataclass(frozen=True)
class Below:
    """What a root is laid over, which of its folders are empty there, and what it is called. `lacking` says what it
    should be and is not, or is None."""

    folder: pathlib.Path
    emptied: tuple[str, ...]
    called: str
    lacking: str | None = None


THIS_MACHINE = Below(pathlib.Path("/"), (), "this machine")


def without_kit() -> Below:
    """This machine without the kit, the repository and the homes of its users."""
    kit = pathlib.Path(shutil.which("rt") or "/none/bin/rt").resolve().parents[1]
    emptied = ("/root", "/home", "/usr/local", str(kit), str(ROOT))
    return Below(pathlib.Path("/"), emptied, "this machine", "debootstrap is not installed")


@contextlib.contextmanager
def of_user() -> Iterator[Below]:
    """What a user of a release has, made by debootstrap; BASE in the environment may name a folder where it is."""
    called = f"Debian's smallest system with {WITH.replace(',', ' and ')}"
    if base := os.environ.get("BASE"):
        yield Below(pathlib.Path(base).resolve(), (), called)
    elif shutil.which("debootstrap", path=SBIN) is None:
        yield without_kit()
    else:
        with tempfile.TemporaryDirectory() as room:
            words = ["debootstrap", "--variant=minbase", f"--include={WITH}", SUITE, room, MIRROR]
            native.run(words, seconds=MOST_SECONDS, env={**os.environ, "PATH": SBIN})
            yield Below(pathlib.Path(room), (), called)


def entered(below: Below, script: str, given: Mapping[str, bytes | pathlib.Path], *words: str) -> tuple[str, list[str]]:
    """What a script prints as root of a root over this one, in which these files are in /tmp/given, and which files it
    leaves. What it started has ended then."""
    with tempfile.TemporaryDirectory() as room, tempfile.TemporaryDirectory() as gifts:
        for name, content in given.items():
            data = content if isinstance(content, bytes) else content.read_bytes()
            (pathlib.Path(gifts) / name).write_bytes(data)
        os.chmod(gifts, 0o755)
        emptied = ":".join(below.emptied)
        line: list[Word] = ["unshare", "-mnpf", "bash", "-c", ENTERED, "bash", below.folder, room, gifts, emptied]
        setting = {**packaged.bare(pathlib.Path("/root")), "PATH": SBIN}
        said = native.run([*line, script, *words], seconds=MOST_SECONDS, env=setting).splitlines()
    left = [text.removeprefix("/left: ") for text in said if text.startswith("/left: ")]
    shown = "".join(f"{text}\n" for text in said if not text.startswith("/left: "))
    return shown, [name for name in left if not name.startswith(KEPT)]
