"""The library for C and C++ as it is installed: how programs are compiled and linked with it."""

from __future__ import annotations

import os
import pathlib
import shlex
import subprocess
from typing import Any

from bursts import HERE, Path


def flags_of(package: str, **settings: Any) -> list[str] | None:
    """The words with which a package is compiled and linked, or None if there is none."""
    done = subprocess.run(["pkg-config", "--cflags", "--libs", package], capture_output=True, text=True, **settings)
    return shlex.split(done.stdout) if done.returncode == 0 else None


def flags(folder: Path) -> list[str]:
    """Those of its archives, which are installed into the folder."""
    prefix = pathlib.Path(folder) / "prefix"
    subprocess.run(["make", "-s", "-C", HERE.parent / "c", "install", f"PREFIX={prefix}"], check=True)
    words = flags_of("povundiri-static", env={**os.environ, "PKG_CONFIG_PATH": str(prefix / "lib" / "pkgconfig")})
    assert words is not None, "pkg-config does not find what was installed"
    return words
