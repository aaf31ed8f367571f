"""The script `rt` of the toolchain as a module: what its own checks are made of serves the tests too."""

from __future__ import annotations

import functools
import importlib.machinery
import importlib.util
import os
import shutil
import sys
from typing import Any


def place() -> str:
    """Where the script `rt` of the PATH is."""
    return os.path.realpath(shutil.which("rt") or sys.exit("no rt on the PATH"))


@functools.cache
def script() -> Any:
    """The script `rt`, whose attribute `rtlib` is the module beside it."""
    loader = importlib.machinery.SourceFileLoader("rt", place())
    spec = importlib.util.spec_from_loader("rt", loader)
    assert spec is not None
    made = importlib.util.module_from_spec(spec)
    sys.modules["rt"] = made
    loader.exec_module(made)
    return made


def crates(folder: str) -> list[Any]:
    """The crates at or below a folder and those that they stand on, lowest first."""
    found: list[Any] = script().rtlib.crates_below(folder)
    return found
