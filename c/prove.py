#!/usr/bin/env python3
"""Proves and builds the libraries below a crate side by side, so that 'rt lib' in the crate proves none of them again.

    prove.py FOLDER

It first says how many there are. 'rt lib' would take them one by one, and 'rt all check --jobs N' gives each a single
processor, also where one that takes long is alone. Here all processors that the process may run on are shared out, as
far as memory allows. What is built of the same sources is left as it is, so after the gate nothing is proved here.
"""

from __future__ import annotations

import os
import pathlib
import signal
import sys
import time
from collections.abc import Mapping, Sequence
from concurrent.futures import FIRST_COMPLETED, Future, ThreadPoolExecutor, wait
from typing import Any

sys.dont_write_bytecode = True
HERE = pathlib.Path(__file__).resolve().parent
sys.path.insert(0, str(HERE.parent / "tests"))
from support import kits, lanes, toolchain

# What rt says of each crate.
SAID = HERE / "out" / "proofs"
# The most processors for one crate: rt by itself takes no more.
MOST_JOBS = 4
# How many signs of it are shown where a crate is not proved.
MOST_SHOWN = 3000


class Failed(Exception):
    """The crate of this name is not proved."""


def say(text: str) -> None:
    print(text, flush=True)


def prove(crate: Any, jobs: int) -> float:
    """Proves and builds a library over those below it, and returns how many seconds that took."""
    start = time.monotonic()
    with open(SAID / f"{crate.name}.txt", "w", encoding="utf-8") as crate.out:
        status = crate.build_rlib(["--jobs", str(jobs)], anew=False)
    if status:
        raise Failed(crate.name)
    return time.monotonic() - start


def ahead(crates: Sequence[Any]) -> dict[Any, int]:
    """How many lines each crate and those above it have, on the way up that has most. The crates come lowest first."""
    found: dict[Any, int] = {}
    for crate in reversed(crates):
        above = [lines for other, lines in found.items() if crate in other.deps]
        found[crate] = crate.count(rb"\n") + max(above, default=0)
    return found


def shares(ready: Sequence[Any], idle: int) -> Mapping[Any, int]:
    """Which crates begin, of those that may, and by how many of the idle processors: the first by half of them, each
    after it by half of the rest, and the last by what is left."""
    given = {}
    for crate in ready:
        jobs = min(MOST_JOBS, idle if crate is ready[-1] else (idle + 1) // 2)
        if jobs:
            given[crate] = jobs
            idle -= jobs
    return given


def prove_all(crates: Sequence[Any], processors: int) -> None:
    """Proves crates, each once those below it are built, and first those with the longest way up."""
    lines = ahead(crates)
    left = sorted(crates, key=lambda crate: -lines[crate])
    running: dict[Future[float], tuple[Any, int]] = {}
    with ThreadPoolExecutor(processors) as pool:
        while left or running:
            missing = {*left, *(crate for crate, _ in running.values())}
            ready = [crate for crate in left if missing.isdisjoint(crate.below())]
            idle = processors - sum(jobs for _, jobs in running.values())
            for crate, jobs in shares(ready, idle).items():
                left.remove(crate)
                running[pool.submit(prove, crate, jobs)] = crate, jobs
            for ended in wait(running, return_when=FIRST_COMPLETED).done:
                crate, jobs = running.pop(ended)
                number = len(crates) - len(left) - len(running)
                say(f"{number} of {len(crates)}: {crate.name} is proved, on {jobs} of them in {ended.result():.0f} s")


def main(folder: str) -> None:
    kit = toolchain.script()
    *below, top = toolchain.crates(str(pathlib.Path(folder).resolve()))
    crates = [crate for crate in below if not crate.is_built()]
    if not crates:
        say(f"The {len(below)} crates below {top.name} are proved already: only {top.name} itself is left.")
        return
    processors = lanes.lanes()
    say(kits.found())
    say(f"First {len(crates)} crates are proved, of {len(below)} below {top.name}, on {processors} processors.")
    # The first call has to be on the main thread; and Ctrl-C has to end what the other threads wait for.
    kit.rtlib.guarded()
    signal.signal(signal.SIGINT, signal.SIG_DFL)
    held = kit.rtlib.lock([*below, top])
    for crate in below:
        kit.rtlib.stop_on_links(crate.folder)
    # A kit that keeps work for other clones on the machine begins with it, as in 'rt lib'.
    if hasattr(kit, "share_work"):
        kit.share_work(True)
    SAID.mkdir(parents=True, exist_ok=True)
    try:
        prove_all(crates, processors)
    except Failed as why:
        sys.exit(f"{why} is not proved. What rt says:\n\n{(SAID / f'{why}.txt').read_text()[-MOST_SHOWN:]}")
    finally:
        for one in held:
            os.close(one)


if __name__ == "__main__":
    main(*sys.argv[1:])
