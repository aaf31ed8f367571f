"""How many checks the gate runs side by side.

    lanes.py

Prints the number for `rt ci`, which reads it from RT_JOBS: one for each processor, but no more than memory holds. By
itself `rt ci` plans on up to three times the memory that a check takes here, and then leaves processors idle.
"""

from __future__ import annotations

import os
import pathlib

# Most checks take less. The largest take up to 7.2 GiB, and have smaller ones beside them: `bench/gate.py` shows it.
BYTES_FOR_A_CHECK = 5 * 10**9


def free_bytes() -> int:
    """The memory that is free, as the system sees it."""
    for line in pathlib.Path("/proc/meminfo").read_text(encoding="utf-8").splitlines():
        name, _, rest = line.partition(":")
        if name == "MemAvailable":
            return int(rest.split()[0]) * 1024
    return 0


def processors() -> int:
    """How many processors this process may run on."""
    return len(os.sched_getaffinity(0))


def lanes() -> int:
    """One for each processor that this process may run on, but no more than memory holds, and at least one."""
    return max(1, min(processors(), free_bytes() // BYTES_FOR_A_CHECK))


if __name__ == "__main__":
    print(lanes())
