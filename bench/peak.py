#!/usr/bin/env python3
"""Runs a command with a limit on its memory and reports what it took.

    peak.py GIB COMMAND WORD..

The streams are the command's. After all that the command writes to the error stream comes one more line, with its
status (of a signal, the number with a minus; after ten minutes it is killed) and the most memory that it had, in KiB.
This is a program of its own since a command is reported to have had at least the memory of the process that started it.
"""

from __future__ import annotations

import resource
import signal
import subprocess
import sys
from collections.abc import Sequence

MOST_SECONDS = 600


def main(arguments: Sequence[str]) -> int:
    if len(arguments) < 2:
        print(__doc__, file=sys.stderr)
        return 2
    limit = int(float(arguments[0]) * 2**30)

    def limited() -> None:
        resource.setrlimit(resource.RLIMIT_AS, (limit, limit))

    try:
        status = subprocess.run(arguments[1:], preexec_fn=limited, timeout=MOST_SECONDS).returncode
    except subprocess.TimeoutExpired:
        status = -signal.SIGKILL
    peak = resource.getrusage(resource.RUSAGE_CHILDREN).ru_maxrss
    print(status, peak, file=sys.stderr)
    return 0


if __name__ == "__main__":
    sys.exit(main(sys.argv[1:]))
