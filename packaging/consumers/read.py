#!/usr/bin/env python3
"""Prints the report of a recording's folder, by the shared library alone.

    read.py LIBRARY FOLDER
"""

from __future__ import annotations

import ctypes
import sys
from collections.abc import Sequence

DONE, SHORT = 0, 7


class Handle(ctypes.Structure):
    """struct povundiri_handle."""

    _fields_ = [("held", ctypes.c_bool), ("at", ctypes.c_void_p)]


def report(library: ctypes.CDLL, folder: str) -> bytes:
    """The report, or an exception with the name of a status."""
    library.povundiri_status_text.restype = ctypes.c_char_p
    write = library.povundiri_sums_report
    write.argtypes = [ctypes.POINTER(Handle), ctypes.c_char_p, ctypes.c_size_t, ctypes.POINTER(ctypes.c_size_t)]
    sums, fault, needed = Handle(), ctypes.c_int(0), ctypes.c_size_t(0)
    status = library.povundiri_folder_sums(folder.encode(), ctypes.byref(sums), None, ctypes.byref(fault))
    # The first call says how long the text is, the second writes it.
    text = ctypes.create_string_buffer(1)
    if status == DONE and write(ctypes.byref(sums), None, 0, ctypes.byref(needed)) == SHORT:
        text = ctypes.create_string_buffer(needed.value)
        status = write(ctypes.byref(sums), text, needed.value, ctypes.byref(needed))
    library.povundiri_sums_drop(ctypes.byref(sums))
    if status != DONE:
        raise OSError(fault.value, f"{folder}: {library.povundiri_status_text(status).decode()}")
    return text.raw[: needed.value]


def main(words: Sequence[str]) -> int:
    if len(words) != 2:
        print((__doc__ or "").rstrip(), file=sys.stderr)
        return 2
    sys.stdout.buffer.write(report(ctypes.CDLL(words[0]), words[1]))
    return 0


if __name__ == "__main__":
    sys.exit(main(sys.argv[1:]))
