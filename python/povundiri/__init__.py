"""Reads what Povundiri recorded: images of segments, totals, and the folders of recordings, also while they are in use.

    import povundiri

    reading = povundiri.read("metrics")
    for name, histogram in reading.histograms.items():
        print(name, histogram.units, histogram.mean, histogram.quantile(99, 100))

`read` finds out what is at a path. `read_image`, `look`, `read_totals` and `read_recording` read one kind of thing,
`decode_image` and `decode_totals` bytes, and `sum_of` adds readings up.

A `Reading` has the histograms, and beside them all that is missing from them: bad records, files that were left out,
names with a second spec. What cannot be read at all raises a `Fault`, or the `OSError` of the system.

The words of an image, the lines of totals and the files of a folder are those of Povundiri's `docs/FORMAT.md`.
"""

from __future__ import annotations

import os

from ._faults import BadImage, BadTotals, Busy, Changed, Fault, NoRecording, OldVersion, TooMany
from ._files import read_file
from ._folders import read_recording
from ._images import Path, decode_image, read_image
from ._looks import look
from ._readings import Bucket, Damage, Histogram, LeftOut, Reading, Segment, Spec
from ._sums import sum_of
from ._totals import decode_totals, read_totals

__all__ = [
    "BadImage", "BadTotals", "Bucket", "Busy", "Changed", "Damage", "Fault", "Histogram", "LeftOut", "NoRecording",
    "OldVersion", "Reading", "Segment", "Spec", "TooMany", "decode_image", "decode_totals", "look", "read",
    "read_image", "read_recording", "read_totals", "sum_of",
]


def read(path: Path, live: bool = False) -> Reading:
    """Returns what is at a path: an image, the mapped file of a program, totals, or the folder of a recording.

    Of a folder the segments in use are looked at. While a program counts in a single file, `live=True` looks at it; a
    plain reading of it may lack counts, or seem damaged. Raises what `read_recording`, `read_totals`, `look` or
    `read_image` do.
    """
    return read_recording(path) if os.path.isdir(path) else read_file(path, live)
