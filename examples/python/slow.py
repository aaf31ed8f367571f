#!/usr/bin/env python3
"""What is slow: the histograms of which the 99th percentile is in a bucket from LEAST on, the worst first.

    slow.py PATH LEAST

PATH is an image, totals, or the folder of a recording. The status is 1 if something of it could not be read.
"""

import sys

import povundiri

path, least = sys.argv[1], int(sys.argv[2])
reading = povundiri.read(path)
found = []
for name, histogram in reading.histograms.items():
    bucket = histogram.quantile(99, 100)
    if bucket is not None and bucket.low >= least:
        found.append((bucket.low, name, histogram))
for low, name, histogram in sorted(found, reverse=True):
    print(f"{name}: 99 % from {low} on, of {histogram.units} samples with a mean of {histogram.mean:.1f}")
for missing in (*reading.damage, *reading.left_out):
    print(missing, file=sys.stderr)
sys.exit(0 if reading.is_whole else 1)
