#!/usr/bin/env python3
"""Writes a sheet to standard output: a sample of all four methods over two charts.

    python3 examples/make_sheet.py > examples/sample.sheet
    target/bin/sheet < examples/sample.sheet

What is printed of it ends with `total`, the number of rows with status 0 and the sums of their six counts.

With --example it is document 01's example of two rows. With --weights and five numbers it is the sample under a league's own
weights, from n320 to n50: its rows of Fast and Closest are stopped by 19, and weights that do not fall as they must are refused
with the whole sheet, by 18. Numbers are little-endian; a missing field is all zero bytes.
"""

import struct
import sys

IGNORE_ACCURACY, FAST, CLOSEST, NEAREST = range(4)
BEST_CASE, WORST_CASE = range(2)

# The fields that may be missing, in the order of their presence bits.
FIELDS = ("n320", "n300", "n200", "n100", "n50", "misses", "acc", "passed")


def query(chart, method, priority=BEST_CASE, classic=False, holds=None, **given):
    """The 48 bytes of a query: the chart's index, how to work it, and the fields that are given.

    holds is how many hold notes were passed in a play that was broken off: where it is given, 0 too, byte 6 is 1 and the last
    field has the number, else both are 0 and the chart's hold notes count in full.
    """
    unknown = given.keys() - set(FIELDS)
    if unknown:
        raise TypeError(f"no field {unknown}")
    presence = sum(1 << bit for bit, name in enumerate(FIELDS) if name in given)
    counts = [given.get(name, 0) for name in ("n320", "n300", "n200", "n100", "n50", "misses", "passed")]
    codes = (chart, method, priority, classic, presence, holds is not None, 0)
    return struct.pack("<HBBBBBB7IdI", *codes, *counts, given.get("acc", 0.0), holds or 0)


def sheet(charts, queries, weights=None):
    """The charts (objects, hold notes), the weights, and the queries, each section after its count.

    weights are a league's own five, from n320 to n50; without them the section has no record, and the standard weights hold.
    """
    records = [struct.pack("<II", *chart) for chart in charts]
    own = [] if weights is None else [struct.pack("<5I", *weights)]
    return b"".join(struct.pack("<I", len(section)) + b"".join(section) for section in (records, own, queries))


EXAMPLE = ([(20, 0)], [query(0, NEAREST, n320=0, n300=0, acc=1.0), query(0, NEAREST)])

SAMPLE = (
    [(20, 0), (1204, 312)],
    [
        # The same play by three methods: 20 notes at 705 of 1,220 points.
        query(0, FAST, acc=705 / 1220),
        query(0, CLOSEST, acc=705 / 1220),
        query(0, NEAREST, acc=705 / 1220),
        # Without an accuracy: the best and the worst that two misses and three 100s leave.
        query(0, IGNORE_ACCURACY, n100=3, misses=2),
        query(0, IGNORE_ACCURACY, WORST_CASE, n100=3, misses=2),
        # A longer chart, at 97.53 % with 12 misses, and the same play left after 800 objects.
        query(1, NEAREST, n50=4, misses=12, acc=0.9753),
        query(1, NEAREST, n50=4, misses=12, acc=0.9753, passed=800),
        query(1, CLOSEST, classic=True, misses=12, acc=0.9753),
        # Stopped rows: 14, as more is given than was hit, and 6, as there is no third chart.
        query(0, NEAREST, n300=21, acc=0.9),
        query(2, FAST, acc=0.9),
        # The play that was left after 800 objects once more, with the 207 hold notes that it reached.
        query(1, NEAREST, n50=4, misses=12, acc=0.9753, passed=800, holds=207),
    ],
)

if __name__ == "__main__":
    arguments = sys.argv[1:]
    try:
        if arguments[:1] == ["--weights"]:
            made = sheet(*SAMPLE, weights=map(int, arguments[1:]))
        else:
            made = sheet(*{(): SAMPLE, ("--example",): EXAMPLE}[tuple(arguments)])
    except (KeyError, ValueError, struct.error):
        sys.exit("usage: make_sheet.py [--example | --weights W320 W300 W200 W100 W50]")
    sys.stdout.buffer.write(made)
