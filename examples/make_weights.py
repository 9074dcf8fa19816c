#!/usr/bin/env python3
"""Writes ten weights as the 40 bytes that the program `strides` reads: two sets, each from n320 to n50.

    python3 examples/make_weights.py 61 60 40 20 10 60 60 40 20 10 | target/bin/strides
"""

import struct
import sys

try:
    weights = struct.pack("<10I", *map(int, sys.argv[1:]))
except (ValueError, struct.error):
    sys.exit("make_weights.py: ten whole numbers are needed, each below 2^32")
sys.stdout.buffer.write(weights)
