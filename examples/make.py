#!/usr/bin/env python3
"""Writes skewed.log beside this file: 100,000 reads of at most 200 extents, a few of them read often.

The rule: x starts at 1 and before each read becomes (1664525 x + 1013904223) mod 4294967296.
With u the upper 16 bits of x, the read is of the extent 4096 i, where i is 200 u u u / 2^48, rounded down:
i lies from 0 to 199, and half of the reads have i below 25.
"""
import os

READS = 100_000
EXTENTS = 200


def extents():
    x = 1
    for _ in range(READS):
        x = (1664525 * x + 1013904223) % 4294967296
        u = x >> 16
        yield 4096 * (EXTENTS * u * u * u >> 48)


def text():
    rows = [" (read %d)" % extent for extent in extents()]
    return "\n".join(["(trace"] + rows) + ")\n"


def main():
    path = os.path.join(os.path.dirname(os.path.abspath(__file__)), "skewed.log")
    with open(path, "w", encoding="ascii", newline="\n") as log:
        log.write(text())


if __name__ == "__main__":
    main()
