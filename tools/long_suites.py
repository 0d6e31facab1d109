#!/usr/bin/env python3
"""Writes long suites over truths x0, x1 and so on.

usage: long_suites.py WIDE.csv MANY.csv LONG.csv

WIDE: 8,192 inputs, one test of 1,000 instants. MANY: one input, 210,000 tests of 10 instants, the most tests there may
be. LONG: one input, 7,000 tests of 1,000 instants, 105 megabytes.
"""
import sys


def write(path, inputs, tests, instants, name):
    """Each instant of test t has the values of one row, which changes from instant to instant."""
    rows = [",".join("01"[(i * 5 + k) % 7 % 2] for i in range(inputs)) for k in range(7)]
    with open(path, "w", encoding="ascii") as file:
        file.write("test," + ",".join(f"x{i}" for i in range(inputs)) + "\n")
        for test in range(tests):
            prefix = name.format(test)
            file.write("".join(f"{prefix},{rows[k % 7]}\n" for k in range(instants)))


def main():
    write(sys.argv[1], 8192, 1, 1000, "wide")
    write(sys.argv[2], 1, 210_000, 10, "t{:06}")
    write(sys.argv[3], 1, 7_000, 1000, "long_{:07}")


main()
