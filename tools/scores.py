#!/usr/bin/env python3
"""Writes a plain program and a suite for measuring `score`.

usage: scores.py SOURCE SUITE CONJUNCTIONS TESTS INSTANTS

The program has so many conjunctions, each of the one before with itself, so the paths double with each:
`v1 = x and z`, `v2 = v1 and v1` and so on. In the suite x is 1 and z is 0, so no path that begins at x is
ever activated, and each is asked at each instant. There are so many tests of so many instants each.
"""
import sys


def source_of(conjunctions):
    names = [f"v{k}" for k in range(1, conjunctions)] + ["y"]
    equations = [f"{names[0]} = x and z;"]
    equations += [f"{name} = {before} and {before};" for before, name in zip(names, names[1:])]
    local = f"var {', '.join(names[:-1])}: bool; " if names[:-1] else ""
    return f"node n(x, z: bool) returns (y: bool); {local}let {' '.join(equations)} tel\n"


def main():
    source, suite = sys.argv[1:3]
    conjunctions, tests, instants = (int(word) for word in sys.argv[3:6])
    with open(source, "w", encoding="ascii") as file:
        file.write(source_of(conjunctions))
    with open(suite, "w", encoding="ascii") as file:
        file.write("test,x,z\n" + "".join(f"t{k},1,0\n" * instants for k in range(tests)))


main()
