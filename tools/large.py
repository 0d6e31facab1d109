#!/usr/bin/env python3
"""Writes a program of 8,000 edges with a suite, and the example with a suite of one mebibyte.

usage: large.py BIG.lus BIG.csv EDGE.lus MEBIBYTE.csv [INSTANTS]
"""
import sys

LOCALS = 16
OPERATORS = 498


def big_source():
    """An input, 16 locals of 498 edges each, and an output of 31 edges: 8,000 edges."""
    names = [f"v{i}" for i in range(LOCALS)]
    equations = []
    before = "x"
    for name in names:
        equations.append(f"{name} = {before}" + " and x" * OPERATORS + ";")
        before = name
    equations.append(f"y = {before}" + " and x" * 31 + ";")
    return f"node n(x: bool) returns (y: bool); var {', '.join(names)}: bool; let {' '.join(equations)} tel\n"


def write(name, text):
    with open(name, "w", encoding="ascii") as file:
        file.write(text)


def main():
    big_lus, big_csv, edge_lus, mebibyte_csv = sys.argv[1:5]
    instants = int(sys.argv[5]) if len(sys.argv) > 5 else 1000
    write(big_lus, big_source())
    write(big_csv, "test,x\n" + "".join(f"t,{int(k % 3 != 0)}\n" for k in range(instants)))
    write(edge_lus, "node edge(x: bool) returns (y: bool); let y = false -> x and not pre x; tel\n")
    header = "test,x\n"
    write(mebibyte_csv, header + "a,1\n" * ((1048576 - len(header)) // 4))


main()
