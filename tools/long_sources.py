#!/usr/bin/env python3
"""Writes six long sources: one mebibyte of short declarations (which the types refuse at the second, as a
duplicate), many constants that use each other, one node of many equations, one node of 100,000 variables with a use
each, 100,000 enumerators (global names) with a use each, and many nodes each of which calls itself and the next, the
dearest case of the search for recursion.

usage: long_sources.py DECLARATIONS.lus CONSTANTS.lus EQUATIONS.lus VARIABLES.lus ENUMERATORS.lus RECURSION.lus
"""
import itertools
import string
import sys

RESERVED = {"and", "div", "fby", "int", "let", "mod", "nor", "not", "pre", "tel", "var", "xor"}


def constants(count):
    """Short declarations, each but the first a use of the one before; and a node, so that there is a main."""
    names = [f"c{number:x}" for number in range(count)]
    lines = ["const c0=1;"]
    lines += [f"const {name}={before};" for before, name in zip(names, names[1:])]
    lines.append(f"node n()returns(y:int);let y={names[-1]};tel")
    return "".join(lines)


def equations(count):
    names = [f"v{number:x}" for number in range(count)]
    lines = [f"{name}={before};" for before, name in zip(["x"] + names, names)]
    return f"node n(x:bool)returns(y:bool);var {','.join(names)}:bool;let {''.join(lines)}y={names[-1]};tel"


def short_names(count):
    """Names of three letters."""
    letters = string.ascii_letters
    names = ("".join(name) for name in itertools.product(letters, letters, letters))
    return list(itertools.islice((name for name in names if name not in RESERVED), count))


def variables(count):
    """Variables of short names, each with the equation that it is `x`."""
    names = short_names(count)
    lines = "".join(f"{name}=x;" for name in names)
    return f"node n(x:bool)returns(y:bool);var {','.join(names)}:bool;let {lines}y=x;tel"


def enumerators(count):
    """Types of at most 256 enumerators of short names, and a node that asks of each two neighbours whether they are
    one, in assertions of few enough operators."""
    names = short_names(count)
    types = [names[start : start + 256] for start in range(0, count, 256)]
    lines = [f"type t{place:x}_=enum{{{','.join(choices)}}};" for place, choices in enumerate(types)]
    asked = [f"{one}={other}" for one, other in zip(names[::2], names[1::2])]
    asserts = [f"assert {'=>'.join(asked[start : start + 200])};" for start in range(0, len(asked), 200)]
    return f"{''.join(lines)}node n_(x:bool)returns(y:bool);let y=x;{''.join(asserts)}tel"


def recursion(count):
    """Nodes of which each but the last calls itself and the next."""
    lines = [f"node f{i:x}(x:bool)returns(y:bool);let y=f{i:x}(f{i + 1:x}(x));tel\n" for i in range(count - 1)]
    return "".join(lines) + f"node f{count - 1:x}(x:bool)returns(y:bool);let y=x;tel"


def write(name, text):
    with open(name, "w", encoding="ascii") as file:
        file.write(text)


def main():
    write(sys.argv[1], "const a=1;" * 104_857)
    write(sys.argv[2], constants(50_000))
    write(sys.argv[3], equations(50_000))
    write(sys.argv[4], variables(100_000))
    write(sys.argv[5], enumerators(100_000))
    write(sys.argv[6], recursion(16_000))


main()
