#!/usr/bin/env python3
"""Writes an odd cycle as a formula, and a long proof that no assignment satisfies it.

usage: long_proofs.py FORMULA.cnf PROOF.lrat [STEPS]

Of the variables around the cycle each equals the next one, and the last differs from the first. Each of the steps, of
which there are 100,000 where no number is given, follows nine equalities on from a step before it, or the first ten of
all, and so has ten hints. Two short steps end the proof.
"""
import sys

PACE = 9


def formula(variables, name):
    """The clauses: of each two neighbours that each implies the other, and at the end that the last isn't the first."""
    for i in range(variables - 1):
        yield f"-{name(i)} {name(i + 1)} 0\n{name(i)} -{name(i + 1)} 0\n"
    first, last = name(0), name(variables - 1)
    yield f"{first} {last} 0\n-{first} -{last} 0\n"


def proof(half, clauses, name):
    """The steps, by turns that the first variable implies one further on, and that this one implies the first."""
    step = clauses
    for k in range(1, half + 1):
        end = PACE * k + 1
        pairs = range(0 if k == 1 else end - PACE, end)
        for sign, other, place in (("-", "", 1), ("", "-", 2)):
            step += 1
            before = [] if k == 1 else [step - 2]
            hints = " ".join(str(hint) for hint in before + [2 * i + place for i in pairs])
            yield f"{step} {sign}{name(0)} {other}{name(end)} 0 {hints} 0\n"
    yield f"{step + 1} -{name(0)} 0 {step - 1} {clauses} 0\n"
    yield f"{step + 2} 0 {step + 1} {step} {clauses - 1} 0\n"


def main():
    steps = int(sys.argv[3]) if len(sys.argv) > 3 else 100_000
    half = steps // 2
    variables = PACE * half + 2
    stride = next(s for s in range(7919, 8000) if variables % s != 0 and all(s % d for d in range(2, 90)))
    clauses = 2 * variables
    name = lambda i: i * stride % variables + 1
    with open(sys.argv[1], "w", encoding="ascii") as file:
        file.write(f"p cnf {variables} {clauses}\n")
        file.writelines(formula(variables, name))
    with open(sys.argv[2], "w", encoding="ascii") as file:
        file.writelines(proof(half, clauses, name))


main()
