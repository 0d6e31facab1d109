#!/usr/bin/env python3
"""Writes formulas for a solver, each into a file of its own.

usage: long_formulas.py FOLDER

`pigeons-N`: each of N + 1 pigeons has a hole of N, and no two the same. `random-S`: 50 variables and 218 clauses of
three different variables each, from the generator below with the seed S. `idle-N`: six pigeons and five holes behind N
copies of a clause over two further variables, which plays no part. `chain-N`: the first of N variables is true, each
implies the next one, and the clauses stand with the last implication first.
"""
import os
import sys

SEEDS = 20
VARIABLES, CLAUSES = 50, 218


def pigeons(holes):
    """The clauses, and the number of variables."""
    place = lambda pigeon, hole: pigeon * holes + hole + 1
    clauses = [[place(p, h) for h in range(holes)] for p in range(holes + 1)]
    clauses += [[-place(q, h), -place(p, h)] for h in range(holes) for p in range(holes + 1) for q in range(p)]
    return clauses, (holes + 1) * holes


class Generator:
    """Numbers of 31 bits, each from the one before it."""

    def __init__(self, seed):
        self.state = seed

    def below(self, bound):
        self.state = (self.state * 1_103_515_245 + 12_345) % 2**31
        return (self.state >> 8) % bound


def random_clauses(seed):
    """Clauses of three different variables each, with signs."""
    generator = Generator(seed)
    clauses = []
    for _ in range(CLAUSES):
        clause = []
        while len(clause) < 3:
            var = generator.below(VARIABLES) + 1
            if all(abs(lit) != var for lit in clause):
                clause.append(var if generator.below(2) else -var)
        clauses.append(clause)
    return clauses, VARIABLES


def idle(count):
    """Six pigeons and five holes behind copies of a clause over two further variables."""
    clauses, variables = pigeons(5)
    return [[-variables - 1, -variables - 2]] * count + clauses, variables + 2


def chain(count):
    """Each variable implies the next one, the last implication first; the first variable is true."""
    return [[-i, i + 1] for i in range(count - 1, 0, -1)] + [[1]], count


def write(name, made):
    clauses, variables = made
    with open(os.path.join(sys.argv[1], name + ".cnf"), "w", encoding="ascii") as file:
        file.write(f"p cnf {variables} {len(clauses)}\n")
        file.writelines(" ".join(map(str, clause)) + " 0\n" for clause in clauses)


def main():
    for holes in (3, 4, 5):
        write(f"pigeons-{holes}", pigeons(holes))
    for seed in range(1, SEEDS + 1):
        write(f"random-{seed:02}", random_clauses(seed))
    for count in (1_000, 10_000, 100_000):
        write(f"idle-{count}", idle(count))
    for count in (500, 1_000, 2_000, 4_000):
        write(f"chain-{count}", chain(count))


main()
