#!/usr/bin/env python3
"""Compares formulas and proofs with solvers of other makers.

usage: outside.py FORMULAS PROOFS

FORMULAS is the program of tools/outside_formulas, PROOFS that of tools/proof_speed; both work where they run. Each
solver that is installed solves formulas made of gates: whether there is a model is compared with what plain arithmetic
says of all numbers, and the numbers in a model with plain arithmetic. Proofs of the solvers and of a search of this
script's own have to be accepted, and copies with one hint changed to be refused, at the step and for the reason that a
plain reading of the rules tells.
"""
import random
import re
import shutil
import subprocess
import sys

# operator, bits, first word, second word, answer; `?` is free
TASKS = [
    ("add", 8, "200", "100", "?"), ("add", 8, "?", "77", "5"), ("add", 6, "63", "1", "1"), ("add", 5, "?", "?", "31"),
    ("subtract", 8, "3", "200", "?"), ("subtract", 6, "?", "9", "60"), ("subtract", 6, "9", "9", "1"),
    ("multiply", 6, "?", "7", "1"), ("multiply", 6, "?", "2", "1"), ("multiply", 5, "?", "?", "29"),
    ("multiply", 7, "?", "6", "65"), ("multiply", 6, "13", "11", "?"), ("multiply", 6, "13", "11", "14"),
    ("negate", 8, "?", "0", "128"), ("negate", 8, "1", "0", "1"), ("choose", 6, "?", "20", "20"),
    ("choose", 6, "?", "21", "22"), ("choose", 4, "3", "?", "5"), ("equal", 8, "?", "91", "1"),
    ("equal", 8, "91", "91", "0"), ("less", 8, "?", "129", "1"), ("less", 8, "?", "128", "1"),
    ("less", 6, "32", "?", "0"), ("less", 6, "31", "?", "1"), ("and", 1, "?", "0", "1"), ("or", 1, "?", "?", "0"),
    ("xor", 1, "?", "1", "1"), ("xor", 2, "?", "3", "0"),
]


def signed(number, bits):
    return number - (1 << bits) if number >> (bits - 1) else number


def plain(operator, bits, a, b):
    """The answer in plain arithmetic."""
    whole = 1 << bits
    return {
        "add": lambda: (a + b) % whole, "subtract": lambda: (a - b) % whole, "multiply": lambda: a * b % whole,
        "negate": lambda: -a % whole, "choose": lambda: a if a % 2 else b, "equal": lambda: int(a == b),
        "less": lambda: int(signed(a, bits) < signed(b, bits)), "and": lambda: a & b & 1,
        "or": lambda: (a | b) & 1, "xor": lambda: (a ^ b) & 1,
    }[operator]()


def values(word, bits):
    return range(1 << bits) if word == "?" else [int(word)]


def has_model(operator, bits, first, second, answer):
    wanted = (plain(operator, bits, a, b) for a in values(first, bits) for b in values(second, bits))
    return any(answer in ("?", str(value)) for value in wanted)


def number(literals, model):
    """The number whose bits are these literals, least first."""
    return sum(1 << i for i, lit in enumerate(literals) if lit in model)


def agrees(task, literals, model):
    """Whether a model's numbers are those that were given, and its answer is that of plain arithmetic."""
    operator, bits, first, second, answer = task
    a = number(range(2, 2 + bits), model)
    b = number(range(2 + bits, 2 + 2 * bits), model)
    value = number(literals, model)
    given = all(word in ("?", str(n)) for word, n in ((first, a), (second, b), (answer, value)))
    return given and value == plain(operator, bits, a, b)


# ---- solvers


def solve(solver):
    """The model of formula.cnf that a solver tells, as a set of literals, or None where it says that there is none."""
    words = [solver, "formula.cnf"] + (["model"] if solver == "minisat" else [])
    run = subprocess.run(words, capture_output=True, text=True, check=False)
    assert run.returncode in (10, 20), (solver, run.returncode)
    if run.returncode == 20:
        return None
    if solver == "minisat":
        with open("model", encoding="ascii") as file:
            text = file.read().removeprefix("SAT")
    else:
        text = " ".join(line[1:] for line in run.stdout.splitlines() if line.startswith("v"))
    return {int(word) for word in text.split()}


def compare(program, solvers, task):
    """Solves a task's formula by each solver, and answers its text where it has no model."""
    with open("task", "w", encoding="ascii") as file:
        file.write(" ".join(map(str, task)))
    literals = subprocess.run([program], capture_output=True, text=True, check=True).stdout.split()
    for solver in solvers:
        model = solve(solver)
        assert (model is not None) == has_model(*task), (solver, task)
        assert model is None or agrees(task, list(map(int, literals)), model), (solver, task)
    with open("formula.cnf", encoding="ascii") as file:
        return None if has_model(*task) else file.read()


# ---- formulas without models


def pigeonhole(holes):
    """Each of one pigeon more than there are holes has a hole, and no two the same."""
    place = lambda pigeon, hole: pigeon * holes + hole + 1
    yield from ([place(p, h) for h in range(holes)] for p in range(holes + 1))
    yield from ([-place(p, h), -place(q, h)] for h in range(holes) for p in range(holes + 1) for q in range(p))


def parity(count):
    """Around each of `count` corners, all joined, the edges are even in number; but at the first they are odd."""
    edges = [(i, j) for j in range(count) for i in range(j)]
    for corner in range(count):
        near = [k + 1 for k, edge in enumerate(edges) if corner in edge]
        for bits in range(1 << len(near)):
            if bin(bits).count("1") % 2 == (corner != 0):
                yield [-x if bits >> i & 1 else x for i, x in enumerate(near)]


def text_of(clauses):
    most = max(abs(lit) for clause in clauses for lit in clause)
    return f"p cnf {most} {len(clauses)}\n" + "".join(" ".join(map(str, c + [0])) + "\n" for c in clauses)


def clauses_of(text):
    return [list(map(int, line.split()[:-1])) for line in text.splitlines()[1:]]


# ---- proofs: lists of (id, literals, hints), or (None, ids, None) where clauses are taken out


class Clauses:
    """Clauses by their ids, and those in which a literal stands."""

    def __init__(self, clauses):
        self.by_id, self.places = {}, {}
        for i, clause in enumerate(clauses):
            self.add(i + 1, clause)

    def add(self, name, clause):
        self.by_id[name] = clause
        for lit in clause:
            self.places.setdefault(lit, []).append(name)

    def look(self, name, true, trail):
        """Whether all literals of a clause are false; where one alone isn't and is open, it becomes true."""
        opened = [lit for lit in self.by_id[name] if -lit not in true]
        if len(opened) == 1 and opened[0] not in true:
            true[opened[0]] = name
            trail.append(opened[0])
        return not opened

    def propagate(self, decisions):
        """What follows from decisions: the reasons, the literals in order, and a clause that is false, if any."""
        true, trail = {lit: 0 for lit in decisions}, list(decisions)
        for name in self.by_id:
            if self.look(name, true, trail):
                return true, trail, name
        at = 0
        while at < len(trail):
            for name in self.places.get(-trail[at], ()):
                if name in self.by_id and self.look(name, true, trail):
                    return true, trail, name
            at += 1
        return true, trail, None

    def hints(self, clause):
        """The clauses, in order, from which a clause follows by propagation."""
        true, trail, last = self.propagate([-lit for lit in clause])
        assert last is not None, clause
        used, found = {-lit for lit in self.by_id[last]}, [last]
        for lit in reversed(trail):
            if lit in used and true[lit]:
                found.append(true[lit])
                used.update(-other for other in self.by_id[true[lit]] if other != lit)
        return found[::-1]


def drat(solver, clauses):
    """The proof of a cadical that writes none in LRAT: the hints are found here, and what it takes out stays."""
    words = [solver, "-q", "--no-binary", "formula.cnf", "proof.drat"]
    assert subprocess.run(words, capture_output=True, check=False).returncode == 20
    known, steps = Clauses(clauses), []
    with open("proof.drat", encoding="ascii") as file:
        lines = [line.split() for line in file if not line.startswith("d")]
    for name, literals in enumerate(lines, len(clauses) + 1):
        clause = list(map(int, literals[:-1]))
        steps.append((name, clause, known.hints(clause)))
        known.add(name, clause)
    return steps


def lrat(solver, _clauses):
    """The proof in LRAT of a cadical that writes one."""
    words = [solver, "-q", "--lrat", "--no-binary", "formula.cnf", "proof.lrat"]
    assert subprocess.run(words, capture_output=True, check=False).returncode == 20
    steps = []
    for line in open("proof.lrat", encoding="ascii"):
        name, *rest = line.split()
        if rest[0] == "d":
            steps.append((None, list(map(int, rest[1:-1])), None))
            continue
        cut = rest.index("0")
        steps.append((int(name), list(map(int, rest[:cut])), list(map(int, rest[cut + 1:-1]))))
    return steps


def search(clauses):
    """The proof of a search that tries both values of a variable; what stood below a clause is taken out."""
    known, steps = Clauses(clauses), []
    next_id = len(clauses)

    def add(clause):
        nonlocal next_id
        next_id += 1
        steps.append((next_id, clause, known.hints(clause)))
        known.add(next_id, clause)
        return next_id

    def refute(decisions):
        true, _, last = known.propagate(decisions)
        if last is None:
            short = min((c for c in known.by_id.values() if not any(lit in true for lit in c)),
                        key=lambda c: sum(-lit not in true for lit in c))
            lit = next(lit for lit in short if -lit not in true)
            below = [refute(decisions + [lit]), refute(decisions + [-lit])]
            name = add([-d for d in decisions])
            steps.append((None, below, None))
            for old in below:
                del known.by_id[old]
            return name
        return add([-d for d in decisions])

    refute([])
    return steps


def written(steps):
    join = lambda numbers: "".join(f"{n} " for n in numbers)
    return "".join(f"1 d {join(c)}0\n" if name is None else f"{name} {join(c)}0 {join(hints)}0\n"
                   for name, c, hints in steps)


def fault_of(present, clause, hints):
    """Why an addition is refused, or None."""
    false = set(clause)
    for i, hint in enumerate(hints):
        if hint < 0:
            return "RatHint"
        if hint not in present:
            return "UnknownId"
        opened = [lit for lit in present[hint] if lit not in false]
        if i == len(hints) - 1:
            return "NotClosed" if opened else None
        if len(opened) != 1:
            return "NotUnit"
        if -opened[0] in false:
            return "Satisfied"
        false.add(-opened[0])
    return "NotClosed"


def judged(clauses, steps):
    """What the rules say of a proof."""
    present, last = {i + 1: c for i, c in enumerate(clauses)}, len(clauses)
    for at, (name, items, hints) in enumerate(steps, 1):
        if name is None:
            if any(present.pop(old, None) is None for old in items):
                return f"Refused {{ step: {at}, kind: UnknownId }}"
            continue
        kind = "OldId" if name <= last else fault_of(present, items, hints)
        if kind:
            return f"Refused {{ step: {at}, kind: {kind} }}"
        present[name], last = items, name
        if not items:
            return "accepted"
    return f"Refused {{ step: {len(steps) + 1}, kind: NoEmpty }}"


def spoiled(steps, rng):
    """Copies of a proof in each of which one hint is another, missing, negative, doubled or exchanged with the next."""
    places = [i for i, step in enumerate(steps) if step[2]]
    for change in (
        lambda h, k: h[:k] + [h[k] + 1000000] + h[k + 1:], lambda h, k: h[:k] + [1] + h[k + 1:], lambda h, k: h[:-1],
        lambda h, k: h[:k] + [-h[k]] + h[k + 1:], lambda h, k: h[:k + 1] + h[k:], lambda h, k: h[:k] + h[k + 1:],
    ):
        at = rng.choice(places)
        name, clause, hints = steps[at]
        yield steps[:at] + [(name, clause, change(hints, rng.randrange(len(hints))))] + steps[at + 1:]


def checked(program, steps):
    """What the checker says of formula.cnf and a proof."""
    with open("proof.lrat", "w", encoding="ascii") as file:
        file.write(written(steps))
    return subprocess.run([program], capture_output=True, text=True, check=True).stdout.splitlines()[-1]


def check_proofs(program, makers, text, rng):
    """Checks the proofs of one formula, and answers how many were accepted and how many refused."""
    with open("formula.cnf", "w", encoding="ascii") as file:
        file.write(text)
    clauses, accepted, refused = clauses_of(text), 0, 0
    for maker in makers:
        steps = maker(clauses)
        assert judged(clauses, steps) == "accepted", maker
        assert checked(program, steps) == "accepted", maker
        accepted += 1
        for copy in spoiled(steps, rng):
            want = judged(clauses, copy)
            assert checked(program, copy) == want, (want, copy)
            refused += want != "accepted"
    return accepted, refused


def main():
    formulas, proofs = sys.argv[1:3]
    solvers = [s for s in ("minisat", "cadical", "picosat", "cryptominisat5") if shutil.which(s)]
    print("solvers:", " ".join(solvers) or "none is installed, so no formula is solved from outside")
    makers = [search]
    if "cadical" in solvers:
        text = subprocess.run(["cadical", "--help"], capture_output=True, text=True, check=False).stdout
        maker = lrat if re.search(r"^\s*--lrat", text, re.MULTILINE) else drat
        makers.append(lambda clauses: maker("cadical", clauses))
    without = [text for task in TASKS if (text := compare(formulas, solvers, task))]
    print(f"{len(TASKS)} formulas of gates, {len(without)} of them without a model: all as in plain arithmetic")
    without += [text_of(list(made)) for made in (pigeonhole(2), pigeonhole(3), pigeonhole(4), parity(4), parity(5))]
    rng = random.Random(1)
    counts = [check_proofs(proofs, makers, text, rng) for text in without]
    accepted, refused = map(sum, zip(*counts))
    print(f"{accepted} proofs accepted, {refused} of {6 * accepted} copies with a hint changed refused, as the rules say")


main()
