#!/usr/bin/env python3
"""Sums up what the program of tools/solver_speed printed, and compares its answers with solvers of other makers.

usage: solver_answers.py LINES

LINES has a line for each formula and budget, and where a task was done more than once, one for each time: the least
time is printed. The formulas lie where this runs. Each solver that is installed solves each formula that the program
found a model of or refuted, and has to answer the same.
"""
import re
import shutil
import subprocess
import sys

SOLVERS = ("minisat", "cadical", "picosat", "cryptominisat5")
UNITS = {"s": 1e3, "ms": 1, "µs": 1e-3, "ns": 1e-6}
TIME = re.compile(r"([0-9.]+)(ns|µs|ms|s)\b")


def milliseconds(words):
    return float(words[0]) * UNITS[words[1]]


def tasks_of(lines):
    """By formula and budget: the answer, its figures without times, and the times of each turn."""
    tasks = {}
    for line in lines:
        name, budget, text = line.rstrip("\n").split(" ", 2)
        assert "WRONG" not in text, line
        times = [milliseconds(found) for found in TIME.findall(text)]
        answer = text.split(",")[0]
        figures = ", ".join(part for part in text.split(", ")[1:] if not TIME.fullmatch(part))
        figures = TIME.sub("", figures).strip()
        old = tasks.setdefault((name, int(budget)), (answer, figures, []))
        assert old[:2] == (answer, figures), (old, line)
        old[2].append(times)
    return tasks


def show(name, budget, answer, figures, turns):
    solved = min(times[0] for times in turns)
    more = f" in {min(times[1] for times in turns):.2f} ms" if answer == "Refuted" else ""
    learnt = re.match(r"(\d+) learnt", figures)
    rate = f"; {int(learnt[1]) * 1000 / solved:.0f} learnt a second" if learnt and int(learnt[1]) else ""
    print(f"{name} {budget}: {answer} in {solved:.2f} ms; {figures}{more}{rate}")


def compare(solver, answers):
    for name, answer in answers.items():
        status = subprocess.run([solver, name], capture_output=True, check=False).returncode
        assert status == {"Found": 10, "Refuted": 20}[answer], (solver, name, answer, status)
    print(f"{solver}: the same answer to all {len(answers)} formulas")


def main():
    with open(sys.argv[1], encoding="utf-8") as file:
        tasks = tasks_of(line for line in file if ".cnf " in line)
    for (name, budget), (answer, figures, turns) in tasks.items():
        show(name, budget, answer, figures, turns)
    answers = {name: answer for (name, _), (answer, _, _) in tasks.items() if answer != "Spent"}
    solvers = [solver for solver in SOLVERS if shutil.which(solver)]
    for solver in solvers:
        compare(solver, answers)
    if not solvers:
        print("no other solver is installed, so no answer is compared")


main()
