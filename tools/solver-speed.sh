#!/bin/sh
# Builds a small program over the crates of the solver, and prints how long formulas take to be solved and proofs to be
# checked, as tools/solver_answers.py says, and whether solvers of other makers answer the same (of minisat, cadical,
# picosat and cryptominisat5 those that are installed). Run by hand in the repository's top folder; it works in a folder
# of its own, and isn't part of the gate. The program is proved first, since only then is it built with optimisation;
# where the crates were checked before, what is kept of that is used.
top=$(pwd)
work=$(mktemp -d)
trap 'rm -rf "$work"' EXIT
mkdir -p "$work/crates/solver_speed/src"
for crate in cov_base cnf_form proof_check sat_choose sat_core; do
    mkdir "$work/crates/$crate"
    (cd "$top/crates/$crate" && tar cf - --exclude=out .) | tar xf - -C "$work/crates/$crate"
    grep "^$crate:" "$top/crates.txt" >>"$work/crates.txt"
done
echo "solver_speed: sat_core proof_check cnf_form cov_base" >>"$work/crates.txt"
cp "$top/tools/solver_speed/main.rt.txt" "$work/crates/solver_speed/src/main.rt"
cd "$work/crates/solver_speed" || exit 1
python3 "$top/tools/long_formulas.py" . || exit 1
for turn in 1 2 3; do
    for file in *.cnf; do
        case $file in random-*) echo "$file 100" ;; esac
        echo "$file 20000"
    done
done >tasks
rt run >build.log 2>&1 || { tail -5 build.log; exit 1; }
for turn in 1 2 3; do
    out/solver_speed >>lines || exit 1
done
python3 "$top/tools/solver_answers.py" lines
