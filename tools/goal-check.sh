#!/bin/sh
# Builds a small program over the crates of goals, which writes the goal of each obligation of the alarm controller
# within four instants, over the paths of at most four edges, and says of each whether the solver finds a test or
# refutes that there is one; and asks minisat of each of these formulas too. Run by hand in the repository's top folder;
# it works in a folder of its own, proves nothing, and isn't part of the gate.
top=$(pwd)
command -v minisat >/dev/null || { echo "skipped: minisat is missing"; exit 0; }
work=$(mktemp -d)
trap 'rm -rf "$work"' EXIT
mkdir -p "$work/crates/goal_formulas/src" "$work/goals"
below='cov_base lus_syntax op_network lus_types node_expand lus_causality dep_paths cnf_form proof_check sat_choose
    sat_core bit_blast unroll_cnf goal_cnf'
for crate in $below; do
    mkdir "$work/crates/$crate"
    (cd "$top/crates/$crate" && tar cf - --exclude=out .) | tar xf - -C "$work/crates/$crate"
    grep "^$crate:" "$top/crates.txt" >>"$work/crates.txt"
done
echo "goal_formulas:" $below >>"$work/crates.txt"
cp "$top/tools/goal_formulas/main.rt.txt" "$work/crates/goal_formulas/src/main.rt"
cd "$work/crates/goal_formulas" || exit 1
rt try --seconds 1800 --data alarm.lus="$top/crates/lustrocov/data/alarm.lus" -- "$work/goals/" \
    >"$work/answers" 2>"$work/log" || { tail -5 "$work/log"; exit 1; }
cd "$work/goals" || exit 1
all=0
found=0
refuted=0
wrong=0
while read -r number answer; do
    minisat -verb=0 "$number.cnf" >/dev/null 2>&1
    case $?-$answer in
        10-found) found=$((found + 1)) ;;
        20-refuted) refuted=$((refuted + 1)) ;;
        *)
            echo "$number: $answer, but minisat says otherwise or nothing"
            wrong=1
            ;;
    esac
    all=$((all + 1))
done <"$work/answers"
written=$(ls | wc -l)
[ "$all" -gt 0 ] && [ "$all" -eq "$written" ] || { echo "$written formulas, but $all answers"; wrong=1; }
echo "$all formulas: $found found and $refuted refuted by both solvers"
exit "$wrong"
