#!/bin/sh
# Builds two small programs over the crates of formulas, gates and proofs, and compares what they write and accept with
# solvers of other makers and with plain readings of the rules, as tools/outside.py says. Of minisat, cadical, picosat
# and cryptominisat5 those are asked that are installed. Run by hand in the repository's top folder; it works in a folder
# of its own, and isn't part of the gate. Where the crates were checked before, what is kept of that is used.
top=$(pwd)
command -v python3 >/dev/null || { echo "skipped: python3 is missing"; exit 0; }
work=$(mktemp -d)
trap 'rm -rf "$work"' EXIT
mkdir -p "$work/crates/outside_formulas/src" "$work/crates/outside_formulas/proofs/require_lit" \
    "$work/crates/proof_speed/src"
for crate in cov_base cnf_form proof_check bit_blast; do
    cp -r "$top/crates/$crate" "$work/crates/$crate"
    grep "^$crate:" "$top/crates.txt" >>"$work/crates.txt"
done
echo "outside_formulas: bit_blast cnf_form cov_base" >>"$work/crates.txt"
echo "proof_speed: proof_check cnf_form cov_base" >>"$work/crates.txt"
cp "$top/tools/outside_formulas/main.rt.txt" "$work/crates/outside_formulas/src/main.rt"
cp "$top/tools/outside_formulas/require_lit.antt.txt" "$work/crates/outside_formulas/proofs/require_lit/Answers.antt"
cp "$top/tools/proof_speed/main.rt.txt" "$work/crates/proof_speed/src/main.rt"
cd "$work/crates/outside_formulas" || exit 1
echo 'add 4 3 ? 5' >task
rt run >build.log 2>&1 || { tail -5 build.log; exit 1; }
cd "$work/crates/proof_speed" || exit 1
printf 'p cnf 0 1\n0\n' >formula.cnf
echo '2 0 1 0' >proof.lrat
rt run >build.log 2>&1 || { tail -5 build.log; exit 1; }
mkdir "$work/run"
cd "$work/run" || exit 1
python3 "$top/tools/outside.py" "$work/crates/outside_formulas/out/outside_formulas" \
    "$work/crates/proof_speed/out/proof_speed"
