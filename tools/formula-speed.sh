#!/bin/sh
# Builds a small program over the crates of gates and formulas, and prints how long a formula of 2,000,000 variables and
# 7,000,000 clauses takes to be made, written and read again, and the most memory that it held. Run by hand in the
# repository's top folder; it works in a folder of its own, and isn't part of the gate. Where the crates were checked
# before, what is kept of that is used.
top=$(pwd)
work=$(mktemp -d)
trap 'rm -rf "$work"' EXIT
mkdir -p "$work/crates/formula_speed/src"
for crate in cov_base cnf_form bit_blast; do
    cp -r "$top/crates/$crate" "$work/crates/$crate"
    grep "^$crate:" "$top/crates.txt" >>"$work/crates.txt"
done
echo "formula_speed: bit_blast cnf_form cov_base" >>"$work/crates.txt"
cp "$top/tools/formula_speed/main.rt.txt" "$work/crates/formula_speed/src/main.rt"
cd "$work/crates/formula_speed" || exit 1
rt run >build.log 2>&1 || { tail -5 build.log; exit 1; }
for turn in 1 2 3; do
    /usr/bin/time -f '%M kilobytes' out/formula_speed
done
