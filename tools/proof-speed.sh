#!/bin/sh
# Builds a small program over the crates of formulas and proofs, and prints how long a formula and a proof of 100,000
# steps with ten hints each take to be read and checked, and the most memory that it held. Run by hand in the
# repository's top folder; it works in a folder of its own, and isn't part of the gate. Where the crates were checked
# before, what is kept of that is used.
top=$(pwd)
work=$(mktemp -d)
trap 'rm -rf "$work"' EXIT
mkdir -p "$work/crates/proof_speed/src"
for crate in cov_base cnf_form proof_check; do
    cp -r "$top/crates/$crate" "$work/crates/$crate"
    grep "^$crate:" "$top/crates.txt" >>"$work/crates.txt"
done
echo "proof_speed: proof_check cnf_form cov_base" >>"$work/crates.txt"
cp "$top/tools/proof_speed/main.rt.txt" "$work/crates/proof_speed/src/main.rt"
cd "$work/crates/proof_speed" || exit 1
python3 "$top/tools/long_proofs.py" formula.cnf proof.lrat 4
rt run >build.log 2>&1 || { tail -5 build.log; exit 1; }
python3 "$top/tools/long_proofs.py" formula.cnf proof.lrat
for turn in 1 2 3; do
    /usr/bin/time -f '%M kilobytes' out/proof_speed
done
