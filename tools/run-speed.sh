#!/bin/sh
# Builds a small program over the crates of orders and runs, and prints how long orders, refusals and steps take. Run
# by hand in the repository's top folder; it works in a folder of its own, and isn't part of the gate. Where the
# crates were checked before, what is kept of that is used.
top=$(pwd)
work=$(mktemp -d)
mkdir -p "$work/crates/run_speed/src"
for crate in cov_base op_network lus_causality stream_run; do
    cp -r "$top/crates/$crate" "$work/crates/$crate"
    grep "^$crate:" "$top/crates.txt" >>"$work/crates.txt"
done
echo "run_speed: stream_run lus_causality op_network cov_base" >>"$work/crates.txt"
cp "$top/tools/run_speed/main.rt.txt" "$work/crates/run_speed/src/main.rt"
for function in run_steps stepped; do
    mkdir -p "$work/crates/run_speed/proofs/$function"
    cp "$top/tools/run_speed/$function.antt.txt" "$work/crates/run_speed/proofs/$function/Invariants.antt"
done
cd "$work/crates/run_speed" || exit 1
rt run --jobs 1 >build.log 2>&1 || { tail -5 build.log; exit 1; }
for turn in 1 2 3; do
    out/run_speed
done
rm -rf "$work"
