#!/bin/sh
# Builds a small program over the crate of suites, and prints how long long suites take to be read and written, and the
# most memory that it held. Run by hand in the repository's top folder; it works in a folder of its own, and isn't part
# of the gate. Where the crates were checked before, what is kept of that is used.
top=$(pwd)
work=$(mktemp -d)
trap 'rm -rf "$work"' EXIT
mkdir -p "$work/crates/suite_speed/src"
for crate in cov_base op_network suite_file; do
    cp -r "$top/crates/$crate" "$work/crates/$crate"
    grep "^$crate:" "$top/crates.txt" >>"$work/crates.txt"
done
echo "suite_speed: suite_file op_network cov_base" >>"$work/crates.txt"
cp "$top/tools/suite_speed/main.rt.txt" "$work/crates/suite_speed/src/main.rt"
cd "$work/crates/suite_speed" || exit 1
python3 "$top/tools/long_suites.py" wide.csv many.csv long.csv
printf 'test,x0\na,1\n' >suite.csv
echo 1 >inputs
rt run >build.log 2>&1 || { tail -5 build.log; exit 1; }
for suite in wide many long; do
    cp "$suite.csv" suite.csv
    case $suite in wide) echo 8192 >inputs ;; *) echo 1 >inputs ;; esac
    echo "$suite"
    for turn in 1 2 3; do
        /usr/bin/time -f '%M kilobytes' out/suite_speed
    done
done
