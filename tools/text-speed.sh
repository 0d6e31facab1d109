#!/bin/sh
# Builds a small program over the crates of the text and the types, and prints how long long sources take. Run by
# hand in the repository's top folder; it works in a folder of its own, and isn't part of the gate. Where the crates
# were checked before, what is kept of that is used.
top=$(pwd)
work=$(mktemp -d)
trap 'rm -rf "$work"' EXIT
mkdir -p "$work/crates/text_speed/src"
for crate in cov_base lus_syntax op_network lus_types; do
    cp -r "$top/crates/$crate" "$work/crates/$crate"
    grep "^$crate:" "$top/crates.txt" >>"$work/crates.txt"
done
echo "text_speed: lus_types lus_syntax cov_base" >>"$work/crates.txt"
cp "$top/tools/text_speed/main.rt.txt" "$work/crates/text_speed/src/main.rt"
cd "$work/crates/text_speed" || exit 1
python3 "$top/tools/long_sources.py" declarations.lus constants.lus equations.lus variables.lus enumerators.lus \
    recursion.lus
cp declarations.lus source.lus
rt run >build.log 2>&1 || { tail -5 build.log; exit 1; }
for source in declarations constants equations variables enumerators recursion; do
    cp "$source.lus" source.lus
    echo "$source"
    for turn in 1 2 3; do
        out/text_speed
    done
done
