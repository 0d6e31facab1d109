#!/bin/sh
# Makes each allocation of the built program fail in turn, over the examples, and checks how it ends: with status 9 and
# nothing printed for each allocation, and behind the last one with status 0 and the whole text. A program that swallows
# a failure ends in status 0 too; so 20 numbers are tried behind the first such end, and a 9 among them is an error. Run
# by hand in the repository's top folder, behind `rt ci`, which builds the program; it isn't part of the gate. It wants
# gcc, for the small library that counts the allocations.
top=$(pwd)
cd crates/lustrocov || exit 1
[ -x out/lustrocov ] || rt run -- run data/e.lus data/a.csv >/dev/null 2>&1 || exit 1
program=$(pwd)/out/lustrocov
work=$(mktemp -d)
trap 'rm -rf "$work"' EXIT
gcc -shared -fPIC -O2 -o "$work/failing.so" "$top/tools/fail-alloc.c" || exit 1
cp data/* "$work" && cd "$work" || exit 1
printf 'p cnf 2 4\n1 2 0\n1 -2 0\n-1 2 0\n-1 -2 0\n' >q.cnf && printf '5 1 0 1 2 0\n6 0 5 3 4 0\n' >q.lrat || exit 1
beyond=20
wrong=0

# fails WORDS..
fails() {
    "$program" "$@" >whole || { echo "lustrocov $*: ends with $? though nothing fails"; wrong=1; return; }
    failed=0
    done=0
    n=0
    while [ "$done" -lt "$beyond" ]; do
        n=$((n + 1))
        FAIL_ALLOC=$n LD_PRELOAD="$work/failing.so" "$program" "$@" >found
        ended=$?
        if [ "$ended" -eq 9 ] && [ ! -s found ]; then
            failed=$((failed + 1))
            if [ "$done" -gt 0 ]; then
                echo "lustrocov $*: status 0 before allocation $n, which still fails"
                wrong=1
                done=0
            fi
        elif [ "$ended" -eq 0 ] && cmp -s whole found; then
            done=$((done + 1))
        else
            echo "lustrocov $*: status $ended at allocation $n"
            wrong=1
            return
        fi
    done
    [ "$failed" -gt 0 ] || { echo "lustrocov $*: no allocation failed"; wrong=1; }
    echo "lustrocov $*: each of the first $failed allocations ends in status 9 with nothing printed; there are no more"
}

fails run e.lus a.csv
fails score e.lus a.csv
fails score e.lus a.csv --json
fails run alarm.lus day.csv
fails score alarm.lus day.csv --length 4
fails verify q.cnf q.lrat
exit "$wrong"
