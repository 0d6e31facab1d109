#!/bin/sh
# Runs the built program on real files, and compares what it prints and how it ends with what the definitions say. Run
# by hand in the repository's top folder, behind `rt ci`, which builds the program; it isn't part of the gate.
cd crates/lustrocov || exit 1
[ -x out/lustrocov ] || rt run -- run data/e.lus data/a.csv >/dev/null 2>&1 || exit 1
program=$(pwd)/out/lustrocov
data=$(pwd)/data
work=$(mktemp -d)
trap 'rm -rf "$work"' EXIT
cp "$data"/* "$work" && cd "$work" && mkdir folder && printf 'node' >cut.lus && printf 'test,x\na,2\n' >bad.csv || exit 1
printf 'p cnf 2 4\n1 2 0\n1 -2 0\n-1 2 0\n-1 -2 0\n' >q.cnf && printf '5 1 0 1 2 0\n6 0 5 3 4 0\n' >q.lrat || exit 1
printf '5 1 0 1 2 0\n6 0 5 3\n' >cut.lrat && printf '5 1 0 1 2 0\n6 0 3 5 4 0\n' >turned.lrat || exit 1
wrong=0

# expect STATUS TEXT WORDS..
expect() {
    status=$1
    text=$2
    shift 2
    found=$("$program" "$@")
    ended=$?
    if [ "$ended" -ne "$status" ] || [ "$found" != "$text" ]; then
        echo "lustrocov $*: ended with $ended and printed:"
        echo "$found"
        wrong=1
    fi
}

expect 0 "$(printf 'test a\nx 0 1 1\ny 0 1 0')" run e.lus a.csv
m='missing %d %s x > y#2:0 > y:1 at %d false\n'
expect 0 "$(printf 'test a 3 3\nBC 2/2 100.0%%\nECC 3/4 75.0%%\nMCC 13/16 81.2%%\nOMCDC 5/6 83.3%%\n'
    printf "$m" 4 ECC 0 8 MCC 0 10 MCC 1 12 MCC 2
    echo 'missing 24 OMCDC y#2:0 false')" score e.lus a.csv --length 5
expect 0 "$(printf 'test a 3 3\nBC 1/1 100.0%%\nECC 1/2 50.0%%\nMCC 3/6 50.0%%\nOMCDC 5/6 83.3%%\n'
    printf "$m" 3 ECC 0 5 MCC 0 7 MCC 1 9 MCC 2
    echo 'missing 11 OMCDC y#2:0 false')" score --length=3 e.lus a.csv
c='missing %d OMCDC %s %s\n'
expect 0 "$(printf 'test day 6 6\nBC 3/3 100.0%%\nECC 6/6 100.0%%\nMCC 10/10 100.0%%\nOMCDC 18/26 69.2%%\n'
    printf "$c" 23 hit/rise#1.y#2:0 false 24 hit/rise#1.y#3:0 true 26 hit/rise#1.y#4:0 true 31 n#1:1 false \
        32 n/count#1.n:0 true 35 n/count#1.n#3:1 false 39 m#3:0 false 41 m#3:1 false)" score alarm.lus day.csv --length 4 --main alarm --width 32
json='{"missing":[4,8,10,12,24],"scores":[{"covered":2,"criterion":"BC","total":2}'
json="$json"',{"covered":3,"criterion":"ECC","total":4},{"covered":13,"criterion":"MCC","total":16}'
json="$json"',{"covered":5,"criterion":"OMCDC","total":6}],"tests":[{"instants":3,"kept":3,"name":"a"}]}'
expect 0 "$json" score e.lus a.csv --json --length 5
expect 1 'lustrocov: usage'
expect 1 'lustrocov: usage' score e.lus a.csv --length 65
expect 2 'lustrocov: no file none.csv' run e.lus none.csv
expect 3 'lustrocov: cannot read folder' run folder a.csv
expect 4 'lustrocov: syntax at byte 4' run cut.lus a.csv
expect 4 'lustrocov: literal out of range at byte 54' run alarm.lus day.csv --width 2 --main rise
expect 6 'lustrocov: suite record 1: bad value' score e.lus bad.csv
expect 0 'accepted' verify q.cnf q.lrat
expect 2 'lustrocov: no file none.lrat' verify q.cnf none.lrat
expect 6 'lustrocov: proof line 2: no zero' verify q.cnf cut.lrat
expect 7 'lustrocov: proof refused at step 2: not unit' verify q.cnf turned.lrat
[ "$wrong" -eq 0 ] && echo "all as they should be"
exit "$wrong"
