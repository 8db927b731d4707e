#!/usr/bin/env bash
# Runs checkrules on an accepted, a refused, a missing and an unreadable rule file, and compares output and status.
# The program has to be built: ./checkrules.sh examples-data/hut does that.
set -u
top=$(cd "$(dirname "$0")/.." && pwd)
program=$top/crates/checkrules/out/checkrules
work=$(mktemp -d)
trap 'rm -rf "$work"' EXIT
wrong=0

# try NAME STATUS STDOUT: runs in the folder NAME
try() {
    out=$(cd "$work/$1" && "$program" 2>"$work/stderr"; echo "status $?")
    if [ "$out" != "$3status $2" ]; then
        echo "$1: got: $out"
        wrong=1
    fi
    if [ "$1" = unreadable ] && ! grep -q 'cannot read rules.txt' "$work/stderr"; then
        echo "$1: no message"
        wrong=1
    fi
    # an answer goes to standard output alone, a refusal too
    if [ "$1" != unreadable ] && [ -s "$work/stderr" ]; then
        echo "$1: on standard error: $(cat "$work/stderr")"
        wrong=1
    fi
}

mkdir -p "$work/accepted" "$work/refused" "$work/missing" "$work/unreadable/rules.txt"
cp "$top/examples-data/hut/rules.txt" "$work/accepted/"
cp "$top/examples-data/ringed/rules.txt" "$work/refused/"
try accepted 0 $'rules,labels,groups\n2,4,2\n'
try refused 1 $'refused,file,line,column\n6,1,4,0\n'
try missing 1 $'refused,file,line,column\n1,1,1,0\n'
try unreadable 1 ''
[ "$wrong" = 0 ] && echo "as they should be: accepted, refused, missing, unreadable"
exit "$wrong"
