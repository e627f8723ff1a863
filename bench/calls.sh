#!/bin/sh
# Runs a script of 10,000 ISRTs of roots of rising keys and 10,000 GUs by key over the list of the sample database, prints how
# long it took, and fails where it took three seconds or more, or where a line wasn't answered. It wants the program built:
# `./demo` does it.
#
#     bench/calls.sh [COUNT]
set -eu
top=$(cd "$(dirname "$0")/.." && pwd)
haldb=$top/crates/haldb_cli/out/haldb_cli
count=${1:-10000}
work=$(mktemp -d)
trap 'rm -rf "$work"' EXIT
# Keys of three letters and digits in the order of their bytes: 11,532 of them begin with 0, 1 or 2.
awk -v count="$count" 'BEGIN {
    marks = "0123456789ABCDEFGHIJKLMNOPQRSTUVWXYZabcdefghijklmnopqrstuvwxyz"
    print "PCB S A"
    for (i = 0; i < count; i++) {
        key[i] = substr(marks, int(i / 3844) + 1, 1) substr(marks, int(i / 62) % 62 + 1, 1) substr(marks, i % 62 + 1, 1)
        print "S ISRT R : \x27" key[i] "xx\x27"
    }
    for (i = 0; i < count; i++) print "S GU R(K=\x27" key[i * 7919 % count] "\x27)"
}' > "$work/script"
start=$(date +%s%N)
"$haldb" call V < "$work/script" > "$work/said"
end=$(date +%s%N)
grep -vc ' -- ' "$work/said" > "$work/other" || true
echo "$count ISRTs and $count GUs: $(( (end - start) / 1000000 )) ms, $(cat "$work/other") lines that aren't done"
[ "$(cat "$work/other")" = 1 ]
[ "$(wc -l < "$work/said")" = $(( 2 * count + 1 )) ]
[ $(( end - start )) -lt 3000000000 ]
