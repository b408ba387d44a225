#!/bin/sh
# How fast scripts are replayed, at 2,000, 20,000 and 200,000 lines: puts, puts and gets that pass through the proxy to the store, reads
# of a key that the proxy holds, and 100 watches of one key that each take every change. A line costs the same in a long script as in a
# short one. And how long the generated scripts of 2,000 and of 20,000 take. It runs the proved program, which ./run --build makes where it isn't in its place.
set -eu
top=$(cd "$(dirname "$0")/.." && pwd)
"$top/run" --build
program=$top/crates/etcd_proxy/out/etcd_proxy
work=$(mktemp -d)
trap 'rm -rf "$work"' EXIT

# each prints a script of about so many lines
puts() {
    awk -v lines="$1" 'BEGIN {
        print "world 1 ~ ~\nstart 1"
        for (i = 1; i <= lines / 4; i++)
            print "ask 1 " i " put key/" i % 100 " value" i " 0 -\nsend 1\nexec " i "\nanswer " i
    }'
}
puts_and_gets() {
    awk -v lines="$1" 'BEGIN {
        print "world 1 ~ ~\nstart 1"
        for (i = 1; i <= lines / 8; i++) {
            print "ask 1 " 2 * i - 1 " put key/" i % 100 " value" i " 0 -\nsend 1\nexec " 2 * i - 1 "\nanswer " 2 * i - 1
            print "ask 1 " 2 * i " range key/" i % 100 " ~ 0 0 -\nsend 1\nexec " 2 * i "\nanswer " 2 * i
        }
    }'
}
held_reads() {
    awk -v lines="$1" 'BEGIN {
        print "world 1 ~ L/\nstart 1\ntick 1\nsend 1\nexec 1\nanswer 1\nsend 1\npush 1\ndeliver 1"
        print "ask 1 1 range a ~ 0 0 -\nsend 1\nexec 2\nanswer 2"
        for (i = 2; i <= lines; i++) print "ask 1 " i " range a ~ 0 0 -"
    }'
}
watches() {
    awk -v lines="$1" 'BEGIN {
        print "world 1 ~ ~\nstart 1"
        for (i = 1; i <= 100; i++) print "ask 1 " i " watch k ~ 0 -"
        print "send 1\npush 1\ndeliver 1"
        for (i = 1; i <= 100; i++) print "take 1 " i
        for (j = 1; j <= lines / 106; j++) {
            print "ask 1 " 100 + j " put k v" j " 0 -\nsend 1\nexec " j "\nanswer " j "\npush 1\ndeliver 1"
            for (i = 1; i <= 100; i++) print "take 1 " i
        }
    }'
}

for kind in puts puts_and_gets held_reads watches; do
    for lines in 2000 20000 200000; do
        $kind "$lines" > "$work/script"
        lines=$(wc -l < "$work/script")
        before=$(date +%s%N)
        "$program" replay < "$work/script" > "$work/transcript"
        micros=$((($(date +%s%N) - before) / 1000))
        printf '%-14s %7d lines %5d ms %8d lines/s %9d bytes written\n' \
            "$kind" "$lines" $((micros / 1000)) $((lines * 1000000 / micros)) "$(wc -c < "$work/transcript")"
    done
done
for number in 2000 20000; do
    before=$(date +%s%N)
    "$program" replay --generate "$number" > "$work/counts"
    printf 'generated from %5d: %5d ms, %s\n' "$number" $((($(date +%s%N) - before) / 1000000)) "$(tr '\n' ' ' < "$work/counts")"
done
