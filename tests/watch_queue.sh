#!/bin/sh
# A watch that is not taken from: its queue holds 1,024 events, the next one splits it off its stream, and once all are taken it asks
# for the rest.
# Usage: tests/watch_queue.sh PROGRAM
set -eu
program=$1
work=$(mktemp -d)
trap 'rm -rf "$work"' EXIT

awk 'BEGIN {
    print "world 1 ~ ~"; print "start 1"; print "ask 1 1 watch a ~ 0 -"; print "send 1"; print "push 1"; print "deliver 1"; print "take 1 1"
    for (n = 1; n <= 1025; n++) {
        print "ask 1 " n + 1 " put a x 0 -"; print "send 1"; print "exec " n; print "answer " n; print "push 1"; print "deliver 1"
    }
    print "send 1"
    for (n = 1; n <= 1024; n++) print "take 1 1"
    print "send 1"
}' > "$work/script"
"$program" replay < "$work/script" > "$work/transcript"

awk 'BEGIN {
    print "closed 1 1"
    for (n = 2; n <= 1025; n++) print "taken 1 1 events 1.1." n ".1 1 put a x 2 " n " " n - 1 " 0 -"
    print "opened 1 2 1 watch a ~ 1026 pn"
}' > "$work/wanted"
tail -n 1026 "$work/transcript" | cmp - "$work/wanted" || {
    echo 'watch_queue: the queue is not left as it has to be' >&2
    exit 1
}
