#!/bin/sh
# The limits of a script, to the byte and to the line: what reaches a limit is replayed, and what passes it ends with status 6.
# Then the memory of a run, which doesn't grow with what it reads and writes.
# Usage: tests/limits.sh PROGRAM
set -eu
program=$1
work=$(mktemp -d)
trap 'rm -rf "$work"' EXIT

# the first two lines, which are 20 bytes, and then what the other arguments make
script() {
    printf 'world 1 ~ ~\nstart 1\n'
    awk "$@"
}

# a script of this name, which has to end with this status and tell this
ends_with() {
    name=$1 status=$2 told=$3
    got=0
    "$program" replay < "$work/script" > "$work/transcript" 2> "$work/told" || got=$?
    if [ "$got" -ne "$status" ] || [ "$(cat "$work/told")" != "$told" ]; then
        echo "limits: $name: status $got, $(cat "$work/told"), and not $status, $told" >&2
        exit 1
    fi
}

# a line of so many bytes
line_of() {
    script -v size="$1" 'BEGIN { printf "ask 1 1 put a "; for (i = 18; i < size; i++) printf "v"; print " 0 -" }'
}
line_of 1048576 > "$work/script"
ends_with 'a line of 1,048,576 bytes' 0 ''
line_of 1048577 > "$work/script"
ends_with 'a line of 1,048,577 bytes' 6 limit

# so many lines
lines() {
    script -v count="$1" 'BEGIN { for (i = 3; i <= count; i++) print "clock 1 " i }'
}
lines 1000000 > "$work/script"
ends_with '1,000,000 lines' 0 ''
lines 1000001 > "$work/script"
ends_with '1,000,001 lines' 6 limit

# so many bytes: lines of 1,000,000 bytes, and a last one of the rest
bytes() {
    script -v count="$1" '
        function ask(size) { ticket++; printf "ask 1 %d put a ", ticket; for (i = 18 + length(ticket); i < size; i++) printf "v"; print " 0 -" }
        BEGIN { left = count - 20; while (left > 1048577) { ask(1000000); left -= 1000000 } ask(left) }'
}
bytes 67108864 > "$work/script"
[ "$(wc -c < "$work/script")" -eq 67108864 ]
ends_with '67,108,864 bytes' 0 ''
bytes 67108865 > "$work/script"
ends_with '67,108,865 bytes' 6 limit
# A run holds its world and a line, and not what it read or wrote: 60 refused requests of 1,000,000 bytes, in 32 MiB.
script 'BEGIN { for (n = 1; n <= 60; n++) { printf "ask 1 %d put a ", n; for (i = 1; i <= 1000000; i++) printf "v"; print " 0 i" } }' > "$work/script"
(ulimit -v 32768 && "$program" replay < "$work/script" > "$work/transcript") || {
    echo 'limits: 60 MB of refused requests take more than 32 MiB' >&2
    exit 1
}
[ "$(grep -c ^reply "$work/transcript")" -eq 60 ]

echo 'limits: each is kept to the byte and to the line'
