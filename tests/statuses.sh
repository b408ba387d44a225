#!/bin/sh
# Each exit status of the command, with what it tells on its errors and what it writes.
# Usage: tests/statuses.sh PROGRAM
set -eu
program=$1
work=$(mktemp -d)
trap 'rm -rf "$work"' EXIT

failures=0

# a script, the words, and the status, the output and the errors that have to come
comes_to() {
    script=$1 words=$2 status=$3 output=$4 errors=$5
    got=0
    # The words are split where they stand.
    # shellcheck disable=SC2086
    printf "$script" | "$program" $words > "$work/output" 2> "$work/errors" || got=$?
    printf -- "$output" > "$work/wanted_output"
    printf -- "$errors" > "$work/wanted_errors"
    if [ "$got" -ne "$status" ] || ! cmp -s "$work/output" "$work/wanted_output" || ! cmp -s "$work/errors" "$work/wanted_errors"; then
        echo "statuses: '$words' on '$script': status $got, $(cat "$work/errors"), and not $status, $errors" >&2
        failures=$((failures + 1))
    fi
}

usage='usage: etcd_proxy replay [--generate N] or audit or store ADDRESS or grpc-proxy start OPTIONS\n'
comes_to '' 'replay' 0 '' ''
comes_to 'world 1 ~ ~\nstart 1' 'replay' 0 'world 1 ~ ~\nstarted 1\n' ''
comes_to '' '--version' 0 'etcd_proxy 0.1.0\n' ''
comes_to 'start 1\n' 'replay' 1 '' 'line 1: BadLine 1\n'
comes_to 'world 1 ~ ~\r\n' 'replay' 1 '' 'line 1: BadLine 4\n'
comes_to 'world 1 ~ ~\nsend 7\n' 'replay' 1 'world 1 ~ ~\n' 'line 2: NoSuchProxy 7\n'
comes_to 'world 1 ~ ~\nstart 1\nclock 1 5\nclock 1 4\n' 'replay' 1 'world 1 ~ ~\nstarted 1\nclock 1 5\n' 'line 4: ClockBack 5 4\n'
comes_to 'world 10 ~ ~\n' 'replay' 1 '' 'line 1: BadLine 2\n'
comes_to '' 'replay --generate 1' 0 'asked 1\nreplied 1\nunsent 0\nrevision 1\n' ''
comes_to '' '' 2 '' "$usage"
comes_to '' 'replay --generate' 2 '' "$usage"
comes_to '' 'replay --generate 0' 2 '' "$usage"
comes_to '' 'replay --generate 01' 2 '' "$usage"
comes_to '' 'replay --generate 20001' 2 '' "$usage"
comes_to '' 'replay --generate 1 1' 2 '' "$usage"
comes_to '' 'replay x' 2 '' "$usage"
comes_to '' 'audit --explain' 0 'items 0\nunsent 0\nwatches 0\n' ''
comes_to '' 'audit --explained' 2 '' "$usage"
comes_to '' 'replay --explain' 2 '' "$usage"
comes_to 'world 1 ~\n' 'audit' 1 '' 'line 1: BadLine 4\n'
comes_to 'world 1 ~\n' 'audit --explain' 1 '' 'line 1: BadLine 4\nitem: world 1 ~\nrule: each line is the text of an item\nfound: word 4 is wrong, missing or too many\n'
comes_to 'world 1 ~ ~\nticked 1\n' 'audit --explain' 9 '' 'line 2: Order 1\nitem: ticked 1\nrule: a proxy is started before its other items\nfound: proxy 1 wasn\047t started\n'
comes_to '' "$(printf '\377')" 2 '' "$usage"
for words in 'store' 'store 127.0.0.1' 'store 127.0.0.1:0' 'store 127.0.0.1:02379' 'store 127.0.0.1:2379 x'; do
    comes_to '' "$words" 2 '' "$usage"
done
comes_to '' 'grpc-proxy' 2 '' "$usage"
comes_to '' 'grpc-proxy stop' 2 '' "$usage"
comes_to '' 'grpc-proxy start' 2 '' "error: the following required arguments were not provided: --endpoints <HOST:PORT,..>\n$usage"
comes_to '' 'grpc-proxy start --endpoints=127.0.0.1:2379 --workers=0' 2 '' "--workers 0: not a number from 1 to 64\n$usage"
comes_to '' 'grpc-proxy start --endpoints=https://127.0.0.1:2379' 2 '' "--endpoints https://127.0.0.1:2379: https isn't served\n$usage"
comes_to '' 'grpc-proxy start --endpoint=127.0.0.1:2379' 2 '' "error: unexpected argument '--endpoint' found\n$usage"

comes_to '' 'grpc-proxy start --endpoints=127.0.0.1:2379 --stop-at-end=true' 2 '' "error: unexpected value 'true' for '--stop-at-end' found; no more were expected\n$usage"

# A planned stop: the end of the input, also with no member that answers.
got=0
"$program" grpc-proxy start --endpoints=127.0.0.1:9 --listen-addr=127.0.0.3:23790 --stop-at-end < /dev/null > "$work/output" 2> "$work/errors" || got=$?
[ "$got" -eq 0 ] && grep -qx 'serving 127.0.0.3:23790 for 127.0.0.1:9' "$work/errors" && ! grep -q fault "$work/errors" || {
    echo "statuses: a server whose input ended: status $got, $(cat "$work/errors")" >&2
    failures=$((failures + 1))
}

# A file that can't be had, and one that another process has.
got=0
"$program" grpc-proxy start --endpoints=127.0.0.1:9 --listen-addr=127.0.0.3:23791 --state-file="$work/none/state" > "$work/output" 2> "$work/errors" || got=$?
[ "$got" -eq 7 ] && grep -q "can't keep sessions in the state file: " "$work/errors" && [ "$(tail -n 1 "$work/errors")" = 'listener fault' ] || {
    echo "statuses: a state file that can't be had: status $got, $(cat "$work/errors")" >&2
    failures=$((failures + 1))
}
exec 9> "$work/state"
flock -n 9
got=0
"$program" grpc-proxy start --endpoints=127.0.0.1:9 --listen-addr=127.0.0.3:23791 --state-file="$work/state" > "$work/output" 2> "$work/errors" || got=$?
[ "$got" -eq 7 ] && grep -q 'another process has it' "$work/errors" || {
    echo "statuses: a state file that another process has: status $got, $(cat "$work/errors")" >&2
    failures=$((failures + 1))
}
exec 9>&-

# An address that is none of this machine's can't be listened on. What is served is told only once it is; the system's cause, and what members
# answer, may stand beside the last line.
got=0
"$program" grpc-proxy start --endpoints=127.0.0.1:2379 --listen-addr=192.0.2.1:9 > "$work/output" 2> "$work/errors" || got=$?
[ "$got" -eq 7 ] && ! grep -q '^serving' "$work/errors" && grep -q "can't listen on 192.0.2.1:9: " "$work/errors" && grep -q '^listener fault$' "$work/errors" || {
    echo "statuses: an address that can't be listened on: status $got" >&2
    failures=$((failures + 1))
}

got=0
"$program" store 192.0.2.1:9 > "$work/output" 2> "$work/errors" || got=$?
[ "$got" -eq 7 ] && ! grep -q '^serving' "$work/errors" && grep -q "can't listen on 192.0.2.1:9: " "$work/errors" && [ "$(tail -n 1 "$work/errors")" = 'listener fault' ] || {
    echo "statuses: an address at which a store can't be served: status $got" >&2
    failures=$((failures + 1))
}

# Where the address space is too small for the threads' stacks, a worker can't be started, and the system's cause is told.
got=0
(ulimit -v 200000 && exec "$program" grpc-proxy start --endpoints=127.0.0.1:2379 --listen-addr=127.0.0.2:23790 --workers=64) > "$work/output" 2> "$work/errors" || got=$?
[ "$got" -eq 8 ] && grep -q "^[-0-9T:.]*Z ERROR etcd_proxy: can't start a thread: " "$work/errors" && [ "$(tail -n 1 "$work/errors")" = 'spawner fault' ] || {
    echo "statuses: a worker that can't be started: status $got, $(cat "$work/errors")" >&2
    failures=$((failures + 1))
}

"$program" grpc-proxy start --help | grep -q 'default: 127.0.0.1:23790' || {
    echo 'statuses: grpc-proxy start --help shows no default' >&2
    failures=$((failures + 1))
}

"$program" --help | grep -q 'usage: etcd_proxy replay < SCRIPT' || {
    echo 'statuses: --help shows no usage' >&2
    failures=$((failures + 1))
}

# An input that can't be read, and an output that can't be written.
got=0
"$program" replay < "$work" > "$work/output" 2> "$work/errors" || got=$?
[ "$got" -eq 3 ] && [ "$(cat "$work/errors")" = 'read fault' ] || {
    echo "statuses: an input that can't be read: status $got" >&2
    failures=$((failures + 1))
}
if [ -c /dev/full ]; then
    got=0
    printf 'world 1 ~ ~\n' | "$program" replay > /dev/full 2> "$work/errors" || got=$?
    [ "$got" -eq 4 ] && [ "$(cat "$work/errors")" = 'write fault' ] || {
        echo "statuses: an output that can't be written: status $got" >&2
        failures=$((failures + 1))
    }
fi

[ "$failures" -eq 0 ]
