#!/usr/bin/env bash
# Runs a program that serves, so that SIGTERM and SIGINT are a planned stop of it: tools/serve.sh PROGRAM grpc-proxy start OPTION..
# The program stops at the end of its standard input: a pipe that this shell holds, and lets go at a signal. A signal to the whole group, as of
# Ctrl-C, is ignored by the program itself. Where this shell is killed, the pipe ends too.
set -uo pipefail

# connections take descriptors
ulimit -n "$(ulimit -Hn)" 2> /dev/null || true

exec 8> >(trap '' TERM INT && exec "$@" --stop-at-end)
program=$!
signals=0
trap 'exec 8>&-; signals=$((signals + 1))' TERM INT

# A wait is cut short by a signal, and then begun again.
while
    before=$signals
    wait "$program"
    got=$?
    [ "$got" -eq 127 ] || status=$got
    [ "$signals" -ne "$before" ]
do :; done
exit "$status"
