#!/bin/sh
# Random scripts, replayed by the program and by another implementation: the transcripts have to be the same, byte for byte, and so do
# the statuses and what is told. It is no part of the gate, since that implementation doesn't stand here. Its folder has `fuzz.py`,
# which makes scripts with what has to come of them, and `compare.py`, which tells where a program differs.
# Usage: tests/random.sh PROGRAM FOLDER [COUNT [SEED]]
set -eu
program=$(cd "$(dirname "$1")" && pwd)/$(basename "$1")
folder=$2
count=${3:-10000}
seed=${4:-1}
work=$(mktemp -d)
trap 'rm -rf "$work"' EXIT

cd "$folder"
python3 -B fuzz.py --count "$count" --seed "$seed" --level 18 --emit "$work" > "$work/told" || {
    tail -n 20 "$work/told" >&2
    exit 1
}
python3 -B compare.py "$work" "$program" replay
