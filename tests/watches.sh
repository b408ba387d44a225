#!/bin/sh
# Random steps on shared watches, each beside what a plain definition says of it: a quarter of them of each of four shapes, by seeds of
# their own. It is no part of the gate, as `random.sh` isn't. PROGRAM is the proved `crates/core_trial/out/core_trial`.
# Usage: tests/watches.sh PROGRAM [STEPS [SEED]]
set -eu
program=$1
steps=${2:-100000}
seed=${3:-1}
here=$(dirname "$0")
work=$(mktemp -d)
trap 'rm -rf "$work"' EXIT

failures=0
for shape in even crowded slow torn; do
    python3 -B "$here/random_watches.py" --shape "$shape" --seed "$seed" --steps $((steps / 4)) > "$work/steps"
    wanted=$(grep -c '^= ' "$work/steps" || true)
    "$program" < "$work/steps" > "$work/told" || echo "status $?" >> "$work/told"
    told=$(tail -n 1 "$work/told")
    echo "$shape, seed $seed: $told"
    if [ "$wanted" -eq 0 ] || [ "$told" != "watches: $wanted outcomes, 0 differ" ]; then
        head -n 4 "$work/told" | cut -c 1-300 >&2
        failures=$((failures + 1))
    fi
    seed=$((seed + 1))
done
[ "$failures" -eq 0 ] || {
    echo 'watches: what came of a step is not what the definition says' >&2
    exit 1
}
