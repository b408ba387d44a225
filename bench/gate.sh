#!/usr/bin/env bash
# Measures what each crate costs the gate, in seconds of processor: its proofs, its tests, its must-fail edits, each from nothing
# and with one job. It writes the rows of docs/GATE.md, the dearest first, and the sums.
# Usage: bench/gate.sh [CRATE..]     all crates where none is named; JOBS=N crates side by side, else as many as there are processors
#
# Each crate is measured in a copy of its own, over libraries that are built before. A check of a copy would begin with what
# checks elsewhere on the machine kept, so a first check is not measured; then what it kept is emptied, and the next one begins with nothing.
set -euo pipefail
top=$(cd "$(dirname "$0")/.." && pwd)
. "$top/tools/program.sh"

# Prints the seconds of processor that a command took, or ends where it fails: seconds LOG COMMAND..
seconds() {
    local log=$1 TIMEFORMAT='%U %S'
    shift
    { time "$@" > "$log" 2>&1 < /dev/null; } 2>&1 | awk '{ printf "%.0f", $1 + $2 }'
}

# Prints the row of a crate: its name, its seconds for proofs, tests and edits, and how many edits it has.
measure() {
    local crate=$1 copy=$2/$1 proofs tests=0 edits=0 count
    copy_sources "$top" "$crate" "$copy"
    cp -r "$top/crates/$crate/must-fail" "$copy/crates/$crate/" 2> /dev/null || true
    count=$(find "$copy/crates/$crate/must-fail" -name '*.edit' 2> /dev/null | wc -l)
    cd "$copy/crates/$crate"
    rt check --jobs 1 > "$copy.log" 2>&1 < /dev/null
    empty
    proofs=$(seconds "$copy.log" rt check --jobs 1)
    if grep -rqs '#\[test\]' src; then
        empty
        tests=$(seconds "$copy.log" rt check --test --jobs 1)
    fi
    if [ "$count" -gt 0 ]; then
        cd "$copy"
        edits=$(RT_JOBS=1 seconds "$copy.log" rt must-fail "$crate" $anew)
    fi
    echo "$crate $proofs $tests $edits $count"
    rm -rf "$copy"
}

empty() {
    rm -rf out/incremental
    mkdir out/incremental
}

# Where the toolchain keeps edits that were refused before, it is told to try them anew.
anew=
if rt help 2>&1 | grep -q -e --anew; then anew=--anew; fi

if [ "${1-}" = --row ]; then
    set +e
    (set -e; measure "$2" "$3")
    status=$?
    [ $status -eq 0 ] || { echo "gate.sh: $2 failed; the last lines of its log:" >&2; tail -n 15 "$3/$2.log" >&2; }
    exit $status
fi

work=$(mktemp -d)
trap 'rm -rf "$work"' EXIT
[ $# -gt 0 ] || set -- $(names_of "$(grep -v '^#' "$top/crates.txt" | grep :)")
printf '%s\n' "$@" | xargs -P "${JOBS:-$(nproc)}" -I CRATE "$0" --row CRATE "$work" > "$work/rows"
echo '| Crate | Proofs | Tests | Edits | Number of edits | All |'
echo '|---|---|---|---|---|---|'
awk '{ print $2 + $3 + $4, $0 }' "$work/rows" | sort -rn | awk '
    { printf "| `%s` | %d | %d | %d | %d | %d |\n", $2, $3, $4, $5, $6, $1; proofs += $3; tests += $4; edits += $5; count += $6; all += $1 }
    END { printf "| all | %d | %d | %d | %d | %d |\n", proofs, tests, edits, count, all }'
