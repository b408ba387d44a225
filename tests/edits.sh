#!/usr/bin/env bash
# Tries the edits of tests/edits: wrong bodies of crates that are dear to check, which the prover must refuse as it refuses those under
# must-fail at each gate. Such a crate is checked whole once more for its edits, so this stands outside the gate: some 40 minutes on four processors,
# reckoned, where a gate on this machine has proved the crates, which is looked up first.
#
#     bash tests/edits.sh            # of all these crates
#     bash tests/edits.sh CRATE ..   # of these alone
set -euo pipefail
top=$(cd "$(dirname "$0")/.." && pwd)
[ $# -gt 0 ] || set -- $(cd "$top/tests/edits" && printf '%s\n' */ | tr -d /)
work=$(mktemp -d)
trap 'rm -rf "$work"' EXIT
mkdir "$work/.git" "$work/crates"
cp "$top/crates.txt" "$top/HANDLES" "$work/"
for folder in "$top"/crates/*/; do
    name=$(basename "$folder")
    mkdir "$work/crates/$name"
    find "$folder" -mindepth 1 -maxdepth 1 ! -name out ! -name must-fail -exec cp -r -t "$work/crates/$name" {} +
done
for crate; do cp -r "$top/tests/edits/$crate" "$work/crates/$crate/must-fail"; done
cd "$work"
rt ci "$@"
