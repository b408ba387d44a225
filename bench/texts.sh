#!/bin/sh
# How long texts take: lines of 1,048,576 bytes of different kinds, and 400,000 short lines and items.
# It builds a small program over the crates of this repository, in a folder of its own that it removes at the end.
set -eu
top=$(cd "$(dirname "$0")/.." && pwd)
work=$(mktemp -d)
trap 'rm -rf "$work"' EXIT
mkdir -p "$work/crates/text_bench/src"
for crate in etcd_types text_model text_words message_text script_text; do
    mkdir "$work/crates/$crate"
    cp -r "$top/crates/$crate/src" "$top/crates/$crate/specs" "$top/crates/$crate/proofs" "$work/crates/$crate/"
done
grep -E '^(etcd_types|text_model|text_words|message_text|script_text):' "$top/crates.txt" > "$work/crates.txt"
echo 'text_bench: script_text etcd_types' >> "$work/crates.txt"
cat > "$work/crates/text_bench/src/main.rt" <<'PROGRAM'
//! Reads each line of the input as a script line, behind `> `, or as an item, which is written again.
#![tactic(auto)]

use script_text::{read_item, read_line, write_item};
use std::alloc::Global;
use std::io::{self, Read};

fn is_good(alloc: Global, line: &[u8]) -> bool {
    match line {
        [b'>', b' ', rest @ ..] => read_line(alloc, 2, rest).is_ok(),
        _ => match read_item(alloc, line) {
            Err(_) => false,
            Ok(item) => write_item(alloc, &item).is_ok(),
        },
    }
}

fn main(rt: HostRuntime) -> io::Result<()> {
    let alloc = rt.alloc();
    let mut input = Vec::new(alloc);
    rt.reader().read_to_end(&mut input)?;
    let mut good = 0u64;
    let mut bad = 0u64;
    for line in input.split(|b| *b == b'\n') {
        if is_good(alloc, line) {
            good = good.wrapping_add(1);
        } else {
            bad = bad.wrapping_add(1);
        }
    }
    println!(rt; "{good} read, {bad} refused")
}
PROGRAM
echo 'building, which proves the crates first where no check has kept them ..'
(cd "$work/crates/text_bench" && rt run < /dev/null > "$work/build.log" 2>&1) || { tail -20 "$work/build.log"; exit 1; }

# so many times a text
repeated() { yes "$2" | head -n "$1" | tr -d '\n'; }
size=1048576
{ printf '> '; head -c $size /dev/zero | tr '\0' ' '; } > "$work/spaces"
head -c $size /dev/zero > "$work/zero_bytes"
{ printf '> exec '; head -c $size /dev/zero | tr '\0' 9; } > "$work/digits"
{ printf 'asked 1 1 put '; head -c 1048500 /dev/zero | tr '\0' a; printf ' x 0 -'; } > "$work/long_key"
{ printf 'asked 1 1 put '; repeated 349500 %00; printf ' x 0 -'; } > "$work/escaped_key"
{ printf '> ask 1 1 '; repeated 131072 'txn 0 1 '; } > "$work/deep_transactions"
{ printf 'asked 1 1 txn 0 87000'; repeated 87000 ' put a b 0 -'; printf ' 0'; } > "$work/many_operations"
{ printf 'executed 1 ok 1.1.1.1 range 1 - 58000'; repeated 58000 ' aaaa bbbb 1 2 3 4'; } > "$work/many_records"
{ printf 'executed 1 ok 1.1.1.1 leases 520000'; repeated 520000 ' 1'; } > "$work/many_leases"
{
    yes '> ask 1 1 range a ~ 0 0 -
asked 1 1 put a x 0 -
executed 1 ok 1.1.2.1 range 1 - 1 a x 2 2 1 0
> exec 1' | head -n 400000
} > "$work/400000_short_lines"
for input in spaces zero_bytes digits long_key escaped_key deep_transactions many_operations many_records many_leases 400000_short_lines; do
    before=$(date +%s%N)
    said=$("$work/crates/text_bench/out/text_bench" < "$work/$input")
    after=$(date +%s%N)
    printf '%-20s %8d bytes %6d ms   %s\n' "$input" "$(wc -c < "$work/$input")" $(((after - before) / 1000000)) "$said"
done
