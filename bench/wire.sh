#!/bin/sh
# Measures how requests are read: 100,000 of each kind, one behind another in memory, in reads of 64 KB, of 1,000 bytes
# and of one byte. The program is proved and built first, where it isn't yet.
set -eu
cd "$(dirname "$0")/../crates/benches"
[ -x out/benches ] || rt run > /dev/null
for kind in short curl chunked; do
    for piece in 65536 1000 1; do
        ./out/benches wire $kind 100000 $piece
    done
done
