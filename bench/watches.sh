#!/bin/sh
# Measures calls on shared watches: the delivery of one event to 1,000 and to 10,000 members of one stream, and to 10 members
# beside 10,000 watches of 1,000 ranges; takes, and joins beside them. The program is proved and built first, where it isn't
# yet.
set -eu
cd "$(dirname "$0")/../crates/benches"
[ -x out/benches ] || rt run > /dev/null
./out/benches watches 1000 1
./out/benches watches 10000 1
./out/benches watches 10000 1000
