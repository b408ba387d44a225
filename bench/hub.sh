#!/bin/sh
# Measures a hub: nanoseconds a step with one thread, steps a second with 4, 16 and 64 threads, and both beside 2,000
# passes at rest. The program is proved and built first, where it isn't yet.
set -eu
cd "$(dirname "$0")/../crates/benches"
[ -x out/benches ] || rt run > /dev/null
for machine in plain boxed large; do
    ./out/benches hub $machine 1 2000000 0
done
for threads in 4 16 64; do
    ./out/benches hub plain $threads $((2000000 / threads)) 0
    ./out/benches hub boxed $threads $((2000000 / threads)) 0
done
./out/benches hub boxed 1 2000000 2000
./out/benches hub boxed 16 125000 2000
