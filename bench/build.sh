#!/usr/bin/env bash
# Measures a first start and a first build from nothing: how long ./run takes where nothing is built, and then ./run --build, with the
# most memory that its processes held at a time, and the room that it takes. It runs in a clone of its own, over links to the toolchain:
# that keeps what it has proved beside itself, so nothing that was proved on this machine before is taken over.
# Usage: bench/build.sh [FOLDER]     FOLDER is on the toolchain's disk; it needs some 10 GB, and is removed in the end
set -euo pipefail
top=$(cd "$(dirname "$0")/.." && pwd)
work=$(mktemp -d -p "${1:-/tmp}")
trap 'rm -rf "$work"' EXIT
cp -al "$(dirname "$(dirname "$(realpath "$(command -v rt)")")")" "$work/rattle"
git clone -q "$top" "$work/clone"
export PATH=$work/rattle/bin:$PATH XDG_CACHE_HOME=$work/cache

# Prints the memory that a process and all that it started hold, in MB: memory_of PROCESS
memory_of() {
    ps -e -o pid=,ppid=,rss= | awk -v top="$1" '
        { parent[$1] = $2; held[$1] = $3 }
        END {
            for (process in parent) {
                for (above = process; above in parent && above != top; above = parent[above]) {}
                if (above == top) sum += held[process]
            }
            print int(sum / 1024)
        }'
}

# Runs ./run with these arguments, and reports what it took: measured ARGUMENT..
measured() {
    local begin most=0 now process
    begin=$(date +%s)
    "$work/clone/run" "$@" < /dev/null &
    process=$!
    while kill -0 $process 2> /dev/null; do
        now=$(memory_of $process)
        most=$((now > most ? now : most))
        sleep 1
    done
    wait $process
    echo "./run $*: $(($(date +%s) - begin)) seconds, at most $most MB of memory"
}

measured --version
measured --version
measured --build
measured --version
du -sm "$work/cache" | awk '{ print "kept: " $1 " MB" }'
