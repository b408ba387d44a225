#!/usr/bin/env bash
# Measures the small store as a server (`etcd_proxy store ADDRESS`) on loopback, side by side with an etcd of one member that keeps its data in
# memory where there is room for it: puts of 256 keys at 64 connections and ranges of one key at 16, both over connections that are kept, in nine
# rounds, theirs and ours in turn, of which the one in the middle counts; a put to the last of a thousand equal watches' sockets; and the most
# memory that a million puts over 10,000 keys take, with a compaction behind each 100,000. On a virtual machine, a round that its host disturbed is
# made again. It ends in its marks, with status 1 where one is missed, after some four minutes on a quiet machine.
#
# usage: bash bench/store_server.sh [PROGRAM [SECONDS [PART ..]]]
#
# The parts are puts, ranges, watches and memory, all of them where none is named; SECONDS is the length of one load, 2 by default.
#
# It needs Debian's etcd-server and wrk, and python3. The proved program is taken where none is named.
set -euo pipefail
here=$(cd "$(dirname "$0")" && pwd)
for name in etcd wrk python3; do
    command -v "$name" > /dev/null || { echo "store_server: $name is wanting (apt-get install etcd-server wrk python3)" >&2; exit 1; }
done
exec python3 "$here/store_server.py" "${1:-$here/../crates/etcd_proxy/out/etcd_proxy}" "${2:-2}" "${@:3}"
