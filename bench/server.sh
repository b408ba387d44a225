#!/usr/bin/env bash
# Measures a running proxy before three etcd members on loopback, side by side with nginx and with the cluster's own JSON gateway: cached reads,
# reads passed on and puts, at 1, 16 and 64 connections; cached reads that are counted (`--metrics-addr`) beside some that aren't; a thousand equal
# watches; what an idle connection takes; and both for as many clients as there may be. Judge by the processor time a request: requests a second
# move with what else the machine does. Each comparison is of nine rounds, ours and theirs in turn, and the round in the middle counts. On a virtual
# machine, a round that its host disturbed is made again. The members keep their data in memory where there is room for it, since a disk that is
# busy would be measured in place of them. It ends in its marks, with status 1 where one is missed, after some twelve minutes on a quiet machine.
#
# usage: bash bench/server.sh [PROGRAM [SECONDS [PART ..]]]
#
# The parts are reads, counted, calls, kept, watches, idle, many_watches and many_idle, all of them where none is named. The last two take as many
# clients as the limit on descriptors (`ulimit -Hn`) has room for, 10,000 and 12,000 at most.
#
# It needs Debian's etcd-server, nginx-light and wrk, and python3. The proved program is taken where none is named.
set -euo pipefail
here=$(cd "$(dirname "$0")" && pwd)
for name in etcd nginx wrk python3; do
    command -v "$name" > /dev/null || { echo "server: $name is wanting (apt-get install etcd-server nginx-light wrk python3)" >&2; exit 1; }
done
exec python3 "$here/server.py" "${1:-$here/../crates/etcd_proxy/out/etcd_proxy}" "${2:-2}" "${@:3}"
