#!/usr/bin/env bash
# Tries the proxy before three real etcd members on loopback: its answers beside theirs, reads beside all acknowledged writes, and equal watches,
# while proxies and members are killed, stopped and compacted (tests/cluster.py says what each part asks).
#
# usage: tests/cluster.sh PROGRAM [--short] [--store] [PART ..]
#
# With --store the program's own small store is in the members' place, and an etcd beside it.
#
# It needs Debian's etcd-server, etcd-client and curl, and python3, and installs them where it may. Where they can't be had it says so, and ends with
# status 0.
set -euo pipefail
here=$(dirname "$0")

wanting() {
    for name in etcd etcdctl curl python3; do
        command -v "$name" > /dev/null || return 0
    done
    return 1
}

if wanting; then
    apt-get install -y -qq etcd-server etcd-client curl python3 > /dev/null 2>&1 || true
    # The package starts a member of its own, which isn't wanted.
    service etcd stop > /dev/null 2>&1 || true
fi
if wanting; then
    echo "cluster: not tried, since etcd, etcdctl, curl or python3 can't be installed here" >&2
    exit 0
fi
exec python3 "$here/cluster.py" "$@"
