#!/bin/sh
# What an audit of a transcript costs, in seconds of processor and in memory, and how it ended: of transcripts of about 10,000, 100,000 and
# 1,000,000 lines, or of as many as are named, each of four kinds; and of a file of 64 MiB in one line. The targets are for 1,000,000 lines.
# It runs the proved program, which ./run --build makes where it isn't in its place, or the one that PROGRAM names.
#
#     sh bench/audit.sh [LINES ..]
set -eu
top=$(cd "$(dirname "$0")/.." && pwd)
[ -n "${PROGRAM:-}" ] || "$top/run" --build
exec python3 "$top/bench/audit.py" "${PROGRAM:-$top/crates/etcd_proxy/out/etcd_proxy}" "$@"
