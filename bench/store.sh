#!/bin/bash
# Measures the store over keys of ten bytes with values of a hundred: a put, a get, a transaction of ten operations and a watch's
# push once it made 1,000, 100,000 and 1,000,000 revisions, over one set of 1,000 keys and over 100,000; a range of 100 keys; the end
# of a lease with 1,000 keys; the memory that a version takes, and that as many versions take no more once a compaction gave the first
# ones' back. At the end it says which of the marks below are met, and its status tells whether all are.
# Where the system allows it, the program runs before all else on its processor, so that other work isn't measured with it; each time is the
# least of five runs, since what else goes on at the machine only adds to it.
# Where an etcd is installed (Debian's etcd-server) it is asked beside it, for orientation alone: through its JSON gateway, on one
# connection, without fsync.
# The program is proved and built first, where it isn't yet.
set -euo pipefail
cd "$(dirname "$0")/../crates/benches"
[ -x out/benches ] || rt run > /dev/null
work=$(mktemp -d)
trap 'rm -rf "$work"' EXIT
first=
! chrt -f 1 true 2> /dev/null || first="chrt -f 1"
uptime

for keys in 1000 100000; do
    for revisions in 1000 100000 1000000; do
        [ "$revisions" -ge "$keys" ] || continue
        echo "$keys keys, $revisions revisions, the least of five runs and the most"
        for run in 1 2 3 4 5; do $first ./out/benches store "$keys" "$revisions"; done > "$work/runs"
        awk -F ': ' '{ split($2, words, " "); now = words[1] + 0
            if (!($1 in least)) { names[++count] = $1; least[$1] = most[$1] = now }
            if (now < least[$1]) least[$1] = now
            if (now > most[$1]) most[$1] = now }
            NF == 2 { told[$1] = 1 }
            END { for (i = 1; i <= count; i++) if (names[i] in told) print names[i] ": " least[names[i]] " to " most[names[i]] " ns each" }' "$work/runs" | tee "$work/one"
        awk -F ': ' -v at="$keys $revisions" '{ split($2, words, " "); print at "\t" $1 "\t" words[1] }' "$work/one" >> "$work/times"
    done
done

# the bytes that the program has in use once it told this word
memory_at() {
    until grep -q "^$1" "$work/told"; do sleep 0.1; done
    awk '/VmRSS/ { print $2 * 1024 }' "/proc/$2/status"
}
mkfifo "$work/input"
for keys in 1000 100000; do
    ./out/benches store "$keys" 300000 stops < "$work/input" > "$work/told" &
    program=$!
    exec 3> "$work/input"
    made=$(memory_at made "$program")
    echo >&3
    compacted=$(memory_at compacted "$program")
    echo >&3
    again=$(memory_at again "$program")
    echo >&3
    exec 3>&-
    wait "$program"
    cat "$work/told"
    version=$((made / 300000 - 110))
    echo "$keys keys, 300000 versions: $version bytes a version beside its key and value; $made bytes in use, $compacted once compacted, $again with as many versions again"
    printf '%s 300000\tmemory\t%s\n' "$keys" "$version" >> "$work/times"
    printf '%s 300000\tagain\t%s\n' "$keys" "$((again * 100 / made))" >> "$work/times"
done

if command -v etcd > /dev/null; then
    etcd --data-dir "$work/etcd" --unsafe-no-fsync --log-level error > /dev/null 2>&1 &
    server=$!
    trap 'kill $server; rm -rf "$work"' EXIT
    sleep 3
    for path in put range; do
        for number in $(seq 1000); do
            key=$(printf '%010d' "$number" | base64)
            printf 'next\nurl = "http://127.0.0.1:2379/v3/kv/%s"\ndata = "{\\"key\\": \\"%s\\", \\"value\\": \\"%s\\"}"\noutput = /dev/null\n' "$path" "$key" \
                "$([ $path = range ] || head -c 100 /dev/zero | tr '\0' x | base64 -w 0)"
        done | sed '1d; s/, \\"value\\": \\"\\"//' > "$work/asks"
        before=$(date +%s%N)
        curl --silent --config "$work/asks"
        echo "etcd, $path: $((($(date +%s%N) - before) / 1000)) ns each"
    done
else
    echo "no etcd is installed here to measure beside it"
fi

# The marks. Puts, gets and transactions are told without what making their keys and values takes.
awk -F '\t' '
    { value[$1, $2] = $3 }
    function time(keys, revisions, what,   at, made) {
        at = keys " " revisions
        if (!((at, what) in value)) return "absent"
        made = value[at, "making a key and a value"]
        if (what == "put" || what == "get") return value[at, what] - made
        if (what == "transaction of ten operations") return value[at, what] - 5 * made
        return value[at, what]
    }
    function mark(what, is, most, unit,   met) {
        met = is ~ /^[0-9]/ && is + 0 <= most
        printf "%s: %s%s, at most %s%s: %s\n", what, is, unit, most, unit, met ? "met" : "missed"
        if (!met) missed = 1
    }
    # the greatest of the times at these places through the least
    function spread(what, places,   count, i, parts, one, now, least, most) {
        count = split(places, parts, ",")
        for (i = 1; i <= count; i++) {
            split(parts[i], one, " ")
            now = time(one[1], one[2], what)
            if (now == "absent") return now
            if (i == 1 || now < least) least = now
            if (i == 1 || now > most) most = now
        }
        return sprintf("%.1f", most / (least > 1 ? least : 1))
    }
    END {
        one_set = "1000 1000,1000 100000,1000 1000000"
        all = one_set ",100000 100000,100000 1000000"
        count = split("put;get;transaction of ten operations;push to a watch behind a put, with two readings of the clock", names, ";")
        for (i = 1; i <= count; i++) {
            mark(names[i] ", greatest through least over 1,000 keys", spread(names[i], one_set), 2, "")
            mark(names[i] ", greatest through least over all", spread(names[i], all), 4, "")
        }
        mark("get at 100,000 keys", time(100000, 100000, "get"), 1000, " ns")
        mark("put at 100,000 keys", time(100000, 100000, "put"), 2000, " ns")
        mark("range of 100 out of 100,000 keys", time(100000, 100000, "range of 100"), 15000, " ns")
        mark("revoke of a lease with 1,000 keys", time(100000, 100000, "revoke of a lease with 1,000 keys"), 3000000, " ns")
        for (keys = 1000; keys <= 100000; keys *= 100) {
            mark("a version over " keys " keys, beside its key and value", value[keys " 300000", "memory"], 200, " bytes")
            mark("in use over " keys " keys, compacted and as many versions kept again", value[keys " 300000", "again"], 110, " of 100")
        }
        exit missed
    }' "$work/times"
