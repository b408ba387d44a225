#!/usr/bin/env bash
# ./run demo shows the program: a store and a proxy before it, and three lines to try, each of which does what is said of it. A read that was
# made before costs the store nothing, also while it is stopped. A second one takes further ports. However it ends, by SIGINT to its group as Ctrl-C
# sends it, by SIGTERM or by SIGKILL, nothing of it is left, and the former two are status 0.
# Usage: tests/show.sh RUN
set -euo pipefail
run=$1
work=$(mktemp -d)
shown=()
end() {
    local one
    for one in "${shown[@]}"; do kill "$one" 2> /dev/null || true; done
    rm -rf "$work"
}
trap end EXIT

command -v curl > /dev/null || { echo 'show: no curl, and so nothing is tried' && exit; }

failures=0
refuse() {
    echo "show: $1" >&2
    failures=$((failures + 1))
}

# Starts what is shown, as the leader of a group of its own, and waits until it says how to try it: begin NAME. Its output is then in $work/NAME, and its
# number in `number`.
begin() {
    # what is started in the background has SIGINT ignored, unless it says otherwise
    env --default-signal=INT setsid "$run" demo > "$work/$1" 2> "$work/$1.errors" < /dev/null &
    number=$!
    shown+=("$number")
    until grep -qs 'http://.*/v3/watch' "$work/$1"; do
        kill -0 "$number" 2> /dev/null || { cat "$work/$1.errors" >&2 && refuse "$1 shows nothing" && exit 1; }
        sleep 0.1
    done
}

# The ports that it says: ports NAME
ports() { grep -o '127\.0\.0\.1:[0-9]*' "$work/$1" | cut -d : -f 2 | sort -u; }

# Nothing of it is left, shortly after: gone NAME
gone() {
    local port
    for port in $(ports "$1"); do
        for _ in {1..100}; do
            (exec 3<> "/dev/tcp/127.0.0.1/$port") 2> /dev/null || continue 2
            sleep 0.1
        done
        refuse "$1 ended, and something still answers at port $port"
    done
}

# It ends with status 0: ended NAME NUMBER
ended() {
    local status=0
    wait "$2" || status=$?
    [ "$status" -eq 0 ] || refuse "$1 ends with status $status"
    gone "$1"
}

begin first
first=$number
put=$(grep -o 'http://[0-9.:]*/v3/kv/put' "$work/first")
range=${put%put}range watch=${put%kv/put}watch
store=$(sed -n 's/.* is served on \([0-9.:]*\), and .*/\1/p' "$work/first")
for line in "curl -d '{\"key\":\"Zm9v\",\"value\":\"YmFy\"}' $put" "curl -d '{\"key\":\"Zm9v\"}' $range" "curl -N -d '{\"create_request\":{\"key\":\"Zm9v\"}}' $watch"; do
    grep -qF "$line" "$work/first" || refuse "this line isn't shown: $line"
done

curl -s -m 5 -d '{"key":"Zm9v","value":"YmFy"}' "$put" | grep -q '"revision":"2"' || refuse 'a put has another answer'
curl -s -m 60 -N -d '{"create_request":{"key":"Zm9v"}}' "$watch" > "$work/watch" &
watching=$!
# A proxy owns nothing before its session has begun.
read_foo() { curl -s -m 5 -d '{"key":"Zm9v"}' "$range"; }
for _ in {1..50}; do
    read_foo | grep -q '"value":"YmFy"' || refuse 'a read has another answer'
    ! curl -s -m 5 -d '{"key":"bGVhc2UvZm9v"}' "http://$store/v3/kv/range" | grep -q '"count":"1"' || break
    sleep 0.1
done

# The store is stopped, and the read still has its answer.
read -ra children < "/proc/$first/task/$first/children" || true
for child in "${children[@]}"; do
    tr '\0' ' ' < "/proc/$child/cmdline" | grep -q " store $store $" || continue
    kill -STOP "$child"
    read_foo | grep -q '"value":"YmFy"' || refuse 'a second read asks the store'
    kill -CONT "$child"
    stopped=$child
done
[ -n "${stopped-}" ] || refuse 'there is no process of the store'

curl -s -m 5 -d '{"key":"Zm9v","value":"YmF6"}' "$put" > /dev/null || refuse 'a second put has no answer'
for _ in {1..50}; do
    ! grep -q '"value":"YmF6"' "$work/watch" || break
    sleep 0.1
done
for what in '"created":true' '"value":"YmF6"'; do
    grep -q "$what" "$work/watch" || refuse "a watch wasn't told $what"
done
kill "$watching" 2> /dev/null || true
wait "$watching" 2> /dev/null || true

begin second
second=$number
[ -z "$(comm -12 <(ports first) <(ports second))" ] || refuse 'two of them show a port'
kill -TERM "$second"
ended second "$second"

begin third
kill -KILL "$number"
wait "$number" 2> /dev/null || true
gone third

kill -INT -- "-$first"
ended first "$first"
grep -q 'answered from memory: [1-9]' "$work/first" || refuse "reads from memory aren't counted"

[ "$failures" -eq 0 ]
