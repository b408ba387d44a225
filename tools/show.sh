# shellcheck shell=bash
# Shows the program: a store and a proxy before it on loopback, with lines to try. Read by ./run.

# Sends a request to a port of loopback, and prints the reply's lines: ask PORT METHOD PATH BODY
ask() (
    exec 3<> "/dev/tcp/127.0.0.1/$1"
    printf '%s %s HTTP/1.1\r\nHost: localhost\r\nConnection: close\r\nContent-Length: %d\r\n\r\n%s' "$2" "$3" ${#4} "$4" >&3
    while IFS= read -r -t 5 line; do echo "$line"; done <&3
) 2> /dev/null

# Whether a read is answered there. One that is serializable is never answered from memory, and makes no proxy a key's owner.
answers() { [[ $(ask "$1" POST /v3/kv/range '{"key":"AA==","serializable":true}') = 'HTTP/1.1 200 '* ]]; }

# Whether a proxy may take keys, by its figures there: it has a session, and follows the stream of what is owned: takes_keys PORT
takes_keys() {
    local figures
    figures=$(ask "$1" GET /metrics '')
    grep -q '^etcd_proxy_session_remaining_seconds [1-9]' <<< "$figures" && grep -q '^etcd_proxy_member_streams 1' <<< "$figures"
}

# Starts what serves on loopback and waits until it answers; its process is then in the variable NAME, and what it tells in $told/NAME. Where
# a port is in use it fails, and that port is in `taken`: serve NAME PORT PROGRAM WORD..
serve() {
    local name=$1 port=$2 status=0 since=$SECONDS
    shift 2
    "$@" < /dev/null > /dev/null 2> "$told/$name" 7>&- &
    printf -v "$name" %d $!
    echo "$name $!" >&7
    # Once it tells that it serves the port is its own, and no other server's.
    until grep -qs '^serving ' "$told/$name" && answers "$port"; do
        sleep 0.1
        ((SECONDS < since + 60)) || fail "the $name doesn't answer at port $port"
        ! kill -0 "${!name}" 2> /dev/null || continue
        wait "${!name}" || status=$?
        taken=$(sed -n "s/.*can't listen on 127\.0\.0\.1:\([0-9]*\): Address already in use.*/\1/p" "$told/$name")
        [ -z "$taken" ] || return 1
        cat "$told/$name" >&2
        say "the $name ended at once, with status $status"
        exit $((status ? status : 70))
    done
}

# Ends what is shown once the shell that shows it is gone, however it ended, or lets go: the proxy first, which gives back what it owns. Its input has a
# line for each that was started.
end_with_shell() {
    local name number
    local -A started=()
    trap '' INT TERM HUP
    while read -r name number; do started[$name]=$number; done
    for name in proxy store; do
        [ -n "${started[$name]:-}" ] || continue
        kill "${started[$name]}" || true
        timeout 7 tail --pid="${started[$name]}" -s 0.1 -f /dev/null || true
    done
    rm -rf "$told"
} 2> /dev/null

end_show() {
    local count
    count=$(ask "$metrics" GET /metrics '' | sed -n 's/^etcd_proxy_cached_reads_total //p') || true
    [ -z "$count" ] || echo "Reads that the proxy answered from memory: ${count%$'\r'}"
    exec 7>&-
    wait
}

# Serves a store with nothing in it and a proxy before it, and says how to try them, until a signal comes or one of them ends; SERVE runs a
# program that is to stop at a signal: show PROGRAM SERVE
show() {
    local told store proxy taken store_port=2379 port=23790 metrics=23890 ended=proxy status=0
    told=$(mktemp -d)
    exec 7> >(end_with_shell)
    trap end_show EXIT
    trap 'exit 0' INT TERM
    until serve store "$store_port" "$1" store "127.0.0.1:$store_port"; do
        store_port=$((store_port + 1))
        ((store_port < 2479)) || fail 'no port of 127.0.0.1 from 2379 to 2478 is free'
    done
    until serve proxy "$port" "$2" "$1" grpc-proxy start --endpoints="127.0.0.1:$store_port" --leasing-prefix=lease/ \
        --listen-addr="127.0.0.1:$port" --metrics-addr="127.0.0.1:$metrics"; do
        if [ "$taken" = "$port" ]; then port=$((port + 1)); else metrics=$((metrics + 1)); fi
        ((port < 23890 && metrics < 23990)) || fail 'no port of 127.0.0.1 from 23790 to 23889, or from 23890 to 23989, is free'
    done
    for _ in {1..100}; do
        ! takes_keys "$metrics" || break
        sleep 0.1
    done
    cat << END
A store with nothing in it is served on 127.0.0.1:$store_port, and a proxy before it on 127.0.0.1:$port. Ctrl-C ends both; nothing is kept.
Try in another terminal:
  curl -d '{"key":"Zm9v","value":"YmFy"}' http://127.0.0.1:$port/v3/kv/put           # foo = bar, in base64
  curl -d '{"key":"Zm9v"}' http://127.0.0.1:$port/v3/kv/range                        # twice: the second costs no call, the proxy alone answers it
  curl -N -d '{"create_request":{"key":"Zm9v"}}' http://127.0.0.1:$port/v3/watch     # tells each further put of foo, until Ctrl-C
What the proxy counts, reads that it answered from memory too: http://127.0.0.1:$metrics/
END
    wait -n "$store" "$proxy" || status=$?
    kill -0 "$store" 2> /dev/null || ended=store
    cat "$told/$ended" >&2
    say "the $ended ended by itself, with status $status"
    exit $((status ? status : 70))
}
