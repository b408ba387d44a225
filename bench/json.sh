#!/bin/sh
# Measures how JSON bodies of 4 MiB are read as requests and written again: one long value, many operations, many
# unknown and many unlike names, nesting without end, digits, blanks and bytes of no text; and then the calls that a proxy
# makes most. The program is proved and built first, where it isn't yet.
set -eu
cd "$(dirname "$0")/../crates/benches"
[ -x out/benches ] || rt run > /dev/null
size=4194304

# So many bytes of a text that is repeated.
repeated() {
    yes "$1" | tr -d '\n' | head -c "$2"
}

# Tells one body's figures under a name.
measure() {
    printf '%s: ' "$1"
    ./out/benches json "$2"
}

{ printf '{"value":"'; repeated AAAA $((size - 16)); printf '"}'; } | measure 'one value' /v3/kv/put
{ printf '{"success":['; repeated '{"request_put":{"key":"YWJj","value":"YWJj"}},' $((46 * 91180)); printf '{"request_put":{}}]}'; } | measure 'operations' /v3/kv/txn
{ printf '{"compare":['; repeated '{"key":"YWJj","target":"MOD","mod_revision":"7"},' $((49 * 85597)); printf '{}]}'; } | measure 'compares' /v3/kv/txn
{ printf '{'; seq -f '"k%.0f":0,' 1 340000; printf '"key":""}'; } | measure 'unlike names' /v3/kv/put
{ printf '{'; repeated '"key":"",' $((9 * 466032)); printf '"key":""}'; } | measure 'one name' /v3/kv/put
repeated '[' $size | measure 'brackets' /v3/kv/put
repeated '{"success":[' $size | measure 'nested' /v3/kv/txn
{ printf '{"lease":'; repeated 1 $((size - 10)); printf '}'; } | measure 'digits' /v3/kv/put
repeated ' ' $size | measure 'blanks' /v3/kv/put
head -c $size /dev/zero | tr '\0' '\377' | measure 'no text' /v3/kv/put
./out/benches json calls
