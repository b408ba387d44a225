#!/bin/sh
# The counts of generated scripts: of 1 as they are worked by hand, of the others as another implementation of the replay gives them. And
# a generated script that is printed and replayed has them.
# Usage: tests/generate.sh PROGRAM
set -eu
program=$1
here=$(cd "$(dirname "$0")" && pwd)
work=$(mktemp -d)
trap 'rm -rf "$work"' EXIT

# what --generate writes: how much was asked and replied, unsent, and the newest revision
counts() { printf 'asked %s\nreplied %s\nunsent %s\nrevision %s\n' "$1" "$2" "$3" "$4"; }

# a number, and its counts
comes_to() {
    number=$1
    shift
    counts "$@" > "$work/wanted"
    "$program" replay --generate "$number" | cmp -s - "$work/wanted" || {
        echo "generate: $number has other counts" >&2
        exit 1
    }
}
comes_to 1 1 1 0 1
comes_to 10 10 10 0 9
comes_to 100 100 100 8 93
comes_to 2000 2000 2000 177 1891
comes_to 20000 20000 20000 1957 19188

# The counts of a transcript, by its items alone.
counts_of_items() {
    awk '
        $1 == "asked" { asked++; if ($4 == "range") reads[$2 " " $3] = 1 }
        $1 == "sent" { sent[$2 " " $5] = 1 }
        $1 == "reply" { replied++; name = $2 " " $3; if (name in reads && !(name in sent)) unsent++ }
        $1 == "executed" && $3 == "ok" { split($4, header, "."); if (header[3] + 0 > newest) newest = header[3] }
        END { printf "asked %d\nreplied %d\nunsent %d\nrevision %d\n", asked, replied, unsent, newest }'
}
python3 "$here/generated.py" "$program" 40 > "$work/script"
"$program" replay < "$work/script" | counts_of_items > "$work/counted"
"$program" replay --generate 40 | cmp -s - "$work/counted" || {
    echo 'generate: the script of 40 has other counts where it is printed and replayed' >&2
    exit 1
}
