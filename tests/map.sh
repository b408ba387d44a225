#!/usr/bin/env bash
# Prints docs/MAP.md: the crates by the headings of crates.txt, each with the first sentence of its own first lines, and whether the program
# reaches it.
#
#     bash tests/map.sh > docs/MAP.md
set -euo pipefail
cd "$(dirname "$0")/.."
. tools/program.sh
program=etcd_proxy

# The first sentence of the lines `//!` at the top of a crate's root file: first_sentence CRATE
first_sentence() {
    local root=crates/$1/src/lib.rt
    [ -e "$root" ] || root=crates/$1/src/main.rt
    sed -n '/^\/\/!/!q; s/^\/\/! \{0,1\}//p' "$root" | awk '
        $0 == "" { exit }
        { text = text (text == "" ? "" : " ") $0 }
        match(text, /\.( |$)/) { text = substr(text, 1, RSTART); exit }
        END { gsub(/\|/, "\\|", text); print text }'
}

# Each heading of crates.txt, and below it its crates by name: `# HEADING` or `CRATE`
headings_and_crates() {
    awk -F'[ :]' '
        function flush() { if (count) { close(sort) } count = 0 }
        BEGIN { sort = "LC_ALL=C sort" }
        /^# / && blank { flush(); print; fflush(); blank = 0; next }
        /^$/ { blank = 1; next }
        /^[a-z]/ { print $1 | sort; count++ }
        END { flush() }' crates.txt
}

reached=" $(names_of "$(crates_below . $program)" | tr '\n' ' ')"

cat <<'HEAD'
# Map of the crates

Made by `tests/map.sh` from `crates.txt` and the first lines of each crate; `./test` compares.

Three floors. **Definitions** say what is promised (`specs/` of the crates of definitions), **programs** cite them in their contracts, and **laws** show what
follows from the definitions. In a crate's folder `src/` has the code with its contracts, `specs/` the definitions, `proofs/` what the checker doesn't find by
itself, and `must-fail/` the mutations that the checker must refuse. `crates.txt` says which crates each one is built on.

A crate's name leads to what is proved of it, by which clause, and what only tests show. The column "in the program" says whether `etcd_proxy` is built on it;
the others are laws that it doesn't cite, and programs that test and measure.
HEAD

while read -r line; do
    case "$line" in
        '# '*) printf '\n## %s\n\n| Crate | In the program | What it is |\n|---|---|---|\n' "${line#\# }" ;;
        *)
            case "$reached" in *" $line "*) mark=yes ;; *) mark= ;; esac
            printf '| [`%s`](CRATES.md#%s) | %s | %s |\n' "$line" "$line" "$mark" "$(first_sentence "$line")"
            ;;
    esac
done < <(headings_and_crates)
