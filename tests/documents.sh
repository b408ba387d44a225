#!/usr/bin/env bash
# What the repository asks of its documents. It prints each thing that is wrong, and ends with status 1 where there is one.
#
#     bash tests/documents.sh
set -euo pipefail
cd "$(dirname "$0")/.."
failures=0

# Runs a check, and prints each line that it prints as wrong, after the text given: refuse TEXT CHECK
refuse() {
    local found line
    found=$("$2") || found+=$'\n'"the check $2 itself failed"
    while read -r line; do
        [ -n "$line" ] || continue
        echo "documents: $1: $line" >&2
        failures=$((failures + 1))
    done <<< "$found"
}

# Like grep, but finding nothing is no failure.
find_in() { grep "$@" || [ $? -eq 1 ]; }
find_in_pages() { git grep --untracked -n "$@" || [ $? -eq 1 ]; }

files=$(git ls-files --cached --others --exclude-standard)
declare -A known=()
while read -r file; do
    while [ -z "${known[$file]-}" ]; do
        known[$file]=1
        [[ $file != */* ]] || file=${file%/*}
    done
done <<< "$files"
exists() { [ -n "${known[${1%/}]-}" ]; }

# The map is made from the crates, and each crate has its heading.
map() { bash tests/map.sh | cmp -s - docs/MAP.md || echo "it isn't what tests/map.sh makes"; }

headings() {
    { diff <(sed -n 's/^\([a-z_0-9]*\)[ a-z_=0-9A-Z+]*:.*/\1/p' crates.txt | sort) <(sed -n 's/^### `\([a-z_0-9]*\)`$/\1/p' docs/CRATES.md | sort) || [ $? -eq 1 ]; } |
        sed -n 's/^< /no heading for /p; s/^> /a heading for no crate, /p'
}

# README is one screen.
screen() { [ "$(wc -l < README.md)" -le 80 ] || echo "it has more than 80 lines"; }

# Phrases that are never right. What is in backticks is a name that the code has, and docs/MAP.md repeats what the crates say.
phrases() {
    find_in_pages -i -w -F -f <(grep -v -e '^#' -e '^$' tests/phrases.txt) -- '*.md' ':!docs/MAP.md' | sed 's/`[^`]*`//g' |
        find_in -i -w -F -f <(grep -v -e '^#' -e '^$' tests/phrases.txt) | cut -c -160
}

# The headings of the pages, as what follows # in a link to one: `page#heading`
anchors() {
    awk '
        FNR == 1 { code = 0 }
        /^```/ { code = !code }
        !code && /^#+ / { text = tolower($0); sub(/^#+ /, "", text); gsub(/[^a-z0-9 _-]/, "", text); gsub(/ /, "-", text); print FILENAME "#" text }
    ' $(find_in '\.md$' <<< "$files")
}

# Each link to a file leads to one, and each to a heading of a page to one of its headings.
links() {
    local -A has=()
    local page link to
    while read -r link; do has[$link]=1; done < <(anchors)
    for page in $(find_in '\.md$' <<< "$files"); do
        while read -r link; do
            case "$link" in '' | *://* | mailto:*) continue ;; esac
            case "$link" in '#'*) to=$page ;; *) to=$(realpath -m --relative-to=. "$(dirname "$page")/${link%%#*}") ;; esac
            exists "$to" && { [[ $link != *#* ]] || [ -n "${has[$to#${link#*#}]-}" ]; } || echo "$page: $link"
        done < <(find_in -oE '\]\([^)]*\)' "$page" | sed 's/^](//; s/)$//; s/ .*//' | sort -u)
    done
}

# Each path that is named in backticks exists: from the top, or below crates/. One with a word in capitals outside docs/ means many, and
# what is built isn't kept.
paths() {
    local page path
    for page in $(find_in '\.md$' <<< "$files"); do
        while read -r path; do
            [[ $path != docs/* && ${path%README.md} =~ [A-Z]{3} || $path = */out/* ]] || exists "$path" || exists "crates/$path" || echo "$page: $path"
        done < <(find_in -o '`[^`]*`' "$page" | tr -d '`' | tr ' ' '\n' |
            find_in -E '^(\./)?((crates|docs|tests|bench|examples|tools)|[a-z_0-9]+/(src|specs|proofs|must-fail))/[A-Za-z0-9_./-]+$' | sed 's|^\./||; s|[.]*$||' | sort -u)
    done
}

# Each constant of the table of limits is in the file that is named after it.
limits() {
    local row token name names
    while read -r row; do
        names=
        for token in $(find_in -oE '`([a-z_0-9]+/(src|specs)/[A-Za-z_/0-9]+\.(rt|antt)|[A-Za-z_]+)`' <<< "$row" | tr -d '`'); do
            case "$token" in
                */*)
                    for name in $names; do grep -q -s -w -e "$name" "crates/$token" || echo "crates/$token has no $name"; done
                    names=
                    ;;
                *) names+=" $token" ;;
            esac
        done
    done < <(sed -n '/^## Limits/,/^## [^L]/s/^|.*| \(`.*\) | [^|]* |$/\1/p' docs/OPERATIONS.md)
}

# The calls and the clauses of the crates: `crate::call` and `crate::call clause`
declared() {
    awk '
        FNR == 1 { call = ""; split(FILENAME, part, "/") }
        /^ *(pub(\([a-z]*\))? )?(const )?fn [a-z_0-9]+/ { match($0, /fn [a-z_0-9]+/); call = part[2] "::" substr($0, RSTART + 3, RLENGTH - 3); print call }
        /^ *ensures [a-z_0-9]+ \{/ && call != "" { match($0, /ensures [a-z_0-9]+/); print call " " substr($0, RSTART + 8, RLENGTH - 8) }
    ' $(find_in '^crates/[a-z_0-9]*/src/.*\.rt$' <<< "$files")
}

# Each contract that docs/PROOFS.md cites, as `crate::call` (`clause`, ..), exists.
contracts() {
    local -A has=()
    local call clauses clause
    while read -r call; do has[$call]=1; done < <(declared)
    while read -r call clauses; do
        [ -n "${has[$call]-}" ] || echo "$call"
        for clause in $clauses; do [ -n "${has[$call $clause]-}" ] || echo "$call has no clause $clause"; done
    done < <(tr -s '\n ' ' ' < docs/PROOFS.md | find_in -oE '`[a-z_0-9]+::[a-z_0-9]+`( \(`[a-z_0-9`, ]*`\))?' | tr -d '`,()')
}

# Each file and each name that docs/CRATES.md gives for a crate is that crate's, or that of a crate named in the same entry.
names() {
    awk '
        function has_all(owner, token,   part, n, i) {
            n = split(token, part, "::")
            for (i = 1; i <= n; i++) if (!((owner, part[i]) in word)) return 0
            return 1
        }
        function has(owner, token) {
            if (token ~ /\//) { sub(/\/$/, "", token); return ("crates/" owner "/" token) in known }
            if (token ~ /\.rt$/) return ("crates/" owner "/src/" token) in known
            if (token ~ /\.antt$/) return ("crates/" owner "/specs/" token) in known
            return has_all(owner, token)
        }
        # the files and folders
        NR == FNR { path = $0; while (!(path in known)) { known[path]; if (sub(/\/[^\/]*$/, "", path) == 0) break } next }
        # the words of a crate, and the names of its files
        FILENAME != "docs/CRATES.md" {
            if (FNR == 1) { n = split(FILENAME, part, "/"); crate = part[2]; crates[crate]; sub(/\.[a-z]*$/, "", part[n]); word[crate, part[n]] }
            gsub(/[^A-Za-z_0-9]+/, " ")
            n = split($0, part, " ")
            for (i = 1; i <= n; i++) word[crate, part[i]]
            next
        }
        # an entry of a crate, with the lines that it goes on in
        function look(   n, i, j, found) {
            n = split(entry, part, "`")
            for (i = 2; i <= n; i += 2) if (part[i] ~ /^[A-Za-z_0-9:.\/]+$/ && !(part[i] in crates) && part[i] !~ /^(crates|docs|tests|bench)\//) {
                found = has(crate, part[i])
                for (j = 2; j <= n && !found; j += 2) if (part[j] in crates) found = has(part[j], part[i])
                if (!found) print crate " has no " part[i]
            }
            entry = ""
        }
        /^  / && entry { entry = entry " " $0; next }
        { look() }
        /^### / { crate = $2; gsub(/`/, "", crate) }
        /^- (Definitions|Contracts|Proved): / { entry = $0 }
        END { look() }
    ' - $(find_in -E '^crates/[a-z_0-9]*/(src|specs)/.*\.(rt|antt)$' <<< "$files") docs/CRATES.md <<< "$files"
}

# Each question of CONTRIBUTING's last section is answered within three steps: README links the page, the page's section names the file, and the file has
# the word.
questions() {
    local row page heading file word section count=0
    while IFS='|' read -r page heading file word; do
        count=$((count + 1))
        grep -q -F "]($page)" README.md || echo "README doesn't link $page"
        section=$(awk -v wanted="$heading" '
            /^#+ / { text = tolower($0); sub(/^#+ /, "", text); gsub(/[^a-z0-9 _-]/, "", text); gsub(/ /, "-", text)
                     depth = index($0, " "); if (text == wanted) { inside = depth; next } if (inside && depth <= inside) inside = 0 }
            inside' "$page")
        grep -q -F "${file##*/}" <<< "$section" || echo "$page#$heading doesn't name $file"
        [ -z "$word" ] || grep -q -s -w -F -e "$word" "$file" || echo "$file has no $word"
    done < <(sed -n 's/^| [^|*]*? | \[[^]]*\](\([^)#]*\)#\([^)]*\))[^|]*| `\([^`]*\)`\(: `\([^`]*\)`\)\{0,1\} |$/\1|\2|\3|\5/p' CONTRIBUTING.md)
    [ "$count" -ge 12 ] || echo "there are $count questions"
}

# A page stands alone: it cites nothing by a number or a place that only those who wrote it know.
numbers='\b(paper|issue|request|demand|rule|theorem) #?[0-9]+\b|\b(P([1-9]|1[0-9]|2[0-3])|[DR]([1-9]|1[0-9]|2[01])|W([1-9]|1[0-6])|T[1-5][a-h]?|H[1-3]|K[1-8]|F(17|18|19|20))\b|/work/|/opt/rattle|\b(papers|shared|design)/'
citations() { find_in_pages -IE "$numbers" -- '*.md' | find_in -v RFC | cut -c -160; }

refuse docs/MAP.md map
refuse docs/CRATES.md headings
refuse docs/CRATES.md names
refuse README.md screen
refuse 'a phrase of tests/phrases.txt' phrases
refuse 'a link to nothing' links
refuse 'no such file' paths
refuse docs/OPERATIONS.md limits
refuse 'docs/PROOFS.md cites no such contract' contracts
refuse "a question of CONTRIBUTING.md isn't answered" questions
refuse 'cited by a number or a place' citations
[ "$failures" -eq 0 ] || exit 1
