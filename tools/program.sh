# shellcheck shell=bash
# The proved program of a crate: whether it is there and is that of the sources as they are, and what its build begins with. Read by
# ./run, ./test and bench/gate.sh. It lies in its crate's out/, and beside it `built`, its mark: a sum of the sources that it was built
# from, by their names and contents, and one of the program itself. So an edited, a new and a deleted source all count.

# The lines of crates.txt for a crate and all that it uses, without comments: crates_below FOLDER CRATE
crates_below() {
    awk -F: -v top="$2" '
        { sub(/ *#.*/, "") }
        NF == 2 { split($1, head, " "); uses[head[1]] = $2; line[++count] = $0; name[count] = head[1] }
        END {
            wanted[top] = 1
            do {
                grown = 0
                for (i = 1; i <= count; i++) if (name[i] in wanted) {
                    n = split(uses[name[i]], words, " ")
                    for (k = 1; k <= n; k++) if (words[k] in uses && !(words[k] in wanted)) { wanted[words[k]] = 1; grown = 1 }
                }
            } while (grown)
            for (i = 1; i <= count; i++) if (name[i] in wanted) print line[i]
        }' "$1/crates.txt"
}

# The names of such lines: names_of LINES
names_of() { awk -F'[ :]' '{ print $1 }' <<< "$1"; }

# A sum of the sources that a crate's program is built from: sources_sum FOLDER CRATE
sources_sum() (
    cd "$1" || exit
    lines=$(crates_below . "$2")
    {
        echo "$lines"
        # shellcheck disable=SC2046 # one word each
        find $(names_of "$lines" | sed 's|^|crates/|') \( -name out -o -name must-fail \) -prune -o -type f -print0 |
            LC_ALL=C sort -z | xargs -0 sha256sum
    } | sha256sum | cut -c -64
)

# Whether the proved program of the sources as they are is there: is_proved FOLDER CRATE
is_proved() {
    local out=$1/crates/$2/out
    [ -x "$out/$2" ] && [ -e "$out/built" ] &&
        [ "$(cat "$out/built")" = "$(sources_sum "$1" "$2") $(sha256sum < "$out/$2" | cut -c -64)" ]
}

# Says of the program that is there that it was built of sources of this sum: mark_proved FOLDER CRATE SUM
mark_proved() {
    local out=$1/crates/$2/out
    echo "$3 $(sha256sum < "$out/$2" | cut -c -64)" > "$out/built.new"
    mv "$out/built.new" "$out/built"
}

say() { echo "run: $*" >&2; }

# Copies the sources of a crate and of all that it uses to where nothing is yet: copy_sources FROM CRATE TO
copy_sources() {
    local name
    mkdir -p "$3/crates"
    crates_below "$1" "$2" > "$3/crates.txt"
    cp "$1/HANDLES" "$3/"
    for name in $(names_of "$(cat "$3/crates.txt")"); do
        mkdir "$3/crates/$name"
        find "$1/crates/$name" -mindepth 1 -maxdepth 1 ! -name out ! -name must-fail -exec cp -r -t "$3/crates/$name" {} +
    done
}

# Takes the program that a gate on this machine has proved of these very sources, if the toolchain keeps one. `rt ci` gives what is
# kept crate by crate, within seconds once it has looked at all of them; it is ended once it has given the program, proves a library anew
# (whose folder is then empty), or gives nothing more: take_kept FOLDER CRATE
take_kept() (
    log=$1/kept.log given=0 silent=0
    mkdir -p "$1/.git"
    (cd "$1" && exec rt ci) > "$log" 2>&1 < /dev/null &
    gate=$!
    trap '{ kill $gate && wait $gate; } 2> /dev/null || true' EXIT
    trap 'exit 143' TERM
    while kill -0 $gate 2> /dev/null && [ $silent -lt $((given > 0 ? 20 : 120)) ] && ! grep -q "^rt: $2 is kept:" "$log" &&
        [ -z "$(find "$1/crates" -path '*/out/rlib' -empty)" ]; do
        sleep 1
        now=$(grep -c '^rt: [a-z_0-9]* is kept:' "$log" || true)
        silent=$((now > given ? 0 : silent + 1))
        given=$now
    done
    grep -q "^rt: $2 is kept:" "$log" && [ -x "$1/crates/$2/out/$2" ]
)
