#!/bin/sh
# Each transcript can be drawn: its picture is well-formed, and has an arrow for each call executed, each answer and each message
# delivered, and a note for each reply. What is no transcript is refused by its line.
# Usage: tests/pictures.sh TRANSCRIPT..
set -eu
draw=$(dirname "$0")/../examples/draw.py
work=$(mktemp -d)
trap 'rm -rf "$work"' EXIT

# as many lines of the transcript with these first words as the picture has of these marks
agree() {
    items=$(grep -cE "^($2) " "$1" || true)
    marks=$(grep -cE "$3" "$work/picture" || true)
    [ "$items" -eq "$marks" ] || { echo "pictures: $1: $items lines '$2', and $marks of '$3'" >&2; exit 1; }
}

for transcript in "$@"; do
    python3 "$draw" < "$transcript" > "$work/picture"
    python3 -c 'import sys, xml.dom.minidom; xml.dom.minidom.parse(sys.argv[1])' "$work/picture"
    # a picture that stands beside its transcript is the one that is drawn of it
    picture=${transcript%.transcript}.svg
    [ ! -e "$picture" ] || cmp -s "$picture" "$work/picture" || { echo "pictures: $picture isn't what is drawn" >&2; exit 1; }
    agree "$transcript" executed 'class="arrow call"'
    agree "$transcript" answered 'class="arrow answer"'
    agree "$transcript" 'opened|closed|delivered' 'class="arrow message"'
    agree "$transcript" reply 'class="(told|uncalled)" cx='
done

printf 'world 1 ~ ~\nstarted 1\nbegun 7\n' > "$work/spoiled"
if python3 "$draw" < "$work/spoiled" > "$work/picture" 2> "$work/told"; then
    echo "pictures: a line that is no item is drawn" >&2
    exit 1
fi
grep -q '^draw.py: line 3 ' "$work/told" || { echo "pictures: $(cat "$work/told")" >&2; exit 1; }

# A refused line is marked, also where it can't be drawn, and those behind it aren't drawn.
printf 'world 1 ~ ~\nstarted 1\nexecuted 7 ok 1.1.1.1 leases 0\nstarted 2\n' > "$work/refused"
python3 "$draw" --refused 3 < "$work/refused" > "$work/picture"
python3 -c 'import sys, xml.dom.minidom; xml.dom.minidom.parse(sys.argv[1])' "$work/picture"
grep -q 'class="halo refused".*line 3: executed 7 ' "$work/picture" || { echo "pictures: a refused line isn't marked" >&2; exit 1; }
if grep -q 'proxy 2' "$work/picture"; then
    echo "pictures: a line behind the refused one is drawn" >&2
    exit 1
fi
