#!/bin/sh
# Runs the examples of docs/GUIDE.md by the program that `rt ci` or `rt run` built, and compares what it prints with the
# texts that stand there. Says so and ends well where the program isn't built.
cd "$(dirname "$0")/.." || exit 1
program=crates/amphion/out/amphion
data=crates/amphion/data
if [ ! -x "$program" ]; then
    echo "guide.sh: $program isn't built, so no example was run"
    exit 0
fi
failed=0
work=$(mktemp -d) || exit 1
trap 'rm -rf "$work"' EXIT

# example NAME WORDS..: the words print the file tools/guide/NAME
example() {
    name=$1
    shift
    if ! "$program" "$@" > "$work/printed" 2> "$work/said" || ! cmp -s "$work/printed" "tools/guide/$name"; then
        echo "guide.sh: 'amphion $*' doesn't print tools/guide/$name: $(cat "$work/said")"
        failed=1
    fi
}

example lonlat.f make "$data/directions.theory" "$data/lonlat.diagram"
example nearsc.f make "$data/planets.theory" "$data/nearsc.diagram"
example star.f make "$data/stars.theory" "$data/star.diagram"
example body.f make "$data/stars.theory" "$data/body.diagram"
example accepted check "$data/two_routines.theory" "$data/conv.diagram" tools/guide/conv.text
[ "$failed" -eq 0 ] && echo "guide.sh: the examples print what docs/GUIDE.md says"
exit "$failed"
