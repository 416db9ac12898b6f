#!/bin/sh
# Outside the gate: has the C library refuse each growth of the built program's memory in turn, one a run, and shows how
# many there were. A run that is refused one must end with status 8 and `amphion: no memory`, with nothing on standard
# output. Run it from anywhere, with the words of a command behind it to try that one alone; it takes gcc, and the program
# that `rt run` built in crates/amphion.
cd "$(dirname "$0")/.." || exit 1
program=crates/amphion/out/amphion
if [ ! -x "$program" ] || ! command -v gcc > /dev/null; then
    echo "memory.sh: wants gcc, and $program built"
    exit 1
fi
work=$(mktemp -d) || exit 1
trap 'rm -rf "$work"' EXIT
gcc -O1 -Wall -Wextra -shared -fPIC -o "$work/refuse.so" tools/memory/refuse.c -ldl || exit 1
echo "amphion: no memory" > "$work/wanted"
failed=0

# refused WORDS..: the command with each growth refused
refused() {
    COUNTED="$work/count" LD_PRELOAD="$work/refuse.so" "$program" "$@" > "$work/whole" 2> "$work/err"
    status=$?
    count=$(cat "$work/count")
    number=1
    while [ "$number" -le "$count" ]; do
        REFUSED=$number LD_PRELOAD="$work/refuse.so" "$program" "$@" > "$work/out" 2> "$work/err"
        got=$?
        if [ "$got" -ne 8 ] || [ -s "$work/out" ] || ! cmp -s "$work/err" "$work/wanted"; then
            echo "memory.sh: $*: growth $number refused: status $got, $(wc -c < "$work/out") bytes out, $(cat "$work/err")"
            failed=1
        fi
        number=$((number + 1))
    done
    echo "$*: status $status, each of $count growths refused in turn"
}

if [ "$#" -gt 0 ]; then
    refused "$@"
    exit "$failed"
fi
data=crates/amphion/data
rows=tools/rows
refused check $data/two_routines.theory $data/conv.diagram $rows/conv.out
refused check $data/two_routines.theory $rows/nest.diagram $rows/nest.out
refused check $rows/clock.theory $rows/clock.diagram $rows/clock.out
refused make $data/two_routines.theory $data/conv.diagram
refused make $rows/clock.theory $rows/clock.diagram
refused demo 1
exit "$failed"
