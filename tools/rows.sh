#!/bin/sh
# Runs the program that `rt ci` or `rt run` built on the rows of tools/rows/table, and compares its status and what it
# prints with what stands there, worked out by hand; checks each text that `make` prints. Says so and ends well where the
# program isn't built. A row: NAME STATUS WANTED WORDS.., where WANTED is out=FILE (the whole text), tail=FILE (its end),
# line=TEXT (one line), err=FILE (the whole message) or says=TEXT (one line of message), with _ for a blank; in both
# DATA stands for the folder crates/amphion/data, and WORK for one with files that are made here. A line that begins with #
# is a remark. Then the rows of tools/rows/theories, tools/rows/diagrams and tools/rows/check/changes, which say themselves
# how they are read, and a text that is cut before each of its bytes or has each one changed.
cd "$(dirname "$0")/rows" || exit 1
program=$(cd ../.. && pwd)/crates/amphion/out/amphion
if [ ! -x "$program" ]; then
    echo "rows.sh: $program isn't built, so no row was run"
    exit 0
fi
work=$(mktemp -d) || exit 1
trap 'rm -rf "$work"' EXIT
data=../../crates/amphion/data

# fill FILE BYTES NAME: FILE with a comment behind it, BYTES long
fill() {
    { cat "$1"; head -c "$(($2 - $(wc -c < "$1")))" /dev/zero | tr '\0' ';'; } > "$work/$3"
}
fill $data/two_routines.theory 1048576 full.theory
fill $data/two_routines.theory 1048577 long.theory
fill $data/conv.diagram 1048577 long.diagram
fill conv.out 16777217 long.text
head -c 65 /dev/zero | tr '\0' '(' > "$work/deep.theory"

# sorts NUMBER: a theory of so many sorts, none under another; chain NUMBER: each but the first under the one before it
sorts() {
    echo '(theory 2)'
    seq -f '(sort s%.0f)' "$1"
}
chain() {
    sorts 1
    seq 2 "$1" | awk '{ print "(subsort s" $1 " s" $1 - 1 ")" }'
    echo '(relation first (s1))'
}
{ sorts 255; echo '(subsort t s255)'; } > "$work/most_sorts.theory"
{ sorts 256; echo '(subsort t s256)'; } > "$work/sorts.theory"
{ chain 256; echo '(axiom (all ((x s256)) (first x)))'; } > "$work/chain.theory"
{ chain 256; echo '(relation last (s256))'; echo '(axiom (all ((x s255)) (last x)))'; } > "$work/turned_chain.theory"

# doubled N: the text of TWOS with N locals before the call, each of which is made of the one before it twice
doubled() {
    { head -n 6 check/twos.text
      seq "$1" | awk '{ printf "      DOUBLE PRECISION T%05d\n", $1 }'
      echo "      CALL H(X, X, T00001)"
      seq 2 "$1" | awk '{ printf "      CALL H(T%05d, T%05d, T%05d)\n", $1 - 1, $1 - 1, $1 }'
      printf "      CALL H(T%05d, T%05d, Y)\n      END\n" "$1" "$1"
    } > "$work/doubled_$1.text"
}
doubled 11
doubled 12
doubled 40

failed=0
count=0
wrong() {
    echo "rows.sh: $1: $2"
    failed=1
}
while read -r name status wanted words; do
    case $name in
        '' | '#'*) continue ;;
    esac
    count=$((count + 1))
    words=$(echo "$words" | sed "s#DATA/#$data/#g; s#WORK/#$work/#g")
    wanted=$(echo "$wanted" | sed "s#DATA/#$data/#g; s#WORK/#$work/#g")
    : > "$work/out.wanted"
    : > "$work/err.wanted"
    value=${wanted#*=}
    case $wanted in
        out=*) cp "$value" "$work/out.wanted" ;;
        err=*) cp "$value" "$work/err.wanted" ;;
        line=*) echo "$value" | tr _ ' ' > "$work/out.wanted" ;;
        says=*) echo "$value" | tr _ ' ' > "$work/err.wanted" ;;
    esac
    # The words of a row have no blanks.
    # shellcheck disable=SC2086
    "$program" $words > "$work/out" 2> "$work/err" < /dev/null
    got=$?
    [ "$got" -eq "$status" ] || wrong "$name" "status $got and not $status"
    case $wanted in
        tail=*) tail -c "$(wc -c < "$value")" "$work/out" > "$work/end"
            cmp -s "$work/end" "$value" || wrong "$name" "the text doesn't end as $value" ;;
        *) cmp -s "$work/out" "$work/out.wanted" || wrong "$name" "another text than wanted" ;;
    esac
    cmp -s "$work/err" "$work/err.wanted" || wrong "$name" "another message than wanted: $(cat "$work/err")"
    case $words in
        make*) if [ "$got" -eq 0 ]; then
                files="$(echo "$words" | tr ' ' '\n' | grep '\.theory$') $(echo "$words" | tr ' ' '\n' | grep '\.diagram$')"
                # shellcheck disable=SC2086
                [ "$("$program" check $files "$work/out" 2>&1)" = accepted ] || wrong "$name" "the text isn't accepted"
            fi ;;
    esac
done < table

# said FILE PLACE KIND: the message on a fault of the file, or nothing where PLACE is -
said() {
    [ "$2" = - ] || echo "amphion: $1: byte $2: $(echo "$3" | tr _ ' ')"
}

# A row of theories or of diagrams: NAME PLACE KIND TEXT, with ` / ` between the lines of the text.
while read -r name place kind text; do
    case $name in
        '' | '#'*) continue ;;
    esac
    count=$((count + 1))
    echo "$text" | awk '{ gsub(" / ", "\n"); print }' > "$work/row.theory"
    status=2
    : > "$work/out.wanted"
    [ "$place" = - ] && status=0 && cp "$work/row.theory" "$work/out.wanted"
    said=$("$program" theory "$work/row.theory" 2>&1 > "$work/out" < /dev/null)
    got=$?
    [ "$got" -eq "$status" ] || wrong "$name" "status $got and not $status"
    [ "$said" = "$(said theory "$place" "$kind")" ] || wrong "$name" "another message than wanted: $said"
    cmp -s "$work/out" "$work/out.wanted" || wrong "$name" "another text than wanted"
done < theories
while read -r name place kind text; do
    case $name in
        '' | '#'*) continue ;;
    esac
    count=$((count + 1))
    echo "$text" | awk '{ gsub(" / ", "\n"); print }' > "$work/row.diagram"
    said=$("$program" make bodies.theory "$work/row.diagram" 2>&1 > "$work/out" < /dev/null)
    got=$?
    if [ "$place" = - ]; then
        [ "$got" -ne 2 ] || wrong "$name" "a fault: $said"
    else
        [ "$got" -eq 2 ] || wrong "$name" "status $got and not 2"
        [ "$said" = "$(said diagram "$place" "$kind")" ] || wrong "$name" "another message than wanted: $said"
    fi
done < diagrams

# The theory of two routines, cut to each length, is read where each form that it has is closed.
size=$(wc -c < $data/two_routines.theory)
length=0
while [ "$length" -le "$size" ]; do
    count=$((count + 1))
    head -c "$length" $data/two_routines.theory > "$work/cut.theory"
    status=2
    says="amphion: theory: byte $length: unclosed form"
    if [ "$length" -eq 0 ]; then
        says="amphion: theory: byte 0: bad form"
    elif [ "$(tr -cd '(' < "$work/cut.theory" | wc -c)" -eq "$(tr -cd ')' < "$work/cut.theory" | wc -c)" ]; then
        status=0
        says=
    fi
    said=$("$program" theory "$work/cut.theory" 2>&1 > "$work/out")
    got=$?
    [ "$got" -eq "$status" ] || wrong "cut to $length" "status $got and not $status"
    [ "$said" = "$says" ] || wrong "cut to $length" "another message than wanted: $said"
    [ "$status" -eq 0 ] || [ ! -s "$work/out" ] || wrong "cut to $length" "a text beside a message"
    length=$((length + 1))
done
# checked NAME WANTED TEXT: over the theory and the diagram that stand the text is accepted, or refused as LINE:REASON
# says.
checked() {
    count=$((count + 1))
    status=5
    says="amphion: refused at line $(echo "$2" | tr _ ' ')"
    if [ "$2" = accepted ]; then
        status=0
        says=accepted
    fi
    said=$("$program" check "$theory" "$diagram" "$3" 2>&1)
    got=$?
    [ "$got" -eq "$status" ] || wrong "$1" "status $got and not $status"
    [ "$said" = "$says" ] || wrong "$1" "another message than wanted: $said"
}

# Each row of a proof in one line.
joined() {
    awk '
        /^C[+]/ { printf "%s", substr($0, 3); next }
        NR > 1 { print "" }
        { printf "%s", $0 }
        END { print "" }' "$1"
}

# What {N*TEXT} stands for is written out, and then each row is cut into pieces of at most 70 characters.
cut_again() {
    awk '
        function repeated(times, text,  all) { for (all = ""; times > 0; times--) all = all text; return all }
        {
            while (match($0, /[{][0-9]+[*][^}]*[}]/)) {
                part = substr($0, RSTART + 1, RLENGTH - 2)
                star = index(part, "*")
                text = repeated(substr(part, 1, star - 1), substr(part, star + 1))
                $0 = substr($0, 1, RSTART - 1) text substr($0, RSTART + RLENGTH)
            }
        }
        /^C / {
            mark = "C "
            for (text = substr($0, 3); length(text) > 70; text = substr(text, size + 1)) {
                for (size = 70; substr(text, size, 1) == " "; size--) { }
                print mark substr(text, 1, size)
                mark = "C+"
            }
            $0 = mark text
        }
        { print }'
}

grep -v '^#' check/changes > "$work/changes"
while read -r name wanted change; do
    case $name in
        "") ;;
        lines | rows)
            form=$name
            theory=$(echo "$wanted" | sed "s#^DATA/#$data/#")
            diagram=$(echo "${change% *}" | sed "s#^DATA/#$data/#")
            text=${change##* }
            checked "$text" accepted "$text"
            ;;
        *)
            case $form in
                lines) sed "$change" "$text" > "$work/changed.text" ;;
                rows) joined "$text" | sed "$change" | cut_again > "$work/changed.text" ;;
            esac
            if cmp -s "$text" "$work/changed.text"; then wrong "$name" "nothing is changed"; fi
            checked "$name" "$wanted" "$work/changed.text"
            ;;
    esac
done < "$work/changes"

# The text of CONV, cut before each of its bytes and with each made a `~`: the proof is lines 1 to 3, the unit 4 to 8.
theory=$data/two_routines.theory
diagram=$data/conv.diagram
awk '{
    size = length($0)
    for (at = 0; at <= size; at++) {
        if (NR == 1) cut = at < size ? "1: not a proof" : "1: bad line"
        else if (NR < 4) cut = at == 0 ? NR - 1 ": proof is not finished" : NR ": bad line"
        else cut = NR ": text is cut"
        if (NR == 1) made = "1: not a proof"
        else if (NR < 4 && at == 0) made = NR - 1 ": proof is not finished"
        else if (NR < 4) made = NR (at == 1 || at == size ? ": bad line" : ": bad row")
        else made = NR (NR == 8 && at == size ? ": text is cut" : ": bad statement")
        gsub(/ /, "_", cut)
        gsub(/ /, "_", made)
        print before + at, cut, made
    }
    before += size + 1
}' conv.out > "$work/places"
while read -r place cut made; do
    head -c "$place" conv.out > "$work/cut.text"
    checked "cut to $place" "$cut" "$work/cut.text"
    { cat "$work/cut.text"; printf '~'; tail -c +$((place + 2)) conv.out; } > "$work/made.text"
    checked "changed at $place" "$made" "$work/made.text"
done < "$work/places"
[ "$failed" -eq 0 ] && echo "rows.sh: $count rows are as they were worked out"
exit "$failed"
