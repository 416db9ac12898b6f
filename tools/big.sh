#!/bin/bash
# Outside the gate: makes a theory file of 4,096 symbols, 2,000 axioms and a megabyte, files of one axiom far
# over a limit or with one literal very often, a diagram whose twelve terms weigh as much as a goal may, searches that use a
# budget up, a chain of wide terms, demonstrations, and texts of many rows and of many calls,
# and shows how long the built program takes over them.
# Run it from anywhere; it takes the program that `rt run` built in crates/amphion.
cd "$(dirname "$0")/.." || exit 1
program=crates/amphion/out/amphion
if [ ! -x "$program" ]; then
    echo "build it first: (cd crates/amphion && rt run -- make data/two_routines.theory data/conv.diagram)"
    exit 1
fi
folder=$(mktemp -d) || exit 1
trap 'rm -rf "$folder"' EXIT

# 96 routines that a diagram calls, 4,000 functions, and 2,000 axioms over them, in as many bytes as a file
# may have: what is left is a comment.
awk 'BEGIN {
    print "(theory 1)"
    print "(sort q double)"
    for (i = 1; i <= 96; i++) printf "(routine C%05d (q q) (c%d q))\n", i, i
    for (i = 1; i <= 4000; i++) printf "(function apparent-%d (q q) q)\n", i
    for (i = 1; i <= 2000; i++) {
        j = i + 2000
        printf "(axiom (all ((x q) (y q) (z q)) (=> (= (apparent-%d x y) (apparent-%d y z)) (= (apparent-%d (apparent-%d (apparent-%d x y) (apparent-%d y z)) (apparent-%d z x)) (apparent-%d (apparent-%d x (apparent-%d y (apparent-%d z x))) (apparent-%d (apparent-%d x y) (apparent-%d z (apparent-%d y x))))))))\n", i, j, i, j, i, j, i, j, i, j, i, j, i, j, i
    }
}' > "$folder/axioms"
bytes=$(wc -c < "$folder/axioms")
awk -v bytes="$bytes" 'BEGIN { left = 1048576 - bytes; printf ";"; for (i = 2; i < left; i++) printf "x"; print "" }' |
    cat "$folder/axioms" - > "$folder/theory"
echo "theory: $(wc -c < "$folder/theory") bytes, $(grep -c '^(axiom' "$folder/theory") axioms"
time "$program" theory "$folder/theory" > "$folder/canonical"
echo "canonical text: $(wc -c < "$folder/canonical") bytes"

# One axiom of nearly a megabyte: with 36,000 variables, with 50,000 different literals in one clause, and
# with one literal 200,000 times. The first two are over a limit, the last one is read.
awk 'BEGIN {
    print "(theory 1)"
    print "(sort q double)"
    printf "(axiom (all ("
    for (i = 1; i <= 36000; i++) printf "(v%d q)", i
    printf ") (and"
    for (i = 1; i < 36000; i++) printf " (= v%d v%d)", i, i + 1
    print ")))"
}' > "$folder/variables"
awk 'BEGIN {
    print "(theory 1)"
    print "(sort q double)"
    print "(relation p (q q))"
    for (i = 1; i <= 1000; i++) printf "(function c%d () q)\n", i
    printf "(axiom (or"
    for (i = 1; i <= 50000; i++) printf " (p c%d c%d)", i % 1000 + 1, int(i / 1000) + 1
    print "))"
}' > "$folder/literals"
awk 'BEGIN {
    print "(theory 1)"
    print "(relation p ())"
    printf "(axiom (or"
    for (i = 1; i <= 200000; i++) printf " p"
    print "))"
}' > "$folder/repeated"
for name in variables literals repeated; do
    echo "$name: $(wc -c < "$folder/$name") bytes"
    time "$program" theory "$folder/$name" > "$folder/canonical"
done

# The same routines without axioms, and twelve outputs: each term is a tree of routines over the inputs.
grep -v '^(axiom\|^;' "$folder/axioms" > "$folder/plain"
awk 'function tree(depth, at) {
    if (depth == 0) return (at % 2) ? "X" : "Y"
    return "(c" ((at * 7 + depth * 13 + output * 5) % 96 + 1) " " tree(depth - 1, 2 * at) " " tree(depth - 1, 2 * at + 1) ")"
}
BEGIN {
    print "(diagram BIG)"
    print "(input X q)"
    print "(input Y q)"
    for (output = 1; output <= 12; output++) printf "(output Z%d q)\n", output
    for (output = 1; output <= 12; output++) printf "(require (= Z%d %s))\n", output, tree(output == 1 ? 2 : 3, 1)
}' > "$folder/diagram"
echo "diagram: $(grep -c '^(require' "$folder/diagram") requirements"
time "$program" make "$folder/plain" "$folder/diagram" > "$folder/unit"
echo "unit: $(wc -l < "$folder/unit") lines"

# ---- searches

# runs words, and tells the status and the last line of what it said
timed() {
    echo "$*"
    time { "$program" "$@" > "$folder/text" 2> "$folder/said"; echo "status $?: $(tail -q -n 1 "$folder/said" "$folder/text" | grep . | tail -n 1)"; }
}
data=crates/amphion/data
timed make $data/planets.theory $data/nearsc.diagram

# Two rules that take a number of steps back: p holds where it holds of f, or of h. Each row has two followers.
cat > "$folder/steps" << 'END'
(theory 1)
(sort g double)
(relation p (g))
(function f (g) g)
(function h (g) g)
(axiom (all ((x g)) (=> (p (f x)) (p x))))
(axiom (all ((x g)) (=> (p (h x)) (p x))))
END
printf '(diagram Q)\n(input A g)\n(output X g)\n(require (p X))\n' > "$folder/start"
for budget in 1000 5000 10000; do
    timed make "$folder/steps" "$folder/start" --budget $budget
done

# The theory of groups with two equations more, of the inputs, and a relation that turns its argument round: the rows that
# are kept are many, and small.
cat > "$folder/groups" << 'END'
(theory 1)
(sort g double)
(relation p (g))
(function op (g g) g)
(function inv (g) g)
(function e () g)
(axiom (all ((x g)) (= (op e x) x)))
(axiom (all ((x g)) (= (op (inv x) x) e)))
(axiom (all ((x g) (y g) (z g)) (= (op (op x y) z) (op x (op y z)))))
(axiom (all ((x g) (y g)) (=> (p (op x y)) (p (op y x)))))
END
cat > "$folder/braid" << 'END'
(diagram R)
(input A g)
(input B g)
(output X g)
(given (= (op A (op B A)) (op B (op A B))))
(given (= (op A (op A A)) (op B B)))
(require (p (op (op A B) (op X (op B X)))))
END
for budget in 5000 100000; do
    timed make "$folder/groups" "$folder/braid" --budget $budget
done

# Demonstrations: each has as many axioms as its size, and one inference more.
for size in 50 100 200 300; do
    timed demo $size
    if command -v valgrind > /dev/null; then
        valgrind --tool=callgrind --callgrind-out-file=/dev/null "$program" demo $size 2>&1 | grep -o 'Collected : [0-9]*'
    fi
done

# A chain of 1,900 rewrites of a goal whose terms are wide: the text would be longer than may be printed.
awk 'function wide(x, i, s) { s = "(wide"; for (i = 1; i <= 12; i++) s = s " " x; return s ")" }
BEGIN {
    leaf = "leaffffffffffffffffffffffffffff"
    theory = ARGV[1]; diagram = ARGV[2]; ARGC = 1
    print "(theory 1)\n(sort q integer)\n(literal zero q 0)\n(literal " leaf " q 1)" > theory
    print "(routine WIDE (q q q q q q q q q q q q) (wide q))\n(routine TOP (q q q) (top q))" > theory
    for (i = 1; i <= 1900; i++) print "(function k" i " () q)" > theory
    print "(axiom (= k1 zero))" > theory
    for (i = 2; i <= 1900; i++) print "(axiom (= k" i " k" i - 1 "))" > theory
    b = wide(wide(leaf))
    print "(diagram WIDEN)\n(output Y q)\n(require (= Y (top k1900 " b " " b ")))" > diagram
}' "$folder/chain" "$folder/widen"
timed make "$folder/chain" "$folder/widen" --weight 400

# ---- texts of 16 megabytes

# The goal as a row 250,000 times, and then CONV's last row and its unit.
awk 'BEGIN {
    print "C (proof 1)"
    for (i = 1; i <= 250000; i++) print "C (" i " (goal) (or (not (= et?0 (utc2et U)))) (answer et?0))"
    print "C (250001 (reflex 250000 1 (with (utc2et U))) (or) (answer (utc2et U)))"
}' > "$folder/rows"
tail -n 5 tools/guide/conv.text >> "$folder/rows"
echo "text: $(wc -c < "$folder/rows") bytes"
timed check $data/two_routines.theory $data/conv.diagram "$folder/rows"

# A forged row whose lists put a term of 131,072 leaves in the place of each of 16,384 variables: as a tree the instance would
# have thousands of millions of nodes. It isn't made, and the row is refused (status 5), since the parts that should be equal
# have other sizes.
awk 'function tree(depth, leaf, t) { for (t = leaf; depth > 0; depth--) t = "(h " t " " t ")"; return t }
function row(text, at, cut, begin) {
    begin = "C "
    for (at = 1; length(text) - at >= 70; at += cut) {
        cut = 70
        while (substr(text, at + cut - 1, 1) == " ") cut--
        print begin substr(text, at, cut) > proof
        begin = "C+"
    }
    print begin substr(text, at) > proof
}
BEGIN {
    theory = ARGV[1]; diagram = ARGV[2]; proof = ARGV[3]; ARGC = 1
    print "(theory 1)\n(sort q double)\n(routine H (q q) (h q))\n(relation ok (q))" > theory
    print "(axiom (all ((x q)) (ok " tree(14, "x") ")))" > theory
    print "(diagram FORGED)\n(input X q)\n(output Y q)\n(require (ok Y))" > diagram
    print "C (proof 1)" > proof
    row("(1 (axiom 1 1) (or (ok " tree(14, "q?0") ")))")
    row("(2 (goal) (or (not (ok q?0))) (answer q?0))")
    row("(3 (resolve 2 1 1 1 (with X) (with " tree(17, "X") ")) (or) (answer X))")
    print "      SUBROUTINE FORGED(X, Y)\n      DOUBLE PRECISION X\n      DOUBLE PRECISION Y\n      Y = X\n      END" > proof
}' "$folder/forge" "$folder/forged" "$folder/forgery"
echo "text: $(wc -c < "$folder/forgery") bytes"
timed check "$folder/forge" "$folder/forged" "$folder/forgery"

# A unit of 7,200 calls, each of a routine with 12 outputs, so 86,400 locals.
cat > "$folder/spread" << 'END'
(theory 1)
(sort et double)
(routine SPREAD (et et et et et et) (s01 et) (s02 et) (s03 et) (s04 et) (s05 et) (s06 et) (s07 et) (s08 et) (s09 et) (s10 et) (s11 et) (s12 et))
END
printf '(diagram MANY)\n(input A et)\n(output E et)\n(require (= E A))\n' > "$folder/many"
awk 'BEGIN {
    print "C (proof 1)\nC (1 (goal) (or (not (= et?0 A))) (answer et?0))\nC (2 (reflex 1 1 (with A)) (or) (answer A))"
    print "      SUBROUTINE MANY(A, E)\n      DOUBLE PRECISION A\n      DOUBLE PRECISION E"
    for (i = 1; i <= 86400; i++) printf "      DOUBLE PRECISION T%05d\n", i
    for (i = 0; i < 7200; i++) {
        print "      CALL SPREAD("
        for (k = 1; k <= 6; k++) print "     . " (i == 0 ? "A" : sprintf("T%05d", (i * k) % 12 + 1)) ","
        for (k = 1; k <= 12; k++) printf "     . T%05d%s\n", 12 * i + k, (k < 12 ? "," : ")")
    }
    print "      E = A\n      END"
}' > "$folder/calls"
echo "text: $(wc -c < "$folder/calls") bytes"
timed check "$folder/spread" "$folder/many" "$folder/calls"
