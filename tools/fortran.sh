#!/bin/sh
# Has real FORTRAN tools read the texts of units: gfortran as the old dialects and as Fortran 95, f2c
# and ftnchek, each that is installed, over each file that is named (none: those of tools/fortran).
# Syntax alone; but the subroutines of tools/fortran/rows.f and of tools/guide/nearsc.f are linked by gfortran with the
# stubs of tools/fortran/run and run, and what they print is compared with numbers worked out by hand.
# Says which tools ran; fails where one of them finds an error.
cd "$(dirname "$0")/.." || exit 1
[ $# -gt 0 ] || set -- tools/fortran/*.f

failed=0
ran=

# runs a tool over one file, and shows what it says where it fails
try() {
    name=$1
    file=$2
    shift 2
    if ! said=$("$@" 2>&1); then
        echo "fortran.sh: $name refuses $file"
        echo "$said"
        failed=1
    fi
}

work=$(mktemp -d) || exit 1
trap 'rm -rf "$work"' EXIT

for file in "$@"; do
    [ -r "$file" ] || { echo "fortran.sh: cannot read $file"; exit 1; }
done

if command -v gfortran > /dev/null; then
    for standard in legacy f95; do
        ran="$ran gfortran-$standard"
        for file in "$@"; do
            try "gfortran -std=$standard" "$file" gfortran -ffixed-form -fsyntax-only "-std=$standard" -x f77 "$file"
        done
    done
fi

if command -v gfortran > /dev/null; then
    ran="$ran gfortran-run"
    if gfortran -ffixed-form -std=legacy -x f77 -o "$work/rows" tools/fortran/rows.f tools/guide/nearsc.f tools/fortran/run/main.f; then
        "$work/rows" > "$work/printed"
        if ! cmp -s "$work/printed" tools/fortran/run/expected; then
            echo "fortran.sh: the printed subroutines give other numbers:"
            cat "$work/printed"
            failed=1
        fi
    else
        echo "fortran.sh: the printed subroutines don't link"
        failed=1
    fi
fi

if command -v f2c > /dev/null; then
    ran="$ran f2c"
    for file in "$@"; do
        cp "$file" "$work/unit.f" || exit 1
        try f2c "$file" f2c -d"$work" "$work/unit.f"
    done
fi

if command -v ftnchek > /dev/null; then
    ran="$ran ftnchek"
    for file in "$@"; do
        cp "$file" "$work/unit.f" || exit 1
        try ftnchek "$file" ftnchek -usage=none -declare=no -arguments=none "$work/unit.f"
    done
fi

echo "fortran.sh: $# texts; ran:${ran:- none of gfortran, f2c, ftnchek is installed}"
exit $failed
