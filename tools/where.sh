#!/bin/sh
# where.sh FILE BYTE: the line and the column, both from 1, of the byte with this offset, from 0, and the line itself.
[ $# -eq 2 ] && [ -r "$1" ] || { echo "usage: where.sh FILE BYTE"; exit 1; }
line=$(($(head -c "$2" "$1" | wc -l) + 1))
column=$(($(head -c "$2" "$1" | tail -n 1 | wc -c) + 1))
# a byte behind the end of a line stands first on the next one
[ "$(head -c "$2" "$1" | tail -c 1 | od -An -tx1 | tr -d ' ')" = 0a ] && column=1
echo "line $line, column $column"
sed -n "${line}p" "$1"
