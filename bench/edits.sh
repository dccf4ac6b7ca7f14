#!/bin/sh
# Writes a script: a book of so many constants and as many formulas, each of which names one of them, a calc, and then so
# many single edits, each of them with its recalculation. Its words: the constants, and the edits.

awk -v size="${1:?the size of the book}" -v edits="${2:?the number of edits}" 'BEGIN {
    for (row = 1; row <= size; row++) printf "set A%d %d\nset B%d =A%d+1\n", row, row, row, row
    print "calc"
    for (edit = 1; edit <= edits; edit++) printf "set A%d %d\ncalc\n", (edit * 7919) % size + 1, -edit
}'
