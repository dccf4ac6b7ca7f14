#!/bin/sh
# Writes a script: 100,000 constants and as many formulas, each of which sums a window of 64 of them, a calc, and then so
# many single edits of a constant, each of them with its recalculation. Its word: the edits.

awk -v edits="${1:?the number of edits}" 'BEGIN {
    for (row = 1; row <= 100064; row++) printf "set A%d %d\n", row, row
    for (row = 1; row <= 100000; row++) printf "set B%d =SUM(A%d:A%d)\n", row, row, row + 63
    print "calc"
    for (edit = 1; edit <= edits; edit++) printf "set A%d %d\ncalc\n", (edit * 7919) % 100000 + 1, -edit
}'
