#!/bin/sh
# Writes a script: a book of 100,000 formulas, 100 of which ask for a call of a constant, answered once, and then so many
# recalculations in which these 100 cells ask again. Its word: the recalculations.

awk -v rounds="${1:?the number of recalculations}" '
function answer(round,    k) {
    print "begin"
    print "settle"
    for (k = 1; k <= 100; k++) printf "return %d:C%d#1 %d\n", round, k, round + k
    print "settle"
}
BEGIN {
    print "register SLOW >QX"
    for (row = 1; row <= 99900; row++) printf "set B%d =A1+%d\n", row, row
    for (k = 1; k <= 100; k++) printf "set C%d =SLOW(D1)\n", k
    answer(1)
    for (round = 2; round <= rounds + 1; round++) {
        printf "set D1 %d\n", round
        answer(round)
    }
}'
