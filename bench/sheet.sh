#!/bin/sh
# Writes a script: 300,000 constants, a calc, and so many prints of this form. Its words: the form, lines or csv, and the
# number of prints.

awk -v form="${1:?lines or csv}" -v prints="${2:?the number of prints}" 'BEGIN {
    for (row = 1; row <= 300000; row++) printf "set A%d %d\n", row, row
    print "calc"
    for (k = 0; k < prints; k++) print (form == "csv" ? "print csv" : "print")
}'
