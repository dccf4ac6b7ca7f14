#!/bin/sh
# Writes a script: 20,000 formulas that all name one cell, a calc, and then that cell set and calculated once more.

awk 'BEGIN {
    print "set A1 1"
    for (row = 1; row <= 20000; row++) printf "set B%d =$A$1+%d\n", row, row
    print "calc"
    print "set A1 2"
    print "calc"
}'
