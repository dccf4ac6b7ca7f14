#!/bin/sh
# Writes a script: 20,000 constants, 200 sums over all of them, a recalculation, and a print.

exec awk 'BEGIN {
    for (row = 1; row <= 20000; row++)
        print "set A" row " " row
    for (row = 1; row <= 200; row++)
        print "set B" row " =SUM(A1:A20000)+" row
    print "calc"
    print "print"
}'
