#!/bin/sh
# Writes a script: 20,000 constants, 20,000 formulas over them (sums of areas of 64 rows, joined texts, nested IFs), a
# recalculation, and a print.

exec awk 'BEGIN {
    for (row = 1; row <= 20000; row++)
        print "set A" row " " row
    for (row = 1; row <= 20000; row++) {
        if (row % 3 == 0)
            formula = "=SUM(A" row ":A" row + 63 ")"
        else if (row % 3 == 1)
            formula = "=\"row \"&A" row "&\" of \"&LEN(A" row ")&\" digits\""
        else
            formula = "=IF(A" row ">1000,IF(A" row ">5000,\"high\",\"middle\"),IF(A" row ">100,\"low\",A" row "))"
        print "set B" row " " formula
    }
    print "calc"
    print "print"
}'
