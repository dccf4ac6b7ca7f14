#!/bin/sh
# Writes a script: 100,000 lines that set a constant, and one that prints.

exec awk 'BEGIN {
    for (row = 1; row <= 100000; row++)
        print "set A" row " " row
    print "print"
}'
