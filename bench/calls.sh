#!/bin/sh
# Writes a script: 20,000 cells that ask for a call, a begin and a settle, then two returns for each call, the second of
# which is refused, and a settle.

awk 'BEGIN {
    print "register SLOW >QX"
    for (row = 1; row <= 20000; row++) printf "set A%d =SLOW(%d)\n", row, row
    print "begin"
    print "settle"
    for (row = 1; row <= 20000; row++) printf "return 1:A%d#1 %d\nreturn 1:A%d#1 0\n", row, row, row
    print "settle"
}'
