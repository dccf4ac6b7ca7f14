#!/bin/sh
# Writes a script: a chain of 5,000 formulas, each of which names the next cell, and a calc; `forward` sets each cell
# after the one that it names, `backward` before it.

case $1 in
forward) order='-v from=4999 -v to=0 -v by=-1' ;;
backward) order='-v from=1 -v to=5000 -v by=1' ;;
*)
    echo "usage: $0 forward | backward" >&2
    exit 2
    ;;
esac
awk $order 'BEGIN {
    print "set A5000 1"
    for (row = from; row != to; row += by) if (row < 5000) printf "set A%d =A%d+1\n", row, row + 1
    print "calc"
}'
