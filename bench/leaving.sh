#!/bin/sh
# Writes a script: 10,000 topics, each read by one cell, and a calc; then all these cells are cleared, and a calc in which
# the topics leave together. With the word `read` alone they aren't cleared.

awk -v leave="${1:?read or leave}" 'BEGIN {
    print "server feed"
    for (topic = 1; topic <= 10000; topic++) printf "publish feed \"t%d\" %d\n", topic, topic
    for (row = 1; row <= 10000; row++) printf "set A%d =RTD(\"feed\",\"\",\"t%d\")\n", row, row
    print "calc"
    if (leave == "leave") for (row = 1; row <= 10000; row++) printf "clear A%d\n", row
    print "calc"
}'
