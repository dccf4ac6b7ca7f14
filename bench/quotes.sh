#!/bin/sh
# Writes a script: 1,000 topics on four servers under 20,000 formulas, a calc, and then so many rounds of 50 publications,
# a notify of each server, a pull and a calc. Its word: the rounds.

awk -v rounds="${1:?the number of rounds}" 'BEGIN {
    for (server = 0; server < 4; server++) print "server feed" server
    print "throttle 0"
    for (topic = 0; topic < 1000; topic++) printf "publish feed%d \"t%d\" %d\n", topic % 4, topic, topic
    for (row = 1; row <= 20000; row++) {
        topic = row % 1000
        printf "set A%d =RTD(\"feed%d\",\"\",\"t%d\")+%d\n", row, topic % 4, topic, row
    }
    print "calc"
    for (round = 1; round <= rounds; round++) {
        for (k = 0; k < 50; k++) {
            topic = (round * 50 + k * 7) % 1000
            printf "publish feed%d \"t%d\" %d\n", topic % 4, topic, round * 1000 + k
        }
        for (server = 0; server < 4; server++) print "notify feed" server
        printf "pull %d\ncalc\n", round
    }
}'
