#!/bin/sh
# Writes a script: a server, and 999,999 lines that notify it.

exec awk 'BEGIN {
    print "server feed"
    for (k = 1; k <= 999999; k++) print "notify feed"
}'
