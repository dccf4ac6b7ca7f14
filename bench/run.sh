#!/bin/sh
# Runs the program on each script and prints the time that it took.

bench=$(dirname -- "$(readlink -f -- "$0")")
program=$bench/../bin/rtdhost
script=$(mktemp) || exit 1
trap 'rm -f "$script"' EXIT

# The nanoseconds that the program takes for the script that these words write.
time_of() {
    "$bench/$@" >"$script" || exit
    started=$(date +%s%N)
    "$program" run <"$script" >/dev/null || exit
    ended=$(date +%s%N)
    echo $((ended - started))
}

# Prints a time in seconds, behind its name.
print_seconds() {
    awk -v name="$1" -v ns="$2" 'BEGIN { printf "%s: %.2f seconds\n", name, ns / 1e9 }'
}

"$program" run </dev/null || exit
for name in constants formula_book wide_sums fan calls notifies; do
    print_seconds "$name" "$(time_of "$name.sh")"
done
for form in lines csv; do
    print_seconds "print $form" "$(($(time_of sheet.sh $form 1) - $(time_of sheet.sh $form 0)))"
done
for order in forward backward; do
    print_seconds "chain $order" "$(time_of chain.sh $order)"
done

# Prints the time of each of 2,000 edits behind a name: that of a script with them, less that of the same without them.
print_edits() {
    awk -v name="$1" -v ns="$(($3 - $2))" 'BEGIN { printf "%s: %.1f microseconds each\n", name, ns / 2000 / 1e3 }'
}

for size in 1000 10000 50000; do
    print_edits "edits in a book of $size" "$(time_of edits.sh $size 0)" "$(time_of edits.sh $size 2000)"
done
print_edits "edits under windows" "$(time_of windows.sh 0)" "$(time_of windows.sh 2000)"

# Prints the time of each of 200 rounds behind a name: that of a script with them, less that of the same without them.
print_rounds() {
    awk -v name="$1" -v ns="$(($3 - $2))" 'BEGIN { printf "%s: %.1f milliseconds each\n", name, ns / 200 / 1e6 }'
}

print_rounds "rounds of quotes" "$(time_of quotes.sh 0)" "$(time_of quotes.sh 200)"
print_rounds "rounds of few calls" "$(time_of few_calls.sh 0)" "$(time_of few_calls.sh 200)"
print_seconds "topics that leave" "$(($(time_of leaving.sh leave) - $(time_of leaving.sh read)))"
