#!/bin/sh
# Times reading and printing formulas of three shapes and three lengths, a character, and shows the bytes that
# 100,000 formulas of 200 characters hold.

bench=$(dirname -- "$(readlink -f -- "$0")")
crate=$bench/../crates/formula_lines
program=$crate/out/formula_lines
lines=$(mktemp) || exit 1
trap 'rm -f "$lines"' EXIT

(cd "$crate" && rt run <stdin >/dev/null 2>&1)
if [ ! -x "$program" ]; then
    echo "formula_lines isn't built" >&2
    exit 1
fi

# The seconds that the program takes on the lines.
seconds() {
    started=$(date +%s%N)
    "$program" <"$lines" >/dev/null || exit
    ended=$(date +%s%N)
    awk -v ns="$((ended - started))" 'BEGIN { printf "%.9f", ns / 1e9 }'
}

for shape in terms signs quotes; do
    for length in 1000 4000 8000; do
        awk -v shape="$shape" -v n="$length" 'BEGIN {
            text = shape == "terms" ? "=1" : "="
            part = shape == "terms" ? "+1" : shape == "signs" ? "-" : "\"\""
            tail = shape == "signs" ? "1" : ""
            while (length(text) + length(part) + length(tail) <= n) text = text part
            text = text tail
            for (i = 0; i < 8000000 / n; i++) print text
        }' >"$lines"
        characters=$(wc -c <"$lines")
        awk -v s="$(seconds)" -v c="$characters" -v shape="$shape" -v n="$length" \
            'BEGIN { printf "%s of %d characters: %.1f ns a character\n", shape, n, s * 1e9 / c }'
    done
done

awk 'BEGIN {
    text = "=SUM(A1:B9)"
    while (length(text) + 4 <= 200) text = text "+$A1"
    for (i = 0; i < 100000; i++) print text
}' >"$lines"
peak() {
    awk '/VmHWM/ { print $2 * 1024 }' "$1"
}
# The peak of resident memory, asked of the program while it waits for the end of its input.
fifo=$(mktemp -u) && mkfifo "$fifo" || exit 1
trap 'rm -f "$lines" "$fifo"' EXIT
"$program" <"$fifo" >/dev/null &
pid=$!
exec 3>"$fifo"
cat "$lines" >&3
sleep 1
bytes=$(peak "/proc/$pid/status")
exec 3>&-
wait "$pid"
awk -v b="$bytes" 'BEGIN { printf "100,000 formulas of 200 characters: %.0f MB, %d bytes each\n", b / 1e6, b / 100000 }'
