#!/bin/sh
# How many instructions does the console take for a line? Counts them with callgrind on four inputs
# that are made here by stated rules, and beside them those of a baseline: a small C program that
# reads the same lines, takes each apart and prints "N ok", the least that any console has to do. Of
# both, the start and the end of the program (a run on no lines) are taken off.
#
# usage: tests/speed.sh [CONSOLE]     (CONSOLE: a built console; without it, the one of this checkout)
# Status: 0 measured; 1 the console cannot be built or does not answer every line; 77 valgrind or cc
# is missing, so that nothing was measured. No part of the gate.

root=$(cd "$(dirname "$0")/.." && pwd) || exit 1
for tool in valgrind cc; do
    if ! command -v "$tool" > /dev/null; then
        echo "speed: $tool is missing: nothing was measured" >&2
        exit 77
    fi
done
work=$(mktemp -d) || exit 1
trap 'rm -rf "$work"' EXIT

console=$1
if [ -z "$console" ]; then
    # builds the program, if it is not current
    "$root/console" < /dev/null || exit 1
    console=$root/crates/console/out/console
fi

# Each dispatch in turn is opened, moves on eight sections that nobody else uses, and is closed.
uncontended() {
    awk 'BEGIN {
        for (turn = 0; turn < 600; turn++) {
            d = turn % 64
            print "O " d " 5"
            for (k = 0; k < 8; k++) print "C " d " " (turn * 8 + k) % 1024 " 1"
            print "E " d
        }
    }'
}

# 64 dispatches on six sections: in turn each makes three claims, of which one in four is to move and
# the others are to look; in the fourth turn it lets go of everything (it withdraws, or, if it was
# recalled, acknowledges) and is opened anew. Which section and which use: a small congruential
# generator. Calls of those who wait are refused.
hot64() {
    awk 'function draw(n) { seed = (seed * 1103 + 12345) % 65536; return int(seed / 64) % n }
    BEGIN {
        for (d = 0; d < 64; d++) print "O " d " 3"
        for (turn = 0; turn < 2048; turn++) {
            d = (turn * 37) % 64
            if ((int(turn / 64) + d) % 4 > 0) print "C " d " " draw(6) " " (draw(4) == 0)
            else print "W " d "\nA " d "\nO " d " 3"
        }
    }'
}

# 64 dispatches look on one section, then each wants to move there: the first waits, each later one
# closes a cycle. Then all let go, and it begins again on another section.
upgrades() {
    awk 'BEGIN {
        for (round = 0; round < 8; round++) {
            for (d = 0; d < 64; d++) print "O " d " " d
            for (use = 0; use < 2; use++)
                for (d = 0; d < 64; d++) print "C " d " " round * 7 + 7 " " use
            for (d = 0; d < 64; d++) print "W " d "\nA " d
        }
    }'
}

# 64 dispatches on sixty sections, with up to some 470 claims standing: in turn each makes a claim, one
# in forty to move, and every eighteenth time lets go of everything and is opened anew.
big() {
    awk 'function draw(n) { seed = (seed * 1103 + 12345) % 65536; return int(seed / 64) % n }
    BEGIN {
        for (d = 0; d < 64; d++) print "O " d " 3"
        for (turn = 0; turn < 3000; turn++) {
            d = (turn * 37) % 64
            if ((int(turn / 64) + d) % 18 > 0) print "C " d " " draw(60) " " (draw(40) == 0)
            else print "W " d "\nA " d "\nO " d " 3"
        }
    }'
}

cat > "$work/baseline.c" <<'END'
#include <stdio.h>

static char in[1 << 20], out[1 << 20];

/* Writes the number's digits and gives the place behind them. */
static char *put(char *to, unsigned long number) {
    char digits[20];
    int n = 0;
    do digits[n++] = '0' + number % 10; while (number /= 10);
    while (n > 0) *to++ = digits[--n];
    return to;
}

/* Reads lines of a letter and numbers, and prints "N ok" for each, or a fault where there is none. */
int main(void) {
    size_t length = fread(in, 1, sizeof in - 1, stdin);
    char *at = in, *end = in + length, *to = out;
    unsigned long count = 0, sum = 0;
    while (at < end) {
        char letter = *at++;
        while (*at == ' ') {
            unsigned long number = 0;
            for (at++; *at >= '0' && *at <= '9'; at++) number = number * 10 + (*at - '0');
            sum += number;
        }
        to = put(to, ++count);
        const char *answer = letter >= 'A' && letter <= 'Z' && *at == '\n' ? " ok\n" : " fault\n";
        while (*answer) *to++ = *answer++;
        while (at < end && *at++ != '\n');
    }
    fwrite(out, 1, to - out, stdout);
    return sum == 1; /* so that the numbers are used */
}
END
cc -O2 -o "$work/baseline" "$work/baseline.c" || exit 1

# instructions PROGRAM INPUT: how many the program takes for the input, from its start to its end
instructions() {
    valgrind --tool=callgrind --callgrind-out-file=/dev/null "$1" < "$2" 2> "$work/log" > "$work/out"
    sed -n 's/.*Collected : \([0-9]*\).*/\1/p' "$work/log"
}

: > "$work/none"
console_start=$(instructions "$console" "$work/none")
baseline_start=$(instructions "$work/baseline" "$work/none")
printf '%-12s %6s %10s %10s %8s\n' input lines console baseline ratio
for input in uncontended hot64 upgrades big; do
    "$input" > "$work/$input"
    lines=$(wc -l < "$work/$input")
    plain=$(instructions "$work/baseline" "$work/$input")
    ours=$(instructions "$console" "$work/$input")
    answered=$(awk '{ print $1 }' "$work/out" | uniq | wc -l)
    if [ "$answered" -ne "$lines" ]; then
        echo "speed: the console answered $answered of the $lines lines of $input" >&2
        exit 1
    fi
    ours=$(((ours - console_start) / lines))
    plain=$(((plain - baseline_start) / lines))
    ratio=$(awk "BEGIN { printf \"%.1f\", $ours / $plain }")
    printf '%-12s %6d %10d %10d %8s\n' "$input" "$lines" "$ours" "$plain" "$ratio"
done
echo 'console, baseline: instructions a line; ratio: console / baseline'
