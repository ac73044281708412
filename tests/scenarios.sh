#!/bin/sh
# Runs the console on each scenario and compares what it prints with what the rules say it has to print.
# A scenario is a folder of tests/scenarios: args (as on the command line), input, expected.
# Status 0: all is as expected. With scenario names as arguments, only those are run.

root=$(cd "$(dirname "$0")/.." && pwd) || exit 2
program=$root/crates/console/out/console
passed=0
failed=0

# Is the program missing, or older than something that it is made of?
is_stale() {
    test -x "$program" || return 0
    newer=$(cd "$root" && find crates.txt crates -name out -prune -o \( -name '*.rt' -o -name '*.antt' \) -newer "$program" -print | sed 1q)
    test -n "$newer"
}

build() {
    echo 'scenarios: the console is missing or older than its sources: rt run' >&2
    (cd "$root/crates/console" && rt run) </dev/null >"$scratch/check" 2>&1 && touch "$program" && return
    tail -n 20 "$scratch/check" >&2
    exit 2
}

# note NAME TRUTH: counts a result and prints its line.
note() {
    if test "$2" = yes; then
        passed=$((passed + 1))
        echo "ok      $1"
    else
        failed=$((failed + 1))
        echo "FAILED  $1"
    fi
}

run_scenario() {
    folder=$root/tests/scenarios/$1
    truth=no
    if ! test -d "$folder"; then
        note "$1: there is no such scenario" no
        return
    fi
    : >"$scratch/diff"
    if "$program" $(cat "$folder/args") <"$folder/input" >"$scratch/printed" 2>"$scratch/said" &&
        diff "$folder/expected" "$scratch/printed" >"$scratch/diff" && ! test -s "$scratch/said"; then
        truth=yes
    fi
    note "$1" $truth
    test $truth = yes || sed 's/^/        /' "$scratch/diff" "$scratch/said"
}

# refuses WORDS ARGUMENT..: with these arguments the console prints nothing, says WORDS on standard error,
# and ends with status 1.
refuses() {
    words=$1
    shift
    echo 'O 1 5' | "$program" "$@" >"$scratch/printed" 2>"$scratch/said"
    status=$?
    truth=no
    if test $status -eq 1 && ! test -s "$scratch/printed" &&
        grep -q -F -e "$words" "$scratch/said" && grep -q '^usage: console' "$scratch/said"; then
        truth=yes
    fi
    note "wrong arguments: $*" $truth
    test $truth = yes || sed 's/^/        /' "$scratch/said"
}

check_wrong_arguments() {
    refuses 'no arguments or three' continuous
    refuses 'no arguments or three' continuous two
    refuses 'no arguments or three' continuous two newest newest
    refuses 'DETECTION is continuous or periodic' sometimes two newest
    refuses 'DETECTION is continuous or periodic' Continuous two newest
    refuses 'DETECTION is continuous or periodic' '' two newest
    refuses 'TABLE is two, five or span' periodic six newest
    refuses 'TABLE is two, five or span' periodic twos newest
    refuses 'ORDER is newest, lightest or fewest' periodic five oldest
    refuses 'ORDER is newest, lightest or fewest' periodic five newest,
    refuses 'ORDER is newest, lightest or fewest' periodic five ,newest
    refuses 'ORDER is newest, lightest or fewest' periodic five newest,oldest
    refuses 'ORDER is newest, lightest or fewest' periodic five newest,lightest,fewest
}

# The program's own name is no argument, and may be no text.
check_name() {
    odd=$scratch/$(printf '\377')
    mkdir "$odd" && cp "$program" "$odd/console" || exit 2
    truth=no
    if test "$(echo 'O 1 5' | "$odd/console" 2>&1)" = '1 ok'; then
        truth=yes
    fi
    note 'a name that is no text' $truth
}

scratch=$(mktemp -d) || exit 2
trap 'rm -rf "$scratch"' EXIT
if is_stale; then
    build
fi
if test $# -gt 0; then
    for name; do
        run_scenario "$name"
    done
else
    for folder in "$root"/tests/scenarios/*/; do
        run_scenario "$(basename "$folder")"
    done
    check_wrong_arguments
    check_name
fi
echo "$passed as expected, $failed not"
test $failed -eq 0
