#!/usr/bin/env bash
# SPDX-License-Identifier: MIT
# The compiled programs under valgrind's memcheck, each on its stored run: tools/memcheck.sh [NAME..]
#
# What a program prints and its status have to be as `rt ci` wants them, and memcheck may tell no
# error and no lost memory, but for blocks of 8 bytes: each `Heap::new` and `Budget::new` leaves the
# word of its budget behind. Without names those programs are run whose runs take minutes at most.
# Programs have to be built: .ci/run leaves them. Needs Debian's package valgrind.
set -u
top=$(cd "$(dirname "$0")/.." && pwd)
command -v valgrind > /dev/null || { echo 'memcheck.sh: needs the package valgrind' >&2; exit 2; }
[ $# -gt 0 ] || set -- argus replay
work=$(mktemp -d)
trap 'rm -rf "$work"' EXIT
wrong=0

# Runs a program as `rt ci` does: in its data folder, with its input, words and status.
run() {
    local crate=$top/crates/$1 words=() input=/dev/null wanted=0 status
    [ -f "$crate/args" ] && mapfile -t words < "$crate/args"
    [ -f "$crate/stdin" ] && input=$crate/stdin
    [ -f "$crate/status" ] && wanted=$(cat "$crate/status")
    cd "$crate/data" 2> /dev/null || cd "$work"
    valgrind --quiet --error-exitcode=99 --errors-for-leak-kinds=none --leak-check=full --show-leak-kinds=definite,possible --log-file="$work/log" \
        "$crate/out/$1" "${words[@]}" < "$input" > "$work/out" 2> "$work/err"
    status=$?
    cd "$top"
    [ "$status" = "$wanted" ] || { echo "$1: status $status"; cat "$work/log"; return 1; }
    cmp -s "$work/out" "$crate/stdout" || { echo "$1: prints something else"; return 1; }
    judge "$1"
}

# Each record of the log has to be a lost block of 8 bytes.
judge() {
    local records others
    records=$(grep -c 'definitely lost\|possibly lost' "$work/log")
    others=$(grep -v ' 8 bytes in 1 blocks are definitely lost' "$work/log" |
        grep -c 'lost in loss record\|Invalid\|uninitialised\|Mismatched\|overlap')
    echo "$1: $records budgets left behind, $others other records"
    [ "$others" = 0 ] || { cat "$work/log"; return 1; }
}

for name in "$@"; do
    run "$name" || wrong=1
done
exit $wrong
