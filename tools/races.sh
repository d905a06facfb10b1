#!/usr/bin/env bash
# SPDX-License-Identifier: MIT
# The program, by workers, under valgrind's drd and helgrind: no error may be told.
# These tools see threads, and the memory that they touch; the library's own locks are atomic steps
# and waits, of which they know nothing, and they run one thread at a time.
# The program has to be built (.ci/run or ./argus --prove leaves it). Needs Debian's package valgrind.
set -u
top=$(cd "$(dirname "$0")/.." && pwd)
program=$top/crates/argus/out/argus
if ! command -v valgrind > /dev/null; then
    echo 'races.sh needs Debian'\''s package valgrind' >&2
    exit 2
fi
script=$(mktemp)
trap 'rm -f "$script"' EXIT
wrong=0

# 64 arms, each of which reads two of 20 records and sets a third.
awk 'BEGIN {
    for (k = 0; k < 20; k++) print "declare x" k " atomic_record[n:int]"
    print "enter topaction"
    for (k = 0; k < 20; k++) print "create x" k " {0}"
    print "end\ncoenter"
    for (a = 0; a < 64; a++)
        print "topaction\nread x" a % 20 "\nset x" a * 7 % 20 " n " a "\nread x" (a * 3 + 1) % 20
    print "end"
}' > "$script"

for tool in drd helgrind; do
    for workers in 2 8; do
        if valgrind --tool=$tool --error-exitcode=9 -q "$program" --workers $workers < "$script" > /dev/null; then
            echo "$tool, $workers workers: no error"
        else
            echo "$tool, $workers workers: errors"
            wrong=1
        fi
    done
done
exit $wrong
