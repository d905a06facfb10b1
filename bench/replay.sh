#!/usr/bin/env bash
# SPDX-License-Identifier: MIT
# Prints how long the program `replay` takes to check a journal's listing of three lines a topaction (a
# begin, a change and a commit of one record), by its size, and beside it the program argus_bench, which makes
# the same calls without a text (commit:1). Both are taken whole, with their start and the end of the guardian:
# medians of interleaved runs, in milliseconds on the clock of `replay`, in nanoseconds of processor time (user's
# and system's) a line and a call, and the median of the ratios within a run. Then the same with negative numbers.
# Nothing is compared with a limit, since the figures are the machine's.
#
#   [REPS=5] [REPLAY=PROGRAM] [BENCH=PROGRAM] bench/replay.sh
#
# The programs have to be built: .ci/run leaves them.
set -euo pipefail
export LC_ALL=C

top=$(cd "$(dirname "$0")/.." && pwd)
replay=${REPLAY:-$top/crates/replay/out/replay}
bench=${BENCH:-$top/crates/argus_bench/out/argus_bench}
reps=${REPS:-5}
room=$(mktemp -d)
trap 'rm -r "$room"' EXIT

# journal TOPACTIONS SIGN: its lines; a guardian begins at most 1,000,000 actions
journal() {
    awk -v count="$1" -v sign="$2" 'BEGIN {
        print n++ " declare atomic_record[balance:int] -> o0"
        for (a = 0; a < count; a++) {
            print n++ " begin_top -> a" a
            print n++ " alter a" a " o0 " (a ? "set_field 0 " sign a : "create {0}") " -> done"
            print n++ " commit a" a " -> done"
        }
    }'
}

# cost COMMAND..: milliseconds on the clock, and microseconds of processor time, of a run
cost() {
    local TIMEFORMAT='%R %U %S'
    { time "$@" > "$room/output" 2> /dev/null; } 2>&1 | awk '{ print int($1 * 1000), int(($2 + $3) * 1000000) }'
}

# took TOPACTIONS SIGN: the cost of checking the listing, whose last change has to come out
took() {
    cost "$replay" --list bases < "$room/journal"
    [ "$(cat "$room/output")" = "o0 {$2$(($1 - 1))}" ]
}

# called TOPACTIONS: the cost of as many turns of three calls. A guardian begins at most 1,000,000 actions, and
# the benchmark begins two beside them.
called() { cost "$bench" $(($1 - 2)) commit:1; }

# median COLUMN: the middle one of the figures in this column
median() { sort -n -k "$1,$1" "$room/figures" | awk -v at="$1" '{ all[NR] = $at } END { print all[int((NR + 1) / 2)] }'; }

# row TOPACTIONS SIGN
row() {
    local lines=$((3 * $1 + 1)) clock line call
    journal "$1" "$2" > "$room/journal"
    for _ in $(seq "$reps"); do
        read -r clock line <<< "$(took "$1" "$2")"
        read -r _ call <<< "$(called "$1")"
        echo "$clock $((1000 * line / lines)) $((1000 * call / lines)) $((100 * line / call))"
    done > "$room/figures"
    printf '%8s %10d %12d %10d %10d %10d %3d.%02d\n' "${2}1" "$lines" "$(wc -c < "$room/journal")" \
        "$(median 1)" "$(median 2)" "$(median 3)" $(($(median 4) / 100)) $(($(median 4) % 100))
}

printf '%8s %10s %12s %10s %10s %10s %6s\n' numbers lines bytes ms 'ns a line' 'ns a call' ratio
for sign in '' -; do
    for topactions in 10000 100000 1000000; do row "$topactions" "$sign"; done
done
