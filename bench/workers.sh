#!/usr/bin/env bash
# SPDX-License-Identifier: MIT
# Prints what a call takes in a script of 10,000 arms that 1, 2, 4 and 8 workers run, and beside it
# what a call takes on a guardian by hand behind a mutex, with as many threads, where PEERS names a
# program that makes them: medians of interleaved runs on the clock, in nanoseconds. Nothing is
# compared with a limit, since the figures are the machine's.
#
# The program argus runs the script, so its time includes reading the script, the receipts and their
# test. The peer runs no script: its threads make their calls right away, keep no receipts and test
# none. It has objects for four threads and with more it never ends, so it isn't asked for eight.
#
#   [ARGUS=PROGRAM] [PEERS=PROGRAM] [REPS=5] bench/workers.sh
#
# The peer is called as `PROGRAM W6 plain-shared 10000 THREADS disjoint`, and prints ns_per_op of a
# topaction of 14 calls (W6 is the peer program's own name for this work).
set -euo pipefail
export LC_ALL=C

top=$(cd "$(dirname "$0")/.." && pwd)
argus=${ARGUS:-$top/crates/argus/out/argus}
peers=${PEERS:-}
most=4
reps=${REPS:-5}
figures=$(mktemp -d)
trap 'rm -r "$figures"' EXIT

# A script that creates 1,000 records in one topaction, and then has 10,000 arms, each of which reads
# 4 records and sets them: 102,002 calls. Arms of 1, 2, 4 or 8 workers share none.
script() {
    awk 'BEGIN {
        for (r = 0; r < 1000; r++) print "declare r" r " atomic_record[n:int]"
        print "enter topaction"
        for (r = 0; r < 1000; r++) print "create r" r " {0}"
        print "end"
        print "coenter"
        for (arm = 0; arm < 10000; arm++) {
            print "topaction"
            for (k = 0; k < 4; k++) {
                r = (int(arm / 8) % 31 + k * 31) * 8 + arm % 8
                print "get r" r " n"
                print "set r" r " n " arm
            }
        }
        print "end"
    }'
}

# ours WORKERS: one run
ours() {
    local begin
    begin=$(date +%s%N)
    "$argus" --workers "$1" --patience 1000 < "$figures/script" > /dev/null
    echo $((($(date +%s%N) - begin) / 102002)) >> "$figures/ours-$1"
}

# theirs THREADS: one run of the peer
theirs() {
    "$peers" W6 plain-shared 10000 "$1" disjoint \
        | awk '{ for (at = 1; at <= NF; at++) if (index($at, "ns_per_op=") == 1) print substr($at, 11) / 14 }' \
            >> "$figures/theirs-$1"
}

median() {
    sort -n "$1" | awk '{ a[NR] = $1 } END { printf "%.0f", (a[int((NR + 1) / 2)] + a[int((NR + 2) / 2)]) / 2 }'
}

script > "$figures/script"
for _ in $(seq "$reps"); do
    for workers in 1 2 4 8; do
        ours "$workers"
        if [ -n "$peers" ] && [ "$workers" -le "$most" ]; then theirs "$workers"; fi
    done
done
printf '%-8s %12s' workers 'ns a call'
[ -z "$peers" ] || printf ' %12s' 'by hand'
printf '\n'
for workers in 1 2 4 8; do
    printf '%-8s %12s' "$workers" "$(median "$figures/ours-$workers")"
    if [ -n "$peers" ] && [ "$workers" -le "$most" ]; then
        printf ' %12s' "$(median "$figures/theirs-$workers")"
    fi
    printf '\n'
done
