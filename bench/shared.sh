#!/usr/bin/env bash
# SPDX-License-Identifier: MIT
# Prints what the calls of threads on a shared guardian take, and what its lookers and its board
# take; and beside it what the same takes on a guardian by hand, where PEERS names a program that
# does it: medians of interleaved runs, in nanoseconds on the clock for each (of all threads
# together), how many that are a second, and the median of the ratios within a run. Nothing is
# compared with a limit, since the figures are the machine's.
#
#   [PEERS=PROGRAM] [REPS=5] [MILLIS=300] bench/shared.sh [WORK..]
#
# The peer is called with the words that stand behind a work and its turns in `works`, and prints
# words KEY=FIGURE. Both print the sum of what was read and left, or of the looks that show two
# records that disagree, which has to be the same.
set -euo pipefail
export LC_ALL=C

top=$(cd "$(dirname "$0")/.." && pwd)
program=$top/crates/argus_bench/out/argus_bench
peers=${PEERS:-}
reps=${REPS:-5}
millis=${MILLIS:-300}
figures=$(mktemp -d)
trap 'rm -r "$figures"' EXIT

# works: each work with its turns, and the words by which the peer does the same. W1 to W7 are the
# peer program's own arguments: the names that it gives its workloads.
works() {
    cat << END
shared:flat 90000 W1 plain-shared 90000
shared:nested 45000 W2 plain-shared 45000
own:1 40000 W6 plain-shared 40000 1 disjoint
own:4 40000 W6 plain-shared 40000 4 disjoint
hot:1 40000 W6 plain-shared 40000 1 hot
hot:4 40000 W6 plain-shared 40000 4 hot
batch:1 40000 W6 plain-batch 40000 1 disjoint
batch:4 40000 W6 plain-batch 40000 4 disjoint
busy:1 $millis W5 guardian-board-c $millis 1
busy:3 $millis W5 guardian-board-c $millis 3
idle:1 $millis W5 guardian-board-c@0 $millis 1
idle:3 $millis W5 guardian-board-c@0 $millis 3
END
}

# value KEY FILE: the figure of this key in lines of words KEY=FIGURE
value() {
    awk -v key="$1" '{ for (at = 1; at <= NF; at++) if (index($at, key "=") == 1) print substr($at, length(key) + 2) }' "$2"
}

# nanos PART: those of the peer's last run for this part
nanos() {
    case $1 in
        turns) value ns_per_op "$figures/peer" ;;
        looks) value reads_per_s "$figures/peer" | awk '{ print 1e9 / $1 }' ;;
        commits) value commits_per_s "$figures/peer" | awk '{ print 1e9 / $1 }' ;;
    esac
}

# beside WORK TURNS WORDS..: a run of this work and one of the peer, whose figures go to files
beside() {
    local work=$1 turns=$2 line part count each sum
    shift 2
    "$program" "$turns" "$work" < /dev/null > "$figures/ours"
    if [ -n "$peers" ]; then "$peers" "$@" < /dev/null > "$figures/peer"; fi
    while read -r _ part count each sum; do
        [ "$count" != n=0 ] || continue
        line=$work-$part
        grep -qxF -- "$line" "$figures/lines" || echo "$line" >> "$figures/lines"
        echo "${each#ns_each=}" >> "$figures/ours-$line"
        if [ -n "$peers" ]; then
            nanos "$part" >> "$figures/peer-$line"
            compare "$work" "${sum#sum=}"
        fi
    done < "$figures/ours"
}

# compare WORK SUM: ends the script where the peer's last run has another sum
compare() {
    local other
    other=$(value sum "$figures/peer")$(value torn "$figures/peer")
    if [ "$other" != "$2" ]; then
        echo "shared.sh: the peer's $1 doesn't do the same: it leaves $other, not $2" >&2
        exit 1
    fi
}

median() {
    sort -n "$1" | awk '{ a[NR] = $1 } END { printf "%.2f", (a[int((NR + 1) / 2)] + a[int((NR + 2) / 2)]) / 2 }'
}

# report LINE: the medians of a figure, and their ratio where the peer has it
report() {
    local mine=$figures/ours-$1 other=$figures/peer-$1
    median "$mine" | awk -v line="${1/-/ }" '{ printf "%-22s %10.0f %12.0f", line, $1, 1e9 / $1 }'
    if [ -s "$other" ]; then
        paste "$mine" "$other" | awk '{ print $1 / $2 }' > "$figures/ratios"
        median "$other" | awk '{ printf " %10.0f %12.0f", $1, 1e9 / $1 }'
        printf ' %6.2f' "$(median "$figures/ratios")"
    fi
    printf '\n'
}

mkdir -p "$top/build"
(cd "$top/crates/argus_bench" && rt run > "$top/build/argus_bench.log")
touch "$figures/lines"
for _ in $(seq "$reps"); do
    while read -r work words; do
        if [ $# -gt 0 ] && [[ " $* " != *" $work "* ]]; then continue; fi
        # shellcheck disable=SC2086
        beside "$work" $words
    done < <(works)
done
printf '%-22s %10s %12s' 'work and part' 'ns each' 'a second'
[ -z "$peers" ] || printf ' %10s %12s %6s' 'by hand' 'a second' ratio
printf '\n'
while read -r line; do report "$line"; done < "$figures/lines"
