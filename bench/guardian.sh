#!/usr/bin/env bash
# SPDX-License-Identifier: MIT
# Prints what a guardian's calls take, and beside it what the same calls take on a guardian by hand,
# where PEERS names a program that makes them: medians of interleaved runs, in nanoseconds on the
# clock, and the median of the ratios within a run. Nothing is compared with a limit, since the
# figures are the machine's.
#
#   [PEERS=PROGRAM] [REPS=5] bench/guardian.sh
#
# The peer is called as `PROGRAM NAME plain-journal TURNS`, and prints words KEY=FIGURE; `key_of` says
# which of its figures stands beside which of ours. Both print the sum of what was read and left,
# which has to be the same.
set -euo pipefail
export LC_ALL=C

top=$(cd "$(dirname "$0")/.." && pwd)
program=$top/crates/argus_bench/out/argus_bench
peers=${PEERS:-}
reps=${REPS:-5}
figures=$(mktemp -d)
trap 'rm -r "$figures"' EXIT

# key_of LINE: the peer's key of this figure of ours, and how many nanoseconds its unit has
key_of() {
    case $1 in
        flat-turns | nested-turns | chain-turns) echo ns_per_op 1 ;;
        commit:*-turns) echo "c$(count_of "$1")" 1 ;;
        abort:*-turns) echo "a$(count_of "$1")" 1 ;;
    esac
}

# count_of LINE: the number between colon and hyphen
count_of() {
    local count=${1#*:}
    echo "${count%-*}"
}

# value KEY FILE: the figure of this key in a line of words KEY=FIGURE
value() {
    awk -v key="$1" '{ for (at = 1; at <= NF; at++) if (index($at, key "=") == 1) print substr($at, length(key) + 2) }' "$2"
}

# ours TURNS WORK..: one run, whose figures go to files of their own
ours() {
    local work part nanos
    "$program" "$@" > "$figures/run"
    while read -r work part _ nanos _; do
        echo "${nanos#ns_each=}" >> "$figures/ours-$work-$part"
        grep -qxF -- "$work-$part" "$figures/lines" || echo "$work-$part" >> "$figures/lines"
    done < "$figures/run"
    left=$(($(sed 's/ .*sum=/ /' "$figures/run" | sort -u | sed 's/.* /+ /')))
}

# theirs NAME TURNS: one run of the peer, whose figures go to the files of ours
theirs() {
    local line key unit
    "$peers" "$1" plain-journal "$2" > "$figures/run"
    if [ "$(value sum "$figures/run")" != "$left" ]; then
        echo "guardian.sh: the peer's $1 doesn't do the same: it leaves $(value sum "$figures/run"), not $left" >&2
        exit 1
    fi
    shift 2
    for line in $(for work; do grep -- "^$work-" "$figures/lines"; done); do
        read -r key unit <<< "$(key_of "$line")"
        value "$key" "$figures/run" | awk -v unit="$unit" '{ print $1 * unit }' >> "$figures/theirs-$line"
    done
}

# beside NAME TURNS WORK..: a run of these works, and one of the peer that makes the same
beside() {
    local name=$1
    shift
    ours "$@"
    if [ -n "$peers" ]; then theirs "$name" "$@"; fi
}

median() {
    sort -n "$1" | awk '{ a[NR] = $1 } END { printf "%.2f", (a[int((NR + 1) / 2)] + a[int((NR + 2) / 2)]) / 2 }'
}

# report LINE: the medians of a figure, and their ratio where the peer has it
report() {
    local mine=$figures/ours-$1 other=$figures/theirs-$1
    printf '%-20s %12.0f' "${1/-/ }" "$(median "$mine")"
    if [ -s "$other" ]; then
        paste "$mine" "$other" | awk '{ print $1 / $2 }' > "$figures/ratios"
        printf ' %12.0f %7.2f' "$(median "$other")" "$(median "$figures/ratios")"
    fi
    printf '\n'
}

mkdir -p "$top/build"
(cd "$top/crates/argus_bench" && rt run > "$top/build/argus_bench.log")
touch "$figures/lines"
# W1 to W4 are the peer program's own arguments: the names that it gives its workloads.
for _ in $(seq "$reps"); do
    beside W1 90000 flat
    beside W2 45000 nested
    beside W3 50000 commit:10 abort:10 commit:1000 abort:1000 commit:60000 abort:60000
    beside W4 5000 chain
done
printf '%-20s %12s' 'work and part' 'ns each'
[ -z "$peers" ] || printf ' %12s %7s' 'by hand' ratio
printf '\n'
while read -r line; do report "$line"; done < "$figures/lines"
