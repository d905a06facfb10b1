#!/usr/bin/env bash
# SPDX-License-Identifier: MIT
# Prints what a guardian's calls take through C beside the same calls in Rattle, and what memory ten
# million calls through C take, with a checkpoint after each hundred thousand: medians of interleaved
# runs, in nanoseconds on the clock. Nothing is compared with a limit, since the figures are the
# machine's; but both have to read and leave the same, and the memory after the last checkpoint has to
# be that after the first.
#
#   [REPS=7] [TURNS=90000] [CALLS=10000000] bench/embedding.sh
#
# The archive for C has to be there (tools/archive.sh, or `rt lib` in crates/argus_c).
set -euo pipefail
export LC_ALL=C

top=$(cd "$(dirname "$0")/.." && pwd)
program=$top/crates/argus_bench/out/argus_bench
host=$top/build/hosts/c/host
reps=${REPS:-7}
turns=${TURNS:-90000}
calls=${CALLS:-10000000}
figures=$(mktemp -d)
trap 'rm -r "$figures"' EXIT

# took FILE COMMAND..: one run, whose nanoseconds go to the file and whose sum is kept
took() {
    local file=$1 line
    shift
    line=$("$@")
    sed 's/.*ns_each=\([^ ]*\).*/\1/' <<< "$line" >> "$figures/$file"
    sed 's/.*sum=//' <<< "$line" >> "$figures/sums"
}

median() {
    sort -n "$1" | awk '{ a[NR] = $1 } END { print (a[int((NR + 1) / 2)] + a[int((NR + 2) / 2)]) / 2 }'
}

mkdir -p "$top/build"
"$top/tools/dist.sh" "$top/build/hosts/dist" > "$top/build/dist.log"
make -s -C "$top/hosts/c" OUT="$top/build/hosts/c" DIST="$top/build/hosts/dist"
[ -x "$program" ] || (cd "$top/crates/argus_bench" && rt run > "$top/build/argus_bench.log")
for _ in $(seq "$reps"); do
    took rattle "$program" "$turns" flat
    took c "$host" flat "$turns"
done
if [ "$(sort -u "$figures/sums" | wc -l)" != 1 ]; then
    echo "embedding.sh: the two don't do the same" >&2
    exit 1
fi
rattle=$(median "$figures/rattle")
c=$(median "$figures/c")
ratio=$(awk -v c="$c" -v rattle="$rattle" 'BEGIN { printf "%.2f", c / rattle }')
echo "flat, a turn of 10 calls, ns: in Rattle $rattle, through C $c, ratio $ratio"
"$host" bank 5000 > "$figures/bank"
"$host" stress "$calls"
