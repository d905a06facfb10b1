#!/usr/bin/env bash
# SPDX-License-Identifier: MIT
# Prints what the program takes for scripts of 100,000 lines and of 16 MiB, and for half of each, so
# that one sees how the time grows; and beside it what another program takes for the same, where
# PEERS names one: medians of interleaved runs on the clock, in milliseconds, and the median of the
# ratios within a run. Nothing is compared with a limit, since the figures are the machine's.
#
# The time of reading and parsing alone is that of the same script with one more line, which opens a
# block: it is parsed whole and then refused, since the block isn't closed.
#
#   [PEERS=PROGRAM] [REPS=7] bench/cli.sh
#
# The peer is called as `PROGRAM argus --list bases` with the script as its input, and has to list
# the same.
set -euo pipefail
export LC_ALL=C

top=$(cd "$(dirname "$0")/.." && pwd)
program=$top/crates/argus/out/argus
peers=${PEERS:-}
reps=${REPS:-7}
room=$(mktemp -d)
trap 'rm -r "$room"' EXIT

# actions COUNT: topactions with two subactions, of which one is aborted, over 100 records
actions() {
    awk -v count="$1" 'BEGIN {
        for (n = 0; n < 100; n++) print "declare r" n " atomic_record[n:int,t:text]"
        print "enter topaction"
        for (n = 0; n < 100; n++) print "create r" n " {0,\"none\"}"
        print "end"
        for (n = 202; n + 12 <= count; n += 12) {
            a = n % 97; b = n % 89
            print "enter topaction\nget r" a " n\nset r" a " n " n "\n  enter action\n  set r" b " t \"step " n "\"\n  end"
            print "  enter action\n  set r" b " n -" n "\n  abort leave\n  end\nread r" b "\nend"
        }
    }'
}

# lines COUNT: one object, changed by a block of three lines again and again
lines() {
    awk -v count="$1" 'BEGIN {
        print "declare acct atomic_record[balance:int]\nenter topaction\ncreate acct {0}\nend"
        for (n = 5; n + 3 <= count; n += 3) print "enter topaction\nset acct balance " n "\nend"
    }'
}

# objects COUNT: an object and a block of three lines again and again
objects() {
    awk -v count="$1" 'BEGIN {
        for (n = 0; n + 4 < count; n += 4) print "declare x" n " atomic_record[n:int]\nenter topaction\ncreate x" n " {" n "}\nend"
    }'
}

# texts MEBIBYTES: lines of 65,000 bytes, each a text
texts() {
    awk -v lines="$(($1 * 16))" 'BEGIN {
        text = "x"; while (length(text) < 65000) text = text text; text = substr(text, 1, 65000)
        print "declare t atomic_record[s:text]\nenter topaction\ncreate t {\"\"}"
        for (n = 0; n < lines; n++) print "set t s \"" text "\""
        print "end"
    }'
}

# items MEBIBYTES: lines of 64,000 bytes, each an array of 16,000 integers
items() {
    awk -v lines="$(($1 * 16))" 'BEGIN {
        list = "123"; for (n = 1; n < 16000; n++) list = list ",123"
        print "declare a atomic_array[int]\nenter topaction"
        for (n = 0; n < lines; n++) print "create a 1[" list "]"
        print "end"
    }'
}

# took FIGURES LISTING SCRIPT COMMAND..: one run of the command, whose time goes to the figures
took() {
    local figures=$1 listing=$2 script=$3 start end
    shift 3
    start=$(date +%s%N)
    "$@" < "$script" > "$listing" 2> /dev/null || true
    end=$(date +%s%N)
    echo $((end - start)) >> "$figures"
}

# runs NAME SCRIPT: interleaved runs of the script
runs() {
    for _ in $(seq "$reps"); do
        took "$room/ours-$1" "$room/listing" "$2" "$program"
        if [ -n "$peers" ]; then
            took "$room/theirs-$1" "$room/other" "$2" "$peers" argus --list bases
            cmp -s "$room/listing" "$room/other" || { echo "cli.sh: the peer lists something else of $1" >&2; exit 1; }
        fi
    done
}

median() {
    sort -n "$1" | awk '{ a[NR] = $1 } END { print (a[int((NR + 1) / 2)] + a[int((NR + 2) / 2)]) / 2 }'
}

# figure NAME: the median of ours, and of theirs with the ratio where there is a peer
figure() {
    printf ' %10.2f' "$(median "$room/ours-$1" | awk '{ print $1 / 1e6 }')"
    if [ -n "$peers" ]; then
        paste "$room/ours-$1" "$room/theirs-$1" | awk '{ print $1 / $2 }' > "$room/ratios"
        printf ' %10.2f %6.2f' "$(median "$room/theirs-$1" | awk '{ print $1 / 1e6 }')" "$(median "$room/ratios")"
    fi
}

# report KIND SIZE: a script of this kind and size, parsed, and run
report() {
    local script=$room/$1-$2
    "$1" "$2" > "$script"
    { cat "$script"; echo "enter topaction"; } > "$script-open"
    runs "$1-$2-parse" "$script-open"
    runs "$1-$2-all" "$script"
    printf '%-8s %8s %10s' "$1" "$(wc -l < "$script")" "$(wc -c < "$script")"
    figure "$1-$2-parse"
    figure "$1-$2-all"
    printf '\n'
}

"$top/argus" --prove
printf '%-8s %8s %10s' script lines bytes
for part in parse all; do
    printf ' %10s' "$part (ms)"
    [ -z "$peers" ] || printf ' %10s %6s' 'peer (ms)' ratio
done
printf '\n'
for count in 50000 100000; do
    report actions "$count"
    report lines "$count"
    report objects "$count"
done
for size in 8 16; do
    report texts "$size"
    report items "$size"
done
