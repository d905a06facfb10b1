#!/usr/bin/env bash
# SPDX-License-Identifier: MIT
# Prints what a log costs: the bank's orders a second, and how long half of them and all but a hundredth take at the
# most, in milliseconds: in memory; with a sync for each commit; with commits that wait together; replicated, over
# three nodes of etcd on this machine; and SQLite doing the same orders itself (WAL, synchronous FULL) with a savepoint
# for each account. Medians of interleaved runs. Then, of logs of 100,000 and of 1,000,000 entries, the bytes of an
# entry, and what it takes to open them: to make the guardian again; in a database, and copied into etcd.
# Nothing is compared with a limit: the figures are the machine's, and above all its disk's.
#
#   [REPS=3] [TIME=2] [MOST=330] [ROOM=FOLDER] [ENTRIES='100000 1000000'] bench/log.sh
#
# TIME is that of one run in seconds, ROOM a folder on the disk that is measured; build/ if left out. After three
# fifths of MOST seconds no further repetition of the orders is begun, and after four fifths no log is written or
# copied, and none is read again: so it takes about MOST seconds at most, and says what it has left out. The archive
# has to be there (tools/archive.sh makes dist/ of it, or ARGUS_LIB_DIR names where it is), SQLite, etcd and the crates
# that tools/packages.sh names where they are to be compared.
set -euo pipefail
export LC_ALL=C

top=$(cd "$(dirname "$0")/.." && pwd)
reps=${REPS:-3}
time=${TIME:-2}
most=${MOST:-330}
numbers="1 4 16 64"
entries=${ENTRIES:-100000 1000000}
mkdir -p "$top/build"
room=$(mktemp -d "${ROOM:-$top/build}/log.XXXXXX")
nodes=()
end() {
    if [ ${#nodes[@]} != 0 ]; then kill -9 "${nodes[@]}" || true; fi
    wait
    rm -r "$room"
}
trap 'end 2> /dev/null' EXIT
export CARGO_TARGET_DIR=$top/build/log_bench
bench=$CARGO_TARGET_DIR/release/log-bench
etcd_bench=$CARGO_TARGET_DIR/release/log-etcd-bench
sqlite=$top/build/sqlite_bank
endpoints=
prefixes=0

# build NAME: a program in the folder of that name
build() {
    (cd "$top/bench/$1" && cargo build --offline --quiet --release)
}

build_all() {
    build log
    if ! cc -O2 -std=c99 -o "$sqlite" "$top/bench/log/sqlite_bank.c" -lsqlite3 -pthread 2> "$room/words"; then
        echo "SQLite LEFT OUT: $(head -n 1 "$room/words")"
        sqlite=
    fi
    if ! (cd "$top/bench/log_etcd" && cargo metadata --offline --format-version 1) > "$room/words" 2>&1; then
        echo "etcd LEFT OUT: no crates: tools/packages.sh names Debian's packages"
        etcd_bench=
    elif ! command -v etcd > "$room/words"; then
        echo "etcd LEFT OUT: no etcd"
        etcd_bench=
    else
        build log_etcd
    fi
}

# start_node N OF: that one of three nodes, whose ports begin there
start_node() {
    local n=$1 base=$2 all=
    for other in 0 1 2; do all+=,n$other=http://127.0.0.1:$((base + 3 + other)); done
    etcd --name "n$n" --data-dir "$room/etcd$n" --initial-cluster "${all#,}" --log-level error --logger zap \
        --listen-client-urls "http://127.0.0.1:$((base + n))" \
        --advertise-client-urls "http://127.0.0.1:$((base + n))" \
        --listen-peer-urls "http://127.0.0.1:$((base + 3 + n))" \
        --initial-advertise-peer-urls "http://127.0.0.1:$((base + 3 + n))" > "$room/words-$n" 2>&1 &
    nodes+=($!)
    endpoints+=${endpoints:+,}http://127.0.0.1:$((base + n))
}

start_nodes() {
    local base=$((20000 + RANDOM % 10000))
    for n in 0 1 2; do start_node "$n" "$base"; done
    for _ in $(seq 100); do
        if ETCDCTL_API=3 etcdctl --endpoints "$endpoints" endpoint health > "$room/words" 2>&1; then return; fi
        sleep 0.2
    done
    echo "etcd LEFT OUT: three nodes didn't begin: $(tail -n 1 "$room/words-0")"
    etcd_bench=
}

# measured NAME COMMAND..: one run in a folder of its own, which goes afterwards
measured() {
    local name=$1 program=$2
    shift 2
    "$program" "${@/FOLDER/$room/data}" >> "$room/$name"
    rm -rf "$room/data"
}

# median FILE FIELD
median() {
    awk -v field="$2" '{ print $field }' "$1" | sort -n |
        awk '{ a[NR] = $1 } END { print (a[int((NR + 1) / 2)] + a[int((NR + 2) / 2)]) / 2 }'
}

# All ways, once.
measure_orders() {
    local clients way
    measured sync "$bench" sync FOLDER
    for clients in $numbers; do
        for way in memory each group; do
            measured "orders-$way-$clients" "$bench" orders FOLDER "$way" "$clients" "$time"
        done
        if [ -n "$etcd_bench" ]; then
            prefixes=$((prefixes + 1))
            measured "orders-etcd-$clients" "$etcd_bench" orders "$endpoints" "bench$prefixes" "$clients" "$time"
        fi
        if [ -n "$sqlite" ]; then
            measured "orders-sqlite-$clients" "$sqlite" FOLDER full "$clients" "$time"
        fi
    done
}

print_orders() {
    local clients way file
    printf '%8s %-8s %16s %10s %10s\n' clients way 'orders a second' 'half, ms' '99 %, ms'
    for clients in $numbers; do
        for way in memory each group etcd sqlite; do
            file=$room/orders-$way-$clients
            if [ ! -f "$file" ]; then continue; fi
            printf '%8s %-8s %16s %10s %10s\n' "$clients" "$way" "$(median "$file" 3)" "$(median "$file" 4)" \
                "$(median "$file" 5)"
        done
    done
}

# is_late PERCENT: whether that part of the time is over
is_late() {
    [ $((SECONDS * 100)) -gt $((most * $1)) ]
}

# Writes each log, and copies it into etcd.
write_logs() {
    local count
    for count in $entries; do
        if is_late 80; then
            echo "a log of $count entries LEFT OUT: no time"
            continue
        fi
        "$bench" write "$room/log$count" "$count"
        if [ -z "$etcd_bench" ]; then continue; fi
        if is_late 80; then
            echo "a log of $count entries in etcd LEFT OUT: no time"
        else
            "$etcd_bench" copy "$endpoints" "log$count" "$room/log$count"
            touch "$room/etcd-$count"
        fi
    done
}

# Reads each log once.
measure_reading() {
    local count
    for count in $entries; do
        if [ -d "$room/log$count" ]; then "$bench" read "$room/log$count" >> "$room/log-$count"; fi
        if [ -f "$room/etcd-$count" ]; then
            "$etcd_bench" read "$endpoints" "log$count" >> "$room/etcd-$count"
        fi
    done
}

# log ENTRIES BATCHES BYTES OPENED OPENED, etcd ENTRIES READ OPENED READ OPENED
print_log() {
    local file=$room/log-$1
    if [ ! -f "$file" ]; then return; fi
    awk '{ printf "%d entries in %d batches: %.1f bytes an entry in their lines\n", $2, $3, $4 / $2 }' \
        <(head -n 1 "$file")
    echo "  in a database: opened in $(median "$file" 5) s; on the processor $(median "$file" 6) s"
    file=$room/etcd-$1
    if [ ! -f "$file" ]; then return; fi
    echo "  in etcd: read in $(median "$file" 3) s, led in $(median "$file" 4) s;" \
        "on the processor $(median "$file" 5) s and $(median "$file" 6) s"
}

# The processes that were running or waiting for the disk, in the mean of the last minute.
load() {
    echo "$1: load $(cut -d ' ' -f 1 /proc/loadavg) on $(nproc) processors"
}

# repeated PERCENT WHAT COMMAND: as often as was asked for, but no more once that part of the time is over
repeated() {
    local count=0
    until [ "$count" = "$reps" ] || { [ "$count" != 0 ] && is_late "$1"; }; do
        "$3"
        count=$((count + 1))
    done
    echo "$2: medians of $count"
}

build_all
if [ -n "$etcd_bench" ]; then start_nodes; fi
load before
repeated 60 orders measure_orders
write_logs
repeated 80 logs measure_reading
load after
echo "a write of 2,000 bytes and its sync: half of them up to $(median "$room/sync" 2) ms, 99 % up to $(median "$room/sync" 3) ms"
print_orders
for count in $entries; do
    print_log "$count"
done
echo "$SECONDS seconds"
