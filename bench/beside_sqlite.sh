#!/usr/bin/env bash
# SPDX-License-Identifier: MIT
# Prints how many orders a second hosts in C, Rust and Python carry out, each beside the same orders over
# SQLite in memory; and how many requests a second the shop of hosts/python answers, beside its twin over
# SQLite. Medians of interleaved runs; a ratio is the median of those within a run.
# Nothing is compared with a limit, since the figures are the machine's; but all have to leave the same
# seats to the same orders, and the shops have to sell each seat once.
#
#   [REPS=5] [ORDERS=100000] [REQUESTS=1000] bench/beside_sqlite.sh
#
# An order takes two of 1,000 seats: a topaction with a subaction for each seat, which locks it, reads who
# holds it and sets that; 12 calls. In SQLite a transaction with a savepoint for each seat; 10 statements.
# Python carries out a tenth of ORDERS. Figures of orders are by processor time, with one thread; those of
# requests by the clock, with 24 of them at once from another process.
#
# dist/ or build/hosts/dist has to be there (tools/dist.sh), and SQLite (Debian: libsqlite3-dev) and Python's
# headers (python3-dev); for the shops aiohttp (python3-aiohttp). It takes less than a minute.
set -euo pipefail
export LC_ALL=C PYTHONDONTWRITEBYTECODE=1 SHOP_SEATS=${SHOP_SEATS:-600}

top=$(cd "$(dirname "$0")/.." && pwd)
reps=${REPS:-5}
orders=${ORDERS:-100000}
requests=${REQUESTS:-1000}
built=$top/build/beside_sqlite
figures=$(mktemp -d)
server=
trap 'stop_server; rm -r "$figures"' EXIT

# The library: that of dist/, or what hosts/run has made.
find_library() {
    local folder
    for folder in "$top/dist" "$top/build/hosts/dist"; do
        if [ -f "$folder/lib/libargus.so.0" ]; then dist=$folder && return; fi
    done
    echo "beside_sqlite.sh: no dist/: tools/dist.sh makes it" >&2
    exit 1
}

# A Python that has aiohttp, if there is one.
find_python() {
    for python in python3 /usr/bin/python3; do
        if "$python" -c 'import aiohttp' 2> /dev/null; then return; fi
    done
    python=python3
}

build() {
    local words=(-std=c11 -O2 -Wall -Wextra)
    mkdir -p "$built"
    export ARGUS_LIB_DIR=$dist/lib ARGUS_LIBRARY=$dist/lib/libargus.so.0
    cc "${words[@]}" -I "$dist/include" -o "$built/guardian_orders" "$top/bench/orders/guardian_orders.c" \
        "$dist/lib/libargus.a" -pthread
    cc "${words[@]}" -o "$built/sqlite_orders" "$top/bench/orders/sqlite_orders.c" -lsqlite3
    CARGO_TARGET_DIR=$built/rust cargo build --offline --quiet --release \
        --manifest-path "$top/bench/orders/Cargo.toml"
    rm -rf "$built/python"
    cp -r "$top/hosts/python" "$built/python"
    # The package as pip builds it.
    (cd "$built/python" && "$python" setup.py --quiet build_ext --inplace) > "$built/log" 2>&1 || cat "$built/log"
    "$python" -c "import sys; sys.path.insert(0, '$built/python'); import argus_guardian._call" ||
        echo "beside_sqlite.sh: no headers of Python, so the package's calls go by ctypes" >&2
}

# took NAME COMMAND..: one run, of whose figure a line is added to the file, and whose sum is kept
took() {
    local name=$1 line
    shift
    line=$("$@")
    echo "${line% *}" >> "$figures/$name"
    echo "${line#* }" >> "$figures/sums.${name%%.*}"
}

median() {
    sort -g | awk '{ a[NR] = $1 } END { print (a[int((NR + 1) / 2)] + a[int((NR + 2) / 2)]) / 2 }'
}

# told WHAT GUARDIAN SQLITE
told() {
    local here there ratio
    here=$(median < "$figures/$2")
    there=$(median < "$figures/$3")
    ratio=$(paste "$figures/$2" "$figures/$3" | awk '{ print $1 / $2 }' | median)
    printf '%-10s %10.0f %10.0f %8.2f\n' "$1" "$here" "$there" "$ratio"
}

measure_orders() {
    local fewer=$((orders / 10)) file
    for _ in $(seq "$reps"); do
        took all.c "$built/guardian_orders" "$orders"
        took all.rust "$built/rust/release/orders-bench" "$orders"
        took all.sqlite "$built/sqlite_orders" "$orders"
        took python.guardian env PYTHONPATH="$built/python" "$python" "$top/bench/orders/orders.py" guardian "$fewer"
        took python.sqlite env PYTHONPATH="$built/python" "$python" "$top/bench/orders/orders.py" sqlite "$fewer"
    done
    for file in "$figures"/sums.*; do
        if [ "$(sort -u "$file" | wc -l)" != 1 ]; then
            echo "beside_sqlite.sh: they don't leave the same" >&2
            exit 1
        fi
    done
    printf '%-10s %10s %10s %8s\n' orders guardian SQLite ratio
    told C all.c all.sqlite
    told Rust all.rust all.sqlite
    told Python python.guardian python.sqlite
}

stop_server() {
    if [ -n "$server" ]; then
        kill "$server"
        wait "$server" || true
    fi
    server=
}

# Serves a shop on a free port: served FILE
served() {
    port=$("$python" -c 'import socket; it = socket.socket(); it.bind(("127.0.0.1", 0)); print(it.getsockname()[1])')
    "$python" "$built/python/$1" "$port" > /dev/null 2>&1 &
    server=$!
    for _ in $(seq 100); do
        if (: < "/dev/tcp/127.0.0.1/$port") 2> /dev/null; then return; fi
        sleep 0.1
    done
    echo "beside_sqlite.sh: $1 isn't served" >&2
    exit 1
}

# loaded NAME FILE: one run, of whose requests a second a line is added to the file
loaded() {
    served "$2"
    if ! "$python" "$built/python/shop_load.py" "http://127.0.0.1:$port" "$requests" \
        > "$figures/stdout" 2> "$figures/stderr"; then
        cat "$figures/stdout" "$figures/stderr" >&2
        exit 1
    fi
    stop_server
    head -n 1 "$figures/stderr" > "$figures/told"
    sed 's/ .*//' "$figures/told" >> "$figures/$1"
    sed 's/.*half of them within \([0-9]*\) ms.*/\1/' "$figures/told" >> "$figures/$1.half"
}

measure_requests() {
    if ! "$python" -c 'import aiohttp' 2> /dev/null; then
        echo "requests LEFT OUT: no aiohttp"
        return
    fi
    for _ in $(seq "$reps"); do
        loaded shop.guardian shop.py
        loaded shop.sqlite shop_in_sqlite.py
    done
    printf '%-10s %10s %10s %8s\n' requests guardian SQLite ratio
    told "a second" shop.guardian shop.sqlite
    told "half, ms" shop.guardian.half shop.sqlite.half
    sed 's/.*ms; //' "$figures/told"
}

find_library
find_python
build
measure_orders
measure_requests
