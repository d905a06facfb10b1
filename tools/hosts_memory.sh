#!/usr/bin/env bash
# SPDX-License-Identifier: MIT
# Runs the hosts under memory checkers: all three under valgrind, the one in C under the address, the
# undefined-behaviour and the thread sanitizer too. It names what it leaves out; the status tells
# whether any failed.
#
#   [ARGUS_ARCHIVE=FOLDER] tools/hosts_memory.sh
#
# FOLDER is that of libargus_c.a, as for tools/dist.sh, which makes here what the hosts stand on.
# It needs valgrind (Debian: valgrind) and gcc's sanitizers (Debian: gcc), and for the log of hosts/c SQLite and zlib. The archive itself is not
# compiled for the sanitizers: these see its memory by malloc, and the hosts' own code. Nothing is lost,
# and two threads in one guardian without a mutex are reported.
set -euo pipefail

top=$(cd "$(dirname "$0")/.." && pwd)
room=$top/build/hosts/memory
dist=$room/dist
export ARGUS_LIB_DIR=$dist/lib ARGUS_LIBRARY=$dist/lib/libargus.so.0 PYTHONDONTWRITEBYTECODE=1
failed=0
mkdir -p "$room"
"$top/tools/dist.sh" "$dist"

# tried WHAT COMMAND..: whether the command ends well
tried() {
    local what=$1
    shift
    if "$@" > "$room/log" 2>&1; then
        echo "$what: clean"
    else
        failed=1
        tail -n 40 "$room/log"
        echo "$what: FAILED"
    fi
}

# under_valgrind COMMAND..: no error, and nothing is lost
under_valgrind() {
    valgrind --error-exitcode=9 --leak-check=full --errors-for-leak-kinds=definite,indirect "$@"
}

# The interpreter's own memory isn't looked at for losses.
python_under_valgrind() {
    PYTHONMALLOC=malloc valgrind --error-exitcode=9 --leak-check=no python3 "$@"
}

# sanitized KINDS: builds the host in C so, and runs its tests, its bank and its many calls
sanitized() {
    make -C "$top/hosts/c" OUT="$room/$1" DIST="$dist" \
        CFLAGS="-O1 -g -fno-omit-frame-pointer -fsanitize=$1 -fno-sanitize-recover=all" &&
        "$room/$1/host" test &&
        "$room/$1/host" values &&
        "$room/$1/host" bank 50 &&
        "$room/$1/host" stress 100000
}

# log_sanitized KINDS: builds the tests of logs so, and the log in them, and runs them
log_sanitized() {
    local mode of=$room/$1/logs
    make -C "$top/hosts/c" OUT="$room/$1" DIST="$dist" \
        CFLAGS="-O1 -g -fno-omit-frame-pointer -fsanitize=$1 -fno-sanitize-recover=all" log || return
    rm -rf "$of" && mkdir "$of" || return
    for mode in calls faults; do "$room/$1/log_tests" "$mode" "$of/$mode.db" || return; done
    "$room/$1/log_tests" kills "$of/kills.db" 10 4
}

# Whether the thread sanitizer reports two threads in one guardian.
reports_the_careless() {
    local said
    if said=$("$room/thread/host" careless 2>&1); then return 1; fi
    grep -A 1 "WARNING: ThreadSanitizer: data race" <<< "$said" && grep "argus_call" <<< "$said"
}

# Whether a guardian that finds no memory says so, and nothing worse comes of it.
wants_memory() {
    local said
    if said=$( (ulimit -v 60000 && "$room/plain/host" flat 90000) 2>&1); then return 1; fi
    [ "$said" = "flat: ARGUS_NO_MEMORY" ]
}

tried "hosts/c, address and undefined behaviour" sanitized address,undefined
tried "hosts/c, threads" sanitized thread
tried "hosts/c, threads without a mutex are reported" reports_the_careless
if [ -e "$dist/lib/libargus_log.a" ]; then
    tried "hosts/c log, address and undefined behaviour" log_sanitized address,undefined
    tried "hosts/c log, threads" log_sanitized thread
else
    echo "hosts/c log: LEFT OUT: no libsqlite3-dev or zlib1g-dev"
fi
make -s -C "$top/hosts/c" OUT="$room/plain" DIST="$dist"
tried "hosts/c, want of memory" wants_memory
if ! command -v valgrind > /dev/null; then
    echo "valgrind: LEFT OUT: not installed"
    exit "$failed"
fi
if [ -e "$dist/lib/libargus_log.a" ]; then
    make -s -C "$top/hosts/c" OUT="$room/plain" DIST="$dist" log
    rm -f "$room"/plain/bank.db*
    # Not `calls`, whose forked process leaves SQLite's connections behind, as it has to.
    tried "hosts/c log, valgrind" under_valgrind "$room/plain/log_tests" orders "$room/plain/bank.db" 20
    tried "hosts/c log opened again, valgrind" under_valgrind "$room/plain/log_tests" fold "$room/plain/bank.db"
fi
tried "hosts/c, bank, valgrind" under_valgrind "$room/plain/host" bank 20
tried "hosts/c, stress, valgrind" under_valgrind "$room/plain/host" stress 100000
if cargo --version > /dev/null 2>&1; then
    export CARGO_TARGET_DIR=$room/rust
    cargo --config "$top/hosts/rust/debian.toml" build --offline --quiet --release \
        --manifest-path "$top/hosts/rust/Cargo.toml" --example bank
    tried "hosts/rust, bank, valgrind" under_valgrind "$room/rust/release/examples/bank" 20
else
    echo "hosts/rust: LEFT OUT: no cargo"
fi
if python3 --version > /dev/null 2>&1; then
    tried "hosts/python, bank, valgrind" python_under_valgrind "$top/hosts/python/bank.py" 5
else
    echo "hosts/python: LEFT OUT: no python3"
fi
exit "$failed"
