#!/usr/bin/env bash
# SPDX-License-Identifier: MIT
# The program where the system makes no thread for a worker, or for one of several. Each run has to
# end with status 4, told as want of memory on standard error, with nothing listed. With as many
# threads as there are workers with an arm it has to end with status 0: one of them is the program's.
# The program has to be built (.ci/run or ./argus --prove leaves it); ARGUS in the environment names
# another. Needs setpriv (util-linux) where it is run as root, whose threads the system doesn't count.
set -u
top=$(cd "$(dirname "$0")/.." && pwd)
room=$(mktemp -d)
trap 'rm -r "$room"' EXIT
cp "${ARGUS:-$top/crates/argus/out/argus}" "$room/argus"
# Three arms with so many steps that none is over before the last one's thread is asked for.
{
    printf 'declare %s atomic_array[int]\n' a b c
    echo coenter
    for arm in a b c; do
        echo topaction
        yes "touch $arm" | head -n 30000
    done
    echo end
} > "$room/script"
chmod -R a+rX "$room"
wrong=0

# Runs the program as one whose threads the system counts: run_counted ARGUMENT..
run_counted() {
    if [ "$(id -u)" = 0 ]; then
        exec setpriv --reuid 65534 --regid 65534 --clear-groups "$room/argus" "$@"
    else
        exec "$room/argus" "$@"
    fi
}

# Runs it with so many threads at the most, itself among them: run_limited THREADS ARGUMENT..
run_limited() {
    local threads=$1
    shift
    (ulimit -u "$threads"; run_counted "$@") < "$room/script" > "$room/listed" 2> "$room/told"
}

# Has to be told as want of memory: try_few THREADS ARGUMENT..
try_few() {
    run_limited "$@"
    local status=$?
    if [ $status = 4 ] && [ "$(cat "$room/told")" = 'out of memory' ] && [ ! -s "$room/listed" ]; then
        echo "$1 threads, ${*:2}: out of memory"
    else
        echo "$1 threads, ${*:2}: status $status, $(cat "$room/told"); wanted: status 4, out of memory"
        wrong=1
    fi
}

# Has to be done: try_enough THREADS ARGUMENT..
try_enough() {
    run_limited "$@"
    local status=$?
    if [ $status = 0 ] && [ ! -s "$room/told" ]; then
        echo "$1 threads, ${*:2}: done"
    else
        echo "$1 threads, ${*:2}: status $status, $(cat "$room/told"); wanted: status 0"
        wrong=1
    fi
}

for patience in 0 1000; do
    try_few 1 --workers 2 --patience $patience
    try_enough 2 --workers 2 --patience $patience
    for workers in 3 8; do
        try_few 1 --workers $workers --patience $patience
        try_few 2 --workers $workers --patience $patience
        try_enough 3 --workers $workers --patience $patience
    done
done
exit $wrong
