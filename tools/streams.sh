#!/usr/bin/env bash
# SPDX-License-Identifier: MIT
# The program itself on streams that fail: a full device, closed streams, a folder for its input, and
# a pipe that nobody reads; and the help, the version and the mistakes of argus and replay on a full
# device. Each has to end with status 5, told on standard error unless that is what is full.
# The programs have to be built (.ci/run leaves them); ARGUS and REPLAY in the environment name others.
# Needs /dev/full.
set -u
top=$(cd "$(dirname "$0")/.." && pwd)
program=${ARGUS:-$top/crates/argus/out/argus}
replay=${REPLAY:-$top/crates/replay/out/replay}
script=$top/examples/account.argus
told=$(mktemp)
trap 'rm -f "$told"' EXIT
# A write to a pipe that nobody reads is answered, and doesn't end the program.
trap '' PIPE
wrong=0

# What is tried, the text that has to be told, and the status that came.
check() {
    if [ "$3" = 5 ] && [ "$(cat "$told")" = "$2" ]; then
        echo "$1: $2"
    else
        echo "$1: status $3, $(cat "$told"); wanted: status 5, $2"
        wrong=1
    fi
}

"$program" < "$script" > /dev/full 2> "$told"
check 'a full device' 'write fault' $?
"$program" < "$script" >&- 2> "$told"
check 'closed output' 'write fault' $?
"$program" < / > /dev/null 2> "$told"
check 'a folder as input' 'read fault' $?
"$program" <&- > /dev/null 2> "$told"
check 'closed input' 'read fault' $?
exec 4> >(:)
wait $!
"$program" < "$script" >&4 2> "$told"
check 'a pipe that nobody reads' 'write fault' $?
exec 4>&-

for named in "$program" "$replay"; do
    name=${named##*/}
    "$named" --help > /dev/full 2> "$told"
    check "the help of $name, and a full device" 'write fault' $?
    "$named" --version > /dev/full 2> "$told"
    check "the version of $name, and a full device" 'write fault' $?
    : > "$told"
    "$named" --wrong > /dev/null 2> /dev/full
    check "a mistake in the words of $name, and a full device" '' $?
done
exit $wrong
