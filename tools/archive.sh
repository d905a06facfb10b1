#!/usr/bin/env bash
# SPDX-License-Identifier: MIT
# Builds the archive for programs in C over the libraries that .ci/run has just proved, in a minute
# or two: crates/argus_c/out/libargus_c.a. Of that it makes dist/ (tools/dist.sh says what is in it).
#
# The gate proves the static library but builds no archive, and leaves the libraries below it without
# the stamp by which `rt lib` knows its own, so that `rt lib` would prove each of them again. Here the
# static library alone is proved once more, as each build does. Where the libraries have stamps, as
# in a clone that one works in, `rt lib` does it.
set -euo pipefail

top=$(cd "$(dirname "$0")/.." && pwd)
name=argus_c
. "$top/tools/program.sh"
rt=$(find_kit)
kit=$(dirname "$("$rt" doc)")

# Makes dist/ of the archive that has just been built.
make_dist() {
    env -u ARGUS_ARCHIVE "$top/tools/dist.sh"
}

# is_new CRATE: whether the library is there, and none of its sources is newer
is_new() {
    local crate=$top/crates/$1 newer
    [ -d "$crate/out/rlib/$1.rlib" ] || return
    newer=$(find "$crate/src" "$crate/specs" "$crate/proofs" -newer "$crate/out/rlib/$1.rlib" 2> /dev/null | head -n 1)
    [ -z "$newer" ]
}

cd "$top/crates/$name"
below=$(crates | sed '$d')
for crate in $below; do
    if [ -f "$top/crates/$crate/out/rlib/stamp" ]; then
        "$rt" lib
        make_dist
        exit
    fi
    if ! is_new "$crate"; then
        say "$crate isn't proved as it stands: .ci/run proves all, or rt lib in crates/$name"
        exit 1
    fi
done

# The libraries that crates.txt names beside the crate, of the repository and of the kit.
named=$(sed -n "s/^$name [^:]*://p" "$top/crates.txt")
words=(--crate-name "$name" src/lib.rt --extern "std=$kit/rlibs/std.rlib")
for library in $named; do
    if [ -d "$kit/rlibs/$library.rlib" ]; then
        words+=(--extern "$library=$kit/rlibs/$library.rlib")
    else
        words+=(--extern "$library=$top/crates/$library/out/rlib/$library.rlib")
    fi
done
words+=(-L "dependency=$kit/rlibs")
for crate in $below; do
    words+=(-L "dependency=$top/crates/$crate/out/rlib")
done
words+=(--antt-project "$kit/rattle/logic/antt-project.json" --logic-built "$kit/logic_built")
words+=(--links "$name=" --crate-type staticlib --toolchain "$kit/toolchain" --backend llvm)

mkdir -p out
"$kit/bin/rattle" build "${words[@]}" -o "out/lib$name.a"
make_dist
