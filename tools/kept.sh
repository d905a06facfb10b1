#!/bin/sh
# SPDX-License-Identifier: MIT
# Makes unproved builds of crates where there are none of the sources as they stand, and prints their folders.
#
#   tools/kept.sh CRATE..
#
# A CRATE is a program, a library with a function `run`, which becomes one, or argus_c, whose build is libargus_c.a.
set -eu

top=$(CDPATH='' cd -- "$(dirname -- "$0")/.." && pwd)
name=kept
. "$top/tools/program.sh"
for crate; do
    kept=$(kept_folder "$crate")
    [ -e "$kept" ] || keep "$crate"
    printf '%s\n' "$kept"
done
