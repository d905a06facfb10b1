#!/usr/bin/env bash
# SPDX-License-Identifier: MIT
# Makes dist/ of the archive that is built: what programs in C, Rust and Python need of the guardian,
# so that they need neither the Rattle kit nor a proof.
#
#   [ARGUS_ARCHIVE=FOLDER] tools/dist.sh [DIST]
#
#   DIST/lib/libargus.a             the archive, with the kit's part that maps its allocator to malloc, and with
#                                   crates/argus_c/c, which isn't proved
#   DIST/lib/libargus.so.0          the same as a shared object, which exports argus_* alone
#   DIST/lib/libargus.so            a link to that
#   DIST/lib/libargus_log.a         the log in a database, of hosts/c/log, where libsqlite3 and zlib are there (Debian:
#                                   libsqlite3-dev, zlib1g-dev). It is by itself, so that no other program needs these
#   DIST/lib/pkgconfig/argus.pc     what pkg-config says of them, wherever DIST is moved
#   DIST/lib/pkgconfig/argus_log.pc the same of the log
#   DIST/include/argus.h            the header
#   DIST/include/argus_values.h     that for values, which includes it
#   DIST/include/argus_log.h        that of the log, which includes it
#   DIST/share/doc/argus/LICENSE    the license
#
# tools/release.sh then adds what is handed on: programs, manual page, crates, licenses, a list, an archive and a wheel.
#
# FOLDER is that of libargus_c.a, else where `rt lib` in crates/argus_c leaves it. DIST is the folder dist
# at the repository's top where nothing is said; make -C hosts/c install PREFIX=.. installs what is in it.
# It needs a compiler for C (Debian: gcc).
# tools/archive.sh calls this once it has built the archive. The line that is printed says in which logic the
# archive says it was proved: `rattle build` writes that into a section of the object, .comment.
set -euo pipefail

top=$(cd "$(dirname "$0")/.." && pwd)
name=dist
. "$top/tools/program.sh"
archive=${ARGUS_ARCHIVE:-$top/crates/argus_c/out}/libargus_c.a
headers=$top/crates/argus_c/include
header=$headers/argus.h
dist=${1:-$top/dist}
kit=${RATTLE_KIT:-$(dirname "$("$(find_kit)" doc)")}
version=$(sed -n 's/^#define ARGUS_VERSION "\(.*\)"$/\1/p' "$header")
object=libargus.so.${version%%.*}
room=$(mktemp -d)
trap 'rm -r "$room"' EXIT

# The functions of the headers that aren't in the archive.
compile_functions() {
    local source
    mkdir "$room/functions"
    for source in "$top"/crates/argus_c/c/*.c; do
        cc -std=c99 -D_POSIX_C_SOURCE=200809L -O2 -fPIC -Wall -Wextra -Wpedantic -Werror -I "$headers" \
            -c -o "$room/functions/$(basename "$source" .c).o" "$source"
    done
}

# One archive: the objects of both, as they are, and what was compiled.
merge() {
    "$kit/toolchain/bin/llvm-ar" qcLDs "$room/libargus.a" "$archive" "$kit/c/liblibc_c.a" "$room"/functions/*.o
}

# The shared object. Code that isn't position-independent is refused by the linker, whose words are shown.
link_object() {
    printf '{ global: argus_*; local: *; };\n' > "$room/exports"
    if cc -shared -o "$room/$object" "-Wl,-soname,$object" "-Wl,--version-script=$room/exports" \
        -Wl,-z,text -Wl,-z,defs -Wl,-z,relro -Wl,-z,now \
        -Wl,--whole-archive "$room/libargus.a" -Wl,--no-whole-archive 2> "$room/words"; then
        return
    fi
    cat "$room/words" >&2
    say "no $object: the linker refuses the archive, as the lines above say"
    return 1
}

# Whether the headers of what the log stands on are there.
has_sqlite() {
    printf '#include <sqlite3.h>\n#include <zlib.h>\n' | cc -E -x c - > /dev/null 2>&1
}

# The log: hosts/c/log, as one object in which no other names are seen than those of its header.
compile_log() {
    local source
    mkdir "$room/log"
    for source in "$top"/hosts/c/log/*.c; do
        cc -std=c11 -D_GNU_SOURCE -O2 -fPIC -Wall -Wextra -Wpedantic -Wconversion -Wshadow -Werror -I "$headers" \
            -c -o "$room/log/$(basename "$source" .c).o" "$source" || return
    done
    cc -r -nostdlib -o "$room/argus_log.o" "$room"/log/*.o && objcopy -w -G 'argus_log_*' "$room/argus_log.o" &&
        "$kit/toolchain/bin/llvm-ar" rcDs "$room/libargus_log.a" "$room/argus_log.o"
}

# What the archive says of its proof, which is something that was written there, and no proof.
origin() {
    local logic
    logic=$(grep -a -o 'rattle logic=[0-9a-f]*' "$archive" | head -n 1 || true)
    if [ -n "$logic" ]; then
        echo "of an archive that says it was proved in logic ${logic#*=}"
    else
        echo "of an archive that DOESN'T SAY it was proved"
    fi
}

# What pkg-config says. The folder is found from where this file lies.
describe() {
    cat << END
# Where the guardian's header and library are, for pkg-config.
prefix=\${pcfiledir}/../..
includedir=\${prefix}/include
libdir=\${prefix}/lib
archive=\${libdir}/libargus.a

Name: argus
Description: A guardian of atomic objects under nested transactions, by a proved library
Version: $version
Cflags: -I\${includedir}
Libs: -L\${libdir} -largus
END
}

describe_log() {
    cat << END
# Where the log's header and library are, for pkg-config.
prefix=\${pcfiledir}/../..
includedir=\${prefix}/include
libdir=\${prefix}/lib

Name: argus_log
Description: The log of an Argus guardian in a SQLite database
Version: $version
Requires: argus = $version sqlite3 zlib
Cflags: -I\${includedir} -pthread
Libs: -L\${libdir} -largus_log -pthread
END
}

# Puts the log into DIST, if it can be made.
install_log() {
    rm -f "$dist/include/argus_log.h" "$dist/lib/pkgconfig/argus_log.pc"
    if ! has_sqlite; then
        say "without libargus_log.a, since sqlite3.h or zlib.h isn't there (Debian: libsqlite3-dev, zlib1g-dev)"
        return
    fi
    compile_log
    describe_log > "$room/argus_log.pc"
    install -m 644 "$room/libargus_log.a" "$dist/lib/"
    install -m 644 "$room/argus_log.pc" "$dist/lib/pkgconfig/"
    install -m 644 "$top/hosts/c/log/argus_log.h" "$dist/include/"
}

if [ ! -f "$archive" ]; then
    say "no archive $archive: tools/archive.sh builds it after .ci/run, or rt lib in crates/argus_c"
    exit 1
fi
if ! cc --version > /dev/null 2>&1; then
    say "no cc, which compiles the functions of argus.h"
    exit 1
fi
compile_functions
merge
link_object
describe > "$room/argus.pc"
mkdir -p "$dist/lib/pkgconfig" "$dist/include" "$dist/share/doc/argus"
rm -f "$dist"/lib/libargus*
install -m 644 "$room/libargus.a" "$dist/lib/"
install -m 755 "$room/$object" "$dist/lib/"
ln -s "$object" "$dist/lib/libargus.so"
install -m 644 "$room/argus.pc" "$dist/lib/pkgconfig/"
install -m 644 "$header" "$headers/argus_values.h" "$dist/include/"
install -m 644 "$top/LICENSE" "$dist/share/doc/argus/"
install_log
echo "dist: $(cd "$dist" && pwd) has argus $version, $(origin)"
"$top/tools/release.sh" "$dist"
