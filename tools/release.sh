#!/usr/bin/env bash
# SPDX-License-Identifier: MIT
# Puts into dist/ what is handed on beside the libraries, and packs it. tools/dist.sh calls this.
#
#   tools/release.sh DIST
#
#   DIST/bin/{argus,replay}                the programs that are there: proved, or kept by a launcher. ARGUS and
#                                          REPLAY in the environment name others
#   DIST/bin/picture                       draws what the replay beside it has confirmed, by Python
#   DIST/share/argus/picture               its modules, with the parts of a page
#   DIST/share/man/man3/argus.3            the manual page of the headers
#   DIST/share/argus/rust                  the crates argus-guardian and, in sys/, argus-guardian-sys
#   DIST/share/doc/argus/LICENSE.kit       the kit's crates that are in all of this, with their licenses
#   DIST/share/doc/argus/CONTENTS          each file with its SHA-256, and what isn't proved
#   DIST/argus-VERSION-linux-x86_64.tar.gz all of that, with its SHA-256 in a file beside it
#   DIST/argus_guardian-VERSION-*.whl      the wheel, where a Python with setuptools and wheel is there
set -euo pipefail
export LC_ALL=C.UTF-8

top=$(cd "$(dirname "$0")/.." && pwd)
dist=$(cd "$1" && pwd)
name=dist
. "$top/tools/program.sh"
headers=$top/crates/argus_c/include
version=$(sed -n 's/^#define ARGUS_VERSION "\(.*\)"$/\1/p' "$headers/argus.h")
release=argus-$version-linux-x86_64
room=$(mktemp -d)
trap 'rm -r "$room"' EXIT

# Where a program is, if it is anywhere: find_one NAME
find_one() {
    local name=$1 proved=$top/crates/$1/out/$1 named=${1^^} kept
    if [ -n "${!named:-}" ]; then
        echo "${!named}"
    elif is_proved; then
        echo "$proved"
    else
        kept=$(kept_folder "$1")/$1
        if [ -x "$kept" ]; then echo "$kept"; fi
    fi
}

add_programs() {
    local program found
    rm -rf "$dist/bin"
    mkdir -p "$dist/bin"
    for program in argus replay; do
        found=$(find_one "$program")
        if [ -z "$found" ]; then
            say "without the program $program, which isn't built"
        else
            install -m 755 "$found" "$dist/bin/$program"
        fi
    done
}

add_picture() {
    local into=$dist/share/argus/picture
    rm -rf "$into"
    mkdir -p "$into"
    cp "$top"/hosts/picture/*.py "$top/hosts/python/argus_guardian/page.py" "$into"
    cp -r "$top/hosts/page/parts" "$into/page_parts"
    cat > "$room/picture" << 'END'
#!/bin/sh
# SPDX-License-Identifier: MIT
# Draws a journal's listing, once the replay beside this has confirmed it: picture --help
set -eu
here=$(dirname -- "$(readlink -f -- "$0")")
export REPLAY="${REPLAY:-$here/replay}"
exec python3 "$here/../share/argus/picture/picture.py" "$@"
END
    install -m 755 "$room/picture" "$dist/bin/picture"
}

# The crates, without what only this repository's tests have.
add_crates() {
    local into=$dist/share/argus/rust
    rm -rf "$into"
    mkdir -p "$into/sys"
    cp -r "$top"/hosts/rust/{Cargo.toml,README.md,src,examples} "$into"
    # The page's parts come with the crate, which finds them there.
    cp -r "$top/hosts/page/parts" "$into/page"
    sed -i 's|"../../page/parts/|"../page/|' "$into/src/page.rs"
    cp -r "$top"/hosts/rust/sys/{Cargo.toml,build.rs,src} "$into/sys"
    # A test is no part of what is handed on.
    sed -i '/^\[\[test\]\]$/,/^$/d' "$into/Cargo.toml"
    cp "$top/LICENSE" "$into"
    cp "$top/LICENSE" "$into/sys"
}

add_manual() {
    mkdir -p "$dist/share/man/man3"
    "$top/tools/manual.py" "$dist"/include/*.h > "$dist/share/man/man3/argus.3"
}

add_licenses() {
    PYTHONDONTWRITEBYTECODE=1 "$top/tools/licenses.py" argus_c argus replay > "$room/licenses"
    install -m 644 "$room/licenses" "$dist/share/doc/argus/LICENSE.kit"
}

# What is proved of the release: by what the archive says of itself, and by where the programs come from.
origins() {
    local name proved found logic
    logic=$(grep -a -o -m 1 'rattle logic=[0-9a-f]*' "$dist/lib/libargus.a" | head -n 1 || true)
    if [ -n "$logic" ]; then
        echo "lib: of an archive that says it was proved in logic ${logic#*=}"
    else
        echo "lib: of an archive that DOESN'T SAY it was proved"
    fi
    for name in argus replay; do
        proved=$top/crates/$name/out/$name
        found=$(find_one "$name")
        if [ -n "$found" ] && [ "$found" = "$proved" ] && is_proved; then
            echo "bin/$name: proved"
        elif [ -n "$found" ]; then
            echo "bin/$name: NOT PROVED"
        fi
    done
}

list_contents() {
    local list=share/doc/argus/CONTENTS
    {
        echo "argus $version for Linux on x86-64-v2 (processors since 2009), with glibc $(glibc_of "$dist/lib/libargus.so")" \
            "for the library and $(glibc_of "$dist"/bin/*) for the programs, or newer."
        echo "bin/picture needs Python 3.10 or newer."
        echo "Rust, Python and the functions of the headers are tested, not proved."
        origins
        echo
        (cd "$dist" && find bin include lib share -type f ! -path "$list" -print0 | sort -z | xargs -0 sha256sum)
    } > "$room/contents"
    install -m 644 "$room/contents" "$dist/$list"
}

# The newest version of glibc that objects need: glibc_of FILE..
glibc_of() {
    { readelf -V "$@" 2> /dev/null || true; } | sed -En 's/.*Name: GLIBC_([0-9.]+).*/\1/p' | sort -V | tail -n 1
}

# One archive, the same of the same files.
pack() {
    rm -f "$dist"/argus-*.tar.gz "$dist"/argus-*.tar.gz.sha256
    tar --sort=name --mtime=@0 --owner=0 --group=0 --numeric-owner --transform "s|^|$release/|" \
        -C "$dist" -cf - bin include lib share | gzip -n > "$room/packed"
    install -m 644 "$room/packed" "$dist/$release.tar.gz"
    (cd "$dist" && sha256sum "$release.tar.gz" > "$release.tar.gz.sha256")
}

# A Python that can make a wheel; one with its headers first, for which the quick call is built.
python_with_tools() {
    local python tools='
import setuptools
try:
    import setuptools.command.bdist_wheel
except ImportError:
    import wheel
' more
    for more in 'import os, sysconfig; os.stat(sysconfig.get_path("include") + "/Python.h")' ''; do
        for python in python3 /usr/bin/python3; do
            if "$python" -c "$tools$more" > /dev/null 2>&1; then echo "$python" && return; fi
        done
    done
    return 1
}

make_wheel() {
    local python platform=linux_x86_64
    rm -f "$dist"/argus_guardian-*.whl
    if ! python=$(python_with_tools); then
        say "without the wheel: no Python has setuptools and wheel (Debian: python3-setuptools, python3-wheel)"
        return
    fi
    if [ "$(printf '%s\n' 2.17 "$(glibc_of "$dist/lib/libargus.so")" | sort -V | tail -n 1)" = 2.17 ]; then
        platform=manylinux_2_17_x86_64
    fi
    cp -r "$top/hosts/python" "$room/python"
    cp -r "$top/hosts/page/parts" "$room/python/argus_guardian/page_parts"
    cp "$dist"/share/doc/argus/LICENSE* "$room/python"
    if ! (cd "$room/python" && ARGUS_LIB_DIR=$dist/lib "$python" setup.py -q bdist_wheel --plat-name "$platform" \
        --dist-dir "$dist") > "$room/words" 2>&1; then
        cat "$room/words" >&2
        return 1
    fi
}

add_programs
add_picture
add_crates
add_manual
add_licenses
list_contents
pack
make_wheel
echo "dist: $dist has $release.tar.gz and $(cd "$dist" && ls argus_guardian-*.whl 2> /dev/null || echo no wheel)"
