#!/usr/bin/env bash
# SPDX-License-Identifier: MIT
# Debian's packages that the hosts' tests need beside a C compiler, cargo and Python: those of hosts/c/log, of
# hosts/rust, its etcd and its host, and etcd itself; what looks at Python's types, what the shops of
# hosts/python stand on, and the browser that opens pages of runs. Without them hosts/run leaves those tests out.
#
#   tools/packages.sh             prints the packages that are missing, one a line; status 1 if any is
#   tools/packages.sh --install   installs those, by apt-get, as root
#
# etcd-server may begin a service of its own, which the tests don't use.
set -euo pipefail
export LC_ALL=C.UTF-8

packages=(
    # what the log of hosts/c stands on
    libsqlite3-dev zlib1g-dev
    # nodes for the tests, and the program that looks at them
    etcd-server etcd-client
    # certificates for the tests of TLS
    openssl
    # networks of the hosts' own, in which they are unplugged
    iproute2
    # the crates that hosts/rust is built of with its feature sqlite, and the system's SQLite
    librust-rusqlite-dev librust-crc32fast-dev librust-thiserror-dev sqlite3
    # those of hosts/rust/etcd
    librust-base64-dev librust-curl-dev librust-serde-json-dev "librust-serde+serde-derive-dev"
    # those of hosts/rust/host beside these
    librust-clap-dev librust-clap-derive-dev librust-httparse-dev librust-signal-hook-dev librust-subtle-dev
    # how the crate of libcurl finds it
    pkg-config
    # types of Python, and the shops
    mypy python3-aiohttp
    # the browser of hosts/page
    chromium
)

if ! command -v dpkg-query > /dev/null; then
    echo "packages: LEFT OUT: this isn't Debian" >&2
    exit 1
fi

# is_there PACKAGE
is_there() {
    [ "$(dpkg-query -W -f='${db:Status-Status}' "$1" 2> /dev/null)" = installed ]
}

missing=()
for package in "${packages[@]}"; do
    is_there "$package" || missing+=("$package")
done
if [ ${#missing[@]} = 0 ]; then exit 0; fi
if [ "${1:-}" != --install ]; then
    printf '%s\n' "${missing[@]}"
    exit 1
fi
export DEBIAN_FRONTEND=noninteractive
apt-get update -qq
apt-get install -y -qq --no-install-recommends "${missing[@]}"
