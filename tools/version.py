#!/usr/bin/env python3
# SPDX-License-Identifier: MIT
"""Compares the version, wherever it stands, with `VERSION` of the programs' source.

    tools/version.py            says where it is another one; the status tells whether it is the same everywhere
    tools/version.py --write    first writes it there

The source is the only file under crates/*/src with `pub const VERSION`. The newest section of CHANGELOG.md is
compared and never written, since it begins by hand. Python 3 and its own library are all that it needs.
"""

import pathlib
import re
import sys

TOP = pathlib.Path(__file__).resolve().parent.parent
SOURCE = re.compile(r'^pub const VERSION: &str = "(\d+\.\d+\.\d+)";$', re.MULTILINE)
SECTION = re.compile(r"^## ([\d.]+)", re.MULTILINE)


def itself(version):
    return version


def part(place):
    """One of its three numbers."""
    return lambda version: version.split(".")[place]


def number(version):
    """One number, with two decimal digits for each of the last two."""
    major, minor, patch = map(int, version.split("."))
    return str(10000 * major + 100 * minor + patch)


def terms(version):
    """The same as a sum."""
    major, minor, patch = version.split(".")
    return f"10000 * {major} + 100 * {minor} + {patch}"


# Files, what stands there before, as and behind the version, and what is written of it. Each file has to have it; of
# files in folders below (**) at least one.
PLACES = [
    ("crates/argus_c/include/argus.h", r'^#define ARGUS_VERSION "(.*)"$', itself),
    ("crates/argus_c/include/argus.h", r"^#define ARGUS_VERSION_MAJOR (\d+)$", part(0)),
    ("crates/argus_c/include/argus.h", r"^#define ARGUS_VERSION_MINOR (\d+)$", part(1)),
    ("crates/argus_c/include/argus.h", r"^#define ARGUS_VERSION_PATCH (\d+)$", part(2)),
    ("crates/argus_c/include/argus.h", r"^#define ARGUS_VERSION_NUMBER (\d+)$", number),
    ("crates/argus_c/src/**/*.rt", r"^const VERSION_NUMBER: u32 = (\d+);$", number),
    ("crates/argus_c/specs/**/*.antt", r"^version_number = (.*)$", terms),
    ("hosts/rust/Cargo.toml", r'^argus-guardian-sys = \{ version = "(.*?)"', itself),
    ("hosts/rust/Cargo.toml", r'^version = "(.*)"$', itself),
    ("hosts/rust/*/Cargo.toml", r'^version = "(.*)"$', itself),
    ("hosts/*/Cargo.lock", r'^name = "argus-.*"\nversion = "(.*)"$', itself),
    ("hosts/rust/*/Cargo.lock", r'^name = "argus-.*"\nversion = "(.*)"$', itself),
    ("bench/*/Cargo.lock", r'^name = "argus-.*"\nversion = "(.*)"$', itself),
    ("hosts/rust/sys/src/lib.rs", r"^pub const VERSION_NUMBER: u32 = (\d+);$", number),
    ("hosts/python/argus_guardian/library.py", r"^VERSION_NUMBER = (\d+)$", number),
    ("hosts/picture/picture.py", r'^VERSION = "(.*)"$', itself),
    ("hosts/python/argus_guardian/__init__.py", r'^__version__ = "(.*)"$', itself),
    ("hosts/python/README.md", r"argus_guardian-([\d.]+)-", itself),
    ("docs/GUIDE.md", r"argus(?:_guardian)?-([\d.]+)-", itself),
    ("README.md", r"argus(?:_guardian)?-([\d.]+)-", itself),
]


def source_version():
    """The version that the programs say."""
    texts = (path.read_text(encoding="utf-8") for path in sorted(TOP.glob("crates/*/src/**/*.rt")))
    found = [version for text in texts for version in SOURCE.findall(text)]
    if len(found) != 1:
        sys.exit(f"{len(found)} files under crates/*/src have `pub const VERSION`, not one")
    return found[0]


def with_wanted(text, pattern, wanted):
    """The text with what is wanted in each place, and how many places there are."""

    def put(found):
        whole, begin = found[0], found.start(1) - found.start()
        return whole[:begin] + wanted + whole[begin + len(found[1]) :]

    return re.subn(pattern, put, text, flags=re.MULTILINE)


def faults_of(files, pattern, wanted, writes):
    """What is wrong at one of the places, after it was written if that is wanted."""
    has_any = False
    for path in sorted(TOP.glob(files)):
        text = path.read_text(encoding="utf-8")
        right, count = with_wanted(text, pattern, wanted)
        name = path.relative_to(TOP)
        has_any = has_any or count > 0
        if count == 0 and "**" not in files:
            yield f"{name}: no version stands there as `{pattern}`"
        elif right != text and writes:
            path.write_text(right, encoding="utf-8")
        elif right != text:
            yield f"{name}: its version isn't {wanted}, that of the programs; tools/version.py --write writes it"
    if not has_any:
        yield f"{files}: no version stands there as `{pattern}`"


def main():
    version, writes = source_version(), sys.argv[1:] == ["--write"]
    if sys.argv[1:] and not writes:
        sys.exit("usage: tools/version.py [--write]")
    faults = [
        fault
        for files, pattern, form in PLACES
        for fault in faults_of(files, pattern, form(version), writes)
    ]
    sections = SECTION.findall((TOP / "CHANGELOG.md").read_text(encoding="utf-8"))
    if sections[:1] != [version]:
        faults.append(f"CHANGELOG.md: its newest section isn't that of {version}")
    print(*faults, sep="\n", end="\n" if faults else "")
    return 1 if faults else 0


if __name__ == "__main__":
    sys.exit(main())
