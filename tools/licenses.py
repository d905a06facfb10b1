#!/usr/bin/env python3
# SPDX-License-Identifier: MIT
"""Writes which crates of the kit are compiled into crates of this repository, with their licenses; equal ones once.

    tools/licenses.py CRATE.. > LICENSE.kit
"""

import sys

from unproved import TOP, kit, libraries, of_kit, used_by


def crates_of_kit(names: list[str]) -> list[str]:
    """The crates of the kit that these stand on."""
    known = libraries(TOP)
    used = [it for name in names for it in used_by(name, known)]
    return sorted(of_kit([it for it in used if it not in known]))


def licenses(crates: list[str]) -> dict[str, list[str]]:
    """The texts of their licenses, each with the crates that have it."""
    found: dict[str, list[str]] = {}
    for crate in crates:
        for file in sorted((kit() / "rattle" / crate).glob("LICENSE*")):
            found.setdefault(file.read_text(encoding="utf-8").strip(), []).append(crate)
    return found


def main() -> None:
    crates = crates_of_kit(sys.argv[1:])
    print(f"The Rattle kit's compiler has put these crates of the kit into what it made: {', '.join(crates)}.")
    print("Those that have a license of their own:")
    for text, owners in licenses(crates).items():
        print(f"\n---- {', '.join(owners)}\n\n{text}")


if __name__ == "__main__":
    main()
