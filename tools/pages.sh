#!/usr/bin/env bash
# SPDX-License-Identifier: MIT
# Looks at the pages of the repository, in a second: what they point to is there, they are no longer than
# tools/budgets.txt allows, the picture of the design is as its script draws it, README.md and the pages of
# tools/shown.py show the texts of files that are run, the version is the same wherever it stands, and the unproved
# library for C has each export. Each line that is printed but the count of links is a fault.
#
#   tools/pages.sh              the status tells whether all is well
#   tools/pages.sh --write      first draws the picture anew
#   tools/pages.sh --generate   only writes the pages that aren't committed: definitions, mistakes that are
#                               refused, calls that may find no memory (tools/generated.py)
set -uo pipefail
cd "$(dirname "$0")/.."

if [ "${1:-}" = --generate ]; then
    exec tools/generated.py
fi
if [ "${1:-}" = --write ]; then
    tools/design.py
fi
status=0
tools/links.py || status=1
tools/budgets.py || status=1
tools/design.py --check || status=1
tools/readme.py --texts || status=1
tools/shown.py || status=1
tools/version.py || status=1
tools/unproved.py --check || status=1
exit "$status"
