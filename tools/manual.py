#!/usr/bin/env python3
# SPDX-License-Identifier: MIT
"""Writes the manual page argus(3) from the headers of the library for C: their comments are its text.

    tools/manual.py HEADER.. > argus.3
"""

from __future__ import annotations

import re
import sys
from pathlib import Path

FUNCTION = re.compile(
    r"(?:/\*(?P<said>(?:(?!\*/).)*)\*/\n)?^(?:ARGUS_API )?(?!static )(?P<head>[a-z][\w *]*\bargus_\w+\([^;{)]*\))\s*[;{]",
    re.MULTILINE | re.DOTALL,
)
ENUM = re.compile(r"/\*(?P<said>(?:(?!\*/).)*)\*/\ntypedef enum (?P<head>\w+) {\n(?P<body>.*?)\n}", re.DOTALL)


def escaped(text: str) -> str:
    """The text as troff shows it."""
    text = text.replace("\\", "\\e").replace("-", "\\-")
    return re.sub(r"^(?=[.'])", r"\\&", text, flags=re.MULTILINE)


def words_of(comment: str | None) -> str:
    """What a comment says, without the stars of its lines."""
    return re.sub(r"^ ?\* ?", "", (comment or "").strip(), flags=re.MULTILINE)


def verbatim(text: str) -> str:
    return f".nf\n{escaped(text)}\n.fi\n"


def described(head: str, comment: str | None, more: str = "") -> str:
    """A heading with what is said of it."""
    return f".SS {escaped(' '.join(head.split()))}\n{verbatim(words_of(comment))}" + (verbatim(more) if more else "")


def page(headers: list[str]) -> str:
    """The page of these headers, of which the first says what the library is."""
    version = re.search(r'^#define ARGUS_VERSION "(.*)"$', headers[0], re.MULTILINE)
    about = re.match(r"/\*((?:(?!\*/).)*)\*/", headers[0], re.DOTALL)
    assert version and about, "the first header is argus.h"
    parts = [f'.TH ARGUS 3 "" "argus {version.group(1)}" "Argus guardian"\n.SH NAME\n']
    parts.append("argus \\- a guardian of atomic objects under nested transactions\n.SH SYNOPSIS\n")
    parts.append(verbatim("#include <argus.h>\n\ncc program.c $(pkg-config --cflags --libs argus)\n"))
    if any("argus_log_open(" in it for it in headers):
        parts.append(verbatim("\n#include <argus_log.h>\n\ncc program.c $(pkg-config --cflags --libs argus_log)"))
    parts.append(f".SH DESCRIPTION\n{verbatim(words_of(about.group(1)))}.SH NUMBERS\n")
    for text in headers:
        parts += [described(it["head"], it["said"], it["body"]) for it in ENUM.finditer(text)]
    parts.append(".SH FUNCTIONS\n")
    for text in headers:
        parts += [described(it["head"], it["said"]) for it in FUNCTION.finditer(text)]
    return "".join(parts)


if __name__ == "__main__":
    print(page([Path(it).read_text(encoding="utf-8") for it in sys.argv[1:]]), end="")
