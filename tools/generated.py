#!/usr/bin/env python3
# SPDX-License-Identifier: MIT
"""Writes pages that the sources determine, and that aren't committed, into build/pages.

    tools/generated.py

DEFINITIONS.md has the public definitions of each crate's specs/, with the comment above each. MISTAKES.md has the
must-fail edits, as `tools/mistakes.py --list` prints them. MEMORY.md has the public calls that may find no memory, by
the types that they return. Python 3 and its own library are all that it needs.
"""

import pathlib
import re
import subprocess
import sys

TOP = pathlib.Path(__file__).resolve().parent.parent
PAGES = TOP / "build/pages"
DEFINITION = re.compile(r"(?:abbrev |opaque )?pub (?:abbrev |data |record )?(?!use\b)([^\s:{(]+)")
IMPL = re.compile(r"impl(?:<.*?>)? (?:[\w:]+(?:<.*>)? for )?(\w+)")
FUNCTION = re.compile(r" *pub (?:const )?(?:extern \"C\" )?fn (\w+)")
TYPE = re.compile(r"^pub (?:enum|struct) (\w+).*\{\n((?: .*\n|\n)*)\}", re.MULTILINE)
EXPORT = re.compile(r"^pub (?:use|mod) [^;]*;", re.MULTILINE)


def crates():
    """The folders of all crates, in the order of their names."""
    return sorted(path.parent.parent for path in TOP.glob("crates/*/src/lib.rt"))


def first_comment(lines):
    """What a file of definitions is for: the comment at its head."""
    head = []
    for line in lines:
        if not line.startswith("--"):
            break
        head.append(line.removeprefix("--").strip())
    return " ".join(head)


def definitions_of(path):
    """The public definitions of a file, each with the comment above it."""
    said = []
    for line in path.read_text(encoding="utf-8").splitlines():
        if line.startswith("--"):
            said.append(line.removeprefix("--").strip())
            continue
        found = DEFINITION.match(line)
        if found and said:
            yield found.group(1), " ".join(said)
        said = []


def definitions():
    """The page of definitions."""
    yield "# Definitions\n\nThe public definitions of each crate's specs/, with what each means.\n"
    for crate in crates():
        files = [path for path in sorted(crate.glob("specs/**/*.antt")) if path.name != "Lib.antt"]
        if files:
            yield f"\n## {crate.name}\n"
        for path in files:
            head = first_comment(path.read_text(encoding="utf-8").splitlines())
            yield f"\n**{path.relative_to(crate)}**: {head}\n\n| Definition | Meaning |\n|---|---|\n"
            for name, meaning in definitions_of(path):
                yield f"| `{name}` | {meaning.replace('|', chr(92) + '|')} |\n"


def mistakes():
    """The page of mistakes that the prover has to refuse."""
    listed = subprocess.run([TOP / "tools/mistakes.py", "--list"], capture_output=True, text=True, check=True)
    yield "# Mistakes that the prover has to refuse\n\nEach is an edit in must-fail/. `tools/edits.py` says which test "
    yield f"tells it.\n\n{listed.stdout}"


def types_of_memory():
    """The names of the types that tell that there was no memory: by a variant, or by a part that does."""
    text = "".join(path.read_text(encoding="utf-8") for path in TOP.glob("crates/*/src/**/*.rt"))
    parts = {name: set(re.findall(r"\w+", re.sub(r"//.*", "", body))) for name, body in TYPE.findall(text)}
    names = {"OutOfMemory"} | {name for name, words in parts.items() if "Memory" in words}
    while more := {name for name, words in parts.items() if words & names} - names:
        names |= more
    return names


def exported(crate):
    """The words that a crate passes on by name."""
    return set(re.findall(r"\w+", " ".join(EXPORT.findall((crate / "src/lib.rt").read_text(encoding="utf-8")))))


def signatures(path):
    """The public functions of a file: the type that each belongs to, its name and its signature."""
    owner, lines = "", path.read_text(encoding="utf-8").splitlines()
    for place, line in enumerate(lines):
        if found := IMPL.match(line):
            owner = found.group(1)
        elif line == "}":
            owner = ""
        if found := FUNCTION.match(line):
            text = " ".join(lines[place : place + 16])
            yield owner, found.group(1), re.split(r"\b(?:requires|ensures|where)\b|\{", text, maxsplit=1)[0]


def calls_of(crate, errors):
    """A crate's public calls that may find no memory, each with its type in front."""
    names = exported(crate)
    for path in sorted(crate.glob("src/**/*.rt")):
        for owner, name, signature in signatures(path):
            is_public = owner in names if owner else name in names or path.stem in names
            if is_public and errors & set(re.findall(r"\w+", signature.partition("->")[2])):
                yield f"{owner}::{name}" if owner else name


def memory():
    """The page of calls that may find no memory."""
    errors = types_of_memory()
    yield "# Calls that may find no memory\n\nBy the types that they return. One that tells it by a flag, or by what "
    yield "it was called on, isn't here. docs/TESTING.md says how they are tested.\n"
    for crate in crates():
        calls = sorted(set(calls_of(crate, errors)))
        if crate.name.endswith(("_tests", "_bench", "_rows")) or not calls:
            continue
        yield f"\n## {crate.name}\n\n"
        yield "".join(f"- `{call}`\n" for call in calls)


def main():
    PAGES.mkdir(parents=True, exist_ok=True)
    for name, parts in (("DEFINITIONS", definitions()), ("MISTAKES", mistakes()), ("MEMORY", memory())):
        (PAGES / f"{name}.md").write_text("".join(parts), encoding="utf-8")
        print(f"build/pages/{name}.md")


if __name__ == "__main__":
    sys.exit(main())
