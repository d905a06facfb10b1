#!/usr/bin/env python3
# SPDX-License-Identifier: MIT
"""Checks that what the pages of this repository point to is there.

    tools/links.py

In each page (*.md) outside its blocks of code it looks at these:

- A link: its file or folder has to be there, from the page's own folder; behind a # there has to be
  a heading of that name.
- A path in backticks. Text without a blank is a path where it begins with a folder: one at the top, a
  crate, or one that crates have (src/, specs/, proofs/, data/); or where
  it ends as the repository's files do (.rt, .antt, .md ..). It has to be a file or folder of the
  repository, or the end of one's path: `specs/Query.antt`, `query.rt`. `*` stands for any characters. A
  word in capitals stands for a name, and what .gitignore names is made by a build: neither is looked for.
  A page may shorten a folder to one capital letter, as docs/CHANGING.md does: "`C` is crates/argus_contents".
- A path outside of backticks, where it begins with a folder at the top.
- An edit that the prover has to refuse, named in a row of docs/TESTING.md as CRATE/edit.

It prints a line for each that isn't there, and how many it looked at. Python 3 is all that it needs.
"""

import fnmatch
import os
import pathlib
import re
import sys

TOP = pathlib.Path(__file__).resolve().parent.parent
SUFFIXES = {".antt", ".argus", ".edit", ".h", ".md", ".py", ".rows", ".rs", ".rt", ".sh", ".svg", ".txt"}
LINK = re.compile(r"\]\(([^)\s]+)\)")
SPAN = re.compile(r"`([^`\n]+)`")
PLAIN = re.compile(r"(?<![\w./-])(?:\.ci|bench|crates|docs|examples|hosts|tools)/[\w.*/+-]*[\w*]")
LETTER = re.compile(r"`([A-Z])` (?:is |the files of .*?\()?(?:crates/)?((?:argus_\w+)[\w/]*)")
PLACEHOLDER = re.compile(r"[A-Z_]*[A-Z][A-Z_]+")
EDIT = re.compile(r"\b(argus_\w+/\w+)\b")


def ignored():
    """The folders that builds make, as .gitignore names them."""
    return {line.strip("/") for line in (TOP / ".gitignore").read_text(encoding="utf-8").split()}


def tree():
    """All files of the repository, and all folders but those that builds make."""
    files, folders = set(), set()
    for folder, inner, names in os.walk(TOP):
        inner[:] = [name for name in inner if name not in ignored() | {".git"}]
        where = pathlib.Path(folder).relative_to(TOP)
        files |= {(where / name).as_posix() for name in names}
        folders |= {(where / name).as_posix() for name in inner}
    return files, folders


def without_code(text):
    """The lines of a page, those of its blocks of code left empty."""
    lines, fenced = [], False
    for line in text.splitlines():
        if line.startswith("```"):
            fenced = not fenced
            line = ""
        lines.append("" if fenced or line.startswith("    ") else line)
    return lines


def anchor(heading):
    """The name by which a heading can be linked."""
    return re.sub(r"[^\w\- ]", "", heading.strip().lower()).replace(" ", "-")


def anchors_of(path):
    """The names of all headings of a page."""
    lines = without_code(path.read_text(encoding="utf-8"))
    return {anchor(line.lstrip("#")) for line in lines if line.startswith("#")}


class Checker:
    """Looks at one page after another, and counts."""

    def __init__(self):
        self.files, self.folders = tree()
        self.heads = {name.split("/")[0] for name in self.files if "/" in name}
        self.heads |= {"src", "specs", "proofs", "data"} | self.crates
        self.made = ignored()
        self.looked_at = 0
        self.missing = 0

    def say(self, page, number, what):
        """Tells of one that isn't there."""
        self.missing += 1
        print(f"{page.relative_to(TOP)}:{number}: {what}")

    def check_link(self, page, number, target):
        """A link, from the page's folder."""
        if re.match(r"[a-z]+:", target):
            return
        self.looked_at += 1
        name, _, heading = target.partition("#")
        path = (page.parent / name).resolve() if name else page
        if not path.exists():
            self.say(page, number, f"no file for the link {target}")
        elif heading and heading not in anchors_of(path):
            self.say(page, number, f"no heading for the link {target}")

    def is_path(self, text):
        """Whether text in backticks names a file or a folder."""
        if not re.fullmatch(r"[\w.*/+-]+", text) or text.startswith((".", "/", "-")):
            return text.startswith(".ci/")
        parts = text.rstrip("/").split("/")
        if any(PLACEHOLDER.fullmatch(part.split(".")[0]) and part.split(".")[-1] != "md" for part in parts):
            return False
        if self.made & set(parts):
            return False
        ends = pathlib.PurePosixPath(text).suffix in SUFFIXES and not text.startswith("*")
        return ends or ("/" in text and parts[0] in self.heads)

    def is_there(self, page, text):
        """Whether a path is there, or the end of one that is."""
        wanted = text.rstrip("/")
        beside = (page.parent / wanted).resolve()
        if "*" not in wanted and beside.exists():
            return True
        known = self.files | self.folders
        if "*" in wanted:
            return any(fnmatch.fnmatch(name, wanted) or fnmatch.fnmatch(name, "*/" + wanted) for name in known)
        return wanted in known or any(name.endswith("/" + wanted) for name in known)

    def check_path(self, page, number, text, letters):
        """A path in backticks."""
        head, slash, rest = text.partition("/")
        if slash and head in letters:
            text = letters[head] + "/" + rest
        if not self.is_path(text):
            return
        self.looked_at += 1
        if not self.is_there(page, text):
            self.say(page, number, f"no file or folder {text}")

    def check_edits(self, page, number, cell):
        """The edits that a row of docs/TESTING.md names as CRATE/edit."""
        for edit in EDIT.findall(cell):
            self.looked_at += 1
            if f"must-fail/{edit}.edit" not in self.files:
                self.say(page, number, f"no edit {edit}")

    @property
    def crates(self):
        """The names of all crates."""
        return {name.split("/")[1] for name in self.folders if name.startswith("crates/")}

    def check(self, page):
        """One page."""
        text = page.read_text(encoding="utf-8")
        letters = {letter: "crates/" + folder for letter, folder in LETTER.findall(text)}
        for number, line in enumerate(without_code(text), 1):
            for target in LINK.findall(SPAN.sub("", line)):
                self.check_link(page, number, target)
            for path in SPAN.findall(line) + PLAIN.findall(LINK.sub("", SPAN.sub("", line))):
                self.check_path(page, number, path, letters)
            if page.name == "TESTING.md" and line.startswith("| ") and line.count("|") == 4:
                self.check_edits(page, number, line.split("|")[3])


def main():
    checker = Checker()
    for name in sorted(checker.files):
        if name.endswith(".md"):
            checker.check(TOP / name)
    print(f"links: {checker.looked_at} links and paths, {checker.missing} of them not there")
    return 1 if checker.missing else 0


if __name__ == "__main__":
    sys.exit(main())
