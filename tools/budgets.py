#!/usr/bin/env python3
# SPDX-License-Identifier: MIT
"""Checks that pages are as short as tools/budgets.txt says, and their sentences plain where it says so.

    tools/budgets.py           a line for each fault; the status tells whether there is one
    tools/budgets.py --list    the words of each page, and how many it may have

Words are what stands between blanks, in all of a page. A sentence ends at a full stop, a question mark, the end of
a paragraph, of an item or of a table's cell. Blocks of code have none; a link counts as its text, and what stands in
backticks as one word. In a pattern `*` stands for any characters, a slash too. Python 3 and its own library are all
that it needs.
"""

import fnmatch
import functools
import pathlib
import re
import sys

import links

TOP = pathlib.Path(__file__).resolve().parent.parent
MOST_WORDS = 40
SPAN = re.compile(r"``? ?[^\n]*?`+")
LINK = re.compile(r"!?\[([^\]]*)\]\([^)]*\)")
SENTENCE_END = re.compile(r"(?<=[.?!])\)?[*\"]*\s+")
ITEM = re.compile(r"^\s*(?:[-*]|\d+\.)\s")


def lines():
    """The words of each line of the table."""
    text = (TOP / "tools/budgets.txt").read_text(encoding="utf-8")
    return [line.split() for line in text.splitlines() if line and not line.startswith("#")]


@functools.cache
def page_names():
    """The repository's pages; none of those in folders that builds make."""
    return sorted(name for name in links.tree()[0] if name.endswith(".md"))


def pages_of(pattern):
    """The pages that a pattern fits."""
    return [TOP / name for name in fnmatch.filter(page_names(), pattern)]


def budgets():
    """For each page the words that it may have, and whether its sentences are looked at."""
    found = {}
    for most, pattern, *plain in (line for line in lines() if line[0] != "all"):
        pages = pages_of(pattern) or [TOP / pattern]
        found |= {page: (int(most), plain == ["plain"]) for page in pages}
    return found


def faults_together():
    """What is wrong with pages that have a budget together."""
    for _, most, pattern in (line for line in lines() if line[0] == "all"):
        words = sum(len(page.read_text(encoding="utf-8").split()) for page in pages_of(pattern))
        if words > int(most):
            yield f"{pattern}: {words} words together, and at most {most} are allowed"


def paragraphs(text):
    """The paragraphs, items and cells of a page, each with the number of its first line."""
    fenced, open_at, words = False, 0, []
    for number, line in enumerate([*text.splitlines(), ""], 1):
        is_fence = line.startswith("```")
        fenced ^= is_fence
        is_prose = not (fenced or is_fence or line.startswith(("    ", "#", "<")))
        goes_on = is_prose and line.strip() and not line.startswith("|") and not ITEM.match(line)
        if words and not goes_on:
            yield open_at, " ".join(words)
            words = []
        if is_prose and line.startswith("|"):
            yield from ((number, cell) for cell in SPAN.sub("`c`", line).strip("|").split("|"))
        elif is_prose and line.strip():
            open_at = open_at if words else number
            words.append(ITEM.sub("", line, count=1).strip())


def sentences(text):
    """The sentences of a page, each with the number of the line where its paragraph begins."""
    for number, paragraph in paragraphs(text):
        plain = LINK.sub(r"\1", SPAN.sub("code", paragraph))
        yield from ((number, sentence) for sentence in SENTENCE_END.split(plain))


def faults(page, most, is_plain):
    """What is wrong with a page."""
    if not page.exists():
        yield "no such page"
        return
    text = page.read_text(encoding="utf-8")
    words = len(text.split())
    if words > most:
        yield f"{words} words, and at most {most} are allowed"
    for number, sentence in sentences(text) if is_plain else ():
        length = len(sentence.split())
        if length > MOST_WORDS:
            yield f"line {number}: a sentence of {length} words: {sentence[:60]}.."
        if sentence.count("(") > 1:
            yield f"line {number}: more than one parenthesis: {sentence[:60]}.."


def main():
    together = list(faults_together())
    print("".join(f"{fault}\n" for fault in together), end="")
    found = len(together)
    for page, (most, is_plain) in sorted(budgets().items()):
        name = page.relative_to(TOP)
        if sys.argv[1:] == ["--list"] and page.exists():
            print(f"{len(page.read_text(encoding='utf-8').split()):6} of {most:6} {name}")
        for fault in faults(page, most, is_plain):
            found += 1
            print(f"{name}: {fault}")
    return 1 if found else 0


if __name__ == "__main__":
    sys.exit(main())
