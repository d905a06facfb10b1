#!/usr/bin/env python3
# SPDX-License-Identifier: MIT
"""Checks that README.md and docs/GUIDE.md show what is so.

    tools/readme.py --texts    only compares texts: README's script with docs/first.argus, its figures of what
                               it costs with bench/README.md, where a line has all those of a row; the first
                               Python of the guide with hosts/python/tickets.py and its twin; the first Rust of
                               hosts/rust/README.md with the example of src/lib.rs, which `cargo test` runs
    tools/readme.py            also runs what they show: README's command lines, by ./argus, and the picture, by
                               ./picture, have to print what stands there; so do its way in without a kit
                               and its Python, and all other Python of the guide in one program, over what
                               hosts/run has made, build/hosts/dist

It says what isn't so, and what it leaves out. The status tells whether all is. Python 3 is all that it needs.
"""

import importlib.util
import os
import pathlib
import re
import subprocess
import sys
import tempfile

TOP = pathlib.Path(__file__).resolve().parent.parent
DIST = TOP / "build/hosts/dist"
LIBRARY = DIST / "lib/libargus.so.0"


def read(name):
    """The text of a file of the repository."""
    return (TOP / name).read_text(encoding="utf-8")


def blocks(text, language):
    """The blocks of code in a language."""
    return re.findall(rf"^```{language}\n(.*?)^```$", text, re.MULTILINE | re.DOTALL)


def block(text, language):
    """The first of them."""
    return next(iter(blocks(text, language)), "")


def twins():
    """The programs that the guide begins with, each without the line that says what it is, and the blank one."""
    return [read(f"hosts/python/{name}.py").split("\n", 2)[2] for name in ("tickets", "tickets_in_sqlite")]


def example_of_library():
    """The example at the head of the Rust crate, without the lines that its page hides."""
    source = read("hosts/rust/src/lib.rs")
    lines = [line.removeprefix("//!").removeprefix(" ") for line in source.splitlines() if line.startswith("//!")]
    shown = [line for line in lines if not line.startswith("# ")]
    return block("\n".join(shown).replace("```", "```rust", 1), "rust")


def figures_not_there(page):
    """The rows of what it costs whose figures stand in no line of bench/README.md."""
    costs = page.partition("## What it costs")[2].partition("\n## ")[0]
    lines = read("bench/README.md").splitlines()
    for row in re.findall(r"^\|.*\d.*\|$", costs, re.MULTILINE):
        figures = re.findall(r"\d[\d,.]*\d", row.split("|", 2)[2])
        if not any(all(re.search(rf"(?<![\d.,]){re.escape(it)}(?![\d.])", line) for it in figures) for line in lines):
            yield row


def printed_by(command, cwd=TOP, **more):
    """What a command prints."""
    return subprocess.run(command, cwd=cwd, capture_output=True, text=True, check=False, **more).stdout


def as_shown(console):
    """What the command lines of a block print, each behind its own line."""
    commands = [line[2:] for line in console.splitlines() if line.startswith("$ ")]
    return "".join(f"$ {command}\n" + printed_by(["sh", "-c", command]) for command in commands)


def python_prints(source):
    """What a Python program prints, and what the comments behind its prints say of it."""
    said = re.findall(r"# prints (.*)$", source, re.MULTILINE)
    paths = {"PYTHONPATH": str(TOP / "hosts/python"), "ARGUS_LIBRARY": str(LIBRARY)}
    settings = {**os.environ, **paths, "PYTHONDONTWRITEBYTECODE": "1"}
    with tempfile.TemporaryDirectory() as room:
        return printed_by([sys.executable, "-c", source], room, env=settings).splitlines(), said


def has_release():
    """Whether the way in can be gone: there are the programs, the wheel, and what makes an environment of Python's."""
    has_files = (DIST / "bin/argus").exists() and any(DIST.glob("*.whl"))
    return has_files and importlib.util.find_spec("ensurepip") is not None


def ways_in(source):
    """What the lines without a kit print, in a folder with a release and an environment of Python's; and what
    comments behind them say of it."""
    with tempfile.TemporaryDirectory() as room:
        subprocess.run([sys.executable, "-m", "venv", f"{room}/venv"], check=True)
        os.symlink(TOP / "docs", f"{room}/docs")
        os.mkdir(f"{room}/dist")
        for it in (*DIST.glob("*.tar.gz"), *DIST.glob("*.whl")):
            os.symlink(it, f"{room}/dist/{it.name}")
        settings = {**os.environ, "PATH": f"{room}/venv/bin:{os.environ['PATH']}", "PIP_NO_INDEX": "1"}
        printed = subprocess.run(
            ["sh", "-euc", source.replace("pip install", "pip install --quiet")],
            cwd=room,
            env=settings,
            capture_output=True,
            text=True,
            check=False,
        )
        shown = printed.stdout if printed.returncode == 0 else printed.stderr
    return shown.splitlines(), re.findall(r"# prints (.*)$", source, re.MULTILINE)


def texts(page, guide):
    """What is compared without running it: its name, what is shown, and what is so."""
    rust = block(read("hosts/rust/README.md"), "rust")
    return [
        ("README.md: the script", block(page, "text"), read("docs/first.argus")),
        ("hosts/rust/README.md: the Rust", rust, example_of_library()),
        ("docs/GUIDE.md: the shop and its twin", blocks(guide, "python")[:2], twins()),
        *((f"README.md: the row {row}", row, "") for row in figures_not_there(page)),
    ]


def runs(page, guide):
    """The same of what is run; what can't be run is said."""
    picture = "./argus --list journal < docs/first.argus | ./picture"
    console = block(page, "console")
    yield "README.md: the listing", console, as_shown(console)
    yield "README.md: the picture", printed_by(["sh", "-c", picture]), read("docs/first.svg")
    if LIBRARY.exists():
        yield "README.md: the Python", *python_prints(block(page, "python"))
        yield "docs/GUIDE.md: the Python", *python_prints("\n".join(blocks(guide, "python")[2:]))
    else:
        print("README.md, docs/GUIDE.md: the Python LEFT OUT: no archive for it")
    if has_release():
        yield "README.md: the way in without a kit", *ways_in(block(page, "sh"))
    else:
        print("README.md: the way in without a kit LEFT OUT: no release with programs and a wheel, or no ensurepip")


def main():
    page, guide = read("README.md"), read("docs/GUIDE.md")
    pairs = texts(page, guide)
    if sys.argv[1:] != ["--texts"]:
        pairs += runs(page, guide)
    wrong = [name for name, shown, so in pairs if not shown or shown != so]
    for name in wrong:
        print(f"{name} isn't what it should be")
    return 1 if wrong else 0


if __name__ == "__main__":
    sys.exit(main())
