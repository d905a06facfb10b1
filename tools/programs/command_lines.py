"""Command lines of the programs, word by word.

    argus --list stacks < crates/argus/stdin -> status 0: acct base {7}
    each --version -> status 0: NAME VERSION
    replay --help -> mentions --database <FILE>

A row has the program, or `each` for argus and replay, and its words: one in quotes may have blanks in it, or nothing.
Behind `<` comes its input, a path from the top of the repository. Without one it is a folder, and whatever reads
that ends with status 5. The answer is the status, and how the text begins: on standard output with status 0,
else on standard error, while the other has nothing. NAME is the program's name, VERSION that of CHANGELOG.md. Of
what is only mentioned the text has it somewhere.
"""

import re
from collections.abc import Iterator
from functools import partial
from pathlib import Path

from calling import TOP, Programs, Trial, shortened
from spelling import rows_of, spelled, words_of

ALL = ("argus", "replay")


def version() -> str:
    """The newest version that CHANGELOG.md has."""
    found = re.search(r"^## ([0-9.]+)", (TOP / "CHANGELOG.md").read_text(encoding="utf-8"), re.MULTILINE)
    return found[1] if found else "no version"


def trials(path: Path) -> Iterator[Trial]:
    """Each row, for each program that it names."""
    number = version()
    for row in rows_of(path):
        asked, _, answer = row.partition(" -> ")
        line, _, given = asked.partition(" < ")
        word, _, words = line.partition(" ")
        source = TOP / given if given else Path("/")
        for name in ALL if word == "each" else (word,):
            wanted = answer.replace("NAME", name).replace("VERSION", number)
            yield f"{name} {words}: {answer}", partial(answered, name, words_of(words), source, wanted)


def answered(name: str, words: list[bytes], given: Path, wanted: str, programs: Programs) -> str:
    """What is wrong with what comes of a command line."""
    ended = programs.call(name, words, given)
    if wanted.startswith("mentions "):
        is_right = ended.status == 0 and spelled(wanted.removeprefix("mentions ")) in ended.output
    else:
        status, _, text = wanted.removeprefix("status ").partition(": ")
        said, other = (ended.output, ended.errors) if status == "0" else (ended.errors, ended.output)
        is_right = f"{ended.status}" == status and said.startswith(spelled(text)) and bool(said) and not other
    return "" if is_right else f"status {ended.status}\n{shortened(ended.output)}{shortened(ended.errors)}"
