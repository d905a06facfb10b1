"""The example scripts, run as their own comments say.

A comment that begins with `# ./argus` is a command line, and is carried out with the script as its input. What
is listed has to be what stands in rows/examples.txt: the command line behind `$ `, what it prints, and its
status, with the fault's text where there is one. Where it goes on to `./picture > run.svg` the run is drawn, and
the picture has to be the one that is stored beside the script.
"""

from collections.abc import Iterator
from functools import partial
from pathlib import Path

from calling import TOP, Programs, Trial, shortened
from spelling import words_of

DRAWS = " | ./picture > run.svg"


def trials(path: Path) -> Iterator[Trial]:
    """Each command line of each script, and whether all that is stored is some command line's."""
    stored = listings_of(path)
    commands = list(commands_of(sorted((TOP / "examples").glob("*.argus"))))
    for script, command in commands:
        if command.endswith(DRAWS):
            yield command, partial(drawn, script, command)
        else:
            yield command, partial(listed, script, command, stored.get(command, "nothing is stored"))
    left = set(stored) - {command for _, command in commands}
    yield f"what {path.name} has", lambda _: f"no comment says {left}" if left else ""


def listings_of(path: Path) -> dict[str, str]:
    """What is stored for each command line."""
    blocks = path.read_text(encoding="utf-8").split("$ ")[1:]
    return dict((block.split("\n", 1)[0], block.split("\n", 1)[1]) for block in blocks)


def commands_of(scripts: list[Path]) -> Iterator[tuple[Path, str]]:
    """Each script with each of its command lines."""
    for script in scripts:
        for line in script.read_text(encoding="utf-8").splitlines():
            if line.startswith("# ./argus "):
                yield script, line.removeprefix("# ")


def words_before_input(command: str) -> list[bytes]:
    """The words of a command line between the program's name and its input."""
    return words_of(command.removeprefix("./argus").partition("<")[0])


def listed(script: Path, command: str, stored: str, programs: Programs) -> str:
    """What is wrong with what a command line prints."""
    ended = programs.call("argus", words_before_input(command), script)
    fault = f": {ended.errors.decode()}" if ended.errors else "\n"
    printed = f"{ended.output.decode()}status {ended.status}{fault}"
    return "" if printed == stored else f"{printed}in place of\n{stored}"


def drawn(script: Path, command: str, programs: Programs) -> str:
    """What is wrong with the picture of a run."""
    journal = programs.call("argus", words_before_input(command), script)
    picture = programs.call("picture", (), journal.output)
    is_stored = picture.status == 0 and picture.output == script.with_suffix(".svg").read_bytes()
    return "" if is_stored else f"another picture: {shortened(picture.errors + picture.output)}"
