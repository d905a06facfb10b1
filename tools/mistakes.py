#!/usr/bin/env python3
# SPDX-License-Identifier: MIT
"""Tries the must-fail edits: the prover has to refuse each mistake in must-fail/.

    tools/mistakes.py [--jobs N] [--each SIZE] [--beside LOG ENDED] [CRATE | CRATE/EDIT ..]
    tools/mistakes.py --list [CRATE | CRATE/EDIT ..]

An edit says in plain words which mistake it is and which promise that breaks; `--list` prints these. Then it
says the file, and what takes the place of which text. With the line `answers: none` its function is tried
without what is answered by hand in proofs/, since those answers name places that the mistake takes away. Then
an open goal counts only if its clause is proved without these answers where the mistake isn't made.

It stands on what `.ci/run` or `rt lib` has just proved: the crates' libraries in crates/NAME/out. Edits of
one crate are tried together, in a copy of the crate that gets all of them; a second edit of a function changes a
copy of that, of another name. Of each other function only the contract is left: its proof is a hole and its body a
loop without an end, since a check also reads what a function calls, and what that calls. One check then proves the
functions with edits.
An edit is refused if its function isn't proved, and not only for a hole.

With `--beside`, `rt ci` is still at work and writes LOG; the file ENDED is there once it has ended. The edits of
a crate are then tried as soon as the libraries below it are proved, by half of the jobs until `rt ci` has ended.

A line an edit: `refused` with the first goal that stays open, `NOT REFUSED`, or `NOT TRIED` with the reason.
The last line counts: 'N passed, M failed'.
"""

import argparse
import itertools
import os
import re
import shutil
import signal
import subprocess
import sys
import tempfile
import threading
import time
from concurrent.futures import ThreadPoolExecutor
from dataclasses import dataclass
from pathlib import Path
from typing import NamedTuple

TOP = Path(__file__).resolve().parent.parent
FUNCTION = re.compile(r"( *)(?:pub(?:\([^)]*\))? )?(?:const )?(?:unsafe )?(?:extern \"C\" )?fn (\w+)")
IMPL = re.compile(r"impl(?:<.*?>)? (?:(?P<trait>[\w:]+)(?:<.*>)? for )?(?P<type>\w+)")
TYPE = re.compile(r"(?m)^(?:pub(?:\([^)]*\))? )?(?:struct|enum|union) (\w+)")
# A function that calls itself, or is called by one that it calls, has its proof with theirs.
IN_CIRCLE = re.compile(r" *#\[cycle\(")
# What is said of a file that can't be read: then no goal was tried.
UNREAD = re.compile(
    r"error: .*(is not in scope|has no field|can be named from here|is no name|operand is missing|expected the end|"
    r"cannot continue)"
)
HOLE = """use Rattle.{crate}.proofs.{path}.Statement.{{statement}}

pub {name}_spec : {{M : Type 1}} → statement M
{name}_spec = ?
"""


class NotTried(Exception):
    """Why an edit can't be tried."""


@dataclass(eq=False)
class Edit:
    """A mistake: its crate and name, what it says of itself, and for each file its pairs of texts."""

    crate: str
    name: str
    said: dict
    files: dict

    def __str__(self):
        return f"{self.crate}/{self.name}"


class Function(NamedTuple):
    """A function of a file: its path in the crate, and its first and last lines."""

    path: str
    start: int
    end: int
    is_bound: bool  # a method of a trait, or one of a circle: it can't be copied
    is_proved: bool  # such a one, or one that may call itself: it is proved, and not held by a hole


def read_edits():
    edits = []
    for path in sorted((TOP / "must-fail").glob("*/*.edit")):
        said, files, pairs = {}, {}, []
        for line in path.read_text(encoding="utf-8").splitlines():
            key, _, text = line.partition(":")
            text = text[1:]
            if key == "file":
                pairs = files.setdefault(text, [])
            elif key == "old":
                pairs.append([text, ""])
            elif key == "new":
                pairs[-1][1] = text
            else:
                said[key] = text
        edits.append(Edit(path.parent.name, path.stem, said, files))
    return edits


def functions_of(text, module, homes):
    """The functions of a file, but those within another function. A method stands in the module of its type."""
    found, owner, is_trait, in_circle = [], None, False, False
    lines = text.splitlines()
    for at, line in enumerate(lines):
        if impl := IMPL.match(line):
            owner, is_trait = impl["type"], impl["trait"] is not None
        elif line == "}":
            owner = None
        in_circle = in_circle or bool(IN_CIRCLE.match(line))
        head = FUNCTION.match(line)
        if head and len(head[1]) == (4 if owner else 0):
            ends = (head[1] + "}", head[1] + "{}")
            end = next((it for it in range(at, len(lines)) if lines[it] in ends), len(lines) - 1)
            calls_itself = any(re.search(rf"\b{head[2]}\(", it) for it in lines[at + 1 : end])
            path = [*homes.get(owner, module), owner, head[2]] if owner else [*module, head[2]]
            is_bound = is_trait or in_circle
            found.append(Function("::".join(path), at, end, is_bound, is_bound or calls_itself))
            in_circle = False
    return found


def module_of(file):
    """The names of a file's module below the crate."""
    names = list(Path(file).with_suffix("").parts[1:])
    return [] if names == ["lib"] else names


def sources_of(crate):
    """The texts of a crate's source files, and the modules in which its types stand."""
    texts = {it.relative_to(crate).as_posix(): it.read_text(encoding="utf-8") for it in (crate / "src").rglob("*.rt")}
    homes = {name: module_of(file) for file, text in texts.items() for name in TYPE.findall(text)}
    return texts, homes


def changed_by(edit, crate):
    """The functions that an edit changes."""
    functions = []
    texts, homes = sources_of(crate)
    for file, pairs in edit.files.items():
        text = texts.get(file, "")
        inside = functions_of(text, module_of(file), homes)
        for old, _ in pairs:
            if text.count(old) != 1:
                raise NotTried(f"its text is in {file} {text.count(old)} times, and not once")
            line = text[: text.index(old)].count("\n")
            around = [it for it in inside if it.start <= line <= it.end]
            if not around:
                raise NotTried(f"line {line + 1} of {file} is in no function")
            functions += [it for it in around if it not in functions]
    return functions


def groups_of(edits, crate, most):
    """Lists of edits, each with its functions' paths and where the edit is made; and why others can't be tried.

    That is the function, or a copy of it, where another edit of the group changes the function.
    """
    groups, refused = [], {}
    for edit in edits:
        try:
            functions = changed_by(edit, crate)
        except NotTried as why:
            refused[edit] = str(why)
            continue
        may_copy = len(functions) == len(edit.files) == 1 and not functions[0].is_bound
        for group in [it for it in groups if len(it) < most] + [{}]:
            before = [path for places in group.values() for path in places]
            if may_copy or not any(it.path in before for it in functions):
                break
        if not group:
            groups.append(group)
        group[edit] = {it.path: copy_name(it.path, before.count(it.path)) for it in functions}
    return groups, refused


def copy_name(path, number):
    """The path of a function's copy of this number; that of number 0 is the function itself."""
    return f"{path}_copy_{number}" if number else path


def take_answers(room, path):
    """Takes what is answered by hand of a function out of its proof."""
    for name in ("Answers.antt", "Invariants.antt"):
        (room / "proofs" / Path(*path.split("::")) / name).unlink(missing_ok=True)


def clause_of(goal):
    """The clause of which a goal is, at whichever place of the function; else what is asked there."""
    found = re.search(r"(\w+-requires|returns|invariant_of-\w+|loop-\w+)\b.*?(-clause-\w+)?$", goal)
    return "".join(filter(None, found.groups())) if found else goal


def emptied(text, functions):
    """A file's text, in which these functions run for ever: then they call nothing that has to be checked."""
    lines = text.splitlines()
    for it in sorted(functions, key=lambda it: -it.start):
        indent = lines[it.start][: len(lines[it.start]) - len(lines[it.start].lstrip())]
        inside = range(it.start, it.end)
        # The body of a function with clauses begins in a line of its own.
        begin = next((at for at in inside if lines[at] == indent + "{"), None)
        begin = begin or next((at for at in inside if lines[at].endswith("{")), None)
        if begin is not None:
            lines[begin + 1 : it.end] = [indent + "    loop {}"]
    return "\n".join(lines) + "\n"


def hold(room, crate, is_held):
    """Holds functions by holes: nothing of them is left but their contracts."""
    texts, homes = sources_of(room)
    for file, text in texts.items():
        held = [it for it in functions_of(text, module_of(file), homes) if is_held(it)]
        (room / file).write_text(emptied(text, held), encoding="utf-8")
        for it in held:
            take_answers(room, it.path)
            folder = room / "proofs" / Path(*it.path.split("::"))
            folder.mkdir(parents=True, exist_ok=True)
            hole = HOLE.format(crate=crate, path=it.path.replace("::", "."), name=it.path.rpartition("::")[2])
            (folder / "Proof.antt").write_text(hole, encoding="utf-8")


def changed(text, pairs):
    """The text with an edit: what it looks for comes first in the function itself, before its copies."""
    for old, new in pairs:
        text = text.replace(old, new, 1)
    return text


def add_copy(edit, path, place, room):
    """Puts a copy of a function with the edit behind it, with copies of its answers."""
    [(file, pairs)] = edit.files.items()
    texts, homes = sources_of(room)
    function = next(it for it in functions_of(texts[file], module_of(file), homes) if it.path == path)
    lines, names = texts[file].splitlines(), [it.rpartition("::")[2] for it in (path, place)]
    copied = "\n".join(lines[function.start : function.end + 1]).replace(f"fn {names[0]}", f"fn {names[1]}", 1)
    lines.insert(function.end + 1, changed(copied, pairs))
    (room / file).write_text("\n".join(lines) + "\n", encoding="utf-8")
    before, after = (f".proofs.{it.replace('::', '.')}." for it in (path, place))
    for answers in (room / "proofs" / Path(*path.split("::"))).glob("*.antt"):
        copy = room / "proofs" / Path(*place.split("::")) / answers.name
        copy.parent.mkdir(parents=True, exist_ok=True)
        copy.write_text(answers.read_text(encoding="utf-8").replace(before, after), encoding="utf-8")


def apply(group, room):
    """Makes the edits of a group: first those of copies, while the functions are as they were."""
    is_copied = {edit: [*places] != [*places.values()] for edit, places in group.items()}
    for edit in filter(is_copied.get, group):
        [(path, place)] = group[edit].items()
        add_copy(edit, path, place, room)
    for edit in (it for it in group if not is_copied[it]):
        for file, pairs in edit.files.items():
            text = (room / file).read_text(encoding="utf-8")
            (room / file).write_text(changed(text, pairs), encoding="utf-8")


class Checker:
    """Checks copies of crates with the kit's prover."""

    def __init__(self):
        self.kit = Path(subprocess.check_output(["rt", "doc"], text=True).strip()).parent
        self.used, self.static = {}, set()
        for line in (TOP / "crates.txt").read_text(encoding="utf-8").splitlines():
            name, colon, rest = line.partition(":")
            if colon and not line.startswith("#"):
                self.used[name.split()[0]] = rest.split()
                self.static |= {name.split()[0]} if "staticlib" in name else set()

    def below(self, crate):
        """The crates of the repository below a crate."""
        found = set()
        for it in self.used[crate]:
            if it in self.used:
                found |= {it, *self.below(it)}
        return sorted(found)

    def words(self, crate):
        """The prover's words for a library as it stands in the current folder."""
        words = ["--crate-name", crate, "src/lib.rt", "--extern", f"std={self.kit}/rlibs/std.rlib"]
        for it in self.used[crate]:
            place = TOP / "crates" / it / "out/rlib" if it in self.used else self.kit / "rlibs"
            words += ["--extern", f"{it}={place}/{it}.rlib"]
        for place in (self.kit / "rlibs", *(TOP / "crates" / it / "out/rlib" for it in self.below(crate))):
            words += ["-L", f"dependency={place}"]
        logic = self.kit / "rattle/logic/antt-project.json"
        words += ["--crate-type", "staticlib"] if crate in self.static else []
        return [*words, "--antt-project", str(logic), "--logic-built", f"{self.kit}/logic_built"]

    def lines(self, crate, room, functions):
        """What a check of these functions prints. Where the system ended it for want of memory it is made again."""
        asked = [word for it in functions for word in ("--only", it)]
        command = [self.kit / "bin/rattle", "check", *self.words(crate), "--allow-holes", *asked]
        for _ in range(3):
            ran = subprocess.run(
                command, cwd=room, stdin=subprocess.DEVNULL, capture_output=True, text=True, check=False
            )
            if ran.returncode != -signal.SIGKILL:
                break
        return ran.stdout.splitlines() + ran.stderr.splitlines()


def copy_of(crate, made):
    """A copy of a crate's sources in this folder."""
    room = Path(made)
    for part in ("src", "specs", "proofs"):
        if (TOP / "crates" / crate / part).is_dir():
            shutil.copytree(TOP / "crates" / crate / part, room / part)
    return room


def is_bare(edit):
    """Whether its function is tried without what is answered by hand."""
    return edit.said.get("answers") == "none"


def prepare(crate, room, asked, bare):
    """Holds all but these functions, some of which lose their answers."""
    hold(room, crate, lambda it: it.path not in asked and not it.is_proved)
    for path in bare:
        take_answers(room, path)


def usual_goals(checker, crate, edits):
    """The clauses that stay open, by function, where these edits' functions have no mistake and no answers."""
    bare = {it.path for edit in edits if is_bare(edit) for it in changed_by(edit, TOP / "crates" / crate)}
    if not bare:
        return {}
    with tempfile.TemporaryDirectory(prefix="mistakes-") as made:
        room = copy_of(crate, made)
        prepare(crate, room, bare, bare)
        told = told_of(f"{crate}::", bare, checker.lines(crate, room, sorted(bare)))
    return {path: {clause_of(it) for it in goals_of(path, said)} for path, said in told.items()}


def answers(checker, crate, group, usual):
    """What a check of the crate with the edits of a group comes to, by edit; without them these clauses are open."""
    with tempfile.TemporaryDirectory(prefix="mistakes-") as made:
        room = copy_of(crate, made)
        paths = sorted({path for places in group.values() for path in places})
        prepare(crate, room, paths, {path for edit, places in group.items() if is_bare(edit) for path in places})
        apply(group, room)
        lines = checker.lines(crate, room, sorted({it for places in group.values() for it in places.values()}))
    if not any(it.startswith("only=") for it in lines):
        said = next((it for it in lines if re.search("error[:[]", it)), lines[-1] if lines else "nothing was said")
        return {edit: f"NOT TRIED: {said[:160]}" for edit in group}
    return {edit: verdict(f"{crate}::", places, usual, lines) for edit, places in group.items()}


def told_of(prefix, functions, lines):
    """What a check says of each of these functions."""
    told = {}
    for line in lines:
        name, colon, rest = line.removeprefix(f"fn {prefix}").partition(": ")
        if line.startswith("fn ") and colon and name in functions:
            told[name] = rest
    return told


def verdict(prefix, places, usual, lines):
    """What the check says of an edit in these places, by function, of which these clauses are open without it, too."""
    made = set(places.values())
    told = told_of(prefix, made, lines)
    if set(told) != made:
        return f"NOT TRIED: nothing was said of {', '.join(sorted(made - set(told)))}"
    own = ("src/", "specs/", *(f"proofs/{it.replace('::', '/')}/" for it in made))
    unread = next((it for it in lines if it.removeprefix("./").startswith(own) and UNREAD.search(it)), None)
    if unread:
        return f"NOT TRIED: {unread[:160]}"
    goals = [(path, goal) for path, place in places.items() for goal in goals_of(place, told[place])]
    goals = [goal for path, goal in goals if clause_of(goal) not in usual.get(path, ())]
    return f"refused at {', '.join(goals)}" if goals else f"NOT REFUSED: {'; '.join(told.values())[:160]}"


def goals_of(path, said):
    """The goals of a function that stay open, by what is said of it.

    Only its own goals count: those that no search proves, and those whose answer is refused.
    """
    unproved = re.search(r"did not prove ((?:`[^`]+`(?:, )?)+)", said)
    answers = re.findall(rf"proofs\.{path.replace('::', '.')}\.(?:Answers|Invariants)\.([^`]+)`", said)
    searched = re.findall("`([^`]+)`", unproved[1]) if unproved else []
    return searched + (answers if "which antt refuses" in said else [])


class Beside(NamedTuple):
    """`rt ci` at work: its log, and the file that is there once it has ended."""

    log: Path
    ended: Path

    def wait_for(self, crates):
        """Waits until these crates are proved, or `rt ci` has ended."""
        while not self.ended.exists():
            lines = self.log.read_text(encoding="utf-8", errors="replace").splitlines()
            said = {it.split()[1] for it in lines if re.match(r"rt: \w+ (proved|is kept)", it)}
            if said.issuperset(crates):
                return
            time.sleep(2)

    def leave(self, jobs, turn):
        """Leaves so many more jobs to the edits once `rt ci` has ended."""
        while not self.ended.exists():
            time.sleep(2)
        for _ in range(jobs):
            turn.release()


def results_of(given, checker, tries):
    """What each edit comes to, of groups of edits by crate. A crate waits for its libraries, a check for its turn."""
    beside = Beside(*given.beside) if given.beside else None
    held_back = given.jobs // 2 if beside else 0
    turn = threading.Semaphore(given.jobs - held_back)

    def in_turn(work, *words):
        with turn:
            return work(checker, *words)

    def tried(crate):
        if beside:
            beside.wait_for(checker.below(crate))
        usual = in_turn(usual_goals, crate, [edit for group in tries[crate] for edit in group])
        return list(pool.map(lambda group: in_turn(answers, crate, group, usual), tries[crate]))

    with ThreadPoolExecutor(len(tries) + 1) as crates, ThreadPoolExecutor(given.jobs) as pool:
        if beside:
            crates.submit(beside.leave, held_back, turn)
        for results in crates.map(tried, tries):
            for group in results:
                yield from group.items()


def print_list(edits):
    """A table of these mistakes."""
    print("| Edit | Mistake | Promise that it breaks |\n|---|---|---|")
    for it in edits:
        print(f"| {it} | {it.said['mistake']} | {it.said['promise']} |")


def main():
    options = argparse.ArgumentParser(description=__doc__.split("\n")[0])
    options.add_argument("--jobs", type=int, default=len(os.sched_getaffinity(0)))
    options.add_argument("--each", type=int, default=8)
    options.add_argument("--beside", type=Path, nargs=2, metavar=("LOG", "ENDED"))
    options.add_argument("--list", action="store_true")
    options.add_argument("names", nargs="*")
    given = options.parse_args()
    wanted = [it for it in read_edits() if not given.names or it.crate in given.names or str(it) in given.names]
    if given.list:
        print_list(wanted)
        return False
    checker, tries, results = Checker(), {}, []
    for crate in sorted({it.crate for it in wanted}):
        tries[crate], why = groups_of([it for it in wanted if it.crate == crate], TOP / "crates" / crate, given.each)
        results += [(edit, f"NOT TRIED: {text}") for edit, text in why.items()]
    for edit, said in itertools.chain(list(results), results_of(given, checker, tries)):
        results.append((edit, said))
        print(f"must-fail {edit}: {said}", flush=True)
    passed = sum(said.startswith("refused") for _, said in results)
    print(f"{passed} passed, {len(wanted) - passed} failed")
    return passed != len(wanted)


if __name__ == "__main__":
    sys.exit(main())
