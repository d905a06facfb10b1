#!/usr/bin/env python3
"""Compares what the archive exports with what argus.h, the Rust crate and the Python package declare.

    hosts/declarations.py

The calls are read from the source of argus_c: each has to be declared everywhere with the same
parameters, in their order, and the same result; so have argus_c_call and argus_c_reply in what calls
them for Python without ctypes. A call of a list, and a status with its number, have to have the same fields, in
their order, wherever they are declared. A number that has a name in argus.h has to be the same
wherever that name stands, and each kind of call has to be named everywhere. Each difference is printed,
and then the status is 1.
"""

import importlib
import re
import sys
from pathlib import Path

TOP = Path(__file__).resolve().parent.parent
EXPORTS = TOP / "crates/argus_c/src/lib.rt"
READYING = TOP / "crates/argus_c/src/readying.rt"
PARSING = TOP / "crates/argus_c/src/parsing.rt"
KINDS = TOP / "crates/argus_embed/src/kinds.rt"
LISTED = TOP / "crates/argus_embed/src/listed_call.rt"
HEADER = TOP / "crates/argus_c/include/argus.h"
RUST = TOP / "hosts/rust/sys/src/lib.rs"
PYTHON = TOP / "hosts/python/argus_guardian/library.py"
QUICK = TOP / "hosts/python/argus_guardian/_call.h"

# What each language calls a type of a parameter; a slice is an address and a size.
IN_RATTLE = {
    "Global": (), "&mut Slot": ("handle",), "&[u8]": ("bytes", "size"), "&mut [u8]": ("bytes", "size"),
    "u32": ("u32",), "u64": ("u64",), "i64": ("i64",), "&mut i64": ("number",), "&mut usize": ("length",),
    "&mut u64": ("count",), "&mut ReadySlot": ("ready",), "&mut ParsedSlot": ("parsed",),
    "&mut [ListedCall<'_>]": ("calls", "size"), "&'a [u8]": ("bytes", "size"),
}  # fmt: skip
IN_C = {
    "argus_guardian *": "handle", "const uint8_t *": "bytes", "uint8_t *": "bytes", "size_t": "size", "uint32_t": "u32",
    "uint64_t": "u64", "int64_t": "i64", "int64_t *": "number", "size_t *": "length", "uint64_t *": "count",
    "argus_listed_call *": "calls", "const void *": "bytes", "argus_ready *": "ready", "argus_parsed *": "parsed", "void *": "handle",
}  # fmt: skip
IN_RUST = {
    "*mut Handle": "handle", "*const u8": "bytes", "*mut u8": "bytes", "usize": "size", "u32": "u32", "u64": "u64",
    "i64": "i64", "*mut i64": "number", "*mut usize": "length", "*mut u64": "count", "*mut ListedCall": "calls",
    "*mut Ready": "ready", "*mut Parsed": "parsed",
}  # fmt: skip
IN_PYTHON = {
    "handle": "handle", "ctypes.c_char_p": "bytes", "size": "size", "u32": "u32", "u64": "u64", "i64": "i64",
    "number": "number", "ctypes.POINTER(size)": "length", "ctypes.POINTER(u64)": "count", "listed": "calls", "made": "length",
    "ctypes.c_uint32": "u32", "ctypes.c_int64": "i64", "ctypes.c_size_t": "size", "ready": "ready", "parsed": "parsed",
}  # fmt: skip


def parted(text):
    """The parameters, without the comma at the end."""
    return [it.strip() for it in text.split(",") if it.strip() not in ("", "void")]


def exported(text):
    found = re.findall(r'pub extern "C" fn (argus_c_\w+)\(([^)]*)\) -> (\w+)', text)
    return {
        name: ([part for it in parted(given) for part in IN_RATTLE[it.split(": ")[1]]], result)
        for name, given, result in found
    }


def declared_in_c(text):
    """A C parameter's type is all before its name."""
    found = re.findall(r"^(\w+) (argus_c_\w+)\(([^)]*)\);", text, re.M)
    return {
        name: ([IN_C[re.sub(r"\w+$", "", it).strip()] for it in parted(given)], IN_C[result])
        for result, name, given in found
    }


def called_for_python(text):
    """How calls are called without ctypes."""
    found = re.findall(r"^typedef (\w+) library_(\w+)\(([^)]*)\);", text, re.M)
    return {
        f"argus_c_{name}": ([IN_C[re.sub(r"\w+$", "", it).strip()] for it in parted(given)], IN_C[result])
        for result, name, given in found
    }


def declared_in_rust(text):
    found = re.findall(r"fn (argus_c_\w+)\(([^)]*)\) -> (\w+);", text)
    return {name: ([IN_RUST[it.split(": ")[1]] for it in parted(given)], result) for name, given, result in found}


def declared_in_python(text):
    found = re.findall(r'"(argus_c_\w+)": \((.*)\),\n', text)
    return {name: ([IN_PYTHON[it] for it in parted(given)], "u32") for name, given in found}


def fields_of(text, struct, field, kinds):
    """The fields of a call of a list, each with its type; those of a slice are an address and a size."""
    found = re.search(struct, text, re.S)
    fields = []
    for it in re.finditer(field, found[1], re.M):
        kind = kinds[it["kind"].strip()]
        if isinstance(kind, tuple):
            fields += [(it["name"] + after, part) for after, part in zip(("", "_size"), kind)]
        else:
            fields.append((it["name"], kind))
    return fields


def listed_fields():
    """By file."""
    declared = {
        LISTED: (r"pub struct ListedCall<'a> \{(.*?)\n\}", r"pub (?P<name>\w+): (?P<kind>.*),$", IN_RATTLE),
        HEADER: (r"typedef struct argus_listed_call \{(.*?)\n\}", r"^    (?P<kind>[\w ]+[ *])(?P<name>\w+);", IN_C),
        RUST: (r"pub struct ListedCall \{(.*?)\n\}", r"pub (?P<name>\w+): (?P<kind>.*),$", IN_RUST),
        PYTHON: (r"class ListedCall.*?_fields_ = \[(.*?)\n    \]", r'\("(?P<name>\w+)", (?P<kind>.*)\),$', IN_PYTHON),
    }
    kinds = {LISTED: {**IN_RATTLE, "u32": "u32", "i64": "i64"}}
    return {
        file: fields_of(file.read_text(encoding="utf-8"), struct, field, kinds.get(file, types))
        for file, (struct, field, types) in declared.items()
    }


def answer_fields():
    """Of a status with its number, by file."""
    declared = {
        HEADER: (r"typedef struct argus_answer \{(.*?)\n\}", r"^    (?P<kind>\w+ )(?P<name>\w+);", IN_C),
        RUST: (r"pub struct Answer \{(.*?)\n\}", r"pub (?P<name>\w+): (?P<kind>.*),$", IN_RUST),
        PYTHON: (r"class Answer.*?_fields_ = \[(.*?)\]\n", r'\("(?P<name>\w+)", (?P<kind>[\w.]+)\)', IN_PYTHON),
    }
    return {file: fields_of(file.read_text(encoding="utf-8"), *it) for file, it in declared.items()}


def numbers_in_rust(text):
    return [(name, int(value)) for name, value in re.findall(r"const (\w+): u32 = (\d+);", text)]


def kinds_in_c(text):
    """The kinds of calls in the header."""
    found = re.search(r"typedef enum argus_kind \{(.*?)\n\} argus_kind;", text, re.S)
    return [(name, int(value)) for name, value in re.findall(r"^    ARGUS_(\w+) = (\d+)", found[1], re.M)]


def numbers_in_python():
    sys.path.insert(0, str(PYTHON.parents[1]))
    library = importlib.import_module("argus_guardian.library")
    kinds = library.Status, library.Kind, library.Question, library.Demand, library.ActionStatus
    return [(it.name, it.value) for kind in kinds for it in kind]


def names_in_c(header):
    """The numbers that have names in argus.h."""
    return {name: int(value) for name, value in re.findall(r"ARGUS_(\w+)(?: =)? (\d+)\b", header)}


def numbers_by_file(header, exports, rust, quick):
    """The numbers by their names, as each file has them. Python's header has others of its own, too."""
    named = names_in_c(header)
    in_quick = [(name, int(value)) for name, value in re.findall(r"\b([A-Z]\w+) = (\d+)", quick)]
    return {
        EXPORTS: numbers_in_rust(exports),
        KINDS: numbers_in_rust(KINDS.read_text(encoding="utf-8")),
        RUST: numbers_in_rust(rust),
        PYTHON: numbers_in_python(),
        QUICK: [(name, value) for name, value in in_quick if name in named],
    }


def faults_of_numbers(header, told):
    """Numbers that aren't those of argus.h, and kinds that aren't named everywhere."""
    named, in_header, kinds = names_in_c(header), kinds_in_c(header), dict(told[KINDS])
    faults = [f"{KINDS}: no kind {name}" for name, _ in in_header if name not in kinds]
    for file, numbers in {HEADER: in_header, **told}.items():
        faults += [f"{file}: {name} is {it}, not {named.get(name)}" for name, it in numbers if named.get(name) != it]
        if file in (HEADER, RUST, PYTHON):
            faults += [f"{file}: no kind {name}" for name in kinds if name not in dict(numbers)]
    return faults


def main():
    exports = "".join(file.read_text(encoding="utf-8") for file in (EXPORTS, READYING, PARSING))
    header = HEADER.read_text(encoding="utf-8")
    rust, python = RUST.read_text(encoding="utf-8"), PYTHON.read_text(encoding="utf-8")
    wanted, failed = exported(exports), []
    declared = {HEADER: declared_in_c(header), RUST: declared_in_rust(rust), PYTHON: declared_in_python(python)}
    for file, calls in declared.items():
        for name in sorted({*wanted, *calls}):
            if wanted.get(name) != calls.get(name):
                failed.append(f"{file}: {name} is {calls.get(name)}, and exported as {wanted.get(name)}")
    quick = QUICK.read_text(encoding="utf-8")
    called = called_for_python(quick)
    for name in "argus_c_call", "argus_c_reply":
        if called.get(name) != wanted.get(name):
            failed.append(f"{QUICK}: {name} is called as {called.get(name)}, and exported as {wanted.get(name)}")
    answers = answer_fields()
    for file, it in answers.items():
        if not it or it != answers[HEADER]:
            failed.append(f"{file}: a status with its number is {it}, not {answers[HEADER]}")
    fields = listed_fields()
    for file, it in fields.items():
        if it != fields[LISTED]:
            failed.append(f"{file}: a call of a list is {it}, not {fields[LISTED]}")
    told = numbers_by_file(header, exports, rust, quick)
    failed += faults_of_numbers(header, told)
    counts = f"{len(wanted)} calls, {len(fields[LISTED])} fields, {sum(map(len, told.values()))} numbers"
    print(*failed, counts, sep="\n")
    return 1 if failed or not wanted or not fields[LISTED] or not all(told.values()) else 0


sys.exit(main())
