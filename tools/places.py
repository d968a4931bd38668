#!/usr/bin/env python3
"""Counts, in crates/*/src, the places at which docs/DESIGN-PASS.md looks, a line for each kind of place; with a kind's name as argument it
lists its places. `python3 tools/places.py [KIND]`"""
import glob
import os
import re
import sys

HERE = os.path.join(os.path.dirname(os.path.abspath(__file__)), "..")

# A kind of place, and what a line of code that is one looks like.
LINES = {
    "1 refusal as a number": r"\b(status|made|block|list|number|refusal|fault): u8\b|fn (refusal|list_status)\b.*-> u8",
    "1 own Option or Result": r"^\s*(Broken|Refused\(u8\)|Nothing),$",
    "1 number that says none": r"\b(NONE|REGISTERS)\b",
    "3 loop over an index by hand": r"^\s*while (?!rest != 0)",
    "3 loop over a set's members": r"^\s*while rest != 0",
    "4 conversion of a width": r"\bas (u8|u16|u32|u64|usize)\b|fn (wide|wide_byte)\b",
    "4 bytes by hand": r"/ (256|65536|16777216)\b|\* (256|65536)\b",
    "4 copy or comparison by hand": r"fn (copy_into|same_numbers|holds|pairwise)\b|lanes\[\d\] == ",
    "4 wrapping, least by hand": r"std::num::|fn (at_most|lower|left_of|digits)\b",
    "6 test of an index": r"if \w+ (<|>=) \w+\.len\(\)|if \w+\.len\(\) (<=|>) \w+ \{",
    "6 field passed over in a match": r"\b\w+: _\b|\(_, _\)",
    "6 lane by its number": r"lanes\[\d\]|\bc[0-3]: u32|\bo[0-3]: Operand|\bv[0-3]: u32",
    "6 bool by nested ifs": r"^\s*return (true|false);|^\s*\} else \{ false \}|\{ false \} else",
}

# Parameters that travel together (point 5): functions that take all of a group.
GROUPS = {
    "5 variables and cells": ("variables", "cells"),
    "5 start, block and list": ("start_variables", "block_variables", "list_variables"),
    "5 places and who names them": ("numbers", "writers"),
    "5 order and next": ("order", "next"),
    "5 facts, reached, next": ("facts", "reached", "next"),
    "5 out and homes": ("out", "homes"),
    "5 out and at": ("out", "at"),
    "5 variables, arrays, lengths": ("variables", "arrays", "lengths"),
}


def sources():
    for path in sorted(glob.glob(os.path.join(HERE, "crates", "*", "src", "*.rt"))):
        with open(path, encoding="utf-8") as file:
            yield os.path.relpath(path, HERE), file.read()


def functions(text):
    """Name, line and parameters of each function."""
    for found in re.finditer(r"\bfn (\w+)(?:<[^>]*>)?\(([^)]*)\)", text):
        names = re.findall(r"(\w+): ", found.group(2))
        yield found.group(1), text[: found.start()].count("\n") + 1, names


def clauses(text):
    for found in re.finditer(r"^\s*(?:requires|ensures)(?: \w+)? \{(.*)\}$", text, re.M):
        for part in re.split(r" × ", found.group(1)):
            yield part.strip(" ()"), text[: found.start()].count("\n") + 1


def places():
    found = {kind: [] for kind in [*LINES, *GROUPS, "5 fact in three contracts or more"]}
    facts = {}
    for path, text in sources():
        for number, line in enumerate(text.split("\n"), 1):
            if line.lstrip().startswith(("//", "ghost", "requires", "ensures")):
                continue
            for kind, look in LINES.items():
                if re.search(look, line):
                    found[kind].append(f"{path}:{number}: {line.strip()}")
        for name, number, names in functions(text):
            for kind, group in GROUPS.items():
                if all(any(n == g or n.endswith("_" + g) and g in ("variables", "cells") for n in names) for g in group):
                    found[kind].append(f"{path}:{number}: fn {name}")
        for clause, number in clauses(text):
            facts.setdefault(clause, []).append(f"{path}:{number}: {clause}")
    for all_of_it in facts.values():
        if len(all_of_it) >= 3:
            found["5 fact in three contracts or more"].extend(all_of_it)
    return found


def main():
    found = places()
    if len(sys.argv) > 1:
        for line in found[" ".join(sys.argv[1:])]:
            print(line)
        return
    for kind in sorted(found):
        print(f"{len(found[kind]):5}  {kind}")


main()
