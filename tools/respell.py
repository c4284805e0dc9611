#!/usr/bin/env python3
"""Brings this repository's own definitions and lemmas to today's spelling: words in snake case, types and modules in camel case.

usage: tools/respell.py [--list]     at the top of a tree that the toolchain's port.py has turned, once, before any edit by hand

It renames what specs/ and proofs/ define: words, lemmas, record fields. A lower-case name with capitals or dashes gets
underscores (`labFits` -> `lab_fits`, `every-push` -> `every_push`); `special` below has the names that need more. Names of functions in
src/, goals and steps that the checker makes, strings and comments stay. --list prints the old and the new name of each, and changes nothing.
"""

import glob
import os
import re
import sys

# A lemma that would fall together with the word that it is about gets `_lem`; `result` is a word of clauses now.
special = {
    "right-fits": "right_fits_lem",
    "operand-fits": "operand_fits_lem",
    "first-failing": "first_failing_lem",
    "is-closed": "is_closed_lem",
    "fields_fit": "fields_fit_lem",
    "target_fits": "target_fits_lem",
    "last-ends": "last_ends_lem",
    "result": "result_of",
}
# Helper lemmas beside the answers of a function; all other names there are goals, which the checker makes.
helpers = {"as-named", "part-written", "words-fit", "by-fields", "rest-steps", "part-long"}
# Only in the files that speak of what facts/specs/Rules defines, and not as a field or in Rust code.
RESULT = re.compile(r"facts/(specs|proofs)/|promise/proofs/")

DEFINED = re.compile(r"( *)(?:abbrev pub |unfoldable pub |pub |abbrev |unfoldable )?(?:record |data )?([^\s:(){};,.λ«»]+)(?: [({].*)? : ")
PART = r"A-Za-z0-9_'+\-·ℕ≤"


def files(pattern):
    return sorted(glob.glob(os.path.join("crates", "*", pattern), recursive=True))


def texts():
    return files("specs/**/*.antt") + files("proofs/**/*.antt") + files("src/**/*.rt")


def defined():
    """Each name that specs/ or a file of lemmas defines, and the helpers."""
    names = set(helpers)
    for path in files("specs/**/*.antt") + files("proofs/**/*.antt"):
        if os.path.basename(path) in ("Answers.antt", "Invariants.antt", "Proof.antt"):
            continue
        for line in open(path, encoding="utf-8"):
            if re.match(r" *(--|use |module |mod |pub mod |ruleset )", line):
                continue
            found = DEFINED.match(line)
            if found and len(found.group(1)) % 2 == 0:
                names.add(found.group(2))
    return names


def respelled(name):
    if name in special:
        return special[name]
    if not re.match("[a-z]", name):
        return name
    return re.sub(r"(?<=[a-z0-9])([A-Z])(?=[a-z]|$)", lambda m: "_" + m.group(1).lower(), name).replace("-", "_")


def table():
    names = defined()
    turned = {name: respelled(name) for name in names if respelled(name) != name}
    taken = {}
    for name in names:
        new = turned.get(name, name)
        if new in taken:
            sys.exit(f"{name} and {taken[new]} fall together as {new}")
        taken[new] = name
    return turned


def turn(path, text, turned):
    """The text with each name replaced where it stands whole, outside comments and strings."""
    names = [n for n in turned if n != "result" or (path.endswith(".antt") and RESULT.search(path))]
    whole = re.compile(f"(?<![{PART}])({'|'.join(re.escape(n) for n in sorted(names, key=len, reverse=True))})(?![{PART}])")
    comment = "//" if path.endswith(".rt") else "--"

    def one(match):
        if match.group(1) == "result" and match.string[: match.start()].endswith("."):
            return "result"
        return turned[match.group(1)]

    lines = []
    for line in text.split("\n"):
        if not line.lstrip().startswith(comment):
            pieces = re.split(r'("(?:[^"\\]|\\.)*")', line)
            line = "".join(p if i % 2 else whole.sub(one, p) for i, p in enumerate(pieces))
        lines.append(line)
    return "\n".join(lines)


def main():
    turned = table()
    if "--list" in sys.argv[1:]:
        for name in sorted(turned):
            print(name, turned[name])
        return
    changed = 0
    for path in texts():
        with open(path, encoding="utf-8") as file:
            text = file.read()
        new = turn(path, text, turned)
        if new != text:
            changed += 1
            with open(path, "w", encoding="utf-8") as file:
                file.write(new)
    print(f"{len(turned)} names in {changed} files")


main()
