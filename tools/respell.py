#!/usr/bin/env python3
"""Respells this repository's own definitions and lemmas: words in snake case, types and records in camel case.

usage: python3 tools/respell.py        at the top of a checkout, once, right after the kit's own port script
       python3 tools/respell.py look   changes nothing, and names the places where two names would fall together

It turns names that are defined in specs/ and proofs/ (not the names of goals, which the check makes), wherever one of our files cites them, in
contracts too. Functions, strings, inputs and outputs keep their names. It also gives the crate `bytes` the name `octets`, since the kit has a
library named bytes.
"""

import collections
import glob
import os
import re
import sys

GOALS = ("Answers.antt", "Invariants.antt", "Proof.antt")
TOKEN = re.compile(r"[^\s(){}\[\],;.:|\"`«»]+")
DEFINED = re.compile(r"^\s*(?:(?:pub|abbrev|unfoldable|record|data|ruleset)\s+|\|\s*)*([^\s:({]+)\s*(?:[({].*)?\s*(?::(?!:)|=)")
FOREIGN = re.compile(r"use\s+(?:Rattle\.std|Rattle\.core|mathlib|lib|Prim|denote|Lib|Mathlib)\b[^{;]*\{([^}]*)\}")
# names that would fall together with another one: what they are called instead
INSTEAD = {
    "offsets-stand": "offsets_right",
    "head-line": "line_of_head",
    "head-text": "text_of_head",
    "mark-text": "text_of_mark",
    "refused-text": "text_of_refused",
    "nine-laws": "laws_of_nine",
    "divided-out": "parted_out",
}
CRATE = ("bytes", "octets")


def files(*endings):
    for path in sorted(glob.glob("crates/**/*", recursive=True)):
        if os.path.isfile(path) and path.endswith(endings) and "/out/" not in path:
            yield path


def read(path):
    with open(path, encoding="utf-8") as f:
        return f.read()


def write(path, text):
    with open(path, "w", encoding="utf-8") as f:
        f.write(text)


def defined():
    names = collections.defaultdict(set)
    for path in files(".antt"):
        if path.endswith(GOALS):
            continue
        for line in read(path).split("\n"):
            if line.strip().startswith("--"):
                continue
            found = DEFINED.match(line)
            if found and "-" in found.group(1) and re.search("[A-Za-z]", found.group(1)):
                names[found.group(1)].add(path)
    return names


def respelt(name):
    if name in INSTEAD:
        return INSTEAD[name]
    words = name.split("-")
    if name[0].isupper():
        return "".join(w[:1].upper() + w[1:] for w in words)
    return "_".join(words)


def foreign(text):
    names = set()
    for listed in FOREIGN.findall(text):
        for item in listed.split(","):
            names.add(item.strip().split(" as ")[-1].strip())
    return names


def parts(path, text):
    """The text in pieces, each with whether its names are turned: comments of code and strings are not."""
    if path.endswith(".antt"):
        yield True, text
        return
    at = 0
    for found in re.finditer(r"//[^\n]*|b?\"(?:\\.|[^\"\\])*\"", text):
        yield True, text[at : found.start()]
        yield False, found.group(0)
        at = found.end()
    yield True, text[at:]


def turn(path, names, look):
    text = read(path)
    skip = foreign(text)
    before = set(TOKEN.findall(text))
    made = []
    told = []

    def one(found):
        name = found.group(0)
        if name not in names or name in skip:
            return name
        new = respelt(name)
        if new in before and new != name:
            told.append((name, new))
        return new

    for turns, piece in parts(path, text):
        made.append(TOKEN.sub(one, piece) if turns else piece)
    for name, new in sorted(set(told)):
        print(f"{path}: {name} would fall together with {new}")
    if not look and "".join(made) != text:
        write(path, "".join(made))


def rename_crate():
    old, new = CRATE
    if not os.path.isdir(f"crates/{old}"):
        return
    os.rename(f"crates/{old}", f"crates/{new}")
    for path in files(".rt", ".antt"):
        text = read(path)
        turned = re.sub(rf"\bRattle\.{old}\.", f"Rattle.{new}.", text)
        turned = re.sub(rf"\buse {old}::", f"use {new}::", turned)
        if turned != text:
            write(path, turned)
    text = read("crates.txt")
    write("crates.txt", re.sub(rf"\b{old}\b", new, text))


def main():
    look = sys.argv[1:] == ["look"]
    names = defined()
    by_new = collections.defaultdict(set)
    for name in names:
        by_new[respelt(name)].add(name)
    for new, olds in sorted(by_new.items()):
        if len(olds) > 1:
            print(f"fall together: {' '.join(sorted(olds))} as {new}")
    for path in files(".rt", ".antt"):
        turn(path, names, look)
    if not look:
        rename_crate()
    print(f"{len(names)} names")


main()
