#!/usr/bin/env python3
"""Counts the places in crates/*/src where an older form may stand for one of today's.

    python3 tools/places.py [-v] [POINT]

One line for each pattern: the point, what it looks for, and how many places it found; with -v, the places. A place that it finds may be right as
it is: docs/DESIGN-PASS.md says of each kind what was changed and what was kept, and why.
"""
import collections
import difflib
import glob
import itertools
import re
import sys

FILES = {path: open(path, encoding="utf-8").read() for path in sorted(glob.glob("crates/*/src/**/*.rt", recursive=True))}
# crates/nine_laws and crates/theory have no code to speak of, and are read all the same


def bare(text):
    """The text without comments and ghost imports, line for line."""
    text = re.sub(r"//[^\n]*", "", text)
    return re.sub(r"ghost use [^;]*;", lambda m: "\n" * m.group().count("\n"), text)


def line_of(text, at):
    return text.count("\n", 0, at) + 1


def found(pattern, comments=False, flags=re.M):
    for path, text in FILES.items():
        text = text if comments else bare(text)
        for m in re.finditer(pattern, text, flags):
            yield f"{path}:{line_of(text, m.start())}: {' '.join(m.group().split())[:90]}"


Function = collections.namedtuple("Function", "path line name head clauses body")


def functions():
    """Every function with a body: its head up to the clauses, its clauses, and its body."""
    for path, text in FILES.items():
        text = bare(text)
        for m in re.finditer(r"^[ ]*(?:#\[[^\n]*\]\s*)?(?:pub(?:\(crate\))? )?(?:final )?(?:extern \"C\" )?fn (\w+)", text, re.M):
            depth, at, ends = 0, m.end(), []
            start = m.end()
            # the head and clauses end at a brace that stands alone at the start of a line or ends the head's line
            while at < len(text):
                c = text[at]
                if c == "{":
                    if depth == 0:
                        ends.append(at)
                    depth += 1
                elif c == "}":
                    depth -= 1
                    if depth == 0:
                        after = text[at + 1 :].lstrip(" \n")
                        opened = ends[-1]
                        line = text[text.rfind("\n", 0, opened) + 1 : opened]
                        if not re.search(r"\b(requires|ensures)\b", line):
                            whole = text[start:opened]
                            head = re.split(r"\b(?:requires|ensures)\b", whole)[0]
                            yield Function(path, line_of(text, m.start()), m.group(1), head, whole[len(head) :], text[opened : at + 1])
                            break
                elif c == ";" and depth == 0:
                    break
                at += 1


def shape(body):
    """The body's tokens, with each name that is not a word of the language and each number made one."""
    words = "if else for in while let match return mut break continue Some None Ok Err true false".split()
    tokens = re.findall(r"[A-Za-z_]\w*|\d[\w.]*|b?\"[^\"]*\"|\S", body)
    out = []
    for t in tokens:
        if t in words:
            out.append(t)
        elif re.match(r"[A-Za-z_]", t):
            out.append("name")
        elif re.match(r"\d|b?\"", t):
            out.append("value")
        else:
            out.append(t)
    return out


def twins():
    """Pairs of functions of one crate whose bodies have the same tokens but for names and values, or nearly so."""
    for a, b in itertools.combinations(list(functions()), 2):
        if a.path.split("/")[1] != b.path.split("/")[1]:
            continue
        x, y = shape(a.body), shape(b.body)
        if min(len(x), len(y)) < 18 or max(len(x), len(y)) > 1.35 * min(len(x), len(y)):
            continue
        ratio = difflib.SequenceMatcher(None, x, y, autojunk=False).ratio()
        if ratio >= 0.82:
            yield f"{a.path}:{a.line}: {a.name}  ~  {b.path}:{b.line}: {b.name}  ({ratio:.2f})"


def between_crates():
    """The same between crates, for equal shapes alone."""
    seen = collections.defaultdict(list)
    for f in functions():
        s = shape(f.body)
        if len(s) >= 18:
            seen[tuple(s)].append(f)
    for same in seen.values():
        if len({f.path.split("/")[1] for f in same}) > 1:
            yield "  ~  ".join(f"{f.path}:{f.line}: {f.name}" for f in same)


def readers():
    """Functions of one name and one body in two impls of a crate."""
    seen = collections.defaultdict(list)
    for f in functions():
        seen[(f.path.split("/")[1], f.name, " ".join(f.body.split()))].append(f)
    for (crate, name, body), same in seen.items():
        if len(same) > 1:
            yield "  ~  ".join(f"{f.path}:{f.line}: {f.name}" for f in same)


def required():
    """Facts that stand in a `requires` of three or more functions of a crate (a product of facts counts as each of them)."""
    seen = collections.defaultdict(set)
    for f in functions():
        for clause in re.findall(r"requires (?:\w+ )?\{(.*?)\}\s*\n", f.clauses + "\n"):
            for fact in re.split(r"×", clause):
                fact = re.sub(r"[()\s]", "", fact)
                seen[(f.path.split("/")[1], fact)].add(f"{f.path}:{f.line}: {f.name}")
    for (crate, fact), where in seen.items():
        if len(where) >= 3:
            yield f"{crate}: {fact} in {len(where)}: {', '.join(sorted(w.split(': ')[1] for w in where))}"


def views():
    """Words of specs/ that the contracts of three or more functions apply to one and the same value (self, result, a parameter)."""
    seen = collections.defaultdict(set)
    for f in functions():
        for word, value in re.findall(r"\b([a-z_]+) \(?((?:self|result|held|buffer|line|plan|draft|book)(?:\.\w+)*)\b", f.clauses):
            value = value.split(".")[0]
            if word not in ("if", "ensures", "requires", "length", "take", "drop", "result"):
                seen[(f.path.split("/")[1], word)].add(f.name + f.path)
    for (crate, word), where in seen.items():
        if len(where) >= 3 and not word.startswith("of_"):
            yield f"{crate}: {word} in {len(where)} functions"


def together():
    """Pairs of parameters, by name and type, that three or more functions of a crate take together."""
    seen = collections.defaultdict(set)
    for f in functions():
        args = f.head[f.head.find("(") + 1 :].split(") ->")[0]
        names = re.findall(r"(\w+): ([^,)]+)", args)
        for (a, s), (b, t) in itertools.combinations(names, 2):
            seen[(f.path.split("/")[1], a, b)].add(f.name)
    for (crate, a, b), where in seen.items():
        if len(where) >= 3:
            yield f"{crate}: {a}, {b} in {len(where)}: {', '.join(sorted(where))}"


POINTS = [
    ("1", "a value passed on as it is by an arm of a match", lambda: found(r"(?:Ok|Some|Err)\((\w+)\) => (?:return )?(?:Ok\(|Some\(|Err\()+\1\)+,?")),
    ("1", "one kind of absence turned into another by an arm of a match", lambda: found(r"None => (?:return )?Err\(|Err\(_\) => (?:return )?(?:Err\(|None|Ok\()|Err\((\w+)\) => (?:return )?Err\([^\1\n]*\1?")),
    ("1", "a number that stands for none (by its comment)", lambda: found(r"//.*\b0 (?:for (?:none|no |a book)|stands for no|where there is no)|//.*(?:ζ are 0|has 0 there)", comments=True)),
    ("1", "a flag in a struct or an answer", lambda: found(r"^\s*(?:pub(?:\(crate\))? )?\w+: bool,|Result<bool|-> \(bool,")),
    ("1", "a number for a kind or a refusal", lambda: found(r"step: u8|-> u8|-> u32|\((?:u8, )?usize, &\[u8\]\)|, u8\); \d|, u8\)>|usize, u8>|u32, u8>|: u8,?$")),
    ("1", "an own enum of at most two cases", lambda: found(r"enum \w+(?:<[^>]*>)? \{[^,{}]*(?:\{[^}]*\}|\([^)]*\))?,[^,{}]*(?:\{[^}]*\}|\([^)]*\))?,?\s*\}", flags=re.M | re.S)),
    ("2", "functions of one crate whose bodies differ in names and values alone, or nearly", twins),
    ("2", "functions of two crates whose bodies differ in names and values alone", between_crates),
    ("2", "one name and one body in two impls", readers),
    ("3", "a while without let", lambda: found(r"\bwhile (?!let)[^{]*\{")),
    ("3", "a for over a range of numbers", lambda: found(r"\bfor \w+ in [^{\n]*\.\.[^{\n]*\{")),
    ("3", "a count raised by one", lambda: found(r"\w+(?:\.\w+)? \+= 1;|(\w+) = \1\.saturating_add\(1\)")),
    ("3", "a loop that returns at the first that passes", lambda: found(r"for [^{]*\{\s*(?:let [^;]*;\s*)?if [^{]*\{\s*return [^;]*;\s*\}\s*\}", flags=re.S)),
    ("4", "an impl of printing, conversion, equality, order or copying written by hand", lambda: found(r"^impl[^{]*\b(?:Display|Debug|From|TryFrom|FromStr|PartialEq|Eq|PartialOrd|Ord|Clone|Copy|Hash|Default)\b[^{]* for \w+")),
    ("4", "a function that turns a value into a text or a number, or a text into a value", lambda: found(r"fn (?:reason|number|named_form|word_of|power)\(|-> &'static str")),
    ("5", "a fact required by three functions or more", required),
    ("5", "a word of specs/ that reads one value in three contracts or more", views),
    ("5", "two parameters that three functions or more take together", together),
    ("6", "an array with a count beside it in a struct", lambda: found(r"\w+: \[[^\]]+; \d+\],\s*\w+: usize", flags=re.S)),
    ("6", "two vectors in a struct", lambda: found(r"\w+: Vec<[^\n]*>,\s*\w+: Vec<", flags=re.S)),
    ("6", "an index into an array, a slice or a vector", lambda: found(r"\b\w+\[[^\]\n;]+\]")),
    ("7", "a match on a choice that was handed in", lambda: found(r"match (?:back|way|form|kind|step)\b")),
    ("7", "a constant array of choices", lambda: found(r"const ALL: \[")),
]


def main():
    wanted = [a for a in sys.argv[1:] if a != "-v"]
    for point, what, places in POINTS:
        if wanted and point not in wanted:
            continue
        listed = sorted(set(places()))
        print(f"{point}  {len(listed):4}  {what}")
        if "-v" in sys.argv:
            for place in listed:
                print(f"           {place}")


main()
