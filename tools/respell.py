#!/usr/bin/env python3
"""Spells the names that this repository declares in specs/ and proofs/ as today's Rattle spells names: in snake case.

usage: tools/respell.py [FOLDER]     FOLDER is the top of a checkout in which port.py has run; the default is the current folder

A definition `creditUpTo` becomes `credit_up_to`, a lemma `search-hit` becomes `search_hit`. Where a lemma would get the name of a
definition, the lemma's name ends in `_lem`. OTHERS names what the rule does not decide. Names turn in the crates' .antt and .rt files, in
must-fail edits and in the code spans of README.md and docs/, but for docs/landings, which tells what was. Strings stay. What an edit
says of a file of specs/ or proofs/ also gets the spelling that port.py gave those files. It prints what it changed, and what falls together.
"""

import collections
import glob
import os
import re
import sys

# A parameter of several functions has the name that the rule gives these two counts of rows.
OTHERS = {"accountCount": "count_of_accounts", "linkCount": "count_of_links"}

SPACE = r"(?<![^\s(){}.;,@\"«»\x60←])"
WORD = re.compile(SPACE + r"[A-Za-z][A-Za-z0-9_'?-]*(?![^\s(){}.;,@\"«»\x60:])")
DECLARED = re.compile(r"(?m)^ *(?:(?:abbrev|pub|unfoldable) +)*([^\s(){}.;,@\"«»]+)(?: \{[^{}\n]*\}| [^\s:(){}]+)* : ")
SPAN = re.compile(r"\x60[^\x60\n]+\x60")
STRING = re.compile(r'b?"(?:\\.|[^"\\\n])*"')
FENCE = re.compile(r"(?ms)^```.*?^```$")


def read(path):
    with open(path, encoding="utf-8") as f:
        return f.read()


def definitions():
    return sorted(glob.glob("crates/*/specs/**/*.antt", recursive=True))


def laws():
    return sorted(glob.glob("crates/*/proofs/*.antt"))


def declared(paths):
    names = set()
    for path in paths:
        code = re.sub(r"--[^\n]*", "", read(path))
        names |= {n for n in DECLARED.findall(code) if re.fullmatch(r"[a-z][A-Za-z0-9_'?-]*", n)}
    return names - {"module", "use", "let"}


def in_snake_case(name):
    return re.sub(r"(?<=[a-z0-9])[A-Z]", lambda m: "_" + m[0].lower(), name).replace("-", "_")


def table():
    """Returns what each name becomes. A definition's camel case says that it is one; a name with a dash is a lemma's or a proof's."""
    names = declared(definitions()) | declared(laws())
    rows, taken = {}, collections.defaultdict(list)
    for name in names:
        taken[OTHERS.get(name, in_snake_case(name))].append(name)
    for new, olds in taken.items():
        olds.sort(key=lambda n: (n == in_snake_case(n) or "-" in n, "-" in n))
        for i, old in enumerate(olds):
            rows[old] = new if i == 0 else new + "_lem"
        if len(olds) > 2:
            print(f"respell: {olds} fall together")
    return {old: new for old, new in rows.items() if old != new}


def turned(text, rows):
    return WORD.sub(lambda m: rows.get(m[0], m[0]), text)


def turned_before(text, rows, names):
    """Turns a text that port.py left alone, which may have a name as the name was before port.py."""

    def one(m):
        name, between = m[0], in_snake_case(m[0])
        if name in rows or name == between:
            return rows.get(name, name)
        if "-" in name and between in rows:
            return rows[between]
        return between if between in names else name

    return WORD.sub(one, text)


def but(pattern, text, turn):
    """Turns what the pattern doesn't match."""
    out, at = [], 0
    for m in pattern.finditer(text):
        out += [turn(text[at : m.start()]), m[0]]
        at = m.end()
    return "".join(out + [turn(text[at:])])


# What port.py did to the files that edits speak of.
LIBRARY = [
    (re.compile(r"Rattle·(\w+)·specs\.specs\."), r"Rattle.\1.specs."),
    (re.compile(r"Rattle·(\w+)\."), r"Rattle.\1."),
    (re.compile(r"(?<![^\s(){,])_([^\s\w(){},.]+)_(?![^\s(){},;])"), r"◌\1◌"),
    (re.compile(r"if_then_else_"), "if◌then◌else◌"),
    (re.compile(r"(?<=[\w')]) \.(?=[a-z])"), "."),
    (re.compile(r"\bgetD\b"), "get_or"),
    (re.compile(r"\bnow \((\w+) \.exit\)"), r"\1.new"),
]


def edited(text, turn):
    out, file = [], ""
    for line in text.splitlines(keepends=True):
        if line.startswith("file:"):
            file = line
        elif line.startswith(("old:", "new:")):
            if " src/" not in file:
                for pattern, new in LIBRARY:
                    line = pattern.sub(new, line)
        out.append(turn(line))
    return "".join(out)


def main():
    if len(sys.argv) > 1:
        os.chdir(sys.argv[1])
    rows = table()
    names = declared(definitions()) | declared(laws())

    def before(text):
        return turned_before(text, rows, names)

    fits = {}
    for path in definitions() + sorted(glob.glob("crates/*/proofs/**/*.antt", recursive=True)):
        fits[path] = lambda t: turned(t, rows)
    for path in glob.glob("crates/*/src/**/*.rt", recursive=True):
        fits[path] = lambda t: but(STRING, t, lambda p: turned(p, rows))
    for path in glob.glob("crates/*/must-fail/*.edit"):
        fits[path] = lambda t: edited(t, before)
    for path in ["README.md"] + glob.glob("docs/*.md"):
        fits[path] = lambda t: but(FENCE, t, lambda p: SPAN.sub(lambda m: before(m[0]), p))
    changed = 0
    for path, turn in fits.items():
        text = read(path)
        new = turn(text)
        if new != text:
            changed += 1
            with open(path, "w", encoding="utf-8") as f:
                f.write(new)
    for old, new in sorted(rows.items()):
        print(f"{old} -> {new}")
    print(f"respell: {len(rows)} names, {changed} files")


main()
