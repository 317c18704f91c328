#!/usr/bin/env python3
"""Respells the repository's own names: definitions, lemmas, fields and constructors of specs/ and proofs/ in snake case.

usage: tools/respell.py [--check] [TREE]

Names come from the declarations of TREE/crates/*/{specs,proofs}; a name of camel case or with dashes gets underscores. It turns
whole words in .antt files, in the clauses, ghost items and comments of .rt files, and in .edit files. Names of functions in src/,
strings and numbers stay. A name that would fall together with another word of the same file is told and stays (or goes by OTHER).
--check writes nothing. Run it once, after port.py.
"""
import collections
import os
import re
import sys

WORD = re.compile(r'[^\s(){}.;,@"«»\\`|]+')
DECLARED = re.compile(r"(?:pub |abbrev |unfoldable )*([^\s(){}:;,]+(?: [^\s(){}:;,]+)*) :(?:\s|$)")
TYPE = re.compile(r"(?:pub |abbrev |unfoldable )*(?:data|record) (?:pub )?([^\s(){}:;,]+)")
# What the check itself names: invariants, measures, cycles and their parts.
MADE = re.compile(r"invariant-|decreases-|.*-Inv-|.*μ|\+|.*-μ")
# Laws whose names would fall together with what they speak of.
LAWS = """after-switch all-operands at-else carried-out constants-short counted-on declared-in field-bytes kind-byte kind-from kind-in line-record loaded-from
memory-long numbers-in open-else open-switch record-line registers-short stored-from top-code well-formed work-short number-at past-block selected-word inputs_short too_long top_start top_set""".split()
OTHER = {name: name.replace("-", "_") + "_is" for name in LAWS}


def snake(name):
    name = name.replace("getD", "get_or")
    name = re.sub(r"(?<=[a-z0-9])([A-Z])", lambda m: "_" + m.group(1).lower(), name)
    return name.replace("-", "_")


def files(tree, *endings):
    for folder, dirs, names in os.walk(os.path.join(tree, "crates")):
        dirs[:] = sorted(d for d in dirs if d != "out")
        for name in sorted(names):
            if name.endswith(endings):
                yield os.path.join(folder, name)


def declared(tree):
    found = set()
    for path in files(tree, ".antt"):
        for line in open(path, encoding="utf-8"):
            line = line.strip()
            if line.startswith(("--", "use ", "let ")):
                continue
            typed = TYPE.match(line)
            named = DECLARED.match(line)
            if typed:
                found.add(typed.group(1))
            elif named:
                found.update(named.group(1).split())
    return found


def table(tree):
    rows = {}
    for name in sorted(declared(tree)):
        if not re.match(r"[a-z]", name) or MADE.match(name) or not re.fullmatch(r"[\w'-]+", name):
            continue
        new = OTHER.get(name, snake(name))
        if new != name:
            rows[name] = new
    return rows


def turned(text, rows):
    return WORD.sub(lambda m: rows.get(m.group(0), m.group(0)), text)


def turned_code(text, rows):
    """Of a .rt file all but strings."""
    parts = re.split(r'("(?:\\.|[^"\\\n])*")', text)
    return "".join(p if i % 2 else turned(p, rows) for i, p in enumerate(parts))


def main():
    words = [w for w in sys.argv[1:] if w != "--check"]
    tree = words[0] if words else "."
    rows = table(tree)
    laws = {name: rows.pop(name) for name in LAWS if "_" in name and name in rows}
    old = collections.defaultdict(list)
    for name, new in rows.items():
        old[new].append(name)
    for new, names in sorted(old.items()):
        if len(names) > 1:
            print("fall together:", ", ".join(names), "->", new)
    present = collections.defaultdict(set)
    for path in files(tree, ".antt", ".rt"):
        for w in WORD.findall(open(path, encoding="utf-8").read()):
            present[w].add(path)
    for name, new in sorted(rows.items()):
        both = present[name] & present[new]
        if both:
            print("in one file:", name, new, " ".join(sorted(both)[:3]))
    if "--check" in sys.argv:
        print(len(rows), "names")
        return
    for path in files(tree, ".antt", ".rt", ".edit"):
        text = open(path, encoding="utf-8").read()
        new = turned_code(text, rows) if path.endswith(".rt") else turned(text, rows | laws if path.endswith(".antt") else rows)
        if new != text:
            open(path, "w", encoding="utf-8").write(new)


main()
