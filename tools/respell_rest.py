#!/usr/bin/env python3
"""Respells the must-fail edits and the names that documents give between backquotes, as port.py and respell.py did the rest.

usage: tools/respell_rest.py OLDTREE [NEWTREE]

OLDTREE is the repository before port.py. A name of OLDTREE's antt files in camel case or with dashes that NEWTREE has in snake case, and
no longer as it was, turns in NEWTREE's .edit files, and in documents between backquotes and in indented lines; in edits old spellings of
the language turn too. docs/changes keeps the spelling of its time.
"""
import os
import re
import sys

WORD = re.compile(r"[^\s(){}.;,@\"«»\\`|]+")
SPELLED = [
    (re.compile(r"(?<=[\w)]) \.(?=[a-z])"), "."),
    (re.compile(r"ensures \{ λ r\. ⌜ r ≡ (.*?) ⌝ \}"), r"ensures { result ≡ \1 }"),
]


def texts(tree, *endings):
    for folder, dirs, names in os.walk(os.path.join(tree, "crates")):
        dirs[:] = sorted(d for d in dirs if d != "out")
        for name in sorted(names):
            if name.endswith(endings):
                yield os.path.join(folder, name)


def documents(tree):
    for folder, dirs, names in os.walk(tree):
        dirs[:] = sorted(d for d in dirs if d not in ("out", "target", ".git", "changes"))
        for name in sorted(names):
            if name.endswith(".md") and name != "PORT.md":
                yield os.path.join(folder, name)


def words(tree):
    found = set()
    for path in texts(tree, ".antt", ".rt"):
        with open(path, encoding="utf-8") as f:
            found.update(WORD.findall(f.read()))
    return found


def snake(name):
    name = name.replace("getD", "get_or")
    name = re.sub(r"(?<=[a-z0-9])([A-Z])", lambda m: "_" + m.group(1).lower(), name)
    return name.replace("-", "_")


def main():
    old, new = sys.argv[1], sys.argv[2] if len(sys.argv) > 2 else "."
    now = words(new)
    rows = {}
    for name in words(old):
        if re.match(r"[a-z]", name) and re.fullmatch(r"[\w'-]+", name) and snake(name) != name:
            if snake(name) in now and name not in now:
                rows[name] = snake(name)
    for path in documents(new):
        with open(path, encoding="utf-8") as f:
            lines = f.read().split("\n")
        for i, line in enumerate(lines):
            if line.startswith("    "):
                lines[i] = WORD.sub(lambda m: rows.get(m.group(0), m.group(0)), line)
            else:
                parts = line.split("`")
                parts[1::2] = [WORD.sub(lambda m: rows.get(m.group(0), m.group(0)), p) for p in parts[1::2]]
                lines[i] = "`".join(parts)
        with open(path, "w", encoding="utf-8") as f:
            f.write("\n".join(lines))
    for path in texts(new, ".edit"):
        with open(path, encoding="utf-8") as f:
            lines = f.read().split("\n")
        for i, line in enumerate(lines):
            if line.startswith(("old: ", "new: ")):
                line = WORD.sub(lambda m: rows.get(m.group(0), m.group(0)), line)
                for form, to in SPELLED:
                    line = form.sub(to, line)
                lines[i] = line
        text = "\n".join(lines)
        with open(path, "w", encoding="utf-8") as f:
            f.write(text)


main()
