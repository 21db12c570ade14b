#!/usr/bin/env python3
"""Gives definitions and lemmas today's spelling, by the table spelling.tsv beside this script: whole words, in antt files, in what Rust files
say in antt, and in the must-fail edits. Edits and pages also get the names that the kit's own script respelled (spelling-of-the-kit.tsv).

usage, at the top of the repository: python3 tools/respell.py [--pages]

With --pages the code spans of README.md, docs/ and bindings/ follow, and nothing else is touched. Once: some new names are old names of others."""

import glob
import os
import re
import sys

HERE = os.path.dirname(os.path.abspath(__file__))
WORD = re.compile(r"[^\s(){}.;,@\"«»`\[\]]+")
IDENTIFIER = re.compile(r"\b[a-z][A-Za-z0-9_]*\b")
SPAN = re.compile(r"`[^`\n]+`")
STRING = re.compile(r'b?"(?:\\.|[^"\\\n])*"')


def rows(name):
    with open(os.path.join(HERE, name), encoding="utf-8") as table:
        return dict(line.rstrip("\n").split("\t") for line in table if not line.startswith("#"))


OURS = rows("spelling.tsv")
ALL = {**rows("spelling-of-the-kit.tsv"), **OURS}


def words(text, table):
    return WORD.sub(lambda m: table.get(m[0], m[0]), text)


def identifiers(text, table):
    """As Rust spells words: a dash is no part of one, and strings stay."""
    out, at = [], 0
    for m in STRING.finditer(text):
        out.append(IDENTIFIER.sub(lambda w: table.get(w[0], w[0]), text[at : m.start()]))
        out.append(m[0])
        at = m.end()
    out.append(IDENTIFIER.sub(lambda w: table.get(w[0], w[0]), text[at:]))
    return "".join(out)


def camel(table):
    return {old: new for old, new in table.items() if re.search("[A-Z]", old)}


def edit(text):
    """An edit of a Rust file turns like one, an edit of an antt file like that."""
    out, rust = [], False
    for line in text.split("\n"):
        if line.startswith("file:"):
            rust = line.rstrip().endswith(".rt")
        out.append(identifiers(line, camel(ALL)) if rust else words(line, ALL))
    return "\n".join(out)


def turn(path, how):
    with open(path, encoding="utf-8") as file:
        old = file.read()
    new = how(old)
    if new != old:
        with open(path, "w", encoding="utf-8") as file:
            file.write(new)
        return 1
    return 0


def main():
    count = 0
    if "--pages" in sys.argv:
        for path in ["README.md", *glob.glob("docs/*.md"), *glob.glob("bindings/**/*.md", recursive=True)]:
            count += turn(path, lambda text: SPAN.sub(lambda m: words(m[0], ALL), text))
    else:
        for path in glob.glob("crates/*/*/**/*", recursive=True):
            if "/out/" in path or not os.path.isfile(path):
                continue
            if path.endswith(".antt"):
                count += turn(path, lambda text: words(text, OURS))
            elif path.endswith(".rt"):
                count += turn(path, lambda text: identifiers(text, camel(OURS)))
            elif path.endswith(".edit"):
                count += turn(path, edit)
    print(f"respelled: {count} files changed")


main()
