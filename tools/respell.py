#!/usr/bin/env python3
"""Spells the names of this repository's definitions, fields and lemmas in snake case, by the rows of respell.tsv: old, a tab, new.

usage: python3 tools/respell.py        at the top, once, right after the port's own script

A word of code turns whole: in .antt files everywhere, in .rt files outside strings. In comments only words in camel case turn, since a word with
a dash may be plain English. Behind a dot a lemma's ending _lem is left out: there the word is a field, or the name of a call.
"""
import os
import re

HERE = os.path.dirname(os.path.realpath(__file__))
with open(os.path.join(HERE, "respell.tsv"), encoding="utf-8") as f:
    TABLE = dict(line.rstrip("\n").split("\t") for line in f)
WORD = re.compile(r"""(\.?)([^\s(){}.;,@"«»`]+)""")
CLAUSE = re.compile("-|[a-z][A-Z]")
COMMENT = {".antt": re.compile(r"(?<![^\s(){}.;,@\"«»])--[^\n]*"), ".rt": re.compile(r'//[^\n]*|b?"(?:\\.|[^"\\])*"')}


def turned(match, kind):
    dot, word = match[1], match[2]
    new = TABLE.get(word)
    # a word that Rust can name too stays in .rt: it is a function there
    if new is None or (kind == ".rt" and not CLAUSE.search(word)):
        return match[0]
    if dot and new.endswith("_lem"):
        return dot + new[:-4]
    return dot + new


def in_prose(match):
    word = match[2].rstrip(":!?'s") if match[2] not in TABLE else match[2]
    if "-" in word or not re.search("[A-Z]", word) or word not in TABLE:
        return match[0]
    return match[1] + TABLE[word] + match[2][len(word):]


def respelled(text, kind):
    def code(match):
        return turned(match, kind)

    out, at = [], 0
    for aside in COMMENT[kind].finditer(text):
        out.append(WORD.sub(code, text[at:aside.start()]))
        out.append(WORD.sub(in_prose, aside[0]) if aside[0].startswith(("--", "//")) else aside[0])
        at = aside.end()
    out.append(WORD.sub(code, text[at:]))
    return "".join(out)


def main():
    for folder, folders, files in os.walk(os.path.join(HERE, "..", "crates")):
        folders[:] = [d for d in folders if d != "out"]
        for name in files:
            kind = os.path.splitext(name)[1]
            if kind in COMMENT:
                path = os.path.join(folder, name)
                with open(path, encoding="utf-8") as f:
                    old = f.read()
                new = respelled(old, kind)
                if new != old:
                    with open(path, "w", encoding="utf-8") as f:
                        f.write(new)


main()
