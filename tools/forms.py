#!/usr/bin/env python3
"""Counts the places in crates/*/src that the points of docs/DESIGN-PASS.md speak of. With -l each place is listed.

A place is a line of code, comments left out. `forms.py REV` counts in that commit."""
import re
import subprocess
import sys

# Tests, examples and benchmarks repeat what they test; they are counted apart.
TESTS = {"cases", "examples"}

POINTS = [
    ("1 an answer that is a value or a number", r"^\s*Refused\(\w+\),"),
    ("1 a function that gives a refusal as a number", r"fn \w*(_code|_refusal|check|look)\(.*-> u8\b"),
    ("1 a flag or a number of a refusal beside a value", r"^\s*(pub )?(ok|known|sound|holds|refusal|code): (bool|u8),"),
    ("1 a test of a number against no refusal", r"\b(code|refusal|first|own) [!=]= 0\b"),
    ("1 a refusal as a constant number", r"\brefusals::[A-Z][A-Z_]+\b"),
    ("3 a loop whose index or count is kept by hand", r"^\s*while\b|^\s*loop\b"),
    ("4 a conversion by a function of our own", r"\bfolds::(wide|half|byte|word|low|high|difference|minus)\("),
    ("4 a choice, an order or a copy by a function of our own", r"\bfolds::(chosen|longer|smaller|greater|put_bytes)\(|\b(shorter|excess)\("),
    ("4 a conversion by `as`", r"\bas (u8|u16|u32|u64|usize|i64)\b"),
    ("4 bytes of a number taken apart or put together by hand", r"\b256 \*|% 256|/ 256"),
    ("5 a checked file asked for in a contract", r"requires.*\bChecked\b"),
    ("5 the figures of a file asked for in a contract", r"requires.*\bKnown\b"),
    ("6 a buffer with the place of its end beside", r"buf: &mut \[u8\], at: usize|^\s*at: usize,"),
    ("6 an array with its count beside", r"\[[\w:]+; sizes::\w+\], \w+: usize"),
    ("7 a function chosen by a number", r"\bfn\(|dyn "),
]


def files(rev):
    if rev is None:
        text = subprocess.run(["git", "ls-files", "crates"], capture_output=True, text=True, check=True).stdout
    else:
        text = subprocess.run(["git", "ls-tree", "-r", "--name-only", rev, "crates"], capture_output=True, text=True, check=True).stdout
    return [f for f in text.split("\n") if re.match(r"crates/\w+/src/.*\.rt$", f)]


def text_of(rev, name):
    if rev is None:
        with open(name, encoding="utf-8") as f:
            return f.read()
    return subprocess.run(["git", "show", rev + ":" + name], capture_output=True, text=True, check=True).stdout


def main():
    args = [a for a in sys.argv[1:] if a != "-l"]
    rev = args[0] if args else None
    lines = []
    for name in files(rev):
        for k, line in enumerate(text_of(rev, name).split("\n"), 1):
            if not line.strip().startswith("//"):
                lines.append((name, k, line))
    for title, pattern in POINTS:
        found = [(n, k, l) for n, k, l in lines if re.search(pattern, l)]
        tests = [x for x in found if x[0].split("/")[1] in TESTS]
        print("%-60s %4d, and %d in tests" % (title, len(found) - len(tests), len(tests)))
        if "-l" in sys.argv:
            for n, k, l in found:
                print("    %s:%d: %s" % (n, k, l.strip()))


main()
