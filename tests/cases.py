#!/usr/bin/env python3
"""The cases that are not for proof: writes crates/cases/stdin and stdout, or with --check says whether they are what it makes."""
import sys
from pathlib import Path

import analysis_cases
import image_cases
import machine_cases
import plan_cases
import print_cases
import sheet_cases
import state_cases

FOLDER = Path(__file__).resolve().parent.parent / "crates" / "cases"


def record(kind, label, body):
    text = label.encode("ascii")
    content = kind + bytes([len(text)]) + text + body
    assert len(text) < 256 and len(content) <= 65536, label
    return len(content).to_bytes(4, "little") + content


def made():
    """Of each case its label, and its part of each file."""
    cases = plan_cases.cases() + analysis_cases.cases() + machine_cases.cases() + state_cases.cases() + print_cases.cases()
    cases += sheet_cases.cases() + image_cases.cases()
    labels = [label for _, label, _, _ in cases]
    repeated = sorted({label for label in labels if labels.count(label) > 1})
    if repeated:
        raise SystemExit(f"labels that repeat: {repeated}")
    return [
        (label, {"stdin": record(kind, label, body), "stdout": f"{label}: {result}\n".encode("ascii")})
        for kind, label, body, result in cases
    ]


def write(cases):
    for name in ("stdin", "stdout"):
        (FOLDER / name).write_bytes(b"".join(parts[name] for _, parts in cases))
    print(f"{len(cases)} cases")


def check(cases):
    """Looks for the first case that is stored otherwise in one of the files, or for bytes behind the last case; writes nothing."""
    rest = {name: (FOLDER / name).read_bytes() for name in ("stdin", "stdout")}
    for label, parts in cases:
        for name, part in parts.items():
            if not rest[name].startswith(part):
                raise SystemExit(f'crates/cases/{name}: the case "{label}" is not what tests/cases.py makes')
            rest[name] = rest[name][len(part):]
    for name, left in rest.items():
        if left:
            raise SystemExit(f"crates/cases/{name}: bytes behind the last case that tests/cases.py makes")
    print(f"{len(cases)} cases, stored as they are made")


if __name__ == "__main__":
    if sys.argv[1:] == []:
        write(made())
    elif sys.argv[1:] == ["--check"]:
        check(made())
    else:
        print("usage: python3 tests/cases.py [--check]", file=sys.stderr)
        raise SystemExit(2)
