#!/usr/bin/env python3
"""Looks for divisions in what works a tolerance out (document 02 §4), in the source and in the compiled code.

The source of crates/analysis_tolerance, comments aside, may have no `/` and no `%`. The compiled code is looked for in the archive that
`./prove bench_hooks` leaves, or in one that is named. No gate runs this yet. The crate's functions are compiled into the one that works
a requirement out, `analysis_requirements::requirement_of`, or stand beside it under their own names: none of these, and none that they
call, may have a divide instruction. The same search has to find the one division that the
waiting side has, in `plan_admission`, so that a search that finds nothing anywhere is an error.
"""
import re
import subprocess
import sys
from pathlib import Path

ROOT = Path(__file__).resolve().parent.parent
SOURCES = ROOT / "crates" / "analysis_tolerance" / "src"
ARCHIVE = ROOT / "target" / "staticlib" / "libbench_hooks.a"
WHOLE, APART, OTHER = "analysis_requirements::requirement_of", "analysis_tolerance::", "plan_admission"
DIVIDE = re.compile(r"\s+[0-9a-f]+:\s+(v?i?div\w*)\b")
CALL = re.compile(r"\s+[0-9a-f]+:\s+(?:call|jmp)\w*\s")
TARGET = re.compile(r"\s+[0-9a-f]+: R_X86_64_\w+\s+(.*?)(?:[-+]0x[0-9a-f]+)?$")


def in_source():
    """The lines of the source that divide."""
    found = []
    for path in sorted(SOURCES.glob("*.rt")):
        for number, line in enumerate(path.read_text().splitlines(), 1):
            code = line.split("//")[0]
            if "ghost use" not in code and "⌜" not in code and re.search(r"[/%]", code):
                found.append(f"{path.name}:{number}: {code.strip()}")
    return found


def functions(archive):
    """Of each function its divide instructions and the names that it calls or goes on to."""
    listing = subprocess.run(["objdump", "-dr", "--no-show-raw-insn", archive], check=True, capture_output=True, text=True).stdout
    found, name, called = {}, None, None
    for line in listing.splitlines():
        head = re.match(r"[0-9a-f]+ <(.*)>:$", line)
        if head:
            name = head.group(1)
            found[name] = (set(), set())
            continue
        divide, target = DIVIDE.match(line), TARGET.match(line)
        if divide:
            found[name][0].add(line.strip())
        if target and called:
            found[name][1].add(target.group(1).removeprefix(".text."))
        called = CALL.match(line)
    return found


def reached(found, names):
    """These functions and all that they call; what is not in the archive, such as memset, is left out."""
    seen, open_names = set(), list(names)
    while open_names:
        name = open_names.pop()
        if name in found and name not in seen:
            seen.add(name)
            open_names += found[name][1]
    return seen


def main():
    archive = Path(sys.argv[1]) if len(sys.argv) > 1 else ARCHIVE
    found = functions(archive)
    names = [name for name in found if name == WHOLE or name.startswith(APART)]
    if not names:
        raise SystemExit(f"{archive} has neither {WHOLE} nor a function of {APART[:-2]}")
    if OTHER not in found or not any(found[name][0] for name in reached(found, [OTHER]) - reached(found, names)):
        raise SystemExit(f"the division of the waiting side is not found in {OTHER}: this search sees none")
    faults = in_source() + [f"{name}: {line}" for name in reached(found, names) for line in found[name][0]]
    if faults:
        raise SystemExit("the tolerance divides:\n" + "\n".join(faults))
    print(f"no division in {len(reached(found, names))} compiled functions of the tolerance")


main()
