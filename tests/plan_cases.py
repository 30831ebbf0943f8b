"""The cases of the plan file that are not for proof.

Each case has a label, the file or the values that it is about, and its result, written here by hand from
document 01. Nothing here decides a result: files are only laid out, from values that need not be valid.
"""
from collections import namedtuple

Task = namedtuple("Task", "processor tag priority period execution")
Section = namedtuple("Section", "task resource length")
Plan = namedtuple("Plan", "processors tasks names sections")

GOOD = Plan(
    processors=2,
    tasks=[Task(0, 10, 5, 100, 20), Task(0, 11, 6, 200, 30), Task(1, 20, 7, 300, 40), Task(1, 21, 8, 400, 50)],
    names=[b"bus", b"dma"],
    sections=[Section(0, 0, 5), Section(0, 1, 6), Section(1, 0, 7), Section(2, 1, 8), Section(3, 0, 9)],
)
READ = "plan 2 4 2 5"

# ---- laying out ----


def word(n):
    return n.to_bytes(2, "little")


def rows_of(plan):
    """Task rows, resource rows and section rows."""
    tasks = b"".join(bytes([t.processor, t.tag, t.priority, 0]) + word(t.period) + word(t.execution) for t in plan.tasks)
    resources, start = b"", 0
    for name in plan.names:
        resources += word(start) + bytes([len(name), 0])
        start += len(name)
    sections = b"".join(bytes([s.task, s.resource]) + word(s.length) for s in plan.sections)
    return tasks, resources, sections


def file(plan=GOOD, **changes):
    """The file of a plan, whether it keeps the rules or not."""
    plan = plan._replace(**changes)
    tasks, resources, sections = rows_of(plan)
    names = b"".join(plan.names)
    offsets = [16, 16 + len(tasks), 16 + len(tasks + resources), 16 + len(tasks + resources + sections)]
    counts = bytes([1, plan.processors, len(plan.tasks), len(plan.names)]) + word(len(plan.sections))
    header = counts + b"".join(word(o) for o in offsets) + word(offsets[3] + len(names))
    return header + tasks + resources + sections + names


def changed(rows, index, **fields):
    """The rows with one row's fields changed."""
    return [row._replace(**fields) if i == index % len(rows) else row for i, row in enumerate(rows)]


def task(index, plan=GOOD, **fields):
    return plan._replace(tasks=changed(plan.tasks, index, **fields))


def section(index, plan=GOOD, **fields):
    return plan._replace(sections=changed(plan.sections, index, **fields))


def put(content, at, *values):
    return content[:at] + bytes(values) + content[at + len(values):]


def saying(content, length=None):
    """The file with its length in bytes 14-15, or another one."""
    return put(content, 14, *word(len(content) if length is None else length))


# Places in the file of GOOD: 4 task rows from 16, 2 resource rows from 48, 5 section rows from 56, names from 76 to 82.
EDITION, P, N, R, S, OFFSETS, LENGTH = 0, 1, 2, 3, 4, 6, 14
NAMES, END = 76, 82


def in_task(index):
    return 16 + 8 * index


def in_resource(index):
    return 48 + 4 * index


def in_section(index):
    return 56 + 4 * index


SPARE = 3

# ---- plans at the limits ----


def many_tasks(n, processors=8):
    """n tasks, spread over the processors, priorities from 1 on each."""
    return [Task(i % processors, i, 1 + i // processors, 65535, 65535) for i in range(n)]


def many_names(n, length=12):
    """n names of one length that differ in their last byte only."""
    return [b"memory-bank-"[: length - 1] + bytes([65 + i]) for i in range(n)]


def many_sections(n, tasks, resources):
    return [Section(i % tasks, i % resources, 1 + i) for i in range(n)]


FULL = Plan(8, many_tasks(64), many_names(16), many_sections(255, 64, 16))
ONE = Plan(1, [Task(0, 1, 1, 10, 10)], [b"r"], [])

# ---- reading: label, file, result ----


def length_cases():
    good = file()
    return [
        ("good plan", good, READ),
        ("no bytes", b"", "refused 1"),
        ("one byte", b"\1", "refused 1"),
        ("15 bytes of a plan", good[:15], "refused 1"),
        ("15 bytes, all zero", bytes(15), "refused 1"),
        ("16 bytes of a plan", good[:16], "refused 1"),
        ("16 bytes that say 16", saying(good[:16]), "refused 4"),
        ("16 zero bytes", bytes(16), "refused 1"),
        ("16 zero bytes that say 16", saying(bytes(16)), "refused 2"),
        ("one byte less", good[:-1], "refused 1"),
        ("one byte more", good + b"A", "refused 1"),
        ("one byte less, and says so", saying(good[:-1]), "refused 7"),
        ("one byte more, and says so", saying(good + b"A"), "refused 7"),
        ("says one less", saying(good, 81), "refused 1"),
        ("says one more", saying(good, 83), "refused 1"),
        ("says 256 more", saying(good, 82 + 256), "refused 1"),
        ("says 0", saying(good, 0), "refused 1"),
        ("says 65,535", saying(good, 65535), "refused 1"),
        ("65,535 bytes that say so", saying(good + bytes(65535 - 82)), "refused 7"),
        ("65,535 bytes that say 82", good + bytes(65535 - 82), "refused 1"),
        ("65,536 bytes that say 0", saying(good, 0) + bytes(65536 - 82), "refused 1"),
        ("65,536 bytes that say 65,535", saying(good, 65535) + bytes(65536 - 82), "refused 1"),
        ("65,536 + 82 bytes that say 82", good + bytes(65536), "refused 1"),
        ("70,000 bytes that say 4,464", saying(good, 70000 - 65536) + bytes(70000 - 82), "refused 1"),
    ]


def edition_cases():
    return [
        ("edition 0", put(file(), EDITION, 0), "refused 2"),
        ("edition 1", put(file(), EDITION, 1), READ),
        ("edition 2", put(file(), EDITION, 2), "refused 2"),
        ("edition 255", put(file(), EDITION, 255), "refused 2"),
    ]


def count_cases():
    alone = [t._replace(processor=0) for t in GOOD.tasks]
    return [
        ("0 processors", put(file(), P, 0), "refused 3"),
        ("1 processor", file(processors=1, tasks=alone), "plan 1 4 2 5"),
        ("8 processors (C8)", file(processors=8), "plan 8 4 2 5"),
        ("8 processors with tasks (C8)", file(processors=8, tasks=many_tasks(8)), "plan 8 8 2 5"),
        ("9 processors (C8)", file(processors=9), "refused 3"),
        ("9 processors with tasks (C8)", file(processors=9, tasks=many_tasks(9, 9)), "refused 3"),
        ("255 processors", file(processors=255), "refused 3"),
        ("0 tasks", file(tasks=[], sections=[]), "refused 3"),
        ("1 task", file(ONE), "plan 1 1 1 0"),
        ("64 tasks", file(tasks=many_tasks(64, 2)), "plan 2 64 2 5"),
        ("65 tasks", file(tasks=many_tasks(65, 2)), "refused 3"),
        ("255 tasks in the header", put(file(), N, 255), "refused 3"),
        ("0 resources", file(names=[], sections=[]), "refused 3"),
        ("1 resource", file(names=[b"bus"], sections=[Section(0, 0, 5)]), "plan 2 4 1 1"),
        ("16 resources", file(names=many_names(16)), "plan 2 4 16 5"),
        ("17 resources", file(names=many_names(17)), "refused 3"),
        ("255 resources in the header", put(file(), R, 255), "refused 3"),
        ("0 sections", file(sections=[]), "plan 2 4 2 0"),
        ("1 section", file(sections=[Section(3, 1, 50)]), "plan 2 4 2 1"),
        ("255 sections", file(tasks=FULL.tasks, processors=8, sections=many_sections(255, 64, 2)), "plan 8 64 2 255"),
        ("256 sections", file(tasks=FULL.tasks, processors=8, sections=many_sections(256, 64, 2)), "refused 3"),
        ("65,535 sections in the header", put(file(), S, 255, 255), "refused 3"),
        ("fullest plan", file(FULL), "plan 8 64 16 255"),
    ]


def offset_cases():
    good, cases = file(), []
    for i, part in enumerate(["tasks", "resources", "sections", "names"]):
        at = OFFSETS + 2 * i
        cases += [
            (f"offset of {part}, one less", put(good, at, good[at] - 1), "refused 4"),
            (f"offset of {part}, one more", put(good, at, good[at] + 1), "refused 4"),
            (f"offset of {part}, 256 more", put(good, at + 1, 1), "refused 4"),
            (f"offset of {part} 0", put(good, at, 0), "refused 4"),
        ]
    gap = put(good[:NAMES] + b"A" + good[NAMES:], OFFSETS + 6, NAMES + 1)
    swapped = put(good, OFFSETS, 48, 0, 16, 0)
    return cases + [
        ("names at the end of the file", saying(good[:NAMES]), "refused 7"),
        ("names past the end, by one", saying(good[: NAMES - 1]), "refused 4"),
        ("file ends within the section rows", saying(good[:60]), "refused 4"),
        ("file ends within the task rows", saying(good[:20]), "refused 4"),
        ("names past the end, their offset at it", saying(put(good[:70], OFFSETS + 6, 70)), "refused 4"),
        ("gap before the names", saying(gap), "refused 4"),
        ("offsets of tasks and resources swapped", swapped, "refused 4"),
    ]


def task_cases():
    cases = []
    for row in (0, 3):
        spare = put(file(), in_task(row) + SPARE, 1)
        cases += [
            (f"task {row} on processor 1", file(task(row, processor=1)), READ),
            (f"task {row} on processor 2 of 2", file(task(row, processor=2)), "refused 5"),
            (f"task {row} on processor 255", file(task(row, processor=255)), "refused 5"),
            (f"task {row} of priority 0", file(task(row, priority=0)), "refused 5"),
            (f"task {row} of priority 1", file(task(row, priority=1)), READ),
            (f"task {row} of priority 255", file(task(row, priority=255)), READ),
            (f"task {row} with a spare byte of 1", spare, "refused 5"),
            (f"task {row} with a spare byte of 255", put(spare, in_task(row) + SPARE, 255), "refused 5"),
            (f"task {row}, C = 0", file(task(row, execution=0)), "refused 5"),
            (f"task {row}, C = T", file(task(row, execution=GOOD.tasks[row].period)), READ),
            (f"task {row}, C = T + 1", file(task(row, execution=GOOD.tasks[row].period + 1)), "refused 5"),
            (f"task {row}, C = T = 65,535", file(task(row, period=65535, execution=65535)), READ),
            (f"task {row}, T = 0", file(task(row, period=0)), "refused 5"),
            (f"task {row}, C = T = 0", file(task(row, period=0, execution=0)), "refused 5"),
            (f"task {row} of tag 0", file(task(row, tag=0)), READ),
            (f"task {row} of tag 255", file(task(row, tag=255)), READ),
        ]
    return cases + [
        ("C = T = 1", file(ONE, tasks=[Task(0, 1, 1, 1, 1)]), "plan 1 1 1 0"),
        ("C = 256, T = 255", file(task(0, period=255, execution=256)), "refused 5"),
        ("C = 255, T = 256", file(task(0, period=256, execution=255)), READ),
    ]


def unique_cases():
    full = FULL.tasks
    return [
        ("equal tags on one processor", file(task(1, tag=10)), "refused 6"),
        ("equal tags on two processors", file(task(2, tag=10)), "refused 6"),
        ("equal tags, first and last row", file(task(3, tag=10)), "refused 6"),
        ("equal tags 0", file(task(0, task(1, tag=0), tag=0)), "refused 6"),
        ("equal tags 255", file(task(0, task(3, tag=255), tag=255)), "refused 6"),
        ("equal priorities on one processor", file(task(1, priority=5)), "refused 6"),
        ("equal priorities on the other", file(task(2, priority=8)), "refused 6"),
        ("equal priorities on two processors", file(task(2, priority=5)), READ),
        ("equal priorities 255 on one processor", file(task(0, task(1, priority=255), priority=255)), "refused 6"),
        ("equal priorities, first and last row", file(task(3, processor=0, priority=5)), "refused 6"),
        ("tag equal to a priority", file(task(0, tag=5)), READ),
        ("64 tasks, equal tags in the last rows", file(FULL, tasks=changed(full, 63, tag=62)), "refused 6"),
        ("64 tasks, equal tags at both ends", file(FULL, tasks=changed(full, 63, tag=0)), "refused 6"),
        ("64 tasks, equal priorities on processor 7", file(FULL, tasks=changed(full, 63, priority=1)), "refused 6"),
        ("64 tasks on one processor", file(tasks=many_tasks(64, 1)), "plan 2 64 2 5"),
    ]


def name_row_cases():
    good = file()
    return [
        ("name of 0 bytes", file(names=[b"", b"dma"]), "refused 7"),
        ("last name of 0 bytes", file(names=[b"bus", b""]), "refused 7"),
        ("names of 1 byte", file(names=[b"b", b"d"]), READ),
        ("names of 12 bytes", file(names=[b"memory-bank1", b"memory-bank2"]), READ),
        ("name of 13 bytes", file(names=[b"memory-bank-1", b"dma"]), "refused 7"),
        ("last name of 13 bytes", file(names=[b"bus", b"memory-bank-1"]), "refused 7"),
        ("first name starts at 1", put(good, in_resource(0), 1), "refused 7"),
        ("first name starts at 256", put(good, in_resource(0) + 1, 1), "refused 7"),
        ("next name starts one early", put(good, in_resource(1), 2), "refused 7"),
        ("next name starts one late", put(good, in_resource(1), 4), "refused 7"),
        ("next name starts 256 late", put(good, in_resource(1) + 1, 1), "refused 7"),
        ("resource 0 with a spare byte of 1", put(good, in_resource(0) + SPARE, 1), "refused 7"),
        ("resource 1 with a spare byte of 1", put(good, in_resource(1) + SPARE, 1), "refused 7"),
        ("last name ends one early", put(good, in_resource(1) + 2, 2), "refused 7"),
        ("last name ends one late", put(good, in_resource(1) + 2, 4), "refused 7"),
        ("first name one longer, the next starts there", put(good, in_resource(0), 0, 0, 4, 0, 4, 0), "refused 7"),
        ("first name one longer, the next one shorter", put(good, in_resource(0), 0, 0, 4, 0, 4, 0, 2), READ),
        ("last name of 255 bytes", put(good, in_resource(1) + 2, 255), "refused 7"),
        ("resources swapped", put(good, in_resource(0), 3, 0, 3, 0, 0, 0, 3, 0), "refused 7"),
    ]


def name_cases():
    good, cases = file(), []
    for byte, result in [(0, "refused 7"), (32, "refused 7"), (33, READ), (126, READ), (127, "refused 7"), (255, "refused 7")]:
        cases += [
            (f"first name byte {byte}", put(good, NAMES, byte), result),
            (f"last name byte {byte}", put(good, END - 1, byte), result),
        ]
    ends = many_names(15) + many_names(1)
    return cases + [
        ("two equal names", file(names=[b"bus", b"bus"]), "refused 7"),
        ("two equal names of 1 byte", file(names=[b"b", b"b"]), "refused 7"),
        ("two equal names of 12 bytes", file(names=[b"memory-bank1", b"memory-bank1"]), "refused 7"),
        ("names that differ in the last byte", file(names=[b"bus1", b"bus2"]), READ),
        ("names that differ in the first byte", file(names=[b"1bus", b"2bus"]), READ),
        ("names that differ in case", file(names=[b"bus", b"BUS"]), READ),
        ("a name and a longer one", file(names=[b"bus", b"busy"]), READ),
        ("a name and a shorter one", file(names=[b"busy", b"bus"]), READ),
        # each pair has one weighted sum of bytes: 3 more in the first of four, 1 less in the middle four; or one byte throughout
        ("names that differ in two bytes that balance", file(names=[b"dabcbefgzzzz", b"gabcaefgzzzz"]), READ),
        ("one byte four times and five times", file(names=[b"AAAA", b"AAAAA"]), READ),
        ("two equal names behind others that balance", file(
            names=[b"dabcbefgzzzz", b"gabcaefgzzzz", b"dabcbefgzzzz"]), "refused 7"),
        ("a name of 11 and of 12 bytes", file(names=[b"memory-bank", b"memory-bank1"]), READ),
        ("16 names, the first and last equal", file(names=ends), "refused 7"),
        ("16 names, the last two equal", file(names=many_names(16)[1:] + many_names(16)[15:]), "refused 7"),
    ]


def section_cases():
    long = task(1, period=2000, execution=2000)
    return [
        ("section of task N - 1", file(section(0, task=3)), READ),
        ("section of task N", file(section(0, task=4)), "refused 8"),
        ("section of task 255", file(section(-1, task=255)), "refused 8"),
        ("section on resource R - 1", file(section(0, resource=1)), READ),
        ("section on resource R", file(section(0, resource=2)), "refused 8"),
        ("last section on resource R", file(section(-1, resource=2)), "refused 8"),
        ("section on resource 255", file(section(2, resource=255)), "refused 8"),
        ("section of 0 ticks", file(section(2, length=0)), "refused 8"),
        ("last section of 0 ticks", file(section(-1, length=0)), "refused 8"),
        ("section of 1 tick", file(section(2, length=1)), READ),
        ("section of 1,000 ticks (C8)", file(section(2, long, length=1000)), READ),
        ("section of 1,001 ticks (C8)", file(section(2, long, length=1001)), "refused 8"),
        ("section of 1,256 ticks", file(section(2, long, length=1256)), "refused 8"),
        ("section of 65,535 ticks", file(section(2, length=65535)), "refused 8"),
    ]


def sum_cases():
    """Task 0 has C = 20 and sections of 5 and 6 ticks in the good plan."""
    mixed = GOOD.sections[2:4] + [Section(0, 1, 6)] + GOOD.sections[4:] + [Section(0, 0, 5)]
    wide = Plan(1, [Task(0, 1, 1, 65535, 65535), Task(0, 2, 2, 65535, 60000)], [b"bus"], [])
    top = [Section(0, 0, 1000)] * 65
    return [
        ("one section of C ticks", file(sections=[Section(1, 0, 30)]), "plan 2 4 2 1"),
        ("one section of C + 1 ticks", file(sections=[Section(1, 0, 31)]), "refused 9"),
        ("sections of one resource, sum C", file(section(1, resource=0, length=15)), READ),
        ("sections of one resource, sum C + 1", file(section(1, resource=0, length=16)), "refused 9"),
        ("sections of two resources, sum C", file(section(1, length=15)), READ),
        ("sections of two resources, sum C + 1", file(section(1, length=16)), "refused 9"),
        ("rows in another order", file(sections=mixed), READ),
        ("rows in another order, sum C", file(sections=mixed + [Section(0, 1, 9)]), "plan 2 4 2 6"),
        ("rows in another order, sum C + 1", file(sections=mixed + [Section(0, 1, 10)]), "refused 9"),
        ("last task's sections, sum C", file(sections=GOOD.sections + [Section(3, 1, 41)]), "plan 2 4 2 6"),
        ("last task's sections, sum C + 1", file(sections=GOOD.sections + [Section(3, 1, 42)]), "refused 9"),
        ("sum of 65,535", file(wide, sections=top + [Section(0, 0, 535)]), "plan 1 2 1 66"),
        ("sum of 65,536", file(wide, sections=top + [Section(0, 0, 536)]), "refused 9"),
        ("sum of 255,000", file(wide, sections=[Section(0, 0, 1000)] * 255), "refused 9"),
        # 255,000 is 58,392 more than a multiple of 65,536
        ("sum of 255,000 where C is 60,000", file(wide, sections=[Section(1, 0, 1000)] * 255), "refused 9"),
    ]


# For each number, two ways to break its check in the file of GOOD and no check before it. They touch different bytes, so
# any two go together: all 36 pairs can be built. (1 as "fewer than 16 bytes" goes with 2 and 3 alone, and those are below.)
# 5 is broken in the last row and 6 in the first two, 8 in the last row and 9 in the first ones, so that the order of the
# checks is not the order of the bytes.
BREAKS = {
    1: [lambda f: saying(f, len(f) + 1), lambda f: saying(f, len(f) - 1)],
    2: [lambda f: put(f, EDITION, 2), lambda f: put(f, EDITION, 0)],
    3: [lambda f: put(f, P, 9), lambda f: put(f, R, 0)],
    4: [lambda f: put(f, OFFSETS + 4, 57), lambda f: put(f, OFFSETS + 6, 77)],
    5: [lambda f: put(f, in_task(3) + SPARE, 1), lambda f: put(f, in_task(3), 2)],
    6: [lambda f: put(f, in_task(1) + 1, 10), lambda f: put(f, in_task(1) + 2, 5)],
    7: [lambda f: put(f, END - 1, 32), lambda f: put(f, NAMES, *b"dmadma")],
    8: [lambda f: put(f, in_section(4) + 1, 2), lambda f: put(f, in_section(4) + 2, 0)],
    9: [lambda f: put(f, in_section(0) + 2, 21), lambda f: put(f, in_section(1) + 2, 16)],
}


def pair_cases():
    cases = []
    for number, ways in BREAKS.items():
        for way, change in enumerate(ways, 1):
            cases.append((f"breaks {number}, way {way}", change(file()), f"refused {number}"))
    for small in BREAKS:
        for large in range(small + 1, 10):
            for way, (one, other) in enumerate(zip(BREAKS[small], BREAKS[large]), 1):
                cases.append((f"breaks {small} and {large}, way {way}", one(other(file())), f"refused {small}"))
    everything = file()
    for number in range(9, 0, -1):
        everything = BREAKS[number][0](everything)
        cases.append((f"breaks {number} and all after", everything, f"refused {number}"))
    return cases + [
        ("15 bytes, edition and counts bad", b"\7" + b"\xff" * 14, "refused 1"),
        ("edition, a count and the offsets bad", saying(b"\7" + b"\xff" * 15), "refused 2"),
        ("a count and the offsets bad", saying(b"\1" + b"\xff" * 15), "refused 3"),
        ("0 tasks and names past the end", put(file(), N, 0, 2, 5, 0, 16, 0, 16, 0, 24, 0, 83, 0), "refused 3"),
    ]


READINGS = (
    length_cases() + edition_cases() + count_cases() + offset_cases() + task_cases() + unique_cases()
    + name_row_cases() + name_cases() + section_cases() + sum_cases() + pair_cases()
)

# ---- names: label, file, resource, result ----


def named_cases():
    many = file(names=[b"a", b"bb"] + many_names(14))
    cases = [(f"name of resource {i} of 16", many, i, name.decode()) for i, name in enumerate([b"a", b"bb"] + many_names(14))]
    for number, ways in BREAKS.items():
        cases += [
            (f"name in a plan that breaks {number}", ways[0](file()), 0, f"refused {number}"),
            (f"name of resource R in a plan that breaks {number}", ways[0](file()), 2, f"refused {number}"),
        ]
    return cases + [
        ("name of the first resource", file(), 0, "bus"),
        ("name of the last resource", file(), 1, "dma"),
        ("name of resource R", file(), 2, "refused 12"),
        ("name of resource R + 1", file(), 3, "refused 12"),
        ("name of resource 255", file(), 255, "refused 12"),
        ("name of resource 16 of 16", many, 16, "refused 12"),
        ("name of the only resource", file(ONE), 0, "r"),
        ("name of resource 1 of 1", file(ONE), 1, "refused 12"),
        ("name in no bytes", b"", 0, "refused 1"),
        ("name of 12 bytes", file(names=[b"memory-bank1", b"dma"]), 0, "memory-bank1"),
        ("name of bytes 33 and 126", file(names=[b"bus", b"!~"]), 1, "!~"),
    ]


# ---- writing: label, values, room, result ----

# counts, where they are not those of the rows; name lengths, where they are not those of the names
Values = namedtuple("Values", "plan counts lengths")


def values(plan=GOOD, counts=None, lengths=None):
    return Values(plan, counts or [plan.processors, len(plan.tasks), len(plan.names), len(plan.sections)],
                  lengths or [len(n) for n in plan.names])


def accepted_cases():
    more = values(GOOD._replace(tasks=GOOD.tasks + [Task(9, 300, 0, 0, 1)], sections=GOOD.sections + [Section(9, 9, 0)]),
                  [2, 4, 2, 5], [3, 3, 0, 99])
    return [
        ("write the good plan", values(), 2048, "written 82 same again"),
        ("write into exactly its length", values(), 82, "written 82 same again"),
        ("write into one byte more", values(), 83, "written 82 same again"),
        ("write the fullest plan", values(FULL), 2048, "written 1804 same again"),
        ("write the fullest plan, exactly its length", values(FULL), 1804, "written 1804 same again"),
        ("write the smallest plan", values(ONE), 29, "written 29 same again"),
        ("write with no section", values(GOOD._replace(sections=[])), 2048, "written 62 same again"),
        ("write with empty processors", values(GOOD._replace(processors=8)), 2048, "written 82 same again"),
        ("write tags 0 and 255", values(task(0, task(1, tag=255), tag=0)), 2048, "written 82 same again"),
        ("write a name and a longer one", values(GOOD._replace(names=[b"bus", b"busy"])), 2048, "written 83 same again"),
        ("write a sum of C", values(section(1, length=15)), 2048, "written 82 same again"),
        ("write a section of 1,000 ticks", values(section(2, task(1, period=2000, execution=1000), length=1000)), 2048,
         "written 82 same again"),
        ("write, with rows past the counts", more, 2048, "written 82 same again"),
    ]


def refused_counts_and_tasks():
    """Label, values and number; the buffer has 2048 bytes."""
    bad = task(0, section(0, length=0), priority=0)
    return [
        ("write 0 processors", values(counts=[0, 4, 2, 5]), 3),
        ("write 9 processors", values(counts=[9, 4, 2, 5]), 3),
        ("write 0 tasks", values(counts=[2, 0, 2, 5]), 3),
        ("write 65 tasks", values(counts=[2, 65, 2, 5]), 3),
        ("write 255 tasks", values(counts=[2, 255, 2, 5]), 3),
        ("write 0 resources", values(counts=[2, 4, 0, 5]), 3),
        ("write 17 resources", values(counts=[2, 4, 17, 5]), 3),
        ("write 256 sections", values(counts=[2, 4, 2, 256]), 3),
        ("write 65,535 sections", values(counts=[2, 4, 2, 65535]), 3),
        ("write 65 tasks, rows bad too", values(bad, [2, 65, 2, 5]), 3),
        ("write 256 sections, rows bad too", values(bad, [2, 4, 2, 256], [3, 0]), 3),
        ("write processor P", values(task(3, processor=2)), 5),
        ("write tag 256", values(task(0, tag=256)), 5),
        ("write tag 266, whose low byte repeats one", values(task(1, tag=266)), 5),
        ("write tag 65,535", values(task(3, tag=65535)), 5),
        ("write priority 0", values(task(1, priority=0)), 5),
        ("write C = 0", values(task(2, execution=0)), 5),
        ("write C = T + 1", values(task(2, execution=301)), 5),
        ("write a row of zeros", values(counts=[2, 5, 2, 5]), 5),
        ("write equal tags", values(task(3, tag=10)), 6),
        ("write equal priorities", values(task(1, priority=5)), 6),
    ]


def refused_names_and_sections():
    return [
        ("write lengths one less than the bytes", values(lengths=[3, 2]), 7),
        ("write lengths one more than the bytes", values(lengths=[3, 4]), 7),
        ("write a length of 255", values(lengths=[3, 255]), 7),
        ("write a length of 0", values(lengths=[0, 6]), 7),
        ("write a length of 13", values(GOOD._replace(names=[b"bus", b"memory-bank-1"])), 7),
        ("write a missing length", values(counts=[2, 4, 3, 5]), 7),
        ("write no name bytes", values(GOOD._replace(names=[b"", b""]), lengths=[3, 3]), 7),
        ("write name byte 32", values(GOOD._replace(names=[b"b s", b"dma"])), 7),
        ("write name byte 127", values(GOOD._replace(names=[b"bus", b"dm\x7f"])), 7),
        ("write two equal names", values(GOOD._replace(names=[b"bus", b"bus"])), 7),
        ("write a section of task N", values(section(4, task=4)), 8),
        ("write a section on resource R", values(section(0, resource=2)), 8),
        ("write a section of 0 ticks", values(section(0, length=0)), 8),
        ("write a section of 1,001 ticks", values(section(2, task(1, period=2000, execution=2000), length=1001)), 8),
        ("write a section row of zeros", values(counts=[2, 4, 2, 6]), 8),
        ("write a sum of C + 1", values(section(1, length=16)), 9),
        ("write a sum of 255,000 where C is 60,000",
         values(task(0, GOOD._replace(sections=[Section(0, 0, 1000)] * 255), period=65535, execution=60000)), 9),
    ]


# For each number, a change of GOOD's values that breaks it and none before it; any two go together.
WRITE_BREAKS = {
    3: lambda v: v._replace(counts=[9] + v.counts[1:]),
    5: lambda v: v._replace(plan=task(3, v.plan, tag=256)),
    6: lambda v: v._replace(plan=task(1, v.plan, priority=5)),
    7: lambda v: v._replace(lengths=[3, 4]),
    8: lambda v: v._replace(plan=section(-1, v.plan, task=4)),
    9: lambda v: v._replace(plan=section(0, v.plan, length=21)),
}


def write_pair_cases():
    numbers = list(WRITE_BREAKS)
    cases = [(f"write what breaks {n} alone", WRITE_BREAKS[n](values()), 82, f"refused {n} unchanged") for n in numbers]
    for i, small in enumerate(numbers):
        for large in numbers[i + 1:]:
            both = WRITE_BREAKS[small](WRITE_BREAKS[large](values()))
            cases.append((f"write what breaks {small} and {large}", both, 82, f"refused {small} unchanged"))
        short = WRITE_BREAKS[small](values())
        cases.append((f"write what breaks {small} and 10", short, 81, f"refused {small} unchanged"))
    return cases


def written_cases():
    cases = refused_counts_and_tasks() + refused_names_and_sections()
    refused = [(label, what, 2048, f"refused {number} unchanged") for label, what, number in cases]
    return accepted_cases() + refused + write_pair_cases() + [
        ("write into one byte less", values(), 81, "refused 10 unchanged"),
        ("write into no bytes", values(), 0, "refused 10 unchanged"),
        ("write into 16 bytes", values(), 16, "refused 10 unchanged"),
        ("write the fullest plan, one byte less", values(FULL), 1803, "refused 10 unchanged"),
    ]


# ---- the records ----


def read_body(content):
    """The length, then the bytes up to the last that is not zero: the rest of the program's array is zero."""
    return len(content).to_bytes(4, "little") + content.rstrip(b"\0")


def write_body(v, room, result):
    """The expected file is laid out here only where one is to be written."""
    processors, tasks, resources, sections = v.counts
    names = b"".join(v.plan.names)
    kept = v.plan._replace(tasks=v.plan.tasks[:tasks], sections=v.plan.sections[:sections])
    expected = file(kept) if result.startswith("written") else b""
    head = bytes([processors, tasks, resources]) + word(sections) + word(room) + word(len(names)) + word(len(expected))
    head += bytes([len(v.plan.tasks), len(v.lengths), len(v.plan.sections)])
    rows = b"".join(bytes([t.processor]) + word(t.tag) + bytes([t.priority]) + word(t.period) + word(t.execution)
                    for t in v.plan.tasks)
    return head + names + expected + rows + bytes(v.lengths) + rows_of(v.plan._replace(tasks=[]))[2]


def cases():
    """Each case as its kind, its label, its record's body and its result."""
    found = [(b"R", label, read_body(content), result) for label, content, result in READINGS]
    found += [(b"N", label, bytes([q]) + content, result) for label, content, q, result in named_cases()]
    return found + [(b"W", label, write_body(v, room, result), result) for label, v, room, result in written_cases()]
