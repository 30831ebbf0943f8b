"""The cases of the longest wait of a task, and of the datasheet in a lent buffer.

A longest wait has a plan, a tag, a resource and its figure, worked out here by hand from document 01; the model has to agree. The lines of
a sheet are the model's, and some are written here by hand too.
"""
import model
from analysis_cases import ASIDE, BARE, BUS, EIGHT, HEAVY, LINK, LISTING, NAMES, PAPER, POOL, SILENT, crowded, lone, pressed, twice
from model import agree
from plan_cases import BREAKS, GOOD, Plan, Section, Task, file, many_names, word

# ---- plans ----

# of processor 0 two tasks use the bus, one the link, one the pool, which is local; processor 2 has the link alone
PARTLY = Plan(
    3,
    [Task(0, 1, 4, 100, 9), Task(0, 2, 3, 100, 9), Task(0, 3, 2, 100, 9), Task(0, 4, 1, 100, 9),
     Task(1, 5, 2, 100, 9), Task(1, 6, 1, 100, 9), Task(2, 7, 1, 100, 9)],
    NAMES,
    [Section(0, BUS, 4), Section(1, LINK, 5), Section(2, BUS, 3), Section(2, BUS, 6), Section(3, POOL, 9),
     Section(4, BUS, 2), Section(5, BUS, 7), Section(5, LINK, 1), Section(6, LINK, 2)],
)
# 63 tasks of processor 0, the last of them the highest, and one of processor 1, with a section of 1,000 on each resource: hold times of
# 63,000, 62,000 and on. No plan has a longer wait.
CROWD = Plan(
    2,
    [Task(0, 192 + u, u + 1, 2000, 2000) for u in range(63)] + [Task(1, 255, 1, 2000, 2000)],
    [b"converter-in", b"converter-on"],
    [Section(u, q, 1000) for u in range(64) for q in range(2)],
)
# the largest plan: each task has sections on four of 16 resources, but for the last one, and each resource is used on four processors
WIDE = Plan(
    8,
    [Task(u % 8, u * 5 % 256, 255 - u, 900 + u, 20 + u) for u in range(64)],
    many_names(16),
    [Section(i % 64, (i + i // 64 * 5) % 16, 1 + i % 5) for i in range(255)],
)

# ---- longest waits: plan, tag, resource, result ----

WAITS = [
    ("paper", PAPER, [(1, 0, 34), (4, 0, 26), (3, 1, 4), (11, 0, 41), (12, 1, 22), (13, 0, 37)]),
    ("listing", LISTING, [(10, 0, 3)]),
    ("some fellows", PARTLY, [(1, BUS, 25), (3, BUS, 18), (2, LINK, 5), (6, BUS, 24), (7, LINK, 12)]),
    ("eight processors", EIGHT, [(0, 0, 35), (7, 0, 28)]),
    ("not all processors", ASIDE, [(1, 0, 4)]),
    ("63 tasks on one processor", CROWD, [(254, 0, 2078000), (192, 1, 2016000), (255, 0, 63000)]),
]

# of the largest plan, by the model alone
WIDEST = [(0, 0), (60, 1)]

WAIT_REFUSALS = [
    ("unknown tag and resource 3", PAPER, 6, 3, 11),
    ("tag 257 where 1 is one", PAPER, 257, 0, 11),
    ("resource 3", PAPER, 1, 3, 12),
    ("resource 255", PAPER, 1, 255, 12),
    ("no section on a global one", PAPER, 1, 1, 13),
    ("no section on a local one", PAPER, 11, 2, 13),
    ("a section on a local one", PAPER, 1, 2, 14),
    ("a plan with no sections", BARE, 1, 0, 13),
]

# ---- sheets ----

PAPER_SHEET = """\
plan 2 8 3 12
resource r1 global
resource r2 global
resource r3 local
budget 0 r1 10 7
budget 0 r2 10 4
budget 1 r1 7 10
budget 1 r2 4 10
hold 1 r1 2 2 34
hold 2 r1 3 2 33
hold 3 r2 10 0 4
hold 4 r1 10 2 26
hold 11 r1 3 2 41
hold 11 r2 2 1 24
hold 12 r1 4 2 40
hold 12 r2 4 1 22
hold 13 r1 7 2 37
requirement 1 4 13 90 73 41 met
requirement 2 4 10 80 66 40 met
requirement 3 4 5 70 61 4 met
requirement 4 4 0 60 56 19 met
requirement 11 0 8 44 36 95 unmet
requirement 12 0 4 44 40 72 unmet
requirement 13 0 0 68 68 37 met
admitted no"""

PRESSED_SHEET = """\
plan 2 3 3 4
resource bus global
resource link local
resource pool local
budget 0 bus 4 1
budget 1 bus 1 4
hold 1 bus 1 1 6
hold 2 bus 4 1 3
hold 3 bus 1 0 4
requirement 1 0 4 0 -4 7 unmet
requirement 2 0 0 -10 -10 3 unmet
requirement 3 0 0 900 900 4 met
admitted no"""

# on the bus tags 1 and 3 are fellows, and 5 and 6; tags 2, 6 and 7 are alone on the link
PARTLY_SHEET = """\
plan 3 7 3 9
resource bus global
resource link global
resource pool local
budget 0 bus 11 7
budget 0 link 9 5
budget 1 bus 7 11
budget 1 link 3 11
budget 2 link 2 12
hold 1 bus 4 1 25
hold 2 link 9 0 5
hold 3 bus 11 1 18
hold 5 bus 2 1 29
hold 6 bus 7 1 24
hold 6 link 3 0 11
hold 7 link 2 0 12
requirement 1 0 17 91 74 32 met
requirement 2 0 12 82 70 5 met
requirement 3 0 0 73 73 36 met
requirement 5 0 14 91 77 40 met
requirement 6 0 0 82 82 35 met
requirement 7 0 0 91 91 12 met
admitted yes"""

LONE_SHEET = """\
plan 3 3 1 5
resource link global
budget 0 link 4 12
budget 1 link 5 11
budget 2 link 7 9
hold 1 link 4 0 12
hold 2 link 5 0 11
hold 3 link 7 0 9
requirement 1 0 0 36 36 36 met
requirement 2 0 0 90 90 11 met
requirement 3 0 0 90 90 9 met
admitted yes"""

TWICE_SHEET = """\
plan 2 4 1 5
resource bus global
budget 0 bus 6 5
budget 1 bus 5 6
hold 1 bus 3 2 25
hold 2 bus 6 2 22
hold 3 bus 4 2 24
hold 4 bus 5 0 6
requirement 1 0 10 80 70 70 met
requirement 2 0 4 790 786 27 met
requirement 3 0 0 780 780 29 met
requirement 4 0 0 890 890 6 met
admitted yes"""

BY_HAND = [
    ("paper", PAPER, PAPER_SHEET),
    ("C7", pressed(5, BUS), PRESSED_SHEET),
    ("some fellows", PARTLY, PARTLY_SHEET),
    ("a lone user, side at the slack", lone([4, 1, 2], 46), LONE_SHEET),
    ("two sections with fellows, side at the slack", twice(90, 10), TWICE_SHEET),
    ("no sections", BARE, "plan 1 1 1 0\nresource r local\nadmitted yes"),
    ("nothing global", SILENT, "plan 3 2 2 1\nresource a local\nresource b local\nadmitted yes"),
]

BY_MODEL = [
    ("listing", LISTING),
    ("slack 1", pressed(1, LINK, 6)),
    ("slack 0", pressed(1, LINK)),
    ("slack -1", pressed(2, LINK)),
    ("a lone user, side one above the slack", lone([4, 1, 2], 45)),
    ("two sections with fellows, side one above the slack", twice(89, 10)),
    ("processors without the resource", ASIDE),
    ("eight processors", EIGHT),
    ("61 tasks above of longest times", crowded(61, 65535, 65535, (65535, 1))),
    ("63 tasks on one processor", CROWD),
    ("255 sections and 62 fellows", HEAVY),
    ("largest plan", WIDE),
]

BUFFER = 131072

# ---- the records ----


def asked(plan, tag, q):
    """What the model says of the longest wait of a task that may be asked about."""
    return model.Machine(plan).longest_wait([t.tag for t in plan.tasks].index(tag), q)


def wait_cases():
    found = []
    for label, plan, rows in WAITS + [("largest plan", WIDE, [(tag, q, asked(WIDE, tag, q)) for tag, q in WIDEST])]:
        for tag, q, figure in rows:
            agree(f"{label}, tag {tag} on {q}", figure, asked(plan, tag, q))
            found.append((f"longest wait {label}, tag {tag} on {q}", plan, tag, q, f"longest {figure}"))
    found += [(f"longest wait, {label}", plan, tag, q, f"refused {k}") for label, plan, tag, q, k in WAIT_REFUSALS]
    return [(b"G", label, word(tag) + bytes([q]) + file(plan), result) for label, plan, tag, q, result in found]


def sheet_case(label, content, lines, room=BUFFER):
    """The sheet of these bytes in so much room."""
    length = len(lines) + 1
    result = f"sheet {length} right\n{lines}" if length <= room else "refused 10 unchanged"
    return b"D", f"sheet, {label}", room.to_bytes(4, "little") + content, result


def refused_case(label, content, number, room=BUFFER):
    """Bytes that are no plan: their number comes before that of a buffer that is too short, which stays as it was."""
    return b"D", f"sheet, {label}", room.to_bytes(4, "little") + content, f"refused {number} unchanged"


def sheet_cases():
    found = []
    for label, plan, lines in BY_HAND:
        agree(label, lines, "\n".join(model.sheet(plan)))
        found.append(sheet_case(label, file(plan), lines))
    return found + [sheet_case(label, file(plan), "\n".join(model.sheet(plan))) for label, plan in BY_MODEL]


def room_cases():
    paper, length = file(PAPER), len(PAPER_SHEET) + 1
    return [
        sheet_case("just long enough", paper, PAPER_SHEET, length),
        sheet_case("one byte too short", paper, PAPER_SHEET, length - 1),
        sheet_case("no room", paper, PAPER_SHEET, 0),
        sheet_case("more room than there is", paper, PAPER_SHEET, 2**32 - 1),
        refused_case("refused, with room for its line", paper[:-1], 1, 10),
        refused_case("refused, with no room for its line", paper[:-1], 1, 9),
        refused_case("refused, just long enough for the sheet", paper[:-1], 1, length),
        refused_case("a byte behind the plan", paper + b"Q", 1),
    ]


def refused_plans():
    """A file that breaks a check is refused by its number, before the question itself or the room for a sheet is looked at."""
    bad = {number: ways[0](file(GOOD)) for number, ways in BREAKS.items()}
    found = [(b"G", f"longest wait of a plan that breaks {k}", word(9) + bytes([9]) + bad[k], f"refused {k}") for k in bad]
    for k in bad:
        found += [refused_case(f"of a plan that breaks {k}", bad[k], k), refused_case(f"of a plan that breaks {k}, no room", bad[k], k, 0)]
    return found


def cases():
    """Each case as its kind, its label, its record's body and its result."""
    return wait_cases() + sheet_cases() + room_cases() + refused_plans()
