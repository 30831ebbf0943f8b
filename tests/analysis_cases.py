"""The cases of the analysis that are not for proof: C7, and the edges of each question.

Each case has a label, a question, a plan, and its result, worked out here by hand from documents 01 and 02. The model has to agree with
requirements and admissions.
"""
import model
from model import agree
from plan_cases import BREAKS, GOOD, Plan, Section, Task, file, word

# ---- plans ----

BUS, LINK, POOL = 0, 1, 2
NAMES = [b"bus", b"link", b"pool"]


def paper(period):
    """The paper's example, Figure 2, with C and T of C6; `period` is T of P2's second task."""
    tasks = [Task(0, tag, 6 - tag, 100, 10) for tag in range(1, 6)]
    tasks += [Task(1, 11, 3, 50, 6), Task(1, 12, 2, period, 5), Task(1, 13, 1, 100, 10)]
    lengths = [(0, 0, 2), (0, 2, 3), (1, 0, 3), (2, 1, 5), (3, 0, 5), (3, 2, 2), (4, 2, 2),
               (5, 0, 3), (5, 1, 2), (6, 0, 2), (6, 1, 1), (7, 0, 4)]
    return Plan(2, tasks, [b"r1", b"r2", b"r3"], [Section(*row) for row in lengths])


def two_cores(first, second, sections):
    """Processor 0 has these two tasks, processor 1 a third; each of the resources is its too, but for the pool."""
    tasks = [first, second, Task(1, 3, 1, 1000, 100)]
    return Plan(2, tasks, NAMES, sections + [Section(2, BUS, 1), Section(2, LINK, 1)])


def pressed(execution, resource, period=5):
    """C7: the higher task has this C and T, the lower one a section of 4 on this resource."""
    return two_cores(Task(0, 1, 2, period, execution), Task(0, 2, 1, 100, 10), [Section(0, BUS, 1), Section(1, resource, 4)])


def lone(lengths, period=100, execution=10):
    """A reverb card whose only task has these sections on the link; two other processors hold it for 5 and 7, so that it waits 12."""
    tasks = [Task(0, 1, 1, period, execution), Task(1, 2, 1, 100, 10), Task(2, 3, 1, 100, 10)]
    return Plan(3, tasks, [b"link"], [Section(0, 0, length) for length in lengths] + [Section(1, 0, 5), Section(2, 0, 7)])


def twice(period, execution):
    """The highest task has this T and C and two sections on the bus, its fellows hold that for 6 and 4, the other processor for 5."""
    tasks = [Task(0, 1, 3, period, execution), Task(0, 2, 2, 900, 10), Task(0, 3, 1, 900, 10), Task(1, 4, 1, 900, 10)]
    lengths = [(0, 0, 3), (1, 0, 6), (0, 0, 2), (2, 0, 4), (3, 0, 5)]
    return Plan(2, tasks, [b"bus"], [Section(*row) for row in lengths])


def beside(own, *fellows):
    """The highest task holds the bus for `own`, its fellows for these times, the other processor for 3."""
    n = len(fellows) + 1
    tasks = [Task(0, 1 + u, 99 - u, 100, 10) for u in range(n)] + [Task(1, 99, 1, 100, 10)]
    return Plan(2, tasks, [b"bus"], [Section(u, 0, length) for u, length in enumerate([own, *fellows, 3])])


def behind(execution):
    """62 tasks of processor 0, each above the last, hold the first resource for 62,000, 61,000 and on. Of processor 1 a lone user waits
    for it, with T 65,535 and this C; processor 2 has the second resource, so that it is global."""
    tasks = [Task(0, 1 + u, 1 + u, 2000, 2000) for u in range(62)]
    tasks += [Task(1, 254, 1, 65535, execution), Task(2, 255, 1, 2000, 2000)]
    sections = [Section(u, q, 1000) for u in range(62) for q in range(2)] + [Section(62, 0, 1), Section(63, 1, 1000)]
    return Plan(3, tasks, [b"converter-in", b"converter-on"], sections)


# the plan of document 01's listing
LISTING = Plan(2, [Task(0, 10, 1, 100, 10), Task(1, 20, 1, 100, 10)], [b"bus"], [Section(0, 0, 2), Section(1, 0, 3)])
# the higher task is longer on the bus than on the link, and longest on the pool, which is local
OWN = two_cores(
    Task(0, 1, 2, 1000, 100),
    Task(0, 2, 1, 1000, 100),
    [Section(0, BUS, 9), Section(0, LINK, 2), Section(0, POOL, 50), Section(1, BUS, 3), Section(1, LINK, 1)],
)
THRICE = two_cores(
    Task(0, 1, 2, 1000, 100),
    Task(0, 2, 1, 1000, 100),
    [Section(0, BUS, 2), Section(1, BUS, 4), Section(0, BUS, 5), Section(0, BUS, 3)],
)
# the pool is used by the second and third task of processor 0 alone; its ceiling is the second's priority
POOLED = Plan(
    2,
    [Task(0, 1, 3, 100, 20), Task(0, 2, 2, 100, 20), Task(0, 3, 1, 100, 20), Task(1, 4, 9, 100, 20)],
    NAMES,
    [Section(0, BUS, 1), Section(1, BUS, 1), Section(1, POOL, 7), Section(2, POOL, 5), Section(3, BUS, 1)],
)
EIGHT = Plan(8, [Task(k, k, 1, 100, 50) for k in range(8)], [b"bus"], [Section(k, 0, 1 + k) for k in range(8)])
# processor 2 has a task that uses nothing, processor 3 has no task
ASIDE = Plan(4, [Task(k, k, 1, 100, 50) for k in range(3)], [b"bus"], [Section(0, 0, 4), Section(1, 0, 6)])
SILENT = Plan(3, [Task(0, 1, 1, 10, 5), Task(2, 2, 1, 10, 5)], [b"a", b"b"], [Section(0, 0, 2)])
BARE = Plan(1, [Task(0, 1, 1, 10, 10)], [b"r"], [])


def crowded(n, period, execution, own):
    """n higher tasks with this T and C above one of T and C `own`, which shares the bus with another processor."""
    tasks = [Task(0, 100 + i, 10 + i, period, execution) for i in range(n)]
    tasks += [Task(0, 1, 1, *own), Task(1, 2, 1, 10, 5)]
    return Plan(2, tasks, [b"bus"], [Section(n, 0, 1), Section(n + 1, 0, 1)])


PAPER = paper(61)
# As many sections, and as many fellows of one task, as there may be: 63 tasks of processor 0, the first of them the highest, and one of
# processor 1 have a section of 1,000 on each of two resources, and the first has 127 more on the one. Hold times are 1,000, 2,000 and on
# to 63,000.
HEAVY = Plan(
    2,
    [Task(u // 63, 192 + u, 255 - u, *((65535, 65535) if u in (0, 63) else (2000, 2000))) for u in range(64)],
    [b"converter-in", b"converter-on"],
    [Section(u, q, 1000) for u in range(64) for q in range(2)] + [Section(0, 0, 500)] * 127,
)

# ---- hold times: plan, tag, resource, result ----

HOLDS = [
    ("C1", PAPER, [(11, 0, 3), (12, 0, 4), (13, 0, 7), (11, 1, 2), (12, 1, 4)]),
    ("C2", PAPER, [(1, 0, 2), (2, 0, 3), (4, 0, 10), (3, 1, 10)]),
    ("longer on the same resource", OWN, [(1, BUS, 9), (1, LINK, 2), (2, BUS, 5), (2, LINK, 10)]),
    ("three sections on it", THRICE, [(1, BUS, 5), (2, BUS, 4)]),
]

HOLD_REFUSALS = [
    ("unknown tag", PAPER, 6, 0, 11),
    ("unknown tag and resource 3", PAPER, 6, 3, 11),
    ("tag 257 where 1 is one", PAPER, 257, 0, 11),
    ("tag 65,535", PAPER, 65535, 0, 11),
    ("resource 3", PAPER, 1, 3, 12),
    ("resource 255", PAPER, 1, 255, 12),
    ("resource 16", PAPER, 5, 16, 12),
    ("no section on a global one", PAPER, 1, 1, 13),
    ("no section on a local one", PAPER, 11, 2, 13),
    ("a section on a local one", PAPER, 1, 2, 14),
    ("the only user", SILENT, 1, 0, 14),
    ("a resource that nobody uses", SILENT, 1, 1, 13),
    ("a plan with no sections", BARE, 1, 0, 13),
]

# ---- budgets and wait times: plan, processor, resource, budget, wait time ----

SHARES = [
    ("paper", PAPER, [(0, 0, 10, 7), (0, 1, 10, 4), (0, 2, 0, 0), (1, 0, 7, 10), (1, 1, 4, 10), (1, 2, 0, 0)]),
    ("listing", LISTING, [(0, 0, 2, 3), (1, 0, 3, 2)]),
    ("eight processors", EIGHT, [(k, 0, 1 + k, 35 - k) for k in range(8)]),
    ("silent", SILENT, [(0, 0, 0, 0), (1, 0, 0, 0), (2, 1, 0, 0)]),
    ("pooled", POOLED, [(0, BUS, 1, 1), (1, BUS, 1, 1), (1, LINK, 0, 0), (1, POOL, 0, 0), (0, POOL, 0, 0)]),
    ("not a user", ASIDE, [(0, 0, 4, 6), (1, 0, 6, 4), (2, 0, 0, 10), (3, 0, 0, 10)]),
]

SHARE_REFUSALS = [
    ("processor 2", PAPER, 2, 0, 18),
    ("processor 255", PAPER, 255, 0, 18),
    ("processor 2 and resource 3", PAPER, 2, 3, 18),
    ("resource 3", PAPER, 1, 3, 12),
    ("resource 255", PAPER, 0, 255, 12),
    ("processor 1 of 1", BARE, 1, 0, 18),
]

# ---- requirements: plan, tag, B1, B2, tolerance, slack, side, whether it is met ----

# The side is, for each section, (ceil(2 x S / budget) + 1) x wait time + S, where S are the hold times of the fellows.

REQUIREMENTS = [
    # 4 x 10 + 10 on r1 and 2 x 10 + 2 on r2
    ("C6, the second task", PAPER, 12, "0 4 44 40 72 unmet"),
    ("C6 with T 60", paper(60), 12, "0 4 43 39 72 unmet"),
    ("C6 with T 92", paper(92), 12, "0 4 75 71 72 unmet"),
    ("C6 with T 93", paper(93), 12, "0 4 76 72 72 met"),
    ("C6 with T 94", paper(94), 12, "0 4 77 73 72 met"),
    # 5 x 10 + 11 and 3 x 10 + 4
    ("C6, the first task", PAPER, 11, "0 8 44 36 95 unmet"),
    # 3 x 10 + 7
    ("paper, P2's third", PAPER, 13, "0 0 68 68 37 met"),
    # 4 x 7 + 13, 4 x 7 + 12, 4 alone on r2, 2 x 7 + 5
    ("paper, P1's first", PAPER, 1, "4 13 90 73 41 met"),
    ("paper, P1's second", PAPER, 2, "4 10 80 66 40 met"),
    ("paper, P1's third", PAPER, 3, "4 5 70 61 4 met"),
    ("paper, P1's fourth", PAPER, 4, "4 0 60 56 19 met"),
    # with a fellow on the bus 3 x 1 + 4, alone 1
    ("C7", pressed(5, BUS), 1, "0 4 0 -4 7 unmet"),
    ("side 1 and slack -4", pressed(5, LINK), 1, "0 4 0 -4 1 unmet"),
    ("side 1 and slack -1", pressed(2, LINK), 1, "0 4 3 -1 1 unmet"),
    ("side 1 and slack 0", pressed(1, LINK), 1, "0 4 4 0 1 unmet"),
    ("side 1 and slack 1", pressed(1, LINK, 6), 1, "0 4 5 1 1 met"),
    ("side 7 and slack 0", pressed(1, BUS), 1, "0 4 4 0 7 unmet"),
    ("side 7 and slack 6", pressed(1, BUS, 11), 1, "0 4 10 6 7 unmet"),
    ("side 7 and slack 7", pressed(1, BUS, 12), 1, "0 4 11 7 7 met"),
    # 3 x 1 + 1
    ("a ceiling below the task", POOLED, 1, "0 1 80 79 4 met"),
    ("a ceiling at the task", POOLED, 2, "10 0 60 50 4 met"),
    # three times 3 x 1 + 4, and 3 x 1 + 5
    ("three sections on one resource", THRICE, 1, "0 4 900 896 21 met"),
    ("the lower of two", THRICE, 2, "0 0 800 800 8 met"),
    ("the greatest at t = 1", crowded(20, 1, 1, (50, 1)), 1, "0 0 -20 -20 1 unmet"),
    ("the greatest at t = T, and negative", crowded(1, 10, 10, (10, 1)), 1, "0 0 -1 -1 1 unmet"),
    ("the greatest between", crowded(1, 10, 8, (15, 1)), 1, "0 0 1 1 1 met"),
    ("the greatest between, and slack 0", crowded(1, 10, 9, (15, 1)), 1, "0 0 0 0 1 unmet"),
    ("longest times", crowded(1, 65535, 65535, (65535, 65535)), 1, "0 0 -65535 -65535 1 unmet"),
    ("61 tasks above of longest times", crowded(61, 65535, 65535, (65535, 1)), 1, "0 0 -3932101 -3932101 1 unmet"),
    # a wait of 12 for each section
    ("a lone user with one section", lone([4]), 1, "0 0 90 90 12 met"),
    ("a lone user with three sections on one resource", lone([4, 1, 2]), 1, "0 0 90 90 36 met"),
    ("a lone user, side at the slack", lone([4, 1, 2], 46), 1, "0 0 36 36 36 met"),
    ("a lone user, side one above the slack by T", lone([4, 1, 2], 45), 1, "0 0 35 35 36 unmet"),
    ("a lone user, side one above the slack by C", lone([4, 1, 2], 46, 11), 1, "0 0 35 35 36 unmet"),
    ("a lone user, side one below the slack", lone([4, 1, 2], 47), 1, "0 0 37 37 36 met"),
    # 1 for the bus and 5 for the link
    ("a lone user on two resources", pressed(1, LINK), 3, "0 0 900 900 6 met"),
    # twice 5 x 5 + 10: with the fellows' hold times once, it would be 60
    ("two sections with fellows, side at the slack", twice(90, 10), 1, "0 10 80 70 70 met"),
    ("two sections with fellows, side one above the slack by T", twice(89, 10), 1, "0 10 79 69 70 unmet"),
    ("two sections with fellows, side one above the slack by C", twice(90, 11), 1, "0 10 79 69 70 unmet"),
    ("two sections with fellows, a fellow's one section", twice(90, 10), 2, "0 4 790 786 27 met"),
    # the budget is 4 and the wait time 3
    ("a fellow of a quarter of the budget", beside(4, 1), 1, "0 1 90 89 7 met"),
    ("a fellow of half the budget", beside(4, 2), 1, "0 2 90 88 8 met"),
    ("a fellow of one more than half the budget", beside(4, 3), 1, "0 3 90 87 12 met"),
    ("a fellow of the whole budget", beside(2, 4), 1, "0 4 90 86 13 met"),
    ("fellows of one more than the budget", beside(2, 4, 1), 1, "0 5 90 85 17 met"),
    ("fellows of two budgets", beside(2, 4, 4), 1, "0 8 90 82 23 met"),
    ("fellows of one more than two budgets", beside(2, 4, 4, 1), 1, "0 9 90 81 27 met"),
    # 129 times 65 x 1,000 + 2,015,000; twice 63 x 1,000 + 1,953,000; twice 63,000
    ("255 sections and 62 fellows, the greatest side", HEAVY, 192, "0 124000 0 -124000 268320000 unmet"),
    ("255 sections and 62 fellows, the lowest task", HEAVY, 254, "0 0 -187535 -187535 4032000 unmet"),
    ("255 sections and 62 fellows, the lone user", HEAVY, 255, "0 0 0 0 126000 unmet"),
    ("a lone user behind 62 tasks, side at the slack", behind(3535), 254, "0 0 62000 62000 62000 met"),
    ("a lone user behind 62 tasks, side one above the slack", behind(3536), 254, "0 0 61999 61999 62000 unmet"),
]

REQUIREMENT_REFUSALS = [
    ("unknown tag", PAPER, 6, 11),
    ("tag 267 where 11 is one", PAPER, 267, 11),
    ("local sections alone", PAPER, 5, 17),
    ("no section", SILENT, 2, 17),
    ("the only user", SILENT, 1, 17),
]

# ---- admission ----

ADMISSIONS = [
    ("paper", PAPER, "not admitted"),
    ("listing", LISTING, "admitted"),
    ("pooled", POOLED, "admitted"),
    ("no sections", BARE, "admitted"),
    ("nothing global", SILENT, "admitted"),
    ("slack 1", pressed(1, LINK, 6), "admitted"),
    ("slack 0", pressed(1, LINK), "not admitted"),
    ("slack -1", pressed(2, LINK), "not admitted"),
    ("a later task is not met", crowded(20, 1, 1, (50, 1)), "not admitted"),
    ("a lone user, side at the slack", lone([4, 1, 2], 46), "admitted"),
    ("a lone user, side one above the slack by T", lone([4, 1, 2], 45), "not admitted"),
    ("a lone user, side one above the slack by C", lone([4, 1, 2], 46, 11), "not admitted"),
    ("two sections with fellows, side at the slack", twice(90, 10), "admitted"),
    ("two sections with fellows, side one above the slack by T", twice(89, 10), "not admitted"),
    ("two sections with fellows, side one above the slack by C", twice(90, 11), "not admitted"),
    ("255 sections and 62 fellows", HEAVY, "not admitted"),
]

# ---- all hold times: by resource, then by task ----

TABLES = [
    ("paper", PAPER, "holds 2 3 10 3 4 7 10 2 4"),
    ("own", OWN, "holds 9 5 1 2 10 1"),
    ("no sections", BARE, "holds"),
    ("nothing global", SILENT, "holds"),
]

# ---- the records ----


def hold_cases():
    found = [(f"hold {label}, tag {tag} on {q}", plan, tag, q, f"hold {h}") for label, plan, rows in HOLDS for tag, q, h in rows]
    found += [(f"hold, {label}", plan, tag, q, f"refused {k}") for label, plan, tag, q, k in HOLD_REFUSALS]
    return [(b"H", label, word(tag) + bytes([q]) + file(plan), result) for label, plan, tag, q, result in found]


def share_cases():
    found = []
    for label, plan, rows in SHARES:
        for k, q, budget, wait in rows:
            asked = bytes([k, q]) + file(plan)
            found.append((b"B", f"budget {label}, {k} on {q}", asked, f"budget {budget}"))
            found.append((b"T", f"wait {label}, {k} on {q}", asked, f"wait {wait}"))
    for label, plan, k, q, number in SHARE_REFUSALS:
        found.append((b"B", f"budget, {label}", bytes([k, q]) + file(plan), f"refused {number}"))
        found.append((b"T", f"wait, {label}", bytes([k, q]) + file(plan), f"refused {number}"))
    return found


def by_model(plan, tag):
    """What the model says of the requirement of a task."""
    *figures, met = model.Machine(plan).requirement([t.tag for t in plan.tasks].index(tag))
    return " ".join([*map(str, figures), "met" if met else "unmet"])


def requirement_cases():
    for label, plan, tag, result in REQUIREMENTS:
        agree(label, result, by_model(plan, tag))
    found = [(label, plan, tag, f"requirement {result}") for label, plan, tag, result in REQUIREMENTS]
    found += [(f"requirement, {label}", plan, tag, f"refused {k}") for label, plan, tag, k in REQUIREMENT_REFUSALS]
    return [(b"Q", label, word(tag) + file(plan), result) for label, plan, tag, result in found]


def whole_cases():
    for label, plan, result in ADMISSIONS:
        agree(label, result, "admitted" if model.Machine(plan).admitted() else "not admitted")
    found = [(b"A", f"admission, {label}", file(plan), result) for label, plan, result in ADMISSIONS]
    return found + [(b"L", f"all holds, {label}", file(plan), result) for label, plan, result in TABLES]


def refused_plans():
    """A file that breaks a check is refused by its number, whatever is asked, and before the question itself is looked at."""
    found = []
    for number, ways in BREAKS.items():
        bad = ways[0](file(GOOD))
        for kind, name, asked in [(b"H", "hold", word(9) + bytes([9])), (b"B", "budget", bytes([9, 9])), (b"T", "wait", bytes([9, 9])),
                                  (b"Q", "requirement", word(9)), (b"A", "admission", b""), (b"L", "all holds", b"")]:
            found.append((kind, f"{name} of a plan that breaks {number}", asked + bad, f"refused {number}"))
    return found


def cases():
    """Each case as its kind, its label, its record's body and its result."""
    return hold_cases() + share_cases() + requirement_cases() + whole_cases() + refused_plans()
