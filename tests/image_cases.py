"""The cases of calls on an image: sound images at their edges, images that break a clause, each refusal in its order, and the words.

Each case has a label, a plan, the lent bytes, a call, its answer and what it leaves, written here by hand from documents 01 and 02; the
model has to agree. Where a case goes through a long list, or changes each byte of the longest image, what is left is the model's.
"""
import re
from itertools import cycle

import image_model
import machine_cases
import model
import sheet_cases
import state_cases
from analysis_cases import EIGHT, LISTING, PAPER
from image_model import NONE, image, length, tasks_at, word_of
from machine_cases import ALL, CROWD, LONG, body, calls_of
from model import agree
from plan_cases import BREAKS, GOOD, Plan, Section, Task, file, put, word
from state_cases import wide_call

# ---- images ----


def lines_of(shown):
    """The lines of a text as the case program shows a state: for each resource that is held the hold left, the budget left, and its
    processors with their tasks."""
    lines = [model.Line() for _ in range(16)]
    for q, hold, budget, turns in re.findall(r"(\d+):(\d+)/(\d+):((?:\d+\([\d ]*\))+)", shown):
        found = [(int(k), [int(u) for u in tasks.split()]) for k, tasks in re.findall(r"(\d+)\(([\d ]*)\)", turns)]
        lines[int(q)] = model.Line(found, int(hold), int(budget))
    return lines


def shows(plan, shown):
    """The image of a state that shows this."""
    return image(plan, lines_of(shown))


# Places in a resource row, which begins with the count.
HOLDER, HOLD, BUDGET, QUEUE = 1, 2, 4, 6


def in_row(q):
    return 4 + 14 * q


def in_task(u):
    return tasks_at(PAPER) + 2 * u


# Of PAPER: on r1 processors 1 and 0 with tags 12, 11 and 2, 4; on r2 processor 0 with tag 3; r3 is local. Tasks 0, 4 and 7 are idle.
HELD = "0:3/5:1(6 5)0(1 3) 1:4/6:0(2)"
BUSY = shows(PAPER, HELD)
FRESH = shows(PAPER, "nobody")
# the longest image: two processors with two tasks each were queued for each of 16 resources, of which four have lost one since
FULL = sheet_cases.WIDE
FULL_CALLS = [("Q", FULL.tasks[u].tag, (u + 5 * (u // 32)) % 16) for u in range(64)] + [("T", 0, 0)] * 2


def reached(plan, calls):
    """The image that the model has after calls from a fresh machine on."""
    machine = model.Machine(plan)
    for call in calls:
        machine.call(*call)
    return image(plan, machine.lines)


FULL_BUSY = reached(FULL, FULL_CALLS)
FULL_FRESH = shows(FULL, "nobody")
BEHIND = bytes([7, 0, 255, 170, 1])
SOME_BYTES = bytes(x ** 3 % 251 for x in range(1, 1601))

# ---- the listing, byte by byte: call, word, the row of the bus, the task rows ----

NO_WORD = [0] * 8
FREE = [0, 255, 0, 0, 0, 0] + [255] * 8


def bus(count, holder, left, *queue):
    """A row whose hold left and budget left are the same."""
    return [count, holder, left, 0, left, 0, *queue] + [255] * (8 - count)


BYTES = [
    ("S", NO_WORD, FREE, [255, 255, 255, 255]),
    ("Q 20 0", NO_WORD, bus(1, 1, 3, 1), [255, 255, 0, 0]),
    ("Q 10 0", [0, 1, 0, 3, 0, 0, 0, 0], bus(2, 1, 3, 1, 0), [0, 0, 0, 0]),
    ("T", NO_WORD, bus(2, 1, 2, 1, 0), [0, 0, 0, 0]),
    ("T", NO_WORD, bus(2, 1, 1, 1, 0), [0, 0, 0, 0]),
    ("T", [0, 1, 0, 1, 0, 0, 0, 0], bus(1, 0, 2, 0), [0, 0, 255, 255]),
    ("R 20 0", [16, 0, 0, 0, 0, 0, 0, 0], bus(1, 0, 2, 0), [0, 0, 255, 255]),
    ("R 10 0", NO_WORD, FREE, [255, 255, 255, 255]),
]

# ---- single calls: label, plan, what the image shows, call, answer, what it then shows ----


def in_turn(n):
    return " ".join(str(u) for u in range(n))


WORDS = [
    ("waits behind 61 tasks, the limit above 65,535", LONG, f"0:62000/62000:0({in_turn(61)})", "Q 61 0", "waits 61 2014000",
     f"0:62000/62000:0({in_turn(62)})"),
    ("waits behind 62 tasks, the longest limit", sheet_cases.CROWD, f"0:63000/63000:0({in_turn(62)})", "Q 254 0", "waits 62 2078000",
     f"0:63000/63000:0({in_turn(63)})"),
    ("waits behind one task, the limit below 65,536", LONG, "0:61999/62000:0(0)", "Q 1 0", "waits 1 64000", "0:61999/62000:0(0 1)"),
    ("waits behind two tasks, the limit above 65,535", LONG, "0:1/1000:0(0 1)", "Q 2 0", "waits 2 126000", "0:1/1000:0(0 1 2)"),
    ("waits as another core, the limit below 65,536", LONG, "0:1/1:0(0)", "Q 255 0", "waits 0 62000", "0:1/1:0(0)1(62)"),
    ("a release that leaves more than 255", LONG, f"0:61999/61999:0({in_turn(3)})", "R 0 0", "to 1", "0:61000/61999:0(1 2)"),
    ("a tick that takes from the high byte too", LONG, "0:256/512:0(0)", "T", "tick 0 0 0", "0:255/511:0(0)"),
    ("a release to tag 255", CROWD, "0:1/1:0(0)1(63)", "R 0 0", "to 255", "0:1/1:1(63)"),
    ("a release to tag 0", CROWD, "0:1/1:1(63)0(0)", "R 255 0", "to 0", "0:1/1:0(0)"),
    ("63 in a queue, a tick", CROWD, f"0:1/1:0({in_turn(63)})1(63)", "T", "tick 1 1 1", f"0:1/1:1(63)0({in_turn(63)[2:]})"),
    ("63 in a queue, a give-up in the middle", CROWD, f"0:1/1:0({in_turn(63)})1(63)", "W 30 0", "left",
     f"0:1/1:0({' '.join(str(u) for u in range(63) if u != 30)})1(63)"),
    ("all sixteen cut and granted in one tick", ALL, " ".join(f"{q}:1/1:0({q})1({16 + q})" for q in range(16)), "T", "tick 65535 65535 16",
     " ".join(f"{q}:{16 - q}/{16 - q}:1({16 + q})" for q in range(16))),
    ("all sixteen cut, none granted", ALL, " ".join(f"{q}:1/1:0({q})" for q in range(16)), "T", "tick 65535 0 16", "nobody"),
    ("the last of sixteen cut and granted", ALL, "0:2/2:0(0) 15:1/1:1(31)0(15)", "T", "tick 32768 32768 1", "0:1/1:0(0) 15:1/1:0(15)"),
    ("the first and the ninth cut, the ninth granted", ALL, "0:1/1:0(0) 8:1/1:1(24)0(8)", "T", "tick 257 256 2", "8:8/8:0(8)"),
    ("each of eight queued, a tick", EIGHT, "0:1/8:7(7)0(0)6(6)1(1)5(5)2(2)4(4)3(3)", "T", "tick 1 1 1",
     "0:1/1:0(0)6(6)1(1)5(5)2(2)4(4)3(3)"),
]

# calls on BUSY that are refused, each also by a number that comes later where there is one
REFUSED = [
    ("Q 99 3", 11, "before 12"),
    ("Q 257 0", 11, "the low byte of 257 is tag 1"),
    ("Q 65535 0", 11, "the highest"),
    ("Q 268 0", 11, "the low byte is that of who holds, before 15"),
    ("Q 1 3", 12, "before 13"),
    ("Q 12 255", 12, "before 13 and 15"),
    ("Q 11 2", 13, "before 14 and 15"),
    ("Q 2 1", 13, "before 15"),
    ("Q 4 2", 14, "before 15"),
    ("Q 5 2", 14, "alone"),
    ("Q 12 0", 15, "holds it"),
    ("Q 11 0", 15, "waits for it"),
    ("Q 12 1", 15, "holds another"),
    ("Q 11 1", 15, "waits for another"),
    ("R 99 3", 11, "before 12"),
    ("R 268 0", 11, "the low byte is that of who holds"),
    ("R 12 3", 12, "before 16"),
    ("R 12 16", 12, "before 16, past all"),
    ("R 11 0", 16, "waits for it"),
    ("R 2 0", 16, "first of a core that is not head"),
    ("R 12 1", 16, "holds another"),
    ("R 4 2", 16, "local"),
    ("W 99 3", 11, "before 12"),
    ("W 267 0", 11, "the low byte is that of who waits"),
    ("W 11 3", 12, "before 23"),
    ("W 12 0", 23, "holds it"),
    ("W 11 1", 23, "waits for another"),
    ("W 1 0", 23, "idle"),
    ("W 4 2", 23, "local"),
]

# calls on BUSY that are accepted, with what it then shows
ACCEPTED = [
    ("S", "started", "nobody"),
    ("Q 1 0", "waits 2 34", "0:3/5:1(6 5)0(1 3 0) 1:4/6:0(2)"),
    ("R 12 0", "to 11", "0:3/5:1(5)0(1 3) 1:4/6:0(2)"),
    ("R 3 1", "free", "0:3/5:1(6 5)0(1 3)"),
    ("W 11 0", "left", "0:3/5:1(6)0(1 3) 1:4/6:0(2)"),
    ("T", "tick 0 0 0", "0:2/4:1(6 5)0(1 3) 1:3/5:0(2)"),
]

LETTERS = ["S", "Q 1 0", "R 12 0", "W 11 0", "T"]

# ---- images that are not sound: label, image, changes, the clauses that break ----


def changed(lent, *changes):
    for at, *values in changes:
        assert list(lent[at:at + len(values)]) != values, changes
        lent = put(lent, at, *values)
    return lent


COUNTS = [
    ("N one less", BUSY, [(0, 7)], {"N"}),
    ("N one more", BUSY, [(0, 9)], {"N"}),
    ("N 0", FRESH, [(0, 0)], {"N"}),
    ("R one less", BUSY, [(1, 2)], {"R"}),
    ("R one more", BUSY, [(1, 4)], {"R"}),
    ("R 255", FRESH, [(1, 255)], {"R"}),
    ("the resource rows one earlier", BUSY, [(2, 3)], {"offset of the resource rows"}),
    ("the resource rows one later", BUSY, [(2, 5)], {"offset of the resource rows"}),
    ("the task rows one earlier", BUSY, [(3, 45)], {"offset of the task rows"}),
    ("the task rows one later", BUSY, [(3, 47)], {"offset of the task rows"}),
    ("the task rows 0", FRESH, [(3, 0)], {"offset of the task rows"}),
    ("N and R exchanged", BUSY, [(0, 3, 8)], {"N", "R"}),
]

FILLED = [
    ("a processor that is queued behind the queue", BUSY, [(in_row(0) + QUEUE + 2, 0)], {"filled"}),
    ("0 in the last place of a queue", BUSY, [(in_row(0) + QUEUE + 7, 0)], {"filled"}),
    ("254 behind the queue", BUSY, [(in_row(0) + QUEUE + 2, 254)], {"filled"}),
    ("another processor behind a queue of one", BUSY, [(in_row(1) + QUEUE + 1, 1)], {"filled"}),
    ("free, with a processor", FRESH, [(in_row(0) + QUEUE, 0)], {"filled"}),
    ("free, with a processor in the last place", FRESH, [(in_row(1) + QUEUE + 7, 1)], {"filled"}),
    ("local, with a processor", BUSY, [(in_row(2) + QUEUE, 0)], {"filled"}),
    ("free, with holder 0", FRESH, [(in_row(0) + HOLDER, 0)], {"free, holder"}),
    ("free, with holder N", FRESH, [(in_row(1) + HOLDER, 8)], {"free, holder"}),
    ("free, with holder 254", FRESH, [(in_row(0) + HOLDER, 254)], {"free, holder"}),
    ("local, with a holder", BUSY, [(in_row(2) + HOLDER, 4)], {"free, holder"}),
    ("free, with hold left 1", FRESH, [(in_row(0) + HOLD, 1)], {"free, hold left"}),
    ("free, with hold left 256", FRESH, [(in_row(1) + HOLD, 0, 1)], {"free, hold left"}),
    ("free, with hold left 65,535", FRESH, [(in_row(0) + HOLD, 255, 255)], {"free, hold left"}),
    ("local, with hold left 1", BUSY, [(in_row(2) + HOLD, 1)], {"free, hold left"}),
    ("free, with budget left 1", FRESH, [(in_row(0) + BUDGET, 1)], {"free, budget left"}),
    ("free, with budget left 256", FRESH, [(in_row(1) + BUDGET, 0, 1)], {"free, budget left"}),
    ("local, with budget left 1", BUSY, [(in_row(2) + BUDGET, 1)], {"free, budget left"}),
    ("free, with both left", FRESH, [(in_row(0) + HOLD, 1, 0, 1, 0)], {"free, hold left", "free, budget left"}),
    ("an idle task with place 0", BUSY, [(in_task(0) + 1, 0)], {"absent"}),
    ("an idle task with place 254", FRESH, [(in_task(7) + 1, 254)], {"absent"}),
    ("a task with resource 0 and place 255", BUSY, [(in_task(0), 0)], {"absent"}),
    ("the last in line with place 255", BUSY, [(in_task(3) + 1, NONE)], {"absent"}),
    ("the last in line with resource 255", BUSY, [(in_task(3), NONE)], {"absent"}),
    ("the holder with place 255", BUSY, [(in_task(6) + 1, NONE)], {"absent", "gap", "holder"}),
]

PLACES = [
    ("a gap behind the holder", BUSY, [(in_task(5) + 1, 2)], {"gap"}),
    ("a gap in a later queue", BUSY, [(in_task(3) + 1, 2)], {"gap"}),
    ("a gap at the front of a later queue", BUSY, [(in_task(1) + 1, 2)], {"gap"}),
    ("a gap behind two", BUSY, [(in_task(0), 0, 3)], {"gap"}),
    ("a lone task in place 1", BUSY, [(in_task(2) + 1, 1)], {"gap", "holder"}),
    ("place 63", BUSY, [(in_task(5) + 1, 63)], {"gap"}),
    ("place 64", BUSY, [(in_task(5) + 1, 64)], {"gap"}),
    ("place 65", BUSY, [(in_task(5) + 1, 65)], {"gap"}),
    ("place 254", BUSY, [(in_task(5) + 1, 254)], {"gap"}),
    ("the first place missing", BUSY, [(in_task(6), NONE, NONE)], {"gap", "holder"}),
    ("a repeat of the holder's place", BUSY, [(in_task(5) + 1, 0)], {"repeat"}),
    ("a repeat of the first place in a later queue", BUSY, [(in_task(3) + 1, 0)], {"repeat"}),
    ("a repeat behind the first", BUSY, [(in_task(7), 0, 1)], {"repeat"}),
]

HOLDERS = [
    ("nobody", BUSY, [(in_row(0) + HOLDER, NONE)], {"holder"}),
    ("nobody, of one queued", BUSY, [(in_row(1) + HOLDER, NONE)], {"holder"}),
    ("the head's second task", BUSY, [(in_row(0) + HOLDER, 5)], {"holder"}),
    ("an idle task of the head", BUSY, [(in_row(0) + HOLDER, 7)], {"holder"}),
    ("the first task of another processor", BUSY, [(in_row(0) + HOLDER, 1)], {"holder"}),
    ("who holds another resource", BUSY, [(in_row(0) + HOLDER, 2)], {"holder"}),
    ("task 0, which is idle", BUSY, [(in_row(1) + HOLDER, 0)], {"holder"}),
    ("task N", BUSY, [(in_row(0) + HOLDER, 8)], {"holder"}),
    ("64 more", BUSY, [(in_row(0) + HOLDER, 70)], {"holder"}),
    ("128 more", BUSY, [(in_row(0) + HOLDER, 134)], {"holder"}),
    ("254", BUSY, [(in_row(0) + HOLDER, 254)], {"holder"}),
    ("who was first, the head's tasks exchanged", BUSY, [(in_task(6) + 1, 1), (in_task(5) + 1, 0)], {"holder"}),
    ("who was first, the processors exchanged", BUSY, [(in_row(0) + QUEUE, 0, 1)], {"holder"}),
]

RESOURCES = [
    ("behind two, for what it does not declare", BUSY, [(in_task(4), 0, 2)], {"declared"}),
    ("behind the holder, for what it does not declare", BUSY, [(in_task(0), 1, 1)], {"declared"}),
    ("as holder, of what it does not declare", FRESH, [(in_row(1), 1, 0, 1, 0, 1, 0, 0), (in_task(0), 1, 0)], {"declared"}),
    ("for resource R", BUSY, [(in_task(0), 3, 0)], {"declared"}),
    ("for resource 15", BUSY, [(in_task(0), 15, 0)], {"declared"}),
    ("for resource 16", BUSY, [(in_task(0), 16, 0)], {"declared"}),
    ("for resource 254", BUSY, [(in_task(0), 254, 0)], {"declared"}),
    ("for a local one, its processor not queued", BUSY, [(in_task(4), 2, 0)], {"global", "not queued"}),
    ("for a local one, as holder", BUSY, [(in_row(2), 1, 4, 1, 0, 1, 0, 0), (in_task(4), 2, 0)], {"global"}),
]

QUEUES = [
    ("the second processor twice", BUSY, [(in_row(0), 3), (in_row(0) + QUEUE + 2, 0)], {"once"}),
    ("the head twice", BUSY, [(in_row(0), 3), (in_row(0) + QUEUE + 2, 1)], {"once"}),
    ("the head in the place of the other", BUSY, [(in_row(0) + QUEUE + 1, 1)], {"once", "not queued"}),
    ("a processor in all eight places", BUSY, [(in_row(1), 8), (in_row(1) + QUEUE + 1, *[0] * 7)], {"once"}),
    ("a processor with no task", BUSY, [(in_row(1), 2), (in_row(1) + QUEUE + 1, 1)], {"no task"}),
    ("a head with no task", BUSY, [(in_row(1), 2), (in_row(1) + QUEUE, 1, 0)], {"no task", "holder"}),
    ("processor P", BUSY, [(in_row(0), 3), (in_row(0) + QUEUE + 2, 2)], {"no task"}),
    ("processor 8", BUSY, [(in_row(0), 3), (in_row(0) + QUEUE + 2, 8)], {"no task"}),
    ("processor 9 in the place of 1", BUSY, [(in_row(0) + QUEUE, 9)], {"no task", "not queued", "holder"}),
    ("255 within the queue", BUSY, [(in_row(0), 3)], {"no task"}),
    ("a count of 8", BUSY, [(in_row(0), 8)], {"no task", "once"}),
    ("a count of 9", BUSY, [(in_row(0), 9)], {"count"}),
    ("a count of 255", BUSY, [(in_row(1), 255)], {"count"}),
    ("a processor with a task not queued", BUSY, [(in_row(0), 1), (in_row(0) + QUEUE + 1, NONE)], {"not queued"}),
    ("a count one less", BUSY, [(in_row(0), 1)], {"filled", "not queued"}),
    ("a task in line for what is free", FRESH, [(in_task(5), 0, 0)], {"not queued"}),
    ("held, in a row as if free", BUSY, [(in_row(1), *FREE[:7])], {"not queued"}),
    ("a count of 0", BUSY, [(in_row(1), 0)], {"filled", "free, holder", "free, hold left", "free, budget left", "not queued"}),
]

CLOCKS = [
    ("hold left 0", BUSY, [(in_row(0) + HOLD, 0)], {"no hold left"}),
    ("hold left and budget left 0", BUSY, [(in_row(0) + HOLD, 0, 0, 0, 0)], {"no hold left"}),
    ("hold left 0, of one queued", BUSY, [(in_row(1) + HOLD, 0)], {"no hold left"}),
    ("hold left above the hold time", BUSY, [(in_row(0) + HOLD, 5)], {"above hold time"}),
    ("hold left above the hold time, at the budget", BUSY, [(in_row(0) + HOLD, 7, 0, 7, 0)], {"above hold time"}),
    ("hold left 256 more", BUSY, [(in_row(0) + HOLD + 1, 1)], {"above hold time", "above budget left"}),
    ("hold left above the budget left", BUSY, [(in_row(0) + HOLD, 4, 0, 3, 0)], {"above budget left"}),
    ("hold left above the budget left, of one queued", BUSY, [(in_row(1) + HOLD, 7)], {"above budget left"}),
    ("hold left above a budget left of 0", BUSY, [(in_row(0) + BUDGET, 0)], {"above budget left"}),
    ("budget left above the budget", BUSY, [(in_row(0) + BUDGET, 8)], {"above budget"}),
    ("budget left above the budget, of one queued", BUSY, [(in_row(1) + BUDGET, 11)], {"above budget"}),
    ("budget left 256 more", BUSY, [(in_row(0) + BUDGET + 1, 1)], {"above budget"}),
    ("both above", BUSY, [(in_row(1) + HOLD, 11, 0, 11, 0)], {"above hold time", "above budget"}),
]

UNSOUND = [(f"{what}: {label}", *rest) for what, rows in [
    ("counts", COUNTS), ("filled", FILLED), ("places", PLACES), ("holder", HOLDERS), ("in line", RESOURCES), ("queue", QUEUES),
    ("left", CLOCKS)] for label, *rest in rows]

# the same counts as LISTING, and the sections the other way round
OTHER = LISTING._replace(sections=[Section(0, 0, 3), Section(1, 0, 2)])
# three ticks left of tag 20, which OTHER allows two
LISTING_HELD = shows(LISTING, "0:3/3:1(1)")
# two resources and two tasks have the same length as one and nine
NINE = Plan(1, [Task(0, u, u + 1, 10, 1) for u in range(9)], [b"a"], [])
TWO = Plan(1, [Task(0, u, u + 1, 10, 1) for u in range(2)], [b"a", b"b"], [])

# what is lent is no image of the plan: label, plan, lent bytes, the clauses that break
STRANGE = [
    ("zeros", PAPER, bytes(62), None),
    ("255s", PAPER, b"\xff" * 62, None),
    ("some bytes", PAPER, SOME_BYTES[:62], None),
    ("some bytes behind the right counts", PAPER, BUSY[:4] + SOME_BYTES[:58], None),
    ("zeros behind the right counts", PAPER, BUSY[:4] + bytes(58), None),
    ("255s behind the right counts", PAPER, BUSY[:4] + b"\xff" * 58, None),
    ("one byte further on", PAPER, b"\0" + BUSY, None),
    ("another plan's, with the same counts", OTHER, LISTING_HELD, {"above hold time", "above budget"}),
    ("another plan's, of the same length", NINE, shows(TWO, "nobody"), None),
    ("another plan's, longer", LISTING, BUSY, None),
    ("nine queued where eight are listed", EIGHT, changed(shows(EIGHT, "0:8/8:7(7)0(0)6(6)1(1)5(5)2(2)4(4)3(3)"), (4, 9)), {"count"}),
]

# ---- each byte changed: label, plan, lent bytes, mask, the three counts ----

MASKS = [1, 2, 4, 8, 16, 32, 64, 128, 255]

EACH = [
    ("nothing changed", PAPER, BUSY, 0, (0, 0, 62)),
    # hold left 3 and 4 become 2 and 5, budget left 5 and 6 become 4 and 7
    ("mask 1", PAPER, BUSY, 1, (58, 0, 4)),
    # 1, 6, 7 and 4
    ("mask 2", PAPER, BUSY, 2, (58, 0, 4)),
    # 7, 0, 1 and 2
    ("mask 4", PAPER, BUSY, 4, (62, 0, 0)),
    # 4 and 3 for hold left; 2 and 1 for budget left, below hold left
    ("mask 7", PAPER, BUSY, 7, (60, 0, 2)),
    # 15, 8, 9 and 10: the last is the budget
    ("mask 12", PAPER, BUSY, 12, (61, 0, 1)),
    ("mask 128", PAPER, BUSY, 128, (62, 0, 0)),
    ("mask 255", PAPER, BUSY, 255, (62, 0, 0)),
    ("nobody in line, mask 1", PAPER, FRESH, 1, (62, 0, 0)),
    ("nobody in line, mask 255", PAPER, FRESH, 255, (62, 0, 0)),
    # hold left may be 1 to 3 where budget left is 3
    ("the listing, mask 1", LISTING, LISTING_HELD, 1, (21, 0, 1)),
    ("the listing, mask 3", LISTING, LISTING_HELD, 3, (22, 0, 0)),
    ("bytes behind", LISTING, LISTING_HELD + BEHIND, 1, (21, 0, 6)),
    ("one byte too short", PAPER, BUSY[:-1], 1, (0, 61, 0)),
    ("no bytes", PAPER, b"", 1, (0, 0, 0)),
    # the one byte that was changed before is mended
    ("one that is mended", PAPER, changed(BUSY, (in_row(0) + QUEUE + 2, 254)), 1, (61, 0, 1)),
    ("one that nothing mends", PAPER, changed(BUSY, (in_row(0) + QUEUE + 2, 254)), 2, (62, 0, 0)),
    ("the longest, nobody in line, mask 1", FULL, FULL_FRESH, 1, (356, 0, 0)),
    ("the longest, nobody in line, mask 255", FULL, FULL_FRESH, 255, (356, 0, 0)),
]

# ---- the records ----


def numbers(content):
    return "".join(f" {b}" for b in content)


def result_of(answer, left):
    return "none" if answer == "none" else f"word{numbers(word_of(answer))} |{numbers(left)}"


def record(label, content, lent, call, answer, left):
    return b"I", f"image, {label}", body(content, word(len(lent)), lent, wide_call(*call)), result_of(answer, left)


def one_case(label, plan, lent, call, answer, left=None):
    """A call on lent bytes; they stay where nothing is said of them."""
    left = lent if left is None else left
    agree(label, (answer, left), image_model.called(plan, lent, *call))
    return record(label, file(plan), lent, call, answer, left)


def call_of(text):
    return calls_of(text)[0][0]


def listing_cases():
    """The calls of document 01's listing, each on what the last one left; bytes behind the image stay."""
    found, lent = [], SOME_BYTES[:22] + BEHIND
    for n, (text, returned, row, tasks) in enumerate(BYTES):
        call = call_of(text)
        left = bytes([2, 1, 4, 18] + row + tasks) + BEHIND
        answer, second = image_model.called(LISTING, lent, *call)
        agree(f"the listing, {n}", (bytes(returned), left), (word_of(answer), second))
        found.append(record(f"the listing, call {n}, {text}", file(LISTING), lent, call, answer, left))
        lent = left
    return found


def single_cases():
    found = []
    for label, plan, shown, text, answer, then in WORDS:
        found.append(one_case(label, plan, shows(plan, shown), call_of(text), answer, shows(plan, then)))
    for text, number, why in REFUSED:
        found.append(one_case(f"{text}, refused {number}, {why}", PAPER, BUSY, call_of(text), f"refused {number}"))
    for text, answer, then in ACCEPTED:
        found.append(one_case(f"{text}, accepted", PAPER, BUSY, call_of(text), answer, shows(PAPER, then)))
    return found


def state_cases_as_images():
    """The calls on sound states of state_cases, with their results."""
    found = []
    for label, plan, state, text, result in state_cases.SOUND:
        lent, (answer, _, then) = image(plan, model.loaded(plan, state).lines), result.partition(" | ")
        left = shows(plan, then) if then else lent
        answer = answer.removesuffix(" unchanged").removesuffix(" changed")
        found.append(one_case(f"state, {label}", plan, lent, call_of(text), answer, left))
    return found


def lists():
    """Lists of machine_cases, with the calls of each that are to be cases: all, the give-ups, or the last."""
    for row in machine_cases.AGREED[1:] + machine_cases.REFUSALS[:-1]:
        yield row, lambda n, call, count: True
    for row in machine_cases.GIVE_UPS:
        yield row, lambda n, call, count: call[0] == "W"
    for row in machine_cases.TURNS + machine_cases.PLACES + machine_cases.WORDS + machine_cases.WIDTHS:
        yield row, lambda n, call, count: n == count - 1


def list_cases():
    """Calls with the answers that their lists have, each on what the last one left."""
    found = []
    for (label, plan, text, _), wanted in lists():
        lent, calls = shows(plan, "nobody"), calls_of(text)
        for n, (call, answer) in enumerate(calls):
            second, left = image_model.called(plan, lent, *call)
            agree(f"{label}, {n}", answer, second)
            if wanted(n, call, len(calls)):
                found.append(record(f"list, {label}, call {n}", file(plan), lent, call, answer, left))
            lent = left
    return found


def broken_by(plan, lent):
    return image_model.Rows(model.Machine(plan), lent).broken()


def unsound_cases():
    """A tick and one of the other calls on each; of what is no image of the plan every call, and a start."""
    found, others = [], cycle(LETTERS[1:-1])
    for label, whole, changes, clauses in UNSOUND:
        lent = changed(whole, *changes)
        agree(label, clauses, broken_by(PAPER, lent))
        for text in ["T", next(others)]:
            found.append(one_case(f"{label}, {text}", PAPER, lent, call_of(text), "refused 25"))
    for label, plan, lent, clauses in STRANGE:
        assert broken_by(plan, lent) and clauses in (None, broken_by(plan, lent)), label
        for text in LETTERS[1:]:
            found.append(one_case(f"{label}, {text}", plan, lent, call_of(text), "refused 25"))
        left = shows(plan, "nobody") + lent[length(plan):]
        found.append(one_case(f"{label}, a start", plan, lent, call_of("S"), "started", left))
    return found


def length_cases():
    """Too short, just long enough, and with bytes behind."""
    found = []
    for text, answer, then in ACCEPTED:
        call, left = call_of(text), shows(PAPER, then)
        for n in [0, 3, 61]:
            found.append(one_case(f"{n} bytes of 62, {text}", PAPER, BUSY[:n], call, "refused 24"))
        found.append(one_case(f"bytes behind, {text}", PAPER, BUSY + BEHIND, call, answer, left + BEHIND))
        found.append(one_case(f"as if a row were behind, {text}", PAPER, BUSY + BUSY[-2:], call, answer, left + BUSY[-2:]))
    for text, number, _ in REFUSED[::4]:
        found.append(one_case(f"bytes behind, {text}", PAPER, BUSY + BEHIND, call_of(text), f"refused {number}"))
    found.append(one_case("more bytes behind than one write has", PAPER, BUSY + SOME_BYTES, call_of("T"), ACCEPTED[-1][1],
                          shows(PAPER, ACCEPTED[-1][2]) + SOME_BYTES))
    return found


def order_cases():
    """Each number before the next: of the plan before 24, 24 before 25, 25 before those of the call."""
    found = []
    bad = changed(BUSY, (in_row(0) + HOLD, 0))
    for text in LETTERS:
        found.append(one_case(f"24 before 25, {text}", PAPER, bad[:61], call_of(text), "refused 24"))
    for text, number, _ in REFUSED:
        found.append(one_case(f"24 before {number}, {text}", PAPER, BUSY[:61], call_of(text), "refused 24"))
        found.append(one_case(f"25 before {number}, {text}", PAPER, bad, call_of(text), "refused 25"))
    image_of_good = shows(GOOD, "nobody")
    broken = [(str(number), ways[0](file(GOOD)), number) for number, ways in BREAKS.items()] + [("1, with no bytes", b"", 1)]
    for name, content, number in broken:
        for text in ["S", "Q 99 9", "R 99 9", "W 99 9", "T"]:
            for how, lent in [("short", b"\7" * 39), ("not sound", b"\7" * 40)]:
                label = f"of a plan that breaks {name}, {how}, {text}"
                found.append(record(label, content, lent, call_of(text), f"refused {number}", lent))
        for text in ["S", "T"]:
            found.append(record(f"of a plan that breaks {name}, sound, {text}", content, image_of_good, call_of(text), f"refused {number}",
                                image_of_good))
    return found


def letter_cases():
    """What is no call; and a start and a tick, of which tag and resource are not looked at."""
    found = []
    for letter in ["X", "s", "q", "r", "w", "t", "\0"]:
        for how, lent in [("", BUSY), (", short", BUSY[:61]), (", nothing lent", b"")]:
            found.append(one_case(f"no call, letter {ord(letter)}{how}", PAPER, lent, (letter, 1, 0), "none"))
    for letter, answer, then in [("S", "started", "nobody"), ("T", *ACCEPTED[-1][1:])]:
        for tag, q in [(1, 0), (0, 1), (65535, 255)]:
            found.append(one_case(f"{letter} with tag {tag} and resource {q}", PAPER, BUSY, (letter, tag, q), answer, shows(PAPER, then)))
    return found


def full_cases():
    """The longest image, in which all but four tasks are in line; what is left is the model's."""
    found = []
    agree("the longest image", 356, len(FULL_BUSY))
    idle, holder, second = [FULL.tasks[u].tag for u in (0, 2, 18)]
    calls = [("T", "tick"), ("S", "started"), (f"Q {idle} 0", "waits 1"), (f"R {holder} 2", f"to {second}"), (f"W {second} 2", "left"),
             (f"Q {holder} 2", "refused 15"), (f"R {second} 2", "refused 16"), (f"W {holder} 2", "refused 23"),
             (f"Q {holder} 16", "refused 12"), ("Q 1 0", "refused 11")]
    for text, begins in calls:
        for how, lent in [("", FULL_BUSY), (", bytes behind", FULL_BUSY + BEHIND)]:
            answer, left = image_model.called(FULL, lent, *call_of(text))
            assert answer.startswith(begins), (text, answer)
            found.append(record(f"the longest, {text}{how}", file(FULL), lent, call_of(text), answer, left))
        found.append(one_case(f"the longest, {text}, one byte too short", FULL, FULL_BUSY[:-1], call_of(text), "refused 24"))
    return found


def each_case(label, content, lent, mask, counts):
    return b"F", f"each byte, {label}", body(content, word(len(lent)), lent, bytes([mask])), "counts" + numbers(counts)


def each_cases():
    found = []
    for label, plan, lent, mask, counts in EACH:
        agree(label, counts, image_model.changed_counts(plan, lent, mask))
        found.append(each_case(label, file(plan), lent, mask, counts))
    for mask in MASKS:
        counts = image_model.changed_counts(FULL, FULL_BUSY, mask)
        found.append(each_case(f"the longest, mask {mask}", file(FULL), FULL_BUSY, mask, counts))
    for number, ways in BREAKS.items():
        lent = shows(GOOD, "nobody")
        found.append(each_case(f"of a plan that breaks {number}", ways[0](file(GOOD)), lent, 1, (0, len(lent), 0)))
    return found


def cases():
    """Each case as its kind, its label, its record's body and its result."""
    found = listing_cases() + single_cases() + state_cases_as_images() + list_cases() + unsound_cases() + length_cases()
    return found + order_cases() + letter_cases() + full_cases() + each_cases()
