"""The cases of the machine that are not for proof, as one call on a given state: sound states at their edges, and states that are not.

Each case has a label, a plan, a state, a call and its result, worked out here by hand from documents 01 and 02; the model has to agree.
"""
import model
from analysis_cases import BARE, EIGHT, LISTING, PAPER, SILENT
from machine_cases import PAIR, body, call_bytes, calls_of
from model import agree
from plan_cases import BREAKS, GOOD, file, put, word

# ---- states ----

# Places in a state: 13 bytes for each of 16 resources, then 2 for each of 64 tasks.
QUEUE, HOLD, BUDGET = 1, 9, 11


def in_line(q):
    return 13 * q


def in_standing(u):
    return 208 + 2 * u


def image(lines, tasks):
    """A state: for some resources the processors, the hold left and the budget left, for some tasks the resource and the place."""
    content = (bytes([0] + [255] * 8) + word(0) + word(0)) * 16 + b"\xff" * 128
    for q, (queue, hold, budget) in lines.items():
        content = put(content, in_line(q), len(queue), *queue)
        content = put(content, in_line(q) + HOLD, *word(hold), *word(budget))
    for u, row in tasks.items():
        content = put(content, in_standing(u), *row)
    return content


FRESH = image({}, {})
STANDING = {6: (0, 0), 5: (0, 1), 1: (0, 0), 3: (0, 1), 2: (1, 0)}


def paper_state(hold=3, budget=5):
    """Of PAPER: on r1 processors 1 and 0 with tags 12, 11 and 2, 4; on r2 processor 0 with tag 3."""
    return image({0: ([1, 0], hold, budget), 1: ([0], 4, 6)}, STANDING)


FULL = image({0: ([7, 0, 6, 1, 5, 2, 4, 3], 8, 8)}, {k: (0, 0) for k in range(8)})
# one task that holds: sound for LISTING, PAIR and PAPER; and with a hold left that PAIR alone allows
TWO = image({0: ([0], 2, 2)}, {0: (0, 0)})
THREE = image({0: ([0], 3, 3)}, {0: (0, 0)})
# tag 1 was just granted r1 of PAPER
GRANTED = image({0: ([0], 2, 10)}, {0: (0, 0)})
# LISTING: tag 20 was just granted the bus, and tag 10 waits
BEHIND = image({0: ([1, 0], 3, 3)}, {1: (0, 0), 0: (0, 0)})
# paper_state with tag 1 behind 2 and 4
THIRD = image({0: ([1, 0], 3, 5), 1: ([0], 4, 6)}, STANDING | {0: (0, 2)})

# label, plan, state, call and result, with what the next state shows where the call is not refused
SOUND = [
    ("fresh, a tick", PAPER, FRESH, "T", "tick 0 0 0 unchanged | nobody"),
    ("fresh, a request", PAPER, FRESH, "Q 11 0", "granted changed | 0:3/7:1(5)"),
    ("fresh, a release", PAPER, FRESH, "R 11 0", "refused 16 unchanged"),
    # no plan has a tag above 255; the low byte of 257 is that of tag 1
    ("fresh, a request of tag 257", PAPER, FRESH, "Q 257 0", "refused 11 unchanged"),
    ("fresh, a request of tag 65,535", PAPER, FRESH, "Q 65535 0", "refused 11 unchanged"),
    ("fresh, a release of tag 257", PAPER, FRESH, "R 257 0", "refused 11 unchanged"),
    ("held by tag 1, a release of tag 257", PAPER, GRANTED, "R 257 0", "refused 11 unchanged"),
    ("held, a tick", PAPER, paper_state(), "T", "tick 0 0 0 changed | 0:2/4:1(6 5)0(1 3) 1:3/5:0(2)"),
    ("held, a request of the head", PAPER, paper_state(), "Q 13 0", "waits 2 37 changed | 0:3/5:1(6 5 7)0(1 3) 1:4/6:0(2)"),
    ("held, a request of another", PAPER, paper_state(), "Q 1 0", "waits 2 34 changed | 0:3/5:1(6 5)0(1 3 0) 1:4/6:0(2)"),
    ("held, a release", PAPER, paper_state(), "R 12 0", "to 11 changed | 0:3/5:1(5)0(1 3) 1:4/6:0(2)"),
    ("held, a release by the only task", PAPER, paper_state(), "R 3 1", "free changed | 0:3/5:1(6 5)0(1 3)"),
    ("held, no call", PAPER, paper_state(), "X 12 0", "none unchanged | 0:3/5:1(6 5)0(1 3) 1:4/6:0(2)"),
    ("held, refused 11", PAPER, paper_state(), "Q 99 0", "refused 11 unchanged"),
    ("held, refused 12", PAPER, paper_state(), "Q 1 3", "refused 12 unchanged"),
    ("held, refused 13", PAPER, paper_state(), "Q 1 1", "refused 13 unchanged"),
    ("held, refused 14", PAPER, paper_state(), "Q 4 2", "refused 14 unchanged"),
    ("held, refused 15", PAPER, paper_state(), "Q 12 1", "refused 15 unchanged"),
    ("held, refused 16", PAPER, paper_state(), "R 11 0", "refused 16 unchanged"),
    ("fresh, a give-up", PAPER, FRESH, "W 11 0", "refused 23 unchanged"),
    ("fresh, a give-up of tag 257", PAPER, FRESH, "W 257 0", "refused 11 unchanged"),
    ("held, a give-up of the head's second", PAPER, paper_state(), "W 11 0", "left changed | 0:3/5:1(6)0(1 3) 1:4/6:0(2)"),
    ("held, a give-up of the first of another", PAPER, paper_state(), "W 2 0", "left changed | 0:3/5:1(6 5)0(3) 1:4/6:0(2)"),
    ("held, a give-up of the last of another", PAPER, paper_state(), "W 4 0", "left changed | 0:3/5:1(6 5)0(1) 1:4/6:0(2)"),
    ("three in line, a give-up of the first", PAPER, THIRD, "W 2 0", "left changed | 0:3/5:1(6 5)0(3 0) 1:4/6:0(2)"),
    ("three in line, a give-up of the second", PAPER, THIRD, "W 4 0", "left changed | 0:3/5:1(6 5)0(1 0) 1:4/6:0(2)"),
    ("three in line, a give-up of the third", PAPER, THIRD, "W 1 0", "left changed | 0:3/5:1(6 5)0(1 3) 1:4/6:0(2)"),
    ("held, a give-up of the only task of a core", LISTING, BEHIND, "W 10 0", "left changed | 0:3/3:1(1)"),
    ("held, a give-up of the holder", PAPER, paper_state(), "W 12 0", "refused 23 unchanged"),
    ("held, a give-up of the holder, alone", PAPER, paper_state(), "W 3 1", "refused 23 unchanged"),
    ("held, a give-up of who waits for another", PAPER, paper_state(), "W 11 1", "refused 23 unchanged"),
    ("held, a give-up of who holds another", PAPER, paper_state(), "W 12 1", "refused 23 unchanged"),
    ("held, a give-up of an idle task", PAPER, paper_state(), "W 13 0", "refused 23 unchanged"),
    ("held, a give-up of a local one", PAPER, paper_state(), "W 4 2", "refused 23 unchanged"),
    ("held, a give-up of one with no section", PAPER, paper_state(), "W 2 1", "refused 23 unchanged"),
    ("held, a give-up refused 11", PAPER, paper_state(), "W 99 3", "refused 11 unchanged"),
    ("held, a give-up of tag 267", PAPER, paper_state(), "W 267 0", "refused 11 unchanged"),
    ("held, a give-up refused 12", PAPER, paper_state(), "W 11 3", "refused 12 unchanged"),
    ("hold left 1, a give-up", PAPER, paper_state(1, 1), "W 11 0", "left changed | 0:1/1:1(6)0(1 3) 1:4/6:0(2)"),
    ("hold left at the hold time", PAPER, paper_state(4, 5), "T", "tick 0 0 0 changed | 0:3/4:1(6 5)0(1 3) 1:3/5:0(2)"),
    ("hold left at both", PAPER, paper_state(4, 4), "T", "tick 0 0 0 changed | 0:3/3:1(6 5)0(1 3) 1:3/5:0(2)"),
    ("hold left at the budget left", PAPER, paper_state(3, 3), "T", "tick 0 0 0 changed | 0:2/2:1(6 5)0(1 3) 1:3/5:0(2)"),
    ("hold left 1, the next is granted", PAPER, paper_state(1, 4), "T", "tick 1 1 1 changed | 0:3/3:1(5)0(1 3) 1:3/5:0(2)"),
    ("hold left 1, the next is sent back", PAPER, paper_state(1, 3), "T", "tick 1 1 1 changed | 0:3/10:0(1 3)1(5) 1:3/5:0(2)"),
    ("hold left 1 and budget left 1", PAPER, paper_state(1, 1), "T", "tick 1 1 1 changed | 0:3/10:0(1 3)1(5) 1:3/5:0(2)"),
    # not reachable: the budget left is whole though a tick of the hold is gone
    ("budget left at the budget", PAPER, paper_state(3, 7), "T", "tick 0 0 0 changed | 0:2/6:1(6 5)0(1 3) 1:3/5:0(2)"),
    ("both at the budget", PAPER, image({0: ([1], 7, 7)}, {7: (0, 0)}), "R 13 0", "free changed | nobody"),
    ("eight processors, a tick", EIGHT, FULL, "T", "tick 0 0 0 changed | 0:7/7:7(7)0(0)6(6)1(1)5(5)2(2)4(4)3(3)"),
    ("eight processors, a release", EIGHT, FULL, "R 7 0", "to 0 changed | 0:1/1:0(0)6(6)1(1)5(5)2(2)4(4)3(3)"),
    ("eight processors, a give-up behind the head", EIGHT, FULL, "W 0 0", "left changed | 0:8/8:7(7)6(6)1(1)5(5)2(2)4(4)3(3)"),
    ("eight processors, a give-up in the middle", EIGHT, FULL, "W 5 0", "left changed | 0:8/8:7(7)0(0)6(6)1(1)2(2)4(4)3(3)"),
    ("eight processors, a give-up at the tail", EIGHT, FULL, "W 3 0", "left changed | 0:8/8:7(7)0(0)6(6)1(1)5(5)2(2)4(4)"),
    ("eight processors, a give-up of the head", EIGHT, FULL, "W 7 0", "refused 23 unchanged"),
    ("two ticks left, by LISTING", LISTING, TWO, "Q 20 0", "waits 0 2 changed | 0:2/2:0(0)1(1)"),
    ("two ticks left, by PAIR", PAIR, TWO, "Q 2 0", "waits 1 7 changed | 0:2/2:0(0 1)"),
    ("two ticks left, by PAPER", PAPER, TWO, "Q 2 0", "waits 1 16 changed | 0:2/2:0(0 1)"),
    ("three ticks left, by PAIR", PAIR, THREE, "T", "tick 0 0 0 changed | 0:2/2:0(0)"),
]


def queued(q, count, *queue):
    """The state of PAPER with another count and other slots, of which the rest are as they were."""
    return put(paper_state(), in_line(q), count, *queue)


def with_task(u, *row):
    return put(paper_state(), in_standing(u), *row)


def with_line(q, queue, hold, budget, u, *row):
    """The state of PAPER with another line, and with a task in it."""
    return put(put(with_task(u, *row), in_line(q), len(queue), *queue), in_line(q) + HOLD, *word(hold), *word(budget))


NONE = 255

# states that are not sound, by PAPER: the hold left and the budget left, the processors queued, the tasks in line
CLOCKS = [
    ("hold left 0", paper_state(0, 5)),
    ("hold left and budget left 0", paper_state(0, 0)),
    ("hold left above the hold time", paper_state(5, 5)),
    ("hold left above the hold time, at the budget", paper_state(7, 7)),
    ("hold left above the budget left", paper_state(4, 3)),
    ("hold left above a budget left of 0", paper_state(1, 0)),
    ("budget left above the budget", paper_state(3, 8)),
    ("budget left 65,535", paper_state(3, 65535)),
    ("hold left 256 more", paper_state(259, 261)),
    ("hold left above the budget left, on r2", put(paper_state(), in_line(1) + HOLD, *word(7))),
    ("free with a hold left", put(FRESH, in_line(0) + HOLD, 1)),
    ("free with a budget left", put(FRESH, in_line(0) + BUDGET, 1)),
    ("free with a budget left of 256", put(FRESH, in_line(0) + BUDGET, 0, 1)),
    ("free with both left", put(FRESH, in_line(1) + HOLD, 1, 0, 1, 0)),
    ("a local one with a hold left", put(paper_state(), in_line(2) + HOLD, 1)),
    ("resource R with a hold left", put(paper_state(), in_line(3) + HOLD, 1)),
    ("resource 15 with a budget left", put(paper_state(), in_line(15) + BUDGET, 0, 1)),
]

SLOTS = [
    ("a head with no task in line", queued(1, 2, 1, 0)),
    ("a processor with no task in line", queued(1, 2, 0, 1)),
    ("a head with no task in line, alone", image({0: ([1], 3, 5)}, {})),
    ("a processor queued twice", queued(0, 3, 1, 0, 0)),
    ("a head queued twice", queued(0, 3, 1, 0, 1)),
    ("a head queued twice, and the other not", queued(0, 2, 1, 1)),
    ("a processor in all eight slots", queued(0, 8, 1, 0, 0, 0, 0, 0, 0, 0)),
    ("a processor not queued", queued(0, 1, 1, NONE)),
    ("a head not queued", queued(0, 1, 0, NONE)),
    ("a task in line for a free one", put(FRESH, in_standing(5), 0, 0)),
    ("held by nobody queued", queued(1, 0, NONE)),
    ("processor P", queued(0, 3, 1, 0, 2)),
    ("processor 8", queued(0, 3, 1, 0, 8)),
    ("processor 255", queued(0, 3, 1, 0, NONE)),
    ("processor P at the head", queued(0, 2, 2, 0)),
    ("processor 7 at the head", queued(0, 3, 7, 1, 0)),
    ("processor 8 at the head", queued(0, 2, 8, 0)),
    ("processor 255 at the head", queued(0, 2, NONE, 0)),
    ("count 9", queued(0, 9)),
    ("count 255", queued(0, 255)),
    ("count 1 less", queued(0, 1)),
    ("count 0 of those listed", queued(0, 0)),
    ("count 1 more", queued(0, 3)),
    ("count 8", queued(0, 8)),
    ("a slot past the count", queued(0, 2, 1, 0, 0)),
    ("a slot past the count, 2", queued(0, 2, 1, 0, 2)),
    ("a slot past the count, 254", queued(0, 2, 1, 0, 254)),
    ("the last slot past the count", queued(0, 2, 1, 0, NONE, NONE, NONE, NONE, NONE, 0)),
    ("free with a slot", put(FRESH, in_line(0) + QUEUE, 0)),
    ("free with the last slot", put(FRESH, in_line(1) + QUEUE + 7, 1)),
    ("a local one with a slot", put(paper_state(), in_line(2) + QUEUE, 0)),
    ("resource R with a slot", put(paper_state(), in_line(3) + QUEUE, 0)),
    ("resource 15 with a slot", put(FRESH, in_line(15) + QUEUE + 3, 9)),
    ("resource R with a count", put(paper_state(), in_line(3), 1)),
    ("resource 15 with count 255", put(FRESH, in_line(15), 255)),
]

TASKS = [
    ("a place repeated", with_task(5, 0, 0)),
    ("a place repeated behind the first", with_task(7, 0, 1)),
    ("a gap in places", with_task(5, 0, 2)),
    ("a gap behind two", with_task(0, 0, 3)),
    ("the first place missing", with_task(6, NONE, NONE)),
    ("the first place missing in a later queue", with_task(1, NONE, NONE)),
    ("a lone task in place 1", with_task(2, 1, 1)),
    ("place 63", with_task(5, 0, 63)),
    ("place 64", with_task(5, 0, 64)),
    ("place 65", with_task(5, 0, 65)),
    ("place 254", with_task(5, 0, 254)),
    ("no section on it", with_task(0, 1, 1)),
    ("no section on it, alone in line", image({0: ([0], 1, 1)}, {2: (0, 0)})),
    ("in line for a local one", with_task(4, 2, 0)),
    ("queued for a local one", with_line(2, [0], 1, 1, 4, 2, 0)),
    ("in line for resource R", with_task(0, 3, 0)),
    ("queued for resource R", with_line(3, [0], 1, 1, 0, 3, 0)),
    ("queued for resource 15", with_line(15, [0], 1, 1, 0, 15, 0)),
    ("in line for resource 16", with_task(0, 16, 0)),
    ("in line for resource 17", with_task(0, 17, 0)),
    ("in line for resource 254", with_task(0, 254, 0)),
    ("in line for resource 254, in place 255", with_task(0, 254, 255)),
    ("no resource, but place 0", with_task(0, NONE, 0)),
    ("no resource, but place 254", with_task(0, NONE, 254)),
    ("no place, but resource 0", with_task(0, 0, NONE)),
    ("the holder with no place", with_task(6, 0, NONE)),
    ("a row past N in line", with_task(8, 0, 2)),
    ("a row past N in line, place 0", with_task(8, 0, 0)),
    ("a row past N with a place", with_task(8, NONE, 0)),
    ("a row past N of zeros", with_task(63, 0, 0)),
    ("the last row with a resource", put(FRESH, in_standing(63), 1, NONE)),
    ("all zero", bytes(336)),
]

UNSOUND = [(label, PAPER, state) for label, state in CLOCKS + SLOTS + TASKS] + [
    ("a state of PAPER", LISTING, paper_state()),
    ("a state of EIGHT", PAPER, FULL),
    ("three ticks left, by LISTING", LISTING, THREE),
    ("three ticks left, by PAPER", PAPER, THREE),
    ("two ticks left, by SILENT", SILENT, TWO),
    ("two ticks left, by BARE", BARE, TWO),
]

# calls that are refused on a sound state too, by a number that comes after 19
AFTER_19 = ["Q 99 0", "Q 1 3", "Q 1 1", "Q 4 2", "Q 12 1", "R 99 0", "R 1 3", "R 11 0", "W 99 0", "W 11 3", "W 12 0"]

# ---- the records ----


def wide_call(letter, tag, q):
    """A call whose tag has two bytes."""
    return letter.encode("ascii") + word(tag) + bytes([q])


def told_one(plan, state, call):
    """What the model gives for a call on a state."""
    machine = model.loaded(plan, state)
    if machine is None:
        return "refused 19 unchanged"
    before = machine.shown()
    answer = machine.call(*call)
    shown = machine.shown()
    if answer.startswith("refused"):
        return f"{answer} unchanged"
    return f"{answer} {'unchanged' if shown == before else 'changed'} | {shown}"


def one_case(label, plan, state, text, result):
    call = calls_of(text)[0][0]
    agree(label, result, told_one(plan, state, call))
    return b"S", f"state, {label}", body(file(plan), state, wide_call(*call)), result


def state_cases():
    found = [one_case(*row) for row in SOUND]
    for label, plan, state in UNSOUND:
        for text in ["T", "Q 1 0", "R 12 0", "W 11 0"]:
            found.append(one_case(f"{label}, {text}", plan, state, text, "refused 19 unchanged"))
    for text in AFTER_19:
        found.append(one_case(f"not sound, {text}", PAPER, paper_state(0, 5), text, "refused 19 unchanged"))
    return found


def refused_plans():
    """A file that breaks a check is refused by its number, at the start and by each call, whatever the state."""
    found = []
    bad = [(str(number), ways[0](file(GOOD)), number) for number, ways in BREAKS.items()] + [("1, with no bytes", b"", 1)]
    for name, content, k in bad:
        calls = [("Q", 10, 0), ("R", 99, 9), ("W", 99, 9), ("T", 0, 0), ("X", 0, 0)]
        result = f"refused {k}; refused {k}; refused {k}; refused {k}; refused {k}; none | nobody run"
        found.append((b"M", f"calls of a plan that breaks {name}", body(content, *[call_bytes(*call) for call in calls]), result))
        for how, state in [("fresh", FRESH), ("not sound", put(FRESH, in_line(0), 9))]:
            for call in calls[:4]:
                label = f"{call[0]} on a state that is {how}, of a plan that breaks {name}"
                found.append((b"S", label, body(content, state, wide_call(*call)), f"refused {k} unchanged"))
    return found


def cases():
    """Each case as its kind, its label, its record's body and its result."""
    return state_cases() + refused_plans()
