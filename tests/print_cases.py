"""The cases of the lines that calls print: every kind of line, buffers that are just long enough or too short by one, and what is refused.

Each case has a label, a plan, how many bytes are lent for each line, and calls with their lines, written here by hand from documents 01
and 02; some have a state that the calls begin on, or lines that go into one buffer.
"""
from analysis_cases import LISTING, PAPER
from machine_cases import PAIR, body, call_bytes
from plan_cases import BREAKS, GOOD, Plan, Section, Task, file, word
from state_cases import BEHIND, FRESH, THREE, TWO, paper_state

SHORT = "refused 10 unchanged"
UNSOUND = "refused 19 unchanged"
# tags of three digits, names of twelve bytes, and up to 61 tasks ahead with long hold times: the longest lines
LONGEST = Plan(2, [Task(0, 193 + u, u + 1, 65535, 65535) for u in range(62)] + [Task(1, 192, 1, 65535, 65535)],
               [b"converter-in", b"converter-on"], [Section(u, q, 1000) for u in range(63) for q in range(2)])


def crowd(u):
    """Task u of LONGEST asks, behind the u before it: hold times 62,000, 61,000 and on, and a wait time of 1,000."""
    holds = sum(62000 - 1000 * v for v in range(u))
    told = f"waits {193 + u} converter-in {u} {holds + (u + 1) * 1000}" if u else "granted 193 converter-in"
    return ("Q", 193 + u, 0), told


LISTS = [
    ("the listing", LISTING, 96, [
        (("Q", 20, 0), "granted 20 bus"),
        (("Q", 10, 0), "waits 10 bus 0 3"),
        (("T", 0, 0), "tick 0 0"),
        (("T", 0, 0), "tick 0 0"),
        (("T", 0, 0), "tick 1 1"),
        (("R", 20, 0), "refused 16"),
        (("R", 10, 0), "released 10 bus free"),
    ]),
    ("a release to the next", PAIR, 96, [
        (("Q", 1, 0), "granted 1 bus"),
        (("Q", 3, 0), "waits 3 bus 0 3"),
        (("R", 1, 0), "released 1 bus to 3"),
    ]),
    ("a give-up", PAIR, 96, [
        (("Q", 1, 0), "granted 1 bus"),
        (("Q", 3, 0), "waits 3 bus 0 3"),
        (("W", 3, 0), "left 3 bus"),
        (("W", 3, 0), "refused 23"),
        (("Q", 3, 0), "waits 3 bus 0 3"),
        (("R", 1, 0), "released 1 bus to 3"),
    ]),
    ("behind 61 tasks", LONGEST, 96, [crowd(u) for u in range(62)] + [
        (("W", 254, 0), "left 254 converter-in"),
        (("R", 193, 0), "released 193 converter-in to 194"),
    ]),
    ("no calls", LISTING, 96, [
        (("q", 20, 0), "refused 21"),
        (("w", 20, 0), "refused 21"),
        (("T", 1, 0), "refused 21"),
        (("T", 0, 1), "refused 21"),
        (("\0", 0, 0), "refused 21"),
        (("Q", 20, 0), "granted 20 bus"),
    ]),
    ("every refusal of a call", PAPER, 96, [
        (("Q", 99, 0), "refused 11"),
        (("Q", 1, 3), "refused 12"),
        (("Q", 1, 1), "refused 13"),
        (("Q", 5, 2), "refused 14"),
        (("Q", 1, 0), "granted 1 r1"),
        (("Q", 1, 0), "refused 15"),
        (("R", 2, 0), "refused 16"),
        (("W", 99, 3), "refused 11"),
        (("W", 1, 3), "refused 12"),
        (("W", 1, 0), "refused 23"),
    ]),
    # "granted 20 bus" and its end are 15 bytes
    ("just long enough", LISTING, 15, [(("Q", 20, 0), "granted 20 bus")]),
    ("one byte too short", LISTING, 14, [
        (("Q", 20, 0), SHORT),
        (("Q", 20, 0), SHORT),
        (("R", 20, 0), "refused 16"),
        (("T", 0, 0), "tick 0 0"),
    ]),
    ("no room", LISTING, 0, [(("T", 0, 0), SHORT), (("x", 0, 0), SHORT)]),
    # "refused 21" and its end are 11 bytes
    ("no call, just long enough", LISTING, 11, [(("x", 0, 0), "refused 21"), (("T", 0, 0), "tick 0 0")]),
    ("no call, one byte too short", LISTING, 10, [(("x", 0, 0), SHORT), (("T", 0, 0), "tick 0 0")]),
]


# three that are calls and two that are none
SOME = [("Q", 20, 0), ("W", 10, 0), ("T", 0, 0), ("x", 0, 0), ("T", 1, 0)]

# lists on a given state: TWO has two ticks left of the first task, in BEHIND tag 10 waits
ON_STATES = [
    ("held", PAIR, TWO, 96, [
        (("Q", 2, 0), "waits 2 bus 1 7"),
        (("x", 0, 0), "refused 21"),
        (("R", 1, 0), "released 1 bus to 2"),
    ]),
    ("held, one byte too short", PAIR, TWO, 15, [(("Q", 2, 0), SHORT), (("Q", 2, 0), SHORT), (("T", 0, 0), "tick 0 0")]),
    # "left 10 bus" and its end are 12 bytes
    ("a give-up, just long enough", LISTING, BEHIND, 12, [(("W", 10, 0), "left 10 bus"), (("W", 10, 0), "refused 23")]),
    ("a give-up, one byte too short", LISTING, BEHIND, 11, [(("W", 10, 0), SHORT), (("W", 10, 0), SHORT), (("T", 0, 0), "tick 0 0")]),
    ("not sound", PAPER, paper_state(0, 5), 96, [(call, UNSOUND) for call in SOME]),
    ("not sound, no room", PAPER, paper_state(0, 5), 0, [(call, UNSOUND) for call in SOME]),
    ("sound by another plan", LISTING, THREE, 96, [(("R", 10, 0), UNSOUND)]),
]

QUEUED = "0:3/3:1(1)0(0)"
ASKED = [(("Q", 20, 0), "granted 20 bus"), (("Q", 10, 0), "waits 10 bus 0 3")]

# lines in one buffer: label, state, room, calls with their lines, bytes behind those that are made, what the state then shows
AT_ONCE = [
    ("the listing", FRESH, 1024, LISTS[0][3], b"", "nobody"),
    ("all whole calls", FRESH, 1024, ASKED, b"T\0", QUEUED),
    # the first line takes 15 bytes, the second begins where 96 are left
    ("room for one more", FRESH, 111, ASKED, b"", QUEUED),
    ("one byte too short for one more", FRESH, 110, ASKED[:1], b"Q\x0a\0", "0:3/3:1(1)"),
    ("just long enough", FRESH, 96, ASKED[:1], b"Q\x0a\0T\0\0", "0:3/3:1(1)"),
    ("no calls", FRESH, 96, [(("x", 0, 0), "refused 21")], b"x\0\0", "nobody"),
    ("on a state", TWO, 1024, [(("T", 0, 0), "tick 0 0"), (("T", 0, 0), "tick 1 0")], b"", "nobody"),
    ("a give-up", BEHIND, 1024, [(("W", 10, 0), "left 10 bus"), (("W", 20, 0), "refused 23")], b"W\x14", "0:3/3:1(1)"),
    # the first line takes 12 bytes, the second begins where 96 are left
    ("a give-up, room for one more", BEHIND, 108, [(("W", 10, 0), "left 10 bus"), (("T", 0, 0), "tick 0 0")], b"", "0:2/2:1(1)"),
    ("a give-up, one byte too short for one more", BEHIND, 107, [(("W", 10, 0), "left 10 bus")], b"T\0\0", "0:3/3:1(1)"),
    ("no whole call", FRESH, 1024, [], b"Q\x14", "nobody"),
    ("no whole call and no room", FRESH, 0, [], b"Q\x14", "nobody"),
    ("nothing", FRESH, 0, [], b"", "nobody"),
]

# and what is refused: label, state, room, bytes, number
REFUSED_AT_ONCE = [
    ("one byte too short", FRESH, 95, b"Q\x14\0", 10),
    ("one byte too short for no call", FRESH, 95, b"x\0\0", 10),
    ("no room", FRESH, 0, b"T\0\0T\0\0", 10),
    ("not sound", THREE, 1024, b"T\0\0", 19),
    ("not sound and too short", THREE, 95, b"T\0\0", 19),
    ("not sound, no calls", THREE, 1024, b"", 19),
]


def list_case(label, content, room, calls):
    result = "; ".join(["start"] + [line for _, line in calls])
    return b"P", f"lines, {label}", body(content, bytes([room]), *[call_bytes(*call) for call, _ in calls]), result


def state_case(label, content, state, room, calls):
    result = "; ".join(["state"] + [line for _, line in calls])
    return b"O", f"lines on a state, {label}", body(content, state, bytes([room]), *[call_bytes(*call) for call, _ in calls]), result


def at_once(label, state, room, calls, behind, shown):
    text = "".join("\n" + line for _, line in calls)
    result = f"lines {3 * len(calls)} {len(text)} right | {shown}{text}"
    return b"E", f"lines at once, {label}", body(file(LISTING), state, word(room), *[call_bytes(*call) for call, _ in calls], behind), result


def refused_at_once(label, content, state, room, calls, number):
    return b"E", f"lines at once, {label}", body(content, state, word(room), calls), f"refused {number} unchanged"


def refused_plans():
    """A plan's own number comes before that of a state, of a buffer and of bytes that are no call."""
    found = []
    for k in BREAKS:
        bad, told = BREAKS[k][0](file(GOOD)), [(call, f"refused {k} unchanged") for call in SOME]
        found.append(list_case(f"of a plan that breaks {k}", bad, 96, told))
        found.append(list_case(f"of a plan that breaks {k}, no room", bad, 0, told))
        found.append(state_case(f"not sound, of a plan that breaks {k}", bad, bytes(336), 0, told))
        found.append(refused_at_once(f"of a plan that breaks {k}", bad, FRESH, 1024, b"T\0\0", k))
        found.append(refused_at_once(f"not sound and too short, of a plan that breaks {k}", bad, bytes(336), 0, b"x\0\0", k))
    return found


def cases():
    """Each case as its kind, its label, its record's body and its result."""
    found = [list_case(label, file(plan), room, calls) for label, plan, room, calls in LISTS]
    found += [state_case(label, file(plan), *rest) for label, plan, *rest in ON_STATES]
    found += [at_once(*row) for row in AT_ONCE]
    found += [refused_at_once(label, file(LISTING), *rest) for label, *rest in REFUSED_AT_ONCE]
    return found + refused_plans()
