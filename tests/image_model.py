"""The image of document 02 §3 in its words: how it is laid out, when it is sound, and what a call on it returns and leaves.

What a call does to the lines is the machine's, of model.py.
"""
from collections import Counter

import model

NONE = 255
HEADER, ROW, TASK_ROW = 4, 14, 2


def word(n):
    return n.to_bytes(2, "little")


def tasks_at(plan):
    """Where the task rows begin."""
    return HEADER + ROW * len(plan.names)


def length(plan):
    return tasks_at(plan) + TASK_ROW * len(plan.tasks)


# ---- laying out ----


def header(plan):
    return bytes([len(plan.tasks), len(plan.names), HEADER, tasks_at(plan)])


def row_of(line):
    """The row of a resource."""
    queue = [k for k, _ in line.turns]
    holder = line.turns[0][1][0] if queue else NONE
    return bytes([len(queue), holder]) + word(line.hold) + word(line.budget) + bytes(queue + [NONE] * (8 - len(queue)))


def image(plan, lines):
    """The image of a state with these lines."""
    rows = [(NONE, NONE)] * len(plan.tasks)
    for q, line in enumerate(lines):
        for _, tasks in line.turns:
            for place, u in enumerate(tasks):
                rows[u] = (q, place)
    resources = b"".join(row_of(line) for line in lines[:len(plan.names)])
    return header(plan) + resources + b"".join(bytes(row) for row in rows)


# ---- sound images ----


class Rows:
    """The rows of an image that is long enough, by the plan's counts."""

    def __init__(self, machine, lent):
        self.machine, self.lent = machine, lent
        start = tasks_at(machine.plan)
        self.tasks = [tuple(lent[start + TASK_ROW * u:][:TASK_ROW]) for u in range(len(machine.plan.tasks))]

    def row(self, q):
        """The number of queued processors, the holder, hold left, budget left, and the eight processors."""
        row = self.lent[HEADER + ROW * q:][:ROW]
        return row[0], row[1], int.from_bytes(row[2:4], "little"), int.from_bytes(row[4:6], "little"), list(row[6:])

    def places(self, q):
        """For each processor with a task in line for q the places of these, with the task."""
        found = {}
        for u, (resource, place) in enumerate(self.tasks):
            if resource == q and place != NONE:
                found.setdefault(self.machine.processor(u), []).append((place, u))
        return {k: sorted(places) for k, places in found.items()}

    # ---- what is broken, a name for each clause ----

    def counts(self):
        names = ["N", "R", "offset of the resource rows", "offset of the task rows"]
        return {name for name, is_so, fits in zip(names, self.lent, header(self.machine.plan)) if is_so != fits}

    def task_rows(self):
        """What is absent in a task row is so whole; a task in line declares the resource, which is global."""
        found = set()
        for u, (resource, place) in enumerate(self.tasks):
            if (resource == NONE) != (place == NONE):
                found.add("absent")
            if resource != NONE and not self.machine.longest(u, resource):
                found.add("declared")
            elif resource != NONE and not self.machine.is_global(resource):
                found.add("global")
        return found

    def task_queues(self, q):
        found = set()
        for places in self.places(q).values():
            taken = [place for place, _ in places]
            if max(Counter(taken).values()) > 1:
                found.add("repeat")
            if set(taken) != set(range(len(set(taken)))):
                found.add("gap")
        return found

    def processor_queue(self, q):
        """The processors with a task in line and no other, each once; 255 behind them."""
        count, _, _, _, slots = self.row(q)
        if count > len(slots):
            return {"count"}
        queue, with_tasks, found = slots[:count], self.places(q), set()
        if set(slots[count:]) - {NONE}:
            found.add("filled")
        if len(set(queue)) < count:
            found.add("once")
        if set(queue) - set(with_tasks):
            found.add("no task")
        if set(with_tasks) - set(queue):
            found.add("not queued")
        return found

    def free(self, q):
        _, holder, hold, budget, _ = self.row(q)
        broken = {"free, holder": holder != NONE, "free, hold left": hold != 0, "free, budget left": budget != 0}
        return {name for name, is_so in broken.items() if is_so}

    def held(self, q):
        """The holder, and the bounds of hold left and budget left, as far as there are such bounds."""
        _, holder, hold, budget, slots = self.row(q)
        first = [u for place, u in self.places(q).get(slots[0], []) if place == 0]
        broken = {"holder": holder not in first, "no hold left": hold < 1, "above budget left": hold > budget}
        if holder in first and self.machine.is_global(q) and self.machine.longest(holder, q):
            broken["above hold time"] = hold > self.machine.hold_time(holder, q)
            broken["above budget"] = budget > self.machine.budget(slots[0], q)
        return {name for name, is_so in broken.items() if is_so}

    def broken(self):
        """The clauses that are broken: none where the image is sound."""
        found = self.counts() | self.task_rows()
        for q in range(len(self.machine.plan.names)):
            found |= self.task_queues(q) | self.processor_queue(q) | (self.held(q) if self.row(q)[0] else self.free(q))
        return found

    def lines(self):
        """The lines that a sound image shows."""
        found = []
        for q in range(len(self.machine.plan.names)):
            count, _, hold, budget, slots = self.row(q)
            places = self.places(q)
            found.append(model.Line([(k, [u for _, u in places[k]]) for k in slots[:count]], hold, budget))
        return found


# ---- calls ----


def word_of(answer):
    """The 64 bits of an answer, from the low byte up."""
    kind, *numbers = answer.split()
    numbers = [int(n) for n in numbers]
    parts = {
        "refused": lambda: bytes(numbers),
        "waits": lambda: bytes([0, 1, numbers[0]]) + numbers[1].to_bytes(4, "little"),
        "to": lambda: b"\0\1" + word(numbers[0]),
        "tick": lambda: b"\0" + word(numbers[0]) + word(numbers[1]),
    }
    return parts.get(kind, bytes)().ljust(8, b"\0")


def put_back(plan, lines, lent):
    """The lent bytes with the image of these lines at their front."""
    return image(plan, lines) + lent[length(plan):]


def called(plan, lent, letter, tag, q):
    """What a call on lent bytes is answered, and what it leaves of them; the plan is one that is accepted."""
    if letter not in "SQRWT":
        return "none", lent
    if len(lent) < length(plan):
        return "refused 24", lent
    machine = model.Machine(plan)
    if letter == "S":
        return "started", put_back(plan, machine.lines, lent)
    rows = Rows(machine, lent)
    if rows.broken():
        return "refused 25", lent
    lines = rows.lines()
    machine.lines[:len(lines)] = lines
    answer = machine.tick() if letter == "T" else machine.call(letter, tag, q)
    return answer, lent if answer.startswith("refused") else put_back(plan, machine.lines, lent)


def changed_counts(plan, lent, mask):
    """A tick on what is lent with each byte changed in turn: how many are refused 25, how many 24, how many accepted."""
    if len(lent) < length(plan):
        return 0, len(lent), 0
    machine = model.Machine(plan)
    changed = [lent[:at] + bytes([b ^ mask]) + lent[at + 1:] for at, b in enumerate(lent)]
    unsound = len([copy for copy in changed if Rows(machine, copy).broken()])
    return unsound, 0, len(lent) - unsound
