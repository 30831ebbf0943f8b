"""The analysis and the machine in the words of documents 01 and 02: a second look at results that were worked out by hand.

A line is what is kept of one resource: the turns, each a processor with its tasks in line, the hold left and the budget left.
"""
from dataclasses import dataclass, field
from functools import cache


@dataclass
class Line:
    turns: list = field(default_factory=list)
    hold: int = 0
    budget: int = 0


def agree(label, result, second):
    assert result == second, f"{label}: by hand {result!r}, by the model {second!r}"


def ceiling(a, b):
    return -(-a // b)


class Machine:
    def __init__(self, plan):
        self.plan = plan
        self.lines = [Line() for _ in range(16)]

    # ---- the analysis ----

    def processor(self, i):
        return self.plan.tasks[i].processor

    @cache
    def longest(self, i, q):
        """The longest section of task i on q, 0 where it has none."""
        return max((s.length for s in self.plan.sections if (s.task, s.resource) == (i, q)), default=0)

    @cache
    def is_global(self, q):
        return len({self.processor(s.task) for s in self.plan.sections if s.resource == q}) > 1

    @cache
    def higher(self, i):
        own = self.plan.tasks[i]
        return [j for j, t in enumerate(self.plan.tasks) if t.processor == own.processor and t.priority > own.priority]

    @cache
    def lower(self, i):
        return [j for j in range(len(self.plan.tasks)) if i in self.higher(j)]

    @cache
    def shared(self):
        """The global resources."""
        return [q for q in range(len(self.plan.names)) if self.is_global(q)]

    @cache
    def hold_time(self, i, q):
        others = [r for r in self.shared() if r != q]
        return self.longest(i, q) + sum(max((self.longest(j, r) for r in others), default=0) for j in self.higher(i))

    @cache
    def budget(self, k, q):
        users = [i for i, t in enumerate(self.plan.tasks) if t.processor == k and self.longest(i, q)]
        return max((self.hold_time(i, q) for i in users), default=0) if self.is_global(q) else 0

    def wait_time(self, k, q):
        return sum(self.budget(j, q) for j in range(self.plan.processors) if j != k)

    def limit(self, i, q, ahead):
        """What task i is told with these tasks of its processor ahead."""
        return sum(self.hold_time(j, q) for j in ahead) + (len(ahead) + 1) * self.wait_time(self.processor(i), q)

    def fellows(self, i, q):
        """The other tasks of its processor that declare q."""
        return [j for j in range(len(self.plan.tasks)) if j != i and self.processor(j) == self.processor(i) and self.longest(j, q)]

    def longest_wait(self, i, q):
        return self.limit(i, q, self.fellows(i, q))

    @cache
    def count(self, i, q):
        return len([s for s in self.plan.sections if (s.task, s.resource) == (i, q)])

    @cache
    def global_count(self, i):
        return sum(self.count(i, q) for q in self.shared())

    def blocking1(self, i):
        lengths = [0]
        for q in set(range(len(self.plan.names))) - set(self.shared()):
            users = [t.priority for j, t in enumerate(self.plan.tasks) if self.longest(j, q)]
            if users and max(users) >= self.plan.tasks[i].priority:
                lengths += [self.longest(j, q) for j in self.lower(i)]
        return (self.global_count(i) + 1) * max(lengths)

    def blocking2(self, i):
        most = self.global_count(i) + 1
        longest = {j: max((self.longest(j, q) for q in self.shared()), default=0) for j in self.lower(i)}
        return sum(min(most, self.global_count(j)) * longest[j] for j in self.lower(i))

    def side(self, i):
        """For each section the first wait, those that the fellows' holds can bring with them, and these holds."""
        k, found = self.processor(i), 0
        for q in self.shared():
            if self.longest(i, q):
                holds = sum(self.hold_time(j, q) for j in self.fellows(i, q))
                factor = ceiling(2 * holds, self.budget(k, q)) + 1
                found += self.count(i, q) * (factor * self.wait_time(k, q) + holds)
        return found

    def tolerance(self, i):
        own, higher = self.plan.tasks[i], [self.plan.tasks[j] for j in self.higher(i)]
        return max(t - own.execution - sum(ceiling(t, j.period) * j.execution for j in higher) for t in range(1, own.period + 1))

    def requirement(self, i):
        """B1, B2, tolerance, slack, waiting side and whether it is met."""
        blocking1, blocking2, tolerance, side = self.blocking1(i), self.blocking2(i), self.tolerance(i), self.side(i)
        slack = tolerance - blocking1 - blocking2
        return blocking1, blocking2, tolerance, slack, side, side <= slack

    def admitted(self):
        return all(self.requirement(i)[-1] for i in range(len(self.plan.tasks)) if self.global_count(i))

    # ---- the lines ----

    def begin(self, q):
        """The head gets its whole budget and its first task is granted; with nobody queued the resource is free."""
        line = self.lines[q]
        line.hold = line.budget = 0
        if line.turns:
            k, tasks = line.turns[0]
            line.hold, line.budget = self.hold_time(tasks[0], q), self.budget(k, q)

    def join(self, i, q):
        """Task i joins the tail; the tasks that are ahead of it."""
        line, k = self.lines[q], self.processor(i)
        if k not in [j for j, _ in line.turns]:
            line.turns.append((k, []))
        tasks = dict(line.turns)[k]
        tasks.append(i)
        return tasks[:-1]

    def leave(self, q):
        """The holder leaves."""
        line = self.lines[q]
        k, tasks = line.turns[0]
        tasks.pop(0)
        if tasks and self.hold_time(tasks[0], q) <= line.budget:
            line.hold = self.hold_time(tasks[0], q)
            return
        line.turns.pop(0)
        if tasks:
            line.turns.append((k, tasks))
        self.begin(q)

    def holder(self, q):
        turns = self.lines[q].turns
        return turns[0][1][0] if turns else None

    def busy(self, i):
        return any(i in tasks for line in self.lines for _, tasks in line.turns)

    # ---- the calls ----

    def request_refusal(self, i, q):
        if not self.longest(i, q):
            return 13
        if not self.is_global(q):
            return 14
        return 15 if self.busy(i) else 0

    def request(self, i, q):
        refusal = self.request_refusal(i, q)
        if refusal:
            return f"refused {refusal}"
        free, ahead = not self.lines[q].turns, self.join(i, q)
        if free:
            self.begin(q)
            return "granted"
        return f"waits {len(ahead)} {self.limit(i, q, ahead)}"

    def release(self, i, q):
        if self.holder(q) != i:
            return "refused 16"
        self.leave(q)
        return "free" if self.holder(q) is None else f"to {self.plan.tasks[self.holder(q)].tag}"

    def give_up(self, i, q):
        """A task that waits for q leaves, and its processor with it where it has no other in line."""
        line = self.lines[q]
        if i == self.holder(q) or not any(i in tasks for _, tasks in line.turns):
            return "refused 23"
        rest = [(k, [u for u in tasks if u != i]) for k, tasks in line.turns]
        line.turns = [(k, tasks) for k, tasks in rest if tasks]
        return "left"

    def tick(self):
        held = [q for q in range(16) if self.lines[q].turns]
        for q in held:
            self.lines[q].hold -= 1
            self.lines[q].budget -= 1
        cut = [q for q in held if self.lines[q].hold == 0]
        for q in cut:
            self.leave(q)
        granted = [q for q in cut if self.lines[q].turns]
        return f"tick {sum(2 ** q for q in cut)} {sum(2 ** q for q in granted)} {len(cut)}"

    def call(self, letter, tag, q):
        """What a call is answered; `none` where this is no call."""
        calls = {"Q": self.request, "R": self.release, "W": self.give_up}
        if letter not in calls:
            return self.tick() if (letter, tag, q) == ("T", 0, 0) else "none"
        tags = [t.tag for t in self.plan.tasks]
        if tag not in tags:
            return "refused 11"
        if q >= len(self.plan.names):
            return "refused 12"
        return calls[letter](tags.index(tag), q)

    def shown(self):
        """For each resource that is held the hold left, the budget left, and its processors with their tasks."""
        found = []
        for q, line in enumerate(self.lines):
            turns = "".join(f"{k}({' '.join(map(str, tasks))})" for k, tasks in line.turns)
            if turns:
                found.append(f"{q}:{line.hold}/{line.budget}:{turns}")
        return " ".join(found) or "nobody"


# ---- states by value ----


def row_of(image, q):
    """Of resource q the number queued, the slots, the hold left and the budget left."""
    row = image[13 * q:13 * q + 13]
    return row[0], row[1:9], int.from_bytes(row[9:11], "little"), int.from_bytes(row[11:13], "little")


def queues_of(machine, standing, q):
    """For each processor with a task in line for q those tasks by their places, or None where the places are not 0, 1, 2 ..."""
    queues = {}
    for place, u in sorted((place, u) for u, (r, place) in standing.items() if r == q):
        queues.setdefault(machine.processor(u), []).append((place, u))
    if any([place for place, _ in queue] != list(range(len(queue))) for queue in queues.values()):
        return None
    return {k: [u for _, u in queue] for k, queue in queues.items()}


def in_bounds(machine, line, q):
    if not line.turns:
        return line.hold == line.budget == 0
    k, tasks = line.turns[0]
    return 1 <= line.hold <= machine.hold_time(tasks[0], q) and line.hold <= line.budget <= machine.budget(k, q)


def loaded(plan, image):
    """A machine in the state of these bytes, or None where that is not sound."""
    machine = Machine(plan)
    rows = [tuple(image[208 + 2 * u:210 + 2 * u]) for u in range(64)]
    standing = {u: row for u, row in enumerate(rows) if row != (255, 255)}
    for u, (q, _) in standing.items():
        if u >= len(plan.tasks) or not machine.is_global(q) or not machine.longest(u, q):
            return None
    for q in range(16):
        count, slots, hold, budget = row_of(image, q)
        queues = queues_of(machine, standing, q)
        if count > 8 or queues is None or sorted(slots[:count]) != sorted(queues) or set(slots[count:]) - {255}:
            return None
        machine.lines[q] = Line([(k, queues[k]) for k in slots[:count]], hold, budget)
        if not in_bounds(machine, machine.lines[q], q):
            return None
    return machine


# ---- the sheet ----


def sheet(plan):
    """The lines of a plan's datasheet."""
    m, names = Machine(plan), [name.decode("ascii") for name in plan.names]
    tags = [t.tag for t in plan.tasks]
    lines = [f"plan {plan.processors} {len(tags)} {len(names)} {len(plan.sections)}"]
    lines += [f"resource {name} {'global' if m.is_global(q) else 'local'}" for q, name in enumerate(names)]
    for k in range(plan.processors):
        lines += [f"budget {k} {names[q]} {m.budget(k, q)} {m.wait_time(k, q)}" for q in m.shared() if m.budget(k, q)]
    for i, tag in enumerate(tags):
        lines += [f"hold {tag} {names[q]} {m.hold_time(i, q)} {len(m.fellows(i, q))} {m.longest_wait(i, q)}"
                  for q in m.shared() if m.longest(i, q)]
    found = {i: m.requirement(i) for i in range(len(tags)) if m.global_count(i)}
    for i, (*figures, met) in found.items():
        lines.append(" ".join(["requirement", *map(str, [tags[i], *figures]), "met" if met else "unmet"]))
    return lines + ["admitted yes" if all(met for *_, met in found.values()) else "admitted no"]
