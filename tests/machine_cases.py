"""The cases of the machine that are not for proof, as lists of calls: the rules of its lines at their edges, and each refusal.

Each case has a label, a plan, calls with their answers, and the state at the end, worked out here by hand from documents 01 and 02.
The model is a second look: it has to agree with every one of them.
"""
import model
from analysis_cases import BARE, EIGHT, LISTING, OWN, PAPER, SILENT
from model import agree
from plan_cases import Plan, Section, Task, file, many_names, word

# ---- plans ----

# processor 0 has two tasks of hold time 3, which is its budget; processor 1 has one of hold time 2
PAIR = Plan(2, [Task(0, 1, 2, 50, 5), Task(0, 2, 1, 50, 5), Task(1, 3, 1, 50, 5)], [b"bus"],
            [Section(0, 0, 3), Section(1, 0, 3), Section(2, 0, 2)])
# eight processors, of which the first has two tasks of hold time 1
TURN = EIGHT._replace(tasks=EIGHT.tasks + [Task(0, 8, 2, 100, 50)], sections=EIGHT.sections + [Section(8, 0, 1)])
# four resources, each shared by two processors of their own: hold times 2 and 3, 2 and 4, 2 and 5, 2 and 1
WIDE = Plan(8, [Task(k, 10 + k, 1, 100, 50) for k in range(8)], many_names(16),
            [Section(k, q, length) for k, q, length in [(0, 0, 2), (1, 0, 3), (2, 1, 2), (3, 1, 4), (4, 2, 2), (5, 2, 5), (6, 15, 2), (7, 15, 1)]])
# all 16 resources, each with a task of both processors; hold times and budgets on q are 16 - q
ALL = Plan(2, [Task(k, 16 * k + q, q + 1, 100, 50) for k in range(2) for q in range(16)], many_names(16),
           [Section(i, i % 16, 1) for i in range(32)])
# processor 0 has two tasks on each resource: hold times and budgets are 1 on the bus and 3 on the link; those of processor 1 are 1
FELLOWS = Plan(2, [Task(0, 1, 4, 100, 50), Task(0, 2, 3, 100, 50), Task(0, 3, 2, 100, 50), Task(0, 4, 1, 100, 50), Task(1, 5, 1, 100, 50)],
               [b"bus", b"link"], [Section(i, q, 1) for i, q in [(0, 0), (1, 0), (2, 1), (3, 1), (4, 0), (4, 1)]])
# hold times 1, 1 and 4 on processor 0, which has the budget 4, and 1 on processor 1
SHORT = Plan(2, [Task(0, 1, 3, 100, 50), Task(0, 2, 2, 100, 50), Task(0, 3, 1, 100, 50), Task(1, 4, 1, 100, 50)], [b"bus"],
             [Section(0, 0, 1), Section(1, 0, 1), Section(2, 0, 4), Section(3, 0, 1)])
# 63 tasks of one processor, all of hold time 1
CROWD = Plan(2, [Task(0, u, u + 1, 100, 50) for u in range(63)] + [Task(1, 255, 1, 100, 50)], [b"bus"],
             [Section(u, 0, 1) for u in range(64)])
# 62 tasks of one processor, each above the last: hold times 62,000, 61,000 and on
LONG = Plan(2, [Task(0, u, u + 1, 2000, 2000) for u in range(62)] + [Task(1, 255, 1, 2000, 2000)], [b"bus", b"link"],
            [Section(u, q, 1000) for u in range(63) for q in range(2)])

# ---- lists of calls: label, plan, a call and its answer in each line, the state at the end ----
# A call is a letter, a tag and a resource; a tick is `T` alone; a number in front says how often. Behind `#` stand the hold left
# and the budget left of the resource, or what there is to see.
# PAPER: on r1 the hold times of tags 1, 2, 4 are 2, 3, 10 and those of 11, 12, 13 are 3, 4, 7; wait times 7 and 10.
#        On r2 those of 3 and of 11, 12 are 10 and 2, 4; wait times 4 and 10. r3 is local. Tags 1 to 5 are tasks 0 to 4, 11 to 13 are 5 to 7.

AGREED = [
    ("the listing", LISTING, """
        Q 20 0  granted         # 3/3
        Q 10 0  waits 0 3
        T       tick 0 0 0      # 2/2
        T       tick 0 0 0      # 1/1
        T       tick 1 1 1      # tag 20 is cut
        R 20 0  refused 16
        R 10 0  free
     """, "nobody"),
    ("C3, the request first", PAPER, """
        Q 12 0  granted         # 4/7
        Q 2 0   waits 0 7
        2 T     tick 0 0 0      # 2/5
        Q 11 0  waits 1 24      # 4 + 2 x 10
        R 12 0  to 11           # 3/5
     """, "0:3/5:1(5)0(1)"),
    ("C3, the release first", PAPER, """
        Q 12 0  granted
        Q 2 0   waits 0 7
        2 T     tick 0 0 0
        R 12 0  to 2            # processor 1 leaves
        Q 11 0  waits 0 10
     """, "0:3/10:0(1)1(5)"),
    ("C4, cut at 18", PAPER, """
        Q 12 0  granted         # instant 1: 4/7
        Q 2 0   waits 0 7
        2 T     tick 0 0 0      # 3: 2/5
        Q 11 0  waits 1 24
        R 12 0  to 11           # 3/5
        Q 1 0   waits 1 17      # 3 + 2 x 7
        T       tick 0 0 0      # 4: 2/4
        Q 4 0   waits 2 26      # 3 + 2 + 3 x 7
        T       tick 0 0 0      # 5: 1/3
        T       tick 1 1 1      # 6: to tag 2, 3/10
        T       tick 0 0 0      # 7: 2/9
        Q 13 0  waits 0 10
        T       tick 0 0 0      # 8: 1/8
        T       tick 1 1 1      # 9: to tag 1, 2/7
        T       tick 0 0 0      # 10: 1/6
        T       tick 1 1 1      # 11: 10 is above 5; to tag 13, 7/7
        6 T     tick 0 0 0      # 17: 1/1
        T       tick 1 1 1      # 18
        R 13 0  refused 16
     """, "0:10/10:0(3)"),
    ("C5, equal", PAIR, """
        Q 1 0   granted         # 3/3
        Q 2 0   waits 1 7       # 3 + 2 x 2
        Q 3 0   waits 0 3
        R 1 0   to 2
     """, "0:3/3:0(1)1(2)"),
    ("C5, one more", PAIR, """
        Q 1 0   granted
        Q 2 0   waits 1 7
        Q 3 0   waits 0 3
        T       tick 0 0 0      # 2/2
        R 1 0   to 3
     """, "0:2/2:1(2)0(1)"),
    # tag 2 is told 7 and is granted at its seventh tick
    ("the whole limit", PAIR, """
        Q 3 0   granted         # 2/2
        Q 1 0   waits 0 2
        Q 2 0   waits 1 7
        T       tick 0 0 0      # 1/1
        T       tick 1 1 1      # to tag 1, 3/3
        Q 3 0   waits 0 3
        T       tick 0 0 0      # 2/2
        T       tick 0 0 0      # 1/1
        T       tick 1 1 1      # 3 is above 0; to tag 3, 2/2
        T       tick 0 0 0      # 1/1
        T       tick 1 1 1      # to tag 2
     """, "0:3/3:0(1)"),
]

TURNS = [
    ("nothing called", PAPER, "", "nobody"),
    ("ticks with nobody in line", PAPER, "3 T tick 0 0 0", "nobody"),
    ("a plan with no sections", BARE, """
        Q 1 0   refused 13
        R 1 0   refused 16
        W 1 0   refused 23
        T       tick 0 0 0
     """, "nobody"),
    ("a lone processor sent back by a release", PAIR, """
        Q 1 0   granted         # 3/3
        Q 2 0   waits 1 7
        T       tick 0 0 0      # 2/2
        R 1 0   to 2            # 3 is above 2
     """, "0:3/3:0(1)"),
    ("a lone processor sent back by a tick", PAIR, """
        Q 1 0   granted
        Q 2 0   waits 1 7
        2 T     tick 0 0 0      # 1/1
        T       tick 1 1 1      # 3 is above 0
     """, "0:3/3:0(1)"),
    ("a lone processor that need not be sent back", PAPER, """
        Q 4 0   granted         # 10/10
        Q 1 0   waits 1 24      # 10 + 2 x 7
        8 T     tick 0 0 0      # 2/2
        R 4 0   to 1            # 2/2
        T       tick 0 0 0      # 1/1
     """, "0:1/1:0(0)"),
    ("a cut, and the next fits what is left", PAPER, """
        Q 2 0   granted         # 3/10
        Q 1 0   waits 1 17
        Q 11 0  waits 0 10
        2 T     tick 0 0 0      # 1/8
        T       tick 1 1 1      # 2/7
     """, "0:2/7:0(0)1(5)"),
    ("eight processors by ticks", EIGHT, """
        Q 0 0   granted         # 1/1
        Q 1 0   waits 0 34
        Q 2 0   waits 0 33
        Q 3 0   waits 0 32
        Q 4 0   waits 0 31
        Q 5 0   waits 0 30
        Q 6 0   waits 0 29
        Q 7 0   waits 0 28
        T       tick 1 1 1      # to 1, 2/2
        T       tick 0 0 0
        T       tick 1 1 1      # to 2, 3/3
        2 T     tick 0 0 0
        T       tick 1 1 1      # to 3, 4/4
        3 T     tick 0 0 0
        T       tick 1 1 1      # to 4, 5/5
        4 T     tick 0 0 0
        T       tick 1 1 1      # to 5, 6/6
        5 T     tick 0 0 0
        T       tick 1 1 1      # to 6, 7/7
        6 T     tick 0 0 0
        T       tick 1 1 1      # to 7 after 28 ticks, 8/8
        7 T     tick 0 0 0
        T       tick 1 0 1
     """, "nobody"),
    ("eight processors by releases", EIGHT, """
        Q 7 0   granted         # 8/8
        Q 0 0   waits 0 35
        Q 6 0   waits 0 29
        Q 1 0   waits 0 34
        Q 5 0   waits 0 30
        Q 2 0   waits 0 33
        Q 4 0   waits 0 31
        Q 3 0   waits 0 32
        R 7 0   to 0            # 1/1
        Q 7 0   waits 0 28
        R 0 0   to 6
        R 6 0   to 1
        R 1 0   to 5
        R 5 0   to 2
        Q 1 0   waits 0 34
        R 2 0   to 4
        R 4 0   to 3
        R 3 0   to 7            # 8/8
        R 7 0   to 1            # 2/2
        R 1 0   free
     """, "nobody"),
    ("the first of eight sent back", TURN, """
        Q 0 0   granted         # 1/1
        Q 8 0   waits 1 71      # 1 + 2 x 35
        Q 1 0   waits 0 34
        Q 2 0   waits 0 33
        Q 3 0   waits 0 32
        Q 4 0   waits 0 31
        Q 5 0   waits 0 30
        Q 6 0   waits 0 29
        Q 7 0   waits 0 28
        T       tick 1 1 1      # 1 is above 0
     """, "0:2/2:1(1)2(2)3(3)4(4)5(5)6(6)7(7)0(8)"),
]

PLACES = [
    ("the head's own processor waits though budget is left", PAPER, """
        Q 2 0   granted         # 3/10
        Q 1 0   waits 1 17      # its 2 would fit
     """, "0:3/10:0(1 0)"),
    ("behind fellows, and a holder part-way through", PAPER, """
        Q 2 0   granted         # 3/10
        2 T     tick 0 0 0      # 1/8
        Q 1 0   waits 1 17      # 3 + 2 x 7, though 1 is left
        Q 4 0   waits 2 26      # 3 + 2 + 3 x 7
     """, "0:1/8:0(1 0 3)"),
    ("behind fellows, none of which holds", PAPER, """
        Q 11 0  granted         # 3/7
        Q 1 0   waits 0 7
        Q 2 0   waits 1 16      # 2 + 2 x 7
        Q 4 0   waits 2 26      # 2 + 3 + 3 x 7
     """, "0:3/7:1(5)0(0 1 3)"),
    ("those of other processors are not ahead", PAPER, """
        Q 2 0   granted
        Q 1 0   waits 1 17
        Q 11 0  waits 0 10
        Q 12 0  waits 1 23      # 3 + 2 x 10
        Q 4 0   waits 2 26
     """, "0:3/10:0(1 0 3)1(5 6)"),
    ("a processor queued once though two of its tasks wait", PAPER, """
        Q 11 0  granted
        Q 1 0   waits 0 7
        Q 2 0   waits 1 16
        R 11 0  to 1            # 2/10
        R 1 0   to 2            # 3/10
        R 2 0   free
     """, "nobody"),
    ("a budget is not filled anew at a grant", PAPER, """
        Q 2 0   granted         # 3/10
        Q 1 0   waits 1 17
        Q 4 0   waits 2 26
        Q 11 0  waits 0 10
        2 T     tick 0 0 0      # 1/8
        R 2 0   to 1            # 2/8
        R 1 0   to 11           # 10 is above 8
     """, "0:3/7:1(5)0(3)"),
    ("a budget is filled at a new turn", PAPER, """
        Q 2 0   granted         # 3/10
        Q 4 0   waits 1 17
        Q 11 0  waits 0 10
        T       tick 0 0 0      # 2/9
        R 2 0   to 11           # 10 is above 9
        R 11 0  to 4
     """, "0:10/10:0(3)"),
    ("the task sent back keeps its first place", PAPER, """
        Q 2 0   granted         # 3/10
        Q 4 0   waits 1 17
        Q 1 0   waits 2 34      # 3 + 10 + 3 x 7
        Q 11 0  waits 0 10
        T       tick 0 0 0      # 2/9
        R 2 0   to 11           # 10 is above 9, though 2 is not
        Q 2 0   waits 2 33      # 10 + 2 + 3 x 7
        R 11 0  to 4
     """, "0:10/10:0(3 0 1)"),
    ("one that comes back is last in its queue", PAPER, """
        Q 2 0   granted
        Q 1 0   waits 1 17
        R 2 0   to 1            # 2/10
        Q 2 0   waits 1 16      # 2 + 2 x 7
        Q 4 0   waits 2 26
        R 1 0   to 2
     """, "0:3/10:0(1 3)"),
    ("the same resource is not counted in a hold time", OWN, """
        Q 2 0   granted         # 3 + 2 of the budget 9
        Q 3 0   waits 0 9
        T       tick 0 0 0
     """, "0:4/8:0(1)1(2)"),
    ("two resources side by side", PAPER, """
        Q 11 1  granted         # r2: 2/4
        Q 12 0  granted         # r1: 4/7
        Q 3 1   waits 0 4
        T       tick 0 0 0      # r1 3/6, r2 1/3
        R 12 0  free
        Q 12 1  waits 1 22      # 2 + 2 x 10
     """, "1:1/3:1(5 6)0(2)"),
    ("a task goes from one resource to another", PAPER, """
        Q 11 0  granted
        R 11 0  free
        Q 11 1  granted         # 2/4
        T       tick 0 0 0      # 1/3
        T       tick 2 0 1
        Q 11 0  granted
     """, "0:3/7:1(5)"),
]

GIVE_UPS = [
    ("the head's second task gives up", PAPER, """
        Q 12 0  granted         # 4/7
        Q 11 0  waits 1 24      # 4 + 2 x 10
        Q 13 0  waits 2 37      # 4 + 3 + 3 x 10
        Q 1 0   waits 0 7
        T       tick 0 0 0      # 3/6
        W 11 0  left            # 3/6 still
        R 12 0  to 1            # of processor 1 tag 13 is next, and 7 is above 6
     """, "0:2/10:0(0)1(7)"),
    ("the head's last task gives up", PAPER, """
        Q 12 0  granted         # 4/7
        Q 11 0  waits 1 24
        Q 13 0  waits 2 37
        W 13 0  left
        R 12 0  to 11           # 3/7
        R 11 0  free
     """, "nobody"),
    ("the first task of a core that is not head gives up", PAPER, """
        Q 11 0  granted         # 3/7
        Q 1 0   waits 0 7
        Q 2 0   waits 1 16
        Q 4 0   waits 2 26
        W 1 0   left
        R 11 0  to 2            # 3/10
     """, "0:3/10:0(1 3)"),
    ("a middle task of a core that is not head gives up", PAPER, """
        Q 11 0  granted
        Q 1 0   waits 0 7
        Q 2 0   waits 1 16
        Q 4 0   waits 2 26
        W 2 0   left
        R 11 0  to 1            # 2/10
     """, "0:2/10:0(0 3)"),
    ("the last task of a core that is not head gives up", PAPER, """
        Q 11 0  granted
        Q 1 0   waits 0 7
        Q 2 0   waits 1 16
        Q 4 0   waits 2 26
        W 4 0   left
        R 11 0  to 1            # 2/10
     """, "0:2/10:0(0 1)"),
    ("the only task of a middle core gives up", EIGHT, """
        Q 0 0   granted         # 1/1
        Q 1 0   waits 0 34
        Q 2 0   waits 0 33
        Q 3 0   waits 0 32
        W 2 0   left            # processor 2 leaves
        T       tick 1 1 1      # to 1, 2/2
     """, "0:2/2:1(1)3(3)"),
    ("the only task of the core behind the head gives up", EIGHT, """
        Q 0 0   granted
        Q 1 0   waits 0 34
        Q 2 0   waits 0 33
        W 1 0   left
        T       tick 1 1 1      # to 2, 3/3
     """, "0:3/3:2(2)"),
    ("the only task of the tail core gives up", EIGHT, """
        Q 0 0   granted
        Q 1 0   waits 0 34
        Q 2 0   waits 0 33
        W 2 0   left
        T       tick 1 1 1      # to 1, 2/2
        T       tick 0 0 0
        T       tick 1 0 1
     """, "nobody"),
    ("a core leaves when its last task does", PAPER, """
        Q 11 0  granted
        Q 1 0   waits 0 7
        Q 2 0   waits 1 16
        W 1 0   left            # processor 0 stays
        W 2 0   left
        R 11 0  free
     """, "nobody"),
    ("two of eight processors leave, and one joins again", EIGHT, """
        Q 7 0   granted         # 8/8
        Q 0 0   waits 0 35
        Q 6 0   waits 0 29
        Q 1 0   waits 0 34
        Q 5 0   waits 0 30
        Q 2 0   waits 0 33
        Q 4 0   waits 0 31
        Q 3 0   waits 0 32
        W 1 0   left
        W 3 0   left
        Q 1 0   waits 0 34
     """, "0:8/8:7(7)0(0)6(6)5(5)2(2)4(4)1(1)"),
    ("gives up and asks again", PAPER, """
        Q 11 0  granted
        Q 1 0   waits 0 7
        Q 2 0   waits 1 16
        W 1 0   left
        Q 1 0   waits 1 17      # a new place and a new limit: 3 + 2 x 7
        R 11 0  to 2            # 3/10
     """, "0:3/10:0(1 0)"),
    ("gives up and asks again, behind another core", EIGHT, """
        Q 0 0   granted
        Q 1 0   waits 0 34
        Q 2 0   waits 0 33
        W 1 0   left
        Q 1 0   waits 0 34      # its processor joins at the tail
        T       tick 1 1 1      # to 2, 3/3
     """, "0:3/3:2(2)1(1)"),
    ("gives up and asks for another resource", PAPER, """
        Q 12 0  granted         # r1: 4/7
        Q 11 0  waits 1 24
        W 11 0  left
        Q 11 1  granted         # r2: 2/4
     """, "0:4/7:1(6) 1:2/4:1(5)"),
    ("hold left and budget left stay", PAPER, """
        Q 2 0   granted         # 3/10
        Q 1 0   waits 1 17
        Q 11 0  waits 0 10
        2 T     tick 0 0 0      # 1/8
        W 11 0  left
        W 1 0   left
     """, "0:1/8:0(1)"),
    ("another line stays", PAPER, """
        Q 11 1  granted         # r2: 2/4
        Q 3 1   waits 0 4
        Q 12 0  granted         # r1: 4/7
        Q 2 0   waits 0 7
        W 2 0   left
     """, "0:4/7:1(6) 1:2/4:1(5)0(2)"),
    # tag 2 is told 7 and is granted at its second tick
    ("a fellow is granted earlier than it was told", PAIR, """
        Q 3 0   granted         # 2/2
        Q 1 0   waits 0 2
        Q 2 0   waits 1 7
        T       tick 0 0 0      # 1/1
        W 1 0   left
        T       tick 1 1 1      # to tag 2
     """, "0:3/3:0(1)"),
    # tag 2 is told 7, and is granted at its seventh tick as without the give-up
    ("the whole limit beside a give-up", PAIR, """
        Q 3 0   granted         # 2/2
        Q 1 0   waits 0 2
        Q 2 0   waits 1 7
        T       tick 0 0 0      # 1/1
        T       tick 1 1 1      # to tag 1, 3/3
        Q 3 0   waits 0 3
        W 3 0   left
        Q 3 0   waits 0 3
        2 T     tick 0 0 0      # 1/1
        T       tick 1 1 1      # 3 is above 0; to tag 3, 2/2
        T       tick 0 0 0      # 1/1
        T       tick 1 1 1      # to tag 2
     """, "0:3/3:0(1)"),
    # without the give-up tag 4 is granted at the first tick: 4 is above 3
    ("another core waits longer for a give-up, within its limit", SHORT, """
        Q 1 0   granted         # 1/4
        Q 3 0   waits 1 3       # 1 + 2 x 1
        Q 2 0   waits 2 8       # 1 + 4 + 3 x 1
        Q 4 0   waits 0 4
        W 3 0   left
        T       tick 1 1 1      # to tag 2, 1/3
        T       tick 1 1 1      # to tag 4
     """, "0:1/1:1(3)"),
    ("the same without the give-up", SHORT, """
        Q 1 0   granted         # 1/4
        Q 3 0   waits 1 3
        Q 2 0   waits 2 8
        Q 4 0   waits 0 4
        T       tick 1 1 1      # 4 is above 3; to tag 4
     """, "0:1/1:1(3)0(2 1)"),
    # tag 3 waits one tick, and later all 3 that it is told anew; so does its processor
    ("a new limit runs from the new request", PAIR, """
        Q 1 0   granted         # 3/3
        Q 3 0   waits 0 3
        Q 2 0   waits 1 7
        T       tick 0 0 0      # 2/2
        W 3 0   left
        T       tick 0 0 0      # 1/1
        T       tick 1 1 1      # 3 is above 0: sent back alone; to tag 2, 3/3
        Q 3 0   waits 0 3
        2 T     tick 0 0 0      # 1/1
        T       tick 1 1 1      # to tag 3
     """, "0:2/2:1(2)"),
]

WORDS = [
    ("cuts and grants on several resources", WIDE, """
        Q 10 0  granted         # 2/2
        Q 11 0  waits 0 2
        Q 12 1  granted
        Q 14 2  granted
        Q 15 2  waits 0 2
        Q 16 15 granted
        T       tick 0 0 0
        T       tick 32775 5 4  # 0, 1, 2 and 15; to tags 11 and 15
     """, "0:3/3:1(1) 2:5/5:5(5)"),
    ("cuts of single resources", WIDE, """
        Q 17 15 granted         # 1/1
        T       tick 32768 0 1
        Q 16 15 granted         # 2/2
        Q 17 15 waits 0 2
        Q 15 2  granted         # 5/5
        T       tick 0 0 0
        Q 10 0  granted         # 2/2
        T       tick 32768 32768 1
        T       tick 32769 0 2
        T       tick 0 0 0
        T       tick 4 0 1
     """, "nobody"),
    ("a cut that leaves a resource free", PAIR, """
        Q 3 0   granted         # 2/2
        T       tick 0 0 0
        T       tick 1 0 1
        R 3 0   refused 16
        T       tick 0 0 0
        Q 3 0   granted
     """, "0:2/2:1(2)"),
    ("two holds of one processor, a fellow behind each", FELLOWS, """
        Q 3 1   granted         # link: 3/3
        Q 4 1   waits 1 5       # 3 + 2 x 1
        2 T     tick 0 0 0      # link: 1/1
        Q 1 0   granted         # bus: 1/1
        Q 2 0   waits 1 3       # 1 + 2 x 1
        T       tick 3 3 2      # 1 and 3 are above 0: sent back alone; to tags 2 and 4
     """, "0:1/1:0(1) 1:3/3:0(3)"),
    # the holder of q has its last 16 - q ticks when it is asked for, so all end in the same tick
    ("all sixteen in one tick", ALL, "\n".join(
        f"Q {q} {q} granted \n Q {16 + q} {q} waits 0 {16 - q} \n T tick {'0 0 0' if q < 15 else '65535 65535 16'}" for q in range(16)),
     " ".join(f"{q}:{16 - q}/{16 - q}:1({16 + q})" for q in range(16))),
]

WIDTHS = [
    ("63 tasks in a queue", CROWD, "Q 0 0 granted \n" + "\n".join(f"Q {u} 0 waits {u} {2 * u + 1}" for u in range(1, 63)) + """
        Q 255 0 waits 0 1
        T       tick 1 1 1      # 1 is above 0; to tag 255
        T       tick 1 1 1      # to tag 1
        T       tick 1 1 1      # sent back alone; to tag 2
        R 2 0   to 3            # 1/1
        Q 0 0   waits 60 121
     """, f"0:1/1:0({' '.join(map(str, range(3, 63)))} 0)"),
    ("one of 63 in a queue gives up and asks again", CROWD, "Q 0 0 granted \n" + "\n".join(f"Q {u} 0 waits {u} {2 * u + 1}" for u in range(1, 63)) + """
        W 31 0  left
        Q 31 0  waits 62 125    # 62 + 63 x 1
     """, f"0:1/1:0({' '.join(str(u) for u in range(63) if u != 31)} 31)"),
    # before u of them stand 62,000 + 61,000 + .. ticks, in units of 1,000 the sum of 62 - j over j below u
    ("long hold times and limits", LONG, "Q 0 0 granted \n"
     + "\n".join(f"Q {u} 0 waits {u} {1000 * (62 * u - u * (u - 1) // 2 + u + 1)}" for u in range(1, 61)) + """
        Q 61 0  waits 61 2014000
        Q 255 0 waits 0 62000
        T       tick 0 0 0
        R 0 0   to 1            # 61,000 is not above 61,999
        T       tick 0 0 0
     """, f"0:60999/61998:0({' '.join(map(str, range(1, 62)))})1(62)"),
]

REFUSALS = [
    ("requests refused 11 to 14", PAPER, """
        Q 0 0   refused 11
        Q 6 0   refused 11
        Q 255 0 refused 11
        Q 6 3   refused 11      # before 12
        Q 1 3   refused 12
        Q 1 16  refused 12
        Q 1 255 refused 12
        Q 1 1   refused 13
        Q 5 0   refused 13
        Q 11 2  refused 13      # before 14
        Q 1 2   refused 14
        Q 5 2   refused 14
     """, "nobody"),
    ("requests of what no other processor uses", SILENT, """
        Q 1 0   refused 14
        Q 1 1   refused 13
        Q 2 0   refused 13
        Q 2 2   refused 12
        R 1 0   refused 16
        W 1 0   refused 23
        W 2 0   refused 23
     """, "nobody"),
    ("requests refused 15", PAPER, """
        Q 2 0   granted
        Q 2 0   refused 15      # holds it
        Q 1 0   waits 1 17
        Q 1 0   refused 15      # waits for it
        Q 11 1  granted
        Q 11 0  refused 15      # holds another
        Q 12 1  waits 1 22
        Q 12 0  refused 15      # waits for another
        Q 2 1   refused 13      # before 15
        Q 1 2   refused 14      # before 15
        Q 1 3   refused 12      # before 15
     """, "0:3/10:0(1 0) 1:2/4:1(5 6)"),
    ("releases refused", PAPER, """
        Q 2 0   granted
        Q 1 0   waits 1 17
        Q 11 0  waits 0 10
        R 6 0   refused 11
        R 6 3   refused 11      # before 12
        R 2 3   refused 12
        R 2 255 refused 12
        R 1 0   refused 16      # waits behind the holder
        R 11 0  refused 16      # first of a processor that is not head
        R 12 0  refused 16      # not in line
        R 11 1  refused 16      # waits for another
        R 2 1   refused 16      # holds another, and has no section on this
        R 3 0   refused 16      # no section on it
        R 3 1   refused 16      # free
        R 2 2   refused 16      # local
        R 1 2   refused 16      # local, with a section on it
        R 2 0   to 1            # 2/10
        R 2 0   refused 16      # no more
     """, "0:2/10:0(0)1(5)"),
    ("a release after a cut", PAIR, """
        Q 1 0   granted
        Q 2 0   waits 1 7
        2 T     tick 0 0 0
        T       tick 1 1 1
        R 1 0   refused 16
        Q 1 0   waits 1 7       # 3 + 2 x 2
        R 1 0   refused 16
        R 2 0   to 1
     """, "0:3/3:0(0)"),
    ("give-ups refused", PAPER, """
        W 1 0   refused 23      # nobody is in line
        Q 2 0   granted         # r1: 3/10
        Q 1 0   waits 1 17
        Q 11 0  waits 0 10
        Q 3 1   granted         # r2: 10/10
        Q 12 1  waits 0 10
        W 6 0   refused 11
        W 6 3   refused 11      # before 12
        W 0 255 refused 11
        W 1 3   refused 12      # before 23
        W 2 16  refused 12
        W 11 255 refused 12
        W 2 0   refused 23      # holds it
        W 3 1   refused 23      # holds it
        W 4 0   refused 23      # not in line
        W 13 0  refused 23      # not in line, of a processor that is
        W 11 1  refused 23      # waits for another
        W 12 0  refused 23      # waits for another
        W 2 1   refused 23      # holds another, and has no section on this
        W 1 1   refused 23      # waits for another, and has no section on this
        W 5 0   refused 23      # not in line, and no section on it
        W 1 2   refused 23      # local, with a section on it
        W 5 2   refused 23      # local, and not in line
        W 11 2  refused 23      # local, with no section on it
        W 11 0  left
        W 11 0  refused 23      # no more
        W 1 0   left
     """, "0:3/10:0(1) 1:10/10:0(2)1(6)"),
    ("a give-up after a cut, and after a grant", PAIR, """
        Q 1 0   granted         # 3/3
        Q 3 0   waits 0 3
        2 T     tick 0 0 0
        T       tick 1 1 1      # to tag 3
        W 1 0   refused 23
        W 3 0   refused 23
     """, "0:2/2:1(2)"),
    ("three bytes that are no call", LISTING, """
        Q 20 0  granted         # 3/3
        X 10 0  none
        X 0 0   none
        q 10 0  none
        w 10 0  none
        T 0 1   none
        T 1 0   none
        T 10 0  none
        T       tick 0 0 0
     """, "0:2/2:1(1)"),
]

LISTS = AGREED + TURNS + PLACES + GIVE_UPS + WORDS + WIDTHS + REFUSALS

# ---- the records ----


def calls_of(text):
    """The calls of a text, each with its answer."""
    found = []
    for row in text.splitlines():
        words = row.split("#")[0].split()
        if words:
            often = int(words.pop(0)) if words[0].isdigit() else 1
            letter, tag, q = words.pop(0), 0, 0
            if words and words[0].isdigit():
                tag, q = int(words.pop(0)), int(words.pop(0))
            found += [((letter, tag, q), " ".join(words))] * often
    return found


def body(content, *parts):
    """The record's body: a plan file, its length before it, and what stands behind it."""
    return word(len(content)) + content + b"".join(parts)


def call_bytes(letter, tag, q):
    return letter.encode("ascii") + bytes([tag, q])


def told(plan, calls):
    """What the model answers to calls from a fresh machine on."""
    machine = model.Machine(plan)
    answers = [machine.call(*call) for call in calls]
    return "; ".join(["start"] + answers) + f" | {machine.shown()} run"


def list_case(label, plan, text, state, rest=b""):
    calls = calls_of(text)
    result = "; ".join(["start"] + [answer for _, answer in calls]) + f" | {state} run"
    agree(label, result, told(plan, [call for call, _ in calls]))
    return b"M", f"calls, {label}", body(file(plan), *[call_bytes(*call) for call, _ in calls], rest), result


def cases():
    """Each case as its kind, its label, its record's body and its result."""
    one = "Q 20 0 granted"
    found = [list_case(*row) for row in LISTS]
    found.append(list_case("one byte left over", LISTING, one, "0:3/3:1(1)", b"T"))
    found.append(list_case("two bytes left over", LISTING, one, "0:3/3:1(1)", b"T\0"))
    found.append(list_case("two bytes alone", LISTING, "", "nobody", b"Q\x14"))
    return found
