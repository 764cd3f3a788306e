#!/usr/bin/env python3
"""The answers of crates/grid, made from documents 01 and 02 alone: a plain model of its table and steps, which shares nothing with the
crates. `second/grid.py` prints what crates/grid/stdout must hold: the lines of profile T and behind them those of D; with a word, `T` or
`D`, those of one.

What the grid does in D: each start of STARTS_D, its steps and then TRIES_D, each try on the table as it was then; the walks, tries and
tables that are not sound of `grid_d`; and what building answers to counts of D. A step's line has its answer, ticket, number of grants,
and unit and core of each."""
import copy
import sys


class Table:
    def __init__(self, cores, first, second, counter):
        self.n, self.a, self.b, self.counter = cores, first, second, counter
        self.core = [{"state": "idle"} for _ in range(cores)]
        # per unit and core: None, or [ticket, flag]
        self.reg = [[None] * cores for _ in range(first + second)]
        # per unit: ticket, core, whether there is one, whether the unit is held
        self.next = [next_in_line(regs) for regs in self.reg]


def compare(a, b):
    """What a is, seen from b."""
    d = (a - b) % 65536
    return "same" if d == 0 else "younger" if d < 32768 else "opposite" if d == 32768 else "older"


def oldest(tickets):
    """The ticket older than all others, of a set that lies within half the circle."""
    for t in tickets:
        if all(u == t or compare(t, u) == "older" for u in tickets):
            return t
    return None


def next_in_line(regs):
    """The register without a flag that is older than all others without."""
    line = [(r[0], k) for k, r in enumerate(regs) if r and not r[1]]
    best = [(n, k) for n, k in line if all(j == k or compare(n, m) == "older" for m, j in line)]
    return (*(best or [(0, 0)])[0], bool(best), any(r and r[1] for r in regs))


def settle(t):
    grants = []
    for u, regs in enumerate(t.reg):
        standing = {r[0]: k for k, r in enumerate(regs) if r}
        if standing and not any(r and r[1] for r in regs):
            k = standing[oldest(list(standing))]
            regs[k][1] = True
            grants.append((u, k))
        t.next[u] = next_in_line(regs)
    return grants


def give_up(t, k):
    for regs in t.reg:
        regs[k] = None


WAITING, SECOND = "waiting", "waiting second"
HOLDING, BOTH = "holding", "holding both"


def step(t, letter, k, u=None):
    """The answer, ticket and grants; the table changes in place. A table is sound here if its next in line are, and nobody is away as in
    D."""
    if t.next != [next_in_line(regs) for regs in t.reg] or any(c["state"] in AWAY_D for c in t.core):
        return 16, 0, []
    if k >= t.n:
        return 10, 0, []
    if letter in "RN" and u >= t.a + t.b:
        return 11, 0, []
    c = t.core[k]
    s = c["state"]
    allowed = {
        "R": ["idle"], "N": [HOLDING], "P": [WAITING, SECOND], "I": [WAITING, SECOND], "C": ["away"], "L": [HOLDING, BOTH],
    }[letter]
    if letter == "I" and s in (HOLDING, BOTH):
        return 14, 0, []
    if s not in allowed:
        return 12, 0, []
    if letter == "N" and (u < t.a or c["first"] >= t.a):
        return 13, 0, []
    if letter == "R":
        if any(d["state"] != "idle" and compare(d["own"], t.counter) in ("younger", "opposite") for d in t.core):
            return 15, 0, []
        n = t.counter
        t.counter = (t.counter + 1) % 65536
        t.core[k] = {"state": WAITING, "own": n, "carried": n, "first": u}
        t.reg[u][k] = [n, False]
        return 0, n, settle(t)
    if letter == "N":
        c.update(state=SECOND, second=u)
        t.reg[u][k] = [c["own"], False]
        return 0, c["carried"], settle(t)
    if letter == "P":
        at = c["first"] if s == WAITING else c["second"]
        if t.reg[at][k][1]:
            c["state"] = HOLDING if s == WAITING else BOTH
            return 1, c["carried"], settle(t)
        if s == SECOND:
            ticket, _, waits, _ = t.next[c["first"]]
            c["carried"] = oldest([c["own"], ticket] if waits else [c["own"]])
            t.reg[at][k][0] = c["carried"]
        return 2, c["carried"], settle(t)
    if letter == "I":
        give_up(t, k)
        c.update(state="away", carried=c["own"])
        return 0, c["carried"], settle(t)
    if letter == "C":
        c["state"] = WAITING
        t.reg[c["first"]][k] = [c["own"], False]
        return 0, c["carried"], settle(t)
    own = c["own"]
    give_up(t, k)
    t.core[k] = {"state": "idle"}
    return 0, own, settle(t)


# The states of core 0 that the grid starts from, each by the steps that lead there on a table of three cores, two first-class and
# two second-class units, with the counter at 65,534, so that tickets wrap on the way.
STARTS = [
    ("idle", []),
    ("waiting, flag clear", [("R", 1, 0), ("R", 0, 0)]),
    ("waiting, flag set and not polled", [("R", 0, 0), ("R", 1, 0)]),
    ("holding a first-class unit", [("R", 0, 0), ("R", 1, 0), ("P", 0)]),
    ("holding a second-class unit", [("R", 0, 2), ("R", 1, 2), ("P", 0)]),
    ("waiting at a second, flag clear", [("R", 1, 2), ("R", 0, 0), ("P", 0), ("R", 2, 0), ("N", 0, 2)]),
    ("the same with an older ticket to inherit", [("R", 2, 0), ("R", 1, 2), ("R", 0, 0), ("I", 2), ("P", 0), ("N", 0, 2), ("C", 2)]),
    ("the same after it inherited and the giver was interrupted",
     [("R", 2, 0), ("R", 1, 2), ("R", 0, 0), ("I", 2), ("P", 0), ("N", 0, 2), ("C", 2), ("P", 0), ("I", 2)]),
    ("waiting at a second, flag set and not polled", [("R", 0, 0), ("P", 0), ("R", 1, 0), ("N", 0, 2)]),
    ("holding both", [("R", 0, 0), ("P", 0), ("R", 1, 0), ("N", 0, 2), ("R", 2, 2), ("P", 0)]),
    ("away", [("R", 1, 0), ("R", 0, 0), ("I", 0)]),
]
TRIES = [("R", 0, 0), ("R", 0, 3), ("R", 0, 4), ("N", 0, 0), ("N", 0, 3), ("N", 0, 4), ("P", 0), ("I", 0), ("C", 0), ("L", 0),
         ("R", 3, 4), ("N", 3, 0), ("P", 3), ("I", 3), ("C", 3), ("L", 3)]


def line(answer, ticket, grants):
    return "\t".join(map(str, [answer, ticket, len(grants)] + [x for g in grants for x in g]))


# Profile D (document 02, wish 10): who is away is "marked" and stands in line, or "dropped" and has no ticket.
AWAY_D = ("marked", "dropped")


def sound_d(t):
    """Sound in D: each core stands where its state says and nowhere else, with its own ticket, and each unit shows its next in line."""
    for k, c in enumerate(t.core):
        standing = c["state"] in (WAITING, HOLDING, "marked")
        if c["state"] not in ("idle", WAITING, HOLDING, *AWAY_D) or ("own" in c) != standing:
            return False
        for u, regs in enumerate(t.reg):
            if not standing or c["first"] != u:
                if regs[k]:
                    return False
            elif not regs[k] or regs[k][0] != c["own"] or regs[k][1] and c["state"] == "marked" or not regs[k][1] and c["state"] == HOLDING:
                return False
    one_flag = all(sum(bool(r and r[1]) for r in regs) == any(regs) for regs in t.reg)
    return t.b == 0 and one_flag and t.next == [next_in_line(regs) for regs in t.reg]


def settle_d(t):
    grants = []
    for u, regs in enumerate(t.reg):
        while any(regs) and not any(r and r[1] for r in regs):
            standing = {r[0]: k for k, r in enumerate(regs) if r}
            k = standing[oldest(list(standing))]
            if t.core[k]["state"] == "marked":
                regs[k] = None
                t.core[k] = {"state": "dropped", "first": u}
            else:
                regs[k][1] = True
                grants.append((u, k))
        t.next[u] = next_in_line(regs)
    return grants


def join_d(t, k, u):
    """Takes a new ticket, for R and for C of a dropped core."""
    if any(compare(c["own"], t.counter) in ("younger", "opposite") for c in t.core if "own" in c):
        return 15, 0, []
    n = t.counter
    t.counter = (t.counter + 1) % 65536
    t.core[k] = {"state": WAITING, "own": n, "first": u}
    t.reg[u][k] = [n, False]
    return 0, n, settle_d(t)


def step_d(t, letter, k, u=None):
    """As `step`, in profile D."""
    if not sound_d(t):
        return 16, 0, []
    if k >= t.n:
        return 10, 0, []
    if letter in "RN" and u >= t.a:
        return 11, 0, []
    c = t.core[k]
    s = c["state"]
    if letter == "I" and s == HOLDING:
        return 14, 0, []
    if s not in {"R": ["idle"], "N": [HOLDING], "P": [WAITING], "I": [WAITING], "C": AWAY_D, "L": [HOLDING]}[letter]:
        return 12, 0, []
    if letter == "N":
        # every unit is of the first class
        return 13, 0, []
    if letter == "R":
        return join_d(t, k, u)
    if s == "dropped":
        return join_d(t, k, c["first"])
    ticket = c["own"]
    if letter == "C":
        c["state"] = WAITING
        return 0, ticket, []
    flag = t.reg[c["first"]][k][1]
    if letter == "P":
        c["state"] = HOLDING if flag else WAITING
        return 1 if flag else 2, ticket, []
    if letter == "I" and not flag:
        c["state"] = "marked"
        return 0, ticket, []
    t.reg[c["first"]][k] = None
    t.core[k] = {"state": "dropped", "first": c["first"]} if letter == "I" else {"state": "idle"}
    return 0, ticket, settle_d(t)


# On a table of four cores and two units, with the counter at 65,534.
STARTS_D = [
    ("idle", []),
    ("waiting, flag clear", [("R", 1, 0), ("R", 0, 0)]),
    ("waiting, flag set and not polled", [("R", 0, 0), ("R", 1, 0)]),
    ("holding", [("R", 0, 0), ("R", 1, 0), ("P", 0)]),
    ("away in line", [("R", 1, 0), ("R", 0, 0), ("I", 0)]),
    ("away in line, before another", [("R", 1, 0), ("R", 0, 0), ("I", 0), ("R", 2, 0)]),
    ("dropped as its turn came", [("R", 1, 0), ("R", 0, 0), ("I", 0), ("R", 2, 0), ("P", 1), ("L", 1)]),
    ("dropped as its turn came, and the unit is free", [("R", 1, 0), ("R", 0, 0), ("I", 0), ("P", 1), ("L", 1)]),
    ("dropped, having had the flag", [("R", 0, 0), ("R", 1, 0), ("I", 0)]),
    ("dropped, having had the flag, and the unit is free", [("R", 0, 1), ("I", 0)]),
    ("holding, before one that is away and one that is not", [("R", 0, 0), ("R", 1, 0), ("R", 2, 0), ("I", 1), ("P", 0)]),
    ("holding, before two that are away and one that is not",
     [("R", 0, 0), ("R", 1, 0), ("R", 2, 0), ("R", 3, 0), ("I", 1), ("I", 2), ("P", 0)]),
    ("flag set and not polled, before the same", [("R", 0, 0), ("R", 1, 0), ("R", 2, 0), ("R", 3, 0), ("I", 1), ("I", 2)]),
    ("holding, before three that are away", [("R", 0, 0), ("R", 1, 0), ("R", 2, 0), ("R", 3, 0), ("I", 3), ("I", 2), ("I", 1), ("P", 0)]),
    ("holding, before one that is not away and one that is", [("R", 0, 0), ("R", 1, 0), ("R", 2, 0), ("I", 2), ("P", 0)]),
    ("back with its ticket", [("R", 1, 0), ("R", 0, 0), ("I", 0), ("R", 2, 0), ("C", 0)]),
    ("back with a new ticket", [("R", 0, 0), ("R", 1, 0), ("I", 0), ("C", 0)]),
]
TRIES_D = [("R", 0, 0), ("R", 0, 1), ("R", 0, 2), ("N", 0, 0), ("N", 0, 1), ("N", 0, 2), ("P", 0), ("I", 0), ("C", 0), ("L", 0),
           ("P", 1), ("I", 1), ("C", 1), ("L", 1), ("C", 2), ("R", 4, 2), ("N", 4, 0), ("P", 4), ("I", 4), ("C", 4), ("L", 4)]


def walk(t, steps):
    """These steps of D, one after the other on the table, each with its line."""
    for s in steps:
        print(line(*step_d(t, *s)))
    return t


def each(t, steps):
    """Each of these steps of D on the same table, with its line."""
    for s in steps:
        print(line(*step_d(copy.deepcopy(t), *s)))


def passed_over(t):
    t.next[0] = (0, 2, True, True)


def flag_moved(t):
    t.reg[0][1][1], t.reg[0][0][1] = False, True
    t.next[0] = next_in_line(t.reg[0])


def taken_out(t):
    t.reg[0][0] = None
    t.next[0] = next_in_line(t.reg[0])


# Tables of D that are not sound: where they start from, and what is changed in them.
UNSOUND_D = [
    # core 2 is next in line at unit 0, with ticket 0, though core 0 is older
    ("away in line, before another", passed_over),
    # core 0 has core 1's flag, and core 1 is next in line
    ("away in line", flag_moved),
    # core 0 has no register, and nobody is next in line
    ("away in line", taken_out),
    # core 0 has ticket 65,533, which it also carries
    ("dropped, having had the flag", lambda t: t.core[0].update(own=65533)),
    # core 0 is away as in T, with the same ticket
    ("dropped, having had the flag", lambda t: t.core[0].update(state="away", own=65533)),
    # one second-class unit
    ("idle", lambda t: setattr(t, "b", 1)),
]
LETTERS_D = [("R", 0, 0), ("N", 0, 1), ("P", 0), ("I", 0), ("C", 0), ("L", 0)]


def grid_d():
    for name, steps in STARTS_D:
        each(walk(Table(4, 2, 0, 65534), steps), TRIES_D)
    # two dropped in one release and a third granted; then they come back, one is dropped again
    walk(Table(4, 2, 0, 10), [("R", 0, 0), ("P", 0), ("R", 1, 0), ("R", 2, 0), ("R", 3, 0), ("I", 1), ("I", 2), ("L", 0), ("C", 2), ("C", 1),
                              ("P", 3), ("I", 2), ("L", 3), ("P", 1)])
    # core 3 is passed as often as can be, across the wrap
    walk(Table(4, 1, 0, 65534), [("R", 0, 0), ("R", 1, 0), ("R", 2, 0), ("I", 1), ("I", 2), ("R", 3, 0), ("C", 2), ("C", 1), ("I", 0),
                                 ("C", 0), ("P", 1), ("L", 1), ("P", 3), ("P", 2), ("L", 2), ("P", 3)])
    # the last cores and units of the largest table, and the core and the unit past them
    walk(Table(32, 8, 0, 65534), [("R", 31, 7), ("R", 30, 7), ("R", 9, 7), ("I", 30), ("P", 31), ("L", 31), ("C", 30), ("R", 32, 7),
                                  ("R", 10, 8), ("I", 9), ("C", 9), ("P", 30), ("L", 30)])
    # ticket 0 live, core 1 dropped from unit 1, and the counter set to 32,767 or 32,768: R of core 2, C of cores 1 and 2
    for counter in 32767, 32768:
        t = walk(Table(3, 2, 0, 0), [("R", 0, 0), ("R", 1, 1), ("I", 1)])
        t.counter = counter
        each(t, [("R", 2, 1), ("C", 1), ("C", 2)])
    # core 0 dropped, having had ticket 0, which is not live: the counter set to 32,768
    t = walk(Table(3, 2, 0, 0), [("R", 0, 0), ("I", 0)])
    t.counter = 32768
    each(t, [("R", 2, 1), ("C", 0)])
    for name, change in UNSOUND_D:
        t = walk(Table(4, 2, 0, 65534), dict(STARTS_D)[name])
        change(t)
        each(t, LETTERS_D)
    # not sound in T: core 0 dropped from unit 0, and core 0 marked without a register
    for state in AWAY_D:
        t = Table(3, 2, 2, 65534)
        t.core[0] = {"state": state, "first": 0}
        for s in ("R", 0, 0), ("N", 0, 2), ("P", 0), ("I", 0), ("C", 0), ("L", 0):
            print(line(*step(copy.deepcopy(t), *s)))
    # counts at and past the ends of D's ranges
    for cores, first, second in (1, 1, 0), (32, 8, 0), (0, 1, 0), (33, 1, 0), (1, 0, 0), (1, 9, 0), (1, 1, 1), (32, 8, 8), (1, 1, 9):
        print(0 if 1 <= cores <= 32 and 1 <= first <= 8 and second == 0 else 20)


def grid_t():
    for name, steps in STARTS:
        t = Table(3, 2, 2, 65534)
        for s in steps:
            print(line(*step(t, *s)))
        for s in TRIES:
            print(line(*step(copy.deepcopy(t), *s)))
    # document 01's run
    t = Table(3, 1, 1, 65535)
    for s in [("R", 0, 1), ("P", 0), ("R", 2, 0), ("R", 1, 0), ("I", 2), ("P", 1), ("N", 1, 1), ("C", 2), ("P", 1), ("I", 0), ("L", 0),
              ("P", 1), ("L", 1)]:
        print(line(*step(t, *s)))
    # the last cores and units of the largest table, and the core past them
    t = Table(32, 8, 8, 65534)
    for s in [("R", 31, 7), ("R", 9, 15), ("R", 30, 7), ("P", 31), ("N", 31, 15), ("R", 10, 15), ("P", 31), ("I", 30), ("P", 9),
              ("C", 30), ("R", 32, 0), ("P", 32), ("L", 9), ("P", 31), ("L", 31), ("P", 10), ("P", 30), ("I", 10), ("C", 10), ("L", 30)]:
        print(line(*step(t, *s)))
    # ticket 0 live, and the counter 32,767 or 32,768
    for counter in 32767, 32768:
        t = Table(3, 2, 2, 0)
        step(t, "R", 0, 0)
        t.counter = counter
        print(line(*step(t, "R", 1, 0)))
    # tables that are not sound: a blank register shows a ticket, which has no place in this model; and next in line at unit 0 is
    # nobody's ticket, nobody though core 0 waits, and the core that has the flag
    for _ in "RNPICL":
        print(line(16, 0, []))
    for name, shown in ("idle", (0, 0, True, False)), (STARTS[1][0], (0, 0, False, True)), (STARTS[2][0], (65534, 0, True, True)):
        t = Table(3, 2, 2, 65534)
        for s in dict(STARTS)[name]:
            print(line(*step(t, *s)))
        t.next[0] = shown
        for s in ("R", 0, 0), ("N", 0, 2), ("P", 0), ("I", 0), ("C", 0), ("L", 0):
            print(line(*step(copy.deepcopy(t), *s)))
    # counts at and past the ends of their ranges
    for cores, first, second in (1, 1, 0), (32, 8, 8), (0, 1, 0), (9, 1, 0), (33, 1, 0), (1, 0, 0), (1, 9, 0), (1, 1, 9):
        print(0 if 1 <= cores <= 32 and 1 <= first <= 8 and second <= 8 else 20)


def main():
    for profile in sys.argv[1] if len(sys.argv) > 1 else "TD":
        {"T": grid_t, "D": grid_d}[profile]()


if __name__ == "__main__":
    main()
