#!/usr/bin/env python3
"""A few cases of each letter for crates/cases and their answers, written out from documents 01 and 02. `second/cases.py cases` prints what
crates/cases/stdin must hold, `second/cases.py answers` its stdout: the cases of profile T and behind them those of D; with a second word,
`T` or `D`, those of one. crates/cases/src/main.rt says what a case is. s, m, i, o and h are S, M, I, O and H of profile D, and their answers
have the small letter; in all tables a core's state is 5 for away, 6 for marked and from 7 on for dropped."""
import struct
import sys

RUN = "T 3 1 1 65535; R 0 1; P 0; R 2 0; R 1 0; I 2; P 1; N 1 1; C 2; P 1; I 0; L 0; P 1; L 1"
COLUMNS = (
    "E 3 1 1 65535; 1 0 65535 1 1 0; 2 1 65535 0; 3 0 0 1 0 2; 4 0 1 0; 5 0 0 1 0 1; 6 1 1 0; 7 0 1 0; 8 0 0 0; 9 2 0 0; "
    "10 14 0 0; 11 0 65535 1 1 1; 12 1 0 0; 13 0 1 1 0 2"
)
# the same run as a log, and one in which a release gives two grants
LOG = (
    "T 3 1 1 65535; R 0 1 0 65535 1 1 0; P 0 1 65535 0; R 2 0 0 0 1 0 2; R 1 0 0 1 0; I 2 0 0 1 0 1; P 1 1 1 0; N 1 1 0 1 0; C 2 0 0 0; "
    "P 1 2 0 0; I 0 14 0 0; L 0 0 65535 1 1 1; P 1 1 0 0; L 1 0 1 1 0 2"
)
TWO = "T 3 1 1 5; R 0 0 0 5 1 0 0; P 0 1 5 0; N 0 1 0 5 1 1 0; P 0 1 5 0; R 1 0 0 6 0; R 2 1 0 7 0; L 0 0 5 2 0 1 1 2"
CORES = 32
cases, answers = [], []


def text(lines):
    return "".join(line.strip().replace(" ", "\t") + "\n" for line in lines.split(";")).encode()


def add(case, answer):
    cases.append(case)
    answers.append(answer)


def script(bytes_, answer):
    add(b"T" + struct.pack("<H", len(bytes_)) + bytes_, answer + b"--\n")


def lent(room, bytes_, number, columns):
    """One call with so many bytes lent: the stop's number, and the lines that fit whole."""
    wrote = 0
    for line in columns.splitlines(keepends=True):
        if wrote + len(line) > room:
            number = 23
            break
        wrote += len(line)
    add(b"B" + struct.pack("<HH", room, len(bytes_)) + bytes_, b"B\t%d\t%d\n" % (number, wrote))


def log(bytes_, answer):
    add(b"G" + struct.pack("<H", len(bytes_)) + bytes_, text("G " + answer))


def logs():
    """Logs: 0 and the steps; 40, line and field; or another stop's number and line."""
    log(text(LOG), "0 13")
    log(text(TWO), "0 7")
    log(b"T\t8\t8\t8\t65535\n", "0 0")
    log(b"T\t32\t8\t8\t65535\n", "0 0")
    # refused steps agree like others
    log(text("T 1 1 0 7; P 0 12 0 0; R 1 0 10 0 0; N 0 65535 11 0 0; R 0 0 0 7 1 0 0"), "0 4")
    # the header: 15 bytes are looked at, whatever comes after them
    log(b"", "22 1")
    log(b"T\t32\t8\t8\t65535", "22 1")
    log(b"T\t32\t8\t8\t655350", "20 1")
    log(b"T\t3\t1\t1\t00000001\n" + text("P 0 12 0 0"), "20 1")
    log(b"\n", "20 1")
    log(text("T 33 1 1 0; P 0 12 0 0"), "20 1")
    log(text("T 32 1 1 0; P 31 12 0 0; P 32 10 0 0"), "0 2")
    log(text("T 3 1 1 0 0; P 0 12 0 0"), "20 1")
    log(text("E 3 1 1 0; P 0 12 0 0"), "20 1")
    log(text("P 0 12 0 0"), "20 1")
    # each field of the release's line, another number than the one given
    lines = TWO.rpartition("; ")[0] + "; "
    for last, answer in [
        ("L 0 1 5 2 0 1 1 2", "40 8 3"),
        ("L 0 0 6 2 0 1 1 2", "40 8 4"),
        ("L 0 0 5 1 0 1 1 2", "40 8 5"),
        ("L 0 0 5 2 1 1 1 2", "40 8 6"),
        ("L 0 0 5 2 0 2 1 2", "40 8 7"),
        ("L 0 0 5 2 0 1 0 2", "40 8 8"),
        ("L 0 0 5 2 0 1 1 1", "40 8 9"),
        # the first that is off, though others are as well
        ("L 0 0 5 2 1 2 0 1", "40 8 6"),
        ("L 0 12 0 0", "40 8 3"),
        # missing, and too many
        ("L 0", "40 8 3"),
        ("L 0 0", "40 8 4"),
        ("L 0 0 5", "40 8 5"),
        ("L 0 0 5 2", "40 8 6"),
        ("L 0 0 5 2 0", "40 8 7"),
        ("L 0 0 5 2 0 1", "40 8 8"),
        ("L 0 0 5 2 0 1 1", "40 8 9"),
        ("L 0 0 5 2 0 1 1 2 0", "40 8 10"),
        ("L 0 0 5 2 0 1 1 2 0 3", "40 8 10"),
        ("L 0 0 5 3 0 1 1 2 0 3", "40 8 5"),
        # another step, by what that one gives: core 1 waits, and core 0 holds both
        ("L 1 0 5 2 0 1 1 2", "40 8 3"),
        ("L 1 12 0 0", "0 7"),
        ("P 1 2 6 0", "0 7"),
        ("P 0 12 0 0", "0 7"),
        ("I 0 14 0 0; L 0 0 5 2 0 1 1 2", "0 8"),
        ("C 0 12 0 0 0", "40 8 6"),
        # not a step, or not a number
        ("Q 0 0 5 2 0 1 1 2", "21 8"),
        ("T 3 1 1 5", "21 8"),
        ("LL 0 0 5 2 0 1 1 2", "21 8"),
        ("L", "21 8"),
        ("R 0", "21 8"),
        ("N 0", "21 8"),
        ("L 00 0 5 2 0 1 1 2", "21 8"),
        ("L 0 0 05 2 0 1 1 2", "21 8"),
        ("L 0 0 65536 2 0 1 1 2", "21 8"),
        ("L 0 0 5 2 0 1 1 +2", "21 8"),
        ("L 0 0 5 2 0 1 1 2 x", "21 8"),
        ("L 0 1 1 1 1 x", "21 8"),
        ("L 0  0 5 2 0 1 1 2", "21 8"),
        ("L 65536 10 0 0", "21 8"),
        ("L 65535 10 0 0", "0 7"),
    ]:
        log(text(lines + last), answer)
    log(text(TWO)[:-1] + b"\t\n", "21 8")
    log(text(TWO)[:-1] + b"\r\n", "21 8")
    log(text(TWO) + b"\n", "21 9")
    # R and N have one field more
    for last, answer in [
        ("R 0 0", "40 2 4"),
        ("R 0 0 1 5 1 0 0", "40 2 4"),
        ("R 0 0 0 65535 1 0 0", "40 2 5"),
        ("R 0 0 0 5 0", "40 2 6"),
        ("R 0 0 0 5 1 1 0", "40 2 7"),
        ("R 0 0 0 5 1 0", "40 2 8"),
        ("R 0 0 0 5 1 0 0 0", "40 2 9"),
        ("R 0 1 0 5 1 1 0", "0 1"),
        ("N 0 1 0 5 1 1 0", "40 2 4"),
        ("N 0 1 12 0 0 0", "40 2 7"),
        ("P 0 12 0 0", "0 1"),
    ]:
        log(text("T 3 1 1 5; " + last), answer)
    # a line doubled, and two in the other order
    log(text("T 3 1 1 5; R 0 0 0 5 1 0 0; R 0 0 0 5 1 0 0"), "40 3 4")
    log(text("T 3 1 1 5; P 0 1 5 0; R 0 0 0 5 1 0 0"), "40 2 3")
    # the end missing: fewer than 62 bytes, or 62 and more without a line end
    head = text("T 1 1 0 0; P 0 12 0 0")
    log(text(LOG)[:-1], "22 14")
    log(head + b"P", "22 3")
    log(head + b"P\t0\t12\t0\t0", "22 3")
    log(head + b"?" * 61, "22 3")
    log(head + b"?" * 62, "21 3")
    log(head + b"?" * 61 + b"\n", "21 3")
    log(head + b"?" * 62 + b"\n", "21 3")
    # lines of 61, 62 and 63 bytes, all their fields numbers
    log(head + b"P\t0\t12\t0\t0" + b"\t0" * 25 + b"\n", "40 3 6")
    log(head + b"P\t0\t12\t0\t0" + b"\t0" * 24 + b"\t10" + b"\n", "40 3 6")
    log(head + b"P\t0\t12\t0\t0" + b"\t0" * 26 + b"\n", "21 3")
    log(head + b"P\t0\t12\t0\t0" + b"\t0" * 25, "22 3")
    log(head + b"P\t0\t12\t0\t0" + b"\t0" * 26, "21 3")
    log(head + b"N" + b"\t65535" * 10 + b"\n", "40 3 4")
    log(head + b"N" + b"\t65535" * 10 + b"\t\n", "21 3")


def register(ticket, valid, flag):
    return struct.pack("<HBB", ticket, valid, flag)


def older(a, b):
    return (a - b) % 65536 > 32768


def next_of(line):
    """Ticket, core, valid and held of the next in line among registers: the one without a flag that is older than all others without."""
    waiting = [(t, k) for k, (t, valid, flag) in enumerate(line) if valid and not flag]
    oldest = [(t, k, 1) for t, k in waiting if all(j == k or older(t, u) for u, j in waiting)]
    return *(oldest or [(0, 0, 0)])[0], int(any(flag for _, _, flag in line))


def units(shown, n=CORES):
    """Sixteen units: their registers, and the next in line of the first n of them where `shown` has no other for (unit, "next")."""
    for u in range(16):
        line = [shown.get((u, k), (0, 0, 0)) for k in range(CORES)]
        yield line, shown.get((u, "next"), next_of(line[:n]))


def packed(shown, n=CORES):
    return b"".join(b"".join(register(*r) for r in line) + struct.pack("<HHBB", *after) for line, after in units(shown, n))


def whole(counts, counter, cores, shown):
    head = struct.pack("<4H", *counts, counter)
    body = b"".join(struct.pack("<4HB", *cores.get(k, (0, 0, 0, 0, 0))) for k in range(CORES))
    return head + body + packed(shown)


def table(counts, counter, cores, shown, sound, case=b"S"):
    add(case + whole(counts, counter, cores, shown), case + b"\t%d\n" % sound)


def method(before, step, answer, after=None, head=b"M"):
    """A step by its letter, or the letter's number, on a table, which it leaves as it was where no other is given."""
    letter, core, unit = (step.split() + ["0"])[:3]
    number = "RNPICL".index(letter) if letter in "RNPICL" else int(letter)
    counts, counter, cores, shown = after or before
    fields = [*map(int, answer.split()), *counts, counter]
    for k in range(CORES):
        fields += cores.get(k, (0, 0, 0, 0, 0))
    for line, after in units(shown):
        fields += [n for r in line for n in r] + [*after]
    case = head + whole(*before) + struct.pack("<BHH", number, int(core), int(unit))
    add(case, head + b"".join(b"\t%d" % n for n in fields) + b"\n")


def reading(counts, words, answer, case=b"I"):
    add(case + struct.pack("<4H", *counts, len(words)) + b"".join(struct.pack("<I", w) for w in words), case + b"\t%s\n" % answer)


def writing(counts, room, shown, answer, case=b"O"):
    add(case + struct.pack("<4H", *counts, room) + packed(shown, counts[0]), case + b"\t%s\n" % answer)


def line(letter, room, place, numbers, answer):
    """A line's numbers, and the line as it comes to stand at the place; or the refusal's number, which leaves every byte lent."""
    lent, fields = b"." * room, [answer]
    if isinstance(answer, str):
        put = text(answer)
        fields = [0, place + len(put)]
        lent = lent[:place] + put + lent[place + len(put) :]
        assert len(lent) == room
    case = struct.pack("<2H", room, place) + struct.pack({b"H": "<4H", b"h": "<4H", b"L": "<B2H", b"E": "<IBHB4H"}[letter], *numbers)
    add(letter + case, letter + b"".join(b"\t%d" % n for n in [*fields, *lent]) + b"\n")


script(text(RUN), text(COLUMNS))
for room in (0, 13, 14, 15, len(text(COLUMNS)) - 1, len(text(COLUMNS)), 15 + 29 * 13):
    lent(room, text(RUN), 0, text(COLUMNS))
lent(100, b"T\t3\t1\t9\t0\n", 20, b"")
lent(100, b"T\t1\t1\t0\t0\nR\t0\t0\nQ\t0\n", 21, b"E\t1\t1\t0\t0\n1\t0\t0\t1\t0\t0\n")
lent(21, b"T\t1\t1\t0\t0\nR\t0\t0\nQ\t0\n", 21, b"E\t1\t1\t0\t0\n1\t0\t0\t1\t0\t0\n")
lent(65535, b"T\t1\t1\t0\t0\nR\t0\t0\nP\t0", 22, b"E\t1\t1\t0\t0\n1\t0\t0\t1\t0\t0\n")
script(b"", b"X\t22\n")
script(b"T\t3\t1\t9\t0\n", b"X\t20\n")
script(b"T\t1\t1\t0\t0\nR\t0\t0\nQ\t0\n", b"E\t1\t1\t0\t0\n1\t0\t0\t1\t0\t0\nX\t21\n")
script(b"T\t1\t1\t0\t0\nR\t0\t0\nP\t0", b"E\t1\t1\t0\t0\n1\t0\t0\t1\t0\t0\nX\t22\n")
table((3, 1, 1), 65535, {}, {}, 1)
table((3, 1, 1), 65535, {}, {(1, 2): (0, 0, 1)}, 0)
table((9, 1, 1), 0, {}, {}, 1)
table((32, 8, 8), 65535, {}, {}, 1)
table((33, 1, 1), 0, {}, {}, 0)
# core 0 holds unit 0 and waits at unit 1, which core 1 holds; core 2 away
table((3, 1, 1), 8, {0: (5, 5, 0, 1, 3), 1: (6, 6, 1, 0, 2), 2: (7, 7, 0, 0, 5)}, {(0, 0): (5, 1, 1), (1, 0): (5, 1, 0), (1, 1): (6, 7, 2)}, 1)
table((3, 1, 1), 8, {0: (5, 5, 0, 1, 4), 1: (6, 6, 1, 0, 2), 2: (7, 7, 0, 0, 5)}, {(0, 0): (5, 1, 1), (1, 0): (5, 1, 0), (1, 1): (6, 1, 1)}, 0)
# core 0 holds unit 0, cores 1 and 2 wait there with 6 and 7; next in line: ticket, core, valid, held
HOLDS = {0: (5, 5, 0, 0, 2), 1: (6, 6, 0, 0, 1), 2: (7, 7, 0, 0, 1)}, {(0, 0): (5, 1, 1), (0, 1): (6, 1, 0), (0, 2): (7, 1, 0)}
for u, after, sound in [
    (0, (6, 1, 1, 1), 1),
    (0, (6, 1, 255, 2), 1),
    (0, (7, 1, 1, 1), 0),
    (0, (6, 2, 1, 1), 0),
    (0, (6, 257, 1, 1), 0),
    (0, (6, 1, 0, 1), 0),
    (0, (6, 1, 1, 0), 0),
    (0, (0, 0, 0, 1), 0),
    (0, (0, 0, 0, 0), 0),
    (0, (5, 0, 1, 1), 0),
    (0, (7, 2, 1, 1), 0),
    (1, (0, 0, 0, 0), 1),
    (1, (0, 0, 0, 1), 0),
    (1, (0, 0, 1, 0), 0),
    (1, (0, 1, 0, 0), 0),
    (1, (1, 0, 0, 0), 0),
    (2, (0, 0, 0, 1), 0),
    (15, (6, 1, 1, 1), 0),
]:
    table((3, 1, 1), 8, HOLDS[0], {**HOLDS[1], (u, "next"): after}, sound)
# document 01's run, step by step. A core: own and carried ticket, first and second unit, state.
IDLE, WAITING, HOLDING, WAITING_SECOND, HOLDING_BOTH, AWAY, MARKED, DROPPED = range(8)
now = ((3, 1, 1), 65535, {}, {})
zero, one, two = (65535, 65535, 1, 0, HOLDING), (1, 1, 0, 0, HOLDING), (0, 0, 0, 0, WAITING)
held = {(1, 0): (65535, 1, 1)}
for step, answer, counter, cores, shown in [
    ("R 0 1", "0 65535 1 1 0", 0, {0: (65535, 65535, 1, 0, WAITING)}, held),
    ("P 0", "1 65535 0", 0, {0: zero}, held),
    ("R 2 0", "0 0 1 0 2", 1, {0: zero, 2: two}, {**held, (0, 2): (0, 1, 1)}),
    ("R 1 0", "0 1 0", 2, {0: zero, 1: (1, 1, 0, 0, WAITING), 2: two}, {**held, (0, 1): (1, 1, 0), (0, 2): (0, 1, 1)}),
    ("I 2", "0 0 1 0 1", 2, {0: zero, 1: (1, 1, 0, 0, WAITING), 2: (0, 0, 0, 0, AWAY)}, {**held, (0, 1): (1, 1, 1)}),
    ("P 1", "1 1 0", 2, {0: zero, 1: one, 2: (0, 0, 0, 0, AWAY)}, {**held, (0, 1): (1, 1, 1)}),
    ("N 1 1", "0 1 0", 2, {0: zero, 1: (1, 1, 0, 1, WAITING_SECOND), 2: (0, 0, 0, 0, AWAY)}, {**held, (0, 1): (1, 1, 1), (1, 1): (1, 1, 0)}),
    ("C 2", "0 0 0", 2, {0: zero, 1: (1, 1, 0, 1, WAITING_SECOND), 2: two}, {**held, (0, 1): (1, 1, 1), (1, 1): (1, 1, 0), (0, 2): (0, 1, 0)}),
    ("P 1", "2 0 0", 2, {0: zero, 1: (1, 0, 0, 1, WAITING_SECOND), 2: two}, {**held, (0, 1): (1, 1, 1), (1, 1): (0, 1, 0), (0, 2): (0, 1, 0)}),
    ("I 0", "14 0 0", 2, {0: zero, 1: (1, 0, 0, 1, WAITING_SECOND), 2: two}, {**held, (0, 1): (1, 1, 1), (1, 1): (0, 1, 0), (0, 2): (0, 1, 0)}),
    ("L 0", "0 65535 1 1 1", 2, {1: (1, 0, 0, 1, WAITING_SECOND), 2: two}, {(0, 1): (1, 1, 1), (1, 1): (0, 1, 1), (0, 2): (0, 1, 0)}),
    ("P 1", "1 0 0", 2, {1: (1, 0, 0, 1, HOLDING_BOTH), 2: two}, {(0, 1): (1, 1, 1), (1, 1): (0, 1, 1), (0, 2): (0, 1, 0)}),
    ("L 1", "0 1 1 0 2", 2, {2: two}, {(0, 2): (0, 1, 1)}),
]:
    if step == "L 0":
        # an interrupt drops the inherited ticket, and a core that waits cannot release
        method(now, "I 1", "0 1 1 0 2", ((3, 1, 1), 2, {0: zero, 1: (1, 1, 0, 0, AWAY), 2: two}, {**held, (0, 2): (0, 1, 1)}))
        method(now, "L 1", "12 0 0")
        method(now, "C 1", "12 0 0")
        # what it inherited stands while its giver goes away, and the next poll gives it back
        left = {0: zero, 1: (1, 0, 0, 1, WAITING_SECOND), 2: (0, 0, 0, 0, AWAY)}
        gone = ((3, 1, 1), 2, left, {**held, (0, 1): (1, 1, 1), (1, 1): (0, 1, 0)})
        method(now, "I 2", "0 0 0", gone)
        left = {**left, 1: (1, 1, 0, 1, WAITING_SECOND)}
        method(gone, "P 1", "2 1 0", ((3, 1, 1), 2, left, {**held, (0, 1): (1, 1, 1), (1, 1): (1, 1, 0)}))
    then = ((3, 1, 1), counter, cores, shown)
    method(now, step, answer, then)
    now = then
# the last core of the largest table: it takes over from core 9, by whose release its wait ends
last = ((32, 8, 8), 9, {9: (7, 7, 15, 0, HOLDING), 31: (8, 8, 15, 0, WAITING)}, {(15, 9): (7, 1, 1), (15, 31): (8, 1, 0)})
method(last, "L 9", "0 7 1 15 31", ((32, 8, 8), 9, {31: (8, 8, 15, 0, WAITING)}, {(15, 31): (8, 1, 1)}))
method(last, "R 30 16", "11 0 0")
method(last, "P 31", "2 8 0")
method(last, "P 32", "10 0 0")
fresh = ((1, 1, 0), 7, {}, {})
method(fresh, "R 0 0", "0 7 1 0 0", ((1, 1, 0), 8, {0: (7, 7, 0, 0, WAITING)}, {(0, 0): (7, 1, 1)}))
method(fresh, "P 0", "12 0 0")
method(fresh, "R 1 1", "10 0 0")
method(fresh, "R 65535 0", "10 0 0")
method(fresh, "R 0 1", "11 0 0")
method(fresh, "N 0 1", "11 0 0")
method(fresh, "L 256 0", "10 0 0")
# core 0 holds unit 0 and core 1 unit 2, of the first and of the second class
holding = ((3, 2, 2), 3, {0: (1, 1, 0, 0, HOLDING), 1: (2, 2, 2, 0, HOLDING)}, {(0, 0): (1, 1, 1), (2, 1): (2, 1, 1)})
method(holding, "N 0 1", "13 0 0")
method(holding, "N 1 3", "13 0 0")
method(holding, "N 0 4", "11 0 0")
method(holding, "N 2 3", "12 0 0")
method(holding, "R 0 1", "12 0 0")
cores = {0: (1, 1, 0, 3, WAITING_SECOND), 1: (2, 2, 2, 0, HOLDING)}
method(holding, "N 0 3", "0 1 1 3 0", ((3, 2, 2), 3, cores, {(0, 0): (1, 1, 1), (3, 0): (1, 1, 1), (2, 1): (2, 1, 1)}))
# ticket 0 is live
live = {0: (0, 0, 0, 0, HOLDING)}
method(((2, 2, 0), 32768, live, {(0, 0): (0, 1, 1)}), "R 1 1", "15 0 0")
then = ((2, 2, 0), 32768, {**live, 1: (32767, 32767, 1, 0, WAITING)}, {(0, 0): (0, 1, 1), (1, 1): (32767, 1, 1)})
method(((2, 2, 0), 32767, live, {(0, 0): (0, 1, 1)}), "R 1 1", "0 32767 1 1 1", then)
# 16 before all others; the table's numbers come back as they were
method(((3, 1, 1), 65535, {}, {(1, 2): (0, 0, 1)}), "R 0 0", "16 0 0")
method(((33, 65535, 1), 12, {31: (1, 2, 3, 65535, AWAY)}, {(15, 31): (65535, 1, 1)}), "P 9", "16 0 0")
for step in ["R 0 0", "N 0 1", "P 1", "I 1", "C 1", "L 0", "P 9"]:
    for after in [(7, 2, 1, 1), (0, 0, 0, 1)]:
        method(((3, 1, 1), 8, HOLDS[0], {**HOLDS[1], (0, "next"): after}), step, "16 0 0")
# the next in line goes, and comes back; then the holder goes, by whose release it is granted
cores, shown = HOLDS
gone = ((3, 1, 1), 8, {**cores, 1: (6, 6, 0, 0, AWAY)}, {(0, 0): (5, 1, 1), (0, 2): (7, 1, 0), (0, "next"): (7, 2, 1, 1)})
held = {**shown, (0, "next"): (6, 1, 1, 1)}
method(((3, 1, 1), 8, cores, held), "I 1", "0 6 0", gone)
method(gone, "C 1", "0 6 0", ((3, 1, 1), 8, cores, held))
granted = {(0, 1): (6, 1, 1), (0, 2): (7, 1, 0), (0, "next"): (7, 2, 1, 1)}
method(((3, 1, 1), 8, cores, held), "L 0", "0 5 1 0 1", ((3, 1, 1), 8, {1: cores[1], 2: cores[2]}, granted))
# one release grants both its units; numbers from 5 on are L
waiting = {1: (6, 6, 0, 0, WAITING), 2: (7, 7, 1, 0, WAITING)}
shown = {(0, 0): (5, 1, 1), (1, 0): (5, 1, 1), (0, 1): (6, 1, 0), (1, 2): (7, 1, 0)}
both = ((3, 1, 1), 8, {**waiting, 0: (5, 5, 0, 1, HOLDING_BOTH)}, shown)
for step in ["L 0", "6 0", "255 0 9"]:
    method(both, step, "0 5 2 0 1 1 2", ((3, 1, 1), 8, waiting, {(0, 1): (6, 1, 1), (1, 2): (7, 1, 1)}))
method(both, "I 0", "14 0 0")
for w, a in [(65536, "0\t0\t1\t0"), (262143, "0\t65535\t1\t1"), (131072, "30"), (5, "30"), (262144, "30"), (0, "0\t0\t0\t0"), (4294967295, "30")]:
    add(b"W" + struct.pack("<I", w), b"W\t%s\n" % a.encode())
for r, a in [((0, 1, 0), "0\t65536"), ((65535, 1, 1), "0\t262143"), ((0, 0, 1), "30"), ((5, 0, 0), "30"), ((0, 0, 0), "0\t0"), ((258, 255, 0), "0\t65794")]:
    add(b"P" + register(*r), b"P\t%s\n" % a.encode())
reading((2, 1, 1), [65541, 196612, 65541, 0, 65540, 65540], b"0\t5\t1\t0\t4\t1\t1\t5\t0\t1\t1\t0\t0\t0\t4\t1\t0\t4\t1\t1\t0")
reading((2, 1, 1), [65541, 196612, 65541, 5, 65540, 65540], b"30")
reading((2, 1, 1), [65541, 196612, 65541, 0, 65540], b"30")
reading((2, 1, 1), [65541, 196612, 65541, 0, 65540, 65540, 0], b"30")
reading((2, 0, 1), [65541, 196612, 65541], b"20")
reading((1, 1, 0), [], b"30")
# without the words of the next in line, and with them before the cores'
reading((2, 1, 1), [65541, 196612, 0, 65540], b"30")
reading((2, 1, 1), [65541, 65541, 196612, 65540, 0, 65540], b"30")
# a unit of two cores: nobody; the wrong core, the one with the flag, bit 17 for bit 16, both, neither, bit 18
reading((2, 1, 0), [0, 0, 0], b"0" + b"\t0" * 10)
reading((2, 1, 0), [196612, 0, 0], b"0\t4\t1\t1" + b"\t0" * 6 + b"\t1")
reading((2, 1, 0), [196612, 0, 65540], b"30")
reading((2, 1, 0), [65541, 65540, 65540], b"0\t5\t1\t0\t4\t1\t0\t4\t1\t1\t0")
for word in [65541, 0, 4, 131076, 196612, 65540 + 262144, 65536]:
    reading((2, 1, 0), [65541, 65540, word], b"30")
# ticket 0 in line, which is not nobody
reading((2, 1, 0), [65536, 262143, 65536], b"0\t0\t1\t0\t65535\t1\t1\t0\t0\t1\t1")
reading((2, 1, 0), [65536, 262143, 0], b"30")
# the same ticket, half the circle apart, each older than the next in a circle: nobody; and just beside, somebody
for tickets, at in [((9, 9), None), ((0, 32768), None), ((0, 32767), 0), ((0, 32769), 1), ((65535, 0), 0), ((0, 21845, 43690), None),
                    ((9, 8, 9), 1), ((5, 32773, 6), None), ((0, 21845, 43690, 65535), None), ((3, 2, 1, 0), 3)]:
    words = [65536 + t for t in tickets]
    fields = [n for t in tickets for n in (t, 1, 0)] + ([0, 0, 0, 0] if at is None else [tickets[at], at, 1, 0])
    for next_word in [0, *words]:
        right = next_word == (0 if at is None else words[at])
        reading((len(words), 1, 0), [*words, next_word], b"\t".join(b"%d" % n for n in [0, *fields]) if right else b"30")
# all units, of eight cores and of as many as a table can have, which wait with tickets that rise: the first is next
for n in (8, CORES):
    words = [[65536 + n * u + k for k in range(n)] for u in range(16)]
    answer = b"".join(b"".join(b"\t%d\t1\t0" % (n * u + k) for k in range(n)) + b"\t%d\t0\t1\t0" % (n * u) for u in range(16))
    reading((n, 8, 8), [w for line in words for w in [*line, line[0]]], b"0" + answer)
    reading((n, 8, 8), [w for line in words for w in line], b"30")
    answer = b"".join(b"\t%d" % w for line in words for w in [*line, line[0]])
    writing((n, 8, 8), 16 * (n + 1), {(u, k): (n * u + k, 1, 0) for u in range(16) for k in range(n)}, b"0" + answer)
reading((CORES, 8, 8), [0] * 600, b"30")
reading((33, 8, 8), [0] * (16 * 34), b"20")
d = {(0, 0): (5, 1, 0), (0, 1): (4, 1, 1), (1, 1): (4, 1, 0), (2, 0): (9, 0, 1)}
writing((2, 1, 1), 6, d, b"0\t65541\t196612\t65541\t0\t65540\t65540")
writing((2, 1, 1), 5, d, b"30")
writing((2, 1, 1), 4, d, b"30")
writing((2, 2, 1), 9, d, b"30")
writing((2, 1, 9), 6, d, b"20")
# another next in line than (4, 1, 1, 0) at unit 1, one past the units, and one of a core past the count
for after in [(5, 1, 1, 0), (4, 0, 1, 0), (4, 1, 0, 0), (4, 1, 1, 1), (0, 0, 0, 0)]:
    writing((2, 1, 1), 6, {**d, (1, "next"): after}, b"30")
writing((2, 1, 1), 6, {**d, (1, 2): (3, 1, 0), (2, "next"): (7, 7, 1, 1)}, b"0\t65541\t196612\t65541\t0\t65540\t65540")
writing((2, 1, 1), 6, {**d, (1, 2): (3, 1, 0), (1, "next"): (3, 2, 1, 0)}, b"30")
# nobody is the oldest of a circle, or of two the same
circle = {(0, 0): (0, 1, 0), (0, 1): (21845, 1, 0), (0, 2): (43690, 1, 0)}
writing((3, 1, 0), 4, circle, b"0\t65536\t87381\t109226\t0")
writing((3, 1, 0), 4, {**circle, (0, "next"): (0, 0, 1, 0)}, b"30")
writing((2, 1, 0), 3, circle, b"0\t65536\t87381\t65536")
writing((2, 1, 0), 3, {(0, 0): (9, 1, 0), (0, 1): (9, 1, 0)}, b"0\t65545\t65545\t0")
writing((2, 1, 0), 3, {(0, 0): (9, 1, 0), (0, 1): (9, 1, 0), (0, "next"): (9, 1, 1, 0)}, b"30")
writing((33, 8, 8), 16 * 34, {}, b"20")
for room, place, numbers, answer in [
    (14, 0, (8, 8, 8, 65535), "T 8 8 8 65535"),
    (13, 0, (8, 8, 8, 65535), 23),
    (15, 0, (32, 8, 8, 65535), "T 32 8 8 65535"),
    (14, 0, (32, 8, 8, 65535), 23),
    (64, 49, (32, 8, 8, 65535), "T 32 8 8 65535"),
    (64, 50, (32, 8, 8, 65535), 23),
    (20, 3, (1, 1, 0, 0), "T 1 1 0 0"),
    (10, 10, (1, 1, 0, 0), 23),
    (10, 65535, (1, 1, 0, 0), 23),
    (0, 0, (1, 1, 0, 0), 23),
    (14, 0, (0, 1, 0, 0), 20),
    (14, 0, (33, 1, 0, 0), 20),
    (14, 0, (1, 0, 0, 0), 20),
    (14, 0, (1, 9, 0, 0), 20),
    (14, 0, (1, 1, 9, 0), 20),
    (30, 0, (288, 1, 65535, 0), 20),
    (3, 9, (1, 1, 9, 0), 20),
]:
    line(b"H", room, place, numbers, answer)
for room, place, numbers, answer in [
    (14, 0, (0, 65535, 65535), "R 65535 65535"),
    (13, 0, (0, 65535, 65535), 23),
    (9, 2, (1, 3, 12), "N 3 12"),
    (8, 2, (1, 3, 12), 23),
    (6, 1, (2, 0, 99), "P 0"),
    (5, 1, (2, 0, 99), "P 0"),
    (4, 1, (2, 0, 99), 23),
    (64, 57, (3, 1000, 0), "I 1000"),
    (64, 58, (3, 1000, 0), 23),
    (12, 4, (4, 10, 0), "C 10"),
    (4, 0, (5, 9, 1), "L 9"),
    (4, 0, (6, 9, 1), "L 9"),
    (4, 0, (255, 9, 1), "L 9"),
    (4, 5, (5, 9, 1), 23),
    (0, 0, (5, 9, 1), 23),
]:
    line(b"L", room, place, numbers, answer)
for index, number in enumerate([0, 1, 2, 10, 11, 12, 13, 14, 15, 16, 20, 20]):
    line(b"E", 12, 1, (7, index, 0, 0, 1, 2, 3, 4), "7 %d 0 0" % number)
for room, place, numbers, answer in [
    (29, 0, (1000000, 0, 65535, 2, 7, 31, 15, 30), "1000000 0 65535 2 7 31 15 30"),
    (28, 0, (1000000, 0, 65535, 2, 7, 31, 15, 30), 23),
    (64, 35, (1000000, 0, 65535, 2, 7, 31, 15, 30), "1000000 0 65535 2 7 31 15 30"),
    (64, 36, (1000000, 0, 65535, 2, 7, 31, 15, 30), 23),
    (16, 2, (9, 0, 10, 1, 8, 3, 15, 6), "9 0 10 1 8 3"),
    (14, 2, (9, 0, 10, 1, 8, 3, 15, 6), 23),
    (20, 2, (10, 1, 1, 255, 0, 1, 1, 2), "10 1 1 2 0 1 1 2"),
    (64, 0, (1, 0, 100, 2, 65535, 10000, 0, 32768), "1 0 100 2 65535 10000 0 32768"),
    (9, 9, (1, 2, 0, 0, 0, 0, 0, 0), 23),
    (9, 10, (1, 2, 0, 0, 0, 0, 0, 0), 23),
    (0, 0, (1, 2, 0, 0, 0, 0, 0, 0), 23),
]:
    line(b"E", room, place, numbers, answer)
script(text(RUN), text(COLUMNS))
logs()


def dequeueing():
    """Profile D: scripts, logs, tables, steps by methods, headers and images."""
    # two dropped in one release and a third granted; back with a new ticket, and in line; interrupted with the flag
    run = (
        "D 4 1 0 65534; R 0 0; P 0; R 1 0; R 2 0; R 3 0; I 1; I 2; L 0; C 1; I 1; C 1; N 3 0; P 3; N 3 0; I 3; I 1; C 2; L 3; P 2; C 1; I 2; L 2"
    )
    columns = (
        "F 4 1 0 65534; 1 0 65534 1 0 0; 2 1 65534 0; 3 0 65535 0; 4 0 0 0; 5 0 1 0; 6 0 65535 0; 7 0 0 0; 8 0 65534 1 0 3; 9 0 2 0; "
        "10 0 2 0; 11 0 2 0; 12 12 0 0; 13 1 1 0; 14 13 0 0; 15 14 0 0; 16 0 2 0; 17 0 3 0; 18 0 1 1 0 2; 19 1 3 0; 20 0 4 0; 21 14 0 0; "
        "22 0 3 1 0 1"
    )
    script(text(run), text(columns))
    for room in (0, 13, 14, len(text(columns)) - 1, len(text(columns)), 15 + 29 * 22):
        lent(room, text(run), 0, text(columns))
    both = zip(run.split("; ")[1:], columns.split("; ")[1:])
    shown = "; ".join(["D 4 1 0 65534", *(a + " " + b.split(" ", 1)[1] for a, b in both)])
    log(text(shown), "0 22")
    # other tickets and grants than the two dropped leave, and a line of profile T
    lines = "; ".join(shown.split("; ")[:8]) + "; "
    for last, answer in [
        ("L 0 0 65534 1 0 3", "0 8"),
        ("L 0 0 65534 1 0 1", "40 9 7"),
        ("L 0 0 65534 1 0 2", "40 9 7"),
        ("L 0 0 65534 0", "40 9 5"),
        ("L 0 0 0 1 0 3", "40 9 4"),
        ("C 1 0 65535 0; L 0 0 65534 1 0 1", "0 9"),
        ("C 1 0 2 0", "40 9 4"),
        ("L 0 0 65534 1 0 3; C 1 0 65535 0", "40 10 4"),
        ("L 0 0 65534 1 0 3; C 1 0 2 0", "0 9"),
        ("D 4 1 0 65534", "21 9"),
    ]:
        log(text(lines + last), answer)
    # headers: no second-class units, and the answers' letter is none
    for head in ("D 3 1 1 0", "D 3 1 8 0", "D 3 1 9 0", "D 33 1 0 0", "D 0 1 0 0", "D 1 0 0 0", "D 1 9 0 0", "D 1 1 0 65536", "F 1 1 0 0", "d 1 1 0 0"):
        script(text(head), b"X\t20\n")
        log(text(head), "20 1")
    script(text("D 32 8 0 65535"), text("F 32 8 0 65535"))
    script(text("D 32 8 0 65535; D 1 1 0 0"), text("F 32 8 0 65535; X 21"))
    script(text("D 32 8 0 65535; T 1 1 0 0"), text("F 32 8 0 65535; X 21"))
    script(b"D\t32\t8\t0\t65535", b"X\t22\n")
    script(b"D\t32\t8\t0\t6553500", b"X\t20\n")
    log(text("D 32 8 0 65535"), "0 0")
    # core 0 holds unit 0, core 1 is marked there, core 2 waits, core 3 was dropped from unit 1, core 4 is idle
    cores = {0: (5, 5, 0, 0, HOLDING), 1: (6, 6, 0, 0, MARKED), 2: (7, 7, 0, 0, WAITING), 3: (0, 0, 1, 0, DROPPED)}
    shown = {(0, 0): (5, 1, 1), (0, 1): (6, 1, 0), (0, 2): (7, 1, 0)}
    counts = (5, 2, 0)
    now = (counts, 8, cores, shown)
    gone = {(0, 0): (5, 1, 1), (0, 2): (7, 1, 0)}
    for changed_cores, changed_shown, sound in [
        ({}, shown, 1),
        # dropped, with something left; naming another unit, or none of the table; numbers from 7 on are the same state
        ({3: (4, 0, 1, 0, DROPPED)}, shown, 0),
        ({3: (0, 4, 1, 0, DROPPED)}, shown, 0),
        ({3: (4, 4, 1, 0, DROPPED)}, shown, 0),
        ({3: (0, 0, 1, 1, DROPPED)}, shown, 0),
        ({3: (0, 0, 0, 0, DROPPED)}, shown, 1),
        ({3: (0, 0, 2, 0, DROPPED)}, shown, 0),
        ({3: (0, 0, 1, 0, 255)}, shown, 1),
        ({4: (0, 0, 0, 0, DROPPED)}, shown, 1),
        ({5: (0, 0, 0, 0, DROPPED)}, shown, 0),
        # dropped and yet in line; marked there with ticket 0, which is a ticket then, but no other is its own
        ({3: (0, 0, 0, 0, DROPPED)}, {**shown, (0, 3): (0, 1, 0)}, 0),
        ({3: (0, 0, 0, 0, MARKED)}, {**shown, (0, 3): (0, 1, 0)}, 1),
        ({3: (0, 0, 0, 0, MARKED)}, {**shown, (0, 3): (4, 1, 0)}, 0),
        ({3: (0, 0, 1, 0, MARKED)}, {**shown, (1, 3): (0, 1, 0)}, 0),
        ({3: (0, 0, 1, 0, MARKED)}, shown, 0),
        # marked, with the flag, also for the holder's; out of line, elsewhere, with other tickets
        ({}, {**shown, (0, 1): (6, 1, 1)}, 0),
        ({}, {**shown, (0, 0): (5, 1, 0), (0, 1): (6, 1, 1)}, 0),
        ({0: (5, 5, 0, 0, WAITING)}, {**shown, (0, 0): (5, 1, 0), (0, 1): (6, 1, 1)}, 0),
        ({}, gone, 0),
        ({1: (0, 0, 0, 0, MARKED)}, gone, 0),
        ({1: (6, 6, 0, 0, DROPPED)}, gone, 0),
        ({1: (0, 0, 0, 0, DROPPED)}, gone, 1),
        ({1: (6, 6, 1, 0, MARKED)}, shown, 0),
        ({}, {**shown, (1, 1): (6, 1, 0)}, 0),
        ({1: (6, 5, 0, 0, MARKED)}, shown, 0),
        ({1: (4, 4, 0, 0, MARKED)}, shown, 0),
        ({}, {**shown, (0, 1): (4, 1, 0)}, 0),
        ({1: (8, 8, 0, 0, MARKED)}, {**shown, (0, 1): (8, 1, 0)}, 0),
        ({1: (7, 7, 0, 0, MARKED)}, {**shown, (0, 1): (7, 1, 0)}, 0),
        # away as in T, in line, out of line, and without a ticket
        ({1: (6, 6, 0, 0, AWAY)}, shown, 0),
        ({1: (6, 6, 0, 0, AWAY)}, gone, 0),
        ({1: (0, 0, 0, 0, AWAY)}, gone, 0),
        ({3: (0, 0, 1, 0, AWAY)}, shown, 0),
        # nobody has the unit
        ({0: (0, 0, 0, 0, IDLE), 2: (0, 0, 0, 0, IDLE)}, {(0, 1): (6, 1, 0)}, 0),
        # a second unit
        ({0: (5, 5, 0, 1, WAITING_SECOND)}, {**shown, (1, 0): (5, 1, 1)}, 0),
        ({0: (5, 5, 0, 1, HOLDING_BOTH)}, {**shown, (1, 0): (5, 1, 1)}, 0),
        # the next in line passes over the one that is marked
        ({}, {**shown, (0, "next"): (7, 2, 1, 1)}, 0),
        ({}, {**shown, (0, "next"): (6, 1, 1, 1)}, 1),
    ]:
        table(counts, 8, {**cores, **changed_cores}, changed_shown, sound, b"s")
    table((5, 2, 1), 8, cores, shown, 0, b"s")
    table((5, 1, 1), 8, {}, {}, 0, b"s")
    table((32, 8, 0), 65535, {}, {}, 1, b"s")
    table((33, 8, 0), 65535, {}, {}, 0, b"s")
    # in T nobody is marked or dropped, and who is away has a ticket, 0 too
    table(counts, 8, cores, shown, 0)
    for state, in_t, in_d in (AWAY, 1, 0), (MARKED, 0, 0), (DROPPED, 0, 1):
        table(counts, 8, {3: (0, 0, 1, 0, state)}, {}, in_t)
        table(counts, 8, {3: (0, 0, 1, 0, state)}, {}, in_d, b"s")
    table(counts, 0, {3: (0, 0, 1, 0, AWAY)}, {}, 0)
    table(counts, 0, {3: (0, 0, 1, 0, DROPPED)}, {}, 1, b"s")
    table(counts, 8, {0: cores[0], 1: cores[1]}, {k: r for k, r in shown.items() if k[1] < 2}, 0)
    method((counts, 8, {3: (0, 0, 1, 0, DROPPED)}, {}), "C 3", "16 0 0")
    method((counts, 8, {3: (0, 0, 1, 0, MARKED)}, {}), "R 0 0", "16 0 0")

    def step(before, *rest):
        method(before, *rest, head=b"m")

    def then(counter, changed_cores, shown):
        return counts, counter, {**cores, **changed_cores}, shown

    idle, dropped = (0, 0, 0, 0, IDLE), (0, 0, 0, 0, DROPPED)
    step(now, "I 2", "0 7 0", (then(8, {2: (7, 7, 0, 0, MARKED)}, shown)))
    step(now, "C 1", "0 6 0", (then(8, {1: (6, 6, 0, 0, WAITING)}, shown)))
    step(now, "C 3", "0 8 1 1 3", (then(9, {3: (8, 8, 1, 0, WAITING)}, {**shown, (1, 3): (8, 1, 1)})))
    step(now, "L 0", "0 5 1 0 2", (then(8, {0: idle, 1: dropped}, {(0, 2): (7, 1, 1)})))
    step(now, "P 2", "2 7 0")
    step(now, "R 4 0", "0 8 0", (then(9, {4: (8, 8, 0, 0, WAITING)}, {**shown, (0, 4): (8, 1, 0)})))
    for refused, answer in [("P 1", 12), ("I 1", 12), ("L 1", 12), ("R 1 0", 12), ("R 3 1", 12), ("P 3", 12), ("I 3", 12), ("C 2", 12), ("C 4", 12),
                            ("I 0", 14), ("N 0 1", 13), ("N 0 2", 11), ("N 2 1", 12), ("C 5", 10), ("R 4 2", 11)]:
        step(now, refused, "%d 0 0" % answer)
    # the flag set and not polled: its ticket is reported, and ended
    flagged = then(8, {0: (5, 5, 0, 0, WAITING)}, shown)
    step(flagged, "I 0", "0 5 1 0 2", (then(8, {0: dropped, 1: dropped}, {(0, 2): (7, 1, 1)})))
    step(flagged, "P 0", "1 5 0", now)
    # all in line away: all are dropped, and nobody is granted
    away = then(8, {2: (7, 7, 0, 0, MARKED)}, shown)
    step(away, "L 0", "0 5 0", (then(8, {0: idle, 1: dropped, 2: dropped}, {})))
    # one that is away behind one that is not stays in line
    behind = then(8, {1: (6, 6, 0, 0, WAITING), 2: (7, 7, 0, 0, MARKED)}, shown)
    step(behind, "L 0", "0 5 1 0 1", (then(8, {0: idle, 1: (6, 6, 0, 0, WAITING), 2: (7, 7, 0, 0, MARKED)}, {(0, 1): (6, 1, 1), (0, 2): (7, 1, 0)})))
    # 5 is live, 32,767 and 32,768 behind the counter
    for counter in 32772, 32773:
        before = then(counter, {}, shown)
        step(before, "C 1", "0 6 0", (then(counter, {1: (6, 6, 0, 0, WAITING)}, shown)))
        step(before, "C 2", "12 0 0")
        if counter == 32773:
            step(before, "C 3", "15 0 0")
            step(before, "R 4 1", "15 0 0")
        else:
            step(before, "C 3", "0 32772 1 1 3", (then(32773, {3: (32772, 32772, 1, 0, WAITING)}, {**shown, (1, 3): (32772, 1, 1)})))
    # a dropped core's 0 is no ticket, wherever the counter stands
    for counter in 0, 1, 32768, 32769, 65535:
        before = counts, counter, {3: (0, 0, 1, 0, DROPPED)}, {}
        after = counts, (counter + 1) % 65536, {3: (counter, counter, 1, 0, WAITING)}, {(1, 3): (counter, 1, 1)}
        step(before, "C 3", "0 %d 1 1 3" % counter, after)
    # 16 before all others
    for letter in ["R 0 0", "N 0 1", "P 1", "I 1", "C 1", "L 0", "P 9"]:
        step((counts, 8, {**cores, 3: (4, 4, 1, 0, DROPPED)}, shown), letter, "16 0 0")
        step(((5, 2, 1), 8, cores, shown), letter, "16 0 0")
    for room, place, numbers, answer in [
        (14, 0, (8, 8, 0, 65535), "D 8 8 0 65535"),
        (13, 0, (8, 8, 0, 65535), 23),
        (15, 0, (32, 8, 0, 65535), "D 32 8 0 65535"),
        (14, 0, (32, 8, 0, 65535), 23),
        (20, 3, (1, 1, 0, 0), "D 1 1 0 0"),
        (10, 65535, (1, 1, 0, 0), 23),
        (14, 0, (1, 1, 1, 0), 20),
        (14, 0, (1, 1, 8, 0), 20),
        (14, 0, (1, 1, 9, 0), 20),
        (14, 0, (33, 1, 0, 0), 20),
        (14, 0, (0, 1, 0, 0), 20),
        (14, 0, (1, 9, 0, 0), 20),
        (3, 9, (1, 1, 1, 0), 20),
    ]:
        line(b"h", room, place, numbers, answer)
    # images: as in T, but for second-class units
    reading((2, 2, 0), [65541, 196612, 65541, 0, 65540, 65540], b"0\t5\t1\t0\t4\t1\t1\t5\t0\t1\t1\t0\t0\t0\t4\t1\t0\t4\t1\t1\t0", b"i")
    reading((2, 1, 1), [65541, 196612, 65541, 0, 65540, 65540], b"20", b"i")
    reading((2, 2, 0), [65541, 196612, 65541, 0, 65540], b"30", b"i")
    reading((2, 2, 0), [65541, 196612, 65541, 0, 65540, 0], b"30", b"i")
    registers = {(0, 0): (5, 1, 0), (0, 1): (4, 1, 1), (1, 1): (4, 1, 0)}
    writing((2, 2, 0), 6, registers, b"0\t65541\t196612\t65541\t0\t65540\t65540", b"o")
    writing((2, 1, 1), 6, registers, b"20", b"o")
    writing((2, 2, 0), 5, registers, b"30", b"o")
    writing((2, 2, 0), 6, {**registers, (1, "next"): (0, 0, 0, 0)}, b"30", b"o")
    writing((32, 8, 0), 8 * 33, {}, b"0" + b"\t0" * (8 * 33), b"o")


profiles = sys.argv[2] if len(sys.argv) > 2 else "TD"
if "T" not in profiles:
    cases.clear()
    answers.clear()
if "D" in profiles:
    dequeueing()
# the last case is cut off, which ends the program
cases.append(b"W\0\0\1")

sys.stdout.buffer.write(b"".join(cases if sys.argv[1:2] == ["cases"] else answers))
