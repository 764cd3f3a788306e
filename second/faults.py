#!/usr/bin/env python3
"""What is wrong with a line that is refused with 20 or 21, as the message says it: written from docs/DECISIONS.md, and not from
the crates. `second/faults.py script FILE` and `second/faults.py log FILE` print the message for the first line of FILE that is no header,
no step line or no log line. `second/faults.py draw DIR MANY` writes scripts 0001.script and so on into DIR, most of them with a line changed
here and there, and prints what `curlewstep translate -d` is to say of those that stop."""
import os
import random
import re
import sys

NUMBERS = {"header": {b"T": 4, b"D": 4}, "script": {b"R": 2, b"N": 2, b"P": 1, b"I": 1, b"C": 1, b"L": 1}}
NUMBERS["log"] = NUMBERS["script"]
MOST = {"header": 15, "script": 15, "log": 62}
COUNTS = {2: (1, 32, "cores"), 3: (1, 8, "first-class units"), 4: (0, 8, "second-class units")}
CALLED = {"header": ("a header", 20), "script": ("a step line", 21), "log": ("a log line", 21)}
SPACE = "a space, and one tab parts fields"
RETURN = "a carriage return before its end"


def shown(data):
    names = {9: "\\t", 13: "\\r", 34: '\\"', 92: "\\\\"}
    return "".join(names.get(b) or (chr(b) if 32 <= b < 127 else "\\x%02x" % b) for b in data)


def of_number(field):
    """What is wrong with a field that is to be a number, and how it is said."""
    digits = re.match(rb"[0-9]*", field)[0]
    rest = field[len(digits):]
    if not field:
        return "is empty"
    if len(digits) > 1 and digits[:1] == b"0":
        return "has a leading zero"
    if digits and int(digits) > 65535:
        return "is above 65535"
    if not rest:
        return None
    if rest[:1] == b" ":
        return SPACE
    return "has a sign" if not digits and rest[:1] in b"+-" else "is no number"


def reason(form, line):
    """Of a line without its end: None where nothing is wrong."""
    numbers = NUMBERS[form].get(line[:1])
    told = from_left(form, line, numbers)
    return RETURN if told and line[-1:] == b"\r" else told


def from_left(form, line, numbers):
    letter = shown(line[:1])
    if not line:
        return "it is empty"
    if numbers is None:
        if form == "header":
            return f'it begins with "{letter}", and not with T or D'
        return "a header stands in line 1 only" if letter in ("T", "D") else f'no step begins with "{letter}"'
    has = f"{letter} has {numbers} number" + "s" * (numbers != 1)
    first, *fields = line.split(b"\t")
    if len(first) > 1:
        return SPACE if first[1:2] == b" " else "no tab behind its letter"
    for k, field in enumerate(fields, 2):
        bad = of_number(field)
        if bad:
            return bad if bad == SPACE else f"field {k} {bad}"
        least, most, name = COUNTS.get(k, (0, 65535, "")) if form == "header" else (0, 65535, "")
        if form == "header" and letter == "D" and k == 4 and int(field) > 0:
            return f"{int(field)} second-class units, and in a D header there must be 0"
        if not least <= int(field) <= most:
            return f"{int(field)} {name}, and there may be {least} to {most}"
        if k > numbers and k - 1 < len(fields) and form != "log":
            return f"too many fields, {has}"
    return f"too few fields, {has}" if len(fields) < numbers else None


def too_long(first):
    """Of the first bytes of a line that has no end among them, as many as the longest has."""
    return RETURN if first[-1:] == b"\r" else f"longer than {len(first)} bytes with its end"


def message(kind, data):
    """Of the first line that is refused with 20 or 21; None where another stop, or none, is first."""
    at, number = 0, 1
    while at < len(data):
        form = "header" if number == 1 else kind
        end = data.find(b"\n", at, at + MOST[form])
        if end < 0 and len(data) - at < MOST[form]:
            return None
        told = reason(form, data[at:end]) if end >= 0 else too_long(data[at:at + MOST[form]])
        if told:
            whole = data[at:].split(b"\n")[0]
            goes_on = len(whole) > 20 or at + len(whole) == len(data)
            name, stop = CALLED[form]
            return f'line {number}: not {name}: {told}: "{shown(whole[:20])}"{"..." * goes_on} ({stop})'
        at, number = end + 1, number + 1
    return None


def changed(line):
    """A line with a byte or two put in, taken out or changed."""
    line = bytearray(line)
    for _ in range(random.choice((1, 1, 1, 2))):
        at = random.randrange(len(line) + 1)
        byte = random.choice(b"\t\t\t 00159+-xRPTDQ\r\r\"\\\x00\x7f\xff" + bytes([random.randrange(256)]))
        if byte == 10:
            continue
        if random.random() < 0.3:
            at = len(line)
        line[at:at + random.randrange(2)] = bytes([byte]) * random.randrange(3)
    return bytes(line).replace(b"\n", b"")


def drawn():
    cores = random.choice((b"0", b"1", b"8", b"32", b"32", b"32", b"33", b"70000"))
    units = [random.choice((b"0", b"1", b"8", b"8", b"8", b"9", b"70000")) for _ in range(2)]
    header = b"\t".join([random.choice((b"T", b"D")), cores] + units + [b"7"])
    if random.random() < 0.7:
        header = random.choice((b"T\t32\t8\t8\t65535", b"T\t8\t8\t8\t65535", b"D\t32\t8\t0\t65535"))
    if random.random() < 0.2:
        header = changed(header)
    step = random.choice((b"R\t0\t1", b"N\t65535\t7", b"P\t0", b"I\t12", b"C\t7", b"L\t65535", b"R\t1\t65536", b"R\t0", b"P", b"L\t0\t0", b"N\t-1\t0", b"P\t+0"))
    return header + b"\nP\t0\n" + (changed(step) if random.random() < 0.9 else step) + b"\nP\t0\n"


def draw(folder, many):
    random.seed(211)
    for i in range(1, many + 1):
        data = drawn()
        with open(os.path.join(folder, f"{i:04}.script"), "wb") as script:
            script.write(data)
        told = message("script", data)
        if told:
            print(f"curlewstep: {i:04}.script: {told}")


if sys.argv[1] == "draw":
    draw(sys.argv[2], int(sys.argv[3]))
else:
    print(message(sys.argv[1], open(sys.argv[2], "rb").read()))
