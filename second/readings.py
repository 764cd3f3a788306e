#!/usr/bin/env python3
"""The cases of crates/readings and their answers, made from documents 01 and 02 alone, by regular expressions and plain arithmetic.
`second/readings.py cases` prints what crates/readings/stdin must hold, `second/readings.py answers` its stdout.

A case is a letter, a length byte, and so many bytes: S, a script after its header; H, a script before it; W, a register word,
lowest byte first."""
import random
import re
import sys

NUMBER = rb"(0|[1-9][0-9]{0,4})"
STEP = re.compile(rb"(?:([RN])\t%s\t%s|([PICL])\t%s)\Z" % (NUMBER, NUMBER, NUMBER))
HEADER = re.compile(rb"([TD])\t%s\t%s\t%s\t%s\Z" % (NUMBER, NUMBER, NUMBER, NUMBER))


def line_of(script):
    """The bytes of the first line and the place after it, or 21 or 22."""
    end = script[:15].find(b"\n")
    if end >= 0:
        return script[:end], end + 1
    return (22 if len(script) < 15 else 21), None


def step(script):
    if not script:
        return "finished"
    line, after = line_of(script)
    if after is None:
        return str(line)
    m = STEP.match(line)
    if not m:
        return "21"
    fields = [f for f in m.groups() if f is not None]
    if any(int(f) > 65535 for f in fields[1:]):
        return "21"
    return "\t".join([fields[0].decode()] + [f.decode() for f in fields[1:]] + [str(after)])


def header(script):
    if not script:
        return "22"
    line, after = line_of(script)
    if after is None:
        return "22" if line == 22 else "20"
    m = HEADER.match(line)
    if not m:
        return "20"
    letter = m.group(1).decode()
    cores, first, second, counter = map(int, m.groups()[1:])
    if not (1 <= cores <= 32 and 1 <= first <= 8 and second <= (8 if letter == "T" else 0) and counter <= 65535):
        return "20"
    return "\t".join(map(str, [letter, cores, first, second, counter, after]))


def word(data):
    w = int.from_bytes(data, "little")
    ticket, valid, flag = w % 65536, w // 65536 % 2, w // 131072 % 2
    if w >= 262144 or (not valid and w):
        return "30"
    return "\t".join(map(str, ["W", ticket, valid, flag]))


def cases():
    rng = random.Random(20260)
    numbers = [b"0", b"7", b"10", b"999", b"65535", b"65536", b"99999", b"00", b"07", b"", b"-1", b"+1", b"1 ", b"1a", b"123456"]
    for letter in b"RNPICLTEXr":
        for a in numbers:
            yield b"S", bytes([letter]) + b"\t" + a + b"\n"
            yield b"S", bytes([letter]) + b"\t" + a + b"\t3\n"
            yield b"S", bytes([letter]) + b"\t3\t" + a + b"\n"
    for tail in b"", b"\n", b"\t\n", b"\nP\t0\n", b"\r\n", b"\x00\n", b"\t4\n", b" \n":
        yield b"S", b"P\t3" + tail
        yield b"S", b"R\t3\t4" + tail
        yield b"H", b"T\t3\t1\t1\t65535" + tail
    whole = b"T\t32\t8\t8\t65535\n"
    for n in range(len(whole) + 1):
        yield b"S", b"R\t65535\t65535\n"[:n]
        yield b"H", whole[:n]
    yield b"H", whole[:-1] + b"0"
    yield b"H", whole[:-1] + b"0\n"
    for number in b"655350", b"6553500":
        yield b"S", b"R\t65535\t" + number
        yield b"S", b"R\t65535\t" + number + b"\n"
    yield b"S", b"\n"
    yield b"S", b"\tP\t1\n"
    yield b"S", b"P\t\t1\n"
    yield b"H", b""
    for cores in 0, 1, 8, 9, 31, 32, 33:
        for first in 0, 1, 8, 9:
            for second in 0, 8, 9:
                yield b"H", b"T\t%d\t%d\t%d\t7\n" % (cores, first, second)
    for counter in b"0", b"65535", b"65536", b"01", b"":
        yield b"H", b"T\t3\t1\t1\t" + counter + b"\n"
    for letter in b"DEFtd":
        yield b"H", bytes([letter]) + b"\t3\t1\t1\t0\n"
        yield b"H", bytes([letter]) + b"\t3\t1\t0\t0\n"
    for cores in 0, 1, 32, 33:
        for first in 0, 1, 8, 9:
            for second in 0, 1, 8, 9:
                yield b"H", b"D\t%d\t%d\t%d\t65535\n" % (cores, first, second)
    alphabet = b"0123456789\t\nRNPICLT \xff"
    for _ in range(600):
        yield b"SH"[rng.randrange(2):][:1], bytes(rng.choice(alphabet) for _ in range(rng.randrange(19)))
    for _ in range(300):
        line = bytearray(rng.choice([b"R\t1\t12\n", b"P\t7\n", b"N\t0\t15\n", b"T\t8\t8\t8\t65535\n", b"T\t32\t8\t8\t65535\n", b"L\t65535\n"]))
        line[rng.randrange(len(line))] = rng.choice(alphabet)
        yield b"SH"[line[0] == 84:][:1], bytes(line)
    for w in 0, 1, 5, 65535, 65536, 65537, 131071, 131072, 131073, 196607, 196608, 262143, 262144, 1 << 31, (1 << 32) - 1:
        yield b"W", w.to_bytes(4, "little")
    for _ in range(200):
        w = rng.randrange(1 << 18) ^ (1 << rng.randrange(32) if rng.randrange(3) == 0 else 0)
        yield b"W", w.to_bytes(4, "little")
    for _ in range(150):
        line = bytearray(rng.choice([b"D\t8\t8\t0\t65535\n", b"D\t32\t8\t0\t7\n"]))
        line[rng.randrange(len(line))] = rng.choice(alphabet + b"D")
        yield b"H", bytes(line)


def dequeueing():
    """Headers of profile D: every beginning of the longest, what may follow it, and numbers in other forms; as step lines too."""
    whole = b"D\t32\t8\t0\t65535\n"
    for n in range(len(whole) + 1):
        yield b"H", whole[:n]
        yield b"S", whole[:n]
    for tail in b"0", b"0\n", b"\n\n", b"\t\n", b"\r\n", b" \n", b"\nP\t0\n", b"\nT\t1\t1\t0\t0\n":
        yield b"H", whole[:-1] + tail
        yield b"H", b"D\t3\t1\t0\t7" + tail
    for counter in b"0", b"65535", b"65536", b"01", b"":
        yield b"H", b"D\t3\t1\t0\t" + counter + b"\n"
    for second in b"00", b"", b"-0", b"65535", b"65536":
        yield b"H", b"D\t3\t1\t" + second + b"\t0\n"
    for letter in b"DEFTdt":
        yield b"S", bytes([letter]) + b"\t3\t1\t0\t0\n"


def main():
    answer = {b"S": step, b"H": header, b"W": word}
    for kind, data in [*cases(), *dequeueing()]:
        if sys.argv[1] == "cases":
            sys.stdout.buffer.write(kind + bytes([len(data)]) + data)
        else:
            print(answer[kind](data))


if __name__ == "__main__":
    main()
