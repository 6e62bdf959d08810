#!/usr/bin/env python3
"""Match files for the programs `play` and `plays`, and what the model prints for them.

matches.py FOLDER     writes FOLDER/play/stdin, stdout and FOLDER/plays/stdin, stdout (FOLDER is crates/)
"""
import random
import struct
import sys

from model import printed

DAT, MOV, ADD, SUB, MUL, DIV, MOD, JMP, JMZ, JMN, DJN, CMP, SEQ, SNE, SLT, SPL, NOP, LDP, STP = range(19)


def made(size, warriors):
    """A match file; a warrior is name, instructions, origin, place."""
    start, lines, bodies = 4 + 43 * len(warriors), b"", b""
    for name, instructions, origin, place in warriors:
        body = b"".join(struct.pack("<BBBBii", *x) for x in instructions)
        lines += struct.pack("<B32sIHHH", len(name), name.encode(), start + len(bodies), len(instructions), origin, place)
        bodies += body
    return struct.pack("<BHB", len(warriors), size, 0) + lines + bodies


IMP = [(MOV, 255, 1, 1, 0, 1)]
DWARF = [(ADD, 255, 0, 1, 4, 3), (MOV, 255, 1, 3, 2, 2), (JMP, 255, 1, 1, -2, 0), (DAT, 255, 0, 0, 0, 0)]
DEAD = [(DAT, 255, 1, 1, 0, 0)]
SPLITTER = [(SPL, 255, 1, 1, 0, 0), (JMP, 255, 1, 1, -1, 0)]
ZERO = [(DIV, 1, 0, 1, 3, 1), (DAT, 255, 1, 1, 0, 0)]
EXAMPLE = made(8, [("", DEAD, 65535, 0)])
PAIR = made(8000, [("Imp", IMP, 0, 5), ("", DEAD, 1, 4000)])


def changed(file, at, byte):
    return file[:at] + bytes([byte]) + file[at + 1:]


def random_match(dice):
    size = dice.choice([1, 2, 5, 8, 13, 40, 200, 8000])
    warriors = []
    for _ in range(dice.randint(1, 6)):
        length = dice.randint(0, min(size, 8))
        body = [(dice.randint(0, 18) if dice.random() < 0.05 else dice.randint(0, 16), dice.choice([0, 1, 2, 3, 4, 5, 6, 255]), dice.randint(0, 7),
                 dice.randint(0, 7), dice.randint(-9, 9), dice.randint(-9, 9)) for _ in range(length)]
        body = [x if x[0] < 17 or x[1] != 255 else (x[0], 0, *x[2:]) for x in body]
        warriors.append((dice.choice(["", "", "A", "B", "Warrior0", "N" * 32]), body, dice.choice([65535, 0, 1, 7]), dice.randint(0, size - 1)))
    return made(size, warriors)


def cases():
    yield EXAMPLE
    # 13: every cut of a file, one byte after it, and each rule of the format
    for n in range(0, len(PAIR), 3):
        yield PAIR[:n]
    yield PAIR + b"\0"
    for at, byte in [(0, 0), (0, 17), (3, 1), (4, 33), (6, 32), (7, 127), (8, 1), (36, 33), (37, 89), (48, 1), (80, 103)]:
        yield changed(PAIR, at, byte)
    # the longest file, one byte more, and text
    most = made(2723, [("", DEAD * 2723, 0, 0)])
    yield most + bytes(32768 - len(most))
    yield most + bytes(32769 - len(most))
    yield b";redcode\n;name Imp\nMOV 0, 1\n"
    # 1, 3, 4, 5
    yield made(0, [("", DEAD, 0, 0)])
    yield made(8001, [("", DEAD, 0, 0)])
    yield made(2, [("", DEAD * 3, 0, 0)])
    yield made(8, [("", IMP, 0, 0), ("", [(19, 0, 1, 1, 0, 0)], 0, 1)])
    yield made(8, [("", [(LDP, 255, 1, 1, 0, 0)], 0, 0)])
    yield made(8, [("", IMP, 0, 8)])
    # 10, 11, 12 and 0 from the run, shared names, the process limit
    yield made(8, [("", [(LDP, 0, 1, 1, 0, 0)], 0, 0)])
    yield made(8000, [("Imp", IMP, 65535, 0)])
    yield made(8000, [("Dwarf", DWARF, 0, 0), ("Imp", IMP, 0, 4000)])
    yield made(8000, [("", DEAD, 0, 0), ("", IMP, 0, 100)])
    yield made(8000, [("Splitter", SPLITTER, 0, 0), ("Imp", IMP, 0, 4000)])
    yield made(8000, [("", ZERO, 0, 10), ("Imp", IMP, 0, 3)])
    yield made(8000, [("A", IMP, 0, 0), ("B", IMP, 0, 50), ("A", DEAD, 0, 200), ("C", DWARF, 0, 4000), ("B", SPLITTER, 1, 6000)])
    yield made(8000, [(f"S{i}", SPLITTER, 0, 500 * i) for i in range(16)])
    dice = random.Random(11)
    for _ in range(300):
        yield random_match(dice)


def write(path, data):
    with open(path, "wb") as out:
        out.write(data)


folder = sys.argv[1]
write(f"{folder}/play/stdin", EXAMPLE)
write(f"{folder}/play/stdout", printed(EXAMPLE).encode())
files = list(cases())
write(f"{folder}/plays/stdin", b"".join(struct.pack("<I", len(f))[:3] + f for f in files))
write(f"{folder}/plays/stdout", "".join(map(printed, files)).encode())
