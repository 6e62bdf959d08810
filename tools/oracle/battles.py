#!/usr/bin/env python3
"""Writes battles for the oracle, one to a line (README.md has the format): battles.py CLASS SEED COUNT

small    cores of 1 to 12 cells, about 30 steps at most
mixed    cores of 1 to 46,341 cells, runs to any ceiling
sweep    one step of each opcode 0 to 16, modifier and pair of modes in turn, on a core of 2 to 8 cells
private  as small, with LDP and STP among the opcodes: a panic where one is executed
"""
import sys

DAT, MOV, ADD, SUB, MUL, DIV, MOD, JMP, JMZ, JMN, DJN, CMP, SEQ, SNE, SLT, SPL, NOP, LDP, STP = range(19)
MODIFIERS = [0, 1, 2, 3, 4, 5, 6, 255]
NAMES = ["", "", "", "Warrior0", "Warrior0", "A", "A", "B", "a.b", "|", "=", "~!", "Warrior00", "N" * 32]
EXTREMES = [-2**31, -2**31 + 1, 2**31 - 1, 2**31 - 2, -2**16, 2**16, 46340, 46341, -46341, 65535]


class Dice:
    """SplitMix64: the same throws for a seed everywhere."""

    def __init__(self, seed):
        self.state = seed % 2**64

    def throw(self):
        self.state = (self.state + 0x9E3779B97F4A7C15) % 2**64
        x = self.state
        x = (x ^ x >> 30) * 0xBF58476D1CE4E5B9 % 2**64
        x = (x ^ x >> 27) * 0x94D049BB133111EB % 2**64
        return x ^ x >> 31

    def within(self, low, high):
        return low + self.throw() % (high - low + 1)

    def one(self, items):
        return items[self.throw() % len(items)]

    def percent(self, n):
        return self.throw() % 100 < n


def number(dice, size):
    kind = dice.within(0, 9)
    if kind < 4:
        return dice.within(-2, 3)
    if kind < 7:
        return dice.within(0, size - 1)
    if kind == 7:
        return dice.one([-1, 1]) * size + dice.within(-1, 1)
    if kind == 8:
        return dice.one(EXTREMES)
    return dice.within(-2**31, 2**31 - 1)


def instruction(dice, size, opcodes):
    opcode = dice.one(opcodes)
    modes = dice.within(0, 7), dice.within(0, 7)
    modifier = dice.one(MODIFIERS)
    if opcode >= LDP and modifier == 255 and 0 not in modes:
        modifier = 0  # there is no default
    return (opcode, modifier, *modes, number(dice, size), number(dice, size))


# Bodies that last: an imp, a bomber, splits, counters, jumps on one zero of two, divisions, comparisons (of a CMP
# with a SEQ cell too), ends with entries left, moves.
KNOWN = [
    [(MOV, 255, 1, 1, 0, 1)],
    [(ADD, 255, 0, 1, 4, 3), (MOV, 255, 1, 3, 2, 2), (JMP, 255, 1, 1, -2, 0), (DAT, 255, 0, 0, 0, 0)],
    [(SPL, 255, 1, 1, 0, 0), (MOV, 255, 1, 1, 0, 1)],
    [(SPL, 255, 1, 1, 2, 0), (JMP, 255, 1, 1, -1, 0), (JMP, 255, 1, 1, -2, 0)],
    [(SPL, 255, 1, 1, 2, 0), (DAT, 255, 1, 1, 0, 0), (DJN, 255, 1, 1, 0, 1), (DAT, 255, 1, 1, 3, 4)],
    [(DJN, 4, 1, 5, 0, 2), (JMN, 255, 1, 7, -1, 1), (JMZ, 5, 1, 1, -2, 1)],
    [(JMN, 4, 1, 1, 2, 1), (NOP, 255, 1, 1, 0, 5), (JMZ, 5, 1, 1, 2, -1), (DAT, 255, 1, 1, 0, 0), (JMN, 6, 1, 7, -4, -3)],
    [(DIV, 4, 1, 1, 1, 2), (MOD, 5, 1, 7, -1, 1), (JMP, 255, 1, 6, -2, -1)],
    [(SEQ, 255, 7, 1, 1, 0), (SNE, 255, 1, 4, 1, 2), (SLT, 255, 1, 6, 0, 1), (JMP, 255, 1, 1, -3, 0)],
    [(SEQ, 6, 1, 7, 2, 2), (SNE, 6, 1, 4, 0, 0), (CMP, 6, 7, 6, 1, 1), (CMP, 6, 3, 1, -1, 1), (JMP, 6, 1, 1, -4, 0)],
    [(CMP, 6, 1, 1, 1, 2), (CMP, 6, 1, 1, 1, 1), (SEQ, 6, 1, 1, 1, 1), (SNE, 6, 1, 1, -2, -1), (JMP, 255, 1, 1, -4, 0)],
    [(SPL, 255, 1, 1, 1, 0), (DIV, 1, 1, 1, 2, 3), (JMP, 255, 1, 1, -2, 0), (NOP, 255, 6, 7, 1, 1)],
    [(MOV, 6, 6, 6, -1, 1), (JMP, 255, 1, 1, -1, 0)],
    [(SUB, 255, 1, 7, 0, 1), (MUL, 255, 6, 3, 1, 0), (JMP, 255, 4, 5, 0, 0)],
]


def body(dice, size, opcodes):
    """Up to 8 instructions; now and then none, or more than the core has cells. Half of the others go round."""
    length = min(dice.within(1, 8), size)
    kind = dice.within(0, 99)
    if kind < 3:
        return []
    if kind < 7:
        length = dice.within(1, 8)
    elif kind < 50:
        swapped = dice.one([0, 20, 40])
        return [instruction(dice, size, opcodes) if dice.percent(swapped) else x for x in dice.one(KNOWN)[:size]]
    made = [instruction(dice, size, opcodes) for _ in range(length)]
    if kind < 75:
        made[-1] = JMP, dice.one(MODIFIERS), 1, dice.within(0, 7), 1 - length, number(dice, size)
    return made


def loaded(name, origin, instructions):
    return " ".join(["load", "=" + name, str(origin)] + [".".join(map(str, x)) for x in instructions])


def load(dice, size, opcodes, name):
    origin = dice.one(["-", "-", 0, dice.within(0, 7), dice.within(0, size - 1), dice.within(0, 65534)])
    return loaded(name, origin, body(dice, size, opcodes))


def played(dice, size, opcodes, most):
    """Loads, steps and runs; `most` bounds the ceilings."""
    names = [dice.one(NAMES) for _ in range(dice.one([1, 1, 2, 2, 3, 4]))]
    calls = [load(dice, size, opcodes, names.pop())]
    while names and dice.percent(70):
        calls.append(load(dice, size, opcodes, names.pop()))
    for _ in range(dice.within(1, 4)):
        if dice.percent(60):
            calls += ["step"] * dice.within(1, 6)
        else:
            calls.append(f"run {dice.within(0, most)}")
        if names and dice.percent(50):
            calls.append(load(dice, size, opcodes, names.pop()))
    return calls


def small(dice, _):
    size = dice.within(1, 12)
    return [str(size)] + played(dice, size, range(17), dice.one([8, 15, 24]))


def private(dice, _):
    size = dice.within(1, 12)
    return [str(size)] + played(dice, size, [*range(19), LDP, STP], dice.one([8, 15, 24]))


def mixed(dice, _):
    kind = dice.within(0, 99)
    if kind < 60:
        size = dice.within(1, 16)
    elif kind < 80:
        size = dice.within(17, 200)
    elif kind < 94:
        size = dice.within(201, 46341)
    else:
        size = dice.one([8000, 46339, 46340, 46341, 46341])
    calls = played(dice, size, range(17), dice.one([20, 100, 500]))
    if dice.percent(2):
        calls.append(dice.one(["run 3000", "run -"]))
    return [str(size)] + calls


def sweep(dice, i):
    """Battle i has the i-th instruction at 0, among cells of small numbers."""
    opcode, modifier = i // 512 % 17, MODIFIERS[i // 64 % 8]
    size = dice.within(2, 8)
    low = [0, 1, 2, 3, -1, -2, size - 1]
    cells = []
    for _ in range(size):
        new = [dice.within(0, 18), dice.within(0, 6), dice.within(0, 7), dice.within(0, 7), dice.one(low), dice.one(low)]
        if cells and dice.percent(40):
            # an earlier cell, or one that differs from it in one part
            part = dice.within(0, 11)
            new = [n if k == part else o for k, (n, o) in enumerate(zip(new, dice.one(cells)))]
        cells.append(new)
    cells[0][:4] = opcode, modifier, i // 8 % 8, i % 8
    return [str(size), loaded("", "-", cells), "step"]


def main(words):
    classes = {f.__name__: f for f in (small, mixed, sweep, private)}
    if len(words) != 3 or words[0] not in classes:
        sys.exit(__doc__)
    dice = Dice(int(words[1]))
    for i in range(int(words[2])):
        print(" | ".join(classes[words[0]](dice, i)))


main(sys.argv[1:])
