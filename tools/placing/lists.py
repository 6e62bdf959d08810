"""Cases for compare.py, a record and a list of calls each: place, start and step, in any order, with damaged records and faulty calls among them.

A call is its kind, a name, a body and a place; a start's body and all three of a step are empty or 0.
"""
import random

import cases
import records
from cases import FAULTY, POOL, fresh_record, instruction
from record import LAST_NUMBER, NAME_BYTES

PLACE, START, STEP = range(3)
# bytes that no name may have, and the two next to them that it may
EDGES = [0, 31, 32, 33, 126, 127, 128, 255]


def faulty_name(dice):
    """Too long, or with a byte out of the range, or one that is only just valid."""
    name = bytearray(dice.randint(33, 126) for _ in range(dice.choice([1, 8, NAME_BYTES - 1, NAME_BYTES])))
    if dice.random() < 0.4:
        return bytes(name) + b"x" * dice.choice([0, 1, 2, 33])
    name[dice.randrange(len(name))] = dice.choice(EDGES)
    return bytes(name)


def any_name(dice, known):
    chance = dice.random()
    if known and chance < 0.5:
        return dice.choice(known)
    if chance < 0.7:
        return dice.choice(POOL)
    if chance < 0.9:
        return bytes(dice.randint(33, 126) for _ in range(dice.randint(1, NAME_BYTES)))
    return faulty_name(dice)


def any_place(dice, size):
    if dice.random() < 0.9:
        return dice.choice([0, size - 1, dice.randrange(size), dice.randrange(size)])
    return dice.choice([size, size, size + 1, 65535, 65536, 2**31, LAST_NUMBER])


def faulty_body(dice, codes, size):
    """One or several of: too many instructions, one with faulty codes, the last one cut short."""
    faults = dice.choice(["long", "code", "code", "cut", "long code", "long cut", "code cut", "long code cut"])
    if "long" in faults and size <= 60:
        codes += b"".join(instruction(dice) for _ in range(size + dice.choice([1, 1, 2, 5]) - len(codes) // 12))
    if "code" in faults:
        at = 12 * dice.randint(0, len(codes) // 12)
        codes = codes[:at] + bytes(dice.choice(FAULTY)) + bytes(8) + codes[at + 12:]
    if "cut" in faults:
        codes = codes + instruction(dice)[:dice.randint(1, 11)] if dice.random() < 0.3 else codes[:max(0, len(codes) - dice.randint(1, 11))]
    return codes


def any_body(dice, size):
    codes = cases.body(dice, size)
    return faulty_body(dice, codes, size) if dice.random() < 0.15 else codes


def any_call(dice, known, size):
    """A call; the name is known to those that follow."""
    kind = dice.choice([PLACE, PLACE, PLACE, START, START, START, STEP])
    if kind == STEP:
        return STEP, b"", b"", 0
    name = any_name(dice, known)
    known.append(name)
    return kind, name, any_body(dice, size) if kind == PLACE else b"", any_place(dice, size)


def any_record(dice):
    """One of tools/match_load's, or one of tools/limits', whose cells are sound and whose entries run."""
    return cases.random_record(dice) if dice.random() < 0.6 else records.random_record(dice)


def random_case(dice):
    """A quarter of the records are damaged; where that left the header unsound, every call is refused with 9."""
    record = any_record(dice)
    known, size = record.names(), record.size
    if dice.random() < 0.25:
        record = cases.damaged(dice, record)
    count = dice.randint(1, 8) if record.sound() else dice.randint(1, 3)
    return record, [any_call(dice, known, size) for _ in range(count)]


def edges(dice):
    """Every name length up to 40 and every byte of a name; a body of each length in bytes; every place near the core's size."""
    for length in range(41):
        yield fresh_record(8, 1), [(kind, b"n" * length, b"", 7) for kind in (PLACE, START)]
    for byte in range(256):
        yield fresh_record(8, 1), [(kind, name, b"", 0) for name in (bytes([byte]), bytes([110, byte, 110])) for kind in (START, PLACE)]
    body = b"".join(instruction(dice) for _ in range(10))
    for length in range(len(body) + 1):
        yield fresh_record(8, 1), [(PLACE, b"n", body[:length], 5)]
    for at in [*range(10), 65535, 65536, 65544, 2**31, LAST_NUMBER]:
        yield fresh_record(8, 1), [(PLACE, b"n", body[:12], at), (START, b"n", b"", at)]


def lists(seed):
    """Cases without end, those at the edges first."""
    dice = random.Random(seed)
    yield from edges(dice)
    while True:
        yield random_case(dice)
