#!/usr/bin/env python3
# steps.py SEED COUNT [FOLDER ROWS]: see README.md
import collections, pathlib, random, sys
sys.dont_write_bytecode = True
sys.path += [str(pathlib.Path(__file__).resolve().parent.parent / tool) for tool in ("pmars", "match_load", "matches", "placing")]
import draft
from cases import fresh_record
from record import entry
from rows import random_step, word, write_crate
from stepping import Cell, step

SIZES = 6, 8, 12, 13


def divisors(size):
    return [limit for limit in range(1, size + 1) if size % limit == 0]


RULES = [(size, read, write) for size in SIZES for read in divisors(size) for write in divisors(size)]


def unpacked(bits):
    c = Cell(bits)
    return [c.opcode, c.modifier, *c.modes, *c.numbers]


def played(core, pc, read, write):
    """The core and the places queued after the step that 02 describes."""
    record = fresh_record(len(core), 8)
    record.core = [word(c) for c in core]
    record.read, record.write = read, write
    record.name(0, b"A")
    record.queue[0], record.held, record.length, record.counts[0] = entry(pc, 0, 0), 1, 1, 1
    step(record)
    slots = [record.queue[(record.head + k) % len(record.queue)] & 65535 for k in range(record.length)]
    return [unpacked(bits) for bits in record.core], slots


def generate(rng, i):
    """A step of rules in turn, the rules shuffled anew for each round of them."""
    if i % len(RULES) == 0:
        rng.shuffle(RULES)
    size, read, write = RULES[i % len(RULES)]
    return *random_step(rng, i, size, size), read, write


def tell(tally, steps):
    clear, other = sum(tally["none", same] for same in (True, False)), tally["some", True] + tally["some", False]
    print(f"{steps} steps; no departure applies to {clear}, one or several to {other}")
    for number in range(1, 7):
        print(f"departure {number}: applies to {tally[number]}, alone to {tally[number, 'alone']}")
    for kind, what in ("none", "no departure"), ("some", "a departure"):
        print(f"the step of 02 and the draft's, where {what} applies: {tally[kind, True]} agreed, {tally[kind, False]} differed")


def main():
    seed, count = int(sys.argv[1]), int(sys.argv[2])
    rng = random.Random(seed)
    tally = collections.Counter()
    rows, own = [], []
    for i in range(count):
        core, pc, read, write = generate(rng, i)
        apply = draft.departures(core, pc, read, write)
        after = [list(c) for c in core]
        places = draft.step(after, pc, read, write)
        by_02 = played(core, pc, read, write)
        same = by_02 == (after, places)
        rows.append((core, pc, after, places, read, write))
        if apply:
            own.append((core, pc, *by_02, read, write))
        tally["some" if apply else "none", same] += 1
        tally.update(apply)
        tally.update((number, "alone") for number in apply if len(apply) == 1)
        if not same and not apply:
            print("differs:", core, pc, read, write, "the draft:", after, places)
    tell(tally, count)
    if len(sys.argv) > 4:
        most = int(sys.argv[4])
        write_crate(pathlib.Path(sys.argv[3]), "limits", rows[:most], own[:most])


main()
