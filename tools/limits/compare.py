#!/usr/bin/env python3
"""Compares the library's fresh, step and run with the model in stepping.py, byte by byte, on the cases of records.py.

compare.py PROGRAM [CASES [SEED]]     2000 cases of seed 1 where none are said; PROGRAM is call.c, built as tests/library.sh does

Compared are number, value, writes, steps, and the whole header, core and queue afterwards. The first case that differs is shown,
and the status is 1. Then how often each call gave each number, how often the rules or the header had one fault alone, how many
steps were made by limits, and how many of SPL's children were queued and dropped.
"""
import collections
import itertools
import pathlib
import struct
import subprocess
import sys

sys.dont_write_bytecode = True
sys.path += [str(pathlib.Path(__file__).resolve().parent.parent / tool) for tool in ("match_load", "matches", "placing")]
import stepping
from record import HEADER
from records import FRESH, RUN, STEP, cases

# so many cases are handed to the program at once
BATCH = 1000
TOLD = struct.Struct("<4Q")
CALLS = {FRESH: "fresh", STEP: "step", RUN: "run"}


def given(call, ceiling, record):
    """A case as the program reads it."""
    numbers = len(record.core), len(record.queue), call, ceiling is not None, ceiling or 0
    return struct.pack("<5Q", *numbers) + record.header() + record.memories()


def expected(call, ceiling, record):
    """What the model tells; the record is changed."""
    if call == FRESH:
        return stepping.fresh(record)
    return stepping.step(record) if call == STEP else stepping.run(record, ceiling)


def parts(result):
    """A result as text, a part to a line."""
    told = "number {}, value {}, writes {}, steps {}".format(*TOLD.unpack_from(result))
    header, memories = result[TOLD.size:TOLD.size + HEADER.size], result[TOLD.size + HEADER.size:]
    return [told, f"header {header.hex()}", f"core and queue {memories.hex()}"]


def show(number, seed, case, wanted, got):
    cells, slots, call, _, _ = struct.unpack_from("<5Q", case)
    print(f"case {number} of seed {seed} differs: {CALLS[call]} on {cells} cells, {slots} slots; as the program reads it:\n{case.hex()}")
    for model, library in zip(parts(wanted), parts(got)):
        if model != library:
            print(f"model   {model}\nlibrary {library}")


class Tally:
    """What the cases reached."""

    def __init__(self):
        # by call and number; by whether it was a fresh machine and the one fault; the steps by limits
        self.numbers, self.faults, self.steps = collections.Counter(), collections.Counter(), collections.Counter()

    def add(self, call, number, faults, limits, steps):
        self.numbers[call, number] += 1
        self.steps[limits] += steps
        if number and len(faults) == 1:
            self.faults[call == FRESH, faults[0]] += 1

    def show(self):
        for call, name in CALLS.items():
            print(f"{name}:", ", ".join(f"{number}: {times}" for (other, number), times in sorted(self.numbers.items()) if other == call))
        for fresh, what in (True, "fresh refused"), (False, "headers refused"):
            print(f"{what} for one fault alone:", ", ".join(f"{fault}: {times}" for (other, fault), times in sorted(self.faults.items()) if other == fresh))
        steps = self.steps
        print(f"steps with both limits M: {steps[False, False]}; a smaller read limit alone: {steps[True, False]},",
              f"write limit alone: {steps[False, True]}, both: {steps[True, True]}")
        show_children()


def show_children():
    """SPL's children, and among them those that a rule for all names together would treat otherwise."""
    children = stepping.CHILDREN
    print(f"SPL's children: {children[True]} queued, of these {children[True, 'another name held P']} while another name held P;",
          f"{children[False]} dropped, of these {children[False, 'another name held fewer']} while another name held fewer,",
          f"{children[False, 'the ring was full']} in a full ring")


def compare(program, count, seed):
    """What the cases reached; None where a case differs."""
    tally = Tally()
    numbered = enumerate(itertools.islice(cases(seed), count))
    while batch := list(itertools.islice(numbered, BATCH)):
        inputs = [given(*case) for _, case in batch]
        results = subprocess.run([program], input=b"".join(inputs), stdout=subprocess.PIPE, check=True).stdout
        at = 0
        for (number, (call, ceiling, record)), case in zip(batch, inputs):
            faults, limits = record.faults(), (record.read < record.size, record.write < record.size)
            told = expected(call, ceiling, record)
            wanted = TOLD.pack(*told) + record.header() + record.memories()
            got = results[at:at + len(wanted)]
            at += len(wanted)
            if got != wanted:
                show(number, seed, case, wanted, got)
                return None
            tally.add(call, told[0], faults, limits, told[3])
    return tally


def main(program, count="2000", seed="1"):
    tally = compare(program, int(count), int(seed))
    if tally is None:
        return 1
    print(f"{count} calls with limits, {sum(tally.steps.values())} steps: as in the model. Numbers given:")
    tally.show()
    return 0


sys.exit(main(*sys.argv[1:]))
