#!/usr/bin/env python3
"""Compares the library's loading of a match in one call with the model in loading.py, byte by byte, on the cases of cases.py.

compare.py PROGRAM [CASES [SEED]]     2000 cases of seed 1 where none are said; PROGRAM is call.c, built as tests/library.sh does

Compared are number, value, warrior, writes, steps, and the whole header, core and queue afterwards; PROGRAM itself compares each
call with the places and starts made one by one on a copy of the record. The first case that differs is shown, and the status is
1. Then how often each number was given, and for the numbers of a warrior at how many different ones; how often 6 was given for a
seventeenth name, where a body is placed, and for the process limit, where it is started, and how often a body stays whose start
was refused; and how many headers had one fault alone.
"""
import collections
import itertools
import pathlib
import struct
import subprocess
import sys

sys.dont_write_bytecode = True
sys.path += [str(pathlib.Path(__file__).resolve().parent.parent / tool) for tool in ("matches", "placing")]
from cases import cases
from loading import load_match
from model import read
from placing import UNNAMED
from record import HEADER

# so many cases are handed to the program at once
BATCH = 500
TOLD = struct.Struct("<5Q")
# what the placing or the start of a warrior may give
WARRIORS = 3, 4, 5, 6, 8
# why 6 or 8 was given, in the order in which it is told
SEVENTEENTH, LIMIT, STARTED, STAYS = "where placed, for a seventeenth name", "where started, for the process limit", "where started", "of these with a body that stays"


def given(record, file):
    """A case as the program reads it."""
    return struct.pack("<3Q", len(record.core), len(record.queue), len(file)) + record.header() + record.memories() + file


def parts(result):
    """A result as text, a part to a line."""
    number, value, warrior, writes, steps = TOLD.unpack_from(result)
    told = f"number {number}, value {value}, warrior {warrior}, writes {writes}, steps {steps}"
    header, memories = result[TOLD.size:TOLD.size + HEADER.size], result[TOLD.size + HEADER.size:-1]
    singles = "the same" if result[-1] else "otherwise"
    return [told, f"header {header.hex()}", f"core and queue {memories.hex()}", f"one by one: {singles}"]


def show(number, seed, case, wanted, got):
    cells, slots, length = struct.unpack_from("<3Q", case)
    print(f"case {number} of seed {seed} differs: {cells} cells, {slots} slots, a file of {length} bytes; as the program reads it:\n{case.hex()}")
    for model, library in zip(parts(wanted), parts(got)):
        if model != library:
            print(f"model   {model}\nlibrary {library}")


class Tally:
    """What the cases reached."""

    def __init__(self):
        # numbers by warrior, the calls and reasons of 6 and 8 by number, and what headers with one fault had
        self.numbers, self.reasons, self.faults = collections.Counter(), collections.Counter(), collections.Counter()

    def add(self, record, file, number, warrior, faults):
        self.numbers[number, warrior] += 1
        if number in (6, 8):
            self.add_reasons(record, number, *read(file)[1][warrior][:2])
        if len(faults) == 1:
            self.faults[faults[0]] += 1

    def add_reasons(self, record, number, name, body):
        """A name that was placed under is held, and then it was the start that was refused."""
        if (name or UNNAMED) not in record.names():
            self.reasons[number, SEVENTEENTH] += 1
            return
        self.reasons[number, LIMIT if number == 6 else STARTED] += 1
        self.reasons[number, STAYS] += bool(body)

    def show(self):
        for number in sorted({number for number, _ in self.numbers}):
            at = [warrior for other, warrior in self.numbers if other == number]
            where = f" at {len(at)} different warriors" if number in WARRIORS else ""
            why = "".join(f", {self.reasons[number, reason]} {reason}" for reason in (SEVENTEENTH, LIMIT, STARTED, STAYS) if self.reasons[number, reason])
            print(f"{number}: {sum(self.numbers[number, warrior] for warrior in at)}{where}{why}")
        print("headers with one fault alone:", ", ".join(f"{fault}: {times}" for fault, times in sorted(self.faults.items())))


def compare(program, count, seed):
    """What the cases reached; None where a case differs."""
    tally = Tally()
    numbered = enumerate(itertools.islice(cases(seed), count))
    while batch := list(itertools.islice(numbered, BATCH)):
        inputs = [given(*case) for _, case in batch]
        results = subprocess.run([program], input=b"".join(inputs), stdout=subprocess.PIPE, check=True).stdout
        at = 0
        for (number, (record, file)), case in zip(batch, inputs):
            faults = record.faults()
            told = load_match(record, file)
            wanted = TOLD.pack(*told) + record.header() + record.memories() + b"\1"
            got = results[at:at + len(wanted)]
            at += len(wanted)
            if got != wanted:
                show(number, seed, case, wanted, got)
                return None
            tally.add(record, file, told[0], told[2], faults)
    return tally


def main(program, count="2000", seed="1"):
    tally = compare(program, int(count), int(seed))
    if tally is None:
        return 1
    print(f"{count} matches loaded in one call: as in the model, and as one by one. Numbers given:")
    tally.show()
    return 0


sys.exit(main(*sys.argv[1:]))
