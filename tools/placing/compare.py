#!/usr/bin/env python3
"""Compares the library's place and start with the model in placing.py, byte by byte, on the lists of calls of lists.py.

compare.py PROGRAM [CASES [SEED]]     2000 lists of seed 1 where none are said; PROGRAM is call.c, built as tests/library.sh does

Compared are number, value, writes, steps, and the whole header, core and queue after each call; steps between them are those of
tools/limits. The first call that differs is shown, and the status is 1. Then how often each call gave each number; how often a
call that was refused had another row of its order apply, too; and what the accepted ones reached.
"""
import collections
import itertools
import pathlib
import struct
import subprocess
import sys

sys.dont_write_bytecode = True
sys.path += [str(pathlib.Path(__file__).resolve().parent.parent / tool) for tool in ("match_load", "matches", "limits")]
import stepping
from lists import PLACE, START, STEP, lists
from model import Refused
from placing import index, place, place_rows, start, start_rows
from record import HEADER, LAST_NUMBER, NAMES

# so many lists are handed to the program at once
BATCH = 500
TOLD = struct.Struct("<4Q")
CALLS = {PLACE: "place", START: "start", STEP: "step"}


def given(record, calls):
    """A case as the program reads it."""
    lent = b"".join(struct.pack("<4Q", kind, at, len(name), len(body)) + name + body for kind, name, body, at in calls)
    return struct.pack("<3Q", len(record.core), len(record.queue), len(calls)) + record.header() + record.memories() + lent


def expected(record, kind, name, body, at):
    """Number, value, writes and steps by the model; the record is changed."""
    if kind == STEP:
        return stepping.step(record)
    try:
        return 0, 0, place(record, name, body, at) if kind == PLACE else start(record, name, at), 0
    except Refused as refused:
        return *refused.args, 0, 0


def show(where, case, calls, wanted, got):
    print(f"{where} differs; the calls: {calls}; the case as the program reads it:\n{case.hex()}")
    for what, end in ("model", wanted), ("library", got):
        told = "number {}, value {}, writes {}, steps {}".format(*TOLD.unpack_from(end))
        header, memories = end[TOLD.size:TOLD.size + HEADER.size], end[TOLD.size + HEADER.size:]
        print(f"{what}: {told}\nheader {header.hex()}\ncore and queue {memories.hex()}")


def rows_of(record, kind, name, body, at):
    """The numbers of the rows that apply to a call."""
    if kind == STEP:
        return []
    rows = place_rows(record, name, body, at) if kind == PLACE else start_rows(record, name, at)
    return [number for number, _ in rows]


def placed_what(record, name, body, at):
    """What an accepted place reaches, on the record before it."""
    one, length = index(record, name), len(body) // 12
    held = one < record.held
    yield "under a held name" if held else "under a new name"
    if not held and one == NAMES - 1:
        yield "under the sixteenth name"
    if not body:
        yield "an empty body" if held else "an empty body under a new name"
    if held and record.counts[one] == record.processes:
        yield "under a name that holds P"
    if held and record.counts[one] < record.processes and record.threads[one] == LAST_NUMBER:
        yield "under a name whose next thread number is at its end"
    if at + length > record.size:
        yield "past the end of the core"


def started_what(record, name, waiting):
    """What an accepted start reaches, on the record before it; waiting are the names that were placed under in this list and never started."""
    one = index(record, name)
    held = one < record.held
    yield "under a held name" if held else "under a new name, where nothing was placed"
    if not held and one == NAMES - 1:
        yield "under the sixteenth name"
    if held and one in waiting:
        yield "under a name placed before, started for the first time"
    if held and record.counts[one] == record.processes - 1:
        yield "of the last entry below P"
    if held and record.threads[one] == LAST_NUMBER - 1:
        yield "with the last thread number"


class Tally:
    """What the calls reached."""

    def __init__(self):
        # by kind of call: the numbers given, the rows that applied together, and what accepted calls reached
        self.numbers, self.rows, self.reached = collections.Counter(), collections.Counter(), collections.Counter()
        self.waiting = set()

    def begin(self):
        self.waiting = set()

    def before(self, record, kind, name, body, at):
        """Counts a call by the record before it."""
        rows = rows_of(record, kind, name, body, at)
        if len(rows) > 1:
            self.rows[kind, tuple(rows)] += 1
        if rows or kind == STEP:
            return
        reached = placed_what(record, name, body, at) if kind == PLACE else started_what(record, name, self.waiting)
        self.reached.update((kind, what) for what in reached)
        one = index(record, name)
        if kind == START:
            self.waiting.discard(one)
        elif one == record.held or record.counts[one] == record.threads[one] == 0:
            self.waiting.add(one)

    def show(self):
        for kind, call in CALLS.items():
            print(f"{call}:", ", ".join(f"{number}: {times}" for (other, number), times in sorted(self.numbers.items()) if other == kind))
        for kind, call in (PLACE, "place"), (START, "start"):
            several = sorted((rows, times) for (other, rows), times in self.rows.items() if other == kind)
            print(f"{call}, several rows:", ", ".join(f"{' and '.join(map(str, rows))}: {times}" for rows, times in several))
            print(f"{call}, accepted:", ", ".join(f"{what}: {times}" for (other, what), times in sorted(self.reached.items()) if other == kind))


def compare_case(tally, where, record, calls, case, results, at):
    """Where the next result begins; None where one differs."""
    tally.begin()
    for k, call in enumerate(calls):
        tally.before(record, *call)
        told = expected(record, *call)
        tally.numbers[call[0], told[0]] += 1
        wanted = TOLD.pack(*told) + record.header() + record.memories()
        got = results[at:at + len(wanted)]
        at += len(wanted)
        if got != wanted:
            show(f"{where}, call {k}", case, calls, wanted, got)
            return None
    return at


def compare(program, count, seed):
    """What the lists reached; None where one differs."""
    tally = Tally()
    numbered = enumerate(itertools.islice(lists(seed), count))
    while batch := list(itertools.islice(numbered, BATCH)):
        inputs = [given(*case) for _, case in batch]
        results, at = subprocess.run([program], input=b"".join(inputs), stdout=subprocess.PIPE, check=True).stdout, 0
        for (number, (record, calls)), case in zip(batch, inputs):
            at = compare_case(tally, f"list {number} of seed {seed}", record, calls, case, results, at)
            if at is None:
                return None
    return tally


def main(program, count="2000", seed="1"):
    tally = compare(program, int(count), int(seed))
    if tally is None:
        return 1
    print(f"{count} lists of place, start and step, {sum(tally.numbers.values())} calls: as in the model. Numbers given:")
    tally.show()
    return 0


sys.exit(main(*sys.argv[1:]))
