"""Fresh, step and run with all limits, on a whole record: written from the papers, apart from the definitions and the code.

Document 01 has the machine; of document 02 request A.2 has the read and the write limit, A.4 the process limit. The record and its
soundness are those of tools/match_load.
"""
import collections

from model import Refused
from record import FRESH_CELL, LAST_NUMBER, Record, entry, word

DAT, MOV, ADD, SUB, MUL, DIV, MOD, JMP, JMZ, JMN, DJN, CMP, SEQ, SNE, SLT, SPL, NOP, LDP, STP = range(19)
WHOLE = 6
A, B = 0, 1
READ, WRITE = 0, 1
# by mode, # $ * @ { < } >: the field that it goes through, and what is added there before and after
FIELD = [None, None, A, B, A, B, A, B]
BEFORE = [0, 0, 0, 0, -1, -1, 0, 0]
AFTER = [0, 0, 0, 0, 0, 0, 1, 1]
# by modifier: a's field, and b's, which is the target's
PAIRS = [[(A, A)], [(B, B)], [(A, B)], [(B, A)], [(A, A), (B, B)], [(B, A), (A, B)], [(A, A), (B, B)]]
NO_CEILING = 10000
# SPL's children so far, for compare.py: whether one was queued, and what else was so (see push_child)
CHILDREN = collections.Counter()


class Cell:
    def __init__(self, bits):
        self.opcode, self.modifier = bits >> 41 & 31, bits >> 38 & 7
        self.modes, self.numbers = [bits >> 35 & 7, bits >> 32 & 7], [bits >> 16 & 65535, bits & 65535]

    def word(self):
        return word(self.opcode, self.modifier, *self.modes, *self.numbers)


def sound_word(bits, size):
    cell = Cell(bits)
    return bits >> 46 == 0 and cell.opcode <= STP and cell.modifier <= WHOLE and max(cell.numbers) < size


class Instruction:
    """One instruction at a place of a record that is left as it is; the words changed are kept by place."""

    def __init__(self, record, pc):
        self.core, self.size, self.limits, self.pc = record.core, record.size, (record.read, record.write), pc
        self.changed, self.writes = {}, 0
        # the next places, or the number that an ended process gives
        self.next, self.ended = [], None

    def cell(self, place):
        """A copy of a cell that is read."""
        bits = self.changed.get(place, self.core[place])
        if not sound_word(bits, self.size):
            raise Refused(9, 0)
        return Cell(bits)

    def store(self, place, cell):
        self.changed[place] = cell.word()
        self.writes += 1

    def change(self, place, field, by):
        cell = self.cell(place)
        cell.numbers[field] = (cell.numbers[field] + by) % self.size
        self.store(place, cell)

    def fold(self, pointer, limit):
        rest = pointer % limit
        return rest + self.size - limit if rest > limit // 2 else rest

    def place(self, pointer):
        return (self.pc + pointer) % self.size

    def pointer(self, number, mode, limit):
        """Where a chain ends, from PC."""
        if mode == 0:
            return 0
        first = self.fold(number, limit)
        if mode == 1:
            return first
        return self.fold(first + self.cell(self.place(first)).numbers[FIELD[mode]], limit)

    def operand(self, mode, number):
        """The read and the write pointer as places, and the register. Both locations and both pointers are read in every mode."""
        locations = [self.place(self.fold(number, limit)) for limit in self.limits]
        for place in locations:
            self.cell(place)
        if BEFORE[mode]:
            self.change(locations[WRITE], FIELD[mode], BEFORE[mode])
        pointers = [self.place(self.pointer(number, mode, limit)) for limit in self.limits]
        register, _ = [self.cell(place) for place in pointers]
        if AFTER[mode]:
            self.change(locations[WRITE], FIELD[mode], AFTER[mode])
        return pointers, register

    def run(self):
        cell = self.cell(self.pc)
        if cell.opcode in (LDP, STP):
            raise Refused(10, 0)
        (jump, _), a = self.operand(cell.modes[A], cell.numbers[A])
        b_pointers, b = self.operand(cell.modes[B], self.cell(self.pc).numbers[B])
        pairs = [(a.numbers[x], b.numbers[y], y) for x, y in PAIRS[cell.modifier]]
        same = cell.modifier != WHOLE or a.word() == self.cell(b_pointers[READ]).word()
        self.stores(cell, a, pairs, b_pointers[WRITE])
        self.goes(cell.opcode, pairs, same, jump)

    def stores(self, cell, a, pairs, place):
        """What goes to the cell at the B write pointer, if any field does."""
        values = [(y, value(cell.opcode, x, b)) for x, b, y in pairs]
        if all(result is None for _, result in values):
            return
        target = self.cell(place)
        if cell.opcode == MOV and cell.modifier == WHOLE:
            target.opcode, target.modifier = a.opcode, a.modifier
        for field, result in values:
            if result is not None:
                target.numbers[field] = result % self.size
        self.store(place, target)

    def goes(self, opcode, pairs, same, jump):
        zeros, equal = [b == 0 for _, b, _ in pairs], same and all(a == b for a, b, _ in pairs)
        if opcode == DAT:
            self.ended = 11, self.pc
        elif opcode in (DIV, MOD) and any(zeros):
            self.ended = 12, 0
        elif opcode == SPL:
            self.next = [self.place(1), jump]
        elif (opcode == JMP or opcode == JMZ and any(zeros) or opcode == JMN and not all(zeros)
              or opcode == DJN and any((b - 1) % self.size for _, b, _ in pairs)):
            self.next = [jump]
        elif (opcode in (CMP, SEQ) and equal or opcode == SNE and not equal
              or opcode == SLT and all(a < b for a, b, _ in pairs)):
            self.next = [self.place(2)]
        else:
            self.next = [self.place(1)]


def value(opcode, a, b):
    """What is stored of a and b, before it is reduced; None where nothing is."""
    if opcode in (DIV, MOD):
        return None if b == 0 else a // b if opcode == DIV else a % b
    return {MOV: a, ADD: a + b, SUB: b - a, MUL: a * b, DJN: b - 1}.get(opcode)


def fresh_number(record):
    faults = record.faults()
    if "M" in faults:
        return 1
    if {"core", "queue", "P"} & set(faults):
        return 2
    return 14 if "limits" in faults else 0


def fresh(record):
    """Number, value, writes and steps; of the record the memories and the rules count. A refusal leaves the memories, and gives a header of zeros."""
    number, made = fresh_number(record), Record(record.core, record.queue)
    if number == 0:
        made.size, made.read, made.write, made.processes = record.size, record.read, record.write, record.processes
        made.core, made.queue = [FRESH_CELL] * record.size, [0] * len(record.queue)
    vars(record).update(vars(made))
    return number, 0, 0, 0


def front(record):
    """Place, thread and name of the front entry."""
    if record.length == 0:
        raise Refused(7, 0)
    bits = record.queue[record.head]
    place, thread, name = bits & 65535, bits >> 16 & LAST_NUMBER, bits >> 48 & 15
    if bits >> 52 or name >= record.held or record.counts[name] == 0 or place >= record.size:
        raise Refused(9, 0)
    if LAST_NUMBER in (record.steps, record.threads[name]):
        raise Refused(8, 0)
    return place, thread, name


def push(record, place, thread, name):
    record.queue[(record.head + record.length) % len(record.queue)] = entry(place, thread, name)
    record.length += 1
    record.counts[name] += 1


def push_child(record, place, name):
    """A child is dropped where its name holds P entries, and then no thread number is used."""
    others = [count for at, count in enumerate(record.counts[:record.held]) if at != name]
    queued = record.counts[name] < record.processes
    CHILDREN[queued] += 1
    CHILDREN[queued, "another name held P"] += record.processes in others
    CHILDREN[queued, "another name held fewer"] += any(count < record.processes for count in others)
    CHILDREN[queued, "the ring was full"] += record.length == len(record.queue)
    if queued:
        push(record, place, record.threads[name], name)
        record.threads[name] += 1


def sound_step(record):
    """A step past the test of the header."""
    try:
        place, thread, name = front(record)
        done = Instruction(record, place)
        done.run()
    except Refused as refused:
        return *refused.args, 0, 0
    for at, bits in done.changed.items():
        record.core[at] = bits
    record.head = (record.head + 1) % len(record.queue)
    record.length -= 1
    record.counts[name] -= 1
    record.steps += 1
    for at in done.next[:1]:
        push(record, at, thread, name)
    for at in done.next[1:]:
        push_child(record, at, name)
    number = done.ended if done.ended and record.counts[name] == 0 else (0, 0)
    return *number, done.writes, 1


def step(record):
    """Number, value, writes and steps of the call."""
    return sound_step(record) if record.sound() else (9, 0, 0, 0)


def run(record, ceiling=None):
    number, value_told, writes, steps = 0 if record.sound() else 9, 0, 0, 0
    while number == 0 and record.steps < (NO_CEILING if ceiling is None else ceiling):
        number, value_told, more, one = sound_step(record)
        writes, steps = writes + more, steps + one
    return number, value_told, writes, steps
