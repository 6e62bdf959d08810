"""A whole record, and when its header is sound: written from the papers, apart from the definitions and the code.

Document 01 has the record and the sound header; of document 02 request A.2 has the read and the write limit, A.4 the process limit.
"""
import struct

NAMES, NAME_BYTES = 16, 32
LARGEST_SIZE, LONGEST_QUEUE = 46341, 65535
MOST_PROCESSES = 4095
LAST_NUMBER = 4294967295
HEADER = struct.Struct(f"<8I{NAMES * NAME_BYTES}s{NAMES}s{NAMES}I{NAMES}I")


def word(opcode, modifier, a_mode, b_mode, a, b):
    return opcode << 41 | modifier << 38 | a_mode << 35 | b_mode << 32 | a << 16 | b


def entry(place, thread, name):
    return name << 48 | thread << 16 | place


FRESH_CELL = word(0, 4, 1, 1, 0, 0)


def divides(limit, size):
    return limit > 0 and size % limit == 0


class Record:
    """Core and queue as lists of words, and the header's fields."""

    def __init__(self, core, queue, header=bytes(HEADER.size)):
        self.core, self.queue = core, queue
        *first, names, lengths = HEADER.unpack(header)[:-2 * NAMES]
        self.size, self.read, self.write, self.processes, self.head, self.length, self.steps, self.held = first
        self.bytes, self.lengths = bytearray(names), bytearray(lengths)
        numbers = list(HEADER.unpack(header)[-2 * NAMES:])
        self.counts, self.threads = numbers[:NAMES], numbers[NAMES:]

    def header(self):
        first = self.size, self.read, self.write, self.processes, self.head, self.length, self.steps, self.held
        return HEADER.pack(*first, bytes(self.bytes), bytes(self.lengths), *self.counts, *self.threads)

    def memories(self):
        return struct.pack(f"<{len(self.core) + len(self.queue)}Q", *self.core, *self.queue)

    def names(self):
        return [bytes(self.bytes[NAME_BYTES * i:NAME_BYTES * i + self.lengths[i]]) for i in range(self.held)]

    def name(self, i, name):
        """Puts a name into a slot."""
        self.bytes[NAME_BYTES * i:NAME_BYTES * (i + 1)] = name.ljust(NAME_BYTES, b"\0")
        self.lengths[i] = len(name)

    def sound_names(self):
        """At most 16 names, each valid, not empty and unlike the others."""
        if self.held > NAMES or not all(1 <= length <= NAME_BYTES for length in self.lengths[:self.held]):
            return False
        names = self.names()
        return all(33 <= byte <= 126 for name in names for byte in name) and len(set(names)) == self.held

    def faults(self):
        """What is unsound in the header, a word for each test."""
        slots, counts = len(self.queue), self.counts[:self.held]
        tests = {
            "M": 1 <= self.size <= LARGEST_SIZE,
            "core": self.size == len(self.core),
            "queue": 1 <= slots <= LONGEST_QUEUE,
            "P": 1 <= self.processes <= MOST_PROCESSES and slots >= NAMES * self.processes,
            "limits": divides(self.read, self.size) and divides(self.write, self.size),
            "ring": self.length <= slots and self.head < slots,
            "names": self.sound_names(),
            "sum": sum(counts) == self.length,
            "count over P": all(count <= self.processes for count in counts),
        }
        return [test for test, passed in tests.items() if not passed]

    def sound(self):
        return not self.faults()
