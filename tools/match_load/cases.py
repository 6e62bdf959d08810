"""Cases for compare.py, a record and a match file each: a file cut at each length and changed in each byte, large queues, then random ones."""
import contextlib
import random
import struct

from loading import NO_ORIGIN
from model import Machine, Refused
from record import FRESH_CELL, LARGEST_SIZE, LAST_NUMBER, LONGEST_QUEUE, MOST_PROCESSES, NAMES, NAME_BYTES, Record, entry, word

LINE = 43
# values of P, and a P with the number of slots of a large queue memory
PROCESSES = [1, 1, 2, 2, 3, 4, 5, 8, 16]
LARGE = [(125, 2000), (1, LONGEST_QUEUE), (1, LONGEST_QUEUE + 1), (MOST_PROCESSES, LONGEST_QUEUE), (MOST_PROCESSES, NAMES * MOST_PROCESSES)]
NUMBERS = [0, 0, 1, 1, -1, 2, -2, 7, 9, 100, -100, 65535, 65536, 2**31 - 1, -(2**31)]
# names that the files and the records have in common, the empty one among them
POOL = [b"", b"", b"Warrior0", b"A", b"B", b"A1", b"!", b"~" * NAME_BYTES, b"N" * 31, b"N" * 31 + b"M", b"warrior-10", b"warrior-11"]
# one code too large, or a default that is not there
FAULTY = [(19, 4, 1, 1), (255, 255, 0, 0), (1, 7, 1, 1), (1, 254, 1, 1), (1, 6, 8, 1), (1, 6, 1, 8), (17, 255, 1, 1), (18, 255, 3, 7)]


def made(size, warriors):
    """A match file; a warrior is name, body, origin and place."""
    start, lines = 4 + LINE * len(warriors), b""
    for name, body, origin, place in warriors:
        lines += struct.pack("<B32sIHHH", len(name), name, start, len(body) // 12, origin, place)
        start += len(body)
    return struct.pack("<BHB", len(warriors), size, 0) + lines + b"".join(body for _, body, _, _ in warriors)


def fresh_record(size, processes, slots=None):
    """A fresh machine without a read and a write limit, with as few slots in the queue memory as P needs where their number is not said."""
    record = Record([FRESH_CELL] * size, [0] * (NAMES * processes if slots is None else slots))
    record.size = record.read = record.write = size
    record.processes = processes
    return record


def queue_rules(dice, large):
    """P and a number of slots, as few as it needs or some more; the chance of a large queue memory is given."""
    if dice.random() < large:
        return dice.choice(LARGE)
    processes = dice.choice(PROCESSES)
    return processes, NAMES * processes + dice.choice([0, 0, 0, 1, 5, 15, 16])


def instruction(dice, opcodes=19):
    modifier = dice.choice([0, 1, 2, 3, 4, 5, 6, 255])
    opcode, a_mode, b_mode = dice.randrange(opcodes), dice.randrange(8), dice.randrange(8)
    if opcode > 16 and modifier == 255:
        a_mode = 0
    return struct.pack("<BBBBii", opcode, modifier, a_mode, b_mode, dice.choice(NUMBERS), dice.choice(NUMBERS))


def body(dice, size):
    length = size if dice.random() < 0.1 and size <= 60 else dice.randint(0, min(size, 6))
    return b"".join(instruction(dice) for _ in range(length))


def any_name(dice, held):
    chance = dice.random()
    if held and chance < 0.4:
        return dice.choice(held)
    if chance < 0.7:
        return dice.choice(POOL)
    return bytes(dice.randint(33, 126) for _ in range(dice.randint(1, NAME_BYTES)))


def with_fault(dice, codes):
    """The body with a faulty instruction in place of one, or after the last."""
    at = 12 * dice.randint(0, len(codes) // 12)
    return codes[:at] + bytes(dice.choice(FAULTY)) + bytes(8) + codes[at + 12:]


def spoiled(dice, size, warrior):
    """The warrior with one or several of: too many instructions, faulty codes, a place not below M."""
    name, codes, origin, place = warrior
    faults = dice.choice(["code", "code", "place", "long", "code place", "long code", "long code place"])
    if "long" in faults and size <= 8000:
        codes += b"".join(instruction(dice) for _ in range(size + dice.choice([1, 1, 2, 5]) - len(codes) // 12))
    if "code" in faults:
        for _ in range(dice.choice([1, 1, 2])):
            codes = with_fault(dice, codes)
    if "place" in faults:
        place = dice.choice([size, size, size + 1, 65535])
    return name, codes, origin, place


def match(dice, record):
    """A match file, of the record's M but now and then of another."""
    size = len(record.core) or 1
    held = record.names()
    origins = [NO_ORIGIN, NO_ORIGIN - 1, 0, 0, 1, size, dice.randrange(65536)]
    count = dice.choice([1, 2, 3, 5, 8, 15, 16, 16])
    warriors = [(any_name(dice, held), body(dice, size), dice.choice(origins), dice.randrange(size)) for _ in range(count)]
    for _ in range(dice.choice([0, 0, 0, 1, 1, 2])):
        at = dice.randrange(count)
        warriors[at] = spoiled(dice, size, warriors[at])
    other = dice.choice([0, size - 1, size + 1, LARGEST_SIZE + 1, 65535]) if dice.random() < 0.06 else size
    return made(other, warriors)


def damaged_file(dice, file):
    contents = min(len(file), 4 + LINE * file[0])
    kind = dice.randrange(4)
    if kind == 0:
        return file[:dice.randint(0, len(file))]
    if kind == 1:
        return file + bytes(dice.randint(1, 12))
    at = dice.randrange(contents if kind == 2 else len(file))
    return changed(dice, file, at)


def changed(dice, file, at):
    """One byte made another."""
    byte = dice.choice([(file[at] + 1) % 256, (file[at] - 1) % 256, file[at] ^ 1 << dice.randrange(8), 255])
    return file[:at] + bytes([byte]) + file[at + 1:]


def played_record(dice, size, processes, slots):
    """A machine with bodies placed, most of them started, and stepped by the model of tools/matches; slots not taken hold anything."""
    machine = Machine(size, processes)
    for _ in range(dice.randint(1, 4)):
        name, at = dice.choice(POOL), dice.randrange(size)
        codes = b"".join(instruction(dice, 17) for _ in range(dice.randint(1, min(size, 5))))
        with contextlib.suppress(Refused):
            machine.place(name, codes, at)
            if dice.random() < 0.8:
                machine.start(name, (at + dice.choice([0, 0, 1])) % size)
    for _ in range(dice.randint(0, 30)):
        machine.step()
    record = fresh_record(size, processes, slots)
    record.core = [word(opcode, modifier, *modes, *numbers) for opcode, modifier, modes, numbers in machine.core]
    record.queue = [dice.getrandbits(64) for _ in range(slots)]
    record.steps, record.head = machine.steps, machine.steps % slots
    record.length, record.held = len(machine.queue), len(machine.counts)
    names = list(machine.counts)
    for i, name in enumerate(names):
        record.name(i, name.encode())
        record.counts[i], record.threads[i] = machine.counts[name], machine.threads[name]
    for k, (place, thread, name) in enumerate(machine.queue, record.head):
        record.queue[k % slots] = entry(place, thread, names.index(name))
    return record


def held_counts(dice, held, processes):
    """The counts of the names: all P, more often where all sixteen are held, or each up to P and near it as often as not."""
    if dice.random() < (0.5 if held == NAMES else 0.15):
        return [processes] * held
    return [dice.choice([0, 1, processes - 1, processes, processes, dice.randint(0, processes)]) for _ in range(held)]


def made_record(dice, size, processes, slots):
    """A sound header over any memory: names up to the sixteenth, counters near their end, slots without a name that hold anything."""
    record = fresh_record(size, processes, slots)
    record.core = [dice.getrandbits(64) for _ in range(size)] if size <= 60 else record.core
    record.queue = [dice.getrandbits(64) for _ in range(slots)] if slots <= 400 else record.queue
    record.held = dice.choice([0, 1, 2, 5, 14, 15, 15, 16, 16])
    for i in range(record.held, NAMES):
        record.name(i, bytes(dice.randrange(256) for _ in range(NAME_BYTES)))
        record.lengths[i] = dice.randrange(256)
        record.counts[i], record.threads[i] = dice.choice([0, 1, LAST_NUMBER]), dice.choice([0, 1, LAST_NUMBER])
    names = [name for name in POOL if name]
    names += [(b"held-%d" % i).ljust(dice.choice([0, NAME_BYTES]), b".") for i in range(NAMES)]
    dice.shuffle(names)
    for i in range(record.held):
        record.name(i, names[i])
        record.threads[i] = LAST_NUMBER - dice.randrange(3) if dice.random() < 0.3 else dice.randrange(9)
    record.counts[:record.held] = held_counts(dice, record.held, processes)
    record.length = sum(record.counts[:record.held])
    record.head, record.steps = dice.choice([0, slots - 1, dice.randrange(slots)]), dice.choice([0, 7, LAST_NUMBER])
    return record


def damage_name(dice, record):
    i = dice.randrange(max(1, min(record.held, NAMES)))
    kind = dice.randrange(3)
    if kind == 0:
        within = dice.choice([NAME_BYTES, max(1, min(NAME_BYTES, record.lengths[i]))])
        record.bytes[NAME_BYTES * i + dice.randrange(within)] = dice.choice([0, 32, 33, 126, 127, 255])
    elif kind == 1:
        record.lengths[i] = dice.choice([0, record.lengths[i] - 1, NAME_BYTES, NAME_BYTES + 1, NAME_BYTES + 1, 255]) % 256
    else:
        other = dice.randrange(NAMES)
        record.name(i, bytes(record.bytes[NAME_BYTES * other:NAME_BYTES * (other + 1)]))
        record.lengths[i] = record.lengths[other]


def damage_over(dice, record):
    """A count over P, and the length with it."""
    if record.held:
        one = dice.randrange(record.held)
        over = record.processes + dice.choice([1, 1, 2, record.processes])
        record.length += over - record.counts[one]
        record.counts[one] = over


def damage_counts(dice, record):
    """One count changed, two whose sum stays, two whose sum is the same only in 32 bits, or one that is over P."""
    one, other, half = dice.randrange(NAMES), dice.randrange(NAMES), 2**31
    kind = dice.randrange(5)
    if kind == 0:
        record.counts[one] = dice.choice([0, record.counts[one] ^ 1, half, LAST_NUMBER])
    elif kind == 1 and record.counts[one]:
        record.counts[one] -= 1
        record.counts[other] = (record.counts[other] + 1) % 2**32
    elif kind == 2 and one != other and max(record.counts[one], record.counts[other]) < half:
        record.counts[one] += half
        record.counts[other] += half
    elif kind > 2:
        damage_over(dice, record)


def damage_processes(dice, record):
    """A P that is out of its range, too large for the queue memory, or below a count; and others that are none of these."""
    most, largest = len(record.queue) // NAMES, max(record.counts[:record.held], default=0)
    record.processes = dice.choice([0, most + 1, most + 1, largest - 1, largest, most, 1, MOST_PROCESSES, MOST_PROCESSES + 1, 2**28, LAST_NUMBER]) % 2**32


def damage_limit(dice, record):
    """A limit that does not divide M, or another that does."""
    limit = dice.choice([0, 1, 2, 3, record.size - 1, record.size, record.size + 1, 2 * record.size, LAST_NUMBER]) % 2**32
    if dice.random() < 0.5:
        record.read = limit
    else:
        record.write = limit


def damaged(dice, record):
    """The record with one field of its header, one bit of it or a memory's length changed; some of these are sound."""
    slots = len(record.queue)
    kind = dice.randrange(13)
    if kind == 0:
        record.size = dice.choice([0, record.size - 1, record.size + 1, LARGEST_SIZE, LARGEST_SIZE + 1, LAST_NUMBER])
    elif kind == 1:
        record.head = dice.choice([0, slots - 1, slots, slots + 1, LAST_NUMBER])
    elif kind == 2:
        before = record.length
        record.length = dice.choice([0, before + 1, slots, slots + 1, LAST_NUMBER])
        if dice.random() < 0.5:
            record.counts[0] = (record.counts[0] + record.length - before) % 2**32
    elif kind == 3:
        record.steps = dice.choice([0, LAST_NUMBER - 1, LAST_NUMBER])
    elif kind == 4:
        record.held = dice.choice([0, record.held + 1, NAMES, NAMES + 1, LAST_NUMBER])
    elif kind == 5:
        damage_name(dice, record)
    elif kind == 6:
        damage_counts(dice, record)
    elif kind == 7:
        record.threads[dice.randrange(NAMES)] = dice.choice([LAST_NUMBER - 1, LAST_NUMBER])
    elif kind == 8:
        header = bytearray(record.header())
        header[dice.randrange(len(header))] ^= 1 << dice.randrange(8)
        record = Record(record.core, record.queue, bytes(header))
    elif kind == 9:
        record.core = dice.choice([record.core, record.core[1:], record.core + [FRESH_CELL]])
        record.queue = dice.choice([record.queue, record.queue[1:], [], record.queue + [0]])
    elif kind == 10:
        damage_limit(dice, record)
    else:
        damage_processes(dice, record)
    return record


def random_record(dice):
    size = dice.choice([8000, LARGEST_SIZE] if dice.random() < 0.002 else [1, 2, 3, 5, 8, 8, 13, 40, 60])
    processes, slots = queue_rules(dice, 0.003)
    kind = dice.choice([fresh_record, played_record, made_record, made_record])
    if kind is fresh_record or size > 8000:
        return fresh_record(size, processes, slots)
    return kind(dice, size, processes, slots)


def random_case(dice):
    record = random_record(dice)
    file = match(dice, record)
    if dice.random() < 0.25:
        record = damaged(dice, record)
    if dice.random() < 0.2:
        file = damaged_file(dice, file)
    return record, file


def cases(seed):
    """Cases without end."""
    dice = random.Random(seed)
    pair = made(8, [(b"Imp", instruction(dice) * 2, 1, 7), (b"", instruction(dice), NO_ORIGIN, 3)])
    for length in range(len(pair) + 1):
        yield fresh_record(8, 4), pair[:length]
    for at in range(len(pair)):
        yield fresh_record(8, 4), changed(dice, pair, at)
    for rules in LARGE:
        yield fresh_record(8, *rules), pair
    while True:
        yield random_case(dice)
