"""Cases for compare.py, a call on a record each: fresh, a step or a run, with limits, unsound cells and damaged headers among them."""
import random

from cases import damage_over, damage_processes, damaged, fresh_record, made_record, queue_rules
from record import LARGEST_SIZE, LAST_NUMBER, LONGEST_QUEUE, MOST_PROCESSES, NAMES, entry, word
from stepping import JMP, SPL

FRESH, STEP, RUN = range(3)
SIZES = [1, 2, 3, 4, 5, 6, 7, 8, 8, 9, 12, 12, 13, 16, 20, 24, 30, 36, 60]
LARGE = [8000, LARGEST_SIZE - 1, LARGEST_SIZE]
# P and a number of slots that no fresh machine may have, or only just
FEW = [(0, 16), (1, 0), (1, 1), (1, 15), (1, 16), (2, 16), (4, 63), (2**28, 16), (2**28 + 1, 32), (LAST_NUMBER, 16)]
MANY = [(0, NAMES * MOST_PROCESSES), (1, LONGEST_QUEUE), (1, LONGEST_QUEUE + 1), (MOST_PROCESSES, NAMES * MOST_PROCESSES - 1),
        (MOST_PROCESSES, NAMES * MOST_PROCESSES), (MOST_PROCESSES, LONGEST_QUEUE), (MOST_PROCESSES + 1, LONGEST_QUEUE),
        (MOST_PROCESSES + 1, LONGEST_QUEUE + 1)]


def divisors(size):
    return [limit for limit in range(1, size + 1) if size % limit == 0]


DIVISORS = {size: divisors(size) for size in SIZES + LARGE}


def number(dice, size):
    return dice.choice([0, 1, size - 1, size // 2, dice.randrange(size), dice.randrange(size)]) % size


def cell(dice, size, opcodes=range(17)):
    """A sound cell; LDP and STP are rare."""
    opcode = dice.choice(opcodes) if dice.random() < 0.99 else dice.randint(17, 18)
    return word(opcode, dice.randrange(7), dice.randrange(8), dice.randrange(8), number(dice, size), number(dice, size))


def core(dice, size):
    """Any sound cells, or few kinds of them, so that comparisons are of like cells too, or such as split."""
    if dice.random() < 0.2 and size <= 60:
        return [cell(dice, size, dice.choice([[SPL], [SPL, JMP], range(17)])) for _ in range(size)]
    if size > 60:
        few = [cell(dice, size) for _ in range(30)]
        return [few[i % 30] for i in range(size)]
    kinds = [cell(dice, size) for _ in range(dice.choice([2, 3, size]))]
    return [dice.choice(kinds) for _ in range(size)]


def fill_queue(dice, record):
    """Sound entries in the slots taken, of each name as many as its count says, or now and then of any name with a count."""
    names = [i for i in range(record.held) for _ in range(record.counts[i])]
    dice.shuffle(names)
    if dice.random() < 0.15:
        names = [dice.choice(names) for _ in names]
    for k, name in enumerate(names, record.head):
        record.queue[k % len(record.queue)] = entry(dice.randrange(record.size), dice.getrandbits(32), name)


def random_record(dice):
    size = dice.choice(LARGE if dice.random() < 0.003 else SIZES)
    processes, slots = queue_rules(dice, 0.001)
    record = made_record(dice, size, processes, slots)
    while record.length == 0 and dice.random() < 0.9:
        record = made_record(dice, size, processes, slots)
    if dice.random() < 0.7:
        record.threads = [dice.randrange(9) for _ in record.threads]
    record.read, record.write = dice.choice(DIVISORS[size]), dice.choice(DIVISORS[size])
    record.core = core(dice, size)
    fill_queue(dice, record)
    near = dice.random()
    record.steps = LAST_NUMBER - dice.randrange(5) if near < 0.02 else 10000 - dice.randrange(20) if near < 0.2 else dice.randrange(9)
    return record


def damage_cell(dice, record):
    """One to three cells that are not sound."""
    for _ in range(dice.choice([1, 1, 1, 2, 3])):
        at = dice.randrange(len(record.core))
        bad = dice.choice([record.size, dice.randint(record.size, 65535)])
        record.core[at] = dice.choice([
            record.core[at] | 1 << dice.randint(46, 63), record.core[at] | 7 << 38, record.core[at] & ~(31 << 41) | dice.randint(19, 31) << 41,
            record.core[at] & ~65535 | bad, record.core[at] & ~(65535 << 16) | bad << 16, dice.getrandbits(64)])


def damage_front(dice, record):
    """The front entry, and now and then its name's next thread number."""
    at = record.head % len(record.queue)
    record.queue[at] = dice.choice([
        record.queue[at] ^ 1 << dice.randint(48, 63), record.queue[at] & ~65535 | record.size, record.queue[at] | 65535, dice.getrandbits(64)])
    if dice.random() < 0.3:
        record.threads[dice.randrange(16)] = LAST_NUMBER


def faulty_limit(dice, size):
    """One that no header and no fresh machine may have, unless it divides M after all."""
    return dice.choice([0, 0, size - 1, size + 1, 2 * size, dice.randint(0, size + 1), dice.randrange(2**32), LAST_NUMBER])


def damage_limits(dice, record):
    which = dice.randrange(3)
    if which != 1:
        record.read = faulty_limit(dice, record.size)
    if which != 0:
        record.write = faulty_limit(dice, record.size)


def fresh_case(dice, processes, slots):
    """Rules over memories of any content; half of them with something that is refused."""
    size = dice.choice(SIZES)
    record = fresh_record(size, processes, slots)
    record.core, record.queue = ([dice.getrandbits(64) for _ in memory] for memory in (record.core, record.queue))
    record.read, record.write = dice.choice(DIVISORS[size]), dice.choice(DIVISORS[size])
    if dice.random() < 0.3:
        damage_limits(dice, record)
    if dice.random() < 0.15:
        record.size = dice.choice([0, size - 1, size + 1, LARGEST_SIZE, LARGEST_SIZE + 1, LAST_NUMBER])
    return FRESH, None, record


def random_case(dice):
    """A call, its ceiling (None where none is said) and a record."""
    if dice.random() < 0.1:
        return fresh_case(dice, *(dice.choice(FEW) if dice.random() < 0.3 else queue_rules(dice, 0)))
    record = random_record(dice)
    chance = dice.random()
    if chance < 0.18:
        damage_cell(dice, record)
    elif chance < 0.23:
        damage_front(dice, record)
    elif chance < 0.28:
        damage_limits(dice, record)
    elif chance < 0.32:
        damage_processes(dice, record)
    elif chance < 0.34:
        damage_over(dice, record)
    elif chance < 0.41:
        record = damaged(dice, record)
    if dice.random() < 0.75:
        return STEP, None, record
    said = record.steps < 9970 or dice.random() < 0.8
    steps = dice.choice([1, 30, 3000] if len(record.core) > 60 else [0, 1, 2, 5, 10, 30])
    return RUN, record.steps + steps if said else None, record


def cases(seed):
    """Cases without end, the first of them fresh machines."""
    dice = random.Random(seed)
    for rules in FEW + MANY:
        yield fresh_case(dice, *rules)
    while True:
        yield random_case(dice)
