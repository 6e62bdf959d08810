"""Place and start, on a whole record: written from the papers, apart from the definitions and the code.

Document 01 has the body, the name and what they are refused for; of document 02 request A.5 has the two calls, A.4 the process limit.
The record is that of tools/match_load.
"""
import struct

from model import Refused, default
from record import LAST_NUMBER, NAMES, NAME_BYTES, entry, word

UNNAMED = b"Warrior0"


def cell(instruction, size):
    """The cell of an instruction's 12 bytes, or None where they have a faulty code or are fewer."""
    if len(instruction) < 12:
        return None
    opcode, modifier, a_mode, b_mode, a, b = struct.unpack("<BBBBii", instruction)
    if opcode > 18 or a_mode > 7 or b_mode > 7:
        return None
    if modifier == 255:
        modifier = default(opcode, a_mode, b_mode)
    if modifier is None or modifier > 6:
        return None
    return word(opcode, modifier, a_mode, b_mode, a % size, b % size)


def cells(body, size):
    return [cell(body[at:at + 12], size) for at in range(0, len(body), 12)]


def index(record, name):
    """The index that a name has, or would get."""
    names = record.names()
    return names.index(name or UNNAMED) if (name or UNNAMED) in names else record.held


def out_of_range(record, name, at):
    return len(name) > NAME_BYTES or not all(33 <= byte <= 126 for byte in name) or at >= record.size


def place_rows(record, name, body, at):
    """Of the order's rows those that apply, with their values; past the first nothing is looked at where the header is unsound."""
    if not record.sound():
        return [(9, 0)]
    made = cells(body, record.size)
    rows = [(3, 0)] if len(made) > record.size else []
    rows += [(4, made.index(None))] if None in made else []
    rows += [(5, 0)] if out_of_range(record, name, at) else []
    return rows + ([(6, 0)] if index(record, name) == NAMES else [])


def start_rows(record, name, at):
    if not record.sound():
        return [(9, 0)]
    one = index(record, name)
    rows = [(5, 0)] if out_of_range(record, name, at) else []
    if one == NAMES or one < record.held and record.counts[one] == record.processes:
        rows += [(6, 0)]
    return rows + ([(8, 0)] if one < record.held and record.threads[one] == LAST_NUMBER else [])


def register(record, name):
    """The index of a name, which is held from now on."""
    one = index(record, name)
    if one == record.held:
        record.name(one, name or UNNAMED)
        record.counts[one] = record.threads[one] = 0
        record.held += 1
    return one


def place(record, name, body, at):
    """Places a body and gives the writes, or raises the refusal and changes nothing."""
    for row in place_rows(record, name, body, at):
        raise Refused(*row)
    register(record, name)
    made = cells(body, record.size)
    for k, each in enumerate(made, at):
        record.core[k % record.size] = each
    return len(made)


def start(record, name, at):
    """Starts a process and gives the writes, or raises the refusal and changes nothing."""
    for row in start_rows(record, name, at):
        raise Refused(*row)
    one = register(record, name)
    record.queue[(record.head + record.length) % len(record.queue)] = entry(at, record.threads[one], one)
    record.length += 1
    record.counts[one] += 1
    record.threads[one] += 1
    return 0
