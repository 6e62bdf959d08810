"""A match loaded in one call, on a whole record: written from the papers, apart from the definitions and the code.

Document 01 has the match file; of document 02 request A.1 has the call, A.5 that it places and starts each warrior before the next.
"""
from model import Refused, read
from placing import place, start

NO_ORIGIN = 65535


def start_place(origin, at, size):
    """Where a warrior placed there is started."""
    return (at + (0 if origin == NO_ORIGIN else origin)) % size


def load_match(record, file):
    """Number, value, warrior, writes and steps of the call."""
    warrior = writes = 0
    try:
        if not record.sound():
            raise Refused(9, 0)
        size, warriors = read(file)
        if size != record.size:
            raise Refused(1, 0)
        for warrior, (name, body, origin, at) in enumerate(warriors):
            writes += place(record, name, body, at)
            start(record, name, start_place(origin, at, size))
    except Refused as refused:
        return *refused.args, warrior, writes, 0
    return 0, 0, 0, writes, 0
