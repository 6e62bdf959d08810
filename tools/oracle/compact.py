#!/usr/bin/env python3
"""Turns battles, one to a line, into the compact form that the program `replay` reads: compact.py < BATTLES > BYTES

Numbers are little-endian. A battle: core size (2), number of calls (2), the calls. A call: its kind (1), and
0, a load of the Rust: name length (1), name, origin (2; 65,535 for none), instruction count (2), a match file's 12 bytes for each
1, step
2, run: ceiling (4)
3, run with no ceiling given
"""
import struct
import sys


def call(words):
    if words[0] == "step":
        return bytes([1])
    if words[0] == "run":
        return bytes([3]) if words[1] == "-" else struct.pack("<BI", 2, int(words[1]))
    name = words[1][1:].encode()
    origin = 65535 if words[2] == "-" else int(words[2])
    body = [struct.pack("<BBBBii", *map(int, text.split("."))) for text in words[3:]]
    return bytes([0, len(name)]) + name + struct.pack("<HH", origin, len(body)) + b"".join(body)


for line in sys.stdin:
    words = line.split()
    calls = []
    for word in words[1:]:
        if word == "|":
            calls.append([])
        else:
            calls[-1].append(word)
    sys.stdout.buffer.write(struct.pack("<HH", int(words[0]), len(calls)) + b"".join(map(call, calls)))
