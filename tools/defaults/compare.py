#!/usr/bin/env python3
"""Compares the default modifier that the library decides where a body is placed with a model on every opcode and mode byte.

compare.py PROGRAM     PROGRAM is call.c, built as its first comment says

The model makes a table of 19 * 8 * 8 bytes, by opcode, A mode and B mode. PROGRAM places each of the 256 * 256 * 256 triples
of bytes with modifier 255 and compares; it says how many were placed, refused and differ. The status is 1 if any differs.
"""
import itertools
import subprocess
import sys

OPCODES = "DAT MOV ADD SUB MUL DIV MOD JMP JMZ JMN DJN CMP SEQ SNE SLT SPL NOP LDP STP".split()
MODIFIERS = "A B AB BA F X I".split()
MODES = range(8)
IMMEDIATE = 0
NONE = 255

WHATEVER_MODES = {"DAT": "F"} | dict.fromkeys("JMP JMZ JMN DJN SPL NOP".split(), "B")
NO_IMMEDIATE = dict.fromkeys("MOV CMP SEQ SNE".split(), "I") | {"SLT": "B"} | dict.fromkeys("ADD SUB MUL DIV MOD".split(), "F")


def default(opcode, a_mode, b_mode):
    """The name of the default modifier, or None."""
    if opcode in WHATEVER_MODES:
        return WHATEVER_MODES[opcode]
    if a_mode == IMMEDIATE:
        return "AB"
    if b_mode == IMMEDIATE:
        return "B"
    return NO_IMMEDIATE.get(opcode)


def code(modifier):
    return NONE if modifier is None else MODIFIERS.index(modifier)


def main(program):
    table = bytes(code(default(*triple)) for triple in itertools.product(OPCODES, MODES, MODES))
    return subprocess.run([program], input=table).returncode != 0


sys.exit(main(*sys.argv[1:]))
