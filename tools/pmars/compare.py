#!/usr/bin/env python3
# compare.py PMARS SEED COUNT [FOLDER ROWS]: see README.md
import collections, os, pathlib, random, re, subprocess, sys, tempfile
sys.dont_write_bytecode = True
import draft
from rows import random_step, write_crate

OPCODES = "DAT MOV ADD SUB MUL DIV MOD JMP JMZ JMN DJN CMP SEQ SNE SLT SPL NOP".split()
MODIFIERS = "A B AB BA F X I".split()
MODES = "#$*@{<}>"
# how many processes each warrior may have, as in Played.antt.txt
PROCESSES = 8
KINDS = "no departure", "departures 1 to 5", "departure 6", "B mode #"
LINE = re.compile(r"(\d{5})   (?:([A-Z]{3})\.([A-Z]{1,2})\s+(\S)\s*(-?\d+),\s*(\S)\s*(-?\d+))?")


def text(c):
    return f"{OPCODES[c[0]]}.{MODIFIERS[c[1]]} {MODES[c[2]]}{c[4]},{MODES[c[3]]}{c[5]}"


def generate(rng, i):
    """A core of 2 to 13 cells; PC is not its last cell, which `play` edits in."""
    size = rng.randint(2, 13)
    return random_step(rng, i, size, size - 1)


def play(pmars, name, core, pc):
    """One step in pMARS's debugger: the core afterwards and the places queued, in order."""
    size = len(core)
    with open(name, "w") as f:
        f.write(";assert 1\n" + "".join(text(c) + "\n" for c in core[:-1]) + f"ORG {pc}\n")
    commands = f"edit {size - 1}\n{text(core[-1])}\ntrace 0,{size - 1}\ngo\nlist 0,{size - 1}\nregisters\nquit\nquit\n"
    run = [pmars, "-b", "-e", "-s", str(size), "-l", str(size), "-d", str(size), "-p", str(PROCESSES), name]
    out = subprocess.run(run, input=commands, capture_output=True, text=True, timeout=20).stdout
    listed, queue = out[:out.index("(cdb) Round ")], out[out.index("Process queue:"):].split("\n")[1]
    after = {}
    for m in LINE.finditer(listed):
        at, op, k, am, a, bm, b = m.groups()
        after[int(at)] = [OPCODES.index(op), MODIFIERS.index(k), MODES.index(am), MODES.index(bm), int(a) % size, int(b) % size] if op else [0, 4, 1, 1, 0, 0]
    first = re.search(r"\[(\d+)\]", queue)
    others = [int(n) for n in re.findall(r"\d+", re.sub(r"\[\d+\]", "", queue))]
    return [after[i] for i in range(size)], [int(first.group(1))] + others if first else []


def known(core, pc):
    """pMARS's difference from the draft: B mode # with an A mode among { < } > and A number 0.
    Its B register is the instruction as fetched, not the live cell that A's change left."""
    return core[pc][draft.BMODE] == 0 and core[pc][draft.AMODE] >= 4 and core[pc][draft.ANUMBER] == 0


def main():
    pmars, seed, count = sys.argv[1], int(sys.argv[2]), int(sys.argv[3])
    rng = random.Random(seed)
    tally = collections.Counter()
    rows = []
    with tempfile.TemporaryDirectory() as folder:
        for i in range(count):
            core, pc = generate(rng, i)
            after, places = play(pmars, os.path.join(folder, "warrior.red"), core, pc)
            model = [list(c) for c in core]
            same = draft.step(model, pc) == places and model == after
            apply = draft.departures(core, pc)
            kind = KINDS[3 if known(core, pc) else 2 if 6 in apply and 1 not in apply else 1 if apply else 0]
            tally[kind, same] += 1
            if kind in KINDS[:2]:
                rows.append((core, pc, after, places, len(core), len(core)))
                if not same:
                    print("differs:", pc, [text(c) for c in core], "pMARS:", [text(c) for c in after], places, "draft:", [text(c) for c in model])
    for kind in KINDS:
        print(f"{kind}: {tally[kind, True]} agreed, {tally[kind, False]} differed")
    if len(sys.argv) > 4:
        write_crate(pathlib.Path(sys.argv[4]), "pmars", rows[:int(sys.argv[5])])


main()
