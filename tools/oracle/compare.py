#!/usr/bin/env python3
"""Turns battles recorded from the Rust (oracle --core) into theorems that the machine's definitions give the same.

compare.py ANSWERS REPOSITORY [--reference] [--per N] [--modules N] [--only FIRST[-LAST]] [--most N] [--each]

Writes the crate CRATE below REPOSITORY/crates and lists it in crates.txt; then: cd REPOSITORY/crates/CRATE && rt check.
--reference  compares the Rust's machine as crate `reference` defines it, not ours
--per      battles to a theorem (20); theorem battles-40-59 holds battles 40 to 59, counted from 0. The prover stops
           at a number of steps to a theorem: take 10 for runs of hundreds of steps, 1 for cores of thousands of cells
--modules  theorems to a module (10)
--only     these battles alone
--most     leaves out battles of more steps than that
--each     a theorem for each call and row, to find what differs: battle-40-call-3-core

After every call: number, value, the call's steps, steps taken, the queue's entries as words, counts, next thread
numbers, the core's words, the names' bytes. Cores over SPARSE cells: only the cells that are not fresh, with their places.
The Rust has no process limit: the machine's is as large as any name of the battle needs, at most the largest that there is.
A panic at a step on LDP or STP is to be answer 10 with the machine unchanged; any other panic ends what is compared.
With --reference: number and value (14 for a panic), steps taken, the instructions, then each entry and each name's count
and next thread number with the name's bytes; after a panic, too.
"""
import argparse
import os
import shutil
import sys

# ---- what depends on the repository -------------------------------------------------------------------------------
CRATE = "compared"
DEPENDS = ["laws", "answer", "offset", "types", "cell", "encoding", "metadata", "program", "machine"]

# imports of the module Play
USES = """\
use Rattle.offset.specs.Offset.{ahead}
use Rattle.cell.specs.Cells.{sound_word}
use Rattle.program.specs.Program.{lawful, lowest_fault, cells}
use Rattle.std.specs.Prelude.{None, Some}
use Rattle.machine.specs.State.{of_size, Machine, Outcome, and_then}
use Rattle.machine.specs.Names.{names, register, numbered}
use Rattle.machine.specs.Queue.{entries, pop, push, started}
use Rattle.machine.specs.Soundness.{sound_header, sound_entry}
use Rattle.machine.specs.Fresh.{fresh}
use Rattle.machine.specs.Place.{placing, place}
use Rattle.machine.specs.Start.{starting, start}
use Rattle.machine.specs.Pointers.{operand}
use Rattle.machine.specs.Execution.{effect_of}
use Rattle.machine.specs.Step.{effect, core_after, step_written, counted, executed, step}
use Rattle.machine.specs.Run.{Ceiling, run}
"""

# the shut names that a battle computes through
OPENED = "sound_word lawful lowest_fault cells register numbered entries pop push started sound_header sound_entry fresh placing place starting start operand effect_of effect core_after step_written counted executed step run"

# the calls, on a machine m: `size`, `processes` and `slots` are numbers, `name` and `body` bytes, `origin` a number, `ceiling` an Option ℕ.
# A load of the Rust is a place at 0 and, where that is accepted, a start at the origin.
FRESH = "(fresh (of_size size processes) (replicate size 7) (replicate slots 9)).machine"
LOAD = "and_then (place m name body 0) (λ n. start n name (start_place n origin))"
STEP = "step m"
RUN = "run (ceilings ceiling) m"

# what is told of an outcome o, its machine m and header h; then the core's cells and the names follow
TOLD = "(o.number ∷ o.value ∷ o.steps ∷ h.steps ∷ []) ∷ entries m ∷ take h.names.held h.counts ∷ take h.names.held h.threads"
NAMES = "names h.names"

# the same for the Rust's machine as crate `reference` defines it
RUST_DEPENDS = DEPENDS + ["account", "reference"]
RUST_OPENED = "evaluate_a evaluate_b execute push load_warrior step run"
PANIC = 14
# its opcodes, by the numbers of docs/MACHINE.md
RUST_OPCODES = [2, 10, 0, 18, 11, 3, 9, 6, 7, 5, 4, 1, 13, 15, 14, 16, 12, 8, 17]

# the theorems' modules
OWN = f"Rattle.{CRATE}.proofs"
SPARSE = 64
# -------------------------------------------------------------------------------------------------------------------

# the largest process limit, and how many times as many slots the queue has at the least
MOST_PROCESSES, NAMES_HELD = 4095, 16

# DAT.F $0,$0
FRESH_WORD = 4 << 38 | 1 << 35 | 1 << 32
SPL = 15
ROWS = ["answer", "entries", "counts", "threads", "core"]
RUST_ROWS = ["answer", "core"]

PLAY = f"""\
-- Plays a list of calls on 01's machine and tells what each left, as numbers.
-- Assumes nothing.
use Prim.Native.Nat.{{ℕ, suc}}
use mathlib.Core.Bool.{{cond}}
use mathlib.Core.List.{{List, [], ◌∷◌}}
use mathlib.Core.Option.{{Option, none, some}}
use lib.Dec.{{eqb, leb}}
use lib.ListN.{{take, replicate}}
{USES}
pub data Call : Type 0 where
  loads : List ℕ → List ℕ → ℕ → Call
  steps : Call
  runs : Option ℕ → Call

abbrev ceilings : Option ℕ → Ceiling
ceilings none = None
ceilings (some n) = Some n

-- where a body at 0 is started: at its origin; 65,535 is none, and means 0
abbrev start_place : Machine → ℕ → ℕ
start_place m origin = ahead m.header.rules.size 0 (cond (eqb origin 65535) 0 origin)

abbrev answered : Call → Machine → Outcome
answered (loads name body origin) m = {LOAD}
answered steps m = {STEP}
answered (runs ceiling) m = {RUN}

-- place and word of each cell that is not fresh
abbrev changed : ℕ → List ℕ → List ℕ
changed i [] = []
changed i (w ∷ ws) = cond (eqb w {FRESH_WORD}) (changed (suc i) ws) (i ∷ w ∷ changed (suc i) ws)

abbrev told : ℕ → Outcome → List (List ℕ)
told size o =
    let m = o.machine in
    let h = m.header in
    {TOLD} ∷ cond (leb size {SPARSE}) m.core (changed 0 m.core) ∷ {NAMES}

abbrev plays : ℕ → List Call → Machine → List (List (List ℕ))
plays size [] m = []
plays size (c ∷ cs) m = let o = answered c m in told size o ∷ plays size cs o.machine

unfoldable pub battle : ℕ → ℕ → ℕ → List Call → List (List (List ℕ))
unfolding {OPENED}
battle size processes slots calls = plays size calls {FRESH}
"""

RUST_PLAY = f"""\
-- Plays a list of calls on the Rust's machine and tells what each left, as numbers.
-- Assumes nothing.
use Prim.Native.Nat.{{ℕ, suc}}
use mathlib.Core.Bool.{{cond}}
use mathlib.Core.List.{{List, [], ◌∷◌, ◌++◌, map}}
use mathlib.Core.Option.{{Option, none, some}}
use lib.Dec.{{leb}}
use lib.IntN.{{ℤ, pos, negsuc}}
use lib.ListN.{{length}}
use Rattle.reference.specs.Types.{{Instruction, default, opcode_number, modifier_number, mode_number, instruction_eq}}
use Rattle.reference.specs.Modifiers.{{evaluate_a, evaluate_b}}
use Rattle.reference.specs.Opcodes.{{execute}}
use Rattle.reference.specs.Process.{{Entry, Pair, NoRemainingProcesses, ProcessNameExists, ExecuteDat, DivideByZero, push}}
use Rattle.reference.specs.Core.{{Core, Returned, Answer, Ok, WarriorTooLong, Err, Panic, new, load_warrior, step, run}}
use Rattle.reference.specs.Same.{{warrior_of}}

pub data Call : Type 0 where
  loads : List ℕ → List ℕ → ℕ → Call
  steps : Call
  runs : Option ℕ → Call

abbrev answered : Call → Core → Returned
answered (loads name body origin) c = load_warrior (warrior_of name body origin) c
answered steps c = step c
answered (runs ceiling) c = run ceiling c

abbrev numbers : Answer → List ℕ
numbers Ok = 0 ∷ 0 ∷ []
numbers WarriorTooLong = 3 ∷ 0 ∷ []
numbers (Err NoRemainingProcesses) = 7 ∷ 0 ∷ []
numbers (Err (ProcessNameExists name)) = {PANIC + 1} ∷ name
numbers (Err (ExecuteDat at)) = 11 ∷ at ∷ []
numbers (Err DivideByZero) = 12 ∷ 0 ∷ []
numbers Panic = {PANIC} ∷ 0 ∷ []

-- a value that is loaded is at least 0
abbrev number : ℤ → ℕ
number (pos n) = n
number (negsuc n) = 4294967295

abbrev codes : Instruction → List ℕ
codes i =
    opcode_number i.opcode ∷ modifier_number i.modifier
    ∷ mode_number i.a_field.address_mode ∷ mode_number i.b_field.address_mode
    ∷ number i.a_field.value ∷ number i.b_field.value ∷ []

abbrev every : List Instruction → List ℕ
every [] = []
every (i ∷ is) = codes i ++ every is

-- each instruction that is not the default, after its place
abbrev changed : ℕ → List Instruction → List ℕ
changed at [] = []
changed at (i ∷ is) = cond (instruction_eq i default) (changed (suc at) is) (at ∷ (codes i ++ changed (suc at) is))

abbrev entry : Entry → List ℕ
entry e = e.offset ∷ e.thread ∷ e.name

abbrev value : Pair → List ℕ
value p = p.value ∷ p.key

abbrev told : ℕ → Returned → List (List ℕ)
told size r =
    let q = r.core.process_queue in
    (numbers r.answer ++ (r.core.steps_taken ∷ length q.queue ∷ length q.processes ∷ []))
    ∷ cond (leb size {SPARSE}) (every r.core.instructions) (changed 0 r.core.instructions)
    ∷ (map entry q.queue ++ (map value q.processes ++ map value q.next_thread_id))

abbrev plays : ℕ → List Call → Core → List (List (List ℕ))
plays size [] c = []
plays size (x ∷ xs) c = let r = answered x c in told size r ∷ plays size xs r.core

abbrev created : ℕ → List Call → Option Core → List (List (List ℕ))
created size calls none = []
created size calls (some c) = plays size calls c

unfoldable pub battle : ℕ → List Call → List (List (List ℕ))
unfolding {RUST_OPENED}
battle size calls = created size calls (new size)
"""

HEAD = f"""\
-- Battles recorded from the Rust: the definitions give the same after every call.
-- Assumes nothing.
use mathlib.Core.Path.{{◌≡◌, refl}}
use mathlib.Core.List.{{[], ◌∷◌}}
use mathlib.Core.Option.{{none, some}}
use lib.ListN.{{get_or}}
use {OWN}.Play.{{battle, loads, steps, runs}}
"""


def listed(items):
    return " ∷ ".join([*map(str, items), "[]"])


def nested(lists):
    return " ∷ ".join([*(f"({x})" for x in lists), "[]"])


def groups(line):
    found = [[]]
    for word in line.split():
        if word == "|":
            found.append([])
        else:
            found[-1].append(word)
    return found


class State:
    """What the Rust left after a call."""

    def __init__(self, line):
        head, queue, names, _, core = groups(line[1:])
        self.number, self.value, self.steps = head[0], int(head[1]), int(head[2])
        self.queue = [x.split(".", 2) for x in queue]
        self.counts = [x.split(".", 2) for x in names]
        self.core = [int(w, 16) for w in core]

    def entries(self):
        index = {name: i for i, (_, _, name) in enumerate(self.counts)}
        return [int(place) | int(thread) << 16 | index[name] << 48 for place, thread, name in self.queue]

    def told(self, number, value, steps):
        core = self.core
        if len(core) > SPARSE:
            core = [x for i, w in enumerate(core) if w != FRESH_WORD for x in (i, w)]
        rows = [
            [number, value, steps, self.steps],
            self.entries(),
            [count for count, _, _ in self.counts],
            [thread for _, thread, _ in self.counts],
            core,
            *(name.encode() for _, _, name in self.counts),
        ]
        return [listed(row) for row in rows]

    def rust(self, number, value):
        """The same of the Rust's machine, its instructions by its own order of opcodes."""
        cells = [(w >> 41, w >> 38 & 7, w >> 35 & 7, w >> 32 & 7, w >> 16 & 65535, w & 65535) for w in self.core]
        cells = [(i, (RUST_OPCODES[c[0]], *c[1:])) for i, c in enumerate(cells) if len(cells) <= SPARSE or self.core[i] != FRESH_WORD]
        core = [x for i, c in cells for x in (c if len(self.core) <= SPARSE else (i, *c))]
        rows = [
            [number, value, self.steps, len(self.queue), len(self.counts)],
            core,
            *([place, thread, *name.encode()] for place, thread, name in self.queue),
            *([count, *name.encode()] for count, _, name in self.counts),
            *([thread, *name.encode()] for _, thread, name in self.counts),
        ]
        return [listed(row) for row in rows]

    def most(self):
        """The most entries that a name holds."""
        return max((int(count) for count, _, _ in self.counts), default=0)

    def private(self):
        """Whether the front entry's cell is LDP or STP."""
        return bool(self.queue) and self.core[int(self.queue[0][0])] >> 41 >= 17


def instruction(text):
    *codes, a, b = map(int, text.split("."))
    return bytes(codes) + (a % 2**32).to_bytes(4, "little") + (b % 2**32).to_bytes(4, "little")


def call(words):
    if words[0] == "load":
        body = b"".join(map(instruction, words[3:]))
        return f"loads ({listed(words[1][1:].encode())}) ({listed(body)}) {65535 if words[2] == '-' else words[2]}"
    if words[0] == "step":
        return "steps"
    return "runs " + ("none" if words[1] == "-" else f"(some {words[1]})")


def splits(calls):
    """Whether a warrior has an SPL; no step makes one of another opcode."""
    return any(int(text.split(".")[0]) == SPL for words in calls if words[0] == "load" for text in words[3:])


class RustBattle:
    # the Rust has no process limit
    inside = True

    def __init__(self, index, line, answers):
        size, *calls = groups(line)
        states = [State(answer) for answer in answers]
        self.steps = states[-1].steps
        self.got = f"battle {size[0]} ({nested(call(words) for words, _ in zip(calls, states))})"
        self.wanted = [s.rust(*((PANIC, 0) if s.number.startswith("panic") else (s.number, s.value))) for s in states]


class Battle:
    def __init__(self, index, line, answers):
        size, *calls = groups(line)
        self.steps = 0
        played, told, before, most, seen = [], [], None, 1, 0
        for words, answer in zip(calls, answers):
            after = State(answer)
            if after.number.startswith("panic"):
                if words[0] == "step" and before and before.private():
                    played.append(call(words))
                    told.append(before.told(10, 0, 0))
                break
            steps = after.steps - (before.steps if before else 0)
            seen = max(seen, after.most())
            # within a run a name gains at most one entry a step
            most = max(most, seen, before.most() + steps if before and words[0] == "run" and splits(calls) else 0)
            played.append(call(words))
            told.append(after.told(after.number, after.value, steps))
            self.steps, before = after.steps, after
        processes = min(most + index % 3, MOST_PROCESSES)
        self.got = f"battle {size[0]} {processes} {NAMES_HELD * processes + index % 2} ({nested(played)})"
        self.wanted = told
        self.inside = seen <= MOST_PROCESSES


def recorded(lines):
    battle = None
    for line in lines:
        if line.startswith(">"):
            battle[1].append(line)
        else:
            if battle:
                yield battle
            battle = line, []
    if battle:
        yield battle


def theorem(name, got, wanted):
    return f"\n{name} : {got}\n    ≡ {wanted}\nunfolding battle\n{name} = refl\n"


def together(battles):
    """One theorem for some battles, given with their indices."""
    got = "\n    ∷ ".join(b.got for _, b in battles)
    wanted = "\n    ∷ ".join(f"({nested(map(nested, b.wanted))})" for _, b in battles)
    return theorem(f"battles-{battles[0][0]}-{battles[-1][0]}", f"({got} ∷ [])", f"({wanted} ∷ [])")


def apart(battles, names):
    """A theorem for each call and row."""
    found = []
    for index, b in battles:
        for i, rows in enumerate(b.wanted):
            for j, row in enumerate(rows):
                name = f"battle-{index}-call-{i}-{names[j] if j < len(names) else f'row-{j - len(names)}'}"
                found.append(theorem(name, f"get_or (get_or ({b.got}) {i} []) {j} []", row))
    return "".join(found)


def write(path, text):
    with open(path, "w") as f:
        f.write(text)


def asked():
    """What is asked for."""
    parser = argparse.ArgumentParser(description=__doc__, formatter_class=argparse.RawDescriptionHelpFormatter)
    parser.add_argument("answers")
    parser.add_argument("repository")
    parser.add_argument("--reference", action="store_true")
    parser.add_argument("--per", type=int, default=20)
    parser.add_argument("--modules", type=int, default=10)
    parser.add_argument("--only")
    parser.add_argument("--most", type=int, default=10**9)
    parser.add_argument("--each", action="store_true")
    return parser.parse_args()


def chosen(o):
    """The battles asked for, with their indices: those that are compared, and those outside."""
    low, high = 0, 10**9
    if o.only:
        low, _, last = o.only.partition("-")
        low, high = int(low), int(last or low)
    with open(o.answers) as f:
        battle = RustBattle if o.reference else Battle
        battles = [(i, battle(i, *b)) for i, b in enumerate(recorded(f)) if low <= i <= high]
    battles = [(i, b) for i, b in battles if b.steps <= o.most]
    return [(i, b) for i, b in battles if b.inside], [i for i, b in battles if not b.inside]


def write_crate(o, battles):
    crate = os.path.join(o.repository, "crates", CRATE)
    shutil.rmtree(crate, ignore_errors=True)
    for part in "src", "proofs":
        os.makedirs(os.path.join(crate, part))
    write(os.path.join(crate, "src/lib.rt"), "// Battles recorded from the Rust, as theorems. There is no code here.\n#![tactic(auto)]\n")
    write(os.path.join(crate, "proofs/Play.antt"), RUST_PLAY if o.reference else PLAY)
    stated = (lambda part: apart(part, RUST_ROWS if o.reference else ROWS)) if o.each else together
    modules = ["Play"]
    per = o.per * o.modules
    for start in range(0, len(battles), per):
        block = battles[start : start + per]
        parts = [block[i : i + o.per] for i in range(0, len(block), o.per)]
        modules.append(f"Recorded{start // per}")
        write(os.path.join(crate, f"proofs/{modules[-1]}.antt"), HEAD + "".join(map(stated, parts)))
    write(os.path.join(crate, "proofs/Lib.antt"), "".join(f"pub mod {m}\n" for m in modules))


def list_crate(o):
    listing = os.path.join(o.repository, "crates.txt")
    with open(listing) as f:
        crates = [line for line in f if not line.startswith(CRATE + ":")]
    write(listing, "".join(crates) + f"{CRATE}: {' '.join(RUST_DEPENDS if o.reference else DEPENDS)}\n")


def main():
    o = asked()
    battles, outside = chosen(o)
    write_crate(o, battles)
    list_crate(o)
    print(f"{len(battles)} battles, {sum(len(b.wanted) for _, b in battles)} states, {sum(b.steps for _, b in battles)} steps;",
          f"left out, as a name holds over {MOST_PROCESSES} entries: {len(outside)}", file=sys.stderr)


main()
