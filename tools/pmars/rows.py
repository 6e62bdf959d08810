# Single steps as rows of a theorem: random ones, and a copy of the repository in which the definitions must give them.
# A row is the core, PC, the core afterwards, the places queued, and the read and write limit; cells are draft.py's.
import os, pathlib, shutil
import draft

HERE = pathlib.Path(__file__).resolve().parent
UNFOLDING = ("unfolding sound_word register numbered entries pop push started sound_header sound_entry fresh starting start "
             "operand effect_of effect core_after step_written counted executed step Draft.step")
DEPENDENCIES = "laws answer offset types cell encoding metadata program machine draft".split()
# of these the definitions are enough
DEFINITIONS = "machine", "draft"
# rows of one theorem
TOGETHER = 100


def random_step(rng, i, size, places):
    """Every opcode, modifier and pair of modes in turn, in a random core, at one of the first places."""
    few = rng.choice([2, 3, 99])
    numbers = rng.choice([[0, 1, size - 1], range(size)])
    kinds = [[rng.randrange(17), rng.randrange(7), rng.randrange(8), rng.randrange(8), rng.choice(numbers), rng.choice(numbers)] for _ in range(few)]
    if rng.randrange(4) == 0:
        kinds[:2] = [draft.CMP] + kinds[0][1:], [draft.SEQ] + kinds[0][1:]
    core = [list(rng.choice(kinds)) for _ in range(size)]
    pc = rng.randrange(places)
    core[pc] = [i % 17, i // 17 % 7, i // 119 % 8, i // 952 % 8, rng.choice(numbers), rng.choice(numbers)]
    return core, pc


def word(c):
    return ((((c[0] * 8 + c[1]) * 8 + c[2]) * 8 + c[3]) * 65536 + c[4]) * 65536 + c[5]


def antt(numbers):
    return "".join(f"{n} ∷ " for n in numbers) + "[]"


def listed(name, rows):
    """The definition of a list of rows."""
    out = f"\nabbrev {name} : List Row\n{name} =\n    "
    for core, pc, after, places, read, write in rows:
        out += f"row {pc} {read} {write} ({antt(map(word, core))}) ({antt(map(word, after))}) ({antt(places)})\n    ∷ "
    return out + "[]\n"


def theorems(rows):
    out = ""
    for n in range(0, len(rows), TOGETHER):
        clear, other = [], []
        for row in rows[n:n + TOGETHER]:
            core, pc, _, _, read, write = row
            (other if draft.departures(core, pc, read, write) else clear).append(row)
        out += listed(f"clear{n}", clear) + listed(f"other{n}", other)
        out += f"\npub played{n} : Played clear{n} other{n}\n{UNFOLDING}\nplayed{n} = (refl, refl, refl, refl)\n"
    return out


def own_theorems(rows):
    out = ""
    for n in range(0, len(rows), TOGETHER):
        out += listed(f"steps{n}", rows[n:n + TOGETHER]) + f"\npub own{n} : Own steps{n}\n{UNFOLDING}\nown{n} = refl\n"
    return out


def copy_crates(folder, name):
    """The crates that the new one depends on; of the machine and the draft the definitions alone."""
    root = HERE.parents[1]
    lines = (root / "crates.txt").read_text().splitlines()
    folder.mkdir(parents=True)
    kept = [l for l in lines if l.split(":")[0] in DEPENDENCIES] + [f"{name}: {' '.join(DEPENDENCIES)}"]
    (folder / "crates.txt").write_text("\n".join(kept) + "\n")
    for each in DEPENDENCIES:
        unused = ("must-fail", "out", "proofs") if each in DEFINITIONS else ("must-fail", "out")
        shutil.copytree(root / "crates" / each, folder / "crates" / each, ignore=shutil.ignore_patterns(*unused))
    for each in DEFINITIONS:
        os.mkdir(folder / "crates" / each / "proofs")
        (folder / "crates" / each / "proofs/Lib.antt").write_text("")


def write_crate(folder, name, rows, own=()):
    """A copy of the repository with a crate of that name: its theorems are that the definitions give the rows; those of `own` are the machine's alone."""
    copy_crates(folder, name)
    crate = folder / "crates" / name
    for part in ("src", "specs", "proofs"):
        (crate / part).mkdir(parents=True)
    (crate / "src/lib.rt").write_text("// Single steps, played elsewhere.\n#![tactic(auto)]\n")
    (crate / "specs/Lib.antt").write_text("pub mod Played\n")
    (crate / "proofs/Lib.antt").write_text("pub mod Played\n")
    (crate / "specs/Played.antt").write_text((HERE / "Played.antt.txt").read_text())
    theorem = (HERE / "Theorem.antt.txt").read_text().replace("CRATE", name)
    (crate / "proofs/Played.antt").write_text(theorem + theorems(rows) + own_theorems(own))
