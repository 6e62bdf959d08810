#!/usr/bin/env python3
"""Tells the definitions that a reader must believe from those that only proofs use, and fails where a file says otherwise.

A file of specs/ is believed when a promise of a public function, or a demand, reaches it: it is named in the `requires` or `ensures` of a `pub fn`
(by that file's `ghost use` lines) or stands in crates/demands/specs, or such a file uses it. Every other file is inner. The head of a file says which,
by a line of its first comment that begins 'Believed.' or 'Inner.'; inner files stand in specs/Inner.
README.md has a row for each crate with its believed files and their lines of definitions.
Run as: tests/believed.py           checks every head and README.md; status 1 where one is wrong
        tests/believed.py --rows    prints the rows for README.md
"""
import itertools
import pathlib
import re
import sys

ROOT = pathlib.Path(__file__).resolve().parent.parent
MODULE = re.compile(r"Rattle\.(\w+)\.specs\.([\w.-]+)")
PUBLIC = re.compile(r"^pub (?:extern \"C\" )?fn .*?^\{", re.M | re.S)


def crates():
    for line in (ROOT / "crates.txt").read_text().splitlines():
        words = line.split("#")[0].split(":")[0].split()
        if words:
            yield words[0]


CRATES = list(crates())


def is_list(file):
    """Whether a file only lists modules."""
    return all(l.startswith(("pub mod ", "mod ", "--")) for l in file.read_text().splitlines() if l)


def module_file(crate, path):
    """The file of a module, or None for one of the toolchain's, or that is made from the code's own structs and contracts."""
    parts = path.rstrip(".").split(".")
    if crate not in CRATES or parts[0] in ("declared", "contracts"):
        return None
    while parts:
        file = ROOT / "crates" / crate / "specs" / ("/".join(parts) + ".antt")
        if file.exists():
            return file
        parts.pop()
    sys.exit(f"no file for the module {path} of crate {crate}")


def used(line):
    """The files that a `use` line names."""
    found = (module_file(*m) for m in MODULE.findall(line))
    return [f for f in found if f]


def promised(source):
    """The files that the promises of a source's public functions name."""
    text = source.read_text()
    names = {}
    for line in re.findall(r"^ghost use (Rattle\..*?);", text, re.M | re.S):
        files = used(line)
        listed = re.search(r"\{(.*)\}", line, re.S)
        alias = re.search(r" as (\w+)$", line)
        for name in listed.group(1).split(",") if listed else [alias.group(1) if alias else line.rsplit(".", 1)[-1]]:
            names[name.strip().split(" as ")[-1].strip("◌")] = files
    for head in PUBLIC.findall(text):
        clauses = "".join(re.findall(r"(?:requires|ensures)(?: \w+)? \{.*?\}$", head, re.M | re.S))
        for word in re.findall(r"[^\s(){}.⌜⌝×≡,]+", clauses):
            yield from names.get(word.strip("◌"), [])


def reached():
    todo = [f for c in crates() for s in sorted((ROOT / "crates" / c / "src").rglob("*.rt")) for f in promised(s)]
    todo += (f for f in (ROOT / "crates/demands/specs").glob("*.antt") if not is_list(f))
    seen = set()
    while todo:
        file = todo.pop()
        if file not in seen:
            seen.add(file)
            for line in file.read_text().splitlines():
                if line.startswith("use Rattle."):
                    todo += used(line)
    return seen


def said(text):
    """What the first comment says: the words Believed and Inner that begin one of its lines."""
    head = itertools.takewhile(lambda l: l.startswith("--"), text)
    return [w for l in head for w in ("Believed", "Inner") if l.startswith(f"-- {w}.")]


def definitions(file):
    return sum(1 for l in file.read_text().splitlines() if l.strip() and not l.startswith(("--", "use ")))


def wrong_heads(believed):
    """Prints what is wrong with the heads and folders, and gives how much is."""
    wrong = 0
    for crate in crates():
        for file in sorted((ROOT / "crates" / crate / "specs").rglob("*.antt")):
            if is_list(file):
                continue
            text = file.read_text().splitlines()
            kind = "Believed" if file in believed else "Inner"
            name = file.relative_to(ROOT)
            if said(text) != [kind]:
                print(f"{name}: its head must say '{kind}.'")
                wrong += 1
            if (file.parent.name == "Inner") != (kind == "Inner"):
                print(f"{name}: {kind.lower()}, so it stands in the wrong folder")
                wrong += 1
    return wrong


def rows(believed):
    """README's table: a row for each crate that has believed files."""
    yield "| crate | files of `specs/` that are believed, with their lines of definitions |"
    yield "|---|---|"
    for crate in crates():
        files = sorted(f for f in believed if f.is_relative_to(ROOT / "crates" / crate / "specs"))
        if files:
            yield f"| `{crate}` | " + ", ".join(f"{f.stem} {definitions(f)}" for f in files) + " |"


def main():
    believed = reached()
    if "--rows" in sys.argv:
        print("\n".join(rows(believed)))
        return
    wrong = wrong_heads(believed)
    readme = (ROOT / "README.md").read_text()
    if "\n".join(rows(believed)) not in readme:
        print("README.md has not the rows that --rows prints")
        wrong += 1
    lines = sum(definitions(f) for f in believed)
    print(f"{len(believed)} files of definitions are believed, {lines} lines; {wrong} wrong")
    sys.exit(1 if wrong else 0)


main()
