#!/usr/bin/env python3
"""Brings the repository's own definitions and lemmas to Rattle's spelling, after /opt/rattle/port/port.py.

A word of a definition or lemma is in snake case, a module in camel case. What stands in capitals in 01, in the draft or in the Rust keeps them: opcodes, modifiers,
registers, variants; so do types. Functions of src/, exported names, strings, inputs and outputs are not touched.

Usage: tools/respell.py [ROOT]. It rewrites the files of ROOT/crates and the names of these in ROOT's documents, and is idle when run again.
"""

import pathlib
import re
import subprocess
import sys

# names that would fall together: a lemma that would have the name of the function it is about ends in _lem, and origin-of would be the machine's origin_of
APART = {
    "crates/steps/proofs": {"first_bit": "first_bit_lem"},
    "crates/draft/proofs": {"one_code": "one_code_lem"},
    "crates/reference": {"origin-of": "origin_or_zero"},
}
# a lemma that had the name of a function of a former library
FORMER = {"getD-lowest-snoc": "get_or-lowest-snoc"}
# folders and files that are modules; Rattle makes a module `contracts` of its own
MODULES = {"inner": "Inner"}
FILES = {"crates/demands/specs/Contracts.antt": "Kept", "crates/demands/proofs/Contracts.antt": "Kept"}

LETTER = r"[\w']"
# words with a hump, and, in specs/, words with a dash; in proofs/ a dash joins the parts of a lemma's name
CAMEL = re.compile(rf"(?<!{LETTER})(?!getD\b)[a-z][a-z0-9]*[A-Z]{LETTER}*")
DASHED = re.compile(rf"(?<![\w'-])[A-Za-z_]{LETTER}*(?:-{LETTER}+)+(?![\w'-])")
DOCUMENTS = ["README.md", "docs/*.md", "bench/*.md", "bench/*.py", "examples/*.md", "rust/*.md", "tests/*", "tools/*/*.md", "tools/*/*.txt", "tools/*/*.py"]


def snake(word):
    return re.sub(r"([a-z0-9])([A-Z])", lambda m: f"{m[1]}_{m[2].lower()}", word)


def whole(word):
    return re.compile(rf"(?<![\w'-]){re.escape(word)}(?![\w'-])")


def texts(root):
    for path in sorted((root / "crates").rglob("*")):
        if path.suffix in (".antt", ".rt", ".edit") and "out" not in path.parts:
            yield path


def rewrite(path, change):
    before = path.read_text()
    after = change(before)
    if after != before:
        path.write_text(after)


def move(root, old, new):
    subprocess.run(["git", "-C", str(root), "mv", str(old), str(new)], check=True)


def modules(root):
    """Modules get their names, in folders and files and in the paths that name them."""
    for old, new in MODULES.items():
        for folder in sorted((root / "crates").glob(f"*/specs/{old}")):
            move(root, folder, folder.with_name(new))
        for file in sorted((root / "crates").glob(f"*/specs/{old}.antt")):
            move(root, file, file.with_name(f"{new}.antt"))
    for name, new in FILES.items():
        if (root / name).exists():
            move(root, root / name, (root / name).with_name(f"{new}.antt"))

    def change(text):
        for old, new in MODULES.items():
            text = re.sub(rf"\bspecs\.{old}\b", f"specs.{new}", text)
            text = re.sub(rf"\bspecs/{old}\b", f"specs/{new}", text)
            text = re.sub(rf"^(pub mod|mod) {old}$", rf"\1 {new}", text, flags=re.M)
        return text

    def renamed(text):
        text = re.sub(r"\bdemands\.(specs|proofs)\.Contracts\b", r"demands.\1.Kept", text)
        text = re.sub(r"\b(specs|proofs)/Contracts\b", r"\1/Kept", text)
        return re.sub(r"^(pub mod|mod) Contracts$", r"\1 Kept", text, flags=re.M)

    for path in texts(root):
        rewrite(path, change)
        if "demands" in path.parts:
            rewrite(path, renamed)
    for path in documents(root):
        rewrite(path, lambda text: re.sub(r"\b(specs|proofs)/Contracts\b", r"\1/Kept", change(text)))


def documents(root):
    for pattern in DOCUMENTS:
        for path in sorted(root.glob(pattern)):
            if path.is_file() and path.name != "PORT.md":
                yield path


def humps(root):
    """Each word with a hump, and what it becomes."""
    words = {}
    for path in texts(root):
        for word in CAMEL.findall(path.read_text()):
            words[word] = snake(word)
    return words


def dashes(root):
    """Each word with a dash that a definition, a field or a variable of specs/ has, and what it becomes."""
    words = {}
    for path in texts(root):
        if path.suffix == ".antt" and "specs" in path.parts:
            for line in path.read_text().splitlines():
                for word in DASHED.findall(line.split("--")[0]):
                    words[word] = word.replace("-", "_")
    return words


def main():
    root = pathlib.Path(sys.argv[1] if len(sys.argv) > 1 else ".").resolve()
    modules(root)
    for folder, names in APART.items():
        below = [path for path in texts(root) if path.is_relative_to(root / folder)]
        for old, new in names.items():
            if not any(whole(new).search(path.read_text()) for path in below):
                for path in below:
                    rewrite(path, lambda text: whole(old).sub(new, text))
    words = {**humps(root), **dashes(root), **FORMER}
    every = re.compile(rf"{CAMEL.pattern}|{DASHED.pattern}")
    for path in texts(root):
        met = {}
        for word in set(every.findall(path.read_text())):
            if met.setdefault(words.get(word, word), word) != word:
                sys.exit(f"{path}: {word} and {met[words[word]]} fall together")
    quoted = re.compile(r"`[^`\n]*`")

    def change(text):
        return every.sub(lambda m: words.get(m[0], "-".join(words.get(part, part) for part in m[0].split("-"))), text)

    for path in texts(root):
        rewrite(path, change)
    for path in documents(root):
        rewrite(path, (lambda text: quoted.sub(lambda m: change(m[0]), text)) if path.suffix == ".md" else change)
    for old, new in sorted(words.items()):
        print(old, new)


main()
