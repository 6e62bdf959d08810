#!/usr/bin/env python3
"""Checks that each symbol of the archive promises, word for word, what the function of its name in crate sumacadze promises.

The symbols are the functions of crates/sumacadze_c. Their clauses, parameters and results, and the definitions that their `ghost use` lines bring in, must be those of
crates/sumacadze, of which the demands speak (crates/demands/specs/Kept.antt); sumacadze_c has no types of its own, and exports nothing else. include/sumacadze.h must
declare each of them, and no other.
Run as: tests/exports.py; status 1 where something differs.
"""

import pathlib
import re
import sys

ROOT = pathlib.Path(__file__).resolve().parent.parent
HEADS = {
    "sumacadze": re.compile(r"^pub fn (sumacadze_\w+)(.*?)^\{", re.M | re.S),
    "sumacadze_c": re.compile(r"^#\[unsafe\(no_mangle\)\]\npub extern \"C\" fn (sumacadze_\w+)(.*?)^\{", re.M | re.S),
}
# what would export another thing or under another name, or give a name of `sumacadze` another meaning
ELSE = re.compile(r"\b(?:struct|enum|union|trait|type|impl|macro_rules|export_name|link_name|static)\b|\bmod\s+\w+\s*\{|^\s*(?:pub )?fn |\bas\b.*;$", re.M)
USE = re.compile(r"^ghost use (.*?);", re.M | re.S)


def sources(crate):
    """The crate's sources without their comments."""
    for source in sorted((ROOT / "crates" / crate / "src").rglob("*.rt")):
        yield re.sub(r"//.*", "", source.read_text())


def heads(crate):
    """What each function takes, gives and promises, by its name."""
    found = {}
    for text in sources(crate):
        for name, rest in HEADS[crate].findall(text):
            found[name] = " ".join(rest.split()).replace("( ", "(").replace(", )", ")")
    return found


def brought(crate):
    """The definitions that ghost use lines bring in, each with its path."""
    found = set()
    for text in sources(crate):
        for line in USE.findall(text):
            path, _, names = line.partition(".{")
            found |= {f"{path}.{name.strip()}" for name in names.rstrip("}").split(",")}
    return found


def main():
    exports, functions = heads("sumacadze_c"), heads("sumacadze")
    declared = set(re.findall(r"\b(sumacadze_\w+)\([^()]*\)[^;{}]*;", re.sub(r"/\*.*?\*/", "", (ROOT / "include/sumacadze.h").read_text(), flags=re.S)))
    wrong = [f"{name}: its clauses are not those of sumacadze::{name}" for name in sorted(exports) if exports[name] != functions.get(name)]
    wrong += [f"{name}: not exported" for name in sorted(functions.keys() - exports.keys())]
    wrong += [f"{name}: in sumacadze_c alone" for name in sorted(brought("sumacadze_c") - brought("sumacadze"))]
    wrong += [f"{name}: declared in include/sumacadze.h or exported, and not both" for name in sorted(declared ^ exports.keys())]
    text = "\n".join(sources("sumacadze_c"))
    wrong += [f"sumacadze_c has `{found.strip()}`" for found in ELSE.findall(USE.sub("", text))]
    wrong += [f"sumacadze_c has {text.count(word)} times {word}, and {len(exports)} exports" for word in ("no_mangle", "extern", " fn ") if text.count(word) != len(exports)]
    for line in wrong:
        print(line)
    print(f"{len(exports)} exports promise what crate sumacadze promises, {len(wrong)} wrong")
    return 1 if wrong or not exports else 0


sys.exit(main())
