#!/usr/bin/env python3
"""Brings the repository's own definitions and lemmas to one spelling, in place: run once, at the top, after the kit's port.py.

A dash in the name of a definition, a lemma, a constructor or a field becomes an underscore, as `take-place` and `take_place`;
a name that begins with a capital is put together instead, as `Makes-operation` and `MakesOperation`. What the kit makes or
has keeps its spelling: names of goals and steps, which begin after `c.`, `goal.` or in an import from `Goals`, names of its
library, and variables. Prints the renamings, and stops where two names would fall together. The crate `hex`, whose name is
one of the kit's own, becomes `hexadecimal`.
"""
import glob
import os
import re
import sys

LETTER = r"[\w?'\-²]"
TOKEN = re.compile(r"(?<![\w?'\-])" + LETTER + r"*[A-Za-z]" + LETTER + r"*")
HEAD = re.compile(r"^[ \t]*(?:(?:abbrev|unfoldable|pub|record|data|ruleset)[ \t]+)*(" + LETTER + r"+)(?=[ \t]*(?::|\(|\{|=))", re.M)


def paths():
    return sorted(glob.glob("crates/*/specs/**/*.antt", recursive=True) + glob.glob("crates/*/proofs/**/*.antt", recursive=True))


def sources():
    return sorted(glob.glob("crates/*/src/**/*.rt", recursive=True))


def read(path):
    with open(path, encoding="utf-8") as f:
        return f.read()


# names that would fall together with another, or read as one of a call of src/, get a plainer one
CHOSEN = {
    "Made-operation": "MakeOperationCall",
    "Made-block": "MakeBlockCall",
    "Note-set": "SetNoteCall",
    "Op-inserted": "InsertOpCall",
    "Block-inserted": "InsertBlockCall",
    "Op-taken": "UnlinkOpCall",
    "Block-taken": "UnlinkBlockCall",
    "Operation-made": "OperationFieldMade",
    "Block-made": "BlockFieldMade",
    "Cut-off": "FieldCutOff",
    "Read_in": "ReadIn",
    "can-hold": "can_hold_when",
    "climbs-to": "climbs_closer",
    "each-once": "each_comes_once",
}


def spelled(name):
    if name in CHOSEN:
        return CHOSEN[name]
    if name[0].isupper():
        return "".join(part[0].upper() + part[1:] for part in name.split("-") if part)
    return name.replace("-", "_")


def code_of(text):
    """The text with comments blanked out, for looking at."""
    return re.sub(r"--[^\n]*", "", text)


def defined():
    """The names with a dash that the repository itself defines, but for those that answer a goal."""
    names = set()
    for path in paths():
        text = code_of(read(path))
        for m in HEAD.finditer(text):
            name = m.group(1)
            line = text[m.start():text.find("\n", m.end())]
            if "-" not in name or name.startswith("-") or re.search(r":\s*(?:goal|rules|need)s?\.", line):
                continue
            if not re.match(r"\s*(?:(?:abbrev|unfoldable|pub|record|data|ruleset)\s+|[^=]*?:(?!=))", line):
                continue
            names.add(name)
    # a goal's answer that is given on the line of its name only: `x c = ..` under `pub x : goal.x`
    for path in paths():
        for m in re.finditer(r"^[ \t]*(?:abbrev )?(?:pub )?(" + LETTER + r"+) : goal\.", read(path), re.M):
            answered.add(m.group(1))
    return names


answered = set()
IMPORT = re.compile(r"use [\w.]*\.(?:Goals|Given)(?:\.\{[^}]*\})?")
STD = re.compile(r"use (?:Rattle\.std|mathlib|borrow|denote|Prim|lib)\.[\w.]*\.\{([^}]*)\}")


def is_answer(path):
    """A file that answers goals, below a folder of proofs/; there `c` and its like are what the kit makes."""
    return re.match(r"crates/[^/]*/proofs/[^/]*/", path) is not None


def respell(text, renamed, answers=False):
    # what is imported from the kit's library keeps its name in this file
    kept = set()
    for m in STD.finditer(text):
        kept |= {w.strip() for w in m.group(1).split(",")}
    skip = [m.span() for m in IMPORT.finditer(text)]
    out, at = [], 0
    for m in TOKEN.finditer(text):
        word = m.group(0)
        if word not in renamed or word in kept:
            continue
        before = text[max(0, m.start() - 12):m.start()]
        if answers and re.search(r"(?<![\w'\-])(?:c|l|g|goal|goal\.at|w)\.$", before):
            continue
        if any(a <= m.start() < b for a, b in skip):
            continue
        out.append(text[at:m.start()] + renamed[word])
        at = m.end()
    return "".join(out) + text[at:]


def clauses(text, renamed):
    """A source file: only its ghost parts and clauses are turned."""
    def part(m):
        return respell(m.group(0), renamed)
    text = re.sub(r"^[ \t]*ghost use [^;]*;", part, text, flags=re.M)
    text = re.sub(r"\b(?:requires|ensures)(?: \w+)? \{.*?\}(?=\s*(?:\n|;|,))", part, text, flags=re.S)
    text = re.sub(r"^[ \t]*(?:ghost|law)(?: fn)? \w+: \{.*?\}(?=[;,])", part, text, flags=re.M | re.S)
    text = re.sub(r"^[ \t]*ghost \w+ = \{.*?\};", part, text, flags=re.M | re.S)
    return text


def rename_crate():
    if not os.path.isdir("crates/hex"):
        return
    os.rename("crates/hex", "crates/hexadecimal")
    for path in paths() + sources() + ["crates.txt"]:
        text = read(path)
        new = re.sub(r"\bRattle\.hex\b", "Rattle.hexadecimal", text)
        new = re.sub(r"^use hex::", "use hexadecimal::", new, flags=re.M)
        if path == "crates.txt":
            new = re.sub(r"\bhex\b", "hexadecimal", new)
        if new != text:
            with open(path, "w", encoding="utf-8") as f:
                f.write(new)


def main():
    rename_crate()
    names = (defined() - answered) | {n for n in CHOSEN if "-" not in n}
    renamed = {n: spelled(n) for n in names}
    taken = {}
    for n, s in sorted(renamed.items()):
        if s in taken:
            sys.exit(f"respell: {n} and {taken[s]} would both be {s}")
        taken[s] = n
    there = set()
    for path in paths():
        there |= set(TOKEN.findall(code_of(read(path))))
    for n, s in sorted(renamed.items()):
        print(f"{n} -> {s}" + ("   (this name stands already)" if s in there else ""))
    for path in paths() + sources():
        text = read(path)
        new = clauses(text, renamed) if path.endswith(".rt") else respell(text, renamed, is_answer(path))
        if new != text:
            with open(path, "w", encoding="utf-8") as f:
                f.write(new)


main()
