#!/usr/bin/env python3
"""Brings the names of the repository's own definitions and lemmas to today's spelling: words in snake case, facts, types
and modules in camel case, ' for a prime. Run once, behind the toolchain's own script; it goes by text.

    respell.py            over crates/, docs/ and README.md
    respell.py --look     says which names change and which fall together, and writes nothing
    respell.py --files F..  over these files alone, with the names of the repository
"""

import glob
import os
import re
import sys

ROOT = os.path.dirname(os.path.dirname(os.path.abspath(__file__)))
TOKEN = re.compile(r"(?<![\w'-])[a-z][\w'-]*")
# A definition that is a fact: its name begins in lower case, and what it gives is a type.
HEAD = re.compile(r"\s*(?:(?:abbrev|unfoldable|pub) )*([a-z][\w'-]*) :(.*)")
# Names that fall together with another one after the change, or mean something in clauses: their new names by hand.
BY_HAND = {}
# Lemmas and fields that would have the new name of a definition that stands beside them: theirs get _lem, or another word.
BEFORE = [
    (("made_from/proofs/Prints.antt",), "first_fits", "first_fits_lem"),
    (("record/proofs/Fits.antt", "card_record/proofs/Fits.antt", "checkpoint_format/proofs/Fits.antt"), "key_fits", "key_fits_lem"),
    (("made_from/specs/MadeFrom.antt", "made_from/proofs/Made.antt"), "key_fits", "key_ok"),
    (("rack_run/proofs/Sound.antt", "rack_run/proofs/Places.antt"), "names_apart", "names_apart_lem"),
    (("stage/proofs/Fit.antt", "stage/proofs/Follows.antt"), "same_gap", "same_gap_lem"),
    (("rack_run/proofs/From.antt", "rack_run/proofs/Watches.antt"), "walked_from", "walked_from_lem"),
    (("walk/proofs/Visits.antt", "walk/proofs/Climbs.antt"), "with_aside", "with_aside_lem"),
]


def read(path):
    with open(path, encoding="utf-8") as file:
        return file.read()


def sources(*endings):
    for folder, dirs, files in os.walk(os.path.join(ROOT, "crates")):
        dirs[:] = sorted(d for d in dirs if d != "out")
        yield from (os.path.join(folder, f) for f in sorted(files) if f.endswith(endings))


def snake(part):
    """keyFits -> key_fits; a part that begins with a capital is a fact, and stays."""
    if not part[:1].islower():
        return part
    return re.sub(r"(?<=[a-z0-9])([A-Z])", lambda m: "_" + m.group(1).lower(), part)


def respelled(name, facts):
    if name in BY_HAND:
        return BY_HAND[name]
    if name in facts:
        return facts[name]
    parts = name.split("-")
    return "-".join(facts.get(p) or BY_HAND.get(p) or snake(p) for p in parts)


def foreign():
    """Names that files take from elsewhere: they keep their spelling."""
    names = set()
    for path in sources(".antt", ".rt"):
        for found in re.finditer(r"use ([\w.]+)\.\{([^}]*)\}", read(path)):
            where = found.group(1)
            own = where.startswith("Rattle.") and os.path.isdir(os.path.join(ROOT, "crates", where.split(".")[1]))
            if not own or ".declared." in where:
                names.update(re.split(r"[,\s]+", found.group(2)))
    return names


def fact_names(text):
    lines = text.split("\n")
    for i, line in enumerate(lines):
        found = HEAD.fullmatch(line)
        if not found:
            continue
        type_of = found.group(2)
        indent = len(line) - len(line.lstrip())
        while i + 1 < len(lines) and len(lines[i + 1]) - len(lines[i + 1].lstrip()) > indent:
            i += 1
            type_of += " " + lines[i].strip()
        if re.search(r"(^|→ ) *Type 0$", type_of.strip()):
            yield found.group(1)


def mapping():
    facts, tokens, kept = {}, set(), foreign()
    for path in sources(".antt"):
        text = read(path)
        for name in fact_names(text):
            if name not in kept:
                facts[name] = "".join(w[:1].upper() + w[1:] for w in name.split("_"))
        tokens.update(TOKEN.findall(text))
    changed = {}
    for name in sorted(tokens):
        if name not in kept:
            new = respelled(name, facts)
            if new != name:
                changed[name] = new
    return changed, tokens, facts


def turned(text, changed):
    return TOKEN.sub(lambda m: changed.get(m.group(0), m.group(0)), text).replace("\u2032", "'")


def set_apart():
    for files, name, new in BEFORE:
        for file in files:
            path = os.path.join(ROOT, "crates", file)
            text = re.sub(r"(?<![\w'-])%s(?![\w'-])" % name, new, read(path))
            with open(path, "w", encoding="utf-8") as out:
                out.write(text)


def main():
    changed, tokens, facts = mapping()
    if "--look" in sys.argv:
        words = set(tokens)
        for path in sources(".rt"):
            words.update(TOKEN.findall(read(path)))
        for name, new in sorted(changed.items()):
            print(name, new, "FACT" if name in facts else "", "FALLS TOGETHER" if new in words else "")
        return
    set_apart()
    if "--files" in sys.argv:
        paths = sys.argv[sys.argv.index("--files") + 1:]
    else:
        paths = list(sources(".antt", ".rt", ".edit"))
        paths += glob.glob(os.path.join(ROOT, "docs", "**", "*.md"), recursive=True) + [os.path.join(ROOT, "README.md")]
    for path in paths:
        text = read(path)
        new = turned(text, changed)
        if new != text:
            with open(path, "w", encoding="utf-8") as file:
                file.write(new)


if __name__ == "__main__":
    main()
