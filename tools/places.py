#!/usr/bin/env python3
"""Counts the places in crates/*/src that an older form of the language left (docs/DESIGN-PASS.md), by point.

    tools/places.py             the counts
    tools/places.py --list      each place too, as FILE:LINE or FUNCTION
    tools/places.py --at FOLDER the same of another checkout
"""

import glob
import os
import re
import sys

KEYWORDS = set("as bool break const continue else enum false fn for if impl in let loop match mod mut pub return self Self "
               "struct true u8 u16 u32 u64 usize use while with Ok Err Some None Result Option".split())


def files(root):
    for path in sorted(glob.glob(os.path.join(root, "crates", "*", "src", "*.rt"))):
        with open(path, encoding="utf-8") as file:
            yield os.path.relpath(path, root), file.read()


def line_of(text, at):
    return text.count("\n", 0, at) + 1


def blocks(text, word):
    """Each `word NAME { .. }` as name, line and inside."""
    for m in re.finditer(r"^ *(?:pub(?:\(crate\))? )?%s (\w+)(?:<[^>]*>)? \{\n(.*?)^ *\}" % word, text, re.M | re.S):
        yield m.group(1), line_of(text, m.start()), m.group(2)


def functions(text):
    """Each function as name, line, head (parameters and clauses) and body."""
    for m in re.finditer(r"^( *)(?:pub(?:\(crate\))? )?fn (\w+)(.*?)^\1\}$", text, re.M | re.S):
        inside = m.group(3)
        cut = re.search(r"^ *\{$|\{$", inside, re.M)
        head, body = (inside, "") if cut is None else (inside[:cut.start()], inside[cut.end():])
        yield m.group(2), line_of(text, m.start()), head, body


def shapes(text):
    """Enums of the shape of Option or Result: one variant alone has values."""
    for name, line, inside in blocks(text, "enum"):
        variants = re.findall(r"^ *(\w+)( *[({][^\n]*)?,$", inside, re.M)
        full = [v for v, values in variants if values]
        if len(full) == 1 and len(variants) in (2, 3):
            yield line, "enum " + name


def flags(text):
    """Structs with a flag or a verdict beside a value."""
    for name, line, inside in blocks(text, "struct"):
        if re.search(r"^ *(?:pub )?(?:verdict: Verdict|ok: bool|moved: bool|lone: bool|status: Status),$", inside, re.M):
            yield line, "struct " + name


def sentinels(text):
    """Numbers in place of an enum: a place that says none, a refusal compared by its number."""
    for m in re.finditer(r"^.*(?:\bor CARDS\b|verdict\.number\(\) [=!]=|; 0 where it is cut short).*$", text, re.M):
        yield line_of(text, m.start()), m.group(0).strip()[:60]


def counted(text):
    """Loops that count an index by hand."""
    for m in re.finditer(r"^ *([a-z_]+) (?:= \1 ([+-])|([+-])=) 1;$", text, re.M):
        before = text[:m.start()]
        inside = before.rfind("while ") > before.rfind("\n    }\n") - 1 if "while " in before else False
        if inside and re.search(r"\b%s\b" % m.group(1), before[before.rfind("while "):].split("\n")[0] + "\n" + before[-400:]):
            yield line_of(text, m.start()), m.group(0).strip()


def by_hand(text):
    """Equality, order, copying and std's small functions written by hand."""
    for m in re.finditer(r"^ *(?:pub(?:\(crate\))? )?fn (equals|same|smaller|copy|distance|capped|field|told|reach|either|plus)\b", text, re.M):
        yield line_of(text, m.start()), "fn " + m.group(1)


def facts(path, text, seen):
    for name, line, head, body in functions(text):
        for clause in re.findall(r"requires(?: \w+)? \{(.*?)\}$", head, re.M):
            for fact in re.split(r" × ", clause.strip()):
                seen.setdefault((path.split("/")[1], fact.strip(" ()")), []).append("%s:%d %s" % (path, line, name))
        for premise in re.findall(r"\(key : Key\)[^}]*? → (powers ≡ powers_of|self ≡ powers_of)", head):
            seen.setdefault(("", "powers ≡ powers_of"), []).append("%s:%d %s" % (path, line, name))


def groups(path, text, seen):
    """Four or more parameters that travel together."""
    for name, line, head, body in functions(text):
        names = tuple(re.findall(r"(\w+): ", head.split(")")[0]))
        names = tuple(n for n in names if n != "rt")
        for k in (4,):
            for i in range(len(names) - k + 1):
                seen.setdefault((path.split("/")[1], names[i:i + k]), []).append("%s:%d %s" % (path, line, name))


def beside(text):
    """Arrays in a struct with the count of what is used beside them."""
    for name, line, inside in blocks(text, "struct"):
        if re.search(r": \[", inside) and re.search(r"^ *(?:pub )?(asides|many|count|noted|taken): u?(32|64|size)", inside, re.M):
            yield line, "struct " + name


def switches(text):
    """A number or a flag that says which step to run."""
    for m in re.finditer(r"^ *match op \{|\b(asked|narrow): bool\b", text, re.M):
        yield line_of(text, m.start()), m.group(0).strip()


def twins(root):
    """Functions of one shape: equal but for the names and numbers in them, with a body of three lines or more."""
    shape = {}
    for path, text in files(root):
        for name, line, head, body in functions(text):
            bare = re.sub(r"//[^\n]*", "", body)
            if len([l for l in bare.split("\n") if l.strip()]) < 4:
                continue
            order = {}
            mark = lambda m: m.group(0) if m.group(0) in KEYWORDS else "n%d" % order.setdefault(m.group(0), len(order))
            shape.setdefault(re.sub(r"\s+", " ", re.sub(r"\w+", mark, bare)), []).append("%s:%d %s" % (path, line, name))
    return [same for same in shape.values() if 1 < len(same)]


def answers(root):
    count = inlined = 0
    for path in glob.glob(os.path.join(root, "crates", "*", "proofs", "**", "*.antt"), recursive=True):
        with open(path, encoding="utf-8") as file:
            text = file.read()
        if path.endswith("Answers.antt"):
            count += len(re.findall(r"^pub [\w\-+]+ : ", text, re.M))
        inlined += len(re.findall(r"\(let its-", text))
    return count, inlined


def main():
    root = sys.argv[sys.argv.index("--at") + 1] if "--at" in sys.argv else os.path.dirname(os.path.dirname(os.path.abspath(__file__)))
    full = "--list" in sys.argv

    def say(point, what, places):
        print("%s %4d  %s" % (point, len(places), what))
        for place in places if full else []:
            print("           " + place)

    for point, what, find in (("1", "enums of the shape of Option or Result", shapes), ("1", "structs with a flag or verdict", flags),
                              ("1", "numbers in place of an enum", sentinels), ("3", "loops that count an index", counted),
                              ("4", "equality, copying and the like by hand", by_hand), ("6", "arrays with a count beside", beside),
                              ("7", "switches on which step to run", switches)):
        say(point, what, ["%s:%d %s" % (path, line, word) for path, text in files(root) for line, word in find(text)])
    say("2", "functions of one shape", [", ".join(same) for same in twins(root)])
    seen, together = {}, {}
    for path, text in files(root):
        facts(path, text, seen)
        groups(path, text, together)
    say("5", "facts in three or more contracts", ["%s: %s" % (fact, ", ".join(w)) for (c, fact), w in seen.items() if 2 < len(set(w))])
    say("5", "four parameters in three or more functions", ["%s: %s" % (", ".join(n), ", ".join(w)) for (c, n), w in together.items() if 2 < len(w)])
    count, inlined = answers(root)
    print("8 %4d  answers" % count)
    print("8 %4d  lemmas written out in place" % inlined)


main()
