#!/usr/bin/env python3
"""Spells this repository's own definitions and lemmas in snake case, after the toolchain's port.py.

It ran once (docs/PORT.md), and is kept so that what was ported can be compared with what had landed.

usage: python3 tools/respell.py [--check]     at the top of the repository; --check prints the table and writes nothing

What specs/ and proofs/ declare in lower case, as isGood or good-one, becomes is_good and good_one, wherever it stands:
in specs/, proofs/, clauses, imports, comments. Where that is a definition's name, a lemma ends in _lem, and what is
declared inside something else, as a field of a claim, in _case. Kept as they are: names of src/, which a clause may
cite, the answers that a function's Proof.antt gives to goals, and strings. The edits of must-fail/ are turned as well,
from the spelling that they had: paths, projections and words of the library too.
"""

import os
import re
import sys

NAME = r"[^\s(){}.;,@\"«»\x60]+"
WORDS = r"(?:(?:pub|abbrev|unfoldable|record|data) +)*"
DECLARED = re.compile(rf"^( *)({WORDS})({NAME})(?: \{{[^{{}}\n]*\}})* :(?= |$)", re.M)
MADE = re.compile(r"returns(-\d+)?$|invariant-|decreases-|tie\b")
# A string keeps its words.
STRING = re.compile(r'"(?:[^"\\\n]|\\.)*"')
# What would fall together with another name in sight of it, or get an ending that it needs not.
BY_HAND = {
    "noRoom": "no_room_word",
    "everyByte": "each_byte",
    "is-forward": "is_forward_lem",
    "the-opt": "sole_opt",
    "isGood": "is_good",
    "refusedBy": "refused_by",
}
# Words of the library that edits still spell as the older Rattle did.
LIBRARY = {"bitXor": "bit_xor", "bitAnd": "bit_and", "bitOr": "bit_or", "getD": "get_or", "isTrue": "IsTrue"}


def files(kinds):
    for folder, below, names in os.walk("crates"):
        below[:] = sorted(d for d in below if d != "out")
        for name in sorted(names):
            if name.endswith(kinds):
                yield os.path.join(folder, name)


def read(path):
    with open(path, encoding="utf-8") as f:
        return f.read()


def write(path, old, now):
    if now == old:
        return 0
    with open(path, "w", encoding="utf-8") as f:
        f.write(now)
    return 1


def snake(name):
    return re.sub(r"(?<=[a-z0-9])[A-Z]", lambda m: "_" + m[0].lower(), name).replace("-", "_").lower()


def declared():
    """The names that specs/ declares, and those of proofs/: goals that a Proof.antt answers are Rattle's."""
    definitions, lemmas, parts = set(), set(), set()
    for path in files(".antt"):
        text = re.sub(r"--[^\n]*", "", read(path))
        walk = path.endswith("/Proof.antt")
        for m in DECLARED.finditer(text):
            name = m[3]
            rest = text[m.end() : text.find("\n", m.end())]
            if walk and (MADE.match(name) or rest.lstrip().startswith("tie.") or name.endswith("-spec")):
                continue
            (parts if m[1] else definitions if "/specs/" in path else lemmas).add(name)
    return definitions, lemmas, parts


def table():
    definitions, lemmas, parts = declared()
    inner = {p for p in parts if p[0].islower() and "-" not in p}
    taken = {BY_HAND.get(d, snake(d)) for d in definitions | inner if d[0].islower()}
    turned = {snake(d) for d in definitions if d[0].islower() and d != snake(d) and d not in BY_HAND}
    clash = ((lemmas | parts) & turned) - definitions
    new, said = {}, []
    for kind, suffix in ((definitions, ""), (lemmas - definitions, "_lem"), (parts - lemmas - definitions, "_case")):
        for name in sorted(kind):
            if not name[0].islower():
                continue
            to = snake(name)
            if suffix and "-" in name and to in taken or name in clash:
                to += suffix
            to = BY_HAND.get(name, to)
            if to != name:
                new[name] = to
    both = {}
    for old, to in new.items():
        both.setdefault(to, set()).add(old)
    every = definitions | lemmas | parts
    for to, olds in sorted(both.items()):
        if len(olds) > 1 or to in every - olds - set(new):
            said.append(f"two names fall together as {to}: {', '.join(sorted(olds))}")
    return new, said


def turn_words(text, new, walk=False):
    """Each word of the table, but none in a string, and in a Proof.antt none behind a dot: that is Rattle's."""
    strings = [m.span() for m in STRING.finditer(text)]

    def word(m):
        if any(a <= m.start() < b for a, b in strings) or m[0] not in new:
            return m[0]
        if walk and not re.search("[A-Z]", m[0]) and text[m.start() - 1 : m.start()] == ".":
            return m[0]
        return new[m[0]]

    return re.sub(NAME, word, text)


def rt(text, new):
    """A file of src/: its code and comments have no word in camel case of their own, and a dash only between words."""
    camel = {o: n for o, n in new.items() if re.search("[A-Z]", o)}
    return turn_words(text, camel)


def edit(text, new, words):
    """A file of must-fail/: paths, projections and primes as they are written now, and words that are gone."""

    def word(m):
        w = LIBRARY.get(m[0], m[0])
        if w in words or not re.search("[a-z0-9][A-Z]|-", w):
            return w
        to = new.get(w, snake(w))
        return to if to in words else w

    def line(l):
        if not re.match(r"(old|new): ", l):
            return l
        l = re.sub(r"Rattle·(\w+)(?:·specs)?\.(specs|proofs)\b", r"Rattle.\1.\2", l)
        l = re.sub(r"\(([\w']+(?: \.\w+)+)\)", lambda m: m[1].replace(" .", "."), l)
        l = re.sub(r"(?<=[\w')]) \.(?=[a-z])", ".", l)
        l = l.replace("′", "'")
        return re.sub(NAME, word, l)

    return "\n".join(line(l) for l in text.split("\n"))


def words_of_crates():
    words = set()
    for path in files((".antt", ".rt")):
        words |= set(re.findall(NAME, read(path)))
    return words


def main():
    new, said = table()
    print("\n".join(said))
    if "--check" in sys.argv[1:]:
        print("\n".join(f"{o}\t{n}" for o, n in sorted(new.items())))
        return
    n = 0
    for path in files((".antt", ".rt")):
        old = read(path)
        walk = path.endswith("/Proof.antt")
        now = rt(old, new) if path.endswith(".rt") else turn_words(old, new, walk)
        n += write(path, old, now)
    words = words_of_crates()
    for path in files(".edit"):
        old = read(path)
        n += write(path, old, edit(old, new, words))
    print(f"{len(new)} names, {n} files")


main()
