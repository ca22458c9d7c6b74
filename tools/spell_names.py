#!/usr/bin/env python3
"""Brings this repository's own definitions and lemmas to today's spelling: once, at the top, after the toolchain's port.py.

A definition, a field and a variable are in snake case: fileWith becomes file_with. A lemma joins the names that it speaks of by dashes,
and any other word is added with an underscore: length-bytes stays, class-below becomes class_below. Types and modules keep theirs.
Functions of src/ are not touched, nor are proofs/F/ of a function F where a name is one that the toolchain makes.

usage: tools/spell_names.py          rewrites crates/*/{src,specs,proofs}, and prints old and new names, a line each
"""
import collections
import os
import re

NAME = re.compile(r"[^\s(){}\[\].,;:|\"`@«»←]+")
# Words that std joins by a dash in its own lemmas: of numbers, lists and tests.
STD = set("""append add sub mul div mod pow min max zero suc one two nil cons le lt eq ne ltb leb eqb length take drop set get_or get
map replicate sum reverse head tail bytes true false none some and or not if cond refl""".split())
# A lemma that would have its definition's name.
LEMMAS = {"one_by_one": "one_by_one_lem", "too_far": "too_far_lem", "run_length": "whole_run"}
OPEN = r"(?:(?:abbrev|unfoldable|pub|axiom|ruleset) )*"


def files():
    for folder, dirs, names in os.walk("crates"):
        dirs[:] = sorted(d for d in dirs if d not in ("out", "must-fail"))
        for name in sorted(names):
            if name.endswith((".antt", ".rt")):
                yield os.path.join(folder, name)


def of_function(path):
    return re.match(r"crates/\w+/proofs/.+/", path) is not None


def snake(word):
    if not re.match(r"[a-z]", word):
        return word
    return re.sub(r"(?<=[a-z0-9])([A-Z])", lambda m: "_" + m.group(1).lower(), word)


texts = {p: open(p, encoding="utf-8").read() for p in files()}
declared, words, foreign = set(), set(STD), set()
for path, text in texts.items():
    if path.endswith(".rt"):
        for m in re.finditer(r"\bfn (\w+)", text):
            words.add(m.group(1))
            foreign.add(m.group(1).replace("_", "-"))
        continue
    for m in re.finditer(r"(?m)^use Rattle\.std[\w.+'-]*\.\{([^}]*)\}", text):
        foreign.update(re.split(r"[,\s]+", m.group(1)))
    if of_function(path):
        continue
    for m in re.finditer(r"(?m)^ *(%s)([^\s(){}:=][^(){}:=\n]*) : " % OPEN, text):
        declared.update(m.group(2).split())
        if "abbrev" in m.group(1) or "unfoldable" in m.group(1):
            words.update(snake(w) for w in m.group(2).split() if "-" not in w)
    for m in re.finditer(r"[({]([^(){}:=\n]+) : ", text):
        declared.update(m.group(1).split())
    for m in re.finditer(r"\blet ([^\s:=]+)(?= )", text):
        declared.add(m.group(1))
    for m in re.finditer(r"λ ([^(){}.\n]+)\. ", text):
        declared.update(m.group(1).split())
    for m in re.finditer(r"\bruleset ([^\s=]+)", text):
        declared.add(m.group(1))
    for m in re.finditer(r"(?m)^\s+\| ([^\s:]+) : ", text):
        declared.add(m.group(1))

declared -= foreign
seen = collections.Counter(t for text in texts.values() for t in NAME.findall(text))


def spelled(name):
    parts = [snake(p) for p in name.split("-")]
    if name not in declared:
        return "-".join(parts)
    made = parts[0]
    for before, after in zip(parts, parts[1:]):
        joins = (before in words and after in words) or re.match(r"[A-Z]", before) or re.match(r"[A-Z]", after)
        made += ("-" if joins else "_") + after
    return made


names = {}
for name in sorted(seen):
    if re.match(r"[a-z]", name) and re.fullmatch(r"[\w'ᵣ₀-₉-]+", name):
        if name in LEMMAS:
            names[name] = LEMMAS[name]
        elif spelled(name) != name:
            names[name] = spelled(name)

# Where a definition and a lemma fall together, the lemma is told apart.
for name, new in list(names.items()):
    if "-" in name and (new in foreign or any(names.get(w) == new for w in names if "-" not in w)):
        names[name] = new + "_lem"

for path, text in texts.items():
    source = path.endswith(".rt")

    def turned(m):
        name = m.group(0)
        if name not in names:
            return name
        # In src/ only clauses, and the imports for them, have names that are not Rattle's.
        if source and ("-" in name or not re.search(r"[A-Z]", name)):
            return name
        # What the toolchain makes for the function, or the path of its proof, keeps its name.
        before = text[: m.start()]
        if name in LEMMAS and (before.endswith(".proofs.") or before.endswith("`")):
            return name
        return names[name]

    new = NAME.sub(turned, text)
    if new != text:
        with open(path, "w", encoding="utf-8") as f:
            f.write(new)

for old, new in names.items():
    print(old, new)
