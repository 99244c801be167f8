#!/usr/bin/env python3
"""Brings the names of this repository's definitions and lemmas to one spelling: words in snake case, types in camel case.

usage: tools/respell.py            at the top of the repository: rewrites crates/*/{specs,proofs}/**/*.antt and the clauses of crates/*/src/**/*.rt
       tools/respell.py --check    prints old and new names, and names that would fall together, and writes nothing

A name is turned if the repository itself binds it: a definition, a lemma, a field, a constructor, or a variable of one. Names of the
library and names that Rattle makes (goals, the parts of a goal's record) stay. Functions of src/ keep their names.
"""

import os
import re
import sys

WORD = r"[A-Za-z][\w'?′]*(?:-[\w'?′]+)*"
NAME = re.compile(r"(?<![\w'?′\-])" + WORD)
TOP = re.compile(r"^ *(?:pub |abbrev |unfoldable |data |record )*(" + WORD + r")(?: [({][^)}]*[)}])* :")
BINDER = re.compile(r"[({](" + WORD + r"(?: +" + WORD + r")*) :")
LET = re.compile(r"\blet (" + WORD + r") (?:=|:)")
LAMBDA = re.compile(r"λ ((?:" + WORD + r" ?)+)\.")
LHS = re.compile(r"^ *(?:" + WORD + r") ((?:[^=↦]|=[^ \n])*?) =(?: |$)")
USE = re.compile(r"\buse\s+([\w.'-]+)(?:\.\{([^}]*)\}|\s+as\s+(" + WORD + r"))")
GOAL = re.compile(r"^(?:abbrev )?pub (" + WORD + r") : goal\.")
CLAUSE = re.compile(r"^\s*(?:ghost\b|requires\b|ensures\b)")


def files(suffix):
    for folder, dirs, names in os.walk("crates"):
        dirs[:] = sorted(d for d in dirs if d != "out")
        for n in sorted(names):
            if n.endswith(suffix):
                yield os.path.join(folder, n)


def read(p):
    with open(p, encoding="utf-8") as f:
        return f.read()


def snake(name):
    name = name.replace("′", "'").replace("-", "_")
    return re.sub(r"([a-z0-9])([A-Z])", lambda m: m.group(1) + "_" + m.group(2).lower(), name)


def camel(name):
    return "".join(w[0].upper() + w[1:] for w in name.replace("′", "'").replace("_", "-").split("-") if w)


def new(name):
    return camel(name) if name[0].isupper() else snake(name)


def turned(name):
    return "-" in name or "′" in name or (name[0].islower() and re.search(r"[a-z0-9][A-Z]", name))


def fields(text):
    """The fields of records."""
    found, depth = set(), None
    for line in text.split("\n"):
        if re.match(r" *(?:pub )?record ", line) and line.rstrip().endswith("where"):
            depth = len(line) - len(line.lstrip())
        elif line.strip() and depth is not None and len(line) - len(line.lstrip()) <= depth:
            depth = None
        elif depth is not None and (m := re.match(r" +(?:pub )?(" + WORD + r") :", line)):
            found.add(m.group(1))
    return found


def bound(text):
    """The names that a file of specs/ or proofs/ binds, but for the answers to goals."""
    found, goals = set(), set()
    for line in text.split("\n"):
        line = re.sub(r"(^| )--.*", "", line)
        if (m := GOAL.match(line)):
            goals.add(m.group(1))
            continue
        if (m := TOP.match(line)):
            found.add(m.group(1))
        for m in BINDER.finditer(line):
            found.update(m.group(1).split())
        found.update(LET.findall(line))
        for m in LAMBDA.finditer(line):
            found.update(m.group(1).split())
        if (m := LHS.match(line)):
            found.update(NAME.findall(re.sub(r"\.[\w'-]+", "", m.group(1))))
    return found, goals


def taken(text):
    """The names that a file takes from the library, and those that it gives to what it takes."""
    lib, given = set(), set()
    for path, items, name in USE.findall(text):
        own = re.match(r"Rattle\.(words|banks|engine|script|trials|forest|forest_trials)\.", path)
        for item in filter(None, (i.strip() for i in items.split(","))):
            old, _, new = item.partition(" as ")
            if new:
                given.add(new.strip())
            if not own:
                lib.add(old.strip())
        if name:
            given.add(name)
    return lib, given


def main():
    check = "--check" in sys.argv[1:]
    own, goals, lib, seen, parts = set(), set(), set(), set(), set()
    for p in files(".antt"):
        t = read(p)
        b, g = bound(t)
        l, n = taken(t)
        own |= b | n
        parts |= fields(t)
        goals |= g
        lib |= l
        seen.update(NAME.findall(re.sub(r"(?m)(^| )--.*", "", t)))
    for p in files(".rt"):
        t = "\n".join(l for l in read(p).split("\n") if CLAUSE.match(l))
        l, n = taken(t)
        own |= n
        lib |= l
        seen.update(NAME.findall(t))
    table = {n: new(n) for n in sorted(own - goals - lib) if turned(n)}
    for n, m in table.items():
        if m in seen or list(table.values()).count(m) > 1:
            print(f"falls together: {n} and {m}")
    if check:
        for n, m in table.items():
            print(n, m)
        left = sorted(n for n in seen if turned(n) and n not in table)
        print("fields: " + " ".join(sorted(p for p in parts if p in table)))
        print("left: " + " ".join(left))
        return

    def text(all):
        modules = set(re.findall(r"\buse [\w.'-]+ as (" + WORD + ")", all))

        def turn(m):
            name, before = m.group(0), m.string[: m.start()]
            # a part of a goal's record may be named as a definition is
            if before.endswith(".") and name not in parts and not re.search(r"use [\w.'-]+\.$", before):
                path = re.search(r"(?<![\w'.-])(" + WORD + r")\.$", before)
                if not path or path.group(1) not in modules:
                    return name
            return table.get(name, name)

        return "\n".join(NAME.sub(turn, line) for line in all.split("\n"))

    for p in files(".antt"):
        t = read(p)
        u = text(t)
        if u != t:
            with open(p, "w", encoding="utf-8") as f:
                f.write(u)
    for p in files(".rt"):
        t = read(p)
        u = "\n".join(text(l) if CLAUSE.match(l) else l for l in t.split("\n"))
        if u != t:
            with open(p, "w", encoding="utf-8") as f:
                f.write(u)


main()
