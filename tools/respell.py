#!/usr/bin/env python3
"""Brings the names that this repository defines in specs/ and proofs/ to snake case, after /opt/rattle/port/port.py.

usage: python3 tools/respell.py        at the top of the repository, once

Every name of the form `leValue` (a dash joins names, so each part of `leValue-append` by itself) that no kit's module gives becomes
`le_value`, in the definitions, the lemmas and the clauses of src/. A lemma that would get the name of what it speaks of has
`_lem` behind it.
Names of functions and strings of src/ keep theirs; comments follow. A prime is an apostrophe.
"""
import glob
import os
import re
import sys

# Lemmas that would then have the name of what they speak of, with the folder in which each is a lemma's name.
LEMMAS = {
    "to_write": "crates/",
    "value_row": "crates/",
    "passed_over": "crates/",
    "float_value": "crates/",
    "in_list": "crates/list/proofs/",
}

TOKEN = re.compile(r"[\w'₀-₉′·+*?!-]+")
CAMEL = re.compile(r"^[a-zα-ω][^A-Z_]*(?:_[a-z][^A-Z_]*)*[A-Z]")


def files():
    out = []
    for ending in ("antt", "rt"):
        for folder in ("specs", "proofs", "src"):
            out += glob.glob(f"crates/*/{folder}/**/*.{ending}", recursive=True)
    return sorted(out)


def snake(part):
    return re.sub(r"(?<=[^A-Z_])([A-Z])", lambda m: "_" + m.group(1), part).lower()


def respelled(name):
    parts = name.replace("′", "'").split("-")
    return "-".join(snake(p) if CAMEL.match(p) else p for p in parts)


def kit_names(texts):
    own = set(os.listdir("crates"))
    names = set()
    for t in texts.values():
        for m in re.finditer(r"use ([\w.·+-]+)\.\{([^}]*)\}", t):
            module = m.group(1).split(".")
            if not (module[0] == "Rattle" and len(module) > 1 and module[1] in own):
                names |= set(re.split(r"[,\s]+", m.group(2)))
    return names


def main():
    texts = {f: open(f, encoding="utf-8").read() for f in files()}
    kit = kit_names(texts)
    found = {}
    tokens = {f: set(TOKEN.findall(t)) for f, t in texts.items()}
    every = set().union(*tokens.values())
    for name in every - kit:
        new = respelled(name)
        if new != name:
            found[name] = new
    clashes = []
    back = {}
    for name, new in sorted(found.items()):
        if new in back:
            clashes.append((name, back[new], new))
        back[new] = name
        if new in every or new in kit:
            where = [f for f in texts if name in tokens[f] and new in tokens[f]]
            if where:
                clashes.append((name, "is taken", new, where[:3]))
    for c in clashes:
        print("clash:", *c)
    if "--try" in sys.argv:
        for name, new in sorted(found.items()):
            print(name, new)
        return
    for f, t in texts.items():
        def turn(m):
            name = m.group(0)
            if name in found:
                return found[name]
            if f.startswith(LEMMAS.get(name, "none")) and "/src/" not in f:
                return name + "_lem"
            return name

        new = TOKEN.sub(turn, t)
        if new != t:
            with open(f, "w", encoding="utf-8") as out:
                out.write(new)
    print(f"respell: {len(found)} names")


main()
