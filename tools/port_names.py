#!/usr/bin/env python3
"""Spells the repository's own definitions, fields and lemmas as today's Rattle spells names: words joined by '_', facts in camel case.

usage: python3 tools/port_names.py [ROOT]

Run once, right after the kit's port.py, at the top of the repository (or give its folder). Own names are those that a file of specs/ or
proofs/ declares; names of the library, and names that Rattle makes for goals, keep their dashes. Text in must-fail edits turns alike.
A definition may get the name of the function that it defines the answer of; the script prints these. Where a name would fall together
with any other it prints that and writes nothing.
"""
import glob
import os
import re
import sys

# facts, which are types, and so are in camel case
FACTS = {
    "op-lists": "OpLists",
    "region-lists": "RegionLists",
    "block-lists": "BlockLists",
    "op-holds-block": "OpHoldsBlock",
    "region-holds": "RegionHolds",
    "op-holds": "OpHolds",
}
WORD = r"A-Za-z0-9_'\-≡≤≢₀-₉"
TOKEN = re.compile(rf"[A-Za-z][{WORD}]*")
DECLARED = re.compile(r"^[ \t]*(?:(?:pub|abbrev|unfoldable) )*([a-z][A-Za-z0-9_'\-]*) :\s*(.*)$", re.M)
GOAL = re.compile(r"(goal|Goals|Given)\.")
LIBRARY = re.compile(r"use ([A-Za-z_.]+)\.\{([^}]*)\}")


def read(path):
    with open(path, encoding="utf-8") as f:
        return f.read()


def main(root):
    os.chdir(root)
    crates = {c for c in os.listdir("crates") if os.path.isdir(os.path.join("crates", c))}
    antt = sorted(f for f in glob.glob("crates/**/*.antt", recursive=True) if "/out/" not in f)
    rt = sorted(f for f in glob.glob("crates/**/*.rt", recursive=True) if "/out/" not in f)
    edits = sorted(glob.glob("crates/*/must-fail/*.edit"))
    own, kit, seen, functions = set(), set(), set(), set()
    for path in antt + rt:
        text = read(path)
        seen |= set(TOKEN.findall(text))
        for m in LIBRARY.finditer(text):
            parts = m.group(1).split(".")
            if parts[0] != "Rattle" or parts[1] not in crates:
                kit |= {n.split(" as ")[0].strip() for n in m.group(2).split(",")}
    for path in rt:
        functions |= set(re.findall(r"\bfn (\w+)", read(path)))
    for path in antt:
        for name, what in DECLARED.findall(read(path)):
            if "-" in name and not GOAL.match(what):
                own.add(name)
    new = {n: FACTS.get(n, n.replace("-", "_")) for n in own}
    named = sorted(m for m in new.values() if m in functions)
    together = sorted(f"{n} and {m}" for n, m in new.items() if (m in seen and m not in functions) or n in kit or m in kit)
    print(f"{len(new)} names; named as a function: {', '.join(named) or 'none'}")
    if together or len(set(new.values())) < len(new):
        print(f"falling together: {', '.join(together)}")
        return 1
    for path in antt + rt + edits:
        text = read(path)
        turned = TOKEN.sub(lambda m: new.get(m.group(0), m.group(0)), text)
        if turned != text:
            with open(path, "w", encoding="utf-8") as f:
                f.write(turned)
    return 0


if __name__ == "__main__":
    raise SystemExit(main(sys.argv[1] if len(sys.argv) > 1 else "."))
