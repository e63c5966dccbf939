#!/usr/bin/env python3
"""Brings the names of lemmas and definitions that one function's proof has for itself to the spelling of all others: snake case.

    tools/spell-helpers.py [ROOT]

Names are those that proofs/**/Answers.antt and Invariants.antt declare and that are no goal's: `room-here` becomes room_here. It follows
tools/spell-names.py, which ran before there were such files. A name that would meet another one of its file ends it.
"""
import os
import re
import sys

ROOT = sys.argv[1] if len(sys.argv) > 1 else "."
TOKEN = re.compile(r"[^\s(){}\[\],;.:\"`|@⌜⌝«»]+")
DECLARED = re.compile(r"^ *(?:(?:abbrev|unfoldable|pub) )*([^\s:(){}.;,\[\]]+) ?:(?:\s(.*)|)$", re.M)


def files():
    for folder, dirs, names in os.walk(os.path.join(ROOT, "crates")):
        dirs[:] = sorted(d for d in dirs if d != "out")
        yield from (os.path.join(folder, n) for n in sorted(names) if n in ("Answers.antt", "Invariants.antt"))


def turned(path, text):
    code = "\n".join(line for line in text.split("\n") if not line.startswith(("--", "use ")))
    own = {m.group(1) for m in DECLARED.finditer(code) if not re.match(r"goal\.", m.group(2) or "")}
    new = {name: name.replace("-", "_") for name in own if "-" in name}
    for name, to in new.items():
        if to in TOKEN.findall(text):
            sys.exit(f"{path}: {name} would meet {to}")

    def one(m):
        behind_dot = m.start() > 0 and text[m.start() - 1] == "."
        return m.group(0) if behind_dot else new.get(m.group(0), m.group(0))

    return TOKEN.sub(one, text), sorted(new.items())


def main():
    count = 0
    for path in files():
        with open(path, encoding="utf-8") as f:
            text = f.read()
        to, new = turned(path, text)
        if to != text:
            count += len(new)
            with open(path, "w", encoding="utf-8") as f:
                f.write(to)
            print(path, ", ".join(f"{a} to {b}" for a, b in new))
    print(f"{count} names respelt")


main()
