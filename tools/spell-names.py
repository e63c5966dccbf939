#!/usr/bin/env python3
"""Brings the names of the repository's own definitions and lemmas to one spelling: words in snake case.

    tools/spell-names.py [ROOT]

Run once, at the top, after the toolchain's port.py. A name is taken where a file of specs/, or a file directly in proofs/, declares it:
`matchSet` becomes match_set, `length-append` becomes length_append; facts and types keep their capitals. A lemma that would get its
definition's name gets `_lem`. What a file imports from the toolchain's libraries keeps its name there. Names of functions, types,
fields and constants of src/, strings, inputs and outputs are not touched; in comments a name with a dash is turned between accents and
where a file lists its names. The edits of must-fail/ and the accents of the pages are turned alike.
"""
import os
import re
import sys

ROOT = sys.argv[1] if len(sys.argv) > 1 else "."
TOKEN = re.compile(r"[^\s(){}\[\],;.:\"`|@⌜⌝«»]+")
SIGNATURE = re.compile(r"^(\s*)((?:(?:abbrev|unfoldable|pub)\s+)*)([^\s:(){}.;,\[\]]+)\s*:(?:\s|$)")
LIBRARY = re.compile(r"(?m)^(?:ghost )?use (?:Rattle\.std|borrow|mathlib|Prim|lib|native)\b[^{\n]*\{([^}]*)\}")
# A definition whose plain new name is a parameter's or a field's where it is used.
OTHERWISE = {"asIs": "is_as_is", "visitNext": "visit_next"}
# Lemmas that port.py had spelt already, whose name a definition gets here.
TAKEN = {"way_at": ("specs/laws/Layout", "specs/laws/Labelled"), "went_on": ("proofs/Goings",), "is_cut": ("specs/laws/CutSet",), "one_more": ("specs/laws/WaysPlaced",), "too_long": ("proofs/Turns",)}


def read(path):
    with open(path, encoding="utf-8") as f:
        return f.read()


def files(root, *ends):
    for folder, dirs, names in os.walk(root):
        dirs[:] = sorted(d for d in dirs if d not in ("out", ".git", "target", "log"))
        for name in sorted(names):
            if name.endswith(ends):
                yield os.path.join(folder, name)


def is_shared(path):
    parts = os.path.relpath(path, ROOT).split(os.sep)
    return parts[2] == "specs" or parts[2] == "proofs" and len(parts) == 4


def declared(text):
    """The names that a file declares, those of fields apart."""
    names, fields, record = set(), set(), None
    for line in text.split("\n"):
        if line.startswith(("--", "use ")) or not line.strip():
            continue
        indent = len(line) - len(line.lstrip())
        if re.match(r"^\s*(?:pub )?(?:record|data)\s", line):
            record = indent
            continue
        if record is not None and indent <= record:
            record = None
        if m := SIGNATURE.match(line):
            (fields if record is not None else names).add(m.group(3))
    return names, fields


def snake(name):
    def part(p):
        return p if p[:1].isupper() else re.sub(r"(?<=[a-z0-9])([A-Z])", lambda m: "_" + m.group(1).lower(), p)

    return name if name[:1].isupper() and "-" not in name else "_".join(part(p) for p in name.split("-"))


def spelling():
    names, fields = set(), set()
    for path in files(os.path.join(ROOT, "crates"), ".antt"):
        if is_shared(path):
            a, b = declared(read(path))
            names |= a
            fields |= b
    every = names | fields
    new = {n: snake(n) for n in every if snake(n) != n}
    made = {b for a, b in new.items() if "-" not in a}
    for name, to in new.items():
        if "-" in name and (to in made or to in names):
            new[name] = to + "_lem"
    new.update(OTHERWISE)
    return new, fields


def library_names(text):
    return {entry.split(" as ")[-1].strip() for m in LIBRARY.finditer(text) for entry in m.group(1).split(",")}


def turn(text, new, kept=frozenset(), fields=None):
    """A text with its names turned; behind a dot only a field of the repository's own, or what a module's short name brings."""

    def one(m):
        word, at = m.group(0), m.start()
        if word in kept or word not in new:
            return word
        before = re.search(r"([^\s(){}\[\],;.]+)\.$", text[max(0, at - 80):at])
        if before and not before.group(1)[0].isupper() and fields is not None and word not in fields:
            return word
        return new[word]

    return TOKEN.sub(one, text)


def turn_comment(line, new, kept):
    line = re.sub(r"`[^`]+`", lambda m: turn(m.group(0), new, kept), line)
    line = re.sub(r"^(--   )(\S+)", lambda m: m.group(1) + turn(m.group(2), new, kept), line)
    return TOKEN.sub(lambda m: new[m.group(0)] if m.group(0) in new and "-" not in m.group(0) and re.search("[a-z][A-Z]", m.group(0)) else m.group(0), line)


def turn_antt(path, text, new, fields):
    kept, here = library_names(text), dict(new)
    for name, places in TAKEN.items():
        if any(p in path for p in places) or re.search(r"use [^{\n]*(?:%s)\.\{[^}]*\b%s\b" % ("|".join(p.replace("/", r"\.") for p in places), name), text):
            here[name] = name + "_lem"
    lines = text.split("\n")
    code = "\n".join("" if l.lstrip().startswith("--") else l for l in lines)
    code = turn(code, here, kept, fields).split("\n")
    return "\n".join(turn_comment(l, here, kept) if l.lstrip().startswith("--") else c for l, c in zip(lines, code))


def turn_rt(text, new):
    kept, out, inside = library_names(text), [], False
    for line in text.split("\n"):
        if line.lstrip().startswith("//"):
            out.append(turn_comment(line, new, kept))
            continue
        starts = re.match(r"^\s*(?:requires|ensures|ghost)\b", line) is not None
        inside = starts or inside and not line.startswith("{") and line.strip() != ""
        out.append(turn(line, new, kept, set()) if inside else line)
    return "\n".join(out)


def turn_edit(text, new):
    spec = re.search(r"(?m)^file: .*\.antt$", text) is not None
    lines = []
    for line in text.split("\n"):
        if line.startswith(("old: ", "new: ")) and (spec or re.search(r"\b(?:requires|ensures)\b", line)):
            line = line[:5] + turn(line[5:], new)
        lines.append(line)
    return "\n".join(lines)


def main():
    new, fields = spelling()
    for path in files(os.path.join(ROOT, "crates"), ".antt", ".rt", ".edit"):
        text = read(path)
        to = turn_antt(path, text, new, fields) if path.endswith(".antt") else turn_rt(text, new) if path.endswith(".rt") else turn_edit(text, new)
        if to != text:
            with open(path, "w", encoding="utf-8") as f:
                f.write(to)
    accents = {**new, **{name: name for name in TAKEN}}
    pages = [p for p in files(ROOT, ".md") if not os.path.relpath(p, ROOT).startswith(("wip", "crates"))]
    for path in pages:
        text = read(path)
        to = re.sub(r"`[^`\n]+`", lambda m: turn(m.group(0), accents), text)
        if to != text:
            with open(path, "w", encoding="utf-8") as f:
                f.write(to)
    print(f"{len(new)} names respelt")


main()
