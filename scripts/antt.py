"""Reads proof files (.antt) and program files (.rt) for the scripts beside it: imports, declarations, and what a name means.

A file is found by the path that a `use` line writes, wherever it stands: `Rattle.X.specs.laws.F` is crates/X/specs/laws/F.antt.
The toolchain's libraries and what it generates below proofs/ are not read. Any other path that leads nowhere ends the script,
and so does a form that is not read here: nothing is missed in silence. A name counts wherever it stands, even where a variable
hides it. A declaration marked `abbrev`, `unfoldable`, `record` or `data` is a definition; any other is a law.
"""
import re
import sys
from pathlib import Path

ROOT = Path(__file__).resolve().parent.parent
# Files whose laws others read: what is promised, not only what serves a proof.
DEMANDS = "crates/demands/specs/Demands.antt"
STATEMENTS = (
    DEMANDS,
    "crates/demands/specs/Tight.antt",
    "crates/demands/specs/Groups.antt",
    "crates/demands/specs/Cases.antt",
    "crates/machine/specs/Cases.antt",
    "crates/builder/specs/Tight.antt",
    "crates/filterbox/specs/Tight.antt",
)
TOOLCHAIN = ("Prim", "mathlib", "native", "lib", "borrow", "mir", "denote", "contract", "Rattle.std")
NAME = r'[^\s(){}.;,@"«»]+'
USE = re.compile(r"^ *((?:unfoldable |pub |ghost )*)use ([^\s{;]+?)(?:(?:\.|::)\{([^}]*)\}| as ([^\s;]+))?;?$", re.M)
HEAD = re.compile(rf"((?:unfoldable |abbrev |axiom |pub )*)(record |data |ruleset )?({NAME})(?: \{{[^}}]*\}})?( :)?")
LABEL = re.compile(rf"(?:^ *(?:pub )?|(?<=[{{;,]) *){NAME} (?=[:=](?:\s|$))|(?<=[({{])(?:{NAME} )+(?=:\s)", re.M)
UNREAD = re.compile(r"(unfoldable |abbrev )*mutual\b")
IMPL = re.compile(r"impl(?:<[^{]*?>)? (?:([\w:]+(?:<[^{]*?>)?) for )?([A-Za-z]\w*)[^{]*\{$")
PROGRAM = re.compile(r'(pub )?(?:pub\(crate\) )?(?:extern "C" )?(enum|struct|type|const|fn) (\w+)')


def words(text):
    """The names in a text, a qualified one as it is written. A projection `.f` is none, nor is a name that is bound or labelled there."""
    found = (chunk.rstrip(".") for chunk in re.findall(r'[^\s(){};,@"«»]+', LABEL.sub("", text)))
    return {chunk for chunk in found if chunk and not chunk.startswith(".")}


def means(word, local):
    """Whether a word of a text is the name local, something behind it, or a part of it where it is an operator."""
    return word == local or word.startswith(local + ".") or "◌" in local and word != "" and word in local.split("◌")


class Import:
    """A name that a file brings in under the name local, or a module where name is None; lines first to last, written as entry."""

    def __init__(self, first, last, module, name, local, entry, marks):
        self.first, self.last, self.module, self.name, self.local, self.entry = first, last, module, name, local, entry
        self.public, self.ghost, self.passed = "pub" in marks, "ghost" in marks, False


class Item:
    """A declaration on lines first to last, its statement those up to stated; the lines of the parameters around it; a data type's constructors."""

    def __init__(self, file, name, kind, public, first, blocks=()):
        self.file, self.name, self.kind, self.public, self.first, self.blocks = file, name, kind, public, first, list(blocks)
        self.stated, self.last, self.members = None, first, set()

    def __str__(self):
        return f"{self.file.path}:{self.first}: {self.kind} {self.name}"

    def lines(self, stated):
        """The numbers of its lines, or of its statement's, with the parameters around it; none that is blank or a comment."""
        spans = self.blocks + [(self.first, self.stated or self.last if stated else self.last)]
        return {n for a, b in spans for n in range(a, b + 1) if self.file.code[n - 1].strip()}

    def comment(self):
        """The numbers of the lines of the comment directly above it."""
        n = self.first - 1
        while n > 0 and self.file.text[n - 1].strip().startswith(("--", "//", "#[")):
            n -= 1
        return {k for k in range(n + 1, self.first) if not self.file.text[k - 1].startswith("#[")}

    def words(self, stated):
        text = "\n".join(self.file.code[n - 1] for n in sorted(self.lines(stated)))
        return words(text) | (set(re.findall(r"\w+(?:::\w+)*", text)) if self.file.part == "src" else set())


class File:
    def __init__(self, path):
        self.path = str(path.relative_to(ROOT))
        self.crate, self.part = path.relative_to(ROOT).parts[1:3]
        self.text = path.read_text(encoding="utf-8").splitlines()
        mark = "//" if path.suffix == ".rt" else "--"
        self.code = [re.sub(rf"(^|\s){mark}.*", "", line) for line in self.text]
        self.imports, self.items = [], {}
        self.read_imports("\n".join(self.code))
        (self.read_program if path.suffix == ".rt" else self.read_items)()
        self.own = {member: item for item in self.items.values() for member in item.members}
        self.own.update({name: item for name, item in self.items.items() if item.kind != "call"})

    def read_imports(self, text):
        """Reads the `use` lines, and takes them out of the code."""
        for use in USE.finditer(text):
            marks, path, names, alias = use.groups()
            first, last = (text.count("\n", 0, at) for at in use.span())
            self.code[first:last + 1] = [""] * (last + 1 - first)
            if "::" in path and names is None:
                path, _, names = path.rpartition("::")
                names += f" as {alias}" if alias else ""
            path = path.replace("::", ".")
            if path.endswith("*"):
                sys.exit(f"{self.path}:{first + 1}: cannot be read")
            if names is None:
                self.imports.append(Import(first + 1, last + 1, path, None, alias or path.split(".")[-1], None, marks))
            for entry in [entry.strip() for entry in (names or "").split(",") if entry.strip()]:
                name, _, local = entry.partition(" as ")
                below, _, leaf = name.rpartition(".")
                self.imports.append(Import(first + 1, last + 1, f"{path}.{below}".rstrip("."), leaf, local or leaf, entry, marks))

    def read_items(self):
        blocks, item, opening = [], None, None      # a block: the lines of its parameters, and the column of what it holds
        for n, line in enumerate(self.code, 1):
            text, column = line.strip(), len(line) - len(line.lstrip())
            if not text or re.match(r"(pub )?mod |infix[lr]? ", text):
                continue
            if opening is None:
                blocks = [(a, b, inner or column) for a, b, inner in blocks if inner is None or inner <= column]
            level = blocks[-1][2] if blocks else 0
            if opening or re.match(r"module\b", text):
                opening, item = opening or n, None
                if re.search(r"\bwhere$", text):
                    blocks, opening = blocks + [(opening, n, None)], None
                continue
            head = HEAD.match(text) if column == level else None
            if head and (head[1] or head[2] or head[4]) and head[3] != "unfolding" and not UNREAD.match(text):
                marks, shape, name, _ = head.groups()
                kind = "definition" if shape in ("record ", "data ") or set(marks.split()) - {"pub"} else "law"
                item = self.items[name] = Item(self, name, kind, "pub" in marks, n, [(a, b) for a, b, _ in blocks])
            elif item is None or UNREAD.match(text):
                sys.exit(f"{self.path}:{n}: cannot be read")
            elif column == level and not shape:
                item.stated = item.stated or item.last
            elif shape == "data " and column == level + 2 and (member := re.match(rf"({NAME}) :", text)):
                item.members.add(member[1])
            item.last = n

    def read_program(self):
        """Reads the items of a program, methods under their type's name too. Of a trait's block what its ghost members say counts as stated."""
        item, owner, block, ghosts = None, "", None, False
        for n, line in enumerate(self.code, 1):
            if head := IMPL.match(line):
                owner, trait = f"{head[2]}::", head[1]
                block = Item(self, line.rstrip(" {"), "call", True, n) if trait else None
                if block:
                    self.items[block.name], block.stated, ghosts = block, n, True
            elif owner and line.startswith("}"):
                item, owner, block = None, "", None
            elif block:
                block.last = n if line.strip() else block.last
                ghosts = ghosts and not re.match(r" +(#|fn |unsafe )", line)
                block.stated = block.last if ghosts else block.stated
            else:
                item = self.read_line(n, line[4:] if owner else line, owner, item)

    def read_line(self, n, line, owner, item):
        """The item that goes on behind line n."""
        if head := PROGRAM.match(line):
            name = owner + head[3]
            item = self.items[name] = Item(self, name, "call" if head[2] == "fn" else "type", bool(head[1]), n)
        if not item or not line.strip():
            return item
        item.last = n
        if item.kind == "call" and item.stated is None and re.match(r"\{|\).*\{$|(pub |extern |fn ).*\{$", line):
            item.stated = n - 1 if line.startswith("{") else n
        return None if line.startswith("}") or line.endswith(";") and not line.startswith(" ") else item


FILES = {}
for path in sorted(path for part in ("specs", "proofs", "src") for path in ROOT.glob(f"crates/*/{part}/**/*")):
    if path.suffix in (".antt", ".rt"):
        FILES[str(path.relative_to(ROOT))] = File(path)


def declared(crate, name, near=None):
    """The type or constant that a crate's program declares, in the file near where that has one."""
    found = [file.items[name] for file in FILES.values() if file.crate == crate and file.part == "src" and name in file.items]
    return next((item for item in sorted(found, key=lambda item: item.file is not near) if item.kind == "type"), None)


def lookup(module, name, at):
    """The item that a module has under a name, for the file at; None for the toolchain's and for a function of a program."""
    if (module + ".").startswith(tuple(library + "." for library in TOOLCHAIN)):
        return None
    head, *rest = module.split(".")
    if head != "Rattle" and at.part == "src":
        return declared(head if any(file.crate == head for file in FILES.values()) else at.crate, name, at)
    crate, *rest = rest or [""]
    file = FILES.get(f"crates/{crate}/{'/'.join(rest)}.antt")
    if rest[:2] == ["specs", "declared"]:
        found = declared(crate, [part for part in rest if part != "TheVariants"][-1])
    elif file is None and rest[:1] == ["proofs"]:
        return None
    else:
        found = file and file.own.get(name)
    for i in file.imports if file and not found else ():
        if i.public and i.local == name:
            i.passed = True
            return lookup(i.module, i.name, file)
    if found is None:
        sys.exit(f"{at.path}: nothing found for {module}.{name}")
    return found


def resolve(file, word):
    """The item that a word of a file means; None: a variable, a function of the program, or the toolchain's."""
    if (own := word if word in file.own else word.split(".")[0]) in file.own:     # a projection `x.f` names x
        return file.own[own]
    for i in file.imports:
        if means(word, i.local) and (i.name is not None or "." in word):
            path = i.module.split(".") + ([i.name] if i.name is not None else word[len(i.local) + 1:].split("."))
            return lookup(".".join(path[:-1]), path[-1], file)
    if word.startswith("Rattle.") or "::" in word:
        module, _, name = word.replace("::", ".").rpartition(".")
        return lookup(module, name, file)
    return declared(file.crate, word.split(".")[0], file) if file.part == "src" else None


def names(item, stated):
    """The items that a declaration names, or its statement."""
    return {resolve(item.file, word) for word in item.words(stated)} - {None, item}


def mentions():
    """Each declaration with the items that it names; a function of the program by its contract, whatever its code calls."""
    return {item: names(item, stated=item.kind == "call") for file in FILES.values() for item in file.items.values()}


def closure(roots, named):
    """The roots and all that is named from them on."""
    reached, waiting = set(roots), list(roots)
    while waiting:
        new = named[waiting.pop()] - reached
        reached |= new
        waiting += new
    return reached
