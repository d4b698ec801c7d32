"""Reads the sources of the library: modules, and items with documentation, signature and contract.

The layout is that of `rt fmt`, which the gate enforces: an item begins at its indentation and ends there, so no grammar is needed beyond
lines and brackets.
"""
import dataclasses
import functools
import os
import re

TOP = os.path.dirname(os.path.dirname(os.path.abspath(__file__)))
HEAD = re.compile(
    r"(?P<public>pub(?:\([^)]*\))? )?(?:final |unsafe |async |extern \"C\" |const (?=fn))*"
    r"(?P<kind>ghost|fn|struct|enum|trait|impl|type|const|static|mod|use)\b ?(?P<name>\w+)?"
)
HIDING = re.compile(
    r"""//[^\n]*|"(?:\\.|[^"\\])*"|b?'(?:\\(?:u\{[0-9a-fA-F]*\}|x..|.)|[^'\\\n])'""", re.S)


@dataclasses.dataclass
class Clause:
    word: str
    name: str
    lines: list = dataclasses.field(repr=False)


@dataclasses.dataclass
class Item:
    kind: str
    name: str
    file: str
    line: int
    docs: list
    notes: list
    attributes: str
    is_public: bool
    head: list
    lines: list = dataclasses.field(repr=False)
    clauses: list = dataclasses.field(default_factory=list)
    members: list = dataclasses.field(default_factory=list)
    module: object = dataclasses.field(default=None, repr=False)

    @property
    def is_hidden(self):
        return "doc(hidden)" in self.attributes


@dataclasses.dataclass
class Module:
    crate: str
    path: tuple
    file: str
    docs: list
    items: list
    uses: dict
    modules: dict

    def item(self, name):
        """The item of this name, if there is one."""
        return next((item for item in self.items if item.name == name and item.kind not in ("impl", "use", "mod", "ghost")), None)


def read(path):
    with open(path, encoding="utf-8") as file:
        return file.read()


def masked(text):
    """The text with comments, strings and characters blanked out, line for line."""
    return HIDING.sub(lambda found: re.sub(r"[^\n]", " ", found.group()), text)


@functools.lru_cache(None)
def depth_of(line):
    """How many brackets more a line opens than it closes."""
    return sum(line.count(c) for c in "{([") - sum(line.count(c) for c in "})]")


def end_of(masks, at, indent):
    """The number of the last line of the item that begins at a line."""
    depth, margin = 0, " " * indent
    for number in range(at, len(masks)):
        line = masks[number].rstrip()
        depth += depth_of(line)
        if depth == 0 and (line.endswith(";") or line in (margin + "}", margin + "{}") or (number == at and line.endswith("}"))):
            return number
        if depth == 0 and line.startswith(margin + ")") and line.endswith("{}"):
            return number
    raise ValueError("no end of the item in line %d" % (at + 1))


def clauses_of(lines, indent):
    """The contract in the lines between a signature and its body, and the lines of the signature before it."""
    opening = re.compile(r" {%d}(requires|ensures\*?)(?: (\w+))? \{" % (indent + 4))
    signature, clauses, comments = [], [], []
    for line in lines:
        found = opening.match(line)
        if found:
            clauses.append(Clause(found[1], found[2] or "", comments + [line]))
            comments = []
        elif clauses and re.match(r" *//", line) and depth_of(masked("\n".join(clauses[-1].lines))) == 0:
            comments.append(line)
        elif not clauses and re.match(r" {%d}//" % (indent + 4), line):
            comments.append(line)
        elif clauses:
            clauses[-1].lines.append(line)
        else:
            signature.append(line)
    return signature, clauses


def split_body(lines, masks, indent):
    """The lines of an item before its body, and the numbers of the lines of the body."""
    margin = " " * indent
    for number, line in enumerate(masks):
        bare = line.rstrip()
        if bare in (margin + "{", margin + "{}"):
            return lines[:number], range(number + 1, len(lines) - 1)
        is_head = number == 0 or bare.startswith(margin + ")") or re.match(margin + r"\S", bare)
        if is_head and bare.endswith("{"):
            return lines[:number] + [lines[number].rstrip()[:-1].rstrip()], range(number + 1, len(lines) - 1)
        if is_head and bare.endswith("{}"):
            return lines[:number] + [lines[number].rstrip()[:-2].rstrip()], range(0)
    last = lines[-1].rstrip()
    return lines[:-1] + [last[:-1] if last.endswith(";") else last], range(0)


def items_of(file, lines, masks, first, last, indent):
    """The items at an indentation between two lines, the second one excluded."""
    margin, found = " " * indent, []
    docs, notes, attributes, at = [], [], "", first
    while at < last:
        line = lines[at][indent:]
        if not lines[at].startswith(margin) or not line.strip():
            docs, notes, attributes = [], [], ""
        elif line.startswith("///"):
            docs.append(line[4:] if line.startswith("/// ") else line[3:])
        elif line.startswith("//"):
            notes.append(line[2:].strip())
        elif line.startswith("#"):
            end = at
            while depth_of("".join(masks[at : end + 1])) > 0:
                end += 1
            attributes += " ".join(lines[at : end + 1])
            at = end
        else:
            end, head = end_of(masks, at, indent), HEAD.match(line)
            if head:
                item = made(file, lines[at : end + 1], masks[at : end + 1], at + 1, indent, head)
                item.docs, item.notes, item.attributes = docs, notes, attributes
                found.append(item)
            docs, notes, attributes, at = [], [], "", end
        at += 1
    return found


def made(file, lines, masks, number, indent, head):
    """The item of these lines, with its members."""
    kind, name = head["kind"], head["name"] or ""
    if kind == "ghost":
        name = lines[0].split()[1].rstrip(":")
    item = Item(kind, name, file, number, [], [], "", head["public"] == "pub ", lines, lines)
    if kind == "fn":
        item.head, _ = split_body(lines, masks, indent)
        item.head, item.clauses = clauses_of(item.head, indent)
    elif kind in ("impl", "trait", "struct", "enum"):
        item.head, body = split_body(lines, masks, indent)
        if kind in ("impl", "trait"):
            item.members = items_of(file, lines, masks, body.start, body.stop, indent + 4)
            for member in item.members:
                member.line += number - 1
    return item


def uses_of(items):
    """What the `use` lines of a module name: a path, whether it is public, and whether it is hidden."""
    uses = {}
    for item in items:
        if item.kind == "use":
            text = re.sub(r"\s+", " ", " ".join(item.lines)).split("use ", 1)[1].rstrip("; ")
            for path, alias in leaves(text):
                uses[alias] = (path, item.is_public, item.is_hidden)
    return uses


def leaves(text, above=()):
    """Each path of a tree of `use`, with the name that it is given."""
    text = text.strip()
    found = re.fullmatch(r"((?:\w+::)*)\{(.*)\}", text)
    if not found:
        path, _, alias = text.partition(" as ")
        parts = above + tuple(path.strip().split("::"))
        if parts[-1] == "self" and len(parts) > 1:
            parts = parts[:-1]
        return [(parts, alias.strip() or parts[-1])]
    prefix, parts, depth, start = above + tuple(found[1].split("::")[:-1]), [], 0, 0
    for at, letter in enumerate(found[2] + ","):
        depth += (letter == "{") - (letter == "}")
        if letter == "," and depth == 0:
            parts.append(found[2][start:at])
            start = at + 1
    return [leaf for part in parts if part.strip() for leaf in leaves(part, prefix)]


def module_of(crate, path, file):
    """A module with those below it."""
    text = read(os.path.join(TOP, file))
    lines, masks = text.split("\n"), masked(text).split("\n")
    docs = [line[4:] if line.startswith("//! ") else line[3:] for line in lines if line.startswith("//!")]
    items = items_of(file, lines, masks, 0, len(lines), 0)
    folder = file[:-3] if path else os.path.dirname(file)
    module = Module(crate, path, file, docs, items, uses_of(items), {})
    for item in items:
        item.module = module
        for member in item.members:
            member.module = module
        below = "%s/%s.rt" % (folder, item.name)
        if item.kind == "mod" and os.path.exists(os.path.join(TOP, below)):
            module.modules[item.name] = module_of(crate, path + (item.name,), below)
    return module


def crates():
    """The crates of the repository, lowest first, each with what it depends on."""
    lines = [line.split("#")[0].strip() for line in read(TOP + "/crates.txt").split("\n")]
    return {line.split(":")[0].split()[0]: line.split(":")[1].split() for line in lines if line}


def libraries(name="toml_edit"):
    """The crate of this name and those of the repository below it."""
    depends, found = crates(), []

    def add(crate):
        if crate in depends and crate not in found:
            for below in depends[crate]:
                add(below)
            found.append(crate)

    add(name)
    return found


def every(module):
    """A module and all those below it."""
    yield module
    for below in module.modules.values():
        yield from every(below)


def root_of(crate):
    """The root file of a crate."""
    files = ["crates/%s/src/%s.rt" % (crate, name) for name in ("lib", "main")]
    return next(file for file in files if os.path.exists(os.path.join(TOP, file)))


class Library:
    """The modules of some crates, in which names are found."""

    def __init__(self, names):
        self.roots = {name: module_of(name, (), root_of(name)) for name in names}

    def modules(self):
        for root in self.roots.values():
            yield from every(root)

    def inside(self, module, path):
        """The module of a crate at a path."""
        found = self.roots[module.crate]
        for name in path:
            found = found.modules[name]
        return found

    def find(self, module, path, seen=()):
        """What a path names in a module: a module or an item, with the names that are left; or `None`."""
        first, rest = path[0], tuple(path[1:])
        if first in ("crate", "self", "super"):
            keep = {"crate": (), "self": module.path, "super": module.path[:-1]}[first]
            place = self.inside(module, keep)
            return self.find(place, rest, seen) if rest else (place, ())
        if (module.file, first) in seen:
            return None
        item = module.item(first)
        if item:
            return item, rest
        if first in module.modules:
            below = module.modules[first]
            return self.find(below, rest, seen) if rest else (below, ())
        if first in module.uses:
            return self.find(module, module.uses[first][0] + rest, seen + ((module.file, first),))
        if first in self.roots and module.crate != first:
            return self.find(self.roots[first], rest, seen) if rest else (self.roots[first], ())
        return None
