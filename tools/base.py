#!/usr/bin/env python3
"""Prints the definitions that a clause stands on, in reading order: each after those that it uses.

    tools/base.py TYPE::CALL.CLAUSE ..     as `Document::parse.accepted`; a law is `laws::CALL.CLAUSE`, a definition CRATE.FILE.NAME
    tools/base.py --sizes                  the sizes of the pages of docs/api that are made so

The names of a definition are looked up in its file and in the files that its `use` lines name. It ends at Rattle's std and at what the
checker declares of a Rust type. A name that is bound inside a definition counts as the definition of that name, if its file knows one. The
lines counted are those of definitions, without comments, imports and empty lines.
"""
import functools
import os
import re
import sys

import sources
from sources import TOP, read

SIGNATURE = re.compile(r"(?:pub |abbrev |unfoldable |private )*([^\s:(){}]+) : ")
HEAD = re.compile(r"(?:pub |abbrev |unfoldable |private )*(?:record|data) ([^\s:(){}]+)")
OPENS = re.compile(r"(?:pub )?(?:abbrev |unfoldable )?(?:mutual$|module _ )")
# The pages of docs/api, each with its title, what it is for, and the clauses whose definitions it has. Those of the pages above are left out.
PAGES = {
    "base-accepted": ("Which texts are accepted, and what they mean", 900, (
        "toml_edit_model.Accepted.AcceptedAs", "toml_edit_model.Meaning.meaning", "toml_edit_model.Meaning.SameFacts")),
    "base-print": ("What is printed, and what fits", 1500, ("toml_edit.Documents.MeansWhatIsShown", "toml_edit_model.Fits.FitsIn")),
    "base-locality": ("What an edit leaves", 1500, (
        "laws::replaced.change", "laws::replaced.frame", "laws::added.change", "laws::removed.slot", "laws::steady.texts", "laws::ways.entered")),
}


class Definition:
    """A definition: its names, its file, its lines with the comments above, and what it is inside of."""

    def __init__(self, file, number, names, lines, inside):
        self.file, self.number, self.names, self.lines, self.inside = file, number, names, lines, inside

    def code(self):
        """The lines that count."""
        return [line for line in self.lines if line.strip() and not line.strip().startswith("--")]

    @functools.cached_property
    def words(self):
        """The names in it, and those with a module before them."""
        text = "\n".join(line.split(" -- ")[0] for line in self.code() + [line for _, head in self.inside for line in head])
        return set(re.findall(r"[^\s(){};,∥]+", text))


class File:
    """A file of definitions: what is in it, and what it uses of others."""

    def __init__(self, path):
        self.path, self.definitions, self.names, self.uses, self.modules = path, [], {}, {}, {}
        lines, comments, current, inside = read(TOP + "/" + path).split("\n"), [], None, []
        for number, line in enumerate(lines):
            bare, indent = line.strip(), len(line) - len(line.lstrip())
            if not bare:
                comments = [] if current is None else comments
                continue
            while inside and indent <= inside[-1][0]:
                inside = inside[:-1]
                current = None
            margin = inside[-1][0] + 2 if inside else 0
            if bare.startswith(("use ", "pub use ", "pub mod ", "mod ")) and indent == margin:
                self.use(bare)
                current, comments = None, []
            elif indent != margin:
                if inside and current is None and not inside[-1][1][-1].endswith("where"):
                    inside[-1][1].append(line)
                elif current:
                    current.lines += comments + [line]
                    comments = []
            elif bare.startswith("--"):
                comments = [] if bare.startswith("-- ----") else comments + [line]
            elif OPENS.match(bare):
                inside = inside + [(indent, [*comments, line] if "module" in bare else [line])]
                current, comments = None, []
            else:
                found = HEAD.match(bare) or SIGNATURE.match(bare)
                if found and not (current and found[1] in current.names and not HEAD.match(bare)):
                    current = Definition(path, number, [found[1]], comments + [line], inside)
                    self.definitions.append(current)
                    comments = []
                elif current:
                    current.lines += comments + [line]
                    comments = []
        for definition in self.definitions:
            if re.match(r"(?:pub )?data ", definition.code()[0].strip()):
                definition.names += re.findall(r"^ +([^\s:(){}]+) : ", "\n".join(definition.code()[1:]), re.M)
            for name in definition.names:
                self.names.setdefault(name, definition)

    def use(self, line):
        """Reads a line of `use`."""
        found = re.match(r"(?:pub )?use Rattle\.(\w+)\.specs((?:\.\w+)*)(?:\.\{(.*)\}| as (\S+))?$", line)
        if not found or found[1] == "std":
            return
        place = (found[1], found[2].strip("."))
        for name in (found[3] or "").split(","):
            if name.strip():
                before, _, after = name.strip().partition(" as ")
                self.uses[after or before] = (place, before)
        if found[4]:
            self.modules[found[4]] = place


class Definitions:
    """All definitions of the repository."""

    def __init__(self, library=None):
        self.library, self.files = library, {}

    def file(self, crate, path):
        """The file at a path of modules in a crate, if there is one."""
        name = "crates/%s/specs/%s.antt" % (crate, path.replace(".", "/"))
        if name not in self.files:
            self.files[name] = File(name) if os.path.exists(TOP + "/" + name) else None
        if self.files[name] is None and path and path != "Lib":
            first, _, rest = path.partition(".")
            lib = self.file(crate, "Lib")
            if lib and first in lib.modules:
                return self.file(lib.modules[first][0], ".".join(part for part in (lib.modules[first][1], rest) if part))
        return self.files[name]

    def find(self, file, name, seen=()):
        """The definition of a name in a file, if it is of this repository."""
        if file is None or (file.path, name) in seen:
            return None
        seen += ((file.path, name),)
        if name in file.names:
            return file.names[name]
        if name in file.uses:
            (crate, path), known = file.uses[name]
            return self.find(self.file(crate, path), known, seen)
        first, _, rest = name.partition(".")
        if rest and first in file.modules:
            crate, path = file.modules[first]
            inner = self.file(crate, path)
            return self.find(inner, rest, seen) or (self.find(self.file(crate, path + "." + rest.rpartition(".")[0]), rest.rpartition(".")[2], seen) if "." in rest else None)
        return self.find(file, first, seen) if rest else None

    def of_clause(self, name):
        """The definitions that a clause, a call or a definition names."""
        if re.match(r"toml_edit\w*\.", name):
            crate, path = name.split(".", 1)
            file = self.file(crate, path)
            if file:
                return file.definitions
            found = self.find(self.file(crate, path.rpartition(".")[0]), path.rpartition(".")[2])
            return [found] if found else []
        owner, _, rest = name.partition("::")
        call, _, clause = rest.partition(".")
        found = []
        for item, outer in self.calls(owner, call):
            found += self.of_clauses(item, outer.members if outer else [], clause)
        return found

    def of_clauses(self, item, around, name=""):
        """The definitions that the clauses of a call name, or the one clause of a name."""
        texts = ["\n".join(one.lines) for one in item.clauses if name in ("", one.name)]
        return [one for text in texts for one in self.of_text(text, item.module.items + around)]

    def calls(self, owner, call):
        """The calls of this name of a type or a module, each with its impl."""
        for module in self.library.modules():
            for item in module.items:
                is_law = owner == "laws" and module.crate.endswith("laws") and item.is_public
                if item.kind == "fn" and item.name == call and (is_law or module.path[-1:] == (owner,)):
                    yield item, None
                if item.kind in ("impl", "trait") and re.search(r"\b%s\b" % owner, " ".join(item.head).partition(" for ")[2] or " ".join(item.head)):
                    for member in item.members:
                        if member.kind == "fn" and member.name == call:
                            yield member, item

    def of_text(self, text, items):
        """The definitions that a clause names, by the `ghost use` lines among items."""
        file = File.__new__(File)
        file.path, file.names, file.uses, file.modules, file.definitions = "a clause", {}, {}, {}, []
        for item in items:
            if item.kind == "ghost" and item.name == "use":
                file.use(re.sub(r"\s+", " ", " ".join(item.lines)).strip().removeprefix("ghost ").rstrip(";"))
        words = re.findall(r"[^\s(){};,∥]+", "\n".join(line for line in text.split("\n") if not line.strip().startswith("//")))
        return [found for found in (self.find(file, word) for word in words) if found]

    def below(self, first):
        """All definitions that some stand on, with these, each after those that it uses, file by file."""
        found, left = set(), list(first)
        while left:
            one = left.pop()
            if one not in found:
                found.add(one)
                left += self.used(one)
        return sorted(found, key=lambda one: (*self.place(one.file), one.file, one.number))

    @functools.lru_cache(None)
    def place(self, path):
        """Where a file stands: the place of its crate, and that of its module in `Lib`, which has each after those that it uses."""
        _, crate, _, rest = path.split("/", 3)
        listed = re.findall(r"^(?:pub )?mod (\w+)", read("%s/crates/%s/specs/Lib.antt" % (TOP, crate)), re.M)
        name = rest.split("/")[0].removesuffix(".antt")
        return list(sources.crates()).index(crate), listed.index(name) if name in listed else len(listed)

    @functools.lru_cache(None)
    def used(self, one):
        """The definitions that one names."""
        file = next(file for file in self.files.values() if file and file.path == one.file)
        own = [self.find(file, word) for word in one.words]
        return [other for other in dict.fromkeys(own) if other and other is not one]


def shown(definitions, link="../../"):
    """The text of definitions, file by file."""
    text, path, inside = "", None, []
    for one in definitions:
        if one.file != path:
            text += ("```\n\n" if path else "") + "## [%s](%s%s)\n\n```text\n" % (one.file.replace("crates/", "").replace("/specs/", "/"), link, one.file)
            path, inside = one.file, []
        else:
            text += "\n"
        for _, head in one.inside[len([1 for mine, other in zip(inside, one.inside) if mine is other]) :]:
            text += "\n".join(head) + "\n"
        inside = one.inside
        text += "\n".join(one.lines).rstrip() + "\n"
    return text + ("```\n" if path else "")


def size(definitions):
    return len(definitions), sum(len(one.code()) for one in definitions)


class Pages:
    """The pages of docs/api, and what they say of their sizes."""

    def __init__(self, library):
        known, self.texts, self.sizes = Definitions(library), {}, {}
        above, names = [], []
        for page, (title, most, clauses) in PAGES.items():
            first = [one for clause in clauses for one in known.of_clause(clause)]
            lost = [clause for clause in clauses if not known.of_clause(clause)]
            if lost:
                sys.exit("tools/base.py: no definition of %s" % ", ".join(lost))
            whole = known.below(first)
            more = [one for one in whole if one not in above]
            self.sizes[page] = (size(whole), most)
            self.texts[page + ".md"] = text_of(title, clauses, more, size(whole), names)
            above += more
            names.append((page, title))


def text_of(title, clauses, more, whole, names):
    """The text of a page."""
    text = "<!-- made by tools/api.py -->\n# %s\n\nWhat a reader has to believe who relies on %s: " % (
        title, ", ".join("`%s`" % name.split(".", 1)[1] if name[:5] != "laws:" else "`%s`" % name for name in clauses))
    text += "%d definitions of %d lines, without comments, each after those that it uses (`tools/base.py`). " % whole
    if names:
        text += "Here are the %d definitions of %d lines that are not on %s. " % (
            *size(more), " or ".join("[%s](%s.md)" % (page, page) for page, _ in names))
    return text + "[PROVING](../PROVING.md#how-to-read-a-contract) explains the notation.\n\n" + shown(more)


def main():
    words = sys.argv[1:]
    if not words or words[0] == "--help":
        return print(__doc__.strip())
    library = sources.Library(sources.libraries())
    if words == ["--sizes"]:
        for page, ((count, lines), most) in Pages(library).sizes.items():
            print("%s: %d definitions, %d lines, of %d that it may have" % (page, count, lines, most))
        return 0
    known = Definitions(library)
    first = [one for word in words for one in known.of_clause(word)]
    if not first:
        sys.exit("no definition of %s" % " ".join(words))
    found = known.below(first)
    print("# %s\n\n%d definitions, %d lines\n\n%s" % (" ".join(words), *size(found), shown(found, "")))
    return 0


if __name__ == "__main__":
    sys.exit(main())
