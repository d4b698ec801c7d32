#!/usr/bin/env python3
"""Makes docs/api, the reference of what `toml_edit` gives out, from the sources.

    tools/api.py            writes the pages
    tools/api.py --check    writes nothing, and prints which pages differ from what it would write

A page for each public type and trait, one for each public module, one for functions and an index; so for the crates beside the library that
programs call. The anchor of a call is its name, and that of a clause is `call.clause`. `tools/upstream.txt` has the names of the Rust crate;
what it lacks is marked "only here". `tools/calls` has the texts before and after that calls are shown with, and `tools/base.py` makes the pages
of definitions. Ends with status 1 if a link of a doc comment leads nowhere, or if a page differs.
"""
import dataclasses
import difflib
import glob
import os
import re
import sys

import base
import sources
from sources import TOP, Item, Module

FOLDER = TOP + "/docs/api"
MADE = "<!-- made by tools/api.py -->\n"
TYPES = ("struct", "enum", "trait", "type")
# Words of std and of the kit in doc comments, which have no page here.
OUTER = ("std", "core", "fmt", "arrayvec", "bumpalo", "memchr", "itoa", "jiff")
# The calls of upstream's trait are in two traits here.
ALSO = {"AnyTable": "TableLike"}
# Crates beside the library that programs call.
BESIDE = ("toml_edit_fmt", "toml_edit_edits", "toml_edit_json", "toml_edit_items", "toml_edit_index", "file_replace")
# What stands for a call of upstream.
INSTEAD = {
    "as_float": "[`as_float_text`](%s.md#as_float_text)",
    "as_item_mut": "[`as_table_mut`](%s.md#as_table_mut)",
    "clone": "[`parse`](%s.md#parse) of [`raw`](%s.md#raw)",
    "default": "[`new`](%s.md#new)",
    "index_mut": "[`get_mut`](Table.md#get_mut), which inserts nothing, and [`index_or_insert`](Table.md#index_or_insert)",
    "iter_mut": "a loop over places, with [`get_mut`](%s.md#get_mut)",
}
INSTEAD_AT = {
    "InlineTable::iter_mut": "a loop over places, with [`key_value_at_mut`](InlineTable.md#key_value_at_mut)",
    "Table::iter_mut": "a loop over places, with [`key_value_at_mut`](Table.md#key_value_at_mut)",
    "TableLike::iter_mut": "a loop over places, with [`key_value_at_mut`](TableLike.md#key_value_at_mut)",
    "Item::index_mut": "[`get_mut`](Item.md#get_mut), which inserts nothing, and [`index_or_insert`](Item.md#index_or_insert)",
    "Document::default": "[`new`](Document.md#new), of the empty text",
}
# The groups of the calls of a type, by how they take it.
GROUPS = {"": "Make", "&self": "Ask", "&mut self": "Change", "self": "Take"}


@dataclasses.dataclass
class Impl:
    """An impl: its trait or the empty text, its type, its source, and the trait's item if that has a page."""

    trait: str
    target: str
    item: Item
    of: Item

    @property
    def is_general(self):
        """Whether it is for the type with any parameters."""
        own = re.match(r"impl(<.*)?", " ".join(self.item.head))[0].partition(">")[0]
        given = re.fullmatch(r"\w+(?:<(.*)>)?", self.target)
        return bool(given) and all(re.search(r"%s\b" % re.escape(name), own) or name == "'_" for name in (given[1] or "'_").split(", "))


class Pages:
    """The public items of a library, their pages, and the faults that were found in making them."""

    def __init__(self, library=None):
        self.library = library or sources.Library(sources.crates())
        self.root = self.library.roots["toml_edit"]
        self.faults = []
        self.base = base.Pages(self.library)
        self.upstream = [name for name in sources.read(TOP + "/tools/upstream.txt").split("\n") if name and name[0] != "#"]
        self.known = set(self.upstream)
        self.types, self.functions, self.modules = {}, [], {}
        self.collect(self.root, "")
        self.own, self.beside = list(self.types.values()), {}
        for crate in BESIDE:
            self.collect_beside(crate)
        self.examples = examples()
        self.impls = {}
        names = [*sources.libraries(), *BESIDE]
        for module in self.library.modules():
            for item in module.items if module.crate in names else ():
                if item.kind == "impl" and not item.is_hidden and "cfg(test)" not in item.attributes:
                    self.place(module, item)

    def collect(self, module, prefix):
        """Finds what a public module gives out."""
        given = [(item.name, item) for item in module.items if item.is_public and item.kind in TYPES + ("fn",)]
        for name, (path, is_public, is_hidden) in module.uses.items():
            found = self.library.find(module, path) if is_public and not is_hidden else None
            if found and not found[1]:
                given.append((name, found[0]))
        for name, below in module.modules.items():
            if any(item.kind == "mod" and item.name == name and item.is_public and not item.is_hidden for item in module.items):
                given.append((name, below))
        self.modules[prefix.rstrip(":") or "toml_edit"] = (module, given)
        for name, item in given:
            if isinstance(item, Module):
                self.collect(item, prefix + name + "::")
            elif item.is_hidden:
                continue
            elif item.kind == "fn" and not prefix and item not in self.functions:
                self.functions.append(item)
            elif item.kind != "fn":
                self.types.setdefault(item.name, item)

    def collect_beside(self, crate):
        """Finds what a crate beside the library gives out: types with pages of their own, and functions and laws with one of the crate."""
        root = self.library.roots[crate]
        given = [item for item in root.items if item.is_public and item.kind in TYPES + ("fn",)]
        found = [self.library.find(root, path) for path, is_public, is_hidden in root.uses.values() if is_public and not is_hidden]
        given += [one[0] for one in found if one and not one[1]]
        laws = [item for item in root.modules["laws"].items if item.kind == "fn" and item.is_public] if "laws" in root.modules else []
        for item in given:
            if item.kind in TYPES and not item.is_hidden:
                self.types.setdefault(item.name, item)
        self.beside[crate] = [item for item in given if item.kind == "fn" and not item.is_hidden], laws, [item for item in given if item.kind in TYPES and not item.is_hidden]

    def place(self, module, item):
        """Puts an impl to its type and to its trait, where these have pages."""
        trait, target = halves(item)
        owner, of = (self.named(module, re.sub(r"^(&|'\w+ |mut |dyn )+", "", text)) for text in (target, trait))
        impl = Impl(trait, target, item, self.given(of))
        if self.given(owner):
            self.impls.setdefault(owner.name, []).append(impl)
        if impl.of and (self.given(owner) or not owner):
            self.impls.setdefault("for " + of.name, []).append(impl)

    def named(self, module, text):
        """What the path at the beginning of a text names in a module, if that is an item of the library."""
        path = re.match(r"[\w:]*", text)[0]
        found = self.library.find(module, path.split("::")) if path else None
        return found[0] if found and not found[1] and isinstance(found[0], Item) else None

    def given(self, item):
        """The item, if it has a page."""
        return item if item and self.types.get(item.name) is item else None

    def calls(self, item):
        """The public calls of a type, by impl: its heading and its calls; and those of a trait."""
        if item.kind == "trait":
            return [("Calls", [call for call in item.members if call.kind == "fn" and not call.is_hidden])]
        groups = {}
        for impl in sorted(self.impls.get(item.name, []), key=lambda impl: impl.item.file != item.file):
            calls = [call for call in impl.item.members if call.kind == "fn" and call.is_public and not call.is_hidden]
            if not impl.trait and calls:
                note = " ".join(impl.item.notes)
                title = note if re.fullmatch(r"[A-Z][\w ,-]{2,30}", note) else "Calls"
                groups.setdefault(title if impl.is_general else "Calls of `%s`" % impl.target, []).extend(calls)
        return list(groups.items())

    def traits_of(self, item):
        """The traits with pages that a type implements, or that a trait is above."""
        if item.kind == "trait":
            names = re.findall(r"\w+", " ".join(item.head).partition(":")[2])
            return [self.types[name] for name in names if name in self.types]
        return [impl.of for impl in self.impls.get(item.name, []) if impl.of]

    def anchor(self, item, name):
        """The page and the anchor of a member of a type."""
        if any(call.name == name for _, calls in self.calls(item) for call in calls):
            return "%s.md#%s" % (item.name, name)
        if item.kind == "enum" and any(variant == name for variant, _ in parts(item)):
            return "%s.md#%s" % (item.name, name)
        for trait in self.traits_of(item):
            found = self.anchor(trait, name)
            if found:
                return found
        return None

    def target(self, module, owner, path):
        """Where a path of a doc comment leads: a page, the empty text where there is none on purpose, or `None`."""
        if path[0] == "Self" and owner:
            return self.anchor(owner, path[1]) if len(path) == 2 else owner.name + ".md"
        if path[0] in OUTER or (path[0] in module.uses and module.uses[path[0]][0][0] in OUTER):
            return ""
        found = self.library.find(module, path) or self.library.find(self.root, path)
        item, rest = found if found else (None, ())
        for crate, (functions, laws, _) in self.beside.items():
            if not rest and any(item is known for known in functions + laws):
                return "%s.md#%s" % (crate, item.name)
            if isinstance(item, Module) and item.crate == crate:
                return crate + ".md"
        if isinstance(item, Module):
            names = [name for name, (known, _) in self.modules.items() if known is item]
            return page_of_module(names[0]) if names else None
        if item is None:
            return self.law(path)
        if item.kind == "fn" and not rest:
            pages = {known.name: page for page, known in self.in_modules()}
            return self.law(path) or ("functions.md#" + item.name if item in self.functions else None) or (
                "%s#%s" % (pages[item.name], item.name) if item.name in pages else None)
        if self.types.get(item.name) is not item:
            return None
        return self.anchor(item, rest[0]) if rest else item.name + ".md"

    def in_modules(self):
        """The functions of modules other than that of the laws, each with its page."""
        return [(page_of_module(name), item) for name, (_, given) in self.modules.items() if name not in ("laws", "toml_edit")
                for _, item in given if item.kind == "fn"]

    def law(self, path):
        """Where a path to a law leads."""
        module, given = self.modules["laws"]
        is_law = len(path) > 1 and path[-2] == "laws" and path[-1] in dict(given)
        return "laws.md#" + path[-1] if is_law else None

    def linked(self, text, module, owner, where):
        """The text with the links of doc comments turned into those of pages."""

        def link(found):
            label, path = found[1], found[2]
            if path is None and not re.fullmatch(r"`[\w:]+(\(\))?!?`|`[\w:]+<[^`]*>`", label):
                return found[0]
            if path and (path.startswith("http") or path.endswith(".md")):
                return found[0]
            words = re.match(r"[\w:]+", (path or label).strip("`"))
            place = self.target(module, owner, words[0].split("::")) if words else None
            if place is None:
                self.faults.append("%s: no page for the link `%s`" % (where, path or label.strip("`")))
                return label
            return "[%s](%s)" % (label, place) if place else label

        text = re.sub(r"\[([^\[\]]+)\](?:\(([^()]+)\))?(?![\[\w])", link, text)
        text = re.sub(r"From `(\w+)` of the crate(\s+)`(\w+)`", quoted, text)
        return re.sub(r"(?<![\w/`(])docs/(\w+)\.md(?!\w)", r"[docs/\1.md](../\1.md)", text)

    def prose(self, docs, module, owner, where, level=0):
        """The text of a doc comment, with its headings at a level or in bold, and examples as they are."""
        lines, is_code = [], False
        text = []

        def flush():
            if text:
                lines.extend(self.linked("\n".join(text), module, owner, where).split("\n"))
                text.clear()

        for line in docs:
            if line.startswith("```"):
                flush()
                is_code = not is_code
                lines.append(line)
            elif is_code:
                lines.append(line)
            elif line.startswith("# "):
                flush()
                lines.append("%s %s" % ("#" * level, line[2:]) if level else "**%s**" % line[2:])
            else:
                text.append(line)
        flush()
        return "\n".join(lines).strip() + "\n"

    def first(self, item, module=None):
        """The first sentence of a doc comment, on one line."""
        docs = item.docs
        words = []
        for line in docs:
            if not line.strip() or line.startswith(("#", "```")):
                break
            words.append(line)
        sentence = re.match(r"(.*?[.:])(?: (?=[A-Z`\[])|$)", " ".join(words), re.S)
        text = sentence[1] if sentence else " ".join(words)
        return self.linked(text, item if isinstance(item, Module) else item.module, item if module is None else None, item.file)

    def is_new(self, owner, name):
        """Whether upstream lacks a call."""
        return not any("%s::%s" % (one, name) in self.known for one in (owner, ALSO.get(owner, owner)))

    def call(self, call, owner, is_new):
        """The entry of a call."""
        where = "%s:%d" % (call.file, call.line)
        text = "### `%s`\n\n" % call.name + code(call.head)
        text += ("*Only here.*\n\n" if is_new else "") + self.prose(call.docs, call.module, owner, where)
        docs = "\n".join(call.docs).partition("# Errors")[2] if call.module.crate in sources.libraries() else ""
        for bare in re.findall(r"\b(?:Fails|Returns) (?:with )?`(?:\w+::)?(\w+)`", docs):
            if any(bare == name for item in self.types.values() if item.kind == "enum" and item.name.endswith("Fault") for name, _ in parts(item)):
                self.faults.append("%s: `%s` is a fault without a link" % (where, bare))
        shown = self.examples.get("%s::%s" % (owner.name, call.name) if owner else call.name)
        return text + (shown_as(shown) if shown else "") + contract(call.name, call.clauses) + "\n"

    def words(self, items):
        """The definition files that the clauses of some items take words from, each with these."""
        files = {}
        for item, uses in items:
            text = "\n".join(line for clause in item.clauses for line in clause.lines if not re.match(r" *//", line))
            used = set(re.findall(r"[^\s(){};,.∥]+", text))
            for file, alias, names in uses:
                mine = re.findall(r"(?<![\w.])%s\.([^\s(){};,.∥]+)" % re.escape(alias), text) if alias else []
                mine += [name for name, known in names if known in used]
                if mine and os.path.exists(TOP + "/" + file):
                    files.setdefault(file, set()).update(mine)
        if not files:
            return ""
        text = "## Definitions\n\nThe words of the contracts are defined in these files.\n\n"
        for file, names in sorted(files.items()):
            short = file.replace("crates/", "").replace("/specs/", "/")
            text += "- [%s](../../%s): %s\n" % (short, file, ", ".join("`%s`" % name for name in sorted(names)))
        return text

    def definitions(self):
        """The definitions that the contracts of public calls stand on."""
        known, first = base.Definitions(self.library), []
        for item in self.own:
            around = [item] + [impl.item for impl in self.impls.get(item.name, [])]
            for call in (call for _, group in self.calls(item) for call in group):
                inner = next((outer.members for outer in around if any(member is call for member in outer.members)), [])
                first += known.of_clauses(call, inner)
        for item in self.functions + [law for _, law in self.modules["laws"][1]] + [item for _, item in self.in_modules()]:
            first += known.of_clauses(item, [])
        return known.below(first)

    def traits(self, item):
        """The traits of a type, a line each, and those that it derives."""
        lines = []
        for impl in self.impls.get(item.name, []):
            if impl.trait:
                docs = impl.item.docs or next((member.docs for member in impl.item.members if member.docs), [])
                text = self.prose(docs, impl.item.module, item, "%s:%d" % (impl.item.file, impl.item.line))
                text = " ".join(text.split("\n```")[0].split())
                shown = "`%s`" % impl.trait
                shown = "[%s](%s.md)" % (shown, impl.of.name) if impl.of else shown
                shown += "" if impl.is_general else " for `%s`" % impl.target
                lines.append("- %s%s" % (shown, ": " + text if text else ""))
        derived = re.findall(r"\w+", " ".join(re.findall(r"derive\(([^)]*)\)", item.attributes)))
        if derived:
            lines.append("- Derived: %s" % ", ".join("`%s`" % name for name in derived))
        for impl in self.impls.get("for " + item.name, []):
            name = re.match(r"\w*", impl.target)[0]
            shown = "[`%s`](%s.md)" % (impl.target, name) if name in self.types else "`%s`" % impl.target
            lines.append("- Implemented for %s" % shown)
        return "## Traits\n\n%s\n\n" % "\n".join(lines) if lines else ""

    def page(self, item):
        """The page of a type or a trait."""
        where = "%s:%d" % (item.file, item.line)
        text = MADE + "# %s `%s`\n\n" % (item.kind.capitalize(), item.name)
        text += "In [%s](../../%s). %s\n\n" % (
            item.file, item.file, "Upstream has it too." if item.name in self.known else "Only here." if item in self.own else "Of a crate [beside](%s.md) the library." % item.module.crate)
        text += code(definition(item)) + self.prose(item.docs, item.module, item, where, 2) + "\n"
        text += (shown_as(self.examples[item.name]) + "\n" if item.name in self.examples else "") + self.variants(item)
        if item.kind == "trait":
            text += ghosts(item)
        groups, named = self.calls(item), []
        text += by_group([call for _, calls in groups for call in calls])
        for title, calls in groups:
            text += "## %s\n\n" % title
            for call in calls:
                text += self.call(call, item, item.name in self.known and self.is_new(item.name, call.name))
                named.append((call, uses_at(call, item, self.impls.get(item.name, []))))
        text += self.traits(item) + self.words(named) + self.absent(item)
        self.unique(item.name, text)
        return text.rstrip() + "\n"

    def variants(self, item):
        """The variants of an enum, or the public fields of a struct, with their doc comments."""
        lines = []
        for name, docs in parts(item):
            text = " ".join(self.prose(docs, item.module, item, item.file).split())
            lines.append('- <a id="%s"></a>`%s`%s' % (name, name, ": " + text if text else ""))
        title = "Variants" if item.kind == "enum" else "Fields"
        return "## %s\n\n%s\n\n" % (title, "\n".join(lines)) if lines else ""

    def absent(self, item):
        """The names that upstream has at a type, and which are not here."""
        names = [name.split("::")[1] for name in self.upstream if name.startswith(item.name + "::")]
        made = [re.match(r"[\w:]*", impl.trait)[0].split("::")[-1] for impl in self.impls.get(item.name, [])]
        implied = {"clone": "Clone", "default": "Default", "from_str": "FromStr", "extend": "Extend", "from_iter": "FromIterator"}
        derived = re.findall(r"\w+", " ".join(re.findall(r"derive\(([^)]*)\)", item.attributes)))
        lost = [name for name in names if not self.anchor(item, name) and implied.get(name) not in made + derived]
        if not lost:
            return ""
        text = "\n## Not here\n\n| Upstream has | Here |\n|---|---|\n"
        for name in lost:
            there = INSTEAD_AT.get("%s::%s" % (item.name, name)) or INSTEAD.get(name)
            if not there:
                self.faults.append("tools/api.py: nothing stands for `%s::%s` of upstream" % (item.name, name))
            else:
                text += "| `%s` | %s |\n" % (name, there.replace("%s", item.name))
        return text

    def unique(self, name, text):
        """Looks for two anchors of one name on a page."""
        seen = set()
        for anchor in anchors(text):
            if anchor in seen:
                self.faults.append("docs/api/%s.md: two anchors `%s`" % (name, anchor))
            seen.add(anchor)

    def list_of(self, title, items, text):
        """A page of functions."""
        page = MADE + "# %s\n\n%s\n\n" % (title, text)
        for item in items:
            is_new = title == "Functions" and item.name + "()" not in self.known
            page += self.call(item, None, is_new)
        page += self.words([(item, uses_of(item.module.items)) for item in items])
        self.unique(title, page)
        return page.rstrip() + "\n"

    def crate(self, name):
        """The page of a crate beside the library."""
        functions, laws, types = self.beside[name]
        root = self.library.roots[name]
        text = MADE + "# Crate `%s`\n\n%s\n" % (name, self.prose(root.docs, root, None, root.file))
        text += "A program that calls it lists it in `crates.txt`, and copies it with [those that it stands on](crates.md).\n\n"
        for item in types:
            text += "- [`%s`](%s.md): %s\n" % (item.name, item.name, self.first(item))
        for title, group in (("Functions", functions), ("Laws", laws)):
            text += "\n## %s\n\n" % title if group else ""
            for item in group:
                text += self.call(item, None, False)
        text += self.words([(item, uses_of(item.module.items)) for item in functions + laws])
        self.unique(name, text)
        return text.rstrip() + "\n"

    def index(self, pages):
        """The first page: the words of the crate, modules, types, functions and all calls."""
        module, given = self.modules["toml_edit"]
        text = MADE + "# The reference of `toml_edit`\n\n" + self.prose(module.docs, module, None, module.file, 2) + "\n"
        text += "## Modules\n\n"
        for name, (below, _) in self.modules.items():
            if name != "toml_edit":
                text += "- [`%s`](%s): %s\n" % (name, page_of_module(name), self.first(below, below))
        text += "\n## Beside the library\n\n"
        for crate in BESIDE:
            text += "- [`%s`](%s.md): %s\n" % (crate, crate, self.first(self.library.roots[crate], self.library.roots[crate]))
        text += "\n## Definitions to read\n\n"
        for name, (title, _, _) in base.PAGES.items():
            (count, lines), _ = self.base.sizes[name]
            text += "- [%s](%s.md): %d definitions, %d lines\n" % (title, name, count, lines)
        for title, kinds in (("Types", ("struct", "enum", "type")), ("Traits of the library", ("trait",))):
            text += "\n## %s\n\n" % title
            for name, item in sorted(self.types.items()):
                if item.kind in kinds and item in self.own:
                    text += "- [`%s`](%s.md)%s: %s\n" % (name, name, "" if name in self.known else " (only here)", self.first(item))
        lost = [name.rstrip("()") for name in self.upstream if "::" not in name and name.rstrip("()") not in self.types]
        lost = [name for name in lost if name not in [item.name for item in self.functions + [item for _, item in self.in_modules()]]]
        text += "\nUpstream has these types too: %s. [MIGRATING](../MIGRATING.md) says what to use in their place.\n" % (
            ", ".join("`%s`" % name for name in lost))
        return text + self.index_of_calls()

    def index_of_calls(self):
        """All calls by their names."""
        text, calls = "\n## All calls\n\nA star marks what upstream doesn't have.\n\n", {}
        for item in self.functions:
            star = "" if item.name + "()" in self.known else r"\*"
            calls.setdefault(item.name, []).append("[`toml_edit`](functions.md#%s)%s" % (item.name, star))
        for page, item in self.in_modules():
            star = "" if item.name + "()" in self.known else r"\*"
            calls.setdefault(item.name, []).append("[`toml_edit`](%s#%s)%s" % (page, item.name, star))
        for crate, (functions, _, _) in self.beside.items():
            for item in functions:
                calls.setdefault(item.name, []).append("[`%s`](%s.md#%s)" % (crate, crate, item.name) + r"\*")
        for name, item in self.types.items():
            for _, group in self.calls(item):
                for call in group:
                    star = r"\*" if self.is_new(name, call.name) else ""
                    calls.setdefault(call.name, []).append("[`%s`](%s.md#%s)%s" % (name, name, call.name, star))
        for name in sorted(calls):
            text += "- `%s`: %s\n" % (name, ", ".join(sorted(set(calls[name]))))
        return text

    def all(self):
        """The text of each page, by its name."""
        pages = {name + ".md": self.page(item) for name, item in self.types.items()}
        pages["functions.md"] = self.list_of("Functions", self.functions, "The functions of `toml_edit`.")
        for name, (module, given) in self.modules.items():
            if name == "laws":
                laws = [item for _, item in given]
                pages["laws.md"] = self.list_of("Laws", laws, self.prose(module.docs, module, None, module.file).strip())
            elif name != "toml_edit":
                text = MADE + "# Module `%s`\n\n%s\n" % (name, self.prose(module.docs, module, None, module.file))
                functions = [item for _, item in given if item.kind == "fn"]
                for known, item in given:
                    link = "#" + item.name if item in functions else item.name + ".md"
                    text += "- [`%s`](%s): %s\n" % (known, link, self.first(item))
                for item in functions:
                    text += "\n" + self.call(item, None, False).rstrip() + "\n"
                if functions:
                    text += "\n" + self.words([(item, uses_of(item.module.items)) for item in functions])
                pages[page_of_module(name)] = text.rstrip() + "\n"
        for crate in BESIDE:
            pages[crate + ".md"] = self.crate(crate)
        pages["crates.md"] = crates()
        pages.update(self.base.texts)
        pages["README.md"] = self.index(pages)
        if len({name.lower() for name in pages}) != len(pages):
            self.faults.append("docs/api: two pages whose names differ only in case")
        return pages


def crates():
    """The crates of the repository, with what each says of itself and what it depends on."""
    text, listed = MADE + "# The crates\n\nLowest first.\n\n| Crate | Holds | Stands on |\n|---|---|---|\n", sources.crates()
    for name, depends in listed.items():
        root = next(path for path in ("crates/%s/src/%s.rt" % (name, root) for root in ("lib", "main")) if os.path.exists(TOP + "/" + path))
        docs = [line[3:].strip() for line in sources.read(TOP + "/" + root).split("\n") if line.startswith("//!")]
        first = " ".join(docs[: docs.index("") if "" in docs else len(docs)]).replace("|", "\\|")
        below = ", ".join("`%s`" % other for other in depends)
        text += "| [`%s`](../../%s) | %s | %s |\n" % (name, root, first, below)
    text += "\n## Who cites whose lemmas\n\nAny proof may cite lemmas of its own crate and of the crates of laws. These cite lemmas of others too.\n\n"
    text += "| Crate | Lemmas of |\n|---|---|\n"
    for name in listed:
        found = cited(name)
        text += "| `%s` | %s |\n" % (name, ", ".join("`%s`" % other for other in found)) if found else ""
    return text


def cited(crate):
    """The files of lemmas of other crates that proofs of a crate cite, but for the crates of laws and the kit's."""
    found = set()
    for path in glob.glob("%s/crates/%s/proofs/**/*.antt" % (TOP, crate), recursive=True):
        found |= set(re.findall(r"use Rattle\.(\w+)\.(proofs\.\w+)", sources.read(path)))
    listed = sources.crates()
    return sorted("%s.%s" % (other, file) for other, file in found if other in listed and other != crate and not other.endswith("laws"))


def examples():
    """The calls of tools/calls, by their names: their code, the text before, and the text after or what the code returns."""
    found, known = {}, None
    for line in sources.read(TOP + "/tools/calls").split("\n"):
        word, _, rest = line.partition(":")
        if word in ("call", "shown"):
            known = {"code": [], "before": [], "after": [], "gives": []}
            if word == "call":
                found[rest.strip()] = known
        elif known and word in known:
            known[word].append(rest[1:])
    return found


def shown_as(example):
    """A call with the text before and after as one block, in which the lines that go and come are marked; or with what it returns."""
    text = "```rust\n%s\n```\n\n" % "\n".join(example["code"])
    before, after = example["before"], example["after"]
    if example["gives"]:
        return "\n%sOf `%s` this returns `%s`.\n" % (text, "`, `".join(before), example["gives"][0])
    lines = [line for line in difflib.ndiff(before, after) if line[0] != "?"]
    return "\n%s```diff\n%s\n```\n" % (text, "\n".join((line[0] + line[2:]).rstrip() for line in lines))


def by_group(calls):
    """The names of the calls of a page, by group, as links."""
    if len(calls) < 6:
        return ""
    text = ""
    for taken, title in GROUPS.items():
        names = [call.name for call in calls if receiver(call) == taken]
        if names:
            text += "- %s: %s\n" % (title, ", ".join("[`%s`](#%s)" % (name, name) for name in names))
    return text + "\n"


def receiver(call):
    """How a call takes its value, or the empty text."""
    found = re.search(r"(&)?(?:'\w+ )?(mut )?\bself\b", " ".join(call.head))
    return "" if not found else "&mut self" if found[1] and found[2] else "&self" if found[1] else "self"


def quoted(found):
    """The source of an example, with a link to its file."""
    for path in sorted(glob.glob("%s/crates/%s/src/**/*.rt" % (TOP, found[3]), recursive=True)):
        if re.search(r"\bfn %s\b" % found[1], sources.read(path)):
            return "From `%s` of the crate%s[`%s`](../../%s)" % (found[1], found[2], found[3], os.path.relpath(path, TOP))
    return found[0]


def page_of_module(name):
    return {"laws": "laws.md", "toml_edit": "README.md"}.get(name, "module-%s.md" % name.replace("::", "-"))


def halves(impl):
    """The trait of an impl, or the empty text, and its type."""
    text = re.sub(r"\s+", " ", " ".join(impl.head)).strip()
    text = re.sub(r"^(unsafe )?impl", "", text).split(" where ")[0]
    if text.startswith("<"):
        depth = 0
        for at, letter in enumerate(text):
            depth += (letter == "<") - (letter == ">" and text[at - 1] != "-")
            if depth == 0:
                text = text[at + 1 :]
                break
    trait, between, target = text.strip().partition(" for ")
    return (trait, target.strip()) if between else ("", trait)


def code(lines):
    """Lines of a source as a block of code."""
    margin = min((len(line) - len(line.lstrip()) for line in lines if line.strip()), default=0)
    return "```rust\n%s\n```\n\n" % "\n".join(line[margin:] for line in lines)


def members(item):
    """The fields or variants of a struct or an enum, each with its doc comment, its attributes and its lines."""
    lines, found, docs, attributes, at = item.lines, [], [], "", 1
    masks = sources.masked("\n".join(lines)).split("\n")
    while lines[0].rstrip().endswith("{") and at < len(lines) - 1:
        line = lines[at].strip()
        if line.startswith("///"):
            docs.append(line[4:])
        elif line.startswith("#"):
            attributes += line
        elif line and not line.startswith("//"):
            end = at
            while sources.depth_of("\n".join(masks[at : end + 1])) > 0 or not masks[end].rstrip().endswith(","):
                end += 1
            found.append((docs, attributes, lines[at : end + 1]))
            docs, attributes, at = [], "", end
        at += 1
    return found


def is_given(item, attributes, lines):
    """Whether a field or a variant is public."""
    line = lines[0].strip()
    return "doc(hidden)" not in attributes and not line.startswith("ghost") and (item.kind == "enum" or line.startswith("pub "))


def definition(item):
    """The definition of a type, without private fields and doc comments."""
    if item.kind == "trait":
        return [line for line in item.head] + ["{ .. }"] if len(item.head) > 1 else [item.head[0] + " { .. }"]
    if item.kind not in ("struct", "enum") or not item.lines[0].rstrip().endswith("{"):
        return item.lines
    given, is_whole = [], True
    for _, attributes, lines in members(item):
        if is_given(item, attributes, lines):
            given += lines
        elif not lines[0].strip().startswith("ghost"):
            is_whole = False
    if not given:
        return [item.lines[0].rstrip() + " /* private fields */ }"]
    return [item.lines[0]] + given + ([] if is_whole else ["    // private fields"]) + ["}"]


def parts(item):
    """The names of the variants of an enum or of the public fields of a struct, each with its doc comment."""
    if item.kind not in ("struct", "enum"):
        return []
    given = [(docs, lines[0].strip()) for docs, attributes, lines in members(item) if is_given(item, attributes, lines)]
    return [(re.match(r"(?:pub )?(\w+)", line)[1], docs) for docs, line in given]


def ghosts(item):
    """The ghost members of a trait, which its contracts use and an implementation gives."""
    lines = []
    for member in item.members:
        if member.kind == "ghost" and member.name != "use":
            notes = ["/// " + line for line in member.docs] or ["// " + line for line in member.notes]
            lines += notes + [line[4:] for line in member.lines]
    return "What an implementation proves or gives for contracts:\n\n```text\n%s\n```\n\n" % "\n".join(lines) if lines else ""


def contract(name, clauses):
    """The contract of a call, under its clauses' names."""
    if not clauses:
        return ""
    names = ['<a id="%s.%s"></a><code>%s</code>' % (name, clause.name, clause.name) for clause in clauses if clause.name]
    lines = [line for clause in clauses for line in clause.lines]
    margin = min(len(line) - len(line.lstrip()) for line in lines)
    text = "\n".join(line[margin:].rstrip(";") for line in lines)
    title = "Contract" + (" with <code>requires</code>" if any(clause.word == "requires" for clause in clauses) else "")
    title += ": " + ", ".join(names) if names else ""
    return "\n<details><summary>%s</summary>\n\n```text\n%s\n```\n\n</details>\n" % (title, text)


KNOWN_USES = {}


def uses_of(items):
    """The `ghost use` lines among items: the definition file, its name if it has one, and names of it with those they are used by."""
    if id(items) not in KNOWN_USES:
        lines = [" ".join(item.lines) for item in items if item.kind == "ghost" and item.name == "use"]
        KNOWN_USES[id(items)] = [use for line in lines for use in use_of(re.sub(r"\s+", " ", line).strip())]
    return KNOWN_USES[id(items)]


def use_of(line):
    """What one `ghost use` line names."""
    found = re.match(r"ghost use Rattle\.(\w+)\.specs\.([\w.]*\w)(?:\.\{(.*)\}| as (\S+))?;", line)
    if not found or found[1] == "std":
        return []
    names = [(name.split(" as ")[0].strip(), name.split(" as ")[-1].strip()) for name in (found[3] or "").split(",")]
    return [("crates/%s/specs/%s.antt" % (found[1], found[2].replace(".", "/")), found[4], names)]


def uses_at(call, item, impls):
    """The `ghost use` lines that a call sees: those of its file, and of the impl or the trait that it is in."""
    around = [item] + [impl.item for impl in impls]
    inner = next((outer for outer in around if any(member is call for member in outer.members)), None)
    return uses_of(call.module.items) + (uses_of(inner.members) if inner else [])


def slug(heading):
    """The anchor that a heading has."""
    return re.sub(r"[^\w\- ]", "", re.sub(r"\[([^\]]*)\]\([^)]*\)", r"\1", heading).strip().lower()).replace(" ", "-")


def anchors(text):
    """All anchors of a page, in order."""
    found, is_code = [], False
    for line in text.split("\n"):
        if line.lstrip().startswith("```"):
            is_code = not is_code
        elif not is_code:
            found += re.findall(r'<a (?:id|name)="([^"]+)"', line)
            heading = re.match(r"#+ (.*)", line)
            if heading:
                found.append(slug(heading[1]))
    return found


def differing(pages):
    """The names of pages that are not in docs/api as they would be written."""
    there = set(os.listdir(FOLDER)) if os.path.isdir(FOLDER) else set()
    return sorted(name for name in there | set(pages) if name not in pages or name not in there or sources.read(FOLDER + "/" + name) != pages[name])


def main():
    if "--help" in sys.argv[1:]:
        return print(__doc__.strip())
    made = Pages()
    pages = made.all()
    for fault in made.faults:
        print(fault)
    if "--check" in sys.argv:
        names = differing(pages)
        for name in names:
            print("docs/api/%s: is not as tools/api.py makes it" % name)
        return 1 if names or made.faults else 0
    os.makedirs(FOLDER, exist_ok=True)
    for name in differing(pages):
        if name in pages:
            with open(FOLDER + "/" + name, "w", encoding="utf-8") as file:
                file.write(pages[name])
        else:
            os.remove(FOLDER + "/" + name)
    return 1 if made.faults else 0


if __name__ == "__main__":
    sys.exit(main())
