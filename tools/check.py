#!/usr/bin/env python3
"""Checks that what the pages say is so, without proving anything.

    tools/check.py              prints each fault as `file:line: what`, and ends with status 1 if there is one
    tools/check.py --texts      compiles and runs nothing, so it takes some seconds
    tools/check.py --numbers    prints the numbers that pages may give

- docs/api is as tools/api.py makes it.
- The blocks of code of pages compile, and what they show is what runs write: tools/blocks.py.
- Each function of a ```rust block in README, GUIDE, PROVING and MIGRATING is in a crate to the letter, so what is proved of that one holds of it.
  A function that is shown without a contract is compared without one. So is each ```agda block, with the definitions and proofs.
- Each example of a doc comment is in the function that the comment names.
- Links, their anchors, paths in backticks, and pages that sources name lead somewhere.
- Numbers that are marked, as `2,385<!-- rows -->`, are those of the repository. One that ends in zeros is a rounded one.
- Pages say how many must-fail edits, tests and rows there are, so that none is lost unseen.
- Each must-fail edit still fits: its file is there, has the old text once, and is changed in one function. So does each bug of tools/bugs.
- Tables have an index of the kit's `indexmap`, in their source and in crates.txt, and DECISIONS and MIGRATING name it.
- Help, TOMLFILE, the header of C, the manual page and the completions have the words of edits in the order of the code, with what each takes, and
  the usage and the options of each command, and the rules of the formatter.
- The header of C, and what Rust declares of it, have the exports of the library, with as many parameters.
- A page that says how much stack a call takes says what tools/stack.py and bindings/c/stack.c hold, and one that says how much is written at once
  what a sink holds. The definitions of docs/api/base-*.md are
  no more than they may be. What GUIDE and ASSURANCE call by `crate::name` has a page in docs/api.
- The list of files that share code, in DECISIONS between two comments, is that of tools/duplicates.py.
- Pages are not too large, no sentence is too long, and no word of tools/words.txt is used.
"""
import fnmatch
import glob
import os
import re
import subprocess
import sys

import api
import base
import blocks
import duplicates
import sources
from sources import TOP, read

GUIDES = ("example_calls", "example_tasks", "example_tools", "example_proofs", "example")
SHOWING = ("README.md", "docs/GUIDE.md", "docs/PROVING.md", "docs/MIGRATING.md")
# The most bytes that a page may have, and some together.
SIZES = {
    "README.md": 8500, "docs/GUIDE.md": 17000, "docs/PROVING.md": 14000, "docs/MIGRATING.md": 16000, "docs/ERRORS.md": 8000,
    "docs/ASSURANCE.md": 28000, "docs/LAWS.md": 15000, "docs/BENCH.md": 6000, "CONTRIBUTING.md docs/MAP.md docs/DECISIONS.md": 34000,
}
ALL = 140000
# References beside code, which are no pages.
REFERENCES = ("crates/*", "docs/api/*")
WORDS = 35
# Where the words of edits stand, each with what it takes, or all their names on a line.
EDIT_WORDS = {
    "crates/toml_edit_files/src/help.rt": r"^  ([a-z]+ PATH(?: [A-Z]+)?)  ",
    "docs/TOMLFILE.md": r"`([a-z]+ PATH(?: [A-Z]+)?)`",
    "bindings/c/toml_edit.h": r"^ \*     ([a-z]+ PATH(?: [A-Z]+)?)  ",
    "tools/share/tomlfile.1": r"^([a-z]+ PATH(?: [A-Z]+)?)$",
    "tools/share/tomlfile.bash": r"-W '(set [a-z ]+)'",
    "tools/share/_tomlfile": r"\((set [a-z ]+)\)",
    "tools/share/tomlfile.fish": r"\"(set [a-z ]+)\"",
}
# Where the rules of the formatter stand, in their order.
RULE_WORDS = {
    "crates/toml_edit_files/src/help.rt": r"^  --([a-z-]+) [a-z0-9]+  ",
    "docs/TOMLFILE.md": r"^\| `--([a-z-]+) [a-z0-9]+`",
    "tools/share/tomlfile.1": r"fB--([a-z-]+)\\fR \\fB[a-z0-9]+\\fR[,.]",
    "tools/share/tomlfile.bash": r"--([a-z-]+)",
    "tools/share/_tomlfile": r"--([a-z-]+)",
    "tools/share/tomlfile.fish": r"-l ([a-z-]+)",
}
ROWS = ("test_rows", "test_rows_tables", "test_rows_values")
# Of what some page says how many there are.
SAID = ("edits", "tests", "rows", *("rows of " + program for program in ROWS))
PATH = re.compile(r"(?<![\w./*-])(?:crates|docs|bench|tools|\.ci)/[\w*./-]*[\w*]")


class Check:
    """The pages and sources, and the faults that were found."""

    def __init__(self):
        names = subprocess.run(["git", "ls-files", "-co", "--exclude-standard"], cwd=TOP, capture_output=True, text=True).stdout.split("\n")
        self.files = sorted(name for name in names if name and os.path.exists(TOP + "/" + name)) or walked()
        self.texts = {name: read(TOP + "/" + name) for name in self.files if name.endswith(".md")}
        self.pages = [name for name in self.texts if not any(fnmatch.fnmatch(name, pattern) for pattern in REFERENCES)]
        self.library = sources.Library(sources.crates())
        self.items = [item for module in self.library.modules() for item in module.items]
        self.functions = {}
        for item in self.items + [member for item in self.items for member in item.members]:
            if item.kind == "fn":
                self.functions.setdefault(item.name, []).append(item)
        self.pages_made = api.Pages(self.library)
        self.faults = []

    def fault(self, file, line, what):
        self.faults.append("%s:%d: %s" % (file, line, what))

    def reference(self):
        """docs/api is as it would be made."""
        made = self.pages_made
        pages = made.all()
        self.faults.extend(made.faults)
        for name in api.differing(pages):
            self.fault("docs/api/" + name, 1, "is not as tools/api.py makes it")

    def shown(self):
        """Each function of a block is in a crate."""
        for page in SHOWING:
            for line, language, lines in blocks.blocks(self.texts.get(page, "")):
                if language == "rust":
                    self.block(page, line, lines)
                elif language in ("agda", "antt"):
                    self.definition(page, line, lines)
                elif language == "text" and lines[0].startswith("ghost use "):
                    self.ghosts(page, line, lines)
                elif language.startswith("rust") and page != "docs/MIGRATING.md":
                    self.fault(page, line, "a block that is not checked: ```%s" % language)

    def block(self, page, line, lines):
        """The items of a block."""
        margin = min((len(text) - len(text.lstrip()) for text in lines if text.strip()), default=0)
        lines = [text[margin:] for text in lines]
        masks = sources.masked("\n".join(lines)).split("\n")
        try:
            items = sources.items_of(page, lines, masks, 0, len(lines), 0)
        except ValueError:
            return self.fault(page, line, "a block that is cut off")
        shown = [item for item in items if item.kind not in ("use", "mod") and not (item.kind == "ghost" and item.name == "use")]
        for item in shown:
            self.found(page, line + item.line, item)
        if not shown:
            self.fault(page, line, "a block without a function")
        return None

    def definition(self, page, line, lines):
        """A definition or a proof is in a file of the guide's crates."""
        wanted = "\n%s\n" % "\n".join(stripped(lines))
        files = [file for file in self.files if file.endswith(".antt") and file.split("/")[1] in GUIDES]
        if not any(wanted in "\n%s\n" % "\n".join(stripped(read(TOP + "/" + file).split("\n"))) for file in files):
            self.fault(page, line, "no crate of the guide has this definition")

    def ghosts(self, page, line, lines):
        """The `ghost use` lines of a block are in a file of the guide's crates, which may use more names by them."""
        texts = [read(TOP + "/" + file) for file in self.files if file.endswith(".rt") and file.split("/")[1] in GUIDES]
        known = [dict(re.findall(r"^ghost use ([\w.]+)\.\{(.*)\};$", text, re.M)) for text in texts]
        wanted = dict(re.findall(r"^ghost use ([\w.]+)\.\{(.*)\};$", "\n".join(lines), re.M))
        if not any(all(set(names.split(", ")) <= set(uses.get(path, "").split(", ")) for path, names in wanted.items()) for uses in known):
            self.fault(page, line, "no file of the guide has these `ghost use` lines")

    def found(self, page, line, item):
        """The items of the crates that a shown one is, to the letter."""
        if item.kind == "fn":
            known = self.functions.get(item.name, [])
        else:
            known = [other for other in self.items if other.kind == item.kind and squeezed(other.head) == squeezed(item.head)]
        known = [other for other in known if other.file != page]
        equal = [other for other in known if same(item, other)]
        if not known:
            self.fault(page, line, "no crate has `%s`" % " ".join(item.head[0].split()))
        elif not equal:
            self.fault(page, line, "`%s` differs from that of %s" % (item.name, ", ".join("%s:%d" % (o.file, o.line) for o in known)))
        return equal

    def examples(self):
        """Each example of a doc comment is in its function."""
        shown = {item for page in ["docs/GUIDE.md"] for item in self.names(page)}
        for item in self.items + [member for item in self.items for member in item.members]:
            self.example(item.file, item.line - len(item.docs), item.docs, shown)
        for module in self.library.modules():
            self.example(module.file, 1, module.docs, shown)

    def names(self, page):
        """The names of the functions that a page shows."""
        return re.findall(r"\bfn (\w+)", "\n".join("\n".join(lines) for _, language, lines in blocks.blocks(self.texts.get(page, "")) if language == "rust"))

    def example(self, file, line, docs, shown):
        """The examples of a doc comment."""
        text = "\n".join(docs)
        for code, name, place in re.findall(r"```rust,ignore\n((?:(?!```).*\n)*)```\n\nFrom `(\w+)` of the (guide|crate\s+`\w+`)", text):
            crate = re.search(r"`(\w+)`", place)
            crates = [crate[1]] if crate else GUIDES
            known = [item for item in self.functions.get(name, []) if item.file.split("/")[1] in crates]
            if not crate and name not in shown:
                self.fault(file, line, "docs/GUIDE.md doesn't show `%s`" % name)
            if not known:
                self.fault(file, line, "no function `%s` in %s" % (name, " and ".join(crates)))
            elif not any(in_order(code.split("\n"), item.lines) for item in self.beside(known)):
                self.fault(file, line, "the example is not in `%s` of %s" % (name, known[0].file))

    def beside(self, known):
        """Functions, and the others of their files, which they may call."""
        files = {item.file for item in known}
        return [item for items in self.functions.values() for item in items if item.file in files]

    def links(self):
        """Links and paths lead somewhere."""
        anchors = {name: set(numbered(api.anchors(text))) for name, text in self.texts.items()}
        for name, text in self.texts.items():
            for line, words, is_code in lines_of(text):
                if not is_code:
                    self.links_of(name, line, words, anchors)
                if not name.startswith("docs/api/"):
                    for path in PATH.findall(words if is_code else " ".join(re.findall(r"`[^`]+`", words))):
                        self.path(name, line, path)

    def links_of(self, name, line, words, anchors):
        """The links of a line."""
        for target in re.findall(r"\[(?:`[^`]*`|[^\[\]`]|\[[^\]]*\])*\]\(([^()\s]+)\)|`[^`]*`", words):
            if not target or re.match(r"\w+:", target):
                continue
            path, _, anchor = target.partition("#")
            there = os.path.normpath(os.path.join(os.path.dirname(name), path)) if path else name
            if there.startswith("..") or not os.path.exists(TOP + "/" + there):
                self.fault(name, line, "no file for the link %s" % target)
            elif anchor and there in anchors and anchor not in anchors[there]:
                self.fault(name, line, "no anchor for the link %s" % target)

    def mentions(self):
        """Pages that sources name are there."""
        for file in self.matching("crates/*.rt") + self.matching("crates/*/specs/*.antt"):
            text = read(TOP + "/" + file)
            for found in re.finditer(r"(?<![\w./])docs/\w+\.md|(?<![\w./])(?:tools|bench)/\w+\.py", text) if "docs/" in text or ".py" in text else ():
                if not os.path.exists(TOP + "/" + found[0]):
                    self.fault(file, text[: found.start()].count("\n") + 1, "no file %s" % found[0])

    def path(self, name, line, path):
        """A path in backticks or in a command."""
        if re.search(r"/(out|target)(/|$)", path):
            return
        pattern = re.sub(r"\b(NAME|CRATE|crate|X)\b", "*", path)
        if not glob.glob(TOP + "/" + pattern):
            self.fault(name, line, "no file %s" % path)

    def numbers(self):
        """The numbers that pages may give, by their words."""
        found = {"rows": 0, "edits": len(self.matching("crates/*/wrong/*.edit")), "crates": len(sources.crates())}
        for program in ROWS:
            lines = read("%s/crates/%s/stdin" % (TOP, program)).split("\n")
            count = sum(1 for line in lines if line.strip() and not line.startswith("#"))
            found["rows of " + program] = count
            found["rows"] += count
            stored = read("%s/crates/%s/stdout" % (TOP, program)).strip()
            if stored != "%d rows hold" % count:
                self.fault("crates/%s/stdout" % program, 1, "says `%s`, and stdin has %d rows" % (stored, count))
        found["library crates"] = len(sources.libraries())
        found["laws"] = len(self.pages_made.modules["laws"][1])
        found["changes of definitions"] = read(TOP + "/tools/changes").count("\ntitle: ")
        examples = self.matching("crates/toml_edit_model/specs/examples*")
        models = [file for file in self.matching("crates/toml_edit_model/specs/*.antt") if file not in examples and "/Lib." not in file]
        found["definitions of contracts"], found["definition lines of contracts"] = base.size(self.pages_made.definitions())
        for page, (size, _) in self.pages_made.base.sizes.items():
            found["definitions of " + page], found["lines of " + page] = size
        for word, files in (("definition %s", models), ("example %s", examples)):
            found[word % "files"] = len(files)
            found[word % "lines"] = sum(read(TOP + "/" + file).count("\n") for file in files)
        code = {file: read(TOP + "/" + file) for file in self.matching("crates/*/src/*.rt")}
        unsafe = {file: sources.masked(text) for file, text in code.items()}
        found["files with unsafe"] = sum(1 for text in unsafe.values() if re.search(r"\bunsafe\b", text))
        found["declared Send and Sync"] = sum(len(re.findall(r"\bunsafe impl\b", text)) for text in unsafe.values())
        found["tests"] = sum(text.count("#[test]") for text in code.values())
        return found

    def matching(self, pattern):
        return [file for file in self.files if fnmatch.fnmatch(file, pattern)]

    def counts(self):
        """Marked numbers are true, and those of what is easily lost are marked."""
        found, said = self.numbers(), set()
        for name in self.pages:
            for line, words, _ in lines_of(self.texts[name]):
                for digits, word in re.findall(r"([\d,]*)<!-- ((?:(?!-->).)*?) -->", words):
                    said.add(word)
                    if word in found and not is_about(digits, found[word]):
                        self.fault(name, line, "%s is said of %s, of which there are %d" % (digits or "nothing", word, found[word]))
                    elif word not in found and digits:
                        self.fault(name, line, "no number is known as %s" % word)
        for word in SAID:
            if word not in said:
                self.fault("docs/ASSURANCE.md", 1, "no page says how many %s there are" % word)

    def index(self):
        """A table has an index of the kit's `indexmap`, as it was asked for by name, and the pages name it."""
        if not re.search(r"^toml_edit_slots:.* indexmap\b", read(TOP + "/crates.txt"), re.M):
            self.fault("crates.txt", 1, "toml_edit_slots does not stand on indexmap")
        fields = [read(TOP + "/" + file) for file in self.matching("crates/toml_edit_slots/src/*.rt")]
        if not any(re.search(r"^    \w+: IndexMap<String, usize>,$", text, re.M) for text in fields):
            self.fault("crates/toml_edit_slots/src/index.rt", 1, "no field is an IndexMap<String, usize>, from names to places")
        for page in ("docs/DECISIONS.md", "docs/MIGRATING.md"):
            if "`indexmap`" not in self.texts.get(page, ""):
                self.fault(page, 1, "does not name `indexmap`, in which a table finds its keys")

    def edits(self):
        """Each must-fail edit still fits. The kit's own command would try those in `must-fail` a second time."""
        for name in [*self.matching("crates/*/wrong/*"), *self.matching("crates/*/must-fail/*")]:
            parts = name.split("/")
            crate, texts, changed = "crates/" + parts[1], {}, set()
            if not name.endswith(".edit") or len(parts) != 4 or parts[2] != "wrong":
                self.fault(name, 1, "is no must-fail edit")
            for number, (path, old, new) in enumerate(pairs_of(read(TOP + "/" + name)), 1):
                file = crate + "/" + path
                text = texts.get(file) or (read(TOP + "/" + file) if file in self.files else "")
                if text.count(old) != 1 or old == new:
                    self.fault(name, 3 * number, "its text %d is in %s %d times" % (number, file, text.count(old)))
                    break
                changed |= self.function_at(file, text[: text.index(old)].count("\n") + 1)
                texts[file] = text.replace(old, new)
            if len(changed) > 1:
                self.fault(name, 1, "changes the bodies of %s: make it two edits" % " and ".join(sorted(changed)))
            if not texts:
                self.fault(name, 1, "changes nothing")
            elif not changed:
                self.fault(name, 1, "changes no function: a constant or an import may change several")
        for path, old, _ in pairs_of(read(TOP + "/tools/bugs")):
            file = "crates/" + path
            if file not in self.files or read(TOP + "/" + file).count(old) != 1:
                self.fault("tools/bugs", 1, "the old text is not once in %s: %s" % (file, old))

    def function_at(self, file, line):
        """The name of the function in whose lines one is, in a set."""
        known = [item for items in self.functions.values() for item in items if item.file == file]
        return {item.name for item in known if item.line <= line < item.line + len(item.lines)}

    def twice(self):
        """The list of DECISIONS is that of the files that share code."""
        page, listed = "docs/DECISIONS.md", []
        text = self.texts.get(page, "")
        part = re.search(r"<!-- duplicates -->(.*?)<!-- end of duplicates -->", text, re.S)
        for line in (part[1] if part else "").split("\n"):
            files = ["crates/" + file.removeprefix("crates/") for file in re.findall(r"`([^`]+/[^`]+\.(?:rt|antt))`", line)]
            listed += [files] if files else []
        at = text[: part.start()].count("\n") + 1 if part else 1
        found = duplicates.pairs()
        for (one, other), (first, second, _) in sorted(found.items()):
            if not any(one in files and other in files for files in listed):
                self.fault(page, at, "%s:%d and %s:%d share code, which is not listed" % (one, first, other, second))
        for files in listed:
            for file in files:
                if not any(file in pair and set(pair) <= set(files) for pair in found):
                    self.fault(page, at, "%s is listed, and shares nothing with the others" % file)

    def edit_words(self):
        """Where users read the words of edits, they are those of the code, in its order and with what each takes."""
        code = read(TOP + "/crates/toml_edit_edits/src/edit.rt")
        names = dict(re.findall(r'(Verb::[\w:()]+) => "([a-z]+)"', code))
        operands = dict(re.findall(r'Verb::(\w+)(?:\(_\))? => "(PATH[A-Z ]*)"', code))
        verbs = re.findall(r"^    (Verb::[\w:()]+),$", code, re.M)
        wanted = ["%s %s" % (names[verb], operands[re.match(r"Verb::(\w+)", verb)[1]]) for verb in verbs]
        for file, line in EDIT_WORDS.items():
            found = re.findall(line, re.sub(r"\\f[BIRP]", "", read(TOP + "/" + file)), re.M)
            if found != wanted and [words.split() for words in found] != [[words.split()[0] for words in wanted]]:
                self.fault(file, 1, "has other words of edits than the code: %s" % ", ".join(found))

    def usages(self):
        """The usage and the options of each command are the same in the help, on the page, in the manual page and for the shells."""
        help_text = read(TOP + "/crates/toml_edit_files/src/help.rt")
        manual = re.sub(r"\\f[BIRP]|\\&|\s+|\.(?=B |br)", " ", read(TOP + "/tools/share/tomlfile.1").replace("\\-", "-"))
        page = self.texts.get("docs/TOMLFILE.md", "")
        shells = [read(TOP + "/tools/share/" + name) for name in ("tomlfile.bash", "_tomlfile", "tomlfile.fish")]
        for command, usage in re.findall(r"^usage: tomlfile ([a-z]+) (.+)$", help_text, re.M):
            options = re.findall(r"--[a-z-]+", usage)
            row = "".join(line for line in page.split("\n") if line.startswith("| `%s FILE" % command))
            if command != "edit" and "`%s %s`" % (command, usage.replace("|", "\\|")) not in row:
                self.fault("docs/TOMLFILE.md", 1, "has another usage of `%s` than the help: %s" % (command, usage))
            said = re.search(r" %s ([^;]*?)(?: tomlfile | SH | \.SH )" % command, manual[manual.index("SYNOPSIS") :])
            if not said or sorted(re.findall(r"--[a-z-]+", said[1])) != sorted(options):
                self.fault("tools/share/tomlfile.1", 1, "has other options of `%s` than the help" % command)
            for option in options:
                if "`%s" % option not in page and option not in row:
                    self.fault("docs/TOMLFILE.md", 1, "does not say what `%s` of `%s` does" % (option, command))
                for name, text in zip(("tomlfile.bash", "_tomlfile", "tomlfile.fish"), shells):
                    if option not in text and option.lstrip("-") not in text:
                        self.fault("tools/share/" + name, 1, "does not know `%s` of `%s`" % (option, command))

    def rules(self):
        """The help, the page, the manual page and the completions have the rules of the formatter."""
        rules = re.findall(r'^ +"([a-z-]+)" => Some\(Rule::', read(TOP + "/crates/toml_edit_settings/src/rule.rt"), re.M)
        for file, pattern in RULE_WORDS.items():
            found = re.findall(pattern, read(TOP + "/" + file).replace("\\-", "-"), re.M)
            if [rule for rule in found if rule in rules][:len(rules)] != rules:
                self.fault(file, 1, "has other rules than the code: %s" % ", ".join(found))

    def exports(self):
        """What C and Rust declare is what the library exports."""
        source = "".join(read(TOP + "/" + file) for file in self.matching("crates/toml_edit_c/src/*.rt"))
        wanted = {}
        for name, given in re.findall(r'^pub extern "C" fn (\w+)\((.*?)\) -> (?:Answer|u32)', source, re.M | re.S):
            types = [part.split(":", 1)[1].strip() for part in given.split(",") if part.strip()]
            wanted[name] = sum(0 if kind == "Global" else 2 if kind.startswith(("&[", "&mut [")) else 1 for kind in types)
        header = re.sub(r"/\*.*?\*/", "", read(TOP + "/bindings/c/toml_edit.h"), flags=re.S) if os.path.exists(TOP + "/bindings/c/toml_edit.h") else ""
        found = {name: given.count(",") + 1 for name, given in re.findall(r"\b(toml_edit_\w+)\(([^)]*)\);", header)}
        if found != wanted:
            more, lost = dict(found.items() - wanted.items()), dict(wanted.items() - found.items())
            self.fault("bindings/c/toml_edit.h", 1, "declares %s, and the library exports %s" % (counted(more), counted(lost)))
        file = "bindings/rust/src/lib.rs"
        text = read(TOP + "/" + file) if os.path.exists(TOP + "/" + file) else ""
        for name, given in re.findall(r"pub fn (toml_edit_\w+)\(([^)]*)\)", text):
            if wanted.get(name) != len([part for part in given.split(",") if part.strip()]):
                self.fault(file, text[: text.index(name)].count("\n") + 1, "declares `%s` otherwise than the library" % name)

    def stack(self):
        """What pages say of the stack is what is measured against."""
        most = int(re.search(r"^LIMIT, MOST = \d+, (\d+)$", read(TOP + "/tools/stack.py"), re.M)[1])
        texts = {name: self.texts[name] for name in self.pages}
        for file in ("bindings/c/toml_edit.h", "bindings/c/stack.c"):
            texts[file] = read(TOP + "/" + file) if os.path.exists(TOP + "/" + file) else ""
        for name, text in texts.items():
            for found in re.finditer(r"(\d+) MB(?:\]\([^)]*\))? (?:of stack|is enough)|SAID = (\d+)", text):
                if int(found[1] or 0) * 1024 + int(found[2] or 0) != most:
                    self.fault(name, text[: found.start()].count("\n") + 1, "says `%s`, and %d KB is what runs are held to" % (found[0], most))

    def held(self):
        """What doc comments say of how much is written at once is what a sink holds."""
        most = int(re.search(r"^const HELD: usize = (\d+);", read(TOP + "/crates/toml_edit_io/src/sinks.rt"), re.M)[1])
        for name, text in self.texts.items():
            for found in re.finditer(r"some ([\d,]+) bytes at a time", text):
                if int(found[1].replace(",", "")) != most:
                    self.fault(name, text[: found.start()].count("\n") + 1, "says `%s`, and a sink holds %d" % (found[0], most))

    def base(self):
        """The definitions of each page are no more than they may be."""
        for page, ((_, lines), most) in self.pages_made.base.sizes.items():
            if lines > most:
                self.fault("docs/api/%s.md" % page, 1, "the definitions have %d lines, and may have %d" % (lines, most))

    def called(self):
        """What GUIDE and ASSURANCE call by its crate has a page."""
        pages = "".join(text for name, text in self.texts.items() if name.startswith("docs/api/"))
        for name in ("docs/GUIDE.md", "docs/ASSURANCE.md"):
            for line, words, is_code in lines_of(self.texts.get(name, "")):
                for crate, call in re.findall(r"`(toml_edit_\w+|file_replace)::(\w+)`", words) if not is_code else ():
                    if not re.search(r"^##+ `%s`$|^# \w+ `%s`$" % (call, call), pages, re.M):
                        self.fault(name, line, "docs/api has no page for %s::%s" % (crate, call))

    def runs(self):
        """Blocks compile, and what they show is so."""
        self.faults += blocks.faults()

    def sizes(self):
        """Pages are not too large."""
        for names, most in SIZES.items():
            size = sum(len(self.texts.get(name, "").encode()) for name in names.split())
            if size > most:
                self.fault(names.split()[0], 1, "%s: %d bytes, and may have %d" % (names, size, most))
        size = sum(len(self.texts[name].encode()) for name in self.pages)
        if size > ALL:
            self.fault("README.md", 1, "all pages: %d bytes, and may have %d" % (size, ALL))

    def sentences(self):
        """No sentence is too long."""
        for name in self.pages:
            for line, text in passages(self.texts[name]):
                for sentence in re.split(r"(?<=[.!?])[\"')\]*_]*\s+(?=[A-Z`\"'(\[*_\d])", spoken(text)):
                    count = len([word for word in sentence.split() if re.search(r"\w", word)])
                    if count > WORDS:
                        self.fault(name, line, "a sentence of %d words: %s .." % (count, " ".join(sentence.split()[:8])))

    def words(self):
        """No word is used that the house does not use."""
        lines = [line for line in read(TOP + "/tools/words.txt").split("\n") if line and line[0] != "#"]
        words = {line.split(":")[0]: line.split(":")[1].strip() for line in lines}
        pattern = re.compile(r"\b(%s)\b" % "|".join(map(re.escape, words)), re.I)
        texts = dict(self.texts)
        for kind in ("crates/*/src/*.rt", "crates/*/specs/*.antt"):
            texts.update({file: read(TOP + "/" + file) for file in self.matching(kind)})
        for name, text in texts.items():
            for found in pattern.finditer(text) if pattern.search(text) else ():
                word = found[1]
                self.fault(name, text[: found.start()].count("\n") + 1, "says `%s`, not `%s`" % (word, words[word.lower()]))


def pairs_of(text):
    """The pairs of texts of an edit, each with its file."""
    path, old = "", ""
    for line in text.split("\n"):
        word, _, rest = line.partition(": ")
        if word == "file":
            path = rest.strip()
        elif word == "old":
            old = rest
        elif word in ("new", "new:"):
            yield path, old, rest


def walked():
    """The files of a copy that is no repository."""
    found = []
    for folder, folders, files in os.walk(TOP):
        folders[:] = [name for name in folders if name not in ("out", "target", ".git", "__pycache__")]
        found += [os.path.relpath(os.path.join(folder, name), TOP) for name in files]
    return sorted(found)


def lines_of(text):
    """The lines of a page: the number, the text, and whether it is code."""
    is_code = False
    for number, line in enumerate(text.split("\n"), 1):
        if line.lstrip().startswith("```"):
            is_code = not is_code
            yield number, "", True
        else:
            yield number, line, is_code or line.startswith("    ")


def counted(calls):
    """Calls with the numbers of their parameters."""
    return ", ".join("%s of %d" % call for call in sorted(calls.items())) or "nothing"


def squeezed(lines):
    """Lines of a signature without layout."""
    return re.sub(r",(?=[)>])", "", re.sub(r"\s+", "", "".join(lines)))


def stripped(lines):
    return [line.strip() for line in lines if line.strip()]


def body_of(item):
    """The lines of a function behind its signature and its contract."""
    masks = sources.masked("\n".join(item.lines)).split("\n")
    margin = len(item.lines[0]) - len(item.lines[0].lstrip())
    _, numbers = sources.split_body(item.lines, masks, margin)
    return stripped(item.lines[number] for number in numbers)


def same(shown, known):
    """Whether a shown item is that of a crate."""
    if shown.docs and shown.docs != known.docs:
        return False
    if shown.kind in ("impl", "trait"):
        others = {member.name: member for member in known.members}
        return all(member.name in others and same(member, others[member.name]) for member in shown.members if member.kind == "fn")
    if shown.kind != "fn":
        return stripped(shown.lines) == stripped(known.lines)
    if shown.clauses and [stripped(clause.lines) for clause in shown.clauses] != [stripped(clause.lines) for clause in known.clauses]:
        return False
    return squeezed(shown.head) == squeezed(known.head) and body_of(shown) == body_of(known)


def in_order(lines, others):
    """Whether lines are among others, in order."""
    rest = iter(stripped(others))
    return all(line in rest for line in stripped(lines))


def numbered(anchors):
    """The anchors of a page, where later ones of a name get a number."""
    seen = {}
    for anchor in anchors:
        seen[anchor] = seen.get(anchor, -1) + 1
        yield "%s-%d" % (anchor, seen[anchor]) if seen[anchor] else anchor


def is_about(digits, number):
    """Whether digits are a number, or a rounded one."""
    if not digits.replace(",", ""):
        return False
    said = int(digits.replace(",", ""))
    zeros = len(str(said)) - len(str(said).rstrip("0"))
    unit = 10**zeros if zeros > 1 else 1
    return abs(said - number) * 2 <= unit if unit > 1 else said == number


def spoken(text):
    """A text as it is read: code is a word, and links have no targets."""
    text = re.sub(r"<!--.*?-->|<[^>]*>", "", text)
    text = re.sub(r"`[^`]*`", "X", text)
    return re.sub(r"\[((?:[^\[\]]|\[[^\]]*\])*)\]\([^()]*\)", r"\1", text)


def passages(text):
    """What sentences are looked for in: paragraphs, points of lists, and cells, each with the number of its first line."""
    start, gathered = 0, []
    for number, line, is_code in list(lines_of(text)) + [(0, "", False)]:
        bare = line.strip()
        is_cell = bare.startswith("|")
        if gathered and (not bare or is_code or is_cell or re.match(r"([-*]|\d+\.) |#", bare)):
            yield start, " ".join(gathered)
            gathered = []
        if is_cell and not is_code:
            for cell in re.split(r"(?<!\\)\|", bare):
                yield number, cell
        elif bare and not (is_code and not line.startswith("    ")) and not (is_code and not gathered):
            start = start if gathered else number
            gathered.append(re.sub(r"^([-*]|\d+\.|#+) ", "", bare))


def main():
    if "--help" in sys.argv[1:]:
        return print(__doc__.strip())
    check = Check()
    if "--numbers" in sys.argv:
        for word, number in check.numbers().items():
            print("%s<!-- %s -->" % (format(number, ","), word))
        return 0
    parts = [check.reference, check.shown, check.examples, check.links, check.mentions, check.counts, check.index, check.edits, check.edit_words]
    parts += [check.usages, check.rules, check.exports, check.stack, check.held, check.base, check.called, check.twice, check.sizes, check.sentences, check.words]
    for part in parts if "--texts" in sys.argv else [*parts, check.runs]:
        part()
    for fault in check.faults:
        print(fault)
    numbers, count = check.numbers(), len(check.faults)
    print(", ".join("%s %s" % (format(numbers[word], ","), word) for word in SAID))
    print("no faults" if not count else "1 fault" if count == 1 else "%d faults" % count, flush=True)
    # Who sees standard error alone learns why the status is 1.
    print("".join("tools/check.py: %s\n" % fault for fault in check.faults), end="", file=sys.stderr)
    return 1 if count else 0


if __name__ == "__main__":
    sys.exit(main())
