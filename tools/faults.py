#!/usr/bin/env python3
"""Plants faults, each by itself, into a copy of the repository, and tries whether tools/check.py notices them.

    tools/faults.py [WORD]      plants those whose names hold WORD (all); one, a dropped import, takes a minute to be refused

Prints for each what was noticed. Ends with status 1 unless all were.
"""
import glob
import os
import re
import shutil
import subprocess
import sys
import tempfile

from sources import TOP

NEEDED = ("*.md", "LICENSE-*", "crates.txt", "docs", "tools", "bench", "bindings", ".ci")
KEPT = re.compile(r".*/(src|specs|proofs|wrong)|.*/(stdin|stdout|args|WORDS\.md)")


class Copy:
    """A copy of what tools/check.py reads."""

    def __init__(self, folder):
        self.top = folder
        for pattern in NEEDED:
            for path in glob.glob(TOP + "/" + pattern):
                target = folder + path[len(TOP) :]
                os.makedirs(os.path.dirname(target), exist_ok=True)
                if os.path.isdir(path):
                    shutil.copytree(path, target, ignore=shutil.ignore_patterns("__pycache__", "target", "out"))
                else:
                    shutil.copy(path, target)
        for path in glob.glob(TOP + "/crates/*/*"):
            if KEPT.fullmatch(path):
                target = folder + path[len(TOP) :]
                os.makedirs(os.path.dirname(target), exist_ok=True)
                (shutil.copytree if os.path.isdir(path) else shutil.copy)(path, target)
        self.before = {}

    def read(self, name):
        with open(self.top + "/" + name, encoding="utf-8") as file:
            return file.read()

    def write(self, name, text):
        """Writes a file, and remembers what it was."""
        if name not in self.before:
            self.before[name] = self.read(name) if os.path.exists(self.top + "/" + name) else None
        with open(self.top + "/" + name, "w", encoding="utf-8") as file:
            file.write(text)

    def forget(self, name):
        """Removes a file, and remembers what it was."""
        self.before[name] = self.read(name)
        os.remove(self.top + "/" + name)

    def restore(self):
        for name, text in self.before.items():
            if text is None:
                os.remove(self.top + "/" + name)
            else:
                self.write(name, text)
        self.before = {}

    def run(self, *words):
        """The lines that a tool of the copy prints."""
        ran = subprocess.run([sys.executable, self.top + "/tools/" + words[0], *words[1:]], capture_output=True, text=True)
        return set((ran.stdout + ran.stderr).split("\n")[:-2])

    def names(self, *patterns):
        found = [path for pattern in patterns for path in glob.glob(self.top + "/" + pattern, recursive=True)]
        return sorted(path[len(self.top) + 1 :] for path in found)

    def replace(self, names, pattern, by):
        """Replaces the first place of some files that a pattern finds, and returns whether there is one."""
        for name in names:
            text = self.read(name)
            if re.search(pattern, text):
                self.write(name, re.sub(pattern, by, text, count=1))
                return True
        return False

    def add(self, name, text):
        self.write(name, self.read(name) + text)


PAGES = ("*.md", "docs/*.md")


def stale_example(copy):
    """An example of a doc comment calls what its function doesn't."""
    example = r"(```rust,ignore\n(?: *///.*\n)*? *)///(.*\n(?: *///.*\n)*? */// ```\n *///\n *//+ From `\w+` of the )"
    copy.replace(copy.names("crates/toml_edit*/src/**/*.rt"), example, r"\1/// stale();\2")


def wrong_number(copy):
    """A page has one row too many."""
    rows = re.compile(r"([\d,]+)<!-- rows -->")
    if not copy.replace(copy.names(*PAGES), rows, "1,000,001<!-- rows -->"):
        copy.add("README.md", "\n1,000,001<!-- rows --> rows.\n")


def dead_anchor(copy):
    """A link names a heading that isn't there."""
    if not copy.replace(copy.names(*PAGES), r"\]\(([\w/.]+\.md)#[^)]+\)", r"](\1#no-such-heading)"):
        copy.add("README.md", "\n[no such heading](docs/GUIDE.md#no-such-heading)\n")


def dead_path(copy):
    """A page names a file that isn't there."""
    if not copy.replace(copy.names(*PAGES), r"`crates/(\w+)/src(/\w+\.rt)?`", r"`crates/\1/src/no_such_file.rt`"):
        copy.add("README.md", "\n`crates/toml_edit/src/no_such_file.rt`\n")


def renamed_clause(copy):
    """A clause has another name, docs/api is made anew, and a page still has the old one."""
    link = "](%sapi/DocumentMut.md#fits.reparse)"
    if not any(link % "" in copy.read(name) for name in copy.names("docs/*.md")):
        copy.add("README.md", "\n[`fits.reparse`" + link % "docs/" + "\n")
    copy.replace(["crates/toml_edit/src/document.rt"], r"ensures reparse \{", "ensures read_again {")
    remember(copy)
    copy.run("api.py")


def remember(copy):
    """Lets the pages of docs/api be restored."""
    for name in copy.names("docs/api/*.md"):
        copy.write(name, copy.read(name))


def changed_signature(copy):
    """A page of docs/api has a parameter more than the source."""
    copy.replace(["docs/api/DocumentMut.md"], r"pub fn get_at\(", "pub fn get_at(more: bool, ")


def large_page(copy):
    """A page is too large."""
    copy.add("README.md", "\nIt reads and writes.\n" * 400)


def long_sentence(copy):
    """A sentence has 41 words."""
    copy.add("docs/ERRORS.md", "\nThis sentence" + " goes on and" * 13 + ".\n")


def unlisted_duplicate(copy):
    """A function is copied into another file."""
    text = copy.read("crates/toml_edit_error/src/place.rt")
    copy.add("crates/toml_edit_error/src/excerpt.rt", "\n" + text[text.index("use ") :])


def stale_function(copy):
    """A function of the guide does what that of the crate doesn't."""
    shown = r"(```rust\n(?:(?!```).*\n)*?(?:pub )?fn \w+(?:(?!```).*\n)*?(?:.*\{|\{)\n)"
    copy.replace(["docs/GUIDE.md", "README.md"], shown, r"\1    stale();\n")


def dropped_import(copy):
    """A block of the guide drops the trait that its call needs."""
    copy.replace(["docs/GUIDE.md"], r"(use toml_edit::\{.*), ParsePath", r"\1")


def changed_output(copy):
    """A command of the README writes something else."""
    copy.replace(["README.md"], r"\nname = \"demo\"\n(version = \"0\.2\.0\")", r'\nname = "other"\n\1')


def copied_crate(copy):
    """GUIDE's commands copy a crate that the library does not need."""
    copy.replace(["docs/GUIDE.md"], r"\^toml_edit:/q", "^toml_edit_fmt_laws:/q")


def changed_example(copy):
    """A call of docs/api leaves another text."""
    copy.replace(["tools/calls"], r"after: a = 2 # one", "after: a = 2")
    remember(copy)
    copy.run("api.py")


def changed_session(copy):
    """A call from Python gives something else."""
    copy.replace(["bindings/README.md"], r"\nversion = \"2\.0\" # ours\n```\n\n`pip", '\nversion = "2.0"  # ours\n```\n\n`pip')


def dead_edit(copy):
    """A must-fail edit has a text that its file lost."""
    copy.replace(copy.names("crates/toml_edit_key/wrong/*.edit"), r"old: ", "old: lost ")


def edit_of_two(copy):
    """A must-fail edit changes two bodies."""
    copy.add("crates/toml_edit_fits/wrong/dotted_root_fits.edit", "file: src/route.rt\nold: && route.room > 0\nnew: && true\n")


def edit_of_a_constant(copy):
    """A must-fail edit changes a constant, and so each body that has it."""
    path = "crates/toml_edit_syntax/wrong/constant.edit"
    copy.write(path, "file: src/value.rt\nold: pub const NESTING_LIMIT: usize = 80;\nnew: pub const NESTING_LIMIT: usize = 81;\n")


def lost_edit(copy):
    """A must-fail edit is gone."""
    copy.forget(copy.names("crates/toml_edit_key/wrong/*.edit")[0])


def missing_edit(copy):
    """A page lacks a word of edits."""
    copy.replace(["docs/TOMLFILE.md"], r"`sort PATH`", "`order PATH`")


def lost_test(copy):
    """A test is no test any more."""
    copy.replace(copy.names("crates/test_calls/src/*.rt"), r"#\[test\]\n", "")


def unsaid_tests(copy):
    """No page says how many tests there are."""
    for _ in range(9):
        copy.replace(copy.names(*PAGES), r"<!-- tests -->", "")


def lost_index(copy):
    """A table has an index of its own, and not that of the kit."""
    copy.replace(copy.names("crates/toml_edit_slots/src/*.rt"), r"    (\w+): IndexMap<String, usize>,\n", r"    \1: Places,\n")


def unnamed_index(copy):
    """A page does not say any more where a table finds its keys."""
    copy.replace(["docs/MIGRATING.md"], r"`indexmap`", "an index")


def lost_option(copy):
    """The manual page lacks an option."""
    copy.replace(["tools/share/tomlfile.1"], r" \[\\fB\\-\\-locked\\fR\]", "")


def other_header(copy):
    """The header of C has a parameter less than the library."""
    copy.replace(["bindings/c/toml_edit.h"], r"(toml_edit_print\(\s+uint32_t flags, const uint8_t \*text), size_t text_size", r"\1")


def other_stack(copy):
    """A page says that less stack is enough."""
    copy.replace(["SECURITY.md"], r"1 MB of stack", "2 MB of stack")


def larger_base(copy):
    """Acceptance stands on so many definitions more that an hour does not do."""
    lines = "".join("more_%d : ℕ\nmore_%d = %s\n\n" % (at, at, "more_%d" % (at - 1) if at else "0") for at in range(20))
    name = "crates/toml_edit_model/specs/Roles.antt"
    copy.write(name, copy.read(name).replace("-- what a statement says", lines.replace("more_", "pub more_") + "-- what a statement says", 1) + "\nmore_last : ℕ\n")
    copy.replace([name], r"may_meet_inline dotted_role dotted_role = true", "may_meet_inline dotted_role dotted_role = more_19 == 0")


def smaller_sink(copy):
    """A doc comment says that less is written at once."""
    copy.replace(["crates/toml_edit/src/document/print.rt"], r"some 4,096 bytes at a time", "some 256 bytes at a time")
    remember(copy)
    copy.run("api.py")


def lost_call(copy):
    """GUIDE calls a function that no page of the reference has."""
    copy.replace(["docs/GUIDE.md"], r"`toml_edit_fmt::format`", "`toml_edit_fmt::lay_out`")


# Each with words of the line that has to be printed, and the tool that prints it.
FAULTS = {
    stale_example: "the example is not in",
    wrong_number: "is said of rows",
    dead_anchor: "no anchor for the link",
    dead_path: "no_such_file",
    renamed_clause: "no anchor for the link",
    changed_signature: "docs/api/DocumentMut.md",
    large_page: "README.md: ",
    long_sentence: "a sentence of",
    unlisted_duplicate: "share code",
    stale_function: "differs from that of",
    dead_edit: "its text 1 is in",
    edit_of_two: "make it two edits",
    missing_edit: "has other words of edits",
    edit_of_a_constant: "changes no function",
    lost_edit: "is said of edits",
    lost_test: "is said of tests",
    unsaid_tests: "no page says how many tests",
    lost_index: "no field is an IndexMap",
    unnamed_index: "does not name `indexmap`",
    lost_option: "has other options of `edit`",
    other_header: "toml_edit_print of 4",
    other_stack: "is what runs are held to",
    larger_base: "and may have 900",
    lost_call: "has no page for toml_edit_fmt::lay_out",
    smaller_sink: "and a sink holds 4096",
}
# Those of blocks, which are compiled and run.
RUN = {
    dropped_import: "error[",
    changed_output: "README.md",
    copied_crate: "which it does not need",
    changed_example: "DocumentMut::set_at gives",
    changed_session: "bindings/README.md",
}


def main():
    if "--help" in sys.argv[1:]:
        return print(__doc__.strip())
    word = sys.argv[1] if len(sys.argv) > 1 else ""
    lost = 0
    with tempfile.TemporaryDirectory() as folder:
        copy = Copy(folder)
        texts, runs = ("check.py", "--texts"), ("blocks.py",)
        known = {tool: copy.run(*tool) for tool in (texts, runs) if tool is texts or any(word in plant.__name__ for plant in RUN)}
        for plant, words in {**FAULTS, **RUN}.items():
            if word in plant.__name__:
                tool = texts if plant in FAULTS else runs
                plant(copy)
                is_planted = any(not os.path.exists(folder + "/" + name) or copy.before[name] != copy.read(name) for name in copy.before)
                new = sorted(line for line in copy.run(*tool) - known[tool] if words in line) if is_planted else []
                print("%s: %s" % (plant.__name__, new[0] if new else "NOT NOTICED" if is_planted else "NOT PLANTED"), flush=True)
                lost += not new
                copy.restore()
    print("all faults were noticed" if not lost else "%d not noticed" % lost)
    return 1 if lost else 0


if __name__ == "__main__":
    sys.exit(main())
