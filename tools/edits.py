#!/usr/bin/env python3
"""Tries the must-fail edits: wrong bodies, each of which the checker must refuse.

    tools/edits.py [CRATE..]

They are in `crates/CRATE/wrong`, in the form that `rt must-fail` reads. That command proves a crate a second time, and then each edit by
itself. Here the checker reads a copy of the crate with many edits at once, and is asked only for the functions that hold the changed lines;
proofs of the others are holes there. A function stands on the contracts of others, and not on their bodies, so an edit is refused by what the
checker says of its own functions. Those that are not refused so are tried again, at last alone.

The libraries below are those that the gate has proved on this machine. It ends with status 1 unless each edit was refused, and says in its last
line how many were.
"""
import concurrent.futures
import copy
import functools
import glob
import os
import re
import shutil
import sys
import tempfile

import early
import sources
from unproved import TOP

OWNER = re.compile(r"(?:pub )?(?:unsafe )?(?:impl|trait)\b(?:<.*?>)? (?:([\w:]+)(<.*>)? for )?&?(?:'\w+ )?(?:mut )?([\w:]+)")
# What the kit says where a proof file names what an edit took away, which says nothing of a contract.
LOST = re.compile(r"(note: )?(\./)?proofs/.*(has no field|is not in scope|has no `|was not admitted)")
TOLD = re.compile(r"(note: )?(\S+?):(\d+):\d+: ")


@functools.cache
def functions_of(crate):
    """The functions of a crate, each with its path, and whether that is all of its name: some impls of traits have more in theirs."""
    modules, found = list(sources.every(sources.module_of(crate, (), sources.root_of(crate)))), []
    # A type's own functions have its path, wherever they stand.
    types = {item.name: module.path for module in modules for item in module.items if item.kind in ("struct", "enum")}
    for module in modules:
        for item in module.items:
            owner = OWNER.match(" ".join(item.head)) if item.members else None
            of, by, name = owner.groups("") if owner else ("", "", "")
            of = "" if of == "Drop" else of
            path = types.get(name, module.path) if owner and not of else module.path
            names = [name + of.rpartition("::")[2] + by.strip("<>")] if owner else []
            is_plain = not of or not by and name[0].isupper() and " for &" not in " ".join(item.head)
            members = [member for member in item.members or [item] if member.kind == "fn"]
            found += [("::".join([*path, *names, member.name]), member, is_plain) for member in members]
    return found


class Edit:
    """An edit of a crate: its pairs of texts, by file, and the functions that it changes, each with the lines that it takes."""

    def __init__(self, rt, crate, path):
        self.name, self.pairs, self.functions = os.path.basename(path), [], {}
        self.why = rt.read_edit(path, crate.folder)[1]
        if self.why:
            return
        file, old = "", ""
        for line in sources.read(path).split("\n"):
            word, _, rest = line.partition(" ")
            if word == "file:":
                file = rest.strip()
            elif word == "old:":
                old = rest
            elif word == "new:":
                self.pairs.append((file, old, rest))
                self.find(crate, file, old, sources.read(crate.folder + "/" + file))
        self.why = None if self.functions else "it is in no function"

    def find(self, crate, file, old, text):
        """Notes the function that holds a text of a file."""
        at = text.count("\n", 0, text.index(old) + len(old) - len(old.lstrip())) + 1
        for path, item, _ in functions_of(crate.name):
            first, last = item.line, item.line + len(item.lines) - 1
            if item.file == "crates/%s/%s" % (crate.name, file) and first <= at <= last:
                above = len(item.docs) + len(item.notes) + item.attributes.count("#[")
                self.functions[path] = (file, first - above, last)

    def apply(self, crate, texts):
        """Makes the edit in texts by file, unless another one there has changed the same line."""
        made = dict(texts)
        for file, old, new in self.pairs:
            text = made.get(file) or sources.read(crate.folder + "/" + file)
            if text.count(old) != 1:
                return False
            made[file] = text.replace(old, new)
        texts.update(made)
        return True

    def refusal(self, lines):
        """The line by which the checker refuses a function of this edit, or None."""
        for path, place in self.functions.items():
            for line in lines:
                told = TOLD.match(line)
                if not told or LOST.match(line):
                    continue
                module, _, name = path.replace("::", "/").rpartition("/")
                # The second has the proofs of its closures. Those of a cycle of calls are in one file, each goal with the function's name.
                in_proof = told[2].startswith(("./proofs/%s/%s/" % (module, name), "./proofs/%s/fn/%s/" % (module, name)))
                in_proof = in_proof or "/+" in told[2] and "error: `%s-" % name in line
                if in_proof or told[2] == place[0] and place[1] <= int(told[3]) <= place[2]:
                    return line[:160]
        return None


def checked(rt, crate, edits, kept):
    """Checks a crate with edits, and returns the lines that say what was not proved, or what hinders a check."""
    texts = {}
    if not all(edit.apply(crate, texts) for edit in edits):
        return [], "two edits change the same"
    only = dict.fromkeys(path for edit in edits for path in edit.functions)
    ran = rt.checked(crate, texts, ["--jobs", "1", "--allow-holes", *(word for path in only for word in ("--only", path))], kept)
    lines = ran.stdout.rstrip("\n").split("\n")
    bad = next((line for line in lines if rt.unread(line, texts)), None)
    if not bad and not (ran.returncode in (0, 1) and lines[-1].startswith("only=")):
        bad = "status %d: %s" % (ran.returncode, " ".join(lines[-3:])[:400])
    return [line for line in lines if TOLD.match(line) and ("error" in line or line.startswith("note: "))], bad


def together(crate, edits):
    """Edits that can be tried in one check: no two change the same function or line."""
    texts, taken, chosen = {}, set(), []
    for edit in edits:
        if taken.isdisjoint(edit.functions) and edit.apply(crate, texts):
            taken.update(edit.functions)
            chosen.append(edit)
    return chosen


def edits_of(crate):
    return sorted(glob.glob("%s/crates/%s/wrong/*.edit" % (TOP, crate)))


def calls_itself(item):
    """Whether a function, or a method by `self`, is a cycle of its own."""
    return re.search(r"(?:(?<![\w.:])|\bself\.)%s\(" % item.name, "\n".join(item.lines[1:]))


def stubbed(crate, edits, folder):
    """Copies a crate, with holes as the proofs of the functions that no edit changes."""
    changed = {path for edit in edits for path in edit.functions}
    for part in ("src", "specs", "proofs"):
        if os.path.isdir("%s/%s" % (crate.folder, part)):
            shutil.copytree("%s/%s" % (crate.folder, part), "%s/%s" % (folder, part))
    cycles = early.cycles_of(crate)
    for path, item, is_plain in functions_of(crate.name):
        cycle = re.search(r"#\[cycle\((\w+)\)\]", item.attributes)
        if path in changed:
            ends = "+" + (cycle[1] if cycle else item.name)
            cycles = [name for name in cycles if not name.endswith(ends)]
        elif is_plain and not cycle and item.lines[-1].endswith("}") and "#[test]" not in item.attributes and not calls_itself(item):
            hole(crate, folder, path.replace("::", "."), ".Statement")
    for name in cycles:
        hole(crate, folder, name, "")
    made = copy.copy(crate)
    made.folder = folder
    return made


def hole(crate, folder, name, module):
    """Takes a hole in place of the answers for a function, or a cycle."""
    for file in glob.glob("%s/proofs/%s/*.antt" % (folder, name.replace(".", "/"))):
        os.remove(file)
    early.stub(folder, crate.name, name, module)


def tried_all(rt, crate):
    """Tries the edits of a crate, many at once, and those alone that are not refused so. Returns how many were refused."""
    edits, refused = [Edit(rt, crate, path) for path in edits_of(crate.name)], 0

    def say(edit, what):
        print("%s/%s: %s" % (crate.name, edit.name, what), flush=True)

    left = [edit for edit in edits if not edit.why]
    for edit in edits:
        if edit.why:
            say(edit, "BAD EDIT: " + edit.why)
    with tempfile.TemporaryDirectory() as folder:
        copied, is_alone = stubbed(crate, edits, folder), False
        while left:
            batch = left[:1] if is_alone else together(crate, left)
            lines, bad = checked(rt, copied, batch, folder + "/kept")
            told = {edit: None if bad else edit.refusal(lines) for edit in batch}
            for edit in batch:
                if told[edit]:
                    say(edit, "refused, as it must be: " + told[edit])
                elif len(batch) == 1:
                    say(edit, "BAD EDIT: " + bad if bad else "NOT REFUSED")
                if told[edit] or len(batch) == 1:
                    left.remove(edit)
            refused += sum(map(bool, told.values()))
            is_alone = is_alone or not any(told.values())
    return refused


def run(rt, names):
    """Tries the edits of these crates, or of all, and returns how many were refused and how many there are."""
    os.chdir(TOP)
    rt.Crate.allowed = rt.handles_of(TOP)
    every = early.crates_of(rt)
    crates = [crate for crate in every if crate.name in (names or [crate.name]) and edits_of(crate.name)]
    wanted = {below.name for crate in crates for below in crate.below()}
    if missing := wanted - early.place(rt, every, wanted):
        sys.exit("not proved on this machine: " + ", ".join(sorted(missing)))
    # It sets a handler of signals, which only the main thread can.
    rt.rtlib.guarded()
    # Those with the most edits begin.
    crates.sort(key=lambda crate: -len(edits_of(crate.name)))
    with concurrent.futures.ThreadPoolExecutor(os.cpu_count()) as pool:
        refused = sum(pool.map(lambda crate: tried_all(rt, crate), crates))
    return refused, sum(len(edits_of(crate.name)) for crate in crates)


def main():
    if sys.argv[1:2] == ["--help"]:
        return print(__doc__.strip())
    refused, edits = run(early.kit(), sys.argv[1:])
    print("%d of %d must-fail edits were refused" % (refused, edits))
    return int(refused != edits)


if __name__ == "__main__":
    sys.exit(main())
