#!/usr/bin/env python3
"""Checks functions of a crate before the crates below it are proved.

    tools/early.py CRATE --only FUNCTION [FLAG..]

Libraries that the gate has proved on this machine are put into `out/rlib` of their crates, if the kit keeps them; else those that are there
are taken. Of crates below that are not proved the contracts are taken: in a copy of their sources, in `out/stubs`, the proof of each function
is a hole; the first line names these crates. The flags are those of `rattle check`; FUNCTION is a path, as `document::DocumentMut::set_at`, a
module or a type. What is checked is kept in `out/early`. Without `--only` the functions of the copies count, too, which takes long.

It proves nothing for the gate. Its last line says how many functions of the crate were read and names those that are not proved over these
contracts; it ends with status 1 if there is one, or if an answer was refused.
"""
import fcntl
import functools
import glob
import importlib.machinery
import importlib.util
import json
import os
import re
import shutil
import subprocess
import sys

import sources
from unproved import TOP

STUB = "-- A stub.\nuse {statement}.{{statement}}\n\npub {name}_spec : {{M : Type 1}} → statement M\n{name}_spec = ?\n"
KIT = os.path.dirname(os.path.dirname(os.path.realpath(shutil.which("rt") or "/opt/rattle/bin/rt")))


def kit():
    """The kit's command `rt`, as a module."""
    sys.path.insert(0, KIT + "/bin")
    loader = importlib.machinery.SourceFileLoader("rt", KIT + "/bin/rt")
    module = importlib.util.module_from_spec(importlib.util.spec_from_loader("rt", loader))
    words, sys.argv = sys.argv, ["rt"]
    loader.exec_module(module)
    sys.argv = words
    return module


def crates_of(rt):
    """The crates, lowest first. `rt.crates_of` of a kit whose gate keeps nothing would set aside what is in `out`."""
    if hasattr(rt, "Kept"):
        return rt.crates_of(TOP)
    rt.rtlib.Crate = rt.Crate
    return sorted(rt.rtlib.crates_below(TOP), key=lambda crate: len(crate.below()))


def is_placed(crate):
    """Whether the library is there already."""
    try:
        with open(crate.folder + "/out/rlib/stamp", encoding="utf-8") as file:
            return file.read() == crate.stamp()
    except OSError:
        return False


def place(rt, crates, wanted):
    """Gives each crate that is wanted the library that the gate has kept, lowest first, and returns the names of those that have one."""
    if not hasattr(rt, "Kept"):
        return {crate.name for crate in crates if not crate.is_program and crate.is_built()}
    kept, had = rt.Kept(crates), set()
    for crate in crates:
        if crate.name not in wanted or crate.is_program or crate.is_static or any(below.name not in had for below in crate.below()):
            continue
        if is_placed(crate):
            kept.is_built(crate)
            had.add(crate.name)
            continue
        key = kept.key(crate)
        if not os.path.isdir(kept.place(crate, False, key)):
            continue
        library = crate.folder + "/out/rlib"
        shutil.rmtree(library, ignore_errors=True)
        kept.give(crate, False, key)
        with open(library + "/stamp", "w", encoding="utf-8") as file:
            file.write(crate.stamp())
        kept.is_built(crate)
        had.add(crate.name)
    return had


def below(name):
    """A crate, or `None`, and the names of those below it that have a library, which the gate has kept or which is there."""
    rt = kit()
    rt.Crate.allowed = rt.handles_of(TOP)
    # A stamp takes those of all crates below.
    rt.Crate.stamp = functools.cache(rt.Crate.stamp)
    crates = crates_of(rt)
    crate = next((crate for crate in crates if crate.name == name), None)
    return crate, crate and place(rt, crates, {each.name for each in crate.below()})


def names_of(crate, had):
    """What the kit calls the functions of a crate that are in no cycle of calls."""
    made = crate.folder + "/out/names"
    shutil.rmtree(made, ignore_errors=True)
    words = [*command(crate, had), "--generated", made, "--old-names"]
    subprocess.run(words, cwd=crate.folder, stdout=subprocess.DEVNULL, stderr=subprocess.DEVNULL)
    with open(made + "/names.json", encoding="utf-8") as file:
        head, keys = "Rattle-%s-proofs." % crate.name, json.load(file)
    return [key[len(head):-4] for key in keys if key.startswith(head) and key.endswith(".Lts") and "+" not in key]


def cycles_of(crate):
    """The cycles of calls of a crate that have proofs, each by its module."""
    folders = glob.glob(crate.folder + "/proofs/**/+*", recursive=True)
    return [os.path.relpath(folder, crate.folder + "/proofs").replace("/", ".") for folder in folders]


def stub(folder, crate, name, module):
    """Writes a hole as the proof of a function, or of a cycle, in a copy of a crate."""
    folder += "/proofs/" + name.replace(".", "/")
    os.makedirs(folder, exist_ok=True)
    if not os.path.exists(folder + "/Proof.antt"):
        with open(folder + "/Proof.antt", "w", encoding="utf-8") as file:
            file.write(STUB.format(statement="Rattle.%s.proofs.%s%s" % (crate, name, module), name=name.rpartition(".")[2]))


def left_out(folder, names):
    """What a copy of a crate lacks: the answers, and what is no source. A file of `specs` may have the name of one with answers."""
    answers = ("Answers.antt", "Invariants.antt") if "proofs" in folder.split("/") else ()
    return [name for name in names if name in ("out", "wrong", *answers)]


def stubs(crate, had):
    """Copies a crate with a hole as the proof of each function, unless the copy is there, and returns its folder."""
    made, stamp = crate.folder + "/out/stubs", crate.stamp()
    if os.path.exists(made + "/stamp") and sources.read(made + "/stamp") == stamp:
        return made
    names = [(name, ".Statement") for name in names_of(crate, had)] + [(name, "") for name in cycles_of(crate)]
    shutil.rmtree(made, ignore_errors=True)
    shutil.copytree(crate.folder, made, ignore=left_out)
    for name, module in names:
        stub(made, crate.name, name, module)
    with open(made + "/stamp", "w", encoding="utf-8") as file:
        file.write(stamp)
    return made


def command(crate, had):
    """The words of a check of the crate, over the libraries that are there and stubs of the others."""
    words = [KIT + "/bin/rattle", "check", "--crate-name", crate.name, "src/main.rt" if crate.is_program else "src/lib.rt"]
    for name in sorted({"core", *crate.of_kit, *(name for below in crate.below() for name in below.of_kit)}):
        words += ["--extern", "%s=%s/rlibs/%s.rlib" % (name, KIT, name)]
    words += ["-L", "dependency=%s/rlibs" % KIT]
    for below in crate.below():
        if below.name in had:
            words += ["--extern", "%s=%s" % (below.name, below.rlib), "-L", "dependency=" + os.path.dirname(below.rlib)]
        else:
            uses = dict.fromkeys(["core", *below.of_kit, *(dep.name for dep in below.deps)])
            words += ["--lib", "%s:%s=%s/src/lib.rt" % (below.name, ",".join(uses), stubs(below, had))]
    words += ["--antt-project", KIT + "/rattle/logic/antt-project.json", "--logic-built", KIT + "/logic_built"]
    return [*words, "--incremental", crate.folder + "/out/early"]


def is_met(crate, verdict, read):
    """Whether a function of a crate is proved over the contracts below, by what the check says of it."""
    if same := re.match(r"depends on a hole in the same .* as `(.*)`", verdict):
        return read.get(same[1], False)
    return verdict in ("no holes", "proved") or verdict.startswith("depends on a hole in ") and "`Rattle.%s." % crate not in verdict


def main():
    if len(sys.argv) < 2 or sys.argv[1].startswith("-"):
        print(__doc__)
        return 0 if sys.argv[1:] == ["--help"] else 2
    os.chdir(TOP)
    with open(__file__, encoding="utf-8") as this:
        # Two at once would place the same libraries and write the same copies.
        fcntl.flock(this, fcntl.LOCK_EX)
        crate, had = below(sys.argv[1])
        if crate is None:
            print("no crate is named %s" % sys.argv[1])
            return 2
        os.makedirs(crate.folder + "/out/early", exist_ok=True)
        words = [*command(crate, had), "--allow-holes", *sys.argv[2:]]
    if read_anew := [each.name for each in crate.below() if each.name not in had]:
        print("early: %s: no library is kept, so their sources are read, which takes long" % ", ".join(read_anew), flush=True)
    read, errors = {}, 0
    with subprocess.Popen(words, cwd=crate.folder, stdout=subprocess.PIPE, stderr=subprocess.STDOUT, text=True) as check:
        for line in check.stdout:
            print(line, end="", flush=True)
            # The kit's own last line says `holes=0` also where an answer is refused.
            errors += ": error: " in line
            if said := re.match(r"fn (\S+): (.*)", line):
                read[said[1]] = is_met(crate.name, said[2], read)
    faults = [name for name, met in read.items() if name.startswith(crate.name + "::") and not met]
    print("%d functions of %s, %d errors, not proved: %s" % (
        sum(name.startswith(crate.name + "::") for name in read), crate.name, errors, ", ".join(faults) or "none"))
    return int(errors > 0 or bool(faults) or not read)


if __name__ == "__main__":
    sys.exit(main())
