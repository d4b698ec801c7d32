#!/usr/bin/env python3
"""Runs the gate and prints where its processor time goes.

    tools/gate_cost.py [WORD..]     `rt ci WORD..`: `--anew` to prove again what an earlier run has kept, or names of crates

Where that passes, it tries the must-fail edits of all crates, too. It prints, for each crate, the seconds of processor time of its proof, of
its tests' proof and of its edits, and how many checks of edits there were, with the median and the most of one. Then come the sums, the chain
of crates, each above the one before it, whose proofs take longest, the minutes that all this took, and the most memory of one check. What is
kept takes no time, so only `--anew` tells what the gate costs from nothing; in a kit that keeps nothing the word is left out. The lines of the
gate go into gate-cost.log at the top of the repository, the last of them is printed, and the status is the gate's.

The kit's commands start one program, `rattle`, for each check. Here they run from a copy that starts this file in its place, which starts
`rattle` in turn and notes what it took.
"""
import collections
import fcntl
import os
import re
import resource
import statistics
import subprocess
import sys
import tempfile
import time

import early
import edits
import sources
import unproved
from unproved import TOP

PARTS = ("proof", "tests", "edits")


def measured(rattle, notes, words):
    """Starts the checker, and adds a line to the notes: the crate, the part, processor seconds, megabytes."""
    status = subprocess.run([rattle, *words]).returncode
    used = resource.getrusage(resource.RUSAGE_CHILDREN)
    if "--crate-name" in words:
        part = "edits" if "rt-edit" in os.getcwd() else "tests" if "--test" in words else "proof"
        with open(notes, "a", encoding="utf-8") as file:
            fcntl.flock(file, fcntl.LOCK_EX)
            crate, seconds = words[words.index("--crate-name") + 1], used.ru_utime + used.ru_stime
            file.write("%s %s %.2f %d\n" % (crate, part, seconds, used.ru_maxrss // 1024))
    # A shell says it so, too, if a signal ended the program.
    return status if status >= 0 else 128 - status


def copied(folder, notes):
    """Copies the kit's commands to a folder, where they start this file in place of the checker."""
    kit = unproved.kit().KIT
    with open(folder + "/rattle", "w", encoding="utf-8") as file:
        file.write("#!/bin/sh\nexec %s %s --measured %s %s \"$@\"\n" % (sys.executable, os.path.abspath(__file__), kit + "/bin/rattle", notes))
    os.chmod(folder + "/rattle", 0o755)
    for name in ("rt", "rtlib.py"):
        with open("%s/bin/%s" % (kit, name), encoding="utf-8") as file:
            text = file.read()
        if name == "rtlib.py":
            for word, place in (("KIT", kit), ("RATTLE", folder + "/rattle")):
                text = re.sub(r"(?m)^%s = .*$" % word, "%s = %r" % (word, place), text, count=1)
        with open(folder + "/" + name, "w", encoding="utf-8") as file:
            file.write(text)
    return folder + "/rt"


def table(lines):
    """Prints what each crate took, the dearest first, and returns the sum and the most memory."""
    seconds, most = collections.defaultdict(list), 0
    for line in lines:
        crate, part, used, memory = line.split()
        seconds[crate, part].append(float(used))
        most = max(most, int(memory))
    cost = {crate: [sum(seconds[crate, part]) for part in PARTS] for crate, _ in list(seconds)}
    print("%-24s%8s%8s%8s%8s%8s%8s" % ("seconds of", *PARTS, "number", "median", "most"))
    for crate in sorted(cost, key=lambda crate: -sum(cost[crate])):
        each = seconds[crate, "edits"] or [0]
        print("%-24s%8.0f%8.0f%8.0f%8d%8.0f%8.0f" % (crate, *cost[crate], len(seconds[crate, "edits"]), statistics.median(each), max(each)))
    sums = [sum(column) for column in zip(*cost.values())] or [0, 0, 0]
    print("%-24s%8.0f%8.0f%8.0f" % ("all", *sums))
    chain = longest({crate: used for crate, (used, _, _) in cost.items()})
    print("%.0f minutes of processor time in the longest chain, %s" % (sum(cost[crate][0] for crate in chain) / 60, " ".join(chain)))
    return sum(sums), most


def longest(proofs):
    """The crates whose proofs, one after another, take longest, the lowest first."""
    library, chains = unproved.kit(), {}
    made = [library.Crate("%s/crates/%s" % (TOP, name), TOP, {}) for name in proofs]
    for crate in sorted(made, key=lambda crate: len(crate.below())):
        below = max((chains[dep.name] for dep in crate.deps if dep.name in chains), key=lambda chain: sum(map(proofs.get, chain)), default=[])
        chains[crate.name] = [*below, crate.name]
    return max(chains.values(), key=lambda chain: sum(map(proofs.get, chain)), default=[])


def is_keeping():
    """Whether the kit's gate keeps what it passed. It then has the word `--anew`, and works at one crate at a time unless a number is set."""
    return any("--anew" in sources.read("%s/bin/%s" % (unproved.kit().KIT, name)) for name in ("rt", "rtlib.py"))


def main():
    words = sys.argv[1:]
    if words[:1] == ["--measured"]:
        return measured(words[1], words[2], words[3:])
    if words[:1] == ["--help"]:
        return print(__doc__.strip())
    if is_keeping():
        os.environ.setdefault("RT_JOBS", str(os.cpu_count()))
    else:
        words = [word for word in words if word != "--anew"]
    with tempfile.TemporaryDirectory(prefix="gate-cost-") as folder:
        notes, begun = folder + "/notes", time.time()
        open(notes, "w", encoding="utf-8").close()
        rt = copied(folder, notes)
        with open(TOP + "/gate-cost.log", "w+", encoding="utf-8") as log:
            ran = subprocess.run([sys.executable, rt, "ci", *words], cwd=TOP, stdin=subprocess.DEVNULL, stdout=log, stderr=subprocess.STDOUT)
            log.seek(0)
            last = log.read().rstrip("\n").split("\n")[-1]
        if ran.returncode == 0:
            library = early.kit()
            library.rtlib.RATTLE = folder + "/rattle"
            print("%d of %d must-fail edits were refused" % edits.run(library, []))
        with open(notes, encoding="utf-8") as file:
            total, most = table(file)
    took = (time.time() - begun) / 60
    print("%.0f minutes of processor time, %.0f minutes on %d processors, at most %d MB in one check" % (total / 60, took, os.cpu_count(), most))
    print(last)
    return ran.returncode


if __name__ == "__main__":
    sys.exit(main())
