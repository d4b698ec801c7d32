#!/usr/bin/env python3
"""Plants the bugs of `tools/bugs` into unproved programs, and prints what finds each, and after how long.

    tools/planted.py [--suite FOLDER] [--jobs N] [WORD]     those whose title or file holds WORD (all), N at a time (1)

A bug is made in a copy of the repository, by itself. These are run until one of them tells: tools/conformance.py, with the suite of FOLDER
if one is given; tools/differential.py, with one seed after another, for five minutes; and tools/fuzz.py, for the rest of ten minutes. In
their place a bug may name a test of a crate, or the tool that finds it. Last comes the program without a bug, on which each is run once,
and none may tell. It wants what the tools want. What they run is built before (`tools/unproved.py`), a minute or two each. Times are those
of the processor, so they do not depend on what else it does.

Bugs that name a row, or a run of `test_runs`, are planted together, as none comes to where another is. Each is found if that row, or run,
does not hold.

Ends with status 1 unless each bug is found within ten minutes.
"""
import concurrent.futures
import difflib
import itertools
import os
import subprocess
import sys
import tempfile

import fuzz
import planting
import unproved
from unproved import TOP

# The seconds for all tools, and those after which tools/fuzz.py takes over from tools/differential.py.
MOST, HALF = 600, 300
TEXTS, FUZZED = 500, 20


def bugs():
    """The bugs, each a dictionary of its fields."""
    return planting.listed("bugs")


def built(crate, folder):
    """Builds the program of a crate, or its tests, in a folder, where it leaves the module."""
    made = "%s/%s" % (folder, crate)
    if not os.path.exists(made):
        unproved.module(crate, made + ".bc", top=unproved.TOP)
        unproved.compiled(made + ".bc", made + ".o", ["-O1"])
        unproved.linked([made + ".o"], made)
    return made


def script(name, *words):
    """The command that runs another tool."""
    return [sys.executable, TOP + "/tools/" + name, *words]


def test(words, folder):
    """A test, as one of the tools: its crate, and its name there."""
    crate, name = words.split()
    return name, lambda: built(crate, folder), [[folder + "/" + crate, name]], MOST


def tools(folder, suite):
    """For each tool in turn, how what it runs is built, its commands, and the second at which no more of them is begun."""
    differential = (script("differential.py", "--in", folder, str(TEXTS), str(seed)) for seed in itertools.count(1))
    fuzzing = itertools.repeat(script("fuzz.py", "--keep", folder, str(FUZZED), "print", "exact", "set"))
    yield "conformance", lambda: built("test_tools", folder), [script("conformance.py", "--in", folder, *suite)], MOST
    yield "differential", lambda: built("tomled", folder), differential, HALF
    yield "fuzz", lambda: fuzz.build(folder), fuzzing, MOST


def spent():
    """The seconds of the processor that all commands have taken so far."""
    times = os.times()
    return times.children_user + times.children_system


def finder(asked, is_once):
    """The first of the tools that tells, with the seconds until then, and what it said."""
    seconds = 0
    for tool, build, commands, until in asked:
        build()
        for command in commands:
            if seconds > until:
                break
            begun = spent()
            ran = subprocess.run(command, stdin=subprocess.DEVNULL, stdout=subprocess.PIPE, stderr=subprocess.STDOUT, text=True, errors="replace")
            seconds += spent() - begun
            if ran.returncode:
                return tool, seconds, ran.stdout.strip()
            if is_once:
                break
    return None, seconds, ""


def by_tool(name, folder):
    """A tool that a bug names, as one of the tools."""
    return name, lambda: built("tomlfile", folder), [script(name + ".py", "--in", folder)], MOST


def wrong_lines(crate, folder):
    """The rows that do not hold, or the lines of runs that are others."""
    where = unproved.TOP + "/crates/" + crate
    with open(where + "/stdin", encoding="utf-8") as rows, open(where + "/stdout", encoding="utf-8") as wanted:
        runs_in = where + "/data" if os.path.isdir(where + "/data") else where
        ran = subprocess.run([built(crate, folder)], stdin=rows, stdout=subprocess.PIPE, text=True, errors="replace", cwd=runs_in)
        return [line[1:] for line in difflib.unified_diff(wanted.read().split("\n"), ran.stdout.split("\n"), n=0, lineterm="")]


def tried(task):
    """For each bug, or for none, what tells of it, after how many seconds, and what that says."""
    planted, suite = task
    with tempfile.TemporaryDirectory() as copy, tempfile.TemporaryDirectory() as folder:
        planting.copied(copy, planted)
        unproved.TOP = copy
        if not planted:
            named = [test(words, folder) for words in sorted({known["test"] for known in bugs() if "test" in known})]
            named += [by_tool(name, folder) for name in sorted({known["tool"] for known in bugs() if "tool" in known})]
            return [finder([*tools(folder, suite), *named], True)]
        if "row" in planted[0]:
            rows = [bug["row"].split(" ", 1) for bug in planted]
            wrong = {crate: wrong_lines(crate, folder) for crate in sorted({crate for crate, _ in rows})}
            return [(crate if any(text in line for line in wrong[crate]) else None, 0, "") for crate, text in rows]
        bug = planted[0]
        asked = [test(bug["test"], folder)] if "test" in bug else [by_tool(bug["tool"], folder)] if "tool" in bug else tools(folder, suite)
        return [finder(asked, False)]


def main():
    words, suite, jobs = sys.argv[1:], [], 1
    if words[:1] == ["--help"]:
        return print(__doc__.strip())
    if words[:1] == ["--suite"] and words[1:]:
        suite, words = [words[1]], words[2:]
    if words[:1] == ["--jobs"] and words[1:]:
        jobs, words = int(words[1]), words[2:]
    asked = [bug for bug in bugs() if not words or words[0] in bug["title"] or words[0] in bug["file"]]
    by_row = [bug for bug in asked if "row" in bug]
    groups, found = [*([bug] for bug in asked if "row" not in bug), *([by_row] if by_row else []), []], 0
    with concurrent.futures.ProcessPoolExecutor(jobs) as pool:
        for planted, ends in zip(groups, pool.map(tried, [(group, suite) for group in groups])):
            for bug, (tool, seconds, said) in zip(planted or [None], ends):
                if not bug and tool:
                    sys.exit("%s tells of the program without a bug:\n%s" % (tool, said))
                found += bool(bug and tool and seconds < MOST)
                how = "found by %s after %.0f s" % (tool, seconds) if tool else "NOT FOUND in %.0f s" % seconds
                print("%s: %s" % ("%s (%s)" % (bug["title"], bug["file"].split("/")[0]) if bug else "no bug", how), flush=True)
    print("%d of %d bugs were found" % (found, len(asked)))
    return 0 if found == len(asked) else 1


if __name__ == "__main__":
    sys.exit(main())
