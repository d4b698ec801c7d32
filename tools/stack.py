#!/usr/bin/env python3
"""Measures the stack that the library, `tomled` and `tomlfile` take: the least limit under which a run is not ended by a signal.

    tools/stack.py [--in FOLDER | --unproved]

The programs are the proved ones, after `rt run < stdin` in the folder of each, or those in FOLDER, or built by `--unproved` as
`tools/unproved.py --marks` does. `test_stack` makes one call of the library. Each document has a line with the most stack that each command
took, in KB: a usual document, and those at the limits of depth, 80 keys in a path and 80 open brackets. The last ones have inline tables in
inline tables, each at a path of 80 keys: 6,400 levels, at the root and in an array of tables. These are measured with all commands, and a
text that is refused after such a value too.

It ends with status 1 if a run fails, or if one takes more than 1,024 KB, but for `{:?}`, which is derived. `bindings/c/stack.c` measures the
library for C.
"""
import resource
import subprocess
import sys
import tempfile

import sources
import unproved

LIMIT, MOST = 80, 1024
# The most that is tried, and how exactly it is measured, in KB.
HIGHEST, STEP = 65536, 16
# The call whose stack has no limit, since it is derived.
DERIVED = "debug"
PATH = ".".join("k%d" % number for number in range(LIMIT))
# A value at both limits, and the same at a path of 80 keys.
DEEP = "".join("{ %s = " % PATH for _ in range(LIMIT)) + "1" + " }" * LIMIT
LINE = "%s = %s\n" % ("a" + PATH[2:], DEEP)
WIDE = "x = 1\nl = [1]\n"


def documents():
    """Documents by name."""
    return {
        "usual": sources.read(unproved.TOP + "/crates/example/stdin"),
        "empty": "",
        "arrays": "a = " + "[" * LIMIT + "]" * LIMIT + "\n",
        "inline tables": "a = " + "{ b = " * LIMIT + "1" + " }" * LIMIT + "\n",
        "dotted keys": PATH + " = 1\n",
        "headers": "".join("[%s]\n" % ".".join(PATH.split(".")[:depth]) for depth in range(1, LIMIT + 1)),
        "elements": "".join("[[%s]]\n" % ".".join(PATH.split(".")[:depth]) for depth in range(1, LIMIT + 1)),
        "both": "[[%s]]\n" % PATH + LINE,
    }


# What each document is measured with.
COMMANDS = (("tomled", ["print"]), ("tomled", ["set", "new", "1"]), ("tomlfile", ["check", "-"]), ("tomlfile", ["edit", "-", "set", "new", "1"]))
CALLS = (
    "parse", "clone", "detach", "debug", "print", "display", "fits", "first_misfit", "get_values", "sort_values", "fmt", "forget_positions",
    "make_value", "into_inline_table", "into_item", "format", "visit", "same")
EDITS = (
    ["set", "new", "1"], ["set", "a", "1"], ["string", "new", "s"], ["remove", "a"], ["rename", "a", "b"], ["move", "a", "b"],
    ["comment", "x", "c"], ["sort", ""], ["header", "n.m", "1"], ["append", "l", "2"], ["insert", "l.0", "2"], ["take", "l", "1"],
    # These get the deep value as their operand.
    ["set", "new", DEEP], ["header", "n.m", DEEP], ["append", "l", DEEP], ["take", "l", DEEP])


def commands_at_limits():
    """The commands for documents at both limits, each with the status that is wanted, or None for any but a signal."""
    yield from (("test_stack", [call], 0) for call in CALLS)
    yield from (("tomled", words, None) for words in (["get", "a"], ["get", "none"], ["remove", "a"], ["set", "a", "1"], ["set", "new", DEEP]))
    yield from (("tomlfile", [word, "-", *rest], None) for word, *rest in (
        ["check"], ["json"], ["json", "a"], ["keys"], ["keys", "a"], ["get", "a"], ["get", "none"], ["has", "a"], ["fmt"], ["fmt", "--sort", "a"]))
    yield from (("tomlfile", ["edit", "-", *edit], None) for edit in EDITS)


def limits():
    """Documents at both limits, by name. The value is at the root, in an array of tables, and before what is refused."""
    return {"at the root": WIDE + LINE, "in [[a]]": WIDE + "[[a]]\n" + LINE, "in [a]": WIDE + "[a]\n" + LINE}


def status_under(kilobytes, program, words, text):
    """The status of a run whose stack may grow to so much."""
    def limit():
        resource.setrlimit(resource.RLIMIT_STACK, (kilobytes * 1024, kilobytes * 1024))
    how = {"input": text.encode(), "stdout": subprocess.DEVNULL, "stderr": subprocess.DEVNULL}
    return subprocess.run([program, *words], preexec_fn=limit, check=False, **how).returncode


def stack_of(program, words, text):
    """The status of a run and the least KB of stack that it needs, to 16 KB."""
    low, high = 0, 2 * MOST
    while (status := status_under(high, program, words, text)) < 0 and high < HIGHEST:
        low, high = high, 2 * high
    # Words take a part of the stack before the program runs.
    low = max(low, 4 * sum(map(len, words)) // 1024)
    while status >= 0 and high - low > STEP:
        middle = (low + high) // 2
        low, high = (middle, high) if status_under(middle, program, words, text) < 0 else (low, middle)
    return status, high


class Tally:
    """The most that was measured, and how many runs were wrong."""

    def __init__(self, programs):
        self.programs, self.most, self.faults, self.runs = programs, 0, 0, 0

    def measure(self, name, program, words, text, wanted):
        status, stack = stack_of(self.programs[program], words, text)
        ends = status >= 0 if wanted is None else status == wanted
        limited = words[0] != DERIVED
        if not ends or limited and stack > MOST:
            self.faults += 1
            print("%s: %s %s: status %d, %d KB" % (name, program, " ".join(word[:20] for word in words), status, stack))
        self.most, self.runs = max(self.most, stack) if limited else self.most, self.runs + 1
        return stack


def print_documents(tally):
    print("%-14s%s" % ("", "".join("%16s" % " ".join([name, words[0]]) for name, words in COMMANDS)))
    for name, text in documents().items():
        stacks = [tally.measure(name, program, words, text, 0) for program, words in COMMANDS]
        print("%-14s%s" % (name, "".join("%16d" % stack for stack in stacks)), flush=True)


def print_limits(tally):
    texts = limits()
    print("\n%-40s%s" % ("", "".join("%14s" % name for name in texts)))
    for program, words, wanted in commands_at_limits():
        stacks = [tally.measure(name, program, words, text, wanted) for name, text in texts.items()]
        shown = " ".join([program] + [word[:12] for word in words])
        print("%-40s%s" % (shown, "".join("%14d" % stack for stack in stacks)), flush=True)
    for program, words in (("tomled", ["print"]), ("tomlfile", ["check", "-"])):
        stacks = [tally.measure("refused", program, words, text + "= 1\n", 1) for text in texts.values()]
        print("%-40s%s" % (program + " of a refused text", "".join("%14d" % stack for stack in stacks)), flush=True)


def main():
    if sys.argv[1:] == ["--help"]:
        return print(__doc__.strip())
    names = ["tomled", "tomlfile", "test_stack"]
    with tempfile.TemporaryDirectory() as folder:
        found, _ = unproved.programs(names, sys.argv[1:], folder, ["--marks"])
        tally = Tally(dict(zip(names, found)))
        print_documents(tally)
        print_limits(tally)
    print("%d runs; at most %d KB; %d faults" % (tally.runs, tally.most, tally.faults))
    return 1 if tally.faults else 0


if __name__ == "__main__":
    sys.exit(main())
