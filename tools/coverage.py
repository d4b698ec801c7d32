#!/usr/bin/env python3
"""Prints the functions of the library that neither the rows nor the tests enter, and how many of the blocks they enter.

    tools/coverage.py [--blocks] [FOLDER]

It builds the programs of rows and the tests of each crate unproved and unoptimized (`tools/unproved.py`), so that clang counts each block
of each function, and runs them, as many at a time as `RT_JOBS` says (one for each processor). FOLDER keeps what is built, a minute each,
for the next run on the same sources. It wants the kit and a C compiler.

A function is entered if any instance of it is. Destructors that are derived, and closures, are no functions here. `--blocks` lists for each
function how many of its blocks are entered in the instance with the most. Most others are there for memory that runs out, which
`tools/refusals.py` tries.

`REASONS` says why a function need not be entered. Ends with status 1 if one has no reason, or a reason has no function.
"""
import bisect
import concurrent.futures
import fnmatch
import os
import re
import subprocess
import sys
import tempfile

import sources
import unproved
from sources import TOP

ROWS = ("test_rows", "test_rows_tables", "test_rows_values")
COUNTED = ["-O0", "-fsanitize-coverage=bb,inline-8bit-counters,pc-table"]
# Adds what was counted to a file, and writes once where the blocks are, and which begin a function.
COUNTING = r"""
#define _GNU_SOURCE
#include <fcntl.h>
#include <stdint.h>
#include <stdlib.h>
#include <sys/mman.h>
#include <unistd.h>
extern const char __ehdr_start[];
static uint8_t *first, *last;
static const uintptr_t *blocks;
void __sanitizer_cov_8bit_counters_init(uint8_t *from, uint8_t *to) { first = from; last = to; }
void __sanitizer_cov_pcs_init(const uintptr_t *from, const uintptr_t *to) { (void) to; blocks = from; }
__attribute__((destructor)) static void tell(void) {
  long count = last - first;
  int made = open(getenv("BLOCKS"), O_WRONLY | O_CREAT | O_EXCL, 0666);
  for (long i = 0; made >= 0 && i < count; i++) {
    uint64_t block[2] = {blocks[2 * i] - (uintptr_t) __ehdr_start, blocks[2 * i + 1]};
    if (write(made, block, sizeof block) < 0) _exit(9);
  }
  int file = open(getenv("COUNTS"), O_RDWR | O_CREAT, 0666);
  if (file < 0 || ftruncate(file, count)) _exit(9);
  uint8_t *kept = mmap(0, count, PROT_READ | PROT_WRITE, MAP_SHARED, file, 0);
  if (kept == MAP_FAILED) _exit(9);
  for (long i = 0; i < count; i++) if (first[i]) kept[i] = 1;
}
"""
LAW, REFUSED = "a law: only its contract is used", "memory runs out: tools/refusals.py enters it"
# Why a function is not entered, by its path.
REASONS = {
    "toml_edit_model::definitions": LAW,
    "toml_edit_laws::*": LAW,
    "toml_edit_edit_laws::*": LAW,
    "toml_edit_fmt_laws::*": LAW,
    "toml_edit_fits::laws::*": LAW,
    "*FaultFrom::from": REFUSED,
    "toml_edit_syntax::StopFrom::from": REFUSED,
    "toml_edit_slots::AllocErrorFrom::from": REFUSED,
    "toml_edit_slots::Slots::refused_key": REFUSED,
    "toml_edit_slots::Slots::refusal": REFUSED,
    "toml_edit_tree::Ref*IntoIterator::into_iter": "it calls `iter`, which is entered",
    "toml_edit_slots::Places::note_itself": "two names with one SipHash, which nobody knows",
    "toml_edit_parser::fault::malformed": "events that the lexer never makes",
}


def tested():
    """The crates that have tests."""
    def has_tests(crate):
        folder = TOP + "/crates/%s/src" % crate
        return any("#[test]" in sources.read(os.path.join(at, name)) for at, _, names in os.walk(folder) for name in names)
    return [crate for crate in sources.crates() if has_tests(crate)]


def made(crate, counting, folder):
    """Builds the program of a crate, which counts, unless the folder has it."""
    program = folder + "/" + crate
    if not os.path.exists(program):
        if not os.path.exists(program + ".bc"):
            unproved.module(crate, program + ".bc")
        unproved.compiled(program + ".bc", program + ".o", COUNTED)
        unproved.linked([program + ".o", counting], program)
    return program


def run(crate, program):
    """Runs all rows of a program of rows, or all tests."""
    given = {"BLOCKS": program + ".blocks", "COUNTS": program + ".counts", "PATH": os.environ["PATH"]}
    for file in (given["BLOCKS"], given["COUNTS"]):
        if os.path.exists(file):
            os.remove(file)
    words = [program] if crate in ROWS else [unproved.kit().KIT + "/bin/rattle-test", "--seconds", "1200", program]
    with open(TOP + "/crates/%s/stdin" % crate if crate in ROWS else os.devnull, "rb") as rows:
        ran = subprocess.run(words, stdin=rows, capture_output=True, text=True, errors="replace", env=given)
    if ran.returncode or not os.path.exists(given["COUNTS"]):
        sys.exit("%s does not pass:\n%s%s" % (crate, ran.stdout[-2000:], ran.stderr[-2000:]))


def blocks_of(program):
    """For each function of the program, by its path, the blocks of each instance: whether they were entered."""
    listed = subprocess.run(["nm", "-n", program], capture_output=True, text=True, check=True).stdout
    symbols = [(int(line[:16], 16), line[19:]) for line in listed.split("\n") if line[17:18] in ("t", "T")]
    starts, found = [at for at, _ in symbols], {}
    with open(program + ".blocks", "rb") as blocks, open(program + ".counts", "rb") as counts:
        places, counts = memoryview(blocks.read()).cast("Q"), counts.read()
    for number, count in enumerate(counts):
        at = bisect.bisect_right(starts, places[2 * number]) - 1
        path = re.sub(r"::<.*", "", symbols[at][1])
        found.setdefault(path, {}).setdefault(at, []).append(count > 0)
    return {path: list(instances.values()) for path, instances in found.items()}


def functions():
    """The functions of the library that have a body: their paths as the compiler writes them, and where they stand."""
    library = sources.Library([name for name in sources.crates() if name.startswith("toml_edit")])
    found = {}
    for module in library.modules():
        if module.crate in sources.libraries("toml_edit_command"):
            path = "::".join((module.crate,) + module.path)
            for item in module.items:
                if item.kind == "fn":
                    found[path + "::" + item.name] = item
                for member in item.members:
                    if member.kind == "fn" and not member.lines[-1].endswith(";"):
                        found["%s::%s::%s" % (module.crate, owner(item), member.name)] = member
    return found


def short(path):
    """The path of a method without its module, which is that of its type. A function keeps its path, and so does a closure."""
    drops = re.match(r"\w+::(\w+)\+\+.*?(\w+)\+Destruct::drop", path)
    if drops:
        return "%s::%sDrop::drop" % drops.groups()
    parts = path.split("::")
    return "::".join(parts[:1] + parts[-2:]) if len(parts) > 2 and parts[-2][:1].isupper() else path


def found_of(path, entered):
    """The blocks of each instance of a function. The compiler's name of an impl ends with the arguments of its trait."""
    crate, *rest = path.split("::")
    if path in entered or len(rest) != 2:
        return entered.get(path, [])
    return [blocks for other, instances in entered.items() for blocks in instances
            if other.startswith("%s::%s" % (crate, rest[0])) and other.endswith("::" + rest[1]) and other.count("::") == 2]


def owner(item):
    """How the compiler names an impl or a trait: by the type, and after it the trait, but for `Drop`."""
    if item.kind == "trait":
        return item.name
    head = re.sub(r"\s+", " ", " ".join(item.head))
    head = re.sub(r"^impl ?", "", re.sub(r" where .*", "", head))
    head = head[closing(head):] if head.startswith("<") else head
    of, _, type_name = head.rpartition(" for ")
    named = last_name(type_name)
    named = ("Ref" if type_name.startswith("&") and not type_name.startswith("&mut") else "") + named[:1].upper() + named[1:]
    return named + (last_name(of) if of and last_name(of) != "Drop" else "")


def closing(text):
    """The place after the bracket that closes the first one."""
    depth = 0
    for at, letter in enumerate(text):
        depth += (letter == "<") - (letter == ">")
        if depth == 0:
            return at + 1
    return len(text)


def last_name(text):
    """The name of a type or a trait, without its path and its arguments."""
    return re.sub(r"<.*", "", re.sub(r"&('\w+ )?(mut )?", "", text.strip())).strip().split("::")[-1]


def main():
    words = [word for word in sys.argv[1:] if word != "--blocks"]
    if words[:1] == ["--help"]:
        return print(__doc__.strip())
    with tempfile.TemporaryDirectory() as folder:
        counting, folder = folder + "/counting.o", os.path.abspath(words[0]) if words else folder
        os.makedirs(folder, exist_ok=True)
        subprocess.run(["cc", "-O2", "-fPIE", "-c", "-x", "c", "-", "-o", counting], input=COUNTING.encode(), check=True)
        crates = [*ROWS, *tested()]
        with concurrent.futures.ThreadPoolExecutor(int(os.environ.get("RT_JOBS") or os.cpu_count())) as pool:
            programs = list(pool.map(lambda crate: made(crate, counting, folder), crates))
            list(pool.map(run, crates, programs))
        entered = {}
        for program in programs:
            for path, instances in blocks_of(program).items():
                entered.setdefault(short(path), []).extend(instances)
    return report(entered, crates, "--blocks" in sys.argv)


def report(entered, crates, shows_blocks):
    """Prints what is not entered."""
    known = functions()
    blocks_of_each = {path: found_of(path, entered) for path in known}
    missed = [path for path, instances in blocks_of_each.items() if not any(map(any, instances))]
    best = {path: max(map(sum, instances)) for path, instances in blocks_of_each.items() if instances}
    total = {path: max(map(len, blocks_of_each[path])) for path in best}
    for path in sorted(best) if shows_blocks else []:
        if 0 < best[path] < total[path]:
            print("%s: %d of %d blocks" % (path, best[path], total[path]))
    used, count = set(), 0
    for path in missed:
        reasons = [pattern for pattern in REASONS if fnmatch.fnmatchcase(path, pattern)]
        used.update(reasons)
        if not reasons:
            print("%s:%d: %s is never entered" % (known[path].file, known[path].line, path))
            count += 1
    for pattern in sorted(set(REASONS) - used):
        print("all functions %s are entered" % pattern)
        count += 1
    print("%s: %d of %d functions of the library entered, %d others with a reason, %d without; %d of %d blocks of the first" % (
        ", ".join(crates), len(known) - len(missed), len(known), len(missed) - count, count, sum(best.values()), sum(total.values())))
    return 1 if count else 0


if __name__ == "__main__":
    sys.exit(main())
