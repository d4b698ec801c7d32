#!/usr/bin/env python3
"""Counts instructions and memory of `tomlfile`, where no answer tells what is wrong.

    tools/counts.py [--in FOLDER | --unproved]

- Chosen keys: names of one hash reach the trees of an index, ordinary ones don't, and with twice as many a byte takes no more instructions.
- Names that are gone: they leave nothing in the trees. So once some were set and removed, a table holds no more for twice as many.
- Room: of the memory that the kinds of documents of `bench/run.py` take, at most half as much again is never written, and at most as much
  is copied to larger blocks; in large tables, whose room is reserved, much less.

The program is the proved one, after `rt run < stdin` in crates/tomlfile, or that in FOLDER, or built by `--unproved`. It wants valgrind and
a C compiler: memory is counted by a library that is loaded before libc. Ends with status 1 if a count is too high.
"""
import os
import re
import subprocess
import sys
import tempfile

import unproved
from unproved import TOP

sys.path.insert(0, TOP + "/bench")
import collisions  # noqa: E402
import run as bench  # noqa: E402

# Counts the bytes that are live at the end, the most that were, those at the last allocation, those that were asked for, those at the ends
# of blocks that were never written, and those that were copied to larger blocks.
COUNTING = r"""
#define _GNU_SOURCE
#include <dlfcn.h>
#include <malloc.h>
#include <stdio.h>
#include <string.h>
#define FILL 0xA7
static size_t live, most, last, asked, unused, moved;
static void *(*next_malloc)(size_t), *(*next_realloc)(void *, size_t), (*next_free)(void *);
static void find(void) {
  next_malloc = dlsym(RTLD_NEXT, "malloc"); next_realloc = dlsym(RTLD_NEXT, "realloc"); next_free = dlsym(RTLD_NEXT, "free");
}
static size_t unwritten(unsigned char *block) {
  size_t end = malloc_usable_size(block), size = end;
  while (end && block[end - 1] == FILL) end--;
  return size - end;
}
static void *taken(void *block, size_t before) {
  size_t size = block ? malloc_usable_size(block) : 0;
  if (size > before) { memset((char *) block + before, FILL, size - before); asked += size - before; }
  live += size; last = live;
  if (live > most) most = live;
  return block;
}
void *malloc(size_t size) { if (!next_malloc) find(); return taken(next_malloc(size), 0); }
void free(void *block) {
  if (!next_free) find();
  if (block) { live -= malloc_usable_size(block); unused += unwritten(block); }
  next_free(block);
}
void *realloc(void *old, size_t size) {
  if (!old) return malloc(size);
  if (!next_realloc) find();
  size_t before = malloc_usable_size(old), written = before - unwritten(old);
  void *block = next_realloc(old, size);
  if (!block) return 0;
  if (block != old) moved += written;
  live -= before;
  return taken(block, before);
}
__attribute__((destructor)) static void tell(void) {
  fprintf(stderr, "\n%zu %zu %zu %zu %zu %zu", live, most, last, asked, unused, moved);
}
"""
NAMES = ("live", "most", "last", "asked", "unused", "moved")
CHECK, SIZE = ("check", "-"), 256 * 1024
COUNTS, LENGTH, CYCLES = (2000, 4000), 32, (500, 1000)
MOST_UNUSED, MOST_MOVED = 0.5, 1.0
# Kinds of documents whose room is counted in the text, with the most that is copied.
RESERVED = {"one large table": 0.2, "many root keys": 0.2, "tables of 97 keys": 0.2, "many elements": 0.2}


def library(folder):
    """Compiles the library, and returns its file."""
    made = folder + "/counting.so"
    subprocess.run(["cc", "-O1", "-shared", "-fPIC", "-x", "c", "-", "-o", made, "-ldl"], input=COUNTING.encode(), check=True)
    return made


def memory(counting, command, text):
    """What a run counts, and what it writes."""
    ran = subprocess.run(command, input=text.encode(), capture_output=True, env=dict(os.environ, LD_PRELOAD=counting))
    if ran.returncode:
        sys.exit("%s: status %d: %s" % (" ".join(command)[:80], ran.returncode, ran.stderr.decode()))
    return dict(zip(NAMES, map(int, ran.stderr.split()[-len(NAMES):]))), ran.stdout.decode()


def names_of(make, count):
    return [name.decode() for name in make(count, LENGTH)]


def chosen_keys(program):
    """The trees are reached by chosen keys alone, and what a byte takes does not grow."""
    reached, taken = {}, []
    for make in (collisions.ordinary, collisions.colliding):
        for count in COUNTS:
            text = collisions.lines(names_of(make, count))
            said, wrote = bench.valgrind(program, text, "callgrind", False, (CHECK, 0))
            reached[make] = "toml_edit_slots::places::Places::add" in wrote
            taken.append(int(re.search(r"Collected : (\d+)", said)[1]) / len(text))
    growth = taken[3] / taken[2]
    yield "trees are reached by chosen keys: %s, by others: %s" % (reached[collisions.colliding], reached[collisions.ordinary]), (
        reached[collisions.colliding] and not reached[collisions.ordinary])
    yield "twice as many chosen keys: %.3f of the instructions a byte, %.2f beside others" % (growth, taken[3] / taken[1]), (
        growth <= collisions.MOST_GROWTH and taken[3] / taken[1] <= collisions.MOST_BESIDE)


def gone_names(program, counting, folder):
    """Tables with trees hold no more beside others, once twice as many names are gone."""
    held = []
    for cycles in CYCLES:
        last = []
        for make in (collisions.ordinary, collisions.colliding):
            names = names_of(make, 200 + 2 * cycles)
            pairs = zip(names[200::2], names[201::2])
            with open(folder + "/edits", "w", encoding="utf-8") as file:
                file.write("".join("set %s 1\nset %s 1\nremove %s\nremove %s\n" % (one, other, one, other) for one, other in pairs))
            counted, _ = memory(counting, [program, "edit", "-", "--script", folder + "/edits"], collisions.lines(names[:200]))
            last.append(counted["last"])
        held.append(last[1] - last[0])
    yield "%d names that are gone hold %d bytes more than %d" % (2 * CYCLES[1], held[1] - held[0], 2 * CYCLES[0]), held[1] - held[0] < 2000


def room(program, counting):
    """Of each kind of document, what is reserved and not used, and what is copied, for each byte that is used."""
    for name, make in bench.KINDS:
        counted, _ = memory(counting, [program, *CHECK], make(SIZE))
        used = counted["asked"] - counted["unused"]
        unused, moved = counted["unused"] / used, counted["moved"] / used
        yield "%s: %.2f not used, %.2f copied" % (name, unused, moved), unused <= MOST_UNUSED and moved <= RESERVED.get(name, MOST_MOVED)


def main():
    words = sys.argv[1:]
    if words[:1] == ["--help"]:
        return print(__doc__.strip())
    faults = count = 0
    with tempfile.TemporaryDirectory() as folder:
        (program,), _ = unproved.programs(["tomlfile"], words, folder)
        counting = library(folder)
        for tries in (chosen_keys(program), gone_names(program, counting, folder), room(program, counting)):
            for said, is_well in tries:
                print(said + ("" if is_well else ": TOO MUCH"), flush=True)
                faults, count = faults + (not is_well), count + 1
    print("%d counts, %d faults" % (count, faults))
    return 1 if faults else 0


if __name__ == "__main__":
    sys.exit(main())
