#!/usr/bin/env python3
"""Tries all rows, each with each of its allocations refused in turn, and prints how the runs ended.

    tools/refusals.py [--in FOLDER | --unproved] [STEP [WORD]]

It takes the rows of `stdin` of each of the three programs, of the generated ones at the end of the first each STEP-th (4), and of all these
the ones that hold WORD. The programs are the proved ones, after `rt run < stdin` in the folder of each, or those in FOLDER, or built by
`--unproved`, which takes some three minutes. It wants a C compiler too, by which it puts a counting `malloc` and `realloc` before those of
the C library.

A row is well where each run with a refused allocation ends with status 2 and writes no row as one that doesn't hold, or holds all the same.
The programs judge what a refused call leaves. They write the row if the call has changed what it was asked of, has given something else
back, or has told what is no beginning of its answer; and of rows that run `tomled`, if that ended otherwise than with status 3, its line and
no output.

A row with the step `take_no_memory` is run once more with every allocation behind that step refused. It has to hold then.

Of a row with steps that has more than 6,000 characters, only each 17th allocation is refused.
"""
import collections, multiprocessing, os, re, subprocess, sys, tempfile

import unproved

TOP = os.path.dirname(os.path.dirname(os.path.abspath(__file__)))
PROGRAMS = ["test_rows", "test_rows_tables", "test_rows_values"]
GENERATED = 500
STEP_WITHOUT = "take_no_memory"
LONG, EACH = 6000, 17
# The library is loaded before the program. It forks it for each run before `main`, so a run costs no start of a program.
COUNTING = r"""
#define _GNU_SOURCE
#include <dlfcn.h>
#include <fcntl.h>
#include <stdio.h>
#include <stdlib.h>
#include <sys/wait.h>
#include <unistd.h>
/* The number of the request to refuse; less than 0, a size: all requests behind the first of that size are refused. */
static long wanted;
static long calls, refused, is_over;
static int to;
static int refuses(size_t size) {
  if (is_over) return refused = 1;
  if (wanted < 0) return is_over = size == (size_t) -wanted, 0;
  return ++calls == wanted ? refused = 1 : 0;
}
void *malloc(size_t size) {
  static void *(*next)(size_t); if (!next) next = dlsym(RTLD_NEXT, "malloc"); return refuses(size) ? 0 : next(size);
}
void *realloc(void *old, size_t size) {
  static void *(*next)(void *, size_t); if (!next) next = dlsym(RTLD_NEXT, "realloc"); return refuses(size) ? 0 : next(old, size);
}
__attribute__((destructor)) static void tell(void) {
  long told[2] = {is_over, refused}; if (to && write(to, told, sizeof told) < 0) _exit(9);
}
static void begin(long at, int out, int told) {
  int row = open(getenv("ROW"), O_RDONLY);
  if (row < 0 || dup2(row, 0) < 0 || dup2(out, 1) < 0) _exit(9);
  alarm(60); to = told; calls = 0; wanted = at;
}
__attribute__((constructor)) static void run_each(void) {
  static char text[1 << 20];
  for (long at = atol(getenv("FIRST")); ; at = at < 0 ? 1 : at + atol(getenv("EACH"))) {
    int out[2], told[2], status; long seen[2] = {0, 0}; ssize_t size = 0, more;
    if (pipe(out) || pipe(told)) _exit(9);
    pid_t child = fork();
    if (!child) { begin(at, out[1], told[1]); return; }
    close(out[1]); close(told[1]);
    while ((more = read(out[0], text + size, sizeof text - size)) > 0) size += more;
    if (child < 0 || waitpid(child, &status, 0) < 0) _exit(9);
    int ended = WIFEXITED(status) && read(told[0], seen, sizeof seen) == sizeof seen;
    close(out[0]); close(told[0]);
    dprintf(1, "%ld %d %ld %ld %zd\n", at, ended ? WEXITSTATUS(status) : -1, seen[0], seen[1], size);
    if (write(1, text, size) != size || (ended && at > 0 && !seen[1])) _exit(0);
  }
}
"""
# The room that an answer makes at that step: `ROOM` of `crates/test_rows_read/src/answer.rt`.
ROOM = 77777


def runs(program, row, library):
    """Each run of a row: which allocation is refused, its status, whether the room was made, whether anything was refused, its output."""
    with tempfile.NamedTemporaryFile() as file:
        file.write(row.encode() + b"\n")
        file.flush()
        first, each = -ROOM if STEP_WITHOUT in row else 1, EACH if len(row) > LONG and '"steps"' in row else 1
        given = {"LD_PRELOAD": library, "ROW": file.name, "FIRST": str(first), "EACH": str(each)}
        told = subprocess.run([program], stdin=subprocess.DEVNULL, capture_output=True, env=given).stdout
    place = 0
    while place < len(told):
        line = told.index(b"\n", place)
        at, status, is_over, is_refused, size = map(int, told[place:line].split())
        place = line + 1 + size
        yield at, status, is_over, is_refused, told[line + 1 : place].decode(errors="replace")


def end_of(at, status, is_over, is_refused, wrote):
    """How a run ended, if it ended well."""
    if at < 0:
        return "every allocation refused" if is_over and status == 0 and wrote == "1 rows hold\n" else "wrong"
    if status in (0, 2) and re.fullmatch(r"\d*( rows hold\n)?", wrote):
        return "status 2" if status else "same answer"
    return "wrong"


def sweep(task):
    """How the runs of a row ended, counted, and the first that ended wrongly."""
    program, row, library = task
    ends, wrong, is_done = collections.Counter(), None, False
    for at, status, is_over, is_refused, wrote in runs(program, row, library):
        is_done = at > 0 and status == 0 and not is_refused
        if not is_done:
            end = end_of(at, status, is_over, is_refused, wrote)
            ends[end] += 1
            if end == "wrong":
                wrong = wrong or (row, at, status, wrote)
    if not is_done:
        ends["wrong"] += 1
        wrong = wrong or (row, 0, -1, "the row doesn't hold with all its memory")
    return ends, wrong


def rows_of(program, step):
    """The rows that the program tries, of the generated ones each `step`-th."""
    with open(TOP + "/crates/%s/stdin" % program, encoding="utf-8") as file:
        rows = [line for line in file.read().split("\n") if line and not line.startswith("#")]
    return rows[:-GENERATED] + rows[-GENERATED::step] if program == PROGRAMS[0] else rows


def main():
    words = sys.argv[1:]
    if words[:1] == ["--help"]:
        return print(__doc__.strip())
    with tempfile.TemporaryDirectory() as folder:
        programs, words = unproved.programs(PROGRAMS, words, folder)
        step, word = int(words[0]) if words else 4, words[1] if words[1:] else ""
        tasks = [(program, row) for program in programs for row in rows_of(os.path.basename(program), step) if word in row]
        library = folder + "/counting.so"
        linking = ["cc", "-O2", "-shared", "-fPIC", "-x", "c", "-", "-o", library, "-ldl"]
        subprocess.run(linking, input=COUNTING.encode(), check=True)
        total = collections.Counter()
        with multiprocessing.Pool() as pool:
            for ends, wrong in pool.imap_unordered(sweep, [task + (library,) for task in tasks], chunksize=4):
                total += ends
                if wrong:
                    print("wrong: allocation %s, status %d, wrote %r: %s" % (wrong[1], wrong[2], wrong[3], wrong[0]))
    print("%d rows, %d runs with a refused allocation: %s" % (len(tasks), sum(total.values()), dict(total)))
    return 1 if total["wrong"] else 0


if __name__ == "__main__":
    sys.exit(main())
