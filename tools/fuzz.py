#!/usr/bin/env python3
"""Fuzzes the library, led by the blocks that are entered, with the sanitizers of addresses and of undefined behaviour.

    tools/fuzz.py [--keep FOLDER] [SECONDS [TARGET..]]     fuzzes each target for so long (60), two processes at a time
    tools/fuzz.py [--keep FOLDER] --replay [TARGET..]      runs the corpus alone
    tools/fuzz.py [--keep FOLDER] --merge TARGET FOLDER..  adds to the corpus the inputs that enter something new

A program is built unproved (`tools/unproved.py`), and runs over and over in one process, with its input and output in memory. FOLDER keeps
what is built, which takes some two minutes each, and what was found. It wants the kit, and Debian's packages `clang` and
`libclang-rt-14-dev`. The targets:

- `print`, `exact`: `tomled print` and `tomled exact print` of the input. It ends with 0 or 1, and what it prints is printed again as it is.
- `set`: `tomled set` with the first line of the input as PATH, the second as VALUE, and the rest as the document. It ends with 0, 1 or
  2. What it writes is accepted, and the print of that is printed as it is.
- `calls`: up to eight calls on one document, as the steps of a row of `test_rows_tables`. The first byte says how many, and each has a byte
  for the call and one for each argument; behind them is the document. Where it fits after the calls, its print is accepted.
- `edit`: `tomlfile edit` by a script. The first line of the input has a letter for each word, `s` for `strict`, `n` for `normal` and `l` for
  `--locked`; the script ends at the first empty line, and the rest is the document. It ends with a status up to 6. What it writes is accepted
  by `check` under the same words, and what no edit makes of that stays where no edit is made.
- `fmt`: `tomlfile fmt`. The first line has such letters, and `k` for `--keys`; the second is the PATH of `--sort`, if it isn't empty; the rest
  is the document. It ends with a status up to 6. What it writes is accepted, and formatted again it is the same. By `normal` or `--sort` it
  also stays where no edit is made. There neither is wanted of a document with `fmt: off`, where keys may stay that others of their table
  do not.

No file is opened: a script is in memory, too, and under any other name nothing is found.

The driver, in C, has `-fsanitize=address,undefined`. What is built of the library is a module of LLVM's, to which `undefined` adds nothing, as
clang puts those checks in where it reads C. So the library has `address` and `local-bounds`, which works on modules, and the checks that the
front end puts into an unproved module: of alignment, divisors, casts, invalid values, overflow, offsets, shifts and places that are never
reached. Each ends the run. Left out is what neither has: null and types behind function pointers.

`fuzz/corpus` has small inputs, each of which enters something that the others do not; `exact` has those of `print`. Ends with status 1 if
an input crashes the program, takes more than a minute by the clock, or breaks what is said above; the input is kept.
"""
import concurrent.futures
import os
import shutil
import subprocess
import sys
import tempfile

import unproved
from unproved import TOP

TARGETS = ("print", "exact", "set", "calls", "edit", "fmt")
CORPUS = {target: "%s/fuzz/corpus/%s" % (TOP, "print" if target == "exact" else target) for target in TARGETS}
PROGRAMS = {"print": "tomled", "exact": "tomled", "set": "tomled", "calls": "test_rows_tables", "edit": "tomlfile", "fmt": "tomlfile"}
PACKAGES = "Debian's packages clang and libclang-rt-14-dev"
WATCHED = ["-O1", "-fsanitize=address,local-bounds", "-fsanitize-coverage=inline-8bit-counters,pc-table,trace-cmp"]
# The program's own calls of these are led to the driver.
LED = {name: "program_" + name for name in ("main", "read", "write", "open", "close")}
DRIVER = r"""
#include <errno.h>
#include <stdint.h>
#include <stdio.h>
#include <stdlib.h>
#include <string.h>
#include <sys/types.h>
int program_main(int count, char **words);

/* The words, the input and the output of a run, and the script that it may open. */
static const char *words[12];
static uint64_t count;
typedef struct { const uint8_t *at; size_t left; } Input;
static Input input, script, opened;
static uint8_t *output;
static size_t size, room;
enum { SCRIPT = 1000 };

int program_open(const char *path, int flags, ...) {
  (void) flags;
  if (!strcmp(path, "script")) { opened = script; return SCRIPT; }
  errno = ENOENT;
  return -1;
}
int program_close(int file) { (void) file; return 0; }
ssize_t program_read(int file, void *to, size_t most) {
  Input *from = file == SCRIPT ? &opened : &input;
  size_t taken = most < from->left ? most : from->left;
  if (taken) { memcpy(to, from->at, taken); from->at += taken; from->left -= taken; }
  return taken;
}
ssize_t program_write(int file, const void *from, size_t more) {
  if (file != 1 || !more) return more;
  if (room < size + more) { room = 2 * (size + more); output = realloc(output, room); }
  memcpy(output + size, from, more); size += more;
  return more;
}
int64_t rattle_arg(uint64_t at, uint8_t *to, uint64_t most) {
  if (at >= count) return -1;
  size_t length = strlen(words[at]);
  if (length > most) return -2;
  if (length) memcpy(to, words[at], length);
  return length;
}

/* The program ends without freeing its document, so what it allocates is noted and freed behind each run. */
#define NOTES (1u << 20)
static void *notes[NOTES];
static size_t place_of(const void *at) {
  size_t place = ((uintptr_t) at >> 4) * 0x9E3779B97F4A7C15u >> 44 & (NOTES - 1);
  while (notes[place] && notes[place] != at) place = (place + 1) & (NOTES - 1);
  return place;
}
static uint32_t *live; static size_t lives, live_room;
typedef struct { uint64_t is_made; void *at; } Made;
static Made noted(void *at, uint64_t align) {
  if (!at) return (Made) {0, (void *) align};
  size_t place = place_of(at);
  notes[place] = at;
  if (lives == live_room) { live_room = 2 * live_room + 64; live = realloc(live, live_room * sizeof *live); }
  live[lives++] = place;
  return (Made) {1, at};
}
static char gone;
static void forget(void *at) { size_t place = place_of(at); if (notes[place] == at) notes[place] = &gone; }
Made rattle_alloc(uint64_t bytes, uint64_t align) { return noted(malloc(bytes ? bytes : align), align); }
Made rattle_realloc(void *old, uint64_t before, uint64_t bytes, uint64_t align) {
  (void) before;
  void *at = realloc(old, bytes ? bytes : align);
  if (at && at != old) { forget(old); return noted(at, align); }
  return (Made) {at != 0, at};
}
void rattle_dealloc(void *at) { forget(at); free(at); }
static void free_all(void) {
  for (size_t i = 0; i < lives; i++) {
    if (notes[live[i]] && notes[live[i]] != &gone) free(notes[live[i]]);
    notes[live[i]] = 0;
  }
  lives = 0;
}

static int run(const uint8_t *text, size_t length) {
  input = (Input) {text, length}; size = 0;
  int status = program_main(0, 0);
  free_all();
  return status;
}
static void wrong(const char *what) { fprintf(stderr, "wrong: %s\n", what); abort(); }

static uint8_t *copied(void) {
  uint8_t *copy = malloc(size + 1);
  if (size) memcpy(copy, output, size);
  return copy;
}
/* Prints what was written. */
static void print_again(int is_exact) {
  size_t length = size;
  uint8_t *text = copied();
  count = 0;
  words[count++] = "tomled";
  if (is_exact) words[count++] = "exact";
  words[count++] = "print";
  if (run(text, length)) wrong("what was written is refused");
  free(text);
}
/* What was written is a print: it is printed as it is. */
static void is_print(int is_exact) {
  size_t length = size;
  uint8_t *first = copied();
  print_again(is_exact);
  if (size != length || (length && memcmp(first, output, length))) wrong("what was written is printed otherwise");
  free(first);
}

static char *line(const uint8_t **at, size_t *length) {
  const uint8_t *end = *length ? memchr(*at, '\n', *length) : 0;
  size_t taken = end ? (size_t) (end - *at) : *length;
  char *made = malloc(taken + 1);
  if (taken) memcpy(made, *at, taken);
  made[taken] = 0;
  *at += taken + (end != 0); *length -= taken + (end != 0);
  return made;
}

/* Runs a command of tomlfile on a text, under the words `strict` and `normal` if the letters have theirs. */
typedef struct { const char *name, *words[3]; } Command;
static int run_command(const char *letters, const uint8_t *text, size_t length, Command command) {
  count = 0;
  words[count++] = "tomlfile";
  if (strchr(letters, 's')) words[count++] = "strict";
  if (strchr(letters, 'n')) words[count++] = "normal";
  words[count++] = command.name;
  words[count++] = "-";
  for (size_t at = 0; at < 3; at++) if (command.words[at]) words[count++] = command.words[at];
  int status = run(text, length);
  if (status < 0 || status > 6) wrong("the status");
  return status;
}
/* Runs a command on a text, which must be done, and leave the text if it is to stay. */
static void run_again(const char *letters, const uint8_t *text, size_t length, int stays, Command command) {
  script.left = 0;
  if (run_command(letters, text, length, command)) wrong("what was written is refused");
  if (stays && (size != length || (length && memcmp(text, output, length)))) wrong("what was written is written otherwise");
}
/* What was written is accepted. Where nothing is edited, it stays once it was printed so, or from the first. */
static void is_written(const char *letters, int stays) {
  Command no_edit = {"edit", {"--script", "script", 0}};
  size_t length = size;
  uint8_t *text = copied();
  run_again(letters, text, length, 0, (Command) {"check", {0, 0, 0}});
  run_again(letters, text, length, stays, no_edit);
  free(text); length = size; text = copied();
  if (!stays) run_again(letters, text, length, 1, no_edit);
  free(text);
}
static int edit(const uint8_t *text, size_t length) {
  char *letters = line(&text, &length);
  script = (Input) {text, length};
  for (size_t at = 0; at < length; at++) {
    if (text[at] != '\n' || (at && text[at - 1] != '\n')) continue;
    script.left = at; text += at + 1; length -= at + 1;
    break;
  }
  if (script.at + script.left == text + length) length = 0;
  Command edit = {"edit", {"--script", "script", strchr(letters, 'l') ? "--locked" : 0}};
  if (!run_command(letters, text, length, edit)) is_written(letters, 0);
  free(letters);
  return 0;
}
static int has(const uint8_t *text, size_t length, const char *part) {
  size_t taken = strlen(part);
  for (size_t at = 0; at + taken <= length; at++) if (!memcmp(text + at, part, taken)) return 1;
  return 0;
}
static int format(const uint8_t *text, size_t length) {
  char *letters = line(&text, &length), *path = line(&text, &length);
  int is_parsed = *path || strchr(letters, 'n'), is_partly = is_parsed && has(text, length, "fmt: off");
  Command fmt = {"fmt", {strchr(letters, 'k') ? "--keys" : 0, *path ? "--sort" : 0, *path ? path : 0}};
  if (!run_command(letters, text, length, fmt)) {
    size_t formatted = size;
    uint8_t *copy = copied();
    run_again(letters, copy, formatted, !is_partly, fmt);
    free(copy);
    is_written(letters, is_parsed && !is_partly);
  }
  free(letters); free(path);
  return 0;
}

/* A row of test_rows_tables, and its steps, which are the calls. */
typedef struct { char *text; size_t size, room; } Text;
static Text row, steps;
static void put(Text *to, const void *text, size_t length) {
  if (to->room < to->size + length) { to->room = 2 * (to->size + length); to->text = realloc(to->text, to->room); }
  if (length) memcpy(to->text + to->size, text, length);
  to->size += length;
}
static void put_all(Text *to, const char *text) { put(to, text, strlen(text)); }
static void put_escaped(Text *to, const uint8_t *text, size_t length) {
  char code[8];
  for (size_t at = 0; at < length; at++) {
    if (text[at] >= 32 && text[at] != '"' && text[at] != '\\' && text[at] != 127) { put(to, text + at, 1); continue; }
    snprintf(code, sizeof code, "\\u%04x", text[at]); put_all(to, code);
  }
}

/* The calls, with a letter for each argument, and what they may be. */
static const char *const CALLS[] = {
  "'set_at',%p,%v", "'set_at_with_headers',%p,%v", "'remove_at',%p", "'change_at',%p", "'set_trailing',%t", "'set_exact',%b",
  "'set_open_end',%b", "'first_misfit'", "'get_values'", "'clone','print'", "%w,'insert',%n,%i", "%w,'insert_formatted',%k,%t,'',%i",
  "%w,'remove',%n", "%w,'remove_entry',%n", "%w,'rename',%n,%n", "%w,'move_to',%n,%d", "%w,'insert_at',%d,%k,%i", "%w,'sort_values'",
  "%w,'sort_values_by'", "%w,'retain',%n", "%w,'extend',%k,'',' ',%i", "%w,'clear'", "%w,'fmt'", "%w,'set_implicit',%b",
  "%w,'set_dotted',%b", "%w,'set_position',%d", "%w,'forget_positions'", "%w,'decor_mut','set_prefix',%t", "%w,'entry',%n,%i",
  "%w,'entry_with',%n", "%w,'entry_remove',%n", "%w,'vacant',%n,'insert',%i", "%w,'index_or_insert',%n,'becomes',%i",
  "%w,'slot_mut',%n,'insert',%i", "%w,'slot_mut',%n,'leaf_decor_mut','set_prefix',%t", "%w,'key_mut',%n,'fmt'",
  "%w,'get_mut',%n,'make_value'", "%w,'get_mut',%n,'into_value'", "%w,'get_mut',%n,'into_table'", "%w,'get_mut',%n,'into_array_of_tables'",
  "%w,'get_mut',%n,'decor_mut','set_suffix',%t", "%w,'get_mut',%n,'as_array_of_tables_mut','push',%x",
  "%w,'get_mut',%n,'as_array_of_tables_mut','insert',%d,%x", "%w,'get_mut',%n,'as_array_of_tables_mut','remove',%d",
  "%w,'get_mut',%n,'as_array_of_tables_mut','slot_at_mut',%d", "%w,'get_mut',%n,'as_array_of_tables_mut','retain',%n",
};
static const char *const WAYS[] = {
  "'as_table_mut'", "'as_table_mut','get_mut','a','as_table_mut'", "'as_table_mut','get_mut','b','as_table_mut'",
  "'as_table_mut','get_mut','a','as_table_mut','get_mut','b','as_table_mut'",
  "'as_table_mut','get_mut','a','as_array_of_tables_mut','get_mut','0'",
};
static const char *const NAMES[] = {"'a'", "'b'", "'c'", "'d e'", "''", "'\u00e9'"};
static const char *const PATHS[] = {"'a'", "'b'", "'a.b'", "'a.b.c'", "'a.0'", "'a.0.b'", "'a.1.c'", "'\\u0022d e\\u0022.a'", "''"};
static const char *const KEYS[] = {"'a'", "'b'", "'\\u0022c\\u0022'", "'\\u0022d e\\u0022'", "'\\u0022\\u0022'"};
static const char *const VALUES[] = {
  "'1'", "'\\u0022x\\u0022'", "'[1, [2] ]'", "'{a = 1, b.c = 2}'", "'[{a = 1}]'", "'1979-05-27'", "'-0.0'",
};
static const char *const ITEMS[] = {
  "'1'", "'none'", "'table'", "'array of tables'", "'new {a = 1, b.c = 2}'", "'{b = {c = 1}}'", "'[{a = 1}, {}]'",
  "'[t]\\na.b = 1\\n[t.c]\\n'", "'[[t]]\\na = 1\\n[[t]]\\n'", "'t.a.b = 1\\n'", "'[t.a]\\nb = 1 # c\\n'",
};
static const char *const TEXTS[] = {"''", "' '", "' # c'", "'# c\\n'", "'\\n'", "'\\r\\n'", "'x'", "'# \\r'"};
static const char *const ROOTS[] = {"''", "'a = 1\\n'", "'[a]\\nb = 1\\n'", "'[[a]]\\n'"};
static const char *const PLACES[] = {"'0'", "'1'", "'2'", "'9'"};
static const char *const TRUTHS[] = {"'false'", "'true'"};
#define ONE_OF(from) from, sizeof from / sizeof *from

/* Takes a byte of the input, and with it one of these. */
static const char *chosen(const uint8_t **at, size_t *length, const char *const *from, size_t count) {
  size_t byte = *length ? **at : 0;
  *at += *length != 0; *length -= *length != 0;
  return from[byte % count];
}
static const char *argument(char letter, const uint8_t **at, size_t *length) {
  switch (letter) {
    case 'w': return chosen(at, length, ONE_OF(WAYS));
    case 'n': return chosen(at, length, ONE_OF(NAMES));
    case 'p': return chosen(at, length, ONE_OF(PATHS));
    case 'k': return chosen(at, length, ONE_OF(KEYS));
    case 'v': return chosen(at, length, ONE_OF(VALUES));
    case 'i': return chosen(at, length, ONE_OF(ITEMS));
    case 't': return chosen(at, length, ONE_OF(TEXTS));
    case 'x': return chosen(at, length, ONE_OF(ROOTS));
    case 'd': return chosen(at, length, ONE_OF(PLACES));
    default: return chosen(at, length, ONE_OF(TRUTHS));
  }
}
/* Adds a call to the steps, of which each ' is a quotation mark. */
static void put_call(const uint8_t **at, size_t *length) {
  for (const char *call = chosen(at, length, ONE_OF(CALLS)); *call; call++) {
    const char *part = call, *end = call + 1;
    if (*call == '%') { part = argument(*++call, at, length); end = part + strlen(part); }
    for (; part < end; part++) put(&steps, *part == '\'' ? "\"" : part, 1);
  }
}

/* Runs a row: the document, the steps, and what ends these. Returns 0 if it holds, 1 if a step has another answer, which `came` then has,
   2 if the document does not fit after the steps, and else 3, as where it is refused. */
static Text came;
static int ended_by(const uint8_t *document, size_t length, const char *end) {
  static const char OTHER[] = " for  (fits)\n1 rows don't hold\n0 rows hold\n";
  static const char UNFIT[] = "false (fits)\n1 rows don't hold\n0 rows hold\n";
  row.size = 0; put_all(&row, "{\"text\": \""); put_escaped(&row, document, length); put_all(&row, "\", \"fits\": true, \"steps\": [");
  put(&row, steps.text, steps.size); put_all(&row, end); put_all(&row, "]}");
  int status = run((const uint8_t *) row.text, row.size);
  if (status < 0 || status > 1) wrong("the status of a row");
  if (!status) return 0;
  /* It is told with the row, a newline and four spaces before it. */
  size_t before = row.size + 5, unfit = sizeof UNFIT - 1, other = sizeof OTHER - 1;
  if (size == before + unfit && !memcmp(output + before, UNFIT, unfit)) return 2;
  if (size < before + other || memcmp(output + size - other, OTHER, other)) return 3;
  came.size = 0; put(&came, output + before, size - before - other);
  return 1;
}

static int calls(const uint8_t *text, size_t length) {
  size_t most = length ? *text % 9 : 0;
  const uint8_t *at = text + (length != 0), *end = text + length, *document = at;
  /* The document is behind the calls. */
  steps.size = 0;
  for (size_t i = 0, left = end - at; i < most; i++) put_call(&document, &left);
  size_t rest = end - document;
  for (size_t i = 0; i < rest; i++) if (document[i] > 127) return -1;
  steps.size = 0;
  int ended = ended_by(document, rest, "");
  if (ended == 3) return 0;
  if (ended) wrong("what was parsed does not fit");
  for (size_t i = 0, left = document - at; i < most; i++) {
    put_all(&steps, i ? ",[" : "["); put_call(&at, &left);
    ended = ended_by(document, rest, "]");
    if (ended == 3) wrong("what a row tells");
    if (ended == 1) { put_all(&steps, ",\"gives\",\""); put_escaped(&steps, (uint8_t *) came.text, came.size); put_all(&steps, "\""); }
    put_all(&steps, "]");
  }
  ended = ended_by(document, rest, "");
  if (ended == 2) return 0;
  if (ended) wrong("a call has two answers");
  came.size = 0;
  if (ended_by(document, rest, most ? ",[\"print\"]" : "[\"print\"]") > 1) wrong("what prints");
  row.size = 0; put_all(&row, "{\"text\": \""); put_escaped(&row, (uint8_t *) came.text, came.size);
  put_all(&row, "\", \"is_refused\": false}");
  if (run((const uint8_t *) row.text, row.size)) wrong("what fits is refused");
  return 0;
}

int LLVMFuzzerTestOneInput(const uint8_t *text, size_t length) {
  static const char *target;
  if (!target) target = getenv("TARGET");
  if (!strcmp(target, "calls")) return calls(text, length);
  if (!strcmp(target, "edit")) return edit(text, length);
  if (!strcmp(target, "fmt")) return format(text, length);
  count = 0;
  words[count++] = "tomled";
  if (!strcmp(target, "set")) {
    char *path = line(&text, &length), *value = line(&text, &length);
    words[count++] = "set"; words[count++] = path; words[count++] = value;
    int status = run(text, length);
    free(path); free(value);
    if (status < 0 || status > 2) wrong("the status");
    if (!status) { print_again(0); is_print(0); }
    return 0;
  }
  int is_exact = !strcmp(target, "exact");
  if (is_exact) words[count++] = "exact";
  words[count++] = "print";
  int status = run(text, length);
  if (status < 0 || status > 1) wrong("the status");
  if (!status) is_print(is_exact);
  return 0;
}
"""


def build(folder, program="tomled"):
    """Builds the fuzzer of a program, unless the folder has it."""
    made = "%s/%s" % (folder, program)
    fuzzer = made + "-fuzzer"
    if os.path.exists(fuzzer):
        return fuzzer
    clang = shutil.which("clang")
    if not clang:
        sys.exit("no clang: install " + PACKAGES)
    if not os.path.exists(made + ".bc"):
        unproved.module(program, made + ".bc", top=unproved.TOP)
    unproved.compiled(made + ".bc", made + ".o", WATCHED)
    renamed = [word for name in LED.items() for word in ("--redefine-sym", "=".join(name))]
    subprocess.run(["objcopy", *renamed, made + ".o"], check=True)
    with open(folder + "/driver.c", "w", encoding="utf-8") as file:
        file.write(DRIVER)
    sanitized = ["-fsanitize=address,undefined,fuzzer", "-fno-sanitize-recover=undefined"]
    words = [clang, "-O1", *sanitized, folder + "/driver.c", made + ".o", unproved.kit().KIT + "/c/libos_c.a"]
    ran = subprocess.run([*words, "-o", fuzzer], capture_output=True, text=True)
    if ran.returncode:
        sys.exit("the fuzzer does not link; install %s:\n%s" % (PACKAGES, ran.stderr[-2000:]))
    return fuzzer


def ran(fuzzer, target, folder, words):
    """Runs the fuzzer, and returns whether all is well, and the number of runs."""
    found = "%s/%s-" % (folder, target)
    given = {**os.environ, "TARGET": target, "ASAN_OPTIONS": "detect_leaks=0:allocator_may_return_null=1"}
    words = [fuzzer, "-artifact_prefix=" + found, "-timeout=60", "-max_len=300", "-print_final_stats=1", *words]
    run = subprocess.run(words, capture_output=True, text=True, errors="replace", env=given)
    lines = run.stderr.split("\n")
    runs = [line.split()[-1] for line in lines if line.startswith("stat::number_of_executed_units")]
    if run.returncode:
        print("%s: %s" % (target, "\n".join(lines[-60:])))
    return run.returncode == 0, int(runs[-1]) if runs else 0


def fuzz(fuzzer, target, folder, seconds):
    """Fuzzes a target from its corpus, into a folder of its own, or runs the corpus alone."""
    if seconds is None:
        return ran(fuzzer, target, folder, ["-runs=0", CORPUS[target]])
    new = "%s/new-%s" % (folder, target)
    os.makedirs(new, exist_ok=True)
    return ran(fuzzer, target, folder, ["-max_total_time=%d" % seconds, new, CORPUS[target]])


def main():
    words = sys.argv[1:]
    if words[:1] == ["--help"]:
        return print(__doc__.strip())
    with tempfile.TemporaryDirectory() as made:
        folder = made
        if words[:1] == ["--keep"] and words[1:]:
            folder, words = os.path.abspath(words[1]), words[2:]
            os.makedirs(folder, exist_ok=True)
        if words[:1] == ["--merge"] and words[2:]:
            merge = ["-set_cover_merge=1", "-use_counters=0", CORPUS[words[1]], *words[2:]]
            return 0 if ran(build(folder, PROGRAMS[words[1]]), words[1], folder, merge)[0] else 1
        seconds = None if words[:1] == ["--replay"] else int(words[0]) if words else 60
        targets = words[1:] or TARGETS
        fuzzers = {program: build(folder, program) for program in sorted({PROGRAMS[target] for target in targets})}
        with concurrent.futures.ThreadPoolExecutor(2) as pool:
            results = list(pool.map(lambda target: fuzz(fuzzers[PROGRAMS[target]], target, folder, seconds), targets))
        if folder == made and not all(is_well for is_well, _ in results):
            shutil.copytree(made, TOP + "/fuzz/found", ignore=shutil.ignore_patterns("*.bc", "*.o", "new-*"), dirs_exist_ok=True)
            print("the inputs are kept in fuzz/found")
    print("%s: %s" % ("corpus" if seconds is None else "%d seconds each" % seconds, ", ".join(
        "%s %d runs, %s" % (target, runs, "no fault" if is_well else "WRONG") for target, (is_well, runs) in zip(targets, results))))
    return 0 if all(is_well for is_well, _ in results) else 1


if __name__ == "__main__":
    sys.exit(main())
