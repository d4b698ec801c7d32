#!/usr/bin/env python3
"""Edits documents that share one source from two threads, with the thread sanitizer.

    tools/threads.py [ROUNDS]             looks for races in so many rounds (2,000)
    tools/threads.py --plain [ROUNDS]     the same without atomic operations in the count of the source, where a race has to be found

In a round, each thread reads the document `shared.toml` of `crates/test_tools` and splits it in two, which share its source. Then both threads edit
the two documents of each such pair at the same time, one document each, and drop them. In every other round they stop before the last edit.
The functions are those of the program `test_tools`, which makes the same edits one after the other: where none is left out, a document has to
print as in its `stdout`. They are built unproved (`tools/unproved.py`). It wants gcc with Debian's package libtsan2, and `objcopy`.
"""
import os
import re
import subprocess
import sys
import tempfile

import sources
import unproved

FOLDER = unproved.TOP + "/crates/test_tools"
# The functions that are called from C.
NAMES = {"toml_edit::document::DocumentMut::new": "start", "toml_edit::document::DocumentMut::drop": "end"}
NAMES.update(("test_tools::shared::" + name, name) for name in ("split", "edit", "prints"))
CALLS = r"""
#include <pthread.h>
#include <stdbool.h>
#include <stdio.h>
#include <stdlib.h>
#include <string.h>

typedef struct { _Alignas(16) char bytes[SIZE]; } Document;

void start(Document *document);
void end(Document *document);
bool split(const char *text, size_t length, Document *first, Document *second);
bool edit(Document *document, size_t round);
bool prints(const Document *document, const char *text, size_t length);

static char source[65536], wanted[2][65536];
static size_t rounds;
static pthread_barrier_t both;
static Document pairs[2][2];

static void check(bool holds, const char *what) {
    if (!holds) {
        fprintf(stderr, "%s\n", what);
        exit(1);
    }
}

static void read_to_end(const char *path, char *to) {
    FILE *file = fopen(path, "rb");
    check(file && fread(to, 1, sizeof source - 1, file) > 0, path);
    fclose(file);
}

static void edit_all(Document *document, int which, size_t edits) {
    for (size_t at = 0; at < edits; at++) check(edit(document, at), "an edit failed");
    if (edits == EDITS) check(prints(document, wanted[which], strlen(wanted[which])), "another text is printed");
    end(document);
    start(document);
}

static void *run(void *number) {
    int own = *(int *)number;
    for (size_t round = 0; round < rounds; round++) {
        check(split(source, strlen(source), &pairs[own][0], &pairs[own][1]), "the text is not split");
        pthread_barrier_wait(&both);
        size_t edits = round % 2 ? round / 2 % EDITS : EDITS;
        edit_all(&pairs[0][own], own, edits);
        edit_all(&pairs[1][1 - own], 1 - own, edits);
        pthread_barrier_wait(&both);
    }
    return NULL;
}

int main(int count, char **words) {
    check(count == 5, "four words are wanted");
    read_to_end(words[1], source);
    read_to_end(words[2], wanted[0]);
    read_to_end(words[3], wanted[1]);
    rounds = strtoul(words[4], NULL, 10);
    for (int at = 0; at < 4; at++) start(&pairs[at / 2][at % 2]);
    pthread_barrier_init(&both, NULL, 2);
    pthread_t threads[2];
    int numbers[2] = {0, 1};
    for (int at = 0; at < 2; at++) check(!pthread_create(&threads[at], NULL, run, &numbers[at]), "no thread is made");
    for (int at = 0; at < 2; at++) pthread_join(threads[at], NULL);
    for (int at = 0; at < 4; at++) end(&pairs[at / 2][at % 2]);
    return 0;
}
"""
# What the sanitizer ends with if it found a race.
FOUND = 66


def opened(text, plain):
    """The text of a module that shows the functions to C, for the thread sanitizer, and the size of a document."""
    size = re.search(r'^define [^\n]*@"%s"\(.*?alloca \[(\d+) x i8\]' % re.escape("toml_edit::document::DocumentMut::drop"), text, re.M | re.S)[1]
    for name, own in NAMES.items():
        text, count = re.subn(r'^define internal (.*)@"%s"\(' % re.escape(name), r"define \1@%s(" % own, text, flags=re.M)
        if count != 1:
            sys.exit("no function %s" % name)
        text = text.replace('@"%s"(' % name, "@%s(" % own)
    # C has a `main` of its own.
    text = text.replace("define i32 @main(", "define i32 @main_of_program(").replace(" sanitize_address", " sanitize_thread")
    if plain:
        text, count = re.subn(r"^  (%\w+) = atomicrmw (add|sub) ptr (%\w+), i64 (%?\w+) seq_cst, align 8$",
                              r"  \1 = load i64, ptr \3\n  \1.new = \2 i64 \1, \4\n  store i64 \1.new, ptr \3", text, flags=re.M)
        if count == 0:
            sys.exit("no atomic operation")
    return text, size


def build(folder, plain):
    """Builds the program of two threads in a folder."""
    unproved.module("test_tools", folder + "/kept.bc")
    clang = unproved.kit().KIT
    words = [clang + "/toolchain/bin/clang", "--target=" + unproved.TARGET, "--no-default-config", "-Wno-override-module", "-S", "-emit-llvm"]
    subprocess.run([*words, "-O0", "-Xclang", "-disable-llvm-passes", "-x", "ir", folder + "/kept.bc", "-o", folder + "/kept.ll"], check=True)
    text, size = opened(sources.read(folder + "/kept.ll"), plain)
    edits = re.search(r"^const ROUNDS: usize = (\d+);", sources.read(FOLDER + "/src/shared.rt"), re.M)[1]
    for name, written in (("kept.ll", text), ("calls.c", CALLS)):
        with open("%s/%s" % (folder, name), "w", encoding="utf-8") as file:
            file.write(written)
    unproved.compiled(folder + "/kept.ll", folder + "/kept.o", ["-O1", "-fsanitize=thread"])
    # The sanitizer of gcc has these under the names of C.
    renamed = [word for name in ("memset", "memcpy", "memmove") for word in ("--redefine-sym", "__tsan_%s=%s" % (name, name))]
    subprocess.run(["objcopy", *renamed, folder + "/kept.o"], check=True)
    words = ["gcc", "-std=c11", "-D_GNU_SOURCE", "-Wall", "-Wextra", "-O1", "-fsanitize=thread", "-DSIZE=" + size, "-DEDITS=" + edits, "-pthread"]
    libraries = [clang + "/c/libos_c.a", clang + "/c/liblibc_c.a"]
    subprocess.run([*words, "-o", folder + "/calls", folder + "/calls.c", folder + "/kept.o", *libraries], check=True)
    return folder + "/calls"


def main():
    words = sys.argv[1:]
    plain = words[:1] == ["--plain"]
    words = words[plain:]
    if len(words) > 1 or not "".join(words or "0").isdigit():
        return print(__doc__.strip())
    rounds = words[0] if words else "2000"
    with tempfile.TemporaryDirectory() as folder:
        shown = re.search(r"^shared < .*\n((?:.*\n)*?)format < ", sources.read(FOLDER + "/stdout"), re.M)[1]
        texts = shown.split("---\n")
        for name, text in zip(("first", "second"), texts, strict=True):
            with open("%s/%s" % (folder, name), "w", encoding="utf-8") as file:
                file.write(text)
        called = [build(folder, plain), FOLDER + "/data/shared.toml", folder + "/first", folder + "/second", rounds]
        ran = subprocess.run(called, capture_output=True, text=True, env=dict(os.environ, TSAN_OPTIONS="exitcode=%d halt_on_error=1" % FOUND))
    found = ran.returncode == FOUND and "WARNING: ThreadSanitizer: data race" in ran.stderr
    if plain and found:
        print("a race is found, as it has to be: %s" % re.search(r"SUMMARY: (.*)", ran.stderr)[1])
        return 0
    if plain or ran.returncode != 0 or ran.stderr:
        print("%sstatus %d\n%s" % ("no race is found: " * plain, ran.returncode, ran.stderr))
        return 1
    print("%s rounds in two threads: no race, and the texts are those of one thread" % rounds)
    return 0


if __name__ == "__main__":
    sys.exit(main())
