#!/usr/bin/env python3
"""Finds code and definitions that stand twice: the same twelve lines of code in two .rt files, comments, blank lines and imports aside, or the
same definition of three lines or more in two .antt files of specs.

    tools/duplicates.py     prints each pair of files, with the first line of what they share
"""
import glob
import os
import re
import sys

from sources import TOP, read

RUN, DEFINITION = 12, 3


def code_lines(text):
    """The lines of code of a source, each with its number."""
    lines, is_import = [], False
    for number, line in enumerate(text.split("\n"), 1):
        bare = line.strip()
        if re.match(r"(pub )?(ghost )?use ", bare):
            is_import = not bare.endswith(";")
        elif is_import:
            is_import = not bare.endswith(";")
        elif bare and not bare.startswith("//"):
            lines.append((number, bare))
    return lines


def runs(text):
    """Each run of lines of code, with the number of its first line."""
    lines = code_lines(text)
    for at in range(len(lines) - RUN + 1):
        yield "\n".join(line for _, line in lines[at : at + RUN]), lines[at][0]


def definitions(text):
    """Each definition of three lines or more, without comments and margins, with the number of its first line."""
    block, start = [], 0
    for number, line in enumerate(text.split("\n") + [""], 1):
        bare = line.strip()
        if not bare:
            if len(block) >= DEFINITION:
                yield "\n".join(block), start
            block = []
        elif not bare.startswith(("--", "use ", "open ", "module ")):
            start = start if block else number
            block.append(bare)


def pairs():
    """The pairs of files that share something, each with the places and the first line."""
    found = {}
    for pattern, parts in (("crates/*/src/**/*.rt", runs), ("crates/*/specs/**/*.antt", definitions)):
        first = {}
        for path in sorted(glob.glob(TOP + "/" + pattern, recursive=True)):
            file = os.path.relpath(path, TOP)
            if "/examples/" in file:
                continue
            for text, line in parts(read(path)):
                other = first.setdefault(text, (file, line))
                if other[0] != file:
                    found.setdefault((other[0], file), (other[1], line, text.split("\n")[0]))
    return found


def main():
    if sys.argv[1:] == ["--help"]:
        return print(__doc__.strip())
    for (one, other), (first, second, text) in sorted(pairs().items()):
        print("%s:%d and %s:%d: %s" % (one, first, other, second, text))
    return 0


if __name__ == "__main__":
    sys.exit(main())
