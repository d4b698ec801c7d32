#!/usr/bin/env python3
"""Prints what memory is left when one value of a large document is kept and the rest dropped, with and without `detach`.

    tools/kept.py [MB]     a document of so many megabytes (100)

It builds the program `test_tools` unproved (`tools/unproved.py`) and counts what it allocates, as tools/counts.py does, so it wants a C
compiler too. What a document of one number leaves is taken off. It fails if a value that is detached leaves more than its texts, or
another one more than the source, or if the program prints another value.
"""
import sys
import tempfile

import counts
import unproved

VALUE = "a value of more than fourteen bytes"
# What may be left beside the source, or without it.
SMALL = 10000


def text(value, size):
    """A document of so many bytes: a value that is kept, and lines of 28 bytes."""
    return "kept = %s\n" % value + "".join("longer_key_%08d = %d\n" % (at, 10000 + at % 90000) for at in range(size // 28))


def run(program, counting, words, value, size):
    """The bytes that are left at the end, and the most that there were."""
    counted, wrote = counts.memory(counting, [program, "kept", *words], text(value, size))
    if wrote != " %s\n" % value:
        sys.exit("kept %s printed %r" % (" ".join(words), wrote))
    return counted["live"], counted["most"]


def main():
    if sys.argv[1:] == ["--help"]:
        return print(__doc__.strip())
    size = int(sys.argv[1] if sys.argv[1:] else 100) * 1000000
    faults = 0
    with tempfile.TemporaryDirectory() as folder:
        program, counting = folder + "/test_tools", counts.library(folder)
        unproved.build("test_tools", program)
        for words, bound in (([], size + SMALL), (["detach"], SMALL)):
            alone, _ = run(program, counting, words, "1", 0)
            left, most = run(program, counting, words, '"%s"' % VALUE, size)
            faults += left - alone > bound
            print("%-8s %12d bytes left, %8.1f MB at the most" % (" ".join(words) or "kept", left - alone, most / 1e6), flush=True)
    print("%d MB, %d faults" % (size // 1000000, faults))
    return 1 if faults else 0


if __name__ == "__main__":
    sys.exit(main())
