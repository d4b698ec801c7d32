#!/usr/bin/env python3
"""Links the program of a crate statically, so that it starts without a loader.

    tools/static.py PROGRAM [CRATE]     writes PROGRAM, of the crate `tomled` if none is named

It links what `rt run` has compiled in the crate's folder, by the system's C compiler `cc` and its static C library. The program does the
same as before. On the empty text it takes less than half the instructions.
"""
import os
import subprocess
import sys

from unproved import TOP, kit


def main():
    if len(sys.argv) not in (2, 3) or sys.argv[1] == "--help":
        return print(__doc__.strip())
    crate = sys.argv[2] if sys.argv[2:] else "tomled"
    compiled = "%s/crates/%s/out/%s.o" % (TOP, crate, crate)
    if not os.path.exists(compiled):
        sys.exit("no file %s: run `rt run` in crates/%s first" % (compiled, crate))
    library = kit().KIT + "/c/"
    return subprocess.run(["cc", "-static", "-o", sys.argv[1], compiled, library + "libos_c.a", library + "liblibc_c.a"]).returncode


if __name__ == "__main__":
    sys.exit(main())
