#!/usr/bin/env python3
"""Prints how many instructions a byte `tomled print` takes on generated documents, and how that grows with their size; with
`--memory` the peak of the heap in place of instructions.

It counts with valgrind's callgrind and massif, so the numbers are the same on every run of one build. It wants the built program:
run `rt run` in crates/tomled once, or name another program as the first argument, such as one that `tools/unproved.py tomled FILE --marks`
builds. Such a program took 0.97 to 1.02 of the instructions of the proved one.

    bench/run.py [--memory] [PROGRAM]
    bench/run.py --beside OTHER [--beside OTHER ..] [--peers OTHER ..] [PROGRAM]
                                              instructions at 128 KB and memory at 1 MB, beside those of other programs that read
                                              a document and print it, such as that of bench/crate ("-" if not as it was)
    bench/run.py --peers OTHER [--peers OTHER ..] [PROGRAM]
                                              instructions at 128 KB of printing a document and of parsing it alone, beside those of
                                              programs with the words `print` and `parse`, such as that of bench/toml11 ("-" if what
                                              one prints does not mean the same, or if it takes more than three seconds); the program
                                              parses alone as `get` of a key that is not there
"""
import concurrent.futures, functools, math, os, re, subprocess, sys, tempfile

TOP = os.path.dirname(os.path.dirname(os.path.abspath(__file__)))
SIZES = (64, 128, 256)
# What a program is run with, and the status that it has to end with: to print a document, and to parse it alone.
PRINT, PARSE, PEER_PARSE = (("print",), 0), (("get", "absent"), 2), (("parse",), 0)
# The most seconds of a processor that a peer may take, without valgrind.
PATIENCE = 3
# Callgrind counts each byte that `rep movsb` copies as an instruction. So the C library has to copy without it.
COPIES = {**os.environ, "GLIBC_TUNABLES": "glibc.cpu.x86_rep_movsb_threshold=%d" % (1 << 40)}
KEYS = (10000, 20000)


def prose(size):
    """Long strings and comments under few keys."""
    words = "the quick brown fox jumps over the lazy dog while nobody looks at it, and ".split(" ")
    text, key, at = [], 0, 0
    while sum(map(len, text[-1:])) + at < size:
        line = " ".join(words[(key + i) % len(words)] for i in range(120))
        text.append("# %s\n" % line)
        text.append('paragraph_%d = "%s" # %s\n' % (key, line, line[:200]))
        at += len(text[-1]) + len(text[-2])
        key += 1
    return "".join(text)[:-1] + "\n"


def grown(size, make):
    """The texts that `make` gives for 0, 1, 2, .. until they reach the size."""
    parts, at, number = [], 0, 0
    while at < size:
        parts.append(make(number))
        at += len(parts[-1])
        number += 1
    return "".join(parts)


SCALARS = ("true", "0x1F", "1_000", "'plain'", '"with \\t escape"', "-42")


def lines(size):
    """Many short lines."""
    return grown(size, lambda key: "key_%d = %s # c\n" % (key, SCALARS[key % len(SCALARS)]))


NUMBERS = ("0", "17", "-4", "305", "1_000", "0x1F", "6.25", "9041", "-0.5e3", "65535")


FLOATS = ("0.5", "-12.75", "3.14159265", "1e6", "48.8583701", "-0.5e-3", "2.0", "1013.25", "6.62607015e-34", "2.2944813")


def array_rows(size, values):
    return grown(size, lambda key: "numbers_%d = [%s]\n" % (key, ", ".join(values[(key + i) % len(values)] for i in range(400))))


def numbers(size):
    """Few keys, each with an array of 400 short numbers on one line."""
    return array_rows(size, NUMBERS)


def floats(size):
    """Few keys, each with an array of 400 floats on one line."""
    return array_rows(size, FLOATS)


MOMENTS = ("1979-05-27T07:32:00Z", "2024-02-29", "17:45:00.125", "1987-07-05T17:45:00", "2001-09-09 01:46:40+02:00")


def floats_and_dates(size):
    """Many short lines, each with a float, a date or a time."""
    return grown(size, lambda key: "key_%d = %s\n" % (key, (MOMENTS if key % 2 else FLOATS)[key // 2 % 5]))


def tables(size):
    """Few keys, each with an array of 100 small inline tables, one a line."""
    rows = ",\n".join("    { name = \"part %d\", size = %d, used = true }" % (i, 37 * i % 1000) for i in range(100))
    return grown(size, lambda key: "tables_%d = [\n%s,\n]\n" % (key, rows))


def inline(size):
    """One large inline table."""
    pairs, at, key = [], 0, 0
    while at < size - 12:
        pairs.append("key_%d = %d" % (key, 37 * key % 1000))
        at += len(pairs[-1]) + 2
        key += 1
    return "table = { %s }\n" % ", ".join(pairs)


def lock(size):
    """A lock file: elements of an array of tables, each with four lines and an array of names."""
    return "version = 4\n\n" + grown(size, lambda i: (
        '[[package]]\nname = "part-%d"\nversion = "1.%d.0"\nsource = "registry+https://registry.example/index"\n'
        'checksum = "%064x"\ndependencies = [\n "part-%d",\n "part-%d",\n]\n\n' % (i, i % 30, i * 7919 + 1, i + 1, i + 2)))


def one_table(size):
    """One large table, in lines of 28 bytes."""
    return "[table]\n" + grown(size, lambda i: "longer_key_%05d = %d\n" % (i, 10000000 + 7 * i))


def short_table(size):
    """One large table, in lines of 14.8 bytes."""
    return "[table]\n" + grown(size, lambda i: "key_%d = %d\n" % (i, 37 * i % 1000))


def noted_table(size):
    """One large table, in lines of 28 bytes, each with a comment."""
    return "[table]\n" + grown(size, lambda i: "key_%05d = %d # as above\n" % (i, 1000 + i % 9000))


def manifest(size):
    """Manifests, one after another: headers, strings, and dependencies in inline tables and arrays."""
    return grown(size, lambda i: (
        '# part %d of the workspace\n[package-%d]\nname = "part-%d"\nversion = "0.%d.0"\nedition = "2024"\n\n[package-%d.dependencies]\n'
        'log = "0.4" # until the next release\nrand = { version = "0.9", default-features = false }\n'
        'serde = { version = "1.0", features = ["derive", "rc"] }\n\n' % (i, i, i, i % 40, i)))


def root_keys(size):
    """Many keys of the root, in lines of 14 bytes."""
    return grown(size, lambda i: "key_%05d = %d\n" % (i, 7 * i % 10))


def dotted(size):
    """Dotted keys, 16 deep, each below a first key of its own."""
    path = ".".join("part_%d" % i for i in range(15))
    return grown(size, lambda i: "key_%d.%s = %d\n" % (i, path, i % 100))


def headers(size):
    """Many headers, each of a table with one line."""
    return grown(size, lambda i: "[table_%d]\nkey = %d\n\n" % (i, i % 1000))


def elements(size):
    """Many elements of one array of tables, each with one line."""
    return grown(size, lambda i: "[[element]]\nkey = %d\n" % (i % 1000))


def indented(size):
    """Many headers, each of a table with two lines, all indented."""
    return grown(size, lambda i: "  [table_%d]\n    key = %d\n    on = true\n" % (i, i % 1000))


def rows_of_elements(size):
    """Arrays of tables, one after another, each of 700 elements with one line."""
    return grown(size, lambda i: "[[element_%d]]\nkey = %d\n" % (i // 700, i % 1000))


def implied(size):
    """Many tables that headers imply, whose own headers come later in the reverse order."""
    first, second, at, number = [], [], 0, 0
    while at < size:
        first.append("[t%d.inner]\n" % number)
        second.append("[t%d]\n" % number)
        at += len(first[-1]) + len(second[-1])
        number += 1
    return "".join(first) + "".join(reversed(second))


def long_paths(size):
    """Headers and lines of paths of 80 segments."""
    tail = ".".join("a" for _ in range(79))
    return grown(size, lambda i: "[h%d.%s]\nk%d.%s = 1\n" % (i, tail, i, tail))


def notes(size):
    """Prose with keys: a comment, two keys and strings of many lines in some 150 bytes, again and again."""
    return grown(size, lambda i: (
        '# what was seen on the way\nnote_%d = """\nThe boat lay still, and nobody \\\n  came to look at it."""\n'
        "by_%d = '''\nIda Lund,\nat the harbour'''\n\n" % (i, i)))


def short_strings(size):
    """Prose of short strings: five keys in some 190 bytes, two of them with strings of many lines, again and again."""
    return grown(size, lambda i: (
        'title_%d = "The boat at the harbour"\nby_%d = \'Ida Lund\'\nwhere_%d = "down by the \\"old\\" pier"\n'
        'note_%d = """\nIt lay still,\nand nobody came."""\nsaid_%d = \'\'\'\nNot today,\nthey said\'\'\'\n\n' % ((i,) * 5)))


def tables_of_97(size):
    """Tables of 97 keys, in lines of some 13 bytes."""
    rows = "".join("key_%d = %d\n" % (i, 37 * i % 1000) for i in range(97))
    return grown(size, lambda i: "[table_%d]\n%s\n" % (i, rows))


def subheaders(size):
    """Tables within tables, three deep, each with a header and one line."""
    return grown(size, lambda i: (
        "[table_%d]\nkey = %d\n\n[table_%d.part]\nkey = 1\n\n[table_%d.part.inner]\nkey = 2\n\n" % (i, i % 1000, i, i)))


def scattered(size):
    """Tables of 97 groups, none of which stands next to another of its group."""
    return grown(size, lambda i: "[group_%d.table_%d]\nkey = %d\n\n" % (37 * i % 97, i, i % 1000))


def many_keys(count):
    """One table of so many keys."""
    return "[table]\n" + "".join("key_%d = %d\n" % (37 * i % count, i % 1000) for i in range(count))


KINDS = (
    ("long strings and comments", prose),
    ("many short lines", lines),
    ("arrays of numbers", numbers),
    ("arrays of floats", floats),
    ("floats and dates", floats_and_dates),
    ("arrays of inline tables", tables),
    ("one large inline table", inline),
    ("prose with keys", notes),
    ("prose of short strings", short_strings),
    ("lock file", lock),
    ("manifests", manifest),
    ("one large table", one_table),
    ("one large table, short lines", short_table),
    ("one large table, with comments", noted_table),
    ("tables of 97 keys", tables_of_97),
    ("many root keys", root_keys),
    ("dotted keys 16 deep", dotted),
    ("many headers", headers),
    ("sub-headers", subheaders),
    ("scattered tables", scattered),
    ("many elements", elements),
    ("indented headers", indented),
    ("arrays of tables, one after another", rows_of_elements),
    ("implied tables, headers reversed", implied),
    ("paths of 80 segments", long_paths),
)
# The means of the ratios, and the kinds that each leaves out. For one of them the crate takes quadratic time.
MEANS = (("geometric mean", ()), ("without implied tables", ("implied tables, headers reversed",)))


def valgrind(program, text, tool, same, how=PRINT):
    """Runs the program on the text, and answers what valgrind says and what the tool writes. The program has to print the same text again, or
    at least to end with the status that is wanted."""
    with tempfile.TemporaryDirectory() as folder:
        source, out = os.path.join(folder, "in.toml"), os.path.join(folder, "out")
        with open(source, "w") as file:
            file.write(text)
        with open(source) as file:
            words = ["valgrind", "--tool=" + tool, "--%s-out-file=%s" % (tool, out), program, *how[0]]
            run = subprocess.run(words, stdin=file, capture_output=True, env=COPIES)
        if run.returncode != how[1] or same and run.stdout.decode() != text:
            raise ValueError("%s did not print what it read, or not end as it should" % program)
        with open(out) as file:
            return run.stderr.decode(), file.read()


def instructions(program, text, same=True, how=PRINT):
    said, _ = valgrind(program, text, "callgrind", same, how)
    return int(re.search(r"Collected : (\d+)", said).group(1))


def own_instructions(program, text):
    """Returns how many of the instructions are the program's, and neither the loader's nor those of other libraries."""
    _, wrote = valgrind(program, text, "callgrind", True)
    names, current, is_inclusive, count = {}, "", False, 0
    for line in wrote.split("\n"):
        word, _, rest = line.partition("=")
        if word in ("ob", "cob"):
            number, _, name = rest.partition(" ")
            names.setdefault(number, name)
            current = number if word == "ob" else current
        elif word == "calls":
            is_inclusive = True
        elif line[:1] in tuple("+-*0123456789"):
            count += 0 if is_inclusive or names.get(current) != os.path.abspath(program) else int(line.split()[1])
            is_inclusive = False
    return count


def peak(program, text, same=True):
    _, wrote = valgrind(program, text, "massif", same)
    return max(int(size) for size in re.findall(r"mem_heap_B=(\d+)", wrote))


def print_kind(program, measure, base, name, texts):
    """Prints a row for each text, which is given with what its size is called; and how what a byte takes grows from text to text."""
    before = None
    for size, text in texts:
        count = measure(program, text) - base
        per_byte = count / len(text.encode())
        print("| %s | %s | %d | %.1f | %s |" % (name, size, count, per_byte, "" if before is None else "%.3f" % (per_byte / before)))
        sys.stdout.flush()
        before = per_byte


def geometric_mean(numbers):
    return math.exp(sum(map(math.log, numbers)) / len(numbers))


def prints_same(program, text):
    run = subprocess.run([program, "print"], input=text.encode(), capture_output=True)
    return run.returncode == 0 and run.stdout == text.encode()


def is_parsed(program, text, how):
    """Whether the program ends in time and as it should. If it prints, that has to mean what the text means."""
    words = ["sh", "-c", 'ulimit -t %d; exec "$0" "$@"' % PATIENCE, program, *how[0]]
    run = subprocess.run(words, input=text.encode(), capture_output=True)
    if run.returncode != how[1] or how != PRINT:
        return run.returncode == how[1]
    import tomllib
    try:
        return tomllib.loads(run.stdout.decode()) == tomllib.loads(text)
    except tomllib.TOMLDecodeError:
        return False


class Column:
    """What a program takes for each byte of each kind of document, or None where it does not do what it should; and if this stands beside
    the column of `tomled`, the ratio of that one to it."""

    def __init__(self, pool, head, program, count, size, is_right, own=None, has_ratios=False):
        self.head, self.own, self.has_ratios = head, own, has_ratios
        self.base = pool.submit(count, program, "")
        self.counts = {name: pool.submit(self.count, program, count, make(size * 1024), is_right) for name, make in KINDS}

    def count(self, program, count, text, is_right):
        return (count(program, text) - self.base.result()) / len(text) if is_right(program, text) else None

    def ratio(self, name):
        count = self.counts[name].result()
        return self.own.counts[name].result() / count if self.own and count else None

    def heads(self):
        return [self.head] + ["Ratio"] * self.has_ratios

    def cells(self, name):
        """The number, with a decimal if it is below 100 and of no peer, and its ratio. Massif sees no heap of a program that is linked
        statically, so nothing may have been counted."""
        count = self.counts[name].result()
        if not count:
            return ["-"] * (1 + self.has_ratios)
        digits = 1 if count < 99.95 and (self.has_ratios or not self.own) else 0
        return ["%.*f" % (digits, count)] + (["%.2f" % self.ratio(name)] if self.has_ratios else [])

    def over_kinds(self, of, left_out):
        """What `of` makes of the ratios of all kinds but those that are left out."""
        ratios = [ratio for ratio in (self.ratio(name) for name in self.counts if name not in left_out) if ratio]
        return [""] * self.has_ratios + ["%.2f" % of(ratios) if ratios else "-" if self.own else ""]


def columns(pool, program, others, peers):
    """The columns of the table: instructions of printing, those of parsing alone, and memory."""
    def parsed(name, it, how, own=None):
        return Column(pool, name, it, functools.partial(instructions, same=False, how=how), 128, functools.partial(is_parsed, how=how), own)

    def of(it):
        return "of " + os.path.basename(it)

    made = [Column(pool, "Instructions a byte", program, instructions, 128, prints_same)]
    made += [Column(pool, of(it), it, instructions, 128, prints_same, made[0], True) for it in others]
    made += [parsed(of(it), it, PRINT, made[0]) for it in peers]
    if peers:
        made.append(parsed("Parsed alone", program, PARSE))
        made += [parsed(of(it), it, PEER_PARSE, made[-1]) for it in peers]
    if others:
        made.append(Column(pool, "Bytes a byte", program, peak, 1024, prints_same))
        made += [Column(pool, of(it), it, peak, 1024, prints_same, made[-1], True) for it in others]
    return made


def print_beside(program, others, peers):
    """Prints, for each kind, what the programs take, and below it the means of the ratios and the largest."""
    with concurrent.futures.ThreadPoolExecutor(os.cpu_count()) as pool:
        made = columns(pool, program, others, peers)
        starts = ["%d by %s" % (column.base.result(), os.path.basename(it)) for column, it in zip(made, (program, *others, *peers))]
        print("The empty text takes %s.\n" % ", ".join(["%s instructions %s" % tuple(starts[0].split(" ", 1)), *starts[1:]]))
        heads = [head for column in made for head in column.heads()]
        print("| Document | %s |" % " | ".join(heads))
        print("|---" * (1 + len(heads)) + "|")
        for name, _ in KINDS:
            print("| %s | %s |" % (name, " | ".join(cell for column in made for cell in column.cells(name))))
            sys.stdout.flush()
        for name, of, left_out in (*((name, geometric_mean, left_out) for name, left_out in MEANS), ("most", max, ())):
            print("| %s | %s |" % (name, " | ".join(cell for column in made for cell in column.over_kinds(of, left_out))))


def print_help():
    print(__doc__.strip() + "\n\nThe kinds of documents:\n")
    for name, make in KINDS:
        print("- %s: %s" % (name, " ".join(make.__doc__.split())))


def main():
    if "--help" in sys.argv:
        return print_help()
    words = [word for word in sys.argv[1:] if word != "--memory"]
    beside = {"--beside": [], "--peers": []}
    while words[:1] and words[0] in beside and words[1:]:
        beside[words[0]].append(words[1])
        words = words[2:]
    others, peers = beside.values()
    measure = peak if "--memory" in sys.argv else instructions
    program = words[0] if words else os.path.join(TOP, "crates/tomled/out/tomled")
    for it in (program, *others, *peers):
        if not os.path.exists(it):
            sys.exit("no program at %s: run `rt run` in crates/tomled first, or build the other program" % it)
    if others or peers:
        return print_beside(program, others, peers)
    base = measure(program, "")
    if measure is instructions:
        print("The empty text takes %d instructions, of which %d are the program's.\n" % (base, own_instructions(program, "")))
    print("| Document | KB | %s | A byte | Growth |" % ("Instructions" if measure is instructions else "Bytes"))
    print("|---|---|---|---|---|")
    for name, make in KINDS:
        print_kind(program, measure, base, name, [(str(size), make(size * 1024)) for size in SIZES])
    print_kind(program, measure, base, "one table of many keys", [("%d keys" % keys, many_keys(keys)) for keys in KEYS])


if __name__ == "__main__":
    sys.exit(main())
