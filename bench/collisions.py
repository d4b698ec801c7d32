#!/usr/bin/env python3
"""Prints how many instructions `tomled print` takes on texts whose keys were chosen to make it slow, beside as many ordinary keys of the
same lengths, and how the instructions a byte grow where there are twice as many keys.

The names are made for the index of `toml_edit_slots`: for the map of `src/hashed.rt`, for its tally of `src/tally.rt`, and for the trees
of `src/places.rt`, which take the map's place once too many names begin their search in one group or one region of it. The attacks:

- colliding: all names have one hash. Names of less than 32 bytes cannot have one: a hundred of them begin in one region, so that the trees
  take over, and the others are found there.
- descending: the same names in falling order of their second hashes, so that each goes before all that the trees have.
- full regions: the regions of one half of the map are next to each other, and filled with as many names as they may have. All names of a
  region begin in its last three groups, or in its first three, as many in each as may be, so that those of two regions begin side by side.
- one tag: tables of 640 keys with such regions, where all names have the tag by which a group tells its names apart.
- small tables: tables of 143 keys, in which groups alone are counted, whose names begin in six groups and have one tag.
- one group: tables of 35 keys, for which nothing is counted, whose names all begin in one group and have one tag.

All names of an attack begin alike, up to their last 8 bytes. None are made to agree in the second hash: by hashing names until two agree,
8,000 such pairs take some 2^39 names. Where names agree in it too, the later ones are found in a second tree, of the names themselves.

It counts with valgrind's callgrind, so the numbers are the same on every run of one build. It wants the built program: run `rt run` in
crates/tomled once, or name another program as the first argument.

Ends with status 1 if twice as many keys take more than 1.05 as many instructions a byte, or if chosen keys take more than 2.0 times the
instructions of ordinary ones.

    bench/collisions.py [PROGRAM]
    bench/collisions.py --text TABLE ATTACK SIZE COUNT     prints one of the texts
"""
import concurrent.futures, itertools, os, re, subprocess, sys, tempfile

TOP = os.path.dirname(os.path.dirname(os.path.abspath(__file__)))
COUNTS = (8000, 16000)
SIZES = (8, 16, 32, 64)
MOST_GROWTH, MOST_BESIDE = 1.05, 2.0
BARE = b"ABCDEFGHIJKLMNOPQRSTUVWXYZabcdefghijklmnopqrstuvwxyz0123456789_-"

# The hasher, as the kit has it: its first state, and the number that it multiplies by.
FIRST, TIMES, WORD = 0x243F6A8885A308D3, 0x9E3779B97F4A7C15, 2**64 - 1

# The second hasher, SipHash-1-3 with both keys 0, as std's `DefaultHasher` has it: its first state.
SECOND = (0x736F6D6570736575, 0x646F72616E646F6D, 0x6C7967656E657261, 0x7465646279746573)

# The shortest names that can be made to have any one hash; the groups of a region; the most names of a region; the most slots of a table
# that has no tally; and the slots for which a map has a group.
LONG, REGION, MOST, UNCOUNTED, LOAD = 32, 8, 80, 35, 5.5
# The most names of a group, and the most slots of a table in which groups alone are counted.
MOST_OF_GROUP, SMALL = 28, 143


def folded(a, b):
    """The two halves of the product, joined by xor."""
    return (a * b & WORD) ^ (a * b >> 64)


def read(name, at):
    return int.from_bytes(name[at:at + 8], "little")


def first_factor(prefix):
    """What the hasher multiplies by the last 8 bytes of a name that begins with these bytes: there are 8, 24, 40 or 56 of them."""
    size = len(prefix) + 8
    state = FIRST + size & WORD
    for at in range(0, (size - 1) // 16 * 16, 16):
        state = folded(read(prefix, at) ^ state, read(prefix, at + 8) ^ TIMES)
    return read(prefix, size - 16) ^ state


def hasher(prefix):
    """Returns the map's hash of the prefix and 8 bytes more, as a function of these."""
    if prefix:
        factor = first_factor(prefix)
        text = lambda last: folded(factor, read(last, 0) ^ TIMES)
    else:
        text = lambda last: folded(FIRST ^ read(last, 0), TIMES ^ 16)
    # One byte of ones ends a text.
    return lambda last: in_half(folded(text(last) ^ 0xFFFFFF, TIMES ^ 2))


def in_half(word):
    return (word ^ word >> 32) & 2**32 - 1


def turned(word, bits):
    return (word << bits | word >> 64 - bits) & WORD


def sip_round(a, b, c, d):
    a, c = a + b & WORD, c + d & WORD
    b, d = turned(b, 13) ^ a, turned(d, 16) ^ c
    a, c = turned(a, 32) + d & WORD, c + b & WORD
    return a, turned(b, 17) ^ c, turned(c, 32), turned(d, 21) ^ a


def second_hash(name):
    a, b, c, d = SECOND
    whole = len(name) // 8 * 8
    words = [read(name, at) for at in range(0, whole, 8)] + [(len(name) & 255) << 56 | read(name, whole)]
    for word in words:
        a, b, c, d = sip_round(a, b, c, d ^ word)
        a ^= word
    c ^= 255
    for _ in range(3):
        a, b, c, d = sip_round(a, b, c, d)
    return a ^ b ^ c ^ d


assert second_hash(b"") == 0xD1FBA762150C532C


def tail(number):
    """Eight characters of bare keys; each number below 2^48 has its own, in no order."""
    number = number * 0x9E3779B97F4B % 2**48
    return bytes(BARE[number >> 6 * i & 63] for i in range(8))


def ordinary(count, size):
    """Names with nothing to them."""
    return [tail(number) + (tail(number + 2**40) * 7)[:size - 8] for number in range(count)]


def one_hash(size):
    """A prefix after which the last 8 bytes do not change the hash, as the first factor is zero; or else any prefix."""
    if size < LONG:
        return b"p" * (size - 8)
    tries = 0
    while True:
        first = tail(tries) + b"p" * (size - 24)
        state = FIRST + size & WORD
        for at in range(0, size - 16, 16):
            state = folded(read(first, at) ^ state, read(first, at + 8) ^ TIMES)
        last = state.to_bytes(8, "little")
        if all(byte in BARE for byte in last):
            return first + last
        tries += 1


def chosen(count, prefix, mask, kept):
    """Names with the prefix for whose hash, less the bits that the mask does not have, `kept` has room: it maps each such hash that is
    wanted to the number of names that are wanted with it."""
    hashed, names, number = hasher(prefix), [], 0
    while len(names) < count:
        last = tail(number)
        here = hashed(last) & mask
        number += 1
        if kept.get(here, 0) > 0:
            kept[here] -= 1
            names.append(prefix + last)
    return names


def colliding(count, size):
    prefix = one_hash(size)
    # The region is the same one of 2,048, and so of fewer.
    crowd = [] if size >= LONG else chosen(min(100, count), prefix, 2047 * REGION, {0: 100})
    rest = [prefix + tail(number + 2**40) for number in range(count - len(crowd))]
    return crowd + rest


def descending(count, size):
    names = colliding(count, size)
    crowd = 0 if size >= LONG else 100
    return names[:crowd] + sorted(names[crowd:], key=second_hash, reverse=True)


def groups_for(count):
    groups = 1
    while LOAD * groups < count:
        groups *= 2
    return groups


def in_regions(count, size, tags, most):
    """Names of which each region has so many with each of the tags, from the first region on: two regions' names begin in two groups side
    by side. The tags are what is wanted of the hash, by the mask of the bits that are looked at."""
    mask, wanted = tags
    groups, prefix = groups_for(count), b"q" * (size - 8)
    starts = {}
    for region in range(-(-count // (most * len(wanted)))):
        for number in range(-(-most // MOST_OF_GROUP)):
            group = region * REGION + (number if region % 2 else REGION - 1 - number)
            starts[group] = min(MOST_OF_GROUP, most - number * MOST_OF_GROUP)
    names = chosen(count, prefix, groups - 1 | mask, {start | tag: room for start, room in starts.items() for tag in wanted})
    # The regions take turns, so that those of a smaller map have no more.
    hashed, of = hasher(prefix), {start: [] for start in starts}
    for name in names:
        of[hashed(name[-8:]) & groups - 1].append(name)
    return [name for turn in itertools.zip_longest(*of.values()) for name in turn if name]


def full_regions(count, size):
    return in_regions(count, size, (0, (0,)), MOST)


def one_tag(count, size):
    # So few regions are one half of those that a map has for these names.
    return in_tables(in_regions(8 * MOST, size, (0xFF << 24, (0xFF << 24,)), MOST), count)


def small_tables(count, size):
    groups = -(-SMALL // MOST_OF_GROUP)
    return in_tables(chosen(SMALL, b"p" * (size - 8), 0xFF00000F, {group: MOST_OF_GROUP for group in range(groups)}), count)


def one_group(count, size):
    prefix = one_hash(size)
    if size >= LONG:
        return in_tables([prefix + tail(number) for number in range(UNCOUNTED)], count)
    return in_tables(chosen(UNCOUNTED, prefix, 0xFF00000F, {0: UNCOUNTED}), count)


def in_tables(names, count):
    """A table of the names, again and again, as often as their number has room in the count."""
    return [names] * (count // len(names))


def lines(names):
    return "".join("%s = 1\n" % name for name in names)


# A text of tables with these names, for each kind of table. In the root there is one.
KINDS = {
    "root": lambda tables: lines(tables[0]),
    "header": lambda tables: "".join("[table_%d]\n" % number + lines(names) for number, names in enumerate(tables)),
    "inline": lambda tables: "".join("table_%d = { %s }\n" % (number, ", ".join("%s = 1" % name for name in names)) for number, names in enumerate(tables)),
    "dotted": lambda tables: "".join("table_%d.%s = 1\n" % (number, name) for number, names in enumerate(tables) for name in names),
    "headers": lambda tables: "".join("[table_%d.%s]\n" % (number, name) for number, names in enumerate(tables) for name in names),
}
WHOLE = {"colliding": colliding, "descending": descending, "full regions": full_regions}
PARTS = {"one tag": one_tag, "small tables": small_tables, "one group": one_group}
ATTACKS = {**WHOLE, **PARTS}


def tables_of(attack, size, count):
    """The names of an attack, a list for each table."""
    made = ATTACKS[attack](count, size)
    tables = [[name.decode() for name in names] for names in (made if attack in PARTS else [made])]
    assert all(len(set(names)) == len(names) and all(len(name) == size for name in names) for names in tables)
    return tables


def beside(tables, size):
    """As many ordinary names in tables of the same sizes."""
    return [[name.decode() for name in ordinary(len(names), size)] for names in tables]


def instructions(program, source):
    with tempfile.TemporaryDirectory() as folder:
        path = os.path.join(folder, "in.toml")
        with open(path, "w") as file:
            file.write(source)
        with open(path) as file:
            words = ["valgrind", "--tool=callgrind", "--callgrind-out-file=" + os.path.join(folder, "out"), program, "print"]
            run = subprocess.run(words, stdin=file, capture_output=True)
        if run.returncode or run.stdout.decode() != source:
            sys.exit("the program did not print what it read")
        return int(re.search(r"Collected : (\d+)", run.stderr.decode()).group(1))


def all_rows():
    return [(kind, size, attack) for kind in KINDS for size in SIZES for attack in ATTACKS if kind != "root" or attack in WHOLE]


def measured(program):
    """For each row and number of keys the instructions, those of ordinary keys, and the length of the text."""
    with concurrent.futures.ProcessPoolExecutor() as makers, concurrent.futures.ThreadPoolExecutor(os.cpu_count()) as pool:
        names = {key: makers.submit(tables_of, *key) for key in ((attack, size, count) for attack in ATTACKS for size in SIZES for count in COUNTS)}
        runs, taken = {}, {}

        def count_of(text):
            if text not in runs:
                runs[text] = pool.submit(instructions, program, text)
            return runs[text]

        base = count_of("")
        for kind, size, attack in all_rows():
            for count in COUNTS:
                tables = names[attack, size, count].result()
                text = KINDS[kind](tables)
                taken[kind, size, attack, count] = count_of(text), count_of(KINDS[kind](beside(tables, size))), len(text)
        return {key: (here.result() - base.result(), there.result() - base.result(), length) for key, (here, there, length) in taken.items()}


def main():
    if "--help" in sys.argv[1:]:
        return print(__doc__.strip())
    words = sys.argv[1:]
    if words[:1] == ["--text"]:
        kind, attack, size, count = words[1:]
        tables = tables_of(attack if attack in ATTACKS else "full regions", int(size), int(count))
        sys.stdout.write(KINDS[kind](tables if attack in ATTACKS else beside(tables, int(size))))
        return 0
    program = os.path.abspath(words[0]) if words else os.path.join(TOP, "crates/tomled/out/tomled")
    if not os.path.exists(program):
        sys.exit("no program at %s: run `rt run` in crates/tomled first" % program)
    taken = measured(program)
    print("| Table | Names of | Chosen | Keys | Instructions | A byte | Growth | Beside ordinary keys |")
    print("|---|---|---|---|---|---|---|---|")
    failed = 0
    for kind, size, attack in all_rows():
        before = None
        for count in COUNTS:
            here, there, length = taken[kind, size, attack, count]
            growth = 1 if before is None else here / length / before
            bad = growth > MOST_GROWTH or here / there > MOST_BESIDE
            failed += bad
            print("| %s | %d bytes | %s | %d | %d | %.1f | %s | %.2f |%s" % (
                kind, size, attack, count, here, here / length, "" if before is None else "%.3f" % growth, here / there, " too much" if bad else ""))
            before = here / length
    print("%d rows too much" % failed, file=sys.stderr)
    return 1 if failed else 0


if __name__ == "__main__":
    sys.exit(main())
