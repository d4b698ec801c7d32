#!/usr/bin/env python3
"""Writes rows of generated documents for crates/test_rows: always the same ones, as the seed is fixed.

A document is made in its settled form, which has to come back as it is. Then it is changed in ways that its normal form takes back:
lines and pairs of one dotted key are moved apart, keys are spelled and spaced otherwise where they are mentioned again, line endings
become CR LF, a mark is put in front, the last newline is left out. What is written of that has to be the settled form again.
"""
import json
import random
import sys

COUNT = 500
chance = random.Random(20260101)

# A newline of trivia, as yet without its form. Newlines inside strings stand as they are.
NEWLINE = "\0"

NAMES = ["a", "b", "c", "name", "key-1", "x_y", "1", "2024-01-02", "true", "", "a b", "a.b", "é", "#", "it's", 'say "x"', "tab\there"]

SCALARS = [
    "0", "7", "-1", "+42", "1_000", "0xdead_BEEF", "0o17", "0b1_0", "9223372036854775807",
    "1.5", "-0.0", "6.626e-34", "1e400", "inf", "-nan", "true", "false",
    "2024-02-29", "07:32", "23:59:60.5", "1979-05-27T07:32:00Z", "1979-05-27 00:32:00.999999-07:00", "2024-02-29t07:32",
    '""', '"plain"', '"C:\\\\dir"', '"\\u00e9\\U0001F600\\e\\x41"', "''", "'\\d+ # no'", '"# no"', "'größe'",
    '""""""', '"""\none\n  two"""', '"""a\\\n   b"""', "'''\r\nit's\r\n'''", '"""""x"""""',
]

WORDS = ["note", "see below", "größe", "= [1,", "'", '"', "TODO", "", "⛵ boats"]


def pick(items):
    return chance.choice(items)


def maybe(share):
    return chance.random() < share


def blank():
    return pick(["", "", " ", " ", "  ", "\t"])


def comment():
    return "#" + pick(["", " "]) + pick(WORDS)


def lead():
    """The trivia before a statement."""
    return "".join(pick(["", "", "", NEWLINE, blank() + comment() + NEWLINE, "  "]) for _ in range(2))


def inside():
    """The trivia beside an element or a pair."""
    return pick(["", "", "", " ", " ", NEWLINE + "  ", blank() + comment() + NEWLINE + "\t"])


def line_end():
    return pick(["", "", "", " ", " " + comment(), comment()])


def is_bare(name):
    return name != "" and all(c.isascii() and (c.isalnum() or c in "-_") for c in name)


def spellings(name):
    """Ways to spell a key."""
    found = ['"%s"' % "".join("\\u%04x" % ord(c) if c in '"\\\t' or not c.isascii() else c for c in name)]
    if is_bare(name):
        found = [name, name, name] + found
    if "'" not in name:
        found.append("'%s'" % name)
    if name and is_bare(name):
        found.append('"\\x%02X%s"' % (ord(name[0]), name[1:]))
    return found


class Key:
    """A key as it is kept: its spelling and the spaces at the dots beside it."""

    def __init__(self, name, before="", after=""):
        self.name, self.spelling, self.before, self.after = name, pick(spellings(name)), before, after

    def again(self):
        """Another mention of the key, which is not the one that is kept."""
        other = Key(self.name, blank(), blank())
        return other if maybe(0.5) else self


def path(keys):
    text = ""
    for at, key in enumerate(keys):
        text += (key.before if at else "") + key.spelling + (key.after + "." if at + 1 < len(keys) else "")
    return text


class Names:
    """Names that are not given twice."""

    def __init__(self):
        self.left = NAMES[:]
        chance.shuffle(self.left)

    def take(self):
        return self.left.pop()


def mixed(runs):
    """The runs, one among another, so that each begins behind where the one before it begins."""
    out, begun, runs = [], 0, [list(run) for run in runs]
    while any(runs):
        open_runs = [at for at in range(begun) if runs[at]]
        if begun < len(runs) and (not open_runs or maybe(0.5)):
            out.append(runs[begun].pop(0))
            begun += 1
        elif open_runs:
            out.append(runs[pick(open_runs)].pop(0))
    return out


def entries(names, depth, count):
    """Entries of a table: a key with a value, or a key with entries below it."""
    made = []
    for _ in range(count):
        name = names.take()
        if depth > 0 and maybe(0.35):
            key = Key(name, blank(), blank())
            made.append((key, entries(Names(), depth - 1, chance.randint(1, 2))))
        else:
            made.append((Key(name, blank()), None))
    return made


def flat(made, above, leaf):
    """The lines or pairs of entries: each by its keys and what `leaf` makes of it, and the runs in which they may be moved."""
    runs = []
    for key, below in made:
        if below is None:
            runs.append([(above + [key], leaf())])
        else:
            runs.append(flat(below, above + [key], leaf))
    return [line for run in runs for line in run]


def apart(made, lines):
    """The lines of entries, moved apart."""
    runs, at = [], 0
    for _key, below in made:
        count = 1 if below is None else len(flat(below, [], lambda: None))
        run = lines[at:at + count]
        runs.append(run if below is None else apart(below, run))
        at += count
    return mixed(runs)


def respelled(lines, known):
    """The lines with keys that were mentioned before spelled otherwise. `known` holds the keys that were."""
    out = []
    for keys, rest in lines:
        shown = []
        for key in keys:
            shown.append(key.again() if id(key) in known else key)
            known.add(id(key))
        out.append((shown, rest))
    return out


def listed(items, opening, closing):
    """A list with its commas: a text for each of two forms of the items."""
    comma = bool(items[0]) and maybe(0.3)
    last = inside() if comma or not items[0] else ""
    return tuple(opening + ",".join(form) + ("," if comma else "") + last + closing for form in items)


def value(depth):
    """A value in its settled form, and in another."""
    kind = chance.random()
    if depth == 0 or kind < 0.8:
        scalar = pick(SCALARS)
        return scalar, scalar
    if kind < 0.9:
        around = [(inside(), value(depth - 1), inside()) for _ in range(chance.randint(0, 3))]
        return listed([[a + v[form] + b for a, v, b in around] for form in (0, 1)], "[", "]")
    made = entries(Names(), 1, chance.randint(0, 3))
    pairs = flat(made, [], lambda: (inside(), blank(), blank(), value(depth - 1), inside()))
    moved = respelled(apart(made, pairs), set())

    def shown(lines, form):
        return [a + path(keys) + b + "=" + c + v[form] + d for keys, (a, b, c, v, d) in lines]
    return listed([shown(pairs, 0), shown(moved, 1)], "{", "}")


def block(made, known):
    """The lines of a block in its settled form, and in another. Keys in `known` were mentioned before."""
    lines = flat(made, [], lambda: (lead(), blank(), blank(), value(2), line_end()))
    moved = respelled(apart(made, lines), known)

    def shown(some, form):
        return ["%s%s%s=%s%s%s%s" % (a, path(keys), b, c, v[form], d, NEWLINE) for keys, (a, b, c, v, d) in some]
    return shown(lines, 0), shown(moved, 1)


def header(keys, is_array, inner, kept=None):
    """A header, in its settled form and in another: `kept` is the key that an array of tables keeps from an earlier one. The keys before
    the last are those of headers of their own."""
    a, b = lead(), line_end()
    left, right = ("[[", "]]") if is_array else ("[", "]")
    settled = keys[:-1] + [kept or keys[-1]]
    other = [key.again() for key in keys[:-1]]
    last = kept.again() if kept else keys[-1]
    inner_other = (blank(), blank()) if kept else inner
    texts = []
    for path_keys, spaces in ((settled, inner), (other + [last], inner_other)):
        texts.append(a + left + spaces[0] + path(path_keys) + spaces[1] + right + b + NEWLINE)
    return texts


def table(key, above, depth):
    """The blocks of a table with a header, and of tables below it: pairs of texts in order."""
    names = Names()
    below = []
    for _ in range(chance.randint(0, 2) if depth else 0):
        below.append(part(names.take(), above + [key], depth - 1))
    lines = block(entries(names, 2, chance.randint(0, 2)), set())
    own = [(header(above + [key], False, (blank(), blank())), lines)]
    tables = [blocks for is_array, blocks in below if not is_array]
    arrays = [blocks for is_array, blocks in below if is_array]
    if tables and not arrays and maybe(0.4):
        # The header of the table itself comes behind those below it.
        return [one for blocks in tables for one in blocks] + own
    return own + [one for _, blocks in below for one in blocks]


def part(name, above, depth):
    """A table or an array of tables with headers: whether it is an array, and its blocks."""
    if maybe(0.35):
        return True, elements(name, above, depth)
    return False, table(Key(name, blank() if above else ""), above, depth)


def elements(name, above, depth):
    """The blocks of an array of tables."""
    kept, inner, blocks = Key(name, blank() if above else ""), (blank(), blank()), []
    for number in range(chance.randint(1, 3)):
        own = header(above + [kept], True, inner, kept if number else None)
        names = Names()
        blocks.append((own, block(entries(names, 2, chance.randint(0, 2)), set())))
        if depth and maybe(0.4):
            _, inner_blocks = part(names.take(), above + [kept], 0)
            blocks += inner_blocks
    return blocks


def document():
    """A text in its settled form, and another one whose normal form that is."""
    names = Names()
    root = block(entries(names, 2, chance.randint(0, 2)), set())
    runs = [part(names.take(), [], 2)[1] for _ in range(chance.randint(0, 2))]
    blocks = []
    while any(runs):
        blocks.append(pick([run for run in runs if run]).pop(0))
    texts = ["".join(root[0]), "".join(root[1])]
    for head, lines in blocks:
        texts[0] += head[0] + "".join(lines[0])
        texts[1] += head[1] + "".join(lines[1])
    final = pick(["", "", "", NEWLINE, blank() + comment() + NEWLINE, "  ", comment()])
    settled = (texts[0] + final).replace(NEWLINE, "\n")
    other = texts[1] + final
    if final == "" and other.endswith(NEWLINE) and maybe(0.5):
        other = other[:-1]
    other = "".join(pick(["\n", "\r\n"]) if c == NEWLINE else c for c in other)
    if maybe(0.2):
        other = "\ufeff" + other
    return settled, other


def main():
    if sys.argv[1:] == ["--help"]:
        return print(__doc__.strip())
    written = set()
    while len(written) < COUNT:
        settled, other = document()
        # Short texts come more than once.
        if other not in written:
            written.add(other)
            print(json.dumps({"text": other, "prints": settled, "settles": True, "fits": True}, ensure_ascii=False))
    return 0


if __name__ == "__main__":
    sys.exit(main())
