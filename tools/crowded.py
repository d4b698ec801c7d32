#!/usr/bin/env python3
"""Writes rows on tables whose keys collide, for one of the programs of rows: always the same ones, as the names are chosen and not drawn.

    tools/crowded.py test_rows          documents that are read and refused, and runs of `tomled`
    tools/crowded.py test_rows_tables   calls on the root and on a table with a header
    tools/crowded.py test_rows_values   calls on an inline table, and by the trait of both kinds

The index of a table (`crates/toml_edit_slots/src/index.rt`) is a map until too many names begin their search in one region of it, or in one
group, and trees from then on. Regions are counted once the map has room for 144 names. So each table here has that many, of which 90 are
in one region. The answers are those of a list of pairs: what a call of the library does to the pairs, in order, by its documentation.

To compare with the rows that the programs have:

    tools/crowded.py test_rows | diff - <(sed -n '/^# .* whose keys collide/,/^$/{/./p}' crates/test_rows/stdin)
"""
import json
import os
import sys

TOP = os.path.dirname(os.path.dirname(os.path.abspath(__file__)))
sys.path.insert(0, TOP + "/bench")
sys.dont_write_bytecode = True

import collisions  # noqa: E402

# The regions of a map of up to 128 groups.
BITS = 15 * collisions.REGION
CROWD, SPARE = 90, 12
# The numbers of keys that a table of each kind needs, with some room.
READ, GROWN = 150, 190


def prefix(size):
    """What all names of this size begin with."""
    return b"key_of_more_than_16_bytes_"[:size - 8] if size >= collisions.LONG else b"k" * (size - 8)


def crowd(size):
    """Names of one region, and some more of these that no table begins with."""
    names = [name.decode() for name in collisions.chosen(CROWD + SPARE, prefix(size), BITS, {0: CROWD + SPARE})]
    return names[:CROWD], names[CROWD:]


def mixed(size, count):
    """The names of a table: the crowd, and ordinary names of the same size between them, and at the end."""
    few, spare = crowd(size)
    rest = [(prefix(size) + collisions.tail(number + 2**41)).decode() for number in range(count - CROWD + SPARE)]
    others, more = rest[:count - CROWD], rest[count - CROWD:]
    names = [name for pair in zip(few, others) for name in pair] + others[len(few):] + few[len(others):]
    assert len(set(names + spare + more)) == count + 2 * SPARE
    return names, few, others, spare, more


class Model:
    """A table as a list of names with numbers, and the steps that were made, each with what it has to give."""

    def __init__(self, names, to_ask, to_change, blank):
        self.pairs = [(name, number) for number, name in enumerate(names)]
        # The numbers as they were read display with the whitespace before them.
        self.shown = {number: blank + str(number) for _, number in self.pairs}
        self.to_ask, self.to_change, self.steps = to_ask, to_change, []

    def place(self, name):
        return next((at for at, (other, _) in enumerate(self.pairs) if other == name), None)

    def show(self, number):
        return self.shown.get(number, str(number))

    def ask(self, *words):
        self.steps.append([*self.to_ask, *words[:-1], "gives", words[-1]])

    def change(self, *words, gives=None):
        self.steps.append([*self.to_change, *words] + ([] if gives is None else ["gives", gives]))

    def look(self, *names):
        """Asks for each name what is there."""
        for name in names:
            at = self.place(name)
            if at is None:
                self.ask("contains_key", name, "false")
            else:
                self.ask("get", name, "as_integer", str(self.pairs[at][1]))

    def insert(self, name, number):
        at = self.place(name)
        if at is None:
            self.pairs.append((name, number))
        self.change("insert", name, str(number), gives="none" if at is None else self.show(self.pairs[at][1]))
        if at is not None:
            self.pairs[at] = name, number

    def remove(self, name):
        at = self.place(name)
        self.change("remove", name, gives="none" if at is None else self.show(self.pairs.pop(at)[1]))

    def rename(self, name, to):
        at, there = self.place(name), self.place(to)
        told = "Absent" if at is None else "Done" if there in (None, at) else "Taken"
        self.change("rename", name, to, gives=told)
        if told == "Done":
            self.pairs[at] = to, self.pairs[at][1]

    def move_to(self, name, to):
        at = self.place(name)
        self.change("move_to", name, str(to), gives="false" if at is None else "true")
        if at is not None:
            self.pairs.insert(to, self.pairs.pop(at))

    def insert_at(self, to, name, number):
        at = self.place(name)
        self.change("insert_at", str(to), name, str(number), gives=None if at is None else "present at %d: %s=%d" % (at, name, number))
        if at is None:
            self.pairs.insert(to, (name, number))

    def entry(self, name, number):
        at = self.place(name)
        if at is None:
            self.pairs.append((name, number))
        self.change("entry", name, str(number), gives="%s=%s" % (name, self.show(number if at is None else self.pairs[at][1])))

    def retain(self, name):
        self.change("retain", name)
        self.pairs = [pair for pair in self.pairs if pair[0] != name]

    def sort_values(self):
        self.change("sort_values")
        self.pairs.sort(key=lambda pair: pair[0].encode())

    def names(self):
        self.ask("iter", ", ".join(name for name, _ in self.pairs))

    def lines(self):
        return "".join("%s = %d\n" % pair for pair in self.pairs)


def lines(names):
    return "".join("%s = %d\n" % (name, number) for number, name in enumerate(names))


def work(table, parts):
    """Makes a step of each kind with names of the crowd and with others, and asks for what it may have touched."""
    _, few, others, spare, more = parts
    table.look(few[0], few[29], few[30], few[31], few[59], others[3], spare[0], more[0])
    table.insert(spare[0], 1000)
    table.insert(few[7], 1001)
    table.remove(few[40])
    table.remove(others[5])
    table.remove(few[40])
    table.look(few[7], few[39], few[40], few[41], others[4], others[5], spare[0])
    table.rename(few[11], spare[1])
    table.rename(few[12], few[13])
    table.rename(spare[9], more[9])
    table.rename(others[7], few[40])
    table.look(few[11], few[12], few[13], spare[1], few[40], others[7])
    table.move_to(few[14], 0)
    table.move_to(others[8], len(table.pairs) - 1)
    table.move_to(few[11], 3)
    table.insert_at(10, spare[2], 1002)
    table.insert_at(5, few[15], 1003)
    table.look(few[14], few[0], few[15], others[8], spare[2], few[59])
    table.entry(few[16], 1004)
    table.entry(spare[3], 1005)
    table.look(few[16], spare[3])
    table.names()


def arrange(table, parts):
    """Sorts the table and keeps all of it but one, and then adds to it again."""
    _, few, others, spare, more = parts
    table.sort_values()
    table.look(few[2], few[3], few[58], others[1], spare[4])
    table.retain(few[20])
    table.look(few[20], few[21], few[58], others[2])
    table.insert(few[20], 1006)
    table.insert(spare[4], 1007)
    table.insert(more[1], 1008)
    table.look(few[20], spare[4], more[1])
    table.names()


def table_rows():
    """Rows on the root and on a table with a header, as they were read."""
    for size in (8, 32):
        parts = mixed(size, READ)
        root = Model(parts[0], [], ["as_table_mut"], " ")
        work(root, parts)
        yield {"text": lines(parts[0]), "steps": root.steps, "prints": root.lines(), "fits": True, "settles": True}
    for size in (16, 32):
        parts = mixed(size, READ)
        under = Model(parts[0], ["get", "t", "as_table"], ["as_table_mut", "get_mut", "t", "as_table_mut"], " ")
        arrange(under, parts)
        yield {"text": "[t]\n" + lines(parts[0]), "steps": under.steps, "prints": "[t]\n" + under.lines(), "fits": True, "settles": True}
    yield from growing_rows()


def growing_rows():
    """Rows on a table that is added to until its index changes."""
    _, few, _, spare, _ = mixed(8, READ)
    most = collisions.MOST
    first = [name.decode() for name in collisions.ordinary(READ - most, 12)] + few[:most - 4]
    root = Model(first, [], ["as_table_mut"], " ")
    for number, name in enumerate(few[most - 4:most + 4]):
        root.insert(name, 2000 + number)
        root.look(name, spare[0])
    root.look(first[0], few[0], few[most - 5])
    root.insert(few[0], 3000)
    root.names()
    yield {"text": lines(first), "steps": root.steps, "prints": root.lines()}


def value_rows():
    """Rows on an inline table, and on the root by the trait."""
    for size in (8, 32):
        parts = mixed(size, GROWN)
        table = Model(parts[0], [], ["as_inline_table_mut"], "")
        inline_work(table, parts)
        yield {"value": inline(parts[0]), "steps": table.steps}
    parts = mixed(16, READ)
    root = Model(parts[0], ["as_table_mut", "like"], ["as_table_mut", "like"], " ")
    like_work(root, parts)
    yield {"text": lines(parts[0]), "steps": root.steps, "prints": root.lines(), "fits": True, "settles": True}


def inline(names):
    return "{%s}" % ",".join("%s=%d" % (name, number) for number, name in enumerate(names))


def inline_work(table, parts):
    """The steps of `work` and `arrange` that an inline table takes too."""
    _, few, others, spare, _ = parts
    table.look(few[0], few[30], few[31], few[59], others[3], spare[0])
    table.insert(spare[0], 1000)
    table.insert(few[7], 1001)
    table.remove(few[40])
    table.rename(few[11], spare[1])
    table.rename(few[12], few[13])
    table.move_to(few[14], 0)
    table.insert_at(10, spare[2], 1002)
    table.entry(few[16], 1004)
    table.entry(spare[3], 1005)
    table.look(few[7], few[40], few[11], few[12], few[14], few[16], spare[0], spare[1], spare[2], spare[3])
    table.sort_values()
    table.look(few[2], few[58], others[1])
    table.retain(few[20])
    table.look(few[20], few[21], few[58])
    table.ask("iter", "".join("<%s=%s>" % (name, table.show(number)) for name, number in table.pairs))


def like_work(table, parts):
    """Steps by the trait, which has its own words."""
    _, few, others, spare, _ = parts
    table.insert(spare[0], 1000)
    table.insert(few[7], 1001)
    table.remove(few[40])
    for name in (few[7], few[39], few[40], few[41], spare[0], spare[5], others[2]):
        at = table.place(name)
        table.ask("contains_key", name, "false" if at is None else "true")
        table.ask("get", name, "none" if at is None else table.show(table.pairs[at][1]))
    table.sort_values()
    table.names()


def text_rows():
    """Rows on documents that are read: their prints, a key that is there already, and runs of `tomled`."""
    for size in (8, 16, 32):
        names, few, others, _, _ = mixed(size, READ)
        text = lines(names)
        yield {"text": text, "prints": text, "settles": True, "fits": True}
        for name in (few[0], few[45], others[39]):
            yield refused(text, name + " = 1\n", 0, len(name))
    names, few, others, spare, _ = mixed(8, READ)
    for head, tail in (("[t.%s]\n", ""), ("t.%s = 1\n", ""), ("[[t.%s]]\n", "")):
        text = "".join(head % name for name in names)
        yield {"text": text, "prints": text, "settles": True, "fits": True}
    text = "".join("[t.%s]\n" % name for name in names)
    yield refused(text, "[t.%s]\n" % few[33], 3, 3 + len(few[33]))
    text = "a = %s\n" % inline(mixed(8, GROWN)[0])
    yield {"text": text, "prints": text, "settles": True, "fits": True}
    text = lines(names)
    for name in (few[50], others[2]):
        line = "%s = %d\n" % (name, names.index(name))
        yield run(["set", name, "7"], text, text.replace(line, "%s = 7\n" % name))
        yield run(["remove", name], text, text.replace(line, ""))
        yield run(["get", name], text, "%d\n" % names.index(name))
    yield run(["set", spare[0], "7"], text, text + "%s = 7\n" % spare[0])
    yield run(["get", spare[0]], text, "", "tomled: no such path\n", 2)


def refused(text, line, start, end):
    """A row on a text whose last line has a key that was there before."""
    at = len(text)
    return {"text": text + line, "refused": "duplicate key", "at": "%d..%d" % (at + start, at + end),
            "line": text.count("\n") + 1, "column": start + 1}


def run(words, text, output, errors="", status=0):
    return {"run": words, "input": text, "status": status, "output": output, "errors": errors}


ROWS = {
    "test_rows": ("Tables whose keys collide: what is read, and runs", text_rows),
    "test_rows_tables": ("Tables whose keys collide", table_rows),
    "test_rows_values": ("Inline tables whose keys collide, and tables by the trait", value_rows),
}


def main():
    if len(sys.argv) != 2 or sys.argv[1] not in ROWS:
        return print(__doc__.strip())
    heading, rows = ROWS[sys.argv[1]]
    print("# %s" % heading)
    for row in rows():
        print(json.dumps(row, ensure_ascii=False))
    return 0


if __name__ == "__main__":
    sys.exit(main())
