#!/usr/bin/env python3
"""Tries the programs beside a small model of the library (`tools/trees.py`), on random documents.

    tools/model.py [--in FOLDER | --unproved] rows [COUNT [SEED]]       rows of calls, by the three programs of rows (20,000)
    tools/model.py [--in FOLDER | --unproved] edits [COUNT [SEED]]      lists of edits, by `tomlfile edit` (5,000)
    tools/model.py [--in FOLDER | --unproved] fmt [COUNT [SEED]]        texts, by `tomlfile fmt` (5,000)
    tools/model.py .. --plant N ..                                      and N wrong answers, one at a time, each of which has to be noticed

A document is made of random statements, and changed by random calls or edits. The model says what each of them answers, what the document
prints in the end, and whether it fits. Where the program answers otherwise, the fewest statements and calls are printed that still show it.
Of a formatted text the model says that it has the same data (by `tomllib`), the same comments and the same spellings in the same order,
and is formatted as it is.

The programs are the proved ones, after `rt run < stdin` in the folder of each, or those in FOLDER, or built by `--unproved`. Ends with
status 1 if an answer is another, or a planted one is not noticed.
"""
import collections
import concurrent.futures
import copy
import functools
import json
import random
import re
import subprocess
import sys
import tempfile
import tomllib

import trees
import unproved
from trees import Document, Key, Lines, Node, Refused, display

KEYS = [("a", "a"), ("b", "b"), ("c", "c"), ("d-1", "d-1"), ('"d-1"', "d-1"), ("'a'", "a"), ('"e f"', "e f"), ("'g.h'", "g.h"), ('""', ""),
        ('"\\u00e9"', "é"), ("0", "0"), ("1", "1"), ("'i\\'", "i\\"), ('"j\\t\\"k"', 'j\t"k')]
NAMES = sorted({name for _, name in KEYS})
SCALARS = [
    ("1", "integer", 1), ("0x1F", "integer", 31), ("-7", "integer", -7), ("1_0", "integer", 10), ("+1", "integer", 1),
    ('"x"', "string", "x"), ("'x'", "string", "x"), ("'# \"no\", ] }'", "string", '# "no", ] }'), ('"\\u00e9\\e\\n"', "string", "é\x1b\n"),
    ('"""\nx\n# no\n"""', "string", "x\n# no\n"), ("'''x'''", "string", "x"), ('"""\\\n  y"""', "string", "y"), ("1.5", "float", "1.5"),
    ("-0.0", "float", "-0.0"), ("+inf", "float", "+inf"), ("6e-3", "float", "6e-3"), ("true", "boolean", True), ("false", "boolean", False),
    ("1979-05-27", "datetime", "1979-05-27"), ("07:32", "datetime", "07:32"), ("1979-05-27 07:32:00Z", "datetime", "1979-05-27T07:32:00Z"),
    ("1979-05-27T07:32:00z", "datetime", "1979-05-27T07:32:00Z"),
    ("1987-07-05T17:45:00.5-07:00", "datetime", "1987-07-05T17:45:00.5-07:00")]
TEXTS = [
    "", "x", "a b", "it's", 'say "a"', "\\", "é", "\x0b", "\x0c", "\x7f", "\x1b'", "\t", "\n", "a\nb'\"\\", "\r\n", "'\"", "\x00", "\x08\"'",
    "-", "1"]
BLANKS = ["", "", " ", " ", "\t", "  "]
ABOVE = ["", "", "", "  ", "\n", "# one\n", "\n# one\n\t", "\n\n", "# one\n# two\n  "]
AFTER = ["", "", "", " ", " # c", "\t#c ", " ##"]
GAPS = ["", "", " ", "\n  ", "\n\t# one\n    ", " # two\n  ", "\n", "\n\n# three\n"]
LINES = ["\n  ", "\n  ", "\n  # one\n  ", " # two\n  "]
SIDES = ["", " ", "\t", "\n", "# x\n", " # x", "\n# x\n  ", " # x\n\n", "x", "\r", " # x\r", "\r\n  ", "#\r\n"]
BODIES = [" new", "", "# new", "a\tb", "é", "no\nway", "\x7f", None]
TYPES = ["integer", "string", "array", "inline table", "float", "boolean", "datetime"]


class Skip(Exception):
    """A call that may not be made on what the document is now."""


# ---- documents


class Maker(random.Random):
    """Makes parts of documents, and arguments of calls."""

    def path(self, most=3):
        """The segments of a path: white space before, name, spelling, white space after, with none at its ends."""
        count = self.choice([1, 1, 1, 2, 2, 3][:most * 2])
        return [(self.choice(BLANKS) if at else "", name, spelled, self.choice(BLANKS) if at + 1 < count else "")
                for at, (spelled, name) in enumerate(self.choices(KEYS, k=count))]

    def scalar(self):
        text, kind, value = self.choice(SCALARS)
        return Node("scalar", text=text, value=(kind, value))

    def gap(self):
        return self.choice(GAPS) if self.random() < 0.5 else self.choice(BLANKS)

    def value(self, depth=0):
        kind = self.random() + depth * 0.15
        return self.scalar() if kind > 0.6 or depth > 2 else self.array(depth) if kind < 0.35 else self.inline(depth)

    def array(self, depth=0):
        node, by_line = Node("array"), self.random() < 0.4
        for _ in range(self.choice([0, 1, 2, 2, 3, 4])):
            inner = self.value(depth + 1)
            inner.decor = [self.choice(LINES), self.choice(["", "", " "])] if by_line else [self.gap(), self.gap()]
            node.items.append(inner)
        return self.closed(node, bool(node.items), self.gap)

    def inline(self, depth=0):
        node, gap = Node("inline"), self.gap if self.random() < 0.3 else lambda: self.choice(BLANKS)
        for _ in range(self.choice([0, 1, 2, 2, 3])):
            inner, tried = self.value(depth + 1), copy.deepcopy(node)
            inner.decor = [self.choice(BLANKS), gap()]
            try:
                trees.add_pair(tried, trees.segments(self.path(2)), [gap(), self.choice(BLANKS)], inner, "inline")
                node = tried
            except Refused:
                pass
        return self.closed(node, bool(node.slots), gap)

    def closed(self, node, has_parts, gap):
        node.comma = has_parts and self.random() < 0.35
        node.trailing = "" if has_parts and not node.comma else gap()
        return node

    def statement(self):
        """A line, or a header: its mark, what is before it, its path, what is in it and after it, and its value."""
        return ("=", *self.around(), self.value()) if self.random() < 0.7 else (self.choice(["[", "[", "[["]), *self.around(), None)

    def around(self, most=3):
        return self.choice(ABOVE), self.path(most), [self.choice(BLANKS), self.choice(BLANKS)], self.choice(AFTER)

    def case(self, values=()):
        """A document, in whose root these values are."""
        made = Case(self.random() < 0.3, self.choice(["\n", "\n", "\n", "\r\n"]), self.choice(["", "", None, "# end", "\n# end\n"]))
        made.mark = self.choice([""] * 9 + ["\ufeff"])
        for value in [*values, *[None] * self.choice([1, 2, 3, 5, 8])]:
            made.statements.append(("=", *self.around(1), value) if value else self.statement())
            try:
                made.tree()
            except Refused:
                made.statements.pop()
        return made

    def item(self, kinds=("value", "value", "value", "none", "table", "array of tables", "new", "document")):
        """An ITEM: its word, and what it is."""
        kind = self.choice(kinds)
        if kind == "value":
            node = self.value(1)
            return written(node), node
        if kind == "new":
            node = self.inline(1)
            return "new " + written(node), trees.made_table(copy.deepcopy(node))
        if kind == "document":
            case = Case(False, "\n", "")
            case.statements = [("[", self.choice(ABOVE), [("", "t", "t", "")], ["", ""], self.choice(AFTER), None), *self.lines()]
            return case.text(), case.tree().root.get("t")
        return kind, Node({"none": "nothing", "array of tables": "tables"}.get(kind, kind))

    def lines(self):
        """No line, or one."""
        return [("=", self.choice(ABOVE), self.path(1), ["", ""], self.choice(AFTER), self.scalar())] * self.choice([0, 1])

    def name(self, node):
        """A name that mostly is in a table."""
        names = [key.name for key, _ in node.slots]
        return self.choice(names) if names and self.random() < 0.75 else self.choice(NAMES)

    def place(self, parts):
        return self.randrange(len(parts) + 1)

    def way(self, node, most=4):
        """A path that mostly leads somewhere: the spellings of its keys, and their names."""
        names = []
        while len(names) < most and self.random() < (0.6 if names else 0.95):
            there = [key.name for key, _ in node.slots] or [str(at) for at in range(len(node.items) + 1)] if node else []
            names.append(self.choice(there) if there and self.random() < 0.85 else self.choice(NAMES))
            node = trees.child(node, names[-1]) if node else None
        spellings = {name: [trees.key_spelling(name)] + [spelled for spelled, one in KEYS if one == name] for name in names}
        return [self.choice(spellings[name]) for name in names], names


class Case:
    """A document of statements, and the calls or edits on it. Without a trailing text the last statement has no newline."""

    def __init__(self, exact, newline, trailing):
        self.exact, self.newline, self.trailing, self.mark, self.statements, self.calls = exact, newline, trailing, "", [], []

    def ended(self, text):
        return text and text.replace("\n", self.newline)

    def text(self):
        made = []
        for mark, above, path, inside, after, value in self.statements:
            spelled = inside[0].join(["", ".".join(map("".join, ((before, spelling, behind) for before, _, spelling, behind in path)))])
            if mark == "=":
                made.append(self.ended(above) + spelled[len(inside[0]):] + inside[0] + "=" + inside[1] + written(self.value(value)) + after)
            else:
                made.append(self.ended(above) + mark + spelled + inside[1] + mark.replace("[", "]") + after)
        if self.trailing is not None:
            made.append(self.ended(self.trailing))
        return self.mark + self.newline.join(made)

    def value(self, node):
        """A value with the newlines of the document in its decors; strings stay."""
        def end(node):
            node.decor, node.trailing = list(map(self.ended, node.decor)), self.ended(node.trailing)
            for key, _ in node.slots:
                key.leaf = list(map(self.ended, key.leaf))
            for inner in node.items + [inner for _, inner in node.slots]:
                end(inner)
            return node
        return end(copy.deepcopy(node))

    def tree(self):
        """The tree of the text, or `Refused`."""
        document = Document(self.exact)
        block, headers = document.root, 0
        document.open = self.exact and self.trailing is None and bool(self.statements)
        for number, (mark, above, path, inside, after, value) in enumerate(self.statements, 1):
            keys, above = trees.segments(path), self.ended(above)
            has_newline = number < len(self.statements) or self.trailing is not None
            behind = "\r" if self.exact and self.newline == "\r\n" and has_newline else ""
            if mark == "=":
                value = self.value(value)
                value.decor = [inside[1], after + behind]
                trees.add_pair(block, keys, [above, inside[0]], value, "table")
            else:
                headers += 1
                block = trees.add_header(document.root, keys, inside, [above, after + behind], mark == "[[", headers)
        document.trailing = self.ended(self.trailing or "")
        return document


def written(value):
    return trees.value_text(value, True)


# ---- calls: each draws its arguments, changes the node, and returns its words and its answer, or None where it writes nothing


def decor_call(maker, words, decor):
    """Sets a side of a decor, or comments."""
    kind = maker.choice(["prefix", "suffix", "comment_after", "comments_before"])
    if kind in ("prefix", "suffix"):
        decor[kind == "suffix"] = text = maker.choice(SIDES)
        return words + ["set_" + kind, text], None
    body = maker.choice(BODIES)
    if kind == "comments_before" and body is None:
        decor[0] = decor[0] and trees.without_comments(decor[0])
        return words + ["remove_comments_before"], None
    words = words + ["set_comment_after" if kind == "comment_after" else "add_comment_before"] + [body] * (body is not None)
    if not trees.may_stand(body):
        return words, "invalid comment"
    if kind == "comment_after":
        trees.set_comment(decor, body)
    else:
        decor[0] = trees.with_comment_line(body, decor[0] or "")
    return words, None


def is_true(flag):
    return str(bool(flag)).lower()


def slot_text(slot):
    return "%s=%s" % (slot[0].text(), display(slot[1]))


class InlineCalls:
    """Calls of an inline table, and of a table too."""
    KINDS = ("value",)

    def __init__(self, maker, node):
        self.maker, self.node, self.name, self.slots = maker, node, maker.name(node), node.slots
        self.at, self.place = node.place(self.name), maker.place(node.slots)
        self.word, self.item = maker.item(self.KINDS)
        self.spelled, self.named = maker.choice(KEYS)
        self.sides = [maker.choice(SIDES), maker.choice(BLANKS)] if maker.random() < 0.5 else ["", " "]

    def insert(self):
        old = trees.put(self.node, Key(self.name), self.item, lambda slot: [trees.reset(slot[0]), self.item])
        return ["insert", self.name, self.word], display(old)

    def insert_formatted(self):
        key = Key(self.named, self.spelled, self.sides)
        old = trees.put(self.node, key, self.item, lambda slot: [key, self.item])
        return ["insert_formatted", self.spelled, *self.sides, self.word], display(old)

    def extend(self):
        trees.put(self.node, Key(self.named, self.spelled, self.sides), self.item, lambda slot: [slot[0], self.item])
        return ["extend", self.spelled, *self.sides, self.word], None

    def remove(self):
        return ["remove", self.name], "none" if self.at is None else display(self.slots.pop(self.at)[1])

    def remove_entry(self):
        return ["remove_entry", self.name], "none" if self.at is None else slot_text(self.slots.pop(self.at))

    def rename(self):
        return ["rename", self.name, self.named], trees.rename(self.node, self.name, self.named)

    def move_to(self):
        if self.place == len(self.slots):
            raise Skip
        return ["move_to", self.name, str(self.place)], is_true(trees.move_to(self.node, self.name, self.place))

    def insert_at(self):
        words, at = ["insert_at", str(self.place), self.spelled, self.word], self.node.place(self.named)
        slot = [Key(self.named, self.spelled), self.item]
        if at is not None:
            return words, "present at %d: %s" % (at, slot_text(slot))
        return words, self.slots.insert(self.place, slot)

    def entry(self):
        trees.put(self.node, Key(self.name), self.item, lambda slot: slot)
        return ["entry", self.name, self.word], "%s=%s" % (self.name, display(self.slots[self.node.place(self.name)][1]))

    def sort_values(self):
        return ["sort_values"], trees.sort(self.node)

    def retain(self):
        self.node.slots = [slot for slot in self.slots if slot[0].name != self.name]
        return ["retain", self.name], None

    def clear(self):
        return ["clear"], self.slots.clear()

    def fmt(self):
        return ["fmt"], trees.format_slots(self.node)

    def key_decor(self):
        if self.at is None:
            raise Skip
        key, side = self.slots[self.at][0], self.maker.choice(["leaf", "leaf", "dotted"])
        return decor_call(self.maker, ["slot_mut", self.name, side + "_decor_mut"], getattr(key, side))

    def fmt_key(self):
        if self.at is None:
            raise Skip
        self.slots[self.at][0] = trees.reset(self.slots[self.at][0])
        return ["slot_mut", self.name, "fmt_key"], None


class TableCalls(InlineCalls):
    """Calls of a table."""
    KINDS = ("value", "value", "value", "none", "table", "array of tables", "new", "document")

    def set_flag(self):
        flag, is_so = self.maker.choice(["implicit", "dotted"]), self.maker.random() < 0.6
        return ["set_" + flag, is_true(is_so)], setattr(self.node, flag, is_so)

    def set_position(self):
        self.node.position = place = self.maker.choice([None, -1, 0, 1, 2, 9])
        return ["set_position", "none" if place is None else str(place)], None

    def forget_positions(self):
        return ["forget_positions"], trees.forget_positions(self.node)

    def header_decor(self):
        return decor_call(self.maker, ["decor_mut"], self.node.decor)


class TablesCalls:
    """Calls of an array of tables."""

    def __init__(self, maker, node):
        self.node, self.items, self.at, self.name = node, node.items, maker.place(node.items), maker.choice(NAMES)
        case = Case(False, "\n", "")
        case.statements = maker.lines()
        # What is put is the root of a document.
        self.text, self.table = case.text(), case.tree().root

    def push(self):
        return ["push", self.text], self.items.append(self.table)

    def insert(self):
        return ["insert", str(self.at), self.text], self.items.insert(self.at, self.table)

    def remove(self):
        if self.at == len(self.items) or self.items[self.at].kind != "table":
            raise Skip
        return ["remove", str(self.at)], display(self.items.pop(self.at))[len("table "):]

    def retain(self):
        self.node.items = [it for it in self.items if it.get(self.name) is not None]
        return ["retain", self.name], None


class ArrayCalls:
    """Calls of an array."""

    def __init__(self, maker, node):
        self.maker, self.node, self.items, self.at, self.value = maker, node, node.items, maker.place(node.items), maker.value(1)
        self.words = [written(self.value)]
        if maker.random() < 0.5:
            self.value.decor = sides = [maker.choice(GAPS + SIDES), maker.choice(GAPS + AFTER)]
            self.words += sides

    def is_there(self):
        if self.at == len(self.items):
            raise Skip

    def push(self):
        return ["push", *self.words], self.items.append(self.value)

    def insert(self):
        return ["insert", str(self.at), *self.words], self.items.insert(self.at, self.value)

    def replace(self):
        self.is_there()
        word, old = self.maker.choice(["replace", "replace_formatted", "get_mut"]), self.items[self.at]
        self.value.decor = old.decor if word == "replace" else self.value.decor
        self.items[self.at] = self.value
        return [word, str(self.at), *self.words], None if word == "get_mut" else display(old)

    def remove(self):
        self.is_there()
        return ["remove", str(self.at)], display(self.items.pop(self.at))

    def insert_line(self):
        return ["insert_line", str(self.at), *self.words], Lines(self.node).insert(self.at, self.value)

    def push_line(self):
        return ["push_line", *self.words], Lines(self.node).insert(len(self.items), self.value)

    def remove_line(self):
        self.is_there()
        return ["remove_line", str(self.at)], display(Lines(self.node).remove(self.at))

    def set_line_comment(self):
        self.is_there()
        body = self.maker.choice(BODIES)
        words = ["set_line_comment", str(self.at)] + [body] * (body is not None)
        return words, attempt(lambda: Lines(self.node).set_comment(self.at, body))

    def remove_comments_before(self):
        self.is_there()
        return ["remove_comments_before", str(self.at)], Lines(self.node).remove_comments(self.at)

    def element_decor(self):
        self.is_there()
        return decor_call(self.maker, ["element_decor_mut", str(self.at)], self.items[self.at].decor)

    def clear(self):
        return ["clear"], self.items.clear()

    def fmt(self):
        return ["fmt"], trees.format_array(self.node)

    def retain(self):
        kind = self.maker.choice(TYPES)
        self.node.items = [it for it in self.items if type_name(it) == kind]
        return ["retain", kind], None

    def sort_by(self):
        return ["sort_by"], self.items.sort(key=type_name)

    def extend(self):
        array = self.maker.array(1)
        return ["extend", written(array)], self.items.extend(array.items)

    def set_trailing(self):
        self.node.trailing = text = self.maker.choice(GAPS + SIDES)
        return ["set_trailing", text], None

    def set_trailing_comma(self):
        self.node.comma = is_so = self.maker.random() < 0.5
        return ["set_trailing_comma", is_true(is_so)], None


def type_name(node):
    return {"scalar": (node.value or ("",))[0], "inline": "inline table"}.get(node.kind, node.kind)


def attempt(change):
    """Why a change is refused, or None."""
    try:
        return change()
    except Refused as why:
        return str(why)


class DocumentCalls:
    """Calls of a document, most of them by paths."""

    def __init__(self, maker, document):
        self.maker, self.document, self.root = maker, document, document.root
        self.keys, self.names = maker.way(self.root)
        self.spelled = ".".join(self.keys)
        above = trees.item_at(self.root, self.names[:-1]) if self.names else None
        # The table that has the last key, unless that is a placeholder's.
        self.above = above if above and above.get(self.names[-1]) else None

    def set_at(self):
        headers, value = self.maker.random() < 0.5, self.maker.value(1)

        def change():
            self.document.root = trees.set_at(self.root, list(map(Key, self.names, self.keys)), value, headers)
        return ["set_at_with_headers" if headers else "set_at", self.spelled, written(value)], attempt(change)

    def remove_at(self):
        by_line = self.maker.random() < 0.5
        words = ["remove_line_at" if by_line else "remove_at", self.spelled]
        return words, attempt(lambda: trees.remove_at(self.root, self.names, by_line))

    def rename_at(self):
        name = self.maker.choice(NAMES)
        return ["rename_at", self.spelled, name], trees.rename(self.above, self.names[-1], name) if self.above else "Absent"

    def move_at(self):
        place = self.maker.randrange(4)
        return ["move_at", self.spelled, str(place)], is_true(self.above and trees.move_to(self.above, self.names[-1], place))

    def change_at(self):
        old = trees.item_at(self.root, self.names) if self.names else None
        if old:
            trees.replace(self.root, self.names, Node("scalar", value=("integer", 0)))
        return ["change_at", self.spelled], display(old)

    def get_at(self):
        return ["get_at", self.spelled], display(trees.item_at(self.root, self.names))

    def set_trailing(self):
        self.document.trailing = text = self.maker.choice(SIDES)
        return ["set_trailing", text], None

    def convert(self):
        if not self.names or not self.root.get(self.names[0]):
            raise Skip
        name, how = self.names[0], self.maker.choice(list(CONVERSIONS))
        change, kinds = CONVERSIONS[how]
        slot = self.root.slots[self.root.place(name)]
        slot[1] = change(slot[1])
        return ["as_table_mut", "get_mut", name, how], None if slot[1].kind in kinds else "none"


CONVERSIONS = {
    "make_value": (trees.made_value, trees.VALUES), "into_table": (trees.made_table, ["table"]),
    "into_array_of_tables": (trees.made_tables, ["tables"])}


def tables_in(document):
    """The tables that steps go to, each with its words: down through tables, or an element of an array of tables of the root."""
    def below(node, words, depth):
        yield node, words
        for key, inner in node.slots if depth < 2 else []:
            if inner.kind == "table":
                yield from below(inner, [*words, "get_mut", key.name, "as_table_mut"], depth + 1)
    yield from below(document.root, ["as_table_mut"], 0)
    for key, inner in document.root.slots:
        for at, it in enumerate(inner.items if inner.kind == "tables" else []):
            if it.kind == "table":
                yield it, ["as_table_mut", "get_mut", key.name, "as_array_of_tables_mut", "get_mut", str(at)]


# The calls of what the root has of a kind, and the word that goes there.
OF_KIND = {
    "tables": (TablesCalls, "as_array_of_tables_mut"), "array": (ArrayCalls, "item_as_array_mut"),
    "inline": (InlineCalls, "item_as_inline_table_mut")}
PROGRAMS = {"test_rows_tables": ["table", "table", "document", "document", "tables"], "test_rows_values": ["array", "array", "inline"]}


def step(document, program, seed):
    """Makes the random call of a seed, and returns the step of a row that it is."""
    maker = Maker(seed)
    kind = maker.choice(PROGRAMS[program])
    if kind == "document":
        before, calls = [], DocumentCalls(maker, document)
    elif kind == "table":
        node, before = maker.choice(list(tables_in(document)))
        calls = TableCalls(maker, node)
    else:
        there = [(key.name, node) for key, node in document.root.slots if node.kind == kind]
        if not there:
            raise Skip
        (name, node), (make, word) = maker.choice(there), OF_KIND[kind]
        before, calls = ["as_table_mut", "get_mut", name, word], make(maker, node)
    names = [name for name in dir(calls) if not name.startswith("_") and callable(getattr(type(calls), name, None)) and name != "is_there"]
    words, answer = getattr(calls, maker.choice(names))()
    return before + words + ([] if answer is None else ["gives", answer])


# ---- rows


def row_of(program, case):
    """The row of a case, with what the model answers."""
    document, steps, is_of_tables = case.tree(), [], program == "test_rows_tables"
    for seed in case.calls:
        tried = copy.deepcopy(document)
        try:
            steps.append(step(tried, program, seed))
        except Skip:
            continue
        document = tried
        if is_of_tables:
            steps.append(["print", "gives", trees.printed(document)])
    row = {"exact_text" if case.exact else "text": case.text(), "prints": trees.printed(document), "fits": trees.fits(document)}
    if row["fits"] and steps and is_of_tables:
        steps.append(["first_misfit", "gives", "none"])
    return {**row, "steps": steps} if steps else row


def text_row(maker):
    """A row that asks for a default spelling, for the places of a text, or for comments."""
    text, kind = "".join(maker.choice(TEXTS) for _ in range(maker.randrange(4))), maker.randrange(4)
    if kind == 0:
        return {"string": text, "shown": trees.string_spelling(text)}
    if kind == 1:
        return {"name": text, "says": text, "shown": trees.key_spelling(text), "default_repr": trees.key_spelling(text)}
    if kind == 2:
        return {"text": text, "line_columns": " ".join("%d:%d" % place for place in trees.places(text))}
    decor, steps = [None, None], []
    for _ in range(3):
        words, answer = decor_call(maker, ["decor_mut"], decor)
        steps.append(words + ([] if answer is None else ["gives", answer]))
    before, after = ("".join("<%s>" % body for body in trees.comments(decor[0] or ""))), trees.comment_of(decor[1] or "")
    steps += [["decor", "comments_before", "gives", before], ["decor", "comment_after", "gives", "none" if after is None else after]]
    return {"value": "1", "steps": steps, "shown": trees.shown(decor[0], False) + "1" + trees.shown(decor[1], False)}


def made_rows(task):
    """The random rows of a seed and of some numbers: each its program, its case or None, and itself."""
    (seed, numbers), made = task, []
    for number in numbers:
        maker = Maker("%d %d" % (seed, number))
        program = maker.choice(["test_rows", "test_rows_tables", "test_rows_tables", "test_rows_values"])
        if program == "test_rows" and maker.random() < 0.6:
            made.append((program, None, text_row(maker)))
            continue
        case = maker.case([maker.array(), maker.inline()] if program == "test_rows_values" else ())
        case.calls = [maker.random() for _ in range(maker.choice([1, 2, 3, 4, 6]))] if program in PROGRAMS else []
        made.append((program, case, row_of(program, case)))
    return made


def wrong_rows(program, rows):
    """Which of these rows do not hold, each with what the program says of it."""
    lines = [json.dumps(row) for row in rows]
    ran = subprocess.run([program], input="\n".join(lines) + "\n", capture_output=True, text=True, errors="replace")
    said, number, at = {}, {line: at for at, line in enumerate(lines)}, None
    for line in ran.stdout.split("\n") if ran.returncode else []:
        at = number.get(line, at)
        if at is not None:
            said[at] = said.get(at, "") + line + "\n"
    return said if said or not ran.returncode else {0: "status %d: %s%s" % (ran.returncode, ran.stdout[-500:], ran.stderr[-500:])}


def planted(row, maker):
    """The row with one answer made wrong."""
    row = copy.deepcopy(row)
    asked = [step for step in row.get("steps", []) if "gives" in step]
    if asked and maker.random() < 0.7:
        one = maker.choice(asked)
        one[-1] = one[-1][:-1] if len(one[-1]) > 1 and maker.random() < 0.5 else one[-1] + maker.choice(" x\n")
        return row
    field = maker.choice([name for name in row if name in ("prints", "fits", "shown", "says", "default_repr", "line_columns")])
    row[field] = not row[field] if isinstance(row[field], bool) else row[field] + "x"
    return row


def smallest(case, is_wrong):
    """The case with as few calls and statements as still make it wrong."""
    for field in ("calls", "statements", "calls"):
        at = 0
        while at < len(getattr(case, field)):
            fewer = copy.deepcopy(case)
            del getattr(fewer, field)[at]
            if attempt(lambda: is_wrong(fewer) or "right") in ("right", "duplicate key"):
                at += 1
            else:
                case = fewer
    return case


def split(count, size):
    """The numbers up to a count, in runs."""
    return [range(at, min(at + size, count)) for at in range(0, count, size)]


def try_rows(programs, count, seed, plants):
    """Tries rows. Returns how many of them do not hold, and how many planted answers are noticed."""
    made, faults, right, maker = collections.defaultdict(list), 0, [], Maker(seed)
    with concurrent.futures.ProcessPoolExecutor() as pool:
        for rows in pool.map(made_rows, [(seed, numbers) for numbers in split(count, 250)]):
            for name, case, row in rows:
                made[name].append((case, row))
    for name, rows in sorted(made.items()):
        program = programs[name]
        wrong = wrong_rows(program, [row for _, row in rows])
        for at in list(wrong)[:5]:
            case, row = rows[at]
            row = row_of(name, smallest(case, lambda it: wrong_rows(program, [row_of(name, it)]))) if case else row
            print("%s: %s" % (name, wrong_rows(program, [row]).get(0, wrong[at])))
        faults += len(wrong)
        right += [(program, row) for at, (_, row) in enumerate(rows) if at not in wrong]
    return faults, sum(bool(wrong_rows(program, [planted(row, maker)])) for program, row in maker.choices(right, k=plants))


# ---- edits


def edit_of(maker, root):
    """A random edit: its words, its name in the model, and its arguments."""
    verb, takes = maker.choice([
        ("set", "value"), ("string", "text"), ("header", "value"), ("table", "inline"), ("section", None), ("remove", None),
        ("append", "value"), ("append", "inline"), ("insert", "value"), ("insert", "inline"), ("take", "element"), ("rename", "key"),
        ("move", "path"), ("sort", None), ("comment", "comment")])
    keys, names = maker.way(root)
    words, arguments = [verb, ".".join(keys)], [names]
    if takes in ("value", "inline", "element"):
        node, there = maker.inline() if takes == "inline" else maker.value(1), trees.item_at(root, names)
        if takes == "element" and there and there.items and maker.random() < 0.8:
            node = trees.made_value(copy.deepcopy(maker.choice(there.items)))
            node.decor = [None, None]
        words, arguments = words + [written(node)], [names, node]
    elif takes in ("text", "comment"):
        text = maker.choice(BODIES) or "" if takes == "comment" else maker.choice([text for text in TEXTS if "\0" not in text])
        words, arguments = words + [text], [names, text if takes == "comment" else Node("scalar", value=("string", text))]
    elif takes == "key":
        spelled, name = maker.choice(KEYS)
        words, arguments = words + [spelled], [names, name]
    elif takes == "path":
        to, other = maker.way(root)
        words, arguments = words + [".".join(to)], [names, other]
    return words, "set" if verb == "string" else verb, arguments


def edit(root, one):
    """The root after an edit, or `Refused`."""
    edits = trees.Edits(copy.deepcopy(root))
    getattr(edits, one[1])(*copy.deepcopy(one[2]))
    return edits.root


def edited(case):
    """What the edits of a case leave: the text, or the number of the edit that is refused and why, or None where it does not fit."""
    document = case.tree()
    for number, one in enumerate(case.calls):
        try:
            document.root = edit(document.root, one)
        except Refused as why:
            return number + 1, str(why)
    return trees.printed(document) if trees.fits(document) else None


def edit_case(seed, number):
    """A case of random edits, of which few are refused."""
    maker = Maker("%d %d" % (seed, number))
    case = maker.case()
    root = case.tree().root
    for _ in range(maker.choice([1, 2, 3, 5, 8])):
        one = edit_of(maker, root)
        try:
            root = edit(root, one)
        except Refused:
            if maker.random() < 0.9:
                continue
        case.calls.append(one)
    return case


def edit_fault(program, case, wrong=""):
    """What is wrong with a run of `tomlfile edit`, or None. A text that is given makes the answer wrong."""
    command = [program] + ([] if case.exact else ["normal"]) + ["edit", "-"]
    edits = [words for words, _, _ in case.calls]
    with tempfile.NamedTemporaryFile("w", encoding="utf-8", newline="") as script:
        # Half of those that may be lines of a script are.
        if len(edits) % 2 == 0 and not any(not word or re.search(r"[\n\r]|^\s|\s$", word) for words in edits for word in words):
            script.write("".join(" ".join(words) + "\n" for words in edits))
            script.flush()
            command += ["--script", script.name]
        else:
            command += [word for words in edits for word in [",", *words]][1:]
        ran = subprocess.run(command, input=case.text().encode(), capture_output=True)
    meant, wrote, said = edited(case), ran.stdout.decode(), ran.stderr.decode()
    if isinstance(meant, str):
        status, output, message = 0, case.mark * case.exact + meant + wrong, ""
    elif meant is None:
        status, output, message = 2, "", "does not fit" + wrong
    else:
        # The path is shown in default spellings.
        status, output, message = 1 if meant[1] in ("no such path", "no such element") else 2, "", r": edit %d \(%s .*\): %s%s" % (
            meant[0], case.calls[meant[0] - 1][1], meant[1], wrong)
    is_right = (ran.returncode, wrote) == (status, output) and re.search(message, said, re.S)
    return None if is_right else "tomlfile edit %s < %r\nwanted %d %r %s\ncame   %d %r %s" % (
        " , ".join(map(" ".join, edits)), case.text(), status, output, message, ran.returncode, wrote, said)


# ---- the formatter

TOKEN = re.compile(
    r'"""(?:\\.|[^\\])*?"{3,5}|' + r"'''.*?'{3,5}|" + r'"(?:\\.|[^"\\\n])*"|' + r"'[^'\n]*'|#[^\n]*|[=\[\]{}.]|[^\s,=\[\]{}\"'#.]+", re.S)


def tokens(text):
    """The comments and spellings of a text, without commas, white space and its mark."""
    return [token.rstrip("\r") for token in TOKEN.findall(text.removeprefix("\ufeff"))]


def data_of(text):
    """What `tomllib` reads, as a text, or None where it refuses."""
    def plain(data):
        if isinstance(data, dict):
            return sorted((name, plain(inner)) for name, inner in data.items())
        return list(map(plain, data)) if isinstance(data, list) else repr(data)
    try:
        return repr(plain(tomllib.loads(text)))
    except tomllib.TOMLDecodeError:
        return None


def format_case(seed, number):
    return Maker("%d %d" % (seed, number)).case()


def format_fault(program, case, wrong=""):
    """What is wrong with a formatted text, or None. A text that is given is put behind it."""
    def formatted(text, words="fmt -"):
        ran = subprocess.run([program, *words.split()], input=text.encode(), capture_output=True)
        return ran.stdout.decode() if ran.returncode == 0 else "status %d: %s" % (ran.returncode, ran.stderr.decode())
    text = case.text()
    once, normal, bare = formatted(text) + wrong, formatted(text, "normal fmt -"), formatted(text, "fmt - --keys")
    document, data = case.tree(), data_of(text)
    document.exact = False
    faults = {
        "comments or spellings": tokens(once) != tokens(text) or tokens(normal) != tokens(trees.printed(document)),
        "its format": formatted(once) != once or formatted(normal, "normal fmt -") != normal,
        "data": data and not data == data_of(once) == data_of(normal) == data_of(bare), "bare keys": formatted(bare, "fmt - --keys") != bare}
    why = next((name for name, is_wrong in faults.items() if is_wrong), None)
    return why and "tomlfile fmt - < %r: %s of %r, %r or %r" % (text, why, once, normal, bare)


# ---- runs


def faults_of(task):
    """The numbers that are at fault, of some."""
    case_of, fault, program, seed, numbers = task
    return [number for number in numbers if fault(program, case_of(seed, number))]


def try_runs(case_of, fault, programs, count, seed, plants):
    """Tries runs of `tomlfile`. Returns how many are wrong, and how many planted answers are noticed."""
    program = programs["tomlfile"]
    with concurrent.futures.ProcessPoolExecutor() as pool:
        tasks = [(case_of, fault, program, seed, numbers) for numbers in split(count, 50)]
        wrong = [number for found in pool.map(faults_of, tasks) for number in found]
    for number in wrong[:5]:
        case = smallest(case_of(seed, number), lambda it: fault(program, it))
        print(fault(program, case))
    return len(wrong), sum(bool(fault(program, case_of(seed, number), "#wrong")) for number in range(plants))


WHAT = {
    "rows": (try_rows, ["test_rows", "test_rows_tables", "test_rows_values"], 20000),
    "edits": (functools.partial(try_runs, edit_case, edit_fault), ["tomlfile"], 5000),
    "fmt": (functools.partial(try_runs, format_case, format_fault), ["tomlfile"], 5000),
}


def main():
    words, plants = sys.argv[1:], 0
    if "--plant" in words[:-1]:
        at = words.index("--plant")
        plants, words = int(words[at + 1]), words[:at] + words[at + 2:]
    what = next((word for word in words if word in WHAT), None)
    if not what or "--help" in words:
        return print(__doc__.strip())
    tries, crates, usual = WHAT[what]
    with tempfile.TemporaryDirectory() as folder:
        found, words = unproved.programs(crates, words, folder)
        count, seed = [int(word) for word in words[1:] + [str(usual), "1"][len(words) - 1:]]
        faults, noticed = tries(dict(zip(crates, found)), count, seed, plants)
    print("%s: %d tried by seed %d, %d faults; %d wrong answers planted, %d noticed" % (what, count, seed, faults, plants, noticed))
    return 1 if faults or noticed != plants else 0


if __name__ == "__main__":
    sys.exit(main())
