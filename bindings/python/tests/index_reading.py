"""A reading of texts by another program, in Python alone: the nodes that an index has to have.

`nodes(text, exact)` returns for each node its kind, parent, next, name, content, key, item, before, after, line and column, by the same numbers
and spans of bytes as the library does. It reads accepted texts only.
"""

from __future__ import annotations

import re
import tomllib
from typing import Any

BARE = re.compile(rb"[A-Za-z0-9_-]+")
SCALAR = re.compile(rb"[^\s,\]}#]+(?: \d[^\s,\]}#]*)?")
TRIVIA = re.compile(rb"(?:[ \t\r\n]|#[^\n]*)*")
SPACE = re.compile(rb"[ \t]*")
KINDS = {"str": 1, "int": 2, "float": 3, "bool": 4, "datetime": 5, "date": 7, "time": 8}


class Node:
    def __init__(self, kind: int, key: tuple[int, int] = (0, 0), name: str | None = None) -> None:
        self.kind, self.key, self.name = kind, key, name
        self.content: str | None = None
        self.item = self.before = self.after = (0, 0)
        self.below: list[Node] = []

    def child(self, name: str) -> Node | None:
        return next((it for it in self.below if it.name == name), None)


class Reader:
    def __init__(self, text: bytes, exact: bool) -> None:
        self.text, self.exact, self.at = text, exact, 3 if text.startswith(b"\xef\xbb\xbf") else 0

    def skip(self, pattern: re.Pattern) -> tuple[int, int]:
        start = self.at
        self.at = pattern.match(self.text, start).end()  # type: ignore[union-attr]
        return (start, self.at) if self.at > start else (0, 0)

    def starts(self, what: bytes) -> bool:
        return self.text.startswith(what, self.at)

    def string_end(self) -> int:
        quotes = self.text[self.at : self.at + 3]
        quotes = quotes if quotes in (b'"""', b"'''") else quotes[:1]
        at = self.at + len(quotes)
        while not self.text.startswith(quotes, at):
            at += 2 if quotes[:1] == b'"' and self.text[at : at + 1] == b"\\" else 1
        at += len(quotes)
        while len(quotes) == 3 and self.text[at : at + 1] == quotes[:1]:
            at += 1
        return at

    def key(self) -> tuple[tuple[int, int], str]:
        start = self.at
        if self.text[start : start + 1] in (b'"', b"'"):
            self.at = self.string_end()
            name = tomllib.loads("k = %s" % re.sub(r"\\x(..)|\\(e)", plain, self.text[start : self.at].decode()))["k"]
        else:
            self.skip(BARE)
            name = self.text[start : self.at].decode()
        return (start, self.at), name

    def path(self) -> list[tuple[tuple[int, int], str]]:
        found = []
        while True:
            self.skip(SPACE)
            found.append(self.key())
            self.skip(SPACE)
            if not self.starts(b"."):
                return found
            self.at += 1

    def pair(self, table: Node, dotted: int) -> Node:
        """Reads a pair of a table, from its key on."""
        path = self.path()
        for span, name in path[:-1]:
            found = table.child(name)
            if found is None:
                found = Node(dotted, span, name)
                found.item = span
                table.below.append(found)
            elif found.kind == 13:
                found.kind = dotted
            table = found
        made = Node(0, *path[-1])
        table.below.append(made)
        self.at += 1
        self.skip(SPACE if dotted == 14 else TRIVIA)
        self.value(made)
        return made

    def value(self, made: Node) -> None:
        start, first = self.at, self.text[self.at : self.at + 1]
        if first == b"[":
            made.kind = 9
            self.inside(made, b"]")
        elif first == b"{":
            made.kind = 10
            self.inside(made, b"}")
        else:
            self.at = self.string_end() if first in (b'"', b"'") else SCALAR.match(self.text, start).end()  # type: ignore[union-attr]
            self.scalar(made, self.text[start : self.at].decode())
        made.item = (start, self.at)

    def scalar(self, made: Node, spelled: str) -> None:
        plainly = re.sub(r"\\x(..)|\\(e)", plain, spelled) if spelled[:1] == '"' else spelled
        if re.match(r"(?:\d{4}-\d\d-\d\d[Tt ])?\d\d:\d\d(?!:)", plainly):
            plainly = re.sub(r"(\d\d:\d\d)", r"\1:00", plainly, count=1)
        value = tomllib.loads("k = %s" % plainly.replace(":60", ":59"))["k"]
        made.kind = KINDS[type(value).__name__]
        if made.kind == 5 and value.tzinfo is None:
            made.kind = 6
        made.content = value if made.kind == 1 else None

    def inside(self, made: Node, end: bytes) -> None:
        """Reads what is between brackets or braces."""
        self.at += 1
        while True:
            before = self.skip(TRIVIA)
            if self.starts(end):
                break
            if end == b"]":
                it = Node(0)
                made.below.append(it)
                self.value(it)
            else:
                it = self.pair(made, 11)
            it.before = before
            it.after = self.skip(TRIVIA)
            if self.starts(b","):
                self.at += 1
        self.at += 1

    def line(self) -> tuple[int, int]:
        """Reads the rest of a line, without its newline, of which the exact way keeps the CR."""
        start = self.at
        found = self.text.find(b"\n", start)
        end = len(self.text) if found < 0 else found
        self.at = len(self.text) if found < 0 else found + 1
        end -= found >= 0 and not self.exact and self.text[start:end].endswith(b"\r")
        return (start, end) if end > start else (0, 0)

    def document(self) -> Node:
        root = here = Node(0)
        while True:
            start = self.at
            self.skip(TRIVIA)
            before = (start, self.at) if self.at > start else (0, 0)
            if self.at == len(self.text):
                root.after = before
                return root
            if self.starts(b"["):
                here = self.header(root, before)
            else:
                it = self.pair(here, 14)
                it.before, it.after = before, self.line()

    def header(self, root: Node, before: tuple[int, int]) -> Node:
        start, double = self.at, self.starts(b"[[")
        self.at += 2 if double else 1
        path = self.path()
        self.at += 2 if double else 1
        span, table = (start, self.at), root
        for key, name in path[:-1]:
            found = table.child(name)
            if found is None:
                found = Node(13, key, name)
                found.item = key
                table.below.append(found)
            table = found.below[-1] if found.kind == 15 else found
        key, name = path[-1]
        found = table.child(name)
        if double:
            if found is None:
                found = Node(15, key, name)
                found.item = span
                table.below.append(found)
            found.item = (found.item[0], span[1])
            made = Node(12)
            found.below.append(made)
        elif found is None:
            made = Node(12, key, name)
            table.below.append(made)
        else:
            # The header comes after those below it: the table stands where its header does.
            made = found
            made.kind, made.key = 12, key
            table.below.remove(made)
            table.below.append(made)
        made.item, made.before, made.after = span, before, self.line()
        return made


def plain(found: Any) -> str:
    return "\\u001b" if found[2] else "\\u00" + found[1]


def nodes(text: bytes, exact: bool) -> list[tuple]:
    """The nodes of a text, each before those below it."""
    root = Reader(text, exact).document()
    found: list[Any] = []
    names: list[bytes] = []

    def named(what: str | None) -> tuple[int, int]:
        if what is None:
            return (0, 0)
        start = sum(map(len, names))
        names.append(what.encode())
        return (start, start + len(names[-1]))

    def put(it: Node, parent: int) -> None:
        at = len(found)
        start = it.key[0] if it.name is not None else it.item[0]
        line = text.count(b"\n", 0, start) + 1
        column = len(text[text.rfind(b"\n", 0, start) + 1 : start].decode()) + 1
        name, content = named(it.name), named(it.content)
        row = [it.kind, parent, 0, *name, *content, *it.key, *it.item, *it.before, *it.after, line, column]
        found.append(row)
        for child in it.below:
            put(child, at)
        row[2] = len(found)

    put(root, 0)
    return [tuple(row) for row in found]
