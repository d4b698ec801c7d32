"""The index of a text: what is in it, and where."""

from __future__ import annotations

import ctypes
from typing import Any

from . import _core, _spelling
from ._spelling import Key

ROOT, STRING, INTEGER, FLOAT, BOOLEAN, OFFSET_DATETIME, LOCAL_DATETIME, LOCAL_DATE, LOCAL_TIME, ARRAY = range(10)
INLINE_TABLE, DOTTED_INLINE_TABLE, TABLE, IMPLICIT_TABLE, DOTTED_TABLE, ARRAY_OF_TABLES = range(10, 16)
TABLES = (ROOT, INLINE_TABLE, DOTTED_INLINE_TABLE, TABLE, IMPLICIT_TABLE, DOTTED_TABLE)
DATES = (OFFSET_DATETIME, LOCAL_DATETIME, LOCAL_DATE, LOCAL_TIME)
WIDTH = 17
SIZE = ctypes.sizeof(ctypes.c_size_t)


class Index:
    """The nodes of a text, each before those below it: a column for each of their numbers.

    A span of `key`, `item`, `before` and `after` is two columns of bytes of the text.
    """

    def __init__(self, flags: int, text: bytes) -> None:
        self.text = text
        numbers, names = _core.index(flags, text)
        columns = [numbers[at::WIDTH] for at in range(WIDTH)]
        self.kind, self.parent, self.next = columns[:3]
        self._name, self._content = columns[3:5], columns[5:7]
        self.key, self.item, self.before, self.after = columns[7:9], columns[9:11], columns[11:13], columns[13:15]
        self.line, self.column = columns[15:]
        self._names = names
        self._found: dict[tuple[Key, ...], int] = {(): 0}

    def name(self, at: int) -> str:
        """The name of the key of a node."""
        return self._names[self._name[0][at] : self._name[1][at]].decode()

    def below(self, at: int) -> list[int]:
        """The nodes right below one."""
        found, here, end = [], at + 1, self.next[at]
        while here < end:
            found.append(here)
            here = self.next[here]
        return found

    def at(self, path: tuple[Key, ...]) -> int:
        """The node at a path. Raises `KeyError` if there is none."""
        found = self._found.get(path)
        if found is None:
            above = self.at(path[:-1])
            if self.kind[above] in (ARRAY, ARRAY_OF_TABLES):
                keys: Any = enumerate(self.below(above))
            else:
                keys = ((self.name(at), at) for at in self.below(above))
            self._found.update(((*path[:-1], key), at) for key, at in keys)
            found = self._found[path]
        return found

    def cut(self, span: list[list[int]], at: int) -> bytes:
        """The bytes of a span of a node."""
        return self.text[span[0][at] : span[1][at]]

    def spelled(self, at: int) -> str:
        """A value as it is spelled."""
        return self.cut(self.item, at).decode()

    def value(self, at: int) -> Any:
        """The value of a scalar, as Python has it."""
        kind = self.kind[at]
        if kind == STRING:
            return self._names[self._content[0][at] : self._content[1][at]].decode()
        spelled = self.text[self.item[0][at] : self.item[1][at]].decode()
        if kind == INTEGER:
            return int(spelled, 0 if spelled[:1] == "0" and len(spelled) > 1 else 10)
        if kind == FLOAT:
            return float(spelled)
        if kind == BOOLEAN:
            return spelled == "true"
        return _spelling.other(spelled)

    def line_end(self, byte: int) -> int:
        """The byte behind the line of a byte."""
        end = self.text.find(b"\n", byte)
        return len(self.text) if end < 0 else end + 1

    def is_line(self, at: int) -> bool:
        """Whether a node stands on lines of the table around it, and has no header."""
        kind = self.kind[at]
        return kind not in (TABLE, IMPLICIT_TABLE, ARRAY_OF_TABLES, ROOT)

    def end_of_lines(self, at: int) -> int:
        """The byte behind the own lines of a table: its header and its pairs, those of dotted keys included."""
        end = 0
        if self.kind[at] == TABLE:
            end = self.line_end(max(self.item[1][at], self.after[1][at]))
        for child in self.below(at):
            if self.kind[child] == DOTTED_TABLE:
                end = max(end, self.end_of_lines(child))
            elif self.is_line(child):
                end = max(end, self.line_end(max(self.item[1][child], self.after[1][child])))
        return end

    def headers(self, at: int) -> list[int]:
        """The nodes with headers at a node and below it, in the order of the text."""
        found = [it for it in range(at, self.next[at]) if self.kind[it] == TABLE]
        return sorted(found, key=self.item[0].__getitem__)

    def end_of_region(self, at: int) -> int:
        """The byte behind the lines of a table and of all tables below it."""
        return max([self.end_of_lines(at), *(self.end_of_lines(it) for it in self.headers(at))])
