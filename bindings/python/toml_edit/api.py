"""Reading and writing documents, and making items, by tomlkit's names."""

from __future__ import annotations

import datetime as _dates
from collections.abc import Mapping
from typing import IO, Any

from . import _spelling
from . import items as _items
from ._core import TomlError
from ._index import Index
from ._keys import Key, key
from .items import AoT, Array, Bool, Comment, Date, DateTime, Document, Float, InlineTable, Integer, String, StringType, Table, Time, Whitespace, item

TOMLDocument = Document


def loads(text: str | bytes, *, toml_1_0: bool = False, keep_line_endings: bool = True) -> Document:
    """Parses a text as TOML 1.1, or 1.0 if that is asked for. Raises `TomlError` if it is not TOML."""
    if isinstance(text, bytes):
        try:
            text = text.decode()
        except UnicodeDecodeError:
            raise TomlError("not UTF-8") from None
    return Document(text, toml_1_0=toml_1_0, keep_line_endings=keep_line_endings)


parse = loads


def dumps(data: Mapping, sort_keys: bool = False) -> str:
    """The text of a document, or of a mapping as a new document."""
    if not isinstance(data, Mapping):
        raise TypeError("Expecting Mapping or TOML Container, %s given" % type(data))
    if isinstance(data, (Document, InlineTable)) or isinstance(data, Table) and not sort_keys:
        return data.as_string()
    return item(dict(data), _sort_keys=sort_keys).as_string()


def load(fp: IO[Any]) -> Document:
    """Parses a file."""
    return loads(fp.read())


def dump(data: Mapping, fp: IO[str], *, sort_keys: bool = False) -> None:
    """Writes a document, or a mapping as a new document, into a file."""
    fp.write(dumps(data, sort_keys))


def document() -> Document:
    """Makes an empty document."""
    return Document()


def value(raw: str) -> Any:
    """Parses a value, as TOML spells it."""
    found = Index(1, ("_ = %s\n" % raw).encode("utf-8", "surrogatepass"))
    if "\n" in raw.rstrip("\n") and found.line_end(found.item[1][1]) != len(found.text) or found.next[0] != found.next[1]:
        raise TomlError("there is more than a value")
    if found.text[found.item[1][1] :].strip() or found.item[0][1] != 4 or found.name(1) != "_":
        raise TomlError("there is more than a value")
    if found.kind[1] == 4:
        return Bool(found.value(1))
    made = _items._made(found, 1, None, None)
    if isinstance(made, (Array, Table)):
        made._origin = (found.text, 1, ("_",))
    else:
        made._raw = found.spelled(1)
    return made


def key_value(src: str) -> tuple[Key, Any]:
    """Parses a key with its value."""
    found = Index(1, src.encode())
    at, names = 1, []
    while True:
        names.append(found.name(at))
        if found.kind[at] != 14:
            break
        at += 1
    return key(names[0] if len(names) == 1 else names), value(found.spelled(at))


def integer(raw: str | int) -> Integer:
    """Makes an integer of a number or its decimal text."""
    return item(int(raw))


def float_(raw: str | float) -> Float:
    """Makes a float of a number or its text."""
    return item(float(raw))


def boolean(raw: str) -> Bool:
    """Makes a Boolean of `true` or `false`."""
    return item(raw == "true")


def string(raw: str, *, literal: bool = False, multiline: bool = False, escape: bool = True) -> String:
    """Makes a string in the quotes that are asked for. Raises `InvalidStringError` if they cannot have it."""
    return String.from_raw(raw, StringType.select(literal, multiline), escape)


def _dated(raw: str, kind: type, name: str) -> Any:
    found = _spelling.other(raw)
    if type(found) is not kind:
        raise ValueError("%s() only accepts %s strings." % (name, name))
    return item(found)


def date(raw: str) -> Date:
    """Makes a date of its text."""
    return _dated(raw, _dates.date, "date")


def time(raw: str) -> Time:
    """Makes a time of its text."""
    return _dated(raw, _dates.time, "time")


def datetime(raw: str) -> DateTime:
    """Makes a date with a time of its text."""
    return _dated(raw, _dates.datetime, "datetime")


def array(raw: str | None = None) -> Array:
    """Makes an array, empty or of its text."""
    return Array() if raw is None else value(raw)


def table(is_super_table: bool | None = None) -> Table:
    """Makes an empty table; a super table has a header only if it has lines."""
    made = Table()
    made._super = is_super_table
    return made


def inline_table() -> InlineTable:
    """Makes an empty inline table."""
    return InlineTable()


def aot() -> AoT:
    """Makes an empty array of tables."""
    return AoT()


def ws(src: str) -> Whitespace:
    """Makes white space."""
    return Whitespace(src, fixed=True)


def nl() -> Whitespace:
    """Makes an empty line."""
    return ws("\n")


def comment(string: str) -> Comment:
    """Makes a comment on a line of its own."""
    return Comment("# " + string)
