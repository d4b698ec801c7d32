"""The items of documents: tables, arrays and scalars, as Python's, with their comments and spellings.

Each is a dictionary, a list, a string or a number of Python. What is changed in one that stands in a document changes the text of the
document. One that was made, or was taken out of a document, stands by itself, and keeps its text until it is put into another.
"""

from __future__ import annotations

import contextlib
import re
from collections.abc import Iterable, Iterator, Mapping, Sequence
from typing import Any, cast

from . import _core, _spelling
from . import _index as _nodes
from ._index import Index
from ._keys import DottedKey, Key, KeyType, SingleKey
from ._scalars import (
    ABSENT, ALONE, Bool, Comment, ConvertError, Date, DateTime, Float, Integer, Item, Null, Path, String, StringType, Time, Trivia, Whitespace,
    comment_text, index_of, plain, scalar, whole,
)
from ._source import SHALLOW, Source
from ._text import Piece, kept_pieces, rendered
from .exceptions import KeyAlreadyPresent, NonExistentKey


def _spelled(given: Any) -> str:
    """A value as it is spelled; a table between braces."""
    if isinstance(given, Table):
        return "{%s}" % ", ".join("%s = %s" % (_spelling.key(key), _spelled(it)) for key, it in dict.items(given))
    if isinstance(given, AoT):
        return "[%s]" % ", ".join(map(_spelled, given))
    return given.as_string() if isinstance(given, Item) else _spelling.value(given)


class _Container(Item):
    """A table or an array."""

    def _children(self) -> Iterable[Any]:
        raise NotImplementedError

    def __copy__(self) -> Any:
        return self.__deepcopy__({})

    def _text_of(self) -> tuple[bytes, int, Path]:
        """A text in which it stands, with its flags and its path."""
        if self._parent is None and self._origin is not None:
            return self._origin
        place = self._place()
        if place is not None and self._node() is not None:
            return place[0].text, place[0].flags, place[1]
        return _alone_text(self).encode(), 1, (ALONE,)

    def __deepcopy__(self, _memo: Any) -> Any:
        if self._node() is None:
            made = _item(self.unwrap(), None, type(self))
            made._set_state(self)
            return made
        return _restored(*self._text_of())

    def __reduce_ex__(self, _protocol: Any) -> Any:
        if self._node() is None and not len(cast(Any, self)):
            return type(self), ()
        return _restored, self._text_of()

    def _set_state(self, other: Any) -> None:
        self._note, self._spaces = other._note, other._spaces

    def _settle(self) -> None:
        """Puts what was taken out into a document of its own."""
        _alone(self)

    def _let_go(self, text: tuple[bytes, int, Path] | None) -> None:
        """Takes it out of what it stands in."""
        self._parent = self._key = None
        self._origin = text


def _restored(text: bytes, flags: int, path: Path) -> Any:
    """A copy of what is at a path of a text."""
    index = Index(flags, text)
    made = _made(index, index.at(path), None, None)
    made._origin = (text, flags, path)
    return made


def _alone_text(item: Any) -> str:
    """The text of a document with an item that has no text."""
    if _is_headed(item):
        return rendered([ALONE], item._pieces()) or "[%s]\n" % ALONE
    return "%s = %s\n" % (ALONE, _spelled(item))


def _alone(item: Any) -> None:
    """Puts an item that was taken out into a document of its own."""
    text, flags, path = item._origin
    if path != (ALONE,):
        index = index_of(flags, text)
        at = index.at(path)
        if _is_headed(item):
            text = _alone_text(item).encode()
        else:
            text = ("%s = %s\n" % (ALONE, index.spelled(at))).encode()
    root = Table()
    root._source = Source(text, flags)
    item._origin = None
    dict.__setitem__(root, ALONE, item)
    item._parent, item._key = root, ALONE


def _made(index: Index, at: int, parent: Any, key: Any) -> Any:
    """The item of a node."""
    kind = index.kind[at]
    if kind == _nodes.BOOLEAN:
        return index.value(at)
    made: Any
    if kind == _nodes.STRING:
        made = String(index.value(at))
    elif kind in (_nodes.ARRAY, _nodes.ARRAY_OF_TABLES):
        made = Array() if kind == _nodes.ARRAY else AoT()
        list.extend(made, [_made(index, it, made, None) for it in index.below(at)])
    elif kind in _nodes.TABLES:
        made = InlineTable() if kind in (_nodes.INLINE_TABLE, _nodes.DOTTED_INLINE_TABLE) else Table()
        made._dotted = kind in (_nodes.DOTTED_TABLE, _nodes.DOTTED_INLINE_TABLE)
        made._fill(index, at)
    else:
        made = scalar(index.value(at))
    made._parent, made._key = parent, key
    return made


def item(value: Any, _parent: Any = None, _sort_keys: bool = False) -> Any:
    """Makes an item of a value of Python: of a mapping a table, and of mappings an array of tables."""
    return _item(value, _parent, None, _sort_keys)


def _item(value: Any, parent: Any, kind: Any = None, sort: bool = False) -> Any:
    if isinstance(value, Item):
        return value
    inline = isinstance(parent, (Array, InlineTable))
    made: Any = scalar(value)
    if made is not None:
        return made
    if isinstance(value, Mapping):
        made = kind() if kind else InlineTable() if inline else Table()
        if not all(isinstance(key, (str, Key)) for key in value):
            raise TypeError("the keys of a table are strings")
        for key, it in sorted(value.items(), key=lambda pair: (_is_table(pair[1]), pair[0] if sort else 1)):
            made.append(key, _item(it, made, None, sort))
        return made
    if isinstance(value, Sequence) and not isinstance(value, (bytes, bytearray, memoryview)):
        tables = value and all(isinstance(it, Mapping) for it in value) and not inline
        made = kind() if kind else AoT() if tables else Array()
        for it in value:
            made.append(_item(it, None if isinstance(made, AoT) else made, None, sort))
        return made
    raise ConvertError("TOML has no value for a %s" % type(value).__name__)


def _is_table(value: Any) -> bool:
    return isinstance(value, Mapping) and not isinstance(value, InlineTable)


def _own(given: Any, parent: Any) -> Any:
    """An item for a place in a table or an array: the one that is given if it stands by itself, or a copy."""
    made = _item(given, parent)
    if isinstance(made, Bool):
        return made.unwrap()
    if isinstance(made, Document) or made._parent is not None and not _is_alone(made):
        if isinstance(made, Document):
            made = _restored(made._source.text, made._source.flags, ())  # type: ignore[union-attr]
        else:
            made = made.__deepcopy__({})
    inline = isinstance(parent, (Array, InlineTable)) or isinstance(parent, Table) and parent._dotted
    if inline and _is_headed(made):
        kind = InlineTable if isinstance(made, Table) else Array
        made = _item(_inlined(made), parent, kind)
    return made


def _inlined(given: Any) -> Any:
    return {key: it for key, it in given.unwrap().items()} if isinstance(given, dict) else given.unwrap()


def _is_alone(given: Any) -> bool:
    """Whether an item is all of a document of its own."""
    return given._parent._source is not None and not isinstance(given._parent, Document) and given._key == ALONE


def _name(key: Any) -> str:
    if isinstance(key, Key):
        return key.key
    if not isinstance(key, str):
        raise TypeError("the keys of a table are strings, and not %s" % type(key).__name__)
    return str(key) if type(key) is not str else key


class Table(dict, _Container):
    """A table: a dictionary whose keys and values are those of the text.

    `add`, `append` and `remove` are tomlkit's.
    """

    # Whether it came about by a dotted key.
    _dotted = False
    _super: bool | None = None
    # Whether its header was written by itself, which is left out if a header below comes next.
    _fresh = False
    # The comments and empty lines that were added behind its lines.
    _tail = b""

    def __init__(self, *_given: Any) -> None:
        dict.__init__(self)
        # Its lines while it has no text: names, with comments and empty lines among them.
        self._body: list[tuple[Any, Any]] = []

    def _fill(self, index: Index, at: int) -> None:
        for child in index.below(at):
            name = index.name(child)
            dict.__setitem__(self, name, _made(index, child, self, name))

    def _children(self) -> Iterable[Any]:
        return dict.values(self)

    def copy(self) -> Any:
        """A copy that stands by itself."""
        return self.__deepcopy__({})

    def _set_state(self, other: Any) -> None:
        super()._set_state(other)
        self._super = other._super
        self._body = [(name, dict.__getitem__(self, name) if name in self else it) for name, it in other._body]

    # ---- reading

    def __getitem__(self, key: Any) -> Any:
        found = dict.get(self, key, ABSENT)
        if found is ABSENT:
            raise NonExistentKey(key)
        return found

    def unwrap(self) -> dict:
        """A copy as a plain dictionary."""
        return {str(key): plain(it) for key, it in dict.items(self)}

    def is_table(self) -> bool:
        return True

    def is_super_table(self) -> bool:
        """Whether it is above others and has no header of its own."""
        node = self._node()
        if node is not None:
            return node[0].kind[node[1]] == _nodes.IMPLICIT_TABLE
        if self._super is not None:
            return self._super
        return len(self) == 1 and all(map(_is_headed, self._children()))

    def is_aot_element(self) -> bool:
        return isinstance(self._parent, AoT)

    def as_string(self) -> str:
        """The lines of the table and of those below it, without its own header."""
        return rendered([], self._pieces())

    def __str__(self) -> str:
        return self.as_string()

    def _pieces(self) -> list[Piece]:
        """Its headers with their lines."""
        node = self._node()
        if node is not None:
            pieces = kept_pieces(*node)
            if pieces:
                # An element of an array of tables is a table by itself.
                pieces[0].double = pieces[0].double and bool(pieces[0].keys)
                return pieces
        body = self._body if node is None else list(dict.items(self))
        return self._made_pieces(body)

    def _made_pieces(self, body: list[tuple[Any, Any]]) -> list[Piece]:
        lines, below = "", []
        for key, it in body:
            if key is None:
                if below:
                    below[-1].body += it.as_string()
                else:
                    lines += it.as_string()
            elif _is_headed(it):
                lead = "\n" if (lines or below) and not (below[-1].body if below else lines).endswith("\n\n") and not lines == "\n" else ""
                pieces = [Piece([_key_text(key), *piece.keys], piece.double, piece.lead, piece.tail, piece.body) for piece in it._pieces()]
                if pieces and lead and not pieces[0].lead:
                    pieces[0].lead = lead
                below += pieces
            else:
                note = getattr(it, "_note", None)
                lines += "%s%s = %s%s\n" % (
                    " " * getattr(it, "_spaces", 0), _key_text(key), _spelled(it), " " + comment_text(note) if note else "")
        if not lines.strip() and self.is_super_table() and (below or self._super):
            return below
        return [Piece([], False, " " * self._spaces, " " + comment_text(self._note) if self._note else "", lines), *below]

    # ---- changing

    def __setitem__(self, key: Any, value: Any) -> None:
        if isinstance(key, DottedKey):
            self.append(key, value)
            return
        self._set(_name(key), value)

    @whole
    def _set(self, name: str, given: Any) -> None:
        old = dict.get(self, name, ABSENT)
        if old is given and isinstance(given, Item):
            return
        if isinstance(old, Table) and isinstance(given, Mapping) and not isinstance(given, Item) and given:
            old._change(given)
            return
        in_place = old is not ABSENT and not isinstance(old, (Table, AoT)) and not isinstance(given, Item)
        # A plain mapping in the place of a value is an inline table, so that the comment stays.
        new = _own(given, InlineTable() if in_place else self)
        place = self._place()
        if place is None:
            self._body = [(key, new if key == name else it) for key, it in self._body]
            if old is ABSENT:
                self._body.append((name, new))
        else:
            kept = self._kept(old, place, name)
            self._write(place[0], place[1], name, old, new)
            self._drop(old, kept)
            self._revive()
        dict.__setitem__(self, name, new)
        _adopt(new, self, name)

    def _change(self, given: Mapping) -> None:
        """Gives the table the keys and the values of a mapping, and leaves those that are the same."""
        for name in [name for name in self if name not in given]:
            del self[name]
        for name, it in given.items():
            if name not in self or _differs(dict.get(self, name), it):
                self[name] = it

    def _kept(self, old: Any, place: tuple[Source, Path], name: str) -> Any:
        return (place[0].text, place[0].flags, (*place[1], name)) if isinstance(old, _Container) and old._node() else None

    @staticmethod
    def _drop(old: Any, kept: Any) -> None:
        if isinstance(old, _Container):
            old._let_go(kept)
        elif isinstance(old, Item):
            old._parent = None

    def _revive(self) -> None:
        """Is in its table again, if it went with its last key."""
        if isinstance(self._parent, dict) and dict.get(self._parent, self._key) is not self:
            dict.__setitem__(self._parent, self._key, self)

    def _write(self, source: Source, path: Path, name: str, old: Any, new: Any) -> None:
        """Puts an item into the text."""
        there = _spelling.path((*path, name))
        if _is_headed(new):
            self._write_headers(source, path, name, old, new)
            return
        self._fresh = False
        if old is ABSENT and type(self) is not InlineTable:
            source.close_end()
        text = _spelled(new)
        simple = not isinstance(new, _Container) and not isinstance(old, _Container)
        edits: list[tuple[str, ...]] = []
        if isinstance(old, (Table, AoT)) and old._node():
            edits.append(("remove", there))
        if old is ABSENT and self._write_behind(source, path, name, text):
            pass
        else:
            # A table of which nothing is in the text gets a header.
            empty = not self._dotted and all(isinstance(it, _Container) for it in self._children()) and not self._node()
            word = "header" if empty else "set"
            edits.append((word, there, text))
        note = getattr(new, "_note", None)
        if note:
            edits.append(("comment", there, note))
        if edits:
            source.edit(*edits, waits=simple and not note and type(self) is not InlineTable and len(path) < SHALLOW)

    def _write_behind(self, source: Source, path: Path, name: str, text: str) -> bool:
        """Puts a line behind comments and empty lines that were added, if there are some."""
        if self._dotted or not (self._tail or not self and self._source and source.text):
            return False
        at = self._end_of_lines(source, path)
        start = "" if source.text[:at].endswith(b"\n") or not at else "\n"
        self._tail = b""
        source.splice(at, at, "%s%s = %s\n" % (start, _spelling.key(name), text))
        return True

    def _end_of_lines(self, source: Source, path: Path) -> int:
        index = source.index
        if self._source and not index.below(0):
            return len(index.text)
        return self._behind(index, index.end_of_lines(index.at(path)))

    def _behind(self, index: Index, end: int) -> int:
        """The byte behind the comments and empty lines that were added, if they are still there."""
        if not index.text.startswith(self._tail, end):
            self._tail = b""
        return end + len(self._tail)

    def _write_headers(self, source: Source, path: Path, name: str, old: Any, new: Any) -> None:
        pieces = new._pieces()
        fresh = type(new) is Table and not new and not new._body and new._super is None and not new._note
        if self._fresh and not self and old is ABSENT and pieces:
            index = source.index
            _replace(source, index, index.headers(index.at(path)), rendered(_prefix((*path, name)), pieces))
            self._fresh, new._fresh = False, fresh
            return
        new._fresh = fresh
        if _is_headed(old) and old._node():
            index, at = old._node()  # type: ignore[misc]
            headers = index.headers(at)
            if headers:
                _replace(source, index, headers, rendered(_prefix((*path, name)), pieces))
                return
        if old is not ABSENT and (not isinstance(old, _Container) or old._node()):
            source.edit(("remove", _spelling.path((*path, name))))
        if pieces:
            self._attach(source, path, name, pieces)

    def _attach(self, source: Source, path: Path, name: str, pieces: list[Piece]) -> None:
        """Puts headers with their lines behind all that is in the table."""
        above = path
        while above and not _has(source.index, above):
            above = above[:-1]
        index = source.index
        at = index.at(above)
        where = index.end_of_region(at) if above else len(index.text)
        if above and not any(map(_has_headers, self._children())):
            where = self._behind(index, where)
        before = index.text[:where]
        lead = "" if not before or before.endswith(b"\n") else "\n"
        if before and not before.endswith(b"\n\n") and (not above or index.below(at)) and before != b"\n":
            lead += "\n"
        if pieces[0].lead.startswith("\n"):
            pieces[0].lead = pieces[0].lead[1:] if lead.endswith("\n\n") or lead == "\n" else pieces[0].lead
        source.splice(where, where, lead + rendered(_prefix((*path, name)), pieces))

    def append(self, key: Any, _item: Any = None, *, validate: bool = True) -> Any:
        """Adds a key that is not there, or a comment or an empty line, which have the key `None`. Returns the table."""
        if isinstance(_item, (Comment, Whitespace)) or key is None:
            self._add_lines(_item)
        elif isinstance(key, Key) and key.is_multi():
            self._add_dotted(key, _item)
        else:
            name = _name(key)
            if name in self:
                self._merge(name, _item)
            elif isinstance(key, SingleKey) and key.as_string() != _spelling.key(name):
                self._add_spelled(key, _item)
            else:
                self._set(name, _item)
        return self

    def _merge(self, name: str, given: Any) -> None:
        """Adds what is in a table to the one that is there."""
        old = self[name]
        if isinstance(old, AoT) and isinstance(given, (AoT, Table)):
            old.extend(given if isinstance(given, AoT) else [given])
            return
        if not (isinstance(old, Table) and isinstance(given, Table)):
            raise KeyAlreadyPresent(name)
        for key, it in list(dict.items(given)):
            old.append(key, it)

    def _add_dotted(self, key: Key, given: Any) -> None:
        """Adds a line with a dotted key."""
        names = key.names()
        place = self._place()
        new = _own(given, self)
        if place is None:
            _alone_now(self)
            place = self._place()
        assert place is not None
        source, path = place
        at = self._end_of_lines(source, path)
        start = "" if source.text[:at].endswith(b"\n") or not at else "\n"
        source.splice(at, at, "%s%s = %s\n" % (start, key.as_string(), _spelled(new)))
        index = source.index
        self._resync_below(index, index.at(path), names[0])

    def _add_spelled(self, key: SingleKey, given: Any) -> None:
        """Adds a key with a spelling of its own."""
        self._set(key.key, given)
        place = self._place()
        if place is None:
            self._body = [(key if name == key.key else name, it) for name, it in self._body]
            return
        index = place[0].index
        at = index.at((*place[1], key.key))
        place[0].splice(index.key[0][at], index.key[1][at], key.as_string())

    def _resync_below(self, index: Index, at: int, name: str) -> None:
        """Reads a key of the text again."""
        child = next(it for it in index.below(at) if index.name(it) == name)
        _put_to_rest(dict.get(self, name))
        dict.__setitem__(self, name, _made(index, child, self, name))

    def add(self, key: Any, value: Any = None) -> Any:
        """Adds a key that is not there, or, alone, a comment or an empty line. Returns the table."""
        if value is None:
            if not isinstance(key, (Comment, Whitespace)):
                raise ValueError("Non comment/whitespace items must have an associated key")
            return self.append(None, key)
        return self.append(key, value)

    raw_append = append

    @whole
    def _add_lines(self, lines: Any) -> None:
        text = lines.as_string()
        place = self._place()
        if place is None:
            self._body.append((None, lines))
            return
        if self._dotted:
            self._parent._add_lines(lines)
            return
        source, path = place
        index = source.index
        if not _has(index, path):
            self._parent._attach(source, path[:-1], path[-1], [Piece([], False, "", "", text)])
            return
        at = index.at(path)
        if any(map(_has_headers, self._children())):
            where = index.end_of_region(at) if path else len(index.text)
        else:
            where = self._end_of_lines(source, path)
            self._tail += text.encode()
        start = "" if index.text[:where].endswith(b"\n") or not where else "\n"
        source.splice(where, where, start + text)

    def remove(self, key: Any) -> Any:
        """Removes a key. Returns the table."""
        self.__delitem__(key)
        return self

    def __delitem__(self, key: Any) -> None:
        self._delete(_name(key))

    @whole
    def _delete(self, name: str) -> Any:
        old = dict.get(self, name, ABSENT)
        if old is ABSENT:
            raise NonExistentKey(name)
        place = self._place()
        if place is None:
            self._body = [(key, it) for key, it in self._body if key != name]
            if isinstance(old, _Container):
                old._let_go(old._origin)
        else:
            kept = self._kept(old, place, name)
            if kept or not isinstance(old, _Container):
                place[0].edit(("remove", _spelling.path((*place[1], name))), waits=True)
            self._drop(old, kept)
        dict.__delitem__(self, name)
        if self._dotted and not self and isinstance(self._parent, dict):
            # A table of dotted keys goes with its last key.
            dict.pop(self._parent, self._key, None)
        return old

    def pop(self, key: Any, default: Any = ABSENT) -> Any:
        """Removes a key, and returns what was there, or the default if the key is missing."""
        if key not in self and default is not ABSENT:
            return default
        return self._delete(_name(key))

    def popitem(self) -> tuple[str, Any]:
        """Removes the last key, and returns it with what was there."""
        for key in reversed(self):
            return key, self._delete(key)
        raise KeyError("the table is empty")

    @whole
    def clear(self) -> None:
        """Removes all keys."""
        for key in list(self):
            self._delete(key)

    @whole
    def update(self, *given: Any, **more: Any) -> None:
        """Puts the values of a mapping or of pairs, and of keywords."""
        pairs = {_name(key): it for key, it in dict(*given, **more).items()}
        for it in pairs.values():
            _item(it, self)
        for key, it in pairs.items():
            self._set(key, it)

    def __ior__(self, other: Any) -> Any:
        self.update(other)
        return self

    def __or__(self, other: Any) -> Any:
        made = self.copy()
        made.update(other)
        return made

    @whole
    def setdefault(self, key: Any, default: Any = None) -> Any:
        """Returns what is under a key, where the default is put if the key is missing."""
        if key not in self:
            self[key] = default
        return self[key]

    # ---- what tomlkit lacks

    @whole
    def comment(self, *words: str) -> Any:
        """Sets the comment behind the header, or, with a key before it, behind the value or the header of the key."""
        if len(words) == 1:
            return Item.comment(self, words[0])
        found = self[words[0]]
        if isinstance(found, Item):
            found.comment(words[1])
        else:
            source, path = self._text_place()
            source.edit(("comment", _spelling.path((*path, words[0])), words[1]))
        return self

    def _text_place(self) -> tuple[Source, Path]:
        if self._place() is None:
            _alone_now(self)
        return cast(Any, self._place())

    @whole
    def spelled(self, key: str) -> str:
        """The value under a key as the document spells it."""
        source, path = self._text_place()
        if key not in self:
            raise NonExistentKey(key)
        return source.index.spelled(source.index.at((*path, key)))

    @whole
    def rename(self, key: str, name: str) -> None:
        """Gives a key another name. Its place, its value and its comments stay."""
        source, path = self._text_place()
        source.edit(("rename", _spelling.path((*path, key)), _spelling.key(name)))
        pairs = [(name if it == key else it, value) for it, value in dict.items(self)]
        dict.clear(self)
        for it, value in pairs:
            dict.__setitem__(self, it, value)
        _adopt(dict.get(self, name), self, name)

    @whole
    def sort(self) -> None:
        """Sorts the keys by their names."""
        source, path = self._text_place()
        source.edit(("sort", _spelling.path(path)))
        index = source.index
        pairs = dict(self)
        dict.clear(self)
        for child in index.below(index.at(path)):
            dict.__setitem__(self, index.name(child), pairs[index.name(child)])


class InlineTable(Table):
    """A table between braces."""

    def is_table(self) -> bool:
        return False

    def is_inline_table(self) -> bool:
        return True

    def is_super_table(self) -> bool:
        return False

    def as_string(self) -> str:
        if self._parent is not None or self._origin is not None:
            node = self._node()
            if node is not None and node[0].kind[node[1]] == _nodes.INLINE_TABLE:
                return node[0].spelled(node[1])
        return "{%s}" % ", ".join("%s = %s" % (_spelling.key(key), _spelled(it)) for key, it in dict.items(self))

    def _add_lines(self, lines: Any) -> None:
        if isinstance(lines, Comment):
            raise ValueError("an inline table has no comment")

    def _write_behind(self, source: Source, path: Path, name: str, text: str) -> bool:
        """Puts a pair behind the last one, with its white space, if there is neither comma nor comment."""
        index = source.index
        at = index.at(path)
        start, end = index.item[0][at], index.item[1][at]
        pair = "%s = %s" % (_spelling.key(name), text)
        if index.kind[at] != _nodes.INLINE_TABLE:
            return False
        if index.next[at] == at + 1:
            if index.text[start + 1 : end - 1].strip():
                return False
            source.splice(start + 1, end - 1, pair)
            return True
        last = max(index.item[1][it] for it in range(at + 1, index.next[at]))
        if index.text[last : end - 1].strip():
            return False
        source.splice(last, last, ", " + pair)
        return True


def _key_text(key: Any) -> str:
    return key.as_string() if isinstance(key, Key) else _spelling.key(key)


def _prefix(path: Path) -> list[str]:
    """The keys of a path, without the numbers of tables."""
    return [_spelling.key(key) for key in path if isinstance(key, str)]


def _has(index: Index, path: Path) -> bool:
    try:
        index.at(path)
        return True
    except KeyError:
        return False


def _is_headed(given: Any) -> bool:
    """Whether it is a table or an array of tables, which stand under headers."""
    return isinstance(given, (Table, AoT)) and not isinstance(given, InlineTable)


def _has_headers(given: Any) -> bool:
    return _is_headed(given) and not getattr(given, "_dotted", False)


def _differs(old: Any, new: Any) -> bool:
    return type(plain(old)) is not type(plain(new)) or plain(old) != plain(new) or repr(plain(old)) != repr(plain(new))


def _adopt(given: Any, parent: Any, key: Any) -> None:
    if isinstance(given, Item):
        given._parent, given._key, given._origin, given._raw, given._note = parent, key, None, given._raw, None
        if parent._root()._source is not None and isinstance(given, Table):
            given._body = []


def _alone_now(given: Any) -> None:
    """Gives an item that was made a text."""
    given._origin = (_alone_text(given).encode(), 1, (ALONE,))


def _put_to_rest(given: Any) -> None:
    """Makes an item raise `RuntimeError` from now on, since its text is gone."""
    if isinstance(given, _Container):
        for it in list(given._children()):
            _put_to_rest(it)
        given._let_go(None)
        given.__class__ = _GONE[next(kind for kind in _GONE if isinstance(given, kind))]  # type: ignore[assignment]


def _replace(source: Source, index: Index, headers: list[int], text: str) -> None:
    """Puts a text in the place of headers with their lines."""
    made, last = b"", len(index.text)
    for at in reversed(headers):
        end = index.end_of_lines(at)
        start = index.item[0][at]
        if at != headers[0] and index.before[1][at]:
            start = index.before[0][at]
        made = index.text[end:last] + made
        last = start
    source.put(index.text[:last] + text.encode() + made)


class _List(list, _Container):
    """An array, or an array of tables."""

    def __init__(self, *_given: Any) -> None:
        list.__init__(self)

    def copy(self) -> Any:
        """A copy that stands by itself."""
        return self.__deepcopy__({})

    def _number(self, given: Any) -> int:
        """The number of an element."""
        return next(at for at, it in enumerate(list.__iter__(self)) if it is given)

    def _children(self) -> Iterable[Any]:
        return list.__iter__(self)

    def unwrap(self) -> list:
        """A copy as a plain list."""
        return [plain(it) for it in list.__iter__(self)]

    def _at(self, at: int) -> int:
        count = len(self)
        place = at + count if at < 0 else at
        if not 0 <= place < count:
            raise IndexError("list index out of range")
        return place

    def insert(self, at: int, value: Any) -> None:
        """Inserts an element before another one."""
        count = len(self)
        self._insert(max(at + count, 0) if at < 0 else min(at, count), [value])

    def append(self, value: Any) -> None:
        """Adds an element at the end."""
        self._insert(len(self), [value])

    def extend(self, values: Iterable[Any]) -> None:
        """Adds elements at the end, or none of them if one is refused."""
        self._insert(len(self), list(values))

    def __iadd__(self, values: Any) -> Any:
        self.extend(values)
        return self

    def _insert(self, at: int, values: list) -> None:
        raise NotImplementedError

    def _put(self, at: int, value: Any) -> None:
        raise NotImplementedError

    def __setitem__(self, at: Any, value: Any) -> None:
        if not isinstance(at, slice):
            self._put(self._at(at), value)
            return
        values, places = list(value), range(*at.indices(len(self)))
        if len(values) == len(places):
            for place, it in zip(places, values):
                self._put(place, it)
        elif at.step not in (None, 1):
            raise ValueError("attempt to assign sequence of size %d to extended slice of size %d" % (len(values), len(places)))
        else:
            del self[at]
            self._insert(min(places.start, len(self)), values)

    @whole
    def __delitem__(self, at: Any) -> None:
        places = range(*at.indices(len(self))) if isinstance(at, slice) else [self._at(at)]
        place = self._place()
        for it in sorted(places, reverse=True):
            self._delete(place, it)

    def _delete(self, place: tuple[Source, Path] | None, at: int) -> None:
        old = list.__getitem__(self, at)
        if place is not None:
            kept = (place[0].text, place[0].flags, (*place[1], at)) if isinstance(old, _Container) else None
            place[0].edit(("remove", _spelling.path((*place[1], at))), waits=True)
            Table._drop(old, kept)
        elif isinstance(old, _Container):
            old._let_go(old._origin)
        list.__delitem__(self, at)

    @whole
    def pop(self, at: int = -1) -> Any:  # type: ignore[override]
        """Removes an element, and returns it."""
        found = self[self._at(at)]
        del self[at]
        return found

    def remove(self, value: Any) -> None:
        """Removes the first element that equals a value."""
        del self[self.index(value)]

    @whole
    def reverse(self) -> None:
        """Puts the elements in the opposite order. Comments stay at their places."""
        self[:] = self.unwrap()[::-1]

    @whole
    def sort(self, *, key: Any = None, reverse: bool = False) -> None:
        """Sorts the elements. Comments stay at their places."""
        self[:] = sorted(self.unwrap(), key=key, reverse=reverse)

    def __add__(self, other: Any) -> list:
        return self.unwrap() + plain(other)

    def __imul__(self, times: Any) -> Any:
        self[:] = self.unwrap() * times
        return self


class Array(_List):
    """An array."""

    # Whether it was asked to stand on one line or on several.
    _lines: bool | None = None

    def _set_state(self, other: Any) -> None:
        super()._set_state(other)
        self._lines = other._lines

    def as_string(self) -> str:
        if self._parent is not None or self._origin is not None:
            node = self._node()
            if node is not None:
                return node[0].spelled(node[1])
        return self._rendered()

    def _rendered(self) -> str:
        spelled = [_spelled(it) for it in list.__iter__(self)]
        return "[\n%s]" % "".join("    %s,\n" % it for it in spelled) if self._lines and spelled else "[%s]" % ", ".join(spelled)

    @whole
    def _insert(self, at: int, values: list) -> None:
        new = [_own(it, self) for it in values]
        place = self._place()
        if place is not None and new:
            path = place[1]
            last = at == len(self)
            simple = not any(isinstance(it, _Container) for it in new) and len(path) < SHALLOW
            edits = [
                ("append", _spelling.path(path), _spelled(it)) if last else ("insert", _spelling.path((*path, at + by)), _spelled(it))
                for by, it in enumerate(new)
            ]
            whole = self._lines and not len(self)
            place[0].edit(*edits, waits=simple and not whole)
        for by, it in enumerate(new):
            list.insert(self, at + by, it)
            _adopt(it, self, None)
        if place is not None and new and whole:
            self._render(place)

    def _render(self, place: tuple[Source, Path]) -> None:
        place[0].edit(("set", _spelling.path(place[1]), self._rendered()))

    @whole
    def _put(self, at: int, value: Any) -> None:
        old = list.__getitem__(self, at)
        if old is value and isinstance(value, Item):
            return
        new = _own(value, self)
        place = self._place()
        if place is not None:
            simple = not isinstance(new, _Container) and not isinstance(old, _Container)
            kept = (place[0].text, place[0].flags, (*place[1], at)) if isinstance(old, _Container) else None
            place[0].edit(("set", _spelling.path((*place[1], at)), _spelled(new)), waits=simple)
            Table._drop(old, kept)
        list.__setitem__(self, at, new)
        _adopt(new, self, None)

    @whole
    def clear(self) -> None:
        """Removes all elements."""
        place = self._place()
        if place is None or not self:
            list.clear(self)
            return
        text = place[0].text
        place[0].edit(("set", _spelling.path(place[1]), "[]"), waits=True)
        for at, it in enumerate(list.__iter__(self)):
            Table._drop(it, (text, place[0].flags, (*place[1], at)))
        list.clear(self)

    @whole
    def multiline(self, multiline: bool) -> Array:
        """Puts each element on a line of its own, or all on one. Returns the array."""
        self._lines = multiline
        place = self._place()
        if place is not None and len(self):
            self._render(place)
        return self

    @whole
    def add_line(self, *items: Any, indent: str = "    ", comment: str | None = None, add_comma: bool = True, newline: bool = True) -> None:
        """Adds elements on a line, with a comment behind them; without elements, the line of the closing bracket."""
        values = [it for it in items if not isinstance(it, (Comment, Whitespace))]
        spelled = ", ".join(_spelled(_own(it, self)) for it in values) + ("," if add_comma and values else "")
        text = self.as_string()
        inside = text[1:-1].rstrip() if newline else text[1:-1].rstrip(" \t")
        if len(self) and not _has_comma(text):
            inside += ","
        line = ("\n" if newline else "") + indent + spelled + ((" " if values else "") + "# " + comment if comment else "")
        made = "[%s%s%s]" % (inside, line, "\n" if comment and not spelled.endswith("\n") else "")
        place = self._place()
        if place is not None:
            place[0].edit(("set", _spelling.path(place[1]), made))
        for it in values:
            new = _own(it, self)
            list.append(self, new)
            _adopt(new, self, None)
        if place is None:
            self._origin = (("%s = %s\n" % (ALONE, made)).encode(), 1, (ALONE,))


def _has_comma(text: str) -> bool:
    """Whether an array has a comma behind its last element."""
    return bool(re.search(r",\s*(#[^\n]*\n\s*)*\]\Z", text))


class AoT(_List):
    """An array of tables, each with a header."""

    def is_aot(self) -> bool:
        return True

    @property
    def body(self) -> list:
        return list(self)

    def as_string(self) -> str:
        return rendered([_spelling.key(self._key or ALONE)], self._pieces())

    def _pieces(self) -> list[Piece]:
        node = self._node()
        if node is not None and node[0].headers(node[1]):
            return kept_pieces(*node)
        found: list[Piece] = []
        for it in list.__iter__(self):
            pieces = it._pieces() or []
            if not pieces or pieces[0].keys:
                pieces = [Piece([], True, "", "", ""), *pieces]
            pieces[0].double = True
            if found and not pieces[0].lead and not found[-1].body.endswith("\n\n"):
                pieces[0].lead = "\n"
            found += pieces
        return found

    @whole
    def _insert(self, at: int, values: list) -> None:
        new = [self._table(it) for it in values]
        for by, it in enumerate(new):
            place = self._place()
            if place is not None:
                self._write(place[0], place[1], at + by, it)
            list.insert(self, at + by, it)
            _adopt(it, self, None)
            self._revive()

    _revive = Table._revive

    def _table(self, given: Any) -> Table:
        if not isinstance(given, Mapping):
            raise TypeError("an array of tables has tables, and no %s" % type(given).__name__)
        if isinstance(given, InlineTable):
            given = given.unwrap()
        return cast(Table, _own(given, None))

    def _write(self, source: Source, path: Path, at: int, new: Table) -> None:
        pieces = new._pieces() or []
        if not pieces or pieces[0].keys:
            pieces = [Piece([], True, "", "", ""), *pieces]
        pieces[0].double = True
        if not len(self):
            self._parent._attach(source, path[:-1], path[-1], pieces)
            return
        index = source.index
        elements = index.below(index.at(path))
        text = rendered(_prefix(path), pieces)
        if at < len(self):
            where = index.item[0][elements[at]]
            source.splice(where, where, text if text.endswith("\n\n") else text + "\n")
            return
        where = list.__getitem__(self, -1)._behind(index, index.end_of_region(elements[-1]))
        before = index.text[:where]
        lead = ("" if before.endswith(b"\n") else "\n") + ("" if before.endswith(b"\n\n") or pieces[0].lead else "\n")
        source.splice(where, where, lead + text)

    @whole
    def _put(self, at: int, value: Any) -> None:
        old = list.__getitem__(self, at)
        if old is value:
            return
        new = self._table(value)
        place = self._place()
        if place is not None:
            kept = (place[0].text, place[0].flags, (*place[1], at))
            index = place[0].index
            pieces = new._pieces()
            if not pieces or pieces[0].keys:
                pieces = [Piece([], True, "", "", ""), *pieces]
            pieces[0].double = True
            _replace(place[0], index, index.headers(index.at((*place[1], at))), rendered(_prefix(place[1]), pieces))
            Table._drop(old, kept)
        list.__setitem__(self, at, new)
        _adopt(new, self, None)

    def _delete(self, place: Any, at: int) -> None:
        super()._delete(place, at)
        if place is not None and not self and isinstance(self._parent, dict):
            # It goes with its last table.
            dict.pop(self._parent, self._key, None)

    @whole
    def clear(self) -> None:
        """Removes all tables."""
        del self[:]


class Document(Table):
    """A TOML document: its root table, and its text.

    Threads may share it. A method of the document or of what is in it is one step for other threads, so that none of what
    they change is lost; `document["n"] += 1` is two.
    """

    _source: Source

    def __init__(self, text: str = "", *, toml_1_0: bool = False, keep_line_endings: bool = True) -> None:
        """Parses a text. Raises `TomlError` if it is not TOML."""
        super().__init__()
        if not isinstance(text, str):
            text = ""
        flags = _core.EXACT * keep_line_endings | _core.TOML_1_0 * toml_1_0
        self._source = Source(_core.call("print", flags, text.encode("utf-8", "surrogatepass")), flags)
        self._source.left = self._resync
        self._fill(self._source.index, 0)

    def as_string(self) -> str:
        """The text of the document."""
        with self._source.lock:
            return self._source.checked().decode()

    def _resync(self) -> None:
        """Reads the text again. What was in the document raises `RuntimeError` from now on."""
        for it in dict.values(self):
            _put_to_rest(it)
        dict.clear(self)
        self._tail = b""
        self._fill(self._source.index, 0)

    @whole
    def edit(self, *edits: Sequence[str]) -> None:
        """Makes edits by the words of `tomlfile edit`, one after another, or none of them if one is refused.

        Tables and arrays that were in the document raise `RuntimeError` then.
        """
        self._source.edit(*edits)
        self._resync()

    @contextlib.contextmanager
    def batch(self) -> Iterator[Document]:
        """Makes all changes of a block by one call of the library at its end, or none of them if one is refused."""
        with self._source.lock:
            text = self._source.begin()
            try:
                yield self
                self._source.text  # noqa: B018
                self._source.checked()
            except BaseException:
                self._source.end(text)
                self._resync()
                raise
            self._source.end(None)

    @whole
    def format(self) -> None:
        """Formats the document by the usual rules: spaces, empty lines, indentation, and the lines of arrays.

        Keys, values and comments stay as they are, and in their order.
        """
        self._source.put(_core.call("format", self._source.flags, self._source.checked()), True)

    def __str__(self) -> str:
        return self.as_string()

    def __deepcopy__(self, _memo: Any) -> Document:
        with self._source.lock:
            made = Document("")
            made._source.flags = self._source.flags
            made._source.put(self._source.checked(), True)
            made._fill(made._source.index, 0)
            return made

    def __reduce_ex__(self, _protocol: Any) -> Any:
        return Document, (self.as_string(),)


def _gone(*_given: Any, **_named: Any) -> Any:
    raise RuntimeError("the document changed: this is not in it any more")


_METHODS = """__getitem__ __setitem__ __delitem__ __iter__ __len__ __contains__ __eq__ __repr__ __str__ append insert extend pop update
 clear get items keys values setdefault unwrap as_string comment remove sort reverse index count multiline add""".split()
_GONE = {
    kind: type("Gone" + kind.__name__, (kind,), {name: _gone for name in _METHODS if hasattr(kind, name)}) for kind in (InlineTable, Table, Array, AoT)
}

AbstractTable = Table

__all__ = [
    "AbstractTable", "AoT", "Array", "Bool", "Comment", "ConvertError", "Date", "DateTime", "Document", "DottedKey", "Float", "InlineTable", "Integer",
    "Item", "Key", "KeyType", "Null", "SingleKey", "String", "StringType", "Table", "Time", "Trivia", "Whitespace", "item",
]
