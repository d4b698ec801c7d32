"""Scalars and what stands between items, as Python's own values with their spellings and comments."""

from __future__ import annotations

import contextlib
import datetime as _dates
import enum
import functools
import re
from collections.abc import Callable
from typing import Any, TypeVar, cast

from . import _index as _nodes
from . import _spelling
from ._core import TOMLKitError, TomlError
from ._index import Index
from ._source import Source
from .exceptions import InvalidStringError

Method = TypeVar("Method", bound=Callable[..., Any])
Path = tuple[Any, ...]
ABSENT: Any = object()
# The key of an item in a document of its own.
ALONE = "_"


class ConvertError(TypeError, ValueError, TOMLKitError):
    """TOML has no such value."""


class StringType(enum.Enum):
    """How a string is spelled: by its quotes."""

    SLB = '"'
    MLB = '"""'
    SLL = "'"
    MLL = "'''"

    @classmethod
    def select(cls, literal: bool = False, multiline: bool = False) -> StringType:
        return (cls.MLL if multiline else cls.SLL) if literal else (cls.MLB if multiline else cls.SLB)


class Trivia:
    """What stands around an item: the white space before its line, and the comment behind it, which can be set."""

    indent: str
    comment_ws: str
    comment: str
    trail: str
    _of: Any

    def __init__(self, indent: str = "", comment_ws: str = "", comment: str = "", trail: str = "\n", of: Any = None) -> None:
        vars(self).update(indent=indent, comment_ws=comment_ws, comment=comment, trail=trail, _of=of)

    def __setattr__(self, name: str, value: str) -> None:
        if name != "comment" or self._of is None:
            raise AttributeError("what stands around an item is set by its `comment` and `indent`")
        self._of.comment(value)
        vars(self)[name] = value


def whole(method: Method) -> Method:
    """Makes a method one step for other threads."""

    @functools.wraps(method)
    def made(self: Item, *given: Any, **named: Any) -> Any:
        source = self._root()._source
        with source.lock if source else contextlib.nullcontext():
            return method(self, *given, **named)

    return cast(Method, made)


@functools.lru_cache(maxsize=4)
def index_of(flags: int, text: bytes) -> Index:
    """The index of a text from which items were taken out."""
    return Index(flags, text)


class Item:
    """An item. `_parent` is the table or the array that it stands in, and `_key` its key there."""

    _parent: Any = None
    _key: Any = None
    # Its spelling and its comment, while it stands by itself.
    _raw: str | None = None
    _note: str | None = None
    _spaces = 0
    # The text of a document, if this is its root.
    _source: Source | None = None
    # Where it was taken out: a text, its flags and a path.
    _origin: tuple[bytes, int, Path] | None = None

    def _root(self) -> Any:
        here: Any = self
        while here._parent is not None:
            here = here._parent
        return here

    def _place(self) -> tuple[Source, Path] | None:
        """The text that it stands in, and its path there; or `None` if it was made and has no text."""
        here, path = self._way()
        if here._source is None and here._origin is not None:
            here._settle()
            here, path = here._parent, (ALONE, *path)
        return (here._source, path) if here._source is not None else None

    def _node(self) -> tuple[Index, int] | None:
        """The index of its text and its node there, or `None`."""
        here, path = self._way()
        if here._source is not None:
            index = here._source.index
        elif here._origin is not None:
            text, flags, above = here._origin
            index, path = index_of(flags, text), (*above, *path)
        else:
            return None
        try:
            return index, index.at(path)
        except KeyError:
            return None

    def _way(self) -> tuple[Any, Path]:
        """The outermost item that it stands in, and its path there."""
        path: list[Any] = []
        here: Any = self
        while here._parent is not None:
            path.append(here._key if isinstance(here._parent, dict) else here._parent._number(here))
            here = here._parent
        return here, tuple(reversed(path))

    def as_string(self) -> str:
        """The item as it is spelled."""
        if self._raw is not None:
            return self._raw
        node = self._node()
        return node[0].spelled(node[1]) if node else _spelling.value(self.unwrap())

    def unwrap(self) -> Any:
        """A copy as Python's own type."""
        raise NotImplementedError

    @property
    def value(self) -> Any:
        return self.unwrap()

    @whole
    def comment(self, comment: str) -> Any:
        """Sets the comment behind the item, or removes it if the text is empty.

        `"x"` and `"# x"` give `# x`; a text that begins with `#` stands as it is.
        """
        place = self._place()
        if place is None:
            self._note = comment
        else:
            place[0].edit(("comment", _spelling.path(place[1]), comment))
        return self

    @whole
    def indent(self, indent: int) -> Any:
        """Puts so many spaces before its line."""
        node = self._node()
        if node is None or self._parent is None:
            self._spaces = indent
            return self
        index, at = node
        start = (index.item if index.kind[at] == _nodes.TABLE else index.key)[0][at]
        line = index.text.rfind(b"\n", 0, start) + 1
        if not index.text[line:start].strip():
            self._place()[0].splice(line, start, " " * indent)  # type: ignore[index]
        return self

    @property
    def trivia(self) -> Trivia:
        """What stands around it."""
        node = self._node()
        if node is None or self._parent is None:
            return Trivia(" " * self._spaces, " " if self._note else "", comment_text(self._note) if self._note else "", of=self)
        index, at = node
        before, after = index.cut(index.before, at).decode(), index.cut(index.after, at).decode().rstrip("\r")
        white = after[: len(after) - len(after.lstrip(" \t"))]
        return Trivia(before.rpartition("\n")[2], white, after[len(white) :], of=self)

    def is_boolean(self) -> bool:
        return False

    def is_table(self) -> bool:
        return False

    def is_inline_table(self) -> bool:
        return False

    def is_aot(self) -> bool:
        return False


def comment_text(text: str) -> str:
    return text if text.startswith("#") else "# " + text


class Comment(Item):
    """A comment on lines of its own."""

    def __init__(self, text: str) -> None:
        self._text = text

    def as_string(self) -> str:
        return "%s%s\n" % (" " * self._spaces, self._text)

    def __str__(self) -> str:
        return self._text

    def unwrap(self) -> str:
        return self._text

    @property
    def trivia(self) -> Trivia:
        return Trivia(" " * self._spaces, "", self._text)


class Whitespace(Item):
    """White space and empty lines."""

    def __init__(self, s: str, fixed: bool = False) -> None:
        self.s = s

    def as_string(self) -> str:
        return self.s

    def is_fixed(self) -> bool:
        return True

    def unwrap(self) -> str:
        return self.s


class Null(Item):
    """Nothing."""

    def as_string(self) -> str:
        return ""

    def unwrap(self) -> None:
        return None


# ---- scalars


class _Scalar(Item):
    def __copy__(self) -> Any:
        return self.__deepcopy__({})

    def __deepcopy__(self, _memo: Any) -> Any:
        made = scalar(self.unwrap())
        made._raw = self.as_string()
        return made

    def __reduce_ex__(self, _protocol: Any) -> Any:
        return scalar, (self.unwrap(),)


class String(str, _Scalar):
    """A string."""

    def unwrap(self) -> str:
        return str.__str__(self)

    @classmethod
    def from_raw(cls, value: str, type_: StringType = StringType.SLB, escape: bool = True) -> String:
        spelled, characters = _spelled_string(value, type_, escape)
        made = cls(characters)
        made._raw = spelled
        return made


def _spelled_string(text: str, type_: StringType, escape: bool) -> tuple[str, str]:
    """A string in these quotes, and its characters. Raises `InvalidStringError` if they cannot have it."""
    quotes = type_.value
    lines = len(quotes) == 3
    if quotes[0] == "'":
        if quotes in text or any((c < " " or c == "\x7f") and c != "\t" and not (lines and c == "\n") for c in text):
            raise InvalidStringError("%r cannot stand between %s" % (text, quotes))
        inside = text
    elif escape:
        inside = _spelling.string(text)[1:-1]
        if lines:
            inside = re.sub(r'\\(.)', lambda found: {"n": "\n", '"': '"'}.get(found[1], found[0]), inside).replace('"""', '""\\"')
    else:
        inside = text
    # A newline behind the first quotes is none of the string's.
    made = quotes + ("\n" if lines and inside.startswith("\n") else "") + inside + quotes
    if not escape or lines:
        try:
            found = Index(0, ("_ = %s\n" % made).encode())
        except TomlError:
            raise InvalidStringError("%r cannot stand between %s" % (text, quotes)) from None
        if found.next[0] != 2 or found.kind[1] != _nodes.STRING or escape and found.value(1) != text:
            raise InvalidStringError("%r cannot stand between %s" % (text, quotes))
        return made, found.value(1)
    return made, text


class Integer(int, _Scalar):
    """An integer."""

    def unwrap(self) -> int:
        return int(self)


class Float(float, _Scalar):
    """A float."""

    def unwrap(self) -> float:
        return float(self)


class DateTime(_dates.datetime, _Scalar):
    """A date with a time."""

    def unwrap(self) -> _dates.datetime:
        return _dates.datetime.combine(_dates.datetime.date(self), _dates.datetime.timetz(self))


class Date(_dates.date, _Scalar):
    """A date."""

    def unwrap(self) -> _dates.date:
        return _dates.date(self.year, self.month, self.day)


class Time(_dates.time, _Scalar):
    """A time."""

    def unwrap(self) -> _dates.time:
        return _dates.time(self.hour, self.minute, self.second, self.microsecond, self.tzinfo)


class Bool(_Scalar):
    """A Boolean by itself. In tables and arrays it is a `bool`."""

    def __init__(self, t: bool) -> None:
        self._value = bool(t)

    def unwrap(self) -> bool:
        return self._value

    def is_boolean(self) -> bool:
        return True

    def __bool__(self) -> bool:
        return self._value

    def __eq__(self, other: object) -> bool:
        return self._value == (other._value if isinstance(other, Bool) else other)

    def __hash__(self) -> int:
        return hash(self._value)

    def __repr__(self) -> str:
        return repr(self._value)


def scalar(given: Any) -> Any:
    """A scalar of Python as an item, or `None` if it is no scalar."""
    if isinstance(given, bool):
        return Bool(given)
    if isinstance(given, str):
        return String(given)
    if isinstance(given, int):
        return Integer(given)
    if isinstance(given, float):
        return Float(given)
    if isinstance(given, _dates.datetime):
        return DateTime.combine(given.date(), given.timetz())
    if isinstance(given, _dates.date):
        return Date(given.year, given.month, given.day)
    if isinstance(given, _dates.time):
        return Time(given.hour, given.minute, given.second, given.microsecond, given.tzinfo)
    return None


def plain(given: Any) -> Any:
    return given.unwrap() if isinstance(given, Item) else given
