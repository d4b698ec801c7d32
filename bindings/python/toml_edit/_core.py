"""The calls of the library, over ctypes."""

from __future__ import annotations

import ctypes
import os
from collections.abc import Sequence

EXACT = 1
TOML_1_0 = 2

_DONE, _SHORT, _REFUSED, _NOT_UTF8 = range(4)
_MEMORY = 9

_RUN_MEMORY, _RUN_SHORT = 3, 5


class TOMLKitError(Exception):
    """What this package refuses, under the name that tomlkit has for it."""


class TomlError(ValueError, TOMLKitError):
    """A text that is not TOML.

    `message` says what is wrong. `line` and `column` are where, from 1, `span` is the bytes that it is about, and
    `excerpt` shows the line with the place below it. They are `None` if the message is about no place.
    """

    def __init__(self, message: str, text: str = "", place: tuple[int, int, int, int] = (0, 0, 0, 0)) -> None:
        start, end, line, column = place
        self.message = message
        self.span = (start, end) if line else None
        self.line = line or None
        self.column = column or None
        self.excerpt = _excerpt(text, line, column) if line else None
        super().__init__("line %d, column %d: %s" % (line, column, message) if line else message)

    @property
    def col(self) -> int | None:
        """The column, by tomlkit's name."""
        return self.column


class Unfit(ValueError):
    """A change after which the document would not be valid TOML. It was not made."""


# What other statuses raise, and say.
_FAULTS: dict[int, tuple[type[Exception], str]] = {
    4: (ValueError, "bad path"),
    5: (ValueError, "bad value"),
    6: (KeyError, "no such path"),
    7: (TypeError, "wrong kind"),
    8: (Unfit, "the document would not be valid"),
    _MEMORY: (MemoryError, "out of memory"),
    10: (ValueError, "bad flags"),
    11: (ValueError, "no such edit"),
    12: (ValueError, "no such element"),
    13: (ValueError, "the key is there already"),
    14: (ValueError, "a comment has no line break and no other control character"),
}


def _excerpt(text: str, line: int, column: int) -> str:
    lines = text.split("\n")
    shown = lines[line - 1] if line <= len(lines) else ""
    number = str(line)
    return "%s | %s\n%s | %s^" % (number, shown.rstrip("\r"), " " * len(number), " " * (column - 1))


class _Answer(ctypes.Structure):
    _fields_ = [("status", ctypes.c_uint32), ("needed", ctypes.c_size_t)]


class _Sizes(ctypes.Structure):
    _fields_ = [(name, ctypes.c_size_t) for name in ("output", "errors")]


class _Place(ctypes.Structure):
    _fields_ = [(name, ctypes.c_size_t) for name in ("start", "end", "line", "column")]


_TEXT = (ctypes.c_char_p, ctypes.c_size_t)
# How many texts each call takes before the room.
_CALLS = {"print": 1, "get": 2, "set": 3, "remove": 2, "json": 2, "keys": 2, "edit": 2, "format": 1}


def _folder() -> str:
    """The folder that has the library."""
    named = os.environ.get("TOML_EDIT_LIBRARY")
    here = os.path.dirname(os.path.abspath(__file__))
    for folder in [named] if named else [here, os.path.join(here, "..", "..", "out")]:
        if os.path.exists(os.path.join(folder, "libtoml_edit.so")):
            return folder
    raise ImportError("no libtoml_edit.so: build it by bindings/build")


FOLDER = _folder()
_LIBRARY = ctypes.CDLL(os.path.join(FOLDER, "libtoml_edit.so"))


def _declared() -> dict:
    calls = {}
    for name, count in _CALLS.items():
        function = calls[name] = getattr(_LIBRARY, "toml_edit_" + name)
        function.restype = _Answer
        function.argtypes = [ctypes.c_uint32, *_TEXT * count, *_TEXT]
    _LIBRARY.toml_edit_run.restype = ctypes.c_uint32
    _LIBRARY.toml_edit_run.argtypes = [*_TEXT * 4, ctypes.POINTER(_Sizes)]
    for name in ("string", "key"):
        function = getattr(_LIBRARY, "toml_edit_" + name)
        function.restype, function.argtypes = _Answer, [*_TEXT, *_TEXT]
    _LIBRARY.toml_edit_has.restype = ctypes.c_uint32
    _LIBRARY.toml_edit_has.argtypes = [ctypes.c_uint32, *_TEXT, *_TEXT]
    _LIBRARY.toml_edit_index.restype = _Answer
    _LIBRARY.toml_edit_index.argtypes = [ctypes.c_uint32, *_TEXT, ctypes.c_void_p, ctypes.c_size_t, *_TEXT]
    _LIBRARY.toml_edit_check.restype = _Answer
    _LIBRARY.toml_edit_check.argtypes = [ctypes.c_uint32, *_TEXT, ctypes.POINTER(_Place), *_TEXT]
    return calls


_FUNCTIONS = _declared()


def index(flags: int, text: bytes) -> tuple[list[int], bytes]:
    """The numbers of the nodes of a text, and the names that they are about. Raises `TomlError` if the text is refused."""
    names = ctypes.create_string_buffer(len(text) + 1)
    count = len(text) // 16 + 16
    while True:
        nodes = (ctypes.c_size_t * (17 * count))()
        answer = _LIBRARY.toml_edit_index(flags, text, len(text), nodes, count, names, len(names))
        if answer.status == _DONE:
            return memoryview(nodes).cast("B").cast("N")[: 17 * answer.needed].tolist(), names.raw
        if answer.status in (_REFUSED, _NOT_UTF8):
            raise check(flags, text) or TomlError("not TOML")
        if answer.status != _SHORT:
            raise MemoryError() if answer.status == _MEMORY else ValueError("status %d" % answer.status)
        count = answer.needed


def built() -> str:
    """How the library was built: `proved`, `unproved` or `asan`."""
    with open(os.path.join(FOLDER, "BUILT"), encoding="utf-8") as file:
        return file.read().strip()


def raw(name: str, flags: int, texts: list[bytes], room: ctypes.Array) -> tuple[int, int]:
    """Makes a call with this room, and returns its status and how many bytes are needed."""
    words = [word for text in texts for word in (text, len(text))]
    answer = _FUNCTIONS[name](flags, *words, room, len(room))
    return answer.status, answer.needed


def call(name: str, flags: int, *texts: bytes, edits: Sequence[Sequence[bytes]] = ()) -> bytes:
    """Makes a call, and returns the text that it gives. `edits` are those of the script, for the message.

    Raises `TomlError` if the text is refused, `KeyError` if nothing is at a path, `TypeError` if something of another
    kind is there, `Unfit` if the document would not be valid, and `ValueError` for words that are mistaken.
    """
    room = ctypes.create_string_buffer(sum(map(len, texts)) + 64)
    status, needed = raw(name, flags, list(texts), room)
    if status == _SHORT:
        room = ctypes.create_string_buffer(needed)
        status, needed = raw(name, flags, list(texts), room)
    if status == _DONE:
        return room.raw[:needed]
    if status in (_REFUSED, _NOT_UTF8):
        raise check(flags, texts[0]) or TomlError("not TOML")
    kind, why = _FAULTS.get(status, (ValueError, "status %d" % status))
    where = named(edits, 1 if len(edits) == 1 else needed) if edits else " ".join([name, *(text.decode() for text in texts[1:])])
    raise kind("%s: %s" % (where, why))


def named(edits: Sequence[Sequence[bytes]], number: int) -> str:
    """How messages name an edit, of which the number is counted from 1, or all if it is 0."""
    return "edit %d (%s)" % (number, b" ".join(edits[number - 1][:2]).decode().rstrip().replace("\0", "\\0")) if number else "edits"


def edit(flags: int, text: bytes, edits: Sequence[Sequence[bytes]]) -> bytes:
    """Makes edits, each a word and its operands, one after another or none of them."""
    check_words(edits)
    return call("edit", flags, text, b"".join(word + b"\0" for words in edits for word in words), edits=edits)


def check_words(edits: Sequence[Sequence[bytes]]) -> None:
    """Raises `ValueError` if the words are not those of edits."""
    for number, words in enumerate(edits, 1):
        if any(b"\0" in word for word in words):
            # The library would take what is behind a NUL for the next word.
            raise ValueError("%s: a word has a NUL" % named(edits, number))
        if len(words) != (2 if words[:1] in ([b"section"], [b"remove"], [b"sort"]) else 3):
            raise ValueError("%s: too few words, or too many" % named(edits, number))


def spelled(name: str, text: str) -> str:
    """The default spelling of a string or a key: `name` is which of them."""
    data = text.encode()
    room = ctypes.create_string_buffer(6 * len(data) + 2)
    answer = getattr(_LIBRARY, "toml_edit_" + name)(data, len(data), room, len(room))
    if answer.status != _DONE:
        raise MemoryError()
    return room.raw[: answer.needed].decode()


def run(words: list[str], text: bytes) -> tuple[int, bytes, bytes]:
    """Runs `tomled` with these words on a text, and returns its exit status, its output and its errors."""
    if any("\0" in word for word in words):
        raise ValueError("a word has a NUL")
    said = b"".join(word.encode() + b"\0" for word in words)
    output, errors = (ctypes.create_string_buffer(size) for size in (len(text) + len(said) + 64, 400))
    while True:
        sizes = _Sizes()
        rooms = [part for room in (output, errors) for part in (room, len(room))]
        status = _LIBRARY.toml_edit_run(said, len(said), text, len(text), *rooms, ctypes.byref(sizes))
        if status == _RUN_MEMORY:
            raise MemoryError()
        if status != _RUN_SHORT:
            return status, output.raw[: sizes.output], errors.raw[: sizes.errors]
        output, errors = (ctypes.create_string_buffer(size) for size in (sizes.output, sizes.errors))


def check(flags: int, text: bytes) -> TomlError | None:
    """Returns why a text is refused, or `None` if it is accepted."""
    room = ctypes.create_string_buffer(200)
    while True:
        place = _Place()
        answer = _LIBRARY.toml_edit_check(flags, text, len(text), ctypes.byref(place), room, len(room))
        if answer.status == _DONE:
            return None
        if answer.status == _NOT_UTF8:
            return TomlError("not UTF-8")
        if answer.status != _REFUSED:
            raise MemoryError() if answer.status == _MEMORY else ValueError("status %d" % answer.status)
        if answer.needed <= len(room):
            message = room.raw[: answer.needed].decode()
            return TomlError(message, text.decode(), (place.start, place.end, place.line, place.column))
        room = ctypes.create_string_buffer(answer.needed)
