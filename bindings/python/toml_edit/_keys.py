"""Keys, which are spelled by themselves."""

from __future__ import annotations

import enum
from collections.abc import Iterable, Iterator
from typing import Any

from . import _spelling


class KeyType(enum.Enum):
    """How a key is spelled."""

    Bare = ""
    Basic = '"'
    Literal = "'"


class Key:
    """A key, which equals its name."""

    key: str
    sep: str

    def as_string(self) -> str:
        raise NotImplementedError

    def names(self) -> list[str]:
        """The names on the path."""
        raise NotImplementedError

    def is_multi(self) -> bool:
        """Whether there are dots in it."""
        return len(self.names()) > 1

    def is_dotted(self) -> bool:
        """Whether a dot comes behind it."""
        return False

    def __hash__(self) -> int:
        return hash(self.key)

    def __eq__(self, other: object) -> bool:
        return (other.key if isinstance(other, Key) else other) == self.key

    def __str__(self) -> str:
        return self.as_string()

    def __repr__(self) -> str:
        return "<Key %s>" % self.as_string()


class SingleKey(Key):
    """One key, bare if it can be."""

    def __init__(self, k: str, t: KeyType | None = None, sep: str | None = None, original: str | None = None) -> None:
        if not isinstance(k, str):
            raise TypeError("Keys must be strings")
        bare = _spelling.is_bare(k)
        self.t = t or (KeyType.Bare if bare else KeyType.Basic)
        self.key, self.sep = k, " = " if sep is None else sep
        self._spelled = original if original is not None and t is not None else None

    def as_string(self) -> str:
        if self._spelled is not None:
            return "%s%s%s" % (self.t.value, self._spelled, self.t.value)
        return "'%s'" % self.key if self.t is KeyType.Literal else self.key if self.t is KeyType.Bare else _spelling.string(self.key)

    @property
    def delimiter(self) -> str:
        return self.t.value

    def is_bare(self) -> bool:
        return self.t is KeyType.Bare

    def names(self) -> list[str]:
        return [self.key]

    def __iter__(self) -> Iterator[SingleKey]:
        return iter([self])

    def concat(self, other: Key) -> DottedKey:
        return DottedKey([self, *other])  # type: ignore[misc]


class DottedKey(Key):
    """Keys with dots between them."""

    def __init__(self, keys: Iterable[Any], sep: str | None = None, original: str | None = None) -> None:
        self._keys = list(keys)
        self.sep = " = " if sep is None else sep
        self.key = ".".join(it.key for it in self._keys)

    def as_string(self) -> str:
        return ".".join(it.as_string() for it in self._keys)

    def names(self) -> list[str]:
        return [name for it in self._keys for name in it.names()]

    def __iter__(self) -> Iterator[SingleKey]:
        return iter(self._keys)

    def concat(self, other: Key) -> DottedKey:
        return DottedKey([*self._keys, *other])  # type: ignore[misc]


def key(k: str | Iterable[str]) -> Key:
    """Makes a key, or keys with dots between them of several names."""
    return SingleKey(k) if isinstance(k, str) else DottedKey([key(it) for it in k])
