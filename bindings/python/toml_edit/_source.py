"""The text of a document, and the edits that wait to be made in it."""

from __future__ import annotations

import threading
from collections.abc import Callable, Sequence
from typing import Any

from . import _core
from ._index import Index

Edit = Sequence[str]
# A path that is longer may make a document too deep, so its edits do not wait.
SHALLOW = 60


class Source:
    """The text of a document. Edits that no text refuses wait until it is read, and are made by one call then.

    `lock` is held by each method that changes it. `left` is called where edits that waited are refused after all.
    """

    def __init__(self, text: bytes, flags: int) -> None:
        self.flags = flags
        self.lock = threading.RLock()
        self.left: Callable[[], Any] = lambda: None
        self._text = text
        self._waiting: list[list[bytes]] = []
        self._depth = 0
        self._index: Index | None = None
        # Whether the library has read the text.
        self._read = True

    @property
    def text(self) -> bytes:
        """The text with all edits made."""
        if self._waiting:
            waiting, self._waiting = self._waiting, []
            try:
                self._keep(_core.edit(self.flags, self._text, waiting), True)
            except Exception:
                self.left()
                raise
        return self._text

    @property
    def index(self) -> Index:
        """The index of the text."""
        text = self.text
        if self._index is None:
            self._index = Index(self.flags, text)
            self._read = True
        return self._index

    def checked(self) -> bytes:
        """The text, which the library accepts."""
        text = self.text
        return text if self._read else self.index.text

    def _keep(self, text: bytes, read: bool) -> None:
        self._text, self._index, self._read = text, None, read

    def put(self, text: bytes, read: bool = False) -> None:
        """Changes the text. It is read again if it was not `read`."""
        self._waiting = []
        self._keep(text, read)

    def splice(self, start: int, end: int, text: str) -> None:
        """Puts a text in the place of bytes of the text."""
        old = self.text
        self.put(old[:start] + text.encode() + old[end:])

    def close_end(self) -> None:
        """Ends the last line, to which another one is added."""
        if self._text and not self._text.endswith(b"\n"):
            self.splice(len(self.text), len(self.text), "\n")

    def edit(self, *edits: Edit, waits: bool = False) -> None:
        """Makes edits, or none of them if one is refused; or lets them wait."""
        words = [[word.encode() for word in edit] for edit in edits]
        if self._depth or waits:
            _core.check_words(words)
            self._waiting += words
        else:
            self._keep(_core.edit(self.flags, self.text, words), True)

    def begin(self) -> bytes:
        """Begins a batch, in which all edits wait, and returns the text before it."""
        text = self.text
        self._depth += 1
        return text

    def end(self, text: bytes | None) -> None:
        """Ends a batch, and goes back to a text if one is given."""
        self._depth -= 1
        if text is not None:
            self.put(text, True)
