"""Files."""

from __future__ import annotations

import os
import re
from typing import Any

from .api import loads
from .items import Document


class TOMLFile:
    """A file of TOML, by its name. Lines are written with the line ending that all lines had when it was read."""

    def __init__(self, path: str | os.PathLike) -> None:
        self._path = path
        self._ending = os.linesep

    def read(self) -> Document:
        """Parses the file. Raises `TomlError` if it is not TOML."""
        with open(self._path, encoding="utf-8", newline="") as file:
            text = file.read()
        lines, windows = text.count("\n"), text.count("\r\n")
        if lines:
            self._ending = "\r\n" if windows == lines else "mixed" if windows else "\n"
        return loads(text)

    def write(self, data: Any) -> None:
        """Writes a document into the file."""
        text = data.as_string()
        if self._ending == "\n":
            text = text.replace("\r\n", "\n")
        elif self._ending == "\r\n":
            text = re.sub(r"(?<!\r)\n", "\r\n", text)
        with open(self._path, "w", encoding="utf-8", newline="") as file:
            file.write(text)
