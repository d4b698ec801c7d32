"""Runs tests of tomlkit through this package, and says which hold.

    python3 -m tests.tomlkit_suite FOLDER [--list]     FOLDER is tomlkit's source, which has `tests`

The tests are those of `test_toml_document.py`, `test_api.py` and `test_toml_file.py`, and this package stands for `tomlkit`. A test that fails
is in `tomlkit_differences.txt`, with the reason. Ends with status 1 if another fails, or one of those holds.
"""

from __future__ import annotations

import datetime
import importlib
import inspect
import io
import itertools
import os
import re
import sys
import tempfile
import traceback
import types
from typing import Any

import toml_edit
from toml_edit import _spelling

FILES = ("test_toml_document", "test_api", "test_toml_file")
DIFFERENCES = os.path.join(os.path.dirname(os.path.abspath(__file__)), "tomlkit_differences.txt")


def stand_in() -> None:
    """Puts this package in the place of tomlkit."""
    sys.modules["tomlkit"] = toml_edit
    for name in ("api", "container", "exceptions", "items", "toml_document", "toml_file"):
        sys.modules["tomlkit." + name] = importlib.import_module("toml_edit." + name)
    utils = types.ModuleType("tomlkit._utils")
    utils._utc = datetime.timezone.utc  # type: ignore[attr-defined]
    utils.parse_rfc3339 = _spelling.other  # type: ignore[attr-defined]
    sys.modules["tomlkit._utils"] = utils


class Raises:
    def __init__(self, wanted: Any, match: str | None = None) -> None:
        self._wanted, self._match = wanted, match
        self.value: Any = None

    def __enter__(self) -> Raises:
        return self

    def __exit__(self, kind: Any, value: Any, _trace: Any) -> bool:
        assert kind is not None, "nothing was raised"
        self.value = value
        return issubclass(kind, self._wanted) and (not self._match or bool(re.search(self._match, str(value))))


def pytest_stand() -> types.ModuleType:
    """What these tests use of pytest."""
    made = types.ModuleType("pytest")

    def parametrize(names: Any, cases: Any, **_more: Any) -> Any:
        names = [it.strip() for it in names.split(",")] if isinstance(names, str) else list(names)

        def mark(function: Any) -> Any:
            rows = [dict(zip(names, row if len(names) > 1 else [row])) for row in cases]
            function.cases = [*getattr(function, "cases", []), rows]
            return function

        return mark

    made.fixture = lambda function=None, **_more: function if function else (lambda it: it)
    made.raises = Raises
    made.param = lambda *row, **_more: row if len(row) > 1 else row[0]
    made.mark = types.SimpleNamespace(parametrize=parametrize, skipif=lambda *_words, **_more: lambda it: it)
    return made


def fixtures(folder: str, room: str) -> dict:
    def reader(*inside: str, ending: str) -> Any:
        def read(name: str) -> str:
            with open(os.path.join(folder, "tests", "examples", *inside, name + ending), encoding="utf-8") as file:
                return file.read()

        return read

    return {
        "example": reader(ending=".toml"),
        "json_example": reader("json", ending=".json"),
        "invalid_example": reader("invalid", ending=".toml"),
        "tmpdir": types.SimpleNamespace(join=lambda name: os.path.join(room, name)),
        "tmp_path": __import__("pathlib").Path(room),
    }


def tests_of(name: str) -> list[tuple[str, Any, dict]]:
    """The tests of a file, a row for each of their cases."""
    found = []
    for title, function in vars(importlib.import_module("tests." + name)).items():
        if title.startswith("test_") and inspect.isfunction(function):
            for at, rows in enumerate(itertools.product(*getattr(function, "cases", []))):
                words = {key: value for row in rows for key, value in row.items()}
                found.append(("%s::%s%s" % (name, title, "[%d]" % at if rows else ""), function, words))
    return found


def try_test(function: Any, words: dict, folder: str) -> str:
    """Runs a test, and returns why it fails, or nothing."""
    with tempfile.TemporaryDirectory() as room:
        given = {**fixtures(folder, room), **words}
        out, sys.stdout = sys.stdout, io.StringIO()
        try:
            function(**{name: given[name] for name in inspect.signature(function).parameters})
            return ""
        except BaseException as fault:  # noqa: BLE001
            where = traceback.extract_tb(fault.__traceback__)
            line = next((it.lineno for it in reversed(where) if "/tests/" in it.filename), 0)
            return "line %d: %s: %s" % (line, type(fault).__name__, str(fault).split("\n")[0][:80])
        finally:
            sys.stdout = out


def differences() -> dict:
    with open(DIFFERENCES, encoding="utf-8") as file:
        return dict(line.rstrip("\n").split(": ", 1) for line in file if line.strip() and not line.startswith("#"))


def main() -> int:
    folder = os.path.abspath(sys.argv[1])
    stand_in()
    sys.modules["pytest"] = pytest_stand()
    package = types.ModuleType("tests")
    package.__path__ = [folder + "/tests"]
    sys.modules["tests"] = package
    results = {title: try_test(function, words, folder) for name in FILES for title, function, words in tests_of(name)}
    known = differences() if "--list" not in sys.argv else {}
    wrong = [title for title, why in results.items() if bool(why) != (title in known)]
    for title in wrong if "--list" not in sys.argv else results:
        print("%s: %s" % (title, results[title] or "holds"))
    held = sum(not why for why in results.values())
    print("%d of %d tests hold, %d differ for a known reason" % (held, len(results), len(known)))
    return 1 if wrong and "--list" not in sys.argv else 0


if __name__ == "__main__":
    sys.exit(main())
