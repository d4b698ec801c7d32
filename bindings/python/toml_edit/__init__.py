"""Read and edit TOML documents, and keep the comments, the spacing and the spelling of what is not changed.

>>> import toml_edit
>>> document = toml_edit.parse('[package]\\nversion = "1.0"  # ours\\n')
>>> document["package"]["version"] = "2.0"
>>> print(toml_edit.dumps(document), end="")
[package]
version = "2.0"  # ours

What tomlkit's users write runs too: `import toml_edit as tomlkit`. Tables are dictionaries and arrays are lists, also for
`json.dumps`, and what is changed in them changes the document. `unwrap` gives a plain copy.

**Reading and writing**: `parse` or `loads` of a text, `load` of a file, `dumps`, `dump`; `TOMLFile(path).read()` and `.write(document)`,
which keep the line endings of the file. `toml_1_0=True` reads TOML 1.0. A text that is not TOML raises `TomlError`, a `ValueError`:

>>> try:
...     toml_edit.parse("a = 1\\nb = ?\\n")
... except toml_edit.TomlError as fault:
...     print(fault.line, fault.column, fault.span)
...     print(fault.excerpt)
2 5 (10, 11)
2 | b = ?
  |     ^

**Making items**: `document`, `table`, `inline_table`, `array`, `aot`, `item`, `string`, `integer`, `float_`, `boolean`, `date`, `time`,
`datetime`, `value`, `key`, `comment`, `nl`. A dictionary becomes a table, a list of dictionaries an array of tables.

>>> document = toml_edit.document()
>>> document.add(toml_edit.comment("made")).add(toml_edit.nl())["name"] = toml_edit.string("C:\\\\x", literal=True)
>>> document["tool"] = {"line": 1}
>>> document["bin"] = [{"name": "a"}]
>>> document["bin"].append({"name": "b"})
>>> print(document.as_string(), end="")
# made
<BLANKLINE>
name = 'C:\\x'
<BLANKLINE>
[tool]
line = 1
<BLANKLINE>
[[bin]]
name = "a"
<BLANKLINE>
[[bin]]
name = "b"

**Changing**: what dictionaries and lists have; `add`, `append` and `remove` of tables; `multiline` and `add_line` of arrays. Comments behind
values and headers are read as `trivia.comment`, and set by `comment`:

>>> document = toml_edit.parse("list = [\\n    1, # one\\n]\\nb = 2\\na = 3\\n")
>>> document["list"].append(2)
>>> _ = document["b"].comment("why")
>>> document.sort()
>>> document.rename("a", "first")
>>> print(document.as_string(), end="")
first = 3
b = 2 # why
list = [
    1, # one
    2,
]
>>> document["b"].trivia.comment
'# why'

**Together**: a batch makes all changes of a block by one call of the library, or none of them. `edit` does the same by the words of the
program `tomlfile`; tables and arrays that were in the document raise `RuntimeError` after it. `format` lays the document out.

>>> with document.batch():
...     document["c"] = [1, 2]
...     del document["list"]
>>> document.edit(["remove", "c"], ["table", "d", "{ e=1 }"])
>>> document.format()
>>> print(document.as_string(), end="")
first = 3
b = 2 # why
<BLANKLINE>
[[d]]
e = 1
>>> document.edit(["remove", "b"], ["remove", "nothing"])
Traceback (most recent call last):
KeyError: 'edit 2 (remove nothing): no such path'
>>> "b" in document
True

What is taken out of a document keeps its text until it is put into another one. Threads may share a document: each method is one step.

The work is done by a library in Rattle whose calls are proved; this package is not proved. A document is its text: changes
wait until the text is asked for, and then make a new text by one call. `built` says how the library was built, and `run` runs the program
`tomled`.
"""

from . import exceptions, items
from ._core import TOMLKitError, TomlError, Unfit, built, run
from .api import (
    TOMLDocument, aot, array, boolean, comment, date, datetime, document, dump, dumps, float_, inline_table, integer, item, key, key_value, load,
    loads, nl, parse, string, table, time, value, ws,
)
from .items import AoT, Array, Document, InlineTable, Table
from .toml_file import TOMLFile

__all__ = [
    "AoT", "Array", "Document", "InlineTable", "TOMLDocument", "TOMLFile", "TOMLKitError", "Table", "TomlError", "Unfit", "aot", "array",
    "boolean", "built", "comment", "date", "datetime", "document", "dump", "dumps", "exceptions", "float_", "inline_table", "integer", "item",
    "items", "key", "key_value", "load", "loads", "nl", "parse", "run", "string", "table", "time", "value", "ws",
]
__version__ = "0.1.0"
