"""Headers with their lines, which are moved from text to text."""

from __future__ import annotations

import dataclasses

from . import _index as _nodes
from . import _spelling
from ._index import Index


@dataclasses.dataclass
class Piece:
    """A header with its lines: the keys behind the table that it belongs to, and what is before and behind it."""

    keys: list[str]
    double: bool
    lead: str
    tail: str
    body: str


def kept_pieces(index: Index, at: int) -> list[Piece]:
    """The headers of a node and below it, as they are in the text."""
    found = []
    if index.kind[at] == _nodes.DOTTED_TABLE:
        return [Piece([], False, "", "", "".join(_dotted_lines(index, at, [])))]
    if index.kind[at] == _nodes.ROOT:
        found.append(Piece([], False, "", "", index.text[: index.end_of_lines(at)].decode()))
    for header in index.headers(at):
        keys, here = [], header
        while here != at:
            if index.key[1][here]:
                keys.insert(0, _spelling.key(index.name(here)))
            here = index.parent[here]
        lead = index.cut(index.before, header).decode() if found else ""
        line = index.line_end(max(index.item[1][header], index.after[1][header]))
        end = max(line, index.end_of_lines(header))
        double = index.kind[index.parent[header]] == _nodes.ARRAY_OF_TABLES
        found.append(Piece(keys, double, lead, index.cut(index.after, header).decode(), index.text[line:end].decode()))
    return found


def _dotted_lines(index: Index, at: int, keys: list[str]) -> list[str]:
    """The lines of a table of dotted keys, with the keys below it."""
    found = []
    for child in index.below(at):
        path = [*keys, index.cut(index.key, child).decode()]
        if index.kind[child] == _nodes.DOTTED_TABLE:
            found += _dotted_lines(index, child, path)
            continue
        end = index.line_end(max(index.item[1][child], index.after[1][child]))
        line = index.text[index.key[1][child] : end].decode()
        found.append(".".join(path) + line + ("" if line.endswith("\n") else "\n"))
    return found


def rendered(prefix: list[str], pieces: list[Piece]) -> str:
    """The text of headers below these keys. The lines of no keys have no header."""
    made = ""
    for piece in pieces:
        keys = ".".join([*prefix, *piece.keys])
        if made and not made.endswith("\n"):
            made += "\n"
        header = "%s%s%s" % (("[[%s]]" if piece.double else "[%s]") % keys, piece.tail, "\n") if keys else ""
        made += piece.lead + header + piece.body
    return made
