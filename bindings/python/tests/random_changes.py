"""Makes random changes of documents, and looks after each whether the dictionaries say what the text says.

    python3 -m tests.random_changes [COUNT [SEED]]     COUNT is 2,000 documents if it is not named
"""

from __future__ import annotations

import copy
import datetime
import random
import sys
import tomllib
from typing import Any

import toml_edit

PARTS = [
    "a = 1 # one\n", "b = 'x'\n", "c = [1, 2] # c\n", "d = [\n  1, # one\n  2,\n]\n", "e = { f = 1, g = { h = 2 } }\n", "i.j = 1\ni.k.l = 2\n", "\n", "# c\n",
    'm = [{ n = 1 }, { n = 2 }]\n', 'o = """\nx"""\n', "p = 1979-05-27\n", "q = {}\n", "r = []\n",
]
HEADERS = ["[t]\n", "[t.u]\n", "[[v]]\n", "[w.x]\n", "[v2]\n", "[t.u.y]\n", "[[w.z]]\n"]
KEYS = ["a", "b", "c", "d", "e", "i", "t", "u", "v", "w", "x", "new", "k k", "n", "f", "j"]


def text(random_: random.Random) -> str:
    while True:
        made = "".join(random_.sample(PARTS, random_.randrange(5)))
        for header in sorted(random_.sample(HEADERS, random_.randrange(5)), key=lambda it: random_.random()):
            made += header + "".join(random_.sample(PARTS, random_.randrange(4)))
            if header[:2] == "[[" and random_.randrange(2):
                made += header + "".join(random_.sample(PARTS, random_.randrange(3)))
        try:
            tomllib.loads(made)
        except ValueError:
            continue
        return made.rstrip("\n") if random_.randrange(10) == 0 else made


def value(random_: random.Random, depth: int = 0) -> Any:
    kind = random_.randrange(14 if depth < 2 else 6)
    if kind < 6:
        return random_.choice([1, 2.5, "x", True, datetime.date(2020, 1, 2), "y\n\"z"])
    if kind == 6:
        return [value(random_, depth + 1) for _ in range(random_.randrange(3))]
    if kind == 7:
        return [{key: value(random_, 2) for key in random_.sample(KEYS, 2)} for _ in range(random_.randrange(3))]
    if kind < 10:
        return {key: value(random_, depth + 1) for key in random_.sample(KEYS, random_.randrange(3))}
    if kind == 10:
        made = toml_edit.table(random_.choice([None, None, True]))
        for key in random_.sample(KEYS, random_.randrange(3)):
            made.add(key, value(random_, depth + 1))
        if random_.randrange(3) == 0:
            made.add(toml_edit.comment("inside"))
        return made
    if kind == 11:
        table = toml_edit.inline_table()
        table.update({key: value(random_, 2) for key in random_.sample(KEYS, 2)})
        return table
    if kind == 12:
        array = toml_edit.array()
        array.extend([value(random_, 2) for _ in range(random_.randrange(3))])
        return array.multiline(bool(random_.randrange(2)))
    tables = toml_edit.aot()
    for _ in range(random_.randrange(3)):
        tables.append({key: value(random_, 2) for key in random_.sample(KEYS, 2)})
    return tables


def places(node: Any) -> list[Any]:
    below = node.values() if isinstance(node, dict) else node
    return [node, *(place for it in below if isinstance(it, (dict, list)) for place in places(it))]


def change(document: Any, random_: random.Random, out: list) -> str:
    node = random_.choice(places(document))
    kind = random_.randrange(12)
    if isinstance(node, dict):
        keys = list(node)
        key = random_.choice(keys) if keys and random_.randrange(2) else random_.choice(KEYS)
        if kind < 5:
            new = random_.choice(out) if out and random_.randrange(6) == 0 else value(random_)
            node[key] = new
            return "set"
        if kind < 7 and keys:
            found = node.pop(random_.choice(keys))
            if isinstance(found, (dict, list)):
                out.append(found)
            return "pop"
        if kind == 7 and not isinstance(node, toml_edit.InlineTable):
            node.add(random_.choice([toml_edit.comment("added"), toml_edit.nl()]))
            return "line"
        if kind == 8:
            node.update({random_.choice(KEYS): value(random_), random_.choice(KEYS): value(random_)})
            return "update"
        if kind == 9:
            node.setdefault(key, value(random_))
            return "setdefault"
        if kind == 10 and keys and not isinstance(node, toml_edit.InlineTable) and isinstance(node[keys[0]], (str, int, float)) and not isinstance(node[keys[0]], bool):
            node[keys[0]].comment("seen")
            return "comment"
        if out and isinstance(out[-1], dict):
            out[-1]["changed"] = 1
        return "none"
    tables = isinstance(node, toml_edit.items.AoT)
    new = {key: value(random_, 2) for key in random_.sample(KEYS, 2)} if tables else value(random_, 1)
    if kind < 3:
        node.append(new)
    elif kind < 6:
        node.insert(random_.randrange(len(node) + 1), new)
    elif kind < 8 and node:
        node[random_.randrange(len(node))] = new
    elif kind < 10 and node:
        found = node.pop(random_.randrange(len(node)))
        if isinstance(found, (dict, list)):
            out.append(found)
    elif kind == 10 and not tables:
        node.multiline(bool(random_.randrange(2)))
    elif kind == 11 and not tables:
        node[:1] = [new, 5]
    return "list"


def one(seed: int) -> None:
    random_ = random.Random(seed)
    document = toml_edit.loads(text(random_))
    out: list = []
    steps = []
    for _ in range(random_.randrange(1, 8)):
        before = str(document)
        state = random_.getstate()
        try:
            steps.append(change(document, random_, out))
        except (toml_edit.Unfit, toml_edit.exceptions.KeyAlreadyPresent) as fault:
            steps.append("refused: %s" % fault)
        except Exception:
            print("seed %d, after %s:\n%s" % (seed, steps, before))
            raise
        if random_.randrange(3):
            continue
        said = str(document)
        found = tomllib.loads(said)
        wanted = stripped(document.unwrap())
        if found != wanted and stripped(found) != wanted:
            print("seed %d, %s:\n%s--\n%s\n%s\n%s" % (seed, steps, before, said, found, wanted))
            raise AssertionError
        del state
    for it in out:
        copy.deepcopy(it)


def stripped(given: Any) -> Any:
    """Without empty arrays of tables and super tables, which have no text."""
    if isinstance(given, dict):
        found = {key: stripped(it) for key, it in given.items()}
        return {key: it for key, it in found.items() if it != [] and it != {}}
    return [stripped(it) for it in given] if isinstance(given, list) else given


def main() -> int:
    count = int(sys.argv[1]) if sys.argv[1:] else 2000
    seed = int(sys.argv[2]) if sys.argv[2:] else 1
    for it in range(seed, seed + count):
        one(it)
    print("%d documents were changed: %s" % (count, toml_edit.built()))
    return 0


if __name__ == "__main__":
    sys.exit(main())
