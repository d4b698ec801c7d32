#!/usr/bin/env python3
"""Times sets and gets from Python and Rust, beside others, in one run.

    bench/bindings.py [--tomlkit FOLDER] [--beside PROGRAM]     FOLDER has the package `tomlkit`; PROGRAM is that of bench/crate_set

The documents are a manifest of 3 KB and a lock file of 1 MB. A set is from a text to a text: it is read, one value is changed, and it is
printed. What is given is the mean processor time of many. Then a document of 100 KB is read from Python, and 1,000 of its values are got, and
1,000 set and printed. It wants what `bindings/build` makes in bindings/out, and cargo.
"""
import os
import subprocess
import sys
import tempfile
import time

import run

if sys.argv[1:] == ["--help"]:
    sys.exit(print(__doc__.strip()))
TOP = os.path.dirname(os.path.dirname(os.path.abspath(__file__)))
sys.path.insert(0, TOP + "/bindings/python")
import toml_edit  # noqa: E402
from toml_edit import _core  # noqa: E402


def mean(count, call):
    """The mean processor time of so many calls, in seconds."""
    start = time.process_time()
    for _ in range(count):
        call()
    return (time.process_time() - start) / count


def keys_to(document):
    """A path to a value in the middle of a document, as keys, of those that every kind of reader has."""
    found = list(document)[len(document) // 2]
    keys = [found]
    node = document[found]
    while not isinstance(node, (str, int, float)):
        key = len(node) // 2 if isinstance(node, (list, toml_edit.Array)) else list(node)[0]
        keys.append(key)
        node = node[key]
    return keys


def changed(parsed, keys):
    """Sets the value at the path, and returns what was parsed."""
    node = parsed
    for key in keys[:-1]:
        node = node[key]
    node[keys[-1]] = "changed"
    return parsed


def by_tomlkit(tomlkit, text, keys):
    return tomlkit.dumps(changed(tomlkit.parse(text), keys))


def by_document(text, keys):
    return toml_edit.dumps(changed(toml_edit.loads(text), keys))


def rust(program, file, path, count):
    words = [program, file, path, '"changed"', str(count)]
    return int(subprocess.run(words, capture_output=True, text=True, check=True).stdout) / 1e9


def row(name, seconds):
    print("| %s | %s |" % (name, "%.3f ms" % (seconds * 1000) if seconds else "-"), flush=True)


def time_kind(title, text, count, folder, program, beside, tomlkit):
    keys = keys_to(toml_edit.loads(text))
    path = ".".join(map(str, keys))
    file = folder + "/document.toml"
    with open(file, "w", encoding="utf-8") as made:
        made.write(text)
    print("\n| %s, %d bytes, `%s` | a set |\n|---|---|" % (title, len(text.encode()), path))
    row("Rust, this library", rust(program, file, path, count))
    row("Rust, the crate", beside and rust(beside, file, path, count))
    row("Python, one call", mean(count, lambda: _core.call("set", 0, text.encode(), path.encode(), b'"changed"')))
    row("Python, a document", mean(max(count // 5, 1), lambda: by_document(text, keys)))
    row("Python, tomlkit", tomlkit and mean(max(count // 20, 1), lambda: by_tomlkit(tomlkit, text, keys)))


def tables(size):
    """A document with tables of strings, of so many bytes or some more."""
    made, number = "", 0
    while len(made) < size:
        lines = ["key%d = 'value %d of table %d' # %d\n" % (it, it, number, it) for it in range(120)]
        made += "[table%d]\n%s\n" % (number, "".join(lines))
        number += 1
    return made


def thousand(parsed, text, value):
    """Gets 1,000 values, or sets them to a value and returns the text."""
    count = text.count("[table")
    for at in range(1000):
        table = parsed["table%d" % (at % count)]
        if value is None:
            assert table["key%d" % (at % 120)]
        else:
            table["key%d" % (at % 120)] = value
    return None if value is None else parsed.as_string()


def time_many(name, package, text):
    """Times reads, gets and sets of a document."""
    parsed = package.parse(text)
    row(name + ", read", mean(3, lambda: package.parse(text)))
    row(name + ", 1,000 gets", mean(1, lambda: thousand(parsed, text, None)))
    row(name + ", 1,000 sets and the text", mean(1, lambda: thousand(parsed, text, "changed")))
    assert thousand(package.parse(text), text, "changed").count('"changed"') == len({(at % text.count("[table"), at % 120) for at in range(1000)})


def main():
    words = sys.argv[1:]
    given = dict(zip(words[::2], words[1::2]))
    if len(words) % 2 or set(given) - {"--tomlkit", "--beside"}:
        return print(__doc__.strip())
    if "--tomlkit" in given:
        sys.path.insert(0, given["--tomlkit"])
        import tomlkit
    else:
        tomlkit = None
    with tempfile.TemporaryDirectory() as folder:
        rust_folder = TOP + "/bindings/rust"
        env = dict(os.environ, CARGO_TARGET_DIR=folder + "/target")
        words = ["cargo", "build", "--release", "--offline", "--quiet", "--example", "time_set"]
        subprocess.run(words, cwd=rust_folder, env=env, check=True)
        program = folder + "/target/release/examples/time_set"
        print("The library is %s." % toml_edit.built())
        for title, text, count in (("manifest", run.manifest(3000), 200), ("lock file", run.lock(1_000_000), 20)):
            time_kind(title, text, count, folder, program, given.get("--beside"), tomlkit)
    text = tables(100_000)
    print("\n| tables, %d bytes | processor time |\n|---|---|" % len(text))
    for name, package in (("Python, this library", toml_edit), ("Python, tomlkit", tomlkit)):
        if package:
            time_many(name, package, text)
    return None


if __name__ == "__main__":
    sys.exit(main())
