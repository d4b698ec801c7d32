#!/usr/bin/env python3
"""Compares the program with other readers of TOML on generated texts, and its edits with those of a dictionary.

    tools/differential.py [--in FOLDER | --unproved] [COUNT [SEED]]     tries COUNT texts (2000) by a SEED (1)
    tools/differential.py [--in FOLDER | --unproved] --text FILE        tries one text

Each text is made by a grammar, and half of them are then changed somewhere. It asks each of these that is there:

- Python's `tomllib`, and `tomlkit` (Debian's package `python3-tomlkit`);
- toml++ (`libtomlplusplus-dev`, and `g++` to compile a small driver for it);
- the Rust crate, by the program of `bench/crate`, if that was built.

Of each text: whether it is accepted as TOML 1.0 as the others accept it, and as 1.1 at least where 1.0 does; that it means the same; that
the print of the print is the print, in the plain and in the exact mode, and that both mean what the text means and have its headers in
their order; that the plain print has no carriage return outside strings; that the exact print of a text without dots and arrays of tables is
the text; and of one that is accepted that `get` writes what means the same, and that `set` of a key that is there, `set` of a new one and
`remove` change the dictionary so, and no other statement of the text, nor what is around a value that is set.

`EXPLAINED` has the differences that are meant, or faults of the others, each with its reason. Any other one is printed with a shortest text
that still has it, and the status is then 1.

It wants the programs tomled and test_tools. They are the proved ones, after `rt run < stdin` in the folder of each, or those in FOLDER, or
built by `--unproved`, which takes two minutes.
"""
import concurrent.futures
import datetime
import json
import os
import random
import re
import subprocess
import sys
import tempfile

import conformance
import unproved
from conformance import TOP

try:
    import tomllib
except ImportError:
    tomllib = None
sys.path.append("/usr/lib/python3/dist-packages")
try:
    import tomlkit
except ImportError:
    tomlkit = None

CRATE = TOP + "/bench/crate/target/release/print_with_crate"
DRIVER = r"""
#define TOML_EXCEPTIONS 1
#include <cstdio>
#include <iostream>
#include <iterator>
#include <sstream>
#include <toml++/toml.h>
static void text(std::string_view s) {
  std::putchar('"');
  for (unsigned char c : s) {
    if (c < 32 || c == '"' || c == '\\' || c == 127) std::printf("\\u%04x", c); else std::putchar(c);
  }
  std::putchar('"');
}
static void scalar(const char *kind, const std::string &value) {
  std::printf("{\"type\":\"%s\",\"value\":", kind); text(value); std::putchar('}');
}
template <class T> static std::string shown(const T &value) { std::ostringstream out; out << value; return out.str(); }
static void write(const toml::node &node) {
  char digits[64];
  const char *between = "";
  if (auto table = node.as_table()) {
    std::putchar('{');
    for (auto &&[key, value] : *table) { std::fputs(between, stdout); text(key.str()); std::putchar(':'); write(value); between = ","; }
    std::putchar('}');
  } else if (auto array = node.as_array()) {
    std::putchar('[');
    for (auto &&value : *array) { std::fputs(between, stdout); write(value); between = ","; }
    std::putchar(']');
  } else if (auto value = node.as_string()) scalar("string", value->get());
  else if (auto value = node.as_integer()) scalar("integer", std::to_string(value->get()));
  else if (auto value = node.as_floating_point()) { std::snprintf(digits, sizeof digits, "%.17g", value->get()); scalar("float", digits); }
  else if (auto value = node.as_boolean()) scalar("bool", value->get() ? "true" : "false");
  else if (auto value = node.as_date()) scalar("date-local", shown(value->get()));
  else if (auto value = node.as_time()) scalar("time-local", shown(value->get()));
  else if (auto value = node.as_date_time()) scalar(value->get().offset ? "datetime" : "datetime-local", shown(value->get()));
}
int main() {
  std::string source((std::istreambuf_iterator<char>(std::cin)), std::istreambuf_iterator<char>());
  try { write(toml::parse(source)); } catch (const toml::parse_error &) { return 1; }
}
"""

NAMES = [
    "a", "b", "c", "d-e", "f_1", "1", "007", "inf", "true", '"a"', "'b'", '"q r"', '""', "'.'", '"\\u00e9"', '"\\t"', "é", "1979-05-27",
]
STRINGS = [
    '""', "''", '"plain"', "'C:\\dir'", '"\\b\\t\\n\\f\\r\\"\\\\"', '"\\u00e9\\U0001F600"', '"tab\there"', "'# no'", '"\\e"', '"\\x41"',
    '"é ⛵"', '""""""', "''''''", '"""\none\n two"""', "'''\none\n'two'''", '"""a\\\n   b"""', '"""""x"""""', "'''''y'''''",
    '"""\\\n\n\t"""', '"\\uD800"', '"\\q"',
]
NUMBERS = [
    "0", "-0", "+7", "1_000", "-9223372036854775808", "9223372036854775807", "9223372036854775808", "0xdead_BEEF", "0o17", "0b10", "0x",
    "01", "1__0", "1.5", "-0.0", "6.626e-34", "1e5", "1E+05", "1_0.0_1", "1.e5", ".5", "inf", "-inf", "+nan", "nan", "1e400", "true",
    "false", "True", "null",
]
MOMENTS = [
    "1979-05-27T07:32:00Z", "1979-05-27 00:32:00.999999-07:00", "1979-05-27t07:32:00.5z", "1979-05-27T07:32:00", "1979-05-27",
    "07:32:00", "07:32", "07:32:00.123456789", "1979-05-27T07:32Z", "2024-02-29", "2023-02-29", "0001-01-01", "23:59:60", "24:00:00",
    "1979-05-27T07:32:00+24:00", "1979-05-27 x",
]
TOKENS = [
    "=", ".", ",", "[", "]", "[[", "]]", "{", "}", '"', "'", '"""', "'''", "#", "\n", "\r\n", "\r", " ", "\t", "\\", "\0", "\x7f", "\u00a0",
    "\ufeff", "a", "0", "_", "-", "+", "e",
]


class Maker(random.Random):
    """Makes texts by a grammar, and changes them."""

    def blank(self):
        return self.choice(["", "", "", " ", " ", "\t", "  "])

    def note(self):
        return "#" + self.choice(["", " note", " é = [", "\t'"])

    def path(self):
        dot = self.blank() + "." + self.blank()
        return dot.join(self.choice(NAMES) for _ in range(self.choice([1, 1, 1, 2, 2, 3])))

    def gap(self):
        """What may stand in an array, and since 1.1 in an inline table."""
        return "".join(self.choice(["", "", " ", "\n", "\n  ", " %s\n" % self.note()]) for _ in range(self.choice([0, 1, 1, 2])))

    def scalar(self):
        return self.choice(self.choice([STRINGS, NUMBERS, MOMENTS]))

    def value(self, depth=0):
        kind = self.random()
        if depth > 3 or kind < 0.6:
            return self.scalar()
        parts = self.choice([0, 1, 2, 2, 3])
        if kind < 0.8:
            inner = ",".join(self.gap() + self.value(depth + 1) + self.gap() for _ in range(parts))
            return "[%s%s]" % (inner, "," + self.gap() if parts and self.random() < 0.3 else self.gap() if not parts else "")
        space = self.gap if self.random() < 0.2 else self.blank
        pair = lambda: space() + self.path() + self.blank() + "=" + self.blank() + self.value(depth + 1) + space()
        inner = ",".join(pair() for _ in range(parts))
        return "{%s%s}" % (inner, "," if parts and self.random() < 0.1 else "")

    def statement(self):
        kind = self.random()
        if kind < 0.12:
            return self.blank() + self.choice(["", self.note()])
        end = self.blank() + self.choice(["", "", "", self.note()])
        if kind < 0.3:
            form = self.choice(["[%s]", "[%s]", "[[%s]]"])
            return self.blank() + form % (self.blank() + self.path() + self.blank()) + end
        return "%s%s%s=%s%s%s" % (self.blank(), self.path(), self.blank(), self.blank(), self.value(), end)

    def document(self):
        """A document, of which most lines are kept only if the text is still accepted, so that long ones are accepted too."""
        text, newline = "", self.choice(["\n", "\n", "\n", "\r\n"])
        for _ in range(self.choice([1, 2, 4, 8, 16])):
            longer = text + self.statement() + newline
            if self.random() < 0.05 or is_plausible(longer):
                text = longer
        return text.rstrip("\r\n") if self.random() < 0.1 else text

    def changed(self, text):
        """The text with a small change."""
        at, kind = self.randrange(len(text) + 1), self.random()
        until = min(len(text), at + self.choice([1, 1, 2, 5]))
        if kind < 0.25:
            return text[:at] + text[until:]
        if kind < 0.6:
            return text[:at] + self.choice(TOKENS) + text[at:]
        if kind < 0.75:
            return text[:at] + self.choice(TOKENS) + text[until:]
        lines = text.split("\n")
        one, other = self.randrange(len(lines)), self.randrange(len(lines))
        if kind < 0.9:
            lines.insert(other, lines[one])
        else:
            lines[one], lines[other] = lines[other], lines[one]
        return "\n".join(lines)

    def text(self):
        text = self.document()
        for _ in range(self.choice([0, 0, 0, 1, 1, 2])):
            text = self.changed(text)
        return text


def is_plausible(text):
    if not tomllib:
        return True
    try:
        return tomllib.loads(text.replace("\r\n", "\n")) is not None
    except ValueError:
        return False


def tagged(value):
    """What a value of Python means, as the suite writes it."""
    if isinstance(value, dict):
        return {str(key): tagged(inner) for key, inner in value.items()}
    if isinstance(value, list):
        return [tagged(inner) for inner in value]
    if isinstance(value, bool):
        return {"type": "bool", "value": str(value).lower()}
    for kind, name in ((str, "string"), (int, "integer"), (float, "float")):
        if isinstance(value, kind):
            return {"type": name, "value": kind.__str__(value) if kind is str else repr(kind(value))}
    if isinstance(value, datetime.datetime):
        return {"type": "datetime" if value.tzinfo else "datetime-local", "value": value.isoformat().replace("+00:00", "Z")}
    return {"type": "date-local" if isinstance(value, datetime.date) else "time-local", "value": value.isoformat()}


def shortened(meaning):
    """A meaning whose seconds have at most six digits, as Python's have."""
    if isinstance(meaning, list):
        return [shortened(inner) for inner in meaning]
    if conformance.is_scalar(meaning):
        if not meaning["type"].startswith(("date", "time")):
            return meaning
        value = re.sub(r"(\.\d{6})\d+", r"\1", conformance.moment(meaning["value"]))
        return {"type": meaning["type"], "value": re.sub(r"[+-]00:00$", "Z", value)}
    return {key: shortened(inner) for key, inner in meaning.items()}


def by_tomllib(text):
    try:
        return tagged(tomllib.loads(text))
    except (ValueError, RecursionError):
        return None


def by_tomlkit(text):
    try:
        return tagged(tomlkit.parse(text).unwrap())
    except Exception:  # it has errors of many kinds
        return None


def ran(words, text):
    return subprocess.run(words, input=text.encode("utf-8", "surrogatepass"), capture_output=True)


def by_program(words):
    def read(text):
        made = ran(words, text)
        return json.loads(made.stdout) if made.returncode == 0 else None
    return read


def by_crate(plain):
    """What the crate's print of a text means."""
    def read(text):
        made = ran([CRATE], text)
        return plain(made.stdout.decode()) if made.returncode == 0 else None
    return read


# Differences that are meant or faults of others: of which reader (or any), why, and how such a text is recognized.
LONG = re.compile(r"\d[\d_]{18,}")
EXPLAINED = [
    ("", "a byte order mark is skipped", lambda text: text.startswith("\ufeff")),
    ("", "an integer beyond 64 bits", lambda text: LONG.search(text)),
    ("tomllib", "it makes LF of CR LF in strings", lambda text: "\r\n" in text),
    ("toml++", "it makes LF of CR LF in strings", lambda text: "\r\n" in text),
    ("", "a leap second", lambda text: re.search(r":60", text)),
    ("toml++", "it refuses a float beyond those of 64 bits", lambda text: "1e400" in text),
    ("tomlkit", "tomllib and it do not agree", lambda text: tomllib and differ(by_tomllib(text), by_tomlkit(text))),
]


def differ(one, other):
    return (one is None) != (other is None) or one is not None and not conformance.same(shortened(one), shortened(other))


def explained(reader, text):
    return next((why for of, why, test in EXPLAINED if of in ("", reader) and test(text)), None)


class Tries:
    """The programs, and the checks of a text."""

    def __init__(self, folder, tomled, tools):
        self.tomled, self.strict, self.plain = tomled, by_program([tools, "meaning", "strict"]), by_program([tools, "meaning"])
        self.readers = {}
        if tomllib:
            self.readers["tomllib"] = by_tomllib
        if tomlkit:
            self.readers["tomlkit"] = by_tomlkit
        if self.compiles(folder):
            self.readers["toml++"] = by_program([folder + "/driver"])
        if os.path.exists(CRATE):
            self.readers["toml_edit"] = by_crate(self.plain)

    @staticmethod
    def compiles(folder):
        try:
            words = ["g++", "-std=c++17", "-O1", "-x", "c++", "-", "-o", folder + "/driver"]
            return subprocess.run(words, input=DRIVER.encode(), capture_output=True).returncode == 0
        except OSError:
            return False

    def differences(self, text, seed):
        """What is wrong of a text: of whom, and what."""
        strict, plain = self.strict(text), self.plain(text)
        found = []
        if strict is not None and (plain is None or not conformance.same(strict, plain)):
            found.append(("versions", "TOML 1.1 does not mean what 1.0 does"))
        for reader, read in self.readers.items():
            ours, came = plain if reader == "toml_edit" else strict, read(text)
            if (ours is None) != (came is None):
                found.append((reader, "accepted by %s alone" % (reader if ours is None else "this library")))
            elif differ(ours, came):
                found.append((reader, "means %s by %s" % (json.dumps(came, ensure_ascii=False), reader)))
        if plain is not None:
            found.extend(self.prints(text, plain, []))
            found.extend(self.prints(text, plain, ["exact"]))
            found.extend(self.kept(text))
            found.extend(self.gets(text, plain, Maker(seed)))
            found.extend(self.edits(text, plain, Maker(seed)))
        return found

    def prints(self, text, meaning, mode):
        """The print of the print is the print, and means what the text does."""
        first = ran([self.tomled, *mode, "print"], text)
        again = ran([self.tomled, *mode, "print"], first.stdout.decode())
        name = " ".join([*mode, "print"])
        if first.returncode or again.returncode or first.stdout != again.stdout:
            yield name, "the %s of the print is another text" % name
        came = self.plain(first.stdout.decode())
        if came is None or not conformance.same(meaning, came):
            yield name, "the %s means something else" % name
        elif headers(text) != headers(first.stdout.decode()):
            yield name, "the headers of the %s are others, or in another order" % name
        if not mode and b"\r" in first.stdout and not re.search("\"\"\"|'''", text):
            yield name, "the %s has a carriage return" % name

    def kept(self, text):
        """A text in which each key has one mention is its own print, in the exact mode."""
        if not re.search(r"\.|\[\[|^\ufeff", text):
            printed = ran([self.tomled, "exact", "print"], text).stdout.decode()
            if printed != text:
                yield "exact print", "the print is %r" % printed

    def gets(self, text, meaning, chance):
        """`get` writes a value, or the lines of a table, that mean what is there."""
        found = [(path, inner) for path, inner in below(meaning) if is_leaf(inner) or isinstance(inner, dict) and all(map(is_leaf, inner.values()))]
        if found:
            path, inner = chance.choice(found)
            name = ".".join(map(spelled, path))
            wrote = ran([self.tomled, "get", name], text).stdout.decode()
            came = [self.plain(wrote), (self.plain("it = " + wrote) or {}).get("it")]
            if not any(it is not None and conformance.same(inner, it) for it in came):
                yield "get", "get %s: %r" % (name, wrote)

    def edits(self, text, meaning, chance):
        """`set` and `remove` change what they should, and no other statement."""
        mode = chance.choice([[], [], ["exact"]])
        before = ran([self.tomled, *mode, "print"], text).stdout.decode()
        leaves = [path for path, inner in below(meaning) if is_leaf(inner)]
        tables = [path for path, inner in below(meaning) if isinstance(inner, dict) and not conformance.is_scalar(inner)]
        new = {"type": "string", "value": "new"}
        tasks = [("set", chance.choice([(), *tables]) + ("fresh",), new)]
        if leaves:
            tasks += [("set", chance.choice(leaves), new), ("remove", chance.choice(leaves), None)]
        for call, path, value in tasks:
            words = [self.tomled, *mode, call, ".".join(map(spelled, path))] + (['"new"'] if value else [])
            made = ran(words, text)
            after, name = made.stdout.decode(), "%s %s" % (call, words[len(mode) + 2])
            came = self.plain(after) if made.returncode == 0 else None
            if came is None:
                yield call, "%s: status %d %s" % (name, made.returncode, made.stderr.decode())
            elif not any(conformance.same(wanted, came) for wanted in changed(meaning, path, value)):
                yield call, "%s: means %s" % (name, json.dumps(came, ensure_ascii=False))
            elif not is_alone(call, chunks(before), chunks(after)):
                yield call, "%s: changes more than a statement: %r" % (name, after)
            elif value and path in leaves:
                old = ran([self.tomled, *mode, "get", words[len(mode) + 2]], before).stdout.decode()
                if before.count(old[:-1]) == 1 and after != before.replace(old[:-1], words[-1]):
                    yield call, "%s: changes what is around the value: %r" % (name, after)


def is_leaf(meaning):
    """Whether this can only be a value, and no array of tables."""
    return conformance.is_scalar(meaning) or isinstance(meaning, list) and all(map(is_leaf, meaning))


def spelled(name):
    return json.dumps(name, ensure_ascii=False).replace("\x7f", "\\u007f")


def below(meaning, path=()):
    """The paths that lead through tables, each with what is there."""
    for name, inner in meaning.items():
        yield path + (name,), inner
        if isinstance(inner, dict) and not conformance.is_scalar(inner):
            yield from below(inner, path + (name,))


def changed(meaning, path, value):
    """The meaning with the value at the path, or without what is there. A table that is left empty may be gone too."""
    if len(path) == 1:
        rest = {name: inner for name, inner in meaning.items() if name != path[0]}
        return [{**rest, path[0]: value} if value else rest]
    made = [{**meaning, path[0]: inner} for inner in changed(meaning[path[0]], path[1:], value)]
    return made + [{name: inner for name, inner in meaning.items() if name != path[0]} for it in made if it[path[0]] == {}]


PIECE = re.compile(
    r'"""(?:\\.|[^\\])*?"{3,5}|' + r"'''.*?'{3,5}|" + r'"(?:\\.|[^"\\\n])*"|' + r"'[^'\n]*'|#[^\n]*|[\[\]{}]|\n|.", re.S)


def chunks(text):
    """The statements of a text, each with its line ending, and the lines with a comment or nothing."""
    made, start, depth = [], 0, 0
    for piece in PIECE.finditer(text):
        depth += (piece[0] in "[{") - (piece[0] in "]}")
        if piece[0] == "\n" and depth == 0:
            made.append(text[start:piece.end()].rstrip("\r\n"))
            start = piece.end()
    return made + ([text[start:]] if text[start:] else [])


def headers(text):
    """What the headers of a text mean, in their order."""
    lines = [line for line in chunks(text.removeprefix("\ufeff")) if line.lstrip().startswith("[")]
    return [by_tomllib(line) for line in lines] if tomllib else []


def is_alone(call, before, after):
    """Whether the texts differ by one statement, with its header or the comments before it."""
    low = 0
    while low < min(len(before), len(after)) and before[low] == after[low]:
        low += 1
    high = 0
    while high < min(len(before), len(after)) - low and before[-1 - high] == after[-1 - high]:
        high += 1
    gone, come = before[low:len(before) - high], after[low:len(after) - high]
    said = [line for line in gone if line.strip() and not line.strip().startswith("#")]
    if call == "remove":
        return len(said) <= 1 and len(come) <= 1
    return len(gone) <= 1 and len(come) <= 3


def minimized(text, still):
    """A shortest text, by taking lines and then characters out, of which the same is wrong."""
    for parts, join in ((text.splitlines(True), True), (None, False)):
        parts = parts if join else list("".join(text))
        size = max(1, len(parts) // 2)
        while size:
            at = 0
            while at < len(parts):
                fewer = parts[:at] + parts[at + size:]
                if still("".join(fewer)):
                    parts = fewer
                else:
                    at += size
            size //= 2
        text = "".join(parts)
    return text


def main():
    words = sys.argv[1:]
    if words[:1] == ["--help"]:
        return print(__doc__.strip())
    with tempfile.TemporaryDirectory() as folder, concurrent.futures.ThreadPoolExecutor(os.cpu_count()) as pool:
        programs, words = unproved.programs(["tomled", "test_tools"], words, folder)
        texts = texts_of(words)
        tries = Tries(folder, *programs)
        found = list(pool.map(lambda task: tries.differences(*task), texts))
        accepted = sum(1 for it in pool.map(lambda task: tries.plain(task[0]), texts) if it is not None)
        return report(tries, texts, found, accepted)


def texts_of(words):
    """The texts that the words say, each with its number."""
    if words[:1] == ["--text"]:
        with open(words[1], encoding="utf-8", newline="") as file:
            return [(file.read(), 0)]
    count, seed = [int(word) for word in words + ["2000", "1"][len(words):]]
    return [(Maker("%d %d" % (seed, number)).text(), number) for number in range(count)]


def report(tries, texts, found, accepted):
    """Prints what is not explained, each with a short text."""
    reasons, count = {}, 0
    for (text, seed), differences in zip(texts, found):
        for reader, what in differences:
            why = explained(reader, text)
            if why:
                key = "%s, %s" % (reader, why)
                reasons[key] = reasons.get(key, 0) + 1
                continue
            count += 1
            if count <= 20:
                short = minimized(text, lambda it: any(of == reader and not explained(of, it) for of, _ in tries.differences(it, seed)))
                again = next((what for of, what in tries.differences(short, seed) if of == reader), what)
                print("%s, text %d: %r: %s" % (reader, seed, short, again))
    for key in sorted(reasons):
        print("explained: %s (%d)" % (key, reasons[key]))
    missing = [name for name in ("tomllib", "tomlkit", "toml++", "toml_edit") if name not in tries.readers]
    print("%d texts, %d accepted, beside %s%s: %d differences that are not explained" % (
        len(texts), accepted, ", ".join(tries.readers), " (not there: %s)" % ", ".join(missing) if missing else "", count))
    return 1 if count else 0


if __name__ == "__main__":
    sys.exit(main())
