#!/usr/bin/env python3
"""Tries the formatter on texts: twice each, on what each rule is about, and by `tomlfile fmt` with words for rules.

    tools/format.py [--in FOLDER | --unproved] [FILE..]

FILE is a text. Left out, these are the files of this machine whose names end in `.toml`, the common suite of TOML's texts among them
(Debian's package `golang-github-burntsushi-toml-dev`).

Of each text that is accepted, the second run changes nothing, and the comments of the formatted text are those of the text, in order, as a
scanner of strings and comments finds them. Where Python's `tomllib` reads the text, which knows TOML 1.0 alone, it reads the same data from
the formatted one. So with the default rules, with line endings kept, and with each rule off or at its other values; and by `text` of a text
as it stands, not of the document that is read from it; and by `tomlfile fmt` in settings of its own, and on texts that are made, each with
others at random.

Ends with the number of texts, and with 1 if one is otherwise.
"""
import os, random, subprocess, sys, tempfile, tomllib

import differential
import unproved

PROGRAMS = ["test_tools", "tomlfile"]
# Words of the program that are tried with each text.
WORDS = [[], ["exact"], ["exact", "returns"], ["by-depth", "four"], ["narrow"], ["no-equals"], ["no-dots"], ["no-comments"], ["no-empty-lines"],
         ["no-indentation"], ["no-arrays"], ["no-inline-tables"], ["no-empty-lines", "no-indentation", "exact"], ["no-width"],
         ["bare-keys"], ["bare-keys", "no-dots", "exact"], ["text"], ["text", "aligned"], ["text", "aligned", "by-depth", "narrow"],
         ["text", "two-empty-lines", "no-commas"], ["text", "none-empty", "brackets", "no-braces"], ["text", "collapsed", "commas-stay"],
         ["text", "no-rows", "four"], ["text", "collapsed", "narrow", "no-commas", "aligned", "bare-keys", "all"]]
OFF = ["no-equals", "no-dots", "no-comments", "no-empty-lines", "no-indentation", "no-arrays", "no-width", "no-inline-tables"]
# Words for rules of `tomlfile fmt` that are tried with each text.
SETTINGS = [words.split() for words in (
    "", "--width 100 --indent 4 --blank-lines 2 --arrays collapsed", "--width 0", "--width 20 --rows off", "--width off --arrays collapsed",
    "--indentation depth --indent 3 --comments aligned", "--indentation depth --indent 0 --width 40", "--indentation off --comments off",
    "--comments 0 --bracket-space on --brace-space off", "--comments 2 --commas never --rows off", "--comments aligned --commas off --blank-lines 0",
    "--blank-lines off --equals off --dots off", "--blank-lines 255 --indent 255 --width 255", "--arrays off --inline-tables off",
    "--inline-tables off --comments aligned --width 30", "--arrays off --comments aligned --bare-keys on",
    "--bare-keys on --left-alone off --dots off",
    "--commas never --arrays collapsed --width 60 --indentation depth", "--bracket-space on --width 10 --comments aligned --indentation depth",
    "--equals off --dots off --comments off --blank-lines off --indentation off --arrays off --inline-tables off --width off --left-alone off")]
# The rules, each with values that are taken at random.
SWITCH = ["on", "off"]
RULES = {
    "equals": SWITCH, "dots": SWITCH, "comments": ["off", "aligned", "0", "1", "2", "7"], "blank-lines": ["off", "0", "1", "2", "3"],
    "indentation": ["off", "flush", "depth"], "indent": ["0", "1", "2", "4", "8"], "arrays": ["off", "kept", "collapsed"], "rows": SWITCH,
    "commas": ["off", "always", "never"], "bracket-space": SWITCH, "brace-space": SWITCH, "width": ["off", "0", "7", "16", "40", "80"],
    "inline-tables": SWITCH, "bare-keys": SWITCH, "left-alone": SWITCH,
}
# How many settings are taken at random, and how many texts are made for each.
MADE = 200, 40
# What each rule is about: the words, a text, and the formatted text.
CASES = [
    ([], 'a=1\nb  =  "x"\n', 'a = 1\nb = "x"\n'),
    (["no-equals"], "a=1\nb  =  2\n", "a=1\nb  =  2\n"),
    ([], "[ a . b ]\nc . d=1\n", "[a.b]\nc.d = 1\n"),
    (["no-dots"], "[ a . b ]\nc . d=1\n", "[ a . b ]\nc . d = 1\n"),
    ([], "a = 1   # one\n[t]# two\n", "a = 1 # one\n\n[t] # two\n"),
    (["two-before-comments"], "a = 1 # one\n", "a = 1  # one\n"),
    (["no-comments"], "a = 1   # one\nb = 2  \n", "a = 1   # one\nb = 2  \n"),
    ([], "\n\n# top\n\n\n\na = 1\n# of t\n[t]\n\n\nb = 2\n\n\n", "# top\n\na = 1\n# of t\n[t]\n\nb = 2\n"),
    ([], "\n\n[t]\n[u]\n# end\n\n\n", "[t]\n\n[u]\n# end\n"),
    ([], "a = 1\n# remark\n\n[t]\n", "a = 1\n# remark\n\n[t]\n"),
    ([], "\n\n# only\n\n", "# only\n"),
    (["no-empty-lines"], "\n\na = 1\n\n\n[t]\n\n\n", "\n\na = 1\n\n\n[t]\n\n\n"),
    ([], "  a = 1\n [t]\n   # c\n\tb = 2\n", "a = 1\n\n[t]\n# c\nb = 2\n"),
    (["by-depth"], "a = 1\n[t]\nb = 1\n# c\n[t.u]\nd = 1\n", "a = 1\n\n[t]\n  b = 1\n  # c\n  [t.u]\n    d = 1\n"),
    (["no-indentation"], "  a = 1\n [t]\n   # c\n\tb = 2\n", "  a = 1\n\n [t]\n   # c\n\tb = 2\n"),
    ([], "a = [ 1,2 , 3, ]\nb = [ ]\nc = [\n]\n", "a = [1, 2, 3]\nb = []\nc = []\n"),
    ([], "a = [ 1, # one\n\n\n2\n# two\n, 3 # three\n]\n", "a = [\n  1, # one\n\n  2\n  # two\n  ,\n  3, # three\n]\n"),
    ([], "a = [\n[1\n# c\n, 2]]\n", "a = [\n  [\n    1\n    # c\n    ,\n    2,\n  ],\n]\n"),
    ([], "a = [ # head\n]\n", "a = [ # head\n]\n"),
    ([], "a = [[\n1,[2,\n3]]]\n", "a = [[\n  1,\n  [\n    2,\n    3,\n  ],\n]]\n"),
    (["narrow"], 'name = ["one", "two", "three"]\n', 'name = [\n  "one",\n  "two",\n  "three",\n]\n'),
    (["narrow", "no-width"], 'name = ["one", "two", "three"]\n', 'name = ["one", "two", "three"]\n'),
    (["narrow", "four"], "a = [[1, 2], [3, 4, 5, 6, 777]]\n", "a = [\n    [1, 2],\n    [\n        3,\n        4,\n        5,\n        6,\n        777,\n    ],\n]\n"),
    (["no-arrays"], "a = [ 1,2 , 3, ]\nb = [\n]\n", "a = [ 1,2 , 3, ]\nb = [\n]\n"),
    ([], "a = {b=1,c  = {}, d.e=2 }\nf = {  }\n", "a = { b = 1, c = {}, d.e = 2 }\nf = {}\n"),
    ([], "a = {b=1, # one\nc.d = 2 # two\n}\n", "a = {\n  b = 1, # one\n  c.d = 2, # two\n}\n"),
    (["no-inline-tables"], "a = {b=1,c  =  2  }\n", "a = {b = 1,c = 2  }\n"),
    ([], 't = { version="1",features=[\n"a","b" ]}\n', 't = { version = "1", features = [\n  "a",\n  "b",\n] }\n'),
    (["exact"], "a=1\r\n[t]\r\nb=2", "a = 1\r\n\n[t]\r\nb = 2"),
    (["exact", "returns"], "a=1\r\n[t]\r\nb=2", "a = 1\r\n\r\n[t]\r\nb = 2"),
    ([], 's = """\n  # no comment\n""" # one\n', 's = """\n  # no comment\n""" # one\n'),
    ([], "[[a]]\nb=1\n[[a]]\n", "[[a]]\nb = 1\n\n[[a]]\n"),
    ([], "\n# one\na.b=1\na.c=2\n", "# one\na.b = 1\na.c = 2\n"),
    ([], "\n\n[a.b]\n[a]\nx=1\n", "[a.b]\n\n[a]\nx = 1\n"),
    ([], '"a"=1\n', '"a" = 1\n'),
    (["bare-keys"], '"a"=1\n', "a = 1\n"),
    (["bare-keys"], "# one\n'b-c' . d = 1 # two\n", "# one\nb-c.d = 1 # two\n"),
    (["bare-keys"], '["x"."y z"]\n"\\u0061"=1\n', '[x."y z"]\na = 1\n'),
    (["bare-keys"], "a = [ { \"p\" = 1, 'q'.r = { 's' = 2 } } ]\n[[ 'b' ]]\n", "a = [{ p = 1, q.r = { s = 2 } }]\n\n[[b]]\n"),
    (["bare-keys"], '"" = 1\n"a.b" = 1\n"é" = 1\n', '"" = 1\n"a.b" = 1\n"é" = 1\n'),
    (["bare-keys", *OFF], "\n[ 'a' . b ]#c\n\"c\"=1\n", "\n[ a . b ]#c\nc=1\n"),
    (["narrow", "bare-keys"], '"name" = [1, 2, 3, 4]\n', "name = [1, 2, 3, 4]\n"),
    (OFF, "\n a=1 \n\n\n[ t ]#c\n b = [ 1,\n2]\n c={ d=1 }\n\n", "\n a=1 \n\n\n[ t ]#c\n b = [ 1,\n2]\n c={ d=1 }\n\n"),
    ([], "a = 1\n# of a or t\n[t]\n", "a = 1\n# of a or t\n[t]\n"),
    (["aligned"], "a = 1 # one\nbcd = 2   # two\n\ne = 3 # three\n[t]# four\nf = 1 # five\n",
     "a = 1    # one\nbcd = 2  # two\n\ne = 3  # three\n\n[t]  # four\nf = 1  # five\n"),
    (["aligned"], 'x = [ # head\n"a", # one\n"bcd", # two\n# own\n"e" # three\n] # end\n',
     'x = [  # head\n  "a",    # one\n  "bcd",  # two\n  # own\n  "e",  # three\n]  # end\n'),
    (["aligned"], "a = 1 # one\nb = \"äöü\" # two\n", "a = 1      # one\nb = \"äöü\"  # two\n"),
    (["two-empty-lines"], "a = 1\n\n\n\n\nb = 2\n[t]\n", "a = 1\n\n\nb = 2\n\n[t]\n"),
    (["none-empty"], "\na = 1\n\n\nb = 2\n\n[t]\n\n", "a = 1\nb = 2\n[t]\n"),
    ([], "a = [\n 1, 2, # one\n 3, 4\n]\n", "a = [\n  1, 2, # one\n  3, 4,\n]\n"),
    ([], "a = [1, 2,\n 3]\n", "a = [\n  1, 2,\n  3,\n]\n"),
    (["no-rows"], "a = [\n 1, 2,\n 3, 4\n]\n", "a = [\n  1,\n  2,\n  3,\n  4,\n]\n"),
    (["narrow"], "a = [\n 1, 222222, 3333333,\n 3\n]\n", "a = [\n  1,\n  222222,\n  3333333,\n  3,\n]\n"),
    (["narrow"], "a = [\n 1, 22222, 333333,\n 3\n]\n", "a = [\n  1, 22222, 333333,\n  3,\n]\n"),
    ([], "a = [\n [1], [2],\n [3]\n]\n", "a = [\n  [1],\n  [2],\n  [3],\n]\n"),
    (["collapsed"], "a = [\n  1,\n  2,\n]\nb = [\n  1, # one\n]\n", "a = [1, 2]\nb = [\n  1, # one\n]\n"),
    (["no-commas"], "a = [\n  1,\n  2,\n]\nb = [\n 1\n # one\n ,\n]\n", "a = [\n  1,\n  2\n]\nb = [\n  1\n  # one\n  ,\n]\n"),
    (["no-commas"], "a = [\n  1, # one\n  2, # two\n]\n", "a = [\n  1, # one\n  2 # two\n]\n"),
    (["commas-stay"], "a = [\n  1,\n  2\n]\nb = [\n  1,\n]\n", "a = [\n  1,\n  2\n]\nb = [\n  1,\n]\n"),
    (["brackets"], "a = [1,2]\nb = [ ]\nc = {a=1}\n", "a = [ 1, 2 ]\nb = []\nc = { a = 1 }\n"),
    (["no-braces"], "c = { a = 1,b=2 }\nd = { }\n", "c = {a = 1, b = 2}\nd = {}\n"),
    (["narrow", "brackets"], "a = [1111, 22222222]\nb = [1111, 222222]\n", "a = [\n  1111,\n  22222222,\n]\nb = [ 1111, 222222 ]\n"),
    (["narrow"], 'a = ["äöüäöüä", "ö"]\n', 'a = ["äöüäöüä", "ö"]\n'),
    ([], "a=1\n# fmt: off\nb=2\n[ t ]\n\n\n\nc=3\n\n\n#fmt: on \nd=4\n",
     "a = 1\n# fmt: off\nb=2\n[ t ]\n\n\n\nc=3\n\n#fmt: on \nd = 4\n"),
    (["by-depth"], "# fmt: off\n[ t ]\n# fmt: on\nd=4\n", "# fmt: off\n[ t ]\n  # fmt: on\n  d = 4\n"),
    (["narrow", "bare-keys"], 'a = [{ "b" = 123456 }]\n', "a = [{ b = 123456 }]\n"),
    (["text"], "# This is @generated.\n\n\na=1\n\n", "# This is @generated.\n\n\na=1\n\n"),
    (["text", "all"], "# This is @generated.\n\n\na=1\n\n", "# This is @generated.\n\na = 1\n"),
    ([], "a.b=1\nc=2\na.d=3\n", "a.b = 1\na.d = 3\nc = 2\n"),
    (["text"], "a.b=1\nc=2\na.d=3\n", "a.b = 1\nc = 2\na.d = 3\n"),
    (["text"], "\ufeffa=1\r\nb=2", "\ufeffa = 1\r\nb = 2"),
]


def comments_of(text):
    """The comments of a text, in order."""
    found, at = [], 0
    while at < len(text):
        for mark in ('"""', "'''", '"', "'"):
            if text.startswith(mark, at):
                at = end_of_string(text, at + len(mark), mark)
                break
        else:
            if text[at] == "#":
                end = text.find("\n", at)
                end = len(text) if end < 0 else end
                found.append(text[at:end].rstrip("\r"))
                at = end
            else:
                at += 1
    return found


def end_of_string(text, at, mark):
    """Where the string ends, whose content begins at a place."""
    while at < len(text):
        if text[at] == "\\" and mark[0] == '"':
            at += 2
        elif text.startswith(mark, at):
            at += len(mark)
            # Up to two quotation marks more are of the string.
            while len(mark) == 3 and text.startswith(mark[0], at):
                at += 1
            return at
        else:
            at += 1
    return at


def run(command, words, text):
    """What a command writes, or None where it refuses the text."""
    ran = subprocess.run([*command, *words], input=text, capture_output=True, timeout=60)
    if ran.returncode:
        return None
    return ran.stdout


def data_of(text):
    """What `tomllib` reads, as a text, or None where it refuses."""
    try:
        return repr(tomllib.loads(text.decode()))
    except (tomllib.TOMLDecodeError, RecursionError):
        return None


def fault(text, once, twice):
    """What is wrong with a text formatted once and twice, None if nothing, or "refused"."""
    if once is None:
        return "refused"
    if twice != once:
        return "the second run changes it"
    if comments_of(text.decode()) != comments_of(once.decode()):
        return "the comments differ"
    data = data_of(text)
    if data is not None and data_of(once) != data:
        return "the data differ"
    return None


def read(path):
    """The text of a file, or None where it isn't UTF-8."""
    with open(path, "rb") as file:
        text = file.read()
    try:
        text.decode()
    except UnicodeDecodeError:
        return None
    return text


def texts():
    """The files of this machine."""
    ran = subprocess.run(["find", "/usr", "/root", "/opt", "/home", "-xdev", "-name", "*.toml"], capture_output=True, text=True)
    return sorted(ran.stdout.splitlines())


def cases(command):
    """The number of cases that are otherwise."""
    bad = 0
    for asked, before, after in CASES:
        came = run(command, asked, before.encode())
        came = came and came.decode()
        again = came and run(command, asked, came.encode()).decode()
        if came != after or again != after:
            bad += 1
            print("case %s\n%r\nwanted %r\ncame   %r\nagain  %r" % (" ".join(asked), before, after, came, again))
    return bad


def twice(command, words, texts):
    """Each text formatted once and twice, by a run for each."""
    for text in texts:
        once = run(command, words, text)
        yield once, once is not None and run(command, words, once)


def in_files(program, words, texts):
    """The texts as `tomlfile fmt` leaves them in files, or None for each that it refuses."""
    with tempfile.TemporaryDirectory() as folder:
        names = ["%d.toml" % number for number in range(len(texts))]
        for name, text in zip(names, texts):
            with open(folder + "/" + name, "wb") as file:
                file.write(text)
        ran = subprocess.run([program, "fmt", *words, *names], cwd=folder, capture_output=True, text=True, timeout=600)
        if ran.returncode > 1:
            sys.exit("tomlfile fmt %s: status %d\n%s" % (" ".join(words), ran.returncode, ran.stderr))
        refused = {line.split(":")[0] for line in ran.stdout.splitlines()}
        return [None if name in refused else read(folder + "/" + name) for name in names]


def twice_in_files(program, words, texts):
    """Each text formatted once and twice, by two runs for all."""
    once = in_files(program, words, texts)
    again = iter(in_files(program, words, [text for text in once if text is not None]))
    return [(text, text is not None and next(again)) for text in once]


def ways(how, program, lists, paths, refused):
    """The number of texts that are otherwise, each by each list of words. Those that are refused are noted."""
    bad = 0
    for asked in lists:
        taken = [path for path in paths if path not in refused]
        texts = list(map(read, taken))
        for path, text, results in zip(taken, texts, how(program, asked, texts)):
            it = fault(text, *results)
            if it == "refused" and data_of(text) is None:
                refused.add(path)
            elif it:
                bad += 1
                print("%s: %s: %s" % (path, " ".join(asked) or "default", it))
        print("%s: %d texts, %d refused, %d faults" % (" ".join(asked) or "default", len(paths), len(refused), bad), flush=True)
    return bad


def settings(chance):
    """Words for rules, some of them twice."""
    names = chance.choices(list(RULES), k=chance.randint(0, 2 * len(RULES)))
    return [word for name in names for word in ("--" + name, chance.choice(RULES[name]))]


def made(program):
    """The number of made texts that are otherwise, and of those that are accepted."""
    bad, accepted = 0, 0
    for number in range(MADE[0]):
        asked = settings(random.Random("settings %d" % number))
        texts = [differential.Maker("format %d %d" % (number, each)).document().encode() for each in range(MADE[1])]
        for text, results in zip(texts, twice_in_files(program, asked, texts)):
            it = fault(text, *results)
            # Some have an integer that is too large, or are no TOML.
            accepted += it != "refused"
            if it and it != "refused":
                bad += 1
                print("%r: %s: %s" % (text, " ".join(asked), it))
    return bad, accepted


def main():
    words = sys.argv[1:]
    if words[:1] == ["--help"]:
        return print(__doc__.strip())
    with tempfile.TemporaryDirectory() as folder:
        (tools, program), words = unproved.programs(PROGRAMS, words, folder)
        tools = [tools, "format"]
        paths = [path for path in words or texts() if read(path) is not None]
        refused = set()
        bad = cases(tools) + ways(twice, tools, WORDS, paths, refused) + ways(twice_in_files, program, SETTINGS, paths, refused)
        bad_made, accepted = made(program)
    print("%d cases, %d texts, %d of them refused, %d ways each and %d settings; %d made texts in %d settings, %d of them accepted; %d faults" % (
        len(CASES), len(paths), len(refused), len(WORDS), len(SETTINGS), MADE[0] * MADE[1], MADE[0], accepted, bad + bad_made))
    return 1 if bad + bad_made else 0


if __name__ == "__main__":
    sys.exit(main())
