#!/usr/bin/env python3
"""Tries the common suite of TOML's texts, toml-test: each valid text means what the suite says, and each invalid one is refused.

    tools/conformance.py [--in FOLDER | --unproved] [SUITE]

SUITE is the folder that has `valid` and `invalid`. Left out, it is where Debian's package `golang-github-burntsushi-toml-dev` puts it.
Each text is tried as TOML 1.0 and as TOML 1.1. Where the suite lists the files of each version (`files-toml-1.0.0`), these are the texts of
that version. An older suite has one set of files, and names those that 1.0 lacks in `version.go` beside the folder.

The program test_tools writes a meaning as the suite has it. It is the proved one, after `rt run < stdin` in crates/test_tools, or the
one in FOLDER, or one that is built by `--unproved`, which takes a minute. It reads TOML 1.0 where its last argument is `strict`, and ends
with 0, or with 1 where it refuses the text. Floats are compared by their value, and date-times by their parts.

`KNOWN` has the texts that the program takes otherwise than the suite, with the reason. One that no longer differs is reported too.
"""
import concurrent.futures, json, os, re, subprocess, sys, tempfile

import unproved

TOP = os.path.dirname(os.path.dirname(os.path.abspath(__file__)))
PACKAGE = "golang-github-burntsushi-toml-dev"
SUITE = "/usr/share/gocode/src/github.com/BurntSushi/toml/internal/toml-test/tests"
# How each version is asked for, and the name of the suite's list of its files.
VERSIONS = {"1.0": (["strict"], "1.0.0"), "1.1": ([], "1.1.0")}
# Why a text is taken otherwise than the suite says, by version and text. A suite without a list for TOML 1.1 has what it allows as invalid.
KNOWN = {
    ("1.1", "invalid/datetime/no-secs"): "1.1 allows times without seconds",
    ("1.1", "invalid/inline-table/linebreak-1"): "1.1 allows newlines in inline tables",
    ("1.1", "invalid/inline-table/linebreak-2"): "1.1 allows newlines in inline tables",
    ("1.1", "invalid/inline-table/linebreak-3"): "1.1 allows newlines in inline tables",
    ("1.1", "invalid/inline-table/linebreak-4"): "1.1 allows newlines in inline tables",
    ("1.1", "invalid/inline-table/trailing-comma"): "1.1 allows a comma after the last pair of an inline table",
    ("1.1", "invalid/string/basic-byte-escapes"): "1.1 has the escape \\x",
}


def files_of(suite, number):
    """The names of the texts of a version, without their endings."""
    lists = suite + "/files-toml-" + number
    if os.path.exists(lists):
        with open(lists, encoding="utf-8") as file:
            names = file.read().split()
    else:
        names = [os.path.relpath(os.path.join(at, name), suite) for at, _, files in os.walk(suite) for name in files]
    left_out = excluded(suite) if number == "1.0.0" else []
    return sorted(name[:-5] for name in names if name.endswith(".toml") and name[:-5] not in left_out)


def excluded(suite):
    """The texts that an older suite leaves out of TOML 1.0."""
    source = os.path.dirname(suite) + "/version.go"
    if not os.path.exists(source):
        return []
    with open(source, encoding="utf-8") as file:
        found = re.search(r'"1\.0\.0": versionSpec\{(.*?)\n\t\},', file.read(), re.S)
    return re.findall(r'"(.*?)"', found[1]) if found else []


def same(wanted, came):
    """Whether two meanings are the same."""
    if isinstance(wanted, list) or isinstance(came, list):
        return isinstance(wanted, list) and isinstance(came, list) and len(wanted) == len(came) and all(map(same, wanted, came))
    if is_scalar(wanted) and is_scalar(came):
        return wanted["type"] == came["type"] and plain(wanted) == plain(came)
    if is_scalar(wanted) or is_scalar(came) or wanted.keys() != came.keys():
        return False
    return all(same(wanted[key], came[key]) for key in wanted)


def is_scalar(meaning):
    return isinstance(meaning, dict) and meaning.keys() == {"type", "value"} and isinstance(meaning["type"], str)


def plain(scalar):
    """The value of a scalar, so that equal ones are equal."""
    kind, text = scalar["type"], scalar["value"]
    if kind == "float":
        return "nan" if text.endswith("nan") else float(text)
    if kind.startswith(("date", "time")):
        return moment(text)
    return text


def moment(text):
    """A date-time with its seconds, without zeros at the end of a fraction, and in upper case."""
    text = re.sub(r"(?<=\d)[ t](?=\d)", "T", text).replace("z", "Z")
    text = re.sub(r"((?:^|T)\d\d:\d\d)(?!:|\d)", r"\1:00", text)
    return re.sub(r"\.?0+(?=Z|[+-]|$)", "", text) if "." in text else text


def came_of(program, words, text):
    """What the program makes of a text: its meaning, or None where it is refused."""
    run = subprocess.run([program, "meaning", *words], input=text, capture_output=True)
    if run.returncode == 1 and not run.stdout:
        return None
    if run.returncode:
        raise ValueError("status %d" % run.returncode)
    return json.loads(run.stdout)


def difference(program, suite, words, name):
    """What the program does otherwise than the suite says, or None."""
    with open("%s/%s.toml" % (suite, name), "rb") as file:
        text = file.read()
    try:
        came = came_of(program, words, text)
    except ValueError as error:
        return str(error)
    if name.startswith("invalid/"):
        return None if came is None else "accepted: %s" % json.dumps(came)
    if came is None:
        return "refused"
    with open("%s/%s.json" % (suite, name), encoding="utf-8") as file:
        wanted = json.load(file)
    return None if same(wanted, came) else "means %s" % json.dumps(came)


def try_version(pool, program, suite, version):
    """Tells each unexpected difference of a version. Returns how many there are, and a line that says what was tried."""
    words, number = VERSIONS[version]
    names = files_of(suite, number)
    known = {name: reason for (of, name), reason in KNOWN.items() if of == version}
    count, met = 0, 0
    for name, found in zip(names, pool.map(lambda name: difference(program, suite, words, name), names)):
        met += found is not None and name in known
        if (found is None) == (name in known):
            print("TOML %s, %s: %s" % (version, name, found or "no longer differs (%s)" % known[name]))
            count += 1
    valid = sum(name.startswith("valid/") for name in names)
    return count, "TOML %s: %d valid and %d invalid texts, %d known to differ" % (version, valid, len(names) - valid, met)


def main():
    words = sys.argv[1:]
    if words[:1] == ["--help"]:
        return print(__doc__.strip())
    with tempfile.TemporaryDirectory() as folder, concurrent.futures.ThreadPoolExecutor(os.cpu_count()) as pool:
        (program,), words = unproved.programs(["test_tools"], words, folder)
        suite = os.path.abspath(words[0] if words else SUITE)
        if not os.path.isdir(suite + "/valid"):
            sys.exit("no suite at %s: install Debian's package %s, or name the folder" % (suite, PACKAGE))
        results = [try_version(pool, program, suite, version) for version in VERSIONS]
    differ = sum(count for count, _ in results)
    print("%s; %s" % ("; ".join(line for _, line in results), "%d differ" % differ if differ else "all others as the suite says"))
    return 1 if differ else 0


if __name__ == "__main__":
    sys.exit(main())
