#!/usr/bin/env python3
"""Tries the changes of definitions in `tools/changes`, each by itself, and prints which crate is no longer proved with it.

`tools/definitions.py [WORD]` takes the changes whose file or title holds WORD (all), in a copy of the repository, and wants `rt` on the path.
A change of a definition is checked in the definition's own crate, whose worked examples are checked with it, and if that is still proved in
`toml_edit_laws`. It is refused by the first that is no longer proved; after the name of that crate come the first examples and lemmas that
no longer hold. A change that the checker can't read shows nothing, nor does a check that ends without naming any. The last line counts, and the
status is 1 where a change is still proved, can't be read or isn't checked.
`tools/definitions.py --list` proves nothing: it prints the changes that can't be made, since their old text isn't found once in their file,
and the definitions of the base, what is accepted, what it means and what is printed, that have fewer than two changes.
"""
import re, subprocess, sys, tempfile

import planting

LAWS = "toml_edit_laws"
BASE = ["toml_edit_model/specs/%s.antt" % name for name in ("Accepted", "Meaning", "Print")]


def changes():
    """The changes, in which `\\n` is a newline."""
    return [{field: text.replace("\\n", "\n") for field, text in change.items()} for change in planting.listed("changes")]


def few_changes(asked):
    """The definitions of the base that have fewer than two changes, each with its file and how many it has."""
    for file in BASE:
        with open(planting.TOP + "/crates/" + file, encoding="utf-8") as source:
            text = source.read()
        places = [text.index(change["old"]) for change in asked if change["file"] == file]
        starts = [(it.start(), it[1]) for it in re.finditer(r"\bpub (\w+) :", text) if re.search(r"(?m)^ *%s\b[^:;\n]*=[^;\n]*$" % it[1], text)]
        for (start, name), (end, _) in zip(starts, starts[1:] + [(len(text), "")]):
            count = sum(start <= place < end for place in places)
            if count < 2:
                yield file, name, count


def check(copy, crate):
    """Whether the crate of the copy is proved, and what its check prints."""
    ran = subprocess.run(["rt", "check", "--jobs", "1"], cwd=copy + "/crates/" + crate, capture_output=True, text=True)
    return ran.returncode == 0, ran.stdout + ran.stderr


def refusal(crate, printed):
    """What a check that failed is to be called: by the examples and lemmas that fail, or by the definitions that can't be read."""
    failed = re.findall(r"^\S*?([\w/]+)/(\w+)\.antt:\d+:\d+: error: (?:`([^`]+)`)?", printed, re.MULTILINE)
    if any(folder.endswith("specs") for folder, _, _ in failed):
        return "CAN'T BE READ"
    names = list(dict.fromkeys("%s.%s" % (file, name) for _, file, name in failed))
    if not names:
        # It was killed, or ran out of memory.
        return "NOT CHECKED"
    more = " and %d more" % (len(names) - 4) if len(names) > 4 else ""
    return "refused by %s (%s%s)" % (crate, ", ".join(names[:4]), more)


def tried(copy, change):
    """How the change ended: the copy has the file as it was before, after this."""
    path = copy + "/crates/" + change["file"]
    with open(path, encoding="utf-8") as file:
        before = file.read()
    after = planting.changed(change, copy)
    with open(path, "w", encoding="utf-8") as file:
        file.write(after)
    try:
        for crate in dict.fromkeys((change["file"].split("/")[0], LAWS)):
            is_proved, printed = check(copy, crate)
            if not is_proved:
                return refusal(crate, printed)
        return "STILL PROVED"
    finally:
        with open(path, "w", encoding="utf-8") as file:
            file.write(before)


def main():
    if "--help" in sys.argv[1:]:
        return print(__doc__.strip())
    wanted = sys.argv[1] if len(sys.argv) > 1 else ""
    is_list = wanted == "--list"
    asked = [change for change in changes() if is_list or wanted in change["file"] or wanted in change["title"]]
    lost = [change for change in asked if planting.changed(change) is None]
    for change in lost:
        print("can't be made: %s: %s" % (change["file"], change["title"]))
    for found in few_changes(asked) if is_list and not lost else []:
        print("%s: %s has %d changes" % found)
    if is_list or lost:
        print("%d changes, of which %d can't be made" % (len(asked), len(lost)))
        return 1 if lost else 0
    with tempfile.TemporaryDirectory() as copy:
        planting.copied(copy)
        if not check(copy, LAWS)[0]:
            print("%s isn't proved without a change" % LAWS)
            return 1
        refused = 0
        for change in asked:
            end = tried(copy, change)
            refused += end.startswith("refused")
            print("%s: %s: %s" % (change["file"], change["title"], end), flush=True)
    print("%d changes, of which %d are refused" % (len(asked), refused))
    return 0 if refused == len(asked) else 1


if __name__ == "__main__":
    sys.exit(main())
