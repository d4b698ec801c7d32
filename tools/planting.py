"""Changes of one place in a source, and the copies of the repository that they are made in."""
import re
import shutil
import sys

from unproved import TOP


def listed(name):
    """The changes that a file of this folder lists, each a dictionary: its title, its file below `crates`, the old and the new text."""
    with open(TOP + "/tools/" + name, encoding="utf-8") as file:
        blocks = re.split(r"\n\n+", file.read().strip())[1:]
    return [dict(line.split(": ", 1) for line in block.split("\n")) for block in blocks]


def changed(change, top=TOP):
    """The file with the change made, or `None` where its old text isn't found once."""
    with open(top + "/crates/" + change["file"], encoding="utf-8") as file:
        text = file.read()
    return text.replace(change["old"], change["new"]) if text.count(change["old"]) == 1 else None


def copied(copy, changes=()):
    """Copies the sources of the repository into a folder, with these changes."""
    for name in ("crates.txt", "HANDLES"):
        shutil.copy(TOP + "/" + name, copy)
    shutil.copytree(TOP + "/crates", copy + "/crates", ignore=shutil.ignore_patterns("out"))
    for change in changes:
        text = changed(change, copy)
        if text is None:
            sys.exit("%s: the old text isn't there once: %s" % (change["file"], change["title"]))
        with open(copy + "/crates/" + change["file"], "w", encoding="utf-8") as file:
            file.write(text)
