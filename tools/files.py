#!/usr/bin/env python3
"""Tries `tomlfile` on the TOML files of folders, and kills it while it edits.

    tools/files.py [--program FILE] [--kills COUNT] FOLDER..

The program is FILE, or the proved one in `crates/tomlfile/out`, or else one that is built unproved. On each file that Python's `tomllib` reads:

- `json` writes what `tomllib` reads, with keys in the same order and dates as strings;
- `edit` of a version that is a string changes that one line, and an edit back gives the file;
- `append` to an array and `take` of the same value give the file, byte for byte.

Each goes on a copy. Edits that cannot be made, as on a full device or in a folder that cannot be written, have to say so and leave the file
as it was. Links, pipes, read-only files, files of other users, long names and names that are not UTF-8 are tried, and then runs at the same
time: 60 that each add a key, an editor that writes while a run waits before its rename, and two runs of one process number, in namespaces
of their own, with a delay at each of their system calls in turn. What needs root, `unshare` or `strace` is left out without it, which the
tool says. With `--kills` an edit is killed so often, at a random moment: the file has to hold the old text or the new one, and nothing may
lie beside it after the next edit.
"""
import argparse
import datetime
import json
import math
import os
import random
import resource
import signal
import subprocess
import sys
import tempfile
import time
import tomllib

import unproved

VALUE = '"tomlfile was here"'


def run(program, *words):
    return subprocess.run([program, *words], capture_output=True)


def same(value, read):
    """Whether what was read as JSON is the value of `tomllib`: dates, infinities and what is no number are strings."""
    if isinstance(value, dict):
        return isinstance(read, dict) and list(value) == list(read) and all(same(value[key], read[key]) for key in value)
    if isinstance(value, list):
        return isinstance(read, list) and len(value) == len(read) and all(map(same, value, read))
    if isinstance(value, (datetime.date, datetime.time)):
        return isinstance(read, str) and type(value).fromisoformat(read) == value
    if isinstance(value, float) and not math.isfinite(value):
        return isinstance(read, str) and str(abs(value)) == str(abs(float(read))) and (value < 0) == (float(read) < 0)
    return type(value) is type(read) and value == read


def version_path(read):
    for table in ("package", "project"):
        if isinstance(read.get(table), dict) and isinstance(read[table].get("version"), str):
            return table + ".version"
    return None


def array_paths(program, copy):
    paths = run(program, "keys", copy, "--all").stdout.decode().splitlines()[:60]
    return [path for path in paths if run(program, "has", copy, path, "array").returncode == 0]


def tries(program, file, copy):
    """The faults that are found with a file, and which tries it was good for."""
    with open(file, "rb") as opened:
        old = opened.read()
    try:
        read = tomllib.loads(old.decode())
    except (UnicodeDecodeError, tomllib.TOMLDecodeError):
        return [], []

    def restore():
        with open(copy, "wb") as opened:
            opened.write(old)

    def text():
        with open(copy, "rb") as opened:
            return opened.read()

    restore()
    done, faults = ["json"], []
    told = run(program, "json", copy)
    if told.returncode or not same(read, json.loads(told.stdout)):
        faults.append("json: not what tomllib reads")
    path = version_path(read)
    if path:
        done.append("version")
        version = read[path.split(".")[0]]["version"]
        first = run(program, "edit", copy, "string", path, "1.2.3-tomlfile")
        pairs = list(zip(old.split(b"\n"), text().split(b"\n"), strict=False))
        if first.returncode or len(pairs) != old.count(b"\n") + 1 or sum(a != b for a, b in pairs) != 1:
            faults.append("edit of the version: not one line: %s" % first.stderr.decode())
        restore()
        spelled = run(program, "get", copy, path).stdout.decode().rstrip("\n")
        run(program, "edit", copy, "string", path, "1.2.3-tomlfile", ",", "set", path, spelled)
        if text() != old:
            faults.append("edit of the version and back: another text")
        restore()
    for path in array_paths(program, copy)[:5]:
        done.append("array")
        told = run(program, "edit", copy, "append", path, VALUE)
        if told.returncode or text() == old:
            faults.append("append to %s: %s" % (path, told.stderr.decode()))
        run(program, "edit", copy, "take", path, VALUE)
        if text() != old:
            faults.append("append to %s and take: another text" % path)
        restore()
    return done, faults


def no_room():
    """A device with no room left: each write fails."""
    signal.signal(signal.SIGXFSZ, signal.SIG_IGN)
    resource.setrlimit(resource.RLIMIT_FSIZE, (0, 0))


def nobody():
    """A user who may not write here."""
    if os.getuid() == 0:
        os.setgid(65534)
        os.setuid(65534)


def refusals(program, folder):
    """The faults that are found with edits that cannot be made."""
    os.mkdir(folder + "/locked")
    texts = {"kept.toml": b"a = 1\n", "locked/kept.toml": b"a = 1\n", "latin.toml": b"a = \"\xe9\"\n", "bad.toml": b"a = [\n"}
    for name, text in texts.items():
        with open("%s/%s" % (folder, name), "wb") as file:
            file.write(text)
    for place in (os.path.dirname(folder), folder, folder + "/locked"):
        os.chmod(place, 0o555 if place.endswith("locked") else 0o755)
    faults = []
    for name, before, status in (("kept.toml", no_room, 4), ("locked/kept.toml", nobody, 4), ("gone.toml", None, 4), ("locked", None, 4),
                                 ("latin.toml", None, 5), ("bad.toml", None, 5)):
        path = "%s/%s" % (folder, name)
        told = subprocess.run([program, "edit", path, "set", "a", "2"], capture_output=True, preexec_fn=before)
        if told.returncode != status or not told.stderr.decode().startswith("tomlfile: " + path) or told.stdout:
            faults.append("%s: status %d: %s" % (name, told.returncode, told.stderr.decode()))
    for name, text in texts.items():
        with open("%s/%s" % (folder, name), "rb") as file:
            if file.read() != text:
                faults.append("%s: another text" % name)
    os.chmod(folder + "/locked", 0o755)
    if sorted(os.listdir(folder)) != ["bad.toml", "kept.toml", "latin.toml", "locked"] or os.listdir(folder + "/locked") != ["kept.toml"]:
        faults.append("files are left behind")
    return faults


def held(path):
    with open(path, "rb") as file:
        return file.read()


def made(path, text=b"a = 1\n"):
    with open(path, "wb") as file:
        file.write(text)
    return path


def names(program, folder):
    """The faults that are found with names: links, pipes, long names, and names that are not UTF-8."""
    faults = []

    def expect(what, status, *words, feed=None):
        told = subprocess.run([program, *words], capture_output=True, input=feed)
        if told.returncode != status or (status == 4 and not told.stderr):
            faults.append("%s: status %d: %s" % (what, told.returncode, told.stderr.decode(errors="replace")))
        return told

    os.mkdir(folder + "/other")
    file = made(folder + "/f.toml")
    links = {"gone": "nothing", "in": "/proc/self/fd/0", "out": "/proc/self/fd/1", "loop": "loop", "pipe": "fifo", "to-folder": "other"}
    os.mkfifo(folder + "/fifo")
    for link, to in links.items():
        os.symlink(to, "%s/%s" % (folder, link))
    for link in links:
        expect("--output %s" % link, 4, "edit", file, "set", "a", "2", "--output", "%s/%s" % (folder, link))
        if not os.path.islink("%s/%s" % (folder, link)):
            faults.append("%s is no link any longer" % link)
    expect("edit of a pipe by a link", 4, "edit", folder + "/in", "set", "a", "2", feed=b"a = 1\n")
    if expect("get of a pipe by a link", 0, "get", folder + "/in", "a", feed=b"a = 1\n").stdout != b"1\n":
        faults.append("get of a pipe by a link: another answer")
    with open(file, "rb") as opened:
        told = subprocess.run([program, "edit", folder + "/in", "set", "a", "2"], stdin=opened, capture_output=True)
    if told.returncode != 4 or held(file) != b"a = 1\n" or not os.path.islink(folder + "/in"):
        faults.append("a file by a link in /proc is replaced")
    if os.path.exists(folder + "/nothing"):
        faults.append("a broken link made a file")
    os.symlink("second", folder + "/chain")
    os.symlink("other/third", folder + "/second")
    os.symlink("../f.toml", folder + "/other/third")
    expect("a chain of links", 0, "edit", folder + "/chain", "set", "a", "2")
    if held(file) != b"a = 2\n" or not all(os.path.islink("%s/%s" % (folder, it)) for it in ("chain", "second", "other/third")):
        faults.append("a chain of links: not the file at its end")
    long = made(folder + "/" + "n" * 250 + ".toml")
    expect("a name of 255 bytes", 0, "edit", long, "set", "a", "2")
    if held(long) != b"a = 2\n":
        faults.append("a name of 255 bytes: another text")
    told = expect("a name that is not UTF-8", 2, "edit", made(os.fsencode(folder) + b"/\xff.toml"), "set", "a", "2")
    if b"word 2 is not UTF-8" not in told.stderr:
        faults.append("a name that is not UTF-8: %s" % told.stderr.decode())
    left = [it for it in os.listdir(folder) if it.endswith(".tomlfile")]
    return faults + (["left behind: %s" % " ".join(left)] if left else [])


def owners(program, folder):
    """The faults that are found with modes and owners."""
    faults = []
    file = made(folder + "/f.toml")
    for mode in (0o600, 0o640, 0o755, 0o4755, 0o2755, 0o1644):
        os.chmod(file, mode)
        if run(program, "edit", file, "set", "a", "%d" % mode).returncode or os.stat(file).st_mode & 0o7777 != mode:
            faults.append("mode %o: not kept" % mode)
    os.chmod(file, 0o444)
    before = held(file)
    told = run(program, "edit", file, "set", "a", "3")
    if told.returncode != 4 or not told.stderr or held(file) != before:
        faults.append("a read-only file is replaced")
    if run(program, "edit", file, "set", "a", "4", "--force").returncode or held(file) != b"a = 4\n" or os.stat(file).st_mode & 0o777 != 0o444:
        faults.append("a read-only file is not replaced by force")
    os.chmod(file, 0o644)
    if os.getuid():
        print("owners are left out: not root")
        return faults
    os.chown(file, 1234, 2345)
    run(program, "edit", file, "set", "a", "5")
    if held(file) != b"a = 5\n" or (os.stat(file).st_uid, os.stat(file).st_gid) != (1234, 2345):
        faults.append("owner or group: not kept")
    os.chmod(folder, 0o777)
    for words, status, text in (([], 4, b"a = 5\n"), (["--force"], 0, b"a = 6\n")):
        told = subprocess.run([program, "edit", file, "set", "a", "6", *words], capture_output=True, preexec_fn=nobody)
        if told.returncode != status or held(file) != text:
            faults.append("the file of another user %s: status %d: %s" % (" ".join(words), told.returncode, told.stderr.decode()))
    return faults


def at_once(program, folder):
    """The faults that are found with runs at the same time, each of one edit."""
    file = made(folder + "/f.toml")
    edits = [subprocess.Popen([program, "edit", file, "set", "k%d" % at, str(at)]) for at in range(60)]
    failed = sum(edit.wait() != 0 for edit in edits)
    kept = len(tomllib.loads(held(file).decode())) - 1
    return [] if kept == 60 and not failed else ["60 edits at once: %d keys are kept, %d runs failed" % (kept, failed)]


# The system calls of a replacement, each of which waits.
CALLS = ("openat", "flock", "statx", "newfstatat,fstat", "write", "fchmod", "fsync", "rename", "unlink")


def slow(program, call, seconds, *words, apart=False):
    """Begins a run that waits at each of these system calls, in a namespace of its own if it is to be apart: then it is process 1."""
    run_it = ["strace", "-qq", "-f", "-o", os.devnull, "-e", "trace=" + call, "-e", "inject=%s:delay_enter=%d" % (call, seconds * 1e6)]
    run_it += ["unshare", "-pf", "--mount-proc"] if apart else []
    return subprocess.Popen([*run_it, program, *words], stderr=subprocess.DEVNULL, stdout=subprocess.DEVNULL, start_new_session=True)


def is_permitted(*words):
    try:
        return subprocess.run(words, capture_output=True).returncode == 0
    except OSError:
        return False


def meanwhile(program, folder):
    """The faults that are found with an editor that writes before the rename of a run, and with two runs of one process number."""
    if not is_permitted("strace", "-qq", "-e", "trace=none", "true"):
        print("delays are left out: no strace")
        return []
    faults = []
    for how in ("written", "replaced"):
        file = made(folder + "/editor.toml")
        edit = slow(program, "fsync", 1.5, "edit", file, "set", "a", "2")
        time.sleep(0.7)
        text = made(file if how == "written" else folder + "/new", b"editor = true\n")
        if how == "replaced":
            os.rename(text, file)
        if edit.wait() != 4 or held(file) != b"editor = true\n":
            faults.append("what an editor has %s meanwhile is lost" % how)
    if not is_permitted("unshare", "-pf", "--mount-proc", "true"):
        print("process numbers are left out: no unshare")
        return faults
    texts = {b"a = 0\n", b"a = 1\n", b"a = 2\n"}
    for one in CALLS:
        for other in ("write", "rename"):
            for killed in (False, True):
                file = made(folder + "/twice.toml", b"a = 0\n")
                first = slow(program, one, 0.4, "edit", file, "set", "a", "1", apart=True)
                time.sleep(0.3)
                second = slow(program, other, 0.6, "edit", file, "set", "a", "2", apart=True)
                if killed:
                    time.sleep(0.5)
                    os.killpg(second.pid, signal.SIGKILL)
                status = first.wait()
                second.wait()
                if held(file) not in texts or status or (not killed and second.returncode):
                    faults.append("process 1 twice, delays at %s and %s%s: %d, %d, %r" % (
                        one, other, ", the second is killed" if killed else "", status, second.returncode, held(file)[:40]))
    time.sleep(1)
    run(program, "edit", folder + "/twice.toml", "set", "a", "3")
    left = sorted(set(os.listdir(folder)) - {"editor.toml", "twice.toml"})
    return faults + (["left behind: %s" % " ".join(left)] if left else [])


def kills(program, count, folder):
    """Kills edits of a file at random moments, and returns how often it held the old text, the new one, and another."""
    file = folder + "/killed.toml"
    texts = [("version = \"%d\"\n" % number + "".join("key-%d = %d # %s\n" % (at, at, "x" * 60) for at in range(20000))).encode()
             for number in (1, 2)]
    chance = random.Random(1)
    with open(file, "wb") as opened:
        opened.write(texts[0])
    begun = time.monotonic()
    run(program, "edit", file, "string", "version", "2")
    whole = time.monotonic() - begun
    found = [0, 0, 0]
    for _ in range(count):
        with open(file, "wb") as opened:
            opened.write(texts[0])
        edit = subprocess.Popen([program, "edit", file, "string", "version", "2"], stderr=subprocess.DEVNULL)
        time.sleep(chance.random() * whole * 1.2)
        edit.kill()
        edit.wait()
        with open(file, "rb") as opened:
            text = opened.read()
        found[texts.index(text) if text in texts else 2] += 1
    run(program, "edit", file, "string", "version", "3")
    return found, os.listdir(folder)


def main():
    words = argparse.ArgumentParser(description=__doc__.split("\n")[0])
    words.add_argument("--program")
    words.add_argument("--kills", type=int, default=0)
    words.add_argument("folders", nargs="*")
    given = words.parse_args()
    faults = 0
    counts = {}
    with tempfile.TemporaryDirectory() as folder:
        program = given.program or unproved.TOP + "/crates/tomlfile/out/tomlfile"
        if not os.path.isfile(program):
            program = folder + "/tomlfile"
            unproved.build("tomlfile", program)
        os.mkdir(folder + "/tried")
        files = sorted(os.path.join(place, name) for given_folder in given.folders for place, _, names in os.walk(given_folder)
                       for name in names if name.endswith(".toml"))
        for file in files:
            done, wrong = tries(program, file, folder + "/tried/copy.toml")
            for name in done:
                counts[name] = counts.get(name, 0) + 1
            for fault in wrong:
                faults += 1
                print("%s: %s" % (file, fault))
        for tried in (refusals, names, owners, at_once, meanwhile):
            place = "%s/%s" % (folder, tried.__name__)
            os.mkdir(place)
            for fault in tried(program, place):
                faults += 1
                print("%s: %s" % (tried.__name__, fault))
        print("%d files; %s; %d faults" % (len(files), ", ".join("%s %d" % it for it in sorted(counts.items())), faults))
        if given.kills:
            os.mkdir(folder + "/kills")
            (old, new, mixed), left = kills(program, given.kills, folder + "/kills")
            print("%d kills: %d old, %d new, %d mixed; then in the folder: %s" % (given.kills, old, new, mixed, " ".join(left)))
            faults += mixed + len(left) - 1
    sys.exit(1 if faults else 0)


if __name__ == "__main__":
    main()
