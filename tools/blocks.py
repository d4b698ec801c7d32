#!/usr/bin/env python3
"""Compiles and runs what pages show, and tells where something else comes.

    tools/blocks.py             prints each fault as `file:line: what`, and ends with status 1 if there is one
    tools/blocks.py --sources FOLDER     only writes the sources of the program of blocks there

- The ```rust blocks of README and GUIDE are modules of one program, as they stand. Of PROVING, whose blocks have no imports, each stands in its
  file in place of the function of its name. What MIGRATING says to write is a function for each line of its table, and its block is one too.
- `tools/calls` says how their functions are run, and has calls of docs/api with a text before and after.
- ```console blocks are run in an empty folder that has `crates`, with `tomled` and `tomlfile` built unproved, and ```sh blocks in a copy of the
  sources, where these stand for `rt try` in their folders.
- The blocks of bindings/README and of Python are run with the library of `bindings/build --unproved`.

Nothing is proved. The four are built side by side, and kept in a cache by the text of what they are made of, without comments: a run where none
of it changed takes seconds, and where a source of the library did some five minutes of processor time. It wants the kit, and for the bindings
`cc` and `cargo`.
"""
import atexit
import concurrent.futures
import functools
import glob
import hashlib
import json
import os
import re
import shutil
import subprocess
import sys
import tempfile

import sources
import unproved
from sources import TOP, read

MANY = ("README.md", "docs/GUIDE.md", "docs/TOMLFILE.md", "docs/TOMLED.md", "docs/ERRORS.md", "docs/PROVING.md", "docs/MIGRATING.md", "bindings/README.md")
# The crates that hold what pages show. What a block of the first names by `crate::` is a module of the program too.
SHOWN = ("example_tasks", "example_tools", "example_calls", "example_proofs")
BESIDE = "toml_edit_io toml_edit_fmt toml_edit_edits toml_edit_json"
PROGRAMS = ("tomled", "tomlfile")
USED = "Array ArrayOfTables DocumentMut Document InlineTable Item Key ParsePath Table Value FromStr AsTableLike value"
# What a name stands for in the code of a call.
FOUND = 'let Some(%s) = document.as_table_mut().get_mut("%s").and_then(|item| item.%s()) else { bail!("nothing there") };'
GIVEN = {
    "table": "let table = document.as_table_mut();",
    "array": FOUND % ("array", "x", "as_array_mut"),
    "pairs": FOUND % ("pairs", "x", "as_inline_table_mut"),
    "tables": FOUND % ("tables", "bin", "as_array_of_tables_mut"),
    "value": FOUND % ("value", "a", "as_value_mut"),
    "item": 'let Some(item) = document.as_table_mut().get_mut("a") else { bail!("nothing there") };',
    "slot": 'let Some(mut slot) = document.as_table_mut().slot_mut("a") else { bail!("nothing there") };',
}
MAIN = """//! What pages show.
#![tactic(auto)]

%s
use std::env;
use std::process::ExitCode;

fn main(rt: HostRuntime) -> ExitCode {
    let name = match env::args(&rt) {
        Ok(mut words) => words.next(),
        Err(_) => None,
    };
    let Some(name) = name else { return ExitCode::from(100) };
    let ended = if name.as_str().ends_with("calls") { calls::run(&rt) } else { readme::main(rt) };
    ExitCode::from(if ended.is_ok() { 0 } else { 1 })
}
"""
SHOW = """
fn show(rt: &HostRuntime, ended: Result<String>) -> Result<()> {
    match ended {
        Ok(text) => print!(rt; "{text}\\0")?,
        Err(error) => print!(rt; "error: {error}\\0")?,
    }
    Ok(())
}
"""
ROW = "\npub fn row_%d(alloc: Global, doc: &mut DocumentMut, table: &mut Table, array: &mut Array, old: &mut Value, new: Value, item: &mut Item, items: Vec<Value>, text: &'static str, string: String, path: Vec<Key>) -> Result<()> {\n%s    Ok(())\n}\n"
SHIM = """#!/bin/sh
# Stands for `rt try` in the folder of a program.
while [ $# -gt 0 ] && [ "$1" != -- ]; do shift; done
[ $# -gt 0 ] && shift
exec "%s/$(basename "$PWD")" "$@"
"""


def blocks(text):
    """The blocks of code of a page: the line before the first, the language, and the lines."""
    language, lines, start = None, [], 0
    for number, line in enumerate(text.split("\n"), 1):
        fence = line.strip().startswith("```")
        if fence and language is None:
            language, lines, start = line.strip()[3:].strip(), [], number
        elif fence:
            yield start, language, lines
            language = None
        elif language is not None:
            lines.append(line)


def entries():
    """The entries of tools/calls: for each word its lines, and the line of the file where it begins."""
    found = []
    for number, line in enumerate(read(TOP + "/tools/calls").split("\n"), 1):
        word, _, rest = line.partition(":")
        if word in ("call", "shown"):
            found.append({"line": number})
        if found and line and line[0] != "#":
            found[-1].setdefault(word, []).append(rest[1:])
    return found + rules_shown()


def rules_shown():
    """Entries for the lines of TOMLFILE's table of the formatter's rules that show a text before and after."""
    found, heading = [], ""
    kinds = {"comments": "Comments::", "indentation": "Indentation::", "arrays": "Arrays::"}
    for number, line in enumerate(read(TOP + "/docs/TOMLFILE.md").split("\n"), 1):
        heading = line if line.startswith("## ") else heading
        row = heading == "## Rules" and re.match(r"\| `--[^|]*\| `(\w+): ([^`]+)` \| `([^`]+)` \| `([^`]+)`", line)
        if row:
            name, value = row[1], kinds.get(row[1], "") + row[2]
            before, after = ("x = " + text if text[0] in "[{" and name != "dots" else text for text in row.groups()[2:])
            code = ["let mut rules = Rules::default();", "rules.%s = %s;" % (name, value), "let document = format(alloc, document, &rules)?;"]
            found.append({"line": number, "shown": ["TOMLFILE's rule " + name], "code": code, "before": [before], "after": [after], "file": "docs/TOMLFILE.md"})
    return found


def quoted(text):
    """A text as a literal of Rattle."""
    return json.dumps(text, ensure_ascii=False)


class Program:
    """The program of all blocks."""

    def __init__(self):
        self.files, self.places, self.faults = {}, {}, []
        self.pages = {page: list(blocks(read(TOP + "/" + page))) for page in MANY if os.path.exists(TOP + "/" + page)}
        for line, language, lines in self.of("README.md"):
            if language == "rust":
                self.add("readme", "\n".join(lines), "README.md", line)
        for line, language, lines in self.of("docs/GUIDE.md"):
            if language == "rust":
                self.add(self.module_of(lines), "\n".join(lines), "docs/GUIDE.md", line)
        for line, language, lines in self.of("docs/PROVING.md"):
            if language == "rust":
                self.in_its_file(line, lines)
        self.migrating()
        self.calls()
        self.beside()
        self.files["main"] = MAIN % "".join("mod %s;\n" % name for name in sorted(self.files))

    def of(self, page):
        return self.pages.get(page, [])

    def add(self, name, text, page, line):
        """Adds a module, whose `main` others may call."""
        while name in self.files:
            name += "_more"
        text = text.replace("#![tactic(auto)]\n", "")
        self.files[name] = re.sub(r"^fn main\(", "pub fn main(", text, flags=re.M) + "\n"
        self.places[name] = (page, line)

    def module_of(self, lines):
        """The name of the file that has the first public function of a block. GUIDE shows none of `example_calls`, which has some of the same names."""
        name = (re.findall(r"^pub fn (\w+)", "\n".join(lines), re.M) or ["none"])[0]
        for crate in sorted(SHOWN, key="example_calls".__eq__):
            folder = "%s/crates/%s/src" % (TOP, crate)
            for file in sorted(os.listdir(folder)):
                if re.search(r"^pub fn %s\b" % name, read(folder + "/" + file), re.M):
                    return file[:-3]
        return name

    def in_its_file(self, line, lines):
        """A function stands in its file of the crate in place of the one of its name, and its contract with it."""
        name = re.findall(r"^pub fn (\w+)", "\n".join(lines), re.M)
        folder = TOP + "/crates/example_calls/src"
        for file in sorted(os.listdir(folder)):
            text = read(folder + "/" + file)
            found = re.search(r"(?:^///.*\n)*^pub fn %s\b(?:.|\n)*?^\}\n" % name[0], text, re.M) if name else None
            if found:
                self.add(file[:-3], text[: found.start()] + "\n".join(lines) + "\n" + text[found.end() :], "docs/PROVING.md", line)
                return
        self.faults.append("docs/PROVING.md:%d: no file has the function of this block" % line)

    def migrating(self):
        """A function for each line of the first table, and one for the block."""
        text, uses, known = "", set(USED.split()), read(TOP + "/docs/MIGRATING.md").split("\n")
        start = known.index("| You wrote | You write |")
        for number in range(start + 2, known.index("", start)):
            cell = re.split(r"(?<!\\)\|", known[number])[2].replace("\\|", "|")
            text += ROW % (number + 1, statements(re.findall(r"`([^`]+)`", cell)))
        for line, language, lines in self.of("docs/MIGRATING.md"):
            if language == "rust,ignore" and "alloc" in "\n".join(lines):
                text += "\npub fn block_%d(rt: &HostRuntime, alloc: Global, text: &str) -> Result<()> {\n%s\n    Ok(())\n}\n" % (line, "\n".join(lines))
        self.add("migrating", "use anyhow::Result;\nuse std::alloc::Global;\nuse toml_edit::{%s};\n" % ", ".join(sorted(uses)) + text, "docs/MIGRATING.md", start)

    def calls(self):
        """A function for each entry of tools/calls."""
        text = "use anyhow::{Result, bail};\nuse std::alloc::Global;\nuse std::fmt::Write;\nuse toml_edit::{%s};\n" % ", ".join(USED.split())
        text += "use toml_edit_edits::{Edit, apply};\nuse toml_edit_fmt::{Arrays, Comments, Indentation, Rules, format};\nuse toml_edit_json::Json;\n"
        shown = entries()
        for name in sorted({name for entry in shown for name in re.findall(r"\b([a-z_]+)::[a-z]", " ".join(entry["code"])) if name in self.files}):
            text += "use crate::%s;\n" % name
        text += SHOW
        for number, entry in enumerate(shown):
            code = entry["code"]
            lines = ["let mut document = DocumentMut::from_str(alloc, %s)?;" % quoted("".join(line + "\n" for line in entry["before"]))]
            lines += [what for name, what in GIVEN.items() if needs(code, name)]
            if "gives" in entry:
                lines += ["let mut out = String::new(alloc);", 'write!(out, "{:?}", %s)?;' % "\n".join(code), "Ok(out)"]
            else:
                lines += [*code, "Ok(document.print(alloc)?)"]
            text += "\nfn call_%d(alloc: Global) -> Result<String> {\n    %s\n}\n" % (number, "\n    ".join(lines))
        text += "\npub fn run(rt: &HostRuntime) -> Result<()> {\n%s    Ok(())\n}\n" % "".join(
            "    show(rt, call_%d(rt.alloc()))?;\n" % number for number in range(len(shown)))
        self.add("calls", text, "tools/calls", 0)

    def beside(self):
        """Modules of the crates that blocks name by `crate::`."""
        left = list(self.files)
        while left:
            text = self.files[left.pop()]
            for name in re.findall(r"^use crate::(\w+)", text, re.M):
                paths = ["crates/%s/src/%s.rt" % (crate, name) for crate in SHOWN]
                path = next((path for path in paths if os.path.exists(TOP + "/" + path)), None)
                if name not in self.files and path:
                    self.add(name, read(TOP + "/" + path), path, 0)
                    left.append(name)

    def write(self, folder):
        """Writes a repository with the program as its crate `pages`."""
        os.makedirs(folder + "/crates/pages/src")
        for name, text in self.files.items():
            with open("%s/crates/pages/src/%s.rt" % (folder, name), "w", encoding="utf-8") as file:
                file.write(text)
        listed = sources.crates()
        for name in listed:
            os.makedirs("%s/crates/%s" % (folder, name))
            os.symlink("%s/crates/%s/src" % (TOP, name), "%s/crates/%s/src" % (folder, name))
        below = dict.fromkeys([name for crate in SHOWN for name in listed[crate]] + BESIDE.split())
        with open(folder + "/crates.txt", "w", encoding="utf-8") as file:
            file.write(read(TOP + "/crates.txt") + "pages: %s\n" % " ".join(below))


def needs(code, name):
    """Whether code uses a name that it does not make."""
    text = " ".join(code)
    return bool(re.search(r"(?<![\w.])%s(?=[.,)])" % name, text)) and "|%s|" % name not in text and "let mut %s =" % name not in text


def statements(pieces):
    """What a line of MIGRATING says to write, as statements of a function."""
    text, closed = "", ""
    for piece in pieces:
        if re.match(r"(for|if) ", piece):
            text += "    %s {\n" % piece
            closed += "    }\n"
        elif piece.startswith("use ") or re.fullmatch(r"[\w:]+", piece):
            continue
        else:
            text += "    %s\n" % (piece if piece.endswith(";") else "let _ = %s;" % piece)
    return text + closed


def bare(text):
    """A source without the lines that are comments."""
    return "\n".join(line for line in text.split("\n") if not line.lstrip().startswith("//"))


def texts_below(crates):
    """The sources of some crates and of those below them, without comments."""
    names = dict.fromkeys(name for crate in crates for name in [*sources.libraries(crate), crate])
    for name in sorted(names):
        for folder, _, files in sorted(os.walk("%s/crates/%s/src" % (TOP, name))):
            for file in sorted(files):
                path = folder + "/" + file
                yield "%s %s" % (os.path.relpath(path, TOP), bare(read(path)))


def key_of(texts):
    """A name for what is made of texts by this kit."""
    made = hashlib.sha256()
    for text in [os.path.realpath(unproved.kit().KIT), *map(read, glob.glob(unproved.kit().KIT + "/KIT-ID")), read(unproved.__file__), *texts]:
        made.update(text.encode() + b"\0")
    return made.hexdigest()[:32]


@functools.lru_cache(None)
def cache_folder():
    """Where programs are kept: in the user's cache, or, where that cannot be written, only until the end."""
    folder = os.path.join(os.environ.get("XDG_CACHE_HOME") or os.path.expanduser("~/.cache"), "toml_edit")
    try:
        os.makedirs(folder, exist_ok=True)
        tempfile.TemporaryFile(dir=folder).close()
    except OSError:
        folder = tempfile.mkdtemp()
        atexit.register(shutil.rmtree, folder, True)
    return folder


def kept(name, key, make):
    """What is kept under a key. It is made first where it is not, and all but some of its name go."""
    cache = cache_folder()
    path = "%s/%s-%s" % (cache, name, key)
    if not os.path.exists(path):
        with tempfile.TemporaryDirectory(dir=cache) as folder:
            make(folder + "/made")
            try:
                os.rename(folder + "/made", path)
            except OSError:
                if not os.path.exists(path):
                    raise
        others = [other for other in os.listdir(cache) if other.startswith(name + "-") and cache + "/" + other != path]
        for other in sorted(others, key=lambda it: os.path.getmtime(cache + "/" + it))[:-7]:
            other = cache + "/" + other
            shutil.rmtree(other, ignore_errors=True) if os.path.isdir(other) else os.remove(other)
    os.utime(path)
    return path


def pages(program):
    """The program of blocks."""

    def make(to):
        with tempfile.TemporaryDirectory() as folder:
            program.write(folder)
            unproved.build("pages", to, top=folder)

    texts = [name + bare(text) for name, text in sorted(program.files.items())]
    return kept("pages", key_of([*texts, *texts_below([*SHOWN, *BESIDE.split()])]), make)


def command(name):
    """A program of the repository."""
    return kept(name, key_of(texts_below([name])), lambda to: unproved.build(name, to))


@functools.lru_cache(None)
def library():
    """The folder of the library for C, Python and Rust."""

    def make(to):
        ran = subprocess.run([TOP + "/bindings/build", "--unproved", to], capture_output=True, text=True)
        if ran.returncode:
            raise OSError("bindings/build ended with status %d\n%s%s" % (ran.returncode, ran.stdout, ran.stderr))

    return kept("bindings", key_of([read(TOP + "/bindings/build"), read(TOP + "/bindings/c/toml_edit.h"), *texts_below(["toml_edit_c"])]), make)


def differs(wanted, found):
    """Where two texts differ first, or nothing."""
    for one, other in zip(wanted.split("\n"), found.split("\n")):
        if one != other:
            return "%r, and not %r" % (other, one)
    return None if wanted == found else "%d lines, and not %d" % (found.count("\n"), wanted.count("\n"))


class Runs:
    """The runs of blocks, in a folder with the programs under their names."""

    def __init__(self, program, paths, folder):
        self.program, self.folder, self.faults = program, folder, []
        os.makedirs(folder + "/bin")
        for name, path in paths.items():
            os.symlink(path, "%s/bin/%s" % (folder, name))
        with open(folder + "/bin/rt", "w", encoding="utf-8") as file:
            file.write(SHIM % (folder + "/bin"))
        os.chmod(folder + "/bin/rt", 0o755)
        self.env = dict(os.environ, PATH="%s/bin:%s" % (folder, os.environ["PATH"]), LC_ALL="C.UTF-8")

    def sh(self, command, cwd):
        command = re.sub(r"(?<![\w/])/tmp/", self.folder + "/", command)
        ran = subprocess.run(["sh", "-ec", command], cwd=cwd, env=self.env, stdin=subprocess.DEVNULL, stdout=subprocess.PIPE, stderr=subprocess.STDOUT)
        return ran.returncode, ran.stdout.decode(errors="replace")

    def fault(self, page, line, what):
        self.faults.append("%s:%d: %s" % (page, line, what))

    def calls(self):
        """The entries of tools/calls."""
        _, said = self.sh("calls", self.folder)
        answers = said.split("\0")
        for number, entry in enumerate(entries()):
            wanted = "".join(line + "\n" for line in entry.get("after", [])) if "gives" not in entry else entry["gives"][0]
            if "page" in entry:
                wanted = next(("".join(line + "\n" for line in lines) for _, language, lines in self.program.of(entry["page"][0]) if language == "toml"), "")
            name = (entry.get("call") or entry.get("shown"))[0]
            found = answers[number] if number < len(answers) - 1 else "nothing"
            if found != wanted:
                self.fault(entry.get("file", "tools/calls"), entry["line"], "%s gives %s" % (name, differs(wanted, found)))

    def console(self, page, line, lines, folder):
        """The commands of a block, each with what it writes."""
        os.makedirs(folder)
        os.symlink(TOP + "/crates", folder + "/crates")
        runs = []
        for number, text in enumerate(lines, line + 1):
            if text.startswith("$ "):
                runs.append((number, text[2:], []))
            elif runs:
                runs[-1][2].append(text)
        for number, command, wanted in runs:
            _, found = self.sh(command, folder)
            if found != "".join(text + "\n" for text in wanted):
                self.fault(page, number, "the command writes %s" % differs("".join(text + "\n" for text in wanted), found))

    def shell(self, page, line, lines, folder):
        """The commands of a block in a copy of the sources; and the output, if a block of text follows."""
        for name in ("crates.txt", "LICENSE-MIT", "LICENSE-APACHE", "bindings"):
            if os.path.isdir(TOP + "/" + name):
                shutil.copytree(TOP + "/" + name, folder + "/" + name, ignore=shutil.ignore_patterns("out", "target", "__pycache__"))
            elif os.path.exists(TOP + "/" + name):
                shutil.copy(TOP + "/" + name, folder)
        for name in sources.crates():
            for path in ("src", "stdin"):
                there = "%s/crates/%s/%s" % (TOP, name, path)
                if os.path.isdir(there):
                    shutil.copytree(there, "%s/crates/%s/%s" % (folder, name, path))
                elif os.path.exists(there):
                    shutil.copy(there, "%s/crates/%s/%s" % (folder, name, path))
        if page.startswith("bindings"):
            os.symlink(library(), folder + "/bindings/out")
        status, found = self.sh("\n".join(lines), folder)
        after = [others for at, language, others in self.program.of(page) if language == "text" and at == line + len(lines) + 3]
        if status:
            self.fault(page, line, "the commands end with status %d: %s" % (status, found.strip().split("\n")[-1]))
        elif after and found != "".join(text + "\n" for text in after[0]):
            self.fault(page, line, "the commands write %s" % differs("".join(text + "\n" for text in after[0]), found))
        app = os.path.dirname(folder) + "/app"
        if os.path.isdir(app):
            lost = [name for text in read(app + "/crates.txt").split("\n") if ":" in text and text[0] != "#"
                    for name in text.split(":")[1].split() if name.startswith("toml_edit") and not os.path.isdir(app + "/crates/" + name)]
            for name in dict.fromkeys(lost):
                self.fault(page, line, "the new repository has no crate %s" % name)
            for name in sorted(set(os.listdir(app + "/crates")) - {"app", *sources.libraries()}):
                self.fault(page, line, "the new repository has the crate %s, which it does not need" % name)

    def python(self, page, lines, line):
        """A doctest."""
        env = dict(self.env, TOML_EDIT_LIBRARY=library(), PYTHONPATH=TOP + "/bindings/python", PYTHONDONTWRITEBYTECODE="1")
        with open(self.folder + "/page", "w", encoding="utf-8") as file:
            file.write("\n".join(lines) + "\n")
        words = "import doctest, sys; sys.exit(doctest.testfile(sys.argv[1], False).failed)"
        ran = subprocess.run([sys.executable, "-c", words, self.folder + "/page"], env=env, capture_output=True, text=True, cwd=self.folder)
        if ran.returncode:
            got = re.search(r"Got:\n(.*)|(\w+Error.*)", ran.stdout + ran.stderr)
            self.fault(page, line, "Python gives %s" % (got[0].replace("\n", "") if got else "an error"))

    def rust(self, page, line):
        """The examples of the package for Rust, which has the page as one."""
        if not shutil.which("cargo"):
            return print("no cargo: the Rust block of %s is not tried" % page)
        env = dict(self.env, TOML_EDIT_LIBRARY=library(), CARGO_TARGET_DIR=self.folder + "/target")
        ran = subprocess.run(["cargo", "test", "--offline", "--quiet", "--doc"], cwd=TOP + "/bindings/rust", env=env, capture_output=True, text=True)
        if ran.returncode:
            self.fault(page, line, "cargo test fails: %s" % " ".join((ran.stdout + ran.stderr).split())[:300])
        return None

    def all(self):
        self.calls()
        for page, found in self.program.pages.items():
            for number, (line, language, lines) in enumerate(found):
                folder = "%s/%s/%d" % (self.folder, page.replace("/", "-"), number)
                if language == "console":
                    self.console(page, line, lines, folder)
                elif language == "sh" and (not page.startswith("bindings") or shutil.which("cc")):
                    os.makedirs(folder)
                    self.shell(page, line, lines, folder + "/clone" if os.makedirs(folder + "/clone/crates") is None else "")
                elif language == "python" and shutil.which("cc"):
                    self.python(page, lines, line)
                elif language == "rust" and page.startswith("bindings") and shutil.which("cc"):
                    self.rust(page, line)
        return self.faults


def shown_of(said, program):
    """What a compiler says, with lines of pages for those of modules."""
    for file, line, rest in re.findall(r"(?:^|/)(\w+)\.rt:(\d+):\d+: (.*)", said, re.M):
        page, start = program.places.get(file, ("tools/blocks.py", 0))
        yield "%s:%d: %s (line %s of the module %s)" % (page, start + (int(line) if start else 0), rest, line, file)


def faults():
    """What is wrong in the blocks of all pages."""
    try:
        unproved.kit()
    except SystemExit:
        print("no kit: blocks are not tried")
        return []
    program = Program()
    if program.faults:
        return program.faults
    with concurrent.futures.ThreadPoolExecutor(int(os.environ.get("RT_JOBS") or os.cpu_count())) as pool:
        made = {name: pool.submit(command, name) for name in PROGRAMS}
        made["calls"] = pool.submit(pages, program)
        if shutil.which("cc"):
            made["library"] = pool.submit(library)
        else:
            print("no cc: the blocks of bindings are not tried")
        try:
            paths = {name: ready.result() for name, ready in made.items()}
        except (OSError, SystemExit, subprocess.CalledProcessError) as refused:
            return list(shown_of(str(refused), program)) or [str(refused) or repr(refused)]
    # The README's program, which GUIDE copies as `app`.
    paths["app"] = paths["calls"]
    with tempfile.TemporaryDirectory() as folder:
        return Runs(program, paths, folder).all()


def main():
    if sys.argv[1:2] == ["--sources"] and len(sys.argv) == 3:
        return Program().write(sys.argv[2])
    if sys.argv[1:]:
        return print(__doc__.strip())
    found = faults()
    for fault in found:
        print(fault)
    print("all blocks hold" if not found else "%d faults" % len(found))
    return 1 if found else 0


if __name__ == "__main__":
    sys.exit(main())
