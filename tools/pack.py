#!/usr/bin/env python3
"""Packs the proved programs into an archive, with the manual pages and the completions, or installs them.

    tools/pack.py ARCHIVE.tar.gz [NAME=FILE..]
    tools/pack.py --install PREFIX [NAME=FILE..]     copies these files below PREFIX, with the library for C and the wheel
    tools/pack.py --crate ARCHIVE.crate [bindings=FOLDER]     packs the source of the Rust crate, with the library inside
    tools/pack.py --sums [NAME=FILE..]     writes the checksums of the programs and the library, for `sha256sum -c` below PREFIX

An installation has its checksums in `share/doc/toml_edit`, below the commit and how the library was built. The programs are `tomled` and
`tomlfile` as `rt run` or `.ci/run` left them in `crates/NAME/out`, unless a FILE is given for one; without a FILE, as `tomled=`, a program is
left out. The library is that of `bindings/out`, unless a folder is given as `bindings=FOLDER`. Equal programs make equal archives.
"""
import glob
import gzip
import hashlib
import io
import os
import re
import shutil
import subprocess
import sys
import tarfile

from unproved import TOP

VERSION = "0.1.0"
PROGRAMS = ("tomled", "tomlfile")
LICENSES = ("LICENSE-APACHE", "LICENSE-MIT")
SONAME = "libtoml_edit.so.0"
SUMS = "share/doc/toml_edit/SHA256SUMS"
LIBRARY = {"libtoml_edit.a": "lib/libtoml_edit.a", "libtoml_edit.so": "lib/" + SONAME, "toml_edit.h": "include/toml_edit.h"}
# From the folder of the pkg-config file, so that all can be moved.
PLACES = "prefix=${pcfiledir}/../..\nlibdir=${prefix}/lib\nincludedir=${prefix}/include\n"
SHARED = {
    "tools/share/tomled.1": "share/man/man1/tomled.1",
    "tools/share/tomlfile.1": "share/man/man1/tomlfile.1",
    "tools/share/tomlfile.bash": "share/bash-completion/completions/tomlfile",
    "tools/share/_tomlfile": "share/zsh/site-functions/_tomlfile",
    "tools/share/tomlfile.fish": "share/fish/vendor_completions.d/tomlfile.fish",
    "LICENSE-APACHE": "share/doc/toml_edit/LICENSE-APACHE",
    "LICENSE-MIT": "share/doc/toml_edit/LICENSE-MIT",
}


def install(prefix, files, library):
    """Copies the files, the library for C with its pkg-config file, the checksums and the wheel."""
    prefix = os.path.abspath(os.path.expanduser(prefix))
    said = sums(files, library)
    for to, path, mode in files + of_library(library):
        os.makedirs(os.path.dirname(prefix + "/" + to), exist_ok=True)
        shutil.copyfile(path, prefix + "/" + to)
        os.chmod(prefix + "/" + to, mode)
    if os.path.lexists(prefix + "/lib/libtoml_edit.so"):
        os.remove(prefix + "/lib/libtoml_edit.so")
    os.symlink(SONAME, prefix + "/lib/libtoml_edit.so")
    with open(library + "/toml_edit.pc", encoding="utf-8") as file:
        text = re.sub(r"^prefix=(?:.*\n)*?includedir=.*\n", lambda _found: PLACES, file.read(), flags=re.M)
    os.makedirs(prefix + "/lib/pkgconfig", exist_ok=True)
    with open(prefix + "/lib/pkgconfig/toml_edit.pc", "w", encoding="utf-8") as file:
        file.write(text)
    with open(prefix + "/" + SUMS, "w", encoding="utf-8") as file:
        file.write(said)
    wheels = prefix + "/share/toml_edit"
    os.makedirs(wheels, exist_ok=True)
    env = dict(os.environ, TOML_EDIT_LIBRARY=os.path.abspath(library))
    return subprocess.run([sys.executable, TOP + "/bindings/python/setup.py", wheels], env=env, check=False).returncode


def read(path):
    with open(path, "rb") as file:
        return file.read()


def write(archive, folder, files):
    """Writes an archive in which the files, each with its bytes and its mode, lie in this folder."""
    with open(archive, "wb") as out, gzip.GzipFile("", "wb", fileobj=out, mtime=0) as packed, tarfile.open("", "w", packed) as made:
        for to, data, mode in sorted(files):
            entry = tarfile.TarInfo(folder + "/" + to)
            entry.size, entry.mode = len(data), mode
            made.addfile(entry, io.BytesIO(data))


def crate(archive, library):
    """Packs the source of the Rust crate, which has its library in `lib`."""
    here = TOP + "/bindings/rust/"
    paths = ["Cargo.toml", "build.rs", *("src/" + os.path.basename(path) for path in glob.glob(here + "src/*.rs"))]
    files = [(path, read(here + path).replace(b'"../../README.md"', b'"../README.md"'), 0o644) for path in paths]
    files += [(name, read(TOP + "/" + path), 0o644) for name, path in (("README.md", "bindings/README.md"), *zip(LICENSES, LICENSES))]
    files += [("lib/" + name, read(library + "/" + name), 0o644) for name in ("libtoml_edit.a", "BUILT")]
    write(archive, "toml-edit-proved-" + VERSION, files)


def of_library(library):
    """The files of the library, each with where it is installed and its mode."""
    if not os.path.isfile(library + "/BUILT"):
        sys.exit("no library in %s: run `bindings/build` first" % library)
    return [(to, library + "/" + name, 0o644) for name, to in LIBRARY.items()]


def sums(files, library):
    """The checksums of the programs and the library, with what they are made from."""
    commit = subprocess.run(["git", "describe", "--always", "--dirty", "--abbrev=40"], cwd=TOP, capture_output=True, text=True, check=False).stdout
    lines = ["# commit: %s\n" % (commit.strip() or "none"), "# library: %s\n" % read(library + "/BUILT").decode().strip()]
    made = [(to, path) for to, path, _mode in files + of_library(library) if to.startswith(("bin/", "lib/"))]
    return "".join(lines + ["%s  %s\n" % (hashlib.sha256(read(path)).hexdigest(), to) for to, path in made])


def programs(named):
    """The programs and what is shared, each with where it is installed and its mode."""
    files = [(to, TOP + "/" + path, 0o644) for path, to in SHARED.items()]
    for name in PROGRAMS:
        program = named.get(name, "%s/crates/%s/out/%s" % (TOP, name, name))
        if program and not os.path.isfile(program):
            sys.exit("no program %s: run `rt run` in crates/%s first" % (program, name))
        if program:
            files.append(("bin/" + name, program, 0o755))
    return files


def main():
    words = sys.argv[1:]
    way = words.pop(0) if words[:1] in (["--install"], ["--crate"], ["--sums"]) else ""
    to = "" if way == "--sums" else words.pop(0) if words else "-"
    if to.startswith("-") or not all("=" in word for word in words):
        print(__doc__.strip())
        return 0 if to == "--help" else 2
    named = dict(word.split("=", 1) for word in words)
    library = named.get("bindings", TOP + "/bindings/out")
    if way == "--crate":
        return crate(to, library)
    if way == "--sums":
        return print(sums(programs(named), library), end="")
    if way == "--install":
        return install(to, programs(named), library)
    return write(to, "toml_edit-" + VERSION, [(to, read(path), mode) for to, path, mode in programs(named)])


if __name__ == "__main__":
    sys.exit(main())
