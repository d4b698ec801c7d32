"""Builds the wheel, which has the library of one platform. It needs Python alone, and no network.

    pip install bindings/python     builds and installs it
    python3 setup.py FOLDER         writes it into FOLDER

The library is in `bindings/out`, where `bindings/build` puts it, beside the package, or in the folder TOML_EDIT_LIBRARY.
"""

from __future__ import annotations

import base64
import hashlib
import os
import sys
import sysconfig
import zipfile
from typing import Any

HERE = os.path.dirname(os.path.abspath(__file__))
TOP = os.path.dirname(os.path.dirname(HERE))
LICENSES = ["LICENSE-APACHE", "LICENSE-MIT"]
METADATA = """\
Metadata-Version: 2.1
Name: toml-edit-proved
Version: %s
Summary: Read and edit TOML documents, and keep the comments, the spacing and the spelling
Author: Individual contributors
License: MIT OR Apache-2.0
License-File: LICENSE-APACHE
License-File: LICENSE-MIT
Keywords: toml,tomlkit,format
Classifier: Typing :: Typed
Requires-Python: >=3.9
Description-Content-Type: text/markdown

%s"""
WHEEL = "Wheel-Version: 1.0\nGenerator: setup.py of toml-edit-proved\nRoot-Is-Purelib: false\nTag: %s\n"


def read(*names: str) -> bytes:
    with open(os.path.join(*names), "rb") as file:
        return file.read()


def hashed(data: bytes) -> str:
    return "sha256=%s,%d" % (base64.urlsafe_b64encode(hashlib.sha256(data).digest()).rstrip(b"=").decode(), len(data))


def build_wheel(wheel_directory: str, config_settings: Any = None, metadata_directory: Any = None) -> str:
    """Writes the wheel into a folder, and returns its name. `pip` calls it by this name."""
    try:
        import toml_edit
        from toml_edit._core import FOLDER
    except ImportError as fault:
        sys.exit("no wheel: %s" % fault)
    named = "toml_edit_proved-" + toml_edit.__version__
    tag = "py3-none-" + sysconfig.get_platform().replace("-", "_").replace(".", "_")
    package = [name for name in sorted(os.listdir(HERE + "/toml_edit")) if name.endswith((".py", ".typed"))]
    files = {"toml_edit/" + name: read(HERE, "toml_edit", name) for name in package}
    files.update({"toml_edit/" + name: read(FOLDER, name) for name in ("libtoml_edit.so", "BUILT")})
    files.update({"%s.dist-info/%s" % (named, name): read(TOP, name) for name in LICENSES})
    files[named + ".dist-info/METADATA"] = (METADATA % (toml_edit.__version__, read(TOP, "bindings", "README.md").decode())).encode()
    files[named + ".dist-info/WHEEL"] = (WHEEL % tag).encode()
    record = named + ".dist-info/RECORD"
    lines = ["%s,%s\n" % (name, hashed(data)) for name, data in files.items()]
    files[record] = "".join([*lines, record + ",,\n"]).encode()
    made = "%s-%s.whl" % (named, tag)
    with zipfile.ZipFile(os.path.join(wheel_directory, made), "w", zipfile.ZIP_DEFLATED) as wheel:
        for name, data in files.items():
            about = zipfile.ZipInfo(name)
            about.external_attr = 0o644 << 16
            wheel.writestr(about, data, zipfile.ZIP_DEFLATED)
    return made


if __name__ == "__main__":
    if len(sys.argv) != 2 or not os.path.isdir(sys.argv[1]):
        sys.exit(__doc__)
    print(build_wheel(sys.argv[1]))
