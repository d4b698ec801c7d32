"""Tests of the wheel."""

import os
import shutil
import subprocess
import sys
import tempfile
import unittest
from typing import Any

from toml_edit._core import FOLDER

HERE = os.path.dirname(os.path.dirname(os.path.abspath(__file__)))
# What an installed package is asked.
WORDS = """\
import importlib.metadata, toml_edit
made = importlib.metadata.distribution("toml-edit-proved")
about = made.metadata
print(toml_edit.loads("a = 1")["a"], toml_edit.__file__.startswith(%r), about["License"], bool(about["Author"]))
print(made.read_text("WHEEL"), made.read_text("METADATA"))
"""


def ran(*words: str, **more: Any) -> subprocess.CompletedProcess:
    env = {name: word for name, word in os.environ.items() if name not in ("PYTHONPATH", "TOML_EDIT_LIBRARY")}
    return subprocess.run(words, check=False, capture_output=True, text=True, env={**env, **more})


class Wheel(unittest.TestCase):
    def setUp(self) -> None:
        made = tempfile.TemporaryDirectory()
        self.addCleanup(made.cleanup)
        self.folder = made.name

    def test_is_installed_without_a_network(self) -> None:
        self.assertEqual(ran(sys.executable, "-m", "venv", "--without-pip", self.folder).returncode, 0)
        python = self.folder + "/bin/python"
        made = ran(sys.executable, "-m", "pip", "--python", python, "install", "-q", "--no-index", HERE, TOML_EDIT_LIBRARY=FOLDER)
        self.assertEqual(made.returncode, 0, made.stderr)
        asked = ran(python, "-I", "-c", WORDS % self.folder)
        self.assertEqual(asked.stdout.split("\n")[0], "1 True MIT OR Apache-2.0 True", asked.stderr)
        self.assertRegex(asked.stdout, "\nTag: py3-none-(?!any)\\w+\n")
        self.assertIn("\n\n# The library for C, Python and Rust\n", asked.stdout)

    def test_is_refused_without_a_library(self) -> None:
        shutil.copytree(HERE, self.folder + "/bindings/python", ignore=shutil.ignore_patterns("*.so"))
        made = ran(sys.executable, self.folder + "/bindings/python/setup.py", self.folder)
        self.assertEqual((made.returncode, made.stderr), (1, "no wheel: no libtoml_edit.so: build it by bindings/build\n"))


if __name__ == "__main__":
    unittest.main()
