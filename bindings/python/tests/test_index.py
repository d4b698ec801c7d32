"""Tests of the index, beside a reading of the texts by another program."""

import ctypes
import random
import unittest

from toml_edit import _core
from toml_edit._index import WIDTH, Index

from .index_reading import nodes
from .random_changes import text

TEXTS = [
    "",
    "\n",
    "# only",
    "\ufeffa = 1\n",
    "a = 1",
    "a = 1 # c\r\n[b]\r\nc = '''\r\nx'''\r\n",
    "# before\n[a.b] # behind\nx = 1 # y\ny.z = [1, \"q\", {k = \"v\"}]\n\n[[t]]\nn=1979-05-27\n[[t]]\n",
    "a.b.c = 1\na.b.d = 2\na.e = 3\n",
    "\"é\" = \"ü\\u00e4\\n\"\n'é é' = 2 # ö\n",
    "a = [ # one\n  1, # two\n  # three\n  [2, 3],\n] # four\n",
    "a = { b.c = 1, b.d = 'x', e = { } }\n",
    "a = 1979-05-27T07:32:00Z\nb = 1979-05-27 07:32:00\nc = 07:32:00.5\nd = -inf\ne = true\nf = 0xFF\n",
    "[a.b]\n[a.c]\n[d]\n[d.e]\n[[d.f]]\n[d.f.g]\nx = 1\n[[d.f]]\n",
    "a = \"\"\"\n  x\\\n   y\"\"\"\n" + "b = [" + "1, " * 200 + "]\n",
]


class Indexes(unittest.TestCase):
    def rows(self, given: bytes, flags: int = 1) -> list[tuple]:
        numbers, _names = _core.index(flags, given)
        return [tuple(numbers[at : at + WIDTH]) for at in range(0, len(numbers), WIDTH)]

    def test_is_as_another_program_reads(self) -> None:
        for given in TEXTS:
            for flags in (0, 1):
                self.assertEqual(self.rows(given.encode(), flags), nodes(given.encode(), flags == 1), given)

    def test_random_texts(self) -> None:
        for seed in range(300):
            given = text(random.Random(seed)).encode()
            self.assertEqual(self.rows(given), nodes(given, True), given)

    def test_names_and_values(self) -> None:
        index = Index(1, "a = 'x'\n[\"b c\".d]\n\"\\u00e9\" = [\"\\t\", 0x1F]\n".encode())
        self.assertEqual([index.name(at) for at in range(1, 5)], ["a", "b c", "d", "é"])
        at = index.at(("b c", "d", "é"))
        self.assertEqual([index.value(it) for it in index.below(at)], ["\t", 31])
        self.assertEqual(index.spelled(at), '["\\t", 0x1F]')
        with self.assertRaises(KeyError):
            index.at(("b c", "nothing"))

    def test_rooms(self) -> None:
        given, count = b"a = 1\nb = 'x'\n", 3
        for room, size, status in ((3, 3, 0), (4, 20, 0), (2, 20, 1), (0, 20, 1), (3, 2, 1)):
            made = (ctypes.c_size_t * (WIDTH * 5))(*[7] * (WIDTH * 5))
            names = ctypes.create_string_buffer(b"\7" * 30, 30)
            answer = _core._LIBRARY.toml_edit_index(0, given, len(given), made, room, names, size)
            self.assertEqual((answer.status, answer.needed), (status, count))
            self.assertEqual(names.raw, b"abx".ljust(30, b"\7") if status == 0 else b"\7" * 30)
            self.assertEqual(set(made[WIDTH * (count if status == 0 else 0) :]), {7})
        self.assertEqual(_core._LIBRARY.toml_edit_index(0, b"a = ", 4, made, 5, names, 30).status, 2)
        self.assertEqual(_core._LIBRARY.toml_edit_index(9, b"", 0, made, 5, names, 30).status, 10)

    def test_keys_and_paths(self) -> None:
        given = b"a = 1\n[\"b c\"]\nd = 2\n"
        self.assertEqual(_core.call("keys", 0, given, b""), b'a\n"b c"\n')
        self.assertEqual(_core.call("keys", 0, given, b"'b c'"), b"d\n")
        with self.assertRaises(TypeError):
            _core.call("keys", 0, given, b"a")
        for path, status in ((b"a", 0), (b"'b c'.d", 0), (b"x", 6), (b"", 0), (b"a..b", 4)):
            self.assertEqual(_core._LIBRARY.toml_edit_has(0, given, len(given), path, len(path)), status)
        self.assertEqual((_core.spelled("key", "a"), _core.spelled("key", "a b"), _core.spelled("string", "x")), ("a", '"a b"', '"x"'))


if __name__ == "__main__":
    unittest.main()
