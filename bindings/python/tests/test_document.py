"""Tests of the package. What is expected is written by hand, or comes from `tomllib`."""

import copy
import datetime
import math
import pickle
import threading
import tomllib
import unittest

import toml_edit

MANIFEST = """\
# A crate.
[package]
name = "a" # its name
version = '1.0'   # ours
keywords = [
    "toml",  # the language
    "edit",
]

[dependencies]
serde = { version = "1", features = ["derive"] }

[dependencies.rand]
version = "0.9"

[[bin]]
name = "one"

[[bin]]
name = "two"
"""


class Reading(unittest.TestCase):
    def test_values_are_those_of_tomllib(self) -> None:
        self.assertEqual(toml_edit.loads(MANIFEST).unwrap(), tomllib.loads(MANIFEST))

    def test_scalars(self) -> None:
        text = """\
a = 0xFF
b = 1_000
c = 1.5e3
d = inf
e = "inf"
f = 1979-05-27T07:32:00Z
g = "1979-05-27"
h = 1979-05-27
i = 07:32:00.5
j = true
k = '\\'
l = "\\u00e9"
m = 1979-05-27T00:32:00.999-07:00
"""
        self.assertEqual(toml_edit.loads(text).unwrap(), tomllib.loads(text))
        self.assertTrue(math.isnan(toml_edit.loads("a = nan")["a"]))

    def test_mapping(self) -> None:
        document = toml_edit.loads(MANIFEST)
        self.assertEqual(list(document), ["package", "dependencies", "bin"])
        self.assertEqual(len(document["package"]), 3)
        self.assertIn("name", document["package"])
        self.assertNotIn("nothing", document)
        self.assertEqual(document["bin"][1]["name"], "two")
        self.assertEqual([it["name"] for it in document["bin"]], ["one", "two"])
        self.assertIsNone(document.get("nothing"))
        with self.assertRaises(KeyError):
            document["nothing"]
        with self.assertRaises(IndexError):
            document["bin"][2]

    def test_faults(self) -> None:
        with self.assertRaises(toml_edit.TomlError) as caught:
            toml_edit.loads("a = 1\nb = \u00e9\n")
        self.assertEqual((caught.exception.line, caught.exception.column), (2, 5))
        self.assertEqual(caught.exception.excerpt, "2 | b = \u00e9\n  |     ^")
        self.assertEqual(caught.exception.span[0], 10)
        with self.assertRaises(toml_edit.TomlError):
            toml_edit.loads(b"a = '\xff'")
        with self.assertRaises(toml_edit.TomlError):
            toml_edit.loads("a = '\ud800'")

    def test_versions(self) -> None:
        self.assertEqual(toml_edit.loads("a = { b = 1, }")["a"]["b"], 1)
        with self.assertRaises(toml_edit.TomlError):
            toml_edit.loads("a = { b = 1, }", toml_1_0=True)


class Editing(unittest.TestCase):
    def edited(self, *changes: tuple[str, str]) -> str:
        text = MANIFEST
        for old, new in changes:
            self.assertEqual(text.count(old), 1)
            text = text.replace(old, new)
        return text

    def test_unchanged(self) -> None:
        for text in (MANIFEST, "a = 1\r\nb = 2", "", "# only\n", "a.b = 1\na.c = 2\n"):
            self.assertEqual(toml_edit.dumps(toml_edit.loads(text)), text)

    def test_set(self) -> None:
        document = toml_edit.loads(MANIFEST)
        document["package"]["version"] = "2.0"
        document["dependencies"]["serde"]["version"] = "2"
        document["bin"][1]["name"] = "three"
        expected = self.edited(("'1.0'", '"2.0"'), ('version = "1"', 'version = "2"'), ('"two"', '"three"'))
        self.assertEqual(toml_edit.dumps(document), expected)

    def test_add(self) -> None:
        document = toml_edit.loads(MANIFEST)
        document["package"]["edition"] = 2024
        self.assertEqual(str(document), self.edited(("    \"edit\",\n]\n", "    \"edit\",\n]\nedition = 2024\n")))
        self.assertEqual(document["package"]["edition"], 2024)

    def test_delete(self) -> None:
        document = toml_edit.loads(MANIFEST)
        del document["dependencies"]["rand"]
        del document["bin"][0]
        expected = self.edited(('[dependencies.rand]\nversion = "0.9"\n\n', ""), ('[[bin]]\nname = "one"\n\n', ""))
        self.assertEqual(str(document), expected)
        with self.assertRaises(KeyError):
            del document["nothing"]

    def test_arrays(self) -> None:
        document = toml_edit.loads(MANIFEST)
        document["package"]["keywords"].append("parser")
        self.assertEqual(str(document), self.edited(('    "edit",\n', '    "edit",\n    "parser",\n')))
        document["package"]["keywords"][0] = "TOML"
        self.assertEqual(document["package"]["keywords"], ["TOML", "edit", "parser"])
        document = toml_edit.loads("a = [1, 3]\n")
        document["a"].insert(1, 2)
        document["a"].insert(0, 0)
        document["a"].extend([4, 5])
        self.assertEqual(str(document), "a = [0, 1, 2, 3, 4, 5]\n")

    def test_tables(self) -> None:
        document = toml_edit.Document()
        document["tool"] = {"ruff": {"line-length": 100, "lint": {"select": ["E"]}}}
        self.assertEqual(str(document), '[tool.ruff]\nline-length = 100\n\n[tool.ruff.lint]\nselect = ["E"]\n')
        self.assertEqual(tomllib.loads(str(document)), document.unwrap())

    def test_values_come_back(self) -> None:
        values = ["\x00\x7f\"\\\n\t\u00e9\U0001f600", -(2**63), 2**63 - 1, 1e300, 1e-7, 0.1, -0.0, True, [], [[1], ["a"]]]
        values += [datetime.date(2020, 2, 29), datetime.time(1, 2, 3), datetime.datetime(2020, 1, 2, 3, 4, 5, 678000)]
        values += [datetime.datetime(2020, 1, 2, tzinfo=datetime.timezone.utc), {"x": {"y": 1}}, "2020-01-02", "inf"]
        for value in values:
            document = toml_edit.loads("a = 0 # keep\n")
            document["a"] = value
            self.assertEqual(document["a"], value)
            self.assertEqual(tomllib.loads(str(document))["a"], value)
            self.assertTrue(str(document).endswith(" # keep\n"))
        with self.assertRaises(TypeError):
            document["a"] = object()

    def test_odd_keys(self) -> None:
        document = toml_edit.Document()
        for key in ("", "a.b", "a b", "\u00e9", "\"", "\n", "1"):
            document[key] = key
            self.assertEqual(document[key], key)
        self.assertEqual(tomllib.loads(str(document)), document.unwrap())

    def test_rename_comment_sort(self) -> None:
        document = toml_edit.loads("[b]\ny = 1 # one\nx = 2\n")
        document["b"].rename("y", "z")
        document["b"].comment("x", "two")
        self.assertEqual(str(document), "[b]\nz = 1 # one\nx = 2 # two\n")
        document["b"].sort()
        self.assertEqual(str(document), "[b]\nx = 2 # two\nz = 1 # one\n")
        document["b"].comment("x", "#!two")
        document["b"].comment("z", "")
        document["b"].rename("z", "a b")
        self.assertEqual(str(document), '[b]\nx = 2 #!two\n"a b" = 1\n')
        document = toml_edit.loads("b = 1\na = 2 # two\n")
        document.sort()
        self.assertEqual(str(document), "a = 2 # two\nb = 1\n")

    def test_comments_are_set_where_they_are_read(self) -> None:
        document = toml_edit.loads("a = 1 # one\n[t] # two\nb = [2]\n")
        self.assertEqual([it.trivia.comment for it in (document["a"], document["t"], document["t"]["b"])], ["# one", "# two", ""])
        document["a"].trivia.comment = "# 1"
        document["t"].trivia.comment = ""
        document["t"]["b"].trivia.comment = "three"
        self.assertEqual(document.as_string(), "a = 1 # 1\n[t]\nb = [2] # three\n")
        with self.assertRaises(AttributeError):
            document["a"].trivia.indent = "  "

    def test_floats(self) -> None:
        values = {"a": 1e300, "b": -1e-07, "c": 1e16, "d": 0.1, "e": -0.0}
        document = toml_edit.document()
        document.update(values)
        self.assertEqual(tomllib.loads(document.as_string()), values)

    def test_format(self) -> None:
        document = toml_edit.loads("b  =  [ 1,2 ]   # two\n\n\n[ t ]\nc=1\n")
        document.format()
        self.assertEqual(str(document), "b = [1, 2] # two\n\n[t]\nc = 1\n")
        document = toml_edit.loads("[a]\r\nb=1\r\n[c]\r\nd=[1,\r\n2]")
        document.format()
        self.assertEqual(str(document), "[a]\r\nb = 1\r\n\r\n[c]\r\nd = [\r\n  1,\r\n  2,\r\n]")
        document = toml_edit.loads("a=[1,\r\n2]\r\n", keep_line_endings=False)
        document.format()
        self.assertEqual(str(document), "a = [\n  1,\n  2,\n]\n")

    def test_refused_changes_leave_the_text(self) -> None:
        document = toml_edit.loads(MANIFEST)
        with self.assertRaises(ValueError):
            document["package"]["x"] = 2**64
        self.assertEqual(str(document), MANIFEST)

    def test_keys_are_strings(self) -> None:
        document = toml_edit.Document()
        for given in (lambda: document.setdefault(4, 5), lambda: document.update({4: 5}), lambda: document.update(a={4: 5})):
            with self.assertRaises(TypeError):
                given()
        self.assertEqual(str(document), "")

    def test_replace(self) -> None:
        document = toml_edit.loads("[a]\nx = 1 # one\ny = 2\n\n[b]\n")
        document["a"] = {"x": 1, "z": 3}
        self.assertEqual(str(document), "[a]\nx = 1 # one\nz = 3\n\n[b]\n")
        self.assertEqual(document.pop("a"), {"x": 1, "z": 3})
        self.assertEqual((document.pop("a", 1), document.pop("a", default=None)), (1, None))
        with self.assertRaises(KeyError):
            document.pop("a")
        document["b"] = 4
        self.assertEqual(document.unwrap(), {"b": 4})

    def test_copies(self) -> None:
        document = toml_edit.loads(MANIFEST)
        for other in (document.copy(), copy.deepcopy(document), pickle.loads(pickle.dumps(document))):
            self.assertEqual(other, document)
            other["package"]["name"] = "b"
            self.assertEqual(str(document), MANIFEST)

    def test_run(self) -> None:
        self.assertEqual(toml_edit.run(["get", "package.version"], MANIFEST.encode()), (0, b"'1.0'\n", b""))
        self.assertEqual(toml_edit.run(["get", "b"], b"a = 1"), (2, b"", b"tomled: no such path\n"))
        self.assertEqual(toml_edit.run(["get"], b"a = 1")[0], 2)
        status, output, errors = toml_edit.run(["exact", "strict", "print"], b"a = [")
        self.assertEqual((status, output), (1, b""))
        self.assertIn(b"line 1, column", errors)
        self.assertEqual(toml_edit.run(["print"], b"\xff"), (1, b"", b"tomled: input is not UTF-8\n"))
        long = "a = '%s'" % ("b" * 5000)
        self.assertEqual(toml_edit.run(["exact", "print"], long.encode()), (0, long.encode(), b""))

    def test_words_have_no_nul(self) -> None:
        text = 'a = 1\nsecret = "x"\n'
        document = toml_edit.loads(text)
        for change in (
            lambda: document.comment("a", "hi\0remove\0secret"),
            lambda: document.edit(["set", "a", "1\0remove\0secret"]),
            lambda: document.edit(["remove\0secret\0remove", "a"]),
            lambda: toml_edit.run(["remove", "a\0b"], b""),
        ):
            with self.assertRaisesRegex(ValueError, "^[^\0]*a word has a NUL$"):
                change()
        with self.assertRaisesRegex(ValueError, r"^edit 1 \(comment a\): too few words"):
            document.edit(["comment", "a"], ["remove", "secret"])
        self.assertEqual(str(document), text)
        document.rename("a", "c\0remove\0secret")
        self.assertEqual(document, {"c\0remove\0secret": 1, "secret": "x"})

    def test_comments_go_with_their_elements(self) -> None:
        text = 'x = [\n  "a", # one\n  "b", # two\n  "c", # three\n]\n'
        for change, kept in (
            (lambda x: x.__delitem__(0), "bc"),
            (lambda x: x.__delitem__(slice(None, None, 2)), "b"),
            (lambda x: x.remove("b"), "ac"),
            (lambda x: self.assertEqual(x.pop(), "c"), "ab"),
        ):
            document = toml_edit.loads(text)
            change(document["x"])
            lines = [line for line in text.split("\n") if line[:3] != '  "' or line[3] in kept]
            self.assertEqual(str(document), "\n".join(lines))
        document["x"].clear()
        document["x"].clear()
        self.assertEqual(document, {"x": []})
        self.assertNotIn("#", str(document))

    def test_errors_name_the_edit_and_the_path(self) -> None:
        document = toml_edit.loads("# first\na = 1\nb = [1]\n[t]\n")
        for edit, kind, why in (
            (["remove", "nope"], KeyError, "no such path"),
            (["set", "t.", "1"], ValueError, "bad path"),
            (["set", "a", "hi"], ValueError, "bad value"),
            (["sort", "a"], TypeError, "wrong kind"),
            (["section", "t"], ValueError, "the key is there already"),
            (["paint", "a", "red"], ValueError, "no such edit"),
            (["take", "b", "2"], ValueError, "no such element"),
            (["rename", "a", "b"], ValueError, "the key is there already"),
            (["comment", "a", "x\ny"], ValueError, "a comment has no line break and no other control character"),
        ):
            with self.assertRaises(kind) as caught:
                document.edit(["set", "c", "1"], edit)
            self.assertEqual(caught.exception.args, ("edit 2 (%s %s): %s" % (*edit[:2], why),))
        with self.assertRaisesRegex(toml_edit.Unfit, "^edits: the document would not be valid$"):
            document.edit(["set", "a", "[" * 80 + "]" * 80], ["set", ".".join("c" * 60), "[" * 60 + "]" * 60])
        with self.assertRaises(KeyError) as missing:
            document.spelled("nope")
        self.assertIn("nope", str(missing.exception))
        self.assertEqual(str(document), "# first\na = 1\nb = [1]\n[t]\n")

    def test_edits(self) -> None:
        document = toml_edit.loads("a = 1 # one\n")
        table = document.setdefault("t", {})
        document.edit(["string", "a", 'x "y"'], ["header", "t.u.v", "2"], ["set", '"k"', "3"])
        self.assertEqual(document, {"a": 'x "y"', "t": {"u": {"v": 2}}, "k": 3})
        self.assertIn("k = 3\n", str(document))
        with self.assertRaises(RuntimeError):
            len(table)

    def test_arrays_of_tables(self) -> None:
        document = toml_edit.loads(MANIFEST)
        document["bin"].append({"name": "three"})
        self.assertEqual(str(document), MANIFEST + '\n[[bin]]\nname = "three"\n')
        document["bin"].insert(0, {"name": "zero", "x": {"y": 1}})
        added = '[[bin]]\nname = "zero"\n\n[bin.x]\ny = 1\n\n[[bin]]\nname = "one"'
        self.assertEqual(str(document), self.edited(('[[bin]]\nname = "one"', added)) + '\n[[bin]]\nname = "three"\n')
        document["bin"].remove({"name": "one"})
        self.assertEqual([it["name"] for it in document["bin"]], ["zero", "two", "three"])
        for change in (lambda: document["bin"].append(1), lambda: document["bin"].__setitem__(0, [{"a": 1}])):
            with self.assertRaisesRegex(TypeError, "^an array of tables has tables, and no (int|list)$"):
                change()
        bins = document["bin"]
        bins.clear()
        self.assertNotIn("bin", document)
        bins.append({"name": "again"})
        self.assertTrue(str(document).endswith('\n[[bin]]\nname = "again"\n'))

    def test_new_arrays_of_tables(self) -> None:
        document = toml_edit.loads("a = 1\ni = {}\n")
        document["bin"] = [{"name": "one", "sub": {"x": 1}, "deep": [{"y": 2}]}, {"name": "two"}]
        document["i"]["x"] = [{"y": 1}]
        document["e"] = [{}]
        expected = {"a": 1, "i": {"x": [{"y": 1}]}, "bin": [{"name": "one", "sub": {"x": 1}, "deep": [{"y": 2}]}, {"name": "two"}], "e": [{}]}
        self.assertEqual(tomllib.loads(str(document)), expected)
        headers = ["[[bin]]", "[[bin.deep]]", "[bin.sub]", "[[bin]]", "[[e]]"]
        self.assertEqual([line for line in str(document).split("\n") if line[:1] == "["], headers)
        document["bin"] = [{"name": "three"}]
        self.assertIn('\n[[bin]]\nname = "three"\n', str(document))
        # As in tomlkit's tests.
        self.assertEqual(toml_edit.dumps({"foo": ({"a": 1}, {"a": 2})}), "[[foo]]\na = 1\n\n[[foo]]\na = 2\n")
        self.assertEqual(toml_edit.dumps({"foo": {"bar": [{"a": 1}]}}), "[[foo.bar]]\na = 1\n")
        self.assertEqual(toml_edit.dumps({"a": {}, "b": toml_edit.inline_table(), "c": 1}), "b = {}\nc = 1\n\n[a]\n")
        text = "[a]\nx = 1\n\n[[a.b]]\ny = 2\n\n[[a.b]]\n\n[a.b.c]\nz = 2\n\n[[a.b.c.d]]\nw = 2\n"
        document = toml_edit.loads(text)
        document["c"] = document.pop("a")
        self.assertEqual(str(document), text.replace("[a", "[c"))

    def test_plain_changes_keep_comments(self) -> None:
        document = toml_edit.loads('x = [\n  "a", # one\n]\n\n[t]\ny = [ # two\n  1,\n]\nz = 1\n')
        document["x"] += ["b"]
        document["t"] = {"y": [1], "z": 2}
        self.assertEqual(str(document), 'x = [\n  "a", # one\n  "b",\n]\n\n[t]\ny = [ # two\n  1,\n]\nz = 2\n')
        document["x"].reverse()
        self.assertEqual(document["x"], ["b", "a"])
        document.setdefault("s", {})["x"] = 1
        self.assertEqual(document["s"], {"x": 1})
        self.assertEqual((document.popitem(), list(document)), (("s", {"x": 1}), ["x", "t"]))

    def test_tables_that_lose_their_last_key(self) -> None:
        document = toml_edit.loads("a.b = 1\n")
        table = document["a"]
        del table["b"]
        self.assertEqual(table, {})
        table["c"] = 2
        self.assertEqual(document, {"a": {"c": 2}})
        document = toml_edit.loads("a.b = 1\n")
        document["a"] = {"c": 2}
        self.assertEqual(document, {"a": {"c": 2}})
        document["a"] = {}
        self.assertEqual(document, {"a": {}})


PEOPLE = """\
x = [[1], [2]]
d = { e = { f = 1 } }

[[p]]
n = "first"

[[p]]
n = "second"

[[p]]
n = "third"
"""


class Views(unittest.TestCase):
    def test_leave(self) -> None:
        """What was taken out stays what it was, by itself, and what is left stays itself."""
        for change, left, kept in (
            (lambda d: d["p"].__delitem__(0), lambda d: d["p"][0], lambda d: d["p"][1]),
            (lambda d: d["p"].remove({"n": "second"}), lambda d: d["p"][1], lambda d: d["p"][2]),
            (lambda d: d["p"].pop(), lambda d: d["p"][2], lambda d: d["p"][1]),
            (lambda d: d["x"].__setitem__(0, [3]), lambda d: d["x"][0], lambda d: d["x"][1]),
            (lambda d: d["p"].__setitem__(0, {"n": "new"}), lambda d: d["p"][0], lambda d: d["p"][1]),
            (lambda d: d.__setitem__("x", [4]), lambda d: d["x"], lambda d: d["d"]),
            (lambda d: d.__setitem__("d", 4), lambda d: d["d"]["e"], lambda d: d["x"][0]),
            (lambda d: d.pop("d"), lambda d: d["d"]["e"], lambda d: d["p"][0]),
            (lambda d: d["x"].clear(), lambda d: d["x"][1], lambda d: d["x"]),
            (lambda d: d.clear(), lambda d: d["d"], lambda d: d),
        ):
            document = toml_edit.loads(PEOPLE)
            old, other = left(document), kept(document)
            wanted = old.unwrap()
            change(document)
            text = str(document)
            self.assertEqual((old, old.unwrap(), copy.deepcopy(old)), (wanted, wanted, wanted))
            old.append("new", 1) if isinstance(old, dict) else old.append(1)
            self.assertEqual(len(old), len(wanted) + 1)
            self.assertEqual(str(document), text)
            other.append("more", 1) if isinstance(other, dict) else other.append(1)
            self.assertEqual(tomllib.loads(str(document)), document.unwrap())
            self.assertNotEqual(str(document), text)

    def test_move(self) -> None:
        """What moved is itself in its new place."""
        for change, moved, place in (
            (lambda d: d["p"].__delitem__(0), lambda d: d["p"][1], lambda d: d["p"][0]),
            (lambda d: d["p"].insert(1, {"n": "new"}), lambda d: d["p"][1], lambda d: d["p"][2]),
            (lambda d: d["x"].insert(0, 0), lambda d: d["x"][1], lambda d: d["x"][2]),
            (lambda d: d.rename("d", "g"), lambda d: d["d"]["e"], lambda d: d["g"]["e"]),
        ):
            document = toml_edit.loads(PEOPLE)
            old = moved(document)
            change(document)
            self.assertIs(place(document), old)
            old.append("more", 1) if isinstance(old, dict) else old.append(1)
            self.assertEqual(tomllib.loads(str(document)), document.unwrap())

    def test_scripts(self) -> None:
        """After a script, what was in the document raises an error."""
        document = toml_edit.loads(PEOPLE)
        old = document["d"], document["p"][0], document["x"]
        document.edit(["move", "d", "h"])
        for it in old:
            for use in (len, list, repr, lambda it: it == {}, lambda it: it.clear(), lambda it: it.unwrap()):
                with self.assertRaisesRegex(RuntimeError, "^the document changed"):
                    use(it)
        self.assertEqual(document["h"], {"e": {"f": 1}})

    def test_batch(self) -> None:
        document = toml_edit.loads(PEOPLE)
        table = document["d"]["e"]
        with document.batch():
            table["f"] = 5
            table["g"] = [1, 2]
            document["p"][1]["n"] = "2"
            del document["x"]
        self.assertEqual(tomllib.loads(str(document)), document.unwrap())
        self.assertEqual(table, {"f": 5, "g": [1, 2]})
        text = str(document)
        with self.assertRaises(KeyError), document.batch():
            document["new"] = 1
            del document["nothing"]
        self.assertEqual((str(document), tomllib.loads(text)), (text, document.unwrap()))

    def test_stay(self) -> None:
        document = toml_edit.loads(PEOPLE)
        views = [document["p"], document["p"][1], document["x"], document["x"][0], document["d"], document["d"]["e"]]
        views[1]["n"] = "2"
        views[5]["f"] = 3
        document["new"] = {"a": 1}
        document["x"].append([3])
        document["p"].append({"n": "last"})
        document["d"].comment("e", "")
        document.sort()
        document.format()
        del document["new"]
        self.assertEqual([it.unwrap() for it in views[1::2]], [{"n": "2"}, [1], {"f": 3}])
        self.assertEqual(list(map(len, views[::2])), [4, 3, 1])

    def test_loops(self) -> None:
        document = toml_edit.loads(PEOPLE)
        for table in list(document["p"]):
            if table["n"] == "first":
                document["p"].remove(table)
            table["n"] = "changed"
        self.assertEqual(document["p"], [{"n": "changed"}, {"n": "changed"}])
        self.assertEqual(tomllib.loads(str(document)), document.unwrap())
        for change in (lambda key: document.pop(key), lambda key: document.update({key + "2": 1})):
            with self.assertRaises(RuntimeError):
                for key in document:
                    change(key)
        document = toml_edit.loads(PEOPLE)
        document["p"][0], document["p"][1] = document["p"][1], document["p"][0]
        self.assertEqual([it["n"] for it in document["p"]], ["second", "first", "third"])
        self.assertEqual(tomllib.loads(str(document)), document.unwrap())

    def test_copies(self) -> None:
        document = toml_edit.loads(PEOPLE)
        for other in (copy.deepcopy(document["d"]), pickle.loads(pickle.dumps(document["d"]))):
            other["e"] = 1
            self.assertEqual((other, document["d"]), ({"e": 1}, {"e": {"f": 1}}))


class Threads(unittest.TestCase):
    def run_in_two(self, work: object) -> None:
        threads = [threading.Thread(target=work, args=(number,)) for number in range(2)]
        for thread in threads:
            thread.start()
        for thread in threads:
            thread.join()

    def test_one_document(self) -> None:
        document = toml_edit.loads("[t]\nfirst = 1\n")
        table = document["t"]

        def work(number: int) -> None:
            for step in range(300):
                table["k%d_%d" % (number, step)] = step

        self.run_in_two(work)
        self.assertEqual(len(tomllib.loads(str(document))["t"]), 601)

    def test_one_array(self) -> None:
        document = toml_edit.loads("a = []\nb = [%s]\n" % ", ".join(map(str, range(100))))

        def work(number: int) -> None:
            for step in range(50):
                document["a"].append(step)
                document["b"].remove(2 * step + number)

        self.run_in_two(work)
        self.assertEqual((sorted(document["a"]), document["b"]), (sorted([*range(50)] * 2), []))

    def test_two_documents(self) -> None:
        """Each thread hands its document views of the other one's, for whose lock it may not wait with its own."""
        documents = [toml_edit.loads("a = [1]\nb = {}\n") for _ in range(2)]

        def work(number: int) -> None:
            for step in range(50):
                documents[number]["b"]["k"] = {"x": documents[1 - number]["a"]}
                self.assertEqual(documents[number]["a"], documents[1 - number]["a"])

        self.run_in_two(work)
        self.assertEqual([it.unwrap() for it in documents], [{"a": [1], "b": {"k": {"x": [1]}}}] * 2)

    def test_own_documents(self) -> None:
        texts = []

        def work(number: int) -> None:
            document = toml_edit.loads(MANIFEST)
            for step in range(50):
                document["package"]["version"] = "%d.%d" % (number, step)
            texts.append(str(document))

        threads = [threading.Thread(target=work, args=(number,)) for number in range(4)]
        for thread in threads:
            thread.start()
        for thread in threads:
            thread.join()
        self.assertEqual(sorted(texts), [MANIFEST.replace("'1.0'", '"%d.49"' % number) for number in range(4)])


if __name__ == "__main__":
    unittest.main()
