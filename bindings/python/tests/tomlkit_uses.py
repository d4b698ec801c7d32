"""What tomlkit's users write: each function is run with tomlkit and with this package, and gives the same text or values.

    python3 -m tests.tomlkit_uses [--list]     wants tomlkit, as Debian's python3-tomlkit has it

A function whose answers differ is in `DIFFERENCES`, with the reason. Ends with status 1 if another's do, or one of those doesn't.
"""

from __future__ import annotations

import copy
import datetime
import importlib
import io
import json
import pickle
import sys
import tempfile
from typing import Any

UTC = datetime.timezone.utc
PROJECT = """\
# A project.
[project]
name = "demo" # the name
version = '1.0'
dependencies = [
    "requests >= 2",  # web
    "rich",
]

[project.optional-dependencies]
test = ["pytest"]

[tool.black]
line-length = 100

[[tool.mypy.overrides]]
module = "a"

[[tool.mypy.overrides]]
module = "b"
ignore = true
"""
CARGO = """\
[package]
name = "demo"
authors = ["A <a@b.c>", "B"]

[dependencies]
serde = { version = "1", features = ["derive"] }
log = "0.4" # logging

[[bin]]
name = "one"
"""
DOTTED = "a.b = 1\na.c = 2\n\n[t]\nx.y = 1\nx.z = 2 # z\n"


class Uses:
    """The uses, by their names."""

    # ---- reading

    def reads_values(t: Any) -> Any:
        return t.parse(PROJECT).unwrap()

    def reads_each_kind_of_value(t: Any) -> Any:
        d = t.parse("a=1\nb=1.5\nc='x'\nd=true\ne=1979-05-27\nf=07:32:00\ng=1979-05-27T07:32:00Z\nh=[1,2]\ni={j=1}\n")
        return d.unwrap(), [type(it) for it in d.unwrap().values()]

    def items_are_of_python(t: Any) -> Any:
        d = t.parse("a=1\nb=1.5\nc='x'\nd=true\ne=1979-05-27\nf=07:32:00\ng=1979-05-27T07:32:00Z\nh=[1,2]\ni={j=1}\n[k]\n[[l]]\n")
        kinds = (int, float, str, bool, datetime.date, datetime.time, datetime.datetime, list, dict, dict, list)
        return [isinstance(it, kind) for it, kind in zip(d.values(), kinds)]

    def kinds_have_names(t: Any) -> Any:
        d = t.parse("a=1\nb=1.5\nc='x'\ne=1979-05-27\nf=07:32:00\ng=1979-05-27T07:32:00Z\nh=[1,2]\ni={j=1}\n[k]\n[[l]]\n")
        return [type(it).__name__ for it in d.values()]

    def is_a_dict(t: Any) -> Any:
        return isinstance(t.parse(PROJECT), dict), isinstance(t.parse(PROJECT)["project"], dict)

    def is_json(t: Any) -> Any:
        return json.dumps(t.parse(PROJECT), sort_keys=True)

    def is_json_of_a_part(t: Any) -> Any:
        return json.dumps(t.parse(PROJECT)["project"]["dependencies"]), json.dumps(t.parse(PROJECT)["tool"])

    def loads_bytes(t: Any) -> Any:
        return t.loads(PROJECT.encode()).as_string()

    def load_reads_a_file(t: Any) -> Any:
        return t.load(io.StringIO(PROJECT)).as_string(), t.load(io.BytesIO(CARGO.encode())).as_string()

    def dump_writes_a_file(t: Any) -> Any:
        file = io.StringIO()
        t.dump(t.parse(PROJECT), file)
        return file.getvalue()

    def gets_with_a_default(t: Any) -> Any:
        d = t.parse(PROJECT)
        return d.get("nothing"), d.get("nothing", 3), d["project"].get("name"), "nothing" in d, "tool" in d

    def a_missing_key_raises(t: Any) -> Any:
        try:
            t.parse(PROJECT)["nothing"]
        except t.exceptions.NonExistentKey as fault:
            return isinstance(fault, KeyError), isinstance(fault, t.exceptions.TOMLKitError)

    def a_wrong_text_raises(t: Any) -> Any:
        found = []
        for text in ("a = ", "a", "= 1", "[a", "a = 1 b = 2", "a = [1", "a = \"x", "[[a]]\n[a]\n", "a = 1\na = 2\n", "a = 2020-13-01", "a = 01"):
            try:
                t.parse(text)
                found.append("read")
            except t.exceptions.TOMLKitError as fault:
                found.append(str(isinstance(fault, ValueError)))
        return found[:7]

    def faults_have_places(t: Any) -> Any:
        try:
            t.parse("a = 1\nb = \n")
        except t.exceptions.ParseError as fault:
            return fault.line

    def iterates(t: Any) -> Any:
        d = t.parse(PROJECT)
        return list(d), [key for key in d["project"]], list(d["project"].items())[0], [it["module"] for it in d["tool"]["mypy"]["overrides"]]

    def compares(t: Any) -> Any:
        d = t.parse(PROJECT)
        return d == d.unwrap(), d["project"]["dependencies"] == ["requests >= 2", "rich"], d["project"] == {}, d["tool"]["black"] == {"line-length": 100}

    def scalars_compare(t: Any) -> Any:
        d = t.parse("a=1\nb=1.5\nc='x'\nd=true\ne=1979-05-27\n")
        return d["a"] == 1, d["b"] == 1.5, d["c"] == "x", d["d"] is True, d["e"] == datetime.date(1979, 5, 27), d["a"] + 1, d["c"] + "y"

    def slices_arrays(t: Any) -> Any:
        d = t.parse("a=[1,2,3,4]\n")
        return d["a"][1:3], d["a"][-1], d["a"][::2], len(d["a"]), 3 in d["a"], d["a"].index(3), d["a"].count(9)

    def out_of_order_tables_are_one(t: Any) -> Any:
        d = t.parse("[a.x]\nn = 1\n[b]\nm = 2\n[a.y]\nn = 3\n")
        return d["a"].unwrap(), list(d["a"]), isinstance(d["a"], dict), d.as_string()

    def sums_and_joins(t: Any) -> Any:
        d = t.parse("a=[1,2,3]\nb=['x','y']\n")
        return sum(d["a"]), ",".join(d["b"]), max(d["a"]), sorted(d["b"], reverse=True)

    def merges_dicts(t: Any) -> Any:
        return {**t.parse("a=1\n"), "b": 2}, dict(t.parse("a=1\n[b]\nc=2\n"))

    def keeps_texts(t: Any) -> Any:
        texts = [PROJECT, CARGO, DOTTED, "", "\n\n", "# only\n", "a = 1 # c\n\n\n# d\n", "a = [ # x\n  1, 2, # y\n  # z\n]\n"]
        texts += ["a = 'x'\nb = '''\ny'''\nc = 0xFF\nd = 1_000\n", "\"k k\" = 1\n'l l' = 2\n", "[a]\n[a.b]\n[a.b.c]\nx = 1\n"]
        return [t.dumps(t.parse(text)) == text for text in texts]

    def keeps_carriage_returns(t: Any) -> Any:
        return t.dumps(t.parse("a = 1\r\n[b]\r\nc = 2\r\n"))

    def keeps_an_open_end(t: Any) -> Any:
        return t.dumps(t.parse("a = 1\nb = 2"))

    # ---- comments

    def reads_comments(t: Any) -> Any:
        d = t.parse(CARGO)
        return d["dependencies"]["log"].trivia.comment, d["dependencies"].trivia.comment, d["package"]["name"].trivia.comment_ws

    def writes_a_comment(t: Any) -> Any:
        d = t.parse(CARGO)
        d["package"]["name"].comment("mine")
        return d.as_string()

    def replaces_a_comment(t: Any) -> Any:
        d = t.parse(CARGO)
        d["dependencies"]["log"].comment("other")
        return d.as_string()

    def comments_a_table(t: Any) -> Any:
        d = t.parse(CARGO)
        d["package"].comment("the package")
        return d.as_string()

    def comments_a_new_item(t: Any) -> Any:
        d = t.document()
        it = t.item(3)
        it.comment("three")
        d["a"] = it
        return d.as_string()

    def comments_a_new_table(t: Any) -> Any:
        d, table = t.document(), t.table()
        table.comment("what")
        table["a"] = 1
        d["t"] = table
        return d.as_string()

    def comments_an_array(t: Any) -> Any:
        d = t.parse("a = [1]\n")
        d["a"].comment("one")
        return d.as_string()

    def adds_comments_and_lines(t: Any) -> Any:
        d = t.document()
        d.add(t.comment("first"))
        d.add(t.nl())
        d["a"] = 1
        d.add(t.comment("second"))
        d["b"] = 2
        return d.as_string()

    def adds_comments_to_a_table(t: Any) -> Any:
        d, table = t.document(), t.table()
        table.add(t.comment("inside"))
        table.add("a", 1)
        table.add(t.nl())
        table.add(t.comment("more"))
        table.add("b", 2)
        d.add("t", table)
        return d.as_string()

    def adds_a_comment_to_a_read_table(t: Any) -> Any:
        d = t.parse("[a]\nx = 1\n")
        d["a"].add(t.comment("end"))
        d["a"]["y"] = 2
        return d.as_string()

    def adds_a_line_before_a_table(t: Any) -> Any:
        d = t.document()
        d["a"] = 1
        d.add(t.nl())
        d["t"] = {"b": 2}
        return d.as_string()

    # ---- setting

    def sets_a_value(t: Any) -> Any:
        d = t.parse(PROJECT)
        d["project"]["version"] = "2.0"
        return d.as_string()

    def sets_keep_comments(t: Any) -> Any:
        d = t.parse(PROJECT)
        d["project"]["name"] = "other"
        return d.as_string()

    def sets_each_kind(t: Any) -> Any:
        d = t.document()
        d["a"], d["b"], d["c"], d["d"] = 1, 1.5, "x", True
        d["e"], d["f"], d["g"] = datetime.date(1979, 5, 27), datetime.time(7, 32), datetime.datetime(1979, 5, 27, 7, 32, tzinfo=UTC)
        d["h"], d["i"] = [1, 2], {"j": 1}
        return d.as_string()

    def sets_another_kind(t: Any) -> Any:
        d = t.parse(CARGO)
        d["dependencies"]["log"] = {"version": "1"}
        d["package"]["authors"] = "me"
        return d.unwrap()

    def sets_a_string_with_escapes(t: Any) -> Any:
        d = t.document()
        d["a"], d["b"], d["c"] = 'x"y', "x\ny\t", "x\\y"
        return d.as_string()

    def adds_a_key(t: Any) -> Any:
        d = t.parse(PROJECT)
        d["tool"]["black"]["target"] = ["py311"]
        return d.as_string()

    def adds_a_key_at_the_end(t: Any) -> Any:
        d = t.parse("[a]\nx = 1\n")
        d["a"]["y"] = 2
        return d.as_string()

    def adds_a_key_to_the_root(t: Any) -> Any:
        d = t.parse("a = 1\n\n[t]\nb = 2\n")
        d["c"] = 3
        return d.as_string()

    def adds_a_key_without_a_newline(t: Any) -> Any:
        d = t.parse("[t]\na = 1")
        d["t"]["b"] = 2
        return d.as_string().rstrip("\n")

    def adds_a_key_that_is_quoted(t: Any) -> Any:
        d = t.document()
        d["a b"], d["é"], d["c.d"], d[""] = 1, 2, 3, 4
        return d.as_string()

    def adds_a_present_key(t: Any) -> Any:
        d = t.parse("a = 1\n")
        try:
            d.add("a", 2)
        except t.exceptions.KeyAlreadyPresent:
            return "raised"

    def appends_to_a_table(t: Any) -> Any:
        d = t.parse("[a]\nx = 1\n")
        d["a"].append("y", 2)
        d["a"].add("z", "three")
        return d.as_string()

    def adds_a_table(t: Any) -> Any:
        d = t.parse(CARGO)
        d["features"] = {"default": ["std"]}
        return d.as_string()

    def adds_a_built_table(t: Any) -> Any:
        d, table = t.parse(CARGO), t.table()
        table["default"] = ["std"]
        d["features"] = table
        return d.as_string()

    def adds_a_sub_table(t: Any) -> Any:
        d, table = t.parse("[tool]\nx = 1\n"), t.table()
        table["line"] = 1
        d["tool"]["ruff"] = table
        return d.as_string()

    def adds_a_sub_table_between(t: Any) -> Any:
        d, table = t.parse("[tool.a]\nx = 1\n\n[other]\ny = 1\n"), t.table()
        table["line"] = 1
        d["tool"]["b"] = table
        return d.as_string()

    def adds_nested_tables(t: Any) -> Any:
        d = t.document()
        d["a"] = {"b": {"c": 1}, "x": 2}
        return d.as_string()

    def adds_deep_tables(t: Any) -> Any:
        d = t.document()
        d["a"] = {"b": {"c": {"d": 1}}}
        return d.as_string()

    def changes_an_added_table(t: Any) -> Any:
        d, table = t.document(), t.table()
        d["a"] = table
        table["x"] = 1
        d["a"]["y"] = 2
        table.add("z", 3)
        return d.as_string()

    def an_added_table_is_there(t: Any) -> Any:
        d = t.document()
        d["a"] = t.table()
        d["a"]["b"] = t.table()
        d["a"]["b"]["c"] = 1
        return d.as_string()

    def super_tables(t: Any) -> Any:
        d, above, table = t.document(), t.table(True), t.table()
        table.update({"x": 1})
        above.append("bar", table)
        d.append("foo", above)
        return d.as_string()

    def super_tables_by_themselves(t: Any) -> Any:
        d = t.document()
        d["tool"] = {"poetry": {"name": "x"}, "black": {"y": 1}}
        return d.as_string()

    def setdefault_makes_a_table(t: Any) -> Any:
        d = t.parse("[a]\nx = 1\n")
        d.setdefault("tool", {}).setdefault("b", {})["c"] = 1
        return d["tool"].unwrap()

    def setdefault_leaves_what_is_there(t: Any) -> Any:
        d = t.parse("a = 1\n")
        return d.setdefault("a", 2), d.setdefault("b", 3), d.as_string()

    def updates(t: Any) -> Any:
        d = t.parse(CARGO)
        d["package"].update({"name": "other", "edition": "2021"})
        d.update({"x": 1})
        return d.as_string()

    def replaces_a_table(t: Any) -> Any:
        d, table = t.parse("[a]\nx = 1\n\n[b]\ny = 2\n"), t.table()
        table["z"] = 3
        d["a"] = table
        return d.as_string()

    def replaces_a_value_by_a_table(t: Any) -> Any:
        d, table = t.parse("a = 1\nb = 2\n"), t.table()
        table["z"] = 3
        d["a"] = table
        return d.unwrap()

    def replaces_a_table_by_a_value(t: Any) -> Any:
        d = t.parse("[a]\nx = 1\n[b]\ny = 2\n")
        d["a"] = 5
        return d.unwrap()

    def counts_up(t: Any) -> Any:
        d = t.parse("n = 1 # count\n")
        d["n"] += 1
        return d.as_string()

    def dotted_keys(t: Any) -> Any:
        d = t.parse(DOTTED)
        d["a"]["b"] = 5
        d["t"]["x"]["z"] = 6
        return d.as_string()

    def adds_to_dotted_keys(t: Any) -> Any:
        d = t.parse("a.b = 1\n")
        d["a"]["c"] = 2
        return d.as_string()

    def builds_dotted_keys(t: Any) -> Any:
        d = t.document()
        d.append(t.key("foo"), 1)
        d.append(t.key(["bar", "baz"]), 2)
        return d.as_string()

    def builds_a_quoted_key(t: Any) -> Any:
        return t.key("a b").as_string(), t.key(["a", "b c"]).as_string(), t.key("a") == "a", t.key("x").is_dotted(), t.key(["x", "y"]).is_dotted()

    # ---- removing

    def deletes_a_key(t: Any) -> Any:
        d = t.parse(PROJECT)
        del d["project"]["version"]
        return d.as_string()

    def deletes_a_table(t: Any) -> Any:
        d = t.parse("[a]\nx = 1\n[b]\ny = 2\n")
        del d["a"]
        return d.as_string()

    def deletes_the_last_table(t: Any) -> Any:
        d = t.parse("[a]\nx = 1\n\n[b]\ny = 2\n")
        del d["b"]
        return d.as_string().rstrip("\n")

    def removes(t: Any) -> Any:
        d = t.parse(CARGO)
        d["package"].remove("authors")
        d.remove("dependencies")
        return d.unwrap()

    def removes_a_missing_key(t: Any) -> Any:
        try:
            t.parse("a = 1\n").remove("b")
        except t.exceptions.NonExistentKey:
            return "raised"

    def pops(t: Any) -> Any:
        d = t.parse(CARGO)
        return d["package"].pop("name"), d.pop("nothing", 1), d["package"].unwrap()

    def pops_a_table_and_puts_it_back(t: Any) -> Any:
        d = t.parse("[a]\nx = 1 # one\n[b]\ny = 2\n")
        d["c"] = d.pop("a")
        return d.as_string().replace("\n\n", "\n")

    def a_popped_table_stays(t: Any) -> Any:
        d = t.parse("[a]\nx = 1\n[b]\ny = 2\n")
        table = d.pop("a")
        table["z"] = 3
        return table.unwrap(), d.as_string()

    def clears(t: Any) -> Any:
        d = t.parse("[a]\nx = 1\ny = 2\n")
        for key in list(d["a"]):
            del d["a"][key]
        return d.as_string()

    def deletes_inside_inline_tables(t: Any) -> Any:
        d = t.parse('a = {b = 1, c = 2}\n')
        del d["a"]["c"]
        return d.as_string()

    def deletes_dotted_keys(t: Any) -> Any:
        d = t.parse("a.b = 1\na.c = 2\n")
        del d["a"]["b"]
        return d.as_string()

    def a_held_element_stays_itself(t: Any) -> Any:
        d = t.parse('[[p]]\nn = "first"\n[[p]]\nn = "second"\n')
        held = d["p"][0]
        del d["p"][0]
        held["n"] = "changed"
        return d.unwrap()

    # ---- arrays

    def appends(t: Any) -> Any:
        d = t.parse(CARGO)
        d["package"]["authors"].append("C")
        return d.as_string()

    def appends_on_lines(t: Any) -> Any:
        d = t.parse(PROJECT)
        d["project"]["dependencies"].append("attrs")
        return d.as_string()

    def appends_to_an_empty_array(t: Any) -> Any:
        d = t.parse("a = []\n")
        d["a"].append(1)
        d["a"].append(2)
        return d.as_string()

    def inserts(t: Any) -> Any:
        d = t.parse("a = [1, 3]\n")
        d["a"].insert(1, 2)
        d["a"].insert(0, 0)
        return d.as_string()

    def extends(t: Any) -> Any:
        d = t.parse("a = [1]\n")
        d["a"].extend([2, 3])
        d["a"] += [4]
        return d.as_string()

    def sets_an_element(t: Any) -> Any:
        d = t.parse(PROJECT)
        d["project"]["dependencies"][0] = "httpx"
        return d.as_string()

    def deletes_an_element(t: Any) -> Any:
        d = t.parse("a = [1, 2, 3]\n")
        del d["a"][1]
        return d.as_string()

    def removes_an_element(t: Any) -> Any:
        d = t.parse("a = ['x', 'y', 'z']\n")
        d["a"].remove("z")
        d["a"].remove("x")
        return d.as_string()

    def pops_an_element(t: Any) -> Any:
        d = t.parse("a = [1, 2, 3]\n")
        return d["a"].pop(), d["a"].pop(0), d.as_string()

    def clears_an_array(t: Any) -> Any:
        d = t.parse("a = [1, 2, 3]\n")
        d["a"].clear()
        return d.as_string()

    def builds_an_array(t: Any) -> Any:
        a = t.array()
        a.extend([1, 2, 3])
        return a.as_string(), t.array("[1, 2, 3]").as_string(), t.array("[1,2]").unwrap()

    def an_array_on_lines(t: Any) -> Any:
        d, a = t.document(), t.array()
        a.extend(["x", "y"])
        d["a"] = a.multiline(True)
        return d.as_string()

    def an_array_on_lines_later(t: Any) -> Any:
        d = t.parse("a = [1, 2]\n")
        d["a"].multiline(True)
        return d.as_string()

    def an_array_on_lines_grows(t: Any) -> Any:
        d = t.document()
        d["a"] = t.array().multiline(True)
        d["a"].append(1)
        d["a"].append(2)
        return d.as_string()

    def an_array_with_added_lines(t: Any) -> Any:
        a = t.array()
        a.add_line(1, 2, 3)
        a.add_line(4, 5, 6, comment="more")
        a.add_line(indent="")
        return a.as_string()

    def adds_a_line_to_a_read_array(t: Any) -> Any:
        d = t.parse("a = [\n    1,\n]\n")
        d["a"].add_line(2, comment="two")
        return d["a"].unwrap()

    def arrays_of_arrays(t: Any) -> Any:
        d = t.document()
        d["a"] = [[1, 2], ["x"]]
        d["a"].append([3])
        return d.as_string()

    def mixed_arrays(t: Any) -> Any:
        d = t.document()
        d["a"] = [1, "x", {"b": 2}, [3]]
        return d.as_string()

    def tables_in_arrays(t: Any) -> Any:
        d = t.parse('a = [{n = "x"}]\n')
        d["a"].append({"n": "y"})
        d["a"][0]["n"] = "z"
        return d.as_string()

    # ---- inline tables

    def builds_an_inline_table(t: Any) -> Any:
        table = t.inline_table()
        table.update({"x": 1, "y": 2})
        return table.as_string()

    def puts_an_inline_table(t: Any) -> Any:
        d, table = t.parse(CARGO), t.inline_table()
        table["version"], table["optional"] = "1", True
        d["dependencies"]["rand"] = table
        return d.as_string()

    def changes_an_inline_table(t: Any) -> Any:
        d = t.parse(CARGO)
        d["dependencies"]["serde"]["version"] = "2"
        return d.as_string()

    def adds_to_an_inline_table(t: Any) -> Any:
        d = t.parse("a = { b = 1 }\n")
        d["a"]["c"] = 2
        return d.unwrap()

    def changes_an_added_inline_table(t: Any) -> Any:
        d = t.document()
        d["a"] = t.inline_table()
        d["a"]["x"] = 1
        d["a"].append("y", [2])
        return d.as_string()

    # ---- arrays of tables

    def builds_an_array_of_tables(t: Any) -> Any:
        d, a = t.document(), t.aot()
        a.append(t.item({"x": 1}))
        d.append("foo", a)
        return d.as_string()

    def grows_an_added_array_of_tables(t: Any) -> Any:
        d = t.document()
        d["foo"] = t.aot()
        one = t.table()
        one["x"] = 1
        d["foo"].append(one)
        return d["foo"].unwrap()

    def appends_a_table(t: Any) -> Any:
        d, table = t.parse(CARGO), t.table()
        table["name"] = "two"
        d["bin"].append(table)
        return d.as_string().replace("\n\n", "\n")

    def appends_a_dict_as_a_table(t: Any) -> Any:
        d = t.parse("[[a]]\nx = 1\n")
        d["a"].append({"x": 2})
        return d.as_string().replace("\n\n", "\n")

    def a_list_of_dicts_is_an_array_of_tables(t: Any) -> Any:
        d = t.document()
        d["a"] = [{"x": 1}, {"x": 2}]
        return d.as_string().replace("\n\n", "\n")

    def a_list_of_dicts_below(t: Any) -> Any:
        d = t.document()
        d["t"] = {"y": 1, "a": [{"x": 1}, {"x": 2}]}
        return d.as_string().replace("\n\n", "\n")

    def inserts_a_table(t: Any) -> Any:
        d = t.parse("[[a]]\nx = 1\n\n[[a]]\nx = 3\n")
        d["a"].insert(1, t.item({"x": 2}))
        return d.unwrap()

    def deletes_a_table_of_an_array(t: Any) -> Any:
        d = t.parse("[[a]]\nx = 1\n\n[[a]]\nx = 2\n\n[[a]]\nx = 3\n")
        del d["a"][1]
        return d.as_string()

    def changes_a_table_of_an_array(t: Any) -> Any:
        d = t.parse(PROJECT)
        d["tool"]["mypy"]["overrides"][1]["module"] = "c"
        d["tool"]["mypy"]["overrides"][0]["new"] = 1
        return d.as_string()

    def sub_tables_of_an_array(t: Any) -> Any:
        d = t.parse("[[a]]\nx = 1\n[a.b]\ny = 2\n[[a]]\nx = 3\n")
        d["a"][0]["b"]["y"] = 5
        return d.unwrap(), d.as_string()

    # ---- items by themselves

    def builds_items(t: Any) -> Any:
        return [t.item(it).as_string() for it in (1, 1.5, "x", True, [1, 2], datetime.date(2020, 1, 2), datetime.time(1, 2, 3))]

    def builds_a_table_of_a_dict(t: Any) -> Any:
        return t.item({"a": 1, "b": "x"}).as_string(), t.item({"b": {"c": 1}, "a": 2}).as_string()

    def sorts_keys(t: Any) -> Any:
        return t.dumps({"b": 1, "a": 2}), t.dumps({"b": 1, "a": 2}, sort_keys=True)

    def dumps_a_dict(t: Any) -> Any:
        return t.dumps({"title": "x", "owner": {"name": "y", "more": {"z": 1}}, "list": [1, 2]})

    def builds_scalars(t: Any) -> Any:
        return t.integer("34"), t.float_("34.5"), bool(t.boolean("true")), t.date("1979-05-13"), t.time("12:52:05"), t.datetime("1979-05-13T12:12:42Z")

    def builds_dates_only(t: Any) -> Any:
        found = []
        for call, text in ((t.date, "12:52:05"), (t.time, "1979-05-13"), (t.datetime, "12:52:05")):
            try:
                call(text)
            except ValueError:
                found.append("raised")
        return found

    def builds_strings(t: Any) -> Any:
        words = [{}, {"literal": True}, {"multiline": True}, {"literal": True, "multiline": True}]
        return [t.string("hello", **it).as_string() for it in words]

    def builds_strings_with_quotes(t: Any) -> Any:
        return t.string('a"b').as_string(), t.string('a"b', literal=True).as_string(), t.string("a\\b", literal=True).as_string()

    def builds_strings_of_lines(t: Any) -> Any:
        return t.string("a\nb", multiline=True).as_string(), t.string("a\nb", literal=True, multiline=True).as_string(), t.string("a\nb").as_string()

    def builds_strings_unescaped(t: Any) -> Any:
        return t.string("a\\tb", escape=False).as_string()

    def refuses_strings(t: Any) -> Any:
        found = []
        for text, words in (("a'b", {"literal": True}), ("a\nb", {"literal": True}), ("'''", {"literal": True, "multiline": True}), ('a"b', {"escape": False})):
            try:
                t.string(text, **words)
            except ValueError:
                found.append("raised")
        return found

    def puts_a_built_string(t: Any) -> Any:
        d = t.document()
        d["a"] = t.string("x\ny", multiline=True)
        d["b"] = t.string("C:\\x", literal=True)
        return d.as_string()

    def reads_values_by_themselves(t: Any) -> Any:
        return [t.value(it).unwrap() for it in ("1", "1.5", "'x'", "true", "[1, 2]", "{a = 1}", "1979-05-27")]

    def refuses_values(t: Any) -> Any:
        found = []
        for text in ("truee", "true true", "1 2", "[1] x", "tru", "fals", "falsee", "1 # x\nb = 1", "", "'a' b", "a = 1"):
            try:
                t.value(text)
                found.append(text)
            except t.exceptions.TOMLKitError:
                found.append("raised")
        return found

    def reads_a_key_with_its_value(t: Any) -> Any:
        key, value = t.key_value("foo = 12")
        return key.as_string(), value

    def unwraps(t: Any) -> Any:
        d = t.parse(PROJECT)
        return [type(it).__name__ for it in (d.unwrap(), d["project"].unwrap(), d["project"]["dependencies"].unwrap(), d["project"]["name"].unwrap())]

    def has_strings_of_items(t: Any) -> Any:
        d = t.parse("a = 0xFF\nb = 'x'\nc = [ 1,2 ]\nd = { e=1 }\nf = 1_000.5\ng = 1979-05-27 07:32:00\n")
        return [d[key].as_string() for key in d]

    # ---- copies and files

    def copies(t: Any) -> Any:
        d = t.parse(PROJECT)
        for other in (copy.copy(d), copy.deepcopy(d), d.copy()):
            assert other.as_string() == d.as_string()
        other = copy.deepcopy(d)
        other["project"]["name"] = "changed"
        return d.as_string()

    def pickles(t: Any) -> Any:
        return pickle.loads(pickle.dumps(t.parse(PROJECT))).as_string()

    def deep_copies_of_parts(t: Any) -> Any:
        d = t.parse(PROJECT)
        table, array = copy.deepcopy(d["project"]), copy.deepcopy(d["project"]["dependencies"])
        table["name"], array[0] = "changed", "changed"
        return d.as_string(), table["name"], array.unwrap()

    def files(t: Any) -> Any:
        with tempfile.TemporaryDirectory() as folder:
            with open(folder + "/a.toml", "w", encoding="utf-8") as file:
                file.write(PROJECT)
            toml = importlib.import_module(t.__name__ + ".toml_file").TOMLFile(folder + "/a.toml")
            d = toml.read()
            d["project"]["name"] = "other"
            toml.write(d)
            with open(folder + "/a.toml", encoding="utf-8") as file:
                return file.read()

    def moves_between_documents(t: Any) -> Any:
        one, two = t.parse(CARGO), t.document()
        two["package"] = one["package"]
        two["x"] = one["dependencies"]["log"]
        return two.unwrap(), one.as_string()

    def names_are_in_modules(t: Any) -> Any:
        items = importlib.import_module(t.__name__ + ".items")
        found = [hasattr(items, it) for it in "Item Table InlineTable Array AoT String Integer Float Bool Comment Whitespace Key Trivia Null item".split()]
        return found, hasattr(importlib.import_module(t.__name__ + ".toml_document"), "TOMLDocument")

    # ---- what its tests try

    def a_value_in_the_place_of_a_super_table(t: Any) -> Any:
        d = t.parse('[site.user]\nname = "John"\n')
        d["site"]["user"] = "Tom"
        return d.as_string()

    def an_inline_table_in_out_of_order_tables(t: Any) -> Any:
        d = t.parse('[tool.poetry]\nname = "foo"\n\n[tool.poetry.dependencies]\nbar = "1"\n\n[build-system]\nx = 1\n\n[tool.other]\na = "b"\n')
        table = t.inline_table()
        table["version"] = "2"
        d["tool"]["poetry"]["dependencies"]["bar"] = table
        return d.as_string()

    def removes_from_an_out_of_order_table(t: Any) -> Any:
        d = t.parse("[a]\nx = 1\n\n[c]\nz = 3\n\n[a.b]\ny = 2\n")
        del d["a"]["b"]
        return d.as_string()

    def adds_to_an_out_of_order_table(t: Any) -> Any:
        d = t.parse("[r.s.a.b.c]\nv = 2\n[r.s.x]\nv = 4\n[r.s.a.d]\nv = 1\n")
        d["r"]["s"]["a"].add("tmp", "hi")
        return d.unwrap()

    def moves_tables(t: Any) -> Any:
        d = t.parse("a = 1\n[x]\na = 1\n\n[y]\nb = 1\n")
        d["a"] = d.pop("x")
        d["z"] = d.pop("y")
        return d.unwrap()

    def replaces_keep_the_space(t: Any) -> Any:
        d = t.parse('a   =   1\nb  = "foo"\n')
        d["a"] = "new"
        return d.as_string()

    def replaces_by_an_array_of_tables(t: Any) -> Any:
        d = t.parse("a = 1\nb = 2\n")
        d["a"] = [{"x": 1}]
        return d.unwrap() == {"a": [{"x": 1}], "b": 2}

    def replaces_a_sub_table(t: Any) -> Any:
        d = t.parse("[t]\na = 1\n[t.x]\ny = 1\n[u]\nb = 2\n")
        d["t"]["x"] = t.item({"z": 5})
        return d.as_string().replace("\n\n", "\n")

    def dicts_keep_their_order(t: Any) -> Any:
        return t.item({"b": {"x": 1}, "a": {"y": 2}, "c": 3}).as_string()

    def lists_of_dicts_in_items(t: Any) -> Any:
        return t.item({"foo": [{"bar": 1}, {"bar": 2}]}).as_string().replace("\n\n", "\n")

    def super_tables_with_an_array_of_tables(t: Any) -> Any:
        d = t.parse('')
        d["tool"] = {"a": [{"x": 1}]}
        return d.as_string()

    def values_behind_sub_tables(t: Any) -> Any:
        d = t.parse("[a]\n[a.b]\nx = 1\n")
        d["a"]["y"] = 2
        return d.unwrap()

    def a_new_table_behind_a_deleted_one(t: Any) -> Any:
        d = t.parse("[a]\nx = 1\n\n[b]\ny = 2\n")
        del d["b"]
        d["c"] = {"z": 3}
        return d.as_string()

    def a_new_key_behind_a_deleted_one(t: Any) -> Any:
        d = t.parse("[a]\nx = 1\ny = 2\n\n[b]\nz = 1\n")
        del d["a"]["y"]
        d["a"]["w"] = 3
        return d.as_string()

    def deletes_all_and_adds(t: Any) -> Any:
        d = t.parse("a = 1\nb = 2\n")
        del d["a"], d["b"]
        d["c"] = 3
        return d.as_string()

    def sets_a_key_object(t: Any) -> Any:
        d = t.document()
        d[t.key("a")] = 1
        return d.as_string(), d[t.key("a")], t.key("a") in d

    def an_empty_table(t: Any) -> Any:
        d = t.document()
        d["a"] = {}
        d["b"] = t.table()
        return d.unwrap(), d.as_string()

    def empty_values(t: Any) -> Any:
        d = t.document()
        d["a"], d["b"] = [], ""
        d["c"] = t.inline_table()
        return d.as_string()

    def an_element_with_a_comment(t: Any) -> Any:
        d = t.parse("a = [\n    1, # one\n    2, # two\n]\n")
        d["a"].append(3)
        return d.as_string()

    def inserts_on_lines(t: Any) -> Any:
        d = t.parse("a = [\n    1,\n    3,\n]\n")
        d["a"].insert(1, 2)
        return d.as_string()

    def deletes_on_lines(t: Any) -> Any:
        d = t.parse("a = [\n    1,\n    2,\n    3,\n]\n")
        del d["a"][1]
        return d.as_string()

    def appends_without_a_last_comma(t: Any) -> Any:
        d = t.parse("a = [\n    1,\n    2\n]\n")
        d["a"].append(3)
        return d.as_string()

    def sorts_of_python(t: Any) -> Any:
        d = t.parse("a = [3, 1, 2]\n")
        return sorted(d["a"]), list(reversed(d["a"])), [it * 2 for it in d["a"]]

    def pops_and_adds_white_space(t: Any) -> Any:
        d = t.parse("a = 1\nb = 2\nc = 3\n")
        d.pop("a")
        d.append(None, t.nl()) if hasattr(d, "append") else None
        table = t.table()
        table["x"] = 1
        d["t"] = table
        return d.unwrap()

    def items_of_items(t: Any) -> Any:
        it = t.item("x")
        return t.item(it) is it, t.item([t.item(1), 2]).as_string()

    def bools_in_tables(t: Any) -> Any:
        d = t.parse("a = true\nb = [true, false]\n")
        return d["a"] is True, d["b"][0] is True, d["a"] and not d["b"][1], d.get("a")

    def strings_are_strings(t: Any) -> Any:
        d = t.parse('a = "x y"\n')
        return d["a"].upper(), d["a"].split(), "%s" % d["a"], f"{d['a']}!", d["a"] + "z", hash(d["a"]) == hash("x y"), {d["a"]: 1}

    def numbers_are_numbers(t: Any) -> Any:
        d = t.parse("a = 0x10\nb = 2.5\n")
        return d["a"] * 2, d["a"] / 4, d["b"] + 1, round(d["b"]), int(d["a"]), float(d["b"]), -d["a"], d["a"] > 3

    def dates_are_dates(t: Any) -> Any:
        d = t.parse("a = 1979-05-27\nb = 1979-05-27T07:32:00\nc = 07:32:00\n")
        day = datetime.timedelta(days=1)
        return str(d["a"] + day), str(d["b"] + day), d["b"].year, d["c"].hour, d["a"].isoformat(), str(d["b"] - d["b"])

    # ---- more of them

    def a_header_without_a_newline(t: Any) -> Any:
        d = t.parse("[section.sub]")
        before = d.as_string()
        d["section"]["sub"]["foo"] = "bar"
        return before, d.as_string()

    def reprs(t: Any) -> Any:
        d = t.parse("[namespace]\nkey1 = 'value1'\nkey2 = [1, 2.5, true]\nkey3 = 1979-05-27\n")
        return repr(d), repr(d["namespace"]), repr(d["namespace"]["key1"]), repr(d["namespace"]["key2"])

    def inline_tables_stay_inline(t: Any) -> Any:
        d = t.parse('[tool.poetry]\nname = "foo"\n\n[tool.poetry.dependencies]\n\n[tool.poetry.dev-dependencies]\n')
        p = d["tool"]["poetry"]
        for section, name in (("dependencies", "foo"), ("dependencies", "bar"), ("dev-dependencies", "baz")):
            p[section][name] = t.inline_table()
            p[section][name]["version"] = "^2.0"
            p[section][name]["source"] = "local"
        return d.as_string()

    def out_of_order_values(t: Any) -> Any:
        d = t.parse('[a.a]\nkey = "value"\n\n[a.b]\n\n[a.a.c]\n')
        d["a"]["a"]["key"] = "new"
        d["a"]["a"]["c"]["x"] = 1
        return d.as_string()

    def out_of_order_keys_added(t: Any) -> Any:
        d = t.parse('[a.a]\nkey = "value"\n\n[a.b]\n\n[a.a.c]\n')
        d["a"]["a"]["bar"] = "baz"
        return d.as_string()

    def indented_tables(t: Any) -> Any:
        d = t.parse("[Key1]\n      [key1.Key2]\n      Value1 = 10\n      Value2 = 30\n")
        d["key1"]["Key2"]["Value1"] = 20
        return d.as_string()

    def indented_keys_added(t: Any) -> Any:
        d = t.parse("[a]\n    x = 1\n    y = 2\n")
        d["a"]["z"] = 3
        return d.as_string()

    def keeps_separators(t: Any) -> Any:
        d = t.parse("a   =   1\n[t]\nb    = 2\n")
        d["t"]["b"] = [1]
        return d.as_string()

    def replaces_with_comment(t: Any) -> Any:
        d = t.parse('[t]\na = "1"\n')
        it = t.item(5)
        it.comment("five")
        d["t"]["a"] = it
        return d.as_string()

    def no_spurious_white_space(t: Any) -> Any:
        d = t.parse("[x]\na = 1\n\n[y]\nb = 2\n")
        d["z"] = d.pop("y")
        return d.as_string()

    def a_new_table_with_an_empty_one(t: Any) -> Any:
        d = t.document()
        d["a"] = 1
        d["b"] = {"c": {}}
        d["d"] = {"e": {}}
        return d.as_string()

    def removes_a_super_table(t: Any) -> Any:
        d = t.parse("[hello.one]\na = 1\n\n[hello.two]\nb = 2\n")
        del d["hello"]["one"]
        return d.as_string()

    def dotted_key_of_table(t: Any) -> Any:
        d = t.parse('')
        d["a"] = t.table()
        d["a"].append(t.key(["b", "c"]), 1)
        return d.as_string(), d["a"]["b"]["c"]

    def no_extra_indent(t: Any) -> Any:
        d = t.parse("    [a]\n        [a.b.c]\n            k = 1\n            [a.b.c.d]\n              y = 2\n")
        return d.as_string()

    def setdefault_list(t: Any) -> Any:
        d = t.parse('[a]\n')
        d["a"].setdefault("l", []).append("x")
        return d.as_string()

    def appends_to_super(t: Any) -> Any:
        d = t.parse('[first.second]\na = 1\n')
        table = t.table()
        table.add("b", 2)
        d["first"].append("third", table)
        return d.as_string()

    def array_of_tables_without_end(t: Any) -> Any:
        d = t.parse("[[products]]\nname = 'x'\n\n[[products]]\nname = 'y'")
        d["products"].append(t.item({"name": "z"}))
        return d.unwrap()

    def contains_checks(t: Any) -> Any:
        d = t.parse("[[a]]\nx=1\n[b]\n")
        return {"x": 1} in d["a"], "x" in d["a"][0], "b" in d, d["b"] == {}, not d["b"], bool(d)

    def items_loop_changes(t: Any) -> Any:
        d = t.parse("[a]\nx = 1\ny = 2\n")
        for key, value in d["a"].items():
            d["a"][key] = value + 1
        return d.as_string()

    def nested_dict_setting(t: Any) -> Any:
        d = t.parse("[tool]\n")
        d["tool"]["x"] = {"y": {"z": [1, {"q": 2}]}}
        return d.as_string()

    def unicode_values(t: Any) -> Any:
        d = t.document()
        d["ü"] = "é\u2028\x00\x7f"
        return d.as_string()

    def big_numbers(t: Any) -> Any:
        d = t.document()
        d["a"] = 10**18
        d["b"] = -0.0
        d["c"] = 1e300
        d["d"] = float("inf")
        d["e"] = 1e-7
        return d.as_string()

    def datetimes(t: Any) -> Any:
        d = t.document()
        tz = datetime.timezone(datetime.timedelta(hours=-7))
        d["a"] = datetime.datetime(1979, 5, 27, 0, 32, 0, 999000, tzinfo=tz)
        d["b"] = datetime.datetime(1979, 5, 27, 0, 32)
        d["c"] = datetime.time(0, 32, 0, 999)
        return d.as_string()

    def tuples(t: Any) -> Any:
        d = t.document()
        d["a"] = (1, 2)
        return d.as_string()

    def nones(t: Any) -> Any:
        d = t.document()
        try:
            d["a"] = None
        except Exception as fault:
            return isinstance(fault, ValueError)

    def sets(t: Any) -> Any:
        d = t.document()
        try:
            d["a"] = {1, 2}
        except Exception as fault:
            return isinstance(fault, (ValueError, TypeError))

    def comments_of_tables_in_arrays(t: Any) -> Any:
        d = t.parse("[[a]] # one\nx = 1\n")
        return d["a"][0].trivia.comment

    def table_add_chain(t: Any) -> Any:
        table = t.table()
        table.add("a", 1).add("b", 2)
        return table.as_string()

    def trivia_set(t: Any) -> Any:
        d = t.parse("a = 1\n")
        d["a"].trivia.comment_ws = "  "
        d["a"].trivia.comment = "# hi"
        return d.as_string()

    def table_value_body(t: Any) -> Any:
        d = t.parse("[t]\na = 1\n# c\nb = 2\n")
        return [(k.key if k is not None else None, type(v).__name__) for k, v in d["t"].value.body]

    def add_nl_between_tables(t: Any) -> Any:
        d = t.document()
        a, b = t.item({"x": 1}), t.item({"y": 1})
        d["a"] = a
        d.add(t.nl())
        d["b"] = b
        return d.as_string()

    def append_inline_table_to_array(t: Any) -> Any:
        d = t.document()
        a = t.array()
        it = t.inline_table()
        it["x"] = 1
        a.append(it)
        d["a"] = a
        return d.as_string()

    def multiline_array_of_tables(t: Any) -> Any:
        a = t.array()
        for name in "xy":
            it = t.inline_table()
            it["n"] = name
            a.append(it)
        return a.multiline(True).as_string()

    def array_insert_comment(t: Any) -> Any:
        a = t.array("[\n  1, # one\n  2,\n]")
        a.insert(0, 0)
        return a.as_string()

    def array_item_types(t: Any) -> Any:
        d = t.parse("a = ['x', 1, 2.5, true, 1979-05-27]")
        return [type(x).__name__ for x in d["a"]]

    def equality_across(t: Any) -> Any:
        return t.parse("a = 1\n") == t.parse("a=1"), t.parse("a = [1]")["a"] == [1], t.parse("a = {b = 1}")["a"] == {"b": 1}

    def keys_with_dots(t: Any) -> Any:
        d = t.parse('["a.b"]\nx = 1\n')
        d["a.b"]["y.z"] = 2
        return d.as_string()

    def aot_nested(t: Any) -> Any:
        d = t.parse("[[fruit]]\nname = 'a'\n[[fruit.variety]]\nname = 'b'\n")
        d["fruit"][0]["variety"].append({"name": "c"})
        return d.unwrap()

    def item_array_of_dicts_inside_array(t: Any) -> Any:
        d = t.document()
        d["a"] = [[{"x": 1}]]
        return d.as_string()

    def remove_last_element(t: Any) -> Any:
        d = t.parse("a = [1]\n")
        d["a"].pop()
        return d.as_string()

    def array_extend_multiline(t: Any) -> Any:
        d = t.parse("a = [\n  'x',\n]\n")
        d["a"].extend(["y", "z"])
        return d.as_string()

    def dict_views(t: Any) -> Any:
        d = t.parse("a = 1\nb = 2\n")
        return d.keys() & {"a"}, ("a", 1) in d.items(), 2 in d.values(), list(reversed(list(d)))

    def update_with_kwargs(t: Any) -> Any:
        d = t.parse("a = 1\n")
        d.update(b=2)
        d.update([("c", 3)])
        return d.as_string()

    def delete_with_comment(t: Any) -> Any:
        d = t.parse("# about a\na = 1\n# about b\nb = 2\n")
        del d["a"]
        return d.as_string()

    def string_methods_return(t: Any) -> Any:
        d = t.parse("a = 'x'\n")
        d["a"] += "y"
        return d.as_string()

    def int_ops(t: Any) -> Any:
        d = t.parse("a = 1 # c\n")
        d["a"] = d["a"] * 10
        return d.as_string(), type(d["a"]).__name__

    def sorted_doc(t: Any) -> Any:
        return t.dumps({"z": 1, "t": {"b": 1, "a": 2}, "a": [3]}, sort_keys=True)

    def is_checks(t: Any) -> Any:
        d = t.parse("[a]\nb = {c = 1}\n[[d]]\n")
        return d["a"].is_table(), d["a"]["b"].is_inline_table(), d["d"].is_aot(), d["a"].is_super_table(), d["d"][0].is_aot_element()

    def as_string_of_table(t: Any) -> Any:
        d = t.parse("[a]\nb = 1\n[a.c]\nd = 2\n")
        return d["a"].as_string(), d["a"]["c"].as_string()

    def aot_as_string(t: Any) -> Any:
        d = t.parse("[[a]]\nb = 1\n[[a]]\nb = 2\n")
        return d["a"].as_string(), d["a"][0].as_string()

    def table_copy(t: Any) -> Any:
        d = t.parse("[a]\nb = 1 # x\n")
        c = d["a"].copy()
        c["b"] = 2
        return d.as_string(), c.as_string()

    def doc_value(t: Any) -> Any:
        d = t.parse("a = 1\n[b]\nc = [1, 2]\n")
        return d.value, d["b"].value if isinstance(d["b"].value, dict) else None

    def insert_before(t: Any) -> Any:
        d = t.parse("a = 1\nc = 3\n")
        d.append("b", 2)
        return list(d)

    def string_type_kept(t: Any) -> Any:
        d = t.parse("a = 'x'\n")
        d["a"] = t.string("C:\\y", literal=True)
        return d.as_string()

    def dump_nested_list(t: Any) -> Any:
        return t.dumps({"a": {"b": [{"c": 1}, {"c": 2}]}, "d": []})

    def clear_doc(t: Any) -> Any:
        d = t.parse("a = 1\n[b]\nc = 1\n")
        d.clear()
        return d.as_string(), dict(d)

    def popitem(t: Any) -> Any:
        d = t.parse("a = 1\nb = 2\n")
        return d.popitem(), d.as_string()

    def aot_slice(t: Any) -> Any:
        d = t.parse("[[a]]\nx=1\n[[a]]\nx=2\n")
        return [dict(x) for x in d["a"][:1]], d["a"][-1]["x"]

    def array_sort(t: Any) -> Any:
        d = t.parse("a = [3, 1, 2]\n")
        d["a"].sort()
        return d["a"].unwrap()

    def array_reverse(t: Any) -> Any:
        d = t.parse("a = [3, 1, 2]\n")
        d["a"].reverse()
        return d["a"].unwrap()

    def array_plus(t: Any) -> Any:
        d = t.parse("a = [1]\n")
        d["a"] = d["a"] + [2]
        return d.as_string()

    def boolean_item(t: Any) -> Any:
        it = t.item(True)
        return it.unwrap(), it.as_string(), bool(it), type(it).__name__

    def nested_get(t: Any) -> Any:
        d = t.parse(PROJECT)
        return d.get("tool", {}).get("black", {}).get("line-length"), d.get("x", {}).get("y")

    def add_table_to_aot_table(t: Any) -> Any:
        d = t.parse("[[a]]\nx = 1\n")
        d["a"][0]["sub"] = {"y": 1}
        return d.as_string()

    def a_project_is_written(t: Any) -> Any:
        d = t.document()
        d.add(t.comment("made"))
        project = t.table()
        project.add("name", "x")
        project.add("dependencies", t.array().multiline(True))
        project["dependencies"].extend(["a", "b"])
        d.add("project", project)
        tool, poetry = t.table(is_super_table=True), t.table()
        poetry.add("packages", [{"include": "x"}])
        tool.add("poetry", poetry)
        d.add("tool", tool)
        return d.unwrap()


DIFFERENCES = {
    "slices_arrays": "tomlkit 0.11 has no slices of arrays",
    "adds_a_sub_table_between": "an empty line stands before the next header too",
    "replaces_a_value_by_a_table": "a key keeps its place among the keys",
    "replaces_a_table_by_a_value": "tomlkit 0.11 fails",
    "builds_dotted_keys": "the text is that of tomlkit's documentation, without an empty line",
    "deletes_inside_inline_tables": "no space is left behind",
    "inserts": "a space follows each comma",
    "refuses_strings": "an unescaped string has to be valid",
    "removes_from_an_out_of_order_table": "an empty line belongs to the header after it, and goes with that one",
    "adds_to_an_out_of_order_table": "tomlkit 0.11 fails",
    "reads_a_key_with_its_value": "a key has no space at its end",
    "removes_a_super_table": "an empty line belongs to the header after it, and stays with that one",
    "dotted_key_of_table": "tomlkit 0.11 leaves the header out",
    "unicode_values": "the digits of an escape are capitals",
    "trivia_set": "white space before a comment is not set, and the error says so",
    "table_value_body": "a table has no body beside its keys",
    "delete_with_comment": "a comment before a key goes with it",
    "string_methods_return": "a sum of strings is a new string, in the usual quotes",
    "as_string_of_table": "the text of a part is a document of its own",
    "aot_as_string": "the text of an array of tables has its headers",
    "popitem": "the last pair goes first, as in a dictionary",
}


def run(name: str, module: Any) -> str:
    try:
        return str(getattr(Uses, name)(module)).replace("datetime.timezone(datetime.timedelta(0), 'UTC')", "datetime.timezone.utc")
    except Exception as fault:
        return "%s: %s" % (type(fault).__name__, fault)


def main() -> int:
    sys.path.append("/usr/lib/python3/dist-packages")
    import tomlkit

    import toml_edit

    names = [name for name, it in vars(Uses).items() if callable(it)]
    wrong = 0
    for name in names:
        theirs, ours = run(name, tomlkit), run(name, toml_edit)
        if (theirs == ours) == (name in DIFFERENCES):
            wrong += 1
            print("== %s\n-- tomlkit\n%s\n-- toml_edit\n%s" % (name, theirs, ours))
    print("%d uses, %d are the same, %d differ for a known reason" % (len(names), len(names) - wrong - len(DIFFERENCES), len(DIFFERENCES)))
    return bool(wrong)


if __name__ == "__main__":
    sys.exit(main())
