//! The tree: what is expected is written by hand, as the crate's documentation has it.
use toml_edit_proved::{
    array, table, value, Array, ArrayOfTables, DocumentMut, Error, Index, InlineTable, Item, Kind, Options, Table,
    Value,
};

const MANIFEST: &str = "# A crate.\n[package]\nname = \"a\" # its name\nversion = '1.0'\nkeywords = [\n    \"x\", # one\n    \"y\",\n]\n\n[dependencies]\nserde = { version = \"1\" }\n\n[[bin]]\nname = \"one\"\n\n[[bin]]\nname = \"two\"\n";

fn read(text: &str) -> DocumentMut {
    text.parse().unwrap()
}

fn changed(text: &str, change: impl FnOnce(&mut DocumentMut)) -> String {
    let mut document = read(text);
    change(&mut document);
    document.print().unwrap()
}

#[test]
fn reads() {
    let document = read(MANIFEST);
    assert_eq!(document["package"]["name"].as_str(), Some("a"));
    assert_eq!(document["dependencies"]["serde"]["version"].as_str(), Some("1"));
    assert_eq!(document.get("nothing").map(Item::is_none), None);
    assert_eq!(document["package"]["keywords"].as_array().unwrap().len(), 2);
    let names: Vec<&str> = document.iter().map(|(name, _)| name).collect();
    assert_eq!(names, ["package", "dependencies", "bin"]);
    let bins = document["bin"].as_array_of_tables().unwrap();
    assert_eq!(bins.iter().filter_map(|it| it["name"].as_str()).collect::<Vec<_>>(), ["one", "two"]);
    let text = "a = 0xFF\nb = 1_000.5\nc = true\nd = 1979-05-27T07:32:00Z\ne = -inf\nf = 'x'\n";
    let document = read(text);
    assert_eq!(document["a"].as_integer(), Some(255));
    assert_eq!(document["b"].as_float(), Some(1000.5));
    assert_eq!(document["c"].as_bool(), Some(true));
    assert_eq!(document["d"].as_datetime().unwrap().to_string(), "1979-05-27T07:32:00Z");
    assert_eq!(document["e"].as_float(), Some(f64::NEG_INFINITY));
    assert_eq!(document["f"].as_value().unwrap().type_name(), "string");
    assert!(matches!("a = ".parse::<DocumentMut>(), Err(Error::Refused(_))));
}

#[test]
fn unchanged() {
    for text in [MANIFEST, "", "# only\n", "a.b = 1\na.c = 2\n[d.e]\nf = { g.h = [ 1, ] }\n"] {
        assert_eq!(read(text).to_string(), text);
    }
}

#[test]
fn sets_and_removes() {
    let text = changed(MANIFEST, |it| it["package"]["version"] = value("2.0"));
    assert_eq!(text, MANIFEST.replace("'1.0'", "\"2.0\""));
    let text = changed(MANIFEST, |it| it["package"]["name"] = value("b"));
    assert_eq!(text, MANIFEST.replace("\"a\"", "\"b\""));
    let text = changed(MANIFEST, |it| it["dependencies"]["serde"]["version"] = value("2"));
    assert_eq!(text, MANIFEST.replace("\"1\"", "\"2\""));
    let text = changed(MANIFEST, |it| drop(it["package"].as_table_mut().unwrap().remove("version")));
    assert_eq!(text, MANIFEST.replace("version = '1.0'\n", ""));
    let text = changed("a = 1\nb = 2\n", |it| it["a"] = Item::None);
    assert_eq!(text, "b = 2\n");
    let text = changed("a = 1\n", |it| drop(it.insert("b", value(2))));
    assert_eq!(text, "a = 1\nb = 2\n");
}

#[test]
fn arrays() {
    let text = changed(MANIFEST, |it| it["package"]["keywords"].as_array_mut().unwrap().push("z"));
    assert_eq!(text, MANIFEST.replace("    \"y\",\n", "    \"y\",\n    \"z\",\n"));
    let text = changed(MANIFEST, |it| drop(it["package"]["keywords"].as_array_mut().unwrap().remove(0)));
    assert_eq!(text, MANIFEST.replace("    \"x\", # one\n", ""));
    let text = changed("a = [1, 3]\n", |it| it["a"].as_array_mut().unwrap().insert(1, 2));
    assert_eq!(text, "a = [1, 2, 3]\n");
    let text = changed("a = [1, 2]\n", |it| {
        let array = it["a"].as_array_mut().unwrap();
        array.replace(0, "x");
        array.push(true);
    });
    assert_eq!(read(&text)["a"].as_array().unwrap().to_string(), "[\"x\", 2, true]");
    let text = changed("a = 1\n", |it| it["b"] = value(Array::from_iter([1, 2])));
    assert_eq!(text, "a = 1\nb = [1, 2]\n");
}

#[test]
fn tables() {
    let text = changed("a = 1\n", |it| {
        it["t"] = table();
        it["t"]["x"] = value(1);
        it["t"]["u"] = table();
        it["t"]["u"]["y"] = value("z");
    });
    assert_eq!(text, "a = 1\n\n[t]\nx = 1\n\n[t.u]\ny = \"z\"\n");
    let mut inline = InlineTable::new();
    inline.insert("version", "1");
    let text = changed(MANIFEST, |it| drop(it["dependencies"].as_table_mut().unwrap().insert("log", value(inline))));
    assert_eq!(text, MANIFEST.replace("{ version = \"1\" }\n", "{ version = \"1\" }\nlog = { version = \"1\" }\n"));
    let text = changed("", |it| drop(it.entry("a").or_insert(table()).as_table_mut().unwrap().insert("b c", value(1))));
    assert_eq!(text, "[a]\n\"b c\" = 1\n");
    let text = changed(MANIFEST, |it| drop(it.remove("dependencies")));
    assert_eq!(text, MANIFEST.replace("[dependencies]\nserde = { version = \"1\" }\n\n", ""));
    let text = changed("", |it| it["a"] = table());
    assert!(read(&text).contains_table("a"), "{text}");
}

#[test]
fn arrays_of_tables() {
    let mut three = Table::new();
    three.insert("name", value("three"));
    let text = changed(MANIFEST, |it| it["bin"].as_array_of_tables_mut().unwrap().push(three.clone()));
    assert_eq!(text, format!("{MANIFEST}\n[[bin]]\nname = \"three\"\n"));
    let text = changed(MANIFEST, |it| drop(it["bin"].as_array_of_tables_mut().unwrap().remove(0)));
    assert_eq!(text, MANIFEST.replace("[[bin]]\nname = \"one\"\n\n", ""));
    let text = changed("a = 1\n", |it| {
        let mut tables = ArrayOfTables::new();
        tables.push(three);
        it["bin"] = Item::ArrayOfTables(tables);
    });
    assert_eq!(text, "a = 1\n\n[[bin]]\nname = \"three\"\n");
    let text = changed(MANIFEST, |it| it["bin"].as_array_of_tables_mut().unwrap()[1]["name"] = value("2"));
    assert_eq!(text, MANIFEST.replace("two", "2"));
    assert!(array().is_array_of_tables());
}

#[test]
fn comments() {
    let text = changed("a = 1\n", |it| it["a"].as_value_mut().unwrap().decor_mut().set_suffix(" # why"));
    assert_eq!(text, "a = 1 # why\n");
    let document = read(MANIFEST);
    assert_eq!(document["package"]["name"].as_value().unwrap().decor().suffix(), Some(" # its name"));
    assert_eq!(document["package"].as_table().unwrap().decor().prefix(), Some("# A crate.\n"));
}

#[test]
fn comments_before() {
    let text = changed("a = 1\nb = 2\n[t]\nc = 3\n[[u]]\n", |it| {
        it.key_mut("b").unwrap().leaf_decor_mut().set_prefix("# about b\n");
        let table = it["t"].as_table_mut().unwrap();
        table.decor_mut().set_prefix("\n# about t\n");
        table["d"] = value(4);
        table.key_mut("d").unwrap().leaf_decor_mut().set_prefix("\n# about d\n");
        it["u"].as_array_of_tables_mut().unwrap()[0].decor_mut().set_prefix("# u\n");
    });
    assert_eq!(text, "a = 1\n# about b\nb = 2\n\n# about t\n[t]\nc = 3\n\n# about d\nd = 4\n# u\n[[u]]\n");
    let text = changed(MANIFEST, |it| it["package"].as_table_mut().unwrap().decor_mut().set_prefix(""));
    assert_eq!(text, MANIFEST.replace("# A crate.\n", ""));
    let mut document = read("a = 1\n");
    document.key_mut("a").unwrap().leaf_decor_mut().set_prefix("no comment\n");
    assert!(matches!(document.print(), Err(Error::Refused(_))));
}

#[test]
fn elements_have_places() {
    let document = read(MANIFEST);
    assert_eq!(document["package"]["keywords"][1].as_str(), Some("y"));
    assert_eq!(document["bin"][1]["name"].as_str(), Some("two"));
    assert!(document["bin"].get(2).is_none());
    let text = changed(MANIFEST, |it| it["bin"][0]["name"] = value("1"));
    assert_eq!(text, MANIFEST.replace("\"one\"", "\"1\""));
    let text = changed("a = [1, 2]\n", |it| it["a"][1] = value(3));
    assert_eq!(text, "a = [1, 3]\n");
}

#[test]
fn sorts() {
    let text = changed("b = 1 # b\na = 2\n[t]\nd = 1\nc = 2\n", |it| {
        it.sort_values();
        it["t"].as_table_mut().unwrap().sort_values();
    });
    assert_eq!(text, "a = 2\nb = 1 # b\n[t]\nc = 2\nd = 1\n");
}

#[test]
fn collects() {
    let made: Table = [("a", 1_i64), ("b", 2)].into_iter().collect();
    assert_eq!(changed("", |it| drop(it.insert("t", made))), "[t]\na = 1\nb = 2\n");
    let mut inline: InlineTable = [("x", 1)].into_iter().collect();
    *inline.get_or_insert("y", 2) = Value::from("z");
    assert_eq!(inline.to_string(), "{ x = 1, y = \"z\" }");
    let text = changed("a = [ 1,2 ]\n", |it| {
        let array = it["a"].as_array_mut().unwrap();
        array.extend([3]);
        array.fmt();
    });
    assert_eq!(text, "a = [1, 2, 3]\n");
}

/// What the crate's page and its tests show.
#[test]
fn examples_of_the_crate() {
    let text = "\n\"hello\" = 'toml!' # comment\n['a'.b]\n    ";
    let mut document: DocumentMut = text.parse().unwrap();
    assert_eq!(document.to_string(), text);
    document["a"]["b"]["c"]["d"] = value("hello");
    document["a"]["b"]["c"].as_inline_table_mut().unwrap().fmt();
    assert_eq!(document.to_string(), "\n\"hello\" = 'toml!' # comment\n['a'.b]\nc = { d = \"hello\" }\n    ");
    let features: Value = ["node".to_owned(), "mouth".to_owned()].iter().cloned().collect();
    assert_eq!(features.to_string(), r#"["node", "mouth"]"#);
    assert_eq!(Value::from("hello").to_string().parse::<Value>().unwrap().as_str(), Some("hello"));
}

#[test]
fn moves() {
    let one = read("x = { y = 1 } # c\n[t]\nz = [ 1 ]\n");
    let mut two = read("x = 2\n");
    two["x"] = one["x"].clone();
    two["t"] = one["t"].clone();
    assert_eq!(two.to_string(), "x = { y = 1 } # c\n\n[t]\nz = [1]\n");
}

#[test]
fn values_are_read() {
    assert_eq!("[1, 'x']".parse::<Value>().unwrap().as_array().unwrap().len(), 2);
    assert!("1 2".parse::<Value>().is_err());
}

#[test]
fn an_index_has_kinds_and_places() {
    let text = "# c\n[a.b] # d\n\"x\u{e9}\" = 'y' # e\n";
    let index = Index::new(text, Options::default()).unwrap();
    let kinds: Vec<Kind> = (0..index.len()).map(|it| index.kind(it)).collect();
    assert_eq!(kinds, [Kind::Root, Kind::ImplicitTable, Kind::Table, Kind::String]);
    assert_eq!((index.name(3), index.content(3)), (Some("x\u{e9}"), Some("y")));
    assert_eq!((&text[index.key(3)], &text[index.span(3)], &text[index.after(3)]), ("\"x\u{e9}\"", "'y'", " # e"));
    assert_eq!((&text[index.span(2)], &text[index.before(2)], &text[index.after(2)]), ("[a.b]", "# c\n", " # d"));
    assert_eq!((index.line_column(3), index.parent(3)), ((3, 1), 2));
    assert_eq!(index.below(0).collect::<Vec<_>>(), [1]);
}
