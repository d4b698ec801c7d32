//! Tests as the suite of the crate `toml_edit` has them: what is expected is what the crate writes.
use toml_edit_proved::{array, table, value, Array, DocumentMut, Item, Table};

fn changed(text: &str, change: impl FnOnce(&mut Table)) -> String {
    let mut document: DocumentMut = text.parse().unwrap();
    change(document.as_table_mut());
    document.print().unwrap()
}

#[test]
fn inserts_a_leaf_table() {
    let text = changed("[servers]\n[servers.alpha]\nip = \"10.0.0.1\"\n[other.table]", |root| {
        root["servers"]["beta"] = table();
        root["servers"]["beta"]["ip"] = value("10.0.0.2");
        root["servers"]["beta"]["dc"] = value("eqdc10");
    });
    let wanted = "[servers]\n[servers.alpha]\nip = \"10.0.0.1\"\n\n[servers.beta]\nip = \"10.0.0.2\"\ndc = \"eqdc10\"\n[other.table]\n";
    assert_eq!(text, wanted);
}

#[test]
fn inserts_a_table_that_is_no_leaf() {
    let text = changed("[other.table]", |root| {
        root["servers"] = table();
        root["servers"]["alpha"] = table();
        root["servers"]["alpha"]["ip"] = value("10.0.0.1");
    });
    assert_eq!(text, "[other.table]\n\n[servers]\n\n[servers.alpha]\nip = \"10.0.0.1\"\n");
}

#[test]
fn inserts_an_array_of_tables() {
    let text = changed("\n        [package]\n        title = \"withoutarray\"", |root| {
        root["bin"] = array();
        assert!(root["bin"].is_array_of_tables());
        let array = root["bin"].as_array_of_tables_mut().unwrap();
        let mut table = Table::new();
        table["hello"] = value("world");
        array.push(table);
        array.push(Table::new());
    });
    let wanted = "\n        [package]\n        title = \"withoutarray\"\n\n[[bin]]\nhello = \"world\"\n\n[[bin]]\n";
    assert_eq!(text, wanted);
}

#[test]
fn inserts_values() {
    let text = changed("[tbl.son]", |root| {
        root["tbl"]["key1"] = value("value1");
        root["tbl"]["key2"] = value(42);
        root["tbl"]["key3"] = value(8.1415926);
    });
    assert_eq!(text, "[tbl]\nkey1 = \"value1\"\nkey2 = 42\nkey3 = 8.1415926\n[tbl.son]\n");
}

#[test]
fn removes_a_leaf_table() {
    let text = "\n[servers]\n\n# Indentation is allowed\n[servers.alpha]\nip = \"10.0.0.1\"\n\n[servers.beta]\nip = \"10.0.0.2\"";
    let text = changed(text, |root| {
        assert!(root["servers"].as_table_mut().unwrap().remove("alpha").is_some());
    });
    assert_eq!(text, "\n[servers]\n\n[servers.beta]\nip = \"10.0.0.2\"\n");
}

#[test]
fn removes_a_table_that_is_no_leaf() {
    let text = "title = 1\n\n# 1\n[a.b.c] # 1.1\nkey1 = 1 # 1.2\n# 2\n[b] # 2.1\nkey2 = 2\n\n# 3\n[a] # 3.1\nkey3 = 3\n[[a.'array']]\nb = 1\n\n[[a.b.c.d]]\nc = 2\n\n   # some\n   [some.other.table]\n";
    let text = changed(text, |root| assert!(root.remove("a").is_some()));
    assert_eq!(text, "title = 1\n# 2\n[b] # 2.1\nkey2 = 2\n\n   # some\n   [some.other.table]\n");
}

#[test]
fn removes_a_table_of_an_array() {
    let text = "[package]\ntitle = \"withoutarray\"\n\n[[bin]]\nhello = \"world\"\n[[bin]]\nno = 1\n";
    let text = changed(text, |root| {
        root["bin"].as_array_of_tables_mut().unwrap().remove(1);
    });
    assert_eq!(text, "[package]\ntitle = \"withoutarray\"\n\n[[bin]]\nhello = \"world\"\n");
    let text = changed(&text, |root| assert!(root.remove("bin").is_some()));
    assert_eq!(text, "[package]\ntitle = \"withoutarray\"\n");
}

#[test]
fn removes_a_value() {
    let text = changed("name = \"hello\"\nversion = \"1.0.0\" # x\ndocs = 1\n", |root| {
        let removed = root.remove("version").unwrap();
        assert_eq!(removed.as_str(), Some("1.0.0"));
    });
    assert_eq!(text, "name = \"hello\"\ndocs = 1\n");
}

#[test]
fn removes_the_last_value_of_a_dotted_key() {
    let text = changed("a.b = 1", |root| {
        let a = root["a"].as_table_mut().unwrap();
        a.set_implicit(true);
        assert!(a.remove("b").is_some());
    });
    assert_eq!(text, "");
}

#[test]
fn sorts_values() {
    let text = "[a.z]\n\n[a]\n# this is attached to b\nb = 2 # as well as this\na = 1\nc = 3\n\n[a.y]";
    let text = changed(text, |root| root["a"].as_table_mut().unwrap().sort_values());
    assert_eq!(text, "[a.z]\n\n[a]\na = 1\n# this is attached to b\nb = 2 # as well as this\nc = 3\n\n[a.y]\n");
}

#[test]
fn sets_and_replaces_values() {
    let text = changed("# c\ndependencies = { a = \"1\" }\n[t]\n", |root| {
        root["dependencies"]["a"] = value("2");
        root["dependencies"]["b"] = value("3");
        root["dependencies"].as_inline_table_mut().unwrap().fmt();
        root["t"]["list"] = value(Array::from_iter(["x", "y"]));
    });
    assert_eq!(text, "# c\ndependencies = { a = \"2\", b = \"3\" }\n[t]\nlist = [\"x\", \"y\"]\n");
}

#[test]
fn moves_tables_between_documents() {
    let one: DocumentMut = "[hello]\nx = 1 # one\n".parse().unwrap();
    let two: DocumentMut = "[world]\ny = 2\n".parse().unwrap();
    let text = changed("", |root| {
        root["hello"] = one["hello"].clone();
        root["world"] = two["world"].clone();
    });
    assert_eq!(text, "[hello]\nx = 1 # one\n\n[world]\ny = 2\n");
}

#[test]
fn retains() {
    let text = changed("a = 1\nb = 'x'\n[t]\nc = 1\n", |root| root.retain(|_, item| !item.is_integer()));
    assert_eq!(text, "b = 'x'\n[t]\nc = 1\n");
    let text =
        changed("a = [1, 2, 3, 4]\n", |root| root["a"].as_array_mut().unwrap().retain(|it| it.as_integer() != Some(2)));
    assert_eq!(text, "a = [1, 3, 4]\n");
}

#[test]
fn entries() {
    let text = changed("[a]\nx = 1\n", |root| {
        root.entry("a").or_insert(table())["x"] = value(2);
        root.entry("b").or_insert_with(table)["y"] = value(3);
        *root["a"].get_mut("x").unwrap() = value(4);
        root["b"].or_insert(Item::None);
    });
    assert_eq!(text, "[a]\nx = 4\n\n[b]\ny = 3\n");
    let mut keys = Vec::new();
    for (key, item) in &text.parse::<DocumentMut>().unwrap().as_table().clone() {
        keys.push((key.to_string(), item.type_name()));
    }
    assert_eq!(keys, [("a".to_string(), "table"), ("b".to_string(), "table")]);
}
