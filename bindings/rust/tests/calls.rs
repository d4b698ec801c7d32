use toml_edit_proved::{check, edit, format, get, json, print, remove, set, Error, Options};

const MANIFEST: &str =
    "# A crate.\n[package]\nname = \"a\" # its name\nversion = '1.0'\n\n[dependencies]\nserde = { version = \"1\" }\n";

fn plain() -> Options {
    Options::default()
}

#[test]
fn sets_one_value() {
    let text = set(MANIFEST, "package.version", "\"2.0\"", plain()).unwrap();
    assert_eq!(text, MANIFEST.replace("'1.0'", "\"2.0\""));
    let text = set(MANIFEST, "dependencies.serde.version", "\"2\"", plain()).unwrap();
    assert_eq!(text, MANIFEST.replace("\"1\"", "\"2\""));
}

#[test]
fn gets_and_removes() {
    assert_eq!(get(MANIFEST, "package.name", plain()).unwrap(), "\"a\"\n");
    assert_eq!(get(MANIFEST, "package.nothing", plain()), Err(Error::NoSuchPath));
    let text = remove(MANIFEST, "dependencies.serde", plain()).unwrap();
    assert_eq!(text, MANIFEST.replace("serde = { version = \"1\" }\n", ""));
}

#[test]
fn keeps_line_endings_where_asked() {
    let exact = Options { exact: true, ..plain() };
    assert_eq!(print("a = 1\r\nb = 2", plain()).unwrap(), "a = 1\nb = 2\n");
    assert_eq!(print("a = 1\r\nb = 2", exact).unwrap(), "a = 1\r\nb = 2");
}

#[test]
fn says_where_a_text_is_wrong() {
    let Err(Error::Refused(refusal)) = check("a = 1\nb = [1,\n", plain()) else {
        panic!("accepted");
    };
    assert_eq!(refusal.line_column.unwrap().0, 2);
    assert!(!refusal.message.is_empty());
    assert_eq!(print("a = 1\nb = [1,\n", plain()), Err(Error::Refused(refusal)));
}

#[test]
fn reads_the_version_that_is_asked_for() {
    let text = "a = { b = 1, }\n";
    assert_eq!(check(text, plain()), Ok(()));
    assert!(matches!(check(text, Options { toml_1_0: true, ..plain() }), Err(Error::Refused(_))));
}

#[test]
fn refuses_bad_words() {
    assert_eq!(get(MANIFEST, "a b", plain()), Err(Error::BadPath));
    assert_eq!(set(MANIFEST, "a", "b", plain()), Err(Error::BadValue));
    assert_eq!(set(MANIFEST, "package", "1", plain()), Err(Error::WrongKind));
}

#[test]
fn reads_as_json() {
    assert_eq!(json(MANIFEST, "package", plain()).unwrap(), "{\"name\":\"a\",\"version\":\"1.0\"}");
    assert_eq!(json("a = [0x10]", "", plain()).unwrap(), "{\"a\":[16]}");
    assert_eq!(json(MANIFEST, "b", plain()), Err(Error::NoSuchPath));
}

#[test]
fn makes_edits_together() {
    let words = ["set", "package.version", "'2.0'", "rename", "package.name", "title"];
    let text = edit(MANIFEST, &words, plain()).unwrap();
    let wanted = MANIFEST.replace("1.0", "2.0").replace("name =", "title =");
    assert_eq!(text, wanted);
}

/// Returns what is said of edits that are refused.
fn refused(words: &[&str]) -> String {
    edit(MANIFEST, words, plain()).unwrap_err().to_string()
}

#[test]
fn says_which_edit_is_refused() {
    assert_eq!(refused(&["set", "b", "1", "remove", "c"]), "edit 2 (remove c): no such path");
    assert_eq!(
        refused(&["sort", "", "rename", "package.name", "version"]),
        "edit 2 (rename package.name): the key is there already"
    );
    assert_eq!(refused(&["set", "b", "1", "set", "a"]), "edit 2 (set a): not an edit");
    assert_eq!(refused(&["set", "a", "1", "sort", "b c", "set", "d", "x"]), "edit 2 (sort b c): bad path");
    assert_eq!(refused(&["comment", "package.name", "a\nb"]), "edit 1 (comment package.name): bad comment");
    assert_eq!(refused(&["take", "dependencies.serde", "1"]), "edit 1 (take dependencies.serde): wrong kind");
    assert_eq!(
        edit("a = [1]\n", &["take", "a", "2"], plain()).unwrap_err().to_string(),
        "edit 1 (take a): no such element"
    );
    assert_eq!(edit("a = [", &["set", "a", "x"], plain()).unwrap_err().to_string(), "edit 1 (set a): bad value");
    let words = ["set", "a\0remove", "1"];
    assert_eq!(edit("a = 1\n", &words, plain()), Err(Error::BadScript));
    assert_eq!(remove("a = 1\nb = 2\n", "a\0remove\0b", plain()), Err(Error::BadPath));
    assert_eq!(remove(MANIFEST, "c", plain()), Err(Error::NoSuchPath));
}

/// Returns the text with one edit.
fn edited(text: &str, words: &[&str]) -> String {
    edit(text, words, plain()).unwrap()
}

#[test]
fn words_mean_one_thing() {
    assert_eq!(edited("a = 1\n", &["comment", "a", "why"]), "a = 1 # why\n");
    assert_eq!(edited("a = 1\n", &["comment", "a", "#why"]), "a = 1 #why\n");
    assert_eq!(edited("a = 1 # why\n", &["comment", "a", ""]), "a = 1\n");
    assert_eq!(edited("a = 1\n", &["rename", "a", "'x.y'"]), "\"x.y\" = 1\n");
    let error = edit("a = 1\n", &["rename", "a", "x.y"], plain()).unwrap_err();
    assert_eq!(error.to_string(), "edit 1 (rename a): bad path");
    assert_eq!(edited("", &["string", "a", "\"b\" c"]), "a = '\"b\" c'\n");
    assert_eq!(edited("", &["set", "'a'.'b c'", "1"]), "a = { \"b c\" = 1 }\n");
    assert_eq!(edited("", &["set", "'a'.'b c'", "1"]), set("", "'a'.'b c'", "1", plain()).unwrap());
    assert_eq!(edited("b = 1\na = 2\n", &["sort", ""]), "a = 2\nb = 1\n");
}

#[test]
fn arrays_of_tables() {
    let two = "[[bin]]\nname = \"a\"\n\n[[bin]]\nname = \"b\"\n";
    assert_eq!(edited("", &["table", "bin", "{ name = \"a\" }", "append", "bin", "{ name = \"b\" }"]), two);
    assert_eq!(edited(two, &["take", "bin", "{ name = \"b\" }"]), "[[bin]]\nname = \"a\"\n");
}

#[test]
fn removes_an_element_with_its_comment() {
    let text = "x = [\n  \"a\", # one\n  \"b\", # two\n]\n";
    assert_eq!(remove(text, "x.0", plain()).unwrap(), "x = [\n  \"b\", # two\n]\n");
    assert_eq!(remove(text, "x.1", plain()).unwrap(), "x = [\n  \"a\", # one\n]\n");
}

#[test]
fn formats() {
    let text = format("b  =  [ 1,2 ]   # two\n\n\n[ t ]\nc=1\n", plain()).unwrap();
    assert_eq!(text, "b = [1, 2] # two\n\n[t]\nc = 1\n");
    assert_eq!(format(&text, plain()).unwrap(), text);
    let exact = Options { exact: true, ..plain() };
    let text = format("a=[1,\r\n2]\r\n", exact).unwrap();
    assert_eq!(text, "a = [\r\n  1,\r\n  2,\r\n]\r\n");
    assert!(matches!(format("a = [", plain()), Err(Error::Refused(_))));
}
