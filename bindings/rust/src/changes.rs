//! The edits that lead from a text to a changed tree.
use crate::index::{Index, Kind};
use crate::tree::{Array, ArrayOfTables, Item, Table};
use crate::value::{Decor, Value};
use crate::{print, spelled_key, Error, Options};
use std::ops::Range;

/// What was read, and the words of the edits.
struct Changes<'a> {
    text: &'a str,
    nodes: &'a Index,
    document: u64,
    words: Vec<String>,
}

/// Returns the words of the edits that make this root table of what was read.
pub(crate) fn changes(text: &str, nodes: &Index, document: u64, root: &Table) -> Vec<String> {
    let mut made = Changes { text, nodes, document, words: Vec::new() };
    made.table("", 0, root);
    made.words
}

fn join(path: &str, key: &str) -> String {
    if path.is_empty() {
        key.to_string()
    } else {
        format!("{path}.{key}")
    }
}

impl Changes<'_> {
    fn put(&mut self, words: &[&str]) {
        self.words.extend(words.iter().map(|word| word.to_string()));
    }

    /// Whether a value is the one that was read at a node.
    fn is_kept(&self, value: &Value, node: usize) -> bool {
        value.origin() == Some((self.document, node))
    }

    fn table(&mut self, path: &str, node: usize, table: &Table) {
        let old: Vec<usize> = self.nodes.below(node).collect();
        for at in &old {
            let name = self.nodes.name(*at).unwrap_or_default();
            if !table.contains_key(name) {
                let gone = join(path, &spelled_key(name));
                self.put(&["remove", &gone]);
            }
        }
        for (name, item) in table.iter() {
            let there = join(path, &spelled_key(name));
            match old.iter().find(|at| self.nodes.name(**at) == Some(name)) {
                Some(at) => self.item(&there, *at, item),
                None => self.add(&there, item, "set"),
            }
        }
        if table.sorted {
            self.put(&["sort", path]);
        }
    }

    fn item(&mut self, path: &str, node: usize, item: &Item) {
        match (item, self.nodes.kind(node)) {
            (Item::Table(table), Kind::Table | Kind::ImplicitTable | Kind::DottedTable) => {
                self.table(path, node, table);
                self.comment(path, node, &table.decor);
            }
            (Item::ArrayOfTables(tables), Kind::ArrayOfTables) => self.tables(path, node, tables),
            (Item::Value(value), kind) if !is_table(kind) => self.value(path, node, value),
            _ => {
                self.put(&["remove", path]);
                self.add(path, item, "set");
            }
        }
    }

    /// Sets the comment after a value or a header, if it is another one.
    fn comment(&mut self, path: &str, node: usize, decor: &Decor) {
        let old = self.text[self.nodes.after(node)].trim();
        if decor.suffix.is_some() && decor.comment() != old && !self.is_inside(node) {
            self.put(&["comment", path, decor.comment()]);
        }
    }

    fn value(&mut self, path: &str, node: usize, value: &Value) {
        match (value, self.nodes.kind(node)) {
            (Value::Array(array), Kind::Array) if self.is_kept(value, node) => self.array(path, node, array),
            (Value::InlineTable(inline), Kind::InlineTable | Kind::DottedInlineTable) if self.is_kept(value, node) => {
                self.table(path, node, &inline.table)
            }
            _ if self.is_kept(value, node) => {}
            _ => self.put(&["set", path, &value.to_string()]),
        }
        self.comment(path, node, value.decor());
    }

    /// Whether a node is inside a value, where no comment ends a line.
    fn is_inside(&self, node: usize) -> bool {
        matches!(self.nodes.kind(self.nodes.parent(node)), Kind::Array | Kind::InlineTable | Kind::DottedInlineTable)
    }

    fn array(&mut self, path: &str, node: usize, array: &Array) {
        let old: Vec<usize> = self.nodes.below(node).collect();
        let kept: Vec<Option<usize>> =
            array.iter().map(|value| old.iter().position(|at| self.is_kept(value, *at))).collect();
        let places: Vec<usize> = kept.iter().copied().flatten().collect();
        if places.windows(2).any(|two| two[0] >= two[1]) {
            return self.put(&["set", path, &array.to_string()]);
        }
        if places.is_empty() && array.len() == old.len() {
            for (at, value) in array.iter().enumerate() {
                self.put(&["set", &join(path, &at.to_string()), &value.to_string()]);
            }
            return;
        }
        for at in (0..old.len()).rev().filter(|at| !places.contains(at)) {
            self.put(&["remove", &join(path, &at.to_string())]);
        }
        let mut count = places.len();
        for (at, value) in array.iter().enumerate() {
            let there = join(path, &at.to_string());
            match kept[at] {
                Some(place) => self.value(&there, old[place], value),
                None if at == count => self.put(&["append", path, &value.to_string()]),
                None => self.put(&["insert", &there, &value.to_string()]),
            }
            count += usize::from(kept[at].is_none());
        }
    }

    fn tables(&mut self, path: &str, node: usize, tables: &ArrayOfTables) {
        let old: Vec<usize> = self.nodes.below(node).collect();
        let kept: Vec<Option<usize>> =
            tables.iter().map(|table| old.iter().position(|at| table.origin == Some((self.document, *at)))).collect();
        let places: Vec<usize> = kept.iter().copied().flatten().collect();
        if places.windows(2).any(|two| two[0] >= two[1]) || places.is_empty() {
            self.put(&["remove", path]);
            return self.add_tables(path, tables);
        }
        for at in (0..old.len()).rev().filter(|at| !places.contains(at)) {
            self.put(&["remove", &join(path, &at.to_string())]);
        }
        let mut count = places.len();
        for (at, table) in tables.iter().enumerate() {
            let there = join(path, &at.to_string());
            match kept[at] {
                Some(place) => self.table(&there, old[place], table),
                None => {
                    let (word, to) = if at == count { ("append", path) } else { ("insert", there.as_str()) };
                    self.put(&[word, to, &pairs(table)]);
                    self.add_headers(&there, table);
                    count += 1;
                }
            }
        }
    }

    /// Adds an item where none is: values by this word, and those of new tables below headers.
    fn add(&mut self, path: &str, item: &Item, word: &str) {
        match item {
            Item::None => {}
            Item::Value(value) => {
                self.put(&[word, path, &value.to_string()]);
                if !value.decor().comment().is_empty() {
                    self.put(&["comment", path, value.decor().comment()]);
                }
            }
            Item::Table(table) => {
                if table.iter().all(|(_, item)| !item.is_value()) && !table.implicit {
                    // A key that comes and goes leaves the header.
                    let key = join(path, "_");
                    self.put(&["header", &key, "0", "remove", &key]);
                }
                for (name, item) in table.iter().filter(|(_, item)| item.is_value()) {
                    self.add(&join(path, &spelled_key(name)), item, "header");
                }
                self.add_headers(path, table);
                if !table.decor.comment().is_empty() {
                    self.put(&["comment", path, table.decor.comment()]);
                }
            }
            Item::ArrayOfTables(tables) => self.add_tables(path, tables),
        }
    }

    fn add_tables(&mut self, path: &str, tables: &ArrayOfTables) {
        for (at, table) in tables.iter().enumerate() {
            self.put(&["table", path, &pairs(table)]);
            self.add_headers(&join(path, &at.to_string()), table);
        }
    }

    fn add_headers(&mut self, path: &str, table: &Table) {
        for (name, item) in table.iter().filter(|(_, item)| !item.is_value()) {
            self.add(&join(path, &spelled_key(name)), item, "header");
        }
    }
}

/// Returns the text with what was set to be before keys and headers.
pub(crate) fn with_prefixes(text: String, root: &Table, options: Options) -> Result<String, Error> {
    if !has_prefixes(root) {
        return Ok(text);
    }
    let mut found = Vec::new();
    find_prefixes(&Index::new(&text, options)?, 0, root, &mut found);
    found.sort_by_key(|(place, _)| std::cmp::Reverse(place.start));
    let mut made = text;
    for (place, prefix) in found {
        made.replace_range(place, prefix);
    }
    print(&made, options)
}

fn has_prefixes(table: &Table) -> bool {
    table.decor.is_changed
        || table.items.iter().any(|(key, item)| match item {
            Item::Table(it) => has_prefixes(it),
            Item::ArrayOfTables(it) => it.iter().any(has_prefixes),
            _ => key.decor.is_changed,
        })
}

type Prefixes<'a> = Vec<(Range<usize>, &'a str)>;

/// Finds where what is before keys and headers has to be put into the text of an index.
fn find_prefixes<'a>(nodes: &Index, node: usize, table: &'a Table, found: &mut Prefixes<'a>) {
    if table.decor.is_changed && nodes.kind(node) == Kind::Table {
        found.push((place_before(nodes, node, nodes.span(node)), table.decor.prefix().unwrap_or_default()));
    }
    for at in nodes.below(node) {
        let Some((key, item)) = table.items.iter().find(|(key, _)| Some(key.get()) == nodes.name(at)) else {
            continue;
        };
        match item {
            Item::Table(it) => find_prefixes(nodes, at, it, found),
            Item::ArrayOfTables(it) => {
                nodes.below(at).zip(it.iter()).for_each(|(at, it)| find_prefixes(nodes, at, it, found));
            }
            _ if key.decor.is_changed => {
                found.push((place_before(nodes, at, nodes.key(at)), key.decor.prefix().unwrap_or_default()));
            }
            _ => {}
        }
    }
}

/// Returns the bytes of what is before a node, which begins with these bytes.
fn place_before(nodes: &Index, node: usize, own: Range<usize>) -> Range<usize> {
    let before = nodes.before(node);
    if before.is_empty() {
        own.start..own.start
    } else {
        before
    }
}

fn is_table(kind: Kind) -> bool {
    matches!(kind, Kind::Table | Kind::ImplicitTable | Kind::DottedTable | Kind::ArrayOfTables)
}

/// Returns the values of a table as the text of an inline table.
fn pairs(table: &Table) -> String {
    let values = table.iter().filter_map(|(name, item)| Some(format!("{} = {}", spelled_key(name), item.as_value()?)));
    format!("{{ {} }}", values.collect::<Vec<String>>().join(", "))
}
