//! A document as a tree, by the names of the crate `toml_edit`. It is read by one call, and what was changed in it is written by a script of
//! edits, so that all else stays as it was.
// What `into_value` and the like return is as in the crate.
#![allow(clippy::result_large_err)]
use crate::changes::{changes, with_prefixes};
use crate::index::{Index as Nodes, Kind};
use crate::value::{Datetime, Decor, Formatted, Value};
use crate::{edit, spelled_key, Error, Options};
use std::fmt;
use std::ops::{Deref, DerefMut, Index, IndexMut};
use std::str::FromStr;
use std::sync::atomic::{AtomicU64, Ordering};

/// The document that an item was read in, and its node there.
pub(crate) type Origin = (u64, usize);

/// What a table has under a key.
#[derive(Clone, Debug, Default)]
pub enum Item {
    /// Nothing. It is not printed.
    #[default]
    None,
    Value(Value),
    Table(Table),
    ArrayOfTables(ArrayOfTables),
}

/// A table: keys and items, in order.
#[derive(Clone, Debug, Default)]
pub struct Table {
    pub(crate) items: Vec<(Key, Item)>,
    pub(crate) decor: Decor,
    pub(crate) origin: Option<Origin>,
    pub(crate) implicit: bool,
    /// Whether the keys have to be sorted in the text.
    pub(crate) sorted: bool,
}

/// A key of a table: its name, and what is before it.
#[derive(Clone, Debug, PartialEq, Eq)]
pub struct Key {
    name: String,
    pub(crate) decor: Decor,
}

impl Key {
    /// Makes a key of this name.
    pub fn new(name: impl Into<String>) -> Key {
        Key { name: name.into(), decor: Decor::default() }
    }

    /// Returns the name.
    pub fn get(&self) -> &str {
        &self.name
    }

    /// Returns what is before the key on lines of its own.
    pub fn leaf_decor(&self) -> &Decor {
        &self.decor
    }

    /// Returns what is before the key on lines of its own, to be changed.
    pub fn leaf_decor_mut(&mut self) -> &mut Decor {
        &mut self.decor
    }
}

impl Deref for Key {
    type Target = str;

    fn deref(&self) -> &str {
        &self.name
    }
}

/// A table between braces, whose items are values.
#[derive(Clone, Debug, Default)]
pub struct InlineTable {
    pub(crate) table: Table,
}

/// An array of values.
#[derive(Clone, Debug, Default)]
pub struct Array {
    pub(crate) values: Vec<Item>,
    pub(crate) decor: Decor,
    pub(crate) origin: Option<Origin>,
}

/// An array of tables, each with a header.
#[derive(Clone, Debug, Default)]
pub struct ArrayOfTables {
    pub(crate) tables: Vec<Item>,
}

/// Makes an item of a value.
pub fn value<V: Into<Value>>(given: V) -> Item {
    Item::Value(given.into())
}

/// Makes an empty table.
pub fn table() -> Item {
    Item::Table(Table::new())
}

/// Makes an empty array of tables.
pub fn array() -> Item {
    Item::ArrayOfTables(ArrayOfTables::new())
}

impl Item {
    pub fn is_none(&self) -> bool {
        matches!(self, Item::None)
    }

    pub fn as_value(&self) -> Option<&Value> {
        if let Item::Value(it) = self {
            Some(it)
        } else {
            None
        }
    }

    pub fn as_value_mut(&mut self) -> Option<&mut Value> {
        if let Item::Value(it) = self {
            Some(it)
        } else {
            None
        }
    }

    pub fn into_value(self) -> Result<Value, Item> {
        match self {
            Item::Value(it) => Ok(it),
            other => Err(other),
        }
    }

    pub fn into_table(self) -> Result<Table, Item> {
        match self {
            Item::Table(it) => Ok(it),
            Item::Value(Value::InlineTable(it)) => Ok(it.into_table()),
            other => Err(other),
        }
    }

    pub fn into_array_of_tables(self) -> Result<ArrayOfTables, Item> {
        match self {
            Item::ArrayOfTables(it) => Ok(it),
            other => Err(other),
        }
    }

    /// Returns the item, where the given one is put if there is none.
    pub fn or_insert(&mut self, item: Item) -> &mut Item {
        if self.is_none() {
            *self = item;
        }
        self
    }

    pub fn as_table(&self) -> Option<&Table> {
        if let Item::Table(it) = self {
            Some(it)
        } else {
            None
        }
    }

    pub fn as_table_mut(&mut self) -> Option<&mut Table> {
        if let Item::Table(it) = self {
            Some(it)
        } else {
            None
        }
    }

    pub fn as_array_of_tables(&self) -> Option<&ArrayOfTables> {
        if let Item::ArrayOfTables(it) = self {
            Some(it)
        } else {
            None
        }
    }

    pub fn as_array_of_tables_mut(&mut self) -> Option<&mut ArrayOfTables> {
        if let Item::ArrayOfTables(it) = self {
            Some(it)
        } else {
            None
        }
    }

    /// Returns a table or an inline table.
    pub fn as_table_like(&self) -> Option<&Table> {
        match self {
            Item::Table(it) => Some(it),
            Item::Value(Value::InlineTable(it)) => Some(&it.table),
            _ => None,
        }
    }

    /// Returns a table or an inline table, to be changed.
    pub fn as_table_like_mut(&mut self) -> Option<&mut Table> {
        match self {
            Item::Table(it) => Some(it),
            Item::Value(Value::InlineTable(it)) => Some(&mut it.table),
            _ => None,
        }
    }

    pub fn as_str(&self) -> Option<&str> {
        self.as_value()?.as_str()
    }

    pub fn as_integer(&self) -> Option<i64> {
        self.as_value()?.as_integer()
    }

    pub fn as_float(&self) -> Option<f64> {
        self.as_value()?.as_float()
    }

    pub fn as_bool(&self) -> Option<bool> {
        self.as_value()?.as_bool()
    }

    pub fn as_datetime(&self) -> Option<&Datetime> {
        self.as_value()?.as_datetime()
    }

    pub fn as_array(&self) -> Option<&Array> {
        self.as_value()?.as_array()
    }

    pub fn as_array_mut(&mut self) -> Option<&mut Array> {
        self.as_value_mut()?.as_array_mut()
    }

    pub fn as_inline_table(&self) -> Option<&InlineTable> {
        self.as_value()?.as_inline_table()
    }

    pub fn as_inline_table_mut(&mut self) -> Option<&mut InlineTable> {
        self.as_value_mut()?.as_inline_table_mut()
    }

    pub fn is_value(&self) -> bool {
        self.as_value().is_some()
    }

    pub fn is_table(&self) -> bool {
        self.as_table().is_some()
    }

    pub fn is_array_of_tables(&self) -> bool {
        self.as_array_of_tables().is_some()
    }

    pub fn is_table_like(&self) -> bool {
        self.as_table_like().is_some()
    }

    pub fn is_str(&self) -> bool {
        self.as_str().is_some()
    }

    pub fn is_integer(&self) -> bool {
        self.as_integer().is_some()
    }

    pub fn is_float(&self) -> bool {
        self.as_float().is_some()
    }

    pub fn is_bool(&self) -> bool {
        self.as_bool().is_some()
    }

    pub fn is_datetime(&self) -> bool {
        self.as_datetime().is_some()
    }

    pub fn is_array(&self) -> bool {
        self.as_array().is_some()
    }

    pub fn is_inline_table(&self) -> bool {
        self.as_inline_table().is_some()
    }

    /// Returns the name of its type, as `string`.
    pub fn type_name(&self) -> &'static str {
        match self {
            Item::None => "none",
            Item::Value(it) => it.type_name(),
            Item::Table(_) => "table",
            Item::ArrayOfTables(_) => "array of tables",
        }
    }

    /// Returns the item under a key, or the element at a place.
    pub fn get<I: Place>(&self, place: I) -> Option<&Item> {
        place.find(self)
    }

    /// Returns the item under a key, or the element at a place, to be changed.
    pub fn get_mut<I: Place>(&mut self, place: I) -> Option<&mut Item> {
        place.find_mut(self)
    }

    fn read(text: &str, nodes: &Nodes, document: u64, at: usize) -> Item {
        match nodes.kind(at) {
            Kind::ArrayOfTables => Item::ArrayOfTables(ArrayOfTables {
                tables: nodes.below(at).map(|it| Item::Table(Table::read(text, nodes, document, it))).collect(),
            }),
            Kind::Root | Kind::Table | Kind::ImplicitTable | Kind::DottedTable => {
                Item::Table(Table::read(text, nodes, document, at))
            }
            _ => Item::Value(read_value(text, nodes, document, at)),
        }
    }
}

fn read_value(text: &str, nodes: &Nodes, document: u64, at: usize) -> Value {
    let spelled = &text[nodes.span(at)];
    let (mut decor, origin) = (read_decor(text, nodes, at), (document, at));
    if nodes.name(at).is_some() {
        // A value has what follows its equals sign, which a table of dotted keys lacks.
        let between = text.get(nodes.key(at).end..nodes.span(at).start).and_then(|it| it.split_once('='));
        decor.prefix = between.map(|(_, space)| space.to_string());
    }
    match nodes.kind(at) {
        Kind::String => {
            let content = nodes.content(at).unwrap_or_default().to_string();
            Value::String(Formatted::read(content, spelled, decor, origin))
        }
        Kind::Integer => Value::Integer(Formatted::read(integer(spelled), spelled, decor, origin)),
        Kind::Float => {
            let value = spelled.replace('_', "").parse().unwrap_or(f64::NAN);
            Value::Float(Formatted::read(value, spelled, decor, origin))
        }
        Kind::Boolean => Value::Boolean(Formatted::read(spelled == "true", spelled, decor, origin)),
        Kind::Array => Value::Array(Array {
            values: nodes.below(at).map(|it| Item::Value(read_value(text, nodes, document, it))).collect(),
            decor,
            origin: Some(origin),
        }),
        Kind::InlineTable | Kind::DottedInlineTable => {
            Value::InlineTable(InlineTable { table: Table::read(text, nodes, document, at) })
        }
        _ => Value::Datetime(Formatted::read(Datetime::read(spelled), spelled, decor, origin)),
    }
}

fn read_decor(text: &str, nodes: &Nodes, at: usize) -> Decor {
    let (prefix, suffix) = (&text[nodes.before(at)], &text[nodes.after(at)]);
    Decor { prefix: Some(prefix.to_string()), suffix: Some(suffix.to_string()), is_changed: false }
}

fn integer(spelled: &str) -> i64 {
    let digits = spelled.replace('_', "");
    let radix = match digits.get(..2) {
        Some("0x") => 16,
        Some("0o") => 8,
        Some("0b") => 2,
        _ => return digits.parse().unwrap_or_default(),
    };
    i64::from_str_radix(&digits[2..], radix).unwrap_or_default()
}

impl<V: Into<Value>> From<V> for Item {
    fn from(given: V) -> Item {
        value(given)
    }
}

impl From<Table> for Item {
    fn from(given: Table) -> Item {
        Item::Table(given)
    }
}

impl From<ArrayOfTables> for Item {
    fn from(given: ArrayOfTables) -> Item {
        Item::ArrayOfTables(given)
    }
}

impl Table {
    /// Makes an empty table.
    pub fn new() -> Table {
        Table::default()
    }

    fn read(text: &str, nodes: &Nodes, document: u64, at: usize) -> Table {
        let below = nodes.below(at).map(|it| {
            let name = nodes.name(it).unwrap_or_default().to_string();
            (Key { name, decor: read_decor(text, nodes, it) }, Item::read(text, nodes, document, it))
        });
        Table {
            items: below.collect(),
            sorted: false,
            decor: read_decor(text, nodes, at),
            origin: Some((document, at)),
            implicit: nodes.kind(at) == Kind::ImplicitTable,
        }
    }

    fn place(&self, key: &str) -> Option<usize> {
        self.items.iter().position(|(name, _)| name.get() == key)
    }

    /// Returns the item under a key.
    pub fn get(&self, key: &str) -> Option<&Item> {
        let (_, item) = &self.items[self.place(key)?];
        (!item.is_none()).then_some(item)
    }

    /// Returns the item under a key, to be changed.
    pub fn get_mut(&mut self, key: &str) -> Option<&mut Item> {
        let at = self.place(key)?;
        let (_, item) = &mut self.items[at];
        (!item.is_none()).then_some(item)
    }

    /// Puts an item under a key, and returns the one that was there.
    pub fn insert(&mut self, key: &str, item: impl Into<Item>) -> Option<Item> {
        let old = std::mem::replace(self.item_mut(key), item.into());
        (!old.is_none()).then_some(old)
    }

    /// Removes a key, and returns its item.
    pub fn remove(&mut self, key: &str) -> Option<Item> {
        let at = self.place(key)?;
        let (_, item) = self.items.remove(at);
        (!item.is_none()).then_some(item)
    }

    pub fn contains_key(&self, key: &str) -> bool {
        self.get(key).is_some()
    }

    pub fn contains_table(&self, key: &str) -> bool {
        self.get(key).is_some_and(Item::is_table)
    }

    pub fn contains_value(&self, key: &str) -> bool {
        self.get(key).is_some_and(Item::is_value)
    }

    pub fn contains_array_of_tables(&self, key: &str) -> bool {
        self.get(key).is_some_and(Item::is_array_of_tables)
    }

    pub fn len(&self) -> usize {
        self.iter().count()
    }

    pub fn is_empty(&self) -> bool {
        self.len() == 0
    }

    pub fn clear(&mut self) {
        self.items.clear();
    }

    /// Returns the names of the keys and their items, in order.
    pub fn iter(&self) -> impl Iterator<Item = (&str, &Item)> {
        self.items.iter().filter(|(_, item)| !item.is_none()).map(|(name, item)| (name.get(), item))
    }

    /// Returns the names of the keys and their items, in order, to be changed.
    pub fn iter_mut(&mut self) -> impl Iterator<Item = (&str, &mut Item)> {
        self.items.iter_mut().filter(|(_, item)| !item.is_none()).map(|(name, item)| (name.get(), item))
    }

    /// Keeps the keys for which this is `true`.
    pub fn retain(&mut self, mut keep: impl FnMut(&str, &mut Item) -> bool) {
        self.items.retain_mut(|(name, item)| keep(name, item));
    }

    /// Returns the place of a key, whether it is there or not.
    pub fn entry(&mut self, key: &str) -> Entry<'_> {
        if self.contains_key(key) {
            Entry::Occupied(self.item_mut(key))
        } else {
            Entry::Vacant(self.item_mut(key))
        }
    }

    /// Returns a key, and what is before it.
    pub fn key(&self, key: &str) -> Option<&Key> {
        self.items.iter().find(|(name, item)| name.get() == key && !item.is_none()).map(|(name, _)| name)
    }

    /// Returns a key, to change what is before it.
    pub fn key_mut(&mut self, key: &str) -> Option<&mut Key> {
        self.items.iter_mut().find(|(name, item)| name.get() == key && !item.is_none()).map(|(name, _)| name)
    }

    /// Sorts the keys by their names.
    pub fn sort_values(&mut self) {
        self.items.sort_by(|(one, _), (other, _)| one.get().cmp(other.get()));
        self.sorted = true;
    }

    /// Sets whether the header is left out where the table has no lines.
    pub fn set_implicit(&mut self, implicit: bool) {
        self.implicit = implicit;
    }

    pub fn is_implicit(&self) -> bool {
        self.implicit
    }

    /// Returns the decor of the header.
    pub fn decor(&self) -> &Decor {
        &self.decor
    }

    /// Returns the decor of the header, to be changed.
    pub fn decor_mut(&mut self) -> &mut Decor {
        &mut self.decor
    }

    fn item_mut(&mut self, key: &str) -> &mut Item {
        let at = self.place(key).unwrap_or_else(|| {
            self.items.push((Key::new(key), Item::None));
            self.items.len() - 1
        });
        &mut self.items[at].1
    }
}

impl<K: Into<String>, V: Into<Item>> Extend<(K, V)> for Table {
    fn extend<I: IntoIterator<Item = (K, V)>>(&mut self, items: I) {
        for (key, item) in items {
            self.insert(&key.into(), item);
        }
    }
}

impl<K: Into<String>, V: Into<Item>> FromIterator<(K, V)> for Table {
    fn from_iter<I: IntoIterator<Item = (K, V)>>(items: I) -> Table {
        let mut made = Table::new();
        made.extend(items);
        made
    }
}

impl<'a> IntoIterator for &'a Table {
    type Item = (&'a str, &'a Item);
    type IntoIter = Box<dyn Iterator<Item = Self::Item> + 'a>;

    fn into_iter(self) -> Self::IntoIter {
        Box::new(self.iter())
    }
}

/// The place of a key in a table.
pub enum Entry<'a> {
    Occupied(&'a mut Item),
    Vacant(&'a mut Item),
}

impl<'a> Entry<'a> {
    /// Returns the item, where the given one is put if there is none.
    pub fn or_insert(self, item: impl Into<Item>) -> &'a mut Item {
        self.or_insert_with(|| item.into())
    }

    /// Returns the item, where the one that is made is put if there is none.
    pub fn or_insert_with(self, make: impl FnOnce() -> Item) -> &'a mut Item {
        match self {
            Entry::Occupied(item) => item,
            Entry::Vacant(item) => {
                *item = make();
                item
            }
        }
    }
}

impl InlineTable {
    /// Makes an empty inline table.
    pub fn new() -> InlineTable {
        InlineTable::default()
    }

    pub fn get(&self, key: &str) -> Option<&Value> {
        self.table.get(key)?.as_value()
    }

    pub fn get_mut(&mut self, key: &str) -> Option<&mut Value> {
        self.table.get_mut(key)?.as_value_mut()
    }

    pub fn insert(&mut self, key: &str, given: impl Into<Value>) -> Option<Value> {
        self.table.insert(key, value(given))?.into_value().ok()
    }

    pub fn remove(&mut self, key: &str) -> Option<Value> {
        self.table.remove(key)?.into_value().ok()
    }

    pub fn contains_key(&self, key: &str) -> bool {
        self.table.contains_key(key)
    }

    pub fn len(&self) -> usize {
        self.table.len()
    }

    pub fn is_empty(&self) -> bool {
        self.table.is_empty()
    }

    pub fn clear(&mut self) {
        self.table.clear();
    }

    pub fn iter(&self) -> impl Iterator<Item = (&str, &Value)> {
        self.table.iter().filter_map(|(name, item)| Some((name, item.as_value()?)))
    }

    pub fn iter_mut(&mut self) -> impl Iterator<Item = (&str, &mut Value)> {
        self.table.iter_mut().filter_map(|(name, item)| Some((name, item.as_value_mut()?)))
    }

    /// Returns the value under a key, where the given one is put if there is none.
    pub fn get_or_insert(&mut self, key: &str, given: impl Into<Value>) -> &mut Value {
        self.table.item_mut(key).or_insert(value(given)).as_value_mut().expect("inline tables have values")
    }

    /// Gives the table the default spaces.
    pub fn fmt(&mut self) {
        self.table.origin = None;
    }

    /// Returns the pairs as a table with a header.
    pub fn into_table(self) -> Table {
        Table { origin: None, decor: Decor::default(), ..self.table }
    }
}

impl<V: Into<Value>, K: Into<String>> FromIterator<(K, V)> for InlineTable {
    fn from_iter<I: IntoIterator<Item = (K, V)>>(values: I) -> InlineTable {
        InlineTable { table: values.into_iter().map(|(key, given)| (key, value(given))).collect() }
    }
}

/// Writes the inline table without its decor.
impl fmt::Display for InlineTable {
    fn fmt(&self, f: &mut fmt::Formatter<'_>) -> fmt::Result {
        if self.is_empty() {
            return f.write_str("{}");
        }
        for (at, (name, value)) in self.iter().enumerate() {
            write!(f, "{} {} = {value}", if at == 0 { "{" } else { "," }, spelled_key(name))?;
        }
        f.write_str(" }")
    }
}

impl Array {
    /// Makes an empty array.
    pub fn new() -> Array {
        Array::default()
    }

    pub fn len(&self) -> usize {
        self.values.len()
    }

    pub fn is_empty(&self) -> bool {
        self.values.is_empty()
    }

    pub fn get(&self, at: usize) -> Option<&Value> {
        self.values.get(at)?.as_value()
    }

    pub fn get_mut(&mut self, at: usize) -> Option<&mut Value> {
        self.values.get_mut(at)?.as_value_mut()
    }

    pub fn push(&mut self, given: impl Into<Value>) {
        self.values.push(value(given));
    }

    /// Inserts a value. Panics if the place is beyond the end.
    pub fn insert(&mut self, at: usize, given: impl Into<Value>) {
        self.values.insert(at, value(given));
    }

    /// Puts a value in the place of another one. Panics if none is there.
    pub fn replace(&mut self, at: usize, given: impl Into<Value>) -> Value {
        std::mem::replace(&mut self.values[at], value(given)).into_value().expect("arrays have values")
    }

    /// Removes a value. Panics if none is there.
    pub fn remove(&mut self, at: usize) -> Value {
        self.values.remove(at).into_value().expect("arrays have values")
    }

    pub fn clear(&mut self) {
        self.values.clear();
    }

    /// Keeps the values for which this is `true`.
    pub fn retain(&mut self, mut keep: impl FnMut(&Value) -> bool) {
        self.values.retain(|item| item.as_value().is_some_and(&mut keep));
    }

    pub fn iter(&self) -> impl Iterator<Item = &Value> {
        self.values.iter().filter_map(Item::as_value)
    }

    pub fn iter_mut(&mut self) -> impl Iterator<Item = &mut Value> {
        self.values.iter_mut().filter_map(Item::as_value_mut)
    }

    /// Gives the array the default spaces, on one line.
    pub fn fmt(&mut self) {
        self.origin = None;
    }
}

impl<'a> IntoIterator for &'a Array {
    type Item = &'a Value;
    type IntoIter = Box<dyn Iterator<Item = &'a Value> + 'a>;

    fn into_iter(self) -> Self::IntoIter {
        Box::new(self.iter())
    }
}

impl<V: Into<Value>> Extend<V> for Array {
    fn extend<I: IntoIterator<Item = V>>(&mut self, values: I) {
        self.values.extend(values.into_iter().map(value));
    }
}

impl<V: Into<Value>> FromIterator<V> for Array {
    fn from_iter<I: IntoIterator<Item = V>>(values: I) -> Array {
        Array { values: values.into_iter().map(value).collect(), ..Array::default() }
    }
}

/// Writes the array without its decor, on one line.
impl fmt::Display for Array {
    fn fmt(&self, f: &mut fmt::Formatter<'_>) -> fmt::Result {
        f.write_str("[")?;
        for (at, value) in self.iter().enumerate() {
            write!(f, "{}{value}", if at == 0 { "" } else { ", " })?;
        }
        f.write_str("]")
    }
}

impl ArrayOfTables {
    /// Makes an empty array of tables.
    pub fn new() -> ArrayOfTables {
        ArrayOfTables::default()
    }

    pub fn len(&self) -> usize {
        self.tables.len()
    }

    pub fn is_empty(&self) -> bool {
        self.tables.is_empty()
    }

    pub fn get(&self, at: usize) -> Option<&Table> {
        self.tables.get(at)?.as_table()
    }

    pub fn get_mut(&mut self, at: usize) -> Option<&mut Table> {
        self.tables.get_mut(at)?.as_table_mut()
    }

    pub fn push(&mut self, table: Table) {
        self.tables.push(Item::Table(table));
    }

    /// Removes a table. Panics if none is there.
    pub fn remove(&mut self, at: usize) -> Table {
        self.tables.remove(at).into_table().expect("arrays of tables have tables")
    }

    pub fn clear(&mut self) {
        self.tables.clear();
    }

    /// Keeps the tables for which this is `true`.
    pub fn retain(&mut self, mut keep: impl FnMut(&Table) -> bool) {
        self.tables.retain(|item| item.as_table().is_some_and(&mut keep));
    }

    pub fn iter(&self) -> impl Iterator<Item = &Table> {
        self.tables.iter().filter_map(Item::as_table)
    }

    pub fn iter_mut(&mut self) -> impl Iterator<Item = &mut Table> {
        self.tables.iter_mut().filter_map(Item::as_table_mut)
    }
}

impl<'a> IntoIterator for &'a ArrayOfTables {
    type Item = &'a Table;
    type IntoIter = Box<dyn Iterator<Item = &'a Table> + 'a>;

    fn into_iter(self) -> Self::IntoIter {
        Box::new(self.iter())
    }
}

impl Extend<Table> for ArrayOfTables {
    fn extend<I: IntoIterator<Item = Table>>(&mut self, tables: I) {
        self.tables.extend(tables.into_iter().map(Item::Table));
    }
}

impl FromIterator<Table> for ArrayOfTables {
    fn from_iter<I: IntoIterator<Item = Table>>(tables: I) -> ArrayOfTables {
        ArrayOfTables { tables: tables.into_iter().map(Item::Table).collect() }
    }
}

/// A key of a table, or the place of an element of an array or an array of tables.
pub trait Place {
    #[doc(hidden)]
    fn find<'a>(&self, item: &'a Item) -> Option<&'a Item>;
    #[doc(hidden)]
    fn find_mut<'a>(&self, item: &'a mut Item) -> Option<&'a mut Item>;
    #[doc(hidden)]
    fn find_or_make<'a>(&self, item: &'a mut Item) -> Option<&'a mut Item>;
}

impl Place for str {
    fn find<'a>(&self, item: &'a Item) -> Option<&'a Item> {
        item.as_table_like()?.get(self)
    }

    fn find_mut<'a>(&self, item: &'a mut Item) -> Option<&'a mut Item> {
        item.as_table_like_mut()?.get_mut(self)
    }

    fn find_or_make<'a>(&self, item: &'a mut Item) -> Option<&'a mut Item> {
        if item.is_none() {
            *item = Item::Value(Value::InlineTable(InlineTable::new()));
        }
        Some(item.as_table_like_mut()?.item_mut(self))
    }
}

impl Place for usize {
    fn find<'a>(&self, item: &'a Item) -> Option<&'a Item> {
        match item {
            Item::ArrayOfTables(it) => it.tables.get(*self),
            _ => item.as_array()?.values.get(*self),
        }
    }

    fn find_mut<'a>(&self, item: &'a mut Item) -> Option<&'a mut Item> {
        match item {
            Item::ArrayOfTables(it) => it.tables.get_mut(*self),
            _ => item.as_array_mut()?.values.get_mut(*self),
        }
    }

    fn find_or_make<'a>(&self, item: &'a mut Item) -> Option<&'a mut Item> {
        self.find_mut(item)
    }
}

impl Place for String {
    fn find<'a>(&self, item: &'a Item) -> Option<&'a Item> {
        Place::find(self.as_str(), item)
    }

    fn find_mut<'a>(&self, item: &'a mut Item) -> Option<&'a mut Item> {
        Place::find_mut(self.as_str(), item)
    }

    fn find_or_make<'a>(&self, item: &'a mut Item) -> Option<&'a mut Item> {
        Place::find_or_make(self.as_str(), item)
    }
}

impl<P: Place + ?Sized> Place for &P {
    fn find<'a>(&self, item: &'a Item) -> Option<&'a Item> {
        (**self).find(item)
    }

    fn find_mut<'a>(&self, item: &'a mut Item) -> Option<&'a mut Item> {
        (**self).find_mut(item)
    }

    fn find_or_make<'a>(&self, item: &'a mut Item) -> Option<&'a mut Item> {
        (**self).find_or_make(item)
    }
}

/// Panics if nothing is there.
impl<P: Place> Index<P> for Item {
    type Output = Item;

    fn index(&self, place: P) -> &Item {
        place.find(self).expect("an item is there")
    }
}

/// Makes the key, with `Item::None`, if it is not there. Panics if the item is no table.
impl<P: Place> IndexMut<P> for Item {
    fn index_mut(&mut self, place: P) -> &mut Item {
        place.find_or_make(self).expect("a table is there")
    }
}

/// Panics if nothing is there.
impl Index<&str> for Table {
    type Output = Item;

    fn index(&self, key: &str) -> &Item {
        self.get(key).expect("an item is there")
    }
}

/// Makes the key, with `Item::None`, if it is not there.
impl IndexMut<&str> for Table {
    fn index_mut(&mut self, key: &str) -> &mut Item {
        self.item_mut(key)
    }
}

/// Panics if nothing is there.
impl Index<usize> for ArrayOfTables {
    type Output = Table;

    fn index(&self, at: usize) -> &Table {
        self.get(at).expect("a table is there")
    }
}

/// Panics if nothing is there.
impl IndexMut<usize> for ArrayOfTables {
    fn index_mut(&mut self, at: usize) -> &mut Table {
        self.get_mut(at).expect("a table is there")
    }
}

/// A document that can be changed.
///
/// ```
/// use toml_edit_proved::{value, DocumentMut};
///
/// let mut document: DocumentMut = "[package]\nversion = \"1.0\"  # ours\n".parse()?;
/// document["package"]["version"] = value("2.0");
/// document["package"]["edition"] = value("2024");
/// assert_eq!(document.to_string(), "[package]\nversion = \"2.0\"  # ours\nedition = \"2024\"\n");
/// # Ok::<(), toml_edit_proved::Error>(())
/// ```
#[derive(Clone, Debug)]
pub struct DocumentMut {
    text: String,
    options: Options,
    nodes: Nodes,
    number: u64,
    root: Table,
}

static NUMBERS: AtomicU64 = AtomicU64::new(0);

impl DocumentMut {
    /// Makes an empty document.
    pub fn new() -> DocumentMut {
        DocumentMut::with_options("", Options::default()).expect("the empty text is read")
    }

    /// Reads a text by options.
    pub fn with_options(text: &str, options: Options) -> Result<DocumentMut, Error> {
        let nodes = Nodes::new(text, options)?;
        let number = NUMBERS.fetch_add(1, Ordering::Relaxed);
        let root = Table::read(text, &nodes, number, 0);
        Ok(DocumentMut { text: text.to_string(), options, nodes, number, root })
    }

    /// Returns the text with what was changed, or why there is none.
    pub fn print(&self) -> Result<String, Error> {
        let words = changes(&self.text, &self.nodes, self.number, &self.root);
        let words: Vec<&str> = words.iter().map(String::as_str).collect();
        let text = edit(&self.text, &words, self.options)?;
        with_prefixes(text, &self.root, self.options)
    }

    pub fn as_table(&self) -> &Table {
        &self.root
    }

    pub fn as_table_mut(&mut self) -> &mut Table {
        &mut self.root
    }
}

impl Default for DocumentMut {
    fn default() -> DocumentMut {
        DocumentMut::new()
    }
}

impl FromStr for DocumentMut {
    type Err = Error;

    fn from_str(text: &str) -> Result<DocumentMut, Error> {
        DocumentMut::with_options(text, Options::default())
    }
}

/// Writes the text with what was changed. Fails where [`DocumentMut::print`] does.
impl fmt::Display for DocumentMut {
    fn fmt(&self, f: &mut fmt::Formatter<'_>) -> fmt::Result {
        f.write_str(&self.print().map_err(|_| fmt::Error)?)
    }
}

impl Deref for DocumentMut {
    type Target = Table;

    fn deref(&self) -> &Table {
        &self.root
    }
}

impl DerefMut for DocumentMut {
    fn deref_mut(&mut self) -> &mut Table {
        &mut self.root
    }
}
