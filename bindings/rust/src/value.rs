//! Values, with their spellings and decors.
use crate::tree::{InlineTable, Item, Origin};
use crate::{spelled_string, Array};
use std::fmt;
use std::str::FromStr;

/// The white space and the comments before and after an item.
#[derive(Clone, Debug, Default, PartialEq, Eq)]
pub struct Decor {
    pub(crate) prefix: Option<String>,
    pub(crate) suffix: Option<String>,
    /// Whether what is before was set.
    pub(crate) is_changed: bool,
}

impl Decor {
    /// Makes what is before and after.
    pub fn new(prefix: impl Into<String>, suffix: impl Into<String>) -> Decor {
        Decor { prefix: Some(prefix.into()), suffix: Some(suffix.into()), is_changed: true }
    }

    /// Sets what is before a key or a header: comments and empty lines.
    pub fn set_prefix(&mut self, prefix: impl Into<String>) {
        self.prefix = Some(prefix.into());
        self.is_changed = true;
    }

    /// Returns what is before.
    pub fn prefix(&self) -> Option<&str> {
        self.prefix.as_deref()
    }

    /// Returns what is after, on the line.
    pub fn suffix(&self) -> Option<&str> {
        self.suffix.as_deref()
    }

    /// Sets what is after: white space, or a comment.
    pub fn set_suffix(&mut self, suffix: impl Into<String>) {
        self.suffix = Some(suffix.into());
    }

    /// Returns the comment after, with its `#`, or nothing.
    pub(crate) fn comment(&self) -> &str {
        self.suffix.as_deref().unwrap_or_default().trim()
    }
}

/// A scalar with its spelling.
#[derive(Clone, Debug)]
pub struct Formatted<T> {
    value: T,
    pub(crate) spelled: Option<String>,
    pub(crate) decor: Decor,
    pub(crate) origin: Option<Origin>,
}

impl<T> Formatted<T> {
    /// Makes a scalar with the default spelling.
    pub fn new(value: T) -> Formatted<T> {
        Formatted { value, spelled: None, decor: Decor::default(), origin: None }
    }

    pub(crate) fn read(value: T, spelled: &str, decor: Decor, origin: Origin) -> Formatted<T> {
        Formatted { value, spelled: Some(spelled.to_string()), decor, origin: Some(origin) }
    }

    /// Returns the value.
    pub fn value(&self) -> &T {
        &self.value
    }

    /// Returns the value, and drops the rest.
    pub fn into_value(self) -> T {
        self.value
    }

    /// Returns how the value is spelled in the document that was read.
    pub fn as_repr(&self) -> Option<&str> {
        self.spelled.as_deref()
    }

    /// Returns the decor.
    pub fn decor(&self) -> &Decor {
        &self.decor
    }

    /// Returns the decor, to be changed.
    pub fn decor_mut(&mut self) -> &mut Decor {
        &mut self.decor
    }
}

/// A date, a time or both, as it is spelled.
#[derive(Clone, Debug, PartialEq, Eq)]
pub struct Datetime(String);

impl Datetime {
    pub(crate) fn read(spelled: &str) -> Datetime {
        Datetime(spelled.to_string())
    }
}

impl fmt::Display for Datetime {
    fn fmt(&self, f: &mut fmt::Formatter<'_>) -> fmt::Result {
        f.write_str(&self.0)
    }
}

impl FromStr for Datetime {
    type Err = crate::Error;

    fn from_str(text: &str) -> Result<Datetime, crate::Error> {
        match text.parse::<Value>()? {
            Value::Datetime(read) => Ok(read.into_value()),
            _ => Err(crate::Error::BadValue),
        }
    }
}

/// A value: a scalar, an array or an inline table.
#[derive(Clone, Debug)]
pub enum Value {
    String(Formatted<String>),
    Integer(Formatted<i64>),
    Float(Formatted<f64>),
    Boolean(Formatted<bool>),
    Datetime(Formatted<Datetime>),
    Array(Array),
    InlineTable(InlineTable),
}

impl Value {
    /// Returns the name of its type, as `string`.
    pub fn type_name(&self) -> &'static str {
        match self {
            Value::String(_) => "string",
            Value::Integer(_) => "integer",
            Value::Float(_) => "float",
            Value::Boolean(_) => "boolean",
            Value::Datetime(_) => "datetime",
            Value::Array(_) => "array",
            Value::InlineTable(_) => "inline table",
        }
    }

    pub fn as_str(&self) -> Option<&str> {
        if let Value::String(it) = self {
            Some(it.value())
        } else {
            None
        }
    }

    pub fn as_integer(&self) -> Option<i64> {
        if let Value::Integer(it) = self {
            Some(*it.value())
        } else {
            None
        }
    }

    pub fn as_float(&self) -> Option<f64> {
        if let Value::Float(it) = self {
            Some(*it.value())
        } else {
            None
        }
    }

    pub fn as_bool(&self) -> Option<bool> {
        if let Value::Boolean(it) = self {
            Some(*it.value())
        } else {
            None
        }
    }

    pub fn as_datetime(&self) -> Option<&Datetime> {
        if let Value::Datetime(it) = self {
            Some(it.value())
        } else {
            None
        }
    }

    pub fn as_array(&self) -> Option<&Array> {
        if let Value::Array(it) = self {
            Some(it)
        } else {
            None
        }
    }

    pub fn as_array_mut(&mut self) -> Option<&mut Array> {
        if let Value::Array(it) = self {
            Some(it)
        } else {
            None
        }
    }

    pub fn as_inline_table(&self) -> Option<&InlineTable> {
        if let Value::InlineTable(it) = self {
            Some(it)
        } else {
            None
        }
    }

    pub fn as_inline_table_mut(&mut self) -> Option<&mut InlineTable> {
        if let Value::InlineTable(it) = self {
            Some(it)
        } else {
            None
        }
    }

    pub fn is_str(&self) -> bool {
        self.as_str().is_some()
    }

    pub fn is_integer(&self) -> bool {
        self.as_integer().is_some()
    }

    pub fn is_float(&self) -> bool {
        self.as_float().is_some()
    }

    pub fn is_bool(&self) -> bool {
        self.as_bool().is_some()
    }

    pub fn is_datetime(&self) -> bool {
        self.as_datetime().is_some()
    }

    pub fn is_array(&self) -> bool {
        self.as_array().is_some()
    }

    pub fn is_inline_table(&self) -> bool {
        self.as_inline_table().is_some()
    }

    /// Returns the decor.
    pub fn decor(&self) -> &Decor {
        match self {
            Value::String(it) => &it.decor,
            Value::Integer(it) => &it.decor,
            Value::Float(it) => &it.decor,
            Value::Boolean(it) => &it.decor,
            Value::Datetime(it) => &it.decor,
            Value::Array(it) => &it.decor,
            Value::InlineTable(it) => &it.table.decor,
        }
    }

    /// Returns the decor, to be changed.
    pub fn decor_mut(&mut self) -> &mut Decor {
        match self {
            Value::String(it) => &mut it.decor,
            Value::Integer(it) => &mut it.decor,
            Value::Float(it) => &mut it.decor,
            Value::Boolean(it) => &mut it.decor,
            Value::Datetime(it) => &mut it.decor,
            Value::Array(it) => &mut it.decor,
            Value::InlineTable(it) => &mut it.table.decor,
        }
    }

    pub(crate) fn origin(&self) -> Option<Origin> {
        match self {
            Value::String(it) => it.origin,
            Value::Integer(it) => it.origin,
            Value::Float(it) => it.origin,
            Value::Boolean(it) => it.origin,
            Value::Datetime(it) => it.origin,
            Value::Array(it) => it.origin,
            Value::InlineTable(it) => it.table.origin,
        }
    }
}

/// Writes the value without its decor.
impl fmt::Display for Value {
    fn fmt(&self, f: &mut fmt::Formatter<'_>) -> fmt::Result {
        match self {
            Value::String(it) => match &it.spelled {
                Some(spelled) => f.write_str(spelled),
                None => f.write_str(&spelled_string(it.value())),
            },
            Value::Integer(it) => spelled(f, &it.spelled, it.value()),
            Value::Float(it) => match &it.spelled {
                Some(spelled) => f.write_str(spelled),
                None => write_float(f, *it.value()),
            },
            Value::Boolean(it) => spelled(f, &it.spelled, it.value()),
            Value::Datetime(it) => it.value().fmt(f),
            Value::Array(it) => it.fmt(f),
            Value::InlineTable(it) => it.fmt(f),
        }
    }
}

fn spelled(f: &mut fmt::Formatter<'_>, own: &Option<String>, value: &impl fmt::Display) -> fmt::Result {
    match own {
        Some(spelled) => f.write_str(spelled),
        None => value.fmt(f),
    }
}

fn write_float(f: &mut fmt::Formatter<'_>, value: f64) -> fmt::Result {
    if value.is_nan() {
        f.write_str("nan")
    } else if value.is_infinite() {
        f.write_str(if value > 0.0 { "inf" } else { "-inf" })
    } else {
        write!(f, "{value:?}")
    }
}

/// Reads a value, as TOML spells it.
impl FromStr for Value {
    type Err = crate::Error;

    fn from_str(text: &str) -> Result<Value, crate::Error> {
        let made = crate::set("", "_", text, crate::Options { exact: true, ..Default::default() })?;
        let mut document: crate::DocumentMut = made.parse()?;
        match document.remove("_") {
            Some(Item::Value(value)) => Ok(value),
            _ => Err(crate::Error::BadValue),
        }
    }
}

macro_rules! from {
    ($($from:ty => $kind:ident, $make:expr;)*) => {
        $(impl From<$from> for Value {
            fn from(given: $from) -> Value {
                #[allow(clippy::redundant_closure_call)]
                Value::$kind(Formatted::new(($make)(given)))
            }
        })*
    };
}

from! {
    &str => String, |it: &str| it.to_string();
    &String => String, |it: &String| it.clone();
    String => String, |it| it;
    i64 => Integer, |it| it;
    f64 => Float, |it| it;
    bool => Boolean, |it| it;
    Datetime => Datetime, |it| it;
}

impl From<Array> for Value {
    fn from(given: Array) -> Value {
        Value::Array(given)
    }
}

impl From<InlineTable> for Value {
    fn from(given: InlineTable) -> Value {
        Value::InlineTable(given)
    }
}

impl<V: Into<Value>> FromIterator<V> for Value {
    fn from_iter<I: IntoIterator<Item = V>>(values: I) -> Value {
        Value::Array(values.into_iter().collect())
    }
}
