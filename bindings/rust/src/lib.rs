//! Reads and edits TOML documents, and keeps the comments, the spacing and the spelling of what is not changed.
//!
//! Each call takes a whole text and gives a new one. The work is done by a proved library in Rattle; this crate makes its calls safe.
//!
//! ```
//! use toml_edit_proved::{set, Options};
//!
//! let text = "[package]\nversion = \"1.0\"  # ours\n";
//! let text = set(text, "package.version", "\"2.0\"", Options::default())?;
//! assert_eq!(text, "[package]\nversion = \"2.0\"  # ours\n");
//! # Ok::<(), toml_edit_proved::Error>(())
//! ```
//!
//! A path has keys with dots between them, as TOML spells them. In an array, or in an array of tables, a key is the decimal number of an
//! element, from 0. A value is spelled as TOML spells it.
//!
//! [`DocumentMut`] is a tree with the names of the crate `toml_edit`, over an [`Index`] of the text; [what differs](differences).
//!
//! `toml_edit.h` says how much stack a call takes.
use std::fmt;

mod changes;
pub mod differences;
mod index;
mod tree;
mod value;

pub use index::{Index, Kind};
pub use tree::{array, table, value, Array, ArrayOfTables, DocumentMut, Entry, InlineTable, Item, Key, Place, Table};
pub use value::{Datetime, Decor, Formatted, Value};

/// Why a text is refused, by the crate's name.
pub type TomlError = Error;

mod sys {
    #[repr(C)]
    #[derive(Clone, Copy, Debug, Default)]
    pub struct Span {
        pub start: usize,
        pub end: usize,
    }

    #[repr(C)]
    #[derive(Clone, Copy, Debug, Default)]
    pub struct Node {
        pub kind: usize,
        pub parent: usize,
        pub next: usize,
        pub name: Span,
        pub content: Span,
        pub key: Span,
        pub item: Span,
        pub before: Span,
        pub after: Span,
        pub line: usize,
        pub column: usize,
    }

    #[repr(C)]
    pub struct Answer {
        pub status: u32,
        pub needed: usize,
    }

    #[repr(C)]
    #[derive(Default)]
    pub struct Place {
        pub start: usize,
        pub end: usize,
        pub line: usize,
        pub column: usize,
    }

    type Text = *const u8;
    type Room = *mut u8;

    unsafe extern "C" {
        pub fn toml_edit_print(_: u32, _: Text, _: usize, _: Room, _: usize) -> Answer;
        pub fn toml_edit_format(_: u32, _: Text, _: usize, _: Room, _: usize) -> Answer;
        pub fn toml_edit_get(_: u32, _: Text, _: usize, _: Text, _: usize, _: Room, _: usize) -> Answer;
        pub fn toml_edit_set(
            _: u32,
            _: Text,
            _: usize,
            _: Text,
            _: usize,
            _: Text,
            _: usize,
            _: Room,
            _: usize,
        ) -> Answer;
        pub fn toml_edit_json(_: u32, _: Text, _: usize, _: Text, _: usize, _: Room, _: usize) -> Answer;
        pub fn toml_edit_edit(_: u32, _: Text, _: usize, _: Text, _: usize, _: Room, _: usize) -> Answer;
        pub fn toml_edit_index(_: u32, _: Text, _: usize, _: *mut Node, _: usize, _: Room, _: usize) -> Answer;
        pub fn toml_edit_string(_: Text, _: usize, _: Room, _: usize) -> Answer;
        pub fn toml_edit_key(_: Text, _: usize, _: Room, _: usize) -> Answer;
        pub fn toml_edit_check(_: u32, _: Text, _: usize, _: &mut Place, _: Room, _: usize) -> Answer;
    }
}

/// How a text is read and printed.
#[derive(Clone, Copy, Debug, Default, PartialEq, Eq)]
pub struct Options {
    /// Keeps the line endings of the text, and prints no newline at the end if it has none.
    pub exact: bool,
    /// Reads the text and the value as TOML 1.0 instead of 1.1.
    pub toml_1_0: bool,
}

impl Options {
    fn flags(self) -> u32 {
        u32::from(self.exact) | u32::from(self.toml_1_0) << 1
    }
}

/// Why a text is refused: the message, and where in the text it is about something.
#[derive(Clone, Debug, PartialEq, Eq)]
pub struct Refusal {
    pub message: String,
    /// The bytes that the message is about.
    pub span: Option<std::ops::Range<usize>>,
    /// The line, from 1, and the column, from 1 and in characters.
    pub line_column: Option<(usize, usize)>,
}

impl fmt::Display for Refusal {
    fn fmt(&self, f: &mut fmt::Formatter<'_>) -> fmt::Result {
        match self.line_column {
            Some((line, column)) => write!(f, "line {line}, column {column}: {}", self.message),
            None => f.write_str(&self.message),
        }
    }
}

/// Why a call has no text.
#[derive(Clone, Debug, PartialEq, Eq)]
#[non_exhaustive]
pub enum Error {
    /// The text is not TOML.
    Refused(Refusal),
    /// The path is not valid.
    BadPath,
    /// The value is not valid.
    BadValue,
    /// Nothing is at the path.
    NoSuchPath,
    /// A table is at the path of a value to be set, or a scalar before its end.
    WrongKind,
    /// The changed document would not be valid.
    Unfit,
    /// A word has a NUL, or these words are not an edit.
    BadScript,
    /// No element of the array is equal.
    NoSuchElement,
    /// A key has the new name already.
    Taken,
    /// The comment has a control character.
    BadComment,
    OutOfMemory,
    /// An edit of [`edit`] is refused.
    Edit(RefusedEdit),
    /// A status of the library that this crate doesn't know.
    Status(u32),
}

/// The first edit that cannot be made, or whose words are not valid, and why.
#[derive(Clone, Debug, PartialEq, Eq)]
#[non_exhaustive]
pub struct RefusedEdit {
    /// The number of the edit, from 1.
    pub number: usize,
    /// Its word, as `set`.
    pub word: String,
    pub path: String,
    pub reason: Box<Error>,
}

impl RefusedEdit {
    fn new(script: &str, number: usize, reason: Error) -> RefusedEdit {
        let mut words = script.split('\0');
        for _ in 1..number {
            let operands = if matches!(words.next(), Some("section" | "remove" | "sort")) { 1 } else { 2 };
            words.nth(operands - 1);
        }
        let mut word = || words.next().unwrap_or_default().to_string();
        RefusedEdit { number, word: word(), path: word(), reason: Box::new(reason) }
    }
}

impl fmt::Display for RefusedEdit {
    fn fmt(&self, f: &mut fmt::Formatter<'_>) -> fmt::Result {
        write!(f, "edit {} ({} {}): {}", self.number, self.word, self.path, self.reason)
    }
}

impl fmt::Display for Error {
    fn fmt(&self, f: &mut fmt::Formatter<'_>) -> fmt::Result {
        match self {
            Error::Refused(refusal) => refusal.fmt(f),
            Error::BadPath => f.write_str("bad path"),
            Error::BadValue => f.write_str("bad value"),
            Error::NoSuchPath => f.write_str("no such path"),
            Error::WrongKind => f.write_str("wrong kind"),
            Error::Unfit => f.write_str("does not fit"),
            Error::BadScript => f.write_str("not an edit"),
            Error::NoSuchElement => f.write_str("no such element"),
            Error::Taken => f.write_str("the key is there already"),
            Error::BadComment => f.write_str("bad comment"),
            Error::OutOfMemory => f.write_str("out of memory"),
            Error::Edit(edit) => edit.fmt(f),
            Error::Status(status) => write!(f, "status {status}"),
        }
    }
}

impl std::error::Error for Error {}

/// Returns the print of a text.
pub fn print(text: &str, options: Options) -> Result<String, Error> {
    given(Call::Print, text, options)
}

/// Returns the text formatted by the usual rules: spaces, empty lines, indentation, and the lines of arrays and inline tables. Keys, values
/// and comments stay as they are, and in their order.
pub fn format(text: &str, options: Options) -> Result<String, Error> {
    given(Call::Format, text, options)
}

/// Returns the item at a path: a value as it is spelled and a newline, the lines of a table, or an array of tables as an array.
pub fn get(text: &str, path: &str, options: Options) -> Result<String, Error> {
    given(Call::Get(path), text, options)
}

/// Returns the text with a value at a path. Every other statement stays as [`print`] gives it.
pub fn set(text: &str, path: &str, value: &str, options: Options) -> Result<String, Error> {
    given(Call::Set(path, value), text, options)
}

/// Returns the text without the item at a path, an element of an array with its line and its comments. Every other statement stays as
/// [`print`] gives it.
pub fn remove(text: &str, path: &str, options: Options) -> Result<String, Error> {
    if path.contains('\0') {
        return Err(Error::BadPath);
    }
    given(Call::Remove(&format!("remove\0{path}\0")), text, options)
}

/// Returns the item at a path as JSON, on one line. The empty path leads to the whole document.
pub fn json(text: &str, path: &str, options: Options) -> Result<String, Error> {
    given(Call::Json(path), text, options)
}

/// Returns the text with edits, which are made one after another or not at all. The words are those of the edits, which `toml_edit.h` has.
///
/// ```
/// use toml_edit_proved::{edit, Error, Options};
///
/// let words = ["string", "c", "x", "comment", "a", "why", "sort", ""];
/// assert_eq!(edit("b = 2\na = 1\n", &words, Options::default())?, "a = 1 # why\nb = 2\nc = \"x\"\n");
/// let error = edit("a = 1\n", &["set", "b", "2", "remove", "nope"], Options::default()).unwrap_err();
/// assert_eq!(error.to_string(), "edit 2 (remove nope): no such path");
/// # Ok::<(), Error>(())
/// ```
pub fn edit(text: &str, words: &[&str], options: Options) -> Result<String, Error> {
    if words.iter().any(|word| word.contains('\0')) {
        return Err(Error::BadScript);
    }
    let script: String = words.iter().flat_map(|word| [*word, "\0"]).collect();
    given(Call::Edit(&script), text, options)
}

/// Checks a text, and returns why it is refused.
pub fn check(text: &str, options: Options) -> Result<(), Error> {
    let mut place = sys::Place::default();
    // SAFETY: as in `Call::made`; the place is one.
    let (answer, message) = asked(200, |room| unsafe {
        let (to, size) = (room.as_mut_ptr(), room.len());
        sys::toml_edit_check(options.flags(), text.as_ptr(), text.len(), &mut place, to, size)
    });
    match answer.status {
        0 => Ok(()),
        2 => {
            let is_some = place.line > 0;
            Err(Error::Refused(Refusal {
                message: String::from_utf8_lossy(&message).into_owned(),
                span: is_some.then_some(place.start..place.end),
                line_column: is_some.then_some((place.line, place.column)),
            }))
        }
        status => Err(reason(status)),
    }
}

/// A call on a text, with its other texts: those of `Remove` and `Edit` are scripts.
#[derive(Clone, Copy)]
enum Call<'a> {
    Print,
    Format,
    Get(&'a str),
    Set(&'a str, &'a str),
    Remove(&'a str),
    Json(&'a str),
    Edit(&'a str),
}

impl Call<'_> {
    /// Makes the call with this room.
    fn made(self, text: &str, options: Options, room: &mut [u8]) -> sys::Answer {
        let flags = options.flags();
        let (text, len) = (text.as_ptr(), text.len());
        let (to, size) = (room.as_mut_ptr(), room.len());
        // SAFETY: each pointer and its length are of a slice that is lent for the call, and the room overlaps no text.
        unsafe {
            match self {
                Call::Print => sys::toml_edit_print(flags, text, len, to, size),
                Call::Format => sys::toml_edit_format(flags, text, len, to, size),
                Call::Get(path) => sys::toml_edit_get(flags, text, len, path.as_ptr(), path.len(), to, size),
                Call::Set(path, value) => sys::toml_edit_set(
                    flags,
                    text,
                    len,
                    path.as_ptr(),
                    path.len(),
                    value.as_ptr(),
                    value.len(),
                    to,
                    size,
                ),
                Call::Json(path) => sys::toml_edit_json(flags, text, len, path.as_ptr(), path.len(), to, size),
                Call::Remove(script) | Call::Edit(script) => {
                    sys::toml_edit_edit(flags, text, len, script.as_ptr(), script.len(), to, size)
                }
            }
        }
    }

    /// Returns how many bytes the text may have that it gives.
    fn guess(self, text: &str) -> usize {
        match self {
            Call::Print | Call::Remove(_) => text.len(),
            Call::Format => text.len() + text.len() / 8,
            Call::Get(_) => 64,
            Call::Set(path, value) => text.len() + path.len() + value.len() + 16,
            Call::Json(_) => 2 * text.len() + 16,
            Call::Edit(script) => text.len() + script.len() + 16,
        }
    }
}

/// Returns the text that a call gives.
fn given(call: Call, text: &str, options: Options) -> Result<String, Error> {
    let (answer, made) = asked(call.guess(text), |room| call.made(text, options, room));
    match answer.status {
        0 => Ok(String::from_utf8(made).expect("the library writes UTF-8")),
        2 => Err(check(text, options).expect_err("the text was refused")),
        status => match call {
            Call::Edit(script) if answer.needed > 0 => {
                Err(Error::Edit(RefusedEdit::new(script, answer.needed, reason(status))))
            }
            _ => Err(reason(status)),
        },
    }
}

/// Returns the error of a status.
fn reason(status: u32) -> Error {
    match status {
        4 => Error::BadPath,
        5 => Error::BadValue,
        6 => Error::NoSuchPath,
        7 => Error::WrongKind,
        8 => Error::Unfit,
        9 => Error::OutOfMemory,
        11 => Error::BadScript,
        12 => Error::NoSuchElement,
        13 => Error::Taken,
        14 => Error::BadComment,
        _ => Error::Status(status),
    }
}

/// Returns the default spelling of a string.
pub fn spelled_string(text: &str) -> String {
    // SAFETY: as in `Call::made`.
    spelled(text, |room| unsafe { sys::toml_edit_string(text.as_ptr(), text.len(), room.as_mut_ptr(), room.len()) })
}

/// Returns the default spelling of a key, bare where it can be.
pub fn spelled_key(name: &str) -> String {
    // SAFETY: as in `Call::made`.
    spelled(name, |room| unsafe { sys::toml_edit_key(name.as_ptr(), name.len(), room.as_mut_ptr(), room.len()) })
}

fn spelled(text: &str, call: impl FnMut(&mut [u8]) -> sys::Answer) -> String {
    let (answer, made) = asked(text.len() + 2, call);
    assert_eq!(answer.status, 0, "out of memory");
    String::from_utf8(made).expect("the library writes UTF-8")
}

/// Makes a call with as much room as it needs, and returns its answer and the text that it gives.
fn asked(guess: usize, mut call: impl FnMut(&mut [u8]) -> sys::Answer) -> (sys::Answer, Vec<u8>) {
    let mut room = vec![0; guess];
    let mut answer = call(&mut room);
    // Only up to status 2 it is a number of bytes.
    if answer.status <= 2 && answer.needed > room.len() {
        room.resize(answer.needed, 0);
        answer = call(&mut room);
    }
    room.truncate(answer.needed);
    (answer, room)
}

/// The page of the bindings, whose session is a test.
#[cfg(doctest)]
#[doc = include_str!("../../README.md")]
struct Page;
