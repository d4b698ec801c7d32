//! # What differs from the crate `toml_edit`
//!
//! A program that reads a document, sets, adds and removes values, tables and elements, and writes it changes only its `use` lines. Below, what it has to know.
//!
//! | In `toml_edit` | Here |
//! |---|---|
//! | `parse::<DocumentMut>()` fails with `TomlError` | an [`Error`](crate::Error), of which `TomlError` is another name |
//! | `to_string()` always writes | panics where the changed tree has no text, such as one that is too deep: [`print`](crate::DocumentMut::print) returns the error |
//! | `Table::insert` takes any item | the same, and what can be made an item |
//! | `iter` gives `&str` and `&Item`, `iter_mut` `KeyMut` | `iter_mut` gives `&str` |
//! | `Key` with its spelling, `get_key_value`, `key_mut` gives `KeyMut` | `key` and `key_mut` give a [`Key`](crate::Key): a name and its `leaf_decor`; a new key has the default spelling |
//! | `Decor::set_prefix` | puts comments and empty lines before a key or a header; of a value and an element it does nothing |
//! | `Decor::set_suffix` | sets the comment behind a value or a header; white space stays |
//! | `Table::set_dotted`, `set_position`, `fmt` | none; [`format`](crate::format) is a formatter |
//! | `Array::push_formatted`, `set_trailing_comma`, `set_trailing` | none: a new element stands as the others do; `Array::fmt` puts all on one line |
//! | `Datetime` with fields | a spelling |
//! | `ImDocument`, `Document`, spans | [`Index`](crate::Index): kinds, spans, lines and columns |
//! | `visit`, `visit_mut`, `ser`, `de` | none |
//!
//! # What is there
//!
//! | Type | Calls |
//! |---|---|
//! | `DocumentMut` | `new`, `parse`, `to_string`, `as_table`, `as_table_mut`, and those of its root table |
//! | `Table` | `new`, `get`, `get_mut`, `[..]`, `insert`, `remove`, `contains_key`, `contains_table`, `contains_value`, `contains_array_of_tables`, `iter`, `iter_mut`, `len`, `is_empty`, `clear`, `retain`, `entry` with `or_insert` and `or_insert_with`, `key`, `key_mut`, `sort_values`, `set_implicit`, `is_implicit`, `decor`, `decor_mut`, `extend`, `collect` |
//! | `Item` | `[..]` by keys and numbers, `get`, `get_mut`, `as_..`, `as_.._mut`, `is_..`, `into_value`, `into_table`, `into_array_of_tables`, `or_insert`, `type_name`; made by `value`, `table`, `array` |
//! | `Value`, `Formatted` | `from`, `parse`, `to_string`, `as_..`, `is_..`, `decor`, `decor_mut`, `type_name`, `value`, `into_value`, `as_repr` |
//! | `Array` | `new`, `push`, `insert`, `replace`, `remove`, `get`, `get_mut`, `iter`, `iter_mut`, `len`, `is_empty`, `clear`, `retain`, `fmt`, `extend`, `collect` |
//! | `InlineTable` | `new`, `get`, `get_mut`, `insert`, `get_or_insert`, `remove`, `contains_key`, `iter`, `iter_mut`, `len`, `is_empty`, `clear`, `fmt`, `into_table`, `collect` |
//! | `ArrayOfTables` | `new`, `push`, `get`, `get_mut`, `[..]`, `remove`, `iter`, `iter_mut`, `len`, `is_empty`, `clear`, `retain`, `extend`, `collect` |
