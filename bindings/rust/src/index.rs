//! The index of a text: its items as a flat table.
use crate::{check, reason, sys, Error, Options};
use std::ops::Range;

/// What a node of an [`Index`] is.
#[derive(Clone, Copy, Debug, PartialEq, Eq)]
#[non_exhaustive]
pub enum Kind {
    Root,
    String,
    Integer,
    Float,
    Boolean,
    OffsetDatetime,
    LocalDatetime,
    LocalDate,
    LocalTime,
    Array,
    InlineTable,
    /// An inline table that came about by a dotted key in another one.
    DottedInlineTable,
    /// A table with a header of its own.
    Table,
    /// A table that came about by the header of one below it.
    ImplicitTable,
    /// A table that came about by a dotted key.
    DottedTable,
    ArrayOfTables,
}

const KINDS: [Kind; 16] = [
    Kind::Root,
    Kind::String,
    Kind::Integer,
    Kind::Float,
    Kind::Boolean,
    Kind::OffsetDatetime,
    Kind::LocalDatetime,
    Kind::LocalDate,
    Kind::LocalTime,
    Kind::Array,
    Kind::InlineTable,
    Kind::DottedInlineTable,
    Kind::Table,
    Kind::ImplicitTable,
    Kind::DottedTable,
    Kind::ArrayOfTables,
];

/// The nodes of a text, the root first, each before those below it.
#[derive(Clone, Debug)]
pub struct Index {
    nodes: Vec<sys::Node>,
    names: Vec<u8>,
}

impl Index {
    /// Reads a text.
    pub fn new(text: &str, options: Options) -> Result<Index, Error> {
        let mut names = vec![0; text.len()];
        let mut nodes = vec![sys::Node::default(); text.len() / 16 + 16];
        loop {
            // SAFETY: each pointer and its length are of a slice that is lent for the call, and none overlaps another.
            let answer = unsafe {
                let (flags, bytes, len) = (options.flags(), text.as_ptr(), text.len());
                sys::toml_edit_index(
                    flags,
                    bytes,
                    len,
                    nodes.as_mut_ptr(),
                    nodes.len(),
                    names.as_mut_ptr(),
                    names.len(),
                )
            };
            match answer.status {
                0 => {
                    nodes.truncate(answer.needed);
                    return Ok(Index { nodes, names });
                }
                1 => nodes.resize(answer.needed, sys::Node::default()),
                2 => return Err(check(text, options).expect_err("the text was refused")),
                status => return Err(reason(status)),
            }
        }
    }

    /// Returns the number of nodes, the root among them.
    #[allow(clippy::len_without_is_empty)]
    pub fn len(&self) -> usize {
        self.nodes.len()
    }

    /// Returns what a node is.
    pub fn kind(&self, node: usize) -> Kind {
        KINDS[self.nodes[node].kind]
    }

    /// Returns the node that holds one; that of the root is 0.
    pub fn parent(&self, node: usize) -> usize {
        self.nodes[node].parent
    }

    /// Returns the nodes right below one, in order.
    pub fn below(&self, node: usize) -> impl Iterator<Item = usize> + '_ {
        let end = self.nodes[node].next;
        let mut at = node + 1;
        std::iter::from_fn(move || {
            let here = at;
            at = self.nodes.get(here).map_or(end, |node| node.next);
            (here < end).then_some(here)
        })
    }

    /// Returns the name of a node's key, or `None` for an element and the root.
    pub fn name(&self, node: usize) -> Option<&str> {
        (self.nodes[node].key.end > 0).then(|| self.text(self.nodes[node].name))
    }

    /// Returns the characters of a string.
    pub fn content(&self, node: usize) -> Option<&str> {
        (self.kind(node) == Kind::String).then(|| self.text(self.nodes[node].content))
    }

    /// Returns the bytes of the text that have a node's key, as it is spelled.
    pub fn key(&self, node: usize) -> Range<usize> {
        range(self.nodes[node].key)
    }

    /// Returns the bytes that have a value as it is spelled, or a header with its brackets.
    pub fn span(&self, node: usize) -> Range<usize> {
        range(self.nodes[node].item)
    }

    /// Returns the bytes of white space and comments before a node.
    pub fn before(&self, node: usize) -> Range<usize> {
        range(self.nodes[node].before)
    }

    /// Returns the bytes of white space and the comment after a node.
    pub fn after(&self, node: usize) -> Range<usize> {
        range(self.nodes[node].after)
    }

    /// Returns the line and the column where a node begins, from 1, columns in characters.
    pub fn line_column(&self, node: usize) -> (usize, usize) {
        (self.nodes[node].line, self.nodes[node].column)
    }

    fn text(&self, span: sys::Span) -> &str {
        std::str::from_utf8(&self.names[range(span)]).expect("the library writes UTF-8")
    }
}

fn range(span: sys::Span) -> Range<usize> {
    span.start..span.end
}
