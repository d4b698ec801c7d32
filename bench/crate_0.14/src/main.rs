//! Reads a document from the standard input and prints it, by version 0.14 of the crate `toml_edit`.
use std::io::{Read, Write};

fn main() {
    let mut text = String::new();
    std::io::stdin().read_to_string(&mut text).unwrap();
    let document: toml_edit::Document = text.parse().unwrap();
    std::io::stdout().write_all(document.to_string().as_bytes()).unwrap();
    // `tomled` does not free its document either.
    std::mem::forget(document);
}
