//! What the README shows of Rust is what there is: the examples, which are compiled with the tests.

mod common;

use common::repository;
use std::fs;

/// The pieces of code of a language.
fn fenced<'a>(text: &'a str, language: &str) -> Vec<&'a str> {
    let open = format!("```{language}\n");
    let pieces = text.split(open.as_str()).skip(1);
    pieces
        .filter_map(|piece| piece.split("```").next())
        .collect()
}

#[test]
fn its_rust_is_the_examples() {
    let readme = fs::read_to_string(repository().join("README.md")).unwrap();
    let example =
        |name: &str| fs::read_to_string(repository().join("rust/examples").join(name)).unwrap();
    let examples = [example("heights.rs"), example("scanner.rs")];
    assert_eq!(fenced(&readme, "rust"), examples);
}
