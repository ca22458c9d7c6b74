//! What inscjarol-sys declares of the library's calls is what the library's sources export, all of it.

use std::{collections::BTreeMap, fs, path::Path};

/// The types of a call's parameters and of its answer, as C sees them.
type Types = Vec<String>;

/// The calls of a text, by name: every `fn las_..` up to the end of its answer's type.
fn calls(text: &str) -> BTreeMap<String, Types> {
    let mut calls = BTreeMap::new();
    for piece in text.split("fn las_").skip(1) {
        let (name, rest) = piece.split_once('(').unwrap();
        let (parameters, rest) = rest.split_once(')').unwrap();
        let end = rest.find(';').unwrap_or(rest.len());
        let answer = rest[..end].trim().strip_prefix("-> ").unwrap_or("()");
        // A semicolon stands in arrays and no comma does, so commas part parameters.
        let mut types: Types = parameters
            .split(',')
            .filter_map(|parameter| parameter.split_once(':'))
            .map(|(_, of)| of.trim().to_string())
            .collect();
        types.push(String::from("->"));
        types.push(answer.to_string());
        calls.insert(format!("las_{name}"), types);
    }
    calls
}

/// A type of the library's language as a Rust program has to declare it: a slice is a pointer and a length, and a bool that
/// comes back is the byte that carries it.
fn declared(types: Types) -> Types {
    let answers = types.iter().position(|of| of == "->").unwrap();
    let declared = types.iter().enumerate().flat_map(|(place, of)| {
        let words: &[&str] = match of.as_str() {
            "&[u8]" => &["*const u8", "usize"],
            "&mut [u8]" => &["*mut u8", "usize"],
            "&[u16]" => &["*const u16", "usize"],
            "&mut [u64]" => &["*mut u64", "usize"],
            "&mut [i32]" => &["*mut i32", "usize"],
            "&mut [u16]" => &["*mut u16", "usize"],
            "&mut [f64]" => &["*mut f64", "usize"],
            "bool" if place > answers => &["u8"],
            other => return vec![other.to_string()],
        };
        words.iter().map(|word| word.to_string()).collect()
    });
    declared.collect()
}

#[test]
fn declarations_are_those_of_the_sources() {
    let here = Path::new(env!("CARGO_MANIFEST_DIR"));
    let mut exported = BTreeMap::new();
    for folder in fs::read_dir(here.join("../crates")).unwrap() {
        let source = folder.unwrap().path().join("src/lib.rt");
        let text = fs::read_to_string(source).unwrap_or_default();
        for piece in text.split("pub extern \"C\" ").skip(1) {
            let head = piece.split("ensures").next().unwrap_or_default();
            exported.extend(
                calls(head)
                    .into_iter()
                    .map(|(name, types)| (name, declared(types))),
            );
        }
    }
    assert!(exported.len() > 40);

    let sys = fs::read_to_string(here.join("sys/src/lib.rs")).unwrap();
    let ours: BTreeMap<String, Types> = ["\ntotal! {", "\nmod lent {", "\ncolumns! {"]
        .iter()
        .flat_map(|begin| {
            let (_, block) = sys.split_once(begin).unwrap();
            let (block, _) = block.split_once("\n}\n").unwrap();
            calls(block)
        })
        .collect();
    // The names that the file gives to arrays.
    let aliases: Vec<(String, String)> = sys
        .lines()
        .filter_map(|line| {
            line.split_once("type ")?
                .1
                .strip_suffix(';')?
                .split_once(" = ")
        })
        .map(|(name, of)| (name.to_string(), of.to_string()))
        .collect();
    assert_eq!(aliases.len(), 10);
    assert!(ours.keys().eq(exported.keys()));
    for (name, types) in ours {
        let types: Types = types
            .into_iter()
            .map(|of| {
                let alias = aliases.iter().find(|(alias, _)| {
                    of.ends_with(&format!(" {alias}")) || of == format!("&{alias}")
                });
                alias.map_or(of.clone(), |(alias, array)| of.replace(alias, array))
            })
            .collect();
        assert_eq!(Some(&types), exported.get(&name), "{name}");
    }
}
