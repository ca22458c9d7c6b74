//! Runs every comparison and says whether nothing differed.

use oracle::{
    angle, append, attribute, column, convert, convert_plain, file, findings, flags, format,
    header, keys, listings, migrate, nir, point, reclassify, replay, replay_append,
    replay_attribute, replay_column, replay_findings, replay_keys, replay_migrate,
    replay_reclassify, replay_records, replay_sheet, report::Tally, sheet, strict, vlr,
};
use std::{env, fs, io, path::Path, process::ExitCode};

/// What there is to compare, by the name that it is asked for by.
const SUBJECTS: [&str; 20] = [
    "format",
    "flags",
    "angle",
    "point",
    "vlr",
    "header",
    "file",
    "column",
    "attribute",
    "sheet",
    "keys",
    "findings",
    "append",
    "reclassify",
    "strict",
    "convert",
    "migrate",
    "nir",
    "plain",
    "lists",
];

/// Compares the subjects that are asked for, or everything where none is. `crates` is where the programs lie that replay the lists.
fn compare(crates: &Path, write: bool, asked: &[String]) -> io::Result<bool> {
    let mut tally = Tally::default();
    let about = |subject: &str| asked.is_empty() || asked.iter().any(|word| word == subject);
    for (subject, compare) in [
        ("format", format::compare as fn(&mut Tally)),
        ("flags", flags::compare),
        ("angle", angle::compare),
        ("point", point::compare),
        ("vlr", vlr::compare),
        ("header", header::compare),
        ("file", file::compare),
        ("column", column::compare),
        ("attribute", attribute::compare),
        ("sheet", sheet::compare),
        ("keys", keys::compare),
        ("findings", findings::compare),
        ("append", append::compare),
        ("reclassify", reclassify::compare),
        ("strict", strict::compare),
        ("convert", convert::compare),
        ("migrate", migrate::compare),
        ("nir", nir::compare),
    ] {
        if about(subject) {
            compare(&mut tally);
        }
    }
    if about("plain") {
        convert_plain::compare(&mut tally, &crates.join("../docs/DIFFERENCES.md"))?;
    }
    if about("lists") {
        replay::compare(&mut tally, &crates.join("replay"), write)?;
        replay_records::compare(&mut tally, &crates.join("replay_records"), write)?;
        listings::compare(&mut tally, &crates.join("listings"), write)?;
        replay_column::compare(&mut tally, &crates.join("../c/replay_column"), write)?;
        replay_attribute::compare(&mut tally, &crates.join("../c/replay_attribute"), write)?;
        replay_sheet::compare(&mut tally, &crates.join("../c/replay_sheet"), write)?;
        replay_keys::compare(&mut tally, &crates.join("../c/replay_keys"), write)?;
        replay_findings::compare(&mut tally, &crates.join("../c/replay_findings"), write)?;
        replay_append::compare(&mut tally, &crates.join("../c/replay"), write)?;
        replay_migrate::compare(&mut tally, &crates.join("../c/replay_migrate"), write)?;
        replay_reclassify::compare(&mut tally, &crates.join("../c/replay_reclassify"), write)?;
    }
    if asked.is_empty() {
        tally.covers(&fs::read_to_string(crates.join("../include/inscjarol.h"))?);
    } else {
        println!("only of {}", asked.join(", "));
    }
    Ok(tally.agreed())
}

fn main() -> ExitCode {
    let mut words: Vec<String> = env::args().skip(1).collect();
    let write = words.iter().any(|word| word == "--write-replay");
    words.retain(|word| word != "--write-replay");
    let unknown = words
        .iter()
        .skip(1)
        .find(|word| !SUBJECTS.contains(&word.as_str()));
    let (Some(crates), None) = (words.first(), unknown) else {
        eprintln!(
            "usage: oracle CRATES [--write-replay] [SUBJECT..], of {}",
            SUBJECTS.join(", ")
        );
        return ExitCode::from(2);
    };
    match compare(Path::new(crates), write, &words[1..]) {
        Ok(true) => ExitCode::SUCCESS,
        Ok(false) => ExitCode::FAILURE,
        Err(error) => {
            eprintln!("oracle: {crates}: {error}");
            ExitCode::FAILURE
        }
    }
}
