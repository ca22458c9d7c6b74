//! What `inscjarol help json` says of `--json` is what `--json` prints: every field that is printed is told, with its type and
//! in its place, and every field that is told is printed.

#[path = "../../tests/common/mod.rs"]
mod common;

use common::{plain, rich, sample, two_points, waveforms, Folder};
use inscjarol::{DataType, Descriptor, Header, NewFile, Version};
use std::{
    collections::{BTreeMap, BTreeSet},
    fs,
    path::Path,
    process::Command,
};

fn tool() -> Command {
    Command::new(env!("CARGO_BIN_EXE_inscjarol"))
}

/// The fields of an object, as they are told or printed: each with its types.
type Fields = Vec<(String, BTreeSet<String>)>;

/// What is told: the fields under each heading.
fn told() -> BTreeMap<String, Fields> {
    let output = tool().args(["help", "json"]).output().unwrap();
    let text = String::from_utf8(output.stdout).unwrap();
    let mut objects = BTreeMap::new();
    let mut heading = String::new();
    for line in text.lines().skip_while(|line| !line.ends_with(':')) {
        match line.strip_prefix("  ") {
            None => heading = line.to_string(),
            Some(line) => {
                let (name, rest) = line.split_at(26);
                let types = rest.get(..16).unwrap_or(rest).trim().split(" or ");
                let field = (name.trim().to_string(), types.map(String::from).collect());
                let fields: &mut Fields = objects.entry(heading.clone()).or_default();
                fields.push(field);
            }
        }
    }
    objects
}

/// Reads a value and notes its fields; answers the rest.
fn read<'t>(text: &'t str, path: &str, fields: &mut Fields) -> &'t str {
    let mut note = |of: &str| match fields.iter_mut().find(|(name, _)| name == path) {
        Some((_, types)) => {
            types.insert(of.to_string());
        }
        None => fields.push((path.to_string(), [of.to_string()].into())),
    };
    match text.chars().next().unwrap() {
        '"' => {
            note("text");
            quoted(text).1
        }
        '{' => {
            let mut rest = &text[1..];
            while !rest.starts_with('}') {
                let (name, after) = quoted(rest);
                let at = match path {
                    "" => name.to_string(),
                    path => format!("{path}.{name}"),
                };
                rest = read(after.strip_prefix(':').unwrap(), &at, fields);
                rest = rest.strip_prefix(',').unwrap_or(rest);
            }
            &rest[1..]
        }
        '[' => {
            let mut rest = &text[1..];
            while !rest.starts_with(']') {
                rest = read(rest, &format!("{path}[]"), fields);
                rest = rest.strip_prefix(',').unwrap_or(rest);
            }
            &rest[1..]
        }
        _ => {
            let end = text.find([',', ']', '}']).unwrap();
            match &text[..end] {
                word @ ("true" | "false" | "null") => note(word),
                number => {
                    assert!(number.parse::<f64>().unwrap().is_finite());
                    note("number");
                }
            }
            &text[end..]
        }
    }
}

/// A text in quotes, and the rest.
fn quoted(text: &str) -> (&str, &str) {
    let inside = text.strip_prefix('"').unwrap();
    let mut escaped = false;
    let end = inside.find(|c| {
        let ends = c == '"' && !escaped;
        escaped = c == '\\' && !escaped;
        ends
    });
    let end = end.unwrap();
    (&inside[..end], &inside[end + 1..])
}

/// Whether these come in the order of those.
fn in_order(fields: &Fields, told: &Fields) -> bool {
    let mut told = told.iter();
    fields
        .iter()
        .all(|(name, _)| told.any(|(other, _)| other == name))
}

/// A file with keys of every kind and WKT; one whose directory is damaged; and one that has WKT too.
fn grids() -> [Vec<u8>; 3] {
    use inscjarol::{keys::NewKeys, NewFile, Vlr};
    let keys = NewKeys::new()
        .number(1024, 1)
        .doubles(2057, &[6_378_137.0, f64::NAN])
        .number(3072, 25_832)
        .text(3073, "ETRS89 / UTM zone 32N")
        .number(3076, 9001)
        .number(4096, 7837)
        .number(4099, 9001)
        .number(50_000, 0);
    let keys = keys.finish().unwrap();
    let record = |id: u16, data: &'static [u8]| Vlr::new(false, "LASF_Projection", id, "", data);
    let with_wkt = |file: NewFile<'_>| {
        file.vlr(record(2111, b"WKT"))
            .vlr(record(2112, b"WKT"))
            .to_vec()
    };
    let grid = with_wkt(keys.vlrs().fold(NewFile::new(1), NewFile::vlr));
    let damaged = NewFile::new(1).vlr(record(34_735, b""));
    let mut both = with_wkt(damaged.clone()).unwrap();
    both[6] = 16;
    [grid.unwrap(), damaged.to_vec().unwrap(), both]
}

#[test]
fn every_field_that_is_printed_is_told_and_every_one_that_is_told_is_printed() {
    let folder = Folder::new("documented");
    let mut odd = rich(10, 3);
    odd[8..24].copy_from_slice(&[7; 16]);
    for place in [131, 139, 147, 155, 179, 187] {
        odd[place..place + 8].copy_from_slice(&f64::NAN.to_le_bytes());
    }
    let mut odd_packets = waveforms();
    odd_packets[432 + 2] = b'?';
    let mut new = Header::new(Version { major: 1, minor: 4 }).unwrap();
    new.point_data_record_format = 6;
    new.point_data_record_length = 30;
    let mut half_zero = rich(6, 0);
    half_zero[243..247].copy_from_slice(&[0; 4]);
    let from_a_hundred = Descriptor::new("depth", DataType::F32).with_offset(100.0);
    let attributes = NewFile::new(0).attributes(&[from_a_hundred]).to_vec();
    let attributes = attributes.unwrap();
    let files = [
        folder.put("odd.las", &odd),
        folder.put("old.las", &rich(0, 0)),
        folder.put("nir.las", &rich(8, 0)),
        folder.put("two.las", &two_points()),
        folder.put("half.las", &half_zero),
        folder.put("waveform.las", &waveforms()),
        folder.put("packets.las", &odd_packets),
        folder.put("new.las", &new.to_vec(&[]).unwrap()),
        folder.put("attributes.las", &attributes),
        folder.put("cut.las", &plain(3)[..250]),
        folder.put("sample.las", &fs::read(sample()).unwrap()),
        folder.join("missing.las"),
    ];
    let grids = grids().map(|bytes| folder.put(&format!("grid-{}.las", bytes.len()), &bytes));
    let files = [&files[..], &grids[..]].concat();

    let told = told();
    let mut printed: BTreeMap<String, Fields> = BTreeMap::new();
    let mut see = |words: &[&str], path: &Path, more: &[&Path]| {
        let command = words[0];
        let mut tool = tool();
        tool.arg("--json").args(words).arg(path).args(more);
        if command == "points" {
            // All of the standard's fields, also those that the format does not have.
            let of_points = told
                .iter()
                .find(|(heading, _)| heading.starts_with("points,"));
            let names = of_points.unwrap().1.iter().map(|(name, _)| name.as_str());
            tool.arg("--fields")
                .arg(names.collect::<Vec<_>>().join(","));
        }
        let output = tool.output().unwrap();
        for line in String::from_utf8(output.stdout).unwrap().lines() {
            let mut fields = Fields::new();
            assert_eq!(read(line, "", &mut fields), "");
            let has = |name: &str| fields.iter().any(|(other, _)| other == name);
            let sort = match (command, has("error"), has("refusal.number")) {
                (_, true, _) => "every command, for a file that cannot be read or written:",
                ("check", _, true) => "check, for a file that is refused:",
                ("append", _, true) => "append, where it is refused:",
                ("audit", _, true) => "audit, for a file that is refused:",
                ("audit", ..) if has("finding.rule") => "audit, for each finding of a file:",
                ("audit", ..) => "audit, for a file that is accepted, after its findings:",
                ("ask", _, true) if has("format") => {
                    "ask, for a file that cannot go, or whose points cannot:"
                }
                ("ask", _, true) => "ask, for a file that is refused:",
                ("ask", ..) if has("to_version") => {
                    "ask with --to 1.2 or 1.4, for a file that can go:"
                }
                ("ask", ..) => "ask, for a file whose points can go:",
                ("convert", _, true) if has("format") => "convert, for a file that cannot go:",
                ("convert", _, true) => "convert, for a file that is refused:",
                ("convert", ..) => "convert, for a file that was written:",
                ("classify", _, true) if has("point") => "classify, for a point that is refused:",
                ("classify", _, true) => "classify, for a file that is refused:",
                ("classify", ..) => "classify, for a point that has its class, or can have it:",
                ("grid", _, true) if has("says") => {
                    "grid, for a file whose directory of keys is refused:"
                }
                (_, _, true) => {
                    "parts, info, grid, points, sheet and rewrite, for a file that is refused:"
                }
                ("sheet", ..) if has("file") => "sheet, for a file that was counted:",
                ("sheet", ..) => "sheet, after the files:",
                ("check", ..) => "check, for a file that is accepted:",
                ("parts", ..) => "parts, for a file that is accepted:",
                ("info", ..) => "info, for a file that is accepted:",
                ("grid", ..) => "grid, for a file that is accepted:",
                ("rewrite", ..) => "rewrite, for a file that was written:",
                ("append", ..) => "append, where it is not refused:",
                _ => "points, for each point, the fields that were chosen; null where the point has none:",
            };
            assert!(in_order(&fields, &told[sort]), "{sort} {line}");
            let all = printed.entry(sort.to_string()).or_default();
            for (name, types) in fields {
                match all.iter_mut().find(|(other, _)| *other == name) {
                    Some((_, seen)) => seen.extend(types),
                    None => all.push((name, types)),
                }
            }
        }
    };
    for path in &files {
        for command in [
            "check", "audit", "parts", "info", "grid", "points", "sheet", "ask",
        ] {
            see(&[command], path, &[]);
        }
        see(&["ask", "--to", "1.2"], path, &[]);
        see(&["convert", "--to", "1.2"], path, &[]);
        let name = path.file_name().unwrap().to_str().unwrap();
        see(&["rewrite"], path, &[&folder.join(&format!("new-{name}"))]);
    }
    let page = folder.join("page.html");
    let page = page.to_str().unwrap();
    see(&["sheet", "--html", page], &files[1], &[]);
    let records = folder.put("records", &[0; 40]);
    for path in &files {
        see(&["append", "--room", "7"], path, &[]);
        see(&["append", "--believed", "2"], path, &[&records]);
        see(&["classify", "--point", "1", "--class", "2"], path, &[]);
        let points = [
            "--ask", "--point", "1", "--class", "2", "--point", "0", "--class", "2",
        ];
        see(&[&["classify"], &points[..]].concat(), path, &[]);
    }

    assert!(printed.keys().eq(told.keys()), "{:?}", told.keys());
    for (heading, fields) in &told {
        for (name, types) in fields {
            let seen = printed[heading].iter().find(|(other, _)| other == name);
            let (_, seen) = seen.unwrap_or_else(|| panic!("{heading} {name} is not printed"));
            assert_eq!(seen, types, "{heading} {name}");
        }
        assert_eq!(printed[heading].len(), fields.len(), "{heading}");
    }
}
