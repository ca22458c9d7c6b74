//! `inscjarol points` of fields that are read by columns, held against the same fields read by walking: one more field, at the end, makes
//! the tool walk, and is taken off again.

#[path = "../../tests/common/mod.rs"]
mod common;

use common::{plain, rich, sample, Folder};
use inscjarol::{Header, Version, Vlr};
use std::{path::Path, process::Command};

const FIELDS: [&str; 8] = ["x", "y", "z", "gps_time", "red", "green", "blue", "nir"];

/// What the tool writes of these fields.
fn written(options: &[&str], fields: &str, path: &Path) -> String {
    let mut tool = Command::new(env!("CARGO_BIN_EXE_inscjarol"));
    let words = [&["points"], options, &["--fields", fields]].concat();
    let output = tool.args(words).arg(path).output().unwrap();
    assert_eq!(output.status.code(), Some(0));
    assert_eq!(String::from_utf8(output.stderr).unwrap(), "");
    String::from_utf8(output.stdout).unwrap()
}

/// The same by walking.
fn walked(options: &[&str], fields: &str, path: &Path) -> String {
    let json = options.contains(&"--json");
    let out = written(options, &format!("{fields},intensity"), path);
    let lines = out.lines().map(|line| {
        let (before, _) = line.rsplit_once(',').unwrap();
        format!("{before}{}\n", if json { "}" } else { "" })
    });
    lines.collect()
}

/// That both ways write the same: all fields in every form, and some of them.
fn same(path: &Path, options: &[&str]) {
    let all = FIELDS.join(",");
    let forms: [(&[&str], &str); 5] = [
        (&[], &all),
        (&["--raw"], &all),
        (&["--json"], &all),
        (&["--raw", "--json"], &all),
        (&[], "blue,gps_time,x"),
    ];
    for (form, fields) in forms {
        let options = [form, options].concat();
        let out = written(&options, fields, path);
        let expected = walked(&options, fields, path);
        assert!(out == expected, "{fields} {options:?}");
    }
}

#[test]
fn every_format_both_ways() {
    let folder = Folder::new("columns-formats");
    for code in 0..=10 {
        let path = folder.put(&format!("{code}.las"), &rich(code, u16::from(code % 3)));
        same(&path, &[]);
    }
}

#[test]
fn each_field_alone() {
    let folder = Folder::new("columns-alone");
    for code in [0, 8] {
        let path = folder.put(&format!("{code}.las"), &rich(code, 1));
        for field in FIELDS {
            assert_eq!(written(&[], field, &path), walked(&[], field, &path));
        }
    }
    // What the format does not have is left empty, as ever.
    let path = folder.join("0.las");
    assert_eq!(written(&["--limit", "2"], "nir", &path), "nir\n\n\n");
    assert_eq!(
        written(&["--limit", "1", "--json"], "red,nir", &path),
        "{\"red\":null,\"nir\":null}\n"
    );
}

#[test]
fn around_the_ends_of_stretches() {
    let folder = Folder::new("columns-ends");
    let path = folder.put("many.las", &plain(10_000));
    let lines = |skip: &str, limit: &str| {
        let options = ["--skip", skip, "--limit", limit];
        let out = written(&options, "x,y", &path);
        assert!(out == walked(&options, "x,y", &path), "{options:?}");
        out.lines().count() - 1
    };
    for skip in ["0", "4095", "4096", "9999", "10000"] {
        for limit in ["0", "4096", "4097", "99999"] {
            let left = 10_000 - skip.parse::<usize>().unwrap();
            assert_eq!(lines(skip, limit), left.min(limit.parse().unwrap()));
        }
    }
    assert_eq!(lines("18446744073709551615", "18446744073709551615"), 0);
    same(&sample(), &["--skip", "100", "--limit", "1000"]);
}

#[test]
fn no_points_and_many_records() {
    let folder = Folder::new("columns-records");
    let path = folder.put("none.las", &plain(0));
    assert_eq!(written(&[], "x,z", &path), "x,z\n");

    // More VLRs than a stretch has points: what is written stays the same.
    let vlr = Vlr::new(false, "somebody", 1, "", b"").to_vec().unwrap();
    let mut header = Header::new(Version { major: 1, minor: 2 }).unwrap();
    header.number_of_variable_length_records = 5_000;
    header.offset_to_point_data = 227 + 5_000 * vlr.len() as u32;
    header.number_of_point_records = 3;
    let mut bytes = header.to_vec(&[]).unwrap();
    bytes.extend(vlr.repeat(5_000));
    bytes.extend(&plain(3)[227..]);
    let path = folder.put("many.las", &bytes);
    let few = folder.put("few.las", &plain(3));
    assert_eq!(written(&[], "x,z", &path), written(&[], "x,z", &few));
    same(&path, &[]);
}

#[test]
fn attributes_both_ways() {
    // They need no point, so that columns and attributes are written without walking.
    for options in [
        &[][..],
        &["--raw"],
        &["--json"],
        &["--skip", "100", "--limit", "4200"],
        &["--skip", "2990"],
    ] {
        for fields in ["x,reflectance", "reflectance", "reflectance,gps_time,z"] {
            let out = written(options, fields, &sample());
            assert!(
                out == walked(options, fields, &sample()),
                "{fields} {options:?}"
            );
        }
    }
}
