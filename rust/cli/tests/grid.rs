//! `inscjarol grid`, run as a surveyor runs it: over files of which he wants to know what their coordinates mean.

#[path = "../../tests/common/mod.rs"]
mod common;

use common::{plain, sample, Folder};
use inscjarol::{keys::NewKeys, Evlrs, Header, LargeFile, NewFile, Version, Vlr};
use std::{
    fs,
    path::Path,
    process::{Command, Output, Stdio},
    sync::atomic::{AtomicUsize, Ordering},
};

fn tool() -> Command {
    Command::new(env!("CARGO_BIN_EXE_inscjarol"))
}

/// What it wrote and said, and its status.
fn told(output: &Output) -> (String, String, Option<i32>) {
    let text = |bytes: &[u8]| String::from_utf8(bytes.to_vec()).unwrap();
    (
        text(&output.stdout),
        text(&output.stderr),
        output.status.code(),
    )
}

/// What it says of these files, with these options.
fn grid(options: &[&str], paths: &[&Path]) -> (String, String, Option<i32>) {
    let output = tool().arg("grid").args(options).args(paths).output();
    told(&output.unwrap())
}

/// What is said of one file, its name left out.
fn of(path: &Path) -> (String, Option<i32>) {
    let (out, err, status) = grid(&[], &[path]);
    assert_eq!(err, "");
    let line = out.strip_prefix(&format!("{}: ", path.display())).unwrap();
    (line.strip_suffix('\n').unwrap().to_string(), status)
}

/// What is said of bytes.
fn line(bytes: &[u8]) -> (String, Option<i32>) {
    // Tests run side by side: each file has a folder of its own.
    static FILES: AtomicUsize = AtomicUsize::new(0);
    let number = FILES.fetch_add(1, Ordering::Relaxed);
    let folder = Folder::new(&format!("grid-{number}"));
    of(&folder.put("a.las", bytes))
}

/// A file with these VLRs of LASF_Projection, and this global encoding.
fn file(records: &[(u16, &[u8])], encoding: u16) -> Vec<u8> {
    let vlrs = records
        .iter()
        .map(|(id, data)| Vlr::new(false, "LASF_Projection", *id, "", data));
    let mut bytes = vlrs.fold(NewFile::new(1), NewFile::vlr).to_vec().unwrap();
    bytes[6..8].copy_from_slice(&encoding.to_le_bytes());
    bytes
}

/// A file with these keys.
fn with(keys: NewKeys) -> Vec<u8> {
    let made = keys.finish().unwrap();
    let vlrs: Vec<_> = made.vlrs().map(|vlr| (vlr.record_id, vlr.data)).collect();
    file(&vlrs, 0)
}

/// UTM zone 32 in metres, heights in metres.
fn utm() -> NewKeys {
    NewKeys::new()
        .number(1024, 1)
        .number(3072, 25_832)
        .text(3073, "ETRS89 / UTM zone 32N")
        .number(3076, 9001)
        .number(4096, 7837)
        .text(4097, "DHHN2016 height")
        .number(4099, 9001)
}

const UTM: &str = "horizontal EPSG:25832, metres, \"ETRS89 / UTM zone 32N\"; \
                   vertical EPSG:7837, metres, \"DHHN2016 height\"";

#[test]
fn what_keys_say() {
    let says = |keys: NewKeys, words: &str| {
        assert_eq!(line(&with(keys)), (words.to_string(), Some(0)));
    };
    says(utm(), UTM);
    says(NewKeys::new(), "horizontal not said; vertical not said");
    // Feet of both kinds, and what the file calls all of it; told once where it is the same.
    let feet = |citation: &str| {
        NewKeys::new()
            .number(1024, 1)
            .text(1026, citation)
            .number(2048, 4269)
            .number(3072, 26_851)
            .text(3073, "NAD83 / Minnesota South")
            .number(3076, 9003)
            .number(4099, 9002)
    };
    let words = "horizontal EPSG:26851, US survey feet, \"NAD83 / Minnesota South\"; vertical feet";
    says(feet("NAD83 / Minnesota South"), words);
    says(feet("state plane"), &format!("{words}; \"state plane\""));
    says(feet(" "), words);
    // Angles.
    let degrees = NewKeys::new()
        .number(2048, 4326)
        .text(2049, "WGS 84")
        .number(2054, 9102);
    says(
        degrees,
        "horizontal EPSG:4326, degrees, \"WGS 84\"; vertical not said",
    );
    // No code fits, or none is said.
    let own = NewKeys::new()
        .number(2048, 4269)
        .number(3072, 32_767)
        .number(3076, 32_767)
        .doubles(3077, &[0.3])
        .number(4096, 0)
        .number(4099, 32_767);
    says(
        own,
        "horizontal user-defined over EPSG:4269, units of 0.3 metres; vertical undefined, user-defined units",
    );
    let odd = NewKeys::new()
        .number(3072, 40_000)
        .number(3076, 0)
        .text(4096, "a text")
        .number(4099, 9999);
    says(
        odd,
        "horizontal code 40000, which is none of EPSG, undefined units; vertical no code, units EPSG:9999",
    );
    for (code, units) in [(9001, "metres"), (9014, "fathoms"), (9036, "kilometres")] {
        let keys = NewKeys::new().number(3072, 25_832).number(3076, code);
        let words = format!("horizontal EPSG:25832, {units}; vertical not said");
        says(keys, &words);
    }
    // Nothing of it steers a terminal.
    let steers = NewKeys::new().text(3073, "a\x1b[2J\nb");
    says(
        steers,
        "horizontal \"a\u{fffd}[2J\u{fffd}b\"; vertical not said",
    );
}

#[test]
fn what_says_nothing() {
    assert_eq!(line(&plain(3)), ("says nothing".into(), Some(0)));
    // Records of values without a directory.
    let bytes = file(&[(34_736, &[0; 8]), (34_737, b"text|")], 0);
    assert_eq!(line(&bytes), ("says nothing".into(), Some(0)));
}

const WKT: &str = r#"PROJCS["ETRS89 / UTM zone 32N",GEOGCS["ETRS89"],AUTHORITY["EPSG","25832"]]"#;

#[test]
fn what_wkt_says() {
    let wkt = format!("{WKT}\0");
    let bytes = file(&[(2112, wkt.as_bytes())], 16);
    assert_eq!(line(&bytes), (format!("WKT: {WKT}"), Some(0)));
    let bytes = file(&[(2112, wkt.as_bytes()), (2112, b"another")], 0);
    let bit = "its header says that keys count, of which there are none";
    assert_eq!(line(&bytes), (format!("WKT: {WKT}; {bit}"), Some(0)));
    let bytes = file(
        &[
            (2111, b"PARAM_MT[\"Affine\"]"),
            (2112, b"A[\n  B,\r\n\tC]\n\0"),
        ],
        16,
    );
    let words = "WKT: A[ B, C]; its transform: PARAM_MT[\"Affine\"]";
    assert_eq!(line(&bytes), (words.into(), Some(0)));
    assert_eq!(line(&file(&[(2112, b"")], 16)).0, "WKT: (none)");
    let out = of(&sample()).0;
    assert!(
        out.starts_with("WKT: PROJCS[\"ETRS89 / UTM zone 32N\",GEOGCS[") && out.ends_with("]]")
    );
}

/// A file of LAS 1.4 without points, with these VLRs of LASF_Projection after them.
fn extended(records: &[(u16, &[u8])]) -> Vec<u8> {
    let mut header = Header::new(Version { major: 1, minor: 4 }).unwrap();
    header.global_encoding = 16;
    header.point_data_record_format = 6;
    header.point_data_record_length = 30;
    header.large_file = Some(LargeFile::default());
    header.evlrs = Some(Evlrs {
        start_of_first_evlr: 375,
        number_of_evlrs: records.len() as u32,
    });
    let mut bytes = header.to_vec(&[]).unwrap();
    for (id, data) in records {
        let evlr = Vlr::new(true, "LASF_Projection", *id, "", data);
        bytes.extend(evlr.to_vec().unwrap());
    }
    bytes
}

#[test]
fn an_evlr_may_hold_wkt_and_no_keys() {
    let made = utm().finish().unwrap();
    let directory = made.vlrs().next().unwrap().data;
    let bytes = extended(&[(34_735, directory)]);
    assert_eq!(line(&bytes), ("says nothing".into(), Some(0)));
    let bytes = extended(&[(34_735, directory), (2112, WKT.as_bytes())]);
    assert_eq!(line(&bytes), (format!("WKT: {WKT}"), Some(0)));
    let folder = Folder::new("grid-evlr");
    let path = folder.put("a.las", &bytes);
    let (out, _, _) = grid(&["--json"], &[&path]);
    assert!(out.contains("\"wkt_in\":\"EVLR\"") && out.contains("\"says\":\"WKT\""));
}

#[test]
fn the_header_says_which_of_two_counts() {
    let made = utm().finish().unwrap();
    let vlrs: Vec<_> = made.vlrs().map(|vlr| (vlr.record_id, vlr.data)).collect();
    let both = [vlrs.clone(), vec![(2112, WKT.as_bytes())]].concat();
    let folder = Folder::new("grid-both");
    let says = |encoding: u16, counts: &str, words: String| {
        let path = folder.put("a.las", &file(&both, encoding));
        assert_eq!(of(&path), (words, Some(0)));
        let (out, _, _) = grid(&["--json"], &[&path]);
        assert!(out.contains(&format!("\"says\":\"{counts}\"")));
    };
    let bit = "by bit 4 of its global encoding";
    says(
        0xffef,
        "keys",
        format!("keys count, {bit}: {UTM}; its WKT: {WKT}"),
    );
    says(
        0x0010,
        "WKT",
        format!("WKT counts, {bit}: {WKT}; its keys: {UTM}"),
    );
    let alone = "its header says that WKT counts, of which there is none";
    assert_eq!(line(&file(&vlrs, 16)), (format!("{UTM}; {alone}"), Some(0)));
}

/// A directory of these keys, made by hand.
fn directory(entries: &[[u16; 4]]) -> Vec<u8> {
    let mut all = vec![1, 1, 0, entries.len() as u16];
    all.extend(entries.iter().flatten());
    all.iter().flat_map(|n| n.to_le_bytes()).collect()
}

#[test]
fn a_damaged_directory_is_told_and_no_key_of_it() {
    let sound = [3072, 0, 1, 25_832];
    for (data, words) in [
        (
            directory(&[sound])[..15].to_vec(),
            "refused 43 0 0 (directory short): ",
        ),
        (
            directory(&[sound, sound]),
            "refused 44 0 0 (keys not rising): ",
        ),
        (
            directory(&[sound, [4096, 7, 1, 0]]),
            "refused 45 0 0 (unknown location): ",
        ),
        (
            directory(&[sound, [4097, 34_737, 1, 0]]),
            "refused 46 0 0 (target absent): ",
        ),
        (
            directory(&[[2057, 34_736, 1, 1], sound]),
            "refused 47 0 0 (target beyond its end): ",
        ),
    ] {
        let (out, status) = line(&file(&[(34_735, &data), (34_736, &[0; 8])], 0));
        assert!(out.starts_with(words) && !out.contains("25832"), "{out}");
        assert_eq!(status, Some(1));
    }
    // WKT is told all the same.
    let bytes = file(&[(34_735, b""), (2112, WKT.as_bytes())], 16);
    let (out, status) = line(&bytes);
    assert!(out.starts_with("refused 43 0 0") && out.ends_with(&format!("; its WKT: {WKT}")));
    assert_eq!(status, Some(1));
    let folder = Folder::new("grid-damaged");
    let path = folder.put("a.las", &bytes);
    let (out, err, status) = grid(&["--json"], &[&path]);
    assert!(out.contains(
        "\"accepted\":true,\"says\":\"WKT\",\"wkt_bit\":true,\"refusal\":{\"number\":43"
    ));
    assert_eq!((err.as_str(), status), ("", Some(1)));
}

#[test]
fn every_key_for_programs() {
    let folder = Folder::new("grid-json");
    let keys = NewKeys::new()
        .text(1026, "both")
        .doubles(2057, &[6_378_137.0, f64::NAN])
        .number(3072, 25_832)
        .number(3076, 9001)
        .number(50_000, 7);
    let path = folder.put("a.las", &with(keys));
    let (out, err, status) = grid(&["--json"], &[&path]);
    let name = path.display();
    let expected = format!(
        "{{\"file\":\"{name}\",\"accepted\":true,\"says\":\"keys\",\"wkt_bit\":false,\
         \"horizontal_epsg\":25832,\"horizontal_units\":\"metres\",\"vertical_epsg\":null,\"vertical_units\":null,\
         \"keys\":[{{\"key\":1026,\"name\":\"GTCitation\",\"text\":\"both\"}},\
         {{\"key\":2057,\"name\":\"GeogSemiMajorAxis\",\"doubles\":[6378137,null]}},\
         {{\"key\":3072,\"name\":\"ProjectedCSType\",\"number\":25832}},\
         {{\"key\":3076,\"name\":\"ProjLinearUnits\",\"number\":9001}},\
         {{\"key\":50000,\"name\":null,\"number\":7}}],\
         \"wkt\":null,\"wkt_in\":null,\"math_transform\":null}}\n"
    );
    assert_eq!((out, err.as_str(), status), (expected, "", Some(0)));
    // A code that is none of EPSG is none for programs.
    let path = folder.put(
        "b.las",
        &with(NewKeys::new().number(2048, 4326).number(3072, 32_767)),
    );
    let (out, _, _) = grid(&["--json"], &[&path]);
    assert!(out.contains("\"horizontal_epsg\":null"));
}

#[test]
fn folders_and_what_they_come_to() {
    let folder = Folder::new("grid-folder");
    folder.put("1.las", &with(utm()));
    folder.put("2.LAS", &with(utm()));
    folder.put("notes.txt", b"");
    let (out, err, status) = grid(&[], &[&folder.join("")]);
    let lines: Vec<&str> = out.lines().collect();
    assert!(lines[0].ends_with(&format!("1.las: {UTM}")));
    assert!(lines[1].ends_with(&format!("2.LAS: {UTM}")));
    assert_eq!(
        lines[2],
        "2 files: 2 with a grid (all the same), 0 that say nothing, 0 refused; 1 other there is no .las file"
    );
    assert_eq!((lines.len(), err.as_str(), status), (3, "", Some(0)));

    folder.put("3.las", &plain(2));
    folder.put("4.las", &with(NewKeys::new().number(3072, 25_833)));
    folder.put("5.las", &plain(2)[..230]);
    let missing = folder.join("missing.las");
    let (out, err, status) = grid(&[], &[&folder.join(""), &missing]);
    assert!(out.contains("5.las: refused 12 2 0 (point extent): "));
    assert!(out.ends_with(
        "6 files: 3 with a grid (2 different), 1 that says nothing, 1 refused, 1 could not be read; 1 other there is no .las file\n"
    ));
    assert!(err.contains("missing.las: there is no such file"));
    assert_eq!(status, Some(2));
    let (out, _, status) = grid(&["--json"], &[&folder.join("5.las")]);
    assert!(out.contains("\"accepted\":false,\"refusal\":{\"number\":12"));
    assert_eq!(status, Some(1));
}

#[test]
fn the_standard_input() {
    let folder = Folder::new("grid-input");
    let path = folder.put("a.las", &with(utm()));
    let mut run = tool();
    run.args(["grid", "-"])
        .stdin(Stdio::from(fs::File::open(&path).unwrap()));
    let (out, _, status) = told(&run.output().unwrap());
    assert_eq!((out, status), (format!("standard input: {UTM}\n"), Some(0)));
}

#[test]
fn info_says_the_same() {
    let folder = Folder::new("grid-info");
    let info = |options: &[&str], bytes: &[u8]| {
        let path = folder.put("a.las", bytes);
        let output = tool().arg("info").args(options).arg(path).output();
        told(&output.unwrap())
    };
    let (out, _, status) = info(&[], &with(utm()));
    assert!(
        out.contains(&format!("\n  grid                  {UTM}\n")),
        "{out}"
    );
    assert!(out.contains("\n        coordinate keys (GeoTIFF)\n"));
    assert_eq!(status, Some(0));
    let (out, _, _) = info(&["--json"], &plain(2));
    assert!(out.contains("\"grid\":\"says nothing\""));
    // Of WKT its name, and of a damaged directory why; the file is accepted all the same.
    let (out, _, _) = info(&[], &fs::read(sample()).unwrap());
    assert!(out.contains("\n  grid                  WKT: ETRS89 / UTM zone 32N\n"));
    let (out, _, status) = info(&[], &file(&[(34_735, b"")], 0));
    assert!(out.contains("\n  grid                  refused 43 0 0 (directory short): "));
    assert_eq!(status, Some(0));
}

#[test]
fn it_is_taught() {
    let output = tool().args(["help", "grid"]).output().unwrap();
    let (out, _, status) = told(&output);
    for words in [
        "EPSG",
        "WKT",
        "bit 4",
        "says nothing",
        "34735",
        "4096",
        "--json",
    ] {
        assert!(out.contains(words), "{words}");
    }
    assert_eq!(status, Some(0));
    let (_, err, status) = grid(&[], &[]);
    assert!(err.contains("grid: it needs FILE.."));
    assert_eq!(status, Some(2));
}
