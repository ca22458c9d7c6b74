//! What the README says that the tool says is what the tool says.

#[path = "../../tests/common/mod.rs"]
mod common;

use common::{repository, sample, Folder};
use inscjarol::{
    keys::{self, NewKeys},
    Flags, Format, Header, LargeFile, NewFile, Point, Version,
};
use std::{fs, process::Command};

/// A file of LAS 1.4 with so many points of format 6, all of ground.
fn ground(points: u64) -> Vec<u8> {
    let format = Format::new(6).unwrap();
    let mut header = Header::new(Version { major: 1, minor: 4 }).unwrap();
    header.point_data_record_format = 6;
    header.point_data_record_length = format.len().unwrap();
    header.large_file = Some(LargeFile {
        number_of_point_records: points,
        ..LargeFile::default()
    });
    let point = Point {
        flags: Flags::ThreeByte(0x11, 0, 2),
        ..Point::default()
    };
    let record = point.to_vec(format).unwrap();
    [header.to_vec(&[]).unwrap(), record.repeat(points as usize)].concat()
}

#[test]
fn the_tool_says_what_it_shows() {
    let folder = Folder::new("readme");
    fs::create_dir(folder.join("samples")).unwrap();
    let whole = fs::read(sample()).unwrap();
    folder.put("samples/stockpile.las", &whole);
    let contractor = fs::read(repository().join("samples/contractor.las")).unwrap();
    folder.put("samples/contractor.las", &contractor);
    folder.put("broken.las", &whole[..50_000]);
    folder.put("east.las", &ground(1_200));
    let keys = NewKeys::new()
        .number(keys::PROJECTED_CRS, 25_832)
        .text(keys::PROJECTED_CITATION, "ETRS89 / UTM zone 32N")
        .number(keys::PROJECTED_UNITS, 9001)
        .number(keys::VERTICAL_CRS, 7837)
        .number(keys::VERTICAL_UNITS, 9001);
    let keys = keys.finish().unwrap();
    let north = keys.vlrs().fold(NewFile::new(1), NewFile::vlr);
    folder.put("north.las", &north.to_vec().unwrap());

    let readme = fs::read_to_string(repository().join("README.md")).unwrap();
    let mut commands = Vec::new();
    for shown in readme.split("    $ inscjarol ").skip(1) {
        let mut lines = shown.lines();
        let words = lines.next().unwrap();
        let mut expected = String::new();
        // An empty line belongs to it where the next one does.
        let mut lines = lines.peekable();
        while let Some(line) = lines.next() {
            match line.strip_prefix("    ") {
                Some(line) => expected.push_str(line),
                None if line.is_empty()
                    && lines.peek().map_or(false, |next| next.starts_with("    ")) => {}
                None => break,
            }
            expected.push('\n');
        }
        commands.push(words.split(' ').next().unwrap());
        // As a terminal shows it: what it writes and what it says, in their order.
        let shown = format!("{} {words} 2>&1", env!("CARGO_BIN_EXE_inscjarol"));
        let output = Command::new("sh")
            .args(["-c", &shown])
            .current_dir(folder.join(""))
            .output()
            .unwrap();
        assert_eq!(String::from_utf8(output.stdout).unwrap(), expected);
    }
    assert_eq!(
        commands,
        ["check", "audit", "ask", "convert", "sheet", "classify", "grid"]
    );
}
