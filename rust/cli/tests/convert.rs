//! `inscjarol convert`, run as operators run it: a folder of surveys goes to the other version, and whatever happens no file is
//! half written and none is lost.

#[path = "../../tests/common/mod.rs"]
mod common;

use common::{plain, rich, sample, Chance, Folder};
use inscjarol::{File, Flags, Format, Header, LargeFile, Point, ScanAngle, Version, Vlr};
use std::{
    fs,
    io::Write,
    os::unix::{
        fs::{symlink, PermissionsExt},
        process::ExitStatusExt,
    },
    path::Path,
    process::{Command, Output, Stdio},
    thread,
    time::{Duration, Instant},
};

const OLD: Version = Version { major: 1, minor: 2 };
const NEW: Version = Version { major: 1, minor: 4 };

/// What makes the tool name its temporary file, as it does where there are no unnamed ones.
const NAMED: &str = "INSCJAROL_NAMED_TEMPORARY";

fn tool() -> Command {
    Command::new(env!("CARGO_BIN_EXE_inscjarol"))
}

/// What it wrote and said, and its status.
fn told(output: &Output) -> (String, String, Option<i32>) {
    let text = |bytes: &[u8]| String::from_utf8(bytes.to_vec()).unwrap();
    (
        text(&output.stdout),
        text(&output.stderr),
        output.status.code(),
    )
}

/// Runs the tool in a folder with these words.
fn run(folder: &Folder, words: &[&str]) -> (String, String, Option<i32>) {
    let mut tool = tool();
    tool.args(words).current_dir(folder.join(""));
    told(&tool.output().unwrap())
}

/// The header of a file with so many points of a format, in hundredths of a metre from (1000, 2000, 0).
fn header(version: Version, code: u8, points: u32) -> Header {
    let mut header = Header::new(version).unwrap();
    header.point_data_record_format = code;
    header.point_data_record_length = Format::new(code).unwrap().len().unwrap();
    header.number_of_point_records = points;
    header.number_of_points_by_return = [points, 0, 0, 0, 0];
    (header.x_scale_factor, header.x_offset) = (0.01, 1000.0);
    (header.y_scale_factor, header.y_offset) = (0.01, 2000.0);
    (header.z_scale_factor, header.z_offset) = (0.01, 0.0);
    header
}

/// A file of LAS 1.2 in format 1 or 3, with padding, a VLR and gaps.
fn old(code: u8, points: i32) -> Vec<u8> {
    let vlr = Vlr::new(false, "LASF_Projection", 34_735, "keys", &[1, 0, 1, 0]);
    let vlr = vlr.to_vec().unwrap();
    let mut header = header(OLD, code, points as u32);
    header.header_size += 3;
    header.number_of_variable_length_records = 1;
    header.offset_to_point_data = 227 + 3 + vlr.len() as u32 + 2;
    let mut bytes = [&header.to_vec(b"pad").unwrap()[..], &vlr, b"gp"].concat();
    let format = Format::new(code).unwrap();
    for i in 0..points {
        let point = Point {
            x: 100 * i,
            y: 10 * i,
            z: i,
            flags: Flags::TwoByte(0b001_001, 2),
            scan_angle: ScanAngle::Rank((i % 91) as i8),
            gps_time: Some(f64::from(i)),
            ..Point::default()
        };
        bytes.extend(point.to_vec(format).unwrap());
    }
    bytes.extend(b"the rest");
    bytes
}

/// What it is in LAS 1.4.
fn new(code: u8, points: i32) -> Vec<u8> {
    File::check(&old(code, points)).unwrap().to_new().unwrap()
}

/// The bytes of a file in a folder.
fn read(folder: &Folder, name: &str) -> Vec<u8> {
    fs::read(folder.join(name)).unwrap()
}

#[test]
fn a_folder_goes_up_and_comes_back() {
    let folder = Folder::new("convert-both");
    fs::create_dir(folder.join("old")).unwrap();
    folder.put("old/east.las", &old(1, 1_200));
    folder.put("old/west.LAS", &old(3, 10));
    folder.put("old/readme.txt", b"text");
    let (out, err, status) = run(&folder, &["convert", "--to", "1.4", "old", "--out", "new"]);
    assert_eq!(
        out,
        "old/east.las: written as new/east.las: LAS 1.4, 1,200 points of format 6, 36,446 bytes\n\
         old/west.LAS: written as new/west.LAS: LAS 1.4, 10 points of format 7, 806 bytes\n\
         2 files: 2 written (1,210 points, 37,252 bytes), 0 cannot go; 1 other there is no .las file\n"
    );
    assert_eq!((err.as_str(), status), ("", Some(0)));
    assert_eq!(read(&folder, "new/east.las"), new(1, 1_200));
    assert_eq!(read(&folder, "new/west.LAS"), new(3, 10));

    let (out, err, status) = run(
        &folder,
        &["convert", "--to", "1.2", "new/", "--out", "back/"],
    );
    assert!(
        out.ends_with("2 files: 2 written (1,210 points, 34,536 bytes), 0 cannot go\n"),
        "{out}"
    );
    assert_eq!((err.as_str(), status), ("", Some(0)));
    for name in ["east.las", "west.LAS"] {
        let (was, is) = (format!("old/{name}"), format!("back/{name}"));
        assert_eq!(read(&folder, &was), read(&folder, &is));
    }
    let names = |path: &str| fs::read_dir(folder.join(path)).unwrap().count();
    assert_eq!((names("old"), names("new"), names("back")), (3, 2, 2));
}

#[test]
fn the_name_of_what_is_written() {
    let folder = Folder::new("convert-names");
    let put = |name| drop(folder.put(name, &old(1, 3)));
    for name in ["a.las", "B.LAS", "c", "d.2024", ".las"] {
        put(name);
    }
    // Beside the file, with the version in its name.
    for (from, to) in [
        ("a.las", "a-1.4.las"),
        ("B.LAS", "B-1.4.LAS"),
        ("c", "c-1.4.las"),
        ("d.2024", "d.2024-1.4.las"),
        (".las", ".las-1.4.las"),
    ] {
        let (out, err, status) = run(&folder, &["convert", "--to=1.4", from]);
        let told = format!("{from}: written as {to}: LAS 1.4, 3 points of format 6, 536 bytes\n");
        assert_eq!((out, err.as_str(), status), (told, "", Some(0)));
        assert_eq!(read(&folder, to), new(1, 3));
    }
    let (_, _, status) = run(&folder, &["convert", "--to", "1.2", "a-1.4.las"]);
    assert_eq!(
        (read(&folder, "a-1.4-1.2.las"), status),
        (old(1, 3), Some(0))
    );

    // Of one file the name, or the folder, which is made where it has to be one.
    fs::create_dir(folder.join("there")).unwrap();
    for (out, is) in [
        ("e.las", "e.las"),
        ("there", "there/a.las"),
        ("made/", "made/a.las"),
        ("there/f.las", "there/f.las"),
    ] {
        let (said, _, status) = run(&folder, &["convert", "--to=1.4", "a.las", "--out", out]);
        assert!(
            said.starts_with(&format!("a.las: written as {is}: ")),
            "{said}"
        );
        assert_eq!((status, read(&folder, is)), (Some(0), new(1, 3)));
    }
    // Several need a folder; what is no folder is told before anything is done.
    let (out, err, status) = run(
        &folder,
        &["convert", "--to=1.4", "a.las", "c", "--out", "e.las"],
    );
    assert!(err.contains("several files need a folder, and e.las is none"));
    assert_eq!((out.as_str(), status), ("", Some(2)));
    // A folder is made one deep.
    let (_, err, status) = run(
        &folder,
        &["convert", "--to=1.4", "a.las", "--out", "no/where/"],
    );
    assert!(
        err.contains("a.las: no/where/a.las: there is no such folder"),
        "{err}"
    );
    assert_eq!((status, folder.join("no").exists()), (Some(2), false));
}

#[test]
fn the_standard_input() {
    let folder = Folder::new("convert-input");
    let fed = |words: &[&str]| {
        let mut child = tool()
            .args(["convert", "--to", "1.4", "-"])
            .args(words)
            .current_dir(folder.join(""))
            .stdin(Stdio::piped())
            .stdout(Stdio::piped())
            .stderr(Stdio::piped())
            .spawn()
            .unwrap();
        let _ = child.stdin.take().unwrap().write_all(&old(1, 3));
        told(&child.wait_with_output().unwrap())
    };
    let (out, _, status) = fed(&["--out", "out.las"]);
    assert!(out.starts_with("standard input: written as out.las: LAS 1.4"));
    assert_eq!((status, read(&folder, "out.las")), (Some(0), new(1, 3)));
    for words in [&[][..], &["--out", "folder/"]] {
        let (_, err, status) = fed(words);
        assert!(err.contains("the standard input has no name"), "{err}");
        assert_eq!(status, Some(2));
    }
    assert!(fed(&["--ask"]).0.starts_with("standard input: yes: from"));
    assert_eq!(folder.names(), ["out.las"]);
}

/// A file of LAS 1.4 with its counts in the large fields, and this many bytes past its points.
fn large(code: u8, counts: LargeFile, rest: usize) -> Vec<u8> {
    let mut header = header(NEW, code, 0);
    header.number_of_points_by_return = [0; 5];
    header.large_file = Some(counts);
    let mut bytes = header.to_vec(&[]).unwrap();
    bytes.resize(bytes.len() + rest, 0);
    bytes
}

fn with(mut bytes: Vec<u8>, place: usize, number: &[u8]) -> Vec<u8> {
    bytes[place..place + number.len()].copy_from_slice(number);
    bytes
}

#[test]
fn what_cannot_go_in_words() {
    let folder = Folder::new("convert-no");
    let counts = |place: usize, count: u64| {
        let mut counts = LargeFile::default();
        counts.number_of_points_by_return[place] = count;
        large(6, counts, 0)
    };
    let evlr = rich(6, 0);
    let both = with(evlr.clone(), 227, &[9]);
    let waveform = with(counts(0, 0), 227, &[9]);
    let points = new(3, 50);
    let point = |place: usize, byte: u8| with(points.clone(), 375 + 63 + 36 * 40 + place, &[byte]);
    let long = with(
        header(OLD, 1, 0).to_vec(&[]).unwrap(),
        105,
        &65_535_u16.to_le_bytes(),
    );
    let mut padded = header(OLD, 1, 0);
    (padded.header_size, padded.offset_to_point_data) = (65_400, 65_400);
    let padded = padded.to_vec(&[7; 65_400 - 227]).unwrap();
    for (to, bytes, words) in [
        ("1.4", plain(3), "it is LAS 1.2 with points of format 0, and to LAS 1.4 goes only LAS 1.2 with points of format 1 or 3"),
        ("1.4", new(1, 3), "it is LAS 1.4 already, with points of format 6"),
        ("1.2", old(1, 3), "it is LAS 1.2 already, with points of format 1"),
        ("1.2", large(8, LargeFile::default(), 0), "it is LAS 1.4 with points of format 8, and to LAS 1.2 goes only LAS 1.4 with points of format 6 or 7"),
        ("1.2", evlr, "it has 2 EVLRs, for which LAS 1.2 has no place ('inscjarol info' shows what there is); they have to be taken out first, by a program that knows what they are for"),
        ("1.2", both, "it has 2 EVLRs and waveform packets, for which"),
        ("1.2", waveform, "it has waveform packets, for which LAS 1.2 has no place"),
        ("1.2", counts(1, 5_000_000_000), "its header counts 5,000,000,000 points of return 2, and LAS 1.2 counts returns 1 to 5 alone, at most 4,294,967,295 of each"),
        ("1.2", counts(6, 12), "its header counts 12 points of return 7, and LAS 1.2 counts returns 1 to 5 alone"),
        ("1.4", long, "a point record of this format would have 65537 bytes: 65535 are the most"),
        ("1.4", padded, "the header size (header byte 94) is 65400: LAS 1.4 needs 148 bytes more, and 65535 are the most"),
        ("1.2", point(16, 64), "point 41: the class is 64: the old point formats hold 0 to 31; the point lies at x 1040.00, y 2004.00, z 0.40"),
        ("1.2", point(15, 0x08), "point 41: the overlap flag on class 2: the old point formats say overlap by class 12 alone, and class 2 would be lost; the point lies at x 1040.00, y 2004.00, z 0.40"),
        ("1.2", point(19, 0x7f), "point 41: the scan angle is "),
    ] {
        folder.put("no.las", &bytes);
        let (out, err, status) = run(&folder, &["convert", "--to", to, "no.las", "--out", "a/b.las"]);
        // There is no such folder, which does not matter to what cannot go.
        assert!(err.contains(&format!("inscjarol: no.las: cannot go to LAS {to}: {words}")), "{err}");
        assert_eq!((out.as_str(), status), ("", Some(1)));
        let (out, err, status) = run(&folder, &["ask", "--to", to, "no.las"]);
        assert!(out.starts_with(&format!("no.las: no: {words}")), "{out}");
        assert_eq!((err.as_str(), status), ("", Some(1)));
    }
    assert_eq!(folder.names(), ["no.las"]);
}

#[test]
fn the_others_are_done() {
    let folder = Folder::new("convert-others");
    fs::create_dir(folder.join("in")).unwrap();
    for (name, bytes) in [
        (
            "a-overlap.las",
            &with(new(1, 3), 375 + 63 + 15, &[0x08])[..],
        ),
        ("b-good.las", &new(1, 3)),
        ("c-cut.las", &new(1, 3)[..500]),
        ("d-old.las", &old(1, 3)),
        ("e-good.las", &new(3, 4)),
        ("f-sample.las", &fs::read(sample()).unwrap()),
        ("g-empty.las", b""),
    ] {
        folder.put(&format!("in/{name}"), bytes);
    }
    let words = [
        "convert",
        "--to",
        "1.2",
        "in/",
        "missing.las",
        "--out",
        "out/",
    ];
    let (out, err, status) = run(&folder, &words);
    assert_eq!(
        out,
        "in/b-good.las: written as out/b-good.las: LAS 1.2, 3 points of format 1, 382 bytes\n\
         in/e-good.las: written as out/e-good.las: LAS 1.2, 4 points of format 3, 434 bytes\n\
         8 files: 2 written (7 points, 816 bytes), 3 cannot go (1 of them LAS 1.2 already), 2 refused, 1 could not be read or \
         written\n"
    );
    let said: Vec<&str> = err.lines().collect();
    assert_eq!(said.len(), 6, "{err}");
    for (line, begins) in said.iter().zip([
        "inscjarol: in/a-overlap.las: cannot go to LAS 1.2: point 1: the overlap flag on class 2",
        "inscjarol: in/c-cut.las: refused 12 3 0 (point extent): the points run past",
        "inscjarol: in/d-old.las: cannot go to LAS 1.2: it is LAS 1.2 already",
        "inscjarol: in/f-sample.las: cannot go to LAS 1.2: it has 1 EVLR, for which",
        "inscjarol: in/g-empty.las: refused 1 4 0 (short)",
        "inscjarol: missing.las: there is no such file",
    ]) {
        assert!(line.starts_with(begins), "{line}");
    }
    // What cannot be read is worse than what is refused.
    assert_eq!(status, Some(2));
    fs::remove_dir_all(folder.join("out")).unwrap();
    let (_, _, status) = run(&folder, &["convert", "--to", "1.2", "in/", "--out", "out/"]);
    assert_eq!(status, Some(1));

    // Where none can go there is no folder either.
    let (out, _, status) = run(
        &folder,
        &[
            "convert",
            "--to",
            "1.4",
            "in/b-good.las",
            "in/c-cut.las",
            "--out",
            "none",
        ],
    );
    assert!(
        out.starts_with("2 files: 0 written, 1 cannot go (1 of them LAS 1.4 already), 1 refused")
    );
    assert_eq!((status, folder.join("none").exists()), (Some(1), false));
}

#[test]
fn nobody_reads_on() {
    let folder = Folder::new("convert-closed");
    fs::create_dir(folder.join("in")).unwrap();
    for number in 0..5 {
        folder.put(&format!("in/{number}.las"), &old(1, 3));
    }
    folder.put("in/9.las", b"no LAS file");
    let mut child = tool()
        .args(["--json", "convert", "--to", "1.4", "in", "--out", "out"])
        .current_dir(folder.join(""))
        .stdout(Stdio::piped())
        .stderr(Stdio::piped())
        .spawn()
        .unwrap();
    drop(child.stdout.take());
    let (_, err, status) = told(&child.wait_with_output().unwrap());
    // All is done, and the status is what it is.
    assert_eq!((err.as_str(), status), ("", Some(1)));
    for number in 0..5 {
        assert_eq!(read(&folder, &format!("out/{number}.las")), new(1, 3));
    }
}

#[test]
fn asking_writes_nothing_and_says_the_same() {
    let folder = Folder::new("convert-ask");
    fs::create_dir(folder.join("in")).unwrap();
    folder.put("in/a.las", &new(1, 3));
    folder.put("in/b.las", &fs::read(sample()).unwrap());
    folder.put("in/c.las", &old(3, 2));
    folder.put("in/d.las", b"LASF");
    let before = (
        folder.names(),
        fs::read_dir(folder.join("in")).unwrap().count(),
    );
    for to in ["1.2", "1.4"] {
        for json in [&[][..], &["--json"]] {
            let asked = run(&folder, &[&["ask", "--to", to, "in"], json].concat());
            for more in [&[][..], &["--out", "made"], &["--force", "--out", "in"]] {
                let words = [&["convert", "--ask", "--to", to, "in"], json, more].concat();
                assert_eq!(run(&folder, &words), asked);
            }
            assert_eq!(asked.2, Some(1));
        }
    }
    let (out, _, _) = run(&folder, &["ask", "--to", "1.2", "in"]);
    assert!(
        out.starts_with("in/a.las: yes: from LAS 1.4 to 1.2, format 6 to 1, 3 points, 382 bytes\n")
    );
    assert!(
        out.ends_with("4 files: 1 can go (3 points, 382 bytes), 2 cannot (1 of them LAS 1.2 already), 1 refused\n"),
        "{out}"
    );
    let (out, _, _) = run(&folder, &["ask", "--json", "--to", "1.4", "in/c.las"]);
    assert_eq!(
        out,
        "{\"file\":\"in/c.las\",\"accepted\":true,\"can_go\":true,\"format\":3,\"points\":2,\"to_format\":7,\
         \"to_version\":\"1.4\",\"to_file_bytes\":518}\n"
    );
    let after = (
        folder.names(),
        fs::read_dir(folder.join("in")).unwrap().count(),
    );
    assert_eq!(before, after);
}

#[test]
fn for_programs() {
    let folder = Folder::new("convert-json");
    folder.put("good.las", &new(3, 2));
    folder.put("bad.las", &with(new(3, 2), 375 + 63 + 36 + 16, &[99]));
    folder.put("cut.las", &new(3, 2)[..400]);
    let words = [
        "--json", "convert", "--to", "1.2", "good.las", "bad.las", "cut.las", "none.las", "--out",
        "out",
    ];
    let (out, err, status) = run(&folder, &words);
    assert_eq!(
        out.lines().collect::<Vec<_>>(),
        [
            r#"{"file":"good.las","accepted":true,"written":true,"format":7,"points":2,"to_format":3,"to_version":"1.2","out":"out/good.las","bytes":366}"#,
            r#"{"file":"bad.las","accepted":true,"written":false,"format":7,"points":2,"refusal":{"number":17,"name":"class","value":99,"record":2,"words":"point 2: the class is 99: the old point formats hold 0 to 31"},"x":1001.00,"y":2000.10,"z":0.01}"#,
            r#"{"file":"cut.las","accepted":false,"written":false,"refusal":{"number":9,"name":"point offset","value":438,"record":0,"words":"the offset to the point data (header byte 96) is 438: it must be at least the header size, and not beyond the end of the file"}}"#,
            r#"{"file":"none.las","error":"there is no such file"}"#,
        ]
    );
    assert_eq!(err, "inscjarol: none.las: there is no such file\n");
    assert_eq!(status, Some(2));
    let (out, _, _) = run(&folder, &words);
    assert!(
        out.contains(r#"{"file":"good.las","error":"out/good.las: it is there already; with --force it is replaced"}"#),
        "{out}"
    );
}

#[test]
fn nothing_is_replaced_unasked() {
    let folder = Folder::new("convert-there");
    let (was, is) = (old(1, 3), new(1, 3));
    folder.put("a.las", &was);
    folder.put("there.las", b"what there was");
    let convert = |words: &[&str]| run(&folder, &[&["convert", "--to", "1.4"], words].concat());

    let (out, err, status) = convert(&["a.las", "--out", "there.las"]);
    assert!(err.contains("a.las: there.las: it is there already; with --force it is replaced"));
    assert_eq!((out.as_str(), status), ("", Some(2)));
    assert_eq!(read(&folder, "there.las"), b"what there was");
    // Not even itself: what it was would be gone.
    for out in ["a.las", "."] {
        let (_, err, status) = convert(&["a.las", "--out", out]);
        assert!(err.contains("it is there already"), "{err}");
        assert_eq!((status, read(&folder, "a.las")), (Some(2), was.clone()));
    }
    // By force, with its mode, and through a link; but not what is read-only.
    fs::set_permissions(folder.join("there.las"), fs::Permissions::from_mode(0o640)).unwrap();
    symlink("there.las", folder.join("link.las")).unwrap();
    for named in [false, true] {
        folder.put("there.las", b"what there was");
        let mut tool = tool();
        tool.args([
            "convert", "--to", "1.4", "--force", "a.las", "--out", "link.las",
        ])
        .current_dir(folder.join(""));
        if named {
            tool.env(NAMED, "1");
        }
        assert_eq!(told(&tool.output().unwrap()).2, Some(0));
        assert_eq!(read(&folder, "there.las"), is);
        let mode = fs::metadata(folder.join("there.las"))
            .unwrap()
            .permissions()
            .mode();
        assert_eq!(mode & 0o777, 0o640);
    }
    let link = fs::symlink_metadata(folder.join("link.las")).unwrap();
    assert!(link.file_type().is_symlink());
    fs::set_permissions(folder.join("there.las"), fs::Permissions::from_mode(0o444)).unwrap();
    let (_, err, status) = convert(&["a.las", "--force", "--out", "there.las"]);
    assert!(err.contains("there.las: it is read-only") && status == Some(2));
    // Itself by force, and it comes back.
    let (out, _, status) = convert(&["a.las", "--force", "--out", "."]);
    assert!(
        out.starts_with("a.las: written as ./a.las: LAS 1.4"),
        "{out}"
    );
    assert_eq!((status, read(&folder, "a.las")), (Some(0), is));
    let (_, _, status) = run(
        &folder,
        &["convert", "--to=1.2", "--force", "a.las", "--out=a.las"],
    );
    assert_eq!((status, read(&folder, "a.las")), (Some(0), was));
    assert_eq!(folder.names(), ["a.las", "link.las", "there.las"]);
}

#[test]
fn files_of_one_command_do_not_meet() {
    let folder = Folder::new("convert-meet");
    for name in ["one", "two", "out"] {
        fs::create_dir(folder.join(name)).unwrap();
    }
    folder.put("one/a.las", &old(1, 3));
    folder.put("two/a.las", &old(1, 4));
    let convert = |words: &[&str]| {
        run(
            &folder,
            &[&["convert", "--to", "1.4", "--force"], words].concat(),
        )
    };
    // Two go under the same name: the first stays.
    let (out, err, status) = convert(&["one/a.las", "two/a.las", "--out", "out"]);
    assert!(out.contains(
        "2 files: 1 written (3 points, 536 bytes), 0 cannot go, 1 could not be read or written"
    ));
    assert!(
        err.contains("two/a.las: out/a.las: another of these files was written there just now"),
        "{err}"
    );
    assert_eq!((status, read(&folder, "out/a.las")), (Some(2), new(1, 3)));
    // One would go where another one still is to be read.
    let (_, err, status) = convert(&["one/a.las", "two/a.las", "--out", "two"]);
    assert!(
        err.contains("one/a.las: two/a.las: it is another of the files that are to be converted"),
        "{err}"
    );
    assert_eq!((status, read(&folder, "two/a.las")), (Some(2), new(1, 4)));
    assert_eq!(read(&folder, "one/a.las"), old(1, 3));
}

#[test]
fn what_fails_leaves_nothing() {
    let folder = Folder::new("convert-fails");
    folder.put("a.las", &old(1, 100_000));
    folder.put("b.las", &old(1, 3));
    for named in [false, true] {
        // A disk that has no room for the first, and the second is done.
        let script = format!(
            "ulimit -f 1000; {} convert --to 1.4 a.las b.las --out out",
            env!("CARGO_BIN_EXE_inscjarol")
        );
        let mut shell = Command::new("bash");
        shell.args(["-c", &script]).current_dir(folder.join(""));
        if named {
            shell.env(NAMED, "1");
        }
        let (out, err, status) = told(&shell.output().unwrap());
        assert!(err.contains("a.las: out/a.las: File too large"), "{err}");
        assert!(out.starts_with("b.las: written as out/b.las"), "{out}");
        assert_eq!(status, Some(2));
        let left: Vec<_> = fs::read_dir(folder.join("out")).unwrap().collect();
        assert_eq!(left.len(), 1);
        fs::remove_dir_all(folder.join("out")).unwrap();
    }
    let (_, err, status) = run(
        &folder,
        &["convert", "--to=1.4", "b.las", "--out", "/dev/null"],
    );
    assert!(err.contains("b.las: /dev/null: it is no regular file") && status == Some(2));
    let (_, err, status) = run(&folder, &["convert", "--to=1.4", "nowhere"]);
    assert!(err.contains("nowhere: there is no such file") && status == Some(2));
    fs::create_dir(folder.join("empty")).unwrap();
    let (_, err, status) = run(&folder, &["convert", "--to=1.4", "empty"]);
    assert!(err.contains("there is no .las file in this folder") && status == Some(2));
    assert_eq!(folder.names(), ["a.las", "b.las", "empty"]);
}

#[test]
fn wrong_use() {
    let folder = Folder::new("convert-use");
    folder.put("a.las", &old(1, 3));
    for (words, said) in [
        (&["a.las"][..], "convert: it needs --to 1.2 or --to 1.4;"),
        (&["--to", "1.4"], "convert: it needs --to 1.2|1.4 IN..;"),
        (
            &["--to", "1.3", "a.las"],
            "--to needs one of 1.2, 1.4, and '1.3' is none;",
        ),
        (
            &["--to", "new", "a.las"],
            "--to needs one of 1.2, 1.4, and 'new' is none;",
        ),
        (&["--to", "1.4", "a.las", "--out"], "--out needs PLACE;"),
        (
            &["--to", "1.4", "a.las", "--out", "-"],
            "what is written to the standard output cannot be taken back;",
        ),
        (&["--to", "1.4", "a.las", "--frce"], "did you mean --force?"),
    ] {
        let (out, err, status) = run(&folder, &[&["convert"], words].concat());
        assert!(err.contains(said), "{err}");
        assert!(
            err.contains("'inscjarol help convert' tells how it goes"),
            "{err}"
        );
        assert_eq!((out.as_str(), status), ("", Some(2)));
    }
    assert_eq!(folder.names(), ["a.las"]);
    let (help, _, _) = run(&folder, &["help", "convert"]);
    for words in ["WKT", "class 28", "90 degrees", "--ask", "survey-1.4.las"] {
        assert!(help.contains(words), "{words}");
    }
}

#[test]
fn killed_at_any_moment() {
    let folder = Folder::new("convert-killed");
    let bytes = old(1, 60_000);
    folder.put("in.las", &bytes);
    let whole = File::check(&bytes).unwrap().to_new().unwrap();
    // Where something was, to be replaced, or nothing; by a temporary file that has a name, or by one that has none.
    let begin = |force: bool, named: bool| {
        let _ = fs::remove_file(folder.join("out.las"));
        if force {
            folder.put("out.las", b"what there was");
        }
        let mut tool = tool();
        tool.args(["convert", "--to", "1.4", "in.las", "--out", "out.las"])
            .args(force.then_some("--force"))
            .envs(named.then_some((NAMED, "1")))
            .current_dir(folder.join(""))
            .stdout(Stdio::null());
        tool.spawn().unwrap()
    };
    let begun = Instant::now();
    assert!(begin(true, false).wait().unwrap().success());
    let takes = begun.elapsed().as_micros() as u64;
    assert!(read(&folder, "out.las") == whole);

    let mut chance = Chance(11);
    let (mut turns, mut kills, mut cut, mut done) = (0, 0, 0, 0);
    while kills < 30 && begun.elapsed() < Duration::from_secs(8) {
        let (force, named) = (turns % 2 == 1, turns % 4 > 1);
        turns += 1;
        let mut child = begin(force, named);
        thread::sleep(Duration::from_micros(chance.next() % takes));
        let _ = child.kill();
        let status = child.wait().unwrap();
        match status.signal() {
            Some(signal) => assert_eq!(signal, 9),
            None => assert_eq!(status.code(), Some(0)),
        }
        kills += u32::from(status.signal().is_some());
        // All of it, or what there was; and all of it where the tool lived to say so.
        match fs::read(folder.join("out.las")) {
            Ok(out) if out == whole => done += 1,
            Ok(out) => assert!(!status.success() && force && out == b"what there was"),
            Err(_) => assert!(!status.success() && !force),
        }
        assert!(read(&folder, "in.las") == bytes);
        // A kill can leave a temporary file that had to have a name, and nothing else.
        for name in folder.names() {
            if !["in.las", "out.las"].contains(&name.as_str()) {
                assert!((force || named) && name.ends_with(".tmp"), "{name}");
                fs::remove_file(folder.join(&name)).unwrap();
                cut += 1;
            }
        }
    }
    let _ = writeln!(
        std::io::stderr(),
        "the tool killed while it converted: {kills} times of {turns}, seen in the midst of it {cut} times, all there {done} \
         times, 0 half written, {:?}",
        begun.elapsed()
    );
}

#[test]
fn a_signal_removes_a_temporary_file_that_has_a_name() {
    let folder = Folder::new("convert-signal");
    folder.put("in.las", &old(1, 400_000));
    let mut child = tool()
        .args(["convert", "--to", "1.4", "in.las"])
        .current_dir(folder.join(""))
        .env(NAMED, "1")
        .stdout(Stdio::null())
        .spawn()
        .unwrap();
    while folder.names().len() == 1 && child.try_wait().unwrap().is_none() {
        thread::sleep(Duration::from_millis(1));
    }
    let kill = format!("kill -TERM {}", child.id());
    Command::new("bash").args(["-c", &kill]).status().unwrap();
    let status = child.wait().unwrap();
    match status.signal() {
        Some(_) => assert_eq!(folder.names(), ["in.las"]),
        // It was faster.
        None => assert_eq!(folder.names(), ["in-1.4.las", "in.las"]),
    }
}

#[test]
fn long_work_is_shown() {
    let folder = Folder::new("convert-progress");
    let bytes: u64 = 20_000_000_000;
    let counts = LargeFile {
        number_of_point_records: (bytes - 375) / 30,
        ..LargeFile::default()
    };
    let path = folder.put("huge.las", &large(6, counts, 0));
    let made = fs::File::options().write(true).open(&path).unwrap();
    made.set_len(bytes).unwrap();
    folder.put("small.las", &new(1, 3));
    let watched = format!(
        "timeout 3 {} convert --to 1.2 small.las huge.las --out out >/dev/null",
        env!("CARGO_BIN_EXE_inscjarol")
    );
    // `script` is what makes a terminal.
    let output = match Command::new("script")
        .args(["-qec", &watched, "/dev/null"])
        .current_dir(folder.join(""))
        .output()
    {
        Ok(output) => output,
        Err(_) => return,
    };
    let shown = String::from_utf8(output.stdout).unwrap();
    assert!(
        shown.contains("converting huge.las, 2 of 2: 1 s"),
        "{shown:?}"
    );
    assert!(Path::new(&folder.join("out/small.las")).exists());
    assert!(!folder.join("out/huge.las").exists());
}
