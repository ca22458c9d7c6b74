//! `inscjarol ask`, run as operators run it: a folder is picked, and each file's answer is wanted before anything is converted.

#[path = "../../tests/common/mod.rs"]
mod common;

use common::{plain, rich, sample, Folder};
use inscjarol::{File, Flags::ThreeByte, Format, Header, LargeFile, Point, ScanAngle, Version};
use std::{
    fs,
    io::Write,
    path::Path,
    process::{Command, Output, Stdio},
};

fn tool() -> Command {
    Command::new(env!("CARGO_BIN_EXE_inscjarol"))
}

/// What it wrote and said, and its status.
fn told(output: &Output) -> (String, String, Option<i32>) {
    let text = |bytes: &[u8]| String::from_utf8(bytes.to_vec()).unwrap();
    (
        text(&output.stdout),
        text(&output.stderr),
        output.status.code(),
    )
}

/// Asks of these files, with these options.
fn ask(options: &[&str], paths: &[&Path]) -> (String, String, Option<i32>) {
    told(
        &tool()
            .arg("ask")
            .args(options)
            .args(paths)
            .output()
            .unwrap(),
    )
}

/// What is said of one file, its name left out.
fn of(options: &[&str], path: &Path) -> (String, Option<i32>) {
    let (out, err, status) = ask(options, &[path]);
    assert_eq!(err, "");
    let line = out.strip_prefix(&format!("{}: ", path.display())).unwrap();
    (line.strip_suffix('\n').unwrap().to_string(), status)
}

/// The header of a file of LAS 1.4 with so many points of a format, in hundredths of a metre from (1000, 2000, 0).
fn header(code: u8, extra: u16, points: u64) -> Header {
    let format = Format::new(code).unwrap().with_extra_bytes(extra);
    let mut header = Header::new(Version { major: 1, minor: 4 }).unwrap();
    header.point_data_record_format = code;
    header.point_data_record_length = format.len().unwrap();
    header.large_file = Some(LargeFile {
        number_of_point_records: points,
        ..LargeFile::default()
    });
    (header.x_scale_factor, header.x_offset) = (0.01, 1000.0);
    (header.y_scale_factor, header.y_offset) = (0.01, 2000.0);
    (header.z_scale_factor, header.z_offset) = (0.01, 0.0);
    header
}

/// A point that fits, number `i`.
fn fits(i: i32) -> Point<'static> {
    Point {
        x: 100 * i,
        y: 10 * i,
        z: i,
        flags: ThreeByte(0x11, 0, 2),
        scan_angle: ScanAngle::Scaled(250),
        ..Point::default()
    }
}

/// A file of these points.
fn file(code: u8, points: &[Point<'_>]) -> Vec<u8> {
    let format = Format::new(code).unwrap();
    let mut bytes = header(code, 0, points.len() as u64).to_vec(&[]).unwrap();
    for point in points {
        bytes.extend(point.to_vec(format).unwrap());
    }
    bytes
}

#[test]
fn what_can_go() {
    let folder = Folder::new("ask-yes");
    let points: Vec<Point<'_>> = (0..1_200).map(fits).collect();
    for (code, words) in [
        (6, "yes: from format 6 to 1, 1,200 points, 33,600 bytes"),
        (7, "yes: from format 7 to 3, 1,200 points, 40,800 bytes"),
        (8, "yes: from format 8 to 3, 1,200 points, 40,800 bytes"),
        (9, "yes: from format 9 to 4, 1,200 points, 68,400 bytes"),
        (10, "yes: from format 10 to 5, 1,200 points, 75,600 bytes"),
    ] {
        let path = folder.put("can.las", &file(code, &points));
        assert_eq!(of(&[], &path), (words.into(), Some(0)));
        assert_eq!(of(&["--to", "old"], &path), (words.into(), Some(0)));
    }
    let one = folder.put("one.las", &file(6, &points[..1]));
    assert_eq!(
        of(&[], &one).0,
        "yes: from format 6 to 1, 1 point, 28 bytes"
    );
    let none = folder.put("none.las", &file(6, &[]));
    assert_eq!(
        of(&[], &none),
        ("yes: from format 6 to 1, 0 points, 0 bytes".into(), Some(0))
    );
    // The bytes of the points, and not of their format, with what is extra.
    let extra = [header(6, 3, 1).to_vec(&[]).unwrap(), vec![0; 33]].concat();
    let extra = folder.put("extra.las", &extra);
    assert_eq!(
        of(&[], &extra).0,
        "yes: from format 6 to 1, 1 point, 31 bytes"
    );
}

#[test]
fn the_first_point_and_field_that_cannot_in_words() {
    let folder = Folder::new("ask-no");
    let with = |change: fn(&mut Point<'_>)| {
        let mut points: Vec<Point<'_>> = (0..50).map(fits).collect();
        change(&mut points[40]);
        // Another one after it, which is not told.
        points[45].flags = ThreeByte(0x99, 0x38, 99);
        folder.put("no.las", &file(8, &points))
    };
    let place = "; the point lies at x 1040.00, y 2004.00, z 0.40";
    for (change, words) in [
        (
            (|p| p.flags = ThreeByte(0x18, 0, 2)) as fn(&mut Point<'_>),
            "no: point 41: the return number is 8: the old point formats hold 0 to 7",
        ),
        (
            |p| p.flags = ThreeByte(0x91, 0, 2),
            "no: point 41: the number of returns is 9: the old point formats hold 0 to 7",
        ),
        (
            |p| p.flags = ThreeByte(0x11, 0, 64),
            "no: point 41: the class is 64: the old point formats hold 0 to 31",
        ),
        (
            |p| p.flags = ThreeByte(0x11, 0x20, 2),
            "no: point 41: the scanner channel is 2: the old point formats have none, which is 0",
        ),
        (
            |p| p.flags = ThreeByte(0x11, 0x08, 2),
            "no: point 41: the overlap flag on class 2: the old point formats say overlap by class 12 alone, and class 2 \
             would be lost",
        ),
        (
            |p| p.flags = ThreeByte(0x11, 0, 12),
            "no: point 41: class 12 without the overlap flag: in the old point formats class 12 says overlap",
        ),
        (
            |p| p.nir = Some(7),
            "no: point 41: near infrared is 7: the old point format has none, which is 0",
        ),
        (
            |p| p.scan_angle = ScanAngle::Scaled(-15_084),
            "no: point 41: the scan angle is -90.504 degrees: rounded, it must be -90 to 90 in the old point formats",
        ),
    ] {
        let (line, status) = of(&[], &with(change));
        assert_eq!(line, format!("{words}{place}"));
        assert_eq!(status, Some(1));
    }
    // The point that is told is the one that `points` shows.
    let shown = tool()
        .args([
            "points", "--skip", "40", "--limit", "1", "--fields", "x,y,z",
        ])
        .arg(folder.join("no.las"))
        .output()
        .unwrap();
    assert_eq!(told(&shown).0, "x,y,z\n1040.00,2004.00,0.40\n");
    // Where the header's scale is no number, nothing is said of the place.
    let mut bytes = file(
        6,
        &[Point {
            flags: ThreeByte(0x11, 0, 32),
            ..fits(0)
        }],
    );
    bytes[131..139].copy_from_slice(&f64::NAN.to_le_bytes());
    let (line, _) = of(&[], &folder.put("nan.las", &bytes));
    assert_eq!(
        line,
        "no: point 1: the class is 32: the old point formats hold 0 to 31"
    );
}

#[test]
fn formats_without_a_pair() {
    let folder = Folder::new("ask-pairs");
    for code in 0..=10 {
        let path = folder.put("all.las", &file(code, &[]));
        let (old, status) = of(&[], &path);
        match code {
            0..=5 => assert_eq!(
                old,
                format!("no: its points are in old format {code} already")
            ),
            _ => assert!(old.starts_with(&format!("yes: from format {code} to "))),
        }
        assert_eq!(status, Some(if code < 6 { 1 } else { 0 }));
        let (new, status) = of(&["--to", "new"], &path);
        match code {
            0 | 2 => assert_eq!(
                new,
                format!("no: its points are of format {code}, which has no time, and every new format has one")
            ),
            1 | 3 | 4 | 5 => assert!(new.starts_with(&format!("yes: from format {code} to "))),
            _ => assert_eq!(new, format!("no: its points are in new format {code} already")),
        }
        assert_eq!(
            status,
            Some(if [1, 3, 4, 5].contains(&code) { 0 } else { 1 })
        );
    }
    // An old record of 65,535 bytes, which a new one would be longer than.
    let extra = 65_535 - 28;
    let longest = folder.put("longest.las", &header(1, extra, 0).to_vec(&[]).unwrap());
    assert_eq!(
        of(&["--to=new"], &longest),
        (
            "no: a point record of this format would have 65537 bytes: 65535 are the most".into(),
            Some(1)
        )
    );
}

#[test]
fn a_folder_as_operators_have_it() {
    let folder = Folder::new("ask-folder");
    let points: Vec<Point<'_>> = (0..10).map(fits).collect();
    let good = file(6, &points);
    for (name, bytes) in [
        ("a-good.las", &good[..]),
        ("b-good.LAS", &file(7, &points)),
        ("c-overlap.las", &fs::read(sample()).unwrap()),
        ("d-old.las", &plain(3)),
        ("e-cut.las", &good[..good.len() - 1]),
        ("f-empty.las", b""),
        ("g-text.las", b"no LAS file"),
        ("readme.txt", b"text"),
    ] {
        folder.put(name, bytes);
    }
    fs::create_dir(folder.join("more")).unwrap();
    let all = folder.join("");
    let (out, err, status) = ask(&[], &[&all]);
    let lines: Vec<&str> = out
        .lines()
        .map(|line| line.strip_prefix(all.to_str().unwrap()).unwrap_or(line))
        .collect();
    let refused = |line: &str| line.contains(".las: refused ");
    assert_eq!(
        lines[0],
        "a-good.las: yes: from format 6 to 1, 10 points, 280 bytes"
    );
    assert_eq!(
        lines[1],
        "b-good.LAS: yes: from format 7 to 3, 10 points, 340 bytes"
    );
    assert!(lines[2].starts_with("c-overlap.las: no: point 25: the overlap flag on class 2: "));
    assert!(lines[2].ends_with("; the point lies at x 500012.027, y 5400000.320, z 112.288"));
    assert_eq!(
        lines[3],
        "d-old.las: no: its points are in old format 0 already"
    );
    assert!(lines[4].starts_with("e-cut.las: refused 12 10 0 (point extent): the points run past"));
    assert!(lines[4..7].iter().all(|line| refused(line)), "{out}");
    assert_eq!(
        lines[7..],
        ["7 files: 2 can go (20 points, 620 bytes), 2 cannot (1 of them old already), 3 refused; 2 others there are no .las files"]
    );
    assert_eq!((err.as_str(), status), ("", Some(1)));

    // All can go; and one that is not there.
    let (good, other) = (folder.join("a-good.las"), folder.join("b-good.LAS"));
    let (out, _, status) = ask(&[], &[&good, &other]);
    assert_eq!(
        (out.lines().last(), status),
        (
            Some("2 files: 2 can go (20 points, 620 bytes), 0 cannot"),
            Some(0)
        )
    );
    let (out, err, status) = ask(&[], &[&folder.join("missing.las"), &good]);
    assert_eq!(
        (out.lines().last(), status),
        (
            Some("2 files: 1 can go (10 points, 280 bytes), 0 cannot, 1 could not be read"),
            Some(2)
        )
    );
    assert!(err.contains("missing.las: there is no such file"));
    let (_, err, status) = ask(&[], &[&folder.join("more")]);
    assert!(err.contains("there is no .las file in this folder") && status == Some(2));
}

#[test]
fn for_programs() {
    let folder = Folder::new("ask-json");
    let points: Vec<Point<'_>> = (0..3).map(fits).collect();
    let good = folder.put("good.las", &file(10, &points));
    let old = folder.put("old.las", &plain(3));
    let cut = folder.put("cut.las", &plain(3)[..250]);
    let (out, err, status) = ask(&["--json"], &[&good, &sample(), &old, &cut]);
    let expected = [
        format!(
            r#"{{"file":"{}","accepted":true,"can_go":true,"format":10,"points":3,"to_format":5,"to_bytes":189}}"#,
            good.display()
        ),
        format!(
            r#"{{"file":"{}","accepted":true,"can_go":false,"format":6,"points":2998,"refusal":{{"number":19,"name":"overlap","value":2,"record":25,"words":"point 25: the overlap flag on class 2: the old point formats say overlap by class 12 alone, and class 2 would be lost"}},"x":500012.027,"y":5400000.320,"z":112.288}}"#,
            sample().display()
        ),
        format!(
            r#"{{"file":"{}","accepted":true,"can_go":false,"format":0,"points":3,"refusal":{{"number":26,"name":"no pair","value":0,"record":0,"words":"point format 0 has no pair to be converted to: 6 to 10 have old ones (1, 3, 3, 4, 5), and 1, 3, 4 and 5 new ones (6, 7, 9, 10)"}},"x":null,"y":null,"z":null}}"#,
            old.display()
        ),
        format!(
            r#"{{"file":"{}","accepted":false,"can_go":false,"refusal":{{"number":12,"name":"point extent","value":3,"record":0,"words":"the points run past the end of the file: the header counts 3 of them; the file may have been cut off"}}}}"#,
            cut.display()
        ),
    ];
    assert_eq!(out.lines().collect::<Vec<_>>(), expected);
    assert_eq!((err.as_str(), status), ("", Some(1)));
}

#[test]
fn the_standard_input() {
    let whole = fs::read(sample()).unwrap();
    let mut child = tool()
        .args(["ask", "-"])
        .stdin(Stdio::piped())
        .stdout(Stdio::piped())
        .spawn()
        .unwrap();
    child.stdin.take().unwrap().write_all(&whole).unwrap();
    let output = child.wait_with_output().unwrap();
    let (out, _, status) = told(&output);
    assert!(out.starts_with("standard input: no: point 25: the overlap flag on class 2"));
    assert_eq!(status, Some(1));
}

#[test]
fn where_to() {
    let missing = Path::new("/nowhere/missing.las");
    for to in ["older", "", "OLD"] {
        let (out, err, status) = ask(&["--to", to], &[missing]);
        assert!(
            err.contains(&format!(
                "--to needs one of old, new, 1.2, 1.4, and '{to}' is none;"
            )),
            "{err}"
        );
        assert!(!err.contains("no such file"));
        assert_eq!((out.as_str(), status), ("", Some(2)));
    }
}

/// Whatever the points are, the tool says what the crate answers, and the crate writes what it answered.
#[test]
fn the_crate_says_the_same() {
    let folder = Folder::new("ask-crate");
    for code in 0..=10 {
        for extra in [0, 2] {
            let bytes = rich(code, extra);
            let path = folder.put("rich.las", &bytes);
            let run = File::check(&bytes).unwrap().run();
            for (options, answer, written) in [
                (&["--json", "--to", "old"], run.ask_old(), run.to_old()),
                (&["--json", "--to", "new"], run.ask_new(), run.to_new()),
            ] {
                let (out, _, status) = ask(options, &[&path]);
                match answer {
                    Ok(bytes) => {
                        assert!(
                            out.ends_with(&format!(",\"to_bytes\":{bytes}}}\n")),
                            "{out}"
                        );
                        assert_eq!(status, Some(0));
                        assert_eq!(written.map(|bytes| bytes.len()), Ok(bytes));
                    }
                    Err(refusal) => {
                        let (number, name) = (refusal.number(), refusal.name());
                        let (value, record) = (refusal.value(), refusal.record());
                        let told = format!(
                            "\"refusal\":{{\"number\":{number},\"name\":\"{name}\",\"value\":{value},\"record\":{record},"
                        );
                        assert!(out.contains(&told), "{out}");
                        assert_eq!(status, Some(1));
                        assert_eq!(written, Err(refusal));
                    }
                }
            }
        }
    }
}

#[test]
fn long_work_is_shown() {
    let folder = Folder::new("ask-progress");
    let path = folder.join("huge.las");
    let bytes: u64 = 20_000_000_000;
    fs::write(&path, header(6, 0, (bytes - 375) / 30).to_vec(&[]).unwrap()).unwrap();
    let made = fs::File::options().write(true).open(&path).unwrap();
    made.set_len(bytes).unwrap();
    let watched = format!(
        "timeout 3 {} ask {} >/dev/null",
        env!("CARGO_BIN_EXE_inscjarol"),
        path.display()
    );
    // `script` is what makes a terminal.
    let output = match Command::new("script")
        .args(["-qec", &watched, "/dev/null"])
        .output()
    {
        Ok(output) => output,
        Err(_) => return,
    };
    let shown = String::from_utf8(output.stdout).unwrap();
    assert!(shown.contains("huge.las: 1 s"), "{shown:?}");
}
