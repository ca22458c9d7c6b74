//! `inscjarol append`, run as its users run it: and killed.

#[path = "../../tests/common/mod.rs"]
mod common;

use common::{plain, rich, Chance, Folder};
use inscjarol::{Append, Appended, File, Flags, Format, NewFile, Point, Writer};
use std::{
    fs,
    io::Write,
    os::unix::{
        fs::{symlink, PermissionsExt},
        process::ExitStatusExt,
    },
    path::Path,
    process::{Command, Output, Stdio},
    thread,
    time::{Duration, Instant},
};

fn tool() -> Command {
    Command::new(env!("CARGO_BIN_EXE_inscjarol"))
}

/// What it wrote and said, and its status.
fn told(output: &Output) -> (String, String, Option<i32>) {
    let text = |bytes: &[u8]| String::from_utf8(bytes.to_vec()).unwrap();
    (
        text(&output.stdout),
        text(&output.stderr),
        output.status.code(),
    )
}

/// `inscjarol append` on a file, with these words after it.
fn append(file: &Path, words: &[&str]) -> (String, String, Option<i32>) {
    told(&tool().arg("append").arg(file).args(words).output().unwrap())
}

/// Records of format 0 with these x, y and z of half of them, all of them first returns.
fn sweep(xs: impl Iterator<Item = i32>) -> Vec<u8> {
    xs.flat_map(|x| {
        let point = Point {
            x,
            y: x / 2,
            z: x / 2,
            flags: Flags::TwoByte(1, 2),
            ..Point::default()
        };
        point.to_vec(Format::default()).unwrap()
    })
    .collect()
}

/// What an append in memory leaves, in a file that is as long as it has to be.
fn uncut(file: &[u8], records: &[u8], believed: u64) -> Vec<u8> {
    let checked = File::check(file).unwrap();
    let append = Append::of(&checked, records, believed);
    let mut bytes = file.to_vec();
    let end = checked.header().offset_to_point_data as usize + checked.run().records.len();
    bytes.resize(bytes.len().max(end + records.len()), 0);
    assert_eq!(append.apply(&mut bytes), Ok(Appended::Added));
    bytes
}

#[test]
fn added_and_already_in() {
    let folder = Folder::new("append");
    let bytes = plain(3);
    let file = folder.put("file.las", &bytes);
    let records = sweep(-30..30);
    let from = folder.put("records", &records);
    let from = from.to_str().unwrap();
    let expected = uncut(&bytes, &records, 3);

    let (out, err, status) = append(&file, &[from, "--believed", "3"]);
    assert!(
        out.ends_with("file.las: added: 60 records, 63 points now\n"),
        "{out}"
    );
    assert_eq!((err.as_str(), status), ("", Some(0)));
    assert_eq!(fs::read(&file).unwrap(), expected);

    let (out, err, status) = append(&file, &[from, "--believed=3"]);
    assert!(
        out.ends_with("file.las: already in: 60 records, 63 points; nothing was written\n"),
        "{out}"
    );
    assert_eq!((err.as_str(), status), ("", Some(0)));
    assert_eq!(fs::read(&file).unwrap(), expected);

    let header = *File::check(&expected).unwrap().header();
    assert_eq!((header.min_x, header.max_x), (-30.0, 29.0));
    assert_eq!((header.min_z, header.max_z), (-15.0, 14.0));
    assert_eq!(header.number_of_points_by_return, [60, 0, 0, 0, 0]);
}

#[test]
fn by_the_standard_input_and_a_link() {
    let folder = Folder::new("append-stdin");
    let bytes = plain(3);
    let file = folder.put("file.las", &bytes);
    let link = folder.join("link.las");
    symlink(&file, &link).unwrap();
    // More than is read at first, and nothing like a LAS file.
    let records = sweep(0..1_000);
    let mut child = tool()
        .args(["append", "--json", "--believed", "3"])
        .arg(&link)
        .arg("-")
        .stdin(Stdio::piped())
        .stdout(Stdio::piped())
        .spawn()
        .unwrap();
    child.stdin.take().unwrap().write_all(&records).unwrap();
    let (out, _, status) = told(&child.wait_with_output().unwrap());
    assert!(
        out.ends_with(
            "\"accepted\":true,\"appended\":\"added\",\"records\":1000,\"points\":1003,\"room\":0,\"bytes\":20287}\n"
        ),
        "{out}"
    );
    assert_eq!(status, Some(0));
    assert_eq!(fs::read(&file).unwrap(), uncut(&bytes, &records, 3));
    let given = fs::File::open(folder.put("records", &records)).unwrap();
    let output = tool()
        .args(["append", "--json", "--believed", "3"])
        .arg(&file)
        .arg("-")
        .stdin(given)
        .output()
        .unwrap();
    assert!(told(&output).0.contains("\"appended\":\"already in\""));
}

#[test]
fn bounds_as_they_are_given() {
    let folder = Folder::new("append-bounds");
    let file = folder.put("file.las", &plain(3));
    let from = folder.put("records", &sweep(0..2));
    let from = from.to_str().unwrap();
    let given = ["--bounds", "2, -1.5,3e3,3e3,nan,-inf", "--believed", "3"];
    let (_, err, status) = append(&file, &[&[from], &given[..]].concat());
    assert_eq!((err.as_str(), status), ("", Some(0)));
    let bytes = fs::read(&file).unwrap();
    let header = *File::check(&bytes).unwrap().header();
    assert_eq!((header.max_x, header.min_x), (2.0, -1.5));
    assert_eq!((header.max_y, header.min_y), (3_000.0, 3_000.0));
    assert!(header.max_z.is_nan() && header.min_z == f64::NEG_INFINITY);
    for wrong in ["1,2,3,4,5", "1,2,3,4,5,6,7", "1,2,3,4,5,six", ""] {
        let (_, err, status) = append(&file, &[from, "--believed", "5", "--bounds", wrong]);
        assert!(err.contains("--bounds needs six numbers"), "{err}");
        assert_eq!((status, fs::read(&file).unwrap()), (Some(2), bytes.clone()));
    }
    for (wrong, said) in [
        ("-1.5,2,4,3,6,5", "max x -1.5 is below min x 2"),
        ("2,1,3,4,6,5", "max y 3 is below min y 4"),
        ("2,1,4,3,5,6", "max z 5 is below min z 6"),
    ] {
        let (_, err, status) = append(&file, &[from, "--believed", "5", "--bounds", wrong]);
        let order = "each max before its min (max x, min x, max y, min y, max z, min z)";
        assert!(err.contains(order) && err.contains(said), "{err}");
        assert_eq!((status, fs::read(&file).unwrap()), (Some(2), bytes.clone()));
    }
}

#[test]
fn room() {
    let folder = Folder::new("append-room");
    let file = folder.put("file.las", &plain(3));
    let records = sweep(0..10);
    let from = folder.put("records", &records);
    let from = from.to_str().unwrap();
    let (out, err, status) = append(&file, &["--room", "1000"]);
    assert!(
        out.ends_with("file.las: 3 points; room for 1,000 more\n"),
        "{out}"
    );
    assert_eq!((err.as_str(), status), ("", Some(0)));
    let bytes = fs::read(&file).unwrap();
    assert_eq!(bytes.len(), 227 + 1_003 * 20);
    let (out, _, _) = append(&file, &[from, "--believed", "3"]);
    assert!(
        out.ends_with("added: 10 records, 13 points now; room for 990 more\n"),
        "{out}"
    );
    assert_eq!(fs::read(&file).unwrap(), uncut(&bytes, &records, 3));
    let (out, _, status) = append(&file, &[from, "--believed", "13", "--room", "990"]);
    assert!(
        out.ends_with("added: 10 records, 23 points now; room for 990 more\n"),
        "{out}"
    );
    assert_eq!(status, Some(0));
    let (out, _, _) = append(&file, &["--json", "--room", "5"]);
    assert!(
        out.ends_with(
            "\"appended\":null,\"records\":0,\"points\":23,\"room\":990,\"bytes\":20487}\n"
        ),
        "{out}"
    );
}

#[test]
fn what_is_refused() {
    let folder = Folder::new("append-refused");
    let from = folder.put("records", &sweep(0..10));
    let none = folder.put("none", b"");
    let (from, none) = (from.to_str().unwrap(), none.to_str().unwrap());
    let mut full = plain(3);
    full[111..115].copy_from_slice(&u32::MAX.to_le_bytes());
    for (bytes, words, numbers) in [
        (
            plain(3)[..286].to_vec(),
            [from, "3"],
            "refused 12 3 0 (point extent)",
        ),
        (rich(3, 0), [from, "5"], "refused 28 0 0 (not version 1.2)"),
        (plain(3), [none, "3"], "refused 29 0 0 (no records)"),
        (plain(3), [from, "4"], "refused 30 0 0 (count neither)"),
        (full, [from, "3"], "refused 31 0 0 (count too large)"),
    ] {
        let file = folder.put("file.las", &bytes);
        let [from, believed] = words;
        let (out, err, status) = append(&file, &[from, "--believed", believed]);
        assert_eq!((out.as_str(), status), ("", Some(1)));
        assert!(err.contains(&format!("file.las: {numbers}: ")), "{err}");
        let (out, err, status) = append(&file, &[from, "--believed", believed, "--json"]);
        assert!(out.contains("\"accepted\":false,\"refusal\":{\"number\""));
        assert_eq!((err.as_str(), status), ("", Some(1)));
        assert_eq!(fs::read(&file).unwrap(), bytes);
    }
    let file = folder.put("file.las", &rich(3, 0));
    let (_, err, status) = append(&file, &["--room", "5"]);
    assert!(err.contains("refused 28") && status == Some(1), "{err}");
    assert_eq!(fs::read(&file).unwrap(), rich(3, 0));
}

#[test]
fn what_cannot_be_done() {
    let folder = Folder::new("append-failed");
    let file = folder.put("file.las", &plain(3));
    let from = folder.put("records", &sweep(0..10));
    let from = from.to_str().unwrap();
    let odd = folder.put("odd", &[0; 41]);
    let locked = folder.put("locked.las", &plain(3));
    // SAFETY: nobody else writes to it.
    let _writer = unsafe { Writer::open(&locked) }.unwrap();
    let read_only = folder.put("read-only.las", &plain(3));
    fs::set_permissions(&read_only, fs::Permissions::from_mode(0o444)).unwrap();
    for (file, from, words) in [
        (
            &file,
            odd.to_str().unwrap(),
            "odd: it has 41 bytes, which are no whole records: one of ",
        ),
        (
            &file,
            "/nowhere/at/all",
            "/nowhere/at/all: there is no such file",
        ),
        (&file, "/dev/zero", "/dev/zero: it is a device, not a file"),
        (
            &file,
            file.to_str().unwrap(),
            "it is the file that it is to be appended to",
        ),
        (
            &folder.join("no.las"),
            from,
            "no.las: there is no such file",
        ),
        (&folder.join("."), from, "it is a folder, not a file"),
        (
            &Path::new("/dev/null").into(),
            from,
            "it is no regular file",
        ),
        (
            &locked,
            from,
            "locked.las: another program is writing to it",
        ),
        (&read_only, from, "read-only.las: it is read-only"),
    ] {
        let (out, err, status) = append(file, &[from, "--believed", "3"]);
        assert!(err.contains(words), "{err}");
        assert_eq!((out.as_str(), status), ("", Some(2)));
    }
    assert_eq!(fs::read(&file).unwrap(), plain(3));
    for (words, said) in [
        (&[from][..], "it needs --believed"),
        (&[], "it needs FILE RECORDS"),
        (&["--believed", "3"], "it needs FILE RECORDS"),
        (
            &["--room", "3", "--bounds", "2,1,4,3,6,5"],
            "it needs FILE RECORDS",
        ),
        (
            &[from, "--believed", "three"],
            "--believed needs a number, and 'three' is none",
        ),
        (&[from, "--believed", "-3"], "--believed needs a number"),
        (&[from, from, "--believed", "3"], "and no more"),
    ] {
        let (out, err, status) = append(&file, words);
        assert!(err.contains(said), "{err}");
        assert_eq!((out.as_str(), status), ("", Some(2)));
    }
    let (_, err, status) = append(Path::new("-"), &[from, "--believed", "3"]);
    assert!(err.contains("FILE has to be a file") && status == Some(2));
}

#[test]
fn a_file_that_may_not_become_so_long() {
    let folder = Folder::new("append-long");
    let file = folder.put("file.las", &plain(3));
    folder.put("records", &vec![0; 20 * 2_000]);
    let script = format!(
        "ulimit -f 8; {} append file.las records --believed 3",
        env!("CARGO_BIN_EXE_inscjarol")
    );
    let output = Command::new("sh")
        .args(["-c", &script])
        .current_dir(folder.join(""))
        .output()
        .unwrap();
    let (_, err, status) = told(&output);
    assert!(err.contains("the same append can be repeated"), "{err}");
    assert_eq!(status, Some(2));
    assert_eq!(fs::read(&file).unwrap(), plain(3));
}

#[test]
fn many_at_once() {
    let folder = Folder::new("append-many");
    let mut bytes = plain(3);
    let file = folder.put("file.las", &bytes);
    let mut locked = 0;
    for number in 0..10 {
        let believed = 3 + 2_000 * number;
        let records = sweep(number as i32..number as i32 + 2_000);
        let from = folder.put("records", &records);
        // All of them offer the same sweep.
        let begin = || {
            tool()
                .arg("append")
                .args([&file, &from])
                .args(["--believed", &believed.to_string()])
                .stdout(Stdio::piped())
                .stderr(Stdio::piped())
                .spawn()
                .unwrap()
        };
        let children: Vec<_> = (0..8).map(|_| begin()).collect();
        let mut added = 0;
        for child in children {
            let (out, err, status) = told(&child.wait_with_output().unwrap());
            match status {
                Some(0) if out.contains(": added: ") => added += 1,
                Some(0) => assert!(out.contains(": already in: "), "{out}"),
                _ => {
                    assert!(err.contains("another program is writing to it"), "{err}");
                    locked += 1;
                }
            }
        }
        bytes = uncut(&bytes, &records, believed);
        assert_eq!((added, fs::read(&file).unwrap() == bytes), (1, true));
    }
    assert!(locked < 80);
}

#[test]
fn killed_at_any_moment() {
    let folder = Folder::new("append-killed");
    let file = folder.join("file.las");
    NewFile::new(0).room(100).create(&file).unwrap();
    let mut chance = Chance(7);
    let mut believed = 0;
    let (mut kills, mut cut) = (0, 0);
    let begun = Instant::now();
    // Sweep after sweep, each offered until the tool lives to say that it is in.
    for number in 0..12 {
        let before = fs::read(&file).unwrap();
        let count = 20_000 + number;
        let records = sweep(number..number + count);
        let from = folder.put("records", &records);
        let expected = uncut(&before, &records, believed);
        let old = File::check(&before).unwrap().run().records.to_vec();
        for attempt in 0.. {
            let mut child = tool()
                .arg("append")
                .args([&file, &from])
                .args(["--believed", &believed.to_string()])
                .stdout(Stdio::null())
                .spawn()
                .unwrap();
            // Longer and longer, until it has the time that it takes.
            let wait = Duration::from_micros(chance.next() % (3_000 * (attempt + 1)));
            thread::sleep(wait);
            let _ = child.kill();
            let status = child.wait().unwrap();
            let state = fs::read(&file).unwrap();
            let points = File::check(&state).unwrap().run().records;
            if points == old {
                assert!(!status.success());
                cut += u64::from(state != before);
            } else {
                assert_eq!(points, [old.as_slice(), &records].concat());
                assert_eq!(state, expected);
            }
            match status.signal() {
                Some(signal) => {
                    assert_eq!(signal, 9);
                    kills += 1;
                }
                None => {
                    assert_eq!(status.code(), Some(0));
                    break;
                }
            }
        }
        assert_eq!(fs::read(&file).unwrap(), expected);
        believed += count as u64;
    }
    let _ = writeln!(
        std::io::stderr(),
        "the tool killed while it appended: {kills} times, {cut} of them in the midst of it, 0 broken, {:?}",
        begun.elapsed()
    );
}
