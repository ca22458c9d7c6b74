//! `inscjarol classify`, run as its users run it.

#[path = "../../tests/common/mod.rs"]
mod common;

use common::{old, plain, rich, sample, Chance, Folder};
use inscjarol::{File, Reclassify, Writer};
use std::{
    fs,
    os::unix::fs::{symlink, PermissionsExt},
    path::Path,
    process::{Command, Output, Stdio},
    thread,
    time::Duration,
};

fn tool() -> Command {
    Command::new(env!("CARGO_BIN_EXE_inscjarol"))
}

/// What it wrote and said, and its status.
fn told(output: &Output) -> (String, String, Option<i32>) {
    let text = |bytes: &[u8]| String::from_utf8(bytes.to_vec()).unwrap();
    (
        text(&output.stdout),
        text(&output.stderr),
        output.status.code(),
    )
}

/// `inscjarol classify` on a file, with these words after it, by the file's name alone.
fn classify(file: &Path, words: &str) -> (String, String, Option<i32>) {
    let mut tool = tool();
    tool.current_dir(file.parent().unwrap());
    tool.arg("classify").arg(file.file_name().unwrap());
    told(&tool.args(words.split_whitespace()).output().unwrap())
}

/// The file with these classes.
fn with(bytes: &[u8], points: &[(u64, u8)]) -> Vec<u8> {
    let mut bytes = bytes.to_vec();
    for &(point, class) in points {
        Reclassify { point, class }.apply(&mut bytes).unwrap();
    }
    bytes
}

#[test]
fn corrected_and_undone() {
    let folder = Folder::new("classify");
    let before = fs::read(sample()).unwrap();
    let file = folder.put("survey.las", &before);

    let ask = classify(&file, "--point 25 --class 7 --ask");
    let yes = "survey.las: point 25: yes: from class 2 to 7\n";
    assert_eq!(ask, (yes.into(), "".into(), Some(0)));
    assert_eq!(fs::read(&file).unwrap(), before);

    let done = classify(&file, "--point 25 --class 7");
    let class = "survey.las: point 25: class 7, was 2\n";
    assert_eq!(done, (class.into(), "".into(), Some(0)));
    assert_eq!(fs::read(&file).unwrap(), with(&before, &[(25, 7)]));

    // Again, it was so already; and then it is undone.
    let (out, ..) = classify(&file, "--class=7 --point=25");
    assert_eq!(out, "", "the class comes after its point");
    let (out, ..) = classify(&file, "--point=25 --class=7");
    assert_eq!(out, "survey.las: point 25: class 7, was 7\n");
    let (out, ..) = classify(&file, "--point 25 --class 2");
    assert_eq!(out, "survey.las: point 25: class 2, was 7\n");
    assert_eq!(fs::read(&file).unwrap(), before);
}

#[test]
fn many_points_of_every_format() {
    let folder = Folder::new("classify-many");
    let words = "--point 5 --class 31 --json --point 1 --class 0 --point 3 --class 12";
    for code in 0..=10 {
        let before = rich(code, 2);
        let file = folder.put("survey.las", &before);
        let class = |point: usize| {
            let point = File::check(&before).unwrap().points().nth(point - 1);
            point.unwrap().flags.class()
        };
        let (out, err, status) = classify(&file, words);
        let line = |point: usize, to: u8| {
            format!(
                "{{\"file\":\"survey.las\",\"accepted\":true,\"written\":true,\"point\":{point},\"was\":{},\"class\":{to}}}\n",
                class(point)
            )
        };
        assert_eq!(out, [line(5, 31), line(1, 0), line(3, 12)].concat());
        assert_eq!((err.as_str(), status), ("", Some(0)));
        let after = with(&before, &[(5, 31), (1, 0), (3, 12)]);
        assert_eq!(fs::read(&file).unwrap(), after);
        let changed = before.iter().zip(&after).filter(|(old, new)| old != new);
        assert!(changed.count() <= 3);
    }
}

#[test]
fn what_is_refused() {
    let folder = Folder::new("classify-refused");
    let goes_up = old(3, &mut Chance(4));
    let points = File::check(&goes_up).unwrap().point_count();
    assert!(points > 1);
    for (bytes, words, said) in [
        (
            plain(3),
            "--point 4 --class 2",
            "point 4: there is none with this number: the file has 3 points, counted from 1\n",
        ),
        (
            plain(3),
            "--point 0 --class 200",
            "point 0: there is none with this number: the file has 3 points, counted from 1\n",
        ),
        (
            plain(3),
            "--point 3 --class 32",
            "point 3: class 32 has no place: points of format 0 hold classes 0 to 31; formats 6 to 10 hold 0 to 255\n",
        ),
        (
            goes_up,
            "--point 2 --class 255",
            "point 2: class 255 has no place: points of format 3 hold classes 0 to 31; 'inscjarol convert --to 1.4 \
             survey.las' makes a file of it whose points hold 0 to 255\n",
        ),
        (
            rich(10, 0),
            "--point 18446744073709551615 --class 255",
            "point 18446744073709551615: there is none with this number: the file has 5 points, counted from 1\n",
        ),
        (
            plain(3)[..250].to_vec(),
            "--point 1 --class 2",
            "refused 12 3 0 (point extent): the points run past the end of the file",
        ),
        (b"no".to_vec(), "--point 1 --class 2", "refused 1 4 0 (short)"),
    ] {
        let file = folder.put("survey.las", &bytes);
        let (out, err, status) = classify(&file, words);
        assert_eq!((out.as_str(), status), ("", Some(1)));
        assert!(err.starts_with(&format!("inscjarol: survey.las: {said}")), "{err}");
        let (out, err, status) = classify(&file, &format!("{words} --json"));
        assert!(out.contains("\"written\":false,") && out.contains("\"refusal\":{\"number\""), "{out}");
        assert_eq!((err.as_str(), status), ("", Some(1)));
        let (_, _, status) = classify(&file, &format!("{words} --ask"));
        assert_eq!((status, fs::read(&file).unwrap()), (Some(1), bytes));
    }
}

#[test]
fn where_one_is_refused_none_is_changed() {
    let folder = Folder::new("classify-none");
    let file = folder.put("survey.las", &plain(3));
    let words = "--point 1 --class 2 --point 4 --class 2 --point 3 --class 2 --point 2 --class 40";
    let no = [
        "point 4: there is none with this number: the file has 3 points, counted from 1",
        "point 2: class 40 has no place: points of format 0 hold classes 0 to 31; formats 6 to 10 hold 0 to 255",
    ];
    let (out, err, status) = classify(&file, words);
    assert_eq!(
        out,
        "survey.las: point 1: class 0, not changed\nsurvey.las: point 3: class 0, not changed\n"
    );
    let [fourth, second] = no.map(|words| format!("inscjarol: survey.las: {words}\n"));
    assert_eq!((err, status), ([fourth, second].concat(), Some(1)));
    let (out, err, status) = classify(&file, &format!("--ask {words}"));
    let lines: Vec<&str> = out.lines().collect();
    assert_eq!(lines[0], "survey.las: point 1: yes: from class 0 to 2");
    assert_eq!(
        lines[1],
        format!("survey.las: {}", no[0].replace(": there", ": no: there"))
    );
    assert_eq!(
        lines[3],
        format!(
            "survey.las: {}",
            no[1].replace(": class 40", ": no: class 40")
        )
    );
    assert_eq!((lines.len(), err.as_str(), status), (4, "", Some(1)));
    let (out, _, _) = classify(&file, &format!("--json {words}"));
    let wrote = "{\"file\":\"survey.las\",\"accepted\":true,\"written\":false,\"point\":";
    assert_eq!(out.matches(wrote).count(), 4);
    assert!(out.contains(
        ":4,\"class\":2,\"refusal\":{\"number\":27,\"name\":\"index\",\"value\":3,\"record\":0,"
    ));
    assert!(out.contains(
        ":2,\"class\":40,\"refusal\":{\"number\":17,\"name\":\"class\",\"value\":40,\"record\":0,"
    ));
    assert_eq!(fs::read(&file).unwrap(), plain(3));
}

#[test]
fn what_cannot_be_done() {
    let folder = Folder::new("classify-failed");
    let file = folder.put("survey.las", &plain(3));
    let locked = folder.put("locked.las", &plain(3));
    // SAFETY: nobody else writes to it.
    let _writer = unsafe { Writer::open(&locked) }.unwrap();
    let read_only = folder.put("read-only.las", &plain(3));
    fs::set_permissions(&read_only, fs::Permissions::from_mode(0o444)).unwrap();
    fs::create_dir(folder.join("folder")).unwrap();
    let one = "--point 1 --class 2";
    for (file, words) in [
        (folder.join("no.las"), "no.las: there is no such file"),
        (folder.join("folder"), "folder: it is a folder, not a file"),
        ("/dev/null".into(), "it is no regular file"),
        (
            locked.clone(),
            "locked.las: another program is writing to it",
        ),
        (read_only.clone(), "read-only.las: it is read-only"),
    ] {
        let (out, err, status) = classify(&file, one);
        assert!(err.contains(words), "{err}");
        assert_eq!((out.as_str(), status), ("", Some(2)));
        let (out, _, status) = classify(&file, &format!("{one} --json"));
        assert!(out.contains("\"error\":\"") && status == Some(2), "{out}");
    }
    // Who only asks needs neither the lock nor a file that may be written.
    for file in [&locked, &read_only] {
        let (out, _, status) = classify(file, &format!("{one} --ask"));
        assert!(
            out.ends_with("point 1: yes: from class 0 to 2\n") && status == Some(0),
            "{out}"
        );
    }
    for (words, said) in [
        ("", "it needs --point N --class C"),
        ("--ask", "it needs --point N --class C"),
        ("--point 1", "each --point needs its --class right after it"),
        ("--class 2", "each --point needs its --class right after it"),
        (
            "--class 2 --point 1",
            "each --point needs its --class right after it",
        ),
        (
            "--point 1 --point 2 --class 2 --class 2",
            "each --point needs its --class",
        ),
        (
            "--point 1 --class 2 --point 2",
            "each --point needs its --class",
        ),
        (
            "--point 1 --class 2 --point 1 --class 3",
            "point 1 is there twice",
        ),
        (
            "--point one --class 2",
            "--point needs a number, and 'one' is none",
        ),
        (
            "--point -1 --class 2",
            "--point needs a number, and '-1' is none",
        ),
        (
            "--point 1 --class 256",
            "--class needs a number from 0 to 255, and '256' is none",
        ),
        (
            "--point 1 --class ground",
            "--class needs a number from 0 to 255, and 'ground' is none",
        ),
        ("--point 1 --class", "--class needs C"),
        ("other.las --point 1 --class 2", "and no more"),
    ] {
        let (out, err, status) = classify(&file, words);
        assert!(err.contains(said), "{err}");
        assert_eq!((out.as_str(), status), ("", Some(2)));
    }
    assert_eq!(fs::read(&file).unwrap(), plain(3));
    let output = tool()
        .args(["classify", "-", "--point", "1", "--class", "2"])
        .output();
    let (_, err, status) = told(&output.unwrap());
    assert!(
        err.contains("FILE has to be a file") && status == Some(2),
        "{err}"
    );
}

#[test]
fn a_disk_that_takes_one_byte_and_not_the_next() {
    let folder = Folder::new("classify-half");
    let before = plain(600);
    let file = folder.put("survey.las", &before);
    let words = "--point 1 --class 2 --point 500 --class 6";
    let script = format!(
        "ulimit -f 8; {} classify survey.las {words}",
        env!("CARGO_BIN_EXE_inscjarol")
    );
    let output = Command::new("sh")
        .args(["-c", &script])
        .current_dir(folder.join(""))
        .output()
        .unwrap();
    let (out, err, status) = told(&output);
    let had =
        "the same command can be repeated; before it, point 1 had class 0, point 500 had class 0\n";
    assert!(err.ends_with(had), "{err}");
    assert_eq!((out.as_str(), status), ("", Some(2)));
    assert_eq!(fs::read(&file).unwrap(), with(&before, &[(1, 2)]));
    let (out, _, status) = classify(&file, words);
    let lines = "survey.las: point 1: class 2, was 2\nsurvey.las: point 500: class 6, was 0\n";
    assert_eq!((out.as_str(), status), (lines, Some(0)));
    assert_eq!(fs::read(&file).unwrap(), with(&before, &[(1, 2), (500, 6)]));
}

#[test]
fn by_a_link() {
    let folder = Folder::new("classify-link");
    let file = folder.put("survey.las", &plain(3));
    let link = folder.join("link.las");
    symlink(&file, &link).unwrap();
    let (out, _, status) = classify(&link, "--point 2 --class 6");
    assert_eq!(
        (out.as_str(), status),
        ("link.las: point 2: class 6, was 0\n", Some(0))
    );
    assert_eq!(fs::read(&file).unwrap(), with(&plain(3), &[(2, 6)]));
    assert!(fs::symlink_metadata(&link)
        .unwrap()
        .file_type()
        .is_symlink());
}

#[test]
fn many_at_once_and_killed() {
    let folder = Folder::new("classify-at-once");
    let before = plain(40);
    let file = folder.put("survey.las", &before);
    let begin = |point: usize| {
        let (point, class) = (point.to_string(), (point % 32).to_string());
        tool()
            .arg("classify")
            .arg(&file)
            .args(["--point", &point, "--class", &class])
            .stdout(Stdio::piped())
            .stderr(Stdio::piped())
            .spawn()
            .unwrap()
    };
    let mut chance = Chance(9);
    let mut done = Vec::new();
    for round in 0..5 {
        let children: Vec<_> = (1..=8)
            .map(|n| (8 * round + n, begin(8 * round + n)))
            .collect();
        for (point, mut child) in children {
            if chance.below(3) == 0 {
                thread::sleep(Duration::from_micros(chance.next() % 3_000));
                let _ = child.kill();
            }
            let (out, err, status) = told(&child.wait_with_output().unwrap());
            match status {
                Some(0) => {
                    assert!(out.contains(", was 0\n"), "{out}");
                    done.push(point);
                }
                Some(_) => assert!(err.contains("another program is writing to it"), "{err}"),
                None => {}
            }
        }
    }
    // Each point has its new class, where that was said, or one of the two; and nothing else has changed.
    let after = fs::read(&file).unwrap();
    let classes = File::check(&after)
        .unwrap()
        .points()
        .map(|point| point.flags.class());
    let changed: Vec<(u64, u8)> = (1..).zip(classes).filter(|(_, class)| *class > 0).collect();
    assert_eq!(after, with(&before, &changed));
    for (point, class) in &changed {
        assert_eq!(u64::from(*class), point % 32);
    }
    for point in done.iter().filter(|point| *point % 32 > 0) {
        assert!(
            changed.iter().any(|(changed, _)| *changed == *point as u64),
            "{point}"
        );
    }
    assert!(!done.is_empty());
}
