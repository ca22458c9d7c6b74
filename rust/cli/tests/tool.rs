//! The tool, run as its users run it.

#[path = "../../tests/common/mod.rs"]
mod common;

use common::{plain, rich, sample, two_points, waveforms, Folder, TWO_POINTS, WAVEFORMS};
use inscjarol::{Format, Header, LargeFile, Point, Version, Vlr};
use std::{
    fs::{self, File},
    io::{BufRead, BufReader, Read, Write},
    os::unix::fs::{symlink, MetadataExt, PermissionsExt},
    path::{Path, PathBuf},
    process::{Command, Output, Stdio},
    time::{Duration, Instant},
};

fn tool() -> Command {
    Command::new(env!("CARGO_BIN_EXE_inscjarol"))
}

/// Runs the tool with these words.
fn run<W: AsRef<std::ffi::OsStr>>(words: &[W]) -> Output {
    tool().args(words).output().unwrap()
}

/// What it wrote and said, and its status.
fn told(output: &Output) -> (String, String, Option<i32>) {
    let text = |bytes: &[u8]| String::from_utf8(bytes.to_vec()).unwrap();
    (
        text(&output.stdout),
        text(&output.stderr),
        output.status.code(),
    )
}

/// Runs the tool with the name of a command, some options and a file.
fn on(command: &[&str], path: &Path) -> (String, String, Option<i32>) {
    told(&tool().args(command).arg(path).output().unwrap())
}

/// Reads JSON to its end; what it is does not matter. Answers the rest.
fn json(text: &str) -> Result<&str, String> {
    let text = text.trim_start();
    let wrong = || Err(format!("no JSON: {text}"));
    let mut chars = text.chars();
    match chars.next() {
        Some('"') => {
            let mut escaped = false;
            for (place, c) in text.char_indices().skip(1) {
                match c {
                    _ if escaped => escaped = false,
                    '\\' => escaped = true,
                    '"' => return Ok(&text[place + 1..]),
                    c if c.is_control() => return wrong(),
                    _ => {}
                }
            }
            wrong()
        }
        Some(open @ ('{' | '[')) => {
            let close = if open == '{' { '}' } else { ']' };
            let mut rest = chars.as_str();
            if let Some(rest) = rest.strip_prefix(close) {
                return Ok(rest);
            }
            loop {
                if open == '{' {
                    rest = json(rest)?.strip_prefix(':').ok_or("no colon")?;
                }
                rest = json(rest)?;
                match rest.strip_prefix(',') {
                    Some(more) => rest = more,
                    None => return rest.strip_prefix(close).ok_or(format!("no end: {rest}")),
                }
            }
        }
        _ => {
            let end = text.find([',', ']', '}', '\n']).unwrap_or(text.len());
            let word = &text[..end];
            match word {
                "null" | "true" | "false" => Ok(&text[end..]),
                _ if word.parse::<f64>().map_or(false, f64::is_finite) => Ok(&text[end..]),
                _ => wrong(),
            }
        }
    }
}

/// That each line is an object; answers how many there are.
fn objects(text: &str) -> usize {
    for line in text.lines() {
        assert!(line.starts_with('{'), "{line}");
        assert_eq!(json(line), Ok(""), "{line}");
    }
    text.lines().count()
}

#[test]
fn a_good_file() {
    let (out, err, status) = on(&["check"], &sample());
    assert!(
        out.ends_with(
            "accepted: LAS 1.4, 2,998 points of format 6, 2 VLRs, 1 EVLR, 97,178 bytes\n"
        ),
        "{out}"
    );
    assert_eq!((err.as_str(), status), ("", Some(0)));
    for command in ["parts", "info", "points"] {
        let (out, err, status) = on(&[command], &sample());
        assert!(!out.is_empty());
        assert_eq!((err.as_str(), status), ("", Some(0)));
    }
}

#[test]
fn a_damaged_file() {
    let folder = Folder::new("damaged");
    let whole = fs::read(sample()).unwrap();
    let cut = folder.put("cut.las", &whole[..50_000]);
    let (out, err, status) = on(&["check"], &cut);
    assert!(
        out.contains(
            "cut.las: refused 12 2998 0 (point extent): the points run past the end of the file"
        ),
        "{out}"
    );
    assert_eq!((err.as_str(), status), ("", Some(1)));
    let (out, err, status) = on(&["parts"], &cut);
    assert_eq!((out.as_str(), status), ("refused 12 2998 0\n", Some(1)));
    assert!(err.contains("the points run past the end of the file"));
    for command in ["info", "points"] {
        let (out, err, status) = on(&[command], &cut);
        assert_eq!((out.as_str(), status), ("", Some(1)));
        assert!(err.contains("refused 12 2998 0"), "{err}");
    }
    let mut altered = whole;
    altered[0] = b'X';
    let altered = folder.put("altered.las", &altered);
    let (out, _, status) = on(&["check"], &altered);
    assert!(out.contains("not a LAS file: it must begin with \"LASF\", and begins with \"XASF\""));
    assert_eq!(status, Some(1));
}

#[test]
fn an_empty_file() {
    let folder = Folder::new("empty");
    let empty = folder.put("empty.las", b"");
    let (out, _, status) = on(&["parts"], &empty);
    assert_eq!((out.as_str(), status), ("refused 1 4 0\n", Some(1)));
    let (out, _, status) = on(&["check"], &empty);
    assert!(out.contains("refused 1 4 0 (short): too short"));
    assert_eq!(status, Some(1));
}

#[test]
fn the_listing_of_the_example() {
    let folder = Folder::new("listing");
    let path = folder.put("two-points.las", &two_points());
    let (out, err, status) = on(&["parts"], &path);
    assert_eq!(
        (out.as_str(), err.as_str(), status),
        (TWO_POINTS, "", Some(0))
    );
    let (out, _, _) = told(&tool().arg("parts").args([&path, &path]).output().unwrap());
    assert_eq!(
        out,
        format!(
            "file {0}\n{TWO_POINTS}file {0}\n{TWO_POINTS}",
            path.display()
        )
    );
}

#[test]
fn waveform_packets() {
    let folder = Folder::new("waveforms");
    let path = folder.put("waveforms.las", &waveforms());
    let (out, err, status) = on(&["parts"], &path);
    assert_eq!(
        (out.as_str(), err.as_str(), status),
        (WAVEFORMS, "", Some(0))
    );
    let (out, _, _) = on(&["check"], &path);
    let line = "LAS 1.3, 2 points of format 4, 1 VLR, 0 EVLRs, waveform packets, 506 bytes\n";
    assert!(out.ends_with(line), "{out}");
    let (out, _, _) = on(&["info"], &path);
    assert!(
        out.contains(
            "\n  waveform packets      1\n     1  LASF_Spec 65535, 10 bytes of data, from byte 432, \"waveforms\"\n        waveform data\n"
        ),
        "{out}"
    );
    let (out, _, _) = on(&["check", "--json"], &path);
    assert!(
        out.contains("\"records\":2,") && out.contains("\"waveforms\":1}"),
        "{out}"
    );
    let (out, _, _) = on(&["info", "--json"], &path);
    assert!(
        out.contains("\"waveforms\":[{\"user_id\":\"LASF_Spec\",\"record_id\":65535,"),
        "{out}"
    );

    let mut bytes = waveforms();
    bytes[227] = 0xff;
    let late = folder.put("late.las", &bytes);
    let (out, err, status) = on(&["parts"], &late);
    assert_eq!((out.as_str(), status), ("refused 35 0 0\n", Some(1)));
    assert!(
        err.contains("the start of the waveform packets (header byte 227)"),
        "{err}"
    );
    // Files without them are not said to have none.
    let (out, _, _) = on(&["info"], &sample());
    assert!(!out.contains("waveform packets"));
}

#[test]
fn the_standard_input() {
    let mut child = tool()
        .args(["parts", "-"])
        .stdin(Stdio::piped())
        .stdout(Stdio::piped())
        .spawn()
        .unwrap();
    child
        .stdin
        .take()
        .unwrap()
        .write_all(&two_points())
        .unwrap();
    let output = child.wait_with_output().unwrap();
    assert_eq!(
        (output.stdout.as_slice(), output.status.code()),
        (TWO_POINTS.as_bytes(), Some(0))
    );
}

/// What the tool says of this on its standard input.
fn fed(words: &[&str], bytes: &[u8]) -> (String, String, Option<i32>) {
    let mut child = tool()
        .args(words)
        .stdin(Stdio::piped())
        .stdout(Stdio::piped())
        .stderr(Stdio::piped())
        .spawn()
        .unwrap();
    // Whoever does not read on closes the pipe.
    let _ = child.stdin.take().unwrap().write_all(bytes);
    told(&child.wait_with_output().unwrap())
}

#[test]
fn a_standard_input_without_end() {
    // A device, whatever it is called.
    for device in ["/dev/zero", "/dev/null"] {
        let device = File::open(device).unwrap();
        let output = tool().args(["check", "-"]).stdin(device).output().unwrap();
        let (_, err, status) = told(&output);
        assert!(err.contains("standard input: it is a device, not a file"));
        assert_eq!(status, Some(2));
    }
    // What does not begin like a LAS file is not read on.
    let (out, _, status) = fed(&["check", "-"], &vec![0; 50_000_000]);
    assert!(out.starts_with("standard input: refused 2 0 0 (signature)"));
    assert_eq!(status, Some(1));
    assert!(fed(&["check", "-"], b"").0.contains("refused 1 4 0"));
    // What does is read as long as there is memory.
    let whole = fs::read(sample()).unwrap();
    let folder = Folder::new("endless");
    let script = format!(
        "ulimit -v 300000; cat {} /dev/zero | {} check -",
        folder.put("in.las", &whole).display(),
        env!("CARGO_BIN_EXE_inscjarol")
    );
    let output = Command::new("sh").args(["-c", &script]).output().unwrap();
    let (_, err, status) = told(&output);
    assert!(
        err.contains("it is longer than there is memory for"),
        "{err}"
    );
    assert_eq!(status, Some(2));
}

#[test]
fn the_standard_input_from_a_file() {
    let folder = Folder::new("stdin");
    let path = folder.join("huge.las");
    huge(&path);
    let open = || File::open(&path).unwrap();
    let begun = Instant::now();
    let output = tool().args(["check", "-"]).stdin(open()).output().unwrap();
    assert!(told(&output).0.starts_with("standard input: accepted"));
    assert!(begun.elapsed() < Duration::from_secs(10));
    // From the place where it is.
    let bytes = [b"before".as_slice(), &two_points()].concat();
    let mut file = File::open(folder.put("later.las", &bytes)).unwrap();
    file.read_exact(&mut [0; 6]).unwrap();
    let output = tool().args(["parts", "-"]).stdin(file).output().unwrap();
    assert_eq!(told(&output).0, TWO_POINTS);
}

#[test]
fn what_cannot_be_read() {
    let folder = Folder::new("unreadable");
    for command in ["points", "rewrite"] {
        let words = [Path::new(command), &folder.join("."), &folder.join("out")];
        let output = run(&words[..if command == "points" { 2 } else { 3 }]);
        assert!(told(&output).1.contains("it is a folder, not a file"));
        assert_eq!(output.status.code(), Some(2));
    }
    for (path, words) in [
        (folder.join("missing.las"), "there is no such file"),
        ("/dev/zero".into(), "it is a device, not a file"),
    ] {
        for command in ["check", "parts", "info", "points", "ask"] {
            let (out, err, status) = on(&[command], &path);
            assert_eq!((out.as_str(), status), ("", Some(2)));
            assert!(err.contains(words), "{err}");
        }
        let (out, _, status) = on(&["check", "--json"], &path);
        assert!(out.contains(words) && status == Some(2));
        assert_eq!(objects(&out), 1);
    }
    // Who may read everything cannot be refused.
    let secret = folder.put("secret.las", &plain(1));
    fs::set_permissions(&secret, fs::Permissions::from_mode(0o000)).unwrap();
    if File::open(&secret).is_err() {
        let (_, err, status) = on(&["check"], &secret);
        assert_eq!(status, Some(2));
        assert!(err.contains("it may not be read"));
    }
}

#[test]
fn several_files_and_the_worst_status() {
    let folder = Folder::new("several");
    let good = folder.put("good.las", &plain(1));
    let bad = folder.put("bad.las", &plain(1)[..246]);
    let missing = folder.join("missing.las");
    let check = |paths: &[&Path]| told(&tool().arg("check").args(paths).output().unwrap());
    let (out, _, status) = check(&[&good, &good]);
    assert_eq!(out.lines().last(), Some("2 files: 2 accepted, 0 refused"));
    assert_eq!(status, Some(0));
    let (out, _, status) = check(&[&bad, &good]);
    assert!(out.contains("bad.las: refused 12 1 0") && out.contains("good.las: accepted"));
    assert_eq!(status, Some(1));
    let (out, err, status) = check(&[&bad, &missing, &good]);
    assert_eq!(
        out.lines().last(),
        Some("3 files: 1 accepted, 1 refused, 1 could not be read")
    );
    assert!(err.contains("missing.las: there is no such file"));
    assert_eq!(status, Some(2));
    let output = tool()
        .args(["check", "--json"])
        .args([&bad, &missing, &good])
        .output()
        .unwrap();
    assert_eq!(objects(&told(&output).0), 3);
}

#[test]
fn json_of_every_command() {
    let folder = Folder::new("json");
    let mut odd = rich(10, 3);
    odd[26..30].copy_from_slice(b"\"\\\x01\xff");
    // A scale that is no number.
    odd[131..139].copy_from_slice(&f64::NAN.to_le_bytes());
    let good = folder.put("odd \"name\".las", &odd);
    let bad = folder.put("bad.las", &odd[..500]);
    for command in ["check", "parts", "info"] {
        let (out, _, status) = on(&[command, "--json"], &good);
        assert_eq!((objects(&out), status), (1, Some(0)));
        assert!(out.contains("\"accepted\":true"));
        let (out, _, status) = on(&[command, "--json"], &bad);
        assert_eq!((objects(&out), status), (1, Some(1)));
        assert!(out.contains("\"accepted\":false") && out.contains("\"refusal\":{\"number\":12,"));
    }
    let (out, _, status) = on(&["points", "--json", "--fields", "all"], &good);
    assert_eq!((objects(&out), status), (5, Some(0)));
    assert!(out.contains("\"x\":null"));
    let (out, _, _) = on(&["points", "--json"], &bad);
    assert_eq!(objects(&out), 1);
    let output = tool()
        .args(["rewrite", "--json"])
        .args([&good, &folder.join("new.las")])
        .output()
        .unwrap();
    let (out, _, status) = told(&output);
    assert_eq!((objects(&out), status), (1, Some(0)));
    assert!(out.contains("\"same_bytes\":true"));
}

#[test]
fn points_as_csv() {
    let lines = |options: &[&str]| {
        let (out, err, status) = on(&[&["points"], options].concat(), &sample());
        assert_eq!((err.as_str(), status), ("", Some(0)));
        out.lines().map(String::from).collect::<Vec<String>>()
    };
    let all = lines(&[]);
    assert_eq!(all.len(), 2_999);
    assert_eq!(
        all[0],
        "x,y,z,intensity,return_number,number_of_returns,classification,gps_time"
    );
    assert_eq!(
        all[1],
        "500000.128,5400000.021,112.039,25823,1,1,2,4321060.0"
    );
    assert_eq!(lines(&["--limit", "2"]), all[..3]);
    assert_eq!(lines(&["--skip=10", "--limit=1"])[1], all[11]);
    assert_eq!(lines(&["--skip", "5000"]), all[..1]);
    assert_eq!(
        lines(&[
            "--raw",
            "--limit",
            "1",
            "--fields",
            "x,z,scan_angle,reflectance"
        ]),
        ["x,z,scan_angle,reflectance", "128,112039,-2118,-1208"]
    );
    assert_eq!(
        lines(&["--limit", "1", "--fields", "x,scan_angle,reflectance,red"]),
        ["x,scan_angle,reflectance,red", "500000.128,-12.708,-12.08,"]
    );
    let (_, err, status) = on(&["points", "--fields", "x,hight"], &sample());
    assert!(
        err.contains("there is no field 'hight'") && err.contains("in this file reflectance"),
        "{err}"
    );
    assert_eq!(status, Some(2));
}

#[test]
fn a_pipe_that_is_closed() {
    let mut child = tool()
        .args(["points"])
        .arg(sample())
        .stdout(Stdio::piped())
        .stderr(Stdio::piped())
        .spawn()
        .unwrap();
    let mut first = String::new();
    let mut reader = BufReader::with_capacity(64, child.stdout.take().unwrap());
    reader.read_line(&mut first).unwrap();
    assert!(first.starts_with("x,y,z"));
    drop(reader);
    let output = child.wait_with_output().unwrap();
    assert_eq!(
        (output.stderr.as_slice(), output.status.code()),
        (b"".as_slice(), Some(0))
    );
}

#[test]
fn a_standard_output_that_is_full() {
    let full = match File::options().write(true).open("/dev/full") {
        Ok(full) => full,
        Err(_) => return,
    };
    let output = tool()
        .arg("check")
        .arg(sample())
        .stdout(full)
        .stderr(Stdio::piped())
        .spawn()
        .unwrap()
        .wait_with_output()
        .unwrap();
    assert_eq!(output.status.code(), Some(2));
    assert!(told(&output).1.contains("standard output: "));
}

#[test]
fn rewriting() {
    let folder = Folder::new("rewrite");
    let (from, to) = (sample(), folder.join("out.las"));
    let (out, err, status) = told(&run(&[
        "rewrite".as_ref(),
        from.as_os_str(),
        to.as_os_str(),
    ]));
    assert!(
        out.contains("out.las: written, 97,178 bytes, the same as"),
        "{out}"
    );
    assert_eq!((err.as_str(), status), ("", Some(0)));
    assert_eq!(fs::read(&to).unwrap(), fs::read(&from).unwrap());

    // Onto itself, and through a link, which stays one; the mode is kept.
    fs::set_permissions(&to, fs::Permissions::from_mode(0o640)).unwrap();
    let link = folder.join("link.las");
    symlink(&to, &link).unwrap();
    let (_, err, status) = told(&rewrite(&to, &link, &[]));
    assert_eq!((err.as_str(), status), ("", Some(0)));
    assert!(fs::symlink_metadata(&link)
        .unwrap()
        .file_type()
        .is_symlink());
    assert_eq!(fs::read(&to).unwrap(), fs::read(&from).unwrap());
    assert_eq!(
        fs::metadata(&to).unwrap().permissions().mode() & 0o777,
        0o640
    );
    assert_eq!(folder.names(), ["link.las", "out.las"]);
}

#[test]
fn rewriting_tells_of_a_half_zero_pair() {
    let folder = Folder::new("half-zero");
    let mut bytes = rich(6, 0);
    bytes[243..247].copy_from_slice(&[0; 4]);
    let from = folder.put("in.las", &bytes);
    let to = folder.join("out.las");
    let (out, _, status) = told(&run(&[
        "rewrite".as_ref(),
        from.as_os_str(),
        to.as_os_str(),
    ]));
    assert!(out.contains("are two zeros now"));
    assert_eq!(status, Some(0));
    bytes[235..247].copy_from_slice(&[0; 12]);
    assert_eq!(fs::read(&to).unwrap(), bytes);
}

#[test]
fn rewriting_that_fails_leaves_everything() {
    let folder = Folder::new("rewrite-fails");
    let good = folder.put("good.las", &plain(1));
    let bad = folder.put("bad.las", &plain(1)[..246]);
    let old = folder.put("old.las", b"what there was");
    fs::create_dir(folder.join("folder")).unwrap();
    let before = folder.names();
    let rewrite = |from: &Path, to: &Path| {
        let (out, err, status) = told(&rewrite(from, to, &["--force"]));
        assert_eq!((out.as_str(), folder.names()), ("", before.clone()));
        (err, status)
    };
    let (err, status) = rewrite(&bad, &old);
    assert!(err.contains("bad.las: refused 12 1 0"));
    assert_eq!(
        (status, fs::read(&old).unwrap()),
        (Some(1), b"what there was".to_vec())
    );
    assert_eq!(rewrite(&bad, &folder.join("new.las")).1, Some(1));
    let (err, status) = rewrite(&good, &folder.join("folder"));
    assert!(err.contains("it is a folder") && status == Some(2));
    let (err, status) = rewrite(&good, &folder.join("nowhere/out.las"));
    assert!(err.contains("there is no such folder") && status == Some(2));
    let (err, status) = rewrite(&good, Path::new("/dev/null"));
    assert!(err.contains("it is no regular file") && status == Some(2));
    let (err, status) = rewrite(&folder.join("missing.las"), &old);
    assert!(err.contains("there is no such file") && status == Some(2));
    let (err, status) = rewrite(&good, Path::new("-"));
    assert!(err.contains("OUT has to be a file") && status == Some(2));
}

/// A file of 20 GB in format 6, all zeros after its header, on a disk that has no room for that.
fn huge(path: &Path) -> u64 {
    let bytes: u64 = 20_000_000_000;
    let mut header = Header::new(Version { major: 1, minor: 4 }).unwrap();
    header.point_data_record_format = 6;
    header.point_data_record_length = 30;
    let points = (bytes - 375) / 30;
    header.large_file = Some(LargeFile {
        number_of_point_records: points,
        ..LargeFile::default()
    });
    let mut file = File::create(path).unwrap();
    file.write_all(&header.to_vec(&[]).unwrap()).unwrap();
    file.set_len(bytes).unwrap();
    points
}

#[test]
fn a_huge_file() {
    let folder = Folder::new("huge");
    let path = folder.join("huge.las");
    let points = huge(&path);
    let begun = Instant::now();
    let (out, err, status) = on(&["check"], &path);
    assert!(
        out.ends_with("666,666,654 points of format 6, 0 VLRs, 0 EVLRs, 20,000,000,000 bytes\n"),
        "{out}"
    );
    assert_eq!((err.as_str(), status), ("", Some(0)));
    let (out, _, _) = on(&["parts"], &path);
    assert!(
        out.contains("points 375 19999999620\ngap 19999999995 5\n"),
        "{out}"
    );
    let (out, _, status) = on(&["points", "--limit", "3"], &path);
    assert_eq!((out.lines().count(), status), (4, Some(0)));
    let skipped = (points - 2).to_string();
    let (out, _, status) = on(&["points", "--skip", &skipped], &path);
    assert_eq!((out.lines().count(), status), (3, Some(0)));
    assert_eq!(on(&["info"], &path).2, Some(0));
    assert!(
        begun.elapsed() < Duration::from_secs(10),
        "{:?}",
        begun.elapsed()
    );
}

/// Runs `rewrite`.
fn rewrite(from: &Path, to: &Path, options: &[&str]) -> Output {
    let mut tool = tool();
    tool.arg("rewrite").args(options).args([from, to]);
    tool.output().unwrap()
}

#[test]
fn what_is_there_is_not_replaced_without_a_word() {
    let folder = Folder::new("there");
    let one = folder.put("one.las", &plain(1));
    let two = folder.put("two.las", &plain(2));
    let (out, err, status) = told(&rewrite(&one, &two, &[]));
    assert_eq!((out.as_str(), status), ("", Some(2)));
    assert!(err.contains("two.las: it is there already; with --force it is replaced"));
    assert_eq!(fs::read(&two).unwrap(), plain(2));
    let (out, _, _) = told(&rewrite(&one, &two, &["--json"]));
    assert!(out.contains("\"error\":\"it is there already"));

    // That is told before IN is read: nobody ever writes to this pipe.
    let pipe = folder.join("pipe");
    let made = Command::new("mkfifo").arg(&pipe).status();
    if made.map_or(false, |status| status.success()) {
        assert!(told(&rewrite(&pipe, &two, &[]))
            .1
            .contains("it is there already"));
        fs::remove_file(pipe).unwrap();
    }

    // Itself, by whatever name, and from the standard input.
    let again = folder.join("again.las");
    fs::hard_link(&one, &again).unwrap();
    assert_eq!(rewrite(&one, &again, &[]).status.code(), Some(0));
    let from_input = tool()
        .args([Path::new("rewrite"), Path::new("-"), &one])
        .stdin(File::open(&one).unwrap())
        .output()
        .unwrap();
    assert_eq!(told(&from_input).2, Some(0));

    // By force, with its mode; but not what is read-only, even by who may write everything.
    fs::set_permissions(&two, fs::Permissions::from_mode(0o640)).unwrap();
    assert_eq!(rewrite(&one, &two, &["--force"]).status.code(), Some(0));
    assert_eq!(fs::read(&two).unwrap(), plain(1));
    assert_eq!(mode(&two), 0o640);
    fs::set_permissions(&two, fs::Permissions::from_mode(0o444)).unwrap();
    let (_, err, status) = told(&rewrite(&two, &two, &["--force"]));
    assert!(err.contains("two.las: it is read-only") && status == Some(2));
    assert_eq!(mode(&two), 0o444);
    assert_eq!(folder.names(), ["again.las", "one.las", "two.las"]);
}

fn mode(path: &Path) -> u32 {
    fs::metadata(path).unwrap().permissions().mode() & 0o7777
}

#[test]
fn a_link_is_followed() {
    let folder = Folder::new("links");
    let one = folder.put("one.las", &plain(1));
    fs::create_dir(folder.join("kept")).unwrap();
    let links = [folder.join("link.las"), folder.join("kept/link.las")];
    symlink("kept/link.las", &links[0]).unwrap();
    symlink("../target.las", &links[1]).unwrap();
    // It leads to nothing yet.
    let (_, err, status) = told(&rewrite(&one, &links[0], &[]));
    assert_eq!((err.as_str(), status), ("", Some(0)));
    assert_eq!(fs::read(folder.join("target.las")).unwrap(), plain(1));
    // And now to a file that is there.
    assert_eq!(rewrite(&one, &links[0], &[]).status.code(), Some(2));
    let two = folder.put("two.las", &plain(2));
    assert_eq!(
        rewrite(&two, &links[0], &["--force"]).status.code(),
        Some(0)
    );
    assert_eq!(fs::read(folder.join("target.las")).unwrap(), plain(2));
    for link in &links {
        assert!(fs::symlink_metadata(link).unwrap().file_type().is_symlink());
    }
    // In a circle.
    symlink("b.las", folder.join("a.las")).unwrap();
    symlink("a.las", folder.join("b.las")).unwrap();
    let (_, err, status) = told(&rewrite(&one, &folder.join("a.las"), &[]));
    assert!(err.contains("its links go in a circle") && status == Some(2));
}

#[test]
fn the_owner_is_kept() {
    let folder = Folder::new("owner");
    let one = folder.put("one.las", &plain(1));
    let two = folder.put("two.las", &plain(2));
    // Who may give files away is asked to keep them where they are.
    let given = Command::new("chown").arg("12345:23456").arg(&two).output();
    if !given.map_or(false, |given| given.status.success()) {
        return;
    }
    fs::set_permissions(&two, fs::Permissions::from_mode(0o2660)).unwrap();
    for named in [false, true] {
        let mut tool = tool();
        tool.args(["rewrite", "--force"]).args([&one, &two]);
        if named {
            tool.env(NAMED, "1");
        }
        assert_eq!(told(&tool.output().unwrap()).2, Some(0));
        let about = fs::metadata(&two).unwrap();
        assert_eq!((about.uid(), about.gid()), (12_345, 23_456));
        assert_eq!(mode(&two), 0o2660);
    }
}

/// What makes the tool name its temporary file, as it does where there are no unnamed ones.
const NAMED: &str = "INSCJAROL_NAMED_TEMPORARY";

#[test]
fn a_name_as_long_as_names_may_be() {
    let folder = Folder::new("long");
    let one = folder.put("one.las", &plain(1));
    let long = folder.join(&"l".repeat(255));
    for options in [&[][..], &["--force"]] {
        for named in [false, true] {
            let mut tool = tool();
            tool.arg("rewrite").args(options).args([&one, &long]);
            if named {
                tool.env(NAMED, "1");
            }
            assert_eq!(told(&tool.output().unwrap()).1, "");
            assert_eq!(fs::read(&long).unwrap(), plain(1));
            if options.is_empty() {
                fs::remove_file(&long).unwrap();
            } else {
                assert_eq!(folder.names().len(), 2);
            }
        }
        fs::write(&long, b"what there was").unwrap();
    }
}

/// A file of 400 MB, so that a signal comes while it is written.
fn large(folder: &Folder) -> PathBuf {
    let path = folder.join("in.las");
    let mut header = Header::new(Version { major: 1, minor: 2 }).unwrap();
    header.number_of_point_records = 20_000_000;
    let mut file = File::create(&path).unwrap();
    file.write_all(&header.to_vec(&[]).unwrap()).unwrap();
    file.set_len(227 + 20 * 20_000_000).unwrap();
    path
}

/// Whether a process has its temporary file open.
fn writes(process: u32, folder: &Folder) -> bool {
    let open = match fs::read_dir(format!("/proc/{process}/fd")) {
        Ok(open) => open,
        Err(_) => return false,
    };
    open.flatten()
        .filter_map(|entry| fs::read_link(entry.path()).ok())
        .any(|to| to.starts_with(folder.join("")) && to != folder.join("in.las"))
}

#[test]
fn an_interrupted_rewriting_leaves_nothing() {
    let folder = Folder::new("interrupted");
    let from = large(&folder);
    let old = folder.put("out.las", b"what there was");
    let mut in_time = 0;
    for (signal, named) in [
        ("TERM", false),
        ("QUIT", false),
        ("KILL", false),
        ("USR1", false),
        ("INT", true),
        ("QUIT", true),
        ("XCPU", true),
        ("ALRM", true),
        ("USR1", true),
        ("RTMAX", true),
    ] {
        let mut tool = tool();
        tool.args(["rewrite", "--force"])
            .args([&from, &old])
            .stdout(Stdio::null());
        if named {
            tool.env(NAMED, "1");
        }
        let mut child = tool.spawn().unwrap();
        // The temporary file appears, and then the tool is made to end.
        let begun = Instant::now();
        while !writes(child.id(), &folder) && begun.elapsed() < Duration::from_secs(20) {
            if child.try_wait().unwrap().is_some() {
                break;
            }
            std::thread::sleep(Duration::from_millis(1));
        }
        let killed = Command::new("bash")
            .args(["-c", &format!("kill -{signal} {}", child.id())])
            .status()
            .unwrap();
        let status = child.wait().unwrap();
        assert_eq!(folder.names(), ["in.las", "out.las"], "{signal}");
        // Where the signal came in time, OUT is what there was.
        if killed.success() && status.code().is_none() {
            assert_eq!(fs::read(&old).unwrap(), b"what there was");
            in_time += 1;
        }
        fs::write(&old, b"what there was").unwrap();
    }
    assert!(in_time > 3, "{in_time}");
}

#[test]
fn a_file_that_may_not_become_so_long() {
    let folder = Folder::new("limited");
    let from = large(&folder);
    let script = format!(
        "ulimit -f 1000; {} rewrite {} {}",
        env!("CARGO_BIN_EXE_inscjarol"),
        from.display(),
        folder.join("out.las").display()
    );
    let output = Command::new("bash").args(["-c", &script]).output().unwrap();
    let (_, err, status) = told(&output);
    assert!(err.contains("out.las: File too large"), "{err}");
    assert_eq!(status, Some(2));
    assert_eq!(folder.names(), ["in.las"]);
}

#[test]
fn nothing_steers_the_terminal() {
    let folder = Folder::new("steering");
    let name = "a\x1b[31m\n\u{9b}b.las";
    let path = folder.put(name, &plain(1)[..246]);
    let good = folder.put(
        "\x1b]0;good.las",
        &described(&[("\x1b[2J", 1, 0, 0.0)], &[7]),
    );
    let steers = |c: char| c.is_control() && c != '\n';
    for words in [
        &["check"][..],
        &["parts"],
        &["info"],
        &["points"],
        &["points", "--fields", "all"],
        &["points", "--fields", "nothing"],
        &["points", "--fields", "\x1b[2J,x\x1b"],
        &["ask"],
        &["rewrite", "--force"],
        &["check", "--json"],
        &["ask", "--json"],
        &["points", "--json", "--fields", "all"],
    ] {
        for path in [&path, &good, &folder.join("\x1bmissing")] {
            let mut tool = tool();
            tool.args(words).arg(path);
            if words[0] == "rewrite" {
                tool.arg(folder.join("out\x1b.las"));
            }
            let output = tool.output().unwrap();
            let (out, err, _) = told(&output);
            assert!(!out.contains(steers), "{words:?} {out:?}");
            assert!(!err.contains(steers), "{words:?} {err:?}");
        }
    }
    let (_, err, _) = told(&run(&["\x1b[31mcheck"]));
    assert!(!err.contains(steers));
    // For programs the name is what it is.
    let (out, _, _) = on(&["check", "--json"], &path);
    assert!(out.contains("a\\u001b[31m\\n\\u009bb.las"), "{out}");
}

/// A file of LAS 1.4 whose points have these extra bytes, each described by name, data type, options and scale.
fn described(fields: &[(&str, u8, u8, f64)], extra_bytes: &[u8]) -> Vec<u8> {
    let mut data = Vec::new();
    for (name, data_type, options, scale) in fields {
        let mut description = [0; 192];
        description[2] = *data_type;
        description[3] = *options;
        description[4..4 + name.len()].copy_from_slice(name.as_bytes());
        description[112..120].copy_from_slice(&scale.to_le_bytes());
        data.extend(description);
    }
    let vlr = Vlr::new(false, "LASF_Spec", 4, "", &data).to_vec().unwrap();
    let format = Format::default().with_extra_bytes(extra_bytes.len() as u16);
    let mut header = Header::new(Version { major: 1, minor: 4 }).unwrap();
    header.offset_to_point_data += vlr.len() as u32;
    header.number_of_variable_length_records = 1;
    header.point_data_record_length = format.len().unwrap();
    header.number_of_point_records = 1;
    let point = Point {
        intensity: 77,
        extra_bytes,
        ..Point::default()
    };
    let mut bytes = header.to_vec(&[]).unwrap();
    bytes.extend(vlr);
    bytes.extend(point.to_vec(format).unwrap());
    bytes
}

#[test]
fn numbers_of_extra_bytes() {
    let folder = Folder::new("extra");
    let mut extra_bytes = 0.1_f32.to_le_bytes().to_vec();
    extra_bytes.extend(1e300_f64.to_le_bytes());
    extra_bytes.extend(u32::MAX.to_le_bytes());
    extra_bytes.extend(8_u32.to_le_bytes());
    let fields = [
        ("single", 9, 0, 0.0),
        ("double", 10, 0, 0.0),
        ("much", 5, 8, 0.125),
        ("little", 5, 8, 0.125),
    ];
    let path = folder.put("extra.las", &described(&fields, &extra_bytes));
    let (out, _, _) = on(&["points", "--fields", "single,double,much,little"], &path);
    assert_eq!(
        out,
        "single,double,much,little\n0.1,1e300,536870911.875,1.000\n"
    );
    let (out, _, _) = on(&["points", "--json", "--fields", "single,double"], &path);
    assert_eq!(out, "{\"single\":0.1,\"double\":1e300}\n");
    let (out, _, _) = on(&["info"], &path);
    assert!(
        out.contains("  attributes            4\n     1  single, f32, from byte 20 of a point\n"),
        "{out}"
    );
    assert!(out.contains("     3  much, u32, scale 0.125, from byte 32 of a point\n"));
}

#[test]
fn attributes_are_listed() {
    let folder = Folder::new("attributes");
    let fields = [
        ("depth", 4, 0b1_1000, 0.5),
        ("", 0, 3, 0.5),
        ("a\x1b[2Jb", 9, 0b1_0000, 0.0),
    ];
    let mut bytes = described(&fields, &[0; 10]);
    let first = 375 + 54;
    bytes[first + 136..first + 144].copy_from_slice(&(-2.5_f64).to_le_bytes());
    bytes[first + 160..first + 173].copy_from_slice(b"below \x1b water");
    bytes[first + 2 * 192 + 136..][..8].copy_from_slice(&f64::NAN.to_le_bytes());
    let path = folder.put("attributes.las", &bytes);
    let (out, err, status) = on(&["info"], &path);
    assert_eq!((err.as_str(), status), ("", Some(0)));
    let listed = "  attributes            3\n\
        \x20    1  depth, i16, scale 0.5, offset -2.5, from byte 20 of a point, \"below \u{fffd} water\"\n\
        \x20    2  (none), 3 bytes, from byte 22 of a point\n\
        \x20    3  a\u{fffd}[2Jb, f32, offset NaN, from byte 25 of a point\n\
        \x20 VLRs                  1\n\
        \x20    1  LASF_Spec 4, 576 bytes of data, from byte 375\n\
        \x20       what the extra bytes are\n";
    assert!(out.contains(listed), "{out}");
    let (out, _, _) = on(&["info", "--json"], &path);
    let listed = "\"attributes\":[\
        {\"name\":\"depth\",\"description\":\"below \\u001b water\",\"data_type\":4,\"type\":\"i16\",\"start\":20,\"length\":2,\"scale\":0.5,\"offset\":-2.5},\
        {\"name\":\"\",\"description\":\"\",\"data_type\":0,\"type\":\"3 bytes\",\"start\":22,\"length\":3,\"scale\":null,\"offset\":null},\
        {\"name\":\"a\\u001b[2Jb\",\"description\":\"\",\"data_type\":9,\"type\":\"f32\",\"start\":25,\"length\":4,\"scale\":null,\"offset\":null}\
        ],\"attributes_refused\":null,";
    assert!(out.contains(listed), "{out}");
    // The last extra byte is of none of them.
    let (out, _, _) = on(&["points", "--fields", "all"], &path);
    let heading = "point_source_id,extra,depth,unnamed,a\u{fffd}[2Jb\n";
    assert!(out.contains(heading), "{out}");
    assert!(
        out.ends_with(",00000000000000000000,-2.5,000000,NaN\n"),
        "{out}"
    );
}

#[test]
fn broken_descriptors() {
    let folder = Folder::new("broken-descriptors");
    let good = ("good", 1, 0, 0.0);
    let put = |name: &str, fields: &[(&str, u8, u8, f64)], extra: &[u8]| {
        folder.put(name, &described(fields, extra))
    };
    // A VLR that is cut by a byte, which is a gap then.
    let mut cut = described(&[good], &[7]);
    cut[375 + 20..375 + 22].copy_from_slice(&191_u16.to_le_bytes());
    for (path, number, words) in [
        (
            folder.put("cut.las", &cut),
            38,
            "its data is not a multiple of 192 bytes",
        ),
        (
            put("type.las", &[good, ("array", 11, 0, 0.0)], &[7, 7, 7]),
            39,
            "has a data type above 10",
        ),
        (
            put("sizes.las", &[good, good], &[7]),
            40,
            "speak of more bytes than a point record has",
        ),
    ] {
        let (out, err, status) = on(&["info"], &path);
        assert_eq!((err.as_str(), status), ("", Some(0)));
        let line = out
            .lines()
            .find(|line| line.starts_with("  attributes            none: "));
        assert!(line.unwrap().contains(words), "{out}");
        let (out, _, status) = on(&["info", "--json"], &path);
        let told =
            format!("\"attributes\":[],\"attributes_refused\":{{\"number\":{number},\"name\":");
        assert!(out.contains(&told) && out.contains(words), "{out}");
        assert_eq!(status, Some(0));

        // No name is known, and it is said why.
        let (out, err, status) = on(&["points", "--fields", "x,good"], &path);
        assert_eq!((out.as_str(), status), ("", Some(2)));
        assert!(
            err.contains("there is no field 'good'; ")
                && err.contains("; and in this file no attributes: "),
            "{err}"
        );
        assert!(err.contains(words), "{err}");
        // All that there is has the bytes without names.
        for json in [&[][..], &["--json"]] {
            let (out, err, status) = on(&[&["points", "--fields", "all"], json].concat(), &path);
            assert_eq!(status, Some(0));
            assert!(
                err.contains("no attributes: ") && err.contains(words),
                "{err}"
            );
            assert!(
                out.contains("extra") && out.contains("07") && !out.contains("good"),
                "{out}"
            );
        }
        // Who asks for other fields is told nothing.
        let (out, err, status) = on(&["points", "--fields", "intensity"], &path);
        assert_eq!(
            (out.as_str(), err.as_str(), status),
            ("intensity\n77\n", "", Some(0))
        );
    }
}

#[test]
fn extra_bytes_that_no_vlr_describes() {
    let folder = Folder::new("undescribed");
    // With extra bytes that is news, without them it is none.
    let bytes = folder.put("bytes.las", &rich(6, 2));
    let (out, _, _) = on(&["info"], &bytes);
    assert!(
        out.contains("  attributes            none: no VLR describes the extra bytes"),
        "{out}"
    );
    let (out, _, _) = on(&["info", "--json"], &bytes);
    assert!(
        out.contains("\"attributes\":[],\"attributes_refused\":{\"number\":37,"),
        "{out}"
    );
    let (_, err, status) = on(&["points", "--fields", "all"], &bytes);
    assert_eq!((err.as_str(), status), ("", Some(0)));
    let (_, err, _) = on(&["points", "--fields", "reflectance"], &bytes);
    assert!(
        err.contains("no attributes: no VLR describes the extra bytes"),
        "{err}"
    );

    let none = folder.put("none.las", &rich(6, 0));
    let (out, _, _) = on(&["info"], &none);
    assert!(!out.contains("attributes"), "{out}");
    let (out, _, _) = on(&["info", "--json"], &none);
    assert!(
        out.contains("\"attributes\":[],\"attributes_refused\":null,"),
        "{out}"
    );
    let (_, err, _) = on(&["points", "--fields", "reflectance"], &none);
    assert!(!err.contains("attributes"), "{err}");

    // In an EVLR descriptors do not count: it is shown, and its names are not known.
    let mut bytes = described(&[("good", 1, 0, 0.0)], &[7]);
    bytes[375 + 18] = 5;
    let evlr = Vlr::new(true, "LASF_Spec", 4, "", &bytes[429..429 + 192])
        .to_vec()
        .unwrap();
    let start = bytes.len() as u64;
    bytes[235..243].copy_from_slice(&start.to_le_bytes());
    bytes[243] = 1;
    bytes.extend(evlr);
    let path = folder.put("evlr.las", &bytes);
    let (out, _, _) = on(&["info"], &path);
    assert!(
        out.contains("  attributes            none: no VLR describes"),
        "{out}"
    );
    assert!(
        out.contains("what the extra bytes are, which only a VLR can say"),
        "{out}"
    );
    assert_eq!(on(&["points", "--fields", "good"], &path).2, Some(2));
}

#[test]
fn no_key_is_there_twice() {
    let folder = Folder::new("twice");
    let fields = [("intensity", 1, 0, 0.0), ("a", 1, 0, 0.0), ("a", 1, 0, 0.0)];
    let path = folder.put("twice.las", &described(&fields, &[1, 2, 3]));
    let (out, _, status) = on(&["points", "--json", "--fields", "all"], &path);
    assert_eq!((objects(&out), status), (1, Some(0)));
    assert!(out.contains("\"intensity\":77,"), "{out}");
    assert!(
        out.ends_with("\"intensity_2\":1,\"a\":2,\"a_2\":3}\n"),
        "{out}"
    );
    let (out, _, _) = on(&["points", "--fields", "a_2,intensity_2"], &path);
    assert_eq!(out, "a_2,intensity_2\n3,1\n");
    let (_, err, status) = on(
        &["points", "--json", "--fields", "class,Classification"],
        &path,
    );
    assert!(err.contains("--fields names classification twice"));
    assert_eq!(status, Some(2));
}

/// A file of LAS 1.4 with three points of a format, which have these numbers as near infrared where the format has that.
fn infrared(code: u8, stored: [u16; 3]) -> Vec<u8> {
    let format = Format::new(code).unwrap();
    let mut header = Header::new(Version { major: 1, minor: 4 }).unwrap();
    header.point_data_record_format = code;
    header.point_data_record_length = format.len().unwrap();
    header.number_of_point_records = 3;
    let mut bytes = header.to_vec(&[]).unwrap();
    for nir in stored {
        let point = Point {
            nir: Some(nir),
            ..Point::default()
        };
        bytes.extend(point.to_vec(format).unwrap());
    }
    bytes
}

#[test]
fn near_infrared_0_is_shown() {
    let folder = Folder::new("infrared");
    let shown = |code: u8, stored: [u16; 3], options: &[&str]| {
        let path = folder.put(&format!("{code}.las"), &infrared(code, stored));
        let (out, err, status) = on(options, &path);
        assert_eq!((err.as_str(), status), ("", Some(0)));
        out
    };
    let csv = ["points", "--fields", "nir,intensity"];
    let json = ["points", "--json", "--fields", "nir,intensity"];
    let csv_of_all = ["points", "--fields", "all"];
    let json_of_all = ["points", "--json", "--fields", "all"];
    for code in [8, 10] {
        let stored = [0, 1, 65_535];
        assert_eq!(
            shown(code, stored, &csv),
            "nir,intensity\n0,0\n1,0\n65535,0\n"
        );
        assert_eq!(
            shown(code, stored, &json),
            "{\"nir\":0,\"intensity\":0}\n{\"nir\":1,\"intensity\":0}\n{\"nir\":65535,\"intensity\":0}\n"
        );
        let out = shown(code, stored, &csv_of_all);
        let column = out.split([',', '\n']).position(|name| name == "nir");
        let values = out.lines().map(|line| line.split(',').nth(column.unwrap()));
        assert!(values.eq([Some("nir"), Some("0"), Some("1"), Some("65535")]));
        let out = shown(code, stored, &json_of_all);
        assert!(out.lines().next().unwrap().contains("\"nir\":0"), "{out}");
        // That there is a sensor is the format's word, also where it saw nothing.
        let out = shown(code, [0; 3], &["info"]);
        assert!(out.contains("GPS time, colour, near infrared"), "{out}");
    }
    // A format without the field has no number of it, and no column unless that is asked for.
    assert_eq!(shown(7, [0; 3], &csv), "nir,intensity\n,0\n,0\n,0\n");
    assert_eq!(
        shown(7, [0; 3], &json),
        "{\"nir\":null,\"intensity\":0}\n".repeat(3)
    );
    assert!(!shown(7, [0; 3], &csv_of_all).contains("nir"));
    assert!(!shown(7, [0; 3], &json_of_all).contains("nir"));
    assert!(!shown(7, [0; 3], &["info"]).contains("near infrared"));
    // Rewritten, the bytes are the same.
    for code in [7, 8, 10] {
        let from = folder.put("from.las", &infrared(code, [0, 1, 65_535]));
        let to = folder.join(&format!("to-{code}.las"));
        assert_eq!(rewrite(&from, &to, &[]).status.code(), Some(0));
        assert_eq!(fs::read(&to).unwrap(), fs::read(&from).unwrap());
    }
}

#[test]
fn fields_by_other_names() {
    let (out, _, _) = on(
        &["points", "--limit", "1", "--fields", "X,Y,Z,class"],
        &sample(),
    );
    assert_eq!(
        out,
        "x,y,z,classification\n500000.128,5400000.021,112.039,2\n"
    );
    let (_, err, status) = on(&["points", "--fields", "x,intesity"], &sample());
    assert!(err.contains("there is no field 'intesity'; did you mean intensity?"));
    assert_eq!(status, Some(2));
    let (_, err, _) = on(&["points", "--fields", "reflectence"], &sample());
    assert!(err.contains("did you mean reflectance?"));
}

#[test]
fn wrong_use_is_told_before_a_file_is_opened() {
    let missing = Path::new("/nowhere/missing.las");
    for (options, words) in [
        (&["--limit", "many"][..], "--limit needs a number"),
        (&["--skip", "-1"], "--skip needs a number"),
        (&["--fields", "x,,y"], "has an empty one"),
        (&["--fields", "x,x"], "--fields names x twice"),
        (&["--jsn"], "did you mean --json?"),
    ] {
        let (out, err, status) = on(&[&["points"], options].concat(), missing);
        assert!(
            err.contains(words) && !err.contains("no such file"),
            "{err}"
        );
        assert_eq!((out.as_str(), status), ("", Some(2)));
    }
}

#[test]
fn json_before_the_command() {
    let before = on(&["--json", "check"], &sample());
    assert_eq!(before, on(&["check", "--json"], &sample()));
    assert_eq!(objects(&before.0), 1);
    let (_, err, _) = told(&run(&["--jsno", "check"]));
    assert!(err.contains("did you mean --json?"));
    let (_, err, status) = told(&run(&["--limit", "5"]));
    assert!(err.contains("there is no option '--limit' before the command"));
    assert_eq!(status, Some(2));
}

#[test]
fn what_was_meant() {
    let (_, err, status) = told(&run(&["chek", "a.las"]));
    assert!(
        err.contains("there is no command 'chek' (there are check, audit,")
            && err.ends_with("did you mean check?\n"),
        "{err}"
    );
    assert_eq!(status, Some(2));
    let (_, err, _) = told(&run(&["help", "pionts"]));
    assert!(err.contains("did you mean points?"));
    let (_, err, _) = told(&run(&[sample()]));
    assert!(
        err.contains("a command comes first, as in 'inscjarol check "),
        "{err}"
    );
}

#[test]
fn folders() {
    let folder = Folder::new("folders");
    for (name, bytes) in [
        ("b.las", &plain(1)[..]),
        ("a.LAS", &plain(2)),
        ("c.las", &plain(3)[..250]),
        ("readme.txt", b"text"),
        ("d.laz", b"LASF"),
    ] {
        folder.put(name, bytes);
    }
    fs::create_dir(folder.join("more.las")).unwrap();
    let all = folder.join("");
    let (out, err, status) = on(&["check"], &all);
    let names: Vec<&str> = out
        .lines()
        .filter_map(|line| line.split(": ").next()?.rsplit('/').next())
        .collect();
    assert_eq!(names, ["a.LAS", "b.las", "c.las", "3 files"]);
    assert!(
        out.ends_with("3 files: 2 accepted, 1 refused; 3 others there are no .las files\n"),
        "{out}"
    );
    assert_eq!((err.as_str(), status), ("", Some(1)));
    let (out, err, _) = on(&["check", "--json"], &all);
    assert_eq!(objects(&out), 3);
    assert!(err.contains("3 others there are no .las files"));
    for command in ["parts", "info"] {
        let (out, err, status) = on(&[command], &all);
        assert!(out.contains("a.LAS") && out.contains("b.las"));
        assert!(err.contains("3 others there") && err.contains("c.las: refused 12 3 0"));
        assert_eq!(status, Some(1));
    }
    let (_, err, status) = on(&["check"], &folder.join("more.las"));
    assert!(err.contains("there is no .las file in this folder"));
    assert_eq!(status, Some(2));
}

#[test]
fn progress_fits_the_terminal() {
    let folder = Folder::new("width");
    let path = folder.join("a-name-that-is-longer-than-a-line-of-this-terminal.las");
    huge(&path);
    let watched = format!(
        "stty cols 40; timeout 3 {} points {} >/dev/null",
        env!("CARGO_BIN_EXE_inscjarol"),
        path.display()
    );
    // `script` is what makes a terminal.
    let output = match Command::new("script")
        .args(["-qec", &watched, "/dev/null"])
        .output()
    {
        Ok(output) => output,
        Err(_) => return,
    };
    let shown = String::from_utf8(output.stdout).unwrap();
    let lines: Vec<&str> = shown
        .split("\r\x1b[K")
        .filter(|line| line.contains('%'))
        .collect();
    assert!(!lines.is_empty(), "{shown:?}");
    for line in lines {
        assert!(line.chars().count() < 40, "{line:?}");
        assert!(
            line.starts_with("...") && line.contains(".las: "),
            "{line:?}"
        );
    }
}

#[test]
fn info_of_several_files() {
    let folder = Folder::new("headings");
    let one = folder.put("one.las", &plain(1));
    let two = folder.put("two.las", &plain(2));
    let (out, _, _) = told(&tool().arg("info").args([&one, &two]).output().unwrap());
    let headings: Vec<&str> = out.lines().filter(|line| !line.starts_with(' ')).collect();
    let (one, two) = (one.display().to_string(), two.display().to_string());
    assert_eq!(headings, [one.as_str(), "", &two]);
}

#[test]
fn a_named_pipe() {
    let folder = Folder::new("pipe");
    let pipe = folder.join("pipe.las");
    if !Command::new("mkfifo")
        .arg(&pipe)
        .status()
        .map_or(false, |status| status.success())
    {
        return;
    }
    let child = tool()
        .arg("parts")
        .arg(&pipe)
        .stdout(Stdio::piped())
        .spawn()
        .unwrap();
    fs::write(&pipe, two_points()).unwrap();
    let output = child.wait_with_output().unwrap();
    assert_eq!(
        (output.stdout.as_slice(), output.status.code()),
        (TWO_POINTS.as_bytes(), Some(0))
    );
}

#[test]
fn a_file_that_becomes_shorter() {
    let folder = Folder::new("shorter");
    let path = folder.join("shorter.las");
    huge(&path);
    let mut child = tool()
        .arg("points")
        .arg(&path)
        .stdout(Stdio::piped())
        .stderr(Stdio::piped())
        .spawn()
        .unwrap();
    let mut out = child.stdout.take().unwrap();
    let mut some = [0; 1_000];
    out.read_exact(&mut some).unwrap();
    File::options()
        .write(true)
        .open(&path)
        .unwrap()
        .set_len(375)
        .unwrap();
    let mut rest = Vec::new();
    out.read_to_end(&mut rest).unwrap();
    let output = child.wait_with_output().unwrap();
    assert!(
        told(&output).1.contains("it became shorter meanwhile"),
        "{output:?}"
    );
    assert_eq!(output.status.code(), Some(2));
}

#[test]
fn wrong_use() {
    for words in [
        &[][..],
        &["chek"],
        &["check"],
        &["points", "a", "b"],
        &["ask"],
        &["ask", "--to"],
        &["convert", "a"],
        &["rewrite", "a"],
        &["check", "--jsn", "a"],
    ] {
        let (out, err, status) = told(&run(words));
        assert_eq!((out.as_str(), status), ("", Some(2)), "{words:?}");
        assert!(err.starts_with("inscjarol: "), "{err}");
    }
    let (_, err, status) = on(&["points", "--limit", "many"], &sample());
    assert!(err.contains("--limit needs a number, and 'many' is none") && status == Some(2));
}

#[test]
fn help() {
    for words in [&["help"][..], &["--help"], &["-h"]] {
        let (out, err, status) = told(&run(words));
        assert!(out.contains("Usage: inscjarol COMMAND") && out.contains("  rewrite "));
        assert_eq!((err.as_str(), status), ("", Some(0)));
    }
    for command in [
        "check", "parts", "info", "points", "ask", "convert", "rewrite", "append",
    ] {
        let (taught, _, status) = told(&run(&["help", command]));
        assert_eq!(status, Some(0));
        assert_eq!(told(&run(&[command, "--help"])).0, taught);
        assert_eq!(told(&run(&[command, "-h"])).0, taught);
        assert!(taught.contains(&format!("Usage: inscjarol {command}")));
    }
    assert_eq!(told(&run(&["help", "me"])).2, Some(2));
    for (topic, words) in [
        ("help", "Usage: inscjarol help [COMMAND]"),
        ("version", "which version"),
        ("json", "refusal.number"),
    ] {
        let (out, err, status) = told(&run(&["help", topic]));
        assert!(out.contains(words));
        assert_eq!((err.as_str(), status), ("", Some(0)));
    }
    assert_eq!(
        told(&run(&["--version"])).0,
        concat!("inscjarol ", env!("CARGO_PKG_VERSION"), "\n")
    );
}
