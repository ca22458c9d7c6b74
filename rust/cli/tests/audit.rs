//! `inscjarol audit`, run as operators run it: contractors have delivered files, and ask what is wrong with them.

#[path = "../../tests/common/mod.rs"]
mod common;

use common::{plain, repository, rich, sample, waveforms, Folder};
use inscjarol::{File, Header, Version};
use std::{
    fs,
    io::Write,
    path::{Path, PathBuf},
    process::{Command, Output, Stdio},
};

fn tool() -> Command {
    Command::new(env!("CARGO_BIN_EXE_inscjarol"))
}

/// What it wrote and said, and its status.
fn told(output: &Output) -> (String, String, Option<i32>) {
    let text = |bytes: &[u8]| String::from_utf8(bytes.to_vec()).unwrap();
    (
        text(&output.stdout),
        text(&output.stderr),
        output.status.code(),
    )
}

/// Audits these files, with these options.
fn audit(options: &[&str], paths: &[&Path]) -> (String, String, Option<i32>) {
    let mut tool = tool();
    told(
        &tool
            .arg("audit")
            .args(options)
            .args(paths)
            .output()
            .unwrap(),
    )
}

/// The sample with each rule broken once.
fn contractor() -> PathBuf {
    repository().join("samples/contractor.las")
}

/// What is said of it, its name left out.
const FINDINGS: [&str; 5] = [
    "byte 107, part 1 (header): the legacy count of points is 6; the standard wants 0 there in point formats 6 to 10",
    "byte 107, part 1 (header): the legacy count of points is 6, and the large one, at byte 247, is 5; the standard wants the same number \
     there, or 0",
    "byte 263, part 1 (header): the count of return 2 is 1, and 2 points are of that return; the standard wants the number of points of \
     that return",
    "byte 397, part 2 (vlr): the description ends with a zero at byte 407, and byte 408 after it is not zero; the standard wants zeros \
     from there to the end of the field",
    "byte 574, part 4 (points), point 5: the return number is 2, and the number of returns is 1; the standard wants returns counted from \
     1 to the number of returns",
];

/// What is said of the rules at the end.
const RULES: [&str; 5] = [
    "a legacy counter is not 0 in point formats 6 to 10",
    "the legacy count of points is neither 0 nor the large one",
    "a count by return is not the number of points of that return",
    "a return number is 0 or above the number of returns",
    "a text field has more than zeros after its first zero",
];

/// The lines that say how often rules were broken.
fn by_rule(counts: &[(usize, &str)]) -> Vec<String> {
    let lines = counts.iter().map(|(rule, counts)| {
        let broken = RULES[rule - 1];
        format!("rule {rule}, {counts}: {broken}")
    });
    lines.collect()
}

#[test]
fn the_sample_in_words() {
    let path = contractor();
    let (out, err, status) = audit(&[], &[&path]);
    let mut expected: Vec<String> = FINDINGS.iter().map(|words| words.to_string()).collect();
    expected.push("5 findings".into());
    for line in &mut expected {
        *line = format!("{}: {line}", path.display());
    }
    let once = "1 finding in 1 file";
    let counts: Vec<(usize, &str)> = (1..=5).map(|rule| (rule, once)).collect();
    expected.extend(by_rule(&counts));
    assert_eq!(out.lines().collect::<Vec<_>>(), expected);
    assert_eq!((err.as_str(), status), ("", Some(1)));

    // It is what the library says, and accepted by every other command.
    let bytes = fs::read(&path).unwrap();
    let file = File::check(&bytes).unwrap();
    assert!(file
        .findings()
        .map(|finding| finding.to_string())
        .eq(FINDINGS));
    let checked = tool().arg("check").arg(&path).output().unwrap();
    assert_eq!(checked.status.code(), Some(0));
}

#[test]
fn nothing_is_wrong() {
    let folder = Folder::new("audit-clean");
    let empty = Header::new(Version { major: 1, minor: 0 }).unwrap();
    let empty = folder.put("empty.las", &empty.to_vec(&[]).unwrap());
    for path in [sample(), empty] {
        let expected = format!("{}: nothing found\n", path.display());
        for options in [&[][..], &["--max", "0"], &["--max=7"]] {
            assert_eq!(
                audit(options, &[&path]),
                (expected.clone(), "".into(), Some(0))
            );
        }
    }
}

#[test]
fn some_of_many() {
    let folder = Folder::new("audit-many");
    // A scanner that writes no return numbers.
    let path = folder.put("many.las", &plain(70_000));
    let name = path.display();
    let (all, _, status) = audit(&[], &[&path]);
    let lines: Vec<&str> = all.lines().collect();
    assert_eq!((lines.len(), status), (70_002, Some(1)));
    let last = 227 + 69_999 * 20;
    assert!(lines[69_999].starts_with(&format!(
        "{name}: byte {last}, part 2 (points), point 70000: the return number is 0"
    )));
    assert_eq!(lines[70_000], format!("{name}: 70,000 findings"));
    let sum = by_rule(&[(4, "70,000 findings in 1 file")]);
    assert_eq!(lines[70_001], sum[0]);
    for (most, words) in [
        ("0", "70,000 findings, of which 0 are shown"),
        ("1", "70,000 findings, of which 1 is shown"),
        ("3", "70,000 findings, of which 3 are shown"),
        ("69999", "70,000 findings, of which 69,999 are shown"),
        ("70000", "70,000 findings"),
        ("18446744073709551615", "70,000 findings"),
    ] {
        let (out, err, status) = audit(&["--max", most], &[&path]);
        let shown = most.parse::<usize>().unwrap().min(70_000);
        let few: Vec<&str> = out.lines().collect();
        assert_eq!(few[..shown], lines[..shown]);
        assert_eq!(few[shown..], [format!("{name}: {words}"), sum[0].clone()]);
        assert_eq!((err.as_str(), status), ("", Some(1)));
    }
    for wrong in ["-1", "few", ""] {
        let (out, err, status) = audit(&["--max", wrong], &[&path]);
        assert_eq!((out.as_str(), status), ("", Some(2)));
        assert!(err.contains("--max needs a number"));
    }
}

#[test]
fn a_folder_as_contractors_send_it() {
    let folder = Folder::new("audit-folder");
    let mut old = plain(3);
    for point in 0..2 {
        old[227 + 20 * point + 14] = 0x09;
    }
    let mut packets = waveforms();
    packets[432 + 28 + 31] = b'!';
    for (name, bytes) in [
        ("a-contractor.las", &fs::read(contractor()).unwrap()[..]),
        ("b-clean.LAS", &fs::read(sample()).unwrap()),
        ("c-old.las", &old),
        ("d-packets.las", &packets),
        ("e-cut.las", &old[..250]),
        ("f-text.las", b"no LAS file"),
        ("readme.txt", b"text"),
    ] {
        folder.put(name, bytes);
    }
    let all = folder.join("");
    let (out, err, status) = audit(&[], &[&all]);
    let strip = |line: &str| {
        line.strip_prefix(all.to_str().unwrap())
            .unwrap_or(line)
            .to_string()
    };
    let lines: Vec<String> = out.lines().map(strip).collect();
    let mut expected: Vec<String> = FINDINGS
        .iter()
        .map(|words| format!("a-contractor.las: {words}"))
        .collect();
    expected.extend(
        [
            "a-contractor.las: 5 findings",
            "b-clean.LAS: nothing found",
            "c-old.las: byte 111, part 1 (header): the count of return 1 is 0, and 2 points are of that return; the standard wants the number \
             of points of that return",
            "c-old.las: byte 267, part 2 (points), point 3: the return number is 0, and the number of returns is 0; the standard wants returns \
             counted from 1 to the number of returns",
            "c-old.las: 2 findings",
            "d-packets.las: byte 315, part 3 (points), point 1: the return number is 0, and the number of returns is 0; the standard wants \
             returns counted from 1 to the number of returns",
            "d-packets.las: byte 372, part 3 (points), point 2: the return number is 0, and the number of returns is 0; the standard wants \
             returns counted from 1 to the number of returns",
            "d-packets.las: byte 460, part 5 (waveform): the description ends with a zero at byte 469, and byte 491 after it is not zero; the \
             standard wants zeros from there to the end of the field",
            "d-packets.las: 3 findings",
            "e-cut.las: refused 12 3 0 (point extent): the points run past the end of the file: the header counts 3 of them; the file may \
             have been cut off",
        ]
        .map(String::from),
    );
    assert_eq!(lines[..expected.len()], expected);
    assert!(lines[expected.len()].starts_with("f-text.las: refused "));
    let mut end = by_rule(&[
        (1, "1 finding in 1 file"),
        (2, "1 finding in 1 file"),
        (3, "2 findings in 2 files"),
        (4, "4 findings in 3 files"),
        (5, "2 findings in 2 files"),
    ]);
    end.push(
        "6 files: 1 with nothing found, 3 with findings, 2 refused; 1 other there is no .las file"
            .into(),
    );
    assert_eq!(lines[expected.len() + 1..], end);
    assert_eq!((err.as_str(), status), ("", Some(1)));

    // A refused file alone is status 1; one that cannot be read is 2, and the others are looked at.
    let (out, _, status) = audit(&[], &[&folder.join("e-cut.las")]);
    assert_eq!((out.lines().count(), status), (1, Some(1)));
    let clean = folder.join("b-clean.LAS");
    let (out, err, status) = audit(&[], &[&folder.join("missing.las"), &clean]);
    assert_eq!(
        (out.lines().last(), status),
        (
            Some("2 files: 1 with nothing found, 0 with findings, 1 could not be read"),
            Some(2)
        )
    );
    assert!(err.contains("missing.las: there is no such file"));
    let (out, _, status) = audit(&[], &[&clean, &clean]);
    assert_eq!(
        (out.lines().last(), status),
        (
            Some("2 files: 2 with nothing found, 0 with findings"),
            Some(0)
        )
    );
}

#[test]
fn for_programs() {
    let folder = Folder::new("audit-json");
    let cut = folder.put("cut.las", &plain(3)[..250]);
    let (path, clean) = (contractor(), sample());
    let (out, err, status) = audit(&["--json"], &[&path, &clean, &cut]);
    let places = [
        r#""rule":1,"name":"legacy not zero","part":1,"kind":"header","point":0,"byte":107"#,
        r#""rule":2,"name":"legacy unlike","part":1,"kind":"header","point":0,"byte":107"#,
        r#""rule":3,"name":"returns unlike","part":1,"kind":"header","point":0,"byte":263"#,
        r#""rule":5,"name":"text","part":2,"kind":"vlr","point":0,"byte":397"#,
        r#""rule":4,"name":"return number","part":4,"kind":"points","point":5,"byte":574"#,
    ];
    let mut expected: Vec<String> = Vec::new();
    for (place, words) in places.iter().zip(FINDINGS) {
        expected.push(format!(
            r#"{{"file":"{}","accepted":true,"finding":{{{place},"words":"{words}"}}}}"#,
            path.display()
        ));
    }
    let total = |path: &Path, all: u64, each: u64| {
        let names = [
            "legacy not zero",
            "legacy unlike",
            "returns unlike",
            "return number",
            "text",
        ];
        let rules = (1..).zip(names);
        let rules = rules
            .map(|(rule, name)| format!(r#"{{"rule":{rule},"name":"{name}","findings":{each}}}"#));
        format!(
            r#"{{"file":"{}","accepted":true,"findings":{all},"rules":[{}]}}"#,
            path.display(),
            rules.collect::<Vec<_>>().join(",")
        )
    };
    expected.push(total(&path, 5, 1));
    expected.push(total(&clean, 0, 0));
    expected.push(format!(
        r#"{{"file":"{}","accepted":false,"refusal":{{"number":12,"name":"point extent","value":3,"record":0,"words":"the points run past the end of the file: the header counts 3 of them; the file may have been cut off"}}}}"#,
        cut.display()
    ));
    assert_eq!(out.lines().collect::<Vec<_>>(), expected);
    assert_eq!((err.as_str(), status), ("", Some(1)));
    // Of some the total is that of all.
    let (out, ..) = audit(&["--json", "--max", "1"], &[&path]);
    assert_eq!(
        out.lines().collect::<Vec<_>>(),
        [&expected[0][..], &expected[5]]
    );
}

#[test]
fn the_standard_input() {
    let run = tool()
        .args(["audit", "-"])
        .stdin(Stdio::piped())
        .stdout(Stdio::piped())
        .spawn();
    let mut run = run.unwrap();
    let mut to = run.stdin.take().unwrap();
    to.write_all(&fs::read(contractor()).unwrap()).unwrap();
    drop(to);
    let (out, _, status) = told(&run.wait_with_output().unwrap());
    assert!(out.starts_with(&format!("standard input: {}\n", FINDINGS[0])));
    assert_eq!(status, Some(1));
}

#[test]
fn what_it_tells_is_where_it_says() {
    // The part and the byte are those of `parts`, and the point that of `points`.
    let folder = Folder::new("audit-where");
    let path = folder.put("rich.las", &rich(6, 2));
    let (out, ..) = audit(&[], &[&path]);
    let parts = tool().arg("parts").arg(&path).output().unwrap();
    let parts = told(&parts).0;
    let parts: Vec<Vec<&str>> = parts
        .lines()
        .skip(1)
        .map(|line| line.split(' ').collect())
        .collect();
    let mut points = 0;
    for line in out.lines().filter(|line| line.contains(": byte ")) {
        let words: Vec<&str> = line
            .split(": byte ")
            .nth(1)
            .unwrap()
            .split([' ', ',', ':', '(', ')'])
            .collect();
        let number = |after: &str| {
            let place = words.iter().position(|word| *word == after).unwrap();
            words[place + 1].parse::<usize>().unwrap()
        };
        let (byte, part) = (words[0].parse::<usize>().unwrap(), number("part"));
        let (kind, start, length) = match parts[part - 1][..] {
            [kind, start, length] => (kind, start, length),
            _ => panic!("{parts:?}"),
        };
        assert!(line.contains(&format!("part {part} ({kind})")));
        let (start, length) = (
            start.parse::<usize>().unwrap(),
            length.parse::<usize>().unwrap(),
        );
        assert!((start..start + length).contains(&byte));
        if kind == "points" {
            points += 1;
            let skip = (number("point") - 1).to_string();
            let shown = tool()
                .args([
                    "points",
                    "--limit",
                    "1",
                    "--fields",
                    "return_number,number_of_returns",
                    "--skip",
                    &skip,
                ])
                .arg(&path)
                .output()
                .unwrap();
            let (_, of) = line.split_once("the number of returns is ").unwrap();
            let (of, _) = of.split_once(';').unwrap();
            assert!(told(&shown)
                .0
                .ends_with(&format!("\n{},{of}\n", number("is"))));
        }
    }
    assert!(points > 0, "{out}");
}

#[test]
fn it_is_taught() {
    let help = told(&tool().args(["help", "audit"]).output().unwrap()).0;
    for words in [
        "Usage: inscjarol audit [OPTIONS] FILE..",
        "--max N",
        "legacy count of points is 0 or the same as the large one",
        "user id and description of each VLR and EVLR and of the waveform packets",
        "The status is 0 where\nnothing was found, 1 where something was or a file was refused.",
    ] {
        assert!(help.contains(words), "{words}");
    }
    assert!(told(&tool().arg("help").output().unwrap())
        .0
        .contains("  audit    say what is wrong"));
}
