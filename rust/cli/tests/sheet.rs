//! `inscjarol sheet`, run as its users run it.

#[path = "../../tests/common/mod.rs"]
mod common;

use common::{plain, rich, sample, Folder};
use inscjarol::{Flags, Format, Header, Point, Sheet, Version};
use std::{
    fs::{self, File},
    os::unix::fs::{symlink, PermissionsExt},
    process::{Command, Output, Stdio},
    time::{Duration, Instant},
};

fn tool() -> Command {
    Command::new(env!("CARGO_BIN_EXE_inscjarol"))
}

/// What it wrote and said, and its status.
fn told(output: &Output) -> (String, String, Option<i32>) {
    let text = |bytes: &[u8]| String::from_utf8(bytes.to_vec()).unwrap();
    (
        text(&output.stdout),
        text(&output.stderr),
        output.status.code(),
    )
}

/// `inscjarol sheet` with these words, in a folder.
fn sheet(folder: &Folder, words: &str) -> (String, String, Option<i32>) {
    let mut tool = tool();
    tool.current_dir(folder.join("")).arg("sheet");
    told(&tool.args(words.split_whitespace()).output().unwrap())
}

/// A file of LAS 1.2 in format 0 with this scale and these points.
fn survey(scale: f64, points: &[([i32; 3], u8)]) -> Vec<u8> {
    let mut header = Header::new(Version { major: 1, minor: 2 }).unwrap();
    header.number_of_point_records = points.len() as u32;
    header.x_scale_factor = scale;
    header.y_scale_factor = scale;
    header.z_scale_factor = scale;
    header.x_offset = 100.0;
    header.file_creation_day_of_year = 32;
    header.file_creation_year = 2026;
    let mut bytes = header.to_vec(&[]).unwrap();
    for &([x, y, z], class) in points {
        let point = Point {
            x,
            y,
            z,
            flags: Flags::TwoByte(1 | 1 << 3, class),
            ..Point::default()
        };
        bytes.extend(point.to_vec(Format::default()).unwrap());
    }
    bytes
}

/// Points of a slope, in a square of so many steps.
fn slope(side: i32) -> Vec<([i32; 3], u8)> {
    let places = (0..side * side).map(|n| (n % side, n / side));
    places.map(|(x, y)| ([x, y, x + 2 * y], 2)).collect()
}

#[test]
fn the_sheet_of_several_files() {
    let folder = Folder::new("sheet");
    folder.put("b.las", &survey(0.01, &[([-5, 7, 9], 2), ([3, 8, 1], 12)]));
    folder.put("a.las", &survey(0.01, &[([0, 0, 0], 2)]));
    folder.put("c.las", &plain(3)[..250]);
    folder.put("notes.txt", b"");
    let (out, err, status) = sheet(&folder, ".");
    let expected = "\
./a.las: 1 point of format 0
./b.las: 2 points of format 0
./c.las: refused 12 3 0 (point extent): the points run past the end of the file: the header counts 3 of them; the file may have been cut off

class           points    share
    2  ground        2   66.7 %
   12  overlap       1   33.3 %
total                3  100.0 %

return    points    share
     0         0    0.0 %
     1         3  100.0 %
 total         3  100.0 %

   smallest  largest  smallest scaled  largest scaled
x        -5        3            99.95          100.03
y         0        8             0.00            0.08
z         0        9             0.00            0.09

3 files: 2 counted (3 points), 1 refused
";
    assert_eq!(out, expected);
    assert_eq!(err, "inscjarol: 1 other there is no .las file\n");
    assert_eq!(status, Some(1));

    // For programs.
    let (out, _, status) = sheet(&folder, "--json a.las b.las");
    let expected = "\
{\"file\":\"a.las\",\"accepted\":true,\"format\":0,\"points\":1}
{\"file\":\"b.las\",\"accepted\":true,\"format\":0,\"points\":2}
{\"files\":2,\"refused\":0,\"points\":3,\"classes\":[{\"class\":2,\"name\":\"ground\",\"points\":2},{\"class\":12,\"name\":\"overlap\",\"points\":1}],\
\"returns\":[0,3,0,0,0,0,0,0,0,0,0,0,0,0,0,0],\"bounds\":{\"min\":[-5,0,0],\"max\":[3,8,9]},\
\"scaled\":{\"min\":[99.95,0.00,0.00],\"max\":[100.03,0.08,0.09]},\"out\":null}
";
    assert_eq!((out.as_str(), status), (expected, Some(0)));
}

#[test]
fn other_scales_and_no_points() {
    let folder = Folder::new("sheet-scales");
    folder.put("a.las", &survey(0.01, &[([1, 2, 3], 2)]));
    folder.put("b.las", &survey(0.001, &[([4, 5, 6], 2)]));
    folder.put("empty.las", &survey(0.001, &[]));
    let (out, _, status) = sheet(&folder, "a.las b.las");
    assert!(out.contains("\nx         1        4\n"), "{out}");
    assert!(!out.contains("scaled") && out.contains("do not have one scale and offset"));
    assert_eq!(status, Some(0));
    // A file without points has no say.
    let (out, ..) = sheet(&folder, "empty.las a.las");
    assert!(
        out.contains("x         1        1           100.01          100.01\n"),
        "{out}"
    );
    let (out, _, status) = sheet(&folder, "empty.las");
    assert!(
        out.contains("no points, so no smallest and no largest\n"),
        "{out}"
    );
    assert!(out.ends_with("1 file: 1 counted (0 points), 0 refused\n"));
    assert_eq!(status, Some(0));
    let (out, ..) = sheet(&folder, "--json empty.las");
    assert!(
        out.ends_with("\"bounds\":null,\"scaled\":null,\"out\":null}\n"),
        "{out}"
    );
}

#[test]
fn every_format_counts_as_the_library_counts() {
    let folder = Folder::new("sheet-formats");
    let mut expected = Sheet::default();
    for code in 0..=10 {
        let bytes = rich(code, 2);
        expected.add(&bytes).unwrap();
        folder.put(&format!("{code}.las"), &bytes);
    }
    let (out, _, status) = sheet(&folder, "--json .");
    assert_eq!(status, Some(0));
    let last = out.lines().last().unwrap();
    assert!(last.starts_with("{\"files\":11,\"refused\":0,\"points\":55,"));
    for (class, points) in expected.classes().iter().enumerate() {
        let told = last.contains(&format!("{{\"class\":{class},\"name\""));
        assert_eq!(told, *points > 0);
        if told {
            let (_, after) = last.split_once(&format!("{{\"class\":{class},")).unwrap();
            let entry = after.split_once('}').unwrap().0;
            assert!(entry.ends_with(&format!("\"points\":{points}")), "{entry}");
        }
    }
    let returns: Vec<String> = expected.returns().iter().map(u64::to_string).collect();
    assert!(last.contains(&format!("\"returns\":[{}]", returns.join(","))));
}

#[test]
fn what_is_wrong() {
    let folder = Folder::new("sheet-wrong");
    folder.put("a.las", &plain(2));
    folder.put("broken.las", &plain(2)[..100]);
    fs::create_dir(folder.join("none")).unwrap();
    symlink("a.las", folder.join("link.las")).unwrap();
    for (words, said) in [
        ("", "it needs FILE.."),
        ("a.las a.las", "a.las is given twice, and would count twice"),
        ("a.las link.las", "link.las is given twice"),
        ("a.las --force", "--force is of no use without --html"),
        ("a.las --html -", "--html has to be a file"),
        ("a.las --html", "--html needs OUT"),
        (
            "a.las --html a.las --force",
            "a.las: it is one of the files that are to be counted",
        ),
        (
            "a.las --html link.las --force",
            "link.las: it is one of the files",
        ),
        ("a.las --html none", "none: it is a folder, not a file"),
        (
            "a.las --html no/page.html",
            "no/page.html: there is no such folder",
        ),
    ] {
        let (out, err, status) = sheet(&folder, words);
        assert!(err.contains(said), "{words}: {err}");
        assert_eq!((out.as_str(), status), ("", Some(2)), "{words}");
    }
    assert_eq!(fs::read(folder.join("a.las")).unwrap(), plain(2));

    // What cannot be read does not keep the others from being counted.
    let (out, err, status) = sheet(
        &folder,
        "missing.las none a.las broken.las --html page.html",
    );
    assert!(out.contains("a.las: 2 points of format 0\n"));
    assert!(out.contains("4 files: 1 counted (2 points), 1 refused, 2 could not be read\n"));
    assert!(err.contains("missing.las: there is no such file\n"));
    assert!(err.contains("none: there is no .las file in this folder\n"));
    assert_eq!(status, Some(2));
    let page = fs::read_to_string(folder.join("page.html")).unwrap();
    for words in [
        "could not be read: there is no such file",
        "<b>2</b>unread files",
        "(refusal 1): ",
    ] {
        assert!(page.contains(words), "{words}");
    }
}

/// The picture of a page: its sides in cells, and its bytes, of which each is a cell.
fn picture(page: &str) -> (usize, usize, Vec<u8>) {
    let (_, rest) = page.split_once("data:image/png;base64,").unwrap();
    let (text, _) = rest.split_once('"').unwrap();
    let digit = |c: u8| match c {
        b'A'..=b'Z' => c - b'A',
        b'a'..=b'z' => c - b'a' + 26,
        b'0'..=b'9' => c - b'0' + 52,
        b'+' => 62,
        b'/' => 63,
        _ => 0,
    };
    let mut png = Vec::new();
    for four in text.as_bytes().chunks(4) {
        let bits = four
            .iter()
            .fold(0_u32, |bits, c| bits << 6 | u32::from(digit(*c)));
        png.extend(&bits.to_be_bytes()[1..]);
    }
    assert!(png.starts_with(b"\x89PNG\r\n\x1a\n"));
    let number = |at: usize| u32::from_be_bytes(png[at..at + 4].try_into().unwrap()) as usize;
    let (width, height) = (number(16), number(20));
    let at = png.windows(4).position(|four| four == b"IDAT").unwrap();
    let data = &png[at + 4..at + 4 + number(at - 4)];
    // Stored blocks: a byte, the length twice, and the bytes.
    let (mut rows, mut place) = (Vec::new(), 2);
    loop {
        let len = usize::from(u16::from_le_bytes([data[place + 1], data[place + 2]]));
        rows.extend(&data[place + 5..place + 5 + len]);
        if data[place] == 1 {
            break;
        }
        place += 5 + len;
    }
    assert_eq!(rows.len(), height * (width + 1));
    let cells = rows.chunks(width + 1).flat_map(|row| row[1..].to_vec());
    (width, height, cells.collect())
}

#[test]
fn the_page() {
    let folder = Folder::new("sheet-page");
    folder.put("slope <1>.las", &survey(0.01, &slope(100)));
    folder.put("cut.las", &plain(3)[..250]);
    let (out, err, status) = sheet(&folder, ". --html page.html");
    let page = fs::read_to_string(folder.join("page.html")).unwrap();
    assert!(out.ends_with(&format!("written as page.html, {} bytes\n", {
        let len = page.len();
        format!("{},{:03}", len / 1_000, len % 1_000)
    })));
    assert_eq!((err.as_str(), status), ("", Some(1)));
    for words in [
        "<b>10,000</b>points",
        "<b>1</b>file<",
        "<b>1</b>refused file<",
        "<td class=\"class\">ground</td>",
        "./slope &lt;1&gt;.las",
        "2026-02-01",
        "point extent (refusal 12): the points run past the end of the file",
        "<td class=\"n\">99</td>",
        "<td class=\"n\">100.99</td>",
        "<td class=\"n\">297</td>",
    ] {
        assert!(page.contains(words), "{words}");
    }
    // Nothing from elsewhere, and nothing that runs.
    for words in ["http", "<script", "<link", "@import", "slope <1>"] {
        assert!(!page.contains(words), "{words}");
    }

    // Light is low: the first colour at the lower left, the last at the upper right.
    let (width, height, cells) = picture(&page);
    assert_eq!((width, height), (71, 71));
    let at = |x: usize, y: usize| cells[(height - 1 - y) * width + x];
    assert_eq!((at(0, 0), at(70, 70)), (1, 255));
    assert!(at(70, 0) < at(0, 70), "y rises faster than x");
    assert!(cells.iter().all(|cell| *cell > 0));

    // The same files make the same page; it is not replaced unasked, and then wholly.
    let (_, err, status) = sheet(&folder, ". --html page.html");
    assert!(err.contains("page.html: it is there already; with --force it is replaced"));
    assert_eq!(status, Some(2));
    let (.., status) = sheet(&folder, ". --html page.html --force");
    assert_eq!(status, Some(1));
    assert_eq!(fs::read_to_string(folder.join("page.html")).unwrap(), page);
    fs::set_permissions(folder.join("page.html"), PermissionsExt::from_mode(0o444)).unwrap();
    let (_, err, _) = sheet(&folder, ". --html page.html --force");
    assert!(err.contains("page.html: it is read-only"), "{err}");
    let left = fs::read_dir(folder.join("")).unwrap().count();
    assert_eq!(left, 3, "two files and the page");
}

#[test]
fn pictures_of_odd_sites() {
    let folder = Folder::new("sheet-odd");
    let page = |name: &str, bytes: &[Vec<u8>]| {
        let inside = format!("{name}.folder");
        fs::create_dir(folder.join(&inside)).unwrap();
        for (number, bytes) in bytes.iter().enumerate() {
            folder.put(&format!("{inside}/{number}.las"), bytes);
        }
        let (_, err, status) = sheet(&folder, &format!("{inside} --html {name}.html"));
        assert_eq!((err.as_str(), status), ("", Some(0)), "{name}");
        fs::read_to_string(folder.join(&format!("{name}.html"))).unwrap()
    };
    // No points, one point, points in a line, and coordinates that are no numbers.
    let none = page("none", &[plain(0)]);
    assert!(none.contains("so there is no picture") && none.contains("so there are none"));
    let (width, height, cells) = picture(&page("one", &[survey(0.01, &[([1, 2, 3], 2)])]));
    assert_eq!((width, height, cells), (1, 1, vec![128]));
    let line: Vec<_> = (0..100).map(|n| ([n, 0, n], 2)).collect();
    let (width, height, _) = picture(&page("line", &[survey(0.01, &line)]));
    assert_eq!((width, height), (50, 1));
    assert!(page("nan", &[survey(f64::NAN, &slope(5))]).contains("so there is no picture"));

    // Half of the site in other steps: the picture is whole, and has no scale that would be wrong for one of them.
    let fine: Vec<_> = slope(20)
        .into_iter()
        .map(|([x, y, z], class)| ([10 * (x + 20), 10 * y, 10 * z], class))
        .collect();
    let mixed = page("mixed", &[survey(0.01, &slope(20)), survey(0.001, &fine)]);
    let (width, height, cells) = picture(&mixed);
    assert_eq!((width, height), (29, 14));
    assert!(cells.iter().all(|cell| *cell > 0));
    assert!(!mixed.contains("class=\"scale\"") && mixed.contains("not have one scale and offset"));
    // And a file beside them that has no place.
    let odd = page(
        "left",
        &[survey(0.01, &slope(20)), survey(f64::INFINITY, &slope(3))],
    );
    assert!(odd.contains("1 file could not be drawn"));
    // A point far off leaves the colours to the site.
    let mut bird = slope(30);
    bird.push(([15, 15, 100_000], 7));
    let bird = page("bird", &[survey(0.01, &bird)]);
    assert!(bird.contains("and above"));
    let (_, _, cells) = picture(&bird);
    let mut colors = cells.clone();
    colors.sort_unstable();
    colors.dedup();
    assert!(colors.len() > 50, "{}", colors.len());
}

#[test]
fn a_stream_is_counted_and_drawn() {
    let folder = Folder::new("sheet-stream");
    let file = folder.put("a.las", &survey(0.01, &slope(30)));
    let (by_name, ..) = sheet(&folder, "a.las --html a.html");
    let piped = Command::new("sh")
        .args([
            "-c",
            &format!(
                "cat a.las | {} sheet - --html b.html",
                env!("CARGO_BIN_EXE_inscjarol")
            ),
        ])
        .current_dir(folder.join(""))
        .output()
        .unwrap();
    let (out, err, status) = told(&piped);
    let renamed = by_name
        .replace("a.las:", "standard input:")
        .replace("a.html", "b.html");
    let same = |text: &str| text.rsplit_once(", ").unwrap().0.to_string();
    assert_eq!(
        (same(&out), err.as_str(), status),
        (same(&renamed), "", Some(0))
    );
    let page = |name: &str| fs::read_to_string(folder.join(name)).unwrap();
    assert_eq!(
        page("b.html"),
        page("a.html").replace("a.las", "standard input")
    );
    // A file as the standard input is one too.
    let output = tool()
        .args(["sheet", "-"])
        .stdin(Stdio::from(File::open(&file).unwrap()))
        .output()
        .unwrap();
    assert!(told(&output)
        .0
        .starts_with("standard input: 900 points of format 0\n"));
}

#[test]
fn a_million_points_are_soon_drawn() {
    let folder = Folder::new("sheet-million");
    folder.put("a.las", &survey(0.01, &slope(1_000)));
    let begun = Instant::now();
    let (_, err, status) = sheet(&folder, "a.las --html page.html");
    assert_eq!((err.as_str(), status), ("", Some(0)));
    // A second was asked for, which tools/look holds it to; here it may run under an emulator, beside other tests.
    assert!(begun.elapsed() < Duration::from_secs(10));
    let page = fs::read_to_string(folder.join("page.html")).unwrap();
    let (width, height, cells) = picture(&page);
    assert_eq!((width, height), (708, 708));
    assert!(cells.iter().all(|cell| *cell > 0));
}

#[test]
fn the_sample() {
    let folder = Folder::new("sheet-sample");
    let bytes = fs::read(sample()).unwrap();
    folder.put("stockpile.las", &bytes);
    let (out, ..) = sheet(&folder, "stockpile.las");
    let mut expected = Sheet::default();
    expected.add(&bytes).unwrap();
    assert_eq!(expected.points(), 2_998);
    for line in [
        "    1  unclassified     1,002   33.4 %\n",
        "    2  ground           1,873   62.5 %\n",
        "z    109236   116762          109.236         116.762\n",
    ] {
        assert!(out.contains(line), "{out}");
    }
}
