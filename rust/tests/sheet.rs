//! The site sheet against a count of the points that the crate itself reads.

mod common;

use common::{plain, rich, sample, waveforms, Chance};
use inscjarol::{File, Header, Point, Refusal, Sheet, StoredBounds, Version};
use std::fs;

fn numbers(refusal: Refusal) -> (u64, u64, u64) {
    (refusal.number(), refusal.value(), refusal.record())
}

/// A file of every format, with padding, VLRs, EVLRs, gaps and extra bytes, one with waveform packets, one without points, and the sample.
fn files() -> Vec<Vec<u8>> {
    let mut files: Vec<Vec<u8>> = (0..=10)
        .flat_map(|code| [rich(code, 0), rich(code, 3)])
        .collect();
    files.extend([waveforms(), plain(0), plain(3), fs::read(sample()).unwrap()]);
    files
}

fn sheet_of<'f>(files: impl IntoIterator<Item = &'f Vec<u8>>) -> Sheet {
    let mut sheet = Sheet::default();
    for file in files {
        sheet.add(file).unwrap();
    }
    sheet
}

/// The numbers of the sheet, counted here, point by point.
fn counted(files: &[Vec<u8>]) -> [u64; 281] {
    let mut numbers = [0_u64; 281];
    let mut bounds: Option<[i32; 6]> = None;
    for file in files {
        let file = File::check(file).unwrap();
        numbers[0] += 1;
        for point in file.points() {
            numbers[1] += 1;
            numbers[9 + usize::from(point.flags.class())] += 1;
            numbers[265 + usize::from(point.flags.return_number())] += 1;
            let Point { x, y, z, .. } = point;
            let [a, b, c, d, e, f] = bounds.unwrap_or([x, x, y, y, z, z]);
            bounds = Some([a.min(x), b.max(x), c.min(y), d.max(y), e.min(z), f.max(z)]);
        }
    }
    if let Some(bounds) = bounds {
        numbers[2] = 1;
        for (number, bound) in numbers[3..9].iter_mut().zip(bounds) {
            *number = u64::from(bound as u32);
        }
    }
    numbers
}

#[test]
fn a_fold_over_every_format() {
    let files = files();
    let mut sheet = Sheet::default();
    for (taken, file) in (1..).zip(&files) {
        sheet.add(file).unwrap();
        assert_eq!(sheet.to_numbers(), counted(&files[..taken]));
    }
    assert_eq!(sheet.files(), files.len() as u64);
    assert_eq!(sheet.classes().iter().sum::<u64>(), sheet.points());
    assert_eq!(sheet.returns().iter().sum::<u64>(), sheet.points());
    // The old formats have five bits of class and the new ones eight; 0 is a return number too.
    assert!(sheet.classes()[32..].iter().any(|count| *count > 0));
    assert!(sheet.returns()[0] > 0 && sheet.returns()[8..].iter().any(|count| *count > 0));
    let old = sheet_of((0..6).map(|code| &files[2 * code]));
    assert!(old.points() > 0 && old.classes()[32..].iter().all(|count| *count == 0));
    assert!(old.returns()[8..].iter().all(|count| *count == 0));
}

#[test]
fn the_order_of_files_does_not_matter() {
    let mut files = files();
    let sheet = sheet_of(&files);
    let mut chance = Chance(9);
    for _ in 0..50 {
        let last = files.len() - 1;
        files.swap(chance.below(last), last);
        files.rotate_left(chance.below(last));
        assert_eq!(sheet_of(&files), sheet);
    }
}

#[test]
fn headers_are_not_believed() {
    // The counts by return and the bounds of the header say something else.
    let mut file = plain(3);
    let honest = sheet_of([&file]);
    for place in (111..131).chain(179..227) {
        file[place] = 0x77;
    }
    assert_eq!(sheet_of([&file]), honest);
    assert_eq!(honest.returns()[..2], [3, 0]);
}

#[test]
fn bounds_are_none_or_attained() {
    assert_eq!(Sheet::default().bounds(), None);
    let empty = sheet_of([&plain(0), &plain(0)]);
    assert_eq!((empty.files(), empty.points()), (2, 0));
    assert_eq!(empty.bounds(), None);

    // One point far from 0: nothing is smallest or largest but it, also beside a file without points.
    let far = |x, y, z| {
        let mut header = Header::new(Version { major: 1, minor: 2 }).unwrap();
        header.number_of_point_records = 1;
        let point = Point {
            x,
            y,
            z,
            ..Point::default()
        };
        let record = point.to_vec(inscjarol::Format::default()).unwrap();
        [header.to_vec(&[]).unwrap(), record].concat()
    };
    let one = far(i32::MAX, i32::MIN, -7);
    let bounds = StoredBounds {
        min: [i32::MAX, i32::MIN, -7],
        max: [i32::MAX, i32::MIN, -7],
    };
    for files in [vec![&one], vec![&one, &plain(0)], vec![&plain(0), &one]] {
        assert_eq!(sheet_of(files).bounds(), Some(bounds));
    }
    let both = sheet_of([&one, &far(i32::MIN, i32::MAX, -6)]).bounds();
    assert_eq!(
        both,
        Some(StoredBounds {
            min: [i32::MIN, i32::MIN, -7],
            max: [i32::MAX, i32::MAX, -6],
        })
    );
}

#[test]
fn a_refused_file_changes_nothing() {
    let whole = rich(7, 2);
    let mut sheet = sheet_of([&whole, &plain(2)]);
    let before = sheet.clone();
    for end in 0..whole.len() {
        let cut = &whole[..end];
        match File::check(cut) {
            Ok(_) => continue,
            Err(refusal) => assert_eq!(sheet.add(cut), Err(refusal)),
        }
        assert_eq!(sheet, before);
    }
    assert_eq!(sheet.add(b"no LAS file").unwrap_err().name(), "signature");
    // More records than are allowed.
    let refused = sheet.add_within(&whole, 1).unwrap_err();
    assert_eq!(Err(refused), File::check_within(&whole, 1).map(|_| ()));
    assert_eq!((refused.number(), sheet == before), (10, true));
    assert_eq!(sheet.add_within(&whole, 4), Ok(()));
}

#[test]
fn no_total_goes_over_the_edge() {
    let file = plain(3);
    // Files, points, class 0 and return 0, which the file's points are of, each by itself.
    assert_eq!(sheet_of([&file]).to_numbers()[9], 3);
    assert_eq!(sheet_of([&file]).to_numbers()[265], 3);
    for (place, most) in [
        (0, u64::MAX - 1),
        (1, u64::MAX - 3),
        (9, u64::MAX - 3),
        (265, u64::MAX - 3),
    ] {
        let mut full = Sheet::default().to_numbers();
        full[place] = most;
        let mut sheet = Sheet::from_numbers(&full);
        assert_eq!(sheet.add(&file), Ok(()));
        assert_eq!(sheet.to_numbers()[place], u64::MAX);

        full[place] = most + 1;
        let mut sheet = Sheet::from_numbers(&full);
        let refusal = sheet.add(&file).unwrap_err();
        assert_eq!(numbers(refusal), (50, 0, 0));
        assert_eq!(refusal.name(), "total too large");
        assert_eq!(sheet.to_numbers(), full);
        // The file's own refusals come first.
        assert_eq!(sheet.add(&file[..250]).unwrap_err().number(), 12);
    }
    // A class and a return number that the file has none of are no matter, nor are files without points.
    let mut full = [u64::MAX; 281];
    for place in [0, 1, 2, 9, 265] {
        full[place] = 0;
    }
    assert_eq!(Sheet::from_numbers(&full).add(&file), Ok(()));
    full[1] = u64::MAX;
    assert_eq!(Sheet::from_numbers(&full).add(&plain(0)), Ok(()));
}

#[test]
fn kept_as_numbers() {
    let files = files();
    let sheet = sheet_of(&files);
    assert_eq!(Sheet::from_numbers(&sheet.to_numbers()), sheet);
    // Added to tomorrow, it is what one pass would have made.
    let mut kept = Sheet::from_numbers(&sheet_of(&files[..7]).to_numbers());
    for file in &files[7..] {
        kept.add(file).unwrap();
    }
    assert_eq!(kept, sheet);
    // Of what is made by hand the low bits of a bound count, and any number but 0 says that there are some.
    let mut odd = [0; 281];
    odd[2] = 7;
    odd[3] = 0xffff_ffff_0000_0005;
    odd[8] = 0xffff_fffe;
    let bounds = Sheet::from_numbers(&odd).bounds().unwrap();
    assert_eq!((bounds.min, bounds.max), ([5, 0, 0], [0, 0, -2]));
}
