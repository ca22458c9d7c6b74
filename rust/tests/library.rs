//! The crate against the numbers and examples of the scope that the library was ordered by.

mod common;

use common::{plain, rich, two_points, waveforms, Folder, TWO_POINTS, WAVEFORMS};
use inscjarol::{
    allowance_for, Checked, File, Format, Header, Kind, LargeFile, Mapped, Part, PartKind, Point,
    Refusal, Version,
};
use std::{
    fs,
    time::{Duration, Instant},
};

fn refused(bytes: &[u8]) -> (u64, u64, u64) {
    let refusal = File::check(bytes).unwrap_err();
    (refusal.number(), refusal.value(), refusal.record())
}

/// A file with a number written over.
fn with(mut bytes: Vec<u8>, place: usize, number: &[u8]) -> Vec<u8> {
    bytes[place..place + number.len()].copy_from_slice(number);
    bytes
}

#[test]
fn a_header_alone_is_a_file() {
    let bytes = plain(0);
    assert_eq!(bytes.len(), 227);
    let file = File::check(&bytes).unwrap();
    assert_eq!(
        (file.points().len(), file.records(), file.point_count()),
        (0, 0, 0)
    );
    assert_eq!(file.points().next(), None);
}

#[test]
fn one_point_or_one_byte_less() {
    let bytes = plain(1);
    assert_eq!(bytes.len(), 247);
    assert_eq!(File::check(&bytes).unwrap().points().count(), 1);
    assert_eq!(refused(&bytes[..246]), (12, 1, 0));
}

/// The parts of a file, as the parts program lists them.
fn listed(file: &File<'_>) -> String {
    let parts = file.parts();
    let lines = parts.map(|part| format!("{} {} {}\n", part.kind, part.start, part.len));
    [String::from("kind start length\n")]
        .into_iter()
        .chain(lines)
        .collect()
}

#[test]
fn the_parts_of_the_example() {
    let bytes = two_points();
    assert_eq!(bytes.len(), 327);
    let file = File::check(&bytes).unwrap();
    assert_eq!(listed(&file), TWO_POINTS);
    assert_eq!(file.parts().count(), 4);
    assert_eq!(file.records(), 1);
    let vlr = file.vlrs().next().unwrap();
    assert_eq!(
        (vlr.user().as_ref(), vlr.record_id, vlr.data),
        ("somebody", 1, b"data".as_slice())
    );
    assert_eq!(file.evlrs().len(), 0);
    let gap = Part {
        kind: PartKind::Gap,
        start: 285,
        len: 2,
    };
    assert_eq!(file.part(gap), b"\xdd\xcc");
    let xs: Vec<i32> = file.points().map(|point| point.x).collect();
    assert_eq!(xs, [3, -3]);
}

#[test]
fn every_refusal_of_the_file_check() {
    assert_eq!(refused(b""), (1, 4, 0));
    assert_eq!(refused(b"LAS"), (1, 4, 0));
    assert_eq!(
        refused(b"LASX"),
        (2, u64::from(u32::from_le_bytes(*b"LASX")), 0)
    );
    assert_eq!(refused(b"LASF"), (1, 26, 0));
    assert_eq!(refused(&with(plain(0), 25, &[5])), (3, 261, 0));
    assert_eq!(refused(&plain(0)[..226]), (1, 227, 0));
    assert_eq!(refused(&with(plain(0), 94, &[228, 0])), (1, 228, 0));
    assert_eq!(refused(&with(plain(0), 94, &[226, 0])), (4, 226, 0));
    assert_eq!(refused(&with(plain(0), 104, &[11])), (5, 11, 0));
    assert_eq!(refused(&with(plain(0), 104, &[128])), (6, 128, 0));
    assert_eq!(refused(&with(plain(0), 104, &[4])), (7, 4, 0));
    assert_eq!(refused(&with(plain(0), 105, &[19, 0])), (8, 19, 0));
    assert_eq!(refused(&with(plain(0), 96, &[226, 0])), (9, 226, 0));
    assert_eq!(refused(&with(plain(0), 96, &[228, 0])), (9, 228, 0));
    assert_eq!(refused(&with(two_points(), 100, &[2])), (11, 0, 2));
    assert_eq!(refused(&with(two_points(), 227 + 20, &[7])), (11, 7, 1));
    assert_eq!(refused(&two_points()[..326]), (12, 2, 0));
    let bytes = rich(6, 2);
    let file = File::check(&bytes).unwrap();
    let evlrs: Vec<Part> = file
        .parts()
        .filter(|part| part.kind == PartKind::Evlr)
        .collect();
    let (first, second) = (evlrs[0], evlrs[1]);
    assert_eq!(refused(&bytes[..second.start as usize]), (13, 0, 4));
    assert_eq!(refused(&bytes[..first.start as usize + 62]), (13, 3, 3));
    let early = first.start - 7;
    assert_eq!(
        refused(&with(bytes.clone(), 235, &early.to_le_bytes())),
        (14, early, 0)
    );
}

#[test]
fn waveform_packets_are_a_part_of_their_own() {
    let bytes = waveforms();
    let file = File::check(&bytes).unwrap();
    assert_eq!(listed(&file), WAVEFORMS);
    assert_eq!(
        (file.records(), file.vlrs().len(), file.evlrs().len()),
        (2, 1, 0)
    );
    let packets = file.waveform_packets().unwrap();
    assert!(packets.extended);
    assert_eq!(
        (packets.record_id, packets.data),
        (65_535, b"0123456789".as_slice())
    );
    assert_eq!(file.rewritten().unwrap(), bytes);

    // They are the last record, and count.
    let refusal = File::check_within(&bytes, 1).unwrap_err();
    assert_eq!((refusal.kind(), refusal.record()), (Kind::Allowance, 2));
    assert_eq!(refused(&bytes[..501]), (13, 10, 2));
    assert_eq!(refused(&bytes[..491]), (13, 0, 2));
    // At the end of the file they start in it, and their head ends too late; at the end of the points they may start.
    assert_eq!(
        refused(&with(bytes.clone(), 227, &506_u64.to_le_bytes())),
        (13, 0, 2)
    );
    for start in [1, 428, 507, u64::MAX] {
        assert_eq!(
            refused(&with(bytes.clone(), 227, &start.to_le_bytes())),
            (35, 0, 0)
        );
    }
}

#[test]
fn no_other_file_has_waveform_packets() {
    // Without a start, without bit 1, with bit 2 in its place, in LAS 1.2: what follows the points is a gap.
    let gap = "gap 429 77\n";
    let others = [
        with(waveforms(), 227, &[0; 8]),
        with(waveforms(), 6, &[0, 0]),
        with(waveforms(), 6, &[0xfd, 0xff]),
        with(with(waveforms(), 25, &[2]), 104, &[1]),
    ];
    for bytes in others {
        let file = File::check(&bytes).unwrap();
        assert!(listed(&file).ends_with(gap), "{}", listed(&file));
        assert_eq!((file.records(), file.waveform_packets()), (1, None));
    }
    // LAS 1.4 looks at its EVLRs alone.
    let mut bytes = rich(9, 0);
    bytes[6] = 2;
    bytes[227..235].copy_from_slice(&1_u64.to_le_bytes());
    let file = File::check(&bytes).unwrap();
    assert_eq!((file.records(), file.evlrs().len()), (4, 2));
    assert_eq!(file.waveform_packets(), None);
}

#[test]
fn an_allowance_is_spent_by_both_kinds() {
    let bytes = rich(6, 2);
    for allowance in 0..4 {
        let refusal = File::check_within(&bytes, allowance).unwrap_err();
        assert_eq!(
            (refusal.kind(), refusal.value(), refusal.record()),
            (Kind::Allowance, allowance, allowance + 1)
        );
        let Checked { answer, records } = File::judge(&bytes, allowance);
        assert_eq!((answer, records), (Err(refusal), allowance));
    }
    assert_eq!(File::check_within(&bytes, 4).unwrap().records(), 4);
    assert_eq!(allowance_for(bytes.len()), bytes.len() as u64 / 54);
}

#[test]
fn the_usual_allowance_is_never_spent() {
    // As many VLRs without data as a file has room for, and a header that counts one more.
    for count in [0, 1, 2, 50] {
        let mut header = Header::new(Version { major: 1, minor: 2 }).unwrap();
        header.number_of_variable_length_records = count + 1;
        header.offset_to_point_data = 227 + 54 * count;
        let mut bytes = header.to_vec(&[]).unwrap();
        bytes.resize(bytes.len() + 54 * count as usize, 0);
        assert_eq!(refused(&bytes), (11, 0, u64::from(count) + 1));
    }
}

#[test]
fn everything_of_a_rich_file() {
    for (code, extra) in [
        (0, 0),
        (1, 1),
        (3, 2),
        (5, 0),
        (6, 2),
        (7, 0),
        (8, 3),
        (9, 1),
        (10, 300),
    ] {
        let bytes = rich(code, extra);
        let file = File::check(&bytes).unwrap();
        assert_eq!(file.padding(), b"pad");
        assert_eq!(file.bytes(), bytes);
        assert_eq!(
            (file.records(), file.vlrs().len(), file.evlrs().len()),
            (4, 2, 2)
        );
        let about: Vec<String> = file.vlrs().map(|vlr| vlr.about().into_owned()).collect();
        assert_eq!(about, ["text", "empty"]);
        assert!(file.evlrs().all(|evlr| evlr.extended));

        let format = file.format();
        assert_eq!((format.to_u8(), format.extra_bytes), (Ok(code), extra));
        let mut at = 0;
        for part in file.parts() {
            assert_eq!(part.start, at);
            at += part.len;
        }
        assert_eq!(at, bytes.len() as u64);

        let run = file.run();
        assert_eq!((run.count, run.format, run.extra_bytes), (5, code, extra));
        let mut records = run.records.chunks_exact(usize::from(format.len().unwrap()));
        let mut points = file.points();
        assert_eq!(points.len(), 5);
        for left in (0..5).rev() {
            let (record, point) = (records.next().unwrap(), points.next().unwrap());
            assert_eq!(points.len(), left);
            assert_eq!(Point::read(record, format), Ok(point));
            assert_eq!(point.extra_bytes.len(), usize::from(extra));
            assert_eq!(point.to_vec(format).unwrap(), record);
        }
        assert_eq!(
            (points.next(), points.next(), points.len()),
            (None, None, 0)
        );
        assert_eq!(
            Header::end_of_points(&bytes),
            Ok(u64::from(file.header().offset_to_point_data) + run.records.len() as u64)
        );
        assert_eq!(file.rewritten().unwrap(), bytes);
    }
}

#[test]
fn near_infrared_of_every_point() {
    let stored = [0, 1, u16::MAX, 0, 256];
    for code in 0..=10 {
        let mut bytes = rich(code, 2);
        let file = File::check(&bytes).unwrap();
        let (format, points) = (file.format(), file.header().offset_to_point_data as usize);
        let length = usize::from(format.len().unwrap());
        for (record, nir) in bytes[points..].chunks_exact_mut(length).zip(stored) {
            let point = Point::read(record, format).unwrap();
            let written = Point {
                nir: Some(nir),
                ..point
            };
            let written = written.to_vec(format).unwrap();
            record.copy_from_slice(&written);
        }
        let file = File::check(&bytes).unwrap();
        let shown: Vec<Option<u16>> = file.points().map(|point| point.nir).collect();
        assert_eq!(shown, stored.map(|nir| format.has_nir.then_some(nir)));
        assert_eq!(file.rewritten().unwrap(), bytes);
    }
}

#[test]
fn going_to_a_point_at_once() {
    let bytes = rich(7, 5);
    let file = File::check(&bytes).unwrap();
    let all: Vec<Point> = file.points().collect();
    for n in 0..8 {
        let mut points = file.points();
        assert_eq!(points.nth(n), all.get(n).copied());
        assert_eq!(points.len(), 5_usize.saturating_sub(n + 1));
        assert_eq!(points.next(), all.get(n + 1).copied());
    }
    assert_eq!(file.points().skip(2).step_by(2).count(), 2);
    assert_eq!(file.points().last(), all.last().copied());
    assert_eq!(file.points().nth(usize::MAX), None);
}

/// A file of 20 GB in format 6, all zeros after its header, on a disk that has no room for that.
fn huge(folder: &Folder) -> Mapped {
    let mut header = Header::new(Version { major: 1, minor: 4 }).unwrap();
    header.point_data_record_format = 6;
    header.point_data_record_length = 30;
    header.large_file = Some(LargeFile {
        number_of_point_records: 600_000_000,
        ..LargeFile::default()
    });
    let path = folder.put("huge.las", &header.to_vec(&[]).unwrap());
    let file = fs::File::options().write(true).open(&path).unwrap();
    file.set_len(20_000_000_000).unwrap();
    // SAFETY: the file is this test's own, and nobody writes to it any more.
    unsafe { Mapped::open(path) }.unwrap()
}

#[test]
fn counting_and_the_last_point_at_once() {
    let folder = Folder::new("library-huge");
    let bytes = huge(&folder);
    let begun = Instant::now();
    let file = File::check(&bytes).unwrap();
    assert_eq!(file.points().count(), 600_000_000);
    assert_eq!(file.points().skip(100).count(), 599_999_900);
    assert_eq!(file.points().last(), file.points().nth(599_999_999));
    assert_eq!(file.points().nth(600_000_000), None);
    let mut none = file.points();
    assert!(none.nth(599_999_999).is_some());
    assert_eq!((none.clone().last(), none.count()), (None, 0));
    assert!(begun.elapsed() < Duration::from_secs(5));
}

#[test]
fn points_are_asked_for_without_another_check() {
    // A check goes through each of these records.
    let count = 200_000;
    let mut header = Header::new(Version { major: 1, minor: 2 }).unwrap();
    header.number_of_variable_length_records = count;
    header.offset_to_point_data = 227 + 54 * count;
    let mut bytes = header.to_vec(&[]).unwrap();
    bytes.resize(bytes.len() + 54 * count as usize, 0);
    // The shortest of several turns, which a busy machine disturbs the least.
    let time = |work: &dyn Fn()| {
        let turns = (0..5).map(|_| {
            let begun = Instant::now();
            work();
            begun.elapsed()
        });
        turns.min().unwrap()
    };
    let checked = time(&|| assert!(File::check(&bytes).is_ok()));
    let file = File::check(&bytes).unwrap();
    let asked = time(&|| (0..100).for_each(|_| assert_eq!(file.points().len(), 0)));
    assert!(asked < checked, "{asked:?} {checked:?}");
    assert_eq!(file.records(), u64::from(count));
}

#[test]
fn a_half_zero_pair_becomes_two_zeros() {
    let mut bytes = rich(6, 0);
    bytes[243..247].copy_from_slice(&[0; 4]);
    let file = File::check(&bytes).unwrap();
    assert_eq!((file.header().evlrs, file.evlrs().len()), (None, 0));
    let mut expected = bytes.clone();
    expected[235..247].copy_from_slice(&[0; 12]);
    assert_ne!(expected, bytes);
    assert_eq!(file.rewritten().unwrap(), expected);
}

#[test]
fn rewriting_leaves_what_lies_past_the_file() {
    let bytes = two_points();
    let file = File::check(&bytes).unwrap();
    let mut dst = vec![0xa5; 400];
    assert_eq!(file.rewrite(&mut dst), Ok(327));
    assert_eq!(dst[..327], bytes);
    assert_eq!(dst[327..], [0xa5; 73]);
    let mut short = vec![0xa5; 326];
    let refusal = file.rewrite(&mut short).unwrap_err();
    assert_eq!((refusal.number(), refusal.value()), (22, 327));
    assert_eq!(short, vec![0xa5; 326]);
}

#[test]
fn a_refusal_is_an_error() {
    fn read(bytes: &[u8]) -> Result<usize, Box<dyn std::error::Error + Send + Sync>> {
        Ok(File::check(bytes)?.points().len())
    }
    assert_eq!(read(&plain(2)).unwrap(), 2);
    let error = read(&plain(2)[..250]).unwrap_err();
    let refusal = error.downcast_ref::<Refusal>().unwrap();
    assert_eq!(refusal.kind(), Kind::PointExtent);
    assert!(error.to_string().contains("the header counts 2 of them"));
}

#[test]
fn the_large_count_where_the_legacy_one_is_zero() {
    let bytes = rich(6, 0);
    assert_eq!(File::check(&bytes).unwrap().point_count(), 5);
    let both = with(bytes, 107, &[3]);
    assert_eq!(File::check(&both).unwrap().points().len(), 3);
}

#[test]
fn the_default_format_is_0() {
    assert_eq!(Format::new(0), Ok(Format::default()));
}
