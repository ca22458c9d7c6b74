//! Records appended: in lent memory, by steps, and to files on the disk.

mod common;

use common::{plain, rich, Chance, Folder};
use inscjarol::{
    Append, Appended, Bounds, Error, File, Flags, Format, Header, Kind, NewFile, Offer, Point,
    Refusal, Sector, Step, Version, Vlr, Writer,
};
use std::{fs, io, os::unix::fs::symlink, path::Path};

/// The example, whose main is not called here.
mod scanner {
    #![allow(dead_code)]
    include!("../examples/scanner.rs");

    pub fn run(path: &Path) -> Result<(), Error> {
        life(path)
    }
}

const NOWHERE: Bounds = Bounds {
    min: [0.0; 3],
    max: [0.0; 3],
};

/// A file of format 0 with some points, and room for so many more.
fn with_room(points: u32, room: usize) -> Vec<u8> {
    let mut bytes = plain(points);
    bytes.resize(bytes.len() + 20 * room, 0);
    bytes
}

/// Records of format 0 with these return numbers.
fn records(returns: &[u8]) -> Vec<u8> {
    let point = |(x, &number): (usize, &u8)| {
        let point = Point {
            x: -(x as i32),
            flags: Flags::TwoByte(number, 2),
            ..Point::default()
        };
        point.to_vec(Format::default()).unwrap()
    };
    returns.iter().enumerate().flat_map(point).collect()
}

fn offer(records: &[u8], believed: u64) -> Append<'_> {
    Append {
        records,
        count: records.len() as u64 / 20,
        believed,
        bounds: NOWHERE,
    }
}

fn numbers(refusal: Refusal) -> (u64, u64, u64) {
    (refusal.number(), refusal.value(), refusal.record())
}

#[test]
fn added_and_then_already_in() {
    let mut bytes = with_room(3, 10);
    let old = bytes.clone();
    let records = records(&[1, 1, 2, 5, 0, 6, 7]);
    let mut append = offer(&records, 3);
    append.bounds = Bounds {
        min: [1.0, 2.0, 3.0],
        max: [4.0, f64::NAN, f64::from_bits(0x7ff0_0000_0000_0001)],
    };
    assert_eq!(append.apply(&mut bytes), Ok(Appended::Added));
    let file = File::check(&bytes).unwrap();
    let header = file.header();
    assert_eq!(header.number_of_point_records, 10);
    assert_eq!(header.number_of_points_by_return, [2, 1, 0, 0, 1]);
    assert_eq!((header.min_x, header.max_x), (1.0, 4.0));
    assert_eq!((header.min_y, header.min_z), (2.0, 3.0));
    assert!(header.max_y.is_nan());
    assert_eq!(header.max_z.to_bits(), 0x7ff0_0000_0000_0001);
    // Nothing else changed.
    let end = 227 + 3 * 20;
    assert_eq!(bytes[end..end + records.len()], records);
    assert_eq!(bytes[end + records.len()..], old[end + records.len()..]);
    assert_eq!(bytes[227..end], old[227..end]);
    assert_eq!(
        (&bytes[..107], &bytes[131..179]),
        (&old[..107], &old[131..179])
    );

    let added = bytes.clone();
    // The bounds are not looked at.
    append.bounds = NOWHERE;
    assert_eq!(append.apply(&mut bytes), Ok(Appended::AlreadyIn));
    assert_eq!(append.begin(&bytes), Ok(Offer::AlreadyIn));
    assert_eq!(bytes, added);
    // As of now it would be added again, and nobody could see that: the belief is from before.
    assert!(matches!(
        offer(&records, 10).begin(&with_room(10, 10)),
        Ok(Offer::Add(_))
    ));
}

#[test]
fn every_refusal() {
    let records = records(&[1, 2, 3]);
    let refused = |append: Append<'_>, bytes: &[u8]| {
        let mut lent = bytes.to_vec();
        let refusal = append.apply(&mut lent).unwrap_err();
        assert_eq!(lent, bytes);
        assert_eq!(append.begin(bytes), Err(refusal));
        let by_steps = append.by_steps(&mut lent, |step| panic!("{step:?}"));
        assert_eq!(by_steps.unwrap_err().refusal(), Some(refusal));
        assert_eq!(lent, bytes);
        numbers(refusal)
    };
    let bytes = with_room(2, 5);
    let append = offer(&records, 2);
    assert_eq!(refused(append, &bytes[..250]), (12, 2, 0));
    assert_eq!(refused(append, &rich(3, 0)), (28, 0, 0));
    assert_eq!(refused(offer(&[], 2), &bytes), (29, 0, 0));
    let more = |count| Append { count, ..append };
    assert_eq!(refused(more(4), &bytes), (1, 80, 0));
    assert_eq!(refused(more(u64::MAX), &bytes), (1, 0, 0));
    for believed in [0, 1, 3, u64::MAX] {
        assert_eq!(refused(offer(&records, believed), &bytes), (30, 0, 0));
    }
    // As many points, and others.
    assert_eq!(refused(offer(&records, 0), &with_room(3, 5)), (30, 0, 0));
    let mut many = bytes.clone();
    many[111..115].copy_from_slice(&u32::MAX.to_le_bytes());
    assert_eq!(refused(append, &many), (31, 0, 0));
    assert_eq!(refused(append, &bytes[..326]), (22, 327, 0));
    let mut exact = bytes[..327].to_vec();
    assert_eq!(append.apply(&mut exact), Ok(Appended::Added));
    assert_eq!(File::check(&exact).unwrap().points().len(), 5);
}

#[test]
fn a_sweep_is_a_list_of_stores() {
    let mut bytes = with_room(10, 50);
    let records = records(&[1; 50]);
    let append = offer(&records, 10);
    let mut whole = bytes.clone();
    append.apply(&mut whole).unwrap();
    let sweep = match append.begin(&bytes).unwrap() {
        Offer::Add(sweep) => sweep,
        Offer::AlreadyIn => panic!("it is not"),
    };
    assert_eq!((sweep.start(), sweep.points()), (427, 60));
    let mut sectors = Vec::new();
    for k in 0..sweep.stores() {
        let before = bytes.clone();
        let sector = sweep.store(&mut bytes, k).unwrap().unwrap();
        let places = sector.start as usize..(sector.start + sector.len) as usize;
        assert_eq!(sector.of(&bytes), &bytes[places.clone()]);
        // No other sector changed.
        let mut same = before;
        same[places.clone()].copy_from_slice(&bytes[places]);
        assert_eq!(same, bytes);
        sectors.push((sector.start, sector.len));
    }
    // The last sector of the file is less than 512 bytes.
    assert_eq!(sectors, [(0, 512), (512, 512), (1_024, 403), (0, 512)]);
    assert_eq!(sweep.store(&mut bytes, sweep.stores()), Ok(None));
    assert_eq!(sweep.store(&mut bytes, u64::MAX), Ok(None));
    assert_eq!(bytes, whole);
    let refusal = sweep.store(&mut bytes[..1_400], 0).unwrap_err();
    assert_eq!(numbers(refusal), (22, 1_427, 0));
    let cut = Sector { start: 1, len: 9 };
    assert_eq!(cut.of(&bytes[..5]), b"");
}

/// What an append asks of a disk: the places of sectors, and None where it waits.
fn asked(append: &Append<'_>, bytes: &mut [u8]) -> (Appended, Vec<Option<u64>>) {
    let mut steps = Vec::new();
    let appended = append.by_steps(bytes, |step| {
        steps.push(match step {
            Step::Write { start, .. } => Some(start),
            Step::Sync => None,
        });
        Ok(())
    });
    (appended.unwrap(), steps)
}

#[test]
fn the_header_is_written_when_all_else_is_on_the_disk() {
    let mut bytes = with_room(10, 60);
    let records = records(&[1; 50]);
    let append = offer(&records, 10);
    let mut whole = bytes.clone();
    append.apply(&mut whole).unwrap();
    let (appended, steps) = asked(&append, &mut bytes);
    assert_eq!(appended, Appended::Added);
    assert_eq!(
        steps,
        [Some(0), Some(512), Some(1_024), None, Some(0), None]
    );
    assert_eq!(bytes, whole);
    // Whoever wrote it may not have come to see it on the disk.
    assert_eq!(
        asked(&append, &mut bytes),
        (Appended::AlreadyIn, vec![None])
    );
    assert_eq!(bytes, whole);
}

#[test]
fn bounds_grow_with_the_points() {
    let mut header = Header::new(Version { major: 1, minor: 2 }).unwrap();
    header.x_scale_factor = 0.5;
    header.y_scale_factor = -1.0;
    header.z_scale_factor = f64::NAN;
    header.x_offset = 10.0;
    (header.min_z, header.max_z) = (7.0, 8.0);
    let mut bytes = header.to_vec(&[]).unwrap();
    bytes.resize(1_000, 0);
    let sweep = |xs: &[i32]| -> Vec<u8> {
        let point = |&x: &i32| Point {
            x,
            y: x,
            z: x,
            ..Point::default()
        };
        let record = |x| point(x).to_vec(Format::default()).unwrap();
        xs.iter().flat_map(record).collect()
    };
    // Of no points there are no bounds yet; and a rest that is no record is none.
    let records = [sweep(&[4, 20]), vec![1; 19]].concat();
    let append = Append::of(&File::check(&bytes).unwrap(), &records, 0);
    assert_eq!((append.count, append.believed), (2, 0));
    let bounds = append.bounds;
    assert_eq!(
        (bounds.min, bounds.max),
        ([12.0, -20.0, 7.0], [20.0, -4.0, 8.0])
    );
    append.apply(&mut bytes).unwrap();
    let file = File::check(&bytes).unwrap();
    assert_eq!(file.header().bounds(), bounds);
    let records = sweep(&[-2]);
    let append = Append::of(&file, &records, 2);
    assert_eq!(
        (append.bounds.min, append.bounds.max),
        ([9.0, -20.0, 7.0], [20.0, 2.0, 8.0])
    );
    let none = Append::of(&file, &[], 2);
    assert_eq!((none.count, none.bounds), (0, bounds));
}

/// Opens a file that is this test's own.
fn writer(path: &Path) -> Writer {
    // SAFETY: nobody else writes to it.
    unsafe { Writer::open(path) }.unwrap()
}

#[test]
fn a_file_on_the_disk() {
    let folder = Folder::new("append-disk");
    let bytes = with_room(10, 60);
    let path = folder.put("file.las", &bytes);
    let records = records(&[1; 50]);
    let append = offer(&records, 10);
    let mut whole = bytes;
    append.apply(&mut whole).unwrap();
    let mut writer = writer(&path);
    assert_eq!(writer.look(|file| file.points().len()).unwrap(), 10);
    assert_eq!(writer.append(&append).unwrap(), Appended::Added);
    assert_eq!(fs::read(&path).unwrap(), whole);
    assert_eq!(writer.append(&append).unwrap(), Appended::AlreadyIn);
    assert_eq!(fs::read(&path).unwrap(), whole);
    let other = offer(&records[..400], 10);
    let refusal = writer.append(&other).unwrap_err().refusal().unwrap();
    assert_eq!(refusal.kind(), Kind::CountNeither);
    assert_eq!(fs::read(&path).unwrap(), whole);
}

#[test]
fn a_file_without_room_is_made_longer() {
    let folder = Folder::new("append-grown");
    let path = folder.put("file.las", &plain(2));
    let mut writer = writer(&path);
    let mut believed = 2;
    let mut expected = with_room(2, 200);
    for returns in [&[1, 2][..], &[1], &[3; 100]] {
        let records = records(returns);
        let append = offer(&records, believed);
        assert_eq!(writer.append(&append).unwrap(), Appended::Added);
        append.apply(&mut expected).unwrap();
        believed += append.count;
        let bytes = fs::read(&path).unwrap();
        // It ends with its points.
        assert_eq!(bytes.len() as u64, 227 + 20 * believed);
        assert_eq!(bytes, expected[..bytes.len()]);
    }
    // Refused, it stays as long as it was.
    assert!(writer.append(&offer(&records(&[1]), 7)).is_err());
    assert_eq!(fs::metadata(&path).unwrap().len(), 227 + 20 * believed);

    let len = 227 + 20 * (believed + 10);
    for (room, expected) in [(10, len), (0, len), (9, len), (11, len + 20)] {
        assert_eq!(writer.room(room).unwrap(), expected);
        assert_eq!(fs::metadata(&path).unwrap().len(), expected);
        assert_eq!(writer.look(|file| file.point_count()).unwrap(), believed);
    }
    let refusal = writer.room(u64::MAX).unwrap_err().refusal().unwrap();
    assert_eq!(numbers(refusal), (22, 0, 0));
    let records = records(&[4; 11]);
    assert_eq!(
        writer.append(&offer(&records, believed)).unwrap(),
        Appended::Added
    );
    assert_eq!(fs::metadata(&path).unwrap().len(), len + 20);
}

#[test]
fn room_is_made_in_files_that_take_records() {
    let folder = Folder::new("append-room");
    for (bytes, number) in [(rich(3, 0), 28), (plain(2)[..250].to_vec(), 12)] {
        let path = folder.put("file.las", &bytes);
        let refusal = writer(&path).room(5).unwrap_err().refusal().unwrap();
        assert_eq!(refusal.number(), number);
        assert_eq!(fs::read(&path).unwrap(), bytes);
    }
}

#[test]
fn two_writers_do_not_meet() {
    let folder = Folder::new("append-lock");
    let path = folder.put("file.las", &plain(2));
    let first = writer(&path);
    let link = folder.join("link.las");
    symlink(&path, &link).unwrap();
    for path in [&path, &link] {
        // SAFETY: as above.
        let error = unsafe { Writer::open(path) }.unwrap_err();
        assert_eq!(error.kind(), io::ErrorKind::WouldBlock);
        assert_eq!(error.to_string(), "another program is writing to it");
    }
    drop(first);
    writer(&path);
    for (path, kind) in [
        (folder.join("none.las"), io::ErrorKind::NotFound),
        (folder.join("."), io::ErrorKind::InvalidInput),
        ("/dev/null".into(), io::ErrorKind::InvalidInput),
    ] {
        // SAFETY: nothing is mapped.
        let error = unsafe { Writer::open(path) }.unwrap_err();
        assert_eq!(error.kind(), kind);
    }
}

#[test]
fn a_large_file_costs_no_more() {
    // 20 GB on a disk that has no room for that; the records end past them.
    let folder = Folder::new("append-huge");
    let mut header = Header::new(Version { major: 1, minor: 2 }).unwrap();
    header.number_of_point_records = 999_999_000;
    let path = folder.put("huge.las", &header.to_vec(&[]).unwrap());
    let file = fs::File::options().write(true).open(&path).unwrap();
    file.set_len(20_000_000_000).unwrap();
    drop(file);
    let records = records(&[1; 1_000]);
    let append = offer(&records, 999_999_000);
    let mut writer = writer(&path);
    let begun = std::time::Instant::now();
    assert_eq!(writer.append(&append).unwrap(), Appended::Added);
    assert_eq!(writer.append(&append).unwrap(), Appended::AlreadyIn);
    let last = writer.look(|file| file.points().last().map(|point| point.x));
    assert_eq!(last.unwrap(), Some(-999));
    assert!(begun.elapsed() < std::time::Duration::from_secs(5));
}

#[test]
fn what_is_told_of_errors() {
    let folder = Folder::new("append-errors");
    let path = folder.put("file.las", &with_room(2, 5));
    let records = records(&[1]);
    let cut = writer(&path).append_watched(&offer(&records, 2), |_| {
        Err(io::Error::new(io::ErrorKind::Other, "the power fails"))
    });
    let error = cut.unwrap_err();
    assert_eq!(error.to_string(), "the power fails");
    assert!(matches!(error, Error::Io(_)) && error.refusal().is_none());
    let refused: Box<dyn std::error::Error> =
        writer(&path).append(&offer(&[], 2)).unwrap_err().into();
    assert!(refused.to_string().starts_with("no records were offered"));
    assert!(refused.source().unwrap().is::<Refusal>());
}

#[test]
fn a_new_file_has_what_was_set() {
    let data = [7; 10];
    let new = NewFile::new(3)
        .extra_bytes(5)
        .scale([0.01, 0.02, 0.03])
        .offset([1.0, -2.0, 3.0])
        .source_id(12)
        .global_encoding(1)
        .guid([9; 16])
        .system("a scanner with a name of 32 byte")
        .software("made by a test")
        .created(2026, 366)
        .vlr(Vlr::new(false, "first", 1, "a", &data))
        .vlr(Vlr::new(true, "second", 2, "b", b""))
        .room(7);
    let bytes = new.to_vec().unwrap();
    let file = File::check(&bytes).unwrap();
    let header = file.header();
    assert_eq!(header.version, Version { major: 1, minor: 2 });
    assert_eq!(
        (header.header_size, header.offset_to_point_data),
        (227, 345)
    );
    assert_eq!(file.format(), Format::new(3).unwrap().with_extra_bytes(5));
    assert_eq!(
        (
            header.x_scale_factor,
            header.y_scale_factor,
            header.z_scale_factor
        ),
        (0.01, 0.02, 0.03)
    );
    assert_eq!(
        (header.x_offset, header.y_offset, header.z_offset),
        (1.0, -2.0, 3.0)
    );
    assert_eq!((header.file_source_id, header.global_encoding), (12, 1));
    assert_eq!(header.guid, [9; 16]);
    assert_eq!(header.system(), "a scanner with a name of 32 byte");
    assert_eq!(header.software(), "made by a test");
    assert_eq!(
        (header.file_creation_year, header.file_creation_day_of_year),
        (2026, 366)
    );
    let users: Vec<String> = file.vlrs().map(|vlr| vlr.user().into_owned()).collect();
    assert_eq!(users, ["first", "second"]);
    assert_eq!((file.points().len(), header.bounds()), (0, NOWHERE));
    assert_eq!(bytes.len(), 345 + 7 * 39);
    assert!(bytes[345..].iter().all(|&byte| byte == 0));

    let folder = Folder::new("new");
    let path = folder.join("new.las");
    new.create(&path).unwrap();
    assert_eq!(fs::read(&path).unwrap(), bytes);
    assert_eq!(folder.names(), ["new.las"]);
    // What is there stays.
    let error = NewFile::new(0).create(&path).unwrap_err();
    assert_eq!(error.to_string(), "it is there already");
    assert!(matches!(&error, Error::Io(error) if error.kind() == io::ErrorKind::AlreadyExists));
    assert_eq!(fs::read(&path).unwrap(), bytes);
    let nowhere = folder.join("nowhere.las");
    symlink(folder.join("none.las"), &nowhere).unwrap();
    assert!(NewFile::new(0).create(&nowhere).is_err());
    assert!(NewFile::new(0).create(folder.join("no/new.las")).is_err());
    assert_eq!(folder.names(), ["new.las", "nowhere.las"]);
    // What a brownout has left of another is in nobody's way.
    let left = format!(".inscjarol-{}-0.new", std::process::id());
    folder.put(&left, b"LASF");
    new.create(folder.join("other.las")).unwrap();
    assert_eq!(fs::read(folder.join("other.las")).unwrap(), bytes);
    assert_eq!(fs::read(folder.join(&left)).unwrap(), b"LASF");
}

#[test]
fn every_format_takes_records() {
    let mut chance = Chance(5);
    for code in 0..=3 {
        for extra in [0, 1, 100] {
            let mut bytes = NewFile::new(code)
                .extra_bytes(extra)
                .room(9)
                .to_vec()
                .unwrap();
            let each = usize::from(File::check(&bytes).unwrap().format().len().unwrap());
            let records: Vec<u8> = (0..9 * each).map(|_| chance.next() as u8).collect();
            let append = Append::of(&File::check(&bytes).unwrap(), &records, 0);
            assert_eq!(append.apply(&mut bytes), Ok(Appended::Added));
            let file = File::check(&bytes).unwrap();
            assert_eq!((file.points().len(), file.run().records), (9, &records[..]));
        }
    }
}

#[test]
fn what_no_new_file_has() {
    let refused = |new: NewFile<'_>| {
        let error = new.to_vec().unwrap_err();
        let folder = Folder::new("new-refused");
        let again = new.create(folder.join("new.las")).unwrap_err();
        assert_eq!(again.to_string(), error.to_string());
        assert!(folder.names().is_empty());
        error
    };
    for (code, kind) in [
        (4, Kind::FormatForVersion),
        (10, Kind::FormatForVersion),
        (11, Kind::Format),
        (127, Kind::Format),
        (128, Kind::Compressed),
    ] {
        assert_eq!(refused(NewFile::new(code)).refusal().unwrap().kind(), kind);
    }
    let new = || NewFile::new(0);
    let refusal = refused(new().extra_bytes(65_516)).refusal().unwrap();
    assert_eq!(numbers(refusal), (8, 65_536, 0));
    let long = vec![0; 65_536];
    let refusal = refused(new().vlr(Vlr::new(false, "", 1, "", &long))).refusal();
    assert_eq!(refusal.unwrap().kind(), Kind::VlrDataLength);
    let refusal = refused(new().room(u64::MAX)).refusal().unwrap();
    assert_eq!(numbers(refusal), (22, 0, 0));
    for (new, words) in [
        (
            new().system("a name of more than thirty-two bytes"),
            "has room for 32",
        ),
        (
            new().software("ä name of thirty-three bytes, ..."),
            "has 34 bytes",
        ),
        (new().scale([1.0, 0.0, 1.0]), "a scale is 0:"),
        (new().scale([f64::NAN, 1.0, 1.0]), "a scale is NaN:"),
        (new().scale([1.0, 1.0, -0.5]), "a scale is -0.5:"),
        (new().offset([0.0, f64::INFINITY, 0.0]), "an offset is inf"),
        (new().created(2026, 367), "the day of the year is 367:"),
    ] {
        let error = refused(new);
        assert!(matches!(error, Error::Setting(_)));
        assert!(error.to_string().contains(words), "{error}");
    }
}

#[test]
fn a_scanners_life() {
    let folder = Folder::new("scanner");
    scanner::run(&folder.join("scanner.las")).unwrap();
    assert_eq!(folder.names(), ["scanner.las"]);
}
