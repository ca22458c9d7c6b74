//! Whole files, from LAS 1.2 to 1.4 and back, held against document 02's words and against the conversion of their points.

mod common;

use common::{old, plain, rich, sample, two_points, Chance};
use inscjarol::{File, Flags, Format, Header, LargeFile, Point, Refusal, Version};
use std::{fs, os::raw::c_int, ptr, slice};

const OLD: Version = Version { major: 1, minor: 2 };
const NEW: Version = Version { major: 1, minor: 4 };

/// The six counts of an old header, and the sixteen large ones of a new one: all points first, then by return.
const LEGACY: usize = 107;
const LARGE: usize = 247;

fn put(bytes: &mut [u8], place: usize, number: &[u8]) {
    bytes[place..place + number.len()].copy_from_slice(number);
}

fn number(bytes: &[u8], place: usize, len: usize) -> u64 {
    let bytes = bytes[place..place + len].iter().rev();
    bytes.fold(0, |number, byte| number << 8 | u64::from(*byte))
}

/// A refusal's numbers, or what was answered.
fn told(answer: Result<usize, Refusal>) -> Result<usize, (u64, u64, u64)> {
    answer.map_err(|refusal| (refusal.number(), refusal.value(), refusal.record()))
}

/// What a file is asked, down or up.
fn asked(file: &File<'_>, down: bool) -> Result<usize, (u64, u64, u64)> {
    told(match down {
        true => file.ask_old(),
        false => file.ask_new(),
    })
}

/// What is answered about a file, after a look whether the calls that write answer the same, but 22 and the bytes asked for
/// where there is less room, and leave what they have no business with.
fn answer(bytes: &[u8], down: bool) -> Result<usize, (u64, u64, u64)> {
    let file = File::check(bytes).unwrap();
    let asked = asked(&file, down);
    let needed = asked.unwrap_or(bytes.len());
    for room in [0, 1, needed - 1, needed, needed + 9] {
        let mut dst = vec![0xa5; needed + 20];
        let into = &mut dst[..room];
        let written = told(match down {
            true => file.to_old_into(into),
            false => file.to_new_into(into),
        });
        let short = asked.ok().filter(|bytes| *bytes > room);
        assert_eq!(
            written,
            short.map_or(asked, |bytes| Err((22, bytes as u64, 0)))
        );
        let left = written.unwrap_or(0);
        assert!(dst[left..].iter().all(|byte| *byte == 0xa5));
    }
    let whole = match down {
        true => file.to_old(),
        false => file.to_new(),
    };
    assert_eq!(told(whole.map(|bytes| bytes.len())), asked);
    asked
}

/// The bytes of the parts before and after the points that are no header.
fn around<'a>(file: &File<'a>) -> (&'a [u8], &'a [u8]) {
    let fields = usize::from(file.header().version.header_size().unwrap());
    let points = file.header().offset_to_point_data as usize;
    let end = points + file.run().records.len();
    (&file.bytes()[fields..points], &file.bytes()[end..])
}

/// That a new file is what an old one becomes, by document 02's words.
fn is_upgrade(old: &File<'_>, new: &File<'_>) {
    let (was, is) = (old.bytes(), new.bytes());
    assert_eq!((old.header().version, new.header().version), (OLD, NEW));
    assert_eq!(
        (new.header().header_size, new.header().offset_to_point_data),
        (
            old.header().header_size + 148,
            old.header().offset_to_point_data + 148
        )
    );
    assert_eq!(Some(new.run().format), old.run().new_format());
    assert_eq!(
        new.header().point_data_record_length,
        old.header().point_data_record_length + 2
    );
    // The counts: legacy ones 0, large ones what these were.
    assert_eq!(is[LEGACY..131], [0; 24]);
    for place in 0..6 {
        assert_eq!(
            number(is, LARGE + 8 * place, 8),
            number(was, LEGACY + 4 * place, 4)
        );
    }
    assert!(is[LARGE + 48..375].iter().all(|byte| *byte == 0));
    assert!(is[227..LARGE].iter().all(|byte| *byte == 0));
    // All else of the header, padding, VLRs and gaps.
    for kept in [4..24, 26..94, 100..104, 131..227] {
        assert_eq!(is[kept.clone()], was[kept]);
    }
    assert_eq!(around(new), around(old));
    assert_eq!(new.run().records, old.run().to_new().unwrap());
    assert_eq!(old.records(), new.records());
}

/// That an old file is what a new one becomes.
fn is_downgrade(new: &File<'_>, old: &File<'_>) {
    let (was, is) = (new.bytes(), old.bytes());
    assert_eq!((new.header().version, old.header().version), (NEW, OLD));
    assert_eq!(
        (
            old.header().header_size + 148,
            old.header().offset_to_point_data + 148
        ),
        (new.header().header_size, new.header().offset_to_point_data)
    );
    assert_eq!(Some(old.run().format), new.run().old_format());
    assert_eq!(
        old.header().point_data_record_length + 2,
        new.header().point_data_record_length
    );
    assert_eq!(number(is, LEGACY, 4), new.point_count());
    let by_return = new.header().points_by_return();
    for (place, count) in by_return.iter().take(5).enumerate() {
        assert_eq!(number(is, 111 + 4 * place, 4), *count);
    }
    for kept in [4..24, 26..94, 100..104, 131..227] {
        assert_eq!(is[kept.clone()], was[kept]);
    }
    assert_eq!(around(old), around(new));
    assert_eq!(old.run().records, new.run().to_old().unwrap());
    assert_eq!(old.records(), new.records());
}

#[test]
fn up_and_down_again_byte_for_byte() {
    let mut chance = Chance(3);
    for turn in 0..2_000 {
        let bytes = old([1, 3][turn % 2], &mut chance);
        let file = File::check(&bytes).unwrap();
        let asked = answer(&bytes, false).unwrap();
        assert_eq!(asked, bytes.len() + 148 + 2 * file.points().len());
        let new = file.to_new().unwrap();
        let new = File::check(&new).unwrap();
        is_upgrade(&file, &new);
        assert_eq!(answer(new.bytes(), true), Ok(bytes.len()));
        let again = new.to_old().unwrap();
        is_downgrade(&new, &File::check(&again).unwrap());
        assert!(again == bytes);
        // And neither goes where it is.
        assert_eq!(answer(&bytes, true), Err((32, 0, 0)));
        assert_eq!(answer(new.bytes(), false), Err((32, 0, 0)));
    }
}

/// A file of LAS 1.4 that goes down, with counts of every kind.
fn new(chance: &mut Chance) -> Vec<u8> {
    let bytes = old([1, 3][chance.below(2)], chance);
    let file = File::check(&bytes).unwrap();
    let mut new = file.to_new().unwrap();
    let points = file.points().len() as u32;
    if points > 0 && chance.below(2) == 0 {
        // The legacy counts are there, and the large ones anything but for returns 6 to 15.
        put(&mut new, LEGACY, &points.to_le_bytes());
        for place in (111..131).chain(LARGE..295) {
            new[place] = chance.next() as u8;
        }
    }
    if chance.below(3) == 0 {
        // Half a pair, which is none.
        let half = [235..243, 243..247][chance.below(2)].clone();
        new[half].fill(chance.next() as u8);
    }
    new
}

#[test]
fn counts_of_every_kind_go_down() {
    let mut chance = Chance(4);
    let mut halves = 0;
    for _ in 0..1_000 {
        let bytes = new(&mut chance);
        let file = File::check(&bytes).unwrap();
        let down = answer(&bytes, true).unwrap();
        assert_eq!(down, bytes.len() - 148 - 2 * file.points().len());
        let old = file.to_old().unwrap();
        is_downgrade(&file, &File::check(&old).unwrap());
        halves += u32::from(bytes[235..247] != [0; 12]);
    }
    assert!(halves > 200);
}

/// A file of LAS 1.4 with these points of format 6 and nothing else.
fn of_points(points: &[Point<'_>]) -> Vec<u8> {
    let mut header = Header::new(NEW).unwrap();
    header.point_data_record_format = 6;
    header.point_data_record_length = 30;
    header.large_file = Some(LargeFile {
        number_of_point_records: points.len() as u64,
        ..LargeFile::default()
    });
    let mut bytes = header.to_vec(&[]).unwrap();
    for point in points {
        bytes.extend(point.to_vec(Format::new(6).unwrap()).unwrap());
    }
    bytes
}

#[test]
fn every_refusal_on_the_way_down_in_its_order() {
    let fits = Point {
        flags: Flags::ThreeByte(0x11, 0, 2),
        ..Point::default()
    };
    let overlap = Point {
        flags: Flags::ThreeByte(0x11, 0x08, 2),
        ..Point::default()
    };
    let mut bytes = of_points(&[fits, fits, overlap, overlap]);
    // The points, as the question about their run has it.
    assert_eq!(answer(&bytes, true), Err((19, 2, 3)));
    assert_eq!(
        told(File::check(&bytes).unwrap().run().ask_old()),
        Err((19, 2, 3))
    );
    // The counts before them: one by return, of returns 1 to 5 over 2^32 - 1, of others not 0.
    for (number, least) in [(1, 1 << 32), (5, u64::MAX), (6, 1), (15, 1 << 40)] {
        let place = LARGE + 8 * number;
        put(&mut bytes, place, &(least - 1).to_le_bytes());
        let fitting = answer(&bytes, true);
        assert_eq!(
            fitting,
            Err(match number {
                1 | 6 => (19, 2, 3),
                _ => (34, 0, 0),
            })
        );
        put(&mut bytes, place, &least.to_le_bytes());
        assert_eq!(answer(&bytes, true), Err((34, 0, 0)));
        if number != 15 {
            put(&mut bytes, place, &[0; 8]);
        }
    }
    // Legacy counts do not excuse those of returns 6 to 15.
    put(&mut bytes, LEGACY, &[2]);
    assert_eq!(answer(&bytes, true), Err((34, 0, 0)));
    // EVLRs or a waveform start before that.
    let end = bytes.len() as u64;
    bytes.extend([0; 60]);
    put(&mut bytes, 235, &end.to_le_bytes());
    put(&mut bytes, 243, &[1]);
    assert_eq!(answer(&bytes, true), Err((33, 0, 0)));
    put(&mut bytes, 243, &[0]);
    assert_eq!(answer(&bytes, true), Err((34, 0, 0)));
    put(&mut bytes, 227, &[9]);
    assert_eq!(answer(&bytes, true), Err((33, 0, 0)));
    // Version and format before all.
    put(&mut bytes, 104, &[1]);
    assert_eq!(answer(&bytes, true), Err((32, 0, 0)));
}

#[test]
fn every_version_and_format() {
    for code in 0..=10 {
        for minor in 0..=4 {
            let mut header = Header::new(Version { major: 1, minor }).unwrap();
            header.point_data_record_format = code;
            header.point_data_record_length = 100;
            let bytes = header.to_vec(&[]).unwrap();
            if File::check(&bytes).is_err() {
                continue;
            }
            let goes = |down| answer(&bytes, down).map(|len| (down, len));
            let other = Err((32, 0, 0));
            let expected = match (minor, code) {
                (2, 1 | 3) => (other, Ok((false, 375))),
                (4, 6 | 7) => (Ok((true, 227)), other),
                _ => (other, other),
            };
            assert_eq!((goes(true), goes(false)), expected);
        }
    }
}

#[test]
fn fields_that_are_too_small_on_the_way_up() {
    let mut header = Header::new(OLD).unwrap();
    header.point_data_record_format = 3;
    let up = |size: u16, length: u16| {
        let mut header = header;
        header.header_size = size;
        header.offset_to_point_data = u32::from(size);
        header.point_data_record_length = length;
        let padding = vec![7; usize::from(size) - 227];
        answer(&header.to_vec(&padding).unwrap(), false)
    };
    assert_eq!(up(65_387, 34), Ok(65_535));
    assert_eq!(up(65_388, 34), Err((4, 65_388, 0)));
    assert_eq!(up(65_535, 65_535), Err((4, 65_535, 0)));
    assert_eq!(up(227, 65_533), Ok(375));
    assert_eq!(up(227, 65_534), Err((8, 65_536, 0)));
    assert_eq!(up(227, 65_535), Err((8, 65_537, 0)));
}

/// Bytes that begin so and then are zeros, more than there is memory for: they take none until they are touched.
fn sparse(front: &[u8], len: usize) -> &'static mut [u8] {
    extern "C" {
        fn mmap(
            at: *mut u8,
            len: usize,
            protection: c_int,
            flags: c_int,
            fd: c_int,
            offset: i64,
        ) -> *mut u8;
    }
    const READ_AND_WRITE: c_int = 3;
    const PRIVATE_ANONYMOUS_NORESERVE: c_int = 0x4022;
    // SAFETY: new memory at a place of the system's choice, which is never given back.
    let bytes = unsafe {
        let at = mmap(
            ptr::null_mut(),
            len,
            READ_AND_WRITE,
            PRIVATE_ANONYMOUS_NORESERVE,
            -1,
            0,
        );
        assert_ne!(at as isize, -1);
        slice::from_raw_parts_mut(at, len)
    };
    put(bytes, 0, front);
    bytes
}

#[test]
fn a_point_offset_that_is_too_large_to_go_up() {
    let mut header = Header::new(OLD).unwrap();
    header.point_data_record_format = 1;
    header.point_data_record_length = 65_535;
    header.offset_to_point_data = u32::MAX - 147;
    let bytes = sparse(&header.to_vec(&[]).unwrap(), 1 << 32);
    let mut up = |header: Header| {
        put(bytes, 0, &header.to_vec(&[]).unwrap());
        let file = File::check(bytes).unwrap();
        let mut dst = [0xa5; 400];
        let written = told(file.to_new_into(&mut dst));
        assert_eq!(dst, [0xa5; 400]);
        match asked(&file, false) {
            Ok(bytes) => assert_eq!(written, Err((22, bytes as u64, 0))),
            refused => assert_eq!(written, refused),
        }
        asked(&file, false)
    };
    // Before the record, which is too long too; and after the header's size.
    assert_eq!(up(header), Err((9, u64::from(u32::MAX) - 147, 0)));
    header.header_size = 65_400;
    assert_eq!(up(header), Err((4, 65_400, 0)));
    header.header_size = 227;
    header.offset_to_point_data -= 1;
    assert_eq!(up(header), Err((8, 65_537, 0)));
    header.point_data_record_length = 28;
    assert_eq!(up(header), Ok((1 << 32) + 148));
}

#[test]
fn more_points_than_an_old_header_counts() {
    let mut header = Header::new(NEW).unwrap();
    header.point_data_record_format = 6;
    header.point_data_record_length = 30;
    header.large_file = Some(LargeFile {
        number_of_point_records: 1 << 32,
        ..LargeFile::default()
    });
    let len = 375 + (30 << 32);
    let bytes = sparse(&header.to_vec(&[]).unwrap(), len);
    let file = File::check(bytes).unwrap();
    assert_eq!(file.points().len(), 1 << 32);
    assert_eq!(asked(&file, true), Err((34, 0, 0)));
    assert_eq!(told(file.to_old().map(|_| 0)), Err((34, 0, 0)));
    // Where the legacy count isn't 0, it is the one that counts.
    put(bytes, LEGACY, &[1]);
    let file = File::check(bytes).unwrap();
    assert_eq!(asked(&file, true), Ok(len - 148 - 2));
}

#[test]
fn what_goes_up_and_not_down_again() {
    let mut chance = Chance(9);
    let bytes = loop {
        let bytes = old(1, &mut chance);
        if File::check(&bytes).unwrap().points().len() > 2 {
            break bytes;
        }
    };
    let file = File::check(&bytes).unwrap();
    let second = file.header().offset_to_point_data as usize
        + usize::from(file.header().point_data_record_length);
    for (place, byte, refusal) in [
        (15, 28, (19, 28, 2)),
        (15, 0xfc, (19, 28, 2)),
        (16, 91, (21, 15_166, 2)),
        (16, -91_i8 as u8, (21, 65_536 - 15_166, 2)),
        (16, -128_i8 as u8, (21, 65_536 - 21_333, 2)),
    ] {
        let mut bytes = bytes.clone();
        bytes[second + place] = byte;
        let new = File::check(&bytes).unwrap().to_new().unwrap();
        assert_eq!(answer(&new, true), Err(refusal));
    }
}

/// What document 02 has for an accepted file, the refusals in their order.
fn expected(file: &File<'_>, down: bool) -> Result<usize, (u64, u64, u64)> {
    let (header, run) = (file.header(), file.run());
    let (version, formats) = match down {
        true => (NEW, [6, 7]),
        false => (OLD, [1, 3]),
    };
    if header.version != version || !formats.contains(&run.format) {
        return Err((32, 0, 0));
    }
    if header.evlrs.is_some() || header.start_of_waveform_data_packet_record.is_some() {
        return Err((33, 0, 0));
    }
    let counts = header.points_by_return();
    let large = header.large_file.unwrap_or_default();
    let over = |count: &u64| u32::try_from(*count).is_err();
    if over(&file.point_count())
        || counts[..5].iter().any(over)
        || large.number_of_points_by_return[5..] != [0; 10]
    {
        return Err((34, 0, 0));
    }
    let (size, offset) = (header.header_size, header.offset_to_point_data);
    if !down && size.checked_add(148).is_none() {
        return Err((4, u64::from(size), 0));
    }
    if !down && offset.checked_add(148).is_none() {
        return Err((9, u64::from(offset), 0));
    }
    let rest = file.bytes().len() - run.records.len();
    match down {
        true => told(run.ask_old()).map(|points| rest - 148 + points),
        false => told(run.ask_new()).map(|points| rest + 148 + points),
    }
}

/// All that can be asked of a file, held against document 02, and what it becomes. Answers whether it goes down, and up.
fn agree(bytes: &[u8]) -> [bool; 2] {
    let file = match File::check(bytes) {
        Ok(file) => file,
        Err(_) => return [false; 2],
    };
    for down in [true, false] {
        assert_eq!(answer(bytes, down), expected(&file, down));
    }
    if let Ok(old) = file.to_old() {
        is_downgrade(&file, &File::check(&old).unwrap());
    }
    if let Ok(new) = file.to_new() {
        let new = File::check(&new).unwrap();
        is_upgrade(&file, &new);
        // What comes back is the same, and what does not has a point that cannot.
        match new.to_old() {
            Ok(again) => assert!(again == bytes),
            Err(refusal) => assert!(matches!(refusal.number(), 19 | 21)),
        }
    }
    [file.ask_old().is_ok(), file.ask_new().is_ok()]
}

#[test]
fn damaged_files_agree() {
    let mut chance = Chance(5);
    let (mut accepted, mut down, mut up) = (0, 0, 0);
    for _ in 0..6_000 {
        let mut bytes = match chance.below(2) {
            0 => new(&mut chance),
            _ => old([1, 3][chance.below(2)], &mut chance),
        };
        for _ in 0..=chance.below(3) {
            let end = [bytes.len(), 375, 131][chance.below(3)].min(bytes.len());
            let place = chance.below(end);
            bytes[place] = match chance.below(3) {
                0 => chance.next() as u8,
                1 => bytes[place].wrapping_add(1),
                _ => bytes[place].wrapping_sub(1),
            };
        }
        if chance.below(8) == 0 {
            bytes.truncate(chance.below(bytes.len()));
        }
        accepted += u32::from(File::check(&bytes).is_ok());
        let [goes_down, goes_up] = agree(&bytes);
        down += u32::from(goes_down);
        up += u32::from(goes_up);
    }
    assert!(
        accepted > 2_000 && down > 500 && up > 1_000,
        "{accepted} {down} {up}"
    );
}

#[test]
fn files_of_every_kind_agree() {
    for bytes in [plain(0), plain(3), two_points()] {
        assert_eq!(agree(&bytes), [false; 2]);
    }
    for code in 0..=10 {
        assert_eq!(agree(&rich(code, u16::from(code))), [false; 2]);
    }
    // The sample has an EVLR.
    assert_eq!(answer(&fs::read(sample()).unwrap(), true), Err((33, 0, 0)));
}
