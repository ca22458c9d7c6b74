//! Points reclassified: in lent memory, and in files on the disk.

mod common;

use common::{plain, rich, sample, waveforms, Chance, Folder};
use inscjarol::{
    Change, Error, File, Flags, Header, Kind, LargeFile, Point, Reclassify, Refusal, Version,
    Writer,
};
use std::{fs, path::Path};

fn numbers(refusal: Refusal) -> (u64, u64, u64) {
    (refusal.number(), refusal.value(), refusal.record())
}

/// A file of every format, with padding, VLRs, EVLRs, gaps and extra bytes, and one with waveform packets.
fn files() -> Vec<Vec<u8>> {
    let mut files: Vec<Vec<u8>> = (0..=10)
        .flat_map(|code| [rich(code, 0), rich(code, 3)])
        .collect();
    files.push(waveforms());
    files
}

/// The file that one point's class makes: everything read, that class changed, and written afresh by the point writer.
fn afresh(bytes: &[u8], point: u64, class: u8) -> Vec<u8> {
    let file = File::check(bytes).unwrap();
    let mut fresh = file.rewritten().unwrap();
    let length = usize::from(file.header().point_data_record_length);
    let start = file.header().offset_to_point_data as usize + (point as usize - 1) * length;
    let old = file.points().nth(point as usize - 1).unwrap();
    let flags = match old.flags {
        Flags::TwoByte(a, b) => Flags::TwoByte(a, b & 0b1110_0000 | class),
        Flags::ThreeByte(a, b, _) => Flags::ThreeByte(a, b, class),
    };
    let record = Point { flags, ..old }.to_vec(file.format()).unwrap();
    fresh[start..start + length].copy_from_slice(&record);
    fresh
}

#[test]
fn every_class_of_first_and_last_point_in_every_format() {
    for bytes in files() {
        let file = File::check(&bytes).unwrap();
        let (count, extended) = (file.point_count(), file.format().is_extended);
        for (point, class) in [1, count]
            .into_iter()
            .flat_map(|point| (0..=255).map(move |class| (point, class)))
        {
            let reclassify = Reclassify { point, class };
            let mut changed = bytes.clone();
            if class > 31 && !extended {
                let refusal = reclassify.apply(&mut changed).unwrap_err();
                assert_eq!(numbers(refusal), (17, u64::from(class), 0));
                assert_eq!(reclassify.ask(&bytes), Err(refusal));
                assert_eq!(changed, bytes);
                continue;
            }
            let had = file.points().nth(point as usize - 1).unwrap().flags.class();
            let Change { at, byte, was } = reclassify.ask(&bytes).unwrap();
            assert_eq!(reclassify.apply(&mut changed), Ok(had));
            assert_eq!(changed, afresh(&bytes, point, class));
            // One byte changed, to what was asked.
            let mut one = bytes.clone();
            one[at as usize] = byte;
            assert_eq!((was, one), (had, changed.clone()));
            // The class that it had gives every byte back.
            let back = Reclassify {
                class: had,
                ..reclassify
            };
            assert_eq!(back.apply(&mut changed), Ok(class));
            assert_eq!(changed, bytes);
        }
    }
}

#[test]
fn the_other_flags_and_points_stay() {
    for bytes in files() {
        let mut changed = bytes.clone();
        let last = File::check(&bytes).unwrap().point_count();
        Reclassify {
            point: last,
            class: 12,
        }
        .apply(&mut changed)
        .unwrap();
        let (before, after) = (File::check(&bytes).unwrap(), File::check(&changed).unwrap());
        assert!(before.parts().eq(after.parts()));
        let others = last as usize - 1;
        assert!(before.points().take(others).eq(after.points().take(others)));
        let (old, new) = (
            before.points().last().unwrap(),
            after.points().last().unwrap(),
        );
        let seen = |flags: Flags| {
            (
                (
                    flags.is_synthetic(),
                    flags.is_key_point(),
                    flags.is_withheld(),
                ),
                (flags.return_number(), flags.number_of_returns()),
                (flags.scanner_channel(), flags.is_edge_of_flight_line()),
            )
        };
        assert_eq!(seen(old.flags), seen(new.flags));
        assert_eq!(
            (
                Point {
                    flags: old.flags,
                    ..new
                },
                new.flags.class()
            ),
            (old, 12)
        );
        // Class 12 is what says overlap in the old formats, and the flag stays in the others.
        let overlap = !after.format().is_extended || old.flags.is_overlap();
        assert_eq!(new.flags.is_overlap(), overlap);
    }
}

#[test]
fn half_an_evlr_pair_stays() {
    let mut bytes = rich(6, 0);
    bytes[243..247].copy_from_slice(&[0; 4]);
    let mut changed = bytes.clone();
    let change = Reclassify {
        point: 2,
        class: 200,
    }
    .ask(&bytes)
    .unwrap();
    Reclassify {
        point: 2,
        class: 200,
    }
    .apply(&mut changed)
    .unwrap();
    assert_ne!(bytes[235..243], [0; 8]);
    bytes[change.at as usize] = 200;
    assert_eq!(changed, bytes);
}

#[test]
fn every_refusal() {
    let refused = |bytes: &[u8], point, class| {
        let reclassify = Reclassify { point, class };
        let mut lent = bytes.to_vec();
        let refusal = reclassify.apply(&mut lent).unwrap_err();
        assert_eq!(lent, bytes);
        assert_eq!(reclassify.ask(bytes), Err(refusal));
        numbers(refusal)
    };
    // The file check's come first, then the number of the point, then the class.
    assert_eq!(refused(b"", 0, 32), (1, 4, 0));
    assert_eq!(refused(&plain(3)[..286], 0, 32), (12, 3, 0));
    for point in [0, 4, u64::from(u32::MAX) + 2, u64::MAX] {
        assert_eq!(refused(&plain(3), point, 32), (27, 3, 0));
        assert_eq!(
            refused(&rich(6, 0), point + 2 * u64::from(point == 4), 255),
            (27, 5, 0)
        );
    }
    assert_eq!(refused(&plain(0), 1, 0), (27, 0, 0));
    for class in [32, 255] {
        assert_eq!(refused(&plain(3), 3, class), (17, u64::from(class), 0));
    }
    let words = Reclassify { point: 9, class: 2 }
        .ask(&plain(3))
        .unwrap_err();
    let said = "there is no such point, or no more: the file has 3, counted from 1";
    assert_eq!(words.to_string(), said);
}

/// Opens a file that is this test's own.
fn writer(path: &Path) -> Writer {
    // SAFETY: nobody else writes to it.
    unsafe { Writer::open(path) }.unwrap()
}

#[test]
fn files_on_the_disk() {
    let folder = Folder::new("reclassify-disk");
    let mut chance = Chance(13);
    for bytes in files() {
        let path = folder.put("file.las", &bytes);
        let count = File::check(&bytes).unwrap().point_count();
        let mut expected = bytes.clone();
        let mut writer = writer(&path);
        for _ in 0..20 {
            let mut all = Vec::new();
            let mut had = Vec::new();
            // Each point once, some of them.
            for point in 1..=count {
                let (some, class) = (chance.below(2) == 1, chance.below(32) as u8);
                let reclassify = Reclassify { point, class };
                if !some {
                    continue;
                }
                had.push(reclassify.apply(&mut expected).unwrap());
                all.push(reclassify);
            }
            assert_eq!(writer.reclassify(&all).unwrap(), had);
            assert_eq!(fs::read(&path).unwrap(), expected);
        }
        assert_eq!(writer.look(|file| file.point_count()).unwrap(), count);
    }
}

#[test]
fn where_one_is_refused_nothing_is_written() {
    let folder = Folder::new("reclassify-refused");
    let good = Reclassify { point: 1, class: 2 };
    for (bytes, bad, number) in [
        (plain(3), Reclassify { point: 4, class: 2 }, 27),
        (
            plain(3),
            Reclassify {
                point: 3,
                class: 32,
            },
            17,
        ),
        (plain(3)[..250].to_vec(), good, 12),
    ] {
        let path = folder.put("file.las", &bytes);
        let refusal = writer(&path)
            .reclassify(&[good, bad, good])
            .unwrap_err()
            .refusal();
        assert_eq!(refusal.unwrap().number(), number);
        assert_eq!(fs::read(&path).unwrap(), bytes);
    }
    // Nothing to do is done.
    let path = folder.put("file.las", &plain(3));
    assert_eq!(writer(&path).reclassify(&[]).unwrap(), []);
    // Of a point that is there twice the last class counts, and both are told what it had.
    let twice = [good, Reclassify { class: 5, ..good }];
    assert_eq!(writer(&path).reclassify(&twice).unwrap(), [0, 0]);
    let class = writer(&path).look(|file| file.points().next().map(|point| point.flags.class()));
    assert_eq!(class.unwrap(), Some(5));
}

#[test]
fn another_file_of_the_same_name_is_not_taken_for_it() {
    let folder = Folder::new("reclassify-name");
    let path = folder.put("file.las", &plain(3));
    let mut writer = writer(&path);
    let good = Reclassify { point: 2, class: 2 };
    assert_eq!(writer.reclassify(&[good]).unwrap(), [0]);
    // As a program does that writes a file anew beside it.
    fs::rename(folder.put("new.las", &plain(3)), &path).unwrap();
    let error = writer.reclassify(&[good]).unwrap_err();
    assert!(matches!(error, Error::Changed), "{error}");
    assert!(error.to_string().ends_with("nothing was written"));
    assert_eq!(fs::read(&path).unwrap(), plain(3));
    fs::remove_file(&path).unwrap();
    assert!(matches!(writer.reclassify(&[good]), Err(Error::Changed)));
}

#[test]
fn a_large_file_costs_no_more() {
    // 30 GB on a disk that has no room for that; the last point is changed and put back.
    let folder = Folder::new("reclassify-huge");
    let mut header = Header::new(Version { major: 1, minor: 4 }).unwrap();
    header.point_data_record_format = 6;
    header.point_data_record_length = 30;
    header.large_file = Some(LargeFile {
        number_of_point_records: 1_000_000_000,
        ..LargeFile::default()
    });
    let path = folder.put("huge.las", &header.to_vec(&[]).unwrap());
    let file = fs::File::options().write(true).open(&path).unwrap();
    file.set_len(30_000_000_375).unwrap();
    drop(file);
    let mut writer = writer(&path);
    let begun = std::time::Instant::now();
    let last = Reclassify {
        point: 1_000_000_000,
        class: 255,
    };
    assert_eq!(writer.reclassify(&[last]).unwrap(), [0]);
    assert_eq!(
        writer
            .reclassify(&[Reclassify { class: 0, ..last }])
            .unwrap(),
        [255]
    );
    let past = Reclassify {
        point: 1_000_000_001,
        class: 0,
    };
    let refusal = writer.reclassify(&[past]).unwrap_err().refusal().unwrap();
    assert_eq!(
        (refusal.kind(), refusal.value()),
        (Kind::Index, 1_000_000_000)
    );
    assert!(begun.elapsed() < std::time::Duration::from_secs(5));
}

#[test]
fn the_sample_corrected_and_put_back() {
    let before = fs::read(sample()).unwrap();
    let mut bytes = before.clone();
    let mut undo = Vec::new();
    for point in 1..=2_998 {
        let reclassify = Reclassify {
            point,
            class: (point % 256) as u8,
        };
        let was = reclassify.apply(&mut bytes).unwrap();
        undo.push(Reclassify {
            class: was,
            ..reclassify
        });
    }
    let classes = File::check(&bytes)
        .unwrap()
        .points()
        .map(|point| point.flags.class());
    assert!(classes.eq((1..=2_998).map(|point| (point % 256) as u8)));
    for reclassify in undo {
        reclassify.apply(&mut bytes).unwrap();
    }
    assert_eq!(bytes, before);
}
