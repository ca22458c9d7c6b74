//! Files damaged at random: nothing panics, and check, parts, points, attributes and rewriting agree with each other.

mod common;

use common::{plain, rich, sample, two_points, waveforms, Chance};
use inscjarol::{
    allowance_for, Append, Checked, DataType, Descriptor, File, NewFile, PartKind, Point, Vlr,
};
use std::fs;

/// All that can be asked of some bytes, held against each other.
fn agree(bytes: &[u8]) -> bool {
    let allowance = allowance_for(bytes.len());
    let Checked { answer, records } = File::judge(bytes, allowance);
    assert!(records <= allowance);
    let file = match File::check(bytes) {
        Ok(file) => file,
        Err(refusal) => {
            assert_eq!(answer, Err(refusal));
            assert!((1..=14).contains(&refusal.number()) || refusal.number() == 35);
            assert!(!refusal.to_string().is_empty());
            return false;
        }
    };
    assert_eq!(answer, Ok(()));
    assert_eq!(file.records(), records);

    // The parts cover the file, and the records among them are those that were counted.
    let mut at = 0;
    let mut of_records = 0;
    let mut points_part = None;
    for part in file.parts() {
        assert_eq!(part.start, at);
        assert_eq!(file.part(part).len() as u64, part.len);
        at += part.len;
        match part.kind {
            PartKind::Vlr | PartKind::Evlr | PartKind::Waveform => {
                of_records += 1;
                let vlr = Vlr::read(file.part(part), part.kind != PartKind::Vlr).unwrap();
                assert_eq!(vlr.size() as u64, part.len);
                assert_eq!(vlr.to_vec().unwrap(), file.part(part));
            }
            PartKind::Points => points_part = Some(part),
            _ => {}
        }
    }
    assert_eq!(at, bytes.len() as u64);
    assert_eq!(of_records, records);
    let packets = usize::from(file.waveform_packets().is_some());
    assert_eq!(
        file.vlrs().len() + file.evlrs().len() + packets,
        of_records as usize
    );

    // The points are the records of their part, each read by itself.
    let format = file.format();
    let run = file.part(points_part.unwrap());
    assert_eq!(file.run().records, run);
    let length = usize::from(file.header().point_data_record_length);
    assert_eq!(run.len() % length, 0);
    assert_eq!(file.points().len(), run.len() / length);
    assert_eq!(file.points().count(), run.len() / length);
    let last = run.chunks_exact(length).last();
    assert_eq!(
        file.points().last(),
        last.map(|record| Point::read(record, format).unwrap())
    );
    assert_eq!(file.point_count(), (run.len() / length) as u64);
    for (record, point) in run.chunks_exact(length).zip(file.points()) {
        assert_eq!(Point::read(record, format), Ok(point));
    }

    findings_agree(&file);

    // Rewritten it has the same bytes, but for a half-zero EVLR pair.
    let mut rewritten = file.rewritten().unwrap();
    if rewritten != bytes {
        assert_eq!(file.header().evlrs, None);
        assert_eq!(rewritten[235..247], [0; 12]);
        rewritten[235..247].copy_from_slice(&bytes[235..247]);
        assert_eq!(rewritten, bytes);
    }

    attributes_agree(&file);

    // Made old and new again, whatever comes of it: it was told beforehand.
    let run = file.run();
    if let Ok(old) = run.to_old() {
        assert!(old.len() <= run.records.len());
    }
    if let Ok(new) = run.to_new() {
        assert!(new.len() >= run.records.len());
    }
    let mut room = vec![0; 2 * run.records.len()];
    assert_eq!(run.to_old_into(&mut room), run.ask_old());
    assert_eq!(run.to_new_into(&mut room), run.ask_new());
    true
}

/// Attributes are refused as document 02 has it; else their values are the points' extra bytes, one after the other.
fn attributes_agree(file: &File<'_>) {
    let describes =
        |vlr: &Vlr<'_>| vlr.user_id == *b"LASF_Spec\0\0\0\0\0\0\0" && vlr.record_id == 4;
    let data = file.vlrs().find(describes).map(|vlr| vlr.data);
    assert_eq!(file.vlr_data("LASF_Spec", 4), data);
    let size = |descriptor: &[u8]| match descriptor[2] {
        0 => usize::from(descriptor[3]),
        other => [1, 1, 2, 2, 4, 4, 8, 8, 4, 8][usize::from(other) - 1],
    };
    let descriptors: Vec<&[u8]> = data.unwrap_or_default().chunks(192).collect();
    let refused = match data {
        None => Some(37),
        Some(data) if data.len() % 192 != 0 => Some(38),
        _ if descriptors.iter().any(|stored| stored[2] > 10) => Some(39),
        _ => {
            let sizes: usize = descriptors.iter().map(|stored| size(stored)).sum();
            (sizes > usize::from(file.format().extra_bytes)).then_some(40)
        }
    };
    let attributes = match file.attributes() {
        Ok(attributes) => attributes,
        Err(refusal) => {
            let told = (refusal.number(), refusal.value(), refusal.record());
            return assert_eq!(refused.map(|number| (number, 0, 0)), Some(told));
        }
    };
    assert_eq!((refused, attributes.len()), (None, descriptors.len()));
    let mut before = 0;
    for (attribute, stored) in attributes.iter().zip(&descriptors) {
        assert_eq!(attribute.descriptor().to_bytes(), **stored);
        for (number, point) in (1..).zip(file.points()) {
            let part = &point.extra_bytes[before..before + size(stored)];
            assert_eq!(attribute.bytes(number), Ok(part));
        }
        let found = attributes.find(&stored[4..36]).unwrap();
        let first = descriptors
            .iter()
            .find(|other| other[4..36] == stored[4..36]);
        assert_eq!(&found.descriptor().to_bytes()[..], *first.unwrap());
        before += size(stored);
    }
}

/// A file with five points that have three attributes and another extra byte.
fn described() -> Vec<u8> {
    let descriptors = [
        Descriptor::new("reflectance", DataType::I16).with_scale(0.01),
        Descriptor::new("raw", DataType::Bytes(3)),
        Descriptor::new("pulse width", DataType::F32),
    ];
    let new = NewFile::new(1).extra_bytes(1).attributes(&descriptors);
    let mut bytes = new.room(5).to_vec().unwrap();
    let file = File::check(&bytes).unwrap();
    let point = Point {
        extra_bytes: b"0123456789",
        ..Point::default()
    };
    let records = point.to_vec(file.format()).unwrap().repeat(5);
    let append = Append::of(&file, &records, 0);
    append.apply(&mut bytes).unwrap();
    bytes
}

#[test]
fn damaged_descriptors_agree() {
    let whole = described();
    let mut chance = Chance(2);
    let mut seen = [0; 5];
    for _ in 0..20_000 {
        let mut bytes = whole.clone();
        for _ in 0..=chance.below(2) {
            // The VLR's head, and of each descriptor type, options and name.
            let place = match chance.below(3) {
                0 => 227 + chance.below(24),
                _ => 227 + 54 + 192 * chance.below(3) + 2 + chance.below(6),
            };
            bytes[place] = match chance.below(4) {
                0 => chance.next() as u8,
                1 => chance.below(12) as u8,
                2 => bytes[place].wrapping_add(1),
                _ => bytes[place].wrapping_sub(1),
            };
        }
        if agree(&bytes) {
            let file = File::check(&bytes).unwrap();
            let refused = file.attributes().err().map(|refusal| refusal.number());
            seen[refused.map_or(0, |number| number as usize - 36)] += 1;
        }
    }
    assert!(seen.iter().all(|times| *times > 100), "{seen:?}");
}

/// Findings are as many as are counted, each after the one before and in its part; and those of points are what the points say.
fn findings_agree(file: &File<'_>) {
    assert_eq!(file.findings().len() as u64, file.finding_count());
    assert_eq!(file.findings().count() as u64, file.finding_count());
    let parts: Vec<_> = file.parts().collect();
    let mut before = None;
    for finding in file.findings() {
        let here = Some((finding.byte, finding.rule));
        assert!(before < here);
        before = here;
        let part = parts[finding.part as usize - 1];
        assert_eq!(finding.kind, part.kind);
        assert!((part.start..part.start + part.len).contains(&finding.byte));
        assert!(finding.to_string().contains("; the standard wants "));
    }
    let told = file.findings().map(|finding| finding.point);
    let odd = (1..).zip(file.points()).filter(|(_, point)| {
        let (number, of) = (point.flags.return_number(), point.flags.number_of_returns());
        number == 0 || number > of
    });
    assert!(told
        .filter(|&point| point > 0)
        .eq(odd.map(|(number, _)| number)));
}

#[test]
fn whole_files_agree() {
    for bytes in [plain(0), plain(3), two_points(), waveforms(), described()] {
        assert!(agree(&bytes));
    }
    for code in 0..=10 {
        assert!(agree(&rich(code, u16::from(code))));
    }
    assert!(agree(&fs::read(sample()).unwrap()));
}

#[test]
fn cut_files_agree() {
    for bytes in [plain(3), two_points(), waveforms(), rich(6, 2), rich(3, 0)] {
        for end in 0..bytes.len() {
            agree(&bytes[..end]);
        }
    }
}

#[test]
fn damaged_files_agree() {
    let whole: Vec<Vec<u8>> = vec![
        plain(3),
        two_points(),
        waveforms(),
        rich(1, 1),
        rich(5, 0),
        rich(6, 2),
        rich(8, 0),
        rich(10, 7),
        described(),
    ];
    let mut chance = Chance(1);
    let (mut accepted, mut refused) = (0, 0);
    for _ in 0..60_000 {
        let mut bytes = whole[chance.below(whole.len())].clone();
        for _ in 0..=chance.below(3) {
            // Mostly where the rules look.
            let end = [bytes.len(), 256, 110][chance.below(3)].min(bytes.len());
            let place = chance.below(end);
            bytes[place] = match chance.below(3) {
                0 => chance.next() as u8,
                1 => bytes[place].wrapping_add(1),
                _ => bytes[place].wrapping_sub(1),
            };
        }
        if chance.below(8) == 0 {
            bytes.truncate(chance.below(bytes.len()));
        }
        match agree(&bytes) {
            true => accepted += 1,
            false => refused += 1,
        }
    }
    assert!(accepted > 5_000 && refused > 5_000, "{accepted} {refused}");
}
