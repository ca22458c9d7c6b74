//! Coordinate keys: what common programs write, every refusal in its order, damaged directories held against the rules worked out here, and
//! what is written read back.

mod common;

use common::{plain, sample, Chance};
use inscjarol::{
    keys::{self, Doubles, NewKeys, Value},
    Evlrs, File, Header, Key, Kind, LargeFile, NewFile, Version, Vlr,
};
use std::{collections::BTreeMap, fs};

const DIRECTORY: u16 = 34_735;
const DOUBLES: u16 = 34_736;
const TEXT: u16 = 34_737;

/// Numbers as a directory has them.
fn numbers(numbers: &[u16]) -> Vec<u8> {
    numbers.iter().flat_map(|n| n.to_le_bytes()).collect()
}

/// A directory of these keys, made by hand.
fn directory(entries: &[[u16; 4]]) -> Vec<u8> {
    let mut all = vec![1, 1, 0, entries.len() as u16];
    all.extend(entries.iter().flatten());
    numbers(&all)
}

/// A file with VLRs of LASF_Projection.
fn file(records: &[(u16, &[u8])]) -> Vec<u8> {
    let vlrs = records
        .iter()
        .map(|(id, data)| Vlr::new(false, "LASF_Projection", *id, "", data));
    vlrs.fold(NewFile::new(1), NewFile::vlr).to_vec().unwrap()
}

/// What becomes of the keys of a file.
fn refused(bytes: &[u8]) -> (u64, u64, u64) {
    let refusal = File::check(bytes).unwrap().keys().unwrap_err();
    (refusal.number(), refusal.value(), refusal.record())
}

fn doubles(value: Value<'_>) -> Doubles<'_> {
    match value {
        Value::Doubles(doubles) => doubles,
        other => panic!("{other:?}"),
    }
}

#[test]
fn a_projected_system_as_it_is_usually_written() {
    // A citation, codes, units and a vertical system; texts end with a bar, and the record with a zero.
    let text = b"NAD83 / Minnesota South (ftUS)|NAD83|NAVD88 height (ftUS)|\0";
    let bytes = file(&[
        (
            DIRECTORY,
            &directory(&[
                [1024, 0, 1, 1],
                [1025, 0, 1, 1],
                [1026, TEXT, 31, 0],
                [2048, 0, 1, 4269],
                [2049, TEXT, 6, 31],
                [2054, 0, 1, 9102],
                [2057, DOUBLES, 1, 0],
                [2059, DOUBLES, 1, 1],
                [3072, 0, 1, 26_851],
                [3073, TEXT, 31, 0],
                [3076, 0, 1, 9003],
                [4096, 0, 1, 6360],
                [4097, TEXT, 22, 37],
                [4099, 0, 1, 9003],
            ]),
        ),
        (
            DOUBLES,
            &[6_378_137_f64, 298.257_222_101]
                .map(f64::to_le_bytes)
                .concat(),
        ),
        (TEXT, text),
    ]);
    let file = File::check(&bytes).unwrap();
    let keys = file.keys().unwrap();
    assert_eq!((keys.len(), keys.is_empty()), (14, false));
    let number = |id: u16| keys.get(id).unwrap().to_number();
    let words = |id: u16| {
        keys.get(id)
            .unwrap()
            .to_text()
            .map(|words| words.into_owned())
    };
    assert_eq!(number(keys::MODEL_TYPE), Some(1));
    assert_eq!(number(keys::GEOGRAPHIC_CRS), Some(4269));
    assert_eq!(number(keys::ANGULAR_UNITS), Some(9102));
    assert_eq!(number(keys::PROJECTED_CRS), Some(26_851));
    assert_eq!(number(keys::PROJECTED_UNITS), Some(9003));
    assert_eq!(number(keys::VERTICAL_CRS), Some(6360));
    assert_eq!(number(keys::VERTICAL_UNITS), Some(9003));
    assert_eq!(
        words(keys::CITATION),
        Some("NAD83 / Minnesota South (ftUS)".into())
    );
    assert_eq!(words(keys::PROJECTED_CITATION), words(keys::CITATION));
    assert_eq!(words(keys::GEOGRAPHIC_CITATION), Some("NAD83".into()));
    assert_eq!(
        words(keys::VERTICAL_CITATION),
        Some("NAVD88 height (ftUS)".into())
    );
    assert_eq!(keys.get(4097), Ok(Value::Text(b"NAVD88 height (ftUS)|\0")));
    assert_eq!(doubles(keys.get(2057).unwrap()).to_vec(), [6_378_137.0]);
    assert_eq!(doubles(keys.get(2059).unwrap()).to_vec(), [298.257_222_101]);
    assert_eq!((number(1026), words(3072)), (None, None));

    // In rising order, as often as asked, each what `get` gives.
    let ids: Vec<u16> = keys.iter().map(|key| key.id).collect();
    assert_eq!(
        ids,
        [1024, 1025, 1026, 2048, 2049, 2054, 2057, 2059, 3072, 3073, 3076, 4096, 4097, 4099]
    );
    for Key { id, value } in &keys {
        assert_eq!(keys.get(id), Ok(value));
    }
    let mut left = keys.into_iter();
    for count in (0..14).rev() {
        assert!(left.next().is_some());
        assert_eq!(
            (left.len(), left.size_hint()),
            (count, (count, Some(count)))
        );
    }
    assert_eq!((left.next(), left.next()), (None, None));
    assert!(keys.iter().eq(file.keys().unwrap()));
}

#[test]
fn a_geographic_system_without_records_of_values() {
    let bytes = file(&[(
        DIRECTORY,
        &directory(&[[1024, 0, 1, 2], [2048, 0, 1, 4326]]),
    )]);
    let file = File::check(&bytes).unwrap();
    let keys = file.keys().unwrap();
    assert_eq!(keys.get(2048), Ok(Value::Number(4326)));
    // Every other key is absent.
    for id in (0..=u16::MAX).filter(|id| ![1024, 2048].contains(id)) {
        let refusal = keys.get(id).unwrap_err();
        assert_eq!(
            (refusal.number(), refusal.value(), refusal.record()),
            (48, 0, 0)
        );
    }
    assert_eq!(keys.get(3072).unwrap_err().kind(), Kind::KeyNotFound);
}

#[test]
fn edges_of_what_is_sound() {
    let sound = |records: &[(u16, &[u8])]| {
        let bytes = file(records);
        let count = File::check(&bytes).unwrap().keys().map(|keys| keys.len());
        count.map_err(|refusal| refusal.number())
    };
    // No keys at all, which are sound.
    assert_eq!(sound(&[(DIRECTORY, &directory(&[]))]), Ok(0));
    // The front's first three numbers and the count of a number are not looked at, nor is what follows the keys.
    let odd = numbers(&[7, 8, 9, 1, 5, 0, 65_535, 6, 1, 2, 3]);
    assert_eq!(sound(&[(DIRECTORY, &odd)]), Ok(1));
    // A directory is short by a byte, at the front and behind it.
    let two = directory(&[[1, 0, 1, 1], [2, 0, 1, 1]]);
    assert_eq!(sound(&[(DIRECTORY, &two)]), Ok(2));
    for end in 0..two.len() {
        assert_eq!(sound(&[(DIRECTORY, &two[..end])]), Err(43), "{end}");
    }
    // Equal keys do not rise, and 0 is a key.
    assert_eq!(
        sound(&[(DIRECTORY, &directory(&[[5, 0, 1, 1], [5, 0, 1, 1]]))]),
        Err(44)
    );
    assert_eq!(
        sound(&[(DIRECTORY, &directory(&[[0, 0, 1, 1], [65_535, 0, 1, 1]]))]),
        Ok(2)
    );
    for location in [1, 34_734, 34_735, 34_738, 65_535] {
        assert_eq!(
            sound(&[(DIRECTORY, &directory(&[[5, location, 0, 0]]))]),
            Err(45)
        );
    }
    // A record that is absent is missed whatever the count.
    for (location, other) in [(DOUBLES, TEXT), (TEXT, DOUBLES)] {
        let one = directory(&[[5, location, 0, 0]]);
        assert_eq!(sound(&[(DIRECTORY, &one)]), Err(46));
        assert_eq!(sound(&[(DIRECTORY, &one), (other, &[0; 80])]), Err(46));
        assert_eq!(sound(&[(DIRECTORY, &one), (location, &[])]), Ok(1));
    }
    // The last that fits, and one more: doubles count eight bytes, text one.
    let at = |location: u16, count: u16, index: u16, bytes: usize| {
        let one = directory(&[[5, location, count, index]]);
        sound(&[(DIRECTORY, &one), (location, &vec![0; bytes])])
    };
    assert_eq!(
        (at(DOUBLES, 2, 3, 40), at(DOUBLES, 2, 3, 39)),
        (Ok(1), Err(47))
    );
    assert_eq!(
        (at(DOUBLES, 0, 5, 40), at(DOUBLES, 0, 6, 47)),
        (Ok(1), Err(47))
    );
    assert_eq!((at(TEXT, 2, 3, 5), at(TEXT, 2, 3, 4)), (Ok(1), Err(47)));
    assert_eq!((at(TEXT, 0, 5, 5), at(TEXT, 0, 6, 5)), (Ok(1), Err(47)));
    assert_eq!(
        (
            at(TEXT, 65_535, 65_535, 65_535),
            at(TEXT, 65_535, 0, 65_535)
        ),
        (Err(47), Ok(1))
    );
    assert_eq!(at(DOUBLES, 65_535, 65_535, 65_535), Err(47));
}

#[test]
fn refusals_in_their_order_each_over_all_keys() {
    assert_eq!(refused(&plain(3)), (42, 0, 0));
    assert_eq!(refused(&fs::read(sample()).unwrap()), (42, 0, 0));
    // The first key is beyond, and what comes after it is worse and worse.
    let mut entries = vec![[10, TEXT, 9, 0]];
    let told = |entries: &[[u16; 4]], cut: usize| {
        let data = directory(entries);
        let bytes = file(&[(DIRECTORY, &data[..data.len() - cut]), (TEXT, b"text")]);
        refused(&bytes)
    };
    assert_eq!(told(&entries, 0), (47, 0, 0));
    entries.push([20, DOUBLES, 0, 0]);
    assert_eq!(told(&entries, 0), (46, 0, 0));
    entries.push([30, 7, 0, 0]);
    assert_eq!(told(&entries, 0), (45, 0, 0));
    entries.push([30, 0, 1, 0]);
    assert_eq!(told(&entries, 0), (44, 0, 0));
    assert_eq!(told(&entries, 1), (43, 0, 0));
    // The file check comes first: it is cut off in the directory.
    let mut bytes = file(&[(DIRECTORY, &directory(&[]))]);
    bytes.truncate(bytes.len() - 1);
    assert!(File::check(&bytes).unwrap_err().number() < 42);
}

#[test]
fn the_first_vlr_of_its_ids_counts() {
    let first = directory(&[[3072, 0, 1, 25_832], [3073, TEXT, 3, 0]]);
    let second = directory(&[[3072, 0, 1, 25_833]]);
    let bytes = file(&[
        (TEXT, b"one"),
        (DIRECTORY, &first),
        (TEXT, b"two"),
        (DIRECTORY, &second),
    ]);
    let file_read = File::check(&bytes).unwrap();
    let keys = file_read.keys().unwrap();
    assert_eq!(keys.get(3072), Ok(Value::Number(25_832)));
    assert_eq!(keys.get(3073), Ok(Value::Text(b"one")));
    // A broken first is not made good by the second.
    assert_eq!(
        refused(&file(&[(DIRECTORY, b""), (DIRECTORY, &second)])).0,
        43
    );
    // Another user's record is none.
    let of = |user: &str| {
        let vlr = Vlr::new(false, user, DIRECTORY, "", &second);
        NewFile::new(0).vlr(vlr).to_vec().unwrap()
    };
    assert_eq!(refused(&of("LASF_Projectio")).0, 42);
    assert_eq!(refused(&of("lasf_projection")).0, 42);
    assert_eq!(refused(&of("LASF_Projection2")).0, 42);
    assert!(File::check(&of("LASF_Projection")).unwrap().keys().is_ok());
}

#[test]
fn an_evlr_is_not_looked_at() {
    let data = directory(&[[3072, 0, 1, 25_832]]);
    let mut header = Header::new(Version { major: 1, minor: 4 }).unwrap();
    header.point_data_record_format = 6;
    header.point_data_record_length = 30;
    header.large_file = Some(LargeFile::default());
    header.evlrs = Some(Evlrs {
        start_of_first_evlr: 375,
        number_of_evlrs: 1,
    });
    let mut bytes = header.to_vec(&[]).unwrap();
    bytes.extend(
        Vlr::new(true, "LASF_Projection", DIRECTORY, "", &data)
            .to_vec()
            .unwrap(),
    );
    assert_eq!(File::check(&bytes).unwrap().evlrs().len(), 1);
    assert_eq!(refused(&bytes), (42, 0, 0));
}

#[test]
fn bits_and_bytes_are_kept() {
    let bits = [
        0x7ff0_0000_0000_0001,
        0xfff8_dead_beef_0001,
        1 << 63,
        1,
        0,
        u64::MAX,
    ];
    let data: Vec<u8> = bits.iter().flat_map(|n: &u64| n.to_le_bytes()).collect();
    let entries = directory(&[
        [1, DOUBLES, 6, 0],
        [2, DOUBLES, 2, 1],
        [3, DOUBLES, 0, 6],
        [4, TEXT, 4, 1],
    ]);
    let bytes = file(&[
        (DIRECTORY, &entries),
        (DOUBLES, &data),
        (TEXT, b"a\xff\0b|c"),
    ]);
    let file = File::check(&bytes).unwrap();
    let keys = file.keys().unwrap();
    let all = doubles(keys.get(1).unwrap());
    assert!(all.bits().eq(bits));
    assert_eq!((all.len(), all.bytes()), (6, &data[..]));
    assert!(all
        .iter()
        .map(|n| n.is_nan())
        .eq([true, true, false, false, false, true]));
    assert_eq!(all.iter().nth(2).map(f64::to_bits), Some(1 << 63));
    assert!(doubles(keys.get(2).unwrap())
        .bits()
        .eq(bits[1..3].iter().copied()));
    assert!(doubles(keys.get(3).unwrap()).is_empty());
    // The same bits are the same value, though a NaN is in them.
    assert_eq!(keys.get(1), keys.get(1));
    assert_ne!(keys.get(1), keys.get(2));
    let text = keys.get(4).unwrap();
    assert_eq!(text, Value::Text(b"\xff\0b|"));
    assert_eq!(text.to_text().as_deref(), Some("\u{fffd}"));
    assert_eq!(Value::Text(b"||").to_text().as_deref(), Some("|"));
    assert_eq!(Value::Text(b"\xff|").to_text().as_deref(), Some("\u{fffd}"));
    assert_eq!(Value::Text(b"").to_text().as_deref(), Some(""));
}

#[test]
fn what_is_written_reads_back() {
    let made = NewKeys::new()
        .number(1024, 1)
        .text(1026, "all of it")
        .doubles(2057, &[6_378_137.0, f64::NAN])
        .number(3072, 32_767)
        .text(3073, "")
        .doubles(3080, &[-0.0])
        .text(4097, "heights")
        .number(65_535, 0)
        .finish()
        .unwrap();
    let ids: Vec<u16> = made.vlrs().map(|vlr| vlr.record_id).collect();
    assert_eq!(ids, [DIRECTORY, DOUBLES, TEXT]);
    let bytes = made
        .vlrs()
        .fold(NewFile::new(1), NewFile::vlr)
        .to_vec()
        .unwrap();
    let file = File::check(&bytes).unwrap();
    let read: BTreeMap<u16, Value<'_>> = file
        .keys()
        .unwrap()
        .iter()
        .map(|key| (key.id, key.value))
        .collect();
    assert_eq!(read.len(), 8);
    assert_eq!(read[&1024], Value::Number(1));
    assert_eq!(read[&1026], Value::Text(b"all of it|"));
    assert!(doubles(read[&2057])
        .bits()
        .eq([6_378_137_f64.to_bits(), f64::NAN.to_bits()]));
    assert_eq!(read[&3072], Value::Number(32_767));
    assert_eq!(read[&3073].to_text().as_deref(), Some(""));
    assert!(doubles(read[&3080]).bits().eq([1 << 63]));
    assert_eq!(read[&4097].to_text().as_deref(), Some("heights"));
    assert_eq!(read[&65_535], Value::Number(0));

    // Without values of records there are no records of values.
    let plain = NewKeys::new().number(3072, 25_832).finish().unwrap();
    assert_eq!(plain.vlrs().count(), 1);
    assert_eq!(
        plain.vlrs().next().unwrap().data,
        keys::directory(&[[3072, 0, 1, 25_832]]).unwrap()
    );
    assert_eq!(
        NewKeys::new().finish().unwrap().vlrs().next().unwrap().data,
        numbers(&[1, 1, 0, 0])
    );
}

#[test]
fn writing_refuses_order_then_count_then_room() {
    let rising = |count: u16| -> Vec<[u16; 4]> { (0..count).map(|key| [key, 0, 1, key]).collect() };
    // As many as a VLR holds, in a file.
    let most = keys::directory(&rising(8_190)).unwrap();
    assert_eq!(most, directory(&rising(8_190)));
    assert_eq!(most.len(), 65_528);
    let bytes = file(&[(DIRECTORY, &most)]);
    let keys_read = File::check(&bytes).unwrap().keys().unwrap();
    assert_eq!(keys_read.len(), 8_190);
    assert!(keys_read
        .iter()
        .all(|key| key.value == Value::Number(key.id)));

    let wrong = |entries: &[[u16; 4]], room: usize| {
        let mut dst = vec![0xa5; room];
        let refusal = keys::write_directory(entries, &mut dst).unwrap_err();
        assert!(dst.iter().all(|byte| *byte == 0xa5));
        (refusal.number(), refusal.value(), refusal.record())
    };
    assert_eq!(wrong(&rising(8_191), 100_000), (49, 0, 0));
    assert_eq!(wrong(&rising(8_191), 0), (49, 0, 0));
    let mut falls = rising(8_191);
    falls[8_190][0] = 8_189;
    assert_eq!(wrong(&falls, 0), (44, 0, 0));
    assert_eq!(wrong(&[[5, 0, 1, 1], [5, 0, 1, 1]], 0), (44, 0, 0));
    for room in 0..24 {
        assert_eq!(wrong(&rising(2), room), (22, 24, 0));
    }
    // What lies past the end stays, and locations are not judged.
    let mut dst = [0xa5; 20];
    assert_eq!(keys::write_directory(&[[9, 8, 7, 6]], &mut dst), Ok(16));
    assert_eq!(dst[..16], numbers(&[1, 1, 0, 1, 9, 8, 7, 6]));
    assert_eq!(dst[16..], [0xa5; 4]);

    let many = (0..8_191).fold(NewKeys::new(), |keys, key| keys.number(key, 0));
    assert_eq!(many.finish().unwrap_err().kind(), Kind::TooManyKeys);
    let falling = NewKeys::new().text(7, "a").number(6, 0).finish();
    assert_eq!(falling.unwrap_err().kind(), Kind::KeysNotRising);
}

#[test]
fn more_than_a_vlr_holds_is_refused() {
    let written = |made: NewKeys| {
        let records = made.finish().unwrap();
        let mut vlrs = records
            .vlrs()
            .map(|vlr| vlr.to_vec().map(|bytes| bytes.len()));
        vlrs.find_map(|written| written.err().map(|refusal| refusal.number()))
    };
    let long = "x".repeat(65_534);
    assert_eq!(written(NewKeys::new().text(1, &long)), None);
    assert_eq!(written(NewKeys::new().text(1, &long).text(2, "")), Some(24));
    assert_eq!(
        written(NewKeys::new().text(1, &"x".repeat(100_000))),
        Some(24)
    );
    assert_eq!(written(NewKeys::new().doubles(1, &[0.5; 8_191])), None);
    assert_eq!(
        written(NewKeys::new().doubles(1, &[0.5; 8_191]).doubles(2, &[0.5])),
        Some(24)
    );
    assert_eq!(written(NewKeys::new().doubles(1, &[0.5; 70_000])), Some(24));
}

/// A key's value by the rules, worked out here: a number or bytes.
type Worked = Result<Vec<(u16, u16, Vec<u8>)>, u64>;

/// The keys of these records by document 02, or the first refusal.
fn worked(directory: Option<&[u8]>, doubles: Option<&[u8]>, text: Option<&[u8]>) -> Worked {
    let directory = directory.ok_or(42_u64)?;
    let number =
        |place: usize| u16::from_le_bytes([directory[2 * place], directory[2 * place + 1]]);
    if directory.len() < 8 || directory.len() < 8 + 8 * usize::from(number(3)) {
        return Err(43);
    }
    let entries: Vec<[u16; 4]> = (1..=usize::from(number(3)))
        .map(|key| [0, 1, 2, 3].map(|place| number(4 * key + place)))
        .collect();
    if entries.windows(2).any(|pair| pair[0][0] >= pair[1][0]) {
        return Err(44);
    }
    let known = |entry: &[u16; 4]| [0, DOUBLES, TEXT].contains(&entry[1]);
    if !entries.iter().all(known) {
        return Err(45);
    }
    let target = |location: u16| match location {
        DOUBLES => doubles,
        TEXT => text,
        _ => Some(&[][..]),
    };
    if entries.iter().any(|entry| target(entry[1]).is_none()) {
        return Err(46);
    }
    let part = |[key, location, count, value]: [u16; 4]| {
        let width = if location == DOUBLES { 8 } else { 1 };
        let [start, len] = [value, count].map(|n| usize::from(n) * width);
        match location {
            0 => Some((key, value, Vec::new())),
            _ => {
                let bytes = target(location).unwrap().get(start..start + len)?;
                Some((key, 0, bytes.to_vec()))
            }
        }
    };
    let parts: Option<Vec<_>> = entries.iter().map(|entry| part(*entry)).collect();
    parts.ok_or(47)
}

/// The same by the library.
fn found(bytes: &[u8]) -> Worked {
    let file = File::check(bytes).unwrap();
    let keys = file.keys().map_err(|refusal| refusal.number())?;
    Ok(keys
        .iter()
        .map(|key| match key.value {
            Value::Number(number) => (key.id, number, Vec::new()),
            Value::Doubles(doubles) => (key.id, 0, doubles.bytes().to_vec()),
            Value::Text(text) => (key.id, 0, text.to_vec()),
        })
        .collect())
}

#[test]
fn damaged_directories_by_the_rules() {
    let mut chance = Chance(14);
    let mut seen: BTreeMap<u64, u32> = BTreeMap::new();
    for _ in 0..40_000 {
        let mut key = 0;
        let entries: Vec<[u16; 4]> = (0..chance.below(6))
            .map(|_| {
                key += chance.below(40) as u16 + u16::from(chance.below(30) > 0);
                let location = match chance.below(60) {
                    0 => 34_738,
                    n if n % 4 == 1 => DOUBLES,
                    n if n % 4 == 2 => TEXT,
                    _ => 0,
                };
                [
                    key,
                    location,
                    chance.below(4) as u16,
                    chance.below(4) as u16,
                ]
            })
            .collect();
        let mut data = directory(&entries);
        match chance.below(12) {
            0 => data.truncate(chance.below(data.len() + 1)),
            1 => data.extend([7; 3]),
            2 => {
                let place = chance.below(data.len());
                data[place] = chance.next() as u8;
            }
            _ => {}
        }
        let values: Vec<u8> = (0..64).map(|_| chance.next() as u8).collect();
        let doubles = (chance.below(8) > 0).then(|| &values[..chance.below(64)]);
        let text = (chance.below(8) > 0).then(|| &values[..chance.below(9)]);
        let there = (chance.below(40) > 0).then_some(&data[..]);
        let records: Vec<(u16, &[u8])> = [(TEXT, text), (DIRECTORY, there), (DOUBLES, doubles)]
            .into_iter()
            .filter_map(|(id, data)| Some((id, data?)))
            .collect();
        let bytes = file(&records);
        let expected = worked(there, doubles, text);
        assert_eq!(found(&bytes), expected, "{entries:?}");
        *seen.entry(expected.err().unwrap_or(0)).or_default() += 1;
    }
    // Every answer was seen often.
    assert!(seen.keys().eq(&[0, 42, 43, 44, 45, 46, 47]), "{seen:?}");
    assert!(seen.values().all(|count| *count > 200), "{seen:?}");
}
