//! Attributes: what the extra bytes of points hold, by name, held against the extra bytes that the walker gives; every type, every
//! option, every kind of broken descriptor, and every edge of the points.

mod common;

use common::{rich, sample, Chance};
use inscjarol::{
    attributes::{self, to_vlr_data},
    Append, Attributes, DataType, Descriptor, Evlrs, File, Format, Header, LargeFile, NewFile,
    Point, Refusal, Value, Version, Vlr,
};
use std::fs;

/// A refusal's numbers, or what was answered.
fn told<T>(answer: Result<T, Refusal>) -> Result<T, (u64, u64, u64)> {
    answer.map_err(|refusal| (refusal.number(), refusal.value(), refusal.record()))
}

/// Every type, bytes of three counts among them.
const TYPES: [DataType; 13] = [
    DataType::U8,
    DataType::I8,
    DataType::Bytes(3),
    DataType::U16,
    DataType::I16,
    DataType::Bytes(0),
    DataType::U32,
    DataType::I32,
    DataType::Bytes(255),
    DataType::U64,
    DataType::I64,
    DataType::F32,
    DataType::F64,
];

/// The name of an attribute of this type.
fn named(data_type: DataType) -> String {
    format!("of {data_type}")
}

/// Bytes as their type has them.
fn value_of(data_type: DataType, bytes: &[u8]) -> Value<'_> {
    match data_type {
        DataType::Bytes(_) => Value::Bytes(bytes),
        DataType::U8 => Value::U8(u8::from_le_bytes(bytes.try_into().unwrap())),
        DataType::I8 => Value::I8(i8::from_le_bytes(bytes.try_into().unwrap())),
        DataType::U16 => Value::U16(u16::from_le_bytes(bytes.try_into().unwrap())),
        DataType::I16 => Value::I16(i16::from_le_bytes(bytes.try_into().unwrap())),
        DataType::U32 => Value::U32(u32::from_le_bytes(bytes.try_into().unwrap())),
        DataType::I32 => Value::I32(i32::from_le_bytes(bytes.try_into().unwrap())),
        DataType::U64 => Value::U64(u64::from_le_bytes(bytes.try_into().unwrap())),
        DataType::I64 => Value::I64(i64::from_le_bytes(bytes.try_into().unwrap())),
        DataType::F32 => Value::F32(f32::from_le_bytes(bytes.try_into().unwrap())),
        DataType::F64 => Value::F64(f64::from_le_bytes(bytes.try_into().unwrap())),
    }
}

/// A file that a scanner makes, with these attributes and then two more extra bytes, and points whose extra bytes are by chance.
fn scanned(format: u8, descriptors: &[Descriptor], points: u64) -> Vec<u8> {
    let mut bytes = NewFile::new(format)
        .extra_bytes(2)
        .attributes(descriptors)
        .vlr(Vlr::new(false, "scanner", 1, "lens", b"wide"))
        .room(points)
        .to_vec()
        .unwrap();
    let of = File::check(&bytes).unwrap().format();
    let mut chance = Chance(u64::from(format) + 7);
    let mut records = Vec::new();
    for _ in 0..points {
        let extra_bytes: Vec<u8> = (0..of.extra_bytes).map(|_| chance.next() as u8).collect();
        let point = Point {
            extra_bytes: &extra_bytes,
            ..Point::default()
        };
        records.extend(point.to_vec(of).unwrap());
    }
    if points > 0 {
        let append = Append::of(&File::check(&bytes).unwrap(), &records, 0);
        append.apply(&mut bytes).unwrap();
    }
    bytes
}

#[test]
fn every_type_in_every_point() {
    let descriptors = TYPES.map(|of| Descriptor::new(&named(of), of).with_about("by chance"));
    for format in 0..=3 {
        let bytes = scanned(format, &descriptors, 9);
        let file = File::check(&bytes).unwrap();
        let attributes = file.attributes().unwrap();
        assert_eq!((attributes.len(), attributes.is_empty()), (13, false));
        assert_eq!(attributes.iter().len(), 13);
        let (start, len) = (usize::from(Format::new(format).unwrap().len().unwrap()), 9);

        let mut before = 0;
        for (attribute, of) in attributes.into_iter().zip(TYPES) {
            let found = attributes.find(named(of)).unwrap();
            assert_eq!(found.start(), attribute.start());
            assert_eq!(
                (attribute.name(), attribute.data_type()),
                (named(of).into(), of)
            );
            assert_eq!(attribute.descriptor().about(), "by chance");
            assert_eq!(attribute.start(), start + before);
            assert_eq!(attribute.point_count(), len);

            let (mut values, mut bits) = (Vec::new(), Vec::new());
            for (number, point) in (1..).zip(file.points()) {
                let part = &point.extra_bytes[before..before + of.size()];
                let value = value_of(of, part);
                // A NaN is none that is equal to itself.
                assert_eq!(
                    format!("{:?}", attribute.value(number).unwrap()),
                    format!("{value:?}")
                );
                assert_eq!(attribute.bytes(number).unwrap(), part);
                // It is that part of the file, and no copy.
                let place =
                    attribute.bytes(number).unwrap().as_ptr() as usize - bytes.as_ptr() as usize;
                let record = usize::from(file.header().point_data_record_length);
                let points = file.header().offset_to_point_data as usize;
                assert_eq!(
                    place,
                    points + record * (number as usize - 1) + attribute.start()
                );
                let first: Vec<u8> = part.iter().copied().chain([0; 8]).take(8).collect();
                let eight = if part.len() > 8 { &part[..8] } else { &first };
                bits.push(u64::from_le_bytes(eight.try_into().unwrap()));
                values.push(format!("{value:?}"));
            }
            assert_eq!(attribute.bits_to_vec(..).unwrap(), bits);
            let all = attribute.to_vec(..).unwrap();
            let all: Vec<String> = all.iter().map(|value| format!("{value:?}")).collect();
            assert_eq!(all, values);
            before += of.size();
        }
    }
}

#[test]
fn points_that_are_not_there() {
    let descriptors = [
        Descriptor::new("a", DataType::I16),
        Descriptor::new("raw", DataType::Bytes(9)),
    ];
    for points in [0, 1, 5] {
        let bytes = scanned(1, &descriptors, points);
        let file = File::check(&bytes).unwrap();
        let attributes = file.attributes().unwrap();
        for attribute in &attributes {
            for point in [0, points + 1, points + 2, u64::MAX] {
                let none = Err((27, points, 0));
                assert_eq!(told(attribute.value(point).map(|_| ())), none);
                assert_eq!(told(attribute.bytes(point).map(|_| ())), none);
                assert_eq!(told(attribute.scaled(point).map(|_| ())), none);
            }
            for first in 0..=points + 2 {
                for last in first.saturating_sub(2)..=points + 2 {
                    // An empty stretch may begin right behind the last point.
                    let within = first >= 1 && last <= points && first <= last + 1;
                    let count = (last + 1).saturating_sub(first) as usize;
                    let mut dst = [0xa5; 9];
                    let answer = told(attribute.bits(first..=last, &mut dst));
                    let values = told(attribute.to_vec(first..=last)).map(|values| values.len());
                    let bits = told(attribute.bits_to_vec(first..=last));
                    if !within {
                        assert_eq!(
                            (answer, values),
                            (Err((27, points, 0)), Err((27, points, 0)))
                        );
                        assert_eq!((bits, dst), (Err((27, points, 0)), [0xa5; 9]));
                        continue;
                    }
                    assert_eq!((answer, values), (Ok(count), Ok(count)));
                    assert_eq!(bits, Ok(dst[..count].to_vec()));
                    assert!(dst[count..].iter().all(|number| *number == 0xa5));
                    for (point, number) in (first..).zip(&dst[..count]) {
                        let part = attribute.bytes(point).unwrap();
                        let eight: Vec<u8> = part.iter().copied().chain([0; 8]).take(8).collect();
                        assert_eq!(number.to_le_bytes(), eight[..]);
                    }
                    if let Some(less) = count.checked_sub(1) {
                        let mut dst = vec![0xa5; less];
                        let answer = told(attribute.bits(first..=last, &mut dst));
                        assert_eq!(answer, Err((22, count as u64, 0)));
                        assert_eq!(dst, vec![0xa5; less]);
                    }
                }
            }
            assert_eq!(attribute.bits_to_vec(points + 1..).unwrap(), []);
        }
    }
}

#[test]
fn scale_and_offset_count_where_the_options_say_so() {
    let full = Descriptor::new("n", DataType::I16)
        .with_scale(0.5)
        .with_offset(100.0)
        .with_no_data(Value::I16(-1))
        .unwrap()
        .with_range(Value::I16(-7), Value::I16(7))
        .unwrap();
    assert_eq!(full.options(), 0b1_1111);
    for options in 0..=255_u8 {
        let mut stored = full.to_bytes();
        stored[3] = options;
        let some = Descriptor::read(&stored).unwrap();
        let counts = |bit: u8| options >> bit & 1 == 1;
        assert_eq!(some.data_type(), DataType::I16);
        assert_eq!(some.no_data(), counts(0).then_some(Value::I64(-1)));
        assert_eq!(some.min(), counts(1).then_some(Value::I64(-7)));
        assert_eq!(some.max(), counts(2).then_some(Value::I64(7)));
        assert_eq!(some.scale(), counts(3).then_some(0.5));
        assert_eq!(some.offset(), counts(4).then_some(100.0));
        let (scale, offset) = (some.scale().unwrap_or(1.0), some.offset().unwrap_or(0.0));
        assert_eq!(some.scaled(Value::I16(30)), Some(30.0 * scale + offset));
        let none = (!counts(0)).then_some(offset - scale);
        assert_eq!(some.scaled(Value::I16(-1)), none);

        // Of bytes the options are the count, and say nothing else.
        stored[2] = 0;
        let bytes = Descriptor::read(&stored).unwrap();
        assert_eq!(bytes.data_type(), DataType::Bytes(options));
        assert_eq!(
            (bytes.scale(), bytes.offset(), bytes.no_data()),
            (None, None, None)
        );
        assert_eq!(bytes.with_scale(2.0).with_offset(3.0), bytes);
        assert!(bytes.with_no_data(Value::Bytes(&[])).is_err());
    }
    // As the file stores them.
    let bytes = scanned(0, &[full, Descriptor::new("m", DataType::U8)], 3);
    let file = File::check(&bytes).unwrap();
    let attributes = file.attributes().unwrap();
    let (n, m) = (attributes.find("n").unwrap(), attributes.find("m").unwrap());
    assert_eq!(n.descriptor(), &full);
    for point in 1..=3 {
        let stored = n.value(point).unwrap();
        let meant = stored.to_f64().map(|number| number * 0.5 + 100.0);
        assert_eq!(
            n.scaled(point).unwrap(),
            meant.filter(|_| stored != Value::I16(-1))
        );
        assert_eq!(m.scaled(point).unwrap(), m.value(point).unwrap().to_f64());
    }
    let all: Vec<_> = (1..=3).map(|point| n.scaled(point).unwrap()).collect();
    assert_eq!(n.scaled_to_vec(..).unwrap(), all);
}

#[test]
fn the_number_that_stands_for_none() {
    // Every type, in the eight bytes that a descriptor has for it.
    for (none, wide, other) in [
        (Value::U8(255), Value::U64(255), Value::U8(254)),
        (Value::I8(-1), Value::I64(-1), Value::I8(1)),
        (Value::U16(65_535), Value::U64(65_535), Value::U16(0)),
        (Value::I16(-1), Value::I64(-1), Value::I16(1)),
        (
            Value::U32(u32::MAX),
            Value::U64(u32::MAX.into()),
            Value::U32(0),
        ),
        (
            Value::I32(i32::MIN),
            Value::I64(i32::MIN.into()),
            Value::I32(0),
        ),
        (
            Value::U64(u64::MAX),
            Value::U64(u64::MAX),
            Value::U64(u64::MAX - 1),
        ),
        (
            Value::I64(i64::MIN),
            Value::I64(i64::MIN),
            Value::I64(i64::MIN + 1),
        ),
        (Value::F32(-9999.5), Value::F64(-9999.5), Value::F32(0.0)),
        (Value::F64(1e300), Value::F64(1e300), Value::F64(f64::NAN)),
    ] {
        let descriptor = Descriptor::new("a", none.data_type());
        let other_type = if none.data_type() == DataType::U8 {
            Value::I8(1)
        } else {
            Value::U8(1)
        };
        let refused = descriptor.with_no_data(other_type).unwrap_err();
        assert!(
            refused
                .to_string()
                .contains("is no number of the attribute \"a\""),
            "{refused}"
        );
        assert!(descriptor.with_range(none, other_type).is_err());
        let descriptor = descriptor.with_no_data(none).unwrap();
        assert_eq!(descriptor.no_data(), Some(wide));
        let read = Descriptor::read(&descriptor.to_bytes()).unwrap();
        assert_eq!((read, read.scaled(none)), (descriptor, None));
        assert!(read.scaled(other).is_some());
    }
    // A NaN stands for every NaN.
    for none in [Value::F32(f32::NAN), Value::F64(f64::NAN)] {
        let descriptor = Descriptor::new("a", none.data_type());
        assert!(descriptor.scaled(none).unwrap().is_nan());
        let descriptor = descriptor.with_no_data(none).unwrap();
        assert_eq!(descriptor.scaled(none), None);
    }
    assert_eq!(
        Descriptor::new("raw", DataType::Bytes(2)).scaled(Value::Bytes(b"ab")),
        None
    );
}

#[test]
fn names_are_compared_whole() {
    let long = "a name of just thirty-two bytes!";
    assert_eq!(long.len(), 32);
    let mut inner = Descriptor::new("in", DataType::U8).to_bytes();
    inner[4 + 31] = b'z';
    let inner = Descriptor::read(&inner).unwrap();
    let mut last = *inner.name_bytes();
    last[31] = 0;
    let descriptors = [
        Descriptor::new("twice", DataType::U8),
        inner,
        Descriptor::new(long, DataType::U8),
        Descriptor::new("", DataType::U8),
        Descriptor::new("twice", DataType::U16),
        Descriptor::new("empty", DataType::Bytes(0)),
        Descriptor::new("as empty", DataType::Bytes(0)),
    ];
    let bytes = scanned(2, &descriptors, 2);
    let file = File::check(&bytes).unwrap();
    let attributes = file.attributes().unwrap();
    let place = |name: &[u8]| told(attributes.find(name).map(|found| found.start() - 26));
    // Of equal names the first.
    assert_eq!(place(b"twice"), Ok(0));
    assert_eq!(attributes.find("twice").unwrap().data_type(), DataType::U8);
    assert_eq!(place(b"twice\0\0"), Ok(0));
    // Bytes after a zero count, and are not shown.
    let found = attributes.find(inner.name_bytes()).unwrap();
    assert_eq!((found.start() - 26, found.name()), (1, "in".into()));
    for none in [&b"in"[..], &last, b"Twice", b"twice ", b"twic", b"a name"] {
        assert_eq!(place(none), Err((41, 0, 0)));
    }
    assert_eq!(place(long.as_bytes()), Ok(2));
    assert_eq!(place(format!("{long}\0").as_bytes()), Err((41, 0, 0)));
    assert_eq!(place(&[b'x'; 1_000]), Err((41, 0, 0)));
    // The empty name is that of 32 zeros.
    assert_eq!(
        (place(b""), place(&[0; 32]), place(&[0; 33])),
        (Ok(3), Ok(3), Err((41, 0, 0)))
    );
    // Two that have no bytes stand in one place, and each has its own descriptor.
    for name in ["empty", "as empty"] {
        let found = attributes.find(name).unwrap();
        assert_eq!((found.name(), found.start() - 26), (name.into(), 6));
        assert_eq!(found.value(1).unwrap(), Value::Bytes(&[]));
    }
}

/// A file of LAS 1.4 with these VLRs, two points of a format with this many extra bytes, and these EVLRs.
fn with_records(code: u8, extra: u16, vlrs: &[Vlr<'_>], evlrs: &[Vlr<'_>]) -> Vec<u8> {
    let format = Format::new(code).unwrap().with_extra_bytes(extra);
    let records = |vlrs: &[Vlr<'_>]| -> Vec<u8> {
        vlrs.iter().flat_map(|vlr| vlr.to_vec().unwrap()).collect()
    };
    let extra_bytes: Vec<u8> = (0..extra).map(|byte| byte as u8).collect();
    let point = Point {
        extra_bytes: &extra_bytes,
        ..Point::default()
    };
    let points = point.to_vec(format).unwrap().repeat(2);
    let mut header = Header::new(Version { major: 1, minor: 4 }).unwrap();
    header.offset_to_point_data += records(vlrs).len() as u32;
    header.number_of_variable_length_records = vlrs.len() as u32;
    header.point_data_record_format = code;
    header.point_data_record_length = format.len().unwrap();
    header.large_file = Some(LargeFile {
        number_of_point_records: 2,
        ..LargeFile::default()
    });
    if !evlrs.is_empty() {
        header.evlrs = Some(Evlrs {
            start_of_first_evlr: u64::from(header.offset_to_point_data) + points.len() as u64,
            number_of_evlrs: evlrs.len() as u32,
        });
    }
    [
        header.to_vec(&[]).unwrap(),
        records(vlrs),
        points,
        records(evlrs),
    ]
    .concat()
}

/// A VLR that describes extra bytes by this data.
fn describing(data: &[u8]) -> Vlr<'_> {
    Vlr::new(false, attributes::USER_ID, attributes::RECORD_ID, "", data)
}

/// How many attributes there are, or why they are refused; asking for one by name is refused alike.
fn counted(bytes: &[u8]) -> Result<usize, (u64, u64, u64)> {
    let file = File::check(bytes).unwrap();
    told(file.attributes().map(|attributes: Attributes<'_>| {
        assert_eq!(attributes.iter().count(), attributes.len());
        attributes.len()
    }))
}

#[test]
fn broken_descriptors() {
    let good = Descriptor::new("good", DataType::U16).to_bytes();
    let mut array = Descriptor::new("array", DataType::U16).to_bytes();
    let of = |data: &[u8]| counted(&with_records(6, 4, &[describing(data)], &[]));

    // None, and another record's.
    assert_eq!(counted(&with_records(6, 4, &[], &[])), Err((37, 0, 0)));
    let mut padded = describing(&good);
    padded.user_id[15] = b' ';
    let mut after = describing(&good);
    after.user_id[10] = b'x';
    let short = Vlr::new(false, "LASF_Spe", 4, "", &good);
    for other in [
        Vlr {
            record_id: 3,
            ..describing(&good)
        },
        Vlr {
            record_id: 4 + 256,
            ..describing(&good)
        },
        padded,
        after,
        short,
    ] {
        assert_eq!(counted(&with_records(6, 4, &[other], &[])), Err((37, 0, 0)));
        let bytes = with_records(6, 4, &[other, describing(&good)], &[]);
        assert_eq!(counted(&bytes), Ok(1));
    }
    // An EVLR is not looked at.
    let evlr = Vlr {
        extended: true,
        ..describing(&good)
    };
    assert_eq!(counted(&with_records(6, 4, &[], &[evlr])), Err((37, 0, 0)));

    // Data that is no multiple of 192; none is one.
    assert_eq!(of(&[]), Ok(0));
    for cut in [1, 191, 193, 383, 385] {
        let data = good.repeat(3);
        assert_eq!(of(&data[..cut]), Err((38, 0, 0)), "{cut}");
    }
    assert_eq!(of(&good.repeat(2)), Ok(2));

    // A type above 10, wherever it stands.
    for data_type in 0..=255 {
        array[2] = data_type;
        let expected = match data_type {
            0..=6 | 9 => Ok(1),
            7 | 8 | 10 => Err((40, 0, 0)),
            11.. => Err((39, 0, 0)),
        };
        assert_eq!(of(&array), expected, "{data_type}");
        if data_type > 10 {
            assert_eq!(of(&[good, array].concat()), Err((39, 0, 0)));
            assert_eq!(of(&[array, good].concat()), Err((39, 0, 0)));
        }
    }

    // More bytes than there are extra ones, by one or by many.
    for (extra, expected) in [
        (3, Err((40, 0, 0))),
        (4, Ok(2)),
        (5, Ok(2)),
        (0, Err((40, 0, 0))),
    ] {
        let data = good.repeat(2);
        assert_eq!(
            counted(&with_records(6, extra, &[describing(&data)], &[])),
            expected
        );
    }
    let many = to_vlr_data(&[Descriptor::new("raw", DataType::Bytes(255)); 341]);
    assert_eq!(of(&many), Err((40, 0, 0)));
    assert_eq!(
        counted(&with_records(0, 60_000, &[describing(&many)], &[])),
        Err((40, 0, 0))
    );
    // No bytes need no extra ones.
    let none = Descriptor::new("none", DataType::Bytes(0)).to_bytes();
    assert_eq!(
        counted(&with_records(6, 0, &[describing(&none)], &[])),
        Ok(1)
    );

    // Each test is over all before the next: 38, then 39, then 40.
    array[2] = 11;
    let large = Descriptor::new("large", DataType::Bytes(9)).to_bytes();
    assert_eq!(of(&[&large[..], &array, b"x"].concat()), Err((38, 0, 0)));
    assert_eq!(of(&[large, array].concat()), Err((39, 0, 0)));
    assert_eq!(of(&[large, good].concat()), Err((40, 0, 0)));

    // The first such VLR counts, broken or not.
    let two = |first, second| counted(&with_records(6, 4, &[first, second], &[]));
    let twice = good.repeat(2);
    assert_eq!(two(describing(&good), describing(&twice)), Ok(1));
    assert_eq!(two(describing(&good), describing(b"broken")), Ok(1));
    assert_eq!(
        two(describing(b"broken"), describing(&good)),
        Err((38, 0, 0))
    );
    assert_eq!(two(describing(b""), describing(&good)), Ok(0));

    // By name after all of them.
    let bytes = with_records(6, 4, &[describing(&[])], &[]);
    let file = File::check(&bytes).unwrap();
    assert_eq!(
        told(file.attributes().unwrap().find("good").map(|_| ())),
        Err((41, 0, 0))
    );
}

#[test]
fn the_walker_has_the_same_bytes_in_every_format() {
    let sizes = [
        DataType::U8,
        DataType::F32,
        DataType::I64,
        DataType::Bytes(5),
    ];
    let data = to_vlr_data(&sizes.map(|of| Descriptor::new(&named(of), of)));
    for code in 0..=10 {
        for extra in [18, 19, 300] {
            let bytes = with_records(code, extra, &[describing(&data)], &[]);
            let file = File::check(&bytes).unwrap();
            let base = usize::from(Format::new(code).unwrap().len().unwrap());
            let attributes = file.attributes().unwrap();
            assert_eq!(attributes.len(), 4);
            for attribute in &attributes {
                for (number, point) in (1..).zip(file.points()) {
                    let start = attribute.start() - base;
                    let end = start + attribute.data_type().size();
                    let part = &point.extra_bytes[start..end];
                    assert_eq!(attribute.bytes(number).unwrap(), part);
                    assert_eq!(
                        attribute.value(number).unwrap(),
                        value_of(attribute.data_type(), part)
                    );
                }
            }
        }
        // A file that describes nothing.
        assert_eq!(counted(&rich(code, 3)), Err((37, 0, 0)));
    }
}

#[test]
fn the_data_of_a_vlr_by_its_ids() {
    let first = Vlr::new(false, "somebody", 7, "", b"first");
    let second = Vlr::new(false, "somebody", 7, "", b"second");
    let full = Vlr::new(false, "of sixteen bytes", 7, "", b"full");
    let evlr = Vlr::new(true, "later", 7, "", b"evlr");
    let bytes = with_records(6, 0, &[full, first, second], &[evlr]);
    let file = File::check(&bytes).unwrap();
    assert_eq!(file.vlr_data("somebody", 7), Some(&b"first"[..]));
    assert_eq!(file.vlr_data(b"somebody\0", 7), Some(&b"first"[..]));
    assert_eq!(file.vlr_data("of sixteen bytes", 7), Some(&b"full"[..]));
    for (user, id) in [
        ("somebody", 8),
        ("some", 7),
        ("of sixteen bytes\0", 7),
        ("later", 7),
        ("", 7),
    ] {
        assert_eq!(file.vlr_data(user, id), None, "{user} {id}");
    }
    // Within the allowance that the file was checked with.
    let file = File::check_within(&bytes, 4).unwrap();
    assert_eq!(file.vlr_data("somebody", 7), Some(&b"first"[..]));
    assert_eq!(told(file.attributes().map(|_| ())), Err((37, 0, 0)));
}

#[test]
fn descriptors_are_read_and_written_back() {
    let mut chance = Chance(3);
    for round in 0..2_000 {
        let mut stored = [0; Descriptor::SIZE];
        for byte in &mut stored {
            *byte = chance.next() as u8;
        }
        stored[2] = (round % 13) as u8;
        let read = told(Descriptor::read(&stored));
        if stored[2] > 10 {
            assert_eq!(read, Err((39, 0, 0)));
            continue;
        }
        let read = read.unwrap();
        assert_eq!(read.to_bytes(), stored);
        assert_eq!(read.data_type().number(), stored[2]);
        assert_eq!(read.name_bytes()[..], stored[4..36]);
        let mut dst = [0xa5; 200];
        assert_eq!(read.write(&mut dst), Ok(192));
        assert_eq!((&dst[..192], &dst[192..]), (&stored[..], &[0xa5; 8][..]));
        let mut short = [0xa5; 191];
        assert_eq!(told(read.write(&mut short)), Err((22, 192, 0)));
        assert_eq!(short, [0xa5; 191]);
        assert_eq!(told(Descriptor::read(&stored[..191])), Err((1, 192, 0)));
        stored[2] = 200;
        assert_eq!(told(Descriptor::read(&stored[..191])), Err((1, 192, 0)));
    }
    // What is said stands where the standard has it.
    let reflectance = Descriptor::new("reflectance", DataType::I16)
        .with_about("in dB")
        .with_scale(0.01)
        .with_offset(-2.5);
    let stored = reflectance.to_bytes();
    assert_eq!((stored[2], stored[3]), (4, 0b1_1000));
    assert_eq!(stored[4..16], *b"reflectance\0");
    assert_eq!(stored[112..120], 0.01_f64.to_le_bytes());
    assert_eq!(stored[136..144], (-2.5_f64).to_le_bytes());
    assert_eq!(stored[160..166], *b"in dB\0");
    assert_eq!(
        TYPES.map(DataType::size),
        [1, 1, 3, 2, 2, 0, 4, 4, 255, 8, 8, 4, 8]
    );
}

#[test]
fn files_that_are_made_with_attributes() {
    let descriptors = TYPES.map(|of| Descriptor::new(&named(of), of));
    let bytes = scanned(3, &descriptors, 0);
    let file = File::check(&bytes).unwrap();
    let sizes: usize = TYPES.iter().map(|of| of.size()).sum();
    assert_eq!(usize::from(file.format().extra_bytes), sizes + 2);
    assert_eq!(
        (file.vlrs().len(), file.attributes().unwrap().len()),
        (2, 13)
    );
    assert_eq!(
        file.vlr_data("LASF_Spec", 4),
        Some(&to_vlr_data(&descriptors)[..])
    );

    // Added one by one, and before a VLR that says something else.
    let one = [Descriptor::new("one", DataType::U8)];
    let two = [Descriptor::new("two", DataType::U16)];
    let other = describing(b"broken");
    let made = NewFile::new(0).vlr(other).attributes(&one).attributes(&two);
    let bytes = made.to_vec().unwrap();
    let file = File::check(&bytes).unwrap();
    let names: Vec<String> = file
        .attributes()
        .unwrap()
        .iter()
        .map(|one| one.name().into_owned())
        .collect();
    assert_eq!(
        (names, file.format().extra_bytes),
        (vec!["one".into(), "two".into()], 3)
    );

    // None is described where there are none, as before.
    let bytes = NewFile::new(0).attributes(&[]).to_vec().unwrap();
    assert_eq!(bytes, NewFile::new(0).to_vec().unwrap());

    // More than a record or a VLR holds.
    let raw = |count| vec![Descriptor::new("raw", DataType::Bytes(255)); count];
    let refused = NewFile::new(0).attributes(&raw(258)).to_vec().unwrap_err();
    assert!(
        refused.to_string().contains("65790 extra bytes"),
        "{refused}"
    );
    let refused = NewFile::new(0).attributes(&raw(257)).to_vec().unwrap_err();
    assert_eq!(refused.refusal().map(|refusal| refusal.number()), Some(8));
    let none = vec![Descriptor::new("none", DataType::Bytes(0)); 342];
    assert!(NewFile::new(0).attributes(&none[1..]).to_vec().is_ok());
    let refused = NewFile::new(0).attributes(&none).to_vec().unwrap_err();
    assert_eq!(refused.refusal().map(|refusal| refusal.number()), Some(24));
}

#[test]
fn the_sample() {
    let bytes = fs::read(sample()).unwrap();
    let file = File::check(&bytes).unwrap();
    let attributes = file.attributes().unwrap();
    let reflectance = attributes.find("reflectance").unwrap();
    assert_eq!(
        (attributes.len(), reflectance.data_type()),
        (1, DataType::I16)
    );
    assert_eq!(reflectance.descriptor().scale(), Some(0.01));
    let walked = file
        .points()
        .map(|point| value_of(DataType::I16, point.extra_bytes));
    assert!(walked.eq(reflectance.to_vec(..).unwrap()));
}
