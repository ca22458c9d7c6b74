//! Columns, held against the points that the walker reads: every field of every format, every stretch around the edges.

mod common;

use common::{plain, rich, sample, Chance};
use inscjarol::{
    columns::{Blue, GpsTime, GpsTimeBits, Green, Nir, Red, X, Y, Z},
    Color, Column, File, Point, Refusal, Stretch,
};
use std::{fmt::Debug, fs};

/// The example, whose main is not called here.
mod loader {
    #![allow(dead_code)]
    include!("../examples/loader.rs");

    /// X, Y and Z as the example loads them.
    pub fn loaded(bytes: &[u8]) -> [Vec<i32>; 3] {
        let Cloud { xs, ys, zs } = load(bytes).unwrap();
        [xs, ys, zs]
    }

    /// The file that the example makes.
    pub fn file(points: u64) -> Vec<u8> {
        made(points).unwrap()
    }
}

/// What a buffer holds before it is lent.
trait Held: Copy + Debug + PartialEq {
    const HELD: Self;
}

impl Held for i32 {
    const HELD: i32 = -1_515_870_811;
}

impl Held for u16 {
    const HELD: u16 = 0xa5a5;
}

impl Held for f64 {
    const HELD: f64 = -0.625;
}

impl Held for u64 {
    const HELD: u64 = 0xa5a5_a5a5_a5a5_a5a5;
}

/// A refusal's numbers, or what was answered.
fn told<T>(answer: Result<T, Refusal>) -> Result<T, (u64, u64, u64)> {
    answer.map_err(|refusal| (refusal.number(), refusal.value(), refusal.record()))
}

/// That a stretch of a column is what the points have there, in buffers of every kind, and that nothing else is touched.
fn is_walked<C: Column>(
    file: &File<'_>,
    column: C,
    points: impl Into<Stretch>,
    expected: &Result<Vec<C::Entry>, (u64, u64, u64)>,
) where
    C::Entry: Held,
{
    let points = points.into();
    let needed = expected.as_ref().map_or(4, Vec::len);
    for room in [0, 1, needed.saturating_sub(1), needed, needed + 3] {
        let mut dst = vec![C::Entry::HELD; needed + 3];
        let answer = told(file.column(column, points, &mut dst[..room]));
        let mut left = vec![C::Entry::HELD; needed + 3];
        match expected {
            Ok(entries) if entries.len() <= room => {
                left[..needed].copy_from_slice(entries);
                assert_eq!(answer, Ok(needed));
            }
            Ok(_) => assert_eq!(answer, Err((22, needed as u64, 0))),
            Err(refusal) => assert_eq!(answer, Err(*refusal)),
        }
        assert_eq!(dst, left);
    }
    assert_eq!(&told(file.column_to_vec(column, points)), expected);
}

/// Whether the points of a file have a field, and how it is found in one.
type Field<T> = (bool, fn(&Point<'_>) -> T);

/// That a column is refused with 36 where the format lacks the field; else that each stretch of it is what the points have.
fn is_column<C: Column>(file: &File<'_>, column: C, (has, field): Field<C::Entry>)
where
    C::Entry: Held,
{
    let points: Vec<Point<'_>> = file.points().collect();
    let count = points.len() as u64;
    // Every stretch of a few points; of many the ends.
    let ends: Vec<u64> = match count {
        0..=9 => (0..=count + 3).collect(),
        _ => vec![0, 1, 2, count / 2, count - 1, count, count + 1, count + 2],
    };
    let expected = |first: u64, last: u64| {
        if !has {
            Err((36, 0, 0))
        } else if first == 0 || first > last.saturating_add(1) || first - 1 > count || last > count
        {
            Err((27, count, 0))
        } else {
            let points = &points[first as usize - 1..last as usize];
            Ok(points.iter().map(field).collect())
        }
    };
    for &first in ends.iter().chain([&u64::MAX]) {
        for &last in ends.iter().chain([&u64::MAX]) {
            is_walked(file, column, first..=last, &expected(first, last));
        }
        is_walked(file, column, first.., &expected(first, count));
        is_walked(file, column, ..=first, &expected(1, first));
    }
    is_walked(file, column, .., &expected(1, count));
}

/// All columns of a file.
fn are_columns(bytes: &[u8]) {
    let file = File::check(bytes).unwrap();
    let format = file.format();
    is_column(&file, X, (true, |point| point.x));
    is_column(&file, Y, (true, |point| point.y));
    is_column(&file, Z, (true, |point| point.z));
    let time = format.has_gps_time;
    is_column(
        &file,
        GpsTimeBits,
        (time, |point| point.gps_time.unwrap().to_bits()),
    );
    // Of a NaN it is said that it is one, and no two are equal.
    if file
        .points()
        .all(|point| point.gps_time.map_or(true, |time| !time.is_nan()))
    {
        is_column(&file, GpsTime, (time, |point| point.gps_time.unwrap()));
    }
    let color = format.has_color;
    is_column(&file, Red, (color, |point| point.color.unwrap().red));
    is_column(&file, Green, (color, |point| point.color.unwrap().green));
    is_column(&file, Blue, (color, |point| point.color.unwrap().blue));
    is_column(&file, Nir, (format.has_nir, |point| point.nir.unwrap()));
    let places: Vec<[f64; 3]> = file
        .points()
        .map(|point| {
            let header = file.header();
            [header.x(point.x), header.y(point.y), header.z(point.z)]
        })
        .collect();
    assert_eq!(file.xyz_to_vec(..), Ok(places));
    let colors: Option<Vec<Color>> = file.points().map(|point| point.color).collect();
    assert_eq!(
        told(file.rgb_to_vec(..)),
        colors.filter(|_| color).ok_or((36, 0, 0))
    );
}

#[test]
fn every_format_with_and_without_extra_bytes() {
    for code in 0..=10 {
        for extra in [0, 1, 7] {
            are_columns(&rich(code, extra));
        }
    }
}

#[test]
fn a_file_without_points_lacks_fields_all_the_same() {
    are_columns(&plain(0));
    let bytes = plain(0);
    let file = File::check(&bytes).unwrap();
    assert_eq!(file.column_to_vec(X, ..), Ok(Vec::new()));
    assert_eq!(told(file.column_to_vec(Nir, ..)), Err((36, 0, 0)));
}

#[test]
fn many_points() {
    are_columns(&plain(10_000));
    are_columns(&fs::read(sample()).unwrap());
}

#[test]
fn stretches_by_chance() {
    let bytes = plain(300);
    let file = File::check(&bytes).unwrap();
    let mut chance = Chance(6);
    for _ in 0..2_000 {
        let first = 1 + chance.below(300);
        let last = first + chance.below(301 - first);
        let numbers: Vec<i32> = (first..=last).map(|point| point as i32 - 1).collect();
        let points = first as u64..=last as u64;
        assert_eq!(file.column_to_vec(X, points), Ok(numbers));
    }
}

/// That X, Y and Z of a stretch in one pass are the three columns, into buffers of these lengths, of which 9 stands for what is needed, 8 for one
/// less, and so on.
fn is_three(file: &File<'_>, points: Stretch, rooms: [usize; 3]) {
    let columns = [
        told(file.column_to_vec(X, points)),
        told(file.column_to_vec(Y, points)),
        told(file.column_to_vec(Z, points)),
    ];
    let needed = columns[0].as_ref().map_or(4, Vec::len);
    let mut left = [(); 3].map(|()| vec![i32::HELD; needed + 3]);
    let mut dst = left.clone();
    let rooms = rooms.map(|room| (needed + room).saturating_sub(9));
    let [xs, ys, zs] = &mut dst;
    let answer = told(file.xyz(
        points,
        &mut xs[..rooms[0]],
        &mut ys[..rooms[1]],
        &mut zs[..rooms[2]],
    ));
    let expected = match &columns[0] {
        Ok(_) if rooms.iter().any(|room| *room < needed) => Err((22, needed as u64, 0)),
        Ok(_) => {
            for (left, column) in left.iter_mut().zip(&columns) {
                left[..needed].copy_from_slice(column.as_ref().unwrap());
            }
            Ok(needed)
        }
        Err(refusal) => Err(*refusal),
    };
    assert_eq!(answer, expected);
    assert_eq!(dst, left);
}

#[test]
fn three_columns_in_one_pass() {
    for code in 0..=10 {
        for extra in [0, 2] {
            let bytes = rich(code, extra);
            let file = File::check(&bytes).unwrap();
            for first in 0..=7 {
                for last in 0..=7 {
                    for rooms in [
                        [9, 9, 9],
                        [12, 10, 11],
                        [8, 9, 9],
                        [9, 8, 12],
                        [9, 11, 8],
                        [0, 0, 0],
                    ] {
                        is_three(&file, Stretch::from(first..=last), rooms);
                    }
                }
            }
            is_three(&file, Stretch::from(..), [10, 9, 9]);
        }
    }
}

#[test]
fn refusals_come_in_their_order() {
    let bytes = rich(6, 0);
    let file = File::check(&bytes).unwrap();
    // The field, then the points, then the room.
    assert_eq!(told(file.column(Red, 9..=99, &mut [])), Err((36, 0, 0)));
    assert_eq!(told(file.column(X, 9..=99, &mut [])), Err((27, 5, 0)));
    assert_eq!(told(file.column(X, 2..=5, &mut [0; 3])), Err((22, 4, 0)));
    assert_eq!(told(file.xyz_to_vec(5..=6)), Err((27, 5, 0)));
    let words = file.column(Nir, .., &mut []).unwrap_err().to_string();
    assert!(words.contains("does not have this field") && words.contains("8 and 10 near infrared"));
}

#[test]
fn every_bit_of_a_time_is_kept() {
    let signalling = 0x7ff0_0000_0000_0001_u64;
    let mut bytes = rich(1, 0);
    let file = File::check(&bytes).unwrap();
    let second = file.header().offset_to_point_data as usize + 28;
    bytes[second + 20..second + 28].copy_from_slice(&signalling.to_le_bytes());
    let file = File::check(&bytes).unwrap();
    assert_eq!(file.column_to_vec(GpsTimeBits, 2..=2), Ok(vec![signalling]));
    assert!(file.column_to_vec(GpsTime, 2..=2).unwrap()[0].is_nan());
}

#[test]
fn the_loader_has_the_points_of_its_files() {
    // No sweep, one, and one of a single point behind another.
    let mut files = [0, 1, 100_001].map(loader::file).to_vec();
    files.push(fs::read(sample()).unwrap());
    for (bytes, count) in files.iter().zip([0, 1, 100_001, 2_998]) {
        let walked = || File::check(bytes).unwrap().points();
        assert_eq!(walked().len(), count);
        let [xs, ys, zs] = loader::loaded(bytes);
        assert!(walked().map(|point| point.x).eq(xs));
        assert!(walked().map(|point| point.y).eq(ys));
        assert!(walked().map(|point| point.z).eq(zs));
    }
}
