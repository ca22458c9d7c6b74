//! Makes the files of a site for the site sheet to be looked at: a quarry with a pit, heaps, a road, a hall and trees, in four tiles of two
//! versions and four formats, with a file without points and one that was cut off.
//!
//!     cargo run --example site -- FOLDER
//!
//! Everything is written by the library, and every number comes from a fixed generator and from sums, products and square roots: so the bytes
//! are the same everywhere.

use inscjarol::{Flags, Format, Header, LargeFile, Point, Refusal, ScanAngle, Version};
use std::{env, fs, path::Path, process::ExitCode};

/// Metres a step.
const SCALE: f64 = 0.01;

/// Where the coordinates count from, in metres.
const EAST: f64 = 500_000.0;
const NORTH: f64 = 5_400_000.0;

/// A tile, in metres, and how many pulses go along and across it.
const TILE: [f64; 2] = [150.0, 100.0];
const PULSES: [u32; 2] = [525, 350];

/// The tiles: their names, where they begin in tiles, and their formats.
const TILES: [(&str, [f64; 2], u8); 4] = [
    ("north-east.las", [1.0, 1.0], 3),
    ("north-west.las", [0.0, 1.0], 1),
    ("south-east.las", [1.0, 0.0], 7),
    ("south-west.las", [0.0, 0.0], 6),
];

/// Numbers that look like chance and are the same in every run.
struct Chance(u64);

impl Chance {
    /// A number from 0 up to 1.
    fn part(&mut self) -> f64 {
        self.0 = self
            .0
            .wrapping_mul(6_364_136_223_846_793_005)
            .wrapping_add(1_442_695_040_888_963_407);
        (self.0 >> 33) as f64 / (1_u64 << 31) as f64
    }
}

/// How far a place is from another.
fn away([x, y]: [f64; 2], [from_x, from_y]: [f64; 2]) -> f64 {
    ((x - from_x) * (x - from_x) + (y - from_y) * (y - from_y)).sqrt()
}

/// The height of what is solid at a place, and its class.
fn solid(place: [f64; 2]) -> (f64, u8) {
    let [x, y] = place;
    let slope = 210.0 + 0.03 * x - 0.02 * y;
    // A pit in terraces, and heaps beside it.
    let depth = (1.0 - away(place, [205.0, 128.0]) / 62.0).max(0.0) * 20.0;
    let terraced = (depth / 4.0).floor() * 4.0;
    let heaps = [
        ([62.0, 52.0], 24.0, 13.0),
        ([95.0, 70.0], 17.0, 8.5),
        ([48.0, 96.0], 14.0, 7.0),
    ];
    let above = heaps
        .iter()
        .map(|(middle, foot, high)| high * (1.0 - away(place, *middle) / foot));
    let heap = above.fold(0.0, f64::max);
    let hall = (20.0..52.0).contains(&x) && (150.0..172.0).contains(&y);
    let road = (y - 22.0 - 0.08 * x).abs() < 3.5;
    match (hall, heap > 0.0, road) {
        (true, ..) => (slope + 9.0 - 0.12 * (y - 161.0).abs(), 6),
        (_, true, _) => (slope + heap, 1),
        (_, _, true) => (slope + 0.2, 11),
        _ => (slope - terraced, 2),
    }
}

/// The height of the trees at a place; 0 where there are none.
fn trees(place: [f64; 2]) -> f64 {
    let [x, y] = place;
    // One in each square of seven metres along the northern and the eastern edge.
    let wood = y > 178.0 || x > 278.0;
    let middle = [(x / 7.0).floor() * 7.0 + 3.5, (y / 7.0).floor() * 7.0 + 3.5];
    let crown = 1.0 - away(place, middle) / 3.2;
    match wood && crown > 0.0 {
        true => 4.0 + 7.0 * crown.sqrt(),
        false => 0.0,
    }
}

/// A point of a format with this class, of these returns.
fn point(
    place: [f64; 2],
    z: f64,
    class: u8,
    (number, of): (u8, u8),
    format: &Format,
) -> Point<'static> {
    let [x, y] = place;
    let [x, y, z] = [x, y, z].map(|metres| (metres / SCALE).round() as i32);
    let (flags, scan_angle) = match format.is_extended {
        true => (
            Flags::ThreeByte(number | of << 4, 0, class),
            ScanAngle::Scaled(0),
        ),
        // Roads have no class in the old formats.
        false => {
            let class = if class == 11 { 2 } else { class };
            (Flags::TwoByte(number | of << 3, class), ScanAngle::Rank(0))
        }
    };
    Point {
        x,
        y,
        z,
        flags,
        scan_angle,
        gps_time: format.has_gps_time.then_some(0.0),
        color: format.has_color.then(Default::default),
        ..Point::default()
    }
}

/// The points of a tile.
fn scanned(begin: [f64; 2], format: &Format) -> Vec<Point<'static>> {
    let mut chance = Chance(begin[0].to_bits() ^ begin[1].to_bits() >> 7);
    let mut points = Vec::new();
    let [along, across] = PULSES;
    for pulse in 0..along * across {
        let at = |tile: usize, step: u32, of: u32, part: f64| {
            TILE[tile] * (begin[tile] + (f64::from(step) + part) / f64::from(of))
        };
        let place = [
            at(0, pulse % along, along, chance.part()),
            at(1, pulse / along, across, chance.part()),
        ];
        let (floor, class) = solid(place);
        let floor = floor + 0.06 * chance.part();
        let crown = trees(place);
        if chance.part() < 0.0002 {
            points.push(point(place, floor - 6.0 * chance.part(), 7, (1, 1), format));
        } else if crown > 0.0 {
            points.push(point(place, floor + crown, 5, (1, 3), format));
            points.push(point(
                place,
                floor + crown * chance.part(),
                4,
                (2, 3),
                format,
            ));
            points.push(point(place, floor, class, (3, 3), format));
        } else {
            points.push(point(place, floor, class, (1, 1), format));
        }
    }
    points
}

/// A file of these points; its version is the first that has the format.
fn file(points: &[Point<'_>], format: &Format) -> Result<Vec<u8>, Refusal> {
    let minor = if format.is_extended { 4 } else { 2 };
    let mut header = Header::new(Version { major: 1, minor })?;
    header.set_software("Inscjarol site example");
    header.file_creation_day_of_year = 74;
    header.file_creation_year = 2026;
    header.point_data_record_format = format.to_u8()?;
    header.point_data_record_length = format.len()?;
    (
        header.x_scale_factor,
        header.y_scale_factor,
        header.z_scale_factor,
    ) = (SCALE, SCALE, SCALE);
    (header.x_offset, header.y_offset) = (EAST, NORTH);
    match format.is_extended {
        true => {
            header.global_encoding = 1 << 4;
            header.large_file = Some(LargeFile {
                number_of_point_records: points.len() as u64,
                ..LargeFile::default()
            });
        }
        false => header.number_of_point_records = points.len() as u32,
    }
    let mut bytes = header.to_vec(&[])?;
    for point in points {
        bytes.extend(point.to_vec(*format)?);
    }
    Ok(bytes)
}

/// All files of the site, by their names.
fn site() -> Result<Vec<(&'static str, Vec<u8>)>, Refusal> {
    let mut files = Vec::new();
    for (name, begin, code) in TILES {
        let format = Format::new(code)?;
        files.push((name, file(&scanned(begin, &format), &format)?));
    }
    // A transfer that broke off, and a flight without a return.
    let (_, whole) = &files[0];
    let cut = whole[..whole.len() / 3].to_vec();
    files.push(("south-west-second-flight.las", cut));
    files.push(("test-flight.las", file(&[], &Format::new(6)?)?));
    Ok(files)
}

fn main() -> ExitCode {
    let folder = match env::args_os().nth(1) {
        Some(folder) => folder,
        None => {
            eprintln!("site: where to? cargo run --example site -- FOLDER");
            return ExitCode::from(2);
        }
    };
    let files = match site() {
        Ok(files) => files,
        Err(refusal) => {
            eprintln!("site: {refusal}");
            return ExitCode::FAILURE;
        }
    };
    let written = fs::create_dir_all(&folder).and_then(|()| {
        let mut files = files.iter();
        files.try_for_each(|(name, bytes)| fs::write(Path::new(&folder).join(name), bytes))
    });
    match written {
        Ok(()) => ExitCode::SUCCESS,
        Err(error) => {
            eprintln!("site: {}: {error}", folder.to_string_lossy());
            ExitCode::from(2)
        }
    }
}
