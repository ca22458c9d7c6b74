//! Makes `samples/stockpile.las`: a heap of gravel on rough ground, scanned from two flight lines that overlap.
//!
//!     cargo run --example stockpile -- OUT
//!
//! LAS 1.4, point format 6 with two extra bytes (reflectance): ground and heap, shrubs with several returns, points of both
//! lines flagged where these overlap, the ends of scans flagged as edges, a few points withheld. Everything is written
//! by the library, and every number comes from a fixed generator and from sums, products and square roots, which are the
//! same on every machine: so are the bytes.

use inscjarol::{Evlrs, Flags, Format, Header, LargeFile, Point, Refusal, ScanAngle, Version, Vlr};
use std::{env, fs, process::ExitCode};

/// Metres a step.
const SCALE: f64 = 0.001;

/// Where the coordinates count from, in metres.
const EAST: f64 = 500_000.0;
const NORTH: f64 = 5_400_000.0;

/// The scene, in metres: its sides, and where the two flight lines begin and end to the east.
const SIDE: f64 = 30.0;
const LINES: [(f64, f64); 2] = [(0.0, 18.0), (12.0, 30.0)];

/// How high the scanner flies, in metres.
const HEIGHT: f64 = 40.0;

/// Scans along the scene and pulses across each.
const SCANS: u32 = 40;
const PULSES: u32 = 36;

/// The classes of the standard.
const UNCLASSIFIED: u8 = 1;
const GROUND: u8 = 2;
const LOW_VEGETATION: u8 = 3;
const LOW_NOISE: u8 = 7;

/// The coordinate system, as LAS 1.4 has it.
const WKT: &str = concat!(
    r#"PROJCS["ETRS89 / UTM zone 32N",GEOGCS["ETRS89",DATUM["European_Terrestrial_Reference_System_1989","#,
    r#"SPHEROID["GRS 1980",6378137,298.257222101]],PRIMEM["Greenwich",0],UNIT["degree",0.0174532925199433]],"#,
    r#"PROJECTION["Transverse_Mercator"],PARAMETER["latitude_of_origin",0],PARAMETER["central_meridian",9],"#,
    r#"PARAMETER["scale_factor",0.9996],PARAMETER["false_easting",500000],PARAMETER["false_northing",0],"#,
    r#"UNIT["metre",1],AUTHORITY["EPSG","25832"]]"#,
    "\0"
);

/// What is said of the file after its points.
const ABOUT: &str = "A heap of gravel on rough ground\nMade by rust/examples/stockpile.rs\n";

/// Numbers that look like chance and are the same in every run.
struct Chance(u64);

impl Chance {
    fn next(&mut self) -> u64 {
        self.0 = self
            .0
            .wrapping_mul(6_364_136_223_846_793_005)
            .wrapping_add(1_442_695_040_888_963_407);
        self.0 >> 33
    }

    /// A number from 0 up to 1.
    fn part(&mut self) -> f64 {
        (self.next() % 1_000_000) as f64 / 1_000_000.0
    }
}

/// A heap: its middle, the radius of its foot, and its height.
struct Heap {
    east: f64,
    north: f64,
    radius: f64,
    height: f64,
}

const HEAPS: [Heap; 2] = [
    Heap {
        east: 14.0,
        north: 15.0,
        radius: 9.0,
        height: 5.2,
    },
    Heap {
        east: 19.5,
        north: 18.0,
        radius: 6.0,
        height: 3.1,
    },
];

/// The height of the ground: a gentle slope.
fn ground(east: f64, north: f64) -> f64 {
    112.0 + 0.02 * east - 0.01 * north
}

/// How much the heap stands above the ground: cones with rounded tops.
fn heap(east: f64, north: f64) -> f64 {
    let above = HEAPS.iter().map(|heap| {
        let (dx, dy) = (east - heap.east, north - heap.north);
        let away = (dx * dx + dy * dy + 1.0).sqrt() / heap.radius;
        heap.height * (1.0 - away)
    });
    above.fold(0.0, f64::max)
}

/// Whether a shrub stands there: along the southern edge.
fn shrub(east: f64, north: f64) -> bool {
    let (dx, dy) = (east - 6.0, north - 2.5);
    let (ex, ey) = (east - 22.0, north - 3.0);
    dx * dx + dy * dy < 4.0 || ex * ex + ey * ey < 5.0
}

/// The points of a pulse that have been made so far, with what all of them share.
struct Scene {
    points: Vec<(Point<'static>, [u8; 2])>,
    by_return: [u64; 15],
    low: [i32; 3],
    high: [i32; 3],
}

/// Where a pulse comes from.
struct Pulse {
    line: u16,
    time: f64,
    angle: f64,
    overlap: bool,
    edge: bool,
    left_to_right: bool,
}

impl Scene {
    /// Adds a return of a pulse: which of how many, where, and of what class.
    fn add(&mut self, pulse: &Pulse, which: (u8, u8), place: [f64; 3], class: u8, strength: f64) {
        let (number, of) = which;
        let [x, y, z] = place.map(|metres| (metres / SCALE).round() as i32);
        let second = u8::from(class == LOW_NOISE) << 2
            | u8::from(pulse.overlap) << 3
            | u8::from(pulse.left_to_right) << 6
            | u8::from(pulse.edge) << 7;
        let point = Point {
            x,
            y,
            z,
            intensity: (strength * 40_000.0) as u16,
            flags: Flags::ThreeByte(number | of << 4, second, class),
            scan_angle: ScanAngle::Scaled((pulse.angle / 0.006).round() as i16),
            user_data: 0,
            point_source_id: pulse.line,
            gps_time: Some(pulse.time),
            ..Point::default()
        };
        // Reflectance in hundredths of a decibel.
        let reflectance = (strength * 2_000.0 - 2_500.0) as i16;
        self.points.push((point, reflectance.to_le_bytes()));
        if let Some(count) = self.by_return.get_mut(usize::from(number) - 1) {
            *count += 1;
        }
        for (axis, stored) in [x, y, z].into_iter().enumerate() {
            self.low[axis] = self.low[axis].min(stored);
            self.high[axis] = self.high[axis].max(stored);
        }
    }
}

/// Scans the scene.
fn scanned() -> Scene {
    let mut chance = Chance(20_260_315);
    let mut scene = Scene {
        points: Vec::new(),
        by_return: [0; 15],
        low: [i32::MAX; 3],
        high: [i32::MIN; 3],
    };
    for (line, (from, to)) in (1_u16..).zip(LINES) {
        for scan in 0..SCANS {
            let left_to_right = scan % 2 == 0;
            for step in 0..PULSES {
                let across = match left_to_right {
                    true => step,
                    false => PULSES - 1 - step,
                };
                let part = (f64::from(across) + 0.6 * chance.part()) / f64::from(PULSES);
                let east = from + (to - from) * part;
                let north = SIDE * (f64::from(scan) + 0.5 * chance.part()) / f64::from(SCANS);
                // Far from the middle an angle is not its tangent, but then this is no scanner.
                let angle = (east - (from + to) / 2.0) / HEIGHT * 57.3;
                let pulse = Pulse {
                    line,
                    time: 4_321_000.0
                        + 60.0 * f64::from(line)
                        + f64::from(scan) * 0.25
                        + f64::from(step) * 0.005,
                    angle,
                    overlap: LINES[1].0 <= east && east < LINES[0].1,
                    edge: step == 0 || step == PULSES - 1,
                    left_to_right,
                };
                let floor = ground(east, north) + 0.03 * chance.part();
                let above = heap(east, north);
                let strength = 0.35 + 0.3 * chance.part();
                if shrub(east, north) {
                    let top = floor + 0.4 + 0.9 * chance.part();
                    let middle = floor + 0.2 + 0.1 * chance.part();
                    let returns = 2 + (chance.next() % 2) as u8;
                    scene.add(
                        &pulse,
                        (1, returns),
                        [east, north, top],
                        LOW_VEGETATION,
                        0.4 * strength,
                    );
                    if returns == 3 {
                        let place = [east + 0.02, north, middle];
                        scene.add(&pulse, (2, 3), place, LOW_VEGETATION, 0.3 * strength);
                    }
                    let place = [east + 0.03, north, floor];
                    scene.add(&pulse, (returns, returns), place, GROUND, 0.2 * strength);
                } else if chance.next() % 500 == 0 {
                    let place = [east, north, floor - 3.0 * chance.part()];
                    scene.add(&pulse, (1, 1), place, LOW_NOISE, 0.1);
                } else {
                    let class = if above > 0.1 { UNCLASSIFIED } else { GROUND };
                    let place = [east, north, floor + above + 0.05 * chance.part()];
                    scene.add(&pulse, (1, 1), place, class, strength);
                }
            }
        }
    }
    scene
}

/// What the extra bytes are: 192 bytes, as LAS 1.4 has them.
fn reflectance() -> [u8; 192] {
    let mut description = [0; 192];
    description[2] = 4; // i16
    description[3] = 1 << 3; // the scale counts
    description[4..15].copy_from_slice(b"reflectance");
    description[112..120].copy_from_slice(&0.01_f64.to_le_bytes());
    description[160..171].copy_from_slice(b"in decibels");
    description
}

/// The file.
pub fn file() -> Result<Vec<u8>, Refusal> {
    let scene = scanned();
    let format = Format::new(6)?.with_extra_bytes(2);
    let description = reflectance();
    let vlrs = [
        Vlr::new(false, "LASF_Projection", 2112, "OGC WKT", WKT.as_bytes()),
        Vlr::new(false, "LASF_Spec", 4, "extra bytes", &description),
    ];
    let evlr = Vlr::new(true, "LASF_Spec", 3, "about this file", ABOUT.as_bytes());

    let mut header = Header::new(Version { major: 1, minor: 4 })?;
    header.file_source_id = 1;
    header.global_encoding = 1 | 1 << 4; // adjusted standard time, and WKT
    header.set_system("POLE SCANNER");
    header.set_software("Inscjarol stockpile example");
    header.file_creation_day_of_year = 74;
    header.file_creation_year = 2026;
    header.offset_to_point_data += vlrs.iter().map(|vlr| vlr.size() as u32).sum::<u32>();
    header.number_of_variable_length_records = vlrs.len() as u32;
    header.point_data_record_format = format.to_u8()?;
    header.point_data_record_length = format.len()?;
    header.x_scale_factor = SCALE;
    header.y_scale_factor = SCALE;
    header.z_scale_factor = SCALE;
    header.x_offset = EAST;
    header.y_offset = NORTH;
    header.min_x = header.x(scene.low[0]);
    header.max_x = header.x(scene.high[0]);
    header.min_y = header.y(scene.low[1]);
    header.max_y = header.y(scene.high[1]);
    header.min_z = header.z(scene.low[2]);
    header.max_z = header.z(scene.high[2]);
    header.large_file = Some(LargeFile {
        number_of_point_records: scene.points.len() as u64,
        number_of_points_by_return: scene.by_return,
    });
    header.start_of_waveform_data_packet_record = Some(0);
    let points = scene.points.len() as u64 * u64::from(format.len()?);
    header.evlrs = Some(Evlrs {
        start_of_first_evlr: u64::from(header.offset_to_point_data) + points,
        number_of_evlrs: 1,
    });

    let mut bytes = header.to_vec(&[])?;
    for vlr in vlrs {
        bytes.extend(vlr.to_vec()?);
    }
    for (point, extra_bytes) in &scene.points {
        let point = Point {
            extra_bytes,
            ..*point
        };
        bytes.extend(point.to_vec(format)?);
    }
    bytes.extend(evlr.to_vec()?);
    Ok(bytes)
}

fn main() -> ExitCode {
    let out = match env::args_os().nth(1) {
        Some(out) => out,
        None => {
            eprintln!("stockpile: where to? cargo run --example stockpile -- OUT");
            return ExitCode::from(2);
        }
    };
    let bytes = match file() {
        Ok(bytes) => bytes,
        Err(refusal) => {
            eprintln!("stockpile: {refusal}");
            return ExitCode::FAILURE;
        }
    };
    match fs::write(&out, bytes) {
        Ok(()) => ExitCode::SUCCESS,
        Err(error) => {
            eprintln!("stockpile: {}: {error}", out.to_string_lossy());
            ExitCode::from(2)
        }
    }
}
