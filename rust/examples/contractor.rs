//! Makes `samples/contractor.las`: a file as other programs write them, which is accepted and breaks each rule of findings once.
//!
//!     cargo run --example contractor -- OUT
//!
//! LAS 1.4, point format 6. Its program does not know what to do with point 5, the second return of one: the legacy counter has it, which
//! should be 0, and the large counters don't. And it uses the memory of a text again, without clearing what was longer.

use inscjarol::{Flags, Format, Header, LargeFile, Point, Refusal, ScanAngle, Version, Vlr};
use std::{env, fs, process::ExitCode};

/// Return number and number of returns of each point.
const RETURNS: [(u8, u8); 6] = [(1, 1), (1, 2), (2, 2), (1, 1), (2, 1), (1, 1)];

/// What stands between the VLR and the points, in no part of its own.
const GAP: &[u8] = b"pads";

/// Metres a step.
const SCALE: f64 = 0.01;

/// The whole file.
pub fn file() -> Result<Vec<u8>, Refusal> {
    let format = Format::new(6)?;
    let note = b"Gravel pit, east side";
    let vlr = Vlr {
        // What stood there before ended with "of area 12".
        description: *b"Field note\0es of area 12\0\0\0\0\0\0\0\0",
        ..Vlr::new(false, "LASF_Spec", 3, "", note)
    };

    let mut header = Header::new(Version { major: 1, minor: 4 })?;
    header.global_encoding = 1 | 1 << 4; // adjusted standard time, and WKT
    header.set_system("OTHER");
    header.set_software("A contractor's program");
    header.file_creation_day_of_year = 75;
    header.file_creation_year = 2026;
    header.offset_to_point_data += (vlr.size() + GAP.len()) as u32;
    header.number_of_variable_length_records = 1;
    header.point_data_record_format = format.to_u8()?;
    header.point_data_record_length = format.len()?;
    header.number_of_point_records = RETURNS.len() as u32;
    header.x_scale_factor = SCALE;
    header.y_scale_factor = SCALE;
    header.z_scale_factor = SCALE;
    header.max_x = header.x(100 * (RETURNS.len() as i32 - 1));
    header.large_file = Some(LargeFile {
        number_of_point_records: RETURNS.len() as u64 - 1,
        number_of_points_by_return: [4, 1, 0, 0, 0, 0, 0, 0, 0, 0, 0, 0, 0, 0, 0],
    });
    header.start_of_waveform_data_packet_record = Some(0);

    let mut bytes = header.to_vec(&[])?;
    bytes.extend(vlr.to_vec()?);
    bytes.extend(GAP);
    for (x, (number, of)) in (0..).zip(RETURNS) {
        let point = Point {
            x: 100 * x,
            flags: Flags::ThreeByte(number | of << 4, 0, 2),
            scan_angle: ScanAngle::Scaled(0),
            gps_time: Some(f64::from(x)),
            ..Point::default()
        };
        bytes.extend(point.to_vec(format)?);
    }
    Ok(bytes)
}

fn main() -> ExitCode {
    let out = match env::args_os().nth(1) {
        Some(out) => out,
        None => {
            eprintln!("contractor: where to? cargo run --example contractor -- OUT");
            return ExitCode::from(2);
        }
    };
    let bytes = match file() {
        Ok(bytes) => bytes,
        Err(refusal) => {
            eprintln!("contractor: {refusal}");
            return ExitCode::FAILURE;
        }
    };
    match fs::write(&out, bytes) {
        Ok(()) => ExitCode::SUCCESS,
        Err(error) => {
            eprintln!("contractor: {}: {error}", out.to_string_lossy());
            ExitCode::from(2)
        }
    }
}
