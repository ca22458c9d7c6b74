use inscjarol::{Append, Error, File, Flags, NewFile, Point, ScanAngle, Step, Vlr, Writer};
use std::{env, fs, io, path::Path};

/// A scanner's life: it makes a file and appends sweep after sweep; twice the power fails, and the sweep is offered again.
fn life(path: &Path) -> Result<(), Error> {
    NewFile::new(1)
        .system("scanner 7")
        .software("firmware 2.1")
        .created(2026, 320)
        .scale([0.001; 3])
        .offset([500_000.0, 4_100_000.0, 100.0])
        .vlr(Vlr::new(false, "scanner", 1, "lens", b"wide"))
        .room(10_000)
        .create(path)?;

    // SAFETY: nothing else writes to this file or makes it shorter.
    let open = || unsafe { Writer::open(path) };
    let mut writer = open()?;

    // How many points the file has, by the scanner's own count. It is kept with the sweep, where a brownout does not reach
    // them, until the sweep is in: read again from the file after a brownout, it could add the sweep twice.
    let mut believed = 0;
    for number in 0..5 {
        let records = sweep(number, &writer)?;
        let append = writer.look(|file| Append::of(file, &records, believed))?;

        if let 2 | 3 = number {
            // The power fails before the new header is written, and the next time right after that.
            let cut = brownout(&mut writer, &append, number - 2);
            println!("sweep {number}: {}", cut.unwrap_err());
            // It is back. The file is whole, with the points of all sweeps before, or of this one too.
            drop(writer);
            writer = open()?;
            let points = writer.look(|file| file.points().len())?;
            println!("there are {points} points");
        }

        // Offered for the first time or again, the sweep is in the file once.
        let appended = writer.append(&append)?;
        println!("sweep {number}: {appended:?}");
        believed += append.count;
    }

    let bytes = fs::read(path)?;
    let file = File::check(&bytes)?;
    println!("{} points in all", file.points().len());
    assert_eq!(file.points().len() as u64, believed);
    Ok(())
}

/// An append that is cut short when it waits for the disk, after it could do so this often.
fn brownout(writer: &mut Writer, append: &Append<'_>, mut waits: i32) -> Result<(), Error> {
    let cut = writer.append_watched(append, |step| match step {
        Step::Sync if waits == 0 => Err(io::Error::new(io::ErrorKind::Other, "the power fails")),
        Step::Sync => {
            waits -= 1;
            Ok(())
        }
        Step::Write { .. } => Ok(()),
    });
    cut.map(|_| ())
}

/// The records of a sweep, in the file's format.
fn sweep(number: i32, writer: &Writer) -> Result<Vec<u8>, Error> {
    let format = writer.look(|file| file.format())?;
    let mut records = Vec::new();
    for degrees in -30..=30 {
        let point = Point {
            x: 150 * i32::from(degrees),
            y: 200 * number,
            z: 4_000 - i32::from(degrees).abs(),
            flags: Flags::TwoByte(0b001_001, 0), // the first return of one
            scan_angle: ScanAngle::Rank(degrees),
            gps_time: Some(f64::from(number)),
            ..Point::default()
        };
        records.extend(point.to_vec(format)?);
    }
    Ok(records)
}

fn main() -> Result<(), Error> {
    let path = env::args_os().nth(1);
    let path = path.unwrap_or_else(|| "scanner.las".into());
    life(Path::new(&path))
}
