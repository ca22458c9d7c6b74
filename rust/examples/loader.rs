use inscjarol::{Append, Color, Error, File, Flags, Mapped, NewFile, Point, Refusal};
use std::{env, time::Instant};

/// The points as a viewer wants them: each coordinate by itself, in steps of the header's scale.
struct Cloud {
    xs: Vec<i32>,
    ys: Vec<i32>,
    zs: Vec<i32>,
}

/// Checks a file and takes X, Y and Z of all its points, in one pass over them. Refused where the bytes are no whole LAS file.
fn load(bytes: &[u8]) -> Result<Cloud, Refusal> {
    let file = File::check(bytes)?;
    let [mut xs, mut ys, mut zs] = [(); 3].map(|()| vec![0; file.points().len()]);
    file.xyz(.., &mut xs, &mut ys, &mut zs)?;
    Ok(Cloud { xs, ys, zs })
}

/// A file of so many points of format 3, for who has none at hand: room for all of them, and then one sweep after the other.
fn made(points: u64) -> Result<Vec<u8>, Error> {
    const SWEEP: u64 = 100_000;
    let mut bytes = NewFile::new(3).room(points).to_vec()?;
    for first in (0..points).step_by(SWEEP as usize) {
        let file = File::check(&bytes)?;
        let mut records = Vec::new();
        for n in first..points.min(first + SWEEP) {
            records.extend(point(n).to_vec(file.format())?);
        }
        Append::of(&file, &records, first).apply(&mut bytes)?;
    }
    Ok(bytes)
}

/// A point on a slope, in rows of a thousand.
fn point(n: u64) -> Point<'static> {
    let (column, row) = ((n % 1_000) as i32, (n / 1_000) as i32);
    Point {
        x: 50 * column,
        y: 50 * row,
        z: 10 * (column + row),
        flags: Flags::TwoByte(0b001_001, 0), // the first return of one
        gps_time: Some(n as f64 / 1e6),
        color: Some(Color::default()),
        ..Point::default()
    }
}

/// Loads a file and says how long that took, its check and the memory of the columns included, and what came of it.
fn timed(bytes: &[u8]) -> Result<(), Error> {
    let start = Instant::now();
    let cloud = load(bytes)?;
    let took = start.elapsed().as_secs_f64();

    let points = cloud.xs.len();
    let rate = points as f64 / took;
    println!("{points} points in {took:.4} s, {rate:.0} a second");
    for (name, column) in [("X", cloud.xs), ("Y", cloud.ys), ("Z", cloud.zs)] {
        if let (Some(low), Some(high)) = (column.iter().min(), column.iter().max()) {
            println!("{name} from {low} to {high}");
        }
    }
    Ok(())
}

/// Loads the file that is named; with a number instead, one that it makes of so many points, and with nothing, of ten million.
fn main() -> Result<(), Error> {
    let asked = env::args_os().nth(1);
    let asked = asked.unwrap_or_else(|| "10000000".into());
    match asked.to_str().and_then(|asked| asked.parse().ok()) {
        Some(points) => timed(&made(points)?),
        // SAFETY: nothing writes to the file meanwhile. Where that is not sure, std::fs::read makes a copy.
        None => timed(&unsafe { Mapped::open(asked)? }),
    }
}
