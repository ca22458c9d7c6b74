//! `inscjarol append`.

use super::{
    args::{Opt, Words},
    held,
    input::{self, Input, Name},
    output::Output,
    progress::Progress,
    show::{counted, grouped},
    Command, Failure, Status,
};
use inscjarol::{Append, Appended, Bounds, Error, File, Header, Writer};
use std::{ffi::OsStr, io, path::Path};

pub(crate) const COMMAND: Command = Command {
    name: "append",
    operands: "FILE RECORDS",
    count: (1, 2),
    summary: "add records behind a file's points, in a way that can be repeated after a brownout",
    options: &[
        Opt {
            name: "believed",
            value: Some("N"),
            help: "how many points FILE had before these records were first offered",
        },
        Opt {
            name: "bounds",
            value: Some("LIST"),
            help: "the header's new bounds in its order, with commas between: max x, min x, max y, min y, max z, min z",
        },
        Opt {
            name: "room",
            value: Some("N"),
            help: "make room for N further records behind the points",
        },
    ],
    help: "\
FILE is of LAS 1.2. RECORDS has point records as FILE has them, one after the other and nothing else; - is the standard
input. They become the last points of FILE: the header's counts and bounds change, and what was behind the points is
written over. The bounds are FILE's, widened to the new points, unless --bounds gives others, each max before its min.

Whatever cuts this short, a brownout, kill -9 or a full disk, FILE stays a whole LAS file, with the points that it had
or with all of the new ones too. The same command, given again, ends as if nothing had been: it says 'added', or
'already in' where the records were in. Either is said when they are on the disk.

For that --believed has to be the count from before. Do not read it from FILE again after a cut: FILE may count the
records by then, they would be added a second time, and nothing can see that.

FILE is made longer where it has to be. --room does so for many records at once, so that later appends are faster; with
--room, RECORDS may be left out. Two appends to one FILE do not meet: it is locked.

Examples, of which the second meets a brownout and is repeated:
  inscjarol append survey.las sweep1.bin --believed 0      says: added: 500 records, 500 points now
  inscjarol append survey.las sweep2.bin --believed 500    the power fails, and comes back
  inscjarol append survey.las sweep2.bin --believed 500    says: added, or already in
  scanner | inscjarol append survey.las - --believed 1000
  inscjarol append survey.las --room 1000000",
    run,
};

/// What is to be done, by the command's words.
struct Asked<'w> {
    /// RECORDS, and how many points are believed to be in FILE.
    records: Option<(&'w OsStr, u64)>,
    bounds: Option<Bounds>,
    room: Option<u64>,
}

fn run(words: &Words, out: &mut Output) -> Result<Status, Failure> {
    let asked = Asked::new(words)?;
    let file = match words.files.first() {
        Some(file) if file != "-" => file,
        _ => {
            return Err(wrong(
                "FILE has to be a file: the standard input cannot be appended to",
            ))
        }
    };
    let name = Name::new(file);
    let mut writer = match held::open(Path::new(file)) {
        Ok(writer) => writer,
        Err(error) => return out.failed(&name, &held::words(&error)),
    };
    // Whether it takes records at all is asked before they are read.
    if let Err(error) = writer.room(0) {
        return failed(&name, error, out);
    }
    let mut done = None;
    if let Some((from, believed)) = asked.records {
        let given = match records(file, from, &writer) {
            Ok(given) => given,
            Err(error) => return out.failed(&Name::new(from), &input::words(&error)),
        };
        let progress = Progress::new(format!("appending to {name}"), None);
        let appended = append(&mut writer, given.bytes(), believed, asked.bounds);
        drop(progress);
        match appended {
            Ok(appended) => done = Some(appended),
            Err(error) => return failed(&name, error, out),
        }
    }
    let has = writer
        .room(asked.room.unwrap_or(0))
        .and_then(|_| writer.look(Has::of));
    match has {
        Ok(has) => {
            told(&name, done, &has, out)?;
            Ok(Status::Done)
        }
        Err(error) => failed(&name, error, out),
    }
}

impl<'w> Asked<'w> {
    fn new(words: &'w Words) -> Result<Asked<'w>, Failure> {
        let (believed, room) = (words.number("believed")?, words.number("room")?);
        let bounds = words.value("bounds").map(bounds).transpose()?;
        let records = match (words.files.get(1), believed) {
            (Some(records), Some(believed)) => Some((records.as_os_str(), believed)),
            (Some(_), None) => {
                return Err(wrong(
                    "it needs --believed: how many points FILE had before these records were first offered",
                ))
            }
            (None, None) if room.is_some() && bounds.is_none() => None,
            (None, _) => return Err(wrong("it needs FILE RECORDS")),
        };
        Ok(Asked {
            records,
            bounds,
            room,
        })
    }
}

/// What is wrong, and where to read how it goes.
fn wrong(words: &str) -> Failure {
    Failure::Usage(format!(
        "append: {words}; 'inscjarol help append' tells how it goes"
    ))
}

/// The bounds that were given.
fn bounds(given: &OsStr) -> Result<Bounds, Failure> {
    let text = given.to_string_lossy();
    let numbers: Result<Vec<f64>, _> = text.split(',').map(|word| word.trim().parse()).collect();
    match numbers.as_deref() {
        Ok(&[max_x, min_x, max_y, min_y, max_z, min_z]) => in_order(Bounds {
            min: [min_x, min_y, min_z],
            max: [max_x, max_y, max_z],
        }),
        _ => Err(wrong(&format!(
            "--bounds needs six numbers with commas between ({ORDER}), and '{text}' is none such"
        ))),
    }
}

/// The order of the header's bounds.
const ORDER: &str = "max x, min x, max y, min y, max z, min z";

/// Bounds of which no max is below its min: who gives the min first is told so. Infinities and NaNs are taken as they are.
fn in_order(bounds: Bounds) -> Result<Bounds, Failure> {
    for ((max, min), axis) in bounds.max.iter().zip(&bounds.min).zip(["x", "y", "z"]) {
        if max < min && max.is_finite() && min.is_finite() {
            return Err(wrong(&format!(
                "--bounds has each max before its min ({ORDER}), and max {axis} {max} is below min {axis} {min}"
            )));
        }
    }
    Ok(bounds)
}

/// The bytes of RECORDS, which are whole records of FILE.
fn records(file: &OsStr, from: &OsStr, writer: &Writer) -> io::Result<Input> {
    if input::id(file)? == input::id(from)? {
        return Err(other("it is the file that it is to be appended to"));
    }
    let input = Input::open_raw(from)?;
    let each = writer.look(|file| file.header().point_data_record_length);
    // FILE was accepted, and is locked.
    let each = usize::from(each.unwrap_or(0)).max(1);
    match input.bytes().len() {
        len if len % each == 0 => Ok(input),
        len => Err(other(&format!(
            "it has {}, which are no whole records: one of {} has {each}",
            counted(len as u64, "byte"),
            Name::new(file),
        ))),
    }
}

/// Appends the records, and answers how many they are and what became of them.
fn append(
    writer: &mut Writer,
    records: &[u8],
    believed: u64,
    bounds: Option<Bounds>,
) -> Result<(u64, Appended), Error> {
    let mut append = writer.look(|file| Append::of(file, records, believed))?;
    append.bounds = bounds.unwrap_or(append.bounds);
    let appended = writer.append(&append)?;
    Ok((append.count, appended))
}

fn other(words: &str) -> io::Error {
    io::Error::new(io::ErrorKind::Other, words)
}

/// Says why FILE was not appended to.
fn failed(name: &Name, error: Error, out: &mut Output) -> Result<Status, Failure> {
    match error {
        Error::Refused(refusal) => out.refused(name, &refusal),
        error => out.failed(
            name,
            &format!(
                "{error}; what was written of it does no harm, and the same append can be repeated"
            ),
        ),
    }
}

/// What FILE has now.
struct Has {
    points: u64,
    /// For how many further records there is room.
    room: u64,
    bytes: u64,
}

impl Has {
    fn of(file: &File<'_>) -> Has {
        let bytes = file.bytes().len() as u64;
        let end = Header::end_of_points(file.bytes()).unwrap_or(bytes);
        let each = u64::from(file.header().point_data_record_length);
        Has {
            points: file.point_count(),
            room: bytes.saturating_sub(end).checked_div(each).unwrap_or(0),
            bytes,
        }
    }
}

/// Tells what was done.
fn told(
    name: &Name,
    done: Option<(u64, Appended)>,
    has: &Has,
    out: &mut Output,
) -> Result<(), Failure> {
    if out.json {
        let mut object = name.object();
        object.bool("accepted", true);
        match done {
            Some((_, Appended::Added)) => object.text("appended", "added"),
            Some((_, Appended::AlreadyIn)) => object.text("appended", "already in"),
            None => object.raw("appended", "null"),
        };
        object
            .number("records", done.map_or(0, |(count, _)| count))
            .number("points", has.points)
            .number("room", has.room)
            .number("bytes", has.bytes);
        return out.line(&object.finish());
    }
    let points = counted(has.points, "point");
    let mut line = match done {
        Some((count, Appended::Added)) => {
            format!("{name}: added: {}, {points} now", counted(count, "record"))
        }
        Some((count, Appended::AlreadyIn)) => format!(
            "{name}: already in: {}, {points}; nothing was written",
            counted(count, "record")
        ),
        None => format!("{name}: {points}"),
    };
    if has.room > 0 || done.is_none() {
        line.push_str(&format!("; room for {} more", grouped(has.room)));
    }
    out.line(&line)
}
