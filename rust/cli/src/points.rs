//! `inscjarol points`.

use super::{
    args::{Opt, Words},
    columns::{Columns, STRETCH},
    extra::Extras,
    fields::{Choice, Row},
    input::{self, Input, Name},
    output::Output,
    progress::Progress,
    Command, Failure, Status,
};
use inscjarol::{File, Kind, Point};

pub(crate) const COMMAND: Command = Command {
    name: "points",
    operands: "FILE",
    count: (1, 1),
    summary: "write the points of a file as CSV, or as a line of JSON each",
    options: &[
        Opt {
            name: "fields",
            value: Some("LIST"),
            help: "which fields, as x,y,z,intensity; 'all' for all that the file has",
        },
        Opt {
            name: "raw",
            value: None,
            help: "numbers as they are stored, without scale and offset",
        },
        Opt {
            name: "skip",
            value: Some("N"),
            help: "leave out the first N points",
        },
        Opt {
            name: "limit",
            value: Some("N"),
            help: "write at most N points",
        },
    ],
    help: "\
The first line names the fields, and each point has a line. Coordinates are scaled by the header and exact: they have as
many decimals as the header's scale and offset. A field that the file's points do not have is left empty.

Numbers of one field have one form: as many decimals as its scale and offset have, or for floats the shortest decimal
that reads back.

Fields, in letters of either size:
{fields}
and the attributes that the extra bytes hold, by the names that the file gives them; a name that is there already gets a
number at its end, as in intensity_2. 'inscjarol info' lists them. They are described by the first VLR of LASF_Spec with
record id 4, never by an EVLR, and where one of its descriptors is broken, there are no attributes, and it is told why.

In formats 0 to 5 overlap is read from the class: 12, or 28, which the standard does not count.

Examples:
  inscjarol points survey.las > survey.csv
  inscjarol points --fields x,y,z,classification --limit 10 survey.las
  inscjarol points --raw --json survey.las | head",
    run,
};

/// How many bytes are gathered before they are written.
const GATHERED: usize = 1 << 16;

fn run(words: &Words, out: &mut Output) -> Result<Status, Failure> {
    let asked = Asked::new(words)?;
    let name = match words.files.first() {
        Some(name) => name,
        None => return Ok(Status::Done),
    };
    let shown = Name::new(name);
    let input = match Input::open(name) {
        Ok(input) => input,
        Err(error) => return out.failed(&shown, &input::words(&error)),
    };
    match File::check(input.bytes()) {
        Ok(file) => write(&asked, &shown, &file, out),
        Err(refusal) => out.refused(&shown, &refusal),
    }
}

/// What was asked for, which is looked through before the file is.
struct Asked {
    choice: Choice,
    raw: bool,
    skip: u64,
    limit: u64,
}

impl Asked {
    fn new(words: &Words) -> Result<Asked, Failure> {
        let fields = words.value("fields").map(|fields| fields.to_string_lossy());
        Ok(Asked {
            choice: Choice::new(fields.as_deref()).map_err(Failure::Usage)?,
            raw: words.has("raw"),
            skip: words.number("skip")?.unwrap_or(0),
            limit: words.number("limit")?.unwrap_or(u64::MAX),
        })
    }
}

fn write(asked: &Asked, name: &Name, file: &File<'_>, out: &mut Output) -> Result<Status, Failure> {
    let extras = Extras::of(file);
    let row = Row::new(&asked.choice, asked.raw, file, &extras).map_err(Failure::Usage)?;
    // Who wants all fields is told why some are missing.
    let broken = (extras.refusal.as_ref()).filter(|refusal| refusal.kind() != Kind::NoDescriptors);
    if let (Choice::All, Some(refusal)) = (&asked.choice, broken) {
        out.tell(&format!("{name}: no attributes: {refusal}"));
    }
    let total = file
        .point_count()
        .saturating_sub(asked.skip)
        .min(asked.limit);

    if !out.json {
        out.line(&row.heading())?;
    }
    let columns = Columns::of(&row, file);
    let mut lines = Lines {
        row,
        out,
        gathered: Vec::with_capacity(GATHERED.saturating_mul(2)),
        progress: Progress::of_output(format!("points of {name}"), total),
        skipped: asked.skip,
        done: 0,
    };
    match columns {
        Some(columns) => by_columns(columns, name, file, (asked.skip, total), &mut lines),
        None => by_walking(file, (asked.skip, total), &mut lines),
    }
}

/// Writes so many points after those that are skipped, each read whole.
fn by_walking(
    file: &File<'_>,
    (skip, total): (u64, u64),
    lines: &mut Lines<'_, '_>,
) -> Result<Status, Failure> {
    let mut points = file.points();
    if let Some(last) = skip.checked_sub(1) {
        points.nth(usize::try_from(last).unwrap_or(usize::MAX));
    }
    for _ in 0..total {
        // Looked at where it is: a point is large.
        match &points.next() {
            Some(point) => lines.point(point)?,
            None => break,
        }
    }
    lines.let_go()?;
    Ok(Status::Done)
}

/// The same, stretch by stretch. Nothing is refused, unless another program changes the file meanwhile.
fn by_columns(
    mut columns: Columns,
    name: &Name,
    file: &File<'_>,
    (skip, total): (u64, u64),
    lines: &mut Lines<'_, '_>,
) -> Result<Status, Failure> {
    let end = skip.saturating_add(total);
    let mut done = skip;
    while done < end {
        let count = STRETCH.min(usize::try_from(end.saturating_sub(done)).unwrap_or(STRETCH));
        let last = done.saturating_add(count as u64);
        if let Err(refusal) = columns.fill(file, done.saturating_add(1)..=last) {
            lines.let_go()?;
            return lines.out.refused(name, &refusal);
        }
        for place in 0..count {
            lines.point(&columns.point(place))?;
        }
        done = last;
    }
    lines.let_go()?;
    Ok(Status::Done)
}

/// The lines of points, gathered before they are written.
struct Lines<'a, 'f> {
    row: Row<'f>,
    out: &'a mut Output,
    gathered: Vec<u8>,
    progress: Option<Progress>,
    /// How many points of the file come before them.
    skipped: u64,
    /// How many points they are by now.
    done: u64,
}

impl Lines<'_, '_> {
    #[inline]
    fn point(&mut self, point: &Point<'_>) -> Result<(), Failure> {
        self.done = self.done.saturating_add(1);
        let number = self.skipped.saturating_add(self.done);
        match self.out.json {
            true => self.row.json(number, point, &mut self.gathered),
            false => self.row.csv(number, point, &mut self.gathered),
        }
        match self.gathered.len() {
            GATHERED.. => self.let_go(),
            _ => Ok(()),
        }
    }

    /// Writes what is gathered.
    fn let_go(&mut self) -> Result<(), Failure> {
        self.out.bytes(&self.gathered)?;
        self.gathered.clear();
        if let Some(progress) = &self.progress {
            progress.at(self.done);
        }
        Ok(())
    }
}
