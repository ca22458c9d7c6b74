//! `inscjarol sheet`.

use super::{
    args::{Opt, Words},
    decimal::Scaled,
    input::{self, Files, Input, Name},
    json::Object,
    known,
    output::{refusal_object, Output},
    page,
    picture::Picture,
    progress::Progress,
    replace::{self, Replacement, Target},
    show::{counted, grouped},
    Command, Failure, Status,
};
use inscjarol::{File, Refusal, Sheet};
use std::{
    collections::BTreeSet,
    ffi::{OsStr, OsString},
    fs, io,
    path::Path,
};

pub(crate) const COMMAND: Command = Command {
    name: "sheet",
    operands: "FILE..",
    count: (1, usize::MAX),
    summary: "put many files on one sheet: points by class and by return, bounds, totals, and what was refused",
    options: &[
        Opt {
            name: "html",
            value: Some("OUT"),
            help: "write the sheet as a page too, to print or hang up, with bars and a picture of the site from above",
        },
        Opt {
            name: "force",
            value: None,
            help: "replace OUT if it is there",
        },
    ],
    help: "\
All points of all files are counted, record by record, withheld ones too: what headers say of them is not believed. So
the classes add up to the points, and so do the return numbers, of which 0 is one. Classes that no point has are left
out. Their names are the standard's; a class that it names in point formats 0 to 5 alone, or in 6 to 10 alone, is
reserved in the others.

Smallest and largest X, Y and Z are the whole numbers as they are stored. Where all files that have points have one
scale and one offset, they are shown scaled too; else they say nothing of the ground. Without points there are none.

A file that is refused is named with its refusal, in numbers and in words, and adds nothing; the status is then 1. A
file that is given twice is wrong use, since it would count twice. Of a folder its .las files are taken, in the order of
their names.

With --html the sheet is written as a page of its own, OUT, which needs nothing else and no network. Its picture shows
the site from above, north up where Y goes north: each cell has the colour of its highest point. OUT gets its name when
all of it is on the disk, and replaces nothing without --force.

Examples:
  inscjarol sheet survey.las
  inscjarol sheet surveys/ --html site.html
  inscjarol sheet --json surveys/ | tail -n 1",
    run,
};

/// What is said of bounds that are not scaled.
pub(crate) const OTHER_GRIDS: &str =
    "The files do not have one scale and offset, so these stored numbers say nothing of the ground.";

/// A file that was counted.
pub(crate) struct Taken {
    path: OsString,
    /// What it has, where it is a stream, which is read only once.
    kept: Option<Input>,
    pub(crate) version: String,
    pub(crate) format: u8,
    pub(crate) created: Option<String>,
    /// By its records.
    pub(crate) points: u64,
    pub(crate) grid: Grid,
}

impl Taken {
    /// Shows its bytes to `then` once more.
    pub(crate) fn again<T>(&self, then: impl FnOnce(&[u8]) -> T) -> io::Result<T> {
        match &self.kept {
            Some(input) => Ok(then(input.bytes())),
            None => Input::open(&self.path).map(|input| then(input.bytes())),
        }
    }
}

/// What became of a file.
pub(crate) enum Outcome {
    Counted(Taken),
    Refused(Refusal),
    Unread(String),
}

/// Scale and offset of x, y and z.
#[derive(Clone, Copy, Debug)]
pub(crate) struct Grid {
    pub(crate) scale: [f64; 3],
    pub(crate) offset: [f64; 3],
}

impl Grid {
    fn of(file: &File<'_>) -> Grid {
        let header = file.header();
        Grid {
            scale: [
                header.x_scale_factor,
                header.y_scale_factor,
                header.z_scale_factor,
            ],
            offset: [header.x_offset, header.y_offset, header.z_offset],
        }
    }

    /// Whether they are the same, bit by bit.
    fn is(&self, other: &Grid) -> bool {
        let bits = |grid: &Grid| (grid.scale.map(f64::to_bits), grid.offset.map(f64::to_bits));
        bits(self) == bits(other)
    }
}

/// Smallest and largest of one axis: as they are stored and, where the files have one grid, scaled.
pub(crate) struct Axis {
    pub(crate) name: &'static str,
    pub(crate) stored: [i32; 2],
    pub(crate) scaled: Option<[String; 2]>,
}

/// What all files come to.
pub(crate) struct Site {
    pub(crate) sheet: Sheet,
    pub(crate) files: Vec<(Name, Outcome)>,
    /// Whether some points are of formats 0 to 5, and whether some are of 6 to 10.
    old: bool,
    new: bool,
}

impl Site {
    /// The files that were counted.
    pub(crate) fn taken(&self) -> impl Iterator<Item = (&Name, &Taken)> {
        self.files
            .iter()
            .filter_map(|(name, outcome)| match outcome {
                Outcome::Counted(taken) => Some((name, taken)),
                _ => None,
            })
    }

    /// The one grid of all files that have points.
    pub(crate) fn grid(&self) -> Option<Grid> {
        let mut grids = self.taken().filter(|(_, taken)| taken.points > 0);
        let (_, Taken { grid, .. }) = grids.next()?;
        grids.all(|(_, taken)| taken.grid.is(grid)).then_some(*grid)
    }

    /// What a class is called, by the formats that there are points of. No class has two names: where old and new points differ, it is
    /// reserved in one of them.
    fn class(&self, class: u8) -> &'static str {
        let [old, new] = [true, false].map(|old| known::class(class, old));
        match (self.old, self.new) {
            (true, true) if old == known::RESERVED => new,
            (true, _) => old,
            _ => new,
        }
    }

    /// The classes that points have: number, name and points.
    pub(crate) fn classes(&self) -> Vec<(u8, &'static str, u64)> {
        let all = (0..=u8::MAX).zip(self.sheet.classes());
        let some = all.filter(|(_, points)| **points > 0);
        some.map(|(class, points)| (class, self.class(class), *points))
            .collect()
    }

    /// The return numbers, from 0 to the last that a point has.
    pub(crate) fn returns(&self) -> Vec<(usize, u64)> {
        let returns = self.sheet.returns();
        let last = returns.iter().rposition(|points| *points > 0).unwrap_or(0);
        let all = returns.iter().copied().enumerate();
        all.take_while(|(number, _)| *number <= last).collect()
    }

    /// The bounds, axis by axis; none where there are no points.
    pub(crate) fn axes(&self) -> Option<Vec<Axis>> {
        let bounds = self.sheet.bounds()?;
        let grid = self.grid();
        let names = ["x", "y", "z"].into_iter().enumerate();
        let pairs = bounds.min.into_iter().zip(bounds.max);
        let axes = names.zip(pairs).map(|((at, name), (min, max))| Axis {
            name,
            stored: [min, max],
            scaled: grid.and_then(|grid| {
                let (scale, offset) = (grid.scale.get(at)?, grid.offset.get(at)?);
                scaled(*scale, *offset, [min, max])
            }),
        });
        Some(axes.collect())
    }

    fn count(&self, of: fn(&Outcome) -> bool) -> u64 {
        let files = self.files.iter().filter(|(_, outcome)| of(outcome));
        files.count() as u64
    }

    pub(crate) fn refused(&self) -> u64 {
        self.count(|outcome| matches!(outcome, Outcome::Refused(_)))
    }

    pub(crate) fn unread(&self) -> u64 {
        self.count(|outcome| matches!(outcome, Outcome::Unread(_)))
    }

    fn status(&self) -> Status {
        match (self.unread(), self.refused()) {
            (0, 0) => Status::Done,
            (0, _) => Status::Refused,
            _ => Status::Failed,
        }
    }
}

/// The smallest and the largest that come of these two stored numbers, where they are numbers: a scale below zero swaps them.
fn scaled(scale: f64, offset: f64, [min, max]: [i32; 2]) -> Option<[String; 2]> {
    let form = Scaled::new(scale, offset, (min.into(), max.into()));
    let text = |stored: i32| {
        let mut text = Vec::new();
        let number = form.write(stored.into(), &mut text);
        String::from_utf8(text).ok().filter(|_| number)
    };
    let ends = [text(min)?, text(max)?];
    Some(match (scale < 0.0, ends) {
        (true, [min, max]) => [max, min],
        (false, ends) => ends,
    })
}

/// What part of the points these are.
pub(crate) fn share(points: u64, all: u64) -> String {
    let thousand = u128::from(points) * 1_000;
    let all = u128::from(all.max(1));
    match (thousand + all / 2) / all {
        0 if points > 0 => String::from("<0.1 %"),
        1_000 if u128::from(points) < all => String::from(">99.9 %"),
        parts => format!("{}.{} %", parts / 10, parts % 10),
    }
}

fn run(words: &Words, out: &mut Output) -> Result<Status, Failure> {
    let files = Files::of(&words.files);
    let ids = once(&files)?;
    let page = words.value("html");
    // Whether it may be written is asked before anything is read.
    let target = page
        .map(|page| target(page, words.has("force"), &ids))
        .transpose()?;
    if target.is_none() && words.has("force") {
        return Err(wrong("--force is of no use without --html"));
    }
    let site = counted_up(&files);
    let written = match (page, target) {
        (Some(page), Some(target)) => Some((Name::new(page), write(&site, target, page)?)),
        _ => None,
    };
    match out.json {
        true => objects(&site, written.as_ref(), out)?,
        false => text(&site, written.as_ref(), out)?,
    }
    if let Some(left_out) = files.left_out() {
        out.tell(&left_out);
    }
    Ok(site.status())
}

/// What is wrong, and where to read how it goes.
fn wrong(words: &str) -> Failure {
    Failure::Usage(format!(
        "sheet: {words}; 'inscjarol help sheet' tells how it goes"
    ))
}

/// What tells the files from every other, where none is given twice.
fn once(files: &Files) -> Result<BTreeSet<(u64, u64)>, Failure> {
    let mut ids = BTreeSet::new();
    for name in files.names() {
        match input::id(name) {
            Ok(id) if !ids.insert(id) => {
                let name = Name::new(name);
                return Err(wrong(&format!(
                    "{name} is given twice, and would count twice"
                )));
            }
            // What cannot be asked is told in its turn.
            _ => {}
        }
    }
    Ok(ids)
}

/// The place for the page, where it may be put there.
fn target(page: &OsStr, force: bool, inputs: &BTreeSet<(u64, u64)>) -> Result<Target, Failure> {
    if page == "-" {
        return Err(wrong("--html has to be a file"));
    }
    let path = Path::new(page);
    let judged = || {
        // The folder has to be there, which else only the writing would tell.
        if let Some(folder) = path.parent().filter(|folder| *folder != Path::new("")) {
            fs::metadata(folder)?;
        }
        let target = Target::find(path)?;
        match target.id() {
            Some(id) if inputs.contains(&id) => {
                let words = "it is one of the files that are to be counted";
                return Err(io::Error::new(io::ErrorKind::Other, words));
            }
            _ => target.judge(force)?,
        }
        Ok(target)
    };
    judged().map_err(|error| unwritten(page, &error))
}

/// That the page could not be written.
fn unwritten(page: &OsStr, error: &io::Error) -> Failure {
    Failure::Io(format!("{}: {}", Name::new(page), replace::words(error)))
}

/// Counts all files.
fn counted_up(files: &Files) -> Site {
    let mut site = Site {
        sheet: Sheet::default(),
        files: Vec::new(),
        old: false,
        new: false,
    };
    // One call counts the points of a file, and says nothing before it ends: so of one file only the time is shown.
    let size = |name: &OsStr| fs::metadata(name).map_or(0, |about| about.len());
    let progress = match files.count() {
        1 => Progress::new(String::from("counting"), None),
        count => {
            let bytes = files.names().map(size).sum();
            Progress::new(format!("counting {}", counted(count, "file")), Some(bytes))
        }
    };
    let mut done = 0_u64;
    for (name, trouble) in files.opened() {
        let outcome = match trouble {
            Some(trouble) => Outcome::Unread(trouble.to_string()),
            None => site.add(name),
        };
        site.files.push((Name::new(name), outcome));
        done = done.saturating_add(size(name));
        progress.at(done);
    }
    site
}

impl Site {
    /// Adds a file to the sheet.
    fn add(&mut self, name: &OsStr) -> Outcome {
        let input = match Input::open(name) {
            Ok(input) => input,
            Err(error) => return Outcome::Unread(input::words(&error)),
        };
        let before = self.sheet.points();
        // The sheet judges the file itself; asked here is what else it has.
        let file = match self
            .sheet
            .add(input.bytes())
            .and_then(|()| File::check(input.bytes()))
        {
            Ok(file) => file,
            Err(refusal) => return Outcome::Refused(refusal),
        };
        let points = self.sheet.points().saturating_sub(before);
        let format = file.format();
        self.old |= points > 0 && !format.is_extended;
        self.new |= points > 0 && format.is_extended;
        let header = file.header();
        let mut taken = Taken {
            path: name.to_os_string(),
            kept: None,
            version: header.version.to_string(),
            format: header.point_data_record_format,
            created: known::date(header.file_creation_year, header.file_creation_day_of_year),
            points,
            grid: Grid::of(&file),
        };
        taken.kept = (name == "-").then_some(input);
        Outcome::Counted(taken)
    }
}

/// Writes the page, and answers its bytes.
fn write(site: &Site, target: Target, page: &OsStr) -> Result<u64, Failure> {
    let picture = Picture::of(site);
    let text = page::of(site, picture.as_ref());
    let written = || {
        let len = text.len();
        let mut replacement = Replacement::new(target, len as u64)?;
        let mut map = replacement.map(len)?;
        map.copy_from_slice(text.as_bytes());
        drop(map);
        replacement.save()?;
        replacement.finish()?;
        Ok(len as u64)
    };
    written().map_err(|error: io::Error| unwritten(page, &error))
}

/// A table in columns: the one at `left` begins at the left, and all others end at the right.
fn table(rows: &[Vec<String>], left: usize, out: &mut Output) -> Result<(), Failure> {
    let width = |at: usize| {
        let cells = rows.iter().filter_map(|row| row.get(at));
        cells.map(|cell| cell.chars().count()).max().unwrap_or(0)
    };
    for row in rows {
        let cells = row.iter().enumerate().map(|(at, cell)| {
            let width = width(at);
            match at == left {
                true => format!("{cell:<width$}"),
                false => format!("{cell:>width$}"),
            }
        });
        let line = cells.collect::<Vec<_>>().join("  ");
        out.line(line.trim_end())?;
    }
    Ok(())
}

/// The sheet for people.
fn text(site: &Site, written: Option<&(Name, u64)>, out: &mut Output) -> Result<(), Failure> {
    for (name, outcome) in &site.files {
        match outcome {
            Outcome::Counted(taken) => {
                let points = counted(taken.points, "point");
                out.line(&format!("{name}: {points} of format {}", taken.format))?
            }
            Outcome::Refused(refusal) => out.line(&format!("{name}: {refusal:?}"))?,
            Outcome::Unread(words) => {
                out.failed(name, words)?;
            }
        }
    }
    let sheet = &site.sheet;
    let all = sheet.points();
    let row = |number: String, name: String, points: u64| {
        vec![number, name, grouped(points), share(points, all)]
    };
    let head = |what: &str| [what, "", "points", "share"].map(String::from).to_vec();
    let total = || row(String::from("total"), String::new(), all);

    out.line("")?;
    let mut classes: Vec<Vec<String>> = vec![head("class")];
    for (class, name, points) in site.classes() {
        classes.push(row(class.to_string(), name.to_string(), points));
    }
    classes.push(total());
    table(&classes, 1, out)?;

    out.line("")?;
    let mut returns: Vec<Vec<String>> = vec![head("return")];
    for (number, points) in site.returns() {
        returns.push(row(number.to_string(), String::new(), points));
    }
    returns.push(total());
    table(&returns, 1, out)?;

    out.line("")?;
    match site.axes() {
        None => out.line("no points, so no smallest and no largest")?,
        Some(axes) => {
            table(&bounds(&axes), 0, out)?;
            if site.grid().is_none() {
                out.line(OTHER_GRIDS)?;
            }
        }
    }

    out.line("")?;
    let mut sentence = format!(
        "{}: {} counted ({}), {} refused",
        counted(site.files.len() as u64, "file"),
        grouped(sheet.files()),
        counted(all, "point"),
        grouped(site.refused())
    );
    if site.unread() > 0 {
        sentence.push_str(&format!(", {} could not be read", grouped(site.unread())));
    }
    out.line(&sentence)?;
    match written {
        Some((name, bytes)) => out.line(&format!("written as {name}, {}", counted(*bytes, "byte"))),
        None => Ok(()),
    }
}

/// The rows of the bounds.
fn bounds(axes: &[Axis]) -> Vec<Vec<String>> {
    let one_grid = axes.iter().all(|axis| axis.scaled.is_some());
    let mut head = vec!["", "smallest", "largest"];
    if one_grid {
        head.extend(["smallest scaled", "largest scaled"]);
    }
    let mut rows = vec![head.into_iter().map(String::from).collect::<Vec<_>>()];
    for axis in axes {
        let mut row = vec![axis.name.to_string()];
        row.extend(axis.stored.map(|number| number.to_string()));
        if one_grid {
            row.extend(axis.scaled.iter().flatten().cloned());
        }
        rows.push(row);
    }
    rows
}

/// The same for programs: an object for each file, and then the sheet.
fn objects(site: &Site, written: Option<&(Name, u64)>, out: &mut Output) -> Result<(), Failure> {
    for (name, outcome) in &site.files {
        let mut object = name.object();
        match outcome {
            Outcome::Counted(taken) => object
                .bool("accepted", true)
                .number("format", taken.format)
                .number("points", taken.points),
            Outcome::Refused(refusal) => object
                .bool("accepted", false)
                .object("refusal", refusal_object(refusal)),
            Outcome::Unread(words) => {
                out.failed(name, words)?;
                continue;
            }
        };
        out.line(&object.finish())?;
    }
    let sheet = &site.sheet;
    let mut object = Object::new();
    object
        .number("files", sheet.files())
        .number("refused", site.refused())
        .number("points", sheet.points());
    let classes = site.classes().into_iter().map(|(class, name, points)| {
        let mut object = Object::new();
        object.number("class", class).text("name", name);
        object.number("points", points).finish()
    });
    object.list("classes", classes);
    object.list("returns", sheet.returns().iter().map(u64::to_string));
    let axes = site.axes().unwrap_or_default();
    let one_grid = !axes.is_empty() && axes.iter().all(|axis| axis.scaled.is_some());
    match axes.is_empty() {
        true => object.raw("bounds", "null"),
        false => {
            let ends = |of: fn(&Axis) -> i32| axes.iter().map(of).map(|n| n.to_string());
            let mut bounds = Object::new();
            bounds.list("min", ends(|axis| axis.stored[0]));
            bounds.list("max", ends(|axis| axis.stored[1]));
            object.object("bounds", bounds)
        }
    };
    match one_grid {
        false => object.raw("scaled", "null"),
        true => {
            let pairs: Vec<&[String; 2]> = axes.iter().flat_map(|axis| &axis.scaled).collect();
            let mut scaled = Object::new();
            scaled.list("min", pairs.iter().map(|[min, _]| min.clone()));
            scaled.list("max", pairs.iter().map(|[_, max]| max.clone()));
            object.object("scaled", scaled)
        }
    };
    match written {
        None => object.raw("out", "null"),
        Some((name, bytes)) => object.text("out", name.exact()).number("bytes", *bytes),
    };
    out.line(&object.finish())
}

#[cfg(test)]
mod tests {
    use super::*;

    #[test]
    fn shares_do_not_round_to_nothing_or_all() {
        let shares = [
            (0, 7),
            (7, 7),
            (1, 3),
            (1, 20_000),
            (19_999, 20_000),
            (0, 0),
        ];
        assert_eq!(
            shares.map(|(points, all)| share(points, all)),
            ["0.0 %", "100.0 %", "33.3 %", "<0.1 %", ">99.9 %", "0.0 %"]
        );
        assert_eq!(share(u64::MAX, u64::MAX), "100.0 %");
    }

    #[test]
    fn a_scale_below_zero_swaps_the_ends() {
        let ends = |scale: f64| scaled(scale, 100.0, [-5, 7]);
        assert_eq!(ends(0.01), Some(["99.95", "100.07"].map(String::from)));
        assert_eq!(ends(-0.01), Some(["99.93", "100.05"].map(String::from)));
        assert_eq!(ends(f64::NAN), None);
    }
}
