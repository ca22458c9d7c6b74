//! `inscjarol convert`.

use super::{
    args::{Opt, Words},
    ask,
    input::{self, Files, Input, Name},
    output::Output,
    progress::Progress,
    replace::{self, Replacement, Target},
    show::counted,
    to::{To, Total},
    Command, Failure, Status,
};
use inscjarol::{File, Refusal};
use std::{
    collections::BTreeSet,
    ffi::OsStr,
    fs, io,
    os::unix::ffi::OsStrExt,
    path::{Path, PathBuf},
};

pub(crate) const COMMAND: Command = Command {
    name: "convert",
    operands: "--to 1.2|1.4 IN..",
    count: (1, usize::MAX),
    summary: "turn whole files of LAS 1.2 into LAS 1.4, for newer software, or back, and only if all of each can go",
    options: &[
        Opt {
            name: "to",
            value: Some("VERSION"),
            help: "the version that the files are to go to: 1.2 or 1.4",
        },
        Opt {
            name: "out",
            value: Some("PLACE"),
            help: "the folder that they go to, each under its own name; of one file, also the name that it gets",
        },
        Opt {
            name: "force",
            value: None,
            help: "replace what is there under the name that a file gets",
        },
        Opt {
            name: "ask",
            value: None,
            help: "say which files can go and how many bytes they will have, and write nothing",
        },
    ],
    help: "\
A file of LAS 1.2 with points of format 1 or 3 goes to LAS 1.4 with points of format 6 or 7, and such a file of LAS 1.4
goes to LAS 1.2. VLRs, padding and gaps are copied, the header's counts change their place, and every point is
converted. To LAS 1.2 a file goes only if an old reader finds the same value in every field of every point, the scan
angle to the nearest whole degree, if it has no EVLRs and no waveforms, and if its header counts no points of returns 6
to 15 and not more than LAS 1.2 can count. Else it is said what is in the way, and of a point where it lies.

What went to LAS 1.4 comes back byte for byte, but for two kinds of files, which go up and not down again: some point
has class 28, which some old readers take for overlap, or a scan angle beyond 90 degrees, which the standard does not
have.

Coordinate-system records are copied as they are, though the standard wants WKT for point formats 6 to 10: a program
that insists on WKT has to be told the coordinate system.

Without --out, survey.las becomes survey-1.4.las beside it, or survey-1.2.las. With --out the files go to a folder,
which is made where there is none, or one file gets the name that is said. What is there already is not replaced without
--force, not even IN itself, and never where it is read-only, another IN, or written by this very command. A file gets
its name when all of it is on the disk: a refused IN, a full disk or an interrupt leave what was there, or nothing.

All files are tried, also after one that cannot go. The status is 0 if all were written, 1 if one could not go or is no
whole LAS file, 2 if one could not be read or written. Of a folder its .las files are taken, in the order of their
names.

Examples, of which the first writes nothing:
  inscjarol convert --ask --to 1.2 surveys/
  inscjarol convert --to 1.2 surveys/ --out for-the-client/
  inscjarol convert --to 1.4 survey.las
  inscjarol convert --to 1.4 survey.las --out survey-new.las",
    run,
};

/// Why a file was not written.
enum Unwritten {
    Refused(Refusal),
    Out(io::Error),
}

/// What tells a file from every other file of the system.
type Id = (u64, u64);

/// What is to be done, and what was done so far.
struct Work<'w> {
    to: To,
    place: Place<'w>,
    force: bool,
    /// How many files there are, and how many had their turn.
    files: u64,
    turns: u64,
    /// Which files are to be read, and which were written: none of them is to be written over by another.
    inputs: BTreeSet<Id>,
    written: BTreeSet<Id>,
    total: Total,
}

fn run(words: &Words, out: &mut Output) -> Result<Status, Failure> {
    let to = To::of(words, COMMAND.name, &[To::Las12, To::Las14])?;
    let to = to.ok_or_else(|| wrong("it needs --to 1.2 or --to 1.4"))?;
    let files = Files::of(&words.files);
    if words.has("ask") {
        return ask::ask_all(to, &files, out);
    }
    // Who reads no further wants the files all the same.
    out.goes_on = true;
    let mut work = Work {
        to,
        place: Place::new(words.value("out"), &files)?,
        force: words.has("force"),
        files: files.count(),
        turns: 0,
        inputs: files.names().flat_map(input::id).collect(),
        written: BTreeSet::new(),
        total: Total::default(),
    };
    let worst = files.each_name(out, |from, out| {
        let status = work.convert(from, out)?;
        // Whoever watches sees what is done when it is done.
        out.flush()?;
        Ok(status)
    })?;
    let words = ["written", "cannot go", "could not be read or written"];
    files.sum_up(work.total.sentence(to, files.count(), words), out)?;
    Ok(worst)
}

/// What is wrong, and where to read how it goes.
fn wrong(words: &str) -> Failure {
    Failure::Usage(format!(
        "convert: {words}; 'inscjarol help convert' tells how it goes"
    ))
}

/// Where the files go.
enum Place<'w> {
    /// Each beside the file that it comes from.
    Beside,
    /// All into a folder, which may have been made for them.
    Folder { path: &'w Path, made: bool },
    /// The only one, to this name.
    Name(&'w Path),
}

impl<'w> Place<'w> {
    fn new(out: Option<&'w OsStr>, files: &Files) -> Result<Place<'w>, Failure> {
        let place = match out {
            None => Place::Beside,
            Some(out) if out == "-" => {
                return Err(wrong(
                    "--out has to be a file or a folder: what is written to the standard output cannot be taken back",
                ))
            }
            Some(out) => {
                let path = Path::new(out);
                let folder = path.is_dir() || out.as_bytes().ends_with(b"/");
                if files.several() && !folder && path.exists() {
                    return Err(wrong(&format!(
                        "several files need a folder, and {} is none",
                        Name::new(out)
                    )));
                }
                match folder || files.several() {
                    true => Place::Folder { path, made: false },
                    false => Place::Name(path),
                }
            }
        };
        match place {
            Place::Beside | Place::Folder { .. } if files.names().any(|name| name == "-") => Err(
                wrong("the standard input has no name: --out has to be one for what becomes of it"),
            ),
            place => Ok(place),
        }
    }

    /// The name of what becomes of a file.
    fn of(&self, from: &Path, to: To) -> PathBuf {
        match self {
            Place::Beside => beside(from, to),
            Place::Folder { path, .. } => path.join(from.file_name().unwrap_or_default()),
            Place::Name(path) => path.to_path_buf(),
        }
    }

    /// Makes the folder, where it is not there.
    fn make(&mut self) -> io::Result<()> {
        if let Place::Folder { path, made } = self {
            match fs::create_dir(path) {
                Ok(()) => *made = true,
                Err(error) if error.kind() == io::ErrorKind::AlreadyExists => {}
                Err(error) => return Err(error),
            }
        }
        Ok(())
    }
}

impl Drop for Place<'_> {
    /// Removes a folder that was made and got nothing; one that has something stays.
    fn drop(&mut self) {
        if let Place::Folder { path, made: true } = self {
            let _ = fs::remove_dir(path);
        }
    }
}

/// The name beside a file that says where it went: survey-1.4.las for survey.las.
fn beside(from: &Path, to: To) -> PathBuf {
    let las = from
        .extension()
        .filter(|ending| ending.eq_ignore_ascii_case("las"));
    let (front, ending) = match las {
        Some(ending) => (from.file_stem(), ending),
        None => (from.file_name(), OsStr::new("las")),
    };
    let mut name = front.unwrap_or_default().to_os_string();
    name.push("-");
    name.push(to.name());
    name.push(".");
    name.push(ending);
    from.with_file_name(name)
}

impl Work<'_> {
    /// Converts a file, and tells what came of it.
    fn convert(&mut self, from: &OsStr, out: &mut Output) -> Result<Status, Failure> {
        self.turns = self.turns.saturating_add(1);
        let path = self.place.of(Path::new(from), self.to);
        let (name, target) = (Name::new(from), Name::new(path.as_os_str()));
        let unwritten = |error: &io::Error| format!("{target}: {}", replace::words(error));
        // Whether it may be written is asked before it is read.
        let id = match input::id(from) {
            Ok(id) => id,
            Err(error) => return out.failed(&name, &input::words(&error)),
        };
        let place = Target::find(&path).and_then(|place| self.judged(place, id));
        let place = match place {
            Ok(place) => place,
            Err(error) => return out.failed(&name, &unwritten(&error)),
        };
        let input = match Input::open(from) {
            Ok(input) => input,
            Err(error) => return out.failed(&name, &input::words(&error)),
        };
        let file = match File::check(input.bytes()) {
            Ok(file) => file,
            Err(refusal) => {
                self.total.refused();
                return out.unwritten(&name, &refusal);
            }
        };
        // One call asks about all points and one converts them, and neither says anything before it ends: so only the time is
        // shown.
        let progress = Progress::new(format!("converting {name}{}", self.turn()), None);
        let saved = self.saved(&file, place);
        // Its thread has to be gone when the file takes its place.
        drop(progress);
        let written = saved.and_then(|(replacement, bytes)| {
            replacement.finish().map_err(Unwritten::Out)?;
            Ok(bytes)
        });
        match written {
            Ok(bytes) => {
                self.written.extend(input::id(path.as_os_str()));
                self.total.gone(&file, bytes);
                self.told(&name, &target, &file, bytes, out)?;
                Ok(Status::Done)
            }
            Err(Unwritten::Refused(refusal)) => self.cannot(&name, &file, &refusal, out),
            Err(Unwritten::Out(error)) => out.failed(&name, &unwritten(&error)),
        }
    }

    /// Which of several files it is.
    fn turn(&self) -> String {
        match self.files {
            1 => String::new(),
            files => format!(", {} of {files}", self.turns),
        }
    }

    /// The place, where what becomes of the file with this id may be put there.
    fn judged(&self, place: Target, from: Id) -> io::Result<Target> {
        match place.id() {
            Some(id) if self.written.contains(&id) => {
                return Err(other("another of these files was written there just now"))
            }
            Some(id) if id != from && self.inputs.contains(&id) => {
                return Err(other("it is another of the files that are to be converted"))
            }
            _ => place.judge(self.force)?,
        }
        Ok(place)
    }

    /// Converts a file to the disk, where it can go, and answers it with its bytes.
    fn saved(&mut self, file: &File<'_>, place: Target) -> Result<(Replacement, u64), Unwritten> {
        let len = self.to.ask(file).map_err(Unwritten::Refused)?;
        self.place.make().map_err(Unwritten::Out)?;
        let mut replacement = Replacement::new(place, len as u64).map_err(Unwritten::Out)?;
        let mut map = replacement.map(len).map_err(Unwritten::Out)?;
        let converted = match self.to.is_old() {
            true => file.to_old_into(&mut map),
            false => file.to_new_into(&mut map),
        };
        converted.map_err(Unwritten::Refused)?;
        drop(map);
        replacement.save().map_err(Unwritten::Out)?;
        Ok((replacement, len as u64))
    }

    /// Tells what was written.
    fn told(
        &self,
        name: &Name,
        target: &Name,
        file: &File<'_>,
        bytes: u64,
        out: &mut Output,
    ) -> Result<(), Failure> {
        let (from, points) = (file.header().point_data_record_format, file.point_count());
        let format = self.to.format(file).unwrap_or(from);
        let version = self.to.name();
        if out.json {
            let mut object = name.object();
            object.bool("accepted", true).bool("written", true);
            object.number("format", from).number("points", points);
            object
                .number("to_format", format)
                .text("to_version", version)
                .text("out", target.exact())
                .number("bytes", bytes);
            return out.line(&object.finish());
        }
        out.line(&format!(
            "{name}: written as {target}: LAS {version}, {} of format {format}, {}",
            counted(points, "point"),
            counted(bytes, "byte")
        ))
    }

    /// Tells why a file cannot go.
    fn cannot(
        &mut self,
        name: &Name,
        file: &File<'_>,
        refusal: &Refusal,
        out: &mut Output,
    ) -> Result<Status, Failure> {
        self.total.cannot(self.to, file);
        let mut object = name.object();
        object.bool("accepted", true).bool("written", false);
        object
            .number("format", file.header().point_data_record_format)
            .number("points", file.point_count());
        let why = self.to.cannot(file, refusal, &mut object);
        match out.json {
            true => out.line(&object.finish())?,
            false => out.tell(&format!(
                "{name}: cannot go to LAS {}: {why}",
                self.to.name()
            )),
        }
        Ok(Status::Refused)
    }
}

fn other(words: &str) -> io::Error {
    io::Error::new(io::ErrorKind::Other, words)
}
