//! `inscjarol classify`.

use super::{
    args::{self, Opt, Words},
    held,
    input::{self, Input, Name},
    output::{refusal_object, Output},
    show::counted,
    Command, Failure, Status,
};
use inscjarol::{Change, Error, File, Kind, Reclassify, Refusal};
use std::{collections::BTreeSet, ffi::OsStr, path::Path};

pub(crate) const COMMAND: Command = Command {
    name: "classify",
    operands: "FILE --point N --class C ..",
    count: (1, 1),
    summary: "correct the class of single points in place, a byte for each, and tell the class that it had",
    options: &[
        Opt {
            name: "point",
            value: Some("N"),
            help: "which point, counted from 1; its --class follows, and then further points may",
        },
        Opt {
            name: "class",
            value: Some("C"),
            help: "the class that it is to have: 0 to 31 in point formats 0 to 5, 0 to 255 in 6 to 10",
        },
        Opt {
            name: "ask",
            value: None,
            help: "say of each point its class, and whether it can have the other, and write nothing",
        },
    ],
    help: "\
Of each point one byte of FILE is written, in place, in a file of any size and of any version of LAS. All else stays,
the point's other flags too: in formats 0 to 5 synthetic, key point and withheld share that byte with the class.

Points are counted from 1, as 'inscjarol ask' counts them. Classes of the standard are 1 unclassified, 2 ground, 3, 4
and 5 low, medium and high vegetation, 6 building, 7 low noise, 9 water. In formats 0 to 5 class 12 is what says that a
point is overlap: given, it says so, and replaced, it no longer does. Formats 6 to 10 have a flag for that, which stays.

All points are judged before anything is written: where one is refused, none is changed, and all that are refused are
told. Else the new class of each is told, and the one that it had, when all are on the disk. To undo it, give each point
the class that it had. Each --point is followed by its --class; the same point twice is wrong use.

Whatever cuts this short, a brownout or kill -9, FILE is whole, and each point has one of its two classes. The same
command can then be given again; of a point that has its new class already it tells that one as the class that it had.

FILE is locked against another 'classify' or 'append'. Whether some other program has changed it since it was judged is
looked at right before it is written; that none does so in that very moment is yours to see to.

The status is 0 if all points have their class, 1 if a point or FILE is refused, 2 for wrong use and if FILE cannot be
read or written.

Examples, of which the first writes nothing, and the third undoes the second:
  inscjarol classify survey.las --point 25 --class 2 --ask     says: point 25: yes: from class 1 to 2
  inscjarol classify survey.las --point 25 --class 2           says: point 25: class 2, was 1
  inscjarol classify survey.las --point 25 --class 1           says: point 25: class 1, was 2
  inscjarol classify survey.las --point 25 --class 2 --point 1041 --class 7
  inscjarol points survey.las --skip 24 --limit 1              shows point 25",
    run,
};

fn run(words: &Words, out: &mut Output) -> Result<Status, Failure> {
    let points = points(words)?;
    let file = match words.files.first() {
        Some(file) if file != "-" => file,
        _ => {
            return Err(wrong(
                "FILE has to be a file: the standard input cannot be changed in place",
            ))
        }
    };
    let name = Name::new(file);
    match words.has("ask") {
        true => ask(&name, file, &points, out),
        false => classify(&name, Path::new(file), &points, out),
    }
}

/// What is wrong, and where to read how it goes.
fn wrong(words: &str) -> Failure {
    Failure::Usage(format!(
        "classify: {words}; 'inscjarol help classify' tells how it goes"
    ))
}

/// The points and their classes, by the command's words.
fn points(words: &Words) -> Result<Vec<Reclassify>, Failure> {
    let mut given = words.given(&["point", "class"]);
    let mut points = Vec::new();
    let mut numbers = BTreeSet::new();
    while let Some(first) = given.next() {
        let (point, class) = match (first, given.next()) {
            (("point", point), Some(("class", class))) => (args::number("point", point)?, class),
            _ => return Err(wrong("each --point needs its --class right after it")),
        };
        if !numbers.insert(point) {
            return Err(wrong(&format!("point {point} is there twice")));
        }
        let class = class.to_string_lossy();
        let class = class.parse().map_err(|_| {
            wrong(&format!(
                "--class needs a number from 0 to 255, and '{class}' is none"
            ))
        })?;
        points.push(Reclassify { point, class });
    }
    match points.is_empty() {
        true => Err(wrong("it needs --point N --class C")),
        false => Ok(points),
    }
}

/// Whether a point can have its class.
struct Judged {
    asked: Reclassify,
    /// The byte that would change, or the refusal, also in words.
    answer: Result<Change, (Refusal, String)>,
}

/// Judges all points.
fn judge(name: &Name, file: &File<'_>, points: &[Reclassify]) -> Vec<Judged> {
    let judge = |asked: &Reclassify| Judged {
        asked: *asked,
        answer: asked
            .ask(file.bytes())
            .map_err(|refusal| (refusal, why(name, file, asked, &refusal))),
    };
    points.iter().map(judge).collect()
}

/// Why a point cannot have its class, in words.
fn why(name: &Name, file: &File<'_>, asked: &Reclassify, refusal: &Refusal) -> String {
    match refusal.kind() {
        Kind::Index => format!(
            "there is none with this number: the file has {}, counted from 1",
            counted(refusal.value(), "point")
        ),
        Kind::Class => {
            let format = file.header().point_data_record_format;
            let way = match file.ask_new() {
                Ok(_) => format!(
                    "'inscjarol convert --to 1.4 {name}' makes a file of it whose points hold 0 to 255"
                ),
                Err(_) => String::from("formats 6 to 10 hold 0 to 255"),
            };
            format!(
                "class {} has no place: points of format {format} hold classes 0 to 31; {way}",
                asked.class
            )
        }
        _ => refusal.to_string(),
    }
}

/// Says of each point whether it can have its class.
fn ask(
    name: &Name,
    file: &OsStr,
    points: &[Reclassify],
    out: &mut Output,
) -> Result<Status, Failure> {
    let input = match Input::open(file) {
        Ok(input) => input,
        Err(error) => return out.failed(name, &input::words(&error)),
    };
    let judged = match File::check(input.bytes()) {
        Ok(file) => judge(name, &file, points),
        Err(refusal) => return out.unwritten(name, &refusal),
    };
    for Judged { asked, answer } in &judged {
        let point = asked.point;
        let line = match answer {
            _ if out.json => object(name, false, asked, answer),
            Ok(change) => format!(
                "{name}: point {point}: yes: from class {} to {}",
                change.was, asked.class
            ),
            Err((_, why)) => format!("{name}: point {point}: no: {why}"),
        };
        out.line(&line)?;
    }
    Ok(status(&judged))
}

/// Whether all points can have their class.
fn status(judged: &[Judged]) -> Status {
    match judged.iter().all(|judged| judged.answer.is_ok()) {
        true => Status::Done,
        false => Status::Refused,
    }
}

/// Gives the points their classes, and tells what each had.
fn classify(
    name: &Name,
    path: &Path,
    points: &[Reclassify],
    out: &mut Output,
) -> Result<Status, Failure> {
    let mut writer = match held::open(path) {
        Ok(writer) => writer,
        Err(error) => return out.failed(name, &held::words(&error)),
    };
    let judged = match writer.look(|file| judge(name, file, points)) {
        Ok(judged) => judged,
        Err(error) => return failed(name, &error, &[], out),
    };
    let status = status(&judged);
    let written = status == Status::Done;
    if written {
        if let Err(error) = writer.reclassify(points) {
            return failed(name, &error, &judged, out);
        }
    }
    for Judged { asked, answer } in &judged {
        let (point, class) = (asked.point, asked.class);
        match answer {
            _ if out.json => out.line(&object(name, written, asked, answer))?,
            Err((_, why)) => out.tell(&format!("{name}: point {point}: {why}")),
            Ok(change) if written => out.line(&format!(
                "{name}: point {point}: class {class}, was {}",
                change.was
            ))?,
            Ok(change) => out.line(&format!(
                "{name}: point {point}: class {}, not changed",
                change.was
            ))?,
        }
    }
    Ok(status)
}

/// Says why a file was not changed, or not all of it; then the classes that the points had too, which nobody may know later.
fn failed(
    name: &Name,
    error: &Error,
    judged: &[Judged],
    out: &mut Output,
) -> Result<Status, Failure> {
    match error {
        Error::Refused(refusal) => out.unwritten(name, refusal),
        Error::Io(error) => {
            let had = judged.iter().filter_map(|Judged { asked, answer }| {
                let change = answer.as_ref().ok()?;
                Some(format!("point {} had class {}", asked.point, change.was))
            });
            let had: Vec<String> = had.collect();
            out.failed(
                name,
                &format!(
                    "{error}; the same command can be repeated; before it, {}",
                    had.join(", ")
                ),
            )
        }
        error => out.failed(name, &error.to_string()),
    }
}

/// A point for programs.
fn object(
    name: &Name,
    written: bool,
    asked: &Reclassify,
    answer: &Result<Change, (Refusal, String)>,
) -> String {
    let mut object = name.object();
    object.bool("accepted", true).bool("written", written);
    object.number("point", asked.point);
    if let Ok(change) = answer {
        object.number("was", change.was);
    }
    object.number("class", asked.class);
    if let Err((refusal, _)) = answer {
        object.object("refusal", refusal_object(refusal));
    }
    object.finish()
}
