//! `inscjarol ask`.

use super::{
    args::{Opt, Words},
    input::{Files, Name},
    output::{refusal_object, Output},
    progress::Progress,
    show::counted,
    to::{To, Total},
    Command, Failure, Status,
};
use inscjarol::{File, Refusal};

pub(crate) const COMMAND: Command = Command {
    name: "ask",
    operands: "FILE..",
    count: (1, usize::MAX),
    summary: "say which files can go to the old point formats, or to another version, and why others cannot",
    options: &[Opt {
        name: "to",
        value: Some("WHICH"),
        help: "old: points of formats 6 to 10 to the old ones, as without this; new: back; 1.2, 1.4: whole files",
    }],
    help: "\
Older software reads the old point formats, 0 to 5. Points of format 6 can go to 1, of 7 and 8 to 3, of 9 to 4, of 10 to
5, if an old reader finds the same value in every field of every point, the scan angle to the nearest whole degree. Of
each file it is said whether they can: yes, with both formats, how many points there are, and how many bytes these will
have, header and VLRs not counted; or no, with the first point that cannot, its first field that does not fit, and where
the point lies. Nothing is written.

With --to new the way back is asked about, from 1, 3, 4 and 5 to 6, 7, 9 and 10. There no point can be in the way.

With --to 1.2 and --to 1.4 it is asked about whole files, as 'inscjarol convert --ask' does: whether that command can
turn them into the other version, and how many bytes they will have. 'inscjarol help convert' says which can.

All files are looked at, also after one that cannot go, and all points, so that a large file takes longer than a small
one. The status is 0 if all files can go, and 1 if one cannot or is no whole LAS file. Of a folder its .las files are
looked at, in the order of their names, and it is said how many others there are.

Examples, of which the last shows the point that was told as 1041:
  inscjarol ask survey.las
  inscjarol ask surveys/
  inscjarol ask --to 1.2 surveys/
  inscjarol ask --json surveys/ | grep '\"can_go\":true'
  inscjarol points --skip 1040 --limit 1 --fields all survey.las",
    run,
};

fn run(words: &Words, out: &mut Output) -> Result<Status, Failure> {
    let among = [To::Old, To::New, To::Las12, To::Las14];
    let to = To::of(words, COMMAND.name, &among)?.unwrap_or(To::Old);
    ask_all(to, &Files::of(&words.files), out)
}

/// Asks of each file whether it can go, and tells it.
pub(crate) fn ask_all(to: To, files: &Files, out: &mut Output) -> Result<Status, Failure> {
    let mut total = Total::default();
    let worst = files.each(out, |name, bytes, out| {
        let status = match File::check(bytes) {
            Ok(file) => ask(to, name, &file, &mut total, out)?,
            Err(refusal) => {
                total.refused();
                refused(name, &refusal, out)?
            }
        };
        // Whoever watches sees each answer when it is there.
        out.flush()?;
        Ok(status)
    })?;
    let words = ["can go", "cannot", "could not be read"];
    files.sum_up(total.sentence(to, files.count(), words), out)?;
    Ok(worst)
}

/// Asks whether a file can go, and tells it.
fn ask(
    to: To,
    name: &Name,
    file: &File<'_>,
    total: &mut Total,
    out: &mut Output,
) -> Result<Status, Failure> {
    // One call looks at all points, and says nothing before it ends: so only the time is shown.
    let progress = Progress::new(format!("asking {name}"), None);
    let answer = to.ask(file);
    drop(progress);
    let (from, points) = (file.header().point_data_record_format, file.point_count());
    let mut object = name.object();
    object.bool("accepted", true).bool("can_go", answer.is_ok());
    object.number("format", from).number("points", points);
    let (line, status) = match answer {
        Ok(bytes) => {
            let bytes = bytes as u64;
            total.gone(file, bytes);
            // What can go has a pair.
            let format = to.format(file).unwrap_or(from);
            object.number("to_format", format);
            let versions = match to.version() {
                None => {
                    object.number("to_bytes", bytes);
                    String::new()
                }
                Some(version) => {
                    object
                        .text("to_version", &version.to_string())
                        .number("to_file_bytes", bytes);
                    format!("LAS {} to {version}, ", file.header().version)
                }
            };
            let line = format!(
                "yes: from {versions}format {from} to {format}, {}, {}",
                counted(points, "point"),
                counted(bytes, "byte")
            );
            (line, Status::Done)
        }
        Err(refusal) => {
            total.cannot(to, file);
            let why = to.cannot(file, &refusal, &mut object);
            (format!("no: {why}"), Status::Refused)
        }
    };
    out.line(&match out.json {
        true => object.finish(),
        false => format!("{name}: {line}"),
    })?;
    Ok(status)
}

/// Tells that a file is no whole LAS file.
fn refused(name: &Name, refusal: &Refusal, out: &mut Output) -> Result<Status, Failure> {
    let line = match out.json {
        true => name
            .object()
            .bool("accepted", false)
            .bool("can_go", false)
            .object("refusal", refusal_object(refusal))
            .finish(),
        false => format!("{name}: {refusal:?}"),
    };
    out.line(&line)?;
    Ok(Status::Refused)
}
