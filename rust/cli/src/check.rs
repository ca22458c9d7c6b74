//! `inscjarol check`.

use super::{
    args::Words,
    input::{Files, Name},
    output::{refusal_object, Output},
    show::{counted, grouped},
    Command, Failure, Status,
};
use inscjarol::{allowance_for, Checked, File};

pub(crate) const COMMAND: Command = Command {
    name: "check",
    operands: "FILE..",
    count: (1, usize::MAX),
    summary: "say which files are whole LAS files, and what is wrong with the others",
    options: &[],
    help: "\
A file is accepted when its header, its records and the place of its points follow the rules of LAS 1.0 to 1.4: then
every other command has an answer for it. Else the first rule that it breaks is told, in numbers (the refusal's number,
its value, and the record it is about or 0) and in words. The points themselves are not looked at, so that a large file
takes no longer than a small one.

All files are looked at, also after one that is refused; the status is that of the worst. Of a folder its .las files are
looked at, in the order of their names, and it is said how many others there are.

Examples:
  inscjarol check survey.las
  inscjarol check *.las
  inscjarol check surveys/
  inscjarol check --json *.las | grep '\"accepted\":false'",
    run,
};

fn run(words: &Words, out: &mut Output) -> Result<Status, Failure> {
    let files = Files::of(&words.files);
    let (mut accepted, mut refused) = (0_u64, 0_u64);
    let worst = files.each(out, |name, bytes, out| {
        let status = judge(name, bytes, out)?;
        let count = match status {
            Status::Done => &mut accepted,
            _ => &mut refused,
        };
        *count = count.saturating_add(1);
        Ok(status)
    })?;
    let mut sentence = format!(
        "{}: {} accepted, {} refused",
        counted(files.count(), "file"),
        grouped(accepted),
        grouped(refused)
    );
    let unread = files
        .count()
        .saturating_sub(accepted)
        .saturating_sub(refused);
    if unread > 0 {
        sentence.push_str(&format!(", {} could not be read", grouped(unread)));
    }
    files.sum_up(sentence, out)?;
    Ok(worst)
}

/// Tells what the check finds of a file.
fn judge(name: &Name, bytes: &[u8], out: &mut Output) -> Result<Status, Failure> {
    match File::check(bytes) {
        Ok(file) => {
            let line = match out.json {
                true => accepted_object(name, &file),
                false => format!("{name}: accepted: {}", accepted(&file)),
            };
            out.line(&line)?;
            Ok(Status::Done)
        }
        Err(refusal) => {
            // Asked again for the records found whole before the refusal.
            let Checked { records, .. } = File::judge(bytes, allowance_for(bytes.len()));
            let line = match out.json {
                true => name
                    .object()
                    .bool("accepted", false)
                    .number("bytes", bytes.len() as u64)
                    .number("records", records)
                    .object("refusal", refusal_object(&refusal))
                    .finish(),
                false => format!("{name}: {refusal:?}"),
            };
            out.line(&line)?;
            Ok(Status::Refused)
        }
    }
}

/// What an accepted file has, in a line.
fn accepted(file: &File<'_>) -> String {
    let header = file.header();
    let packets = match file.waveform_packets() {
        Some(_) => "waveform packets, ",
        None => "",
    };
    format!(
        "LAS {}, {} of format {}, {}, {}, {packets}{}",
        header.version,
        counted(file.point_count(), "point"),
        header.point_data_record_format,
        counted(file.vlrs().len() as u64, "VLR"),
        counted(file.evlrs().len() as u64, "EVLR"),
        counted(file.bytes().len() as u64, "byte"),
    )
}

/// The same for programs.
fn accepted_object(name: &Name, file: &File<'_>) -> String {
    let header = file.header();
    name.object()
        .bool("accepted", true)
        .number("bytes", file.bytes().len() as u64)
        .number("records", file.records())
        .text("version", &header.version.to_string())
        .number("format", header.point_data_record_format)
        .number("record_length", header.point_data_record_length)
        .number("points", file.point_count())
        .number("vlrs", file.vlrs().len() as u64)
        .number("evlrs", file.evlrs().len() as u64)
        .number("waveforms", u64::from(file.waveform_packets().is_some()))
        .finish()
}
