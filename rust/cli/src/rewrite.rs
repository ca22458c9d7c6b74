//! `inscjarol rewrite`.

use super::{
    args::{Opt, Words},
    input::{self, Input, Name},
    output::Output,
    progress::Progress,
    replace::{self, Replacement, Target},
    show::counted,
    Command, Failure, Status,
};
use inscjarol::{File, Refusal};
use std::{io, path::Path};

pub(crate) const COMMAND: Command = Command {
    name: "rewrite",
    operands: "IN OUT",
    count: (2, 2),
    summary: "write a file anew from what is read of it, and only if all went well",
    options: &[Opt {
        name: "force",
        value: None,
        help: "replace an OUT that is there",
    }],
    help: "\
Header, VLRs, points, EVLRs and waveform packets of OUT are each written from what was read of IN, and gaps are copied.
The bytes are the same, except that an EVLR start and count of which one is zero become two zeros; that is said where it
happens.

An OUT that is there is refused, unless it is IN itself or --force is given; one that is read-only is refused always.
What is replaced keeps its owner and its mode where the system lets us, and an OUT that is a link stays one: the file
that it leads to is written.

OUT gets its name when all of it is on the disk: there is never a half-written OUT. A refused IN, a full disk or an
interrupt leave the OUT that was there, or none, and nothing else. So IN and OUT may be the same file.

Examples:
  inscjarol rewrite survey.las clean/survey.las
  inscjarol rewrite survey.las survey.las",
    run,
};

/// Where the header of LAS 1.4 has the EVLRs' start and count.
const EVLR_PAIR: std::ops::Range<usize> = 235..247;

/// Why a file was not rewritten.
enum Unwritten {
    Refused(Refusal),
    Out(io::Error),
}

fn run(words: &Words, out: &mut Output) -> Result<Status, Failure> {
    let (from, to) = match words.files.as_slice() {
        [from, to] => (from, to),
        _ => return Err(Failure::Usage(String::from("rewrite: it needs IN OUT"))),
    };
    if to == "-" {
        return Err(Failure::Usage(String::from(
            "rewrite: OUT has to be a file: what is written to the standard output cannot be taken back",
        )));
    }
    let (name, target) = (Name::new(from), Name::new(to));
    // Whether OUT may be written is asked before IN is read.
    let id = match input::id(from) {
        Ok(id) => id,
        Err(error) => return out.failed(&name, &input::words(&error)),
    };
    let place = Target::find(Path::new(to)).and_then(|place| {
        place.judge(words.has("force") || place.id() == Some(id))?;
        Ok(place)
    });
    let place = match place {
        Ok(place) => place,
        Err(error) => return out.failed(&target, &replace::words(&error)),
    };
    let input = match Input::open(from) {
        Ok(input) => input,
        Err(error) => return out.failed(&name, &input::words(&error)),
    };
    let file = match File::check(input.bytes()) {
        Ok(file) => file,
        Err(refusal) => return out.refused(&name, &refusal),
    };
    // One call writes the whole file, and it says nothing before it ends: so only the time is shown. Record by record the tool
    // could count, but then the bytes would be its own putting together, and no longer those of the call that is proved.
    let progress = Progress::new(format!("rewriting {name}"), None);
    let saved = saved(&file, place);
    // Its thread has to be gone when the file takes its place.
    drop(progress);
    let written = saved.and_then(|(replacement, same)| {
        replacement.finish().map_err(Unwritten::Out)?;
        Ok(same)
    });
    match written {
        Ok(same) => {
            told(&name, &target, input.bytes().len(), same, out)?;
            Ok(Status::Done)
        }
        Err(Unwritten::Refused(refusal)) => out.refused(&name, &refusal),
        Err(Unwritten::Out(error)) => out.failed(&target, &replace::words(&error)),
    }
}

/// Writes a file anew to the disk, and answers it with whether the EVLR pair has the bytes that it had.
fn saved(file: &File<'_>, place: Target) -> Result<(Replacement, bool), Unwritten> {
    let len = file.bytes().len();
    let mut replacement = Replacement::new(place, len as u64).map_err(Unwritten::Out)?;
    let mut map = replacement.map(len).map_err(Unwritten::Out)?;
    file.rewrite(&mut map).map_err(Unwritten::Refused)?;
    let same = map.get(EVLR_PAIR) == file.bytes().get(EVLR_PAIR);
    drop(map);
    replacement.save().map_err(Unwritten::Out)?;
    Ok((replacement, same))
}

/// Tells what was written.
fn told(
    name: &Name,
    target: &Name,
    len: usize,
    same: bool,
    out: &mut Output,
) -> Result<(), Failure> {
    if out.json {
        let mut object = name.object();
        object
            .bool("accepted", true)
            .text("out", target.exact())
            .number("bytes", len as u64)
            .bool("same_bytes", same);
        return out.line(&object.finish());
    }
    let bytes = counted(len as u64, "byte");
    match same {
        true => out.line(&format!("{target}: written, {bytes}, the same as {name}")),
        false => out.line(&format!(
            "{target}: written, {bytes}, the same as {name} but that the EVLRs' start and count (header bytes 235 to 246), of \
             which one was zero, are two zeros now"
        )),
    }
}
