//! `inscjarol parts`.

use super::{
    args::Words,
    input::{Files, Name},
    json::Object,
    output::Output,
    Command, Failure, Status,
};
use inscjarol::File;

pub(crate) const COMMAND: Command = Command {
    name: "parts",
    operands: "FILE..",
    count: (1, usize::MAX),
    summary: "list the parts of a file: header, VLRs, points, EVLRs, waveform packets and gaps",
    options: &[],
    help: "\
Each line is a part: its kind, its first byte and how many bytes it has, in the order of the file. The parts cover the
file, byte after byte; what belongs to no other part is a gap. A file that is refused has one line on the standard
output: 'refused' and number, value and record, and words on the standard error.

With several files each list is headed by 'file' and its name. Of a folder the .las files are listed, by name.

Example:
  $ inscjarol parts two-points.las
  kind start length
  header 0 227
  vlr 227 58
  gap 285 2
  points 287 40",
    run,
};

fn run(words: &Words, out: &mut Output) -> Result<Status, Failure> {
    let files = Files::of(&words.files);
    let worst = files.each(out, |name, bytes, out| {
        if files.several() && !out.json {
            out.line(&format!("file {name}"))?;
        }
        list(name, bytes, out)
    })?;
    if let Some(left_out) = files.left_out() {
        out.tell(&left_out);
    }
    Ok(worst)
}

/// Lists the parts of one file.
fn list(name: &Name, bytes: &[u8], out: &mut Output) -> Result<Status, Failure> {
    let file = match File::check(bytes) {
        Ok(file) => file,
        Err(refusal) => {
            if !out.json {
                out.line(&format!(
                    "refused {} {} {}",
                    refusal.number(),
                    refusal.value(),
                    refusal.record()
                ))?;
            }
            return out.refused(name, &refusal);
        }
    };
    if out.json {
        let parts = file.parts().map(|part| {
            let mut object = Object::new();
            object.text("kind", &part.kind.to_string());
            object
                .number("start", part.start)
                .number("length", part.len);
            object.finish()
        });
        let mut object = name.object();
        object.bool("accepted", true).list("parts", parts);
        out.line(&object.finish())?;
        return Ok(Status::Done);
    }
    out.line("kind start length")?;
    for part in file.parts() {
        out.line(&format!("{} {} {}", part.kind, part.start, part.len))?;
    }
    Ok(Status::Done)
}
