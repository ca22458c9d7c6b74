//! `inscjarol audit`.

use super::{
    args::{Opt, Words},
    input::{self, Files, Name},
    json::Object,
    output::{refusal_object, Output},
    progress::Progress,
    show::{counted, grouped},
    Command, Failure, Status,
};
use inscjarol::{File, Finding, Findings, Refusal, Rule};

pub(crate) const COMMAND: Command = Command {
    name: "audit",
    operands: "FILE..",
    count: (1, usize::MAX),
    summary: "say what is wrong with files of other programs that are whole LAS files all the same",
    options: &[Opt {
        name: "max",
        value: Some("N"),
        help: "show the first N findings of each file; how many there are is told all the same",
    }],
    help: "\
What 'inscjarol check' accepts can be read, and may break the standard in other ways. Each place that does so is told
once, in the order of the file: its byte, its part as 'inscjarol parts' counts them from 1, gaps too, and its point,
counted from 1; what is wrong there, with the numbers that were found; and what the standard wants. The rules:

  1  In point formats 6 to 10 the six legacy counters of the header, of points and of returns 1 to 5, are 0.
  2  In LAS 1.4 the legacy count of points is 0 or the same as the large one.
  3  Each count by return is the number of points of that return: in LAS 1.4 the 15 large counters, in LAS 1.0 to 1.3
     the five that there are.
  4  Of each point the return number is from 1 to its number of returns.
  5  In a text field nothing but zeros stands after the first zero: system identifier and generating software of the
     header; user id and description of each VLR and EVLR and of the waveform packets.

How many findings a file has follows them, and at the end how many there are of each rule, in all files together. A
scanner that writes no return numbers makes each point a finding: --max keeps that short, and --max 0 tells the numbers
alone. What is asked for by a rule of 'inscjarol check', as that the points are all there, is no finding: a file that
breaks one is refused, and told as that command tells it.

All files are looked at, and all points, so that a large file takes longer than a small one. The status is 0 where
nothing was found, 1 where something was or a file was refused. Of a folder its .las files are looked at, in the order
of their names, and it is said how many others there are. Nothing is written to any file.

Examples, of which the last shows the point that was told as 1041:
  inscjarol audit delivery.las
  inscjarol audit --max 10 deliveries/
  inscjarol audit --json deliveries/ | grep '\"finding\":{\"rule\":4'
  inscjarol points --skip 1040 --limit 1 --fields all delivery.las",
    run,
};

/// How many findings of a rule there are, and in how many files.
#[derive(Clone, Copy, Default)]
struct Total {
    findings: u64,
    files: u64,
}

/// What all files come to.
#[derive(Default)]
struct Totals {
    /// By rule, in the order of the rules.
    rules: [Total; Rule::ALL.len()],
    /// Files without findings, with some, and such as are refused.
    clean: u64,
    wrong: u64,
    refused: u64,
}

fn run(words: &Words, out: &mut Output) -> Result<Status, Failure> {
    let most = words.number("max")?.unwrap_or(u64::MAX);
    let files = Files::of(&words.files);
    let mut totals = Totals::default();
    let worst = files.each(out, |name, bytes, out| {
        let status = match File::check(bytes) {
            Ok(file) => audit(name, &file, most, &mut totals, out)?,
            Err(refusal) => {
                totals.refused = totals.refused.saturating_add(1);
                refused(name, &refusal, out)?
            }
        };
        // Whoever watches sees each file's findings when they are there.
        out.flush()?;
        Ok(status)
    })?;
    if !out.json {
        totals.by_rule(out)?;
    }
    files.sum_up(totals.sentence(files.count()), out)?;
    Ok(worst)
}

/// Tells the findings of a file.
fn audit(
    name: &Name,
    file: &File<'_>,
    most: u64,
    totals: &mut Totals,
    out: &mut Output,
) -> Result<Status, Failure> {
    // Calls that look at all points, and say nothing before they end: so only the time is shown.
    let progress = Progress::new(format!("auditing {name}"), None);
    let room = input::free().map_or(u64::MAX, |bytes| bytes / Findings::BYTES);
    let findings = file.findings_within(room);
    drop(progress);
    let findings = match findings {
        Ok(findings) => findings,
        Err(count) => {
            let words = format!(
                "it has {}, and there is no memory to list them",
                counted(count, "finding")
            );
            return out.failed(name, &words);
        }
    };
    let count = findings.len() as u64;
    let mut by_rule = [0_u64; Rule::ALL.len()];
    for (shown, finding) in (0..).zip(findings) {
        for (rule, total) in Rule::ALL.iter().zip(&mut by_rule) {
            if *rule == finding.rule {
                *total = total.saturating_add(1);
            }
        }
        if shown < most {
            out.line(&match out.json {
                true => object(name, &finding),
                false => format!("{name}: {finding}"),
            })?;
        }
    }
    totals.add(by_rule);
    out.line(&match out.json {
        true => total_object(name, count, by_rule),
        false => format!("{name}: {}", told(count, most)),
    })?;
    Ok(match count {
        0 => Status::Done,
        _ => Status::Refused,
    })
}

/// How many findings there are, and how many of them are shown if not all are.
fn told(count: u64, most: u64) -> String {
    match count {
        0 => String::from("nothing found"),
        count if count <= most => counted(count, "finding"),
        count => {
            let are = if most == 1 { "is" } else { "are" };
            format!(
                "{}, of which {} {are} shown",
                counted(count, "finding"),
                grouped(most)
            )
        }
    }
}

/// A finding for programs.
fn object(name: &Name, finding: &Finding) -> String {
    let mut about = Object::new();
    about
        .number("rule", finding.rule.number())
        .text("name", finding.rule.name())
        .number("part", finding.part)
        .text("kind", &finding.kind.to_string())
        .number("point", finding.point)
        .number("byte", finding.byte)
        .text("words", &finding.to_string());
    let mut object = name.object();
    object.bool("accepted", true).object("finding", about);
    object.finish()
}

/// What a file comes to, for programs.
fn total_object(name: &Name, count: u64, by_rule: [u64; Rule::ALL.len()]) -> String {
    let rules = Rule::ALL.iter().zip(by_rule).map(|(rule, count)| {
        let mut object = Object::new();
        object
            .number("rule", rule.number())
            .text("name", rule.name())
            .number("findings", count);
        object.finish()
    });
    let mut object = name.object();
    object.bool("accepted", true).number("findings", count);
    object.list("rules", rules).finish()
}

/// Tells that a file is no whole LAS file.
fn refused(name: &Name, refusal: &Refusal, out: &mut Output) -> Result<Status, Failure> {
    let line = match out.json {
        true => name
            .object()
            .bool("accepted", false)
            .object("refusal", refusal_object(refusal))
            .finish(),
        false => format!("{name}: {refusal:?}"),
    };
    out.line(&line)?;
    Ok(Status::Refused)
}

impl Totals {
    /// Adds a file that has so many findings of each rule.
    fn add(&mut self, by_rule: [u64; Rule::ALL.len()]) {
        let files = match by_rule.iter().all(|&findings| findings == 0) {
            true => &mut self.clean,
            false => &mut self.wrong,
        };
        *files = files.saturating_add(1);
        for (total, findings) in self.rules.iter_mut().zip(by_rule) {
            total.findings = total.findings.saturating_add(findings);
            total.files = total.files.saturating_add(u64::from(findings > 0));
        }
    }

    /// A line for each rule that is broken somewhere.
    fn by_rule(&self, out: &mut Output) -> Result<(), Failure> {
        for (rule, total) in Rule::ALL.iter().zip(self.rules) {
            if total.findings > 0 {
                out.line(&format!(
                    "rule {}, {} in {}: {rule}",
                    rule.number(),
                    counted(total.findings, "finding"),
                    counted(total.files, "file")
                ))?;
            }
        }
        Ok(())
    }

    /// What so many files come to.
    fn sentence(&self, files: u64) -> String {
        let mut sentence = format!(
            "{}: {} with nothing found, {} with findings",
            counted(files, "file"),
            grouped(self.clean),
            grouped(self.wrong)
        );
        if self.refused > 0 {
            sentence.push_str(&format!(", {} refused", grouped(self.refused)));
        }
        let looked_at = [self.clean, self.wrong, self.refused];
        let unread = looked_at.into_iter().fold(files, u64::saturating_sub);
        if unread > 0 {
            sentence.push_str(&format!(", {} could not be read", grouped(unread)));
        }
        sentence
    }
}
